/* Reads a stream of MOS messages with libexpat, and keeps the text of every element and attribute of a message until the
   message ends. libexpat reads one document, so the stream is fed inside an element of its own. */
#include <expat.h>
#include <stdio.h>
#include <stdlib.h>
#include <string.h>

enum { PIECE = 65536 };

static char *kept;
static size_t length, room, depth, messages;

static void keep(const char *text, size_t count) {
    if (length + count > room) {
        room = 2 * (length + count);
        kept = realloc(kept, room);
        if (!kept) exit(5);
    }
    memcpy(kept + length, text, count);
    length += count;
}

static void opens(void *data, const XML_Char *name, const XML_Char **attributes) {
    (void)data;
    keep(name, strlen(name) + 1);
    for (; attributes[0]; attributes += 2) {
        keep(attributes[0], strlen(attributes[0]) + 1);
        keep(attributes[1], strlen(attributes[1]) + 1);
    }
    depth++;
}

static void text(void *data, const XML_Char *characters, int count) {
    (void)data;
    keep(characters, (size_t)count);
}

static void closes(void *data, const XML_Char *name) {
    (void)data;
    (void)name;
    keep("", 1);
    if (--depth == 1) {
        messages++;
        length = 0;
    }
}

static void feed(XML_Parser parser, const char *bytes, size_t count, int last) {
    if (XML_Parse(parser, bytes, (int)count, last) != XML_STATUS_OK) {
        fprintf(stderr, "%s\n", XML_ErrorString(XML_GetErrorCode(parser)));
        exit(1);
    }
}

int main(void) {
    static char piece[PIECE];
    size_t count, total = 0;
    XML_Parser parser = XML_ParserCreate("UTF-16BE");
    if (!parser) return 5;
    XML_SetElementHandler(parser, opens, closes);
    XML_SetCharacterDataHandler(parser, text);
    feed(parser, "\0<\0s\0>", 6, 0);
    while ((count = fread(piece, 1, PIECE, stdin)) > 0) {
        total += count;
        feed(parser, piece, count, 0);
    }
    feed(parser, "\0<\0/\0s\0>", 8, 1);
    printf("%zu messages, %zu units\n", messages, total / 2);
    return 0;
}
