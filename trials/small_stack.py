"""Writes the inputs of small_stack into a folder: each as bytes of UTF-16BE and as a line of ASCII."""
import os
import sys

LIMIT = 8_388_608
DIGITS = "0123456789abcdefghijklmnopqrstuvwxyz"


def key(number):
    """A short text for a number, another one for each."""
    text = ""
    while True:
        text = DIGITS[number % 36] + text
        number //= 36
        if number == 0:
            return text


def message(element):
    return f"<mos><mosID>d</mosID><ncsID>n</ncsID>{element}</mos>"


def order(inside):
    return message(f"<roCreate><roID>R</roID><roSlug/>{inside}</roCreate>")


def story(number):
    return f"<story><storyID>{key(number)}</storyID></story>"


def item(number):
    return f"<item><itemID>{key(number)}</itemID><objID/><mosID/></item>"


def many(count, one):
    return "".join(map(one, range(count)))


def action(operation, inside):
    return message(f'<roElementAction operation="{operation}"><roID>R</roID>{inside}</roElementAction>')


def ids(count):
    return "<element_source>" + many(count, lambda n: f"<storyID>{key(n)}</storyID>") + "</element_source>"


def inputs():
    """The name of each input, with how many parts it has, and its text."""
    profile = '<mosProfile number="0">NO</mosProfile>'
    stories = order(many(5_000, story))
    yield "spaces", LIMIT, " " * LIMIT
    yield "stories", 200_000, order(many(200_000, story))
    yield "items", 140_000, order(f"<story><storyID>S</storyID>{many(140_000, item)}</story>")
    yield "orders", 300_000, message("<roListAll>" + "<ro><roID>R</roID></ro>" * 300_000 + "</roListAll>")
    yield "profiles", 190_000, message('<listMachInfo><supportedProfiles deviceType="MOS">' + profile * 190_000 + "</supportedProfiles></listMachInfo>")
    yield "objects", 200_000, message("<mosListAll>" + "<mosObj><objID>O</objID></mosObj>" * 200_000 + "</mosListAll>")
    yield "groups", 200_000, message("<roAck><roID/><roStatus/>" + "<storyID/><itemID/><objID/><status/>" * 200_000 + "</roAck>")
    yield "kept", 2_000_000, order("<a/>" * 2_000_000)
    yield "dropped", 2_000_000, message("<roDelete><roID>R</roID>" + "<a/>" * 2_000_000 + "</roDelete>")
    yield "metadata", 300_000, order("<mosExternalMetadata/>" * 300_000)
    yield "fields_in_turn", 140_000, order(many(140_000, lambda n: story(n) + "<a/>"))
    yield "attributes", 600_000, message("<roCreate" + ' a=""' * 600_000 + "><roID>R</roID><roSlug/></roCreate>")
    yield "attributes_of_a_field", 600_000, message("<roCreate><roID" + ' a=""' * 600_000 + ">R</roID><roSlug/></roCreate>")
    yield "raw_text", 8_000_000, order("<mosExternalMetadata>" + "x" * 8_000_000 + "</mosExternalMetadata>")
    yield "raw_tags", 2_000_000, order("<mosExternalMetadata>" + "<a/>" * 2_000_000 + "</mosExternalMetadata>")
    yield "raw_message", 8_000_000, message("<b>" + "x" * 8_000_000 + "</b>")
    yield "field", 8_000_000, order("<roChannel>" + "x" * 8_000_000 + "</roChannel>")
    yield "field_of_spaces", 8_000_000, message("<roReq><roID>" + " " * 8_000_000 + "</roID></roReq>")
    yield "number_of_zeros", 8_000_000, message("<mosReqAll><pause>" + "0" * 8_000_000 + "</pause></mosReqAll>")
    yield "references", 1_300_000, order("<roChannel>" + "&#x26;" * 1_300_000 + "</roChannel>")
    yield "spaces_between", 8_000_000, order(" " * 8_000_000)
    yield "declaration", 7_000_000, "<?xml " + "x" * 7_000_000 + "?>" + order("")
    yield "name", 8_000_000, order("<" + "x" * 8_000_000 + "/>")
    yield "open_tags", 2_000_000, order("<a>" * 2_000_000)
    yield "nested_stories", 180_000, order("<story><storyID>S</storyID>" * 180_000)
    yield "new_stories", 200_000, action("INSERT", "<element_target><storyID/></element_target><element_source>" + many(200_000, story) + "</element_source>")
    yield "storyIDs", 300_000, action("DELETE", ids(300_000))
    yield "moved_stories", 2_000, stories + action("MOVE", "<element_target><storyID/></element_target>" + ids(2_000))
    yield "deleted_stories", 2_000, stories + action("DELETE", ids(2_000))
    yield "messages", 40_000, message("<roReqAll/>") * 40_000


def main():
    folder = sys.argv[1]
    for name, count, text in inputs():
        path = os.path.join(folder, f"{name}_{count}")
        with open(f"{path}.mos", "wb") as out:
            out.write(text.encode("utf-16-be"))
        with open(f"{path}.line", "w", encoding="ascii", newline="\n") as out:
            out.write(text + "\n")


main()
