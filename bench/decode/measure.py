"""Makes two streams of MOS messages, and times mos_replay check and a reader over libexpat on them."""
import os
import subprocess
import sys

TIMED = os.path.join(os.path.dirname(os.path.dirname(os.path.abspath(__file__))), "timed.py")
FRONT = "<mos><mosID>dev1</mosID><ncsID>ncs1</ncsID><messageID>{}</messageID>"


def metadata(number, size):
    """An mosExternalMetadata of about so many characters."""
    payload = f"<track n='{number}'>levels &amp; notes, take {number % 7}</track>\n"
    return "<mosExternalMetadata><mosSchema>x</mosSchema><mosPayload>" + payload * (size // len(payload)) + "</mosPayload></mosExternalMetadata>"


def story(number, items, size):
    """A story with so many items."""
    parts = [f"<story><storyID>S{number}</storyID><storySlug>Story {number}</storySlug>"]
    for item in range(items):
        parts.append(
            f"<item><itemID>{item}</itemID><itemSlug>Clip {item}</itemSlug><objID>O{number}-{item}</objID><mosID>dev1</mosID>"
            f"<itemEdDur>{500 + item}</itemEdDur>{metadata(number, size)}</item>"
        )
    return "".join(parts) + "</story>"


def order(size):
    """A roCreate of 200 stories of 4 items, each with so much metadata."""
    stories = "".join(story(number, 4, size) for number in range(200))
    return FRONT.format(1) + f"<roCreate><roID>R1</roID><roSlug>News</roSlug>{stories}</roCreate></mos>"


def action(number):
    """An action that inserts a small story."""
    return (
        FRONT.format(number)
        + "<roElementAction operation=\"INSERT\"><roID>R1</roID><element_target><storyID>S1</storyID></element_target>"
        + f"<element_source>{story(1000 + number, 1, 200)}</element_source></roElementAction></mos>"
    )


def make(path, size, share):
    """Writes messages to the file, this many bytes at least, of which this share are orders with metadata."""
    written = number = orders = 0
    with open(path, "wb") as out:
        while written < size:
            number += 1
            if orders <= share * written:
                message = order(2000).encode("utf-16-be")
                orders += len(message)
            else:
                message = action(number).encode("utf-16-be")
            out.write(message)
            written += len(message)
    return written, number


def timed(command, path, sink):
    """Runs the command on the file; its seconds, the most memory that it took in MiB, and what it printed."""
    words = [sys.executable, "-I", "-S", TIMED, path, sink, *command]
    seconds, most = subprocess.run(words, check=True, stdout=subprocess.PIPE, text=True).stdout.split()
    with open(sink, "rb") as printed:
        return float(seconds), int(most) / 1024, printed.read()


def main():
    work, megabytes = sys.argv[1], int(sys.argv[2])
    commands = {"mos_replay check": [f"{work}/mos_replay", "check"], "libexpat": [f"{work}/expat"]}
    for name, share in (("an order and actions", 0.0), ("orders with metadata", 1.0)):
        path = f"{work}/stream"
        size, count = make(path, megabytes * 1_000_000, share)
        best, memory, printed = {}, {}, {}
        for _ in range(7):
            for reader, command in commands.items():
                seconds, most, text = timed(command, path, f"{work}/printed")
                best[reader] = min(seconds, best.get(reader, seconds))
                memory[reader] = max(most, memory.get(reader, most))
                printed[reader] = text
        assert len(set(printed.values())) == 1, printed
        print(f"{name}: {count} messages, {size / 1e6:.0f} MB")
        for reader in commands:
            print(f"  {reader:18} {size / 1e6 / best[reader]:8.1f} MB/s {memory[reader]:8.1f} MiB")
        print(f"  {'times as fast':18} {best['libexpat'] / best['mos_replay check']:8.2f}")


main()
