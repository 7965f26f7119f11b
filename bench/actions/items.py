"""Times MOVE and DELETE of every other item of one story. Usage: items.py FOLDER; the folder has the program mos_replay.

`mos_replay take` reads a roCreate with one story of many items, and the action. Taken off is its time for the same with an
action of as many sources on a story that isn't there, so what is left is the look-ups and the edit. Each line is the middle
one of five runs.
"""
import os
import statistics
import subprocess
import sys

TIMED = os.path.join(os.path.dirname(os.path.dirname(os.path.abspath(__file__))), "timed.py")


def message(number, inside):
    return f"<mos><mosID>dev1</mosID><ncsID>ncs1</ncsID><messageID>{number}</messageID>{inside}</mos>"


def item_id(number):
    return f"<itemID>{number:06}</itemID>"


def create(items):
    listed = "".join(f"<item>{item_id(k)}<objID>o</objID><mosID>dev1</mosID></item>" for k in range(items))
    return f"<roCreate><roID>r</roID><roSlug>r</roSlug><story><storyID>s</storyID>{listed}</story></roCreate>"


def action(operation, story, sources):
    """MOVE to the front, or DELETE, of every other item from the second on, so many of them."""
    first = item_id(0) if operation == "MOVE" else ""
    listed = "".join(item_id(2 * k + 1) for k in range(sources))
    return (
        f'<roElementAction operation="{operation}"><roID>r</roID>'
        f"<element_target><storyID>{story}</storyID>{first}</element_target>"
        f"<element_source>{listed}</element_source></roElementAction>"
    )


def write(path, messages):
    with open(path, "wb") as out:
        for number, inside in enumerate(messages, 1):
            out.write(message(number, inside).encode("utf-16-be"))


def seconds(work, path):
    words = [sys.executable, "-I", "-S", TIMED, path, f"{work}/answers", f"{work}/mos_replay", "take"]
    return float(subprocess.run(words, check=True, stdout=subprocess.PIPE, text=True).stdout.split()[0])


def check(work, status):
    """The last answer has this status."""
    said = open(f"{work}/answers", "rb").read().decode("utf-16-be")
    if not said.rsplit("<roStatus>", 1)[-1].startswith(status):
        sys.exit(f"not {status}: {said[-400:]}")


def measure(work, operation, items, sources):
    done, refused = f"{work}/done", f"{work}/refused"
    write(done, [create(items), action(operation, "s", sources)])
    write(refused, [create(items), action(operation, "t", sources)])
    taken = []
    for _ in range(5):
        whole = seconds(work, done)
        check(work, "OK<")
        read = seconds(work, refused)
        check(work, "MISSING")
        taken.append(whole - read)
    name = "shift" if operation == "MOVE" else "delete"
    print(f"{name:8} {items:8} {sources:8} {statistics.median(taken):9.3f}")


def main():
    work = sys.argv[1]
    print(f"{'action':8} {'items':>8} {'sources':>8} {'seconds':>9}")
    for items in (10_000, 40_000):
        for operation in ("MOVE", "DELETE"):
            measure(work, operation, items, items // 2)


main()
