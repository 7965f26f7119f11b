"""Makes heartbeats, and times mos_replay and xml.etree on them."""
import os
import subprocess
import sys

TIMED = os.path.join(os.path.dirname(os.path.dirname(os.path.abspath(__file__))), "timed.py")
PARSE = """
import sys, xml.etree.ElementTree as tree
text = open(sys.argv[1], 'rb').read().decode('utf-16-be')
count = 0
for message in text.split('</mos>')[:-1]:
    tree.fromstring(message + '</mos>')
    count += 1
print(count)
"""


def make(path, size):
    """Writes heartbeats to the file, this many bytes at least, and returns how many bytes and messages."""
    written = number = 0
    with open(path, "wb") as out:
        while written < size:
            number += 1
            message = (
                f"<mos><mosID>dev1</mosID><ncsID>ncs1</ncsID><messageID>{number}</messageID>"
                f"<heartbeat><time>2009-04-11T14:22:{number % 60:02}Z</time></heartbeat></mos>"
            ).encode("utf-16-be")
            out.write(message)
            written += len(message)
    return written, number


def timed(command, path):
    """Runs the command on the file; its seconds, and the most memory that it took in KiB."""
    words = [sys.executable, "-I", "-S", TIMED, path, os.devnull, *command]
    seconds, most = subprocess.run(words, check=True, stdout=subprocess.PIPE, text=True).stdout.split()
    return float(seconds), int(most)


def main():
    work, megabytes = sys.argv[1], int(sys.argv[2])
    path = f"{work}/heartbeats"
    size, count = make(path, megabytes * 1_000_000)
    take, parse, memory = [], [], 0
    for turn in range(3):
        seconds, most = timed([f"{work}/mos_replay", "take"], path)
        take.append(seconds)
        memory = memory or most
        parse.append(timed([sys.executable, "-c", PARSE, path], path)[0])
    take, parse = sorted(take)[1], sorted(parse)[1]
    print(f"{count} heartbeats, {size / 1e6:.0f} MB")
    print(f"mos_replay take    {size / 1e6 / take:7.1f} MB/s, {memory * 1024 / size:.1f} times the input in memory")
    print(f"python xml.etree   {size / 1e6 / parse:7.1f} MB/s")


main()
