"""Runs a command on a file: timed.py SOURCE SINK COMMAND.. prints its seconds and the most memory that it took, in KiB.

What a process took before it ran the command counts for the command, so that this is a small process of its own, for
`python3 -I -S`: a command that takes less than some 8 MiB is given as that.
"""
import os
import sys
import time

source, sink, *command = sys.argv[1:]
files = [
    (os.POSIX_SPAWN_OPEN, 0, source, os.O_RDONLY, 0),
    (os.POSIX_SPAWN_OPEN, 1, sink, os.O_WRONLY | os.O_CREAT | os.O_TRUNC, 0o600),
]
before = time.monotonic()
child = os.posix_spawn(command[0], command, os.environ, file_actions=files)
_, status, usage = os.wait4(child, 0)
seconds = time.monotonic() - before
if status != 0:
    sys.exit(f"{command} ended with {status}")
print(seconds, usage.ru_maxrss)
