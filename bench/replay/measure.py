"""Times `mos_replay make N` beside sqlite3 in memory. Usage: measure.py FOLDER EVENTS; the folder has the program."""
import os
import resource
import sqlite3
import statistics
import subprocess
import sys
import time

folder, events = sys.argv[1], int(sys.argv[2])


def made():
    """The seconds of processor time of one run, and its last lines."""
    before = resource.getrusage(resource.RUSAGE_CHILDREN)
    said = subprocess.run([f"{folder}/mos_replay", "make", str(events)], check=True, capture_output=True, text=True).stdout
    after = resource.getrusage(resource.RUSAGE_CHILDREN)
    return after.ru_utime + after.ru_stime - before.ru_utime - before.ru_stime, said


def rows():
    """The seconds of processor time in which sqlite3 appends as many rows, and swaps two places of an order at each."""
    base = sqlite3.connect(":memory:")
    base.execute("create table journal (entry integer primary key, edit text)")
    base.execute("create table stories (place integer primary key, story text)")
    base.executemany("insert into stories values (?, ?)", [(i, f"S{i}") for i in range(20)])
    begun = time.process_time()
    for i in range(events):
        base.execute("insert into journal values (?, ?)", (i, f"swap S{i % 20} S{i * 7 % 20}"))
        a, b = i % 20, i * 7 % 20
        one = base.execute("select story from stories where place = ?", (a,)).fetchone()
        two = base.execute("select story from stories where place = ?", (b,)).fetchone()
        base.execute("update stories set story = ? where place = ?", (two[0], a))
        base.execute("update stories set story = ? where place = ?", (one[0], b))
    return time.process_time() - begun


times, others = [], []
for _ in range(3):
    seconds, said = made()
    times.append(seconds)
    others.append(rows())
most = resource.getrusage(resource.RUSAGE_CHILDREN).ru_maxrss / 1024
print(said.split("server 1")[0], end="")
for name, taken in (("mos_replay make", times), ("sqlite3", others)):
    middle = statistics.median(taken)
    print(f"{name}: {middle:.2f} s, {events / middle:,.0f} events a second")
print(f"mos_replay make: {most:.0f} MiB at most")
