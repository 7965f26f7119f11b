"""Times `bench_machines commands` beside sqlite3 in memory. Usage: measure.py PROGRAM."""
import resource
import sqlite3
import statistics
import subprocess
import sys
import time

program = sys.argv[1]


def seconds(*words):
    """The processor time of one run, and what it says."""
    before = resource.getrusage(resource.RUSAGE_CHILDREN)
    said = subprocess.run([program, "commands", *map(str, words)], check=True, capture_output=True, text=True).stdout
    after = resource.getrusage(resource.RUSAGE_CHILDREN)
    return after.ru_utime + after.ru_stime - before.ru_utime - before.ru_stime, said


def behind(entries, orders, devices, calls, drains):
    """The seconds of the calls alone: those of a run with them, less those of one without."""
    return seconds(entries, orders, devices, calls, drains)[0] - seconds(entries, orders, devices, 0, 0)[0]


def rows(calls):
    """The seconds in which sqlite3 does as many commands on one order."""
    base = sqlite3.connect(":memory:", isolation_level=None)
    base.execute("create table journal (entry integer primary key, edit text)")
    base.execute("create table stories (place integer primary key, story text)")
    base.executemany("insert into stories values (?, ?)", [(i, f"S{i}") for i in range(3)])
    begun = time.process_time()
    for i in range(calls):
        base.execute("begin")
        base.execute("insert into journal values (?, ?)", (i, "swap A C"))
        first = base.execute("select story from stories where place = 0").fetchone()[0]
        last = base.execute("select story from stories where place = 2").fetchone()[0]
        base.execute("update stories set story = ? where place = 0", (last,))
        base.execute("update stories set story = ? where place = 2", (first,))
        base.execute("commit")
    return time.process_time() - begun


print(f"{'entries':>8} {'orders':>7} {'devices':>8} {'commands/s':>12} {'us each':>8}")
for entries, orders, devices, calls in [
    (1, 1, 1, 100000),
    (1000, 1, 1, 100000),
    (100000, 1, 1, 100000),
    (1, 1, 64, 100000),
    (100000, 1, 64, 100000),
    (1, 1000, 1, 5000),
    (100000, 1000, 1, 5000),
]:
    taken = statistics.median(behind(entries, orders, devices, calls, 0) for _ in range(3))
    print(f"{entries:8} {orders:7} {devices:8} {calls / taken:12,.0f} {taken / calls * 1e6:8.2f}")
sends = statistics.median(behind(1, 1, 64, 20000, 1) - behind(1, 1, 64, 20000, 0) for _ in range(3))
print(f"sent and acknowledged: {64 * 20000 / sends:,.0f} messages a second")
other = statistics.median(rows(100000) for _ in range(3))
print(f"sqlite3: {100000 / other:,.0f} transactions a second, {other / 100000 * 1e6:.2f} us each")
