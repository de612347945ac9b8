"""Prints a table of the times in two files, one of fresh memory and one of kept memory.

Two words after the files name the sides that are compared, if not `proved` and `plain`.
"""

import statistics
import sys

ROW = "{:30} {:6} {:>10} {:>10} {:>7} {:>7} {:>7}   {:>12} {:>8}"
GAIN = "{:30} {:6} {:>10} {:>10} {:>10} {:>10}"


FIRST, SECOND = sys.argv[3:] or ("proved", "plain")


def read(path):
    times = {}
    for line in open(path):
        who, name, numbers = line.split(": ")
        count, size, checksum, nanos = map(int, numbers.split())
        runs = times.setdefault(name, {FIRST: [], SECOND: []})
        runs[who].append(((count, size, checksum), nanos / count))
    return times


def rows(memory, times):
    for name, runs in times.items():
        # What plain Rust does in two ways is measured against the one proved way.
        same = name.removesuffix(", lent")
        runs[FIRST] = runs[FIRST] or times[same][FIRST]
        work = {did for did, _ in runs[FIRST] + runs[SECOND]}
        assert len(work) == 1, f"{name}: not the same work: {work}"
        count, size, _ = work.pop()
        first, second = ([nanos for _, nanos in runs[who]] for who in (FIRST, SECOND))
        best = min(first)
        yield ROW.format(
            name,
            memory,
            f"{best:,.1f}",
            f"{min(second):,.1f}",
            f"{best / min(second):.2f}",
            f"{statistics.median(first) / statistics.median(second):.2f}",
            len(first),
            f"{1e9 / best:,.0f}",
            f"{size / count / best * 1e3:,.0f}",
        )


def gains(memory, times):
    """How many times the work of one thread four do in the same time, for the rows that both have."""
    for name, four in times.items():
        one = times.get(name.replace(", 4 on ", ", 1 on "))
        if ", 4 on " not in name or one is None:
            continue
        each = [[nanos for _, nanos in runs[who]] for who in (FIRST, SECOND) for runs in (one, four)]
        yield GAIN.format(
            name,
            memory,
            *(
                f"{of(alone) / of(beside):.2f}"
                for alone, beside in (each[:2], each[2:])
                for of in (min, statistics.median)
            ),
        )


taken = [(memory, read(path)) for memory, path in (("fresh", sys.argv[1]), ("kept", sys.argv[2]))]
print(ROW.format("", "", FIRST, SECOND, "ratio", "ratio", "rounds", FIRST, FIRST))
print(ROW.format("work", "memory", "ns, best", "ns, best", "bests", "medians", "each", "a second", "MB/s"))
for memory, times in taken:
    for row in rows(memory, times):
        print(row)
print()
gained = [line for memory, times in taken for line in gains(memory, times)]
if gained:
    print(GAIN.format("", "", FIRST, FIRST, SECOND, SECOND))
    print(GAIN.format("four threads, over one", "memory", "bests", "medians", "bests", "medians"))
    print(*gained, "", sep="\n")
