"""Whether the history of a register is linearizable, where each write has a value of its own.

A history is a list of operations: what was written or found, when the operation was asked for, and
when its answer came. It is linearizable if each operation can be given one moment between the two, so
that each read finds the last value written before its moment.

For each value take the operations that wrote or found it. In a linearization they stand together: the
write first, then its reads, then the next value's write. So a value A must come before B where some
operation of A has ended before some operation of B began: the least end of A is below the greatest
beginning of B. The history is linearizable if and only if no read ends before its value's write begins,
each found value was written, and no two values must each come before the other (P. Gibbons, E. Korach,
Testing shared memories, SIAM J. Comput. 26, 1997).
"""
from bisect import bisect_left
from collections import namedtuple

FOREVER = float("inf")

# kind is "w" or "r". An operation that was never answered ends FOREVER.
Operation = namedtuple("Operation", "kind value begin end")


def violation(operations, first=0):
    """None where a register that held `first` may have had this history; else what is wrong with it."""
    writes = {first: Operation("w", first, -FOREVER, -FOREVER)}
    reads = {}
    for it in operations:
        if it.kind == "w":
            if it.value in writes:
                return f"value {it.value} is written twice"
            writes[it.value] = it
        elif it.end < FOREVER:
            reads.setdefault(it.value, []).append(it)
    zones = []
    for value, write in writes.items():
        found = reads.pop(value, [])
        if any(it.end < write.begin for it in found):
            return f"value {value} is found before it is written"
        # a write without an answer that nobody found need not have happened
        if found or write.end < FOREVER:
            zones.append((min([write.end] + [it.end for it in found]),
                          max([write.begin] + [it.begin for it in found]), value))
    if reads:
        return f"value {min(reads)} is found and was never written"
    return conflict(zones)


def conflict(zones):
    """Two values each of which must come before the other. A zone is the least end of a value's
    operations, their greatest beginning, and the value. A conflict has a zone whose end is below its
    beginning, and which overlaps another such zone or holds the other between the two."""
    forward = sorted(it for it in zones if it[0] < it[1])
    for one, next_one in zip(forward, forward[1:]):
        if next_one[0] < one[1]:
            return f"values {one[2]} and {next_one[2]} each come before the other"
    ends = [it[0] for it in forward]
    for end, begin, value in zones:
        if begin <= end:
            # the last forward zone that ends below `begin`; the forward zones do not overlap
            place = bisect_left(ends, begin) - 1
            if place >= 0 and end < forward[place][1]:
                return f"value {value} and value {forward[place][2]} each come before the other"
    return None
