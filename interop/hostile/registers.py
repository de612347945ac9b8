"""Clients of an export as a row of registers: each writes values of its own and reads, with 16 requests in flight, and
notes what it wrote and found, with the times of both. linear.py judges the history of each register."""
import multiprocessing
import os
import random
import struct
import time
from array import array

import harness as h
from linear import Operation

CONNECTIONS = 4
DEPTH = 16
SIZE = 1024 * h.BLOCK
# Around the edges of regions, so that requests lie in several stripes.
HOT = [block for edge in (0, 128, 256, 640) for block in range(max(0, edge - 4), edge + 4)]
# What connections do, as they are told: read and write, the same with writes of the lower half alone, read, write the lower
# half, nothing, leave.
BOTH, LOW, READS, LOW_WRITES, NOTHING, LEAVE = range(6)


def values_in(data, unit, first):
    """The value of each unit, whole, of which this is the first."""
    values = []
    for at in range(0, len(data), unit):
        piece = data[at:at + unit]
        assert piece == piece[:8] * (unit // 8), f"a torn value at unit {first + at // unit}"
        values.append(int.from_bytes(piece[:8], "big"))
    return values


class Hand:
    """One connection: what it asked for, and what it found, with the times of both."""

    def __init__(self, port, value, unit, seed, hot, fua):
        self.client = h.Client(port)
        self.rng = random.Random(seed)
        self.unit, self.value, self.hot, self.fua = unit, value, hot, fua
        self.asked = {}
        # what is noted: unit, whether it was written, value, begin, end
        self.notes = array("q")

    def ask(self, kinds):
        """The next request, on one to four units."""
        rng = self.rng
        block = rng.choice(self.hot) if rng.random() < 0.9 else rng.randrange(SIZE // h.BLOCK)
        is_write = kinds == LOW_WRITES or kinds in (BOTH, LOW) and rng.random() < 0.5
        if is_write and kinds != BOTH:
            block %= SIZE // h.BLOCK // 2
        first = (block * h.BLOCK + rng.randrange(h.BLOCK)) // self.unit
        units = min(1 if rng.random() < 0.7 else rng.randrange(2, 5), SIZE // self.unit - first)
        values = ()
        if is_write:
            values = range(self.value + 1, self.value + 1 + units)
            self.value += units
        payload = b"".join(struct.pack(">Q", it) * (self.unit // 8) for it in values)
        flags = h.FUA if values and rng.random() < self.fua else 0
        text, cookie = self.client.prepare(h.WRITE if values else h.READ, first * self.unit,
                                           units * self.unit, payload, flags)
        self.asked[cookie] = (first, values, time.monotonic_ns())
        self.client.socket.sendall(text)

    def hear(self):
        """The next reply."""
        cookie, error, found = self.client.receive()
        end = time.monotonic_ns()
        first, values, begin = self.asked.pop(cookie)
        assert error == 0, f"error {error}"
        is_write = bool(values)
        for place, value in enumerate(values or values_in(found, self.unit, first)):
            self.notes.extend((first + place, is_write, value, begin, end))

    def run(self, count, told, number):
        """So many requests, always 16 in flight, of the kinds that it is told. It says what it does once all that it
        asked for before is answered."""
        kinds = BOTH
        while count or self.asked:
            if told[0] != kinds:
                while self.asked:
                    self.hear()
                kinds = told[number] = told[0]
            if kinds == LEAVE:
                break
            while count and kinds != NOTHING and len(self.asked) < DEPTH:
                self.ask(kinds)
                count -= 1
            if self.asked:
                self.hear()
            else:
                time.sleep(0.001)
        self.client.leave()


def work(port, value, unit, seed, hot, fua, count, told, number, pipe):
    """A process: one connection."""
    hand = Hand(port, value, unit, seed, hot, fua)
    hand.run(count, told, number)
    pipe.send_bytes(hand.notes.tobytes())
    pipe.close()


class Connections:
    """Connections at work, each a process of its own, until each has had so many requests, or is told to leave. The
    values of a turn are those of no other. Most requests are at hot blocks, and this share of the writes is durable."""

    def __init__(self, port, unit, count=1 << 60, turn=0, connections=CONNECTIONS, hot=(), fua=0.01):
        # what they are told, and what each of them does
        self.told = multiprocessing.Array("i", [BOTH] * (connections + 1), lock=False)
        self.hands = []
        for number in range(1, connections + 1):
            mine, theirs = multiprocessing.Pipe(duplex=False)
            value = turn * connections + number
            seed = int(os.environ.get("SEED", "7")) * 10 + value
            words = (port, value << 40, unit, seed, hot or HOT, fua, count, self.told, number, theirs)
            hand = multiprocessing.Process(target=work, args=words, daemon=True)
            hand.start()
            theirs.close()
            self.hands.append((hand, mine))

    def __enter__(self):
        return self

    def __exit__(self, *_):
        for hand, _ in self.hands:
            hand.kill()
            hand.join()

    def ask_for(self, kinds):
        """From here on they ask for these alone, and all that they asked for before is answered."""
        self.told[0] = kinds
        h.wait_until(lambda: set(self.told) == {kinds} or not self.are_at_work(), 60, "what was asked for is answered")
        assert self.are_at_work(), "a connection has failed"

    def are_at_work(self):
        """Whether none has left."""
        return all(hand.is_alive() for hand, _ in self.hands)

    def leave(self):
        """They leave, once all is answered. Gives the operations of each unit."""
        self.told[0] = LEAVE
        return self.histories()

    def histories(self):
        """The operations of each unit, once all have left."""
        found = {}
        for hand, mine in self.hands:
            try:
                notes = array("q", mine.recv_bytes())
            except EOFError:
                raise AssertionError("a connection has failed") from None
            hand.join()
            for at in range(0, len(notes), 5):
                place, is_write, value, begin, end = notes[at:at + 5]
                found.setdefault(place, []).append(Operation("w" if is_write else "r", value, begin, end))
        return found
