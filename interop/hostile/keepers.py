"""Clients that keep what each block may hold: what was answered or flushed last, and each value that was sent since."""
import random

import harness as h


def content(value):
    """A block that tells its value in each of its words."""
    return value.to_bytes(8, "big") * (h.BLOCK // 8)


class Keeper:
    """A client that writes unique blocks at places of its own until its connection ends. Each reply must be a good one,
    but for those that `lenient` takes."""

    def __init__(self, port, may_hold, places, first, lenient=lambda: False):
        self.client = h.Client(port)
        self.may_hold, self.places, self.lenient = may_hold, places, lenient
        self.rng = random.Random(first)
        self.next, self.answered, self.flushes = first, 0, 0

    def work(self):
        """Works until the connection ends."""
        try:
            while True:
                self.turn()
        except (ConnectionResetError, BrokenPipeError):
            pass
        except h.Refused:
            if not self.lenient():
                raise
        finally:
            self.client.close()

    def turn(self):
        """One round of work."""
        raise NotImplementedError

    def write(self):
        """Writes a new value, and gives its block."""
        block = self.rng.choice(self.places)
        self.next += 1
        self.may_hold[block].append(self.next)
        self.client.call(h.WRITE, block * h.BLOCK, h.BLOCK, content(self.next))
        self.answered += 1
        return block


class Answered(Keeper):
    """What was answered is there: no block goes back to a value before the last one that was answered."""

    def turn(self):
        block = self.write()
        self.may_hold[block] = [self.next]


class Flushed(Keeper):
    """What was flushed is there: no block goes back to a value before the last one that was answered as a flush was
    sent."""

    def turn(self):
        last = {}
        for _ in range(self.rng.randrange(1, 40)):
            block = self.write()
            last[block] = self.next
        self.client.call(h.FLUSH, 0, 0)
        self.flushes += 1
        for block, value in last.items():
            self.may_hold[block] = [value]


def found_by(port, may_hold):
    """Reads each block, which must have a value that it may hold, and has that one from here on."""
    with h.Client(port) as client:
        for block, values in may_hold.items():
            found = client.call(h.READ, block * h.BLOCK, h.BLOCK)
            assert found in map(content, values), f"block {block}: {found[:16].hex()}, not of {values}"
            may_hold[block] = [int.from_bytes(found[:8], "big")]
        client.leave()


class SameCommand(h.Server):
    """A server that is started by the same words each time, its ports too. Its superblocks are where they are by default:
    beside the legs."""
    superblocks = ()
    words = None

    def launch(self, options=()):
        """Starts it, and does not wait. Until it has started once another port may be tried."""
        if not self.words:
            self.port, self.control_port = h.free_ports(2)
            self.words = [self.program, "--listen", f"127.0.0.1:{self.port}",
                          "--control", f"127.0.0.1:{self.control_port}", *self.options, *self.files]
        assert not options, "another command"
        with open(f"{self.room}/out", "wb") as out, open(f"{self.room}/err", "wb") as err:
            self.process = h.subprocess.Popen(self.words, stdin=h.subprocess.DEVNULL, stdout=out, stderr=err)

    def masters(self):
        """The master of each stripe that runs."""
        return [it["master"] for it in h.stripes_in(self.control("status")[:-1]) if "master" in it]
