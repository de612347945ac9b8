"""A mirror of two legs, of which leg 1, and its superblock where that is beside it, are alone on a disk that forgets what
was not synced (forgetful.py), and the disk's loss of power while the server lives on."""
import contextlib
import json
import os
import subprocess
import sys
import tempfile
import time

import forgetful
import harness as h

CTL = f"{h.TOP}/tools/nbdmirrorctl"
REGION = 128 * h.BLOCK


class Pair(h.Server):
    """The mirror."""

    def __init__(self, disk, size, superblocks, options):
        super().__init__(size=size)
        self.disk = disk
        if superblocks == "folder":
            superblocks = f"{self.room}/superblocks"
            os.mkdir(superblocks)
        self.options = ["--superblock", superblocks, *options]
        self.files.append(f"{disk.folder}/leg1")
        self.lost = 0

    def lose_power(self, hangs=False, share=None):
        """Leg 1's disk loses power, and about this share of what was not synced is kept. Its calls fail, or else hang."""
        self.lost += self.disk.cut(share)
        if not hangs:
            self.go_dark()

    def go_dark(self):
        """The calls that hang have failed, and so does each further one."""
        self.disk.dark()
        # this comes behind them, and is answered without power too
        with contextlib.suppress(OSError):
            os.stat(self.files[1])

    def stripes_out(self):
        """In how many stripes leg 1 is out: in all of them within moments, or else after a while."""
        end = time.monotonic() + 2 * h.PATIENCE
        while set(self.states(1)) != {"out"} and time.monotonic() < end:
            time.sleep(0.05)
        return self.states(1).count("out")

    def bring_back(self, word="attach"):
        """Has leg 1 come back: what is answered, once no call of it is under way."""
        answers = []

        def is_answered():
            answers.extend(self.control(f"{word} 1"))
            return answers[-1] != f"{word} 1: busy"
        h.wait_until(is_answered, 20, f"{word} 1")
        return answers[-1]

    def wait_until_in_sync(self):
        """Waits for leg 1's copy, and attaches it again where it went out: after a failed sync the next one may fail too.
        Gives the answers."""
        answers = []
        self.wait_for_copy()
        while not self.in_sync(1):
            assert len(answers) < 3, f"leg 1 goes out each time: {answers} {self.errors()[-400:]}"
            answers.append(self.bring_back())
            self.wait_for_copy()
        return answers

    def contents(self):
        """What the legs' files hold."""
        with open(self.files[0], "rb") as file:
            return file.read(), self.disk.contents("leg1")

    def regions_that_differ(self):
        """How many regions of the legs' files hold other bytes."""
        one, other = self.contents()
        return sum(one[at:at + REGION] != other[at:at + REGION] for at in range(0, self.size, REGION))

    def verify(self):
        """What the server's own comparison of the legs found."""
        ran = subprocess.run([CTL, "--control", f"127.0.0.1:{self.control_port}", "verify", "--wait", "--json"],
                             stdout=subprocess.PIPE, text=True, timeout=200 * h.PATIENCE, check=False)
        return json.loads(ran.stdout)


@contextlib.contextmanager
def pair(rng, size, superblocks, *options):
    """A mirror, which runs, and which is taken away with its disk."""
    folder = tempfile.mkdtemp(prefix="nbdmirror-lost-")
    try:
        disk = forgetful.Forgetful(folder, rng)
    except OSError as fault:
        forgetful.tidy(folder)
        h.not_run(f"no file system can be mounted: {fault}")
    try:
        disk.make("leg1", size)
        mirror = Pair(disk, size, superblocks, options)
        try:
            mirror.start("--start", "equal")
            yield mirror
        except BaseException:
            if os.path.exists(f"{mirror.room}/err"):
                print(mirror.errors()[-3000:], file=sys.stderr)
            raise
        finally:
            disk.dark()
            mirror.end()
    finally:
        disk.close()
        forgetful.tidy(folder)


def need_disk():
    """Leaves with the status of a script that cannot run where there can be no such disk."""
    why = forgetful.missing()
    if why:
        h.not_run(why)
