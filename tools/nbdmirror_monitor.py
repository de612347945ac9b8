"""What changes in a mirror from look to look, and who is told: for `nbdmirrorctl monitor`.

It needs nothing but an interpreter's standard library, and the other modules of nbdmirrorctl in its own folder.
"""
from __future__ import annotations

import os
import subprocess
import time
from typing import NamedTuple

from nbdmirror_control import UNIX, count_of_legs, failed_reads_in, legs_in, superblock_in, uptime_in, with_last_legs
from nbdmirror_report import (Copies, failed_reads_sentence, mib, named, places, stopped_groups, stopped_sentence,
                              superblock_sentence, unread_sentence)
from nbdmirror_verify import COULD_NOT, OTHER, SAME, line_in, told_in, verdict

# How a comparison ended, by its verdict.
VERIFIED = {SAME: "verify-equal", OTHER: "verify-differs", COULD_NOT: "verify-incomplete"}


class Change(NamedTuple):
    """What happened: a word for programs, a sentence for a person, and the leg, where it is one's."""

    event: str
    text: str
    leg: int | None = None


class LegSeen(NamedTuple):
    """How a leg was when something of it was told last: its state, in how many stripes it was out, tenths copied."""

    state: str = "in"
    out: int = 0
    tenths: int = 0


class Monitor:
    """How the mirror was at the last look. Before the first one all is taken to be well."""

    def __init__(self):
        self.is_gone, self.uptime, self.is_failed, self.is_unread, self.verify = False, None, False, False, None
        self.stripes, self.stopped, self.legs, self.copies, self.failed_reads = {}, set(), {}, Copies(), {}

    def lost(self, why):
        """The server did not answer a look."""
        if self.is_gone:
            return []
        self.is_gone = True
        return [Change("server-gone", f"the server does not answer: {why}")]

    def look(self, stripes, info, unread, now):
        """What is otherwise than at the last look."""
        changes = self.of_server(uptime_in(info))
        # A busy stripe is as it was when it was last seen.
        self.stripes.update({stripe["stripe"]: stripe for stripe in with_last_legs(stripes, info) if not stripe["busy"]})
        changes += self.of_superblocks(superblock_in(info))
        changes += self.of_stopped()
        changes += self.of_legs(len(stripes), self.copies.look(stripes, now))
        changes += self.of_failed_reads(failed_reads_in(info)) + self.of_unread(unread)
        return changes + self.of_verify(info)

    def of_server(self, uptime):
        """It is there again, be it that its end was seen or not."""
        changes = []
        if not self.is_gone and None not in (uptime, self.uptime) and uptime < self.uptime:
            changes = self.lost("it has ended meanwhile")
        if self.is_gone:
            self.is_gone, self.stripes, self.copies, self.failed_reads = False, {}, Copies(), {}
            changes.append(Change("server-back", "the server serves again"))
        self.uptime = uptime
        return changes

    def of_superblocks(self, superblock):
        """Whether they can be written."""
        was_failed, self.is_failed = self.is_failed, bool(superblock and superblock["failed"])
        if self.is_failed and not was_failed:
            return [Change("superblocks-failed", superblock_sentence(superblock))]
        if was_failed and not self.is_failed:
            return [Change("superblocks-saved", "superblocks are written again")]
        return []

    def of_stopped(self):
        """Stripes that stopped, by the leg that failed as their last one in sync, and those that run again."""
        was, groups = self.stopped, stopped_groups(self.stripes.values())
        self.stopped = {number for numbers in groups.values() for number in numbers}
        fresh = [(last, sorted(set(numbers) - was)) for last, numbers in groups.items()]
        changes = [Change("stripe-stopped", stopped_sentence(numbers, last), last) for last, numbers in fresh if numbers]
        if running := sorted(was - self.stopped):
            changes.append(Change("stripe-running", f"{named(running)} running again"))
        return changes

    def of_legs(self, count, left):
        """Legs that are out in more stripes than before, that join, how far they are, and that are in sync again."""
        stripes = self.stripes.values()
        is_told = len(stripes) == count and not self.stopped
        out, changes = legs_in(stripes, "out"), []
        for leg in range(count_of_legs(stripes)):
            was = self.legs.get(leg, LegSeen())
            places_out = len(out.get(leg, []))
            if places_out:
                if places_out > was.out:
                    changes.append(Change("leg-out", f"leg {leg} is out in {places(places_out, count)}", leg))
                self.legs[leg] = LegSeen("out", places_out)
            elif left.get(leg):
                changes += self.of_copy(leg, was, left[leg])
            elif is_told and leg not in left:
                if was.state != "in":
                    changes.append(Change("leg-in-sync", f"leg {leg} is in sync in {places(count, count)}", leg))
                self.legs[leg] = LegSeen()
        return changes

    def of_copy(self, leg, was, left):
        """That a leg is being copied, and each tenth of that."""
        tenths = self.copies.of[leg].per_cent() // 10
        self.legs[leg] = LegSeen("join", 0, tenths)
        if was.state != "join":
            return [Change("leg-joining", f"leg {leg} is being copied, {mib(left)} left", leg)]
        if tenths > was.tenths:
            return [Change("leg-joining", f"leg {leg} is being copied: {10 * tenths} %, {mib(left)} left", leg)]
        return []

    def of_failed_reads(self, failed):
        """Legs of which reads failed in more places than before, which stay as the last ones in sync, and those of which
        none stays failed."""
        was, self.failed_reads = self.failed_reads, {one["leg"]: one["count"] for one in failed}
        changes = [Change("reads-failed", failed_reads_sentence(one), one["leg"])
                   for one in failed if one["count"] > was.get(one["leg"], 0)]
        return changes + [Change("reads-mended", f"no read of leg {leg} stays failed", leg)
                          for leg in was if leg not in self.failed_reads]

    def of_unread(self, unread):
        """Regions that a copy could not read from the last leg that has them."""
        was_unread, self.is_unread = self.is_unread, bool(unread and unread["count"])
        return [Change("regions-unread", unread_sentence(unread))] if self.is_unread and not was_unread else []

    def of_verify(self, info):
        """A comparison that has ended. Of one before the first look it is told where something differs."""
        told, was = told_in(info), self.verify
        self.verify = told or was
        if not told or told["state"] not in ("done", "stopped") or told == was:
            return []
        if was is None and not told.get("differing"):
            return []
        return [Change(VERIFIED[verdict(told)], line_in(info).removeprefix("verify: "))]


def show(change):
    """A line for a change."""
    print(f"{time.strftime('%Y-%m-%dT%H:%M:%SZ', time.gmtime())} {change.event}: {change.text}", flush=True)


def hand_on(change, program, control):
    """Runs a program for a change, to its end. Why that did not succeed, or nothing."""
    address = f"{UNIX}{control}" if isinstance(control, str) else f"{control[0]}:{control[1]}"
    words = [program, change.event, change.text, *([] if change.leg is None else [str(change.leg)])]
    try:
        ran = subprocess.run(words, stdin=subprocess.DEVNULL, env={**os.environ, "NBDMIRROR_CONTROL": address}, check=False)
    except OSError as error:
        return f"{program}: {error.strerror}"
    return f"{program} ended with status {ran.returncode} after {change.event}" if ran.returncode else ""
