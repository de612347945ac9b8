"""What nbdmirrorctl tells a person of a mirror: tables, progress, sentences.

It needs nothing but an interpreter's standard library, and nbdmirror_control.py and nbdmirror_verify.py in its own
folder.
"""
from __future__ import annotations

import itertools
import math
import time
from typing import NamedTuple

from nbdmirror_control import count_of_legs, legs_in, legs_of
from nbdmirror_verify import finding_sentence, is_open

# A copy's rate is that of so many seconds.
RATE_SECONDS = 15
# The control port counts in blocks of so many bytes.
BLOCK = 512
BLOCKS_PER_MIB = 2048
STATES = {"in": "in sync", "join": "copying", "out": "out"}
GREEN, YELLOW, RED = 32, 33, 31
COLOURS = {"in": GREEN, "join": YELLOW, "out": RED, "busy": YELLOW, "stopped": RED}
# What a monitoring check calls its statuses.
LEVELS = OK, WARNING, CRITICAL = range(3)
LEVEL_NAMES = ["OK", "WARNING", "CRITICAL"]


class Cell(NamedTuple):
    """A place of a table."""

    text: str
    colour: int | None = None

    def painted(self, text):
        """This text, which is the cell's or a beginning of it, in the cell's colour."""
        return f"\x1b[{self.colour}m{text}\x1b[0m" if text and self.colour else text


def mib(blocks):
    """So many blocks in MiB, rounded up to a tenth."""
    return f"{math.ceil(10 * blocks / BLOCKS_PER_MIB) / 10:.1f} MiB"


def clock(seconds):
    """A time that is still to go, in steps of about a tenth."""
    step = 1 if seconds < 20 else 5 if seconds < 120 else 30 if seconds < 1200 else 60
    seconds = step * math.ceil(seconds / step)
    if seconds < 3600:
        return f"{seconds // 60}:{seconds % 60:02d}"
    return f"{seconds // 3600} h {seconds % 3600 // 60} min"


def ranges(numbers):
    """Numbers that rise, as `0-6, 9`."""
    runs = [[item[1] for item in run]
            for _, run in itertools.groupby(enumerate(numbers), lambda item: item[1] - item[0])]
    return ", ".join(str(run[0]) if len(run) == 1 else f"{run[0]}-{run[-1]}" for run in runs)


def named(numbers):
    """Stripes by their numbers, with their verb."""
    return f"stripe {numbers[0]} is" if len(numbers) == 1 else f"stripes {ranges(numbers)} are"


def places(count, stripes):
    """So many of all stripes."""
    return f"{count} of {stripes} stripes" if count < stripes or stripes == 1 else f"all {stripes} stripes"


class Progress:
    """How far the copy of one leg is."""

    def __init__(self):
        self.most, self.looks = 0, []

    def look(self, now, left):
        """So many blocks are left now."""
        if self.looks and left > self.looks[-1][1]:
            # it went out and was attached again
            self.looks = []
        self.most = max(self.most, left)
        self.looks.append((now, left))
        while len(self.looks) > 2 and now - self.looks[1][0] >= RATE_SECONDS:
            del self.looks[0]

    def left(self):
        """How many blocks were left when it was last looked at."""
        return self.looks[-1][1]

    def rate(self):
        """How many blocks a second were copied of late."""
        (began, before), (ended, left) = self.looks[0], self.looks[-1]
        return (before - left) / (ended - began) if ended > began else 0.0

    def per_cent(self):
        """How much was copied of what was left at most."""
        return 100 * (self.most - self.left()) // self.most if self.most else 100

    def pace(self):
        """How fast it is, and how long the rest takes at that rate: two texts, empty where that is not known."""
        rate = self.rate()
        return (f"{rate / BLOCKS_PER_MIB:.1f} MiB/s" if len(self.looks) > 1 else "",
                clock(self.left() / rate) if rate else "")

    def text(self):
        """How much is copied, how fast, and how long that still takes."""
        text = f"{self.per_cent()} %, {mib(self.most - self.left())} of {mib(self.most)}"
        if self.left() == 0:
            return f"{text}, the end of it"
        if self.rate() == 0.0:
            return f"{text}, nothing copied of late" if len(self.looks) > 1 else text
        rate, time = self.pace()
        return f"{text}, {rate}, {time} left"

    def bar(self):
        """Twenty places, of which as many are filled as is copied."""
        done = 20 * (self.most - self.left()) // self.most if self.most else 20
        return "#" * done + "." * (20 - done)


class Copies:
    """The copies of a mirror's legs, from look to look."""

    def __init__(self):
        self.known, self.of = {}, {}

    def look(self, stripes, now):
        """What each leg that is being copied still lacks. A busy stripe is as it was when it was last seen."""
        self.known.update({stripe["stripe"]: stripe for stripe in stripes if not stripe["busy"]})
        left = {leg: sum(blocks) for leg, blocks in legs_in(self.known.values(), "join").items()}
        self.of = {leg: self.of.get(leg) or Progress() for leg in sorted(left)}
        for leg, copy in self.of.items():
            copy.look(now, left[leg])
        return left


def progress_line(copies, most):
    """A line for all copies, of at most so many columns."""
    long = "  ".join(f"leg {leg} [{copy.bar()}] {copy.text()}" for leg, copy in copies.of.items())
    if most is None or len(long) <= most:
        return long
    return "  ".join(f"leg {leg}: {copy.text()}" for leg, copy in copies.of.items())[:most]


def lines_of(rows, most, has_colours):
    """The lines of a table, cut where they have more columns than this."""
    widths = [max(len(row[n].text) for row in rows if n < len(row)) for n in range(max(map(len, rows)))]
    lines = []
    for row in rows:
        line, left = "", most
        end = max((n for n, cell in enumerate(row) if cell.text), default=-1)
        for n, cell in enumerate(row[:end + 1]):
            text, fill = cell.text[:left], " " * (widths[n] + 2 - len(cell.text)) if n < end else ""
            left = None if left is None else max(0, left - len(text))
            line += (cell.painted(text) if has_colours else text) + fill[:left]
            left = None if left is None else max(0, left - len(fill))
        lines.append(line)
    return lines


def width_of(rows):
    """How many columns a table has."""
    return max(map(len, lines_of(rows, None, False)))


def history_lines(history, most):
    """How many of a stripe's reads and writes are kept, and a table with a row each, of at most so many columns."""
    told = f"{history['total']} reads and writes of stripe {history['stripe']}"
    if not history["entries"]:
        return [f"none of {told} is kept"]
    rows = [["entry", "what", "ticket", "block", "digest"]]
    rows += [[str(entry["seq"]), entry["kind"], str(entry.get("ticket", "")), str(entry["block"]), entry["digest"]]
             for entry in history["entries"]]
    return [f"the last {history['kept']} of {told}", "", *lines_of([[Cell(text) for text in row] for row in rows], most, False)]


def moment(second):
    """A second, counted from 1970 on, as the time of day, with the day where that is another one."""
    then = time.localtime(second)
    is_today = then[:3] == time.localtime()[:3]
    return time.strftime("%H:%M" if is_today else "%Y-%m-%d %H:%M", then)


def outage_cell(told):
    """Why a leg is out, and since when."""
    since, reason = told.get("out_since"), told.get("reason")
    return Cell(", ".join(filter(None, (reason, since and moment(since)))))


def rows_of_legs(stripes, copies, is_watched, told):
    """A row a leg. How much of a copy is done is known where it was looked at for a while. What the server told of legs is
    their files, and since when and why they are out."""
    header = ["leg", "state", "stripes in sync"]
    if copies.of:
        header += ["copied"] * is_watched + ["left", "rate", "time left"]
    columns = len(header)
    if told:
        header += ["file"]
    if any(leg.get("out_since") or leg.get("reason") for leg in told.values()):
        header += ["out since"]
    rows = [[Cell(word) for word in header]]
    for leg in legs_of(stripes):
        row = [Cell(str(leg["leg"])), Cell(STATES[leg["state"]], COLOURS[leg["state"]]),
               Cell(f"{leg['in_sync']} of {len(stripes)}")]
        if copy := copies.of.get(leg["leg"]):
            row += [Cell(f"{copy.per_cent()} %")] * is_watched + [Cell(mib(copy.left())), *map(Cell, copy.pace())]
        own = told.get(leg["leg"], {})
        row += [Cell("")] * (columns - len(row)) + [Cell(own.get("file") or ""), outage_cell(own)][:len(header) - columns]
        rows.append(row)
    return rows


def kind_of(stripe):
    """What two stripes have in common that are told in one row."""
    states = tuple(leg["state"] for leg in stripe.get("legs", []))
    return stripe["stopped"], stripe["busy"], stripe.get("master"), stripe.get("settling"), stripe.get("last_leg"), states


def groups_of(stripes):
    """The stripes that are alike, group by group: their numbers, and one stripe with what all of a group lack."""
    groups = {}
    for stripe in stripes:
        groups.setdefault(kind_of(stripe), []).append(stripe)
    found = []
    for group in groups.values():
        whole = dict(group[0])
        if "legs" in whole:
            whole["legs"] = [{"state": legs[0]["state"], "left": sum(leg["left"] or 0 for leg in legs)}
                             for legs in zip(*(stripe["legs"] for stripe in group))]
        found.append(([stripe["stripe"] for stripe in group], whole))
    return found


def cell_of(leg, is_short):
    """A leg in some stripes."""
    state = leg["state"]
    if state != "join":
        return Cell(state if is_short else STATES[state], COLOURS[state])
    return Cell(mib(leg["left"]) if is_short else f"{STATES[state]}, {mib(leg['left'])} left", COLOURS[state])


def rows_of_stripes(groups, is_short):
    """A row for each of these groups of stripes."""
    count = count_of_legs([stripe for _, stripe in groups])
    rows = [[Cell(word) for word in ["stripe", "master", "settling"] + [f"leg {n}" for n in range(count)]]]
    for numbers, stripe in groups:
        number = Cell(ranges(numbers))
        if "legs" in stripe:
            rows.append([number, Cell(str(stripe["master"])), Cell("yes" if stripe["settling"] else "no")]
                        + [cell_of(leg, is_short) for leg in stripe["legs"]])
        else:
            word = "busy" if stripe["busy"] else "stopped"
            last = stripe.get("last_leg")
            rows.append([number, Cell(word if last is None else f"{word}, its last leg is leg {last}", COLOURS[word])])
    return rows


def is_ordinary(stripe):
    """Whether the legs' rows tell all that there is to say of stripes that are all like this one."""
    return not stripe["stopped"] and not stripe["busy"] and not stripe["settling"]


def status_lines(stripes, copies, most, has_colours, *, is_watched=False, is_long=False, told=None):
    """The status as tables: a row a leg; and one a stripe where all are wanted, or a group of stripes that differ."""
    groups = [([stripe["stripe"]], stripe) for stripe in stripes] if is_long else groups_of(stripes)
    lines = []
    if count_of_legs(stripes):
        lines += lines_of(rows_of_legs(stripes, copies, is_watched, told or {}), most, has_colours)
    if is_long or len(groups) > 1 or not all(is_ordinary(stripe) for _, stripe in groups):
        rows = rows_of_stripes(groups, False)
        if most is not None and width_of(rows) > most:
            rows = rows_of_stripes(groups, True)
        lines += [""] * bool(lines) + lines_of(rows, most, has_colours)
    return lines


def unread_sentence(unread):
    """Which regions cannot be read, or nothing where there are none. The first eight are named."""
    if not unread or not unread["count"]:
        return ""
    count = unread["count"]
    named_ones = [f"{region['length']} bytes at {region['offset']}" for region in unread["regions"][:8]]
    more = [f"{count - len(named_ones)} more"] if count > len(named_ones) else []
    return f"{count} {'region' if count == 1 else 'regions'} cannot be read: {', '.join(named_ones + more)}"


def copy_rate_sentence(rate):
    """At what rate legs are copied: MiB a second, or 0 or None for the default."""
    return f"copies go at {rate} MiB/s" if rate else "copies go as fast as clients leave room for"


def marks_sentence(marked, stripes):
    """How many spans are marked, and whether that is well: where legs are in sync, marks go soon after the last write."""
    if not marked:
        return "no span is marked"
    is_whole = not legs_in(stripes, "out") and not legs_in(stripes, "join") and not any(one["stopped"] for one in stripes)
    why = "which is well: something was written of late" if is_whole else "until all legs are in sync"
    return f"{marked} {'span is' if marked == 1 else 'spans are'} marked, {why}"


def superblock_sentence(superblock, stripes=()):
    """How the superblocks of these stripes stand, or nothing where there are none."""
    if not superblock:
        return ""
    if superblock["failed"]:
        return "superblocks cannot be written: the mirror is read-only"
    marked, unsaved = superblock["marked_spans"], superblock["unsaved_stripes"]
    parts = [f"superblock: generation {superblock['generation']}",
             marks_sentence(marked, stripes)]
    if unsaved:
        parts.append(f"a loss in {unsaved} {'stripe' if unsaved == 1 else 'stripes'} is being saved")
    return ", ".join(parts)


def failed_reads_sentence(failed):
    """That reads failed of a leg which stays, since no other is in sync there."""
    count, error = failed["count"], failed["error"]
    return f"{count} {'read' if count == 1 else 'reads'} of leg {failed['leg']} failed, the last leg in sync there, " \
           f"the first at byte {failed['first']}{': ' if error else ''}{error or ''}"


def stopped_groups(stripes):
    """The stripes that are stopped, by the leg on which they stopped: None where that is not known."""
    groups = {}
    for stripe in stripes:
        if stripe["stopped"]:
            groups.setdefault(stripe.get("last_leg"), []).append(stripe["stripe"])
    return groups


def stopped_sentence(numbers, last):
    """That these stripes are stopped, and on which leg, where that is known."""
    whose = "its" if len(numbers) == 1 else "their"
    return f"{named(numbers)} stopped" + (f", {whose} last leg is leg {last}" if last is not None else "")


def waits_sentence(stripes):
    """What stripes that stopped wait for."""
    told = "; ".join(stopped_sentence(numbers, last) for last, numbers in stopped_groups(stripes).items())
    return f"{told}: mend what failed, then nbdmirrorctl reopen all"


def health(stripes, unread=None, superblock=None, failed_reads=(), finding=None):
    """What a monitoring check says: its level, and why in a line."""
    found, count = [], len(stripes)
    found += [(CRITICAL, failed_reads_sentence(failed)) for failed in failed_reads]
    if is_open(finding):
        found.append((CRITICAL, finding_sentence(finding)))
    if superblock and superblock["failed"]:
        found.append((CRITICAL, superblock_sentence(superblock)))
    if text := unread_sentence(unread):
        found.append((CRITICAL, text))
    found += [(CRITICAL, stopped_sentence(numbers, last)) for last, numbers in stopped_groups(stripes).items()]
    for leg, left in sorted(legs_in(stripes, "out").items()):
        found.append((CRITICAL, f"leg {leg} is out in {places(len(left), count)}"))
    for leg, left in sorted(legs_in(stripes, "join").items()):
        found.append((WARNING, f"leg {leg} is being copied, {mib(sum(left))} left"))
    if busy := [stripe["stripe"] for stripe in stripes if stripe["busy"]]:
        found.append((WARNING, f"{named(busy)} busy: a leg hangs, or is slow"))
    if not found:
        legs = count_of_legs(stripes)
        return OK, f"{legs} {'leg' if legs == 1 else 'legs'} in sync in {places(count, count)}"
    return max(level for level, _ in found), "; ".join(text for _, text in found)


def whole_line(level, whole):
    """The mirror as a whole in a line, where its server tells of that: its word, the export, and the server's version."""
    export, version = whole["export"], whole["version"]
    if not export:
        return ""
    name = f" {export['name']}" if export["name"] else ""
    return check_line(level, f"export{name}, {mib(export['size'] / BLOCK)}" + (f", nbdmirror {version}" if version else ""))


def check_line(level, text):
    """The line of a monitoring check."""
    return f"{LEVEL_NAMES[level]}: {text}"


def fail_sentence(leg, failed, last, out, stopped):
    """What became of a leg that was to go out, in so many stripes each."""
    count = failed + last + out + stopped
    parts = [(failed, f"is out now in {places(failed, count)}"), (out, f"was out before in {places(out, count)}"),
             (last, f"stays in {places(last, count)}, where it is the last one in sync")]
    return sentence(leg, parts, stopped, count)


def attach_sentence(leg, joining, left, not_out, stopped):
    """What became of a leg that was to be copied, in so many stripes each."""
    count = joining + not_out + stopped
    parts = [(joining, f"is being copied in {places(joining, count)}, {mib(left)} in all"),
             (not_out, f"was not out in {places(not_out, count)}")]
    return sentence(leg, parts, stopped, count)


def replace_sentence(leg, joining, left, out, stopped):
    """What became of a leg whose file was to be opened anew and copied whole, in so many stripes each."""
    count = joining + out + stopped
    parts = [(joining, f"has its new file, and is being copied in {places(joining, count)}, {mib(left)} in all"),
             (out, f"stays out in {places(out, count)}")]
    return sentence(leg, parts, stopped, count)


def retire_sentence(leg):
    """That a leg is out for good."""
    return f"leg {leg} is out for good: start without its name from now on"


# What a server answers where it does not do what was asked of a leg.
REFUSALS = {
    "stopped": "stays as it is: a stripe is stopped",
    "retired": "is out for good",
    "not the highest": "stays as it is: retire the last leg first",
    "last": "is the only one in sync in some stripe, and stays",
    "busy": "is being replaced, or a call of it has not returned: ask again",
    "in use": "is out, and stays so: the file of its name is in use",
    "locked": "is out, and stays so: another process has locked the file of its name",
    "length": "is out, and stays so: the file of its name has another length",
    "cannot open": "is out, and stays so: the file of its name, or of its superblock, cannot be opened",
    "not saved": "is out, and stays so: no superblock can be written",
    "is a block device: give --superblock FOLDER":
        "is out, and stays so: the file of its name is a block device, which needs --superblock FOLDER",
    "no file": "stays as it is: the file of its name cannot be opened",
    "was cut": "stays as it is: its file was made shorter, and may lack anything. Make it as long as it was, and replace it:"
               " nbdmirrorctl replace {leg}",
    "another file": "stays as it is: another file has its name, or it was changed. To have that copied whole:"
                    " nbdmirrorctl replace {leg}",
}


def refusal_sentence(leg, word, missing=None, unopened=None):
    """Why a server does not do what was asked of a leg. Of one whose file is missing its name and the reason at the start are
    known, of one whose name was just opened in vain its name and the reason."""
    if unopened and word == "no file":
        name, reason = unopened
        return f"leg {leg} ({name}) cannot be opened: {reason}"
    if not missing:
        return f"leg {leg} {REFUSALS[word].format(leg=leg)}"
    name, reason = missing
    if word == "no file":
        return f"leg {leg} ({name}) cannot be opened; at the start: {reason}"
    return f"leg {leg} ({name}) {REFUSALS[word].format(leg=leg)}"


def missing_sentences(missing):
    """A sentence for each leg whose file is not open."""
    return [f"leg {leg} ({name}) is not open: {reason}" for leg, (name, reason) in sorted(missing.items())]


def reopen_sentence(opened, left, stopped, is_writable=False, out=()):
    """What became of stripes that were to be opened anew, of a mirror that could not be written to, and of legs that
    stay out."""
    told = ["superblocks are written again: the mirror is no longer read-only"] * is_writable
    if opened:
        told.append(f"{opened} {'stripe was' if opened == 1 else 'stripes were'} opened anew, {mib(left)} to copy")
    if stopped:
        told.append(f"{stopped} {'stripe stays' if stopped == 1 else 'stripes stay'} stopped")
    told = told or ["no stripe was stopped"]
    told += [f"leg {leg} stays out: nbdmirrorctl attach {leg}" for leg in out]
    return "; ".join(told)


def sentence(leg, parts, stopped, count):
    """A leg, and those of these facts that hold in some stripe."""
    facts = [text for stripes, text in parts if stripes]
    told = [f"leg {leg} {', and '.join(facts)}"] if facts else []
    if stopped:
        told.append(f"{places(stopped, count)} {'is' if stopped == 1 else 'are'} stopped")
    return "; ".join(told)
