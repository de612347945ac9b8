"""The control port of nbdmirror: lines in, lines out. nbdmirrorctl and the scripts of interop/ speak to it by this.

It needs nothing but an interpreter's standard library.
"""
import re
import socket
import time

DEFAULT = "127.0.0.1:10810"
# What stands before the path of a Unix socket, and where the one of packaging/ is.
UNIX = "unix:"
SERVICE = "/run/nbdmirror/control"
# What each line of an answer begins with while the server opens its mirror.
STARTING = "starting: "
# The server gives a line and its answer 60 seconds.
TIMEOUT_SECONDS = 70
# After so long without an answer a person is told what that may mean.
QUIET_SECONDS = 2
# What it means that none comes. An older server serves one connection at a time, and none after a quit.
NO_ANSWER = "a leg hangs, or the control port is busy"
# What a line of which no answer came may do yet, where it does something.
STILL = {"fail", "attach", "replace", "retire", "pause", "resume", "reopen", "kick", "copy-rate", "verify", "quit"}
# What no server sends more of: bytes in a line, stripes, and lines of metrics.
MOST_BYTES, MOST_STRIPES, MOST_METRICS = 4096, 1024, 4096
STRIPE = re.compile(r"stripe (\d{1,20}): (.*)")
RUNNING = re.compile(r"master (\d{1,20}) settling (yes|no) legs((?: (?:in|out|join\(\d{1,20}\)))+)")
FAILED = re.compile(r"fail (\d+): failed (\d+) last (\d+) out (\d+) stopped (\d+)( unsaved)?")
UNSYNCED = re.compile(r'nbdmirror_leg_unsynced_bytes\{leg="(\d{1,3})"\} (\d{1,20})')
UNREAD = re.compile(r"unread (\d{1,20}) (\d{1,20}) (\d{1,20}) (\d{1,20})")
UNREAD_END = re.compile(r"end (\d{1,20})")
HISTORY = re.compile(r"history (\d{1,20}): (\d{1,4}) of (\d{1,20})")
ENTRY = re.compile(r"(\d{1,20}) (?:read|write (\d{1,20})) (\d{1,20}) ([0-9a-f]{16})")
COPY_RATE = re.compile(r"copy-rate (\d{1,5}|default)")
ATTACHED = re.compile(r"attach (\d+): joining (\d+) left (\d+) notout (\d+) stopped (\d+)( unsaved)?")
REPLACED = re.compile(r"replace (\d+): joining (\d+) left (\d+) out (\d+) stopped (\d+)( unsaved)?")
REFUSED = re.compile(r"(?:fail|attach|replace|retire) \d+: (last|busy|stopped|retired|not the highest|in use|locked|length|cannot open|not saved"
                     r"|is a block device: give --superblock FOLDER|no file|was cut|another file)")
PAUSED = re.compile(r"leg (\d{1,3}): paused")
RETIRED = re.compile(r"retire (\d+): out( unsaved)?")
REOPENED = re.compile(r"reopen: opened (\d+) left (\d+) stopped (\d+)")
# What a server says of a mirror as a whole beside its stripes, a word and a colon before it.
WHOLE = re.compile(r"(?!stripe )[a-z]+: .*")
EXPORT = re.compile(r"export: size (\d{1,20})(?: name (.+))?")
VERSION = re.compile(r"server: version (\S{1,64})(?: started (\d{1,20}))?")
SERVING = re.compile(r"serving: up (\d{1,20}) s")
MISSING = re.compile(r"leg (\d{1,3}): no file: (.*): (.*?)(?: \(os error \d+\))?")
LEG_FILE = re.compile(r"leg (\d{1,3}): file (.+)")
LEG_OUT = re.compile(r"leg (\d{1,3}): out since (\d{1,20})(?:: (.*?)(?: \(os error \d+\))?)?")
LEG_UNOPENED = re.compile(r"leg (\d{1,3}): cannot be opened: (.*?)(?: \(os error \d+\))?")
STOPPED = re.compile(r"stopped: last leg (\d{1,3}) stripes((?: \d{1,20})+)")
FAILED_READS = re.compile(r"leg (\d{1,3}): failed reads (\d{1,20}), the first at byte (\d{1,20})"
                          r"(?:: (.*?)(?: \(os error \d+\))?)?")
SUPERBLOCK = re.compile(r"superblock: generation (\d{1,20}) marked (\d{1,20}) unsaved (\d{1,20})( failed)?")
# What no server sends more of as an answer to `info`.
MOST_INFO = 64


class Trouble(Exception):
    """Why there is no answer that can be used."""


def open_socket(address, timeout):
    """A connection to an address and a port, or to the path of a Unix socket."""
    if not isinstance(address, str):
        return socket.create_connection(address, timeout=timeout)
    stream = socket.socket(socket.AF_UNIX)
    try:
        stream.settimeout(timeout)
        stream.connect(address)
    except BaseException:
        stream.close()
        raise
    return stream


class Control:
    """One connection to the control port, which is an address and a port, or the path of a Unix socket."""

    def __init__(self, address, timeout=TIMEOUT_SECONDS, tell=None):
        """`tell` is called with a text where an answer takes long, once."""
        self.timeout, self.tell, self.data, self.still = timeout, tell, b"", ""
        self.end = time.monotonic() + timeout
        name = f"{UNIX}{address}" if isinstance(address, str) else f"{address[0]}:{address[1]}"
        try:
            self.socket = open_socket(address, timeout)
        except (ConnectionRefusedError, FileNotFoundError) as error:
            raise Trouble(f"cannot reach {name}: the server does not run") from error
        except (OSError, UnicodeError) as error:
            raise Trouble(f"cannot reach {name}: {error}") from error

    def __enter__(self):
        return self

    def __exit__(self, *_):
        self.socket.close()

    def send(self, *lines):
        """Sends these lines in one piece, so that no other command comes between them."""
        self.end = time.monotonic() + self.timeout
        is_order = any(line.split(" ")[0] in STILL for line in lines)
        self.still = "; the server may still do it" if is_order else ""
        try:
            self.socket.settimeout(self.timeout)
            self.socket.sendall("".join(f"{line}\n" for line in lines).encode("ascii"))
        except OSError as error:
            raise Trouble(f"the connection broke: {error}") from error

    def receive(self):
        """The next bytes that the server sends."""
        while True:
            left = self.end - time.monotonic()
            try:
                self.socket.settimeout(max(0.001, min(left, QUIET_SECONDS) if self.tell else left))
                data = self.socket.recv(1 << 16)
            except TimeoutError as error:
                if not self.tell or self.end <= time.monotonic():
                    raise Trouble(f"no answer within {self.timeout:g} seconds: {NO_ANSWER}{self.still}") from error
                tell, self.tell = self.tell, None
                tell(f"no answer yet: {NO_ANSWER}; it may take {self.timeout:g} seconds")
                continue
            except OSError as error:
                raise Trouble(f"the connection broke: {error}") from error
            if not data:
                raise Trouble("the server closed the connection")
            return data

    def next_line(self):
        """The next line of an answer of a server that serves."""
        line = self.any_line()
        if line.startswith(STARTING):
            raise Trouble(f"the server is {line}")
        return line

    def any_line(self):
        """The next line that the server sends."""
        while b"\n" not in self.data:
            if len(self.data) > MOST_BYTES:
                raise Trouble(f"the server answered {self.data[:40]} and no end of the line")
            self.data += self.receive()
        line, _, self.data = self.data.partition(b"\n")
        if len(line) > MOST_BYTES or not (line.isascii() and line.decode("ascii").isprintable()):
            raise Trouble(f"the server answered {line[:80]}")
        return line.decode("ascii")

    def ask(self, line):
        """The first line of the answer to a line."""
        self.send(line)
        return self.next_line()

    def info(self):
        """The lines that the server says of itself, also while it opens its mirror."""
        # A line that is no command ends the answer, since servers say more or less of themselves.
        self.send("info", "end")
        lines = [self.any_line()]
        if not SERVING.fullmatch(lines[0]):
            return lines
        while (line := self.next_line()) != "bad command":
            lines.append(line)
            if len(lines) > MOST_INFO:
                raise Trouble("the server answered with no end of what it is")
        return lines

    def superblock(self):
        """How the superblocks stand."""
        return superblock_in(self.info())

    def status_lines(self):
        """The lines of a status that was asked for, without the last one, which says `end`."""
        lines = []
        while (line := self.next_line()) != "end":
            lines.append(line)
            if len(lines) > MOST_STRIPES:
                raise Trouble("the server answered with no end of stripes")
        return lines

    def status(self):
        """The stripes, each as a dictionary."""
        return self.status_of_all()[0]

    def status_of_all(self):
        """The stripes, each as a dictionary, and what is told beside them of the mirror as a whole."""
        self.send("status")
        lines = self.status_lines()
        return stripes_in(lines), whole_in(lines)

    def unread(self):
        """The regions that could not be read, so that they were not copied. None where the server does not tell."""
        self.send("unread")
        regions = []
        while found := UNREAD.fullmatch(line := self.next_line()):
            regions.append(dict(zip(("stripe", "region", "offset", "length"), map(int, found.groups()))))
        end = UNREAD_END.fullmatch(line)
        return {"count": int(end[1]), "regions": regions, "left_out": int(end[1]) - len(regions)} if end else None

    def history(self, stripe):
        """What a stripe has read and written last, as a dictionary. None where there is no such stripe, or it is busy, and
        the line that says so."""
        line = self.ask(f"history {stripe}")
        if line in ("bad command", f"history {stripe}: busy"):
            return None, line
        found, entries = HISTORY.fullmatch(line), []
        if not found or int(found[1]) != stripe:
            raise Trouble(f"the server answered '{line}'")
        for _ in range(int(found[2])):
            entries.append(entry_of(self.next_line()))
        if (end := self.next_line()) != "end":
            raise Trouble(f"the server answered '{end}'")
        return {"stripe": stripe, "kept": int(found[2]), "total": int(found[3]), "entries": entries}, line

    def metrics(self):
        """What the server has counted, as lines in the text form that Prometheus reads."""
        self.send("metrics")
        lines = []
        while (line := self.next_line()) != "end":
            if line == "bad command":
                raise Trouble("the server knows no metrics")
            lines.append(line)
            if len(lines) > MOST_METRICS:
                raise Trouble("the server answered with no end of metrics")
        return lines

    def unsynced(self):
        """How many bytes the regions of each leg have in which something is not synced, where the server tells."""
        try:
            found = map(UNSYNCED.fullmatch, self.metrics())
        except Trouble:
            return {}
        return {int(line[1]): int(line[2]) for line in found if line}

    def copy_rate(self):
        """At how many MiB a second legs are copied. None where that is not set, or the server does not tell."""
        return rate_of(self.ask("copy-rate")) or None


def rate_of(answer):
    """The rate that an answer tells, in MiB a second: 0 where copies have the default, None where it tells none."""
    found = COPY_RATE.fullmatch(answer)
    return found and (0 if found[1] == "default" else int(found[1]))


def entry_of(line):
    """A line of a stripe's history: an entry's number, what it did to which of the stripe's own blocks, and a digest of
    that block's bytes; of a write its ticket too."""
    found = ENTRY.fullmatch(line)
    if not found:
        raise Trouble(f"the server answered '{line}'")
    kind = {"kind": "read"} if found[2] is None else {"kind": "write", "ticket": int(found[2])}
    return {"seq": int(found[1]), **kind, "block": int(found[3]), "digest": found[4]}


def superblock_in(lines):
    """How the superblocks stand by what a server says of itself. None where there are none, or it does not tell."""
    return next((told for told in map(superblock_of, lines) if told), None)


def missing_in(lines):
    """Each leg whose file is not open by what a server says of itself: that file's name, and why at the start."""
    return {int(found[1]): (found[2], found[3]) for found in map(MISSING.fullmatch, lines) if found}


def failed_reads_in(lines):
    """The legs of which reads failed where no other leg is in sync, by what a server says of itself: at how many places,
    the first byte, and why there."""
    return [{"leg": int(found[1]), "count": int(found[2]), "first": int(found[3]), "error": found[4]}
            for found in map(FAILED_READS.fullmatch, lines) if found]


def told_of_legs(lines):
    """What a server says of each leg: the name of its `file`, and of one that is out `out_since` and its `reason`."""
    legs = {int(found[1]): {"file": found[2], "out_since": None, "reason": None}
            for found in map(LEG_FILE.fullmatch, lines) if found}
    for found in filter(None, map(LEG_OUT.fullmatch, lines)):
        leg = legs.setdefault(int(found[1]), {"file": None})
        leg.update(out_since=int(found[2]) or None, reason=found[3])
    return legs


def unopened_in(lines):
    """Why the name of each leg was opened in vain that was, when it was last tried, by what a server says of itself."""
    return {int(found[1]): found[2] for found in map(LEG_UNOPENED.fullmatch, lines) if found}


def with_last_legs(stripes, lines):
    """These stripes, those that stopped with the leg on which they did, as far as a server says that of itself."""
    last = {int(stripe): int(found[1]) for found in filter(None, map(STOPPED.fullmatch, lines)) for stripe in found[2].split()}
    return [{**stripe, "last_leg": last[stripe["stripe"]]} if stripe["stopped"] and stripe["stripe"] in last else stripe
            for stripe in stripes]


def uptime_in(lines):
    """For how many seconds a server has served by what it says of itself, or None."""
    return next((int(found[1]) for found in map(SERVING.fullmatch, lines) if found), None)


def superblock_of(line):
    """What a line says of the superblocks, or None where it says nothing of them."""
    found = SUPERBLOCK.fullmatch(line)
    return found and {"generation": int(found[1]), "marked_spans": int(found[2]), "unsaved_stripes": int(found[3]),
                      "failed": bool(found[4])}


def leg_of(word):
    """A leg's state in a stripe, and how many blocks it lacks there: None where that is not told."""
    if word.startswith("join("):
        return {"state": "join", "left": int(word[5:-1])}
    return {"state": word, "left": 0 if word == "in" else None}


def stripe_of(line):
    """A line of the status. What a stripe that stopped, or whose lock stayed held, does not tell is not there."""
    found = STRIPE.fullmatch(line)
    if not found:
        raise Trouble(f"the server answered '{line}'")
    number, text = int(found[1]), found[2]
    if text == "stopped":
        return {"stripe": number, "stopped": True, "busy": False}
    if text == "busy":
        return {"stripe": number, "stopped": None, "busy": True}
    found = RUNNING.fullmatch(text)
    if not found:
        raise Trouble(f"the server answered '{line}'")
    return {
        "stripe": number,
        "stopped": False,
        "busy": False,
        "master": int(found[1]),
        "settling": found[2] == "yes",
        "legs": [leg_of(word) for word in found[3].split()],
    }


def stripes_in(lines):
    """The stripes of a status, each as a dictionary. A leg that is paused says so in each."""
    paused = {int(found[1]) for found in map(PAUSED.fullmatch, lines) if found}
    stripes = [stripe_of(line) for line in lines if not WHOLE.fullmatch(line) and not PAUSED.fullmatch(line)]
    for stripe in stripes:
        for number, leg in enumerate(stripe.get("legs", [])):
            leg["paused"] = number in paused
    return stripes


def paused_in(stripes):
    """The legs that are paused, by rising number."""
    return sorted({number for stripe in stripes for number, leg in enumerate(stripe.get("legs", [])) if leg.get("paused")})


def whole_in(lines):
    """What a status tells of the mirror as a whole: its `export`, with a `name`, where that can be printed, and a `size` in
    bytes, and the server's `version`. None of what it does not tell."""
    export = next(filter(None, map(EXPORT.fullmatch, lines)), None)
    return {"export": export and {"name": export[2], "size": int(export[1])}, "version": version_in(lines)}


def version_in(lines):
    """The version of a server that says this of itself, or None."""
    return next((found[1] for found in map(VERSION.fullmatch, lines) if found), None)


def legs_in(stripes, state):
    """The legs that are in this state in some stripe: what each still lacks, stripe by stripe."""
    found = {}
    for stripe in stripes:
        for number, leg in enumerate(stripe.get("legs", [])):
            if leg["state"] == state:
                found.setdefault(number, []).append(leg["left"])
    return found


def is_copying(stripes):
    """Whether something is left to copy to some leg."""
    return any(sum(left) for left in legs_in(stripes, "join").values())


def count_of_legs(stripes):
    """How many legs the mirror has, as far as its stripes tell."""
    return max((len(stripe.get("legs", [])) for stripe in stripes), default=0)


def legs_of(stripes):
    """Each leg in the whole mirror: the worst of its states, in how many stripes it is in sync, how many blocks it lacks
    in all, which is None where a stripe does not tell it, and whether it is paused."""
    found, paused = [], paused_in(stripes)
    is_told = all("legs" in stripe for stripe in stripes)
    states = {state: legs_in(stripes, state) for state in ("out", "join", "in")}
    for leg in range(count_of_legs(stripes)):
        state = next(state for state, legs in states.items() if leg in legs)
        left = sum(states["join"].get(leg, [])) if is_told and state != "out" else None
        found.append({"leg": leg, "state": state, "in_sync": len(states["in"].get(leg, [])), "left": left,
                      "paused": leg in paused})
    return found


def masters(stripes):
    """The legs that are in sync in every stripe. A stripe that stopped has none, and of a busy one none is known."""
    common = None
    for stripe in stripes:
        legs = stripe.get("legs", [])
        here = {number for number, leg in enumerate(legs) if leg["state"] == "in"}
        common = here if common is None else common & here
    return sorted(common or [])
