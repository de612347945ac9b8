"""A comparison of the legs in sync: what the server tells of it, and what nbdmirrorctl makes of that.

It needs nothing but an interpreter's standard library, and nbdmirror_control.py in its own folder.
"""
import re
import time

from nbdmirror_control import Trouble

RUNNING = re.compile(r"verify: running (\d{1,3}) %")
STOPPED = re.compile(r"verify: stopped at (\d{1,3}) %(.*)")
EQUAL = re.compile(r"verify: (\d{1,20}) regions compared, none differs(.*)")
DIFFER = re.compile(r"verify: (\d{1,20}) of (\d{1,20}) regions differ, the first at((?:,? stripe \d+ region \d+)+)"
                    r"; replace one leg to repair it(.*)")
PLACE = re.compile(r"stripe (\d+) region (\d+)")
UNREAD = re.compile(r"; (\d{1,20}) regions could not be read, the first at((?:,? ?leg \d+ stripe \d+ region \d+)+)")
UNREAD_PLACE = re.compile(r"leg (\d+) stripe (\d+) region (\d+)")
MISSED = re.compile(r"; (\d{1,20}) regions could not be compared")
REPAIRED = re.compile(r"; (\d{1,20}) regions repaired on leg (\d)")
FINDING = re.compile(r"finding: differing (\d{1,20}) compared (\d{1,20}) age (\d{1,20}) (open|partly|older) at"
                     r"((?: \d{1,20}\+\d{1,20})*)")
# What is said of a finding, by whether legs were replaced since.
STANDS = {"open": "", "partly": ", before a leg was replaced",
          "older": ", and are older than the copy of the leg that was replaced"}
# How long it is waited at first, and at most, before the server is asked again.
FIRST_PAUSE_SECONDS, PAUSE_SECONDS = 0.05, 1
# The exit status where legs are equal, where some differ, and where they could not all be compared.
SAME, OTHER, COULD_NOT = 0, 1, 2


def line_in(lines):
    """What a server that says this of itself tells of its comparison, or None where it knows of none such."""
    return next((line for line in lines if line.startswith("verify: ")), None)


def told_in(lines):
    """The same as a dictionary, or None where that cannot be told."""
    try:
        return found_in(line_in(lines) or "")
    except Trouble:
        return None


def sentence_of(told, finding=None):
    """What a status says of comparisons: how far one is, and what differs. Else nothing."""
    running = f"legs are being compared: {told['percent']} %" if told and told["state"] == "running" else ""
    if running or finding:
        return "\n".join(filter(None, (running, finding and finding_sentence(finding))))
    if told and told.get("differing"):
        return f"{told['differing']} of {told['compared']} regions differ by the last verify: see `nbdmirrorctl info`"
    return ""


def finding_in(lines):
    """What the last comparison found that found a difference, by what a server says of itself, or None."""
    found = next(filter(None, map(FINDING.fullmatch, lines)), None)
    if not found:
        return None
    regions = [dict(zip(("offset", "length"), map(int, place.split("+")))) for place in found[5].split()]
    return {"differing": int(found[1]), "compared": int(found[2]), "seconds_ago": int(found[3]), "state": found[4],
            "regions": regions, "left_out": int(found[1]) - len(regions)}


def is_open(finding):
    """Whether something still differs, as far as is known."""
    return bool(finding) and finding["state"] != "older"


def ago(seconds):
    """How long ago it was."""
    if seconds < 120:
        return f"{seconds} s ago"
    return f"{seconds // 60} min ago" if seconds < 7200 else f"{seconds // 3600} h ago"


def finding_sentence(finding):
    """What differs, where in the export, and when that was found. The first eight regions are named."""
    named = [f"{region['length']} bytes at {region['offset']}" for region in finding["regions"][:8]]
    more = finding["differing"] - len(named)
    places = ", ".join(named + [f"{more} more"] * (more > 0))
    verb = "differ" if is_open(finding) else "differed"
    return f"{finding['differing']} of {finding['compared']} regions {verb} by the last verify, " \
           f"{ago(finding['seconds_ago'])}{STANDS[finding['state']]}: {places}"


def repaired_in(rest):
    """What the end of a line tells of a leg that was repaired, if one was."""
    found = REPAIRED.search(rest)
    return {"repaired": {"leg": int(found[2]), "regions": int(found[1])}} if found else {}


def found_in(line):
    """What a line on a comparison tells, as a dictionary."""
    if found := RUNNING.fullmatch(line):
        return {"state": "running", "percent": int(found[1])}
    if found := STOPPED.fullmatch(line):
        return {"state": "stopped", "percent": int(found[1]), **repaired_in(found[2])}
    if line == "verify: none yet":
        return {"state": "none"}
    if found := EQUAL.fullmatch(line):
        differing, compared, places, rest = 0, int(found[1]), "", found[2]
    elif found := DIFFER.fullmatch(line):
        differing, compared, places, rest = int(found[1]), int(found[2]), found[3], found[4]
    else:
        raise Trouble(f"the server told '{line}'")
    unread, missed = UNREAD.search(rest), MISSED.search(rest)
    return {
        "state": "done", "compared": compared, "differing": differing,
        "regions": [{"stripe": int(stripe), "region": int(region)} for stripe, region in PLACE.findall(places)],
        "unread": int(unread[1]) if unread else 0,
        "unread_regions": [{"leg": int(leg), "stripe": int(stripe), "region": int(region)}
                           for leg, stripe, region in UNREAD_PLACE.findall(unread[2] if unread else "")],
        "not_compared": int(missed[1]) if missed else 0, **repaired_in(rest),
    }


def verdict(found):
    """The exit status of a comparison that is over."""
    if found["state"] != "done":
        return COULD_NOT
    if found["differing"]:
        return OTHER
    return COULD_NOT if found["unread"] or found["not_compared"] else SAME


def ask(control, line):
    """The server's answer to a line on comparisons. None where it names a leg that is not there."""
    answer = control.ask(line)
    if answer == "bad command" and line.startswith("verify repair "):
        return None
    if not answer.startswith("verify: "):
        raise Trouble(f"the server answered '{answer}' to '{line}'")
    return answer


def wait(connect, show):
    """The line that tells how the comparison ended which goes on. Each line before it is shown."""
    pause = FIRST_PAUSE_SECONDS
    while True:
        with connect() as control:
            line = line_in(control.info())
        if line is None:
            raise Trouble("the server tells of no comparison")
        if not RUNNING.fullmatch(line):
            return line
        show(line)
        time.sleep(pause)
        pause = min(PAUSE_SECONDS, 2 * pause)
