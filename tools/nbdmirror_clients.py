"""The clients of a running nbdmirror: what its control port tells of them, and a table for a person.

It needs nothing but an interpreter's standard library, and the other modules of nbdmirrorctl in its own folder.
"""
import re

from nbdmirror_control import Trouble
from nbdmirror_report import Cell, lines_of

CLIENT = re.compile(r"client (\d{1,20}) (\S{1,64}) since (\d{1,20}) idle (\d{1,20}) requests (\d{1,20})")
# What no server has more of.
MOST_CLIENTS = 1024
UNITS = {"d": 86400, "h": 3600, "min": 60}


def clients_of(control):
    """The clients that are connected, by rising number."""
    control.send("clients")
    clients = []
    while (line := control.next_line()) != "end":
        found = CLIENT.fullmatch(line)
        if not found or len(clients) >= MOST_CLIENTS:
            raise Trouble(f"the server answered '{line}'")
        clients.append({"client": int(found[1]), "address": found[2], "since": int(found[3]), "idle": int(found[4]),
                        "requests": int(found[5])})
    return sorted(clients, key=lambda client: client["client"])


def kick(control, number):
    """Has the server close a client. Whether there is one of this number."""
    answer = control.ask(f"kick {number}")
    if answer not in (f"kick {number}: closed", "no such client"):
        raise Trouble(f"the server answered '{answer}'")
    return answer != "no such client"


def lasting(seconds):
    """A time, in the largest unit of which it has two."""
    for unit, length in UNITS.items():
        if seconds >= 2 * length:
            return f"{seconds // length} {unit}"
    return f"{seconds} s"


def client_lines(clients, most):
    """A table with a row a client, of at most so many columns."""
    if not clients:
        return ["no client is connected"]
    rows = [["client", "address", "connected", "idle", "requests"]]
    rows += [[str(client["client"]), client["address"], lasting(client["since"]), lasting(client["idle"]),
              str(client["requests"])] for client in clients]
    return lines_of([[Cell(text) for text in row] for row in rows], most, False)
