"""The command line of nbdmirrorctl: its commands, and the words that each of them takes.

It needs nothing but an interpreter's standard library, and nbdmirror_control.py in its own folder.
"""
import argparse
import math
import os
import shutil

from nbdmirror_control import DEFAULT, SERVICE, TIMEOUT_SECONDS, UNIX

# That of the server which these files came with.
VERSION = "0.1.0"
# How long `wait` waits for a server, and `monitor` between two looks.
WAIT_SECONDS, MONITOR_SECONDS = 60, 5.0


def number_of(word, digits):
    return int(word) if 1 <= len(word) <= digits and word.isascii() and word.isdigit() else None


def leg_number(word):
    number = number_of(word, 20)
    if number is None:
        raise argparse.ArgumentTypeError("a leg is a number from 0 to 7")
    return number


def stripe_number(word):
    number = number_of(word, 20)
    if number is None:
        raise argparse.ArgumentTypeError("a stripe is a number, as `status -v` tells it")
    return number


def stripe_or_all(word):
    number = number_of(word, 20)
    if word != "all" and number is None:
        raise argparse.ArgumentTypeError("a stripe is a number, as `status -v` tells it, or all")
    return word if number is None else number


def client_number(word):
    number = number_of(word, 20)
    if number is None:
        raise argparse.ArgumentTypeError("a client is a number, as `clients` tells it")
    return number


def whole_seconds(word):
    number = number_of(word, 5)
    if number is None or number > 86400:
        raise argparse.ArgumentTypeError("a number of whole seconds, 0 to 86400")
    return number


def mib_a_second(word):
    number = number_of(word, 5)
    if word != "default" and (number is None or not 1 <= number <= 65535):
        raise argparse.ArgumentTypeError("MiB a second, 1 to 65535, or default")
    return word if number is None else number


def some_seconds(word):
    try:
        seconds = float(word)
    except ValueError:
        seconds = math.nan
    if not 0.001 <= seconds <= 86400:
        raise argparse.ArgumentTypeError("a number of seconds, 0.001 to 86400")
    return seconds


def address_of(word):
    """An address and a port, or the path of a Unix socket."""
    if word.startswith(UNIX) and word != UNIX:
        return word.removeprefix(UNIX)
    host, colon, port = word.rpartition(":")
    number = number_of(port, 5)
    if not colon or number is None or not 0 < number < 65536:
        raise argparse.ArgumentTypeError(f"{word!a} is no ADDRESS:PORT and no unix:PATH")
    return host.removeprefix("[").removesuffix("]"), number


def program_of(word):
    """A program that can be run."""
    path = shutil.which(word)
    if path is None:
        raise argparse.ArgumentTypeError(f"{word!a} is no program that can be run")
    return path


def add_interval(one, default=1.0):
    one.add_argument("--interval", type=some_seconds, default=default, metavar="SECONDS",
                     help=f"between two looks, at most (default {default:g})")


def add_status(command):
    """The words of `status`."""
    one = command("status", "how the legs are")
    form = one.add_mutually_exclusive_group()
    form.add_argument("--json", action="store_true", help="for machines")
    form.add_argument("--check", action="store_true", help="a line for monitoring, and status 0, 1 or 2")
    form.add_argument("-v", "--verbose", action="store_true", help="and each stripe")
    one.add_argument("--watch", action="store_true", help="again and again")
    add_interval(one)


def add_legs(command):
    """The words of what is done with a leg."""
    command("fail", "take a leg out").add_argument("leg", type=leg_number)
    command("retire", "take the last leg out for good").add_argument("leg", type=leg_number)
    command("pause", "copy no more to a leg until it is resumed").add_argument("leg", type=leg_number)
    command("resume", "copy to a leg again that was paused").add_argument("leg", type=leg_number)
    for name, text in (("attach", "copy a leg again"), ("replace", "open a leg's file anew and copy it whole")):
        one = command(name, text)
        one.add_argument("leg", type=leg_number)
        one.add_argument("--watch", action="store_true", help="and show the copy until it is done")
        add_interval(one)
    reopen = command("reopen", "open a stripe that stopped anew")
    reopen.add_argument("stripe", type=stripe_or_all, metavar="STRIPE", help="its number, or all")
    rate = command("copy-rate", "show or set the rate at which legs are copied")
    rate.add_argument("rate", type=mib_a_second, nargs="?", metavar="MIB", help="MiB a second, or default")


def add_history(command):
    """The words of `history`."""
    one = command("history", "the last reads and writes of a stripe")
    one.add_argument("stripe", type=stripe_number, metavar="STRIPE", help="its number")
    one.add_argument("--json", action="store_true", help="for machines")


def add_ends(command):
    """The words of what has to do with the server's end and its start."""
    end = command("quit", "end the server")
    end.add_argument("seconds", type=whole_seconds, nargs="?", metavar="SECONDS",
                     help="after which clients that are still connected are cut off")
    end.add_argument("--which-master", action="store_true", help="ask which-master first, and print its answer")
    wait = command("wait", "end once the server serves")
    wait.add_argument("seconds", type=whole_seconds, nargs="?", metavar="SECONDS", default=WAIT_SECONDS,
                      help=f"after which it fails (default {WAIT_SECONDS})")
    wait.add_argument("--pid", type=int, metavar="PID", help="the server's process: it fails once that has ended")


def add_verify(command):
    """The words of `verify`."""
    one = command("verify", "compare the legs in sync, in the background")
    form = one.add_mutually_exclusive_group()
    form.add_argument("--wait", action="store_true", help="until it is over, and tell what differs")
    form.add_argument("--stop", action="store_true", help="end it where it is")
    one.add_argument("--repair", type=leg_number, metavar="N",
                     help="write what differs on leg N anew, as all other legs hold it")
    one.add_argument("--json", action="store_true", help="for machines, with --wait")


def add_monitor(command):
    """The words of `monitor`."""
    one = command("monitor", "tell what changes, until it is interrupted")
    one.add_argument("--exec", type=program_of, metavar="PROGRAM", help="is run with each change, which is not printed")
    add_interval(one, MONITOR_SECONDS)


def add_commands(command):
    """Each command with its words."""
    add_status(command)
    command("info", "since when the server serves, or how far its start is")
    add_history(command)
    add_legs(command)
    command("clients", "who is connected").add_argument("--json", action="store_true", help="for machines")
    command("kick", "close a client's connection").add_argument("client", type=client_number)
    add_verify(command)
    add_interval(command("watch", "show a copy until it is done"))
    add_monitor(command)
    command("which-master", "the legs that are in sync in every stripe")
    command("metrics", "what the server has counted, as Prometheus reads it")
    add_ends(command)


def parse(arguments):
    """The words of a command line: its command, and what that takes. Wrong words end the program with status 2."""
    parser = argparse.ArgumentParser(prog="nbdmirrorctl", description="Controls a running nbdmirror.",
                                     allow_abbrev=False)
    parser.add_argument("--version", action="version", version=f"nbdmirrorctl {VERSION}")
    default = f"{UNIX}{SERVICE}" if os.path.exists(SERVICE) else DEFAULT
    parser.add_argument("--control", type=address_of, default=os.environ.get("NBDMIRROR_CONTROL", default),
                        metavar="ADDR:PORT",
                        help=f"the control port, or unix:PATH (default NBDMIRROR_CONTROL, or else {default})")
    parser.add_argument("--timeout", type=some_seconds, default=TIMEOUT_SECONDS, metavar="SECONDS",
                        help=f"how long an answer may take (default {TIMEOUT_SECONDS})")
    commands = parser.add_subparsers(dest="command", required=True)
    add_commands(lambda name, text: commands.add_parser(name, help=text, description=text, allow_abbrev=False))
    words = parser.parse_args(arguments)
    if words.command == "status" and words.watch and (words.json or words.check):
        parser.error("status: --watch goes with a table")
    if words.command == "verify" and words.json and not words.wait:
        parser.error("verify: --json goes with --wait")
    if words.command == "verify" and words.stop and words.repair is not None:
        parser.error("verify: --stop goes without --repair")
    return words
