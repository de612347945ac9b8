"""What the hostile scripts share: nbd.py of the folder above, and how much of something they do.

FORM is `short` or `long`.
"""
import os
import sys

sys.path.insert(0, os.path.dirname(os.path.dirname(os.path.abspath(__file__))))
from nbd import *  # pylint: disable=wrong-import-position,wildcard-import,unused-wildcard-import

FORM = os.environ.get("FORM", "short")


def scale(short, long):
    """How much of something the asked form does."""
    return long if FORM == "long" else short


def machine_is_busy():
    """Whether more threads want to run than there are processors."""
    return os.getloadavg()[0] > len(os.sched_getaffinity(0))


def not_run(why):
    """Leaves with the status that says that this could not be tried here."""
    print(f"  {why}", flush=True)
    sys.exit(77)
