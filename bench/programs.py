"""What the scripts of this folder share: where the program is, and how a call of it is timed."""

import os
import resource
import shutil
import subprocess
import sys
import time

HERE = os.path.dirname(os.path.abspath(__file__))
ROOT = os.path.dirname(HERE)
TLUA = os.path.join(ROOT, "crates", "tlua", "out", "tlua")


def tlua():
    """The built program, or the end of the script."""
    if not os.path.isfile(TLUA):
        sys.exit("the program isn't built: run ./tlua run examples/first/main.lua once")
    return TLUA


def peer(*names):
    """The first of these programs that is installed, or None."""
    return next((it for it in map(shutil.which, names) if it), None)


def timed(words, rounds=3):
    """The least processor seconds of some calls, and what the last one wrote and ended with."""
    least, ran = None, None
    for _ in range(rounds):
        before = resource.getrusage(resource.RUSAGE_CHILDREN)
        ran = subprocess.run(words, stdin=subprocess.DEVNULL, capture_output=True)
        after = resource.getrusage(resource.RUSAGE_CHILDREN)
        seconds = after.ru_utime + after.ru_stime - before.ru_utime - before.ru_stime
        least = seconds if least is None else min(least, seconds)
    return least, ran


def wall(words, timeout):
    """A call's wall seconds, or None where it doesn't end in time, and what it wrote and ended with."""
    begun = time.monotonic()
    try:
        ran = subprocess.run(words, stdin=subprocess.DEVNULL, capture_output=True, timeout=timeout)
    except subprocess.TimeoutExpired:
        return None, None
    return time.monotonic() - begun, ran
