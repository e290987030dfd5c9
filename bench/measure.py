"""Calls of programs, measured: what the scripts of this folder share."""

import collections
import os
import subprocess
import sys
import tempfile
import time

TOP = os.path.dirname(os.path.dirname(os.path.abspath(__file__)))
HALTED, OTHER_END, RIGHT, NOT_WRITTEN = 0, 1, 0, 5

# Cores that load, add and store in one word until their budget is spent: two accesses in six cycles.
SHARED_WORD = b"""loop: lw $t0, 0x100($zero)
addiu $t0, $t0, 1
b loop
sw $t0, 0x100($zero)
"""

# The best processor time of many runs, user and system, and the best on the clock, in seconds; and the greatest resident set
# in KiB.
Measured = collections.namedtuple("Measured", "processor clock peak")


def expect(command, status, due):
    """Ends the script where a call ended with another status than is due: its time says nothing."""
    if status != due:
        sys.exit("%s: %s: status %d, and not %d" % (os.path.basename(sys.argv[0]), " ".join(command), status, due))


def built(name):
    """The program of a crate, which is built first where that is due."""
    command = [os.path.join(TOP, name), "run"]
    expect(command, subprocess.run(command, input=b"halt", stdout=subprocess.DEVNULL, check=False).returncode, HALTED)
    return os.path.join(TOP, "crates", name, "out", name)


def measured(command, text, runs, due, output=os.devnull):
    """Runs a command as often, each time with the text as its input and a file for its output."""
    processor, clock, peak = [], [], 0
    with tempfile.TemporaryFile() as file, open(output, "wb") as out:
        file.write(text)
        for _ in range(runs):
            file.seek(0)
            begun = time.monotonic()
            process = subprocess.Popen(command, stdin=file, stdout=out, stderr=subprocess.DEVNULL)
            _, ended, usage = os.wait4(process.pid, 0)
            clock.append(time.monotonic() - begun)
            processor.append(usage.ru_utime + usage.ru_stime)
            peak = max(peak, usage.ru_maxrss)
            process.returncode = os.waitstatus_to_exitcode(ended)
            expect(command, process.returncode, due)
    return Measured(min(processor), min(clock), peak)


def answer(command, text):
    """What a call writes."""
    return subprocess.run(command, input=text, capture_output=True, check=False).stdout
