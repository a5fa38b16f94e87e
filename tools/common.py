"""What the scripts of acceptance/ and bench/ share: places in the repository, escaped names, and a child that is measured.

It imports little, since the peak memory of a child counts what its parent held.
"""

import os
import re
import time

ROOT = os.path.dirname(os.path.dirname(os.path.abspath(__file__)))
PROVED = os.path.join(ROOT, "crates", "brestore", "out", "brestore")
BUILT = os.path.join(ROOT, "out", "build", "brestore")
# The proved program if there is one, else the one that tools/build makes.
PROGRAM = PROVED if os.path.exists(PROVED) or not os.path.exists(BUILT) else BUILT
KEEPER_PROGRAM = os.path.join(ROOT, "crates", "br_test_commits", "out", "br_test_commits")
CASES = os.path.join(ROOT, "acceptance", "cases")
SETS = os.path.join(ROOT, "acceptance", "sets")
ORDER_SQL = os.path.join(ROOT, "acceptance", "catalogues", "order.sql")
# The same catalogue of version 1.
VERSION_1_SQL = os.path.join(ROOT, "acceptance", "catalogues", "order_version_1.sql")
MIB = 1 << 20


def escaped(name):
    """Returns a name as the manifest prints it."""
    return "".join(
        chr(byte) if 0x21 <= byte <= 0x7E and byte != 0x5C else f"\\x{byte:02x}" for byte in name
    )


def unescaped(text):
    """Returns the bytes of an escaped name."""
    return re.sub(rb"\\x([0-9a-f]{2})", lambda digits: bytes([int(digits[1], 16)]), text)


def run_measured(words, output, errors=None):
    """Runs a child that writes to a file, its errors to another one if it is named.

    Returns seconds, peak memory in bytes, seconds of the processor, and the status.
    """
    flags = os.O_WRONLY | os.O_CREAT | os.O_TRUNC
    files = [output] if errors is None else [output, errors]
    actions = [(os.POSIX_SPAWN_OPEN, i + 1, file, flags, 0o644) for i, file in enumerate(files)]
    start = time.monotonic()
    child = os.posix_spawnp(words[0], words, os.environ, file_actions=actions)
    _, status, usage = os.wait4(child, 0)
    seconds = time.monotonic() - start
    return seconds, usage.ru_maxrss * 1024, usage.ru_utime + usage.ru_stime, os.waitstatus_to_exitcode(status)


class Checks:
    """Compares the output of a program with what is expected, prints each comparison, and counts
    the differences."""

    def __init__(self, program):
        self.program, self.failed = program, 0

    def check(self, name, found, expected):
        well = found == expected
        self.failed += not well
        print(f"{name}: {'as expected' if well else f'{found!r}, and not {expected!r}'}", flush=True)
