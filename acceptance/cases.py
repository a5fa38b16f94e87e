#!/usr/bin/env python3
"""Runs `brestore extract` over volumes that Bacula wrote, and compares what it prints and writes.

    acceptance/cases.py [EXECUTABLE] [CASE..]

Without an executable it is the proved program, or else the one that tools/build makes. Each case is run once for its
manifest alone, once by sixteen drives, and once with `--into` and a new folder. The folder is then compared with the expected
manifest: each file's length and digest, and each folder. A run into the same folder has to be refused and to change nothing. All but
the last is done again with `--memory 0` and `--memory 64K`, so that data are read again, and must give the same.
A last run, with `--newest` and `--complete`, has to leave the newest copies in a second folder, and to report nothing. Then a
volume is cut before a session that the bootstrap asks for: `--complete` has to report it. The status is 0 if each case has the expected exit status, standard output and standard error, byte for byte, and the
folder has what it should and nothing else. README.md lists the cases.
"""
import lzma
import os
import shutil
import subprocess
import sys
import tempfile
from pathlib import Path

# Nothing is left beside the script.
sys.dont_write_bytecode = True
sys.path.insert(0, os.path.join(os.path.dirname(os.path.dirname(os.path.abspath(__file__))), "tools"))
from common import CASES, PROGRAM, SETS
from delivered import delivery, newest_copies, tree_of

# Room in memory for no data, and for some.
MEMORIES = ("0", "64K")


def unpack(volumes, folder):
    """Copies the volumes of a set into a new folder, and unpacks those that are packed."""
    folder.mkdir(parents=True)
    for volume in volumes.iterdir():
        if volume.suffix == ".xz":
            (folder / volume.stem).write_bytes(lzma.decompress(volume.read_bytes()))
        else:
            shutil.copy(volume, folder / volume.name)


def differences(words, status, manifest, refusals):
    """Returns the differences between a run and what is expected."""
    run = subprocess.run(words, stdin=subprocess.DEVNULL, capture_output=True, check=False)
    answers = {
        "status": (run.returncode, status),
        "standard output": (run.stdout, manifest),
        "standard error": (run.stderr, refusals),
    }
    return [name for name, (answer, expected) in answers.items() if answer != expected]


def newest_faults(words, into, expected):
    """Returns the differences in a run with `--newest` and `--complete`. Its status, manifest and
    refusals are given."""
    status, manifest, refusals = expected
    tree, stop = delivery(newest_copies(manifest))
    if stop is not None:
        status, refusals = 1, refusals + b"refused %d\n" % stop
    into.mkdir()
    wrong = differences([*words, "--newest", "--complete", "--into", into], status, manifest, refusals)
    wrong = [f"{name} of the newest copies" for name in wrong]
    return wrong if tree_of(into) == tree else wrong + ["the newest copies"]


def read_again_faults(words, folder, expected, tree):
    """Returns the differences in deliveries whose bytes are read again from the volumes."""
    wrong = []
    for memory in MEMORIES:
        into = folder / f"into-{memory}"
        into.mkdir()
        found = differences([*words, "--memory", memory, "--drives", "3", "--into", into], *expected)
        wrong += [f"{name} of a delivery with --memory {memory}" for name in found]
        wrong += [] if tree_of(into) == tree else [f"the files delivered with --memory {memory}"]
    return wrong


def cut_faults(executable, folder):
    """Returns what differs after the volume of two sessions and a third is cut before the third, which the bootstrap asks for."""
    case, volumes = Path(CASES) / "order-written", folder / "cut"
    unpack(Path(SETS) / "order", volumes)
    volume = volumes / "Vol-0001"
    volume.write_bytes(volume.read_bytes()[:1656])
    lines = (case / "expected").read_bytes().splitlines(keepends=True)
    kept = [line for line in lines if line.startswith(b"F ") and not line.startswith(b"F 1 1795302940 ")]
    manifest = b"".join(kept) + b"total %d 0 0\n" % len(kept)
    words = [executable, "extract", "--bsr", case / "x.bsr", "--volumes", volumes]
    wrong = differences(words, 0, manifest, b"")
    return wrong + differences([*words, "--complete"], 1, manifest, b"missing 1 1795302940 1 Vol-0001\n")


def faults(executable, case, folder):
    """Returns the differences between the runs of a case and what is expected."""
    volumes = folder / case.name / (case / "set").read_text().strip()
    into = folder / case.name / "into"
    unpack(Path(SETS) / volumes.name, volumes)
    into.mkdir()
    words = [executable, "extract", "--bsr", case / "x.bsr", "--volumes", volumes]
    status, manifest, refusals = (
        int((case / "status").read_text()),
        (case / "expected").read_bytes(),
        (case / "stderr").read_bytes(),
    )
    wrong = differences(words, status, manifest, refusals)
    wrong += newest_faults(words, folder / case.name / "newest", (status, manifest, refusals))
    many = differences([*words, "--drives", "16"], status, manifest, refusals)
    wrong += [f"{name} with 16 drives" for name in many]
    for memory in MEMORIES:
        few = differences([*words, "--memory", memory], status, manifest, refusals)
        wrong += [f"{name} with --memory {memory}" for name in few]
    tree, stop = delivery(manifest)
    if stop is not None:
        status, refusals = 1, refusals + b"refused %d\n" % stop
    wrong += read_again_faults(words, folder / case.name, (status, manifest, refusals), tree)
    words += ["--into", into]
    wrong += [f"{name} of a delivery" for name in differences(words, status, manifest, refusals)]
    if tree:
        again = differences(words, 1, b"", b"refused 81\n")
        wrong += [f"{name} of a second delivery" for name in again]
    return wrong if tree_of(into) == tree else wrong + ["the delivered files"]


def main(arguments):
    executable = Path(arguments[0]).resolve() if arguments else PROGRAM
    names = arguments[1:] or sorted(case.name for case in Path(CASES).iterdir())
    failed = 0
    with tempfile.TemporaryDirectory() as folder:
        for name in names:
            wrong = faults(executable, Path(CASES) / name, Path(folder))
            failed += bool(wrong)
            print(f"{name}: {'differs in ' + ', '.join(wrong) if wrong else 'as expected'}")
        cut = cut_faults(executable, Path(folder))
        print(f"a cut volume: {'differs in ' + ', '.join(cut) if cut else 'as expected'}")
    print(f"{len(names) - failed} as expected, {failed} not")
    return 1 if failed or cut else 0


if __name__ == "__main__":
    sys.exit(main(sys.argv[1:]))
