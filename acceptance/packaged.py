#!/usr/bin/env python3
"""Installs what `tools/build --package` made on fresh Debian systems without the toolchain, and restores a sample there.

    acceptance/packaged.py                as root; needs debootstrap, and Debian's packages from the network
    acceptance/packaged.py --base DIR     a system that debootstrap made, in place of a new one: it is copied

debootstrap makes a Debian of its least packages, with man-db and bash-completion. One copy of it gets the Debian package, another
one the tar file, below /usr/local. In each the program's help, its manual page and its completions are shown, and the sample of
the README is restored: what is printed and written must be what cases/order-inc says. The status is 1 if something differs.
"""

import argparse
import glob
import os
import shutil
import subprocess
import sys
import tempfile

# Nothing is left beside the script.
sys.dont_write_bytecode = True
sys.path.insert(0, os.path.join(os.path.dirname(os.path.dirname(os.path.abspath(__file__))), "tools"))
from common import BUILT, CASES, ROOT, SETS, Checks
from delivered import delivery, tree_of

PACKAGES = os.path.join(ROOT, "out", "package")
CASE = os.path.join(CASES, "order-inc")
PATHS = "PATH=/usr/local/sbin:/usr/local/bin:/usr/sbin:/usr/bin:/sbin:/bin"
COMPLETES = ". /usr/share/bash-completion/bash_completion; _completion_loader brestore; complete -p brestore"
# How each package is installed in a system that has it as /package.
INSTALLS = {
    "brestore_*.deb": ["dpkg", "-i", "/package"],
    "brestore-*.tar.gz": ["tar", "-C", "/usr/local", "--strip-components=1", "-xzf", "/package"],
}


def within(root, *words):
    """Runs a command in a system. Returns its status and both outputs."""
    words = ["chroot", root, "env", "-i", PATHS, "LC_ALL=C.UTF-8", *words]
    ran = subprocess.run(words, stdin=subprocess.DEVNULL, capture_output=True)
    return ran.returncode, ran.stdout, ran.stderr


def latest(pattern):
    """Returns the newest package of this kind."""
    found = glob.glob(os.path.join(PACKAGES, pattern))
    return max(found, key=os.path.getmtime) if found else sys.exit(f"there is no {PACKAGES}/{pattern}: run tools/build --package")


def content(name):
    with open(os.path.join(CASE, name), "rb") as file:
        return file.read()


def try_program(checks, name, root):
    """Tries what was installed in a system."""
    has = within(root, "sh", "-c", "command -v rt cc python3")[1]
    checks.check(f"{name}: what is there of a toolchain", has, b"")
    wanted = subprocess.run(["brestore", "--help"], executable=BUILT, capture_output=True).stdout
    checks.check(f"{name}: --help", within(root, "brestore", "--help"), (0, wanted, b""))
    status, page, _ = within(root, "man", "brestore")
    checks.check(f"{name}: the manual page", (status, page[:11]), (0, b"BRESTORE(1)"))
    checks.check(f"{name}: the completions", within(root, "bash", "-c", COMPLETES)[:2], (0, b"complete -F _brestore brestore\n"))
    shutil.copytree(os.path.join(SETS, "order"), f"{root}/sample/volumes")
    shutil.copy(os.path.join(CASE, "x.bsr"), f"{root}/sample")
    os.mkdir(f"{root}/sample/restored")
    words = ["--bsr", "/sample/x.bsr", "--volumes", "/sample/volumes", "--into", "/sample/restored", "--manifest", "/sample/manifest"]
    checks.check(f"{name}: the sample", within(root, "brestore", "restore", *words), (0, b"", b"5 of 5 files were put\n"))
    with open(f"{root}/sample/manifest", "rb") as file:
        checks.check(f"{name}: its manifest", file.read(), content("expected"))
    checks.check(f"{name}: its files", tree_of(f"{root}/sample/restored"), delivery(content("expected"))[0])


def main():
    parser = argparse.ArgumentParser(description="Installs the packages on fresh systems, and tries the program there.")
    parser.add_argument("--base", help="a system that debootstrap made (default: a new one)")
    options = parser.parse_args()
    checks = Checks(BUILT)
    with tempfile.TemporaryDirectory(prefix="brestore-packaged-") as folder:
        base = options.base or f"{folder}/base"
        if not options.base:
            words = ["--variant=minbase", "--include=man-db,bash-completion", "bookworm", base]
            subprocess.run(["debootstrap", *words], check=True, stdout=subprocess.DEVNULL)
        for pattern, install in INSTALLS.items():
            root, package = f"{folder}/{pattern.rpartition('.')[2]}", latest(pattern)
            subprocess.run(["cp", "-a", base, root], check=True)
            shutil.copy(package, f"{root}/package")
            checks.check(f"{os.path.basename(package)}: installed", within(root, *install)[0], 0)
            try_program(checks, pattern, root)
    return 1 if checks.failed else 0


if __name__ == "__main__":
    sys.exit(main())
