"""Packs the program for machines without the toolchain: as a Debian package, and as a tar file."""

import gzip
import os
import re
import shutil
import subprocess
import sys
import tarfile
import tempfile

from common import ROOT

PACKAGES = os.path.join(ROOT, "out", "package")
TOOLS = {"dpkg-deb": "dpkg", "objdump": "binutils", "git": "git"}
# The Debian package of each library that the program loads.
LIBRARIES = {"libc.so.6": "libc6"}
# What comes with the program, by its place below /usr.
FILES = {
    "share/man/man1/brestore.1": "share/man/man1/brestore.1",
    "share/bash-completion/completions/brestore": "share/bash-completion/completions/brestore",
    **{f"share/doc/brestore/{it}": f"docs/{it}" for it in ("RESTORING.md", "REFUSALS.md", "IMPORTING.md", "formats.md")},
    **{f"share/brestore/catalogue/{it}": f"catalogue/{it}" for it in ("import.sh", "stage.sql", "pgsql.sql", "mysql.sql", "sqlite.sql", "lines.sql", "rules.sql")},
}
CONTROL = """Package: brestore
Version: {version}
Architecture: amd64
Maintainer: {author}
Installed-Size: {size}
Depends: {needs}
Suggests: man-db, bash-completion
Section: admin
Priority: optional
Description: restores files from Bacula volumes
 It takes volumes and a bootstrap, or a catalogue, a moment and the operator's
 marks. It prints a manifest of the restored files, and writes them into a
 folder or as a tar stream. It needs no Director and no storage daemon.
"""
README = """brestore {version}

This program was built of {commit}
without a proof. In a checkout of that commit `rt ci` proves each function, and
`tools/prove_all` builds the proved program.

It runs on x86-64 Linux, and needs {needs} and no other file.
RESTORING.md, beside this file, says how to restore after a lost disk.
"""
COPYRIGHT = """brestore is by {author}.
The repository that it was built from states no licence.
"""


def stop_without_tools():
    for name, package in TOOLS.items():
        if not shutil.which(name):
            sys.exit(f"tools/build: there is no {name}, which Debian's package {package} has")


def said(*words, **more):
    """Returns the output of a command in the repository, without its last newline."""
    ran = subprocess.run(words, cwd=ROOT, stdout=subprocess.PIPE, text=True, env={**os.environ, "LC_ALL": "C", **more})
    return ran.stdout.rstrip("\n") if ran.returncode == 0 else sys.exit(f"tools/build: {' '.join(words)} failed")


def needs_of(program):
    """Returns which packages of Debian the program needs: those of its libraries, of the newest version that a symbol asks for."""
    text = said("objdump", "-p", program)
    libraries = re.findall(r"^ +NEEDED +(\S+)$", text, re.MULTILINE)
    for it in libraries:
        if it not in LIBRARIES:
            sys.exit(f"tools/build: the program loads {it}, and which package has it is not known")
    versions = re.findall(r" GLIBC_([0-9.]+)$", text, re.MULTILINE)
    newest = max(versions, key=lambda version: [int(it) for it in version.split(".")])
    return ", ".join(sorted({f"{LIBRARIES[it]} (>= {newest})" for it in libraries}))


def facts_of(program):
    """Returns what the texts of a package name: version, commit, author, what the program needs."""
    commit, author = said("git", "rev-parse", "HEAD"), said("git", "log", "-1", "--format=%an <%ae>")
    moment = said("git", "log", "-1", "--format=%cd", "--date=format-local:%Y%m%d.%H%M", TZ="UTC")
    changed = said("git", "status", "--porcelain")
    return {
        "version": f"0.{moment}+{commit[:8]}" + "+changed" * bool(changed),
        "commit": f"commit {commit}" + ", and changes that are not committed," * bool(changed),
        "author": author,
        "needs": needs_of(program),
    }


def lay(program, top, facts):
    """Lays out below a folder what a package has below /usr."""
    texts = {"share/doc/brestore/README": README, "share/doc/brestore/copyright": COPYRIGHT}
    for place, source in {**FILES, **texts, "bin/brestore": program}.items():
        path = os.path.join(top, place)
        os.makedirs(os.path.dirname(path), exist_ok=True)
        if place in texts:
            with open(path, "w") as file:
                file.write(source.format(**facts))
        else:
            shutil.copyfile(os.path.join(ROOT, source), path)
        os.chmod(path, 0o755 if source == program or place.endswith(".sh") else 0o644)


def make_tar(program, room, facts):
    """Makes the tar file. Returns its path."""
    name = f"brestore-{facts['version']}"
    lay(program, f"{room}/{name}", facts)
    made = f"{room}/{name}-x86_64.tar.gz"

    def as_root(entry):
        entry.uid = entry.gid = 0
        entry.uname = entry.gname = "root"
        return entry

    with tarfile.open(made, "w:gz") as file:
        file.add(f"{room}/{name}", name, filter=as_root)
    return made


def make_deb(program, room, facts):
    """Makes the Debian package. Returns its path."""
    top, page = f"{room}/deb", f"{room}/deb/usr/share/man/man1/brestore.1"
    lay(program, f"{top}/usr", facts)
    with open(page, "rb") as file, gzip.open(f"{page}.gz", "wb") as packed:
        packed.write(file.read())
    os.remove(page)
    size = sum(os.path.getsize(os.path.join(at, it)) for at, _, names in os.walk(top) for it in names)
    os.makedirs(f"{top}/DEBIAN")
    with open(f"{top}/DEBIAN/control", "w") as file:
        file.write(CONTROL.format(size=(size + 1023) // 1024, **facts))
    made = f"{room}/brestore_{facts['version']}_amd64.deb"
    said("dpkg-deb", "--root-owner-group", "--build", top, made)
    return made


def pack(program):
    """Packs the program, and prints the paths of the packages."""
    facts = facts_of(program)
    os.umask(0o022)
    os.makedirs(PACKAGES, exist_ok=True)
    with tempfile.TemporaryDirectory(prefix="brestore-package-") as room:
        for made in (make_deb(program, room, facts), make_tar(program, room, facts)):
            path = os.path.join(PACKAGES, os.path.basename(made))
            shutil.copyfile(made, path + ".new")
            os.replace(path + ".new", path)
            print(os.path.relpath(path, ROOT))
