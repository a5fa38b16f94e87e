"""Bacula's own `bextract`, which scripts of acceptance/ and bench/ run beside the program, and what
it needs of a volume.

It is in Debian's package bacula-sd; no daemon has to run.
"""

import os
import shutil
import struct
import zlib

CONFIGURATION = """
Director {{
  Name = bench-dir
  Password = "none"
}}
Storage {{
  Name = bench-sd
  Working Directory = "{own}"
  Pid Directory = "{own}"
}}
Device {{
  Name = Folder
  Media Type = File
  Device Type = File
  Archive Device = "{volumes}"
  Random Access = yes
  Automatic Mount = yes
  Removable Media = no
  Always Open = no
  Label Media = no
  Block Checksum = {checksum}
}}
Messages {{
  Name = Standard
  Director = bench-dir = all
}}
"""
LABEL_FRONT = b"Bacula 1.0 immortal\n\0" + struct.pack(">I", 11)


def find_bextract():
    """Returns the path of the system's bextract, or None."""
    return shutil.which("bextract", path=os.environ["PATH"] + ":/usr/sbin")


def words_of_bextract(program, own, volumes, bootstrap, is_checked=True):
    """Writes a configuration into a folder of its own. Returns the command, which takes one word more: where the files go."""
    os.makedirs(own, exist_ok=True)
    with open(os.path.join(own, "conf"), "w") as file:
        file.write(CONFIGURATION.format(own=own, volumes=volumes, checksum="yes" if is_checked else "no"))
    return [program, "-c", os.path.join(own, "conf"), "-b", bootstrap, "Folder"]


def volume_label(name):
    """Returns the contents of a volume's label: when it was made and written, and the names of
    volume, pool, kind, host and program."""
    times = struct.pack(">qqdd", 0, 0, 0.0, 0.0)
    names = (name, "", "Bench", "Backup", "File", "bench", "bench", "Ver. 1", "Build 1")
    return LABEL_FRONT + times + "".join(it + "\0" for it in names).encode()


def block_of(data, number, session_id, session_time):
    """Returns a block of these records, with its checksum."""
    header = struct.pack(">II4sII", 24 + len(data), number, b"BB02", session_id, session_time)
    return struct.pack(">I", zlib.crc32(header + data)) + header + data
