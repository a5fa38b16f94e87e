"""What a delivery must leave in a folder, worked out from a manifest, and what is there."""

import hashlib
import os
from pathlib import Path

from common import unescaped

# The system takes no longer name of a file or folder.
LONGEST_NAME = 255


def is_on_the_way(path, other):
    """Returns whether the first path is a file's and also a folder on the way to the second."""
    return not path.endswith(b"/") and other.startswith(path + b"/")


def is_text(path):
    """Returns whether a path is UTF-8."""
    try:
        path.decode()
        return True
    except UnicodeDecodeError:
        return False


def delivery(manifest):
    """Returns what a manifest leaves in an empty folder, and the number at which its delivery stops.

    The first is a map from the names below the folder, without a final slash, to length and digest, or to None for a folder.
    """
    put, tree = [], {}
    for line in manifest.splitlines():
        fields = line.split(b" ")
        if fields[0] != b"F":
            continue
        kind, path, content = fields[4], unescaped(fields[5]), tuple(fields[-2:])
        if any(is_on_the_way(path, earlier) or is_on_the_way(earlier, path) for earlier in put):
            return tree, 81
        put.append(path)
        if kind not in (b"2", b"3", b"5"):
            continue
        if not is_text(path) or (kind != b"5" and path.endswith(b"/")):
            return tree, 80
        names = [name for name in path.split(b"/") if name]
        if any(len(name) > LONGEST_NAME for name in names):
            return tree, 80
        for end in range(1, len(names) + 1):
            is_file, name = kind != b"5" and end == len(names), b"/".join(names[:end])
            # What is there stays a file or a folder.
            if name in tree and (tree[name] is None) == is_file:
                return tree, 80
            tree[name] = content if is_file else None
    return tree, None


def newest_copies(manifest):
    """Returns a manifest without the files whose path occurs in a later session, or later in the
    same session."""
    files = {}
    lines = manifest.splitlines(keepends=True)
    for line in lines:
        fields = line.split(b" ")
        if fields[0] == b"F":
            session, time, index = (int(field) for field in fields[1:4])
            files.setdefault(fields[5], []).append(((time, session, index), line))
    newest = {max(copies)[1] for copies in files.values()}
    return b"".join(line for line in lines if not line.startswith(b"F ") or line in newest)


def tree_of(folder):
    """Returns what is below a folder, as `delivery` does."""
    tree, top = {}, os.fsencode(folder)
    for place, folders, files in os.walk(top):
        for name in folders:
            tree[os.path.relpath(os.path.join(place, name), top)] = None
        for name in files:
            data = Path(os.fsdecode(os.path.join(place, name))).read_bytes()
            content = (str(len(data)).encode(), hashlib.md5(data).hexdigest().encode())
            tree[os.path.relpath(os.path.join(place, name), top)] = content
    return tree
