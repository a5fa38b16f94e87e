"""The calls of rows/delivery that put files into a folder or a tar stream. Each is a restore, or one for each of its steps."""

import os
import re
import subprocess
from collections import namedtuple
from pathlib import Path

from common import escaped
from row_fields import shown
from row_items import Item, block_of, item_of, outcomes_of, records_of, text_of

# The program, the library that is preloaded, and the folder of a row.
Tools = namedtuple("Tools", "program library folder")
# The result of a restore: exit status, manifest, lines of standard error and of the log, and the
# calls in the folder.
Restored = namedtuple("Restored", "status manifest told log calls")

# The outcomes with the name `small`.
NAMES = {"small": "/a,3,hello;/d/b,3,more;/d/e/,5,-;/d/e/c,2,letters"}
# A link is not put into a folder. Between two files it keeps the second from being put side by side
# with the first.
LINK = Item(b"/link", 4, b"", b"A A A A A A A A A A A A A", b"", 0)
# Bytes after the records of a block, which are too few for one more.
PAD = 11


class Volume:
    """A volume of files and faults, and what is on it when the files are put."""

    def __init__(self):
        self.blocks, self.changed, self.files, self.count = [], [], [], 0

    def add(self, outcome, given=None, is_sparse=False):
        """Adds a file or a fault. `given` are the bytes that are read again, if they differ."""
        self.count += 1
        self.files += [outcome] if isinstance(outcome, Item) else []
        records = records_of(self.count, outcome, is_sparse)
        if given in (None, getattr(outcome, "data", None)) or len(records) < 2:
            self.blocks.append(block_of(records))
            self.changed.append(self.blocks[-1])
            return
        self.blocks += [block_of(records[:1]), padded(records[1], len(records[1][3]) + PAD)]
        self.changed += [self.blocks[-2], padded((self.count, 2, len(given), given), len(outcome.data) + PAD)]

    def write(self, folder):
        """Writes the volume, its bootstrap, and the changed volume if it is another. Returns the latter."""
        (folder / "volumes").mkdir(exist_ok=True)
        (folder / "volumes" / "V").write_bytes(b"".join(self.blocks))
        (folder / "x.bsr").write_bytes(b"Volume=V\n")
        if self.blocks == self.changed:
            return None
        (folder / "changed").write_bytes(b"".join(self.changed))
        return folder / "changed"


def padded(record, size):
    """Returns the block of a record, with zeros after it up to this number of bytes of data."""
    block = block_of([record])
    more = size - len(record[3])
    return block[:4] + (len(block) + more).to_bytes(4, "big") + block[8:] + bytes(more)


def restored(tools, volume, *options, how="-"):
    """Restores the files of a volume. Some calls fail, as the options `how` require."""
    changed, folder = volume.write(tools.folder), tools.folder
    for name in ("log", "calls"):
        (folder / name).write_bytes(b"")
    trap = {"LD_PRELOAD": tools.library, "TRAPPED_FOLDER": folder / "into", "TRAPPED_LOG": folder / "calls"}
    trap["TRAPPED_HOW"] = "" if how == "-" else how
    if changed is not None:
        trap["TRAPPED_CHANGE"] = f"{changed}={folder / 'volumes' / 'V'}"
    words = [tools.program, "extract", "--bsr", folder / "x.bsr", "--volumes", folder / "volumes", "--log", folder / "log", *options]
    environment = {**os.environ, **{name: str(value) for name, value in trap.items()}}
    ran = subprocess.run(words, stdin=subprocess.DEVNULL, capture_output=True, env=environment, timeout=60)
    lines = [it.splitlines() for it in (ran.stderr.decode(), (folder / "log").read_text(), (folder / "calls").read_text())]
    return Restored(ran.returncode, ran.stdout.decode(), *lines)


def into(tools):
    """Returns the folder that files are put into, which is made if it is not there."""
    (tools.folder / "into").mkdir(exist_ok=True)
    return tools.folder / "into"


def refusal(found):
    """Returns the number of the refusal of a restore, 0 if there is none."""
    numbers = [int(line.split(" ")[1]) for line in found.told if line.startswith("refused ")]
    return numbers[0] if numbers else 0


COUNTED = re.compile(r"(\d+) of \d+ files were put(?:, links and special files skipped: (\d+))?")


def count_taken(found):
    """Returns the number of files that were put or skipped, by the log."""
    counts = [COUNTED.fullmatch(line) for line in found.log if COUNTED.fullmatch(line)]
    return int(counts[0][1]) + int(counts[0][2] or 0) if counts else 0


def left_out(found):
    """Returns the paths that are left out, with a blank after each."""
    return "".join(line.split(" ")[2] + " " for line in found.told if line.startswith("left "))


def were_side_by_side(found):
    """Returns whether two files were open at once."""
    is_open = 0
    for line in found.calls:
        is_open += {"made": 1, "close": -1}.get(line.split(" ")[0], 0)
        if is_open > 1:
            return True
    return False


def end_of(found, totals):
    """Returns how a delivery of many files ended, as a row prints it: the totals, or the refusal and the number of files before it."""
    number = refusal(found)
    return f"refused {number} after {count_taken(found)} " if number else f"{totals} "


def two_of(found, before):
    """Returns the result for two files, given the number of files that the delivery put before."""
    number, count = refusal(found), count_taken(found) - before
    word = "both" if not number else ("neither", "one")[count]
    return ("" if were_side_by_side(found) else "alone ") + word + (f" {number} " if number else " ")


def add_step(volume, step):
    """Adds the files of a step to a volume."""
    name, _, field = step.partition(":")
    if volume.count and name in ("parts", "two"):
        volume.add(LINK)
    if name in ("all", "deliver"):
        for outcome in outcomes_of(field, NAMES):
            volume.add(outcome)
    elif name == "put":
        volume.add(item_of(field), is_sparse=True)
    else:
        for part in field.split(";"):
            item, _, given = part.partition("=")
            volume.add(item_of(item), text_of(given))


def shown_step(step, found, before, is_last):
    """Returns what a step gives, as a row prints it."""
    name = step.partition(":")[0]
    if name == "two":
        return two_of(found, before)
    if name in ("put", "parts"):
        return f"{refusal(found) if is_last else 0} "
    return end_of(found, "all" if name == "all" else found.manifest.splitlines()[-1].removeprefix("total "))


def is_by_parts(steps):
    """Returns whether bytes are read again while files are put."""
    return any(step.startswith(("parts:", "two:")) for step in steps)


def put_steps(tools, steps, *options, how="-"):
    """Puts the files of steps by one restore. Returns what came of it, and what the steps give. Only the last step may fail."""
    volume, before = Volume(), 0
    for step in steps:
        before = volume.count + (1 if volume.count else 0)
        add_step(volume, step)
    more = ["--memory", "0"] if is_by_parts(steps) else []
    found = restored(tools, volume, "--into", into(tools), *more, *options, how=how)
    gave = "".join(shown_step(step, found, before, at == len(steps)) for at, step in enumerate(steps, 1))
    return found, gave, volume


def shown_bytes(data):
    """Returns bytes as a row prints them; many of one value as their number and the value."""
    if len(data) > 100 and len(set(data)) == 1:
        return f"{len(data)}*{escaped(data[:1])}"
    return escaped(data) or "-"


def there(tools, path, files=()):
    """Returns what is at a path: the bytes of a file, `part` if no file of the restore has these,
    `folder`, `link` or `none`."""
    at = os.fsencode(into(tools)) + path
    if os.path.islink(at):
        return "link"
    if os.path.isdir(at):
        return "folder"
    if not os.path.lexists(at):
        return "none"
    data = Path(os.fsdecode(at)).read_bytes()
    is_whole = not files or any(it.path == path and it.data == data for it in files)
    return shown_bytes(data) if is_whole else "part"


def shown_paths(tools, field, files):
    """Returns what is at each of the paths of a field."""
    paths = [] if field == "-" else field.split(";")
    return " ".join(there(tools, text_of(path), files) for path in paths)


def in_folder(tools, fields, _wanted):
    """Runs `folder`."""
    how, paths, *steps = fields
    found, gave, volume = put_steps(tools, steps, how=how)
    if not steps:
        return f"refused {refusal(found)}"
    return gave + shown_paths(tools, paths, volume.files)


def resumed(tools, fields, _wanted):
    """Runs `resume`: a restore for each step if the delivery is resumed, and one for all if not."""
    start, how, paths, *steps = fields
    if start == "empty":
        return in_folder(tools, [how, paths, *steps], None)
    gave, files = "", []
    for step in steps:
        _, more, volume = put_steps(tools, [step], "--resume", *memory_for(step), how=how)
        gave, files = gave + more, files + volume.files
    return gave + shown_paths(tools, paths, files)


def memory_for(step):
    """Returns the options by which the file of a step is put alone, and not with others."""
    return ["--memory", "0"] if step.startswith("put:") else []


def leaving(tools, fields, _wanted):
    """Runs `leave`."""
    stops, start, how, *steps = fields
    options = (["--keep-going"] if stops == "never" else []) + (["--resume"] if start == "resumed" else [])
    found, gave, _ = put_steps(tools, steps, *options, how=how)
    return gave + left_out(found)


def watched(tools, fields, _wanted):
    """Runs `watch`: prints the paths with a reason in the log, and its lines that name files and
    count them."""
    how, paths, step = fields
    found, gave, volume = put_steps(tools, [step], *memory_for(step), how=how)
    lines = [line for line in found.log if line.startswith(("put ", "skipped ", "failed ")) or COUNTED.fullmatch(line)]
    begin = f"  {into(tools)}/"
    failed = "".join(f"/{line.removeprefix(begin).split(' ')[0]} " for line in found.log if line.startswith(begin))
    text = "".join(line + "\n" for line in lines).encode()
    return f"{gave}{failed}{shown_paths(tools, paths, volume.files)} {shown(text)}"


def streamed(tools, fields, _wanted):
    """Runs `tar`: prints the number of the refusal of each step, and how the first stream compares
    with the second."""
    gave, streams = "", []
    for number, step in enumerate(fields):
        volume = Volume()
        add_step(volume, step)
        tar = tools.folder / f"{number}.tar"
        found = restored(tools, volume, "--tar", tar, *(["--memory", "0"] if is_by_parts([step]) else []))
        gave += f"{refusal(found)} "
        streams.append(tar.read_bytes())
    one, other = streams
    return gave + ("same" if one == other else "front" if other.startswith(one) else "other")


def kept_apart(tools, fields, _wanted, *options):
    """Runs `apart` or `newest`: prints which outcomes are kept, and which paths are left out."""
    volume = Volume()
    outcomes = outcomes_of(fields[0])
    for outcome in outcomes:
        volume.add(outcome)
    found = restored(tools, volume, "--into", into(tools), "--keep-going", *options)
    put = [line.split(" ")[1] for line in found.log if line.startswith(("put ", "skipped "))]
    gave = ""
    for outcome in outcomes:
        is_kept = not isinstance(outcome, Item) or (put and put[0] == escaped(outcome.path))
        put = put[1:] if is_kept and isinstance(outcome, Item) else put
        gave += "1 " if is_kept else "0 "
    return gave + left_out(found)


def newest_apart(tools, fields, wanted):
    """Runs `newest`."""
    return kept_apart(tools, fields, wanted, "--newest")


def made_there(tools, step, field):
    """Makes an empty file or folder, or a link. Returns if this is such a step."""
    name, _, target = field.partition("=")
    path = into(tools) / name
    if step == "file":
        path.write_bytes(b"")
    elif step == "folder":
        path.mkdir()
    elif step == "link":
        path.symlink_to(target)
    else:
        return False
    return True


def looked(tools, step, field):
    """Returns what a step prints that looks into the folder."""
    if step == "look":
        return f"{field}:{there(tools, b'/' + text_of(field))} "
    if step == "over":
        return f"{refusal(restored(tools, Volume(), '--into', into(tools) / field))} "
    volume = Volume()
    for outcome in outcomes_of(field):
        volume.add(outcome)
    found = restored(tools, volume, "--into", into(tools), "--resume")
    return shown("".join(line + "\n" for line in found.told if line.startswith("other ")).encode())


def on_disk(tools, fields, _wanted):
    """Runs `disk`: each step that puts files is a restore, which is resumed if something is in the folder."""
    stops, *steps = fields
    gave, left = "", ""
    for step in steps:
        name, _, field = step.partition(":")
        if made_there(tools, name, field):
            continue
        if name in ("look", "over", "others"):
            gave += looked(tools, name, field)
            continue
        options = ["--keep-going"] if stops == "never" else []
        options += ["--resume"] if any(into(tools).iterdir()) else []
        found, more, _ = put_steps(tools, [step], *options, *memory_for(step))
        gave, left = gave + more, left_out(found)
    return gave + left


CALLS = {
    "folder": in_folder,
    "resume": resumed,
    "leave": leaving,
    "watch": watched,
    "tar": streamed,
    "apart": kept_apart,
    "newest": newest_apart,
    "disk": on_disk,
}
