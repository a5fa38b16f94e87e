"""What a script may print and leave if memory is refused at one of its lines: the second reading of scripts, with refusals."""

from scripting import Bad, Script
from stored import vouched_by

# A length that no volume has; a volume with it is retired.
RETIRED = -1


class Refusing(Script):
    """A script with one line that is refused memory, in one of the ways of that line
    (`ways_of`)."""

    def __init__(self, text, place=None, way=()):
        super().__init__(text)
        self.place, self.way, self.places = place, way, []
        # Jobs that are stored and not published, and jobs of which it is open whether they are stored.
        self.waiting, self.open = [], []

    def carry_out(self, line):
        self.places.append(self.at - 1)
        if self.place != self.at - 1:
            super().carry_out(line)
        elif self.way[0] == "lost":
            self.lose(line)
        elif self.way[0] == "commit":
            self.refuse_commit(line, *self.way[1:])
        else:
            self.refuse_within(line, *self.way[1:])

    def lose(self, line):
        """Refuses a line that is not carried out. It gives up the job that it is in."""
        self.refuse(1)
        if self.job is not None:
            self.job["given_up"] = True

    def refuse_within(self, line, number, count):
        """Carries out a line and keeps this number of lines of its output; then the line is
        refused."""
        printed, kept = len("".join(self.printed)), "".join(self.printed)
        volumes = dict(self.volumes)
        super().carry_out(line)
        lines = "".join(self.printed)[printed:].splitlines(keepends=True)
        self.printed, self.volumes = [kept, *lines[:count]], volumes
        self.kept = None if line == b"bsr" else self.kept
        self.refuse(number)

    def refuse_commit(self, line, number, count):
        """Ends a job whose commit is refused after this number of blocks."""
        job, self.job = self.job, None
        if job["given_up"]:
            return
        if job["saved"] and (not job["places"] or job["places"][-1][1] != 0):
            raise Bad(90)
        self.commit(job, number, count)
        self.refuse(number)

    def publish(self):
        self.jobs, self.waiting = self.jobs + self.waiting, []

    def commit(self, job, number=None, count=0):
        """Commits a job, or refuses it after this number of blocks."""
        if number != 1 or count:
            self.publish()
        before = dict(self.volumes), dict(self.vouched)
        if number == 1:
            self.check(job)
            return
        super().commit(job)
        if number is None:
            return
        self.jobs.remove(job)
        if number == 44:
            self.cut_volumes(job, count, *before)
        elif number == 45:
            self.open.append(job)
        else:
            self.waiting.append(job)

    def check(self, job):
        """Refuses a job whose number or session exists already, which needs no memory."""
        if any(it["id"] == job["id"] for it in self.jobs):
            raise Bad(40)
        if any(it["session"] == job["session"] for it in self.jobs):
            raise Bad(41)

    def cut_volumes(self, job, count, volumes, vouched):
        """Leaves the first of a job's blocks on the volumes, and retires the volume of the next; nothing if no length was told."""
        after, left = self.volumes, count
        self.volumes, self.vouched = volumes, vouched
        if count is None:
            return
        for volume, block in blocks_in_order(job, after):
            if left == 0:
                self.vouched[volume] = RETIRED
                return
            self.volumes[volume] = self.volumes.get(volume, b"") + block
            self.vouched[volume] = len(self.volumes[volume])
            left -= 1

    def left(self):
        """Returns the volumes, the jobs that must be stored, and those that may be."""
        return {name: data for name, data in self.volumes.items() if data}, self.jobs + self.waiting, self.open


def blocks_in_order(job, after):
    """Returns the blocks that a job appended, each with its volume."""
    for volume, _first, _last, start, end in job["spans"]:
        at = start
        while at <= end:
            size = int.from_bytes(after[volume][at + 4 : at + 8], "big")
            yield volume, after[volume][at : at + size]
            at += size


def count_of_blocks(text, place):
    """Returns the number of blocks that the commit at a line appends."""
    script = Refusing(text)
    sizes = []
    script.commit = lambda job: (Script.commit(script, job), sizes.append((script.at - 1, len(list(blocks_in_order(job, script.volumes))))))
    script.run()
    return dict(sizes).get(place, 0)


def ways_of(text, place, line):
    """Returns the ways in which a line may be refused memory."""
    word = line.split(b" ")[0]
    ways = [("lost",)]
    if word == b"volume":
        ways.append(("within", 44, 0))
    elif word in (b"bsr", b"extract"):
        ways.append(("within", 1, 0))
    elif word == b"restore":
        ways += [("within", 1, count) for count in range(40)]
    elif word == b"end":
        ways += [("commit", 1, 0), ("commit", 1, 1), ("commit", 45, 0), ("commit", 46, 0)]
        ways += [("commit", 44, count) for count in (None, *range(count_of_blocks(text, place)))]
    return ways


def answers_of(text):
    """Returns what a script prints with all its memory, and all that it may print with one line refused, each with what is left."""
    own = Refusing(text)
    result = own.run()
    found = []
    for place in own.places:
        for way in ways_of(text, place, own.lines[place]):
            script = Refusing(text, place, way)
            status, printed = script.run()
            found.append(((status, printed, b""), script.left()))
    return ((*result, b""), own.left()), found


def fronts_of(text):
    """Returns what a script prints up to a line that is refused memory, with that line, each with what is left if all later ones are refused."""
    own, found = Refusing(text), []
    own.run()
    for place, end in zip(own.places, [*own.places[1:], len(own.lines)]):
        front = b"".join(line + b"\n" for line in own.lines[:end])
        for way in ways_of(text, place, own.lines[place]):
            script = Refusing(front, place, way)
            _, printed = script.run()
            found.append((printed, script.left()))
    return found


def printed_after(text, volumes, jobs):
    """Returns what a script prints with all its memory that goes on from these volumes and jobs, after a new start of the program."""
    script = Script(text)
    script.volumes, script.jobs, script.vouched = dict(volumes), list(jobs), vouched_by(jobs)
    return *script.run(), b""
