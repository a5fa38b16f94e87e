#!/usr/bin/env python3
"""Lists the jobs of a catalogue with `--local`, in many time zones, and compares the times with those of Python's zoneinfo.

    acceptance/local.py                    needs sqlite3, the zones of the system, and the program in crates/brestore/out
    acceptance/local.py --program FILE     another program

The status is 1 if something is not as expected.
"""

import argparse
import datetime
import os
import shutil
import subprocess
import sys
import tempfile
import zoneinfo

# Nothing is left beside the script.
sys.dont_write_bytecode = True
sys.path.insert(0, os.path.join(os.path.dirname(os.path.dirname(os.path.abspath(__file__))), "tools"))
from common import ORDER_SQL, PROGRAM, Checks

ZONES = "/usr/share/zoneinfo"
BERLIN = os.path.join(ZONES, "Europe", "Berlin")
# A winter's evening in UTC, which is the next day in Berlin; a summer's evening; the last second of the calendar.
MOMENTS = ["2026-11-21 23:15:33", "2026-07-01 22:30:00", "9999-12-31 23:59:59"]
IN_BERLIN = ["2026-11-22 00:15:33+01:00", "2026-07-02 00:30:00+02:00", "- -"]
IN_UTC = ["2026-11-21 23:15:33+00:00", "2026-07-01 22:30:00+00:00", "- -"]
UNKNOWN = ["- -", "- -", "- -"]
# For each `TZ`, what is shown of each moment.
NAMED = {
    "Europe/Berlin": IN_BERLIN,
    ":Europe/Berlin": IN_BERLIN,
    BERLIN: IN_BERLIN,
    "CET-1CEST,M3.5.0,M10.5.0/3": IN_BERLIN,
    "UTC": IN_UTC,
    "Etc/UTC": IN_UTC,
    "UTC0": IN_UTC,
    "": IN_UTC,
    "<-0330>3:30": ["2026-11-21 19:45:33-03:30", "2026-07-01 19:00:00-03:30", "- -"],
    "Nowhere/Land": UNKNOWN,
    "Nowhere": UNKNOWN,
    "/nowhere": UNKNOWN,
    "Etc/Unknown": UNKNOWN,
    b"\xff": UNKNOWN,
}
# Zones with shifts of an hour and of half an hour, in both hemispheres, without shifts, with offsets of half an hour and of 45 minutes,
# and at the ends of the date line.
COMPARED = [
    "Africa/Casablanca", "America/New_York", "America/St_Johns", "Antarctica/Troll", "Asia/Kathmandu", "Asia/Tokyo",
    "Australia/Lord_Howe", "Europe/Dublin", "Europe/Lisbon", "Pacific/Apia", "Pacific/Chatham", "Pacific/Kiritimati", "Etc/GMT+12",
]
# Three moments each: the first of 1970 and two of an early year; changes of clocks in 2026; late
# years, for which a rule is used.
TIMES = [
    [0, 86_399, 181_345_678],
    [1_774_745_999, 1_774_746_000, 1_792_890_000],
    [2_147_483_648, 4_118_000_000, 32_500_000_000],
]


def seconds_of(moment):
    return int(datetime.datetime.fromisoformat(f"{moment}+00:00").timestamp())


def shown_in(zone, seconds):
    """Returns a moment in a zone, as Python works it out."""
    moment = datetime.datetime.fromtimestamp(seconds, datetime.timezone.utc).astimezone(zoneinfo.ZoneInfo(zone))
    return moment.isoformat(" ")


def sqlite3(db, text):
    subprocess.run(["sqlite3", db], input=text, capture_output=True, text=True, check=True)


def set_moments(db, seconds):
    """Lets the jobs 1, 2 and 3 begin at these seconds."""
    sqlite3(db, "".join(f"UPDATE Job SET StartTime = {second} WHERE JobId = {job};" for job, second in enumerate(seconds, 1)))


class LocalChecks(Checks):
    def jobs(self, db, *words, tz=None, **more):
        """Lists jobs if `TZ` is this, or is not set."""
        environment = {name: value for name, value in os.environ.items() if name not in ("TZ", "TZDIR")}
        environment.update({"TZ": tz} if tz is not None else {}, **more)
        ran = subprocess.run([self.program, "jobs", "--db", db, *words], input="", capture_output=True, text=True, env=environment)
        return ran.returncode, ran.stdout, ran.stderr

    def in_utc(self, db):
        return self.jobs(db)[1].splitlines()

    def local(self, db, shown):
        """Returns what must be printed: the lines in UTC with these fields after date and time."""
        lines = [line.split(" ") for line in self.in_utc(db)]
        return "".join(" ".join([*line[:6], field, *line[6:]]) + "\n" for line, field in zip(lines, shown))


def names(checks, db):
    """Lists jobs in zones that `TZ` names in each way."""
    set_moments(db, [seconds_of(it) for it in MOMENTS])
    for tz, shown in NAMED.items():
        checks.check(f"TZ={tz!r}", checks.jobs(db, "--local", tz=tz), (0, checks.local(db, shown), ""))
        checks.check("and without --local", checks.jobs(db, tz=tz)[1].splitlines(), checks.in_utc(db))
    written = [f"- {job} {level} T {moment}" for job, level, moment in zip("123", "FDI", MOMENTS)]
    checks.check("the moments in UTC", [line[: len(it)] for line, it in zip(checks.in_utc(db), written)], written)


def compares(checks, db):
    """Compares what is shown in many zones with what Python works out."""
    for seconds in TIMES:
        set_moments(db, seconds)
        for zone in COMPARED:
            shown = [shown_in(zone, second) for second in seconds]
            checks.check(f"{zone} at {seconds[0]}", checks.jobs(db, "--local", tz=zone), (0, checks.local(db, shown), ""))


def places(checks, db, folder):
    """Lists jobs in the zone of the machine, and in one of a folder of zones."""
    set_moments(db, [seconds_of(it) for it in MOMENTS])
    environment = {name: value for name, value in os.environ.items() if name != "TZ"}
    told = [
        subprocess.run(["date", "--rfc-3339=seconds", "-d", f"@{seconds_of(it)}"], capture_output=True, text=True, check=True, env=environment).stdout.strip()
        for it in MOMENTS[:2]
    ]
    checks.check("without TZ", checks.jobs(db, "--local"), (0, checks.local(db, [*told, "- -"]), ""))
    zones = os.path.join(folder, "zones")
    os.makedirs(os.path.join(zones, "Test"))
    shutil.copy(BERLIN, os.path.join(zones, "Test", "Zone"))
    with open(os.path.join(zones, "Test", "Text"), "w") as text:
        text.write("no zone\n")
    for name, shown in (("Test/Zone", IN_BERLIN), ("Test/Text", UNKNOWN), ("Europe/Berlin", UNKNOWN)):
        checks.check(f"{name} in a folder of zones", checks.jobs(db, "--local", tz=name, TZDIR=zones), (0, checks.local(db, shown), ""))


def chooses(checks, db):
    """Lists jobs, some of which are chosen. The moment of `--before` is in UTC."""
    set_moments(db, [seconds_of(it) for it in ("2026-11-21 23:15:33", "2026-07-01 22:30:00", "2026-11-22 00:00:00")])
    lines = checks.local(db, ["2026-11-22 00:15:33+01:00", "2026-07-02 00:30:00+02:00", "2026-11-22 01:00:00+01:00"]).splitlines(keepends=True)
    full, differential = lines[0].replace("-", "*", 1), lines[1]
    for name, client, fileset, before, expected in [
        ("a Full that is chosen", "peer-fd", "Peer", "2026-11-22 00:00:00", (0, full + differential, "")),
        ("a choice without a Full", "peer-fd", "Peer", "2026-07-02 00:00:00", (1, differential, "refused 50\n")),
        ("a file set that is not there", "peer-fd", "none", "2026-11-23 00:00:00", (1, "", "refused 54\n")),
        ("a client with a slash", "a/b", "Peer", "2026-11-23 00:00:00", (1, "", "refused 2\n")),
    ]:
        words = ["--local", "--client", client, "--fileset", fileset, "--before", before]
        checks.check(name, checks.jobs(db, *words, tz="Europe/Berlin"), expected)
    checks.check("a catalogue that is not there", checks.jobs(f"{db}.none", "--local", tz="Europe/Berlin"), (1, "", "refused 45\n"))


def main():
    parser = argparse.ArgumentParser(description="Lists jobs with their moments in time zones.")
    parser.add_argument("--program", default=PROGRAM, help="the program (default: %(default)s)")
    checks = LocalChecks(os.path.abspath(parser.parse_args().program))
    if not os.path.exists(BERLIN):
        sys.exit(f"{BERLIN} is not there: install the zones of the system (tzdata)")
    with tempfile.TemporaryDirectory() as folder:
        db = os.path.join(folder, "local.db")
        with open(ORDER_SQL) as text:
            sqlite3(db, text.read())
        names(checks, db)
        compares(checks, db)
        places(checks, db, folder)
        chooses(checks, db)
    return 1 if checks.failed else 0


if __name__ == "__main__":
    sys.exit(main())
