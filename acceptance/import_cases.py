"""Catalogues in Bacula's tables that `imported.py` imports: of each its rows, the lines that are printed, and the rows of the new catalogue.

Lines and rows were worked out by hand from docs/formats.md.
"""

# The Director of the cases is in Berlin. Job N begins N - 1 days after this moment, 2026-11-21 22:00:00 in UTC, by its clock at 23:00:00,
# and lasts a minute.
FIRST, DAY = 1795298400, 86400
# MD5 digests of no byte, of `hello` and of `message digest`, as Bacula and as brestore write them.
NOTHING, HELLO, MESSAGE = b"1B2M2Y8AsgTpgAmY7PhCfg", b"XUFAKrxLKna5cZ2REBfFkg", b"+WtpfXy3k41SWi8xqvFh0A"
NOTHING_HEX, HELLO_HEX, MESSAGE_HEX = "d41d8cd98f00b204e9800998ecf8427e", "5d41402abc4b2a76b9719d911017c592", "f96b697d7cb7938d525a2f31aaf161d0"
ZEROS = "A A A A A A A A A A A A A A"


def numbers(size="H", mode="IGk", link="A", rest="A C"):
    """Returns an LStat of Bacula's, with sixteen numbers, and its first fourteen."""
    first = f"P4A qsBf {mode} B A A A {size} BAA I BrAiYS BrAiYS BrAiYS {link}"
    return f"{first} {rest}".encode(), first


FILE, FILE_KEPT = numbers()
FOLDER, FOLDER_KEPT = numbers("BAA", "EHt")


def job(number, level=b"I", **changes):
    """Returns a row of Bacula's Job: a backup that ended well."""
    day = 20 + number
    row = {
        "JobId": number, "Type": b"B", "Level": level, "JobStatus": b"T", "ClientId": 1, "FileSetId": 1,
        "StartTime": f"2026-11-{day} 23:00:00", "EndTime": f"2026-11-{day} 23:01:00", "RealEndTime": f"2026-11-{day} 23:01:00",
        "JobTDate": FIRST + DAY * (number - 1) + 60, "VolSessionId": number, "VolSessionTime": 1795290000, "JobFiles": 1, "HasBase": 0,
        "PurgedFiles": 0,
    }
    return tuple({**row, **changes}.values())


def kept_job(number, level="I", status="T", start=None, fileset=1, client=1, session=None):
    """Returns a row of brestore's Job."""
    begun = FIRST + DAY * (number - 1) if start is None else start
    return (number, "B", level, client, status, begun, fileset, session or number, 1795290000)


def span(number, job_id, first, last, start, end, index=1, media=1, high=(0, 0)):
    """Returns a row of JobMedia, which is the same for both."""
    return (number, job_id, media, first, last, *high, start, end, index)


def base():
    """Returns the catalogue that the cases change: a Full of two files and their folder, and an Incremental of a file."""
    return {
        "Client": [(1, b"mars-fd")],
        "FileSet": [(1, b"Home")],
        "Media": [(1, b"Vol-1", 1)],
        "Path": [(1, b"/home/anna/")],
        "Job": [job(1, b"F"), job(2)],
        "JobMedia": [span(1, 1, 1, 3, 206, 1172), span(2, 2, 1, 1, 1173, 1655)],
        "File": [
            (1, 1, 1, 1, b"a", FILE, HELLO), (2, 2, 1, 1, b"b", FILE, MESSAGE), (3, 3, 1, 1, b"", FOLDER, b"0"),
            (4, 1, 2, 1, b"a", FILE, MESSAGE),
        ],
    }


def kept():
    """Returns the catalogue that the one of `base` becomes."""
    return {
        "Version": [(2,)],
        "Client": [(1, "mars-fd")],
        "FileSet": [(1, "Home")],
        "Media": [(1, "Vol-1", "File")],
        "Path": [(1, b"/home/anna/")],
        "Job": [kept_job(1, "F"), kept_job(2)],
        "JobMedia": [span(1, 1, 1, 3, 206, 1172), span(2, 2, 1, 1, 1173, 1655)],
        "File": [
            (1, 1, 1, 1, b"a", FILE_KEPT, HELLO_HEX), (2, 2, 1, 1, b"b", FILE_KEPT, MESSAGE_HEX), (3, 3, 1, 1, b"", FOLDER_KEPT, ""),
            (4, 1, 2, 1, b"a", FILE_KEPT, MESSAGE_HEX),
        ],
    }


# Each case: its rows, the lines, the rows that are kept, and more words for the script.
CASES = {}


def case(function):
    """Adds a case: a function that changes the rows and those that are kept, and returns the lines, or the lines and more words."""
    CASES[function.__name__] = function
    return function


@case
def as_they_are(rows, kept):
    return []


@case
def deletions(rows, kept):
    # By the absolute index, after the saved file. One has attributes, which say nothing.
    rows["File"][3:] = [(4, -2, 2, 1, b"c", b"0", b"0"), (5, 0, 2, 1, b"b", FILE, MESSAGE), (6, 1, 2, 1, b"a", FILE, MESSAGE)]
    kept["File"] += [(5, 0, 2, 1, b"b", "", ""), (6, 0, 2, 1, b"c", "", "")]
    return []


@case
def files_in_another_order(rows, kept):
    rows["File"] = [
        (10, 1, 2, 1, b"a", FILE, MESSAGE), (20, 3, 1, 1, b"", FOLDER, b"0"), (30, 1, 1, 1, b"a", FILE, HELLO),
        (40, 2, 1, 1, b"b", FILE, MESSAGE),
    ]
    return []


@case
def digests(rows, kept):
    sha1, sha256, sha512 = b"A" * 27, b"B" * 43, b"C" * 86
    # 22 digits whose last bits are not zero, and a text that is no digest.
    texts = [HELLO, b"0", b"", NOTHING, sha1, sha256, sha512, HELLO[:-1] + b"h", b"no digest!"]
    rows["File"] = [(n, n, 1, 1, b"f%d" % n, FILE, text) for n, text in enumerate(texts, 1)] + [(10, 1, 2, 1, b"a", FILE, MESSAGE)]
    found = [HELLO_HEX, "", "", NOTHING_HEX, "", "", "", "", ""]
    kept["File"] = [(n, n, 1, 1, b"f%d" % n, FILE_KEPT, text) for n, text in enumerate(found, 1)] + [(10, 1, 2, 1, b"a", FILE_KEPT, MESSAGE_HEX)]
    rows["JobMedia"][0] = kept["JobMedia"][0] = span(1, 1, 1, 9, 206, 1172)
    return ["digest 1 5", "unsupported 1 2"]


@case
def streams(rows, kept):
    # Data, sparse data twice, gzip data of a file, of an empty file, of a folder, of a hard link and of a link.
    listed = [
        (b"data", numbers(), HELLO, HELLO_HEX), (b"sparse", numbers(rest="A G"), HELLO, ""), (b"sparse2", numbers(rest="A G"), b"0", ""),
        (b"gzip", numbers(rest="A E"), HELLO, HELLO_HEX), (b"empty", numbers("A", rest="A E"), NOTHING, NOTHING_HEX),
        (b"", numbers("BAA", "EHt", rest="A E"), b"0", ""), (b"hard", numbers(link="B", rest="A E"), b"0", ""),
        (b"soft", numbers(mode="KH/", rest="A E"), b"0", ""), (b"none", numbers("A", rest="A A"), b"0", ""),
    ]
    rows["File"] = [(n, n, 1, 1, name, stat[0], md5) for n, (name, stat, md5, _) in enumerate(listed, 1)] + [(10, 1, 2, 1, b"a", FILE, MESSAGE)]
    kept["File"] = [(n, n, 1, 1, name, stat[1], md5) for n, (name, stat, _, md5) in enumerate(listed, 1)]
    kept["File"] += [(10, 1, 2, 1, b"a", FILE_KEPT, MESSAGE_HEX)]
    rows["JobMedia"][0] = kept["JobMedia"][0] = span(1, 1, 1, 9, 206, 1172)
    return ["sparse 1 1", "unsupported 1 1"]


@case
def sizes(rows, kept):
    # 2^30 bytes, one more, 2^36 of a file and of a folder, and those of a hard link.
    stats = [numbers("BAAAAA"), numbers("BAAAAB"), numbers("BAAAAAA"), numbers("BAAAAAA", "EHt"), numbers("BAAAAAA", link="B")]
    rows["File"] = [(n, n, 1, 1, b"f%d" % n, stat, b"0") for n, (stat, _) in enumerate(stats, 1)] + [(10, 1, 2, 1, b"a", FILE, MESSAGE)]
    kept["File"] = [(n, n, 1, 1, b"f%d" % n, stat, "") for n, (_, stat) in enumerate(stats, 1)] + [(6, 1, 2, 1, b"a", FILE_KEPT, MESSAGE_HEX)]
    rows["JobMedia"][0] = kept["JobMedia"][0] = span(1, 1, 1, 5, 206, 1172)
    return ["large 1 2"]


# The clock of Berlin was put back at 2026-10-25 01:00:00 in UTC, 1792890000.
CHANGE = 1792890000


def autumn(rows, kept):
    """Lets job 1 end before the change of the clock, and adds jobs: 2 from 01:30 in summer time to 02:30 in winter time, 3 that evening."""
    rows["Job"] = [
        job(1, b"F", StartTime="2026-10-24 23:00:00", EndTime="2026-10-24 23:01:00", RealEndTime="2026-10-24 23:01:00", JobTDate=CHANGE - 4 * 3600 + 60),
        job(2, StartTime="2026-10-25 01:30:00", EndTime="2026-10-25 02:30:00", RealEndTime="2026-10-25 02:30:00", JobTDate=CHANGE + 1800),
        job(3, StartTime="2026-10-25 23:00:00", EndTime="2026-10-25 23:01:00", RealEndTime="2026-10-25 23:01:00", JobTDate=CHANGE + 21 * 3600 + 60),
    ]
    rows["JobMedia"].append(span(3, 3, 1, 1, 1656, 1700))
    rows["File"].append((5, 1, 3, 1, b"a", FILE, HELLO))
    kept["Job"] = [kept_job(1, "F", start=CHANGE - 4 * 3600), kept_job(2, start=CHANGE - 1800), kept_job(3, start=CHANGE + 21 * 3600)]
    kept["JobMedia"].append(span(3, 3, 1, 1, 1656, 1700))
    kept["File"].append((5, 1, 3, 1, b"a", FILE_KEPT, HELLO_HEX))


@case
def a_clock_that_is_put_back(rows, kept):
    # Job 2 took two hours, of which the clock shows one: its start is an hour late.
    autumn(rows, kept)
    return ["clock 2 3600"]


@case
def a_clock_that_is_put_back_in_berlin(rows, kept):
    autumn(rows, kept)
    return ["clock 2 3600"], {"TZ": "Europe/Berlin"}


def without_job_2(rows, kept):
    """Takes job 2 out of those of `autumn`."""
    for table in ("Job", "JobMedia", "File"):
        at = 0 if table == "Job" else 1 if table == "JobMedia" else 2
        rows[table] = [row for row in rows[table] if row[at] != 2]
        kept[table] = [row for row in kept[table] if row[at] != 2]
    kept["JobMedia"][1] = (2, *kept["JobMedia"][1][1:])
    kept["File"][3] = (4, *kept["File"][3][1:])


@case
def a_clock_that_is_put_back_between_jobs(rows, kept):
    # Without the zone nothing says that job 3 began after the change.
    autumn(rows, kept)
    without_job_2(rows, kept)
    return ["clock 3 3600"]


@case
def a_clock_that_is_put_back_between_jobs_in_berlin(rows, kept):
    autumn(rows, kept)
    without_job_2(rows, kept)
    return [], {"TZ": "Europe/Berlin"}


@case
def a_clock_that_shows_an_end_before_the_start(rows, kept):
    # From 02:50 in summer time to 02:10 in winter time: twenty minutes, by the clock -40.
    rows["Job"][1] = job(2, StartTime="2026-10-25 02:50:00", EndTime="2026-10-25 02:10:00", RealEndTime="2026-10-25 02:10:00", JobTDate=CHANGE + 600)
    ended = "2026-10-25 02:25:00"
    rows["Job"][0] = job(1, b"F", StartTime="2026-10-25 02:20:00", EndTime=ended, RealEndTime=ended, JobTDate=CHANGE - 35 * 60)
    kept["Job"] = [kept_job(1, "F", start=CHANGE - 40 * 60), kept_job(2, start=CHANGE + 3000)]
    return ["clock 2 3600"]


@case
def orders_that_differ(rows, kept):
    # Job 1 ends after job 2; jobs 2 and 3 end in one second; a Full that ends with an Incremental supersedes it in both orders.
    rows["Job"] = [
        job(1, b"F", EndTime="2026-11-23 00:00:00", RealEndTime="2026-11-23 00:00:00", JobTDate=FIRST + DAY + 3600),
        job(2, EndTime="2026-11-22 23:01:00"),
        job(3, StartTime="2026-11-22 23:00:30", EndTime="2026-11-22 23:01:00", RealEndTime="2026-11-22 23:01:00", JobTDate=FIRST + DAY + 60),
        job(4, b"F", StartTime="2026-11-22 23:00:30", EndTime="2026-11-22 23:01:00", RealEndTime="2026-11-22 23:01:00", JobTDate=FIRST + DAY + 60),
        # Neither a failed job nor one of another file set counts.
        job(5, JobStatus=b"f", StartTime="2026-11-22 23:00:30", EndTime="2026-11-22 23:00:40", RealEndTime="2026-11-22 23:00:40", JobTDate=FIRST + DAY + 40),
        job(6, FileSetId=2, StartTime="2026-11-22 23:00:30", EndTime="2026-11-22 23:00:40", RealEndTime="2026-11-22 23:00:40", JobTDate=FIRST + DAY + 40),
    ]
    rows["FileSet"].append((2, b"Root"))
    more = [span(n, n, 1, 1, 2000 + n, 2000 + n) for n in (3, 4, 5, 6)]
    rows["JobMedia"] += more
    rows["File"] += [(n + 2, 1, n, 1, b"a", FILE, b"0") for n in (3, 4, 5, 6)]
    kept["FileSet"].append((2, "Root"))
    half = FIRST + DAY + 30
    kept["Job"] += [kept_job(3, start=half), kept_job(4, "F", start=half), kept_job(5, status="f", start=half), kept_job(6, start=half, fileset=2)]
    kept["JobMedia"] += more
    kept["File"] += [(n + 2, 1, n, 1, b"a", FILE_KEPT, "") for n in (3, 4, 5, 6)]
    return ["order 1 3", "order 2 1"]


@case
def spans_with_gaps_and_of_no_file(rows, kept):
    rows["Media"].append((2, b"Vol-2", 1))
    rows["JobMedia"] = [
        span(7, 1, 0, 0, 0, 0, index=1), span(8, 1, 2, 2, 500, 600, index=9, media=2), span(6, 1, 1, 2, 206, 1172, index=5),
        # The same index: by JobMediaId. Then addresses after 2^32.
        span(3, 1, 3, 3, 700, 800, index=12, media=2), span(2, 1, 2, 3, 601, 650, index=12, media=2),
        span(9, 1, 3, 3, 5, 7, index=20, media=2, high=(1, 2)), span(1, 2, 1, 1, 1173, 1655, index=3),
    ]
    kept["Media"].append((2, "Vol-2", "File"))
    kept["JobMedia"] = [
        span(1, 1, 1, 2, 206, 1172), span(2, 1, 2, 2, 500, 600, index=2, media=2), span(3, 1, 2, 3, 601, 650, index=3, media=2),
        span(4, 1, 3, 3, 700, 800, index=4, media=2), span(5, 1, 3, 3, 5, 7, index=5, media=2, high=(1, 2)), span(6, 2, 1, 1, 1173, 1655),
    ]
    return ["empty 1 1"]


@case
def jobs_that_wrote_nothing(rows, kept):
    # An empty Differential without a row of JobMedia, and one with a row of 0 to 0.
    rows["Job"] += [job(3, b"D"), job(4, b"D")]
    rows["JobMedia"].append(span(3, 4, 0, 0, 0, 0))
    rows["File"] += [(5, 0, 4, 1, b"b", b"0", b"0")]
    return ["unwritten 3 0", "unwritten 4 1"]


@case
def jobs_that_did_not_end_well(rows, kept):
    # A cancelled job and a failed one without rows; one that runs, with rows: JobTDate is its start.
    begun = FIRST + 4 * DAY
    rows["Job"] += [job(3, JobStatus=b"A", JobFiles=7), job(4, JobStatus=b"f"), job(5, JobStatus=b"R", EndTime=None, RealEndTime=None, JobTDate=begun)]
    more = [span(n, n, 1, 1, 2000 + n, 2000 + n) for n in (3, 4, 5)]
    rows["JobMedia"] += more
    rows["File"].append((5, 1, 5, 1, b"a", FILE, HELLO))
    kept["Job"] += [kept_job(3, status="A"), kept_job(4, status="f"), kept_job(5, status="R", start=begun)]
    kept["JobMedia"] += more
    kept["File"].append((5, 1, 5, 1, b"a", FILE_KEPT, HELLO_HEX))
    return ["unfinished 3 7", "unfinished 4 1"]


@case
def rows_outside_all_spans(rows, kept):
    rows["JobMedia"][0] = kept["JobMedia"][0] = span(1, 1, 2, 2, 206, 1172)
    return ["outside 1 2"]


@case
def rows_in_a_gap_between_spans(rows, kept):
    rows["JobMedia"] = [span(1, 1, 1, 1, 206, 600), span(3, 1, 3, 3, 601, 1172, index=2), span(2, 2, 1, 1, 1173, 1655)]
    kept["JobMedia"] = [span(1, 1, 1, 1, 206, 600), span(2, 1, 3, 3, 601, 1172, index=2), span(3, 2, 1, 1, 1173, 1655)]
    return ["outside 1 1"]


@case
def file_sets_of_one_name(rows, kept):
    rows["FileSet"] = [(3, b"Home"), (5, b"Home"), (7, b"Home of nobody")]
    rows["Job"] = [job(1, b"F", FileSetId=3), job(2, FileSetId=5)]
    return []


@case
def jobs_of_other_types(rows, kept):
    rows["Job"] += [job(3, Type=b"R"), job(4, Type=b"C", level=b"F"), job(5, b"B"), job(6, HasBase=1), job(7, Type=b"D", level=b" ", ClientId=0, FileSetId=0)]
    rows["JobMedia"] += [span(n, n, 1, 1, 2000 + n, 2000 + n) for n in (4, 5, 6)]
    rows["File"] += [(n + 1, 1, n, 1, b"a", FILE, HELLO) for n in (4, 5, 6)] + [(9, 2, 4, 1, b"b", FILE, HELLO)]
    return ["type 3 0", "type 4 2", "base 5 1", "base 6 1", "type 7 0"]


@case
def jobs_after_one_that_stands_on_a_base_job(rows, kept):
    # A Full on a Base job, an Incremental, a Differential that failed, a job of another file set, and the next Full with an Incremental.
    rows["FileSet"].append((2, b"Root"))
    rows["Job"] += [job(3, b"F", HasBase=1), job(4), job(5, b"D", JobStatus=b"f"), job(6, FileSetId=2), job(7, b"F"), job(8)]
    # A Full on a Base job that failed is in nobody's way.
    rows["Job"] += [job(9, b"F", HasBase=1, JobStatus=b"f"), job(10)]
    rows["JobMedia"] += [span(n, n, 1, 1, 2000 + n, 2000 + n) for n in range(3, 11)]
    rows["File"] += [(n + 2, 1, n, 1, b"a", FILE, HELLO) for n in range(3, 11)]
    kept["FileSet"].append((2, "Root"))
    kept["Job"] += [kept_job(6, fileset=2), kept_job(7, "F"), kept_job(8), kept_job(10)]
    kept["JobMedia"] += [span(at, n, 1, 1, 2000 + n, 2000 + n) for at, n in enumerate((6, 7, 8, 10), 3)]
    kept["File"] += [(at, 1, n, 1, b"a", FILE_KEPT, HELLO_HEX) for at, n in enumerate((6, 7, 8, 10), 5)]
    return ["base 3 1", "base 4 1", "base 5 1", "base 9 1"]


@case
def a_virtual_full(rows, kept):
    # It has the times of job 2, but for its real end.
    rows["Job"].append(job(3, b"F", StartTime="2026-11-22 23:00:00", EndTime="2026-11-22 23:01:00", JobTDate=FIRST + DAY + 60))
    rows["JobMedia"].append(span(3, 3, 1, 2, 2000, 2100))
    rows["File"] += [(5, 1, 3, 1, b"a", FILE, MESSAGE), (6, 2, 3, 1, b"b", FILE, MESSAGE)]
    kept["Job"].append(kept_job(3, "F", start=FIRST + DAY))
    kept["JobMedia"].append(span(3, 3, 1, 2, 2000, 2100))
    kept["File"] += [(5, 1, 3, 1, b"a", FILE_KEPT, MESSAGE_HEX), (6, 2, 3, 1, b"b", FILE_KEPT, MESSAGE_HEX)]
    return ["virtual 3 2"]


@case
def jobs_that_were_purged(rows, kept):
    rows["Job"] = [job(1, b"F", PurgedFiles=1, JobFiles=3), job(2), job(3, JobStatus=b"W", JobFiles=5)]
    rows["JobMedia"].append(span(3, 3, 1, 1, 2000, 2100))
    rows["File"] = rows["File"][3:]
    kept["Job"].append(kept_job(3, status="W"))
    kept["JobMedia"].append(span(3, 3, 1, 1, 2000, 2100))
    kept["File"] = [(1, *kept["File"][3][1:])]
    return ["purged 1 3", "purged 3 5"]


@case
def volumes_that_are_disabled(rows, kept):
    rows["Media"] = [(1, b"Vol-1", 0), (2, b"Vol-2", 2)]
    rows["JobMedia"][1] = kept["JobMedia"][1] = span(2, 2, 1, 1, 1173, 1655, media=2)
    kept["Media"].append((2, "Vol-2", "File"))
    return ["disabled 1 1"]


@case
def sessions_that_come_twice(rows, kept):
    rows["Job"].append(job(3, VolSessionId=1))
    rows["JobMedia"].append(span(3, 3, 1, 1, 2000, 2100))
    rows["File"] += [(5, 1, 3, 1, b"c", FILE, HELLO), (6, 2, 3, 1, b"d", FILE, HELLO)]
    # One that is left out for another reason is in nobody's way.
    rows["Job"] += [job(4, Type=b"C", VolSessionId=5), job(5)]
    rows["JobMedia"].append(span(4, 5, 1, 1, 2101, 2200))
    rows["File"].append((7, 1, 5, 1, b"a", FILE, HELLO))
    kept["Job"].append(kept_job(5))
    kept["JobMedia"].append(span(3, 5, 1, 1, 2101, 2200))
    kept["File"].append((5, 1, 5, 1, b"a", FILE_KEPT, HELLO_HEX))
    return ["session 3 2", "type 4 0"]


@case
def attributes_that_cannot_be_read(rows, kept):
    first = "P4A qsBf IGk B A A A H BAA I BrAiYS BrAiYS BrAiYS"
    listed = [
        # Twelve numbers, a bad digit, past 2^63 - 1, past -2^63, none, and a tab between two.
        ("P4A qsBf IGk B A A A H BAA I BrAiYS BrAiYS", ZEROS), (f"{first} A! A C", ZEROS), (f"{first[:-6]}IAAAAAAAAAA A A C", ZEROS),
        (f"{first[:-6]}-IAAAAAAAAAB A A C", ZEROS), ("", ZEROS), (f"{first.replace(' B ', chr(9) + 'B ')} A A C", ZEROS),
        # Thirteen numbers, fourteen, fifteen and seventeen; the least and the greatest; more spaces; a bad word after the fourteenth.
        (first, f"{first} A"), (f"{first} B", f"{first} B"), (f"{first} A A", f"{first} A"), (f"{first} A A C D", f"{first} A"),
        (f"{first[:-6]}-IAAAAAAAAAA A A C", f"{first[:-6]}-IAAAAAAAAAA A"), (f"{first[:-6]}H////////// A A C", f"{first[:-6]}H////////// A"),
        (f"  {first.replace(' ', '  ')}  A A C ", f"{first} A"), (f"{first} A ! C", f"{first} A"), (f"{first[:-6]}-B A A C", f"{first[:-6]}-B A"),
    ]
    rows["File"] = [(n, n, 1, 1, b"f%d" % n, stat.encode(), HELLO) for n, (stat, _) in enumerate(listed, 1)] + [(16, 1, 2, 1, b"a", FILE, MESSAGE)]
    kept["File"] = [(n, n, 1, 1, b"f%d" % n, stat, HELLO_HEX) for n, (_, stat) in enumerate(listed, 1)] + [(16, 1, 2, 1, b"a", FILE_KEPT, MESSAGE_HEX)]
    rows["JobMedia"][0] = kept["JobMedia"][0] = span(1, 1, 1, 15, 206, 1172)
    return ["lstat 1 6"]


@case
def odd_attributes_of_other_streams(rows, kept):
    # With two spaces after the first number: sparse data with a digest, gzip data, and a file above 2^30 bytes.
    stats = [numbers(rest="A G"), numbers(rest="A E"), numbers("BAAAAB")]
    rows["File"][:3] = [(n, n, 1, 1, b"f%d" % n, stat.replace(b"P4A ", b"P4A  "), HELLO) for n, (stat, _) in enumerate(stats, 1)]
    kept["File"][:3] = [(n, n, 1, 1, b"f%d" % n, stat, HELLO_HEX if n > 1 else "") for n, (_, stat) in enumerate(stats, 1)]
    return ["large 1 1", "sparse 1 1", "unsupported 1 1"]


@case
def paths_that_are_not_taken(rows, kept):
    long = b"/" + b"x" * 4090 + b"/"
    bad = [b"home/", b"C:/", b"/a//b/", b"/a/./", b"/../a/", b"/a", b"", b"/" + b"y" * 4095 + b"/"]
    rows["Path"] += [(n, path) for n, path in enumerate(bad, 10)] + [(30, long), (31, b"/"), (32, b"/...")] + [(33, b"/..a/.b./")]
    rows["File"] = rows["File"][:3]
    rows["File"] += [(n, n, 1, n, b"f", FILE, HELLO) for n in range(10, 18)]
    names = [b"x/y", b".", b"..", b"/"]
    rows["File"] += [(n, n, 1, 1, name, FILE, HELLO) for n, name in enumerate(names, 18)]
    # 4,096 and 4,097 bytes; `/`; names that only begin with dots; a path without its last `/`; a path that is not there.
    rows["File"] += [(22, 22, 1, 30, b"1234", FILE, b"0"), (23, 23, 1, 30, b"12345", FILE, b"0"), (24, 24, 1, 31, b"", FOLDER, b"0")]
    rows["File"] += [(25, 25, 1, 33, b"..z", FILE, b"0"), (26, 26, 1, 32, b"", FILE, b"0"), (27, 27, 1, 77, b"z", FILE, b"0")]
    rows["File"].append((28, 1, 2, 10, b"only", FILE, HELLO))
    rows["JobMedia"][0] = kept["JobMedia"][0] = span(1, 1, 1, 30, 206, 1172)
    kept["Path"] = [(1, b"/"), (2, b"/..a/.b./"), (3, b"/home/anna/"), (4, long)]
    kept["File"] = [(*row[:3], 3, *row[4:]) for row in kept["File"][:3]]
    kept["File"] += [(4, 22, 1, 4, b"1234", FILE_KEPT, ""), (5, 24, 1, 1, b"", FOLDER_KEPT, ""), (6, 25, 1, 2, b"..z", FILE_KEPT, "")]
    return ["path 1 15", "path 2 1"]


@case
def paths_that_are_twice_in_the_table(rows, kept):
    rows["Path"] = [(4, b"/home/anna/"), (5, b"/etc/"), (6, b"/home/anna/"), (7, b"/unused/")]
    rows["File"] = [(*row[:3], at, *row[4:]) for row, at in zip(rows["File"], (4, 6, 5, 6))]
    kept["Path"] = [(1, b"/etc/"), (2, b"/home/anna/")]
    kept["File"] = [(*row[:3], at, *row[4:]) for row, at in zip(kept["File"], (2, 2, 1, 2))]
    return []


@case
def names_of_any_bytes(rows, kept):
    every = bytes(it for it in range(1, 256) if it != 0x2F)
    rows["Path"].append((2, b"/" + every + b"/"))
    rows["File"][1] = (2, 2, 1, 2, every[::-1], FILE, b"0")
    # 0x01 comes before `h`.
    kept["Path"] = [(1, b"/" + every + b"/"), (2, b"/home/anna/")]
    kept["File"] = [(*row[:3], 2, *row[4:]) for row in kept["File"]]
    kept["File"][1] = (2, 2, 1, 1, every[::-1], FILE_KEPT, "")
    return []


@case
def an_index_that_comes_twice(rows, kept):
    # The first row is taken, and none of a bad path.
    rows["File"].insert(1, (10, 1, 1, 1, b"z", FILE, HELLO))
    rows["File"].insert(2, (0, 2, 1, 1, b"x/y", FILE, HELLO))
    return ["index 1 1", "path 1 1"]


@case
def names_that_are_not_taken(rows, kept):
    rows["Client"].append((2, b"ma/rs"))
    rows["FileSet"] += [(2, b""), (3, b"x" * 128)]
    rows["Media"] += [(2, b"a/b", 1), (3, b"..", 1)]
    rows["Job"] += [job(3, ClientId=2), job(4, FileSetId=2), job(5, FileSetId=3), job(6), job(7), job(8, ClientId=0), job(9)]
    rows["JobMedia"] += [span(n, n, 1, 1, 2000 + n, 2000 + n, media={6: 2, 7: 3, 9: 99}.get(n, 1)) for n in range(3, 10)]
    rows["File"].append((5, 1, 3, 1, b"a", FILE, HELLO))
    return ["name 3 1"] + [f"name {n} 0" for n in range(4, 10)]


@case
def jobs_whose_rows_are_not_taken(rows, kept):
    rows["Job"] += [job(3, b"-"), job(4, JobStatus=b"1"), job(5, JobTDate=0), job(6, JobTDate=253402300860)]
    rows["JobMedia"] += [span(n, n, 1, 1, 2000 + n, 2000 + n) for n in range(3, 7)]
    rows["File"].append((5, 1, 3, 1, b"a", FILE, HELLO))
    return ["row 3 1", "row 4 0", "row 5 0", "row 6 0"]


@case
def spans_that_contradict_each_other(rows, kept):
    rows["Media"].append((2, b"Vol-2", 1))
    rows["Job"] += [job(n) for n in range(3, 8)]
    rows["JobMedia"] += [
        span(3, 3, 2, 1, 10, 20), span(4, 4, 1, 1, 20, 10), span(5, 5, 1, 1, 10, 20), span(6, 5, 2, 2, 20, 30, index=2),
        span(7, 6, 1, 1, 50, 60), span(8, 6, 2, 2, 1, 9, index=2),
        # On two volumes, and touching on one, they do not.
        span(9, 7, 1, 1, 50, 60), span(10, 7, 1, 1, 10, 20, index=2, media=2), span(11, 7, 1, 1, 61, 70, index=3),
    ]
    rows["File"].append((5, 1, 7, 1, b"a", FILE, HELLO))
    kept["Media"].append((2, "Vol-2", "File"))
    kept["Job"].append(kept_job(7))
    kept["JobMedia"] += [span(3, 7, 1, 1, 50, 60), span(4, 7, 1, 1, 10, 20, index=2, media=2), span(5, 7, 1, 1, 61, 70, index=3)]
    kept["File"].append((5, 1, 7, 1, b"a", FILE_KEPT, HELLO_HEX))
    return ["spans 3 0", "spans 4 0", "spans 5 0", "spans 6 0"]


@case
def rows_of_no_job(rows, kept):
    rows["File"] += [(5, 1, 99, 1, b"a", FILE, HELLO), (6, 2, 99, 1, b"b", FILE, HELLO)]
    return ["orphan 99 2"]


def two_clients(rows, kept):
    """Adds a client with a file set of its own and two jobs, whose numbers are 3 and 4."""
    rows["Client"].append((2, b"venus-fd"))
    rows["FileSet"].append((2, b"Root"))
    rows["Path"] += [(2, b"/root/"), (3, b"/a/")]
    rows["Job"] += [job(3, b"F", ClientId=2, FileSetId=2), job(4, ClientId=2, FileSetId=1), job(5, Type=b"R", ClientId=2, FileSetId=2)]
    rows["JobMedia"] += [span(3, 3, 1, 1, 2000, 2100), span(4, 4, 1, 1, 2101, 2200)]
    rows["File"] += [(5, 1, 3, 2, b"r", FILE, HELLO), (6, 1, 4, 3, b"s", FILE, HELLO), (7, 1, 99, 1, b"t", FILE, HELLO)]


@case
def one_client(rows, kept):
    two_clients(rows, kept)
    kept["Client"], kept["FileSet"] = [(1, "venus-fd")], [(1, "Home"), (2, "Root")]
    kept["Path"], kept["Job"] = [(1, b"/a/"), (2, b"/root/")], [kept_job(3, "F", fileset=2), kept_job(4)]
    kept["JobMedia"] = [span(1, 3, 1, 1, 2000, 2100), span(2, 4, 1, 1, 2101, 2200)]
    kept["File"] = [(1, 1, 3, 2, b"r", FILE_KEPT, HELLO_HEX), (2, 1, 4, 1, b"s", FILE_KEPT, HELLO_HEX)]
    return ["type 5 0"], {"words": ["--client", "venus-fd"]}


@case
def one_file_set(rows, kept):
    two_clients(rows, kept)
    kept["Client"], kept["FileSet"] = [(1, "venus-fd")], [(1, "Root")]
    kept["Path"], kept["Job"] = [(1, b"/root/")], [kept_job(3, "F")]
    kept["JobMedia"] = [span(1, 3, 1, 1, 2000, 2100)]
    kept["File"] = [(1, 1, 3, 1, b"r", FILE_KEPT, HELLO_HEX)]
    return ["type 5 0"], {"words": ["--fileset", "Root", "--client", "venus-fd"]}


@case
def a_client_with_a_blank(rows, kept):
    # The other one has an apostrophe, which brestore does not take.
    rows["Client"] = [(1, b"mars fd"), (2, b"o'brien fd")]
    rows["Job"].append(job(3, b"F", ClientId=2))
    rows["JobMedia"].append(span(3, 3, 1, 1, 2000, 2100))
    kept["Client"] = [(1, "mars fd")]
    return [], {"words": ["--client", "mars fd"]}


@case
def after_a_moment(rows, kept):
    # Job 2 begins at the moment itself.
    kept["Job"], kept["JobMedia"] = [kept_job(2)], [span(1, 2, 1, 1, 1173, 1655)]
    kept["File"] = [(1, *kept["File"][3][1:])]
    return [], {"words": ["--after", "2026-11-22 22:00:00"]}
