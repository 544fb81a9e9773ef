"""Asks the parts of tests/ that judge runs of the program whether they see what is wrong. Run by `run` beside it.

Each line is `ok NAME` or `FAILED NAME`: a judge says nothing of a good run, and something of each bad one.
"""

import io
import re
import sys
import tempfile
from contextlib import redirect_stdout
from pathlib import Path

TESTS = Path(__file__).resolve().parents[2]
sys.path[:1] = [str(TESTS / name) for name in ("system/held", "system/streams", "system/memory", "model")]
sys.argv = ["judges", tempfile.gettempdir(), "/bin/true"]

import held  # noqa: E402
import properties  # noqa: E402
import refusals  # noqa: E402
import scenes  # noqa: E402
import workers  # noqa: E402
from program import Ended  # noqa: E402


def sees(name, judge, good, bad):
    """The judge has nothing to say of the good ones, and something of each of the bad ones."""
    silent = [it for it in bad if not judge(*it)]
    loud = [it for it in good if judge(*it)]
    told = f": it says nothing of {silent}, and something of {loud}" if silent or loud else ""
    print(f"{'FAILED' if told else 'ok'} {name}{told}")


# How the runs below write the lines of a fault.
FAULTS = {"W!": "rtcm2rinex: write failed/", "w!": "rtcm2rinex: write failed", "R!": "rtcm2rinex: read failed/",
    "M!": "rtcm2rinex: out of memory/"}


def runs(text, make):
    """What `make` makes of each run of a text: numbers, and output in which / ends a line. A run is a status, standard output and
    standard error, and what else the judge is told; - is nothing."""
    def field(word):
        for sign, line in FAULTS.items():
            word = word.replace(sign, line)
        return int(word) if re.fullmatch(r"-?\d+", word) else word.removeprefix("-").replace("/", "\n").encode()
    return [make(*map(field, run.split())) for run in text.split(";")]


def streams():
    whole = scenes.Left(0, b"one\ntwo\n", b"first\nsecond\n")

    def judge(name, judge, make, good, bad):
        sees(name, judge, *(runs(text, lambda *it: (scenes.Left(*it[:3]), whole, *make(*it[3:]))) for text in (good, bad)))

    judge("streams_sees_another_run", scenes.same, lambda: (), "0 one/two/ first/second/",
        "1 one/two/ first/second/; 0 one/two first/second/; 0 one/two// first/second/; 0 one/Two/ first/second/; 0 one/two/ -;"
        "0 one/two/ first/secone/")
    judge("streams_sees_a_run_that_breaks_off_otherwise", scenes.broken_off,
        lambda count=None: (["write failed", "read failed"], count), "1 one/ W!; 1 - first/W! 0; 1 one/two/ first/second/R! 8",
        "0 one/ W!; 2 one/ W!; -9 one/ W!; 1 two/ W!; 1 one/two/x W!; 1 one/ W! 3; 1 one/ W! 5; 1 one/ -; 1 one/ first/;"
        "1 one/ M!; 1 one/ firW!; 1 one/ second/W!; 1 one/ W!W!; 1 one/ w!")
    judge("streams_sees_a_report_that_is_lost", scenes.broken_off, lambda told: (["write failed"], 4, told),
        "1 one/ W! 0; 1 one/ first/W! 6; 1 one/ first/second/W! 13",
        "1 one/ W! 6; 1 one/ W! 13; 1 one/ first/W! 0; 1 one/ first/W! 13; 1 one/ first/second/W! 6")
    judge("streams_sees_another_part_of_a_report", scenes.told_in_part, lambda count=None: (1, 3, count),
        "1 one/ fir; 1 one/ fir 4", "0 one/ fir; 1 one/ fi; 1 one/ firs; 1 one/ Fir; 1 two/ fir; 1 one/ fir 3; 1 one/ fir 5")
    due = b"reads /a\nreads /b\n"
    others = b"", b"reads /a\n", b"reads /a\nwrites /b\n", b"reads /b\nreads /a\n", b"getenv A\n" + due, *(due + it for it in (b"reads /b\n", b"writes /b\n", b"unlink /a\n"))
    sees("streams_sees_another_call", lambda calls: scenes.other_calls(calls, ["reads /a", "reads /b"]), [(due,)], [(it,) for it in others])
    sees("streams_sees_another_name", scenes.other_names, [(scenes.OF_C,), (scenes.OF_C - {"lseek"},)],
         [(scenes.OF_C | {name},) for name in ("isatty", "stat", "ioctl", "mkdir")] + [(set(),), (scenes.OF_C - {"open"},)])
    count = scenes.Count()
    with redirect_stdout(io.StringIO()) as told:
        count.scene("good", [("run", None)])
        count.scene("bad", [("run", None), ("run", "why"), ("run", None)])
        count.scene("none", [])
    lines = [it.split(":")[0] for it in told.getvalue().splitlines() if it[0] != " "]
    sees("streams_counts_a_scene_that_fails", lambda *it: it != ((1, 2), ["ok good", "FAILED bad", "FAILED none"]),
         [((count.passed, count.failed), lines)], [])


def memory():
    whole = refusals.Ran(0, b"one\ntwo\n", b"first\nsecond\n", 0)
    looks, plain = refusals.Scene(["shew"], looks=True), refusals.Scene(["show"])

    def ran(scene, with_later=False):
        return lambda status, out, err, met=1: (scene, whole, refusals.Ran(status, out, err, met), with_later)

    same = "0 one/two/ first/second/"
    sees("memory_sees_a_refusal_that_is_not_told", refusals.Scene.fault,
        runs(f"{same} 0; 1 - M!; 1 one/ first/M!", ran(plain)) + runs(same, ran(looks)),
        runs(f"0 one/ first/second/ 0; 1 one/two/ first/second/ 0; {same}; 0 - M!; 2 - M!; -11 - -; 1 - -; 1 - W!; 1 two/ M!;"
            "1 - second/M!; 1 - firM!", ran(plain))
        + runs("0 one/ first/second/", ran(looks)) + runs(same, ran(looks, with_later=True)))
    report = whole._replace(err=whole.err + b"".join(b"%d\n" % number for number in range(9)))
    followed = refusals.Ran(1, b"one\n", b"first\nrtcm2rinex: out of memory\n", 1)
    for name, judge, due, good, bad in (
        ("memory_sees_a_part_that_is_lost", refusals.all_but_counts, report, "1 one/two/ first/second/M!",
            "1 - M!; 1 - first/second/M!; 1 one/ first/second/M!; 1 one/two/ M!; 1 one/two/ first/M!;"
            "1 one/two/ first/second/0/1/2/3/4/5/6/7/8/M!"),
        ("memory_sees_less_than_of_standard_input", refusals.as_followed, followed, "1 one/ first/M!",
            "1 - M!; 1 - first/M!; 1 one/ M!; 1 one/two/ first/M!; 1 one/ first/second/M!")):
        sees(name, judge, *(runs(text, lambda *it, due=due: (due, refusals.Ran(*it, 1))) for text in (good, bad)))


def hostiles():
    good = Ended(0, b"one\ntwo\n", b"first\n")

    def ended(text):
        return runs(text, lambda *it: (Ended(*it), 0, good.out, good.err))

    sees("hostile_sees_another_run", properties.ends_with, ended("0 one/two/ first/"),
        ended("1 one/two/ first/; -6 one/two/ first/; 0 one/Two/ first/; 0 one/ first/; 0 one/two/x first/; 0 one/two/ -;"
            "0 one/two/ first//"))
    entry = properties.Property(properties.as_modelled, 50)

    def told(captures, checked, failed):
        tally = workers.Tally()
        for number in range(captures):
            faults = {entry.name: "why"} if number < failed else {}
            tally.add(workers.Looked(number, "scene", [entry.name] * (number < checked), faults))
        with redirect_stdout(io.StringIO()):
            return tally.told(entry, entry.floor) is not True

    sees("hostile_sees_a_property_that_fails_or_is_seldom_met", told, [(100, 50, 0), (100, 100, 0)],
         [(100, 100, 1), (100, 49, 0), (100, 0, 0)])


def helds():
    def says(method):
        """Whether a test of tests/system/held fails with these numbers."""
        def fails(*numbers):
            tests = held.Tests()
            with redirect_stdout(io.StringIO()):
                getattr(tests, method)("", *numbers)
            return tests.failed == [True]
        return fails

    sees("held_sees_other_numbers", says("same"), [([(1, 2), (1, 2), (1, 2)],)], [([(1, 2), (1, 2), (1, 3)],), ([(1, 2), (2, 2)],)])
    sees("held_sees_a_number_beyond_its_limits", says("within"), [(5, 5, 7), (6, 5, 7), (7, 5, 7)], [(4, 5, 7), (8, 5, 7)])


for judge in (streams, memory, hostiles, helds):
    judge()
