"""The scenes of tests/system/streams/run: what the program does where its reads and writes fail, are cut
short, or never end.

Each run is beside a good one, of the same words on the same bytes, that nothing disturbs. In a
scene that breaks off: status 1; standard output holds a first part of the good file; standard
error a first part of the good report, in whole lines, and then the one line that names the fault.
Where it is known how far a conversion came, both are as long as what it wrote before, to the byte.
In a scene that breaks nothing: the very bytes and the status of the good run.
"""

import errno
import fcntl
import multiprocessing
import os
import re
import resource
import shutil
import signal
import struct
import subprocess
import sys
from concurrent.futures import ProcessPoolExecutor, ThreadPoolExecutor
from concurrent.futures.process import BrokenProcessPool
from dataclasses import dataclass, field, replace
from datetime import datetime, timedelta

from wire import crc24q

WORK, PROGRAM, *WORDS = sys.argv[1:]
IS_THINNED = "--few" in WORDS
WORDS = [word for word in WORDS if word != "--few"]
ROOT = os.path.realpath(os.path.join(os.path.dirname(__file__), "..", "..", ".."))
EXAMPLES = os.path.join(ROOT, "examples")
PROGRAM = os.path.realpath(PROGRAM)
SHIM = os.path.join(WORK, "cut.so")
CALLS = os.path.join(WORK, "calls.so")
NOTHING = os.devnull

SECONDS = 60  # of processor time: a run that takes more does not end
ASLEEP = 3600  # by the clock: a run that takes longer sleeps for ever, however busy the machine is
GATHERED = 65_536  # so many bytes of a file are gathered before a write
READ_AT_ONCE = 32_768  # so many bytes of a link, or of an input of `summary`, are read at once
READ_IN_PIECES = 4096  # so many bytes of an input of `show` or of a command that takes a file or two are read at once
FRAME = 46  # the bytes of a frame of late.rtcm, and of each one that is made of it
COUNTS = 9  # the lines at the end of a report
FEW = 200  # so many runs of a scene at least are left by --few, if it has as many

SET_PIPE_SIZE = 1031  # the request of Linux, which has a name from Python 3.10 on
MOST_INTERRUPTIONS = 1000  # so often in a row an interrupted call is made again

# What the program does not do yet. A scene of this list that fails is told, and isn't counted; one
# that passes is counted, and then its line here is to go.
NOT_YET = {"a limit of the file's size": "SIGXFSZ ends the program: no fault line, no status of its own"}


# Runs.

@dataclass(frozen=True)
class Case:
    """Words of the program, and the file that is standard input."""

    name: str
    words: tuple
    given: str = NOTHING


@dataclass(frozen=True)
class Left:
    """What a run leaves. A negative status is the signal that ended it."""

    status: int
    out: bytes
    err: bytes


@dataclass(frozen=True)
class Disturbance:
    """What is done to a run: settings of the shim, limits, and standard streams of other kinds: a
    name to open, a descriptor, or None for a closed one."""

    shim: dict = field(default_factory=dict)
    limits: dict = field(default_factory=dict)
    out: object = ""
    err: object = ""
    given: object = ""
    ignored: bool = False  # the caller ignores SIGPIPE and SIGXFSZ


def stream(number, to, flags):
    """What makes a standard stream of a name, a descriptor, or none."""
    if to is None:
        return os.POSIX_SPAWN_CLOSE, number
    if isinstance(to, int):
        return os.POSIX_SPAWN_DUP2, to, number
    return os.POSIX_SPAWN_OPEN, number, to, flags, 0o600


def own():
    """The beginning of the names of this process's files."""
    return os.path.join(WORK, str(os.getpid()))


def start(case, disturbance, seconds=SECONDS):
    """Starts a run, and answers its number and the files of its standard output and error. One that takes more processor time, or
    sleeps for ever, is ended."""
    out, err = f"{own()}.out", f"{own()}.err"
    made = os.O_WRONLY | os.O_CREAT | os.O_TRUNC
    for name in [out, err]:
        with open(name, "wb"):
            pass
    given, to_out, to_err = disturbance.given, disturbance.out, disturbance.err
    streams = [stream(0, case.given if given == "" else given, os.O_RDONLY),
               stream(1, out if to_out == "" else to_out, made),
               stream(2, err if to_err == "" else to_err, made)]
    environment = {"PATH": os.environ.get("PATH", ""), "LC_ALL": "C"}
    if disturbance.shim:
        environment |= {"LD_PRELOAD": SHIM} | {k: str(v) for k, v in disturbance.shim.items()}
    before = {kind: resource.getrlimit(kind) for kind in disturbance.limits}
    for kind, limit in disturbance.limits.items():
        resource.setrlimit(kind, (limit, before[kind][1]))
    signals = [signal.SIGXCPU] if disturbance.ignored else [signal.SIGXCPU, signal.SIGPIPE, signal.SIGXFSZ]
    try:
        running = os.posix_spawn(PROGRAM, ["rtcm2rinex", *case.words], environment, file_actions=streams, setsigdef=signals)
    finally:
        for kind, limit in before.items():
            resource.setrlimit(kind, limit)
    resource.prlimit(running, resource.RLIMIT_CPU, (seconds, resource.getrlimit(resource.RLIMIT_CPU)[1]))
    signal.signal(signal.SIGALRM, lambda *_: os.kill(running, signal.SIGKILL))
    signal.setitimer(signal.ITIMER_REAL, ASLEEP)
    return running, out, err


def end(running, out, err):
    """Waits for the end of a run."""
    _, answer = os.waitpid(running, 0)
    signal.setitimer(signal.ITIMER_REAL, 0)
    return Left(os.waitstatus_to_exitcode(answer), content(out), content(err))


def run(case, disturbance=Disturbance(), seconds=SECONDS):
    return end(*start(case, disturbance, seconds))


def content(name):
    with open(name, "rb") as file:
        return file.read()


def written(name, text):
    """A file of the scratch folder with these bytes."""
    name = os.path.join(WORK, name)
    with open(name, "wb") as file:
        file.write(text)
    return name


# Captures.

def example(name):
    return os.path.join(EXAMPLES, name)


def epochs(seconds):
    """Frames of a 1004, one for each of these seconds after the noon of the examples: the first
    frame of late.rtcm with another time of week and checksum."""
    frame = content(example("late.rtcm"))[:FRAME]
    frames = []
    for second in seconds:
        bits = int.from_bytes(frame[6:11], "big")
        tow = 475_200_000 + 1000 * second
        head = frame[:6] + (bits & ((1 << 10) - 1) | tow << 10).to_bytes(5, "big") + frame[11:-3]
        frames.append(head + crc24q(head).to_bytes(3, "big"))
    return b"".join(frames)


def records(count, step=1):
    """A file of so many records, one each `step` seconds from the noon of the examples on: the record of base.rnx with other
    times."""
    header, epoch, line = content(example("base.rnx")).rpartition(b"> 2024 05 17 12 00  0.0000000")
    text = [header]
    for number in range(count):
        time = datetime(2024, 5, 17, 12) + timedelta(seconds=number * step)
        text += [f"> {time:%Y %m %d %H %M} {time.second:2}.0000000".encode(), line]
    return written(f"records{step}.rnx", b"".join(text))


OPTIONS = ("--station", "2003", "--near", "2024-05-17T12:00:00", "--made", "2024-05-17T13:00:00",
           "--marker", "BASE", "--codes", "1C,2W,5X")


OF_FILES = ("check", "chart", "cut", "quality", "label")  # the commands that take a file of `convert`

SAYS_NO = "check that says no"
TWO_LINKS = "convert of two links"
BESIDE_A_FILE = "convert of standard input and a file"


# Each command that takes one file.
COMMANDS = [("show",), ("show", "--hex"), ("check",), ("summary",), ("chart",), ("chart", "--text"), ("cut", "--every", "1"),
            ("quality",), ("quality", "--lines"), ("quality", "--json"), ("label", "--blank")]


def convert(name, *words, given=NOTHING):
    return Case(name, ("convert", *OPTIONS, *words), given)


def cases():
    """Every command, on texts below and above what is gathered, from files and standard input."""
    long = written("long.rtcm", epochs(range(1500)))
    late = written("late.rtcm", epochs(range(1600, 0, -1)))
    # Epoch 0 has closed when its message comes again; of the others 98 have before those come.
    late_early = written("late_early.rtcm", epochs([0, 1, 2, 0, *range(3, 1500)]))
    late_at_last = written("late_at_last.rtcm", epochs([*range(100), *[0] * 1700]))
    session = example("session_link1.rtcm"), example("session_link2.rtcm")
    wrong = written("wrong.rnx", content(example("base.rnx")).replace(b"45.000", b"45.100"))
    frames = written("frames.rtcm", bytes.fromhex("d300023fb0d71d73") * 11_917)
    # The line of this 1005 has 64 bytes, of which 1,024 are gathered.
    station = content(example("base.rtcm"))[:25]
    three_times = written("three_times.rtcm", station * 3_072)
    line_more = written("line_more.rtcm", station * 3_073)
    listed = [
        Case("help", ("--help",)),
        Case("version", ("--version",)),
        Case("help of convert", ("help", "convert")),
        Case("show", ("show", example("session.rtcm"))),
        Case("show of hex text", ("show", "--hex", "stdin"), example("arp1005.hex")),
        Case("show of 11,917 frames", ("show", frames)),
        Case("show of three times what is gathered", ("show", three_times)),
        Case("show of a line more", ("show", line_more)),
        Case("check that says yes", ("check", example("session.rnx"))),
        Case(SAYS_NO, ("check", "stdin"), wrong),
        Case("summary", ("summary", example("session.rtcm"))),
        Case("summary of standard input", ("summary", "stdin"), example("late.rtcm")),
        Case("summary of a long file", ("summary", long)),
        Case("chart", ("chart", example("session.rnx"))),
        Case("chart of standard input", ("chart", "--text", "stdin"), example("session.rnx")),
        Case("cut", ("cut", "--every", "30", example("slip.rnx"))),
        Case("cut of standard input", ("cut", "--every", "1", "stdin"), example("session.rnx")),
        Case("cut of a long file", ("cut", "--from", "2024-05-17T12:00:07", records(1500))),
        Case("quality", ("quality", "--json", example("session.rnx"))),
        # A pass ends with 121 s without a record, so each record is one.
        Case("quality of many passes, from standard input", ("quality", "stdin"), records(800, 121)),
        Case("label", ("label", "--observer", "me", example("slip.rnx"))),
        Case("label of standard input", ("label", "--blank", "stdin"), example("session.rnx")),
        Case("label of a long file", ("label", "--blank", records(1500))),
        Case("compare", ("compare", example("slip_30s.rnx"), example("slip.rnx"))),
        Case("compare with standard input", ("compare", "--json", "stdin", example("session.rnx")), example("session.rnx")),
        convert(TWO_LINKS, *session),
        convert(BESIDE_A_FILE, "stdin", session[1], given=session[0]),
    ]
    for name, file in [
            ("convert", example("late.rtcm")),
            ("convert of a long file", long),
            ("convert with a long report", late),
            ("convert of a long file with an early line", late_early),
            ("convert of closed records before a long report", late_at_last)]:
        listed.append(convert(name, "--window", "2", file))
        listed.append(convert(f"{name}, from standard input", "--window", "2", "stdin", given=file))
    return {case.name: case for case in listed}


CASES = {}
GOOD = {}


def is_gathered(case):
    return case.given == NOTHING


# How much of a conversion is out where it breaks off: all that it wrote before.

ORDER = {}  # of each conversion its writes


@dataclass(frozen=True)
class Write:
    """So many bytes, to standard output (1) or standard error (2), once so many frames of a capture
    came; `None` if all came, or if it isn't said."""

    to: int
    size: int
    frames: int = None


def has_known_frames(case):
    """Whether it is one link, of frames that `epochs` makes."""
    return len(inputs(case)) == 1 and "--window" in case.words


def times(capture):
    """The times of week of such frames."""
    frames = [capture[at:at + FRAME] for at in range(0, len(capture), FRAME)]
    return [int.from_bytes(frame[6:11], "big") >> 10 for frame in frames]


def order_of(case, good):
    """The writes of a conversion: each record as its epoch closes, the first one with the header,
    and each line of the report as its message comes; at last the records of the epochs that are
    open, and the counts. With a window of 2 two epochs are open; what comes before both is late."""
    header, *records = re.split(rb"(?m)^(?=> )", good.out)
    records = [len(header + records[0]), *map(len, records[1:])]
    lines = [len(line) for line in good.err.splitlines(keepends=True)]
    order, is_open = [], []
    capture = content(inputs(case)[0]) if has_known_frames(case) else b""
    for number, time_of_week in enumerate(times(capture), 1):
        if len(is_open) == 2 and time_of_week < is_open[0]:
            order.append(Write(2, lines.pop(0), number))
        elif time_of_week not in is_open:
            is_open = sorted([*is_open, time_of_week])
            if len(is_open) > 2:
                del is_open[0]
                order.append(Write(1, records.pop(0), number))
    if len(lines) != COUNTS:
        raise ValueError(f"{case.name}: {len(lines)} lines after those that are due, not {COUNTS}")
    return [*order, *(Write(1, record) for record in records), Write(2, sum(lines))]


class Stream:
    """How many bytes of a stream are out. So many are gathered before a write; a text for which there is no room goes after what
    was gathered. In all so many are taken, and the write of one number takes nothing."""

    def __init__(self, room, takes=None, fails=None):
        self.room, self.takes, self.fails = room, takes, fails
        self.out = self.gathered = self.writes = 0

    def write(self, size):
        """Answers how many bytes are taken."""
        self.writes += 1
        taken = size if self.takes is None else min(size, self.takes - self.out)
        if self.writes == self.fails:
            taken = 0
        self.out += taken
        return taken

    def flush(self):
        if self.gathered:
            self.gathered -= self.write(self.gathered)
        return self.gathered == 0

    def put(self, size):
        if self.gathered + size > self.room and not self.flush():
            return False
        if size >= self.room:
            return self.write(size) == size
        self.gathered += size
        return True


@dataclass(frozen=True)
class SoFar:
    """What is out, in bytes of the file and of the report, and the fault that is told."""

    out: int
    told: int
    fault: str


def so_far(name, frames=None, takes=None, fails=None, report_takes=None, report_fails=None):
    """What is out of a conversion whose streams take so many bytes or fail at the write of this
    number, and whose read after so many frames fails; at the end each stream is tried again."""
    room = GATHERED if is_gathered(CASES[name]) else 0
    streams = {1: Stream(room, takes, fails), 2: Stream(room, report_takes, report_fails)}
    fault = "write failed"
    for write in ORDER[name]:
        if frames is not None and (write.frames is None or write.frames > frames):
            fault = "read failed"
            break
        if not streams[write.to].put(write.size):
            break
    for each in streams.values():
        each.flush()
    return SoFar(streams[1].out, streams[2].out, fault)


# What a run must leave; each answers why it doesn't, or nothing.

def same(left, good):
    if left.status != good.status:
        return f"status {left.status}, standard error '{shown(left.err)}'"
    if left.out != good.out:
        return f"standard output differs from byte {first_difference(left.out, good.out)} on"
    if left.err != good.err:
        return f"standard error differs from byte {first_difference(left.err, good.err)} on"
    return None


def broken_off(left, good, faults, out=None, told=None):
    """Status 1, a first part of the output, and a first part of the report in whole lines before
    one of these fault lines (of both so many bytes, where it is said)."""
    if left.status != 1:
        return f"status {left.status}, standard error '{shown(left.err)}'"
    if not good.out.startswith(left.out):
        return f"standard output is no first part, from byte {first_difference(left.out, good.out)}"
    if out is not None and len(left.out) != out:
        return f"standard output has {len(left.out)} bytes and not the first {out}"
    for fault in faults:
        line = f"rtcm2rinex: {fault}\n".encode()
        part = left.err[:-len(line)]
        if left.err.endswith(line) and (part == b"" or part.endswith(b"\n")):
            if not good.err.startswith(part):
                return "what is told is no first part"
            if told is not None and len(part) != told:
                return f"{len(part)} bytes are told and not the first {told}"
            return None
    return f"standard error ends with '{shown(left.err)}'"


def told_in_part(left, good, status, err, out=None):
    """This status, the first so many bytes of standard error, and a first part of the output (so many bytes, where it is said)."""
    if left.status != status:
        return f"status {left.status}"
    if left.err != good.err[:err]:
        return f"standard error is not the first {err} bytes: '{shown(left.err)}'"
    if not good.out.startswith(left.out) or out is not None and len(left.out) != out:
        return f"standard output is not the first {out} bytes, it has {len(left.out)}"
    return None


def other_calls(calls, due):
    """These calls are made in this order, and no other call on files."""
    due = "".join(f"{call}\n" for call in due).encode()
    return None if calls == due else f"calls '{shown(calls)}'"


def shown(text):
    return text[-60:].decode("ascii", "replace").replace("\n", "|")


def first_difference(one, other):
    pairs = zip(one, other)
    return next((place for place, (a, b) in enumerate(pairs) if a != b), min(len(one), len(other)))


# Scenes. Each gives (what is tried, a call that answers why it fails or nothing).

SCENES = []


def scene(name):
    """A scene is a function that gives what is tried; its name is what is printed."""
    def kept(function):
        SCENES.append((name, function))
        return function
    return kept


def every(count, most=4000):
    """Each number below count; where these are too many, those near its ends and near what is gathered, and some between."""
    if count <= most:
        return range(count)
    near = [place + by for place in range(0, count + 2, GATHERED) for by in [-1, 0, 1]]
    spread = range(0, count, max(1, count // 100))
    return sorted({k for k in [*near, *spread, 1, 2, count - 2, count - 1] if 0 <= k < count})


def shim(**settings):
    return Disturbance(settings)


def tried(name, what, disturbance, check, *more):
    """One run of a case, and what it must leave."""
    return f"{name}, {what}", disturbed, name, disturbance, check, *more


def disturbed(name, disturbance, check, *more):
    return check(run(CASES[name], disturbance), GOOD[name], *more)


def breaks(name, what, disturbance, fault, **at):
    """One run of a case that breaks off, `at` so many bytes, frames or writes."""
    return f"{name}, {what}", broken, name, disturbance, fault, at


def broken(name, disturbance, fault, at):
    return due_where_broken(name, run(CASES[name], disturbance), fault, at)


def due_where_broken(name, left, fault, at):
    if name not in ORDER:
        return broken_off(left, GOOD[name], [fault], out_where_broken(GOOD[name], at), told=0)
    if at.get("frames") is not None and not has_known_frames(CASES[name]):
        # a report whose lines are its counts, which come last
        faults = ["read failed", "write failed"] if len(at) > 1 else ["read failed"]
        return broken_off(left, GOOD[name], faults, told=0)
    due = so_far(name, **at)
    return broken_off(left, GOOD[name], [due.fault], due.out, due.told)


def out_where_broken(good, at):
    """How many bytes of another command than `convert` are out, where it is known: what is gathered of a long output is
    tried again at the end."""
    if "frames" in at or at.get("fails") == 1 and len(good.out) <= GATHERED:
        return 0
    return at.get("takes")


# The first scene, since it takes a minute, and the others run beside it.
# pins: most_reads
# refuses: a conversion that makes another number of reads
# refuses: what was gathered and is let go if a conversion breaks off
@scene("a link without end: 1,000,000,000 reads, and none after them")
def _billion_reads():
    yield "convert", convert_to_its_last_read, "convert"


def convert_to_its_last_read(name):
    """All frames come by the first read. Each read from that of number 1,000,000,000 on leaves a mark."""
    marks = os.path.join(WORK, "marks")
    with open(marks, "wb") as file:
        os.dup2(file.fileno(), 9, inheritable=True)
    left = run(CASES[name], shim(ENDLESS=1_000_000_000), 600)
    os.close(9)
    due = so_far(name, frames=size_of_inputs(CASES[name]) // FRAME)
    fault = broken_off(left, GOOD[name], ["input does not end"], due.out, due.told)
    return fault or (None if content(marks) == b"!" else f"{len(content(marks))} marks")


@scene("nothing disturbs: the files and reports of the examples")
def _undisturbed():
    due = Left(0, content(example("session.rnx")), content(example("session_links.report")))
    for name in [TWO_LINKS, BESIDE_A_FILE]:
        yield name, same, GOOD[name], due
    for name in CASES:
        yield tried(name, "the shim alone", shim(PIECE=0), same)


# refuses: after a failed write, a first part of the file or the report of another length, or the report before the file
# refuses: what was gathered and is let go if a conversion breaks off
@scene("standard output takes k bytes, each k below its length, and is full")
def _out_is_full():
    for name in CASES:
        for k in every(len(GOOD[name].out)):
            yield breaks(name, f"{k} bytes", shim(TAKES_1=k), "write failed", takes=k)


@scene("standard output takes k bytes, and fails for other reasons, or takes nothing")
def _out_fails():
    for name in CASES:
        for fault in [errno.EIO, errno.EPIPE, errno.EAGAIN, errno.EDQUOT, 0]:
            for k in every(len(GOOD[name].out), 0)[::10]:
                yield breaks(name, f"{k} bytes, errno {fault}", shim(TAKES_1=k, FAULT=fault), "write failed", takes=k)


# refuses: after a failed write, a first part of the file or the report of another length, or the report before the file
@scene("standard error takes k bytes of the report, each k below its length, and is full")
def _report_is_full():
    for name in CASES:
        for k in every(len(GOOD[name].err)):
            # The counts of `cut` come when the part is out, and what becomes of them changes nothing.
            status, out = (1, so_far(name, report_takes=k).out) if name in ORDER else (0, len(GOOD[name].out))
            yield tried(name, f"{k} bytes", shim(TAKES_2=k), told_in_part, status, k, out)


@scene("standard error takes k bytes of a line or text of refusal, each k below its length")
def _refusal_is_cut():
    wrong = written("refused.rnx", content(example("base.rnx")).replace(b"45.000", b"45.100"))
    for status, words in [(1, ("show", "nowhere")), (1, ("show", "--hex", example("base.rtcm"))),
                          (2, ("shew", "a")), (2, ("show", example("base.rtcm"), "--hax")),
                          (2, ("convert", *OPTIONS[:-1], "9Z", "a")),
                          (2, ("label", example("base.rnx"))), (2, ("compare", "stdin", "stdin")),
                          (3, ("chart", wrong)), (3, ("cut", "--every", "1", wrong)),
                          (3, ("quality", wrong)), (3, ("label", "--blank", wrong)),
                          (3, ("compare", wrong, example("base.rnx"))), (3, ("compare", example("base.rnx"), wrong))]:
        case = Case(" ".join(words), words)
        good = run(case)
        for k in range(len(good.err) + 1):
            yield f"{case.name}, {k} bytes", refused_in_part, case, k, good, status


def refused_in_part(case, k, good, status):
    return told_in_part(run(case, shim(TAKES_2=k)), good, status, k, 0)


@scene("both outputs are full")
def _both_are_full():
    for name in CASES:
        for k in every(len(GOOD[name].out), 0)[::10]:
            for j in [0, 1, len(GOOD[name].err) // 2, len(GOOD[name].err) + 5]:
                yield f"{name}, {k} and {j} bytes", both_full, name, k, j


def both_full(name, k, j):
    """Standard error has the first j bytes of what a broken run tells."""
    good = GOOD[name]
    due = SoFar(k, 0, "write failed")
    if name in ORDER:
        due = so_far(name, takes=k, report_takes=j)
    told = good.err[:due.told] + f"rtcm2rinex: {due.fault}\n".encode()
    left = run(CASES[name], shim(TAKES_1=k, TAKES_2=j))
    return same(left, Left(1, good.out[:due.out], told[:j]))


# refuses: a file that is not opened since standard input is closed
@scene("the device /dev/full, and closed streams")
def _devices():
    for name, case in CASES.items():
        good = GOOD[name]
        for to, what in [("/dev/full", "full"), (None, "closed")]:
            yield breaks(name, f"standard output {what}", Disturbance(out=to), "write failed", takes=0)
            status = 1 if name in ORDER else good.status
            whole = so_far(name, report_takes=0).out if name in ORDER else len(good.out)
            yield tried(name, f"standard error {what}", Disturbance(err=to), told_in_part, status, 0, whole)
        yield tried(name, "both closed", Disturbance(out=None, err=None), told_in_part, 1, 0, 0)
        if "stdin" not in case.words:
            yield breaks(name, "standard input and output closed", Disturbance(given=None, out=None), "write failed", takes=0)
        else:
            for out, what in [("", ""), (None, " and output")]:
                yield f"{name}, standard input{what} closed", fails, case, "read failed", Disturbance(given=None, out=out)


@scene("a limit of the file's size, whose signal the caller ignores")
def _size_is_limited():
    return limited(True, 1)


@scene("a limit of the file's size")
def _size_is_limited_by_signal():
    return limited(False, 20)


def limited(ignored, step):
    for name in CASES:
        for k in every(len(GOOD[name].out), 0)[::step]:
            yield f"{name}, {k} bytes", limited_run, name, k, ignored


def limited_run(name, k, ignored):
    """The limit is that of standard output alone: standard error is a pipe."""
    with Pipe() as pipe, ThreadPoolExecutor(1) as reader:
        told = reader.submit(pipe.reads.readall)
        limits = {resource.RLIMIT_FSIZE: k}
        left = run(CASES[name], Disturbance(limits=limits, err=pipe.writes.fileno(), ignored=ignored))
        pipe.writes.close()
        return due_where_broken(name, Left(left.status, left.out, told.result()), "write failed", {"takes": k})


# Pipes.

class Pipe:
    """A pipe, whose ends are closed at last."""

    def __init__(self, size=0):
        reads, writes = os.pipe()
        self.reads, self.writes = os.fdopen(reads, "rb", 0), os.fdopen(writes, "wb", 0)
        if size:
            fcntl.fcntl(self.writes, SET_PIPE_SIZE, size)

    def __enter__(self):
        return self

    def __exit__(self, *_):
        self.reads.close()
        self.writes.close()

    def read_some(self, count):
        """So many bytes, or what there is up to the end."""
        text = b""
        while len(text) < count and (part := self.reads.read(count - len(text))):
            text += part
        return text


@scene("a pipe whose reader goes away after k bytes")
def _reader_goes_away():
    for name in CASES:
        length = len(GOOD[name].out)
        # a pipe takes 4,096 bytes more, which the program can't know to be lost
        for k in [0, *(k for k in every(length - 4096 - 1, 0)[::9] if k > 0)]:
            for ignored in [False, True]:
                yield f"{name}, {k} bytes", reader_leaves, name, k, ignored


def reader_leaves(name, k, ignored):
    with Pipe(4096) as pipe:
        disturbance = Disturbance(out=pipe.writes.fileno(), ignored=ignored)
        if k == 0:
            pipe.reads.close()
        running = start(CASES[name], disturbance)
        pipe.writes.close()
        head = b""
        if k > 0:
            head = pipe.read_some(k)
            pipe.reads.close()
        left = end(*running)
        left = Left(left.status, head, left.err)
        if fault := broken_off(left, GOOD[name], ["write failed"], k):
            return fault
        told = len(left.err) - len("rtcm2rinex: write failed\n")
        taken = [k, k + 4096] if k > 0 else [0, 0]
        least, most = (so_far(name, takes=it).told for it in taken) if name in ORDER else (0, 0)
        return None if least <= told <= most else f"{told} bytes are told, not {least} to {most}"


@scene("a pipe that is full and doesn't wait")
def _pipe_does_not_wait():
    for name in CASES:
        if len(GOOD[name].out) > 4096:
            yield name, full_pipe, name
    for name, case in CASES.items():
        if not is_gathered(case):
            yield f"{name}, an empty pipe", empty_pipe, name


def full_pipe(name):
    with Pipe(4096) as pipe:
        os.set_blocking(pipe.writes.fileno(), False)
        left = run(CASES[name], Disturbance(out=pipe.writes.fileno()))
        pipe.writes.close()
        head = pipe.read_some(8192)
        return due_where_broken(name, Left(left.status, head, left.err), "write failed", {"takes": max(len(head), 1)})


def empty_pipe(name):
    """The bytes so far, and then none for the moment."""
    with Pipe() as pipe:
        os.set_blocking(pipe.reads.fileno(), False)
        pipe.writes.write(content(CASES[name].given)[:100])
        left = run(CASES[name], Disturbance(given=pipe.reads.fileno()))
        return due_where_broken(name, left, "read failed", {"frames": 100 // FRAME})


# Reads.

# refuses: what was gathered and is let go if a conversion breaks off
@scene("each read fails, of reads of one byte, and of 499 where the capture is long")
def _read_fails():
    for name, case in CASES.items():
        for k in every(short_reads(case), 3000):
            piece = short_piece(case)
            yield no_read(name, f"read {k + 1}", shim(PIECE=piece, FAILS_READ=k + 1, FAULT=errno.EIO), k, piece)


def no_read(name, what, disturbance, good_reads, piece):
    """So many reads give a piece, and the next one fails. Of `show` and `check` nothing is out then."""
    return breaks(name, what, disturbance, "read failed", frames=frames_of(CASES[name], good_reads, piece))


def frames_of(case, good_reads, piece):
    """How many frames came by so many reads; that which only looks at standard input gives none."""
    return max(0, good_reads - is_looked_at(case)) * piece // FRAME


def inputs(case):
    """The files that are read."""
    files = [word for word in case.words if word.startswith("/")]
    return files + [case.given] if "stdin" in case.words else files


def size_of_inputs(case):
    """The bytes of all inputs; -1 where there is none."""
    files = inputs(case)
    return sum(map(os.path.getsize, files)) if files else -1


def asked_for(words):
    """How many bytes a read of an input asks for."""
    return READ_IN_PIECES if words[0] in ("show", "compare", *OF_FILES) else READ_AT_ONCE


def short_piece(case):
    return 1 if size_of_inputs(case) < 6000 else 499


def short_reads(case):
    """How many reads of such pieces a run makes at least; the last gives the end."""
    size = size_of_inputs(case)
    return size // short_piece(case) + 1 if size >= 0 else 0


@scene("a read of whole pieces fails, for several reasons")
def _whole_read_fails():
    for name, case in CASES.items():
        size, piece = size_of_inputs(case), asked_for(case.words)
        for k in range(size // piece + 2 if size >= 0 else 0):
            for fault in [errno.EIO, errno.EAGAIN, errno.EISDIR, errno.ENOMEM, errno.ETIMEDOUT, errno.ECONNRESET]:
                yield no_read(name, f"read {k + 1}, errno {fault}", shim(FAILS_READ=k + 1, FAULT=fault), k, piece)


# Each error that a call can have but an interruption, which is made again.
ERRORS = sorted(set(errno.errorcode) - {errno.EINTR})


def once(**settings):
    """One call fails. If it is made again it goes well, and that is seen."""
    return shim(ONCE=1, **settings)


# refuses: an error of a read that is taken for the end
# refuses: a call that is made again after another error than an interruption
@scene("a read at the begin, in the middle or at the end fails with each error but an interruption; the next would go well")
def _read_fails_once():
    for name, case in CASES.items():
        size, piece, last = size_of_inputs(case), asked_for(case.words), reads_of(case)
        # the first read gives at most a third; standard input as a link is looked at before it
        middle, third = 2 + is_looked_at(case), size // 3 + 1
        for fault in ERRORS if size >= 0 else []:
            yield no_read(name, f"the first read, errno {fault}", once(FAILS_READ=1, FAULT=fault), 0, 0)
            fails_there = once(PIECE=third, FAILS_READ=middle, FAULT=fault)
            yield no_read(name, f"read {middle} of thirds, errno {fault}", fails_there, middle - 1, third)
            yield no_read(name, f"the last read, errno {fault}", once(FAILS_READ=last, FAULT=fault), last - 1, piece)


# refuses: a write after one that failed, beside `write_all`
# refuses: a call that is made again after another error than an interruption
@scene("the first write of the file or of the report fails with each error but an interruption; the next would go well")
def _write_fails_once():
    for name, good in GOOD.items():
        for fault in ERRORS:
            yield breaks(name, f"errno {fault}", once(FAILS_WRITE=1, FAULT=fault), "write failed", fails=1)
        for fault in ERRORS if name in ORDER else []:
            fails_there = once(FAILS_WRITE=1, OF_REPORT=1, FAULT=fault)
            yield breaks(name, f"report, errno {fault}", fails_there, "write failed", report_fails=1)


# refuses: a call that is made again after another error than an interruption
@scene("the first open fails with each error but an interruption; the next would go well")
def _first_open_fails():
    base = example("base.rtcm")
    for words in [*COMMANDS, ("convert", *OPTIONS), ("convert", *OPTIONS, base)]:
        for fault in ERRORS:
            yield f"{words}, errno {fault}", fails, Case("", (*words, base)), f"cannot open {base}", shim(FAILS_OPEN=1, FAULT=fault)


# refuses: reads of fewer bytes, or a summary in more than one write
# refuses: a `Resumed` that uses half of the room of a read or writes byte by byte, or a `show` with other pieces
@scene("a run makes so many reads and writes, and no more")
def _calls_are_counted():
    for name, case in CASES.items():
        reads, writes = reads_of(case), writes_of(name)
        if reads:
            yield no_read(name, f"read {reads}", shim(FAILS_READ=reads), reads - 1, asked_for(case.words))
            yield tried(name, f"read {reads + 1}", shim(FAILS_READ=reads + 1), same)
        if writes:
            yield breaks(name, f"write {writes}", shim(FAILS_WRITE=writes), "write failed", fails=writes)
            yield tried(name, f"write {writes + 1}", shim(FAILS_WRITE=writes + 1), same)


def reads_of(case):
    """Each input is read in whole pieces, and once more for its end. As a link, standard input is looked at before."""
    piece = asked_for(case.words)
    sizes = [os.path.getsize(file) for file in inputs(case)]
    return sum(-(-size // piece) + 1 for size in sizes) + is_looked_at(case)


def is_looked_at(case):
    return case.words[0] == "convert" and "stdin" in case.words


def writes_of(name):
    """A write when so much is gathered, and one for the rest; none is said where each write of a conversion goes straight on."""
    if name.startswith("convert") and not is_gathered(CASES[name]):
        return None
    if CASES[name].words[0] == "label" and len(GOOD[name].out) > GATHERED:
        return 2  # the lines that a label changes, and the rest of the file as it is
    return -(-len(GOOD[name].out) // GATHERED)


@scene("links that can't be read: a folder, a file of /proc whose read fails")
def _unreadable():
    folder = os.path.join(WORK, "folder")
    os.makedirs(folder, exist_ok=True)
    base = example("base.rtcm")
    for link in [folder, "/proc/self/mem"]:
        for words in COMMANDS:
            yield f"{words}, {link}", fails, Case("", (*words, link)), "read failed"
        for place in range(16):
            links = [base] * 16
            links[place] = link
            yield f"link {place + 1}, {link}", fails, convert("", *links), "read failed"


def fails(case, fault, disturbance=Disturbance()):
    """Nothing is out, and standard error has the fault line alone."""
    return tells_alone(run(case, disturbance), fault)


def tells_alone(left, fault):
    return same(left, Left(1, b"", f"rtcm2rinex: {fault}\n".encode()))


# Opens.

# refuses: a `convert` that reads a link before all links are open
@scene("each of 16 opens fails, and then nothing was read")
def _open_fails():
    faults = [errno.ENOENT, errno.EACCES, errno.EMFILE, errno.ENFILE, errno.ELOOP, errno.EIO]
    links = [written(f"link{number}.rtcm", content(example("base.rtcm"))) for number in range(16)]
    for place in range(16):
        for fault in faults:
            yield (f"link {place + 1}, errno {fault}", fails, convert("", *links), f"cannot open {links[place]}",
                   shim(FAILS_OPEN=place + 1, FAULT=fault))
        missing = [*links[:place], os.path.join(WORK, "nowhere"), *links[place + 1:]]
        yield f"link {place + 1} is missing", fails, convert("", *missing), f"cannot open {missing[place]}"
        if place > 0:
            # three standard streams and so many links
            yield (f"descriptors for {place} links", fails, convert("", *links), f"cannot open {links[place]}",
                   Disturbance(limits={resource.RLIMIT_NOFILE: 3 + place}))
            yield f"link {place + 1} is missing, and the first is standard input", nothing_read, missing, place


def nothing_read(links, place):
    """Standard input is the first link, and stands at its first byte still."""
    given = os.open(links[0], os.O_RDONLY)
    try:
        fault = fails(convert("", "stdin", *links[1:]), f"cannot open {links[place]}", Disturbance(given=given))
        at = os.lseek(given, 0, os.SEEK_CUR)
        return fault or (f"{at} bytes were read" if at else None)
    finally:
        os.close(given)


# refuses: a file that is written or removed, or a variable of the environment that counts
@scene("no file is written, made, changed, renamed or removed, and no variable is asked for")
def _calls_on_files():
    base, folder = example("base.rtcm"), os.path.join(WORK, "folder")
    nowhere = os.path.join(WORK, "nowhere", "base.rtcm")
    wrong = written("no.rnx", content(example("base.rnx")).replace(b"45.000", b"45.100"))
    os.makedirs(folder, exist_ok=True)
    for name, case in CASES.items():
        files = [word for word in case.words if word.startswith("/")]
        yield name, opens_alone, case, files, GOOD[name].status
        yield f"{name}, into a full disk", opens_alone, case, files, 1, Disturbance(out="/dev/full")
    for words in [*COMMANDS, ("convert", *OPTIONS)]:
        for file, status in [(nowhere, 1), (folder, 1), (wrong, 3)]:
            if file != wrong or words[0] in OF_FILES:
                yield " ".join((*words, file)), opens_alone, Case("", (*words, file)), [file], status
    for status, opened, words in [
            (1, [base, nowhere], ("convert", *OPTIONS, base, nowhere)),
            (1, [base], ("show", "--hex", base)),
            (1, ["/dev/zero"], ("show", "/dev/zero")),
            (2, [], ("convert", *OPTIONS[:-1], "9Z", base)),
            (2, [], ("convert", *OPTIONS, "stdin", "stdin")),
            (2, [], ("cut", "--from", "noon", base)),
            (2, [], ("show", base, "--hax")), (2, [], ("shew", base)), (2, [], ())]:
        yield " ".join(words) or "no words", opens_alone, Case("", words), opened, status


def opens_alone(case, files, status, disturbance=Disturbance()):
    """No other call but the opens of these files; and what the run leaves without the library."""
    told = written(f"{own()}.calls", b"")
    good = run(case, disturbance)
    left = run(case, replace(disturbance, shim={"LD_PRELOAD": CALLS, "TELLS": told}))
    if left.status != status:
        return f"status {left.status}"
    return other_calls(content(told), [f"reads {file}" for file in files]) or same(left, good)


# All that the program asks of the C library: to begin and to end, memory, the number of an error,
# and calls on files; and in the last line but one what `auto` alone asks for (`opens_alone`). Those of
# the last line stand in the standard library beside `fchmod`; no run calls them, since calls.c refuses them.
OF_C = set("""
__libc_start_main __cxa_finalize __gmon_start__ _ITM_deregisterTMCloneTable
_ITM_registerTMCloneTable __x86_get_cpuid_feature_leaf __sysv_signal __errno_location
malloc realloc free memcpy memmove memset open close read write __write lseek
environ getenv clock_gettime statx fchmod fsync link rename unlink
flock ftruncate fdatasync
""".split())
# What the start code of glibc asks for too, by the number of the machine in the ELF file. On aarch64 it calls abort if the end of the
# program returns, which no run does.
OF_START = {183: {"abort"}}


# refuses: an answer that depends on what else the C library can tell, as the time or the kind of a file
@scene("all that is asked of the C library")
def _names_of_c():
    program = content(os.environ.get("PROGRAM_FILE", PROGRAM))
    machine = int.from_bytes(program[18:20], "little")
    yield "names", other_names, names_of_c(program) - OF_START.get(machine, set())


def names_of_c(program):
    """The dynamic symbols of an ELF file."""
    if program[:4] != b"\x7fELF":
        return set()
    table, = struct.unpack_from("<Q", program, 0x28)
    size, count = struct.unpack_from("<HH", program, 0x3A)
    sections = [struct.unpack_from("<IIQQQQII", program, table + size * k) for k in range(count)]
    names = set()
    for _, kind, _, _, at, length, strings, _ in sections:
        for entry in range(at + 24, at + length, 24) if kind == 11 else []:
            begin = sections[strings][4] + struct.unpack_from("<I", program, entry)[0]
            names.add(program[begin:program.index(b"\0", begin)].decode())
    return names


def other_names(names):
    """It opens, reads and writes, and asks for nothing else but the names above."""
    if not {"open", "read", "write"} <= names:
        return f"not all names are seen, but {sorted(names)}"
    return f"{sorted(names - OF_C)}" if names - OF_C else None


# Cut short.

@scene("reads and writes of 1, 2, 3, 7 and 511 bytes")
def _short():
    for name in CASES:
        for piece in [1, 2, 3, 7, 511]:
            yield tried(name, f"{piece} bytes", shim(PIECE=piece), same)


# pins: most_reads
# refuses: a `summarize_named` that makes fewer reads than it may
@scene("a summary of 1,000,001 reads of one byte, and each other command of more than 200,000")
def _many_reads():
    yield "zeros", many_reads, written("zeros", bytes(1_000_001))
    many = epochs(range(4500))
    capture, digits, file = written("many", many), written("digits", many.hex().encode()), GOOD["convert of a long file"].out
    files = {("show", "--hex"): digits} | dict.fromkeys([("check",), *COMMANDS[4:]], written("many.rnx", file))
    for words in [*COMMANDS, ("convert", *OPTIONS)]:
        yield " ".join(words), as_of_whole_reads, Case("", (*words, files.get(words, capture)))


def as_of_whole_reads(case):
    left = run(case, shim(PIECE=1))
    return same(left, run(case)) if size_of_inputs(case) > 200_000 else "the input is short"


def many_reads(zeros):
    due = b"bytes 1000001\noutside-frames 1000001\nframes 0\nlooks-like unknown\nnothing taken\n"
    return same(run(Case("", ("summary", zeros)), shim(PIECE=1)), Left(0, due, b""))


@scene("every second read, write or open is interrupted")
def _interrupted():
    for name in CASES:
        for calls in ["reads", "writes", "opens"]:
            for piece in [0, 1]:
                yield tried(name, f"{calls}, {piece or 'all'} bytes", shim(INTERRUPTS=calls, PIECE=piece), same)


# pins: most_interruptions
@scene("each read or write is interrupted 1,000 times in a row")
def _interrupted_often():
    for name, good in GOOD.items():
        yield tried(name, "reads", interrupted("reads", MOST_INTERRUPTIONS), same)
        # the counts of `cut` are no report, and are not tried again
        judged = (same,) if name in ORDER or not good.err else (told_in_part, 0, 0, len(good.out))
        yield tried(name, "writes", interrupted("writes", MOST_INTERRUPTIONS), *judged)


def interrupted(calls, count):
    return shim(INTERRUPTS=calls, IN_A_ROW=count)


# pins: most_interruptions
@scene("a read or a write is interrupted 1,001 times in a row, and the next call is not")
def _interrupted_too_often():
    for name, case in CASES.items():
        if size_of_inputs(case) >= 0:
            yield no_read(name, "reads", interrupted("reads", MOST_INTERRUPTIONS + 1), 0, 0)
        yield breaks(name, "1", interrupted("1", MOST_INTERRUPTIONS + 1), "write failed", fails=1)
        # a longer report is tried again at the end, and then the fault line is interrupted
        if name in ORDER and len(GOOD[name].err) <= GATHERED:
            yield breaks(name, "2", interrupted("2", MOST_INTERRUPTIONS + 1), "write failed", report_fails=1)


# Without end.

@scene("a reader without end: show and check")
def _endless():
    for words in [("show",), ("show", "--hex"), ("check",)]:
        yield f"{' '.join(words)} /dev/zero", fails, Case("", (*words, "/dev/zero")), "input too long"
    for words, text in [(("show",), content(example("session.rtcm"))),
                        (("show", "--hex"), content(example("arp1005.hex"))),
                        (("check",), content(example("session.rnx")))]:
        yield f"{' '.join(words)} of a pipe", endless_pipe, words, text


def endless_pipe(words, text):
    """A pipe that gives a text again and again."""
    with Pipe() as pipe:
        running = start(Case("", (*words, "stdin")), Disturbance(given=pipe.reads.fileno()))
        pipe.reads.close()
        many = text * (1_000_000 // len(text))
        try:
            while True:
                pipe.writes.write(many)
        except BrokenPipeError:
            pass
        return tells_alone(end(*running), "input too long")


# Links that change.

@scene("a link that vanishes, grows, is replaced, cut or overwritten before a read")
def _link_changes():
    for words, file in [(("show",), "long.rtcm"), (("check",), "long.rnx"),
                        (("summary",), "long.rtcm"), (("cut", "--every", "2"), "long.rnx"),
                        (("quality",), "long.rnx"), (("label", "--blank"), "long.rnx"),
                        (("convert", *OPTIONS, "--window", "2"), "long.rtcm")]:
        for before in [1, 2]:
            for change in CHANGES:
                yield f"{words[0]}, {change} before read {before}", changed, words, file, before, change


OTHER = content(example("session.rtcm")) * 200

# What a file with a text has then; a reader goes on with the old file where a link vanishes or is replaced.
CHANGES = {
    "vanishes": None,
    "is replaced": None,
    "grows": lambda text: text + epochs(range(1500, 1520)),
    "is emptied": lambda text: b"",
    "is cut": lambda text: text[:35_000],
    "is overwritten": lambda text: OTHER[:len(text)],
}


def changed(words, file, before, change):
    """The program stops itself before a read; the file is changed; the program goes on. It is to
    leave what it leaves of a file with the bytes that it saw."""
    text = content(os.path.join(WORK, file))
    link = written(f"{own()}.link", text)
    running = start(Case("", (*words, link)), shim(STOPS_READ=before))
    _, answer = os.waitpid(running[0], os.WUNTRACED)
    if not os.WIFSTOPPED(answer):
        return f"status {os.waitstatus_to_exitcode(answer)} before read {before}"
    seen = text
    if change == "vanishes":
        os.remove(link)
    elif change == "is replaced":
        os.replace(written(f"{own()}.new", content(example("base.rtcm"))), link)
    else:
        new, at = CHANGES[change](text), (before - 1) * asked_for(words)
        seen = text[:at] + new[at:]
        with open(link, "r+b") as to:
            to.write(new)
            to.truncate()
    os.kill(running[0], signal.SIGCONT)
    left = end(*running)
    return same(left, run(Case("", (*words, written(os.path.basename(link), seen)))))


# `auto`, which looks at files, reads them twice, and writes a file beside its name.

DATED, WHOLE, OLD = example("dated.rtcm"), content(example("session.rnx")), b"old"
AUTO = "auto", "--made", "2024-05-17T13:00:00", "--marker", "BASE"


def auto(disturbance=Disturbance(), old=None, words=AUTO):
    """What a run to FILE leaves, what FILE is, and what is beside it."""
    folder = f"{own()}.folder"
    shutil.rmtree(folder, ignore_errors=True)
    os.makedirs(folder)
    file = os.path.join(folder, "file")
    if old is not None:
        with open(file, "wb") as to:
            to.write(old)
    left = run(Case("", (*words, *["-f"] * (old is not None), "-o", file, DATED)), disturbance)
    beside = [it for it in os.listdir(folder) if it != "file"]
    return left, content(file) if os.path.exists(file) else None, beside


def auto_breaks(disturbance, fault, old, status=1, file=None, beside=()):
    """A first part of what a whole run tells, the fault line, FILE as it was, and nothing beside it."""
    good = auto()[0]
    left, there, others = auto(disturbance, old)
    line = f"rtcm2rinex: {fault}\n".encode() if fault else b""
    told = left.err.removesuffix(line)
    if left.status != status or left.out or not left.err.endswith(line) or not good.err.startswith(told):
        return f"status {left.status}, '{shown(left.err)}'"
    return None if (there, others) == (file or old, [*beside]) else f"{there and len(there)} bytes, and {others}"


def both(what, disturbance, fault, **due):
    for old in (None, OLD):
        yield f"{what}, {old}", auto_breaks, disturbance, fault, old, *due.values()


@scene("auto: nothing disturbs, or reads and writes are short or interrupted")
def _auto_is_whole():
    for old in (None, OLD):
        yield f"{old}", auto_is_whole, Disturbance(), old
        for settings in [{"PIECE": it} for it in (1, 2, 3, 7, 511)] + [{"INTERRUPTS": it} for it in ("reads", "writes", "opens")]:
            yield f"{settings}, {old}", auto_is_whole, shim(**settings), old


def auto_is_whole(disturbance, old):
    left, there, others = auto(disturbance, old)
    return same(left, Left(0, b"", auto()[0].err)) or (None if (there, others) == (WHOLE, []) else f"{others}")


# refuses: a FILE that is named before it is whole
@scene("auto: a signal ends it before each call, and FILE is whole or as it was")
def _auto_is_ended():
    for old in (None, OLD):
        for piece in (499, 32_768):
            for call in range(1, 70):
                yield f"call {call} of pieces of {piece}, {old}", auto_is_ended, call, piece, old


def auto_is_ended(call, piece, old):
    left, there, _ = auto(shim(ENDS_CALL=call, PIECE=piece), old)
    if left.status not in (0, -signal.SIGKILL) or left.status and call == 1:
        return None if call == 1 else f"status {left.status}"
    return None if there == WHOLE or left.status and there == old else f"{there and len(there)} bytes"


@scene("auto: each read, open, write or other call fails, and FILE is as it was")
def _auto_fails():
    size, reads = os.path.getsize(DATED), -(-os.path.getsize(DATED) // 499) + 1
    for k in range(2 * reads - 1): # the second reading ends with the bytes of the first, and looks for no end
        for fault in (errno.EIO, errno.EISDIR, errno.EAGAIN):
            yield from both(f"read {k + 1} of {size} bytes", shim(PIECE=499, FAILS_READ=k + 1, FAULT=fault), "read failed")
    for k in every(len(WHOLE), 100):
        yield from both(f"{k} bytes of the file", shim(TAKES_0=k), "write failed")
    for fault in (errno.ENOENT, errno.EACCES, errno.EMFILE, errno.EIO):
        for number, told in ((2, f"cannot open {DATED}"), (4, "read failed")):
            yield from both(f"open {number}", shim(FAILS_OPEN=number, FAULT=fault), told)
        for old in (None, OLD):
            yield f"open 1, {old}", auto_is_not_made, 1, fault, old
            yield f"open 3, {old}", auto_is_not_made, 3, fault, old
        yield from both("the look at a capture", shim(FAILS_CALL=1, FAULT=fault), f"cannot open {DATED}")
        # whether the capture has grown, and the permissions of the FILE that is replaced, which can't all be had
        for old, call in ((None, 5), (OLD, 5), (OLD, 6), (OLD, 7)):
            yield f"call {call}, {old}", auto_is_whole, shim(FAILS_CALL=call, FAULT=fault), old
        for old, call in ((None, 6), (OLD, 8)):
            yield f"the last bytes of FILE, {old}", auto_breaks, shim(FAILS_CALL=call, FAULT=fault), "write failed", old
        yield "the name of FILE, which is there", auto_breaks, shim(FAILS_CALL=9, FAULT=fault), "write failed", OLD
    for fault in (errno.EPERM, errno.EOPNOTSUPP, errno.ENOSYS, errno.EMLINK):
        yield f"no link, {fault}", auto_is_whole, shim(FAILS_CALL=7, FAULT=fault), None
        yield f"no link and no file, {fault}", auto_breaks, shim(FAILS_CALL=7, FAILS_OPEN=5, FAULT=fault), "write failed", None
    yield "a FILE that came meanwhile", auto_is_late, shim(FAILS_CALL=7, FAULT=errno.EEXIST)
    yield "the clock", clock_fails
    for k in range(0, 200, 7):
        for old in (None, OLD):
            yield f"{k} bytes of the report, {old}", auto_tells_in_part, k, old


def auto_is_not_made(number, fault, old):
    """The first such open is before all reads, so nothing else is told."""
    left, there, others = auto(shim(FAILS_OPEN=number, FAULT=fault), old)
    is_told = re.search((b"^" if number == 1 else b"\n") + rb"rtcm2rinex: cannot write beside .*/file\n$", left.err)
    return None if (left.status, there, others) == (1, old, []) and is_told else f"{left}, {others}"


def auto_is_late(disturbance):
    left, there, others = auto(disturbance)
    is_told = re.search(rb"\nrtcm2rinex: .*/file is there, and -f would replace it\n$", left.err)
    return None if (left.status, there, others) == (1, None, []) and is_told else f"{left}, {others}"


def clock_fails():
    left, there, others = auto(shim(FAILS_CALL=5, FAULT=errno.EINVAL), words=("auto",))
    due = Left(3, b"", b"rtcm2rinex: the clock can't be read; give --made\n")
    return same(left, due) or (None if (there, others) == (None, []) else f"{others}")


def auto_tells_in_part(k, old):
    """The work goes on, and FILE is whole."""
    left, there, others = auto(shim(TAKES_2=k), old)
    return told_in_part(left, auto()[0], 1, k, 0) or (None if (there, others) == (WHOLE, []) else f"{others}")


@scene("auto: standard output takes k bytes, is full, or is closed")
def _auto_out_is_full():
    for k in every(len(WHOLE), 500):
        yield f"{k} bytes", auto_is_cut, shim(TAKES_1=k), k
    yield "full", auto_is_cut, Disturbance(out="/dev/full"), 0
    yield "closed", auto_is_cut, Disturbance(out=None), 0


def auto_is_cut(disturbance, k):
    case = Case("", (*AUTO, DATED))
    return broken_off(run(case, disturbance), run(case), ["write failed"], k)


@scene("auto: a capture that vanishes or changes before its second pass")
def _auto_changes():
    for change, status in (("vanishes", 1), ("is emptied", 1), ("is another", 1), ("grows", 0)):
        yield change, auto_of_change, change, status


def auto_of_change(change, status):
    """It stops before the read that gives the end of the first pass."""
    capture, file = written(f"{own()}.capture", content(DATED)), f"{own()}.file"
    running = start(Case("", (*AUTO, "-f", "-o", file, capture)), shim(STOPS_READ=2))
    _, answer = os.waitpid(running[0], os.WUNTRACED)
    if not os.WIFSTOPPED(answer):
        return f"status {os.waitstatus_to_exitcode(answer)}"
    if change == "vanishes":
        os.remove(capture)
    else:
        after = {"is emptied": b"", "is another": content(DATED)[:-1] + b"x", "grows": content(DATED) + epochs([30])}
        written(os.path.basename(capture), after[change])
    os.kill(running[0], signal.SIGCONT)
    left = end(*running)
    is_there = os.path.exists(file) and os.path.getsize(file) > 0
    return None if (left.status, is_there) == (status, status != 1) else f"status {left.status}, '{shown(left.err)}'"


@scene("auto: the files that it looks at, reads, makes, names and removes, and the present")
def _calls_of_auto():
    file = os.path.join(WORK, "calls.file")
    made, let_go, read = f"writes {file}.part", f"unlink {file}.part", f"reads {DATED}"
    seen = f"statx {DATED}"
    whole = [made, let_go, read, made, read, seen]
    out, look = "statx /proc/self/fd/1", [f"statx {file}"] * 2
    present = ["getenv SOURCE_DATE_EPOCH", "clock_gettime "]
    for words, calls in (
            (AUTO, [out, read, read, seen]),
            (("auto",), [out, *present, read, read, seen]),
            ((*AUTO, "-o", file), [*look, *whole, "fsync ", f"link {file}", let_go]),
            ((*AUTO, "-f", "-o", file), [*look, *whole, f"statx {file}", "fchmod ", "fsync ", f"rename {file}"]),
            ((*AUTO, "-o", DATED), [f"statx {DATED}"])):
        yield " ".join(words), calls_of_auto, file, words, [f"statx {DATED}", *calls]


def calls_of_auto(file, words, due):
    if os.path.exists(file) and "-f" not in words:
        os.remove(file)
    told = written(f"{own()}.calls", b"")
    run(Case("", (*words, DATED)), Disturbance({"LD_PRELOAD": CALLS, "TELLS": told, "HANDS_ON": 1}))
    return other_calls(content(told), due)


# Two faults.

@scene("a read and a write fail: one fault line")
def _two_faults():
    for name, case in CASES.items():
        for k in every(short_reads(case), 0)[::10]:
            for j in every(len(GOOD[name].out), 0)[::10]:
                piece = short_piece(case)
                both = shim(PIECE=piece, FAILS_READ=k + 1, TAKES_1=j)
                frames = frames_of(case, k, piece)
                yield breaks(name, f"read {k + 1} and {j} bytes", both, "read failed", frames=frames, takes=j)


# A real file system.

def small_file_system():
    """A tmpfs of one page: a file of it has room for k bytes where it has all others already."""
    at = os.path.join(WORK, "tmpfs")
    os.makedirs(at)
    subprocess.run(["mount", "-t", "tmpfs", "-o", "size=4096", "none", at], check=True)
    return at


def on_small_file_system(at, name, k, of_report):
    good = GOOD[name]
    to = os.path.join(at, "file")
    with open(to, "wb") as file:
        file.write(b"#" * (4096 - k))
    there = os.open(to, os.O_WRONLY | os.O_APPEND)
    left = run(CASES[name], Disturbance(err=there) if of_report else Disturbance(out=there))
    os.close(there)
    part = content(to)[4096 - k:]
    if of_report:
        return told_in_part(Left(left.status, left.out, part), good, 1, k, so_far(name, report_takes=k).out)
    return due_where_broken(name, Left(left.status, part, left.err), "write failed", {"takes": k})


def tmpfs_scenes():
    at = small_file_system()
    for name in CASES:
        for of_report, text in [(False, GOOD[name].out), *[(True, GOOD[name].err)] * (name in ORDER)]:
            for k in every(min(len(text), 4097)):
                yield (f"{name}, {'report' if of_report else 'file'}, {k} bytes", on_small_file_system, at, name, k, of_report)


# All of it.

def attempt(trial):
    what, call, *given = trial
    try:
        return what, call(*given)
    except OSError as fault:
        return what, f"the scene itself failed: {fault}"


class Count:
    passed = 0
    failed = 0

    def scene(self, name, answers):
        """One test: it holds where each of its runs does."""
        runs, faults = 0, []
        for what, fault in answers:
            runs += 1
            if fault:
                faults.append(f"{what}: {fault}")
        told = f"{runs} runs"
        if runs and not faults:
            self.passed += 1
            print(f"ok {name}: {told}" + (" (no longer 'not yet')" if name in NOT_YET else ""))
        elif runs and name in NOT_YET:
            print(f"not yet: {name}: {NOT_YET[name]} ({len(faults)} of {told})")
        else:
            self.failed += 1
            print(f"FAILED {name}: {len(faults)} of {told}")
            for fault in faults[:5]:
                print(f"    {fault}")


def runs_of(function):
    """The runs of a scene. Where an emulator makes each run slow, some are left, as far apart as they can be."""
    runs = list(function())
    return runs[:: max(1, len(runs) // FEW)] if IS_THINNED else runs


def is_chosen(name):
    """Words choose the scenes whose names have one of them, and behind --but those whose names have none."""
    if WORDS[:1] == ["--but"]:
        return not any(word in name for word in WORDS[1:])
    return not WORDS or any(word in name for word in WORDS)


def main():
    for number in map(int, os.listdir("/proc/self/fd")):
        if number > 2 and os.path.exists(f"/proc/self/fd/{number}"):
            os.set_inheritable(number, False)  # so that a run has its three streams alone
    CASES.update(cases())
    for name, case in CASES.items():
        GOOD[name] = run(case)
    written("long.rnx", GOOD["convert of a long file"].out)
    for name, good in GOOD.items():
        if good.status != (3 if name == SAYS_NO else 0) or not good.out:
            print(f"FAILED {name}: no good run: status {good.status}, '{shown(good.err)}'")
            print("0 passed, 1 failed")
            return 1
    for name, case in CASES.items():
        if case.words[0] == "convert":
            ORDER[name] = order_of(case, GOOD[name])
    count = Count()
    if "--tmpfs" in WORDS:
        count.scene("a full tmpfs", map(attempt, tmpfs_scenes()))
    else:
        chosen = [(name, function) for name, function in SCENES if is_chosen(name)]
        try:
            with ProcessPoolExecutor(os.cpu_count(), multiprocessing.get_context("fork")) as pool:
                for name, answers in [(name, pool.map(attempt, runs_of(function), chunksize=16)) for name, function in chosen]:
                    count.scene(name, answers)
        except BrokenProcessPool:  # a pool of `multiprocessing` would wait for ever
            print("FAILED: a worker was killed, as where memory ends")
            count.failed += 1
    print(f"{count.passed} passed, {count.failed} failed")
    return 1 if count.failed else 0


if __name__ == "__main__":
    sys.exit(main())
