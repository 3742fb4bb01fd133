"""Runs sq with words, files and limits, and counts what ended as it has to: what the tables of this folder share."""
import argparse
import collections
import os
import resource
import signal
import subprocess
import sys
import tempfile
import threading
import time

TOP = os.path.dirname(os.path.dirname(os.path.realpath(__file__)))
BUILT = os.path.join(TOP, "crates/sq_cli/out/sq_cli")
USAGE = open(os.path.join(TOP, "examples/usage"), "rb").read()

# A stream that isn't there at all.
CLOSED = object()
# A run ends long before this; it guards against one that doesn't.
GUARD_SECONDS = 600
# Tells the time and memory of a run. What the system says of a child of this process counts this one's memory too.
TIMER = "/usr/bin/time"

DONE, REFUSED, TRAPPED, NO_COMMAND, FILE_FAILS, STREAM_FAILS, NO_MEMORY, ABSENT = range(8)

Ended = collections.namedtuple("Ended", "status out err seconds megabytes")
# What a run has to end with; `out` and `err` are bytes, or say themselves what they take.
Want = collections.namedtuple("Want", "status out err")


class Front:
    """Any front of a text."""

    def __init__(self, text):
        self.text = text

    def takes(self, came):
        return self.text.startswith(came)

    def __repr__(self):
        return f"a front of {shortened(self.text)}"


class OneOf:
    """One of several texts."""

    def __init__(self, *texts):
        self.texts = texts

    def takes(self, came):
        return came in self.texts

    def __repr__(self):
        return " or ".join(shortened(text) for text in self.texts)


class Anything:
    """Any text."""

    def takes(self, came):
        return True

    def __repr__(self):
        return "anything"


def done(out):
    return Want(DONE, out, b"")


def refused(line):
    return Want(REFUSED, b"", line.encode() + b"\n")


def trapped(line):
    return Want(TRAPPED, b"", line.encode() + b"\n")


def shortened(text, most=160):
    told = repr(text)[1:] if isinstance(text, bytes) else str(text)
    return told if len(told) <= most else f"{told[: most - 40]} .. {told[-30:]} ({len(text)} bytes)"


def differences(wanted, ended):
    """What of a run isn't as it has to be; an empty list where all is."""
    told = []
    if ended.status != wanted.status:
        told.append(f"status {wanted.status} wanted, came {ended.status}")
    for name, want, came in (("output", wanted.out, ended.out), ("error", wanted.err, ended.err)):
        if not (want.takes(came) if hasattr(want, "takes") else want == came):
            want = shortened(want) if isinstance(want, bytes) else want
            told.append(f"standard {name}: {want} wanted, came {shortened(came)}")
    return told


class Table:
    """Counts rows, and tells those that fail."""

    def __init__(self):
        self.passed = self.failed = 0

    def holds(self, what, condition, told=""):
        if condition:
            self.passed += 1
        else:
            self.failed += 1
            print(f"{what}: {told}", flush=True)
        return condition

    def ends(self, what, wanted, ended):
        told = differences(wanted, ended)
        return self.holds(what, not told, "; ".join(told))

    def skip(self, what, why):
        print(f"skipped: {what}: {why}", flush=True)

    def finish(self):
        print(f"{self.passed} passed, {self.failed} failed")
        sys.exit(1 if self.failed else 0)


def arguments(told, **more):
    """The words of a table: the program, and whether times and memory are told."""
    parser = argparse.ArgumentParser(description=told, formatter_class=argparse.RawDescriptionHelpFormatter)
    parser.add_argument("sq", nargs="?", default=BUILT, help="the program (what the build made)")
    parser.add_argument("--only", default="", metavar="WORD", help="only rows with this word")
    parser.add_argument("--measure", action="store_true", help="all rows, also the large ones, with seconds and memory")
    for name, help_text in more.items():
        parser.add_argument(f"--{name}", help=help_text)
    words = parser.parse_args()
    words.sq = os.path.abspath(words.sq)
    if words.measure and not os.path.exists(TIMER):
        sys.exit(f"--measure needs {TIMER}")
    return words


def measured(what, ended, seconds=5, megabytes=1024):
    """Tells what a run took, and marks what is over the bound that is meant to hold on one processor."""
    over = " OVER" if ended.seconds > seconds or ended.megabytes > megabytes else ""
    print(f"{what}: {ended.seconds:.2f} s, {ended.megabytes} MB{over}", flush=True)


def write(folder, files):
    """Writes the files of a table of names and texts into a folder; a text may write itself."""
    for name, text in files.items():
        with open(os.path.join(folder, name), "wb") as file:
            if hasattr(text, "write_to"):
                text.write_to(file)
            else:
                file.write(text if isinstance(text, bytes) else text.encode())


# ---- runs

# The files that a command reads, under the names that `write` gives them.
FILES = {
    "check": ["program"],
    "fmt": ["program"],
    "plan": ["program", "mapping", "machine"],
    "eval": ["program", "mapping", "machine", "data"],
    "run": ["program", "mapping", "machine", "data"],
    "compile": ["program", "mapping", "machine"],
    "exec": ["plan", "data"],
    "tune": ["program", "mapping", "machine"],
    "span": ["program", "mapping", "machine", "cost"],
}


def words_of(command, *options):
    return [command, *FILES[command], *options]


def prepared(limits, ignored):
    """What a child does before it becomes sq: its limits, and the signals that it doesn't hear."""
    if not limits and not ignored:
        return None

    def prepare():
        for which, most in limits.items():
            resource.setrlimit(which, (most, most))
        for which in ignored:
            signal.signal(which, signal.SIG_IGN)

    return prepare


def opened(stream):
    """A stream of a child: what was handed in, nothing, or a file that is read afterwards."""
    if stream is None:
        return tempfile.TemporaryFile()
    return stream


def start(sq, words, folder, out, err, limits=None, ignored=(), env=None, keep=()):
    """Begins a run. A stream that is CLOSED is no open file of the child's."""
    closed = [number for number, stream in ((1, out), (2, err)) if stream is CLOSED]
    before = prepared(limits or {}, ignored)

    def close_and_prepare():
        if before:
            before()
        for number in closed:
            os.close(number)

    return subprocess.Popen(
        [sq, *words],
        cwd=folder,
        stdin=subprocess.DEVNULL,
        stdout=subprocess.DEVNULL if out is CLOSED else out,
        stderr=subprocess.DEVNULL if err is CLOSED else err,
        env=env,
        pass_fds=keep,
        start_new_session=True,
        preexec_fn=close_and_prepare if before or closed else None,
    )


def await_end(child, seconds=GUARD_SECONDS):
    """Its status, the seconds of the processor and the megabytes that it took; the status is None where it had to be
    killed, and that of a signal is negative."""
    late = []

    def kill(*_):
        late.append(True)
        os.killpg(child.pid, signal.SIGKILL)

    signal.signal(signal.SIGALRM, kill)
    signal.setitimer(signal.ITIMER_REAL, seconds)
    _, status, used = os.wait4(child.pid, 0)
    signal.setitimer(signal.ITIMER_REAL, 0)
    child.returncode = os.waitstatus_to_exitcode(status)
    return None if late else child.returncode, used.ru_utime + used.ru_stime, used.ru_maxrss // 1024


def text_of(stream, given):
    """What was written to a stream that was not handed in."""
    if given is not None:
        return b""
    stream.seek(0)
    text = stream.read()
    stream.close()
    return text


def run_measured(sq, words, folder, **more):
    """The same, with its own time and memory."""
    with tempfile.NamedTemporaryFile() as figures:
        ended = run(TIMER, ["-q", "-f", "%U %S %M", "-o", figures.name, sq, *words], folder, **more)
        # It tells nothing where it was killed itself.
        user, system, kilobytes = figures.read().decode().split()[-3:] or (0, 0, 0)
    return ended._replace(seconds=float(user) + float(system), megabytes=int(kilobytes) // 1024)


def run(sq, words, folder, out=None, err=None, limits=None, ignored=(), env=None, keep=(), seconds=GUARD_SECONDS):
    """Runs sq in a folder. Streams that are handed in keep what is written to them: the answer has nothing of it."""
    streams = opened(out), opened(err)
    child = start(sq, words, folder, *streams, limits=limits, ignored=ignored, env=env, keep=keep)
    status, used, megabytes = await_end(child, seconds)
    return Ended(status, text_of(streams[0], out), text_of(streams[1], err), used, megabytes)


def first_bytes(sq, words, folder, count, seconds=GUARD_SECONDS):
    """The first bytes on standard error of a run that is then killed, and the seconds of time until they came."""
    begun = time.monotonic()
    child = start(sq, words, folder, subprocess.DEVNULL, subprocess.PIPE)
    timer = threading.Timer(seconds, child.kill)
    timer.start()
    text = child.stderr.read(count)
    took = time.monotonic() - begun
    child.kill()
    child.stderr.close()
    child.wait()
    timer.cancel()
    return text, took


class Folder:
    """A folder for files, gone behind its `with`."""

    def __init__(self, files=None):
        self.files = files or {}

    def __enter__(self):
        self.made = tempfile.TemporaryDirectory(prefix="sq-")
        write(self.made.name, self.files)
        return self.made.name

    def __exit__(self, *_):
        self.made.cleanup()
