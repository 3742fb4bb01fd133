"""The library of outside.c: a program behind it has its allocations, reads and writes as a test wants them."""
import collections
import os
import shutil
import subprocess
import tempfile
import threading

import runs

SOURCE = os.path.join(os.path.dirname(os.path.realpath(__file__)), "outside.c")
Call = collections.namedtuple("Call", "what allocations of")


class Outside:
    """The library, built in a folder of its own. Where there is no C compiler, or the program goes another way than by
    the C library, `why_not` says so."""

    def __init__(self, sq):
        self.folder = tempfile.TemporaryDirectory(prefix="sq-outside-")
        self.library = os.path.join(self.folder.name, "outside.so")
        self.why_not = self.build() or self.try_on(sq)

    def build(self):
        compiler = shutil.which("gcc") or shutil.which("cc")
        if not compiler:
            return "there is no C compiler"
        words = [compiler, "-O1", "-shared", "-fPIC", "-o", self.library, SOURCE]
        built = subprocess.run(words, capture_output=True, text=True)
        return built.stderr.strip() or "the C compiler failed" if built.returncode else None

    def try_on(self, sq):
        _, calls = self.logged(sq, ["check", "none"], self.folder.name)
        opened = any(call.what == "open" and call.of == "none" and call.allocations for call in calls)
        return None if opened else "the program's calls don't come to the C library"

    def environment(self, **wanted):
        said = {f"OUTSIDE_{name.upper()}": str(value) for name, value in wanted.items()}
        return {**os.environ, "LD_PRELOAD": self.library, **said}

    def run(self, sq, words, folder, **wanted):
        """A run of which some calls are as wanted."""
        return runs.run(sq, words, folder, env=self.environment(**wanted))

    def logged(self, sq, words, folder, **wanted):
        """The same, with the calls that it made."""
        with tempfile.TemporaryFile() as log:
            env = self.environment(log=log.fileno(), **wanted)
            ended = runs.run(sq, words, folder, env=env, keep=[log.fileno()])
            log.seek(0)
            calls = [line.split(" ", 2) for line in log.read().decode(errors="replace").splitlines()]
        return ended, [Call(what, int(allocations), of) for what, allocations, of in calls]

    def stopped(self, sq, words, folder, number, action):
        """A run that waits before its read of that number, until an action was taken."""
        told, tell = os.pipe()
        wait, go = os.pipe()

        def act():
            if os.read(told, 1):
                action()
            os.write(go, b"!")

        actor = threading.Thread(target=act)
        actor.start()
        env = self.environment(stop=number, tell=tell, wait=wait)
        ended = runs.run(sq, words, folder, env=env, keep=[tell, wait])
        # Where the read never came, this ends the wait for it.
        os.close(tell)
        actor.join()
        for end in (told, wait, go):
            os.close(end)
        return ended


def number_of_read(calls, name, nth):
    """Which read of a run is the nth of the file of that name."""
    reads = seen = 0
    reading = False
    for call in calls:
        if call.what == "open":
            reading = call.of == name
        elif call.what == "read":
            reads += 1
            seen += reading
            if reading and seen == nth:
                return reads
    return None
