"""Tests of the module sq over the library that it finds: `python3 -m unittest` in python/, or tests/library.

Expected texts are the files of examples/, which were made apart from sq."""
import ctypes
import sys
import threading
import unittest
from array import array
from pathlib import Path

TOP = Path(__file__).resolve().parent.parent.parent
sys.path.insert(0, str(TOP / "python"))

import sq  # noqa: E402
from sq import _library  # noqa: E402

EXAMPLES = TOP / "examples"
BLOCKS, MATMUL = EXAMPLES / "blocks", EXAMPLES / "matmul"
TWO = BLOCKS / "program.sq", BLOCKS / "two.map", BLOCKS / "two.mach"
PRODUCT = MATMUL / "program.sq", MATMUL / "two.map", MATMUL / "two.mach"


def files_in(folder):
    return {path.name: path.read_bytes() for path in folder.iterdir() if path.is_file()}


def programs():
    """The folders of examples with a program."""
    return sorted(path.parent for path in EXAMPLES.glob("*/program.sq"))


def mappings(folder):
    """The words that name a mapping with its program and its machine."""
    return [["program.sq", path.name, f"{path.stem}.mach"] for path in sorted(folder.glob("*.map"))]


class Examples(unittest.TestCase):
    """All of examples/ is answered as their files say."""

    def says(self, folder, words, status, out, err):
        with self.subTest(folder=folder.name, words=words):
            self.assertEqual(sq.call(words, files_in(folder)), sq.Said(status, out, err))

    def test_programs_are_checked_and_formatted(self):
        for folder in programs():
            for command, file in (("check", "checked"), ("fmt", "formatted")):
                if (folder / file).exists():
                    self.says(folder, [command, "program.sq"], 0, (folder / file).read_bytes(), b"")

    def test_plans_are_reported_and_written(self):
        for folder in programs():
            for words in mappings(folder):
                made = folder / words[1]
                for command, ending, more in (("plan", ".report", []), ("compile", ".plan", []), ("span", ".span", [".cost"])):
                    wanted = made.with_suffix(ending)
                    if wanted.exists():
                        its = [command, *words, *(made.with_suffix(it).name for it in more)]
                        self.says(folder, its, 0, wanted.read_bytes(), b"")

    def test_choices_are_tabled(self):
        for choices in EXAMPLES.glob("*/*.choices"):
            words = ["tune", "program.sq", choices.name, f"{choices.stem}.mach"]
            self.says(choices.parent, words, 0, choices.with_suffix(".table").read_bytes(), b"")

    def test_programs_run_in_each_order(self):
        for folder in programs():
            for words in mappings(folder):
                its = [*words, "data.txt"]
                self.ends(folder, ["eval", *its])
                for order in ("first", "last", "seed:7"):
                    self.ends(folder, ["run", *its, f"order={order}"])

    def ends(self, folder, words):
        if (folder / "output.txt").exists():
            self.says(folder, words, 0, (folder / "output.txt").read_bytes(), b"")
        elif (folder / "line.txt").exists():
            line = (folder / "line.txt").read_bytes()
            self.says(folder, words, 2 if line.startswith(b"trapped") else 1, b"", line)
        elif words[0] == "run":
            self.says(folder, words, 1, b"", (folder / "refused").read_bytes())

    def test_traces_come_before_the_end(self):
        for trace in EXAMPLES.glob("*/trace.txt"):
            folder = trace.parent
            words = ["run", "program.sq", "two.map", "two.mach", "data.txt", "order=last", "trace=yes"]
            is_done = (folder / "output.txt").exists()
            out = (folder / "output.txt").read_bytes() if is_done else b""
            self.says(folder, words, 0 if is_done else 2, out, trace.read_bytes())

    def test_faults_are_named(self):
        folders = sorted(path.parent for path in (EXAMPLES / "faults").glob("*/words"))
        self.assertGreater(len(folders), 80)
        for folder in folders:
            self.says(folder, (folder / "words").read_text().split(), 1, b"", (folder / "line").read_bytes())


class Commands(unittest.TestCase):
    """The functions, over texts, paths and arrays."""

    def test_arrays_come_as_lists_and_as_buffers(self):
        ten = list(range(1, 11))
        for given in (ten, tuple(ten), range(1, 11), array("i", ten), array("q", ten), memoryview(array("i", ten))):
            with self.subTest(given=given):
                self.assertEqual(sq.run(*TWO, {"A": given})["B"].tolist(), [2 * it for it in ten])

    def test_texts_and_paths_serve_alike(self):
        texts = [path.read_text() for path in TWO]
        data = (BLOCKS / "data.txt").read_bytes()
        wanted = (BLOCKS / "output.txt").read_text()
        self.assertEqual(sq.run(*texts, data).text, wanted)
        self.assertEqual(sq.eval(*TWO, BLOCKS / "data.txt").text, wanted)
        self.assertEqual(sq.exec(sq.compile(*TWO), data.decode(), order=[3, 1, 2]).text, wanted)
        self.assertEqual(sq.exec(BLOCKS / "by-hand.plan", {"A": range(1, 11)}).text, wanted)

    def test_arrays_are_put_in_the_order_of_the_entry(self):
        program = (
            "void task sum::leaf(in byte A[N], inout long B[N][M]) {"
            " for (int i = 0; i < N; i++) for (int j = 0; j < M; j++) B[i][j] += A[i]; }"
        )
        mapping = "mapping 1; // entry is top\nentry top(N = 2, M = 3); instance top = sum::leaf @ host { }"
        machine = "machine 1; level host { capacity 1024; }"
        given = {"B": [[1, 2, 3], [4, 5, 1 << 40]], "A": b"\x01\xff"}
        after = sq.run(program, mapping, machine, given)
        self.assertEqual(list(after), ["B"])
        self.assertEqual(after["B"].tolist(), [[2, 3, 4], [259, 260, (1 << 40) + 255]])
        self.assertEqual((after["B"].element, after["B"].extents), ("long", (2, 3)))
        self.assertEqual(after["B"].view().shape, (2, 3))
        again = sq.run(program, mapping, machine, {"A": [0, 0], "B": after["B"]})
        self.assertEqual(again["B"], after["B"])
        flat = memoryview(array("q", [1, 2, 3, 4, 5, 6])).cast("B").cast("q", [2, 3])
        self.assertEqual(sq.run(program, mapping, machine, {"A": [0, 0], "B": flat})["B"].tolist(), [[1, 2, 3], [4, 5, 6]])

    def test_what_does_not_fit_is_refused(self):
        for given, code, arguments in (
            ({"A": range(9)}, "Shape", ("A",)),
            ({"A": [range(10)]}, "Shape", ("A",)),
            ({"A": [1 << 31, *range(9)]}, "Range", ("A",)),
            ({"C": range(10)}, "Name", ("A",)),
            ({}, "Short", ("A",)),
        ):
            with self.subTest(given=given):
                with self.assertRaises(sq.Refused) as ended:
                    sq.run(*TWO, given)
                its = ended.exception
                self.assertEqual((its.phase, its.code, its.arguments), ("data", code, arguments))
        with self.assertRaises(ValueError):
            sq.run(*TWO, {"A": [[1, 2], [3]]})
        for given in ([1.5] * 10, array("f", [1] * 10), ["1"] * 10):
            with self.assertRaises(TypeError):
                sq.run(*TWO, {"A": given})

    def test_refusals_and_traps_tell_their_parts(self):
        race = EXAMPLES / "race"
        with self.assertRaises(sq.Refused) as ended:
            sq.plan(race / "program.sq", race / "two.map", race / "two.mach")
        line = (race / "line.txt").read_text().split()
        its = ended.exception
        self.assertEqual(str(its), " ".join(line))
        self.assertEqual([its.phase, its.code, "%d:%d" % its.place, *its.arguments], line[1:])
        index = EXAMPLES / "index"
        with self.assertRaises(sq.Trapped) as ended:
            sq.run(index / "program.sq", index / "two.map", index / "two.mach", index / "data.txt")
        its = ended.exception
        self.assertEqual((its.kind, its.place, its.path), ("Index", (11, 38), (2,)))
        with self.assertRaises(sq.Refused) as ended:
            sq.check("void task")
        self.assertEqual((ended.exception.phase, ended.exception.code), ("program", "Syntax"))
        small = EXAMPLES / "too-small"
        with self.assertRaises(sq.Refused) as ended:
            sq.plan(small / "program.sq", small / "one.map", small / "one.mach")
        self.assertEqual((ended.exception.place, ended.exception.arguments), (None, ("host", "32", "31")))

    def test_reports_are_read(self):
        report = sq.plan(BLOCKS / "program.sq", BLOCKS / "uneven.map", BLOCKS / "uneven.mach")
        host, core = report.levels
        self.assertEqual(host, sq.Level("host", 1, 80, 80, 80, (sq.Node("h", 80, 80),)))
        self.assertEqual(core.each, (sq.Node("large", 32, 32), sq.Node("small", 16, 16)))
        self.assertEqual(report.buffers[1], sq.Buffer("host", 40, 40, "top", "B"))
        self.assertEqual(report.edges, (sq.Edge("host", "core", 40, 40),))
        self.assertEqual((report.leaves, report.traffic, len(report.buffers)), (3, 80, 6))
        overlap = EXAMPLES / "overlap"
        report = sq.plan(overlap / "program.sq", overlap / "two.map", overlap / "two.mach")
        self.assertEqual((len(report.hoists), len(report.overlaps)), (1, 1))
        self.assertEqual((report.hoists[0].place[0], report.hoists[0].parameter), (12, "W"))

    def test_tables_and_chains_are_read(self):
        table = sq.tune(MATMUL / "program.sq", MATMUL / "tuned.choices", MATMUL / "tuned.mach")
        lines = (MATMUL / "tuned.table").read_text().splitlines()
        self.assertEqual(len(table.choices), len(lines) - 1)
        self.assertEqual(str(table.best), lines[-1].split()[1])
        for choice, line in zip(table.choices, lines):
            settings = " ".join(f"{name}={value}" for name, value in choice.settings.items())
            said = choice.refused or f"traffic {choice.traffic}"
            self.assertTrue(line.endswith(f" {settings} {said}"), line)
        chain = EXAMPLES / "chain"
        read = sq.span(chain / "program.sq", chain / "two.map", chain / "two.mach", chain / "two.cost")
        lines = (chain / "two.span").read_text().splitlines()
        self.assertEqual(f"span {read.weight} events {len(read.events)} of {read.planned}", lines[0])
        self.assertEqual([f"{it.weight} {it.line}" for it in read.events], lines[1:])


class BadInput(unittest.TestCase):
    """What no command line can hold, and what is large."""

    def test_words_that_are_no_command(self):
        usage = (EXAMPLES / "usage").read_bytes()
        for words in ([], [b"\xff"], ["check", b"\xc3"], ["check"], [""], ["plan", "a", "b"], ["check", "p", "q"]):
            with self.subTest(words=words):
                self.assertEqual(sq.call(words, {"p": b""}), sq.Said(3, b"", usage))

    def test_files_that_are_not_handed_in(self):
        self.assertEqual(sq.call(["check", "q"], {"p": b""}), sq.Said(7, b"", b"absent q\n"))
        self.assertEqual(sq.call(["check", "q"], {}), sq.Said(7, b"", b"absent q\n"))
        self.assertEqual(sq.call(["check", ""], {b"\xff": b""}), sq.Said(7, b"", b"absent \n"))

    def test_of_two_files_with_one_name_the_first_counts(self):
        program = TWO[0].read_bytes()
        self.assertEqual(sq.call(["check", "p"], [("p", program), ("p", b"void")]), sq.Said(0, b"ok\n", b""))
        self.assertEqual(sq.call(["check", "p"], [("p", b"void"), ("p", program)]).status, 1)

    def test_rooms_of_no_bytes(self):
        program, lengths = TWO[0].read_bytes(), _library._Lengths()
        words = (_library._Bytes * 2)(_library._held(b"fmt"), _library._held(b"p"))
        files = (_library._File * 1)(_library._File(_library._held(b"p"), _library._held(program)))
        formatted = (BLOCKS / "formatted").read_bytes()
        for room in (0, 1, len(formatted) - 1, len(formatted), len(formatted) + 1):
            out, err = (ctypes.create_string_buffer(b"." * (room + 8), room + 8) for _ in range(2))
            function = _library._function()
            status = function(words, 2, files, 1, out, room, err, 0, ctypes.byref(lengths))
            self.assertEqual((status, lengths.out, lengths.err), (0, len(formatted), 0))
            self.assertEqual(out.raw, (formatted[:room] + b"." * (room + 8))[: room + 8])
            self.assertEqual(err.raw, b"." * (room + 8))

    def test_a_text_of_any_length_comes_whole(self):
        count = 1 << 16
        mapping = f"mapping 1; entry top(N = {count}); instance top = twice::leaf @ host {{ }}"
        machine = f"machine 1; level host {{ capacity {8 * count}; }}"
        after = sq.run(EXAMPLES / "double" / "program.sq", mapping, machine, {"A": range(count)})
        self.assertEqual(after["B"].values, array("i", range(0, 2 * count, 2)))

    def test_too_much_data_is_refused(self):
        blank = b" " * 300_000_000
        with self.assertRaises(sq.Refused) as ended:
            sq.run(*TWO, blank)
        self.assertEqual((ended.exception.phase, ended.exception.code), ("data", "LimitFile"))

    def test_programs_of_any_bytes(self):
        for text in (b"\0", bytes(range(256)), b"\xff" * 1000, b"{" * 100_000, b"//" + b"x" * 2_000_000):
            with self.subTest(text=text[:8]):
                said = sq.call(["check", "p"], {"p": text})
                self.assertEqual(said.status, 1)
                self.assertTrue(said.err.startswith(b"refused program "))


class ManyCalls(unittest.TestCase):
    """Calls keep nothing, and stand side by side."""

    def resident(self):
        return int(Path("/proc/self/statm").read_text().split()[1]) * 4096

    @unittest.skipUnless(Path("/proc/self/statm").exists(), "/proc is not here")
    def test_ten_thousand_calls_leak_nothing(self):
        its = [path.read_bytes() for path in PRODUCT]
        for _ in range(500):
            sq.plan(*its)
        before = self.resident()
        for _ in range(10_000):
            sq.plan(*its)
        self.assertLess(self.resident() - before, 1 << 20)

    def test_refusals_leak_nothing(self):
        race = [(EXAMPLES / "race" / name).read_bytes() for name in ("program.sq", "two.map", "two.mach", "data.txt")]
        words = ["run", "a", "b", "c", "d"]
        files = list(zip("abcd", race))
        for _ in range(100):
            sq.call(words, files)
        before = self.resident()
        for _ in range(2_000):
            self.assertEqual(sq.call(words, files).status, 1)
        self.assertLess(self.resident() - before, 1 << 20)

    def test_the_deepest_plan_file_in_a_small_thread(self):
        event = "seq { par { " * 512 + "fill 0+0 int 1 9;\n" + " }" * 1024
        plan = "plan 1;\nnode 0 4 0 0;\nbuffer 0 0 4 top A;\narray inout int A [1] 0;\n" + event + "\n"
        said = []
        usual = threading.stack_size(3 << 20)
        try:
            words = ["exec", "p", "d"]
            files = {"p": plan.encode(), "d": b"array A int [1]\n0\n"}
            thread = threading.Thread(target=lambda: said.append(sq.call(words, files)))
            thread.start()
            thread.join()
        finally:
            threading.stack_size(usual)
        self.assertEqual(said, [sq.Said(0, b"array A int [1]\n9\n", b"")])

    def test_eight_threads_at_once(self):
        folders = [folder for folder in programs() if (folder / "output.txt").exists()][:8]
        wrong = []

        def work(folder):
            files, words = files_in(folder), mappings(folder)[0]
            wanted = sq.Said(0, files["output.txt"], b"")
            for turn in range(40):
                said = sq.call(["run", *words, "data.txt", f"order=seed:{turn}"], files)
                if said != wanted:
                    wrong.append((folder.name, turn, said))

        threads = [threading.Thread(target=work, args=(folder,)) for folder in folders]
        for thread in threads:
            thread.start()
        for thread in threads:
            thread.join()
        self.assertEqual((len(threads), wrong), (8, []))


if __name__ == "__main__":
    unittest.main()
