"""The command line: files and streams, help, refusals in words, lines of JSON."""

import collections
import contextlib
import functools
import io
import itertools
import json
import multiprocessing
import os
import random
import signal
import subprocess
import sys
import tempfile
import time
import unittest
import unittest.mock
from contextlib import closing
from pathlib import Path

import ising2d
from ising2d._cli import main
from ising2d._streams import answer_lines
from ising2d._workers import WorkerEnded
from test_answers import TRIES, steps_of_locks
from test_calls import EXAMPLES

SQUARE = "square,2,2\n3,4\n2,-5\nend\n"


def program(*words, input=b"", **wishes):
    given = input.encode() if isinstance(input, str) else input
    return subprocess.run(
        [sys.executable, "-m", "ising2d", *words], input=given, capture_output=True, **wishes
    )


class Ended(BaseException):
    """Raised by a signal, as SystemExit is in the program."""


@contextlib.contextmanager
def ended_by_a_clock():
    """A clock and SIGTERM raise Ended meanwhile."""

    def end(number, frame):
        raise Ended

    before = [(number, signal.signal(number, end)) for number in (signal.SIGALRM, signal.SIGTERM)]
    try:
        yield
    finally:
        signal.setitimer(signal.ITIMER_REAL, 0)
        for number, heard in before:
            signal.signal(number, heard)


class Commands(unittest.TestCase):
    def test_each_example_is_answered_as_by_the_program(self):
        for given in sorted(EXAMPLES.glob("*/*.txt")):
            with self.subTest(example=given.name):
                found = program(given.parent.name, str(given))
                wanted = ising2d.run([given.parent.name], given.read_bytes())
                self.assertEqual((found.stdout.decode(), found.returncode), (wanted.text, wanted.status))
                self.assertEqual(bool(found.stderr), wanted.status != 0)

    def test_each_help_has_an_example_that_runs(self):
        names = [
            "energy",
            "ground",
            "wall",
            "bonds",
            "clusters",
            "report",
            "ranges",
            "maxcut",
            "tjoin",
            "postman",
            "gen",
            "sample",
            "ensemble",
            "widths",
            "lines",
            "svg",
        ]
        for name in names:
            with self.subTest(command=name):
                told = program(name, "--help").stdout.decode()
                example = told.partition("example:\n")[2].strip()
                example = example.replace("python3", sys.executable)
                with tempfile.TemporaryDirectory() as folder:
                    ran = subprocess.run(["sh", "-c", example], capture_output=True, text=True, cwd=folder)
                    written = ran.stdout or "".join(path.read_text() for path in Path(folder).iterdir())
                self.assertEqual((ran.returncode, ran.stderr), (0, ""), example)
                self.assertTrue(written)

    def test_version_and_words(self):
        self.assertEqual(program("--version").stdout.decode(), f"ising2d {ising2d.__version__}\n")
        self.assertIn(b"COMMAND", program("--help").stdout)
        for words in ((), ("nothing",), ("lines", "nothing"), ("lines", "energy", "--jobs", "0")):
            found = program(*words)
            self.assertEqual((found.returncode, found.stdout), (2, b""))
            self.assertTrue(found.stderr)

    def test_several_files(self):
        files = [str(EXAMPLES / "energy" / name) for name in ("frustrated-square.txt", "torus.txt")]
        found = program("energy", *files)
        self.assertEqual(found.returncode, 1)
        self.assertEqual(
            [line for line in found.stdout.decode().splitlines() if line[0] == "#"],
            [f"# {name}" for name in files],
        )
        with_one_missing = program("energy", files[0], "/nowhere", files[0])
        self.assertEqual(with_one_missing.returncode, 4)
        self.assertEqual(with_one_missing.stdout.count(b"# "), 2)
        self.assertIn(b"/nowhere", with_one_missing.stderr)

    def test_draws(self):
        self.assertEqual(
            program("gen", "pm", "42", "square", "2", "2").stdout, b"square,2,2\n-1,-1,1,-1\nend\n"
        )
        found = program("ensemble", "pm", "1", "8", "8", "1001")
        self.assertEqual((found.returncode, found.stdout), (2, b"usage\n"))
        self.assertEqual(found.stderr, b"ising2d: count is 1001 (allowed: 1 to 1000)\n")
        for words, text in (
            ("gen pm x square 2 2", "seed: expected a whole number, not the str 'x'"),
            ("gen pm +1 square 2 2", "seed: expected a whole number, not the str '+1'"),
            ("gen pm 1 kagome 2 2", "kind is 'kagome' (allowed: square, triangular"),
            ("gen pm 1 cylinder 2 2", "cols is 2 (allowed: 3 to 2048)"),
            ("sample pm 1 46 46", "2116 spins (allowed: at most 2048)"),
            ("widths pm 1 4 65 1", "max_cols is 65 (allowed: 3 to 64)"),
            ("sample normal 1 2 2", "law 'normal': no law of disorder has this name (allowed: one, alternate"),
        ):
            found = program(*words.split())
            wanted = ising2d.run(words.split())
            self.assertEqual((found.stdout.decode(), found.returncode), (wanted.text, wanted.status))
            self.assertIn(text, found.stderr.decode())

    def test_no_such_file(self):
        found = program("energy", "/nowhere")
        self.assertEqual((found.returncode, found.stdout), (4, b""))
        self.assertIn(b"/nowhere", found.stderr)

    def test_a_result_in_a_file_of_its_own(self):
        with tempfile.TemporaryDirectory() as folder:
            given, answer, whole = (Path(folder) / name for name in ("given", "answer", "whole"))
            given.write_text(SQUARE)
            answer.write_text(ising2d.run(["ground"], SQUARE).text)
            whole.write_text(given.read_text() + answer.read_text())
            found = program("check", str(given), str(answer))
            self.assertEqual((found.returncode, found.stderr), (0, b""))
            self.assertTrue(found.stdout.endswith(b"yes\n"))
            found = program("check", str(whole), str(given), str(answer))
            self.assertEqual((found.returncode, found.stdout.count(b"yes\n")), (0, 2))
            answer.write_text(answer.read_text().replace("-10", "-9"))
            self.assertEqual(program("check", str(given), str(answer)).returncode, 3)
            self.assertEqual(program("check", str(given), "/nowhere").returncode, 4)

    def test_files_of_every_size(self):
        lattice = ising2d.draw("pm", 1, "cylinder", 50, 50)
        text = f"cylinder,50,50\n{','.join(map(str, lattice.couplings.tolist()))}\nend\n"
        with tempfile.TemporaryDirectory() as folder:
            given, answer = Path(folder) / "given", Path(folder) / "answer"
            given.write_text(text)
            found = program("ground", str(given))
            self.assertEqual(found.returncode, 0)
            self.assertTrue(found.stdout.startswith(f"energy,{lattice.ground().energy}\n".encode()))
            answer.write_bytes(found.stdout)
            found = program("check", str(given), str(answer))
            self.assertEqual((found.returncode, found.stdout.splitlines()[-1]), (0, b"yes"))
            found = program("wall", str(given))
            self.assertIn(f"wall,{lattice.wall().difference}\n".encode(), found.stdout)
            found = program("energy", str(given))
            self.assertEqual(found.stdout.count(b"\n"), 3)
            found = program("clusters", str(given)).stdout.decode().splitlines()
            self.assertEqual(found[:-1], [f"cluster,{spin},{name}" for spin, name in enumerate(lattice.clusters())])
            # What only the program answers keeps its limit.
            self.assertEqual(program("ranges", str(given)).stdout, b"refused,7,2500\n")
            given.write_text(text.replace("end", "x"))
            found = program("ground", str(given))
            self.assertEqual((found.returncode, found.stdout), (1, b"refused,3,2,0\n"))
            self.assertIn(b"line 3, field 1: 'x' is not allowed there", found.stderr)

    def test_streams_that_fail(self):
        """The same statuses as the program: 5 for standard output, 4 for standard input."""
        line = json.dumps(ising2d.draw("pm", 1, "square", 2, 2).as_json())
        for words, given in ((("ground",), SQUARE), (("lines", "energy"), line), (("svg",), SQUARE)):
            for end, status in ((">/dev/full", 5), (">&-", 5), ("<&- >/dev/null", 4)):
                with self.subTest(words=words, end=end):
                    command = " ".join([sys.executable, "-m", "ising2d", *words, end])
                    found = subprocess.run(["sh", "-c", command], input=given.encode(), capture_output=True)
                    self.assertEqual(found.returncode, status, found.stderr)
                    self.assertNotIn(b"Traceback", found.stderr)
                    self.assertEqual(found.stdout, b"")

    def test_sigterm(self):
        lines = "\n".join([json.dumps(ising2d.draw("uniform", 1, "square", 40, 40).as_json())] * 400)
        for jobs in ("1", "2"):
            words = [sys.executable, "-m", "ising2d", "lines", "bonds", "--jobs", jobs]
            with tempfile.NamedTemporaryFile("w") as file:
                file.write(lines)
                file.flush()
                with subprocess.Popen([*words, file.name], stdout=subprocess.PIPE, stderr=subprocess.PIPE) as child:
                    self.assertTrue(child.stdout.readline())
                    child.send_signal(signal.SIGTERM)
                    rest, told = child.communicate(timeout=20)
                    self.assertEqual((child.returncode, told), (143, b""))
                    self.assertTrue(not rest or rest.endswith(b"\n"))

    def test_an_end_from_outside_at_drawn_moments(self):
        """A clock ends the answers of one process and of two."""
        line = json.dumps(ising2d.draw("pm", 1, "square", 8, 8).as_json())
        for jobs, count in ((1, 200), (2, 8)):
            for _ in range(count):
                with self.subTest(jobs=jobs), ended_by_a_clock(), self.assertRaises(Ended):
                    with closing(answer_lines("bonds", itertools.repeat(line, 100_000), jobs)) as answers:
                        next(answers)
                        signal.setitimer(signal.ITIMER_REAL, random.uniform(1e-6, 0.01))
                        collections.deque(answers, maxlen=0)
                self.assertEqual(multiprocessing.active_children(), [])

    def test_two_processes_take_no_step_of_a_lock_in_python(self):
        line = json.dumps(ising2d.draw("pm", 1, "square", 8, 8).as_json())
        with steps_of_locks() as steps:
            self.assertEqual(len(list(answer_lines("bonds", [line] * 40, 2))), 40)
        self.assertEqual(steps, set())

    def test_a_process_that_is_killed(self):
        line = json.dumps(ising2d.draw("pm", 1, "square", 8, 8).as_json())
        with closing(answer_lines("energy", itertools.repeat(line), 2)) as answers:
            next(answers)
            multiprocessing.active_children()[0].kill()
            with self.assertRaisesRegex(WorkerEnded, "ended before its answer"):
                collections.deque(answers, maxlen=0)
        self.assertEqual(multiprocessing.active_children(), [])
        # Whoever ends one process of several by SIGTERM ends them all.
        with ended_by_a_clock(), closing(answer_lines("energy", itertools.repeat(line), 2)) as answers:
            next(answers)
            multiprocessing.active_children()[0].terminate()
            with self.assertRaises(Ended):
                collections.deque(answers, maxlen=0)
        with unittest.mock.patch("ising2d._cli.answer_lines", side_effect=WorkerEnded("was killed")):
            told = io.StringIO()
            with ended_by_a_clock(), contextlib.redirect_stderr(told), tempfile.NamedTemporaryFile() as file:
                self.assertEqual(main(["lines", "energy", "--jobs", "2", file.name]), 6)
            self.assertIn("was killed", told.getvalue())

    def test_pictures(self):
        for show, text in (("ground", SQUARE), ("clusters", SQUARE), ("wall", "cylinder,1,3\n5,7,2\nend\n")):
            self.assertTrue(program("svg", "--show", show, input=text).stdout.startswith(b"<svg"))
        self.assertEqual(program("svg", input="square,2\n").returncode, 1)


class Terminals(unittest.TestCase):
    def test_a_bar_where_standard_error_is_a_terminal(self):
        line = json.dumps(ising2d.draw("pm", 1, "square", 24, 24).as_json())
        with tempfile.NamedTemporaryFile("w", suffix=".jsonl") as file:
            file.write((line + "\n") * 300)
            file.flush()
            for wishes, shown in (((), True), (("--quiet",), False)):
                ours, theirs = os.openpty()
                ran = subprocess.run(
                    [sys.executable, "-m", "ising2d", "lines", "ground", *wishes, file.name],
                    stdout=subprocess.PIPE,
                    stderr=theirs,
                )
                os.close(theirs)
                told = self.all_of(ours)
                self.assertEqual((ran.returncode, len(ran.stdout.splitlines())), (0, 300))
                self.assertEqual(b"%" in told and b" a second" in told, shown)

    def all_of(self, terminal):
        parts = []
        try:
            while parts.append(os.read(terminal, 65536)) or parts[-1]:
                pass
        except OSError:  # the other end is closed
            pass
        os.close(terminal)
        return b"".join(parts)

    def test_ctrl_c(self):
        text = ising2d.run(["gen", "uniform", "1", "square", "45", "45"]).text
        with tempfile.NamedTemporaryFile("w") as file:
            file.write(text)
            file.flush()
            words = [sys.executable, "-m", "ising2d", "bonds", *[file.name] * 50]
            self.assertTrue(any(self.interrupted(words) < 1.0 for _ in range(TRIES)))

    def interrupted(self, words):
        """The seconds from an interrupt after the first line to the end of the process."""
        # A shell has what it starts in the background ignore interrupts, which all below would inherit.
        heeds = functools.partial(signal.signal, signal.SIGINT, signal.SIG_DFL)
        with subprocess.Popen(words, stdout=subprocess.PIPE, preexec_fn=heeds) as child:
            self.assertTrue(child.stdout.readline())
            begun = time.monotonic()
            child.send_signal(signal.SIGINT)
            self.assertEqual(child.wait(20), 130)
            return time.monotonic() - begun

    def test_a_reader_that_goes_away(self):
        ran = subprocess.run(
            ["sh", "-c", f"{sys.executable} -m ising2d gen pm 1 square 45 45 | head -n 1"],
            capture_output=True,
        )
        self.assertEqual((ran.stdout, ran.stderr), (b"square,45,45\n", b""))


class Refusals(unittest.TestCase):
    ROWS = (
        (
            "energy",
            "\n\nsquare,2,2\n\n3,4\n2,x\nend\n",
            "line 6, field 2: 'x' is not allowed there (allowed: a coupling: a whole number",
        ),
        ("energy", "square,2.5,2\n", "line 1, field 2: '2.5' is not allowed there (allowed: rows: 1 or more"),
        ("energy", "cylinder,3,2\n", "line 1, field 3: '2' is not allowed there (allowed: columns: 3 or more"),
        ("energy", "torus,2,2\n", "line 1: 'torus' is not allowed there (allowed: square, triangular"),
        ("energy", "Square,2,2\n", "line 1: 'Square' is not allowed there"),
        ("energy", "square;2;2\n", "line 1: 'square;2;2' is not allowed there"),
        (
            "energy",
            "square,2\n",
            "line 1: 'square,2' has a wrong number of fields, or is repeated (allowed: square,ROWS,COLS",
        ),
        (
            "energy",
            "general,2\nbond,0,5,1\nend\n",
            "line 2, field 3: '5' is not allowed there (allowed: a spin from 0",
        ),
        (
            "energy",
            "general,2\nedge,0,1,1\nend\n",
            "line 2: 'edge' is not allowed there (allowed: bond, rot, seam, end",
        ),
        ("energy", "general,2\nbond,1,1,1\nend\n", "line 2: both ends of bond 0 are the same spin"),
        (
            "energy",
            "general,2\nbond,0,1,1\nrot,0,0\nrot,1,0\nend\n",
            "line 4: the list of spin 1 is wrong at dart 0",
        ),
        ("energy", SQUARE + "7\n", "line 5: '7' follows the end"),
        (
            "energy",
            "square,2,2\n3\nend\n",
            "standard input: there are 1 couplings (allowed: one for each bond of the lattice, 4)",
        ),
        ("energy", "square,2,2\n3\n", "the records do not end with the record end"),
        ("energy", '{"kind":"kagome"}', 'there is no such kind: "kagome"'),
        ("energy", '{"kind":"square","rows":2,"cols":2,"couplings":[3,4,"x",1]}', 'coupling 2 is wrong: "x"'),
        ("energy", '{"kind":"square","rows":2}', "there is no member cols"),
        ("energy", '{"kind":"square","rows":2,"cols":1,"couplings":[1],"field":3}', "'field'"),
        ("energy", '{"kind":', "not valid JSON"),
        (
            "check",
            SQUARE + "energy,-10\nspins,1,1,0,1\nend\n",
            "line 6, field 4: '0' is not allowed there (allowed: 1 or -1",
        ),
        ("check", SQUARE + "spins,1\n", "line 5: 'spins' is not allowed there (allowed: energy"),
        (
            "check",
            SQUARE + "energy,-9\nspins,1,1,-1,-1\nend\n",
            "the spins have the energy -10, not the stated one",
        ),
        (
            "tjoin",
            "graph,2\nedge,0,1,-5\nend\n",
            "line 2, field 4: '-5' is not allowed there (allowed: a weight from 0",
        ),
        ("tjoin", "graph,2\nedge,0,1,5\nterm,0\nend\n", "line 3: there are 1 terminals"),
        ("tjoin", "graph,3000\nend\n", "there are 3000 nodes (allowed: at most 2048)"),
        ("tjoin", "graph,2\nedge,0,1,5\nterm,0,7\nend\n", "line 3: terminal 7 is no node"),
        ("tjoin", "graph,3\nedge,0,1,5\nend\n", "no edges lead from node 0 to node 2 (allowed: one component)"),
        ("postman", "graph,2\nterm,0\nend\n", "line 2: 'term' is not allowed there (allowed: edge, end"),
        ("energy", b"\xff\xfes\x00q\x00", "line 1: "),
    )

    def test_each_has_a_sentence(self):
        for command, text, sentence in self.ROWS:
            with self.subTest(text=text):
                found = program(command, input=text)
                self.assertIn(sentence, found.stderr.decode())
                given = text.encode() if isinstance(text, str) else text
                self.assertEqual(found.stdout.decode(), ising2d.run([command], given).text)


class Lines(unittest.TestCase):
    def test_ids_travel_along(self):
        lines = []
        for k in range(40):
            instance = ising2d.draw("pm", k, "cylinder", 3, 4)
            lines.append(json.dumps({"id": f"no. {k}", **instance.as_json()}))
        given = "\n\n".join(lines)
        for command in ("energy", "ground", "wall", "bonds", "clusters", "ranges", "maxcut", "report"):
            with self.subTest(command=command):
                alone = program("lines", command, input=given)
                self.assertEqual((alone.returncode, alone.stderr), (0, b""))
                answers = [json.loads(line) for line in alone.stdout.splitlines()]
                self.assertEqual([answer["id"] for answer in answers], [f"no. {k}" for k in range(40)])
        self.assertEqual(program("lines", "report", "--jobs", "3", input=given).stdout, alone.stdout)

    def test_a_report_is_that_of_the_program(self):
        instance = ising2d.draw("pm", 1, "cylinder", 3, 4)
        found = json.loads(program("lines", "report", input=json.dumps(instance.as_json())).stdout)
        self.assertEqual(found, json.loads(ising2d.run(["report"], json.dumps(instance.as_json())).text))

    def test_a_proof_goes_round(self):
        instance = ising2d.draw("pm", 1, "cylinder", 3, 4).as_json()
        found = json.loads(program("lines", "ground", input=json.dumps(instance)).stdout)
        found = program("lines", "check", input=json.dumps({"id": [1], **instance, **found}))
        self.assertEqual(json.loads(found.stdout)["holds"], True)
        self.assertEqual(found.returncode, 0)
        forged = {**instance, "energy": 0, "spins": [1] * 12, "loops": []}
        found = program("lines", "check", input=json.dumps(forged))
        self.assertEqual((found.returncode, json.loads(found.stdout)["holds"]), (3, False))

    def test_joins(self):
        text = '{"id":1,"n":3,"edges":[[0,1,2],[1,2,3],[0,2,4]],"terminals":[0,2]}'
        found = json.loads(program("lines", "tjoin", input=text).stdout)
        self.assertEqual((found["id"], found["weight"], found["edges"]), (1, 4, [2]))

    def test_joins_of_names(self):
        edges = '"edges":[["a","b",2],["b","c",3]]'
        found = program("lines", "tjoin", input='{%s,"terminals":["a","c"]}' % edges)
        self.assertEqual(json.loads(found.stdout)["edges"], [0, 1])
        found = json.loads(program("lines", "postman", input="{%s}" % edges).stdout)
        self.assertEqual((found["start"], [step["node"] for step in found["steps"]]), ("a", ["b", "c", "b", "a"]))
        for text, part in (
            ('{%s,"terminals":["a","x"]}' % edges, "there is no node 'x'"),
            ('{%s,"terminal":["a"]}' % edges, "a member does not belong here: 'terminal'"),
            ('{"terminals":[]}', "there is no member edges"),
        ):
            found = program("lines", "tjoin", input=text)
            self.assertEqual(found.returncode, 1)
            self.assertIn(part, json.loads(found.stdout)["sentence"])

    def test_a_bad_line_is_answered_and_the_rest_too(self):
        good = '{"id":%d,"kind":"square","rows":1,"cols":2,"couplings":[5]}'
        bad = [
            "{",
            "7",
            '{"id":9}',
            '{"id":9,"kind":"square","rows":1,"cols":2,"couplings":[1.5]}',
            '{"id":9,"kind":"square","rows":1,"cols":2,"couplings":[true]}',
            '{"id":9,"kind":"square","rows":1,"cols":2,"couplings":[5,5]}',
            '{"id":9,"kind":[1],"rows":1}',
            '{"id":9,"kind":"general","n":2,"bonds":[[0,1]],"rotation":[[0],[1]]}',
            "[" * 100000,
        ]
        lines = [line for one in bad for line in (good % 1, one)]
        found = program("lines", "energy", input="\n".join(lines))
        answers = [json.loads(line) for line in found.stdout.splitlines()]
        self.assertEqual(found.returncode, 1)
        self.assertEqual([answer.get("energy") for answer in answers], [-5, None] * len(bad))
        for place, answer in enumerate(answers):
            if "energy" not in answer:
                self.assertEqual(answer["line"], place + 1)
                self.assertTrue(answer["refused"] and answer["sentence"], answer)


if __name__ == "__main__":
    unittest.main()
