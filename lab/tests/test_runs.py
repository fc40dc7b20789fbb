"""Children within their limits, seats, what is kept, and the programs' answers over the wire."""
from __future__ import annotations

import json
import os
import select
import socket
import tempfile
import time
import unittest
from pathlib import Path
from threading import Event, Thread
from typing import Callable
from unittest.mock import patch

from lab.server import child
from lab.server.child import Limits
from lab.server.kept import Answer, Kept
from lab.server.programs import Program, Programs, in_folder, of_checkout
from lab.server.reports import split
from lab.tests.client import STAND_IN, Lab, programs_in

MIB = 1 << 20


def state_and_parent(pid: int) -> tuple[str, int]:
    """A process's state and its parent; of one that is gone, the state of one that isn't reaped yet and no parent.

    A process may go between any two looks, also between the opening and the reading of its file.
    """
    try:
        words = Path(f"/proc/{pid}/stat").read_text().rsplit(")", 1)[1].split()
    except OSError:
        return "Z", 0
    return words[0], int(words[1])


def alive(pid: int) -> bool:
    """Whether a process still runs. One that is ended and not reaped doesn't."""
    return state_and_parent(pid)[0] != "Z"


class LimitsOfChildren(unittest.TestCase):
    def setUp(self) -> None:
        self.room = tempfile.TemporaryDirectory()
        self.folder = programs_in(Path(self.room.name))

    def tearDown(self) -> None:
        self.room.cleanup()

    def run_it(self, text: str, limits: Limits = Limits(seconds=5), gone: Event | None = None) -> child.Ended:
        return child.run([str(self.folder / "apsim"), "solo"], text.encode(), limits, gone or Event())

    def test_itself(self) -> None:
        done = self.run_it("version = 1\n")
        self.assertEqual((done.status, done.ended), (0, ""))
        self.assertTrue(done.out.startswith(b"aps summary 1\n"))

    def test_status_and_hint(self) -> None:
        done = self.run_it("#! refuse\n")
        self.assertEqual(done.status, 2)
        self.assertEqual(done.out, b"aps: scenario refused: out-of-range window\n")
        self.assertTrue(done.err.startswith(b"window: 7 is out of range"))

    def test_time(self) -> None:
        begun = time.monotonic()
        self.assertEqual(self.run_it("#! sleep\n", Limits(seconds=0.4)).ended, "late")
        self.assertLess(time.monotonic() - begun, 10)

    def test_output(self) -> None:
        done = self.run_it("#! flood\n", Limits(seconds=10, output=MIB))
        self.assertEqual(done.ended, "long")
        self.assertLess(len(done.out), 2 * MIB)

    def test_memory(self) -> None:
        self.assertEqual(self.run_it("#! memory\n").out, b"refused\n")

    def test_files(self) -> None:
        path = self.folder / "made"
        done = self.run_it(f"#! file {path}\n")
        self.assertNotEqual(done.out, b"written\n")
        self.assertFalse(path.exists() and path.read_text())

    def test_core(self) -> None:
        self.assertEqual(self.run_it("#! core\n").out, b"0\n")

    def test_group(self) -> None:
        """What a child leaves behind in its group ends with it."""
        left = int(self.run_it("#! group\n").out)
        self.assertTrue(within(10, lambda: not alive(left)))

    def test_gone(self) -> None:
        gone = Event()
        Thread(target=lambda: (time.sleep(0.3), gone.set())).start()
        begun = time.monotonic()
        self.assertEqual(self.run_it("#! sleep\n", Limits(seconds=25), gone).ended, "gone")
        self.assertLess(time.monotonic() - begun, 10)

    def test_absent(self) -> None:
        self.assertEqual(child.run(["/nothing"], b"", Limits(), Event()).ended, "absent")

    def test_input_that_nobody_reads(self) -> None:
        self.assertEqual(child.run(["/bin/true"], b"x" * MIB, Limits(), Event()).status, 0)


class KeptAnswers(unittest.TestCase):
    def test_key(self) -> None:
        """Program, words and text are told apart, however they are cut."""
        keys = {Kept.key(*it) for it in (("p", ("a", "b"), b""), ("p", ("a",), b"b"), ("p", ("ab",), b""), ("pa", ("b",), b""),
                                         ("p", ("a", "b"), b"x"), ("q", ("a", "b"), b""))}
        self.assertEqual(len(keys), 6)

    def test_size(self) -> None:
        kept = Kept(most=3000)
        for name in (b"1", b"2", b"3"):
            kept.keep(name, Answer(0, "x" * 1000, "", "", 1))
            kept.find(b"1")
        self.assertIsNotNone(kept.find(b"1"))
        self.assertIsNone(kept.find(b"2"))
        kept.keep(b"4", Answer(0, "x" * 4000, "", "", 1))
        self.assertIsNone(kept.find(b"4"))

    def test_stopped_ones_are_not_kept(self) -> None:
        kept = Kept()
        kept.keep(b"1", Answer(0, "", "", "late", 1))
        self.assertIsNone(kept.find(b"1"))


class WhichProgram(unittest.TestCase):
    def setUp(self) -> None:
        self.room = tempfile.TemporaryDirectory()
        self.root = Path(self.room.name)

    def tearDown(self) -> None:
        self.room.cleanup()

    def script(self, name: str, text: str) -> Path:
        path = self.root / name
        path.parent.mkdir(exist_ok=True)
        path.write_text(f"#!/bin/sh\n{text}\n")
        path.chmod(0o755)
        return path

    def test_fresh(self) -> None:
        """The fresh program is called itself; without one the launcher is, by the quick run."""
        proved = self.script("proved", "echo proved")
        self.script("tools/fresh_program", f'[ $1 = --digest ] && echo "d1 $2" && exit; [ -e {self.root}/$1.fresh ] && echo {proved}')
        find = of_checkout(self.root)
        self.assertEqual(find("apsim"), Program("apsim", (str(self.root / "apsim"),), "quick d1 apsim", "quick"))
        (self.root / "apsim.fresh").touch()
        self.assertEqual((find("apsim").how, find("apsim").command), ("proved", (str(proved),)))
        self.assertEqual(find("apsview").how, "quick")

    def test_nothing_to_ask(self) -> None:
        self.assertIsNone(of_checkout(self.root)("apsim"))

    def test_built_anew(self) -> None:
        """A program that is built anew has another digest, so nothing of the old one is shown as its own."""
        proved = self.script("apsim", "echo 1")
        programs = Programs(in_folder(self.root))
        before = programs.current("apsim")
        self.assertEqual(programs.current("apsim"), before)
        proved.write_text("#!/bin/sh\necho 22\n")
        after = programs.current("apsim")
        self.assertNotEqual(after.digest, before.digest)
        proved.unlink()
        self.assertIsNone(programs.current("apsim"))

    def test_knows(self) -> None:
        """A program is asked once for each report."""
        self.script("apsview", "[ $1 = shares ] && exit 2; echo 'aps: words refused'; exit 1")
        programs = Programs(in_folder(self.root))
        with patch("lab.server.programs.child.run", side_effect=child.run) as asked:
            for _ in range(2):
                self.assertEqual([programs.knows("shares"), programs.knows("findings")], [True, False])
            self.assertEqual(asked.call_count, 2)
        self.assertFalse(programs.knows("summary"))

    def test_quick_words(self) -> None:
        """The launcher's lines about a quick run aren't the program's hint; why there is no answer is told."""
        quick = Program("apsim", ("x",), "d", "quick")
        said = "apsim: nothing of this answer is proved, as ..\napsim: ./prove builds ..\nwindow: 7 is out of range\n"
        self.assertEqual(quick.hint(2, said), "window: 7 is out of range\n")
        self.assertEqual(quick.hint(125, said), said)


class OverTheWire(unittest.TestCase):
    def lines(self, lab: Lab, query: str, text: str) -> list[dict[str, object]]:
        got = lab.ask("POST", f"run?{query}", text.encode())
        self.assertEqual(got.status, 200)
        return [json.loads(line) for line in got.body.splitlines()]

    def setUp(self) -> None:
        self.lab = Lab(seconds=4.0)

    def tearDown(self) -> None:
        self.lab.stop()

    def test_lines(self) -> None:
        lines = self.lines(self.lab, "want=threads,shares,summary,latency", "version = 1\n")
        self.assertEqual(lines[0]["report"], "summary")
        self.assertEqual({line["report"] for line in lines}, {"threads", "shares", "summary", "latency"})
        self.assertEqual(set(lines[0]), {"report", "status", "text", "hint", "ms", "ended"})

    def test_refused(self) -> None:
        lines = self.lines(self.lab, "want=summary,shares,latency", "#! refuse\n")
        self.assertEqual([(line["report"], line["status"]) for line in lines], [("summary", 2)])
        self.assertIn("wanted is", lines[0]["hint"])

    def test_late(self) -> None:
        """A report that takes too long doesn't hold up the others."""
        lines = self.lines(self.lab, "want=summary,threads,shares", "#! slow-pictures\n")
        self.assertEqual({line["report"]: line["ended"] for line in lines}, {"summary": "", "shares": "", "threads": "late"})

    def test_unknown_reports_have_no_line(self) -> None:
        self.assertEqual([line["report"] for line in self.lines(self.lab, "want=findings,shares", "")], ["shares"])

    def test_only(self) -> None:
        lines = self.lines(self.lab, "want=cycles&only=a", "")
        self.assertEqual(lines[0]["text"].splitlines()[1:], ["a,0,2,2,0,0,0"])

    def test_bad_queries(self) -> None:
        for path in ("run", "run?want=fly", "run?want=explain", "run?want=summary&x=1", "file", "file?report=fly", "save?x=1"):
            self.assertEqual(self.lab.ask("POST", path).status, 400, path)

    def test_file(self) -> None:
        got = self.lab.ask("POST", "file?report=trace", b"")
        self.assertEqual((got.status, got.body, got.headers["Content-Disposition"]), (200, b"{}\n", 'attachment; filename="trace.json"'))
        self.assertEqual(self.lab.ask("POST", "file?report=shares", b"#! refuse\n").status, 422)

    def test_examples(self) -> None:
        found = json.loads(self.lab.ask("GET", "examples").body)
        self.assertEqual(found["examples"][0]["name"], "cockpit")
        self.assertIn("version = 1", found["examples"][0]["text"])
        self.assertIsNone(found["first"])

    def test_closed_connection_ends_the_run(self) -> None:
        """Who has gone away has no child after a moment, and its seat is free."""
        lab = asked_once(Lab(seconds=30, seats=1))
        try:
            with self.begin(lab, "#! sleep\n"):
                self.assertTrue(within(10, lambda: len(children_of_lab()) == 1))
            begun = time.monotonic()
            self.assertEqual(lab.ask("POST", "run?want=summary", b"").status, 200)
            self.assertLess(time.monotonic() - begun, 10)
            self.assertTrue(within(10, lambda: not children_of_lab()))
        finally:
            lab.stop()

    def test_so_many_at_once(self) -> None:
        """With two seats the third run waits; one that is given up while it waits takes none."""
        lab = asked_once(Lab(seconds=30, seats=2))
        try:
            held = [self.begin(lab, f"#! sleep\n# {i}\n") for i in range(2)]
            self.assertTrue(within(10, lambda: len(children_of_lab()) == 2))
            self.begin(lab, "#! sleep\n# gone\n").close()
            with self.begin(lab, "# third") as third:
                self.assertIn(b"200 OK", third.recv(4096))
                self.assertEqual(select.select([third], [], [], 0.7)[0], [])
                self.assertEqual(len(children_of_lab()), 2)
                held[0].close()
                self.assertIn(b"aps summary 1", third.recv(65_536))
            held[1].close()
        finally:
            lab.stop()

    def begin(self, lab: Lab, text: str) -> socket.socket:
        stream = lab.connect()
        stream.sendall(lab.head("POST", "run?want=summary", {"Content-Length": str(len(text))}) + text.encode())
        return stream


def asked_once(lab: Lab) -> Lab:
    """A lab that knows already what its programs know, so that no child asks for that."""
    lab.ask("GET", "programs")
    return lab


def within(seconds: float, is_so: Callable[[], bool]) -> bool:
    """Whether something becomes so within some time."""
    until = time.monotonic() + seconds
    while time.monotonic() < until:
        if is_so():
            return True
        time.sleep(0.02)
    return False


def children_of_lab() -> list[int]:
    """The stand-ins that run now, by this process's children."""
    found = []
    for pid in [int(entry.name) for entry in Path("/proc").iterdir() if entry.name.isdigit()]:
        state, parent = state_and_parent(pid)
        if state != "Z" and parent == os.getpid():
            found.append(pid)
    return found


class Bundles(unittest.TestCase):
    def test_split(self) -> None:
        """Each text is as long as its line says, whatever is in it."""
        whole = Answer(0, "--- report summary 0 4\nab\n\n--- report shares 6 20\n--- report x 0 1\ny\n\n", "", "", 5)
        found = split(("summary", "shares"), whole)
        self.assertEqual([(name, it.status, it.text) for name, it in found],
                         [("summary", 0, "ab\n\n"), ("shares", 6, "--- report x 0 1\ny\n\n")])

    def test_refused(self) -> None:
        whole = Answer(2, "aps: scenario refused: not-toml -\n", "", "", 5)
        self.assertEqual(split(("summary", "shares"), whole), [("summary", whole), ("shares", whole)])


if __name__ == "__main__":
    unittest.main()
