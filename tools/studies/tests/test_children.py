"""Programs that end, hang, flood, or are ended."""
import os
import subprocess
import threading
import time
import unittest
from unittest import mock

from .. import children
from ..children import Children, Ended, Hung, TooLong

SHELL = "/bin/sh"


def is_alive(process: int) -> bool:
    try:
        with open(f"/proc/{process}/stat") as file:
            return file.read().rpartition(")")[2].split()[0] != "Z"
    except OSError:
        return False


def is_gone(process: int, seconds: float = 5) -> bool:
    """Whether a process ends within some seconds."""
    end = time.monotonic() + seconds
    while is_alive(process) and time.monotonic() < end:
        time.sleep(0.01)
    return not is_alive(process)


class Run(unittest.TestCase):
    def run_shell(self, script: str, data: bytes = b"", seconds: float = 20) -> children.Output:
        return Children().run([SHELL, "-c", script], data, seconds)

    def test_status_and_both_outputs(self) -> None:
        output = self.run_shell("cat; echo hint >&2; exit 7", b"bytes\n")
        self.assertEqual((output.status, output.text, output.hint), (7, b"bytes\n", b"hint\n"))

    def test_a_signal_is_a_negative_status(self) -> None:
        self.assertEqual(self.run_shell("kill -ABRT $$").status, -6)

    def test_a_large_input_and_a_large_output(self) -> None:
        data = b"x" * 3_000_000
        self.assertEqual(self.run_shell("cat", data).text, data)

    def test_a_program_that_reads_nothing(self) -> None:
        self.assertEqual(self.run_shell("exit 3", b"x" * 1_000_000).status, 3)

    def test_a_program_that_hangs_is_killed_with_its_children(self) -> None:
        begun = time.monotonic()
        out = os.path.join("/tmp", f"aps-hung-{os.getpid()}")
        self.addCleanup(os.unlink, out)
        with self.assertRaises(Hung):
            self.run_shell(f"sleep 61 & echo $! > {out}; wait", seconds=0.5)
        self.assertLess(time.monotonic() - begun, 10)
        with open(out) as file:
            self.assertTrue(is_gone(int(file.read())))

    def test_a_program_that_closes_its_outputs_and_goes_on_is_killed(self) -> None:
        with self.assertRaises(Hung):
            self.run_shell("exec >&- 2>&-; sleep 61", seconds=0.5)

    def test_a_program_that_writes_without_end_is_killed(self) -> None:
        with mock.patch.object(children, "MOST_BYTES", 1_000_000), self.assertRaises(TooLong):
            self.run_shell("yes")

    def test_a_busy_program_has_a_limit_of_its_own(self) -> None:
        output = self.run_shell("ulimit -t", seconds=10)
        self.assertIn(output.text, (b"15\n", b"unlimited\n"))
        child = subprocess.Popen(["/bin/sleep", "61"])
        self.addCleanup(child.wait)
        self.addCleanup(child.kill)
        children.limit_processor_time(child.pid, 10)
        with open(f"/proc/{child.pid}/limits") as file:
            line = next(line for line in file if line.startswith("Max cpu time"))
        self.assertEqual(line.split()[3:5], ["15", "15"])


class EndAll(unittest.TestCase):
    def test_all_are_ended_and_no_more_begin(self) -> None:
        family = Children()
        threads = [threading.Thread(target=self.hang, args=(family,)) for _ in range(3)]
        for thread in threads:
            thread.start()
        while len(family.groups) < 3:
            time.sleep(0.01)
        groups = list(family.groups)
        family.end_all()
        for thread in threads:
            thread.join(10)
        self.assertTrue(all(is_gone(group) for group in groups))
        with self.assertRaises(Ended):
            family.run([SHELL, "-c", "true"], b"", 5)

    def hang(self, family: Children) -> None:
        family.run(["/bin/sleep", "61"], b"", 60)
