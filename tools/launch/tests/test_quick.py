"""The quick run: what reaches the user, which status, and what is said where there is no answer."""
import errno
import os
import signal
import subprocess
import unittest
from unittest import mock

import support
from support import read

import quick
import room
from said import NoAnswer


class Answers(support.Case):
    def test_only_the_programs_own_words(self):
        status, output, errors = self.call("apsim", "solo", "--limit", "7", given=b"abc", behaviour="noted")
        self.assertEqual((status, output), (0, "quick solo --limit 7 3 bytes\n"))
        lines = errors.splitlines()
        self.assertEqual(lines[2:], ["a hint: look at line 3", "checked: a word of the program's own"])
        self.assertIn("nothing of this answer is proved", lines[0])
        self.assertIn("./prove", lines[1])

    def test_the_programs_status(self):
        for status in (0, 1, 2, 3, 6, 7):
            with self.subTest(status):
                self.assertEqual(self.call("apsim", "solo", behaviour=str(status))[0], status)

    def test_input_that_comes_late(self):
        started = self.start("apsim", "solo")
        started.stdin.write(b"12")
        started.stdin.flush()
        started.stdin.write(b"345")
        output, _ = started.communicate(timeout=support.LONGEST_WAIT)
        self.assertEqual(output, b"quick solo 5 bytes\n")

    def test_input_that_begins_late(self):
        started = self.start("apsim", "solo")
        first, second = started.stderr.readline(), started.stderr.readline()
        third = started.stderr.readline()
        self.assertIn(b"waiting for standard input", third, (first, second))
        output, _ = started.communicate(b"12345", timeout=support.LONGEST_WAIT)
        self.assertEqual((started.returncode, output), (0, b"quick solo 5 bytes\n"))

    def test_reads_sources_alone_and_leaves_no_room(self):
        self.call("apsim", "solo")
        asked = read(self.log).split(" in ")[1]
        self.assertTrue(asked.startswith(f"{self.rooms}/{room.PREFIX}"), asked)
        self.assertEqual(os.listdir(self.rooms), [])
        self.assertFalse(os.path.exists(f"{self.root}/out"))

    def test_a_read_only_checkout(self):
        words = [f"{self.root}/apsim", "solo"]
        if os.geteuid() == 0:
            words = ["setpriv", "--reuid=65534", "--regid=65534", "--clear-groups", *words]
        else:
            os.chmod(self.root, 0o555)
            self.addCleanup(os.chmod, self.root, 0o755)
        ran = subprocess.run(words, env=self.environment(), input=b"12345", stdout=subprocess.PIPE, stderr=subprocess.PIPE)
        self.assertEqual((ran.returncode, ran.stdout), (0, b"quick solo 5 bytes\n"))

    def test_output_that_nobody_reads(self):
        read_end, write_end = os.pipe()
        os.close(read_end)
        started = self.start("apsim", "solo", stdout=write_end)
        os.close(write_end)
        started.communicate(b"", timeout=support.LONGEST_WAIT)
        self.assertEqual(started.returncode, -signal.SIGPIPE)

    def test_output_that_cannot_be_written(self):
        with open("/dev/full", "w") as full:
            started = self.start("apsim", "solo", stdout=full)
        _, errors = started.communicate(b"", timeout=support.LONGEST_WAIT)
        self.assertEqual(started.returncode, 125)
        self.assertIn("No space left on device", errors.decode())


class NoAnswers(support.Case):
    def assert_none(self, why: str, **how) -> None:
        status, output, errors = self.call("apsim", "solo", **how)
        self.assertEqual((status, output), (125, ""))
        self.assertIn(why, errors)

    def test_reasons(self):
        reasons = {
            "too much": "past 1 MiB of output",
            "too long": f"had not ended after {quick.SECONDS} seconds",
            "fault": "does not fit its type",
            "refused": "a word is unknown",
            "failed": "the quick run failed",
            "killed": "2 GB of memory",
            "cut": "the quick run failed",
        }
        for behaviour, why in reasons.items():
            with self.subTest(behaviour):
                self.assert_none(why, behaviour=behaviour)

    def test_no_kit(self):
        self.assert_none("rt isn't on the PATH", has_kit=False)

    def test_too_much_input(self):
        self.assert_none("64 MiB of input", given=bytes(64 << 20))
        self.assertEqual(self.calls("try"), 0)

    def test_no_disk_left(self):
        full = OSError(errno.ENOSPC, os.strerror(errno.ENOSPC))
        with mock.patch.object(room.tempfile, "mkdtemp", side_effect=full), self.assertRaises(NoAnswer) as raised:
            with quick.sources(self.root, "apsim"):
                self.fail("there is no room")
        self.assertIn("No space left on device", str(raised.exception))

    def test_a_signal_ends_the_kit_too(self):
        for number in (signal.SIGTERM, signal.SIGINT, signal.SIGHUP):
            with self.subTest(number):
                support.write(self.log, "")
                started = self.start("apsim", "solo", behaviour="waits")
                started.stdin.close()
                started.stdin = None
                self.wait_until(lambda: "waits" in read(self.log))
                started.send_signal(number)
                output, _ = started.communicate(timeout=support.LONGEST_WAIT)
                self.assertEqual((started.returncode, output), (128 + number, b""))
                self.assertIn("signal 15", read(self.log))
                self.assertEqual(os.listdir(self.rooms), [])


if __name__ == "__main__":
    unittest.main()
