"""./prove: what it builds, what it says, and how it fails, waits and is stopped."""
import contextlib
import io
import os
import signal
import subprocess
import unittest
from unittest import mock

import support
from support import read, write

import need
import prove


class Proves(support.Case):
    def test_all_and_again(self):
        status, output, errors = self.call("prove")
        self.assertEqual((status, output), (0, ""))
        self.assertIn("4 crates", errors)
        self.assertIn("GB of disk", errors)
        self.assertEqual(errors.splitlines()[-2:], ["prove: apsim is proved: out/apsim", "prove: apsview is proved: out/apsview"])
        self.assertEqual(self.calls("ci"), 1)
        status, _, errors = self.call("prove")
        self.assertEqual((status, len(errors.splitlines()), self.calls("ci")), (0, 2, 1))

    def test_one_program(self):
        self.assertEqual(self.call("prove", "apsim")[0], 0)
        self.assert_proved()
        self.assert_quick("isn't built yet", "apsview")

    def test_anew(self):
        self.build()
        self.assertEqual(self.call("prove", "--anew")[0], 0)
        self.assertIn("ci --anew in", read(self.log))

    def test_only_what_is_stale(self):
        self.build()
        write(f"{self.root}/crates/apsview/src/main.rt", "changed\n")
        _, _, errors = self.call("prove")
        self.assertIn("apsview: the sources changed", errors)
        self.assertNotIn("apsim: the", errors)
        self.assert_proved("apsview")

    def test_works_on_a_copy_without_edits(self):
        self.build()
        self.call("prove", "--anew")
        self.assertIn(f" in {self.rooms}/", read(self.log))
        self.assertEqual(os.listdir(self.rooms), [])
        self.assertFalse(os.path.exists(f"{self.root}/crates/apsim/out"))

    def test_an_edit_meanwhile(self):
        started = self.start("prove", behaviour="slow")
        self.wait_until(lambda: "ci" in read(self.log))
        write(f"{self.root}/crates/lower/src/lib.rt", "changed\n")
        started.communicate(timeout=support.LONGEST_WAIT)
        self.assertEqual(started.returncode, 0)
        self.assert_quick("the sources changed")

    def test_launchers_answer_meanwhile(self):
        self.build()
        write(f"{self.root}/crates/apsview/src/main.rt", "changed\n")
        started = self.start("prove", behaviour="waits")
        self.wait_until(lambda: "waits" in read(self.log))
        self.assert_proved()
        self.assert_quick("the sources changed", "apsview")
        started.send_signal(signal.SIGTERM)
        started.communicate(timeout=support.LONGEST_WAIT)

    def test_progress(self):
        _, _, errors = self.call("prove", behaviour="slow")
        self.assertRegex(errors, r"2 of 4 crates proved; at work on apsim, apsview; \d+ s, about .* to go")


class Fails(support.Case):
    def test_not_proved(self):
        self.build()
        write(f"{self.root}/crates/upper/src/lib.rt", "changed\n")
        status, output, errors = self.call("prove", behaviour="not proved")
        self.assertEqual((status, output), (1, ""))
        self.assertIn("src/lib.rt:1:1: error: it isn't so", errors)
        self.assertIn("not proved", errors.splitlines()[-1])
        self.assert_quick("the sources changed")

    def test_interrupted_and_gone_on(self):
        for number in (signal.SIGINT, signal.SIGTERM):
            with self.subTest(number):
                write(self.log, "")
                started = self.start("prove", behaviour="waits")
                self.wait_until(lambda: "waits" in read(self.log))
                started.send_signal(number)
                _, errors = started.communicate(timeout=support.LONGEST_WAIT)
                self.assertEqual(started.returncode, 128 + number)
                self.assertIn(b"stopped; the next ./prove goes on", errors)
                self.assertIn("signal 15", read(self.log))
                self.assertEqual(os.listdir(self.rooms), [])
                self.assert_quick("isn't built yet")
        self.build()
        self.assert_proved()

    def test_two_at_once(self):
        first = self.start("prove", behaviour="slow")
        self.wait_until(lambda: self.calls("ci") == 1)
        second = self.start("prove", behaviour="slow")
        _, errors = second.communicate(timeout=support.LONGEST_WAIT)
        self.assertIn(b"another ./prove is at work in this checkout; waiting", errors)
        first.communicate(timeout=support.LONGEST_WAIT)
        self.assertEqual((first.returncode, second.returncode, self.calls("ci")), (0, 0, 1))

    def test_a_room_of_a_killed_one(self):
        os.makedirs(f"{self.rooms}/apsim-room-999999999-x/crates")
        self.build()
        self.assertEqual(os.listdir(self.rooms), [])

    def test_no_kit(self):
        status, _, errors = self.call("prove", has_kit=False)
        self.assertEqual(status, 125)
        self.assertIn("rt isn't on the PATH", errors)

    def test_no_disk_left(self):
        with mock.patch.object(need, "PROVING_DISK_MB", 1 << 40), self.assertRaises(prove.Refused) as raised:
            prove.refuse_full_disk()
        self.assertRegex(str(raised.exception), r"has [\d,]+ left")

    def test_proofs_that_are_not_kept(self):
        self.assertNotIn("begins anew", self.call("prove")[2])
        told = io.StringIO()
        with contextlib.redirect_stderr(told), mock.patch.object(need, "KEPT_LEAVES_MB", 1 << 40):
            prove.warn_of_loss(f"{self.top}/rattle-kept")
        self.assertIn("the disk is too full: an interrupted ./prove begins anew", told.getvalue())

    def test_the_disk_fills_meanwhile(self):
        full = OSError(28, "No space left on device")
        told = io.StringIO()
        with mock.patch.object(prove.room, "room_of", side_effect=full), contextlib.redirect_stderr(told):
            with mock.patch.dict(os.environ, self.environment()), mock.patch.object(prove.checkout, "ROOT", self.root):
                status = prove.main([])
        self.assertEqual(status, 125)
        self.assertIn("No space left on device", told.getvalue())

    def test_a_read_only_checkout(self):
        words = [f"{self.root}/prove"]
        if os.geteuid() == 0:
            words = ["setpriv", "--reuid=65534", "--regid=65534", "--clear-groups", *words]
        else:
            os.chmod(self.root, 0o555)
            self.addCleanup(os.chmod, self.root, 0o755)
        ran = subprocess.run(words, env=self.environment(), stdout=subprocess.PIPE, stderr=subprocess.PIPE)
        self.assertEqual((ran.returncode, self.calls("ci")), (125, 0))
        self.assertIn(b"can't be written", ran.stderr)

    def test_no_crates(self):
        os.remove(f"{self.root}/crates.txt")
        self.assertEqual(self.call("prove")[0], 125)

    def test_words(self):
        self.assertEqual(self.call("prove", "--help")[0], 0)
        for words in (["other"], ["--other"], ["--tidy", "apsim"], ["--anew", "--tidy"]):
            self.assertEqual(self.call("prove", *words)[0], 2, words)


class Tidies(support.Case):
    def test_programs_stay(self):
        self.build()
        write(f"{self.root}/crates/upper/out/rlib/large", "0" * 5_000_000)
        write(f"{self.root}/crates/upper/out/incremental/small", "0")
        status, _, errors = self.call("prove", "--tidy")
        self.assertEqual(status, 0)
        self.assertIn("prove: 5 MB removed", errors)
        self.assertEqual(os.listdir(f"{self.root}/crates/upper/out"), [])
        self.assert_proved()

    def test_says_what_the_kit_keeps(self):
        write(f"{self.top}/rattle-kept/proof", "0" * 3_000_000)
        self.assertIn(f"the kit keeps 3 MB of proofs for all checkouts", self.call("prove", "--tidy")[2])
        self.assertTrue(os.path.isfile(f"{self.top}/rattle-kept/proof"))


if __name__ == "__main__":
    unittest.main()
