"""Points on a Dask scheduler of this machine, with stand-ins for the programs."""
import importlib.util
import json
import os
import signal
import subprocess
import sys
import tempfile
import time
import unittest
from pathlib import Path

from ..refusal import Refusal
from ..remote import distributed, refuse_unsafe
from ..try_words import Address
from .base import DIGEST, ROOT, StudyTest, stand_ins_in, without_note

IDLE = ("--measure", "idle = summary : idle")
HAS_DASK = importlib.util.find_spec("distributed") is not None
OF_THIS_MACHINE = ("--host", "127.0.0.1", "--dashboard-address", "127.0.0.1:0")


class Addresses(unittest.TestCase):
    def test_refused(self) -> None:
        for address, reason in (
                (Address("127.0.0.1:8786"), "wanted is tcp://"), (Address("tcp://127.0.0.1"), "wanted is tcp://"),
                (Address("http://127.0.0.1:80"), "wanted is tcp://"), (Address("tcp://127.0.0.1:port"), "wanted is tcp://"),
                (Address("tcp://192.0.2.1:8786"), "another machine"), (Address("tcp://0.0.0.0:8786"), "another machine"),
                (Address("tls://127.0.0.1:8786"), "--tls-ca-file is missing"),
                (Address("tls://127.0.0.1:8786", "/dev/null", "/dev/null"), "--tls-key is missing"),
                (Address("tls://127.0.0.1:8786", "/dev/null", "/absent", "/dev/null"), "--tls-cert: /absent can't be read"),
                (Address("tcp://127.0.0.1:8786", ca_file="ca.pem"), "begins with tls://")):
            with self.subTest(address), self.assertRaisesRegex(Refusal, reason):
                refuse_unsafe(address)

    def test_taken(self) -> None:
        for address in (
                Address("tcp://127.0.0.1:8786"), Address("tcp://[::1]:8786"),
                Address("tls://192.0.2.1:8786", "/dev/null", "/dev/null", "/dev/null"),
                Address("tcp://192.0.2.1:8786", is_insecure=True)):
            with self.subTest(address):
                refuse_unsafe(address)


class WithoutDask(StudyTest):
    def test_the_package_is_named(self) -> None:
        (self.folder / "distributed.py").write_text("raise ImportError\n")
        self.environment["PYTHONPATH"] = str(self.folder)
        child = self.start("apstry", self.scenario, *IDLE, "--scheduler", "tcp://127.0.0.1:1")
        out, err = child.communicate(timeout=60)
        self.assertEqual((child.returncode, out), (2, ""))
        self.assertIn("python3-distributed", err)


@unittest.skipUnless(HAS_DASK, "Debian's package python3-distributed is missing")
class OnDask(StudyTest):
    """Three workers, one of which is killed."""

    @classmethod
    def setUpClass(cls) -> None:
        folder = tempfile.TemporaryDirectory()
        cls.addClassCleanup(folder.cleanup)
        cls.place = Path(folder.name)
        cls.file = cls.place / "scheduler.json"
        programs = stand_ins_in(cls.place / "programs", DIGEST)
        cls.inherited = {**os.environ, "PYTHONPATH": str(ROOT / "tools"), "APS_STUDY_PROGRAMS": str(programs)}
        cls.begin("scheduler", "--port", "0", "--scheduler-file", str(cls.file))
        cls.workers = [cls.begin("worker", *cls.words_of_worker()) for _ in range(3)]
        cls.address = cls.known_address()
        with distributed().Client(cls.address, set_as_default=False) as client:
            client.wait_for_workers(3, timeout=60)

    @classmethod
    def words_of_worker(cls) -> tuple[str, ...]:
        return "--scheduler-file", str(cls.file), "--nthreads", "1", "--no-nanny", "--local-directory", str(cls.place)

    @classmethod
    def begin(cls, part: str, *words: str) -> subprocess.Popen[bytes]:
        child = subprocess.Popen(
            [sys.executable, "-m", f"distributed.cli.dask_{part}", *OF_THIS_MACHINE, *words], env=cls.inherited,
            cwd=cls.place, stdout=subprocess.DEVNULL, stderr=subprocess.DEVNULL)
        cls.addClassCleanup(child.wait)
        cls.addClassCleanup(child.kill)
        return child

    @classmethod
    def known_address(cls) -> str:
        while not cls.file.exists() or not cls.file.read_text().endswith("}"):
            time.sleep(0.05)
        return json.loads(cls.file.read_text())["address"]

    def test_1_another_digest_is_refused_with_both(self) -> None:
        (self.programs / "apsim.digest").write_text("another-digest\n")
        status, out, err = self.ended("apstry", self.scenario, *IDLE, "--scheduler", self.address)
        self.assertEqual((status, out), (2, "idle\tstate\n"))
        self.assertIn(f"apstry: a worker's apsim has the digest {DIGEST}; that of this checkout is another-digest\n", err)

    def test_2_the_least_value(self) -> None:
        words = ("--vary", "window=80..95:1", *IDLE, "--require", "idle >= 87", "--least", "window")
        status, out, _ = self.ended("apstry", self.scenario, *words, "--scheduler", self.address)
        self.assertEqual((status, out.splitlines()[1].split("\t")[0]), (0, "87"))

    def test_3_the_same_table_with_a_worker_killed(self) -> None:
        words = ("--vary", "window=31..70:1", *IDLE)
        _, expected, _ = self.ended("apstry", self.scenario, *words)
        child = self.start("apstry", self.scenario, *words, "--scheduler", self.address)
        lines = [child.stdout.readline() for _ in range(6)]
        self.workers[1].send_signal(signal.SIGKILL)
        table = "".join([*lines, *child.stdout])
        err = child.stderr.read()
        self.assertEqual((child.wait(60), without_note(err), table), (0, "", expected))
        child.stdout.close()
        child.stderr.close()

    def test_2_the_least_value(self) -> None:
        words = ("--vary", "window=1..60:1", *IDLE, "--require", "idle >= 33", "--least", "window")
        child = self.start("apstry", self.scenario, *words, "--scheduler", self.address)
        out, _ = child.communicate(timeout=60)
        self.assertEqual((child.returncode, out.splitlines()[1].split("\t")[0]), (0, "33"))
