"""What a worker does with its own programs."""
import contextlib
import io
import os
from unittest import mock

from ..measures import measure_of
from ..points import Answer, Task
from ..refusal import Refusal
from ..worker import answer_on_worker
from .base import DIGEST, SCENARIO, STAND_IN, StudyTest

TASK = Task((measure_of("idle = summary : idle"),), 20)


class Worker(StudyTest):
    def setUp(self) -> None:
        super().setUp()
        patch = mock.patch.dict(os.environ, self.environment)
        patch.start()
        self.addCleanup(patch.stop)

    def answered(self, digest: str) -> Answer | Refusal:
        with contextlib.redirect_stderr(io.StringIO()):
            return answer_on_worker(SCENARIO, TASK, (("apsim", digest),))

    def test_an_answer(self) -> None:
        self.assertEqual(self.answered(DIGEST), Answer("done", ("100",)))

    def test_another_digest_is_refused(self) -> None:
        refusal = self.answered("another")
        self.assertIsInstance(refusal, Refusal)
        self.assertIn(DIGEST, str(refusal))
        self.assertIn("another", str(refusal))

    def test_a_program_that_is_not_there_is_refused(self) -> None:
        (self.programs / "apsim").unlink()
        self.assertIn("a worker can't help", str(self.answered(DIGEST)))

    def test_a_program_that_was_built_again_is_judged_again(self) -> None:
        self.assertIsInstance(self.answered(DIGEST), Answer)
        (self.programs / "apsim").unlink()
        (self.programs / "apsim").write_bytes(STAND_IN.read_bytes())
        (self.programs / "apsim").chmod(0o755)
        (self.programs / "apsim.digest").write_text("another\n")
        self.assertIn("has the digest another", str(self.answered(DIGEST)))
