"""Where points are answered: on the processors of this machine, or elsewhere."""
import threading
from queue import SimpleQueue
from typing import Protocol

from .children import Children, Ended
from .points import Answer, Task, answer
from .programs import Programs

MOST_BYTES_UNDER_WAY = 64 * 1024 * 1024


class Pool(Protocol):
    """Answers points, some at a time, in whatever order they end."""

    most: int

    def submit(self, number: int, text: str) -> None:
        """Begins with a point."""

    def next(self) -> tuple[int, Answer]:
        """Waits for the answer of any point under way."""

    def close(self) -> None:
        """Ends all that is under way."""


def most_under_way(text: str, most: int) -> int:
    """How many points may be under way, so that their texts don't fill the memory."""
    return max(16, min(most, MOST_BYTES_UNDER_WAY // max(1, len(text))))


class LocalPool:
    """Runs children on this machine, as many at a time as there are jobs."""

    def __init__(self, task: Task, programs: Programs, jobs: int) -> None:
        self.task, self.programs, self.most = task, programs, 2 * jobs
        self.children = Children()
        self.waiting: SimpleQueue[tuple[int, str] | None] = SimpleQueue()
        self.ended: SimpleQueue[tuple[int, Answer | BaseException]] = SimpleQueue()
        self.threads = [threading.Thread(target=self.work, daemon=True) for _ in range(jobs)]
        for thread in self.threads:
            thread.start()

    def submit(self, number: int, text: str) -> None:
        self.waiting.put((number, text))

    def work(self) -> None:
        """Answers points until there is none left."""
        for number, text in iter(self.waiting.get, None):
            try:
                self.ended.put((number, answer(text, self.task, self.programs, self.children)))
            except Ended:
                return
            except BaseException as error:
                self.ended.put((number, error))

    def next(self) -> tuple[int, Answer]:
        number, result = self.ended.get()
        if isinstance(result, BaseException):
            raise result
        return number, result

    def close(self) -> None:
        self.children.end_all()
        for thread in self.threads:
            self.waiting.put(None)
        for thread in self.threads:
            thread.join()
