"""What a Dask worker does: it answers one point with the proved programs of its own checkout."""
import os

from .children import Children
from .points import Answer, Task, answer
from .programs import Programs, programs_of
from .refusal import NotProved, Refusal

Digests = tuple[tuple[str, str], ...]
Stamp = tuple[tuple[int, int, int], ...]

known: dict[Digests, tuple[Programs, Stamp | None]] = {}


def answer_on_worker(text: str, task: Task, digests: Digests) -> Answer | Refusal:
    """The answer of one point, or why the study has to end. The digests are those of the caller's programs."""
    try:
        return answer(text, task, own_programs(digests), Children())
    except Refusal as reason:
        return reason


def own_programs(digests: Digests) -> Programs:
    """The programs of this checkout, which have to be those of the caller. They are judged again once a file changes."""
    if digests in known and known[digests][1] == stamp_of(known[digests][0]):
        return known[digests][0]
    programs = judged(digests)
    known[digests] = (programs, stamp_of(programs))
    return programs


def judged(digests: Digests) -> Programs:
    try:
        programs = programs_of({name for name, _ in digests})
    except NotProved as reason:
        raise Refusal(f"a worker can't help: {reason}") from None
    for name, wanted in digests:
        got = programs[name].digest
        if got != wanted:
            raise Refusal(f"a worker's {name} has the digest {got}; that of this checkout is {wanted}")
    return programs


def stamp_of(programs: Programs) -> Stamp | None:
    """What changes where a program's file is another one."""
    try:
        stats = [os.stat(program.path) for program in programs.values()]
    except OSError:
        return None
    return tuple((stat.st_ino, stat.st_ctime_ns, stat.st_size) for stat in stats)
