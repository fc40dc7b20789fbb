"""For checks and studies that need a proved program and build none:

    tools/fresh_program NAME            prints the path of the proved program of these sources. Where there is none, it prints
                                        nothing, standard error says why, and the status is 1
    tools/fresh_program --digest NAME   prints the digest of the program's sources and the kit's line, built or not
"""
import sys

import checkout
import freshness
import kit


def main(words: list[str]) -> int:
    wants_digest = words[:1] == ["--digest"]
    names = words[1:] if wants_digest else words
    if len(names) != 1 or names[0] not in checkout.PROGRAMS:
        print(f"{__doc__}\nNAME is one of {', '.join(checkout.PROGRAMS)}.", file=sys.stderr)
        return 2
    if wants_digest:
        print(freshness.digest_of_sources(checkout.ROOT, names[0]), kit.identity() or "no kit")
        return 0
    stale = freshness.why_stale(checkout.ROOT, names[0])
    if stale is not None:
        print(f"fresh_program: {names[0]}: {stale}", file=sys.stderr)
        return 1
    print(checkout.program_path(checkout.ROOT, names[0]))
    return 0
