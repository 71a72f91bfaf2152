"""The release page from sections 22 and 23 of the paper, by other means than algorithm.md: used steps as the least set, names cut by characters, the percentage
as a fraction. Releases are read by pseudocode.py. As a program it is one that compare/paper/against can try.
"""
import fractions
import math
import sys

sys.dont_write_bytecode = True
import pseudocode


def least_set(done):
    """Grown from the results' steps until the references of what is in it add nothing."""
    used, more = set(), set(done.results.values())
    while more:
        used |= more
        more = {r for n in used for r in done.steps[n].refs} - used
    return used


def cut(name, width):
    shown = b""
    for character in name.decode("utf-8"):
        if len(shown + character.encode("utf-8")) > width:
            break
        shown += character.encode("utf-8")
    return shown.ljust(width)


def page(done):
    lines = []
    for name in done.goals:
        step = done.results[name]
        lines.append(b"%s %8d %s\n" % (cut(name, 32), step, cut(done.steps[step].rule, 22)))
    share = fractions.Fraction(100 * len(least_set(done)), len(done.steps))
    last = b"used %3d%%" % math.floor(share + fractions.Fraction(1, 2))
    return b"".join(lines) + last.ljust(64) + b"\n"


pseudocode.page = page
if __name__ == "__main__":
    pseudocode.main()
