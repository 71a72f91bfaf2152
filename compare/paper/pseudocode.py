"""docs/paper/algorithm.md written out, line by line: the three calls on bytes. It shares nothing with the port, the Rust or the second opinion.

As a program it is one that compare/paper/against can try.
"""
import collections
import sys

sys.dont_write_bytecode = True
from page import page
from reading import LIST, NONE, Reader, Refused, Theory, is_atom, number, questioned, refuse

FOUND, MADE = "FOUND", "MADE"
Step = collections.namedtuple("Step", "judgment rule refs")


class Release:
    """A node is its number in `nodes`, a list of (head, argument numbers); equal nodes have one number (17.1)."""

    def __init__(self, theory, goals, certificate):
        self.th, self.nodes, self.numbers, self.words = theory, [], {}, 0
        self.found, self.made = 0, 0
        self.defs, self.open, self.steps, self.results = {}, {}, [], {}
        self.r = Reader(goals)
        self.read_goals()
        self.goals = list(self.open)
        self.r = Reader(certificate)
        self.read_certificate()

    def keep(self, h, args):
        n = (h, tuple(args))
        if n in self.numbers:
            return FOUND, self.numbers[n]
        if len(self.nodes) + 1 > 2048 or self.words + 1 + len(args) > 8192:
            refuse(28)
        self.numbers[n] = len(self.nodes)
        self.nodes.append(n)
        self.words += 1 + len(args)
        return MADE, self.numbers[n]

    def request(self, h, args):
        met, n = self.keep(h, args)
        if met == FOUND:
            self.found += 1
        else:
            self.made += 1
        return n

    def sort_of(self, n):
        return self.nodes[n][0][2]

    def make(self, h, args):
        if len(args) != len(h[1]) or any(self.sort_of(a) != s for a, s in zip(args, h[1])):
            refuse(15)
        return self.request(h, args)

    def term(self, x, d):
        if x != LIST:
            if questioned(x):
                if x not in self.defs:
                    refuse(12)
                return self.defs[x]
            if x not in self.th.ctors:
                refuse(12)
            return self.make(self.th.ctors[x], [])
        n = self.r.atom_due(d + 1)
        if n not in self.th.ctors:
            refuse(12)
        args = self.arguments(d + 1)
        if args == []:
            refuse(16)
        return self.make(self.th.ctors[n], args)

    def arguments(self, d):
        found = []
        while (m := self.r.member(d)) != NONE:
            found.append(self.term(m, d))
        return found

    def judgment(self, d):
        self.r.list_due(d)
        return self.headed(self.r.atom_due(d + 1), d)

    def headed(self, n, d):
        if n not in self.th.preds:
            refuse(12)
        return self.make(self.th.preds[n], self.arguments(d + 1))

    def read_goals(self):
        while (x := self.r.form()) != NONE:
            if x != LIST:
                refuse(7)
            if self.r.atom_due(1) != b"goal":
                refuse(9)
            n = self.r.atom_due(1)
            if questioned(n):
                refuse(11)
            j = self.judgment(1)
            self.r.closing_due()
            if n in self.open:
                refuse(13)
            self.open[n] = j
        if not self.open:
            refuse(17)

    def read_certificate(self):
        while (x := self.r.form()) != NONE:
            if x != LIST:
                refuse(7)
            w = self.r.atom_due(1)
            if w == b"def":
                self.definition()
            elif w == b"result":
                self.result()
            elif w == b"step":
                self.step()
            else:
                refuse(9)
        if self.open:
            refuse(29)

    def definition(self):
        n = self.r.atom_due(1)
        if not questioned(n) or n == b"?":
            refuse(11)
        t = self.term(self.r.ask(1), 1)
        if n in self.defs:
            refuse(13)
        self.r.closing_due()
        self.defs[n] = t

    def result(self):
        n = self.r.atom_due(1)
        if n not in self.open:
            refuse(12)
        i = number(self.r.ask(1))
        if i >= len(self.steps):
            refuse(24)
        if self.steps[i].judgment != self.open[n]:
            refuse(27)
        self.r.closing_due()
        del self.open[n]
        self.results[n] = i

    def step(self):
        i = number(self.r.ask(1))
        if i != len(self.steps):
            refuse(19)
        r = self.r.atom_due(1)
        if r not in self.th.rules:
            refuse(12)
        variables, premises, conclusion = self.th.rules[r]
        self.r.list_due(1)
        refs = []
        while (m := self.r.member(2)) != NONE:
            refs.append(number(m))
        if len(refs) != len(premises):
            refuse(20)
        binds, stated = {}, NONE
        while (x := self.r.member(1)) != NONE:
            if x != LIST:
                refuse(7)
            n = self.r.atom_due(2)
            if questioned(n):
                if n not in variables:
                    refuse(12)
                t = self.term(self.r.ask(2), 2)
                self.r.closing_due()
                if n in binds or self.sort_of(t) != variables[n]:
                    refuse(21)
                binds[n] = t
            else:
                j = self.headed(n, 1)
                if stated != NONE:
                    refuse(22)
                stated = j
        if stated != NONE and not self.match(conclusion, stated, binds):
            refuse(23)
        for premise, ref in zip(premises, refs):
            if ref >= len(self.steps):
                refuse(24)
            if not self.match(premise, self.steps[ref].judgment, binds):
                refuse(25)
        if stated == NONE:
            stated = self.build(conclusion, binds)
        self.steps.append(Step(stated, r, refs))

    def match(self, p, n, binds):
        if is_atom(p):
            if p not in binds:
                binds[p] = n
                return True
            return binds[p] == n
        head, args = self.nodes[n]
        return p[0] == head and all([self.match(q, a, binds) for q, a in zip(p[1], args)])

    def build(self, p, binds):
        if is_atom(p):
            if p not in binds:
                refuse(26)
            return binds[p]
        return self.request(p[0], [self.build(q, binds) for q in p[1]])


def lengths(areas, texts):
    if any(a < 16384 for a in areas):
        refuse(1)
    if any(len(text) > most for text, most in texts):
        refuse(2)


def rulebook_call(areas, r):
    try:
        lengths(areas, [(r, 8192)])
        t = Theory(Reader(r).read_whole())
        return 0, len(t.sorts), len(t.ctors), len(t.preds), len(t.rules)
    except Refused as e:
        return e.args[0], 0, 0, 0, 0


def release(areas, r, g, c):
    lengths(areas, [(r, 8192), (g, 8192), (c, 32768)])
    return Release(Theory(Reader(r).read_whole()), g, c)


def release_call(areas, r, g, c):
    try:
        done = release(areas, r, g, c)
        return 0, len(done.steps), len(done.goals), len(done.nodes), len(c), done.found + done.made
    except Refused as e:
        return e.args[0], 0, 0, 0, 0, 0


def page_call(areas, r, g, c, buffer):
    try:
        text = page(release(areas, r, g, c))
        if len(text) > len(buffer):
            refuse(31)
        buffer[: len(text)] = text
        return 0, len(text)
    except Refused as e:
        return e.args[0], 0


def answered(call, areas, fields):
    """The answer to a line; of a page also the bytes of the buffer that the length speaks of, in hexadecimal."""
    texts = [b"" if f == "-" else bytes.fromhex(f) for f in fields[call == "page" :]]
    if call != "page":
        return (rulebook_call if call == "rulebook" else release_call)(areas, *texts)
    buffer = bytearray(b"\xa5" * int(fields[0]))
    number, length = page_call(areas, *texts, buffer)
    if len(buffer) != int(fields[0]) or any(b != 0xA5 for b in buffer[length:]):
        sys.exit("a byte behind the text was written")
    return number, length, buffer[:length].hex() or "-"


def main():
    for line in sys.stdin:
        call, *fields = line.split()
        print(*answered(call, list(map(int, fields[:4])), fields[4:]), flush=True)


sys.setrecursionlimit(10000)
if __name__ == "__main__":
    main()
