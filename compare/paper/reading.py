"""docs/paper/algorithm.md written out, its first half: lines, tokens, items, and the rulebook. pseudocode.py has the rest."""

END, OPEN, CLOSE, ATOM, LIST, NONE = "END", "OPEN", "CLOSE", "ATOM", "LIST", "NONE"
ROWS = [  # 4.2
    ((0x00, 0x7F), [], 0x00),
    ((0xC2, 0xDF), [(0x80, 0xBF)], 0xC0),
    ((0xE0, 0xE0), [(0xA0, 0xBF), (0x80, 0xBF)], 0xE0),
    ((0xE1, 0xEC), [(0x80, 0xBF), (0x80, 0xBF)], 0xE0),
    ((0xED, 0xED), [(0x80, 0x9F), (0x80, 0xBF)], 0xE0),
    ((0xEE, 0xEF), [(0x80, 0xBF), (0x80, 0xBF)], 0xE0),
    ((0xF0, 0xF0), [(0x90, 0xBF), (0x80, 0xBF), (0x80, 0xBF)], 0xF0),
    ((0xF1, 0xF3), [(0x80, 0xBF), (0x80, 0xBF), (0x80, 0xBF)], 0xF0),
    ((0xF4, 0xF4), [(0x80, 0x8F), (0x80, 0xBF), (0x80, 0xBF)], 0xF0),
]
WHITE = [(9, 0xD), (0x20, 0x20), (0x85, 0x85), (0xA0, 0xA0), (0x1680, 0x1680), (0x2000, 0x200A), (0x2028, 0x2029), (0x202F, 0x202F), (0x205F, 0x205F), (0x3000, 0x3000)]


class Refused(Exception):
    pass


def refuse(n):
    raise Refused(n)


def white(v):
    return any(low <= v <= high for low, high in WHITE)


def row_of(b):
    for first, rest, mark in ROWS:
        if first[0] <= b <= first[1]:
            return rest, mark
    return None


def utf8(line):
    p = 0
    while p < len(line):
        row = row_of(line[p])
        if row is None:
            return False
        for low, high in row[0]:
            p += 1
            if p == len(line) or not low <= line[p] <= high:
                return False
        p += 1
    return True


def character(text, p):
    rest, mark = row_of(text[p])
    v = text[p] - mark
    for i in range(len(rest)):
        v = v * 0x40 + text[p + 1 + i] - 0x80
    return v, 1 + len(rest)


class Reader:
    def __init__(self, text):
        self.text, self.at, self.tested = text, 0, 0

    def look(self):
        p = self.at
        while True:
            if p == self.tested:
                if p == len(self.text):
                    return END, p, None
                e = self.line_end(p)
                if not utf8(self.text[p:e]):
                    refuse(3)
                self.tested = e
            v, n = character(self.text, p)
            if white(v):
                p += n
            elif v == 0x3B:
                p = self.line_end(p)
            else:
                break
        if v == 0x28:
            return OPEN, p + 1, None
        if v == 0x29:
            return CLOSE, p + 1, None
        e = p
        while e < len(self.text):
            v, n = character(self.text, e)
            if white(v) or v in (0x28, 0x29, 0x3B):
                break
            e += n
        return ATOM, e, self.text[p:e]

    def line_end(self, p):
        return self.text.find(b"\n", p) + 1 or len(self.text)

    def take(self, t):
        self.at = t[1]

    def ask(self, d):
        if d > 256:
            refuse(4)
        t = self.look()
        if t[0] == END:
            refuse(5)
        if t[0] == CLOSE:
            refuse(6)
        self.take(t)
        return t[2] if t[0] == ATOM else LIST

    def atom_due(self, d):
        x = self.ask(d)
        if x == LIST:
            refuse(7)
        return x

    def list_due(self, d):
        if self.ask(d) != LIST:
            refuse(7)

    def member(self, d):
        t = self.look()
        if t[0] == CLOSE:
            self.take(t)
            return NONE
        return self.ask(d)

    def form(self):
        t = self.look()
        if t[0] == END:
            return NONE
        if t[0] == CLOSE:
            refuse(6)
        return self.ask(0)

    def closing_due(self):
        t = self.look()
        if t[0] == END:
            refuse(5)
        if t[0] != CLOSE:
            refuse(10)
        self.take(t)

    def tree(self, x, d):
        if x != LIST:
            return x
        found = []
        while (m := self.member(d + 1)) != NONE:
            found.append(self.tree(m, d + 1))
        return found

    def read_whole(self):
        found = []
        while (x := self.form()) != NONE:
            found.append(self.tree(x, 0))
        return found


def number(x):
    if x == LIST:
        refuse(7)
    y = x[1:] if x[:1] == b"+" else x
    if not y or any(not 0x30 <= b <= 0x39 for b in y):
        refuse(18)
    n = 0
    for b in y:
        n = n * 10 + b - 0x30
    if n >= 2**64:
        refuse(18)
    return n


def questioned(x):
    return x[:1] == b"?"


def is_atom(x):
    return isinstance(x, bytes)


class Theory:
    """Heads are (name, inputs, output); an output is a sort, or None for a judgment."""

    def __init__(self, trees):
        self.sorts, self.ctors, self.preds, self.rules = set(), {}, {}, {}
        for f in trees:
            self.judge(f)

    def judge(self, f):
        if is_atom(f):
            refuse(7)
        if f == []:
            refuse(8)
        if not is_atom(f[0]):
            refuse(7)
        if (f[0], len(f)) == (b"sort", 2):
            n = self.declared(f[1])
            if n in self.sorts:
                refuse(13)
            self.sorts.add(n)
        elif (f[0], len(f)) == (b"ctor", 4):
            n, ins, out = self.declared(f[1]), self.inputs(f[2]), self.sort(f[3])
            if n in self.ctors:
                refuse(13)
            self.ctors[n] = (n, ins, out)
        elif (f[0], len(f)) == (b"pred", 3):
            n, ins = self.declared(f[1]), self.inputs(f[2])
            if n in self.preds:
                refuse(13)
            self.preds[n] = (n, ins, None)
        elif (f[0], len(f)) == (b"rule", 4):
            variables = {}
            if is_atom(f[2]):
                refuse(7)
            ps = [self.pattern_judgment(j, variables) for j in f[2]]
            c = self.pattern_judgment(f[3], variables)
            n = self.declared(f[1])
            if n in self.rules:
                refuse(13)
            self.rules[n] = (variables, ps, c)
        else:
            refuse(9)

    def declared(self, x):
        if not is_atom(x):
            refuse(7)
        if questioned(x):
            refuse(11)
        return x

    def sort(self, x):
        n = self.declared(x)
        if n not in self.sorts:
            refuse(12)
        return n

    def inputs(self, x):
        if is_atom(x):
            refuse(7)
        return tuple([self.sort(y) for y in x])

    def pattern_judgment(self, x, variables):
        if is_atom(x):
            refuse(7)
        if x == []:
            refuse(8)
        if not is_atom(x[0]):
            refuse(7)
        if x[0] not in self.preds:
            refuse(12)
        h = self.preds[x[0]]
        if len(x) - 1 != len(h[1]):
            refuse(15)
        return h, [self.pattern(y, s, variables) for y, s in zip(x[1:], h[1])]

    def pattern(self, x, s, variables):
        if is_atom(x) and questioned(x):
            if x == b"?":
                refuse(11)
            if x in variables and variables[x] != s:
                refuse(14)
            variables[x] = s
            return x
        if is_atom(x):
            n, k = x, 0
        else:
            if x == []:
                refuse(8)
            if not is_atom(x[0]):
                refuse(7)
            if len(x) == 1:
                refuse(16)
            n, k = x[0], len(x) - 1
        if n not in self.ctors:
            refuse(12)
        h = self.ctors[n]
        if h[2] != s or len(h[1]) != k:
            refuse(15)
        return h, [self.pattern(y, t, variables) for y, t in zip(x[1:] if k else [], h[1])]
