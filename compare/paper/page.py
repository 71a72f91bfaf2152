"""docs/paper/algorithm.md written out, its section on the release page. pseudocode.py has the call."""


def spaces(n):
    return b" " * n


def name_field(x, w):
    k = len(x)
    if k > w:
        k = w
        while 0x80 <= x[k] <= 0xBF:
            k -= 1
    return x[:k] + spaces(w - k)


def number_field(n, w):
    d = b"%d" % n
    return spaces(w - len(d)) + d


def used_steps(done):
    marked = {done.results[n] for n in done.goals}
    for i in range(len(done.steps) - 1, -1, -1):
        if i in marked:
            marked.update(done.steps[i].refs)
    return marked


def last_line(done):
    p = (200 * len(used_steps(done)) + len(done.steps)) // (2 * len(done.steps))
    return b"used " + number_field(p, 3) + b"%" + spaces(55) + b"\n"


def page(done):
    text = b""
    for n in done.goals:
        i = done.results[n]
        text += name_field(n, 32) + b" " + number_field(i, 8) + b" " + name_field(done.steps[i].rule, 22) + b"\n"
    return text + last_line(done)
