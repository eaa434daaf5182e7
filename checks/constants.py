#!/usr/bin/env python3
"""Constant expressions, by the clauses of IEEE 1800-2017 and not by the program.

    checks/constants.py              compares the cases of constants in crates/nt_show/stdout
    checks/constants.py SEED COUNT   prints so many other lines for it, at random

A line is told in crates/nt_show/src/constants.rt: the leaf that the value goes to, an expression in prefix form, and what
it gives.
"""

import functools
import os
import random
import sys

CASES = os.path.join(os.path.dirname(os.path.abspath(__file__)), "../crates/nt_show/stdout")
UNARY = {"pos", "neg", "~", "!", "r&", "r~&", "r|", "r~|", "r^", "r~^"}
ARITHMETIC = {"+", "-", "*", "/", "%", "&", "|", "^", "~^"}
SHIFTS = {"<<", ">>", ">>>"}
COMPARISONS = {"<", "<=", ">", ">=", "==", "!=", "===", "!=="}
LOGICAL = {"&&", "||"}
BINARY = ARITHMETIC | SHIFTS | COMPARISONS | LOGICAL


def leaf_of(text):
    """Width, sign, and whether there are four states."""
    width, states = text[1:].split("t")
    return int(width), text[0] == "s", states == "4"


def digits_of(width, text):
    """The digits of a value, the most significant first."""
    if text[0] == "b":
        text = text[1:]
        above = text[0] if text[0] in "xz" else "0"
        return (above * width + text)[-width:]
    return format(int(text) % 2**width, "0%db" % width)


def cases_of(sort):
    """The cases of one sort, each with what it gives."""
    with open(CASES) as lines:
        return [line.rstrip("\n").removeprefix(sort + " ").split(" => ") for line in lines if line.startswith(sort + " ")]


KNOWN = {}
for case, _ in cases_of("name"):
    name, leaf, value = case.split(" ")
    KNOWN[name] = (leaf_of(leaf), digits_of(leaf_of(leaf)[0], value))


class Tree:
    def __init__(self, kind, at, *of, **more):
        self.kind, self.at, self.of = kind, at, list(of)
        self.__dict__.update(more)


def literal(word, at):
    if word.isdigit():
        return Tree("literal", at, leaf=(32, True, True), digits=digits_of(32, word), sized=False, fill=False)
    size, rest = word.split("'")
    if size == "" and rest in ("0", "1", "x", "z"):
        return Tree("literal", at, leaf=(1, False, True), digits=rest, sized=False, fill=True)
    signed = rest[0] == "s"
    rest = rest.removeprefix("s")
    width = int(size or 32)
    digits = digits_of(width, rest if rest[0] == "b" else rest[1:])
    return Tree("literal", at, leaf=(width, signed, True), digits=digits, sized=size != "", fill=False)


def parse(words, i=0):
    """A tree, and the number of the word after it."""

    def some(i, count):
        of = []
        for _ in range(count):
            one, i = parse(words, i)
            of.append(one)
        return of, i

    def rest(i):
        of = []
        while words[i] != "}":
            one, i = parse(words, i)
            of.append(one)
        return of, i + 1

    word, at = words[i], i
    if word in UNARY or word in ("signed", "unsigned"):
        of, i = some(i + 1, 1)
        return Tree("unary" if word in UNARY else "sign", at, *of, op=word), i
    counts = {"?": 3, "[]": 2, "[:]": 3, "[+:]": 3, "[-:]": 3, ".m": 1, ".size": 1}
    if word in BINARY or word in counts:
        of, i = some(i + 1, counts.get(word, 2))
        kind = "binary" if word in BINARY else "never" if word in (".m", ".size") else word
        return Tree(kind, of[0].at, *of, op=word), i
    if word in ("{", "rep"):
        of, i = rest(i + 1)
        return Tree(word, at, *of), i
    if word in ("call", "pattern"):
        _, i = rest(i + 1)
        return Tree("never", at), i
    if word == "time":
        return Tree("never", at), i + 1
    if word[0].isdigit() or "'" in word:
        return literal(word, at), i + 1
    return Tree("name", at, name=word), i + 1


def is_known(digits):
    return all(d in "01" for d in digits)


def number(digits, signed):
    value = int(digits, 2)
    return value - 2 ** len(digits) if signed and digits[0] == "1" else value


def extended(digits, signed, width):
    """11.8.2: the context's sign first, then its width."""
    if width <= len(digits):
        return digits[-width:]
    return (digits[0] if signed else "0") * (width - len(digits)) + digits


def in_states(digits, four):
    return digits if four else "".join(d if d in "01" else "0" for d in digits)


def and_of(a, b):
    return "0" if "0" in (a, b) else "1" if a == b == "1" else "x"


def or_of(a, b):
    return "1" if "1" in (a, b) else "0" if a == b == "0" else "x"


def xor_of(a, b):
    return str(int(a != b)) if is_known(a + b) else "x"


def not_of(a):
    return {"0": "1", "1": "0"}.get(a, "x")


def truth(digits):
    return "1" if "1" in digits else "0" if is_known(digits) else "x"


def once(function):
    """Keeps the answer with the tree, so that counts in counts take linear time."""

    def kept(tree):
        if not hasattr(tree, function.__name__ + "_kept"):
            setattr(tree, function.__name__ + "_kept", function(tree))
        return getattr(tree, function.__name__ + "_kept")

    return kept


@once
def alone(tree):
    """The leaf of an expression by itself (11.6.1, 11.8.1)."""
    kind, of = tree.kind, tree.of
    if kind == "literal":
        return tree.leaf
    if kind == "name":
        return KNOWN[tree.name][0]
    if kind == "[]":
        return 1, False, alone(of[0])[2]
    if kind == "[:]":
        return own_number(of[1]) - own_number(of[2]) + 1, False, alone(of[0])[2]
    if kind in ("[+:]", "[-:]"):
        return own_number(of[2]), False, alone(of[0])[2]
    if kind == "unary":
        leaf = alone(of[0])
        return leaf if tree.op in ("pos", "neg", "~") else (1, False, leaf[2])
    if kind == "sign":
        width, _, four = alone(of[0])
        return width, tree.op == "signed", four
    if kind in ("{", "rep"):
        parts = of if kind == "{" else of[1:]
        width = sum(alone(part)[0] for part in parts)
        times = 1 if kind == "{" else own_number(of[0])
        return width * times, False, any(alone(part)[2] for part in parts)
    leaves = [alone(one) for one in of]
    four = any(leaf[2] for leaf in leaves)
    if kind == "?":
        leaves = leaves[1:]
    elif tree.op in SHIFTS:
        return leaves[0][0], leaves[0][1], four
    elif tree.op in COMPARISONS | LOGICAL:
        return 1, False, four
    elif tree.op in ("/", "%"):
        four = True
    return max(leaf[0] for leaf in leaves), all(leaf[1] for leaf in leaves), four


@once
def own(tree):
    """The digits of an expression by itself."""
    width, signed, four = alone(tree)
    return in_states(within(tree, width, signed), four)


def own_number(tree):
    return number(own(tree), alone(tree)[1])


def select(tree, width):
    """11.5.1: what lies outside is x, or 0 in two states."""
    of = tree.of
    digits, start = own(of[0])[::-1], of[2] if tree.kind == "[:]" else of[1]
    outside = "x" if alone(of[0])[2] else "0"
    if not is_known(own(start)):
        return outside * width
    low = own_number(start) - (width - 1 if tree.kind == "[-:]" else 0)
    return "".join(digits[i] if 0 <= i < len(digits) else outside for i in range(low + width - 1, low - 1, -1))


def compared(tree):
    """Width and sign from the two operands alone (11.6.1)."""
    leaves = [alone(one) for one in tree.of]
    width, signed = max(leaf[0] for leaf in leaves), all(leaf[1] for leaf in leaves)
    a, b = [within(one, width, signed) for one in tree.of]
    return compared_digits(tree.op, a, b, signed)


def compared_digits(op, a, b, signed):
    """What a comparison of two operands of one width gives, as one digit (11.4.4 to 11.4.6)."""
    if op in ("===", "!=="):
        return str(int((a == b) == (op == "===")))
    if op in ("==", "!="):
        unlike = [xor_of(x, y) for x, y in zip(a, b)]
        equal = "0" if "1" in unlike else "x" if "x" in unlike else "1"
        return equal if op == "==" else not_of(equal)
    if not is_known(a + b):
        return "x"
    x, y = number(a, signed), number(b, signed)
    return str(int({"<": x < y, "<=": x <= y, ">": x > y, ">=": x >= y}[op]))


def reduced(op, digits):
    function = {"&": and_of, "|": or_of, "^": xor_of}[op[-1]]
    digit = functools.reduce(function, digits, "1" if op[-1] == "&" else "0")
    return not_of(digit) if "~" in op else digit


def calculated(op, a, b, width, signed):
    if not is_known(a + b):
        return "x" * width
    x, y = number(a, signed), number(b, signed)
    if op in "+-*":
        return digits_of(width, str({"+": x + y, "-": x - y, "*": x * y}[op]))
    if y == 0:
        return "x" * width
    quotient = abs(x) // abs(y) * (1 if (x < 0) == (y < 0) else -1)
    return digits_of(width, str(quotient if op == "/" else x - quotient * y))


def within(tree, width, signed):
    """The digits of an expression in a context."""
    kind, of = tree.kind, tree.of
    if kind == "literal":
        digits = tree.digits
        if tree.fill:
            return digits * width
        if not tree.sized and not tree.leaf[1] and digits[0] in "xz":
            return extended(digits, True, width)
        return extended(digits, signed, width)
    if kind == "name":
        return extended(KNOWN[tree.name][1], signed, width)
    if kind in ("[]", "[:]", "[+:]", "[-:]"):
        return extended(select(tree, alone(tree)[0]), signed, width)
    if kind == "sign":
        return extended(own(of[0]), signed, width)
    if kind == "{":
        return extended("".join(map(own, of)), signed, width)
    if kind == "rep":
        return extended("".join(map(own, of[1:])) * own_number(of[0]), signed, width)
    if kind == "?":
        test, a, b = truth(own(of[0])), within(of[1], width, signed), within(of[2], width, signed)
        if test != "x":
            return a if test == "1" else b
        return "".join(x if x == y and x in "01" else "x" for x, y in zip(a, b))
    op = tree.op
    if kind == "unary":
        if op == "~":
            return "".join(map(not_of, within(of[0], width, signed)))
        if op in ("pos", "neg"):
            return calculated("+" if op == "pos" else "-", "0" * width, within(of[0], width, signed), width, signed)
        return extended(not_of(truth(own(of[0]))) if op == "!" else reduced(op, own(of[0])), signed, width)
    if op in COMPARISONS:
        return extended(compared(tree), signed, width)
    if op in LOGICAL:
        function = and_of if op == "&&" else or_of
        return extended(function(truth(own(of[0])), truth(own(of[1]))), signed, width)
    a = within(of[0], width, signed)
    if op in SHIFTS:
        amount = own(of[1])
        if not is_known(amount):
            return "x" * width
        amount = min(int(amount, 2), width)
        if op == "<<":
            return (a + "0" * amount)[amount:]
        return ((a[0] if op == ">>>" and signed else "0") * amount + a)[:width]
    b = within(of[1], width, signed)
    if op in ("&", "|", "^", "~^"):
        function = {"&": and_of, "|": or_of, "^": xor_of, "~^": lambda x, y: not_of(xor_of(x, y))}[op]
        return "".join(function(x, y) for x, y in zip(a, b))
    return calculated(op, a, b, width, signed)


def hides(tree):
    return tree.kind == "never" or any(hides(one) for one in tree.of)


def faults(tree):
    """Each fault as its place and rule. What rests on a faulty operand is none."""
    if tree.kind == "name" and tree.name not in KNOWN:
        return [(tree.at, 4)]
    counts = {"[:]": (1, 2), "rep": (0,)}.get(tree.kind, ())
    widths = {"[+:]": (2,), "[-:]": (2,)}.get(tree.kind, ())
    found = []
    for i, one in enumerate(tree.of):
        inside = faults(one)
        if not inside and i in counts + widths and not is_known(own(one)):
            inside = [(one.at, 3)]
        elif not inside and i in counts and not 0 <= own_number(one) < 2**32:
            inside = [(one.at, 3)]
        found += inside
    if not found and tree.kind in ("{", "rep", "[:]", "[+:]", "[-:]") and not 1 <= alone(tree)[0] <= 64:
        found = [(tree.at, 2)]
    return found


def said_leaf(leaf):
    return "%s%dt%s" % ("s" if leaf[1] else "u", leaf[0], "4" if leaf[2] else "2")


def said(leaf, digits):
    value = str(number(digits, leaf[1])) if is_known(digits) else "%d'b%s" % (leaf[0], digits)
    return "%s %s" % (said_leaf(leaf), value)


def answer(to, case):
    words = case.split(" ")
    tree, end = parse(words)
    assert end == len(words), case
    if hides(tree):
        return "T1 %d, T1 %d" % (tree.at, tree.at)
    found = faults(tree)
    if found:
        return "T%d %d, T%d %d" % (min(found)[::-1] * 2)
    leaf = alone(tree)
    target = leaf if to == "none" else leaf_of(to)
    digits = within(tree, max(leaf[0], target[0]), leaf[1])
    return "%s, %s" % (said_leaf(leaf), said(target, in_states(digits[-target[0] :], target[2])))


LITERALS = (
    "0 1 2 3 7 8'd200 4'b10x0 4'sb1000 8'sb10000000 'bx 'bz 'sbx '1 '0 'x 'z 1'b1 1'bx 3'd5 16'd1234 40'd5 4'sb0111 'bx1"
).split(" ")


def made(depth):
    def inner():
        return made(depth - 1)

    if depth == 0 or random.random() < 0.15:
        return random.choice(LITERALS + list(KNOWN) * 2 + ["q"])
    return random.choice(
        [lambda: "%s %s %s" % (random.choice(sorted(BINARY)), inner(), inner())] * 9
        + [lambda: "%s %s" % (random.choice(sorted(UNARY)), inner())] * 3
        + [lambda: "? %s %s %s" % (inner(), inner(), inner())] * 2
        + [lambda: "{ %s %s }" % (inner(), inner()), lambda: "{ %s }" % inner()]
        + [lambda: "rep %s %s }" % (random.choice(["1", "2", "3", inner()]), inner())]
        + [lambda: "%s %s" % (random.choice(["signed", "unsigned"]), inner()), lambda: "[] %s %s" % (inner(), inner())]
        + [lambda: "[:] %s %s %s" % (inner(), random.choice(["7", "9", inner()]), random.choice(["0", "3", inner()]))]
        + [lambda: "%s %s %s %s" % (random.choice(["[+:]", "[-:]"]), inner(), inner(), random.choice(["1", "4", inner()]))]
        + ([lambda: "time"] if random.random() < 0.1 else [])
    )()


def main():
    sys.setrecursionlimit(10000)
    if len(sys.argv) == 1:
        cases = cases_of("constant")
        wrong = 0
        for line, told in cases:
            to, case = line.split(" ", 1)
            if answer(to, case) != told:
                wrong += 1
                print("%s => %s: by the clauses %s" % (line, told, answer(to, case)))
        print("%d cases, %d differ" % (len(cases), wrong))
        sys.exit(wrong != 0)
    random.seed(int(sys.argv[1]))
    lines = set()
    while len(lines) < int(sys.argv[2]):
        case = made(random.randint(1, 6))
        to = random.choice(["none"] * 3 + ["u8t4", "s16t4", "u64t4", "u3t2", "s40t2", "u1t4", "s32t2"])
        # some replications are too long to be written out
        if len(case) < 400:
            try:
                lines.add("constant %s %s => %s" % (to, case, answer(to, case)))
            except (OverflowError, MemoryError):
                pass
    print("\n".join(sorted(lines)))


if __name__ == "__main__":
    main()
