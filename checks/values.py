#!/usr/bin/env python3
"""Values of expressions in an environment, by the clauses of IEEE 1800-2017 and not by the program.

    checks/values.py   compares what the cases in crates/nt_eval_show/stdout give

A line is told in crates/nt_eval_show/README.md: an expression in prefix form, and the value that it has.
"""

import concurrent.futures
import os
import sys
import threading

from constants import and_of, calculated, compared_digits, digits_of, extended, in_states, is_known, leaf_of, not_of, number, or_of, reduced, truth, xor_of

CASES = os.path.join(os.path.dirname(os.path.abspath(__file__)), "../crates/nt_eval_show/stdout")
UNARY = {"pos", "neg", "~", "!", "r&", "r~&", "r|", "r~|", "r^", "r~^"}
COMPARISONS = {"<", "<=", ">", ">=", "==", "!=", "===", "!=="}
INT = (32, True, False)
# a value is a list of leaves, each with its digits; 2**16 stands for all indices above
elements, names, now = [[(INT, digits_of(32, "7"))]], [], 0


def leaf(width, signed, four, digits):
    return [((width, signed, four), in_states(digits, four))]


def default(value):
    """Table 7-1: x, or 0 in two states."""
    return [(kind, ("x" if kind[2] else "0") * kind[0]) for kind, _ in value]


def index_of(value):
    (_, signed, _), digits = value[0]
    return number(digits, signed) if is_known(digits) else None


def joined(a, b):
    """11.4.11: what both arms have stays."""
    return [(kind, in_states("".join(p if p == q and p in "01" else "x" for p, q in zip(x, y)), kind[2])) for (kind, x), (_, y) in zip(a, b)]


def unary(op, value):
    ((width, signed, four), digits) = value[0]
    if op == "~":
        return leaf(width, signed, four, "".join(map(not_of, digits)))
    if op in ("pos", "neg"):
        return leaf(width, signed, four, calculated("+" if op == "pos" else "-", "0" * width, digits, width, signed))
    return leaf(1, False, four, not_of(truth(digits)) if op == "!" else reduced(op, digits))


def binary(op, left, right):
    ((width, signed, four), a), ((_, _, other), b) = left[0], right[0]
    if op in COMPARISONS:
        return leaf(1, False, four or other, compared_digits(op, a, b, signed))
    if op in ("&&", "||"):
        return leaf(1, False, four or other, (and_of if op == "&&" else or_of)(truth(a), truth(b)))
    if op in ("<<", ">>", ">>>"):
        if not is_known(b):
            return leaf(width, signed, four, "x" * width)
        amount = min(int(b, 2), width)
        if op == "<<":
            return leaf(width, signed, four, (a + "0" * amount)[amount:])
        return leaf(width, signed, four, ((a[0] if op == ">>>" and signed else "0") * amount + a)[:width])
    if op in ("&", "|", "^", "~^"):
        function = {"&": and_of, "|": or_of, "^": xor_of, "~^": lambda x, y: not_of(xor_of(x, y))}[op]
        return leaf(width, signed, four, "".join(function(x, y) for x, y in zip(a, b)))
    return leaf(width, signed, four, calculated(op, a, b, width, signed))


def item(low, size, way, value, index):
    """7.4.6: the default past the bounds, and for an index with x or z."""
    each = len(value) // size
    if index is None or not low <= index < low + size:
        return default(value[:each])
    at = index - low if way == "up" else low + size - 1 - index
    return value[at * each :][:each]


def part(width, value, low):
    """11.5.1: x outside, or 0 in two states."""
    ((_, _, four), digits) = value[0]
    outside = "x" if four else "0"
    if low is None:
        return leaf(width, False, four, outside * width)
    digits = digits[::-1]
    return leaf(width, False, four, "".join(digits[i] if 0 <= i < len(digits) else outside for i in range(low + width - 1, low - 1, -1)))


def value_of(words):
    """The value of an expression, whose words are taken away."""

    def rest():
        of = []
        while words[0] != "}":
            of.append(value_of(words))
        words.pop(0)
        return of

    word = words.pop(0)
    if word == "?":
        test, yes, no = value_of(words), value_of(words), value_of(words)
        which = truth(test[0][1])
        return yes if which == "1" else no if which == "0" else joined(yes, no)
    if word == "{":
        of = rest()
        return leaf(sum(v[0][0][0] for v in of), False, any(v[0][0][2] for v in of), "".join(v[0][1] for v in of))
    if word == "gather":
        return sum(rest(), [])
    if word == "element":
        at = index_of(value_of(words))
        return elements[at] if at is not None and 0 <= at < len(elements) else default(elements[0])
    if word == "size":
        return [(INT, digits_of(32, str(len(elements))))]
    if word == "time":
        return leaf(64, False, True, digits_of(64, str(now)))
    if word in UNARY:
        return unary(word, value_of(words))
    if ":" not in word:
        left = value_of(words)
        return binary(word, left, value_of(words))
    name, *of = word.split(":")
    if name == "local":
        return names[int(of[0])]
    if name == "leaves":
        return value_of(words)[int(of[0]) :][: int(of[1])]
    if name == "item":
        value = value_of(words)
        return item(int(of[0]), int(of[1]), of[2], value, index_of(value_of(words)))
    if name == "part":
        value = value_of(words)
        return part(int(of[0]), value, index_of(value_of(words)))
    if name == "to":
        width, signed, four = leaf_of(of[0])
        return leaf(width, signed, four, extended(value_of(words)[0][1], signed, width))
    kind = leaf_of(name)
    return [(kind, digits_of(kind[0], of[0]))]


def text_of(value):
    texts = [str(number(digits, kind[1])) if is_known(digits) else "%d'b%s" % (kind[0], digits) for kind, digits in value]
    return texts[0] if len(texts) == 1 else "{%s}" % ",".join(texts)


def words_of(text):
    """The words of a text: `N*WORD` is N times the word."""
    words = []
    for word in text.split(" "):
        count, star, rest = word.partition("*")
        words += [rest] * int(count) if star and count.isdigit() else [word]
    return words


def told(case):
    """What a case gives; it may set what cases after it read."""
    global now
    sort, text = case.split(" ", 1)
    if sort == "time":
        now = int(text)
        return ""
    value = value_of(words_of(text))
    if sort == "value":
        return text_of(value)
    (names if sort == "local" else elements).append(value)
    return ""


def compare():
    unlike = count = 0
    with open(CASES) as lines:
        for line in lines:
            case, given = line.rstrip("\n").split(" => ")
            if given in ("no shape", "no case"):
                continue
            count += 1
            if told(case) != given:
                unlike += 1
                print("%s is not %s" % (line.rstrip("\n"), told(case)))
    print("%d values, %d of them unlike" % (count, unlike))
    return unlike > 0


if __name__ == "__main__":
    # some expressions are very deep
    sys.setrecursionlimit(100000)
    threading.stack_size(1 << 29)
    with concurrent.futures.ThreadPoolExecutor(1) as pool:
        sys.exit(pool.submit(compare).result())
