#!/usr/bin/env python3
"""Lists the places in crates/*/src that docs/DESIGN-PASS.md counts, a heading for each kind with its number.

tools/places.py [TOP]    TOP is a checkout; without it, this one."""
import glob
import os
import re
import sys

TOP = sys.argv[1] if len(sys.argv) > 1 else os.path.join(os.path.dirname(os.path.abspath(__file__)), "..")
CLAUSE = re.compile(r"\s*(requires|ensures|ghost)\b|.*[≡×≤∷→]")


def lines():
    """Each line of code, without comments, as (file, number, text, whether it is of a contract)."""
    for path in sorted(glob.glob(os.path.join(TOP, "crates/*/src/**/*.rt"), recursive=True)):
        name = os.path.relpath(path, TOP)
        if name.endswith("tests.rt"):
            continue
        for number, text in enumerate(open(path, encoding="utf-8"), 1):
            if not text.lstrip().startswith("//"):
                yield name, number, text.rstrip("\n"), bool(CLAUSE.match(text))


LINES = list(lines())


def grep(pattern, clauses=False):
    found = re.compile(pattern)
    return [(f, n, t.strip()) for f, n, t, c in LINES if c == clauses and found.search(t)]


def items(kind):
    """Each struct or enum of the code as (file, line, name, its lines)."""
    out, at = [], None
    for f, n, t, c in LINES:
        head = re.match(r"(pub )?%s (\w+)" % kind, t)
        if head:
            at = (f, n, head.group(2), [])
            out.append(at)
        elif t.startswith("}"):
            at = None
        elif at and not c:
            at[3].append(t.strip())
    return out


def shaped():
    """Enums of the shape of Option, Result or Ordering: one payload beside none or one, or three cases without any."""
    out = []
    for f, n, name, body in items("enum"):
        loads = [t.count(",") if "(" in t else 0 for t in body]
        if (len(body) == 2 and 1 in loads and max(loads) < 3) or (len(body) == 3 and max(loads) == 0):
            out.append((f, n, name))
    return out


def flags():
    return [(f, n, name + "." + t) for f, n, name, body in items("struct") for t in body if re.search(r": bool,$", t)]


def sized():
    """Structs that hold an array and a count or length of it."""
    return [
        (f, n, name)
        for f, n, name, body in items("struct")
        if any(re.search(r": \[", t) for t in body) and any(re.match(r"(pub )?(count|length|len)\b", t) for t in body)
    ]


KINDS = [
    ("1 enums of the shape of Option, Result or Ordering", shaped),
    ("1 flags in a struct", flags),
    ("1 refusals by number", lambda: grep(r"\b(refused|nobody_pays|nothing_seen|no_entry)\(\d|not_queued\(q, \d|\bRefusal \{|number: \d|return [2-9];|return -?[01];|^\s+-1$")),
    ("1 tests of a number for none", lambda: grep(r"(refusal|first|fault)\.number == 0|asked != 0|(order|unsuppliable|unorderable|\bn) (==|!=) 0")),
    ("1 kinds by number", lambda: grep(r"(?<![\w'])(78|80|68|83|76|35|61)(?![\w'])")),
    ("3 loops that count by hand", lambda: grep(r"^\s+(while|loop)\b")),
    ("4 by hand", lambda: grep(r"^(pub )?fn (nat_of|plain_of|bits_of|magnitude|wide|is_digit|byte_ok|compare_numbers|least|most|smaller|copy|pad|within|put_digits|with_byte|word|remote|again)\b")),
    ("5 contracts with Dimensioned, Booked or Shaped", lambda: grep(r"\b(Dimensioned|Booked|Shaped) ", True)),
    ("5 contracts with a range of the book", lambda: grep(r"\bR [\w.]+ [\w.]+", True)),
    ("5 the five lent things in a signature", lambda: grep(r"\btopup: &(mut )?\[i64\]")),
    ("6 an array with its count", sized),
    ("6 parallel slices in a signature", lambda: grep(r"\bquantities: ")),
    ("7 switches on the kind of a request", lambda: grep(r"^\s+match (form|o|request|x)\b|if x == \d\d ")),
]

for title, find in KINDS:
    found = find()
    print(f"{title}: {len(found)}")
    for f, n, t in found:
        print(f"    {f}:{n}: {t[:110]}")
