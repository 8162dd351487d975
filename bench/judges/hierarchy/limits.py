"""limits.py: the real limits at their edges: definitions (where they can be counted out), rules and the other program."""
import definitions as d, rules as p, compare_yardstick as y
from data import *

def told(text, count_out):
    """What is expected of `flat t`: the line of a refusal, or None."""
    got = p.read(text)
    if got[0] == "bad": return p.told(b"t", got)
    f = got[1]
    r = p.first_five(f) or p.count_limits(f, LIMITS)
    if count_out:
        cs = d.counts(f, LIMITS)
        k = d.is_first(lambda b, c: c[2] < c[1], cs)
        mine = None if k is None else ("TooMany", cs[k][0], min(cs[k][1], 2 ** 64 - 1))
        assert mine == r, (mine, r)
    return None if r is None else p.told(b"t", r)

def names(n): return b" ".join(b"n%d" % k for k in range(n))
def doubling(levels, body=b""):
    return b"".join(b".model m%d\n" % k + body + (b".subckt m%d\n.subckt m%d\n" % (k + 1, k + 1) if k < levels - 1 else b"") + b".end\n" for k in range(levels))

def tree(a, b, c):
    """1 + a + a * b + c paths."""
    return b".model m\n" + b".subckt u\n" * a + b".subckt v\n" * c + b".model u\n" + b".subckt v\n" * b + b".model v\n"

CASES = [
    ("4,096 inputs", b".model m\n.inputs a\n.names " + b"a " * 4096 + b"f\n", True),
    ("4,097 inputs", b".model m\n.inputs a\n.names " + b"a " * 4097 + b"f\n", False),
    ("4,097 inputs without a model", b".names " + b"a " * 4097 + b"f\n", False),
    ("200,000 signals", b".model m\n.inputs " + names(200000) + b"\n", True),
    ("200,001 signals", b".model m\n.inputs " + names(200001) + b"\n", True),
    ("200,001 signals by one formal", b".model m\n.inputs " + names(199999) + b"\n.subckt u x=n0\n.model u\n.inputs x\n.names y\n", True),
    ("200,000 signals, a formal among them", b".model m\n.inputs " + names(199999) + b"\n.subckt u x=n0\n.model u\n.inputs x\n", True),
    ("200,000 paths", tree(400, 498, 399), True), ("200,001 paths", tree(400, 498, 400), True), ("200,001 paths otherwise", tree(400, 499, 0), True),
    ("262,143 paths", doubling(18), True),
    ("2^63 - 1 paths", doubling(63), False), ("2^64 - 1 paths", doubling(64), False), ("2^65 - 1 paths", doubling(65), False),
    ("2^80 - 1 paths", doubling(80), False), ("2^80 - 1 signals", doubling(80, b".inputs x\n").replace(b".subckt m", b".subckt m"), False),
    ("2^64 signals", doubling(64, b".names a\n") + b"", False),
    ("400,000 letters", b".model m\n.inputs a\n.names " + b"a " * 3999 + b"f\n" + (b"1" * 3999 + b" 1\n") * 99, True),
    ("404,000 letters", b".model m\n.inputs a\n.names " + b"a " * 3999 + b"f\n" + (b"1" * 3999 + b" 1\n") * 100, True),
    ("400,001 letters", b".model m\n.inputs a\n.names " + b"a " * 3999 + b"f\n" + (b"1" * 3999 + b" 1\n") * 99 + b".names f\n", True),
    ("8,192 sinks", b".model m\n.inputs " + names(8192) + b"\n.outputs " + names(8192) + b"\n", True),
    ("8,193 sinks", b".model m\n.inputs " + names(8193) + b"\n.outputs " + names(8193) + b"\n", True),
    ("8,193 sinks by a latch below", b".model m\n.inputs " + names(8192) + b"\n.outputs " + names(8192) + b"\n.subckt u\n.model u\n.latch a a\n", True),
    ("signals before instances", tree(450, 450, 0) + b".names a\n", True), ("instances before letters", tree(450, 450, 0).replace(b".model v\n", b".model v\n.end\n.model z\n"), True),
]
if __name__ == "__main__":
    for word, text, count_out in sorted(CASES, key=lambda c: len(c[1])):
        want = told(text, count_out)
        with open(y.DIR + "/t", "wb") as o: o.write(text)
        got = y.ask("flat", "t")
        ok = (got[0] == 0) if want is None else (got[0] == 1 and got[2] == want)
        print("same" if ok else "DIFFERS", word, want, got[0], got[2][:80], flush=True)
