"""compare_texts.py SEED COUNT: definitions beside rules on texts: faults, files, good files, printed files."""
import random, sys, collections
import definitions as d, rules as p, make_texts
from data import *

def one(text, stat):
    """None where the two agree, else what differs."""
    faults = d.blif_faults(text)
    got = p.read(text)
    if got[0] == "bad":
        stat["refused %d" % got[2]] += 1
        at = (got[1], got[2])
        if not d.is_first_fault(faults, *at): return "refusal isn't the definition's"
        # no other answer stands: it would have to be one of the faults
        for n, k in set(faults):
            if (n, k) != at and d.is_first_fault(faults, n, k): return "a second refusal (%d, %d)" % (n, k)
        return None
    stat["accepted"] += 1
    if not d.is_file_of(text, got[1]): return "file isn't the definition's: %r" % (d.models_of(d.logical_lines(text)),)
    f = got[1]
    if not d.is_good_file(f) or not p.good(f): return "the file isn't good"
    return files(f)

def files(f):
    """Of a good file: what is printed, and that it reads back."""
    t = p.show(f)
    if t != d.printed(f): return "printed otherwise: %r %r" % (t, d.printed(f))
    again = p.read(t)
    if again[0] != "ok" or d.unlined(again[1]) != d.unlined(f): return "doesn't read back (rules): %r" % (again,)
    if not d.is_file_of(t, again[1]): return "doesn't read back (definitions)"
    return None

if __name__ == "__main__":
    seed, count = int(sys.argv[1]), int(sys.argv[2])
    r = random.Random(seed)
    stat = collections.Counter()
    bad = 0
    for k in range(count):
        m = r.choice([0, 1, 2, 3, 5])
        d.MOST_INPUTS[0] = p.MAX_INPUTS[0] = m + 1
        text = make_texts.text(r) if r.random() < 0.85 else make_texts.small(r)
        why = one(text, stat)
        if why:
            bad += 1
            print("DIFFERS", m + 1, repr(text), why, flush=True)
            if bad > 10: break
    print("texts", count, "differ", bad, dict(sorted(stat.items())))
