"""compare_stimuli.py SEED COUNT: definitions beside rules on stimuli of 0 to 3 pins."""
import random, sys, collections
import definitions as d, rules as p

if __name__ == "__main__":
    r = random.Random(int(sys.argv[1]))
    count, bad, stat = int(sys.argv[2]), 0, collections.Counter()
    for _ in range(count):
        width = r.choice([0, 0, 1, 2, 2, 3])
        out = b""
        for _ in range(r.randint(0, 5)):
            l = (bytes(r.choice(b"01") for _ in range(width)) or b"-") if r.random() < 0.9 else b"".join(r.choice([b"0", b"1", b"-", b"x", b"\\", b"\0", b"\r", b"2"]) for _ in range(r.randint(0, 3)))
            if r.random() < 0.2: l = r.choice([b" ", b"\t", b""]).join(bytes([b]) for b in l) + r.choice([b"", b" ", b"\t"])
            out += l + r.choice([b"\n"] * 8 + [b"\r\n", b"\r\r\n", b"# x\n", b" #\\\n", b"\n\n", b"\\\n", b"", b"#", b"\r", b"#\r\n"])
        faults = d.stim_faults(width, out)
        got = p.stimulus(out, width)
        if got[0] == "bad":
            stat[got[2]] += 1
            ok = faults == [(got[1], got[2])]
        else:
            stat["cycles"] += 1
            ok = not faults and d.is_stimulus_of(width, out, [[bool(b) for b in c] for c in got[1]])
        if not ok:
            bad += 1
            print("DIFFERS", width, out, faults, got, flush=True)
    print("stimuli", count, "differ", bad, dict(stat), flush=True)
