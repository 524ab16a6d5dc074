#!/usr/bin/env python3
"""Writes the lines of crates/yard/src/recorded.rt: some answers of the Rust, which the program `yard` replays inside the gate.

    python3 oracle/record.py [DOCS_SRC]

The cases are the ones below: document 01's chunk A and what it names, edges, and a few drawn with a fixed seed. Each is asked of
target/checked/oracle (built from DOCS_SRC, default ../shared/docs/src, where it isn't there yet), and its answer stands in the line as the Rust gave it; a frontier's
times are sorted. Outputs have room for 64 words, so a case has at most eight records. Run it again after a change here; the lines between
`LINES: &str = "` and `";` are replaced, and yard's stdout says how many there are."""
import os, random, subprocess, sys
import compare
from compare import HERE, HALF, TOP64, TOP, chunk_of, cursor_at, in_order, least, time, updates_of

FILE = os.path.join(TOP, "crates", "yard", "src", "recorded.rt")
STDOUT = os.path.join(TOP, "crates", "yard", "stdout")
CALLS = ["form", "form_unsorted", "filter", "split", "extract", "suffix", "meld", "walk", "survey", "merge"]

A = [(7, 3, time(1, 5), 1), (7, 3, time(1, 9), -1), (7, 4, time(2, 0), 1), (9, 3, time(1, 5), 2)]
B = [(7, 3, time(1, 9), 1), (7, 4, time(1, 0), 1)]
MERGED = [(7, 3, time(1, 5), 1), (7, 3, time(1, 9), 0), (7, 4, time(1, 0), 1)]
EMPTY = [0, 0, 0, 0]

def flat(rows):
    return [x % TOP64 for r in rows for x in r]

def drawn(rng, n, keys):
    """n records: of few keys with several values and times each, or of many keys."""
    seen = set()
    while len(seen) < n:
        seen.add((rng.randrange(keys), rng.randrange(3), time(rng.randrange(3), rng.randrange(3))))
    return [p + (rng.choice((1, -1, 2, -2)),) for p in sorted(seen)]

def cases():
    rng = random.Random(8)
    a = chunk_of(A)
    some = [drawn(rng, n, keys) for n, keys in ((1, 1), (4, 2), (6, 2), (8, 2), (5, 90), (7, 90))]
    gaps = [[r[:3] + (0 if (i + g) % 3 == 0 else r[3],) for i, r in enumerate(rows)] for g, rows in enumerate(some)]
    near = flat([(TOP64 - 1, TOP64 - 1, TOP64 - 1, 1 << 40), (TOP64 - 1, TOP64 - 1, TOP64 - 1, -(1 << 40) + 1)])
    for us in ([], flat(A), flat(A[:1] + [(7, 3, time(1, 5), -1)]), near, in_order(updates_of(rng, 8, 2))):
        yield ("form", us, [])
    for us in ([], flat(A[::-1]), flat(A + [(7, 3, time(1, 5), -1)]), near, updates_of(rng, 8, 2)):
        yield ("form_unsorted", us, [])
    for rows in [[], MERGED, [r[:3] + (0,) for r in A]] + gaps[2:5]:
        yield ("filter", chunk_of(rows), [])
    for w, n in ((a, 0), (a, 2), (a, 4), (a, TOP64 - 1), (chunk_of(some[3]), 3), (chunk_of(some[5]), 6), (EMPTY, 0)):
        yield ("split", w, [n])
    for w, f in ((a, [time(1, 9), time(2, 0)]), (a, [time(1, 9)]), (a, []), (a, [0]), (EMPTY, [0]), (chunk_of(some[2]), [time(0, 2), time(1, 1)]),
                 (chunk_of(some[3]), [time(0, 2), time(1, 1), time(2, 0)]), (chunk_of(some[5]), least([r[2] for r in some[5]][2:4]))):
        yield ("extract", w, f)
    for w, t in ((a, 0), (a, 2), (a, 3), (chunk_of(some[3]), 5), (chunk_of(some[5]), 1)):
        yield ("suffix", w, cursor_at(w, t))
    for rows, cut in ((A, 2), (A, 3), (A, 0), (A, 4), (some[3], 4), (some[5], 5)):
        yield ("meld", chunk_of(rows[:cut]), chunk_of(rows[cut:]))
    for rows in (A, MERGED, gaps[3], [r[:3] + (0,) for r in A]):
        yield ("walk", chunk_of(rows), [])
    for x, y in ((A, A[:2]), (A[3:], A), (some[3], some[2]), (some[4], some[5])):
        yield ("survey", chunk_of(x), chunk_of(y))
    for x, y in ((A, B), (B, A), (A, [r[:3] + (-r[3],) for r in A]), (some[1], some[2][:4])):
        yield ("merge", chunk_of(x), chunk_of(y))

def asked(case):
    call, a, b = case
    w = lambda l: " ".join(map(str, l))
    if call in ("form", "form_unsorted"):
        return call + " " + w(a)
    if call in ("meld", "survey", "merge"):
        return "%s | %s | %s" % (call, w(a), w(b))
    return "%s %s | %s" % (call, w(b), w(a))

def shown(x):
    return str(x - TOP64) if x >> 63 else "%d.%d" % (x >> 32, x % HALF) if x >= HALF else str(x)

def line_of(case, answer):
    call, a, b = case
    for number, name in enumerate(("none", "first", "second")):
        answer = answer.replace(name, "0 0 0 0" if name == "none" else str(number))
    fields = [a, b] + [[int(x) for x in f.split()] for f in answer.split("|")]
    fields += [[]] * (5 - len(fields))
    assert all(len(f) <= 64 for f in fields) and (call != "form" or 4 + 7 * len(a) // 4 <= 64), case
    assert call != "merge" or len(a) + len(b) - 4 <= 64, case
    return " ".join((call + " " + str(CALLS.index(call)) + "".join(" | " + " ".join(map(shown, f)) for f in fields)).split())

def main():
    oracle = os.path.join(HERE, "target", "checked", "oracle")
    if not os.path.exists(oracle):
        docs = sys.argv[1] if len(sys.argv) > 1 else os.path.join(TOP, "..", "shared", "docs", "src")
        subprocess.run(["sh", os.path.join(HERE, "build.sh"), os.path.abspath(docs)], check=True)
    every = list(cases())
    lines = [line_of(c, a) for c, a in zip(every, compare.run([oracle], [asked(c) for c in every]))]
    text = open(FILE, encoding="utf-8").read()
    head, rest = text.split('LINES: &str = "', 1)
    tail = rest.split('";', 1)[1]
    open(FILE, "w", encoding="utf-8").write(head + 'LINES: &str = "' + "\n".join(lines) + '\n";' + tail)
    told = [l for l in open(STDOUT).read().split("\n") if l and not l.startswith("recorded:")]
    told.append("recorded: %d answers of the Rust, %d the same" % (len(lines), len(lines)))
    open(STDOUT, "w").write("\n".join(told) + "\n")
    print("%d answers, %d bytes, %d words" % (len(lines), sum(map(len, lines)) + len(lines), sum(len(l.split()) for l in lines)))

if __name__ == "__main__":
    main()
