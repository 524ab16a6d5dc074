#!/usr/bin/env python3
"""Times the library's calls beside the Rust's, on the same inputs, and prints the table of docs/SPEED.md.

    make speed                                               builds both, and runs this
    make speed-here                                          the same, with the library built for a machine that isn't x86-64
    python3 bench/run.py [--sizes N..] [--seconds S] [--rounds R] [--docs DOCS_SRC] [--run EMULATOR] [--ours PATH] [--built-for-here]

The inputs are made here with a fixed seed and handed to both in one file: PATH, which is build/ours where nothing is said (bench/ours.c over
libhost.a), and oracle/target/release/speed (the Rust over the stand-ins of oracle/README.md, which is built from DOCS_SRC where it isn't
there; both built for release). The two run in turn, in R rounds, S seconds for each case; each gives the best and the median of its runs in
the round, and a sum over all words of its result. The sums of one case must be equal, of both and in every round, so both did the same work.
Two shapes: flat, one value a key and one time a value; trie, about four values a key and four times a value.

A time is nanoseconds for each record of the input, the best of all rounds. A ratio is the median over the rounds of the library's best in a
round by the Rust's best in the same round. Under a merge stands the same less the check of its inputs: its ratio subtracts the check's best
from the merge's in each round, its time is the best merge less the best check.

On a machine that isn't x86-64 the library runs under an emulator (--run). Its times then say nothing, and none are printed: the run only
shows that everything builds and that the results are the same. --built-for-here says that the program at PATH was built for this machine, as
bench/native.sh does; then times are printed, and the first line says that they aren't those of the library that ships."""
import argparse, array, math, os, platform, random, shlex, statistics, subprocess, sys
TOP = os.path.dirname(os.path.dirname(os.path.abspath(__file__)))
sys.path.insert(0, os.path.join(TOP, "oracle"))
from compare import chunk_of, cursor_at, TOP64

CALLS = ["check", "form", "form_unsorted", "filter_zero", "split_at", "extract", "suffix_chunk", "meld", "walk", "survey", "merge_pair", "plain merge"]
BUDGET = {"form": 1.5, "form_unsorted": 3.0, "filter_zero": 1.5, "split_at": 1.5, "extract": 2.0, "merge_pair": 1.0}
LIMIT = 1 << 20

def rows_of(rng, n, per_key, per_val):
    """n records, in order: about so many values a key and times a value."""
    seen = {}
    while len(seen) < n:
        key = rng.randrange(1 << 63)
        for _ in range(per_key):
            val = rng.randrange(1000)
            for _ in range(per_val):
                if len(seen) < n:
                    seen[key, val, rng.randrange(100) << 32 | rng.randrange(1000)] = rng.choice((1, -1))
    return [p + (d,) for p, d in sorted(seen.items())]

def spread(rng, rows, m):
    """m records over the length of these: every other one at a position of theirs, half of which cancel."""
    out = {}
    for i in range(m):
        k, v, t, d = rows[i * len(rows) // m]
        if i % 2:
            k, d = k + 1, 1
        out[k, v, t] = d * rng.choice((1, -1))
    return [p + (d,) for p, d in sorted(out.items())]

def cases(n, per_key, per_val):
    """(call, records, first slice, second slice)"""
    rng = random.Random(n + per_key)
    rows = rows_of(rng, n, per_key, per_val)
    w = chunk_of(rows)
    gaps = chunk_of([r if i % 4 else r[:3] + (0,) for i, r in enumerate(rows)])
    ups = [r[:3] + (rng.choice((1, -1)) % TOP64,) for r in (rows[rng.randrange(max(1, 3 * n // 4))] for _ in range(n))]
    flat = lambda us: [x for u in us for x in u]
    other = rows_of(rng, n, per_key, per_val)
    half = [r for i, r in enumerate(other) if i % 2] + [rows[i] for i in range(0, n, 4)]
    half = sorted({r[:3]: r for r in half}.values())
    yield ("check", n, w, [])
    yield ("form", n, flat(sorted(ups, key=lambda u: u[:3])), [])
    yield ("form_unsorted", n, flat(ups), [])
    yield ("filter_zero", n, gaps, [])
    yield ("split_at", n, w, [n // 2])
    yield ("extract", n, w, [20 << 32 | 700, 60 << 32 | 300])
    yield ("suffix_chunk", n, w, cursor_at(w, n // 2))
    yield ("meld", n, chunk_of(rows[:n // 2]), chunk_of(rows[n // 2:]))
    yield ("walk", n, w, [])
    yield ("survey", n + len(half), w, chunk_of(half))
    for b in (spread(rng, rows, 64), half):
        if 256 <= n and n + len(b) <= LIMIT:
            for call in ("merge_pair", "check", "plain merge"):
                yield (call, n + len(b), w, chunk_of(b))

def built(o):
    speed = os.path.join(TOP, "oracle", "target", "release", "speed")
    if not os.path.exists(speed):
        subprocess.run(["sh", os.path.join(TOP, "oracle", "build.sh"), os.path.abspath(o.docs)], check=True)
    return speed

def answers(command, path, o, count):
    """One round of one of the two: for each case its best, median and sum, or None where it has no such call or refused it."""
    out = subprocess.run(command + [path, str(int(o.seconds * 1e9))], capture_output=True, text=True)
    if out.returncode:
        sys.exit("%s: status %d\n%s" % (command, out.returncode, out.stderr))
    lines = out.stdout.split("\n")[:-1]
    if len(lines) != count:
        sys.exit("%s: %d answers to %d cases" % (command, len(lines), count))
    return [None if l == "-" else [int(x) for x in l.split()] for l in lines]

def both(ours, speed, path, o, count):
    """The answers of the two, in turn, so that a busy moment of the machine falls on both: for each case, ours of every round and theirs."""
    rounds = [(answers(ours, path, o, count), answers(speed, path, o, count)) for _ in range(o.rounds)]
    return [([mine[i] for mine, _ in rounds], [theirs[i] for _, theirs in rounds]) for i in range(count)]

def agree(call, xs, ys):
    """Whether each round of each gave the one sum. A check has no counterpart in the Rust, and a plain merge none in the library."""
    sums = {z and z[2] for z in (xs if call == "check" else ys if call == "plain merge" else xs + ys)}
    return len(sums) == 1 and None not in sums

def over(f, times):
    """f of the rounds' times, or NaN where a round has none."""
    return math.nan if any(t != t for t in times) else f(times)

def machine():
    name = [l.split(":", 1)[1].strip() for l in open("/proc/cpuinfo") if l.startswith("model name")]
    return "%s, %s, %s" % (name[0] if name else platform.machine(), platform.platform(), platform.machine())

def main():
    p = argparse.ArgumentParser()
    p.add_argument("--sizes", type=int, nargs="+", default=[1024, 65536, 1 << 20])
    p.add_argument("--seconds", type=float, default=0.1, help="for each case in each round, of each of the two")
    p.add_argument("--rounds", type=int, default=8)
    p.add_argument("--docs", default=os.path.join(TOP, "..", "shared", "docs", "src"))
    p.add_argument("--run", default="", help="an emulator for the library's program")
    p.add_argument("--ours", default=os.path.join(TOP, "build", "ours"), help="the library's program")
    p.add_argument("--built-for-here", action="store_true", help="it was built for this machine, so its times count")
    o = p.parse_args()
    if o.rounds < 1:
        p.error("at least one round")
    if o.run and o.built_for_here:
        p.error("what was built for this machine needs no emulator")
    speed, ours = built(o), shlex.split(o.run) + [os.path.abspath(o.ours)]
    native = o.built_for_here or platform.machine() == "x86_64" and not o.run
    path = os.path.join(TOP, "build", "cases.bin")
    os.makedirs(os.path.dirname(path), exist_ok=True)
    print("Machine: %s%s. Best of the runs within %d rounds of %g s a case, the two in turn; a ratio is the median of the rounds' ratios.\n" % (
        machine(), "; the library's LLVM module built for this machine, not the library that ships, which is x86-64" if o.built_for_here else "", o.rounds, o.seconds))
    print("| call | shape | records | ours, ns a record | the Rust's | ratio | budget |\n|---|---|---|---|---|---|---|")
    wrong = same = 0
    for n in o.sizes:
        for shape, per in (("flat", 1), ("trie", 4)):
            every = list(cases(n, per, per))
            with open(path, "wb") as f:
                for call, _, a, b in every:
                    for part in ([CALLS.index(call)], [len(a)], [x % TOP64 for x in a], [len(b)], [x % TOP64 for x in b]):
                        array.array("Q", part).tofile(f)
            for (call, records, _, b), (xs, ys) in zip(every, both(ours, [speed], path, o, len(every))):
                if not agree(call, xs, ys):
                    wrong += 1
                    print("%s, %s, %d records: the results differ" % (call, shape, records))
                elif call not in ("check", "plain merge"):
                    same += 1
                xs, ys = ([z[0] if z else math.nan for z in zs] for zs in (xs, ys))
                mine, budget = over(min, xs), BUDGET.get(call, "-")
                if call == "merge_pair":
                    merge = xs, ys
                    budget = budget if n == 65536 and records <= n + 64 else "-"
                elif call == "check" and b:
                    call, mine = "merge_pair less its check", over(min, merge[0]) - mine
                    xs, ys = [m - x for m, x in zip(merge[0], xs)], merge[1]
                elif call == "plain merge":
                    xs, mine, budget = merge[0], over(min, merge[0]), 2.0 if n == 65536 and records <= n + 64 else "-"
                shown = ["%.2f" % t if native and t == t else "-" for t in (
                    mine / records, over(min, ys) / records, over(statistics.median, [x / y for x, y in zip(xs, ys)]))]
                print("| %s | %s | %d | %s | %s |" % (call, shape, records, " | ".join(shown), budget))
    print("\n%d results the same in both, %d differ" % (same, wrong))
    if not native:
        print("The library ran under an emulator, so no times are given.")
    sys.exit(1 if wrong else 0)

if __name__ == "__main__":
    main()
