#!/usr/bin/env python3
"""Compares the library with the Rust, call by call.

Makes cases, has build/answers (the library, in C) and target/checked/oracle (the Rust) answer them, and compares every number and every
output word. build/answers itself looks at the words that must not change. What is refused, and with which number, is decided here by
document 01's words, apart from both programs; an accepted case must agree with the Rust word by word.

    python3 oracle/compare.py [--run EMULATOR] [--docs DOCS_SRC] [--seed N] [--only CALL] [--random N] [--show N]

DOCS_SRC, default ../shared/docs/src, is read only where the oracle isn't built yet."""
import argparse, collections, itertools, os, random, shlex, subprocess, sys

HERE = os.path.dirname(os.path.abspath(__file__))
TOP = os.path.dirname(HERE)
LIMIT = 1 << 20
TOP64 = 1 << 64
HALF = 1 << 32
MOST = 128

# ---- document 01, apart from both programs

def signed(d):
    return d - TOP64 if d >> 63 else d

def size(w):
    return 4 + 2 * w[0] + 2 * w[1] + 2 * w[2] + w[3]

def fits(w):
    return len(w) >= 4 and size(w) <= len(w)

def bodies(w):
    nk, nv, nt, nd = w[:4]
    out, at = [], 4
    for n in (nk, nk, nv, nv, nt, nt, nd):
        out.append(w[at:at + n])
        at += n
    return out

def rising(items):
    return all(a < b for a, b in zip(items, items[1:]))

def layer(ends, items):
    if not rising([0] + ends) or (ends[-1] if ends else 0) != len(items):
        return False
    return all(rising(items[a:b]) for a, b in zip([0] + ends, ends))

def well_formed(w):
    if not fits(w) or w[2] > LIMIT or not (w[0] == w[1] == w[2] == 0 or (w[0] and w[1] and w[2])):
        return False
    keys, vends, vals, tends, times, dends, diffs = bodies(w)
    if not rising(keys) or not layer(vends, vals) or not layer(tends, times):
        return False
    if any(b - a not in (0, 1) for a, b in zip([0] + dends, dends)) or (dends[-1] if dends else 0) != len(diffs):
        return False
    return all(diffs)

def refusal(w):
    return 5 if not well_formed(w) else 6 if w[3] != w[2] else 0

def corner(w, last):
    b = bodies(w)
    i = -1 if last else 0
    return (b[0][i], b[2][i], b[4][i])

def cursor_at(w, t):
    """The indices of time t with its own key and value, or nothing."""
    if t >= w[2]:
        return None
    b = bodies(w)
    v = sum(e <= t for e in b[3])
    return [sum(e <= v for e in b[1]), v, t]

def form_number(u, more, sort):
    if len(u) % 4:
        return 1
    if len(u) // 4 > LIMIT:
        return 2
    rows = [tuple(u[i:i + 3]) for i in range(0, len(u), 4)]
    if not sort and any(a > b for a, b in zip(rows, rows[1:])):
        return 3
    if any(abs(signed(d)) > 1 << 40 for d in u[3::4]):
        return 4
    return 13 if more < 0 else 0

def ordered(corners):
    return all(a >> 32 < b >> 32 and a % HALF > b % HALF for a, b in zip(corners, corners[1:]))

def is_open(corners, t):
    return any(c >> 32 <= t >> 32 and c % HALF <= t % HALF for c in corners)

def least(times):
    """The times with no different one at or below them in both coordinates, rising."""
    out = []
    for t in sorted(set(times)):
        if not out or t % HALF < out[-1] % HALF:
            out.append(t)
    return out

def extract_number(head, a, more):
    room, upper, answer = more
    if upper < 0 or answer < 0:
        return 13
    corners = head[1:1 + head[0]]
    if head[0] > MOST or not ordered(corners):
        return 9
    n = refusal(a) or (13 if room < 0 else 0)
    return n or (10 if len(least(t for t in bodies(a)[4] if is_open(corners, t))) > MOST else 0)

def survey_number(a, b, more):
    if more[2] < 0:
        return 13
    for w in (a, b):
        n = refusal(w) or (0 if w[2] else 7)
        if n:
            return n
    return 12 if more[0] < 0 else 0

def records(w):
    """(position, signed diff) of each time of a settled chunk."""
    keys, vends, vals, tends, times, dends, diffs = bodies(w)
    v = k = 0
    for t in range(len(times)):
        v += t >= tends[v]
        k += v >= vends[k]
        yield (keys[k], vals[v], times[t]), signed(diffs[t])

def merge_number(a, b, more):
    room, scratch, answer = more
    if answer < 0:
        return 13
    for w in (a, b):
        n = refusal(w) or (0 if w[2] else 7)
        if n:
            return n
    if a[2] + b[2] > LIMIT:
        return 2
    if scratch < 0 or room < 0:
        return 12 if scratch < 0 else 13
    first = dict(records(a))
    return 14 if any(not -(1 << 63) <= d + first[p] < 1 << 63 for p, d in records(b) if p in first) else 0

def joined(a, b):
    """A merge's rows, what it leaves of the survivor, and which that is."""
    x, y = dict(records(a)), dict(records(b))
    last = min(max(x), max(y))
    rows = [p + (x.get(p, 0) + y.get(p, 0),) for p in sorted(set(x) | set(y)) if p <= last]
    left = x if max(x) > last else y if max(y) > last else {}
    return rows, [p + (d,) for p, d in sorted(left.items()) if p > last], a if left is x else b if left is y else None

def whole_number(a, b, more):
    """A merge's number; then 13 where clean or rest is short, each lent so many words more than the most that can be asked."""
    number = merge_number(a, b, more[:3])
    if number:
        return number
    rows, _, left = joined(a, b)
    clean, rest = size(a) + size(b) - 4 + more[3], max(size(a), size(b)) + more[4]
    return 13 if clean < size(chunk_of(rows)) or (left and rest < size(left)) else 0

def expected(call, head, parts, more):
    """The number that document 01 gives."""
    if call == "whole":
        return whole_number(parts[0], parts[1], more)
    if call == "merge":
        return merge_number(parts[0], parts[1], more)
    if call == "extract":
        return extract_number(head, parts[0], more)
    if call == "survey":
        return survey_number(parts[0], parts[1], more)
    if call in ("form", "form_unsorted"):
        return form_number(head, more, call == "form_unsorted")
    a = parts[0]
    if call in ("check", "start"):
        return 13 if more < 0 else 0 if well_formed(a) else 5
    if call == "walk":
        return 0 if well_formed(a) else 5
    if call == "filter":
        return 5 if not well_formed(a) else 13 if more < 0 else 0
    if call == "split":
        return refusal(a) or (13 if more < 0 else 0)
    if call == "suffix":
        n = refusal(a) or (0 if a[2] else 7)
        return n or (8 if cursor_at(a, head[2]) != head else 13 if more < 0 else 0)
    if call == "meld":
        b = parts[1]
        n = refusal(a) or refusal(b)
        if n:
            return n
        if a[2] + b[2] > LIMIT:
            return 2
        if a[2] and b[2] and not corner(a, True) < corner(b, False):
            return 11
        return 13 if more < 0 else 0
    return None  # step: the Rust decides, and 5 stands for its panic

# ---- cases

def chunk_of(rows):
    """The words of (key, value, time, diff) in order; a diff of 0 is an empty diff list."""
    keys, vends, vals, tends, times, dends, diffs = [], [], [], [], [], [], []
    for k, v, t, d in rows:
        new_key = not keys or keys[-1] != k
        if new_key:
            keys.append(k)
            vends.append(len(vals))
        if new_key or vals[-1] != v:
            vals.append(v)
            tends.append(len(times))
        times.append(t)
        if d:
            diffs.append(d % TOP64)
        dends.append(len(diffs))
        vends[-1], tends[-1] = len(vals), len(times)
    return [len(keys), len(vals), len(times), len(diffs)] + keys + vends + vals + tends + times + dends + diffs

PLACES = [(k, v, t) for k in (7, 9) for v in (3, 4) for t in (1 << 32 | 9, 2 << 32)]

def small():
    """All chunks over eight positions: settled ones, and ones with empty diff lists."""
    for picks in itertools.product((None, 0, 1), repeat=8):
        yield chunk_of([p + (d,) for p, d in zip(PLACES, picks) if d is not None])

def settled_small():
    for picks in itertools.product((None, -1), repeat=8):
        yield chunk_of([p + (d,) for p, d in zip(PLACES, picks) if d is not None])

def rows_of(rng, n, flat, zero=0.0):
    seen = set()
    while len(seen) < n:
        if flat:
            seen.add((rng.randrange(TOP64), rng.randrange(TOP64), rng.randrange(TOP64)))
        else:
            seen.add((rng.randrange(max(1, n // 8)), rng.randrange(4), rng.randrange(4) << 32 | rng.randrange(4)))
    diffs = (1, -1, 2, -2, (1 << 63) - 1, -(1 << 63))
    return [p + (0 if rng.random() < zero else rng.choice(diffs),) for p in sorted(seen)]

def updates_of(rng, n, spread):
    out = []
    for _ in range(n):
        out += [rng.randrange(spread), rng.randrange(4), rng.randrange(3) << 32 | rng.randrange(3),
                rng.choice((0, 1, -1, 2, -2, 1 << 40, -(1 << 40))) % TOP64]
    return out

def in_order(u):
    rows = sorted((tuple(u[i:i + 4]) for i in range(0, len(u), 4)), key=lambda r: r[:3])
    return [x for r in rows for x in r]

def time(ignition, tick):
    return ignition << 32 | tick

def stairs(ignitions, ticks):
    """Every frontier over a grid."""
    if not ignitions:
        return [[]]
    rest = stairs(ignitions[1:], ticks)
    return rest + [[time(ignitions[0], t)] + f for t in ticks for f in rest if not f or f[0] % HALF < t]

def subsets(places):
    """Each list of these positions, the changes 1, -1, 2, -2 in turn."""
    for picks in itertools.product((0, 1), repeat=len(places)):
        yield [p + ((1, -1, 2, -2)[i % 4],) for i, (p, x) in enumerate(zip(places, picks)) if x]

def upper_of(corners):
    return [len(corners)] + corners

ROOM = (3, 0, 2)    # words more than asked, for the outputs, the frontier and the answer
EXACT = (0, 0, 0)

def lent(rng):
    return rng.choice((EXACT, ROOM, (0, 3, 0), (-1, 0, 0), (0, -1, 0), (0, 0, -1), (0, 0, 1)))

def upper_on(rng, w):
    """A frontier around a chunk's times; now and then one that is out of order or too long."""
    times = bodies(w)[4] if well_formed(w) else []
    some = rng.sample(times, min(len(times), rng.choice((0, 1, 2, 5)))) + [rng.randrange(TOP64) for _ in range(rng.choice((0, 0, 1)))]
    if rng.random() < 0.15:
        return rng.choice((upper_of(some), [MOST + 1] + some, [TOP64 - 1] + some, upper_of(sorted(some))))
    return upper_of(least(some))

def extracts():
    """All chunks of eight positions, and of eight times of one value, under every frontier over a grid."""
    frontiers = stairs([0, 1, 2, 3], [0, 5, 9, 10])
    times = [(7, 3, time(i, t)) for i in (1, 2, 3) for t in (5, 9, 10)][:8]
    for places in (PLACES, times):
        for rows in subsets(places):
            for f in frontiers:
                yield ("extract", upper_of(f), [chunk_of(rows)], EXACT)
    for n in (1, 2, 126, 127, 128, 129, 130, 300):
        slope = [(1, 1, time(i + 1, n - i), 1) for i in range(n)]
        corners = [r[2] for r in slope[:MOST + 2]]
        for f in ([], [0], [time(1, 0)], [time(0, 1)], corners, corners[:MOST], corners[::-1], [time(n // 2, 0)], [time(2, 3), time(3, 3)]):
            yield ("extract", upper_of(f), [chunk_of(slope)], EXACT)
            yield ("extract", upper_of(f), [chunk_of(slope + [(2, 1, time(3, 0), 5)])], ROOM)

def surveys():
    """All pairs of key sets over eight keys."""
    sets = [chunk_of(rows) for rows in subsets([(k, 1, 1) for k in (0, 1, 2, 5, 7, 8, TOP64 - 2, TOP64 - 1)])]
    for a in sets:
        for b in sets:
            yield ("survey", [], [a, b], EXACT)

def melds():
    """Each chunk over eight positions with the changes 1 and -2, cut at each place."""
    for picks in itertools.product((None, 1, -2), repeat=8):
        rows = [p + (d,) for p, d in zip(PLACES, picks) if d is not None]
        for cut in range(len(rows) + 1):
            yield ("meld", [], [chunk_of(rows[:cut]), chunk_of(rows[cut:])], 0)

def fitting(x, y):
    """The second list with a small change wherever a sum would leave 64 bits."""
    first = {r[:3]: r[3] for r in x}
    return [r if -(1 << 63) <= r[3] + first.get(r[:3], 0) < 1 << 63 else r[:3] + (-1 if r[3] > 0 else 1,) for r in y]

def merges(rng, count):
    """All pairs over eight positions, each in neither, in one, or in both, where the sum is 0 or not, with the changes 1, -1, 2, -2; all pairs
    of chunks over three positions with each of those changes; then random ones, with sums near the ends of 64 bits, at sizes around powers
    of two."""
    turn = (1, -1, 2, -2)
    for picks in itertools.product(range(5), repeat=8):
        x = [p + (turn[i % 4],) for i, (p, s) in enumerate(zip(PLACES, picks)) if s in (1, 3, 4)]
        y = [p + (-turn[i % 4] if s == 4 else turn[(i + 2) % 4],) for i, (p, s) in enumerate(zip(PLACES, picks)) if s > 1]
        yield ("merge", [], [chunk_of(x), chunk_of(y)], EXACT)
    for places in ([PLACES[i] for i in at] for at in ((0, 1, 2), (0, 2, 4), (1, 3, 5), (2, 5, 6))):
        every = [chunk_of([p + (d,) for p, d in zip(places, picks) if d]) for picks in itertools.product((0,) + turn, repeat=3)]
        for a in every:
            for b in every:
                yield ("merge", [], [a, b], EXACT)
                yield ("whole", [], [a, b], EXACT + (0, 0))
    for n in SIZES + [65535, 65536]:
        for flat in (True, False):
            x, y = rows_of(rng, n, flat), rows_of(rng, n, flat)
            y = sorted({r[:3]: r for r in y + [r[:3] + (-r[3],) for r in x if rng.random() < 0.3 and signed(r[3] % TOP64) != -(1 << 63)]}.values())
            yield ("merge", [], [chunk_of(x), chunk_of(y)], EXACT)
            y = fitting(x, y)
            for few in (y, y[::max(1, n // 64)]):
                yield ("merge", [], [chunk_of(x), chunk_of(few)], EXACT)
                yield ("merge", [], [chunk_of(few), chunk_of(x)], EXACT)
                yield ("whole", [], [chunk_of(x), chunk_of(few)], EXACT + (0, 0))
    for n in (LIMIT, LIMIT + 1):
        rows = [(i // 16, i // 4 % 4, i % 4, 1) for i in range(n)]
        yield ("merge", [], [chunk_of(rows[::2]), chunk_of(rows[1::2])], EXACT)
        yield ("merge", [], [chunk_of(rows[:n // 2]), chunk_of(rows[n // 2:])], EXACT)
    for _ in range(count):
        n = rng.randrange(1, 24)
        x, y = rows_of(rng, n, False, rng.choice((0, 0, 0.1))), rows_of(rng, rng.randrange(1, 24), False)
        w, other = chunk_of(x), chunk_of(y)
        yield ("merge", [], [w, other], lent(rng))
        yield ("merge", [], [other, w], lent(rng))
        yield ("merge", [], [damaged(rng, w), other], lent(rng))
        yield ("merge", [], [other, damaged(rng, w)], lent(rng))
        yield ("whole", [], [w, chunk_of(fitting(x, y))], lent(rng) + (rng.choice((0, 2, -1)), rng.choice((0, 2, -1))))
        yield ("whole", [], [other, w], EXACT + (-rng.randrange(60), -rng.randrange(60)))
        yield ("whole", [], [damaged(rng, w), other], lent(rng) + (0, 0))

def limits():
    """The most updates and times, and one more."""
    for n in (LIMIT, LIMIT + 1):
        us = [x for i in range(n) for x in (i % 1000, 1, i, 1)]
        yield ("form_unsorted", us, [], 0)
        yield ("form", in_order(us), [], 0)
        rows = [(1, 1, t, 1) for t in range(n)]
        yield ("meld", [], [chunk_of(rows[:n // 2]), chunk_of(rows[n // 2:])], 0)

SIZES = [0, 1, 2, 3, 4, 5, 7, 8, 9, 15, 16, 17, 31, 32, 33, 63, 64, 65, 127, 128, 129, 255, 256, 257, 1023, 1024, 1025, 4095, 4096, 4097]

def damaged(rng, w):
    w = list(w)
    for _ in range(rng.choice((1, 1, 1, 2))):
        kind = rng.randrange(5)
        if kind == 0 and w:
            w[rng.randrange(len(w))] = rng.choice((0, 1, 2, TOP64 - 1, TOP64 - 4, 1 << 63, 1 << 20, (1 << 20) + 1, rng.randrange(TOP64)))
        elif kind == 1 and w:
            i = rng.randrange(len(w))
            w[i] = (w[i] + rng.choice((-1, 1))) % TOP64
        elif kind == 2:
            w = w[:rng.randrange(len(w) + 1)]
        elif kind == 3 and len(w) > 3:
            w[rng.randrange(4)] = TOP64 - 1 - rng.randrange(8)
        else:
            w.append(rng.randrange(TOP64))
    return w

def calls_on(rng, w, other):
    n = rng.choice((0, 1, 2, 3, rng.randrange(70), TOP64 - 1))
    yield ("check", [], [w], 3)
    yield ("start", [], [w], 3)
    yield ("walk", [], [w], 3)
    yield ("filter", [], [w], rng.choice((0, 3, -1)))
    yield ("split", [n], [w], rng.choice((0, 3, -1)))
    yield ("suffix", [rng.randrange(4), rng.randrange(6), rng.randrange(8)], [w], rng.choice((0, 3, -1)))
    if well_formed(w) and w[2]:
        yield ("suffix", cursor_at(w, rng.randrange(w[2])), [w], rng.choice((0, 3, -1)))
    yield ("meld", [], [w, other], rng.choice((0, 3, -1)))
    yield ("meld", [], [other, w], rng.choice((0, 3, -1)))
    yield ("extract", upper_on(rng, w), [w], lent(rng))
    yield ("extract", upper_on(rng, other), [w], lent(rng))
    yield ("survey", [], [w, other], lent(rng))
    yield ("survey", [], [other, w], lent(rng))

def step_on(rng, w):
    at = [rng.randrange(4) for _ in range(7)]
    if rng.random() < 0.1:
        at[rng.randrange(7)] = rng.choice((TOP64 - 2, 1 << 63, 1 << 40))
    return ("step", at, [w], 3)

def cases(rng, count):
    for w in small():
        yield ("check", [], [w], 3)
        yield ("start", [], [w], 0)
        yield ("walk", [], [w], 3)
        yield ("filter", [], [w], 0)
    settled = list(settled_small())
    for w in settled:
        for n in list(range(10)) + [TOP64 - 1]:
            yield ("split", [n], [w], 0)
        for at in itertools.product(range(3), range(5), range(9)):
            if at[0] <= w[0] and at[1] <= w[1] and at[2] <= w[2]:
                yield ("suffix", list(at), [w], 0)
        for b in settled:
            yield ("meld", [], [w, b], 0)
    ups = [p + (d % TOP64,) for p in PLACES for d in (1, -1, 2, -2)]
    for n in range(3):
        for us in itertools.product(ups, repeat=n):
            for call in ("form", "form_unsorted"):
                yield (call, [x for u in us for x in u], [], 0)
    for us in itertools.product(ups[::2], repeat=3):
        for call in ("form", "form_unsorted"):
            yield (call, [x for u in us for x in u], [], 0)
    yield from limits()
    yield from melds()
    yield from extracts()
    yield from surveys()
    for n in SIZES + [65535, 65536]:
        for flat in (True, False):
            rows = rows_of(rng, n, flat)
            w, gaps = chunk_of(rows), chunk_of([r if rng.random() < 0.7 else r[:3] + (0,) for r in rows])
            cut = rng.randrange(n + 1)
            yield ("check", [], [w], 3)
            yield ("walk", [], [w], 3)
            yield ("walk", [], [gaps], 3)
            yield ("start", [], [gaps], 3)
            yield ("filter", [], [gaps], 0)
            yield ("split", [cut], [w + [1, 2, 3]], 0)
            if n:
                yield ("suffix", cursor_at(w, rng.randrange(n)), [w], 0)
            yield ("meld", [], [chunk_of(rows[:cut]), chunk_of(rows[cut:])], 0)
            yield ("extract", upper_on(rng, w), [w], EXACT)
            yield ("extract", upper_of([time(1, 1)]), [w], EXACT)
            yield ("survey", [], [w, chunk_of(rows_of(rng, n, flat))], EXACT)
            yield ("survey", [], [w, chunk_of([r for r in rows if rng.random() < 0.5])], EXACT)
            u = updates_of(rng, n, max(1, n // 3) if flat else 3)
            yield ("form_unsorted", u, [], 0)
            yield ("form", in_order(u), [], 0)
    for _ in range(count):
        n = rng.randrange(1, 24)
        rows = rows_of(rng, n, rng.random() < 0.3, rng.choice((0, 0, 0.3)))
        cut = rng.randrange(n + 1)
        w, other = chunk_of(rows[:cut]), chunk_of(rows[cut:])
        bad = damaged(rng, chunk_of(rows))
        yield from calls_on(rng, w, other)
        yield from calls_on(rng, bad, other)
        yield step_on(rng, w)
        yield step_on(rng, bad)
        u = updates_of(rng, n, rng.choice((1, 3, TOP64)))
        if rng.random() < 0.3:
            u = damaged(rng, u)
        yield ("form_unsorted", u, [], rng.choice((0, 3, -1)))
        yield ("form", in_order(u) if len(u) % 4 == 0 and rng.random() < 0.7 else u, [], rng.choice((0, 3, -1)))

# ---- the two programs

def line_of(case, ours):
    call, head, parts, more = case
    if call == "extract" and not ours:
        head = head[1:1 + head[0]]
    if call == "whole" and not ours:
        call = "merge"
    text = " ".join([call] + [str(x) for x in head])
    if ours and more != 3:
        text = "@" + (",".join(map(str, more)) if type(more) is tuple else str(more)) + " " + text
    return "".join([text] + [" | " + " ".join(map(str, p)) for p in parts])

def run(command, lines):
    done = subprocess.run(command, input="\n".join(lines) + "\n", capture_output=True, text=True)
    out = done.stdout.split("\n")[:-1]
    if len(out) != len(lines):
        sys.exit("%s: %d answers for %d cases, status %d\n%s" % (command[-1], len(out), len(lines), done.returncode, done.stderr[:2000]))
    return out

def words(text):
    return text.split()

KNOWN = "known: the walker's start"
MERGES = ("merge", "whole")
CALLS = ("check", "extract", "filter", "form", "form_unsorted", "meld", "split", "start", "step", "suffix", "survey", "walk") + MERGES

def compare(case, mine, theirs):
    """None where they agree; else what differs."""
    call, head, parts, more = case
    if "changed" in mine or "unknown" in mine:
        return "a word changed that must not"
    mine = [words(f) for f in mine.split("|")]
    number, want = int(mine[0][0]), expected(call, head, parts, more)
    if call == "step":
        if not fits(parts[0]):
            return None if number == 5 else "01: 5"
        if theirs == "panic":
            return None if number == 5 else "the Rust panics"
        walker, record = [words(f) for f in theirs.split("|")]
        if record == ["done"]:
            return None if number == 100 and walker == [str(x) for x in head] else "the Rust says done"
        return None if number == 0 and mine[1:] == [walker, record] else "the Rust gives a record"
    if number != want:
        return "01: %d" % want
    if number:
        return None if len(mine) == 1 else "words with a refusal"
    if call == "check":
        a = parts[0]
        return None if mine[1] == [str(x) for x in [int(a[2] == a[3])] + a[:4]] else "01: the contents"
    if call == "form_unsorted":
        rows = sorted((tuple(head[i:i + 3]) + (signed(head[i + 3]),) for i in range(0, len(head), 4)))
        if mine.pop() != [str(x % TOP64) for r in rows for x in r]:
            return "01: the updates are left sorted"
    if call == "start" and parts[0][2] and not parts[0][3]:
        # times, and none with a diff: document 01 gives the end of each body's list 0, the Rust 0 for all three
        b = bodies(parts[0])
        good = mine[1] == ["0"] * 4 + [str(b[i][0]) for i in (1, 3, 5)] and theirs == "0 0 0 0 0 0 0"
        return KNOWN if good else "the words differ"
    theirs = [words(f) for f in theirs.split("|")]
    if call == "whole":
        rows, left, _ = joined(*parts)
        made = [chunk_of([r for r in rows if r[3]]), chunk_of(left) if left else []]
        if mine[2:4] != [[str(x) for x in w] for w in made]:
            return "the filtered words or the rest differ"
        mine[2:4] = []
    if call in MERGES:
        survivor = theirs[1] + ["0"] * 3
        survivor = [str(["none", "first", "second"].index(survivor[0]))] + survivor[1:4]
        return None if mine[1:] == [theirs[0], survivor] else "the words differ"
    if call == "survey":
        return None if [str(len(theirs[0]) // 3)] == mine[1] and theirs[0] == mine[2] else "the reports differ"
    if call == "extract":
        return compare_extract(mine[1:], theirs)
    return None if mine[1:] == theirs else "the words differ"

def compare_extract(mine, theirs):
    """The two outputs word by word; the frontier as a set, since the stand-in decides the order in which the Rust keeps it."""
    kept, shipped, answer = mine
    if [kept, shipped] != theirs[:2]:
        return "the words differ"
    answer = [int(x) for x in answer]
    count, corners = answer[1], answer[2:]
    if len(corners) != MOST or count > MOST or any(corners[count:]) or not ordered(corners[:count]):
        return "01: the frontier's places"
    if sorted(corners[:count]) != sorted(int(x) for x in theirs[2]):
        return "the frontiers differ"
    return None if answer[0] == (0 if shipped[2] == "0" else 1 if kept[2] == "0" else 2) else "01: the verdict"

def main():
    p = argparse.ArgumentParser()
    p.add_argument("--run", default="")
    p.add_argument("--docs", default=os.path.join(TOP, "..", "shared", "docs", "src"))
    p.add_argument("--seed", type=int, default=1)
    p.add_argument("--only", choices=CALLS)
    p.add_argument("--random", type=int, default=2000)
    p.add_argument("--show", type=int, default=5)
    o = p.parse_args()
    oracle = os.path.join(HERE, "target", "checked", "oracle")
    if not os.path.exists(oracle):
        subprocess.run(["sh", os.path.join(HERE, "build.sh"), os.path.abspath(o.docs)], check=True)
    answers = shlex.split(o.run) + [os.path.join(TOP, "build", "answers")]
    others = () if o.only in MERGES else cases(random.Random(o.seed), o.random)
    every = itertools.chain(others, merges(random.Random(o.seed), o.random))
    every = (c for c in every if not o.only or c[0] == o.only)
    total, numbers, known, differs = collections.Counter(), collections.defaultdict(collections.Counter), collections.Counter(), collections.defaultdict(list)
    told = 0
    while part := list(itertools.islice(every, 50000)):
        mine = run(answers, [line_of(c, True) for c in part])
        asked = [i for i, c in enumerate(part) if c[0] != "check" and (fits(c[2][0]) if c[0] == "step" else expected(*c) == 0)]
        theirs = dict(zip(asked, run([oracle], [line_of(part[i], False) for i in asked])))
        told += len(asked)
        for i, case in enumerate(part):
            total[case[0]] += 1
            numbers[case[0]][int(mine[i].split("|")[0].split()[0])] += 1
            wrong = compare(case, mine[i], theirs.get(i, ""))
            if wrong == KNOWN:
                known[case[0]] += 1
            elif wrong:
                differs[case[0]].append((wrong, line_of(case, True), mine[i], theirs.get(i, "not asked")))
    for call in sorted(total):
        accepted = numbers[call].pop(0, 0)
        print("%-14s %7d cases, %7d accepted, %7d refused or done (%s), %5d differ as known, %5d differ otherwise"
              % (call, total[call], accepted, total[call] - accepted, ", ".join("%d: %d" % x for x in sorted(numbers[call].items())),
                 known[call], len(differs[call])))
        for wrong, line, a, b in sorted(differs[call], key=lambda d: len(d[1]))[:o.show]:
            print("  %s: %s\n    ours %s\n    Rust %s" % (wrong, line[:300], a[:300], b[:300]))
    print("seed %d: %d cases, %d asked of the Rust, %d differ as known, %d differ otherwise"
          % (o.seed, sum(total.values()), told, sum(known.values()), sum(map(len, differs.values()))))
    sys.exit(1 if any(differs.values()) else 0)

if __name__ == "__main__":
    main()
