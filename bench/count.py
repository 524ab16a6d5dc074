#!/usr/bin/env python3
"""Counts the instructions that each call executes for a record, at growing sizes: a count that is the same each time, on any machine that
has qemu-x86_64. It says how a call's cost grows, and nothing about its time.

    make build/ours
    python3 bench/count.py --run "qemu-x86_64 [-L LIBRARIES]" [--sizes N..] [--only CALL]
    python3 bench/count.py --rust [--sizes N..] [--only CALL]
    python3 bench/count.py --beside SPEED --run "qemu-x86_64 [-L LIBRARIES]" [--sizes N..] [--only CALL]

qemu runs one instruction at a time and writes a line for each. With --rust it is the Rust's calls, as valgrind counts them, in this
machine's own instructions: beside the library's they mean something only where the machine is x86-64. With --beside, SPEED is the Rust's
`speed` built for x86-64 (cargo build --release --target x86_64-unknown-linux-gnu in oracle/), and both are counted under the one emulator,
so that the counts and their ratio are of one instruction set. The count is always that of a program that calls once, less that of the same
program calling never, on the same case; the Rust's holds the clone of its input and the drop of its output."""
import argparse, array, os, re, shlex, subprocess, sys
from run import CALLS, TOP, TOP64, cases

def lines(command):
    qemu = subprocess.Popen(command, stderr=subprocess.PIPE, stdout=subprocess.DEVNULL)
    n = 0
    while block := qemu.stderr.read(1 << 20):
        n += block.count(b"Trace ")
    if qemu.wait():
        sys.exit("%s: status %d" % (command, qemu.returncode))
    return n

def rust(path, runs):
    speed = os.path.join(TOP, "oracle", "target", "release", "speed")
    done = subprocess.run(["valgrind", "--tool=callgrind", "--callgrind-out-file=/dev/null", speed, path, "0", runs], capture_output=True, text=True)
    return int(re.search(r"Collected : (\d+)", done.stderr)[1])

def one_by_one(run):
    """The words that make this qemu run one instruction at a time."""
    known = subprocess.run(run[:1] + ["--help"], capture_output=True, text=True).stdout
    return ["-one-insn-per-tb" if "-one-insn-per-tb" in known else "-singlestep", "-d", "exec,nochain"]

def main():
    p = argparse.ArgumentParser()
    p.add_argument("--run", default="qemu-x86_64")
    p.add_argument("--rust", action="store_true")
    p.add_argument("--beside")
    p.add_argument("--sizes", type=int, nargs="+", default=[256, 1024, 4096])
    p.add_argument("--only")
    o = p.parse_args()
    path = os.path.join(TOP, "build", "counted.bin")
    qemu = [] if o.rust else shlex.split(o.run) + one_by_one(shlex.split(o.run))
    counted = lambda program: lambda runs: lines(qemu + [program, path, "0", runs])
    count = (lambda runs: rust(path, runs)) if o.rust else counted(os.path.join(TOP, "build", "ours"))
    found = {}
    for n in o.sizes:
        for shape, per in (("flat", 1), ("trie", 4)):
            for call, records, a, b in cases(n, per, per):
                if (call == "plain merge" and not o.rust) or (call == "check" and (o.rust or o.beside)) or (o.only and call != o.only):
                    continue
                with open(path, "wb") as f:
                    for part in ([CALLS.index(call)], [len(a)], [x % TOP64 for x in a], [len(b)], [x % TOP64 for x in b]):
                        array.array("Q", part).tofile(f)
                name = call + (", few" if b and call in ("merge_pair", "plain merge") and b[2] <= 64 else "")
                each = lambda c: (c("1") - c("0")) / records
                found.setdefault((name, shape), []).append(each(count))
                if o.beside:
                    found[name, shape].append(each(counted(o.beside)))
    if o.beside:
        print("| call | shape | records | ours | the Rust's | ratio |\n|---|---|---|---|---|---|")
        for (call, shape), counts in sorted(found.items()):
            for n, x, y in zip(o.sizes, counts[::2], counts[1::2]):
                print("| %s | %s | %d | %.0f | %.0f | %.2f |" % (call, shape, n, x, y, x / y))
        return
    print("| call | shape | " + " | ".join("%d" % n for n in o.sizes) + " |\n|---|---|" + "---|" * len(o.sizes))
    for (call, shape), counts in sorted(found.items()):
        print("| %s | %s | %s |" % (call, shape, " | ".join("%.0f" % x for x in counts)))

if __name__ == "__main__":
    main()
