//! speed CASES NANOSECONDS: the Rust's side of bench/run.py. Times each case of the file: best and median in nanoseconds, and a sum over the
//! words of the result, as bench/ours.c does. Reading a case into columns, clones of inputs and drops of outputs are outside the clock.
//! With a third argument RUNS each call is made so often and nothing is printed, for counting its instructions.
use std::hint::black_box;
use std::time::Instant;
use columnar::ContainerOf;
use timely::progress::Antichain;
use dd::columnar::trie_merger::{extract, merge_pair, split_at, suffix_chunk, survey, Report};
use dd::columnar::updates::UpdatesBuilder;
use oracle::words::*;

fn sum(h: u64, w: &[u64]) -> u64 { w.iter().fold(h, |h, x| (h ^ x).wrapping_mul(0x100000001b3)) }

/// The best and the median of runs for `most` nanoseconds, at least 3 and at most 200; `prep` and `told` are not timed.
fn time_it<P, R>(most: u64, mut prep: impl FnMut() -> P, mut run: impl FnMut(P) -> R, told: impl Fn(&R) -> u64) {
    if let Some(runs) = std::env::args().nth(3) {
        for _ in 0..runs.parse().expect("a number") { black_box(run(black_box(prep()))); }
        return;
    }
    let (mut ns, mut spent, mut h) = (Vec::new(), 0, 0);
    while ns.len() < 200 && (ns.len() < 3 || spent < most) {
        let p = black_box(prep());
        let start = Instant::now();
        let r = black_box(run(p));
        let e = start.elapsed().as_nanos() as u64;
        ns.push(e);
        spent += e;
        if ns.len() == 1 { h = told(&r); }
    }
    ns.sort();
    println!("{} {} {h}", ns[0], ns[ns.len() / 2]);
}

type Row = (u64, u64, u64, i64);

fn rows(w: &[u64]) -> Vec<Row> { load(w).iter().map(|(k, v, t, d)| (*k, *v, time_word(t), *d)).collect() }

/// Two sorted arrays of records into one: what a merge costs without a trie.
fn plain_merge(a: &[Row], b: &[Row], out: &mut Vec<Row>) {
    let (mut i, mut j) = (0, 0);
    while i < a.len() && j < b.len() {
        match (a[i].0, a[i].1, a[i].2).cmp(&(b[j].0, b[j].1, b[j].2)) {
            std::cmp::Ordering::Less => { out.push(a[i]); i += 1; }
            std::cmp::Ordering::Greater => { out.push(b[j]); j += 1; }
            std::cmp::Ordering::Equal => {
                let d = a[i].3.wrapping_add(b[j].3);
                if d != 0 { out.push((a[i].0, a[i].1, a[i].2, d)); }
                i += 1;
                j += 1;
            }
        }
    }
    out.extend_from_slice(&a[i..]);
    out.extend_from_slice(&b[j..]);
}

fn one(c: &Chunk) -> u64 { sum(0, &store(c)) }
fn two(c: &(Chunk, Chunk)) -> u64 { sum(one(&c.0), &store(&c.1)) }

fn time_case(call: u64, a: &[u64], b: &[u64], most: u64) {
    match call {
        1 => { let u = updates(a); time_it(most, || (), |()| Chunk::form(u.iter().map(|(k, v, t, d)| (k, v, t, d))), one) }
        2 => { let u = updates(a); time_it(most, || (), |()| Chunk::form_unsorted(u.iter().map(|(k, v, t, d)| (k, v, t, d))), one) }
        3 => { let c = load(a); time_it(most, || c.clone(), |c| c.filter_zero(), one) }
        4 => { let c = load(a); time_it(most, || c.clone(), |c| split_at(c, b[0] as usize), two) }
        5 => {
            let (c, mut upper) = (load(a), Antichain::new());
            for t in b { upper.insert(time(*t)); }
            time_it(most, || c.clone(), |c| {
                let (mut kept, mut shipped, mut front) = (Chunk::default(), Chunk::default(), Antichain::new());
                extract::<Upd, _, _, _>([c], upper.borrow(), &mut front, |c| shipped = c, |c| kept = c);
                (kept, shipped)
            }, two)
        }
        6 => { let c = load(a); let at = (b[0] as usize, b[1] as usize, b[2] as usize); time_it(most, || (), |()| suffix_chunk(at, &c), one) }
        7 => { let (c, d) = (load(a), load(b)); time_it(most, || c.clone(), |c| { let mut m = UpdatesBuilder::new_from(c); m.meld(&d); m.done() }, one) }
        8 => { let c = load(a); time_it(most, || (), |()| c.iter().fold(0, |h, (k, v, t, d)| sum(h, &[*k, *v, time_word(t), *d as u64])), |h| *h) }
        9 => {
            let (c, d) = (load(a), load(b));
            time_it(most, || (), |()| survey::<ContainerOf<u64>>(c.view().keys, d.view().keys, &[Report::Both(0, 0)]), |r| r.iter().fold(0, |h, r| sum(h, &match *r {
                Report::This(l, h) => [0, l as u64, h as u64],
                Report::That(l, h) => [1, l as u64, h as u64],
                Report::Both(l, h) => [2, l as u64, h as u64],
            })))
        }
        10 => { let (c, d) = (load(a), load(b)); time_it(most, || (Some(((0, 0, 0), c.clone())), Some(((0, 0, 0), d.clone()))), |(mut x, mut y)| { let o = merge_pair(&mut x, &mut y); (o, x, y) }, |r| one(&r.0)) }
        11 => {
            let (c, d) = (rows(a), rows(b));
            let mut out = Vec::with_capacity(c.len() + d.len());
            time_it(most, || (), |()| { out.clear(); plain_merge(black_box(&c), black_box(&d), &mut out); out.len() }, |_| 0)
        }
        _ => println!("-"), // the Rust has no check
    }
}

fn main() {
    let mut args = std::env::args().skip(1);
    let bytes = std::fs::read(args.next().expect("a file of cases")).expect("read");
    let most: u64 = args.next().expect("nanoseconds").parse().expect("a number");
    let words: Vec<u64> = bytes.chunks_exact(8).map(|b| u64::from_le_bytes(b.try_into().unwrap())).collect();
    let mut rest = &words[..];
    while let Some((call, more)) = rest.split_first() {
        rest = more;
        let mut take = || { let (a, b) = rest[1..].split_at(rest[0] as usize); rest = b; a };
        let (a, b) = (take(), take());
        time_case(*call, a, b, most);
    }
}
