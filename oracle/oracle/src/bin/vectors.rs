//! vectors DIR: writes NNN.body, NNN.items and NNN.expect (the dump) for the hand-made shapes and for random
//! lawful sheets, and INDEX.txt, a line a sheet. The same program gives the same bytes every time.
use oracle::{dump, generate::*, shapes, sheet::*};
use std::fmt::Write;
fn main() {
    std::thread::Builder::new().stack_size(1 << 29).spawn(run).unwrap().join().unwrap();
}
fn run() {
    let dir = std::env::args().nth(1).expect("vectors DIR");
    std::fs::create_dir_all(&dir).unwrap();
    let mut index = String::new();
    let mut n = 0;
    let mut all: Vec<(String, BodySheet, ItemSheet, Vec<(u32, u32)>)> = vec![];
    for (what, s, it, props) in shapes::shapes() {
        all.push((what, s, it, props));
    }
    let mut seed = 1u64;
    let mut add = |what: &str, count: usize, lo: usize, hi: usize, want_differ: Option<bool>| {
        let mut got = 0;
        while got < count {
            seed += 1;
            let mut r = Rng(seed.wrapping_mul(0x5DEECE66D) ^ 0x1B873593);
            let size = lo + r.below(hi - lo + 1);
            let Some((s, it)) = random(&mut r, size) else { continue };
            if s.nodes.len() < lo {
                continue;
            }
            if let Some(w) = want_differ {
                let mut q = r.clone();
                let d = dump::dump(&s, &it, &[], &[], &mut |n| q.below(n));
                if d.differ != w || (w && d.own_uses == 0) {
                    continue;
                }
            }
            got += 1;
            all.push((format!("{what} seed {seed}"), s, it, vec![]));
        }
    };
    add("random tiny", 40, 2, 12, None);
    add("random small", 80, 10, 60, None);
    add("random small, ranges move a use", 20, 5, 60, Some(true));
    add("random middle", 45, 60, 200, None);
    add("random large", 75, 200, 511, None);
    add("random large, ranges move a use", 8, 200, 511, Some(true));
    add("random full", 30, 512, 512, None);
    let mut bad = 0;
    let (mut large, mut full, mut differ) = (0, 0, 0);
    for (what, s, it, mut props) in all {
        n += 1;
        s.check().unwrap_or_else(|e| panic!("{what}: {e}"));
        it.check().unwrap_or_else(|e| panic!("{what}: {e}"));
        let mut r = Rng(n as u64 * 7919);
        let (looks, more) = samples(&mut r, &s, &it, 16, 24);
        more.into_iter().for_each(|x| if !props.contains(&x) { props.push(x) });
        let d = dump::dump(&s, &it, &looks, &props, &mut |n| r.below(n));
        for m in &d.mismatches {
            bad += 1;
            println!("{n:03} {what}: MISMATCH {m}");
        }
        let b = s.encode();
        let i = it.encode();
        assert_eq!(BodySheet::decode(&b).unwrap(), s);
        assert_eq!(ItemSheet::decode(&i).unwrap(), it);
        std::fs::write(format!("{dir}/{n:03}.body"), b).unwrap();
        std::fs::write(format!("{dir}/{n:03}.items"), i).unwrap();
        std::fs::write(format!("{dir}/{n:03}.expect"), &d.text).unwrap();
        assert!(what.is_ascii());
        let (nodes, uses) = (s.nodes.len(), s.uses().count());
        writeln!(index, "{n:03} {what} ({nodes} nodes, {uses} use{})", if uses == 1 { "" } else { "s" }).unwrap();
        large += (nodes >= 200) as usize;
        full += (nodes == 512) as usize;
        differ += d.differ as usize;
    }
    std::fs::write(format!("{dir}/INDEX.txt"), index).unwrap();
    println!("{n} sheets, {large} of 200 nodes or more, {full} of 512, {differ} with ranges that differ; {bad} mismatches");
}
