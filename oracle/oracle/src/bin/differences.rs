//! differences DIR: the smallest inputs of each difference, what the crate's code says and what the catalogue says.
use oracle::{crate_side, generate::*, model, shapes, sheet::*};
fn main() {
    std::thread::Builder::new().stack_size(1 << 29).spawn(run).unwrap().join().unwrap();
}
fn save(dir: &str, n: &str, s: &BodySheet, it: &ItemSheet) {
    s.check().unwrap();
    it.check().unwrap();
    std::fs::write(format!("{dir}/{n}.body"), s.encode()).unwrap();
    std::fs::write(format!("{dir}/{n}.items"), it.encode()).unwrap();
}
fn show(s: &BodySheet, it: &ItemSheet) {
    for (i, n) in s.nodes.iter().enumerate() {
        println!("    node {} kind {} a {} b {} children {:?}", i + 1, n.kind, n.a, n.b, n.ch);
    }
    println!("    bindings {:?} frames {:?} items {:?} consts {:?} expansions {:?}", s.bindings, s.frames, it.items, it.consts, it.expansions);
}
fn size(s: &BodySheet, it: &ItemSheet) -> usize {
    s.nodes.len() * 100 + s.bindings.len() * 10 + s.frames.len() * 10 + it.items.len() + it.consts.len() + it.expansions.len()
}
fn run() {
    let dir = std::env::args().nth(1).unwrap();
    let tries: u64 = std::env::args().nth(2).map_or(200_000, |x| x.parse().unwrap());
    std::fs::create_dir_all(&dir).unwrap();
    // smallest by random search, all sorts at once
    type Found = Option<(usize, BodySheet, ItemSheet, String)>;
    let mut ranges: Found = None;
    let mut off: Found = None;
    let mut order: Found = None;
    let mut missed: Found = None;
    let mut alarm: Found = None;
    let (mut p_ok, mut p_missed, mut p_alarm, mut p_both) = (0u64, 0u64, 0u64, 0u64);
    let mut off_count = 0u64;
    let put = |f: &mut Found, s: &BodySheet, it: &ItemSheet, t: String| {
        let z = size(s, it);
        if f.as_ref().is_none_or(|x| x.0 > z) {
            *f = Some((z, s.clone(), it.clone(), t));
        }
    };
    for seed in 0..tries {
        let mut r = Rng(seed.wrapping_mul(0x9E37) ^ 0x5555);
        let n = 2 + r.below(14);
        let Some((s, it)) = random(&mut r, n) else { continue };
        let b = crate_side::build(&s, &it, false);
        let m = model::build(&s);
        let exprs: Vec<u16> = (1..=s.nodes.len() as u16).filter(|&n| s.is_expr(n)).collect();
        let mut same = true;
        let mut heads = vec![];
        for u in s.uses() {
            let h = b.use_heading(&s, u);
            let own = m.use_heading(&s, &it, u);
            heads.push((u, own));
            if h != own {
                same = false;
                put(&mut ranges, &s, &it, format!("use {u}: crate {h}, catalogue {own}"));
            }
            let e = b.use_heading_entering(&s, &[], u);
            if e != h {
                put(&mut order, &s, &it, format!("use {u}: resolver_for_scope {h}, update_to_inner_scope {e}"));
            }
            let chain: Vec<u32> = b.scopes().scope_chain(Some(b.scope_of(u))).map(crate_side::snum).collect();
            for &f in &exprs {
                if !chain.contains(&crate_side::snum(b.scope_of(f))) {
                    let e = b.use_heading_entering(&s, &[f], u);
                    if e != h {
                        off_count += 1;
                        put(&mut off, &s, &it, format!("enter node {f}, then use {u}: crate finds {e}; from outside {h}; catalogue refuses with 22"));
                    }
                }
            }
        }
        let (lo, hi) = (0, m.scopes.iter().filter(|x| !x.entries.is_empty()).count());
        let _ = (lo, hi);
        // entries in a block or macro scope would make the two orders differ
        for (i, sc) in m.scopes.iter().enumerate() {
            if matches!(sc.kind, model::Kind::Block(..) | model::Kind::Macro(_)) {
                let (f, t) = b.scopes().oracle_range(crate_side::sid(i as u32 + 1));
                assert!(f == t && sc.entries.is_empty());
            }
        }
        if !same {
            continue;
        }
        let by_crate = |t: &BodySheet| -> Vec<(u16, Heading)> {
            let bt = crate_side::build(t, &it, false);
            t.uses().map(|n| (n, bt.use_heading(t, n))).collect()
        };
        let (_, props) = samples(&mut r, &s, &it, 0, 6);
        for (bi, new) in props {
            let a = model::propose(&s, &m, &by_crate, bi, new);
            let catalogue = match a {
                model::Answer::Cleared => false,
                model::Answer::Moves(..) => true,
                _ => continue,
            };
            let mut says = None;
            for &(u, h) in &heads {
                let (leaves, comes) = b.crate_rename_checks(&s, u, bi, new);
                if h == Heading::Local(bi) {
                    if let Some(x) = leaves {
                        says = Some(format!("use {u} would leave for binding {x}"));
                    }
                } else if s.node(u).a == new {
                    if let Some(x) = comes {
                        says = Some(format!("use {u} would come from binding {x}"));
                    }
                }
            }
            match (catalogue, &says) {
                (true, None) => {
                    p_missed += 1;
                    put(&mut missed, &s, &it, format!("binding {bi} to {new}: catalogue {a}; the crate's two checks see nothing"));
                }
                (false, Some(x)) => {
                    p_alarm += 1;
                    put(&mut alarm, &s, &it, format!("binding {bi} to {new}: catalogue {a}; the crate's checks: {x}"));
                }
                (true, Some(_)) => p_both += 1,
                _ => p_ok += 1,
            }
        }
    }
    for (n, what, f) in [
        ("1-ranges", "entry ranges take in entries of scopes inside a pattern's expression", &ranges),
        ("2-off-chain", "the crate enters from off the chain", &off),
        ("3-rename-missed", "proposals in place of the two rename checks: a use moves, the crate's checks see nothing", &missed),
        ("4-rename-alarm", "the same: no use moves, the crate's checks report one", &alarm),
        ("x-order", "resolver_for_scope_ against update_to_inner_scope_ (order of block, macro, entries)", &order),
    ] {
        println!("{n}: {what}");
        match f {
            None => println!("    none found in {tries} sheets"),
            Some((_, s, it, t)) => {
                println!("    {t}");
                show(s, it);
                save(&dir, n, s, it);
            }
        }
    }
    println!("off-chain enterings that alter a heading: {off_count}");
    println!("proposals past test 34: both clear {p_ok}, both refuse {p_both}, crate misses {p_missed}, crate alarms {p_alarm}");
    // ---- against the Reference, the catalogue going with the crate
    for (n, want) in [
        ("1-ranges-smallest", "ranges: two params, the first with an expression"),
        ("5-own-pattern", "smallest: let x @ expr(x)"),
        ("6a-constants", "smallest: a parameter x and a constant that uses x"),
        ("6b-constants", "smallest: let x; and a constant that uses x"),
        ("7-opaque-parent", "the opaque form's own macro does not count"),
    ] {
        let (w, s, it, _) = shapes::shapes().into_iter().find(|x| x.0 == want).unwrap();
        let b = crate_side::build(&s, &it, false);
        println!("{n}: {w}");
        for u in s.uses() {
            let m = model::build(&s);
            println!("    use {u}: crate {}, catalogue {}", b.use_heading(&s, u), m.use_heading(&s, &it, u));
        }
        show(&s, &it);
        save(&dir, n, &s, &it);
    }
}
