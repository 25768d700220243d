//! Hand-made sheets: the eight worked examples, how far names reach, hygiene, frames, the largest counts, and
//! the smallest inputs of the differences between crate and catalogue.
use crate::generate::{Rng, T, number, t};
use crate::sheet::{BodySheet, ItemSheet, Node};

type Made = (String, BodySheet, ItemSheet, Vec<(u32, u32)>);

fn n(kind: u8, a: u32, b: u32, ch: &[u16]) -> Node {
    Node { kind, a, b, ch: ch.to_vec() }
}
pub fn base() -> BodySheet {
    BodySheet {
        nodes: vec![
            n(21, 1, 0, &[]),
            n(2, 3, 0, &[]),
            n(21, 2, 0, &[]),
            n(40, 0, 0, &[3, 0, 2, 0]),
            n(2, 4, 0, &[]),
            n(7, 0, 0, &[5, 4]),
            n(60, 0, 0, &[6, 1]),
        ],
        bindings: vec![(3, 0), (4, 0)],
        frames: vec![],
    }
}
// short hands for trees
fn us(name: u32, h: u32) -> Option<T> {
    Some(t(2, name, h, vec![]))
}
fn leaf() -> Option<T> {
    Some(t(1, 0, 0, vec![]))
}
fn bd(b: u32) -> Option<T> {
    Some(t(21, b, 0, vec![]))
}
fn bds(b: u32, sub: Option<T>) -> Option<T> {
    Some(t(21, b, 0, vec![sub]))
}
fn k(kind: u8, ch: Vec<Option<T>>) -> Option<T> {
    Some(t(kind, 0, 0, ch))
}
fn blk(a: u32, l: u32, tail: Option<T>, st: Vec<Option<T>>) -> Option<T> {
    let mut ch = vec![tail];
    ch.extend(st);
    Some(t(7, a, l, ch))
}
fn lt(p: Option<T>, init: Option<T>) -> Option<T> {
    k(40, vec![p, None, init, None])
}
fn mac(m: u32) -> Option<T> {
    Some(t(42, m, 0, vec![]))
}
fn st(e: Option<T>) -> Option<T> {
    k(41, vec![e])
}
fn body(own: u32, e: Option<T>, params: Vec<Option<T>>) -> T {
    let mut ch = vec![e];
    ch.extend(params);
    t(60, own, 0, ch)
}
fn sheet(tree: T, bindings: &[(u32, u32)], frames: &[(u8, u32)]) -> BodySheet {
    BodySheet {
        nodes: number(tree, &mut Rng(0), false),
        bindings: bindings.to_vec(),
        frames: frames.to_vec(),
    }
}
fn it(items: &[(u32, u32, u8, u32)], consts: &[(u32, u32, u32)], exp: &[(u32, u32, u32, u32)]) -> ItemSheet {
    ItemSheet { items: items.to_vec(), consts: consts.to_vec(), expansions: exp.to_vec() }
}

pub fn shapes() -> Vec<Made> {
    let mut o: Vec<Made> = vec![];
    let none = ItemSheet::default();
    let mut add = |w: &str, s: BodySheet, i: ItemSheet, p: &[(u32, u32)]| o.push((w.to_owned(), s, i, p.to_vec()));

    // ---- the worked examples
    add("example 1: base tree", base(), none.clone(), &[]);
    add("example 2: base, binding 2 to 3", base(), none.clone(), &[(2, 3)]);
    let mut three = base();
    three.nodes[1] = n(1, 0, 0, &[]);
    three.nodes[4] = n(2, 3, 0, &[]);
    add("example 3: binding 1 to 4", three.clone(), none.clone(), &[(1, 4)]);
    add("example 4: as example 3, binding 2 to 3", three.clone(), none.clone(), &[(2, 3)]);
    let mut five = three.clone();
    five.nodes[5].a = 9;
    add("example 5: function 5 at place 9, binding 1 to 5", five, it(&[(9, 5, 1, 41)], &[], &[]), &[(1, 5)]);
    let mut six = base();
    six.nodes[1].a = 6;
    add("example 6: function 6 at place 0, binding 1 to 6", six, it(&[(0, 6, 1, 42)], &[], &[]), &[(1, 6)]);
    add(
        "example 7: let x; macro 7; let x; use x of macro 7",
        sheet(
            body(0, blk(0, 0, us(3, 1), vec![lt(bd(1), None), mac(7), lt(bd(2), None)]), vec![]),
            &[(3, 0), (3, 0)],
            &[],
        ),
        it(&[], &[], &[(1, 7, 0, 1)]),
        &[(1, 4), (2, 4)],
    );
    add("example 8: base, 1 to 3, 1 to 1", base(), none.clone(), &[(1, 3), (1, 1)]);

    // ---- the difference of entry ranges, smallest: a pattern, an expression in it that binds, a later bind
    // fn f(((const block: { let z; }), y)) { z }
    let inner = || blk(0, 0, None, vec![lt(bd(1), None)]);
    add(
        "ranges: param pattern (expr{let z;}, y), body z",
        sheet(body(0, us(3, 0), vec![k(22, vec![k(23, vec![inner()]), bd(2)])]), &[(3, 0), (4, 0)], &[]),
        none.clone(),
        &[(1, 4), (2, 3), (2, 5)],
    );
    add(
        "ranges: the same, the bind first (nothing taken in)",
        sheet(body(0, us(3, 0), vec![k(22, vec![bd(2), k(23, vec![inner()])])]), &[(3, 0), (4, 0)], &[]),
        none.clone(),
        &[(2, 3)],
    );
    add(
        "ranges: two params, the first with an expression",
        sheet(body(0, us(3, 0), vec![k(23, vec![inner()]), bd(2)]), &[(3, 0), (4, 0)], &[]),
        none.clone(),
        &[],
    );
    add(
        "ranges: taken entry hides an outer local",
        sheet(
            body(
                0,
                blk(0, 0, us(3, 0), vec![lt(k(22, vec![k(23, vec![inner()]), bd(2)]), None)]),
                vec![bd(3)],
            ),
            &[(3, 0), (4, 0), (3, 0)],
            &[],
        ),
        none.clone(),
        &[(3, 4), (3, 5)],
    );
    add(
        "ranges: taken entry before an own one of the same name",
        sheet(body(0, us(3, 0), vec![k(22, vec![k(23, vec![inner()]), bd(2)])]), &[(3, 0), (3, 0)], &[]),
        none.clone(),
        &[(1, 4), (2, 4)],
    );
    add(
        "ranges: closure, arm and condition let in a pattern's expression",
        sheet(
            body(
                0,
                us(3, 0),
                vec![
                    k(22, vec![
                        k(23, vec![
                            k(9, vec![us(3, 0), None, bd(1), None]),
                            k(10, vec![leaf(), k(50, vec![bd(3), None, us(3, 0)])]),
                            k(5, vec![k(6, vec![bd(4), leaf()]), us(3, 0), None]),
                        ]),
                        bd(2),
                    ]),
                ],
            ),
            &[(3, 0), (4, 0), (3, 0), (5, 0)],
            &[],
        ),
        none.clone(),
        &[],
    );

    // ---- how far names reach
    add(
        "smallest: let x @ expr(x)",
        sheet(body(0, blk(0, 0, None, vec![lt(bds(1, k(23, vec![us(3, 0)])), None)]), vec![]), &[(3, 0)], &[]),
        none.clone(),
        &[(1, 4)],
    );
    add(
        "smallest: a parameter x and a constant that uses x",
        sheet(body(0, k(11, vec![us(3, 0)]), vec![bd(1)]), &[(3, 0)], &[]),
        none.clone(),
        &[(1, 4)],
    );
    add(
        "smallest: let x; and a constant that uses x",
        sheet(body(0, blk(0, 0, k(11, vec![us(3, 0)]), vec![lt(bd(1), None)]), vec![]), &[(3, 0)], &[]),
        none.clone(),
        &[(1, 4)],
    );
    add(
        "let reaches its own pattern's expression",
        sheet(body(0, blk(0, 0, None, vec![lt(k(22, vec![bd(1), k(23, vec![us(3, 0)])]), us(3, 0))]), vec![]), &[(3, 0)], &[]),
        it(&[(0, 3, 4, 5)], &[], &[]),
        &[],
    );
    add(
        "a pattern's expression sees a bind that stands after it in the pattern",
        sheet(body(0, leaf(), vec![k(22, vec![k(23, vec![us(3, 0)]), bd(1)])]), &[(3, 0)], &[]),
        none.clone(),
        &[],
    );
    add(
        "parameter reaches a constant, a let does not",
        sheet(
            body(
                0,
                blk(0, 0, k(3, vec![k(11, vec![us(3, 0)]), k(11, vec![us(4, 0)]), us(4, 0)]), vec![lt(bd(2), None)]),
                vec![bd(1)],
            ),
            &[(3, 0), (4, 0)],
            &[],
        ),
        it(&[(0, 4, 1, 8)], &[], &[]),
        &[(2, 3), (1, 4)],
    );
    add(
        "let x; then a constant use of x meets the parameter x",
        sheet(
            body(0, blk(0, 0, k(12, vec![us(3, 0), us(3, 0)]), vec![lt(bd(2), None)]), vec![bd(1)]),
            &[(3, 0), (3, 0)],
            &[],
        ),
        none.clone(),
        &[(1, 4), (2, 4)],
    );
    add(
        "items of a numbered block reach constants inside it, and its types",
        sheet(
            body(
                0,
                blk(9, 0, k(13, vec![us(3, 0), k(32, vec![k(30, vec![]), us(3, 0)])]), vec![lt(bd(1), None)]),
                vec![],
            ),
            &[(3, 0)],
            &[],
        ),
        it(&[(9, 3, 4, 6)], &[], &[]),
        &[(1, 4)],
    );
    add(
        "let inside a constant does not reach a constant in that constant",
        sheet(
            body(0, k(11, vec![blk(0, 0, k(3, vec![us(3, 0), k(11, vec![us(3, 0)])]), vec![lt(bd(1), None)])]), vec![]),
            &[(3, 0)],
            &[],
        ),
        none.clone(),
        &[],
    );
    add(
        "let else, initializer and type do not see the let",
        sheet(
            body(
                0,
                blk(0, 0, us(3, 0), vec![k(40, vec![bd(1), k(32, vec![k(30, vec![]), us(3, 0)]), us(3, 0), us(3, 0)])]),
                vec![],
            ),
            &[(3, 0)],
            &[],
        ),
        none.clone(),
        &[],
    );
    add(
        "if let chain: later condition and then see it, else does not, nor what follows",
        sheet(
            body(
                0,
                k(3, vec![
                    k(5, vec![
                        k(4, vec![k(4, vec![k(6, vec![bd(1), us(3, 0)]), us(3, 0)]), k(6, vec![bd(2), us(3, 0)])]),
                        us(3, 0),
                        us(3, 0),
                    ]),
                    us(3, 0),
                ]),
                vec![],
            ),
            &[(3, 0), (3, 0)],
            &[],
        ),
        none.clone(),
        &[(1, 4), (2, 4)],
    );
    add(
        "arm: guard let reaches the expression, not the next arm",
        sheet(
            body(
                0,
                k(10, vec![
                    us(3, 0),
                    k(50, vec![bd(1), k(6, vec![bd(2), us(3, 0)]), k(3, vec![us(3, 0), us(4, 0)])]),
                    k(50, vec![k(20, vec![]), us(3, 0), us(4, 0)]),
                ]),
                vec![],
            ),
            &[(3, 0), (4, 0)],
            &[],
        ),
        none.clone(),
        &[(1, 4), (2, 3)],
    );
    add(
        "or-pattern repeats a binding",
        sheet(
            body(
                0,
                k(10, vec![leaf(), k(50, vec![k(22, vec![k(22, vec![bd(1), bd(2)]), k(22, vec![bd(2), bd(1)])]), us(4, 0), us(3, 0)])]),
                vec![],
            ),
            &[(3, 0), (4, 0)],
            &[],
        ),
        none.clone(),
        &[(1, 4), (2, 3), (1, 5), (2, 5)],
    );
    add(
        "one binding bound in two scopes",
        sheet(
            body(0, blk(0, 0, us(3, 0), vec![lt(bd(1), None), st(us(3, 0)), lt(bd(2), None), lt(bd(1), None)]), vec![]),
            &[(3, 0), (4, 0)],
            &[],
        ),
        none.clone(),
        &[(1, 4), (2, 3), (1, 5)],
    );
    add(
        "subpatterns: x @ (y @ .., expr)",
        sheet(
            body(0, blk(0, 0, us(4, 0), vec![lt(bds(1, k(22, vec![bds(2, k(23, vec![us(3, 0), us(4, 0)]))])), us(4, 0))]), vec![]),
            &[(3, 0), (4, 0)],
            &[],
        ),
        none.clone(),
        &[(1, 4), (2, 3)],
    );
    add(
        "closure: types before patterns, blocks in types make scopes first",
        sheet(
            body(
                0,
                k(9, vec![
                    us(3, 0),
                    k(32, vec![k(30, vec![]), blk(8, 2, us(3, 0), vec![])]),
                    bd(1),
                    k(32, vec![k(32, vec![k(30, vec![]), blk(0, 0, us(3, 0), vec![lt(bd(2), None)])]), us(3, 0)]),
                    bd(3),
                    None,
                ]),
                vec![bd(4)],
            ),
            &[(3, 0), (3, 0), (4, 0), (3, 0)],
            &[],
        ),
        it(&[(8, 3, 1, 3)], &[], &[]),
        &[(1, 4), (4, 5)],
    );

    // ---- hygiene
    add(
        "macro seen from a constant: only scope 1 remains",
        sheet(
            body(0, blk(0, 0, k(11, vec![us(3, 1)]), vec![lt(bd(2), None), mac(7), lt(bd(3), None)]), vec![bd(1)]),
            &[(3, 0), (3, 0), (3, 1)],
            &[],
        ),
        it(&[], &[], &[(1, 7, 0, 1)]),
        &[(1, 4)],
    );
    add(
        "a let of the macro's own hygiene inside the expansion comes first",
        sheet(
            body(0, blk(0, 0, k(3, vec![us(3, 1), us(3, 0)]), vec![lt(bd(1), None), mac(7), lt(bd(2), None), lt(bd(3), None)]), vec![]),
            &[(3, 0), (3, 1), (3, 0)],
            &[],
        ),
        it(&[], &[], &[(1, 7, 0, 1)]),
        &[(1, 4), (2, 4), (3, 4)],
    );
    add(
        "macro in macro: two steps, the second by the parent's own macro",
        sheet(
            body(0, blk(0, 0, us(3, 2), vec![lt(bd(1), None), mac(7), lt(bd(2), None), mac(8), lt(bd(3), None)]), vec![]),
            &[(3, 0), (3, 0), (3, 0)],
            &[],
        ),
        it(&[], &[], &[(1, 7, 0, 1), (2, 8, 1, 2)]),
        &[(1, 4)],
    );
    add(
        "macro in macro, met in the other order: one step only",
        sheet(
            body(0, blk(0, 0, us(3, 2), vec![lt(bd(1), None), mac(8), lt(bd(2), None), mac(7), lt(bd(3), None)]), vec![]),
            &[(3, 0), (3, 1), (3, 0)],
            &[],
        ),
        it(&[], &[], &[(1, 7, 0, 1), (2, 8, 1, 2)]),
        &[],
    );
    add(
        "one macro scope gives one step, even if the parent is of that macro again",
        sheet(
            body(0, blk(0, 0, us(3, 2), vec![lt(bd(1), None), lt(bd(2), None), mac(7)]), vec![]),
            &[(3, 0), (3, 1)],
            &[],
        ),
        it(&[], &[], &[(1, 7, 0, 1), (2, 7, 1, 2)]),
        &[(2, 4)],
    );
    add(
        "parent's opaque hygiene for entries, the parent itself for the next macro",
        sheet(
            body(0, blk(0, 0, us(3, 1), vec![lt(bd(1), None), mac(8), mac(9), lt(bd(2), None), mac(7)]), vec![]),
            &[(3, 0), (4, 3)],
            &[],
        ),
        it(&[], &[], &[(1, 7, 2, 1), (2, 9, 0, 3), (3, 8, 0, 3)]),
        &[(2, 3)],
    );
    add(
        "the opaque form's own macro does not count",
        sheet(
            body(0, blk(0, 0, us(3, 1), vec![lt(bd(1), None), mac(8), mac(7)]), vec![]),
            &[(3, 0)],
            &[],
        ),
        it(&[], &[], &[(1, 7, 2, 1), (2, 9, 0, 3), (3, 8, 0, 3)]),
        &[],
    );
    add(
        "macro 0 in a record: no outer macro, yet its opaque form counts as a parent's",
        sheet(
            body(0, blk(0, 0, us(3, 1), vec![lt(bd(1), None), mac(7)]), vec![]),
            &[(3, 5)],
            &[],
        ),
        it(&[], &[], &[(1, 7, 2, 1), (2, 0, 9, 5)]),
        &[],
    );

    // ---- as rustc 1.95 runs them (rustc/macros_and_items.rs): the headings are those that rustc gave
    add(
        "rustc: an item of the block of the call comes before the macro's local",
        sheet(
            body(0, blk(1, 0, blk(2, 0, us(3, 1), vec![Some(t(43, 0, 0, vec![]))]), vec![lt(bd(1), leaf()), mac(7)]), vec![]),
            &[(3, 0)],
            &[],
        ),
        it(&[(2, 3, 1, 20)], &[], &[(1, 7, 0, 1)]),
        &[(1, 4)],
    );
    add(
        "rustc: let, then item and macro in one block: the macro and the plain use mean the let",
        sheet(
            body(0, blk(1, 0, k(3, vec![us(3, 1), us(3, 0)]), vec![lt(bd(1), leaf()), Some(t(43, 0, 0, vec![])), mac(7)]), vec![]),
            &[(3, 0)],
            &[],
        ),
        it(&[(1, 3, 1, 20)], &[], &[(1, 7, 0, 1)]),
        &[(1, 4)],
    );
    add(
        "rustc: macro, then let and item in one block: the macro means the item, the plain use the let",
        sheet(
            body(0, blk(1, 0, k(3, vec![us(3, 1), us(3, 0)]), vec![mac(7), lt(bd(1), leaf()), Some(t(43, 0, 0, vec![]))]), vec![]),
            &[(3, 0)],
            &[],
        ),
        it(&[(1, 3, 1, 20)], &[], &[(1, 7, 0, 1)]),
        &[(1, 4)],
    );
    add(
        "rustc: macro that calls a macro: contexts 1 of a, 2 of b; x of a has context 1",
        sheet(
            body(0, blk(0, 0, k(3, vec![us(3, 1), us(3, 0)]), vec![lt(bd(1), leaf()), mac(7), lt(bd(2), leaf()), mac(8), lt(bd(3), leaf())]), vec![]),
            &[(3, 0), (3, 0), (3, 0)],
            &[],
        ),
        it(&[], &[], &[(1, 7, 0, 1), (2, 8, 0, 2)]),
        &[(1, 4), (3, 4)],
    );
    add(
        "rustc: macro m7's block with its own x, a macro m8 in it, and x again",
        sheet(
            body(
                0,
                blk(0, 0,
                    blk(0, 0, k(3, vec![us(3, 2), us(3, 1)]), vec![lt(bd(3), us(3, 1)), mac(8), lt(bd(4), leaf())]),
                    vec![lt(bd(1), leaf()), mac(7), lt(bd(2), leaf())]),
                vec![],
            ),
            &[(3, 0), (3, 0), (3, 1), (3, 1)],
            &[],
        ),
        it(&[], &[], &[(1, 7, 0, 1), (2, 8, 1, 2)]),
        &[(1, 4), (3, 4), (4, 5)],
    );

    // ---- frames
    add(
        "frames: Self, constants of an impl and a function, blocks, self",
        sheet(
            body(1, k(3, vec![us(1, 0), us(2, 0), us(3, 0), us(4, 0), us(5, 0), us(6, 0), us(7, 0), us(1, 4)]), vec![]),
            &[(1, 0)],
            &[(3, 5), (1, 2), (2, 3), (3, 6)],
        ),
        it(
            &[(0, 3, 1, 1), (0, 6, 5, 9), (5, 4, 2, 2), (6, 5, 3, 3)],
            &[(2, 2, 50), (2, 4, 51), (3, 1, 52), (3, 5, 53)],
            &[],
        ),
        &[(1, 4)],
    );
    add(
        "frames: Self without an impl is a constant or unfound; two impls, the inner one",
        sheet(body(0, k(3, vec![us(2, 0), us(1, 0)]), vec![]), &[], &[(1, 4), (1, 5), (2, 6)]),
        it(&[], &[(6, 1, 9)], &[]),
        &[],
    );
    add(
        "frames: a function's constant named 2 before the impl",
        sheet(body(0, us(2, 0), vec![]), &[], &[(1, 4), (2, 6)]),
        it(&[], &[(4, 2, 7), (6, 2, 9)], &[]),
        &[],
    );

    // ---- smallest and largest
    add("two nodes: a leaf", sheet(body(0, leaf(), vec![]), &[], &[]), none.clone(), &[]);
    add("unbound self binding, 256 bindings", sheet(body(256, us(1, 0), vec![]), &{
        let mut v: Vec<(u32, u32)> = (0..255).map(|i| (3 + i, i)).collect();
        v.push((1, 0));
        v
    }, &[(3, 1); 16]), none.clone(), &[(256, 9), (255, 3)]);
    let mut e = leaf();
    for i in 0..510u32 {
        e = blk(1 + i % 7, i % 3, e, vec![]);
    }
    add("512 nodes: numbered blocks nested, most scopes but two", sheet(body(0, e, vec![]), &[], &[]), none.clone(), &[]);
    let mut e = blk(4_000_000_000, u32::MAX, None, vec![]);
    for i in 0..510u32 {
        e = blk(1 + i % 7, 0, e, vec![]);
    }
    add("512 nodes: 511 numbered blocks, 1,023 scopes", sheet(body(0, e, vec![]), &[], &[]), none.clone(), &[]);
    let many: Vec<Option<T>> = (0..509).map(|i| bd(1 + i % 256)).collect();
    let nm: Vec<(u32, u32)> = (0..256).map(|i| (3 + i % 5, i / 5 % 2)).collect();
    add("512 nodes: 509 binds in one pattern", sheet(body(1, us(5, 1), vec![k(22, many)]), &nm, &[]), none.clone(), &[(1, 4), (2, 9)]);
    let mut p = bd(256);
    for i in 0..509u32 {
        p = bds(1 + i % 256, p);
    }
    add("512 nodes: binds nested", sheet(body(0, us(5, 1), vec![p]), &nm, &[]), none.clone(), &[]);
    let mut e = us(3, 0);
    for _ in 0..255 {
        e = k(5, vec![e, leaf(), None]);
    }
    add("512 nodes: ifs nested in conditions", sheet(body(0, e, vec![]), &[], &[]), none.clone(), &[]);
    let mut c = k(6, vec![bd(1), us(3, 0)]);
    for i in 0..126u32 {
        c = k(4, vec![c, k(6, vec![bd(2 + i), us(3 + i % 2, 0)])]);
    }
    add(
        "let chain of 127, nested to the left",
        sheet(body(0, k(5, vec![c, us(3, 0), us(3, 0)]), vec![]), &(0..127).map(|i| (3 + i % 2, 0)).collect::<Vec<_>>(), &[]),
        none.clone(),
        &[(1, 4), (5, 9)],
    );
    let mut c = k(6, vec![bd(127), us(3, 0)]);
    for i in (0..126u32).rev() {
        c = k(4, vec![k(6, vec![bd(1 + i), us(3 + i % 2, 0)]), c]);
    }
    add(
        "let chain of 127, nested to the right",
        sheet(body(0, k(5, vec![c, us(3, 0), us(3, 0)]), vec![]), &(0..127).map(|i| (3 + i % 2, 0)).collect::<Vec<_>>(), &[]),
        none.clone(),
        &[(1, 4), (5, 9)],
    );
    let mut ty = k(30, vec![]);
    for i in 0..127 {
        ty = k(32, vec![ty, if i % 3 == 0 { blk(0, 0, us(3, 0), vec![mac(2)]) } else { us(3, 0) }]);
    }
    add("types nested with lengths", sheet(body(0, k(13, vec![us(3, 0), ty]), vec![bd(1)]), &[(3, 0)], &[]), none.clone(), &[(1, 4)]);
    // 509 statements in one block: let, macro, use in turn
    let mut v = vec![];
    let mut used = 0;
    let mut i = 0u32;
    while used + 3 <= 508 {
        match i % 5 {
            0 | 2 => {
                v.push(lt(bd(1 + i % 100), us(3 + i % 3, i % 4)));
                used += 3;
            }
            1 => {
                v.push(mac(1 + i % 4));
                used += 1;
            }
            3 => {
                v.push(st(us(3 + i % 3, 1 + i % 3)));
                used += 2;
            }
            _ => {
                v.push(Some(t(43, 0, 0, vec![])));
                used += 1;
            }
        }
        i += 1;
    }
    add(
        "one long block of lets, macros and uses",
        sheet(
            body(0, blk(3, 1, us(4, 2), v), vec![]),
            &(0..100).map(|i| (3 + i % 3, if i % 4 == 3 { i % 3 } else { 0 })).collect::<Vec<_>>(),
            &[(2, 2)],
        ),
        it(&[(3, 5, 1, 4)], &[(2, 4, 7)], &[(1, 1, 0, 1), (2, 2, 1, 2), (3, 3, 2, 3)]),
        &[(1, 4), (2, 3), (3, 5)],
    );
    // 1,024 children: 511 present, 513 absent
    // 171 lets (pattern only, 3 absent each) = 342 nodes, 513 absent; then leaves in a sequence
    let v: Vec<Option<T>> = (0..171).map(|i| lt(bd(1 + i % 9), None)).collect();
    let fill: Vec<Option<T>> = (0..167).map(|i| us(3 + i % 5, 0)).collect();
    add(
        "512 nodes, 1,024 children",
        sheet(body(0, blk(0, 0, k(3, fill), v), vec![]), &(0..9).map(|i| (3 + i % 5, 0)).collect::<Vec<_>>(), &[]),
        none.clone(),
        &[(1, 4), (9, 3), (9, 10)],
    );
    // every count at its largest, in both sheets
    let v: Vec<Option<T>> = (0..171).map(|i| lt(bd(1 + i), None)).collect();
    let fill: Vec<Option<T>> = (0..167).map(|i| us(if i % 9 == 0 { 1 + i % 2 } else { 3 + i % 40 }, i % 11)).collect();
    let tree = number(body(200, blk(0, 0, k(3, fill), v), vec![]), &mut Rng(5), true);
    add(
        "largest: 512 nodes, 1,024 children, 256 bindings, 16 frames, 512 items, 64 constants, 256 expansions",
        BodySheet {
            nodes: tree,
            bindings: (0..256).map(|i| (if i == 199 { 1 } else { 3 + i % 30 }, i % 7)).collect(),
            frames: (0..16).map(|i| (1 + (i % 3) as u8, 1 + i / 2)).collect(),
        },
        it(
            &(0..512).map(|i| (i / 32, 3 + i % 32 * 2, 1 + (i % 5) as u8, 1 + i)).collect::<Vec<_>>(),
            &(0..64).map(|i| (1 + i / 8, 1 + i % 8 * 5, 1 + i)).collect::<Vec<_>>(),
            &(0..256).map(|i| (1 + i, i % 5, i / 2, (1 + i) / 3)).collect::<Vec<_>>(),
        ),
        &[(1, 4), (171, 90), (200, 9), (256, 3), (256, 91)],
    );
    let params: Vec<Option<T>> = (0..510).map(|i| bd(1 + i % 256)).collect();
    add("largest: 511 entries, a self binding and 510 parameters", sheet(body(256, us(9, 0), params), &nm, &[(1, 1); 16]), none.clone(), &[(7, 90), (256, 4)]);
    // 84 blocks, one in the other: 6 nodes each
    let mut e = us(3, 4);
    for i in 0..84u32 {
        e = blk(1 + i % 3, 0, e, vec![mac(1 + i % 4), lt(bd(1 + i % 5), k(11, vec![us(3, i % 5)]))]);
    }
    add(
        "numbered blocks nested, each with a macro, a let and a constant",
        sheet(body(0, e, vec![bd(1)]), &(0..5).map(|i| (3, i)).collect::<Vec<_>>(), &[]),
        it(&[(2, 4, 5, 9)], &[], &[(1, 1, 0, 1), (2, 2, 1, 2), (3, 3, 2, 3), (4, 4, 3, 4)]),
        &[(1, 4), (5, 4)],
    );
    o
}
