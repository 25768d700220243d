//! refusals DIR: writes the cases of a body sheet's refusals: NAME.sheet, the bytes that are loaded, and
//! cases.txt, a line a case: `NAME NUMBER SECTION RECORD`, or `NAME 0 0 0` where the sheet is accepted.
//!
//! Each expected answer stands here as it was worked out by hand from the rules of the format; no reader
//! is run. Sections are 1 nodes, 2 children, 3 bindings, 4 frames; records count from 1; 0 where none fits.
//!   1 no version byte 1. 2 length or sections differ from the bytes. 3 a count outside its limits.
//!   4 unknown kind, wrong child count, field or binding. 5 child counts do not add up, a child of the wrong
//!   kind or absent, or the nodes are no tree. 6 a let out of place. 7 a bad binding name or frame.
//! All of one number is tested over the whole sheet before the next; within a number the lowest section
//! counts, then the lowest record.

#[derive(Clone)]
struct Node {
    kind: u8,
    a: u32,
    b: u32,
    ch: Vec<u16>,
}
#[derive(Clone)]
struct Sheet {
    nodes: Vec<Node>,
    bindings: Vec<(u32, u32)>,
    frames: Vec<(u8, u32)>,
}
/// The four sections, each with its count, and the head's fields, so that every byte can be bent.
#[derive(Clone)]
struct Parts {
    version: u8,
    /// the length that is written; `None`: the true one
    length: Option<u32>,
    sections: [Vec<u8>; 4],
    more: Vec<u8>,
}

fn n(kind: u8, a: u32, b: u32, ch: &[u16]) -> Node {
    Node { kind, a, b, ch: ch.to_vec() }
}
/// A node without fields.
fn k(kind: u8, ch: &[u16]) -> Node {
    n(kind, 0, 0, ch)
}
/// Leaves: an expression, a pattern, a type, a statement.
fn ex() -> Node {
    k(1, &[])
}
fn pa() -> Node {
    k(20, &[])
}
fn ty() -> Node {
    k(30, &[])
}
fn st() -> Node {
    k(43, &[])
}

impl Sheet {
    fn at(&mut self, record: usize) -> &mut Node {
        &mut self.nodes[record - 1]
    }
    fn with(mut self, f: impl FnOnce(&mut Sheet)) -> Sheet {
        f(&mut self);
        self
    }
    fn parts(&self) -> Parts {
        let count = |x: usize| (x as u16).to_be_bytes().to_vec();
        let mut s = [count(self.nodes.len()), vec![], count(self.bindings.len()), count(self.frames.len())];
        let mut children: Vec<u16> = vec![];
        for x in &self.nodes {
            s[0].push(x.kind);
            s[0].extend((x.ch.len() as u16).to_be_bytes());
            s[0].extend(x.a.to_be_bytes());
            s[0].extend(x.b.to_be_bytes());
            children.extend(&x.ch);
        }
        s[1] = count(children.len());
        for c in children {
            s[1].extend(c.to_be_bytes());
        }
        for (name, hygiene) in &self.bindings {
            s[2].extend(name.to_be_bytes());
            s[2].extend(hygiene.to_be_bytes());
        }
        for (kind, number) in &self.frames {
            s[3].push(*kind);
            s[3].extend(number.to_be_bytes());
        }
        Parts { version: 1, length: None, sections: s, more: vec![] }
    }
    fn bytes(&self) -> Vec<u8> {
        self.parts().bytes()
    }
}
impl Parts {
    fn with(mut self, f: impl FnOnce(&mut Parts)) -> Parts {
        f(&mut self);
        self
    }
    /// The count that a section states, whatever its records are.
    fn count(&mut self, section: usize, count: u16) {
        self.sections[section - 1][..2].copy_from_slice(&count.to_be_bytes());
    }
    /// The child count that a node states, whatever the children are.
    fn children(&mut self, record: usize, count: u16) {
        let at = 2 + 11 * (record - 1) + 1;
        self.sections[0][at..at + 2].copy_from_slice(&count.to_be_bytes());
    }
    fn bytes(&self) -> Vec<u8> {
        let mut body: Vec<u8> = self.sections.concat();
        body.extend(&self.more);
        let mut o = vec![self.version];
        o.extend(self.length.unwrap_or(body.len() as u32).to_be_bytes());
        o.extend(body);
        o
    }
}

struct Cases {
    dir: String,
    lines: String,
    names: std::collections::HashSet<String>,
    tally: [usize; 8],
}
impl Cases {
    fn put(&mut self, name: &str, number: u8, section: u8, record: u16, bytes: &[u8]) {
        assert!(!name.is_empty() && name.bytes().all(|c| c.is_ascii_lowercase() || c.is_ascii_digit() || c == b'_'), "{name}");
        assert!(self.names.insert(name.to_owned()), "{name} twice");
        std::fs::write(format!("{}/{name}.sheet", self.dir), bytes).unwrap();
        self.lines += &format!("{name} {number} {section} {record}\n");
        self.tally[number as usize] += 1;
    }
    fn ok(&mut self, name: &str, s: Sheet) {
        self.put(name, 0, 0, 0, &s.bytes());
    }
    fn no(&mut self, name: &str, number: u8, section: u8, record: u16, s: Sheet) {
        self.put(name, number, section, record, &s.bytes());
    }
}

/// A parameter x, then `let y = x; y`.
fn base() -> Sheet {
    Sheet {
        nodes: vec![
            n(21, 1, 0, &[]),
            n(2, 3, 0, &[]),
            n(21, 2, 0, &[]),
            k(40, &[3, 0, 2, 0]),
            n(2, 4, 0, &[]),
            k(7, &[5, 4]),
            k(60, &[6, 1]),
        ],
        bindings: vec![(3, 0), (4, 0)],
        frames: vec![],
    }
}
/// The base tree with a frame of each kind.
fn framed() -> Sheet {
    base().with(|s| s.frames = vec![(1, 8), (2, 9), (3, 10)])
}
/// Nodes alone, with two bindings and no frame.
fn small(nodes: Vec<Node>) -> Sheet {
    Sheet { nodes, bindings: vec![(3, 0), (4, 0)], frames: vec![] }
}
/// Every kind at least once, 38 nodes; lawful. Its one kind 6 is node 23.
fn every() -> Sheet {
    Sheet {
        nodes: vec![
            k(30, &[]),                          // 1 type leaf
            k(1, &[]),                           // 2 leaf
            k(32, &[1, 2]),                      // 3 array type
            k(31, &[3]),                         // 4 types
            k(20, &[]),                          // 5 pattern leaf
            n(2, 3, 0, &[]),                     // 6 use
            k(23, &[6]),                         // 7 pattern of expressions
            k(22, &[5, 7]),                      // 8 patterns
            n(21, 1, 0, &[8]),                   // 9 bind
            n(2, 4, 5, &[]),                     // 10 use
            k(13, &[10, 4]),                     // 11 cast
            k(40, &[9, 0, 11, 0]),               // 12 let statement
            n(42, 7, 0, &[]),                    // 13 macro definition
            k(43, &[]),                          // 14 other item
            k(1, &[]),                           // 15 leaf
            k(41, &[15]),                        // 16 expression statement
            k(1, &[]),                           // 17 leaf
            k(1, &[]),                           // 18 leaf
            k(12, &[17, 18]),                    // 19 repeat
            k(11, &[19]),                        // 20 anonymous constant
            n(21, 2, 0, &[]),                    // 21 bind
            k(1, &[]),                           // 22 leaf
            k(6, &[21, 22]),                     // 23 let
            k(1, &[]),                           // 24 leaf
            k(4, &[23, 24]),                     // 25 lazy and
            k(1, &[]),                           // 26 leaf
            k(5, &[25, 26, 0]),                  // 27 if
            n(8, 3, 0, &[27]),                   // 28 loop
            k(20, &[]),                          // 29 pattern leaf
            k(9, &[28, 0, 29, 0]),               // 30 closure
            k(20, &[]),                          // 31 pattern leaf
            k(1, &[]),                           // 32 leaf
            k(50, &[31, 0, 32]),                 // 33 arm
            k(10, &[30, 33]),                    // 34 match
            k(3, &[34, 20]),                     // 35 sequence
            n(7, 9, 2, &[35, 12, 13, 14, 16]),   // 36 block
            k(20, &[]),                          // 37 pattern leaf
            k(60, &[36, 37]),                    // 38 body
        ],
        bindings: vec![(3, 0), (4, 0)],
        frames: vec![(1, 1), (2, 1), (3, 9)],
    }
}
/// `count` nodes: leaves in one sequence, and the body. Lawful for 2 to 512.
fn flat(count: u16) -> Sheet {
    let mut nodes: Vec<Node> = (0..count - 2).map(|_| ex()).collect();
    nodes.push(k(3, &(1..=count - 2).collect::<Vec<u16>>()));
    nodes.push(k(60, &[count - 1]));
    small(nodes)
}
/// `count` nodes, each in the next one.
fn chain(count: u16) -> Sheet {
    let mut nodes = vec![ex()];
    for i in 1..count - 1 {
        nodes.push(k(3, &[i]));
    }
    nodes.push(k(60, &[count - 1]));
    small(nodes)
}
/// 512 nodes and `entries` children entries (1,021, 1,024 or 1,025): 511 stand for nodes, the rest are absent.
fn wide(entries: usize) -> Sheet {
    let mut nodes = vec![];
    let mut block = vec![510u16];
    // nodes 1 to 342: 171 let statements of a pattern alone, 4 entries each: 684
    for i in 0..171u16 {
        nodes.push(pa());
        nodes.push(k(40, &[2 * i + 1, 0, 0, 0]));
        block.push(2 * i + 2);
    }
    // nodes 343 to 509: leaves; 510: the sequence of these 167
    for _ in 343..=509 {
        nodes.push(ex());
    }
    nodes.push(k(3, &(343..=509).collect::<Vec<u16>>()));
    // 511: the block, 172 entries; 512: the body, 1 entry. 684 + 167 + 172 + 1 = 1,024
    nodes.push(k(7, &block));
    nodes.push(k(60, &[511]));
    match entries {
        // leaf 343 turned into a block with an absent tail: one more
        1025 => nodes[342] = k(7, &[0]),
        // statement 2 turned into an expression statement: three less
        1021 => {
            nodes[0] = ex();
            nodes[1] = k(41, &[1]);
        }
        _ => {}
    }
    small(nodes)
}

fn main() {
    let dir = std::env::args().nth(1).expect("refusals DIR");
    std::fs::create_dir_all(&dir).unwrap();
    let mut c = Cases { dir, lines: String::new(), names: Default::default(), tally: [0; 8] };
    let c = &mut c;
    worked_trees(c);
    head_and_sections(c);
    counts(c);
    records(c);
    fields_and_bindings(c);
    places(c);
    tree(c);
    lets(c);
    names_and_frames(c);
    two_causes(c);
    std::fs::write(format!("{}/cases.txt", c.dir), &c.lines).unwrap();
    println!("{} cases; accepted {}, refused by number 1 to 7: {:?}", c.names.len(), c.tally[0], &c.tally[1..]);
}

/// The trees of the worked examples; all are accepted.
fn worked_trees(c: &mut Cases) {
    c.ok("base", base());
    let leaf_then_x = || {
        base().with(|s| {
            *s.at(2) = ex();
            *s.at(5) = n(2, 3, 0, &[]);
        })
    };
    c.ok("tree_leaf_then_x", leaf_then_x());
    c.ok("tree_block_nine", leaf_then_x().with(|s| s.at(6).a = 9));
    c.ok("tree_use_six", base().with(|s| s.at(2).a = 6));
    c.ok(
        "tree_macro_between_lets",
        Sheet {
            nodes: vec![
                n(2, 3, 1, &[]),
                n(21, 1, 0, &[]),
                k(40, &[2, 0, 0, 0]),
                n(42, 7, 0, &[]),
                n(21, 2, 0, &[]),
                k(40, &[5, 0, 0, 0]),
                k(7, &[1, 3, 4, 6]),
                k(60, &[7]),
            ],
            bindings: vec![(3, 0), (3, 0)],
            frames: vec![],
        },
    );
    c.ok("tree_framed", framed());
    c.ok("tree_every_kind", every());
    c.ok("tree_two_nodes", small(vec![ex(), k(60, &[1])]));
    c.ok(
        "tree_empty_sections",
        Sheet { nodes: vec![ex(), k(60, &[1])], bindings: vec![], frames: vec![] },
    );
    // a binding that is bound twice, or never, is lawful
    c.ok("tree_binding_twice", base().with(|s| s.at(3).a = 1));
    c.ok("tree_binding_never", base().with(|s| *s.at(1) = pa()));
    c.ok("tree_self_and_parameter_one", base().with(|s| s.at(7).a = 1));
}

/// Numbers 1 and 2.
fn head_and_sections(c: &mut Cases) {
    c.put("empty", 1, 0, 0, &[]);
    for v in [0u8, 2, 255] {
        c.put(&format!("version_{v}"), 1, 0, 0, &base().parts().with(|p| p.version = v).bytes());
        c.put(&format!("version_{v}_alone"), 1, 0, 0, &[v]);
    }
    c.put("version_0_length_wrong", 1, 0, 0, &base().parts().with(|p| (p.version, p.length) = (0, Some(7))).bytes());
    c.put("version_2_no_nodes", 1, 0, 0, &[2, 0, 0, 0, 2, 0, 0]);
    c.put("version_shifted", 1, 0, 0, &[&[0u8][..], &base().bytes()].concat());

    let whole = base().bytes();
    for len in 1..=4 {
        c.put(&format!("bytes_{len}"), 2, 0, 0, &whole[..len]);
    }
    c.put("bytes_4_zero_length", 2, 0, 0, &[1, 0, 0, 0]);
    c.put("bytes_5", 2, 0, 0, &whole[..5]);
    c.put("bytes_5_length_1", 2, 0, 0, &[1, 0, 0, 0, 1]);
    c.put("bytes_5_length_0", 2, 1, 0, &[1, 0, 0, 0, 0]);
    c.put("bytes_6_length_1", 2, 1, 0, &[1, 0, 0, 0, 1, 0]);
    c.put("bytes_6_length_0", 2, 0, 0, &[1, 0, 0, 0, 0, 0]);
    // the true length of the base tree's rest is 2 + 77, 2 + 16, 2 + 16, 2: 117 bytes, 122 in all
    assert_eq!(whole.len(), 122);
    c.put("one_byte_short", 2, 0, 0, &whole[..121]);
    c.put("one_byte_long", 2, 0, 0, &[&whole[..], &[0]].concat());
    c.put("two_sheets", 2, 0, 0, &[&whole[..], &whole[..]].concat());
    for (name, l) in [
        ("length_116", 116u32),
        ("length_118", 118),
        ("length_with_head", 122),
        ("length_0", 0),
        ("length_most", u32::MAX),
        ("length_high_byte", 117 + (1 << 24)),
        ("length_second_byte", 117 + (1 << 16)),
        ("length_third_byte", 117 + (1 << 8)),
        ("length_little_endian", 117 << 24),
    ] {
        c.put(name, 2, 0, 0, &base().parts().with(|p| p.length = Some(l)).bytes());
    }
    // the length agrees, but the sections leave bytes over
    c.put("over_one_byte", 2, 0, 0, &base().parts().with(|p| p.more = vec![0]).bytes());
    c.put("over_one_byte_framed", 2, 0, 0, &framed().parts().with(|p| p.more = vec![1]).bytes());
    c.put("over_a_section", 2, 0, 0, &base().parts().with(|p| p.more = vec![0, 0]).bytes());
    c.put("over_a_frame", 2, 0, 0, &framed().parts().with(|p| p.count(4, 2)).bytes());
    c.put("over_all_frames", 2, 0, 0, &framed().parts().with(|p| p.count(4, 0)).bytes());
    // the length agrees, but a section's count or records run past the bytes
    let cut = |s: Sheet, keep: usize| {
        let b = s.bytes();
        let l = (keep as u32 - 5).to_be_bytes();
        [&[1u8][..], &l[..], &b[5..keep]].concat()
    };
    // framed(): nodes 5..84, children 84..102, bindings 102..120, frames 120..137
    for (name, section, keep) in [
        ("cut_at_nodes", 1, 5),
        ("cut_in_node_count", 1, 6),
        ("cut_after_node_count", 1, 7),
        ("cut_in_first_node", 1, 17),
        ("cut_after_first_node", 1, 18),
        ("cut_in_last_node", 1, 83),
        ("cut_at_children", 2, 84),
        ("cut_in_children_count", 2, 85),
        ("cut_after_children_count", 2, 86),
        ("cut_in_first_child", 2, 87),
        ("cut_in_last_child", 2, 101),
        ("cut_at_bindings", 3, 102),
        ("cut_in_binding_count", 3, 103),
        ("cut_after_binding_count", 3, 104),
        ("cut_in_first_binding", 3, 108),
        ("cut_in_last_binding", 3, 119),
        ("cut_at_frames", 4, 120),
        ("cut_in_frame_count", 4, 121),
        ("cut_after_frame_count", 4, 122),
        ("cut_in_first_frame", 4, 123),
        ("cut_after_two_frames", 4, 132),
        ("cut_in_last_frame", 4, 136),
    ] {
        c.put(name, 2, section, 0, &cut(framed(), keep));
    }
    for (name, section, count) in [
        ("nodes_stated_65535", 1, 65535),
        ("nodes_stated_512", 1, 512),
        ("nodes_stated_513", 1, 513),
        ("children_stated_65535", 2, 65535),
        ("children_stated_1024", 2, 1024),
        ("children_stated_1025", 2, 1025),
        ("bindings_stated_65535", 3, 65535),
        ("bindings_stated_256", 3, 256),
        ("bindings_stated_257", 3, 257),
        ("frames_stated_65535", 4, 65535),
        ("frames_stated_4", 4, 4),
        ("frames_stated_16", 4, 16),
        ("frames_stated_17", 4, 17),
    ] {
        c.put(name, 2, section as u8, 0, &framed().parts().with(|p| p.count(section, count)).bytes());
    }
    // one binding more than there is, and no frame: 8 bytes are wanted, the 2 of the frames' count are left
    c.put("bindings_stated_3", 2, 3, 0, &base().parts().with(|p| p.count(3, 3)).bytes());
    c.put("frames_stated_1", 2, 4, 0, &base().parts().with(|p| p.count(4, 1)).bytes());
    // a length that differs comes before a section that runs past the bytes
    c.put("length_and_cut", 2, 0, 0, &framed().parts().with(|p| {
        p.count(1, 65535);
        p.length = Some(1);
    }).bytes());
    // the two lowest sections that run past: children do, whatever the later ones would do
    c.put("cut_children_and_frames", 2, 2, 0, &framed().parts().with(|p| {
        p.count(2, 65535);
        p.count(4, 65535);
    }).bytes());
    c.put("cut_nodes_and_children", 2, 1, 0, &framed().parts().with(|p| {
        p.count(1, 65535);
        p.count(2, 65535);
    }).bytes());
}

/// Number 3, and the largest counts.
fn counts(c: &mut Cases) {
    c.no("nodes_0", 3, 1, 0, Sheet { nodes: vec![], bindings: vec![], frames: vec![] });
    c.no("nodes_0_bindings", 3, 1, 0, small(vec![]));
    c.put("nodes_0_children_1", 3, 1, 0, &[1, 0, 0, 0, 10, 0, 0, 0, 1, 0, 0, 0, 0, 0, 0]);
    c.ok("nodes_512_flat", flat(512));
    c.ok("nodes_512_chain", chain(512));
    c.ok("nodes_511_flat", flat(511));
    c.no("nodes_513_flat", 3, 1, 0, flat(513));
    c.no("nodes_513_chain", 3, 1, 0, chain(513));
    c.no("nodes_600", 3, 1, 0, flat(600));
    // 512 + 256 nodes: the low byte of the count alone would be 0
    c.no("nodes_768", 3, 1, 0, flat(768));
    c.ok("children_1021", wide(1021));
    c.ok("children_1024", wide(1024));
    c.no("children_1025", 3, 2, 0, wide(1025));
    c.put("children_1025_too_many_for_the_counts", 3, 2, 0, &wide(1024).parts().with(|p| {
        p.count(2, 1025);
        p.sections[1].extend([0, 0]);
    }).bytes());
    let names = |count: u32| -> Vec<(u32, u32)> { (0..count).map(|i| (3 + i % 200, i)).collect() };
    c.ok("bindings_0", small(vec![ex(), k(60, &[1])]).with(|s| s.bindings = vec![]));
    c.ok("bindings_256", base().with(|s| s.bindings = names(256)));
    c.no("bindings_257", 3, 3, 0, base().with(|s| s.bindings = names(257)));
    c.no("bindings_512", 3, 3, 0, base().with(|s| s.bindings = names(512)));
    let frames = |count: u32| -> Vec<(u8, u32)> { (0..count).map(|i| (1 + (i % 3) as u8, 1 + i)).collect() };
    c.ok("frames_16", base().with(|s| s.frames = frames(16)));
    c.no("frames_17", 3, 4, 0, base().with(|s| s.frames = frames(17)));
    c.no("frames_256", 3, 4, 0, base().with(|s| s.frames = frames(256)));
    c.ok("all_counts_largest", wide(1024).with(|s| {
        s.bindings = names(256);
        s.frames = frames(16);
    }));
    // two counts too large: the lower section
    c.no("nodes_1027_children_1026", 3, 1, 0, flat(1027));
    c.no("nodes_513_bindings_257", 3, 1, 0, flat(513).with(|s| s.bindings = names(257)));
    c.no("nodes_513_frames_17", 3, 1, 0, flat(513).with(|s| s.frames = frames(17)));
    c.no("nodes_0_frames_17", 3, 1, 0, small(vec![]).with(|s| s.frames = frames(17)));
    c.no("children_1025_bindings_257", 3, 2, 0, wide(1025).with(|s| s.bindings = names(257)));
    c.no("children_1025_frames_17", 3, 2, 0, wide(1025).with(|s| s.frames = frames(17)));
    c.no("bindings_257_frames_17", 3, 3, 0, base().with(|s| (s.bindings, s.frames) = (names(257), frames(17))));
}

/// Number 4: kinds and child counts.
fn records(c: &mut Cases) {
    for kind in [0u8, 14, 15, 19, 24, 29, 33, 39, 44, 49, 51, 59, 61, 128, 255] {
        // at the first record
        c.no(&format!("kind_{kind}_first"), 4, 1, 1, small(vec![k(kind, &[]), k(60, &[1])]));
    }
    for kind in [0u8, 14, 19, 24, 33, 44, 51, 61, 255] {
        // node 17 of the tree with every kind, a leaf
        c.no(&format!("kind_{kind}_later"), 4, 1, 17, every().with(|s| s.at(17).kind = kind));
    }
    c.no("kind_0_last", 4, 1, 7, base().with(|s| s.at(7).kind = 0));
    c.no("kind_61_last", 4, 1, 38, every().with(|s| s.at(38).kind = 61));
    c.no("kind_14_in_511", 4, 1, 510, flat(512).with(|s| s.at(510).kind = 14));
    c.no("kind_0_only_node", 4, 1, 1, small(vec![k(0, &[])]));

    // wrong child counts, node by node of the tree with every kind; the counts add up
    for (name, record, ch) in [
        ("1_one", 2u16, &[0u16][..]),
        ("1_one_present", 2, &[1]),
        ("2_one", 6, &[0]),
        ("4_none", 25, &[]),
        ("4_one", 25, &[23]),
        ("4_three", 25, &[23, 24, 0]),
        ("5_none", 27, &[]),
        ("5_two", 27, &[25, 26]),
        ("5_four", 27, &[25, 26, 0, 0]),
        ("6_none", 23, &[]),
        ("6_one", 23, &[21]),
        ("6_three", 23, &[21, 22, 0]),
        ("7_none", 36, &[]),
        ("8_none", 28, &[]),
        ("8_two", 28, &[27, 0]),
        ("9_none", 30, &[]),
        ("9_one", 30, &[28]),
        ("9_three", 30, &[28, 0, 29]),
        ("9_five", 30, &[28, 0, 29, 0, 0]),
        ("10_none", 34, &[]),
        ("11_none", 20, &[]),
        ("11_two", 20, &[19, 0]),
        ("12_none", 19, &[]),
        ("12_one", 19, &[17]),
        ("12_three", 19, &[17, 18, 0]),
        ("13_none", 11, &[]),
        ("13_one", 11, &[10]),
        ("13_three", 11, &[10, 4, 0]),
        ("20_one", 5, &[0]),
        ("21_two", 9, &[8, 0]),
        ("21_three", 9, &[8, 0, 0]),
        ("30_one", 1, &[0]),
        ("32_none", 3, &[]),
        ("32_one", 3, &[1]),
        ("32_three", 3, &[1, 2, 0]),
        ("40_none", 12, &[]),
        ("40_three", 12, &[9, 0, 11]),
        ("40_five", 12, &[9, 0, 11, 0, 0]),
        ("41_none", 16, &[]),
        ("41_two", 16, &[15, 0]),
        ("42_one", 13, &[0]),
        ("43_one", 14, &[0]),
        ("50_none", 33, &[]),
        ("50_two", 33, &[31, 0]),
        ("50_four", 33, &[31, 0, 32, 0]),
        ("60_none", 38, &[]),
    ] {
        c.no(&format!("count_{name}"), 4, 1, record, every().with(|s| s.at(record as usize).ch = ch.to_vec()));
    }
    // the same with a record that states a count which its children do not have: 4 before 5
    for (name, record, count) in [
        ("1_65535", 2u16, 65535u16),
        ("1_256", 2, 256),
        ("4_258", 25, 258),
        ("21_2", 9, 2),
        ("60_0", 38, 0),
        ("40_3", 12, 3),
        ("9_65535", 30, 65535),
    ] {
        c.put(&format!("count_stated_{name}"), 4, 1, record, &every().parts().with(|p| p.children(record as usize, count)).bytes());
    }
    c.no("count_9_none_first_record", 4, 1, 1, small(vec![k(9, &[]), k(60, &[1])]));
    c.no("count_10_none_first_record", 4, 1, 1, small(vec![k(10, &[]), k(60, &[1])]));
    c.no("count_7_none_first_record", 4, 1, 1, small(vec![k(7, &[]), k(60, &[1])]));
    c.no("field_42_number_0_first_record", 4, 1, 1, small(vec![k(42, &[]), k(7, &[0, 1]), k(60, &[2])]));
    c.no("field_2_name_0_first_record", 4, 1, 1, small(vec![k(2, &[]), k(60, &[1])]));
    c.no("count_first_record", 4, 1, 1, small(vec![k(1, &[0]), k(60, &[1])]));
    c.no("count_only_node", 4, 1, 1, small(vec![k(60, &[])]));

    // counts that are free, and the smallest lawful ones
    c.ok("free_3_none", small(vec![k(3, &[]), k(60, &[1])]));
    c.ok("free_3_many", flat(40));
    c.ok("free_7_absent_tail", small(vec![k(7, &[0]), k(60, &[1])]));
    c.ok("free_7_statements", small(vec![st(), n(42, 1, 0, &[]), k(7, &[0, 1, 2]), k(60, &[3])]));
    c.ok("free_9_two", small(vec![ex(), k(9, &[1, 0]), k(60, &[2])]));
    c.ok("free_9_ten", small(vec![
        ex(), pa(), pa(), ty(), pa(), pa(), ty(), ty(),
        k(9, &[1, 8, 2, 0, 3, 4, 5, 0, 6, 7]),
        k(60, &[9]),
    ]));
    c.ok("free_10_no_arm", small(vec![ex(), k(10, &[1]), k(60, &[2])]));
    c.ok("free_21_none", small(vec![ex(), n(21, 1, 0, &[]), k(60, &[1, 2])]));
    c.ok("free_21_one", small(vec![ex(), pa(), n(21, 1, 0, &[2]), k(60, &[1, 3])]));
    c.ok("free_22_none", small(vec![ex(), k(22, &[]), k(60, &[1, 2])]));
    c.ok("free_23_none", small(vec![ex(), k(23, &[]), k(60, &[1, 2])]));
    c.ok("free_31_none", small(vec![ex(), k(31, &[]), k(13, &[1, 2]), k(60, &[3])]));
    c.ok("free_40_pattern_alone", small(vec![pa(), k(40, &[1, 0, 0, 0]), k(7, &[0, 2]), k(60, &[3])]));
    c.ok("free_60_many", small(vec![ex(), pa(), pa(), pa(), pa(), k(60, &[1, 2, 3, 4, 5])]));
    c.ok("free_60_unsorted", small(vec![pa(), pa(), ex(), pa(), k(60, &[3, 4, 1, 2])]));
}

/// Number 4: fields and bindings.
fn fields_and_bindings(c: &mut Cases) {
    // records of the tree with every kind whose field a, or b, is to be 0
    for (kind, record) in [
        (1, 2u16),
        (3, 35),
        (4, 25),
        (5, 27),
        (6, 23),
        (9, 30),
        (10, 34),
        (11, 20),
        (12, 19),
        (13, 11),
        (20, 5),
        (22, 8),
        (23, 7),
        (30, 1),
        (31, 4),
        (32, 3),
        (40, 12),
        (41, 16),
        (43, 14),
        (50, 33),
    ] {
        c.no(&format!("field_{kind}_a"), 4, 1, record, every().with(|s| s.at(record as usize).a = 1));
        c.no(&format!("field_{kind}_b"), 4, 1, record, every().with(|s| s.at(record as usize).b = 1));
    }
    for (name, record, a, b) in [
        ("8_b", 28u16, 3u32, 1u32),
        ("21_b", 9, 1, 1),
        ("42_b", 13, 7, 1),
        ("60_b", 38, 0, 1),
        ("2_name_0", 6, 0, 0),
        ("2_name_0_hygiene", 6, 0, 9),
        ("42_number_0", 13, 0, 0),
        // each of the four bytes counts
        ("1_a_high", 15, 1 << 24, 0),
        ("1_a_second", 15, 1 << 16, 0),
        ("1_a_third", 15, 1 << 8, 0),
        ("1_b_high", 15, 0, 1 << 24),
        ("1_b_second", 15, 0, 1 << 16),
        ("1_b_third", 15, 0, 1 << 8),
        ("8_b_high", 28, 3, 1 << 31),
        ("42_b_most", 13, 7, u32::MAX),
    ] {
        c.no(&format!("field_{name}"), 4, 1, record, every().with(|s| (s.at(record as usize).a, s.at(record as usize).b) = (a, b)));
    }
    for (name, record, a, b) in [
        ("2_name_1", 6, 1u32, 0u32),
        ("2_name_2", 6, 2, 0),
        ("2_most", 6, u32::MAX, u32::MAX),
        ("2_name_high_byte_alone", 6, 1 << 24, 0),
        ("7_none", 36, 0, 0),
        ("7_most", 36, u32::MAX, u32::MAX),
        ("7_label_alone", 36, 0, 5),
        ("8_none", 28, 0, 0),
        ("8_most", 28, u32::MAX, 0),
        ("42_one", 13, 1, 0),
        ("42_most", 13, u32::MAX, 0),
        ("42_high_byte_alone", 13, 1 << 24, 0),
        ("60_self", 38, 2, 0),
    ] {
        c.ok(&format!("field_ok_{name}"), every().with(|s| (s.at(record).a, s.at(record).b) = (a, b)));
    }
    // a bind names a binding from 1 to the last; there are two
    for (name, a) in [("0", 0u32), ("3", 3), ("256", 256), ("257", 257), ("65537", 65537), ("most", u32::MAX), ("high_byte", (1 << 24) + 1)] {
        c.no(&format!("bind_{name}_first"), 4, 1, 1, base().with(|s| s.at(1).a = a));
        c.no(&format!("bind_{name}_later"), 4, 1, 3, base().with(|s| s.at(3).a = a));
    }
    c.ok("bind_last", base().with(|s| s.at(1).a = 2));
    for (name, a) in [("3", 3u32), ("257", 257), ("65538", 65538), ("most", u32::MAX), ("high_byte", (1 << 24) + 1)] {
        c.no(&format!("self_{name}"), 4, 1, 7, base().with(|s| s.at(7).a = a));
    }
    c.ok("self_last", base().with(|s| s.at(7).a = 2));
    let none = |nodes| Sheet { nodes, bindings: vec![], frames: vec![] };
    c.no("bind_1_of_none", 4, 1, 2, none(vec![ex(), n(21, 1, 0, &[]), k(60, &[1, 2])]));
    c.no("self_1_of_none", 4, 1, 2, none(vec![ex(), n(60, 1, 0, &[1])]));
    let all: Vec<(u32, u32)> = (0..256).map(|i| (3 + i, 0)).collect();
    c.ok("bind_256_self_256", base().with(|s| {
        s.bindings = all.clone();
        s.at(3).a = 256;
        s.at(7).a = 256;
    }));
    c.no("bind_257_of_256", 4, 1, 3, base().with(|s| {
        s.bindings = all.clone();
        s.at(3).a = 257;
    }));
    c.no("self_257_of_256", 4, 1, 7, base().with(|s| {
        s.bindings = all.clone();
        s.at(7).a = 257;
    }));
    // two of them: the lower record, whatever the sort
    c.no("kind_2_and_field_5", 4, 1, 2, base().with(|s| {
        s.at(2).kind = 0;
        s.at(5).a = 0;
    }));
    c.no("field_2_and_kind_5", 4, 1, 2, base().with(|s| {
        s.at(2).a = 0;
        s.at(5).kind = 255;
    }));
    c.no("count_6_and_kind_7", 4, 1, 6, base().with(|s| {
        s.at(6).ch = vec![];
        s.at(7).kind = 61;
    }));
    c.no("bind_3_and_self_7", 4, 1, 3, base().with(|s| {
        s.at(3).a = 9;
        s.at(7).a = 9;
    }));
    c.no("bind_1_and_bind_3", 4, 1, 1, base().with(|s| {
        s.at(1).a = 3;
        s.at(3).a = 0;
    }));
    c.no("field_4_and_count_2", 4, 1, 2, base().with(|s| {
        s.at(4).b = 1;
        s.at(2).ch = vec![0];
    }));
}

/// Number 5: each place of each kind with a child of another class, and with an absent one.
fn places(c: &mut Cases) {
    // the place, the parent's kind, what its children are (e expression, p pattern, t type, s statement, a
    // arm), the place's number from 0; the parent's record where the wrong child is one node, where it is an
    // arm (three nodes), and where it is absent (0: it may be). All other children stand before the parent, a
    // node each, an arm three.
    for (place, kind, children, at, leaf, arm, absent) in [
        ("3_first", 3u8, "ee", 0usize, 3u16, 5u16, 2u16),
        ("3_second", 3, "ee", 1, 3, 5, 2),
        ("4_first", 4, "ee", 0, 3, 5, 2),
        ("4_second", 4, "ee", 1, 3, 5, 2),
        ("5_condition", 5, "eee", 0, 4, 6, 3),
        ("5_then", 5, "eee", 1, 4, 6, 3),
        ("5_else", 5, "eee", 2, 4, 6, 0),
        ("6_pattern", 6, "pe", 0, 3, 5, 2),
        ("6_expression", 6, "pe", 1, 3, 5, 2),
        ("7_tail", 7, "ess", 0, 4, 6, 0),
        ("7_first_statement", 7, "ess", 1, 4, 6, 3),
        ("7_second_statement", 7, "ess", 2, 4, 6, 3),
        ("8_body", 8, "e", 0, 2, 4, 1),
        ("9_body", 9, "etptpt", 0, 7, 9, 6),
        ("9_return_type", 9, "etptpt", 1, 7, 9, 0),
        ("9_first_pattern", 9, "etptpt", 2, 7, 9, 6),
        ("9_first_type", 9, "etptpt", 3, 7, 9, 0),
        ("9_second_pattern", 9, "etptpt", 4, 7, 9, 6),
        ("9_second_type", 9, "etptpt", 5, 7, 9, 0),
        ("10_expression", 10, "eaa", 0, 8, 10, 7),
        ("10_first_arm", 10, "eaa", 1, 6, 8, 5),
        ("10_second_arm", 10, "eaa", 2, 6, 8, 5),
        ("11_expression", 11, "e", 0, 2, 4, 1),
        ("12_element", 12, "ee", 0, 3, 5, 2),
        ("12_length", 12, "ee", 1, 3, 5, 2),
        ("13_expression", 13, "et", 0, 3, 5, 2),
        ("13_type", 13, "et", 1, 3, 5, 2),
        ("21_pattern", 21, "p", 0, 2, 4, 1),
        ("22_first", 22, "pp", 0, 3, 5, 2),
        ("22_second", 22, "pp", 1, 3, 5, 2),
        ("23_first", 23, "ee", 0, 3, 5, 2),
        ("23_second", 23, "ee", 1, 3, 5, 2),
        ("31_first", 31, "tt", 0, 3, 5, 2),
        ("31_second", 31, "tt", 1, 3, 5, 2),
        ("32_type", 32, "te", 0, 3, 5, 2),
        ("32_length", 32, "te", 1, 3, 5, 2),
        ("40_pattern", 40, "ptee", 0, 5, 7, 4),
        ("40_type", 40, "ptee", 1, 5, 7, 0),
        ("40_initializer", 40, "ptee", 2, 5, 7, 0),
        ("40_else", 40, "ptee", 3, 5, 7, 0),
        ("41_expression", 41, "e", 0, 2, 4, 1),
        ("50_pattern", 50, "pee", 0, 4, 6, 3),
        ("50_guard", 50, "pee", 1, 4, 6, 0),
        ("50_expression", 50, "pee", 2, 4, 6, 3),
        ("60_expression", 60, "epp", 0, 4, 6, 3),
        ("60_first_pattern", 60, "epp", 1, 4, 6, 3),
        ("60_second_pattern", 60, "epp", 2, 4, 6, 3),
    ] {
        let right = children.as_bytes()[at] as char;
        for (word, class) in [("expression", 'e'), ("pattern", 'p'), ("type", 't'), ("statement", 's'), ("arm", 'a')] {
            if class != right {
                let record = if class == 'a' { arm } else { leaf };
                c.no(&format!("place_{place}_is_{word}"), 5, 1, record, placed(kind, children, at, class));
            }
        }
        let s = placed(kind, children, at, '0');
        if absent == 0 {
            c.ok(&format!("place_{place}_absent"), s);
        } else {
            c.no(&format!("place_{place}_absent"), 5, 1, absent, s);
        }
    }
}
/// A node of `kind` with those children, the one at `at` of class `class` instead ('0': absent); then what
/// it takes to make a body of it.
fn placed(kind: u8, children: &str, at: usize, class: char) -> Sheet {
    let mut v: Vec<Node> = vec![];
    let mut ch = vec![];
    for (i, right) in children.chars().enumerate() {
        match if i == at { class } else { right } {
            'e' => v.push(ex()),
            'p' => v.push(pa()),
            't' => v.push(ty()),
            's' => v.push(st()),
            'a' => {
                let m = v.len() as u16;
                v.extend([pa(), ex(), k(50, &[m + 1, 0, m + 2])]);
            }
            _ => {
                ch.push(0);
                continue;
            }
        }
        ch.push(v.len() as u16);
    }
    v.push(n(kind, (kind == 21) as u32, 0, &ch));
    let m = v.len() as u16;
    match kind {
        6 => v.extend([ex(), k(5, &[m, m + 1, 0]), k(60, &[m + 2])]),
        1..=13 => v.push(k(60, &[m])),
        20..=23 => v.extend([ex(), k(60, &[m + 1, m])]),
        30..=32 => v.extend([ex(), k(13, &[m + 1, m]), k(60, &[m + 2])]),
        40..=43 => v.extend([k(7, &[0, m]), k(60, &[m + 1])]),
        50 => v.extend([ex(), k(10, &[m + 1, m]), k(60, &[m + 2])]),
        _ => {}
    }
    small(v)
}

/// Number 5: sums and the tree.
fn tree(c: &mut Cases) {
    // the counts add up to one less, or one more, than there are entries
    let bent = |s: Sheet, count: u16, f: &dyn Fn(&mut Vec<u8>)| {
        s.parts()
            .with(|p| {
                p.count(2, count);
                f(&mut p.sections[1]);
            })
            .bytes()
    };
    // base(): 8 entries
    c.put("sum_one_entry_more", 5, 0, 0, &bent(base(), 9, &|b| b.extend([0, 0])));
    c.put("sum_one_entry_less", 5, 0, 0, &bent(base(), 7, &|b| b.truncate(16)));
    c.put("sum_no_entries", 5, 0, 0, &bent(base(), 0, &|b| b.truncate(2)));
    c.put("sum_last_entry_missing_two_nodes", 5, 0, 0, &bent(small(vec![ex(), k(60, &[1])]), 0, &|b| b.truncate(2)));
    // every(): node 35, a sequence of 2; its count is free
    for (name, count) in [("one_less", 1u16), ("one_more", 3), ("none", 0), ("most", 65535), ("high_byte", 258)] {
        c.put(&format!("sum_sequence_{name}"), 5, 0, 0, &every().parts().with(|p| p.children(35, count)).bytes());
    }
    // 65,536 too many: the sum is no 16-bit number
    c.put("sum_wraps", 5, 0, 0, &small(vec![k(3, &[]), k(3, &[]), k(3, &[1, 2]), k(60, &[3])]).parts().with(|p| {
        p.children(1, 32768);
        p.children(2, 32768);
    }).bytes());
    c.put("sum_wraps_late", 5, 0, 0, &small(vec![k(3, &[]), k(3, &[]), k(3, &[1, 2]), k(60, &[3])]).parts().with(|p| {
        p.children(1, 1);
        p.children(2, 65535);
    }).bytes());
    // the sum comes before a node's fault, even the first one's
    c.put("sum_and_unclaimed", 5, 0, 0, &bent(small(vec![ex(), ex(), k(60, &[2])]), 2, &|b| b.extend([0, 0])));
    c.put("sum_and_wrong_child", 5, 0, 0, &bent(small(vec![pa(), k(8, &[1]), k(60, &[2])]), 3, &|b| b.extend([0, 0])));
    c.put("sum_and_no_body", 5, 0, 0, &bent(small(vec![ex(), k(3, &[1])]), 2, &|b| b.extend([1, 1])));

    // not lower than its parent
    for (name, child) in [("itself", 1u16), ("next", 2), ("past_the_last", 3), ("513", 513), ("512", 512), ("256", 256), ("65535", 65535), ("32768", 32768)] {
        c.no(&format!("child_first_{name}"), 5, 1, 1, small(vec![k(3, &[child]), k(60, &[1])]));
    }
    for (name, child) in [("itself", 6u16), ("next", 7), ("past_the_last", 8), ("513", 513), ("65535", 65535)] {
        // node 2, the initializer, stays a child; the block's tail 5 is exchanged, so 5 is no one's: its own fault, and lower
        c.no(&format!("child_tail_{name}"), 5, 1, 5, base().with(|s| s.at(6).ch[0] = child));
        // an additional entry of the block: no other fault
        c.no(&format!("child_more_{name}"), 5, 1, 6, base().with(|s| s.at(6).ch.push(child)));
    }
    for (name, child) in [("itself", 7u16), ("past_the_last", 8), ("513", 513), ("65535", 65535)] {
        c.no(&format!("child_of_body_{name}"), 5, 1, 7, base().with(|s| s.at(7).ch.push(child)));
    }
    c.no("child_initializer_itself", 5, 1, 2, base().with(|s| s.at(4).ch[2] = 4));
    c.no("child_type_513", 5, 1, 4, base().with(|s| s.at(4).ch[1] = 513));
    c.no("child_else_next", 5, 1, 4, base().with(|s| s.at(4).ch[3] = 5));
    c.no("child_optional_itself", 5, 1, 4, base().with(|s| s.at(4).ch[1] = 4));
    c.no("child_last_of_512", 5, 1, 511, flat(512).with(|s| s.at(511).ch.push(512)));
    c.no("child_513_of_512", 5, 1, 511, flat(512).with(|s| s.at(511).ch.push(513)));
    c.no("child_513_of_body_of_512", 5, 1, 512, flat(512).with(|s| s.at(512).ch.push(513)));
    c.no("child_512_of_body_of_512", 5, 1, 512, flat(512).with(|s| s.at(512).ch.push(512)));
    // its own child, and of the right kind for that
    c.no("itself_sequence", 5, 1, 2, small(vec![ex(), k(3, &[1, 2]), k(60, &[2])]));
    c.no("itself_sequence_no_other_parent", 5, 1, 2, small(vec![ex(), k(3, &[2]), k(60, &[1])]));
    c.no("itself_loop", 5, 1, 2, small(vec![ex(), k(8, &[2]), k(60, &[1])]));
    c.no("itself_patterns", 5, 1, 2, small(vec![ex(), k(22, &[2]), k(60, &[1])]));
    c.no("itself_bind", 5, 1, 2, small(vec![ex(), n(21, 1, 0, &[2]), k(60, &[1])]));
    c.no("itself_types", 5, 1, 2, small(vec![ex(), k(31, &[2]), k(60, &[1])]));
    c.no("itself_tail", 5, 1, 2, small(vec![ex(), k(7, &[2]), k(60, &[1])]));
    // two nodes, each in the other: the first has a child that is higher
    c.no("child_circle", 5, 1, 1, small(vec![k(3, &[2]), k(3, &[1]), k(60, &[2])]));
    c.no("child_circle_later", 5, 1, 2, small(vec![ex(), k(3, &[3]), k(3, &[2]), k(60, &[1])]));

    // repeated
    c.no("twice_same_parent", 5, 1, 2, small(vec![ex(), k(3, &[1, 1]), k(60, &[2])]));
    c.no("twice_same_parent_apart", 5, 1, 3, small(vec![ex(), ex(), k(3, &[1, 2, 1]), k(60, &[3])]));
    c.no("twice_later_parent", 5, 1, 3, small(vec![ex(), k(3, &[1]), k(3, &[1, 2]), k(60, &[3])]));
    c.no("twice_later_parent_far", 5, 1, 6, small(vec![ex(), k(3, &[1]), k(3, &[2]), k(3, &[3]), k(3, &[4]), k(3, &[5, 1]), k(60, &[6])]));
    c.no("twice_body", 5, 1, 7, base().with(|s| s.at(7).ch.push(1)));
    c.no("twice_body_grandchild", 5, 1, 7, base().with(|s| s.at(7).ch.push(3)));
    c.no("twice_block_and_body", 5, 1, 4, small(vec![pa(), ex(), k(7, &[2]), k(3, &[3, 2]), k(60, &[4, 1])]));
    // three times: the second parent
    c.no("thrice", 5, 1, 3, small(vec![ex(), k(3, &[1]), k(3, &[1, 2]), k(3, &[1, 3]), k(60, &[4])]));
    // the exchanged child leaves a node without a parent, which is lower
    c.no("twice_and_unclaimed_lower", 5, 1, 1, base().with(|s| s.at(7).ch[1] = 3));
    // and here it is higher than the later parent
    c.no("twice_and_unclaimed_higher", 5, 1, 3, small(vec![ex(), k(3, &[1]), k(3, &[1, 2]), ex(), k(60, &[3])]));
    c.no("twice_pattern", 5, 1, 3, small(vec![ex(), pa(), k(22, &[2, 2]), k(60, &[1, 3])]));
    c.no("twice_type", 5, 1, 3, small(vec![ex(), ty(), k(31, &[2, 2]), k(13, &[1, 3]), k(60, &[4])]));
    c.no("twice_statement", 5, 1, 2, small(vec![st(), k(7, &[0, 1, 1]), k(60, &[2])]));
    c.no("twice_and_operands", 5, 1, 2, small(vec![ex(), k(4, &[1, 1]), k(60, &[2])]));
    c.no("twice_in_512", 5, 1, 511, flat(512).with(|s| s.at(511).ch.push(510)));
    // a child of the wrong kind in the first parent, and again in a second: the first is at fault already
    c.no("twice_first_wrong_kind", 5, 1, 2, small(vec![pa(), k(8, &[1]), k(3, &[2]), k(60, &[3, 1])]));
    // a child of the wrong kind has a parent all the same
    c.no("wrong_kind_is_claimed", 5, 1, 3, small(vec![pa(), ex(), k(3, &[2, 1]), k(60, &[3])]));

    // no one's child
    c.no("unclaimed_first", 5, 1, 1, small(vec![ex(), ex(), k(60, &[2])]));
    c.no("unclaimed_middle", 5, 1, 2, small(vec![ex(), ex(), k(3, &[1]), k(60, &[3])]));
    c.no("unclaimed_before_body", 5, 1, 2, small(vec![ex(), ex(), k(60, &[1])]));
    c.no("unclaimed_subtree", 5, 1, 3, small(vec![ex(), ex(), k(3, &[2]), k(60, &[1])]));
    c.no("unclaimed_two", 5, 1, 1, small(vec![ex(), ex(), ex(), k(60, &[3])]));
    c.no("unclaimed_pattern", 5, 1, 1, base().with(|s| {
        s.at(7).ch.pop();
    }));
    c.no("unclaimed_statement", 5, 1, 4, base().with(|s| {
        s.at(6).ch.pop();
    }));
    c.no("unclaimed_tail", 5, 1, 5, base().with(|s| s.at(6).ch[0] = 0));
    c.no("unclaimed_initializer", 5, 1, 2, base().with(|s| s.at(4).ch[2] = 0));
    c.no("unclaimed_all", 5, 1, 1, small(vec![ex(), ex(), k(3, &[]), k(60, &[3])]));
    c.no("unclaimed_arm", 5, 1, 3, small(vec![pa(), ex(), k(50, &[1, 0, 2]), ex(), k(60, &[4])]));
    c.no("unclaimed_type", 5, 1, 1, small(vec![ty(), ex(), k(60, &[2])]));
    c.no("unclaimed_510_of_512", 5, 1, 510, flat(512).with(|s| {
        s.at(511).ch.pop();
    }));
    c.no("unclaimed_1_of_512", 5, 1, 1, flat(512).with(|s| {
        s.at(511).ch.remove(0);
    }));

    // bodies
    c.no("body_only_node_absent", 5, 1, 1, small(vec![k(60, &[0])]));
    c.no("body_only_node_itself", 5, 1, 1, small(vec![k(60, &[1])]));
    c.no("body_only_node_next", 5, 1, 1, small(vec![k(60, &[2])]));
    c.no("body_before_the_end", 5, 1, 2, small(vec![ex(), k(60, &[1]), ex(), k(60, &[3])]));
    c.no("body_as_child_of_body", 5, 1, 2, small(vec![ex(), k(60, &[1]), k(60, &[2])]));
    c.no("body_as_child_of_sequence", 5, 1, 2, small(vec![ex(), k(60, &[1]), k(3, &[2]), k(60, &[3])]));
    c.no("body_as_statement", 5, 1, 2, small(vec![ex(), k(60, &[1]), k(7, &[0, 2]), k(60, &[3])]));
    c.no("body_as_pattern", 5, 1, 2, small(vec![ex(), k(60, &[1]), ex(), k(60, &[3, 2])]));
    c.no("body_twice_before_the_end", 5, 1, 2, small(vec![ex(), k(60, &[1]), ex(), k(60, &[3]), ex(), k(60, &[5])]));
    c.no("body_then_a_leaf", 5, 1, 2, small(vec![ex(), k(60, &[1]), ex()]));
    c.no("body_then_a_parent", 5, 1, 2, small(vec![ex(), k(60, &[1]), k(3, &[2])]));
    c.no("body_and_lower_unclaimed", 5, 1, 1, small(vec![ex(), ex(), k(60, &[2]), ex(), k(60, &[4])]));
    c.no("body_and_lower_wrong_child", 5, 1, 2, small(vec![pa(), k(8, &[1]), k(60, &[2]), ex(), k(60, &[4])]));
    c.no("body_later_wrong_child", 5, 1, 2, small(vec![ex(), k(60, &[1]), pa(), k(8, &[3]), k(60, &[4])]));
    c.no("no_body_one_node", 5, 1, 1, small(vec![ex()]));
    c.no("no_body_two_nodes", 5, 1, 2, small(vec![ex(), k(3, &[1])]));
    c.no("no_body_pattern", 5, 1, 2, small(vec![pa(), k(22, &[1])]));
    c.no("no_body_type", 5, 1, 1, small(vec![ty()]));
    c.no("no_body_statement", 5, 1, 2, small(vec![ex(), k(41, &[1])]));
    c.no("no_body_arm", 5, 1, 3, small(vec![pa(), ex(), k(50, &[1, 0, 2])]));
    c.no("no_body_base", 5, 1, 7, base().with(|s| *s.at(7) = k(9, &[6, 0, 1, 0])));
    c.no("no_body_512", 5, 1, 512, flat(512).with(|s| s.at(512).kind = 3));
    c.no("no_body_and_unclaimed", 5, 1, 1, small(vec![ex(), ex(), k(3, &[2])]));

    // two of them: the lower record, whatever the sort
    c.no("wrong_3_and_unclaimed_4", 5, 1, 3, small(vec![pa(), ex(), k(3, &[1, 2]), ex(), k(60, &[3])]));
    c.no("unclaimed_2_and_wrong_4", 5, 1, 2, small(vec![pa(), ex(), ex(), k(3, &[1, 3]), k(60, &[4])]));
    c.no("absent_2_and_twice_4", 5, 1, 2, small(vec![ex(), k(3, &[0]), ex(), k(3, &[1, 1, 2, 3]), k(60, &[4])]));
    c.no("twice_2_and_absent_4", 5, 1, 2, small(vec![ex(), k(3, &[1, 1]), ex(), k(3, &[0, 2, 3]), k(60, &[4])]));
    c.no("higher_1_and_unclaimed_2", 5, 1, 1, small(vec![k(3, &[9]), ex(), k(60, &[1])]));
    c.no("unclaimed_1_and_higher_2", 5, 1, 1, small(vec![ex(), k(3, &[9]), k(60, &[2])]));
    c.no("wrong_4_and_no_body_5", 5, 1, 4, small(vec![ex(), pa(), ex(), k(4, &[1, 2]), k(3, &[4, 3])]));
    c.no("statement_as_tail_and_body_before_the_end", 5, 1, 2, small(vec![st(), k(7, &[1]), k(60, &[2]), ex(), k(60, &[4])]));
}

/// Number 6: a let is a pattern 1, an expression 2 and the let 3.
fn lets(c: &mut Cases) {
    let with = |more: Vec<Node>| {
        let mut v = vec![pa(), ex(), k(6, &[1, 2])];
        v.extend(more);
        small(v)
    };
    for (name, more) in [
        ("sequence", vec![k(3, &[3]), k(60, &[4])]),
        ("sequence_second", vec![ex(), k(3, &[4, 3]), k(60, &[5])]),
        ("and_first", vec![ex(), k(4, &[3, 4]), k(60, &[5])]),
        ("and_second", vec![ex(), k(4, &[4, 3]), k(60, &[5])]),
        ("then", vec![ex(), k(5, &[4, 3, 0]), k(60, &[5])]),
        ("else", vec![ex(), ex(), k(5, &[4, 5, 3]), k(60, &[6])]),
        ("let_expression", vec![pa(), k(6, &[4, 3]), ex(), k(5, &[5, 6, 0]), k(60, &[7])]),
        ("tail", vec![k(7, &[3]), k(60, &[4])]),
        ("loop", vec![k(8, &[3]), k(60, &[4])]),
        ("closure", vec![k(9, &[3, 0]), k(60, &[4])]),
        ("match", vec![k(10, &[3]), k(60, &[4])]),
        ("constant", vec![k(11, &[3]), k(60, &[4])]),
        ("repeat_element", vec![ex(), k(12, &[3, 4]), k(60, &[5])]),
        ("repeat_length", vec![ex(), k(12, &[4, 3]), k(60, &[5])]),
        ("cast", vec![ty(), k(13, &[3, 4]), k(60, &[5])]),
        ("pattern", vec![k(23, &[3]), ex(), k(60, &[5, 4])]),
        ("array_length", vec![ty(), k(32, &[4, 3]), ex(), k(13, &[6, 5]), k(60, &[7])]),
        ("initializer", vec![pa(), k(40, &[4, 0, 3, 0]), k(7, &[0, 5]), k(60, &[6])]),
        ("let_else", vec![pa(), k(40, &[4, 0, 0, 3]), k(7, &[0, 5]), k(60, &[6])]),
        ("statement", vec![k(41, &[3]), k(7, &[0, 4]), k(60, &[5])]),
        ("arm", vec![pa(), k(50, &[4, 0, 3]), ex(), k(10, &[6, 5]), k(60, &[7])]),
        ("body", vec![k(60, &[3])]),
        // below a condition, but no longer in condition place
        ("sequence_in_condition", vec![k(3, &[3]), ex(), k(5, &[4, 5, 0]), k(60, &[6])]),
        ("block_in_condition", vec![k(7, &[3]), ex(), k(5, &[4, 5, 0]), k(60, &[6])]),
        ("loop_in_condition", vec![k(8, &[3]), ex(), k(5, &[4, 5, 0]), k(60, &[6])]),
        ("closure_in_condition", vec![k(9, &[3, 0]), ex(), k(5, &[4, 5, 0]), k(60, &[6])]),
        ("match_in_condition", vec![k(10, &[3]), ex(), k(5, &[4, 5, 0]), k(60, &[6])]),
        ("constant_in_condition", vec![k(11, &[3]), ex(), k(5, &[4, 5, 0]), k(60, &[6])]),
        ("then_in_condition", vec![ex(), k(5, &[4, 3, 0]), ex(), k(5, &[5, 6, 0]), k(60, &[7])]),
        ("sequence_in_and_in_condition", vec![k(3, &[3]), ex(), k(4, &[4, 5]), ex(), k(5, &[6, 7, 0]), k(60, &[8])]),
        ("and_in_sequence_in_condition", vec![ex(), k(4, &[3, 4]), k(3, &[5]), ex(), k(5, &[6, 7, 0]), k(60, &[8])]),
        ("and_in_sequence_in_and_in_condition", vec![
            ex(), k(4, &[3, 4]), k(3, &[5]), ex(), k(4, &[6, 7]), ex(), k(5, &[8, 9, 0]), k(60, &[10]),
        ]),
        ("sequence_in_guard", vec![k(3, &[3]), pa(), ex(), k(50, &[5, 4, 6]), ex(), k(10, &[8, 7]), k(60, &[9])]),
        // a lazy and that is itself in no condition place
        ("and_in_then", vec![ex(), k(4, &[3, 4]), ex(), k(5, &[6, 5, 0]), k(60, &[7])]),
        ("and_in_else", vec![ex(), k(4, &[4, 3]), ex(), ex(), k(5, &[6, 7, 5]), k(60, &[8])]),
        ("and_in_arm", vec![ex(), k(4, &[3, 4]), pa(), k(50, &[6, 0, 5]), ex(), k(10, &[8, 7]), k(60, &[9])]),
        ("and_in_match", vec![ex(), k(4, &[3, 4]), k(10, &[5]), k(60, &[6])]),
        ("and_in_initializer", vec![ex(), k(4, &[3, 4]), pa(), k(40, &[6, 0, 5, 0]), k(7, &[0, 7]), k(60, &[8])]),
        ("and_in_let_expression", vec![ex(), k(4, &[3, 4]), pa(), k(6, &[6, 5]), ex(), k(5, &[7, 8, 0]), k(60, &[9])]),
        ("and_in_and", vec![ex(), k(4, &[3, 4]), ex(), k(4, &[5, 6]), k(60, &[7])]),
        ("and_in_closure_in_condition", vec![ex(), k(4, &[3, 4]), k(9, &[5, 0]), ex(), k(5, &[6, 7, 0]), k(60, &[8])]),
        ("and_in_tail", vec![ex(), k(4, &[3, 4]), k(7, &[5]), k(60, &[6])]),
        ("and_in_loop", vec![ex(), k(4, &[3, 4]), k(8, &[5]), k(60, &[6])]),
        ("and_in_statement", vec![ex(), k(4, &[3, 4]), k(41, &[5]), k(7, &[0, 6]), k(60, &[7])]),
        ("and_in_pattern", vec![ex(), k(4, &[3, 4]), k(23, &[5]), ex(), k(60, &[7, 6])]),
    ] {
        c.no(&format!("let_{name}"), 6, 1, 3, with(more));
    }
    // a let after a lawful one: 3 is the condition of 5; 8 stands in a sequence
    c.no("let_later", 6, 1, 8, with(vec![ex(), k(5, &[3, 4, 0]), pa(), ex(), k(6, &[6, 7]), k(3, &[5, 8]), k(60, &[9])]));
    // two out of place: the lower record, be it the outer one
    c.no("let_two", 6, 1, 3, with(vec![pa(), ex(), k(6, &[4, 5]), k(3, &[6, 3]), k(60, &[7])]));
    c.no("let_two_apart", 6, 1, 3, with(vec![k(3, &[3]), pa(), ex(), k(6, &[5, 6]), k(3, &[7, 4]), k(60, &[8])]));
    // 3 is in 5's expression and 5 in a sequence: both out of place
    c.no("let_in_let_in_sequence", 6, 1, 3, with(vec![pa(), k(6, &[4, 3]), k(3, &[5]), k(60, &[6])]));
    // 3 is a then-branch's condition, in place; 7 is not
    c.no("let_in_place_below_one_that_is_not", 6, 1, 7, with(vec![ex(), k(5, &[3, 4, 0]), pa(), k(6, &[6, 5]), k(3, &[7]), k(60, &[8])]));
    c.no("let_only_first_and_operand_counts", 6, 1, 7, with(vec![
        ex(), k(5, &[3, 4, 0]), pa(), k(6, &[6, 5]), ex(), k(4, &[7, 8]), k(60, &[9]),
    ]));
    c.no("let_every_kind_tree", 6, 1, 23, every().with(|s| s.at(25).kind = 3));
    c.no("let_every_kind_if_turned", 6, 1, 23, every().with(|s| s.at(27).ch = vec![26, 25, 0]));
    c.no("let_in_512", 6, 1, 3, {
        // 1 pattern, 2 leaf, 3 let, 4..=511 nested sequences, 512 body
        let mut v = vec![pa(), ex(), k(6, &[1, 2])];
        for i in 4..=511u16 {
            v.push(k(3, &[i - 1]));
        }
        v.push(k(60, &[511]));
        small(v)
    });

    // in condition place
    for (name, more) in [
        ("condition", vec![ex(), k(5, &[3, 4, 0]), k(60, &[5])]),
        ("condition_with_else", vec![ex(), ex(), k(5, &[3, 4, 5]), k(60, &[6])]),
        ("guard", vec![pa(), ex(), k(50, &[4, 3, 5]), ex(), k(10, &[7, 6]), k(60, &[8])]),
        ("and_first", vec![ex(), k(4, &[3, 4]), ex(), k(5, &[5, 6, 0]), k(60, &[7])]),
        ("and_second", vec![ex(), k(4, &[4, 3]), ex(), k(5, &[5, 6, 0]), k(60, &[7])]),
        ("and_both", vec![pa(), ex(), k(6, &[4, 5]), k(4, &[3, 6]), ex(), k(5, &[7, 8, 0]), k(60, &[9])]),
        ("guard_and_first", vec![ex(), k(4, &[3, 4]), pa(), ex(), k(50, &[6, 5, 7]), ex(), k(10, &[9, 8]), k(60, &[10])]),
        ("guard_and_second", vec![ex(), k(4, &[4, 3]), pa(), ex(), k(50, &[6, 5, 7]), ex(), k(10, &[9, 8]), k(60, &[10])]),
        ("and_in_and_left", vec![ex(), k(4, &[3, 4]), ex(), k(4, &[5, 6]), ex(), k(5, &[7, 8, 0]), k(60, &[9])]),
        ("and_in_and_right", vec![ex(), k(4, &[4, 3]), ex(), k(4, &[6, 5]), ex(), k(5, &[7, 8, 0]), k(60, &[9])]),
        ("and_in_and_zigzag", vec![
            ex(), k(4, &[3, 4]), ex(), k(4, &[6, 5]), ex(), k(4, &[7, 8]), ex(), k(5, &[9, 10, 0]), k(60, &[11]),
        ]),
        ("if_in_then", vec![ex(), k(5, &[3, 4, 0]), ex(), k(5, &[6, 5, 0]), k(60, &[7])]),
        ("if_in_else", vec![ex(), k(5, &[3, 4, 0]), ex(), ex(), k(5, &[6, 7, 5]), k(60, &[8])]),
        ("if_in_condition", vec![ex(), k(5, &[3, 4, 0]), ex(), k(5, &[5, 6, 0]), k(60, &[7])]),
        ("if_in_sequence", vec![ex(), k(5, &[3, 4, 0]), k(3, &[5]), k(60, &[6])]),
        ("if_in_let_expression", vec![ex(), k(5, &[3, 4, 0]), pa(), k(6, &[6, 5]), ex(), k(5, &[7, 8, 0]), k(60, &[9])]),
        ("if_in_closure_in_and", vec![
            ex(), k(5, &[3, 4, 0]), k(9, &[5, 0]), ex(), k(4, &[6, 7]), ex(), k(5, &[8, 9, 0]), k(60, &[10]),
        ]),
        ("if_in_guard", vec![ex(), k(5, &[3, 4, 0]), pa(), ex(), k(50, &[6, 5, 7]), ex(), k(10, &[9, 8]), k(60, &[10])]),
        ("guard_in_match_in_condition", vec![
            pa(), ex(), k(50, &[4, 3, 5]), ex(), k(10, &[7, 6]), ex(), k(5, &[8, 9, 0]), k(60, &[10]),
        ]),
        ("if_in_length_of_pattern", vec![ex(), k(5, &[3, 4, 0]), k(23, &[5]), ex(), k(60, &[7, 6])]),
    ] {
        c.ok(&format!("let_ok_{name}"), with(more));
    }
    // deep: 100 lazy ands, each the first (left) or second (right) child of the next, the let innermost
    for (name, left) in [("left", true), ("right", false)] {
        for guard in [false, true] {
            let mut v = vec![pa(), ex(), k(6, &[1, 2])];
            let mut last = 3u16;
            for _ in 0..100 {
                v.push(ex());
                v.push(k(4, &if left { [last, last + 1] } else { [last + 1, last] }));
                last += 2;
            }
            // last is 203
            let mut bad = v.clone();
            if guard {
                v.extend([pa(), ex(), k(50, &[204, 203, 205]), ex(), k(10, &[207, 206]), k(60, &[208])]);
                bad.extend([pa(), k(50, &[204, 0, 203]), ex(), k(10, &[206, 205]), k(60, &[207])]);
            } else {
                v.extend([ex(), k(5, &[203, 204, 0]), k(60, &[205])]);
                bad.extend([ex(), k(5, &[204, 203, 0]), k(60, &[205])]);
            }
            let place = if guard { "guard" } else { "condition" };
            c.ok(&format!("let_ok_100_ands_{name}_{place}"), small(v));
            let place = if guard { "arm" } else { "then" };
            c.no(&format!("let_100_ands_{name}_{place}"), 6, 1, 3, small(bad));
        }
    }
    // a chain of 100 lets, all in place; then the same with the outermost and turned into a sequence: all
    // are in a sequence or in ands below it, the lowest is 3
    let mut v = vec![pa(), ex(), k(6, &[1, 2])];
    let mut last = 3u16;
    for _ in 1..100 {
        v.extend([pa(), ex(), k(6, &[last + 1, last + 2]), k(4, &[last, last + 3])]);
        last += 4;
    }
    // last is 399
    v.extend([ex(), k(5, &[399, 400, 0]), k(60, &[401])]);
    c.ok("let_ok_chain_of_100", small(v.clone()));
    v[398].kind = 3;
    c.no("let_chain_of_100_in_sequence", 6, 1, 3, small(v.clone()));
    // the outermost and as it was, the next one (395) a sequence: its lets, the lowest 3, are out of place
    v[398].kind = 4;
    v[394].kind = 3;
    c.no("let_chain_of_100_inner_sequence", 6, 1, 3, small(v));
}

/// Number 7.
fn names_and_frames(c: &mut Cases) {
    for name in [0u32, 2] {
        c.no(&format!("name_{name}_first"), 7, 3, 1, base().with(|s| s.bindings[0].0 = name));
        c.no(&format!("name_{name}_second"), 7, 3, 2, base().with(|s| s.bindings[1].0 = name));
        c.no(&format!("name_{name}_hygiene"), 7, 3, 2, base().with(|s| s.bindings[1] = (name, 6)));
        c.no(&format!("name_{name}_256th"), 7, 3, 256, base().with(|s| {
            s.bindings = vec![(3, 0); 256];
            s.bindings[255].0 = name;
        }));
        c.no(&format!("name_{name}_unbound"), 7, 3, 3, base().with(|s| s.bindings.push((name, 0))));
    }
    c.no("name_0_and_2", 7, 3, 1, base().with(|s| s.bindings = vec![(0, 0), (2, 0)]));
    c.no("name_2_and_0", 7, 3, 1, base().with(|s| s.bindings = vec![(2, 0), (0, 0)]));
    c.no("name_second_and_third", 7, 3, 2, base().with(|s| s.bindings = vec![(1, 0), (2, 0), (0, 0)]));
    c.ok("name_1", base().with(|s| s.bindings[0].0 = 1));
    c.ok("name_1_twice", base().with(|s| s.bindings = vec![(1, 0), (1, 0)]));
    c.ok("name_3_twice", base().with(|s| s.bindings = vec![(3, 0), (3, 0)]));
    c.ok("name_most_hygiene_most", base().with(|s| s.bindings[1] = (u32::MAX, u32::MAX)));
    // each of the four bytes counts
    for (name, x) in [("third_byte_1", 1u32 << 8), ("second_byte_1", 1 << 16), ("high_byte_1", 1 << 24), ("third_byte_2", 2 << 8), ("second_byte_2", 2 << 16), ("high_byte_2", 2 << 24), ("258", 258)] {
        c.ok(&format!("name_{name}"), base().with(|s| s.bindings[0].0 = x));
    }
    for (word, at) in [("first", 1u16), ("second", 2), ("third", 3)] {
        let i = at as usize - 1;
        for kind in [0u8, 4, 255] {
            c.no(&format!("frame_kind_{kind}_{word}"), 7, 4, at, framed().with(|s| s.frames[i].0 = kind));
        }
        c.no(&format!("frame_number_0_{word}"), 7, 4, at, framed().with(|s| s.frames[i].1 = 0));
        c.no(&format!("frame_all_0_{word}"), 7, 4, at, framed().with(|s| s.frames[i] = (0, 0)));
    }
    c.no("frame_kind_4_16th", 7, 4, 16, base().with(|s| {
        s.frames = vec![(3, 1); 16];
        s.frames[15].0 = 4;
    }));
    c.no("frame_number_0_16th", 7, 4, 16, base().with(|s| {
        s.frames = vec![(1, 1); 16];
        s.frames[15].1 = 0;
    }));
    c.no("frame_two_and_three", 7, 4, 2, framed().with(|s| {
        s.frames[1].1 = 0;
        s.frames[2].0 = 0;
    }));
    c.no("frame_one_and_three", 7, 4, 1, framed().with(|s| {
        s.frames[0].0 = 4;
        s.frames[2].1 = 0;
    }));
    c.no("binding_two_before_frame_one", 7, 3, 2, framed().with(|s| {
        s.bindings[1].0 = 0;
        s.frames[0].0 = 0;
    }));
    c.no("binding_256_before_frame_one", 7, 3, 256, framed().with(|s| {
        s.bindings = vec![(1, 0); 256];
        s.bindings[255].0 = 2;
        s.frames[0].1 = 0;
    }));
    for kind in 1..=3u8 {
        c.ok(&format!("frame_kind_{kind}_alone"), base().with(|s| s.frames = vec![(kind, 1)]));
    }
    c.ok("frame_equal_ones", base().with(|s| s.frames = vec![(1, 1), (1, 1), (2, 1)]));
    for (name, x) in [("most", u32::MAX), ("third_byte", 1 << 8), ("second_byte", 1 << 16), ("high_byte", 1 << 24)] {
        c.ok(&format!("frame_number_{name}"), framed().with(|s| s.frames[1].1 = x));
    }
}

/// Two causes, or more, at once.
fn two_causes(c: &mut Cases) {
    // 1 and each other
    let version = |s: Sheet| s.parts().with(|p| p.version = 2).bytes();
    c.put("both_1_2_length", 1, 0, 0, &base().parts().with(|p| (p.version, p.length) = (2, Some(0))).bytes());
    c.put("both_1_3", 1, 0, 0, &version(flat(513)));
    c.put("both_1_4", 1, 0, 0, &version(base().with(|s| s.at(1).kind = 0)));
    c.put("both_1_5", 1, 0, 0, &version(small(vec![ex(), ex(), k(60, &[2])])));
    c.put("both_1_6", 1, 0, 0, &version(small(vec![pa(), ex(), k(6, &[1, 2]), k(60, &[3])])));
    c.put("both_1_7", 1, 0, 0, &version(base().with(|s| s.bindings[0].0 = 0)));
    // 2 and each later
    let over = |s: Sheet| s.parts().with(|p| p.more = vec![7]).bytes();
    c.put("both_2_3_nodes", 2, 0, 0, &over(flat(513)));
    c.put("both_2_3_no_nodes", 2, 0, 0, &over(small(vec![])));
    c.put("both_2_3_frames", 2, 0, 0, &over(base().with(|s| s.frames = vec![(1, 1); 17])));
    // 513 nodes are there, the frames run past the bytes
    c.put("both_2_3_cut_frames", 2, 4, 0, &flat(513).parts().with(|p| p.count(4, 1)).bytes());
    c.put("both_2_3_cut_bindings", 2, 3, 0, &flat(513).parts().with(|p| p.count(3, 300)).bytes());
    c.put("both_2_3_no_nodes_cut_children", 2, 2, 0, &[1, 0, 0, 0, 3, 0, 0, 0]);
    c.put("both_2_4", 2, 0, 0, &over(base().with(|s| s.at(1).kind = 0)));
    c.put("both_2_4_cut_frames", 2, 4, 0, &base().with(|s| s.at(1).kind = 0).parts().with(|p| p.count(4, 1)).bytes());
    c.put("both_2_5", 2, 0, 0, &over(small(vec![ex(), ex(), k(60, &[2])])));
    c.put("both_2_6", 2, 0, 0, &over(small(vec![pa(), ex(), k(6, &[1, 2]), k(60, &[3])])));
    c.put("both_2_7", 2, 0, 0, &over(base().with(|s| s.bindings[0].0 = 0)));
    c.put("both_2_7_cut_frames", 2, 4, 0, &base().with(|s| s.bindings[0].0 = 0).parts().with(|p| p.count(4, 2)).bytes());
    // 3 and each later
    c.no("both_3_4_nodes", 3, 1, 0, flat(513).with(|s| s.at(1).kind = 0));
    c.no("both_3_4_frames", 3, 4, 0, base().with(|s| {
        s.frames = vec![(1, 1); 17];
        s.at(1).kind = 0;
    }));
    c.no("both_3_4_bindings", 3, 3, 0, base().with(|s| {
        s.bindings = vec![(3, 0); 257];
        s.at(1).a = 258;
    }));
    c.no("both_3_5_frames", 3, 4, 0, small(vec![ex(), ex(), k(60, &[2])]).with(|s| s.frames = vec![(1, 1); 17]));
    c.no("both_3_6_frames", 3, 4, 0, small(vec![pa(), ex(), k(6, &[1, 2]), k(60, &[3])]).with(|s| s.frames = vec![(1, 1); 17]));
    c.no("both_3_7_bindings", 3, 3, 0, base().with(|s| s.bindings = vec![(0, 0); 257]));
    c.no("both_3_7_frames", 3, 4, 0, base().with(|s| s.frames = vec![(0, 0); 17]));
    c.no("both_3_7_binding_first", 3, 4, 0, base().with(|s| {
        s.bindings[0].0 = 2;
        s.frames = vec![(1, 1); 17];
    }));
    // 4 and each later, the later at a lower section or record
    c.no("both_4_5_unclaimed_first", 4, 1, 4, small(vec![ex(), ex(), k(3, &[2]), n(60, 9, 0, &[3])]));
    c.no("both_4_5_wrong_child", 4, 1, 3, small(vec![pa(), k(8, &[1]), n(60, 0, 1, &[2])]));
    c.put("both_4_5_sum", 4, 1, 2, &small(vec![ex(), n(60, 3, 0, &[1])]).parts().with(|p| {
        p.count(2, 2);
        p.sections[1].extend([0, 0]);
    }).bytes());
    c.no("both_4_5_no_body", 4, 1, 1, small(vec![n(1, 1, 0, &[]), k(3, &[1])]));
    c.no("both_4_5_body_before_the_end", 4, 1, 4, small(vec![ex(), k(60, &[1]), ex(), n(60, 9, 0, &[3])]));
    c.no("both_4_5_same_record", 4, 1, 2, small(vec![pa(), n(8, 0, 1, &[1]), k(60, &[2])]));
    c.no("both_4_5_absent", 4, 1, 2, small(vec![k(8, &[0]), n(60, 0, 5, &[1])]));
    c.no("both_4_6", 4, 1, 5, small(vec![pa(), ex(), k(6, &[1, 2]), k(3, &[3]), n(60, 3, 0, &[4])]));
    c.no("both_4_6_same_record", 4, 1, 3, small(vec![pa(), ex(), n(6, 1, 0, &[1, 2]), k(3, &[3]), k(60, &[4])]));
    c.no("both_4_7_binding", 4, 1, 7, base().with(|s| {
        s.at(7).b = 1;
        s.bindings[0].0 = 0;
    }));
    c.no("both_4_7_frame", 4, 1, 5, framed().with(|s| {
        s.at(5).a = 0;
        s.frames[0].0 = 0;
    }));
    // 5 and each later
    c.no("both_5_6_higher_record", 5, 1, 5, small(vec![pa(), ex(), k(6, &[1, 2]), pa(), k(3, &[3, 4]), k(60, &[5])]));
    c.no("both_5_6_same_parent_absent", 5, 1, 4, small(vec![pa(), ex(), k(6, &[1, 2]), k(3, &[3, 0]), k(60, &[4])]));
    c.no("both_5_6_no_body", 5, 1, 4, small(vec![pa(), ex(), k(6, &[1, 2]), k(3, &[3])]));
    c.no("both_5_6_unclaimed_let", 5, 1, 3, small(vec![pa(), ex(), k(6, &[1, 2]), ex(), k(60, &[4])]));
    c.no("both_5_6_let_as_statement", 5, 1, 4, small(vec![pa(), ex(), k(6, &[1, 2]), k(7, &[0, 3]), k(60, &[4])]));
    c.no("both_5_6_let_as_parameter", 5, 1, 5, small(vec![pa(), ex(), k(6, &[1, 2]), ex(), k(60, &[4, 3])]));
    c.no("both_5_6_let_twice", 5, 1, 5, small(vec![pa(), ex(), k(6, &[1, 2]), ex(), k(5, &[3, 4, 3]), k(60, &[5])]));
    c.put("both_5_6_sum", 5, 0, 0, &small(vec![pa(), ex(), k(6, &[1, 2]), k(3, &[3]), k(60, &[4])]).parts().with(|p| {
        p.count(2, 5);
        p.sections[1].extend([0, 0]);
    }).bytes());
    c.no("both_5_7_binding", 5, 1, 7, base().with(|s| {
        s.at(7).ch.push(1);
        s.bindings[0].0 = 2;
    }));
    c.no("both_5_7_frame", 5, 1, 4, framed().with(|s| {
        s.at(6).ch.pop();
        s.frames[0].1 = 0;
    }));
    // 6 and 7
    let out = || small(vec![pa(), ex(), k(6, &[1, 2]), k(3, &[3]), k(60, &[4])]);
    c.no("both_6_7_binding", 6, 1, 3, out().with(|s| s.bindings[0].0 = 0));
    c.no("both_6_7_frame", 6, 1, 3, out().with(|s| s.frames = vec![(4, 1)]));
    c.no("both_6_7_both", 6, 1, 3, out().with(|s| (s.bindings[0].0, s.frames) = (2, vec![(0, 0)])));
    // 4, 5, 6 and 7
    c.no("all_4_to_7", 4, 1, 6, small(vec![pa(), ex(), k(6, &[1, 2]), ex(), k(3, &[3, 0]), n(60, 0, 2, &[5])]).with(|s| {
        s.bindings[0].0 = 0;
        s.frames = vec![(0, 0)];
    }));
    c.no("all_5_to_7", 5, 1, 4, small(vec![pa(), ex(), k(6, &[1, 2]), ex(), k(3, &[3, 0]), k(60, &[5])]).with(|s| {
        s.bindings[0].0 = 0;
        s.frames = vec![(0, 0)];
    }));
    c.no("all_3_to_7", 3, 4, 0, small(vec![pa(), ex(), k(6, &[1, 2]), ex(), k(3, &[3, 0]), n(60, 0, 2, &[5])]).with(|s| {
        s.bindings[0].0 = 0;
        s.frames = vec![(0, 0); 17];
    }));
    c.put("all_2_to_7", 2, 0, 0, &over(small(vec![pa(), ex(), k(6, &[1, 2]), ex(), k(3, &[3, 0]), n(60, 0, 2, &[5])]).with(|s| {
        s.bindings[0].0 = 0;
        s.frames = vec![(0, 0); 17];
    })));
}
