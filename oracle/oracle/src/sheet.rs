//! The catalogue's body sheet and item sheet: bytes <-> tables, and a lawfulness check.

#[derive(Clone, Debug, PartialEq, Eq)]
pub struct Node {
    pub kind: u8,
    pub a: u32,
    pub b: u32,
    /// node numbers from 1; 0 absent
    pub ch: Vec<u16>,
}
#[derive(Clone, Debug, Default, PartialEq, Eq)]
pub struct BodySheet {
    pub nodes: Vec<Node>,
    pub bindings: Vec<(u32, u32)>,
    pub frames: Vec<(u8, u32)>,
}
#[derive(Clone, Debug, Default, PartialEq, Eq)]
pub struct ItemSheet {
    /// place, name, kind, number
    pub items: Vec<(u32, u32, u8, u32)>,
    /// owner, name, number
    pub consts: Vec<(u32, u32, u32)>,
    /// context, macro or 0, parent, opaque
    pub expansions: Vec<(u32, u32, u32, u32)>,
}
#[derive(Clone, Copy, Debug, PartialEq, Eq)]
pub enum Heading {
    Local(u32),
    Item(u8, u32),
    Const(u32),
    Impl(u32),
    Unfound,
}
impl std::fmt::Display for Heading {
    fn fmt(&self, f: &mut std::fmt::Formatter<'_>) -> std::fmt::Result {
        match self {
            Heading::Local(n) => write!(f, "local {n}"),
            Heading::Item(k, n) => write!(f, "item {k} {n}"),
            Heading::Const(n) => write!(f, "const {n}"),
            Heading::Impl(n) => write!(f, "impl {n}"),
            Heading::Unfound => write!(f, "unfound"),
        }
    }
}

impl BodySheet {
    pub fn node(&self, n: u16) -> &Node {
        &self.nodes[n as usize - 1]
    }
    pub fn uses(&self) -> impl Iterator<Item = u16> + '_ {
        (1..=self.nodes.len() as u16).filter(|&n| self.node(n).kind == 2)
    }
    pub fn is_expr(&self, n: u16) -> bool {
        (1..=13).contains(&self.node(n).kind)
    }

    pub fn encode(&self) -> Vec<u8> {
        let mut o = Vec::new();
        o.extend((self.nodes.len() as u16).to_be_bytes());
        for n in &self.nodes {
            o.push(n.kind);
            o.extend((n.ch.len() as u16).to_be_bytes());
            o.extend(n.a.to_be_bytes());
            o.extend(n.b.to_be_bytes());
        }
        let total: usize = self.nodes.iter().map(|n| n.ch.len()).sum();
        o.extend((total as u16).to_be_bytes());
        for n in &self.nodes {
            for c in &n.ch {
                o.extend(c.to_be_bytes());
            }
        }
        o.extend((self.bindings.len() as u16).to_be_bytes());
        for (n, h) in &self.bindings {
            o.extend(n.to_be_bytes());
            o.extend(h.to_be_bytes());
        }
        o.extend((self.frames.len() as u16).to_be_bytes());
        for (k, n) in &self.frames {
            o.push(*k);
            o.extend(n.to_be_bytes());
        }
        head(o)
    }

    pub fn decode(bytes: &[u8]) -> Result<BodySheet, String> {
        let mut r = Rd::start(bytes)?;
        let mut counts = vec![];
        let mut nodes = vec![];
        for _ in 0..r.u16()? {
            let kind = r.u8()?;
            counts.push(r.u16()?);
            let a = r.u32()?;
            let b = r.u32()?;
            nodes.push(Node { kind, a, b, ch: vec![] });
        }
        let nch = r.u16()? as usize;
        let mut ch = vec![];
        for _ in 0..nch {
            ch.push(r.u16()?);
        }
        let mut bindings = vec![];
        for _ in 0..r.u16()? {
            bindings.push((r.u32()?, r.u32()?));
        }
        let mut frames = vec![];
        for _ in 0..r.u16()? {
            frames.push((r.u8()?, r.u32()?));
        }
        r.end()?;
        if counts.iter().map(|&c| c as usize).sum::<usize>() != nch {
            return Err("child counts do not add up".into());
        }
        let mut at = 0;
        for (n, c) in nodes.iter_mut().zip(counts) {
            n.ch = ch[at..at + c as usize].to_vec();
            at += c as usize;
        }
        let s = BodySheet { nodes, bindings, frames };
        s.check()?;
        Ok(s)
    }

    /// Is the sheet lawful? (No refusal numbers: the oracle takes lawful sheets only.)
    pub fn check(&self) -> Result<(), String> {
        let n = self.nodes.len();
        if !(1..=512).contains(&n) {
            return Err(format!("{n} nodes"));
        }
        let total: usize = self.nodes.iter().map(|n| n.ch.len()).sum();
        if total > 1024 {
            return Err(format!("{total} children"));
        }
        if self.bindings.len() > 256 || self.frames.len() > 16 {
            return Err("bindings or frames".into());
        }
        for (i, &(name, _)) in self.bindings.iter().enumerate() {
            if name == 0 || name == 2 {
                return Err(format!("binding {} name {name}", i + 1));
            }
        }
        for &(k, num) in &self.frames {
            if !(1..=3).contains(&k) || num == 0 {
                return Err("frame".into());
            }
        }
        let mut claimed = vec![false; n + 1];
        for (i, nd) in self.nodes.iter().enumerate() {
            let me = i + 1;
            let e = |m: &str| Err(format!("node {me} kind {}: {m}", nd.kind));
            let nb = self.bindings.len() as u32;
            let l = nd.ch.len();
            let (af, bf) = match nd.kind {
                2 => (nd.a >= 1, true),
                7 => (true, true),
                8 => (true, nd.b == 0),
                21 => (nd.a >= 1 && nd.a <= nb, nd.b == 0),
                42 => (nd.a >= 1, nd.b == 0),
                60 => (nd.a <= nb, nd.b == 0),
                _ => (nd.a == 0, nd.b == 0),
            };
            if !af || !bf {
                return e("field");
            }
            let lok = match nd.kind {
                1 | 2 | 20 | 30 | 42 | 43 => l == 0,
                3 | 22 | 23 | 31 => true,
                4 | 6 | 12 | 13 | 32 => l == 2,
                5 | 50 => l == 3,
                7 | 10 | 60 => l >= 1,
                8 | 11 | 41 => l == 1,
                9 => l >= 2 && l % 2 == 0,
                21 => l <= 1,
                40 => l == 4,
                _ => return e("unknown kind"),
            };
            if !lok {
                return e("child count");
            }
            if (nd.kind == 60) != (me == n) {
                return e("body not last, or last not body");
            }
            for (j, &c) in nd.ch.iter().enumerate() {
                // wanted class: e expression, p pattern, t type, s statement, a arm; upper case: may be absent
                let want = match (nd.kind, j) {
                    (3 | 4 | 8 | 11 | 12 | 23 | 41, _) => 'e',
                    (5, 2) => 'E',
                    (5, _) => 'e',
                    (6, 0) => 'p',
                    (6, _) => 'e',
                    (7, 0) => 'E',
                    (7, _) => 's',
                    (9, 0) => 'e',
                    (9, j) if j % 2 == 1 => 'T',
                    (9, _) => 'p',
                    (10, 0) => 'e',
                    (10, _) => 'a',
                    (13, 0) => 'e',
                    (13, _) => 't',
                    (21 | 22, _) => 'p',
                    (31, _) => 't',
                    (32, 0) => 't',
                    (32, _) => 'e',
                    (40, 0) => 'p',
                    (40, 1) => 'T',
                    (40, _) => 'E',
                    (50, 0) => 'p',
                    (50, 1) => 'E',
                    (50, _) => 'e',
                    (60, 0) => 'e',
                    (60, _) => 'p',
                    _ => unreachable!(),
                };
                if c == 0 {
                    if want.is_uppercase() {
                        continue;
                    }
                    return e("absent child");
                }
                if c as usize >= me {
                    return e("child not below its parent");
                }
                let class = match self.node(c).kind {
                    1..=13 => 'e',
                    20..=23 => 'p',
                    30..=32 => 't',
                    40..=43 => 's',
                    50 => 'a',
                    _ => 'x',
                };
                if class != want.to_ascii_lowercase() {
                    return e("child of the wrong kind");
                }
                if claimed[c as usize] {
                    return e("repeated child");
                }
                claimed[c as usize] = true;
            }
        }
        for i in 1..n {
            if !claimed[i] {
                return Err(format!("node {i} unclaimed"));
            }
        }
        // lets in condition place only; parents have higher numbers, so go downwards
        let mut cond = vec![false; n + 1];
        for me in (1..=n).rev() {
            let nd = &self.nodes[me - 1];
            match nd.kind {
                5 => cond[nd.ch[0] as usize] = true,
                50 => cond[nd.ch[1] as usize] = true,
                4 if cond[me] => nd.ch.iter().for_each(|&c| cond[c as usize] = true),
                6 if !cond[me] => return Err(format!("node {me}: let out of place")),
                _ => {}
            }
        }
        Ok(())
    }
}

impl ItemSheet {
    pub fn encode(&self) -> Vec<u8> {
        let mut o = Vec::new();
        o.extend((self.items.len() as u16).to_be_bytes());
        for &(p, n, k, num) in &self.items {
            o.extend(p.to_be_bytes());
            o.extend(n.to_be_bytes());
            o.push(k);
            o.extend(num.to_be_bytes());
        }
        o.extend((self.consts.len() as u16).to_be_bytes());
        for &(a, b, c) in &self.consts {
            for x in [a, b, c] {
                o.extend(x.to_be_bytes());
            }
        }
        o.extend((self.expansions.len() as u16).to_be_bytes());
        for &(a, b, c, d) in &self.expansions {
            for x in [a, b, c, d] {
                o.extend(x.to_be_bytes());
            }
        }
        head(o)
    }
    pub fn decode(bytes: &[u8]) -> Result<ItemSheet, String> {
        let mut r = Rd::start(bytes)?;
        let mut s = ItemSheet::default();
        for _ in 0..r.u16()? {
            s.items.push((r.u32()?, r.u32()?, r.u8()?, r.u32()?));
        }
        for _ in 0..r.u16()? {
            s.consts.push((r.u32()?, r.u32()?, r.u32()?));
        }
        for _ in 0..r.u16()? {
            s.expansions.push((r.u32()?, r.u32()?, r.u32()?, r.u32()?));
        }
        r.end()?;
        s.check()?;
        Ok(s)
    }
    pub fn check(&self) -> Result<(), String> {
        if self.items.len() > 512 || self.consts.len() > 64 || self.expansions.len() > 256 {
            return Err("counts".into());
        }
        if self.items.iter().any(|&(_, n, k, num)| n < 3 || !(1..=5).contains(&k) || num == 0) {
            return Err("item record".into());
        }
        if self.consts.iter().any(|&(a, b, c)| a == 0 || b == 0 || c == 0) {
            return Err("constant record".into());
        }
        if self.expansions.iter().any(|r| r.0 == 0) {
            return Err("expansion record".into());
        }
        let ok = self.items.windows(2).all(|w| (w[0].0, w[0].1) < (w[1].0, w[1].1))
            && self.consts.windows(2).all(|w| (w[0].0, w[0].1) < (w[1].0, w[1].1))
            && self.expansions.windows(2).all(|w| w[0].0 < w[1].0);
        if ok { Ok(()) } else { Err("keys do not rise".into()) }
    }
}

fn head(body: Vec<u8>) -> Vec<u8> {
    let mut o = vec![1u8];
    o.extend((body.len() as u32).to_be_bytes());
    o.extend(body);
    o
}
struct Rd<'a> {
    b: &'a [u8],
}
impl<'a> Rd<'a> {
    fn start(b: &'a [u8]) -> Result<Rd<'a>, String> {
        if b.first() != Some(&1) {
            return Err("version".into());
        }
        let mut r = Rd { b: &b[1..] };
        let l = r.u32()? as usize;
        if l != r.b.len() {
            return Err("length".into());
        }
        Ok(r)
    }
    fn take<const N: usize>(&mut self) -> Result<[u8; N], String> {
        if self.b.len() < N {
            return Err("short".into());
        }
        let (h, t) = self.b.split_at(N);
        self.b = t;
        Ok(h.try_into().unwrap())
    }
    fn u8(&mut self) -> Result<u8, String> {
        Ok(self.take::<1>()?[0])
    }
    fn u16(&mut self) -> Result<u16, String> {
        Ok(u16::from_be_bytes(self.take()?))
    }
    fn u32(&mut self) -> Result<u32, String> {
        Ok(u32::from_be_bytes(self.take()?))
    }
    fn end(&self) -> Result<(), String> {
        if self.b.is_empty() { Ok(()) } else { Err("bytes left over".into()) }
    }
}
