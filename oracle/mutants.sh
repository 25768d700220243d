#!/bin/bash
# Does the harness see faults? Each mutant alters the MODEL; the fuzzer and the vectors must report mismatches.
set -u
cd "$(dirname "$0")"
unset CARGO_TARGET_DIR
at=$(mktemp -d)
cp -r Cargo.toml Cargo.lock la_arena salsa oracle crate "$at"
cd "$at"; mkdir v
f=oracle/src/model.rs; cp $f model.orig
run() {
  cp model.orig $f
  python3 - "$2" "$3" <<'P'
import sys
p='oracle/src/model.rs'; s=open(p).read()
a,b=sys.argv[1].replace('\\n','\n'),sys.argv[2].replace('\\n','\n')
assert s.count(a)>=1,a
open(p,'w').write(s.replace(a,b,1))
P
  cargo build --release --offline 2>&1 | grep -E '^error' -A6
  echo "$1: $(./target/release/fuzz 1 3000 60 2>&1 | grep -o 'MISMATCHING.*') | $(./target/release/vectors v 2>&1 | grep MISMATCH | cut -c1-3 | sort -u | wc -l) vectors"
}
run "macro: konst not moved" "self.konst = self.scope(self.konst, Kind::Macro(nd.a));" "self.scope(self.konst, Kind::Macro(nd.a));"
run "macro step keeps outer" "outer = Self::outer(it, parent);" ""
run "macro step: outer of opaque" "outer = Self::outer(it, parent);" "outer = Self::outer(it, h);"
run "macro step: parent not made opaque" "h = Self::opaque(it, parent);" "h = parent;"
run "Self from any frame" "if k == 1 && name == 2" "if name == 2"
run "closure: return type first" "                for p in ch[2..].chunks(2) {\n                    if p[1] != 0 {\n                        self.in_const(p[1]);\n                    }\n                }\n                if ch[1] != 0 {\n                    self.in_const(ch[1]);\n                }" "                if ch[1] != 0 {\n                    self.in_const(ch[1]);\n                }\n                for p in ch[2..].chunks(2) {\n                    if p[1] != 0 {\n                        self.in_const(p[1]);\n                    }\n                }"
run "if: else inside" "                self.cur = before;\n                self.opt(ch[2]);" "                self.opt(ch[2]);\n                self.cur = before;"
run "let: else after the pattern" "                self.opt(ch[3]);\n                self.cur = self.scope(self.cur, Kind::Plain);\n                self.visit(ch[0]);" "                self.cur = self.scope(self.cur, Kind::Plain);\n                self.visit(ch[0]);\n                self.opt(ch[3]);"
run "block not recorded again" "self.m.recorded[n as usize] = self.cur;\n                for" "for"
run "block: konst not restored" "                self.cur = before;\n                self.konst = konst;" "                self.cur = before;"
run "length in current scope" "            12 => {\n                self.visit(ch[0]);\n                self.in_const(ch[1]);" "            12 => {\n                self.visit(ch[0]);\n                self.visit(ch[1]);"
run "bind after its child" "                self.add(nd.a);\n                for &c in ch {\n                    self.visit(c);\n                }" "                for &c in ch {\n                    self.visit(c);\n                }\n                self.add(nd.a);"
run "last entry wins" "for &b in &sc.entries {\n                if s.bindings" "for &b in sc.entries.iter().rev() {\n                if s.bindings"
run "frames outermost first" "s.frames.iter().rev()" "s.frames.iter()"
run "a block is asked for hygiene 0 only" "if let Some(x) = Self::item(it, b, name) {\n                        return x;" "if h == 0 { if let Some(x) = Self::item(it, b, name) {\n                        return x; }"
run "kind 6: pattern before expression" "                self.visit(ch[1]);\n                self.cur = self.scope(self.cur, Kind::Plain);\n                self.visit(ch[0]);" "                self.cur = self.scope(self.cur, Kind::Plain);\n                self.visit(ch[0]);\n                self.visit(ch[1]);"
run "self after the parameters" "                if nd.a != 0 {\n                    self.add(nd.a);\n                }\n                for &c in &ch[1..] {\n                    self.visit(c);\n                }" "                for &c in &ch[1..] {\n                    self.visit(c);\n                }\n                if nd.a != 0 {\n                    self.add(nd.a);\n                }"
rm -rf "$at"
