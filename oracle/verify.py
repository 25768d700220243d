#!/usr/bin/env python3
"""Is what was compiled the crate's own text? Compares the generated files with crate/, line by line."""
import glob, os, re, sys
here = os.path.dirname(os.path.abspath(__file__))
source = here + "/crate"
target = os.environ.get("CARGO_TARGET_DIR", here + "/target")
outs = sorted(glob.glob(target + "/release/build/oracle-*/out"), key=os.path.getmtime)
if not outs:
    sys.exit("build first: cargo build --release --offline")
out = outs[-1]
crate = open(f"{source}/expr_store/scope.rs", "rb").read()
got = open(f"{out}/scope.rs", "rb").read()
assert got.startswith(crate), "scope.rs differs"
print(f"scope.rs: all {len(crate)} bytes ({crate.count(10)} lines) unchanged, {len(got)-len(crate)} bytes of accessors after them")
total = 0
for f in ["expr_store_items.rs", "hir_items.rs", "per_ns_items.rs", "resolver_items.rs"]:
    lines = open(f"{out}/{f}").read().split("\n")
    own, crate_lines, i = [], 0, 0
    while i < len(lines):
        m = re.match(r"// ---- (\S+) lines (\d+)\.\.=(\d+)$", lines[i])
        if m:
            src = open(f"{source}/{m[1]}").read().split("\n")
            a, b = int(m[2]), int(m[3])
            want = src[a - 1 : b]
            assert lines[i + 1 : i + 1 + len(want)] == want, (f, m[0])
            crate_lines += len(want)
            i += 1 + len(want)
        else:
            if lines[i].strip():
                own.append(lines[i])
            i += 1
    total += crate_lines
    print(f"{f}: {crate_lines} lines of the crate's, unchanged; glue lines: {sorted(set(own))}")
print("extracted:", total, "lines beside scope.rs")
