#!/usr/bin/env bash
# Shows what body sheets hold, or why they are refused:
#
#     ./catalogue.sh FILE..      the sheets in these files
#     ./catalogue.sh             an example that the program has built in
#
# The program is proved and built first if it is missing or older than its sources; that is silent
# unless it fails. It may be called from any directory.
set -euo pipefail

root=$(cd "$(dirname "${BASH_SOURCE[0]}")" && pwd)
program=$root/crates/catalogue/out/catalogue
# The time of the last run that built it: one that finds nothing to build leaves the program as it is.
checked=$root/crates/catalogue/out/catalogue.checked

is_fresh() {
    [ -x "$program" ] && [ -e "$checked" ] || return 1
    local newer
    newer=$(cd "$root/crates" && find framing format table reader sheet reach builder scope catalogue -name out -prune -o -type f -newer "$checked" -print -quit)
    [ -z "$newer" ]
}

build() {
    local started log
    started=$(mktemp)
    # This proves the program with all below it, builds it, and runs it on its own example.
    if ! log=$(cd "$root/crates/catalogue" && rt run 2>&1); then
        rm -f "$started"
        printf '%s\n' "$log" >&2
        echo "catalogue.sh: the program cannot be built" >&2
        exit 1
    fi
    # What was edited while it ran is newer than its start.
    touch -r "$started" "$checked"
    rm -f "$started"
}

# A body and the tables that are read into it lie on the stack.
raise_stack() {
    local now
    now=$(ulimit -S -s)
    if [ "$now" != unlimited ] && [ "$now" -lt 65536 ]; then
        ulimit -S -s 65536 2>/dev/null || ulimit -S -s "$(ulimit -H -s)" 2>/dev/null || true
    fi
}

is_fresh || build
raise_stack
exec "$program" "$@"
