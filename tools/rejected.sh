#!/bin/bash
# Programs that misuse a quote are rejected by the compiler, so that no must-fail edit can show it: an edit has to reach
# the prover. Each pair of tools/rejected is tried here in a copy of the crates: NAME.rejected has to give the named error
# and no other, and NAME.accepted, which differs in a line or two, has to compile, run, and write NAME.stdout.
set -euo pipefail
root=$(cd "$(dirname "$0")/.." && pwd)
work=$(mktemp -d)
trap 'rm -rf "$work"' EXIT

# sources alone: rt try reads them, and nothing has to be proved first
(cd "$root" && tar --exclude=out -cf - crates crates.txt) | tar -xf - -C "$work"
mkdir -p "$work/crates/misuse/src"
echo 'misuse: symbol code store array recovery anyhow' >> "$work/crates.txt"
cd "$work/crates/misuse"

wrong=0
rejected() { # NAME ERROR
    cp "$root/tools/rejected/$1.rejected" src/main.rt
    local told
    told=$(rt try 2>&1 | grep -o 'error\[[a-z0-9-]*\]' | sort -u) || true
    if [ "$told" = "error[$2]" ]; then
        echo "rejected as it must be: $1, $2"
    else
        echo "NOT REJECTED as $2: $1, ${told:-no error}"
        wrong=$((wrong + 1))
    fi
}
accepted() { # NAME
    cp "$root/tools/rejected/$1.accepted" src/main.rt
    if rt try > "$work/written" 2> "$work/said" && cmp -s "$work/written" "$root/tools/rejected/$1.stdout"; then
        echo "accepted as it must be: $1"
    else
        echo "NOT ACCEPTED: $1"
        cat "$work/written" "$work/said"
        wrong=$((wrong + 1))
    fi
}

rejected twice borrow-e0382
accepted twice
rejected unquoted private-field
accepted unquoted

if [ "$wrong" -ne 0 ]; then
    echo "rejected.sh: $wrong of 4 programs went the wrong way"
    exit 1
fi
