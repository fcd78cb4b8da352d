#!/usr/bin/env bash
# Lists the lines of src/ that docs/DESIGN-PASS.md counts, by point. Say which point, or none for all.
set -euo pipefail
cd "$(dirname "$0")/../crates"

lines() { grep -rnE "$1" */src || true; }

# 1: enums, numbers for refusals and kinds, flags in structs, and numbers that stand for none
p1() { lines '^(pub )?(pub\(crate\) )?enum |fn (number|byte|of)\(.*-> |^    (pub |pub\(crate\) )?[a-z_]+: bool,$|kind: u8|, or 0 (if|for)|; 0 for no|: 0 where it tells none'; }

# 2: function names that stand in two crates or more, but for methods of traits
p2() {
    grep -roE 'fn [a-z_]+' */src | sed -E 's/^([a-z_]+)\/[^:]*:/\1 /' | grep -v _trials | sort -u |
        awk '{ n[$3]++; at[$3] = at[$3] " " $1 } END { for (f in n) if (n[f] > 1) print f ":" at[f] }' | sort
}

# 3: loops
p3() { lines '^ *(while|for) ' | grep -v _trials; }

# 4: comparisons, conversions and printing written as functions, and casts
p4() { lines '^impl.* (From|TryFrom|Display)\b|fn (same|digit|byte|of|number|word|kind_name|fault_of|[a-z_]+_(words|text|answer|refusal))\b|[a-z_\])] as (u8|u16|u32|u64|usize)\b' | grep -v _trials; }

# 5: clauses that stand three times in a crate, and functions of five parameters or more
p5() {
    for c in */; do
        grep -rhoE '(requires|ensures)( [a-z_]+)? \{.*\}' "$c"src | sed -E 's/^(requires|ensures)( [a-z_]+)? //' |
            sort | uniq -c | awk -v c="$c" '$1 > 2 { print c, $0 }' || true
    done
    python3 - <<'P'
import glob, re
for f in sorted(glob.glob('*/src/**/*.rt', recursive=True)):
    for m in re.finditer(r'fn (\w+)(?:<[^(]*>)?\(([^)]*)\)', open(f).read()):
        n = len([p for p in m.group(2).split(',') if p.strip()])
        if n >= 5:
            print(f'{f}: {m.group(1)}, {n} parameters')
P
}

# 6: arrays and counts in structs
p6() { lines '^    (pub |pub\(crate\) )?[a-z_]+: (\[[A-Za-z0-9]+; [A-Z0-9]+\]|&.* mut \[.*\]),$|^    (pub |pub\(crate\) )?(count|len): usize,$'; }

# 7: matches on a call or a kind, function pointers and dyn values
p7() { lines 'match (call|kind)|: fn\(|dyn '; }

# 8: lines of proofs, by crate
p8() { for c in */proofs; do echo "$c $(cat $(find "$c" -name '*.antt') | wc -l)"; done; }

for p in ${1:-1 2 3 4 5 6 7 8}; do
    echo "point $p: $("p$p" | wc -l) lines"
    "p$p"
done
