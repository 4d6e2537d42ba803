#!/bin/sh
# Counts, at a commit, the places that docs/DESIGN-PASS.md speaks of: sh tools/places.sh COMMIT
set -eu
commit=${1:?"say which commit: sh tools/places.sh COMMIT"}

code() {
    git grep -hE "$1" "$commit" -- 'crates/*/src/*.rt' | grep -vE '^ *//|ghost use' | wc -l
}

count() {
    printf '%-66s %6d\n' "$1" "$(code "$2")"
}

echo "1. Options and results of our own, numbers for kinds and refusals"
count "enums with a variant for nothing"                  '^    (Nothing|Never|NoRoom|Wrong),'
count "uses of those variants"                            '::(Nothing|Never|NoRoom|Wrong)\b'
count "refusals named as numbers"                         '\brefusal::[A-Z_]+\b'
count "structs with a refusal's number beside a value"    '^    pub refusal: u32'
count "tests of a refusal's number"                       '\b(refusal|number|misfit) != 0'
count "consoles and keys named as numbers"                '\b(console|keys)::[A-Z_0-9]+\b'
count "kinds as numbers"                                  '\bkind: u32'

echo "2. Twins: tools/places.py, which lists functions of one shape"

echo "3. Loops that count by hand"
count "while"                                             '^ *while '
count "steps of one"                                      '^ *[a-z_]+ \+= [0-9]+;'

echo "4. Equality, copying, conversion and printing by hand"
count "types that derive Clone and Copy alone"            'derive\(Clone, Copy\)\]'
count "words::wide, widen, flag, least"                   '\b(wide|widen|flag|least)\('
count "casts"                                             ' as (u8|u16|u32|u64|usize)\b'

echo "5. Facts that stand in three or more contracts"
git grep -hE '^ *requires' "$commit" -- 'crates/*/src/*.rt' | sed 's/.*requires {//; s/ }$//; s/ × /\n/g' | sed 's/^ *//' | sort | uniq -c | sort -rn | awk '3 <= $1'

echo "6. Buffers with bounds beside, parallel arrays"
count "tables of lengths, bounds beside bytes"            'LENGTHS|^    pub (from|to): usize'
count "parallel arrays as arguments"                      '^ *(pub )?(fn .*)?(keys|heads|next): &'

echo "8. Proofs"
printf '%-66s %6d\n' "files of answers" "$(git ls-tree -r --name-only "$commit" -- crates | grep -c 'Answers.antt$')"
printf '%-66s %6d\n' "lines of answers and invariants" "$(git ls-tree -r --name-only "$commit" -- crates | grep -E '(Answers|Invariants).antt$' | sed "s|^|$commit:|" | xargs git show | wc -l)"
