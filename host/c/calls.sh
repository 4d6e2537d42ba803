#!/bin/sh
# sh host/c/calls.sh
#
# Compiles calls.c for x86-64 as C99 and as C++17, links target/staticlib/librumchivoat.a, the archive that stations
# link, and runs both. The calls that they tell of are held to the exports of crates/rumchivoat_c, to the header and to
# the table in docs/REFUSALS.md. The compiler is the kit's; where the system has one of its own, the header is read with
# that one too. Run `sh host/sh/archive.sh` first.
# Status 3 where a tool or the archive is missing, 1 where anything differs.
set -eu
cd "$(dirname "$0")/../.."
. host/sh/common.sh
help_if_asked host/c/calls.sh "$@"
need rt awk grep sed sort cmp
find_kit

[ -e "$archive" ] || fail 3 "missing: $archive: run \`sh host/sh/archive.sh\`"
warnings="-Wall -Wextra -Wpedantic -Werror"
place=target/c
header=host/c/rumchivoat.h

# The kit's compiler comes without headers; of the standard ones these names are used.
write_headers() {
    mkdir -p "$place/include"
    echo 'typedef unsigned char uint8_t; typedef unsigned int uint32_t;' >"$place/include/stdint.h"
    echo 'typedef __SIZE_TYPE__ size_t;' >"$place/include/stddef.h"
    printf '#define bool _Bool\n#define false 0\n#define true 1\n' >"$place/include/stdbool.h"
}

# Builds calls.c and runs it: calls LANGUAGE STANDARD. What it tells is kept in a file.
calls() {
    built=$place/calls-$2
    # shellcheck disable=SC2086
    "$tools/bin/clang" --target=x86_64-unknown-linux-gnu -x "$1" "-std=$2" -O2 -ffreestanding -fno-builtin \
        -fno-stack-protector -fno-exceptions $warnings -isystem "$place/include" -c host/c/calls.c -o "$built.o"
    "$tools/bin/ld.lld" -static -o "$built" "$built.o" "$archive"
    ended=0
    "$built" >"$built.said" || ended=$?
    if [ "$ended" -ne 0 ]; then
        grep FAILED "$built.said" >&2 || :
        fail 1 "calls.c as $2 ended with status $ended"
    fi
}

# The header by the system's own compiler and headers: system_reads COMPILER LANGUAGE STANDARD.
system_reads() {
    if is_there "$1"; then
        # shellcheck disable=SC2086
        echo '#include "rumchivoat.h"' | "$1" -x "$2" "-std=$3" $warnings -fsyntax-only -I host/c -
    else
        echo "calls.sh: skipped: the header as $3 by the system's compiler, for there is no $1"
    fi
}

exports() {
    sed -n 's/^pub extern "C" fn \(rumchivoat_[a-z_0-9]*\).*/\1/p' crates/rumchivoat_c/src/lib.rt | sort
}

declared() {
    sed -n 's/^[a-z_0-9]* \(rumchivoat_[a-z_0-9]*\)(.*/\1/p' "$header" | sort
}

# `CALL NUMBER` for each mark in the table of docs/REFUSALS.md; its head row has the numbers.
in_the_table() {
    awk -F '|' '/^\| call \| 1 / {
        for (i = 3; i < NF; i++) number[i] = $i + 0
    }
    /^\| `rumchivoat_/ {
        gsub(/[ `]/, "", $2)
        for (i = 3; i < NF; i++) if ($i ~ /x/) print $2, number[i]
    }' docs/REFUSALS.md | sort
}

told() { # STANDARD PATTERN
    grep -E "^rumchivoat_[a-z_0-9]* $2\$" "$place/calls-$1.said" | sort -u
}

same() { # WHAT FILE FILE
    cmp -s "$2" "$3" && return
    diff "$2" "$3" >&2 || :
    fail 1 "$1"
}

write_headers
calls c c99
calls c++ c++17
system_reads cc c c99
system_reads c++ c++ c++17
exports >"$place/exports"
declared >"$place/declared"
same "the header does not declare the exports of crates/rumchivoat_c" "$place/declared" "$place/exports"
in_the_table >"$place/table"
for standard in c99 c++17; do
    told "$standard" 0 | sed 's/ 0$//' >"$place/done"
    same "calls.c does not call every export" "$place/done" "$place/exports"
    told "$standard" '[1-9][0-9]*' >"$place/refused"
    same "the refusals of calls.c are not those of docs/REFUSALS.md" "$place/refused" "$place/table"
done
grep ' of stack, ' "$place/calls-c99.said" | sed 's/^/calls.c: /'
functions=$(wc -l <"$place/exports")
refusals=$(wc -l <"$place/table")
echo "calls.sh: as C99 and as C++17, $functions functions done, and refused in $refusals ways, no lent byte changed"
