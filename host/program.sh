#!/bin/sh
# sh host/program.sh <SHEET
#
# Runs crates/convert/out/convert, the program that `rt ci`, or `rt run` in crates/convert, proves and builds, on standard
# input, under the kit's loader and C library. It writes the program's text and ends with the program's status, which is
# 0 also where a sheet is refused, and 1 where the sheet cannot be read or the text not be written.
# Status 3 where there is no program, or no kit to run it with.
set -eu
cd "$(dirname "$0")/.."
. host/sh/common.sh
help_if_asked host/program.sh "$@"
need rt
find_kit

[ -e "$program" ] || fail 3 "missing: $program: run \`rt ci\`, or \`rt run\` in crates/convert"
loader=$tools/lib/ld-linux-x86-64.so.2
[ -x "$loader" ] || fail 3 "missing: a loader in the kit at $kit"
exec "$loader" --library-path "$tools/lib" "$program"
