#!/bin/sh
# sh host/sh/test.sh
#
# Tries the scripts: convert.sh's output, statuses and words, the README's way to compare with a master, what is said
# where a tool is missing, and that what is made is not made again. It proves what is not proved yet.
# Status 1 where anything differs.
set -u
cd "$(dirname "$0")/../.." || exit 1
. host/sh/common.sh
help_if_asked host/sh/test.sh "$@"
need rt awk sha256sum head od mktemp
find_kit

top=$(pwd)
work=$(mktemp -d) || fail 1 "mktemp made no folder"
trap 'rm -rf "$work"' EXIT
trap 'exit 1' HUP INT PIPE TERM
tried=0
wrong=0

differs() {
    wrong=$((wrong + 1))
    printf 'test.sh: FAILED: %s\n' "$*" >&2
}

skipped() {
    echo "test.sh: skipped: $*"
}

# What ran last, in $work/out and $work/err, ended with this status and said this: ends NAME STATUS WORDS
ends() {
    tried=$((tried + 1))
    [ "$ended" -eq "$2" ] || differs "$1: status $ended, not $2"
    [ "$(cat "$work/err")" = "$3" ] || differs "$1: it said: $(cat "$work/err")"
}

# The same, where only the beginning of its words, one line, is fixed.
ends_saying() {
    tried=$((tried + 1))
    [ "$ended" -eq "$2" ] || differs "$1: status $ended, not $2"
    case $(tail -n 1 "$work/err") in "$3"*) ;; *) differs "$1: it said: $(cat "$work/err")" ;; esac
}

run() {
    ended=0
    "$@" >"$work/out" 2>"$work/err" || ended=$?
}

# A sheet in $work/sheet: the eight texts, and so many pixels of 0.
sheet() {
    printf 'mode=%s\ndepth=%s\nflip=%s\ndiscard=%s\nlimit=%s\npalette=%s\ncolumns=%s\nrows=%s\n' \
        "$1" "$2" "$3" "$4" "$5" "$6" "$7" "$8" >"$work/sheet"
    head -c "$9" /dev/zero >>"$work/sheet"
}

# convert.sh refuses $work/sheet with this number, on standard output alone its line, and these words.
refused() { # NUMBER WORDS
    run sh convert.sh "$work/sheet"
    ends "refused=$1" 1 "convert.sh: refused, $1: $2"
    [ "$(cat "$work/out")" = "refused=$1" ] || differs "refused=$1: standard output is another"
}

# ---- what is converted

# The first run may have rt say what it proves; the others say nothing.
sh convert.sh examples/window.sheet >/dev/null || fail 1 "convert.sh did not convert examples/window.sheet"

converted() {
    for example in examples/*.sheet; do
        run sh convert.sh "$example"
        ends "$example" 0 ""
        sha256sum --check --status "${example%.sheet}.sha256" <"$work/out" || differs "$example: another hash"
    done
    cp examples/window.sheet "$work/a sheet"
    ended=0
    (cd "$work" && sh "$top/convert.sh" "a sheet") >"$work/out" 2>"$work/err" || ended=$?
    ends "a sheet beside the caller" 0 ""
    sha256sum --check --status examples/window.sha256 <"$work/out" || differs "a sheet beside the caller: another hash"
    mkdir -p "$work/decoy/${top##*/}"
    ended=0
    (cd .. && CDPATH=$work/decoy sh "${top##*/}/convert.sh" "$work/a sheet") >"$work/out" 2>"$work/err" || ended=$?
    ends "a search path for folders" 0 ""
    sha256sum --check --status examples/window.sha256 <"$work/out" || differs "a search path for folders: another hash"
    ended=0
    # shellcheck disable=SC2002
    cat examples/window.sheet | sh convert.sh >"$work/out" 2>"$work/err" || ended=$?
    ends "a sheet on standard input" 0 ""
    sha256sum --check --status examples/window.sha256 <"$work/out" || differs "a sheet on standard input: another hash"
}

# ---- what is refused

refused_for_the_picture() {
    sheet pce_sprite 4 0 1 0 0 2 1 128
    refused 2 'line 1 of the sheet is "mode=pce_sprite": pce_sprite has no map, so that no picture is converted in it'
    sheet snes 7 1 1 0 0 2 1 128
    refused 3 'line 2 of the sheet is "depth=7": snes has depths 2, 4, 8'
    sheet snes 2 1 1 0 0 0 1 0
    refused 4 'line 7 of the sheet is "columns=0": a picture has 1 to 32 columns'
    sheet gb 2 1 1 0 0 2 1 128
    refused 5 'line 3 of the sheet is "flip=1": gb has no flips'
    sheet snes 2 1 1 0 8 2 1 128
    refused 16 'line 6 of the sheet is "palette=8": snes has palettes 0 to 7'
    sheet gb 2 0 1 0 1 2 1 128
    refused 16 'line 6 of the sheet is "palette=1": gb has palette 0 alone'
    sheet snes 2 1 0 1 0 2 1 128
    room='the picture needs more tiles than there is room for'
    refused 12 "$room, 1: line 5 of the sheet is \"limit=1\"; with discard=0 every tile is stored"
    sheet gb 1 0 0 0 0 32 32 65536
    refused 12 "$room, 256: gb can name no more of them; with discard=0 every tile is stored"
    sheet ws 2 0 0 0 15 32 32 65536
    refused 12 "$room, 512: ws can name no more of them; with discard=0 every tile is stored"
}

refused_for_a_line() {
    sheet snes 2 1 1 01 0 2 1 128
    refused 14 'line 5 of the sheet is "limit=01": a number has no leading zero'
    sheet snes 2 1 1 4294967296 0 2 1 128
    refused 14 'line 5 of the sheet is "limit=4294967296": a number is 4294967295 at most'
    sheet snes 2 1 1 '' 0 2 1 128
    refused 14 'line 5 of the sheet is "limit=": a number is missing'
    sheet snes 2 1 1 '1 ' 0 2 1 128
    refused 14 'line 5 of the sheet is "limit=1 ": a number has the digits 0 to 9 and nothing else'
    sheet snes 2 2 1 0 0 2 1 128
    refused 14 'line 3 of the sheet is "flip=2": flip is 0 or 1'
    sheet snes 2 1 1 0 0 33 1 2112
    refused 14 'line 7 of the sheet is "columns=33": a sheet has 32 columns at most'
    sheet snes 2 1 1 0 0 2 "$(printf '1\r')" 128
    refused 14 'line 8 of the sheet is "rows=1\r": it ends in a carriage return, and a line ends in a newline alone'
    names='snes, snes_mode7, gb, gbc, gba, gba_affine, md, sms, gg, pce, pce_sprite, ngp, ngpc, ws, wsc, wsc_packed'
    sheet SNES 2 1 1 0 0 2 1 128
    refused 14 "line 1 of the sheet is \"mode=SNES\": no mode has this name; the names are $names"
    sed 's/^palette=/pallete=/' examples/two-tiles.sheet >"$work/sheet"
    refused 14 'line 6 of the sheet is "pallete=0": it should begin with palette='
}

refused_for_its_length() {
    sheet snes 2 1 1 0 0 2 1 127
    refused 14 'after its eight lines the sheet has 127 pixel bytes, and 2 x 1 tiles take 128'
    sheet snes 2 1 1 0 0 2 1 100000
    refused 14 'after its eight lines the sheet has 65572 pixel bytes or more, and 2 x 1 tiles take 128'
    : >"$work/sheet"
    refused 14 'the sheet is empty'
    printf 'mode=snes\ndepth=2\n' >"$work/sheet"
    refused 14 'the sheet ends before line 3, flip='
    printf 'mode=snes\ndepth=2' >"$work/sheet"
    refused 14 'line 2 of the sheet is "depth=2": it has no newline at its end'
    printf 'mode=\000\377"\\\n' >"$work/sheet"
    refused 14 "line 1 of the sheet is \"mode=\\x00\\xff\\\"\\\\\": no mode has this name; the names are $names"
}

# ---- what cannot be read or written

not_read() {
    run sh convert.sh "$work/none"
    ends "an absent sheet" 2 "convert.sh: the sheet $work/none is not there"
    run sh convert.sh "$work"
    ends "a folder" 2 "convert.sh: the sheet $work is a folder"
    run sh convert.sh <"$work"
    ends_saying "a folder on standard input" 2 "convert.sh: the sheet could not be read"
    run sh convert.sh <&-
    ends "closed standard input" 2 "convert.sh: standard input is closed"
    run sh convert.sh "$work/sheet" "$work/sheet"
    ends "two sheets" 2 "convert.sh: takes one sheet, or none: --help says more"
    cp examples/window.sheet "$work/locked"
    chmod 000 "$work/locked"
    if [ -r "$work/locked" ]; then
        skipped "a sheet that may not be read: this user may read every file"
    else
        run sh convert.sh "$work/locked"
        ends "a locked sheet" 2 "convert.sh: the sheet $work/locked may not be read"
    fi
}

not_written() {
    ended=0
    if [ -c /dev/full ]; then
        sh convert.sh examples/window.sheet >/dev/full 2>"$work/err" || ended=$?
        ends_saying "/dev/full" 2 "convert.sh: the output could not be written whole"
    else
        skipped "an output without space: there is no /dev/full"
    fi
    ended=0
    sh convert.sh examples/window.sheet >&- 2>"$work/err" || ended=$?
    ends "closed standard output" 2 "convert.sh: standard output is closed"
    # a text longer than a pipe holds
    sheet snes 8 0 0 0 0 32 32 65536
    {
        ended=0
        sh convert.sh "$work/sheet" 2>"$work/err" || ended=$?
        echo "$ended" >"$work/ended"
    } | head -c 1 >/dev/null
    ended=$(cat "$work/ended")
    ends_saying "a reader that leaves" 2 "convert.sh: the output could not be written whole"
    # files of 66,560 bytes at most: the sheet has 65,610, its text 67,691
    ended=0
    (ulimit -f 130 && sh convert.sh "$work/sheet") >"$work/out" 2>"$work/err" || ended=$?
    ends_saying "no space for the text" 2 "convert.sh: there is no space for the text"
    [ ! -s "$work/out" ] || differs "no space for the text: a part was written"
    run env TMPDIR="$work/none" sh convert.sh examples/window.sheet
    ends_saying "no folder for the text" 2 "convert.sh: there is no place for the text"
}

# ---- the README's way to compare with a master

# The two steps as README has them.
compare() { # SHEET MASTER
    sh convert.sh "$1" >"$work/text" && sha256sum --check "$2" <"$work/text"
}

masters() {
    run compare examples/window.sheet examples/window.sha256
    ends "the right master" 0 ""
    run compare examples/window.sheet examples/two-tiles.sha256
    ends_saying "another master" 1 "sha256sum: WARNING"
    sheet snes 2 1 1 01 0 2 1 128
    sh convert.sh "$work/sheet" 2>"$work/err" | sha256sum >"$work/refused.sha256"
    run compare "$work/sheet" "$work/refused.sha256"
    ends_saying "a master made from a refusal" 1 "convert.sh: refused, 14:"
}

# ---- what is missing

# Commands in $work/bin: those that the scripts use but for rt, cargo and cc.
few_commands() {
    mkdir "$work/bin"
    for tool in awk cat cmp dirname find grep head mkdir mktemp mv od readlink rm sed sh sha256sum sort tail uname; do
        ln -s "$(command -v "$tool")" "$work/bin/"
    done
}

missing() {
    few_commands
    end='(README.md says what must be installed)'
    run env PATH="$work/bin" sh convert.sh examples/window.sheet
    ends "convert.sh without rt" 3 "convert.sh: missing: rt $end"
    run env PATH="$work/bin" sh host/program.sh
    ends "program.sh without rt" 3 "program.sh: missing: rt $end"
    run env PATH="$work/bin" sh host/c/calls.sh
    ends "calls.sh without rt" 3 "calls.sh: missing: rt $end"
    run env PATH="$work/bin" sh run.sh
    ends "run.sh without its tools" 3 "run.sh: missing: rt, cargo, cc $end"
    run env PATH="$work/bin" sh .ci/run
    ends "the gate without its tools" 3 ".ci/run: missing: rt, cargo, rustfmt, clippy, cc $end"
    run env RATTLE_HOME="$work" sh convert.sh examples/window.sheet
    ends "convert.sh without a kit" 3 "convert.sh: missing: a Rattle kit for $(uname -m) at $work"
    [ ! -s "$work/out" ] || differs "convert.sh without a kit: it wrote something"
}

helps() {
    for each in convert.sh run.sh host/program.sh host/native.sh host/c/calls.sh host/sh/archive.sh host/sh/test.sh
    do
        run sh "$each" --help
        ends "$each --help" 0 ""
        [ "$(head -n 1 "$work/out" | cut -d ' ' -f 1-2)" = "sh $each" ] || differs "$each --help: no help"
    done
}

# ---- what is made is not made again

is_it_made() {
    (cd "$work/copy" && is_made made "$(sources)")
}

marks() {
    mkdir -p "$work/copy/crates/one"
    echo one >"$work/copy/crates/one/file"
    echo one: >"$work/copy/crates.txt"
    echo made >"$work/copy/made"
    tried=$((tried + 6))
    ! is_it_made || differs "a file without a mark counts as made"
    (cd "$work/copy" && mark_made made "$(sources)")
    is_it_made || differs "a file with its mark does not count as made"
    echo two >"$work/copy/crates/one/file"
    ! is_it_made || differs "a changed crate is not noticed"
    echo one >"$work/copy/crates/one/file"
    is_it_made || differs "the crate as it was is not known again"
    : >"$work/copy/crates/one/further"
    ! is_it_made || differs "a further file is not noticed"
    rm "$work/copy/crates/one/further"
    echo other >"$work/copy/made"
    ! is_it_made || differs "another file with the mark counts as made"
}

# ---- the modes, told in two places

# As `modes` prints them, by docs/REFUSALS.md.
documented_modes() {
    sed -n 's/^| [0-9]* *| `\(.*\)|$/\1/p' docs/REFUSALS.md |
        sed 's/` *|/;/; s/ *| */;/g; s/; */;/g; s/ *$//; s/\([0-9]\),\([0-9]\)/\1\2/g'
}

told_modes() {
    tried=$((tried + 2))
    [ "$(modes | grep -c .)" -eq 16 ] || differs "the modes were not found in crates/mode/specs/Table.antt"
    [ "$(documented_modes)" = "$(modes)" ] || differs "docs/REFUSALS.md has other modes than crates/mode"
}

# ---- an archive that the crate was not written for

# The safe crate is not built over an archive with another interface, or with none.
interfaces() {
    for tool in cargo cc ar; do
        is_there "$tool" || { skipped "archives of other interfaces: $tool is missing"; return; }
    done
    due=$(sed -n 's/^#define RUMCHIVOAT_INTERFACE //p' host/c/rumchivoat.h)
    other=$((due + 1))
    over_archive "unsigned rumchivoat_interface(void) { return $other; }" \
        "has interface $other, and this crate is written for $due"
    over_archive "unsigned other(void) { return 1; }" "is from before there was an interface number"
}

over_archive() { # TEXT WORDS
    tried=$((tried + 1))
    rm -rf "$work/archive"
    mkdir "$work/archive"
    printf '%s\n' "$1" >"$work/archive/other.c"
    cc -c "$work/archive/other.c" -o "$work/archive/other.o" && ar rcs "$work/archive/librumchivoat.a" "$work/archive/other.o"
    run env "RUMCHIVOAT_ARCHIVE=$work/archive" "CARGO_TARGET_DIR=$work/target" \
        cargo check --offline --manifest-path host/Cargo.toml -p rumchivoat
    [ "$ended" -ne 0 ] || differs "the crate was built over an archive that $2"
    grep -q "$2" "$work/err" || differs "over an archive that $2, cargo said: $(cat "$work/err")"
}

# ---- the README

# The commands stand there as they are tried above.
readme() {
    tried=$((tried + 1))
    two_steps='sh convert.sh examples/window.sheet >window.out && sha256sum --check examples/window.sha256 <window.out'
    grep -qF "$two_steps" README.md || differs "README.md compares with a master in another way"
}

converted
refused_for_the_picture
refused_for_a_line
refused_for_its_length
not_read
not_written
masters
missing
helps
marks
told_modes
interfaces
readme
[ "$wrong" -eq 0 ] || fail 1 "$wrong of $tried differ"
echo "test.sh: the scripts: $tried tries, as they should be"
