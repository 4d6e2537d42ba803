# What the scripts share. A script reads it from the top of the repository: `. host/sh/common.sh`.

# One line on standard error, with the script's name, and the end of it: fail STATUS WORDS
fail() {
    printf '%s: %s\n' "${script:-${0##*/}}" "$2" >&2
    exit "$1"
}

# The comment at the head of a script is its help: help_if_asked SCRIPT "$@", the script's path from the top.
help_if_asked() {
    case ${2-} in
    -h | --help)
        sed -n '2,/^[^#]/ { s/^# //p; s/^#$//p; }' "$1"
        exit 0
        ;;
    esac
}

is_there() {
    case $1 in
    rustfmt) cargo fmt --version >/dev/null 2>&1 ;;
    clippy) cargo clippy --version >/dev/null 2>&1 ;;
    *) command -v "$1" >/dev/null 2>&1 ;;
    esac
}

# Ends with status 3 and one line that names what is missing of the tools given.
need() {
    missing=
    for tool in "$@"; do
        is_there "$tool" || missing="$missing${missing:+, }$tool"
    done
    [ -z "$missing" ] || fail 3 "missing: $missing (README.md says what must be installed)"
}

# Finds the kit that rt belongs to, $kit, and its $tools. A kit runs on x86-64, and writes for it alone.
find_kit() {
    kit=${RATTLE_HOME:-$(dirname "$(dirname "$(readlink -f "$(command -v rt)")")")}
    tools=$kit/toolchain
    if [ "$(uname -m)" != x86_64 ] || ! [ -x "$tools/bin/clang" ]; then
        fail 3 "missing: a Rattle kit for $(uname -m) at $kit"
    fi
}

# The modes by the definition that the proofs go by, a line each:
# NAME;DEPTHS;TOP;ENTRY BYTES;TILES;PALETTES;FLIPS;PRIORITY, where tiles and palettes are how many an entry can name.
# Pce_sprite has no entry.
modes() {
    LC_ALL=C sed -n 's/^.*of (\(.*\) ∷ \[\]) \([0-9 ]*[0-9]\)  -- \(.*\)$/\3;\1;\2/p' crates/mode/specs/Table.antt |
        LC_ALL=C sed 's/ ∷ /, /g' |
        LC_ALL=C awk -F ';' '{
            split($3, n, " ")
            entry = n[2] ";" 2 ^ n[3] ";" 2 ^ n[4]
            if (n[2] == 0) entry = "none;none;none"
            print $1 ";" $2 ";" n[1] ";" entry ";" (n[5] ? "yes" : "no") ";" (n[6] ? "yes" : "no")
        }'
}

# ---- what rt makes
#
# rt makes what a crate comes to in the crate's own folder out/, which is no part of the repository.

# The program on sheets, and the archive that hosts link.
# shellcheck disable=SC2034
program=crates/convert/out/convert
# shellcheck disable=SC2034
archive=target/staticlib/librumchivoat.a

# ---- work that is done is not done again
#
# rt keeps what it proved, but looks at every crate each time. A file that was made from the crates has a mark beside it,
# FILE.made: a hash of all that it came from, and one of the file. It goes by content, since a file's time says little
# after a checkout or a copy.

# A hash of the crates, the kit and the processor.
sources() {
    {
        cat "$kit/KIT-ID"
        uname -m
        find crates crates.txt -name out -prune -o -type f -exec sha256sum {} + | LC_ALL=C sort
    } | sha256sum
}

mark_of() { # FILE SOURCES
    echo "$2"
    sha256sum <"$1"
}

# Whether FILE is what was made from these sources.
is_made() { # FILE SOURCES
    [ -f "$1" ] && [ -f "$1.made" ] && [ "$(mark_of "$1" "$2")" = "$(cat "$1.made")" ]
}

# Marks FILE as made from these sources. The mark is put in place whole, for another script may be reading it.
mark_made() { # FILE SOURCES
    mark_of "$1" "$2" >"$1.made.$$"
    mv "$1.made.$$" "$1.made"
}
