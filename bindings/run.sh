#!/bin/sh
# Builds the C and the Rust example against the proved library, runs them and holds the bindings' numbers to the library's sources.
#
#   bindings/run.sh [LIBRARY]    LIBRARY: another libparser.a than target/staticlib/libparser.a, which tools/library makes
#
# It needs gcc and rustc; with g++ the header is tried as C++ too. The library that `rt` makes is for x86-64: on another machine only the numbers are compared, unless LIBRARY
# is one for that machine. Exit status 0: all as the document says; 1: something is not, or no example was built.
set -eu

here=$(CDPATH= cd "$(dirname "$0")" && pwd)
root=$(CDPATH= cd "$here/.." && pwd)
library=${1:-$root/target/staticlib/libparser.a}
out=$root/target/bindings

fail() {
    echo "bindings: $1" >&2
    exit 1
}

for tool in gcc rustc; do
    command -v "$tool" >/dev/null || fail "$tool is not installed"
done
[ -f "$library" ] || fail "there is no $library: run tools/library first"

rm -rf "$out"
mkdir -p "$out"
# rustc finds a library by its folder and name, so that one of another name could not be linked where it is.
cp "$library" "$out/libparser.a"

# The numbers: each list once from the sources and once from a binding, as lines 'NAME NUMBER'.
constants() {
    sed -n "s/^ *pub const \([A-Z0-9_]*\): u[a-z0-9]* = \([0-9]*\);.*/\1 \2/p" "$1"
}
of_header() {
    sed -n "s/^ *LUCIA_$1_\([A-Z0-9_]*\) = \([0-9]*\).*/\1 \2/p" "$here/c/lucia_parse.h" | grep -v '^WORDS ' || true
}
same() {
    [ -s "$out/$2" ] || fail "no $1 found in the sources"
    diff "$out/$2" "$out/$3" || fail "the $1 of $4 differ from the sources'"
}

constants "$root/crates/kinds/src/lib.rt" >"$out/kinds"
of_header TOKEN >"$out/kinds.c"
sed -n '/^pub mod token/,/^}/p' "$here/rust/lucia_parse.rs" >"$out/token.rs"
constants "$out/token.rs" >"$out/kinds.rust"
same 'token kinds' kinds kinds.c lucia_parse.h
same 'token kinds' kinds kinds.rust lucia_parse.rs

constants "$root/crates/cursor/src/nodes.rt" >"$out/nodes"
of_header NODE >"$out/nodes.c"
# ExprBlock is EXPR_BLOCK in the sources.
sed -n 's/^    \([A-Z][A-Za-z]*\) = \([0-9]*\), "[A-Za-z]*";$/\1 \2/p' "$here/rust/lucia_parse.rs" |
    sed 's/\([a-z]\)\([A-Z]\)/\1_\2/g' | tr '[:lower:]' '[:upper:]' >"$out/nodes.rust"
same 'node kinds' nodes nodes.c lucia_parse.h
same 'node kinds' nodes nodes.rust lucia_parse.rs

# Sizes and places. A limit has another name and another spelling here, and goes by the document.
constants "$root/crates/cursor/src/records.rt" | grep -v LIMIT >"$out/places"
sed -n 's/^ *LUCIA_\(AT_\)\{0,1\}\([A-Z_]*\) = \([0-9]*\).*/\1 \2 \3/p' "$here/c/lucia_parse.h" |
    sed -n 's/^AT_ //p; s/^ \(NODE_WORDS\|ERROR_WORDS\) /\1 /p' | sort >"$out/places.c"
sed 's/^const/pub const/' "$here/rust/lucia_parse.rs" | sed '/^pub mod token/,$d' >"$out/places.rs"
constants "$out/places.rs" | grep -v '^MAX_\|^TOKEN_WORDS' | sort >"$out/places.rust"
sort -o "$out/places" "$out/places"
same 'record places' places places.c lucia_parse.h
same 'record places' places places.rust lucia_parse.rs
echo "the bindings' numbers are the sources' numbers"

[ "$(uname -m)" = x86_64 ] || [ $# -gt 0 ] || fail "the library links into x86-64 programs only, so that on $(uname -m) no example was built"

echo "C:"
gcc -std=c11 -O2 -Wall -Wextra -Wpedantic -Werror -o "$out/example_c" "$here/c/example.c" "$out/libparser.a"
"$out/example_c" || fail "the C example got something else"
if command -v g++ >/dev/null; then
    g++ -std=c++11 -Wall -Wextra -Wpedantic -Werror -o "$out/example_cxx" -x c++ "$here/c/example.c" -x none "$out/libparser.a"
    "$out/example_cxx" >/dev/null || fail "the C example compiled as C++ got something else"
    echo "the same as C++"
fi

echo "Rust:"
rustc --edition 2021 -O -D warnings --crate-type rlib --crate-name lucia_parse --out-dir "$out" \
    -L "native=$out" -l static=parser "$here/rust/lucia_parse.rs"
rustc --edition 2021 -O -D warnings --crate-name example_rust -o "$out/example_rust" \
    --extern "lucia_parse=$out/liblucia_parse.rlib" "$here/rust/example.rs"
"$out/example_rust" || fail "the Rust example got something else"

echo "bindings: all as the document says"
