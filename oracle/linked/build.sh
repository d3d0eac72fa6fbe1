#!/bin/sh
# build.sh NAME [--standin]: compiles linked/NAME.rs with the oracle and the library into target/bin/NAME; with --standin with the stand-in
# for the library, into target/bin/NAME-standin. PARSER_LIB names the archive, otherwise it is the one that tools/library makes.
set -eu
cd "$(dirname "$0")/.."
[ -f target/crates/liblucia.rlib ] || ./build.sh
compile() { rustc --edition 2024 -O -L target/crates --extern lucia=target/crates/liblucia.rlib "$@"; }
if [ "${2:-}" = --standin ]; then
    compile --crate-type rlib --crate-name standin linked/standin.rs --out-dir target/crates
    compile --cfg standin --extern standin=target/crates/libstandin.rlib --crate-name "$1" "linked/$1.rs" -o "target/bin/$1-standin"
else
    library=${PARSER_LIB:-../target/staticlib/libparser.a}
    [ -f "$library" ] || { echo "no $library: tools/library makes it" >&2; exit 1; }
    [ "$(uname -m)" = x86_64 ] || [ -n "${PARSER_LIB:-}" ] || { echo "the archive links into x86-64 programs only; oracle/stream.sh compares on other machines" >&2; exit 1; }
    compile -C "link-arg=$library" --crate-name "$1" "linked/$1.rs" -o "target/bin/$1"
fi
