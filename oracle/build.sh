#!/bin/sh
# Builds the oracle into oracle/target. LUCIA_SRC names the folder of the original's sources.
set -eu
cd "$(dirname "$0")"
: "${LUCIA_SRC:?names the folder of the original sources, the one that has src/compiler/parser.rs in it}"
[ -f "$LUCIA_SRC/src/compiler/parser.rs" ] || { echo "no src/compiler/parser.rs in $LUCIA_SRC" >&2; exit 1; }

target=target
rm -rf "$target/lucia"
mkdir -p "$target/lucia" "$target/crates" "$target/bin"
compile() { rustc --edition 2024 -O -L "$target/crates" "$@"; }

compile --crate-name prepare prepare/main.rs -o "$target/bin/prepare"
"$target/bin/prepare" "$LUCIA_SRC" . "$target/lucia"

for name in text_size itertools rustc_literal_escaper unicode_ident; do
    compile --crate-type rlib --crate-name "$name" "shims/crates/$name.rs" --out-dir "$target/crates"
done
for name in derive_more thiserror; do
    compile --crate-type proc-macro --crate-name "$name" "shims/crates/$name.rs" --out-dir "$target/crates"
done

externs=""
for name in text_size itertools rustc_literal_escaper unicode_ident; do
    externs="$externs --extern $name=$target/crates/lib$name.rlib"
done
for name in derive_more thiserror; do
    externs="$externs --extern $name=$(ls "$target/crates/lib$name".*)"
done
# The lints of the original are its own business.
compile --crate-type rlib --crate-name lucia --cap-lints allow $externs "$target/lucia/lib.rs" --out-dir "$target/crates"
for program in programs/*.rs; do
    name=$(basename "$program" .rs)
    compile --crate-name "$name" "$program" --extern "lucia=$target/crates/liblucia.rlib" -o "$target/bin/$name"
done
echo "built: $(ls "$target/bin" | tr '\n' ' ')"
