#!/bin/sh
# once.sh OUT [SOURCE]: once.c, or another source in C, with the library, an x86-64 program, by the kit's own compiler and linker.
set -eu
out=$1
source=${2:-linked/once.c}
cd "$(dirname "$0")/.."
library=${PARSER_LIB:-../target/staticlib/libparser.a}
[ -f "$library" ] || { echo "no $library: tools/library makes it" >&2; exit 1; }
kit=$(dirname "$(rt doc)")
"$kit/toolchain/bin/clang" --target=x86_64-unknown-linux-gnu -O2 -fPIC -c "$source" -o "$out.o"
"$kit/bin/rattle-link" --target x86_64-unknown-linux-gnu --toolchain "$kit/toolchain" -o "$out" "$out.o" "$library" > "$out.said" 2>&1 ||
    { cat "$out.said" >&2; exit 1; }
