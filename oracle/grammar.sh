#!/bin/sh
# grammar.sh [--specs FOLDER] [STREAM..]: derives the sheets of streams of bundles, the stored one where none is said, by the productions of
# crates/grammar/specs, or of a copy in FOLDER, in every way, and compares with what the library answers (grammar/compare.py says what).
# grammar.sh --check: the comparison itself, with one change after the other in a copy of those files.
# PARSER_LIB names the archive, otherwise it is the one that tools/library makes. Needs python3 and gcc, on x86-64; no oracle is built.
set -eu
here=$(cd "$(dirname "$0")" && pwd)
library=${PARSER_LIB:-$here/../target/staticlib/libparser.a}
[ -f "$library" ] || { echo "no $library: tools/library makes it" >&2; exit 1; }
[ "$(uname -m)" = x86_64 ] || [ -n "${PARSER_LIB:-}" ] || { echo "the archive links into x86-64 programs only" >&2; exit 1; }
mkdir -p "$here/target/grammar"
shared=$here/target/grammar/libparser.so
gcc -shared -o "$shared" -Wl,--whole-archive "$library" -Wl,--no-whole-archive
export PYTHONDONTWRITEBYTECODE=1
if [ "${1:-}" = --check ]; then
    exec python3 "$here/grammar/changes.py" "$shared"
fi
exec python3 "$here/grammar/compare.py" "$shared" "$@"
