#!/bin/sh
# words.sh [FOLDER]: makes stdin and stdout of crates/words, or those files in FOLDER: some of the stored bundles, each with sizes and an allowance
# of its own, then the sheets that are made for what is lent with them, and the original's whole answers to all. Needs the programs that
# build.sh makes. What the program `words` itself answers has no part in it.
set -eu
cd "$(dirname "$0")"
folder=${1:-../crates/words}
mkdir -p "$folder"
./sets.py some target/some.bundles
{
    target/bin/lend 7 < target/some.bundles
    target/bin/lend sheets
} > "$folder/stdin"
target/bin/answers --rule --raw --counts --end < "$folder/stdin" > "$folder/stdout"
