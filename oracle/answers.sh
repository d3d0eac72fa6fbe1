#!/bin/sh
# answers.sh [FOLDER]: makes the stored answers, into oracle/answers where no folder is named, and then copies them to crates/replay, which the gate reads:
# `rt ci` refuses links, so both have them, and check.sh holds them to be alike. Needs the programs that build.sh makes.
# Three sets, one behind the other: a stream of bundles and the stream of their listings; the same words give the same bytes.
set -eu
cd "$(dirname "$0")"
folder=${1:-answers}
bin=target/bin
sets=$folder/sets
pool=$sets/pool
mkdir -p "$sets"

{
    $bin/sheets texts texts.txt
    $bin/sheets odd
    $bin/sheets limits
    $bin/sheets grammatical 1 900 40
    $bin/sheets damaged 2 1500 30
    $bin/sheets short 3 700 8
    $bin/sheets all 2 2 4 5 10 19 21 23 27 29 31 36 48 49 50 51 52 53 54 55 57 59 60 63 64 65 69 71
    $bin/sheets all 3 4 5 29 50 51 52 53 69
} > "$pool"
$bin/select domain < "$pool" > "$sets/domain.bundles"
$bin/answers --counts < "$sets/domain.bundles" > "$sets/domain.listings"

{
    cat "$pool"
    $bin/sheets wild 4 300 20
    $bin/sheets damaged 5 30000 24
} | $bin/select marked > "$sets/marked.bundles"
$bin/answers --rule --counts < "$sets/marked.bundles" > "$sets/marked.listings"

$bin/sheets entry 6 400 10 | $bin/select domain > "$sets/entry.bundles"
$bin/answers --counts < "$sets/entry.bundles" > "$sets/entry.listings"

./sets.py join "$sets" "$folder"
rm -r "$sets"
if [ $# -eq 0 ]; then
    cp "$folder/all.bundles" ../crates/replay/stdin
    cp "$folder/all.listings" ../crates/replay/stdout
fi
