#!/bin/sh
# check.sh: builds the oracle, compares the known sheets, checks demand 3's sum on fresh sheets and on the stored ones, and makes the stored answers again,
# twice, and the whole answers of some of them, which must come out byte for byte as they are stored, here and in the crates. Needs LUCIA_SRC.
set -eu
cd "$(dirname "$0")"
./build.sh
target/bin/known
{
    target/bin/sheets limits
    target/bin/sheets grammatical 11 30000 40
    target/bin/sheets grammatical 12 2000 200
    target/bin/sheets damaged 13 30000 40
} | target/bin/readings
target/bin/readings < answers/all.bundles
cmp answers/all.bundles ../crates/replay/stdin
cmp answers/all.listings ../crates/replay/stdout
for run in 1 2; do
    ./answers.sh "target/again-$run" 2> /dev/null
    for file in all.bundles all.listings sets.txt; do
        cmp "answers/$file" "target/again-$run/$file"
    done
    echo "run $run: the stored answers came out byte for byte"
done
./words.sh target/again-words 2> /dev/null
cmp ../crates/words/stdin target/again-words/stdin
cmp ../crates/words/stdout target/again-words/stdout
echo "the whole answers in crates/words came out byte for byte"
./sets.py cut target/sets
target/bin/reached target/sets/domain.bundles target/sets/marked.bundles > target/reached.md
sed '1,/^<!-- reached -->$/d; /^<!-- end -->$/,$d' ../docs/ORACLE.md | diff - target/reached.md
echo "the table of branches in docs/ORACLE.md is the one of the stored answers"
