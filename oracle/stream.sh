#!/bin/sh
# stream.sh [COUNT [SEED]]: compares the programs `replay` (listings) and `words` (whole answers, each sheet with sizes and an allowance of its own)
# with the original over streams of COUNT random sheets, 100,000 where none is said, in parts of 10,000. It needs no linking.
# REPLAY and WORDS name the programs, otherwise they are those that `tools/programs replay words` makes. Needs LUCIA_SRC for the first build of the oracle.
set -eu
cd "$(dirname "$0")"
count=${1:-100000}
seed=${2:-1}
replay=${REPLAY:-../target/bin/replay}
words=${WORDS:-../target/bin/words}
for program in "$replay" "$words"; do
    [ -x "$program" ] || { echo "no $program: tools/programs replay words makes it" >&2; exit 1; }
done
[ -x target/bin/compare ] || ./build.sh
bin=target/bin
part=target/stream
mkdir -p "$part"
start=$(date +%s)
done=0
while [ "$done" -lt "$count" ]; do
    {
        $bin/sheets grammatical "$seed" 3000 40
        $bin/sheets damaged "$seed" 3500 40
        $bin/sheets wild "$seed" 1000 30
        $bin/sheets short "$seed" 1000 8
        $bin/sheets entry "$seed" 1000 16
        $bin/sheets deep "$seed" 300
        $bin/sheets damaged "$seed" 200 400
    } > "$part/bundles"
    $bin/answers --rule < "$part/bundles" > "$part/theirs"
    linked/x86 "$replay" < "$part/bundles" > "$part/ours"
    equal=$($bin/compare "$part/bundles" "$part/theirs" "$part/ours")
    echo "seed $seed: $equal"
    $bin/lend "$seed" < "$part/bundles" > "$part/lent"
    $bin/answers --rule --raw < "$part/lent" > "$part/theirs"
    linked/x86 "$words" < "$part/lent" > "$part/ours"
    equal=$($bin/compare --raw "$part/lent" "$part/theirs" "$part/ours")
    echo "seed $seed: $equal"
    done=$((done + 10000))
    seed=$((seed + 1))
done
echo "$done sheets compared over streams, all listings and whole answers equal, $(($(date +%s) - start)) s on $(uname -m)"
