#!/bin/sh
# bench.sh [--counts|--across|--native]: the library and the original on the same sheets, as a table in markdown. On x86-64 time and executed instructions for a
# token, both in one process; --counts leaves the times out. With --across instructions only: the library's are those of
# a program that the kit's own compiler makes, the original's those of a native one.
# Two ways served the older kit (rattle-kit-5), which ran on Arm too: there the default was --across under its emulator, and --native took
# times with the library's module compiled for that machine (linked/native.sh), which is not what a till links.
# PARSER_LIB names the archive (linked/build.sh). Needs LUCIA_SRC for the first build of the oracle, and valgrind, which it installs where it is missing.
set -eu
cd "$(dirname "$0")"
command -v valgrind > /dev/null || { apt-get update && apt-get install -y valgrind; } > /dev/null 2>&1
# Callgrind takes a repeated string instruction for as many as its turns; glibc clears large buffers by one. With plain stores instead the counts
# are those of instructions.
export GLIBC_TUNABLES=glibc.cpu.x86_rep_stosb_threshold=1000000000
room=target/bench
rm -rf "$room"
mkdir -p "$room"

# callgrind's count of each call of `counted`, in order, beside the rows that the program prints
counted() { # PROGRAM
    valgrind --tool=callgrind --callgrind-out-file="$room/out" --toggle-collect=counted --dump-after=counted "$1" counted \
        > "$room/rows" 2> "$room/said"
    i=1
    while [ -f "$room/out.$i" ]; do
        sed -n 's/^totals: //p' "$room/out.$i"
        i=$((i + 1))
    done > "$room/totals"
}

if [ "${1:-}" = --native ]; then
    linked/native.sh target/native/libparser.a
    PARSER_LIB=target/native/libparser.a linked/build.sh bench
    echo "| class | tokens | ours, ns | as the lister lends | 8,192 lent | original, ns | ratio | as the lister lends | 8,192 lent |"
    echo "|---|---|---|---|---|---|---|---|---|"
    target/bin/bench times | awk '{ printf "| %s | %d | %s | %s | %s | %s | %.2f | %.2f | %.2f |\n", $1, $2, $3, $4, $5, $6, $3 / $6, $4 / $6, $5 / $6 }'
    echo
    echo "For a token of the list, on $(uname -m), both compiled for it. Ratios are ours over the original's."
    exit
fi

if [ "$(uname -m)" = x86_64 ] && [ "${1:-}" != --across ]; then
    linked/build.sh bench ${BENCH_STANDIN:+--standin}
    bench=target/bin/bench${BENCH_STANDIN:+-standin}
    counted "$bench"
    if [ "${1:-}" = --counts ]; then sed 's/ [0-9]*$/ 0 0 0 0/' "$room/rows" > "$room/times"; else env -u GLIBC_TUNABLES "$bench" times > "$room/times"; fi
    echo "| class | tokens | ours, ns | as the lister lends | 8,192 lent | original, ns | ratio | as the lister lends | 8,192 lent | ours, instructions | as the lister lends | 8,192 lent | original | ratio | as the lister lends | 8,192 lent |"
    echo "|---|---|---|---|---|---|---|---|---|---|---|---|---|---|---|---|"
    awk -v rows="$room/rows" -v totals="$room/totals" '
        function over(a, b) { return b > 0 ? sprintf("%.2f", a / b) : "–" }
        {
            getline line < rows; split(line, row)
            getline exact < totals; getline lister < totals; getline large < totals; getline theirs < totals
            printf "| %s | %d | %s | %s | %s | %s | %s | %s | %s | %.0f | %.0f | %.0f | %.0f | %s | %s | %s |\n", $1, $2, $3, $4, $5, $6,
                over($3, $6), over($4, $6), over($5, $6), exact / row[3], lister / row[3], large / row[3], theirs / row[3],
                over(exact, theirs), over(lister, theirs), over(large, theirs)
        }' "$room/times"
    echo
    echo "For a token of the list, on $(uname -m). Ratios are ours over the original's."
    exit
fi

# On Arm the archive links into no native program: it is linked into an x86-64 one by the kit's own compiler. Callgrind misses there that a function returns, so
# both sides are counted as what a program executes with the work less what it executes without.
[ -f target/crates/liblucia.rlib ] || ./build.sh
rustc --edition 2024 -O --cfg alone -L target/crates --extern lucia=target/crates/liblucia.rlib --crate-name bench linked/bench.rs -o target/bin/bench-alone
original() { # CLASS SIZE [WORD]
    valgrind --tool=callgrind --callgrind-out-file=/dev/null target/bin/bench-alone once "$@" 2>&1 > /dev/null | sed -n 's/.*Collected : //p'
}
linked/once.sh "$room/once"
target/bin/bench-alone write "$room/sheets" > "$room/written"
echo "| class | tokens | ours, x86-64 instructions | as the lister lends | 8,192 lent | original, $(uname -m) instructions | ratio | as the lister lends | 8,192 lent |"
echo "|---|---|---|---|---|---|---|---|---|"
while read -r class size tokens; do
    theirs=$(($(original "$class" "$size" word) - $(original "$class" "$size")))
    set --
    for form in "" -lister -large; do
        with=$(linked/instructions "$room/once" word < "$room/sheets/$class-$size$form")
        without=$(linked/instructions "$room/once" < "$room/sheets/$class-$size$form")
        set -- "$@" "$((with - without))"
    done
    echo "$class $size $tokens $1 $2 $3 $theirs" |
        awk '{ t = $7; printf "| %s | %d | %.0f | %.0f | %.0f | %.0f | %.2f | %.2f | %.2f |\n", $1, $2, $4 / $3, $5 / $3, $6 / $3, t / $3, $4 / t, $5 / t, $6 / t }'
done < "$room/written"
echo
echo "For a token of the list, trivia too. No time is given: under valgrind it says nothing."
[ "$(uname -m)" = x86_64 ] ||
    echo "These are counts over two instruction sets, x86-64 under the emulator and native $(uname -m): the ratio is a rough guide."
