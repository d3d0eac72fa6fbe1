#!/bin/sh
# stack.sh: how much stack the library needs at the greatest depth, as a table in markdown. Beside the original's, or with --across by
# a program that the kit's own compiler makes (linked/stack.c) and without the original's; on Arm the older kit (rattle-kit-5) had an emulator for that.
# PARSER_LIB names the archive (linked/build.sh). Needs LUCIA_SRC for the first build of the oracle.
set -eu
cd "$(dirname "$0")"
if [ "$(uname -m)" = x86_64 ] && [ "${1:-}" != --across ]; then
    linked/build.sh stack ${STACK_STANDIN:+--standin}
    exec "target/bin/stack${STACK_STANDIN:+-standin}"
fi

[ -f target/crates/liblucia.rlib ] || ./build.sh
room=target/stack
rm -rf "$room"
mkdir -p "$room"
rustc --edition 2024 -O --cfg alone -L target/crates --extern lucia=target/crates/liblucia.rlib --crate-name stack linked/stack.rs -o target/bin/stack-alone
linked/once.sh "$room/stack" linked/stack.c
target/bin/stack-alone write "$room/sheets" > "$room/names"
linked/x86 "$room/stack" < "$room/sheets" > "$room/used"
echo "| nested | times | stack, bytes | answer, once more | stack then |"
echo "|---|---|---|---|---|"
# What is read again at each level ends by its readings, not by its depth: the last time that is answered 0 counts.
paste -d ' ' "$room/used" "$room/names" | awk '
    function row() {
        if (times && times < last) printf "| `%s` | %d | %d | %d | %d |\n", name, times, bytes, number[times + 1], used[times + 1]
        if (times && times == last) printf "| `%s` | %d | %d | – | – |\n", name, times, bytes
    }
    {
        now = $0; sub(/^[^ ]* [^ ]* [^ ]* /, "", now)
        if (now != name) { row(); name = now; times = 0 }
        last = $3; number[last] = $1; used[last] = $2
        if (last && $1 == 0) { times = last; bytes = $2 }
        if (NR == 1) empty = $2
        if ($2 > most) { most = $2; deepest = now }
    }
    END { row(); printf "\nDeepest: %d bytes, `%s`; an empty sheet takes %d.\n", most, deepest, empty }'
