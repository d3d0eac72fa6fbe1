#!/bin/sh
# scale.sh [COUNT [SEED [CLASS [FIRST]]]]: compares the library with the original in one process on COUNT random sheets, a million where none is said.
# scale.sh --check: the comparison itself, on a stand-in that answers rightly and then with one fault after the other.
# Needs LUCIA_SRC for the first build of the oracle, and the library (linked/build.sh says where it looks).
set -eu
cd "$(dirname "$0")"
if [ "${1:-}" != --check ]; then
    linked/build.sh scale
    cd target
    exec bin/scale "$@"
fi
linked/build.sh scale --standin
cd target
FAULT='' bin/scale-standin 20000 1 > standin.txt
tail -1 standin.txt
for fault in number reads expected-count node root error kind room cap expected-room allowance touched not-cleared past past-expected outside text \
    tokens crash hang; do
    rm -f difference.bundle difference.txt
    if FAULT=$fault bin/scale-standin 20000 1 > /dev/null 2>&1; then
        echo "fault $fault was not found" >&2
        exit 1
    fi
    [ -s difference.bundle ]
    echo "fault $fault: $(head -1 difference.txt | cut -c 1-100)"
done
rm -f difference.bundle difference.txt
echo "every fault was found"
