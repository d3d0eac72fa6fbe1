#!/bin/sh
# THIS SERVED THE OLDER KIT (rattle-kit-5), WHICH RAN ON ARM TOO; today's runs on x86-64 alone, has no `rt staticlib` and other folders, so that this script does not
# run with it. It is kept to show how the times on Arm in docs/ORACLE.md were taken.
# native.sh OUT: the library's archive for the machine that this runs on, to measure time where the kit makes no native code. `rt staticlib parser` runs under a copy of
# the kit made of links, whose compiler also keeps the module that it is handed; that module is compiled once more, for this machine. Nothing is
# proved of the outcome, and it is for bench.sh alone.
set -eu
[ "$(uname -m)" != x86_64 ] || { echo "native.sh served the older kit on Arm; on x86-64 tools/library makes the archive" >&2; exit 1; }
out=$1
cd "$(dirname "$0")/.."
kit=$(dirname "$(dirname "$(rt doc)")")
here=on/$(uname -m)
copy=$PWD/target/kit
rm -rf "$copy"
mkdir -p "$copy/$here/toolchain/bin"
for part in "$kit"/*; do [ "${part##*/}" = on ] || ln -s "$part" "$copy"; done
for part in "$kit/$here"/*; do [ "${part##*/}" = toolchain ] || ln -s "$part" "$copy/$here"; done
for part in "$kit/$here"/toolchain/*; do [ "${part##*/}" = bin ] || ln -s "$part" "$copy/$here/toolchain"; done
for part in "$kit/$here"/toolchain/bin/*; do [ "${part##*/}" = clang ] || ln -s "$part" "$copy/$here/toolchain/bin"; done
cat > "$copy/$here/toolchain/bin/clang" << WRAPPER
#!/bin/sh
[ ! -f module.bc ] || cp module.bc "$copy/module.bc"
exec "$kit/$here/toolchain/bin/clang" "\$@"
WRAPPER
chmod +x "$copy/$here/toolchain/bin/clang"
(cd .. && RATTLE_HOME=$copy rt staticlib parser) > "$copy/said" 2>&1 || { cat "$copy/said" >&2; exit 1; }
"$kit/$here/toolchain/bin/clang" --target="$(uname -m)-unknown-linux-gnu" -Wno-override-module -fPIC -O3 -c -x ir "$copy/module.bc" -o "$copy/parser.o" 2> "$copy/said"
mkdir -p "$(dirname "$out")"
rm -f "$out"
ar rcs "$out" "$copy/parser.o"
