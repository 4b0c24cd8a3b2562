#!/bin/sh
# Proves the program and builds it for a processor, at the path given, where it isn't there already. For x86-64-v2, which it takes unless told
# otherwise, the toolchain sees itself whether anything has changed; for another one the sums of all that the program was built of stand beside it.
#   build.sh RT CPU PROGRAM
set -eu
rt=$1
cpu=$2
program=$3
top=$(cd "$(dirname "$0")/.." && pwd)

mkdir -p "$(dirname "$program")"
{
    printf '%s\n' "$cpu"
    "$rt" version
    (cd "$top" && find crates.txt crates -name out -prune -o -type f -print | LC_ALL=C sort | tr '\n' '\0' | xargs -0 sha256sum)
} > "$program.new.of"
if [ "$cpu" = x86-64-v2 ]; then
    (cd "$top/crates/pairtree2ocfl" && "$rt" run -- --help > /dev/null)
elif [ ! -x "$program" ] || ! cmp -s "$program.new.of" "$program.of"; then
    (cd "$top/crates/pairtree2ocfl" && "$rt" run "--cpu=$cpu" -- --help > /dev/null)
else
    rm "$program.new.of"
    exit
fi
cp "$top/crates/pairtree2ocfl/out/pairtree2ocfl" "$program.new"
mv "$program.new" "$program"
mv "$program.new.of" "$program.of"
