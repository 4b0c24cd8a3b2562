#!/bin/sh
# Runs the program over the store in demo/ by `rt try`, unproved: names, a rehearsal and a run. It takes about a minute.
#   try.sh RT
set -eu
rt=$1
top=$(cd "$(dirname "$0")/.." && pwd)
# No signal ends a shell without the last words of it, nor comes while the folder is made or removed.
trap '' HUP INT TERM
work=$(mktemp -d)
trap 'trap "" HUP INT TERM; rm -rf "$work"' EXIT
trap 'exit 3' HUP INT TERM
mkdir "$work/root"
cp -RP "$top/demo/store" "$work/store"
# The repository can't hold empty folders.
mkdir "$work/store/pairtree_root/xt/77" "$work/store/pairtree_root/xt/12/t4/letters/drafts"

cd "$top/crates/pairtree2ocfl"
echo 'This program is built without its proofs, with checks, and runs more slowly. NOTHING OF IT IS PROVED: make proves it.'
status=0
"$rt" try -- migrate --created 2024-05-01T12:00:00Z --name Ada "$work/store" "$work/root" || status=$?
echo "status $status (1: the log has lines of skip)"
echo 'The destination:'
(cd "$work/root" && find . | LC_ALL=C sort | sed -e 1d -e 's|^\./||')
echo 'Not proved. make demo proves and builds the program, and shows more.'
[ "$status" -le 1 ]
