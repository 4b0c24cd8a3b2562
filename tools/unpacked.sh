#!/bin/sh
# Installs what the archive holds that this file came in, with the program that this machine is to run.
#   install.sh [PREFIX], /usr/local unless given
set -eu
umask 022
top=$(cd "$(dirname "$0")" && pwd)
prefix=${1:-/usr/local}
documents=$prefix/share/doc/pairtree2ocfl

mkdir -p "$prefix/bin" "$documents"
cp -R "$top/lib" "$top/share" "$prefix"
rm -f "$prefix/share/pairtree2ocfl/shares.sh"
for name in roots shares report; do
    ln -sfn "../share/pairtree2ocfl/$name.py" "$prefix/bin/pairtree2ocfl-$name"
done
cp -R "$top/README.md" "$top/docs" "$top/CHANGELOG.md" "$top/LICENSE-MIT" "$top/LICENSE-APACHE" "$top/LICENSES" "$documents"
sh "$prefix/lib/pairtree2ocfl/choose.sh" --link "$prefix"
