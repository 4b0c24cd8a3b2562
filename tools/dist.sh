#!/bin/sh
# Makes an archive of the programs given, with the man page, completions, documents and licences, in the folder given.
#   dist.sh PROGRAMS FOLDER
. "$(dirname "$0")/packing.sh"
name=pairtree2ocfl-$version-$(uname -s | tr A-Z a-z)-$(uname -m)
root=$work/$name

mkdir "$root"
cp "$top/CHANGELOG.md" "$root"
sh "$top/tools/install.sh" "$programs" "$root" .
install -m 755 "$top/tools/unpacked.sh" "$root/install.sh"
(cd "$root" && find . -type f | LC_ALL=C sort | sed 's|^\./||' | tr '\n' '\0' | xargs -0 sha256sum > ../SHA256SUMS)
mv "$work/SHA256SUMS" "$root"
settle "$root"
tar -C "$work" --sort=name --owner=0 --group=0 --numeric-owner --format=gnu -I 'gzip -9n' -cf "$folder/$name.tar.gz" "$name"
sum "$name.tar.gz"
