#!/bin/sh
# Makes a Debian package of the programs given, in the folder given.
#   deb.sh PROGRAMS FOLDER
. "$(dirname "$0")/packing.sh"
machine=$(dpkg --print-architecture)
root=$work/root
doc=$root/usr/share/doc/pairtree2ocfl

mkdir -p "$root/DEBIAN" "$doc"
# lintian: unstripped-binary-or-object: the programs are shipped byte for byte as the toolchain built them.
# lintian: statically-linked-binary: they are to run on any Linux; the object files are here to link them again.
cp "$top/CHANGELOG.md" "$doc"
sh "$top/tools/install.sh" "$programs" "$root/usr"
rm -r "$doc/LICENSE-MIT" "$doc/LICENSE-APACHE" "$doc/LICENSES"
gzip -9n "$root"/usr/share/man/man1/*.1
{
    printf 'pairtree2ocfl (%s) unstable; urgency=medium\n\n  * What this version brought is in CHANGELOG.md.\n\n' "$version"
    printf ' -- the pairtree2ocfl authors <noreply@example.org>  %s\n' "$(LC_ALL=C date -u -R -d "$day")"
} | gzip -9n > "$doc/changelog.gz"
{
    printf 'pairtree2ocfl: MIT OR Apache-2.0\n\n'
    cat "$top/LICENSE-MIT"
    printf '\n\nThe Apache License 2.0 is /usr/share/common-licenses/Apache-2.0.\n'
    for crate in "$top"/LICENSES/*; do
        printf '\n\n%s, which the program holds:\n\n' "$(basename "$crate")"
        # A package names the full text of these two licences, and doesn't hold it.
        for licence in "$crate"/*; do
            if grep -q 'GNU LESSER GENERAL PUBLIC LICENSE' "$licence"; then
                printf 'The GNU Lesser General Public License 2.1 is /usr/share/common-licenses/LGPL-2.1.\n\n'
            elif grep -q 'Apache License' "$licence"; then
                [ -f "$crate/LICENSE-MIT" ] || printf 'The Apache License 2.0 is /usr/share/common-licenses/Apache-2.0.\n'
            else
                cat "$licence"
            fi
        done
    done
} > "$doc/copyright"
cat > "$root/DEBIAN/control" <<EOT
Package: pairtree2ocfl
Version: $version
Section: utils
Priority: optional
Architecture: $machine
Depends: python3
Maintainer: the pairtree2ocfl authors <noreply@example.org>
Installed-Size: $(find "$root/usr" -type f -exec stat -c %s {} + | awk '{ sum += int(($1 + 1023) / 1024) } END { print sum }')
Description: carry a Pairtree 0.1 store into an OCFL 1.1 storage root
 A migration for libraries and archives that want to move from Pairtree
 to OCFL without losing an object or a byte. Each function of the
 program is proved to meet its contract.
EOT
cat > "$root/DEBIAN/postinst" <<'EOT'
#!/bin/sh
set -e
if [ "$1" = configure ]; then
    sh "${DPKG_ROOT:-}/usr/lib/pairtree2ocfl/choose.sh" --link "${DPKG_ROOT:-}/usr"
fi
EOT
settle "$root"
chmod 755 "$root/DEBIAN/postinst"
name=pairtree2ocfl_${version}_$machine.deb
dpkg-deb --root-owner-group -Zxz -b "$root" "$folder/$name" > /dev/null
sum "$name"
