#!/bin/sh
# Makes an RPM package of the programs given, in the folder given. It can be installed below another folder than /usr, by `rpm --prefix`.
#   rpm.sh PROGRAMS FOLDER
. "$(dirname "$0")/packing.sh"
root=$work/root
licences=$root/usr/share/licenses/pairtree2ocfl

mkdir -p "$licences"
sh "$top/tools/install.sh" "$programs" "$root/usr"
mv "$root/usr/share/doc/pairtree2ocfl/LICENSE"* "$licences"
cp "$top/CHANGELOG.md" "$root/usr/share/doc/pairtree2ocfl"
gzip -9n "$root"/usr/share/man/man1/*.1
settle "$root"
# All files and links, and the folders that are this package's own. Which program is linked is chosen where it is installed.
(cd "$root" && find usr -path '*/pairtree2ocfl*' -type d | sed 's|.*|%dir "/&"|' && find usr ! -type d | sed 's|.*|"/&"|') |
    sed 's|^"/usr/bin/pairtree2ocfl"|%verify(not link) &|' | LC_ALL=C sort > "$work/files"
cat > "$work/pairtree2ocfl.spec" <<EOT
Name: pairtree2ocfl
Version: $version
Release: 1
Summary: Carry a Pairtree 0.1 store into an OCFL 1.1 storage root
License: (MIT OR Apache-2.0) AND LGPL-2.1-or-later
Packager: the pairtree2ocfl authors <noreply@example.org>
Prefix: /usr
AutoReqProv: no
Recommends: python3

%description
A migration for libraries and archives that want to move from Pairtree
to OCFL without losing an object or a byte. Each function of the
program is proved to meet its contract.

%install
cp -a "$root/." "%{buildroot}"

%post
sh "\$RPM_INSTALL_PREFIX/lib/pairtree2ocfl/choose.sh" --link "\$RPM_INSTALL_PREFIX"

%files -f $work/files
EOT
# The programs stay byte for byte as the toolchain built them, and nothing tells when and where the package was made.
rpmbuild --quiet -bb --nodeps \
    --define "_topdir $work/rpm" --define "_rpmdir $work/rpms" --define '_rpmfilename %{NAME}-%{VERSION}-%{RELEASE}.%{ARCH}.rpm' \
    --define '__os_install_post %{nil}' --define 'debug_package %{nil}' --define '_build_id_links none' \
    --define '_buildhost localhost' --define 'use_source_date_epoch_as_buildtime 1' --define 'clamp_mtime_to_source_date_epoch 1' \
    --define '_binary_payload w9.gzdio' --define '_binary_filedigest_algorithm 8' "$work/pairtree2ocfl.spec"
name=$(cd "$work/rpms" && ls)
cp "$work/rpms/$name" "$folder"
sum "$name"
