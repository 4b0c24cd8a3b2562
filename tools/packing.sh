# What dist.sh, deb.sh and rpm.sh begin with, each given the folder that tools/programs.py made and the folder that is to get the package. What
# they make is the same to the byte whenever and wherever it is made of the same: each file has the time SOURCE_DATE_EPOCH, which is the day of
# the version unless it is given.
set -eu
umask 022
programs=$1
folder=$2
top=$(cd "$(dirname "$0")/.." && pwd)
version=$("$programs/x86-64-v2/pairtree2ocfl" --version | sed -n '1s/^pairtree2ocfl //p')
day=$(sed -n "s/^## \[$version\] - //p" "$top/CHANGELOG.md")
SOURCE_DATE_EPOCH=${SOURCE_DATE_EPOCH:-$(date -u -d "$day" +%s)}
export SOURCE_DATE_EPOCH
# No signal ends a shell without the last words of it, nor comes while the folder is made or removed.
trap '' HUP INT TERM
work=$(mktemp -d)
trap 'trap "" HUP INT TERM; rm -rf "$work"' EXIT
trap 'exit 3' HUP INT TERM
chmod 755 "$work"
mkdir -p "$folder"

# Gives all in a folder the modes and the time that it has in a package.
settle() {
    chmod -R u=rwX,go=rX "$1"
    find "$1" -exec touch -h -d "@$SOURCE_DATE_EPOCH" {} +
}

# Writes the sums of all packages in the folder that has got one, and says which that is.
sum() {
    (cd "$folder" && for file in *.tar.gz *.deb *.rpm; do [ ! -f "$file" ] || sha256sum "$file"; done > SHA256SUMS)
    printf '%s\n' "$folder/$1"
}
