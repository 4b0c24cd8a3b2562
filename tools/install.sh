#!/bin/sh
# Installs the program given, with its man page, completions, scripts, documents and licences, below a folder; `--remove` in place of the program
# takes them away. The documents and licences go to DOCUMENTS below it, share/doc/pairtree2ocfl unless given. Of a folder that tools/programs.py
# made both programs are installed, as a package has them, with what links them again; the one for x86-64-v2 is to be run, until choose.sh chooses.
#   install.sh PROGRAM|PROGRAMS|--remove PREFIX [DOCUMENTS]
set -eu
umask 022
program=$1
prefix=${2:?name the folder to install to}
below=${3:-share/doc/pairtree2ocfl}
documents=$prefix/$below
scripts=$prefix/share/pairtree2ocfl
top=$(dirname "$0")/..
made=

put() {
    if [ "$program" = --remove ]; then
        rm -f "$prefix/$3"
    else
        mkdir -p "$(dirname "$prefix/$3")"
        install -m "$1" "$2" "$prefix/$3"
    fi
}

# A link in bin/, by which a script is on the PATH.
link() {
    rm -f "$prefix/bin/$2"
    if [ "$program" != --remove ]; then
        mkdir -p "$prefix/bin"
        ln -s "../share/pairtree2ocfl/$1" "$prefix/bin/$2"
    fi
}

if [ "$program" != --remove ]; then
    # No signal ends a shell without the last words of it, nor comes while the folder is made or removed.
    trap '' HUP INT TERM
    made=$(mktemp -d)
    trap 'trap "" HUP INT TERM; rm -rf "$made"' EXIT
    trap 'exit 3' HUP INT TERM
    "${PYTHON:-python3}" "$top/tools/fill.py" "$made"
    echo '.so man1/pairtree2ocfl.1' > "$made/same.1"
fi
if [ -d "$program" ]; then
    for name in README libos_c.a liblibc_c.a x86-64-v2/pairtree2ocfl.o x86-64-v3/pairtree2ocfl.o; do
        put 644 "$program/$name" "lib/pairtree2ocfl/$name"
    done
    for cpu in x86-64-v2 x86-64-v3; do
        put 755 "$program/$cpu/pairtree2ocfl" "lib/pairtree2ocfl/$cpu/pairtree2ocfl"
    done
    put 755 "$top/tools/choose.sh" lib/pairtree2ocfl/choose.sh
    mkdir -p "$prefix/bin"
    sh "$top/tools/choose.sh" --link "$prefix" /dev/null
else
    put 755 "$program" bin/pairtree2ocfl
fi
put 644 "$made/pairtree2ocfl.1" share/man/man1/pairtree2ocfl.1
put 644 "$made/pairtree2ocfl.bash" share/bash-completion/completions/pairtree2ocfl
put 644 "$made/_pairtree2ocfl" share/zsh/site-functions/_pairtree2ocfl
put 644 "$made/pairtree2ocfl.fish" share/fish/vendor_completions.d/pairtree2ocfl.fish
put 755 "$top/tools/roots.py" share/pairtree2ocfl/roots.py
put 755 "$top/tools/shares.py" share/pairtree2ocfl/shares.py
for name in roots_aside roots_joining roots_logs roots_objects roots_sums roots_telling shares_notes shares_running shares_status shown starting; do
    put 644 "$top/tools/$name.py" "share/pairtree2ocfl/$name.py"
done
put 755 "$top/examples/report.py" share/pairtree2ocfl/report.py
for name in report_log report_page report_sums report_verdict report_words; do
    put 644 "$top/examples/$name.py" "share/pairtree2ocfl/$name.py"
done
for name in roots shares report; do
    link "$name.py" "pairtree2ocfl-$name"
    put 644 "$made/same.1" "share/man/man1/pairtree2ocfl-$name.1"
done
for path in "$top"/LICENSE-* "$top"/LICENSES/*/*; do
    put 644 "$path" "$below/${path#"$top"/}"
done
# What an earlier version installed, and what Python leaves beside scripts.
rm -rf "$scripts/shares.sh" "$scripts/__pycache__"
if [ "$program" = --remove ]; then
    for path in "$top/README.md" "$top"/docs/*.md; do
        rm -f "$documents/${path#"$top"/}"
    done
    rmdir "$scripts" "$documents/docs" "$documents/LICENSES"/* "$documents/LICENSES" "$documents" 2> /dev/null || :
else
    "${PYTHON:-python3}" "$top/tools/shipped.py" "$top" "$documents"
fi
