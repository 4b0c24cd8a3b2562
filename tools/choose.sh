#!/bin/sh
# Says which of the programs that are shipped this machine is to run: x86-64-v3 where all processors have what that is built for, whoever made
# them, and x86-64-v2 elsewhere and where that is in doubt. (AMD's gain most by it: for x86-64-v2 a rotation is written as SHLD, which is slow
# there, so that SHA-256 takes twice as long.) With --link it also makes PREFIX/bin/pairtree2ocfl a link to that program, and says nothing.
#   choose.sh [--link PREFIX] [CPUINFO]
set -eu
prefix=
if [ "${1-}" = --link ]; then
    prefix=$2
    shift 2
fi
cpuinfo=${1:-/proc/cpuinfo}

# What each processor has, a line each, between spaces.
flags=$(sed -n 's/^flags[[:space:]]*:[[:space:]]*\(.*\)/ \1 /p' "$cpuinfo" 2> /dev/null) || flags=
cpu=x86-64-v3
# abm is the name of LZCNT here; the system tells avx only where it keeps its registers.
for flag in abm avx avx2 bmi1 bmi2 f16c fma movbe; do
    ! printf '%s\n' "$flags" | grep -v " $flag " > /dev/null || cpu=x86-64-v2
done

if [ -n "$prefix" ]; then
    ln -sfn "../lib/pairtree2ocfl/$cpu/pairtree2ocfl" "$prefix/bin/pairtree2ocfl"
else
    printf '%s\n' "$cpu"
fi
