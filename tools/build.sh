#!/usr/bin/env bash
# Proves and builds what is named: a program to target/bin/NAME, an archive for C (glass_c, files_c, primes_c) to target/staticlib/libNAME.a.
set -euo pipefail
cd "$(dirname "$0")/.."
[ $# -gt 0 ] || { echo "usage: tools/build.sh NAME.." >&2; exit 2; }
mkdir -p target/bin target/staticlib
for name; do
    crate=$name
    # a static library is a crate of its own beside the library whose functions it exports
    [ ! -d "crates/${name}_c" ] || crate=${name}_c
    if [ -f "crates/$crate/src/main.rt" ]; then
        # rt builds a program to run it: here on its stored input
        input=$PWD/crates/$crate/stdin
        [ -f "$input" ] || input=/dev/null
        (cd "crates/$crate" && rt run <"$input" >/dev/null)
        cp "crates/$crate/out/$crate" "target/bin/$name"
    else
        # for any x86-64
        (cd "crates/$crate" && rt lib --cpu x86-64 >&2)
        cp "crates/$crate/out/lib$crate.a" "target/staticlib/lib$name.a"
    fi
done
