#!/bin/sh
# Compiles the C files of this folder for rv64i and for rv64gc with the installed cross compiler, and asks whether the
# images load: the first have to, and the second have to be refused by their flags. Says `skipped` and ends with 77
# where no compiler is installed, or where the program that tells an image's fault isn't built: that proves it too,
# and so isn't begun here.
set -eu
here=$(cd "$(dirname "$0")" && pwd)
crate=rows_images
program="$here/../crates/$crate/out/$crate"
folder=$(mktemp -d)
trap 'rm -rf "$folder"' EXIT
for source in "$here"/*.c; do
    name=$(basename "$source" .c)
    compiler=$("$here/compile.sh" "$source" "$folder/$name") || compiler=
    if [ -z "$compiler" ]; then
        echo "skipped: no cross compiler for riscv64 is installed, or it doesn't compile $name.c"
        exit 77
    fi
    if [ ! -x "$program" ]; then
        echo "skipped: the program of crates/$crate isn't built (rt run -- table <stdin there builds it)"
        exit 77
    fi
    echo "$name by $compiler"
    "$program" <"$folder/$name" | tee "$folder/told"
    grep -q '^entry ' "$folder/told"
    grep -q '^written to [0-9]* bytes$' "$folder/told"
    "$here/compile.sh" "$source" "$folder/$name" rv64gc lp64d >/dev/null
    test "$("$program" <"$folder/$name")" = flags
    echo "$name for rv64gc: flags"
done
