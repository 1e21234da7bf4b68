#!/bin/sh
# Compiles a C file to a static executable, with the first cross compiler for riscv64 that is installed:
# compile.sh FILE.c OUT [MARCH MABI]. Debian's gcc-riscv64-unknown-elf, gcc-riscv64-linux-gnu, and clang with lld serve.
# Prints the compiler's name; ends with 3 where there is none.
set -eu
march=${3:-rv64i}
mabi=${4:-lp64}
options="-march=$march -mabi=$mabi -mno-relax -O1 -ffreestanding -fno-pic -fno-stack-protector -static -nostdlib"
options="$options -Wl,-e,_start -Wl,-s -Wl,--build-id=none -Wl,-z,max-page-size=4096"
for compiler in riscv64-unknown-elf-gcc riscv64-linux-gnu-gcc; do
    if command -v "$compiler" >/dev/null 2>&1; then
        "$compiler" $options -o "$2" "$1"
        echo "$compiler"
        exit 0
    fi
done
if command -v clang >/dev/null 2>&1 && command -v ld.lld >/dev/null 2>&1; then
    clang --target=riscv64-unknown-elf $options -fuse-ld=lld -o "$2" "$1"
    echo clang
    exit 0
fi
exit 3
