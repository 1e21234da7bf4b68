#!/bin/sh
# Compiles the guests of tests/ and compares what they write, and how they end, with the texts that are kept there:
# under qemu-riscv64 where it is installed, and on the node, all in one job, by the program that MCEXEC names, else by
# the launcher. Ends with 77 where something was skipped.
#
#   guest/test.sh         runs it
#   guest/test.sh keep    writes what qemu-riscv64 answers to the texts
set -eu
here=$(dirname "$(readlink -f "$0")")
program=$(readlink -f "${MCEXEC:-$here/../mcexec}")
room=$(mktemp -d)
trap 'rm -rf "$room"' EXIT
trap 'exit 1' HUP INT TERM
wrong=0
skipped=0

# Of each guest: its name, how it ends, options of guest/cc or a dot, and its words.
cat >"$room/table" <<'TABLE'
hello exit,4 . 1.5 2e10x -0.125
heap exit,0 .
files exit,0 .
threads exit,0 .
signals killed,12 .
jumps exit,0 .
times exit,0 .
options exit,0 . -n 12 -u one two
children exit,0 .
memory exit,0 .
swaps exit,0 -march=rv64im
plain exit,0 -plain a b
TABLE
printf 'Some words,\nto be read.\n' >"$room/input"

fails() {
    echo "$*"
    wrong=$((wrong + 1))
}

# The compiler's absence is told by the first call.
while read -r name end options words; do
    status=0
    "$here/cc" $(echo "$options" | sed 's/^\.$//') -Wall -Wextra -o "$room/$name" "$here/tests/$name.c" || status=$?
    if [ "$status" -eq 77 ]; then
        exit 77
    elif [ "$status" -ne 0 ]; then
        echo "$name isn't compiled"
        exit 1
    fi
done <"$room/table"

# What the node lacks is refused, and the function named.
while read -r name told; do
    status=0
    "$here/cc" -o "$room/refused" "$here/tests/$name.c" 2>"$room/told" || status=$?
    if [ "$status" -ne 1 ] || [ -e "$room/refused" ] || ! grep -q "^main has $told, at 0x" "$room/told"; then
        fails "$name.c: $told isn't refused"
    fi
done <<'TABLE'
refused LR
refused SC
refused_compressed a compressed instruction
refused_floating floating point
refused_control a control register or a privileged instruction
TABLE
for flags in "-march=rv64gc -mabi=lp64d" "-march=rv64imac -mabi=lp64"; do
    echo 'double x; int main(void) { x = x + 1; return 0; }' >"$room/other.c"
    if command -v riscv64-unknown-elf-gcc >/dev/null 2>&1; then
        riscv64-unknown-elf-gcc $flags -O1 -nostdlib -Wl,-e,main -o "$room/other" "$room/other.c" -lgcc 2>/dev/null
        if "$here/look.py" "$room/other" >"$room/told" || ! grep -q '^main has' "$room/told"; then
            fails "code for $flags isn't refused"
        fi
    fi
done

# Compares what a guest wrote and how it ended: NAME, the end that is wanted, the one that was, the text, and by what.
compare() {
    if [ "$2" != "$3" ]; then
        fails "$1 by $5: $3, and $2 is wanted"
    elif ! cmp -s "$4" "$here/tests/$1.out"; then
        fails "$1 by $5: not the text of tests/$1.out"
        diff "$here/tests/$1.out" "$4" | head -n 5
    fi
}

if command -v qemu-riscv64 >/dev/null 2>&1; then
    while read -r name end options words; do
        mkdir "$room/$name.folder"
        status=0
        # In braces, so that the shell's own word on a guest that a signal ends goes nowhere.
        { (cd "$room/$name.folder" && exec env -i "$(command -v qemu-riscv64)" "../$name" $words) \
            <"$room/input" >"$room/$name.text" 2>&1 || status=$?; } 2>/dev/null
        if [ "$status" -ge 128 ]; then
            was=killed,$((status - 128))
        else
            was=exit,$status
        fi
        if [ "${1:-}" = keep ]; then
            cp "$room/$name.text" "$here/tests/$name.out"
        fi
        compare "$name" "$end" "$was" "$room/$name.text" qemu-riscv64
    done <"$room/table"
else
    echo "skipped: qemu-riscv64 isn't there; Debian's package qemu-user has it"
    skipped=1
fi

# One job for all, so that a launcher that first has to build the program does so once.
mkdir "$room/job"
{
    echo "frames 4000"
    echo "limit 4000000"
    echo "cores 4"
    while read -r name end options words; do
        echo "guest $name${words:+ $words}"
    done <"$room/table"
} >"$room/job/job"
guest=0
while read -r name end options words; do
    guest=$((guest + 1))
    cp "$room/$name" "$room/job/$name"
    if [ "$name" = options ]; then
        echo "input $guest input" >>"$room/job/job"
    fi
done <"$room/table"
cp "$room/input" "$room/job/input"
status=0
(cd "$room/job" && exec "$program" walk job) >"$room/report" || status=$?
if [ "$status" -eq 127 ]; then
    echo "skipped: there is no program to run guests with"
    skipped=1
elif ! grep -q '^mcreport 1$' "$room/report"; then
    fails "mcexec ran nothing, and ends with $status"
elif [ "$status" -ne 0 ]; then
    fails "mcexec ends with $status"
else
    mkdir "$room/told.folder"
    python3 -B "$here/report.py" "$room/told.folder" <"$room/report"
    guest=0
    while read -r name end options words; do
        guest=$((guest + 1))
        compare "$name" "$end" "$(tr ' ' ',' <"$room/told.folder/$guest.end")" "$room/told.folder/$guest.out" mcexec
    done <"$room/table"
    grep '^count instructions' "$room/report"
fi

echo "$(wc -l <"$room/table") guests, $wrong wrong"
if [ "$wrong" -ne 0 ]; then
    exit 1
fi
if [ "$skipped" -ne 0 ]; then
    exit 77
fi
