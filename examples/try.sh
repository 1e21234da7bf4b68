#!/bin/sh
# Runs each command over the jobs of this folder, and compares what it writes with the texts that are kept here:
# reports, a trace, and what a check says. A trace is replayed and audited to the report of its walk. It runs the
# program that the launcher runs, built where it isn't yet. It ends with 1 where a text differs, and with 77 where
# there is no program.
cd "$(dirname "$0")" || exit 125
if ! program=$(../tools/program.sh); then
    echo "skipped: the program isn't built"
    exit 77
fi
room=$(mktemp -d) || exit 125
trap 'rm -rf "$room"' EXIT
cp ./*.job ./*.trace "$room" && ./write_images.sh "$room" || exit 125
wrong=0
count=0

# The text that the words write is that of the file.
writes() {
    file=$1
    shift
    count=$((count + 1))
    if ! (cd "$room" && exec "$program" "$@") | cmp -s - "$file"; then
        echo "mcexec $*: not the text of $file"
        wrong=$((wrong + 1))
    fi
}

for job in *.job; do
    name=${job%.job}
    [ -f "$name.report" ] || continue
    writes "$name.report" walk "$job"
    writes "$name.report" walk "$job" 7
    writes "$name.report" run "$job"
done
writes hello.check check hello.job
writes hello.trace walk hello.job trace
writes hello.report replay hello.job hello.trace
writes hello.report audit hello.job hello.trace
writes ../crates/mcexec/stdout grow 16
case $program in
    */unproved/*) of=" of an unproved build" ;;
    *) of= ;;
esac
echo "$count commands of the examples$of, $wrong wrong"
[ "$wrong" -eq 0 ]
