#!/bin/sh
# Prints the file of the program mcexec: the proved one where `rt ci` or `rt run` has left it, else an unproved one,
# which is built once and kept in out/unproved until a source changes.
#
#     tools/program.sh          builds it where it isn't built
#     tools/program.sh found    builds nothing, and ends with 1 where it isn't built
#
# The unproved one is the program that the tool-kit's `rt try` builds, with checks of its own in place of the proof.
# `rt try` keeps no file, so the program is given a named pipe as its job here, and is copied while it waits for that.
# A failure is told in one line on standard error, and ends with 125.
set -u
top=$(dirname "$(dirname "$(readlink -f "$0")")")
name=mcexec
kept=$top/out/unproved

fail() {
    echo "$name: $*" >&2
    exit 125
}

# The sum of all sources.
sum() {
    (cd "$top" && find crates -path '*/src/*.rt' -type f -print | LC_ALL=C sort | xargs cat crates.txt) | sha256sum
}

find_built() {
    for program in "$top"/crates/*/out/"$name"; do
        if [ -f "$program" ] && [ -x "$program" ]; then
            echo "$program"
            exit 0
        fi
    done
    if [ -x "$kept/$name" ] && [ "$(cat "$kept/sum" 2>/dev/null)" = "$(sum)" ]; then
        echo "$kept/$name"
        exit 0
    fi
}

clean() {
    for it in $builder $copier; do
        kill "$it" 2>/dev/null
    done
    rm -rf "$room"
}

find_built
[ "${1:-}" != found ] || exit 1
command -v rt >/dev/null 2>&1 || fail "the program isn't built, and there is no rt to build it with"
[ -d "$top/crates/$name" ] || fail "there is no crate $name to build the program from"
if ! mkdir -p "$kept" 2>/dev/null || [ ! -w "$kept" ]; then
    fail "$kept can't be written, so no build can be kept there"
fi
if command -v flock >/dev/null 2>&1; then
    exec 7>>"$kept/lock"
    if ! flock -n 7; then
        echo "$name: another build of the program runs, and this one waits for it" >&2
        flock 7
        find_built
    fi
fi
room=$(mktemp -d) || fail "there is no room for a build"
builder=
copier=
trap clean EXIT
trap 'exit 129' HUP
trap 'exit 130' INT
trap 'exit 143' TERM
mkfifo "$room/job" || fail "there is no named pipe in $room"
before=$(sum)
echo "$name: builds the program without its proof, once, in about a minute (rt ci proves it)" >&2
(
    cd "$top/crates/$name" || exit
    status=0
    TMPDIR=$room rt try -- check "$room/job" >"$room/said" 2>&1 </dev/null 7>&- || status=$?
    echo "$status" >"$room/status"
) &
builder=$!
(
    exec 9>"$room/job" # until the program reads it
    find "$room" -name program -type f -perm -u+x -exec cp {} "$room/copy" \;
) 7>&- &
copier=$!
seconds=0
while kill -0 "$builder" 2>/dev/null; do
    sleep 1
    seconds=$((seconds + 1))
    [ $((seconds % 10)) -ne 0 ] || echo "$name: builds, $seconds seconds" >&2
done
exec 8<>"$room/job" # where no program read it, the copier waits no more
wait "$copier"
exec 8>&-
builder=
copier=
if [ ! -x "$room/copy" ]; then
    tail -n 3 "$room/said" >&2
    fail "the program wasn't built: rt try ended with status $(cat "$room/status" 2>/dev/null || echo unknown)"
fi
rm -f "$kept/sum"
rt version >"$kept/kit" 2>/dev/null || rm -f "$kept/kit"
if ! cp "$room/copy" "$kept/$name.new" || ! mv "$kept/$name.new" "$kept/$name" || ! echo "$before" >"$kept/sum"; then
    fail "the build can't be kept in $kept"
fi
echo "$kept/$name"
