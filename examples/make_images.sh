#!/bin/sh
# Makes the image of each assembler text of this folder beside it: NAME.s gives NAME.hex and the file NAME, which a
# job names. The assembler is the program of the crate guest_image: the proved one where `rt ci` or `rt run` has built
# it, else what `rt try` makes of it, which takes half a minute. Where neither is there it says so, and ends with 77.
set -u
here=$(cd "$(dirname "$0")" && pwd) || exit 125
crate=$here/../crates/guest_image
program=$crate/out/guest_image
room=$(mktemp -d) || exit 125
trap 'rm -rf "$room"' EXIT
trap 'exit 130' INT TERM

fail() {
    echo "make_images.sh: $*" >&2
    exit 125
}

if [ -x "$program" ]; then
    for text in "$here"/*.s; do
        "$program" <"$text" >"$room/$(basename "$text" .s).hex" || fail "$text isn't assembled"
    done
elif [ -d "$crate" ] && command -v rt >/dev/null 2>&1; then
    echo "make_images.sh: guest_image isn't built, so this run of it is unproved, and takes half a minute" >&2
    mkdir "$room/texts"
    cp "$here"/*.s "$room/texts"
    (cd "$crate" && rt try --cases "$room/texts") >"$room/said" 2>"$room/told" || fail "$(tail -n 3 "$room/told")"
    awk -v room="$room" '
        /^== / { file = room "/" $2; sub(/\.s$/, ".hex", file); next }
        /^[0-9a-f]+$/ { print >file }' "$room/said"
else
    echo "skipped: the crate guest_image isn't built, and there is no rt to build it with"
    exit 77
fi
for text in "$here"/*.s; do
    name=$(basename "$text" .s)
    [ -s "$room/$name.hex" ] || fail "$text isn't assembled"
    if ! cmp -s "$room/$name.hex" "$here/$name.hex"; then
        cp "$room/$name.hex" "$here/$name.hex" || fail "$name.hex can't be written"
    fi
done
"$here/write_images.sh"
