#!/bin/sh
# Writes the image of each hexadecimal text of this folder: write_images.sh [FOLDER], where without a FOLDER an image
# lies beside its text. Each image is there whole or not at all. Where that fails it ends with 125.
set -eu
here=$(cd "$(dirname "$0")" && pwd)
folder=${1:-$here}

bytes() {
    if command -v xxd >/dev/null 2>&1; then
        xxd -r -p
    else
        python3 -c 'import sys; sys.stdout.buffer.write(bytes.fromhex(sys.stdin.read()))'
    fi
}

if ! command -v xxd >/dev/null 2>&1 && ! command -v python3 >/dev/null 2>&1; then
    echo "write_images.sh: there is neither xxd nor python3 to write the images with" >&2
    exit 125
fi
new=$folder/new-image.$$
trap 'rm -f "$new"' EXIT
for text in "$here"/*.hex; do
    name=$(basename "$text" .hex)
    if ! bytes <"$text" >"$new" || [ ! -s "$new" ] || ! mv "$new" "$folder/$name"; then
        echo "write_images.sh: the image of $text can't be written" >&2
        exit 125
    fi
done
