#!/bin/sh
# Installs the program, its manual page, docs/FORMATS.md, the scripts for reports and traces, and the completion of
# words for bash below a folder:
#
#     tools/install.sh PREFIX               the proved program, as `rt ci` or `rt run` has built it
#     tools/install.sh PREFIX --unproved    an unproved build, built where it isn't yet, which says so at each run
#
# DESTDIR stands before PREFIX where it is set. Nothing is installed where there is no such program: that ends with 125.
set -u
top=$(dirname "$(dirname "$(readlink -f "$0")")")

fail() {
    echo "install.sh: $*" >&2
    exit 125
}

case $#:${2-} in
    1: | 2:--unproved) ;;
    *) fail "usage: install.sh PREFIX [--unproved]" ;;
esac
case $1 in
    /*) prefix=${1%/} ;;
    -* | '') fail "usage: install.sh PREFIX [--unproved]" ;;
    *) prefix=$(pwd)/${1%/} ;;
esac
to=${DESTDIR-}$prefix
program=$("$top/tools/program.sh" found) || program=
case $program in
    "$top"/out/unproved/* | '')
        [ $# -eq 2 ] || fail "the proved program isn't built (rt ci builds it); --unproved installs another"
        program=$("$top/tools/program.sh") || exit 125
        ;;
esac
case $program in
    "$top"/out/unproved/*) kind=unproved ;;
    *) kind=proved ;;
esac
room=$(mktemp -d) || fail "no temporary folder can be made"
trap 'rm -rf "$room"' EXIT

put() {
    if mkdir -p "$(dirname "$3")" && cp "$2" "$3.new" && chmod "$1" "$3.new" && mv "$3.new" "$3"; then
        echo "$3"
    else
        fail "$3 can't be written"
    fi
}

# Puts a text that is made here, from standard input.
put_text() {
    cat >"$room/text" || fail "no temporary file can be written"
    put "$1" "$room/text" "$2"
}

own=$to/lib/mcexec
put 755 "$program" "$own/mcexec"
{ cat "$(dirname "$program")/kit" 2>/dev/null || rt version 2>/dev/null || echo "an unknown tool-kit"; } |
    put_text 644 "$own/kit" || exit
{ git -C "$top" describe --always --dirty --abbrev=12 2>/dev/null || echo "of an unknown version"; } |
    put_text 644 "$own/tools/version" || exit
for file in start.sh report.py trace_view/convert.py explain/explain.py; do
    put 755 "$top/tools/$file" "$own/tools/$file"
done
for file in words.sh explain/events.py explain/images.py explain/jobs.py trace_view/as_html.py trace_view/as_json.py \
    trace_view/as_svg.py trace_view/differ.py trace_view/page.html trace_view/page.js trace_view/pictures.py \
    trace_view/traces.py; do
    put 644 "$top/tools/$file" "$own/tools/$file"
done
put_text 755 "$to/bin/mcexec" <<END
#!/bin/sh
own=\$(dirname "\$(dirname "\$(readlink -f "\$0")")")/lib/mcexec
exec "\$own/tools/start.sh" "\$own/mcexec" $kind "\$@"
END
put 644 "$top/docs/mcexec.1" "$to/share/man/man1/mcexec.1"
put 644 "$top/docs/FORMATS.md" "$to/share/doc/mcexec/FORMATS.md"
put 644 "$top/tools/mcexec.bash" "$to/share/bash-completion/completions/mcexec"
