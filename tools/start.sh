#!/bin/sh
# Runs a built program for the launcher, and for an mcexec that is installed:
#
#     tools/start.sh PROGRAM KIND WORD..
#
# KIND is proved or unproved. Standard output is the program's alone, and so is the status. Behind the program's line on
# standard error stands what can be told of the cause: of wrong words the usage, of all else what tools/explain finds in
# the files that the words and the job name. That needs python3 and setpriv; without them the program runs all the same.
# What fails here, and not in the program, ends with 125; so does a fault that the checks of an unproved build find.
set -u
tools=$(dirname "$(readlink -f "$0")")
. "$tools/words.sh"
[ $# -ge 2 ] || fail "usage: start.sh PROGRAM KIND WORD.."
program=$1
kind=$2
shift 2

# What was built, by which tool-kit, and whether it is proved.
version() {
    name=$(cat "$tools/version" 2>/dev/null) ||
        name=$(git -C "$tools" describe --always --dirty --abbrev=12 2>/dev/null) || name="of an unknown version"
    kit=$(cat "$(dirname "$program")/kit" 2>/dev/null) || kit=$(rt version 2>/dev/null) || kit="an unknown tool-kit"
    echo "mcexec $name, $kind, built by $kit"
}

if [ $# -eq 1 ]; then
    case $1 in
        -h | --help)
            usage
            exit 0
            ;;
        --version)
            version
            exit 0
            ;;
    esac
fi
if [ "$kind" = unproved ]; then
    echo "mcexec: this run is of an unproved build (rt ci proves and builds the program)" >&2
    export ASAN_OPTIONS="abort_on_error=0:exitcode=125${ASAN_OPTIONS:+:$ASAN_OPTIONS}"
fi

# Where this process ends before the program, the program is to end too. Else it takes this process's place.
guard="setpriv --pdeathsig TERM --"
if ! { $guard true && (exec 3>&1); } 2>/dev/null; then
    exec "$program" "$@"
fi
exec 3>&1
# (the shell has a word of its own for a program that a signal ends)
{ said=$(exec $guard "$program" "$@" 2>&1 >&3 3>&-); } 2>/dev/null
status=$?
exec 3>&-
[ -z "$said" ] || printf '%s\n' "$said" >&2
case $status in
    0) ;;
    2)
        why=$(why_words "$@")
        printf '%s\n' "${why:-a word is not UTF-8}" | sed 's/^/  /' >&2
        usage >&2
        ;;
    [1-9] | 1[0-2])
        if command -v python3 >/dev/null 2>&1; then
            printf '%s\n' "$said" | python3 -B "$tools/explain/explain.py" "$status" "$program" "$@" >&2 2>/dev/null
        fi
        ;;
esac
exit "$status"
