# Read by the launcher and by start.sh: what the words of mcexec may be, and what is told of wrong ones.

usage() {
    cat <<'END'
mcexec walk JOB [ORDER] [trace]   runs the job on one thread, and writes the report or the trace
mcexec check JOB                  writes what the job needs
mcexec replay JOB TRACE           makes the events of the trace happen, and writes the report
mcexec audit JOB TRACE            the same, with the one-kernel machine beside it
mcexec grow N [ORDER]             walks a job of N guests, 1 to 16
mcexec run JOB [trace]            runs the job on threads, and writes the report or the trace
mcexec --help, mcexec --version   write these lines, and what is run
END
}

fail() {
    echo "mcexec: $*" >&2
    exit 125
}

# Whether a word is a decimal number below 2^64 without a sign or leading zero.
is_number() {
    case $1 in
        '' | *[!0-9]* | 0?* | ?????????????????????*) return 1 ;;
        ????????????????????) [ "$(printf '%s\n' "$1" 18446744073709551615 | LC_ALL=C sort | head -n 1)" = "$1" ] ;;
    esac
}

is_count() {
    case $1 in
        [1-9] | 1[0-6]) return 0 ;;
        *) return 1 ;;
    esac
}

# Says why the words fit no command; nothing where they fit one. Only the program itself judges them for good.
why_words() {
    if [ $# -eq 0 ]; then
        echo "there is no command"
        return
    fi
    command=$1
    shift
    case $command:$# in
        walk:1 | check:1 | replay:2 | audit:2 | run:1) ;;
        walk:2) [ "$2" = trace ] || is_number "$2" || echo "$numbers, here \"$2\"" ;;
        walk:3)
            is_number "$2" || echo "$numbers, here \"$2\""
            [ "$3" = trace ] || echo "behind ORDER stands the word trace, here \"$3\""
            ;;
        run:2) [ "$2" = trace ] || echo "behind JOB stands the word trace, here \"$2\"" ;;
        grow:1 | grow:2)
            is_count "$1" || echo "N is a number from 1 to 16, here \"$1\""
            [ $# -eq 1 ] || is_number "$2" || echo "$numbers, here \"$2\""
            ;;
        walk:* | check:* | replay:* | audit:* | run:* | grow:*) echo "$command takes another number of words than $#" ;;
        *) echo "\"$command\" is no command" ;;
    esac
}
numbers="ORDER is a decimal number below 2^64 without sign or leading zero"
