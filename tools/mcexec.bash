# Completion of words for mcexec and ./mcexec, for bash.

_mcexec_jobs() {
    # text files that hold a line `frames N`, and folders
    local file
    COMPREPLY=()
    while IFS= read -r file; do
        if [ -d "$file" ]; then
            COMPREPLY+=("$file/")
        elif [ -f "$file" ] && head -c 4096 -- "$file" | grep -aq '^frames [0-9]'; then
            COMPREPLY+=("$file")
        fi
    done < <(compgen -f -- "$1")
    compopt -o nospace 2>/dev/null
    [ "${#COMPREPLY[@]}" -ne 1 ] || [ -d "${COMPREPLY[0]}" ] || compopt +o nospace 2>/dev/null
    compopt -o filenames 2>/dev/null
}

_mcexec_files() {
    mapfile -t COMPREPLY < <(compgen -f -- "$1")
    compopt -o filenames 2>/dev/null
}

_mcexec() {
    local word=${COMP_WORDS[COMP_CWORD]} command=${COMP_WORDS[1]-}
    COMPREPLY=()
    case $COMP_CWORD:$command in
        1:*) mapfile -t COMPREPLY < <(compgen -W "walk check replay audit grow run --help --version" -- "$word") ;;
        2:walk | 2:check | 2:replay | 2:audit | 2:run) _mcexec_jobs "$word" ;;
        3:replay | 3:audit) _mcexec_files "$word" ;;
        2:grow) mapfile -t COMPREPLY < <(compgen -W "1 2 4 8 16" -- "$word") ;;
        3:walk | 3:run | 4:walk) mapfile -t COMPREPLY < <(compgen -W "trace" -- "$word") ;;
    esac
}

complete -F _mcexec mcexec ./mcexec ../mcexec
