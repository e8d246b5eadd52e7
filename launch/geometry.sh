# The sizes of the disk that a script needs, where its first line names them. To be sourced after `words.sh`.
#
# `./crashmap-record` begins a script with such a line: `# crashmap: --blocks 128 --journal 62`.

# The most bytes of a script that are looked at.
most_looked_at=64

# takes_sizes: whether the options ask for an answer, and name no size
takes_sizes() {
    local option
    for option in "${options[@]}"; do
        case $option in
        --blocks | --blocks=* | --journal | --journal=*) return 1 ;;
        -h | --help | -V | --version | --rules | --options) return 1 ;;
        esac
    done
}

# add_sizes: puts the sizes that the script names before `words` and `options`. What is read of standard input is put
# back.
add_sizes() {
    local begin= zero= LC_ALL=C
    takes_sizes || return 0
    if [ ${#scripts[@]} -gt 0 ]; then
        if [ -f "${scripts[0]}" ]; then
            IFS= read -r -d '' -n $most_looked_at begin 2>/dev/null <"${scripts[0]}" || true
        fi
    elif [[ -p /dev/stdin || -f /dev/stdin ]]; then
        # A byte 0 ends what is read, and is no part of it.
        if IFS= read -r -d '' -n $most_looked_at begin && [ ${#begin} -lt $most_looked_at ]; then zero='\0'; fi
        exec 3<&0 < <(printf "%s$zero" "$begin" && exec cat <&3) 3<&-
    fi
    if [[ $begin =~ ^'# crashmap: --blocks '([0-9]+)' --journal '([0-9]+)$'\n' ]]; then
        words=(--blocks "${BASH_REMATCH[1]}" --journal "${BASH_REMATCH[2]}" "${words[@]}")
        options=("--blocks=${BASH_REMATCH[1]}" "--journal=${BASH_REMATCH[2]}" "${options[@]}")
    fi
}
