# The command line of ./crashmap, which is read here alone. To be sourced where `top` is the folder of the repository.

# refuse_words TEXT: says what is wrong with the command line, in the form in which the program says it, and ends with
# status 2
refuse_words() {
    printf "error: %s\n\nFor more information, try '--help'.\n" "$1" >&2
    exit 2
}

# set_hints [WHEN]: takes the value of --hints
set_hints() {
    local values=$'\n  [possible values: auto, always, never]'
    if [ -n "$hints" ]; then
        refuse_words "the argument '--hints <WHEN>' cannot be used multiple times

Usage: crashmap [OPTIONS] [SCRIPT]"
    fi
    case ${1-} in
    auto | always | never) hints=$1 ;;
    '' | -*) refuse_words "a value is required for '--hints <WHEN>' but none was supplied$values" ;;
    *) refuse_words "invalid value '$1' for '--hints <WHEN>'$values" ;;
    esac
}

# read_words WORD..: reads a command line. It sets
#   first     `--prove`, `--proved` or `--test`, if that is the first word
#   hints     the value of --hints, if it is given
#   words     the other words, as they are
#   options   the options among them, each in one word with its value: `--module=soft`
#   scripts   the words among them that name a script. The program refuses a second one.
read_words() {
    local known word
    first= hints= words=() options=() scripts=()
    # This page has a line for each option, with the name of its value in capital letters if it takes one.
    read -r -d '' known <"$top/launch/pages/options" || true
    case ${1-} in
    --prove | --proved | --test)
        first=$1
        shift
        ;;
    esac
    while [ $# -gt 0 ]; do
        word=$1
        case $word in
        --hints=*) set_hints "${word#*=}" ;;
        --hints)
            set_hints "${2-}"
            shift
            ;;
        --)
            words+=("$@")
            shift
            scripts+=("$@")
            return
            ;;
        -?*)
            words+=("$word")
            if [[ $known == *$'\n'"$word "[A-Z]* && $# -gt 1 && $2 != -* ]]; then
                words+=("$2")
                word+="=$2"
                shift
            fi
            options+=("$word")
            ;;
        *) words+=("$word") scripts+=("$word") ;;
        esac
        shift
    done
}

# gives_hints: whether hints are asked for. There are none without Python.
gives_hints() {
    case $hints in
    never) return 1 ;;
    always) ;;
    *) [ -t 2 ] || return 1 ;;
    esac
    hash python3 2>/dev/null
}
