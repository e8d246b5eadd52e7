# What the program prints on itself, without the program. To be sourced after `words.sh`.

# show_page: prints the answer to the command line and ends, where a file has it
show_page() {
    local page=
    case ${#words[@]}:${#options[@]}:${options[*]} in
    1:1:--help | 1:1:-h) page=help ;;
    1:1:--version | 1:1:-V) page=version ;;
    1:1:--options) page=options ;;
    1:1:--rules) page=rules-soft ;;
    [23]:2:'--rules --module='*) page=rules-${options[1]#*=} ;;
    [23]:2:'--module='*' --rules') page=rules-${options[0]#*=} ;;
    esac
    if [[ $page != */* && -n $page && -f $top/launch/pages/$page ]]; then exec cat "$top/launch/pages/$page"; fi
}
