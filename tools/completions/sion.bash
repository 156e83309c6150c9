# Completes the commands, options and files of sion in bash.
_sion() {
    local word=${COMP_WORDS[COMP_CWORD]} command=${COMP_WORDS[1]} words=""
    COMPREPLY=()
    if [ "$COMP_CWORD" -eq 1 ]; then
        words="check show create extract cat explain --version --help"
    elif [ "${COMP_WORDS[COMP_CWORD - 1]}" = --order ]; then
        words="little big"
    elif [ "${COMP_WORDS[COMP_CWORD - 1]}" = --format ]; then
        words="3 4"
    elif [ "${COMP_WORDS[COMP_CWORD - 1]}" = --files ]; then
        words="1 2"
    else
        case $command:$word in
            check:-*) words="--quiet --json --help" ;;
            show:-*) words="--chunks --json --help" ;;
            create:-*) words="--blocksize --order --format --prefix --blocks --files --force --help" ;;
            extract:-*) words="--force --help" ;;
            *:-*) words="--help" ;;
            explain:*) words=$(sion explain 2>/dev/null | grep -o '\<[A-Z][A-Z0-9]*_[A-Z0-9_]*\>') ;;
        esac
    fi
    if [ -n "$words" ]; then
        mapfile -t COMPREPLY < <(compgen -W "$words" -- "$word")
    fi
}
complete -o default -F _sion sion
