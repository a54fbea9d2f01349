# bash completion for dbck

_dbck() {
    local cur=${COMP_WORDS[COMP_CWORD]} prev=${COMP_WORDS[COMP_CWORD - 1]} command=${COMP_WORDS[1]} words word after=
    COMPREPLY=()
    # After -- only file names follow.
    for word in "${COMP_WORDS[@]:1:COMP_CWORD - 1}"; do
        [ "$word" = -- ] && after=yes
    done
    if [ "$COMP_CWORD" -eq 1 ]; then
        words='check explain map mend stat help --help --version'
    elif [ -z "$after" ] && [[ $prev == --limit || $prev == --with ]]; then
        return
    else
        case $command in
            check | explain | mend) words='--limit --recovered --with --no-progress --help' ;;
            map) words='--recovered --with --no-progress --help' ;;
            stat) words='--aggregate --all --recovered --with --no-progress --help' ;;
            help) words='check explain map mend stat' ;;
            *) return ;;
        esac
    fi
    if [[ -z $after && ($cur == -* || $COMP_CWORD -eq 1 || $command == help) ]]; then
        mapfile -t COMPREPLY < <(compgen -W "$words" -- "$cur")
    else
        compopt -o filenames 2> /dev/null
        mapfile -t COMPREPLY < <(compgen -f -- "$cur")
        # Before -- a file whose name begins with a dash would be read as an option.
        [ -n "$after" ] || COMPREPLY=("${COMPREPLY[@]/#-/./-}")
    fi
}

complete -F _dbck dbck
