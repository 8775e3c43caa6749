# Completes the words of mukstorde in bash. To use it: source mukstorde-completion.bash
_mukstorde() {
    local word=${COMP_WORDS[COMP_CWORD]} before=${COMP_WORDS[COMP_CWORD - 1]}
    COMPREPLY=()
    if [ "$COMP_CWORD" -eq 1 ]; then
        mapfile -t COMPREPLY < <(compgen -W 'run script gen selfrun inspect --help' -- "$word")
        return
    fi
    case ${COMP_WORDS[1]} in
    run)
        case $before in
        --every) mapfile -t COMPREPLY < <(compgen -W '1000 100000 10000000' -- "$word") ;;
        --mode) mapfile -t COMPREPLY < <(compgen -W 'inline' -- "$word") ;;
        --links) mapfile -t COMPREPLY < <(compgen -W 'memory' -- "$word") ;;
        --segment) mapfile -t COMPREPLY < <(compgen -W '64 1024 4096 32768 65536' -- "$word") ;;
        --pool) mapfile -t COMPREPLY < <(compgen -W '64 256 1024 2048 16384' -- "$word") ;;
        *)
            if [ "$COMP_CWORD" -eq 2 ]; then
                mapfile -t COMPREPLY < <(compgen -f -- "$word")
            else
                mapfile -t COMPREPLY < <(compgen -W '--every --mode --segment --pool --links' -- "$word")
            fi
            ;;
        esac
        ;;
    script)
        [ "$COMP_CWORD" -eq 2 ] && mapfile -t COMPREPLY < <(compgen -f -- "$word")
        ;;
    esac
}
complete -F _mukstorde mukstorde ./mukstorde
