# bash completion of bddcheck
_bddcheck() {
    local word=${COMP_WORDS[COMP_CWORD]} before=${COMP_WORDS[COMP_CWORD-1]}
    local IFS=$' \t\n'
    # Bash makes three words of --order=auto.
    if [ "$word" = = ]; then
        word=
    elif [ "$before" = = ] && [ "$COMP_CWORD" -ge 2 ]; then
        before=${COMP_WORDS[COMP_CWORD-2]}
    fi
    case $before in
    --match) mapfile -t COMPREPLY < <(compgen -W 'name position' -- "$word") ;;
    --order) mapfile -t COMPREPLY < <(compgen -W 'auto cones merge declared depth interleave index force msb-first weights force-groups best' -- "$word") ;;
    --format) mapfile -t COMPREPLY < <(compgen -W 'text json' -- "$word") ;;
    --assignment) mapfile -t COMPREPLY < <(compgen -W 'all support ones' -- "$word") ;;
    --difference) mapfile -t COMPREPLY < <(compgen -W 'least any' -- "$word") ;;
    --workers) mapfile -t COMPREPLY < <(compgen -W '1 2 4 8 16' -- "$word") ;;
    --limit | --only | --explain) COMPREPLY=() ;;
    --share) mapfile -t COMPREPLY < <(compgen -W '1/2 1/4 1/8 1/16' -- "$word") ;;
    --seconds) mapfile -t COMPREPLY < <(compgen -W '60 600 3600' -- "$word") ;;
    --memory) mapfile -t COMPREPLY < <(compgen -W '1G 2G 4G 8G 16G' -- "$word") ;;
    --order-file | --pairs | --given | --vcd) mapfile -t COMPREPLY < <(compgen -f -- "$word") ;;
    *)
        case $word in
        -*) mapfile -t COMPREPLY < <(compgen -W '--match --order --order-file --extend --pairs --given --only --share --explain --vcd --workers --limit --memory --seconds --sizes --print-order --format --assignment --causes --difference --verbose --help --version' -- "$word") ;;
        *) mapfile -t COMPREPLY < <(compgen -f -- "$word") ;;
        esac
        ;;
    esac
}
complete -o filenames -F _bddcheck bddcheck
