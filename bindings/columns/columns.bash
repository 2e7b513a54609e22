# Completion of the program columns for bash: verbs, the options of a verb, and column files.
# tools/install_test holds the verbs and options to what `columns help` says.
_columns() {
    local verbs='check show row rows find write rewrite renumber canonical changes help'
    local word=${COMP_WORDS[COMP_CWORD]} before=${COMP_WORDS[COMP_CWORD - 1]} options='' dashed=1 i
    COMPREPLY=()
    if [ "$COMP_CWORD" -eq 1 ]; then
        mapfile -t COMPREPLY < <(compgen -W "$verbs --version -h --help" -- "$word")
        return
    fi
    case ${COMP_WORDS[1]} in
    check | row) options='-H -j --as-one' ;;
    show) options='-H -j --plot' ;;
    rows) options='-H -t -j --as-one' ;;
    find) options='-H -q -j --as-one --with' ;;
    write) options='-f --empty --rows --split' ;;
    rewrite) options='-f' ;;
    renumber) options='-f -n' ;;
    canonical) options='-H -j' ;;
    changes) ;;
    help)
        [ "$COMP_CWORD" -ne 2 ] || mapfile -t COMPREPLY < <(compgen -W "${verbs% help}" -- "$word")
        return
        ;;
    *) return ;;
    esac
    # Behind -j and --rows stands a number, and behind `--` no option.
    case $before in
    -j | --rows) return ;;
    esac
    for ((i = 2; i < COMP_CWORD; i++)); do
        [ "${COMP_WORDS[i]}" != -- ] || dashed=''
    done
    case $dashed$word in
    1-*) mapfile -t COMPREPLY < <(compgen -W "$options -h --help" -- "$word") ;;
    *)
        # Folders, and the files whose names end as those of column files do; where none does, any file.
        compopt -o filenames 2>/dev/null
        mapfile -t COMPREPLY < <(compgen -d -- "$word"; compgen -f -X '!*.col' -- "$word")
        [ "${#COMPREPLY[@]}" -gt 0 ] || mapfile -t COMPREPLY < <(compgen -f -- "$word")
        ;;
    esac
}
complete -F _columns columns
