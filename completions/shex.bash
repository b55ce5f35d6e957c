# Completes the words of shex, shextool and typing_session in bash.

# The options of a call, by the program and its command.
_shex_options() {
    case $1 in
        shex\ validate) echo --schema --data --map --proof --budget --schema-base --data-base ;;
        shex\ check) echo --schema --data --proof --schema-base --data-base ;;
        shex\ upgrade) echo --schema --data --proof --to --schema-base --data-base ;;
        shex\ drill) echo --proof ;;
        shextool\ convert) echo --schema --schema-base ;;
        shextool\ extents) echo --schema --data --budget --schema-base --data-base ;;
        shextool\ explain) echo --schema --data --map --budget --limit --json --schema-base --data-base ;;
        shextool\ lines) echo --data --prefix --data-base ;;
        shextool\ followed) echo --schema --schema-base ;;
        shextool\ reached) echo --schema --data --map --schema-base --data-base ;;
        shextool\ covers) echo --followed --part ;;
        typing_session\ *) echo --schema --data --script --budget --schema-base --data-base ;;
    esac
}

# The files that a word may begin, of these endings if there are any, and the folders.
_shex_files() {
    local word=$1 name ending
    shift
    compopt -o filenames
    while IFS= read -r name; do
        if [[ -d $name || $# -eq 0 ]]; then
            COMPREPLY+=("$name")
        fi
        for ending in "$@"; do
            [[ -d $name || $name != *.$ending ]] || COMPREPLY+=("$name")
        done
    done < <(compgen -f -- "$word")
}

_shex() {
    local program=${1##*/} word=$2 before=$3 commands='' parted='' option options=''
    COMPREPLY=()
    # Bash parts words at `=`.
    if [[ $word == = ]]; then
        word='' parted=yes
    elif [[ $before == = ]]; then
        parted=yes
        before=${COMP_WORDS[COMP_CWORD - 2]}
    fi
    case $program in
        shex) commands='validate check upgrade drill' ;;
        shextool) commands='convert extents explain lines followed reached covers' ;;
    esac
    if [[ $COMP_CWORD -eq 1 && -n $commands ]]; then
        mapfile -t COMPREPLY < <(compgen -W "$commands" -- "$word")
        return
    fi
    # This option has no value.
    [[ $before != --json ]] || before=''
    case $before in
        --schema) _shex_files "$word" shex json shexj ;;
        --data) _shex_files "$word" ttl nt ;;
        --map | --proof | --to | --script | --followed | --part) _shex_files "$word" ;;
        --budget | --limit | --prefix) ;;
        --schema-base | --data-base) mapfile -t COMPREPLY < <(compgen -W http://localhost/ -- "$word") ;;
        --*) ;;
        *)
            if [[ -n $parted ]]; then
                # The file of a document that is imported.
                _shex_files "$word" shex json shexj
                return
            fi
            for option in $(_shex_options "$program ${COMP_WORDS[1]}"); do
                [[ " ${COMP_WORDS[*]:1:COMP_CWORD - 1} " == *" $option "* ]] || options+="$option "
            done
            mapfile -t COMPREPLY < <(compgen -W "$options" -- "$word")
            ;;
    esac
}

complete -F _shex shex shextool typing_session
