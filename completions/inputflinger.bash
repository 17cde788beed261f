# Completions of inputflinger for bash. Made by docs/make-man from the program's help.
_inputflinger() {
    local word=${COMP_WORDS[COMP_CWORD]} before=${COMP_WORDS[COMP_CWORD-1]} options option
    COMPREPLY=()
    if [ "$COMP_CWORD" -eq 1 ]; then
        mapfile -t COMPREPLY < <(compgen -W 'replay race check verify work batch hover emit inspect why judge compare --help --version' -- "$word")
        return
    fi
    case ${COMP_WORDS[1]} in
        replay) options='--session --events' ;;
        race) options='--session --events' ;;
        check) options='--session --events --order' ;;
        verify) options='--stream' ;;
        work) options='--seed --packets' ;;
        batch) options='--stream --frame' ;;
        hover) options='--session --events --mouse' ;;
        emit) options='--stream --channel --device' ;;
        inspect) options='--session --events' ;;
        why) options='--session --events' ;;
        judge) options='--stream' ;;
        compare) options='--want --got --us --pixels --want-channel --got-channel --moves' ;;
        *) return ;;
    esac
    # The help of a command is a word alone.
    if [ "$COMP_CWORD" -eq 2 ]; then options="$options --help"; fi
    # Behind an option its value, also as --name=value, of which bash makes three words.
    if [ "$word" = = ]; then
        word=''
    elif [ "$before" = = ]; then
        before=${COMP_WORDS[COMP_CWORD-2]}
    fi
    case $before in
        --moves) mapfile -t COMPREPLY < <(compgen -W 'none each' -- "$word") && return ;;
        --events|--got|--mouse|--order|--session|--stream|--want)
            compopt -o filenames 2>/dev/null
            mapfile -t COMPREPLY < <(compgen -f -- "$word")
            return
            ;;
        --*) return ;;
    esac
    for option in $options; do
        case " ${COMP_WORDS[*]:0:COMP_CWORD} " in *" $option "*) ;; *) COMPREPLY+=("$option") ;; esac
    done
    mapfile -t COMPREPLY < <(compgen -W "${COMPREPLY[*]}" -- "$word")
}
complete -F _inputflinger inputflinger
