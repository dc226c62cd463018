# Completion of the words of rcpsp and rcpsp_many for bash: source docs/rcpsp.bash
_rcpsp() {
    local word=${COMP_WORDS[COMP_CWORD]} before=${COMP_WORDS[COMP_CWORD - 1]} options
    case $before in
    --format | --to) options="sm rcp" ;;
    --rule) options="number lft lst mts grpw" ;;
    --as) options="table chart csv" ;;
    esac
    if [ -n "$options" ]; then
        COMPREPLY=($(compgen -W "$options" -- "$word"))
        return
    fi
    case ${COMP_WORDS[1]} in
    schedule) options="--as --calendar --descend --format --improve --list --live --rule --workers" ;;
    parallel) options="--as --calendar --format --list --rule" ;;
    sample) options="--all --as --count --format --from --improve --live --seed --workers" ;;
    check) options="--format" ;;
    convert) options="--format --to" ;;
    windows) options="--format" ;;
    trial) options="--activities --number --resources --rule --workers" ;;
    esac
    if [ "$COMP_CWORD" = 1 ]; then
        COMPREPLY=($(compgen -W "schedule parallel sample check convert windows trial" -- "$word"))
    elif [[ $word == -* ]]; then
        COMPREPLY=($(compgen -W "$options" -- "$word"))
    else
        COMPREPLY=($(compgen -f -- "$word"))
    fi
}
complete -o filenames -F _rcpsp rcpsp ./rcpsp

_rcpsp_many() {
    local word=${COMP_WORDS[COMP_CWORD]}
    if [[ $word == -* ]]; then
        COMPREPLY=($(compgen -W "--workers" -- "$word"))
    else
        COMPREPLY=($(compgen -f -- "$word"))
    fi
}
complete -o filenames -F _rcpsp_many rcpsp_many ./rcpsp_many
