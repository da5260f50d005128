# Completions of golden for bash: source this file, or copy it into /etc/bash_completion.d.
_golden() {
    local word=${COMP_WORDS[COMP_CWORD]} before=${COMP_WORDS[COMP_CWORD - 1]} options=
    case ${COMP_WORDS[1]} in
        run) options="--capacity --workers --mono" ;;
        replay | check) options="--capacity" ;;
        demo) options="--workers" ;;
        save | resume) options="--capacity --workers" ;;
    esac
    COMPREPLY=()
    if [ "$COMP_CWORD" = 1 ]; then
        COMPREPLY=($(compgen -W "run replay check demo save resume" -- "$word"))
    elif [[ $word == -* ]]; then
        COMPREPLY=($(compgen -W "$options" -- "$word"))
    elif [[ $before != --capacity && $before != --workers && ${COMP_WORDS[1]} != demo ]]; then
        mapfile -t COMPREPLY < <(compgen -f -- "$word")
    fi
}
complete -o filenames -F _golden golden
