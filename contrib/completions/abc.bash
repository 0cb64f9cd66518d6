# Completion of abc for bash: source this file, or put it into a folder that bash-completion looks in.
_abc() {
    local word=${COMP_WORDS[COMP_CWORD]} room="--fuel= --objects= --cells= --text= --frames= --stack=" words
    # bash takes `=` as a word of its own: nothing is known of a number.
    [ "$word" = "=" ] && return
    if [ "$COMP_CWORD" -eq 1 ]; then
        words="canon dis asm check tidy run calls log replay gen"
    else
        case ${COMP_WORDS[1]} in
            run | log) words=$room ;;
            calls) words="$room --times=" ;;
            gen) words="--seed= --methods=" ;;
            *) words= ;;
        esac
    fi
    mapfile -t COMPREPLY < <(compgen -W "$words" -- "$word")
    [ "$COMP_CWORD" -gt 1 ] && compopt -o nospace 2>/dev/null
}
complete -o default -F _abc abc
