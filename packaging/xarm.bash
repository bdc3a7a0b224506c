# Completion of xarm's command lines in bash. The words are those of the program's own help, so none stands here.

_xarm() {
    local program=$1 word=$2 before=$3 command='' help words='' path=''
    COMPREPLY=()
    [ "$COMP_CWORD" -eq 1 ] || command=${COMP_WORDS[1]}
    # After 'help' comes a command.
    [ "$command" != help ] || command=''
    help=$("$program" ${command:+"$command"} --help 2> /dev/null) || return 0
    case $before in
        # An option that takes a value, which is a path or what nobody can guess.
        --*) path=$(sed -n "s/^  *$before <\([A-Z]*\)>.*/\1/p" <<< "$help") ;;
    esac
    if [ -z "$path" ]; then
        words=$(sed -n 's/^  \([a-z][a-z-]*\)  .*/\1/p; s/^  \(-.,\)\{0,1\} *\(--[a-z-]*\).*/\2/p' <<< "$help")
        [[ $word == -* ]] || path=$(sed -n 's/^  <\([A-Z]*\)>.*/\1/p' <<< "$help" | head -n 1)
    fi
    if [ "$path" = PATH ] || [ "$path" = FILE ]; then
        compopt -o filenames 2> /dev/null
        mapfile -t COMPREPLY < <(compgen -f -- "$word")
    elif [ -z "$path" ]; then
        mapfile -t COMPREPLY < <(compgen -W "$words" -- "$word")
    fi
}

complete -F _xarm xarm
