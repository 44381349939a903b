# Completion of upfsign's words for bash: source this file.

# The modules of a netlist.
_upfsign_modules() {
    sed -n 's/^module \([A-Za-z_][A-Za-z0-9_]*\)(.*$/\1/p' -- "$1" 2>/dev/null
}

# Files with this ending, and folders.
_upfsign_files() {
    compopt -o filenames 2>/dev/null
    mapfile -t COMPREPLY < <(compgen -f -X "!*.$1" -- "$2"; compgen -d -- "$2")
    # where none has the ending, any file
    [ "${#COMPREPLY[@]}" -gt 0 ] || mapfile -t COMPREPLY < <(compgen -f -- "$2")
}

_upfsign() {
    local word=${COMP_WORDS[COMP_CWORD]}
    COMPREPLY=()
    case $COMP_CWORD in
    1) mapfile -t COMPREPLY < <(compgen -W flat -- "$word") ;;
    2) mapfile -t COMPREPLY < <(compgen -W -lib -- "$word") ;;
    3) _upfsign_files lib "$word" ;;
    4) mapfile -t COMPREPLY < <(compgen -W -net -- "$word") ;;
    5) _upfsign_files v "$word" ;;
    6) mapfile -t COMPREPLY < <(compgen -W -upf -- "$word") ;;
    7) _upfsign_files upf "$word" ;;
    8) mapfile -t COMPREPLY < <(compgen -W -top -- "$word") ;;
    9) mapfile -t COMPREPLY < <(compgen -W "$(_upfsign_modules "${COMP_WORDS[5]}")" -- "$word") ;;
    esac
}

complete -F _upfsign upfsign
