# Completion for bash of ./rh_cli, ./rh_roles and ./replay: source this file.
# Written by tools/terminal_files.py.
_guddrino() {
    local words word="${COMP_WORDS[COMP_CWORD]}"
    case "${COMP_WORDS[0]##*/}" in
    rh_cli) words="--unproved replay story show name play capture audit make --help --version" ;;
    rh_roles) words="--unproved client inproxy outproxy server --help --version" ;;
    replay) words="--unproved --help" ;;
    esac
    if [ "$COMP_CWORD" -ge 2 ]; then
        case "${COMP_WORDS[COMP_CWORD-1]}" in
        --unproved) ;;
        story) words="--hex --chart --svg" ;;
        *) words= ;;
        esac
    fi
    mapfile -t COMPREPLY < <(compgen -W "$words" -- "$word")
    if [ "${COMP_WORDS[0]##*/}" = replay ]; then
        mapfile -t -O "${#COMPREPLY[@]}" COMPREPLY < <(compgen -f -X '!*.rh' -- "$word")
        compopt -o plusdirs 2>/dev/null
    else
        compopt -o default 2>/dev/null
    fi
}
complete -F _guddrino rh_cli rh_roles replay
