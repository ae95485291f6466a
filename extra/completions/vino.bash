# Completion of `vino` for bash.
_vino() {
    local word=${COMP_WORDS[COMP_CWORD]}
    COMPREPLY=()
    case $COMP_CWORD,${COMP_WORDS[1]-} in
    1,*) mapfile -t COMPREPLY < <(compgen -W 'run asm dis lang box check reseal audit demo' -- "$word") ;;
    3,run) mapfile -t COMPREPLY < <(compgen -f -- "$word") ;;
    3,box) mapfile -t COMPREPLY < <(compgen -W keep -- "$word") ;;
    esac
}
complete -F _vino vino
