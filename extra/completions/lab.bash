# Completion of `lab` for bash.
_lab() {
    local word=${COMP_WORDS[COMP_CWORD]} before=${COMP_WORDS[COMP_CWORD-1]} command=${COMP_WORDS[1]-}
    local commands='run test grade measure score script box watch why audit picture quiz trace explain page drops tour help --help --version'
    COMPREPLY=()
    if [ "$COMP_CWORD" = 1 ]; then
        mapfile -t COMPREPLY < <(compgen -W "$commands" -- "$word")
        return
    fi
    case $before in
    --disk) mapfile -t COMPREPLY < <(compgen -f -- "$word"); return ;;
    --from | --to | --seed) return ;;
    esac
    if [[ $word == -* ]]; then
        local options=--help
        case $command in
        run) options='--plain --raw-heads --disk --help' ;;
        grade) options='--tap --json --help' ;;
        measure) options='--json --csv --help' ;;
        script) options='--key --help' ;;
        picture | trace | page) options='--from --to --help' ;;
        quiz) options='--seed --answers --help' ;;
        explain) options='--all --help' ;;
        esac
        mapfile -t COMPREPLY < <(compgen -W "$options" -- "$word")
        return
    fi
    case $command in
    help) mapfile -t COMPREPLY < <(compgen -W "$commands" -- "$word") ;;
    explain | tour) ;;
    audit) mapfile -t COMPREPLY < <(compgen -f -- "$word") ;;
    grade | score)
        mapfile -t COMPREPLY < <(compgen -f -X '!*.lab' -- "$word"; compgen -f -X '!*.task' -- "$word"; compgen -d -S / -- "$word") ;;
    *) mapfile -t COMPREPLY < <(compgen -f -X '!*.lab' -- "$word"; compgen -d -S / -- "$word") ;;
    esac
}
complete -o filenames -o nospace -F _lab_spaced lab
_lab_spaced() {
    _lab
    # A whole word is followed by a space, a folder isn't.
    [[ ${#COMPREPLY[@]} == 1 && ${COMPREPLY[0]} != */ ]] && compopt +o nospace
}
