# Completion of the command pelshaqu for bash.

_pelshaqu() {
    local word=${COMP_WORDS[COMP_CWORD]} before=${COMP_WORDS[COMP_CWORD - 1]} command='' i
    local text='--machines --startup --scale --scale-speeds'
    for ((i = 1; i < COMP_CWORD; i++)); do
        case ${COMP_WORDS[i]} in
        plan | grade | convert | explain)
            command=${COMP_WORDS[i]}
            break
            ;;
        esac
    done
    COMPREPLY=()
    case $before in
    --machines | --svg | --plan-file | --output | -o)
        compopt -o filenames 2>/dev/null
        mapfile -t COMPREPLY < <(compgen -f -- "$word")
        return
        ;;
    --method)
        mapfile -t COMPREPLY < <(compgen -W 'table bidding bisection nicol' -- "$word")
        return
        ;;
    --to)
        mapfile -t COMPREPLY < <(compgen -W 'csv job lines' -- "$word")
        return
        ;;
    --startup | --scale | --scale-speeds) return ;;
    esac
    local words
    case $command in
    plan) words="--table --csv --json --listing --svg --plan-file --method --help $text" ;;
    grade) words="--help $text" ;;
    convert) words="--to --output --help $text" ;;
    explain) words="--help $(seq -s ' ' 1 18)" ;;
    *) words='plan grade convert explain --help --version' ;;
    esac
    if [[ $word == -* || $command == explain || -z $command ]]; then
        mapfile -t COMPREPLY < <(compgen -W "$words" -- "$word")
    else
        compopt -o filenames 2>/dev/null
        mapfile -t COMPREPLY < <(compgen -f -- "$word")
    fi
}

complete -F _pelshaqu pelshaqu
