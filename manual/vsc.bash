# Completions of vsc for bash. Made by tools/manual of the help texts.
_vsc() {
    local current=${COMP_WORDS[COMP_CWORD]} before=${COMP_WORDS[COMP_CWORD - 1]} command= options= at
    COMPREPLY=()
    for ((at = 1; at < COMP_CWORD; at++)); do
        [[ ${COMP_WORDS[at]} == -* ]] || { command=${COMP_WORDS[at]}; break; }
    done
    if [[ -z $command ]]; then
        COMPREPLY=($(compgen -W "verify judge cnf decode lrat recheck part survey refusals batch help -h --help -V --version" -- "$current"))
        return
    fi
    case $command:$before in
        batch:--keep) COMPREPLY=($(compgen -d -- "$current")); return ;;
        verify:--workers|verify:--split|verify:--budget|verify:--rounds|cnf:--workers|survey:--budget|survey:--workers|batch:--workers|batch:--split|batch:--budget) return ;;
        verify:--cert|verify:--picture|recheck:--part|survey:--cert|survey:--names|survey:--part|survey:--picture|survey:--hint) compopt -o filenames 2> /dev/null; COMPREPLY=($(compgen -f -- "$current")); return ;;
    esac
    case $command in
        verify) options='--cert --workers --split --budget --rounds --progress --picture --explain --no-explain --help' ;;
        judge) options='--explain --no-explain --help' ;;
        cnf) options='--workers --explain --no-explain --help' ;;
        decode) options='--explain --no-explain --help' ;;
        lrat) options='--explain --no-explain --help' ;;
        recheck) options='--part --explain --no-explain --help' ;;
        part) options='--names --explain --no-explain --help' ;;
        survey) options='--cert --names --part --budget --workers --progress --picture --hint --explain --no-explain --help' ;;
        refusals) options='--explain --no-explain --help' ;;
        batch) options='--workers --split --budget --json --schedules --keep --explain --no-explain --help' ;;
        help) COMPREPLY=($(compgen -W 'verify judge cnf decode lrat recheck part survey refusals batch' -- "$current")) ;;
    esac
    if [[ $current == -* ]]; then
        COMPREPLY=($(compgen -W "$options" -- "$current"))
    elif [[ $command != help && -n $options ]]; then
        compopt -o filenames 2> /dev/null
        COMPREPLY=($(compgen -f -- "$current"))
    fi
}
complete -F _vsc vsc
