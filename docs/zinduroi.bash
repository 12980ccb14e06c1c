# Completions of zinduroi for bash, made by checks/zinduroi_manual.py.
_zinduroi() {
    local word=${COMP_WORDS[COMP_CWORD]} before=${COMP_WORDS[COMP_CWORD-1]} at
    if [[ ${COMP_WORDS[1]} == lock ]]; then
        for ((at = 2; at < COMP_CWORD; at++)); do
            if [[ ${COMP_WORDS[at]} == -- ]]; then
                if ((at == COMP_CWORD - 1)); then COMPREPLY=($(compgen -c -- "$word")); else COMPREPLY=($(compgen -f -- "$word")); fi
                return
            fi
        done
    fi
    case $before in
        --config | --folder | --layout | --program | --socket | --status | --store) COMPREPLY=($(compgen -f -- "$word")); return ;;
        --group | --host | --interval | --lost | --messages | --mqtt | --option | --port | --publish | --site | --timeout | --to | --wait) return ;;
    esac
    case ${COMP_WORDS[1]} in
        node) COMPREPLY=($(compgen -W "--config --create --help" -- "$word")) ;;
        lock) COMPREPLY=($(compgen -W "--read --socket --strict --timeout --help --" -- "$word")) ;;
        ask) COMPREPLY=($(compgen -W "--socket --wait --help" -- "$word")) ;;
        status) COMPREPLY=($(compgen -W "--json --socket --help" -- "$word")) ;;
        watch) COMPREPLY=($(compgen -W "--group --interval --layout --once --program --site --socket --status --store --wait --help" -- "$word")) ;;
        recover) COMPREPLY=($(compgen -W "--config --folder --host --layout --lost --messages --mqtt --option --port --program --publish --site --store --to --wait --help" -- "$word")) ;;
        *) COMPREPLY=($(compgen -W "node lock ask status watch recover --help" -- "$word")) ;;
    esac
}
complete -F _zinduroi zinduroi
