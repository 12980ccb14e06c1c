# Completions of seat_cli for bash, made by checks/manual.py.
_seat_cli() {
    local word=${COMP_WORDS[COMP_CWORD]} before=${COMP_WORDS[COMP_CWORD-1]}
    case $before in
        --layout | --out | --store) COMPREPLY=($(compgen -f -- "$word")); return ;;
    esac
    case ${COMP_WORDS[1]} in
        join) COMPREPLY=($(compgen -W "--help --layout" -- "$word")) ;;
        play) COMPREPLY=($(compgen -W "--from --help --layout --tables" -- "$word")) ;;
        site) COMPREPLY=($(compgen -W "--help --layout --site --store" -- "$word")) ;;
        serve) COMPREPLY=($(compgen -W "--create --group --grow --help --layout --log --plain --site --store --together --wait" -- "$word")) ;;
        ask) COMPREPLY=($(compgen -W "--create --group --grow --help --layout --log --plain --site --store --wait" -- "$word")) ;;
        regroup) COMPREPLY=($(compgen -W "--group --help --layout --site --store" -- "$word")) ;;
        rebuild) COMPREPLY=($(compgen -W "--group --help --layout --lost --site --store" -- "$word")) ;;
        judge) COMPREPLY=($(compgen -W "--cut --help --layout --logs" -- "$word")) ;;
        run) COMPREPLY=($(compgen -W "--help --layout --out --turns" -- "$word")) ;;
        *) COMPREPLY=($(compgen -W "join play site serve ask regroup rebuild judge run --help --version" -- "$word")) ;;
    esac
}
complete -F _seat_cli seat_cli
