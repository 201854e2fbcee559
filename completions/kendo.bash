# Completion of `kendo` for bash: source this file, or put it into a folder of bash-completion as `kendo`.

_kendo() {
    local current=${COMP_WORDS[COMP_CWORD]} previous=${COMP_WORDS[COMP_CWORD - 1]} options=
    COMPREPLY=()
    if [ "$COMP_CWORD" -eq 1 ]; then
        mapfile -t COMPREPLY < <(compgen -W 'check list reference timeline explore test inspect run help --help --version' -- "$current")
        return
    fi
    case $previous in
        --workers | --limit | --from | --last | --event | --at | --tries | --states | --seconds) return ;;
        --trace | --values | --out | --pauses | --against)
            mapfile -t COMPREPLY < <(compgen -f -- "$current")
            return
            ;;
    esac
    case ${COMP_WORDS[1]} in
        help)
            mapfile -t COMPREPLY < <(compgen -W 'check list reference timeline explore test inspect run' -- "$current")
            return
            ;;
        check) options='--json --explain' ;;
        list) options='--explain' ;;
        reference) options='--limit --pauses --explain' ;;
        timeline) options='--limit --from --last --pauses --out --explain' ;;
        explore) options='--limit --tries --states --seconds --ends --ordered --unordered --leaks --whole --out --json --explain' ;;
        test) options='--limit --orders --tries --states --seconds --leaks --out --update --json --explain' ;;
        inspect) options='--event --at --limit --pauses --explain' ;;
        run) options='--workers --limit --trace --values --pauses --against --strict --explain' ;;
    esac
    case $current in
        -*) mapfile -t COMPREPLY < <(compgen -W "$options --help" -- "$current") ;;
        *) mapfile -t COMPREPLY < <(compgen -f -X '!*.go' -- "$current"; compgen -d -S / -- "$current") ;;
    esac
}

complete -o filenames -F _kendo kendo
