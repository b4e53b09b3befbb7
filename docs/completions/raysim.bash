# Completions of raysim for bash: source this file. Made by tools/manual.py from the program's help.
_raysim() {
    local word=${COMP_WORDS[COMP_CWORD]} before=${COMP_WORDS[COMP_CWORD - 1]} words files=1
    if [ "$COMP_CWORD" -eq 1 ]; then
        COMPREPLY=($(compgen -W 'check serial sim run log why faults migrate explain export state help --help --version' -- "$word"))
        return
    fi
    case $before in
        --history|--lineage|--page|--plan|--timeline) mapfile -t COMPREPLY < <(compgen -f -- "$word"); return ;;
        --out) mapfile -t COMPREPLY < <(compgen -d -- "$word"); return ;;
        --of)
            compopt -o nospace
            before=${word%"${word##*,}"}
            COMPREPLY=($(compgen -P "$before" -W 'kill notice kill-node lose evict' -- "${word##*,}"))
            return
            ;;
        --to) COMPREPLY=($(compgen -W 'dask ray' -- "$word")); return ;;
        --at|--most|--nodes|--slots|--threads) return ;;
    esac
    case ${COMP_WORDS[1]} in
        check) words='--explain --help' ;;
        serial) words='--explain --help' ;;
        sim) words='--explain --nodes --slots --json --timeline --lineage --page --books --full --summary --so-far --help' ;;
        run) words='--explain --threads --nodes --slots --plan --history --json --timeline --lineage --page --full --summary --so-far --progress --stream --help' ;;
        log) words='--explain --nodes --slots --messages --full --page --help' ;;
        why) words='--explain --nodes --slots --full --help' ;;
        faults) words='--explain --nodes --slots --of --most --out --progress --help' ;;
        migrate) words='--explain --nodes --slots --help' ;;
        explain) words='--help' files= ;;
        export) words='--explain --to --help' ;;
        state) words='--explain --nodes --slots --at --help' ;;
        help) words='check serial sim run log why faults migrate explain export state' files= ;;
        *) return ;;
    esac
    case $word in
        -*) COMPREPLY=($(compgen -W "$words" -- "$word")) ;;
        *)
            if [ -n "$files" ]; then
                mapfile -t COMPREPLY < <(compgen -f -- "$word")
            elif [ "${COMP_WORDS[1]}" = help ]; then
                COMPREPLY=($(compgen -W "$words" -- "$word"))
            fi
            ;;
    esac
}
complete -o filenames -F _raysim raysim
