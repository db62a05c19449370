# Completion of capt for bash: source it, or install it as /usr/share/bash-completion/completions/capt.
_capt() {
    local word=${COMP_WORDS[COMP_CWORD]} before=${COMP_WORDS[COMP_CWORD - 1]} options
    local commands='report info list blocks diff digest check convert merge join'
    if [ "$COMP_CWORD" = 1 ]; then
        mapfile -t COMPREPLY < <(compgen -W "$commands help --help --version" -- "$word")
        return
    fi
    # bash splits `--order=b` at the sign
    if [ "$word" = '=' ]; then
        word=
    elif [ "$before" = '=' ]; then
        before=${COMP_WORDS[COMP_CWORD - 2]}
    fi
    case $before in
        --order) mapfile -t COMPREPLY < <(compgen -W 'big little' -- "$word"); return ;;
        --data | --top) COMPREPLY=(); return ;;
        --time) mapfile -t COMPREPLY < <(compgen -W 'exact decimal utc' -- "$word"); return ;;
        --ignore) mapfile -t COMPREPLY < <(compgen -W 'time link original' -- "$word"); return ;;
        --to) mapfile -t COMPREPLY < <(compgen -W 'pcap pcapng' -- "$word"); return ;;
        --unit) mapfile -t COMPREPLY < <(compgen -W 'micro nano' -- "$word"); return ;;
    esac
    case ${COMP_WORDS[1]} in
        help) mapfile -t COMPREPLY < <(compgen -W "$commands" -- "$word"); return ;;
        convert | join) options='--allow-cut --explain --order --output --to --unit --whole -o --help' ;;
        merge) options='--allow-cut --explain --order --output --to --unit --whole --share-interfaces -o --help' ;;
        list) options='--allow-cut --explain --class --ipv6 --json --data --time --help' ;;
        diff) options='--allow-cut --explain --ignore --json --data --time --help' ;;
        digest) options='--allow-cut --explain --json --names --files0-from --verify --help' ;;
        check) options='--allow-cut --explain --digest --json --names --files0-from --time --help' ;;
        report) options='--allow-cut --explain --ipv6 --json --time --top --skip-refused --help' ;;
        info) options='--allow-cut --explain --json --time --skip-refused --help' ;;
        *) options='--allow-cut --explain --json --help' ;;
    esac
    if [[ $word == -* ]]; then
        mapfile -t COMPREPLY < <(compgen -W "$options" -- "$word")
    else
        mapfile -t COMPREPLY < <(compgen -f -- "$word")
    fi
}
complete -o filenames -F _capt capt
