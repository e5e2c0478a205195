# Completion of orc for bash: source this file.
_orc() {
    local word=${COMP_WORDS[COMP_CWORD]} before=${COMP_WORDS[COMP_CWORD-1]}
    COMPREPLY=()
    if [ "$COMP_CWORD" = 1 ]; then
        mapfile -t COMPREPLY < <(compgen -W 'run outcomes check draw print test help --help --version -h -V' -- "$word")
        return
    fi
    case $before in
    --workers | --order | --orders | --states | --show | --ways | --limit | --fail | --width) return ;;
    --theme) mapfile -t COMPREPLY < <(compgen -W 'auto light dark' -- "$word"); return ;;
    --script | --claims) compopt -o filenames 2>/dev/null; mapfile -t COMPREPLY < <(compgen -f -- "$word"); return ;;
    esac
    local options=
    case ${COMP_WORDS[1]} in
    run) options='--script --workers --order --unordered --limit --times --journal --explain --help -h' ;;
    outcomes) options='--script --workers --orders --limit --all --states --show --explain --help -h' ;;
    check) options='--script --claims --explain --help -h' ;;
    draw) options='--script --order --limit --text --width --all --theme --explain --help -h' ;;
    print) options='--explain --help -h' ;;
    test) options='--script --ways --orders --states --workers --limit --fail --journal --explain --help -h' ;;
    help) mapfile -t COMPREPLY < <(compgen -W 'run outcomes check draw print test' -- "$word"); return ;;
    esac
    case $word in
    -*) mapfile -t COMPREPLY < <(compgen -W "$options" -- "$word") ;;
    *) compopt -o filenames 2>/dev/null; mapfile -t COMPREPLY < <(compgen -f -- "$word") ;;
    esac
}
complete -F _orc orc
