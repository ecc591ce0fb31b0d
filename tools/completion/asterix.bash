# Completion of the words of asterix and asterix-why. Made by tools/completion/make from tools/commands.
_asterix() {
    local word=${COMP_WORDS[COMP_CWORD]} at=$((COMP_CWORD - 2)) shape=() what
    COMPREPLY=()
    if [ "$COMP_CWORD" = 1 ]; then
        mapfile -t COMPREPLY < <(compgen -W 'check canon show text build filter migrate trial salvage expand convert --help --version' -- "$word")
        return
    fi
    case ${COMP_WORDS[1]} in
        check) shape=(SPEC) ;;
        canon) shape=(SPEC...) ;;
        show) shape=(SPEC...) ;;
        text) shape=(SPEC...) ;;
        build) shape=(SPEC...) ;;
        filter) shape=(EXPR SPEC...) ;;
        migrate) shape=(OLD NEW) ;;
        trial) shape=(SPEC SEED COUNT) ;;
        salvage) shape=(SPEC...) ;;
        expand) shape=(SPEC EXPANSION) ;;
        convert) shape=(OLD NEW) ;;
    esac
    what=${shape[at]-}
    # What ends with three dots may come any number of times.
    [ -n "$what" ] || [ "${#shape[@]}" = 0 ] || case ${shape[-1]} in *...) what=${shape[-1]} ;; esac
    case $what in
        SPEC* | OLD | NEW | EXPANSION)
            compopt -o filenames 2> /dev/null
            mapfile -t COMPREPLY < <(compgen -f -- "$word")
            ;;
    esac
}
complete -F _asterix asterix asterix-why
