# Completion of the options of the programs beside asterix. Made by tools/completion/make from tools/options.
_asterix_companions() {
    local word=${COMP_WORDS[COMP_CWORD]} before=${COMP_WORDS[COMP_CWORD - 1]} program=${COMP_WORDS[0]##*/} options=
    COMPREPLY=()
    [ "$program" != asterix-net ] || program="$program ${COMP_WORDS[1]-}"
    case $before in
        --interface)
            mapfile -t COMPREPLY < <(compgen -W "$(cd /sys/class/net && echo *)" -- "$word")
            return
            ;;
        --times|-o)
            compopt -o filenames 2> /dev/null
            mapfile -t COMPREPLY < <(compgen -f -- "$word")
            return
            ;;
        --source|--filter|-f|--ttl|--jobs|-n|--octets|--buffer|--mtu|--path|--speed) return ;;
    esac
    case $program in
        'asterix-pcap') options='-f --filter --times --as-is --no-checksums --help' ;;
        'asterix-net receive') options='--interface --source --buffer --times --help' ;;
        'asterix-net send') options='--mtu --ttl --interface --no-loop --help' ;;
        'asterix-replay') options='-f --filter --speed --no-checksums --ttl --interface --no-loop --help' ;;
        'asterix-cut') options='-n --octets --list --force --help' ;;
        'asterix-json') options='--exact --flat --jobs --schema --help' ;;
        'asterix-table') options='--path --numbers --force -o --help' ;;
    esac
    if [ "${COMP_WORDS[0]##*/}" = asterix-net ] && [ "$COMP_CWORD" = 1 ]; then
        mapfile -t COMPREPLY < <(compgen -W 'receive send --help' -- "$word")
    elif [[ $word == -* ]]; then
        mapfile -t COMPREPLY < <(compgen -W "$options" -- "$word")
    elif [ "${program%% *}" != asterix-net ]; then
        compopt -o filenames 2> /dev/null
        mapfile -t COMPREPLY < <(compgen -f -- "$word")
    fi
}
complete -F _asterix_companions asterix-pcap asterix-net asterix-replay asterix-cut asterix-json asterix-table
