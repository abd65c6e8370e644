# Completion for bash of the words of p25 and of its helper scripts.

_p25() {
    local word=${COMP_WORDS[COMP_CWORD]} words=''
    if [ "$COMP_CWORD" -eq 1 ]; then
        words='show check repair follow calls soft stations fragments duplex build sample bridge relay'
    else
        case ${COMP_WORDS[1]}:$COMP_CWORD in
            build:2 | bridge:3 | relay:3) words='0 1 2 3' ;;
        esac
    fi
    mapfile -t COMPREPLY < <(compgen -W "$words" -- "$word")
}
complete -o default -F _p25 p25 ./p25

# Completes the options of a helper script, which are those that its help names before its first empty line.
_p25_companion() {
    local word=${COMP_WORDS[COMP_CWORD]} words
    # Files are the default.
    case $word:${COMP_WORDS[0]##*/} in
        -*) words="-h --help --version $("${COMP_WORDS[0]}" -h 2>/dev/null | sed '/^$/q' | grep -Eo -e '[[ ]--?[a-z-]+' | tr -d '[ ' | sort -u)" ;;
        *:p25-octets) words='dibits digits bits octets floats unpacked hex doubles shorts signed numbers' ;;
    esac
    mapfile -t COMPREPLY < <(compgen -W "$words" -- "$word")
}
complete -o default -F _p25_companion p25-octets p25-guess p25-rate p25-talkers p25-calls p25-watch p25-page p25-json p25-damage p25-flip p25-split p25-record
