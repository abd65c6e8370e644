#compdef p25 p25-octets p25-guess p25-rate p25-talkers p25-calls p25-json p25-damage p25-flip p25-split p25-record p25-watch p25-page
# Completion for zsh of the words of p25 and of its helper scripts, as _p25 in a folder of $fpath.

_p25() {
    local -a found
    if [[ ${words[1]:t} == p25 ]]; then
        if ((CURRENT == 2)); then
            found=(show check repair follow calls soft stations fragments duplex build sample bridge relay)
        elif [[ ${words[2]}:$CURRENT == (build:3|bridge:4|relay:4) ]]; then
            found=(0 1 2 3)
        fi
    else
        # As in completion.bash.
        [[ ${words[CURRENT]} == -* ]] && found=(-h --help --version ${(f)"$(${words[1]} -h 2>/dev/null | sed '/^$/q' | grep -Eo -e '[[ ]--?[a-z-]+' | tr -d '[ ' | sort -u)"})
        [[ ${words[1]:t} == p25-octets ]] && found+=(dibits digits bits octets floats unpacked hex doubles shorts signed numbers)
    fi
    compadd -- $found
    [[ ${words[CURRENT]} == -* || ${words[1]:t} == p25 ]] || _files
}

_p25 "$@"
