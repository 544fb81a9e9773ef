# What bash completes after rtcm2rinex-network: its commands, their options as the first lines of their helps name them, the stations of
# the table, and files.
_rtcm2rinex_network() {
    local word=${COMP_WORDS[COMP_CWORD]} before=${COMP_WORDS[COMP_CWORD - 1]} command=${COMP_WORDS[1]-} option='' words
    COMPREPLY=()
    if ((COMP_CWORD == 1)); then
        words="$("${COMP_WORDS[0]}" --help 2>/dev/null | sed -n 's/^  //p') --help"
        mapfile -t COMPREPLY < <(compgen -W "$words" -- "$word")
        return
    fi
    words="$("${COMP_WORDS[0]}" "$command" --help 2>/dev/null | grep "^ *network/$command " | grep -oE -- '--[a-z]+(=[0-9A-Z]+)?') --help"
    # The sign = is a word of its own to bash.
    if [[ $word == = ]]; then option=$before word=''; elif [[ $before == = ]]; then option=${COMP_WORDS[COMP_CWORD - 2]}; fi
    if [[ -n $option ]]; then
        words=$(grep -oE -- "$option=[0-9A-Z]+" <<<"$words" | cut -d = -f 2)
    elif [[ $word != -* ]]; then
        words=$("${COMP_WORDS[0]}" table --rows 2>/dev/null | cut -f 1)
        mapfile -t COMPREPLY < <(compgen -W "$words" -- "$word"; compgen -f -- "$word")
        # Outside of a completion, as in a test, the shell has no such option.
        compopt -o filenames 2>/dev/null
        return 0
    fi
    mapfile -t COMPREPLY < <(compgen -W "$words" -- "$word")
}

complete -F _rtcm2rinex_network rtcm2rinex-network
