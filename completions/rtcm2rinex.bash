# What bash completes after rtcm2rinex. Made by bin/completions from the help of the program.

# The names of files that begin with the word, and these names beside them.
_rtcm2rinex_files() {
    mapfile -t COMPREPLY < <(compgen -f -- "$1"; compgen -W "$2" -- "$1")
    # Outside of a completion, as in a test, the shell has no such option.
    compopt -o filenames 2>/dev/null
    return 0
}

_rtcm2rinex() {
    local word=${COMP_WORDS[COMP_CWORD]} before=${COMP_WORDS[COMP_CWORD - 1]}
    local command='' options='' values='' files='' arguments='' left='' i option
    COMPREPLY=()
    for ((i = 1; i < COMP_CWORD; i++)); do
        if [[ ${COMP_WORDS[i]} != -* ]]; then
            command=${COMP_WORDS[i]}
            break
        fi
    done
    case $command in
        '')
            options='auto convert show check summary chart quality cut label compare help -h --help -V --version'
            ;;
        auto)
            options='-o --output -f --force --label --marker --near --made --station --codes --msm --window --systems --channels --leap-seconds --skip-empty --links-as-given --report --doppler -h --help'
            values='--marker --near --made --station --codes --msm --window --systems --channels --leap-seconds'
            files='-o --output'
            arguments='files'
            ;;
        convert)
            options='--station --near --made --marker --codes --window --msm --channels --leap-seconds --with-1012 --doppler -h --help'
            values='--station --near --made --marker --codes --window --msm --channels --leap-seconds'
            arguments='files stdin'
            ;;
        show)
            options='--hex --msm -h --help'
            values='--msm'
            arguments='files stdin'
            ;;
        check)
            options='-h --help'
            arguments='files stdin'
            ;;
        summary)
            options='-h --help'
            arguments='files stdin'
            ;;
        chart)
            options='--text --columns --systems --satellites -h --help'
            values='--columns --systems --satellites'
            arguments='files stdin'
            ;;
        quality)
            options='--lines --json -h --help'
            arguments='files stdin'
            ;;
        cut)
            options='--from --until --every --systems -h --help'
            values='--from --until --every --systems'
            arguments='files stdin'
            ;;
        label)
            options='--run-by --marker-number --observer --agency --receiver-number --receiver-type --receiver-version --antenna-number --antenna-type --delta-height --delta-east --delta-north --interval --last --blank -h --help'
            values='--run-by --marker-number --observer --agency --receiver-number --receiver-type --receiver-version --antenna-number --antenna-type --delta-height --delta-east --delta-north'
            arguments='files stdin'
            ;;
        compare)
            options='--labels --json -h --help'
            arguments='files stdin'
            ;;
        help)
            options=''
            arguments='auto convert show check summary chart quality cut label compare'
            ;;
        *) return ;;
    esac
    # The shell takes `--option=value` for three words.
    [[ $before != = ]] || before=${COMP_WORDS[COMP_CWORD - 2]}
    if [[ " ${COMP_WORDS[*]:0:COMP_CWORD} " == *' -- '* || " $files " == *" $before "* ]]; then
        _rtcm2rinex_files "$word" ''
    elif [[ $word == = || " $values " == *" $before "* ]]; then
        return
    elif [[ $word == -* || -z $command ]]; then
        for option in $options; do
            # An option stands once.
            [[ " ${COMP_WORDS[*]:1:COMP_CWORD-1} " == *" $option "* ]] || left+=" $option"
        done
        mapfile -t COMPREPLY < <(compgen -W "$left" -- "$word")
    elif [[ $arguments == files* ]]; then
        _rtcm2rinex_files "$word" "${arguments#files}"
    elif [[ -n $arguments ]]; then
        mapfile -t COMPREPLY < <(compgen -W "$arguments" -- "$word")
    fi
}

complete -F _rtcm2rinex rtcm2rinex
