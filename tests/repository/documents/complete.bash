# complete.bash SCRIPT WORD..: what the completion of the script gives for the last word, a line each.
. "$1" || exit 1
shift
COMP_WORDS=("$@")
COMP_CWORD=$(($# - 1))
_rtcm2rinex
[ ${#COMPREPLY[@]} -eq 0 ] || printf '%s\n' "${COMPREPLY[@]}"
