#!/bin/sh
# Runs each command at a terminal, with any variable in the environment or none, and with standard input closed if it isn't
# read. It does what it does at a pipe. The program is $1.
. "$(dirname "$(readlink -f "$0")")/common"

# as_at_a_pipe NAME COMMAND..: the command, with $words
as_at_a_pipe() {
    name=$1
    shift
    "$@" "$program" $words >got 2>got_err <typed; answer=$?
    if [ $answer -eq $status ] && cmp -s got out && cmp -s got_err err; then
        right "$name"
    else
        wrong "$name" "status $answer, '$(head -c 300 got got_err)'"
    fi
}
# at_terminal STREAMS: whether it is the same if these streams are a terminal. Each line ends there with CR LF.
at_terminal() {
    : >lines_shown
    cp out out_due; cp err err_due
    case $1 in *1*) cat out >>lines_shown; : >out_due ;; esac
    case $1 in *2*) cat err >>lines_shown; : >err_due ;; esac
    sed 's/$/\r/' lines_shown >want
    python3 "$root/tests/program/terminal.py" "$1" typed "$program" $words >got 2>got_err 3>shown <typed; answer=$?
    [ $answer -eq $status ] && cmp -s got out_due && cmp -s got_err err_due && cmp -s shown want
}
closed() { "$@" <&-; }
# With two epochs open one message of late.rtcm is late, and with more none.
cp "$root"/examples/*.r* .
sed '16s/45.000/45.100/' base.rnx >wrong.rnx
options='--station 2003 --near 2024-05-17T12:00:00 --made 2024-05-17T13:00:00 --marker BASE'
cp "$root/examples/arp1005.hex" typed
: >empty
while read -r words <&3; do
    "$program" $words >out 2>err <typed; status=$?
    others=
    for streams in 012 01 02 12 0 1 2; do
        at_terminal $streams || others="$others streams $streams: status $answer, '$(head -c 100 shown got got_err)'"
    done
    # refuses: another answer at a terminal, also if something is typed at it
    if [ -z "$others" ]; then right "at_a_terminal $words"; else wrong "at_a_terminal $words" "$others"; fi
    # refuses: a file that is not opened since standard input is closed
    case $words in *stdin) ;; *) as_at_a_pipe "with_standard_input_closed $words" closed ;; esac
    as_at_a_pipe "without_an_environment $words" env -i
    # refuses: a variable of the environment that counts
    as_at_a_pipe "with_many_variables $words" env RTCM2RINEX='--window 2' RTCM2RINEX_OPTIONS=--window=2 RTCM2RINEX_OPTS=--window=2 \
        RTCM2RINEX_ARGS=--window=2 RTCM2RINEX_FLAGS=--text RTCM2RINEX_WINDOW=2 RTCM2RINEX_STATION=2003 RTCM2RINEX_CODES=5X \
        RTCM2RINEX_NEAR=2024-05-17T12:00:00 RTCM2RINEX_MADE=2024-05-17T14:00:00 RTCM2RINEX_MARKER=OTHER RTCM2RINEX_HEX=1 \
        RTCM2RINEX_TEXT=1 RTCM2RINEX_COLUMNS=40 RTCM2RINEX_EVERY=60 RTCM2RINEX_FROM=2024-05-17T12:00:30 RTCM2RINEX_FILE=empty \
        RTCM2RINEX_LINK=empty RTCM2RINEX_COMMAND=check RTCM2RINEX_LOG=trace RTCM2RINEX_CONFIG=empty RTCM2RINEX_DEBUG=1 \
        RTCM2RINEX_QUIET=1 RTCM2RINEX_HOME=/ COLUMNS=40 LINES=2 TERM=xterm-256color NO_COLOR=1 CLICOLOR_FORCE=1 LANG=de_DE.UTF-8 \
        LC_ALL=tr_TR.UTF-8 TZ=Asia/Tokyo HOME=/nowhere PATH=/nowhere TMPDIR=/nowhere RUST_BACKTRACE=full RUST_LOG=trace \
        POSIXLY_CORRECT=1
done 3<<WORDS
show base.rtcm
show --hex base.rtcm
show nowhere
show

--help
--version
check base.rnx
check wrong.rnx
summary late.rtcm
chart --text marks.rnx
chart marks.rnx
chart wrong.rnx
cut --every 30 slip.rnx
cut slip.rnx
compare slip.rnx slip_30s.rnx
compare --json slip.rnx slip_30s.rnx
compare slip.rnx wrong.rnx
compare slip.rnx
convert $options --codes 1C,2W late.rtcm
convert $options --codes 1C,2W --window 2 late.rtcm
convert $options late.rtcm
convert --codes 1C late.rtcm
show --hex stdin
show stdin
check stdin
summary stdin
chart stdin
cut --every 30 stdin
compare base.rnx stdin
convert $options --codes 1C,2W stdin
WORDS

ends
