#!/bin/sh
# Runs `summary` as a user does. The program is $1.
. "$(dirname "$(readlink -f "$0")")/common"
base=$root/examples/base.rtcm

# nothing BYTES LOOK: what a capture of so many zeros has, and what it looks like
nothing() {
    printf 'bytes %s\noutside-frames %s\nframes 0\nlooks-like %s\nnothing taken' "$1" "$1" "$2"
}

# gpsdecode shows a 1005 of 19 bytes of payload and a 1004 of 24
run summary "$base"; sed "s#BASE\$#$base#" "$root/tests/program/base.summary" >want
leaves summary_of_a_file 0 want /dev/null
: >empty
run summary empty; expect summary_of_nothing 0 "$(nothing 0 empty)" ''

# Standard input can't be read again, as `auto` does. A file may have the name, and goes by another one.
for name in stdin ./stdin; do
    cp "$base" stdin
    sed "s#BASE\$#$name#" "$root/tests/program/base.summary" >want
    [ "$name" = ./stdin ] || sed -i '/^ auto /d' want
    "$program" summary "$name" <"$base" >out 2>err; status=$?
    # refuses: a summary of standard input that names a command which can't read it
    leaves "summary_of_$name" 0 want /dev/null
done

# The command that it names, with what the capture doesn't tell put in, and the time and the marker of the example.
"$program" summary "$base" | sed -n 's/^ next rtcm2rinex //p' |
    sed 's/GPS-TIME-WITHIN-HALF-A-WEEK/2024-05-17T12:00:00/; s/"$(date -u +%FT%T)"/2024-05-17T13:00:00/; s/--marker 2003/--marker BASE/' >next
run $(cat next)
same the_next_command out "$root/examples/base.rnx"

# Of a capture that tells its date the command is pasted as it stands: the file has another time of making than the example, and
# another marker.
mkdir bin && ln -s "$program" bin/rtcm2rinex
"$program" summary "$root/examples/dated.rtcm" | sed -n 's/^ next //p' >said
(PATH=$work/bin:$PATH && . ./said) 2>err | sed '/PGM \/ RUN BY/d; /MARKER NAME/d' >out
sed '/PGM \/ RUN BY/d; /MARKER NAME/d' "$root/examples/session.rnx" >want
same the_next_command_of_a_capture_with_a_date out want

# 100,000,000 bytes take no more memory than none.
(ulimit -v 60000; head -c 100000000 /dev/zero | "$program" summary stdin) >out 2>err; status=$?
expect summary_of_a_long_input 0 "$(nothing 100000000 unknown)" ''

# More bytes than 32 bits count, in a file without blocks.
truncate -s 4294967297 zeros
# pins: number_line
# refuses: a lesser number at which all counts of a summary stay
run summary zeros; expect summary_of_a_longer_input 0 "$(nothing 4294967297 unknown)" ''

# Of station 278 the 1033 of BNDM, of 633 the 1007 of STFU7; of 700 the antenna A with setup 1, then B with 2, then bytes that
# are no characters with 2 and no serial number, and a 1033 that is cut short.
python3 -B - "$root" <<'MADE' >equipped
import sys

sys.path.insert(0, f"{sys.argv[1]}/tests/model")
from wire import frame_of  # noqa: E402

ROWS = """3EF2790000 3F02BC0141010139 3F02BC0142020138
4091160E4750504E554C4C414E54454E4E410000124C4549434120475258313230302B474E535304392E323006343936373130
3F02BC06207E7F0AFF5C0200 4092BC0143020001440145""".split()
sys.stdout.buffer.write(b"".join(frame_of(bytes.fromhex(it)) for it in ROWS))
MADE
cat >want <<'WANT'
bytes 131
outside-frames 0
frames 6
station 278
 time-of-week -
 changes-of-time 0
 antenna-type GPPNULLANTENNA
 antenna-setup 0
 receiver-type LEICA GRX1200+GNSS
 receiver-version 9.20
 receiver-serial 496710
 satellites -
 codes -
station 633
 time-of-week -
 changes-of-time 0
 antenna-setup 0
 satellites -
 codes -
station 700
 time-of-week -
 changes-of-time 0
 antenna-type  ~\x7F\x0A\xFF\
 changes-of-antenna-type 2
 changes-of-antenna-serial 2
 antenna-setup 2
 changes-of-antenna-setup 1
 satellites -
 codes -
other 1007 1
other 1008 3
other 1033 2
nothing taken
WANT
# pins: hex_digit, shown_byte, text_line, text_lines, setup_line, setup_lines, antenna_lines, receiver_lines, equipment_lines, told_lines
run summary equipped; leaves summary_of_equipment 0 want /dev/null

ends
