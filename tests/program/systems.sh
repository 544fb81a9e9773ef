#!/bin/sh
# Runs `convert` and `auto` with all systems as a user does. The program is $1. The payloads and their values were worked out by
# hand from the tables of RTCM 10403.3. Captures of many epochs are made and described by systems_captures.py.
. "$(dirname "$(readlink -f "$0")")/converting"

# bad_words NAME LINE [MORE]: nothing is out, and standard error has this fault line, and one line more
bad_words() {
    expect "$1" 2 '' "rtcm2rinex: $2${3:+
$3}"
}

# ---- the names of codes

codes_of_G='codes of G: 1C 1P 1W 1S 1L 1X 2C 2D 2P 2W 2S 2L 2X 5I 5Q 5X'
codes_of_R='codes of R: 1C 1P 2C 2P'
codes_of_E='codes of E: 1C 1B 1X 6C 6B 6X 7I 7Q 7X 8I 8Q 8X 5I 5Q 5X'
codes_of_C='codes of C: 2I 2Q 2X 6I 6Q 6X 7I 7Q 7X 5D 5P 5X 7D 1D 1P 1X'
codes_of_J='codes of J: 1C 6S 6L 6X 2S 2L 2X 5I 5Q 5X 1S 1L 1X'
codes_of_S='codes of S: 1C 5I 5Q 5X'
codes_of_I='codes of I: 5A'
# A name of three characters with the letter of a system, which is no code of it.
for name in G9Z R5C E1A E1Z E6A E6Z C1C J1E S2C I1C G5A R2X; do
    convert $name a
    eval "more=\$codes_of_${name%??}"
    # pins: codes_line, IsCauseOfName, code_word
    bad_words "code_$name" 'bad --codes' "$more"
done
# A code of GPS has no letter.
for code in ${codes_of_G#*: }; do
    convert G$code a
    # pins: short_code_line, IsCauseOfName
    bad_words "code_G$code" 'bad --codes' "GPS codes have two characters: $code"
done
# Other names have no second line.
for name in e1X X1C E1 E1XX 1CC ' E1X' 'E1X ' 'E1X,' ',E1X' E1X,,E1B 'E1X;E1B' E 9Z,E1A 1C,1,G1C E1C,r1C; do
    convert "$name" a
    # pins: ListsCodes
    bad_words "codes_$name" 'bad --codes'
done
# The first bad name counts.
# pins: IsNameCause
convert 1C,E1A,R9Z a;   bad_words first_of_two_names 'bad --codes' "$codes_of_E"
convert E1C,G1C,9Z a;   bad_words first_of_two_other_names 'bad --codes' 'GPS codes have two characters: 1C'
# pins: IsHeadCause
convert 1C,E1C,1C a;    bad_words code_of_gps_twice 'bad --codes'
convert E1C,1C,E1C a;   bad_words code_of_galileo_twice 'bad --codes'
convert R1C,R1C a;      bad_words code_of_glonass_twice 'bad --codes'
# All codes of all systems are a good list, in any order.
all=$(for letter in I S J C E R G; do
    eval "codes=\$codes_of_$letter"
    for code in ${codes#*: }; do echo "$letter$code"; done
done | sed 's/^G//' | paste -sd,)
convert "$all" --channels none nowhere; expect all_codes 1 '' 'rtcm2rinex: cannot open nowhere'
convert "$all,1C" --channels none nowhere; bad_words all_codes_and_one_twice 'bad --codes'

# ---- the channels

for channels in '' NONE none, nones 1 1: :1 0:1 28:1 1:7 1:-8 1:-0 1:+1 01:1 1:01 1:1, ,1:1 1:1,,2:2 1:1,1:1 1:1,2:2,1:2 \
    '1:1;2:2' '1:1 ' ' 1:1' '1: 1' R01:1 1:1:1 1::1 1-1 -1:1 none,1:1 1:10 100:1 1:--1 1:-1- 1.5:1; do
    convert R1C "--channels=$channels" a
    # pins: WritesChannels, HasNoChannels, ListsSlots, slot_parts, slot_word, channel_word
    bad_words "channels_$channels" 'bad --channels'
done
every=$(for slot in $(seq 27); do echo "$slot:$((slot % 14 - 7))"; done | paste -sd,)
for channels in none 27:-7 1:6 9:0 10:-1,9:-1 "$every"; do
    convert R1C --channels $channels nowhere
    # pins: WritesSlots, is_none_word
    expect "good_channels_$channels" 1 '' 'rtcm2rinex: cannot open nowhere'
done
convert R1C nowhere;                   bad_words no_channels 'R codes need --channels'
convert 1C,E1C,R2P nowhere;            bad_words no_channels_among_other_codes 'R codes need --channels'
convert 1C,E1C --channels 1:1 nowhere; bad_words channels_without_codes 'bad --channels'
convert 1C --channels none nowhere;    bad_words no_channels_without_codes 'bad --channels'
convert 1C,E1C --with-1012 nowhere;    bad_words obs1012_without_codes '--with-1012 needs R codes'
convert R1C --channels none --with-1012 nowhere
expect obs1012_with_codes 1 '' 'rtcm2rinex: cannot open nowhere'

# ---- which cause comes first

# words NEAR MARKER CODES WORD..
words() {
    near_=$1 marker_=$2 codes_=$3
    shift 3
    run convert --station 1 --near "$near_" --made $made --marker "$marker_" --codes "$codes_" "$@"
}
early=1980-01-06T00:00:00
words noon ' X' E1A --channels x stdin stdin;     bad_words times_before_names 'bad --near'
words $early ' X' E1A --channels x stdin stdin;   bad_words names_before_the_marker 'bad --codes' "$codes_of_E"
words $early ' X' R1C,R1C --channels x stdin stdin; bad_words the_marker_before_the_list 'bad --marker'
words $early X R1C,R1C --channels x stdin stdin;  bad_words the_list_before_channels 'bad --codes'
words $early X R1C,R1C stdin stdin;               bad_words the_list_before_missing_channels 'bad --codes'
words $early X R1C --channels x stdin stdin;      bad_words channels_before_links 'bad --channels'
words $early X R1C stdin stdin;                   bad_words missing_channels_before_links 'R codes need --channels'
words $early X R1C --with-1012 stdin stdin;       bad_words missing_channels_before_1012 'R codes need --channels'
words $early X 1C --channels none --with-1012 a;  bad_words channels_before_1012 'bad --channels'
words $early X 1C --with-1012 stdin stdin;        bad_words obs1012_before_links '--with-1012 needs R codes'
words $early X R1C --channels none stdin stdin;   bad_words links_before_the_reference 'bad links'
# pins: IsFirstCause
words $early X R1C --channels none nowhere;       bad_words the_reference_last 'bad --near'

# ---- the kinds, and the leap seconds

# bad_value NAME OPTION VALUE WHY
bad_value() {
    run convert "$2=$3" a
    expect "$1" 2 '' "$(error "invalid value '$3' for '$2 <N>': $4")"
}
for kinds in 7,E8 7,E3 7,E4,E5 7,E4,C4,E4 E4 7, 7,,E4 7,X4 7,e4 7,E ,E4 7E4 7,E4, '7, E4' '7,E4 ' 7,E44 7,4E 7,E4,5; do
    # pins: WritesKinds, exception_word, has_letters_once
    bad_value "kinds_$kinds" --msm "$kinds" 'invalid digit found in string'
done
bad_value kinds_of_two_digits --msm 74 '74 is not in 4..=7'
bad_value leap_seconds_of_100 --leap-seconds 100 '100 is not in 0..=99'
bad_value leap_seconds_of_no_digits --leap-seconds x 'invalid digit found in string'
for kinds in 7 007 +7 7,E4 4,G7,R6,E5,C4,J7,S6,I5; do
    convert 1C --msm $kinds --leap-seconds 0 nowhere
    expect "good_kinds_$kinds" 1 '' 'rtcm2rinex: cannot open nowhere'
done
# A link may have the name of a good list; it makes no other list good.
convert 1C 7,E4;             expect link_of_the_name_of_kinds 1 '' 'rtcm2rinex: cannot open 7,E4'
convert 1C --msm 8 7,E4;     [ "$status" -eq 2 ] && right no_kind_beside_such_a_link || wrong no_kind_beside_such_a_link "status $status"

# ---- files

# The payloads, each of one cell at noon.
G05_5X=435001714BE8000000040000000000000000000080518200FB53FB500023285E05920190
R10_2P=43F001ACDECCC00000002000000000000000400000508BE9FB538ACFCB71B01FF4B00190
E36_7Q=446001714BE80000000000000008000000000100005580015B40D579E310
E11_8X=449001714BE800000000100000000000000000080054C309FB502BF27F1AEE52C5A40190
C41_1P=467001714B0D400000000000000040000000000001534122FB5060734F4240E8057A0190
J01_1X=45D001714BE8000000400000000000000000000000DE8243FB5077C581CD5528A5DA0190
S58_5I=453001714BE80000000000000001000000000002006083FFFB5200006000006C00020190
I14_5A=471001714BE800000000020000000000000000020052C12CFB5000FA0001F40145000190
seven="$G05_5X $R10_2P $E11_8X $C41_1P $J01_1X $S58_5I $I14_5A"

# begins LETTER: the lines up to the antenna's height
begins() {
    lines <<LINES
     3.05           OBSERVATION DATA    $1|RINEX VERSION / TYPE
rtcm2rinex                              20240517 130000 UTC|PGM / RUN BY / DATE
BASE|MARKER NAME
GEODETIC|MARKER TYPE
|OBSERVER / AGENCY
|REC # / TYPE / VERS
|ANT # / TYPE
        0.0000        0.0000        0.0000|APPROX POSITION XYZ
        0.0000        0.0000        0.0000|ANTENNA: DELTA H/E/N
LINES
}
# glonass SLOTS LEAP_SECONDS: the lines of GLONASS and the end
glonass() {
    lines <<LINES
$1|GLONASS SLOT / FRQ #
|GLONASS COD/PHS/BIS
$2|LEAP SECONDS
|END OF HEADER
LINES
}

{
    begins M
    lines <<LINES
G    3 C5X L5X S5X|SYS / # / OBS TYPES
R    3 C2P L2P S2P|SYS / # / OBS TYPES
E    3 C8X L8X S8X|SYS / # / OBS TYPES
C    3 C1P L1P S1P|SYS / # / OBS TYPES
J    3 C1X L1X S1X|SYS / # / OBS TYPES
S    3 C5I L5I S5I|SYS / # / OBS TYPES
I    3 C5A L5A S5A|SYS / # / OBS TYPES
DBHZ|SIGNAL STRENGTH UNIT
  2024     5    17    12     0    0.0000000     GPS|TIME OF FIRST OBS
G|SYS / PHASE SHIFT
R|SYS / PHASE SHIFT
E|SYS / PHASE SHIFT
C|SYS / PHASE SHIFT
J|SYS / PHASE SHIFT
S|SYS / PHASE SHIFT
I|SYS / PHASE SHIFT
LINES
    glonass '  1 R10 -5' '    18'
    cat <<RECORD
> 2024 05 17 12 00  0.0000000  0  7
G05  21135365.609 7  82939744.722 7        44.500
R10  20079294.057 6  83309237.891 6        37.500
E11  25110278.381 7  99823175.832 7        45.250
C41  23168976.578 7 121756438.318 7        43.750
J01  36744259.918 7 193092375.800 7        46.750
S58  39272226.466 1 154109205.616 1         0.250
I14  22572264.730 6  88578414.182 6        40.000
RECORD
} >seven.rnx
{ printf 'other-channel -\nno-channel -\n'; report 7 0 0 0 7 0 0 0 1; } >seven.report
python3 "$here/framed.py" $seven >seven.rtcm
python3 "$here/framed.py" $I14_5A $E11_8X $R10_2P $G05_5X $S58_5I $C41_1P $J01_1X >turned.rtcm
# pins: in_file_order, code_word, SaysSetup
convert 5X,R2P,E8X,C1P,J1X,S5I,I5A --msm 7 --channels 10:-5 seven.rtcm;  leaves seven_systems 0 seven.rnx seven.report
convert 5X,R2P,E8X,C1P,J1X,S5I,I5A --msm 7 --channels 10:-5 turned.rtcm; leaves seven_systems_in_another_order 0 seven.rnx seven.report
# refuses: systems that stand in the order of the words
convert I5A,S5I,J1X,C1P,E8X,R2P,5X --msm 7 --channels 10:-5 seven.rtcm;  leaves codes_in_another_order 0 seven.rnx seven.report
cp out written.rnx; run check written.rnx; expect check_of_seven_systems 0 'valid: 1 epochs, 7 satellite lines' ''
{ printf 'other-channel -\nno-channel -\n'; report 14 0 0 0 7 7 0 0 1; } >twice.report
convert 5X,R2P,E8X,C1P,J1X,S5I,I5A --msm 7 --channels 10:-5 seven.rtcm turned.rtcm; leaves seven_systems_over_two_links 0 seven.rnx twice.report

# Kinds of systems: 1077 beside 1094.
{
    begins M
    lines <<LINES
G    3 C5X L5X S5X|SYS / # / OBS TYPES
E    3 C7Q L7Q S7Q|SYS / # / OBS TYPES
DBHZ|SIGNAL STRENGTH UNIT
  2024     5    17    12     0    0.0000000     GPS|TIME OF FIRST OBS
G|SYS / PHASE SHIFT
E|SYS / PHASE SHIFT
|END OF HEADER
LINES
} >kinds_header
{
    cat kinds_header
    cat <<RECORD
> 2024 05 17 12 00  0.0000000  0  2
G05  21135365.609 7  82939744.722 7        44.500
E36  25782201.028 8 103814285.756 8        49.000
RECORD
} >kinds.rnx
report 2 0 0 0 2 0 0 0 1 >kinds.report
python3 "$here/framed.py" $G05_5X $E36_7Q >kinds.rtcm
convert E7Q,5X --msm 7,E4 kinds.rtcm;         leaves kinds_of_two_systems 0 kinds.rnx kinds.report
convert 5X,E7Q --msm=4,R5,G7 kinds.rtcm;      leaves kinds_of_three_systems 0 kinds.rnx kinds.report
{
    cat kinds_header
    cat <<RECORD
> 2024 05 17 12 00  0.0000000  0  1
G05  21135365.609 7  82939744.722 7        44.500
RECORD
} >gps.rnx
{ echo 'no-message E'; report 2 1 0 0 1 0 0 0 1; } >gps.report
# pins: WritesKinds
convert 5X,E7Q --msm 7 kinds.rtcm; leaves another_kind_is_left_out 0 gps.rnx gps.report

# GLONASS alone: its channels, and its leap seconds.
# of_glonass SLOTS LEAP_SECONDS TIME_OF_FIRST LINE..: a file of 2P
of_glonass() {
    begins R
    lines <<LINES
R    3 C2P L2P S2P|SYS / # / OBS TYPES
DBHZ|SIGNAL STRENGTH UNIT
$3     GPS|TIME OF FIRST OBS
R|SYS / PHASE SHIFT
LINES
    glonass "$1" "$2"
    shift 3
    printf '%s\n' "$@"
}
# channels_tell OTHER NO: a report of one message
channels_tell() {
    printf 'other-channel %s\nno-channel %s\n' "$1" "$2"
    report 1 0 0 0 1 0 0 0 1
}
noon='  2024     5    17    12     0    0.0000000'
at_noon='> 2024 05 17 12 00  0.0000000  0  1'
without_phase='R10  20079294.057 6                        37.500'
python3 "$here/framed.py" $R10_2P >glonass.rtcm
of_glonass '  1 R10 -5' '    18' "$noon" "$at_noon" 'R10  20079294.057 6  83309237.891 6        37.500' >want; channels_tell - - >told
convert R2P --msm 7 --channels 10:-5 glonass.rtcm;               leaves channel_of_the_message 0 want told
of_glonass '  1 R10 -7' '    18' "$noon" "$at_noon" "$without_phase" >want; channels_tell R10 - >told
# pins: AreChannelsOf
convert R2P --msm 7 --channels 10:-7 glonass.rtcm;               leaves another_channel 0 want told
of_glonass '  0' '    18' "$noon" "$at_noon" "$without_phase" >want; channels_tell - R10 >told
convert R2P --msm 7 --channels none glonass.rtcm;                leaves no_channels_at_all 0 want told
of_glonass '  1 R09 -6' '    18' "$noon" "$at_noon" "$without_phase" >want; channels_tell - R10 >told
convert R2P --msm 7 --channels 9:-6 glonass.rtcm;                leaves a_channel_of_another_slot 0 want told
of_glonass '  1 R10 -5' '    17' '  2024     5    17    11    59   59.0000000' '> 2024 05 17 11 59 59.0000000  0  1' \
    'R10  20079294.057 6  83309237.891 6        37.500' >want
channels_tell - - >told
# pins: with_given, IsLeapSecondsOf
convert R2P --msm 7 --channels 10:-5 --leap-seconds 17 glonass.rtcm; leaves leap_seconds_that_are_given 0 want told
# 1012 are converted with a word, and dated within half a day of --near.
python3 "$here/framed.py" 3F400124210600818318EAEE800097221CA7FACFF289C97E >obs1012.rtcm
# obs1012 NEAR WORD..: of station 1
obs1012() {
    near_=$1
    shift
    run convert --station 1 --near "$near_" --made $made --marker BASE --codes R1C,R2P --channels 12:-1 "$@" obs1012.rtcm
}
{
    begins R
    lines <<LINES
R    6 C1C L1C S1C C2P L2P S2P|SYS / # / OBS TYPES
DBHZ|SIGNAL STRENGTH UNIT
  2020     1    25     2    16    0.0000000     GPS|TIME OF FIRST OBS
R|SYS / PHASE SHIFT
LINES
    glonass '  1 R12 -1' '    18'
    cat <<RECORD
> 2020 01 25 02 16  0.0000000  0  1
R12  19916942.748 8 106392733.308 8        50.500    19916941.068 7  82749896.446 7        47.750
RECORD
} >want
channels_tell - - >told
obs1012 2020-01-25T14:16:00 --with-1012; leaves obs1012_half_a_day_before_near 0 want told
sed 's/2020     1    25/2020     1    26/; s/2020 01 25/2020 01 26/' want >later
obs1012 2020-01-25T14:16:01 --with-1012; leaves obs1012_after_near 0 later told
{ printf 'other-channel -\nno-channel -\nno-message R\n'; report 1 1 0 0 0 0 0 0 0; } >told
obs1012 2020-01-25T14:16:00; cp out any; leaves obs1012_without_the_word 0 any told
: >nothing
{ of_glonass '  1 R10 -5' '    18' "$noon" | sed '$d'; } >want
{ printf 'other-channel -\nno-channel -\nno-message R\n'; report 0 0 0 0 0 0 0 0 0; } >told
convert R2P --channels 10:-5 nothing;                            leaves an_empty_capture_of_glonass 0 want told

# ---- `auto`

python3 "$here/framed.py" $(more $G05_5X $R10_2P $E11_8X $C41_1P $J01_1X $S58_5I) $I14_5A >chained.rtcm
no_position=' no-position: the header has zeros, as no 1005 or 1006 came in time, or the first one has zeros'
# finds NAME FILE OPTIONS COUNTS LINES WORD..: `auto` writes FILE, as the command that it says does, and tells these lines
finds() {
    name=$1 file=$2 options=$3 counts=$4 said=$5
    shift 5
    run auto --near $near --made $made --marker BASE "$@"
    {
        printf ' the same by hand:\nrtcm2rinex convert --station 1 --near %s --made %s --marker BASE --codes %s\n' $near $made "$options"
        report $counts
        printf ' from %s until %s by --near\n%s\n%b' $near $near "$no_position" "$said"
    } >want_err
    leaves "auto_$name" 0 "$file" want_err
    sed -n 's/^rtcm2rinex convert //p' err >said
    run $(cat said | sed 's/^/convert /'); cp out again; same "auto_${name}_as_said" again "$file"
}
# rates NUMBER..: a line for each of these MSM, whose Doppler is left out
rates() { printf ' not in the file: Doppler of %s, 1 messages\\n' "$@"; }
doppler=$(rates 1077)
all_rates=$(rates 1077 1087 1097 1127 1117 1107 1137)
seven_codes=5X,R2P,E8X,C1P,J1X,S5I,I5A
seven_options="$seven_codes --msm 7 --window 4096 --channels 10:-5"
taken='7 0 0 0 7 0 0 0 1'
# pins: said_code, channels_option, channel_of_field
finds seven_systems seven.rnx "$seven_options chained.rtcm" "$taken" "$all_rates" chained.rtcm
# Words go before what messages tell.
finds codes_in_another_order seven.rnx "$seven_options chained.rtcm" "$taken" "$all_rates" --codes I5A,S5I,J1X,C1P,E8X,R2P,5X chained.rtcm
# pins: leap_option
finds given_leap_seconds seven.rnx "$seven_options --leap-seconds 18 chained.rtcm" "$taken" "$all_rates" --leap-seconds 18 chained.rtcm
convert 5X,R2P --msm 7 --channels 10:-7 chained.rtcm; cp out other.rnx
# pins: is_channel_of_field, own_channel, other_head, own_channels_words
finds given_channels other.rnx '5X,R2P --msm 7 --window 64 --channels 10:-7 chained.rtcm' '7 5 0 0 2 0 0 0 1' \
    " other-channel R10 -7: messages tell -5\n$(rates 1077 1087)$(printf ' not in the file: %s, 1 messages\\n' 'Galileo 1097' 'SBAS 1107' 'QZSS 1117' 'BeiDou 1127' 'NavIC 1137')" \
    --codes 5X,R2P --channels 10:-7 --window 64 chained.rtcm
# Of a kind for each system the exceptions are said.
python3 "$here/framed.py" $(more $G05_5X) $E36_7Q >two_kinds.rtcm
finds kinds kinds.rnx '5X,E7Q --msm 7,E4 --window 4096 two_kinds.rtcm' '2 0 0 0 2 0 0 0 1' "$doppler" two_kinds.rtcm
# A system that is not named is left out, and told.
convert 5X --msm 7 two_kinds.rtcm; cp out gps_alone.rnx
finds one_system gps_alone.rnx '5X --msm 7 --window 4096 two_kinds.rtcm' '2 1 0 0 1 0 0 0 1' \
    "$doppler not in the file: Galileo 1094, 1 messages\n" --systems G two_kinds.rtcm
# A 1094: phases of E11, E12 and E13 in 1X, and of E11 alone in 5X.
python3 "$here/framed.py" 446001714BE8000000001C000000000000040000807E8C8C8C320C832000A00160030006800E001E000FA0003E8000FA400000000FA400000AAAAAA05B6DB6DB68 >few.rtcm
convert E1X,E5X few.rtcm; cp out few.rnx
# pins: few_phases_line_if, has_few_phases
finds few_phases few.rnx 'E1X,E5X --window 4096 few.rtcm' '1 0 0 0 1 0 0 0 1' \
    ' few-phases E5X: its satellites have more than twice as many in another code\n' few.rtcm
# A message that tells no channel leaves the slot without one.
R09_1C=43C001ACDECCC000000040000000000000200000005112C0961F6817CAF0
python3 "$here/framed.py" $(more $G05_5X) $R09_1C >no_channel.rtcm
convert 5X,R1C --msm 7,R4 --channels none no_channel.rtcm; cp out without.rnx
# pins: no_channel_words, lacking_name
finds no_channel without.rnx '5X,R1C --msm 7,R4 --window 4096 --channels none no_channel.rtcm' '2 0 0 0 2 0 0 0 1' \
    " no-channel R09: give --channels, as a header's GLONASS SLOT / FRQ # of the same days has them\n$doppler" no_channel.rtcm
# Clocks are compared within an epoch. BeiDou that tells GPS time is 14 s ahead, and is left out.
chain() { python3 "$here/framed.py" "$@"; }
chain $(more $G05_5X 467001714BE800${C41_1P#??????????????}) $I14_5A >beidou_ahead.rtcm
convert 5X,I5A --msm 7 beidou_ahead.rtcm; cp out without.rnx
# pins: is_wrong_offset, gps_ahead
finds beidou_14_s_ahead without.rnx '5X,I5A --msm 7 --window 4096 beidou_ahead.rtcm' '3 1 0 0 2 0 0 0 1' \
    " clock C +14.000 1 of 1\n$(rates 1077 1137) not in the file: BeiDou 1127, 1 messages\n" beidou_ahead.rtcm
# If no other system is asked for there is no file, and the clock tells why.
run auto --near $near --made $made --systems C beidou_ahead.rtcm
expect auto_beidou_14_s_ahead_alone 3 '' 'rtcm2rinex: no observation that is asked for can be converted; choose others by --msm or --systems
 clock C +14.000 1 of 1
 holds GPS 1077, 1 messages
 holds BeiDou 1127, 1 messages
 holds NavIC 1137, 1 messages'
# GLONASS a day ahead is left out, and 1 ms ahead it stays in records of its own.
chain $(more $G05_5X) 43F001CCDECCC0${R10_2P#??????????????} >day_ahead.rtcm
finds glonass_a_day_ahead gps_alone.rnx '5X --msm 7 --window 4096 day_ahead.rtcm' '2 1 0 0 1 0 0 0 1' \
    " clock R +86400.000 1 of 1\n$doppler not in the file: GLONASS 1087, 1 messages\n" day_ahead.rtcm
chain $(more $G05_5X) 43F001ACDECCC4${R10_2P#??????????????} >ms_ahead.rtcm
convert 5X,R2P --msm 7 --channels 10:-5 ms_ahead.rtcm; cp out two_records.rnx
finds glonass_1_ms_ahead two_records.rnx '5X,R2P --msm 7 --window 4096 --channels 10:-5 ms_ahead.rtcm' '2 0 0 0 2 0 0 0 2' \
    " clock R +0.001 1 of 1\n$(rates 1077 1087)" ms_ahead.rtcm
# A whole second ahead everywhere is a wrong number of leap seconds.
chain $(more $G05_5X) 43F001ACDEDC60${R10_2P#??????????????} >second_ahead.rtcm
convert 5X,R2P --msm 7 --channels 10:-5 --leap-seconds 17 second_ahead.rtcm; cp out second.rnx
# pins: truly_behind, whole_seconds, found_leap_words
finds glonass_1_s_ahead second.rnx '5X,R2P --msm 7 --window 4096 --channels 10:-5 --leap-seconds 17 second_ahead.rtcm' '2 0 0 0 2 0 0 0 1' \
    " leap-seconds 17: by the clocks of GLONASS\n$(rates 1077 1087)" second_ahead.rtcm
# It is told only where the words do not say it.
finds glonass_1_s_ahead_as_given second.rnx '5X,R2P --msm 7 --window 4096 --channels 10:-5 --leap-seconds 17 second_ahead.rtcm' '2 0 0 0 2 0 0 0 1' \
    "$(rates 1077 1087)" --leap-seconds 17 second_ahead.rtcm
# A system whose messages stand in no epoch with another one is not compared.
chain $G05_5X $R10_2P >apart.rtcm
convert 5X,R2P --msm 7 --channels 10:-5 apart.rtcm; cp out apart.rnx
# pins: unchecked_system_line
finds glonass_apart apart.rnx '5X,R2P --msm 7 --window 4096 --channels 10:-5 apart.rtcm' '2 0 0 0 2 0 0 0 1' " unchecked R\n$(rates 1077 1087)" apart.rtcm
# If the message that ends an epoch is missing, its clocks are not compared with those of the next epoch.
python3 -B "$here/systems_captures.py" || exit 1
# times_of SATELLITE: the seconds of the records that have it, in a row
times_of() { awk -v name="$1" '/^>/ { second = 60 * $6 + $7 } index($0, name " ") == 1 { printf " %d", second }' out; }
# without_clocks CAPTURE CODES TIMES..: `auto` lists these codes, tells nothing of clocks and leap seconds, and the satellites stand
# in the records of these seconds, as G05=0..9 or G05=1,3
without_clocks() {
    name=$1 want_codes=$2
    shift 2
    run auto --made $made --marker BASE $name.rtcm
    {
        sed -n 's/.* --codes \([^ ]*\) .*/\1/p' err
        grep -E '^ (clock|leap-seconds|unchecked)' err
        for times; do echo "${times%=*}=$(times_of "${times%=*}")"; done
    } >told
    { echo "$want_codes"; for times; do echo "${times%%=*}= ${times#*=}"; done; } >want
    # pins: differs_in_time
    same "auto_$name" told want
}
all_seconds=$(seq -s ' ' 0 59)
without_clocks one_lost E1C,C2I "E05=$all_seconds" "C05=$(seq -s ' ' 0 59 | sed 's/ 30 / /')"
for name in seldom seldom_by_1019; do without_clocks $name 1C,R1C "G05=$(seq -s ' ' 0 9)" 'R05=1 3 5 7 9'; done
without_clocks seldom_1012 1C,R1C "G05=$(seq -s ' ' 0 19)" 'R05=4 9 14 19'
without_clocks not_read 1C,E1C "G05=$(seq -s ' ' 0 8)" 'E05=2 5 8'
# So it is in `summary`.
run summary one_lost.rtcm; { grep '^ clock' out; sed -n 's/.* --codes \([^ ]*\) .*/\1/p' out; } >told; echo E1C,C2I >want
same summary_of_a_lost_end told want
# A capture of two sessions is parted before the first message of an epoch, which is of GLONASS here. The second session tells its
# date behind its last epoch.
for name in msm legacy; do
    cat $name.1.rtcm $name.2.rtcm >sessions
    run auto --made 2024-06-01T00:00:00 sessions; grep -E '^(head|tail) ' err >commands; sh ./commands
    # pins: is_within_minute
    same "auto_parted_${name}_1" sessions.1 $name.1.rtcm
    same "auto_parted_${name}_2" sessions.2 $name.2.rtcm
done
# 1012 are converted where they and all epochs lie within a day, near the middle of it.
# legacy NAME NEAR OPTIONS PAYLOAD..: `auto` says this command, which writes the same file
legacy() {
    name=$1 near_=$2 options=$3
    shift 3
    python3 "$here/framed.py" "$@" >legacy.rtcm
    run auto --near 2020-01-25T02:16:00 --made $made --marker BASE legacy.rtcm; cp out file; cp err said
    echo "rtcm2rinex convert --station 1 --near $near_ --made $made --marker BASE --codes $options legacy.rtcm" >want
    sed -n 2p said >told; same "auto_$name" told want
    run $(sed 's/^rtcm2rinex //' told); cp out again; same "auto_${name}_as_said" again file
}
R12_1012=3F400124210600818318EAEE800097221CA7FACFF289C97E
# Of 02:16:00, before other messages; of three seconds later; and of a day later.
G05_1004=3EC0017D8AAC0210141E848000000291AC08002000000000
G05_3_S=3EC0017D8ADAE010141E848000000291AC08002000000000
G05_A_DAY=3EC00101F20C0010141E848000000291AC08002000000000
# pins: followed_by, dated_in_day, clock_lead, placed_clock_span, middle_up, middle_second, dates_ends
legacy with_1012 2020-01-25T02:16:02 '1C,R1C,R2P --window 4096 --channels 12:-1 --with-1012' $G05_1004 $R12_1012 $G05_3_S
legacy with_1012_too_long 2020-01-25T02:16:00 '1C --window 4096' $G05_1004 $R12_1012 $G05_A_DAY
# pins: long_line, unread_legacy_glonass
echo ' untaken GLONASS 1012 1: more than a day' >want; grep 1012 said >told; same auto_with_1012_left_out told want
# So is one that is cut short. Nothing is said where 1012 are converted.
legacy with_1012_cut_short 2020-01-25T02:16:00 '1C --window 4096' $G05_1004 "$(echo $R12_1012 | cut -c 1-16)"
# pins: glonass_line_of
printf '%s\n' ' not in the file: GLONASS 1012, 1 messages' ' refused M3 1012 1 in legacy.rtcm' >want; grep 1012 said >told; same auto_with_1012_cut_short told want
# Of a 1004 the file has GPS, or SBAS alone. Satellites that are neither, here 33 beside 40, count as SBAS then.
python3 "$here/framed.py" 3EC0017D8AAC0020841E848000000291AC0800200000000500F424000000148D6040010000000000 >of_sbas.rtcm; python3 "$here/framed.py" $S58_5I $G05_1004 >beside_sbas.rtcm
run auto --near 2020-01-25T02:16:00 --made $made of_sbas.rtcm; grep without-name err >told; echo ' without-name S 1' >want; same auto_1004_of_sbas told want
run auto --near $near --made $made --systems S beside_sbas.rtcm; grep 'GPS 1004' err >told; echo ' not in the file: GPS 1004, 1 messages' >want; same auto_1004_beside_sbas told want
# A 1012 keeps the day of the 1013 before it, though the first epoch, 12 h 44 min behind it, is nearer to its time of the next day.
# pins: last_moved
python3 "$here/framed.py" 3F5001E5F90FE70048 $R12_1012 3EC0018878860210141E848000000291AC08002000000000 >before_epoch.rtcm
run auto --made $made before_epoch.rtcm; grep '^ from' err >told
echo ' from 2020-01-25T02:16:00 until 2020-01-25T15:00:00 by 1013' >want; same auto_1012_of_the_day_of_its_1013 told want
# The channels that are told of slot 12: by 1012 -1, none or +10; by 1020 -2 or 3. Of two alike it is the lesser.
told_slots() {
    name=$1 want=$2 options=$3
    shift 3
    python3 "$here/framed.py" "$@" >legacy.rtcm
    run auto --near 2020-01-25T02:16:00 --made $made $options legacy.rtcm
    # pins: told_fields, told_channel, several_words
    grep channel err | grep -v rtcm2rinex >told; printf "$want" >want; same "auto_$name" told want
}
NONE_1012=3F400124210600818F98EAEE800097221CA7FACFF289C97E
ABOVE_1012=3F400124210600818898EAEE800097221CA7FACFF289C97E
rest_of_1020=$(printf '%084d' 0)
MINUS_2=3FC30A$rest_of_1020
PLUS_3=3FC314$rest_of_1020
told_slots two_1020 ' several-channels R12 -2 3\n' '' $G05_1004 $PLUS_3 $NONE_1012 $MINUS_2 $G05_3_S
told_slots one_1020 '' '' $G05_1004 $PLUS_3 $NONE_1012 $PLUS_3 $G05_3_S
told_slots a_1012_before_1020 '' '' $G05_1004 $PLUS_3 $R12_1012 $MINUS_2 $G05_3_S
told_slots channels_above_6 ' several-channels R12 3 10\n' '' $G05_1004 $PLUS_3 $ABOVE_1012 $G05_3_S
told_slots a_channel_above_6_alone " no-channel R12: give --channels, as a header's GLONASS SLOT / FRQ # of the same days has them\n" '' \
    $G05_1004 $ABOVE_1012 $G05_3_S
told_slots a_channel_above_6_and_given ' other-channel R12 3: messages tell 10\n' '--channels 12:3' $G05_1004 $ABOVE_1012 $G05_3_S
told_slots channels_that_are_given ' other-channel R12 5: messages tell -1\n' '--channels 12:5' $G05_1004 $R12_1012 $G05_3_S
told_slots channels_of_1020_and_given ' several-channels R12 -2 3\n' '--channels 12:5' $G05_1004 $PLUS_3 $NONE_1012 $MINUS_2 $G05_3_S
# `summary` lists the channels that RINEX has.
# pins: place_is_counted
python3 "$here/framed.py" $G05_1004 $ABOVE_1012 >above.rtcm; run summary above.rtcm; grep channels out >told; : >want; same summary_of_a_channel_above_6 told want
python3 "$here/framed.py" $G05_1004 $R12_1012 >within.rtcm; run summary within.rtcm; grep '^ channels' out >told; echo ' channels 12:-1' >want; same summary_of_a_channel told want
# A lone 1012 before the first epoch counts too: a second before it, and not nearly a day after it.
legacy with_a_lone_1012 2020-01-25T02:16:02 '1C,R1C,R2P --window 4096 --channels 12:-1 --with-1012' $R12_1012 $G05_3_S
# A capture of 1012 alone is of the day of the 1013 in it, wherever this stands, and also beside --near: here of 14:30:00 UTC.
R12_LATER=3F40017829B800818318EAEE800097221CA7FACFF289C97E
AT_1430=3F5001E5F965F40048
python3 "$here/framed.py" $G05_1004 >of_gps.rtcm; python3 "$here/framed.py" $R12_LATER $AT_1430 >of_1012.rtcm
for near_ in '' '--near 2020-01-25T00:00:00'; do
    run auto $near_ --made $made --marker BASE of_gps.rtcm of_1012.rtcm; grep '^>' out | cut -c 1-29 >told
    printf '> 2020 01 25 02 16  0.0000000\n> 2020 01 25 14 30 18.0000000\n' >want; same "auto_1012_alone${near_% *}" told want
done
# A line names the message that tells the day of 1012, if it is none of the station: here the same 1013 of another station.
python3 "$here/framed.py" $R12_LATER 3F5002E5F965F40048 >of_other.rtcm
# pins: day_line
for capture in of_1012 of_other; do run auto --made $made --marker BASE of_gps.rtcm $capture.rtcm; grep '^ day-of-1012' err; done >told
echo ' day-of-1012 2020-01-25T14:30:00 by 1013 of station 2 in of_other.rtcm' >want; same auto_day_of_1012 told want
# With --near the week of both is that of the words, whatever week the message names, which the line tells as it is.
run auto --near 2015-06-06T00:00:00 --made $made --marker BASE of_gps.rtcm of_other.rtcm; grep '^>' out | cut -c 1-29 >told; grep '^ day-of-1012' err >>told
printf '> 2015 06 06 02 16  0.0000000\n> 2015 06 06 14 30 16.0000000\n' >want
echo ' day-of-1012 2020-01-25T14:30:00 by 1013 of station 2 in of_other.rtcm' >>want; same auto_day_of_1012_in_another_week told want
# Without a date the middle of the 1012 is near the middle of the epochs, here of 02:16 and 14:00. One 1012 of 14:30:00 UTC is of
# the same day, though that is more than half a day behind the first epoch. One of 02:15:42 behind it makes it one of the day before.
G05_14_H=3EC001879CCC0210141E848000000291AC08002000000000
python3 "$here/framed.py" 3F5001E5F90FE70048 $G05_1004 $G05_14_H >of_hours.rtcm
# pins: midway, middle_of_span, placed_in_middle
for more in '' $R12_1012; do
    python3 "$here/framed.py" $R12_LATER $more >of_middle.rtcm
    run auto --made $made --marker BASE of_hours.rtcm of_middle.rtcm; grep '^>' out | cut -c 1-29
done >told
printf '> 2020 01 %s.0000000\n' '25 02 16  0' '25 14 00  0' '25 14 30 18' '24 14 30 18' '25 02 16  0' '25 14 00  0' >want
same auto_1012_in_the_middle told want
# A 1013 a day behind the 1012 before it is told.
python3 "$here/framed.py" $AT_1430 $R12_LATER 3F5001E5FA65F40048 >of_two_days.rtcm; run auto --made $made --marker BASE of_gps.rtcm of_two_days.rtcm
grep '^ other-date' err >told
echo ' other-date 2020-01-26T14:30:00 by 1013 of station 1 in of_two_days.rtcm: the message beside it is dated 2020-01-25T14:30:00' >want
same auto_1013_a_day_behind told want
# On both sides of a leap second, here that of 2016-12-31, 1013 tell the leap seconds that date GLONASS there. Others are told.
python3 "$here/framed.py" 3F5001E199A8B28044 3EC001903173C210141E848000000291AC08002000000000 3F4001148C4100818318EAEE800097221CA7FACFF289C97E >of_17.rtcm
behind='3EC0010004C2C210141E848000000291AC08002000000000 3F400114B6BC00818318EAEE800097221CA7FACFF289C97E'
python3 "$here/framed.py" 3F5001E19A001E0048 $behind >of_18.rtcm; python3 "$here/framed.py" 3F5001E19A001E0040 $behind >of_16.rtcm
for capture in of_18 of_16; do run auto --made $made --marker BASE of_17.rtcm $capture.rtcm; grep '^ other-leap-seconds' err; done >told
echo ' other-leap-seconds 16 by 1013 in of_16.rtcm' >want; same auto_over_a_leap_second told want
# No word tells the day of 1012: --near tells the week.
python3 "$here/framed.py" $R12_LATER >of_none.rtcm; run auto --near 2020-01-25T00:00:00 --made $made --marker BASE of_gps.rtcm of_none.rtcm
grep '^ undated' err >told; echo ' undated of_none.rtcm: dated near the others' >want; same auto_1012_of_no_day told want
# `summary` says the word where the times lie near the date of a 1013: of the same day, and not of half a day later.
next_of() { python3 "$here/framed.py" "$@" >dated.rtcm; run summary dated.rtcm; sed -n 's/^ next .* --codes //p' out >told; }
# pins: is_time_near, words_with_1012
next_of 3F5001E5F90FE70048 $G05_1004 $R12_1012; echo '1C,R1C,R2P --channels 12:-1 --with-1012 dated.rtcm' >want; same next_with_1012 told want
next_of 3F5001E5F964470048 $G05_1004 $R12_1012; echo '1C dated.rtcm' >want; same next_without_1012 told want
# The example of two links, in either order.
examples=$root/examples
for links in "1 2" "2 1"; do
    run auto --made $made --marker BASE "$examples/systems_link${links% *}.rtcm" "$examples/systems_link${links#* }.rtcm"
    leaves "the_example_of_systems_$links" 0 "$examples/systems.rnx" err
done
report 66 2 0 0 41 23 0 0 10 >want; grep -E '^(frames|other|refused|foreign|taken|repeat|conflict|late|epochs) ' err >told
same counts_of_the_example_of_systems told want
run auto -o systems.rnx --made $made "$examples/systems_link1.rtcm" "$examples/systems_link2.rtcm"
# pins: marked_count
echo 'wrote systems.rnx: 10 epochs, G 3 R 2 E 2 C 2 satellites' >want; tail -n 1 err >told; same satellites_of_the_example told want
run auto --systems GR --codes 1C seven.rtcm
expect auto_systems_and_codes 2 '' "$(error "the argument '--systems <LETTERS>' cannot be used with '--codes <LIST>'" 'auto --systems <LETTERS> <CAPTURE>...')"

ends
