#!/bin/sh
# Runs `auto` as a user does, on captures that auto_captures.py makes and describes, and on examples. The program is $1.
. "$(dirname "$(readlink -f "$0")")/common"
examples=$root/examples
made=2024-06-01T13:00:00
python3 -B "$root/tests/program/auto_captures.py" || exit 1
gzip -k one && cp one.gz 'one 3.gz'
# Not each system has bzip2 and xz, and Python has both.
python3 -c 'import bz2, lzma; it = open("one", "rb").read(); open("one.bz2", "wb").write(bz2.compress(it)); open("one 2.xz", "wb").write(lzma.compress(it))'
ln -s one linked && ln one other_name && mkdir folder && mkfifo pipe && cp one 'a b' && cp one ./-5

# auto WORD..: made at a known time
auto() { run auto --made $made "$@"; }

# unfinished: no file is there that was begun
unfinished() { ls | grep '^file' >>err; rm -f file*; }

# The words, the captures, or what they hold, are refused; no file is there then. A row: the status, the words, and what is said.
while IFS='|' read -r want words lines <&3; do
    eval "auto -o file.rnx $words"
    unfinished
    # pins: words_and_name, look_text, looks_like, unpacker, unpacking, unpacking_by, count_line_of, unread_line, unread_gps, unread_glonass_to_sbas, unread_qzss_to_navic, all_unread, station_line, epochs_text, epochs_heard, number_and_station, date_message_text, is_told_later, Parting.apart_ms, is_time_break, parted_frame, parting_text, part_command, to_come_line, is_to_come, from_until, until_text, reach_line, msm_words, system_words, held_line, read_of_station, position_line, coordinate_after_blank, coordinate_text, metres_text, point_and_decimals
    expect "refused_$(echo "$words" | tr ' ' _)" "$want" '' "rtcm2rinex: $(printf '%b' "$lines")"
done 3<<'ROWS'
1|nowhere|cannot open nowhere
1|one out.rnx|cannot open out.rnx; to write it, say -o out.rnx
1|one 20240517.obs|cannot open 20240517.obs; to write it, say -o 20240517.obs
1|one "new site.rnx"|cannot open 'new site.rnx'; to write it, say -o 'new site.rnx'
1|one -- -1.obs|cannot open ./-1.obs; to write it, say -o ./-1.obs
1|--marker NEW ROOF one|cannot open ROOF
2|stdin|auto reads each capture twice, and stdin can't be
2|one stdin|auto reads each capture twice, and stdin can't be
2|folder|auto reads each capture twice, and folder is no regular file
2|pipe|auto reads each capture twice, and pipe is no regular file
2|one ./one|./one is named twice
2|one linked|linked is named twice
2|other_name later one|one is named twice
2|"a b" "./a b"|'./a b' is named twice
2|--near 2024-05-17 one|bad --near\n --near takes YYYY-MM-DDTHH:MM:SS (GPS), from 1980-01-13T00:00:00 to 2099-12-31T23:59:59
2|--near 2024-05-17T12:00:00Z one|bad --near\n --near takes YYYY-MM-DDTHH:MM:SS (GPS), from 1980-01-13T00:00:00 to 2099-12-31T23:59:59
2|--near "2024/05/17 12:00:00" one|bad --near\n --near takes YYYY-MM-DDTHH:MM:SS (GPS), from 1980-01-13T00:00:00 to 2099-12-31T23:59:59
2|--near 1980-01-12T23:59:59 one|bad --near\n --near takes YYYY-MM-DDTHH:MM:SS (GPS), from 1980-01-13T00:00:00 to 2099-12-31T23:59:59
2|--codes C1C,C2W one|bad --codes\ncodes of C: 2I 2Q 2X 6I 6Q 6X 7I 7Q 7X 5D 5P 5X 7D 1D 1P 1X
2|--codes G1C one|bad --codes\nGPS codes have two characters: 1C
2|--codes R1C,R1C one|bad --codes
2|--channels 1:7 one|bad --channels
2|--systems GX one|bad --systems
2|--systems "" one|bad --systems
2|--codes 1c,2w one|bad --codes
2|--codes "1C, 2W" one|bad --codes
2|--marker ZÜRICH one|bad --marker
3|one.gz|the captures have no frame of RTCM 3\n one.gz looks like gzip; unpack it: gzip -dc one.gz >one.gz.rtcm
3|zip one.rnx text nmea empty|the captures have no frame of RTCM 3\n empty is empty\n nmea looks like NMEA\n one.rnx looks like RINEX\n text looks like hex-text\n zip looks like zip; unpack it: unzip -p zip >zip.rtcm
3|one one.gz empty stations|several stations have observations; choose one by --station\n station 7 in stations: 1 epochs\n station 2003 in one: 2 epochs\n station 2003 in stations: 2 epochs
3|one one.gz "a b" empty|captures have nothing of station 2003; --skip-empty leaves them out\n empty is empty\n one.gz looks like gzip; unpack it: gzip -dc one.gz >one.gz.rtcm
3|unread|the captures have no observations that are read\n holds GPS 1001, 1 messages\n holds GPS 1003, 12 messages\n holds GLONASS 1009, 1 messages\n holds GLONASS 1012, 1 messages\n holds GPS 1072, 1 messages\n holds GLONASS 1081, 1 messages\n holds GLONASS 1087, 1 messages\n holds Galileo 1091, 1 messages\n holds Galileo 1097, 1 messages\n holds SBAS 1101, 1 messages\n holds SBAS 1107, 1 messages\n holds QZSS 1111, 1 messages\n holds QZSS 1117, 1 messages\n holds BeiDou 1121, 1 messages\n holds BeiDou 1127, 1 messages\n holds NavIC 1131, 1 messages\n holds NavIC 1137, 1 messages
3|one.bz2 "one 2.xz" sbf novatel jps|the captures have no frame of RTCM 3\n jps looks like JPS\n novatel looks like NovAtel\n 'one 2.xz' looks like xz; unpack it: xz -dc 'one 2.xz' >'one 2.xz'.rtcm\n one.bz2 looks like bzip2; unpack it: bzip2 -dc one.bz2 >one.bz2.rtcm\n sbf looks like SBF
3|reserved|the captures have no observations that are read\n holds 1080, 1 messages\n holds 1088, 1 messages\n holds 1089, 1 messages\n holds 1090, 1 messages\n holds 1098, 1 messages\n holds 1099, 1 messages\n holds 1100, 1 messages\n holds 1108, 1 messages\n holds 1109, 1 messages\n holds 1110, 1 messages\n holds 1118, 1 messages\n holds 1119, 1 messages\n holds 1120, 1 messages\n holds 1128, 1 messages\n holds 1129, 1 messages\n holds 1130, 1 messages\n holds 1138, 1 messages
3|only_short|the captures have no observations that are read\n holds GPS 1004, 1 messages\n holds GPS 1077, 2 messages
3|no_value position|the captures have no observations that are read\n holds GPS 1004, 1 messages\n holds 1005, 1 messages\n holds 1013, 1 messages
3|--station 7 one|station 7 has no observations that are read\n station 2003 in one: 2 epochs
3|--station 7 foreign|station 7 has no observations that are read\n station 2003 in foreign: 2 epochs
3|differ|a capture tells two dates; part it, or choose one by --near\n 2024-05-17T12:00:00 by 1013 of station 2003 in differ\n 2024-05-10T12:00:00 by 1013 of station 2003 in differ\n differ: the second date begins at byte 107; these commands part it there:\nhead -c 107 differ >differ.1\ntail -c +108 differ >differ.2
3|sessions|a capture tells two dates; part it, or choose one by --near\n 2024-05-17T12:00:00 by 1013 of station 2003 in sessions\n 2024-05-24T12:00:00 by 1013 of station 2003 in sessions\n sessions: the second date begins at byte 107; these commands part it there:\nhead -c 107 sessions >sessions.1\ntail -c +108 sessions >sessions.2
3|again|a capture tells two dates; part it, or choose one by --near\n 2024-05-17T12:00:00 by 1013 of station 2003 in again\n 2024-05-24T12:00:00 by 1029 of station 2003 in again\n again: the second date begins at byte 107; these commands part it there:\nhead -c 107 again >again.1\ntail -c +108 again >again.2
3|jumps|a capture tells two dates; part it, or choose one by --near\n 2024-05-17T12:00:00 by 1013 of station 2003 in jumps\n 2024-05-24T12:00:00 by 1013 of station 2003 in jumps\n jumps: the second date begins at byte 153; these commands part it there:\nhead -c 153 jumps >jumps.1\ntail -c +154 jumps >jumps.2
3|among_others|a capture tells two dates; part it, or choose one by --near\n 2024-05-17T12:00:00 by 1013 of station 2003 in among_others\n 2024-05-10T12:00:00 by 1013 of station 2003 in among_others\n among_others: the second date begins at byte 134; these commands part it there:\nhead -c 134 among_others >among_others.1\ntail -c +135 among_others >among_others.2
3|minute|a capture tells two dates; part it, or choose one by --near\n 2024-05-17T12:00:00 by 1013 of station 2003 in minute\n 2024-05-24T12:00:00 by 1013 of station 2003 in minute\n minute: the second date begins at byte 107; these commands part it there:\nhead -c 107 minute >minute.1\ntail -c +108 minute >minute.2
3|over_minute|a capture tells two dates; part it, or choose one by --near\n 2024-05-17T12:00:00 by 1013 of station 2003 in over_minute\n 2024-05-24T12:00:00 by 1013 of station 2003 in over_minute\n over_minute: the second date begins at byte 61; these commands part it there:\nhead -c 61 over_minute >over_minute.1\ntail -c +62 over_minute >over_minute.2
3|alike|a capture tells two dates; part it, or choose one by --near\n 2024-05-17T12:00:02 by 1013 of station 2003 in alike\n 2024-05-24T12:00:02 by 1013 of station 2003 in alike\n alike: the second date begins at byte 153; these commands part it there:\nhead -c 153 alike >alike.1\ntail -c +154 alike >alike.2
3|as_great|a capture tells two dates; part it, or choose one by --near\n 2024-05-17T12:00:02 by 1013 of station 2003 in as_great\n 2024-05-24T12:00:02 by 1013 of station 2003 in as_great\n as_great: the second date begins at byte 107; these commands part it there:\nhead -c 107 as_great >as_great.1\ntail -c +108 as_great >as_great.2
3|two_before|the captures tell dates that differ; choose one by --near\n 2024-05-17T12:00:00 by 1013 of station 2003 in two_before\n 2024-05-24T12:00:00 by 1013 of station 2003 in two_before
3|weeks|the captures tell dates that differ; choose one by --near\n 2024-05-17T12:00:00 by 1019 in weeks\n 2024-05-10T12:00:00 by 1019 in weeks
3|two_system_weeks|the captures tell dates that differ; choose one by --near\n 2024-05-17T12:00:00 by 1042 in two_system_weeks\n 2024-05-10T12:00:00 by 1046 in two_system_weeks
3|last_week one|the captures tell dates that differ; choose one by --near\n 2024-05-10T12:00:02 by 1019 in last_week\n 2024-05-17T12:00:00 by 1013 of station 2003 in one
3|one half_week|the captures are longer than half a week; convert them in parts\n 2024-05-21T00:00:00 until 2024-05-21T00:00:00 in half_week: 1 epochs\n 2024-05-17T12:00:00 until 2024-05-17T12:00:01 in one: 2 epochs
3|one over_half_week|the captures tell dates that differ; choose one by --near\n 2024-05-17T12:00:00 by 1013 of station 2003 in one\n 2024-05-21T00:00:01 by 1019 in over_half_week
3|glonass_4_days one|the captures are longer than half a week; convert them in parts\n 2024-05-21T12:00:00 until 2024-05-21T12:00:01 in glonass_4_days: 0 epochs\n 2024-05-17T12:00:00 until 2024-05-17T12:00:01 in one: 2 epochs
3|beidou_4_days one|the captures are longer than half a week; convert them in parts\n 2024-05-21T12:00:00 until 2024-05-21T12:00:00 in beidou_4_days: 0 epochs\n 2024-05-17T12:00:00 until 2024-05-17T12:00:01 in one: 2 epochs
3|glonass_8_days one|the captures are longer than half a week; convert them in parts\n 2024-05-17T12:00:00 until later in glonass_8_days: 0 epochs\n 2024-05-17T12:00:00 until 2024-05-17T12:00:01 in one: 2 epochs
3|glonass_before|the captures are longer than half a week; convert them in parts\n 2024-05-13T12:00:00 until 2024-05-17T12:00:00 in glonass_before: 1 epochs
3|glonass_too_far|the captures are longer than half a week; convert them in parts\n 2024-05-17T12:00:00 until 2024-05-21T00:00:00 in glonass_too_far: 2 epochs
3|undated|the captures tell no date; give one, as in --near GPS-TIME-WITHIN-HALF-A-WEEK
3|passed_over|the captures tell no date; give one, as in --near GPS-TIME-WITHIN-HALF-A-WEEK\n 2024-07-09T12:00:00 by 1013 of station 2003 in passed_over: it is after the time of making
3|beidou_to_come|the captures tell no date; give one, as in --near GPS-TIME-WITHIN-HALF-A-WEEK\n 2024-06-02T00:00:00 by 1042 in beidou_to_come: it is after the time of making
3|one next_week|the captures are longer than half a week; convert them in parts\n 2024-05-26T23:59:50 until 2024-05-26T23:59:50 in next_week: 1 epochs\n 2024-05-17T12:00:00 until 2024-05-17T12:00:01 in one: 2 epochs
3|--codes 5X --msm 7 --near 2099-12-31T23:59:59 --skip-empty empty nmea|the captures have no frame of RTCM 3\n empty is empty\n nmea looks like NMEA
3|same.*|more than 16 captures are of the same time, and 16 links are taken\n same.00\n same.01\n same.02\n same.03\n same.04\n same.05\n same.06\n same.07\n same.08\n same.09\n same.10\n same.11\n same.12\n same.13\n same.14\n same.15\n same.16
3|here.0 here.2|the station stands at positions that differ; --links-as-given takes them for one\n position 1114104.5999 -4850729.7108 3975521.4643 in here.0\n position 1114204.6000 -4850729.7108 3975521.4643 in here.2
3|far_and_later here.1 here.0|the station stands at positions that differ; --links-as-given takes them for one\n position 1114204.6000 -4850729.7108 3975521.4643 in far_and_later\n position 1114104.5999 -4850729.7108 3975521.4643 in here.0
3|here.0 far|the station stands at positions that differ; --links-as-given takes them for one\n position 1114204.6000 -4850729.7108 3975521.4643 in far\n position 1114104.5999 -4850729.7108 3975521.4643 in here.0
3|moves|the station stands at positions that differ; --links-as-given takes them for one\n position 1114104.5999 -4850729.7108 3975521.4643 in moves\n position 1114204.6000 -4850729.7108 3975521.4643 in moves
3|here.0 moves|the station stands at positions that differ; --links-as-given takes them for one\n position 1114104.5999 -4850729.7108 3975521.4643 in here.0\n position 1114204.6000 -4850729.7108 3975521.4643 in moves
3|--msm 4 of_1077|no observation that is asked for can be converted; choose others by --msm or --systems\n holds 1013, 1 messages\n holds GPS 1077, 2 messages
3|--near 1980-01-13T00:00:00 one|the first epoch is not dated from 1980-01-13 to 2099-12-31; choose a date by --near
3|--near 2099-12-31T23:59:59 one|the first epoch is not dated from 1980-01-13 to 2099-12-31; choose a date by --near
ROWS
run auto --made 2024-06-01 one; expect form_of_made 2 '' 'rtcm2rinex: bad --made
 --made takes YYYY-MM-DDTHH:MM:SS (UTC), from 1980-01-06T00:00:00 to 2100-12-31T23:59:59'
# The command that unpacks a capture, pasted, makes one that is converted.
auto 'one 3.gz'; sed -n "s/.*; unpack it: //p" err >said; . ./said; auto -o file 'one 3.gz.rtcm'; same unpacked_as_said file one.rnx; rm file
# The commands that part a capture, pasted, make captures of one session each.
cp sessions 's s'; auto 's s'; grep -E '^(head|tail) ' err >said; . ./said
same the_first_session 's s.1' one; tail -c 153 sessions >want; same the_second_session 's s.2' want
auto 's s.1'; same the_first_session_as_said out one.rnx; auto 's s.2'; grep '^ from' err >told
echo ' from 2024-05-24T12:00:00 until 2024-05-24T12:00:02 by 1013' >want; same the_second_session_as_said told want
auto -o '' one; expect an_output_without_a_name 2 '' "$(error "a value is required for '--output <FILE>' but none was supplied")"
auto -o folder one; expect an_output_that_is_a_folder 1 '' 'rtcm2rinex: folder is there, and -f would replace it'
auto -f -o folder one; expect an_output_that_is_a_folder_and_force 1 '' 'rtcm2rinex: folder is no regular file'
for value in x -1 '' 1e9; do
    SOURCE_DATE_EPOCH=$value "$program" auto one >out 2>err; status=$?
    expect "a_present_of_$value" 2 '' 'rtcm2rinex: SOURCE_DATE_EPOCH is no number of seconds'
done
for value in 0 315964799 4133980800; do
    SOURCE_DATE_EPOCH=$value "$program" auto one >out 2>err; status=$?
    expect "a_present_of_$value" 3 '' 'rtcm2rinex: SOURCE_DATE_EPOCH is not from 1980-01-06 to 2100-12-31'
done
run auto
expect no_capture 2 '' "$(error 'the following required arguments were not provided:
  <CAPTURE>...' 'auto <CAPTURE>...')"
for option in 'station 4096 4096 is not in 0..=4095' 'window 1 1 is not in 2..=4096' 'msm 8 8 is not in 4..=7'; do
    set -- $option
    auto "--$1" "$2" one; why=${option#* * }
    expect "$1_of_$2" 2 '' "$(error "invalid value '$2' for '--$1 <N>': $why")"
done

# says SPAN COMMAND COUNTS LINE..: standard error of a run that is done, of captures that have a position or not
no_position=' no-position: the header has zeros, as no 1005 or 1006 came in time, or the first one has zeros'
position=$no_position
says() {
    printf ' the same by hand:\n%s\n' "$2"
    report $3
    [ "${3##* }" = 0 ] || echo " from $1"
    [ ! "$position" ] || echo "$position"
    shift 3
    [ $# -eq 0 ] || printf '%s\n' "$@"
} >want_err

# command NEAR [CODES [MORE]]
command() { echo "rtcm2rinex convert --station 2003 --near $1 --made $made --marker 2003 --codes ${2:-1C,2W}${3:-} --window 4096"; }

# as_said NAME FILE: the command that the last run said, as it is printed, writes this file
mkdir bin && ln -s "$program" bin/rtcm2rinex
as_said() {
    grep -E '^(mkdir|cat|rtcm2rinex convert) ' err >said
    (PATH=$work/bin:$PATH && . ./said) >again 2>again_err
    same "$1_as_said" again "$2"
}

noon=2024-05-17T12:00:00
two="$noon until 2024-05-17T12:00:01 by"
one_command="$(command $noon)"
says "$two 1013" "$one_command one" '3 1 0 0 2 0 0 0 2'
auto one
# pins: span_line, span_line_if_any, KnownLines.file_lines, time_text, code_names, value_words, convert_words, command_text, same_by_hand, no_position_line
leaves one 0 one.rnx want_err; as_said one one.rnx
cp want_err one.err
# written NAME: standard error of `auto -o NAME one`
written() { cat one.err; echo "wrote $1: 2 epochs, G 2 satellites"; } >written.err
written file; auto -o file one; leaves one_to_a_file 0 /dev/null written.err; same one_in_its_file file one.rnx; rm file
[ "$(ls | grep '^file')" ] && wrong nothing_beside_the_file "$(ls file*)" || right nothing_beside_the_file
run auto --made 2024-05-17T13:00:00 --marker BASE "$examples/dated.rtcm"
leaves the_dated_example 0 "$examples/session.rnx" err
sed 's/^frames 54/frames 55/; s/^other 1/other 2/' "$examples/session.report" >want
grep -E '^(frames|other|refused|foreign|taken|repeat|conflict|late|epochs) ' err >counts; same counts_of_the_dated_example counts want
for links in "1 2" "2 1"; do
    run auto --made 2024-05-17T13:00:00 --marker BASE "$examples/dated_link${links% *}.rtcm" "$examples/dated_link${links#* }.rtcm"
    leaves "the_dated_links_$links" 0 "$examples/session.rnx" err
done

# finds WORDS SPAN COMMAND COUNTS STATUS FILE [LINES]: what is found, of captures and words that are odd; the file is that of the
# model, or else any, and the command that is said writes it too
finds() {
    eval "auto $1"
    says "$2" "$3" "$4" ${7:+"$(printf '%b' "$7")"}
    [ "$6" ] || cp out any
    name=found_$(echo "$1" | tr ' ' _)
    leaves "$name" "$5" "${6:-any}" want_err
    as_said "$name" "${6:-any}"
}
counts='3 1 0 0 2 0 0 0 2'
# pins: outside_line
finds one.nmea "$two 1013" "$one_command one.nmea" "$counts" 0 one.rnx ' outside-frames 96 in one.nmea'
# The frame of the second epoch has a bad checksum, and the last one of a capture without an epoch is cut.
finds bad_frame "$noon until $noon by 1013" "$one_command bad_frame" '2 1 0 0 1 0 0 0 1' 0 '' ' outside-frames 46 in bad_frame'
position=
finds 'cut_place one' "$two 1013" "cat cut_place one | $one_command stdin" '4 1 0 0 3 0 0 0 2' 0 '' ' no-epoch cut_place\n outside-frames 20 in cut_place'
position=$no_position
# pins: name_after_blank
finds '"a b"' "$two 1013" "$one_command 'a b'" "$counts" 0 one.rnx
finds '-- -5' "$two 1013" "$one_command ./-5" "$counts" 0 one.rnx
finds '--station 2003 stations' "$two 1013" "$one_command stations" '4 1 0 1 2 0 0 0 2' 0 one.rnx
# The 1013 of another station does not count, and its week, that of 2023-02-25, is told, also where --near agrees with the own one.
finds foreign "$two 1013" "$one_command foreign" '5 2 0 1 2 0 0 0 2' 0 one.rnx ' other-date 2023-02-24T12:00:00 by 1013 of station 7 in foreign'
finds '--near 2024-05-17T12:00:00 foreign' "$two --near" "$one_command foreign" '5 2 0 1 2 0 0 0 2' 0 one.rnx \
    ' other-date 2023-02-24T12:00:00 by 1013 of station 7 in foreign'
# pins: marker_chosen, station_words, convert_words
finds '--station 7 stations' "$noon until $noon by 1013 of station 2003" \
    "$(echo "$one_command" | sed 's/2003/0007/g; s/station 0007/station 7/') stations" '4 1 0 2 1 0 0 0 1' 0 ''
# pins: source_text, number_and_station
finds by_other "$noon until $noon by 1013 of station 7" "$one_command by_other" '2 1 0 0 1 0 0 0 1' 0 ''
# pins: source_text
for row in 'by_galileo 1045 2' 'by_galileo_later 1046 2' 'by_beidou 1042 3'; do
    set -- $row
    finds $1 "$noon until $noon by $2" "$one_command $1" "$3 $(($3 - 1)) 0 0 1 0 0 0 1" 0 ''
done
# A date of another station counts before the week of Galileo, which is told if it is another one; and a 1019 of the same week does.
finds by_other_and_galileo "$noon until $noon by 1013 of station 7" "$one_command by_other_and_galileo" '3 2 0 0 1 0 0 0 1' 0 '' \
    ' other-date 2024-05-10T12:00:00 by 1045 in by_other_and_galileo'
finds same_system_week "$noon until $noon by 1019 (or 2004-10-01, 2044-01-01)" "$one_command same_system_week" '3 2 0 0 1 0 0 0 1' 0 ''
# The week of Galileo tells that the 1019 means the week 1,024 before the latest one.
finds rolled_over "2004-10-01T12:00:00 until 2004-10-01T12:00:00 by 1045" "$(command 2004-10-01T12:00:00) rolled_over" '3 2 0 0 1 0 0 0 1' 0 '' \
    ' other-date 2024-05-17T12:00:00 by 1019 in rolled_over'
finds own_and_rolled_over "$two 1013" "$one_command own_and_rolled_over" '5 3 0 0 2 0 0 0 2' 0 one.rnx \
    ' other-date 2004-10-01T12:00:00 by 1045 in own_and_rolled_over'
# pins: weeks_ms, neighbours_text, week_text
finds by_week "$noon until $noon by 1019 (or 2004-10-01, 2044-01-01)" "$one_command by_week" '2 1 0 0 1 0 0 0 1' 0 ''
for row in '1981-01-01 1980-01-20 1999-09-05' '2024-06-01 2019-04-21 1999-09-05, 2038-12-05' '2100-12-31 2097-10-20 2078-03-06'; do
    set -- $row
    run auto --made "$1T00:00:00" early_week; grep "^ from" err >told
    echo " from $2T00:01:00 until $2T00:01:00 by 1019 (or $3${4+ $4})" >want
    # pins: neighbours_text, weeks_ms
    same "week_of_$1" told want
done
finds '--near 2024-05-20T12:00:00 one' "$two --near" "$one_command one" "$counts" 0 one.rnx
finds '--near 2024-06-18T12:00:00 one' "2024-06-21T12:00:00 until 2024-06-21T12:00:01 by --near" "$(command 2024-06-21T12:00:00) one" "$counts" 0 '' \
    ' other-date 2024-05-17T12:00:00 by 1013 of station 2003 in one'
finds '--near 2024-05-11T12:00:00 differ' "2024-05-10T12:00:00 until 2024-05-10T12:00:01 by --near" "$(command 2024-05-10T12:00:00) differ" '5 3 0 0 2 0 0 0 2' 0 '' \
    ' other-date 2024-05-17T12:00:00 by 1013 of station 2003 in differ\n other-date 2019-06-21T12:00:00 by 1019 in differ'
finds '--near 2024-05-17T12:00:00 differ' "$two --near" "$one_command differ" '5 3 0 0 2 0 0 0 2' 0 one.rnx \
    ' other-date 2024-05-10T12:00:00 by 1013 of station 2003 in differ\n other-date 2019-06-21T12:00:00 by 1019 in differ'
finds '--near 2024-06-18T12:00:00 differ' "2024-06-21T12:00:00 until 2024-06-21T12:00:01 by --near" "$(command 2024-06-21T12:00:00) differ" '5 3 0 0 2 0 0 0 2' 0 '' \
    ' other-date 2024-05-17T12:00:00 by 1013 of station 2003 in differ\n other-date 2024-05-10T12:00:00 by 1013 of station 2003 in differ\n other-date 2019-06-21T12:00:00 by 1019 in differ'
# Without --near the 1013 of the station counts, and a 1019 of another week is told.
finds other_week "$two 1013" "$one_command other_week" '4 2 0 0 2 0 0 0 2' 0 one.rnx ' other-date 2024-05-10T12:00:00 by 1019 in other_week'
finds same_week "$two 1013" "$one_command same_week" '4 2 0 0 2 0 0 0 2' 0 one.rnx
# With --near all captures are dated by it, and none is undated.
finds '--near 2024-05-17T12:00:00 later one' "$noon until 2024-05-17T12:00:03 by --near" "cat one later | $one_command stdin" '5 1 0 0 4 0 0 0 4' 0 ''
# pins: joined_bytes, cat_words, one_link_text, no_position_line
# pins: undated_line
finds 'later one' "$noon until 2024-05-17T12:00:03 by 1013" "cat one later | $one_command stdin" '5 1 0 0 4 0 0 0 4' 0 '' ' undated later: dated near the others'
# weeks NUMBER NAME: a line for each week before that of the file
weeks() { for week in $(seq "$1"); do echo " other-date $(date -u -d "2024-05-17 - $((7 * week)) days" +%F)T12:00:00 by 1013 of station 7 in $2"; done; }
# Sixteen dates of a capture are kept, and then others may have been told.
finds fifteen_weeks "$two 1013" "$one_command fifteen_weeks" '18 16 0 0 2 0 0 0 2' 0 one.rnx "$(weeks 15 fifteen_weeks)"
# pins: is_full, more_dates_line
finds sixteen_weeks "$two 1013" "$one_command sixteen_weeks" '19 17 0 0 2 0 0 0 2' 0 one.rnx "$(weeks 16 sixteen_weeks)\n more-dates in sixteen_weeks"
# A date after the time of making does not count, and is told.
# pins: date_to_come
finds 'one to_come' "$noon until 2024-05-17T12:00:02 by 1013" "cat one to_come | $one_command stdin" '5 2 0 0 3 0 0 0 3' 0 '' \
    ' undated to_come: dated near the others\n other-date 2024-07-09T12:00:00 by 1013 of station 2003 in to_come: it is after the time of making'
# Nor does an ephemeris whose week is after that of making.
# pins: ephemeris_to_come, system_week_to_come
finds galileo_to_come "$two 1013" "$one_command galileo_to_come" '4 2 0 0 2 0 0 0 2' 0 one.rnx \
    ' other-date 2024-06-02T01:00:00 by 1046 in galileo_to_come: it is after the time of making'
finds galileo_of_now "$two 1013" "$one_command galileo_of_now" '4 2 0 0 2 0 0 0 2' 0 one.rnx \
    ' other-date 2024-05-31T12:00:00 by 1046 in galileo_of_now'
# A date that is more than half a day from the epoch beside it dates that by its week, and is told.
# pins: is_far_from_epoch, far_head, far_epoch
finds tuesday '2024-05-24T12:00:00 until 2024-05-24T12:00:01 by 1013' "$(command 2024-05-24T12:00:00) tuesday" "$counts" 0 '' \
    ' other-date 2024-05-21T12:00:00 by 1013 of station 2003 in tuesday: it dates the epoch beside it as 2024-05-24T12:00:00'
finds monday "$two 1013" "$one_command monday" '5 3 0 0 2 0 0 0 2' 0 one.rnx \
    ' other-date 2024-05-19T12:00:03 by 1013 of station 2003 in monday: it dates the epoch beside it as 2024-05-17T12:00:01'
finds half_day "$two 1013" "$one_command half_day" "$counts" 0 one.rnx
finds over_half_day "$two 1029" "$one_command over_half_day" "$counts" 0 one.rnx \
    ' other-date 2024-05-18T00:00:01 by 1029 of station 2003 in over_half_day: it dates the epoch beside it as 2024-05-17T12:00:00'
finds behind_a_gap "$noon until 2024-05-18T01:00:00 by 1013" "$one_command behind_a_gap" '4 2 0 0 2 0 0 0 2' 0 ''
finds next_day "$two 1013" "$one_command next_day" '4 2 0 0 2 0 0 0 2' 0 one.rnx \
    ' other-date 2024-05-18T12:00:01 by 1013 of station 2003 in next_day: it dates the epoch beside it as 2024-05-17T12:00:00'
finds monday_of_another "$two 1013" "$one_command monday_of_another" '4 2 0 0 2 0 0 0 2' 0 one.rnx
position=
finds 'one position' "$two 1013" "cat position one | $one_command stdin" '4 1 0 0 3 0 0 0 2' 0 '' ' no-epoch position'
# a capture that begins with another station, before the one that tells which station is converted
finds 'positions one' "$two 1013" "cat positions one | $one_command stdin" '5 1 0 1 3 0 0 0 2' 0 '' ' no-epoch positions'
# Captures without an epoch, and those of the same time, go by their names.
# pins: by_bytes
finds 'positions one position' "$two 1013" "cat position positions one | $one_command stdin" '6 1 0 1 3 1 0 0 2' 0 '' ' no-epoch position\n no-epoch positions'
position=$no_position
# The first 1005 has zeros, and the header too, though a position follows.
# pins: is_zero
finds zeros "$noon until $noon by 1013" "$one_command zeros" '4 1 0 0 2 0 1 0 1' 0 '' ' conflict 1: later copies differ from the first, which the file has'
finds 'same.01 same.00' "$two 1013" "$one_command same.00 same.01" '6 2 0 0 4 0 0 0 2' 0 ''
finds '--links-as-given same.01 same.00' "$two 1013" "$one_command same.01 same.00" '6 2 0 0 4 0 0 0 2' 0 ''
# pins: step_ms, greatest_step_ms, written_gap_line, more_gaps_line
finds gaps "$noon until 2024-05-17T12:16:19 by 1013" "$one_command gaps" '28 1 0 0 27 0 0 0 27' 0 '' \
    ' gap 2024-05-17T12:13:57 until 2024-05-17T12:15:18\n gap 2024-05-17T12:12:36 until 2024-05-17T12:13:56\n gap 2024-05-17T12:11:16 until 2024-05-17T12:12:35\n gap 2024-05-17T12:09:57 until 2024-05-17T12:11:15\n gap 2024-05-17T12:08:39 until 2024-05-17T12:09:56\n gap 2024-05-17T12:07:22 until 2024-05-17T12:08:38\n gap 2024-05-17T12:06:06 until 2024-05-17T12:07:21\n gap 2024-05-17T12:04:51 until 2024-05-17T12:06:05\n gap 2024-05-17T12:03:37 until 2024-05-17T12:04:50\n gap 2024-05-17T12:02:24 until 2024-05-17T12:03:36\n more-gaps 2'
finds slow "$noon until 2024-05-17T12:11:30 by 1013" "$one_command slow" '6 1 0 0 5 0 0 0 5' 0 '' ' gap 2024-05-17T12:06:00 until 2024-05-17T12:11:30'
# pins: IsNearOf, epochs_line
finds falls "$noon until 2024-05-17T12:00:02 by 1013" "$(command 2024-05-17T12:00:01) falls" '4 1 0 0 3 0 0 0 3' 0 '' ' time-falls falls'
# pins: few_phases_line_if
finds few "$noon until 2024-05-17T12:00:03 by 1013" "$one_command few" '5 1 0 0 4 0 0 0 4' 0 '' \
    ' few-phases 2W: its satellites have more than twice as many in another code'
# pins: msm_line_of
finds stray "$two 1013" "$one_command stray" '5 2 0 0 3 0 0 0 2' 0 '' ' not in the file: GPS 1077, 1 messages'
# The epochs are those of the file: the second epoch has a 1074 alone.
# pins: doppler_of_system, doppler_line_of
finds '--msm 7 stray' "$noon until $noon by 1013" "$(command $noon 1C,2W ' --msm 7') stray" '5 3 0 0 2 0 0 0 1' 0 '' \
    ' not in the file: GPS 1074, 2 messages\n not in the file: Doppler of 1077, 1 messages'
finds of_1077 "$two 1013" "$(command $noon 1C ' --msm 7') of_1077" "$counts" 0 '' ' not in the file: Doppler of 1077, 2 messages'
finds '--msm 4 --codes 1C of_1077' "$two 1013" "$(command $noon 1C) of_1077" '3 3 0 0 0 0 0 0 0' 3 '' \
    ' not in the file: GPS 1077, 2 messages\nrtcm2rinex: no record came; the file is a header alone'
# Two copies with two epochs of 1077 are two links, so the 1074 has most epochs on one link, which are three.
cp of_1077 of_1077_2
finds 'of_1074 of_1077_2 of_1077' "$noon until 2024-05-17T12:00:02 by 1013" "$(command $noon 1C) of_1077 of_1077_2 of_1074" '10 7 0 0 3 0 0 0 3' 0 '' \
    ' not in the file: GPS 1077, 4 messages'
# Captures that follow one another are one link, with four epochs of 1077.
finds 'of_1077_later of_1074 of_1077' "$noon until 2024-05-17T12:00:03 by 1013" "mkdir joined &&
cat of_1077 of_1077_later >joined/1.rtcm &&
$(command $noon 1C ' --msm 7') joined/1.rtcm of_1074" '10 6 0 0 4 0 0 0 4' 0 '' \
    ' not in the file: GPS 1074, 3 messages\n not in the file: Doppler of 1077, 4 messages'
rm -r joined
finds with_others "$two 1013" "$one_command with_others" '7 5 0 0 2 0 0 0 2' 0 one.rnx \
    ' not in the file: GPS 1003, 1 messages\n not in the file: GLONASS 1012, 2 messages\n not in the file: GLONASS 1087, 1 messages\n refused M3 1087 1 in with_others'
finds short_msm "$two 1013" "$one_command short_msm" '6 4 0 0 2 0 0 0 2' 0 one.rnx \
    ' not in the file: GPS 1076, 1 messages\n not in the file: GPS 1077, 2 messages\n refused M3 1076 1 in short_msm\n refused M3 1077 2 in short_msm'
# Cells of a signal that no code names are left out, and MSM of GLONASS that tell no day are refused without 1012.
# pins: nameless_line, refused_number_line
finds nameless "$two 1013" "$(command $noon 1C,2W,E1C) nameless" '5 1 0 0 4 0 0 0 2' 0 '' ' unchecked E\n without-name E 1'
finds no_day "$two 1013" "$(command $noon 1C,2W,R1C ' --msm 4,R7') --channels 9:-2 no_day" '5 1 1 0 3 0 0 0 2' 0 '' \
    ' unchecked R\n not in the file: Doppler of 1087, 2 messages\n refused M4 1087 1 in no_day'
finds '--codes 5X one' "$two 1013" "$(command $noon 5X) one" '3 1 0 0 2 0 0 0 0' 3 '' \
    'rtcm2rinex: no record came; the file is a header alone'
# pins: skipped_line
finds '--skip-empty one.gz one empty zip' "$two 1013" "$one_command one" "$counts" 0 one.rnx \
    ' skipped empty is empty\n skipped one.gz looks like gzip; unpack it: gzip -dc one.gz >one.gz.rtcm\n skipped zip looks like zip; unpack it: unzip -p zip >zip.rtcm'
finds '--skip-empty --station 7 one stations' "$noon until $noon by 1013 of station 2003" \
    "$(echo "$one_command" | sed 's/2003/0007/g; s/station 0007/station 7/') stations" '4 1 0 2 1 0 0 0 1' 0 '' ' skipped one'
# labelled OPTIONS: the command of `label` for FILE
labelled() { printf '\nrtcm2rinex label%s FILE' "$1"; }
# pins: option_words, label_words, file_word, command_with, field_if_fits, antenna_field, label_told, is_null_antenna, fits_field, ToldLabel.is_printed
finds equipped "$two 1013" "$one_command equipped$(labelled " --antenna-type 'TRM55971.00     NONE' --antenna-number 1440911917 --receiver-type 'TRIMBLE NETR9' --receiver-version 4.48 --receiver-number 5148K72868")" '6 4 0 0 2 0 0 0 2' 0 one.rnx \
    ' changes-of-antenna-type 1 in equipped'
finds null_antenna "$two 1013" "$one_command null_antenna$(labelled " --receiver-type 'LEICA GRX1200+GNSS' --receiver-version 9.20 --receiver-number 496710")" '4 2 0 0 2 0 0 0 2' 0 one.rnx \
    ' not-in-label antenna-type names no antenna: ADVNULLANTENNA  NONE\n not-in-label antenna-serial is of no antenna: 12'
# pins: TextsLeftOut.reason, left_out_line, antenna_left_out, receiver_left_out, ToldLabel.is_blank, without_leading
finds only_null "$two 1013" "$one_command only_null" '4 2 0 0 2 0 0 0 2' 0 one.rnx ' not-in-label antenna-type names no antenna: GPPNULLANTENNA'
finds unfit "$two 1013" "$one_command unfit$(labelled " --antenna-type GPPNULLANTENNAS --antenna-number blank --receiver-number --'it'\\''s'")" '4 2 0 0 2 0 0 0 2' 0 one.rnx \
    ' not-in-label receiver-type has more than 20 characters: of 21 characters here\n not-in-label receiver-version has characters that are no printable ASCII: tab\\x09'
finds padded "$two 1013" "$one_command padded$(labelled " --antenna-type 'TRM55971.00     NONE' --antenna-number 144 --receiver-type 'TRIMBLE NETR9' --receiver-number 5148K72868")" '4 2 0 0 2 0 0 0 2' 0 one.rnx
# Satellites of SBAS in a 1004 are taken, unless their system is not asked for. A 1004 that has no other dates those of SBAS.
finds with_sbas "$noon until 2024-05-17T12:00:02 by 1013" "$(command $noon 1C,2W,S1C) with_sbas" '4 1 0 0 3 0 0 0 3' 0 ''
# pins: Sbas.is_sbas, sbas_line
finds '--systems G with_sbas' "$noon until 2024-05-17T12:00:02 by 1013" "$one_command with_sbas" '4 1 0 0 3 0 0 0 3' 0 '' ' not in the file: SBAS of 1004, 2 messages'
finds sbas_alone "$noon until $noon by 1013" "$(command $noon S1C) sbas_alone" '2 1 0 0 1 0 0 0 1' 0 ''
finds '--systems S sbas_alone' "$noon until $noon by 1013" "$(command $noon S1C) sbas_alone" '2 1 0 0 1 0 0 0 1' 0 ''
auto --systems G sbas_alone
expect sbas_alone_of_gps 3 '' 'rtcm2rinex: the captures have no observations that are read
 holds GPS 1004, 1 messages
 holds 1013, 1 messages'
# summary of SBAS in a 1004: its satellites and its code, also in the command
"$program" summary with_sbas | grep -E '^ (satellites|codes|unchecked|next)' >told
printf ' %s\n' 'satellites G05 G07 S20 S38' 'codes 1C,2W,S1C' \
    "next rtcm2rinex convert --station 2003 --near $noon --made \"\$(date -u +%FT%T)\" --marker 2003 --codes 1C,2W,S1C with_sbas" >want
same summary_of_sbas told want
finds without_sbas "$noon until $noon by 1013" "$one_command without_sbas" '2 1 0 0 1 0 0 0 1' 0 '' ' without-name G 1'
# pins: next_before, is_stray, stray_line
finds astray "$noon until 2024-05-19T12:00:00 by 1013" "$one_command astray" '4 1 0 0 3 0 0 0 3' 0 '' \
    ' gap 2024-05-17T12:00:02 until 2024-05-19T12:00:00\n stray astray 2024-05-19T12:00:00\n time-falls astray'
finds day_and_ms "$noon until 2024-05-18T12:00:00 by 1013" "$one_command day_and_ms" "$counts" 0 '' ' stray day_and_ms 2024-05-18T12:00:00'
finds one_day "$noon until 2024-05-18T12:00:00 by 1013" "$one_command one_day" "$counts" 0 ''
# Two captures have the stray epoch.
cp astray astray_2
finds 'astray_2 astray one' "$noon until 2024-05-19T12:00:00 by 1013" "$one_command one astray astray_2" '11 3 0 0 4 4 0 0 4' 0 '' \
    ' gap 2024-05-17T12:00:02 until 2024-05-19T12:00:00\n stray astray 2024-05-19T12:00:00\n stray astray_2 2024-05-19T12:00:00\n time-falls astray\n time-falls astray_2'
# Once the link of led_astray has its stray epoch, the other link is read to its end, so the last three messages are late.
# pins: late_by_stray, late_count_line
finds '--window 2 led_astray steady' "$noon until 2024-05-19T12:00:00 by 1013" "$(command $noon | sed 's/4096/2/') steady led_astray" '17 2 0 0 11 1 0 3 11' 0 '' \
    ' gap 2024-05-17T12:00:09 until 2024-05-19T12:00:00\n stray led_astray 2024-05-19T12:00:00\n late 3: observations after 2 newer epochs, and new positions after 2 epochs, are left out, 3 of them on a link with the stray epoch\n time-falls led_astray'
# A date in a capture without an epoch is its own moment, and counts if no capture with epochs tells a date.
position=
# pins: own_moment, own_moment_of_ephemeris, own_moment_of_system_week
finds 'undated dated_place' "$noon until $noon by 1013" "cat dated_place undated | $one_command stdin" '3 1 0 0 2 0 0 0 1' 0 '' ' undated undated: dated near the others\n no-epoch dated_place'
finds 'undated week_place' "$noon until $noon by 1019 (or 2004-10-01, 2044-01-01)" "cat week_place undated | $one_command stdin" '3 1 0 0 2 0 0 0 1' 0 '' ' undated undated: dated near the others\n no-epoch week_place'
finds 'undated galileo_place' "$noon until $noon by 1045" "cat galileo_place undated | $one_command stdin" '3 1 0 0 2 0 0 0 1' 0 '' ' undated undated: dated near the others\n no-epoch galileo_place'
finds 'galileo_place other_place undated' "2024-05-10T12:00:00 until 2024-05-10T12:00:00 by 1013 of station 7" "cat galileo_place other_place undated | $(command 2024-05-10T12:00:00) stdin" '5 2 0 0 2 1 0 0 1' 0 '' \
    ' undated undated: dated near the others\n other-date 2024-05-17T12:00:00 by 1045 in galileo_place\n no-epoch galileo_place\n no-epoch other_place'
cp week_place a_place # which names the moment of the first epoch too
finds 'a_place one' "$two 1013" "cat a_place one | $one_command stdin" '5 2 0 0 3 0 0 0 2' 0 '' ' no-epoch a_place'
finds 'old_place later one' "$noon until 2024-05-17T12:00:03 by 1013" "cat old_place one later | $one_command stdin" '7 2 0 0 5 0 0 0 4' 0 '' ' undated later: dated near the others\n other-date 2023-12-22T12:00:00 by 1013 of station 2003 in old_place\n no-epoch old_place'
# Of such dates those of the station count first, then those of 1019, and of these the earliest. A date of another week is told,
# also beside --near.
finds 'other_place dated_place undated' "$noon until $noon by 1013" "cat dated_place other_place undated | $one_command stdin" '5 2 0 0 2 1 0 0 1' 0 '' \
    ' undated undated: dated near the others\n other-date 2024-05-10T12:00:00 by 1013 of station 7 in other_place\n no-epoch dated_place\n no-epoch other_place'
finds 'other_place week_place undated' "$noon until $noon by 1019 (or 2004-10-01, 2044-01-01)" "cat other_place week_place undated | $one_command stdin" '5 2 0 0 2 1 0 0 1' 0 '' \
    ' undated undated: dated near the others\n other-date 2024-05-10T12:00:00 by 1013 of station 7 in other_place\n no-epoch other_place\n no-epoch week_place'
finds 'two_places undated' "$noon until $noon by 1013" "cat two_places undated | $one_command stdin" '4 2 0 0 2 0 0 0 1' 0 '' \
    ' undated undated: dated near the others\n other-date 2024-05-24T12:00:00 by 1013 of station 2003 in two_places\n no-epoch two_places'
# pins: dates_without_epoch
finds '--near 2024-05-24T12:00:00 dated_place undated' "2024-05-24T12:00:00 until 2024-05-24T12:00:00 by --near" "cat dated_place undated | $(command 2024-05-24T12:00:00) stdin" '3 1 0 0 2 0 0 0 1' 0 '' \
    ' other-date 2024-05-17T12:00:00 by 1013 of station 2003 in dated_place\n no-epoch dated_place'
position=$no_position
# GLONASS without epochs is dated near the others, or near the date that the capture names; a gap of more than half a week is not
# seen, but what follows it seems to come before.
of_glonass=" unchecked R\n no-channel R03: give --channels, as a header's GLONASS SLOT / FRQ # of the same days has them\n"
glonass_command="$(command $noon 1C,2W,R1C) --channels none"
finds 'glonass one' "$two 1013" "$glonass_command glonass one" '5 1 0 0 4 0 0 0 2' 0 '' \
    " undated glonass: dated near the others\n$of_glonass no-epoch glonass"
finds '--near 2024-05-17T12:00:00 glonass one' "$two --near" "$glonass_command glonass one" '5 1 0 0 4 0 0 0 2' 0 '' "$of_glonass no-epoch glonass"
finds 'glonass_2_days one' "$noon until 2024-05-19T12:00:00 by 1013" "cat one glonass_2_days | $glonass_command stdin" '5 2 0 0 3 0 0 0 3' 0 '' \
    " gap 2024-05-17T12:00:01 until 2024-05-19T12:00:00\n$of_glonass no-epoch glonass_2_days"
# pins: far_neighbour
finds 'glonass_next_day one' "$two 1013" "cat glonass_next_day one | $glonass_command stdin" '5 2 0 0 3 0 0 0 2' 0 '' \
    " other-date 2024-05-18T12:00:00 by 1013 of station 2003 in glonass_next_day: the message beside it is dated 2024-05-17T11:59:42\n$of_glonass no-epoch glonass_next_day"
finds '--near 2024-05-17T12:00:00 glonass_4_days one' "2024-05-14T12:00:00 until 2024-05-17T12:00:01 by --near" "cat glonass_4_days one | $glonass_command stdin" '6 2 0 0 4 0 0 0 4' 0 '' \
    " gap 2024-05-14T12:00:01 until 2024-05-17T12:00:00\n other-date 2024-05-24T12:00:00 by 1013 of station 2003 in glonass_4_days\n$of_glonass no-epoch glonass_4_days"
finds '--systems G glonass_4_days one' "$two 1013" "cat one glonass_4_days | $one_command stdin" '6 4 0 0 2 0 0 0 2' 0 '' \
    ' other-date 2024-05-24T12:00:00 by 1013 of station 2003 in glonass_4_days\n no-epoch glonass_4_days\n not in the file: GLONASS 1084, 2 messages'
finds glonass_on "$noon until 2024-05-20T23:59:59 by 1013" "$glonass_command glonass_on" '6 1 0 0 5 0 0 0 4' 0 '' \
    " gap 2024-05-17T12:00:01 until 2024-05-19T12:00:00\n gap 2024-05-19T12:00:00 until 2024-05-20T23:59:59\n${of_glonass%\\n}"
# pins: falling_clock_line, span_of_clock
finds glonass_over_a_gap "2024-05-14T12:00:00 until 2024-05-17T12:00:01 by 1013" "$glonass_command glonass_over_a_gap" '5 1 0 0 4 0 0 0 3' 0 '' \
    " gap 2024-05-14T12:00:00 until 2024-05-17T12:00:00\n time-falls glonass_over_a_gap\n${of_glonass%\\n}"
# What was told last counts by its time, and not by the order of the captures or of their begins.
# A text beside it, and how often a text changes within a capture, have a line.
# pins: time_or_first, CaptureEquipment.moment_told, field_after, other_named_line, changes_line
finds 'antenna_2 antenna_1' "$noon until 2024-05-17T12:00:03 by 1013" "cat antenna_1 antenna_2 | $one_command stdin$(labelled ' --antenna-type B')" '8 4 0 0 4 0 0 0 4' 0 '' \
    ' other-antenna-type A in antenna_1\n other-antenna-serial 1 in antenna_1'
finds 'antenna_3 antenna_1' "$noon until 2024-05-17T12:00:04 by 1013" "cat antenna_1 antenna_3 | $one_command stdin$(labelled ' --antenna-type A --antenna-number 1')" '7 4 0 0 3 0 0 0 3' 0 ''
finds 'antenna_3 antenna_2 antenna_1' "$noon until 2024-05-17T12:00:04 by 1013" "cat antenna_1 antenna_2 antenna_3 | $one_command stdin$(labelled ' --antenna-type A')" '11 6 0 0 5 0 0 0 5' 0 '' \
    ' other-antenna-serial 1 in antenna_1\n other-antenna-type B in antenna_2'
finds 'long short' "$noon until 2024-05-17T12:00:09 by 1013" "$one_command long short$(labelled ' --antenna-type NEW --antenna-number 2 --receiver-type R2')" '9 5 0 0 4 0 0 0 4' 0 '' \
    ' changes-of-antenna-type 1 in long\n changes-of-antenna-serial 1 in long\n changes-of-receiver-type 1 in long\n other-antenna-type OLD in short\n other-antenna-serial 1 in short\n other-receiver-type R1 in short'
# A capture that tells an antenna alone is of the station, and is not left out.
finds 'equipment_alone one' "$two 1013" "cat equipment_alone one | $one_command stdin$(labelled " --antenna-type 'TRM55971.00     NONE' --antenna-number 144 --receiver-type 'TRIMBLE NETR9' --receiver-version 4.48 --receiver-number 5148")" '5 3 0 0 2 0 0 0 2' 0 one.rnx ' no-epoch equipment_alone'
auto -o 'a file' equipped; cp err equipped.err; grep '^rtcm2rinex label' err >said
(PATH=$work/bin:$PATH && . ./said) >labelled_file 2>again_err
run label --blank labelled_file; leaves the_label_as_said 0 one.rnx /dev/null
sed -n 's/ *ANT # \/ TYPE *$//p' labelled_file >told; echo '1440911917          TRM55971.00     NONE' >want; same the_antenna_as_said told want
rm 'a file'
# --label puts it on, and leaves nothing beside. A file of a header alone gets it too; without one that fits it is the plain file.
# pins: label_if_any
auto --label -o 'a file' equipped; leaves label 0 /dev/null equipped.err; same the_file_with_its_label 'a file' labelled_file
rm 'a file'; auto --label -o 'a file' --codes 5X equipped; [ "$status" = 3 ] && right label_of_a_header || wrong label_of_a_header "$status"
run label --blank 'a file'; cp out plain; auto --codes 5X equipped; same the_header_with_its_label plain out
for capture in only_null one; do
    auto -f --label -o 'a file' $capture; [ "$status" = 0 ] && same "no_label_of_$capture" 'a file' one.rnx || wrong "no_label_of_$capture" "$status"
done
echo begun >'a file.part'; auto -f --label -o 'a file' equipped; same label_beside_another_run 'a file' labelled_file
[ "$(ls 'a file'*)" = "$(printf 'a file\na file.part')" ] && right no_file_beside_the_label || wrong no_file_beside_the_label "$(ls 'a file'*)"
rm 'a file' 'a file.part'
auto --label equipped
expect label_without_a_file 2 '' "$(error 'the following required arguments were not provided:
  --output <FILE>' 'auto --output <FILE> --made <T> --label <CAPTURE>...')"
# pins: word_text, marker_words
finds '--marker "NEW ROOF" one' "$two 1013" "$(echo "$one_command" | sed "s/--marker 2003/--marker 'NEW ROOF'/") one" "$counts" 0 ''
# pins: word_text, marker_words
finds '--marker --x one' "$two 1013" "$(echo "$one_command" | sed "s/--marker 2003/--marker --x/") one" "$counts" 0 ''
# pins: late_count_line, known_lines
finds '--window 2 --near 2024-05-17T12:00:00 '"$examples/late.rtcm" "$noon until 2024-05-17T12:00:05 by --near" \
    "$(command $noon | sed 's/4096/2/') $examples/late.rtcm" '6 0 0 0 5 0 0 1 5' 0 '' " late 1: observations after 2 newer epochs, and new positions after 2 epochs, are left out\n time-falls $examples/late.rtcm"
finds week_end "2024-05-18T23:59:50 until 2024-05-19T00:00:09 by 1013" "$(command 2024-05-18T23:59:50) week_end" '21 1 0 0 20 0 0 0 20' 0 week_end.rnx
position=
# A position that changes once the header is settled is late, though no newer epoch came.
finds '--window 2 moves_late' "$noon until 2024-05-17T12:00:02 by 1013" "$(command $noon | sed 's/4096/2/') moves_late" '6 1 0 0 4 0 0 1 3' 0 '' " late 1: observations after 2 newer epochs, and new positions after 2 epochs, are left out\n other-position moves_late"
links='here.0 here.1' # 100 m apart
conflict=' conflict 1: later copies differ from the first, which the file has'
# pins: conflicts_line, other_position_line
finds "here.1 here.0" "$noon until 2024-05-17T12:00:10 by 1013" "$one_command $links" '8 2 0 0 5 0 1 0 4' 0 '' "$conflict\n other-position here.1"
finds "--links-as-given here.2 here.0" "$noon until 2024-05-17T12:00:11 by 1013" "$one_command here.2 here.0" '8 2 0 0 5 0 1 0 4' 0 '' "$conflict\n other-position here.0"
sed "s/^frames 8/link 2 conflict 1005 -\n&/" want_err >want; auto --report --links-as-given here.2 here.0; leaves report 0 any want
position=$no_position
finds "$(seq -s ' ' -f 'same.%02.0f' 0 15)" "$two 1013" "$one_command $(seq -s ' ' -f 'same.%02.0f' 0 15)" '48 16 0 0 32 0 0 0 2' 0 ''

# A day of hours: in any order, with one that is compressed, and with hours that overlap by 30 s, which are two links.
counts='2928 24 0 0 2881 23 0 0 2880'
span='2024-05-17T00:00:00 until 2024-05-17T23:59:30 by 1013'
day_command=$(command 2024-05-17T00:00:00)
position=
hours=$(seq -s ' ' -f 'day/%.0f' 0 23)
for order in "$hours" "$(echo day/*)" "$(seq -s ' ' -f 'day/%.0f' 23 -1 0)" "$(seq -f 'day/%.0f' 0 23 | shuf --random-source="$program" | tr '\n' ' ')"; do
    says "$span" "cat $hours | $day_command stdin" "$counts"
    auto $order; leaves "a_day_in_the_order_of_$(echo "$order" | cut -c 1-20 | tr ' ' _)" 0 day.rnx want_err
done
as_said a_day day.rnx
gzip -k day/7
auto -o file $(echo "$hours" | sed 's|day/7|&.gz|'); unfinished
expect a_day_with_an_hour_that_is_compressed 3 '' 'rtcm2rinex: captures have nothing of station 2003; --skip-empty leaves them out
 day/7.gz looks like gzip; unpack it: gzip -dc day/7.gz >day/7.gz.rtcm'
sed 's/^> 2024 05 17 07/#&/; /^#/,/^> 2024 05 17 08/{/^> 2024 05 17 08/!d}' day.rnx >want
says "$span" "cat $(echo "$hours" | sed 's|day/7 ||') | $day_command stdin" '2806 23 0 0 2761 22 0 0 2760' ' gap 2024-05-17T06:59:30 until 2024-05-17T08:00:00' ' skipped day/7.gz looks like gzip; unpack it: gzip -dc day/7.gz >day/7.gz.rtcm'
auto --skip-empty $(echo "$hours" | sed 's|day/7|&.gz|'); leaves a_day_without_an_hour 0 want want_err
even=$(seq -s ' ' -f 'overlapping/%.0f' 0 2 22) odd=$(seq -s ' ' -f 'overlapping/%.0f' 1 2 23)
says '2024-05-17T00:00:00 until 2024-05-18T00:00:30 by 1013' "mkdir joined &&
cat $even >joined/1.rtcm &&
cat $odd >joined/2.rtcm &&
$day_command joined/1.rtcm joined/2.rtcm" '2976 24 0 0 2883 69 0 0 2882'
auto overlapping/*
# pins: joined_name, join_line, link_word, folder_line, several_links_text
leaves a_day_of_two_links 0 overlapping.rnx want_err
as_said a_day_of_two_links overlapping.rnx

# The present is the file's making: that of a variable, or of the clock.
SOURCE_DATE_EPOCH=1717246800 "$program" auto one >out 2>err; status=$?; leaves a_present_of_a_variable 0 one.rnx one.err
before=$(date -u +%Y%m%d%H%M%S); env -u SOURCE_DATE_EPOCH "$program" auto one >out 2>err; after=$(date -u +%Y%m%d%H%M%S)
shown=$(sed -n '2s/.* \([0-9]*\) \([0-9]*\) UTC .*/\1\2/p' out)
if [ "$before" -le "$shown" ] && [ "$shown" -le "$after" ]; then right a_present_of_the_clock; else wrong a_present_of_the_clock "$shown"; fi
# A date counts from the day before on.
run auto --made 2024-05-15T23:59:59 one; expect a_date_after_the_present 3 '' 'rtcm2rinex: the captures tell no date; give one, as in --near GPS-TIME-WITHIN-HALF-A-WEEK
 2024-05-17T12:00:00 by 1013 of station 2003 in one: it is after the time of making'
run auto --made 1990-01-01T00:00:00 week_to_come; expect a_week_after_the_present 3 '' 'rtcm2rinex: the captures tell no date; give one, as in --near GPS-TIME-WITHIN-HALF-A-WEEK
 1991-07-07T00:00:16 by 1019 in week_to_come: it is after the time of making'
run auto --made 2024-05-16T00:00:00 one; [ "$status" = 0 ] && right a_date_of_tomorrow || wrong a_date_of_tomorrow "$status"

position=$no_position
# A FILE that is there stays, but with -f; an output that is a capture is never taken, by whatever name.
echo old >file; echo old >want
auto -o file one; expect a_file_that_is_there 1 '' 'rtcm2rinex: file is there, and -f would replace it'; same it_stays file want
chmod 640 file; auto -f -o file one; leaves a_file_that_is_replaced 0 /dev/null written.err; same it_is_replaced file one.rnx
# Its permissions stay. A file without a record does not replace it; where no FILE is, it is written.
[ "$(stat -c %a file)" = 640 ] && right it_keeps_its_permissions || wrong it_keeps_its_permissions "$(stat -c %a file)"
says "$two 1013" "$(command $noon 5X) one" '3 1 0 0 2 0 0 0 0' 'rtcm2rinex: no record came; file stays as it was'
auto -f -o file --codes 5X one; leaves a_file_and_no_record 3 /dev/null want_err; same the_good_file_stays file one.rnx
[ "$(ls file*)" = file ] && right no_header_beside || wrong no_header_beside "$(ls file*)"
mv file 'a file'; auto -f -o 'a file' --codes 5X one; tail -n 1 err >told; echo "rtcm2rinex: no record came; 'a file' stays as it was" >want
same a_file_with_a_blank_and_no_record told want; rm 'a file'
says "$two 1013" "$(command $noon 5X) one" '3 1 0 0 2 0 0 0 0' 'rtcm2rinex: no record came; the file is a header alone'
echo 'wrote file: no epochs' >>want_err
auto --codes 5X one; cp out want; auto -f -o file --codes 5X one; leaves no_file_and_no_record 3 /dev/null want_err; same the_header_alone file want; rm file
auto -o - one; expect an_output_of_a_hyphen 2 '' 'rtcm2rinex: -o - names no file; leave out -o for standard output, or say -o ./-'
written ./-; auto -o ./- one; leaves an_output_of_this_name 0 /dev/null written.err; same it_has_this_name ./- one.rnx; rm ./-
cp one kept
for name in one ./one linked other_name folder/../one; do
    for force in '' -f; do
        auto $force -o "$name" later one; expect "output_${name}_$force" 1 '' 'rtcm2rinex: the output is one of the captures'
    done
done
for name in one linked other_name; do
    "$program" auto --made $made later one >>"$name" 2>err; status=$?; : >out
    expect "appended_to_$name" 1 '' 'rtcm2rinex: the output is one of the captures'
done
same the_capture_stays one kept
ln -s nowhere dangling
auto -o dangling one; expect an_output_that_is_a_link 1 '' 'rtcm2rinex: dangling is there, and -f would replace it'
auto -f -o dangling one; expect an_output_that_is_a_link_and_force 1 '' 'rtcm2rinex: dangling is no regular file'
# A file that another run began stays.
echo begun >new.part; cp new.part want
written new; auto -o new one; leaves beside_another_run 0 /dev/null written.err; same its_file new one.rnx; same the_other_run new.part want
[ "$(ls new*)" = "$(printf 'new\nnew.part')" ] && right no_file_more || wrong no_file_more "$(ls new*)"
# No file is made there, which is seen before a capture is read: this one would be refused.
auto -o nowhere/file one.gz; expect no_folder 1 '' 'rtcm2rinex: cannot write beside nowhere/file'
auto -o 'no where/file' one; expect a_folder_with_a_blank 1 '' "rtcm2rinex: cannot write beside 'no where/file'"
echo old >'a file'; auto -o 'a file' one; expect a_file_with_a_blank 1 '' "rtcm2rinex: 'a file' is there, and -f would replace it"
head -n 2 one.err >lines
# A full disk: nothing is left of FILE, and a FILE that is there stays. Without a reader of standard error FILE is written.
install
{ cat lines; echo 'rtcm2rinex: write failed'; } >want
for force in '' -f; do
    [ "$force" ] && echo old >file
    limited 600 installed/bin/rtcm2rinex auto --made $made $force -o file one >out 2>err; status=$?
    leaves "a_full_disk_$force" 1 /dev/null want
    [ "$(cat file* 2>&1)" = "$([ "$force" ] && echo old || cat 'file*' 2>&1)" ] && right "no_part_$force" || wrong "no_part_$force" "$(ls)"
    "$program" auto --made $made $force -o file one >out 2>&-; status=$?; : >err
    leaves "closed_standard_error_$force" 1 /dev/null /dev/null; same "its_file_$force" file one.rnx; rm file
    [ "$force" ] && echo old >file
    "$program" auto --made $made $force --report -o file one >out 2>/dev/full; status=$?; : >err
    leaves "full_standard_error_$force" 1 /dev/null /dev/null; same "its_file_with_a_report_$force" file one.rnx; rm file
    "$program" auto --made $made $force -o file --codes 5X one >out 2>&-; status=$?; : >err
    leaves "a_header_and_closed_standard_error_$force" 1 /dev/null /dev/null; rm file
done
"$program" auto --made $made one >out 2>&-; status=$?; : >err; leaves an_output_and_closed_standard_error 1 one.rnx /dev/null
"$program" auto --made $made one >/dev/full 2>err; status=$?; : >out
leaves a_full_output 1 /dev/null want
# A capture that changes between its two readings. reread CHANGE WORD..: `auto`, while this command changes the capture `grows`.
reread() {
    cp one grows
    change=$1
    shift
    python3 -B "$root/tests/program/rereading.py" "$change" grows "$program" auto --made $made "$@" >out 2>err
    status=$?
}
sed 's/ one$/ grows/' lines >said
# Its bytes are others, or fewer: a byte of its first frame, its first byte alone, its end, or all of it.
{ cat said; echo 'rtcm2rinex: grows has changed since it was read first'; } >want
while IFS='|' read -r name change <&3; do
    reread "$change" -o file grows; unfinished; leaves "a_capture_$name" 1 /dev/null want
done 3<<'ROWS'
with_another_byte|printf x | dd of="$1" bs=1 seek=10 conv=notrunc status=none
that_begins_otherwise|printf x | dd of="$1" bs=1 conv=notrunc status=none
that_ends_otherwise|size=$(wc -c <"$1"); printf x | dd of="$1" bs=1 seek=$((size - 1)) conv=notrunc status=none
that_lacks_a_byte|truncate -s -1 "$1"
that_is_empty|: >"$1"
that_is_longer_and_another|cat one >>"$1"; printf x | dd of="$1" bs=1 seek=10 conv=notrunc status=none
ROWS
reread 'printf x | dd of="$1" bs=1 seek=10 conv=notrunc status=none' grows; [ "$status" = 1 ] && cmp -s err want && right a_capture_with_another_byte_to_standard_output || wrong a_capture_with_another_byte_to_standard_output "$status $(cat err)"
{ cat said; echo 'rtcm2rinex: read failed'; } >want
reread 'rm "$1"' -o file grows; unfinished; leaves a_capture_that_is_gone 1 /dev/null want
# It has grown: the file has what its first bytes told, and a line says so.
{ cat said; sed '1,2d' one.err; echo " grown grows: what came after its first $(wc -c <one | tr -d ' ') bytes is not in the file"; echo 'wrote file: 2 epochs, G 2 satellites'; } >want
reread 'cat one >>"$1"' -o file grows; leaves a_capture_that_has_grown 0 /dev/null want; same its_first_bytes file one.rnx; rm file
# It is as it was, though it was written again.
{ cat said; sed '1,2d' one.err; echo 'wrote file: 2 epochs, G 2 satellites'; } >want
reread 'cp one "$1"' -o file grows; leaves a_capture_that_is_written_again 0 /dev/null want; same the_same_bytes file one.rnx; rm file
# Of two captures one changes.
cp 'one' grows; reread 'printf x >>"$1"; truncate -s 10 "$1"' -o file here.0 grows; tail -n 1 err >told; echo 'rtcm2rinex: grows has changed since it was read first' >want
same the_second_capture told want; [ ! -e file ] && right no_file_of_the_second || wrong no_file_of_the_second "$(ls file*)"

ends
