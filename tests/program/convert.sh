#!/bin/sh
# Runs `convert` as a user does. The program is $1.
. "$(dirname "$(readlink -f "$0")")/common"
examples=$root/examples
near=2024-05-17T12:00:00
made=2024-05-17T13:00:00
options="--station 2003 --near $near --made $made --marker BASE"

# fails NAME STATUS LINE: nothing is out, and standard error has this fault line alone
fails() {
    printf 'rtcm2rinex: %s\n' "$3" >want_err
    leaves "$1" "$2" /dev/null want_err
}

# convert CODES WORD..: of station 2003 near noon, marker BASE; standard input as it is
convert() {
    codes=$1
    shift
    run convert $options --codes "$codes" "$@"
}

# words NEAR MADE MARKER CODES LINK..
words() {
    near_=$1 made_=$2 marker_=$3 codes_=$4
    shift 4
    run convert --station 2003 --near "$near_" --made "$made_" --marker "$marker_" --codes "$codes_" "$@"
}

report 2 0 0 0 2 0 0 0 1 >base.report
base=$examples/base.rtcm
session=$examples/session
first=$examples/session_link1.rtcm
second=$examples/session_link2.rtcm

# The captures of examples/, with the files and reports that they are due.
convert 1C,2W --window 2 stdin <"$base"; leaves window_of_2 0 "$examples/base.rnx" base.report
convert 1C,2W,5X "$session.rtcm";        leaves session 0 "$session.rnx" "$session.report"
convert 1C,2W,5X "$first" "$second";     leaves two_links 0 "$session.rnx" "$examples/session_links.report"
run convert "$first" $options --codes 1C,2W,5X "$second"
leaves links_on_both_sides_of_the_options 0 "$session.rnx" "$examples/session_links.report"
convert 1C,2W,5X "$second" "$first";            leaves two_links_exchanged 0 "$session.rnx" "$examples/session_links.report"
convert 1C,2W,5X stdin "$second" <"$first";     leaves standard_input_and_a_file 0 "$session.rnx" "$examples/session_links.report"
convert 1C,2W --window 2 "$examples/late.rtcm"; leaves late_epoch 0 "$examples/late.rnx" "$examples/late.report"

# Names that begin with the word, or have its letters as capitals, are files: standard input is closed, or one link of three.
cp "$base" stdin; cp "$base" STDIN; cp "$base" stdin.rtcm; mkdir folder
convert 1C,2W ./stdin <&-; leaves file_of_the_name_stdin_while_it_is_closed 0 "$examples/base.rnx" base.report
report 4 0 0 0 2 2 0 0 1 >two.report
# refuses: a name that is changed before it is opened, or taken for standard input
convert 1C,2W STDIN stdin.rtcm <&-; leaves files_of_names_like_stdin 0 "$examples/base.rnx" two.report
report 6 0 0 0 2 4 0 0 1 >three.report
report 32 0 0 0 2 30 0 0 1 >sixteen.report
# refuses: a word beyond the thirtieth that is left out
convert 1C,2W --window 600 --msm 4 -- $(yes "$base" | head -n 16)
leaves sixteen_links_after_all_options 0 "$examples/base.rnx" sixteen.report
# pins: is_stdin
# refuses: a name that is changed before it is opened, or taken for standard input
convert 1C,2W stdin.rtcm stdin STDIN <"$base"; leaves standard_input_and_names_like_it 0 "$examples/base.rnx" three.report
bash -c 'program=$0 first=$1 second=$2; shift 2; "$program" convert "$@" <(cat "$first") <(cat "$second")' \
    "$program" "$first" "$second" $options --codes 1C,2W,5X >out 2>err; status=$?
leaves two_pipes_of_the_shell 0 "$session.rnx" "$examples/session_links.report"
# An empty capture, whose file is a header with a position of zeros.
sed -n '1,14p' "$examples/base.rnx" |
    sed 's/^  1114104.5999 -4850729.7108  3975521.4643/        0.0000        0.0000        0.0000/' >empty.rnx
report 0 0 0 0 0 0 0 0 0 >empty.report
convert 1C,2W stdin; leaves empty_capture 0 empty.rnx empty.report

# The file can be followed, wherever standard input stands: the records of closed epochs are out while it is open, and
# so are the line of a late message and the short one of an empty frame.
# waits FILE COUNT: until the file has so many lines, for ten minutes
waits() {
    for _ in $(seq 3000); do
        [ "$(wc -l <"$1")" -lt "$2" ] || break
        sleep 0.2
    done
}
# follow NAME REPORT LINK..
follow() {
    name=$1 report=$2
    shift 2
    "$program" convert $options --codes 1C,2W --window 2 "$@" <capture >out 2>err &
    running=$!
    exec 9>capture
    head -c 184 "$examples/late.rtcm" >&9
    waits out 20
    same "$name" out followed
    same "${name}_report" err /dev/null
    tail -c +185 "$examples/late.rtcm" | head -c 46 >&9
    waits err 1
    head -n 1 "$report" >first_line
    same "${name}_late" err first_line
    printf '\323\000\000\107\352\113' >&9
    waits err 2
    { cat first_line; sed 's/ late .*/ refused M1 -/' first_line; } >two_lines
    same "${name}_refused" err two_lines
    tail -c +231 "$examples/late.rtcm" >&9
    exec 9>&-
    wait $running
    status=$?
    { cat two_lines; sed '1d; s/^frames 6/frames 7/; s/^refused 0/refused 1/' "$report"; } >whole_report
    leaves "${name}_to_its_end" 0 "$examples/late.rnx" whole_report
}
mkfifo capture
: >nothing
sed -n '1,20p' "$examples/late.rnx" >followed
sed 's/^link 1/link 2/' "$examples/late.report" >late.report
# refuses: a report that is gathered although standard input is one of several links
follow followed late.report nothing stdin nothing
follow followed_first "$examples/late.report" stdin nothing
# refuses: standard input that is not seen among other links
follow followed_between late.report nothing stdin nothing

# Links that can't be opened, and links that can't be read. If one can't be opened, nothing is read and nothing is out.
convert 1C nowhere "$base";                        fails missing_link 1 'cannot open nowhere'
convert 1C "$base" nowhere;                        fails missing_link_after_another 1 'cannot open nowhere'
{ convert 1C stdin nowhere; cat >rest; } <"$base"; fails missing_link_after_standard_input 1 'cannot open nowhere'
same nothing_read_before_all_links_are_open rest "$base"
# A closed standard input, in any order of the links. A file that is opened then has its descriptor, and isn't read for it.
# refuses: a file that is not opened since standard input is closed
convert 1C stdin "$base" <&-; fails closed_standard_input_before_a_file 1 'read failed'
convert 1C "$base" stdin <&-; fails closed_standard_input_after_a_file 1 'read failed'
# refuses: standard input that is not seen among other links
convert 1C "$base" stdin "$base" <&-; fails closed_standard_input_between_files 1 'read failed'
# refuses: standard input that is not seen among other links
convert 1C $(yes stdin.rtcm | head -n 15) stdin <&-; fails closed_standard_input_after_fifteen_files 1 'read failed'
convert 1C stdin "$base" nowhere <&-;                fails closed_standard_input_and_a_missing_link 1 'cannot open nowhere'
convert 1C "$base" nowhere stdin <&-;                fails a_missing_link_and_closed_standard_input 1 'cannot open nowhere'
convert 1C stdin "$base" <folder;                    fails a_directory_as_standard_input_and_a_file 1 'read failed'
convert 1C,2W "$base" <&-;                           leaves a_file_and_closed_standard_input 0 "$examples/base.rnx" base.report
cat "$first" | "$program" convert $options --codes 1C,2W,5X "$second" stdin >out 2>err; status=$?
leaves a_file_and_a_pipe 0 "$session.rnx" "$examples/session_links.report"

# A link that fails after epochs have closed: these and their report are out. Both streams in one place: the file comes first.
convert 1C,2W --window 2 "$examples/late.rtcm" folder
sed -n '1,23p' "$examples/late.rnx" >part
{ head -n 1 "$examples/late.report"; echo 'rtcm2rinex: read failed'; } >part_err
leaves a_link_that_fails_later 1 part part_err
"$program" convert $options --codes 1C,2W --window 2 "$examples/late.rtcm" folder >out 2>&1; status=$?
cat part part_err >both; : >err
# refuses: a report that is written before the rest of the file where a conversion breaks off
leaves part_of_a_file_before_its_report 1 both /dev/null
"$program" convert $options --codes 1C,2W "$base" >out 2>&1; status=$?
cat "$examples/base.rnx" base.report >both; : >err
leaves file_before_report 0 both /dev/null

# Our own refusals. Where more than one word is bad the first cause counts: the forms of the times, the codes' names, the
# marker, the list of codes, the links, and last a reference near which nothing is dated.
sixteen='1C,1P,1W,1S,1L,1X,2C,2D,2P,2W,2S,2L,2X,5I,5Q,5X'
# pins: IsFirstCause
words '' '' '' '' stdin stdin;                      fails form_of_near 2 'bad --near'
words 2101-01-01T00:00:00 '' BASE 1C x;             fails year_2101 2 'bad --near'
# refuses: blanks that are taken away beside a time, a code or a number
words " $near" $made BASE 1C x;                     fails near_after_a_blank 2 'bad --near'
# refuses: blanks that are taken away beside a time, a code or a number
words "$near " $made BASE 1C x;                     fails near_before_a_blank 2 'bad --near'
words $near '' '' '' stdin stdin;                   fails form_of_made 2 'bad --made'
words $near 2024-05-17 BASE 1C,9Z x;                fails date_alone 2 'bad --made'
words $near $made '' '' stdin stdin;                fails no_code 2 'bad --codes'
words $near $made ' X' 1C,9Z x;                     fails unknown_code 2 'bad --codes'
words $near $made ' X' 1C,1C stdin stdin;           fails marker 2 'bad --marker'
words $near $made '' 1C,1C stdin stdin;             fails empty_marker 2 'bad --marker'
words $near $made 'X ' 1C x;                        fails marker_with_a_blank_at_its_end 2 'bad --marker'
words $near $made "$(printf '%061d' 0)" 1C x;       fails marker_of_61_characters 2 'bad --marker'
words $near $made "$(printf '%060d' 0)" 1C nowhere; fails marker_of_60_characters 1 'cannot open nowhere'
words $near $made 'Bäse' 1C x;                      fails marker_beyond_ascii 2 'bad --marker'
# Good texts and 256 characters more, which are no good ones.
more=$(printf '%0256d' 0)
# refuses: a first part of a text or of a list of links that is taken for all of it
words $near $made "BASE$more" 1C x;                 fails marker_of_260_characters 2 'bad --marker'
# refuses: a first part of a text or of a list of links that is taken for all of it
words "$near$more" $made BASE 1C x;                 fails near_and_256_characters 2 'bad --near'
words $near "$made$more" BASE 1C x;                 fails made_and_256_characters 2 'bad --made'
words $near $made BASE "1C$more" x;                 fails codes_and_256_characters 2 'bad --codes'
words $near $made X 1C,1C stdin stdin;              fails repeated_code 2 'bad --codes'
words $near $made X 1C,2W,1C stdin stdin;           fails repeated_first_code 2 'bad --codes'
words $near $made X $sixteen,1C x;                  fails seventeen_codes 2 'bad --codes'
words $near $made X $sixteen,$sixteen x;            fails thirty_two_codes 2 'bad --codes'
words $near $made X $sixteen nowhere;               fails sixteen_codes 1 'cannot open nowhere'
words 1980-01-06T00:00:00 $made X 1C stdin stdin;   fails standard_input_twice 2 'bad links'
words $near $made X 1C stdin a stdin;               fails standard_input_twice_apart 2 'bad links'
# pins: AreLinkNames
words $near $made X 1C $(seq 17);                   fails seventeen_links 2 'bad links'
# pins: AreLinkNames
words $near $made X 1C $(seq 200);                  fails two_hundred_links 2 'bad links'
run convert $(seq 200) $options --codes 1C; fails two_hundred_links_before_the_options 2 'bad links'
# as many as one and as sixteen links, where only the last byte of the number is looked at
# pins: AreLinkNames
# refuses: a first part of a text or of a list of links that is taken for all of it
words $near $made X 1C $(seq 257);                  fails links_257 2 'bad links'
# refuses: a first part of a text or of a list of links that is taken for all of it
words $near $made X 1C $(seq 4112);                 fails links_4112 2 'bad links'
# pins: AreLinkNames
words $near $made X 1C nowhere $(seq 2 16);         fails sixteen_links 1 'cannot open nowhere'
words 1980-01-06T00:00:00 '' X 1C nowhere;          fails reference_out_of_range_and_no_making 2 'bad --made'
words 1980-01-06T00:00:00 $made ' X' 1C,9Z nowhere; fails reference_out_of_range_and_no_code 2 'bad --codes'
words 1980-01-06T00:00:00 $made ' X' 1C,1C nowhere; fails reference_out_of_range_and_a_bad_marker 2 'bad --marker'
words 1980-01-06T00:00:00 $made X 1C,1C nowhere;    fails reference_out_of_range_and_a_repeated_code 2 'bad --codes'
words 1980-01-06T00:00:00 $made X 1C nowhere;       fails reference_out_of_range 2 'bad --near'
words 1980-01-12T23:59:59 $made X 1C nowhere;       fails reference_too_early 2 'bad --near'
words 1980-01-13T00:00:00 $made X 1C nowhere;       fails earliest_reference 1 'cannot open nowhere'
words 2100-01-01T00:00:00 $made X 1C nowhere;       fails reference_too_late 2 'bad --near'
# pins: IsFirstCause
words 2099-12-31T23:59:59 $made X 1C nowhere;       fails latest_reference 1 'cannot open nowhere'

# Texts that write no moment, some of which begin with a hyphen, and texts that list no codes.
for text in 2024-05-17 '2024-05-17 12:00:00' 2024-05-17t12:00:00 2024-05-17T12:00:00Z 2024-05-17T12:00:0 \
    2024-5-17T12:00:00 2024-05-17T12-00-00 +024-05-17T12:00:00 2024-05-17T1:200:00 2024-05-17T12:00:0/ \
    2024-05-17T12:00:0: 2024-02-30T00:00:00 2023-02-29T00:00:00 2024-13-01T00:00:00 2024-00-01T00:00:00 \
    2024-05-17T24:00:00 2024-05-17T12:60:00 2024-05-17T13:00:60 2016-12-31T23:59:60 1980-01-05T23:59:59 \
    2101-01-01T00:00:00 2024-05-17T13:00:00.000 ' 2024-05-17T13:00:00' '2024-05-17T13:00:00 ' \
    2024/05/17T13:00:00 2024.05.17T13:00:00 '2024 05 17T13:00:00' 2024:05:17T13:00:00 2024-05-17T13.00.00 \
    '2024-05-17T13 00 00' 17-05-2024T13:00:00 05-17-2024T13:00:00 -2024-05-17T13:00:00 -024-05-17T13:00:00 2-24-05-17T13:00:00 \
    2024--5-17T13:00:00 2024-0-517T13:00:00 202405--17T13:00:00 2024-05-1-T13:00:00 2024-05-17-13:00:00 2024-05-17T-3:00:00 \
    2024-05-17T13:-1:00 2024-05-17T13:00:-1 2024-05-17T13:00:00- - 2024-05-17T13:00:00,x; do
    run convert --station 2003 --near=$near "--made=$text" --marker BASE --codes 1C x
    fails "made=$text" 2 'bad --made'
    run convert --station 2003 "--near=$text" --made=$made --marker BASE --codes 1C x
    fails "near=$text" 2 'bad --near'
done
for text in , 1 1C, ,1C 1C,,2W 1c '1C 2W' '1C, 2W' ' 1C' '1C ' 1C,9Z 1CC 1C,2; do
    words $near $made BASE "$text" x
    fails "codes_$text" 2 'bad --codes'
done

# All are refused with the same line.
# refused_alike NAME LINE
refused_alike() {
    sort -u told >each
    echo "2 rtcm2rinex: $2" >want
    same "$1" each want
}
# Standard input in any two of sixteen places.
for first in $(seq 15); do
    for second in $(seq $((first + 1)) 16); do
        words $near $made X 1C $(seq 16 | sed "${first}s/.*/stdin/; ${second}s/.*/stdin/")
        echo "$status $(cat out err)"
    done
done >told
# pins: AreLinkNames, is_stdin
refused_alike standard_input_in_any_two_places 'bad links'
# No printable character but a comma stands between two codes.
for number in $(seq 32 43) $(seq 45 126); do
    words $near $made BASE "1C$(printf "\\$(printf %03o "$number")")2W" x
    echo "$status $(cat out err)"
done >told
# pins: ListsCodes
refused_alike no_other_character_between_codes 'bad --codes'
# No character of a moment is another one: none of these in any place, and no digit where none is.
for place in $(seq 19); do
    for sign in - : / . ' ' + T t x Z; do
        text=$(echo $made | sed "s|.|$sign|$place")
        case $place$sign in 1-) continue ;; esac
        [ "$text" != $made ] || continue
        words $near "$text" BASE 1C x
        echo "$status $(cat out err)"
    done
    case $place in 5 | 8 | 11 | 14 | 17) ;; *) continue ;; esac
    words $near "$(echo $made | sed "s|.|0|$place")" BASE 1C x
    echo "$status $(cat out err)"
done >told
# pins: WritesMoment
refused_alike no_other_character_of_a_moment 'bad --made'

# The same of good texts, of an empty capture: the making and the types stand in the header.
# header NAME MADE MARKER TYPES: the file is the empty one with these
header() {
    sed -e "2s/20240517 130000/$2/" -e "3s/^BASE.*MARKER/$(printf '%-60s' "$3")MARKER/" \
        -e "10s/^.*SYS/$(printf '%-60s' "$4")SYS/" empty.rnx >want_out
    leaves "$1" 0 want_out empty.report
}
words $near 1980-01-06T00:00:00 BASE 1C nothing; header first_making '19800106 000000' BASE 'G    3 C1C L1C S1C'
# pins: WritesMoment
words $near 2024-02-29T23:59:59 BASE 5X,2W nothing;   header leap_day '20240229 235959' BASE 'G    6 C5X L5X S5X C2W L2W S2W'
words $near 2100-12-31T23:59:59 BASE 1C,2D,1P nothing
header last_making '21001231 235959' BASE 'G    9 C1C L1C S1C C2D L2D S2D C1P L1P S1P'
# Without records the first time is the reference, here in the last second of a week.
words 2024-05-18T23:59:59 $made BASE 1C,2W nothing
sed '12s/17    12     0    0/18    23    59   59/' empty.rnx >want_out
# pins: SaysSetup
leaves reference_in_the_last_second_of_a_week 0 want_out empty.report

# A marker may begin with a hyphen; numbers may have a sign and zeros before them; an option stands with its value or
# before it, before or after the links.
sed '3s/^BASE/-X  /' "$examples/base.rnx" >hyphen.rnx
run convert "$base" --station=+2003 --near=$near --made=$made --marker -X --codes=1C,2W
leaves options_after_the_link 0 hyphen.rnx base.report
sed '3s/^BASE /-X - /' "$examples/base.rnx" >hyphens.rnx
run convert --station 002003 --near $near --made $made '--marker=-X -' --codes 1C,2W "$base"
leaves zeros_before_the_station 0 hyphens.rnx base.report
run convert --station 4095 --near $near --made $made --marker --codes --codes 2D nothing
header marker_of_an_option '20240517 130000' --codes 'G    3 C2D L2D S2D'

# A marker is taken as it is: 60 printable characters, and the others with a blank between them.
# marker NAME MARKER
marker() {
    words $near $made "$2" 1C,2W nothing
    { sed -n 1,2p empty.rnx; printf '%-60sMARKER NAME         \n' "$2"; sed 1,3d empty.rnx; } >want_out
    leaves "$1" 0 want_out empty.report
}
# refuses: a marker that is cut or changed
marker marker_of_many_characters '!"#$%&'"'"'()*+,-./0123456789:;<=>?@ABCDEFGHIJKLMNOPQRSTUVWXYZ[\'
# refuses: a marker that is cut or changed
marker marker_of_the_others ']^_` abcdefghijklmnopqrstuvwxyz{|}~'

usage='convert [OPTIONS] --station <N> --near <T> --made <T> --marker <NAME> --codes <LIST> <LINK>...'
all='convert --station <N> --near <T> --made <T> --marker <NAME> --codes <LIST> <LINK>...'
# bad_value NAME OPTION VALUE WHY
bad_value() {
    run convert "$2" "$3" a
    expect "$1" 2 '' "$(error "invalid value '$3' for '$2 <N>': $4")"
}

run convert; expect no_word 2 '' "$(error "the following required arguments were not provided:
  --station <N>
  --near <T>
  --made <T>
  --marker <NAME>
  --codes <LIST>
  <LINK>..." "$all")"
for option in 'station N 1' 'near T x' 'made T x' 'marker NAME x' 'codes LIST x' 'window N 2' 'msm N 4'; do
    set -- $option
    run convert "--$1" "$3" "--$1" "$3" a
    expect "$1_twice" 2 '' "$(error "the argument '--$1 <$2>' cannot be used multiple times" "$usage")"
    run convert a "--$1"
    expect "$1_without_a_value" 2 '' "$(error "a value is required for '--$1 <$2>' but none was supplied")"
done
# The next option is no value of an option but of --marker.
for option in 'station N near' 'near T made' 'made T marker' 'codes LIST window' 'window N codes' 'msm N window'; do
    set -- $option
    run convert "--$1" "--$3" 1 a
    expect "$1_before_another_option" 2 '' "$(error "a value is required for '--$1 <$2>' but none was supplied")"
done
run convert --station 2003 --near $near --made $made --marker --codes 1C,2W a
expect codes_as_a_marker 2 '' "$(error "the following required arguments were not provided:
  --codes <LIST>" "$all")"
run convert --station 2003 --near $near --made -2024-05-17T13:00:00 --marker BASE --codes 1C a
expect made_of_a_word_with_a_hyphen 2 '' "$(error "unexpected argument '-2' found" "$usage" "to pass '-2' as a value, use '-- -2'")"
run convert --station -1 a
expect station_below_0 2 '' "$(error "unexpected argument '-1' found" "$usage" "to pass '-1' as a value, use '-- -1'")"
# pins: IsWithinLimits
bad_value station_of_4096 --station 4096 '4096 is not in 0..=4095'
bad_value station_of_no_digits --station x 'invalid digit found in string'
# refuses: a first part of a number that is taken for all of it
bad_value station_with_a_tail --station 2003x 'invalid digit found in string'
# pins: IsWithinLimits
bad_value window_of_1 --window 1 '1 is not in 2..=4096'
bad_value window_of_4097 --window 4097 '4097 is not in 2..=4096'
bad_value msm_of_3 --msm 3 '3 is not in 4..=7'
bad_value msm_of_8 --msm 8 '8 is not in 4..=7'
# refuses: a first part of a number that is taken for all of it
bad_value window_of_two_numbers --window 64,2 'invalid digit found in string'

# Outputs that fail: the fault line stands after the part of the report that is out.
printf 'rtcm2rinex: write failed\n' >write_failed
"$program" convert $options --codes 1C,2W stdin <"$base" >/dev/full 2>err; status=$?; : >out
leaves full_output_that_is_followed 1 /dev/null write_failed
"$program" convert $options --codes 1C,2W $(yes "$base" | head -n 16) >/dev/full 2>err; status=$?; : >out
cat sixteen.report write_failed >want_err
leaves full_output_of_sixteen_links 1 /dev/null want_err
"$program" convert $options --codes 1C,2W "$base" >out 2>&-; status=$?; : >err
leaves closed_standard_error 1 "$examples/base.rnx" /dev/null

# As it is installed it ends under a limit on the size of files, 4,096 bytes, as on a full disk.
install
head -c 4096 "$session.rnx" >part
cat "$session.report" write_failed >part_err
limited 4096 installed/bin/rtcm2rinex convert $options --codes 1C,2W,5X "$session.rtcm" >out 2>err; status=$?
leaves start_convert_with_a_limit_of_size 1 part part_err
limited 4096 installed/bin/rtcm2rinex convert $options --codes 1C,2W,5X stdin >out 2>err <"$session.rtcm"; status=$?
leaves start_convert_followed_with_a_limit_of_size 1 part write_failed

ends
