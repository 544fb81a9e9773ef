#!/bin/sh
# Runs `cut` as a user does. The program is $1.
. "$(dirname "$(readlink -f "$0")")/common"
file=$root/examples/slip.rnx
noon=2024-05-17T12:00:00

cut() {
    run cut "$@"
    for last; do :; done
}

# well NAME WANT: the part, and how many records were read and written
well() {
    printf 'records %s written %s\n' "$(grep -c '^>' "$last")" "$(grep -c '^>' "$2")" >told
    leaves "$1" 0 "$2" told
}

# records FILE..: what stands after the headers
records() {
    for one in "$@"; do sed '1,/END OF HEADER/d' "$one"; done
}

# bad NAME LINE WORD..: words that are refused
bad() {
    name=$1 line=$2
    shift 2
    cut "$@" "$file"
    expect "$name" 2 '' "rtcm2rinex: $line"
}

usage='cut <--from <T>|--until <T>|--every <SECONDS>|--systems <LETTERS>> <FILE>'
# bad_step NAME STEP WHY
bad_step() {
    cut --every "$2" "$file"
    expect "$1" 2 '' "$(error "invalid value '$2' for '--every <SECONDS>': $3")"
}

# The files of the examples were laid by hand: slips at the seconds 7 and 20 of what is left out, one of them of a
# satellite that is missing in the next record, and slips and half cycles of what is kept.
# pins: is_near_step
cut --every 30 "$file"; well a_minute_at_30_seconds "$root/examples/slip_30s.rnx"
cut --every 1 "$file"; well at_its_own_step "$file"
cut --from "$noon" "$file"; well from_its_begin "$file"
cut --until 2024-05-17T12:01:01 "$file"; well until_after_its_end "$file"

sed '/^> 2024 05 17 12 01/,$d' "$root/examples/slip_30s.rnx" >want
cut --every 30 --from "$noon" --until 2024-05-17T12:01:00 "$file"; well a_span_at_30_seconds want

# Parts that meet are the part of both, also where a slip stands before the second one.
for step in 1 7 30; do
    "$program" cut --every $step "$file" >whole 2>told
    "$program" cut --every $step --until 2024-05-17T12:00:21 "$file" >first 2>told
    "$program" cut --every $step --from 2024-05-17T12:00:21 "$file" >second 2>told
    records whole >want
    records first second >got
    same "parts_at_$step" got want
done
"$program" check second >out 2>err; status=$?
expect a_part_is_checked 0 'valid: 2 epochs, 3 satellite lines' ''

# Nothing is left: the header alone, whose first time is --from, or the file's.
header() {
    sed '/END OF HEADER/q' "$file" | sed "s/^  2024     5    17    12     0    0.0000000/$1/"
}
# nothing_is_left NAME TIME WORD..
nothing_is_left() {
    name=$1
    header "  2024     5    17    $2.0000000" >want
    shift 2
    cut "$@" "$file"
    well "$name" want
}
nothing_is_left after_from '13     0    0' --from 2024-05-17T13:00:00
nothing_is_left before_until '12     0    0' --until "$noon"
nothing_is_left between '12     0   30' --from 2024-05-17T12:00:30 --until 2024-05-17T12:00:30
nothing_is_left a_step_of_a_day '12     0    0' --every 86400
cut --from 1980-01-06T00:00:00 --until 2100-12-31T23:59:59 --every 1 "$file"
well the_widest_span "$file"

# moved DATE MINUTE MINUTE FIRST: the file with its two minutes on another day, and its first time
moved() {
    sed "s/^> 2024 05 17 12 00/> $1 $2/; s/^> 2024 05 17 12 01/> $3/; s/^  2024     5    17    12     0 /$4/" "$file"
}

# Midnight of a leap day: the slips of the minute before show, each once. The record of the day has all of them, and that
# at 30 seconds the slip of G07, which is missing at 23:59:30, and its own.
moved '2024 02 28' '23 59' '2024 02 29 00 00' '  2024     2    28    23    59 ' >night
midnight=2024-02-29T00:00:00
begin='  2024     2    29     0     0    0.0000000'
line='> 2024 02 29 00 00  0.0000000  0  2'
g05='G05  21085502.060 7 110805061.16717        45.000    21085504.060 5  86341606.103'
g07='G07  22963067.680 6 120671689.95026        41.500    22963071.430 5  94029247.75715        30.250'
{ header "$begin"; printf '%s\n' "$line" "${g05}15        35.000" "$g07"; } >want
cut --every 86400 night; well midnight_at_the_step_of_a_day want
{ header "$begin"; printf '%s\n' "$line" "$g05 5        35.000" "$g07"; } >want
cut --every 30 --from $midnight night; well the_day_after_midnight want
sed '/^> 2024 02 29/,$d' night >want
cut --until $midnight night; well the_day_before_midnight want

# A record each second of a day and few in the weeks after it: a slip of G05 a second after midnight is shown 86,399 seconds
# later, and of G07, which is missing from then on, ten days and 86,401 records later; after that none is left.
g05='G05                 110804903.547' g07='G07                 120671603.523'
header '  2024     5     1     0     0    0.0000000' >begin
awk -v g05="$g05" -v g07="$g07" 'BEGIN { for (n = 0; n <= 1641600; n += n < 86400 ? 1 : 388800) { t = n % 86400
    both = n < 2 || n > 86400
    printf "> 2024 05 %02d %02d %02d%11.7f  0%3d\n", 1 + int(n / 86400), int(t / 3600), int(t / 60) % 60, t % 60, 1 + both
    print g05 (n == 1 ? 1 : "")
    if (both) print g07 (n == 1 ? 1 : "") } }' | cat begin - >days
line='00 00  0.0000000  0 '
printf '%s\n' "> 2024 05 01 $line 2" "$g05" "$g07" "> 2024 05 02 $line 1" "${g05}1" "> 2024 05 11 $line 2" "$g05" "${g07}1" \
    "> 2024 05 20 $line 2" "$g05" "$g07" | cat begin - >want
# pins: has_slipped_since
cut --every 86400 days; well a_slip_ten_days_before_the_step want
# Each step that divides half a day: so many records and two slips, that of G07 after all records on the step without it.
for step in $(awk 'BEGIN { for (n = 1; n <= 43200; n++) if (43200 % n == 0) print n }'); do
    echo "$("$program" cut --every $step days 2>told | grep -cE '^>|[37]1$') records and slips at $step, not $((86400 / step + 7))"
done | awk '$1 != $8' >got
# pins: is_near_step, has_slipped_since
same each_step_of_half_a_day got /dev/null

# The first moment that a time can name, and the last minute.
moved '1980 01 06' '00 00' '1980 01 06 00 01' '  1980     1     6     0     0 ' >dawn
sed '/^> .*  1.0000000/,$d' dawn >want
cut --every 60 --until 1980-01-06T00:01:00 dawn; well the_begin_of_1980 want
sed '/END OF HEADER/q' dawn >want
cut --from 1980-01-06T00:00:00 --until 1980-01-06T00:00:00 "$file"; well nothing_is_left_of_1980 want
moved '2100 12 31' '23 58' '2100 12 31 23 59' '  2100    12    31    23    58 ' >century
{ header '  2100    12    31    23    59    0.0000000'; tail -n 3 century; } >want
cut --from 2100-12-31T23:59:00 --until 2100-12-31T23:59:59 century
well the_end_of_2100 want

# Files of other systems. At the second 1 E11 slips on 8X, where it has a half cycle at 2, and C41 on 1P, but neither on its other
# code. J01 slips too, and is missing at 2. G11, whose number and places of codes are those of E11, does not slip.
of_galileo >galileo
sed '41,46d; 50s/91727 /91737 /; 51s/526 7/52617/; 55s/464 7/46417/' "$mixed" >thinned
# pins: has_slipped_since
cut --every 2 "$mixed"; well mixed_at_2_seconds thinned
run check thinned; expect a_part_of_mixed_is_checked 0 'valid: 3 epochs, 16 satellite lines' ''
echo 'records 4 written 3' >counts
cut --every 2 stdin <"$mixed"; leaves mixed_at_2_seconds_of_standard_input 0 thinned counts
sed '17,18d; 20s/91727 /91737 /' galileo >want
cut --every 2 galileo; well galileo_at_2_seconds want
cut --every 1 "$mixed"; well mixed_at_its_own_step "$mixed"
cut --from "$noon" --until 2024-05-17T12:00:05 "$mixed"; well mixed_from_its_begin_until_after_its_end "$mixed"
sed '19s/ 0.0000000/ 1.0000000/; 32,40d; 47,$d' "$mixed" >want
cut --from 2024-05-17T12:00:01 --until 2024-05-17T12:00:02 "$mixed"; well mixed_of_a_second want
sed '19s/ 0.0000000/ 2.0000000/; 32,40d' thinned >want
cut --every 2 --from 2024-05-17T12:00:02 "$mixed"; well mixed_after_the_slips want
sed '41,$d' thinned >want
cut --every 2 --until 2024-05-17T12:00:02 "$mixed"; well mixed_before_the_slips want
sed '19s/12     0 /13     0 /; 31q' "$mixed" >want
cut --from 2024-05-17T13:00:00 "$mixed"; well mixed_without_records want

# Some systems alone. What is due is the file without the lines of the others, whose records of no satellite are left out too.
# kept NAME WANT [READ]: the part of some systems, and how many records were read and written; all that were read, without READ
kept() {
    printf 'records %s written %s\n' "${3:-$(grep -c '^>' "$2")}" "$(grep -c '^>' "$2")" >told
    leaves "$1" 0 "$2" told
}
# absent NAME LETTER WORD..: a system that the file does not have
absent() {
    name=$1 letter=$2
    shift 2
    cut "$@"
    expect "$name" 3 '' "rtcm2rinex: the file has no codes of $letter"
}
without_types='/^ .*OBS TYPES/d; /GLONASS/d; /LEAP/d'
# pins: flag_of, kept_table
cut --systems E "$mixed"; kept galileo_alone galileo
cut --systems E stdin <"$mixed"; kept galileo_of_standard_input galileo
cut --systems EEE "$mixed"; kept a_letter_three_times galileo
cut --systems E galileo; kept the_only_system galileo
cut --systems GRECJSI "$mixed"; kept all_systems "$mixed"
cut --systems ISJCERG "$mixed"; kept all_systems_in_another_order "$mixed"
sed "1s/M/G/; /^[RECJSI][ 0-9]/d; $without_types; /^>/s/..\$/ 1/" "$mixed" >gps
cut --systems G "$mixed"; kept gps_alone gps
run check gps; expect gps_alone_is_checked 0 'valid: 4 epochs, 4 satellite lines' ''
cut --systems G gps; kept gps_of_gps gps
cut --systems G "$file"; kept a_file_of_gps "$file"
# R26 at 0 has no channel, and at 4 s there is no satellite of GLONASS.
sed '1s/M/R/; /^[GECJSI][ 0-9]/d; /^ .*OBS TYPES/d; /^> .* 4.0000000/,$d; /^>/s/..$/ 1/; /^> .*  0.0000000/s/..$/ 2/' "$mixed" >glonass
cut --systems R "$mixed"; kept glonass_alone glonass
run check glonass; expect glonass_alone_is_checked 0 'valid: 3 epochs, 4 satellite lines' ''
# Of J01 and I14 there is none at 2 s, and J01 alone at 1 s.
sed "/^[GRECS][ 0-9]/d; $without_types; /^> .* 2.0000000/d; /^>/s/..\$/ 2/; /^> .* 1.0000000/s/..\$/ 1/" "$mixed" >qzss_navic
cut --systems IJ "$mixed"; kept qzss_and_navic qzss_navic
sed '1s/M/S/; /^[GRECJI][ 0-9]/d; /^ .*OBS TYPES/d; /GLONASS/d; /LEAP/d; /^> .* [124].0000000/d; /^>/s/..$/ 1/' "$mixed" >want
cut --systems S "$mixed"; kept a_system_of_one_record want
# The first record that is left gives the first time, and the header stays alone if none is left.
sed '32s/ 8$/ 7/; 38d' "$mixed" >late
sed "1s/M/J/; /^[GRECSI][ 0-9]/d; $without_types; /^> .* [02].0000000/d; /^>/s/..\$/ 1/; s/ 0.0000000     GPS/ 1.0000000     GPS/" late >want
cut --systems J late; kept a_system_that_begins_later want
sed '32s/ 8$/ 7/; 39d' "$mixed" >nobody
sed "31q; 1s/M/S/; /^[GRECJI][ 0-9]/d; $without_types" nobody | sed '/END OF HEADER/q' >want
cut --systems S nobody; kept a_system_without_a_satellite want
# Slips: of E11 that of 1 s is shown at 2 s, and of J01, which is missing there, at 4 s.
sed '17,18d; 20s/91727 /91737 /' galileo >want
cut --systems E --every 2 "$mixed"; kept galileo_alone_at_2_seconds want 4
sed "1s/M/J/; /^[GRECSI][ 0-9]/d; $without_types; /^> .* [12].0000000/d; /^J01  36744292/d; /^>/s/..\$/ 1/; s/464 7/46417/" "$mixed" >want
cut --systems J --every 2 "$mixed"; kept qzss_alone_at_2_seconds want 3
sed "1s/M/J/; /^[GRECSI][ 0-9]/d; $without_types; /^> .* [012].0000000/d; /^J01  36744[2][59]/d; /^>/s/..\$/ 1/; s/ 0.0000000     GPS/ 4.0000000     GPS/" "$mixed" >want
cut --systems J --from 2024-05-17T12:00:02 "$mixed"; kept qzss_alone_from_2_seconds_on want 3
# The label stays.
"$program" label --agency Somewhere --marker-number 7 "$mixed" >labelled
"$program" label --agency Somewhere --marker-number 7 galileo >want
cut --systems E labelled; kept galileo_with_a_label want
"$program" label --agency Somewhere --marker-number 7 gps >want
cut --systems G labelled; kept gps_with_a_label want
# pins: first_absent
absent gps_of_galileo G --systems G galileo
absent gps_and_galileo_of_galileo G --systems EG galileo
absent the_first_in_the_order_of_a_file R --systems ISR galileo
absent glonass_of_gps R --systems GR "$file"
absent glonass_of_gps_and_a_step R --systems R --every 30 "$file"
# pins: are_systems
for letters in '' X g GX 'G E' G,E GE, ' E' 'G '; do bad "systems_$letters" 'bad --systems' --systems "$letters"; done
bad until_before_systems 'bad --until' --until noon --systems X
bad from_after_until_before_systems 'bad --until' --from 2024-05-17T12:00:01 --until "$noon" --systems X
# A wrong line comes before a system that the file does not have.
sed 's/^DBHZ/DBHX/' galileo >broken
cut --systems G broken; expect a_wrong_line_first 3 '' 'line 11: C1 HeaderLine'

bad other_form_of_from 'bad --from' --from 2024-05-17
bad no_such_day 'bad --until' --until 2024-02-30T00:00:00
bad both_times 'bad --from' --from noon --until noon
bad from_after_until 'bad --until' --from 2024-05-17T12:00:01 --until "$noon"
bad until_in_2101 'bad --until' --until 2101-01-01T00:00:00
cut "$file"
expect no_option 2 '' "$(error "the following required arguments were not provided:
  <--from <T>|--until <T>|--every <SECONDS>|--systems <LETTERS>>" "$usage")"
# pins: IsStepOrNone
for step in 0 86401 4294967296; do bad_step a_step_of_$step $step "$step is not in 1..=86400"; done
# refuses: a first part of a number that is taken for all of it
bad_step a_step_with_a_tail 30s 'invalid digit found in string'
# refuses: a first part of a number that is taken for all of it
bad_step a_step_with_a_fraction 30.5 'invalid digit found in string'
# refuses: blanks that are taken away beside a time, a code or a number
bad_step a_step_after_a_blank ' 30' 'invalid digit found in string'

for option in from until; do
    for value in " $noon" "$noon " "$noon,x"; do bad "$option=$value" "bad --$option" "--$option" "$value"; done
done
# An option that stands twice, and one before another option, which is no value of it.
for option in 'from T until' 'until T every' 'every SECONDS systems' 'systems LETTERS from'; do
    set -- $option
    cut "--$1" 1 "--$1" 1 "$file"
    expect "$1_twice" 2 '' "$(error "the argument '--$1 <$2>' cannot be used multiple times" "$usage")"
    cut "--$1" "--$3" 1 "$file"
    expect "$1_before_another_option" 2 '' "$(error "a value is required for '--$1 <$2>' but none was supplied")"
done

ends
