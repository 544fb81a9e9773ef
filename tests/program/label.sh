#!/bin/sh
# Runs `label` as a user does. The program is $1.
. "$(dirname "$(readlink -f "$0")")/common"
file=$root/examples/slip.rnx
zeros='        0.0000        0.0000        0.0000                  ANTENNA: DELTA H/E/N'

label() { run label "$@"; }

# line FORMAT TEXT.. NAME: a line of a header, whose columns printf lays
line() {
    format=$1
    shift
    printf "$format%-20s\n" "$@"
}

# laid FILE: the lines of the columns of RINEX 3.05, Table A2, and what follows them in the file
laid() {
    sed -n 1p "$1"
    printf 'rtcm2rinex          %-20s%s\n' 'Bureau of Heights' "$(sed -n 2p "$1" | cut -c 41-)"
    sed -n 3p "$1"
    line '%-60s' 12345M001 'MARKER NUMBER'
    sed -n 4p "$1"
    line '%-20s%-40s' 'J. Doe' 'Survey of Somewhere, its geodesists, etc' 'OBSERVER / AGENCY'
    line '%-20s%-20s%-20s' 496710 'LEICA GRX1200+GNSS' 9.20 'REC # / TYPE / VERS'
    line '%-20s%-40s' 309 'AOAD/M_T        NONE' 'ANT # / TYPE'
    sed -n 8p "$1"
    line '%14s%14s%14s                  ' +1.5000 -0.0125 +0.0030 'ANTENNA: DELTA H/E/N'
    sed 1,9d "$1"
}
# all FILE [WORD..]: with a field in each place
all() {
    label "$@" --run-by 'Bureau of Heights' --marker-number 12345M001 --observer 'J. Doe' --agency 'Survey of Somewhere, its geodesists, etc' \
        --receiver-number 496710 --receiver-type 'LEICA GRX1200+GNSS' --receiver-version 9.20 --antenna-number 309 \
        --antenna-type 'AOAD/M_T        NONE' --delta-height +1.5000 --delta-east -0.0125 --delta-north +0.0030
}
# pins: labelled_header, top_lines, middle_lines, marker_number_line, offset_columns, height_columns
laid "$file" >want; all "$file"; leaves every_field 0 want /dev/null
cp out labelled
all labelled; leaves again 0 labelled /dev/null
all stdin <"$file"; leaves of_standard_input 0 labelled /dev/null
label --blank labelled; leaves blank_again 0 "$file" /dev/null
label --blank "$file"; leaves blank_before 0 "$file" /dev/null
label --agency '' labelled; leaves an_empty_field 0 "$file" /dev/null
line '%-20s%-40s' '' 'Survey' 'OBSERVER / AGENCY' >agency
sed '5{s/.*//;r agency
}' "$file" | sed '5d' >want
label --agency Survey labelled; leaves other_fields_are_blank 0 want /dev/null

# `cut` and `chart` read it too; a part has its ten lines.
{ sed 10q labelled; sed 1,9d "$root/examples/slip_30s.rnx"; } >want
echo 'records 61 written 3' >counts
run cut --every 30 labelled; leaves a_part_of_it 0 want counts
run cut --every 30 stdin <labelled; leaves a_part_of_standard_input 0 want counts
run cut --from 2030-01-01T00:00:00 "$file"
{ sed 10q labelled; sed 1,9d out; } >want
echo 'records 61 written 0' >counts
run cut --from 2030-01-01T00:00:00 labelled; leaves a_part_without_records 0 want counts
"$program" chart "$file" >want
run chart labelled; leaves a_picture_of_it 0 want /dev/null

# The lines of the records: they stand behind the antenna's place, also without a field. The file has a record each
# second from 12:00:00 to 12:01:00, and its part each 30 s the first, the middle and the last.
# behind LINES FILE: the file, with these lines behind those that a label changes
behind() {
    number=$(sed -n '4s/.*MARKER NUMBER *$/1/p' "$2")
    head -n $((9 + ${number:-0})) "$2"
    cat "$1"
    sed "1,$((9 + ${number:-0}))d" "$2"
}
line '%10s%50s' 1.000 '' INTERVAL >interval
line '%6s%6s%6s%6s%6s%13s%8s%9s' 2024 5 17 12 1 0.0000000 GPS '' 'TIME OF LAST OBS' >last
cat interval last >both
: >none
for row in 'interval --interval' 'last --last' 'both --interval --last' 'both --last --interval'; do
    lines=${row%% *}
    behind "$lines" "$file" >want
    # pins: interval_line, last_time_line
    label ${row#* } "$file"; leaves "$(echo $row | tr ' ' _)" 0 want /dev/null
    label --blank want; leaves "blank_of_$(echo $row | tr ' ' _)" 0 "$file" /dev/null
    cp want timed
    label ${row#* } timed; leaves "again_$(echo $row | tr ' ' _)" 0 timed /dev/null
    behind "$lines" labelled >want
    all "$file" ${row#* }; leaves "with_fields_$(echo $row | tr ' ' _)" 0 want /dev/null
    all want; leaves "fields_alone_of_$(echo $row | tr ' ' _)" 0 labelled /dev/null
done
behind both labelled >timed
label --interval --last stdin <timed; behind both "$file" >want; leaves lines_of_standard_input 0 want /dev/null

# A part has those of its own records, and only those that the file has; with fewer than two records none of an
# interval, and without a record none.
line '%10s%50s' 30.000 '' INTERVAL >half_minute
line '%6s%6s%6s%6s%6s%13s%8s%9s' 2024 5 17 12 0 30.0000000 GPS '' 'TIME OF LAST OBS' >half
line '%6s%6s%6s%6s%6s%13s%8s%9s' 2024 5 17 12 0 0.0000000 GPS '' 'TIME OF LAST OBS' >noon
for row in '3 half_minute last --every=30' '31 interval half --until=2024-05-17T12:00:31' '1 none noon --until=2024-05-17T12:00:01' '0 none none --from=2030-01-01T00:00:00'; do
    set -- $row
    echo "records 61 written $1" >counts
    "$program" cut "$4" labelled >part 2>err
    cat "$2" "$3" >lines
    behind lines part >want
    run cut "$4" timed; leaves "lines_of_a_part_of_$1" 0 want counts
    behind interval labelled >one
    behind "$2" part >want
    run cut "$4" one; leaves "interval_of_a_part_of_$1" 0 want counts
    behind last labelled >one
    behind "$3" part >want
    run cut "$4" one; leaves "last_of_a_part_of_$1" 0 want counts
done

# They change no picture, no numbers and no comparison, and `check` refuses them.
"$program" chart "$file" >want
run chart timed; leaves a_picture_with_lines 0 want /dev/null
"$program" quality "$file" >want
run quality timed; leaves numbers_with_lines 0 want /dev/null
run compare --labels timed labelled; expect lines_are_not_compared 0 'lost 0 changed 0 explained 0' ''
run compare "$file" timed; expect new_with_lines 0 'lost 0 changed 0 explained 0' ''
behind both "$file" >plain_lines
run check plain_lines; expect lines_in_a_file_of_check 3 'line 10: C1 HeaderLine' ''

# A told height stays; the label may have none.
sed "s|^$zeros|        0.0001        0.0000        0.0000                  ANTENNA: DELTA H/E/N|" "$file" >told
# pins: answer_status
all told; expect a_told_height 2 '' 'rtcm2rinex: bad --delta-height: the file tells a height'
label --delta-east +0.0000 told
sed 's|^        0.0001        0.0000|        0.0001       +0.0000|' told >want
leaves beside_a_told_height 0 want /dev/null
# A height without a sign is the station's.
sed '10s/+1/ 1/' labelled >unsigned
sed '9s/^        0.0000/        1.5000/' "$file" >want
label --blank unsigned; leaves a_height_without_a_sign 0 want /dev/null

# refused LINE FILE: no file with a label
refused() {
    all "$2"
    expect "refused_$1_of_$(wc -c <"$2")" 3 '' "line $1"
    label --blank "$2"
    expect "refused_blank_$1_of_$(wc -c <"$2")" 3 '' "line $1"
    run cut --every 30 "$2"
    expect "refused_part_$1_of_$(wc -c <"$2")" 3 '' "line $1"
    run chart "$2"
    expect "refused_picture_$1_of_$(wc -c <"$2")" 3 '' "line $1"
    run quality "$2"
    expect "refused_numbers_$1_of_$(wc -c <"$2")" 3 '' "line $1"
}
sed '20s/^/x/' "$file" >wrong;             refused '20: C2 Columns' wrong
sed '20s/^/x/' labelled >wrong;            refused '20: C2 Columns' wrong
# A line that is not that of the records, the first one of two, the second one, in another order, twice, cut, and a fault
# behind right lines. A line that no part of the records gives is wrong too.
sed '12s/ 1    0.0/ 2    0.0/' timed >wrong;                refused '12: C1 HeaderLine' wrong
sed '11s/ 1.000/ 2.000/; 12s/ 1    0.0/ 2    0.0/' timed >wrong; refused '11: C1 HeaderLine' wrong
cat last interval >lines; behind lines labelled >wrong;    refused '12: C1 HeaderLine' wrong
cat interval interval >lines; behind lines labelled >wrong; refused '12: C1 HeaderLine' wrong
cat last last >lines; behind lines "$file" >wrong;         refused '11: C1 HeaderLine' wrong
sed '10s/INTERVAL/INTERVAl/' plain_lines >wrong;           refused '10: C1 HeaderLine' wrong
sed '10s/^  /1 /' plain_lines >wrong;                      refused '10: C1 HeaderLine' wrong
sed '11s/GPS/GLO/' plain_lines >wrong;                     refused '11: C1 HeaderLine' wrong
sed '13s/^G/R/' timed >wrong;                               refused '13: C1 HeaderLine' wrong
sed '31s/^/x/' timed >wrong;                                refused '31: C2 Columns' wrong
sed '11s/ 1.000/ 2.000/; 31s/^/x/' timed >wrong;            refused '31: C2 Columns' wrong
sed '5s/^G/H/' timed >wrong;                                refused '5: C1 HeaderLine' wrong
behind interval "$file" | sed '1,/END OF HEADER/!d' >wrong; refused '10: C1 HeaderLine' wrong
for row in '11 810' '11 890' '12 891' '12 971' '13 972' '13 1000'; do
    head -c "${row#* }" timed >wrong;       refused "${row% *}: C5 Truncated" wrong
done
behind half "$file" >wrong
run compare wrong "$file"; expect old_with_a_wrong_line 3 '' 'rtcm2rinex: wrong: line 10: C1 HeaderLine'
run compare "$file" wrong; expect new_with_a_wrong_line 3 '' 'rtcm2rinex: wrong: line 10: C1 HeaderLine'
sed '2s/^r/R/' labelled >wrong;            refused '2: C1 HeaderLine' wrong
sed '5s/^G/H/' labelled >wrong;            refused '5: C1 HeaderLine' wrong
sed '7s/^4/ 4/; 7s/ 9.20 /9.20 /' labelled >wrong; refused '7: C1 HeaderLine' wrong
sed '4s/M0/\tM/' labelled >wrong;          refused '4: C1 HeaderLine' wrong
head -c 820 labelled >wrong;               refused '11: C5 Truncated' wrong
# In a header each line has 81 bytes, so the line that is cut follows from the number of bytes.
for row in '1 0' '1 80' '2 81' '4 323' '5 324' '8 600' '10 729' '10 809' '11 810'; do
    head -c "${row#* }" labelled >wrong;   refused "${row% *}: C5 Truncated" wrong
done
label --agency A "$file"; head -c 790 out >wrong; refused '10: C5 Truncated' wrong
# refuses: a file that is cut short and is blamed on a field in a line before
label --blank wrong; expect a_cut_file 3 '' 'line 10: C5 Truncated'
run check wrong; expect a_field_in_a_cut_file_of_check 3 'line 5: C1 HeaderLine' ''
sed '5s/^G/H/' labelled | head -c 790 >wrong;  refused '5: C1 HeaderLine' wrong
sed '7s/^4/ 4/; 7s/ 9.20 /9.20 /' labelled | head -c 809 >wrong; refused '7: C1 HeaderLine' wrong
run check labelled; expect no_file_of_check 3 'line 2: C1 HeaderLine' ''

# Files of other systems take the same fields. With them the file has a line more.
laid "$mixed" >labelled_mixed
# pins: labelled_header, top_lines, middle_lines, marker_number_line, offset_columns, height_columns
all "$mixed"; leaves every_field_of_mixed 0 labelled_mixed /dev/null
all labelled_mixed; leaves mixed_again 0 labelled_mixed /dev/null
all stdin <"$mixed"; leaves mixed_of_standard_input 0 labelled_mixed /dev/null
label --blank labelled_mixed; leaves mixed_blank_again 0 "$mixed" /dev/null
label --blank "$mixed"; leaves mixed_blank_before 0 "$mixed" /dev/null
sed -e '5r agency' -e 5d "$mixed" >want
label --agency Survey labelled_mixed; leaves other_fields_of_mixed_are_blank 0 want /dev/null
of_galileo >galileo
laid galileo >want; all galileo; leaves every_field_of_galileo 0 want /dev/null
label --blank want; leaves galileo_blank_again 0 galileo /dev/null
{ sed 10q labelled_mixed; sed '1,9d; 41,$d' "$mixed"; } >want
echo 'records 4 written 1' >counts
run cut --until 2024-05-17T12:00:01 labelled_mixed; leaves a_part_of_mixed 0 want counts
# The records of the other file are at the seconds 0, 1, 2 and 4: two steps of 1 s, and one of 2 s.
line '%6s%6s%6s%6s%6s%13s%8s%9s' 2024 5 17 12 0 4.0000000 GPS '' 'TIME OF LAST OBS' >last_mixed
cat interval last_mixed >both_mixed
behind both_mixed labelled_mixed >want
all "$mixed" --interval --last; leaves lines_of_mixed 0 want /dev/null
cp want told_mixed
label --blank told_mixed; leaves mixed_blank_of_lines 0 "$mixed" /dev/null
line '%6s%6s%6s%6s%6s%13s%8s%9s' 2024 5 17 12 0 0.0000000 GPS '' 'TIME OF LAST OBS' >lines
"$program" cut --until 2024-05-17T12:00:01 labelled_mixed >part 2>err
behind lines part >want
run cut --until 2024-05-17T12:00:01 told_mixed; leaves lines_of_a_part_of_mixed 0 want counts
# Some systems alone have those of their own records, which are at the seconds 0, 1 and 4 of QZSS, and at 0 of SBAS.
for row in 'E both_mixed 4' 'J both_mixed 3' 'S noon 1'; do
    set -- $row
    echo "records $3 written $3" >counts
    "$program" cut --systems "$1" labelled_mixed >part 2>err
    behind "$2" part >want
    run cut --systems "$1" told_mixed; leaves "lines_of_system_$1" 0 want counts
done
behind last labelled_mixed >wrong;               refused '11: C1 HeaderLine' wrong
"$program" chart --text "$mixed" >want
run chart --text labelled_mixed; leaves chart_of_mixed 0 want /dev/null
run check labelled_mixed; expect no_mixed_file_of_check 3 'line 2: C1 HeaderLine' ''
sed '9s/^        0.0000/        1.5000/' "$mixed" >told
all told; expect a_told_height_of_mixed 2 '' 'rtcm2rinex: bad --delta-height: the file tells a height'
sed '36s/^/x/' "$mixed" >wrong;                  refused '36: C2 Columns' wrong
sed '36s/^/x/' labelled_mixed >wrong;            refused '36: C2 Columns' wrong
sed '1s/M /X /' labelled_mixed >wrong;           refused '1: C1 HeaderLine' wrong
sed '5s/^G/H/' labelled_mixed >wrong;            refused '5: C1 HeaderLine' wrong
sed '12s/^R/G/' labelled_mixed >wrong;           refused '12: C1 HeaderLine' wrong
sed '36s/5                /5  93254129.000 5/' labelled_mixed >wrong; refused '36: C3 Value' wrong
for row in '1 50' '3 200' '11 850' '28 2200' '32 2511' '33 2600'; do
    head -c "${row#* }" labelled_mixed >wrong;   refused "${row% *}: C5 Truncated" wrong
done
head -c -1 labelled_mixed >wrong;                refused '57: C5 Truncated' wrong
label --agency A "$mixed"; head -c 770 out >wrong; refused '10: C5 Truncated' wrong

# bad NAME VALUE: it does not fit
bad() {
    label "--$1" "$2" "$file"
    expect "bad_$1_$(printf %s "$2" | tr -c '[:alnum:]' _)" 2 '' "rtcm2rinex: bad --$1"
}
# fits NAME VALUE: it does
fits() {
    label "--$1" "$2" "$file" && "$program" label --blank out >plain
    same "fits_$1_$(printf %s "$2" | tr -c '[:alnum:]' _)" plain "$file"
}
twenty='20 bytes of 0x20..7E'
for name in run-by marker-number observer receiver-number receiver-type receiver-version antenna-number antenna-type; do
    fits $name "$twenty"
    bad $name "$twenty~"
    bad $name "no blank "
    bad $name ' no blank'
done
fits agency "$twenty$twenty"
bad agency "$twenty$twenty~"
bad agency "$(printf 'a\tb')"
bad agency "$(printf 'Z\303\274rich')"
for name in delta-height delta-east delta-north; do
    fits $name -9999.9999
    fits $name +0.0000
    for value in 1.0000 +10000.0000 +1.000 +.0000 +1,0000 '+1.0000 ' +1e3; do bad $name "$value"; done
done

usage=$("$program" label --help | sed -n 's/^Usage: rtcm2rinex //p')
label "$file"
sed -n 1p err >first
printf 'error: the following required arguments were not provided:\n' >want
same no_field first want
label --blank --agency Survey "$file"
expect blank_and_a_field 2 '' "$(error "the argument '--blank' cannot be used with '--agency <TEXT>'" "$usage")"
label --blank --interval "$file"
expect blank_and_a_line 2 '' "$(error "the argument '--blank' cannot be used with '--interval'" "$usage")"
label --agency Survey --agency Survey "$file"
expect an_option_twice 2 '' "$(error "the argument '--agency <TEXT>' cannot be used multiple times" "$usage")"

ends
