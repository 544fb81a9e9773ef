#!/bin/sh
# Runs `compare` as a user does, over files that were laid by hand. The program is $1.
. "$(dirname "$(readlink -f "$0")")/common"

# The header of the examples: the codes 1C and 2W, a position and no height.
header() { sed '/END OF HEADER/q' "$root/examples/slip.rnx"; }

# value NUMBER [DIGIT [STRENGTH]]: 16 columns; `-` is none
value() {
    if [ "$1" = - ]; then printf '%16s' ''; else printf '%14s%1s%1s' "$1" "${2:- }" "${3:- }"; fi
}
# cells SATELLITE RANGE PHASE DIGIT STRENGTH: 1C of a satellite; `.` is no digit
cells() {
    digit=$4
    [ "$digit" != . ] || digit=' '
    if [ "$5" = - ]; then snr=' '; else snr=$((${5%.*} / 6)); fi
    printf '%s%s%s%s\n' "$1" "$(value "$2" ' ' "$snr")X" "$(value "$3" "$digit" "$snr")X" "$(value "$5")X" | sed 's/X//g; s/ *$//'
}
# at SECOND LINE..: a record
at() {
    printf '> 2024 05 17 12 00 %2d.0000000  0%3d\n' "$1" $(($# - 1))
    shift
    printf '%s\n' "$@"
}
# epochs SECOND:CELLS..: records of G05; CELLS are range,phase,digit,strength
epochs() {
    for epoch; do
        at "${epoch%%:*}" "$(set -- $(echo "${epoch#*:}" | tr ',' ' '); cells G05 "$@")"
    done
}
# made FILE EPOCH..: a file whose first time is second 0
made() {
    file=$1
    shift
    { header; epochs "$@"; } >"$file"
}

# row NAME STATUS 'OLD EPOCHS' 'NEW EPOCHS' LINE..: what is told of two files
row() {
    name=$1 due=$2
    made old.rnx $3
    made new.rnx $4
    shift 4
    run compare old.rnx new.rnx
    expect "$name" "$due" "$(printf '%s\n' "$@")" ''
}

one=0:21085487.060,110804982.357,.,45.000
noon='2024-05-17 12:00'

row same 0 "$one" "$one" 'lost 0 changed 0 explained 0'
row more_is_no_difference 0 "$one" "$one 1:21085487.060,110804982.357,1,45.000" 'lost 0 changed 0 explained 0'

# Each kind of loss alone.
row epoch 3 "$one 1:21085487.060,110804982.357,.,45.000" "$one" 'lost 1 changed 0 explained 0' "lost epoch $noon:01.000"
row range 3 "$one" 0:-,110804982.357,.,45.000 'lost 1 changed 0 explained 0' "lost range $noon:00.000 G05 1C"
row phase 3 0:21085487.060,110804982.357,3,45.000 0:21085487.060,-,.,45.000 'lost 1 changed 0 explained 0' "lost phase $noon:00.000 G05 1C"
row strength 3 "$one" 0:21085487.060,110804982.357,.,- 'lost 1 changed 0 explained 0' "lost strength $noon:00.000 G05 1C"
row half_cycle 3 0:21085487.060,110804982.357,2,45.000 "$one" 'lost 1 changed 0 explained 0' "lost half-cycle $noon:00.000 G05 1C"
row half_cycle_that_comes 3 "$one" 0:21085487.060,110804982.357,2,45.000 'lost 0 changed 1 explained 0' "changed half-cycle $noon:00.000 G05 1C"

# A slip is gone while the phase before it is the same.
row slip 3 "$one 1:21085487.060,110804982.357,1,45.000" "$one 1:21085487.060,110804982.357,.,45.000" \
    'lost 1 changed 0 explained 0' "lost slip $noon:01.000 G05 1C"
# A filled gap takes a slip away.
row filled_slip 0 "$one 9:21085487.060,110804982.357,1,45.000" "$one 4:21085487.060,110804982.357,.,45.000 9:21085487.060,110804982.357,.,45.000" \
    'lost 0 changed 0 explained 1' "explained filled-slip $noon:09.000 G05 1C"
# A range alone fills no gap of phases.
row range_in_a_gap 3 "$one 9:21085487.060,110804982.357,1,45.000" "$one 4:21085487.060,-,.,45.000 9:21085487.060,110804982.357,.,45.000" \
    'lost 1 changed 0 explained 0' "lost slip $noon:09.000 G05 1C"
# A gap before the phase before the slip is another one.
row gap_before 3 "$one 5:21085487.060,110804982.357,.,45.000 9:21085487.060,110804982.357,1,45.000" \
    "$one 4:21085487.060,110804982.357,.,45.000 5:21085487.060,110804982.357,.,45.000 9:21085487.060,110804982.357,.,45.000" \
    'lost 1 changed 0 explained 0' "lost slip $noon:09.000 G05 1C"
row first_slip 0 0:21085487.060,110804982.357,1,45.000 "$one" 'lost 0 changed 0 explained 1' "explained first-slip $noon:00.000 G05 1C"
row new_slip 0 "$one" 0:21085487.060,110804982.357,1,45.000 'lost 0 changed 0 explained 1' "explained new-slip $noon:00.000 G05 1C"

# A 1004 that came late changes the rolls up to the next slip.
row roll 0 "$one 9:21085487.060,110804982.357,.,45.000" "$one 4:21085487.060,110804982.357,.,45.000 9:21085487.060,110806482.357,.,45.000" \
    'lost 0 changed 0 explained 1' "explained roll $noon:09.000 G05 1C"
row rolls_of_a_file 0 "$one 1:21085487.060,110804982.357,.,45.000" "0:21085487.060,110801982.357,.,45.000 1:21085487.060,110801982.357,.,45.000" \
    'lost 0 changed 0 explained 2' "explained roll $noon:00.000 G05 1C" "explained roll $noon:01.000 G05 1C"
# They change once, and not back without a slip.
row roll_and_back 3 "$one 1:21085487.060,110804982.357,.,45.000 2:21085487.060,110804982.357,.,45.000" \
    "$one 1:21085487.060,110806482.357,.,45.000 2:21085487.060,110804982.357,.,45.000" \
    'lost 0 changed 1 explained 1' "changed phase $noon:02.000 G05 1C" "explained roll $noon:01.000 G05 1C"
row roll_and_back_at_a_slip 0 "$one 1:21085487.060,110804982.357,.,45.000 2:21085487.060,110804982.357,1,45.000" \
    "$one 1:21085487.060,110806482.357,.,45.000 2:21085487.060,110804982.357,1,45.000" \
    'lost 0 changed 0 explained 1' "explained roll $noon:01.000 G05 1C"
# A part of a roll is none.
row half_a_roll 3 "$one" 0:21085487.060,110805732.357,.,45.000 'lost 0 changed 1 explained 0' "changed phase $noon:00.000 G05 1C"

# An MSM in the place of a 1004: at most 0.020 m, 0.010 cycles and 1 dB.
row finer 0 "$one" 0:21085487.080,110804982.367,.,44.000 'lost 0 changed 0 explained 1' "explained finer $noon:00.000 G05 1C"
row finer_with_half_cycle 0 "$one" 0:21085487.061,110804982.357,2,45.000 'lost 0 changed 0 explained 1' "explained finer $noon:00.000 G05 1C"
row range_is_not_near 3 "$one" 0:21085487.081,110804982.367,.,45.000 'lost 0 changed 2 explained 0' \
    "changed range $noon:00.000 G05 1C" "changed phase $noon:00.000 G05 1C"
row phase_is_not_near 3 "$one" 0:21085487.060,110804982.368,.,45.000 'lost 0 changed 1 explained 0' "changed phase $noon:00.000 G05 1C"
row strength_is_not_near 3 "$one" 0:21085487.060,110804982.357,.,46.250 'lost 0 changed 1 explained 0' "changed strength $noon:00.000 G05 1C"

# Satellites, and what has no line of its own.
{ header; at 0 "$(cells G05 21085487.060 110804982.357 . 45.000)" "$(cells G07 21085487.060 110804982.357 . 45.000)"; } >old.rnx
made new.rnx "$one"
run compare old.rnx new.rnx
expect satellite 3 'lost 1 changed 0 explained 0
lost satellite 2024-05-17 12:00:00.000 G07' ''
# pins: json_of
run compare --json old.rnx new.rnx
expect json 3 '{"lost":1,"changed":0,"explained":0,"differences":[
{"class":"lost","what":"satellite","time":"2024-05-17 12:00:00.000","satellite":"G07"}]}' ''

# Headers.
made old.rnx "$one"
sed 's/^BASE/ROOF/' old.rnx >new.rnx
run compare old.rnx new.rnx
expect marker 3 'lost 0 changed 1 explained 0
changed marker' ''
sed '/APPROX POSITION/s/^ *[0-9.-]* *[0-9.-]* *[0-9.-]*/        0.0000        0.0000        0.0000/' old.rnx >zeros.rnx
sed '/APPROX POSITION/s/^ *[0-9.-]* *[0-9.-]* *[0-9.-]*/        1.0000        0.0000        0.0000/' old.rnx >known.rnx
run compare known.rnx zeros.rnx
expect position 3 'lost 1 changed 0 explained 0
lost position' ''
run compare zeros.rnx known.rnx
expect zeros_are_none 0 'lost 0 changed 0 explained 0' ''

# More than a hundred differences of a class.
made old.rnx "$one"
{ header; for second in $(seq 0 59); do at "$second" "$(cells G05 21085487.060 110804982.357 . 45.000)"; done; } >long.rnx
{
    header
    for second in $(seq 0 59); do at "$second" "$(cells G05 21085489.060 110804999.357 . 45.000)"; done
} >other.rnx
run compare long.rnx other.rnx
[ "$status" = 3 ] && [ "$(sed -n 1p out)" = 'lost 0 changed 120 explained 0' ] && [ "$(grep -c '^changed ' out)" = 100 ] && [ "$(tail -n 1 out)" = 'more-changed 20' ]
if [ $? -eq 0 ]; then right hundred; else wrong hundred "$(head -c 300 out)"; fi

# Labels.
"$program" label --agency 'Survey' old.rnx >labelled.rnx
run compare labelled.rnx old.rnx
expect labels_are_not_compared 0 'lost 0 changed 0 explained 0' ''
run compare --labels labelled.rnx old.rnx
expect label 3 'lost 1 changed 0 explained 0
lost agency' ''
"$program" label --agency 'Geodesy' old.rnx >other_label.rnx
run compare --labels labelled.rnx other_label.rnx
expect other_label 3 'lost 0 changed 1 explained 0
changed agency' ''
"$program" label --run-by Night --marker-number 14001M001 --observer Meyer --agency Survey --receiver-number 4711 --receiver-type 'SEPT POLARX5' \
    --receiver-version 5.4.0 --antenna-number 12 --antenna-type 'LEIAR25.R4      LEIT' --delta-height +0.1234 --delta-east +0.0010 --delta-north +0.0020 \
    old.rnx >full.rnx
# pins: label_lines_of_station, label_lines_of_receiver, label_lines_of_antenna
run compare --labels full.rnx old.rnx
expect all_fields_of_a_label 3 'lost 12 changed 0 explained 0
lost run-by
lost marker-number
lost observer
lost agency
lost receiver-number
lost receiver-type
lost receiver-version
lost antenna-number
lost antenna-type
lost delta-height
lost delta-east
lost delta-north' ''

# Files that are no files, and words that are refused.
echo nothing >bad.rnx
run compare bad.rnx old.rnx
expect old_is_no_file 3 '' 'rtcm2rinex: bad.rnx: line 1: C1 HeaderLine'
run compare old.rnx bad.rnx
expect new_is_no_file 3 '' 'rtcm2rinex: bad.rnx: line 1: C1 HeaderLine'
run compare old.rnx absent
expect absent 1 '' 'rtcm2rinex: cannot open absent'
run compare stdin stdin
expect stdin_twice 2 '' 'rtcm2rinex: bad files'
"$program" compare stdin old.rnx <old.rnx >out 2>err
status=$?
expect stdin 0 'lost 0 changed 0 explained 0' ''

ends
