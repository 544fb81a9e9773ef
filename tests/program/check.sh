#!/bin/sh
# Runs `check` as a user does. The program is $1.
. "$(dirname "$(readlink -f "$0")")/common"
base=$root/examples/base.rnx

check() { run check "$@"; }

# bad_edit NAME WANTED SCRIPT [FILE]: of the file after a script of sed
bad_edit() {
    sed "$3" "${4:-$base}" >edited
    check edited
    expect "$1" 3 "$2" ''
}

# pins: valid_text
# refuses: a `main` that does not answer the status of `run_program`
check "$base";                      expect yes 0 'valid: 1 epochs, 1 satellite lines' ''
check "$root/examples/session.rnx"; expect yes_session 0 'valid: 20 epochs, 72 satellite lines' ''
check "$root/examples/late.rnx";    expect yes_late 0 'valid: 5 epochs, 10 satellite lines' ''
sed -e '15,$d' -e '8s/^.\{42\}/        0.0000        0.0000        0.0000/' "$base" >no_record
check no_record; expect no_record 0 'valid: 0 epochs, 0 satellite lines' ''
head -c -1 "$base" >cut
check cut; expect no_last_line_feed 3 'line 16: C5 Truncated' ''
# pins: check_fault_text
bad_edit no_header 'line 4: C1 HeaderLine' '4s/GEODETIC/GEODESIC/'
bad_edit half_header 'line 9: C5 Truncated' '9,$d'
# pins: check_fault_text
bad_edit satellite_33 'line 16: C2 Columns' '16s/^G05/G33/'
bad_edit blank_at_the_end 'line 16: C2 Columns' '16s/$/ /'
# pins: check_fault_text
bad_edit zero_value 'line 16: C3 Value' '16s/^G05  21085472.060/G05         0.000/'
# pins: check_fault_text
bad_edit repeated_epoch 'line 17: C4 Order' '15h; 16 { H; p; g }'
# Each byte counts: a CR or a NUL.
bad_edit cr_in_line_1 'line 1: C1 HeaderLine' '1s/$/\r/'
bad_edit cr_in_the_last_header_line 'line 14: C1 HeaderLine' '14s/$/\r/'
bad_edit cr_in_an_epoch_line 'line 15: C2 Columns' '15s/$/\r/'
bad_edit cr_in_a_satellite_line 'line 16: C3 Value' '16s/$/\r/'
bad_edit cr_as_a_line 'line 17: C2 Columns' '$s/$/\n\r/'
bad_edit nul_as_a_line 'line 17: C2 Columns' '$s/$/\n\x00/'
bad_edit nul_before_the_last_line_feed 'line 16: C3 Value' '$s/$/\x00/'

# Files of other systems.
of_galileo >galileo
bad_mixed() { bad_edit "$@" "$mixed"; }
bad_galileo() { bad_edit "$@" galileo; }
check "$mixed";        expect yes_mixed 0 'valid: 4 epochs, 21 satellite lines' ''
check stdin <"$mixed"; expect yes_mixed_of_standard_input 0 'valid: 4 epochs, 21 satellite lines' ''
check galileo;         expect yes_galileo 0 'valid: 4 epochs, 4 satellite lines' ''
sed 31q "$mixed" >heading
check heading; expect yes_mixed_without_records 0 'valid: 0 epochs, 0 satellite lines' ''
# The letter in the first line. Behind the codes of G a file of GPS alone has no codes of R, and a file of several systems has some.
bad_mixed unknown_letter 'line 1: C1 HeaderLine' '1s/M /X /'
bad_mixed no_letter 'line 1: C1 HeaderLine' '1s/M /  /'
bad_mixed small_letter 'line 1: C1 HeaderLine' '1s/M /m /'
bad_mixed letter_of_gps 'line 11: C1 HeaderLine' '1s/M /G /'
bad_mixed letter_of_galileo 'line 10: C1 HeaderLine' '1s/M /E /'
bad_galileo letter_of_beidou 'line 10: C1 HeaderLine' '1s/E /C /'
bad_galileo letter_of_several_systems_and_galileo 'line 11: C1 HeaderLine' '1s/E /M /'
bad_edit letter_of_several_systems_and_gps 'line 11: C1 HeaderLine' '1s/G /M /'
# Each other line of a header of several systems.
bad_mixed systems_out_of_order 'line 12: C1 HeaderLine' '11 { h; d }; 12G'
bad_mixed system_twice 'line 12: C1 HeaderLine' 11p
bad_mixed types_of_another_system 'line 11: C1 HeaderLine' '11s/C2P L2P S2P/C2W L2W S2W/'
bad_mixed types_out_of_order 'line 12: C1 HeaderLine' '12s/C8X L8X/L8X C8X/'
bad_mixed more_types_than_the_number 'line 12: C1 HeaderLine' '12s/  6/  3/'
bad_mixed no_second_line_of_types 'line 14: C1 HeaderLine' 14d
bad_mixed no_phase_shift_of_a_system 'line 24: C1 HeaderLine' 24d
bad_mixed slots_out_of_order 'line 27: C1 HeaderLine' '27s/R02 -4 R03  5/R03  5 R02 -4/'
bad_mixed channel_7 'line 27: C1 HeaderLine' '27s/R01  1/R01  7/'
bad_mixed slot_28 'line 28: C1 HeaderLine' '28s/R22/R28/'
bad_mixed fewer_slots_than_the_number 'line 28: C1 HeaderLine' '27s/ 10/ 11/'
bad_mixed slots_without_glonass 'line 25: C1 HeaderLine' '11d; 21d'
bad_mixed biases 'line 29: C1 HeaderLine' '29s/^ /C/'
bad_mixed no_leap_seconds 'line 30: C1 HeaderLine' 30d
bad_mixed leap_seconds_of_three_digits 'line 30: C1 HeaderLine' '30s/  18/ 100/'
sed -n 30p "$mixed" >leap
bad_galileo leap_seconds_without_glonass 'line 14: C1 HeaderLine' '13r leap'
bad_mixed half_mixed_header 'line 30: C5 Truncated' '30,$d'
# The eight satellites of the first record stand in the lines 33 to 40. The seven systems have 221 satellites, and Galileo has 36.
bad_mixed satellite_of_a_system_without_types 'line 36: C2 Columns' '15d; 24d'
while read -r line name beyond <&3; do
    bad_mixed "satellite_$beyond" "line $line: C2 Columns" "${line}s/^$name/$beyond/"
done 3<<'END'
33 G11 G33
34 R10 R28
36 E11 E37
37 C41 C64
38 J01 J11
39 S58 S19
39 S58 S59
40 I14 I15
40 I14 X14
END
# pins: most_satellites
bad_mixed two_hundred_and_twenty_two_of_all 'line 32: C2 Columns' '32s/  8$/222/'
bad_mixed eight_of_two_hundred_and_twenty_one 'line 41: C2 Columns' '32s/  8$/221/'
bad_galileo thirty_seven_of_galileo 'line 15: C2 Columns' '15s/  1$/ 37/'
bad_galileo one_of_thirty_six_of_galileo 'line 17: C2 Columns' '15s/  1$/ 36/'
# S has one code, and E has two.
# pins: IsMixedForm
bad_mixed a_second_code_of_sbas 'line 39: C2 Columns' '39s/$/    39272226.466/'
bad_mixed a_third_code_of_galileo 'line 36: C2 Columns' '36s/$/    25110278.381/'
bad_mixed blank_behind_galileo 'line 36: C2 Columns' '36s/$/ /'
# The order is that of the systems, and not of their letters.
bad_mixed satellites_in_the_order_of_letters 'line 37: C4 Order' '36 { h; d }; 37G'
bad_mixed satellite_twice 'line 37: C4 Order' '32s/8$/9/; 36p'
bad_mixed another_first_time 'line 32: C4 Order' '32s/ 0.0000000/ 0.5000000/'
bad_mixed time_twice 'line 41: C4 Order' '41s/ 1.0000000/ 0.0000000/'
# R26 has no channel in the header.
# pins: MixedForm.phases_in
bad_mixed phase_without_a_channel 'line 35: C3 Value' '35s/5                /5  93254129.000 5/'
bad_mixed channel_of_another_slot 'line 34: C3 Value' '27s/R10/R11/'
bad_mixed zero_of_galileo 'line 36: C3 Value' '36s/25110278.381/       0.000/'
bad_mixed strength_between_steps 'line 40: C3 Value' '40s/40.000/40.100/'
bad_mixed no_observation 'line 40: C3 Value' '40s/^\(I14\).*/\1/'
bad_mixed order_before_value 'line 37: C4 Order' '36 { h; d }; 37 { G; s/25110278.381/       0.000/ }'
bad_mixed columns_before_order 'line 37: C2 Columns' '36 { h; d }; 37 { G; s/$/ / }'
bad_mixed half_record 'line 50: C5 Truncated' '50,$d'
head -c -1 "$mixed" >cut
check cut; expect no_last_line_feed_of_mixed 3 'line 56: C5 Truncated' ''

check --hlep
expect like_help 2 '' "$(error "unexpected argument '--hlep' found" "check --help <FILE>" "a similar argument exists: '--help'")"

# 70,000 epochs of a second each, and the same with a value of 0 at the end.
{
    sed -n '1,14p' "$base"
    awk 'BEGIN { for (t = 43200; t < 113200; t++) printf "> 2024 05 %02d %02d %02d%11.7f  0  1\nG05         0.001\n",
        17 + int(t / 86400), int(t / 3600) % 24, int(t / 60) % 60, t % 60 }'
} >many
sed '$s/0.001/0.000/' many >many_and_zero
check many;          expect seventy_thousand_epochs 0 'valid: 70000 epochs, 70000 satellite lines' ''
check many_and_zero; expect a_fault_beyond_65535_lines 3 'line 140014: C3 Value' ''

ends
