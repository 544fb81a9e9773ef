#!/bin/sh
# Runs `quality` as a user does. The program is $1.
. "$(dirname "$(readlink -f "$0")")/common"
file=$root/examples/slip.rnx

quality() { run quality "$@"; }
lines() { quality --lines "$@"; }

# The file was laid by hand: a minute of G05, with the slips that its digits show at the seconds 7, 30 and 60, and of G07 without
# the seconds 25 to 34, with a slip at 20 and half cycles at 10 and 60. Strengths are 45 and 35, 41.5 and 30.25 dB-Hz throughout.
# Its numbers, slip.numbers, were looked up in it by hand, and slip.table has them in columns.
numbers=$root/tests/program/slip.numbers table=$root/tests/program/slip.table
cat >json <<'END'
{"file":{"marker":"BASE","from":"2024-05-17 12:00:00.000","until":"2024-05-17 12:01:00.000","interval_ms":1000,"records":61,"missing":0,"gaps":0,"satellites":2,"least_satellites":1,"mean_satellites_tenths":18,"greatest_satellites":2,"slips":4,"moments":4,"outages":0,"outage_time_ms":0,"slips_together":0,"bursts":1,"half_runs":2,"missing_codes":0},
"codes":[
{"code":"1C","phases":112,"possible":122,"percent_tenths":918,"satellites":2,"tracked":2,"ranges_only":0,"slips":2,"returns":0,"rises":0,"half_cycles":2,"phases_per_slip":56,"least_strength_millidbhz":41500,"mean_strength_centidbhz":4341,"greatest_strength_millidbhz":45000},
{"code":"2W","phases":112,"possible":122,"percent_tenths":918,"satellites":2,"tracked":2,"ranges_only":0,"slips":2,"returns":0,"rises":0,"half_cycles":0,"phases_per_slip":56,"least_strength_millidbhz":30250,"mean_strength_centidbhz":3284,"greatest_strength_millidbhz":35000}
],
"satellites":[
{"satellite":"G05","code":"1C","phases":61,"possible":61,"percent_tenths":1000,"ranges_only":0,"slips":2,"returns":0,"rises":0,"half_cycles":0,"phases_per_slip":31,"least_strength_millidbhz":45000,"mean_strength_centidbhz":4500,"greatest_strength_millidbhz":45000},
{"satellite":"G05","code":"2W","phases":61,"possible":61,"percent_tenths":1000,"ranges_only":0,"slips":1,"returns":0,"rises":0,"half_cycles":0,"phases_per_slip":61,"least_strength_millidbhz":35000,"mean_strength_centidbhz":3500,"greatest_strength_millidbhz":35000},
{"satellite":"G07","code":"1C","phases":51,"possible":61,"percent_tenths":836,"ranges_only":0,"slips":0,"returns":0,"rises":0,"half_cycles":2,"phases_per_slip":null,"least_strength_millidbhz":41500,"mean_strength_centidbhz":4150,"greatest_strength_millidbhz":41500},
{"satellite":"G07","code":"2W","phases":51,"possible":61,"percent_tenths":836,"ranges_only":0,"slips":1,"returns":0,"rises":0,"half_cycles":0,"phases_per_slip":51,"least_strength_millidbhz":30250,"mean_strength_centidbhz":3025,"greatest_strength_millidbhz":30250}
],
"tracked":[
{"satellite":"G05","phases":122,"slips":3,"moments":3,"outages":0,"outage_time_ms":0},
{"satellite":"G07","phases":102,"slips":1,"moments":1,"outages":0,"outage_time_ms":0}
],
"never":[],
"passes":[
{"satellite":"G05","from":"2024-05-17 12:00:00.000","until":"2024-05-17 12:01:00.000","phases":122,"slips":3,"moments":3,"outages":0,"outage_time_ms":0},
{"satellite":"G07","from":"2024-05-17 12:00:00.000","until":"2024-05-17 12:01:00.000","phases":102,"slips":1,"moments":1,"outages":0,"outage_time_ms":0}
],
"hours":[
{"hour":"2024-05-17 12:00:00.000","records":61,"expected":61,"mean_satellites_tenths":18,"slips":4,"returns":0,"mean_strength_1_centidbhz":4341,"mean_strength_2_centidbhz":3284}
],
"gaps":[],
"falls":[],
"outages":[],
"slips_together":[],
"bursts":[
{"satellite":"G05","hour":"2024-05-17 12:00:00.000","moments":3}
],
"half_runs":[
{"satellite":"G07","from":"2024-05-17 12:00:10.000","until":"2024-05-17 12:00:10.000","epochs":1},
{"satellite":"G07","from":"2024-05-17 12:01:00.000","until":"2024-05-17 12:01:00.000","epochs":1}
],
"missing_codes":[]}
END
# pins: counts_of, passes_of, epochs_in_passes, percent_tenths, mean_hundredths
# pins: padded, lined_up, Lists.closed, satellite_mark, numbers_columns, code_row, tracked_row, pass_row, hour_row, codes_heading
# pins: section_heading, hours_heading, span_part, listed_text, burst_row, burst_line, bursts_heading, run_row, run_line, runs_heading
# pins: open_where, ended_where, half_runs, half_runs_in, longest_half_runs, last_hour, burst_of, all_bursts, all_bursts_in, largest_bursts
quality "$file";              leaves quality_of_a_file 0 "$table" /dev/null
quality stdin <"$file";       leaves quality_of_standard_input 0 "$table" /dev/null
lines "$file";                leaves quality_in_lines 0 "$numbers" /dev/null
quality "$file" --lines;      leaves quality_in_lines_after_the_file 0 "$numbers" /dev/null
quality --json "$file";       leaves quality_in_json 0 json /dev/null
quality "$file" --json;       leaves quality_in_json_after_the_file 0 json /dev/null
quality --json stdin <"$file"; leaves quality_of_standard_input_in_json 0 json /dev/null
python3 -c 'import json, sys; print(*json.load(sys.stdin))' <out >got; echo file codes satellites tracked never passes hours gaps falls outages slips_together bursts half_runs missing_codes >want
same other_programs_read_the_document got want

# Fields in the header change no number.
"$program" label --antenna-type 'AOAD/M_T        NONE' --delta-height +1.5000 "$file" >labelled
quality labelled;        leaves quality_of_a_file_with_a_label 0 "$table" /dev/null
lines labelled;          leaves quality_of_a_file_with_a_label_in_lines 0 "$numbers" /dev/null
quality --json labelled; leaves quality_of_a_file_with_a_label_in_json 0 json /dev/null

# A header alone; in JSON a marker may need a backslash.
sed '/END OF HEADER/q; s/^BASE         /B~"\\<é>      /' "$file" | sed 's/<é>/<\&>/' >empty
quality empty; { echo 'marker B~"\<&>'; printf '%-8s%35s\n' records 0; } >want
leaves quality_without_records 0 want /dev/null
lines empty; expect quality_without_records_in_lines 0 "$(printf '%s\n' 'marker B~"\<&>' 'records 0')" ''
quality --json empty
printf '%s,\n' '{"file":{"marker":"B~\"\\<&>","records":0}' '"codes":[]' '"satellites":[]' '"tracked":[]' '"never":[]' '"passes":[]' '"hours":[]' '"gaps":[]' '"falls":[]' '"outages":[]' '"slips_together":[]' '"bursts":[]' '"half_runs":[]' >want
echo '"missing_codes":[]}' >>want
# pins: no_lists
leaves quality_without_records_in_json 0 want /dev/null

# A record alone has no interval.
sed '/^> .* 1.0000000 /,$d' "$file" >one
lines one; sed '20,$d' out >heading
printf '%s\n' 'marker BASE' 'from 2024-05-17 12:00:00.000' 'until 2024-05-17 12:00:00.000' 'interval -' 'records 1' 'missing 0' 'gaps 0' \
    'satellites 2' 'least-satellites 2' 'mean-satellites 2.0' 'greatest-satellites 2' 'slips 0' 'moments 0' 'outages 0' \
    'outage-time 0.000' 'slips-together 0' 'bursts 0' 'half-runs 0' 'missing-codes 0' >want
same quality_of_a_record heading want

# away N: six hours at 1 s of G05 and G07. G05 is away for the last N seconds of each 600 but the last ones, so 35 times, and bit 0
# stands where it is back.
away() {
    sed '/END OF HEADER/q' "$file"
    awk -v away="$1" 'BEGIN {
        for (s = 0; s < 21600; s++) {
            there = s % 600 < 600 - away || s >= 21000
            printf "> 2024 05 17 %02d %02d %2d.0000000  0 %2d\n", 12 + int(s / 3600), int(s / 60) % 60, s % 60, 1 + there
            if (there) printf "G05  21085472.060 7 110804903.547%s7        45.000\n", s % 600 || !s ? " " : "1"
            print "G07  22963108.863 6 120671906.430 6        41.500"
        }
    }'
}

# For how many seconds G05 is away, the step of `cut`, and what is due: phases, slips, returns, outages and their seconds. Only an
# absence of 125 s is judged in another way after `cut`, where it is one of 120 s.
cat >rows <<'END'
119  1 17435 21600 80.7 35  0  0     0
119 30   615   720 85.4 35  0  0     0
120  1 17400 21600 80.5 35  0  0     0
120 30   580   720 80.5 35  0  0     0
125  1 17225 21600 79.7  0 35 35  4375
125 30   580   720 80.5 35  0  0     0
300  1 11100 21600 51.3  0 35 35 10500
300 30   370   720 51.3  0 35 35 10500
END
while read -r seconds step phases possible percent slips returns outages time <&3; do
    away "$seconds" >gone
    "$program" cut --every "$step" gone >part 2>log
    lines part
    grep -E '^(slips|moments|outages|outage-time|satellite G05 1C|tracked G05) ' out | sed 's/ half-cycles .*//' >got
    cat >want <<END
slips $slips
moments $slips
outages $outages
outage-time $time.000
satellite G05 1C phases $phases of $possible percent $percent ranges-only 0 slips $slips returns $returns rises 0
tracked G05 phases $phases slips $slips moments $slips outages $outages outage-time $time.000
END
    if [ "$slips" -gt 0 ]; then locks='%s 0\n'; else locks='0 %s\n'; fi
    awk '$1 == "hour" { print $11, $13 }' out >>got
    # shellcheck disable=SC2059 # it is a format
    printf "$locks" 5 6 6 6 6 6 >>want
    # pins: absence_of, is_longer, ends_outage, is_return, is_slip, epochs_in_passes, percent_tenths, sums_of, station_sums
    same "quality_of_a_satellite_away_for_${seconds}_s_at_$step" got want
done 3<rows

# The first ten of the 35 outages of 125 s, and the tenth one, which follows nine times 600 s.
away 125 >gone
lines gone; grep '^outage G' out >got; { sed -n '1p;10p' got; wc -l <got; } >some
cat >want <<'END'
outage G05 from 2024-05-17 12:07:54.000 until 2024-05-17 12:10:00.000 outage-time 125.000
outage G05 from 2024-05-17 13:37:54.000 until 2024-05-17 13:40:00.000 outage-time 125.000
10
END
# pins: absence_between, all_outages, longest_outages, largest_first, ten_largest, outage_line
same quality_of_the_longest_outages some want
quality gone; grep -A 1 '^G05 .* 13:37:54 ' out >got
cat >want <<'END'
G05 2024-05-17 13:37:54 2024-05-17 13:40:00     125.000
and 25 more
END
# pins: more_text, outage_row
same quality_of_the_longest_outages_in_a_table got want

# Four satellites for a minute. G01 and G02 slip at the second 10, G01, G02 and G03 at 20, where G04 has no row, G04 alone at 30, and G02
# and G03 at 40. G03 has a range without a phase at 10.
{
    sed '/END OF HEADER/q' "$file"
    awk 'BEGIN {
        for (s = 0; s < 60; s++) {
            printf "> 2024 05 17 12 00 %2d.0000000  0  %d\n", s, s == 20 ? 3 : 4
            for (n = 1; n <= 4; n++) {
                slip = s == 10 && n < 3 || s == 20 || s == 30 && n == 4 || s == 40 && (n == 2 || n == 3)
                if (n == 3 && s == 10) print "G03  21085472.060"
                else if (n < 4 || s != 20) printf "G0%d  21085472.060 7 110804903.547%s7        45.000\n", n, slip ? "1" : " "
            }
        }
    }'
} >common
lines common; grep '^slip' out >got
cat >want <<'END'
slips 8
slips-together 3
slip-together 2024-05-17 12:00:20.000 satellites 3 of 3
slip-together 2024-05-17 12:00:10.000 satellites 2 of 3
slip-together 2024-05-17 12:00:40.000 satellites 2 of 4
END
# pins: together_in, moment_if_several, common_moments, moments_in, largest_moments, together_line, listed_counts
same quality_of_slips_together got want
quality common; grep -A 3 '^slips together' out >got
cat >want <<'END'
slips together      satellites    of
2024-05-17 12:00:20          3     3
2024-05-17 12:00:10          2     3
2024-05-17 12:00:40          2     4
END
# pins: moment_row, moments_heading
same quality_of_slips_together_in_a_table got want
quality --json common; sed -n '/^"slips_together"/,/^"bursts"/p' out >got
cat >want <<'END'
"slips_together":[
{"time":"2024-05-17 12:00:20.000","satellites":3,"tracked":3},
{"time":"2024-05-17 12:00:10.000","satellites":2,"tracked":3},
{"time":"2024-05-17 12:00:40.000","satellites":2,"tracked":4}
],
"bursts":[
END
same quality_of_slips_together_in_json got want

# Two hours and a half of G05 at 30 s, which is away in the second hour for 2,400 s, so a pass begins at 13:50. It slips in its first
# hour at the minutes 5, 6 and 7, in the second one once and in the third one at 2 and 4. It has half cycles from 12:10 to 12:14:30
# without the minute 12, again from 13:08 to 13:09:30 and from 13:50 to 13:50:30, where its pass begins, and from 14:25 to the end.
{
    sed '/END OF HEADER/q' "$file"
    awk 'BEGIN {
        for (s = 0; s < 9000; s += 30) {
            if (s >= 4200 && s < 6600) there = 0; else there = 1
            printf "> 2024 05 17 %02d %02d %2d.0000000  0  %d\n", 12 + int(s / 3600), int(s / 60) % 60, s % 60, 1 + there
            slip = s == 300 || s == 360 || s == 420 || s == 3720 || s == 7320 || s == 7440
            half = s >= 600 && s < 900 && s != 720 && s != 750 || s >= 4080 && s < 4200 || s >= 6600 && s < 6660 || s >= 8700
            mark = slip + 2 * half
            if (there) printf "G05  21085472.060 7 110804903.547%s7        45.000\n", mark ? mark : " "
            print "G07  22963108.863 6 120671906.430 6        41.500"
        }
    }'
} >runs
lines runs; grep -E '^(burst|half)' out >got
cat >want <<'END'
bursts 2
half-runs 5
burst G05 hour 2024-05-17 12:00:00.000 moments 3
burst G05 hour 2024-05-17 14:00:00.000 moments 2
half-run G05 from 2024-05-17 14:25:00.000 until 2024-05-17 14:29:30.000 epochs 10
half-run G05 from 2024-05-17 12:10:00.000 until 2024-05-17 12:11:30.000 epochs 4
half-run G05 from 2024-05-17 12:13:00.000 until 2024-05-17 12:14:30.000 epochs 4
half-run G05 from 2024-05-17 13:08:00.000 until 2024-05-17 13:09:30.000 epochs 4
half-run G05 from 2024-05-17 13:50:00.000 until 2024-05-17 13:50:30.000 epochs 2
END
# pins: open_where, ended_where, half_runs, longest_half_runs, last_hour, burst_of, all_bursts, largest_bursts
same quality_of_bursts_and_half_cycles got want

# Two hours of two satellites at 30 s. G01 lacks L5 for 40 minutes of its pass, and G02 for two minutes, which are too short, and for
# two and a half. G03 has it nowhere.
{
    sed '/END OF HEADER/q; s/^G    6 C1C L1C S1C C2W L2W S2W/G    6 C1C L1C S1C C5Q L5Q S5Q/' "$file"
    awk 'BEGIN {
        for (s = 0; s < 7200; s += 30) {
            printf "> 2024 05 17 %02d %02d %2d.0000000  0  3\n", 12 + int(s / 3600), int(s / 60) % 60, s % 60
            for (n = 1; n <= 3; n++) {
                lacks = n == 3 || n == 1 && s >= 1800 && s < 4200 || n == 2 && (s >= 600 && s < 720 || s >= 3000 && s < 3150)
                printf "G0%d  21085472.060 7 110804903.547 7        45.000", n
                if (!lacks) printf "    21085474.060 5  82743902.120 5        35.000"
                print ""
            }
        }
    }'
} >holes
lines holes; grep '^missing' out >got
cat >want <<'END'
missing 0
missing-codes 2
missing-code G01 5Q from 2024-05-17 12:30:00.000 until 2024-05-17 13:09:30.000 epochs 80
missing-code G02 5Q from 2024-05-17 12:50:00.000 until 2024-05-17 12:52:00.000 epochs 5
END
# pins: lacks, open_where, ended_where, Missing.is_listed, missing_of, all_missing, missing_codes_in, longest_missing, StationText.missing_line
same quality_of_missing_codes got want
quality holes; grep -A 2 '^missing from' out >got
cat >want <<'END'
missing from               until                  epochs
G01 5Q 2024-05-17 12:30:00 2024-05-17 13:09:30        80
G02 5Q 2024-05-17 12:50:00 2024-05-17 12:52:00         5
END
# pins: missing_row, missing_heading
same quality_of_missing_codes_in_a_table got want
quality --json holes; sed -n '/^"missing_codes"/,$p' out >got
cat >want <<'END'
"missing_codes":[
{"satellite":"G01","code":"5Q","from":"2024-05-17 12:30:00.000","until":"2024-05-17 13:09:30.000","epochs":80},
{"satellite":"G02","code":"5Q","from":"2024-05-17 12:50:00.000","until":"2024-05-17 12:52:00.000","epochs":5}
]}
END
same quality_of_missing_codes_in_json got want

# Seven records of three hours. The third one lies 20 ms before its hour, and 118 and 60 epochs are missing up to the next hour and in
# it. 2W has no strength in the second hour. Its strengths fall by 5 from the first hour to the third, and those of 1C by 2 and by 3.
{
    sed '/END OF HEADER/q; /TIME OF FIRST OBS/s/    12     0 /    12    59 /' "$file"
    while read -r hour minute second slip one two; do
        printf '> 2024 05 17 %s %s %10s  0  1\n' "$hour" "$minute" "$second"
        printf 'G05  21085472.060 %s 110804903.547%s%s        %s' "${one%:*}" "$(echo "$slip" | tr - ' ')" "${one%:*}" "${one#*:}"
        [ "$two" = - ] || printf '    21085474.060 5  86341483.321 5        %s' "$two"
        echo
    done
} >hours <<'END'
12 59  0.0000000 - 7:45.000 35.000
12 59 30.0000000 - 7:45.000 35.000
12 59 59.9800000 - 7:44.000 -
13 00 30.0000000 - 7:42.000 -
14 30  0.0000000 1 6:40.000 30.000
14 30 30.0000000 1 6:40.000 30.000
14 31  0.0000000 - 6:40.000 30.000
END
lines hours
grep -E '^(missing|gaps|hour|gap|fall) ' out >got
cat >want <<'END'
missing 178
gaps 1
hour 2024-05-17 12:00:00.000 records 2 of 2 mean-satellites 1.0 slips 0 returns 0 mean-strength-1 45.00 mean-strength-2 35.00
hour 2024-05-17 13:00:00.000 records 2 of 120 mean-satellites 1.0 slips 0 returns 0 mean-strength-1 43.00 mean-strength-2 -
hour 2024-05-17 14:00:00.000 records 3 of 63 mean-satellites 1.0 slips 1 returns 0 mean-strength-1 40.00 mean-strength-2 30.00
gap from 2024-05-17 13:00:30.000 until 2024-05-17 14:30:00.000 missing 178
fall band 1 from 2024-05-17 13:00:00.000 until 2024-05-17 14:00:00.000 mean-strength 3.00
fall band 2 from 2024-05-17 12:00:00.000 until 2024-05-17 14:00:00.000 mean-strength 5.00
END
# pins: hour_at, begin_of, start_of, hours_of, counts_of_hour, sum_in_hour, strengths_in_hour, mean_of_hour, mean_in, Strengths.number_of
# pins: Hours.missing_until, missing_within, gap_between, Gaps.gaps_of, fall_to, largest_fall, strength_words
same quality_of_three_hours got want
quality --json hours
grep '"band":2' out >got
echo '{"band":2,"from":"2024-05-17 12:00:00.000","until":"2024-05-17 14:00:00.000","mean_strength_centidbhz":500}' >want
same quality_of_three_hours_in_json got want
# The table of the same numbers, from its hours to its codes.
quality hours; sed -n '/^hour/,/^signal/p' out >got
cat >want <<'END'
hour             records    of satellites  slips returns  band 1  band 2  band 5
2024-05-17 12:00       2     2        1.0      0       0   45.00   35.00       -
2024-05-17 13:00       2   120        1.0      0       0   43.00       -       -
2024-05-17 14:00       3    63        1.0      1       0   40.00   30.00       -

gap from                until                     missing
2024-05-17 13:00:30.000 2024-05-17 14:30:00.000       178

band falls from       until                by
   1 2024-05-17 13:00 2024-05-17 14:00    3.00
   2 2024-05-17 12:00 2024-05-17 14:00    5.00

                            ranges                             strength in dB-Hz
signal phases     of      %   only slips returns rises half     min  mean    max
END
# pins: hour_row, gaps_heading, falls_heading, span_part, body_text
same quality_of_three_hours_in_a_table got want

# twelve KIND: 83 records of twelve satellites. G07 slips twice on its codes. G11 has no 2W, and G05 lacks two phases of it. Of the
# kind `ranges` G12 has only ranges of 2W, and of the kind `none` no satellite has 2W.
twelve() {
    sed '/END OF HEADER/q' "$file"
    awk -v kind="$1" 'BEGIN {
        for (s = 0; s < 83; s++) {
            printf "> 2024 05 17 12 %02d %2d.0000000  0 12\n", s / 60, s % 60
            for (n = 1; n <= 12; n++) {
                slip = n == 7 && (s == 20 || s == 40) ? "1" : " "
                printf "G%02d  21085472.060 7 110804903.547%s7        45.000", n, slip
                if (kind == "ranges" && n == 12)
                    printf "    21085474.060 5%16s        35.000", ""
                else if (kind != "none" && n != 11 && !(n == 5 && (s == 10 || s == 11)))
                    printf "    21085474.060 5  86341483.321%s5        35.000", slip
                print ""
            }
        }
    }'
}

twelve most >most
lines most
grep -E '^(slips|moments|code|tracked G07|never) ' out | sed 's/ ranges-only .*//' >got
cat >want <<'END'
slips 4
moments 2
code 1C phases 996 of 996 percent 100.0 satellites 12 of 12
code 2W phases 911 of 913 percent 99.7 satellites 11 of 12
tracked G07 phases 166 slips 4 moments 2 outages 0 outage-time 0.000
never G11 2W
END
# pins: percent_tenths, station_numbers, code_of_station, phases_per_slip, sums_of
same quality_of_a_code_that_one_satellite_never_sends got want
# The table has the code of which G11 has no phase in a list of its own.
quality most
sed -n '/^all 2W/,/^G01/p; /^never/,/^$/p' out >got
cat >want <<'END'
all 2W    911    913   99.7      0     2       0     0    0  35.000 35.00 35.000
       satellites 11 of 12 phases-per-slip 456
G01 1C     83     83  100.0      0     0       0     0    0  45.000 45.00 45.000
never a phase
2W G11

END
same quality_of_a_code_that_one_satellite_never_sends_in_a_table got want
twelve ranges >ranges
lines ranges
grep -E '^(code 2W|satellite G12 2W|never) ' out | sed 's/ slips .*//' >got
cat >want <<'END'
code 2W phases 828 of 913 percent 90.6 satellites 11 of 12 ranges-only 83
satellite G12 2W phases 0 of 83 percent 0.0 ranges-only 83
never G11 2W
never G12 2W
END
same quality_of_a_code_with_ranges_alone got want
# A row has at most 19 satellites behind a code. Of 32 satellites with 1C no one has 2W.
{
    sed '/END OF HEADER/q' "$file"
    printf '> 2024 05 17 12 00  0.0000000  0 32\n'
    for number in $(seq -w 32); do printf 'G%s  21085472.060 7 110804903.547 7        45.000\n' "$number"; done
} >wide
quality wide
sed -n '/^never/,/^$/p' out >got
cat >want <<'END'
never a phase
2W G01 G02 G03 G04 G05 G06 G07 G08 G09 G10 G11 G12 G13 G14 G15 G16 G17 G18 G19
2W G20 G21 G22 G23 G24 G25 G26 G27 G28 G29 G30 G31 G32

END
# pins: row_end, row_start, row_part, never_row
same quality_of_a_code_that_no_one_of_32_satellites_sends got want
twelve none >none
lines none
grep '^code 2W ' out >got
echo 'code 2W phases 0 of 996 percent 0.0 satellites 0 of 12 ranges-only 0 slips 0 returns 0 rises 0 half-cycles 0 phases-per-slip no-phase least-strength - mean-strength - greatest-strength -' >want
same quality_of_a_code_that_no_satellite_sends got want
quality --json none
grep '^{"code":"2W"' out | sed 's/,"ranges_only".*//' >got
echo '{"code":"2W","phases":0,"possible":996,"percent_tenths":0,"satellites":0,"tracked":12' >want
same quality_of_a_code_that_no_satellite_sends_in_json got want

# A file that `check` refuses: its line, on standard error, and no number.
sed '20s/^/x/' "$file" >wrong
"$program" check wrong >line
for words in '' --lines --json; do
    quality $words wrong; leaves "quality_of_a_bad_file$words" 3 /dev/null line
    sed '20s/^/x/' labelled >bad
    quality $words bad; expect "quality_of_a_bad_file_with_a_label$words" 3 '' 'line 20: C2 Columns'
    quality $words - ; expect "quality_of_no_file$words" 1 '' 'rtcm2rinex: cannot open -'
done

# Files of other systems. The numbers of mixed.rnx in mixed.numbers were looked up in it by hand.
cp "$mixed" mixed
of_galileo >galileo
systems=$root/tests/program/mixed.numbers
# pins: mixed_quality_of, mixed_quality_text, parts_of_systems, epochs_of_system, totals_text
lines mixed;        leaves quality_of_mixed 0 "$systems" /dev/null
lines stdin <mixed; leaves quality_of_mixed_of_standard_input 0 "$systems" /dev/null
"$program" label --run-by B mixed >labelled_mixed
lines labelled_mixed; leaves quality_of_mixed_with_a_label 0 "$systems" /dev/null

# Each record has a satellite of Galileo, so a file of Galileo alone has the same numbers.
{ sed '/^system/,$d' "$systems"; sed -n '/^system E/,/^system C/p' "$systems" | sed '$d'; } >want
lines galileo; leaves quality_of_galileo 0 want /dev/null

# Each record has one of GPS too, and of a file of GPS alone the lines are the same, but the gap stands behind the hours.
"$program" cut --systems G mixed >gps 2>err
lines gps; grep -v '^gap ' out >got
{ sed '/^gap /,$d' "$systems"; sed -n '/^system G/,/^system R/p' "$systems" | sed '1d;$d'; } >want
same quality_of_gps_as_of_a_file_alone got want

# In columns and in JSON.
quality mixed; sed -n '/^system C/,$p' out | sed '/^signal/q' >got
cat >want <<'END'
system C
satellites                                1
least-satellites                          0
mean-satellites                         0.8
greatest-satellites                       1
slips                                     1
moments                                   1
outages                                   0
outage-time                           0.000
slips-together                            0
bursts                                    0
half-runs                                 1
missing-codes                             0

hour             records    of satellites  slips returns  band 2  band 6  band 7
2024-05-17 12:00       4     5        0.8      1       0   44.00       -       -

half from               until                  epochs
C41 2024-05-17 12:00:01 2024-05-17 12:00:01         1

                            ranges                             strength in dB-Hz
signal phases     of      %   only slips returns rises half     min  mean    max
END
# pins: system_start, bands_of_system, band_named
same quality_of_beidou_in_a_table got want
quality --json mixed
python3 -c 'import json, sys
numbers = json.load(sys.stdin)
print(*numbers)
for part in numbers["systems"]: print(part["totals"]["system"], *(row["code"] for row in part["codes"]))
print(*numbers["systems"][0])' <out >got
cat >want <<'END'
file gaps systems
G 1C 5X
R R2P
E E1X E8X
C C2I C6I C7I C5P C1P
J J1X
S S5I
I I5A
totals codes satellites tracked never passes hours falls outages slips_together bursts half_runs missing_codes
END
# pins: title_in
same quality_of_mixed_in_json got want

# A file of other systems without a record, and one that `check` refuses.
sed 31q "$mixed" >heading
lines heading; expect quality_of_mixed_without_records 0 "$(printf '%s\n' 'marker BASE' 'records 0')" ''
sed '36s/25110278.381/       0.000/' mixed >bad
for words in '' --lines --json; do
    quality $words bad; expect "quality_of_a_bad_mixed_file$words" 3 '' 'line 36: C3 Value'
done

quality --json --json "$file"
expect quality_json_twice 2 '' "$(error "the argument '--json' cannot be used multiple times" 'quality [OPTIONS] <FILE>')"
quality --lines --json "$file"
expect quality_in_two_forms 2 '' "$(error "the argument '--lines' cannot be used with '--json'" 'quality --lines <FILE>')"
quality --json=yes "$file"; head -n 1 err >line
echo "error: unexpected value 'yes' for '--json' found; no more were expected" >want
same quality_json_with_a_value line want
quality --text "$file"; head -n 1 err >line
echo "error: unexpected argument '--text' found" >want
same quality_in_no_such_form line want

ends
