#!/bin/sh
# Runs `convert`, `show`, `check`, `summary`, `cut`, `chart` and `quality` on captures and files that cases.py writes by the slow
# model beside it: it computes what is due from the formats, of all messages at once, and shares nothing with the program. The
# program is $1.
. "$(dirname "$(readlink -f "$0")")/../program/common"
options='--station 2003 --near 2024-05-17T12:00:00 --made 2024-05-17T13:00:00 --marker BASE'
python3 -B "$root/tests/model/cases.py" "$root/examples" || exit 1

# The captures, each with its file and its report.
while read -r name codes words <&3; do
    "$program" convert $options --codes "$codes" $words >out 2>err </dev/null
    status=$?
    leaves "$name" 0 "$name.rnx" "$name.report"
done 3<cases
for list in cases summaries; do [ -s $list ] || wrong "$list" 'there are none'; done

# The long capture through standard input, as a file and in pieces.
codes=$(sed -n 's/^long_capture \([^ ]*\) .*/\1/p' cases)
"$program" convert $options --codes "$codes" stdin <long_capture.1 >out 2>err; status=$?
leaves long_standard_input 0 long_capture.rnx long_capture.report
split -b 700 long_capture.1 piece.
for piece in piece.*; do cat "$piece"; done | "$program" convert $options --codes "$codes" stdin >out 2>err; status=$?
leaves long_pipe 0 long_capture.rnx long_capture.report

# Both streams in one place: up to 65,536 bytes of the report are gathered, so the file comes first; of a longer report the
# lines that fill the room come before it.
: >err
"$program" convert $options --codes 1C,2W --window 2 gathered_report.1 >out 2>&1 </dev/null; status=$?
cat gathered_report.rnx gathered_report.report >both
# pins: GATHERED
# refuses: a `sink` that gathers more or less
leaves a_report_that_is_gathered 0 both /dev/null
"$program" convert $options --codes 1C,2W --window 2 longer_report.1 >out 2>&1 </dev/null; status=$?
{ head -n 1598 longer_report.report; cat longer_report.rnx; tail -n +1599 longer_report.report; } >both
# pins: GATHERED
# refuses: a `sink` that gathers more or less
leaves a_report_beyond_what_is_gathered 0 both /dev/null

# The same refusals as lines of `show`.
for name in each_refusal not_refused; do
    "$program" show "$name.1" >out 2>err </dev/null; status=$?
    leaves "show_$name" 0 "$name.lines" /dev/null
done

# What captures hold.
for name in $(cat summaries); do
    "$program" summary "$name.rtcm" >out 2>err </dev/null; status=$?
    leaves "summary_$name" 0 "$name.summary" /dev/null
    cat out >>summaries_told
done
for name in each_refusal.1 long_capture.1 long_damaged_links.1 many_of_each greatest; do
    "$program" summary "$name" >out 2>err </dev/null; status=$?
    leaves "summary_of_$name" 0 "$name.summary" /dev/null
    cat out >>summaries_told
done
# Each frame is in one line: those of messages, `other` and `refused` add up to `frames`.
awk '/^bytes / { print sum - frames; sum = frames = 0 } /^frames / { frames = $2 } /^( message|other|refused) / { sum += $NF }
    END { print sum - frames }' summaries_told | sort | uniq -c | sed 's/^ *//' >sums
echo "$(($(grep -c '^bytes ' summaries_told) + 1)) 0" >want
# refuses: a summary whose lines do not add up to its frames
same summaries_add_up_to_their_frames sums want
for piece in piece.*; do cat "$piece"; done | "$program" summary stdin >out 2>err; status=$?
sed '/^ auto /d; s/ long_capture\.1$/ stdin/' long_capture.1.summary >want # auto would read it twice
leaves summary_of_a_long_pipe 0 want /dev/null

# A file of 10 MB, and the same with a zero in its last line.
"$program" check long.rnx >out 2>err </dev/null; status=$?
expect check_of_10_mb 0 'valid: 450 epochs, 14400 satellite lines' ''
"$program" check zero.rnx >out 2>err </dev/null; status=$?
leaves check_of_10_mb_with_a_zero 3 zero.line /dev/null
# `cut`, `chart` and `quality` read them to their ends too.
"$program" cut --every 1 long.rnx >out 2>err </dev/null; status=$?
echo 'records 450 written 450' >counts
leaves cut_of_10_mb 0 long.rnx counts
"$program" cut --every 2 long.rnx >out 2>err </dev/null; status=$?
# pins: has_slipped_since
echo 'records 450 written 225' >counts
leaves cut_of_10_mb_at_2_seconds 0 long_2s.rnx counts
"$program" quality long.rnx >out 2>err </dev/null; status=$?
leaves quality_of_10_mb 0 long.table /dev/null
"$program" quality --lines long.rnx >out 2>err </dev/null; status=$?
leaves quality_of_10_mb_in_lines 0 long.numbers /dev/null
"$program" quality --json long.rnx >out 2>err </dev/null; status=$?
leaves quality_of_10_mb_in_json 0 long.json /dev/null
for words in 'cut --every 1' chart 'chart --text' quality 'quality --lines' 'quality --json'; do
    "$program" $words zero.rnx >out 2>err </dev/null; status=$?
    leaves "$(echo "$words" | tr -cs a-z _)of_10_mb_with_a_zero" 3 /dev/null zero.line
done
# Pictures whose columns are 11 units wide, and 2.
for columns in 121 600; do
    "$program" chart columns_$columns.rnx >out 2>err </dev/null; status=$?
    leaves chart_of_${columns}_columns 0 columns_$columns.svg /dev/null
done
# pins: rows_for, height_for
"$program" chart day.rnx >out 2>err </dev/null; status=$?
leaves chart_of_a_day_of_all_satellites 0 day.svg /dev/null

ends
