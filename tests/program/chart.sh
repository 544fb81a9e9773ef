#!/bin/sh
# Runs `chart` as a user does. The program is $1.
. "$(dirname "$(readlink -f "$0")")/common"
marks=$root/examples/marks.rnx

chart() { run chart "$@"; }

picture=$(cat "$root/examples/marks.txt")
svg=$(cat "$root/examples/marks.svg")

# pins: text_heading, satellite_rows, gps_names, axis_row, label_row
chart --text "$marks";              expect chart_of_a_file 0 "$picture" ''
chart --text --columns 80 "$marks"; expect chart_80_wide 0 "$picture" ''
# pins: STYLE, LEGEND, svg_picture, svg_start, svg_legend, svg_body, svg_of_epochs, bands_text, ticks_text, satellite_label
chart "$marks"; expect chart_in_svg 0 "$svg" ''
# What the legend says of each class of marks. A strength digit n begins at 6 n dB-Hz (RINEX 3.05, table A3).
python3 - out <<'END' >got
import re, sys
for forms, words in re.findall(r"((?:<path class='\w+' d='[^']+'/>)+)<text x='\d+' y='\d+'>([^<]+)", open(sys.argv[1]).read()):
    print(*re.findall(r"class='(\w+)'", forms), words)
END
printf '%s\n' 's slip' 'a return' 'r rise' 'h half cycle' 'o outage' 'g epochs missing' 'l8 phase' 'l8 p code missing in some epochs' 'm in all' 'l0 none' 'l1 &lt;12' >want
for digit in 2 3 4 5 6 7 8 9; do echo "l$digit $((6 * digit))"; done >>want
same legend_of_each_class got want
# Whether strengths can be told in both styles, by the contrast of WCAG 2.1, which is the same in grey: a stronger one differs more
# from the page, and a slip most of all; a phase without a strength differs from the weakest one, and from the page.
python3 - "$root/examples/marks.svg" <<'END' >got
import re, sys
style = re.search("<style>.*", open(sys.argv[1]).read())[0]
dark, light = re.search(r"dark\)\{(.*?)\}@media", style)[1].replace("!important", ""), style[style.index(".page{fill:#fff}"):]
def colour(rules, name, what):
    bodies = [body for names, body in re.findall(r"([^{}]+)\{([^{}]+)\}", rules + "}") if name in names.split(",")]
    return [it for body in bodies for it in re.findall(rf"\b{what}:#(\w+)", body)][0]
def luminance(digits):
    shares = [int(digits[at] * 2, 16) / 255 for at in range(3)] if len(digits) == 3 else [it / 255 for it in bytes.fromhex(digits)]
    shares = [it / 12.92 if it <= 0.04045 else ((it + 0.055) / 1.055) ** 2.4 for it in shares]
    return sum(weight * it for weight, it in zip((0.2126, 0.7152, 0.0722), shares))
def contrast(one, other):
    low, high = sorted((luminance(one), luminance(other)))
    return (high + 0.05) / (low + 0.05)
for rules in light, dark:
    grounds = [colour(rules, ".page", "fill"), colour(rules, ".b1", "fill")]
    none, *levels = [colour(rules, f".l{level}", "stroke") for level in range(10)]
    for ground in grounds:
        steps = [contrast(it, ground) for it in (*levels, colour(rules, ".s", "fill"))]
        print("stronger ones differ more" if 1.25 < steps[0] and steps == sorted(set(steps)) else steps)
    print("none differs" if min(contrast(none, it) for it in (*grounds, levels[0])) > 2 else none)
print(*re.findall(r"\.l0\{[^}]*(stroke-width:\d+)", style))
END
for style in light dark; do printf '%s\n' 'stronger ones differ more' 'stronger ones differ more' 'none differs'; done >want
echo stroke-width:5 >>want # a thin line: other strengths have 14
same strengths_can_be_told got want
COLUMNS=120 "$program" chart --text "$marks" >out 2>err; status=$?
expect columns_of_the_environment_are_none 0 "$picture" ''
sed '16s/45.000/45.100/' "$marks" >bad
chart --text bad; expect chart_of_a_bad_file_in_characters 3 '' 'line 16: C3 Value'
sed '/END OF HEADER/q' "$marks" >empty
chart --text empty
expect chart_without_records 0 "$(printf 'marker BASE\nno records')" ''
# In SVG it is 110 units high, with the style of every picture.
chart empty
# pins: svg_of_none
expect chart_without_records_in_svg 0 "<svg xmlns='http://www.w3.org/2000/svg' viewBox='0 0 1620 110'>
<title>BASE</title>
$(grep '^<style>' "$root/examples/marks.svg")
<rect class='page' width='1620' height='110'/>
<text class='marker' x='110' y='42'>BASE</text>
<text x='110' y='72'>no records</text>
</svg>" ''

for width in 40 400; do
    chart --text --columns $width "$marks"
    { echo 'marker BASE'; sed 1d out | cut -c 1-$width; } >want # no line is longer
    leaves chart_${width}_wide 0 want /dev/null
done
# pins: IsWidth
for width in 39 401; do
    chart --text --columns $width "$marks"
    expect chart_${width}_wide 2 '' "$(error "invalid value '$width' for '--columns <N>': $width is not in 40..=400")"
done
chart --text --columns 80x "$marks"
# refuses: a first part of a number that is taken for all of it
expect columns_with_a_tail 2 '' "$(error "invalid value '80x' for '--columns <N>': invalid digit found in string")"
chart --columns 80 "$marks"
expect columns_without_text 2 '' "$(error "the following required arguments were not provided:
  --text" "chart --text --columns <N> <FILE>")"
chart --text --columns --text "$marks"
expect columns_before_another_option 2 '' "$(error "a value is required for '--columns <N>' but none was supplied")"

# The picture of chosen satellites is that of the file without the rows of the others.
for form in '' --text; do
    chart $form "$marks" --satellites G05,G12,G21
    cp out want
    chart $form --systems G "$marks"; leaves "chart_of_gps$form" 0 want /dev/null
    chart $form --systems EG --satellites R09 "$marks"; leaves "chart_of_either$form" 0 want /dev/null
done
# pins: narrowed, is_there, is_named
sed '/^G12/d;/^G21/d;s/^satellites 3/satellites 1/;s/^slips 2/slips 1/' "$root/examples/marks.txt" >want # G12 has the other slip
chart --text --satellites G05,R09 "$marks"; leaves chart_of_one_satellite 0 want /dev/null
for choice in '--systems R' '--satellites G06,E05' '--systems CJSI --satellites R09'; do
    chart $choice "$marks"
    expect "none_of_$(echo $choice | tr -d ' -')" 3 '' 'rtcm2rinex: none of the chosen satellites is in the file'
done
chart --satellites G05 empty
expect none_without_records 3 '' 'rtcm2rinex: none of the chosen satellites is in the file'
# pins: is_system, are_systems, ListsSatellites, IsChoiceOf
for letters in g X GX 'G E' G,E ''; do
    chart --systems "$letters" "$marks"; expect "systems_$letters" 2 '' 'rtcm2rinex: bad --systems'
done
for list in G G5 G005 G33 G00 g05 G05, ,G05 'G05 G12' G05,,G12 S19 R28 ''; do
    chart --satellites "$list" "$marks"; expect "satellites_$list" 2 '' 'rtcm2rinex: bad --satellites'
done
chart --systems X --satellites X "$marks"; expect the_systems_first 2 '' 'rtcm2rinex: bad --systems'

# A file of any systems in characters: each system stands below its name. The picture was worked out by hand from the digits of
# the file. E11, C41 and J01 slip in the second record, C41 with a half cycle. No record has a phase of R26, nor 6I, 7I and 5P of C41.
cp "$mixed" mixed
cat >want <<'END'
marker BASE
from 2024-05-17 12:00:00.000 GPS time
until 2024-05-17 12:00:04.000 GPS time
interval 1.000
column 1.000
records 4
satellites 8
slips 3
returns 0
rises 0
missing 1
GPS
G11|777 7|
GLONASS
R10|666  |
R26|5    |
Galileo
E11|7SH 7|
BeiDou
C41|7B7  |
QZSS
J01|7S  7|
SBAS
S58|1    |
NavIC
I14|6   6|
gap|   x |
    +----
    12:00:00
never R2P: R26
never C6I: C41
never C7I: C41
never C5P: C41
END
sed -n '/^S slip/,$p' "$root/examples/marks.txt" >signs
cat signs >>want
# pins: titled_rows, system_title, title_of, systems_picture, ShowsSystems
chart --text mixed;        leaves chart_of_mixed 0 want /dev/null
chart --text stdin <mixed; leaves chart_of_mixed_of_standard_input 0 want /dev/null
# Of chosen satellites: those of C and S are the second 32 of their systems.
sed '/^[GREJI]..|/d;/^G[PL]/d;/^Galileo/d;/^QZSS/d;/^NavIC/d;/^never R/d;s/^satellites 8/satellites 2/;s/^slips 3/slips 1/' want >chosen
# pins: group_place, second_group
for choice in '--systems SC' '--satellites C41,S58,G01' '--systems S --satellites C41'; do
    chart --text $choice mixed; leaves "chart_of_mixed_$(echo "$choice" | tr -cs A-Za-z0-9 _)" 0 chosen /dev/null
done
chart --text --satellites C09,S26 mixed
expect none_of_mixed 3 '' 'rtcm2rinex: none of the chosen satellites is in the file'
of_galileo >galileo
chart --text --systems GRCJSI galileo
expect none_of_galileo 3 '' 'rtcm2rinex: none of the chosen satellites is in the file'
sed 31q "$mixed" >heading
chart --text heading
expect chart_of_mixed_without_records 0 "$(printf 'marker BASE\nno records')" ''
chart --text --systems G heading
expect none_of_mixed_without_records 3 '' 'rtcm2rinex: none of the chosen satellites is in the file'

# In SVG the names of the systems stand above their bands, and below these the lines of the codes that satellites have nowhere.
chart mixed
# pins: drawn_in_order, svg_title, svg_heading, with_some_bins, systems_svg, ShowsSystemsInSvg
sed -n "s/.*class='system' x='110' y='\([0-9]*\)'>\(.*\)<.*/\1 \2/p" out >got
printf '%s\n' '134 GPS' '192 GLONASS' '274 Galileo' '332 BeiDou' '390 QZSS' '448 SBAS' '506 NavIC' >want
same systems_of_mixed_in_svg got want
# A name is 34 units high, and the band of a satellite of one or two codes 24. GLONASS has two satellites, other systems have one.
# pins: heading_height
sed -n "s/^<g transform='translate(0 \([0-9]*\))'>$/\1/p" out >got
printf '%s\n' 0 58 140 198 256 314 372 536 >want # behind the bands come the lines of the codes that satellites have nowhere
same bands_of_mixed_in_svg got want
# pins: never_group
sed -n "s/.*class='never' x='110' y='\([0-9]*\)'>\(.*\)<.*/\1 \2/p" out >got
printf '%s\n' '18 never R2P: R26' '42 never C6I: C41' '66 never C7I: C41' '90 never C5P: C41' >want
same never_of_mixed_in_svg got want
# pins: lower_band, upper_band, upper_number
sed -n "s/.*'>of band \([0-9]\)<.*/\1/p" out >got
printf '%s\n' 1 2 5 8 >want # no code of the bands 6 and 7 has a strength
same strips_of_mixed_in_svg got want
chart --systems R galileo
expect none_of_galileo_in_svg 3 '' 'rtcm2rinex: none of the chosen satellites is in the file'
sed '36s/25110278.381/       0.000/' mixed >bad
for form in '' --text; do
    chart $form bad; expect "chart_of_a_bad_mixed_file$form" 3 '' 'line 36: C3 Value'
done
chart --systems X mixed; expect the_words_before_a_mixed_file 2 '' 'rtcm2rinex: bad --systems'

# twice OPTION WORD..: an option that stands twice is refused
twice() {
    option=$1
    shift
    chart "$@" "$@" "$marks"
    expect "chart_$1_twice" 2 '' "$(error "the argument '$option' cannot be used multiple times" "chart [OPTIONS] <FILE>")"
}
twice --text --text
twice '--columns <N>' --columns 80
twice '--systems <LETTERS>' --systems G
twice '--satellites <LIST>' --satellites G05

ends
