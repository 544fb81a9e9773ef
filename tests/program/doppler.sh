#!/bin/sh
# Runs the commands on files with Doppler as a user does. The program is $1. The payloads and their values were worked out by hand
# from the tables of RTCM 10403.3: each rate is -299.99 m/s, but for those that are named otherwise.
. "$(dirname "$(readlink -f "$0")")/converting"

# ---- files

# The payloads, each of one cell at noon.
G05_5X=435001714BE8000000040000000000000000000080518200FB53FB500023285E05920190
R10_2P=43F001ACDECCC00000002000000000000000400000508BE9FB538ACFCB71B01FF4B00190
E36_7Q=446001714BE80000000000000008000000000100005580015B40D579E310
E11_8X=449001714BE800000000100000000000000000080054C309FB502BF27F1AEE52C5A40190
C41_1P=467001714B0D400000000000000040000000000001534122FB5060734F4240E8057A0190
J01_1X=45D001714BE8000000400000000000000000000000DE8243FB5077C581CD5528A5DA0190
S58_5I=453001714BE80000000000000001000000000002006083FFFB5200006000006C00020190
I14_5A=471001714BE800000000020000000000000000020052C12CFB5000FA0001F40145000190
# The 1087 with -299.9899 m/s, whose Doppler is the same to 0.001 Hz; with -299.989 m/s; and a 1004 of GPS.
R10_NEXT_RATE=43F001ACDECCC00000002000000000000000400000508BE9FB538ACFCB71B01FF4B00194
R10_OTHER_RATE=43F001ACDECCC00000002000000000000000400000508BE9FB538ACFCB71B01FF4B001B8
G05_1004=3EC001714BE800101401F17DFFCFA79F2C00000000000000
seven_codes=5X,R2P,E8X,C1P,J1X,S5I,I5A

{
    lines <<LINES
     3.05           OBSERVATION DATA    M|RINEX VERSION / TYPE
rtcm2rinex                              20240517 130000 UTC|PGM / RUN BY / DATE
BASE|MARKER NAME
GEODETIC|MARKER TYPE
|OBSERVER / AGENCY
|REC # / TYPE / VERS
|ANT # / TYPE
        0.0000        0.0000        0.0000|APPROX POSITION XYZ
        0.0000        0.0000        0.0000|ANTENNA: DELTA H/E/N
G    4 C5X L5X D5X S5X|SYS / # / OBS TYPES
R    4 C2P L2P D2P S2P|SYS / # / OBS TYPES
E    4 C8X L8X D8X S8X|SYS / # / OBS TYPES
C    4 C1P L1P D1P S1P|SYS / # / OBS TYPES
J    4 C1X L1X D1X S1X|SYS / # / OBS TYPES
S    4 C5I L5I D5I S5I|SYS / # / OBS TYPES
I    4 C5A L5A D5A S5A|SYS / # / OBS TYPES
DBHZ|SIGNAL STRENGTH UNIT
  2024     5    17    12     0    0.0000000     GPS|TIME OF FIRST OBS
G|SYS / PHASE SHIFT
R|SYS / PHASE SHIFT
E|SYS / PHASE SHIFT
C|SYS / PHASE SHIFT
J|SYS / PHASE SHIFT
S|SYS / PHASE SHIFT
I|SYS / PHASE SHIFT
  1 R10 -5|GLONASS SLOT / FRQ #
|GLONASS COD/PHS/BIS
    18|LEAP SECONDS
|END OF HEADER
LINES
    cat <<RECORD
> 2024 05 17 12 00  0.0000000  0  7
G05  21135365.609 7  82939744.722 7      1177.225          44.500
R10  20079294.057 6  83309237.891 6      1244.632          37.500
E11  25110278.381 7  99823175.832 7      1192.580          45.250
C41  23168976.578 7 121756438.318 7      1576.458          43.750
J01  36744259.918 7 193092375.800 7      1576.458          46.750
S58  39272226.466 1 154109205.616 1      1177.225           0.250
I14  22572264.730 6  88578414.182 6      1177.225          40.000
RECORD
} >seven.rnx
python3 "$here/framed.py" $G05_5X $R10_2P $E11_8X $C41_1P $J01_1X $S58_5I $I14_5A >seven.rtcm
{ printf 'other-channel -\nno-channel -\n'; report 7 0 0 0 7 0 0 0 1; } >seven.report
# pins: header_of, head_at, cells_by, observations_with_doppler
convert $seven_codes --msm 7 --channels 10:-5 --doppler seven.rtcm
leaves seven_systems 0 seven.rnx seven.report
# Without the option nothing of it is there.
convert $seven_codes --msm 7 --channels 10:-5 seven.rtcm; cp out plain.rnx
if [ "$status" -eq 0 ] && grep -q ' C5X ' plain.rnx && ! grep -q ' D[0-9][A-Z] ' plain.rnx; then
    right no_shifts_without_the_option
else
    wrong no_shifts_without_the_option "$(head -c 1000 plain.rnx)"
fi
# GPS alone, in the form of several systems; a 1004 has no Doppler.
python3 "$here/framed.py" $G05_1004 $G05_5X >gps.rtcm
convert 1C,5X --msm 7 --doppler gps.rtcm; cp out gps.rnx
sed -n '1p; 10p; $p' gps.rnx >told
cat >want <<LINES
     3.05           OBSERVATION DATA    G                   RINEX VERSION / TYPE
G    8 C1C L1C D1C S1C C5X L5X D5X S5X                      SYS / # / OBS TYPES 
G05  37175538.352 7 195358771.586 7                        44.000    21135365.609 7  82939744.722 7      1177.225          44.500
LINES
same gps_alone told want
# Copies whose rates differ conflict, if the rates are asked for and their values of Doppler differ.
python3 "$here/framed.py" $R10_2P $R10_OTHER_RATE >rates.rtcm
convert R2P --msm 7 --channels 10:-5 rates.rtcm; grep -e repeat -e conflict err >told
printf 'repeat 1\nconflict 0\n' >want; same rates_without_the_option told want
convert R2P --msm 7 --channels 10:-5 --doppler rates.rtcm; grep -e repeat -e conflict err >told
printf 'link 1 conflict 1087 2024-05-17 12:00:00.000 R10 2P\nrepeat 0\nconflict 1\n' >want; same rates_that_differ told want
python3 "$here/framed.py" $R10_2P $R10_NEXT_RATE >rates.rtcm
convert R2P --msm 7 --channels 10:-5 --doppler rates.rtcm; grep -e repeat -e conflict err >told
printf 'repeat 1\nconflict 0\n' >want; same rates_of_the_same_shift told want

# ---- systems without range rates

# refused NAME LETTER WORD..
refused() {
    name=$1 letter=$2
    shift 2
    convert "$@" --doppler nowhere
    # pins: rates_line, first_without_rates
    expect "without_rates_$name" 2 '' "rtcm2rinex: --doppler needs MSM5 or MSM7 of $letter"
}
refused of_one_system G 1C
refused of_one_kind G 1C,E1X --msm 6
refused of_an_exception E 5X,E7Q,S5I --msm 7,E4
refused of_the_second_system R 1C,R1C,E1X --msm 5,R4,E6 --channels none
refused of_the_last_system I 5X,I5A --msm 7,I6
for kinds in 5 7 4,G5 6,G7 7,E4; do
    convert 1C --msm $kinds --doppler nowhere
    expect "with_rates_$kinds" 1 '' 'rtcm2rinex: cannot open nowhere'
done
# pins: IsFirstCause, IsShiftsCause
run convert --station 1 --near 1980-01-06T00:00:00 --made $made --marker X --codes 1C --with-1012 --doppler stdin stdin
expect needs_of_1012_before_rates 2 '' 'rtcm2rinex: --with-1012 needs R codes'
run convert --station 1 --near 1980-01-06T00:00:00 --made $made --marker X --codes 1C --doppler stdin stdin
expect rates_before_links 2 '' 'rtcm2rinex: --doppler needs MSM5 or MSM7 of G'

# ---- auto

python3 "$here/framed.py" $(more $G05_5X $R10_2P $E11_8X $C41_1P $J01_1X $S58_5I) $I14_5A >chained.rtcm
run auto --near $near --made $made --marker BASE --doppler chained.rtcm
cat >want_err <<LINES
 the same by hand:
rtcm2rinex convert --station 1 --near $near --made $made --marker BASE --codes $seven_codes --msm 7 --window 4096 --channels 10:-5 --doppler chained.rtcm
$(report 7 0 0 0 7 0 0 0 1)
 from $near until $near by --near
 no-position: the header has zeros, as no 1005 or 1006 came in time, or the first one has zeros
LINES
# pins: doppler_lines_unless
leaves auto_of_seven_systems 0 seven.rnx want_err
python3 "$here/framed.py" $(more $G05_5X) $E36_7Q >two_kinds.rtcm
run auto --near $near --made $made --marker BASE --doppler two_kinds.rtcm
expect auto_of_an_msm4 3 '' 'rtcm2rinex: --doppler needs MSM5 or MSM7 of E'
run auto --near $near --made $made --marker BASE --doppler --systems G two_kinds.rtcm
[ "$status" -eq 0 ] && grep -q ' D5X ' out && ! grep -q Doppler err && right auto_of_one_system || wrong auto_of_one_system "status $status, $(cat err)"
run auto --near $near --made $made --marker BASE --systems G two_kinds.rtcm; grep Doppler err >told
echo ' not in the file: Doppler of 1077, 1 messages' >want; same auto_without_the_option told want

# ---- files with shifts, and the other commands

run check seven.rnx
# pins: IsObservedWithDoppler
expect check 0 'valid: 1 epochs, 7 satellite lines' ''
run check gps.rnx
# pins: has_shift_type, is_gps_text
expect check_of_gps 0 'valid: 1 epochs, 1 satellite lines' ''
sed 's/      1244.632  /      1244.632 7/' seven.rnx >bad.rnx
run check bad.rnx
expect no_digits 3 'line 32: C3 Value' ''
sed 's/^E    4 C8X L8X D8X S8X    /E    3 C8X L8X S8X        /' seven.rnx >bad.rnx
run check bad.rnx
expect all_systems_or_none 3 'line 12: C1 HeaderLine' ''
# cut gives the file of a conversion of the same records and codes, and label leaves the records.
run cut --systems R seven.rnx; cp out cut.rnx
convert R2P --msm 7 --channels 10:-5 --doppler seven.rtcm; same cut cut.rnx out
run label --agency Survey seven.rnx; sed '1,/END OF HEADER/d' out >told; sed '1,/END OF HEADER/d' seven.rnx >want
same label told want
run quality --lines seven.rnx; grep '^doppler' out >told
for code in 5X R2P E8X C1P J1X S5I I5A; do echo "doppler $code values 1"; done >want
# pins: shift_line
same quality told want
run quality --lines gps.rnx; grep '^doppler' out >told
printf 'doppler 1C values 0\ndoppler 5X values 1\n' >want; same quality_of_gps told want
run quality --lines plain.rnx; grep -E '^(records|doppler)' out | cut -d ' ' -f 1 >told; echo records >want; same quality_without_shifts told want
# The picture of several systems is that of the file without Doppler.
for form in '' --text; do
    run chart $form plain.rnx; cp out want; run chart $form seven.rnx; leaves "picture$form" 0 want /dev/null
done
run chart gps.rnx; sed -n "s/.*class='system'.*>\(.*\)<.*/\1/p" out >told; echo GPS >want; same picture_of_gps told want

# compare: what is lost, changed, and explained.
run compare seven.rnx seven.rnx
expect same 0 'lost 0 changed 0 explained 0' ''
run compare seven.rnx plain.rnx
expect all_shifts_lost 3 'lost 1 changed 0 explained 0
lost doppler' ''
run compare plain.rnx seven.rnx
expect shifts_that_come 0 'lost 0 changed 0 explained 0' ''
sed 's/1244.632/        /' seven.rnx >without.rnx
run compare seven.rnx without.rnx
expect a_shift_lost 3 'lost 1 changed 0 explained 0
lost doppler 2024-05-17 12:00:00.000 R10 2P' ''
run compare without.rnx seven.rnx
expect a_shift_that_comes 0 'lost 0 changed 0 explained 0' ''
sed 's/1244.632/1244.631/' seven.rnx >other.rnx
run compare seven.rnx other.rnx
expect a_shift_changed 3 'lost 0 changed 1 explained 0
changed doppler 2024-05-17 12:00:00.000 R10 2P' ''
run compare --json seven.rnx other.rnx
expect a_shift_changed_in_json 3 '{"lost":0,"changed":1,"explained":0,"differences":[
{"class":"changed","what":"doppler","time":"2024-05-17 12:00:00.000","satellite":"R10","code":"2P"}]}' ''

ends
