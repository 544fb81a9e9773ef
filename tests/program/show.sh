#!/bin/sh
# Runs `show`, and the program without a command, as a user does. The program is $1.
. "$(dirname "$(readlink -f "$0")")/common"
arp='1005 station 2003 x 1114104.5999 y -4850729.7108 z 3975521.4643'
hex='D3 00 13 3E D7 D3 02 02 98 0E DE EF 34 B4 BD 62 AC 09 41 98 6F 33 36 0B 98'

# bad_hex NAME TEXT: hex text, as printf writes it, that is refused
bad_hex() {
    printf "$2" | "$program" show --hex stdin >out 2>err; status=$?
    expect "$1" 1 '' 'rtcm2rinex: input is not hex'
}

# hex NAME LINE TEXT: hex text that is taken
hex() {
    printf "$3" | "$program" show --hex stdin >out 2>err; status=$?
    expect "$1" 0 "$2" ''
}

# bad_words NAME TOLD WORD..
bad_words() {
    name=$1 told=$2
    shift 2
    run "$@"
    expect "$name" 2 '' "$told"
}

msm='1074 station 2003 tow 475200000 satellites 1 signals 1 cells 1
1074 station 2003 tow 475201000 satellites 1 signals 1 cells 1
1074 station 2003 tow 475202000 satellites 1 signals 1 cells 1
1074 station 2003 tow 475203000 satellites 1 signals 1 cells 1'

printf '%s\n' "$hex" >arp.hex
head -c 25 "$root/examples/base.rtcm" >arp.rtcm
: >empty
head -c 16777217 /dev/zero >long
head -c 16777216 /dev/zero >longest
# 65,536 frames, so more lines than a pipe holds
printf '\323\000\002\077\260\327\035\163' >frames
for _ in 1 2 3 4 5 6 7 8 9 10 11 12 13 14 15 16; do cat frames frames >twice; mv twice frames; done

run show --hex arp.hex; expect hex_from_file 0 "$arp" ''
run show arp.hex --hex; expect hex_after_the_file 0 "$arp" ''
run show arp.hex;       expect hex_text_as_bytes 0 '' ''
hex hex_from_stdin "$arp" "$hex"
hex hex_of_line_ends_of_cr_lf "$arp" "$hex\r\n"
hex tabs_line_ends_and_both_cases 'refused M1 -' 'd3\t00\r\n0047eA4b\r\n'
hex white_space_between_digits 'refused M1 -' ' \td\r\n3000047eA4 b\t'
# refuses: a byte order mark, a CR or a NUL that is left out on its way
bad_hex hex_after_a_byte_order_mark "\357\273\277$hex"
bad_hex hex_before_a_nul "$hex\0"
bad_hex bytes_as_hex '\323\0\0'
bad_hex odd_digits 'D3 0'
bad_hex form_feed_between_bytes 'd3\f000047eA4b'
bad_hex vertical_tab_between_digits 'd3000047eA4\vb'
run show empty; expect empty_input 0 '' ''

# Of all MSM those of one kind are shown, and 1074 alone if none is given. The frames were put together from the field tables of RTCM
# 10403.3: a 1074, a 1074 without its last byte, a 1075 whose cell mask has the rows 10, 11 and 01, a 1076 of two satellites and no
# signal, a 1077, a 1077 without its last byte, one past the week, one of 65 cells, a 1087, a 1004 and a 1005.
cat >kinds.hex <<'HEX'
D3001E4327D3714BE8000000040000000000000020000000400000000000000000048C30
D3001D4327D3714BE80000000400000000000000200000004000000000000000018AD7
D300434337D3714BF7A000000504000000000000202000005A0000000000000000000000000000000000000000000000000000000000000000000000
00000000000000000000C38246
D3001A434FFF90320FFC00004000000000000000800000000000000000E668F8
D300244357D3714BE80000000400000000000000200000004000000000000000000000000000007644E2
D300234357D3714BE80000000400000000000000200000004000000000000000000000000000731CBE
D300244357D39032100000000400000000000000200000004000000000000000000000000000007768CA
D300164357D3714BE80000007FFC0000000000003E0000000091491A
D3002443F7D3714BE8000000040000000000000020000000400000000000000000000000000000F1E7A6
D300183EC7D3714BE800101498968000000151AD30190000002C60D0FE53
D300133ED7D30202980EDEEF34B4BD62AC0941986F33360B98
HEX
python3 -c 'import sys; sys.stdout.buffer.write(bytes.fromhex(sys.stdin.read()))' <kinds.hex >kinds.rtcm
others="1004 station 2003 tow 475200000 satellites 1
$arp"
of_4="1074 station 2003 tow 475200000 satellites 1 signals 1 cells 1
refused M3 1074
1075 other
1076 other
1077 other
1077 other
1077 other
1077 other
1087 other
$others"
of_5="1074 other
1074 other
1075 station 2003 tow 475201000 satellites 3 signals 2 cells 4
1076 other
1077 other
1077 other
1077 other
1077 other
1087 other
$others"
of_6="1074 other
1074 other
1075 other
1076 station 4095 tow 604799999 satellites 2 signals 0 cells 0
1077 other
1077 other
1077 other
1077 other
1087 other
$others"
of_7="1074 other
1074 other
1075 other
1076 other
1077 station 2003 tow 475200000 satellites 1 signals 1 cells 1
refused M3 1077
refused M4 1077
refused M5 1077
1087 station 2003 clock 475200000 satellites 1 signals 1 cells 1
$others"
run show kinds.rtcm;             expect no_msm 0 "$of_4" ''
# pins: msm_text
run show --msm 4 kinds.rtcm;     expect msm_4 0 "$of_4" ''
# pins: text_msm, any_line_of
run show --msm 5 kinds.rtcm;     expect msm_5 0 "$of_5" ''
run show kinds.rtcm --msm=6;     expect msm_6 0 "$of_6" ''
# pins: any_refusal_text, any_unread_text
run show --msm 7 kinds.rtcm;     expect msm_7 0 "$of_7" ''
run show --hex kinds.hex;        expect hex_and_no_msm 0 "$of_4" ''
run show --msm 5 --hex kinds.hex; expect hex_and_msm_5 0 "$of_5" ''
run show --hex --msm 007 stdin <kinds.hex; expect hex_and_msm_7 0 "$of_7" ''

# The MSM of all systems are shown, by kinds for each. The frames were put together in the same way: an MSM7 of each system, the
# last clock that GLONASS has, GLONASS on no day and past a day, BeiDou past the week, a 1087 without its last byte, a 1097 of 65
# cells, and an MSM4 of GLONASS, Galileo and BeiDou. GLONASS has 14:59:42 of day 5, BeiDou 14 s less than GPS.
cat >systems.hex <<'HEX'
D300244357D3714BE80000000400000000000000200000004000000000000000000000000000007644E2
D3002443F7D3ACDECCC000000020000000000000200000004000000000000000000000000000004AEEE8
D300334497D3714BE8000000001800000000000020000000600000000000000000000000000000000000000000000000000000000000433FC4
D300244537D3714BE80000000800000000000000200000004000000000000000000000000000008A6A71
D3003D45D7D3714BE8000000500000000000000020010000580000000000000000000000000000000000000000000000000000000000000000000000
00000000190F0A
D3002E4677D3714B0D40000002000000000000002002000060000000000000000000000000000000000000000000000000EE38C4
D300244717D3714BE80000002000000000000000000002004000000000000000000000000000001F03DE
D3001A43FFFFD4997F9C00000000008000000000000000000000000000BFD5E0
D3002443F7D3E00000000000002000000000000020000000400000000000000000000000000000FDCFF2
D3002443F7D314997FA000000020000000000000200000004000000000000000000000000000007BD38F
D300244677D3903210000000020000000000000020000000400000000000000000000000000000E8B3C4
D3002343F7D3ACDECCC0000000200000000000002000000040000000000000000000000000003F0BD0
D300584497D3714BE80000007FFC0000000000003E000000000000000000000000000000000000000000000000000000000000000000000000000000
00000000000000000000000000000000000000000000000000000000000000B1D370
D3001E43C7D3ACDECCC0000000200000000000002000000040000000000000000051B863
D3001E4467D3714BE8000000001000000000000020000000400000000000000000954884
D3001E4647D3714B0D400000020000000000000020000000400000000000000000D4873F
HEX
all_of_7='1077 station 2003 tow 475200000 satellites 1 signals 1 cells 1
1087 station 2003 clock 725070640 satellites 1 signals 1 cells 1
1097 station 2003 tow 475200000 satellites 2 signals 1 cells 2
1107 station 2003 tow 475200000 satellites 1 signals 1 cells 1
1117 station 2003 tow 475200000 satellites 2 signals 2 cells 3
1127 station 2003 clock 475186000 satellites 1 signals 2 cells 2
1137 station 2003 tow 475200000 satellites 1 signals 1 cells 1
1087 station 4095 clock 891707367 satellites 1 signals 0 cells 0
refused M4 1087
refused M4 1087
refused M4 1127
refused M3 1087
refused M5 1097
1084 other
1094 other
1124 other'
all_of_4='1077 other
1087 other
1097 other
1107 other
1117 other
1127 other
1137 other
1087 other
1087 other
1087 other
1127 other
1087 other
1097 other
1084 station 2003 clock 725070640 satellites 1 signals 1 cells 1
1094 station 2003 tow 475200000 satellites 1 signals 1 cells 1
1124 station 2003 clock 475186000 satellites 1 signals 1 cells 1'
all_other=$(echo "$all_of_4" | sed 's/ .*/ other/')
# pins: clock_word, ShowWords.messages_of
run show --hex --msm 7 systems.hex; expect msm_7_of_all_systems 0 "$all_of_7" ''
run show --hex --msm 7,E4,C4 systems.hex; expect msm_7_with_exceptions 0 '1077 station 2003 tow 475200000 satellites 1 signals 1 cells 1
1087 station 2003 clock 725070640 satellites 1 signals 1 cells 1
1097 other
1107 station 2003 tow 475200000 satellites 1 signals 1 cells 1
1117 station 2003 tow 475200000 satellites 2 signals 2 cells 3
1127 other
1137 station 2003 tow 475200000 satellites 1 signals 1 cells 1
1087 station 4095 clock 891707367 satellites 1 signals 0 cells 0
refused M4 1087
refused M4 1087
1127 other
refused M3 1087
1097 other
1084 other
1094 station 2003 tow 475200000 satellites 1 signals 1 cells 1
1124 station 2003 clock 475186000 satellites 1 signals 1 cells 1' ''
run show --msm=7,G4,R4,E4,C4,J4,S4,I4 --hex systems.hex; expect all_systems_are_exceptions 0 "$all_of_4" ''
run show --hex --msm 4 systems.hex; expect msm_4_of_all_systems 0 "$all_of_4" ''
run show --hex systems.hex; expect no_msm_and_other_systems 0 "$all_other" ''
run show --hex --msm 5 systems.hex; expect another_msm_than_these 0 "$all_other" ''
# A file may have the name of a list.
cp systems.hex 7,E4
run show --hex 7,E4; expect a_list_as_the_name_of_a_file 0 "$all_other" ''
run show --hex --msm 7 7,E4; expect msm_7_and_a_list_as_the_name_of_a_file 0 "$all_of_7" ''
run show --hex --msm 8 7,E4; [ "$status" -eq 2 ] && right no_kind_and_such_a_name || wrong no_kind_and_such_a_name "status $status"
# pins: SHOW_LIMIT
run show longest; expect longest_input 0 '' ''
# pins: SHOW_LIMIT
run show long; expect input_too_long 1 '' 'rtcm2rinex: input too long'
# pins: SHOW_LIMIT
run show --hex long;         expect hex_too_long 1 '' 'rtcm2rinex: input too long'
run "$(printf '\377')" show; expect a_first_word_that_is_no_text 1 '' 'rtcm2rinex: read failed'
"$program" --help >/dev/full 2>err; status=$?; : >out
expect help_into_full_output 1 '' 'rtcm2rinex: write failed'
{ "$program" show frames 2>err; echo $? >answer; } | :; status=$(cat answer); : >out
expect pipe_closed_at_once 1 '' 'rtcm2rinex: write failed'
"$program" show nowhere >out 2>&-; status=$?; : >err
expect closed_standard_error 1 '' ''

# The longest inputs with frames to their ends, and one byte more; as hex text that byte is a line end.
for _ in 1 2 3 4 5; do cat frames frames >twice; mv twice frames; done
yes '1019 other' | head -n 2097152 >lines
run show frames; leaves longest_input_of_frames 0 lines /dev/null
printf '\0' >>frames
run show frames; expect frames_too_long 1 '' 'rtcm2rinex: input too long'
yes D300023FB0D71D73 | head -n 1048576 | tr -d '\n' >frames.hex
head -n 1048576 lines >hex_lines
# pins: SHOW_LIMIT
run show --hex frames.hex; leaves longest_hex_of_frames 0 hex_lines /dev/null
echo >>frames.hex
run show --hex frames.hex; expect hex_of_frames_too_long 1 '' 'rtcm2rinex: input too long'

# pins: IsWordsFault
# refuses: a `main` that does not answer the status of `run_program`
version=$(sed -n 's/.*VERSION: &str = "\(.*\)";.*/\1/p' "$root/crates/rtk_cli/src/command_line.rt")
run --version; expect version 0 "rtcm2rinex $version" ''
run -V;        expect version_in_short 0 "rtcm2rinex $version" ''
"$program" show empty >&- 2>err; status=$?; : >out
expect nothing_to_show_and_no_output 0 '' ''

# Words that clap refuses.
no_command=$("$program" --help)
bad_words no_command "$no_command"
"$program" >&- 2>err; status=$?; : >out
expect no_command_and_no_output 2 '' "$no_command"
for word in SHOW '' "$(printf '%0100000d' 0)"; do
    bad_words "no_such_command_of_${#word}_characters" "$(error "unrecognized subcommand '$word'" "<COMMAND>")" "$word" arp.rtcm
done
for word in shew sho; do
    bad_words "no_such_command_$word" \
        "$(error "unrecognized subcommand '$word'" "<COMMAND>" "a similar subcommand exists: 'show'")" $word a
done
bad_words unknown_option "$(error "unexpected argument '--frob' found" "<COMMAND>")" --frob
usage='show [OPTIONS] <FILE>'
bad_words two_empty_files "$(error "unexpected argument '' found" "$usage")" show '' ''
bad_words a_hundred_files "$(error "unexpected argument '2' found" "$usage")" show $(seq 100)
for value in 3 8; do
    bad_words "msm_of_$value" "$(error "invalid value '$value' for '--msm <N>': $value is not in 4..=7")" show --msm $value kinds.rtcm
done
for value in 7x 4,7 7,E4,E5 7,X4 E4,7; do
    bad_words "msm_of_$value" "$(error "invalid value '$value' for '--msm <N>': invalid digit found in string")" show --msm $value a
done
bad_words msm_twice "$(error "the argument '--msm <N>' cannot be used multiple times" "$usage")" show --msm 7 --msm 7 kinds.rtcm
bad_words msm_without_a_value "$(error "a value is required for '--msm <N>' but none was supplied")" show kinds.rtcm --msm
bad_words msm_before_another_option "$(error "a value is required for '--msm <N>' but none was supplied")" show --msm --hex kinds.rtcm
bad_words msm_and_no_file "$(error "the following required arguments were not provided:
  <FILE>" 'show --msm <N> <FILE>')" show --msm 7
bad_words hex_twice "$(error "the argument '--hex' cannot be used multiple times" "$usage")" show --hex --hex arp.hex
bad_words hyphen_and_a_letter "$(error "unexpected argument '-x' found" "$usage" "to pass '-x' as a value, use '-- -x'")" show -x
for word in --hax --he; do
    bad_words "like_hex_$word" \
        "$(error "unexpected argument '$word' found" 'show --hex <FILE>' "a similar argument exists: '--hex'")" show $word a
done

# The captures of examples/ by the command of the README, which passes words, streams and status on.
install
program=installed/bin/rtcm2rinex
run show "$root/examples/base.rtcm"; expect start_base 0 "$arp
1004 station 2003 tow 475200000 satellites 1" ''
run show stdin <"$root/examples/hidden.rtcm"; expect start_hidden 0 "$arp
$arp" ''
run show "$root/examples/msm.rtcm";          expect start_msm 0 "$msm" ''
run show --hex "$root/examples/arp1005.hex"; expect start_hex 0 "$arp" ''
run show nowhere;                            expect start_failed 1 '' 'rtcm2rinex: cannot open nowhere'
bad_words start_refused "$no_command"
# Under a limit on the size of files, 512 bytes, it ends as on a full disk.
head -c 8192 frames >some; head -c 512 lines >part; echo 'rtcm2rinex: write failed' >part_err
limited 512 "$program" show some >out 2>err; status=$?
leaves start_show_with_a_limit_of_size 1 part part_err

ends
