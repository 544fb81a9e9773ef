#!/bin/sh
# Runs all commands as a user does, each on one file of examples/: names of files, streams, words that clap refuses, help. The
# program is $1.
. "$(dirname "$(readlink -f "$0")")/common"
examples=$root/examples
base=$examples/base.rtcm
first=$examples/session_link1.rtcm
second=$examples/session_link2.rtcm

# fails NAME LINE: nothing is out, and standard error has this line
fails() { expect "$1" 1 '' "rtcm2rinex: $2"; }

# shown NAME: a name of a file, as a name of a test has it
shown() { printf '%.40s' "$1" | tr '\t\n\033' '???'; }

# brief FILE: the words of a help up to what stands behind its options; those of -h are the same
brief() {
    awk 'NR > 1 && /^[^ ]/ && !/^(Usage|Arguments|Options|Commands):/ { exit } { print }' "$1" |
        sed "s/see a summary with '-h'/see more with '--help'/" | tr -s '[:space:]' ' '
}

# helps NAME WORD..: of a command, or of none. What the options do, completions/ and docs/ hold; here the examples are run.
helps() {
    name=$1
    shift
    "$program" help "$@" >help
    # pins: IsWordsFault
    run "$@" --help; leaves "help_by_an_option_$name" 0 help /dev/null
    run help "$@";   leaves "help_by_its_name_$name" 0 help /dev/null
    run "$@" -h; brief out >short; brief help >want; mv short out
    leaves "short_help_$name" 0 want /dev/null
    mkdir bin named && ln -s "$program" bin/rtcm2rinex
    case $name in
    none | auto) cp "$examples/dated.rtcm" named/capture.rtcm && cp "$examples/dated.rtcm" named/hour1.rtcm ;;
    compare) cp "$examples/slip.rnx" named/old.rnx && cp "$examples/slip.rnx" named/new.rnx ;;
    cut) cp "$examples/base.rnx" named && cp "$mixed" named/day.rnx ;;
    *) cp "$base" named/capture.rtcm && cp "$examples/base.rnx" named && cp "$examples/slip.rnx" named/day.rnx &&
        cp "$first" named/link1.rtcm && cp "$second" named/link2.rtcm ;;
    esac
    sed -n '/^Example:$/,/^$/s/^  //p; /^Begin with:$/,/^$/s/^  //p' help >shown
    (cd named && PATH=$work/$name/bin:$PATH sh -eu ../shown) >out 2>err; status=$?
    grep -q '^rtcm2rinex ' shown || status=none
    case $name in
    none | auto) grep -q '^epochs 20$' err && : >err ;;
    cut) printf 'records %s written %s\n' 1 1 4 4 4 4 | cmp -s - err && : >err ;;
    esac
    tail -n 1 help >out
    expect "examples_and_end_of_the_help_$name" 0 'Manual: man rtcm2rinex, or docs/MANUAL.md' ''
}

# bound COMMAND..: as a user whom the permissions of files bind; root is none, so it runs the command as nobody. The folder
# and a copy of the program, ./program, are open to all.
bound() {
    cp "$program" program && chmod 755 program && chmod 711 . || exit 1
    if [ "$(id -u)" -eq 0 ]; then setpriv --reuid=65534 --regid=65534 --clear-groups "$@"; else "$@"; fi
}

# piped FILE COMMAND..: the command, while the pipe of the name `fifo` gives this file. It is let go if nobody opened it.
piped() {
    [ -p fifo ] || mkfifo fifo
    { cat "$1" >fifo; } >given 2>&1 &
    giving=$!
    shift
    "$@"
    : <>fifo
    wait $giving
}

# quoted NAME: as `summary` writes it for sh
quoted() {
    case $1 in -*) printf ./ ;; esac
    case $1 in
    *[!A-Za-z0-9@%+=:,./_-]*) printf "'%s'" "$(printf '%s' "$1" | sed "s/'/'\\\\''/g")" ;;
    *) printf '%s' "$1" ;;
    esac
}

# well TEST NAME: the last run left what is due of a file of this name, which is that of `base`
well() {
    [ "$command" != summary ] || sed 's/ BASE$//' "$root/tests/program/base.summary" | while IFS= read -r line; do
        case $line in
        ' auto '*) [ "$2" = stdin ] || printf '%s %s\n' "$line" "$(quoted "$2")" ;; # auto would read standard input twice
        ' next '*) printf '%s %s\n' "$line" "$(quoted "$2")" ;;
        *) printf '%s\n' "$line" ;;
        esac
    done >good_out
    leaves "$1" 0 good_out good_err
}

# example COMMAND: its words, the file that it reads, and what it writes
example() {
    words=$1 file=$examples/base.rnx
    : >good_err
    case $1 in
    show)
        file=$base
        printf '%s\n' '1005 station 2003 x 1114104.5999 y -4850729.7108 z 3975521.4643' \
            '1004 station 2003 tow 475200000 satellites 1' >good_out ;;
    summary) file=$base && sed "s#BASE\$#$base#" "$root/tests/program/base.summary" >good_out ;;
    check) echo 'valid: 1 epochs, 1 satellite lines' >good_out ;;
    chart) file=$examples/marks.rnx && cp "$examples/marks.svg" good_out ;;
    quality) file=$examples/slip.rnx && cp "$root/tests/program/slip.table" good_out ;;
    cut)
        words='cut --every 30' file=$examples/slip.rnx
        cp "$examples/slip_30s.rnx" good_out && echo 'records 61 written 3' >good_err ;;
    label) words='label --blank' file=$examples/slip.rnx && cp "$file" good_out ;;
    convert)
        words="convert --station 2003 --near 2024-05-17T12:00:00 --made 2024-05-17T13:00:00 --marker BASE --codes 1C,2W"
        file=$base && cp "$examples/base.rnx" good_out && report 2 0 0 0 2 0 0 0 1 >good_err ;;
    esac
}

# files_are_not_read: names that are not there, and what cannot be read. Standard input could be.
files_are_not_read() {
    mkdir folder
    ln -s nowhere dangling
    # The same letters as those of Zürich, with the dots as a character of their own, are another name.
    for name in nowhere 'no where' nowhere/base dangling '' - ./stdin STDIN 'stdin ' ' stdin' "$(printf 'Zu\314\210rich')" \
        "$(printf 'base\nb')" "$(printf 'base\tb\303\244')" "$(printf '%0100000d' 0)"; do
        # refuses: a name that is changed before it is opened, or taken for standard input
        # refuses: a file that is looked for in another folder
        run $words "$name" <base; fails "missing_${command}_$(shown "$name")" "cannot open $name"
    done
    cp base closed && chmod 000 closed
    bound ./program $words closed >out 2>err; status=$?
    fails "a_file_that_may_not_be_read_$command" 'cannot open closed'
    run $words folder;        fails "a_folder_$command" 'read failed'
    run $words stdin <folder; fails "a_folder_as_standard_input_$command" 'read failed'
    run $words stdin <&-;     fails "closed_standard_input_$command" 'read failed'
    latin=$(printf 'Z\374rich') # is no text, also if it is there
    cp base "$latin"
    run $words "$latin" <base;    fails "a_name_that_is_no_text_$command" 'read failed'
}

# files_are_read: by any name that is there, links, pipes, and standard input from where it stands
files_are_read() {
    ln -s base linked; ln -s linked linked_twice
    odd=' ~a,b=c%20 $HOME#*?[x]'"'\"\\ "
    tab=$(printf 'a\tb\342\202\254') feed=$(printf 'a\nb\033\360\237\233\260')
    for name in stdin STDIN stdin.rtcm Stdin "$odd" "$tab" "$feed" Zürich -5 --hex; do cp base "./$name"; done
    for name in ./stdin STDIN stdin.rtcm Stdin "$odd" "$tab" "$feed" Zürich folder/../base linked linked_twice \
        "$(printf './%.0s' $(seq 150))base"; do
        # refuses: a name that is changed before it is opened, or taken for standard input
        run $words "$name"; well "file_${command}_$(shown "$name")" "$name"
    done
    run $words -- -5;       well "file_of_the_name_of_a_number_$command" -5
    run $words -- --hex;    well "file_of_the_name_of_an_option_$command" --hex
    run $words stdin <base; well "standard_input_$command" stdin
    cat base | "$program" $words stdin >out 2>err; status=$?
    well "a_pipe_$command" stdin
    mkfifo fifo
    # refuses: a file that is not opened since it is a symbolic link or a pipe
    piped base run $words fifo; well "a_pipe_of_a_name_$command" fifo
    bash -c '"$0" "$@" <(cat base)' "$program" $words >out 2>err; status=$?
    # refuses: a file that is not opened since it is a symbolic link or a pipe
    well "a_pipe_of_the_shell_$command" /dev/fd/63
    { head -c 25 "$base"; cat base; } >behind # a frame before it
    { dd bs=25 count=1 of=given 2>told; run $words stdin; } <behind
    well "standard_input_after_its_first_bytes_$command" stdin
    # No command makes, renames or removes a file beside those that it reads.
    mkdir alone && cp base alone
    listed=$(ls -Al --full-time alone)
    (cd alone && "$program" $words base) >out 2>err; status=$?
    [ "$(ls -Al --full-time alone)" = "$listed" ] || echo 'another file' >>err
    well "no_other_file_$command" base
}

# outputs_fail: `cut` tells its counts only once the part is out
outputs_fail() {
    { [ "$command" = cut ] || cat good_err; echo 'rtcm2rinex: write failed'; } >told
    "$program" $words base >/dev/full 2>err; status=$?; : >out
    leaves "full_output_$command" 1 /dev/null told
    "$program" $words base >&- 2>err; status=$?; : >out
    leaves "closed_output_$command" 1 /dev/null told
}

words_are_refused() {
    usage=$(sed -n 's/^Usage: rtcm2rinex //p' help)
    without_options=$(echo "$usage" | sed 's/\[OPTIONS\] //')
    run $words; expect "no_file_$command" 2 '' "$(error "the following required arguments were not provided:
  ${usage##* }" "$without_options")"
    # refuses: a word that begins with a hyphen and is taken for a FILE
    run $words -5
    expect "a_number_$command" 2 '' "$(error "unexpected argument '-5' found" "$usage" "to pass '-5' as a value, use '-- -5'")"
    run $words --he base; head -n 1 err >line; mv line err
    expect "start_of_an_option_$command" 2 '' "error: unexpected argument '--he' found"
    [ "$command" != convert ] || return
    # refuses: a second FILE that is left out in silence
    run $words base b;  expect "two_files_$command" 2 '' "$(error "unexpected argument 'b' found" "$usage")"
}

# bad_file NAME LINE FILE: `check` says so on standard output, the others on standard error
bad_file() {
    run $words "$3" <"$3"
    case $command in check) expect "$1_$command" 3 "$2" '' ;; *) expect "$1_$command" 3 '' "$2" ;; esac
}

# files_are_judged: of a RINEX file each byte counts, also on standard input. The longest one has zeros, which take no room.
files_are_judged() {
    { printf '\357\273\277'; cat base; } >marked
    sed 's/$/\r/' base >crlf
    { cat base; head -c 512 /dev/zero; } >nuls
    sed '16s/45.000/45.100/' base >wrong
    behind="line $(($(wc -l <base) + 1))"
    # refuses: a byte order mark, a CR or a NUL that is left out on its way
    bad_file byte_order_mark 'line 1: C1 HeaderLine' marked
    cp marked stdin; bad_file byte_order_mark_on_standard_input 'line 1: C1 HeaderLine' stdin
    # refuses: a byte order mark, a CR or a NUL that is left out on its way
    bad_file line_ends_of_cr_lf 'line 1: C1 HeaderLine' crlf
    cp crlf stdin; bad_file line_ends_of_cr_lf_on_standard_input 'line 1: C1 HeaderLine' stdin
    # refuses: a byte order mark, a CR or a NUL that is left out on its way
    bad_file nuls_behind "$behind: C5 Truncated" nuls
    cp nuls stdin; bad_file nuls_behind_on_standard_input "$behind: C5 Truncated" stdin
    bad_file a_capture 'line 1: C5 Truncated' "$base"
    : >stdin; bad_file an_empty_file 'line 1: C5 Truncated' stdin
    bad_file a_wrong_value 'line 16: C3 Value' wrong
    "$program" $words wrong >&- 2>err; status=$?; : >out
    case $command in
    check) expect a_wrong_value_and_no_output_check 1 '' 'rtcm2rinex: write failed' ;;
    *) expect "a_wrong_value_and_no_output_$command" 3 '' 'line 16: C3 Value' ;;
    esac
    truncate -s 1073741824 zeros
    # pins: CHECK_LIMIT
    bad_file longest_file 'line 1: C5 Truncated' zeros
    truncate -s 1073741825 zeros
    # pins: CHECK_LIMIT
    run $words zeros; fails "file_too_long_$command" 'input too long'
    rm zeros
}

# bytes_beside_frames: of a capture they are passed over, also on standard input
bytes_beside_frames() {
    { printf '\357\273\277'; cat base; printf '\r\n'; head -c 507 /dev/zero; } >more
    run $words more
    sed -i 's/^bytes 567$/bytes 55/; s/^outside-frames 512$/outside-frames 0/' out
    well "bytes_beside_frames_$command" more
    run $words stdin <more
    sed -i 's/^bytes 567$/bytes 55/; s/^outside-frames 512$/outside-frames 0/' out
    well "bytes_beside_frames_on_standard_input_$command" stdin
}

for name in none auto compare; do mkdir "$work/$name" && cd "$work/$name" && helps $name ${name#none}; done
for command in show summary check chart quality cut label convert; do
    mkdir "$work/$command" && cd "$work/$command" || exit 1
    helps $command $command
    example $command
    cp "$file" base
    files_are_not_read
    files_are_read
    outputs_fail
    words_are_refused
    case $command in
    check | chart | quality | cut | label) files_are_judged ;;
    *) bytes_beside_frames ;;
    esac
done

ends
