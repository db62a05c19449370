#!/usr/bin/env bash
# What the program does with its streams and its status, tried on the built executable: what no stored run
# and no test over readers and writers can show.
#
# Use: checks/program.sh [PROGRAM]     (as after `rt run` or `rt ci` in crates/capt)
set -u
top=$(cd "$(dirname "$0")/.." && pwd)
program=$(realpath "${1:-$top/crates/capt/out/capt}")
work=$(mktemp -d)
trap 'rm -rf "$work"' EXIT
passed=0
failed=0
# `script -c` gives its line to $SHELL, and the lines below are quoted as Bash quotes them
export SHELL=$BASH

# check NAME STATUS WANTED-OUT WANTED-ERR, over the files out and err and $status of the last run; `*` is any text
check() {
    local name=$1 want=$2 out=$3 err=$4
    if [ "$status" = "$want" ] && { [ "$out" = '*' ] || [ "$(cat "$work/out")" = "$out" ]; } \
        && { [ "$err" = '*' ] || [ "$(cat "$work/err")" = "$err" ]; }; then
        passed=$((passed + 1))
    else
        failed=$((failed + 1))
        echo "$name: status $status"
        head -c 300 "$work/out" "$work/err"
    fi
}
run() {
    "$program" "$@" > "$work/out" 2> "$work/err" < "${input:-/dev/null}"
    status=$?
}

# one packet of 4 bytes, at 2.5 seconds
printf '\xd4\xc3\xb2\xa1\x02\0\x04\0\0\0\0\0\0\0\0\0\0\0\x04\0\x01\0\0\0' > "$work/one.pcap"
printf '\x01\0\0\0\x60\xe3\x16\0\x04\0\0\0\x04\0\0\0\x01\x02\x03\x04' >> "$work/one.pcap"
line='packet 1 offset 24 time 2+500000/1000000 captured 4 original 4 link 1 data 01020304'
head -c 43 "$work/one.pcap" > "$work/cut.pcap"
: > "$work/empty.pcap"
mkdir "$work/folder"

run list "$work/one.pcap"; check 'a file' 0 "$line" ''
input=$work/one.pcap; run list -; check 'standard input' 0 "$line" ''; input=
run list "$work/cut.pcap"; check 'a cut file' 1 '' 'refused: file 1 offset 24 rule 3 cut'
run list --allow-cut "$work/cut.pcap"; check 'a cut file, accepted' 0 '' ''
run list "$work/empty.pcap"; check 'an empty file' 1 '' 'refused: file 1 offset 0 rule 3 cut'
run list --allow-cut "$work/empty.pcap"; check 'an empty file, with the flag' 1 '' 'refused: file 1 offset 0 rule 3 cut'
run list "$work/missing"; check 'a missing file' 1 '' 'fault: open file 1'
run list "$work/folder"; check 'a folder' 1 '' 'fault: read file 1 offset 0'
run blocks "$work/one.pcap"; check 'blocks of a pcap file' 1 '' 'refused: file 1 offset 0 rule 1 magic'
printf '\x0a\x0d\x0d\x0a\x1c\0\0\0\x4d\x3c\x2b\x1a\x01\0\0\0\xff\xff\xff\xff\xff\xff\xff\xff\x1c\0\0\0' > "$work/one.pcapng"
run blocks "$work/one.pcapng"; check 'blocks' 0 'block 1 offset 0 order little kind 0a0d0d0a total 28' ''
# convert: the same packet in a section, and back; OUT may be a file, standard output, or refused
printf '\x0a\x0d\x0d\x0a\x1c\0\0\0\x4d\x3c\x2b\x1a\x01\0\0\0\xff\xff\xff\xff\xff\xff\xff\xff\x1c\0\0\0' > "$work/want.pcapng"
printf '\x01\0\0\0\x20\0\0\0\x01\0\0\0\0\0\x04\0\x09\0\x01\0\x06\0\0\0\0\0\0\0\x20\0\0\0' >> "$work/want.pcapng"
printf '\x06\0\0\0\x24\0\0\0\0\0\0\0\0\0\0\0\xa0\x25\x26\0\x04\0\0\0\x04\0\0\0\x01\x02\x03\x04\x24\0\0\0' >> "$work/want.pcapng"
printf '\xd4\xc3\xb2\xa1\x02\0\x04\0\0\0\0\0\0\0\0\0\0\0\x04\0\x01\0\0\0' > "$work/want.pcap"
printf '\x02\0\0\0\x20\xa1\x07\0\x04\0\0\0\x04\0\0\0\x01\x02\x03\x04' >> "$work/want.pcap"
printf '\xa1\xb2\xc3\xd4\0\x02\0\x04\0\0\0\0\0\0\0\0\0\x04\0\0\0\0\0\x01' > "$work/big.pcap"
printf '\0\0\0\x02\0\x07\xa1\x20\0\0\0\x04\0\0\0\x04\x01\x02\x03\x04' >> "$work/big.pcap"
# same NAME FILE FILE: the files have the same bytes
same() { if cmp -s "$2" "$3"; then passed=$((passed + 1)); else failed=$((failed + 1)); echo "$1: $2 differs"; fi; }
# absent NAME FILE: there is no such file
absent() { if [ -e "$2" ]; then failed=$((failed + 1)); echo "$1: $2 is there"; else passed=$((passed + 1)); fi; }
one=$work/one.pcap
run convert --to pcapng -o "$work/new" "$one"; check 'to pcapng' 0 '' ''; same 'to pcapng' "$work/new" "$work/want.pcapng"
run convert --to pcap -o "$work/new" "$work/want.pcapng"; check 'to pcap, over a longer file' 0 '' ''; same 'to pcap' "$work/new" "$work/want.pcap"
run convert --order big --to pcap -o "$work/new" "$work/want.pcapng"; check 'to pcap, big' 0 '' ''; same 'to pcap, big' "$work/new" "$work/big.pcap"
input=$one; run convert --to pcap -o - -; check 'standard input to standard output' 0 '*' ''; input=; same 'standard output' "$work/out" "$work/want.pcap"
run convert --to pcap -o "$work/none" "$work/missing"; check 'a missing file to convert' 1 '' 'fault: open file 1'; absent 'a missing file to convert' "$work/none"
run convert --to pcap -o "$work/nowhere/new" "$one"; check 'an output that cannot be created' 1 '' 'fault: create output'
run convert --to pcap -o "$work/folder" "$one"; check 'a folder as output' 1 '' 'fault: create output'
cp "$one" "$work/kept"; run convert --to pcap -o "$one" "$one"; check 'an output that is the file' 2 '' 'fault: output'; same 'the file' "$one" "$work/kept"
run convert --to pcapng -o "$work/new" "$work/empty.pcap"; check 'an empty file to convert' 1 '' 'refused: file 1 offset 0 rule 3 cut'
head -c 28 "$work/want.pcapng" > "$work/section"; same 'an empty file to convert' "$work/new" "$work/section"
run convert --to pcap -o /dev/full "$work/cut.pcap"; check 'a refusal on a full disk' 1 '' 'fault: write'
run convert --to pcap -o /dev/full "$work/section"; check 'a refusal with nothing to write, on a full disk' 1 '' 'refused: file 1 offset 0 rule 21 no-interface'
run convert --to pcap "$one"; check 'no output' 2 '' '*'
run convert -o "$work/none" "$one"; check 'no format' 2 '' '*'; absent 'no format' "$work/none"
# diff: the status is 3 if two captures differ, and 1 if that can't be written
difference="differ packet 1 end
- $line
+ end"
run diff "$one" "$work/want.pcapng"; check 'diff' 0 'same packets 1' ''
input=$one; run diff - "$work/want.pcap"; check 'diff of standard input' 0 'same packets 1' ''; input=
run diff "$one" "$work/section"; check 'diff of captures that differ' 3 "$difference" ''
run diff --explain "$one" "$work/section"; check 'diff, explained' 3 "$difference" ''
run diff "$one" "$work/cut.pcap"; check 'diff of a cut file' 1 '' 'refused: file 2 offset 24 rule 3 cut'
run diff "$one" "$work/missing"; check 'diff of a missing file' 1 '' 'fault: open file 2'
run diff "$work/folder" "$one"; check 'diff of a folder' 1 '' 'fault: read file 1 offset 0'
run diff - -; check 'diff of standard input twice' 2 '' 'fault: input'
"$program" diff "$one" "$work/section" > /dev/full 2> "$work/err"; status=$?; : > "$work/out"; check 'a difference on a full disk' 1 '' 'fault: write'
# report: a frame of 4 bytes, short for Ethernet; nothing is written where a file is refused, or a read fails
report='files 1
file 1 pcap packets 1 bytes 4 truncated 0 skipped 0 first 2+500000/1000000 last 2+500000/1000000
total packets 1 bytes 4 truncated 0
frames other-link 0 not-ipv4 0 short 1 cut 0 bad 0 unjoined 0 counted 0
joined 0 given-up 0
talks 0'
cut='files 1
file 1 pcap packets 0 bytes 0 truncated 0 skipped 0 first - last - cut
total packets 0 bytes 0 truncated 0
frames other-link 0 not-ipv4 0 short 0 cut 0 bad 0 unjoined 0 counted 0
joined 0 given-up 0
talks 0'
run report "$one"; check 'report' 0 "$report" ''
input=$one; run report -; check 'report of standard input' 0 "$report" ''; input=
run report "$work/section" "$one"; check 'report of two files' 0 '*' ''; grep -q '^file 2 pcap packets 1 ' "$work/out" || { failed=$((failed + 1)); echo 'report of two files: no second line'; }
run report --allow-cut "$work/cut.pcap"; check 'report of a cut file, accepted' 0 "$cut" ''
run report "$one" "$work/cut.pcap"; check 'report of a cut file' 1 '' 'refused: file 2 offset 24 rule 3 cut'
run report --allow-cut "$work/empty.pcap"; check 'report of an empty file' 1 '' 'refused: file 1 offset 0 rule 3 cut'
run report "$one" "$work/missing"; check 'report of a missing file' 1 '' 'fault: open file 2'
run report "$one" "$work/folder"; check 'report of a folder' 1 '' 'fault: read file 2 offset 0'
run report - -; check 'report of standard input twice' 2 '' 'fault: input'
run report; check 'report of no file' 2 '' '*'
"$program" report "$one" > /dev/full 2> "$work/err"; status=$?; : > "$work/out"; check 'report on a full disk' 1 '' 'fault: write'
"$program" report "$work/cut.pcap" > /dev/full 2> "$work/err"; status=$?; check 'report of a cut file on a full disk' 1 '' 'refused: file 1 offset 24 rule 3 cut'
# digest: the SHA-256 of the canonical text of that packet, also where a pcapng file has it; a file that is not whole has a line too
digest='sha256 ae7312267c797be18247384507fd1956f2af9397397bd84f72a62298f1352b4e packets 1'
run digest "$one" "$work/want.pcapng" "$work/big.pcap"; check 'digest' 0 "digest 1 $digest
digest 2 $digest
digest 3 $digest" ''
input=$one; run digest -; check 'digest of standard input' 0 "digest 1 $digest" ''; input=
run digest "$one" "$work/cut.pcap" "$one"; check 'digest of a cut file' 1 "digest 1 $digest
digest 2 refused offset 24 rule 3 cut
digest 3 $digest" ''
run digest --allow-cut "$work/cut.pcap" "$one"; check 'digest of a cut file, whose end is dropped' 0 "digest 1 sha256 e3b0c44298fc1c149afbf4c8996fb92427ae41e4649b934ca495991b7852b855 packets 0 cut
digest 2 $digest" ''
run digest "$one" "$work/folder"; check 'digest of a folder' 1 "digest 1 $digest
digest 2 read offset 0" ''
run digest --names "$work/missing" "$one"; check 'digest of a missing file' 1 "digest 1 open name $work/missing
digest 2 $digest name $one" ''
run check --digest "$one"; check 'check with a digest' 0 "check 1 pcap packets 1 bytes 4 first 2+500000/1000000 last 2+500000/1000000 \
backward 0 untimed 0 truncated 0 skipped 0 interfaces 1 ${digest%% packets*} whole" ''
run digest - -; check 'digest of standard input twice' 2 '' 'fault: input'
"$program" digest "$one" > /dev/full 2> "$work/err"; status=$?; : > "$work/out"; check 'digest on a full disk' 1 '' 'fault: write'
# check: a line for each file, also for one that is refused, can't be read or can't be opened
held='packets 1 bytes 4 first 2+500000/1000000 last 2+500000/1000000 backward 0 untimed 0 truncated 0 skipped 0 interfaces 1'
none='packets 0 bytes 0 first - last - backward 0 untimed 0 truncated 0 skipped 0 interfaces'
run check "$one" "$work/want.pcapng" "$work/big.pcap"; check 'check' 0 "check 1 pcap $held whole
check 2 pcapng $held whole
check 3 pcap $held whole" ''
input=$one; run check -; check 'check of standard input' 0 "check 1 pcap $held whole" ''; input=
run check "$one" "$work/cut.pcap" "$work/folder" "$work/missing" "$one"; check 'check of files that are not whole' 1 "check 1 pcap $held whole
check 2 pcap $none 1 refused offset 24 rule 3 cut
check 3 - $none 0 read offset 0
check 4 - $none 0 open
check 5 pcap $held whole" ''
run check --allow-cut "$work/cut.pcap"; check 'check of a cut file, accepted' 0 "check 1 pcap $none 1 whole cut" ''
checked="check 1 pcap $held whole
check 2 pcap $none 1 refused offset 24 rule 3 cut
check 3 - $none 0 open
check 4 - $none 0 open
check 5 - $none 0 read offset 0"
run check --explain "$one" "$work/cut.pcap" '' "$one/a" "$work/folder"; check 'check, explained' 1 "$checked" "  : No such file or directory (os error 2)
  $one/a: Not a directory (os error 20)
  $work/folder: it is a folder"
run check --explain --json "$work/missing"; check 'check, explained as an object' 1 '*' '{"type":"hint","hint":"'"$work/missing"': No such file or directory (os error 2)"}'
run list --explain --json "$work/cut.pcap"; check 'a cut file, explained as an object' 1 '' '{"type":"refused","file":1,"offset":24,"rule":3,"name":"cut","path":"'"$work/cut.pcap"'"}
{"type":"hint","hint":"'"$work/cut.pcap"': it is cut off: --allow-cut drops a last record or block"}'
run check - -; check 'check of standard input twice' 2 '' 'fault: input'
# captures that are refused are left out; others that can't be opened or read aren't, and then nothing is printed
run info --skip-refused "$work/cut.pcap" "$one"; check 'info without a cut file' 1 "left out 1 offset 24 rule 3 cut
files 1
file 1 pcap $(echo "$held" | sed 's/ backward.*//; s/\(packets . bytes .\)/\1 truncated 0 skipped 0/')" ''
run info --skip-refused --explain "$work/cut.pcap" "$work/folder"; check 'info of a folder, without what is refused' 1 '' "fault: read file 2 offset 0
  $work/folder: it is a folder"
run report --skip-refused --json --explain "$work/missing" "$work/cut.pcap"
check 'report of a missing file, without what is refused' 1 '' '{"type":"fault","fault":"open","file":1,"path":"'"$work/missing"'"}
{"type":"hint","hint":"'"$work/missing"': No such file or directory (os error 2)"}'
run info --skip-refused --explain "$one" -; check 'info of standard input, read twice' 2 '' 'fault: input
  standard input, -, can be read once'
cp "$one" "$work/a name"; run check --names "$work/a name" "$work/missing"; check 'check, with names' 1 "check 1 pcap $held whole name $work/a name
check 2 - $none 0 open name $work/missing" ''
run check --names '' $'\e]0;\xc3\xa4\a"\\' $'\xc2\x9b\xe2\x80\xae\x7f'
check 'check, with names that a terminal would obey' 1 "check 1 - $none 0 open name "$'\n'"check 2 - $none 0 open name "$'\\u{1b}]0;\xc3\xa4\\u{7}"\\\n'"check 3 - $none 0 open name \\u{9b}\\u{202e}\\u{7f}" ''
empty='"format":null,"packets":0,"bytes":0,"first":null,"last":null,"backward":0,"untimed":0,"truncated":0,"skipped":0,"interfaces":0,"open":true'
run check --json '' $'\e]0;\xc3\xa4\a"\\' $'\xc2\x9b\xe2\x80\xae\x7f'
check 'check of such names, as objects' 1 '{"type":"check","file":1,'"$empty"$',"path":""}\n{"type":"check","file":2,'"$empty"$',"path":"\\u001b]0;\xc3\xa4\\u0007\\"\\\\"}\n{"type":"check","file":3,'"$empty"$',"path":"\\u009b\\u202e\\u007f"}' ''
# a list of captures, in which a NUL ends each name
printf '%s\0' "$one" "$work/missing" "$work/a name" > "$work/list"
named="check 1 pcap $held whole name $one
check 2 - $none 0 open name $work/missing
check 3 pcap $held whole name $work/a name"
run check --names --files0-from "$work/list"; check 'check of a list' 1 "$named" ''
input=$work/list; run check --names --files0-from -; check 'check of a list from standard input' 1 "$named" ''; input=
printf '%s' "$one" > "$work/list"; run check --files0-from "$work/list"; check 'a list whose last name has no NUL' 0 "check 1 pcap $held whole" ''
printf '%s\0\0' "$one" > "$work/list"; run check --names --files0-from "$work/list"; check 'a list with an empty name' 1 "check 1 pcap $held whole name $one
check 2 - $none 0 open name " ''
printf 'caf\xe9\0%s\0' "$one" > "$work/list"; cp "$one" "$work/caf"$'\xe9'
run check --names --files0-from "$work/list"; check "a list with a name that isn't UTF-8" 1 "check 1 - $none 0 open name caf"$'\xef\xbf\xbd\\u{0}\n'"check 2 pcap $held whole name $one" ''
printf -- '-\0%s\0' "$one" > "$work/list"; input=$one; run check --files0-from "$work/list"; check 'standard input in a list' 0 "check 1 pcap $held whole
check 2 pcap $held whole" ''; input=
printf -- '-\0-\0' > "$work/list"; run check --explain --files0-from "$work/list"; check 'standard input twice in a list' 2 '' 'fault: input
  standard input, -, can be read once'
input=$work/list; run check --files0-from -; check 'standard input in a list of standard input' 2 '' 'fault: input'; input=
: > "$work/list"; run check --files0-from "$work/list"; check 'an empty list' 0 '' ''
for words in check digest; do
    run "$words" --explain --files0-from "$work/missing"; check "$words of a list that is missing" 1 '' "fault: read list
  $work/missing: No such file or directory (os error 2)"
    run "$words" --explain --files0-from "$work/folder"; check "$words of a list that is a folder" 1 '' "fault: read list
  $work/folder: it is a folder"
    run "$words" --explain --files0-from /proc/self/mem; check "$words of a list that can't be read" 1 '' "fault: read list
  /proc/self/mem: it can't be read"
    run "$words" --json --files0-from "$work/missing"; check "$words of a missing list, as an object" 1 '' '{"type":"fault","fault":"list"}'
    run "$words" --files0-from "$work/list" "$one"; check "$words of a list and a file" 2 '' "error: the argument '--files0-from <LIST>' cannot be used with '[FILE]...'

For more information, try '--help'."
    run "$words"; check "$words of nothing" 2 '' "error: the following required arguments were not provided:
  <FILE>...

  tip: '--files0-from <LIST>' names captures too

For more information, try '--help'."
done
# the lines of a list that digest printed, verified
cp "$one" "$work/changed"; cp "$work/cut.pcap" "$work/refused"; cp "$one" "$work/"$'\ename'
run digest --names "$work/changed" "$work/refused" "$work/"$'\ename' "$work/missing"; cp "$work/out" "$work/lines"
verified="verify 1 same name $work/changed
verify 2 same name $work/refused
verify 3 same name $work/\\u{1b}name"
run digest --verify "$work/lines"; check 'what digest printed, verified' 1 "$verified
verify 4 missing name $work/missing" ''
head -n 3 "$work/lines" > "$work/list"; run digest --verify "$work/list"; check 'lines that hold' 0 "$verified" ''
input=$work/list; run digest --verify -; check 'lines from standard input' 0 "$verified" ''; input=
head -c -1 "$work/list" > "$work/lines"; run digest --verify "$work/lines"; check 'a last line without an end' 0 "$verified" ''
{ sed -n 3p "$work/list"; sed -n 1p "$work/list"; } > "$work/lines"; run digest --json --verify "$work/lines"
check 'some lines in another order, as objects' 0 '{"type":"verify","file":3,"result":"same","path":"'"$work"'/\u001bname"}
{"type":"verify","file":1,"result":"same","path":"'"$work/changed"'"}' ''
cp "$work/cut.pcap" "$work/changed"; run digest --verify "$work/lines"; check 'a capture that changed' 3 "verify 3 same name $work/\\u{1b}name
verify 1 differs name $work/changed" ''
echo 'check 1 open name a' >> "$work/lines"; run digest --explain --verify "$work/lines"; check 'a line that is none' 2 '' "fault: line 3 of list
  $work/lines: line 3 isn't a line of 'capt digest --names'"
run digest --json --verify "$work/lines"; check 'such a line, as an object' 2 '' '{"type":"fault","fault":"list","line":3}'
for entry in '' 'digest 0 open name a' 'digest 01 open name a' 'digest 4294967296 open name a' 'digest 1 name a' $'digest 1 open name a\r' 'digest 1 open' ' digest 1 open name a' $'digest 1 open name \xff'; do
    printf '%s\n' "$entry" > "$work/lines"; run digest --verify "$work/lines"; check "the line '$entry'" 2 '' 'fault: line 1 of list'
done
printf 'digest 1 open name -\ndigest 2 open name -\n' > "$work/lines"; run digest --verify "$work/lines"; check 'standard input twice in lines' 2 '' 'fault: input'
: > "$work/lines"; run digest --verify "$work/lines"; check 'no lines' 0 '' ''
run digest --explain --verify "$work/missing"; check 'lines of a list that is missing' 1 '' "fault: read list
  $work/missing: No such file or directory (os error 2)"
for words in "--files0-from <LIST>:--files0-from $work/list" '--names:--names' "[FILE]...:$one"; do
    # shellcheck disable=SC2086
    run digest --verify "$work/lines" ${words#*:}; check "lines beside ${words%%:*}" 2 '' "error: the argument '--verify <LIST>' cannot be used with '${words%%:*}'

For more information, try '--help'."
done

# more names than a process can hold open
for _ in $(seq 2000); do printf '%s\0' "$one"; done > "$work/list"
run digest --files0-from "$work/list"; check 'a digest of 2,000 captures' 0 '*' ''
[ "$(tail -n 1 "$work/out" | cut -d ' ' -f 1-2)" = 'digest 2000' ] && passed=$((passed + 1)) || { echo "a digest of 2,000 captures: the last line isn't of number 2000"; failed=$((failed + 1)); }
for file in "$one" "$work/cut.pcap" "$work/missing"; do
    "$program" check "$file" > /dev/full 2> "$work/err"; status=$?; : > "$work/out"
    check "check of $file on a full disk" 1 '' 'fault: write'
done
# merge: the packet twice, each behind an interface of its own
{ cat "$work/want.pcapng"; tail -c +29 "$work/want.pcapng" | head -c 32
  printf '\x06\0\0\0\x24\0\0\0\x01\0\0\0\0\0\0\0\xa0\x25\x26\0\x04\0\0\0\x04\0\0\0\x01\x02\x03\x04\x24\0\0\0'; } > "$work/twice"
run merge -o "$work/new" "$one" "$one"; check 'merge' 0 '' ''; same 'merge' "$work/new" "$work/twice"
# the same, behind one interface
{ cat "$work/want.pcapng"; tail -c 36 "$work/want.pcapng"; } > "$work/shared"
run merge --share-interfaces -o "$work/new" "$one" "$one"; check 'shared interfaces' 0 '' ''; same 'shared interfaces' "$work/new" "$work/shared"
run merge --to pcapng --share-interfaces -o - "$one" "$work/want.pcapng"; check 'shared interfaces of both formats' 0 '*' ''; same 'shared interfaces of both formats' "$work/out" "$work/shared"
run merge --share-interfaces -o "$work/new" "$work/twice"; check 'shared interfaces of one capture' 0 '' ''; same 'shared interfaces of one capture' "$work/new" "$work/shared"
# pcap in nanoseconds, and back
{ printf '\x4d\x3c\xb2\xa1'; tail -c +5 "$work/want.pcap" | head -c 24; printf '\0\x65\xcd\x1d'; tail -c 12 "$work/want.pcap"; } > "$work/nano"
run convert --to pcap --unit nano -o "$work/new" "$one"; check 'in nanoseconds' 0 '' ''; same 'in nanoseconds' "$work/new" "$work/nano"
run merge --to pcap --unit micro -o "$work/new" "$work/nano"; check 'in microseconds' 0 '' ''; same 'in microseconds' "$work/new" "$work/want.pcap"
input=$one; run merge -o - "$one" -; check 'merge with standard streams' 0 '*' ''; input=; same 'merge with standard streams' "$work/out" "$work/twice"
run merge -o "$work/new" "$one" "$work/cut.pcap"; check 'a refusal in the second file' 1 '' 'refused: file 2 offset 24 rule 3 cut'
run merge -o "$work/none" "$one" "$work/missing"; check 'a second file that is missing' 1 '' 'fault: open file 2'; absent 'a second file that is missing' "$work/none"
run merge -o "$one" "$one" "$one"; check 'a merge into one of its files' 2 '' 'fault: output'; same 'one of its files' "$one" "$work/kept"
run merge -o "$work/none" - -; check 'standard input twice' 2 '' 'fault: input'
run merge -o "$work/none" $(yes a | head -n 33); check '33 files' 2 '' 'fault: files'
run merge -o /dev/full "$one" "$one"; check 'a merge on a full disk' 1 '' 'fault: write'
# OUT that is a FILE under another name isn't touched; a lock that someone else holds doesn't matter
mkdir "$work/k"; cp "$one" "$work/k/a"; ln -s a "$work/k/soft"; ln "$work/k/a" "$work/k/hard"; cd "$work/k" || exit 1
for name in ./a "$work/k/a" ../k/a soft hard; do
    for words in merge join 'convert --to pcap'; do
        # shellcheck disable=SC2086 # the words of a command
        run $words -o "$name" a; check "$words into $name" 1 '' 'fault: create output'; same "$words into $name" a "$one"
    done
done
run merge -o a "$one" hard soft; check 'a merge into a file with two names' 1 '' 'fault: create output'; same 'a file with two names' a "$one"
input=a; run convert --to pcap -o a -; check 'into the file of standard input' 1 '' 'fault: create output'; input=; same 'the file of standard input' a "$one"
run merge -o new a; check 'beside its file' 0 '' ''; same 'beside its file' new "$work/want.pcapng"; rm new
flock -s a "$program" merge -o new a; status=$?; check 'a file that someone else reads' 0 '' ''; same 'a file that someone else reads' new "$work/want.pcapng"
flock -x a "$program" merge -o new a; status=$?; check 'a file that someone else holds' 0 '' ''
run merge -o /dev/null a; check 'to nothing' 0 '' ''
run merge -o /dev/null /dev/../dev/null; check 'from nothing to nothing' 1 '' 'refused: file 1 offset 0 rule 3 cut'
run merge -o /dev/stdout a; check 'to /dev/stdout' 0 '*' ''; same '/dev/stdout' "$work/out" "$work/want.pcapng"
mkfifo pipe; cat pipe > new & run merge -o pipe a; wait; check 'to a pipe' 0 '' ''; same 'a pipe' new "$work/want.pcapng"
cat a > pipe & run merge -o new pipe; wait; check 'from a pipe' 0 '' ''; same 'from a pipe' new "$work/want.pcapng"; cd "$work" || exit 1
# what isn't a capture that capt reads, or no file at all
printf '\x1f\x8b\x08\0\0\0\0\0\0\x03' > "$work/gz"; run list "$work/gz"; check 'a compressed capture' 1 '' 'refused: file 1 offset 0 rule 1 magic'
echo 'a line of text' > "$work/text"; run report "$one" "$work/text"; check 'a text' 1 '' 'refused: file 2 offset 0 rule 1 magic'
{ printf '\x34\xcd\xb2\xa1'; tail -c +5 "$one"; } > "$work/modified"; run info "$work/modified"; check 'a modified pcap magic' 1 '' 'refused: file 1 offset 0 rule 1 magic'
{ head -c 6 "$one"; printf '\x03'; tail -c +8 "$one"; } > "$work/older"; run list "$work/older"; check 'pcap 2.3' 1 '' 'refused: file 1 offset 0 rule 2 version'
{ head -c 12 "$work/section"; printf '\x02'; tail -c +14 "$work/section"; } > "$work/newer"; run list "$work/newer"; check 'pcapng 2.0' 1 '' 'refused: file 1 offset 0 rule 2 version'
run list ''; check 'an empty name' 1 '' 'fault: open file 1'
run list "$one/a"; check 'a name below a file' 1 '' 'fault: open file 1'
cp "$one" "$work/closed"; chmod 0 "$work/closed"; if [ ! -r "$work/closed" ]; then run list "$work/closed"; check 'an unreadable file' 1 '' 'fault: open file 1'; fi
chmod 0444 "$work/closed"; if [ ! -w "$work/closed" ]; then run merge -o "$work/closed" "$one"; check 'an OUT that is write-protected' 1 '' 'fault: create output'; fi
mkdir "$work/locked"; chmod 0555 "$work/locked"
if [ ! -w "$work/locked" ]; then
    run merge --explain -o "$work/locked/new" "$one"; check 'an OUT in a folder that is write-protected' 1 '' "fault: create output
  $work/locked/new: Permission denied (os error 13)"; absent 'an OUT in a folder that is write-protected' "$work/locked/new"
    ln "$work/closed" "$work/closed-too"; run merge --whole --explain -o "$work/closed-too" "$work/closed"
    check 'whole, one of the files that is write-protected' 1 '' "fault: create output
  $work/closed-too: Permission denied (os error 13)"; rm "$work/closed-too"
fi
# --explain tells the file and why on a second line, elsewhere than at a terminal too; what a terminal wouldn't show of a name
# is told by its code
explained() {
    local name=$1 want=$2
    shift 2
    (cd "$work" && "$program" "$@") > "$work/out" 2> "$work/err" < "${input:-/dev/null}"; status=$?
    check "$name" "${ends:-1}" '' "$want"
}
explained 'a cut file, explained' 'refused: file 2 offset 24 rule 3 cut
  cut.pcap: it is cut off: --allow-cut drops a last record or block' info --explain one.pcap cut.pcap
explained 'a name that sets a title, explained' $'fault: open file 1\n  \\u{1b}]0;x\\u{7}: No such file or directory (os error 2)' list --explain $'\e]0;x\a'
explained 'a name of two lines, explained' $'fault: open file 1\n  a\\u{a}b: No such file or directory (os error 2)' list $'a\nb' --explain
explained 'a name with C1 and bidi controls, explained' $'fault: open file 1\n  \\u{9b}\\u{202e}\\u{7f}: No such file or directory (os error 2)' info --explain $'\xc2\x9b\xe2\x80\xae\x7f'
explained 'a name in UTF-8, explained' $'fault: open file 1\n  \xc3\xa4\xe2\x82\xac: No such file or directory (os error 2)' info --explain $'\xc3\xa4\xe2\x82\xac'
explained 'blocks of a pcap file, explained' 'refused: file 1 offset 0 rule 1 magic
  one.pcap: only pcapng files have blocks, and this is a pcap file: capt list shows its packets' blocks --explain one.pcap
input=$one; explained 'blocks of standard input, explained' 'refused: file 1 offset 0 rule 1 magic
  -: only pcapng files have blocks, and this is a pcap file: capt list shows its packets' blocks --explain -; input=
explained 'blocks of a text, explained' 'refused: file 1 offset 0 rule 1 magic
  text: only pcapng files have blocks, and this isn'\''t one' blocks --explain text
explained 'a text, explained' 'refused: file 1 offset 0 rule 1 magic
  text: this is no capture of pcap or pcapng' list --explain text
for kind in 'gzip zcat \x1f\x8b\x08\0' 'zstd zstdcat \x28\xb5\x2f\xfd' 'xz xzcat \xfd7zXZ\0' 'lz4 lz4cat \x04\x22\x4d\x18' 'bzip2 bzcat BZh9'; do
    # shellcheck disable=SC2086 # three words
    set -- $kind
    # shellcheck disable=SC2059 # the bytes of a file
    printf "$3" > "$work/packed"
    explained "$1, explained" "refused: file 1 offset 0 rule 1 magic
  packed: it is compressed by $1: $2 FILE | capt list -" report --explain packed
done
printf '\x34\xcd\xb2\xa1\x02\x00\x04\x00' > "$work/modified"
explained 'a modified pcap file, explained' "refused: file 1 offset 0 rule 1 magic
  modified: this is a modified pcap file, which capt doesn't read: editcap -F pcap FILE OUT converts it" info --explain modified
: > "$work/nothing"
explained 'an empty file, explained' 'refused: file 1 offset 0 rule 3 cut
  nothing: it is empty' report --explain nothing
explained 'an empty file with --allow-cut, explained' 'refused: file 1 offset 0 rule 3 cut
  nothing: it is empty' report --allow-cut --explain nothing
input=/dev/null; explained 'no byte of standard input, explained' "refused: file 1 offset 0 rule 3 cut
  -: it is cut off inside its file header, which --allow-cut doesn't drop" list --explain -; input=
head -c 23 "$one" > "$work/begun"
explained 'a cut file header, explained' "refused: file 1 offset 0 rule 3 cut
  begun: it is cut off inside its file header, which --allow-cut doesn't drop" list --explain begun
explained 'a folder, explained' 'fault: read file 1 offset 0
  folder: it is a folder' list --explain folder
head -c 24 "$one" > "$work/header.pcap"
explained 'no packet for a pcap file, explained' 'refused: file 1 offset 0 rule 21 no-interface
  there is no packet or datagram to write, and so no link type for the pcap header' merge --explain --to pcap -o - header.pcap
ends=2
# shellcheck disable=SC2046 # a word each
explained 'too many files, explained' 'fault: files
  only capt check and capt digest read more than 32 captures: examples/rounds.sh merges them' info --explain $(yes one.pcap | head -n 33)
explained 'standard input twice, explained' 'fault: input
  standard input, -, can be read once' report - --explain -
explained 'OUT that is a FILE, explained' 'fault: output
  the output is one of the captures that are read' merge --explain -o one.pcap one.pcap
ends=
explained 'OUT on a full disk, explained' 'fault: write
  /dev/full: No space left on device (os error 28)' merge --explain -o /dev/full one.pcap
explained 'OUT in no folder, explained' 'fault: create output
  nowhere/new: No such file or directory (os error 2)' merge --explain -o nowhere/new one.pcap
explained 'a folder as OUT, explained' 'fault: create output
  folder: Is a directory (os error 21)' convert --explain --to pcap -o folder one.pcap
explained 'OUT that is a FILE under another name, explained' 'fault: create output
  k/hard: it is one of the files that are read' join --explain -o k/hard k/a; same 'OUT that is a FILE under another name, explained' "$work/k/a" "$one"
input=$work/folder; explained 'a folder as standard input, explained' "fault: read file 1 offset 0
  -: it can't be read" list --explain -; input=
(cd "$work" && "$program" merge --explain -o unmade one.pcap - > out 2> err <&-); status=$?; check 'closed standard input, explained' 1 '' 'fault: open file 2
  standard input: it is closed'; absent 'closed standard input, explained' "$work/unmade"
# The reason is the one that the system gave then. Nothing is opened or created again to find it, when more files may be open.
# few NAME FILES WANTED-ERR WORD..: what is told by a run that may have that many files open, the standard streams among them
few() {
    local name=$1 most=$2 want=$3
    shift 3
    (cd "$work" && ulimit -n "$most" && exec "$program" "$@") > "$work/out" 2> "$work/err" < /dev/null; status=$?
    check "$name" 1 '' "$want"
    for file in unmade unmade.capt-1 unmade.capt-2; do absent "$name" "$work/$file"; done
}
few 'one file too many' 4 'fault: open file 2
  header.pcap: Too many open files (os error 24)' info --explain one.pcap header.pcap
few 'OUT as one file too many' 4 'fault: create output
  unmade: Too many open files (os error 24)' merge --explain -o unmade one.pcap
few 'a file beside OUT as one file too many' 4 'fault: create output
  unmade.capt-1: Too many open files (os error 24)' merge --whole --explain -o unmade one.pcap
few 'a file beside OUT that is opened once too often' 5 'fault: create output
  unmade: Too many open files (os error 24)' merge --whole --explain -o unmade one.pcap
"$program" list --explain "$one" > /dev/full 2> "$work/err"; status=$?; : > "$work/out"; check 'a full disk, explained' 1 '' 'fault: write
  standard output: No space left on device (os error 28)'
run list --json $'\xc2\x9b\xe2\x80\xae\x7f'; check 'a name with C1 and bidi controls, as an object' 1 '' '{"type":"fault","fault":"open","file":1,"path":"\u009b\u202e\u007f"}'
run list --json $'\e]0;\xc3\xa4\a"\\'; check 'a name that sets a title, as an object' 1 '' $'{"type":"fault","fault":"open","file":1,"path":"\\u001b]0;\xc3\xa4\\u0007\\"\\\\"}'
run $'\e]0;x\a'; check 'a wrong word that sets a title' 2 '' $'error: unrecognized subcommand \'\\u{1b}]0;x\\u{7}\'

Usage: capt <COMMAND>

For more information, try \'--help\'.'
run list --allow-cut $'--a\nb'; check 'a wrong word of two lines' 2 '' '*'; grep -q "'--a\\\\u{a}b' found" "$work/err" || { failed=$((failed + 1)); echo 'a wrong word of two lines: not on one'; }
# --whole leaves OUT as it was until all is done, and nothing beside it
mkdir "$work/w"; cd "$work/w" || exit 1; cp "$one" one; cp "$work/cut.pcap" cut; echo kept > out
left() { if [ "$(echo *)" = "$2" ]; then passed=$((passed + 1)); else failed=$((failed + 1)); echo "$1: there is $(echo *)"; fi; }
cp out before; run merge --whole -o out one cut; check 'whole, a refusal' 1 '' 'refused: file 2 offset 24 rule 3 cut'; same 'whole, a refusal' out before
run convert --whole --to pcap -o out missing; check 'whole, a missing file' 1 '' 'fault: open file 1'; same 'whole, a missing file' out before
rm before; left 'whole, after refusals' 'cut one out'
chmod 0640 out; ln out hard; ln -s out soft
run merge --whole -o soft one; check 'whole, by a link' 0 '' ''; same 'whole, by a link' out "$work/want.pcapng"
if [ "$(stat -c %a out)" = 640 ] && [ -L soft ] && [ "$(cat hard)" = kept ]; then passed=$((passed + 1)); else failed=$((failed + 1)); echo 'whole: the mode, the link or what had been'; fi
rm soft hard; run join --whole --output new one; check 'whole, a new file' 0 '' ''; left 'whole, a new file' 'cut new one out'
: > new.capt-1; run convert --whole --to pcap -o new out; check 'whole, beside another' 0 '' ''; same 'whole, beside another' new "$work/want.pcap"
left 'whole, beside another' 'cut new new.capt-1 one out'; rm new new.capt-1
run merge --whole -o /dev/null one; check 'whole, a device' 1 '' 'fault: create output'
run merge --whole --explain -o . one; check 'whole, a folder' 1 '' "fault: create output
  .: it isn't a regular file"
mkfifo pipe; run merge --whole -o pipe one; check 'whole, a pipe' 1 '' 'fault: create output'
run merge --whole --explain -o pipe one; check 'whole, a pipe, explained' 1 '' "fault: create output
  pipe: it isn't a regular file"; rm pipe
run merge --whole --explain -o ./one one; check 'whole, one of the files' 1 '' 'fault: create output
  ./one: it is one of the files that are read'; same 'whole, one of the files' one "$work/kept"
run merge --whole --explain -o no/new one; check 'whole, in no folder' 1 '' 'fault: create output
  no/new.capt-1: No such file or directory (os error 2)'
left 'whole, after all' 'cut one out'
for n in {1..120}; do : > "new.capt-$n"; done; run merge --whole -o new one; check 'whole, beside 120 others' 0 '' ''
same 'whole, beside 120 others' new "$work/want.pcapng"; rm new new.capt-*
mkdir deep; ln -s far deep/near; ln -s deep/near loose; run merge --whole -o loose one; check 'whole, by a dangling link' 0 '' ''
same 'whole, by a dangling link' deep/far "$work/want.pcapng"; if [ -L loose ] && [ -L deep/near ]; then passed=$((passed + 1)); else failed=$((failed + 1)); echo 'whole, by a dangling link: a link went'; fi
rm -r deep loose; ln -s round round; run merge --whole -o round one; check 'whole, by a link to itself' 1 '' 'fault: create output'
run merge --whole --explain -o round one; check 'whole, by a link to itself, explained' 1 '' 'fault: create output
  round: invalid input parameter'; rm round
left 'whole, after links' 'cut one out'; cd "$work" || exit 1
# standard output that goes to a file that is read: nothing is written, however it was opened
into() { local name=$1; shift; "$program" "$@" 2> "$work/err"; status=$?; : > "$work/out"; check "$name" 1 '' "fault: create output"; same "$name" "$work/a" "$work/kept"; }
cp "$one" "$work/a"; cp "$one" "$work/kept"; ln -s a "$work/b"
into 'merge onto its file' merge -o - "$one" "$work/a" >> "$work/a"
into 'convert over its file' convert --to pcap -o - "$work/a" 1<> "$work/a"
into 'join onto its file, by a link' join -o - "$work/b" >> "$work/a"
for task in list info report digest check "diff $one"; do
    # shellcheck disable=SC2086  # a task may have a word after it
    into "$task onto its file" $task "$work/a" >> "$work/a"
done
into 'list of standard input onto it' list - < "$work/a" >> "$work/a"
for task in digest check; do
    printf '%s\0%s\0' "$one" "$work/a" > "$work/list"
    into "$task of a list onto one of its files" "$task" --files0-from "$work/list" >> "$work/a"
    cp "$work/list" "$work/named"
    "$program" "$task" --files0-from "$work/list" 2> "$work/err" >> "$work/list"; status=$?; : > "$work/out"
    check "$task of a list onto the list" 1 '' 'fault: create output'; same "$task of a list onto the list" "$work/list" "$work/named"
done
"$program" list --explain "$work/a" 2> "$work/err" >> "$work/a"; status=$?; : > "$work/out"; check 'list onto its file, explained' 1 '' 'fault: create output
  standard output: it is one of the files that are read'
"$program" list --json "$work/a" 2> "$work/err" >> "$work/a"; status=$?; check 'list onto its file, as an object' 1 '' '{"type":"fault","fault":"create"}'
same 'list onto its file' "$work/a" "$work/kept"; rm "$work/b"
tail -c 36 "$work/want.pcapng" > "$work/many"; for n in {1..15}; do cat "$work/many" "$work/many" > "$work/b"; mv "$work/b" "$work/many"; done
cat "$work/want.pcapng" "$work/many" > "$work/a"; cp "$work/a" "$work/kept"
into 'merge of a large file onto it' merge -o - "$work/a" >> "$work/a"
cp "$one" "$work/kept"; "$program" list "$one" >> "$work/a" 2> "$work/err"; status=$?; check 'list onto another file' 0 '' ''
# a closed standard stream is none of the files that are opened
"$program" merge -o x "$one" - <&- > "$work/out" 2> "$work/err"; status=$?; check 'closed standard input' 1 '' 'fault: open file 2'; absent 'closed standard input' x
"$program" list "$one" 2> "$work/err" >&-; status=$?; : > "$work/out"; check 'closed standard output' 1 '' 'fault: write'
"$program" check - "$one" <&- > "$work/out" 2> "$work/err"; status=$?
check 'check of closed standard input' 1 "check 1 - $none 0 open
check 2 pcap $held whole" ''
"$program" convert --to pcapng -o "$work/new" - < "$work/empty.pcap" > "$work/out" 2>&-; status=$?; : > "$work/err"; check 'closed standard error' 1 '' ''; same 'closed standard error' "$work/new" "$work/section"
# With --explain lines tell after work that is done how many blocks, by kind, names of interfaces and comments aren't carried on, of all files, and
# how many packets ran back, and which packets join leaves out; without it nothing does, nor after a refusal.
corpus=$top/checks/corpus
many=$corpus/skipped-blocks-of-many-kinds.pcapng; one_skipped=$corpus/worked-options.pcapng; back=$corpus/runs-back.pcap
counted() {
    local name=$1 want=$2
    shift 2
    run "$@"; check "$name" 0 '' "$want"
}
counted 'blocks not carried on' 'not carried on: 1 block of secrets, 1 of names, 6 of other kinds' merge --explain -o "$work/new" "$many"
counted 'a block not carried on' 'not carried on: 1 block, names of 1 interface' convert --explain --to pcap -o "$work/new" "$one_skipped"
counted 'a block not joined' 'not carried on: 1 block, names of 1 interface
left out: 1 packet: short 1' join --explain -o "$work/new" "$one_skipped"
head -c 144 "$one_skipped" > "$work/named"
counted 'a name alone' 'not carried on: names of 1 interface' convert --explain --to pcapng -o "$work/new" "$work/named"
counted 'names of two files' 'not carried on: names of 2 interfaces' merge --explain -o "$work/new" "$work/named" "$one" "$work/named"
counted 'a name in what was written of one' '' convert --explain --to pcapng -o "$work/newer" "$work/new"
counted 'blocks of two files' 'not carried on: 1 block of secrets, 1 of names, 7 of other kinds, names of 1 interface' merge --explain -o "$work/new" "$one_skipped" "$one" "$many"
counted 'blocks of each kind of two files' 'not carried on: 2 blocks of secrets, 2 of names, 12 of other kinds' merge --explain -o "$work/new" "$many" "$many"
# the section of that file with its blocks of names and of statistics, with that of names alone, and with that of secrets alone
head -c 68 "$many" > "$work/hosts"
counted 'names and another block' 'not carried on: 1 block of names, 1 of another kind' convert --explain --to pcapng -o "$work/new" "$work/hosts"
head -c 44 "$many" > "$work/hosts"
counted 'names of hosts alone' 'not carried on: 1 block of names' convert --explain --to pcapng -o "$work/new" "$work/hosts"
counted 'names of hosts of two files' 'not carried on: 2 blocks of names' merge --explain -o "$work/new" "$work/hosts" "$work/hosts"
{ head -c 28 "$many"; tail -c +85 "$many" | head -c 20; } > "$work/secrets"
counted 'secrets alone' 'not carried on: 1 block of secrets' convert --explain --to pcapng -o "$work/new" "$work/secrets"
counted 'secrets and names of hosts' 'not carried on: 1 block of secrets, 1 of names' merge --explain -o "$work/new" "$work/hosts" "$work/secrets"
# a section with two comments, an interface, and an enhanced packet of 5 bytes with one; the same behind a section without
{
    printf '\x0a\x0d\x0d\x0a\x38\0\0\0\x4d\x3c\x2b\x1a\x01\0\0\0\xff\xff\xff\xff\xff\xff\xff\xff'
    printf '\x01\0\x05\0first\0\0\0\x01\0\x06\0second\0\0\0\0\0\0\x38\0\0\0'
    printf '\x01\0\0\0\x14\0\0\0\x01\0\0\0\0\0\x04\0\x14\0\0\0'
    printf '\x06\0\0\0\x34\0\0\0\0\0\0\0\0\0\0\0\xa0\x25\x26\0\x05\0\0\0\x05\0\0\0'
    printf '\x01\x02\x03\x04\x05\0\0\0\x01\0\x04\0note\0\0\0\0\x34\0\0\0'
} > "$work/noted"
{ head -c 28 "$many"; tail -c +57 "$work/noted"; } > "$work/note"
counted 'comments alone' 'not carried on: 3 comments' convert --explain --to pcapng -o "$work/new" "$work/noted"
counted 'comments in what was written of some' '' convert --explain --to pcapng -o "$work/newer" "$work/new"
counted 'one comment' 'not carried on: 1 comment' convert --explain --to pcap -o "$work/new" "$work/note"
counted 'comments of files, behind names' 'not carried on: 1 block, names of 1 interface, 4 comments' merge --explain -o "$work/new" "$work/noted" "$one_skipped" "$work/note"
counted 'comments, joined' 'not carried on: 3 comments
left out: 1 packet: short 1' join --explain -o "$work/new" "$work/noted"
counted 'comments that no one asks for' '' convert --to pcapng -o "$work/new" "$work/noted"
counted 'a packet that ran back' 'ran back: 1 packet' merge --explain -o "$work/new" "$back" "$corpus/runs-on.pcap"
counted 'packets of two files that ran back' 'ran back: 2 packets
left out: 4 packets: cut 4' join --explain -o "$work/new" "$back" "$back"
counted 'a datagram without all of its data' 'left out: 1 packet: truncated 1' join --explain -o "$work/new" "$corpus/captured-in-the-data.pcap"
counted 'packets of several classes' 'left out: 3 packets: short 1, cut 1, truncated 1' join --explain --to pcapng -o "$work/new" "$corpus/captured-in-the-data.pcap" "$one" "$corpus/captured-in-the-ports.pcap"
counted 'packets that no one asks for' '' join -o "$work/new" "$back"
counted 'both' 'not carried on: 1 block, names of 1 interface
ran back: 2 packets' merge --explain --whole -o "$work/new" "$back" "$one_skipped" "$back"
counted 'a packet that ran back, converted' '' convert --explain --to pcapng -o "$work/new" "$back"
counted 'equal times' '' merge --explain -o "$work/new" "$corpus/equal-times.pcapng"
counted 'nothing to tell' '' merge --explain -o "$work/new" "$one"
counted 'blocks that no one asks for' '' merge -o "$work/new" "$many" "$back"
run info --explain "$many"; check 'blocks that info counts' 0 '*' ''
run merge --explain -o "$work/new" "$many" "$back" "$work/cut.pcap"; check 'blocks before a refusal' 1 '' "refused: file 3 offset 24 rule 3 cut
  $work/cut.pcap: it is cut off: --allow-cut drops a last record or block"
counted 'blocks and a cut end' 'not carried on: 1 block of secrets, 1 of names, 6 of other kinds
cut: file 2 offset 24, 19 bytes dropped' merge --explain --allow-cut -o "$work/new" "$many" "$work/cut.pcap"
counted 'cut ends' 'cut: file 1 offset 24, 19 bytes dropped
cut: file 3 offset 24, 1 byte dropped' merge --explain --allow-cut -o "$work/new" "$work/cut.pcap" "$one" <(head -c 25 "$one")
counted 'a cut end, converted' 'cut: file 1 offset 24, 19 bytes dropped' convert --explain --allow-cut --to pcapng -o "$work/new" "$work/cut.pcap"
counted 'a cut end, joined' 'cut: file 1 offset 24, 19 bytes dropped' join --explain --allow-cut -o "$work/new" "$work/cut.pcap"
run diff --explain --allow-cut "$work/cut.pcap" <(head -c 25 "$one"); check 'cut ends, compared' 0 '*' 'cut: file 1 offset 24, 19 bytes dropped
cut: file 2 offset 24, 1 byte dropped'
run diff --explain --allow-cut "$one" "$work/cut.pcap"; check 'a cut end that makes a difference' 3 '*' 'cut: file 2 offset 24, 19 bytes dropped'
run diff --explain --json --allow-cut "$work/cut.pcap" "$one"; check 'a cut end that makes a difference, as an object' 3 '*' '{"type":"cut","file":1,"offset":24,"bytes":19,"path":"'"$work/cut.pcap"'"}'
run check --explain --allow-cut "$one" "$work/cut.pcap"; check 'a cut end, checked' 0 '*' 'cut: file 2 offset 24, 19 bytes dropped'
run digest --explain --allow-cut "$work/cut.pcap" "$one"; check 'a cut end, digested' 0 '*' 'cut: file 1 offset 24, 19 bytes dropped'
counted 'a cut end, listed' 'cut: file 1 offset 24, 19 bytes dropped' list --explain --allow-cut "$work/cut.pcap"
counted 'a cut end, as an object' '{"type":"cut","file":1,"offset":24,"bytes":19,"path":"'"$work/cut.pcap"'"}' list --json --explain --allow-cut "$work/cut.pcap"
counted 'a cut end that no one asks for' '' list --allow-cut "$work/cut.pcap"
run info --explain --allow-cut "$work/cut.pcap"; check 'a cut end, counted' 0 '*' 'cut: file 1 offset 24, 19 bytes dropped'
run report --explain --allow-cut "$one" "$work/cut.pcap"; check 'a cut end, reported' 0 '*' 'cut: file 2 offset 24, 19 bytes dropped'
run info --json --explain --allow-cut "$work/cut.pcap"; check 'a cut end, counted, as an object' 0 '*' '{"type":"cut","file":1,"offset":24,"bytes":19,"path":"'"$work/cut.pcap"'"}'
run report --allow-cut "$work/cut.pcap"; check 'a cut end of a report that no one asks for' 0 '*' ''
# Ethernet frames of 14 bytes, of the types of IPv6, ARP and ARP again, and of a length
printf '\xd4\xc3\xb2\xa1\x02\0\x04\0\0\0\0\0\0\0\0\0\0\0\x04\0\x01\0\0\0' > "$work/networks.pcap"
for kind in '\x86\xdd' '\x08\x06' '\x08\x06' '\0\x26'; do
    printf '\x01\0\0\0\0\0\0\0\x0e\0\0\0\x0e\0\0\0\x02\0\0\0\0\x02\x02\0\0\0\0\x01'"$kind" >> "$work/networks.pcap"
done
run report --explain "$work/networks.pcap"; check 'networks other than IPv4' 0 '*' 'not-ipv4: ipv6 1, arp 2, other 1'
run report --json --explain "$work/networks.pcap"; check 'networks other than IPv4, as an object' 0 '*' '{"type":"not_ipv4","ipv6":1,"arp":2,"other":1}'
run report "$work/networks.pcap"; check 'networks that no one asks for' 0 '*' ''
run merge --explain -o - "$many"; check 'blocks, on standard output' 0 '*' 'not carried on: 1 block of secrets, 1 of names, 6 of other kinds'
run merge --explain -o /dev/full "$many"; check 'blocks and a full disk' 1 '' 'fault: write
  /dev/full: No space left on device (os error 28)'
# at a terminal a second line tells the file and why; elsewhere none does, as the checks before --explain show
shown() {
    local name=$1 want=$2
    shift 2
    (cd "$work" && script -qec "$(printf '%q ' "$program" "$@")" /dev/null) < /dev/null | tr -d '\r' > "$work/shown"
    if [ "$(cat "$work/shown")" = "$want" ]; then passed=$((passed + 1)); else failed=$((failed + 1)); echo "$name:"; cat "$work/shown"; fi
}
if command -v script > /dev/null; then
    shown 'a cut file at a terminal' 'refused: file 2 offset 24 rule 3 cut
  cut.pcap: it is cut off: --allow-cut drops a last record or block' info one.pcap cut.pcap
    shown 'a missing file at a terminal' 'fault: open file 1
  missing: No such file or directory (os error 2)' list missing
    shown 'a folder at a terminal' 'fault: read file 1 offset 0
  folder: it is a folder' list folder
    shown 'blocks of a pcap file at a terminal' 'refused: file 1 offset 0 rule 1 magic
  one.pcap: only pcapng files have blocks, and this is a pcap file: capt list shows its packets' blocks one.pcap
    shown 'a name that sets a title, at a terminal' $'fault: open file 1\n  \\u{1b}]0;x\\u{7}: No such file or directory (os error 2)' list $'\e]0;x\a'
    shown 'a capture for a terminal' "fault: create output
  standard output: a terminal can't show a capture" merge -o - one.pcap
    shown 'an OUT that is read, at a terminal' 'fault: create output
  k/hard: it is one of the files that are read' merge -o k/hard k/a
    shown 'an OUT in no folder, at a terminal' 'fault: create output
  nowhere/new: No such file or directory (os error 2)' merge -o nowhere/new one.pcap
    shown 'a faulty output at a terminal' 'fault: output
  the output is one of the captures that are read' merge -o one.pcap one.pcap
    shown 'standard input twice at a terminal' 'fault: input
  standard input, -, can be read once' info - -
    shown '33 captures at a terminal' 'fault: files
  only capt check and capt digest read more than 32 captures: examples/rounds.sh merges them' info $(yes one.pcap | head -33)
    # at a terminal the counts are told without --explain, also if what is written goes to a file or a pipe
    shown 'blocks and packets at a terminal' 'not carried on: 1 block of secrets, 1 of names, 6 of other kinds
ran back: 1 packet' merge -o new "$many" "$back"
    shown 'a block at a terminal' 'not carried on: 1 block, names of 1 interface' convert --to pcapng -o new "$one_skipped"
    shown 'a cut end at a terminal' 'cut: file 1 offset 24, 19 bytes dropped' list --allow-cut cut.pcap
    shown 'nothing to tell at a terminal' '' merge -o new one.pcap
    shown 'a packet left out at a terminal' 'left out: 1 packet: short 1' join -o new one.pcap
    (cd "$work" && script -qec "$(printf '%q ' "$program" merge -o - "$many") | cat > written" /dev/null) < /dev/null | tr -d '\r' > "$work/shown"
    if [ "$(cat "$work/shown")" = 'not carried on: 1 block of secrets, 1 of names, 6 of other kinds' ]; then passed=$((passed + 1)); else failed=$((failed + 1)); echo 'blocks through a pipe at a terminal'; cat "$work/shown"; fi
    # a line is seen at a terminal as it comes, while the pipe it is read from stays open
    mkfifo "$work/slow"
    { cat "$one"; for _ in $(seq 100); do [ -e "$work/seen" ] && break; sleep 0.1; done; } > "$work/slow" &
    writer=$!
    (cd "$work" && script -qec "$(printf '%q ' "$program" list slow)" /dev/null) < /dev/null > "$work/shown" &
    for _ in $(seq 100); do grep -q "$line" "$work/shown" && break; sleep 0.1; done
    if grep -q "$line" "$work/shown" && kill -0 "$writer" 2> /dev/null; then passed=$((passed + 1)); else failed=$((failed + 1)); echo 'a line at a terminal'; fi
    : > "$work/seen"
    wait
    # Work of over two seconds shows at a terminal how far it is, on a line that is wiped in the end; not if what is
    # written goes to a program, which may use the same terminal.
    # slowly NAME SHOWN WRITTEN COMMAND: what the terminal shows and what the file `written` has, of a command over `slow`
    slowly() {
        rm -f "$work/written"
        { head -c 24 "$one"; sleep 2.4; tail -c +25 "$one"; } > "$work/slow" &
        (cd "$work" && script -qec "$4" /dev/null) < /dev/null | tr -d '\n' > "$work/shown"
        wait
        if [ "$(cat "$work/shown")" = "$2" ] && { [ -z "$3" ] || [ "$(cat "$work/written")" = "$3" ]; }; then
            passed=$((passed + 1))
        else
            failed=$((failed + 1)); echo "$1:"; cat -v "$work/shown"
        fi
    }
    wipe=$'\r\e[K'
    # a terminal narrower than the line cuts it, and doesn't go on below
    far="$wipe"$'\e[?7l'"  0.0 MB, 0.0 MB a second"$'\e[?7h'"$wipe"
    slowly 'progress, then lines at the same terminal' "$far$line"$'\r' '' "$(printf '%q ' "$program" list slow)"
    slowly 'progress beside a file' "$far" "$report" "$(printf '%q ' "$program" report slow) > written"
    slowly 'no progress beside a pipe' '' "$report" "$(printf '%q ' "$program" report slow) | cat > written"
    head -c 43 "$one" > "$work/half"; one=$work/half
    slowly 'progress, then a fault' "$far"$'refused: file 1 offset 24 rule 3 cut\r  slow: it is cut off: --allow-cut drops a last record or block\r' '' \
        "$(printf '%q ' "$program" info slow)"
    one=$work/one.pcap
fi
# What waits in the output's buffer is written before a read that waits: a line is there while the pipe that it is read from stays open.
{ cat "$one"; for _ in $(seq 100); do [ -e "$work/piped" ] && break; sleep 0.1; done; } | "$program" list - | cat > "$work/shown" &
for _ in $(seq 100); do grep -q '^packet 1 ' "$work/shown" && break; sleep 0.1; done
if grep -q '^packet 1 ' "$work/shown" && [ ! -e "$work/piped" ]; then passed=$((passed + 1)); else failed=$((failed + 1)); echo 'a line through a pipe'; fi
: > "$work/piped"
wait
# and so is the line of a file that is checked, while the next one stays open
rm "$work/piped"
{ for _ in $(seq 100); do [ -e "$work/piped" ] && break; sleep 0.1; done; } |
    "$program" check "$one" - | cat > "$work/shown" &
for _ in $(seq 50); do grep -q '^check 1 ' "$work/shown" && break; sleep 0.1; done
if [ "$(cat "$work/shown")" = "check 1 pcap $held whole" ]; then
    passed=$((passed + 1))
else
    failed=$((failed + 1)); echo 'a line of check through a pipe'
fi
: > "$work/piped"
wait
# What is said of the program, and of words that give no job, is what says.txt has: a line of standard error begins with
# '! ' there. No line is longer than a terminal's.
ln -s "$program" "$work/capt"
says() {
    grep '^\$ capt' "$top/checks/says.txt" | while read -r _ _ words; do
        echo "\$ capt${words:+ $words}"
        # shellcheck disable=SC2086 # the words of a command
        "$work/capt" $words > "$work/out" 2> "$work/err" < /dev/null
        echo "status $?"; cat "$work/out"; sed 's/^/! /; s/ $//' "$work/err"
    done
}
says > "$work/said"; same 'what is said' "$work/said" "$top/checks/says.txt"; diff "$top/checks/says.txt" "$work/said" | head -20
# but for clap's list of the subcommands, which is one line
if grep -v '^!   \[subcommands: ' "$work/said" | grep -q '^[^$!].\{80\}\|^! .\{81\}'; then failed=$((failed + 1)); echo 'what is said: a long line'; else passed=$((passed + 1)); fi
run --help; check 'help' 0 '*' ''; "$program" --help > /dev/full 2> "$work/err"; status=$?; : > "$work/out"; check 'help on a full disk' 1 '' 'fault: write'
run list $'\xff\xfe'; check 'words that are not UTF-8' 2 '' "error: a word of the command line isn't UTF-8

  tip: to read a file of such a name, use 'capt list - < FILE'

Usage: capt <COMMAND>

For more information, try '--help'."
"$program" list "$work/one.pcap" > /dev/full 2> "$work/err"; status=$?; : > "$work/out"
check 'a full disk' 1 '' 'fault: write'
{ "$program" list "$work/one.pcap" 2> "$work/err"; echo $? > "$work/status"; } | true
sleep 0.2; for _ in 1 2 3; do { sleep 0.3; "$program" list "$work/one.pcap" 2> "$work/err"; echo $? > "$work/status"; } | :; done
status=$(cat "$work/status"); : > "$work/out"; check 'a closed pipe' 1 '' 'fault: write'
for _ in 1 2 3; do { sleep 0.3; "$program" list --explain "$work/one.pcap" 2> "$work/err"; echo $? > "$work/status"; } | :; done
status=$(cat "$work/status"); check 'a closed pipe, explained' 1 '' 'fault: write
  standard output: Broken pipe (os error 32)'

# completed WANTED WORD..: what the last of the words of a line is completed to; bash splits them at `=`
completed() {
    local want=$1
    shift
    # shellcheck disable=SC2016 # of the bash that completes
    found=$(bash -c 'source "$0"; COMP_WORDS=("$@"); COMP_CWORD=$(($# - 1)); _capt; echo "${COMPREPLY[*]}"' "$top/completions/capt.bash" "$@")
    if [ "$found" = "$want" ]; then passed=$((passed + 1)); else failed=$((failed + 1)); echo "completed $*: $found"; fi
}
completed big capt merge --order = b
completed 'big little' capt merge --order =
completed 'pcap pcapng' capt convert --to = p
completed 'micro nano' capt merge --unit =
completed '--unit' capt join --un
completed little capt join --order l
completed merge capt help m
completed '--explain' capt list --e
completed '--output' capt merge --ou
completed '--share-interfaces' capt merge --s
completed '--json' capt info --j
completed '--json' capt diff --j
completed 'diff digest' capt help d
completed '--json' capt digest --j
completed check capt help ch
completed '--json' capt check --j
completed '--names' capt check --n
completed '' capt info --n
completed '--class' capt list --c
completed '--digest' capt check --d
completed '--files0-from' capt digest --f
completed '--data' capt list --da
completed '--data' capt diff --da
completed '--ignore' capt diff --i
completed 'time' capt diff --ignore t
completed '' capt list --json --data 1
completed '--time --top' capt report --t
completed '--top' capt report --to
completed '' capt report --top 1
completed '--time' capt info --t
completed '--time' capt check --t
completed 'exact decimal utc' capt list --time ''
completed 'decimal' capt diff --time = d
completed '' capt blocks --t
completed '' capt digest --t
completed '--skip-refused' capt info --s
completed '--skip-refused' capt report --s
completed '--ipv6' capt report --i
completed '--ipv6' capt list --i
completed '--ignore' capt diff --i

echo "$passed passed, $failed failed"
[ "$failed" = 0 ]
