#!/usr/bin/env bash
# Merging in rounds: 70 captures of both formats, merged by examples/rounds.sh in rounds of 32 and put in order by a
# plain sort outside, are the same file, byte for byte. The captures are random, by a fixed seed: micro- and nanoseconds,
# clocks that run back, equal times in different forms, several interfaces, files without packets. Then what the script
# promises beside: no FILE is written over, OUT is whole or as it was, and each line names the capture that is meant.
#
# Use: checks/rounds.sh [PROGRAM]
set -u
top=$(cd "$(dirname "$0")/.." && pwd)
program=${1:-$top/crates/capt/out/capt}
work=$(mktemp -d)
trap 'rm -rf "$work"' EXIT

python3 - "$work" <<'PY'
import random, struct, sys
from fractions import Fraction

work = sys.argv[1]
random.seed(70)

def block(kind, body):
    body += bytes(-len(body) % 4)
    total = struct.pack("<I", 12 + len(body))
    return struct.pack("<I", kind) + total + body + total

SECTION = block(0x0A0D0D0A, struct.pack("<IHHq", 0x1A2B3C4D, 1, 0, -1))

def interface(link, snaplen, code, offset):
    """An interface in the written form: its resolution, and its offset if that isn't 0."""
    options = struct.pack("<HHBxxx", 9, 1, code)
    if offset:
        options += struct.pack("<HHq", 14, 8, offset)
    return block(1, struct.pack("<HHI", link, 0, snaplen) + options + bytes(4))

def packet(number, units, original, frame):
    head = struct.pack("<IIIII", number, units >> 32, units & 0xFFFF_FFFF, len(frame), original)
    return block(6, head + frame)

def second(code):
    return 2 ** (code - 128) if code >= 128 else 10 ** code

def capture(number):
    """A capture's bytes, and its packets: the interface's place and form, units, original length, frame."""
    count = random.choice([0, 1, 3, 40])
    if number % 2:
        code = random.choice([6, 9])
        snaplen = random.choice([96, 65_535])
        magic = {6: 0xA1B2C3D4, 9: 0xA1B23C4D}[code]
        parts = [struct.pack("<IHHIIII", magic, 2, 4, 0, 0, snaplen, 1)]
        interfaces = [(1, snaplen, code, 0)]
    else:
        interfaces = [
            (random.choice([1, 101]), 0, random.choice([1, 6, 9, 138]), random.choice([0, 0, -3, 5]))
            for _ in range(random.choice([1, 2, 5]))
        ]
        parts = [SECTION] + [interface(*given) for given in interfaces]
    packets = []
    for _ in range(count):
        place = random.randrange(len(interfaces))
        code, offset = interfaces[place][2:]
        # halves of a second, so that times of different forms meet
        units = (random.randrange(20, 60) - 2 * offset) * second(code) // 2
        frame = random.randbytes(random.randrange(9))
        original = len(frame) + random.choice([0, 0, 7])
        packets.append((place, interfaces[place], units, original, frame))
        if number % 2:
            parts.append(struct.pack("<IIII", units // second(code), units % second(code), len(frame), original) + frame)
        else:
            parts.append(packet(place, units, original, frame))
    return b"".join(parts), packets

listed = []
for number in range(70):
    data, packets = capture(number)
    with open(f"{work}/{number:02}", "wb") as out:
        out.write(data)
    clock = None
    for place, (instance, form, units, original, frame) in enumerate(packets):
        time = form[3] + Fraction(units, second(form[2]))
        clock = time if clock is None else max(clock, time)
        listed.append((clock, number, place, instance, form, units, original, frame))
listed.sort(key=lambda row: row[:3])
numbers, parts = {}, [SECTION]
for clock, number, place, instance, form, units, original, frame in listed:
    if (number, instance) not in numbers:
        numbers[number, instance] = len(numbers)
        parts.append(interface(*form))
    parts.append(packet(numbers[number, instance], units, original, frame))
with open(f"{work}/sorted", "wb") as out:
    out.write(b"".join(parts))
# the same, but that interfaces of one form are one
numbers, parts = {}, [SECTION]
for clock, number, place, instance, form, units, original, frame in listed:
    if form not in numbers:
        numbers[form] = len(numbers)
        parts.append(interface(*form))
    parts.append(packet(numbers[form], units, original, frame))
with open(f"{work}/shared", "wb") as out:
    out.write(b"".join(parts))
PY

passed=0
failed=0
cd "$work" || exit 1
mkdir tmp bin
export TMPDIR=$work/tmp
# rounds WORD..: a run of the script, with its status in $status, and what it says in `said`
rounds() {
    CAPT=$program "$top/examples/rounds.sh" "$@" > said 2>&1
    status=$?
}
# holds NAME CONDITION..: counts a check
holds() {
    local name=$1
    shift
    if "$@"; then passed=$((passed + 1)); else failed=$((failed + 1)); echo "$name: status $status"; head -c 400 said; fi
}
# says NAME STATUS TEXT: the status, and all that was said; and nothing is left of the work
says() {
    # shellcheck disable=SC2329 # called by holds
    is_so() { [ "$status" = "$2" ] && [ "$(cat said)" = "$3" ] && [ -z "$(ls tmp)" ] && ! compgen -G '*.??????/' > /dev/null; }
    holds "$1" is_so "$@"
}
# same NAME FILE FILE: they have the same bytes
same() { holds "$1, its bytes" cmp -s "$2" "$3"; }
all=([0-9][0-9])

for jobs in 1 4; do
    JOBS=$jobs rounds -o out "${all[@]}"
    says "70 captures, $jobs at once" 0 ''
    same "70 captures, $jobs at once" out sorted
done
rounds --share-interfaces -o out "${all[@]}"; says '70 captures, shared interfaces' 0 ''
same '70 captures, shared interfaces' out shared
"$program" merge --share-interfaces -o out sorted; same 'shared interfaces of one capture' out shared
rm out; rounds -o out "${all[@]}"
chmod 0640 out; rounds -o out "${all[@]}"; says 'over an older OUT' 0 ''; same 'over an older OUT' out sorted
holds 'the mode of an older OUT' [ "$(stat -c %a out)" = 640 ]

# OUT that is a FILE, under whatever name, is as it was
cp sorted kept; mkdir folder; ln -s ../sorted folder/soft; ln sorted hard
for name in sorted ./sorted "$work/sorted" folder/../sorted folder/soft hard; do
    for captures in '' "${all[*]}"; do
        # shellcheck disable=SC2086 # numbers
        rounds -o "$name" $captures sorted
        says "into $name" 2 "fault: output
  OUT is file $(wc -w <<< "$captures sorted"): sorted"
        same "into $name" sorted kept
    done
done
rounds -o folder/soft "${all[@]}"; says 'through a link' 0 ''; holds 'a link stays one' [ -L folder/soft ]

# a refused file is told by its number and its name, and OUT is as it was, or isn't there
head -c 20 01 > 'cut'; long=$(printf 'a%.0s' $(seq 200)).pcapng; cp 00 "$long"
echo old > older
for out in older none; do
    rounds -o "$out" "${all[@]:0:37}" cut "${all[@]:37}"
    says "a cut file, into $out" 1 'refused: file 38 offset 0 rule 3 cut
  cut'
done
rounds -o none cut "${all[@]}" cut; says 'two cut files' 1 'refused: file 1 offset 0 rule 3 cut
  cut
refused: file 72 offset 0 rule 3 cut
  cut'
rounds -o none 00 cut; says 'a cut file of two' 1 'refused: file 2 offset 0 rule 3 cut
  cut'
rounds -o none "${all[@]}" folder; says 'a folder' 1 'fault: read file 71 offset 0
  folder'
rounds -o none "${all[@]}" missing; says 'a missing file' 1 'fault: open file 71
  missing'
holds 'OUT after a refusal' [ "$(cat older)" = old ]
holds 'no OUT after a refusal' [ ! -e none ]
# 1,025 interfaces: each file has one, or the results of the files 1 to 512 and 513 to 1,025 have
for one in 1 2; do
    python3 - "$one" > "many$one" <<'PY'
import struct, sys

count = 512 if sys.argv[1] == "1" else 513
block = lambda kind, body: struct.pack("<II", kind, 12 + len(body)) + body + struct.pack("<I", 12 + len(body))
parts = [block(0x0A0D0D0A, struct.pack("<IHHq", 0x1A2B3C4D, 1, 0, -1)), *[block(1, struct.pack("<HHI", 1, 0, 0))] * count]
parts += [block(6, struct.pack("<IIIII", n, 0, n, 0, 0)) for n in range(count)]
sys.stdout.buffer.write(b"".join(parts))
PY
done
printf '\xd4\xc3\xb2\xa1\x02\0\x04\0\0\0\0\0\0\0\0\0\0\0\x04\0\x01\0\0\0' > empty
mapfile -t empty < <(yes empty | head -n 31)
rounds -o none many1 "${empty[@]}" many2 "${empty[@]}" empty
holds '1,025 interfaces' grep -qx 'refused: file [12] offset [0-9]* rule 13 interface-limit, of the merge of files \(1 to 32\|33 to 64\)' said
holds 'the word that shares interfaces' grep -qx 'rounds.sh: --share-interfaces writes equal interfaces as one' said
rounds --share-interfaces -o out many1 "${empty[@]}" many2 "${empty[@]}" empty; says '1,025 interfaces, shared' 0 ''
"$program" merge --share-interfaces -o wanted many1 many2; same '1,025 interfaces, shared' out wanted
holds 'interfaces of 1,025 that are shared' [ "$("$program" blocks out | grep -c ' kind 00000001 ')" = 1 ]
rounds --share-interfaces --to pcap -o out many1 "${empty[@]}" many2 "${empty[@]}" empty; says '1,025 interfaces, to pcap' 0 ''
"$program" merge --to pcap -o wanted many1 many2
same '1,025 interfaces, to pcap' out wanted

# options go on to each merge; names of any kind are names
rounds --allow-cut --order big -o out "${all[@]}" one.pcap; says 'a missing file with options' 1 'fault: open file 71
  one.pcap'
"$program" convert --to pcapng -o whole sorted; head -c -1 whole > -cut; "$program" merge --allow-cut --order big -o wanted -- -cut
for words in '--allow-cut --order big -o out --' '-oout --order=big --allow-cut --' '--output=out --order=big --allow-cut --'; do
    # shellcheck disable=SC2086 # words of a command line
    rounds $words -cut; says "a cut file with $words" 0 ''; same "a cut file with $words" out wanted
    # shellcheck disable=SC2086 # words of a command line
    rounds $words "${empty[@]}" "${empty[@]}" -cut; says "a cut file in rounds with $words" 0 ''; same "a cut file in rounds with $words" out wanted
done
rounds -o out "${empty[@]}" "${empty[@]}" "$long" "${all[@]:1}"; says 'a long name' 0 ''
"$program" merge -o wanted sorted
mapfile -t most < <(yes empty | head -n 1024)
rounds -o out "${most[@]}" sorted; says '1,025 captures' 0 ''; same '1,025 captures' out wanted

# OUT as the first word, and in the other format
rm -f bare; rounds bare "${all[@]}"; says 'OUT as a bare word' 0 ''; same 'OUT as a bare word' bare sorted
mapfile -t alike < <(yes one.pcap | head -n 40)
{ cat empty; printf '\x01\0\0\0\x60\xe3\x16\0\x04\0\0\0\x04\0\0\0\x01\x02\x03\x04'; } > one.pcap
rounds -o all.pcapng "${alike[@]}"; says '40 captures of one link' 0 ''
for words in '--to pcap' '--to=pcap --order big' '--to pcapng' '--to pcap --unit nano' '--unit=micro --to=pcap'; do
    # shellcheck disable=SC2086 # words of a command line
    rounds $words -o out "${alike[@]}"; says "40 captures $words" 0 ''
    # shellcheck disable=SC2086 # words of a command line
    "$program" convert $words -o wanted all.pcapng; same "40 captures $words" out wanted
done

# what is wrong with a command line
# shellcheck disable=SC2016 # as it is printed
usage='Usage: rounds.sh [--allow-cut] [--order ORDER] [--to FORMAT] [--unit UNIT] [--share-interfaces] -o OUT FILE...
It takes room in $TMPDIR: see rounds.sh --help.'
rounds; says 'no words' 2 "rounds.sh: OUT and FILE are missing
$usage"
rounds -o out; says 'no FILE' 2 "rounds.sh: FILE is missing
$usage"
rounds --frob -o out 00; says 'a wrong option' 2 "rounds.sh: unknown option --frob
$usage"
rounds --order middle -o out 00; says 'a wrong order' 2 "rounds.sh: --order is big or little
$usage"
rounds --to text -o out 00; says 'a wrong format' 2 "rounds.sh: --to is pcap or pcapng
$usage"
rounds --unit milli --to pcap -o out 00; says 'a wrong unit' 2 "rounds.sh: --unit is micro or nano
$usage"
rounds --unit nano -o out 00; says 'a unit of pcapng' 2 "rounds.sh: --unit goes with --to pcap
$usage"
rounds 00 -o; says 'no output' 2 "rounds.sh: 00 exists: -o OUT names the output
$usage"
rounds -o; says 'no word after -o' 2 "rounds.sh: -o wants OUT
$usage"
rounds 00 01 02; says 'captures and no OUT' 2 "rounds.sh: 00 exists: -o OUT names the output
$usage"
same 'a capture in the place of OUT' 00 "$long"
rounds --order; says 'no order' 2 "rounds.sh: --order is big or little
$usage"
rounds -o out 00 -; says 'standard input' 2 "rounds.sh: FILE is a file, not standard input
$usage"
rounds -o - 00; says 'standard output' 2 "rounds.sh: OUT is a file, not standard output
$usage"
CAPT=/nowhere/capt "$top/examples/rounds.sh" -o out 00 > said 2>&1; status=$?; says 'no program' 2 "rounds.sh: no program /nowhere/capt: set CAPT
$usage"
JOBS=some rounds -o out 00; says 'a wrong JOBS' 2 "rounds.sh: JOBS is a number from 1 on
$usage"
rounds -o /dev/null 00; says 'a device' 1 "fault: create output
  /dev/null: it is write-protected, or no file"
rounds -o folder 00; says 'a folder as OUT' 1 "fault: create output
  folder: it is write-protected, or no file"
rounds --help; holds 'help says the room' grep -q 'TMPDIR.*pcapng' said

# a run that is ended ends its merges, and leaves nothing
mkfifo slow
CAPT=$program "$top/examples/rounds.sh" -o ended "${all[@]}" slow > said 2>&1 &
run=$!
for _ in $(seq 100); do if [ -n "$(pgrep -P "$run")" ] && compgen -G 'tmp/*/*.told' > /dev/null; then break; fi; sleep 0.05; done
merges=$(pgrep -P "$run")
kill "$run"; wait "$run" 2> /dev/null; status=$?
for _ in $(seq 100); do if [ -z "$(ps -o pid= -p "${merges//$'\n'/,}")" ]; then break; fi; sleep 0.05; done
holds 'merges of a run that was ended' [ -z "$(ps -o pid= -p "${merges//$'\n'/,}")" ]
says 'a run that was ended' 143 ''

# where $TMPDIR may have too little room, a line says how much is wanted
printf '#!/bin/sh\necho Filesystem\necho none 9 9 0 0%%%% /\n' > bin/df; chmod +x bin/df
PATH=$work/bin:$PATH rounds -o out "${all[@]}"; says 'little room' 0 "rounds.sh: 70 captures take 0 MiB or more in $work/tmp, which has 0"
same 'little room' out sorted
echo "$passed passed, $failed failed"
[ "$failed" = 0 ]
