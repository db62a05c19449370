#!/usr/bin/env bash
# Merges any number of captures into one: 32 at a time, in their order, side by side, and then the results, until one
# is left. The bytes are those of a single merge. OUT is refused if it is one of the FILEs, under any name. It is
# written beside itself, in a folder OUT.XXXXXX, and renamed when all is done: after a refusal or a fault it is as it
# was before. Only kill -9 leaves that folder.
#
# Use: rounds.sh [--allow-cut] [--order ORDER] [--to FORMAT] [--unit UNIT] [--share-interfaces] -o OUT FILE...
#
# Without -o the first word is OUT, if there is no such file: rounds.sh *.pcap writes over no capture. CAPT names the program (capt), JOBS how many merges run at once (one for each processor). The status is 0 if all is
# done, 1 after a refusal or a fault, 2 if the command line is invalid. --share-interfaces makes equal interfaces one in
# each merge, except in the last one of --to pcap.
#
# Room: with more than 32 FILEs, all packets stand once in $TMPDIR (/tmp) as pcapng: as many bytes as the FILEs have,
# but up to twice as many for pcap files of small packets. With more than 1,024 FILEs they stand there twice.
set -euo pipefail
capt=${CAPT:-capt}
jobs=${JOBS:-$(nproc)}

# refuse STATUS LINE..: says why on standard error, and ends
refuse() {
    printf '%s\n' "${@:2}" >&2
    exit "$1"
}
# misused WHY: an invalid command line
misused() {
    refuse 2 "rounds.sh: $1" "$(sed -n 's/^# Use: /Usage: /p' "$0")" "It takes room in \$TMPDIR: see rounds.sh --help."
}

cut=()
order=()
to=()
unit=()
share=()
given=
has_out=
while [[ ${1-} == -?* ]]; do
    case $1 in
        --allow-cut) cut=(--allow-cut) ;;
        --order=big | --order=little) order=("$1") ;;
        --order)
            order=("--order=${2-}")
            if [[ ${2-} != big && ${2-} != little ]]; then misused '--order is big or little'; fi
            shift
            ;;
        --to=pcap | --to=pcapng) to=("$1") ;;
        --to)
            to=("--to=${2-}")
            if [[ ${2-} != pcap && ${2-} != pcapng ]]; then misused '--to is pcap or pcapng'; fi
            shift
            ;;
        --unit=micro | --unit=nano) unit=("$1") ;;
        --unit)
            unit=("--unit=${2-}")
            if [[ ${2-} != micro && ${2-} != nano ]]; then misused '--unit is micro or nano'; fi
            shift
            ;;
        --share-interfaces) share=(--share-interfaces) ;;
        -o | --output)
            if [ $# = 1 ]; then misused "$1 wants OUT"; fi
            given=$2
            has_out=yes
            shift
            ;;
        --output=*) given=${1#*=}; has_out=yes ;;
        -o*) given=${1#-o}; has_out=yes ;;
        --help) sed -n '2,/^set/s/^# \{0,1\}//p' "$0"; exit ;;
        --) shift; break ;;
        *) misused "unknown option $1" ;;
    esac
    shift
done
if [ ! "$has_out" ]; then
    if [ $# = 0 ]; then misused 'OUT and FILE are missing'; fi
    if [ -e "$1" ]; then misused "$1 exists: -o OUT names the output"; fi
    given=$1
    shift
fi
if [ $# = 0 ]; then misused 'FILE is missing'; fi
if [ "${#unit[@]}" = 1 ] && [ "${to[*]}" != --to=pcap ]; then misused '--unit goes with --to pcap'; fi
if [ "$given" = - ]; then misused 'OUT is a file, not standard output'; fi
if ! command -v "$capt" > /dev/null; then misused "no program $capt: set CAPT"; fi
if [[ ! $jobs =~ ^[1-9][0-9]*$ ]]; then misused 'JOBS is a number from 1 on'; fi
files=("$@")

# before anything is written: each FILE can be read, and none is OUT
number=0
for file in "${files[@]}"; do
    number=$((number + 1))
    if [ "$file" = - ]; then misused 'FILE is a file, not standard input'; fi
    if [ "$file" = "$given" ] || [ "$file" -ef "$given" ]; then
        refuse 2 'fault: output' "  OUT is file $number: $file"
    fi
    if [ ! -r "$file" ]; then refuse 1 "fault: open file $number" "  $file"; fi
done
if [ -e "$given" ] && { [ ! -f "$given" ] || [ ! -w "$given" ]; }; then
    refuse 1 'fault: create output' "  $given: it is write-protected, or no file"
fi
beside=
work=
trap 'kill $(jobs -rp) 2> /dev/null || true; rm -rf -- ${beside:+"$beside"} ${work:+"$work"}' EXIT
if ! out=$(realpath -- "$given") || ! beside=$(mktemp -d -- "$out.XXXXXX"); then refuse 1 'fault: create output'; fi
work=$(mktemp -d)

# the room: at a terminal, and wherever there may be too little
if [ $# -gt 32 ]; then
    needs=$(($(stat -L -c %s -- "${files[@]}" | paste -s -d +) >> 20))
    needs=$((($# > 1024 ? 2 : 1) * needs))
    free=$(($(df -P -k -- "$work" | awk 'END { print $4 }') >> 10))
    if [ -t 2 ] || [ "$free" -le "$needs" ]; then
        echo "rounds.sh: $# captures take $needs MiB or more in ${TMPDIR:-/tmp}, which has $free" >&2
    fi
fi

# explain NAME FIRST: what the merge NAME said, whose first file is the one after FIRST of this round. A capture is
# told by its number in the command line and its name; a result of an earlier round, by the captures in it.
explain() {
    local line number last
    while IFS= read -r line; do
        if [[ $line =~ ^(.*' file ')([0-9]+)(.*)$ ]]; then
            number=$(($2 + BASH_REMATCH[2]))
            line=${BASH_REMATCH[1]}$number${BASH_REMATCH[3]}
            last=$((number * each < total ? number * each : total))
            if [ "$each" = 1 ]; then
                line+=$'\n'"  ${files[number - 1]}"
            else
                line+=", of the merge of files $(((number - 1) * each + 1)) to $last"
            fi
        fi
        printf '%s\n' "$line" >&2
    done < "$1.told"
}

running=()
failed=
# finish: waits for the merge that has run longest
finish() {
    wait "${running[0]}" || failed=yes
    running=("${running[@]:1}")
}
# begin NAME FILE..: begins the merge of the FILEs into NAME.pcapng, once fewer than $jobs run: a pcapng file, unless it
# is the last merge, and --to asks for another. It stands for itself: a cluster's queue may take its place.
begin() {
    if [ "${#running[@]}" -ge "$jobs" ]; then finish; fi
    "$capt" merge "${cut[@]}" "${order[@]}" "${shares[@]}" "${format[@]}" -o "$1.pcapng" -- "${@:2}" < /dev/null 2> "$1.told" &
    running+=($!)
}

total=${#files[@]}
each=1
round=1
while
    merged=()
    format=()
    shares=("${share[@]}")
    if [ "${#files[@]}" -gt 32 ]; then
        name=$work/$round
    else
        name=$beside/all
        format=("${to[@]}" "${unit[@]}")
        # a pcap file has one interface
        if [ "${to[*]}" = --to=pcap ]; then shares=(); fi
    fi
    for ((first = 0; first < ${#files[@]}; first += 32)); do
        begin "$name-$first" "${files[@]:first:32}"
        merged+=("$name-$first.pcapng")
    done
    while [ "${#running[@]}" -gt 0 ]; do finish; done
    if [ "$failed" ]; then
        for ((first = 0; first < ${#files[@]}; first += 32)); do explain "$name-$first" "$first"; done
        if [ "${#share[@]}" = 0 ] && grep -q ' rule 13 interface-limit$' "$name"-*.told; then
            echo 'rounds.sh: --share-interfaces writes equal interfaces as one' >&2
        fi
        exit 1
    fi
    [ "${#files[@]}" -gt 32 ]
do
    if [ "$round" -gt 1 ]; then rm -f -- "${files[@]}"; fi
    files=("${merged[@]}")
    cut=()
    each=$((each * 32))
    round=$((round + 1))
done
if [ -e "$out" ]; then cp --attributes-only --preserve=mode,ownership -- "$out" "${merged[0]}"; fi
mv -f -- "${merged[0]}" "$out"
