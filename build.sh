#!/usr/bin/env bash
# Proves every crate that the program stands on, from nothing, builds it as ./capt, and shows its help. The status is 0 if all
# was proved.
#
# Use: ./build.sh           (the program)
#      ./build.sh lib       (the library for C instead: lib/ has libcapt.a, libcapt.so, capt.h, capt_file.h and capt.pc)
#
# Each crate is proved by one `rattle build`, over the statements of those below it, once they are built: as many crates at once as
# there are processors, and a crate by more processes than one if fewer crates can be proved than processors are idle. What `rt ci`
# does beside it is the gate's: the tests, the must-fail edits, a second compiler.
set -euo pipefail
cd "$(dirname "$0")"
case ${1-} in
    '') program=capt ;;
    lib) program=capt_c ;;
    *) sed -n 's/^# Use: //p; s/^#      //p' "${0##*/}" >&2; exit 2 ;;
esac
# the crates for which others wait longest: they, and those that they stand on, begin before others that could
first='cap_source cap_blocks cap_line cap_write'
# the longest of these, and how many processes they get even if no processor is idle; and the most that a crate gets
declare -A least=([cap_talks]=2 [cap_write]=3)
most=4
kit=$(rt doc)
kit=${kit%/*}

# a line of crates.txt names a crate and its libraries, some of which are crates here
declare -A libraries state
while IFS=: read -r crate names; do
    if [[ $crate == cap* ]]; then libraries[${crate% staticlib}]=$names; fi
done < crates.txt

# want CRATE: it is to be proved, and so is all that it stands on
order=()
want() {
    local library
    if [ -z "${libraries[$1]+here}" ] || [ -n "${state[$1]-}" ]; then return; fi
    state[$1]=waiting
    for library in ${libraries[$1]}; do want "$library"; done
    order+=("$1")
}
for crate in $first $program; do want "$crate"; done

# can_begin CRATE: each crate that it stands on is proved
can_begin() {
    local library
    for library in ${libraries[$1]}; do
        if [ "${state[$library]-proved}" != proved ]; then return 1; fi
    done
}

# begin CRATE PROCESSES: begins its proof, which tells its end
begin() {
    local crate=$1 library words=()
    for library in std ${libraries[$crate]}; do
        if [ -d "crates/$library" ]; then
            words+=(--extern "$library=$room/$library.rlib")
        else
            words+=(--extern "$library=$kit/rlibs/$library.rlib")
        fi
    done
    words+=(-L "dependency=$room" -L "dependency=$kit/rlibs" --links "$crate=" --jobs "$2")
    words+=(--antt-project "$kit/rattle/logic/antt-project.json" --logic-built "$kit/logic_built")
    case $crate in
        capt) words+=(src/main.rt --toolchain "$kit/toolchain" -o "$room/$crate.o") ;;
        capt_c) words+=(src/lib.rt --crate-type staticlib --toolchain "$kit/toolchain" -o "$room/lib$crate.a") ;;
        *) words+=(src/lib.rt --statements -o "$room/$crate.rlib") ;;
    esac
    (
        cd "crates/$crate"
        status=0
        SECONDS=0
        "$kit/bin/rattle" build --crate-name "$crate" "${words[@]}" < /dev/null > "$room/$crate.said" 2>&1 || status=$?
        echo "$crate $2 $SECONDS $status" >&"$ended"
    ) &
    running[$crate]=$!
    state[$crate]=running
    idle=$((idle - $2))
}

# each proof is a process group of its own, so that none goes on if this ends
set -m
room=$(mktemp -d)
declare -A running=()
stop() {
    local group
    disown -a
    for group in "${running[@]}"; do kill -- "-$group" 2> /dev/null || true; done
    rm -rf "$room"
}
trap stop EXIT
mkfifo "$room/ended"
exec {ended}<> "$room/ended"

processors=$(nproc)
idle=$processors
until [ "${state[$program]}" = proved ]; do
    ready=()
    for crate in "${order[@]}"; do
        if [ "${state[$crate]}" = waiting ] && can_begin "$crate"; then ready+=("$crate"); fi
    done
    for ((at = 0; at < ${#ready[@]} && ${#running[@]} < processors; at++)); do
        crate=${ready[at]}
        wanted=${least[$crate]-1}
        spare=$((idle - (${#ready[@]} - at - 1)))
        begin "$crate" $((spare < wanted ? wanted : spare > most ? most : spare))
    done
    read -r crate processes seconds status <&"$ended"
    unset "running[$crate]"
    if [ "$status" != 0 ]; then
        cat "$room/$crate.said"
        echo "$crate: not proved"
        exit 1
    fi
    echo "$crate: proved, $(grep -o 'functions=[0-9]*' "$room/$crate.said" | cut -d= -f2) functions, $seconds seconds"
    state[$crate]=proved
    idle=$((idle + processes))
done

if [ "$program" = capt_c ]; then
    crates/capt_c/link.sh "$room/libcapt_c.a" lib
    ls lib
    exit
fi
# the object stays beside the program, for a program that is linked otherwise (packaging/make.sh)
mkdir -p crates/capt/out
mv "$room/capt.o" crates/capt/out/capt.o
"$kit/bin/rattle-link" --target x86_64-unknown-linux-gnu --toolchain "$kit/toolchain" -o crates/capt/out/capt \
    crates/capt/out/capt.o "$kit/c/libos_c.a" "$kit/c/liblibc_c.a"
ln -sf crates/capt/out/capt capt
./capt --help
