#!/usr/bin/env bash
# Whether what packaging/make.sh packs is the same bytes twice, and does what the program does: packs it twice, under another umask and
# in another folder, compares, runs the packed programs over examples/, and builds and runs LIBRARY's program for C by
# what the packages of the library install, and that for Python by the wheel.
#
# Use: packaging/check.sh [PROGRAM [LIB]]     (as packaging/make.sh, with CMake if it is there; it isn't in the gate)
set -euo pipefail
program=$(realpath "${1:-$(dirname "$0")/../crates/capt/out/capt}")
lib=$(realpath "${2:-$(dirname "$0")/../lib}")
cd "$(dirname "$0")/.."
work=$(mktemp -d)
trap 'rm -rf "$work"' EXIT
packaging/make.sh "$work/once" "$program" "$lib" > /dev/null
(umask 077; TZ=Asia/Tokyo packaging/make.sh "$work/twice/further" "$program" "$lib" > /dev/null)
passed=0
failed=0
# judged NAME COMMAND..: counts whether a command succeeds
judged() {
    local name=$1
    shift
    if "$@"; then passed=$((passed + 1)); else failed=$((failed + 1)); echo "$name"; fi
}
judged 'not the same bytes twice' diff -r "$work/once" "$work/twice/further"
sums() { (cd "$work/once" && sha256sum --quiet -c SHA256SUMS); }
judged 'other sums' sums
version=$(basename "$work"/once/capt_*.deb | cut -d_ -f2)
mkdir "$work/tar" "$work/deb"
tar -C "$work/tar" --strip-components=1 -xzf "$work"/once/*.tar.gz
dpkg-deb -x "$work"/once/capt_*.deb "$work/deb"
judged 'the tarball and the package have other files' diff <(cd "$work/tar" && find . | sort) <(cd "$work/deb/usr" && find . | sort)
cd examples
for packed in "$work/tar/bin/capt" "$work/deb/usr/bin/capt"; do
    for words in --version 'report monday.pcap tuesday.pcapng' 'info cut.pcap' 'list --explain cut.pcap' 'blocks tuesday.pcapng' 'diff monday.pcap trace.pcap' \
        'merge -o - monday.pcap tuesday.pcapng' 'convert --to pcap -o - tuesday.pcapng' 'join -o - tuesday.pcapng' 'report missing'; do
        # shellcheck disable=SC2086  # the words are several
        judged "$packed $words: another answer" diff <("$program" $words 2>&1; echo $?) <("$packed" $words 2>&1; echo $?)
    done
done
# what is linked statically has no loader to start it
is_static() { ! LC_ALL=C readelf -l "$1" | grep -q INTERP; }
judged 'the program of the tarball needs a library' is_static "$work/tar/bin/capt"

# the programs of LIBRARY, by what is installed
system=$work/system
for package in "$work"/once/libcapt*.deb; do dpkg-deb -x "$package" "$system"; done
place=$system/usr/lib/x86_64-linux-gnu
mkdir "$work/c"
# the first piece of a language: ```c and what follows
piece() { sed -n "/^\`\`\`$1\$/,/^\`\`\`\$/{/^\`\`\`/!p}" ../docs/LIBRARY.md | sed '/^}$/q'; }
piece c > "$work/c/walk.c"
flags() { PKG_CONFIG_SYSROOT_DIR=$system PKG_CONFIG_LIBDIR=$place/pkgconfig pkg-config --cflags --libs capt; }
# shellcheck disable=SC2046  # the flags are several words
judged 'by pkg-config' "${CC:-cc}" -o "$work/c/by-pkg-config" "$work/c/walk.c" $(flags)
cat > "$work/c/CMakeLists.txt" << END
cmake_minimum_required(VERSION 3.13)
project(walk C)
find_package(capt ${version%%.*} CONFIG REQUIRED)
add_executable(by-cmake walk.c)
target_link_libraries(by-cmake capt::capt)
add_executable(by-cmake-static walk.c)
target_link_libraries(by-cmake-static capt::static)
END
built=(by-pkg-config)
if command -v cmake > /dev/null; then
    by_cmake() { cmake -S "$work/c" -B "$work/c" -DCMAKE_PREFIX_PATH="$system/usr" && cmake --build "$work/c"; }
    judged 'by CMake' by_cmake > "$work/c/log"
    built+=(by-cmake by-cmake-static)
fi
walked=$'1 link 1 bytes 60\n2 link 1 bytes 60\n3 link 1 bytes 60'
# says WANTED COMMAND..: whether a command prints that
says() { [ "$("${@:2}")" = "$1" ]; }
for walk in "${built[@]}"; do
    judged "$walk" says "$walked" env LD_LIBRARY_PATH="$place" "$work/c/$walk" monday.pcap
done
judged 'the soname' says 'libcapt.so.1' basename "$(readlink -f "$place/libcapt.so")"
# the wheel has the library: nothing else says where it is
judged 'the wheel' python3 -m pip install -q --no-index --target "$work/site" "$work"/once/*.whl
cat > "$work/walk.py" << END
import sys, capt
for packet in capt.open(sys.argv[1]):
    print(packet.seconds, "link", packet.link, "bytes", len(packet.data))
END
judged 'by the wheel' says "$walked" env -u CAPT_LIBRARY PYTHONPATH="$work/site" python3 "$work/walk.py" monday.pcap
echo "$passed passed, $failed failed"
[ "$failed" = 0 ]
