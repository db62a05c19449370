#!/usr/bin/env bash
# Links the archive that `rt lib` or `build.sh lib` made of this crate as libcapt: puts libcapt.a, libcapt.so, capt.h,
# capt_file.h, and what pkg-config and CMake want, capt.pc and cmake/, into a folder. Only the names that begin with
# capt_ are seen from outside: those of the shared library are listed in capt.map, each under the release that brought
# it.
#
# Use: crates/capt_c/link.sh ARCHIVE FOLDER [PREFIX]     (it wants a C compiler and binutils; PREFIX, for capt.pc, is /usr/local)
set -euo pipefail
here=$(cd "$(dirname "$0")" && pwd)
archive=$1
folder=$2
prefix=${3-/usr/local}
kit=$(rt doc)
kit=${kit%/*}
version=$(sed -n 's/^const VERSION: &str = "\(.*\)";$/\1/p' "$here/src/names.rt")
work=$(mktemp -d)
trap 'rm -rf "$work"' EXIT
mkdir -p "$folder"

# what the kit's code wants of C (memory, and read(2)) goes in with it, under names that nobody else sees
ld -r -o "$work/capt.o" --whole-archive "$archive" --no-whole-archive "$kit/c/libos_c.a" "$kit/c/liblibc_c.a"
objcopy --wildcard --keep-global-symbol='capt_*' "$work/capt.o"
rm -f "$folder/libcapt.a"
ar rcsD "$folder/libcapt.a" "$work/capt.o"
"${CC:-cc}" -shared -o "$folder/libcapt.so.1" "$work/capt.o" -Wl,-soname,libcapt.so.1 \
    -Wl,--version-script,"$here/capt.map" -Wl,-z,relro,-z,now -Wl,--no-undefined
ln -sf libcapt.so.1 "$folder/libcapt.so"
cp "$here/include/capt.h" "$here/include/capt_file.h" "$folder/"
cat > "$folder/capt.pc" << END
prefix=$prefix
libdir=\${prefix}/lib
includedir=\${prefix}/include

Name: capt
Description: packet captures (pcap, pcapng), read and reported by proved code
Version: $version
Libs: -L\${libdir} -lcapt
Cflags: -I\${includedir}
END
install -Dm644 -t "$folder/cmake/capt" "$here/cmake/capt-config.cmake"
cat > "$folder/cmake/capt/capt-config-version.cmake" << END
set(PACKAGE_VERSION "$version")
# as the soname has it: a program that was built for a release runs with later ones of the same first number
if("\${PACKAGE_FIND_VERSION_MAJOR}" STREQUAL "${version%%.*}" AND NOT PACKAGE_VERSION VERSION_LESS PACKAGE_FIND_VERSION)
    set(PACKAGE_VERSION_COMPATIBLE TRUE)
    if(PACKAGE_VERSION VERSION_EQUAL PACKAGE_FIND_VERSION)
        set(PACKAGE_VERSION_EXACT TRUE)
    endif()
endif()
END
