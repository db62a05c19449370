#!/usr/bin/env bash
# Packs what was built, and writes the SHA-256 sums of the packages:
#
# - the program, with manual, completions, pages, and the lists of definitions that checks/definitions.py and
#   checks/trusted.py print: the Debian package capt, and a tarball whose program is linked statically and needs no C
#   library;
# - the library for C: the Debian packages libcapt1, and libcapt-dev with headers, libcapt.a, and files for pkg-config
#   and CMake;
# - the library for Python: a wheel with libcapt.so in it.
#
# The same inputs give the same bytes each time: every file has the date of the last commit, or of SOURCE_DATE_EPOCH.
# packaging/check.sh tries that.
#
# Use: packaging/make.sh FOLDER [PROGRAM [LIB]]     (after ./build.sh or `rt run` in crates/capt, which leave PROGRAM and
#                                                    PROGRAM.o, and `./build.sh lib`, which leaves LIB; without LIB the
#                                                    libraries are left out, with a word. It wants the kit's `rt`, git,
#                                                    tar, gzip, strip, dpkg-deb, binutils, a C compiler with a static C
#                                                    library, and a Python 3 with setuptools, wheel and pip)
set -euo pipefail
folder=$(realpath -m "$1")
program=$(realpath "${2:-$(dirname "$0")/../crates/capt/out/capt}")
lib=$(realpath -m "${3:-$(dirname "$0")/../lib}")
cd "$(dirname "$0")/.."
told=$(sed -n 's/^pub const VERSION: &str = "\(.*\)";$/\1/p' crates/cap_line/src/texts.rt)
version=${told%% *}
if [ "$("$program" --version)" != "capt $told" ]; then
    echo "$program isn't capt $told" >&2
    exit 1
fi
SOURCE_DATE_EPOCH=${SOURCE_DATE_EPOCH:-$(git log -1 --format=%ct)}
export SOURCE_DATE_EPOCH
kit=$(rt doc)
kit=${kit%/*}
work=$(mktemp -d)
trap 'rm -rf "$work"' EXIT
umask 022
mkdir -p "$folder"

# install_below PROGRAM PREFIX: what is installed, below a prefix
install_below() {
    install -Dm755 -s "$1" "$2/bin/capt"
    install -Dm644 -t "$2/share/man/man1" man/capt.1
    gzip -9n "$2/share/man/man1/capt.1"
    install -Dm644 completions/capt.bash "$2/share/bash-completion/completions/capt"
    install -Dm644 -t "$2/share/fish/vendor_completions.d" completions/capt.fish
    install -Dm644 -t "$2/share/zsh/vendor-completions" completions/_capt
    install -Dm644 -t "$2/share/doc/capt" README.md CHANGELOG.md SECURITY.md LICENSE
    install -Dm644 -t "$2/share/doc/capt/docs" docs/{GUIDE,RULES,RECIPES,ARCHIVE,VERIFYING,CLAIMS}.md
    checks/definitions.py > "$2/share/doc/capt/docs/DEFINITIONS.md"
    checks/trusted.py --page > "$2/share/doc/capt/docs/TRUSTED.md"
}
dated() { find "$1" -exec touch -hd "@$SOURCE_DATE_EPOCH" {} +; }

# the same object as the program's, with the C library in it
"${CC:-cc}" -static -Wl,--build-id=none -o "$work/static" "$program.o" "$kit/c/libos_c.a" "$kit/c/liblibc_c.a"
name=capt-$version-x86_64-linux
install_below "$work/static" "$work/$name"
dated "$work/$name"
tar --sort=name --owner=0 --group=0 --numeric-owner --mtime="@$SOURCE_DATE_EPOCH" -C "$work" -cf - "$name" | gzip -9n > "$folder/$name.tar.gz"

# glibc_of FILE: the version of the C library that a file needs, as 2.34
glibc_of() {
    LC_ALL=C objdump -T "$1" | grep -o 'GLIBC_2\.[0-9]*' | sort -uV | tail -1 | cut -d_ -f2
}

# pack NAME SECTION DEPENDS DESCRIPTION: the Debian package of what was put below $work/NAME/usr
packages=("$name.tar.gz")
pack() {
    local package=$1_${version}_amd64.deb below=$work/$1
    mkdir "$below/DEBIAN"
    cat > "$below/DEBIAN/control" << END
Package: $1
Version: $version
Architecture: amd64
Maintainer: the maintainers of capt
Depends: $3
Section: $2
Priority: optional
Installed-Size: $(du -sk --apparent-size "$below/usr" | cut -f1)
Description: $4
END
    # a shared library is found once the loader's cache has it
    if compgen -G "$below/usr/lib/*/libcapt.so.*" > /dev/null; then
        echo 'activate-noawait ldconfig' > "$below/DEBIAN/triggers"
    fi
    dated "$below"
    dpkg-deb --root-owner-group -Zgzip -b "$below" "$folder/$package" > /dev/null
    packages+=("$package")
}

install_below "$program" "$work/capt/usr"
pack capt net "libc6 (>= $(glibc_of "$program"))" "packet captures, reported on, converted, merged and joined
 Reads pcap 2.4 and pcapng 1.0 and 1.2. What it prints and writes is proved
 to be what the two formats' grammars and its definitions give."

# install_library: libcapt1 and libcapt-dev, where Debian has a library and its headers
install_library() {
    local place=usr/lib/x86_64-linux-gnu
    install -Dm644 -s -t "$work/libcapt1/$place" "$lib/libcapt.so.1"
    install -Dm644 -t "$work/libcapt1/usr/share/doc/libcapt1" LICENSE
    install -Dm644 -t "$work/libcapt-dev/usr/include" "$lib/capt.h" "$lib/capt_file.h"
    install -Dm644 -t "$work/libcapt-dev/$place" "$lib/libcapt.a"
    ln -s libcapt.so.1 "$work/libcapt-dev/$place/libcapt.so"
    install -Dm644 -t "$work/libcapt-dev/$place/cmake/capt" "$lib"/cmake/capt/*.cmake
    install -Dm644 -t "$work/libcapt-dev/$place/pkgconfig" "$lib/capt.pc"
    sed -i "s,^prefix=.*,prefix=/usr,; s,^libdir=.*,libdir=\${prefix}/lib/x86_64-linux-gnu," \
        "$work/libcapt-dev/$place/pkgconfig/capt.pc"
    install -Dm644 -t "$work/libcapt-dev/usr/share/doc/libcapt-dev" LICENSE docs/LIBRARY.md docs/RULES.md
}

# make_wheel: the wheel, by the first Python that has what it takes
make_wheel() {
    local python
    for python in python3 /usr/bin/python3; do
        if "$python" -W ignore -c 'import setuptools, wheel, pip' 2> "$work/no"; then break; fi
    done
    cp -r bindings/python "$work/python"
    find "$work/python" -name __pycache__ -prune -exec rm -r {} +
    install -m644 -s -T "$lib/libcapt.so.1" "$work/python/capt/libcapt.so"
    install -m644 -t "$work/python" packaging/setup.py
    dated "$work/python"
    CAPT_PLATFORM=manylinux_$(glibc_of "$lib/libcapt.so.1" | tr . _)_x86_64 \
        "$python" -m pip wheel -q --no-index --no-build-isolation --no-deps -w "$work/wheel" "$work/python"
    packages+=("$(cd "$work/wheel" && echo *.whl)")
    install -m644 -t "$folder" "$work"/wheel/*.whl
}

if [ -d "$lib" ]; then
    install_library
    pack libcapt1 libs "libc6 (>= $(glibc_of "$lib/libcapt.so.1"))" "packet captures, read and reported by proved code
 The library that a program is linked with which reads captures by capt."
    pack libcapt-dev libdevel "libcapt1 (= $version)" "packet captures, read and reported by proved code: headers
 The headers, the static library, and files for pkg-config and CMake."
    make_wheel
else
    echo "without $lib, which ./build.sh lib makes, libcapt1, libcapt-dev and the wheel are left out" >&2
fi

cd "$folder"
sha256sum "${packages[@]}" > SHA256SUMS
cat SHA256SUMS
