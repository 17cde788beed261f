# Which program of this tree can answer at once. For scripts that have set `top` to the folder of the tree and read this file.
# shellcheck shell=sh disable=SC2154,SC2034

program=$top/crates/inputflinger_main/out/inputflinger_main
dist=$top/dist/inputflinger

# A source that is newer than the program that was proved and built here, if there is one.
newer_source() {
    find "$top/crates.txt" "$top/crates" -name out -prune -o -type f \( -name '*.rt' -o -name '*.antt' -o -name crates.txt \) \
        -newer "$program" -print | head -n 1
}

# Whether the program that was proved and built here is that of the sources.
is_proved() { [ -x "$program" ] && [ -z "$(newer_source)" ]; }

# manifest KEY: what dist/MANIFEST says of it.
manifest() { sed -n "s|^$1: *||p" "$top/dist/MANIFEST"; }

# library_of PROGRAM: the newest version of the C library that a name of the program asks for; where none does, GLIBC_2.0.
library_of() {
    { echo GLIBC_2.0; objdump -T "$1" 2>/dev/null | grep -o 'GLIBC_[0-9.]*' || true; } | sort -V | tail -n 1
}

# has_library GLIBC_VERSION: whether this machine's C library is of this version or a later one.
has_library() {
    here=$(getconf GNU_LIBC_VERSION 2>/dev/null) || return 1
    [ "$(printf '%s\n' "${here#glibc }" "${1#GLIBC_}" | sort -V | head -n 1)" = "${1#GLIBC_}" ]
}

# Why the program of dist/ is not one that can answer; nothing where it can.
against_dist() {
    if [ ! -x "$dist" ] || [ ! -e "$top/dist/MANIFEST" ]; then
        echo 'there is none in dist/'
    elif [ "$(manifest sources)" != "$("$top/packaging/sources")" ]; then
        echo 'the one in dist/ was built from other sources'
    elif [ "$(uname -sm)" != "$(manifest machine)" ]; then
        echo "the one in dist/ is for $(manifest machine)"
    elif ! has_library "$(manifest library)"; then
        echo "the one in dist/ needs the C library $(manifest library)"
    elif [ "$(manifest sha256)" != "$(sha256sum <"$dist" | cut -d ' ' -f 1)" ]; then
        echo 'the one in dist/ is not the one that dist/MANIFEST tells of'
    fi
}

# The files of dist/ that are the library, for C on this machine and on others.
dist_library='inputflinger.h libinputflinger.a libinputflinger.so.1 libinputflinger.bc.xz
    aarch64/libinputflinger.a aarch64/libinputflinger.so.1 riscv64/libinputflinger.a riscv64/libinputflinger.so.1'

# size_and_sum FILE: what MANIFEST says of a file.
size_and_sum() { echo "$(wc -c <"$1" | tr -d ' ') $(sha256sum <"$1" | cut -d ' ' -f 1)"; }

# against_dist_file NAME: why a file of dist/ was not made of the crates as they are; nothing where it was. MANIFEST has a line for each file: its
# name, its size and its SHA-256.
against_dist_file() {
    told=$(manifest "$1" 2>/dev/null) || told=
    if [ ! -e "$top/dist/$1" ] || [ -z "$told" ]; then
        echo "there is no $1 in dist/"
    elif [ "$(manifest sources)" != "$("$top/packaging/sources")" ]; then
        echo "the $1 of dist/ was built from other sources"
    elif [ "$told" != "$(size_and_sum "$top/dist/$1")" ]; then
        echo "the $1 of dist/ is not the one that dist/MANIFEST tells of"
    fi
}

# Why the library of dist/ cannot be installed as it is; nothing where it can.
against_dist_library() {
    for name in libinputflinger.a libinputflinger.so.1 inputflinger.h; do
        why=$(against_dist_file $name)
        [ -z "$why" ] || break
    done
    if [ -n "$why" ]; then
        echo "$why"
    elif [ "$(manifest c-sources)" != "$("$top/packaging/sources" --c)" ]; then
        echo 'the library of dist/ was built from other sources in C'
    elif [ "$(uname -sm)" != "$(manifest machine)" ]; then
        echo "the library of dist/ is for $(manifest machine)"
    elif ! has_library "$(manifest c-library)"; then
        echo "the library of dist/ needs the C library $(manifest c-library)"
    fi
}

# Whether `make -C lib` made the library here, and no source is newer.
is_library_made() {
    for name in libinputflinger.a libinputflinger.so.1 inputflinger.pc; do
        [ -e "$top/lib/out/$name" ] || return 1
    done
    [ -z "$(find "$top/crates.txt" "$top/crates" "$top/lib" "$top/include" -name out -prune -o -name must-fail -prune -o -type f \
        \( -name '*.rt' -o -name '*.antt' -o -name crates.txt -o -name '*.[ch]' \) -newer "$top/lib/out/libinputflinger.so.1" -print | head -n 1)" ]
}
