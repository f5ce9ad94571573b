# Sourced by examples/run and bench/run, with $root set: C compiled and linked against the archive by the kit's own
# clang and ld.lld for x86-64, and run by the kit's loader (on another processor by its emulator, where the kit has one).
command -v rt >/dev/null || { echo "rt is not on the path" >&2; exit 2; }
guide=$(rt doc) || exit 2
tools=${guide%/*}/toolchain
[ -x "$tools/bin/clang" ] || { echo "no toolchain at $tools" >&2; exit 2; }
emulator=$tools/bin/qemu-x86_64
[ -x "$emulator" ] || emulator=''
archive=$root/target/staticlib/libc_interface.a
made=$root/target/c

# The archive, where it is missing: what rt makes of c_interface_c, under the name that callers in C link.
need_archive() {
    [ -f "$archive" ] && return
    (cd "$root/crates/c_interface_c" && rt lib) >&2 || return
    mkdir -p "$(dirname "$archive")" && cp "$root/crates/c_interface_c/out/libc_interface_c.a" "$archive"
}

# NAME FILE.c..: compiles and links target/c/NAME.
build_c() {
    name=$1 objects=''
    shift
    need_archive || return
    mkdir -p "$made" || return
    for source; do
        object=$made/$name-$(basename "$source" .c).o
        "$tools/bin/clang" --target=x86_64-linux-gnu -O3 -std=c11 -fPIE -Wall -Wextra -DPHG_NO_HEADERS \
            -I "$root/crates/c_interface" -c "$source" -o "$object" || return
        set -- "$@" "$object"
        shift
    done
    lib=$tools/lib
    "$tools/bin/ld.lld" -m elf_x86_64 -pie --dynamic-linker /lib64/ld-linux-x86-64.so.2 -o "$made/$name" \
        "$lib/Scrt1.o" "$lib/crti.o" "$lib/crtbeginS.o" "$@" "$archive" "$lib/libc.so.6" "$lib/libc_nonshared.a" \
        "$lib/ld-linux-x86-64.so.2" "$lib/libgcc.a" "$lib/crtendS.o" "$lib/crtn.o"
}

# NAME WORDS..: runs target/c/NAME.
run_c() {
    name=$1
    shift
    ${emulator:+"$emulator"} "$tools/lib/ld-linux-x86-64.so.2" --library-path "$tools/lib" "$made/$name" "$@"
}
