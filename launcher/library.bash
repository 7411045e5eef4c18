# ./trovimbe library: the gauge for programs in C. The crate `library` is proved and built as an archive that a program links.

# Takes the archive that rt made as libtrovimbe.a, and makes of it the same as a shared library, which Python loads.
named() {
    local folder=$top/target/staticlib
    cp -- "$built" "$folder/libtrovimbe.a" &&
        "$kit/toolchain/bin/ld.lld" -shared -o "$folder/libtrovimbe.so" --whole-archive "$folder/libtrovimbe.a"
}

aim_library() {
    local folder=$top/target/staticlib
    aim library
    bin=$folder/libtrovimbe.so stamp=$folder/libtrovimbe.stamp verb=lib built=$top/crates/library/out/liblibrary.a wrought=named
    ending='so there is no library'
}

library() {
    local folder=$top/target/staticlib
    find_kit || { say "rt is not on PATH: install the Rattle kit and put its bin/ there"; exit 2; }
    aim_library
    mkdir -p "$folder" 2>/dev/null # where it cannot be made, the proof says so
    [ -s "$folder/libtrovimbe.a" ] || rm -f "$stamp"
    fresh || build || exit 1
    show "$(printf '%s\n' "$folder/libtrovimbe.a: link this into an x86-64 program; its header is $top/include/trovimbe.h" \
        "$folder/libtrovimbe.so: the same, for desk/trovimbe_library.py")"
}
