# In a package: the programs are built, in bin/, with the loader and the C library of the kit in lib/; PACKAGE.txt says what they are of.

programs=()
for file in "$top"/bin/*; do add_program "${file##*/}"; done

# Leaves the program in `bin` and what starts it in `runner`.
ready() { # NAME
    if [ "$(uname -m)" != x86_64 ]; then
        say "the programs of this package are for x86-64, and this machine is $(uname -m): use them on one of x86-64"
        exit 2
    fi
    bin=$top/bin/${second[$1]-$1}
    runner=("$top/lib/ld-linux-x86-64.so.2" --library-path "$top/lib")
}

package() { # DIR
    say "this is a package already: copy its folder, or see to it that a checkout makes another"
    exit 2
}

library() {
    say "a package has no library to link: in a checkout, with the kit, $self library makes it"
    exit 2
}

version() {
    local line
    echo "trovimbe $(<"$top/VERSION")"
    while IFS= read -r line; do
        case $line in '# commit: '* | '# kit: '*) echo "${line#??}" ;; esac
    done <"$top/PACKAGE.txt"
    echo "build: a package, whose programs were proved before it was made"
}
