# ./trovimbe package DIR: a folder that runs on another x86-64 Linux without the kit.

# Copies files of the repository to the same place below DIR.
carry() { # PATH..
    (cd "$top" && cp --parents -- "$@" "$folder")
}

# git, of the folder that the sources are in and of no other that its variables name.
git_here() { env -u GIT_DIR -u GIT_WORK_TREE -u GIT_INDEX_FILE git -C "$top" "$@" 2>/dev/null; }

# The commit that the sources are of, and whether they are as it has them. Sources that lie inside another clone are not of its commit.
commit() {
    local clone hash
    if ! { clone=$(git_here rev-parse --show-toplevel) && [ "$clone" -ef "$top" ] && hash=$(git_here rev-parse HEAD); }; then
        echo "unknown, since this is no clone"
        return
    fi
    [ -z "$(git_here status --porcelain)" ] || hash+=", and changes that are in no commit"
    echo "$hash"
}

front_page() {
    cat <<END
# Trovimbe $(<"$top/VERSION"): a battery fuel gauge as a proved program, for Linux on x86-64. This folder needs bash and coreutils, and no kit;
# the programs of desk/ need Python 3.9 or a later one besides.
# commit: $(commit)
# kit: $identity
#
# To run it from here: ./trovimbe. A page of each program: ./trovimbe NAME --help. docs/FIRST-TEN-MINUTES.md leads from a data sheet to a read-out.
# To install it below a prefix: make install PREFIX=/usr/local. To take it away again: make uninstall PREFIX=/usr/local.
# To see that no file has changed, in this folder: sha256sum -c PACKAGE.txt
#
# bin/ has the programs, each proved from the sources of this commit by this kit before it was copied. lib/ has the loader and the C library that
# they are linked with (GNU libc, under the LGPL 2.1 or later), as the kit has them. desk/ has plain programs in Python, which are not
# proved. All else is text and examples. LICENSE is that of Trovimbe.
END
}

package() { # DIR
    local folder program tools desk
    [ -n "$1" ] || misused
    if [ -e "$1" ] && { [ ! -d "$1" ] || [ -n "$(ls -A -- "$1")" ]; }; then
        say "package: '$1' is there already: name a folder that is empty, or that is not there"
        exit 1
    fi
    for program in "${programs[@]}"; do ready "$program"; done
    umask 022
    if ! { mkdir -p -- "$1/bin" "$1/lib" && folder=$(cd -- "$1" && pwd) && filled; }; then
        say "package: '$1' could not be written"
        exit 1
    fi
    show "$1 has a package of Trovimbe: see $1/PACKAGE.txt"
}

filled() {
    tools=$kit/toolchain
    cp -- "$tools/lib/ld-linux-x86-64.so.2" "$tools/lib/libc.so.6" "$folder/lib" || return
    for program in "${programs[@]}"; do cp -- "$top/target/bin/${second[$program]-$program}" "$folder/bin" || return; done
    find_desk # by name, and not the whole folder: what Python left there would change with the next run, and its sum would be wrong
    (cd "$top" && shopt -s nullglob && carry trovimbe launcher/{pages,words,start,packaged}.bash VERSION LICENSE CHANGELOG.md Makefile \
        docs/trovimbe.1 docs/{FORMATS,WORDS,BUS,FIRST-TEN-MINUTES}.md docs/programs/*.txt completion/trovimbe.bash examples/*.* examples/year \
        "${desk[@]/#/desk/}" desk/inside/*.py) || return
    front_page >"$folder/PACKAGE.txt" || return
    (cd "$folder" && find . -type f ! -name PACKAGE.txt -print0 | LC_ALL=C sort -z | xargs -0 sha256sum >>PACKAGE.txt)
}
