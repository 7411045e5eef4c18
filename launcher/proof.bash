# In the repository: which programs there are, whether the build of one is of its sources as they are, and the proof where it is not.

end=$'\n'
[ -z "$over" ] || end=''

# crates.txt has a line `NAME: DEP DEP ..` for each crate, with `staticlib` behind the name of a static library; a program is a crate with
# src/main.rt.
declare -A below=()
programs=()
while IFS= read -r line || [ -n "$line" ]; do
    line=${line%%#*}
    [[ $line == *:* ]] || continue
    read -r crate _ <<<"${line%%:*}"
    below[$crate]=${line#*:}
    [ ! -f "$top/crates/$crate/src/main.rt" ] || add_program "$crate"
done <"$top/crates.txt"

# Leaves the kit's folder in `kit` and what names it in `identity`; fails where there is none.
find_kit() {
    rt=$(command -v rt) || return
    kit=$(readlink -f "$rt")
    kit=${kit%/bin/*}
    identity=$(<"$kit/KIT-ID")
}

# Leaves the crate of a program in `made`, its files in `bin`, `stamp` and `log`, and the folders of each crate of ours below it and of its own, the
# lowest first, in `folders`; a name that crates.txt does not list is a library of the kit. `verb` is what rt is told, `built` what it makes.
aim() { # NAME
    name=$1
    made=${second[$1]-$1}
    verb=run built=$top/crates/$made/out/$made wrought=taken ending='so it is not run'
    bin=$top/target/bin/$made
    stamp=$bin.stamp
    log=$top/target/trovimbe-$made.log
    folders=() seen=' '
    reach "$made"
}

# In the order in which rt proves them: each crate after those that it uses.
reach() { # CRATE
    local crate
    [ -n "${below[$1]+listed}" ] && [[ $seen != *" $1 "* ]] || return
    seen+="$1 "
    for crate in ${below[$1]}; do reach "$crate"; done
    folders+=("$top/crates/$1")
}

# Leaves the folders of the sources in `parts`, and in `state` what the stamp of a build of them says: the kit, and which folders there are.
look() {
    local folder part
    parts=() state=$identity
    for folder in "${folders[@]}"; do
        for part in "$folder"/{src,specs,proofs}; do
            [ ! -d "$part" ] || parts+=("$part") state+=" ${part#"$top/crates/"}"
        done
    done
}

# Whether the build is of the sources as they are: none changed since the stamp, which is as old as the start of the proof.
# The time of change is looked at, which also moves where a file comes back with an older date. What rt keeps in out/ is no source.
fresh() {
    look
    [ -x "$bin" ] && [ -f "$stamp" ] && [ "$(<"$stamp")" = "$state" ] && unchanged_since "$stamp"
}

unchanged_since() { # FILE
    local changed
    changed=$(find "$top/crates.txt" "${parts[@]}" -cnewer "$1" -print -quit 2>/dev/null) && [ -z "$changed" ]
}

# Reads what rt prints and writes it to standard output, which is the log. Shows how far the proof is, on a terminal in one line
# and else in a line for each crate that is proved now. Leaves in `wrong` what rt said of that which is not proved, without its lines of what is,
# and in `started` whether rt started the program, which it does once that is proved and linked.
follow() {
    local line part='' code=0 count=0 shown crate='' now='' block=''
    wrong='' started='' SECONDS=0
    progress
    while [ "$code" -ne 1 ]; do
        IFS= read -r ${over:+-t 1} line
        code=$?
        part+=$line
        if [ "$code" -gt 128 ]; then # a second went by
            progress
            continue
        fi
        [ -n "$part" ] || [ "$code" -eq 0 ] || break
        printf '%s\n' "$part"
        case $part in
        'rt: chose --jobs '*' for '*) now=${part##* } block='' ;;
        'logic=proved '*)
            [ -z "$now" ] || proved "$now"
            now='' block=''
            ;;
        "rt: running out/$made;"*) started=1 && proved "$made" ;;
        *': proved' | 'statements '* | 'logic '* | 'crate '* | 'library '* | 'axioms '* | 'checked '* | 'only='*) ;;
        *) block+=$part$'\n' ;;
        esac
        part=''
    done
    wrong=$block
    [ "$shown" -eq "$count" ] || progress
    [ -z "$over" ] || echo >&2
}

# A crate is proved, and so are those that rt comes to before it.
proved() { # CRATE
    local at
    for at in "${!folders[@]}"; do
        [ "${folders[at]}" != "$top/crates/$1" ] || [ "$count" -gt "$at" ] || { crate=$1 count=$((at + 1)) && progress; }
    done
}

progress() {
    shown=$count
    printf '%strovimbe: %s: %s of %s crates proved%s, %s s%s' \
        "$over" "$name" "$count" "${#folders[@]}" "${crate:+, $crate}" "$SECONDS" "$end" >&2
}

# Takes the place where a build goes, with its lock file as descriptor 9; says so where this user may not write there, or where rt keeps its work.
take_place() {
    local folder place=$top/target
    if mkdir -p "$top/target/bin" 2>/dev/null && [ -w "$top/target" ] && [ -w "$top/target/bin" ] && { exec 9>"$top/target/trovimbe.lock"; } 2>/dev/null; then
        place=''
        for folder in "${folders[@]}"; do
            { [ -d "$folder/out" ] || mkdir "$folder/out" 2>/dev/null; } && [ -w "$folder/out" ] || place=$folder/out
        done
    fi
    [ -n "$place" ] || return 0
    say "$name is not proved, $ending: the first run writes $place, in which this user may not write (work in a copy of your own)"
    return 1
}

# What rt made becomes ours whole, or not at all: a proof that fails later, or is broken off, leaves it as it is.
taken() {
    cp -- "$built" "$bin.new" && mv -- "$bin.new" "$bin"
}

# rt in a crate's folder. Of a program it also starts what it built: with no word and nothing to read, and what that writes is let go.
told_to_rt() {
    cd "$top/crates/$made" || return
    unset RT_BACKEND
    if [ "$verb" = run ]; then exec "$rt" run 2>&1 >/dev/null; fi
    exec "$rt" "$verb" 2>&1
}

# Proves and builds under a lock, so that two programs of one pipe do not build in the same folder at once. Says why where it fails.
build() {
    local ended
    take_place || return
    if ! flock -n 9; then
        say "$name: waiting for another proof to end"
        flock 9
    fi
    fresh && return
    rm -f "$stamp"
    if { echo "$state" >"$stamp.begun" && : >"$log"; } then
        (told_to_rt) </dev/null 9>&- | follow >"$log"
        ended=${PIPESTATUS[0]}
        if [ "$verb" = run ]; then [ -n "$started" ]; else [ "$ended" -eq 0 ]; fi && "$wrought" && mv "$stamp.begun" "$stamp" && return
        printf '%s' "$wrong" >&2
        say "the whole log is $log"
    fi
    say "$name is not proved, $ending"
    return 1
}

# Proves and builds the program where that is due, or ends. Leaves what it is started by in `runner`: the loader and the C library that it is
# linked with, as the kit has them.
ready() { # NAME
    find_kit || { say "rt is not on PATH: install the Rattle kit and put its bin/ there"; exit 2; }
    aim "$1"
    if ! fresh; then
        build || exit 1
        exec 9>&-
    fi
    runner=("$kit/toolchain/lib/ld-linux-x86-64.so.2" --library-path "$kit/toolchain/lib")
}

version() {
    local program good=() due=()
    echo "trovimbe $(<"$top/VERSION")"
    find_kit || { echo "kit: none, since rt is not on PATH"; echo "build: none can be looked at without the kit"; return; }
    echo "kit: $("$rt" version)"
    for program in "${programs[@]}"; do
        aim "$program"
        if fresh; then good+=("$program"); else due+=("$program"); fi
    done
    echo "build: fresh: ${good[*]:-none}; to be proved at its next run: ${due[*]:-none}"
}
