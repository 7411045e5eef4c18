# Starts a program. `runner` is what it is started by: the loader and C library that it was linked with.

# Passes on to standard error what comes, as it comes, and answers 1 where anything came: a Rattle program has no status of its own.
# Where a pipe cannot be written its reader went away. A program that says so, and nothing else, is let go without a word, and the answer is 141, as
# of a program that the system ends then.
pass() { # [what a program says of a pipe without a reader]
    local letter held='' gone=${1-} LC_ALL=C
    [ -z "$gone" ] || gone+=$'\n'
    while IFS= read -r -d '' -n 1 letter; do
        if [ -z "$letter" ] || [[ $gone != "$held$letter"* ]]; then
            { printf '%s%b' "$held" "${letter:-\\0}" && cat; } >&2 || cat >/dev/null
            return 1
        fi
        held+=$letter
    done
    [ -n "$held" ] || return 0
    [ "$held" != "$gone" ] || return 141
    printf '%s' "$held" >&2
    return 1
}

# Runs the program. The status is the system's where it was ended by it, else that of `pass`.
told() { # WORD..
    local out ended gone=''
    { exec {out}>&1; } 2>/dev/null || exec {out}</dev/null # where it is closed, writes are to fail as they would
    if [ -p "/dev/fd/$out" ] || [ -S "/dev/fd/$out" ]; then gone="$name: cannot write standard output"; fi
    "${runner[@]}" "$bin" "$@" 2>&1 >&"$out" {out}>&- | (exec {out}>&- && pass "$gone")
    ended=("${PIPESTATUS[@]}")
    exec {out}>&-
    [ "${ended[0]}" -le 128 ] && [ "${ended[1]}" -ne 0 ] && return "${ended[1]}"
    return "${ended[0]}"
}

# Passes on the lines of a session as they come, and answers 3 where the answer of one is not 0, 1 where they cannot be written.
strictly() {
    local line answer refused=0 header=1
    while IFS= read -r line; do
        printf '%s\n' "$line" 2>/dev/null || { cat >/dev/null; say "$name: cannot write standard output"; return 1; }
        read -r _ _ answer _ <<<"$line"
        [ -n "$header" ] || [ "$answer" = 0 ] || refused=3
        header=''
    done
    return "$refused"
}

# A program cannot ask for a file's mode, so where a program replaces a plain file the umask leaves the new one what that file lets be read and written.
keep_mode() { # FILE
    local mode
    if [ -f "$1" ] && [ ! -L "$1" ] && mode=$(stat -c %a -- "$1"); then umask "$(printf %o $((0777 & ~0$mode)))"; fi
}

# The image would be written to the file of the state, and then the state over it.
apart() { # STATE [OUT]
    if [ $# -eq 2 ] && { [ "$1" = "$2" ] || [ "$1" -ef "$2" ]; }; then
        say "$name: OUT is the file STATE: give OUT another name"
        exit 1
    fi
}

# Runs the program and ends.
start() { # WORD..
    local ended
    case $name in
    resume) apart "$@" ;;
    resume_tray) apart "$1" "${@:3}" ;;
    esac
    case $name in mend | resume | resume_tray) keep_mode "$1" ;; esac
    if [[ $options != *' --strict '* ]]; then
        told "$@"
        exit
    fi
    told "$@" | strictly
    ended=("${PIPESTATUS[@]}")
    [ "${ended[0]}" -eq 0 ] || exit "${ended[0]}"
    exit "${ended[1]}"
}
