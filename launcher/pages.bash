# What is said of the programs, from docs/programs/NAME.txt: a page whose first line is the call, the second what the program does.
# Needs `top` and `self`; the list of proved programs is `programs`.

# On a terminal a line of progress is rewritten in place: `over` takes away what stands on the line.
over=''
[ ! -t 2 ] || over=$'\r\e[K'
say() { printf '%strovimbe: %s\n' "$over" "$*" >&2; }

# Writes a text and ends.
show() { # TEXT
    printf '%s\n' "$1" 2>/dev/null && exit 0
    say "cannot write standard output"
    exit 1
}

has_page() { [[ $1 =~ ^[a-z][a-z0-9_]*$ ]] && [ -f "$top/docs/programs/$1.txt" ]; }

# A program that has a second name: with a word more it keeps its state in a file.
declare -A second=([resume]=live [resume_tray]=live_tray)

# Adds a program, and its second name, to the list.
add_program() { # CRATE
    local name
    programs+=("$1")
    for name in "${!second[@]}"; do [ "${second[$name]}" != "$1" ] || programs+=("$name"); done
}

is_program() { # NAME
    local program
    for program in "${programs[@]}"; do [ "$program" != "$1" ] || return 0; done
    return 1
}

# A plain program, which nobody proves: an executable file of the folder desk.
is_desk() { [[ $1 =~ ^[a-z][a-z0-9_]*$ ]] && [ -f "$top/desk/$1" ] && [ -x "$top/desk/$1" ]; }

# Leaves the names of the plain programs in `desk`.
find_desk() {
    local file
    desk=()
    for file in "$top"/desk/*; do ! is_desk "${file##*/}" || desk+=("${file##*/}"); done
}

# Leaves the name with the words that it takes in `call`, and what it does in `does`.
about() { # NAME
    call=$1 does='(it has no page)'
    if has_page "$1"; then { IFS= read -r call && IFS= read -r does; } <"$top/docs/programs/$1.txt"; fi
}

listed() { # NAME..
    local program call does
    for program in "$@"; do
        about "$program"
        printf '  %-26s %s\n' "$call" "$does"
    done
}

usage() {
    local desk
    echo "usage: $self NAME [WORD ..]"
    echo "Runs a proved program on a file or on standard input; it is proved and built first where its sources changed."
    listed "${programs[@]}"
    find_desk
    if [ ${#desk[@]} -gt 0 ]; then
        echo "The desk: plain programs, which are not proved:"
        listed "${desk[@]}"
    fi
    echo "Besides: $self NAME --help (its page), help (the manual), version, package DIR (a folder for machines without the kit),"
    echo "library (the gauge for programs in C)."
}

# The page of a program; the command is called there as it is called here.
page() { # NAME
    local text
    has_page "$1" || { about "$1"; echo "usage: $self $call"; return; }
    text=$(<"$top/docs/programs/$1.txt")
    printf 'usage: %s %s\n' "$self" "${text//.\/trovimbe/"$self"}"
}

# Shows the manual where there is a terminal and a man to show it on, else the usage; and ends.
manual() {
    if [ -t 1 ] && command -v man >/dev/null; then man -l "$top/docs/trovimbe.1" && exit 0; fi
    show "$(usage)"
}

# Leaves in `far` how many letters have to be changed, added, left away or swapped with the next one to make one word of another.
distance() { # WORD WORD
    local a=$1 b=$2 i j least wide=$((${#2} + 1)) rows=()
    for ((j = 0; j <= ${#b}; j++)); do rows[j]=$j; done
    for ((i = 1; i <= ${#a}; i++)); do
        rows[i * wide]=$i
        for ((j = 1; j <= ${#b}; j++)); do
            least=$((rows[(i - 1) * wide + j - 1]))
            if [ "${a:i-1:1}" != "${b:j-1:1}" ]; then
                least=$((least < rows[(i - 1) * wide + j] ? least : rows[(i - 1) * wide + j]))
                least=$(((least < rows[i * wide + j - 1] ? least : rows[i * wide + j - 1]) + 1))
                if ((i > 1 && j > 1)) && [ "${a:i-1:1}${a:i-2:1}" = "${b:j-2:1}${b:j-1:1}" ]; then
                    least=$((least < rows[(i - 2) * wide + j - 2] + 1 ? least : rows[(i - 2) * wide + j - 2] + 1))
                fi
            fi
            rows[i * wide + j]=$least
        done
    done
    far=${rows[${#a} * wide + ${#b}]}
}

# Leaves in `near` the name that is most like a word, or nothing.
nearest() { # WORD
    local known desk far least=3
    near=''
    [ ${#1} -gt 2 ] && [ ${#1} -le 20 ] || return
    find_desk
    for known in "${programs[@]}" "${desk[@]}" help version package; do
        far=0
        [[ $known == "$1"* ]] || distance "${1,,}" "$known"
        if [ "$far" -lt "$least" ] && [ $((far * 2)) -lt ${#known} ]; then least=$far near=$known; fi
    done
}

unknown() { # NAME
    local near
    say "no program '$1'"
    nearest "$1"
    [ -z "$near" ] || say "did you mean $near?"
    usage >&2
    exit 2
}
