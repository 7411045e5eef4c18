# What the words of a call mean, by the first line of the program's page: a bare word has to be given; [FILE] may be, and is then standard input;
# [--word] is an option; [--word=NAME] is one with a word of its own, which the program gets behind the others; [A B] are words that may be
# given, together; [..] stands for any words, which are handed on.

# Leaves the words for the program in `given`, FILE, where there is one, in `file`, and the options in `options`; `reads` says whether the
# program reads standard input.
take_words() { # WORD..
    local takes word needs=0 more=0 allowed=' ' valued=()
    given=() file=() options=' ' reads=''
    read -ra takes <<<"${call#"$name"}"
    for word in "${takes[@]}"; do
        case $word in
        '[..]') given=("$@") && return ;;
        '[FILE]') reads=1 ;;
        '[--'*=*']') word=${word#[} allowed+="${word%%=*}= " ;;
        '[--'*']') word=${word#[} allowed+="${word%]} " ;;
        '['* | *']') more=$((more + 1)) ;;
        *) needs=$((needs + 1)) ;;
        esac
    done
    for word in "$@"; do
        case $word in
        --*=*)
            [[ $allowed == *" ${word%%=*}= "* ]] || misused
            allowed=${allowed/" ${word%%=*}= "/ } # once: of two words for one thing none is dropped unseen
            valued+=("${word#*=}")
            ;;
        --*) [[ $allowed == *" $word "* ]] || misused && options+="$word " ;;
        *) given+=("$word") ;;
        esac
    done
    [ ${#given[@]} -lt $((needs + more)) ] || needs=$((needs + more))
    if [ -n "$reads" ] && [ ${#given[@]} -eq $((needs + 1)) ]; then
        file=("${given[needs]}")
        unset "given[needs]"
    fi
    [ ${#given[@]} -eq "$needs" ] || misused
    given+=("${valued[@]}")
}

misused() {
    say "usage: $self $call"
    exit 2
}

# Makes FILE standard input.
open_file() {
    local why
    [ ${#file[@]} -eq 1 ] && [ "${file[0]}" != - ] || return 0
    if [ ! -e "${file[0]}" ]; then
        why="there is no such file: look at the name, and at the folder that you are in"
    elif [ -d "${file[0]}" ]; then
        why="it is a folder: name a file in it"
    elif [ ! -r "${file[0]}" ]; then
        why="this user may not read it: ask its owner, or use a copy that may be read"
    elif { exec <"${file[0]}"; } 2>/dev/null; then
        return 0
    else
        why="it cannot be opened: try a copy of it"
    fi
    say "$name: cannot read '${file[0]}': $why"
    exit 1
}

# Who sits at a terminal is told what is waited for, and where a file is no session what it may be. The lines stay as they are.
hint() {
    [ -n "$reads" ] || return 0
    if [ -t 0 ]; then
        say "$name reads from the terminal: type its input and end it with Ctrl-D on a line of its own, or stop by Ctrl-C and name a file: $self $call"
    elif [ -t 2 ] && [ -f /dev/stdin ]; then
        case $name in session | live | resume | image | tray | live_tray | resume_tray | tray_image) hint_session ;; esac
    fi
}

# Looks at the first bytes of the file that is standard input, without taking them from the program.
hint_session() {
    local bytes count rest='' next=' [89ab].' letters=' (09|0a|0d|[2-6].|7[0-9a-e])'
    letters="$letters| (c[2-9a-f]|d.)$next| e.$next$next| f[0-4]$next$next$next" # UTF-8
    [ -s /dev/stdin ] || { say "the input is empty, and a session has records"; return; }
    bytes=$(od -An -v -tx1 -N 512 /dev/stdin 2>/dev/null | tr -d '\n')
    count=$((${#bytes} / 3))
    [ "$count" -lt 512 ] || rest="( (c[2-9a-f]|d.|e.($next)?|f[0-4]($next){0,2}))?" # of a longer text the last letter may be cut here
    if [[ $bytes =~ ^($letters)+$rest$ ]]; then
        say "this looks like hex text or another text, and not like the bytes of a session: \`$self write\` makes them of words (docs/WORDS.md), and" \
            "docs/FIRST-TEN-MINUTES.md shows how to make them of hex text"
    elif [[ $count == 60 && $bytes == ' 3d'* ]]; then
        say "this looks like a pack's image, and not like a session: a record of it begins with the bytes 3c 00 01 00, as in docs/FIRST-TEN-MINUTES.md"
    elif [[ $count == 61 && $bytes == ' 32'* ]]; then
        say "this looks like the image of a camera pack, and not like a session: a record of it begins with the bytes 3d 00 08 00"
    fi
}
