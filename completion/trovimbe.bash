# Completion of trovimbe for bash: names, then the options of the program, then files. The names and options are those of its own usage.
_trovimbe() {
    local word=${COMP_WORDS[COMP_CWORD]} line call=''
    local names=(help version package library)
    COMPREPLY=()
    while IFS= read -r line; do
        [[ $line =~ ^'  '([a-z][a-z0-9_]*)((' '[^ ]+)*) ]] || continue
        names+=("${BASH_REMATCH[1]}")
        [ "${BASH_REMATCH[1]}" != "${COMP_WORDS[1]-}" ] || call=${BASH_REMATCH[2]}
    done < <("${COMP_WORDS[0]}" --help 2>/dev/null)
    if [ "$COMP_CWORD" -eq 1 ] || [ "${COMP_WORDS[1]}" = help ]; then
        mapfile -t COMPREPLY < <(compgen -W "${names[*]} --help --version" -- "$word")
    elif [[ $word == -* ]]; then
        local options=(--help)
        while [[ $call =~ ' '[[]?(--[a-z]+=?)(.*) ]]; do
            options+=("${BASH_REMATCH[1]}")
            call=${BASH_REMATCH[2]}
        done
        mapfile -t COMPREPLY < <(compgen -W "${options[*]}" -- "$word")
        [[ ${COMPREPLY-} != *= ]] || compopt -o nospace 2>/dev/null # its value follows at once
    else
        mapfile -t COMPREPLY < <(compgen -f -- "${word#=}")
    fi
}
complete -o filenames -F _trovimbe trovimbe ./trovimbe
