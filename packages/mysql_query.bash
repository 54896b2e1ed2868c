# Completion of mysql_query for bash: its two commands, and the kinds of a value after a name's `=`.
_mysql_query() {
    local word=${COMP_WORDS[COMP_CWORD]} before=${COMP_WORDS[COMP_CWORD - 1]}
    COMPREPLY=()
    if [ "$COMP_CWORD" = 1 ]; then
        mapfile -t COMPREPLY < <(compgen -W 'names bind' -- "$word")
    elif [ "${COMP_WORDS[1]}" = bind ] && { [ "$word" = = ] || [ "$before" = = ]; }; then
        compopt -o nospace 2>/dev/null
        mapfile -t COMPREPLY < <(compgen -W 'i: u: s: null' -- "${word#=}")
    fi
}
complete -F _mysql_query mysql_query
