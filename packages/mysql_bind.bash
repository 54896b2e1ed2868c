# bash completion for mysql_bind
_mysql_bind() {
    local cur=${COMP_WORDS[COMP_CWORD]} prev=${COMP_WORDS[COMP_CWORD - 1]} command= word
    local common='--literals --mode --sql-mode --allow-unportable --errors --help'
    local values='--set --file --env --null --json --pairs --decimals --allow-unused --output'
    # The shell takes `=` for a word of its own.
    [ "$cur" = = ] && cur=
    [ "$prev" = = ] && prev=${COMP_WORDS[COMP_CWORD - 2]}
    for word in "${COMP_WORDS[@]:1:COMP_CWORD-1}"; do
        case $word in bind | rows | names | check) command=$word && break ;; esac
    done
    case $prev in
    --literals) mapfile -t COMPREPLY < <(compgen -W 'steady plain' -- "$cur") && return ;;
    --mode) mapfile -t COMPREPLY < <(compgen -W 'backslash no-backslash' -- "$cur") && return ;;
    --errors) mapfile -t COMPREPLY < <(compgen -W 'text json github' -- "$cur") && return ;;
    --decimals) mapfile -t COMPREPLY < <(compgen -W 'exact double text' -- "$cur") && return ;;
    --env) mapfile -t COMPREPLY < <(compgen -v -- "$cur") && return ;;
    esac
    case $command,$cur in
    ,-*) word='--help --version' ;;
    ,*) word='bind rows names check' ;;
    bind,-*) word="$common $values" ;;
    rows,-*) word="$common $values --csv --tsv --mysql-csv --mysql-tsv --ndjson --column --null-text --null-of --rows-per-statement --max-bytes --transaction --stream --progress --no-progress" ;;
    names,-*) word="$common --zero --output" ;;
    check,-*) word=$common ;;
    *) mapfile -t COMPREPLY < <(compgen -f -- "$cur") && return ;;
    esac
    mapfile -t COMPREPLY < <(compgen -W "$word" -- "$cur")
}
complete -o filenames -F _mysql_bind mysql_bind
