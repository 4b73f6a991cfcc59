# Words of lab for bash.
_lab() {
    local word=${COMP_WORDS[COMP_CWORD]} part=${COMP_WORDS[1]} files='toml trace txt' each words
    if [ "$COMP_CWORD" -eq 1 ]; then
        mapfile -t COMPREPLY < <(compgen -W "check play convert live orders callers run draw help --help --version" -- "$word")
        return
    fi
    case ${COMP_WORDS[COMP_CWORD - 1]} in
        --limit | --most | --outcome | --state | --order | --upto | --page) return ;;
        --bank) files=toml part=bank ;;
        --junit) mapfile -t COMPREPLY < <(compgen -f -- "$word"); return ;;
        --against) mapfile -t COMPREPLY < <(compgen -d -- "$word"); return ;;
    esac
    case $part in
        check) words="--bank --json --help" ;;
        play) words="--bank --limit --json --states --against --help" ;;
        convert) words="--lines --toml --help" ;;
        live) words="--bank --limit --prompt --help" ;;
        callers) words="--bank --limit --help" files=toml ;;
        orders) words="--bank --most --outcome --state --ask --order --answers --json --help" ;;
        run) words="--bank --json --csv --trace --scenario --svg --bound --help" files=toml ;;
        help) mapfile -t COMPREPLY < <(compgen -W "--json $("${COMP_WORDS[0]}" help 2>/dev/null | cut -d' ' -f2)" -- "$word"); return ;;
        draw) words="--bank --outcome --svg --perfetto --down --across --upto --page --help" ;;
        *) words=--help ;;
    esac
    case $part in
        check | play | orders) words="$words --junit" ;;
    esac
    case $part in
        check | play | convert | live | orders | callers | run) words="$words --color=always --color=never" ;;
    esac
    case $word in
        -*) mapfile -t COMPREPLY < <(compgen -W "$words" -- "$word") ;;
        *) mapfile -t COMPREPLY < <(for each in $files; do compgen -f -X "!*.$each" -- "$word"; done; compgen -d -- "$word") ;;
    esac
}
complete -o filenames -F _lab lab
