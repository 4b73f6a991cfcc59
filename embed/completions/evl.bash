# Words of evl for bash.
_evl() {
    local word=${COMP_WORDS[COMP_CWORD]}
    case ${COMP_WORDS[COMP_CWORD - 1]} in
        --limit) return ;;
    esac
    case $word in
        -*) mapfile -t COMPREPLY < <(compgen -W "--limit --color=always --color=never --help --version" -- "$word") ;;
        *) mapfile -t COMPREPLY < <(compgen -f -X '!*.toml' -- "$word"; compgen -d -- "$word") ;;
    esac
}
complete -o filenames -F _evl evl
