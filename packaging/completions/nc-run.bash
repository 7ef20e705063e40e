# Completions of nc-run for bash. tools/check/completions compares them with its --help.
_nc_run() {
    local word=${COMP_WORDS[COMP_CWORD]} words=
    case ${COMP_WORDS[COMP_CWORD - 1]} in
    --time) words="0 1000 10000" ;;
    --memory) words="256M 1G" ;;
    --live-code) words="1M 16M" ;;
    --write) words="1M 1G" ;;
    --wall) words="try must" ;;
    --call | --debug) words= ;;
    --dir | --dir-rw)
        mapfile -t COMPREPLY < <(compgen -d -- "$word")
        return
        ;;
    --env)
        mapfile -t COMPREPLY < <(compgen -e -- "$word")
        return
        ;;
    *) [[ $word != -* ]] || words="--time --memory --live-code --call --dir --dir-rw --write --env --wall --no-wall --perf-map --debug --help --version -h -V" ;;
    esac
    mapfile -t COMPREPLY < <(compgen -W "$words" -- "$word")
}
complete -o default -F _nc_run nc-run
