# Completions of nc_check for bash. tools/check/completions compares them with its --help.
_nc_check() {
    local word=${COMP_WORDS[COMP_CWORD]} words=
    case ${COMP_WORDS[COMP_CWORD - 1]} in
    --base) words=00010000 ;;
    --bundles) words=2097152 ;;
    --workers) words=$(echo {1..16}) ;;
    --format) words="text json" ;;
    *) [[ $word != -* ]] || words="--base --raw --bundles --workers --quiet --all --calls --format --help --version -h -V" ;;
    esac
    mapfile -t COMPREPLY < <(compgen -W "$words" -- "$word")
}
complete -o default -F _nc_check nc_check
