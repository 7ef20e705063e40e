# Completions of nc_replay for bash. tools/check/completions compares them with its --help.
_nc_replay() {
    local word=${COMP_WORDS[COMP_CWORD]} words=
    case ${COMP_WORDS[COMP_CWORD - 1]} in
    --bundles) words=2048 ;;
    --seats) words=4 ;;
    --workers) words=$(echo {1..16}) ;;
    *)
        case ${COMP_WORDS[1]} in
        replay) words="--bundles --seats --queries --explain --strict --help -h" ;;
        vet) words="--bundles --workers --explain --strict --help -h" ;;
        help) words="replay vet" ;;
        esac
        [[ $COMP_CWORD -gt 1 ]] || words="replay vet help --help --version -h -V"
        ;;
    esac
    mapfile -t COMPREPLY < <(compgen -W "$words" -- "$word")
}
complete -F _nc_replay nc_replay
