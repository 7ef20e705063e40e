# Completions of nc-bundle for bash. tools/check/completions compares them with its --help.
_nc_bundle() {
    local word=${COMP_WORDS[COMP_CWORD]} words=
    [[ $word != -* ]] || words="--keep-returns --one-thread --long-nops --version -h --help"
    mapfile -t COMPREPLY < <(compgen -W "$words" -- "$word")
}
complete -o default -F _nc_bundle nc-bundle
