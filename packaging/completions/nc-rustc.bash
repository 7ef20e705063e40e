# Completions of nc-rustc for bash. tools/check/completions compares them with its --help.
_nc_rustc() {
    local word=${COMP_WORDS[COMP_CWORD]} words=
    [[ $word != -* ]] || words="-c -o -e --data --base -Wl, -L -l -V --version -h --help"
    mapfile -t COMPREPLY < <(compgen -W "$words" -- "$word")
}
complete -o default -F _nc_rustc nc-rustc
