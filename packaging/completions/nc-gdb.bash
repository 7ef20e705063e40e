# Completions of nc-gdb for bash. tools/check/completions compares them with its --help.
_nc_gdb() {
    local word=${COMP_WORDS[COMP_CWORD]} words=
    if [[ $word == -* ]]; then
        words="-V --version -h --help"
    elif [[ " ${COMP_WORDS[*]:0:COMP_CWORD} " != *nc-run\ * ]]; then
        words=nc-run
    fi
    mapfile -t COMPREPLY < <(compgen -W "$words" -- "$word")
}
complete -o default -F _nc_gdb nc-gdb
