# Completions of nc-cc and nc-c++ for bash. tools/check/completions compares them with nc-cc --help.
_nc_cc() {
    local word=${COMP_WORDS[COMP_CWORD]} words=
    case ${COMP_WORDS[COMP_CWORD - 1]} in
    -x) words="c c++ assembler assembler-with-cpp cpp-output none" ;;
    --data) words=04010000 ;;
    --base) words=00010000 ;;
    *) [[ $word != -* ]] || words="-c -S -E -M -MM -fsyntax-only -o -x --data --base --keep-returns --one-thread --no-check -j -v -### -save-temps -w -T -e \
            -L -l -u -z -Wl, -Xlinker -Wa, -Xassembler --version --cflags -h --help" ;;
    esac
    mapfile -t COMPREPLY < <(compgen -W "$words" -- "$word")
}
complete -o default -F _nc_cc nc-cc nc-c++
