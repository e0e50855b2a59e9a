# Completions of ddm for bash: commands, and file names where a command takes a file. Read it in by `source ddm.bash`,
# or lay it into ~/.local/share/bash-completion/completions under the name ddm.
_ddm() {
    local word=${COMP_WORDS[COMP_CWORD]} files=""
    local commands="run trace seed schedule make check unjam save resume outcomes record measure survey join page assemble"
    COMPREPLY=()
    if [ "$COMP_CWORD" = 1 ]; then
        mapfile -t COMPREPLY < <(compgen -W "$commands help --help --version" -- "$word")
        return
    fi
    # The places of the words that name files; the other words are numbers.
    case ${COMP_WORDS[1]} in
        run | trace | check | unjam | save | page) files=" 2 3 4 " ;;
        resume) files=" 2 3 4 5 " ;;
        seed | outcomes | record | measure | survey | assemble) files=" 2 3 " ;;
        join) files=" $COMP_CWORD " ;;
        schedule) files=" 2 " ;;
        make) files=" 4 " ;;
        help) [ "$COMP_CWORD" = 2 ] && mapfile -t COMPREPLY < <(compgen -W "$commands" -- "$word") ;;
    esac
    # File names are left to the shell, which knows how to quote them.
    if [[ $files == *" $COMP_CWORD "* ]]; then
        compopt -o default
    fi
}
complete -F _ddm ddm
