# Completion of hakyll_cli for bash: its commands, and the options of each.
_hakyll_cli() {
    local word=${COMP_WORDS[COMP_CWORD]} before=${COMP_WORDS[COMP_CWORD - 1]} words=
    [ "$word" != = ] || word=
    if [ "$COMP_CWORD" -eq 1 ]; then
        words='build rebuild check deps clean gen links'
    elif [ "$before" = --workers ] || [ "$before" = = ]; then
        words='1 2 4 8 16 32 64'
    else
        case ${COMP_WORDS[1]} in
            build | rebuild) words='--workers --trace' ;;
            gen) words='--workers' ;;
        esac
    fi
    COMPREPLY=($(compgen -W "$words" -- "$word"))
}
complete -F _hakyll_cli hakyll_cli
