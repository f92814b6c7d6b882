# Completion of ising2d for bash.
_ising2d() {
    local word=${COMP_WORDS[COMP_CWORD]} choices=''
    local commands='energy ground wall bonds clusters report ranges maxcut check tjoin postman gen sample ensemble widths'
    if [ "$COMP_CWORD" = 1 ]; then
        choices="$commands --explain --help --version"
    else
        case $COMP_CWORD,${COMP_WORDS[1]} in
        2,gen | 2,sample | 2,ensemble | 2,widths) choices='one alternate pm uniform' ;;
        4,gen) choices='square triangular hexagonal cylinder' ;;
        esac
    fi
    mapfile -t COMPREPLY < <(compgen -W "$choices" -- "$word")
}
complete -o bashdefault -o default -F _ising2d ising2d
