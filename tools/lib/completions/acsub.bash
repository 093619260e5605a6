# Completion of acsub for bash.
_acsub() {
    local word=${COMP_WORDS[COMP_CWORD]} before=${COMP_WORDS[COMP_CWORD - 1]} redirection='^[0-9&]*[<>]+[&|]?$' placed=0 i
    local options="--text --escapes --pattern --replacement --in-place --count --fail-if-none --check --progress --stream --word"
    options+=" --with --kind --fold --pairs --engine --no-prefilter --dense-depth --no-byte-classes --help --version"
    # `--kind=K` is three words here: `--kind`, `=` and `K`.
    if [[ $word == = ]]; then
        word=
    elif [[ $before == = ]]; then
        before=${COMP_WORDS[COMP_CWORD - 2]}
    fi
    # Where nothing is offered, bash completes the name of a file by itself; here that is wrong.
    compopt +o bashdefault +o default
    case $before in
    --kind) COMPREPLY=($(compgen -W "standard leftmost-first leftmost-longest" -- "$word")) ; return ;;
    --engine) COMPREPLY=($(compgen -W "auto noncontiguous contiguous dfa packed" -- "$word")) ; return ;;
    -e | --pattern | -r | --replacement | --with | --pairs | --dense-depth) return ;;
    esac
    if [[ $word == -* ]]; then
        COMPREPLY=($(compgen -W "$options" -- "$word"))
        return
    fi
    # The words before this one that belong to no option and no redirection.
    for ((i = 1; i < COMP_CWORD; i++)); do
        case ${COMP_WORDS[i]} in
        -e | --pattern | -r | --replacement | --with | --kind | --engine | --pairs | --dense-depth)
            if [[ ${COMP_WORDS[i + 1]} == = ]]; then ((i += 2)); else ((i++)); fi ;;
        -*) ;;
        *) if [[ ${COMP_WORDS[i]} =~ $redirection ]]; then ((i++)); else ((placed++)); fi ;;
        esac
    done
    if [[ $placed == 0 && ! $before =~ $redirection ]]; then
        COMPREPLY=($(compgen -W "replace list overlap mask" -- "$word"))
    else
        compopt -o bashdefault -o default
    fi
}
complete -o bashdefault -o default -F _acsub acsub
