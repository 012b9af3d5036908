# Completion of @NAME@ in bash: its commands, and then files.
_@NAME@() {
    local commands="surface decide certify loops homology verify"
    case @NAME@ in
        homotopy_cli) commands="$commands decide-open certify-open verify-homology reduce trial" ;;
        *) commands="$commands classes film --help --version" ;;
    esac
    COMPREPLY=()
    if [ "$COMP_CWORD" -eq 1 ]; then
        # shellcheck disable=SC2207
        COMPREPLY=($(compgen -W "$commands" -- "${COMP_WORDS[1]}"))
    elif [[ @NAME@ == homotopy && ${COMP_WORDS[COMP_CWORD]} == -* ]]; then
        # shellcheck disable=SC2207
        COMPREPLY=($(compgen -W "--help --json --open --output --title" -- "${COMP_WORDS[COMP_CWORD]}"))
    fi
}
complete -o default -o filenames -F _@NAME@ @NAME@
