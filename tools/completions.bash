# Bash completions for acl: its commands, options and files. Source this file, or install it as
# ~/.local/share/bash-completion/completions/acl. .ci/try_words.sh compares it with the program.

# Sets `given` to the arguments before the one that is completed, without redirections.
_acl_given() {
    local word after=
    given=()
    for word in "${COMP_WORDS[@]:1:COMP_CWORD-1}"; do
        if [ -n "$after" ]; then
            after=
        elif [[ $word == $redirection ]]; then
            after=file
        else
            given+=("$word")
        fi
    done
}

# Bash completes files where COMPREPLY is empty. This call turns that off, where no file is expected.
_acl_no_files() {
    compopt +o default 2>/dev/null
}

_acl() {
    local redirection='@(?([0-9])<|?([0-9&])>?(>)|>&)'
    local current=${COMP_WORDS[COMP_CWORD]} given files options= option
    COMPREPLY=()
    [[ ${COMP_WORDS[COMP_CWORD-1]} == $redirection ]] && return
    _acl_given
    if [ "${#given[@]}" -eq 0 ]; then
        _acl_no_files
        COMPREPLY=($(compgen -W "preview encode seal view explain sample" -- "$current"))
        return
    fi
    case ${given[0]} in
        preview) files=1 options="--query --explain" ;;
        encode | seal) files=1 ;;
        view) files=2 options="--query" ;;
        explain) files=2 ;;
        *) files=0 ;;
    esac
    [ "${#given[@]}" -le "$files" ] && return
    _acl_no_files
    # One option may be given at most: each once, and --query not with --explain. After --query comes an XPath, and no
    # file.
    for option in "${given[@]:files+1}"; do
        case $option in --query | --query=* | --explain) return ;; esac
    done
    COMPREPLY=($(compgen -W "$options" -- "$current"))
}

complete -o default -F _acl acl
