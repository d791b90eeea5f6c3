# Completion of globsift for bash. A release has it in share/bash-completion/completions, where bash-completion finds it; without
# that, `source` it.
_globsift() {
    local word="${COMP_WORDS[COMP_CWORD]}" before i
    COMPREPLY=()
    for ((i = 1; i < COMP_CWORD; i++)); do
        before="${COMP_WORDS[i]}"
        # After these two, an argument is a text.
        [ "$before" = -- ] && return
        [ "$before" = --set ] && [ $((i + 1)) -eq "$COMP_CWORD" ] && return
    done
    [[ "$word" == -* ]] && mapfile -t COMPREPLY < <(compgen -W '-i -s -e -u -b -r -n --set --' -- "$word")
}
complete -F _globsift globsift
