# Prints the candidates that bash has for each line of standard input, after the file of
# completions that is given.
. "$1"
while IFS= read -r line; do
    read -ra COMP_WORDS <<<"$line"
    [[ $line != *' ' ]] || COMP_WORDS+=('')
    COMP_CWORD=$((${#COMP_WORDS[@]} - 1)) COMPREPLY=()
    asked=$(complete -p "${COMP_WORDS[0]}") || exit
    asked=${asked#complete -F }
    "${asked%% *}"
    printf '%s:' "$line"
    printf ' %s' "${COMPREPLY[@]}"
    printf '\n'
done
