# rows.sh FILE: runs the commands of a file, and prints where one does something else than it says.
#
# A row is a line that begins with `$ `, which is a command of sh, and after it what the command
# writes to both streams, as `cat -v` shows it: ` (no-eol)` follows a last line that does not end,
# and `[N]` is the status if it is not 0. One shell runs all of them, so that a variable holds for
# the rows after it; nothing is on standard input. Empty lines and those that begin with `#` are not
# rows.

run_row() {
    eval "$1" <&4 >wrote 2>&1
    status=$?
    cat -v wrote
    test -z "$(tail -c 1 wrote | tr '\000' x)" || echo ' (no-eol)'
    test "$status" -eq 0 || echo "[$status]"
}

while IFS= read -r line <&3; do
    case $line in
    '$ '*) printf '%s\n' "$line" && run_row "${line#??}" ;;
    '#'* | '') printf '%s\n' "$line" ;;
    esac
done 3<"$1" 4</dev/null >did
diff -U 1 "$1" did
