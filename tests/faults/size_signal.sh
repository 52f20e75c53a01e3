# The manual gave each end of a run a status. The system ends a run whose file grows past a limit by signal 25, XFSZ.
# Twelve pages have room for the create, for rows 1 to 4 and 6 to 9, and for row 5, which takes three.
{
    cat create.aria
    inserts 1 20
} > twenty.aria
{
    (
        cd folder || exit 2
        ulimit -c 0
        ulimit -f 96
        exec ../aria run
    ) < twenty.aria 2> error | cat > told
    ended=${PIPESTATUS[0]}
} 2> /dev/null
is_status 'a signal at the limit of a file' $((128 + 25)) "$ended"
tells_text 'a signal at the limit of a file' $'ok\nok 1\nok 1\nok 1\nok 1\nok 1\nok 1\nok 1\nok 1\nok 1\n'
has_rows 'after a signal at the limit of a file' 1 9
