# The system gave the journal the number of a standard stream that was closed, and replies were written into it.
{
    cat create.aria
    inserts 1 1
} > one.aria
goes_on 'before streams are closed' 0 '' one.aria run
cp "$log" whole
inserts 1 3 > more.aria
(cd folder && exec ../aria run) <&- > told 2> error
is_status 'standard input is closed, with a log' 6 $?
(cd folder && exec ../aria run) < more.aria >&- 2>&-
is_status 'both outputs are closed' 7 $?
(cd folder && exec ../aria run) < "$room" > told 2>&-
is_status 'standard error is closed' 6 $?
(cd folder && exec ../aria run) <&- >&- 2>&-
is_status 'all streams are closed' 6 $?
cmp "$log" whole > difference 2>&1 || fail "streams that are closed: $(cat difference)"
