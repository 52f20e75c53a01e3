# The manual said that a line of blanks is skipped, however long it is. With more than 1,048,576 bytes it is too long.
{
    printf '%1048576s\n' ''
    printf '%1048577s\n' ''
    printf '%-1048576s\n' "${create%$'\n'}"
    printf '%-1048577s\n' 'insert t (1,7)'
} > limit.aria
goes_on 'lines as long as may be and longer' 1 '' limit.aria run
tells_text 'lines as long as may be and longer' $'no line too long\nok\nno line too long\n'
has_rows 'a line as long as may be' 1 0
