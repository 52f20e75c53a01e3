# The manual called a text of 65,535 bytes the longest that can be stored. A stored row has 65,536 bytes: 5 and its
# bytes for a text, and 9 for a number. So 65,526 are left beside an empty text, and 65,522 beside a number.
text() {
    head -c "$1" /dev/zero | tr '\0' x
}
{
    printf "create t trans id:text(1) v:text(65535) keys k (id)\n"
    printf "insert t ('','%s')\n" "$(text 65527)" "$(text 65526)"
    printf "create u trans id:int v:text(65535) keys k (id)\n"
    printf "insert u (1,'%s')\n" "$(text 65523)" "$(text 65522)"
} > longest.aria
goes_on 'the longest text' 1 '' longest.aria run
tells_text 'the longest text' $'ok\nno row too long\nok 1\nok\nno row too long\nok 1\n'
