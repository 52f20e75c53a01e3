# The manual didn't say at which byte a line is refused if no token begins there.
{
    printf "insert t (x'0')\n"
    printf "insert t ('it''s)\n"
    printf 'select %065d k\n' 0 | tr 0 t
    printf 'select t\0 k\n'
    printf 'select\ft k\n'
    printf 'drop \xc3\xa9\n'
    printf "insert t (X'00')\n"
    printf 'create a trans keys k (a)\n'
} > no_token.aria
goes_on 'no token begins' 1 '' no_token.aria run
printf 'no bad statement at %s\n' 10 10 7 8 6 5 10 20 > wanted
tells 'no token begins' wanted
