# An update made each of its settings in each of its rows, so 100,000 settings of 65,536 rows would have taken minutes.
{
    cat create.aria
    printf 'insert t'
    seq 65536 | sed 's/.*/ (&,0)/' | tr -d '\n'
    printf '\nupdate t k set v=0'
    yes ',v=1' | head -n 100000 | tr -d '\n'
    printf ',v=7\nselect t k (65536)\n'
} > settings.aria
goes_on 'many settings of many rows' 0 '' settings.aria run
tells_text 'many settings of many rows' $'ok\nok 65536\nok 65536\nrow 65536,7\nok 1\n'
