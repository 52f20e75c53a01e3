# No clause spoke of a control file whose length isn't a multiple of a page, so its first page could be taken as sound.
for length in 8191 8193; do
    fresh
    page folder/aria_log_control "$control"
    truncate -s "$length" folder/aria_log_control
    reads_log "a control file of $length bytes" 5 $'aria: not ours aria_log_control\n' '' ''
done
