# The journal was to have each update that matches a row, but only lines that change a row were sound: an update that
# sets what was there would have been a damage in the next run.
cat > same.aria <<'E'
create t trans id:int v:int keys k (id)
insert t (1,7)
update t k (1) set v=7
update t k (2) set v=7
delete t k (2)
E
goes_on 'an update that sets what was there' 0 '' same.aria run
tells_text 'an update that sets what was there' $'ok\nok 1\nok 1\nok 0\nok 0\n'
[[ $(stat -c %s "$log") -eq $((3 * 8192)) ]] ||
    fail 'an update that sets what was there: the journal has not three lines'
has_rows 'after an update that sets what was there' 1 1
