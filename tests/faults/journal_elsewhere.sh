# It wasn't said what a link, a folder or a pipe under the journal's name is. Opened, a link leads out of the folder,
# and a pipe makes a run wait for ever.
goes_on 'before the journal is elsewhere' 0 '' create.aria run
mv "$log" elsewhere
cp elsewhere whole
ln -s "$room/elsewhere" "$log"
stays 'a link in the place of the log' 4 "$disk_fault"
cmp -s elsewhere whole || fail 'a link in the place of the log: it was followed'
fresh
ln -s "$room/nowhere" "$log"
stays 'a link to nothing' 4 "$disk_fault"
[[ ! -e nowhere ]] || fail 'a link to nothing: it was followed'
fresh
mkdir "$log"
stays 'a folder in the place of the log' 4 "$disk_fault"
fresh
mkfifo "$log"
stays 'a pipe in the place of the log' 4 "$disk_fault"
