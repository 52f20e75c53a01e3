#!/usr/bin/env bash
# Runs the built program on whole scripts, in real folders, and on words, input and output that are bad. Prints only
# failures. A kill of the program leaves all that was written with the system, so no check here shows that a sync
# reaches the disk.
set -u
top=$(cd "$(dirname "${BASH_SOURCE[0]}")/.." && pwd) || exit 2
room=$(mktemp -d) || exit 2
big=
trap 'rm -rf "$room" "$big"' EXIT
cd "$room" || exit 2
chmod 711 .

# A copy, since the gate may leave the program without leave to execute it.
if ! cp "$top/crates/aria/out/aria" aria 2> /dev/null; then
    echo "FAILED: crates/aria/out/aria is not built"
    exit 1
fi
chmod 755 aria

failures=0

fail() {
    printf 'FAILED: %s\n' "$*"
    failures=$((failures + 1))
}

# is_status NAME WANTED FOUND
is_status() {
    [[ $3 -eq $2 ]] || fail "$1: status $3, not $2"
}

# is_error NAME WANTED: the bytes on standard error, which stand in the file `error`
is_error() {
    printf '%s' "$2" | cmp -s - error || fail "$1: standard error has '$(head -c 200 error)'"
}

# The program is run in the folder `folder`, whose log is this file.
log=folder/aria_log.00000001

# A new folder, which is empty.
fresh() {
    rm -rf folder
    mkdir folder
}

# goes_on NAME STATUS ERROR INPUT WORD..: a run in the folder as it is; leaves standard output in the file `told`
goes_on() {
    local name=$1 status=$2 wanted=$3 input=$4
    shift 4
    (cd folder && exec timeout 60 "$room/aria" "$@") < "$input" > told 2> error
    is_status "$name" "$status" $?
    is_error "$name" "$wanted"
}

# runs NAME STATUS ERROR INPUT WORD..: a run in a new folder
runs() {
    fresh
    goes_on "$@"
}

# tells NAME FILE: the last run told what the file holds
tells() {
    cmp told "$2" > difference 2>&1 || fail "$1: $(cat difference)"
}

# tells_text NAME TEXT
tells_text() {
    printf '%s' "$2" > wanted
    tells "$1" wanted
}

# What is in the folder: kinds, lengths, names and bytes.
snapshot() {
    find folder -printf '%y %s %P %l\n' | sort
    find folder -type f -exec cksum {} + 2> /dev/null | sort
}

# stays NAME STATUS ERROR [INPUT]: a run that changes nothing in the folder and tells nothing
stays() {
    snapshot > before
    goes_on "$1" "$2" "$3" "${4:-create.aria}" run
    tells_text "$1" ''
    snapshot | cmp -s - before || fail "$1: the folder has changed"
}

# has_rows NAME FIRST LAST: table t has the rows with these keys, as `inserts` puts them, and no others
has_rows() {
    goes_on "$1" 0 '' select.aria run
    {
        seq "$2" "$3" | awk '{ print "row " $1 "," 7 * $1 }'
        echo "ok $(($3 - $2 + 1))"
    } > wanted
    tells "$1" wanted
}

# inserts FIRST LAST: lines that put rows with these keys; each fifth is so long that it takes three pages
inserts() {
    seq "$1" "$2" | awk '{ printf "insert t (" $1 "," 7 * $1 ")%" ($1 % 5 ? 0 : 20000) "s\n", "" }'
}

# replies: how many statements the last run has told to be done
replies() {
    tr -dc '\n' < told | wc -c
}

bad_words=$'aria: bad words\n'
no_memory=$'aria: want of memory\n'
disk_fault=$'aria: disk fault\n'
input_fault=$'aria: input fault\n'
create=$'create t trans id:int v:int keys k (id)\n'
printf '%s' "$create" > create.aria
printf 'select t k\n' > select.aria

# damaged_at PAGE: the line of a damaged log
damaged_at() {
    printf 'aria: damaged log aria_log.00000001 page %s\n.' "$1"
}

for example in "$top"/examples/*.aria; do
    name=$(basename "$example")
    status=0
    grep -q '^no ' "${example%.aria}.out" && status=1
    runs "$name" "$status" '' "$example" run
    tells "$name" "${example%.aria}.out"
done

# words
fresh
goes_on 'no words' 2 "$bad_words" create.aria
tells_text 'no words' ''
for word in Run ru runs '' --help -- $'\xff' $'run\xff' read_log; do
    goes_on "the word '$word'" 2 "$bad_words" create.aria "$word"
    tells_text "the word '$word'" ''
done
goes_on 'a word behind run' 2 "$bad_words" create.aria run run
goes_on 'no text behind run' 2 "$bad_words" create.aria run $'\xff'
for options in -s '-d -d' '-s -s' '-d -s -s' -ds '-d run'; do
    read -ra words <<< "$options"
    goes_on "read_log $options" 2 "$bad_words" create.aria read_log "${words[@]}"
    tells_text "read_log $options" ''
done
(cd folder && exec ../aria) < /dev/null > told 2> /dev/full
is_status 'standard error is full' 2 $?
[[ -z $(ls -A folder) ]] || fail 'bad words make files'

# what stands in the log
# reads_log NAME STATUS ERROR LINES LAST: read_log with each of its options tells lines and a last line, or the last line
# alone; it takes nothing from its input, which can't be read, and leaves the folder as it is
reads_log() {
    local options words
    snapshot > before
    for options in -d --display-only '-d -s' '-s -d' '--display-only --silent' '--silent --display-only'; do
        read -ra words <<< "$options"
        goes_on "$1, $options" "$2" "$3" "$room" read_log "${words[@]}"
        if [[ ${#words[@]} -eq 1 ]]; then
            tells_text "$1, $options" "$4$5"
        else
            tells_text "$1, $options" "$5"
        fi
    done
    snapshot | cmp -s - before || fail "$1: the folder has changed"
}
fresh
reads_log 'the log of an empty folder' 0 '' '' $'groups 0 incomplete 0\n'
goes_on 'a journal' 0 '' create.aria run
reads_log 'the log beside a journal' 5 $'aria: missing aria_log_control\n' '' ''

# page FILE BYTES: the last page of a file that begins with these bytes, as printf takes them
page() {
    printf "$2" >> "$1"
    truncate -s %8192 "$1"
}
control='ge\x011ARIAOWN1\0\0\x02\0\0\x20\x10\0\0\x01\0\0\0\x10'
commit='\xea\xa9\xcb\x6d\0\0\x01\0\0\0\0\x0a\x01\0\0\x0a\0\0\0\x06\x01\x0f'
fresh
page folder/aria_log_control "$control"
page "$log" "$commit"
reads_log 'the log of a commit' 0 '' $'(1,0x10) COMMIT\n' $'groups 1 incomplete 0\n'
(cd folder && exec ../aria read_log -d) < /dev/null > /dev/full 2> error
is_status 'the log on a full standard output' 7 $?
is_error 'the log on a full standard output' ''
printf 'x' | dd of=folder/aria_log_control bs=1 seek=100 conv=notrunc status=none
reads_log 'a damaged control file' 5 $'aria: damaged control\n' '' ''

# ends of the input
runs 'an empty input' 0 '' /dev/null run
tells_text 'an empty input' ''
printf '%s' "${create%$'\n'}" > open_end.aria
runs 'a last line without LF' 0 '' open_end.aria run
tells_text 'a last line without LF' $'ok\n'
printf '\n \t\r\n%s\r\n\n' "${create%$'\n'}" > blank.aria
runs 'blank lines tell nothing' 0 '' blank.aria run
tells_text 'blank lines tell nothing' $'ok\n'

# input and output that fail
fresh
goes_on 'a folder as input' 6 "$input_fault" "$room" run
tells_text 'a folder as input' ''
(cd folder && exec ../aria run) <&- > told 2> error
is_status 'standard input is closed' 6 $?
is_error 'standard input is closed' "$input_fault"
{
    cat create.aria
    inserts 1 3
} > three.aria
fresh
(cd folder && exec ../aria run) < three.aria > /dev/full 2> error
is_status 'standard output is full' 7 $?
is_error 'standard output is full' ''
has_rows 'a create that could not be told' 1 0
inserts 1 3 > more.aria
(cd folder && exec ../aria run) < more.aria >&- 2> error
is_status 'standard output is closed' 7 $?
is_error 'standard output is closed' ''
has_rows 'an insert that could not be told' 1 1

# input that is no text: each line that isn't blank is refused, and leaves nothing
python3 -c '
import random, sys
numbers = random.Random(1)
sys.stdout.buffer.write(bytes(numbers.getrandbits(8) for _ in range(500000)))' > noise
runs 'no text' 1 '' noise run
LC_ALL=C grep -a -c $'[^ \t\r]' noise > wanted_count
yes 'no bad statement at' | head -n "$(cat wanted_count)" > wanted
mv told told_at
sed 's/ [0-9]*$//' told_at > told
tells 'no text' wanted
[[ ! -s $log ]] || fail 'no text: the log has lines'

# long lines
{
    cat create.aria
    head -c 2000000 /dev/zero | tr '\0' x
    printf '\nselect t k\n'
} > long.aria
runs 'a line of 2,000,000 bytes' 1 '' long.aria run
tells_text 'a line of 2,000,000 bytes' $'ok\nno line too long\nok 0\n'

# many rows
{
    cat create.aria
    printf 'insert t'
    seq 65536 -1 1 | awk '{ printf " (%d,%d)", $1, 7 * $1 }'
    printf '\nselect t k\n'
} > rows.aria
runs '65,536 rows in one statement' 0 '' rows.aria run
{
    printf 'ok\nok 65536\n'
    seq 1 65536 | awk '{ print "row " $1 "," 7 * $1 }'
    printf 'ok 65536\n'
} > wanted
tells '65,536 rows in one statement' wanted
has_rows '65,536 rows in the next run' 1 65536

# less_memory INPUT: a run with less memory than the rows need, in the folder as it is
less_memory() {
    (
        cd folder || exit 2
        ulimit -v 10000
        exec ../aria run
    ) < "$1" > told 2> error
}

snapshot > before
less_memory /dev/null
is_status 'the memory is less than the rows of the log need' 3 $?
is_error 'the memory is less than the rows of the log need' "$no_memory"
snapshot | cmp -s - before || fail 'the memory is less than the rows of the log need: the folder has changed'
runs 'before the memory is short' 0 '' create.aria run
sed 1d rows.aria > more.aria
less_memory more.aria
is_status 'the memory is less than the rows need' 3 $?
is_error 'the memory is less than the rows need' "$no_memory"
count=$(grep -c '^ok 65536$' told)
goes_on 'the run after one without memory' 0 '' select.aria run
rows=$(grep -c '^row' told)
[[ $rows -eq 65536 || ( $rows -eq 0 && $count -eq 0 ) ]] || fail "the run after one without memory: $rows rows"
{
    cat create.aria
    printf 'insert t'
    seq 1 65537 | awk '{ printf "(%d,0)", $1 }'
    printf '\nselect t k\n'
} > too_many.aria
runs '65,537 rows in one statement' 1 '' too_many.aria run
tells_text '65,537 rows in one statement' $'ok\nno too many rows\nok 0\n'

# many statements
{
    cat create.aria
    yes 'select t k' | head -n 100000
} > statements.aria
runs '100,000 statements' 0 '' statements.aria run
{
    echo ok
    yes 'ok 0' | head -n 100000
} > wanted
tells '100,000 statements' wanted
{
    cat create.aria
    inserts 1 300
} > statements.aria
fresh
(cd folder && exec ../aria run) < statements.aria 2> error | head -n 1 > told
is_status 'the reader of standard output goes away' 7 "${PIPESTATUS[0]}"
tells_text 'the reader of standard output goes away' $'ok\n'
is_error 'the reader of standard output goes away' ''
goes_on 'the run after the reader went away' 0 '' select.aria run
has_rows 'the run after the reader went away' 1 "$(grep -c '^row' told)"

# changes of every kind, and the next run
cat > changes.aria <<'E'
create t trans id:int v:text(5) keys k (id) l (v)
insert t (1,'a') (2,null) (3,'''')
delete t l (null)
delete t l (null)
update t k (3) set v=x'00ff', id=-3
update t k (-3) set v='no row'
update t l ('a') set id=7
create u trans n:int keys n (n)
drop u
drop u
checkpoint
flush t
E
runs 'changes of every kind' 1 '' changes.aria run
tells_text 'changes of every kind' \
    $'ok\nok 3\nok 1\nok 0\nok 1\nno bad value v\nok 1\nok\nok\nno table u\nok\nok\n'
printf 'select t l\nselect u n\n' > more.aria
goes_on 'the run after changes of every kind' 1 '' more.aria run
tells_text 'the run after changes of every kind' $'row -3,x\'00ff\'\nrow 7,\'a\'\nok 2\nno table u\n'
[[ $(stat -c %s "$log") -eq $((7 * 8192)) ]] ||
    fail 'changes of every kind: the log has not a page for each line that changed the tables'

# Random scripts, against a second reading of the manual: about ten seconds on a quiet processor. By hand
# random_scripts.py takes other seeds and larger counts.
python3 "$top/tests/random_scripts.py" aria 1 200 > told 2>&1 || fail "random scripts: $(head -c 2000 told)"

# many runs in a folder
fresh
goes_on 'the first run' 0 '' create.aria run
inserts 1 2 > more.aria
goes_on 'the second run' 0 '' more.aria run
tells_text 'the second run' $'ok 1\nok 1\n'
printf 'create u trans n:int keys n (n)\ninsert t (3,21)\t\r\ninsert t (2,0)\nselect u n\ninsert u (-1) (5)' > more.aria
goes_on 'the third run' 1 '' more.aria run
tells_text 'the third run' $'ok\nok 1\nno duplicate k\nok 0\nok 2\n'
has_rows 'the fourth run' 1 3
printf 'select u n\ncreate t trans id:int keys k (id)\n' > more.aria
goes_on 'the fifth run' 1 '' more.aria run
tells_text 'the fifth run' $'row -1\nrow 5\nok 2\nno table exists t\n'
goes_on 'a run of nothing' 0 '' /dev/null run
has_rows 'the last run' 1 3

# The log as docs/FORMATS.md has it. write_log RUN..: makes it of these runs, each of one or more lines.
write_log() {
    python3 -c '
import sys, zlib
number = 0
for run in sys.argv[1:]:
    rest = b"".join(len(line).to_bytes(4, "big") + line for line in run.encode().split(b"\n"))
    begins = 1
    while rest:
        body, rest = rest[:8176], rest[8176:]
        page = b"\0\0\1" + number.to_bytes(4, "big") + bytes([10, begins, 0]) + len(body).to_bytes(2, "big") + body
        page += bytes(8188 - len(page))
        sys.stdout.buffer.write(zlib.crc32(page).to_bytes(4, "big") + page)
        number, begins = number + 1, 0' "$@" > "$log"
}

mv "$log" written
write_log "${create%$'\n'}" 'insert t (1,7)' 'insert t (2,14)' 'create u trans n:int keys n (n)' \
    $'insert t (3,21)\t\r' 'insert u (-1) (5)'
cmp "$log" written > difference 2>&1 || fail "the bytes of the log: $(cat difference)"
{
    cat create.aria
    inserts 1 11
} > more.aria
runs 'lines of several pages' 0 '' more.aria run
mv "$log" written
mapfile -t lines < more.aria
write_log "${lines[@]}"
cmp "$log" written > difference 2>&1 || fail "the bytes of the log, with lines of several pages: $(cat difference)"
fresh
write_log "$create$(inserts 1 3)" "$(inserts 4 8)"
has_rows 'runs of several lines' 1 8

# an end of the log that was cut or overwritten
fresh
goes_on 'before the end is torn' 0 '' more.aria run
cp "$log" whole
truncate -s -1 "$log"
has_rows 'the last page is cut' 1 10
inserts 11 11 > last.aria
goes_on 'the line of the page that was cut' 0 '' last.aria run
cmp "$log" whole > difference 2>&1 || fail "the page that was cut, anew: $(cat difference)"
truncate -s -$((8192 + 100)) "$log"
has_rows 'the last of three pages is cut' 1 9
cp whole "$log"
truncate -s -8192 "$log"
dd if=/dev/zero of="$log" bs=8192 seek=13 count=1 conv=notrunc status=none
has_rows 'the second of three pages is lost' 1 9
cmp "$log" <(head -c $((13 * 8192)) whole) > difference 2>&1 || fail "the second of three pages is lost: $(cat difference)"
for end in "head -c 8192 noise" "head -c 20000 noise" "head -c 81920 /dev/zero" "head -c 8192 whole"; do
    cp whole "$log"
    $end >> "$log"
    has_rows "behind the log: $end" 1 11
    cmp "$log" whole > difference 2>&1 || fail "behind the log: $end: $(cat difference)"
done
cp whole "$log"
head -c 100 noise >> "$log"
has_rows 'a part of a page behind the log' 1 11
inserts 12 12 > last.aria
goes_on 'a line over a part of a page' 0 '' last.aria run
has_rows 'a line over a part of a page' 1 12

# damage
fresh
for part in create.aria select.aria last.aria more.aria; do
    (cd folder && exec ../aria run) < "$part" > /dev/null
done
cp "$log" whole
for page in 0 1 2 5; do
    cp whole "$log"
    printf X | dd of="$log" bs=1 seek=$((8192 * page + 4000)) conv=notrunc status=none
    error=$(damaged_at "$page")
    stays "a byte of page $page" 5 "${error%.}"
done
exec 9< more.aria
(cd folder && exec ../aria run) <&9 > told 2> error
is_status 'input at a damaged log' 5 $?
cmp -s more.aria - <&9 || fail 'at a damaged log the input is read'
exec 9<&-

# damaged_line NAME PAGE RUN..: a log of these runs has a line that changes no tables; it begins in this page
damaged_line() {
    fresh
    write_log "${@:3}"
    local error
    error=$(damaged_at "$2")
    stays "$1" 5 "${error%.}"
}

line=${create%$'\n'}
damaged_line 'a select in the log' 1 "$line" 'select t k'
damaged_line 'a line that is refused' 2 "$line" 'insert t (1,1)' 'insert t (1,2)' 'insert t (2,2)'
damaged_line 'a delete that concerns no row' 1 "$line" 'delete t k'
damaged_line 'an update that concerns no row' 2 "$line" 'insert t (1,1)' 'update t k (2) set v=1'
damaged_line 'a drop of no table' 1 "$line" 'drop u'
damaged_line 'a checkpoint in the log' 1 "$line" 'checkpoint'
damaged_line 'no statement' 0 'frob'
damaged_line 'a blank line' 1 "$line" ' '
damaged_line 'the second line of a run' 0 "$line"$'\nselect t k'
damaged_line 'a line in the second page of its run' 1 "$(printf '%-8172s' "$line")"$'\nselect t k'
damaged_line 'a line that begins with the last byte of a page' 0 "$(printf '%-8171s' "$line")"$'\nselect t k'

# files that aren't the program's
fresh
goes_on 'before other files' 0 '' three.aria run
cp -r folder sound
for file in aria_log_control aria_log.00000000 aria_log.00000002 aria_log.16777215 x.MAI x.MAD x.TMI _1.TMD; do
    for base in nothing sound; do
        fresh
        [[ $base = nothing ]] || cp sound/* folder
        echo other > "folder/$file"
        stays "$file beside $base" 5 "aria: not ours $file"$'\n'
    done
done
rm -rf folder
cp -r sound folder
for file in aria_log aria_log.1 aria_log.16777216 aria_log.000000001 x.mai .MAI 1.MAI x.MYD x.MAI.old $'\xff.MAI' \
    "$(printf '%065d' 0 | tr 0 x).MAI"; do
    echo other > "folder/$file"
done
has_rows 'files that are left alone' 1 3
[[ $(cat folder/*[!1] | sort -u) = other ]] || fail 'files that are left alone: they have changed'

# A log of more than 2^31 pages, where a file may be so long.
fresh
if ! truncate -s 17592186052608 "$log" 2> /dev/null; then
    rm -rf folder
    big=$(mktemp -d -p /dev/shm 2> /dev/null) && chmod 755 "$big" && ln -s "$big" folder
fi
if [[ -d folder ]] && truncate -s 17592186052608 "$log" 2> /dev/null; then
    goes_on 'a log of 2^31 + 1 pages' 4 "$disk_fault" create.aria run
    tells_text 'a log of 2^31 + 1 pages' ''
    [[ $(stat -c %s "$log") -eq 17592186052608 ]] || fail 'a log of 2^31 + 1 pages: it has changed'
fi
rm -rf folder

# Folders without leave to read or write, which root doesn't heed.
other=()
if [[ $(id -u) -eq 0 ]]; then
    other=(setpriv --reuid=65534 --regid=65534 --clear-groups)
fi

# refused_as NAME FOLDER_MODE [LOG_MODE]: another user's run in the folder, with these modes, is a disk fault
refused_as() {
    fresh
    [[ $# -lt 3 ]] || cp sound/aria_log.00000001 folder
    [[ $(id -u) -ne 0 ]] || chown -R 65534:65534 folder
    [[ $# -lt 3 ]] || chmod "$3" "$log"
    snapshot > before
    (
        cd folder || exit 2
        chmod "$2" .
        exec timeout 60 "${other[@]}" "$room/aria" run
    ) < create.aria > told 2> error
    is_status "$1" 4 $?
    is_error "$1" "$disk_fault"
    tells_text "$1" ''
    chmod 755 folder
    snapshot | cmp -s - before || fail "$1: the folder has changed"
}

if "${other[@]}" test -x "$room/aria"; then
    refused_as 'a folder where no file may be made' 555
    refused_as 'a folder that may not be read' 311
    refused_as 'a folder that may not be read, with a log' 311 644
    refused_as 'a folder where no file may be looked at' 644 644
    refused_as 'a folder without any leave' 000 644
    refused_as 'a log that may not be written' 755 444
    refused_as 'a log that may not be read' 755 200
elif [[ ${CI:-} = true ]]; then
    fail 'no other user can run the program'
fi

# A limit on the size of files in mid-run: limited KIB INPUT
limited() {
    (
        cd folder || exit 2
        trap '' XFSZ
        ulimit -f "$1"
        exec ../aria run
    ) < "$2" 2> error | cat > told
    is_status "a limit of $1 KiB" 4 "${PIPESTATUS[0]}"
    is_error "a limit of $1 KiB" "$disk_fault"
}

{
    cat create.aria
    inserts 1 60
} > sixty.aria
for limit in 92 96 100 232 233; do
    fresh
    limited "$limit" sixty.aria
    count=$(($(replies) - 1))
    [[ $count -ge 3 ]] || fail "a limit of $limit KiB: only $count inserts are done"
    goes_on "after a limit of $limit KiB" 0 '' select.aria run
    rows=$(grep -c '^row' told)
    [[ $rows -ge $count ]] || fail "a limit of $limit KiB: $count inserts were told, and $rows are there"
    inserts $((rows + 1)) 60 > rest.aria
    goes_on "more after a limit of $limit KiB" 0 '' rest.aria run
    has_rows "more after a limit of $limit KiB" 1 60
done
for limit in 1 4 7; do
    fresh
    limited "$limit" create.aria
    tells_text "a limit of $limit KiB" ''
    goes_on "after a limit of $limit KiB" 0 '' create.aria run
    tells_text "after a limit of $limit KiB" $'ok\n'
done

# Faults that were found once, a script each: its first line says what went wrong, and it begins in an empty folder.
for fault in "$top"/tests/faults/*.sh; do
    fresh
    # shellcheck source=/dev/null
    source "$fault"
done

# Kills. Each run goes on with the rows that the one before left: none that was told is missing.
# keeps NAME: of the rows behind `rows` all are there that the killed run told, and `rows` is how many there are now
keeps() {
    local told_rows
    told_rows=$(($(replies) + rows))
    goes_on "$1" 0 '' select.aria run
    rows=$(grep -c '^row' told)
    [[ $rows -ge $told_rows ]] || fail "$1: $told_rows rows were told, and $rows are there"
    has_rows "$1" 1 "$rows"
}

RANDOM=7
fresh
goes_on 'before kills' 0 '' create.aria run
rows=0
for ((round = 1; round <= 30; round++)); do
    inserts $((rows + 1)) $((rows + 200)) > more.aria
    wanted_replies=$((RANDOM % 20))
    : > told
    (cd folder && exec ../aria run) < more.aria > told 2> error &
    run=$!
    if ((round % 3 > 0)); then
        while [[ $(replies) -lt $wanted_replies ]] && kill -0 "$run" 2> /dev/null; do
            sleep 0.001
        done
    fi
    sleep "0.00$((RANDOM % 10))"
    kill -KILL "$run" 2> /dev/null
    wait "$run" 2> /dev/null
    keeps "kill $round"
done
[[ $rows -ge 20 ]] || fail "kills: only $rows rows came to be"

# A kill right behind a reply, to lines that come one by one.
for ((round = 1; round <= 5; round++)); do
    mkfifo lines replies
    (cd folder && exec ../aria run) < lines > replies 2> error &
    run=$!
    exec 8> lines 9< replies
    : > told
    for line in 1 2 3; do
        inserts $((rows + line)) $((rows + line)) >&8
        read -r -t 60 reply <&9
        echo "$reply" >> told
    done
    kill -KILL "$run"
    wait "$run" 2> /dev/null
    exec 8>&- 9<&-
    rm lines replies
    [[ $(replies) -eq 3 && $(sort -u told) = 'ok 1' ]] || fail "lines one by one: $(cat told)"
    keeps "kill behind a reply $round"
done

[[ $failures -eq 0 ]]
