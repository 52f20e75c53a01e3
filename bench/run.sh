#!/usr/bin/env bash
# Times of the built program. Each is the median of five runs, which are interleaved, so that a busy moment falls on all
# of them. It measures how the time grows with the rows, up to a table of a million; the opening of a journal of 100,000
# lines, which the system still has in memory; and durable inserts, each on the disk before its reply is printed. Beside
# these stand a program that appends 8192 bytes and syncs, as often, and sqlite3 if it is installed.
# bench/run.sh [SECONDS]: about how long a run of durable inserts takes, 10 by default. It needs 2 GB of the disk.
set -eu
top=$(cd "$(dirname "${BASH_SOURCE[0]}")/.." && pwd)
aria=$top/crates/aria/out/aria
seconds=${1:-10}
small=16384
large=65536
many=250000
most_rows=1000000
lines=100000
most=20000

room=$(mktemp -d)
quick=$(mktemp -d -p /dev/shm 2> /dev/null) || quick=$(mktemp -d -p "$room")
trap 'rm -rf "$room" "$quick"' EXIT
cd "$room"

create='create t trans id:int v:int keys k (id)'

# Rows with the keys 1 to $1 in random order, one a line.
rows() {
    python3 -c '
import random, sys
numbers = list(range(1, int(sys.argv[1]) + 1))
random.Random(7).shuffle(numbers)
print("\n".join(f"({n},{n % 1000})" for n in numbers))' "$1"
}

# One insert of all rows.
for count in $small $large; do
    { echo "$create"; printf 'insert t '; rows "$count" | tr '\n' ' '; printf '\nselect t k\n'; } > "whole.$count"
done

# As many settings of one column in an update of all rows.
for count in $small $large; do
    { cat "whole.$count"; printf 'update t k set v=0'; seq -f ',v=%.0f' "$count" | tr -d '\n'; echo; } > "settings.$count"
done

# Rows with texts and a second key, one statement each for all of them.
for count in $small $large; do
    rows "$count" | sed "s/,\(.*\))/,'\1')/" | tr '\n' ' ' > texts
    create_texts='create t trans id:int v:text(20) keys k (id) l (v)'
    { echo "$create_texts"; printf 'insert t '; cat texts; echo; } > "texts.$count"
    { cat "texts.$count"; echo 'select t l'; } > "other.$count"
    { cat "texts.$count"; echo "update t k set v='another'"; } > "update.$count"
    { cat "texts.$count"; echo 'delete t l'; } > "delete.$count"
done

# A large table, put by statements of 5,000 rows, and a thousand selects by its first key.
for count in $many $most_rows; do
    { echo "$create"; rows "$count" | paste -sd ' ' | sed 's/) (/)\n(/g' | awk '
        NR % 5000 == 1 { printf "insert t " } { printf "%s", $0 } NR % 5000 == 0 { print "" }'; } > "load.$count"
    awk -v rows="$count" 'BEGIN { for (i = 1; i <= 1000; i++) print "select t k (" i * int(rows / 1000) ")" }' > picks
    cat "load.$count" picks > "picks.$count"
done

# A journal of inserts of one row each, made where a sync costs nothing. The shorter ones are its first pages.
{ echo "$create"; rows "$lines" | sed 's/^/insert t /'; } > singles
(cd "$quick" && "$aria" run < "$room/singles" > "$room/told")
for count in $small $large $lines; do
    mkdir "log.$count"
    head -c $((8192 * (count + 1))) "$quick/aria_log.00000001" > "log.$count/aria_log.00000001"
done
rm -rf "$quick"
sync

. "$top/bench/timing.sh"

in_new_folder() {
    rm -rf folder
    mkdir folder
    (cd folder && "$aria" run < "../$1" > ../told)
}

opening() {
    (cd "log.$1" && "$aria" run < /dev/null)
}

# As many durable inserts as the plain program makes in that time.
count=$(count_in "$seconds" "$most")
{ echo "$create"; rows "$count" | sed 's/^/insert t /'; } > durable
{
    echo 'pragma journal_mode = wal; pragma synchronous = full; create table t (id integer primary key, v integer);'
    rows "$count" | sed 's/.*/insert into t values &;/'
} > durable.sql

for round in 1 2 3 4 5; do
    for kind in $small $large; do
        timed "whole.$kind" in_new_folder "whole.$kind"
        timed "settings.$kind" in_new_folder "settings.$kind"
        for what in texts other update delete; do
            timed "$what.$kind" in_new_folder "$what.$kind"
        done
    done
    for kind in $many $most_rows; do
        timed "load.$kind" in_new_folder "load.$kind"
        timed "picks.$kind" in_new_folder "picks.$kind"
    done
    for kind in $small $large $lines; do
        timed "opening.$kind" opening "$kind"
    done
    timed append ./append "$count"
    timed durable in_new_folder durable
    [[ -z $sqlite ]] || timed sqlite with_sqlite
done

# grows TITLE KIND SMALL LARGE
grows() {
    awk -v title="$1" -v a="$(median "$2.$3")" -v b="$(median "$2.$4")" \
        'BEGIN { printf "%-44s %10.1f %10.1f %8.2f\n", title, a / 1000, b / 1000, b / a }'
}

# line TITLE KIND
line() {
    grows "$1" "$2" "$small" "$large"
}

# rate TITLE KIND
rate() {
    awk -v title="$1" -v count="$count" -v a="$(median "$2")" -v own="$(median durable)" \
        'BEGIN { printf "%-44s %10.0f %10.2f\n", title, count * 1000000 / a, a / own }'
}

printf '%-44s %10s %10s %8s\n' 'milliseconds at' "$small" "$large" ratio
line 'one insert of all, and a select' whole
line 'the same, and an update with as many settings' settings
line 'one insert of all, with texts and two keys' texts
line 'the same, and a select by the second key' other
line 'the same, and an update of all' update
line 'the same, and a delete of all' delete
line 'the opening of a log of one-row lines' opening
printf '\n%-44s %10s %10s %8s\n' 'milliseconds at' "$many" "$most_rows" ratio
grows 'inserts of 5,000 rows each' load "$many" "$most_rows"
grows 'the same, and 1,000 selects by the first key' picks "$many" "$most_rows"
awk -v lines="$lines" -v a="$(median "opening.$lines")" \
    'BEGIN { printf "\nthe opening of a log of %d one-row lines: %.2f seconds\n\n", lines, a / 1000000 }'
printf '%-44s %10s %10s\n' "durable one-row inserts, $count a run" 'a second' 'aria / it'
rate 'aria run' durable
rate 'append and fdatasync of 8192 bytes' append
[[ -z $sqlite ]] || rate 'sqlite3, WAL, synchronous FULL' sqlite
