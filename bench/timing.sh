# What the benchmarks share, read by them in the folder that they run in: the program that appends 8192 bytes and syncs, as
# often as it is told; the times of runs, each the median of five; and sqlite3.

cat > append.c <<'E'
#define _GNU_SOURCE
#include <fcntl.h>
#include <stdlib.h>
#include <unistd.h>

int main(int count, char **words) {
    static char page[8192];
    long pages = count > 1 ? atol(words[1]) : 0;
    int file = open("appended", O_RDWR | O_CREAT | O_TRUNC, 0644);
    for (long n = 0; n < pages; n++) {
        page[n % 8192]++;
        if (pwrite(file, page, 8192, n * 8192) != 8192 || fdatasync(file) != 0)
            return 1;
    }
    return close(file);
}
E
cc -O2 -o append append.c

# timed NAME COMMAND..: the time of one run, in microseconds, is added to `times.NAME`.
timed() {
    local name=$1
    shift
    local begin=${EPOCHREALTIME/[.,]/}
    "$@"
    local end=${EPOCHREALTIME/[.,]/}
    echo $((end - begin)) >> "times.$name"
}

median() {
    sort -n "times.$1" | sed -n 3p
}

# count_in SECONDS MOST: how many pages the plain program appends in that time, at most so many
count_in() {
    timed probe ./append 200
    local each=$(($(cat times.probe) / 200 + 1))
    local count=$(($1 * 1000000 / each))
    echo $((count > $2 ? $2 : count))
}

# sqlite3, if it is installed, and a run of it that executes the file `durable.sql`
sqlite=$(command -v sqlite3) || sqlite=

with_sqlite() {
    rm -f base*
    sqlite3 base < durable.sql > told
}
