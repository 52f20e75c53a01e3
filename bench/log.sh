#!/usr/bin/env bash
# How many small groups the log takes a second, each on the disk before the next: a COMMIT of 10 bytes is appended and forced.
# Beside it stand a program that appends 8192 bytes and syncs, as often, and sqlite3 if it is installed. Then how fast a log is
# read by `aria read_log -d -s`, one of a group a page and one of full pages; beside it a program that reads the same pages
# and computes their checksums alone. Each time is the median of five runs, which take turns, so that a busy moment falls on
# all of them. The built program `aria` must be there (examples/run.sh or the gate).
# bench/log.sh [SECONDS]: about how long a run takes, 10 by default. The program that stands over the log is built first, in a
# folder of its own: where nothing is kept of its crates' proofs, that takes some twenty minutes. It needs 2 GB of the disk.
set -eu
top=$(cd "$(dirname "${BASH_SOURCE[0]}")/.." && pwd)
seconds=${1:-10}
most=50000
pages=5000
groups=400000
aria=$top/crates/aria/out/aria
crates='aria_page aria_value aria_host aria_record aria_log'

room=$(mktemp -d)
trap 'rm -rf "$room"' EXIT
cd "$room"

# A repository of the log's crates and a program that stands over them.
own=$room/repo/crates/aria_log_bench
mkdir -p "$own/src" "$own/proofs/commit"
for crate in $crates; do
    mkdir "repo/crates/$crate"
    tar -C "$top/crates/$crate" -cf - --exclude=./out . | tar -C "repo/crates/$crate" -xf -
    grep "^$crate:" "$top/crates.txt" >> repo/crates.txt
done
echo 'aria_log_bench: aria_page aria_host aria_record aria_log' >> repo/crates.txt
cp "$top/HANDLES" repo

cat > "$own/src/main.rt" <<'E'
//! Appends so many groups of one COMMIT to the log of the current folder, and forces each or all at once; or reads the
//! pages of its files and computes their checksums.
#![tactic(auto)]

ghost use Rattle.std.specs.Prelude.{IfOk, ◌<◌, ◌^◌};
ghost use Rattle.aria_log.specs.Spelling.{IsSpelled};

use aria_host::{DirHost, Fault, FileName, Host};
use aria_log::Log;
use aria_page::{Bytes, List, Page};
use aria_record::{Group, Record, encode_group};
use std::alloc::{AllocError, Global};
use std::env;
use std::process::ExitCode;

// The log has fewer files than this.
const FILES: u32 = 100;

fn commit(alloc: Global) -> Result<Bytes, AllocError>
    ensures { IfOk result IsSpelled }
{
    let mut group: Group = List::new(alloc);
    group.push(Record::Commit)?;
    let bytes = encode_group(alloc, &group)?;
    Ok(bytes)
}

fn write(rt: &HostRuntime, count: u32, each: bool) -> Result<(), Fault> {
    let _file = FileName::Log(1);
    let group = commit(rt.alloc())?;
    let mut host = DirHost::new(rt);
    let mut log = Log::fresh(&host);
    log.start(&mut host)?;
    for _nth in 0..count {
        log.append(&mut host, group.as_slice())?;
        if each {
            log.force(&mut host)?;
        }
    }
    log.force(&mut host)
}

fn pages_of(host: &mut DirHost, file: u32) -> Result<u32, Fault>
    requires { file < 2 ^ 24 }
{
    match host.look(&FileName::Log(file))? {
        None => Ok(0),
        Some(extent) => Ok(extent.pages),
    }
}

fn sum(rt: &HostRuntime) -> Result<u32, Fault> {
    let mut host = DirHost::new(rt);
    let mut page = Page::zero();
    let mut sound: u32 = 0;
    for file in 1..FILES {
        for number in 0..pages_of(&mut host, file)? {
            host.read_page(&FileName::Log(file), number, &mut page)?;
            if page.sums() {
                sound = sound.wrapping_add(1);
            }
        }
    }
    Ok(sound)
}

// What the words ask for: `force COUNT`, `append COUNT` or `sum`.
fn run(rt: &HostRuntime) -> Result<(), Fault> {
    let Ok(mut words) = env::args(rt) else {
        return Err(Fault::Input);
    };
    let _name = words.next();
    let (Some(word), Some(text)) = (words.next(), words.next()) else {
        return sum(rt).map(|_sound| ());
    };
    let Ok(count) = text.parse::<u32>() else {
        return Err(Fault::Input);
    };
    write(rt, count, word.as_str() == "force")
}

fn main(rt: HostRuntime) -> ExitCode {
    match run(&rt) {
        Ok(()) => ExitCode::from(0),
        Err(_) => ExitCode::from(1),
    }
}
E

cat > "$own/proofs/commit/Answers.antt" <<'E'
use Rattle.std.proofs.Common.{◌∙◌, List, [], ◌∷◌, ◌++◌, sym, ap, subst}
use Rattle.aria_record.specs.declared.record.Record.{Record}
use Rattle.aria_record.specs.declared.record.Record.TheVariants.{Commit}
use Rattle.aria_record.specs.Groups.{IsGroup}
use Rattle.aria_record.specs.Spelled.{group_bytes}
use Rattle.aria_log.proofs.Testing.{commit_is}
use Rattle.aria_log_bench.proofs.commit.Goals as goal

pub encode_group-requires : goal.encode_group-requires
encode_group-requires c = subst (λ (l : List Record). IsGroup l) (sym (c.in_ok-push.ensures.ok ∙ ap (λ (l : List Record). l ++ Commit ∷ []) c.new-group.ensures)) commit_is

pub returns : goal.returns
returns c = (Commit ∷ [], commit_is, c.in_ok-bytes.ensures.spelled ∙ ap group_bytes (c.in_ok-push.ensures.ok ∙ ap (λ (l : List Record). l ++ Commit ∷ []) c.new-group.ensures))
E

# Built, and run once for no group.
(cd "$own" && rt run -- force 0) > built 2>&1 || {
    tail -n 20 built >&2
    exit 1
}

. "$top/bench/timing.sh"

in_new_folder() {
    rm -rf folder
    mkdir folder
    (cd folder && "$own/out/aria_log_bench" force "$1")
}

# A folder whose log holds COMMITs. The control file is the example in docs/FORMATS.md.
with_log() {
    mkdir "$1"
    (cd "$1" && "$own/out/aria_log_bench" "$2" "$3")
    printf 'ge\x011ARIAOWN1\0\0\x02\0\0\x20\x10\0\0\x01\0\0\0\x10' > "$1/aria_log_control"
    truncate -s 8192 "$1/aria_log_control"
}

reads() {
    (cd "$1" && "$aria" read_log -d -s > ../told)
}

sums() {
    (cd "$1" && "$own/out/aria_log_bench" sum)
}

# As many groups as the plain program appends pages in that time.
count=$(count_in "$seconds" "$most")
{
    echo 'pragma journal_mode = wal; pragma synchronous = full; create table t (id integer primary key, v integer);'
    seq "$count" | sed 's/.*/insert into t values (&,1);/'
} > durable.sql

with_log single force "$pages"
with_log full append "$groups"

for round in 1 2 3 4 5; do
    timed append ./append "$count"
    timed log in_new_folder "$count"
    [[ -z $sqlite ]] || timed sqlite with_sqlite
    for kind in single full; do
        timed "read.$kind" reads "$kind"
        timed "sum.$kind" sums "$kind"
    done
done

# rate TITLE KIND
rate() {
    awk -v title="$1" -v count="$count" -v a="$(median "$2")" -v own="$(median log)" \
        'BEGIN { printf "%-44s %10.0f %10.2f\n", title, count * 1000000 / a, a / own }'
}

printf '%-44s %10s %10s\n' "durable groups of 10 bytes, $count a run" 'a second' 'log / it'
rate 'append and force' log
rate 'append and fdatasync of 8192 bytes' append
[[ -z $sqlite ]] || rate 'sqlite3, WAL, synchronous FULL' sqlite

# reading TITLE KIND
reading() {
    awk -v title="$1" -v bytes="$(cat "$2"/aria_log.* | wc -c)" -v a="$(median "read.$2")" -v b="$(median "sum.$2")" \
        'BEGIN { printf "%-44s %10.0f %10.2f\n", title, bytes / a, b / a }'
}

printf '%-44s %10s %10s\n' 'a log is read' 'MB/s' 'it / sums'
reading "$pages pages of a group each" single
reading "$groups groups of 10 bytes in full pages" full
