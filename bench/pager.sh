#!/usr/bin/env bash
# How fast a pager is. First how many groups of edits it ends a second, of one page or of four, with a force behind each
# thousand, where all pages are held; beside it sqlite3, if it is installed, on as many updates of one row in transactions of a
# thousand. Then how many pages it loads a second in random order, with room for few of the file's pages and for most of them;
# beside it a program that reads the same pages and computes their checksums. Then how fast the folder is opened after a crash,
# in bytes of the log, and in how much memory; beside it a program that computes the checksums of the log's pages alone.
# Each time is the median of five runs, which take turns, so that a busy moment falls on all of them.
# bench/pager.sh [SHARE]: the sizes are divided by SHARE, 1 by default. The program that stands over the pager is built first, in
# a folder of its own: where nothing is kept of its crates' proofs, that takes long. It needs 2 GB of the disk and of memory.
set -eu
top=$(cd "$(dirname "${BASH_SOURCE[0]}")/.." && pwd)
share=${1:-1}
small=1000
edits=$((500000 / share))
large=$((100000 / share))
loads=$((500000 / share))
most=$((65536 / share))
crashed=$((10000 / share))
groups=$((1000000 / share))
crates='aria_page aria_value aria_host aria_record aria_control aria_log aria_cache aria_recovery aria_pager'

room=$(mktemp -d)
trap 'rm -rf "$room"' EXIT
cd "$room"

# A repository of the pager's crates and a program that stands over them.
own=$room/repo/crates/aria_pager_bench
mkdir -p "$own/src" "$own/specs" "$own/proofs"/{put_group,put_in,load_in,force,make,edit,loads}
for crate in $crates; do
    mkdir "repo/crates/$crate"
    tar -C "$top/crates/$crate" -cf - --exclude=./out . | tar -C "repo/crates/$crate" -xf -
    grep "^$crate:" "$top/crates.txt" >> repo/crates.txt
done
echo "aria_pager_bench: $crates" >> repo/crates.txt
cp "$top/HANDLES" repo

cat > "$own/src/main.rt" <<'E'
//! Makes a table of so many data pages in the current folder, and closes it; ends groups of edits on them, and doesn't close
//! it; loads them; or reads the same pages, or those of the log, and computes their checksums.
#![tactic(auto)]

ghost use Rattle.std.specs.Prelude.{◌≡◌, ◌+◌, ◌<◌, ◌≤◌, ◌^◌, List, false, true, IsTrue, IsSome, IfOk, OnErr};
ghost use Rattle.aria_value.specs.Defined.{IsDefinition};
ghost use Rattle.aria_record.specs.Logged.{Logged};
ghost use Rattle.aria_cache.specs.Calls.{HasRoom, SameSlots};
ghost use Rattle.aria_pager_bench.specs.Ready.{IsReady};

use aria_cache::{OpenGroup, PageId, Pages};
use aria_host::{DirHost, Fault, FileName, Host};
use aria_page::{Change, Last, Name, Page, Part, Place, Places, RedoKind};
use aria_pager::{PageStore, Pager};
use aria_value::{Definition, decode_definition};
use std::alloc::{AllocError, Global};
use std::env;
use std::process::ExitCode;

// The column a of numbers with the key k on it, and one row at most: 17 bytes.
const STORED: &[u8] = b"\x01\x01a\0\0\0\0\0\x01\x01k\x01\0\0\0\0\x01";

// What ends a group that puts a row on one page, without tail and blobs.
const ROW: Last = Last::RowInsert {
    places: Places {
        head: Place { page: 1, slot: 0 },
        tail: None,
        blob: 0,
        blobs: 0,
    },
};

// The log has fewer files than this.
const FILES: u32 = 100;

// A force stands behind so many groups.
const EACH: u32 = 1000;

// The next number of a linear congruential generator.
fn next(seed: u32) -> u32 {
    seed.wrapping_mul(1664525).wrapping_add(1013904223)
}

// Puts 8 bytes into a page, as part of the open group.
fn put_word<P: Pages>(
    alloc: Global,
    pages: &mut P,
    group: &mut OpenGroup,
    at: PageId,
) -> Result<(), Fault>
    requires stands { P.stands pages.old }
    requires open { IsTrue ((P.state pages.old).is_open at.slot) }
    requires group { (P.state pages.old).in_group ≡ true }
    requires low { at.page < 2 ^ 31 }
    requires room { IsTrue P.logged → HasRoom 1 (P.state pages.old) }
    ensures stands { P.stands pages.new }
    ensures moves { P.stays pages.old pages.new }
    ensures slots { SameSlots (P.state pages.old) (P.state pages.new) }
    ensures in_group { (P.state pages.new).in_group ≡ true }
    ensures touched { (P.state pages.new).touched ≤ (P.state pages.old).touched + 1 }
    ensures made { (P.state pages.new).made ≤ (P.state pages.old).made + 1 }
    ensures kept { OnErr result (IsSome (P.state pages.new).kept) }
{
    let _file = FileName::Control;
    let bytes = [1; 8];
    pages.edit(
        alloc,
        group,
        at,
        RedoKind::InsertRowHead,
        &[Change::Set {
            at: 64,
            bytes: &bytes,
        }],
    )
}

// Puts 8 bytes into each of four pages, as part of the open group.
fn put_four<P: Pages>(
    alloc: Global,
    pages: &mut P,
    group: &mut OpenGroup,
    slot: u32,
    page: u32,
) -> Result<(), Fault>
    requires stands { P.stands pages.old }
    requires open { IsTrue ((P.state pages.old).is_open slot) }
    requires group { (P.state pages.old).in_group ≡ true }
    requires low { page + 3 < 2 ^ 31 }
    requires touched { (P.state pages.old).touched ≡ 0 }
    requires made { (P.state pages.old).made ≡ 0 }
    ensures stands { P.stands pages.new }
    ensures moves { P.stays pages.old pages.new }
    ensures slots { SameSlots (P.state pages.old) (P.state pages.new) }
    ensures in_group { (P.state pages.new).in_group ≡ true }
    ensures kept { OnErr result (IsSome (P.state pages.new).kept) }
{
    let _file = FileName::Control;
    let part = Part::Rows;
    put_word(alloc, pages, group, PageId { slot, part, page })?;
    put_word(
        alloc,
        pages,
        group,
        PageId {
            slot,
            part,
            page: page + 1,
        },
    )?;
    put_word(
        alloc,
        pages,
        group,
        PageId {
            slot,
            part,
            page: page + 2,
        },
    )?;
    put_word(
        alloc,
        pages,
        group,
        PageId {
            slot,
            part,
            page: page + 3,
        },
    )
}

// Puts 8 bytes into one page or into four, as part of the open group.
fn put_words<P: Pages>(
    alloc: Global,
    pages: &mut P,
    group: &mut OpenGroup,
    slot: u32,
    page: u32,
    four: bool,
) -> Result<(), Fault>
    requires stands { P.stands pages.old }
    requires open { IsTrue ((P.state pages.old).is_open slot) }
    requires group { (P.state pages.old).in_group ≡ true }
    requires low { page + 3 < 2 ^ 31 }
    requires touched { (P.state pages.old).touched ≡ 0 }
    requires made { (P.state pages.old).made ≡ 0 }
    ensures stands { P.stands pages.new }
    ensures moves { P.stays pages.old pages.new }
    ensures slots { SameSlots (P.state pages.old) (P.state pages.new) }
    ensures in_group { (P.state pages.new).in_group ≡ true }
    ensures kept { OnErr result (IsSome (P.state pages.new).kept) }
{
    if four {
        return put_four(alloc, pages, group, slot, page);
    }
    let at = PageId {
        slot,
        part: Part::Rows,
        page,
    };
    put_word(alloc, pages, group, at)
}

// A group that puts 8 bytes into one page or into four.
fn put_group<P: Pages>(
    alloc: Global,
    pages: &mut P,
    slot: u32,
    page: u32,
    four: bool,
) -> Result<(), Fault>
    requires stands { P.stands pages.old }
    requires open { IsTrue ((P.state pages.old).is_open slot) }
    requires none { (P.state pages.old).in_group ≡ false }
    requires low { page + 3 < 2 ^ 31 }
    ensures stands { P.stands pages.new }
    ensures moves { (groups : List Logged) × P.ends pages.old pages.new groups }
    ensures slots { SameSlots (P.state pages.old) (P.state pages.new) }
    ensures none { (P.state pages.new).in_group ≡ false }
{
    let mut group = pages.group();
    match put_words(alloc, pages, &mut group, slot, page, four) {
        Ok(()) => match pages.end(alloc, group, slot, &ROW) {
            Ok(_) => Ok(()),
            Err(fault) => Err(fault),
        },
        Err(fault) => {
            pages.leave(group);
            Err(fault)
        }
    }
}

// The same over a pager.
fn put_in(
    alloc: Global,
    pager: &mut Pager<'_, DirHost>,
    slot: u32,
    page: u32,
    four: bool,
) -> Result<(), Fault>
    requires ready { IsReady pager.old.store.now slot }
    requires low { page + 3 < 2 ^ 31 }
    ensures host { pager.new.host.ghost_name ≡ pager.old.host.ghost_name }
    ensures store { pager.new.store.ghost_name ≡ pager.old.store.ghost_name }
    ensures ready { IsReady pager.new.store.now slot }
{
    put_group(alloc, pager, slot, page, four)
}

fn put(
    alloc: Global,
    store: &mut PageStore,
    host: &mut DirHost,
    slot: u32,
    page: u32,
    four: bool,
) -> Result<(), Fault>
    requires { IsReady store.old slot }
    ensures { IsReady store.new slot }
{
    let _file = FileName::Control;
    if page >= 1 << 30 {
        return Err(Fault::Input);
    }
    let mut pager = store.pager(host);
    put_in(alloc, &mut pager, slot, page, four)
}

fn force(store: &mut PageStore, host: &mut DirHost, slot: u32) -> Result<(), Fault>
    requires { IsReady store.old slot }
    ensures { IsReady store.new slot }
{
    store.force(host)
}

// Loads a page of the data file.
fn load_in(alloc: Global, pager: &mut Pager<'_, DirHost>, slot: u32, seed: u32) -> Result<(), Fault>
    requires { IsReady pager.old.store.now slot }
    ensures host { pager.new.host.ghost_name ≡ pager.old.host.ghost_name }
    ensures store { pager.new.store.ghost_name ≡ pager.old.store.ghost_name }
    ensures ready { IsReady pager.new.store.now slot }
{
    let _file = FileName::Control;
    let count = pager.count(slot, Part::Rows);
    if count == 0 {
        return Err(Fault::Input);
    }
    let at = PageId {
        slot,
        part: Part::Rows,
        page: seed / 256 % count,
    };
    pager.load(alloc, at)
}

fn load(
    alloc: Global,
    store: &mut PageStore,
    host: &mut DirHost,
    slot: u32,
    seed: u32,
) -> Result<(), Fault>
    requires { IsReady store.old slot }
    ensures { IsReady store.new slot }
{
    let mut pager = store.pager(host);
    load_in(alloc, &mut pager, slot, seed)
}

fn definition(alloc: Global) -> Result<Definition, AllocError>
    ensures { IfOk result IsDefinition }
{
    match decode_definition(alloc, STORED)? {
        Some(definition) => Ok(definition),
        None => Err(AllocError),
    }
}

fn table_name() -> Result<Name, AllocError> {
    Name::read(b"t").ok_or(AllocError)
}

// The folder is opened, and gives its table, which is made where there is none.
fn enter(alloc: Global, host: &mut DirHost, room: u32) -> Result<(PageStore, u32), Fault>
    ensures { IfOk result (λ entered. IsReady entered.0 entered.1) }
{
    let _file = FileName::Control;
    let name = table_name()?;
    let mut store = PageStore::open(alloc, host, room)?;
    if store.has_table(&name) {
        let slot = store.table(host, &name)?;
        return Ok((store, slot));
    }
    let definition = definition(alloc)?;
    let slot = store.create_table(alloc, host, &name, &definition)?;
    Ok((store, slot))
}

// One group for each page, and all to its files.
fn make(alloc: Global, host: &mut DirHost, count: u32, room: u32) -> Result<(), Fault> {
    let _file = FileName::Control;
    let (mut store, slot) = enter(alloc, host, room)?;
    for page in 1..count {
        put(alloc, &mut store, host, slot, page, false)?;
    }
    store.close(alloc, host)
}

// So many groups on these pages, each on the disk before the next thousand is begun. The folder isn't closed.
fn edit(
    alloc: Global,
    host: &mut DirHost,
    count: u32,
    pages: u32,
    room: u32,
    four: bool,
) -> Result<(), Fault> {
    let _file = FileName::Control;
    let (mut store, slot) = enter(alloc, host, room)?;
    let mut seed: u32 = 1;
    for nth in 0..count {
        seed = next(seed);
        let page = seed / 256 % pages.max(1);
        put(alloc, &mut store, host, slot, page, four)?;
        if nth % EACH == EACH - 1 {
            force(&mut store, host, slot)?;
        }
    }
    store.force(host)
}

fn loads(alloc: Global, host: &mut DirHost, count: u32, room: u32) -> Result<(), Fault> {
    let _file = FileName::Control;
    let (mut store, slot) = enter(alloc, host, room)?;
    let mut seed: u32 = 1;
    for _nth in 0..count {
        seed = next(seed);
        load(alloc, &mut store, host, slot, seed)?;
    }
    Ok(())
}

fn pages_of(host: &mut DirHost, file: &FileName) -> Result<u32, Fault> {
    let _file = FileName::Control;
    match host.look(file)? {
        None => Ok(0),
        Some(extent) => Ok(extent.pages),
    }
}

// Reads pages of the data file at the same places, and computes their checksums.
fn reads(host: &mut DirHost, count: u32) -> Result<u32, Fault> {
    let _file = FileName::Control;
    let file = FileName::Rows(table_name()?);
    let pages = pages_of(host, &file)?.max(1);
    let mut page = Page::zero();
    let mut sound: u32 = 0;
    let mut seed: u32 = 1;
    for _nth in 0..count {
        seed = next(seed);
        host.read_page(&file, seed / 256 % pages, &mut page)?;
        if page.sums() {
            sound = sound.wrapping_add(1);
        }
    }
    Ok(sound)
}

// Reads the pages of the log, and computes their checksums.
fn sums(host: &mut DirHost) -> Result<u32, Fault> {
    let _file = FileName::Control;
    let mut page = Page::zero();
    let mut sound: u32 = 0;
    for file in 1..FILES {
        for number in 0..pages_of(host, &FileName::Log(file))? {
            host.read_page(&FileName::Log(file), number, &mut page)?;
            if page.sums() {
                sound = sound.wrapping_add(1);
            }
        }
    }
    Ok(sound)
}

// What the words ask for.
fn obey(rt: &HostRuntime, word: &str, count: u32, pages: u32, room: u32) -> Result<(), Fault> {
    let _file = FileName::Control;
    let alloc = rt.alloc();
    let mut host = DirHost::new(rt);
    if word == "make" {
        return make(alloc, &mut host, pages, room);
    }
    if word == "one" {
        return edit(alloc, &mut host, count, pages, room, false);
    }
    if word == "four" {
        return edit(alloc, &mut host, count, pages, room, true);
    }
    if word == "load" {
        return loads(alloc, &mut host, count, room);
    }
    if word == "read" {
        return reads(&mut host, count).map(|_sound| ());
    }
    sums(&mut host).map(|_sound| ())
}

// A word: `make`, `one`, `four`, `load`, `read` or `sum`; how often; of how many pages; with room for how many.
fn run(rt: &HostRuntime) -> Result<(), Fault> {
    let _file = FileName::Control;
    let Ok(mut words) = env::args(rt) else {
        return Err(Fault::Input);
    };
    let _name = words.next();
    let (Some(word), Some(first)) = (words.next(), words.next()) else {
        return Err(Fault::Input);
    };
    let (Some(second), Some(third)) = (words.next(), words.next()) else {
        return Err(Fault::Input);
    };
    let (Ok(count), Ok(pages), Ok(room)) = (
        first.parse::<u32>(),
        second.parse::<u32>(),
        third.parse::<u32>(),
    ) else {
        return Err(Fault::Input);
    };
    obey(rt, word.as_str(), count, pages, room)
}

fn main(rt: HostRuntime) -> ExitCode {
    match run(&rt) {
        Ok(()) => ExitCode::from(0),
        Err(_) => ExitCode::from(1),
    }
}
E

echo 'pub mod Ready' > "$own/specs/Lib.antt"

cat > "$own/specs/Ready.antt" <<'E'
-- A pager between calls, with a table.
use Rattle.std.specs.Prelude.{◌≡◌, ℕ, false, is_some, IsTrue}
use Rattle.aria_pager.specs.declared.page_store.PageStore.{PageStore}
use Rattle.aria_pager.specs.PageStore.{name_at}
use Rattle.aria_pager.specs.View.{IsTidy}

-- no group is open, and the slot stands for a table
pub record IsReady (store : PageStore) (slot : ℕ) : Type 0 where
  pub tidy : IsTidy store
  pub none : store.in_group ≡ false
  pub stands : IsTrue (is_some (name_at store slot))
E

cat > "$own/proofs/put_group/Answers.antt" <<'E'
use Rattle.aria_pager_bench.proofs.put_group.Goals as goal

pub returns-in-Ok-end-clause-moves : goal.returns-in-Ok-end-clause-moves
returns-in-Ok-end-clause-moves g c = (
  _,
  g.met.P.Pages.ends_behind c.args.pages.now c.put_words.new.pages c.end.new.self _
      (g.met.P.Pages.stays_on c.args.pages.now c.group-group.new.self c.put_words.new.pages c.group-group.ensures.moves c.put_words.ensures.moves) c.in-Ok-end.ensures.ended.moves,
)
E

cat > "$own/proofs/put_in/Answers.antt" <<'E'
use Rattle.std.proofs.Common.{ℕ, Bool, IsTrue, sym, subst}
use Rattle.aria_pager_bench.proofs.put_in.Goals as goal

pub returns-clause-ready : goal.returns-clause-ready
returns-clause-ready c = record {
  tidy = c.put_group.ensures.stands.0;
  none = c.put_group.ensures.none;
  stands = subst (λ (opens : ℕ → Bool). IsTrue (opens c.args.slot)) (sym c.put_group.ensures.slots.is_open) c.requires.ready.stands;
}

pub returns-clause-host : goal.returns-clause-host
returns-clause-host c = c.put_group.ensures.moves.1.0

pub returns-clause-store : goal.returns-clause-store
returns-clause-store c = c.put_group.ensures.moves.1.1
E

cat > "$own/proofs/load_in/Answers.antt" <<'E'
use Rattle.std.proofs.Common.{◌∙◌, ℕ, Bool, IsTrue, sym, subst}
use Rattle.aria_pager_bench.proofs.load_in.Goals as goal

pub returns-clause-ready : goal.returns-clause-ready
returns-clause-ready c = record {
  tidy = c.load.ensures.stands.0;
  none = c.load.ensures.loads.group.in_group ∙ c.requires.none;
  stands = subst (λ (opens : ℕ → Bool). IsTrue (opens c.args.slot)) (sym c.load.ensures.loads.slots.is_open) c.requires.stands;
}
E

cat > "$own/proofs/force/Answers.antt" <<'E'
use Rattle.std.proofs.Common.{◌∙◌, ℕ, IsTrue, Option, List, is_some, sym, subst}
use Rattle.aria_pager_bench.proofs.force.Goals as goal

pub returns : goal.returns
returns c = record {
  tidy = c.force.ensures.tidy;
  none = c.force.ensures.same.in_group ∙ c.requires.none;
  stands = subst (λ (names : ℕ → Option (List ℕ)). IsTrue (is_some (names c.args.slot))) (sym c.force.ensures.same.slots) c.requires.stands;
}
E

# The loops keep the pager ready.
for loop in make:page edit:nth loads:nth; do
    cat > "$own/proofs/${loop%:*}/Invariants.antt" <<E
use Rattle.aria_pager_bench.specs.Ready.{IsReady}
use Rattle.aria_pager_bench.proofs.${loop%:*}.Given as goal

abbrev pub invariant-loop-${loop#*:} : goal.invariant-loop-${loop#*:}
invariant-loop-${loop#*:} l = IsReady l.store l.slot
E
done

# Built, and run once for no page.
(cd "$own" && rt run -- sum 0 0 0) > built 2>&1 || {
    tail -n 20 built >&2
    exit 1
}

. "$top/bench/timing.sh"

# on FOLDER WORD COUNT PAGES ROOM: the program runs in the folder
on() {
    (cd "$1" && shift && "$own/out/aria_pager_bench" "$@")
}

# A copy of a folder, which the disk has.
copied() {
    rm -rf folder
    cp -r "$1" folder
    sync
}

# Tables of so many pages: a few, many, and some that a crash has left with a long log.
mkdir few many crash
on few make 0 "$small" 2048
on many make 0 "$large" "$large"
on crash make 0 "$crashed" 16384
on crash one "$groups" "$crashed" 16384

# As many pages of rows of about 100 bytes, and an update of a row chosen at random for each group.
if [[ -n $sqlite ]]; then
    echo "pragma page_size = 8192; pragma journal_mode = wal; create table t (id integer primary key, v integer, w text);
        with recursive n(i) as (select 1 union all select i + 1 from n where i < 75 * $small)
        insert into t select i, 0, printf('%.90c', 'w') from n;" | sqlite3 base > told
    {
        echo 'pragma journal_mode = wal; pragma synchronous = full; pragma cache_size = 2048;'
        awk -v edits="$edits" -v rows="$((75 * small))" 'BEGIN { for (n = 0; n < edits; n++) {
            if (n % 1000 == 0) print (n ? "commit; begin;" : "begin;")
            x = (x * 1664525 + 1013904223) % 4294967296
            print "update t set v = " n " where id = " 1 + int(x / 256) % rows ";" } print "commit;" }'
    } > updates.sql
fi

with_updates() {
    sqlite3 folder/base < updates.sql > told
}

for round in 1 2 3 4 5; do
    for kind in one four; do
        copied few
        timed "$kind.none" on folder "$kind" 0 "$((small - 3))" 2048
        copied few
        timed "$kind" on folder "$kind" "$edits" "$((small - 3))" 2048
    done
    if [[ -n $sqlite ]]; then
        rm -rf folder
        mkdir folder
        cp base folder
        sync
        timed sqlite with_updates
    fi
    for held in 64 "$most"; do
        timed "load.$held.none" on many load 0 0 "$held"
        timed "load.$held" on many load "$loads" 0 "$held"
    done
    timed read on many read "$loads" 0 0
    for held in 1024 16384; do
        copied crash
        timed "open.$held" on folder load 0 0 "$held"
    done
    timed sum on crash sum 0 0 0
done
copied crash
(cd folder && command time -f %M -o ../memory "$own/out/aria_pager_bench" load 0 0 1024)

# spent KIND: the median of a kind, less that of the same for nothing
spent() {
    echo $(($(median "$1") - $(median "$1.none")))
}

# rate TITLE COUNT TIME OTHER: how many a second, and how that stands to the other time
rate() {
    awk -v title="$1" -v count="$2" -v a="$3" -v b="$4" \
        'BEGIN { each = count * 1000000 / a; printf "%-52s %10.*f %10.3f\n", title, (each < 1000 ? 1 : 0), each, b / a }'
}

beside=$(spent one)
[[ -z $sqlite ]] || beside=$(median sqlite)
printf '%-52s %10s %10s\n' "groups on $small pages, a force each thousand" 'a second' 'it / last'
rate 'of one edit of 8 bytes' "$edits" "$(spent one)" "$beside"
rate 'of four' "$edits" "$(spent four)" "$beside"
[[ -z $sqlite ]] || rate 'sqlite3, WAL, synchronous FULL, updates' "$edits" "$beside" "$beside"

printf '%-52s %10s %10s\n' "loads of $large pages in random order" 'a second' 'it / last'
for held in 64 "$most"; do
    rate "with room for $held" "$loads" "$(spent "load.$held")" "$(median read)"
done
rate 'reads of the same pages and checksums' "$loads" "$(median read)" "$(median read)"

bytes=$(cat crash/aria_log.* | wc -c)
printf '%-52s %10s %10s\n' "opening, $groups groups on $crashed pages" 'MB/s' 'it / last'
for held in 1024 16384; do
    rate "with room for $held pages" "$((bytes / 1000000))" "$(median "open.$held")" "$(median sum)"
done
rate "the checksums of the log's $((bytes / 1000000)) MB" "$((bytes / 1000000))" "$(median sum)" "$(median sum)"
printf '%-52s %10s\n' 'peak memory with room for 1024 pages, MB' "$(($(cat memory) / 1024))"
