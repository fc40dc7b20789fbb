#!/usr/bin/env bash
# Times the calls of `aps_ready` with 16, 128 and 1,024 threads, and prints a table: nanoseconds for each call, the least of
# fifteen times a million calls. Where all threads tie it does so for partitions that have used more and more from the first
# to the last, all the same, and less and less.
#
#   tools/ready_speed.sh [FOLDER]    FOLDER keeps what was built; without one a new folder is made, and removed at the end
#
# The program that times them is made in that folder, over copies of the crates that it stands on (with what was built of
# them, if anything was), and is proved before it is built: one minute where those are built, else up to ten. What that says
# goes to standard error.
set -eu
root=$(cd "$(dirname "${BASH_SOURCE[0]}")/.." && pwd)
if [ $# -ge 1 ]; then
    folder=$1
else
    folder=$(mktemp -d)
    trap 'rm -rf "$folder"' EXIT
fi
mkdir -p "$folder/crates"

# `aps_ready` and the crates of this repository that it stands on.
crates=()
collect() {
    local below
    [[ " ${crates[*]-} " != *" $1 "* ]] || return 0
    for below in $(sed -n "s/^$1://p" "$root/crates.txt"); do
        [ ! -d "$root/crates/$below" ] || collect "$below"
    done
    crates+=("$1")
}
collect aps_ready

: >"$folder/crates.txt"
for crate in "${crates[@]}"; do
    mkdir -p "$folder/crates/$crate"
    for part in src specs proofs; do
        rm -rf "$folder/crates/$crate/$part"
        [ ! -d "$root/crates/$crate/$part" ] || cp -r "$root/crates/$crate/$part" "$folder/crates/$crate/$part"
    done
    if [ ! -d "$folder/crates/$crate/out" ] && [ -d "$root/crates/$crate/out" ]; then
        cp -r "$root/crates/$crate/out" "$folder/crates/$crate/out"
    fi
    grep "^$crate:" "$root/crates.txt" >>"$folder/crates.txt"
done
echo 'ready_speed: aps_model aps_ready anyhow' >>"$folder/crates.txt"
program=$folder/crates/ready_speed
mkdir -p "$program/src" "$program/specs" "$program/proofs"

cat >"$program/src/main.rt" <<'END'
//! How long the calls of the ready queue take, in nanoseconds.
#![tactic(auto)]

ghost use Rattle.std.specs.Prelude.{replicate, None, ◌≡◌, ◌+◌, ◌<◌, ◌≤◌, All, length, IfOk};
ghost use Rattle.aps_ready.specs.Gates.{AreGates};
ghost use Rattle.aps_ready.specs.Small.{IsSmall};
ghost use Rattle.ready_speed.specs.Inside.{IsIn};

use aps_model::{Facts, Free, NoMemory, PartFacts, PartitionId, ThreadId};
use aps_ready::{Gates, Ready};
use std::alloc::Global;
use std::time::Instant;

/// How many calls are timed at once.
const TURNS: u64 = 1_000_000;

/// How often each is timed; the least counts.
const TIMES: u64 = 15;

/// Who stands at the highest priority: a few threads, or all.
#[derive(Clone, Copy, PartialEq, Eq)]
enum Load {
    FewTies,
    AllTie,
}

/// How much the partitions have used, from the first to the last.
#[derive(Clone, Copy, PartialEq, Eq)]
enum Usage {
    MoreAndMore,
    AllTheSame,
    LessAndLess,
}

/// The values of a thread: its group is one of 64 by its number.
fn facts_of(x: usize, load: Load) -> Facts
    requires { x ≤ 1023 }
{
    Facts {
        partition: PartitionId::at(x % 32),
        priority: match load {
            Load::FewTies => (x % 251) as u8,
            Load::AllTie => 10,
        },
        critical: x / 32 % 2 == 1,
    }
}

/// A partition in budget.
fn part_of(p: usize, usage: Usage) -> PartFacts
    requires { p < 32 }
    ensures { IsSmall result }
{
    PartFacts {
        funded: true,
        standing: true,
        shut: false,
        used: match usage {
            Usage::MoreAndMore => 1000 * p as u64,
            Usage::AllTheSame => 1000,
            Usage::LessAndLess => 1000 * (31 - p) as u64,
        },
        budget: 3,
    }
}

/// The row of partitions.
fn all_parts(alloc: Global, usage: Usage) -> Result<Vec<PartFacts>, NoMemory>
    ensures { IfOk result (λ parts. All IsSmall parts.items) }
{
    let mut parts = Vec::with_capacity(alloc, 32)?;
    for p in 0..32usize {
        parts.push(part_of(p, usage))?;
    }
    Ok(parts)
}

/// The gates, twice.
fn twice(alloc: Global, gates: Gates) -> Result<Vec<Gates>, NoMemory>
    ensures { IfOk result (λ both. both.items ≡ replicate 2 gates) }
{
    let mut both = Vec::with_capacity(alloc, 2)?;
    both.push(gates)?;
    both.push(gates)?;
    Ok(both)
}

/// Puts all threads in, with the stamps 0, 1, 2 and so on.
fn fill(ready: &mut Ready, count: usize, load: Load)
    requires few { count ≤ 1024 }
    requires empty { ready.old ≡ replicate count None }
    ensures inside { All (IsIn count) ready.new }
    ensures size { length ready.new ≡ count }
{
    for x in 0..count {
        ready.put(ThreadId::at(x), facts_of(x, load), x as u64);
    }
}

/// Takes a thread out and puts it in again with a new stamp.
fn renew(ready: &mut Ready, x: usize, load: Load, stamp: u64)
    requires small { x ≤ 1023 }
    requires there { x < length ready.old }
    requires inside { All (IsIn stamp) ready.old }
    ensures inside { All (IsIn (stamp + 1)) ready.new }
    ensures size { length ready.new ≡ length ready.old }
{
    let thread = ThreadId::at(x);
    ready.take(thread);
    ready.put(thread, facts_of(x, load), stamp);
}

/// Takes one thread after the other out and puts it in again.
fn renew_all(ready: &mut Ready, count: usize, load: Load, first: u64)
    requires many { 16 ≤ count }
    requires few { count ≤ 1024 }
    requires stamps { first ≤ 1000000000 }
    requires inside { All (IsIn first) ready.old }
    requires size { length ready.old ≡ count }
    ensures inside { All (IsIn (first + 1000000)) ready.new }
    ensures size { length ready.new ≡ count }
{
    let mut x = 0usize;
    for i in 0..TURNS {
        renew(ready, x, load, first + i);
        x += 7;
        if x >= count {
            x -= count;
        }
    }
}

/// Looks for the best. It answers a number that depends on who was best.
fn look(ready: &Ready, parts: &[PartFacts]) -> u64
    requires { All IsSmall parts.now }
{
    let mut sum = 0u64;
    for i in 0..TURNS {
        let best = ready.best(parts, Free::Priority);
        sum = sum.wrapping_add(number_of(best, i));
    }
    sum
}

/// Looks for the best, where the gates are kept. They are kept twice and taken in turn, so that no look can stand for the
/// next one.
fn look_by(ready: &Ready, gates: &[Gates], parts: &[PartFacts]) -> u64
    requires gates { All (AreGates parts.now) gates.now }
    requires two { length gates.now ≡ 2 }
    requires small { All IsSmall parts.now }
{
    let mut sum = 0u64;
    for i in 0..TURNS {
        let best = ready.best_by(gates[(i % 2) as usize], parts, Free::Priority);
        sum = sum.wrapping_add(number_of(best, i));
    }
    sum
}

/// Looks for what the best is ahead by.
fn look_ahead(ready: &Ready, gates: &[Gates]) -> u64
    requires { length gates.now ≡ 2 }
{
    let mut sum = 0u64;
    for i in 0..TURNS {
        sum = sum.wrapping_add(priority_of(ready, gates[(i % 2) as usize], i));
    }
    sum
}

/// The priority that the best has, or another number. It stands apart, so that each look is made.
#[inline(never)]
fn priority_of(ready: &Ready, gates: Gates, other: u64) -> u64 {
    match ready.ahead_by(gates) {
        None => other,
        Some(ahead) => u64::from(ahead.priority),
    }
}

/// The thread's number, or another one.
fn number_of(best: Option<ThreadId>, other: u64) -> u64 {
    match best {
        None => other,
        Some(x) => x.index() as u64,
    }
}

/// Tenths of a nanosecond for each of the turns that took so many microseconds.
fn tenths(micros: u128) -> u64 {
    if micros < 1_000_000_000 {
        10 * micros as u64 / (TURNS / 1000)
    } else {
        0
    }
}

/// Prints one row.
fn measure(rt: &HostRuntime, count: usize, load: Load, usage: Usage) -> anyhow::Result<()>
    requires many { 16 ≤ count }
    requires few { count ≤ 1024 }
{
    let alloc = rt.alloc();
    let parts = all_parts(alloc, usage)?;
    let gates = twice(alloc, Gates::of(&parts))?;
    let mut ready = Ready::new(alloc, count as u16)?;
    fill(&mut ready, count, load);
    let (mut best, mut best_by, mut ahead, mut renewed) = (u64::MAX, u64::MAX, u64::MAX, u64::MAX);
    let mut sum = 0u64;
    for i in 0..TIMES {
        let start = Instant::now(rt)?;
        sum = sum.wrapping_add(look(&ready, &parts));
        best = best.min(tenths(start.elapsed(rt)?.as_micros()));
        let start = Instant::now(rt)?;
        sum = sum.wrapping_add(look_by(&ready, &gates, &parts));
        best_by = best_by.min(tenths(start.elapsed(rt)?.as_micros()));
        let start = Instant::now(rt)?;
        sum = sum.wrapping_add(look_ahead(&ready, &gates));
        ahead = ahead.min(tenths(start.elapsed(rt)?.as_micros()));
        let start = Instant::now(rt)?;
        renew_all(&mut ready, count, load, 1024 + TURNS * i);
        renewed = renewed.min(tenths(start.elapsed(rt)?.as_micros()));
    }
    let ties = if load == Load::AllTie { "all tie" } else { "few ties" };
    let used = match usage {
        Usage::MoreAndMore => "more and more",
        Usage::AllTheSame => "all the same",
        Usage::LessAndLess => "less and less",
    };
    println!(rt; "| {count} | {ties} | {used} | {}.{} | {}.{} | {}.{} | {}.{} | {} |", best / 10, best % 10, best_by / 10, best_by % 10, ahead / 10, ahead % 10, renewed / 10, renewed % 10, sum % 9973)?;
    Ok(())
}

/// Prints the rows for so many threads.
fn measure_all(rt: &HostRuntime, count: usize) -> anyhow::Result<()>
    requires many { 16 ≤ count }
    requires few { count ≤ 1024 }
{
    measure(rt, count, Load::FewTies, Usage::MoreAndMore)?;
    measure(rt, count, Load::AllTie, Usage::MoreAndMore)?;
    measure(rt, count, Load::AllTie, Usage::AllTheSame)?;
    measure(rt, count, Load::AllTie, Usage::LessAndLess)?;
    Ok(())
}

fn main(rt: HostRuntime) -> anyhow::Result<()> {
    println!(rt; "| threads | at the highest priority | partitions have used | best | best_by | ahead_by | take and put | (a sum) |")?;
    println!(rt; "|---|---|---|---|---|---|---|---|")?;
    measure_all(&rt, 16)?;
    measure_all(&rt, 128)?;
    measure_all(&rt, 1024)?;
    Ok(())
}
END
cat >"$program/specs/Lib.antt" <<'END'
pub mod Inside
END
cat >"$program/specs/Inside.antt" <<'END'
use Rattle.std.specs.Prelude.{◌≡◌, ℕ, ◌<◌, ◌≤◌, List, Option, Some, None, slice_index_or}
use Rattle.aps_model.specs.declared.merit.Contender.{Contender}

-- somebody is in, with a smaller stamp
abbrev pub IsIn : ℕ → Option Contender → Type 0
IsIn stamp None = ⊥
IsIn stamp (Some c) = c.stamp < stamp

-- the threads below x are in, and no other
pub record AreFirst (row : List (Option Contender)) (x : ℕ) : Type 0 where
  pub inside : (k : ℕ) → k < x → IsIn x (slice_index_or row k None)
  pub rest : (k : ℕ) → x ≤ k → slice_index_or row k None ≡ None
END
cat >"$program/proofs/Lib.antt" <<'END'
END
mkdir -p "$program/proofs/fill" "$program/proofs/renew" "$program/proofs/renew_all" "$program/proofs/all_parts" "$program/proofs/measure"
cat >"$program/proofs/all_parts/Invariants.antt" <<'END'
use Rattle.std.proofs.Common.{All}
use Rattle.aps_ready.specs.Small.{IsSmall}
use Rattle.ready_speed.proofs.all_parts.Given as goal

abbrev pub invariant-loop-p : goal.invariant-loop-p
invariant-loop-p l = All IsSmall l.parts.items
END
cat >"$program/proofs/fill/Invariants.antt" <<'END'
use Rattle.std.proofs.Common.{◌≡◌, length}
use Rattle.ready_speed.specs.Inside.{AreFirst}
use Rattle.ready_speed.proofs.fill.Given as goal

abbrev pub invariant-loop-x : goal.invariant-loop-x
invariant-loop-x l = record { first : AreFirst l.ready l.x; size : length l.ready ≡ l.count }
END
cat >"$program/proofs/renew_all/Invariants.antt" <<'END'
use Rattle.std.proofs.Common.{◌≡◌, ◌<◌, ◌+◌, All, length}
use Rattle.ready_speed.specs.Inside.{IsIn}
use Rattle.ready_speed.proofs.renew_all.Given as goal

abbrev pub invariant-loop-i : goal.invariant-loop-i
invariant-loop-i l = record { inside : All (IsIn (l.first + l.i)) l.ready; size : length l.ready ≡ l.count; below : l.x < l.count }
END
cat >"$program/proofs/measure/Invariants.antt" <<'END'
use Rattle.std.proofs.Common.{◌≡◌, ◌*◌, ◌+◌, All, length}
use Rattle.ready_speed.specs.Inside.{IsIn}
use Rattle.ready_speed.proofs.measure.Given as goal

abbrev pub invariant-loop-i : goal.invariant-loop-i
invariant-loop-i l = record { inside : All (IsIn (1024 + 1000000 * l.i)) l.ready; size : length l.ready ≡ l.count }
END
cd "$program"
rt run
