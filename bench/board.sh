#!/usr/bin/env bash
# How many commits a second a board takes from 1, 2 and 4 threads that do nothing else, and that work 0.25, 1 and 60
# microseconds between two commits: the median of nine runs, each of about a tenth of a second. RUN is put before each run, as
# `chrt -f 50` where others work on the machine. The small program that commits is written into a copy of the repository,
# proved and built there, which takes a few minutes.
cd "$(dirname "$0")/.." || exit 1
work=$(mktemp -d)
trap 'rm -rf "$work"' EXIT
git clone -q . "$work/repo" && crate=$work/repo/crates/racing || exit 1
mkdir -p "$crate/src" "$crate/proofs/last" "$crate/proofs/commit_all" || exit 1
echo 'racing: mg_board mg_core mg_lists' >> "$work/repo/crates.txt"

cat > "$crate/src/main.rt" <<'RATTLE'
//! Commits from several threads to one board. The arguments are the threads (1, 2 or 4), the commits of each, and how many
//! rounds of work lie before each commit. Prints the nanoseconds that all took together, and a number that the work made.
#![tactic(auto)]

ghost use Rattle.std.specs.Prelude.{◌≡◌, ◌+◌, Option, Some, None, IfOk};
ghost use Rattle.std.proofs.Common.{rules};
ghost use Rattle.std.proofs.lemmas.Map.Lookups.{exact_unsigned};
ghost use Rattle.mg_board.specs.Passes.{dealt, IsAlone};

use mg_board::{Board, NoMemory, Pass, Passes};
use mg_core::{Book, Entry, Record, Records};
use std::alloc::Global;
use std::env;
use std::process::ExitCode;
use std::rt::Clock;
use std::sync::Wait;
use std::thread;
use std::thread::Threads;
use std::time::Instant;

/// Settles its number.
#[derive(Drop)]
struct Mark {
    number: u32,
}

impl Record for Mark {
    type Key = u32;

    type Group = u32;

    ghost valid = { λ _. Unit {0} };

    ghost settled = { λ m. Some m.number };

    ghost modelled = { λ _. None };

    fn settles(&self) -> Option<&u32> {
        Some(&self.number)
    }

    fn model_of(&self) -> Option<&u32> {
        None
    }

    fn copy(&self, _alloc: Global) -> Result<Mark, NoMemory> {
        Ok(Mark {
            number: self.number,
        })
    }

    ghost exact_keys = { exact_unsigned };

    ghost exact_groups = { exact_unsigned };

    ghost one_of_both = { λ m _. Prim.search rules };
}

/// What each thread does.
#[derive(Clone, Copy)]
struct Job {
    commits: u64,
    rounds: u64,
}

/// Works for so many rounds.
fn work(from: u64, rounds: u64) -> u64 {
    let mut made = from;
    for _ in 0..rounds {
        made = made.wrapping_mul(6_364_136_223_846_793_005).wrapping_add(1);
    }
    made
}

/// The last of these passes.
fn last(_board: &Board<Mark>, passes: &mut Passes<Mark>, n: u32) -> Pass<Mark>
    requires { passes.old ≡ dealt _board.now 0 (n + 1) }
    ensures alone { IsAlone _board.now n result }
    ensures rest { passes.new ≡ dealt _board.now 0 n }
{
    let Some(last) = passes.pop() else {
        unreachable!();
    };
    last
}

/// Works and commits, as often as the job says.
fn commit_all<W: Wait>(
    rt: &W,
    alloc: Global,
    board: &Board<Mark>,
    mut pass: Pass<Mark>,
    n: u32,
    job: Job,
) -> Result<u64, NoMemory>
    requires { IsAlone board.now n pass }
{
    let mut made = u64::from(n);
    for turn in 0..job.commits {
        made = work(made, job.rounds);
        let entry = Entry {
            pass: n,
            search: n,
            turn,
            units: 1,
            dropped: false,
            records: Records::new(alloc),
        };
        board.commit(rt, &mut pass, &7, entry)?;
    }
    Ok(made)
}

/// Two threads commit.
fn two<X: Threads + Wait + Sync>(
    rt: &X,
    alloc: Global,
    board: &Board<Mark>,
    a: (Pass<Mark>, u32),
    b: (Pass<Mark>, u32),
    job: Job,
) -> Result<u64, NoMemory>
    requires first { IsAlone board.now a.1 a.0 }
    requires second { IsAlone board.now b.1 b.0 }
{
    let (pass, n) = a;
    let (other, m) = b;
    let (first, second) = thread::join(
        rt,
        || -> Result<u64, NoMemory>
            requires { IsAlone board.now n pass }
        { commit_all(rt, alloc, board, pass, n, job) },
        || -> Result<u64, NoMemory>
            requires { IsAlone board.now m other }
        { commit_all(rt, alloc, board, other, m, job) },
    );
    Ok(first? ^ second?)
}

/// One, two or four threads commit to a board.
fn race<X: Threads + Wait + Sync>(
    rt: &X,
    alloc: Global,
    threads: u32,
    job: Job,
) -> Result<u64, NoMemory> {
    let (board, mut passes) = Board::start(alloc, Book::new(alloc), 4)?;
    let d = last(&board, &mut passes, 3);
    let c = last(&board, &mut passes, 2);
    let b = last(&board, &mut passes, 1);
    let a = last(&board, &mut passes, 0);
    if threads == 1 {
        return commit_all(rt, alloc, &board, a, 0, job);
    }
    if threads == 2 {
        return two(rt, alloc, &board, (a, 0), (b, 1), job);
    }
    let shared = &board;
    let (first, second) = thread::join(
        rt,
        || -> Result<u64, NoMemory>
            requires { IsAlone shared.now 0 a × IsAlone shared.now 1 b }
        { two(rt, alloc, shared, (a, 0), (b, 1), job) },
        || -> Result<u64, NoMemory>
            requires { IsAlone shared.now 2 c × IsAlone shared.now 3 d }
        { two(rt, alloc, shared, (c, 2), (d, 3), job) },
    );
    Ok(first? ^ second?)
}

/// The nanoseconds that a race takes, and what its work made.
fn timed<X: Threads + Wait + Sync + Clock>(
    rt: &X,
    alloc: Global,
    threads: u32,
    job: Job,
) -> Option<(u128, u64)> {
    let start = Instant::now(rt).ok()?;
    let made = race(rt, alloc, threads, job).ok()?;
    let taken = start.elapsed(rt).ok()?;
    Some((taken.as_nanos(), made))
}

fn main(rt: HostRuntime) -> ExitCode {
    let Ok(mut args) = env::args(&rt) else {
        return ExitCode::from(2);
    };
    let Some(Ok(threads)) = args.nth(1).map(|word| word.parse::<u32>()) else {
        return ExitCode::from(2);
    };
    let Some(Ok(commits)) = args.next().map(|word| word.parse::<u64>()) else {
        return ExitCode::from(2);
    };
    let Some(Ok(rounds)) = args.next().map(|word| word.parse::<u64>()) else {
        return ExitCode::from(2);
    };
    match timed(&rt, rt.alloc(), threads, Job { commits, rounds }) {
        Some((taken, made)) => {
            let _ = println!(rt; "{taken} {made}");
            ExitCode::from(0)
        }
        None => ExitCode::from(1),
    }
}
RATTLE

cat > "$crate/proofs/last/Answers.antt" <<'RATTLE'
use Rattle.std.proofs.Common.{sym, ◌∙◌}
use Rattle.mg_board.proofs.Deals.{last_dealt}
use Rattle.racing.proofs.last.Goals as goal

pub returns-clause-alone : goal.returns-clause-alone
returns-clause-alone c = (last_dealt c.args._board.now c.args.n c.pop.new.self c.in-Some.last (sym c.requires ∙ c.in-Some.ensures.some)).1

pub returns-clause-rest : goal.returns-clause-rest
returns-clause-rest c = (last_dealt c.args._board.now c.args.n c.pop.new.self c.in-Some.last (sym c.requires ∙ c.in-Some.ensures.some)).0
RATTLE

cat > "$crate/proofs/commit_all/Invariants.antt" <<'RATTLE'
use Rattle.mg_board.specs.Passes.{IsAlone}
use Rattle.racing.proofs.commit_all.Given as goal

abbrev pub invariant-loop-turn : goal.invariant-loop-turn
invariant-loop-turn g l = IsAlone l.initial.board l.initial.n l.pass
RATTLE

(cd "$crate" && rt run -- 1 1 1 > "$work/log" 2>&1) || { tail -n 20 "$work/log" >&2; exit 1; }
program=$crate/out/racing

# The median of nine runs, in commits a second of all threads together.
median() {
  for _ in 1 2 3 4 5 6 7 8 9; do
    $RUN "$program" "$1" "$2" "$3" | awk -v commits="$(($1 * $2))" '{ printf "%.0f\n", commits * 1e9 / $1 }'
  done | sort -n | sed -n 5p
}

# Rounds of work in a microsecond.
each=$(for _ in 1 2 3 4 5 6 7 8 9; do $RUN "$program" 1 1 50000000; done | sort -n | sed -n 5p | awk '{ printf "%.1f", 50000000 * 1000 / $1 }')
for micros in 0 0.25 1 60; do
  rounds=$(awk -v micros="$micros" -v each="$each" 'BEGIN { printf "%.0f", micros * each }')
  commits=$(awk -v micros="$micros" 'BEGIN { printf "%.0f", 100000 / (micros + 0.05) }')
  one=$(median 1 "$commits" "$rounds")
  for threads in 1 2 4; do
    if [ "$threads" = 1 ]; then all=$one; else all=$(median "$threads" "$((commits / threads))" "$rounds"); fi
    echo "$threads threads, $micros microseconds of work: $all commits a second, $(awk -v a="$all" -v b="$one" 'BEGIN { printf "%.2f", a / b }') times one thread"
  done
done
