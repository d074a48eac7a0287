#!/usr/bin/env bash
# How fast sessions run, in seconds of processor time, the kernel's counted in. First the median of nine runs of the proved
# program on a script of 1,000 questions about 33 groups with 500 units each; then on one question with 100,000,000 units, in
# turns of 1,024 units; then on a script of the greatest size, which is only read and resolved. Last, in four groups, one
# question with as many units, in a session and by the search called alone in the same turns, by PAIRS pairs of runs (200, see
# bench/pairs.py): the units a second of the least of each, and how much longer a session takes. TURNS sets another number of
# turns. The small program that calls the search is written into a copy of the repository, proved and built there, which takes a
# few minutes. Run `rt ci` first; it leaves the program at crates/magnus/out/magnus.
cd "$(dirname "$0")/.." || exit 1
program=crates/magnus/out/magnus
units=${UNITS:-100000000}
turns=${TURNS:-97657}
pairs=${PAIRS:-200}
[ -x "$program" ] || { echo "no $program: run 'rt ci' or 'rt run' in crates/magnus first" >&2; exit 1; }
work=$(mktemp -d)
trap 'rm -rf "$work"' EXIT
TIMEFORMAT='%U %S'

# The seconds of a command that reads a file.
seconds() {
  file=$1
  shift
  { time "$@" < "$file" > /dev/null; } 2>&1 | awk '{ printf "%.3f\n", $1 + $2 }'
}

# The median seconds of the program on a script.
median() {
  "$program" run --workers 1 < "$1" > /dev/null || { echo "no output: $1" >&2; exit 1; }
  for _ in 1 2 3 4 5 6 7 8 9; do seconds "$1" "$program" run --workers 1; done | sort -n | sed -n 5p
}

many() {
  for g in $(seq 33); do echo "group g$g = < a, b | a^2, b^$((g + 2)), (a b)^3 >"; done
  for q in $(seq 1000); do echo "ask q$q : a b a^$((q / 33 + 2)) b^-1 = 1 in g$((q % 33 + 1))"; done
  echo 'fund 500000'
  for q in $(seq 1000); do echo "grant q$q derive 500"; done
  echo run
  echo report
}

# One question about this group, with these units.
one() {
  printf 'group G = < %s >\nask q : a = 1 in G\nfund %s\ngrant q derive %s\nrun\nreport\n' "$1" "$2" "$2"
}

# 1,024 questions, and comments up to 1,048,576 bytes.
greatest() {
  echo 'group G = < a, b | a^2, b^3, (a b)^2 >'
  for q in $(seq 1024); do echo "ask q$q : (a b)^20 [a, b]^5 b^-$q a * b * a = a^3 b (b a)^-2 in G"; done
  for _ in $(seq 14000); do echo 'fund 1 # one unit more, which nobody needs, and so a long comment here'; done
}

many > "$work/many"
one 'a, b | a^2, b^3, a b a b' "$units" > "$work/one"
greatest | head -c 1048576 | sed '$d' > "$work/greatest"
echo "1,000 questions, 33 groups, 500 units each: $(median "$work/many") s"
echo "one question, $units units in a session: $(median "$work/one") s"
echo "$(wc -c < "$work/greatest") bytes with 1,024 questions, read and resolved: $(median "$work/greatest") s"

git clone -q . "$work/repo" && crate=$work/repo/crates/bare && mkdir -p "$crate/src" "$crate/proofs/spend" || exit 1
echo 'bare: mg_plain mg_certs mg_turn mg_core mg_present mg_words' >> "$work/repo/crates.txt"

cat > "$crate/src/main.rt" <<'END'
//! Searches for a derivation of `a = 1` in turns of 1,024 units, as many as the first argument says, and prints the
//! number of the last text tested. The second argument is the number of the group: 1 is `< a | a^12, a^18 >`, 2 is
//! `< a | a^2 >`, 3 is `< a, b | a^2, b^3, a b a b >` and 4 is `< a, b | a b a^-1 b^-1 >`.
#![tactic(auto)]

ghost use Rattle.std.specs.Prelude.{◌≡◌, None, true, IfOk, IsTrue};

use mg_certs::Claim;
use mg_core::{Facts, NoMemory, Records};
use mg_plain::Plain;
use mg_present::{Ask, Presentation, fits};
use mg_turn::{Searcher, Stop, TurnEnd};
use mg_words::{Letter, Procedure, Word, Words, is_over, is_reduced};
use std::alloc::{AllocError, Global};
use std::env;
use std::process::ExitCode;

const UNITS: u64 = 1_024;

const MOST_UNITS: u64 = 1 << 62;

const A: Letter = Letter {
    generator: 1,
    inverse: false,
};

const A_INVERSE: Letter = Letter {
    generator: 1,
    inverse: true,
};

const B: Letter = Letter {
    generator: 2,
    inverse: false,
};

const B_INVERSE: Letter = Letter {
    generator: 2,
    inverse: true,
};

/// Knows no record.
#[derive(Drop)]
struct Ignorant;

impl Stop<Claim> for Ignorant {
    ghost known = { λ _. None };

    fn look(&mut self) -> Option<&Claim> {
        None
    }
}

fn relators(alloc: Global, group: u32) -> Result<Words, NoMemory> {
    let mut relators = Words::new(alloc);
    if group == 1 {
        relators.push(Word::from_letters(alloc, &[A; 12])?)?;
        relators.push(Word::from_letters(alloc, &[A; 18])?)?;
        return Ok(relators);
    }
    if group == 4 {
        relators.push(Word::from_letters(alloc, &[A, B, A_INVERSE, B_INVERSE])?)?;
        return Ok(relators);
    }
    relators.push(Word::from_letters(alloc, &[A, A])?)?;
    if group == 3 {
        relators.push(Word::from_letters(alloc, &[B, B, B])?)?;
        relators.push(Word::from_letters(alloc, &[A, B, A, B])?)?;
    }
    Ok(relators)
}

fn ask(alloc: Global, group: u32) -> Result<Ask, NoMemory> {
    let generators = if group >= 3 { 2 } else { 1 };
    let relators = relators(alloc, group)?;
    let goal = Word::from_letters(alloc, &[A])?;
    if !fits(generators, &relators) || !is_over(generators, &goal) || !is_reduced(&goal) {
        return Err(AllocError);
    }
    let mut goals = Words::new(alloc);
    goals.push(goal)?;
    let group = Presentation::new(generators, relators);
    Ok(Ask::new(group, Words::new(alloc), goals))
}

/// One turn of 1,024 units, and whether the search goes on.
fn turn(alloc: Global, search: &mut Plain) -> Result<bool, NoMemory>
    requires { search.old.is_open ≡ true }
    ensures { IfOk result (λ more. IsTrue more → search.new.is_open ≡ true) }
{
    if search.cursor() > MOST_UNITS - UNITS {
        return Ok(false);
    }
    let none = Facts {
        from: 0,
        upto: 0,
        records: Records::new(alloc),
    };
    let outcome = search.turn(alloc, UNITS, none, &mut Ignorant)?;
    Ok(matches!(outcome.end, TurnEnd::More))
}

/// Gives the search turns while it goes on.
fn spend(alloc: Global, search: &mut Plain, turns: u64) -> Result<(), NoMemory>
    requires { search.old.is_open ≡ true }
{
    for _ in 0..turns {
        if !turn(alloc, search)? {
            return Ok(());
        }
    }
    Ok(())
}

/// The number of the last text tested.
fn tested(alloc: Global, turns: u64, group: u32) -> Result<u64, NoMemory> {
    let ask = ask(alloc, group)?;
    let Ok(mut search) = Plain::start(alloc, Procedure::Derive, &ask) else {
        return Err(AllocError);
    };
    spend(alloc, &mut search, turns)?;
    Ok(search.cursor())
}

fn main(rt: HostRuntime) -> ExitCode {
    let Ok(mut args) = env::args(&rt) else {
        return ExitCode::from(2);
    };
    let Some(Ok(turns)) = args.nth(1).map(|word| word.parse::<u64>()) else {
        return ExitCode::from(2);
    };
    let Some(Ok(group)) = args.next().map(|word| word.parse::<u32>()) else {
        return ExitCode::from(2);
    };
    match tested(rt.alloc(), turns, group) {
        Ok(number) => {
            let _ = println!(rt; "{number}");
            ExitCode::from(0)
        }
        Err(_) => ExitCode::from(1),
    }
}
END

cat > "$crate/proofs/spend/Invariants.antt" <<'END'
use Rattle.std.proofs.Common.{◌≡◌, true}
use Rattle.bare.proofs.spend.Given as goal

-- the search goes on
abbrev pub invariant-loop : goal.invariant-loop
invariant-loop l = l.search.is_open ≡ true
END

(cd "$crate" && rt run -- 1 1 > "$work/log" 2>&1) || { tail -n 5 "$work/log" >&2; exit 1; }

# The turns about a group, which has this number in the small program.
compare() {
  one "$2" "$((turns * 1024))" > "$work/turns"
  python3 bench/pairs.py "$pairs" "$work/turns" "$program" run --workers 1 -- /dev/null "$crate/out/bare" "$turns" "$1" > "$work/taken" || exit 1
  awk -v turns="$turns" -v group="$2" '{
    units = turns * 1024 / 1e9
    printf "%d turns in < %s >, thousand million units a second: %.2f in a session, %.2f alone; ", turns, group, units / $1, units / $2
    printf "a session takes %.1f %% longer (median of the pairs; quartiles %.1f and %.1f)\n", 100 * ($4 - 1), 100 * ($3 - 1), 100 * ($5 - 1)
  }' "$work/taken"
}

compare 1 'a | a^12, a^18'
compare 2 'a | a^2'
compare 3 'a, b | a^2, b^3, a b a b'
compare 4 'a, b | a b a^-1 b^-1'
