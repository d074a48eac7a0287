#!/usr/bin/env bash
# How long Nielsen reduction takes, in seconds, the median of five runs each with its units and its end: on 64 words of 50
# letters over two generators with a product of 25 of them as goal, on 16 words of 1,000 letters over eight generators with a
# product of ten, and on six words got by fifty random products from a short tuple over three generators. The words come by a
# fixed rule. YARDSTICK, where it is set, is a program to compare with: it is given a file with the lines `gens N`, `rels 0`,
# `sub N` and `goals N`, behind the last two of them a line for each word with its length and its letters as numbers, and
# prints a line of its own. RUN is put before each run. The small program that searches is written into a copy of the
# repository, proved and built there, which takes a few minutes.
cd "$(dirname "$0")/.." || exit 1
work=$(mktemp -d)
trap 'rm -rf "$work"' EXIT
git clone -q . "$work/repo" && crate=$work/repo/crates/shortening && mkdir -p "$crate/src" || exit 1
echo 'shortening: mg_nielsen mg_certs mg_fixtures mg_turn mg_core mg_present mg_words mg_io' >> "$work/repo/crates.txt"

cat > "$crate/src/main.rt" <<'RATTLE'
//! Reads an Ask over a free group from standard input and searches with 1,000,000,000 units. Prints the nanoseconds, the
//! units spent and how the turn ended.
#![tactic(auto)]

ghost use Rattle.std.specs.Prelude.{◌≡◌, None, []};

use mg_certs::Claim;
use mg_core::{Facts, Records};
use mg_fixtures::ask as asked;
use mg_io::{InputSource, read_all};
use mg_nielsen::Nielsen;
use mg_present::{Ask, applies};
use mg_turn::{Searcher, Stop, TurnEnd};
use mg_words::Procedure;
use std::alloc::Global;
use std::process::ExitCode;
use std::rt::Clock;
use std::time::Instant;

// Knows no record.
#[derive(Drop)]
struct Ignorant;

impl Stop<Claim> for Ignorant {
    ghost known = { λ _. None };

    fn look(&mut self) -> Option<&Claim> {
        None
    }
}

fn no_models(alloc: Global) -> Facts<Claim>
    ensures { result.records ≡ [] }
{
    Facts {
        from: 0,
        upto: 0,
        records: Records::new(alloc),
    }
}

// How a turn ended.
fn name_of(end: &TurnEnd<Claim>) -> &'static str {
    match end {
        TurnEnd::More => "more",
        TurnEnd::Found(_) => "YES",
        TurnEnd::Closed(_) => "closed",
        TurnEnd::Idle => "idle",
        TurnEnd::Stopped(_) => "stopped",
        TurnEnd::Full { .. } => "full",
    }
}

// The nanoseconds, the units spent and the end.
fn measure<X: Clock>(rt: &X, alloc: Global, ask: &Ask) -> Option<(u128, u64, &'static str)> {
    if !applies(Procedure::Nielsen, ask) {
        return None;
    }
    let start = Instant::now(rt).ok()?;
    let mut search = Nielsen::start(alloc, ask).ok()?;
    let outcome = search.turn(alloc, 1_000_000_000, no_models(alloc), &mut Ignorant).ok()?;
    let taken = start.elapsed(rt).ok()?.as_nanos();
    Some((taken, outcome.spent, name_of(&outcome.end)))
}

fn main(rt: HostRuntime) -> ExitCode {
    let mut source = InputSource::new(rt.reader());
    let Ok(bytes) = read_all(rt.alloc(), &mut source, 67_108_864) else {
        return ExitCode::from(2);
    };
    let Ok(text) = std::str::from_utf8(bytes.as_slice()) else {
        return ExitCode::from(2);
    };
    let Some(ask) = asked(rt.alloc(), text) else {
        return ExitCode::from(2);
    };
    match measure(&rt, rt.alloc(), &ask) {
        Some((taken, spent, end)) => {
            let _ = println!(rt; "{taken} {spent} {end}");
            ExitCode::from(0)
        }
        None => ExitCode::from(1),
    }
}
RATTLE

# The three workloads, each as text for the program and as a file for the yardstick.
python3 - "$work" <<'PYTHON'
import sys

state = 1


def number(below):
    global state
    state = state * 16807 % 2147483647
    return state // 7 % below


def product(*words):
    out = []
    for word in words:
        for letter in word:
            if out and out[-1] == -letter:
                out.pop()
            else:
                out.append(letter)
    return out


def inverse(word):
    return [-letter for letter in reversed(word)]


def random_word(generators, length):
    word = []
    while len(word) < length:
        letter = (number(generators) + 1) * (1 if number(2) else -1)
        if not word or word[-1] != -letter:
            word.append(letter)
    return word


def factors(words, count):
    picked = (words[number(len(words))] for _ in range(count))
    return [word if number(2) else inverse(word) for word in picked]


def letters(word):
    return "".join(chr(96 + x) if x > 0 else chr(64 - x) for x in word) or "1"


def numbers(word):
    return " ".join(map(str, [len(word), *word]))


def write(name, generators, words, goal):
    with open(f"{sys.argv[1]}/{name}.txt", "w") as out:
        out.write(f"{generators} | {' '.join(map(letters, words))} | {letters(goal)}")
    with open(f"{sys.argv[1]}/{name}.fp", "w") as out:
        out.write(f"gens {generators}\nrels 0\nsub {len(words)}\n")
        out.writelines(numbers(word) + "\n" for word in words)
        out.write(f"goals 1\n{numbers(goal)}\n")


many = [random_word(2, 50) for _ in range(64)]
write("many", 2, many, product(*factors(many, 25)))
long = [random_word(8, 1000) for _ in range(16)]
write("long", 8, long, product(*factors(long, 10)))
made = [random_word(3, 3) for _ in range(6)]
for _ in range(50):
    i, j = number(6), number(6)
    if i != j:
        other = made[j] if number(2) else inverse(made[j])
        made[i] = product(made[i], other) if number(2) else product(other, made[i])
write("made", 3, made, product(*factors(made, 10)))
PYTHON

(cd "$crate" && rt run < "$work/made.txt" > "$work/log" 2>&1)
program=$crate/out/shortening
[ -x "$program" ] || { tail -n 20 "$work/log" >&2; exit 1; }

for name in many long made; do
  for _ in 1 2 3 4 5; do $RUN "$program" < "$work/$name.txt"; done | sort -n | sed -n 3p |
    awk -v name="$name" '{ printf "%s: %.6f seconds, %d units, %s\n", name, $1 / 1e9, $2, $3 }'
  [ -z "$YARDSTICK" ] || $RUN "$YARDSTICK" "$work/$name.fp"
done
