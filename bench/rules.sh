#!/usr/bin/env bash
# How many letters and rewritings a second `normal_form_with` and `normal_form` do, on random words of 1,000 letters, and how
# long `is_complete_for` takes, in seconds: the median of five runs each. First under the 88 rules of bench/rules_88.txt, which
# are complete for < a, b, c, d, e | the squares, (a b)^4, (b c)^3, (c d)^3, (d e)^3, the other pairs commute >, then under the
# 4,096 of bench/rules_4096.txt, the first that completion gives for < a, b, c | [a, b] c^-1, [a, c], [b, c] >, where it doesn't
# end. In these files a rule is a line, a capital letter is an inverse and `>` stands between the sides. RUN is put before each
# run. The small program that rewrites is written into a copy of the repository, proved and built there, which takes a few
# minutes.
cd "$(dirname "$0")/.." || exit 1
work=$(mktemp -d)
trap 'rm -rf "$work"' EXIT
git clone -q . "$work/repo" && crate=$work/repo/crates/rewriting && mkdir -p "$crate/src" || exit 1
echo 'rewriting: mg_rules mg_present mg_words mg_lists mg_io thiserror' >> "$work/repo/crates.txt"

cat > "$crate/src/main.rt" <<'RATTLE'
//! Rewrites random words under rules. Standard input is a mark (i: by an index, s: by trying each rule, t: by an index and
//! told, c: whether they are complete, with no words), the letters of the words, `;`, the relators, `;`, and the rules, with a
//! comma behind each relator and rule. The argument is the number of words. Prints the nanoseconds, the letters read, and how
//! many rewritings were told or whether the rules are complete.
#![tactic(auto)]

ghost use Rattle.std.specs.Prelude.{◌≤◌, length};
ghost use Rattle.mg_rules.specs.Shortlex.{AllDecrease};
ghost use Rattle.mg_rules.specs.Index.{IsIndexOf};

use mg_io::{InputSource, read_all};
use mg_lists::List;
use mg_present::{Presentation, fits};
use mg_rules::{
    NoMemory, Rewriter, RuleIndex, RulePair, Rules, is_complete_for, normal_form, normal_form_with,
};
use mg_words::{Letter, Word, Words};
use std::alloc::Global;
use std::env;
use std::process::ExitCode;
use std::rt::Clock;
use std::time::Instant;

// The letter that a byte stands for.
fn letter_of(byte: u8) -> Option<Letter> {
    if byte >= b'a' && byte <= b'z' {
        return Some(Letter {
            generator: byte - b'a' + 1,
            inverse: false,
        });
    }
    if byte >= b'A' && byte <= b'Z' {
        return Some(Letter {
            generator: byte - b'A' + 1,
            inverse: true,
        });
    }
    None
}

// The word that a text stands for, up to a mark.
fn word_of(alloc: Global, text: &[u8]) -> Result<Word, NoMemory> {
    let mut letters = Vec::new(alloc);
    for byte in text {
        let Some(letter) = letter_of(*byte) else {
            break;
        };
        letters.push(letter)?;
    }
    Word::from_letters(alloc, &letters)
}

// The text behind the first such mark.
fn behind(text: &[u8], mark: u8) -> &[u8]
    ensures { length result.now ≤ length text.now }
{
    match text.iter().position(|byte| *byte == mark) {
        Some(place) => &text[place + 1..],
        None => &[],
    }
}

// The words that a text stands for, up to a semicolon.
fn words_of(alloc: Global, text: &[u8]) -> Result<Words, NoMemory> {
    let mut words = Words::new(alloc);
    let mut rest = text;
    for _ in 0..text.len() {
        if rest.is_empty() || rest[0] == b';' {
            break;
        }
        words.push(word_of(alloc, rest)?)?;
        rest = behind(rest, b',');
    }
    Ok(words)
}

// The rules that a text stands for.
fn rules_of(alloc: Global, text: &[u8]) -> Result<Rules, NoMemory> {
    let mut rules = Rules::from_pairs(List::new(alloc));
    let mut rest = text;
    for _ in 0..text.len() {
        if rest.is_empty() {
            break;
        }
        rules.push(RulePair {
            left: word_of(alloc, rest)?,
            right: word_of(alloc, behind(rest, b'>'))?,
        })?;
        rest = behind(rest, b',');
    }
    Ok(rules)
}

// A word of 1,000 of these letters, by a generator of random numbers.
fn random_word(alloc: Global, alphabet: &[Letter], seed: u64) -> Result<Word, NoMemory> {
    let mut state = seed.wrapping_mul(0x9e37_79b9_7f4a_7c15);
    let mut letters = Vec::new(alloc);
    for _ in 0..1000 {
        state = state.wrapping_mul(6_364_136_223_846_793_005).wrapping_add(1);
        if alphabet.is_empty() {
            break;
        }
        let place = (state >> 33) as usize % alphabet.len();
        letters.push(alphabet[place])?;
    }
    Word::from_letters(alloc, &letters)
}

// The letters of all first descendants, by an index.
fn by_index(alloc: Global, rules: &Rules, words: &[Word]) -> Result<u64, NoMemory>
    requires { AllDecrease rules.now }
{
    let index = RuleIndex::make(alloc, rules)?;
    let mut left = 0u64;
    for word in words {
        let to = normal_form_with(alloc, rules, &index, word)?;
        left = left.wrapping_add(to.letters().len() as u64);
    }
    Ok(left)
}

// The letters of all first descendants, where each rule is tried.
fn by_scan(alloc: Global, rules: &Rules, words: &[Word]) -> Result<u64, NoMemory>
    requires { AllDecrease rules.now }
{
    let mut left = 0u64;
    for word in words {
        let to = normal_form(alloc, rules, word)?;
        left = left.wrapping_add(to.letters().len() as u64);
    }
    Ok(left)
}

// How many rewritings lead to the first descendants.
fn told(alloc: Global, rules: &Rules, words: &[Word]) -> Result<u64, NoMemory>
    requires { AllDecrease rules.now }
{
    let index = RuleIndex::make(alloc, rules)?;
    let mut rewriter = Rewriter::new(alloc);
    let mut count = 0u64;
    for word in words {
        let mut list = List::new(alloc);
        rewriter.descend_and_tell(rules, &index, word.letters(), &mut list)?;
        count = count.wrapping_add(list.as_slice().len() as u64);
    }
    Ok(count)
}

// Whether the rules are complete for the group, as a number; 2 where it is no group.
fn complete(alloc: Global, generators: u32, relators: Words, rules: &Rules) -> Result<u64, NoMemory> {
    if !fits(generators, &relators) {
        return Ok(2);
    }
    let group = Presentation::new(generators, relators);
    Ok(u64::from(is_complete_for(alloc, &group, rules)?))
}

// What the mark asks for: the nanoseconds and the number.
fn measure<X: Clock>(rt: &X, alloc: Global, text: &[u8], count: u64) -> Option<(u128, u64)> {
    let rest = behind(text, b';');
    let alphabet = word_of(alloc, text.get(1..)?).ok()?;
    let relators = words_of(alloc, rest).ok()?;
    let rules = rules_of(alloc, behind(rest, b';')).ok()?;
    if !rules.all_decrease() {
        return None;
    }
    let mut words = Words::new(alloc);
    for seed in 0..count {
        words.push(random_word(alloc, alphabet.letters(), seed).ok()?).ok()?;
    }
    let generators = u32::try_from(alphabet.letters().len() / 2).ok()?;
    let start = Instant::now(rt).ok()?;
    let number = match text.first()? {
        b'i' => by_index(alloc, &rules, words.as_slice()),
        b's' => by_scan(alloc, &rules, words.as_slice()),
        b't' => told(alloc, &rules, words.as_slice()),
        _ => complete(alloc, generators, relators, &rules),
    };
    let number = number.ok()?;
    Some((start.elapsed(rt).ok()?.as_nanos(), number))
}

fn main(rt: HostRuntime) -> ExitCode {
    let Ok(mut args) = env::args(&rt) else {
        return ExitCode::from(2);
    };
    let Some(Ok(count)) = args.nth(1).map(|word| word.parse::<u64>()) else {
        return ExitCode::from(2);
    };
    let mut source = InputSource::new(rt.reader());
    let Ok(bytes) = read_all(rt.alloc(), &mut source, 67_108_864) else {
        return ExitCode::from(2);
    };
    match measure(&rt, rt.alloc(), bytes.as_slice(), count) {
        Some((taken, number)) => {
            let _ = println!(rt; "{taken} {number}");
            ExitCode::from(0)
        }
        None => ExitCode::from(1),
    }
}
RATTLE

squares='aa,bb,cc,dd,ee,abababab,bcbcbc,cdcdcd,dedede,acAC,adAD,aeAE,bdBD,beBE,ceCE,'
first="abcdeABCDE;$squares;$(tr '\n' ',' < bench/rules_88.txt)"
second="abcABC;abABC,acAC,bcBC,;$(tr '\n' ',' < bench/rules_4096.txt)"

(cd "$crate" && rt run -- 0 <<< "i;;" > "$work/log" 2>&1)
program=$crate/out/rewriting
[ -x "$program" ] || { tail -n 20 "$work/log" >&2; exit 1; }

# The median nanoseconds of five runs with so many words.
median() {
  for _ in 1 2 3 4 5; do printf %s "$1" | $RUN "$program" "$2" | cut -d ' ' -f 1; done | sort -n | sed -n 3p
}

# What the program finds.
found() {
  printf %s "$1" | "$program" "$2" | cut -d ' ' -f 2
}

# A line on rewriting under these rules, by an index and without.
rewriting() {
  each=$(found "t$2" "$3")
  for way in 'i an index' 's each rule tried'; do
    nanos=$(median "${way%% *}$2" "$3")
    awk -v name="$1, ${way#* }" -v n="$nanos" -v words="$3" -v each="$each" 'BEGIN {
      printf "%s: %.2f million letters and %.2f million rewritings a second\n", name, words * 1e6 / n, each * 1e3 / n
    }'
  done
}

rewriting '88 rules' "$first" 1000
rewriting '4,096 rules' "$second" 100
echo "88 rules, complete (1): $(found "c$first" 0), $(median "c$first" 0) nanoseconds"
echo "4,096 rules, complete (1): $(found "c$second" 0), $(median "c$second" 0) nanoseconds"
