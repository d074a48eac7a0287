#!/usr/bin/env bash
# How many bytes of script are cut into tokens in a second: the median of five runs over a script of 60
# MB, the reading of it counted in. The small program around the scanner is written into a copy of the
# repository, proved and built there; that takes a few minutes.
cd "$(dirname "$0")/.." || exit 1
copy=$(mktemp -d) && trap 'rm -rf "$copy"' EXIT
git clone -q . "$copy/repo" && crate=$copy/repo/crates/lex_speed && mkdir -p "$crate/src" || exit 1
echo 'lex_speed: mg_lex mg_io mg_lists thiserror' >> "$copy/repo/crates.txt"

cat > "$crate/src/main.rt" <<'END'
//! Cuts standard input into tokens, line by line, and prints how many there are.
#![tactic(auto)]

use mg_io::{InputSource, read_all};
use mg_lex::tokens;
use std::process::ExitCode;

fn main(rt: HostRuntime) -> ExitCode {
    let mut source = InputSource::new(rt.reader());
    let Ok(bytes) = read_all(rt.alloc(), &mut source, 67_108_864) else {
        return ExitCode::from(1);
    };
    let mut count: u64 = 0;
    for line in bytes.as_slice().split(|b| *b == 10) {
        if line.len() > 1_000_000 {
            return ExitCode::from(3);
        }
        match tokens(rt.alloc(), line, 1) {
            Ok(found) => count = count.saturating_add(found.as_slice().len() as u64),
            Err(_) => return ExitCode::from(2),
        }
    }
    let _ = println!(rt; "{count}");
    ExitCode::from(0)
}
END

awk 'BEGIN {
  line[0] = "group G = < a, b, c | a^2, b^3, a b a b, (a b c)^7, [a, b]^-12 >"
  line[1] = "ask q : a^-2 b^17 c = 1 in G"
  line[2] = "grant q derive 1000000"
  line[3] = "fund 4611686018427387904  # what may be spent"
  line[4] = "run"
  line[5] = "report"
  line[6] = "map f : G -> H [ a -> x y^-1, b -> r12 ]"
  for (bytes = i = 0; bytes < 60000000; i++) { bytes += length(line[i % 7]) + 1; print line[i % 7] }
}' > "$copy/script"

(cd "$crate" && rt run < "$copy/script" > "$copy/log" 2>&1) || { tail -n 5 "$copy/log" >&2; exit 1; }
bytes=$(wc -c < "$copy/script")
micros=$(for _ in 1 2 3 4 5; do
  start=$(date +%s%N)
  "$crate/out/lex_speed" < "$copy/script" > /dev/null || exit 1
  end=$(date +%s%N)
  echo $(( (end - start) / 1000 ))
done | sort -n | sed -n 3p)
echo "$bytes bytes in $micros microseconds, $(( bytes / micros )) MB a second"
