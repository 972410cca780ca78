#!/bin/sh
# How long a look-up of a name takes among 100, 1,000 and 16,000 names, drawn at random: the best of 400 short rounds. It shows that
# a look-up does not go through the names (docs/BENCHMARKS.md, "Look-ups of names"). bench/all leaves it out, for it measures no built
# program: the one that is timed stands here as text, and is proved and built outside the repository.
set -e
here=$(cd "$(dirname "$0")/.." && pwd)
work=$(mktemp -d)
trap 'rm -rf "$work"' EXIT
mkdir -p "$work/crates/names_time/src"
for part in src specs proofs; do
    mkdir -p "$work/crates/atom_names"
    cp -r "$here/crates/atom_names/$part" "$work/crates/atom_names/"
done
cp "$here/HANDLES" "$work/"
cat > "$work/crates.txt" <<'END'
atom_names: thiserror
names_time: anyhow atom_names
END
cat > "$work/crates/names_time/src/main.rt" <<'END'
//! Times the look-up of names among few and among many.
#![tactic(auto)]

use atom_names::AtomNames;
use std::time::Instant;

const COUNTS: [u16; 3] = [100, 1_000, 16_000];

const LOOK_UPS: u32 = 50_000;

// Five letters that differ for each k below 65,536.
fn letters(k: u64) -> [u8; 5] {
    [
        b'n',
        b'a' + (k / 4096 % 16) as u8,
        b'a' + (k / 256 % 16) as u8,
        b'a' + (k / 16 % 16) as u8,
        b'a' + (k % 16) as u8,
    ]
}

fn main(rt: HostRuntime) -> anyhow::Result<()> {
    let mut best = [u128::MAX; 3];
    for _ in 0..400u16 {
        for i in 0..3usize {
            let count = COUNTS[i];
            let mut names = AtomNames::new(rt.alloc())?;
            for k in 0..count {
                let _ = names.intern(&letters(u64::from(k)));
            }
            let mut all = 0u64;
            let mut draw = 1u32;
            let start = Instant::now(&rt)?;
            for _ in 0..LOOK_UPS {
                draw = draw.wrapping_mul(1_664_525).wrapping_add(1_013_904_223);
                let k = u64::from(draw) * u64::from(count) / 4_294_967_296;
                if let Some(number) = names.intern(&letters(k)) {
                    all ^= number;
                }
            }
            let tenths = start.elapsed(&rt)?.as_nanos() * 10 / u128::from(LOOK_UPS);
            if all < u64::MAX {
                best[i] = best[i].min(tenths);
            }
        }
    }
    for i in 0..3usize {
        println!(rt; "{} names: {}.{} ns a look-up", COUNTS[i], best[i] / 10, best[i] % 10)?;
    }
    Ok(())
}
END
cd "$work/crates/names_time"
rt run
