//! Writes drawn pairs of files of both forms to standard output: `pairs SEED COUNT` such that are accepted, `pairs SEED COUNT damaged` such as
//! come with faults put in or damaged without a plan, most of which are refused. Each is the interval file and then its correction, which may be
//! empty, each behind its length in four bytes, the lowest first. Each pair is drawn from the seed and its own number, as a trial of
//! `differential` is.

use std::io::{BufWriter, Result, Write, stdout};

use cases::random::Random;
use cases::{Case, accepted, refused};

type Draw = fn(&mut Random) -> Case;

fn main() -> Result<()> {
    let words: Vec<String> = std::env::args().skip(1).collect();
    let Some((seed, count, draw)) = asked(&words) else {
        eprintln!("pairs SEED COUNT [damaged]");
        std::process::exit(2);
    };
    write_pairs(seed, count, draw)
}

fn asked(words: &[String]) -> Option<(u64, u64, Draw)> {
    let (numbers, draw): (_, Draw) = match words {
        [numbers @ .., last] if last == "damaged" => (numbers, damaged),
        numbers => (numbers, accepted::case),
    };
    let [seed, count] = numbers else { return None };
    Some((seed.parse().ok()?, count.parse().ok()?, draw))
}

fn write_pairs(seed: u64, count: u64, draw: Draw) -> Result<()> {
    let mut out = BufWriter::new(stdout().lock());
    for number in 0..count {
        let case = draw(&mut Random::from_seed(seed << 32 ^ number));
        put(&mut out, &case.interval)?;
        put(&mut out, &case.correction)?;
    }
    out.flush()
}

/// Two or three faults put into a small file, or bytes of any file changed, put in or cut off.
fn damaged(random: &mut Random) -> Case {
    if random.once_in(2) {
        let rows = random.within(4..=24);
        let base = refused::base(random, rows);
        refused::several(random, &base).0
    } else {
        let whole = accepted::case(random);
        refused::scrambled(random, whole)
    }
}

fn put(out: &mut impl Write, file: &[u8]) -> Result<()> {
    out.write_all(&(file.len() as u32).to_le_bytes())?;
    out.write_all(file)
}
