//! Prints so many ticks of 100 symbols as a CSV: at each time a tick of each symbol, whose price goes up or down by up to
//! 10 or stays. The same number of ticks is always the same text.
//!
//! Usage: ticks COUNT

use std::io::{self, BufWriter, Write};

const SYMBOLS: u64 = 100;

/// Numbers that look random, by Marsaglia's xorshift.
struct Chance(u64);

impl Chance {
    fn below(&mut self, bound: u64) -> u64 {
        self.0 ^= self.0 << 13;
        self.0 ^= self.0 >> 7;
        self.0 ^= self.0 << 17;
        (self.0 >> 11) % bound
    }
}

fn main() -> io::Result<()> {
    let count: u64 = std::env::args().nth(1).and_then(|word| word.parse().ok()).expect("usage: ticks COUNT");
    let mut chance = Chance(0x2545_F491_4F6C_DD1D);
    let mut prices = vec![500_i64; SYMBOLS as usize];
    let mut out = BufWriter::with_capacity(1 << 16, io::stdout().lock());
    writeln!(out, "sym,t,p")?;
    for tick in 0..count {
        let symbol = (tick % SYMBOLS) as usize;
        let moved = prices[symbol] + chance.below(21) as i64 - 10;
        prices[symbol] = moved.clamp(100, 999);
        writeln!(out, "s{symbol:02},{},{}", tick / SYMBOLS + 1, prices[symbol])?;
    }
    out.flush()
}
