//! The lines that `rowmatch whole` prints for one clause, by a program that is written for it:
//!
//!     PARTITION BY sym ORDER BY t
//!     MEASURES MATCH_NUMBER() AS n, FIRST(p) AS a, LAST(B.p) AS lo, LAST(C.p) AS hi
//!     PATTERN (A B+ C+) DEFINE B AS p < PREV(p), C AS p > PREV(p)
//!
//! It reads plain CSV: no quotes, no empty fields, lines that end in LF, symbols that JSON needn't escape.

use std::collections::HashMap;
use std::error::Error;
use std::io::{self, Read, Write};

const BLOCK: usize = 1 << 16;

struct Tick {
    time: i64,
    price: i64,
}

struct Symbol<'a> {
    name: &'a [u8],
    ticks: Vec<Tick>,
}

/// A fall and the rise after it, from the row before them.
struct Fall {
    begins: i64,
    low: i64,
    high: i64,
}

/// What is left of the text.
struct Input<'a>(&'a [u8]);

impl<'a> Input<'a> {
    /// The bytes up to `end`, which is passed over.
    fn field(&mut self, end: u8) -> Option<&'a [u8]> {
        let length = self.0.iter().position(|&byte| byte == end)?;
        let (field, rest) = self.0.split_at(length);
        self.0 = &rest[1..];
        Some(field)
    }

    /// The whole number up to `end`, which is passed over.
    fn number(&mut self, end: u8) -> Option<i64> {
        let (negative, digits) = match self.field(end)? {
            [b'-', digits @ ..] => (true, digits),
            digits => (false, digits),
        };
        if digits.is_empty() {
            return None;
        }
        let mut value: i64 = 0;
        for byte in digits {
            let digit = byte.wrapping_sub(b'0');
            if digit > 9 {
                return None;
            }
            value = value.checked_mul(10)?.checked_add(i64::from(digit))?;
        }
        Some(if negative { -value } else { value })
    }
}

fn read_ticks(text: &[u8]) -> Option<Vec<Symbol<'_>>> {
    let mut input = Input(text.strip_prefix(b"sym,t,p\n")?);
    let mut places: HashMap<&[u8], usize> = HashMap::new();
    let mut symbols: Vec<Symbol> = Vec::new();
    while !input.0.is_empty() {
        let name = input.field(b',')?;
        let tick = Tick { time: input.number(b',')?, price: input.number(b'\n')? };
        let place = *places.entry(name).or_insert_with(|| {
            symbols.push(Symbol { name, ticks: Vec::new() });
            symbols.len() - 1
        });
        symbols[place].ticks.push(tick);
    }
    Some(symbols)
}

/// The fall that begins at `start`, and how many rows it takes.
fn fall_at(ticks: &[Tick], start: usize) -> Option<(Fall, usize)> {
    let mut lowest = start;
    while lowest + 1 < ticks.len() && ticks[lowest + 1].price < ticks[lowest].price {
        lowest += 1;
    }
    let mut highest = lowest;
    while highest + 1 < ticks.len() && ticks[highest + 1].price > ticks[highest].price {
        highest += 1;
    }
    if lowest == start || highest == lowest {
        return None;
    }
    let fall = Fall { begins: ticks[start].price, low: ticks[lowest].price, high: ticks[highest].price };
    Some((fall, highest - start + 1))
}

fn print_symbol(symbol: &Symbol, out: &mut impl Write) -> io::Result<()> {
    let name = symbol.name;
    let mut number = 0;
    let mut start = 0;
    while start < symbol.ticks.len() {
        let Some((fall, rows)) = fall_at(&symbol.ticks, start) else {
            start += 1;
            continue;
        };
        number += 1;
        start += rows;
        out.write_all(b"{\"cells\":[\"")?;
        out.write_all(name)?;
        write!(out, "\",{number},{},{},{}],\"key\":[\"", fall.begins, fall.low, fall.high)?;
        out.write_all(name)?;
        writeln!(out, "\"],\"number\":{number},\"place\":\"{number}\"}}")?;
    }
    out.write_all(b"{\"end\":true,\"key\":[\"")?;
    out.write_all(name)?;
    writeln!(out, "\"],\"place\":\"{}\"}}", number + 1)
}

fn main() -> Result<(), Box<dyn Error>> {
    let mut text = Vec::new();
    io::stdin().lock().read_to_end(&mut text)?;
    let mut out = io::BufWriter::with_capacity(BLOCK, io::stdout().lock());
    for mut symbol in read_ticks(&text).ok_or("no plain CSV of ticks")? {
        symbol.ticks.sort_by_key(|tick| tick.time);
        print_symbol(&symbol, &mut out)?;
    }
    Ok(out.flush()?)
}
