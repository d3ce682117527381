//! The report of a feed in plain Rust with hash maps, unproved: what `bench.py` compares the program `page` with. Kinds,
//! rows, units and refusals are their numbers. Sends are checked in full. The rest is what the feeds of the benchmark
//! need: an opening is taken as it stands, whatever its ranges, and a feed however long it is; of the built-in factors
//! there is electricity alone, and of the ways to a grade the limits of the house that all these feeds open with.

use std::collections::HashMap;
use std::fmt::Write as _;
use std::io::{self, Read, Write as _};

type Refusal = u16;

const STAGES: [std::ops::RangeInclusive<usize>; 4] = [1..=2, 3..=10, 11..=21, 22..=22];
const ENERGY_ROWS: [usize; 5] = [11, 12, 14, 15, 19];
// Tenths of a kilogram per square metre and year.
const LOW_CARBON_LIMIT: i64 = 210;
const NEAR_ZERO_LIMIT: i64 = 140;

#[derive(Clone, Copy)]
struct Factor {
    amount: u64,
    unit: u16,
}

#[derive(Clone, Copy, PartialEq)]
struct Line {
    row: u16,
    span: u16,
    code: u32,
    thousandths: u64,
    grams: i64,
}

struct Place {
    revision: u32,
    line: Option<Line>,
}

struct Sheet {
    area: u32,
    life: u16,
    factors: HashMap<u32, Factor>,
    book: HashMap<u32, Place>,
}

fn u16_at(note: &[u8], at: usize) -> u16 {
    u16::from_le_bytes(note[at..at + 2].try_into().unwrap())
}

fn u32_at(note: &[u8], at: usize) -> u32 {
    u32::from_le_bytes(note[at..at + 4].try_into().unwrap())
}

fn u64_at(note: &[u8], at: usize) -> u64 {
    u64::from_le_bytes(note[at..at + 8].try_into().unwrap())
}

fn require(holds: bool, otherwise: Refusal) -> Result<(), Refusal> {
    holds.then_some(()).ok_or(otherwise)
}

/// The kind and the bytes of the first note, which are taken off.
fn next_note<'a>(bytes: &mut &'a [u8]) -> Result<(u16, &'a [u8]), Refusal> {
    require(bytes.len() >= 4, 1)?;
    let length = usize::from(u16_at(bytes, 0));
    require((4..=bytes.len()).contains(&length), 1)?;
    let (note, rest) = bytes.split_at(length);
    *bytes = rest;
    Ok((u16_at(note, 2), note))
}

/// Thousandths of a binary64 number of units from 0 to 1,000,000, a half going up.
fn measured(bits: u64) -> Option<u64> {
    if !(0.0..=1_000_000.0).contains(&f64::from_bits(bits)) {
        return None;
    }
    let exponent = (bits >> 52) & 0x7ff;
    let hidden = u64::from(exponent > 0) << 52;
    let digits = bits & ((1 << 52) - 1) | hidden;
    // The number is digits / 2^shift, and at most 2^20.
    let shift = 1075 - exponent.max(1);
    if shift > 63 {
        return Some(0);
    }
    Some((digits * 1000 + (1 << (shift - 1))) >> shift)
}

impl Sheet {
    fn factor(&self, code: u32) -> Option<Factor> {
        if (1_000_001..=1_999_999).contains(&code) {
            let new = self.factor(code - 1_000_000)?;
            let amount = new.amount.div_ceil(2);
            return (new.unit == 1).then_some(Factor { amount, unit: 1 });
        }
        let electricity = Factor { amount: 5_000, unit: 3 };
        self.factors.get(&code).copied().or((code == 1).then_some(electricity))
    }

    fn line(&self, kind: u16, note: &[u8]) -> Result<Line, Refusal> {
        let (row, span, code) = (u16_at(note, 12), u16_at(note, 14), u32_at(note, 16));
        require((1..=22).contains(&row), 5)?;
        let (life, years) = (u64::from(self.life), u64::from(span));
        let (span_fits, times, divisor) = match row {
            2 | 8 => (span <= 10_000, years, 1),
            11..=16 | 19 | 20 => (span == 0, life, 1),
            17 => ((1..=100).contains(&span), life / years.max(1), 1),
            21 => ((1..=100).contains(&span), life, years.max(1)),
            _ => (span == 0, 1, 1),
        };
        require(span_fits, 6)?;
        let quantity = u64_at(note, 20);
        let counted = (quantity <= 1_000_000_000).then_some(quantity);
        let booked = if kind == 3 { counted } else { measured(quantity) };
        let thousandths = booked.ok_or(7_u16)?;
        let factor = self.factor(code).ok_or(8_u16)?;
        let unit_fits = match row {
            2 | 8 => factor.unit == 5,
            21 => factor.unit == 4,
            _ => factor.unit != 5,
        };
        require(unit_fits, 9)?;
        let product = (thousandths * factor.amount).checked_mul(times).ok_or(10_u16)?;
        require(product <= 1_000_000_000_000_000_000, 10)?;
        let grams = (2 * product + 10_000 * divisor) / (20_000 * divisor);
        let sign = if matches!(row, 9 | 19 | 20) { -1 } else { 1 };
        Ok(Line { row, span, code, thousandths, grams: sign * grams as i64 })
    }

    fn send(&mut self, kind: u16, note: &[u8]) -> Result<(), Refusal> {
        require((3..=5).contains(&kind), 2)?;
        require(note.len() == if kind == 5 { 12 } else { 28 }, 3)?;
        let (number, revision) = (u32_at(note, 4), u32_at(note, 8));
        let line = if kind == 5 { None } else { Some(self.line(kind, note)?) };
        match self.book.get_mut(&number) {
            None => {
                require(self.book.len() < 512, 23)?;
                self.book.insert(number, Place { revision, line });
            }
            Some(held) if revision < held.revision => return Err(21),
            Some(held) if revision > held.revision => *held = Place { revision, line },
            Some(held) => return Err(if line == held.line { 21 } else { 22 }),
        }
        Ok(())
    }

    fn write_page(&self, text: &mut String) {
        let (mut grams, mut counts) = ([0_i64; 23], [0_u16; 23]);
        for line in self.book.values().filter_map(|place| place.line) {
            grams[usize::from(line.row)] += line.grams;
            counts[usize::from(line.row)] += 1;
        }
        let (mut sum, mut printed) = (0, 0);
        for (stage, rows) in STAGES.iter().enumerate() {
            sum += grams[rows.clone()].iter().sum::<i64>();
            let kilograms = (sum + 500).div_euclid(1_000) - printed;
            printed += kilograms;
            let count: u16 = counts[rows.clone()].iter().sum();
            writeln!(text, "{} {kilograms} {count}", stage + 1).unwrap();
        }
        writeln!(text, "total {printed} {}", counts.iter().sum::<u16>()).unwrap();
        let energy: i64 = ENERGY_ROWS.iter().map(|row| grams[*row]).sum();
        let meets = |limit| energy <= 10 * limit * i64::from(self.area) * i64::from(self.life);
        let grade = u8::from(meets(LOW_CARBON_LIMIT)) + u8::from(meets(NEAR_ZERO_LIMIT));
        writeln!(text, "grade {grade}").unwrap();
    }
}

fn report(mut feed: &[u8]) -> Result<String, Refusal> {
    let (_, building) = next_note(&mut feed)?;
    let (area, life) = (u32_at(building, 4), u16_at(building, 8));
    let mut sheet = Sheet { area, life, factors: HashMap::new(), book: HashMap::new() };
    let (mut text, mut place, mut opens) = (String::new(), 0, true);
    while !feed.is_empty() {
        let next = next_note(&mut feed);
        opens &= matches!(next, Ok((2, _)));
        let sent = match next {
            Ok((_, row)) if opens => {
                let (amount, unit) = (u64::from(u32_at(row, 8)), u16_at(row, 12));
                sheet.factors.entry(u32_at(row, 4)).or_insert(Factor { amount, unit });
                continue;
            }
            Ok((kind, note)) => sheet.send(kind, note),
            Err(refusal) => Err(refusal),
        };
        place += 1;
        if let Err(refusal) = sent {
            writeln!(text, "denied {place} {refusal}").unwrap();
        }
        if next.is_err() {
            break;
        }
    }
    sheet.write_page(&mut text);
    Ok(text)
}

fn main() -> io::Result<()> {
    let mut feed = Vec::new();
    io::stdin().read_to_end(&mut feed)?;
    let text = report(&feed).unwrap_or_else(|refusal| format!("denied 0 {refusal}\n"));
    io::stdout().write_all(text.as_bytes())
}
