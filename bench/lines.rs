// The conversion of cells in plain Rust: the lines of document 02. It is a baseline for instruction counts, written
// from that paper and proved nowhere.
//
// Standard input is a list of records as `replay` takes them, of operations 13, 16 and 17. No words may be lent, so that
// a line of good cells is refused with 1. The answers go to standard output; what the cells come to, all added up, goes
// to standard error, and so is worked out.
use std::io::{self, Read, Write};

const RECORD_BYTES: usize = 64;
const LEND: u64 = 13;
const CELL: u64 = 16;
const LINE: u64 = 17;

// Grounds of refusal.
type Ground = u32;
const UNSOUND: Ground = 1;
const UNUSABLE: Ground = 15;
const EXCHANGED: Ground = 16;

// The limits of a line's cells: 10^9 for the quantity, 10^7 for the factors.
const LIMITS: [f64; 3] = [1e9, 1e7, 1e7];

const SIGN: u64 = 1 << 63;
const FRACTION_BITS: u32 = 52;
const LEADING: u64 = 1 << FRACTION_BITS;
// The exponent field of a double that is its own significand.
const BIAS: u64 = 1075;

// Doubles are their bits.
#[derive(Clone, Copy)]
enum Cell {
    Blank,
    Number(u64),
    Span(u64, u64),
}

// The nearest thousandth, halves to even. The bits of doubles from 0 up are in the order of their values, and those of any
// other are above them.
fn thousandths(double: u64, limit: f64) -> Result<u64, Ground> {
    if double > limit.to_bits() {
        return if double == SIGN { Ok(0) } else { Err(UNUSABLE) };
    }
    // The double is significand / 2^places. From 64 places on it is below half a thousandth; with fewer it is normal.
    let places = BIAS - (double >> FRACTION_BITS);
    if places > 63 {
        return Ok(0);
    }
    let significand = LEADING | double & (LEADING - 1);
    let product = 1000 * significand;
    let quotient = product >> places;
    let remainder = product & ((1 << places) - 1);
    // At the half an odd quotient is rounded up.
    Ok(quotient + u64::from(2 * remainder + (quotient & 1) > 1 << places))
}

fn convert(cell: Cell, limit: f64) -> Result<u64, Ground> {
    match cell {
        Cell::Blank => Err(UNUSABLE),
        Cell::Number(double) => thousandths(double, limit),
        Cell::Span(first, second) => {
            let low = thousandths(first, limit)?;
            let high = thousandths(second, limit)?;
            // The sign is that of a zero.
            if second & !SIGN < first & !SIGN {
                return Err(EXCHANGED);
            }
            let quotient = (low + high) / 2;
            Ok(quotient + (low + high & quotient & 1))
        }
    }
}

// Adds what the cells come to, from the left to the first bad one.
fn add(cells: &[Cell; 3], sum: &mut u64) -> Result<(), Ground> {
    for (&cell, limit) in cells.iter().zip(LIMITS) {
        *sum += convert(cell, limit)?;
    }
    Ok(())
}

// Plays the records and returns the sum of the cells.
fn play(records: &[u8], out: &mut Vec<u8>) -> io::Result<u64> {
    let mut cells = [Cell::Blank; 3];
    let mut count = 0;
    let mut sum = 0;
    for record in records.chunks_exact(RECORD_BYTES) {
        let word = |place: usize| u64::from_le_bytes(record[8 * place..][..8].try_into().expect("a word has 8 bytes"));
        match word(0) {
            LEND => assert_eq!(word(1), 0, "no words may be lent"),
            CELL => {
                cells[count] = match word(1) {
                    0 => Cell::Blank,
                    1 => Cell::Number(word(2)),
                    _ => Cell::Span(word(2), word(3)),
                };
                count += 1;
            }
            LINE => {
                assert_eq!(count, 3, "a line has three cells");
                let refusal = add(&cells, &mut sum).err().unwrap_or(UNSOUND);
                writeln!(out, "{refusal} 0")?;
                count = 0;
            }
            operation => panic!("no operation {operation} here"),
        }
    }
    Ok(sum)
}

fn main() -> io::Result<()> {
    let mut records = Vec::new();
    io::stdin().lock().read_to_end(&mut records)?;
    let mut out = Vec::new();
    let sum = play(&records, &mut out)?;
    io::stdout().lock().write_all(&out)?;
    eprintln!("{sum}");
    Ok(())
}
