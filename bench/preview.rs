// A preview in plain Rust: document 01's closing, with the weighed passengers and the previews of document 02. It is a
// baseline for instruction counts, written from these papers and proved nowhere.
//
//     preview WORDS ROUNDS
//
// WORDS is a file of lent words, little-endian, that hold a sound book. The program prints the answers to previews of the
// numbers 0 to 17 into slices of 511, 512 and 600 words, as `replay` prints them. Then it previews all categories ROUNDS
// times more, into 512 words, and prints nothing of it.
use std::env;
use std::fs;
use std::hint::black_box;

const FIRST_CATEGORY: usize = 4;
const FIRST_ENTRY: usize = 36;
const FIRST_ELEMENT: usize = 356;
const CATEGORY_WORDS: usize = 2;
const ENTRY_WORDS: usize = 5;
const ELEMENT_WORDS: usize = 9;

const KG_PER_PASSENGER: u64 = 100;
const PAIR_WORDS: usize = 512;
const UNWRITTEN: u64 = 7;

// Shorter lists of remainders are sorted faster than they are parted.
const FEW: usize = 32;

// Grounds of refusal. The first is not tested: the book is known to be sound.
type Ground = u64;
const NO_SUCH_NUMBER: Ground = 2;
const CLOSED: Ground = 4;
const NO_WEIGHT: Ground = 9;
const FEW_PAIRS: Ground = 17;

const OPERATION: usize = 0;
const PROVISION: usize = 1;

// The records of a list.
fn records<const SIZE: usize>(words: &[u64], first: usize, count: u64) -> &[[u64; SIZE]] {
    words[first..first + SIZE * count as usize].as_chunks().0
}

// What an amount is divided over: the places of elements, and their activities.
struct Sharers {
    list: Vec<(usize, u64)>,
    total: u64,
}

impl Sharers {
    fn none() -> Sharers {
        Sharers { list: Vec::with_capacity(16), total: 0 }
    }

    fn push(&mut self, place: usize, weight: u64) {
        self.list.push((place, weight));
        self.total += weight;
    }

    // Adds their parts of a pool to one side of their pairs, by the dividing rule: floors, then the units left over, one each,
    // to the largest remainders, equal ones to the earlier place.
    fn add_parts(&self, pool: u64, side: usize, pairs: &mut [[u64; 2]], remainders: &mut Vec<(u64, usize)>) {
        if pool == 0 {
            return;
        }
        let mut left = pool;
        remainders.clear();
        remainders.extend(self.list.iter().map(|&(place, weight)| {
            let product = u128::from(pool) * u128::from(weight);
            let floor = (product / u128::from(self.total)) as u64;
            left -= floor;
            pairs[place][side] += floor;
            ((product as u64).wrapping_sub(floor.wrapping_mul(self.total)), place)
        }));
        if left > 0 {
            let left = left as usize;
            if remainders.len() < FEW {
                remainders.sort_by(|a, b| b.0.cmp(&a.0));
            } else {
                remainders.select_nth_unstable_by(left - 1, |a, b| b.0.cmp(&a.0).then(a.1.cmp(&b.1)));
            }
            for &(_, place) in &remainders[..left] {
                pairs[place][side] += 1;
            }
        }
    }
}

// The freight part of A, which is divided by the weights F and P in that order. There is a unit left over where the remainders
// are not 0. They add up to F + P then, and freight gets it where its own is half of that or more.
fn freight_part(all: u64, freight: u64, mass: u64) -> u64 {
    if mass == 0 {
        return all;
    }
    if freight == 0 {
        return 0;
    }
    let total = freight + mass;
    let product = u128::from(all) * u128::from(freight);
    let floor = (product / u128::from(total)) as u64;
    let remainder = (product as u64).wrapping_sub(floor.wrapping_mul(total));
    floor + u64::from(remainder >= total - remainder)
}

// The pairs as the closing of a category would leave them, in words that there are enough of.
fn preview_into(words: &[u64], pairs: &mut [[u64; 2]], number: u64) -> Result<(), Ground> {
    let categories: &[[u64; CATEGORY_WORDS]] = records(words, FIRST_CATEGORY, words[1]);
    let entries: &[[u64; ENTRY_WORDS]] = records(words, FIRST_ENTRY, words[2]);
    let elements: &[[u64; ELEMENT_WORDS]] = records(words, FIRST_ELEMENT, words[3]);
    let Some(&[_, closed]) = categories.get((number as usize).wrapping_sub(1)) else {
        return Err(NO_SUCH_NUMBER);
    };
    if closed != 0 {
        return Err(CLOSED);
    }

    let mut pools = [[0; 3]; 2];
    for &[category, group, operation, provision, struck] in entries {
        if category == number && struck == 0 {
            pools[OPERATION][group as usize] += operation;
            pools[PROVISION][group as usize] += provision;
        }
    }

    let [mut freight, mut passengers, mut chilled, mut frozen] = [(); 4].map(|()| Sharers::none());
    let mut mass = 0;
    for (place, &[category, _, code, amount, distance, activity, _, _, kg_per_head]) in elements.iter().enumerate() {
        if category != number {
            continue;
        }
        if code > 2 {
            passengers.push(place, activity);
            mass += amount * distance * if kg_per_head == 0 { KG_PER_PASSENGER } else { kg_per_head };
            continue;
        }
        freight.push(place, activity);
        match code {
            1 => chilled.push(place, activity),
            2 => frozen.push(place, activity),
            _ => {}
        }
    }
    if freight.total + mass == 0 {
        return Err(NO_WEIGHT);
    }
    for [_, for_chilled, for_frozen] in pools {
        if for_chilled > 0 && chilled.total == 0 || for_frozen > 0 && frozen.total == 0 {
            return Err(NO_WEIGHT);
        }
    }

    // The shares in the open category are 0 before the parts are added.
    let (of_elements, past) = pairs.split_at_mut(elements.len());
    for (pair, element) in of_elements.iter_mut().zip(elements) {
        *pair = [element[6], element[7]];
    }
    past.fill([0; 2]);
    let mut remainders = Vec::with_capacity(freight.list.len().max(passengers.list.len()));
    for (side, [all, for_chilled, for_frozen]) in pools.into_iter().enumerate() {
        let for_freight = freight_part(all, freight.total, mass);
        freight.add_parts(for_freight, side, of_elements, &mut remainders);
        passengers.add_parts(all - for_freight, side, of_elements, &mut remainders);
        chilled.add_parts(for_chilled, side, of_elements, &mut remainders);
        frozen.add_parts(for_frozen, side, of_elements, &mut remainders);
    }
    Ok(())
}

#[inline(never)]
fn preview(words: &[u64], pairs: &mut [u64], number: u64) -> u64 {
    let Some(pairs) = pairs.get_mut(..PAIR_WORDS) else { return FEW_PAIRS };
    preview_into(words, pairs.as_chunks_mut().0, number).err().unwrap_or(0)
}

fn main() {
    let arguments: Vec<String> = env::args().collect();
    let [_, path, rounds] = &arguments[..] else { panic!("usage: preview WORDS ROUNDS") };
    let rounds: usize = rounds.parse().expect("ROUNDS is a number");
    let words: Vec<u64> = fs::read(path)
        .expect("WORDS is a file")
        .chunks_exact(8)
        .map(|bytes| u64::from_le_bytes(bytes.try_into().expect("a word has 8 bytes")))
        .collect();
    for length in [511, 512, 600] {
        for number in 0..=17 {
            let mut pairs = vec![UNWRITTEN; length];
            let refusal = preview(&words, &mut pairs, number);
            let line: String = pairs.iter().map(|word| format!(" {word}")).collect();
            println!("{refusal}{line}");
        }
    }
    let mut pairs = [UNWRITTEN; PAIR_WORDS];
    for _ in 0..rounds {
        for number in 1..=words[1] {
            black_box(preview(black_box(&words), black_box(&mut pairs), number));
        }
    }
}
