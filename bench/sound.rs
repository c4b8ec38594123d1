// The test of soundness in plain Rust: document 01's rules, with the weighed passengers of document 02. It is a
// baseline for instruction counts, written from these papers and proved nowhere.
//
//     sound WORDS TIMES
//
// WORDS is a file of lent words, little-endian. The program says whether they hold a sound book, and then tests them
// TIMES times more.
use std::env;
use std::fs;
use std::hint::black_box;

const MARK: u64 = 14083;
const BOOK_WORDS: usize = 2_660;

const MOST_CATEGORIES: usize = 16;
const MOST_ENTRIES: usize = 64;
const MOST_ELEMENTS: usize = 256;

const FIRST_CATEGORY: usize = 4;
const FIRST_ENTRY: usize = 36;
const FIRST_ELEMENT: usize = 356;
const CATEGORY_WORDS: usize = 2;
const ENTRY_WORDS: usize = 5;
const ELEMENT_WORDS: usize = 9;

const FREIGHT: u64 = 1;
const PASSENGERS: u64 = 2;
const HUB: u64 = 4;

const LAST_CHAIN: u64 = 10_000;
const MOST_MASS: u64 = 1_000_000_000;
const MOST_HEADS: u64 = 1_000_000;
const FARTHEST: u64 = 40_000_000;
const MOST_EMISSIONS: u64 = 1_000_000_000_000_000_000;
const MOST_ACTIVITY: u64 = 100_000_000_000_000_000;

const KG_PER_PASSENGER: u64 = 100;
const MOST_KG_PER_HEAD: u64 = 300;

// Operation and provision, in sums that may pass 64 bits.
type Sums = [u128; 2];

fn add(sums: &mut Sums, operation: u64, provision: u64) {
    sums[0] += u128::from(operation);
    sums[1] += u128::from(provision);
}

#[derive(Clone, Copy, Default)]
struct Category {
    kind: u64,
    closed: bool,
    // Whether its passengers are weighed, once it has some.
    weighed: Option<bool>,
    // Of its unstruck entries, and the shares of its elements.
    entries: Sums,
    shares: Sums,
}

// The records of a list.
fn records(words: &[u64], first: usize, size: usize, count: usize) -> impl Iterator<Item = &[u64]> {
    words[first..first + size * count].chunks_exact(size)
}

// The category of this number, which may be any word.
fn numbered(categories: &mut [Category], number: u64) -> Option<&mut Category> {
    categories.get_mut((number as usize).wrapping_sub(1))
}

#[inline(never)]
fn is_sound(words: &[u64]) -> bool {
    if words.len() < BOOK_WORDS || words[0] != MARK {
        return false;
    }
    if words[1] > MOST_CATEGORIES as u64 || words[2] > MOST_ENTRIES as u64 || words[3] > MOST_ELEMENTS as u64 {
        return false;
    }
    let [category_count, entry_count, element_count] = [words[1], words[2], words[3]].map(|count| count as usize);

    let mut categories = [Category::default(); MOST_CATEGORIES];
    let categories = &mut categories[..category_count];
    for (category, record) in
        categories.iter_mut().zip(records(words, FIRST_CATEGORY, CATEGORY_WORDS, category_count))
    {
        let &[kind, closed] = record else { return false };
        if !(FREIGHT..=HUB).contains(&kind) || closed > 1 {
            return false;
        }
        category.kind = kind;
        category.closed = closed == 1;
    }

    // What ground 10 limits: entries and quoted shares, and the activity of all elements, at most 4 × 10^16 of each.
    let mut emissions = [0; 2];
    let mut all_activity = 0;
    for record in records(words, FIRST_ENTRY, ENTRY_WORDS, entry_count) {
        let &[category, group, operation, provision, struck] = record else { return false };
        let Some(category) = numbered(categories, category) else { return false };
        if group > 2 || category.kind == PASSENGERS && group != 0 {
            return false;
        }
        if operation > MOST_EMISSIONS || provision > MOST_EMISSIONS || struck > 1 {
            return false;
        }
        if struck == 0 {
            add(&mut emissions, operation, provision);
            add(&mut category.entries, operation, provision);
        }
    }

    for record in records(words, FIRST_ELEMENT, ELEMENT_WORDS, element_count) {
        let &[category, chain, code, amount, distance, activity, operation, provision, kg_per_head] = record else {
            return false;
        };
        if chain == 0 || chain > LAST_CHAIN {
            return false;
        }
        if category == 0 {
            if code != 0 || amount == 0 || amount > MOST_MASS || distance == 0 || distance > FARTHEST {
                return false;
            }
            if activity != amount * distance || kg_per_head != 0 {
                return false;
            }
            add(&mut emissions, operation, provision);
            all_activity += activity;
            continue;
        }
        let Some(category) = numbered(categories, category) else { return false };
        let hub = category.kind == HUB;
        let right_distance = if hub { distance == 0 } else { (1..=FARTHEST).contains(&distance) };
        if !right_distance || amount == 0 {
            return false;
        }
        if code <= 2 {
            if category.kind == PASSENGERS || amount > MOST_MASS || kg_per_head != 0 {
                return false;
            }
            if activity != if hub { amount } else { amount * distance } {
                return false;
            }
            all_activity += activity;
        } else {
            if !(100..=1000).contains(&code) || category.kind == FREIGHT || hub {
                return false;
            }
            if amount > MOST_HEADS || kg_per_head > MOST_KG_PER_HEAD || activity != amount * code * distance {
                return false;
            }
            let weighed = kg_per_head != 0;
            if *category.weighed.get_or_insert(weighed) != weighed {
                return false;
            }
            all_activity += amount * KG_PER_PASSENGER * distance;
        }
        if category.closed {
            add(&mut category.shares, operation, provision);
        } else if operation != 0 || provision != 0 {
            return false;
        }
    }

    emissions.iter().all(|&sum| sum <= u128::from(MOST_EMISSIONS))
        && all_activity <= MOST_ACTIVITY
        && categories.iter().all(|category| !category.closed || category.shares == category.entries)
}

fn main() {
    let arguments: Vec<String> = env::args().collect();
    let [_, path, times] = &arguments[..] else { panic!("usage: sound WORDS TIMES") };
    let times: usize = times.parse().expect("TIMES is a number");
    let words: Vec<u64> = fs::read(path)
        .expect("WORDS is a file")
        .chunks_exact(8)
        .map(|bytes| u64::from_le_bytes(bytes.try_into().expect("a word has 8 bytes")))
        .collect();
    println!("{}", if is_sound(&words) { "sound" } else { "not sound" });
    for _ in 0..times {
        black_box(is_sound(black_box(&words)));
    }
}
