// The whole job of document 01's printing program in plain Rust: a file from standard input, its sheet to standard
// output, with the class total and the weighed passengers of document 02. It is a baseline for instruction counts,
// written from these papers and proved nowhere. `sheet` is the job itself, without the start of the process, the reading
// and the writing.
use std::io::{self, Read, Write};

const MARK: u32 = 14083;
const HEADER_BYTES: usize = 32;
const MOST_BYTES: usize = 16_384;
const CATEGORY_BYTES: usize = 8;
const ENTRY_BYTES: usize = 32;
const ELEMENT_BYTES: usize = 48;

const MOST_CATEGORIES: usize = 16;
const MOST_ENTRIES: usize = 64;
const MOST_ELEMENTS: usize = 256;

const FREIGHT: u32 = 1;
const PASSENGERS: u32 = 2;
const HUB: u32 = 4;

const LAST_CHAIN: u32 = 10_000;
const MOST_QUANTITY: u64 = 1_000_000_000_000;
const MOST_FACTOR: u64 = 10_000_000_000;
const MOST_MASS: u64 = 1_000_000_000;
const MOST_HEADS: u64 = 1_000_000;
const FARTHEST: u64 = 40_000_000;
const MOST_INTENSITY: u64 = 1_000_000_000;
const MOST_EMISSIONS: u128 = 1_000_000_000_000_000_000;
const MOST_ACTIVITY: u64 = 100_000_000_000_000_000;

const KG_PER_PASSENGER: u64 = 100;
const MOST_KG_PER_HEAD: u32 = 300;
const AIR_DEFAULT: u64 = 95_000;

// Grounds of refusal. A file's calls meet no others: nothing is closed before the last element has come.
type Ground = u32;
const NO_SUCH_NUMBER: Ground = 2;
const BAD_VALUE: Ground = 3;
const UNSUITED: Ground = 6;
const OUT_OF_RANGE: Ground = 7;
const LIST_FULL: Ground = 8;
const NO_WEIGHT: Ground = 9;
const PAST_LIMIT: Ground = 10;
const BAD_FILE: Ground = 11;
const BAD_SECTION: Ground = 12;
const BAD_FIELD: Ground = 13;
const MIXED: Ground = 14;

// An operation and a provision amount.
type Amounts = [u64; 2];

// The dividing rule: floors, then the units left over, one each, to the largest remainders, equal ones to the earlier
// place. Weights and shares have the same length.
fn divide(pool: u64, weights: &[u64], shares: &mut [u64]) {
    let total: u128 = weights.iter().map(|&weight| u128::from(weight)).sum();
    if pool == 0 || total == 0 {
        shares.fill(0);
        return;
    }
    let mut left = pool;
    let mut remainders = Vec::with_capacity(weights.len());
    for (place, (&weight, share)) in weights.iter().zip(shares.iter_mut()).enumerate() {
        let product = u128::from(pool) * u128::from(weight);
        let floor = product / total;
        *share = floor as u64;
        left -= *share;
        remainders.push(((product - floor * total) as u64, place));
    }
    if left > 0 {
        remainders.sort_unstable_by(|a, b| b.0.cmp(&a.0).then(a.1.cmp(&b.1)));
        for &(_, place) in remainders.iter().take(left as usize) {
            shares[place] += 1;
        }
    }
}

struct Category {
    kind: u32,
    closed: bool,
    // Whether its passengers are weighed, where it has some.
    weighed: Option<bool>,
    // Places of its elements in the book's list.
    members: Vec<usize>,
}

struct Entry {
    category: usize,
    group: usize,
    amounts: Amounts,
}

struct Element {
    // 0 when it is quoted.
    category: usize,
    chain: u32,
    code: u32,
    amount: u64,
    distance: u64,
    activity: u64,
    shares: Amounts,
    // 0 for the standard mass of passengers, and for freight.
    kg_per_head: u32,
}

// The elements that a pool is divided over: their places in the book's list, and their activities.
struct Sharers {
    places: Vec<usize>,
    weights: Vec<u64>,
    total: u64,
}

impl Sharers {
    fn with_room(room: usize) -> Sharers {
        Sharers { places: Vec::with_capacity(room), weights: Vec::with_capacity(room), total: 0 }
    }

    fn push(&mut self, place: usize, weight: u64) {
        self.places.push(place);
        self.weights.push(weight);
        self.total += weight;
    }

    // Divides a pool over them and adds each part to the element's share.
    fn hand_out(&self, pool: u64, side: usize, parts: &mut [u64], elements: &mut [Element]) {
        if pool == 0 {
            return;
        }
        let parts = &mut parts[..self.places.len()];
        divide(pool, &self.weights, parts);
        for (&place, part) in self.places.iter().zip(parts) {
            elements[place].shares[side] += *part;
        }
    }
}

struct Book {
    categories: Vec<Category>,
    entries: Vec<Entry>,
    elements: Vec<Element>,
    // What ground 10 limits: entries and quoted shares, and the activity of all elements.
    emissions: Amounts,
    activity: u64,
}

impl Book {
    fn fresh() -> Book {
        Book {
            categories: Vec::with_capacity(MOST_CATEGORIES),
            entries: Vec::with_capacity(MOST_ENTRIES),
            elements: Vec::with_capacity(MOST_ELEMENTS),
            emissions: [0; 2],
            activity: 0,
        }
    }

    fn kind_of(&self, category: u32) -> Result<u32, Ground> {
        if category == 0 || category as usize > self.categories.len() {
            return Err(NO_SUCH_NUMBER);
        }
        Ok(self.categories[category as usize - 1].kind)
    }

    // The emissions of the book with these added.
    fn emissions_with(&self, amounts: [u128; 2]) -> Result<Amounts, Ground> {
        let operation = u128::from(self.emissions[0]) + amounts[0];
        let provision = u128::from(self.emissions[1]) + amounts[1];
        if operation > MOST_EMISSIONS || provision > MOST_EMISSIONS {
            return Err(PAST_LIMIT);
        }
        Ok([operation as u64, provision as u64])
    }

    fn activity_with(&self, activity: u64) -> Result<u64, Ground> {
        let activity = self.activity + activity;
        if activity > MOST_ACTIVITY {
            return Err(PAST_LIMIT);
        }
        Ok(activity)
    }

    fn open(&mut self, kind: u32) -> Result<(), Ground> {
        if !(FREIGHT..=HUB).contains(&kind) {
            return Err(BAD_VALUE);
        }
        if self.categories.len() == MOST_CATEGORIES {
            return Err(LIST_FULL);
        }
        self.categories.push(Category { kind, closed: false, weighed: None, members: Vec::new() });
        Ok(())
    }

    fn post(&mut self, category: u32, group: u32, quantity: u64, factors: [u64; 2]) -> Result<(), Ground> {
        let kind = self.kind_of(category)?;
        if group > 2 {
            return Err(BAD_VALUE);
        }
        if kind == PASSENGERS && group != 0 {
            return Err(UNSUITED);
        }
        if quantity > MOST_QUANTITY || factors[0] > MOST_FACTOR || factors[1] > MOST_FACTOR {
            return Err(OUT_OF_RANGE);
        }
        if self.entries.len() == MOST_ENTRIES {
            return Err(LIST_FULL);
        }
        let amounts = factors.map(|factor| u128::from(quantity) * u128::from(factor));
        self.emissions = self.emissions_with(amounts)?;
        self.entries.push(Entry {
            category: category as usize,
            group: group as usize,
            amounts: amounts.map(|amount| amount as u64),
        });
        Ok(())
    }

    fn enrol(
        &mut self,
        category: u32,
        chain: u32,
        code: u32,
        amount: u64,
        distance: u64,
        kg_per_head: u32,
    ) -> Result<(), Ground> {
        let kind = self.kind_of(category)?;
        let freight = code <= 2;
        if chain == 0 || chain > LAST_CHAIN || !(freight || (100..=1000).contains(&code)) {
            return Err(BAD_VALUE);
        }
        if freight && kind == PASSENGERS || !freight && (kind == FREIGHT || kind == HUB) {
            return Err(UNSUITED);
        }
        let weighed = kg_per_head != 0;
        if !freight && self.categories[category as usize - 1].weighed == Some(!weighed) {
            return Err(MIXED);
        }
        let (most, most_kg) = if freight { (MOST_MASS, 0) } else { (MOST_HEADS, MOST_KG_PER_HEAD) };
        let right_distance = if kind == HUB { distance == 0 } else { (1..=FARTHEST).contains(&distance) };
        if amount == 0 || amount > most || !right_distance || kg_per_head > most_kg {
            return Err(OUT_OF_RANGE);
        }
        if self.elements.len() == MOST_ELEMENTS {
            return Err(LIST_FULL);
        }
        let (activity, limited) = if kind == HUB {
            (amount, amount)
        } else if freight {
            (amount * distance, amount * distance)
        } else {
            (amount * u64::from(code) * distance, amount * KG_PER_PASSENGER * distance)
        };
        self.activity = self.activity_with(limited)?;
        let category = category as usize;
        if !freight {
            self.categories[category - 1].weighed = Some(weighed);
        }
        self.categories[category - 1].members.push(self.elements.len());
        self.elements.push(Element { category, chain, code, amount, distance, activity, shares: [0; 2], kg_per_head });
        Ok(())
    }

    fn quote(&mut self, chain: u32, adjust: u32, mass: u64, distance: u64, intensities: [u64; 2]) -> Result<(), Ground> {
        if chain == 0 || chain > LAST_CHAIN || adjust > 1 {
            return Err(BAD_VALUE);
        }
        if mass == 0
            || mass > MOST_MASS
            || distance == 0
            || distance > FARTHEST
            || intensities[0] > MOST_INTENSITY
            || intensities[1] > MOST_INTENSITY
        {
            return Err(OUT_OF_RANGE);
        }
        if self.elements.len() == MOST_ELEMENTS {
            return Err(LIST_FULL);
        }
        let flown = if adjust == 1 { distance + AIR_DEFAULT } else { distance };
        // Nearest; at the half an odd quotient is rounded up.
        let shares = intensities.map(|intensity| {
            let product = u128::from(intensity) * u128::from(mass) * u128::from(flown);
            let quotient = product / 1000;
            quotient + u128::from(2 * (product % 1000) + (quotient & 1) > 1000)
        });
        let activity = mass * distance;
        let emissions = self.emissions_with(shares)?;
        self.activity = self.activity_with(activity)?;
        self.emissions = emissions;
        self.elements.push(Element {
            category: 0,
            chain,
            code: 0,
            amount: mass,
            distance,
            activity,
            shares: shares.map(|share| share as u64),
            kg_per_head: 0,
        });
        Ok(())
    }

    // Closes a category that is there and open.
    fn close(&mut self, number: usize) -> Result<(), Ground> {
        let category = &mut self.categories[number - 1];
        let mut pools = [[0; 3]; 2];
        for entry in self.entries.iter().filter(|entry| entry.category == number) {
            pools[0][entry.group] += entry.amounts[0];
            pools[1][entry.group] += entry.amounts[1];
        }

        let room = category.members.len();
        let mut freight = Sharers::with_room(room);
        let mut chilled = Sharers::with_room(room);
        let mut frozen = Sharers::with_room(room);
        let mut passengers = Sharers::with_room(room);
        let mut passenger_mass = 0;
        for &place in &category.members {
            let element = &self.elements[place];
            if element.code > 2 {
                passengers.push(place, element.activity);
                let kg = if element.kg_per_head == 0 { KG_PER_PASSENGER } else { u64::from(element.kg_per_head) };
                passenger_mass += element.amount * kg * element.distance;
                continue;
            }
            freight.push(place, element.activity);
            match element.code {
                1 => chilled.push(place, element.activity),
                2 => frozen.push(place, element.activity),
                _ => {}
            }
        }

        if freight.total + passenger_mass == 0 {
            return Err(NO_WEIGHT);
        }
        for [_, for_chilled, for_frozen] in pools {
            if for_chilled > 0 && chilled.total == 0 || for_frozen > 0 && frozen.total == 0 {
                return Err(NO_WEIGHT);
            }
        }

        let mut parts = vec![0; room];
        for (side, [for_all, for_chilled, for_frozen]) in pools.into_iter().enumerate() {
            let mut sorts = [0; 2];
            divide(for_all, &[freight.total, passenger_mass], &mut sorts);
            freight.hand_out(sorts[0], side, &mut parts, &mut self.elements);
            passengers.hand_out(sorts[1], side, &mut parts, &mut self.elements);
            chilled.hand_out(for_chilled, side, &mut parts, &mut self.elements);
            frozen.hand_out(for_frozen, side, &mut parts, &mut self.elements);
        }
        category.closed = true;
        Ok(())
    }

    fn waits(&self, element: &Element) -> bool {
        element.category != 0 && !self.categories[element.category - 1].closed
    }
}

// Where and why a file was refused; table and record are 0 for the header.
struct Stopped {
    ground: Ground,
    table: u32,
    record: usize,
}

fn u32_at(bytes: &[u8], at: usize) -> u32 {
    let mut number = [0; 4];
    number.copy_from_slice(&bytes[at..at + 4]);
    u32::from_le_bytes(number)
}

fn u64_at(bytes: &[u8], at: usize) -> u64 {
    let mut number = [0; 8];
    number.copy_from_slice(&bytes[at..at + 8]);
    u64::from_le_bytes(number)
}

// The bytes of the three sections.
fn sections(file: &[u8]) -> Result<[&[u8]; 3], Ground> {
    if file.len() < HEADER_BYTES || file.len() > MOST_BYTES {
        return Err(BAD_FILE);
    }
    if u32_at(file, 0) != MARK || u32_at(file, 28) as usize != file.len() {
        return Err(BAD_FILE);
    }
    let mut found: [&[u8]; 3] = [&[]; 3];
    let mut previous_end = HEADER_BYTES as u64;
    for (table, size) in [CATEGORY_BYTES, ENTRY_BYTES, ELEMENT_BYTES].into_iter().enumerate() {
        let count = u64::from(u32_at(file, 4 + 8 * table));
        let start = u64::from(u32_at(file, 8 + 8 * table));
        let end = start + count * size as u64;
        if start < previous_end || end > file.len() as u64 {
            return Err(BAD_SECTION);
        }
        found[table] = &file[start as usize..end as usize];
        previous_end = end;
    }
    Ok(found)
}

fn open_record(book: &mut Book, record: &[u8]) -> Result<(), Ground> {
    if u32_at(record, 4) > 1 {
        return Err(BAD_FIELD);
    }
    book.open(u32_at(record, 0))
}

fn post_record(book: &mut Book, record: &[u8]) -> Result<(), Ground> {
    let factors = [u64_at(record, 16), u64_at(record, 24)];
    book.post(u32_at(record, 0), u32_at(record, 4), u64_at(record, 8), factors)
}

fn element_record(book: &mut Book, record: &[u8]) -> Result<(), Ground> {
    let category = u32_at(record, 0);
    let chain = u32_at(record, 4);
    let code = u32_at(record, 8);
    let adjust = u32_at(record, 12);
    let amount = u64_at(record, 16);
    let distance = u64_at(record, 24);
    let intensities = [u64_at(record, 32), u64_at(record, 40)];
    if category == 0 {
        if code != 0 {
            return Err(BAD_FIELD);
        }
        return book.quote(chain, adjust, amount, distance, intensities);
    }
    // A passenger element has its kg per head there.
    let passengers = (100..=1000).contains(&code);
    if adjust != 0 && !passengers || intensities != [0, 0] {
        return Err(BAD_FIELD);
    }
    book.enrol(category, chain, code, amount, distance, adjust)
}

fn load(file: &[u8]) -> Result<Book, Stopped> {
    let at = |table, record| move |ground| Stopped { ground, table, record };
    let [categories, entries, elements] = sections(file).map_err(at(0, 0))?;
    let mut book = Book::fresh();
    for (place, record) in categories.chunks_exact(CATEGORY_BYTES).enumerate() {
        open_record(&mut book, record).map_err(at(1, place + 1))?;
    }
    for (place, record) in entries.chunks_exact(ENTRY_BYTES).enumerate() {
        post_record(&mut book, record).map_err(at(2, place + 1))?;
    }
    for (place, record) in elements.chunks_exact(ELEMENT_BYTES).enumerate() {
        element_record(&mut book, record).map_err(at(3, place + 1))?;
    }
    for (place, record) in categories.chunks_exact(CATEGORY_BYTES).enumerate() {
        if u32_at(record, 4) == 1 {
            book.close(place + 1).map_err(at(4, place + 1))?;
        }
    }
    Ok(book)
}

// What is counted and added over some elements.
#[derive(Default)]
struct Sums {
    elements: u64,
    waiting: u64,
    shares: Amounts,
}

impl Sums {
    fn add(&mut self, other: &Sums) {
        self.elements += other.elements;
        self.waiting += other.waiting;
        self.shares[0] += other.shares[0];
        self.shares[1] += other.shares[1];
    }
}

// The heading, one line per used chain, ascending, and the class total. One walk over the elements, ordered by their
// chains, adds up each line, and the lines add up to the total.
fn print(book: &Book, out: &mut Vec<u8>) -> io::Result<()> {
    writeln!(out, "chain elements waiting operation provision total")?;
    let mut order: Vec<&Element> = book.elements.iter().collect();
    order.sort_unstable_by_key(|element| element.chain);
    let mut all = Sums::default();
    for elements in order.chunk_by(|a, b| a.chain == b.chain) {
        let mut sums = Sums::default();
        for element in elements {
            sums.add(&Sums { elements: 1, waiting: book.waits(element).into(), shares: element.shares });
        }
        let chain = elements[0].chain;
        let total = sums.shares[0] + sums.shares[1];
        writeln!(out, "{chain} {} {} {} {} {total}", sums.elements, sums.waiting, sums.shares[0], sums.shares[1])?;
        all.add(&sums);
    }
    let total = all.shares[0] + all.shares[1];
    writeln!(out, "all {} {} {} {} {total}", all.elements, all.waiting, all.shares[0], all.shares[1])
}

#[inline(never)]
fn sheet(file: &[u8], out: &mut Vec<u8>) {
    match load(file) {
        Ok(book) => print(&book, out),
        Err(Stopped { ground, table, record }) => writeln!(out, "refused {ground} {table} {record}"),
    }
    .expect("a vector takes every byte");
}

fn main() -> io::Result<()> {
    let mut file = Vec::with_capacity(MOST_BYTES + 1);
    io::stdin().lock().take(MOST_BYTES as u64 + 1).read_to_end(&mut file)?;
    let mut out = Vec::with_capacity(MOST_BYTES);
    sheet(&file, &mut out);
    io::stdout().lock().write_all(&out)
}
