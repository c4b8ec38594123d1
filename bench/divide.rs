// Divides the same pools over the same 256 weights by Quaymeter's proved `divide` and by the same rule in
// plain Rust with u128 products. `divide quaymeter KIND` and `divide rust KIND` run one of the two on one kind of
// weights, to be counted; `divide compare KIND` runs both and checks that every answer and every share agree.
use std::hint::black_box;

const PLACES: usize = 256;
const LARGEST: u128 = 1_000_000_000_000_000_000;

extern "C" {
    fn quaymeter_divide(pool: u64, weights: *const u64, places: usize, shares: *mut u64, slots: usize) -> u64;
}

#[inline(never)]
fn by_quaymeter(pool: u64, weights: &[u64], shares: &mut [u64]) -> u64 {
    unsafe { quaymeter_divide(pool, weights.as_ptr(), weights.len(), shares.as_mut_ptr(), shares.len()) }
}

#[inline(never)]
fn by_rust(pool: u64, weights: &[u64], shares: &mut [u64]) -> u64 {
    let places = weights.len();
    if shares.len() != places || places > PLACES {
        return 1;
    }
    let total: u128 = weights.iter().map(|&weight| weight as u128).sum();
    if pool > 0 && total == 0 {
        return 9;
    }
    if pool as u128 > LARGEST || total > LARGEST {
        return 10;
    }
    if pool == 0 {
        shares.fill(0);
        return 0;
    }
    let mut left = pool;
    let mut order = [(0u64, 0usize); PLACES];
    for k in 0..places {
        let product = pool as u128 * weights[k] as u128;
        let floor = (product / total) as u64;
        shares[k] = floor;
        left -= floor;
        order[k] = ((product % total) as u64, k);
    }
    order[..places].sort_unstable_by(|a, b| b.0.cmp(&a.0).then(a.1.cmp(&b.1)));
    for &(_, k) in &order[..left as usize] {
        shares[k] += 1;
    }
    0
}

struct Random(u64);

impl Random {
    fn below(&mut self, bound: u64) -> u64 {
        self.0 ^= self.0 << 13;
        self.0 ^= self.0 >> 7;
        self.0 ^= self.0 << 17;
        self.0 % bound
    }
}

// A weight of each kind: large, to the limit of the sum; an activity as freight has it; small, so that many
// remainders are equal; and mostly zeros.
fn weight(kind: &str, k: usize, random: &mut Random) -> u64 {
    match kind {
        "large" => random.below(3_900_000_000_000_000),
        "activities" => (1 + random.below(30_000)) * (1 + random.below(1_000_000)),
        "ties" => 1 + random.below(3),
        _ if k % 16 == 0 => 1 + random.below(1_000_000_000_000),
        _ => 0,
    }
}

fn inputs(kind: &str) -> Vec<(u64, [u64; PLACES])> {
    let mut random = Random(88_172_645_463_325_252);
    let mut list = Vec::new();
    for _ in 0..16 {
        let mut weights = [0u64; PLACES];
        for k in 0..PLACES {
            weights[k] = weight(kind, k, &mut random);
        }
        list.push((1 + random.below(1_000_000_000_000_000_000), weights));
    }
    list
}

fn main() {
    let which = std::env::args().nth(1).unwrap_or_default();
    let list = inputs(&std::env::args().nth(2).unwrap_or_default());
    let mut shares = [7u64; PLACES];
    for (pool, weights) in &list {
        match which.as_str() {
            "quaymeter" => {
                black_box(by_quaymeter(black_box(*pool), black_box(weights), &mut shares));
            }
            "rust" => {
                black_box(by_rust(black_box(*pool), black_box(weights), &mut shares));
            }
            _ => {
                let mut other = [7u64; PLACES];
                let number = by_quaymeter(*pool, weights, &mut shares);
                assert_eq!(number, by_rust(*pool, weights, &mut other));
                assert_eq!(shares, other);
                assert_eq!(number, 0);
            }
        }
        black_box(&shares);
    }
}
