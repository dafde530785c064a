//! The peer of the table of all nodes: the same words in the same order, as atomics, with nothing proved.
use std::hint::black_box;
use std::sync::atomic::{AtomicU64, Ordering::SeqCst};
use std::time::Instant;

const STAYING: u64 = 3_840;
const CALLS: u64 = 200_000;

fn random(i: u64) -> u64 {
    let a = i.wrapping_add(1).wrapping_mul(0x9E37_79B9_7F4A_7C15);
    let b = (a ^ (a >> 30)).wrapping_mul(0xBF58_476D_1CE4_E5B9);
    let c = (b ^ (b >> 27)).wrapping_mul(0x94D0_49BB_1331_11EB);
    (c ^ (c >> 31)) | 1
}

fn mixed(hash: u64, word: u64) -> u64 {
    let hash = (hash ^ word).wrapping_mul(0xBF58_476D_1CE4_E5B9);
    hash ^ (hash >> 29)
}

fn finished(hash: u64) -> u64 {
    let hash = (hash ^ (hash >> 32)).wrapping_mul(0x94D0_49BB_1331_11EB);
    hash ^ (hash >> 29)
}

#[derive(Clone, Copy, PartialEq, Eq)]
struct Name {
    level: usize,
    bucket: usize,
    slot: usize,
}

impl Name {
    fn code(self) -> u64 {
        (self.bucket * 256 + self.slot) as u64
    }
}

// A level: the turns of its buckets, and of each bucket the books of its slots, then the first words of their keys, and so on.
struct Level {
    words_of_key: usize,
    turns: Vec<AtomicU64>,
    words: Vec<AtomicU64>,
}

struct Plain {
    buckets: usize,
    cap: usize,
    levels: [Level; 2],
}

fn cleared(count: usize) -> Vec<AtomicU64> {
    (0..count).map(|_| AtomicU64::new(0)).collect()
}

fn level(buckets: usize, cap: usize, words_of_key: usize) -> Level {
    Level { words_of_key, turns: cleared(buckets), words: cleared(buckets * cap * (words_of_key + 1)) }
}

impl Plain {
    fn begin(buckets: usize, cap: usize) -> Plain {
        Plain { buckets, cap, levels: [level(buckets, cap, 1), level(buckets, cap, 4)] }
    }

    fn start(&self, level: usize, bucket: usize) -> usize {
        bucket * self.cap * (self.levels[level].words_of_key + 1)
    }

    fn take_turn(&self, level: usize, bucket: usize, mine: u64) {
        while self.levels[level].turns[bucket].compare_exchange(0, mine, SeqCst, SeqCst).is_err() {
            std::thread::yield_now();
        }
    }

    fn give_turn(&self, level: usize, bucket: usize) {
        self.levels[level].turns[bucket].store(0, SeqCst);
    }

    // The slot that has the key, or else the lowest free one.
    fn find(&self, level: usize, bucket: usize, key: &[u64]) -> (Option<usize>, Option<usize>) {
        let start = self.start(level, bucket);
        let words = &self.levels[level].words;
        let books = &words[start..start + self.cap];
        let firsts = &words[start + self.cap..start + 2 * self.cap];
        let mut free = None;
        for slot in 0..self.cap {
            if books[slot].load(SeqCst) == 0 {
                if free.is_none() {
                    free = Some(slot);
                }
            } else if firsts[slot].load(SeqCst) == key[0]
                && (1..key.len()).all(|k| words[start + (k + 1) * self.cap + slot].load(SeqCst) == key[k])
            {
                return (Some(slot), free);
            }
        }
        (None, free)
    }

    // A reference to the key's entry, and whether it was there.
    fn take(&self, level: usize, bucket: usize, key: &[u64], mine: u64) -> Option<(Name, bool)> {
        self.take_turn(level, bucket, mine);
        let start = self.start(level, bucket);
        let words = &self.levels[level].words;
        let taken = match self.find(level, bucket, key) {
            (Some(slot), _) => {
                let book = &words[start + slot];
                book.store(book.load(SeqCst) + 1, SeqCst);
                Some((Name { level, bucket, slot }, true))
            }
            (None, Some(slot)) => {
                for (k, word) in key.iter().enumerate() {
                    words[start + (k + 1) * self.cap + slot].store(*word, SeqCst);
                }
                words[start + slot].store(1, SeqCst);
                Some((Name { level, bucket, slot }, false))
            }
            (None, None) => None,
        };
        self.give_turn(level, bucket);
        taken
    }

    fn leaf(&self, bits: u64, mine: u64) -> Option<Name> {
        let hash = mixed(0x9E37_79B9_7F4A_7C15, bits);
        let bucket = (finished(hash) >> 32) as usize % self.buckets;
        self.take(0, bucket, &[bits], mine).map(|(name, _)| name)
    }

    // A node of the leaf in octant 3, whose reference moves into it.
    fn node(&self, leaf: Name, mine: u64) -> Option<Name> {
        let seed = mixed(0x9E37_79B9_7F4A_7C15, 0);
        let hash = mixed(mixed(mixed(seed, (1 + leaf.bucket as u64) << 32), 0), 0);
        let bucket = (finished(hash) >> 32) as usize % self.buckets;
        let word = (1 + leaf.code()) << 32;
        match self.take(1, bucket, &[0, word, 0, 0], mine) {
            Some((name, there)) => {
                if there {
                    self.back(leaf, mine);
                }
                Some(name)
            }
            None => {
                self.back(leaf, mine);
                None
            }
        }
    }

    fn back(&self, name: Name, mine: u64) {
        let Name { level, bucket, slot } = name;
        self.take_turn(level, bucket, mine);
        let start = self.start(level, bucket);
        let words = &self.levels[level].words;
        let book = words[start + slot].load(SeqCst);
        // The children are read before the entry is free.
        let mut children = [0; 4];
        if book == 1 && level > 0 {
            for (k, child) in children.iter_mut().enumerate() {
                *child = words[start + (k + 1) * self.cap + slot].load(SeqCst);
            }
        }
        words[start + slot].store(book - 1, SeqCst);
        self.give_turn(level, bucket);
        for half in children.iter().flat_map(|word| [word & 0xFFFF_FFFF, word >> 32]) {
            if half > 0 {
                let code = half as usize - 1;
                self.back(Name { level: level - 1, bucket: code / 256, slot: code % 256 }, mine);
            }
        }
    }

    #[inline(never)]
    fn take_leaf(&self, bits: u64, mine: u64) -> u64 {
        match self.leaf(bits, mine) {
            Some(name) => {
                self.back(name, mine);
                name.code()
            }
            None => 0xF000_0000,
        }
    }

    #[inline(never)]
    fn take_node(&self, bits: u64, mine: u64) -> u64 {
        match self.leaf(bits, mine).and_then(|leaf| self.node(leaf, mine)) {
            Some(name) => {
                self.back(name, mine);
                name.code()
            }
            None => 0xF000_0000,
        }
    }

    fn leaves(&self, from: u64, among: u64, mine: u64) -> u64 {
        (0..CALLS).fold(0, |sum: u64, k| sum.rotate_left(1) ^ self.take_leaf(random(from + k % among), mine))
    }

    fn nodes(&self, from: u64, among: u64, mine: u64) -> u64 {
        (0..CALLS).fold(0, |sum: u64, k| sum.rotate_left(1) ^ self.take_node(random(from + k % among), mine))
    }
}

fn row(name: &str, start: Instant, sum: u64) {
    println!("{name} {} {sum}", start.elapsed().as_nanos() * 10 / u128::from(CALLS));
}

fn threads(name: &str, plain: &Plain, number: u64, apart: bool) {
    let start = Instant::now();
    std::thread::scope(|scope| {
        for k in 0..number {
            scope.spawn(move || if apart { plain.leaves(k * 1_000_000, 1_000, k + 1) } else { plain.leaves(0, 4, k + 1) });
        }
    });
    row(&format!("{name}_{number}"), start, 0);
}

fn main() {
    // As many words as a table of the usual plan of side 4,096 has.
    let start = Instant::now();
    let mut words: Vec<u64> = Vec::with_capacity(9_100_000);
    words.extend(std::iter::repeat(black_box(0)).take(9_100_000));
    println!("clear {} {}", start.elapsed().as_micros(), words.len());
    drop(black_box(words));
    let plain = Plain::begin(60, 128);
    for i in 0..STAYING {
        let leaf = plain.leaf(random(i), 1);
        leaf.and_then(|leaf| plain.node(leaf, 1));
    }
    let start = Instant::now();
    let sum = plain.leaves(0, STAYING, 1);
    row("leaf_hit", start, sum);
    let start = Instant::now();
    let sum = plain.leaves(1_000_000, 100_000, 1);
    row("leaf_miss", start, sum);
    let start = Instant::now();
    let sum = plain.nodes(0, STAYING, 1);
    row("node_hit", start, sum);
    let start = Instant::now();
    let sum = plain.nodes(1_000_000, 100_000, 1);
    row("node_miss", start, sum);
    for number in [1, 2, 4] {
        threads("apart", &Plain::begin(4096, 128), number, true);
    }
    for number in [1, 2, 4] {
        threads("one_bucket", &Plain::begin(1, 4), number, false);
    }
}
