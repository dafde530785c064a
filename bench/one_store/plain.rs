//! The peer of the words of a store: the same words, tags and loops in plain Rust, bucket by bucket. It prints the same lines.
use std::hint::black_box;
use std::time::Instant;

const BUCKETS: [usize; 11] = [4096, 4096, 4096, 1024, 1024, 256, 256, 256, 256, 256, 256];
const CAP: usize = 128;
const NUMBER: u64 = 262_144;
const FURTHER: u64 = 8_192;
const STAYING: u64 = 3_840;
const CALLS: u64 = 1_000_000;

#[derive(Clone, Copy, PartialEq, Eq)]
struct Words {
    first: u64,
    rest: [u64; 3],
}

struct Plain {
    buckets: [usize; 11],
    bases: [usize; 12],
    books: Vec<u32>,
    firsts: Vec<u64>,
    rests: Vec<[u64; 3]>,
    tags: Vec<u8>,
}

fn random(i: u64) -> u64 {
    let a = i.wrapping_add(1).wrapping_mul(0x9E37_79B9_7F4A_7C15);
    let b = (a ^ (a >> 30)).wrapping_mul(0xBF58_476D_1CE4_E5B9);
    let c = (b ^ (b >> 27)).wrapping_mul(0x94D0_49BB_1331_11EB);
    (c ^ (c >> 31)) | 1
}

fn mixed(hash: u64, word: u64) -> u64 {
    let hash = (hash ^ word).wrapping_mul(0xBF58_476D_1CE4_E5B9);
    hash ^ (hash >> 29)
}

fn finished(hash: u64) -> u64 {
    let hash = (hash ^ (hash >> 32)).wrapping_mul(0x94D0_49BB_1331_11EB);
    hash ^ (hash >> 29)
}

#[derive(Clone, Copy)]
struct Name {
    bucket: u16,
    slot: u8,
}

fn term(child: Option<Name>) -> u64 {
    child.map_or(0, |n| 1 + u64::from(n.bucket))
}

fn word(child: Option<Name>) -> u64 {
    child.map_or(0, |n| 1 + u64::from(n.bucket) * 256 + u64::from(n.slot))
}

fn tag_of(level: usize, words: &Words) -> u8 {
    let mut mixed = words.first.wrapping_mul(0x9E37_79B9_7F4A_7C15);
    if level > 0 {
        let [second, third, fourth] = words.rest;
        mixed = mixed
            .wrapping_add(second.wrapping_mul(0xBF58_476D_1CE4_E5B9))
            .wrapping_add(
                third
                    .wrapping_mul(0x94D0_49BB_1331_11EB)
                    .wrapping_add(fourth.wrapping_mul(0xD6E8_FEB8_6659_FD93)),
            );
    }
    ((mixed >> 56) % 255 + 1) as u8
}

// The first place of a byte: sixteen are compared at once, and where one is met they are compared one by one.
fn position(tags: &[u8], from: usize, tag: u8) -> Option<usize> {
    let mut at = from;
    for block in tags[from..].chunks_exact(16) {
        if block.iter().fold(false, |found, &t| found | (t == tag)) {
            break;
        }
        at += 16;
    }
    tags[at..].iter().position(|&t| t == tag).map(|i| at + i)
}

impl Plain {
    fn begin(buckets: [usize; 11]) -> Plain {
        let mut bases = [0; 12];
        for level in 0..11 {
            bases[level + 1] = bases[level] + CAP * buckets[level];
        }
        let size = bases[11];
        Plain {
            buckets,
            bases,
            books: filled(size, 0),
            firsts: filled(size, 0),
            rests: filled(size, [0; 3]),
            tags: filled(size, 0),
        }
    }

    fn find(&self, level: usize, start: usize, words: &Words) -> Option<usize> {
        let tags = &self.tags[start..start + CAP];
        let firsts = &self.firsts[start..start + CAP];
        let rests = &self.rests[start..start + CAP];
        let tag = tag_of(level, words);
        let mut from = 0;
        while let Some(i) = position(tags, from, tag) {
            if firsts[i] == words.first && (level == 0 || rests[i] == words.rest) {
                return Some(i);
            }
            from = i + 1;
        }
        None
    }

    fn take(&mut self, level: usize, bucket: usize, words: Words) -> u64 {
        let start = self.bases[level] + bucket * CAP;
        if let Some(slot) = self.find(level, start, &words) {
            let i = start + slot;
            if self.books[i] < 1_000_000 {
                self.books[i] += 1;
            }
            return (bucket * 256 + slot) as u64;
        }
        match position(&self.tags[start..start + CAP], 0, 0) {
            Some(slot) => {
                let i = start + slot;
                self.firsts[i] = words.first;
                self.rests[i] = words.rest;
                self.tags[i] = tag_of(level, &words);
                self.books[i] = 1;
                (bucket * 256 + slot) as u64
            }
            None => 0xF000_0000,
        }
    }

    #[inline(never)]
    fn leaf(&mut self, bits: u64) -> u64 {
        let hash = mixed(0x9E37_79B9_7F4A_7C15, bits);
        let bucket = (finished(hash) >> 32) as usize % self.buckets[0];
        self.take(
            0,
            bucket,
            Words {
                first: bits,
                rest: [0; 3],
            },
        )
    }

    // One reference less to a leaf.
    fn back(&mut self, code: u64) {
        let i = (code / 256) as usize * CAP + (code % 256) as usize;
        self.books[i] -= 1;
        if self.books[i] == 0 {
            self.tags[i] = 0;
        }
    }

    #[inline(never)]
    fn take_and_back(&mut self, bits: u64) -> u64 {
        let code = self.leaf(bits);
        if code != 0xF000_0000 {
            self.back(code);
        }
        code
    }

    #[inline(never)]
    fn node(&mut self, i: u64) -> u64 {
        let children: [Option<Name>; 8] = std::array::from_fn(|k| {
            let r = random(i.wrapping_mul(8).wrapping_add(k as u64));
            Some(Name {
                bucket: (r % 4096) as u16,
                slot: (r / 4096 % 64) as u8,
            })
        });
        let pair = |k: usize| term(children[k]) + (term(children[k + 1]) << 32);
        let hash = mixed(mixed(mixed(mixed(0x9E37_79B9_7F4A_7C15, pair(0)), pair(2)), pair(4)), pair(6));
        let bucket = (finished(hash) >> 32) as usize % self.buckets[1];
        let said = |k: usize| word(children[k]) + (word(children[k + 1]) << 32);
        self.take(
            1,
            bucket,
            Words {
                first: said(0),
                rest: [said(2), said(4), said(6)],
            },
        )
    }
}

// Written as a loop would write it, so that no page is left for the first use.
fn filled<T: Copy>(size: usize, value: T) -> Vec<T> {
    let mut row = Vec::with_capacity(size);
    row.extend(std::iter::repeat(black_box(value)).take(size));
    row
}

fn timed(name: &str, count: u64, sum: impl FnOnce() -> u64) {
    let start = Instant::now();
    let sum = sum();
    let taken = start.elapsed().as_nanos();
    println!("{name} {} {sum}", taken * 10 / u128::from(count));
}

fn leaves(words: &mut Plain, from: u64, to: u64) -> u64 {
    (from..to).fold(0, |sum: u64, i| sum.rotate_left(1) ^ words.leaf(random(i)))
}

fn calls(words: &mut Plain, from: u64, to: u64) -> u64 {
    (0..CALLS).fold(0, |sum: u64, turn| sum.rotate_left(1) ^ words.take_and_back(random(from + turn % (to - from))))
}

fn nodes(words: &mut Plain, from: u64, to: u64) -> u64 {
    (from..to).fold(0, |sum: u64, i| sum.rotate_left(1) ^ words.node(i))
}

fn main() {
    let start = Instant::now();
    let bytes = filled(75_169_792, 0u8);
    println!("clear {} 0", start.elapsed().as_nanos() / 1000);
    drop(black_box(bytes));
    let start = Instant::now();
    let mut words = Plain::begin(BUCKETS);
    println!("begin {} 0", start.elapsed().as_nanos() / 1000);
    timed("leaf_fill", NUMBER, || leaves(&mut words, 0, NUMBER));
    timed("leaf_hit", NUMBER, || leaves(&mut words, 0, NUMBER));
    timed("leaf_miss", FURTHER, || leaves(&mut words, 1_000_000, 1_000_000 + FURTHER));
    timed("node_fill", NUMBER, || nodes(&mut words, 0, NUMBER));
    timed("node_hit", NUMBER, || nodes(&mut words, 0, NUMBER));
    timed("node_miss", FURTHER, || nodes(&mut words, 1_000_000, 1_000_000 + FURTHER));
    let mut words = Plain::begin([60; 11]);
    println!("staying 0 {}", leaves(&mut words, 0, STAYING));
    timed("call_hit", CALLS, || calls(&mut words, 0, STAYING));
    timed("call_miss", CALLS, || calls(&mut words, 1_000_000, 1_100_000));
}
