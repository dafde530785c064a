//! The peer's side: plays the same script over an octree in plain Rust, by the same runs of lines, and prints the same.
mod ask;
mod store;
use std::time::Instant;
use store::{Ball, Bx, Store};

#[derive(Clone, Copy, PartialEq)]
enum Kind {
    Edit,
    Get,
    Count,
    Faces,
    Bounds,
    Ray,
}

struct Line {
    word: String,
    kind: Kind,
    n: Vec<i32>,
}

fn read_script(text: &str) -> Vec<Line> {
    let mut lines = Vec::new();
    for line in text.lines() {
        let mut words = line.split_ascii_whitespace();
        let Some(word) = words.next() else { continue };
        let kind = match word {
            "get" => Kind::Get,
            "count" => Kind::Count,
            "faces" => Kind::Faces,
            "bounds" => Kind::Bounds,
            "ray" => Kind::Ray,
            _ => Kind::Edit,
        };
        let n = words.filter(|w| *w != "to").map(|w| w.parse().unwrap()).collect();
        lines.push(Line { word: word.to_string(), kind, n });
    }
    lines
}

// The size of the first model, and the bits of its leaves by their places in a tree's order.
fn read_model(bytes: &[u8]) -> ([i32; 3], Vec<(u64, u64)>) {
    let number = |at: usize| u32::from_le_bytes(bytes[at..at + 4].try_into().unwrap()) as usize;
    let mut at = 20;
    let mut size = [0; 3];
    let mut leaves = std::collections::BTreeMap::new();
    while at < bytes.len() {
        let content = at + 12;
        if &bytes[at..at + 4] == b"SIZE" {
            size = [0, 4, 8].map(|i| number(content + i) as i32);
        }
        if &bytes[at..at + 4] == b"XYZI" {
            for v in bytes[content + 4..content + 4 + 4 * number(content)].chunks_exact(4) {
                let spread = |place: u8| (0..6).fold(0u64, |sum, i| sum | u64::from(place >> (i + 2) & 1) << (3 * i));
                let leaf = spread(v[0]) | spread(v[1]) << 1 | spread(v[2]) << 2;
                let bit = 1u64 << ((v[0] & 3) + 4 * (v[1] & 3) + 16 * (v[2] & 3));
                let word: &mut u64 = leaves.entry(leaf).or_default();
                *word = if v[3] == 0 { *word & !bit } else { *word | bit };
            }
            break;
        }
        at = content + number(at + 4) + number(at + 8);
    }
    (size, leaves.into_iter().filter(|leaf| leaf.1 != 0).collect())
}

struct World {
    store: Store<true>,
    level: usize,
    roots: Vec<u32>,
    model: u32,
    size: [i32; 3],
}

fn boxed(n: &[i32], at: usize, size: [i32; 3]) -> Bx {
    let lo = [n[at], n[at + 1], n[at + 2]];
    Bx { lo, hi: [lo[0] + size[0], lo[1] + size[1], lo[2] + size[2]] }
}

fn size_at(n: &[i32], at: usize) -> [i32; 3] {
    [n[at], n[at + 1], n[at + 2]]
}

fn sum_of(c: [i32; 3]) -> u64 {
    (c[0] + 3 * c[1] + 5 * c[2]) as u64
}

impl World {
    fn root(&self) -> u32 {
        *self.roots.last().unwrap()
    }

    fn make(&mut self, line: &Line) {
        let (n, root) = (&line.n, self.root());
        let new = match line.word.as_str() {
            "fill" => self.store.edit_root::<_, true>(root, &boxed(n, 0, size_at(n, 3))),
            "erase" => self.store.edit_root::<_, false>(root, &boxed(n, 0, size_at(n, 3))),
            "ball" => self.store.edit_root::<_, true>(root, &Ball { c: size_at(n, 0), r: n[3] }),
            "carve" => self.store.edit_root::<_, false>(root, &Ball { c: size_at(n, 0), r: n[3] }),
            "copy" => {
                let to = boxed(n, 6, size_at(n, 3));
                self.store.blit_root::<false>(root, root, &to, [n[0] - n[6], n[1] - n[7], n[2] - n[8]])
            }
            _ => {
                let to = boxed(n, 1, self.size);
                self.store.blit_root::<true>(root, self.model, &to, [-n[1], -n[2], -n[3]])
            }
        };
        self.roots.push(new);
    }

    fn answer(&self, line: &Line) -> u64 {
        let (n, root) = (&line.n, self.root());
        match line.kind {
            Kind::Get => u64::from(self.store.get(root, size_at(n, 0))),
            Kind::Count => self.store.count(root, self.level, [0; 3], &boxed(n, 0, size_at(n, 3))),
            Kind::Faces => self.store.faces(root, &boxed(n, 0, size_at(n, 3))),
            Kind::Bounds if root == 0 => 0,
            Kind::Bounds => {
                let (mut lo, mut hi) = ([i32::MAX; 3], [i32::MIN; 3]);
                self.store.bounds(root, self.level, [0; 3], &mut lo, &mut hi);
                sum_of(lo) + sum_of([hi[0] - lo[0], hi[1] - lo[1], hi[2] - lo[2]])
            }
            Kind::Ray => self.store.ray(root, size_at(n, 0), size_at(n, 3)).map_or(0, |c| 1 + sum_of(c)),
            Kind::Edit => 0,
        }
    }

    fn play(&mut self, run: &[Line], list: bool) -> u64 {
        let mut sum = 0u64;
        for line in run {
            match line.kind {
                Kind::Edit => {
                    self.make(line);
                    sum = self.roots.len() as u64 - 1;
                }
                Kind::Count if list => {
                    let (_, number) = self.store.save(self.root(), &boxed(&line.n, 0, size_at(&line.n, 3)));
                    sum = sum.rotate_left(1).wrapping_add(u64::from(number));
                }
                _ => sum = sum.rotate_left(1).wrapping_add(self.answer(line)),
            }
        }
        sum
    }
}

fn main() {
    let words: Vec<String> = std::env::args().collect();
    let side: u32 = words[1].parse().unwrap();
    let list = words.len() > 2;
    let lines = read_script(&std::fs::read_to_string("script.txt").unwrap());
    let (size, leaves) = read_model(&std::fs::read("model.vox").unwrap());
    let level = side.trailing_zeros() as usize - 2;
    let mut store = Store::<true>::new(level);
    let model = store.build(level, &leaves);
    let mut world = World { store, level, roots: vec![0], model, size };
    let mut rest = &lines[..];
    while let Some(first) = rest.first() {
        let kind = first.kind;
        let length = rest.iter().take_while(|line| line.kind == kind).count();
        let (run, after) = rest.split_at(length);
        let start = Instant::now();
        let sum = world.play(run, list);
        let taken = start.elapsed().as_nanos();
        let word = ["edit", "get", "count", "faces", "bounds", "ray"][kind as usize];
        println!("{word} {} {taken} {sum}", run.len());
        rest = after;
    }
}
