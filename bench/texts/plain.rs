//! The same readers in plain Rust: the texts read line by line, every word and bound checked, into lists of values.

use std::time::Instant;

const ROUNDS: u32 = 15;

#[derive(Clone, Copy)]
pub struct Cell(u16, u16, u16);

#[derive(Clone, Copy)]
#[allow(dead_code)]
pub enum Act {
    Fill(Cell, Cell),
    Erase(Cell, Cell),
    Ball(Cell, u16),
    Carve(Cell, u16),
    Copy(Cell, Cell, Cell),
    Stamp(u16, Cell),
    Undo,
    Redo,
}

#[allow(dead_code)]
pub struct Record {
    session: u16,
    line: u32,
    act: Act,
}

#[allow(dead_code)]
pub struct Mark {
    version: u32,
    at: u32,
    session: u16,
    line: u32,
}

#[derive(Clone, Copy)]
#[allow(dead_code)]
pub enum Answer {
    Done,
    Forgot(u32),
    Is(bool),
    Count(u64),
    Faces(u64),
    Extent(Option<(Cell, Cell)>),
    Hit(Option<Cell>),
    Same(bool),
    Head,
    Saved(u64),
    Full(u8, u16),
    NoVersion(u32),
    Forgotten(u32),
    IsHead,
    NothingToUndo,
    NothingToRedo,
    LogFull,
    Stale(u32),
}

#[allow(dead_code)]
pub struct LineAnswer {
    line: u32,
    at: u32,
    answer: Answer,
}

// The words of a line that are still to be read, with one space between any two.
struct Words<'a>(Option<&'a [u8]>);

impl<'a> Words<'a> {
    fn of(line: &'a [u8]) -> Words<'a> {
        Words(Some(line))
    }

    fn word(&mut self) -> Option<&'a [u8]> {
        let rest = self.0.take()?;
        match rest.iter().position(|b| *b == b' ') {
            Some(at) => {
                self.0 = Some(&rest[at + 1..]);
                Some(&rest[..at])
            }
            None => Some(rest),
        }
    }

    fn number(&mut self, most: u64) -> Option<u64> {
        number(self.word()?, most)
    }

    fn cell(&mut self, most: u64) -> Option<Cell> {
        let (x, y, z) = (self.number(most)?, self.number(most)?, self.number(most)?);
        Some(Cell(x as u16, y as u16, z as u16))
    }

    fn end(&mut self) -> Option<()> {
        match self.word() {
            None => Some(()),
            Some(_) => None,
        }
    }
}

fn number(word: &[u8], most: u64) -> Option<u64> {
    if word.is_empty() || (word.len() > 1 && word[0] == b'0') {
        return None;
    }
    let mut n: u64 = 0;
    for b in word {
        if !b.is_ascii_digit() {
            return None;
        }
        n = n.checked_mul(10)?.checked_add(u64::from(*b - b'0'))?;
        if n > most {
            return None;
        }
    }
    Some(n)
}

fn fits(at: Cell, size: Cell, side: u32) -> bool {
    let axis = |a: u16, s: u16| s >= 1 && u32::from(a) + u32::from(s) <= side;
    axis(at.0, size.0) && axis(at.1, size.1) && axis(at.2, size.2)
}

fn inside(c: Cell, side: u32) -> bool {
    u32::from(c.0) < side && u32::from(c.1) < side && u32::from(c.2) < side
}

fn act(words: &mut Words, side: u32) -> Option<Act> {
    let most = 65535;
    let act = match words.word()? {
        name @ (b"fill" | b"erase") => {
            let (at, size) = (words.cell(most)?, words.cell(most)?);
            if !fits(at, size, side) {
                return None;
            }
            if name == b"fill" { Act::Fill(at, size) } else { Act::Erase(at, size) }
        }
        name @ (b"ball" | b"carve") => {
            let (centre, radius) = (words.cell(most)?, words.number(4095)? as u16);
            if !inside(centre, side) {
                return None;
            }
            if name == b"ball" { Act::Ball(centre, radius) } else { Act::Carve(centre, radius) }
        }
        b"copy" => {
            let (at, size) = (words.cell(most)?, words.cell(most)?);
            if words.word()? != b"to" {
                return None;
            }
            let to = words.cell(most)?;
            if !fits(at, size, side) || !fits(to, size, side) {
                return None;
            }
            Act::Copy(at, size, to)
        }
        b"stamp" => {
            let (model, at) = (words.number(1023)? as u16, words.cell(most)?);
            if !inside(at, side) {
                return None;
            }
            Act::Stamp(model, at)
        }
        b"undo" => Act::Undo,
        b"redo" => Act::Redo,
        _ => return None,
    };
    words.end()?;
    Some(act)
}

fn line<'a>(rest: &mut &'a [u8]) -> Option<&'a [u8]> {
    let end = rest.iter().position(|b| *b == b'\n')?;
    let line = &rest[..end];
    *rest = &rest[end + 1..];
    Some(line)
}

pub fn journal(bytes: &[u8]) -> Option<(Vec<Record>, Vec<Mark>)> {
    let most = u64::from(u32::MAX);
    let mut rest = bytes;
    if line(&mut rest)? != b"voxdag journal 1" {
        return None;
    }
    let mut head = Words::of(line(&mut rest)?);
    if head.word()? != b"side" {
        return None;
    }
    let side = head.number(4096)? as u32;
    head.end()?;
    if side < 4 || !side.is_power_of_two() {
        return None;
    }
    let (mut records, mut marks) = (Vec::new(), Vec::<Mark>::new());
    loop {
        let text = line(&mut rest)?;
        if text == b"end" {
            return if rest.is_empty() { Some((records, marks)) } else { None };
        }
        let mut words = Words::of(text);
        if text.starts_with(b"mark ") {
            words.word()?;
            let (version, at) = (words.number(most)? as u32, words.number(most)? as u32);
            let (session, line) = (words.number(63)? as u16, words.number(most)? as u32);
            words.end()?;
            let least = marks.last().map_or(0, |m| m.version + 1);
            if version < least || version >= at || at as usize > records.len() {
                return None;
            }
            marks.push(Mark { version, at, session, line });
        } else {
            if !marks.is_empty() || records.len() >= 65535 || words.number(most)? as usize != records.len() + 1 {
                return None;
            }
            let (session, line) = (words.number(63)? as u16, words.number(most)? as u32);
            records.push(Record { session, line, act: act(&mut words, side)? });
        }
    }
}

fn answer(words: &mut Words) -> Option<Answer> {
    let (version, long) = (u64::from(u32::MAX), u64::MAX);
    let answer = match words.word()? {
        b"ok" => Answer::Done,
        b"forgot" => Answer::Forgot(words.number(version)? as u32),
        b"set" => Answer::Is(true),
        b"clear" => Answer::Is(false),
        b"count" => Answer::Count(words.number(long)?),
        b"faces" => Answer::Faces(words.number(long)?),
        b"bounds" => {
            let first = words.word()?;
            if first == b"none" {
                Answer::Extent(None)
            } else {
                let x = number(first, 65535)? as u16;
                let (y, z) = (words.number(65535)? as u16, words.number(65535)? as u16);
                Answer::Extent(Some((Cell(x, y, z), words.cell(65535)?)))
            }
        }
        b"hit" => Answer::Hit(Some(words.cell(65535)?)),
        b"miss" => Answer::Hit(None),
        b"same" => Answer::Same(true),
        b"different" => Answer::Same(false),
        b"head" => Answer::Head,
        b"saved" => Answer::Saved(words.number(long)?),
        b"full" => Answer::Full(words.number(255)? as u8, words.number(65535)? as u16),
        b"no" if words.word()? == b"version" => Answer::NoVersion(words.number(version)? as u32),
        b"forgotten" => Answer::Forgotten(words.number(version)? as u32),
        b"is" if words.word()? == b"head" => Answer::IsHead,
        b"nothing" if words.word()? == b"to" => match words.word()? {
            b"undo" => Answer::NothingToUndo,
            b"redo" => Answer::NothingToRedo,
            _ => return None,
        },
        b"log" if words.word()? == b"full" => Answer::LogFull,
        b"stale" => Answer::Stale(words.number(version)? as u32),
        _ => return None,
    };
    words.end()?;
    Some(answer)
}

pub fn transcript(bytes: &[u8]) -> Option<Vec<LineAnswer>> {
    let most = u64::from(u32::MAX);
    let mut answers = Vec::new();
    let mut rest = bytes;
    while !rest.is_empty() {
        let mut words = Words::of(line(&mut rest)?);
        let line = words.number(most)? as u32;
        let at = number(words.word()?.strip_prefix(b"@")?, most)? as u32;
        answers.push(LineAnswer { line, at, answer: answer(&mut words)? });
    }
    Some(answers)
}

fn main() {
    let bytes = std::fs::read("journal.txt").expect("the journal");
    let (mut best, mut sum) = (u128::MAX, 0u64);
    for _ in 0..ROUNDS {
        let start = Instant::now();
        let read = journal(std::hint::black_box(&bytes));
        best = best.min(start.elapsed().as_nanos());
        if let Some((records, _)) = read {
            sum = records.iter().map(|r| u64::from(r.line)).sum();
        }
    }
    println!("journal {} {}", best / 1000, sum);
    let bytes = std::fs::read("transcript.txt").expect("the transcript");
    let (mut best, mut sum) = (u128::MAX, 0u64);
    for _ in 0..ROUNDS {
        let start = Instant::now();
        let read = transcript(std::hint::black_box(&bytes));
        best = best.min(start.elapsed().as_nanos());
        if let Some(answers) = read {
            sum = answers.iter().map(|a| u64::from(a.line) + u64::from(a.at)).sum();
        }
    }
    println!("transcript {} {}", best / 1000, sum);
}
