// Times the proved reader of turn lists against a plain reader in Rust, on one list, and then searches, in one run.
//
// Both go through the whole list: each line is cut into words, its words are counted, its letter and
// its numbers are read, and the numbers are added up, so that neither can leave anything out.
mod routes;

use std::hint::black_box;
use std::time::Instant;

unsafe extern "C" {
    fn list_sum(bytes: *const u8, length: usize) -> u64;
    fn word_number(bytes: *const u8, length: usize) -> u64;
}

const MOST_BYTES: usize = 60_000;

fn proved_sum(list: &[u8]) -> u64 {
    unsafe { list_sum(list.as_ptr(), list.len()) }
}

fn proved_number(word: &[u8]) -> u64 {
    unsafe { word_number(word.as_ptr(), word.len()) }
}

// A number of 1 to 10 digits, below 2^32, with no zero in front of another digit.
fn plain_number(word: &[u8]) -> Option<u32> {
    if word.is_empty() || word.len() > 10 || (word[0] == b'0' && word.len() > 1) {
        return None;
    }
    let mut number = 0u64;
    for &byte in word {
        if !byte.is_ascii_digit() {
            return None;
        }
        number = number * 10 + u64::from(byte - b'0');
    }
    u32::try_from(number).ok()
}

// The numbers of a line together, or the number of its fault.
fn plain_line(line: &[u8]) -> u64 {
    let mut words = line.split(|byte| *byte == b' ');
    let wanted = match words.next() {
        Some(b"S") => 6,
        Some(b"T" | b"W" | b"L") => 1,
        _ => return 21,
    };
    if line.iter().filter(|byte| **byte == b' ').count() != wanted {
        return 23;
    }
    let mut sum = 0u64;
    for word in words {
        match plain_number(word) {
            Some(number) => sum += u64::from(number),
            None => return 22,
        }
    }
    sum
}

fn plain_sum(list: &[u8]) -> u64 {
    if list.len() > MOST_BYTES {
        return 0;
    }
    let list = list.strip_suffix(b"\n").unwrap_or(list);
    let mut sum = 0u64;
    for line in list.split(|byte| *byte == b'\n') {
        sum = sum.wrapping_add(plain_line(line));
    }
    sum
}

// A linear congruential generator: the list is the same in every run.
struct Dice(u64);

impl Dice {
    fn roll(&mut self, below: u64) -> u64 {
        self.0 = self.0.wrapping_mul(6_364_136_223_846_793_005).wrapping_add(1_442_695_040_888_963_407);
        (self.0 >> 33) % below
    }

    fn nine_digits(&mut self) -> u64 {
        100_000_000 + self.roll(900_000_000)
    }
}

// Starts with six numbers of nine digits each, up to the most bytes that a list may have.
fn list_of_starts(dice: &mut Dice) -> Vec<u8> {
    let mut list = Vec::new();
    loop {
        let mut line = String::from("S");
        for _ in 0..6 {
            line += &format!(" {}", dice.nine_digits());
        }
        line.push('\n');
        if list.len() + line.len() > MOST_BYTES {
            return list;
        }
        list.extend_from_slice(line.as_bytes());
    }
}

// The two readers agree, on good words and lists and on damaged ones.
fn compare(dice: &mut Dice, list: &[u8]) {
    for turn in 0..1_000_000u64 {
        let number = (dice.roll(1 << 31) << 31 | dice.roll(1 << 31)) >> (turn % 62);
        let mut word = number.to_string().into_bytes();
        if turn % 5 == 0 {
            let at = dice.roll(word.len() as u64) as usize;
            word[at] = dice.roll(256) as u8;
        }
        assert_eq!(proved_number(&word), plain_number(&word).map_or(u64::MAX, u64::from), "{word:?}");
    }
    let mut damaged = list.to_vec();
    for _ in 0..2_000 {
        let at = dice.roll(damaged.len() as u64) as usize;
        damaged[at] = b" \n0STWLx\r"[dice.roll(9) as usize];
        assert_eq!(proved_sum(&damaged), plain_sum(&damaged));
    }
}

// The best of several rounds, in microseconds for one pass over the list.
fn best(list: &[u8], sum: fn(&[u8]) -> u64) -> f64 {
    const PASSES: u32 = 200;
    let mut best = f64::MAX;
    for _ in 0..15 {
        let start = Instant::now();
        for _ in 0..PASSES {
            black_box(sum(black_box(list)));
        }
        best = best.min(start.elapsed().as_secs_f64() / f64::from(PASSES));
    }
    best * 1e6
}

fn main() {
    let mut dice = Dice(20_240_229);
    let list = list_of_starts(&mut dice);
    assert_eq!(proved_sum(&list), plain_sum(&list));
    compare(&mut dice, &list);
    println!("turn list: {} bytes, {} lines of six nine-digit numbers; the readers agree", list.len(), list.iter().filter(|byte| **byte == b'\n').count());
    let proved = best(&list, proved_sum);
    let plain = best(&list, plain_sum);
    let again = best(&list, proved_sum);
    println!("proved reader: {proved:.1} us, then {again:.1} us");
    println!("plain Rust:    {plain:.1} us");
    println!("ratio: {:.2}", proved.min(again) / plain);
    routes::run(&mut dice);
}
