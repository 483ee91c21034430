// Times a proved search of a book alone against the same search in plain Rust, on the same books, in one run.
//
// The proved search is the route job done turn by turn: each turn looks what the state asks for, reads a line of
// the book and changes the state in place. The plain one is such a job too. Beside them stands a search with plain
// loops, which no one could stop between two turns.
use crate::Dice;
use std::hint::black_box;
use std::time::Instant;

#[repr(C)]
#[derive(Clone, Copy)]
struct LegRow {
    from: u8,
    to: u8,
    passage: u8,
    length: u32,
}

unsafe extern "C" {
    fn route_length(rows: *mut LegRow, length: usize, from: u32, to: u32, count: u32) -> u64;
}

const NO_ROUTE: u64 = 1 << 32;
const BAD_ORDER: u64 = NO_ROUTE + 9;
const NO_LINE: u64 = NO_ROUTE + 4;
const UNREACHED: u32 = u32::MAX;

type Search = fn(&mut [LegRow], u32, u32, u32) -> u64;

fn proved_length(rows: &mut [LegRow], from: u32, to: u32, count: u32) -> u64 {
    unsafe { route_length(rows.as_mut_ptr(), rows.len(), from, to, count) }
}

impl LegRow {
    fn is_open_leg(&self) -> bool {
        self.from < 16 && self.to < 16 && self.passage == 1 && (1..=10_000_000).contains(&self.length)
    }
}

// What both plain searches know of the stations.
struct Stations {
    distances: [u32; 16],
    finished: [bool; 16],
}

impl Stations {
    fn beginning_at(station: usize) -> Stations {
        let mut stations = Stations { distances: [UNREACHED; 16], finished: [false; 16] };
        stations.distances[station] = 0;
        stations.finished[station] = true;
        stations
    }

    fn relax(&mut self, station: usize, row: &LegRow) {
        if !row.is_open_leg() {
            return;
        }
        let along = self.distances[station] + row.length;
        for (near, far) in [(row.from, row.to), (row.to, row.from)] {
            if usize::from(near) == station && along < self.distances[usize::from(far)] {
                self.distances[usize::from(far)] = along;
            }
        }
    }

    fn nearest(&self) -> Option<usize> {
        let open = (0..16).filter(|station| !self.finished[*station] && self.distances[*station] < UNREACHED);
        open.min_by_key(|station| self.distances[*station])
    }
}

// A route job: one line at a time.
struct Job {
    target: usize,
    count: usize,
    station: usize,
    line: usize,
    stations: Stations,
}

enum Request {
    Read(usize),
    End(u64),
}

impl Job {
    fn new(from: usize, target: usize, count: usize) -> (Job, Request) {
        let job = Job { target, count, station: from, line: 0, stations: Stations::beginning_at(from) };
        let request = match (from == target, count) {
            (true, _) => Request::End(0),
            (false, 0) => Request::End(NO_ROUTE),
            (false, _) => Request::Read(0),
        };
        (job, request)
    }

    // Takes a row in, and says what to do next.
    fn after_read(&mut self, row: &LegRow) -> Request {
        self.stations.relax(self.station, row);
        self.line += 1;
        if self.line < self.count {
            return Request::Read(self.line);
        }
        self.line = 0;
        match self.stations.nearest() {
            None => Request::End(NO_ROUTE),
            Some(station) if station == self.target => Request::End(self.stations.distances[station].into()),
            Some(station) => {
                self.stations.finished[station] = true;
                self.station = station;
                Request::Read(0)
            }
        }
    }
}

fn refusal(rows: &[LegRow], from: u32, to: u32, count: u32) -> Option<u64> {
    if from > 15 || to > 15 || count > 64 {
        return Some(BAD_ORDER);
    }
    (rows.len() < count as usize).then_some(NO_LINE)
}

// Turn by turn; answers how many lines were read, too.
fn plain_turns(rows: &[LegRow], from: u32, to: u32, count: u32) -> (u64, u64) {
    if let Some(refused) = refusal(rows, from, to, count) {
        return (refused, 0);
    }
    let (mut job, mut request) = Job::new(from as usize, to as usize, count as usize);
    let mut reads = 0;
    loop {
        match request {
            Request::Read(line) => request = job.after_read(&rows[line]),
            Request::End(number) => return (number, reads),
        }
        reads += 1;
    }
}

fn plain_length(rows: &mut [LegRow], from: u32, to: u32, count: u32) -> u64 {
    plain_turns(rows, from, to, count).0
}

// With plain loops.
fn looped_length(rows: &mut [LegRow], from: u32, to: u32, count: u32) -> u64 {
    if let Some(refused) = refusal(rows, from, to, count) {
        return refused;
    }
    let mut stations = Stations::beginning_at(from as usize);
    let mut station = from as usize;
    while station != to as usize {
        for row in &rows[..count as usize] {
            stations.relax(station, row);
        }
        match stations.nearest() {
            None => return NO_ROUTE,
            Some(nearest) => station = nearest,
        }
        stations.finished[station] = true;
    }
    stations.distances[station].into()
}

fn random_row(dice: &mut Dice) -> LegRow {
    LegRow {
        from: dice.roll(16) as u8,
        to: dice.roll(16) as u8,
        passage: u8::from(dice.roll(4) > 0),
        length: 1 + dice.roll(10_000) as u32,
    }
}

// The searches agree, on every two stations of books of every size, some rows damaged.
fn compare(dice: &mut Dice) {
    for book in 0..2_000usize {
        let mut rows: Vec<LegRow> = (0..book % 67).map(|_| random_row(dice)).collect();
        for row in rows.iter_mut().filter(|row| row.length % 7 == 0) {
            row.from = dice.roll(20) as u8;
            row.length = dice.roll(3) as u32 * 5_000_001;
        }
        let count = rows.len() as u32 + u32::from(book % 11 == 0);
        for (from, to) in (0..17).flat_map(|from| (0..17).map(move |to| (from, to))) {
            let proved = proved_length(&mut rows, from, to, count);
            assert_eq!(proved, plain_length(&mut rows, from, to, count), "book {book}, {from} to {to}");
            assert_eq!(proved, looped_length(&mut rows, from, to, count), "book {book}, {from} to {to}");
        }
    }
}

// The best of several rounds, in nanoseconds for one turn.
fn best(books: &mut [Vec<LegRow>], search: Search, reads: u64) -> f64 {
    let mut best = f64::MAX;
    for _ in 0..25 {
        let start = Instant::now();
        for rows in books.iter_mut() {
            let count = rows.len() as u32;
            for to in 1..16 {
                black_box(search(black_box(rows), 0, to, count));
            }
        }
        best = best.min(start.elapsed().as_secs_f64());
    }
    best * 1e9 / reads as f64
}

pub fn run(dice: &mut Dice) {
    compare(dice);
    let mut books: Vec<Vec<LegRow>> = (0..200).map(|_| (0..64).map(|_| random_row(dice)).collect()).collect();
    let reads = books.iter().flat_map(|rows| (1..16).map(|to| plain_turns(rows, 0, to, 64).1)).sum();
    println!("searches: 200 books of 64 legs, from station 0 to every other, {reads} turns; the searches agree");
    let proved = best(&mut books, proved_length, reads);
    let plain = best(&mut books, plain_length, reads);
    let looped = best(&mut books, looped_length, reads);
    let again = best(&mut books, proved_length, reads);
    println!("proved search: {proved:.2} ns a turn, then {again:.2} ns");
    println!("plain Rust:    {plain:.2} ns a turn; with plain loops {looped:.2} ns a line");
    println!("ratio: {:.2}; to plain loops {:.2}", proved.min(again) / plain, proved.min(again) / looped);
}
