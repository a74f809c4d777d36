//! The second program: drives the proved library and an independent implementation of document 01 with the same
//! random calls, on sound and damaged arenas, and compares answer, arena and work list word by word after each.
//!
//!     second ROUNDS SEED PROGRAM ARGUMENTS
//!
//! PROGRAM is `serve.c` linked with the library.
//!
//! Prints the seed and how often each call gave each answer; at the first difference prints it and ends with 1.

mod face;
mod paper;

use face::{Answer, Library};
use std::collections::BTreeMap;
use std::process::exit;

/// A small generator, so that a seed gives the same run everywhere.
struct Random(u64);

impl Random {
    fn next(&mut self) -> u64 {
        self.0 = self.0.wrapping_add(0x9E37_79B9_7F4A_7C15);
        let mut x = self.0;
        x = (x ^ (x >> 30)).wrapping_mul(0xBF58_476D_1CE4_E5B9);
        x = (x ^ (x >> 27)).wrapping_mul(0x94D0_49BB_1331_11EB);
        x ^ (x >> 31)
    }

    fn below(&mut self, n: usize) -> usize {
        (self.next() % n as u64) as usize
    }

    fn word(&mut self) -> u32 {
        self.next() as u32
    }

    fn one_in(&mut self, n: usize) -> bool {
        self.below(n) == 0
    }

    fn pick(&mut self, from: &[u32]) -> u32 {
        from[self.below(from.len())]
    }
}

/// A call with its arguments.
#[derive(Clone, Debug)]
enum Call {
    Make(u32),
    Allocate(u32, u32, u8),
    Standing(u32),
    Shape(u32),
    ReadReference(u32, u32),
    WriteReference(u32, u32, u32),
    ReadPlain(u32, u32),
    WritePlain(u32, u32, u32),
    PlainWords(u32),
    Room(u32),
    Collect(Vec<u32>, usize),
}

const NAMES: [&str; 11] = [
    "make", "allocate", "standing", "shape", "read reference", "write reference", "read plain", "write plain", "plain words", "room", "collect",
];

/// Every refusal that document 01 lets a call give, a grant being 0. Each has to be met in a run.
const GIVEN: [&[u32]; 11] = [&[0, 1], &[0, 2, 3, 4], &[0, 2], &[0, 2, 5], &[0, 2, 5, 6], &[0, 2, 5, 6, 7], &[0, 2, 5, 6], &[0, 2, 5, 6], &[0, 2, 5], &[0, 2, 3], &[0, 2, 8, 9]];

impl Call {
    fn kind(&self) -> usize {
        match self {
            Call::Make(..) => 0,
            Call::Allocate(..) => 1,
            Call::Standing(..) => 2,
            Call::Shape(..) => 3,
            Call::ReadReference(..) => 4,
            Call::WriteReference(..) => 5,
            Call::ReadPlain(..) => 6,
            Call::WritePlain(..) => 7,
            Call::PlainWords(..) => 8,
            Call::Room(..) => 9,
            Call::Collect(..) => 10,
        }
    }

    fn arguments(&self) -> [u32; 3] {
        match *self {
            Call::Allocate(n, r, tag) => [n, r, u32::from(tag)],
            Call::WriteReference(h, f, v) | Call::WritePlain(h, f, v) => [h, f, v],
            Call::ReadReference(h, f) | Call::ReadPlain(h, f) => [h, f, 0],
            Call::Make(a) | Call::Standing(a) | Call::Shape(a) | Call::PlainWords(a) | Call::Room(a) => [a, 0, 0],
            Call::Collect(..) => [0; 3],
        }
    }

    fn on_library(&self, library: &mut Library, ws: &mut [u32], list: &mut [u32]) -> Answer {
        match self {
            Call::Collect(roots, len) => library.call(self.kind() as u32, self.arguments(), ws, roots, &mut list[..*len]),
            _ => library.call(self.kind() as u32, self.arguments(), ws, &[], &mut []),
        }
    }

    fn on_paper(&self, ws: &mut Vec<u32>, list: &mut [u32]) -> Answer {
        match self {
            &Call::Make(n) => paper::make(ws, n),
            &Call::Allocate(n, r, tag) => paper::allocate(ws, n, r, tag),
            &Call::Standing(h) => paper::standing(ws, h),
            &Call::Shape(h) => paper::shape(ws, h),
            &Call::ReadReference(h, f) => paper::read(ws, h, f, false),
            &Call::WriteReference(h, f, v) => paper::write(ws, h, f, v, false),
            &Call::ReadPlain(h, f) => paper::read(ws, h, f, true),
            &Call::WritePlain(h, f, v) => paper::write(ws, h, f, v, true),
            &Call::PlainWords(h) => paper::plain_words(ws, h),
            &Call::Room(i) => paper::room(ws, i),
            Call::Collect(roots, len) => paper::collect(ws, roots, &mut list[..*len]),
        }
    }
}

/// What the run has seen so far.
struct Run {
    library: Library,
    seed: u64,
    random: Random,
    calls: u64,
    seen: BTreeMap<(usize, u32), u64>,
}

/// An arena in both hands, with the handles that were given.
struct Drawing {
    ws: Vec<u32>,
    handles: Vec<u32>,
    segments: u32,
}

impl Run {
    /// Makes the call in both ways and compares. Gives the answer.
    fn compare(&mut self, ws: &mut Vec<u32>, call: &Call) -> Answer {
        let mut on_paper = ws.clone();
        let listed = if let Call::Collect(_, len) = call { *len } else { 0 };
        let before: Vec<u32> = (0..listed + 8).map(|_| self.random.word()).collect();
        let (mut list, mut paper_list) = (before.clone(), before);
        let answer = call.on_library(&mut self.library, ws, &mut list);
        let wanted = call.on_paper(&mut on_paper, &mut paper_list);
        self.calls += 1;
        *self.seen.entry((call.kind(), wanted.0)).or_default() += 1;
        let word = (0..ws.len()).find(|&o| ws[o] != on_paper[o]);
        let place = (0..list.len()).find(|&k| list[k] != paper_list[k]);
        if answer != wanted || word.is_some() || place.is_some() {
            println!("seed {}: call {}, {:?}, on an arena of {} words", self.seed, self.calls, call, ws.len());
            println!("  answer {:?}, wanted {:?}", answer, wanted);
            if let Some(o) = word {
                println!("  word {} is {:#010x}, wanted {:#010x}", o, ws[o], on_paper[o]);
            }
            if let Some(k) = place {
                println!("  list place {} is {}, wanted {}", k, list[k], paper_list[k]);
            }
            exit(1);
        }
        answer
    }

    /// A handle: mostly one that was given, now and then free, outside or none.
    fn handle(&mut self, d: &Drawing) -> u32 {
        match self.random.below(12) {
            0 => 0,
            1 => self.random.word(),
            2 => 1 + self.random.below(2048 * d.segments as usize + 2048) as u32,
            3 => 2048 * self.random.below(d.segments as usize + 1) as u32 + self.random.below(5) as u32,
            _ if d.handles.is_empty() => 1,
            _ => self.random.pick(&d.handles),
        }
    }

    fn field(&mut self) -> u32 {
        match self.random.below(8) {
            0 => self.random.word(),
            1 => self.random.below(1100) as u32,
            _ => self.random.below(6) as u32,
        }
    }

    fn shape(&mut self, small: bool) -> (u32, u32, u8) {
        let n = match self.random.below(if small { 6 } else { 12 }) {
            0..=4 => self.random.below(8) as u32,
            5 => self.random.below(40) as u32,
            6 => 1020 + self.random.below(8) as u32,
            7 => (1 << self.random.below(11)) - self.random.below(2) as u32,
            8 if self.random.one_in(8) => self.random.word(),
            _ => self.random.below(600) as u32,
        };
        let r = if self.random.one_in(20) { n.wrapping_add(1 + self.random.below(3) as u32) } else { self.random.below(n.min(1023) as usize + 1) as u32 };
        (n, r, self.random.word() as u8)
    }

    fn roots(&mut self, d: &Drawing) -> Vec<u32> {
        let most = if self.random.one_in(4) { 40 } else { 6 };
        let count = self.random.below(most);
        let damaged = self.random.one_in(12);
        (0..count)
            .map(|_| match self.random.below(6) {
                0 => 0,
                _ if damaged => self.handle(d),
                _ if d.handles.is_empty() => 0,
                _ => self.random.pick(&d.handles),
            })
            .collect()
    }

    fn call(&mut self, d: &Drawing, small: bool) -> Call {
        match self.random.below(40) {
            0..=11 => {
                let (n, r, tag) = self.shape(small);
                Call::Allocate(n, r, tag)
            }
            12 => Call::Standing(self.handle(d)),
            13 => Call::Shape(self.handle(d)),
            14 => Call::ReadReference(self.handle(d), self.field()),
            15..=30 => {
                let v = if self.random.one_in(12) { self.random.word() } else { self.handle(d) };
                Call::WriteReference(self.handle(d), self.field(), v)
            }
            31 => Call::ReadPlain(self.handle(d), self.field()),
            32 | 33 => Call::WritePlain(self.handle(d), self.field(), self.random.word()),
            34 => Call::PlainWords(self.handle(d)),
            35 => Call::Room(if self.random.one_in(4) { self.random.word() } else { self.random.below(15) as u32 }),
            36 => Call::Make([0, 65, d.segments + 1, self.random.word()][self.random.below(4)]),
            _ => {
                let taken = d.handles.len();
                let len = match self.random.below(5) {
                    0 => taken.saturating_sub(1 + self.random.below(3)),
                    1 => taken,
                    _ => taken + self.random.below(2 * taken + 9),
                };
                Call::Collect(self.roots(d), len)
            }
        }
    }

    /// One word or bit is other than it was: mostly in head, places, records and headers.
    fn damage(&mut self, ws: &mut Vec<u32>, d: &Drawing) {
        let front = 11 + 68 * d.segments as usize;
        let o = match self.random.below(8) {
            0 => self.random.below(11),
            1..=4 => 11 + self.random.below(front - 11),
            5 => 11 + 68 * self.random.below(d.segments as usize),
            _ => self.random.below(ws.len()),
        };
        match self.random.below(6) {
            0 => ws[o] = self.random.word(),
            1 => ws[o] = [0, u32::MAX, 1, 1 << 24][self.random.below(4)],
            _ => ws[o] ^= 1 << self.random.below(32),
        }
        match self.random.below(30) {
            0 => {
                ws.pop();
            }
            1 => ws.push(0),
            2 => ws.clear(),
            _ => {}
        }
    }

    /// One drawing of so many segments, from make on.
    fn round(&mut self, segments: u32, steps: usize) {
        let small = self.random.one_in(2);
        let mut ws: Vec<u32> = (0..paper::arena_length(segments as usize)).map(|_| self.random.word()).collect();
        self.compare(&mut ws, &Call::Make(segments));
        let mut d = Drawing { ws, handles: vec![], segments };
        for _ in 0..steps {
            let call = self.call(&d, small);
            let mut ws = std::mem::take(&mut d.ws);
            let (number, values) = self.compare(&mut ws, &call);
            match &call {
                Call::Allocate(..) if number == 0 => d.handles.push(values[0] as u32),
                Call::Collect(..) if number == 0 => {
                    d.handles = paper::Arena::read(&ws).expect("a collected arena is sound").taken().into_iter().collect();
                }
                _ => {}
            }
            if self.random.one_in(6) {
                let mut other = ws.clone();
                self.damage(&mut other, &d);
                let call = self.call(&d, small);
                self.compare(&mut other, &call);
            }
            d.ws = ws;
        }
    }

    /// A segment filled to its last block, and one block more: classes 3 to 12 in turn, with a collection between.
    fn full(&mut self, class: u32) {
        let segments = 1 + self.random.below(3) as u32;
        let n = paper::block_words(class) as u32 - 1;
        let mut ws: Vec<u32> = vec![0; paper::arena_length(segments as usize)];
        self.compare(&mut ws, &Call::Make(segments));
        let mut d = Drawing { ws, handles: vec![], segments };
        let most = paper::blocks(class) * segments as usize;
        for k in 0..=most {
            let mut ws = std::mem::take(&mut d.ws);
            // the library alone up to the last few of a segment, where the two are compared
            let near = paper::blocks(class) - k % paper::blocks(class);
            let call = Call::Allocate(n, n.min(1), 0);
            let answer = if near <= 2 || near == paper::blocks(class) || k == most { self.compare(&mut ws, &call) } else { call.on_library(&mut self.library, &mut ws, &mut []) };
            if answer.0 == 0 {
                d.handles.push(answer.1[0] as u32);
            }
            d.ws = ws;
        }
        for keep in [1, 2, 3] {
            let kept: Vec<u32> = d.handles.iter().copied().filter(|h| keep == 1 || h % keep != 0).collect();
            let mut ws = std::mem::take(&mut d.ws);
            self.compare(&mut ws, &Call::Collect(kept.clone(), d.handles.len()));
            for _ in 0..4 {
                self.compare(&mut ws, &Call::Allocate(n, 0, 9));
            }
            self.compare(&mut ws, &Call::Room(class));
            d.ws = ws;
            d.handles = paper::Arena::read(&d.ws).expect("sound").taken().into_iter().collect();
        }
    }
}

fn main() {
    let args: Vec<String> = std::env::args().skip(1).collect();
    if args.len() < 3 {
        println!("second ROUNDS SEED PROGRAM ARGUMENTS");
        exit(2);
    }
    let number = |k: usize| args[k].parse::<u64>().expect("a number");
    let (rounds, seed) = (number(0), number(1));
    println!("second program: seed {seed}, {rounds} rounds");
    let mut run = Run { library: Library::start(&args[2..]), seed, random: Random(seed), calls: 0, seen: BTreeMap::new() };
    for class in 3..=12 {
        run.full(class);
    }
    for segments in 1..=64 {
        run.round(segments, 12);
    }
    for _ in 0..rounds {
        let segments = 1 + run.random.below(5) as u32;
        let steps = 60 + run.random.below(400);
        run.round(segments, steps);
    }
    let mut missing = vec![];
    for (kind, name) in NAMES.iter().enumerate() {
        let counts: Vec<String> = GIVEN[kind].iter().map(|&e| format!("{}: {}", e, run.seen.get(&(kind, e)).unwrap_or(&0))).collect();
        println!("  {:16} {}", name, counts.join(", "));
        missing.extend(GIVEN[kind].iter().filter(|&&e| !run.seen.contains_key(&(kind, e))).map(|e| format!("{name} never gave {e}")));
    }
    if !missing.is_empty() {
        println!("the run does not meet every answer: {}", missing.join("; "));
        exit(1);
    }
    println!("{} calls agree", run.calls);
}
