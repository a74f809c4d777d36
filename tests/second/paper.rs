//! Document 01 once more, written from the document alone, for clarity and not for speed. An arena is read into
//! plain values; soundness is that writing these back gives the same words, and a few rules on the values; a call
//! works on the values. Draw order is found by comparing ways.

use crate::face::Answer;
use std::cmp::Reverse;
use std::collections::{BTreeMap, BTreeSet, BinaryHeap};

pub const AREA: usize = 4096;
pub const RECORD: usize = 68;
pub const HEAD: usize = 11;

pub fn arena_length(segments: usize) -> usize {
    HEAD + (RECORD + AREA) * segments
}

/// Blocks of 2^i bytes in an area, and the words of one.
pub fn blocks(class: u32) -> usize {
    AREA * 4 / (1 << class)
}

pub fn block_words(class: u32) -> usize {
    (1 << class) / 4
}

/// The smallest class of at least 3 whose blocks hold a header and n words.
pub fn class_for(n: u32) -> u32 {
    (3..).find(|&i| 4 * (u64::from(n) + 1) <= 1u64 << i).unwrap()
}

/// A segment that is not in the pool.
#[derive(Clone, PartialEq)]
struct Segment {
    class: u32,
    rank: u32,
    bits: Vec<bool>,
}

/// An arena in plain values. `areas` are its block words.
pub struct Arena {
    places: BTreeMap<u32, (u32, u32)>,
    segments: Vec<Option<Segment>>,
    areas: Vec<u32>,
}

#[derive(Clone, Copy)]
pub struct Shape {
    pub n: u32,
    pub r: u32,
    pub tag: u32,
}

fn shape_of(header: u32) -> Shape {
    Shape { n: header >> 20, r: header >> 8 & 0xFFF, tag: header & 0xFF }
}

/// The bits of a level as words; those past its end are 1.
fn packed(bits: &[bool]) -> Vec<u32> {
    bits.chunks(32).map(|chunk| (0..32).map(|b| u32::from(*chunk.get(b).unwrap_or(&true)) << b).sum()).collect()
}

/// A record's 68 words.
fn record(segment: &Option<Segment>) -> Vec<u32> {
    let mut words = vec![0; RECORD];
    let Some(segment) = segment else { return words };
    let count = segment.bits.iter().filter(|&&b| b).count() as u32;
    words[0] = segment.class << 28 | segment.rank << 20 | count << 8;
    let mut level = packed(&segment.bits);
    for start in [1, 65, 67] {
        words[start..start + level.len()].copy_from_slice(&level);
        if level.len() == 1 {
            break;
        }
        level = packed(&level.iter().map(|&w| w == u32::MAX).collect::<Vec<_>>());
    }
    words
}

impl Arena {
    fn fresh(segments: usize) -> Arena {
        Arena { places: (3..=12).map(|i| (i, (0, 0))).collect(), segments: vec![None; segments], areas: vec![0; AREA * segments] }
    }

    pub fn words(&self) -> Vec<u32> {
        let mut words = vec![(self.segments.len() as u32) << 24];
        words.extend(self.places.values().map(|(rank, index)| rank << 24 | index << 12));
        words.extend(self.segments.iter().flat_map(record));
        words.extend(&self.areas);
        words
    }

    /// The values of a sound arena, none of any other.
    pub fn read(words: &[u32]) -> Option<Arena> {
        let segments = (*words.first()? >> 24) as usize;
        if !(1..=64).contains(&segments) || words.len() != arena_length(segments) {
            return None;
        }
        let places = (3..=12).map(|i| (i, words[i as usize - 2])).map(|(i, w)| (i, (w >> 24, w >> 12 & 0xFFF))).collect();
        let mut read = Arena { places, segments: vec![], areas: words[HEAD + RECORD * segments..].to_vec() };
        for s in 0..segments {
            let record = &words[HEAD + RECORD * s..][..RECORD];
            let class = record[0] >> 28;
            read.segments.push(match class {
                0 => None,
                3..=12 => Some(Segment {
                    class,
                    rank: record[0] >> 20 & 0xFF,
                    bits: (0..blocks(class)).map(|k| record[1 + k / 32] >> (k % 32) & 1 == 1).collect(),
                }),
                _ => return None,
            });
        }
        (read.words() == words && read.ranked() && read.placed() && read.filled()).then_some(read)
    }

    /// The segments of a class in rank order.
    fn members(&self, class: u32) -> Vec<usize> {
        let mut members: Vec<usize> = (0..self.segments.len()).filter(|&s| self.class(s) == Some(class)).collect();
        members.sort_by_key(|&s| self.segments[s].as_ref().unwrap().rank);
        members
    }

    fn class(&self, s: usize) -> Option<u32> {
        self.segments.get(s)?.as_ref().map(|segment| segment.class)
    }

    fn ranked(&self) -> bool {
        (3..=12).all(|i| self.members(i).iter().enumerate().all(|(q, &s)| self.segments[s].as_ref().unwrap().rank as usize == q))
    }

    fn placed(&self) -> bool {
        self.places.iter().all(|(&i, &(rank, index))| {
            let members = self.members(i);
            if members.is_empty() {
                return (rank, index) == (0, 0);
            }
            let behind = members.iter().skip(rank as usize + 1);
            (rank as usize) < members.len()
                && index as usize <= blocks(i)
                && behind.clone().all(|&s| self.segments[s].as_ref().unwrap().bits.iter().any(|&b| !b))
        })
    }

    fn filled(&self) -> bool {
        self.taken().iter().all(|&h| {
            let Shape { n, r, .. } = self.shape(h);
            class_for(n) == self.class(segment_of(h)).unwrap()
                && r <= n
                && (0..r as usize).all(|f| self.none_or_taken(self.areas[self.start(h) + 1 + f]))
        })
    }

    pub fn is_taken(&self, h: u32) -> bool {
        if h == 0 {
            return false;
        }
        let (s, k) = (segment_of(h), index_of(h));
        let Some(segment) = self.segments.get(s).and_then(|x| x.as_ref()) else { return false };
        let place = self.places[&segment.class];
        k < segment.bits.len() && ((segment.rank, k as u32) < place || segment.bits[k])
    }

    fn none_or_taken(&self, h: u32) -> bool {
        h == 0 || self.is_taken(h)
    }

    pub fn taken(&self) -> BTreeSet<u32> {
        (1..=2048 * self.segments.len() as u32).filter(|&h| self.is_taken(h)).collect()
    }

    /// Where a block begins among the block words.
    fn start(&self, h: u32) -> usize {
        AREA * segment_of(h) + block_words(self.class(segment_of(h)).unwrap()) * index_of(h)
    }

    pub fn shape(&self, h: u32) -> Shape {
        shape_of(self.areas[self.start(h)])
    }

    /// Where the block words begin in the arena.
    fn front(&self) -> usize {
        HEAD + RECORD * self.segments.len()
    }
}

fn segment_of(h: u32) -> usize {
    (h as usize - 1) / 2048
}

fn index_of(h: u32) -> usize {
    (h as usize - 1) % 2048
}

// ---- the calls: each takes the words and leaves those after it

pub fn make(ws: &mut Vec<u32>, segments: u32) -> Answer {
    if !(1..=64).contains(&segments) || ws.len() != arena_length(segments as usize) {
        return (1, vec![]);
    }
    *ws = Arena::fresh(segments as usize).words();
    (0, vec![])
}

pub fn allocate(ws: &mut Vec<u32>, n: u32, r: u32, tag: u8) -> Answer {
    let Some(mut arena) = Arena::read(ws) else { return (2, vec![0]) };
    if n > 1023 || r > n {
        return (3, vec![0]);
    }
    let class = class_for(n);
    let members = arena.members(class);
    let untaken = members.iter().flat_map(|&s| (0..blocks(class)).map(move |k| handle(s, k))).find(|&h| !arena.is_taken(h));
    let h = match untaken {
        Some(h) => h,
        None => {
            let Some(s) = (0..arena.segments.len()).find(|&s| arena.segments[s].is_none()) else { return (4, vec![0]) };
            arena.segments[s] = Some(Segment { class, rank: members.len() as u32, bits: vec![false; blocks(class)] });
            handle(s, 0)
        }
    };
    let start = arena.start(h);
    arena.areas[start..start + block_words(class)].fill(0);
    arena.areas[start] = n << 20 | r << 8 | u32::from(tag);
    let rank = arena.segments[segment_of(h)].as_ref().unwrap().rank;
    arena.places.insert(class, (rank, index_of(h) as u32 + 1));
    *ws = arena.words();
    (0, vec![u64::from(h)])
}

fn handle(s: usize, k: usize) -> u32 {
    (s * 2048 + k + 1) as u32
}

pub fn standing(ws: &[u32], h: u32) -> Answer {
    let Some(arena) = Arena::read(ws) else { return (2, vec![0; 4]) };
    if h == 0 {
        return (0, vec![0; 4]);
    }
    match arena.class(segment_of(h)) {
        Some(class) if index_of(h) < blocks(class) => {
            if arena.is_taken(h) {
                let Shape { n, r, tag } = arena.shape(h);
                (0, [3, n, r, tag].map(u64::from).to_vec())
            } else {
                (0, vec![2, 0, 0, 0])
            }
        }
        _ => (0, vec![1, 0, 0, 0]),
    }
}

/// The arena and the shape of a taken block, or the refusal.
fn block(ws: &[u32], h: u32) -> Result<(Arena, Shape), u32> {
    let arena = Arena::read(ws).ok_or(2u32)?;
    if !arena.is_taken(h) {
        return Err(5);
    }
    let shape = arena.shape(h);
    Ok((arena, shape))
}

pub fn shape(ws: &[u32], h: u32) -> Answer {
    match block(ws, h) {
        Ok((_, Shape { n, r, tag })) => (0, [n, r, tag].map(u64::from).to_vec()),
        Err(e) => (e, vec![0; 3]),
    }
}

/// Where field f stands among the words, or the refusal.
fn field(ws: &[u32], h: u32, f: u32, plain: bool) -> Result<(Arena, usize), u32> {
    let (arena, Shape { n, r, .. }) = block(ws, h)?;
    let (first, fields) = if plain { (r, n - r) } else { (0, r) };
    if f >= fields {
        return Err(6);
    }
    let at = arena.front() + arena.start(h) + 1 + (first + f) as usize;
    Ok((arena, at))
}

pub fn read(ws: &[u32], h: u32, f: u32, plain: bool) -> Answer {
    match field(ws, h, f, plain) {
        Ok((_, at)) => (0, vec![u64::from(ws[at])]),
        Err(e) => (e, vec![0]),
    }
}

pub fn write(ws: &mut [u32], h: u32, f: u32, v: u32, plain: bool) -> Answer {
    match field(ws, h, f, plain) {
        Ok((arena, _)) if !plain && !arena.none_or_taken(v) => (7, vec![]),
        Ok((_, at)) => {
            ws[at] = v;
            (0, vec![])
        }
        Err(e) => (e, vec![]),
    }
}

pub fn plain_words(ws: &[u32], h: u32) -> Answer {
    match block(ws, h) {
        Ok((arena, Shape { n, r, .. })) => (0, vec![(arena.front() + arena.start(h) + 1 + r as usize) as u64, u64::from(n - r)]),
        Err(e) => (e, vec![0, 0]),
    }
}

pub fn room(ws: &[u32], class: u32) -> Answer {
    let Some(arena) = Arena::read(ws) else { return (2, vec![0]) };
    if !(3..=12).contains(&class) {
        return (3, vec![0]);
    }
    let untaken = arena.members(class).iter().flat_map(|&s| (0..blocks(class)).map(move |k| handle(s, k))).filter(|&h| !arena.is_taken(h)).count();
    (0, vec![untaken as u64])
}

/// The reachable blocks by their first ways: fewest steps, then root position, then field position at each step.
fn by_ways(arena: &Arena, roots: &[u32]) -> Vec<u32> {
    let mut ways: BinaryHeap<Reverse<(usize, Vec<u32>, u32)>> = BinaryHeap::new();
    for (p, &h) in roots.iter().enumerate() {
        if h != 0 {
            ways.push(Reverse((1, vec![p as u32], h)));
        }
    }
    let mut listed = BTreeSet::new();
    let mut list = vec![];
    while let Some(Reverse((steps, way, h))) = ways.pop() {
        if !listed.insert(h) {
            continue;
        }
        list.push(h);
        for f in 0..arena.shape(h).r {
            let next = arena.areas[arena.start(h) + 1 + f as usize];
            if next != 0 && !listed.contains(&next) {
                let longer = [way.as_slice(), &[f]].concat();
                ways.push(Reverse((steps + 1, longer, next)));
            }
        }
    }
    list
}

pub fn collect(ws: &mut Vec<u32>, roots: &[u32], work: &mut [u32]) -> Answer {
    let Some(mut arena) = Arena::read(ws) else { return (2, vec![0]) };
    if !roots.iter().all(|&h| arena.none_or_taken(h)) {
        return (8, vec![0]);
    }
    if work.len() < arena.taken().len() {
        return (9, vec![0]);
    }
    let list = by_ways(&arena, roots);
    work[..list.len()].copy_from_slice(&list);
    for s in 0..arena.segments.len() {
        if let Some(segment) = &mut arena.segments[s] {
            segment.bits.iter_mut().for_each(|b| *b = false);
        }
    }
    for &h in &list {
        arena.segments[segment_of(h)].as_mut().unwrap().bits[index_of(h)] = true;
    }
    for class in 3..=12 {
        let full = |arena: &Arena, s: usize| arena.segments[s].as_ref().unwrap().bits.iter().all(|&b| b);
        let (empty, mut kept): (Vec<usize>, Vec<usize>) =
            arena.members(class).into_iter().partition(|&s| arena.segments[s].as_ref().unwrap().bits.iter().all(|&b| !b));
        empty.into_iter().for_each(|s| arena.segments[s] = None);
        kept.sort_by_key(|&s| !full(&arena, s));
        for (q, &s) in kept.iter().enumerate() {
            arena.segments[s].as_mut().unwrap().rank = q as u32;
        }
        let place = match kept.iter().position(|&s| !full(&arena, s)) {
            Some(q) => (q as u32, 0),
            None if kept.is_empty() => (0, 0),
            None => (kept.len() as u32 - 1, blocks(class) as u32),
        };
        arena.places.insert(class, place);
    }
    *ws = arena.words();
    (0, vec![list.len() as u64])
}
