//! Sheets to measure on, and damage to them.

use crate::shared::{Cents, Tables};
use std::collections::BTreeSet;
use std::fmt::Write;

/// Small and repeatable: the same numbers on every machine.
pub struct Random(u64);

impl Random {
    pub fn new(seed: u64) -> Self {
        Random(seed)
    }

    pub fn next(&mut self) -> u64 {
        self.0 = self.0.wrapping_add(0x9e37_79b9_7f4a_7c15);
        let x = (self.0 ^ (self.0 >> 30)).wrapping_mul(0xbf58_476d_1ce4_e5b9);
        let x = (x ^ (x >> 27)).wrapping_mul(0x94d0_49bb_1331_11eb);
        x ^ (x >> 31)
    }

    pub fn below(&mut self, limit: usize) -> usize {
        (self.next() % limit.max(1) as u64) as usize
    }
}

#[derive(Clone, Copy, Debug, PartialEq, Eq)]
pub enum Shape {
    /// Eight random pairs for each parcel.
    Random,
    /// A grid closed at its edges, in which a parcel is paired with those a king's or a knight's move away.
    Grid,
    /// The same grid, with all keys equal.
    Equal,
    /// The same grid, with keys that rise with the parcels' numbers, so that most pairs wait for another.
    Rising,
    /// One parcel paired with every other.
    Star,
    /// Every parcel paired with every other.
    Complete,
}

/// A sheet that owns its tables.
#[derive(Clone)]
pub struct Owned {
    pub starts: Vec<u32>,
    pub others: Vec<u32>,
    pub keys: Vec<Cents>,
    pub stores: Vec<u32>,
    pub editions: Vec<u16>,
    pub store_count: u32,
}

const STORES: u32 = 64;

// One of each two moves that lead there and back.
const MOVES: [(i64, i64); 8] = [
    (1, 0),
    (0, 1),
    (1, 1),
    (1, -1),
    (1, 2),
    (2, 1),
    (1, -2),
    (2, -1),
];

fn grid_pairs(parcels: usize) -> Vec<(usize, usize)> {
    let width = 1 << (parcels.ilog2() / 2);
    let height = parcels / width;
    let at = |x: i64, y: i64| {
        let column = x.rem_euclid(width as i64) as usize;
        let row = y.rem_euclid(height as i64) as usize;
        row * width + column
    };
    let mut pairs = Vec::new();
    for u in 0..parcels {
        for (dx, dy) in MOVES {
            pairs.push((u, at((u % width) as i64 + dx, (u / width) as i64 + dy)));
        }
    }
    pairs
}

fn random_pairs(parcels: usize, random: &mut Random) -> Vec<(usize, usize)> {
    let mut pairs = BTreeSet::new();
    while pairs.len() < 8 * parcels {
        let (u, v) = (random.below(parcels), random.below(parcels));
        if u != v {
            pairs.insert((u.min(v), u.max(v)));
        }
    }
    pairs.into_iter().collect()
}

fn pairs_of(shape: Shape, parcels: usize, random: &mut Random) -> Vec<(usize, usize)> {
    match shape {
        Shape::Random => random_pairs(parcels, random),
        Shape::Grid | Shape::Equal | Shape::Rising => grid_pairs(parcels),
        Shape::Star => (1..parcels).map(|v| (0, v)).collect(),
        Shape::Complete => (0..parcels)
            .flat_map(|u| (u + 1..parcels).map(move |v| (u, v)))
            .collect(),
    }
}

fn key_of(shape: Shape, u: usize, v: usize, random: &mut Random) -> Cents {
    match shape {
        Shape::Equal => Cents(700),
        Shape::Rising => Cents((u + v) as u32),
        _ => Cents(random.below(100_000) as u32),
    }
}

/// The sheet of this shape with so many parcels: on a grid and at random 16 entries to a parcel.
pub fn sheet(shape: Shape, parcels: usize) -> Owned {
    let mut random = Random::new(parcels as u64);
    let mut rows = vec![Vec::new(); parcels];
    for (u, v) in pairs_of(shape, parcels, &mut random) {
        let key = key_of(shape, u, v, &mut random);
        rows[u].push((v as u32, key));
        rows[v].push((u as u32, key));
    }
    let mut made = Owned {
        starts: vec![0],
        others: Vec::new(),
        keys: Vec::new(),
        stores: (0..parcels)
            .map(|_| random.below(STORES as usize) as u32)
            .collect(),
        editions: vec![21; parcels],
        store_count: STORES,
    };
    for row in &mut rows {
        row.sort_by_key(|entry| entry.0);
        made.others.extend(row.iter().map(|entry| entry.0));
        made.keys.extend(row.iter().map(|entry| entry.1));
        made.starts.push(made.others.len() as u32);
    }
    made
}

impl Owned {
    pub fn tables(&self) -> Tables<'_> {
        Tables {
            starts: &self.starts,
            others: &self.others,
            keys: &self.keys,
            stores: &self.stores,
            editions: &self.editions,
            store_count: self.store_count,
        }
    }

    pub fn text(&self) -> Vec<u8> {
        let mut text = String::new();
        let (parcels, entries) = (self.stores.len(), self.others.len());
        let _ = writeln!(text, "{parcels},{entries},{}", self.store_count);
        for (u, (store, edition)) in self.stores.iter().zip(&self.editions).enumerate() {
            let _ = writeln!(text, "{u},{store},{edition}");
        }
        for (u, row) in self.starts.windows(2).enumerate() {
            for p in row[0] as usize..row[1] as usize {
                let _ = writeln!(text, "{u},{},{}", self.others[p], self.keys[p].0);
            }
        }
        text.into_bytes()
    }

    /// Changes a number somewhere, or a table's length.
    pub fn damage(&mut self, random: &mut Random) {
        let (parcels, entries) = (self.stores.len(), self.others.len());
        let value = match random.below(4) {
            0 => random.next() as u32,
            _ => random.below(2 * parcels + 2) as u32,
        };
        match random.below(12) {
            0 | 1 => self.starts[random.below(parcels + 1)] = value,
            2..=4 => self.others[random.below(entries)] = value,
            5 | 6 => self.keys[random.below(entries)] = Cents(value),
            7 => self.stores[random.below(parcels)] = value,
            8 => self.editions[random.below(parcels)] ^= 1,
            9 => self.store_count = value,
            10 => drop(self.others.pop()),
            _ => drop(self.editions.pop()),
        }
    }
}

/// Changes, drops, adds or moves a byte, or cuts the text off.
pub fn damage_text(text: &mut Vec<u8>, random: &mut Random) {
    const BYTES: &[u8] = b"0123456789,\n\n,, -x\r";
    let at = random.below(text.len());
    let byte = BYTES[random.below(BYTES.len())];
    match random.below(6) {
        0 | 1 => text[at] = byte,
        2 => drop(text.remove(at)),
        3 => text.insert(at, byte),
        4 => text.truncate(at),
        _ => text.push(byte),
    }
}
