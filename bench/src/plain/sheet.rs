//! The check of a sheet's tables.

use crate::shared::{Cents, Fault, Tables};
use std::ops::Range;

const SIZE: u32 = 2;
const ROOM: u32 = 3;
const PARCEL: u32 = 4;
const ENTRY: u32 = 5;
const MIRROR: u32 = 6;
const ALIKE: u32 = 7;
const EDITION: u32 = 8;

/// A sheet that was checked.
pub struct Sheet<'a> {
    tables: Tables<'a>,
}

impl<'a> Sheet<'a> {
    pub fn parcels(&self) -> usize {
        self.tables.stores.len()
    }

    pub fn entries(&self) -> usize {
        self.tables.others.len()
    }

    pub fn store_count(&self) -> u32 {
        self.tables.store_count
    }

    pub fn store(&self, u: usize) -> u32 {
        self.tables.stores[u]
    }

    pub fn other(&self, p: usize) -> u32 {
        self.tables.others[p]
    }

    pub fn key(&self, p: usize) -> Cents {
        self.tables.keys[p]
    }

    /// The places of the entries of parcel `u`.
    pub fn row(&self, u: usize) -> Range<usize> {
        row(&self.tables, u)
    }

    /// The place of the entry of parcel `u` that names `v`.
    pub fn find_entry(&self, u: usize, v: usize) -> Option<usize> {
        find(&self.tables, u, v)
    }
}

fn row(t: &Tables<'_>, u: usize) -> Range<usize> {
    t.starts[u] as usize..t.starts[u + 1] as usize
}

fn find(t: &Tables<'_>, u: usize, v: usize) -> Option<usize> {
    let row = row(t, u);
    let start = row.start;
    t.others[row]
        .iter()
        .position(|&other| other as usize == v)
        .map(|i| start + i)
}

fn parcel_right(t: &Tables<'_>, u: usize) -> bool {
    let row = row(t, u);
    let entries = t.others.len();
    (u != 0 || row.start == 0)
        && row.start <= row.end
        && row.end <= entries
        && (u + 1 != t.stores.len() || row.end == entries)
        && t.stores[u] < t.store_count
}

fn entry_fault(t: &Tables<'_>, u: usize, p: usize) -> Result<(), u32> {
    let v = t.others[p] as usize;
    let rises = p <= t.starts[u] as usize || (t.others[p - 1] as usize) < v;
    if v >= t.stores.len() || v == u || !rises {
        return Err(ENTRY);
    }
    let q = find(t, v, u).ok_or(MIRROR)?;
    if t.keys[p] != t.keys[q] {
        return Err(ALIKE);
    }
    if t.editions[u] != t.editions[v] {
        return Err(EDITION);
    }
    Ok(())
}

fn check_rows(t: &Tables<'_>) -> Result<(), Fault> {
    if t.stores.is_empty() && (t.starts[0] != 0 || !t.others.is_empty()) {
        return Err((PARCEL, 0));
    }
    match (0..t.stores.len()).find(|&u| !parcel_right(t, u)) {
        Some(u) => Err((PARCEL, u as u32)),
        None => Ok(()),
    }
}

fn check_entries(t: &Tables<'_>) -> Result<(), Fault> {
    for u in 0..t.stores.len() {
        for p in row(t, u) {
            entry_fault(t, u, p).map_err(|number| (number, p as u32))?;
        }
    }
    Ok(())
}

pub fn check(tables: Tables<'_>) -> Result<Sheet<'_>, Fault> {
    let (parcels, entries) = (tables.stores.len(), tables.others.len());
    if parcels > 1024 || entries > 16384 || !(1..=64).contains(&tables.store_count) {
        return Err((SIZE, 0));
    }
    if tables.starts.len() != parcels + 1
        || tables.keys.len() != entries
        || tables.editions.len() != parcels
    {
        return Err((ROOM, 0));
    }
    check_rows(&tables)?;
    check_entries(&tables)?;
    Ok(Sheet { tables })
}
