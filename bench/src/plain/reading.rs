//! Reading a sheet's text in two passes: the tables are written only when all is right.

use crate::shared::{Cents, Fault, TablesMut};

const LINE: u32 = 1;
const SIZE: u32 = 2;
const ROOM: u32 = 3;

pub struct Sizes {
    pub parcels: u32,
    pub entries: u32,
    pub stores: u32,
}

struct Parcel {
    store: u32,
    edition: u16,
}

struct Entry {
    row: u32,
    other: u32,
    key: Cents,
}

/// Hands out the numbers of one line after another.
#[derive(Clone, Copy)]
struct Lines<'a> {
    rest: &'a [u8],
}

// Digits with no zero in front, except 0 itself, within 32 bits.
fn number(field: &[u8]) -> Option<u32> {
    if field.is_empty() || (field[0] == b'0' && field.len() > 1) {
        return None;
    }
    field.iter().try_fold(0u32, |value, &b| {
        if !b.is_ascii_digit() {
            return None;
        }
        value.checked_mul(10)?.checked_add(u32::from(b - b'0'))
    })
}

impl Lines<'_> {
    // The numbers of the next line, if it has just three fields.
    fn next_numbers(&mut self) -> Option<[u32; 3]> {
        let end = self.rest.iter().position(|&b| b == b'\n')?;
        let (line, rest) = (&self.rest[..end], &self.rest[end + 1..]);
        self.rest = rest;
        let mut fields = line.split(|&b| b == b',');
        let values = [
            number(fields.next()?)?,
            number(fields.next()?)?,
            number(fields.next()?)?,
        ];
        fields.next().is_none().then_some(values)
    }

    fn sizes(&mut self) -> Option<Sizes> {
        let [parcels, entries, stores] = self.next_numbers()?;
        Some(Sizes {
            parcels,
            entries,
            stores,
        })
    }

    fn parcel(&mut self, wanted: u32) -> Option<Parcel> {
        let [named, store, edition] = self.next_numbers()?;
        let edition = u16::try_from(edition).ok()?;
        (named == wanted).then_some(Parcel { store, edition })
    }

    fn entry(&mut self, parcels: u32, low: u32) -> Option<Entry> {
        let [row, other, cents] = self.next_numbers()?;
        (low <= row && row < parcels).then_some(Entry {
            row,
            other,
            key: Cents(cents),
        })
    }
}

fn check_lines(mut lines: Lines<'_>, sizes: &Sizes) -> Result<(), Fault> {
    for u in 0..sizes.parcels {
        lines.parcel(u).ok_or((LINE, u + 2))?;
    }
    let mut low = 0;
    for j in 0..sizes.entries {
        let entry = lines
            .entry(sizes.parcels, low)
            .ok_or((LINE, sizes.parcels + j + 2))?;
        low = entry.row;
    }
    if !lines.rest.is_empty() {
        return Err((LINE, sizes.parcels + sizes.entries + 2));
    }
    Ok(())
}

// The lines were passed before, so that none is missing.
fn fill(mut lines: Lines<'_>, sizes: &Sizes, into: TablesMut<'_>) -> Option<()> {
    for u in 0..sizes.parcels {
        let parcel = lines.parcel(u)?;
        into.stores[u as usize] = parcel.store;
        into.editions[u as usize] = parcel.edition;
    }
    let mut low = 0;
    let mut marked = 0;
    for j in 0..sizes.entries {
        let entry = lines.entry(sizes.parcels, low)?;
        low = entry.row;
        into.starts[marked as usize..low as usize + 1].fill(j);
        marked = low + 1;
        into.others[j as usize] = entry.other;
        into.keys[j as usize] = entry.key;
    }
    into.starts[marked as usize..sizes.parcels as usize + 1].fill(sizes.entries);
    Some(())
}

pub fn read(text: &[u8], into: TablesMut<'_>) -> Result<Sizes, Fault> {
    let mut lines = Lines { rest: text };
    let sizes = lines.sizes().ok_or((LINE, 1))?;
    if sizes.parcels > 1024 || sizes.entries > 16384 || !(1..=64).contains(&sizes.stores) {
        return Err((SIZE, 0));
    }
    let (parcels, entries) = (sizes.parcels as usize, sizes.entries as usize);
    if into.starts.len() <= parcels
        || into.others.len() < entries
        || into.keys.len() < entries
        || into.stores.len() < parcels
        || into.editions.len() < parcels
    {
        return Err((ROOM, 0));
    }
    check_lines(lines, &sizes)?;
    fill(lines, &sizes, into).ok_or((LINE, 1))?;
    Ok(sizes)
}
