//! Outright pairing with a worklist of the parcels that were paired.

use super::sheet::Sheet;
use crate::shared::{Fault, Record};

const IDLE: u8 = 0;
const WAITS: u8 = 1;
const PAIRED: u8 = 2;
const LONE: u8 = 3;

const ROOM: u32 = 3;
const WRONG_LENGTH: u32 = 12;

/// The place of the best of the candidates in the row of parcel `u`; of equal ones the last.
pub fn top_entry(sheet: &Sheet<'_>, u: usize, stands: impl Fn(usize) -> bool) -> Option<usize> {
    let mut top = None;
    for p in sheet.row(u) {
        if stands(p) && top.is_none_or(|q| sheet.key(p) >= sheet.key(q)) {
            top = Some(p);
        }
    }
    top
}

fn waits_at(sheet: &Sheet<'_>, records: &[Record], w: usize, v: usize) -> bool {
    let record = records[w];
    record.state == WAITS && sheet.other(sheet.row(w).start + record.choice as usize) as usize == v
}

/// The parcels that were paired, in a lent buffer.
struct Worklist<'a> {
    buffer: &'a mut [u32],
    listed: usize,
}

impl Worklist<'_> {
    fn push(&mut self, u: u32) {
        self.buffer[self.listed] = u;
        self.listed += 1;
    }
}

fn look(sheet: &Sheet<'_>, records: &mut [Record], worklist: &mut Worklist<'_>, v: u32) {
    let at = v as usize;
    let free = |p| records[sheet.other(p) as usize].state != PAIRED;
    let Some(p) = top_entry(sheet, at, free) else {
        records[at] = Record {
            state: LONE,
            choice: 0,
        };
        return;
    };
    let choice = (p - sheet.row(at).start) as u32;
    let w = sheet.other(p);
    if waits_at(sheet, records, w as usize, at) {
        records[at] = Record {
            state: PAIRED,
            choice,
        };
        records[w as usize].state = PAIRED;
        worklist.push(v);
        worklist.push(w);
    } else {
        records[at] = Record {
            state: WAITS,
            choice,
        };
    }
}

pub fn pair_outright(
    sheet: &Sheet<'_>,
    records: &mut [Record],
    worklist: &mut [u32],
) -> Result<(), Fault> {
    if worklist.len() < sheet.parcels() {
        return Err((ROOM, 0));
    }
    if records.len() != sheet.parcels() {
        return Err((WRONG_LENGTH, 0));
    }
    records.fill(Record {
        state: IDLE,
        choice: 0,
    });
    let mut worklist = Worklist {
        buffer: worklist,
        listed: 0,
    };
    for v in 0..sheet.parcels() as u32 {
        look(sheet, records, &mut worklist, v);
    }
    let mut next = 0;
    while next < worklist.listed {
        let u = worklist.buffer[next] as usize;
        for q in sheet.row(u) {
            let v = sheet.other(q);
            if waits_at(sheet, records, v as usize, u) {
                look(sheet, records, &mut worklist, v);
            }
        }
        next += 1;
    }
    Ok(())
}
