//! The same stages in plain, safe Rust: the same algorithms over the same lent buffers, with the bounds checks that the
//! compiler leaves in.
#![forbid(unsafe_code)]

mod line;
mod outright;
mod reading;
mod round;
mod sheet;

use crate::shared::{Fault, LineKind, Outcome, Reading, Record, Slot, Tables, TablesMut, Verdict};

fn verdict(answer: Result<(), Fault>) -> Verdict {
    let (number, place) = answer.err().unwrap_or((0, 0));
    Verdict { number, place }
}

#[inline(never)]
pub fn read(text: &[u8], into: TablesMut<'_>) -> Reading {
    match reading::read(text, into) {
        Ok(sizes) => Reading {
            number: 0,
            place: 0,
            parcels: sizes.parcels,
            entries: sizes.entries,
            stores: sizes.stores,
        },
        Err((number, place)) => Reading {
            number,
            place,
            parcels: 0,
            entries: 0,
            stores: 0,
        },
    }
}

#[inline(never)]
pub fn check(tables: Tables<'_>) -> Verdict {
    verdict(sheet::check(tables).map(|_| ()))
}

#[inline(never)]
pub fn pair_outright(
    tables: Tables<'_>,
    records: &mut [Record],
    worklist: &mut [u32],
    repeat: u32,
) -> Verdict {
    verdict(sheet::check(tables).and_then(|sheet| {
        (0..repeat).try_for_each(|_| outright::pair_outright(&sheet, records, worklist))
    }))
}

fn settle_again(
    tables: Tables<'_>,
    records: &mut [Record],
    marks: &mut [u8],
    mut line: impl line::Line,
    repeat: u32,
) -> Result<round::Totals, Fault> {
    let sheet = sheet::check(tables)?;
    (0..repeat).try_fold(round::Totals::default(), |_, _| {
        round::settle(&sheet, records, marks, &mut line)
    })
}

#[inline(never)]
pub fn settle(
    kind: LineKind,
    tables: Tables<'_>,
    records: &mut [Record],
    marks: &mut [u8],
    slots: &mut [Slot],
    capacity: u32,
    repeat: u32,
) -> Outcome {
    let settled = match kind {
        LineKind::Queue => settle_again(
            tables,
            records,
            marks,
            line::Queue::new(slots, capacity),
            repeat,
        ),
        LineKind::Pigeonholes => settle_again(
            tables,
            records,
            marks,
            line::Pigeonholes::new(slots, capacity),
            repeat,
        ),
    };
    let (number, place) = settled.err().unwrap_or((0, 0));
    let totals = settled.unwrap_or_default();
    Outcome {
        number,
        place,
        pairs: totals.pairs,
        lone: totals.lone,
        sent: totals.sent,
        turns: totals.turns,
    }
}
