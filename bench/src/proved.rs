//! The proved stages, as the static library exports them.

use crate::shared::{Cents, LineKind, Outcome, Reading, Record, Slot, Tables, TablesMut, Verdict};

mod exported {
    use super::*;

    #[link(name = "stages", kind = "static")]
    unsafe extern "C" {
        pub fn stages_read(
            text: *const u8,
            text_len: usize,
            starts: *mut u32,
            starts_len: usize,
            others: *mut u32,
            others_len: usize,
            keys: *mut Cents,
            keys_len: usize,
            stores: *mut u32,
            stores_len: usize,
            editions: *mut u16,
            editions_len: usize,
        ) -> Reading;

        pub fn stages_check(
            starts: *const u32,
            starts_len: usize,
            others: *const u32,
            others_len: usize,
            keys: *const Cents,
            keys_len: usize,
            stores: *const u32,
            stores_len: usize,
            editions: *const u16,
            editions_len: usize,
            store_count: u32,
        ) -> Verdict;

        pub fn stages_pair_outright(
            starts: *const u32,
            starts_len: usize,
            others: *const u32,
            others_len: usize,
            keys: *const Cents,
            keys_len: usize,
            stores: *const u32,
            stores_len: usize,
            editions: *const u16,
            editions_len: usize,
            store_count: u32,
            records: *mut Record,
            records_len: usize,
            worklist: *mut u32,
            worklist_len: usize,
            repeat: u32,
        ) -> Verdict;

        pub fn stages_settle_queue(
            starts: *const u32,
            starts_len: usize,
            others: *const u32,
            others_len: usize,
            keys: *const Cents,
            keys_len: usize,
            stores: *const u32,
            stores_len: usize,
            editions: *const u16,
            editions_len: usize,
            store_count: u32,
            records: *mut Record,
            records_len: usize,
            marks: *mut u8,
            marks_len: usize,
            slots: *mut Slot,
            slots_len: usize,
            capacity: u32,
            repeat: u32,
        ) -> Outcome;

        pub fn stages_settle_pigeonholes(
            starts: *const u32,
            starts_len: usize,
            others: *const u32,
            others_len: usize,
            keys: *const Cents,
            keys_len: usize,
            stores: *const u32,
            stores_len: usize,
            editions: *const u16,
            editions_len: usize,
            store_count: u32,
            records: *mut Record,
            records_len: usize,
            marks: *mut u8,
            marks_len: usize,
            slots: *mut Slot,
            slots_len: usize,
            capacity: u32,
            repeat: u32,
        ) -> Outcome;
    }
}

pub fn read(text: &[u8], into: TablesMut<'_>) -> Reading {
    // SAFETY: every pointer and length is that of a live slice, and no two that are written overlap.
    unsafe {
        exported::stages_read(
            text.as_ptr(),
            text.len(),
            into.starts.as_mut_ptr(),
            into.starts.len(),
            into.others.as_mut_ptr(),
            into.others.len(),
            into.keys.as_mut_ptr(),
            into.keys.len(),
            into.stores.as_mut_ptr(),
            into.stores.len(),
            into.editions.as_mut_ptr(),
            into.editions.len(),
        )
    }
}

pub fn check(t: Tables<'_>) -> Verdict {
    // SAFETY: as in `read`.
    unsafe {
        exported::stages_check(
            t.starts.as_ptr(),
            t.starts.len(),
            t.others.as_ptr(),
            t.others.len(),
            t.keys.as_ptr(),
            t.keys.len(),
            t.stores.as_ptr(),
            t.stores.len(),
            t.editions.as_ptr(),
            t.editions.len(),
            t.store_count,
        )
    }
}

pub fn pair_outright(
    t: Tables<'_>,
    records: &mut [Record],
    worklist: &mut [u32],
    repeat: u32,
) -> Verdict {
    // SAFETY: as in `read`.
    unsafe {
        exported::stages_pair_outright(
            t.starts.as_ptr(),
            t.starts.len(),
            t.others.as_ptr(),
            t.others.len(),
            t.keys.as_ptr(),
            t.keys.len(),
            t.stores.as_ptr(),
            t.stores.len(),
            t.editions.as_ptr(),
            t.editions.len(),
            t.store_count,
            records.as_mut_ptr(),
            records.len(),
            worklist.as_mut_ptr(),
            worklist.len(),
            repeat,
        )
    }
}

pub fn settle(
    kind: LineKind,
    t: Tables<'_>,
    records: &mut [Record],
    marks: &mut [u8],
    slots: &mut [Slot],
    capacity: u32,
    repeat: u32,
) -> Outcome {
    let stage = match kind {
        LineKind::Queue => exported::stages_settle_queue,
        LineKind::Pigeonholes => exported::stages_settle_pigeonholes,
    };
    // SAFETY: as in `read`.
    unsafe {
        stage(
            t.starts.as_ptr(),
            t.starts.len(),
            t.others.as_ptr(),
            t.others.len(),
            t.keys.as_ptr(),
            t.keys.len(),
            t.stores.as_ptr(),
            t.stores.len(),
            t.editions.as_ptr(),
            t.editions.len(),
            t.store_count,
            records.as_mut_ptr(),
            records.len(),
            marks.as_mut_ptr(),
            marks.len(),
            slots.as_mut_ptr(),
            slots.len(),
            capacity,
            repeat,
        )
    }
}
