//! What both sides of the comparison are given and answer. The layout is C's, so that slices cross as they are.

/// The number and the place of a refusal.
pub type Fault = (u32, u32);

#[repr(C)]
#[derive(Clone, Copy, Debug, PartialEq, Eq, PartialOrd, Ord)]
pub struct Cents(pub u32);

#[repr(C)]
#[derive(Clone, Copy, Debug, PartialEq, Eq)]
pub struct Record {
    pub state: u8,
    pub choice: u32,
}

#[repr(C)]
#[derive(Clone, Copy, Debug, PartialEq, Eq)]
pub struct Note {
    pub sender: u32,
    pub addressee: u32,
    pub store: u32,
    pub kind: u8,
}

#[repr(C)]
#[derive(Clone, Copy, Debug, PartialEq, Eq)]
pub struct Slot {
    pub note: Note,
    pub link: u32,
}

/// What a stage answers: the number and the place of its refusal, or 0 and 0.
#[repr(C)]
#[derive(Clone, Copy, Debug, PartialEq, Eq)]
pub struct Verdict {
    pub number: u32,
    pub place: u32,
}

/// What reading answers: its refusal, or 0 and 0 and the sizes.
#[repr(C)]
#[derive(Clone, Copy, Debug, PartialEq, Eq)]
pub struct Reading {
    pub number: u32,
    pub place: u32,
    pub parcels: u32,
    pub entries: u32,
    pub stores: u32,
}

/// What a round answers: its refusal, or 0 and 0 and its counts.
#[repr(C)]
#[derive(Clone, Copy, Debug, PartialEq, Eq)]
pub struct Outcome {
    pub number: u32,
    pub place: u32,
    pub pairs: u32,
    pub lone: u32,
    pub sent: u32,
    pub turns: u32,
}

/// The tables of a sheet, lent for reading.
#[derive(Clone, Copy)]
pub struct Tables<'a> {
    pub starts: &'a [u32],
    pub others: &'a [u32],
    pub keys: &'a [Cents],
    pub stores: &'a [u32],
    pub editions: &'a [u16],
    pub store_count: u32,
}

/// The tables of a sheet, lent for writing.
pub struct TablesMut<'a> {
    pub starts: &'a mut [u32],
    pub others: &'a mut [u32],
    pub keys: &'a mut [Cents],
    pub stores: &'a mut [u32],
    pub editions: &'a mut [u16],
}

/// Whether a round hands out a store's oldest note or its newest.
#[derive(Clone, Copy, Debug, PartialEq, Eq)]
pub enum LineKind {
    Queue,
    Pigeonholes,
}

pub const BLANK: Slot = Slot {
    note: Note {
        sender: 0,
        addressee: 0,
        store: 64,
        kind: 0,
    },
    link: u32::MAX,
};
