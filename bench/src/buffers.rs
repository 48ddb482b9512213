//! Buffers that are lent to a stage, filled with what no stage would write, so that a stray write shows.

use crate::shared::{BLANK, Cents, Record, Slot, TablesMut};

pub const MOST_PARCELS: usize = 1_024;
pub const MOST_ENTRIES: usize = 16_384;

#[derive(Clone, PartialEq, Eq, Debug)]
pub struct TableBuffers {
    pub starts: Vec<u32>,
    pub others: Vec<u32>,
    pub keys: Vec<Cents>,
    pub stores: Vec<u32>,
    pub editions: Vec<u16>,
}

impl TableBuffers {
    pub fn new(parcels: usize, entries: usize) -> Self {
        TableBuffers {
            starts: vec![7_777; parcels + 1],
            others: vec![7_777; entries],
            keys: vec![Cents(7_777); entries],
            stores: vec![7_777; parcels],
            editions: vec![7_777; parcels],
        }
    }

    pub fn lend(&mut self) -> TablesMut<'_> {
        TablesMut {
            starts: &mut self.starts,
            others: &mut self.others,
            keys: &mut self.keys,
            stores: &mut self.stores,
            editions: &mut self.editions,
        }
    }
}

#[derive(Clone)]
pub struct RoundBuffers {
    pub records: Vec<Record>,
    pub worklist: Vec<u32>,
    pub marks: Vec<u8>,
    pub slots: Vec<Slot>,
}

impl RoundBuffers {
    pub fn new(parcels: usize, entries: usize) -> Self {
        RoundBuffers {
            records: vec![
                Record {
                    state: 9,
                    choice: 7_777
                };
                parcels
            ],
            worklist: vec![7_777; parcels],
            marks: vec![77; entries],
            slots: vec![BLANK; entries],
        }
    }
}
