//! Both sides give the same answers, on sheets that are right and on damaged ones.

use crate::buffers::{MOST_ENTRIES, MOST_PARCELS, RoundBuffers, TableBuffers};
use crate::shared::{LineKind, Tables};
use crate::sheets::{Random, Shape, damage_text, sheet};
use crate::{plain, proved};

/// How often each answer was compared, and how often it was a refusal.
#[derive(Default)]
pub struct Compared {
    pub answers: usize,
    pub refusals: usize,
}

impl Compared {
    fn note(&mut self, number: u32) {
        self.answers += 1;
        self.refusals += usize::from(number != 0);
    }

    fn reading(&mut self, text: &[u8], parcels: usize, entries: usize) {
        let mut ours = TableBuffers::new(parcels, entries);
        let mut theirs = ours.clone();
        let answer = proved::read(text, ours.lend());
        assert_eq!(answer, plain::read(text, theirs.lend()));
        assert_eq!(ours, theirs);
        self.note(answer.number);
    }

    fn pairing(&mut self, tables: Tables<'_>, buffers: &RoundBuffers, repeat: u32) {
        let mut ours = buffers.clone();
        let mut theirs = buffers.clone();
        let answer = proved::pair_outright(tables, &mut ours.records, &mut ours.worklist, repeat);
        let other = plain::pair_outright(tables, &mut theirs.records, &mut theirs.worklist, repeat);
        assert_eq!(answer, other);
        assert_eq!(ours.records, theirs.records);
        self.note(answer.number);
    }

    fn round(
        &mut self,
        kind: LineKind,
        tables: Tables<'_>,
        buffers: &RoundBuffers,
        capacity: u32,
        repeat: u32,
    ) {
        let mut ours = buffers.clone();
        let mut theirs = buffers.clone();
        let answer = proved::settle(
            kind,
            tables,
            &mut ours.records,
            &mut ours.marks,
            &mut ours.slots,
            capacity,
            repeat,
        );
        let other = plain::settle(
            kind,
            tables,
            &mut theirs.records,
            &mut theirs.marks,
            &mut theirs.slots,
            capacity,
            repeat,
        );
        assert_eq!(answer, other);
        assert_eq!(ours.records, theirs.records);
        assert_eq!(ours.marks, theirs.marks);
        self.note(answer.number);
    }

    fn stages(&mut self, tables: Tables<'_>, buffers: &RoundBuffers, repeat: u32) {
        let answer = proved::check(tables);
        assert_eq!(answer, plain::check(tables));
        self.note(answer.number);
        self.pairing(tables, buffers, repeat);
        let capacity = tables.others.len() as u32;
        for kind in [LineKind::Queue, LineKind::Pigeonholes] {
            self.round(kind, tables, buffers, capacity, repeat);
        }
    }

    /// The stages on a sheet as it is, and with buffers that are too short.
    pub fn sheet(&mut self, shape: Shape, parcels: usize) {
        let made = sheet(shape, parcels);
        let (tables, entries) = (made.tables(), made.others.len());
        let text = made.text();
        self.reading(&text, parcels, entries);
        self.reading(&text, MOST_PARCELS, MOST_ENTRIES);
        self.reading(&text, parcels - 1, entries);
        self.reading(&text, parcels, entries - 1);
        for repeat in 0..3 {
            self.stages(tables, &RoundBuffers::new(parcels, entries), repeat);
        }
        self.stages(tables, &RoundBuffers::new(parcels - 1, entries), 1);
        self.stages(tables, &RoundBuffers::new(parcels, entries - 1), 1);
        self.round(
            LineKind::Queue,
            tables,
            &RoundBuffers::new(parcels, entries),
            entries as u32 - 1,
            1,
        );
    }

    /// The stages on texts and tables with one or two things wrong.
    pub fn damaged(&mut self, shape: Shape, parcels: usize, times: usize) {
        let mut random = Random::new(times as u64);
        let made = sheet(shape, parcels);
        let whole = made.text();
        for _ in 0..times {
            let mut text = whole.clone();
            let mut hurt = made.clone();
            for _ in 0..1 + random.below(2) {
                damage_text(&mut text, &mut random);
                hurt.damage(&mut random);
            }
            self.reading(&text, MOST_PARCELS, MOST_ENTRIES);
            let buffers = RoundBuffers::new(hurt.stores.len(), hurt.others.len());
            self.stages(hurt.tables(), &buffers, 1);
        }
    }
}
