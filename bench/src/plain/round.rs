//! A round between stores: open, turn after turn until nothing is left to do, close.

use super::line::Line;
use super::outright::top_entry;
use super::sheet::Sheet;
use crate::shared::{Fault, Note, Record};

const IDLE: u8 = 0;
const WAITS: u8 = 1;
const PAIRED: u8 = 2;
const LONE: u8 = 3;

const BID: u8 = 1;
const DROP: u8 = 2;

const STRUCK: u8 = 1;
const BIDDEN: u8 = 2;

const LINE_UNFIT: u32 = 11;
const WRONG_LENGTH: u32 = 12;
const STARTED: u32 = 13;
const NOTHING_WAITS: u32 = 14;
const STRAY_NOTE: u32 = 15;
const ASTRAY: u32 = 16;
const NO_ROOM: u32 = 17;
const UNSETTLED: u32 = 18;

#[derive(Clone, Copy, Default)]
pub struct Totals {
    pub pairs: u32,
    pub lone: u32,
    pub sent: u32,
    pub turns: u32,
}

/// What a parcel does when it chooses.
enum Plan {
    Alone,
    Waits(usize),
    Pairs(usize, u32),
}

impl Plan {
    fn sends(&self) -> u32 {
        match *self {
            Plan::Alone => 0,
            Plan::Waits(_) => 1,
            Plan::Pairs(_, count) => count,
        }
    }
}

/// An open round with all that it changes.
struct Round<'a, L> {
    sheet: &'a Sheet<'a>,
    records: &'a mut [Record],
    marks: &'a mut [u8],
    line: &'a mut L,
    sent: u32,
    turns: u32,
}

impl<'a, L: Line> Round<'a, L> {
    fn open(
        sheet: &'a Sheet<'a>,
        records: &'a mut [Record],
        marks: &'a mut [u8],
        line: &'a mut L,
    ) -> Result<Self, Fault> {
        if line.free() != line.size() || (line.size() as usize) < sheet.entries() {
            return Err((LINE_UNFIT, 0));
        }
        if records.len() != sheet.parcels() || marks.len() != sheet.entries() {
            return Err((WRONG_LENGTH, 0));
        }
        records.fill(Record {
            state: IDLE,
            choice: 0,
        });
        marks.fill(0);
        Ok(Round {
            sheet,
            records,
            marks,
            line,
            sent: 0,
            turns: 0,
        })
    }

    fn send(&mut self, kind: u8, u: usize, p: usize) {
        let addressee = self.sheet.other(p);
        // there is room: every turn counts its notes before it sends the first
        let _ = self.line.put(Note {
            sender: u as u32,
            addressee,
            store: self.sheet.store(addressee as usize),
            kind,
        });
    }

    fn is_open(&self, p: usize) -> bool {
        self.marks[p] & STRUCK == 0
    }

    fn count_open_others(&self, u: usize, keep: usize) -> u32 {
        self.sheet
            .row(u)
            .filter(|&q| self.is_open(q) && q != keep)
            .count() as u32
    }

    fn let_go(&mut self, u: usize, keep: usize) {
        for q in self.sheet.row(u) {
            if self.is_open(q) && q != keep {
                self.send(DROP, u, q);
                self.marks[q] |= STRUCK;
            }
        }
    }

    fn plan_choice(&self, u: usize) -> Plan {
        match top_entry(self.sheet, u, |p| self.is_open(p)) {
            None => Plan::Alone,
            Some(p) if self.marks[p] & BIDDEN == 0 => Plan::Waits(p),
            Some(p) => Plan::Pairs(p, self.count_open_others(u, p) + 1),
        }
    }

    fn with_choice(&self, state: u8, u: usize, p: usize) -> Record {
        Record {
            state,
            choice: (p - self.sheet.row(u).start) as u32,
        }
    }

    fn carry_out(&mut self, u: usize, plan: Plan) -> Record {
        match plan {
            Plan::Alone => Record {
                state: LONE,
                choice: 0,
            },
            Plan::Waits(p) => {
                self.send(BID, u, p);
                self.with_choice(WAITS, u, p)
            }
            Plan::Pairs(p, _) => {
                self.send(BID, u, p);
                self.let_go(u, p);
                self.with_choice(PAIRED, u, p)
            }
        }
    }

    fn count_turn(&mut self, sent: u32) {
        self.turns = self.turns.saturating_add(1);
        self.sent = self.sent.saturating_add(sent);
    }

    fn start(&mut self, u: usize) -> Result<(), Fault> {
        match self.records[u].state {
            IDLE => {}
            WAITS..=LONE => return Err((STARTED, u as u32)),
            _ => return Err((ASTRAY, u as u32)),
        }
        let plan = self.plan_choice(u);
        let count = plan.sends();
        if count > self.line.free() {
            return Err((NO_ROOM, u as u32));
        }
        self.records[u] = self.carry_out(u, plan);
        self.count_turn(count);
        Ok(())
    }

    // The addressee's entry for the sender, if the note can come to this store.
    fn entry_for(&self, store: u32, note: Note) -> Option<usize> {
        let a = note.addressee as usize;
        if a >= self.sheet.parcels() || self.sheet.store(a) != store {
            return None;
        }
        if note.kind != BID && note.kind != DROP {
            return None;
        }
        self.sheet.find_entry(a, note.sender as usize)
    }

    fn strays(&self, u: usize) -> bool {
        let record = self.records[u];
        match record.state {
            IDLE | LONE => false,
            WAITS | PAIRED => record.choice as usize >= self.sheet.row(u).len(),
            _ => true,
        }
    }

    fn awaits(&self, a: usize, at: usize) -> bool {
        let record = self.records[a];
        record.state == WAITS && self.sheet.row(a).start + record.choice as usize == at
    }

    fn receive_bid(&mut self, note: Note, at: usize) -> Option<(Record, u32)> {
        let a = note.addressee as usize;
        if !self.awaits(a, at) {
            self.line.take(note.store);
            self.marks[at] |= BIDDEN;
            return Some((self.records[a], 0));
        }
        let count = self.count_open_others(a, at);
        if count > self.line.free() + 1 {
            return None;
        }
        self.line.take(note.store);
        self.marks[at] |= BIDDEN;
        self.let_go(a, at);
        Some((self.with_choice(PAIRED, a, at), count))
    }

    fn receive_drop(&mut self, note: Note, at: usize) -> Option<(Record, u32)> {
        let a = note.addressee as usize;
        let old = self.marks[at];
        self.marks[at] = old | STRUCK;
        if !self.awaits(a, at) {
            self.line.take(note.store);
            return Some((self.records[a], 0));
        }
        let plan = self.plan_choice(a);
        let count = plan.sends();
        if count > self.line.free() + 1 {
            self.marks[at] = old;
            return None;
        }
        self.line.take(note.store);
        Some((self.carry_out(a, plan), count))
    }

    fn fetch(&mut self, store: u32) -> Result<(), Fault> {
        let note = self.line.next(store).ok_or((NOTHING_WAITS, store))?;
        let at = self.entry_for(store, note).ok_or((STRAY_NOTE, store))?;
        let a = note.addressee as usize;
        if self.strays(a) {
            return Err((ASTRAY, note.addressee));
        }
        let received = if note.kind == BID {
            self.receive_bid(note, at)
        } else {
            self.receive_drop(note, at)
        };
        let (record, sent) = received.ok_or((NO_ROOM, note.addressee))?;
        self.records[a] = record;
        self.count_turn(sent);
        Ok(())
    }

    // Starts every idle parcel, the lowest first, and then fetches for the lowest store with a note.
    fn run(&mut self) -> Result<(), Fault> {
        for u in 0..self.records.len() {
            if self.records[u].state == IDLE {
                self.start(u)?;
            }
        }
        let stores = self.sheet.store_count();
        while let Some(s) = (0..stores).find(|&s| self.line.next(s).is_some()) {
            self.fetch(s)?;
        }
        Ok(())
    }

    fn is_recorded_pair_from_below(&self, u: usize) -> bool {
        let record = self.records[u];
        record.state == PAIRED
            && u < self
                .sheet
                .other(self.sheet.row(u).start + record.choice as usize) as usize
    }

    fn close(self) -> Result<Totals, Fault> {
        let parcels = self.sheet.parcels();
        if let Some(u) = (0..parcels).find(|&u| self.strays(u)) {
            return Err((ASTRAY, u as u32));
        }
        if let Some(u) = self.records.iter().position(|r| r.state <= WAITS) {
            return Err((UNSETTLED, u as u32));
        }
        if self.line.free() != self.line.size() {
            return Err((UNSETTLED, parcels as u32));
        }
        let pairs = (0..parcels)
            .filter(|&u| self.is_recorded_pair_from_below(u))
            .count();
        let lone = self.records.iter().filter(|r| r.state == LONE).count();
        Ok(Totals {
            pairs: pairs as u32,
            lone: lone as u32,
            sent: self.sent,
            turns: self.turns,
        })
    }
}

pub fn settle<L: Line>(
    sheet: &Sheet<'_>,
    records: &mut [Record],
    marks: &mut [u8],
    line: &mut L,
) -> Result<Totals, Fault> {
    let mut round = Round::open(sheet, records, marks, line)?;
    // a refused turn leaves the round unsettled, and closing then says where
    let _ = round.run();
    round.close()
}
