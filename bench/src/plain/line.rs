//! Lines of notes: a chain for each store and one of the free places, in a lent buffer.

use crate::shared::{BLANK, Fault, Note, Slot};

const STORES: usize = 64;
const FREE: usize = STORES;
const END: u32 = u32::MAX;
const MAX_NOTES: u32 = 16_384;

const NO_STORE: u32 = 10;
const NO_ROOM: u32 = 17;

pub trait Line {
    fn free(&self) -> u32;
    fn size(&self) -> u32;
    fn put(&mut self, note: Note) -> Result<(), Fault>;
    fn next(&self, store: u32) -> Option<Note>;
    fn take(&mut self, store: u32) -> Option<Note>;
}

struct Pool<'a> {
    slots: &'a mut [Slot],
    heads: [u32; STORES + 1],
    tails: [u32; STORES + 1],
    room: u32,
}

impl<'a> Pool<'a> {
    fn new(buffer: &'a mut [Slot], capacity: u32) -> Self {
        let capacity = capacity.min(MAX_NOTES).min(buffer.len() as u32);
        let mut pool = Pool {
            slots: &mut buffer[..capacity as usize],
            heads: [END; STORES + 1],
            tails: [END; STORES + 1],
            room: capacity,
        };
        for place in 0..capacity {
            pool.push_front(FREE, place, BLANK.note);
        }
        pool
    }

    fn push_front(&mut self, chain: usize, place: u32, note: Note) {
        let head = self.heads[chain];
        self.slots[place as usize] = Slot { note, link: head };
        self.heads[chain] = place;
        if head == END {
            self.tails[chain] = place;
        }
    }

    fn push_back(&mut self, chain: usize, place: u32, note: Note) {
        self.slots[place as usize] = Slot { note, link: END };
        if self.heads[chain] == END {
            self.heads[chain] = place;
        } else {
            self.slots[self.tails[chain] as usize].link = place;
        }
        self.tails[chain] = place;
    }

    fn pop(&mut self, chain: usize) -> Option<(u32, Note)> {
        let place = self.heads[chain];
        let slot = *self.slots.get(place as usize)?;
        self.heads[chain] = slot.link;
        Some((place, slot.note))
    }

    // Takes a free place for a note of a store.
    fn admit(&mut self, note: Note) -> Result<u32, Fault> {
        if note.store as usize >= STORES {
            return Err((NO_STORE, note.store));
        }
        let (place, _) = self.pop(FREE).ok_or((NO_ROOM, note.sender))?;
        self.room -= 1;
        Ok(place)
    }

    fn first(&self, store: u32) -> Option<Note> {
        let head = *self.heads[..STORES].get(store as usize)?;
        self.slots.get(head as usize).map(|slot| slot.note)
    }

    fn take(&mut self, store: u32) -> Option<Note> {
        if store as usize >= STORES {
            return None;
        }
        let (place, note) = self.pop(store as usize)?;
        self.push_front(FREE, place, BLANK.note);
        self.room += 1;
        Some(note)
    }
}

/// Hands out a store's oldest note.
pub struct Queue<'a>(Pool<'a>);

/// Hands out a store's newest note.
pub struct Pigeonholes<'a>(Pool<'a>);

impl<'a> Queue<'a> {
    pub fn new(buffer: &'a mut [Slot], capacity: u32) -> Self {
        Queue(Pool::new(buffer, capacity))
    }
}

impl<'a> Pigeonholes<'a> {
    pub fn new(buffer: &'a mut [Slot], capacity: u32) -> Self {
        Pigeonholes(Pool::new(buffer, capacity))
    }
}

impl Line for Queue<'_> {
    fn free(&self) -> u32 {
        self.0.room
    }

    fn size(&self) -> u32 {
        self.0.slots.len() as u32
    }

    fn put(&mut self, note: Note) -> Result<(), Fault> {
        let place = self.0.admit(note)?;
        self.0.push_back(note.store as usize, place, note);
        Ok(())
    }

    fn next(&self, store: u32) -> Option<Note> {
        self.0.first(store)
    }

    fn take(&mut self, store: u32) -> Option<Note> {
        self.0.take(store)
    }
}

impl Line for Pigeonholes<'_> {
    fn free(&self) -> u32 {
        self.0.room
    }

    fn size(&self) -> u32 {
        self.0.slots.len() as u32
    }

    fn put(&mut self, note: Note) -> Result<(), Fault> {
        let place = self.0.admit(note)?;
        self.0.push_front(note.store as usize, place, note);
        Ok(())
    }

    fn next(&self, store: u32) -> Option<Note> {
        self.0.first(store)
    }

    fn take(&mut self, store: u32) -> Option<Note> {
        self.0.take(store)
    }
}
