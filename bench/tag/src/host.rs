//! A host that writes a log. It knows the PINs, and what its own writes bring the slots and the roll-back counter to.

use crate::commands::COUNTS;
use crate::image::{pin, COUNTER, COUNTERS, PA, PINS, PLAINS, PUBLICS, READ, READERS, SEGMENT, SEGMENTS, UNIT, UNITS};
use crate::random::Random;
use reference::xxtea::encipher_block;

const SLOTS: usize = COUNTERS * SEGMENT / 8;

pub struct Host {
    random: Random,
    slots: Vec<u64>,
    counter: u64,
    pub log: Vec<u8>,
}

impl Host {
    pub fn new(seed: u64) -> Self {
        Host {
            random: Random::new(seed),
            slots: vec![0; SLOTS],
            counter: 0,
            log: Vec::new(),
        }
    }

    fn power_up(&mut self) {
        self.log.push(0x00);
    }

    fn read(&mut self, address: usize, count: usize) {
        self.kind_and_address(0x11, count, address);
    }

    fn write(&mut self, address: usize, data: &[u8]) {
        self.kind_and_address(0x21, data.len(), address);
        self.log.extend(data);
    }

    /// `first` is the kind of the lowest count.
    fn kind_and_address(&mut self, first: u8, count: usize, address: usize) {
        let place = COUNTS.iter().position(|&c| c == count);
        self.log.push(first + place.expect("a count that a log can say") as u8);
        self.log.extend((address as u32).to_be_bytes());
    }

    fn advance(&mut self, segment: usize) {
        self.log.extend([0x31, 0, segment as u8]);
    }

    fn write_slot(&mut self, slot: usize) {
        let value = self.slots[slot].to_be_bytes();
        self.write(SEGMENTS + 8 * slot, &value);
    }

    /// Adds one to some slot.
    pub fn count(&mut self) {
        let slot = self.random.below(SLOTS);
        self.slots[slot] += 1;
        self.write_slot(slot);
    }

    /// Writes what some slot holds already, which is refused.
    fn count_again(&mut self) {
        let slot = self.random.below(SLOTS);
        self.write_slot(slot);
    }

    /// PA, the next value of the roll-back counter, and READ with the response of the PIN that PA names.
    pub fn validate(&mut self, index: usize) {
        let mut pa = [0; 16];
        pa[1] = index as u8;
        self.write(PA, &pa);
        self.counter += 1;
        self.write(COUNTER, &self.counter.to_be_bytes());
        let block = u128::from(self.counter).to_be_bytes();
        self.write(READ, &encipher_block(&block, &pin(index)));
    }

    /// Of twenty, eight are reads, four add to a slot, two repeat a slot's value and three write elsewhere. The others
    /// are a validation, which is three commands, a power-up, and a command that is refused.
    pub fn mixed(&mut self) {
        match self.random.below(20) {
            0..8 => self.some_read(),
            8..12 => self.count(),
            12..14 => self.count_again(),
            14..17 => self.some_write(),
            17 => {
                let index = self.random.below(256);
                self.validate(index);
            }
            18 => self.power_up(),
            _ => self.refused(),
        }
    }

    /// Granted, except in the segment that asks for index 0 after another was validated.
    fn some_read(&mut self) {
        let count = COUNTS[self.random.below(COUNTS.len())];
        let address = match self.random.below(8) {
            // The header has 16 bytes.
            0 => return self.read(0, count.min(16)),
            1 => UNITS + UNIT * self.random.below(COUNTERS),
            2 => READERS,
            3 => SEGMENTS + 32 * self.random.below(COUNTERS * SEGMENT / 32),
            _ => self.beside_the_counters(32),
        };
        self.read(address, count);
    }

    fn some_write(&mut self) {
        let count = COUNTS[self.random.below(COUNTS.len())];
        let address = self.beside_the_counters(count);
        let data = self.random.bytes(count);
        self.write(address, &data);
    }

    /// The address of `count` bytes in a segment of the default model or a public one.
    fn beside_the_counters(&mut self, count: usize) -> usize {
        let segment = COUNTERS + self.random.below(PLAINS + PUBLICS);
        SEGMENTS + SEGMENT * segment + self.random.below(SEGMENT + 1 - count)
    }

    /// By the place, the border, the model, nE, the slot's shape, and the response or the flag.
    fn refused(&mut self) {
        match self.random.below(8) {
            0 => self.read(64, 8),
            1 => self.read(PINS, 16),
            2 => self.write(0, &[0; 16]),
            3 => self.read(SEGMENTS - 1, 32),
            4 => {
                let segment = self.random.below(COUNTERS);
                self.advance(segment);
            }
            5 => self.write(UNITS + 1, &[2]),
            6 => self.write(SEGMENTS + 4, &[0; 8]),
            _ => self.write(READ, &[7; 16]),
        }
    }
}
