//! A tag image with a session, and the host's side of the cipher.

use reference::xxtea::encipher_block;
use reference::{Refusal, Session};

pub const COUNTER: usize = 4;
pub const FLAG: usize = 12;
pub const READ: usize = 3984;
pub const WRITE: usize = 4000;
pub const EDIT: usize = 4016;
pub const NAME: usize = 4032;
pub const ID: usize = 4048;
pub const COMMIT: usize = 4064;
pub const PA: usize = 4080;
pub const READER_IDS: usize = 8192;
pub const UNIT: usize = 12288;
pub const SEGMENT: usize = 16384;

pub const RD: u8 = 0x80;
pub const RDPIN: u8 = 0x40;
pub const WR: u8 = 0x20;
pub const WRPIN: u8 = 0x10;
pub const PN: u8 = 0x08;
pub const NE: u8 = 0x04;
pub const M: u8 = 0x01;

pub type Block = [u8; 16];

/// The PIN that tests with a PIN use: bytes 00 to 0F.
pub const PIN: Block = [0, 1, 2, 3, 4, 5, 6, 7, 8, 9, 10, 11, 12, 13, 14, 15];

#[derive(Clone)]
pub struct Host {
    pub tag: Vec<u8>,
    pub session: Session,
}

impl Host {
    /// A sound tag of zeros, just powered up.
    pub fn new(access: u16, public: u16) -> Host {
        let mut tag = vec![0; 4096 * (4 + usize::from(access) + usize::from(public))];
        tag[..2].copy_from_slice(&access.to_be_bytes());
        tag[2..4].copy_from_slice(&public.to_be_bytes());
        Host {
            tag,
            session: Session::default(),
        }
    }

    /// A tag of one segment whose unit starts with these two bytes.
    pub fn unit(control: u8, model: u8) -> Host {
        Host::new(1, 0).with(UNIT, &[control, model])
    }

    /// The same with other bytes at an address.
    pub fn with(mut self, address: usize, bytes: &[u8]) -> Host {
        self.tag[address..address + bytes.len()].copy_from_slice(bytes);
        self
    }

    /// The same with PIN 0 to 255 set.
    pub fn with_pin(self, index: usize, pin: Block) -> Host {
        self.with(4096 + 16 * index, &pin)
    }

    pub fn read(&self, address: usize, count: usize) -> Result<Vec<u8>, u8> {
        let mut output = vec![0xEE; count.min(4200) + 3];
        let answer = reference::read(&self.tag, &self.session, address, count, &mut output);
        let filled = if answer.is_ok() { count } else { 0 };
        assert!(
            output[filled..].iter().all(|&byte| byte == 0xEE),
            "more was filled than granted"
        );
        output.truncate(filled);
        answer.map(|()| output).map_err(Refusal::number)
    }

    pub fn write(&mut self, address: usize, data: &[u8]) -> Result<(), u8> {
        let before = self.clone();
        let answer = reference::write(&mut self.tag, &mut self.session, address, data).map_err(Refusal::number);
        self.check_refused(before, answer)
    }

    pub fn advance(&mut self, segment: usize) -> Result<(), u8> {
        let before = self.clone();
        let answer = reference::advance(&mut self.tag, &self.session, segment).map_err(Refusal::number);
        self.check_refused(before, answer)
    }

    pub fn insert(&mut self, segment: usize, id: &Block) -> Result<(), u8> {
        let before = self.clone();
        let answer = reference::insert(&mut self.tag, &self.session, segment, id).map_err(Refusal::number);
        self.check_refused(before, answer)
    }

    /// A refused command has changed nothing, except that 11 sets the flag.
    fn check_refused(&self, mut before: Host, answer: Result<(), u8>) -> Result<(), u8> {
        if let Err(number) = answer {
            if number == 11 {
                before.tag[FLAG] = 1;
            }
            assert!(
                self.tag == before.tag && self.session == before.session,
                "changed by refusal {number}"
            );
        }
        answer
    }

    pub fn power_up(&mut self) {
        self.session = Session::default();
    }

    pub fn counter(&self) -> u64 {
        self.number(COUNTER)
    }

    /// The whole number in the eight bytes at an address, or 0 if the tag does not have them.
    pub fn number(&self, address: usize) -> u64 {
        let bytes = self.tag.get(address..address + 8);
        bytes.map_or(0, |bytes| u64::from_be_bytes(bytes.try_into().unwrap()))
    }

    /// Writes the next counter, which clears the flag.
    pub fn count(&mut self) -> Result<(), u8> {
        let next = self.counter() + 1;
        self.write(COUNTER, &next.to_be_bytes())
    }

    /// The response of a PIN to the counter as it stands.
    pub fn response(&self, pin: &Block) -> Block {
        encipher_block(&u128::from(self.counter()).to_be_bytes(), pin)
    }

    /// Names a PIN in PA, counts, and writes its response to a register.
    pub fn present(&mut self, register: usize, index: u16, pin: &Block) -> Result<(), u8> {
        self.write(PA, &pa(index, 0))?;
        self.count()?;
        self.write(register, &self.response(pin))
    }
}

/// What PA holds for a PIN index and an owner index, with a guard of zeros.
pub fn pa(index: u16, owner: u16) -> Block {
    (u128::from(index) << 112 | u128::from(owner) << 96).to_be_bytes()
}

pub fn xor(left: Block, right: Block) -> Block {
    (u128::from_be_bytes(left) ^ u128::from_be_bytes(right)).to_be_bytes()
}

/// Bytes from hexadecimal digits, with spaces as one likes.
pub fn hex(text: &str) -> Vec<u8> {
    let digits: Vec<u32> = text.chars().filter_map(|digit| digit.to_digit(16)).collect();
    digits
        .chunks_exact(2)
        .map(|pair| (pair[0] * 16 + pair[1]) as u8)
        .collect()
}
