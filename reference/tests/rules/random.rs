//! A log run against the same commands one by one, over made-up tags and logs.

use crate::host::*;
use reference::{run, Session};

/// A small generator of numbers, so that a failure can be had again.
struct Numbers(u64);

impl Numbers {
    fn below(&mut self, bound: usize) -> usize {
        self.0 = self
            .0
            .wrapping_mul(6364136223846793005)
            .wrapping_add(1442695040888963407);
        (self.0 >> 33) as usize % bound
    }

    fn of<T: Copy>(&mut self, choices: &[T]) -> T {
        choices[self.below(choices.len())]
    }

    fn address(&mut self) -> usize {
        let places = [
            0, 4, READ, WRITE, EDIT, NAME, ID, COMMIT, PA, 4096, 8192, UNIT, UNIT, SEGMENT, SEGMENT,
        ];
        let step = self.of(&[0, 0, 0, 32, 4096, 8192]);
        self.of(&places) + step + self.of(&[0, 0, 0, 0, 1, 8, 16, 31])
    }

    fn host(&mut self) -> Host {
        let units = [
            [0xA5, 2],
            [0xA0, 0],
            [0x21, 1],
            [0x21, 3],
            [0x21, 0x13],
            [0x81, 0x23],
            [0xF8, 0],
            [0xA2, 0],
            [0x21, 4],
            [0x21, 4],
            [0x81, 0x14],
        ];
        let mut host = Host::new(3, 1).with(FLAG, &[self.below(2) as u8]);
        for address in [UNIT, UNIT + 32, UNIT + 64] {
            host = host.with(address, &self.of(&units));
        }
        let byte = self.of(&[0, 0, 0, 1]);
        host.with(4100, &[byte])
    }

    /// Data that is often the next slot or counter value or the one now stored, a response or a unit's bytes.
    fn data(&mut self, host: &Host, address: usize, count: usize) -> Vec<u8> {
        let value = host.number(address).wrapping_add(self.of(&[0, 1, 1]));
        match (count, self.below(4)) {
            (8, 0..3) => value.to_be_bytes().to_vec(),
            (16, 0..2) => host.response(&[0; 16]).to_vec(),
            (16, 2) => pa(self.of(&[0, 0, 1, 256]), self.of(&[0, 3, 4])).to_vec(),
            (1, 0..3) => vec![self.of(&[0xA5, 0x21, 0xA0, 0x02, 0])],
            _ => (0..count).map(|_| self.of(&[0, 0, 1])).collect(),
        }
    }
}

/// Carries out one command through the single functions and adds its bytes to the log and its reply to the replies.
fn step(host: &mut Host, numbers: &mut Numbers, log: &mut Vec<u8>, replies: &mut Vec<u8>) {
    let (size, address) = (numbers.below(4), numbers.address());
    let count = [1, 8, 16, 32][size];
    let answer = match numbers.below(17) {
        0 => {
            log.push(0);
            host.power_up();
            Ok(vec![0x50])
        }
        1 => {
            let segment = numbers.below(3);
            log.extend([0x31, 0, segment as u8]);
            host.advance(segment).map(|()| vec![0x50])
        }
        2 => {
            let (segment, id) = (numbers.below(4), [numbers.below(4) as u8; 16]);
            log.extend([0x32, 0, segment as u8]);
            log.extend(id);
            host.insert(segment, &id).map(|()| vec![0x50])
        }
        3..9 => {
            log.push(0x11 + size as u8);
            log.extend((address as u32).to_be_bytes());
            host.read(address, count)
                .map(|data| [vec![0x41 + size as u8], data].concat())
        }
        _ => {
            let data = numbers.data(host, address, count);
            log.push(0x21 + size as u8);
            log.extend((address as u32).to_be_bytes());
            log.extend(&data);
            host.write(address, &data).map(|()| vec![0x50])
        }
    };
    replies.extend(answer.unwrap_or_else(|number| vec![0x51, number]));
}

#[test]
fn a_run_is_its_commands_one_by_one() {
    let mut numbers = Numbers(1);
    for _ in 0..300 {
        let mut host = numbers.host();
        let (mut tag, mut session) = (host.tag.clone(), Session::default());
        let (mut log, mut replies) = (Vec::new(), Vec::new());
        for _ in 0..40 {
            step(&mut host, &mut numbers, &mut log, &mut replies);
        }
        let mut output = vec![0xEE; replies.len() + 40];
        let result = run(&mut tag, &mut session, &log, &mut output);
        assert_eq!((result.read, result.written), (log.len(), replies.len()));
        assert_eq!(output[..replies.len()], replies);
        assert!(output[replies.len()..].iter().all(|&byte| byte == 0xEE));
        assert!(tag == host.tag && session == host.session);
    }
}

#[test]
fn any_log_is_answered() {
    let mut numbers = Numbers(2);
    for _ in 0..3000 {
        let mut host = numbers.host();
        let log: Vec<u8> = (0..numbers.below(60))
            .map(|_| numbers.of(&[0, 0, 0x11, 0x22, 0x31, 0x32, 0x40, 4, 16]))
            .collect();
        let mut output = vec![0xEE; numbers.below(40)];
        let result = run(&mut host.tag, &mut host.session, &log, &mut output);
        assert!(result.read <= log.len() && result.written <= output.len());
        assert!(output[result.written..].iter().all(|&byte| byte == 0xEE));
    }
}
