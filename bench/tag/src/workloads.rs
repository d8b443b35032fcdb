//! The three workloads: a log each, and the answers that it is there to meet.

use crate::host::Host;

/// `due` has the answers that its commands get, each of them and no other: 0 for granted, else the refusal.
pub struct Workload {
    pub name: &'static str,
    pub due: &'static [u8],
    pub log: Vec<u8>,
}

fn workload(name: &'static str, due: &'static [u8], seed: u64, write: fn(&mut Host)) -> Workload {
    let mut host = Host::new(seed);
    write(&mut host);
    let log = host.log;
    Workload { name, due, log }
}

pub fn all() -> [Workload; 3] {
    [
        workload("counter writes", &[0], 1, |host| {
            (0..6000).for_each(|_| host.count());
        }),
        workload("PIN validations", &[0], 2, |host| {
            (0..1000).for_each(|i| host.validate(i % 256));
        }),
        workload("mix", &[0, 3, 4, 6, 7, 10, 11, 12, 14, 18], 3, |host| {
            (0..6000).for_each(|_| host.mixed());
        }),
    ]
}
