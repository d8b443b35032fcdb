//! Counts visits on a tag: the write that adds one is granted, its copy is told as counted already, and a write that
//! leaves one out is refused. bindings/c/count_visits.c does the same and prints the same.

use dringoleth::{read, run, write, Answer, Refusal, Session, Stop};

const UNIT: usize = 12288;
const SLOT: usize = 16384;

/// A tag with one access-controlled segment: a counter that anyone may read and add to, and whose unit is locked.
fn counter_tag() -> Vec<u8> {
    let mut tag = vec![0; 20480];
    tag[1] = 1; // A, the number of access-controlled segments
    tag[UNIT] = 0xA5; // RD, WR, nE and M
    tag[UNIT + 1] = 0x02; // model 2
    tag
}

fn print_visits(tag: &[u8], session: &Session) -> Answer {
    let mut value = [0; 8];
    read(tag, session, SLOT, 8, &mut value)?;
    println!("visits: {}", u64::from_be_bytes(value));
    Ok(())
}

fn add_visit(tag: &mut [u8], session: &mut Session, visits: u64) {
    match write(tag, session, SLOT, &visits.to_be_bytes()) {
        Ok(()) => println!("visit {visits}: granted"),
        Err(Refusal::Repeated) => println!("visit {visits}: already counted"),
        Err(refusal) => println!("visit {visits}: refused {}", refusal.number()),
    }
}

fn main() -> Answer {
    let mut tag = counter_tag();
    let mut session = Session::power_up();
    print_visits(&tag, &session)?;
    for visits in [1, 1, 3] {
        add_visit(&mut tag, &mut session, visits);
    }
    print_visits(&tag, &session)?;

    // Visit 2, a copy of it, and a read, as a log.
    let visit = [0x22, 0, 0, 0x40, 0, 0, 0, 0, 0, 0, 0, 0, 2];
    let log = [&visit[..], &visit[..], &[0x12, 0, 0, 0x40, 0]].concat();
    let mut output = [0; 64];
    let ran = run(&mut tag, &mut session, &log, &mut output);
    print!("log of {} bytes, {} read, replies", log.len(), ran.read);
    for byte in &output[..ran.written] {
        print!(" {byte:02X}");
    }
    println!("{}", if ran.stop == Stop::End { "" } else { ", stopped" });
    print_visits(&tag, &session)
}
