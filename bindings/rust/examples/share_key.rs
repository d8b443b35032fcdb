//! Two phones share a key: each writes a stream of keys and masks into a segment of its own and is inserted; then each
//! works the key out from what it wrote and what it may read. bindings/c/share_key.c does the same and prints the same.

use dringoleth::{insert, read, write, Answer, Session};

const SEGMENTS: usize = 3;
const UNIT: usize = 12288;
const SEGMENT: usize = 16384;
const SLOTS: usize = 85;
const SLOT: usize = 48;

/// Phone 0 uses segment 0 and is inserted first, phone 1 uses segment 1.
const IDS: [&[u8; 16]; 2] = [b"the first phone.", b"the second phone"];

/// Three access-controlled segments of model 4, at stage 0.
fn tag() -> Vec<u8> {
    let mut tag = vec![0; 4096 * (4 + SEGMENTS)];
    tag[1] = SEGMENTS as u8; // A, the number of access-controlled segments
    for k in 0..SEGMENTS {
        tag[UNIT + 32 * k] = 0x21; // WR and M
        tag[UNIT + 32 * k + 1] = 0x04; // model 4
    }
    tag
}

/// A slot is an id, a key and a mask of 16 bytes. The ids stay zeros; a real phone draws keys and masks at random.
fn stream(phone: usize) -> Vec<u8> {
    let byte = |i| if i % SLOT < 16 { 0 } else { ((3 + 8 * phone) * i) as u8 };
    (0..SLOTS * SLOT).map(byte).collect()
}

fn print_answer(what: &str, phone: usize, answer: Answer) {
    match answer {
        Ok(()) => println!("phone {phone}, {what}: granted"),
        Err(refusal) => println!("phone {phone}, {what}: refused {}", refusal.number()),
    }
}

fn join(tag: &mut [u8], session: &mut Session, phone: usize) {
    let written = write(tag, session, SEGMENT + 4096 * phone, &stream(phone));
    print_answer("stream", phone, written);
    print_answer("insertion", phone, insert(tag, session, phone, IDS[phone]));
}

/// The host of row j has slot j of every segment, so that the other phone's number is its slot's.
fn print_shared_key(tag: &[u8], session: &Session, phone: usize) -> Answer {
    let offset = SLOT * (1 - phone);
    let mut slot = [0; SLOT];
    read(tag, session, SEGMENT + 4096 * phone + offset, SLOT, &mut slot)?;
    let id = String::from_utf8_lossy(&slot[..16]);
    print!("phone {phone} finds '{id}' and the key");
    for (read, written) in slot[16..32].iter().zip(&stream(phone)[offset + 16..]) {
        print!(" {:02X}", read ^ written);
    }
    println!();
    Ok(())
}

fn main() -> Answer {
    let (mut tag, mut session) = (tag(), Session::power_up());
    join(&mut tag, &mut session, 0);
    join(&mut tag, &mut session, 1);
    print_shared_key(&tag, &session, 0)?;
    print_shared_key(&tag, &session, 1)?;
    print_answer("own slot", 0, read(&tag, &session, SEGMENT, 1, &mut [0]));
    print_answer("second insertion", 0, insert(&mut tag, &session, 2, IDS[0]));
    Ok(())
}
