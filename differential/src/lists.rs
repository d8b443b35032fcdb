//! Lists of hosts for an image: sound ones of every length, ones with one flaw, and full ones that name anything.

use crate::cipher::Block;
use crate::hosts::{put_row, Row, ROWS};
use crate::images::Image;
use crate::map::{Place, READERS, SEGMENT, UNIT, UNITS};
use crate::random::Random;
use crate::units::{self, Kind};

/// An id that is not zeros; now and then in one byte alone.
pub fn some_id(random: &mut Random) -> Block {
    let mut id = [0; 16];
    match random.below(4) {
        0 => id[random.pick(&[0, 7, 15])] = random.not_zero(),
        _ => random.fill(&mut id),
    }
    id
}

fn field(segment: usize) -> u16 {
    segment as u16 + 1
}

fn set_kind(random: &mut Random, image: &mut Image, k: usize, kind: Kind) {
    let unit = units::of_kind(random, kind);
    image.bytes[UNITS + UNIT * k..][..UNIT].copy_from_slice(&unit);
    image.ill_formed[k] = None;
}

/// The list of an image, and with it the units that it names.
pub fn fill(random: &mut Random, image: &mut Image) {
    // Few of the large ones are without hosts.
    let least = if image.map.segments >= ROWS { 8 } else { 0 };
    match least + random.below(20 - least) {
        // Whatever bytes there are.
        0..3 => {}
        3..8 => {
            let rows = some_rows(random, image);
            write(random, image, &rows);
        }
        8..10 => fill_full(random, image),
        10..16 => {
            let rows = sound(random, image);
            write(random, image, &rows);
        }
        _ => {
            let mut rows = sound(random, image);
            spoil(random, image, &mut rows);
            write(random, image, &rows);
        }
    }
}

/// How many hosts an image gets. Mostly a segment remains for another; a large image mostly has all rows or nearly all.
fn some_length(random: &mut Random, segments: usize) -> usize {
    let any = random.below(segments.min(ROWS) + 1);
    let many = 40 + random.below(44);
    match segments {
        86.. => random.pick(&[84, 84, 84, 85, 85, 85, many, many, any]),
        _ if random.percent(70) => any.min(segments - 1),
        _ => any,
    }
}

/// A few rows that name segments of any kind, which stay as they are.
fn some_rows(random: &mut Random, image: &Image) -> Vec<Row> {
    let count = random.below(5);
    (0..count).map(|_| any_row(random, image, &[])).collect()
}

/// Rows with different ids for segments that become stage 1, in any order; of the others many become stage 0.
fn sound(random: &mut Random, image: &mut Image) -> Vec<Row> {
    let mut segments = Vec::from_iter(0..image.map.segments);
    random.shuffle(&mut segments);
    let (named, others) = segments.split_at(some_length(random, segments.len()));
    let mut rows: Vec<Row> = Vec::new();
    for &k in named {
        set_kind(random, image, k, Kind::Shared);
        let id = new_id(random, &rows);
        rows.push(Row { id, field: field(k) });
    }
    for &k in others {
        match random.below(10) {
            0..6 => set_kind(random, image, k, Kind::Stream),
            6 => set_kind(random, image, k, Kind::Shared),
            _ => {}
        }
    }
    rows
}

/// One that differs from those in the rows, often in one bit alone.
fn new_id(random: &mut Random, rows: &[Row]) -> Block {
    loop {
        let mut id = some_id(random);
        if !rows.is_empty() && random.percent(20) {
            id = random.pick(rows).id;
            random.spoil(&mut id);
        }
        if id != [0; 16] && rows.iter().all(|row| row.id != id) {
            return id;
        }
    }
}

/// Makes one thing wrong with a list, or with a segment that it names.
fn spoil(random: &mut Random, image: &mut Image, rows: &mut Vec<Row>) {
    if rows.is_empty() {
        return;
    }
    let a = random.below(rows.len());
    let b = (a + 1 + random.below(rows.len().max(2) - 1)) % rows.len();
    let k = usize::from(rows[a].field) - 1;
    match random.below(8) {
        0 if a != b => rows[a].id = rows[b].id,
        0 | 1 if rows.len() < ROWS => {
            let id = new_id(random, rows);
            rows.insert(b, Row { id, ..rows[a] });
        }
        2 => rows[a].field = 0,
        3 => {
            rows[a].field = too_high(random, image);
            fill_spare(random, image);
        }
        4 => {
            let way = random.below(units::WAYS.len());
            let unit = units::ill_formed_of(random, Kind::Shared, way);
            image.bytes[UNITS + UNIT * k..][..UNIT].copy_from_slice(&unit);
            image.ill_formed[k] = Some(way);
        }
        // A listed segment that can be tried.
        5 => set_kind(random, image, k, Kind::Stream),
        _ => {
            let kind = units::KINDS[random.below(8)].0;
            set_kind(random, image, k, kind);
        }
    }
}

/// Lets the first spare bytes look like the unit of a host.
fn fill_spare(random: &mut Random, image: &mut Image) {
    let spare = image.map.bounds(Place::Spare);
    if !spare.is_empty() {
        let unit = units::of_kind(random, Kind::Shared);
        image.bytes[spare][..UNIT].copy_from_slice(&unit);
    }
}

fn too_high(random: &mut Random, image: &Image) -> u16 {
    let first = field(image.map.segments);
    random
        .pick(&[first, first, first + image.map.publics as u16, 0x0101, 0x8001, 0xFFFF])
        .max(first)
}

/// Puts the rows in place, with their end. What stands behind it is none of the list: any bytes, zeros, or rows.
fn write(random: &mut Random, image: &mut Image, rows: &[Row]) {
    if random.percent(50) {
        image.bytes[READERS..READERS + SEGMENT].fill(0);
    }
    for (i, row) in rows.iter().enumerate() {
        put_row(&mut image.bytes, i, *row);
    }
    let end = rows.len();
    let behind = random.below(ROWS);
    let behind = random.pick(&[0, 0, 1, 3, behind]);
    for i in end..(end + 1 + behind).min(ROWS + 2) {
        let row = any_row(random, image, rows);
        put_row(&mut image.bytes, i, row);
    }
    if end < ROWS {
        let field = random.pick(&[0, 0, 1, 0xFFFF]);
        put_row(&mut image.bytes, end, Row { id: [0; 16], field });
    }
}

/// A row that names a segment of any kind, now and then with an id of these rows.
fn any_row(random: &mut Random, image: &Image, rows: &[Row]) -> Row {
    let id = match random.below(3) {
        0 if !rows.is_empty() => random.pick(rows).id,
        _ => some_id(random),
    };
    let field = field(random.below(image.map.segments));
    Row { id, field }
}

/// 85 rows and more that name any segments, some of them at stage 1: many slots to read in a small image.
fn fill_full(random: &mut Random, image: &mut Image) {
    for k in 0..image.map.segments {
        if random.percent(60) {
            set_kind(random, image, k, Kind::Shared);
        }
    }
    // Some segments that no row of the list names, but perhaps the 86th does.
    let named = 1 + random.below(image.map.segments);
    for i in 0..ROWS + 2 {
        let far = too_high(random, image);
        let from = if i < ROWS { named } else { image.map.segments };
        let near = field(random.below(from));
        let field = random.pick(&[near, near, far, far, far, 0]);
        let id = some_id(random);
        put_row(&mut image.bytes, i, Row { id, field });
    }
}

#[cfg(test)]
mod tests {
    use super::*;
    use crate::hosts::{causes, list, Cause};
    use crate::images::some_image;
    use crate::map;

    #[test]
    fn a_sound_list_takes_a_new_host_until_it_is_full() {
        let mut random = Random::new(1);
        for _ in 0..200 {
            let mut image = some_image(&mut random, false);
            let rows = sound(&mut random, &mut image);
            write(&mut random, &mut image, &rows);
            assert_eq!(list(&image.bytes), rows);
            let id = new_id(&mut random, &rows);
            let due = if rows.len() == ROWS {
                vec![Cause::FullList]
            } else {
                vec![]
            };
            let is_stream = |k: &usize| units::kind(map::unit(&image.bytes, *k)) == Kind::Stream;
            for k in (0..image.map.segments).filter(is_stream).take(3) {
                assert_eq!(causes(&image.bytes, image.map, k, &id), due);
            }
        }
    }
}
