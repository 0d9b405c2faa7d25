//! Headers read and written: one over and over, and of every kind in turn, so that neither side can foresee the next one's.

use crate::measure::{compare, Times};
use crate::subjects::{self, plain_calls, proved_calls, Mixed};
use crate::table;
use std::hint::black_box;

pub fn print() {
    let headers = subjects::headers();
    let mixed = subjects::mixed();
    let columns: Vec<String> =
        headers.iter().map(|(name, _)| *name).chain([subjects::MIXED]).map(String::from).collect();
    table::head("call", &columns);
    let row = |call: &str, time: fn(&[u8]) -> Times, of_mixed: Times| {
        let cells: Vec<String> =
            headers.iter().map(|(_, header)| time(header)).chain([of_mixed]).map(|times| table::cell(&times)).collect();
        table::row(call, &cells);
    };
    row("read", read, read_mixed(&mixed));
    row("read, and take all fields", read_fields, read_fields_mixed(&mixed));
    row("read, as numbers", read_numbers, read_numbers_mixed(&mixed));
    row("write", write, write_mixed(&mixed));
    row("write, from fields", write_fields, write_fields_mixed(&mixed));
    row("write, as numbers", write_numbers, write_numbers_mixed(&mixed));
}

fn read(header: &[u8]) -> Times {
    compare(
        || black_box(&plain_calls::read(black_box(header))).is_ok(),
        || black_box(&proved_calls::read(black_box(header))).is_ok(),
    )
}

fn read_mixed(mixed: &Mixed) -> Times {
    let mut turns = (mixed.headers.iter().cycle(), mixed.headers.iter().cycle());
    compare(
        || turns.0.next().map(|header| black_box(&plain_calls::read(black_box(header))).is_ok()),
        || turns.1.next().map(|header| black_box(&proved_calls::read(black_box(header))).is_ok()),
    )
}

fn read_fields(header: &[u8]) -> Times {
    compare(
        || black_box(&plain_calls::read(black_box(header))).is_ok(),
        || black_box(&proved_calls::read_fields(black_box(header))).is_ok(),
    )
}

fn read_fields_mixed(mixed: &Mixed) -> Times {
    let mut turns = (mixed.headers.iter().cycle(), mixed.headers.iter().cycle());
    compare(
        || turns.0.next().map(|header| black_box(&plain_calls::read(black_box(header))).is_ok()),
        || turns.1.next().map(|header| black_box(&proved_calls::read_fields(black_box(header))).is_ok()),
    )
}

fn read_numbers(header: &[u8]) -> Times {
    let mut answers = ([0; 20], [0; 20]);
    let times = compare(
        || plain_calls::read_numbers(black_box(header), black_box(&mut answers.0)),
        || proved_calls::read_numbers(black_box(header), black_box(&mut answers.1)),
    );
    assert_eq!(answers.0, answers.1);
    times
}

fn read_numbers_mixed(mixed: &Mixed) -> Times {
    let mut turns = (mixed.headers.iter().cycle(), mixed.headers.iter().cycle());
    let mut answers = ([0; 20], [0; 20]);
    compare(
        || turns.0.next().map(|header| plain_calls::read_numbers(black_box(header), black_box(&mut answers.0))),
        || turns.1.next().map(|header| proved_calls::read_numbers(black_box(header), black_box(&mut answers.1))),
    )
}

/// The packet of a lawful header, on both sides.
fn packets(header: &[u8]) -> (plain::Packet, cartsundial::Packet) {
    let (Ok(plain), Ok(proved)) = (plain::read(header), cartsundial::read(header)) else {
        panic!("the header is lawful")
    };
    (plain, proved)
}

fn write(header: &[u8]) -> Times {
    let (plain, proved) = packets(header);
    let mut rooms = ([0; 16], [0; 16]);
    let times = compare(
        || plain_calls::write(black_box(&plain), black_box(&mut rooms.0)).is_ok(),
        || proved_calls::write(black_box(&proved), black_box(&mut rooms.1)).is_ok(),
    );
    assert_eq!(rooms.0, rooms.1);
    times
}

fn write_mixed(mixed: &Mixed) -> Times {
    let mut rooms = ([0; 16], [0; 16]);
    let (mut plains, mut packets) = (mixed.plain.iter().cycle(), mixed.packets.iter().cycle());
    compare(
        || plains.next().map(|packet| plain_calls::write(black_box(packet), black_box(&mut rooms.0)).is_ok()),
        || packets.next().map(|packet| proved_calls::write(black_box(packet), black_box(&mut rooms.1)).is_ok()),
    )
}

fn write_fields(header: &[u8]) -> Times {
    let (plain, proved) = packets(header);
    let fields = proved.fields();
    let mut rooms = ([0; 16], [0; 16]);
    let times = compare(
        || plain_calls::write(black_box(&plain), black_box(&mut rooms.0)).is_ok(),
        || proved_calls::write_fields(black_box(&fields), black_box(&mut rooms.1)).is_ok(),
    );
    assert_eq!(rooms.0, rooms.1);
    times
}

fn write_fields_mixed(mixed: &Mixed) -> Times {
    let mut rooms = ([0; 16], [0; 16]);
    let (mut plains, mut fields) = (mixed.plain.iter().cycle(), mixed.fields.iter().cycle());
    compare(
        || plains.next().map(|packet| plain_calls::write(black_box(packet), black_box(&mut rooms.0)).is_ok()),
        || fields.next().map(|fields| proved_calls::write_fields(black_box(fields), black_box(&mut rooms.1)).is_ok()),
    )
}

fn write_numbers(header: &[u8]) -> Times {
    let numbers = packets(header).1.to_numbers();
    let mut rooms = ([0; 16], [0; 16]);
    let times = compare(
        || plain_calls::write_numbers(black_box(&numbers), black_box(&mut rooms.0)).is_ok(),
        || proved_calls::write_numbers(black_box(&numbers), black_box(&mut rooms.1)),
    );
    assert_eq!(rooms.0, rooms.1);
    times
}

fn write_numbers_mixed(mixed: &Mixed) -> Times {
    let mut rooms = ([0; 16], [0; 16]);
    let mut turns = (mixed.numbers.iter().cycle(), mixed.numbers.iter().cycle());
    let (plain, proved) = (&mut turns.0, &mut turns.1);
    compare(
        || plain.next().map(|numbers| plain_calls::write_numbers(black_box(numbers), black_box(&mut rooms.0)).is_ok()),
        || proved.next().map(|numbers| proved_calls::write_numbers(black_box(numbers), black_box(&mut rooms.1))),
    )
}
