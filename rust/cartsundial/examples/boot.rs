//! Boots document 01's board P10: plans it, then asks who owns two addresses.
//!
//! `cargo run --release --offline --example boot`

use cartsundial::{functions, plan, route, Arrival, Delivery, Function, Refusal, FULL_SHEET};

/// Host, a bridge, and a card behind it.
const BOARD: [u8; 81] = [
    0x01, // version
    0x00, 0x1E, 0x00, 0xFF, // host: buses 00 to FF
    0xF9, 0x00, 0x00, 0x00, 0xF9, 0xFF, 0xFF, 0xFF, // low pool
    0x00, 0x00, 0x00, 0x02, 0x40, 0x00, 0x00, 0x00, 0x00, 0x00, 0x00, 0x02, 0x7F, 0xFF, 0xFF, 0xFF, // high pool
    0x40, 0x00, 0x4F, 0xFF, // I/O pool
    0x00, 0x0E, 0x00, 0x00, 0x00, 0x01, 0x00, 0x03, // below the host, 00.0, a bridge, I/O and memory enabled
    0x00, 0x00, 0x00, 0x00, 0x00, 0x00, 0x00, 0x00, // no BAR
    0x00, 0x1E, 0x00, 0x01, 0x00, 0x00, 0x00, 0x03, // below record 1, 00.0, a card
    0xFF, 0xFF, 0xF0, 0x00, // memory, 4 KiB
    0xFC, 0x00, 0x00, 0x0C, 0xFF, 0xFF, 0xFF, 0xFF, // prefetchable 64-bit memory, 64 MiB
    0xFF, 0xFF, 0xFF, 0x01, // I/O, 256 bytes
    0x00, 0x00, 0x00, 0x00, 0x00, 0x00, 0x00, 0x00, // unused
];

/// A memory read of one dword.
fn read_of(address: u32) -> [u8; 12] {
    let [a, b, c, d] = address.to_be_bytes();
    [0x00, 0x00, 0x00, 0x01, 0x00, 0x00, 0x21, 0x0F, a, b, c, d]
}

fn main() -> Result<(), Refusal> {
    let mut room = [0; FULL_SHEET];
    let length = plan(&BOARD, &mut room)?;
    let sheet = &room[..length];
    println!("planned: a sheet of {length} bytes");
    for Function { record, id, registers, .. } in functions(sheet)? {
        print!("record {record}, {id}, registers 10h to 27h:");
        for register in registers[0x10..0x28].chunks_exact(4) {
            print!(" {:08X}", u32::from_le_bytes([register[0], register[1], register[2], register[3]]));
        }
        println!();
    }
    for address in [0xF900_0FFC, 0xF900_1000] {
        match route(&read_of(address), sheet) {
            Ok(Arrival::Function(Delivery { record, id, bridges, packet })) => {
                println!("{address:08X}: record {record}, {id}, bridges crossed {bridges}, {packet}");
            }
            // Only a message goes to every function, or ends at the port.
            Ok(arrival) => println!("{address:08X}: {arrival:?}"),
            Err(refusal) => println!("{address:08X}: {refusal}"),
        }
    }
    Ok(())
}
