//! What is timed: the calls of both sides, and their inputs.

use cartsundial::{Fields, Packet};
use inputs::board::{high, memory, Board};
use inputs::foreign::{completion, request, CPLD, MRD};
use inputs::numbers;
use inputs::random::Random;

/// The plain calls, each in a function of its own, as the proved ones are behind the C ABI.
pub mod plain_calls {
    #[inline(never)]
    pub fn read(header: &[u8]) -> Result<plain::Packet, u8> {
        plain::read(header)
    }

    #[inline(never)]
    pub fn read_numbers(header: &[u8], numbers: &mut [u64; 20]) -> u8 {
        match plain::read(header) {
            Ok(packet) => {
                *numbers = plain::to_numbers(&packet);
                0
            }
            Err(number) => number,
        }
    }

    #[inline(never)]
    pub fn write(packet: &plain::Packet, room: &mut [u8]) -> Result<usize, u8> {
        plain::write(packet, room)
    }

    #[inline(never)]
    pub fn write_numbers(numbers: &[u64; 20], room: &mut [u8]) -> Result<usize, u8> {
        plain::write_numbers(numbers, room)
    }

    #[inline(never)]
    pub fn plan(board: &[u8], sheet: &mut [u8]) -> Result<usize, u8> {
        plain::plan(board, sheet)
    }

    #[inline(never)]
    pub fn check(sheet: &[u8]) -> u8 {
        plain::check(sheet)
    }

    #[inline(never)]
    pub fn audit(host: &[u8], sheet: &[u8]) -> u8 {
        plain::audit(host, sheet)
    }

    #[inline(never)]
    pub fn sound(host: &[u8], sheet: &[u8]) -> u8 {
        plain::sound(host, sheet)
    }

    #[inline(never)]
    pub fn audit_where(host: &[u8], sheet: &[u8]) -> plain::Finding {
        plain::audit_where(host, sheet)
    }

    #[inline(never)]
    pub fn plan_where(board: &[u8]) -> plain::Fit {
        plain::plan_where(board)
    }

    #[inline(never)]
    pub fn script(board: &[u8], room: &mut [u8]) -> Result<usize, u8> {
        plain::script(board, 0, 0, room)
    }

    #[inline(never)]
    pub fn route(header: &[u8], sheet: &[u8]) -> Result<plain::Arrival, u8> {
        plain::route(header, sheet)
    }

    #[inline(never)]
    pub fn route_from(record: u16, header: &[u8], sheet: &[u8]) -> Result<plain::Arrival, u8> {
        plain::route_from(record.into(), header, sheet)
    }

    #[inline(never)]
    pub fn sent(host_id: u16, header: &[u8], sheet: &[u8]) -> Result<plain::Sent, u8> {
        plain::sent(host_id.into(), header, sheet)
    }
}

/// The proved calls with Rust types, likewise.
pub mod proved_calls {
    use cartsundial::{calls, Arrival, Fields, Id, Packet, Refusal, Sent};

    #[inline(never)]
    pub fn read(header: &[u8]) -> Result<Packet, Refusal> {
        cartsundial::read(header)
    }

    #[inline(never)]
    pub fn read_fields(header: &[u8]) -> Result<Fields, Refusal> {
        cartsundial::read(header).map(|packet| packet.fields())
    }

    #[inline(never)]
    pub fn read_numbers(header: &[u8], numbers: &mut [u64; 20]) -> u32 {
        calls::read(header, numbers)
    }

    #[inline(never)]
    pub fn write(packet: &Packet, room: &mut [u8]) -> Result<usize, Refusal> {
        cartsundial::write(packet, room)
    }

    #[inline(never)]
    pub fn write_fields(fields: &Fields, room: &mut [u8]) -> Result<usize, Refusal> {
        fields.write(room)
    }

    #[inline(never)]
    pub fn write_numbers(numbers: &[u64; 20], room: &mut [u8]) -> u32 {
        calls::write(numbers, room, &mut [0])
    }

    #[inline(never)]
    pub fn plan(board: &[u8], sheet: &mut [u8]) -> Result<usize, Refusal> {
        cartsundial::plan(board, sheet)
    }

    #[inline(never)]
    pub fn check(sheet: &[u8]) -> Result<(), Refusal> {
        cartsundial::check(sheet)
    }

    #[inline(never)]
    pub fn audit(host: &[u8], sheet: &[u8]) -> u32 {
        calls::audit(host, sheet)
    }

    #[inline(never)]
    pub fn sound(host: &[u8], sheet: &[u8]) -> u32 {
        calls::sound(host, sheet)
    }

    #[inline(never)]
    pub fn audit_where(host: &[u8], sheet: &[u8]) -> (u32, [u64; calls::WHO]) {
        let mut who = [0; calls::WHO];
        (calls::audit_where(host, sheet, &mut who), who)
    }

    #[inline(never)]
    pub fn plan_where(board: &[u8]) -> (u32, [u64; calls::PLAN_WHO]) {
        let mut who = [0; calls::PLAN_WHO];
        (calls::plan_where(board, &mut who), who)
    }

    #[inline(never)]
    pub fn script(board: &[u8], room: &mut [u8]) -> Result<usize, Refusal> {
        cartsundial::write_script(board, Id(0), 0, room)
    }

    #[inline(never)]
    pub fn route(header: &[u8], sheet: &[u8]) -> Result<Arrival, Refusal> {
        cartsundial::route(header, sheet)
    }

    #[inline(never)]
    pub fn route_from(record: u16, header: &[u8], sheet: &[u8]) -> Result<Arrival, Refusal> {
        cartsundial::route_from(record, header, sheet)
    }

    #[inline(never)]
    pub fn sent(host_id: u16, header: &[u8], sheet: &[u8]) -> Result<Sent, Refusal> {
        cartsundial::sent(Id(host_id), header, sheet)
    }
}

/// Lawful headers of three shapes.
pub fn headers() -> [(&'static str, Vec<u8>); 3] {
    [
        ("memory read, 12 bytes", request(MRD, 0xF900_0FFC)),
        ("memory read, 16 bytes", request(MRD, 0x2_4000_0000)),
        ("completion, 12 bytes", completion(CPLD, 0x0100)),
    ]
}

/// 65,536 lawful headers, in turn.
pub const MIXED: &str = "every kind in turn";

/// Lawful packets of every kind at random, each in the forms that a call starts from.
pub struct Mixed {
    pub headers: Vec<[u8; 16]>,
    pub numbers: Vec<[u64; 20]>,
    pub plain: Vec<plain::Packet>,
    pub packets: Vec<Packet>,
    pub fields: Vec<Fields>,
}

/// Both sides read each header as the same numbers.
pub fn mixed() -> Mixed {
    let mut random = Random::new(1);
    let numbers: Vec<[u64; 20]> = (0..65_536).map(|_| numbers::lawful(&mut random)).collect();
    let headers: Vec<[u8; 16]> = numbers.iter().map(header).collect();
    for (header, numbers) in headers.iter().zip(&numbers) {
        let mut answers = ([0; 20], [0; 20]);
        assert_eq!(plain_calls::read_numbers(header, &mut answers.0), 0);
        assert_eq!(proved_calls::read_numbers(header, &mut answers.1), 0);
        assert_eq!((&answers.0, &answers.1), (numbers, numbers));
    }
    let plain = headers.iter().map(|header| plain::read(header).expect("the header is lawful")).collect();
    let packets: Vec<Packet> =
        headers.iter().map(|header| cartsundial::read(header).expect("the header is lawful")).collect();
    let fields = packets.iter().map(Packet::fields).collect();
    Mixed { headers, numbers, plain, packets, fields }
}

/// The packet's header, with zeros after it where it has 12 bytes.
fn header(numbers: &[u64; 20]) -> [u8; 16] {
    let mut header = [0; 16];
    let bytes = numbers::header(numbers);
    header[..bytes.len()].copy_from_slice(&bytes);
    header
}

/// Functions of a board, and the bridges above its endpoints.
const SIZES: &[(usize, usize)] = &[(16, 8), (64, 16), (256, 16), (512, 16), (512, 32)];

/// The sheet of a board.
pub fn planned(board: &[u8]) -> Vec<u8> {
    let mut sheet = vec![0; plain::FULL_SHEET];
    let length = plain::plan(board, &mut sheet).expect("the board is lawful and there is room");
    sheet.truncate(length);
    sheet
}

/// A board of chains of bridges with endpoints behind the last, its sheet, and a request for the last endpoint.
pub struct Backplane {
    pub name: String,
    pub host: Vec<u8>,
    pub board: Vec<u8>,
    pub sheet: Vec<u8>,
    pub header: Vec<u8>,
    depth: usize,
}

impl Backplane {
    pub fn all() -> Vec<Backplane> {
        SIZES.iter().map(|&(functions, depth)| Backplane::new(functions, depth)).collect()
    }

    /// Chains of up to four times as many functions as bridges: the bridges, then endpoints with a low and a high BAR.
    fn new(functions: usize, depth: usize) -> Backplane {
        let mut board = Board::new();
        let chain = functions.min(4 * depth);
        let card = [memory(14), high(20)[0], high(20)[1]];
        for number in 0..functions / chain {
            let last = board.chain(0, (number << 3) as u8, depth);
            for end in 0..chain - depth {
                // Several functions to a device.
                board.add(last, end as u8, 0x80, &card);
            }
        }
        let (host, board) = (board.host(), board.bytes());
        let sheet = planned(&board);
        let header = request(MRD, last_bar(&sheet));
        Backplane { name: format!("{functions}, depth {depth}"), host, board, sheet, header, depth }.tried(functions)
    }

    /// Both sides plan this board to this sheet, accept it, and deliver the request to the last record.
    fn tried(self, functions: usize) -> Backplane {
        let audited = (plain::audit(&self.host, &self.sheet), proved_calls::audit(&self.host, &self.sheet));
        assert_eq!(audited, (0, 0));
        let mut sheet = vec![0; plain::FULL_SHEET];
        assert_eq!(cartsundial::plan(&self.board, &mut sheet), Ok(self.sheet.len()));
        assert_eq!(sheet[..self.sheet.len()], self.sheet);
        let arrival = cartsundial::route(&self.header, &self.sheet).expect("the request is delivered");
        let delivery = arrival.delivery().expect("the request has an owner");
        assert_eq!((usize::from(delivery.record), usize::from(delivery.bridges)), (functions, self.depth));
        let arrival = plain::route(&self.header, &self.sheet).expect("the request has an owner");
        assert_eq!(arrival.numbers()[..2], [delivery.record.into(), delivery.bridges.into()]);
        self
    }
}

/// BAR 0 of the last record.
fn last_bar(sheet: &[u8]) -> u64 {
    let at = sheet.len() - 92 + 4 + 0x10;
    let bar = u32::from_le_bytes([sheet[at], sheet[at + 1], sheet[at + 2], sheet[at + 3]]);
    u64::from(bar & !15)
}
