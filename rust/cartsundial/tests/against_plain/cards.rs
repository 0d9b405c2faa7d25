//! Requests routed from card to card.

use crate::lent::{hex, Lent};
use crate::sheets;
use crate::tally::{Call, Tally};
use crate::typed;
use cartsundial::calls;
use inputs::board::MOST_ABOVE;
use inputs::random::Random;
use inputs::{aim, cards, foreign, header};

pub fn compare(random: &mut Random, rounds: u64, tally: &mut Tally) {
    for _ in 0..40_000 * rounds {
        let mut sheet = sheets::any(random);
        cards::enable(&mut sheet, random);
        for _ in 0..12 {
            let _ = route(sheets::any_record(&sheet, random), &aim::header(&sheet, random), &sheet, random, tally);
        }
        let _ = route(sheets::any_record(&sheet, random), &header::any(random), &sheet, random, tally);
    }
}

/// Two cards of a planned board with 0 to 64 bridges between them, and the furthest that there can be.
pub fn chosen(random: &mut Random, tally: &mut Tally) {
    let mut room = vec![0; plain::FULL_SHEET];
    for bridges in 0..=2 * MOST_ABOVE {
        let up = bridges.min(MOST_ABOVE);
        let (board, start, owner) = cards::apart(up, bridges - up);
        let length = plain::plan(&board.bytes(), &mut room).expect("a board with room");
        let request = foreign::request(foreign::MWR, board.low.0.into());
        let arrived = route(start.into(), &request, &room[..length], random, tally);
        assert!(matches!(arrived, Ok(plain::Arrival::Function { record, bridges: crossed, .. })
            if record == owner && usize::from(crossed) == bridges));
    }
    let request = foreign::request(foreign::MWR, cards::FURTHEST);
    route(cards::FURTHEST_START.into(), &request, &cards::furthest(), random, tally).expect("a delivery");
}

/// Asks the library and plain, and returns plain's answer.
pub fn route(
    record: u32,
    header: &[u8],
    sheet: &[u8],
    random: &mut Random,
    tally: &mut Tally,
) -> Result<plain::Arrival, u8> {
    let answer = plain::route_from(record, header, sheet);
    let numbers = answer.map(|arrival| arrival.numbers());
    let mut given = Lent::answer(calls::ROUTE, random);
    let (number, given_then) = given.expected(&numbers);
    let mut lent_header = Lent::holding(header, random);
    let header_before = lent_header.clone();
    let mut lent_sheet = Lent::holding(sheet, random);
    let sheet_before = lent_sheet.clone();
    let returned = calls::route_from(record, lent_header.slice(), lent_sheet.slice(), given.slice());
    tally.count(Call::RouteFrom, returned);
    assert_eq!(returned, number, "from {record} {} over {}", hex(header), hex(sheet));
    let same = given == given_then && lent_header == header_before && lent_sheet == sheet_before;
    assert!(same, "from {record} {} over {}: what was lent", hex(header), hex(sheet));

    if let Ok(record) = u16::try_from(record) {
        let typed = cartsundial::route_from(record, header, sheet);
        assert!(
            typed::same_answer(typed, answer, sheet),
            "from {record} {} over {}: {typed:?}, {answer:?}",
            hex(header),
            hex(sheet)
        );
        // The types lend room for the whole answer.
        answer.iter().for_each(|arrival| tally.climbed(arrival));
    }
    answer
}
