//! Any bytes get an answer or a number, and a refused call changes no lent byte.

use inputs::board::{self, Style};
use inputs::damage;
use inputs::random::Random;

#[test]
fn boards_and_sheets() {
    let mut numbers = Random::new(7);
    let mut boards = [0; 43];
    let mut sheets = [0; 43];
    for _ in 0..8000 {
        let style = Style { functions: 6, bridges: 40, memory_bits: 22, io_bits: 8 };
        let mut board = board::random(&mut numbers, &style).bytes();
        let mut room = vec![0xA5; plain::FULL_SHEET];
        let length = plain::plan(&board, &mut room);
        damage::bytes(&mut board, &mut numbers);
        let mut other = vec![0xA5; 400];
        let number = plain::plan(&board, &mut other).err().unwrap_or(0);
        assert!(number == 0 || other.iter().all(|&byte| byte == 0xA5));
        boards[usize::from(number)] += 1;
        let Ok(length) = length else { continue };
        room.truncate(length);
        damage::bytes(&mut room, &mut numbers);
        let number = plain::check(&room);
        sheets[usize::from(number)] += 1;
        let before = room.clone();
        let id = numbers.below(0x200) as u16;
        let found = plain::lookup(&room, id);
        let answer = plain::set_command(&mut room, id, 0x1234);
        assert_eq!(answer, found.err().unwrap_or(0));
        assert!(number == 0 || answer == number);
        for (at, (old, new)) in before.iter().zip(&room).enumerate() {
            let rewritten = found.is_ok_and(|offset| at == offset + 4 || at == offset + 5);
            assert!(old == new || rewritten);
        }
        assert!(plain::listing(&room).starts_with(if number == 0 { "plan " } else { "refused " }));
    }
    assert!([0, 11, 20, 21, 23, 24, 25, 26].iter().all(|&number| boards[number] > 0), "{boards:?}");
    assert!([0, 20, 21, 24, 27, 28, 25, 29].iter().all(|&number| sheets[number] > 0), "{sheets:?}");
}

#[test]
fn headers() {
    let mut numbers = Random::new(8);
    let mut board = board::p10().bytes();
    let mut room = vec![0; 185];
    assert_eq!(plain::plan(&board, &mut room), Ok(185));
    for _ in 0..200_000 {
        let length = numbers.below(20) as usize;
        let mut header: Vec<u8> = (0..length).map(|_| numbers.word() as u8).collect();
        if numbers.chance(1, 2) {
            header.iter_mut().take(4).for_each(|byte| *byte &= 0x45);
        }
        let read = plain::read(&header);
        let routed = plain::route(&header, &room);
        assert!(read.is_ok() || routed.err() == read.err());
    }
    board.clear();
    assert_eq!(plain::plan(&board, &mut room), Err(20));
}
