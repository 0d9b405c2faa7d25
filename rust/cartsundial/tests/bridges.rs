//! A board's bridges with their spares, against what the board was written from.

use cartsundial::{bridges, Bridge, Refusal, Spares};
use inputs::board::{self, Board};
use inputs::random::Random;
use inputs::trees;

/// What the board says of its bridges.
fn written(board: &Board) -> Vec<Bridge> {
    let all = (1..).zip(&board.functions).filter(|(_, function)| function.is_bridge());
    let spares = |one: board::Spares| Spares { buses: one.buses, memory: one.memory };
    all.map(|(record, one)| Bridge { record, spares: spares(one.spares.unwrap_or_default()) }).collect()
}

#[test]
fn lawful_boards() {
    let mut random = Random::new(41);
    let mut versions = [0; 2];
    for _ in 0..4_000 {
        let board = trees::lawful(&mut random);
        let all: Vec<Bridge> = bridges(&board.bytes()).unwrap().collect();
        assert_eq!(all, written(&board));
        versions[usize::from(board.version) - 1] += all.len();
    }
    assert!(versions.iter().all(|&count| count > 1_000), "{versions:?}");
}

/// A board that is not lawful has plain's number; in any other case the bridges are there, planned or not.
#[test]
fn any_boards() {
    let mut random = Random::new(42);
    let mut seen = [0; 40];
    for _ in 0..10_000 {
        let board = trees::any(&mut random);
        let number = plain::plan(&board, &mut vec![0; plain::FULL_SHEET]).err().unwrap_or(0);
        let refused = bridges(&board).err().map_or(0, Refusal::number);
        assert_eq!(refused, if (20..30).contains(&number) { number } else { 0 });
        seen[usize::from(refused)] += 1;
    }
    assert!([0, 20, 21, 22, 23, 24, 25, 26].iter().all(|&number| seen[number] > 0), "{seen:?}");
}

#[test]
fn bytes() {
    for spares in [Spares::default(), Spares { buses: 1, memory: 0x0203 }, Spares { buses: 255, memory: 65_535 }] {
        assert_eq!(Spares::from_bytes(&spares.bytes()), spares);
    }
    assert_eq!(Spares { buses: 1, memory: 0x0203 }.bytes(), [1, 2, 3]);
}
