//! The parts of a board's tree: what is below a function, the board without some parts, and the board with two of them exchanged.

use cartsundial::{Board, BoardFunction, Pool};
use std::collections::BTreeSet;

/// A record of the board, from 1.
pub type Record = u16;

pub fn records(board: &Board) -> impl Iterator<Item = Record> {
    1..=board.functions().len() as u16
}

/// The bridges above a record, the nearest first; no more than there are records, whatever the parents are.
pub fn above(board: &Board, record: Record) -> Vec<Record> {
    let parent = |record: Record| board.function(record).map_or(0, |one| one.parent);
    let chain = std::iter::successors(Some(parent(record)), |&above| Some(parent(above)));
    chain.take_while(|&above| above != 0).take(board.functions().len()).collect()
}

/// What goes where this one goes: all that is below it, and with function 0 its device's other functions too, since no device is
/// without one.
pub fn unit(board: &Board, record: Record) -> BTreeSet<Record> {
    let Some(one) = board.function(record) else { return BTreeSet::new() };
    let place = |one: &BoardFunction| (one.parent, one.device);
    let is_beside = |other: Record| {
        other == record || one.function == 0 && board.function(other).is_some_and(|other| place(other) == place(one))
    };
    let tops: BTreeSet<Record> = records(board).filter(|&other| is_beside(other)).collect();
    records(board).filter(|&one| tops.contains(&one) || above(board, one).iter().any(|up| tops.contains(up))).collect()
}

/// The board without these records; parents are counted anew.
pub fn without(board: &Board, records: &BTreeSet<Record>) -> Board {
    let kept: Vec<Record> = self::records(board).filter(|record| !records.contains(record)).collect();
    in_order(board, &kept)
}

/// These records, in this order.
fn in_order(board: &Board, order: &[Record]) -> Board {
    let mut new = vec![0; board.functions().len() + 1];
    (1..).zip(order).for_each(|(at, &old)| new[usize::from(old)] = at);
    let function = |&old: &Record| {
        let one = board.function(old).expect("a record of the board").clone();
        BoardFunction { parent: new.get(usize::from(one.parent)).copied().unwrap_or(0), ..one }
    };
    board.with_functions(order.iter().map(function).collect())
}

/// The board with two devices, each named by its function 0, in each other's place, and where each record was before. `None`
/// where one is below the other.
pub fn exchanged(board: &Board, one: Record, other: Record) -> Option<(Board, Vec<Record>)> {
    let (first, second) = (unit(board, one), unit(board, other));
    let [a, b] = [one, other].map(|record| board.function(record).map(|one| (one.parent, one.device)));
    let (a, b) = (a?, b?);
    if !first.is_disjoint(&second) {
        return None;
    }
    let mut order = Vec::new();
    for record in records(board) {
        if record == *first.first()? {
            order.extend(&second);
        } else if record == *second.first()? {
            order.extend(&first);
        } else if !first.contains(&record) && !second.contains(&record) {
            order.push(record);
        }
    }
    let mut functions = board.functions().to_vec();
    for (unit, from, to) in [(&first, a, b), (&second, b, a)] {
        for &record in unit {
            let function = &mut functions[usize::from(record) - 1];
            if (function.parent, function.device) == from {
                (function.parent, function.device) = to;
            }
        }
    }
    Some((in_order(&board.with_functions(functions), &order), order))
}

/// A function's BARs of a pool, each with its slot and its size.
pub fn bars(one: &BoardFunction, pool: Pool) -> Vec<(usize, u64)> {
    let mut slot = 0;
    let mut all = Vec::new();
    for bar in one.bars() {
        if bar.kind.pool() == Some(pool) {
            all.push((slot, bar.size));
        }
        slot += bar.kind.slots();
    }
    all
}

#[cfg(test)]
mod tests {
    use super::*;

    fn board() -> Board {
        let text = "host low F8000000+64M\nbridge 00.0 \"a\"\n  card 00.0 \"b\" mem32 1M\n  card 00.1 \"c\"\n\
                    bridge 01.0 \"d\"\n  bridge 00.0 \"e\"\n    card 00.0 \"f\" mem32 4M\ncard 02.0 \"g\"\n";
        text.parse().unwrap()
    }

    fn names(board: &Board) -> String {
        board.to_string().lines().skip(1).map(|line| line.split('"').nth(1).unwrap().to_string()).collect()
    }

    #[test]
    fn units() {
        let board = board();
        let all = |record| unit(&board, record).into_iter().collect::<Vec<_>>();
        assert_eq!([all(1), all(2), all(3), all(4)], [vec![1, 2, 3], vec![2, 3], vec![3], vec![4, 5, 6]]);
        assert_eq!((above(&board, 6), above(&board, 7), all(99)), (vec![5, 4], vec![], vec![]));
    }

    #[test]
    fn a_part_left_out() {
        let rest = without(&board(), &unit(&board(), 1));
        assert_eq!(names(&rest), "defg");
        assert_eq!(rest.function(3).map(|one| one.parent), Some(2));
        assert!(rest.plan().is_ok());
    }

    /// Every exchange of two devices is a lawful board, and the same exchange gives the board back.
    #[test]
    fn two_exchanged() {
        let board = board();
        assert_eq!(names(&exchanged(&board, 2, 6).unwrap().0), "afdebcg");
        assert_eq!(exchanged(&board, 4, 6).map(|(board, _)| names(&board)), None);
        for one in [1, 2, 4, 6, 7] {
            for other in [1, 2, 4, 6, 7] {
                let Some((new, order)) = exchanged(&board, one, other) else { continue };
                assert!(new.plan().is_ok(), "{new}");
                let now = |old| order.iter().position(|&record| record == old).unwrap() as u16 + 1;
                assert_eq!(exchanged(&new, now(one), now(other)).unwrap().0.to_string(), board.to_string());
            }
        }
    }
}
