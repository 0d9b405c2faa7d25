//! How many headers of a trace went to whom, and how many have which number.

use crate::ends::Ends;
use crate::named::NamedSheet;
use crate::said::Said;
use crate::words::short;
use cartsundial::{Owner, Refusal};

#[derive(Default)]
pub struct Tally {
    /// By record.
    records: Vec<u64>,
    host: u64,
    every: u64,
    port: u64,
    /// By number.
    refused: Vec<u64>,
    /// With both ends these are counted, and nothing else.
    pub ends: Ends,
}

impl Tally {
    pub fn count(&mut self, said: &Said) {
        match said.to {
            Ok(Owner::Function(record)) => *at(&mut self.records, record.into()) += 1,
            Ok(Owner::Host) => self.host += 1,
            Ok(Owner::Every) => self.every += 1,
            Ok(Owner::Port) => self.port += 1,
            Err(number) => *at(&mut self.refused, number as usize) += 1,
        }
    }

    pub fn add(&mut self, other: &Tally) {
        for (sum, counts) in [(&mut self.records, &other.records), (&mut self.refused, &other.refused)] {
            counts
                .iter()
                .enumerate()
                .filter(|(_, count)| **count > 0)
                .for_each(|(index, count)| *at(sum, index) += count);
        }
        self.host += other.host;
        self.every += other.every;
        self.port += other.port;
        self.ends.add(&other.ends);
    }

    /// A line for each.
    pub fn shown(&self, named: &NamedSheet) -> String {
        if !self.ends.is_empty() {
            return self.ends.shown(named);
        }
        let owned: u64 = self.records.iter().sum::<u64>() + self.host + self.every + self.port;
        let refused: u64 = self.refused.iter().sum();
        let mut text = format!("{} headers: {owned} with an owner, {refused} refused\n", owned + refused);
        for (record, count) in (0..).zip(&self.records).filter(|(_, count)| **count > 0) {
            text += &format!("{count:>12}  record {record}, {}\n", named.title_of(record));
        }
        for (count, whom) in [(self.host, "the host"), (self.every, "every function"), (self.port, "the port")] {
            if count > 0 {
                text += &format!("{count:>12}  {whom}\n");
            }
        }
        for (number, count) in (0..).zip(&self.refused).filter(|(_, count)| **count > 0) {
            let meaning = Refusal::try_from(number).map_or_else(|_| number.to_string(), short);
            text += &format!("{count:>12}  refused {meaning}\n");
        }
        text
    }
}

/// The count with this index, which is put there where it is not.
pub fn at<T: Clone + Default>(counts: &mut Vec<T>, index: usize) -> &mut T {
    if counts.len() <= index {
        counts.resize(index + 1, T::default());
    }
    &mut counts[index]
}
