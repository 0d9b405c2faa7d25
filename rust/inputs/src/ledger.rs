//! Histories of a ledger of open requests: headers under keys that meet often, completions mostly of what was asked for.

use crate::header;
use crate::numbers::{self, Numbers, KIND, LENGTH, REQUESTER, STATUS, TAG};
use crate::random::Random;

/// Kinds of packets, by number.
const MRDLK: u64 = 1;
const MWR: u64 = 2;
const IOWR: u64 = 4;
const CFGWR0: u64 = 6;
const CFGWR1: u64 = 8;
const CPL: u64 = 9;

/// A call and its header.
pub enum Step {
    Open(Vec<u8>),
    Complete(Vec<u8>),
}

pub struct History {
    keys: Vec<(u64, u64)>,
    /// What was asked for, with the dwords that were not delivered yet; not all of it need be open.
    asked: Vec<Numbers>,
    /// Of 16 calls so many open a request.
    opens: u64,
}

impl History {
    pub fn new(random: &mut Random) -> History {
        let keys = match random.below(4) {
            0 => one_bit_apart(random),
            1 => (0..1 + random.below(8)).map(|_| any_key(random)).collect(),
            2 => (0..300).map(|_| any_key(random)).collect(),
            _ => {
                let requester = random.below(1 << 16);
                (0..1 << 10).map(|tag| (requester, tag)).collect()
            }
        };
        History { keys, asked: Vec::new(), opens: 8 }
    }

    /// The keys, as requester and tag.
    pub fn keys(&self) -> &[(u64, u64)] {
        &self.keys
    }

    pub fn next(&mut self, random: &mut Random) -> Step {
        if random.chance(1, 100) {
            // Up to a full ledger, down to an empty one, or about as it is.
            self.opens = [2, 8, 15][random.below(3) as usize];
        }
        let opens = random.chance(self.opens, 16);
        let bytes = match random.below(32) {
            0 => header::any(random),
            // The other call's header.
            1 => numbers::header(&if opens { self.completion(random) } else { self.request(random) }),
            _ => numbers::header(&if opens { self.request(random) } else { self.completion(random) }),
        };
        if opens {
            Step::Open(bytes)
        } else {
            Step::Complete(bytes)
        }
    }

    fn key(&self, random: &mut Random) -> (u64, u64) {
        self.keys[random.below(self.keys.len() as u64) as usize]
    }

    fn request(&mut self, random: &mut Random) -> Numbers {
        let mut request = match random.below(4) {
            0 => numbers::io(random),
            1 => numbers::configuration(random),
            _ => numbers::memory(random),
        };
        (request[REQUESTER], request[TAG]) = self.key(random);
        if request[KIND] == MWR {
            request[TAG] &= 0xFF;
        } else {
            self.asked.push(request);
        }
        request
    }

    fn completion(&mut self, random: &mut Random) -> Numbers {
        let mut completion = numbers::completion(random);
        (completion[REQUESTER], completion[TAG]) = self.key(random);
        if self.asked.is_empty() || random.chance(1, 16) {
            return completion;
        }
        let at = random.below(self.asked.len() as u64) as usize;
        let asked = &mut self.asked[at];
        (completion[REQUESTER], completion[TAG]) = (asked[REQUESTER], asked[TAG]);
        if random.chance(1, 16) {
            return completion;
        }
        // The form that its success has, and some of the dwords, all of them, or more.
        let is_write = [IOWR, CFGWR0, CFGWR1].contains(&asked[KIND]);
        completion[KIND] = CPL + u64::from(!is_write) + 2 * u64::from(asked[KIND] == MRDLK);
        completion[STATUS] = if random.chance(7, 8) { 0 } else { [1, 2, 4][random.below(3) as usize] };
        let left = asked[LENGTH];
        completion[LENGTH] = match random.below(8) {
            _ if is_write => 0,
            0 => (left + 1).min(1024),
            1..=3 if left > 1 => 1 + random.below(left - 1),
            _ => left.max(1),
        };
        match left.checked_sub(completion[LENGTH]) {
            Some(more) if more > 0 && !is_write && completion[STATUS] == 0 => asked[LENGTH] = more,
            _ => drop(self.asked.swap_remove(at)),
        }
        completion
    }
}

fn any_key(random: &mut Random) -> (u64, u64) {
    (random.below(1 << 16), random.below(1 << 10))
}

/// A key, and each that differs from it in one bit.
fn one_bit_apart(random: &mut Random) -> Vec<(u64, u64)> {
    let (requester, tag) = any_key(random);
    let requesters = (0..16).map(|bit| (requester ^ 1 << bit, tag));
    let tags = (0..10).map(|bit| (requester, tag ^ 1 << bit));
    requesters.chain(tags).chain([(requester, tag)]).collect()
}
