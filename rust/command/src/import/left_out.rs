//! `--leave-out ID`: functions that the user leaves out, and with a bridge everything below it. It is told wherever the rest is.

use super::found::{read_address, Found};
use super::roots::{above, root_of};
use crate::failure::Failure;
use cartsundial::Id;

pub struct LeftOut {
    pub found: Found,
    pub root: (u32, u8),
}

impl LeftOut {
    /// `0000:00:16.0 "Communication controller: .."`.
    pub fn title(&self) -> String {
        format!("{} \"{}\"", self.found.title(), self.found.name)
    }
}

/// The functions that stay, and those that are left out.
pub fn split(functions: Vec<Found>, asked: &[&str]) -> Result<(Vec<Found>, Vec<LeftOut>), Failure> {
    let key = |found: &Found| (found.domain, found.id);
    let mut keys: Vec<(u32, Id)> = Vec::new();
    for text in asked.iter().flat_map(|text| text.split(',')) {
        let wrong = || Failure::Usage(format!("--leave-out {text}: an ID is 00:16.0 or 0000:00:16.0, as lspci has it"));
        let one = read_address(text.trim()).ok_or_else(wrong)?;
        if !functions.iter().any(|found| key(found) == one) {
            return Err(Failure::Usage(format!("--leave-out {text}: there is no such function")));
        }
        keys.push(one);
    }
    let is_out = |found: &Found| {
        keys.contains(&key(found)) || above(found, &functions).any(|bridge| keys.contains(&key(bridge)))
    };
    let (out, stay): (Vec<Found>, Vec<Found>) = functions.iter().cloned().partition(is_out);
    let left_out = out.into_iter().map(|found| LeftOut { root: root_of(&found, &functions), found }).collect();
    Ok((stay, left_out))
}
