//! /sys/bus/pci/devices, or a copy of it: of each function its `config` and its `resource`. Neither asks for root.

use super::found::{read_address, Found, Region, Window, REGIONS, ROW};
use crate::failure::Failure;
use cartsundial::REGISTERS;
use std::fs;
use std::path::Path;

pub fn read(folder: &Path) -> Result<Vec<Found>, Failure> {
    let called = folder.display().to_string();
    let mut functions = Vec::new();
    for entry in fs::read_dir(folder).map_err(Failure::stream(&called))? {
        let path = entry.map_err(Failure::stream(&called))?.path();
        let name = path.file_name().unwrap_or_default().to_string_lossy().into_owned();
        if let Some((domain, id)) = read_address(&name) {
            let mut found = Found::new(domain, id, "");
            read_config(&path, &mut found)?;
            read_resource(&path, &mut found)?;
            functions.push(found);
        }
    }
    functions.sort_by_key(|found| (found.domain, found.id));
    Ok(functions)
}

fn read_config(path: &Path, found: &mut Found) -> Result<(), Failure> {
    let file = path.join("config");
    let called = file.display().to_string();
    let bytes = fs::read(&file).map_err(Failure::stream(&called))?;
    if bytes.len() < REGISTERS {
        found.lacks(format!("`config` has {} of its {REGISTERS} bytes", bytes.len()));
    }
    let length = bytes.len().min(REGISTERS) / ROW * ROW;
    found.registers[..length].copy_from_slice(&bytes[..length]);
    found.rows[..length / ROW].fill(true);
    let word = |at: usize| u16::from_le_bytes([found.registers[at], found.registers[at + 1]]);
    found.name = format!("{:04x}: {:04x}:{:04x}", word(0x0A), word(0), word(2));
    Ok(())
}

/// A line for each region: first address, last address, flags.
fn read_resource(path: &Path, found: &mut Found) -> Result<(), Failure> {
    let file = path.join("resource");
    let text = fs::read_to_string(&file).map_err(Failure::stream(&file.display().to_string()))?;
    let lines: Vec<Option<[u64; 3]>> = text.lines().map(read_numbers).collect();
    if lines.len() < REGIONS || lines.contains(&None) {
        found.lacks(format!("`resource` has not three numbers on each of its lines, at least {REGIONS}"));
    }
    let lines: Vec<[u64; 3]> = lines.into_iter().flatten().collect();
    for (region, line) in found.regions.iter_mut().zip(&lines) {
        *region = match *line {
            [0, 0, _] => None,
            [first, last, _] if first <= last => Some(Region {
                size: (last - first).saturating_add(1),
                address: Some(first).filter(|first| *first != 0),
                kind: None,
            }),
            _ => None,
        };
    }
    // After the expansion ROM's line come those of virtual functions, where the kernel has them, and a bridge's windows.
    let windows = match lines.len() {
        11 => &lines[7..10],
        17 => &lines[13..16],
        _ => &[],
    };
    for (window, line) in found.windows.iter_mut().zip(windows) {
        *window = if matches!(line, [0, 0, _]) { Window::None } else { Window::Some };
    }
    Ok(())
}

fn read_numbers(line: &str) -> Option<[u64; 3]> {
    let number = |word: &str| u64::from_str_radix(word.strip_prefix("0x")?, 16).ok();
    line.split_whitespace().map(number).collect::<Option<Vec<u64>>>()?.try_into().ok()
}
