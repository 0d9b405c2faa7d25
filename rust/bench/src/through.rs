//! What the program `label` does, through the library: by the call as C has it, and by the Rust types.

use cartsundial::calls::{self, TRACE};
use cartsundial::{Annotator, HostRecord, Index, Labeller};
use std::error::Error;
use std::io::{self, Read, Write};

/// How many bytes of the trace are fed at a time.
const PIECE: usize = 1 << 14;

pub fn call() -> Result<(), Box<dyn Error>> {
    let (mut input, mut out) = (io::stdin().lock(), io::stdout().lock());
    let (host, sheet) = host_and_sheet(&mut input)?;
    let mut index = vec![0; cartsundial::FULL_INDEX];
    assert_eq!(calls::index(&host, &sheet, &mut index), 0);
    let (mut state, mut written) = ([0; TRACE], [0]);
    let (mut piece, mut lines) = (vec![0; PIECE], vec![0; Annotator::room_for(PIECE)]);
    loop {
        let length = input.read(&mut piece)?;
        if length == 0 {
            break;
        }
        assert_eq!(calls::label(&mut state, &index, &piece[..length], &mut lines, &mut written), 0);
        out.write_all(&lines[..written[0] as usize])?;
    }
    assert_eq!(calls::annotate_end(&state, &mut lines, &mut written), 0);
    out.write_all(&lines[..written[0] as usize])?;
    Ok(())
}

pub fn labeller() -> Result<(), Box<dyn Error>> {
    let mut input = io::stdin().lock();
    let (host, sheet) = host_and_sheet(&mut input)?;
    let index = Index::new(&HostRecord::from_bytes(&host), sheet)?;
    label(&index, input)
}

/// Of a sheet that no host record stands before.
pub fn alone() -> Result<(), Box<dyn Error>> {
    let mut input = io::stdin().lock();
    let sheet = sheet(&mut input)?;
    let room = vec![0; cartsundial::FULL_INDEX];
    label(&Index::alone(sheet, room)?, input)
}

fn label<S: AsRef<[u8]>, I: AsRef<[u8]>>(index: &Index<S, I>, mut input: impl Read) -> Result<(), Box<dyn Error>> {
    let mut labeller = Labeller::new(index, io::stdout().lock());
    io::copy(&mut input, &mut labeller)?;
    labeller.finish()?;
    Ok(())
}

fn host_and_sheet(input: &mut impl Read) -> io::Result<([u8; HostRecord::BYTES], Vec<u8>)> {
    let mut host = [0; HostRecord::BYTES];
    input.read_exact(&mut host)?;
    Ok((host, sheet(input)?))
}

/// After its length.
fn sheet(input: &mut impl Read) -> io::Result<Vec<u8>> {
    let mut length = [0; 2];
    input.read_exact(&mut length)?;
    let mut sheet = vec![0; u16::from_be_bytes(length).into()];
    input.read_exact(&mut sheet)?;
    Ok(sheet)
}
