//! A sheet with the names of its functions, and its host record where that is known.

use cartsundial::{Board, Body, Function, HostRecord, Packet, PlacedBar, Refusal, Routing, Sheet};

/// A sheet's record, with its length.
pub const RECORD: usize = 92;

pub struct NamedSheet {
    pub sheet: Sheet<Vec<u8>>,
    /// By record.
    names: Vec<Option<String>>,
    pub host: Option<HostRecord>,
}

impl NamedSheet {
    /// Of bytes, with names that stand at the starts of records.
    pub fn new(bytes: Vec<u8>, names: &[(usize, String)]) -> Result<NamedSheet, Refusal> {
        let sheet = Sheet::new(bytes)?;
        let name_at = |start: usize| names.iter().find(|(at, _)| *at == start).map(|(_, name)| name.clone());
        let names = sheet.functions().map(|one| name_at(1 + RECORD * (usize::from(one.record) - 1))).collect();
        Ok(NamedSheet { sheet, names, host: None })
    }

    /// The plan of a board.
    pub fn planned(board: &Board) -> Result<NamedSheet, Refusal> {
        let sheet = Sheet::new(board.plan()?)?;
        let names = board.functions().iter().map(|one| one.name.clone()).collect();
        Ok(NamedSheet { sheet, names, host: Some(*board.host_record()) })
    }

    /// The same sheet with these names, by record.
    pub fn with_names(self, names: Vec<Option<String>>) -> NamedSheet {
        NamedSheet { names, ..self }
    }

    pub fn name(&self, record: u16) -> Option<&str> {
        self.names.get(usize::from(record).checked_sub(1)?)?.as_deref()
    }

    /// `03:00.0 "capture"`.
    pub fn title(&self, function: &Function) -> String {
        match self.name(function.record) {
            Some(name) => format!("{} \"{name}\"", function.id),
            None => function.id.to_string(),
        }
    }

    /// The same for a record of the sheet.
    pub fn title_of(&self, record: u16) -> String {
        self.sheet.record(record).map_or_else(|| format!("record {record}"), |function| self.title(&function))
    }

    /// `BAR 0 + 10`: which BAR of a record holds the packet's address, and where in it. `None` where it goes by an ID.
    pub fn place(&self, record: u16, packet: &Packet) -> Option<String> {
        holder(self, record, packet).map(|(slot, offset)| format!("BAR {slot} + {offset:X}"))
    }
}

/// The slot of the BAR that holds the packet's address, and where in it.
pub fn holder(named: &NamedSheet, record: u16, packet: &Packet) -> Option<(u8, u64)> {
    let (is_io, address) = address_of(packet)?;
    let function = named.sheet.record(record)?;
    let holds = |placed: &PlacedBar| is_io_bar(placed) == is_io && placed.range().contains(&address);
    let placed = function.bars().find(holds)?;
    Some((placed.slot, address - placed.start))
}

pub fn is_io_bar(placed: &PlacedBar) -> bool {
    placed.bar.kind.pool() == Some(cartsundial::Pool::Io)
}

/// The address that a packet goes by, and whether it is one of I/O.
pub fn address_of(packet: &Packet) -> Option<(bool, u64)> {
    match packet.body() {
        Body::Memory { address, .. } => Some((false, address)),
        Body::Io { address, .. } => Some((true, address.into())),
        Body::Message { routing: Routing::ByAddress, tail, .. } => Some((false, tail)),
        _ => None,
    }
}
