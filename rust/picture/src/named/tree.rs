//! A plan as the tree that is drawn: buses, the functions on them, and the bus below each bridge.

use super::Drawn;

pub struct Bus<'a> {
    pub number: u8,
    pub places: Vec<Place<'a>>,
}

/// A function on its bus.
pub struct Place<'a> {
    pub drawn: &'a Drawn<'a>,
    /// A bridge's secondary bus.
    pub below: Option<Bus<'a>>,
}

impl<'a> Bus<'a> {
    /// The bus of the first function, with everything below it; `None` when there are no functions.
    pub fn root(plan: &'a [Drawn<'a>]) -> Option<Bus<'a>> {
        plan.first().map(|first| Bus::numbered(plan, first.function.id.bus()))
    }

    /// Ends because a bridge's secondary bus is above its own.
    fn numbered(plan: &'a [Drawn<'a>], number: u8) -> Bus<'a> {
        let on_bus = plan.iter().filter(|drawn| drawn.function.id.bus() == number);
        let places = on_bus.map(|drawn| Place {
            drawn,
            below: drawn.function.buses().map(|buses| Bus::numbered(plan, buses.secondary)),
        });
        Bus { number, places: places.collect() }
    }

    /// How many columns stand side by side below the bus; an empty bus takes one.
    pub fn columns(&self) -> usize {
        self.places.iter().map(Place::columns).sum::<usize>().max(1)
    }
}

impl Place<'_> {
    pub fn columns(&self) -> usize {
        self.below.as_ref().map_or(1, Bus::columns)
    }
}
