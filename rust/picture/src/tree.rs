//! A plan as the tree that is drawn: buses, the functions on them, and the bus below each bridge.

use crate::plan::{Function, Plan};

pub struct Bus<'a> {
    pub number: u8,
    pub places: Vec<Place<'a>>,
}

/// A function on its bus.
pub struct Place<'a> {
    pub function: &'a Function,
    /// A bridge's secondary bus.
    pub below: Option<Bus<'a>>,
}

impl<'a> Bus<'a> {
    /// The bus of the first function, with everything below it; `None` when there are no functions.
    pub fn root(plan: &'a Plan) -> Option<Bus<'a>> {
        plan.functions.first().map(|first| Bus::numbered(plan, first.id.bus()))
    }

    /// Ends because a bridge's secondary bus is above its own.
    fn numbered(plan: &'a Plan, number: u8) -> Bus<'a> {
        let on_bus = plan.functions.iter().filter(|function| function.id.bus() == number);
        let places = on_bus.map(|function| Place {
            function,
            below: function.bridge.as_ref().map(|bridge| Bus::numbered(plan, bridge.secondary)),
        });
        Bus { number, places: places.collect() }
    }

    /// How many columns stand side by side below the bus; an empty bus takes one.
    pub fn columns(&self) -> usize {
        self.places.iter().map(Place::columns).sum::<usize>().max(1)
    }
}

impl Place<'_> {
    pub fn columns(&self) -> usize {
        self.below.as_ref().map_or(1, Bus::columns)
    }
}
