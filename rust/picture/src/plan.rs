//! The text of a plan, as document 01 prints it: `plan N`, then one line for each function. What is not printed in this
//! way is no plan.

use crate::registers::{Bar, Pool, Window};
use crate::spares::Spares;
use std::collections::HashSet;
use std::fmt;
use std::str::FromStr;

/// Why there is nothing to draw.
#[derive(Clone, Copy, Debug, PartialEq, Eq)]
pub enum Undrawable {
    /// The board was refused with this number.
    Refused(u8),
    /// What is wrong, and on which line, counted from 1.
    NotAPlan(usize, &'static str),
}

impl fmt::Display for Undrawable {
    fn fmt(&self, out: &mut fmt::Formatter<'_>) -> fmt::Result {
        match self {
            Undrawable::Refused(number) => write!(out, "the board was refused with {number}: there is no plan to draw"),
            Undrawable::NotAPlan(line, why) => write!(out, "not a plan: line {line}: {why}"),
        }
    }
}

/// Bus 8, device 5, function 3 bits.
#[derive(Clone, Copy, Debug, PartialEq, Eq, Hash)]
pub struct Id(pub u16);

impl Id {
    pub fn bus(self) -> u8 {
        (self.0 >> 8) as u8
    }
}

impl fmt::Display for Id {
    fn fmt(&self, out: &mut fmt::Formatter<'_>) -> fmt::Result {
        write!(out, "{:02X}:{:02X}.{}", self.bus(), self.0 >> 3 & 0x1F, self.0 & 7)
    }
}

#[derive(Clone, Debug, PartialEq, Eq)]
pub struct Function {
    pub id: Id,
    pub bars: Vec<Bar>,
    /// `None` for an end function.
    pub bridge: Option<Bridge>,
}

#[derive(Clone, Debug, PartialEq, Eq)]
pub struct Bridge {
    pub secondary: u8,
    pub subordinate: u8,
    /// The open ones: I/O, low, high.
    pub windows: Vec<Window>,
    /// The last buses of its range, first and last, and the end of its low window, where they are kept free.
    pub spare_buses: Option<(u8, u8)>,
    pub spare_memory: Option<Window>,
}

/// The functions in the plan's order. Each is on the first one's bus or on the secondary bus of a bridge before it.
#[derive(Clone, Debug, PartialEq, Eq)]
pub struct Plan {
    pub functions: Vec<Function>,
}

impl Plan {
    pub fn read(text: &str) -> Result<Plan, Undrawable> {
        let at = |line| move |why| Undrawable::NotAPlan(line, why);
        let body = text.strip_suffix('\n').ok_or_else(|| at(text.split('\n').count())("it has no end"))?;
        let mut lines = body.split('\n');
        let count = read_count(body, lines.next().unwrap_or_default())?;
        let functions: Vec<Function> =
            lines.enumerate().map(|(k, line)| Function::read(line).map_err(at(k + 2))).collect::<Result<_, _>>()?;
        if functions.len() != count {
            return Err(at(1)("it counts other functions than follow"));
        }
        check_buses(&functions).map_err(|(k, why)| at(k + 2)(why))?;
        Ok(Plan { functions })
    }

    /// Takes what each function of the plan's board keeps free.
    pub fn set_spares(&mut self, all: &[Spares]) -> Result<(), &'static str> {
        if all.len() != self.functions.len() {
            return Err("it has other functions than the plan");
        }
        for (function, spares) in self.functions.iter_mut().zip(all) {
            if let Some(bridge) = &mut function.bridge {
                bridge.set_spares(spares).ok_or("the plan has no room for its spares")?;
            }
        }
        Ok(())
    }
}

/// The number in the first line, `plan N`. A text that is the line `refused N` alone is the program's other answer.
fn read_count(body: &str, first: &str) -> Result<usize, Undrawable> {
    if let Some(number) = body.strip_prefix("refused ").and_then(decimal) {
        return Err(Undrawable::Refused(number));
    }
    first
        .strip_prefix("plan ")
        .and_then(decimal)
        .ok_or(Undrawable::NotAPlan(1, "it is neither `plan N` nor `refused N`"))
}

/// A number as the program prints it: no sign and no leading zero.
fn decimal<N: FromStr + ToString>(text: &str) -> Option<N> {
    text.parse().ok().filter(|number: &N| number.to_string() == text)
}

impl Function {
    fn read(line: &str) -> Result<Function, &'static str> {
        let mut fields = Fields(line.split(' '));
        let id = Id(fields.number(4)? as u16);
        let function = match fields.next()? {
            "bridge" => Function { id, bars: fields.bars(2)?, bridge: Some(Bridge::read(id, &mut fields)?) },
            "end" => Function { id, bars: fields.bars(6)?, bridge: None },
            _ => return Err("it is neither a bridge nor an end"),
        };
        fields.end()?;
        Ok(function)
    }
}

impl Bridge {
    /// Buses, then registers of the I/O, the low and the high window, and the high one's upper words.
    fn read(id: Id, fields: &mut Fields) -> Result<Bridge, &'static str> {
        let [primary, secondary, subordinate] =
            [fields.number(2)? as u8, fields.number(2)? as u8, fields.number(2)? as u8];
        if primary != id.bus() || primary >= secondary || secondary > subordinate {
            return Err("not own bus = primary < secondary <= subordinate");
        }
        let io = Window::io(fields.number(2)? as u8, fields.number(2)? as u8)?;
        let low = Window::low(fields.number(4)? as u16, fields.number(4)? as u16)?;
        let high =
            Window::high(fields.number(4)? as u16, fields.number(4)? as u16, fields.number(8)?, fields.number(8)?)?;
        let windows = [io, low, high].into_iter().flatten().collect();
        Ok(Bridge { secondary, subordinate, windows, spare_buses: None, spare_memory: None })
    }

    /// Spare buses are the last ones of the range, behind the secondary; spare memory is the end of the low window.
    fn set_spares(&mut self, spares: &Spares) -> Option<()> {
        if spares.buses > 0 {
            let before = self.subordinate.checked_sub(spares.buses).filter(|last| *last >= self.secondary)?;
            self.spare_buses = Some((before + 1, self.subordinate));
        }
        if spares.memory > 0 {
            let low = self.windows.iter().find(|window| window.pool == Pool::Low)?;
            let base = (low.last + 1).checked_sub(u64::from(spares.memory) << 20).filter(|base| *base >= low.base)?;
            self.spare_memory = Some(Window { base, ..*low });
        }
        Some(())
    }
}

/// What the drawing counts on: no ID twice, no secondary bus twice, each function on a bus that is there by then. The
/// error names the function, counted from 0.
fn check_buses(functions: &[Function]) -> Result<(), (usize, &'static str)> {
    let mut ids = HashSet::new();
    let mut buses = HashSet::new();
    buses.extend(functions.first().map(|first| first.id.bus()));
    for (k, function) in functions.iter().enumerate() {
        if !ids.insert(function.id) {
            return Err((k, "this ID was there before"));
        }
        if !buses.contains(&function.id.bus()) {
            return Err((k, "no bridge before it leads to its bus"));
        }
        if function.bridge.as_ref().is_some_and(|bridge| !buses.insert(bridge.secondary)) {
            return Err((k, "this secondary bus was there before"));
        }
    }
    Ok(())
}

/// The fields of a line that are still to be read.
struct Fields<'a>(std::str::Split<'a, char>);

impl<'a> Fields<'a> {
    fn next(&mut self) -> Result<&'a str, &'static str> {
        self.0.next().ok_or("it is too short")
    }

    /// A number of so many hexadecimal digits, at most 8.
    fn number(&mut self, digits: usize) -> Result<u32, &'static str> {
        let field = self.next()?;
        let is_digit = |byte: u8| byte.is_ascii_digit() || (b'A'..=b'F').contains(&byte);
        if field.len() != digits || !field.bytes().all(is_digit) {
            return Err("a field is not hexadecimal, or not of its length");
        }
        u32::from_str_radix(field, 16).map_err(|_| "a number is too large")
    }

    fn bars(&mut self, slots: usize) -> Result<Vec<Bar>, &'static str> {
        let values = (0..slots).map(|_| self.number(8)).collect::<Result<Vec<u32>, _>>()?;
        Bar::all(&values)
    }

    fn end(&mut self) -> Result<(), &'static str> {
        self.0.next().map_or(Ok(()), |_| Err("it is too long"))
    }
}

#[cfg(test)]
mod tests {
    use super::*;
    use crate::registers::Kind;

    const BRIDGE: &str = "0000 bridge 00000000 00000000 00 01 01 40 40 F900 F900 4001 43F1 00000002 00000002";
    const END: &str = "0100 end F9000000 4000000C 00000002 00004001 00000000 00000000";

    fn p10() -> String {
        format!("plan 2\n{BRIDGE}\n{END}\n")
    }

    #[test]
    fn p10_bridge() {
        let function = Function::read(BRIDGE).unwrap();
        let windows = vec![
            Window { pool: Pool::Io, base: 0x4000, last: 0x4FFF },
            Window { pool: Pool::Low, base: 0xF900_0000, last: 0xF90F_FFFF },
            Window { pool: Pool::High, base: 0x2_4000_0000, last: 0x2_43FF_FFFF },
        ];
        let bridge = Bridge { secondary: 1, subordinate: 1, windows, spare_buses: None, spare_memory: None };
        assert_eq!(function, Function { id: Id(0), bars: vec![], bridge: Some(bridge) });
    }

    #[test]
    fn p10_end() {
        let function = Function::read(END).unwrap();
        let memory = |is_wide| Kind::Memory { is_wide, is_prefetchable: is_wide };
        let bars = vec![
            Bar { slot: 0, kind: memory(false), address: 0xF900_0000 },
            Bar { slot: 1, kind: memory(true), address: 0x2_4000_0000 },
            Bar { slot: 3, kind: Kind::Io, address: 0x4000 },
        ];
        assert_eq!(function, Function { id: Id(0x100), bars, bridge: None });
        assert_eq!(function.id.to_string(), "01:00.0");
    }

    #[test]
    fn p10_whole() {
        let plan = Plan::read(&p10()).unwrap();
        assert_eq!(plan.functions, [Function::read(BRIDGE).unwrap(), Function::read(END).unwrap()]);
    }

    #[test]
    fn no_functions() {
        assert_eq!(Plan::read("plan 0\n"), Ok(Plan { functions: vec![] }));
    }

    #[test]
    fn closed_windows_are_left_out() {
        let line = "0010 bridge 00000000 00000000 00 01 01 F0 00 FFF0 0000 FFF1 0001 00000000 00000000";
        assert_eq!(Function::read(line).unwrap().bridge.unwrap().windows, []);
    }

    #[test]
    fn spares_at_the_end() {
        let line = "0000 bridge 00000000 00000000 00 01 05 F0 00 F900 F930 FFF1 0001 00000000 00000000";
        let mut plan = Plan::read(&format!("plan 1\n{line}\n")).unwrap();
        assert_eq!(plan.set_spares(&[Spares { buses: 2, memory: 3 }]), Ok(()));
        let bridge = plan.functions[0].bridge.clone().unwrap();
        assert_eq!(bridge.spare_buses, Some((4, 5)));
        let memory = Window { pool: Pool::Low, base: 0xF910_0000, last: 0xF93F_FFFF };
        assert_eq!(bridge.spare_memory, Some(memory));
        for other in [vec![], vec![Spares { buses: 5, memory: 0 }], vec![Spares { buses: 0, memory: 5 }]] {
            assert!(plan.set_spares(&other).is_err());
        }
        assert_eq!(plan.set_spares(&[Spares { buses: 4, memory: 4 }]), Ok(()));
    }

    #[test]
    fn ids_as_bus_device_function() {
        assert_eq!(Id(0x0210).to_string(), "02:02.0");
        assert_eq!(Id(0xFFFF).to_string(), "FF:1F.7");
    }

    #[test]
    fn refusals() {
        assert_eq!(Plan::read("refused 31\n"), Err(Undrawable::Refused(31)));
        let message = Undrawable::Refused(31).to_string();
        assert_eq!(message, "the board was refused with 31: there is no plan to draw");
    }

    #[test]
    fn other_first_lines() {
        let texts = [
            "",
            "\n",
            "plan",
            "plan 0",
            "plan 00\n",
            "plan +0\n",
            "plan x\n",
            "refused\n",
            "refused 031\n",
            "Plan 0\n",
        ];
        for text in texts {
            assert!(matches!(Plan::read(text), Err(Undrawable::NotAPlan(1, _))), "{text:?}");
        }
    }

    #[test]
    fn every_shorter_text() {
        let text = p10();
        for end in 0..text.len() {
            assert!(matches!(Plan::read(&text[..end]), Err(Undrawable::NotAPlan(..))), "{end}");
        }
    }

    #[test]
    fn longer_texts() {
        for more in ["\n", " ", "0108 end", "0108 end 00000000 00000000 00000000 00000000 00000000 00000000\n"] {
            assert!(matches!(Plan::read(&(p10() + more)), Err(Undrawable::NotAPlan(..))), "{more:?}");
        }
    }

    #[test]
    fn other_lines() {
        let changes = [
            ("0100 end", "0100 End"),
            ("0100 end", "0100  end"),
            ("0100 end", "100 end"),
            ("F9000000", "f9000000"),
            ("F9000000", "+9000000"),
            ("00004001", "00004003"),
            ("F900 F900", "F900 F901"),
            ("00 01 01", "01 01 01"),
            ("00 01 01", "00 00 01"),
            ("00 01 01", "00 02 01"),
            ("00 01 01", "00 02 02"),
            ("0100 end", "0000 end"),
        ];
        for (old, new) in changes {
            let text = p10().replace(old, new);
            assert!(matches!(Plan::read(&text), Err(Undrawable::NotAPlan(2 | 3, _))), "{old} to {new}");
        }
    }
}
