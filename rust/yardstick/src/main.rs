//! What the program `label` does, on standard input and output, for a sheet that the audit accepts.

use std::io;

fn main() -> io::Result<()> {
    yardstick::label(&mut io::stdin().lock(), &mut io::stdout().lock())
}
