//! Prints what the model says that the script program prints: a script on standard input, the lines
//! on standard output. `examples/NAME.out` is made by it.

use std::io::{self, Read, Write};

fn main() -> io::Result<()> {
    let mut bytes = Vec::new();
    io::stdin().read_to_end(&mut bytes)?;
    let printed = waylluqen_model::script(&bytes);
    io::stdout().write_all(printed.as_bytes())
}
