//! The small program: a rule file from standard input, budget, wanted number
//! and room 1,000 each. It prints one line and then the answer bytes.

use std::io::{Read, Result, Write};

fn main() -> Result<()> {
    let mut file = Vec::new();
    std::io::stdin().read_to_end(&mut file)?;
    std::io::stdout().write_all(&second::call::program(&file))
}
