//! Standard input to standard output; see the library's module `listing`.

use second::listing::{listing, MOST_INPUT};
use std::io::{self, Read, Write};

fn main() -> io::Result<()> {
    let mut input = Vec::new();
    // One byte more than the limit is enough to know that there is more.
    let limit = MOST_INPUT as u64 + 1;
    io::stdin().lock().take(limit).read_to_end(&mut input)?;
    io::stdout().lock().write_all(&listing(&input))
}
