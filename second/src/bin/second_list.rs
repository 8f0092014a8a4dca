//! The listing program: reads a problem file on standard input and prints its listing.

use second::file::Problem;
use second::text::listing_text;
use std::io::{self, Read, Write};

fn main() -> io::Result<()> {
    let mut file = Vec::new();
    let enough = Problem::FILE_BYTES as u64 + 1;
    io::stdin().lock().take(enough).read_to_end(&mut file)?;
    io::stdout().write_all(listing_text(&file).as_bytes())
}
