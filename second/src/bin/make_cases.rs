//! Writes the made files of the folder `cases` into the folder named, or into ../cases.

use second::stored::stored;
use std::path::PathBuf;
use std::{env, fs, io};

fn main() -> io::Result<()> {
    let folder = env::args().nth(1).map_or(PathBuf::from("../cases"), PathBuf::from);
    for made in ["mutants", "refusals", "circuits/mutants", "circuits/refusals", "circuits/read"] {
        fs::create_dir_all(folder.join(made))?;
    }
    let files = stored();
    for file in &files {
        fs::write(folder.join(&file.path), &file.bytes)?;
    }
    println!("{} files written", files.len());
    Ok(())
}
