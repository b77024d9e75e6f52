//! Writes the published sheets of Order 10 into a folder: examples/speed of the repository, or the one named by the argument.

use compare::published::{folder, published};
use std::path::PathBuf;

fn main() -> std::io::Result<()> {
    let named = std::env::args().nth(1).map(PathBuf::from);
    let folder = named.unwrap_or_else(|| folder("examples/speed"));
    for sheet in published() {
        let path = folder.join(format!("{}.sheet", sheet.name));
        std::fs::write(path, sheet.text)?;
    }
    Ok(())
}
