//! Records answers of the original for the Rattle program `replay`, which runs the port against them with no Rust at hand: a file for each
//! call, one for each way of making a generator, and files of their own for what a later version may answer otherwise.

mod call;
mod digest;
mod edges;
mod file;
mod row;
mod samples;
mod start;

use std::path::Path;

fn main() -> std::io::Result<()> {
    let folder = Path::new(env!("CARGO_MANIFEST_DIR")).join("../../crates/replay/data");
    std::fs::create_dir_all(&folder)?;
    let mut bytes = 0;
    for (name, rows) in samples::calls().into_iter().chain(samples::makers()).chain(edges::files()) {
        bytes += file::write(&folder.join(&name), &rows)?;
        println!("{name}: {} rows", rows.len());
    }
    println!("{bytes} bytes in all");
    Ok(())
}
