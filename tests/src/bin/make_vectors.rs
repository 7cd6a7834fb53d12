//! Writes `vectors/` anew, and removes logs and texts there that no vector names.

use anduri_tests::vectors::{readme, vectors};
use std::{fs, io, path::Path};

fn main() -> io::Result<()> {
    let folder = Path::new(env!("CARGO_MANIFEST_DIR")).join("vectors");
    fs::create_dir_all(&folder)?;
    for entry in fs::read_dir(&folder)? {
        let path = entry?.path();
        if path.extension().is_some_and(|end| end == "log" || end == "out") {
            fs::remove_file(path)?;
        }
    }
    let all = vectors();
    for vector in &all {
        fs::write(folder.join(format!("{}.log", vector.name)), &vector.log)?;
        fs::write(folder.join(format!("{}.out", vector.name)), &vector.text)?;
    }
    fs::write(folder.join("README.md"), readme(&all))?;
    println!("{} vectors", all.len());
    Ok(())
}
