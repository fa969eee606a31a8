//! Makes the drawings and pictures of the manual anew. That they are the ones it has is a test.

use std::path::Path;
use std::{fs, process};

use viewer::manual::{pictures, refreshed};

fn main() {
    if let Err(what) = renew() {
        eprintln!("manual: {what}");
        process::exit(1);
    }
}

fn renew() -> Result<(), String> {
    let here = Path::new(env!("CARGO_MANIFEST_DIR"));
    let (examples, docs) = (here.join("examples"), here.join("../docs"));
    let manual = fs::read_to_string(docs.join("MANUAL.md")).map_err(|error| error.to_string())?;
    let text = refreshed(&manual, &examples)?;
    fs::write(docs.join("MANUAL.md"), text).map_err(|error| error.to_string())?;
    for (name, picture) in pictures(&manual, &examples)? {
        fs::write(docs.join("pictures").join(name), picture).map_err(|error| error.to_string())?;
    }
    Ok(())
}
