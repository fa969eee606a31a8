//! The proved sources of the queue as Rust modules: their contracts are left
//! out, and a slice of words becomes one that notes each access. So what is
//! counted is what the proved code reads and writes, whatever it becomes.

use std::path::{Path, PathBuf};
use std::{env, fs, io};

/// The crate whose calls are counted, with all that it rests on.
const TOP: &str = "level_queue";

fn main() -> io::Result<()> {
    let repository = Path::new("../..");
    let list = repository.join("crates.txt");
    println!("cargo:rerun-if-changed={}", list.display());
    let mut modules = String::new();
    for name in needed(&fs::read_to_string(list)?, TOP) {
        let source = repository.join(format!("crates/{name}/src/lib.rt"));
        // A crate of meanings has no code.
        if source.exists() {
            println!("cargo:rerun-if-changed={}", source.display());
            let module = without_contracts(&fs::read_to_string(source)?);
            modules += &format!("pub mod {name} {{\nuse super::*;\n{module}}}\n");
        }
    }
    let folder = env::var_os("OUT_DIR").expect("cargo names the folder");
    fs::write(PathBuf::from(folder).join("proved.rs"), modules)
}

/// The crates that `top` rests on, and itself. A line of the list is a crate,
/// a colon and the crates it uses, all of which stand on lines before it.
fn needed<'a>(list: &'a str, top: &'a str) -> Vec<&'a str> {
    let mut wanted = vec![top];
    for line in list.lines().rev().filter(|line| !line.starts_with('#')) {
        let (name, uses) = line.split_once(':').unwrap_or((line, ""));
        if wanted.contains(&name) {
            wanted.extend(uses.split_whitespace());
        }
    }
    wanted.sort_unstable();
    wanted.dedup();
    wanted
}

/// The code alone. A crate's own tests stand last and are left out: they lend
/// plain slices.
fn without_contracts(source: &str) -> String {
    let mut module = String::new();
    let mut open_braces = 0;
    for line in source.lines().take_while(|line| *line != "#[cfg(test)]") {
        let text = line.trim_start();
        let contract = text.starts_with("requires {") || text.starts_with("ensures {");
        if contract || open_braces > 0 {
            open_braces += line.matches('{').count();
            open_braces -= line.matches('}').count();
        } else if !["ghost ", "pub ghost ", "#![tactic", "#[tactic"]
            .iter()
            .any(|begin| text.starts_with(begin))
        {
            module += &counted(line);
            module.push('\n');
        }
    }
    module
}

/// A slice of words as one that notes each access.
fn counted(line: &str) -> String {
    line.replace("&mut [u64]", "&mut Words")
        .replace("&[u64]", "&Words")
}
