//! Times the independent code, and the proved code beside it where a feature
//! links it or a path names it. All sides run in turn in every round; the least
//! time counts.
//!
//! bench [calls] [queue] [shallow] [runs] [programs] [--self]
//!       [--queue PATH] [--distances PATH]
//!
//! Without a name all parts are run. The paths are those of the proved
//! programs.

mod calls;
mod programs;
mod queue;
mod runs;
mod timing;

use independent::process::Processes;

fn main() {
    let mut words = std::env::args().skip(1);
    let mut named = Vec::new();
    let mut proved = Processes::default();
    while let Some(word) = words.next() {
        match word.as_str() {
            "--queue" => proved.queue = words.next().map(Into::into),
            "--distances" => proved.distances = words.next().map(Into::into),
            // Read where it is needed.
            "--self" => {}
            _ => named.push(word),
        }
    }
    let print_programs = || programs::print(&proved);
    let parts: [(&str, &dyn Fn()); 5] = [
        ("calls", &calls::print),
        ("queue", &queue::print),
        ("shallow", &queue::print_shallow),
        ("runs", &runs::print),
        ("programs", &print_programs),
    ];
    let wanted = |name| named.is_empty() || named.iter().any(|word| word == name);
    let parts = parts.iter().filter(|(name, _)| wanted(name));
    for (number, (_, print)) in parts.enumerate() {
        if number > 0 {
            println!();
        }
        print();
    }
}
