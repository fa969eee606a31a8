//! Page transfers, measured: for lists of inner calls, how often a store with
//! room for M pages would load one or write one back. Counted is every read
//! and write of a word of the image by the proved sources, and of the pairs
//! and places by two heaps; nothing else that a program holds.

mod heaps;
mod image;
/// The proved sources, as the build has written them.
#[allow(unused)]
mod proved {
    use crate::traced::Words;
    include!(concat!(env!("OUT_DIR"), "/proved.rs"));
}
mod store;
mod traced;

use heaps::{Indexed, Stale};
use image::Image;
use independent::run::{OnHeap, Queue};
use independent::workload::{self, play, Step, Workload};
use store::Transfers;
use traced::{transfers, Area};

/// Pages of 4 KB that there is room for.
const ROOMS: [usize; 6] = [4, 8, 16, 32, 64, 128];

fn main() {
    println!("Page transfers: loads + write-backs a call, of a store with room for M pages of 4 KB, from which the page longest untouched goes;");
    println!("counted is each read and write of an image's word by the proved sources, and of its own words by a heap");
    print!("{:41}{:>6}", "n = 65,536", "pages");
    for room in ROOMS {
        print!("{:>15}", format!("M = {room}"));
    }
    println!();
    for list in workload::all(65_536) {
        print_list(&list);
    }
}

fn print_list(list: &Workload) {
    println!("{}, {} calls", list.name, list.steps.len());
    let mut queue = Image::fresh(list.n);
    print_row("level queue, proved", list, queue.areas(), &mut queue);
    let mut queue = Indexed::new(list.n);
    print_row(
        "indexed heap, its pairs and places",
        list,
        queue.areas(),
        &mut queue,
    );
    let enters = |step: &&Step| matches!(step, Step::Decrease(..));
    let most = list.steps.iter().filter(enters).count();
    let mut queue = Stale::new(list.n, most);
    let [pairs, _] = queue.areas();
    print_row(
        "heap, stale skipped, its pairs alone",
        list,
        vec![pairs],
        &mut queue,
    );
    let mut queue = Stale::new(list.n, most);
    let areas = queue.areas().to_vec();
    print_row(
        "heap, stale skipped, with what ids hold",
        list,
        areas,
        &mut queue,
    );
}

fn print_row(name: &str, list: &Workload, areas: Vec<Area>, queue: &mut impl Queue) {
    let answers = play(&list.steps, &mut OnHeap::new(list.n));
    // Where all touched pages have room each is loaded once.
    let rooms = [&ROOMS[..], &[usize::MAX]].concat();
    let mut counts = transfers(areas, &rooms, || {
        let found = play(&list.steps, queue);
        assert_eq!(found, answers, "{}: other answers", list.name);
    });
    let pages = counts.pop().map_or(0, |transfers| transfers.loaded);
    print!("  {name:39}{pages:>6}");
    for Transfers { loaded, written } in counts {
        let calls = list.steps.len() as f64;
        let cell = format!("{:.3}+{:.3}", loaded as f64 / calls, written as f64 / calls);
        print!("{cell:>15}");
    }
    println!();
}
