//! The sheets of the bench's whole runs as files; and the standard heap's run
//! on such a file, told in the peers' form.
//!
//! sheets FOLDER: writes the sheets and prints their paths, one a line
//! sheets ROUNDS SHEET: prints two lines of name, least nanoseconds, checksum;
//! `heap` is the run alone, as the peers are timed, `accept+heap` is the
//! bench's d
//!
//! The checksum is the sum of the reached distances (modulo 2^64), a colon and
//! the number reached.

// Its clock alone is used.
#[allow(dead_code)]
#[path = "bench/timing.rs"]
mod timing;

use independent::image::need;
use independent::run::{by_heap, distances, least_distances, UNREACHED};
use independent::sheet::accept;
use independent::workload::{grid_sheet, sparse_sheet};
use std::hint::black_box;
use std::path::Path;
use std::{env, fs, io};
use timing::Watch;

fn main() -> io::Result<()> {
    let words: Vec<String> = env::args().skip(1).collect();
    match words.as_slice() {
        [folder] => write_all(Path::new(folder)),
        [rounds, sheet] => {
            let rounds = rounds.parse().map_err(io::Error::other)?;
            time(rounds, &fs::read(sheet)?);
            Ok(())
        }
        _ => Err(io::Error::other("usage: sheets FOLDER, or ROUNDS SHEET")),
    }
}

/// The names are fixed: side, neighbours, least and greatest weight.
fn write_all(folder: &Path) -> io::Result<()> {
    fs::create_dir_all(folder)?;
    let write = |name: String, bytes: Vec<u8>| {
        let path = folder.join(name);
        println!("{}", path.display());
        fs::write(path, bytes)
    };
    for neighbours in [4, 8] {
        for (least, most) in [(1, 255), (0, 65_535), (7, 7)] {
            let name = format!("grid-256-{neighbours}-{least}-{most}.sheet");
            write(name, grid_sheet(256, neighbours, least, most))?;
        }
    }
    let sparse = sparse_sheet(65_536, 524_288, 0, 65_535);
    write("sparse-524288-0-65535.sheet".to_string(), sparse)?;
    for neighbours in [4, 8] {
        let name = format!("grid-32-{neighbours}-1-255.sheet");
        write(name, grid_sheet(32, neighbours, 1, 255))?;
    }
    Ok(())
}

fn time(rounds: u32, bytes: &[u8]) {
    let sheet = accept(bytes).expect("a good sheet");
    let wanted = least_distances(&sheet);
    let (mut by_queue, mut image) = (vec![0; sheet.n], vec![0; need(sheet.n as u64)]);
    assert!(distances(bytes, &mut by_queue, &mut image).is_ok());
    assert_eq!(by_queue, wanted);
    let reached = wanted.iter().filter(|&&distance| distance != UNREACHED);
    let number = reached.clone().count();
    let sum = reached.fold(0u64, |sum, &distance| sum.wrapping_add(distance));
    let heap = least_time(rounds, || {
        black_box(by_heap(black_box(&sheet)));
    });
    println!("heap {heap} {sum}:{number}");
    let both = least_time(rounds, || {
        let sheet = accept(black_box(bytes)).expect("a good sheet");
        black_box(by_heap(&sheet));
    });
    println!("accept+heap {both} {sum}:{number}");
}

/// A round lasts about so long at least.
const ROUND_NANOSECONDS: f64 = 5e6;

/// The least nanoseconds of one run over so many rounds.
fn least_time(rounds: u32, mut work: impl FnMut()) -> u64 {
    let start = Watch::start();
    work();
    let once = start.nanoseconds().max(1.0);
    let times = (ROUND_NANOSECONDS / once).clamp(1.0, 1e4) as u32;
    let round = |_| {
        let start = Watch::start();
        for _ in 0..times {
            work();
        }
        start.nanoseconds() / f64::from(times)
    };
    (0..rounds).map(round).fold(f64::INFINITY, f64::min) as u64
}
