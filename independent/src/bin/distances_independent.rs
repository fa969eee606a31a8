//! The page's program `distances`, written a second time.

use independent::programs;

fn main() -> std::io::Result<()> {
    programs::run(programs::distances)
}
