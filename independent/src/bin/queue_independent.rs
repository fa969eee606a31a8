//! The page's program `queue`, written a second time.

use independent::programs;

fn main() -> std::io::Result<()> {
    programs::run(programs::queue)
}
