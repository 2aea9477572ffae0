//! Measures both ends of the product beside the twin's, over the same workloads (measured.rs says how). The twin is asked in two forms: its caller makes
//! requests of its own and is handed rows of its own, as the product's calls have it; or lends requests and reads rows where they lie. Links with the
//! static library `bench_library`, which runs the workloads over the product's own client and server.
mod clock;
mod measured;
mod played;
mod sides;
// The programs of other parts use the rest.
#[allow(dead_code)]
#[path = "reference/mod.rs"]
mod twin;
mod workloads;
use measured::Subject;

fn main() { Subject { sides: &sides::NAMES, lines: sides::lines() }.main() }
