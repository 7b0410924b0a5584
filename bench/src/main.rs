//! Times of this library beside the Rust it was carried over from, on the same inputs, in one run.

extern crate alloc;

/// The carried-over Rust, byte for byte.
#[allow(dead_code)]
#[path = "../../oracle/src/exact"]
mod exact {
    pub mod geometry;
    pub mod probe;
    pub mod reference;
}

mod calls;
mod elastics;
mod exported;
mod funnels;
mod hostile;
mod images;
#[path = "../../oracle/src/hostile.rs"]
mod images_made;
mod layouts;
mod measure;
#[path = "../../oracle/src/panics.rs"]
mod panics;
mod probes;
mod smallest;

fn main() {
    let wanted: Vec<String> = std::env::args().skip(1).collect();
    let mut table = measure::Table::new(wanted);
    layouts::rows(&mut table);
    smallest::rows(&mut table);
    probes::rows(&mut table);
    funnels::rows(&mut table);
    elastics::rows(&mut table);
    images::rows(&mut table);
    hostile::rows(&mut table);
    exported::rows(&mut table);
}
