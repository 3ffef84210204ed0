//! The proved code, its twin in Rust, the natural Rust, and two readers of git directories: do they agree, and how long do they take?
//! See docs/PERFORMANCE.md.
mod agree;
mod disc;
mod libgit2;
mod measure;
mod names;
mod natural;
mod references;
mod scan;
mod stores;
mod supplied;

use disc::Readers;

fn main() {
    agree::all();
    let readers = Readers::load();
    for n in [8, 256, 4096] {
        stores::measure(n, &readers);
    }
    names::measure(&readers);
    scan::measure();
    if readers.any() {
        stores::turn(&readers);
    }
}
