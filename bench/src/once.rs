//! One kind of work so many times and nothing else, for a counter of instructions or of time outside.

use std::hint::black_box;
use std::time::Instant;

use crate::images::{self, Full};
use crate::{node, packets};

/// How many slots the straight image has.
const SLOTS: usize = 512;

/// A kind of work: what is verified, or only read, or by which program which packet is served; and how many parts one has.
enum Work {
    Verify(Vec<u8>, u32),
    Read(Vec<u8>, u32),
    Serve(Vec<u8>, Vec<u8>, u32),
}

fn run(full: Full) -> Work {
    Work::Serve(full.image, packets::read(), full.parts)
}

fn packet(packet: Vec<u8>) -> Work {
    Work::Serve(images::yes(), packet, 1)
}

fn read(image: Vec<u8>, parts: u32) -> Work {
    Work::Read(images::refused_at_once(&image), parts)
}

/// The work of that name.
fn named(work: &str) -> Work {
    match work {
        "loop" => run(images::full_of_counting()),
        "straight" => run(images::full_of_work()),
        "fourteen" => run(images::full_of_rules()),
        "asking" => run(images::full_of_asking()),
        "calls" => run(images::full_of_calls()),
        "twelve" => Work::Serve(images::last_of_twelve(), packets::read(), 1),
        "quota" => Work::Serve(images::quota(), packets::read(), 1),
        "verify-straight" => Work::Verify(images::straight_of(SLOTS), SLOTS as u32),
        "read-straight" => read(images::straight_of(SLOTS), SLOTS as u32),
        "read-table" => read(images::largest_table(), 1),
        "verify-row" => Work::Verify(images::looping(), SLOTS as u32),
        "verify-nested" => Work::Verify(images::nested(), 1),
        "verify-joins" => Work::Verify(images::joins(2, true), 1),
        "verify-table" => Work::Verify(images::largest_table(), 1),
        "serve-read" => packet(packets::read()),
        "serve-write" => packet(packets::write(16)),
        "serve-long-read" => packet(packets::read_over_page_end()),
        "serve-long-write" => packet(packets::write(4096)),
        _ => {
            eprintln!("there is no work {work}");
            std::process::exit(2);
        }
    }
}

/// Does the work of that name so often, and prints how many nanoseconds all of it took, and how many parts one has.
pub fn once(work: &str, count: u32) {
    let it = named(work);
    let start = Instant::now();
    let (sum, parts) = match &it {
        Work::Verify(image, parts) => (node::verify(image, count), parts),
        Work::Read(image, parts) => (node::read(image, count), parts),
        Work::Serve(image, packet, parts) => (node::serve(image, packet, count), parts),
    };
    let time = start.elapsed();
    assert!(black_box(sum) != node::REFUSED, "{work} is refused");
    println!("{} {parts}", time.as_nanos());
}
