//! Times the target through its calls for C: one line a measure, with the best and the median of several rounds.

mod images;
mod node;
mod once;
mod packets;

use std::time::{Duration, Instant};

use crate::images::Full;

/// How often a measure is taken.
const ROUNDS: usize = 9;

/// The packets of one bank: its journal holds no more.
const PACKETS: u32 = 65_536;

/// The packets of one bank where they are long.
const LONG_PACKETS: u32 = 8_192;

/// How often an image is verified in a round.
const IMAGES: u32 = 200;

/// The packets that are judged by a program that takes all of the budget.
const FULL_PACKETS: u32 = 40;

const USAGE: &str = "usage: bench                     all measures
       bench growth              how verify and run grow with slots and rounds
       bench once WORK COUNT     one work so often, for bench/beside";

fn main() {
    let words: Vec<String> = std::env::args().skip(1).collect();
    match words.iter().map(String::as_str).collect::<Vec<_>>()[..] {
        [] => all(),
        ["growth"] => growth(),
        ["once", work, count] => match count.parse() {
            Ok(count) => once::once(work, count),
            Err(_) => misused(),
        },
        _ => misused(),
    }
}

fn misused() {
    eprintln!("{USAGE}");
    std::process::exit(2);
}

/// All measures.
fn all() {
    let block: Vec<u8> = (0..4096u32).map(|k| (k * 31 % 251) as u8).collect();
    for (length, count) in [(16, 1_000_000), (64, 500_000), (256, 200_000), (4096, 20_000)] {
        let amount = length as f64 * f64::from(count);
        measure(&format!("crc over {length} bytes"), "bytes", amount, || {
            timed(|| node::crc(&block[..length], count))
        });
    }
    for (name, image) in [
        ("verify of 512 slots", images::straight()),
        ("verify of 512 slots with eight loops", images::looping()),
        ("verify of eight loops in one another", images::nested()),
        ("verify of the largest policy table", images::largest_table()),
        ("verify of forty joins", images::joins(1, false)),
        ("verify of forty joins in version 2", images::joins(2, false)),
        ("verify of forty joins with a number on the stack before each", images::joins(2, true)),
    ] {
        verify(name, &image);
    }
    run("run of 480 slots", "instructions", images::full_of_work());
    run("run of a loop of three slots", "instructions", images::full_of_counting());
    run("run of thirteen rules", "instructions", images::full_of_rules());
    run("run of a loop with loads, stores and calls", "instructions", images::full_of_asking());
    run("run of a loop of one helper call", "calls", images::full_of_calls());

    let read = packets::read();
    for (name, image) in [
        ("yes image", images::yes()),
        ("512 slots", images::straight()),
        ("100 instructions", images::fields()),
        ("quota image", images::quota()),
        ("policy table of twelve rules", images::last_of_twelve()),
    ] {
        serve(name, &image, &read, PACKETS);
    }
    for (name, packet, count) in [
        ("write of 16 bytes", packets::write(16), PACKETS),
        ("write of 4096 bytes", packets::write(4096), LONG_PACKETS),
        ("write of 4096 bytes over a page's end", packets::write_over_page_end(), LONG_PACKETS),
        ("read of 4096 bytes over a page's end", packets::read_over_page_end(), PACKETS),
        ("read-modify-write of 4 bytes", packets::modify(), PACKETS),
    ] {
        serve(name, &images::yes(), &packet, count);
    }
}

/// How `verify` and `run` grow with slots and with rounds of a loop. A round is of about as many slots or steps at
/// each size.
fn growth() {
    for count in [64, 128, 256, 512] {
        let image = images::straight_of(count as usize);
        let times = 200 * 512 / count;
        let name = format!("verify of {count} slots");
        each(&name, "slot", times, count, || timed(|| node::verify(&image, times)));
    }
    let looping = images::looping();
    each("verify of 512 slots with eight loops", "slot", 200, 512, || timed(|| node::verify(&looping, 200)));
    for count in [64, 128, 256, 512] {
        let image = images::straight_of(count as usize);
        let times = 5_000 * 512 / count;
        each(&format!("run of {count} slots"), "step", times, count, || beside(&image, times));
    }
    for count in [64u16, 256, 1024, 4096] {
        let image = images::counting_of(count);
        let steps = 3 * u32::from(count) + 3;
        let times = 12_291_000 / steps;
        each(&format!("run of a loop of {count} rounds"), "step", times, steps, || beside(&image, times));
    }
}

/// What the program of an image takes of so many plain reads: their time without that of as many by the yes image.
fn beside(image: &[u8], count: u32) -> Option<Duration> {
    let read = packets::read();
    let whole = timed(|| node::serve(image, &read, count))?;
    let own = timed(|| node::serve(&images::yes(), &read, count))?;
    Some(whole.saturating_sub(own))
}

/// Prints the nanoseconds of one call, and of one of the parts that it has, in the best and the median round.
fn each(name: &str, part: &str, calls: u32, parts: u32, round: impl FnMut() -> Option<Duration>) {
    let Some(times) = rounds(round) else {
        println!("{name}: refused");
        return;
    };
    let (calls, parts) = (f64::from(calls), f64::from(parts));
    let call = |time: Duration| time.as_secs_f64() * 1e9 / calls;
    let (best, median) = (call(times[0]), call(times[ROUNDS / 2]));
    println!(
        "{name}: best {best:.1}, median {median:.1} ns a call; best {:.3}, median {:.3} ns a {part}",
        best / parts,
        median / parts,
    );
}

/// Measures the interpreter on a program that takes all of the budget: plain reads that it judges, without what the packet
/// takes beside its program.
fn run(name: &str, unit: &str, full: Full) {
    let amount = f64::from(full.parts) * f64::from(FULL_PACKETS);
    measure(name, unit, amount, || beside(&full.image, FULL_PACKETS));
}

/// Measures `sandbar_verify` of an image, and the same without what it takes to read the bytes of the image.
fn verify(name: &str, image: &[u8]) {
    let refused = images::refused_at_once(image);
    let whole = rounds(|| timed(|| node::verify(image, IMAGES)));
    let reading = rounds(|| timed(|| node::read(&refused, IMAGES)));
    tell(&format!("{name}, beside its reading"), "images", f64::from(IMAGES), less(whole.clone(), reading));
    tell(name, "images", f64::from(IMAGES), whole);
}

/// Measures `sandbar_serve` of so many packets on a fresh node: each is copied, judged, finished and kept in the journal.
fn serve(name: &str, image: &[u8], packet: &[u8], count: u32) {
    let whole = rounds(|| timed(|| node::serve(image, packet, count)));
    let opened = rounds(|| timed(|| node::serve(image, packet, 0)));
    let name = format!("judge and finish, {name}");
    tell(&name, "packets", f64::from(count), less(whole, opened));
}

/// The time of a call, or `None` where an input is refused.
fn timed(call: impl FnOnce() -> u64) -> Option<Duration> {
    let start = Instant::now();
    let sum = std::hint::black_box(call());
    (sum != node::REFUSED).then(|| start.elapsed())
}

/// The times of the rounds, the best first, or `None` where an input is refused.
fn rounds(round: impl FnMut() -> Option<Duration>) -> Option<Vec<Duration>> {
    let mut times: Vec<Duration> = std::iter::repeat_with(round)
        .take(ROUNDS)
        .collect::<Option<_>>()?;
    times.sort();
    Some(times)
}

/// The times of the rounds without those of others: the best without the best, and so on, so that one slow round
/// of the others is not taken off a quick one.
fn less(whole: Option<Vec<Duration>>, others: Option<Vec<Duration>>) -> Option<Vec<Duration>> {
    let pairs = whole?.into_iter().zip(others?);
    Some(pairs.map(|(time, other)| time.saturating_sub(other)).collect())
}

/// Prints how many of the unit a second the best and the median round did.
fn measure(name: &str, unit: &str, amount: f64, round: impl FnMut() -> Option<Duration>) {
    tell(name, unit, amount, rounds(round));
}

/// Prints the rates of the best and the median of some rounds.
fn tell(name: &str, unit: &str, amount: f64, times: Option<Vec<Duration>>) {
    let Some(times) = times else {
        println!("{name}: refused");
        return;
    };
    let rate = |time: Duration| amount / time.as_secs_f64();
    println!(
        "{name}: best {:.4e}, median {:.4e} {unit} a second",
        rate(times[0]),
        rate(times[ROUNDS / 2]),
    );
}
