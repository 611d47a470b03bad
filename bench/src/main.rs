//! Times of the proved interpreter and of the second one, on the same inputs in
//! one run: medians of 31 repetitions, and their ratio.

mod pages;

use std::hint::black_box;
use std::time::Instant;

use compare::machine::{Machine, Outcome};
use ours::calls::{self, Card};

const REPETITIONS: usize = 31;
const JUDGINGS: usize = 200;
const BRANCHES: u32 = 10_000;
const SETTINGS_OF_A_UNIT: u32 = 50;
const SETTINGS: u32 = 10_000;
const COMMANDS: usize = 1_000;
const STEPS: usize = 1_000;
const RESPONSE: &[u8] = &[0x83, 0x01, 0x00];
/// The outcomes of the calls for C.
const GONE_ON: u8 = 0;
const COMMAND: u8 = 1;

fn main() {
    println!("{:<52} {:>12} {:>12} {:>8}", "", "ours", "second", "ratio");
    for rich in [false, true] {
        let times = [512, 1024, 2048, 4096].map(|length| judge(length, rich));
        println!("{:<52} {:>9.2} times", "    4096 bytes against 512", times[3] / times[0]);
    }
    let ring = pages::ring(64);
    run("10,000 branches among 64 units, run", &ring, BRANCHES);
    let rounds = SETTINGS / SETTINGS_OF_A_UNIT;
    let settings = pages::settings(SETTINGS_OF_A_UNIT as usize);
    run("10,000 Set Variables (and 200 branches), run", &settings, SETTINGS + rounds);
    answer_commands("1,000 commands and responses, run and respond", &pages::commands());
    step("1,000 branches among 64 units, step by step", &ring);
}

/// Times both in turn, and prints the medians in microseconds of one of `parts` equal parts; answers ours.
fn report(name: &str, parts: usize, mut ours: impl FnMut(), mut second: impl FnMut()) -> f64 {
    let mut times = [Vec::new(), Vec::new()];
    for _ in 0..REPETITIONS {
        times[0].push(microseconds(&mut ours));
        times[1].push(microseconds(&mut second));
    }
    let [ours, second] = times.map(|times| median(times) / parts as f64);
    println!("{name:<52} {ours:>9.2} us {second:>9.2} us {:>8.2}", ours / second);
    ours
}

fn microseconds(work: &mut impl FnMut()) -> f64 {
    let start = Instant::now();
    work();
    start.elapsed().as_nanos() as f64 / 1000.0
}

fn median(mut times: Vec<f64>) -> f64 {
    times.sort_by(f64::total_cmp);
    times[times.len() / 2]
}

fn judge(length: usize, rich: bool) -> f64 {
    let page = pages::filled(length, rich);
    assert_eq!((page.len(), calls::judge(&page)), (length, 0), "an accepted page of its length");
    let kind = if rich { "rich" } else { "plain" };
    report(
        &format!("judging a {kind} page of {length} bytes"),
        JUDGINGS,
        || {
            for _ in 0..JUDGINGS {
                black_box(calls::judge(black_box(&page)));
            }
        },
        || {
            for _ in 0..JUDGINGS {
                black_box(compare::loader::judge(black_box(&page))).expect("accepted");
            }
        },
    )
}

/// A card with the host's variable set, on which the page runs.
fn start_ours(page: &[u8]) -> Card {
    let mut card = Card::default();
    assert_eq!(card.set_environment(pages::HOST_VARIABLE, b"x").answer(), 0);
    assert_eq!(card.load(page).answer(), 0, "an accepted page");
    card
}

fn start_second(page: &[u8]) -> Machine {
    let mut machine = Machine::create();
    assert_eq!(machine.set_environment(pages::HOST_VARIABLE, b"x"), 0);
    assert!(machine.load(page).is_ok(), "an accepted page");
    machine
}

/// A run of so many steps that go on, in one call.
fn run(name: &str, page: &[u8], steps: u32) {
    let (mut card, mut machine) = (start_ours(page), start_second(page));
    report(
        name,
        1,
        || {
            let number = card.run(steps);
            assert_eq!((number.outcome(), number.count()), (GONE_ON, steps));
        },
        || {
            let run = machine.run(steps);
            assert_eq!((run.answer.outcome, run.count), (Outcome::GoneOn, steps));
        },
    );
}

fn answer_commands(name: &str, page: &[u8]) {
    let (mut card, mut machine) = (start_ours(page), start_second(page));
    report(
        name,
        1,
        || {
            for _ in 0..COMMANDS {
                assert_eq!(card.run(2).outcome(), COMMAND);
                assert_eq!(card.respond(RESPONSE).answer(), 0);
            }
        },
        || {
            for _ in 0..COMMANDS {
                assert_eq!(machine.run(2).answer.outcome, Outcome::Command);
                assert_eq!(machine.respond(RESPONSE).number, 0);
            }
        },
    );
}

fn step(name: &str, page: &[u8]) {
    let (mut card, mut machine) = (start_ours(page), start_second(page));
    report(
        name,
        1,
        || (0..STEPS).for_each(|_| assert_eq!(card.step().outcome(), GONE_ON)),
        || (0..STEPS).for_each(|_| assert_eq!(machine.step().answer.outcome, Outcome::GoneOn)),
    );
}
