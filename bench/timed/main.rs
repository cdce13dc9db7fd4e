//! Times reading and writing by our library, by the Rust, by plain C of the same rules and, where it is installed, by GeographicLib,
//! in one process.
//! Use: timed short|full SEED VERDICT      tables to standard output, how the goals stand to the file VERDICT
//!      timed drawn SEED                   the texts for counting, to standard output: drawing them takes more than reading them
//!      timed mark SEED TEXTS              the same calls, between the marks by which an emulator counts their instructions
//!      timed counted SEED NUMBERS VERDICT tables and verdict of the numbers that were counted so
//!      timed lines COUNT SEED             lines for the listing program
//!      timed listed FILE                  holds standard input, the listing of FILE, to what the library answers
//! The exit status is 1 where an answer is wrong.
#[macro_use]
mod calls;
mod checks;
mod clock;
mod gauge;
mod growth;
mod inputs;
mod limit;
mod numerals;
#[path = "../../compare/feed/numbers.rs"]
mod numbers;
mod ours;
mod passes;
mod points;
mod quiet;
mod report;
#[path = "../../compare/feed/rng.rs"]
#[allow(dead_code)]
mod rng;
mod theirs;

use checks::Wrong;
use clock::{Figure, Pass, Plan};
use gauge::Gauge;
use inputs::{Case, BARE, FEW, LONG, MANY, MIXED, MIXTURE, POLAR};
use points::{Apart, Jobs};
use report::{Goal, Table};
use rng::Rng;
use std::collections::HashMap;
use std::io::{BufWriter, Read, Write};

type Figures = Vec<Option<Figure>>;

/// The figures of a table's rows, by their names.
type Rows = HashMap<String, Figures>;

/// A wrong answer ends the run.
fn right(what: Wrong) {
    if let Err(wrong) = what {
        eprintln!("bench: wrong: {wrong}");
        std::process::exit(1)
    }
}

/// All that is asked.
struct Asked {
    sound: Vec<Case>,
    refused: Vec<Case>,
    jobs: Vec<Jobs>,
    apart: Apart,
}

/// The texts drawn, or those that were drawn before, and the points of the sound ones.
fn ask(seed: u64, many: usize, drawn: Option<&str>) -> Asked {
    let mut rng = Rng::new(seed);
    let (mut sound, mut refused) = (inputs::sound_cases(&mut rng, many), inputs::refused_cases(&mut rng, many));
    if let Some(drawn) = drawn {
        inputs::fill(sound.iter_mut().chain(&mut refused), drawn);
    }
    let mut apart = Apart::default();
    let mut jobs = points::sound_jobs(&sound, &mut apart);
    jobs.extend(points::refused_jobs(&mut Rng::new(!seed), &sound[1]));
    Asked { sound, refused, jobs, apart }
}

/// How many answers there are, where none is wrong.
fn compare(asked: &Asked) -> usize {
    let texts = || asked.sound.iter().chain(&asked.refused);
    texts().for_each(|case| right(checks::read(case)));
    asked.jobs.iter().for_each(|row| right(checks::write(row)));
    texts().map(|case| case.texts.len()).sum::<usize>() + asked.jobs.iter().map(|row| row.jobs.len()).sum::<usize>()
}

/// The texts of a row, as all sides but GeographicLib take them, and as it does.
fn texts_of(case: &Case) -> (Vec<&str>, Vec<theirs::Text>) {
    (case.texts.iter().map(String::as_str).collect(), case.texts.iter().map(|t| theirs::text(t)).collect())
}

/// A side that is asked only where it can be.
fn only(when: bool, pass: Pass) -> Option<Pass> {
    if when { Some(pass) } else { None }
}

/// The figures of reading, where each call waits for the answer before it or where it does not.
fn read_row(gauge: &Gauge, case: &Case, waits: bool) -> Figures {
    let (texts, kept) = texts_of(case);
    let sides = vec![
        Some(passes::read(&texts, waits, ours::read)),
        Some(passes::read(&texts, waits, ours::read_metres)),
        only(case.compared, passes::rust_read(&texts, waits)),
        only(theirs::is_here(), passes::their_read(&kept, waits)),
        Some(passes::read(&texts, waits, limit::read)),
        Some(passes::read(&texts, waits, limit::read_metres)),
    ];
    gauge.measure(texts.len(), sides)
}

fn write_row(gauge: &Gauge, row: &Jobs) -> Figures {
    let sides = vec![
        Some(passes::write(&row.jobs, ours::write)),
        only(row.jobs.iter().all(|job| job.rust.is_some()), passes::rust_write(&row.jobs)),
        only(row.shared, passes::rust_create(&row.jobs)),
        only(row.shared && theirs::is_here(), passes::their_write(&row.jobs)),
        Some(passes::write(&row.jobs, limit::write)),
    ];
    gauge.measure(row.jobs.len(), sides)
}

fn read_table<'a>(gauge: &Gauge, what: &'static str, cases: impl Iterator<Item = &'a Case>, waits: bool) -> Rows {
    let table = Table {
        what,
        sides: vec!["ours", "ours, in metres", "the Rust", "GeographicLib", "C", "C, in metres"],
        ratios: vec![
            ("ours / Rust", 0, 2),
            ("metres / Rust", 1, 2),
            ("ours / GeographicLib", 0, 3),
            ("ours / C", 0, 4),
            ("metres / C", 1, 5),
        ],
    };
    table.head();
    let told = |case: &Case| {
        let figures = read_row(gauge, case, waits);
        table.row(&case.name, &figures);
        (case.name.clone(), figures)
    };
    cases.map(told).collect()
}

fn write_table(gauge: &Gauge, rows: &[Jobs]) -> Rows {
    let table = Table {
        what: "writing",
        sides: vec!["ours", "the Rust, Display", "the Rust, create (and Display)", "GeographicLib", "C"],
        ratios: vec![("ours / Display", 0, 1), ("ours / create", 0, 2), ("ours / GeographicLib", 0, 3), ("ours / C", 0, 4)],
    };
    table.head();
    let told = |row: &Jobs| {
        let figures = write_row(gauge, row);
        table.row(&row.name, &figures);
        (row.name.clone(), figures)
    };
    rows.iter().map(told).collect()
}

fn loop_alone(gauge: &Gauge, case: &Case) {
    let (texts, _) = texts_of(case);
    let alone = gauge.measure(texts.len(), vec![Some(passes::nothing(&texts))]);
    let (alone, unit) = (numerals::shown(alone[0].as_ref().unwrap().best()), gauge.unit());
    println!("- the loop without a call, which every figure has in it: {alone} {unit}");
}

/// A row of a reading table in the verdict, if it is there.
fn reading<'a>(what: &'static str, rows: &'a Rows, name: &str, metres: bool, most: Option<f64>) -> Option<Goal<'a>> {
    let (row, k) = (rows.get(name)?, usize::from(metres));
    Some(Goal { what, ours: &row[k], rust: &row[2], limit: &row[4 + k], most })
}

fn writing<'a>(what: &'static str, rows: &'a Rows, name: &str, most: f64) -> Option<Goal<'a>> {
    let row = rows.get(name)?;
    Some(Goal { what, ours: &row[0], rust: &row[1], limit: &row[4], most: Some(most) })
}

/// The verdict: the goals, by the rows that they are about, and three rows that have none. Only the clock has those that wait.
fn verdict(unit: &str, sound: &Rows, refused: &Rows, waiting: &Rows, written: &Rows) -> String {
    let lines = [
        reading("reading 5+5", sound, MIXED, false, Some(0.30)),
        reading("reading 5+5 in metres", sound, MIXED, true, Some(0.30)),
        writing("writing 5+5", written, MIXED, 0.25),
        reading("reading 5+5 of UPS", sound, POLAR, false, Some(0.40)),
        reading("reading 5+5 of UPS in metres", sound, POLAR, true, Some(0.40)),
        writing("writing 5+5 of UPS", written, POLAR, 0.40),
        reading("refusing, 1 to 13 mixed", refused, MIXTURE, false, Some(0.25)),
        reading("refusing, 1 to 13 mixed, in metres", refused, MIXTURE, true, Some(0.25)),
        reading("reading 11+11", sound, LONG, false, None),
        reading("reading a bare zone in metres", sound, BARE, true, None),
        reading("reading 5+5, each call after the answer before it", waiting, MIXED, false, None),
    ];
    lines.iter().flatten().map(|goal| goal.line(unit)).collect()
}

/// How the figures were got.
fn say_how(gauge: &Gauge) {
    match gauge {
        Gauge::Clock(plan) => {
            println!("- {} rounds, each side in turn, about {} ms each time", plan.rounds, plan.slice / 1e6);
            println!("- nanoseconds per call: the best round (the middle one); a ratio is the middle one of the rounds' ratios");
        }
        _ => println!("- instructions per call, each counted once by the emulator, over {FEW} inputs a row; no time was taken"),
    }
}

/// The tables. How the cost grows, and what a call costs that waits, only the clock can tell.
fn run(gauge: &Gauge, asked: &Asked) -> String {
    say_how(gauge);
    loop_alone(gauge, &asked.sound[1]);
    let sound = read_table(gauge, "reading", asked.sound.iter(), false);
    let refused = read_table(gauge, "refusing", asked.refused.iter(), false);
    let written = write_table(gauge, &asked.jobs);
    let mut waiting = Rows::new();
    if let Gauge::Clock(plan) = gauge {
        let cases = asked.sound.iter().filter(|case| [MIXED, POLAR, LONG, BARE].contains(&case.name.as_str()));
        waiting = read_table(gauge, "reading, each call after the answer before it", cases, true);
        growth::tables(*plan);
    }
    verdict(gauge.unit(), &sound, &refused, &waiting, &written)
}

fn run_whole(gauge: &Gauge, seed: u64, verdict: &str) {
    if theirs::is_here() {
        println!("- GeographicLib {}", theirs::version());
    }
    let all = ask(seed, MANY, None);
    println!("- {} answers compared before, none differs", numerals::whole(compare(&all) as f64));
    let (asked, other) = (all.apart.asked, all.apart.other_band);
    println!("- points not written: {asked} where Display asks its projection, {other} where it writes another band");
    let said = if let Gauge::Clock(_) = gauge { run(gauge, &all) } else { run(gauge, &ask(seed, FEW, None)) };
    std::fs::write(verdict, said).expect("the verdict can be written");
}

fn put_drawn(seed: u64) {
    let asked = ask(seed, FEW, None);
    compare(&asked);
    asked.sound.iter().chain(&asked.refused).flat_map(|case| &case.texts).for_each(|text| println!("{text}"));
}

fn put_lines(count: u64, seed: u64) {
    let mut rng = Rng::new(seed);
    let mut out = BufWriter::with_capacity(1 << 20, std::io::stdout());
    // Finding sound references costs more than reading them, so a stock is made and drawn from.
    let stock: Vec<String> = (0..1 << 15).map(|_| inputs::line(&mut rng) + "\n").collect();
    for _ in 0..count {
        let line = &stock[rng.below(stock.len() as u64) as usize];
        out.write_all(line.as_bytes()).expect("the lines can be written");
    }
    out.flush().expect("the lines can be written");
}

fn hold_listing(file: &str) {
    let texts = std::fs::read(file).expect("the file can be read");
    let mut listed = String::new();
    std::io::stdin().read_to_string(&mut listed).expect("a listing is text");
    right(checks::listing(&texts, &listed));
}

fn content(file: &str) -> String {
    std::fs::read_to_string(file).expect("the file can be read")
}

fn main() {
    let words: Vec<String> = std::env::args().collect();
    let number = |k: usize| words.get(k).and_then(|w| w.parse().ok()).expect("a number");
    limit::start();
    match words[1].as_str() {
        "short" => run_whole(&Gauge::Clock(Plan { rounds: 41, slice: 5e5 }), number(2), &words[3]),
        "full" => run_whole(&Gauge::Clock(Plan { rounds: 201, slice: 1e6 }), number(2), &words[3]),
        "drawn" => put_drawn(number(2)),
        "mark" => drop(run(&Gauge::Mark, &ask(number(2), 0, Some(&content(&words[3]))))),
        "counted" => run_whole(&Gauge::counted(&content(&words[3])), number(2), &words[4]),
        "lines" => put_lines(number(2), number(3)),
        "listed" => hold_listing(&words[2]),
        _ => std::process::exit(2),
    }
}
