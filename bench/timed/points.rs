//! Points to write: those of the sound texts, and points that are refused.
use crate::calls::Point;
use crate::inputs::Case;
use crate::ours;
use crate::quiet::quietly;
use crate::rng::Rng;
use crate::theirs;
use geoconvert::mgrs::doors::ASKED;
use geoconvert::Mgrs;

const TILE: i64 = 200_000_000_000;

/// One point for every side, and the text that each has to write; `room` is what our writer is lent.
pub struct Job {
    pub ours: Point,
    pub theirs: theirs::Point,
    pub rust: Option<Mgrs>,
    pub room: usize,
    pub answer: Result<String, u32>,
}

/// The points of one row of a table. `shared`: the Rust and GeographicLib can be asked the same.
pub struct Jobs {
    pub name: String,
    pub jobs: Vec<Job>,
    pub shared: bool,
}

/// Points left out, since nothing could be compared: where `Display` asks the projection, and where it writes another band.
#[derive(Default)]
pub struct Apart {
    pub asked: usize,
    pub other_band: usize,
}

fn job(at: Point, rust: Option<Mgrs>, answer: Result<String, u32>) -> Job {
    let (easting, northing) = (at.easting as f64 / 2_000_000.0, at.northing as f64 / 2_000_000.0);
    let (zone, latitude, p) = (at.zone as i32, theirs::latitude_amid(at.band), at.p as i32);
    let theirs = theirs::Point { zone, north: at.north, easting, northing, latitude, p };
    Job { ours: at, theirs, rust, room: 27, answer }
}

/// What the Rust writes for the point that it read, unless it asks the projection.
fn written_again(made: Mgrs) -> Option<String> {
    let before = ASKED.with(|n| n.get());
    let text = quietly(|| made.to_string());
    if ASKED.with(|n| n.get()) > before {
        return None;
    }
    Some(text.expect("the Rust panics for no reason that is known"))
}

/// The texts' points. A tile across the edge of a band has two letters, and the Rust has its own way to choose.
fn written(case: &Case, apart: &mut Apart) -> Jobs {
    let mut jobs = Vec::new();
    for text in &case.texts {
        let (at, made) = (ours::point(text), Mgrs::parse_str(text).expect("a sound text"));
        if !case.compared {
            jobs.push(job(at, None, Ok(text.clone())));
            continue;
        }
        match written_again(made) {
            None => apart.asked += 1,
            Some(again) if again[..2] == text[..2] && again[3..] == text[3..] && again != *text => apart.other_band += 1,
            Some(again) => jobs.push(job(at, Some(made), Ok(again))),
        }
    }
    Jobs { name: case.name.clone(), jobs, shared: case.compared }
}

/// A bare zone is written as a full tile by the Rust, and small letters are none: neither has a row.
pub fn sound_jobs(cases: &[Case], apart: &mut Apart) -> Vec<Jobs> {
    let wanted = |case: &&Case| !case.name.contains("bare") && !case.name.contains("small");
    cases.iter().filter(wanted).map(|case| written(case, apart)).collect()
}

/// A sound point, altered so that it is refused by this number.
fn refused(rng: &mut Rng, sound: Point, number: u32) -> Job {
    let mut at = sound;
    let beyond = rng.from_to(1, 40 * TILE);
    match number {
        14 => at.zone = rng.from_to(61, 99),
        15 => at.p = 12,
        16 => at.easting = if rng.once_in(2) { 9 * TILE + beyond } else { TILE - beyond },
        17 => at.northing = if at.north { 95 * TILE + beyond } else { 10 * TILE - beyond },
        18 => at.band = rng.pick(b"ABIOYZabc"),
        19 => at.band = if at.north { b'C' } else { b'X' },
        _ => {}
    }
    let mut job = job(at, None, Err(number));
    job.room = if number == 20 { 14 } else { 27 };
    job
}

/// One row for each refusal of writing: 14, 16 and 17 are `create`'s too. Of the mixture those three are equal parts.
pub fn refused_jobs(rng: &mut Rng, sound: &Case) -> Vec<Jobs> {
    const WHY: [&str; 7] = [
        "the zone", "p", "the easting", "the northing", "no band letter", "the band does not fit", "too little room",
    ];
    let points: Vec<Point> = sound.texts.iter().map(|t| ours::point(t)).collect();
    let mut rows = Vec::new();
    for number in 14..=20 {
        let jobs = points.iter().map(|at| refused(rng, *at, number)).collect();
        let name = format!("refused {number}: {}", WHY[number as usize - 14]);
        rows.push(Jobs { name, jobs, shared: [14, 16, 17].contains(&number) });
    }
    let jobs = (0..points.len()).map(|k| refused(rng, points[k], [14, 16, 17][k % 3])).collect();
    rows.push(Jobs { name: "refused, 14, 16 and 17 mixed".to_string(), jobs, shared: true });
    rows
}
