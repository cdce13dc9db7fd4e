//! Tables for people, in Markdown: nanoseconds per call as the best round with the middle one behind it, or counted instructions, and
//! ratios.
use crate::clock::Figure;
use crate::numerals::shown;

/// The titles of the sides, and of the ratios as (title, of which side, to which).
pub struct Table {
    pub what: &'static str,
    pub sides: Vec<&'static str>,
    pub ratios: Vec<(&'static str, usize, usize)>,
}

fn cell(figure: &Option<Figure>) -> String {
    match figure {
        None => "-".to_string(),
        Some(f) if f.is_one() => shown(f.best()),
        Some(f) => format!("{} ({})", shown(f.best()), shown(f.median())),
    }
}

fn ratio(of: &Option<Figure>, to: &Option<Figure>) -> String {
    match (of, to) {
        (Some(of), Some(to)) => shown(of.ratio(to)),
        _ => "-".to_string(),
    }
}

impl Table {
    pub fn head(&self) {
        let titles = self.sides.iter().copied().chain(self.ratios.iter().map(|r| r.0));
        let titles: Vec<&str> = std::iter::once(self.what).chain(titles).collect();
        println!("\n| {} |", titles.join(" | "));
        println!("|{}", "---|".repeat(titles.len()));
    }

    pub fn row(&self, name: &str, figures: &[Option<Figure>]) {
        let mut cells = vec![name.to_string()];
        cells.extend(figures.iter().map(cell));
        for (_, of, to) in &self.ratios {
            cells.push(ratio(&figures[*of], &figures[*to]));
        }
        println!("| {} |", cells.join(" | "));
    }
}

/// What the verdict says of a row: ours, the Rust's and plain C's, which is the limit; and the ratio to the Rust that is the goal, if any.
pub struct Goal<'a> {
    pub what: &'static str,
    pub ours: &'a Option<Figure>,
    pub rust: &'a Option<Figure>,
    pub limit: &'a Option<Figure>,
    pub most: Option<f64>,
}

impl Goal<'_> {
    /// A line that says how it stands. The greater ratio counts: of the rounds' middle one and that of the best rounds. A goal is one
    /// of time: what was counted is told and not judged.
    pub fn line(&self, unit: &str) -> String {
        let (ours, limit) = (self.ours.as_ref().expect("ours was asked"), self.limit.as_ref().expect("C was asked"));
        let mut line = format!("- {}: {} {unit}", self.what, shown(ours.best()));
        let mut end = String::new();
        if let Some(rust) = self.rust {
            let (ratio, bests) = (ours.ratio(rust), ours.best() / rust.best());
            line += &format!(" to the Rust's {}, ratio {ratio:.2}", shown(rust.best()));
            if !ours.is_one() {
                line += &format!(" ({bests:.2} of the best rounds)");
                let judged = |most| format!("; goal {most:.2}: {}", if ratio.max(bests) <= most { "reached" } else { "MISSED" });
                end = self.most.map_or(end, judged);
            }
        }
        line + &format!("; {:.2} times plain C's{end}\n", ours.ratio(limit))
    }
}
