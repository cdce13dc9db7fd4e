//! The clock. The sides take turns, so that what disturbs the machine for a while disturbs them alike.
use std::arch::asm;
use std::time::Instant;

/// The compiler has to take it that the value is looked at here, and through it all memory. It costs no instruction.
#[inline(always)]
pub fn seen<T>(value: &T) {
    unsafe { asm!("/* {0} */", in(reg) value as *const T, options(nostack, preserves_flags)) }
}

/// The same value, which the compiler has to take for changed.
#[inline(always)]
pub fn hidden<T: Copy>(value: T) -> T {
    let mut held = value;
    unsafe { asm!("/* {0} */", in(reg) &mut held as *mut T, options(nostack, preserves_flags)) }
    held
}

/// One way over all inputs of a case.
pub type Pass<'a> = Box<dyn FnMut() + 'a>;

/// How often each side is timed, and about how long each time, in nanoseconds.
#[derive(Clone, Copy)]
pub struct Plan {
    pub rounds: usize,
    pub slice: f64,
}

/// Nanoseconds per call, round by round.
pub struct Figure(Vec<f64>);

/// The middle one.
fn median(mut of: Vec<f64>) -> f64 {
    of.sort_by(|a, b| a.partial_cmp(b).unwrap());
    of[of.len() / 2]
}

impl Figure {
    /// One number, which is the same in every round.
    pub fn of(number: f64) -> Figure {
        Figure(vec![number])
    }

    pub fn is_one(&self) -> bool {
        self.0.len() == 1
    }

    pub fn best(&self) -> f64 {
        self.0.iter().copied().fold(f64::MAX, f64::min)
    }

    pub fn median(&self) -> f64 {
        median(self.0.clone())
    }

    /// The middle one of the rounds' ratios. Both sides of one round meet the same machine, whatever else it does just then.
    pub fn ratio(&self, to: &Figure) -> f64 {
        median(self.0.iter().zip(&to.0).map(|(a, b)| a / b).collect())
    }
}

fn time(pass: &mut Pass, times: usize) -> f64 {
    let start = Instant::now();
    for _ in 0..times {
        pass();
    }
    start.elapsed().as_nanos() as f64
}

/// How many passes take about as long as the plan wants. The first pass of all is not counted: it warms the caches.
fn times_of(pass: &mut Pass, plan: Plan) -> usize {
    pass();
    let once = time(pass, 1).max(1.0);
    ((plan.slice / once) as usize).max(1)
}

/// The figures of all sides of one case, each pass having so many calls. A side that is not asked has none.
pub fn measure(plan: Plan, calls: usize, mut sides: Vec<Option<Pass>>) -> Vec<Option<Figure>> {
    let times: Vec<usize> = sides.iter_mut().map(|s| s.as_mut().map_or(0, |pass| times_of(pass, plan))).collect();
    let mut rounds: Vec<Vec<f64>> = vec![Vec::new(); sides.len()];
    for _ in 0..plan.rounds {
        for (k, side) in sides.iter_mut().enumerate() {
            if let Some(pass) = side {
                rounds[k].push(time(pass, times[k]) / (times[k] * calls) as f64);
            }
        }
    }
    rounds.into_iter().map(|r| if r.is_empty() { None } else { Some(Figure(r)) }).collect()
}
