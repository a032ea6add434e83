//! Times contenders against each other, in turns.

use std::time::{Duration, Instant};

/// One way to do the task: it does it so many times.
pub type Task<'a> = Box<dyn FnMut(usize) + 'a>;

/// How long a turn lasts, about.
const TURN: Duration = Duration::from_millis(2);

/// How many turns each contender gets.
const ROUNDS: usize = 101;

/// What was measured of one contender.
#[derive(Clone, Copy)]
pub struct Measured {
    /// The time of one task in the shortest turn, in nanoseconds: what the task takes when nothing else disturbs it.
    pub least: f64,
    /// The median over the rounds of the first contender's time divided by this one's in the same round.
    pub ratio: f64,
}

/// Times the contenders in turns, so that whatever else the machine does falls on all of them.
pub fn compare(mut tasks: Vec<Task<'_>>) -> Vec<Measured> {
    let repeats: Vec<usize> = tasks.iter_mut().map(repeats).collect();
    let mut times = vec![Vec::with_capacity(ROUNDS); tasks.len()];
    for round in 0..ROUNDS {
        for turn in 0..tasks.len() {
            let which = (turn + round) % tasks.len();
            let time = time(&mut tasks[which], repeats[which]);
            times[which].push(time.as_secs_f64() * 1e9 / repeats[which] as f64);
        }
    }
    let ratio = |which: usize| median((0..ROUNDS).map(|round| times[0][round] / times[which][round]).collect());
    (0..tasks.len())
        .map(|which| Measured {
            least: times[which].iter().copied().fold(f64::INFINITY, f64::min),
            ratio: ratio(which),
        })
        .collect()
}

/// How many repetitions fill a turn.
fn repeats(task: &mut Task) -> usize {
    let mut repeats = 1;
    loop {
        let taken = time(task, repeats);
        if taken * 4 >= TURN {
            let wanted = repeats as f64 * TURN.as_secs_f64() / taken.as_secs_f64();
            return (wanted as usize).max(1);
        }
        repeats *= 2;
    }
}

fn time(task: &mut Task, repeats: usize) -> Duration {
    let start = Instant::now();
    task(repeats);
    start.elapsed()
}

fn median(mut values: Vec<f64>) -> f64 {
    values.sort_by(f64::total_cmp);
    values[values.len() / 2]
}
