//! Draws with the baseline and with the proved library, one after the other, `race [ROUNDS]` times, and prints the median and the least times.
//! Beside the medians stands the median of the rounds' ratios. Then how long a look-up takes in a small and in a large table, and a call with its return.

use compare::{calls, look_ups, ours, Baseline, Drawer, Drawing, DAY, GROUP, LOOP, SHAPES, TREE};
use std::time::Instant;

fn main() {
    let rounds = match std::env::args().nth(1) {
        Some(word) => word.parse().expect("a number of rounds"),
        None => 41,
    };
    println!("drawing      steps          baseline, µs      ours, µs  ratio");
    for drawing in [LOOP, SHAPES, TREE, GROUP, DAY] {
        race(&drawing, rounds);
    }
    println!("look-ups in a table of 16 and of 60,000 entries, ns each");
    let grants = look_ups(16, 0).grants;
    look_up_times("baseline", &mut Baseline::new(grants), rounds);
    if let Some(mut ours) = ours(grants) {
        look_up_times("ours", ours.as_mut(), rounds);
    }
    println!("a call and return of a procedure with two parameters: a turn with it and one without it, ns each");
    let grants = calls(true, 0).grants;
    call_times("baseline", &mut Baseline::new(grants), rounds);
    if let Some(mut ours) = ours(grants) {
        call_times("ours", ours.as_mut(), rounds);
    }
}

fn race(drawing: &Drawing, rounds: usize) {
    let mut baseline = Baseline::new(drawing.grants);
    let mut ours = ours(drawing.grants);
    let (mut times, mut our_times, mut ratios) = (Vec::new(), Vec::new(), Vec::new());
    let (mut out, mut our_out) = (vec![0; 65_536], vec![0; 65_536]);
    let mut steps = 0;
    for _ in 0..rounds {
        let (answer, time) = timed(&mut baseline, drawing, &mut out);
        assert_eq!(answer.number, 0, "{answer:?}");
        steps = answer.steps;
        times.push(time);
        if let Some(ours) = &mut ours {
            let (our_answer, our_time) = timed(ours.as_mut(), drawing, &mut our_out);
            assert_eq!(our_answer, answer);
            assert!(our_out == out, "another picture");
            our_times.push(our_time);
            ratios.push(our_time / time);
        }
    }
    let name = drawing.name;
    let [median_time, least_time] = [median(&times), least(&times)];
    if ours.is_none() {
        println!("{name:<8} {steps:>9}  median  {median_time:>12.1}");
        println!("{name:<8} {steps:>9}  least   {least_time:>12.1}");
        return;
    }
    let [our_median, our_least] = [median(&our_times), least(&our_times)];
    let [ratio, of_least] = [median(&ratios), our_least / least_time];
    println!("{name:<8} {steps:>9}  median  {median_time:>12.1}  {our_median:>12.1}  {ratio:>5.2}");
    println!(
        "{name:<8} {steps:>9}  least   {least_time:>12.1}  {our_least:>12.1}  {of_least:>5.2}"
    );
}

/// The time of a look-up: what 100,000 more of them take.
fn look_up_times(who: &str, drawer: &mut dyn Drawer, rounds: usize) {
    let mut each = [Vec::new(), Vec::new()];
    for _ in 0..rounds {
        for (entries, each) in [16, 60_000].into_iter().zip(&mut each) {
            let [fewer, more] = [100_000, 200_000].map(|times| {
                let (answer, time) = timed(drawer, &look_ups(entries, times), &mut [0; 256]);
                assert_eq!(answer.number, 0, "{answer:?}");
                time
            });
            each.push((more - fewer) / 100.0);
        }
    }
    let [few, many] = each.map(|times| median(&times));
    println!("{who:<8}  {few:>6.1}  {many:>6.1}  ratio {:.2}", many / few);
}

/// The time of a turn with a call and of one without: what 100,000 more of them take. The difference is a call with its return: four steps more, the call, the
/// return and the two parameters.
fn call_times(who: &str, drawer: &mut dyn Drawer, rounds: usize) {
    let mut each = [Vec::new(), Vec::new()];
    for _ in 0..rounds {
        for (called, each) in [true, false].into_iter().zip(&mut each) {
            let [fewer, more] = [100_000, 200_000].map(|times| {
                let (answer, time) = timed(drawer, &calls(called, times), &mut [0; 256]);
                assert_eq!(answer.number, 0, "{answer:?}");
                time
            });
            each.push((more - fewer) / 100.0);
        }
    }
    let [with, without] = each.map(|times| median(&times));
    println!(
        "{who:<8}  {with:>6.1}  {without:>6.1}  difference {:.1}",
        with - without
    );
}

/// A drawing and its time in microseconds.
fn timed(drawer: &mut dyn Drawer, drawing: &Drawing, out: &mut [u8]) -> (baseline::Answer, f64) {
    let start = Instant::now();
    let answer = drawer.draw(drawing, out);
    (answer, start.elapsed().as_secs_f64() * 1e6)
}

fn median(times: &[f64]) -> f64 {
    let mut sorted = times.to_vec();
    sorted.sort_by(f64::total_cmp);
    sorted[sorted.len() / 2]
}

fn least(times: &[f64]) -> f64 {
    times.iter().copied().fold(f64::INFINITY, f64::min)
}
