//! Cases from seeds: a program, an operation, a sheet and grants around what
//! the run takes.

use crate::random::Random;
use crate::{damage, groups, limit, procedures, program, quiz, soup, Case};
use reference::sheet::{GRANTS, OUT_LENGTH};
use reference::{run_specified, Answer, End, Event, Grants, Operation, Specified, Taking};
use std::sync::OnceLock;

/// How many events of a run are looked at. Runs that have more get so few
/// steps that they end within these.
pub const EVENTS: usize = 8_000;

/// A case with all counts within their ranges.
pub fn case(seed: u64) -> Case {
    let mut random = Random::new(seed);
    let program = any_program(&mut random);
    let width = side(&mut random);
    let height = side(&mut random);
    let operation = match random.weighted(&[10, 90]) {
        0 => Operation::Check,
        _ => Operation::Draw,
    };
    // Checking takes nothing; its grants are those of a run all the same, so
    // that drawing the case does not go on for ever.
    let specified = run_specified(Operation::Draw, &program, width, height, EVENTS);
    let grants = grants(&specified, &mut random);
    let out_length = out_length(&specified, &mut random);
    Case {
        operation,
        width,
        height,
        grants,
        out_length,
        program,
    }
}

/// A case with at least one count out of its range.
pub fn case_out_of_range(seed: u64) -> Case {
    let mut case = case(seed);
    let mut random = Random::new(!seed);
    let far = |random: &mut Random, first: u64| match random.below(3) {
        0 => first,
        1 => u64::MAX,
        _ => first + random.bits() % 1_000_000,
    };
    let which = random.between(1, 31);
    if which & 1 != 0 {
        case.grants.steps = far(&mut random, 4_294_967_296);
    }
    if which & 2 != 0 {
        case.grants.shapes = far(&mut random, 65_536);
    }
    if which & 4 != 0 {
        case.grants.entries = far(&mut random, 65_536);
    }
    if which & 8 != 0 {
        case.grants.text_bytes = far(&mut random, 65_536);
    }
    if which & 16 != 0 {
        case.grants.calls = match random.below(2) {
            0 => 0,
            _ => far(&mut random, 65),
        };
    }
    case
}

/// A program of any sort.
pub fn any_program(random: &mut Random) -> Vec<u8> {
    match random.weighted(&[60, 10, 2, 2, 9, 13, 12, 3, 22, 3]) {
        0 => program::program(random),
        1 => {
            let whole = program::program(random);
            damage::damaged(whole, random)
        }
        6 => procedures::program(random),
        7 => {
            let whole = procedures::program(random);
            damage::damaged(whole, random)
        }
        8 => groups::program(random),
        9 => {
            let whole = groups::program(random);
            damage::damaged(whole, random)
        }
        2 => soup::tokens(random),
        3 => soup::bytes(random),
        4 => {
            let group = &limits()[random.weighted(&[2, 4, 6, 3, 3, 4])];
            let one = random.pick(group).clone();
            if random.chance(100) {
                damage::damaged(one, random)
            } else {
                one
            }
        }
        _ => quiz::program(random),
    }
}

/// The programs at the limits, made once.
fn limits() -> &'static [Vec<Vec<u8>>] {
    static LIMITS: OnceLock<Vec<Vec<Vec<u8>>>> = OnceLock::new();
    LIMITS.get_or_init(limit::groups)
}

/// A width or a height, most often one that is accepted.
fn side(random: &mut Random) -> i32 {
    match random.weighted(&[600, 300, 60, 20, 10, 5, 5]) {
        0 => random.between(1, 40) as i32,
        1 => random.between(1, 10_000) as i32,
        2 => *random.pick(&[1, i32::MAX, i32::MAX - 1, 65_536, 99, 100]),
        3 => random.bits() as i32 & i32::MAX | 1,
        4 => 0,
        5 => -1,
        _ => *random.pick(&[i32::MIN, -20, i32::MIN + 1]),
    }
}

/// How much of each kind the events of a list take. Calls are given back, so
/// of these it is the most that are under way at once.
pub fn totals(events: &[Event]) -> Grants {
    let mut totals = Grants::NOTHING;
    let mut under_way = 0;
    for event in events {
        match event {
            Event::Taken(Taking::Step, _) => totals.steps += 1,
            Event::Taken(Taking::Shape, _) => totals.shapes += 1,
            Event::Taken(Taking::Entry, _) => totals.entries += 1,
            Event::Taken(Taking::Text(bytes), _) => totals.text_bytes += bytes,
            Event::Taken(Taking::Call, _) => under_way += 1,
            Event::Taken(Taking::Picture(_), _) => {}
            Event::GaveBack => under_way -= 1,
        }
        totals.calls = totals.calls.max(under_way);
    }
    totals
}

/// How many calls are under way after the events of a list.
fn under_way(events: &[Event]) -> u64 {
    events.iter().fold(0, |calls, event| match event {
        Event::Taken(Taking::Call, _) => calls + 1,
        Event::GaveBack => calls - 1,
        Event::Taken(..) => calls,
    })
}

/// What the events of a list take, as grants within their ranges.
pub fn needed(events: &[Event]) -> Grants {
    let totals = totals(events);
    let least = Grants {
        calls: totals.calls.max(1),
        ..totals
    };
    smaller(least, Grants::LARGEST)
}

/// The same grants with one less of one kind, for each kind that has one to spare.
pub fn one_less(grants: Grants) -> Vec<Grants> {
    let mut all = Vec::new();
    for kind in 0..5 {
        let mut few = grants;
        let (count, least) = match kind {
            0 => (&mut few.steps, 0),
            1 => (&mut few.shapes, 0),
            2 => (&mut few.entries, 0),
            3 => (&mut few.text_bytes, 0),
            _ => (&mut few.calls, 1),
        };
        if *count > least {
            *count -= 1;
            all.push(few);
        }
    }
    all
}

fn smaller(one: Grants, other: Grants) -> Grants {
    Grants {
        steps: one.steps.min(other.steps),
        shapes: one.shapes.min(other.shapes),
        entries: one.entries.min(other.entries),
        text_bytes: one.text_bytes.min(other.text_bytes),
        calls: one.calls.min(other.calls),
    }
}

/// Grants around what the run takes.
fn grants(specified: &Specified, random: &mut Random) -> Grants {
    let needed = needed(&specified.events);
    let chosen = match random.weighted(&[44, 18, 18, 8, 2, 1, 9]) {
        0 => GRANTS,
        // Exactly what is needed.
        1 => needed,
        // One less than needed of one kind, and enough of the others.
        2 => {
            let mut few = if random.chance(500) { needed } else { GRANTS };
            let uses = [
                needed.steps.min(1) as usize,
                3 * needed.shapes.min(1) as usize,
                4 * needed.entries.min(1) as usize,
                4 * needed.text_bytes.min(1) as usize,
                4 * (needed.calls - 1).min(1) as usize,
            ];
            if uses.iter().sum::<usize>() > 0 {
                match random.weighted(&uses) {
                    0 => few.steps = needed.steps - 1,
                    1 => few.shapes = needed.shapes - 1,
                    2 => few.entries = needed.entries - 1,
                    3 => few.text_bytes = needed.text_bytes - 1,
                    _ => few.calls = needed.calls - 1,
                }
            }
            few
        }
        // Just too little for one taking along the way.
        3 => {
            let at = random.below(specified.events.len());
            let before = self::needed(&specified.events[..at]);
            match specified.events.get(at) {
                Some(Event::Taken(Taking::Step, _)) => Grants {
                    steps: before.steps,
                    ..GRANTS
                },
                Some(Event::Taken(Taking::Shape, _)) => Grants {
                    shapes: before.shapes,
                    ..GRANTS
                },
                Some(Event::Taken(Taking::Entry, _)) => Grants {
                    entries: before.entries,
                    ..GRANTS
                },
                Some(Event::Taken(Taking::Text(bytes), _)) => Grants {
                    text_bytes: before.text_bytes + random.below(*bytes as usize) as u64,
                    ..GRANTS
                },
                Some(Event::Taken(Taking::Call, _)) => Grants {
                    calls: under_way(&specified.events[..at]).clamp(1, 64),
                    ..GRANTS
                },
                _ => before,
            }
        }
        // Any.
        4 => Grants {
            steps: random.below(needed.steps as usize + 20) as u64,
            shapes: random.below(needed.shapes as usize + 2) as u64,
            entries: random.below(needed.entries as usize + 2) as u64,
            text_bytes: random.below(needed.text_bytes as usize + 2) as u64,
            calls: random.between(1, needed.calls as usize + 1) as u64,
        },
        5 => Grants::LEAST,
        // The largest; a run that should have ended long ago is stopped sooner.
        _ => Grants {
            steps: *random.pick(&[1_000_000, 1_000_000, 1_000_000, Grants::LARGEST.steps]),
            ..Grants::LARGEST
        },
    };
    let mut grants = smaller(chosen, Grants::LARGEST);
    // A list that ends in a 65th call needs no fewer steps: that call ends
    // every run.
    let endless = specified.end == End::Cut && under_way(&specified.events) <= 64;
    if endless {
        grants.steps = grants.steps.min(needed.steps.saturating_sub(1));
    }
    grants
}

/// A length of the out slice around what the picture needs.
fn out_length(specified: &Specified, random: &mut Random) -> u64 {
    let needed = match &specified.end {
        End::Answer(Answer::Picture { length, .. }) => *length,
        _ => return *random.pick(&[OUT_LENGTH, 0, 1, 1_000]),
    };
    match random.weighted(&[45, 12, 8, 6, 12, 5]) {
        0 => OUT_LENGTH,
        1 => needed,
        2 => needed - 1,
        3 => needed + 1,
        4 => 0,
        _ => random.below(2 * needed as usize) as u64,
    }
}
