//! What a run takes: the accounts a run takes from, the list of events of
//! the specified run, and the book that answers from that list.

use crate::operation::{self, Answer, Grants, Operation};
use crate::run::{self, Finish};

/// Something that falls due in a run.
#[derive(Clone, Copy, Debug, PartialEq, Eq)]
pub enum Taking {
    Step,
    Shape,
    Entry,
    /// Some text bytes at once.
    Text(u64),
    /// A call under way, main's among them and those of the library not.
    Call,
    /// The length of a drawn picture.
    Picture(u64),
}

/// What happens to a run's totals: a taking with its place, or the return of
/// a procedure, which gives its call back.
#[derive(Clone, Copy, Debug, PartialEq, Eq)]
pub enum Event {
    Taken(Taking, usize),
    GaveBack,
}

/// Why a run stopped early.
#[derive(Clone, Copy, Debug, PartialEq, Eq)]
pub enum Stop {
    Number {
        number: u32,
        place: usize,
    },
    /// The list of events was cut off; nothing is said about the run's end.
    Cut,
}

/// What a run takes its steps, shapes, entries, text bytes and calls from.
pub trait Account {
    fn take(&mut self, taking: Taking, place: usize) -> Result<(), Stop>;
    /// A call is given back.
    fn give_back(&mut self) -> Result<(), Stop>;
}

impl<A: Account> Account for &mut A {
    fn take(&mut self, taking: Taking, place: usize) -> Result<(), Stop> {
        (**self).take(taking, place)
    }

    fn give_back(&mut self) -> Result<(), Stop> {
        (**self).give_back()
    }
}

/// What is left of the granted counts.
#[derive(Clone, Copy, Debug)]
pub struct Left {
    counts: Grants,
}

impl Left {
    pub fn new(grants: Grants) -> Left {
        Left { counts: grants }
    }
}

impl Account for Left {
    fn take(&mut self, taking: Taking, place: usize) -> Result<(), Stop> {
        let (left, amount, number) = match taking {
            Taking::Step => (&mut self.counts.steps, 1, 79),
            Taking::Shape => (&mut self.counts.shapes, 1, 76),
            Taking::Entry => (&mut self.counts.entries, 1, 77),
            Taking::Text(bytes) => (&mut self.counts.text_bytes, bytes, 78),
            Taking::Call => (&mut self.counts.calls, 1, 81),
            // A run draws nothing itself; the drawing asks for its length.
            Taking::Picture(_) => return Ok(()),
        };
        if *left < amount {
            return Err(Stop::Number { number, place });
        }
        *left -= amount;
        Ok(())
    }

    fn give_back(&mut self) -> Result<(), Stop> {
        self.counts.calls += 1;
        Ok(())
    }
}

/// A list of events. It never refuses one, but is cut off once it is as long
/// as its limit, or holds a taking that no grant within its range can cover.
#[derive(Debug)]
pub struct List {
    events: Vec<Event>,
    limit: usize,
    totals: Grants,
}

impl List {
    pub fn new(limit: usize) -> List {
        List {
            events: Vec::new(),
            limit,
            totals: Grants::NOTHING,
        }
    }

    fn push(&mut self, event: Event) -> Result<(), Stop> {
        if self.events.len() >= self.limit {
            return Err(Stop::Cut);
        }
        self.events.push(event);
        Ok(())
    }
}

impl Account for List {
    fn take(&mut self, taking: Taking, place: usize) -> Result<(), Stop> {
        self.push(Event::Taken(taking, place))?;
        match taking {
            Taking::Step => self.totals.steps += 1,
            Taking::Shape => self.totals.shapes += 1,
            Taking::Entry => self.totals.entries += 1,
            Taking::Text(bytes) => self.totals.text_bytes += bytes,
            Taking::Call => self.totals.calls += 1,
            Taking::Picture(_) => {}
        }
        if self.totals.within(&Grants::LARGEST) {
            Ok(())
        } else {
            Err(Stop::Cut)
        }
    }

    fn give_back(&mut self) -> Result<(), Stop> {
        self.push(Event::GaveBack)?;
        self.totals.calls -= 1;
        Ok(())
    }
}

/// The specified run: its events and its end.
#[derive(Clone, Debug, PartialEq, Eq)]
pub struct Specified {
    pub events: Vec<Event>,
    pub end: End,
}

/// The end of the list of events.
#[derive(Clone, Debug, PartialEq, Eq)]
pub enum End {
    /// The run ended, with what it hands back if every taking fits.
    Answer(Answer),
    /// The list is a beginning of the run's list.
    Cut,
}

/// The specified run of a call that got past the first question, with at most
/// `limit` events; a drawn picture's length comes on top.
pub fn run_specified(
    operation: Operation,
    program: &[u8],
    width: i32,
    height: i32,
    limit: usize,
) -> Specified {
    operation::with_room(|| listed(operation, program, width, height, limit))
}

fn listed(
    operation: Operation,
    program: &[u8],
    width: i32,
    height: i32,
    limit: usize,
) -> Specified {
    let ended = |events, answer| Specified {
        events,
        end: End::Answer(answer),
    };
    let tree = match operation::prepare(operation, program, width, height) {
        Ok(tree) => tree,
        Err(answer) => return ended(Vec::new(), answer),
    };
    if operation == Operation::Check {
        return ended(Vec::new(), Answer::WellFormed);
    }
    let mut list = List::new(limit);
    let Finish { steps, end } = run::run(&tree, width, height, &mut list);
    let mut events = list.events;
    match end {
        Err(Stop::Cut) => Specified {
            events,
            end: End::Cut,
        },
        Err(Stop::Number { number, place }) => ended(events, Answer::number(number, place, steps)),
        Ok(shapes) => {
            let answer = operation::finished(width, height, &shapes, steps);
            if let Answer::Picture { length, .. } = &answer {
                events.push(Event::Taken(Taking::Picture(*length), 0));
            }
            ended(events, answer)
        }
    }
}

/// Adds up the takings and answers with the first that does not fit, or as
/// the specified run ends. Nothing if the list was cut off before that.
pub fn book(specified: &Specified, grants: Grants, out_length: u64) -> Option<Answer> {
    if !grants.in_range() {
        return Some(Answer::number(71, 0, 0));
    }
    let mut totals = Grants::NOTHING;
    for event in &specified.events {
        let Event::Taken(taking, place) = event else {
            totals.calls -= 1;
            continue;
        };
        let (total, amount, grant, number) = match taking {
            Taking::Step => (&mut totals.steps, 1, grants.steps, 79),
            Taking::Shape => (&mut totals.shapes, 1, grants.shapes, 76),
            Taking::Entry => (&mut totals.entries, 1, grants.entries, 77),
            Taking::Text(bytes) => (&mut totals.text_bytes, *bytes, grants.text_bytes, 78),
            Taking::Call => (&mut totals.calls, 1, grants.calls, 81),
            Taking::Picture(length) => {
                if *length > out_length {
                    return Some(Answer::Number {
                        number: 80,
                        place: *place as u64,
                        steps: totals.steps,
                        length_needed: Some(*length),
                    });
                }
                continue;
            }
        };
        if *total + amount > grant {
            return Some(Answer::number(number, *place, totals.steps));
        }
        *total += amount;
    }
    match &specified.end {
        End::Answer(answer) => Some(answer.clone()),
        End::Cut => None,
    }
}
