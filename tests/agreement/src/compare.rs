//! One call, judged by the proved library and by the reference.

use crate::{check, draw, text, Lent, Numbers, Work, CODE_WORDS, RUN_WORDS, TOKEN_WORDS};
pub use generator::case::one_less;
use generator::case::{needed, EVENTS};
use generator::text::{length, Call};
use reference::case::Case;
use reference::{run_specified, Answer, End, Grants, Operation};

/// What counts out of their ranges and slices that are too short give.
pub const REFUSED: Numbers = Numbers {
    number: 71,
    place: 0,
    steps: 0,
    length: 0,
};

/// The four numbers of a reference's answer.
pub fn numbers(answer: &Answer) -> Numbers {
    match *answer {
        Answer::WellFormed => Numbers {
            number: 0,
            place: 0,
            steps: 0,
            length: 0,
        },
        Answer::Picture { length, steps, .. } => Numbers {
            number: 0,
            place: 0,
            steps,
            length,
        },
        Answer::Number {
            number,
            place,
            steps,
            length_needed,
        } => Numbers {
            number: number.into(),
            place,
            steps,
            length: length_needed.unwrap_or(0),
        },
    }
}

/// The four numbers of what the reference hands back for a call of `text`.
pub fn text_numbers(answer: &Result<Vec<u8>, Answer>) -> Numbers {
    match answer {
        Ok(text) => Numbers {
            number: 0,
            place: 0,
            steps: 0,
            length: text.len() as u64,
        },
        Err(number) => numbers(number),
    }
}

/// What is wrong with the library's checking of a program, if anything is. Checking takes nothing, so the most and the least are granted by turns.
pub fn misfit(program: &[u8], seed: u64) -> Option<String> {
    let mut lent = Lent::filled(seed);
    let grants = match seed % 2 {
        0 => Grants::LEAST,
        _ => Grants::LARGEST,
    };
    let found = check(program, grants, &mut lent.tokens, &mut lent.code);
    let wanted = numbers(&reference::check(program));
    if found != wanted {
        return Some(format!("{found:?} where {wanted:?} is due"));
    }
    if !lent.is_zero() {
        return Some("a work slice is not zero".to_string());
    }
    None
}

/// The lengths of the four work slices.
#[derive(Clone, Copy, Debug, PartialEq, Eq)]
pub struct Lengths {
    pub tokens: usize,
    pub code: usize,
    pub words: usize,
    pub texts: usize,
}

impl Lengths {
    /// The least that docs/INTERFACE.md asks for. A count far out of its range is taken for the first that is out of it.
    pub fn needed(grants: Grants) -> Lengths {
        let count = |granted: u64| granted.min(65_536) as usize;
        Lengths {
            tokens: TOKEN_WORDS,
            code: CODE_WORDS,
            words: RUN_WORDS
                + 5 * count(grants.shapes)
                + (5 + grants.calls.min(65) as usize) * count(grants.entries),
            texts: count(grants.text_bytes),
        }
    }

    /// Each slice so much longer.
    pub fn longer(self, by: usize) -> Lengths {
        Lengths {
            tokens: self.tokens + by,
            code: self.code + by,
            words: self.words + by,
            texts: self.texts + by,
        }
    }

    /// One slice, by its number from 0 to 3, one element shorter, if it has one.
    pub fn shorter(self, which: u64) -> Option<Lengths> {
        let mut short = self;
        let slice = match which {
            0 => &mut short.tokens,
            1 => &mut short.code,
            2 => &mut short.words,
            _ => &mut short.texts,
        };
        *slice = slice.checked_sub(1)?;
        Some(short)
    }

    /// What an operation is lent of them: checking the first two slices alone.
    fn lent_to(self, operation: Operation) -> Lengths {
        match operation {
            Operation::Check => Lengths {
                words: 0,
                texts: 0,
                ..self
            },
            _ => self,
        }
    }

    /// Whether each slice is long enough.
    pub fn suffice(self, operation: Operation, grants: Grants) -> bool {
        let needed = Lengths::needed(grants).lent_to(operation);
        self.tokens >= needed.tokens
            && self.code >= needed.code
            && self.words >= needed.words
            && self.texts >= needed.texts
    }
}

/// How long a stretch of garbage is; longer slices repeat it.
const STRETCH: usize = 4_093;

/// What slices hold before calls: one kind of garbage as words and as bytes.
struct Garbage {
    words: Vec<u64>,
    bytes: Vec<u8>,
}

impl Garbage {
    fn new(element: impl Fn(u64) -> u64) -> Garbage {
        let words: Vec<u64> = (0..STRETCH as u64).map(element).collect();
        let bytes = words.iter().map(|word| *word as u8).collect();
        Garbage { words, bytes }
    }

    /// Zeros, small numbers, all ones, and bits that differ from place to place.
    fn kinds() -> [Garbage; 4] {
        [
            Garbage::new(|_| 0),
            Garbage::new(|at| at & 7),
            Garbage::new(|_| u64::MAX),
            Garbage::new(|at| {
                let mixed = (at + 1).wrapping_mul(0x9e37_79b9_7f4a_7c15);
                mixed ^ (mixed >> 29)
            }),
        ]
    }
}

/// Makes a slice of this length that holds the stretch over and over.
fn fill<T: Copy>(slice: &mut Vec<T>, length: usize, stretch: &[T]) {
    slice.clear();
    while slice.len() < length {
        let part = stretch.len().min(length - slice.len());
        slice.extend_from_slice(&stretch[..part]);
    }
}

/// Whether a slice holds, from this element on, what it was filled with.
fn is_kept<T: PartialEq>(slice: &[T], mut from: usize, stretch: &[T]) -> bool {
    while from < slice.len() {
        let start = from % stretch.len();
        let part = (stretch.len() - start).min(slice.len() - from);
        if slice[from..from + part] != stretch[start..start + part] {
            return false;
        }
        from += part;
    }
    true
}

/// Whether a slice holds zeros alone. It is read once, where a comparison with zeros would read these too.
fn is_zero<T: Copy + Into<u64>>(slice: &[T]) -> bool {
    slice.iter().fold(0, |all, element| all | (*element).into()) == 0
}

/// Bytes kept behind the lent part of the out slice; no call may reach them.
const BEHIND: usize = 32;

/// Slices that are lent again and again.
pub struct Lender {
    garbage: [Garbage; 4],
    work: Work,
    out: Vec<u8>,
    calls: u64,
    /// Whether work slices are filled and looked at in one of eight calls only; before the others they hold what the last one left.
    seldom: bool,
}

impl Default for Lender {
    fn default() -> Lender {
        Lender {
            garbage: Garbage::kinds(),
            work: Work::default(),
            out: Vec::new(),
            calls: 0,
            seldom: false,
        }
    }
}

impl Lender {
    /// For long runs: work slices are filled and looked at in one of eight calls. Answers and out slices are compared in all.
    pub fn seldom() -> Lender {
        Lender {
            seldom: true,
            ..Lender::default()
        }
    }

    /// How many calls were compared.
    pub fn calls(&self) -> u64 {
        self.calls
    }

    /// What is wrong with one call of the library, if anything is. The slices have these lengths and hold garbage by the seed.
    pub fn misfit(&mut self, case: &Case, lengths: Lengths, seed: u64) -> Option<String> {
        self.misfit_with(case, lengths, seed, library)
    }

    /// The same for anything that can be called as the library is.
    pub fn misfit_with(
        &mut self,
        case: &Case,
        lengths: Lengths,
        seed: u64,
        call: impl FnOnce(&Case, &mut Work, &mut [u8]) -> Numbers,
    ) -> Option<String> {
        let lengths = lengths.lent_to(case.operation);
        let (wanted, picture) = if lengths.suffice(case.operation, case.grants) {
            let answer = case.answer();
            let numbers = numbers(&answer);
            match answer {
                Answer::Picture { bytes, .. } => (numbers, bytes),
                _ => (numbers, Vec::new()),
            }
        } else {
            (REFUSED, Vec::new())
        };
        let out_length = match case.operation {
            Operation::Draw => case.out_length as usize,
            _ => 0,
        };
        self.judged(wanted, &picture, lengths, out_length, seed, |work, out| {
            call(case, work, out)
        })
    }

    /// What is wrong with a call that must give these numbers and write this to the front of the out slice, if anything is.
    fn judged(
        &mut self,
        wanted: Numbers,
        front: &[u8],
        lengths: Lengths,
        out_length: usize,
        seed: u64,
        call: impl FnOnce(&mut Work, &mut [u8]) -> Numbers,
    ) -> Option<String> {
        self.calls += 1;
        let looked_at = !self.seldom || self.calls % 8 == 1;
        self.fill(lengths, out_length, seed, looked_at);
        let found = call(&mut self.work, &mut self.out[..out_length]);
        if found != wanted {
            return Some(format!("{found:?} where {wanted:?} is due"));
        }
        if !looked_at {
            // the work slices are looked at in other calls
        } else if wanted.number == 71 {
            if !self.is_kept(seed) {
                return Some("a work slice is changed after 71".to_string());
            }
        } else if !self.is_zero() {
            return Some("a work slice is not zero".to_string());
        }
        if self.out[..front.len()] != *front {
            return Some("another picture or text".to_string());
        }
        let garbage = &self.garbage[(seed % 4) as usize];
        if !is_kept(&self.out, front.len(), &garbage.bytes) {
            return Some(if wanted.number == 0 {
                "the out slice is changed behind what is written".to_string()
            } else {
                "the out slice is changed after a number".to_string()
            });
        }
        None
    }

    /// The same, for the case's own grants in slices somewhat longer than they must be.
    pub fn misfit_of(&mut self, case: &Case, seed: u64) -> Option<String> {
        let longer = (seed % 5) as usize * 7;
        self.misfit(case, Lengths::needed(case.grants).longer(longer), seed)
    }

    /// The same in several calls: with its own out slice, with an empty one and, if there is a picture, with one of exactly its length and one byte less.
    pub fn misfit_by_room(&mut self, case: &Case, seed: u64) -> Option<String> {
        let with = |out_length| Case {
            out_length,
            ..case.clone()
        };
        let mut rooms = vec![case.out_length, 0];
        if let Answer::Number {
            length_needed: Some(need),
            ..
        } = with(0).answer()
        {
            rooms.extend([need - 1, need]);
        }
        rooms.into_iter().find_map(|room| {
            let what = self.misfit_of(&with(room), seed)?;
            Some(format!("{what}, into {room}"))
        })
    }

    /// What is wrong with any of the calls around a case: with its own grants, with exactly what its run takes, with one less of each kind, each with an empty
    /// out slice and such as are as long as the picture or nearly so, and with one work slice an element too short.
    pub fn misfit_around(&mut self, case: &Case, seed: u64) -> Option<String> {
        for (case, lengths) in around(case, seed) {
            if let Some(what) = self.misfit(&case, lengths, seed) {
                return Some(format!("{what}, {lengths:?}, {}", case.to_line()));
            }
        }
        None
    }

    /// What is wrong with one call of `text`, if anything is. It is lent what checking is lent, and an out slice.
    pub fn text_misfit(&mut self, call: &Call, lengths: Lengths, seed: u64) -> Option<String> {
        self.text_misfit_with(call, lengths, seed, library_text)
    }

    /// The same for anything that can be called as the library is.
    pub fn text_misfit_with(
        &mut self,
        call: &Call,
        lengths: Lengths,
        seed: u64,
        text: impl FnOnce(&Call, &mut Work, &mut [u8]) -> Numbers,
    ) -> Option<String> {
        let lengths = lengths.lent_to(Operation::Check);
        let (wanted, front) = if lengths.suffice(Operation::Check, call.grants) {
            let answer = call.answer();
            (text_numbers(&answer), answer.unwrap_or_default())
        } else {
            (REFUSED, Vec::new())
        };
        let out_length = call.out_length as usize;
        self.judged(wanted, &front, lengths, out_length, seed, |work, out| {
            text(call, work, out)
        })
    }

    /// The same, in slices somewhat longer than they must be.
    pub fn text_misfit_of(&mut self, call: &Call, seed: u64) -> Option<String> {
        let longer = (seed % 5) as usize * 7;
        self.text_misfit(call, Lengths::needed(call.grants).longer(longer), seed)
    }

    /// What is wrong with any of the calls around one of `text`: as it is, with an empty out slice, with such as are as long as the text or nearly so, and with
    /// a work slice that is a word too short.
    pub fn text_misfit_around(&mut self, call: &Call, seed: u64) -> Option<String> {
        let mut rooms = vec![call.out_length, 0];
        // How long a text is makes a difference only where there is one.
        if let Some(need) = length(&call.program) {
            let need = need as u64;
            rooms.extend([need - 1, need]);
            rooms.push(match seed % 3 {
                0 => need + 1,
                1 => need + 2 + seed % 1_000,
                _ => 32_768,
            });
        }
        for out_length in rooms {
            let call = Call {
                out_length,
                ..call.clone()
            };
            if let Some(what) = self.text_misfit_of(&call, seed) {
                return Some(format!("{what}, into {out_length}"));
            }
        }
        if seed.is_multiple_of(4) {
            let short = Lengths::needed(call.grants).shorter(seed / 4 % 2)?;
            let what = self.text_misfit(call, short, seed / 8)?;
            return Some(format!("{what}, {short:?}"));
        }
        None
    }

    fn fill(&mut self, lengths: Lengths, out_length: usize, seed: u64, with_garbage: bool) {
        let Garbage { words, bytes } = &self.garbage[(seed % 4) as usize];
        fill(&mut self.out, out_length + BEHIND, bytes);
        let work = &mut self.work;
        if with_garbage {
            fill(&mut work.tokens, lengths.tokens, words);
            fill(&mut work.code, lengths.code, words);
            fill(&mut work.words, lengths.words, words);
            fill(&mut work.texts, lengths.texts, bytes);
        } else {
            work.tokens.resize(lengths.tokens, 0);
            work.code.resize(lengths.code, 0);
            work.words.resize(lengths.words, 0);
            work.texts.resize(lengths.texts, 0);
        }
    }

    fn is_zero(&self) -> bool {
        let Work {
            tokens,
            code,
            words,
            texts,
        } = &self.work;
        is_zero(tokens) && is_zero(code) && is_zero(words) && is_zero(texts)
    }

    fn is_kept(&self, seed: u64) -> bool {
        self.holds(&self.garbage[(seed % 4) as usize])
    }

    fn holds(&self, garbage: &Garbage) -> bool {
        is_kept(&self.work.tokens, 0, &garbage.words)
            && is_kept(&self.work.code, 0, &garbage.words)
            && is_kept(&self.work.words, 0, &garbage.words)
            && is_kept(&self.work.texts, 0, &garbage.bytes)
    }
}

/// Calls the library.
pub fn library(case: &Case, work: &mut Work, out: &mut [u8]) -> Numbers {
    let Case {
        operation,
        width,
        height,
        grants,
        program,
        ..
    } = case;
    match operation {
        Operation::Check => check(program, *grants, &mut work.tokens, &mut work.code),
        Operation::Draw => draw(program, *width, *height, *grants, work, out),
    }
}

/// Calls the library for a text.
pub fn library_text(call: &Call, work: &mut Work, out: &mut [u8]) -> Numbers {
    let Work { tokens, code, .. } = work;
    text(&call.program, call.grants, tokens, code, out)
}

/// The calls around a case, each with the lengths of its work slices.
fn around(case: &Case, seed: u64) -> Vec<(Case, Lengths)> {
    let own = Lengths::needed(case.grants);
    let longer = (seed % 5) as usize * 7;
    let mut all = vec![(case.clone(), own.longer(longer))];
    if let Some(short) = own.shorter(seed / 4 % 4) {
        all.push((case.clone(), short));
    }
    let specified = run_specified(
        case.operation,
        &case.program,
        case.width,
        case.height,
        EVENTS,
    );
    let End::Answer(end) = &specified.end else {
        return all;
    };
    let exact = needed(&specified.events);
    let mut add = |grants: Grants, out_length: u64| {
        let call = Case {
            grants,
            out_length,
            ..case.clone()
        };
        all.push((call, Lengths::needed(grants)));
    };
    match *end {
        Answer::Picture { length: need, .. } => {
            for out_length in [0, need - 1, need] {
                add(exact, out_length);
            }
            for out_length in [0, need - 1, need, need + 1, need + 2 + seed % 1_000] {
                add(case.grants, out_length);
            }
            for few in one_less(exact) {
                add(few, need);
            }
        }
        // Without a picture the out slice makes no difference.
        _ => {
            add(exact, 0);
            add(case.grants, 0);
            for few in one_less(exact) {
                add(few, case.out_length);
            }
        }
    }
    all
}
