//! Programs and calls for the one text: spellings of one program, programs
//! that differ in little, and texts at the limit of their length.

use crate::case::any_program;
use crate::random::Random;
use crate::spacing::{write, Spacing};
use crate::spelling::{changed, respelled, spelled, Amount};
use crate::words::{string, OPERATORS};
use crate::{case_out_of_range, damage, groups, procedures, program, quiz};
use reference::grammar::read;
use reference::operation::{PROGRAM_BYTES, TEXT_BYTES};
use reference::sheet::GRANTS;
use reference::writer::text_of;
use reference::{Answer, Grants};

/// One call of `text`.
#[derive(Clone, Debug, PartialEq, Eq)]
pub struct Call {
    pub program: Vec<u8>,
    pub grants: Grants,
    pub out_length: u64,
}

impl Call {
    /// What the reference finds: a text or a number.
    pub fn answer(&self) -> Result<Vec<u8>, Answer> {
        reference::text(&self.program, self.grants, self.out_length)
    }
}

/// A call with all counts within their ranges.
pub fn call(seed: u64) -> Call {
    let mut random = Random::new(seed);
    let program = any(&mut random);
    let length = length(&program).unwrap_or(100) as u64;
    let grants = match random.below(4) {
        0 => Grants::LEAST,
        1 => Grants::LARGEST,
        2 => GRANTS,
        _ => Grants {
            steps: random.bits() % (1 << 32),
            shapes: random.below(65_536) as u64,
            entries: random.below(65_536) as u64,
            text_bytes: random.below(65_536) as u64,
            calls: random.between(1, 64) as u64,
        },
    };
    let out_length = match random.weighted(&[40, 15, 10, 10, 10, 15]) {
        0 => TEXT_BYTES,
        1 => length,
        2 => length.saturating_sub(1),
        3 => length + 1,
        4 => 0,
        _ => random.below(2 * length as usize) as u64,
    };
    Call {
        program,
        grants,
        out_length,
    }
}

/// A call with at least one count out of its range.
pub fn call_out_of_range(seed: u64) -> Call {
    Call {
        grants: case_out_of_range(seed).grants,
        ..call(seed)
    }
}

/// How long the text of a program would be, however long, if it can be read.
pub fn length(program: &[u8]) -> Option<usize> {
    read(program).ok().map(|tree| text_of(&tree).len())
}

/// A program of any sort, most often one that gets a text.
pub fn any(random: &mut Random) -> Vec<u8> {
    match random.weighted(&[58, 14, 6, 20, 2]) {
        0 => spelling(random),
        1 => {
            let program = spelling(random);
            changed(&program, random)
        }
        2 => {
            let program = spelling(random);
            damage::damaged(program, random)
        }
        3 => any_program(random),
        _ => long(random),
    }
}

/// A readable program in a spelling made for the purpose.
pub fn spelling(random: &mut Random) -> Vec<u8> {
    loop {
        let program = readable(random);
        if let Some(spelled) = respelled(&program, random) {
            return spelled;
        }
    }
}

/// A program that is most often readable.
pub fn readable(random: &mut Random) -> Vec<u8> {
    match random.weighted(&[42, 12, 8, 10, 28]) {
        0 => program::program(random),
        1 => procedures::program(random),
        2 => quiz::program(random),
        3 => groups::program(random),
        _ => {
            let tokens = derived(random);
            let spacing = Spacing::any(random);
            write(&tokens, spacing, random)
        }
    }
}

/// The tokens of a short program that follows the grammar and nothing else:
/// everything stands inside everything.
fn derived(random: &mut Random) -> Vec<String> {
    let mut derivation = Derivation {
        random,
        tokens: Vec::new(),
    };
    let procedures = derivation.random.weighted(&[0, 70, 20, 10]);
    for at in 0..procedures {
        let name = match at {
            0 => "main",
            1 => "f",
            _ => "f0",
        };
        derivation.put(&["def", name, "(", "w", ",", "h", ")", "{"]);
        derivation.statements(3);
        derivation.put(&["}"]);
    }
    derivation.tokens
}

struct Derivation<'r> {
    random: &'r mut Random,
    tokens: Vec<String>,
}

impl Derivation<'_> {
    fn put(&mut self, items: &[&str]) {
        self.tokens
            .extend(items.iter().map(|item| item.to_string()));
    }

    fn name(&mut self) {
        let name = *self.random.pick(&["w", "h", "a", "b1", "main", "drawBox"]);
        self.put(&[name]);
    }

    fn statements(&mut self, depth: usize) {
        for _ in 0..self.random.between(1, 4) {
            self.statement(depth);
        }
    }

    fn statement(&mut self, depth: usize) {
        let last = if depth == 0 { 0 } else { 10 };
        match self.random.weighted(&[8, 20, 20, 15, 27, last, last, last]) {
            0 => {
                self.put(&["var"]);
                self.name();
            }
            1 => {
                self.name();
                self.put(&["="]);
                self.expression(depth);
            }
            2 => {
                self.primary(depth);
                self.put(&["."]);
                self.primary(depth);
                self.put(&["="]);
                self.expression(depth);
            }
            3 => {
                self.put(&["return"]);
                self.expression(depth);
            }
            4 => self.expression(depth),
            5 => {
                self.put(&["{"]);
                self.statements(depth - 1);
                self.put(&["}"]);
                return;
            }
            6 => {
                self.put(&["foreach"]);
                self.name();
                self.put(&["in"]);
                self.expression(depth);
                self.put(&["do"]);
                self.statement(depth - 1);
                return;
            }
            _ => {
                let word = *self.random.pick(&["if", "while"]);
                self.put(&[word, "("]);
                self.expression(depth);
                self.put(&[")"]);
                self.statement(depth - 1);
                return;
            }
        }
        self.put(&[";"]);
    }

    fn expression(&mut self, depth: usize) {
        self.operand(depth);
        if self.random.chance(500) {
            // Most often one that also looks like a sign of a constant.
            let operator = match self.random.chance(400) {
                true => "-",
                false => *self.random.pick(&OPERATORS),
            };
            self.put(&[operator]);
            self.operand(depth);
        }
    }

    fn operand(&mut self, depth: usize) {
        self.primary(depth);
        if self.random.chance(400) {
            self.put(&["."]);
            self.primary(depth);
        }
    }

    fn primary(&mut self, depth: usize) {
        let deeper = if depth == 0 { 0 } else { 1 };
        let weights = [25, 20, 6, 8, 30 * deeper, 6 * deeper, 8 * deeper];
        match self.random.weighted(&weights) {
            0 => {
                let constants = ["0", "1", "-1", "-0", "00", "-007", "12", "-2147483648"];
                let constant = *self.random.pick(&constants);
                self.put(&[constant]);
            }
            1 => self.name(),
            2 => {
                let string = string(self.random);
                self.tokens.push(string);
            }
            3 => {
                let word = *self.random.pick(&["none", "true", "false"]);
                self.put(&[word]);
            }
            4 => {
                self.put(&["("]);
                self.expression(depth - 1);
                self.put(&[")"]);
            }
            5 => {
                self.put(&["["]);
                self.expression(depth - 1);
                self.put(&["]"]);
            }
            _ => {
                self.name();
                self.put(&["("]);
                for at in 0..self.random.below(4) {
                    if at > 0 {
                        self.put(&[","]);
                    }
                    self.expression(depth - 1);
                }
                self.put(&[")"]);
            }
        }
    }
}

/// A program whose text is nearly as long as a text may be, or a little
/// longer.
pub fn long(random: &mut Random) -> Vec<u8> {
    let target = TEXT_BYTES as usize - 8 + random.below(16);
    loop {
        let program = readable(random);
        let padded = |pad: usize| {
            let name = "p".repeat(pad);
            [&program, format!("def zz(){{{name};}}").as_bytes()].concat()
        };
        let Some(base) = length(&padded(1)) else {
            continue;
        };
        if base >= target {
            continue;
        }
        // Spaces and parentheses are left out where they do not fit.
        let program = padded(1 + target - base);
        let mut program = respelled(&program, random).unwrap_or(program);
        if random.chance(150) {
            program.resize(PROGRAM_BYTES - 1 + random.below(4), b' ');
        }
        return program;
    }
}

/// Makes a program around a name; it is longer by as much as the name is.
type Filling = Box<dyn Fn(&str) -> String>;

fn fillings() -> Vec<Filling> {
    fn main_of(body: &str) -> String {
        format!("def main(w,h){{{body}}}")
    }
    let deep = format!("{}1;{}", "{".repeat(63), "}".repeat(63));
    let procedures: String = (0..900).map(|k| format!("def f{k}(){{1;}}")).collect();
    let before = move |part: &str, times: usize| {
        let front = part.repeat(times);
        let filling: Filling = Box::new(move |name| main_of(&format!("{front}{name};")));
        filling
    };
    let mut all = vec![
        // The text is longer than the program, by little or by much.
        before("", 0),
        before("1;", 4_000),
        before("if(w)1;", 1_100),
        before("{1;}", 2_000),
        before(&deep, 60),
        before("return-1;", 2_000),
        before("foreach x in w do 1;", 900),
        before("foreach x in(w)do{1;}", 600),
        // It is shorter: spaces, parentheses, zeros.
        before(" ", 300),
        before("((1));", 900),
        before("000;", 900),
        before("w = ( w . 1 ) + -0 ;", 400),
    ];
    all.push(Box::new(|name| main_of(&format!("\"{name}\";"))));
    all.push(Box::new(|name| main_of(&format!("var {name};"))));
    all.push(Box::new(|name| main_of(&format!("return {name};"))));
    all.push(Box::new(|name| main_of(&format!("w={name}(1);"))));
    all.push(Box::new(move |name| {
        format!("{procedures}def main({name},h){{1;}}")
    }));
    all
}

/// Programs whose texts have 32,766 to 32,770 bytes, programs of 32,767 to
/// 32,769 bytes, and texts that are programs of as many; always in the same
/// order. Some of them have more bytes than a program may have.
pub fn lengths() -> Vec<Vec<u8>> {
    let mut all = Vec::new();
    let most = PROGRAM_BYTES;
    for filling in fillings() {
        let named = |pad: usize| filling(&"n".repeat(pad)).into_bytes();
        let base = length(&named(1)).expect("a readable program");
        for target in most - 2..=most + 2 {
            let program = named(1 + target - base);
            if let Ok(tree) = read(&program) {
                all.push(text_of(&tree));
            }
            all.push(program);
        }
        let base = named(1).len();
        for target in most - 1..=most + 1 {
            all.push(named(1 + target - base));
        }
    }
    // A name is defined twice, and the text is too long: 60.
    let name = "n".repeat(32_600);
    all.push(format!("def main(w,h){{{name};}}def main(){{1;}}").into_bytes());
    all
}

/// Programs filled with needless parentheses up to 64 levels and up to 8,192
/// tokens, and such with one or two tokens more; always the same.
pub fn brims() -> Vec<Vec<u8>> {
    let mut all = Vec::new();
    for seed in 0..16 {
        let mut random = Random::new(seed);
        let program = spelling(&mut random);
        all.extend(spelled(&program, Amount::Brim, &mut random));
    }
    // 9 tokens besides the body's.
    for (parenthesised, rest) in [
        (2_045, "-0;"),
        (2_045, "(0);"),
        (2_045, "1;"),
        (2_044, "(-0);w;"),
        (2_044, "(((0)));"),
        (2_044, "(w.1)+-0;"),
    ] {
        let body = format!("{}{rest}", "(1);".repeat(parenthesised));
        all.push(format!("def main(w,h){{{body}}}").into_bytes());
    }
    all
}
