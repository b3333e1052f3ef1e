//! Well-formed programs. The maker keeps an idea of what each variable holds
//! so that most programs run for a while, and now and then does something
//! else than it knows to be right.

use crate::procedures::{how_many, shuffled};
use crate::random::Random;
use crate::spacing::{write, Spacing};
use crate::words::{
    constant, edge, string, COUNTERS, KEYS, LIBRARY, LITERALS, NAMES, OPERATORS, SHAPES, SPECIAL,
    UNKNOWN,
};

/// The kind of a value.
#[derive(Clone, Copy, Debug, PartialEq, Eq)]
enum Kind {
    Integer,
    Text,
    Boolean,
    None,
    Table,
    /// An atomic shape.
    Shape,
    Group,
    /// A destroyed shape.
    Gone,
}

const WANTED: [Kind; 7] = [
    Kind::Integer,
    Kind::Text,
    Kind::Boolean,
    Kind::None,
    Kind::Table,
    Kind::Shape,
    Kind::Group,
];

/// A variable and what it is thought to hold.
#[derive(Clone, Debug)]
struct Variable {
    name: String,
    holds: Kind,
    /// The keys of a table, each with the kind of its value.
    keys: Vec<(Tokens, Kind)>,
    counts: bool,
}

type Tokens = Vec<String>;

/// A procedure of the program's own, main excepted.
#[derive(Clone, Debug)]
struct Own {
    name: String,
    parameters: Vec<(String, Kind)>,
    /// The kind of what it hands back.
    gives: Kind,
    /// Whether its first parameter counts down to the end of its recursion.
    counts: bool,
}

/// Names for procedures, some of which variables and the documents have too.
const PROCEDURES: [&str; 14] = [
    "f",
    "g",
    "bar",
    "a",
    "x",
    "sin",
    "eval",
    "drawgroup",
    "foo",
    "scale",
    "w",
    "drawbox",
    "In",
    "stickman",
];

/// What counts down.
const COUNT: &str = "n";

/// A well-formed program.
pub fn program(random: &mut Random) -> Vec<u8> {
    let spacing = Spacing::any(random);
    let tokens = tokens(random);
    write(&tokens, spacing, random)
}

/// The tokens of a well-formed program.
fn tokens(random: &mut Random) -> Tokens {
    let left = match random.weighted(&[20, 40, 30, 10]) {
        0 => random.between(1, 5),
        1 => random.between(5, 20),
        2 => random.between(20, 60),
        _ => random.between(60, 150),
    };
    let noise = if left <= 5 {
        *random.pick(&[0, 0, 30, 100, 200])
    } else {
        *random.pick(&[0, 0, 0, 0, 0, 0, 0, 0, 2, 8])
    };
    let danger = *random.pick(&[0, 20, 60, 150]);
    let wild = random.chance(200);
    let own = own_procedures(random);
    let mut maker = Maker {
        random,
        tokens: Vec::new(),
        variables: Vec::new(),
        noise,
        danger,
        wild,
        left,
        loops: 0,
        nesting: 0,
        within: own.len(),
        own,
    };
    maker.main();
    let mut all = vec![std::mem::take(&mut maker.tokens)];
    for place in 0..maker.own.len() {
        maker.procedure(place);
        all.push(std::mem::take(&mut maker.tokens));
    }
    if maker.random.chance(8) {
        maker.doubled();
        all.push(std::mem::take(&mut maker.tokens));
    }
    if maker.random.chance(300) {
        return all.concat();
    }
    shuffled(all, maker.random).concat()
}

/// The procedures of a program, none as often as not.
fn own_procedures(random: &mut Random) -> Vec<Own> {
    let mut all: Vec<Own> = Vec::new();
    for _ in 0..random.weighted(&[45, 20, 15, 12, 8]) {
        let name = random.pick(&PROCEDURES).to_string();
        if all.iter().any(|other| other.name == name) {
            continue;
        }
        let counts = random.chance(350);
        let mut parameters = Vec::new();
        if counts {
            parameters.push((COUNT.to_string(), Kind::Integer));
        }
        for _ in 0..random.weighted(&[25, 35, 25, 10, 5]) {
            let name = *random.pick(&["x", "y", "z", "a", "b", "w", "bar", "sin", "t"]);
            let twice = parameters.iter().any(|(other, _)| other == name);
            if !twice || random.chance(40) {
                let kind = WANTED[random.weighted(&[30, 10, 6, 4, 12, 32, 14])];
                parameters.push((name.to_string(), kind));
            }
        }
        let gives = WANTED[random.weighted(&[28, 8, 10, 10, 8, 28, 12])];
        all.push(Own {
            name,
            parameters,
            gives,
            counts,
        });
    }
    all
}

fn texts(items: &[&str]) -> Tokens {
    items.iter().map(|item| item.to_string()).collect()
}

struct Maker<'r> {
    random: &'r mut Random,
    tokens: Tokens,
    variables: Vec<Variable>,
    /// How often, of a thousand times, something is not as it should be.
    noise: usize,
    /// How often, of a thousand times, a shape is destroyed on the way.
    danger: usize,
    /// Whether there are loops without an end and odd declarations.
    wild: bool,
    /// How many statements may still come.
    left: usize,
    /// How many loops stand around the place.
    loops: usize,
    /// How many primaries stand around the place.
    nesting: usize,
    own: Vec<Own>,
    /// Which of these is being made; main is behind the last.
    within: usize,
}

impl Maker<'_> {
    fn put(&mut self, items: &[&str]) {
        self.tokens.extend(texts(items));
    }

    fn append(&mut self, items: Tokens) {
        self.tokens.extend(items);
    }

    /// Never true deep inside, so that no expression grows without end.
    fn noisy(&mut self) -> bool {
        self.nesting < 8 && self.random.chance(self.noise)
    }

    fn know(&mut self, name: &str, holds: Kind, counts: bool) {
        self.variables.push(Variable {
            name: name.to_string(),
            holds,
            keys: Vec::new(),
            counts,
        });
    }

    fn main(&mut self) {
        self.put(&["def", "main", "("]);
        let parameters: &[&str] = match self.random.weighted(&[900, 40, 6, 6, 6, 8, 4]) {
            0 => &["w", "h"],
            1 => &["width", "height"],
            2 => &[],
            3 => &["w"],
            4 => &["w", "h", "d"],
            5 => &["w", "w"],
            _ => &["w", "h", "w"],
        };
        for (place, name) in parameters.iter().enumerate() {
            if place > 0 {
                self.put(&[","]);
            }
            self.put(&[name]);
            self.know(name, Kind::Integer, false);
        }
        self.put(&[")", "{"]);
        if self.random.chance(100) {
            // Names that stand in the program before they are declared.
            self.put(&["if", "(", "false", ")", "{"]);
            for _ in 0..self.random.between(2, 12) {
                let name = self.random.pick(&NAMES).to_string();
                self.put(&[&name, ";"]);
            }
            self.put(&["}"]);
        }
        if self.random.chance(600) {
            for name in COUNTERS {
                self.put(&["var", name, ";"]);
                self.know(name, Kind::None, true);
            }
        }
        if self.random.chance(700) {
            for _ in 0..self.random.between(1, 6) {
                self.new_variable();
            }
        }
        self.statement(4);
        while self.left > 0 {
            self.statement(4);
        }
        if self.random.chance(80) {
            let odd = self.odd_primary(1);
            self.append(odd);
            self.put(&[";"]);
        }
        self.put(&["}"]);
    }

    /// A procedure. Most end in a return.
    fn procedure(&mut self, place: usize) {
        let Own {
            name,
            parameters,
            gives,
            counts,
        } = self.own[place].clone();
        self.within = place;
        self.variables.clear();
        self.left = self.random.weighted(&[2, 5, 5, 3, 2, 1]);
        self.put(&["def", &name, "("]);
        for (at, (name, kind)) in parameters.iter().enumerate() {
            if at > 0 {
                self.put(&[","]);
            }
            self.put(&[name]);
            self.know(name, *kind, false);
        }
        self.put(&[")", "{"]);
        if counts {
            // What counts down is not assigned.
            self.variables[0].counts = true;
            self.put(&["if", "(", COUNT, "<", "1", ")"]);
            self.hand_back(gives);
        }
        if self.random.chance(300) {
            for name in COUNTERS {
                self.put(&["var", name, ";"]);
                self.know(name, Kind::None, true);
            }
        }
        while self.left > 0 {
            self.statement(2);
        }
        if counts && self.random.chance(600) {
            // It calls itself, or another that counts down.
            let counting: Vec<usize> = (0..self.own.len())
                .filter(|other| self.own[*other].counts)
                .collect();
            let other = match self.random.chance(700) {
                true => place,
                false => *self.random.pick(&counting),
            };
            let call = self.own_call(other, 1);
            if self.own[other].gives == gives && self.random.chance(600) {
                self.put(&["return"]);
            }
            self.append(call);
            self.put(&[";"]);
        }
        match self.random.weighted(&[70, 10, 20]) {
            0 => self.hand_back(gives),
            1 => {
                let other = self.any_kind();
                self.hand_back(other);
            }
            _ => self.put(&["1", ";"]),
        }
        self.put(&["}"]);
    }

    fn hand_back(&mut self, kind: Kind) {
        let value = self.expression(kind, 1);
        self.put(&["return"]);
        self.append(value);
        self.put(&[";"]);
    }

    /// A procedure whose name another one or the library has.
    fn doubled(&mut self) {
        let name = match (self.random.below(3), self.own.first()) {
            (0, _) => "main".to_string(),
            (1, Some(first)) => first.name.clone(),
            _ => self.random.pick(&LIBRARY).0.to_string(),
        };
        self.put(&["def", &name, "(", "w", ",", "h", ")", "{", "1", ";", "}"]);
    }

    /// A procedure that can be called here without end in sight, if there is
    /// one that gives the kind: one further down, or one that counts down
    /// from one that counts down.
    fn callable(&mut self, kind: Kind) -> Option<usize> {
        let main = self.within == self.own.len();
        let counting = !main && self.own[self.within].counts;
        let places: Vec<usize> = (0..self.own.len())
            .filter(|place| {
                let own = &self.own[*place];
                let ends = main || *place > self.within || (counting && own.counts);
                ends && own.gives == kind
            })
            .collect();
        if places.is_empty() {
            return None;
        }
        Some(*self.random.pick(&places))
    }

    fn own_call(&mut self, place: usize, depth: usize) -> Tokens {
        let Own {
            name,
            parameters,
            counts,
            ..
        } = self.own[place].clone();
        let counting = self.within < self.own.len() && self.own[self.within].counts;
        let mut arguments = Vec::new();
        for (at, (_, kind)) in parameters.iter().enumerate() {
            arguments.push(match at == 0 && counts {
                true if counting => texts(&[COUNT, "-", "1"]),
                true if self.random.chance(850) => vec![self.random.below(5).to_string()],
                true => vec![how_many(self.random).to_string()],
                false => self.expression(*kind, depth),
            });
        }
        if self.noisy() {
            if self.random.chance(500) {
                arguments.pop();
            } else {
                arguments.push(self.any_expression(depth));
            }
        }
        if self.noisy() {
            let shape = self.shape_to_destroy(depth);
            arguments.push(call("destroyShape", vec![shape]));
        }
        call(&name, arguments)
    }

    /// A name that is not declared yet.
    fn fresh_name(&mut self) -> String {
        for _ in 0..10 {
            let name = self.random.pick(&NAMES).to_string();
            if self.place_of(&name).is_none() {
                return name;
            }
        }
        format!("v{}", self.variables.len())
    }

    fn place_of(&self, name: &str) -> Option<usize> {
        self.variables.iter().position(|known| known.name == name)
    }

    /// A variable that holds the kind, if there is one.
    fn holder(&mut self, kind: Kind) -> Option<usize> {
        let places: Vec<usize> = (0..self.variables.len())
            .filter(|place| self.variables[*place].holds == kind)
            .collect();
        if places.is_empty() {
            return None;
        }
        Some(*self.random.pick(&places))
    }

    fn any_kind(&mut self) -> Kind {
        let place = self.random.weighted(&[26, 12, 10, 5, 15, 30, 10]);
        WANTED[place]
    }

    /// Declares a variable and mostly gives it a value.
    fn new_variable(&mut self) {
        let name = self.fresh_name();
        self.put(&["var", &name, ";"]);
        self.know(&name, Kind::None, false);
        if self.random.chance(850) {
            let kind = self.any_kind();
            self.assign(self.variables.len() - 1, kind);
        }
    }

    /// Assigns a value of the kind to a variable.
    fn assign(&mut self, place: usize, kind: Kind) {
        let name = self.variables[place].name.clone();
        let depth = self.random.between(0, 3);
        let value = self.expression(kind, depth);
        self.put(&[&name, "="]);
        self.append(value);
        self.put(&[";"]);
        let keys = self.shared_keys(kind);
        let variable = &mut self.variables[place];
        variable.holds = kind;
        variable.keys = keys;
    }

    /// The keys of the table that was just mentioned, if it was a variable.
    fn shared_keys(&self, kind: Kind) -> Vec<(Tokens, Kind)> {
        if kind != Kind::Table {
            return Vec::new();
        }
        let mentioned = self.tokens.iter().rev().nth(1);
        let place = mentioned.and_then(|name| self.place_of(name));
        place.map_or(Vec::new(), |place| self.variables[place].keys.clone())
    }

    fn statement(&mut self, depth: usize) {
        self.left = self.left.saturating_sub(1);
        let nested = usize::from(depth > 0);
        let wild = usize::from(self.wild);
        let declaring = if self.loops > 0 { 2 } else { 42 };
        let weights = [
            declaring,
            102,
            36,
            30 * nested,
            21 * nested,
            15 * nested,
            27,
            12,
            6 * wild,
            1 + 2 * wild,
            3 * wild,
            6,
            16 * nested,
        ];
        match self.random.weighted(&weights) {
            0 => self.new_variable(),
            1 => self.any_assignment(),
            2 => self.update(),
            3 => self.conditional(depth - 1),
            4 => self.bounded_loop(depth - 1),
            5 => self.block(depth - 1),
            6 => self.expression_statement(),
            7 => self.destruction(),
            8 => self.rare_statement(),
            9 => self.finish(),
            10 => self.growth(),
            11 => self.pattern(),
            _ => self.foreach(depth - 1),
        }
    }

    fn any_assignment(&mut self) {
        if self.noisy() {
            let name = self.random.pick(&NAMES).to_string();
            let kind = self.any_kind();
            let value = self.expression(kind, 1);
            self.put(&[&name, "="]);
            self.append(value);
            self.put(&[";"]);
            return;
        }
        let places: Vec<usize> = (0..self.variables.len())
            .filter(|place| !self.variables[*place].counts)
            .collect();
        if places.is_empty() {
            return self.expression_statement();
        }
        let place = *self.random.pick(&places);
        let held = self.variables[place].holds;
        let kind = match held {
            Kind::None | Kind::Gone => self.any_kind(),
            _ if self.loops > 0 || self.random.chance(600) => held,
            _ => self.any_kind(),
        };
        self.assign(place, kind);
    }

    fn update(&mut self) {
        let depth = self.random.between(0, 2);
        let Some(place) = self.holder(Kind::Table) else {
            if self.random.chance(300) {
                let table = self.primary(Kind::Table, depth);
                let key = self.key(depth);
                let value = self.any_expression(depth);
                self.put_update(table, key, value);
                return;
            }
            return self.any_assignment();
        };
        let name = self.variables[place].name.clone();
        let kind = self.any_kind();
        let old = self.variables[place].keys.clone();
        let key = if !old.is_empty() && self.random.chance(300) {
            self.random.pick(&old).0.clone()
        } else {
            self.key(depth)
        };
        let value = self.expression(kind, depth);
        let lasting = key.iter().all(|token| self.place_of(token).is_none());
        self.put_update(vec![name], key.clone(), value);
        let known = &mut self.variables[place].keys;
        known.retain(|(other, _)| *other != key);
        if lasting || self.random.chance(200) {
            self.variables[place].keys.push((key, kind));
        }
    }

    /// A primary for a key, most often one that other keys are like. A group
    /// is none.
    fn key(&mut self, depth: usize) -> Tokens {
        match self.random.weighted(&[50, 15, 35]) {
            0 => vec![self.random.pick(&KEYS).to_string()],
            1 => vec![self.random.pick(&SHAPES).to_string()],
            _ => match self.any_kind() {
                Kind::Group if !self.noisy() => self.primary(Kind::Shape, depth),
                kind => self.primary(kind, depth),
            },
        }
    }

    fn put_update(&mut self, table: Tokens, key: Tokens, value: Tokens) {
        self.append(table);
        self.put(&["."]);
        self.append(key);
        self.put(&["="]);
        self.append(value);
        self.put(&[";"]);
    }

    fn any_expression(&mut self, depth: usize) -> Tokens {
        let kind = self.any_kind();
        self.expression(kind, depth)
    }

    fn conditional(&mut self, depth: usize) {
        let test = self.expression(Kind::Boolean, 2);
        self.put(&["if", "("]);
        self.append(test);
        self.put(&[")"]);
        let before = self.variables.clone();
        match self.random.weighted(&[50, 20, 10, 10, 10]) {
            0 => self.block(depth),
            1 => self.any_assignment(),
            2 => self.update(),
            3 => self.expression_statement(),
            _ => self.statement(depth),
        }
        if self.random.chance(850) {
            self.variables.truncate(before.len());
        }
        if self.random.chance(500) && self.variables.len() == before.len() {
            self.variables = before;
        }
    }

    fn block(&mut self, depth: usize) {
        self.put(&["{"]);
        for _ in 0..self.random.between(1, 4) {
            self.statement(depth);
        }
        self.put(&["}"]);
    }

    /// A loop that counts to a small number.
    fn bounded_loop(&mut self, depth: usize) {
        let counters: Vec<String> = (self.variables.iter())
            .filter(|known| known.counts)
            .map(|known| known.name.clone())
            .collect();
        let Some(counter) = counters.get(self.loops) else {
            return self.conditional(depth);
        };
        let counter = counter.clone();
        if let Some(place) = self.place_of(&counter) {
            self.variables[place].holds = Kind::Integer;
        }
        let rounds = match self.random.weighted(&[80, 15, 5]) {
            0 => self.random.between(0, 5),
            1 => self.random.between(6, 20),
            _ => self.random.between(20, 90),
        };
        let rounds = rounds.to_string();
        self.put(&[&counter, "=", "0", ";"]);
        self.put(&["while", "(", &counter, "<", &rounds, ")", "{"]);
        self.loops += 1;
        for _ in 0..self.random.between(1, 3) {
            self.statement(depth);
        }
        self.loops -= 1;
        if self.random.chance(985) {
            self.put(&[&counter, "=", &counter, "+", "1", ";"]);
        }
        self.put(&["}"]);
    }

    /// A foreach, whose variable may be declared or not.
    fn foreach(&mut self, depth: usize) {
        let group = self.expression(Kind::Group, 1);
        let known = self.holder(Kind::Shape);
        let name = match known {
            Some(place) if self.random.chance(250) => self.variables[place].name.clone(),
            _ => self.fresh_name(),
        };
        self.put(&["foreach", &name, "in"]);
        self.append(group);
        self.put(&["do"]);
        if self.place_of(&name).is_none() {
            self.know(&name, Kind::Shape, false);
        }
        self.loops += 1;
        match self.random.weighted(&[40, 15, 10, 10, 8, 17]) {
            0 => self.block(depth),
            1 => self.any_assignment(),
            2 => self.update(),
            3 => self.expression_statement(),
            4 => self.destruction(),
            _ => match self.holder(Kind::Group) {
                // More into a group that is held.
                Some(place) => {
                    let held = self.variables[place].name.clone();
                    self.put(&[&held, "=", "drawGroup", "(", &held, ",", &name, ")", ";"]);
                }
                None => self.statement(depth),
            },
        }
        self.loops -= 1;
    }

    fn expression_statement(&mut self) {
        let depth = self.random.between(0, 4);
        let expression = self.any_expression(depth);
        self.append(expression);
        self.put(&[";"]);
    }

    /// A statement that destroys something.
    fn destruction(&mut self) {
        if self.random.chance(100) {
            self.put(&["clearScene", "(", ")", ";"]);
            self.forget_shapes();
            return;
        }
        if self.random.chance(self.danger) {
            let expression = self.used_and_destroyed();
            self.append(expression);
            self.put(&[";"]);
            return;
        }
        let shape = self.shape_to_destroy(1);
        self.put(&["destroyShape", "("]);
        self.append(shape);
        self.put(&[")", ";"]);
    }

    fn forget_shapes(&mut self) {
        for variable in &mut self.variables {
            if matches!(variable.holds, Kind::Shape | Kind::Group) {
                variable.holds = Kind::Gone;
            }
        }
    }

    /// An expression for a shape, which is destroyed if it is a variable's.
    fn shape_to_destroy(&mut self, depth: usize) -> Tokens {
        let kind = self.shape_or_group();
        match self.holder(kind) {
            Some(place) if self.random.chance(700) => {
                self.variables[place].holds = Kind::Gone;
                vec![self.variables[place].name.clone()]
            }
            _ => self.expression(kind, depth),
        }
    }

    fn shape_or_group(&mut self) -> Kind {
        match self.random.chance(750) {
            true => Kind::Shape,
            false => Kind::Group,
        }
    }

    /// A key that means the same wherever it stands.
    fn lasting_key(&mut self) -> String {
        if self.random.chance(300) {
            return self.random.pick(&SHAPES).to_string();
        }
        let keys = [
            "0", "1", "01", "true", "false", "none", "\"none\"", "\"true\"", "\"a\"",
        ];
        self.random.pick(&keys).to_string()
    }

    /// A few statements in which a shape is shared, kept or destroyed.
    fn pattern(&mut self) {
        let (Some(shape), Some(table)) = (self.holder(Kind::Shape), self.holder(Kind::Table))
        else {
            return self.any_assignment();
        };
        let a = self.variables[shape].name.clone();
        let t = self.variables[table].name.clone();
        let [k, l, m] = [(); 3].map(|()| self.lasting_key());
        self.variables[table].keys.clear();
        let (gone, text) = match self.random.below(18) {
            0 => (true, "T.K=A;destroyShape(A);T.K;"),
            1 => (true, "T.A=destroyShape(A);"),
            2 => (true, "T.K=A;clearScene();T.K;"),
            3 => (true, "T.K=A;A=A+1;clearScene();A=T.K;"),
            4 => (true, "T.A=1;destroyShape(A);T.K=2;"),
            5 => (false, "T.K=A;A=T.K;destroyShape(T.K);A;"),
            6 => (false, "T.K=A;A=1;clearScene();A=T.K;"),
            7 => (false, "T.K=A+0;clearScene();A=T.K;"),
            8 => (true, "T.none=A;T.destroyShape(A);"),
            9 => (false, "T.K=T;(T.K).K=A;A=(T.K).K;"),
            10 => (true, "T.none=5;A+(T.destroyShape(A));"),
            11 => (false, "T.A=A;A=T.A;"),
            14..=17 => (false, "T=[0];T.K=1;T.L=2;A=drawBox(T.K,T.L,T.K,T.L);T.M;"),
            12 => (true, "T.K=A;T.1=T.K;destroyShape(T.1);T.K=3;A;"),
            _ => (true, "T.(A+0)=2;destroyShape(A);T.K=none;"),
        };
        if gone {
            self.variables[shape].holds = Kind::Gone;
        }
        for part in text.split_inclusive(';') {
            let mut rest = part;
            while let Some(first) = rest.chars().next() {
                // A run of letters or digits is a token, any sign another.
                let length = match rest.find(|c: char| !c.is_ascii_alphanumeric()) {
                    Some(0) => first.len_utf8(),
                    Some(length) => length,
                    None => rest.len(),
                };
                let token = match &rest[..length] {
                    "A" => a.clone(),
                    "T" => t.clone(),
                    "K" => k.clone(),
                    "L" => l.clone(),
                    "M" => m.clone(),
                    other => other.to_string(),
                };
                self.tokens.push(token);
                rest = &rest[length..];
            }
        }
    }

    /// A declaration that may not be right, or a loop without an end.
    fn rare_statement(&mut self) {
        match self.random.weighted(&[4, 4, 1]) {
            0 if !self.variables.is_empty() => {
                // Declares what is declared already, where it may matter.
                let place = self.random.below(self.variables.len());
                let name = self.variables[place].name.clone();
                if self.random.chance(500) {
                    self.put(&["if", "(", "false", ")"]);
                }
                self.put(&["var", &name, ";"]);
            }
            1 => {
                // Declares in a branch, and then uses it either way.
                let name = self.fresh_name();
                let test = self.expression(Kind::Boolean, 1);
                self.put(&["if", "("]);
                self.append(test);
                self.put(&[")", "var", &name, ";"]);
                self.know(&name, Kind::None, false);
                self.put(&[&name, ";"]);
            }
            _ => {
                self.put(&["while", "(", "true", ")"]);
                self.loops += 1;
                self.any_assignment();
                self.loops -= 1;
            }
        }
    }

    /// A return, most often in a branch.
    fn finish(&mut self) {
        if self.random.chance(800) {
            let test = self.expression(Kind::Boolean, 1);
            self.put(&["if", "("]);
            self.append(test);
            self.put(&[")"]);
        }
        let value = self.any_expression(2);
        self.put(&["return"]);
        self.append(value);
        self.put(&[";"]);
    }

    /// A loop without an end that takes more and more of one store.
    fn growth(&mut self) {
        let taken: &[&str] = match self.random.below(5) {
            4 => &["drawGroup", "(", "drawGroup", "(", ")", ")", ";"],
            0 => &["drawBox", "(", "1", ",", "2", ",", "3", ",", "4", ")", ";"],
            1 => &["\"a\"", "++", "\"bc\"", ";"],
            2 => &["[", "0", "]", ".", "1", "=", "2", ";"],
            _ => &["1", ";"],
        };
        self.put(&["while", "(", "true", ")"]);
        self.put(taken);
    }

    /// A whole expression of the kind, with at most so many levels.
    fn expression(&mut self, kind: Kind, depth: usize) -> Tokens {
        let kind = if self.noisy() { self.any_kind() } else { kind };
        if self.noisy() {
            let operator = self.random.pick(&OPERATORS).to_string();
            let left = self.any_operand(depth);
            let right = self.any_operand(depth);
            return [left, vec![operator], right].concat();
        }
        let plain = match kind {
            Kind::None | Kind::Table | Kind::Gone => true,
            _ => self.random.chance(if depth == 0 { 750 } else { 350 }),
        };
        if plain {
            return self.operand(kind, depth);
        }
        let (left, operator, right) = match kind {
            Kind::Integer if self.random.chance(80) => {
                let operators = &["+", "-", "*", "/", "%", ">>", "<<"];
                let operator = self.random.pick(operators).to_string();
                let left = vec![edge(self.random)];
                (left, operator, vec![edge(self.random)])
            }
            Kind::Integer => {
                let operators = &["+", "+", "-", "-", "*", "/", "%", ">>", "<<"];
                let operator = self.random.pick(operators).to_string();
                let left = self.operand(Kind::Integer, depth);
                (left, operator, self.right_integer(depth))
            }
            Kind::Text => {
                let left = self.operand(Kind::Text, depth);
                (left, "++".to_string(), self.operand(Kind::Text, depth))
            }
            Kind::Boolean => self.comparison(depth),
            Kind::Shape if self.random.chance(80) => {
                // A size at the edges, scaled by an edge.
                let name = *self.random.pick(&["drawBox", "drawEllipse"]);
                let numbers = (0..4).map(|_| vec![edge(self.random)]).collect();
                let operator = self.random.pick(&["*", "/"]).to_string();
                (call(name, numbers), operator, vec![edge(self.random)])
            }
            _ => {
                let operators = &["+", "-", "*", "/", ">>", "<<"];
                let operator = self.random.pick(operators).to_string();
                let left = self.operand(kind, depth);
                (left, operator, self.right_integer(depth))
            }
        };
        [left, vec![operator], right].concat()
    }

    /// The right side of an operator that may be a division.
    fn right_integer(&mut self, depth: usize) -> Tokens {
        if self.random.chance(700) {
            let number = self.random.pick(&["1", "2", "3", "-1", "-2", "10", "33"]);
            return vec![number.to_string()];
        }
        self.operand(Kind::Integer, depth)
    }

    fn comparison(&mut self, depth: usize) -> (Tokens, String, Tokens) {
        let equality = self.random.pick(&["==", "!="]).to_string();
        match self.random.weighted(&[40, 25, 10, 10, 10, 8, 15, 8, 6, 1]) {
            0 => {
                let order = self.random.pick(&["<", ">"]).to_string();
                let left = self.operand(Kind::Integer, depth);
                (left, order, self.operand(Kind::Integer, depth))
            }
            place @ 1..=5 => {
                let kinds = [
                    Kind::Integer,
                    Kind::Text,
                    Kind::Boolean,
                    Kind::Shape,
                    Kind::Group,
                ];
                let kind = kinds[place - 1];
                let left = self.operand(kind, depth);
                (left, equality, self.operand(kind, depth))
            }
            6 => {
                let left = self.any_operand(depth);
                (left, equality, self.operand(Kind::None, depth))
            }
            7 => {
                let left = self.operand(Kind::None, depth);
                (left, equality, self.any_operand(depth))
            }
            8 => {
                let left = vec![self.random.pick(&SHAPES).to_string()];
                let right = vec![self.random.pick(&SHAPES).to_string()];
                (left, equality, right)
            }
            _ => {
                let left = self.operand(Kind::Table, depth);
                (left, equality, self.operand(Kind::Table, depth))
            }
        }
    }

    fn any_operand(&mut self, depth: usize) -> Tokens {
        let kind = self.any_kind();
        self.operand(kind, depth)
    }

    /// A primary, or a table read.
    fn operand(&mut self, kind: Kind, depth: usize) -> Tokens {
        if self.noisy() {
            let table = self.primary(Kind::Table, depth);
            let key = self.key(depth);
            return [table, texts(&["."]), key].concat();
        }
        if self.random.chance(200) {
            let mut entries = Vec::new();
            for variable in &self.variables {
                if variable.holds != Kind::Table {
                    continue;
                }
                for (key, value) in &variable.keys {
                    if *value == kind {
                        entries.push((variable.name.clone(), key.clone()));
                    }
                }
            }
            if !entries.is_empty() {
                let (name, key) = self.random.pick(&entries).clone();
                return [vec![name], texts(&["."]), key].concat();
            }
        }
        self.primary(kind, depth)
    }

    fn primary(&mut self, kind: Kind, depth: usize) -> Tokens {
        self.nesting += 1;
        let primary = self.any_sort_of_primary(kind, depth);
        self.nesting -= 1;
        primary
    }

    fn any_sort_of_primary(&mut self, kind: Kind, depth: usize) -> Tokens {
        if self.noisy() {
            return self.odd_primary(depth);
        }
        if depth > 0 && self.random.chance(250) {
            let inside = self.expression(kind, depth - 1);
            return [texts(&["("]), inside, texts(&[")"])].concat();
        }
        if self.random.chance(450) {
            if let Some(place) = self.holder(kind) {
                return vec![self.variables[place].name.clone()];
            }
        }
        let deeper = depth.saturating_sub(1);
        if self.nesting < 5 && self.random.chance(300) {
            if let Some(place) = self.callable(kind) {
                return self.own_call(place, deeper);
            }
        }
        match kind {
            Kind::Integer if depth > 0 && self.random.chance(120) => {
                let x_or_y = ["getShapeXCoordinate", "getShapeYCoordinate"];
                let name = *self.random.pick(&x_or_y);
                let shape = self.expression(Kind::Shape, deeper);
                call(name, vec![shape])
            }
            Kind::Integer if depth > 0 && self.random.chance(20) => {
                let special = *self.random.pick(&SPECIAL);
                texts(&["(", special, ")"])
            }
            Kind::Integer => vec![constant(self.random)],
            Kind::Text => vec![string(self.random)],
            Kind::Boolean => vec![self.random.pick(&["true", "false"]).to_string()],
            Kind::None | Kind::Gone => self.none(deeper),
            Kind::Table => {
                let size = match self.random.weighted(&[90, 8, 2]) {
                    0 => vec![self.random.below(10).to_string()],
                    1 => self.expression(Kind::Integer, deeper),
                    _ => vec![constant(self.random)],
                };
                [texts(&["["]), size, texts(&["]"])].concat()
            }
            Kind::Shape => self.drawing(deeper),
            Kind::Group => self.grouping(deeper),
        }
    }

    /// A call that draws a group, most often one of atoms.
    fn grouping(&mut self, depth: usize) -> Tokens {
        let mut arguments = Vec::new();
        for _ in 0..self.random.weighted(&[10, 30, 35, 15, 10]) {
            let kind = self.shape_or_group();
            arguments.push(self.expression(kind, depth));
        }
        if self.noisy() {
            arguments.push(self.any_expression(depth));
        }
        call("drawGroup", arguments)
    }

    /// The value none, now and then by destroying something.
    fn none(&mut self, depth: usize) -> Tokens {
        if !self.random.chance(self.danger) {
            return texts(&["none"]);
        }
        if self.random.chance(200) {
            self.forget_shapes();
            return call("clearScene", Vec::new());
        }
        let shape = self.shape_to_destroy(depth);
        call("destroyShape", vec![shape])
    }

    /// A call that draws a shape.
    fn drawing(&mut self, depth: usize) -> Tokens {
        let place = self.random.weighted(&[25, 20, 25, 15, 0, 8, 7]);
        let (name, kinds) = LIBRARY[place];
        self.library_call(name, kinds, depth)
    }

    fn library_call(&mut self, name: &str, kinds: &str, depth: usize) -> Tokens {
        let mut arguments = Vec::new();
        for kind in kinds.chars() {
            let kind = match kind {
                'i' => Kind::Integer,
                't' => Kind::Text,
                _ => Kind::Shape,
            };
            arguments.push(self.expression(kind, depth));
        }
        if self.noisy() {
            if self.random.chance(500) {
                arguments.pop();
            } else {
                arguments.push(self.any_expression(depth));
            }
        }
        if self.noisy() {
            // A shape that is destroyed while the call waits for it.
            let shape = self.shape_to_destroy(depth);
            arguments.push(call("destroyShape", vec![shape]));
        }
        call(name, arguments)
    }

    /// A primary that is likely to end the run.
    fn odd_primary(&mut self, depth: usize) -> Tokens {
        let deeper = depth.saturating_sub(1);
        match self.random.below(9) {
            0 => {
                let name = self.random.pick(&UNKNOWN).to_string();
                let mut arguments = Vec::new();
                for _ in 0..self.random.below(4) {
                    arguments.push(self.any_expression(deeper));
                }
                call(&name, arguments)
            }
            1 => vec![self.random.pick(&NAMES).to_string()],
            2 => match self.holder(Kind::Gone) {
                Some(place) => vec![self.variables[place].name.clone()],
                None => texts(&["none"]),
            },
            3 => {
                let (name, kinds) = *self.random.pick(&LIBRARY);
                self.library_call(name, kinds, deeper)
            }
            4 => {
                // A library procedure with one argument too few or too many,
                // or in another place.
                let (name, kinds) = *self.random.pick(&LIBRARY);
                let mut kinds: Vec<char> = kinds.chars().collect();
                let at = self.random.below(kinds.len() + 1);
                if at < kinds.len() && self.random.chance(500) {
                    kinds.remove(at);
                } else {
                    kinds.insert(at, *self.random.pick(&['i', 't', 's']));
                }
                let kinds: String = kinds.into_iter().collect();
                self.library_call(name, &kinds, deeper)
            }
            5 | 6 => {
                let operator = self.random.pick(&OPERATORS).to_string();
                let left = self.random.pick(&LITERALS).to_string();
                let right = self.random.pick(&LITERALS).to_string();
                vec!["(".to_string(), left, operator, right, ")".to_string()]
            }
            7 => {
                let size = self.any_expression(deeper);
                [texts(&["["]), size, texts(&["]"])].concat()
            }
            _ => self.used_and_destroyed(),
        }
    }

    /// An operation on a variable whose shape its other side destroys.
    fn used_and_destroyed(&mut self) -> Tokens {
        let kind = self.shape_or_group();
        let Some(place) = self.holder(kind) else {
            return texts(&["none"]);
        };
        let name = self.variables[place].name.clone();
        self.variables[place].holds = Kind::Gone;
        let destroying = if self.random.chance(700) {
            call("destroyShape", vec![vec![name.clone()]])
        } else {
            call("clearScene", Vec::new())
        };
        // The other side is none or a boolean.
        let destroying = if self.random.chance(600) {
            destroying
        } else {
            [texts(&["("]), destroying, texts(&["==", "none", ")"])].concat()
        };
        if self.random.chance(300) {
            let procedure = if self.random.chance(800) {
                self.random.pick(&LIBRARY).0
            } else {
                self.random.pick(&UNKNOWN)
            };
            let mut arguments = vec![vec![name], destroying];
            for _ in 0..self.random.below(3) {
                arguments.push(vec![constant(self.random)]);
            }
            return call(procedure, arguments);
        }
        let operator = self.random.pick(&OPERATORS).to_string();
        let sides = [vec![name], vec![operator], destroying].concat();
        [texts(&["("]), sides, texts(&[")"])].concat()
    }
}

fn call(name: &str, arguments: Vec<Tokens>) -> Tokens {
    let mut tokens = texts(&[name, "("]);
    for (place, argument) in arguments.into_iter().enumerate() {
        if place > 0 {
            tokens.push(",".to_string());
        }
        tokens.extend(argument);
    }
    tokens.push(")".to_string());
    tokens
}
