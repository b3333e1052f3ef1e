//! The run: a walk over the tree.

use crate::shape::{Kind, Shape};
use crate::stores::{Level, Stores, DECLARED, STACK};
use crate::table::{Entry, Keys};
use crate::tree::{Action, Expression, Link, Operator, Procedure, Tree};
use crate::tree::{DEFINITIONS, NODES, NO_LINK};
use crate::value::{calculate, Stop, Text, Value};

/// How a run ended: the number is 0 if it came to its end. Main declared so many variables besides its two parameters.
pub struct End {
    pub number: u64,
    pub place: u64,
    pub steps: u64,
    pub declared: usize,
}

/// As many calls as can be under way.
const CALLS: usize = 64;

/// Where the variables of a call stand, how many of them are parameters, and where its declarations begin.
#[derive(Clone, Copy, Default)]
pub(crate) struct Frame {
    pub(crate) base: u32,
    pub(crate) parameters: u32,
    pub(crate) declared: u32,
}

/// Whether the next statement follows, or the call is over.
#[derive(Clone, Copy, PartialEq, Eq)]
pub(crate) enum Flow {
    Next,
    Return,
}

pub(crate) struct Run<'a> {
    /// How many steps, shapes, entries and text bytes are used.
    pub(crate) steps: u64,
    pub(crate) granted: u64,
    pub(crate) tree: &'a Tree,
    /// Variables and waiting arguments of the calls under way.
    pub(crate) stack: &'a mut [Value; STACK],
    /// Where the variables of the innermost call begin.
    pub(crate) base: usize,
    pub(crate) top: usize,
    pub(crate) frames: [Frame; CALLS],
    pub(crate) calls: usize,
    pub(crate) calls_granted: usize,
    /// What the last return handed back.
    pub(crate) returned: Value,
    /// The first byte of the innermost statement under way.
    pub(crate) place: u16,
    pub(crate) program: &'a [u8],
    pub(crate) order: &'a mut [u16; DECLARED],
    pub(crate) declared: usize,
    /// How many loops the innermost call is in.
    pub(crate) loops: u32,
    pub(crate) shapes: &'a mut [Shape],
    pub(crate) shapes_used: usize,
    pub(crate) tables: u32,
    pub(crate) entries: &'a mut [Entry],
    pub(crate) entries_used: usize,
    pub(crate) heads: &'a mut [u16],
    pub(crate) texts: &'a mut [u8],
    pub(crate) texts_used: usize,
    pub(crate) path: &'a mut [Level],
    pub(crate) made: &'a mut [u16],
    pub(crate) ways: &'a mut [u64],
    /// Of so many calls the ways hold no bit but those that were set.
    pub(crate) ways_clear: usize,
}

/// Runs a program that has been read.
pub fn run(stores: &mut Stores, program: &[u8], main: usize, width: i32, height: i32) -> End {
    stores.prepare();
    let mut run = Run {
        steps: 0,
        granted: stores.steps,
        tree: &stores.tree,
        stack: &mut stores.stack,
        base: 0,
        top: 2,
        frames: [Frame::default(); CALLS],
        calls: 0,
        calls_granted: stores.calls,
        returned: Value::Nothing,
        place: 0,
        program,
        order: &mut stores.order,
        declared: 0,
        shapes: &mut stores.shapes,
        shapes_used: 0,
        tables: 0,
        entries: &mut stores.entries,
        entries_used: 0,
        heads: &mut stores.heads,
        texts: &mut stores.texts,
        texts_used: 0,
        path: &mut stores.path,
        made: &mut stores.made,
        ways: &mut stores.ways,
        ways_clear: 0,
        loops: 0,
    };
    run.stack[0] = Value::Integer(width);
    run.stack[1] = Value::Integer(height);
    let end = match run.invoke(main, 0) {
        Ok(_) => run.count_picture(),
        Err(stop) => Err(stop),
    };
    let (number, place) = match end {
        Ok(_) => (0, 0),
        Err(Stop(number)) => (number.into(), run.place.into()),
    };
    End {
        number,
        place,
        steps: run.steps,
        declared: run.declared,
    }
}

impl Run<'_> {
    #[inline(always)]
    pub(crate) fn step(&mut self) -> Result<(), Stop> {
        if self.steps >= self.granted {
            return Err(Stop(79));
        }
        self.steps += 1;
        Ok(())
    }

    /// Where a variable of the innermost call stands.
    #[inline(always)]
    pub(crate) fn at(&self, slot: u16) -> usize {
        (self.base + usize::from(slot)) % STACK
    }

    pub(crate) fn declare(&mut self, slot: u16) -> Result<(), Stop> {
        let at = self.at(slot);
        if !matches!(self.stack[at], Value::Undeclared) {
            return Err(Stop(60));
        }
        self.stack[at] = Value::Nothing;
        self.order[self.declared % DECLARED] = slot;
        self.declared += 1;
        Ok(())
    }

    /// A call of a procedure of the program, main among them, whose arguments stand from a place of the stack on: they become its first variables.
    #[inline(never)]
    fn invoke(&mut self, definition: usize, from: usize) -> Result<Value, Stop> {
        let callee = self.tree.definitions[definition % DEFINITIONS];
        if self.top - from != usize::from(callee.parameters) {
            return Err(Stop(20));
        }
        if callee.alike {
            return Err(Stop(60));
        }
        if self.calls >= self.calls_granted {
            return Err(Stop(81));
        }
        self.frames[self.calls % CALLS] = Frame {
            base: from as u32,
            parameters: callee.parameters.into(),
            declared: self.declared as u32,
        };
        self.calls += 1;
        for at in from..self.top {
            if let Value::Shape(i) = self.stack[at % STACK] {
                self.stack[at % STACK] = self.copy(i)?;
            }
        }
        let end = from + usize::from(callee.variables);
        self.stack[self.top..end].fill(Value::Undeclared);
        let (base, place) = (self.base, self.place);
        let (loops, declared) = (self.loops, self.declared);
        self.base = from;
        self.top = end;
        self.loops = 0;
        let flow = self.sequence(callee.body)?;
        self.base = base;
        self.place = place;
        self.loops = loops;
        self.calls -= 1;
        // The picture needs main's.
        if self.calls > 0 {
            self.declared = declared;
        }
        Ok(match flow {
            Flow::Next => Value::Nothing,
            Flow::Return => self.returned,
        })
    }

    /// A copy of a shape, which must not be destroyed.
    #[inline(always)]
    fn copy(&mut self, i: u16) -> Result<Value, Stop> {
        let shape = self.shapes[usize::from(i)];
        if shape.destroyed {
            return Err(Stop(30));
        }
        if shape.is_group() {
            return self.copy_group(&shape);
        }
        self.new_shape(shape)
    }

    fn sequence(&mut self, first: Link) -> Result<Flow, Stop> {
        let mut at = first;
        while at != NO_LINK {
            if self.statement(at)? == Flow::Return {
                return Ok(Flow::Return);
            }
            at = self.tree.statements[usize::from(at) % NODES].next;
        }
        Ok(Flow::Next)
    }

    pub(crate) fn statement(&mut self, at: Link) -> Result<Flow, Stop> {
        let statement = &self.tree.statements[usize::from(at) % NODES];
        let place = statement.place;
        self.place = place;
        self.step()?;
        match statement.action {
            Action::Assign(slot, value) => {
                let value = self.evaluate(value)?;
                self.assign(slot, value)?;
            }
            Action::If(test, body) => {
                if self.test(test)? {
                    return self.statement(body);
                }
            }
            Action::While(test, body) => {
                while self.test(test)? {
                    if self.statement(body)? == Flow::Return {
                        return Ok(Flow::Return);
                    }
                    self.place = place;
                    self.step()?;
                }
            }
            Action::Foreach(slot, group, body) => return self.foreach(place, slot, group, body),
            Action::Block(first) => return self.sequence(first),
            Action::Update(table, key, value) => self.update(table, key, value)?,
            Action::Evaluate(value) => {
                self.evaluate(value)?;
            }
            Action::Declare(slot) => self.declare(slot)?,
            Action::Return(value) => {
                self.returned = self.evaluate(value)?;
                return Ok(Flow::Return);
            }
            Action::AssignUndeclared(value) => {
                self.evaluate(value)?;
                return Err(Stop(50));
            }
        }
        Ok(Flow::Next)
    }

    #[inline(always)]
    fn test(&mut self, test: Link) -> Result<bool, Stop> {
        match self.evaluate(test)? {
            Value::Boolean(answer) => Ok(answer),
            _ => Err(Stop(20)),
        }
    }

    /// Assigns to a variable; a shape is copied.
    #[inline(always)]
    fn assign(&mut self, slot: u16, value: Value) -> Result<(), Stop> {
        let at = self.at(slot);
        if let Value::Undeclared = self.stack[at] {
            return Err(Stop(50));
        }
        self.stack[at] = match value {
            Value::Shape(i) => self.copy(i)?,
            other => other,
        };
        Ok(())
    }

    /// Sets a table's entry; a shape is shared.
    fn update(&mut self, table: Link, key: Link, value: Link) -> Result<(), Stop> {
        let Value::Table(table) = self.evaluate(table)? else {
            return Err(Stop(20));
        };
        let key = self.evaluate(key)?;
        let value = self.evaluate(value)?;
        if matches!(key, Value::Shape(i) if self.shapes[usize::from(i)].is_group()) {
            return Err(Stop(20));
        }
        if let Some(found) = self.find(table, key) {
            self.entries[found].value = value;
            return Ok(());
        }
        let at = self.entries_used;
        if at >= self.entries.len() {
            return Err(Stop(77));
        }
        let bucket = self.keys().bucket(table, key, self.heads.len());
        self.entries[at] = Entry {
            table,
            next: self.heads[bucket],
            key,
            value,
        };
        self.heads[bucket] = at as u16 + 1;
        self.entries_used += 1;
        Ok(())
    }

    fn keys(&self) -> Keys<'_> {
        Keys {
            program: self.program,
            texts: self.texts,
            shapes: self.shapes,
        }
    }

    fn find(&self, table: u32, key: Value) -> Option<usize> {
        if self.heads.is_empty() {
            return None;
        }
        let keys = self.keys();
        let mut next = self.heads[keys.bucket(table, key, self.heads.len())];
        while next != 0 {
            let at = usize::from(next) - 1;
            let entry = &self.entries[at];
            if entry.table == table && keys.same(entry.key, key) {
                return Some(at);
            }
            next = entry.next;
        }
        None
    }

    /// The value of a constant, a variable or any other expression.
    #[inline(always)]
    fn operand(&mut self, at: Link) -> Result<Value, Stop> {
        match self.tree.expressions[usize::from(at) % NODES] {
            Expression::Constant(value) => {
                self.step()?;
                Ok(value)
            }
            Expression::Variable(slot) => {
                self.step()?;
                self.variable(slot)
            }
            _ => self.evaluate(at),
        }
    }

    #[inline(always)]
    fn variable(&self, slot: u16) -> Result<Value, Stop> {
        match self.stack[self.at(slot)] {
            Value::Undeclared => Err(Stop(50)),
            Value::Shape(i) => self.usable(Value::Shape(i)),
            value => Ok(value),
        }
    }

    pub(crate) fn evaluate(&mut self, at: Link) -> Result<Value, Stop> {
        self.step()?;
        match self.tree.expressions[usize::from(at) % NODES] {
            Expression::Constant(value) => Ok(value),
            Expression::Variable(slot) => self.variable(slot),
            Expression::Undeclared => Err(Stop(50)),
            Expression::Operate(operator, left, right) => {
                let left = self.operand(left)?;
                let right = self.operand(right)?;
                if let (Value::Integer(left), Value::Integer(right)) = (left, right) {
                    return calculate(operator, left, right);
                }
                self.operate(operator, left, right)
            }
            Expression::Read(table, key) => self.read(table, key),
            Expression::Call(procedure, first) => self.call(procedure, first),
            Expression::Create(size) => match self.evaluate(size)? {
                Value::Integer(size) if size >= 0 => {
                    let table = self.tables;
                    self.tables += 1;
                    Ok(Value::Table(table))
                }
                Value::Integer(_) => Err(Stop(40)),
                _ => Err(Stop(20)),
            },
        }
    }

    #[inline(never)]
    fn read(&mut self, table: Link, key: Link) -> Result<Value, Stop> {
        let Value::Table(table) = self.operand(table)? else {
            return Err(Stop(20));
        };
        let key = self.operand(key)?;
        match self.find(table, key) {
            Some(at) => self.usable(self.entries[at].value),
            None => Err(Stop(20)),
        }
    }

    /// Asks that a value is no destroyed shape.
    #[inline(always)]
    pub(crate) fn usable(&self, value: Value) -> Result<Value, Stop> {
        match value {
            Value::Shape(i) if self.shapes[usize::from(i)].destroyed => Err(Stop(30)),
            other => Ok(other),
        }
    }

    #[inline(always)]
    pub(crate) fn new_shape(&mut self, shape: Shape) -> Result<Value, Stop> {
        let at = self.shapes_used;
        match self.shapes.get_mut(at) {
            None => Err(Stop(76)),
            Some(place) => {
                *place = shape;
                self.shapes_used += 1;
                Ok(Value::Shape(at as u16))
            }
        }
    }

    /// An operator on values that are not both integers.
    #[inline(never)]
    fn operate(&mut self, operator: Operator, left: Value, right: Value) -> Result<Value, Stop> {
        self.usable(left)?;
        self.usable(right)?;
        match (operator, left, right) {
            (Operator::Equal, _, _) => Ok(Value::Boolean(self.equal(left, right)?)),
            (Operator::Unequal, _, _) => Ok(Value::Boolean(!self.equal(left, right)?)),
            (Operator::Join, Value::Text(left), Value::Text(right)) => self.join(left, right),
            (_, Value::Shape(i), Value::Integer(by)) => {
                let shape = self.shapes[usize::from(i)];
                if shape.is_group() {
                    return self.changed_group(operator, &shape, by);
                }
                self.new_shape(shape.changed(operator, by)?)
            }
            _ => Err(Stop(20)),
        }
    }

    fn equal(&mut self, left: Value, right: Value) -> Result<bool, Stop> {
        match (left, right) {
            (Value::Nothing, Value::Nothing) => Ok(true),
            (Value::Nothing, _) | (_, Value::Nothing) => Ok(false),
            (Value::Table(_), Value::Table(_)) => Err(Stop(20)),
            (Value::Shape(i), Value::Shape(j)) => {
                let [left, right] = [i, j].map(|i| self.shapes[usize::from(i)]);
                if left.is_group() && right.is_group() {
                    return self.equal_groups(&left, &right);
                }
                Ok(left.same(&right, self.program, self.texts))
            }
            (Value::Text(_), Value::Text(_)) | (Value::Boolean(_), Value::Boolean(_)) => {
                Ok(self.keys().same(left, right))
            }
            _ => Err(Stop(20)),
        }
    }

    fn join(&mut self, left: Text, right: Text) -> Result<Value, Stop> {
        let size = usize::from(left.size) + usize::from(right.size);
        let start = self.texts_used;
        if size > self.texts.len() - start {
            return Err(Stop(78));
        }
        let mut at = start;
        for part in [left, right] {
            let from = usize::from(part.start);
            let end = from + usize::from(part.size);
            if part.stored {
                self.texts.copy_within(from..end, at);
            } else {
                self.texts[at..at + end - from].copy_from_slice(&self.program[from..end]);
            }
            at += end - from;
        }
        self.texts_used = at;
        Ok(Value::Text(Text {
            stored: true,
            start: start as u16,
            size: size as u16,
        }))
    }

    #[inline(never)]
    fn call(&mut self, procedure: Procedure, first: Link) -> Result<Value, Stop> {
        let base = self.top;
        let mut next = first;
        while next != NO_LINK {
            let value = self.operand(next)?;
            self.stack[self.top % STACK] = value;
            self.top += 1;
            next = self.tree.siblings[usize::from(next) % NODES];
        }
        let result = match procedure {
            Procedure::Other(name) => match self.tree.defined[usize::from(name) % NODES] {
                0 => Err(Stop(20)),
                definition => self.invoke(usize::from(definition) - 1, base),
            },
            Procedure::Main => Err(Stop(20)),
            library => self.perform(library, base),
        }?;
        self.top = base;
        Ok(result)
    }

    /// A library procedure on the arguments from a place of the stack on.
    fn perform(&mut self, procedure: Procedure, base: usize) -> Result<Value, Stop> {
        let arguments = &self.stack[base..self.top];
        for value in arguments {
            self.usable(*value)?;
        }
        match (procedure, arguments) {
            (
                Procedure::DrawLine | Procedure::DrawEllipse | Procedure::DrawBox,
                &[Value::Integer(a), Value::Integer(b), Value::Integer(c), Value::Integer(d)],
            ) => {
                let kind = match procedure {
                    Procedure::DrawLine => Kind::Line,
                    Procedure::DrawEllipse => Kind::Ellipse,
                    _ => Kind::Box,
                };
                self.new_shape(Shape::new(kind, [a, b, c, d]))
            }
            (Procedure::DrawText, &[Value::Integer(x), Value::Integer(y), Value::Text(text)]) => {
                self.new_shape(Shape::text(x, y, text))
            }
            (Procedure::Connect, &[Value::Shape(i), Value::Shape(j)]) => {
                let (a, b) = self.shapes[usize::from(i)].centre()?;
                let (c, d) = self.shapes[usize::from(j)].centre()?;
                self.new_shape(Shape::new(Kind::Line, [a, b, c, d]))
            }
            (Procedure::Label, &[Value::Shape(i), Value::Text(text)]) => {
                let (x, y) = self.shapes[usize::from(i)].centre()?;
                self.new_shape(Shape::text(x, y, text))
            }
            (Procedure::XCoordinate, &[Value::Shape(i)]) => {
                Ok(Value::Integer(self.shapes[usize::from(i)].centre()?.0))
            }
            (Procedure::YCoordinate, &[Value::Shape(i)]) => {
                Ok(Value::Integer(self.shapes[usize::from(i)].centre()?.1))
            }
            (Procedure::DrawGroup, components) => {
                if components.iter().any(|v| !matches!(v, Value::Shape(_))) {
                    return Err(Stop(20));
                }
                let count = components.len();
                let group = self.new_group(count, |run, i| match run.stack[base + i] {
                    Value::Shape(component) => component,
                    _ => 0,
                });
                Ok(Value::Shape(group?))
            }
            (Procedure::Destroy, &[Value::Shape(i)]) => {
                self.destroy(i)?;
                Ok(Value::Nothing)
            }
            (Procedure::ClearScene, []) => {
                self.clear_scene()?;
                Ok(Value::Nothing)
            }
            _ => Err(Stop(20)),
        }
    }
}
