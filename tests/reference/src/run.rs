//! The evaluator: a tree walker that takes what it needs from an account.

use crate::shape::Shape;
use crate::store::{Components, Form, Kept, Place, Walk};
use crate::takings::{Account, Stop, Taking};
use crate::tree::{Action, Definition, Expression, Name, Operator};
use crate::tree::{Procedure, Program, Statement};
use crate::value::{ask, calculate, transform, Key, Value};
use std::collections::HashMap;

/// How a run ended: the steps counted, and the atoms of the picture in their
/// order or why it stopped.
#[derive(Debug)]
pub struct Finish {
    pub steps: u64,
    pub end: Result<Vec<Shape>, Stop>,
}

/// Runs a program that has been read and defines no name twice. It may need
/// much stack: see `operation::with_room`.
pub fn run<A: Account>(program: &Program, width: i32, height: i32, account: A) -> Finish {
    let definitions = program.definitions.iter();
    let mut run = Run {
        definitions: definitions.map(|one| (one.procedure, one)).collect(),
        account,
        place: 0,
        steps: 0,
        calls: Vec::new(),
        shapes: Vec::new(),
        tables: 0,
        entries: HashMap::new(),
    };
    let end = run.main(&program.definitions[program.main], width, height);
    Finish {
        steps: run.steps,
        end,
    }
}

struct Run<'p, A> {
    /// What the program defines, main among it.
    definitions: HashMap<Procedure, &'p Definition>,
    account: A,
    /// The first byte of the innermost statement under way.
    place: usize,
    steps: u64,
    /// The variables of the calls under way, main's first.
    calls: Vec<Variables>,
    shapes: Vec<Kept>,
    /// How many tables have been created.
    tables: u64,
    /// The entries of all tables.
    entries: HashMap<(u64, Key), Value>,
}

/// The variables of one call.
#[derive(Default)]
struct Variables {
    /// What each declared variable holds.
    values: HashMap<Name, Value>,
    /// Their names, in the order of their declarations.
    declared: Vec<Name>,
}

impl Variables {
    /// The shapes that they hold, in the order of declaration.
    fn held_shapes(&self) -> Vec<usize> {
        let held = self.declared.iter().map(|name| &self.values[name]);
        held.filter_map(|value| match value {
            Value::Shape(id) => Some(*id),
            _ => None,
        })
        .collect()
    }
}

/// Where a foreach stands in a group that it goes through.
struct Level {
    group: usize,
    place: Place,
    /// Whether an undestroyed atom was found in the group.
    living: bool,
}

impl Level {
    fn of(group: usize, components: &Components) -> Level {
        Level {
            group,
            place: Place::first(components.clone()),
            living: false,
        }
    }
}

/// Whether the next statement follows or the call is over, with what it
/// hands back.
enum Flow {
    Next,
    Return(Value),
}

impl<'p, A: Account> Run<'p, A> {
    /// Main's call, which stands at place 0, as does the picture behind it.
    fn main(&mut self, main: &'p Definition, width: i32, height: i32) -> Result<Vec<Shape>, Stop> {
        self.begin(main, vec![Value::Integer(width), Value::Integer(height)])?;
        self.sequence(&main.body)?;
        self.account.give_back()?;
        self.place = 0;
        self.scene()
    }

    /// The atoms of the undestroyed shapes that main's variables hold. A
    /// group has none of its own; each component that is reached counts a
    /// step.
    fn scene(&mut self) -> Result<Vec<Shape>, Stop> {
        let mut atoms = Vec::new();
        for held in self.variables().held_shapes() {
            if self.shapes[held].destroyed {
                continue;
            }
            let mut walk = match &self.shapes[held].form {
                Form::Atom(atom) => {
                    atoms.push(atom.clone());
                    continue;
                }
                Form::Group(components) => Walk::through(components.clone()),
            };
            while let Some(id) = walk.next(&self.shapes) {
                self.step()?;
                match &self.shapes[id].form {
                    Form::Atom(atom) => atoms.push(atom.clone()),
                    Form::Group(components) => walk.enter(components.clone()),
                }
            }
        }
        Ok(atoms)
    }

    /// A call of a procedure that the program defines: what it hands back,
    /// uncopied. Until its first statement and after its last, the statement
    /// that calls is the one under way.
    fn perform(&mut self, callee: &'p Definition, values: Vec<Value>) -> Result<Value, Stop> {
        let caller = self.place;
        self.begin(callee, values)?;
        let flow = self.sequence(&callee.body)?;
        self.calls.pop();
        self.account.give_back()?;
        self.place = caller;
        Ok(match flow {
            Flow::Next => Value::None,
            Flow::Return(value) => value,
        })
    }

    /// Asks what is asked of a call once its arguments are evaluated, and
    /// assigns its parameters one by one.
    fn begin(&mut self, callee: &'p Definition, values: Vec<Value>) -> Result<(), Stop> {
        if values.len() != callee.parameters.len() {
            return self.error(20);
        }
        if callee.has_equal_parameters() {
            return self.error(60);
        }
        self.take(Taking::Call)?;
        self.calls.push(Variables::default());
        for (name, value) in callee.parameters.iter().zip(values) {
            self.declare(*name)?;
            self.assign(*name, value)?;
        }
        Ok(())
    }

    /// The variables of the call under way.
    fn variables(&self) -> &Variables {
        self.calls.last().expect("main is under way")
    }

    fn variables_mut(&mut self) -> &mut Variables {
        self.calls.last_mut().expect("main is under way")
    }

    fn error<T>(&self, number: u32) -> Result<T, Stop> {
        Err(Stop::Number {
            number,
            place: self.place,
        })
    }

    fn take(&mut self, taking: Taking) -> Result<(), Stop> {
        self.account.take(taking, self.place)
    }

    fn step(&mut self) -> Result<(), Stop> {
        self.take(Taking::Step)?;
        self.steps += 1;
        Ok(())
    }

    /// Declares a variable, which holds none.
    fn declare(&mut self, name: Name) -> Result<(), Stop> {
        if self.variables().values.contains_key(&name) {
            return self.error(60);
        }
        let variables = self.variables_mut();
        variables.values.insert(name, Value::None);
        variables.declared.push(name);
        Ok(())
    }

    fn sequence(&mut self, list: &'p [Statement]) -> Result<Flow, Stop> {
        for statement in list {
            if let Flow::Return(value) = self.statement(statement)? {
                return Ok(Flow::Return(value));
            }
        }
        Ok(Flow::Next)
    }

    fn statement(&mut self, statement: &'p Statement) -> Result<Flow, Stop> {
        self.place = statement.place;
        self.step()?;
        match &statement.action {
            Action::Declare(name) => self.declare(*name)?,
            Action::Assign(name, right) => {
                let value = self.evaluate(right)?;
                self.assign(*name, value)?;
            }
            Action::Update { table, key, value } => self.update(table, key, value)?,
            Action::If(test, body) => {
                if self.test(test)? {
                    return self.statement(body);
                }
            }
            Action::While(test, body) => {
                while self.test(test)? {
                    if let Flow::Return(value) = self.statement(body)? {
                        return Ok(Flow::Return(value));
                    }
                    self.place = statement.place;
                    self.step()?;
                }
            }
            Action::Foreach(name, group, body) => {
                return self.foreach(statement.place, *name, group, body);
            }
            Action::Return(value) => return Ok(Flow::Return(self.evaluate(value)?)),
            Action::Block(list) => return self.sequence(list),
            Action::Evaluate(expression) => {
                self.evaluate(expression)?;
            }
        }
        Ok(Flow::Next)
    }

    fn test(&mut self, expression: &'p Expression) -> Result<bool, Stop> {
        match self.evaluate(expression)? {
            Value::Boolean(answer) => Ok(answer),
            _ => self.error(20),
        }
    }

    /// Assigns to a variable; a shape is copied, and must be undestroyed.
    fn assign(&mut self, name: Name, value: Value) -> Result<(), Stop> {
        if !self.variables().values.contains_key(&name) {
            return self.error(50);
        }
        let kept = match self.undestroyed(value)? {
            Value::Shape(id) => self.new_shape(self.shapes[id].form.clone())?,
            other => other,
        };
        self.variables_mut().values.insert(name, kept);
        Ok(())
    }

    /// Executes the body for each undestroyed atom in a group, depth first,
    /// with the variable bound to that very atom. A step is counted for each
    /// of the group's own components, not for what lies deeper. What is
    /// destroyed when its turn comes is passed over, and so is a group with
    /// nothing left in it.
    fn foreach(
        &mut self,
        place: usize,
        name: Name,
        group: &'p Expression,
        body: &'p Statement,
    ) -> Result<Flow, Stop> {
        let value = self.evaluate(group)?;
        let Value::Shape(group) = self.undestroyed(value)? else {
            return self.error(20);
        };
        let Form::Group(components) = &self.shapes[group].form else {
            return self.error(20);
        };
        let mut path = vec![Level::of(group, components)];
        if !self.variables().values.contains_key(&name) {
            self.declare(name)?;
        }
        while let Some(level) = path.last_mut() {
            let Some(id) = level.place.next(&self.shapes) else {
                let Level { group, living, .. } = *level;
                path.pop();
                self.shapes[group].barren = !living;
                if let Some(outer) = path.last_mut() {
                    outer.living |= living;
                }
                continue;
            };
            if path.len() == 1 {
                self.place = place;
                self.step()?;
            }
            match &self.shapes[id].form {
                Form::Group(_) if self.shapes[id].barren => {}
                Form::Group(components) => path.push(Level::of(id, components)),
                Form::Atom(_) => {
                    path.last_mut().expect("a level").living = true;
                    self.variables_mut().values.insert(name, Value::Shape(id));
                    if let Flow::Return(value) = self.statement(body)? {
                        return Ok(Flow::Return(value));
                    }
                }
            }
        }
        Ok(Flow::Next)
    }

    /// Sets a table's entry; a shape is shared. A group is no key, which is
    /// asked once the value is evaluated.
    fn update(
        &mut self,
        table: &'p Expression,
        key: &'p Expression,
        value: &'p Expression,
    ) -> Result<(), Stop> {
        let table = self.table(table)?;
        let key = self.key(key)?;
        let value = self.evaluate(value)?;
        let Some(key) = key else {
            return self.error(20);
        };
        let at = (table, key);
        if !self.entries.contains_key(&at) {
            self.take(Taking::Entry)?;
        }
        self.entries.insert(at, value);
        Ok(())
    }

    /// Evaluates to a table.
    fn table(&mut self, expression: &'p Expression) -> Result<u64, Stop> {
        match self.evaluate(expression)? {
            Value::Table(id) => Ok(id),
            _ => self.error(20),
        }
    }

    /// Evaluates to a key, or to a group, which is none. A shape is kept as
    /// it is now.
    fn key(&mut self, expression: &'p Expression) -> Result<Option<Key>, Stop> {
        Ok(Some(match self.evaluate(expression)? {
            Value::Integer(number) => Key::Integer(number),
            Value::Text(text) => Key::Text(text),
            Value::Boolean(truth) => Key::Boolean(truth),
            Value::None => Key::None,
            Value::Table(id) => Key::Table(id),
            Value::Shape(id) => match &self.shapes[id].form {
                Form::Atom(atom) => Key::Shape(atom.clone()),
                Form::Group(_) => return Ok(None),
            },
        }))
    }

    fn evaluate(&mut self, expression: &'p Expression) -> Result<Value, Stop> {
        self.step()?;
        match expression {
            Expression::Integer(number) => Ok(Value::Integer(*number)),
            Expression::Text(text) => Ok(Value::Text(text.clone())),
            Expression::None => Ok(Value::None),
            Expression::Boolean(truth) => Ok(Value::Boolean(*truth)),
            Expression::Variable(name) => match self.variables().values.get(name).cloned() {
                None => self.error(50),
                Some(value) => self.undestroyed(value),
            },
            Expression::Create(size) => match self.evaluate(size)? {
                Value::Integer(size) if size >= 0 => {
                    self.tables += 1;
                    Ok(Value::Table(self.tables))
                }
                Value::Integer(_) => self.error(40),
                _ => self.error(20),
            },
            Expression::Read(table, key) => {
                let table = self.table(table)?;
                let Some(key) = self.key(key)? else {
                    return self.error(20);
                };
                match self.entries.get(&(table, key)).cloned() {
                    None => self.error(20),
                    Some(value) => self.undestroyed(value),
                }
            }
            Expression::Operate(operator, left, right) => {
                let left = self.evaluate(left)?;
                let right = self.evaluate(right)?;
                self.operate(*operator, left, right)
            }
            Expression::Call(procedure, arguments) => {
                let mut values = Vec::with_capacity(arguments.len());
                for argument in arguments {
                    values.push(self.evaluate(argument)?);
                }
                self.call(*procedure, values)
            }
        }
    }

    /// Asks that a value is no destroyed shape.
    fn undestroyed(&self, value: Value) -> Result<Value, Stop> {
        match value {
            Value::Shape(id) if self.shapes[id].destroyed => self.error(30),
            other => Ok(other),
        }
    }

    fn new_atom(&mut self, atom: Shape) -> Result<Value, Stop> {
        self.new_shape(Form::Atom(atom))
    }

    fn new_shape(&mut self, form: Form) -> Result<Value, Stop> {
        Ok(Value::Shape(self.new_id(form)?))
    }

    /// Takes a shape and, of a group, an entry for each component, one by
    /// one.
    fn new_id(&mut self, form: Form) -> Result<usize, Stop> {
        self.take(Taking::Shape)?;
        if let Form::Group(components) = &form {
            for _ in components.iter() {
                self.take(Taking::Entry)?;
            }
        }
        self.shapes.push(Kept::new(form));
        Ok(self.shapes.len() - 1)
    }

    fn operate(&mut self, operator: Operator, left: Value, right: Value) -> Result<Value, Stop> {
        let left = self.undestroyed(left)?;
        let right = self.undestroyed(right)?;
        match (operator, left, right) {
            (Operator::Equal, left, right) => Ok(Value::Boolean(self.equal(left, right)?)),
            (Operator::Unequal, left, right) => Ok(Value::Boolean(!self.equal(left, right)?)),
            (Operator::Join, Value::Text(left), Value::Text(right)) => {
                self.take(Taking::Text((left.len() + right.len()) as u64))?;
                Ok(Value::Text([&left[..], &right[..]].concat().into()))
            }
            (_, Value::Integer(left), Value::Integer(right)) => {
                calculate(operator, left, right).or_else(|number| self.error(number))
            }
            (_, Value::Shape(id), Value::Integer(by)) => match self.shapes[id].form.clone() {
                Form::Atom(atom) => Ok(Value::Shape(self.transformed_atom(operator, &atom, by)?)),
                Form::Group(components) => self.transformed_group(operator, components, by),
            },
            _ => self.error(20),
        }
    }

    fn transformed_atom(
        &mut self,
        operator: Operator,
        atom: &Shape,
        by: i32,
    ) -> Result<usize, Stop> {
        match transform(operator, atom, by) {
            Ok(atom) => self.new_id(Form::Atom(atom)),
            Err(number) => self.error(number),
        }
    }

    /// What an operator makes of a group and an integer: of each undestroyed
    /// component, depth first, a new one, and then their group. Reaching a
    /// component counts a step, before it takes anything.
    fn transformed_group(
        &mut self,
        operator: Operator,
        components: Components,
        by: i32,
    ) -> Result<Value, Stop> {
        if let Err(number) = ask(operator, by) {
            return self.error(number);
        }
        let mut path = vec![(Place::first(components), Vec::new())];
        loop {
            let (place, made) = path.last_mut().expect("the outermost group");
            let new = match place.next(&self.shapes) {
                Some(id) => {
                    self.step()?;
                    match self.shapes[id].form.clone() {
                        Form::Atom(atom) => self.transformed_atom(operator, &atom, by)?,
                        Form::Group(components) => {
                            path.push((Place::first(components), Vec::new()));
                            continue;
                        }
                    }
                }
                None => {
                    let components = std::mem::take(made).into();
                    path.pop();
                    self.new_id(Form::Group(components))?
                }
            };
            match path.last_mut() {
                Some((_, made)) => made.push(new),
                None => return Ok(Value::Shape(new)),
            }
        }
    }

    /// The `==` of figure 3; pairs that it lacks are 20.
    fn equal(&mut self, left: Value, right: Value) -> Result<bool, Stop> {
        match (left, right) {
            (Value::None, Value::None) => Ok(true),
            (Value::None, _) | (_, Value::None) => Ok(false),
            (Value::Integer(left), Value::Integer(right)) => Ok(left == right),
            (Value::Text(left), Value::Text(right)) => Ok(left == right),
            (Value::Boolean(left), Value::Boolean(right)) => Ok(left == right),
            (Value::Shape(left), Value::Shape(right)) => self.equal_shapes(left, right),
            _ => self.error(20),
        }
    }

    /// Atoms are equal if kind, numbers and text are, and groups if their
    /// undestroyed components are, pair by pair, each pair counting a step.
    fn equal_shapes(&mut self, left: usize, right: usize) -> Result<bool, Stop> {
        let mut path = Vec::new();
        let mut pair = Some((left, right));
        loop {
            if let Some((left, right)) = pair {
                match (&self.shapes[left].form, &self.shapes[right].form) {
                    (Form::Atom(left), Form::Atom(right)) if left == right => {}
                    (Form::Group(left), Form::Group(right)) => {
                        path.push((Place::first(left.clone()), Place::first(right.clone())));
                    }
                    _ => return Ok(false),
                }
            }
            let Some((left, right)) = path.last_mut() else {
                return Ok(true);
            };
            pair = match (left.next(&self.shapes), right.next(&self.shapes)) {
                (Some(left), Some(right)) => Some((left, right)),
                (None, None) => None,
                _ => return Ok(false),
            };
            match pair {
                Some(_) => self.step()?,
                None => {
                    path.pop();
                }
            }
        }
    }

    /// A call whose arguments are evaluated. One of main, or of a procedure
    /// that is not there, uses nothing.
    fn call(&mut self, procedure: Procedure, values: Vec<Value>) -> Result<Value, Stop> {
        match procedure {
            Procedure::Main => self.error(20),
            Procedure::Other(_) => match self.definitions.get(&procedure).copied() {
                Some(callee) => self.perform(callee, values),
                None => self.error(20),
            },
            library => self.call_library(library, values),
        }
    }

    /// A library call asks first that no argument is destroyed.
    fn call_library(&mut self, procedure: Procedure, values: Vec<Value>) -> Result<Value, Stop> {
        for value in &values {
            self.undestroyed(value.clone())?;
        }
        match (procedure, &values[..]) {
            (
                Procedure::DrawLine,
                &[Value::Integer(x1), Value::Integer(y1), Value::Integer(x2), Value::Integer(y2)],
            ) => self.new_atom(Shape::Line { x1, y1, x2, y2 }),
            (
                Procedure::DrawEllipse,
                &[Value::Integer(x), Value::Integer(y), Value::Integer(across), Value::Integer(up)],
            ) => self.new_atom(Shape::Ellipse { x, y, across, up }),
            (
                Procedure::DrawBox,
                &[Value::Integer(x), Value::Integer(y), Value::Integer(width), Value::Integer(height)],
            ) => self.new_atom(Shape::Box {
                x,
                y,
                width,
                height,
            }),
            (Procedure::DrawText, [Value::Integer(x), Value::Integer(y), Value::Text(text)]) => {
                self.new_atom(Shape::Text {
                    x: *x,
                    y: *y,
                    text: text.clone(),
                })
            }
            (Procedure::DrawLineConnectingShapes, &[Value::Shape(first), Value::Shape(second)]) => {
                let (x1, y1) = self.centre(first)?;
                let (x2, y2) = self.centre(second)?;
                self.new_atom(Shape::Line { x1, y1, x2, y2 })
            }
            (Procedure::DrawTextOnShape, [Value::Shape(id), Value::Text(text)]) => {
                let (x, y) = self.centre(*id)?;
                let text = text.clone();
                self.new_atom(Shape::Text { x, y, text })
            }
            (Procedure::DrawGroup, components) => self.draw_group(components),
            (Procedure::GetShapeXCoordinate, &[Value::Shape(id)]) => {
                Ok(Value::Integer(self.centre(id)?.0))
            }
            (Procedure::GetShapeYCoordinate, &[Value::Shape(id)]) => {
                Ok(Value::Integer(self.centre(id)?.1))
            }
            (Procedure::DestroyShape, &[Value::Shape(id)]) => {
                self.destroy(id)?;
                Ok(Value::None)
            }
            (Procedure::ClearScene, []) => {
                let held: Vec<usize> = self.calls.iter().flat_map(Variables::held_shapes).collect();
                for id in held {
                    if !self.shapes[id].destroyed {
                        self.destroy(id)?;
                    }
                }
                Ok(Value::None)
            }
            _ => self.error(20),
        }
    }

    /// A group of shapes, which it shares.
    fn draw_group(&mut self, values: &[Value]) -> Result<Value, Stop> {
        let mut components = Vec::with_capacity(values.len());
        for value in values {
            match value {
                Value::Shape(id) => components.push(*id),
                _ => return self.error(20),
            }
        }
        self.new_shape(Form::Group(components.into()))
    }

    /// Destroys a shape and then all in it that is undestroyed when it is
    /// reached. Each component that is reached counts a step, the shape
    /// itself none.
    fn destroy(&mut self, id: usize) -> Result<(), Stop> {
        self.shapes[id].destroyed = true;
        let Form::Group(components) = &self.shapes[id].form else {
            return Ok(());
        };
        let mut walk = Walk::through(components.clone());
        while let Some(id) = walk.next(&self.shapes) {
            self.step()?;
            self.shapes[id].destroyed = true;
            if let Form::Group(components) = &self.shapes[id].form {
                walk.enter(components.clone());
            }
        }
        Ok(())
    }

    /// The centre of an atom; a group has none.
    fn centre(&self, id: usize) -> Result<(i32, i32), Stop> {
        match &self.shapes[id].form {
            Form::Atom(atom) => Ok(atom.centre()),
            Form::Group(_) => self.error(20),
        }
    }
}
