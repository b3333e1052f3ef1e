//! Groups in a run: making, copying, changing, comparing, destroying them, and going through them. No walk calls itself: groups lie in each other as deep as there
//! are shapes.

use crate::run::{Flow, Run};
use crate::shape::Shape;
use crate::stores::Level;
use crate::table::Entry;
use crate::tree::{Link, Operator};
use crate::value::{Stop, Value};

impl Run<'_> {
    /// A new group of so many components: its shape, then an entry for each.
    pub(crate) fn new_group(
        &mut self,
        count: usize,
        component: impl Fn(&Self, usize) -> u16,
    ) -> Result<u16, Stop> {
        let at = self.shapes_used;
        if at >= self.shapes.len() {
            return Err(Stop(76));
        }
        let first = self.entries_used;
        if count > self.entries.len() - first {
            return Err(Stop(77));
        }
        let end = first + count;
        for i in 0..count {
            self.entries[first + i] = Entry {
                table: end as u32,
                value: Value::Shape(component(self, i)),
                ..Entry::default()
            };
        }
        self.entries_used = end;
        self.shapes[at] = Shape::group(first, end);
        self.shapes_used += 1;
        Ok(at as u16)
    }

    /// A copy of a group, with the same components.
    #[inline(never)]
    pub(crate) fn copy_group(&mut self, group: &Shape) -> Result<Value, Stop> {
        let (first, end) = group.entries();
        let copy = self.new_group(end - first, |run, i| run.component(first + i))?;
        Ok(Value::Shape(copy))
    }

    /// The component that an entry of a group holds.
    fn component(&self, entry: usize) -> u16 {
        match self.entries[entry].value {
            Value::Shape(i) => i,
            _ => 0,
        }
    }

    /// Sets out into a group. The path has so many levels then.
    fn enter(&mut self, depth: usize, group: &Shape, other: u16) -> usize {
        let (next, end) = group.entries();
        self.path[depth] = Level {
            next: next as u16,
            end: end as u16,
            other,
            other_end: 0,
        };
        depth + 1
    }

    /// The next undestroyed component at this depth of the path.
    fn next(&mut self, depth: usize) -> Option<u16> {
        let Level { mut next, end, .. } = self.path[depth - 1];
        let mut found = None;
        while next < end && found.is_none() {
            let i = self.component(next.into());
            found = Some(i).filter(|i| !self.shapes[usize::from(*i)].destroyed);
            next += 1;
        }
        self.path[depth - 1].next = next;
        found
    }

    /// Reaches every undestroyed component of a group, depth first: a step, and what is done to it.
    fn walk(&mut self, group: &Shape, act: impl Fn(&mut Shape)) -> Result<(), Stop> {
        let mut depth = self.enter(0, group, 0);
        while depth > 0 {
            let Some(i) = self.next(depth) else {
                depth -= 1;
                continue;
            };
            self.step()?;
            let shape = &mut self.shapes[usize::from(i)];
            act(shape);
            let shape = *shape;
            if shape.is_group() {
                depth = self.enter(depth, &shape, 0);
            }
        }
        Ok(())
    }

    /// Destroys a shape, then all in it.
    #[inline(always)]
    pub(crate) fn destroy(&mut self, i: u16) -> Result<(), Stop> {
        let shape = &mut self.shapes[usize::from(i)];
        shape.destroyed = true;
        let shape = *shape;
        if shape.is_group() {
            self.walk(&shape, |component| component.destroyed = true)?;
        }
        Ok(())
    }

    /// Destroys what the variables of all calls hold: call by call, parameters first, then in the order of declaration.
    #[inline(never)]
    pub(crate) fn clear_scene(&mut self) -> Result<(), Stop> {
        for call in 0..self.calls {
            let frame = self.frames[call];
            let base = frame.base as usize;
            for slot in 0..frame.parameters as usize {
                self.destroy_held(base + slot)?;
            }
            let end = match call + 1 < self.calls {
                true => self.frames[call + 1].declared as usize,
                false => self.declared,
            };
            for at in frame.declared as usize..end {
                self.destroy_held(base + usize::from(self.order[at]))?;
            }
        }
        Ok(())
    }

    fn destroy_held(&mut self, at: usize) -> Result<(), Stop> {
        match self.stack[at] {
            Value::Shape(i) if !self.shapes[usize::from(i)].destroyed => self.destroy(i),
            _ => Ok(()),
        }
    }

    /// The picture's steps, due at place 0: one for each component that it reaches.
    pub(crate) fn count_picture(&mut self) -> Result<(), Stop> {
        self.place = 0;
        for at in 0..2 + self.declared {
            let slot = match at {
                0 | 1 => at,
                _ => self.order[at - 2].into(),
            };
            if let Value::Shape(i) = self.stack[slot] {
                let shape = self.shapes[usize::from(i)];
                if shape.is_group() && !shape.destroyed {
                    self.walk(&shape, |_| {})?;
                }
            }
        }
        Ok(())
    }

    /// What an operator makes of a group and an integer: the new components first, then their group.
    #[inline(never)]
    pub(crate) fn changed_group(
        &mut self,
        operator: Operator,
        group: &Shape,
        by: i32,
    ) -> Result<Value, Stop> {
        // Whether it takes a shape and this integer does not depend on the shape.
        Shape::default().changed(operator, by)?;
        let mut made = 0;
        let mut depth = self.enter(0, group, 0);
        loop {
            let new = match self.next(depth) {
                Some(i) => {
                    self.step()?;
                    let shape = self.shapes[usize::from(i)];
                    if shape.is_group() {
                        depth = self.enter(depth, &shape, made as u16);
                        continue;
                    }
                    let changed = shape.changed(operator, by)?;
                    match self.new_shape(changed)? {
                        Value::Shape(i) => i,
                        _ => 0,
                    }
                }
                None => {
                    depth -= 1;
                    let from = usize::from(self.path[depth].other);
                    let new = self.new_group(made - from, |run, i| run.made[from + i])?;
                    made = from;
                    new
                }
            };
            if depth == 0 {
                return Ok(Value::Shape(new));
            }
            self.made[made] = new;
            made += 1;
        }
    }

    /// Whether the undestroyed components are equal, pair by pair.
    #[inline(never)]
    pub(crate) fn equal_groups(&mut self, left: &Shape, right: &Shape) -> Result<bool, Stop> {
        let mut depth = self.enter_both(0, left, right);
        while depth > 0 {
            let left = self.next(depth);
            let right = self.next_other(depth);
            let (left, right) = match (left, right) {
                (None, None) => {
                    depth -= 1;
                    continue;
                }
                (Some(left), Some(right)) => (usize::from(left), usize::from(right)),
                _ => return Ok(false),
            };
            self.step()?;
            let (left, right) = (self.shapes[left], self.shapes[right]);
            if left.is_group() && right.is_group() {
                depth = self.enter_both(depth, &left, &right);
            } else if !left.same(&right, self.program, self.texts) {
                return Ok(false);
            }
        }
        Ok(true)
    }

    fn enter_both(&mut self, depth: usize, left: &Shape, right: &Shape) -> usize {
        let (other, other_end) = right.entries();
        let deeper = self.enter(depth, left, other as u16);
        self.path[depth].other_end = other_end as u16;
        deeper
    }

    /// The next undestroyed component of the second group at this depth.
    fn next_other(&mut self, depth: usize) -> Option<u16> {
        let turned = |level: Level| Level {
            next: level.other,
            end: level.other_end,
            other: level.next,
            other_end: level.end,
        };
        self.path[depth - 1] = turned(self.path[depth - 1]);
        let found = self.next(depth);
        self.path[depth - 1] = turned(self.path[depth - 1]);
        found
    }

    /// Executes the body for each undestroyed atom in a group. A step is counted for each of the group's own components.
    #[inline(never)]
    pub(crate) fn foreach(
        &mut self,
        place: u16,
        slot: u16,
        group: Link,
        body: Link,
    ) -> Result<Flow, Stop> {
        let value = self.evaluate(group)?;
        let Value::Shape(group) = self.usable(value)? else {
            return Err(Stop(20));
        };
        let group = self.shapes[usize::from(group)];
        if !group.is_group() {
            return Err(Stop(20));
        }
        let at = self.at(slot);
        if let Value::Undeclared = self.stack[at] {
            self.declare(slot)?;
        }
        self.loops += 1;
        let (first, end) = group.entries();
        for entry in first..end {
            let i = self.component(entry);
            let shape = self.shapes[usize::from(i)];
            if shape.destroyed {
                continue;
            }
            self.place = place;
            self.step()?;
            let flow = match shape.is_group() {
                true => self.foreach_inside(i, at, body)?,
                false => {
                    self.stack[at] = Value::Shape(i);
                    self.statement(body)?
                }
            };
            if flow == Flow::Return {
                self.loops -= 1;
                return Ok(flow);
            }
        }
        self.loops -= 1;
        Ok(Flow::Next)
    }

    /// The same for the atoms of one of its components, itself a group. The way there is kept in bits, since the body may hold loops and calls of its own.
    fn foreach_inside(&mut self, group: u16, at: usize, body: Link) -> Result<Flow, Stop> {
        let whole = self.shapes[usize::from(group)];
        if whole.barren {
            return Ok(Flow::Next);
        }
        let size = self.entries.len();
        let row = (self.calls - 1) * size;
        if self.ways_clear < self.calls {
            self.ways[self.ways_clear * size..row + size].fill(0);
            self.ways_clear = self.calls;
        }
        let bit = 1 << (self.loops - 1);
        let (mut next, mut end) = whole.entries();
        let mut depth = 1;
        // In so many groups of the way, from the outermost on, an atom was found.
        let mut living = 0;
        loop {
            if next < end {
                let i = self.component(next);
                let shape = self.shapes[usize::from(i)];
                next += 1;
                if shape.destroyed || shape.barren {
                    continue;
                }
                if shape.is_group() {
                    self.ways[row + next - 1] |= bit;
                    (next, end) = shape.entries();
                    depth += 1;
                    continue;
                }
                living = depth;
                self.stack[at] = Value::Shape(i);
                if self.statement(body)? == Flow::Return {
                    while depth > 1 {
                        end = self.climb(row, end, bit);
                        end = self.entries[end].table as usize;
                        depth -= 1;
                    }
                    return Ok(Flow::Return);
                }
                continue;
            }
            if depth == 1 {
                self.shapes[usize::from(group)].barren = living == 0;
                return Ok(Flow::Next);
            }
            let entry = self.climb(row, end, bit);
            if living < depth {
                let left = self.component(entry);
                self.shapes[usize::from(left)].barren = true;
            }
            depth -= 1;
            living = living.min(depth);
            next = entry + 1;
            end = self.entries[entry].table as usize;
        }
    }

    /// The entry through which the way came into the group whose entries end here. It no longer leads through it.
    fn climb(&mut self, row: usize, end: usize, bit: u64) -> usize {
        let mut entry = end;
        while self.ways[row + entry] & bit == 0 {
            entry += 1;
        }
        self.ways[row + entry] &= !bit;
        entry
    }
}
