//! The shapes of a run: atoms, and groups of older shapes.

use crate::shape::Shape;
use std::rc::Rc;

/// The components of a group, in order. They are shared, and all older than
/// the group.
pub type Components = Rc<[usize]>;

/// What a shape is.
#[derive(Clone, Debug)]
pub enum Form {
    Atom(Shape),
    Group(Components),
}

/// A shape in the store.
#[derive(Debug)]
pub struct Kept {
    pub form: Form,
    pub destroyed: bool,
    /// Of a group: no undestroyed atom is in it, so that there never will be
    /// one again.
    pub barren: bool,
}

impl Kept {
    pub fn new(form: Form) -> Kept {
        Kept {
            form,
            destroyed: false,
            barren: false,
        }
    }
}

/// A place among the components of a group.
#[derive(Debug)]
pub struct Place {
    components: Components,
    next: usize,
}

impl Place {
    pub fn first(components: Components) -> Place {
        Place {
            components,
            next: 0,
        }
    }

    /// The next component that is undestroyed now.
    pub fn next(&mut self, shapes: &[Kept]) -> Option<usize> {
        while let Some(id) = self.components.get(self.next) {
            self.next += 1;
            if !shapes[*id].destroyed {
                return Some(*id);
            }
        }
        None
    }
}

/// A walk through the undestroyed components of a group, depth first. It goes
/// into those groups that it is told to enter; groups may lie in each other
/// as deep as there are shapes.
#[derive(Debug)]
pub struct Walk {
    path: Vec<Place>,
}

impl Walk {
    pub fn through(components: Components) -> Walk {
        Walk {
            path: vec![Place::first(components)],
        }
    }

    pub fn enter(&mut self, components: Components) {
        self.path.push(Place::first(components));
    }

    /// The next component that is undestroyed now.
    pub fn next(&mut self, shapes: &[Kept]) -> Option<usize> {
        loop {
            match self.path.last_mut()?.next(shapes) {
                Some(id) => return Some(id),
                None => self.path.pop(),
            };
        }
    }
}
