//! The sorts of a sheet about sets and relations, as they are when it is made.

use model::sort::{LARGEST, LONGEST};

/// A sort of the sheet.
#[derive(Debug, Clone, PartialEq, Eq)]
pub enum Shape {
    /// One that is no set and no tuple, by its number, with its tree size.
    Base(u16, u64),
    /// A set.
    Set(Box<Shape>),
    /// A tuple.
    Tuple(Vec<Shape>),
}

/// The sorts that columns have: the first of every sheet.
pub const INT: Shape = Shape::Base(0, 1);
pub const BOOL: Shape = Shape::Base(1, 1);
pub const OWN: Shape = Shape::Base(2, 1);

impl Shape {
    /// The set of these.
    pub fn set(self) -> Shape {
        Shape::Set(Box::new(self))
    }

    /// The relation with these columns.
    pub fn relation(columns: Vec<Shape>) -> Shape {
        Shape::Tuple(columns).set()
    }

    /// The tree size.
    pub fn size(&self) -> u64 {
        match self {
            Shape::Base(_, size) => *size,
            Shape::Set(element) => 1 + element.size(),
            Shape::Tuple(columns) => 1 + columns.iter().map(Shape::size).sum::<u64>(),
        }
    }

    /// Whether a sheet may hold it, whose parts it may hold.
    pub fn stands(&self) -> bool {
        let columns = self.columns().map_or(0, <[Shape]>::len);
        columns <= LONGEST && self.size() <= LARGEST
    }

    /// The columns of a relation; nothing of another sort.
    pub fn columns(&self) -> Option<&[Shape]> {
        match self {
            Shape::Set(element) => match element.as_ref() {
                Shape::Tuple(columns) => Some(columns),
                _ => None,
            },
            _ => None,
        }
    }

    /// The sort of a set's elements; the sort itself if it is no set.
    pub fn element(&self) -> Shape {
        match self {
            Shape::Set(element) => element.as_ref().clone(),
            other => other.clone(),
        }
    }
}
