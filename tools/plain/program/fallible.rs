//! Calls of Rust's library under names of their own, which return an error where memory is refused. Not proved.

#![allow(dead_code)]

pub(crate) use std::collections::TryReserveError as AllocError;
use std::fmt::{Arguments, Error, Result as Written, Write};

/// Vectors that grow only where memory is had.
pub(crate) trait TryVec<T>: Sized {
    /// Returns an empty vector with room for `count` elements.
    fn try_with_room(count: usize) -> Result<Self, AllocError>;

    /// Appends an element.
    fn try_push(&mut self, item: T) -> Result<(), AllocError>;

    /// Appends a copy of each element.
    fn try_extend(&mut self, items: &[T]) -> Result<(), AllocError>
    where
        T: Copy;
}

impl<T> TryVec<T> for Vec<T> {
    fn try_with_room(count: usize) -> Result<Self, AllocError> {
        let mut made = Vec::new();
        made.try_reserve_exact(count)?;
        Ok(made)
    }

    fn try_push(&mut self, item: T) -> Result<(), AllocError> {
        self.try_reserve(1)?;
        self.push(item);
        Ok(())
    }

    fn try_extend(&mut self, items: &[T]) -> Result<(), AllocError>
    where
        T: Copy,
    {
        self.try_reserve(items.len())?;
        self.extend_from_slice(items);
        Ok(())
    }
}

/// Iterators whose items become a vector.
pub(crate) trait TryCollect: Iterator + Sized {
    /// Returns the items as a vector.
    fn try_collected(self) -> Result<Vec<Self::Item>, AllocError> {
        let mut items = Vec::new();
        for item in self {
            items.try_push(item)?;
        }
        Ok(items)
    }
}

impl<I: Iterator> TryCollect for I {}

/// A text that grows only where memory is had, and the refusal that ended it.
#[derive(Default)]
struct Text {
    text: String,
    refused: Option<AllocError>,
}

impl Write for Text {
    fn write_str(&mut self, part: &str) -> Written {
        if let Err(refused) = self.text.try_reserve(part.len()) {
            self.refused = Some(refused);
            return Err(Error);
        }
        self.text.push_str(part);
        Ok(())
    }
}

/// Returns the text of format arguments.
pub(crate) fn text(parts: Arguments<'_>) -> Result<String, AllocError> {
    let mut text = Text::default();
    let _ = text.write_fmt(parts);
    text.refused.map_or(Ok(text.text), Err)
}
