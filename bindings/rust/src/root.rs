use crate::error::Error;
use crate::mutator::{Command, Mutator, Reply};
use std::fmt;
use std::marker::PhantomData;

/// How many references and numbers an object of this kind has, each 0 to 16.
pub trait Shape {
    /// Its references.
    const REFERENCES: u32;
    /// Its numbers.
    const NUMBERS: u32;
}

/// An object of any shape.
pub struct Any;

/// One of a mutator's 16 roots, null or naming an object, while this value lives. `T` is what the program takes the object for; the
/// heap knows no types, and answers [`Error::Bad`] where the object has no such field.
pub struct Root<'mutator, T> {
    mutator: &'mutator Mutator<'mutator>,
    index: u32,
    shape: PhantomData<fn() -> T>,
}

impl<'mutator, T> Root<'mutator, T> {
    pub(crate) fn new(mutator: &'mutator Mutator<'_>, index: u32) -> Root<'mutator, T> {
        Root { mutator, index, shape: PhantomData }
    }

    /// Its number, 1 to 15.
    pub fn index(&self) -> u32 {
        self.index
    }

    /// The reference in a field, taken for a `U`, or none where it is null.
    pub fn get<U>(&self, field: u32) -> Result<Option<Root<'mutator, U>>, Error> {
        let found = self.mutator.root()?;
        let reply = self.mutator.call(Command::Get { dst: found.index, src: self.index, field })?;
        Ok((reply != Reply::Null).then_some(found))
    }

    /// This root becomes what is in that field of its object; whether that is an object.
    pub fn advance(&mut self, field: u32) -> Result<bool, Error> {
        let reply = self.mutator.call(Command::Get { dst: self.index, src: self.index, field })?;
        Ok(reply != Reply::Null)
    }

    /// The field becomes what the other root names.
    pub fn set<U>(&self, field: u32, value: &Root<'_, U>) -> Result<(), Error> {
        self.must_be_of(value)?;
        self.mutator.call(Command::Set { obj: self.index, field, val: value.index }).map(drop)
    }

    /// If the field is `expect` it becomes `value`, in one step; whether it was.
    pub fn compare_exchange<U, V>(&self, field: u32, expect: &Root<'_, U>, value: &Root<'_, V>) -> Result<bool, Error> {
        self.must_be_of(expect)?;
        self.must_be_of(value)?;
        let reply = self.mutator.call(Command::Cas { obj: self.index, field, expect: expect.index, val: value.index })?;
        Ok(reply == Reply::Yes)
    }

    /// The field becomes `value`, and the answer is what it was, in one step.
    pub fn exchange<U, V>(&self, field: u32, value: &Root<'_, U>) -> Result<Option<Root<'mutator, V>>, Error> {
        self.must_be_of(value)?;
        let found = self.mutator.root()?;
        let reply = self.mutator.call(Command::Xchg { dst: found.index, obj: self.index, field, val: value.index })?;
        Ok((reply != Reply::Null).then_some(found))
    }

    /// A number of the object.
    pub fn read(&self, index: u32) -> Result<u64, Error> {
        match self.mutator.call(Command::Rd { obj: self.index, index })? {
            Reply::Number(number) => Ok(number),
            _ => Err(Error::Bad),
        }
    }

    /// A number of the object becomes this one.
    pub fn write(&self, index: u32, number: u64) -> Result<(), Error> {
        self.mutator.call(Command::Wr { obj: self.index, index, value: number }).map(drop)
    }

    /// This root names what the other one does.
    pub fn assign(&mut self, other: &Root<'_, T>) -> Result<(), Error> {
        self.must_be_of(other)?;
        self.mutator.call(Command::Copy { dst: self.index, src: other.index }).map(drop)
    }

    /// This root becomes null.
    pub fn clear(&mut self) -> Result<(), Error> {
        self.mutator.call(Command::Drop { dst: self.index }).map(drop)
    }

    /// Whether both name one object, or both are null.
    pub fn same<U>(&self, other: &Root<'_, U>) -> Result<bool, Error> {
        self.must_be_of(other)?;
        Ok(self.mutator.call(Command::Same { a: self.index, b: other.index })? == Reply::Yes)
    }

    // A root of another mutator is another root of the same number here, so it is refused.
    fn must_be_of<U>(&self, other: &Root<'_, U>) -> Result<(), Error> {
        let same = std::ptr::eq(self.mutator as *const Mutator<'_> as *const u8, other.mutator as *const Mutator<'_> as *const u8);
        if same { Ok(()) } else { Err(Error::OtherMutator) }
    }
}

impl<T> Drop for Root<'_, T> {
    fn drop(&mut self) {
        // Where a call is in progress the root is refused, and keeps its object alive until it is used again.
        let _ = self.clear();
        self.mutator.give_back(self.index);
    }
}

impl<T> fmt::Debug for Root<'_, T> {
    fn fmt(&self, to: &mut fmt::Formatter<'_>) -> fmt::Result {
        write!(to, "Root({})", self.index)
    }
}
