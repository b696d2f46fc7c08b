use crate::error::Error;
use crate::ffi::{self, Value};
use crate::heap::Owned;
use crate::root::{Any, Root, Shape};
use std::cell::{Cell, UnsafeCell};
use std::marker::PhantomData;

/// The name of an object: no two objects of a heap have one, until it is renewed. The hub's is 0.1.
#[derive(Clone, Copy, Debug, PartialEq, Eq, Hash, PartialOrd, Ord)]
pub struct Name {
    /// The mutator that made the object, from 1.
    pub thread: u64,
    /// Which of its objects it is, from 1.
    pub count: u64,
}

/// A command of a mutator. Roots are 0 to 15, references and numbers of a new object 0 to 16, a field or an index 0 to 31.
#[allow(missing_docs)]
#[derive(Clone, Copy, Debug, PartialEq, Eq)]
pub enum Command {
    /// Makes an object, which root `dst` names.
    New { dst: u32, references: u32, numbers: u32 },
    /// Root `dst` becomes what is in the field.
    Get { dst: u32, src: u32, field: u32 },
    /// The field becomes root `val`.
    Set { obj: u32, field: u32, val: u32 },
    /// The field becomes root `val` if it is root `expect`.
    Cas { obj: u32, field: u32, expect: u32, val: u32 },
    /// The field becomes root `val`, and root `dst` what it was.
    Xchg { dst: u32, obj: u32, field: u32, val: u32 },
    /// Loads a number.
    Rd { obj: u32, index: u32 },
    /// Stores a number.
    Wr { obj: u32, index: u32, value: u64 },
    /// Root `dst` becomes root `src`.
    Copy { dst: u32, src: u32 },
    /// Root `dst` becomes null.
    Drop { dst: u32 },
    /// Whether two roots are one reference, or both null.
    Same { a: u32, b: u32 },
    /// Asks for a collection.
    Gc,
    /// Holds the object of a root in a pin slot, 0 to 3, where it is.
    Pin { slot: u32, obj: u32 },
    /// Empties a pin slot.
    Unpin { slot: u32 },
}

impl Command {
    fn words(self) -> (u32, [u32; 4], u64) {
        match self {
            Command::New { dst, references, numbers } => (0, [dst, references, numbers, 0], 0),
            Command::Get { dst, src, field } => (1, [dst, src, field, 0], 0),
            Command::Set { obj, field, val } => (2, [obj, field, val, 0], 0),
            Command::Cas { obj, field, expect, val } => (3, [obj, field, expect, val], 0),
            Command::Xchg { dst, obj, field, val } => (4, [dst, obj, field, val], 0),
            Command::Rd { obj, index } => (5, [obj, index, 0, 0], 0),
            Command::Wr { obj, index, value } => (6, [obj, index, 0, 0], value),
            Command::Copy { dst, src } => (7, [dst, src, 0, 0], 0),
            Command::Drop { dst } => (8, [dst, 0, 0, 0], 0),
            Command::Same { a, b } => (9, [a, b, 0, 0], 0),
            Command::Gc => (10, [0; 4], 0),
            Command::Pin { slot, obj } => (11, [slot, obj, 0, 0], 0),
            Command::Unpin { slot } => (12, [slot, 0, 0, 0], 0),
        }
    }
}

/// What a command is answered. Bad and Full are errors: [`Error::Bad`], [`Error::Full`].
#[derive(Clone, Copy, Debug, PartialEq, Eq)]
pub enum Reply {
    /// A reference to the object of this name.
    Reference(Name),
    /// The null reference.
    Null,
    /// Done.
    Ok,
    /// Equal; exchanged.
    Yes,
    /// Not equal; not exchanged.
    No,
    /// A number.
    Number(u64),
    /// Pinned: the address, in words, at which the object stays.
    At(u64),
}

/// How far some steps of a call have come.
#[derive(Clone, Copy, Debug, PartialEq, Eq)]
pub enum Progress {
    /// There are more to make.
    More,
    /// The last one waits for another machine, and looks again the next time.
    Again,
    /// The call has ended.
    Done(Reply),
}

/// A mutator of a heap: 16 roots, and one call at a time. It goes from one thread to another as any value, and ends when it is dropped.
#[repr(align(64))]
pub struct Mutator<'heap> {
    seat: UnsafeCell<Owned>,
    // The roots that values of `Root` have.
    used: Cell<u32>,
    // Whether others see to it that a call comes to its end.
    pub(crate) waits_at_end: bool,
    heap: PhantomData<&'heap ()>,
}

fn progress(status: u32, value: &Value) -> Result<Progress, Error> {
    Ok(Progress::Done(match status {
        ffi::MORE => return Ok(Progress::More),
        ffi::AGAIN => return Ok(Progress::Again),
        8 => Reply::Reference(Name { thread: value.thread, count: value.count }),
        9 => Reply::Null,
        10 => Reply::Ok,
        11 => Reply::Yes,
        12 => Reply::No,
        13 => Reply::Number(value.number),
        16 => Reply::At(value.number),
        other => return Err(Error::of(other)),
    }))
}

impl<'heap> Mutator<'heap> {
    pub(crate) fn new(seat: Owned, waits_at_end: bool) -> Mutator<'heap> {
        Mutator { seat: UnsafeCell::new(seat), used: Cell::new(1), waits_at_end, heap: PhantomData }
    }

    pub(crate) fn owned(&mut self) -> &mut Owned {
        self.seat.get_mut()
    }

    /// Orders a command, between two calls, and makes no step of it.
    pub fn begin(&self, command: Command) -> Result<(), Error> {
        let (op, [a, b, c, d], value) = command.words();
        // SAFETY: the seat is this value's own; it is used by one thread at a time, since it is not Sync, and nothing of this call calls back.
        match unsafe { ffi::cvm_begin(&mut (*self.seat.get()).0, op, a, b, c, d, value) } {
            ffi::DONE => Ok(()),
            status => Err(Error::of(status)),
        }
    }

    /// Makes at most so many steps of the call that was begun, and does not wait.
    pub fn go(&self, steps: u32) -> Result<Progress, Error> {
        let mut value = Value::default();
        // SAFETY: as in `begin`, and the other pointer is to a value of this frame.
        let status = unsafe { ffi::cvm_go(&mut (*self.seat.get()).0, steps, &mut value) };
        progress(status, &value)
    }

    /// Goes on with the call that was begun until it is answered, and waits for other machines where it has to.
    pub fn wait(&self) -> Result<Reply, Error> {
        let mut rounds = 0;
        loop {
            match self.go(4096)? {
                Progress::More => {}
                // SAFETY: the pointer is to a number of this frame.
                Progress::Again => unsafe { ffi::cvm_back_off(&mut rounds) },
                Progress::Done(reply) => return Ok(reply),
            }
        }
    }

    /// A command, and its reply. It may wait for a collection.
    pub fn call(&self, command: Command) -> Result<Reply, Error> {
        self.begin(command)?;
        self.wait()
    }

    /// Asks for a collection, and does not wait for it.
    pub fn collect(&self) -> Result<(), Error> {
        self.call(Command::Gc).map(drop)
    }

    /// Holds the object of a root in a pin slot, 0 to 3, and tells the address, in words, at which it stays until no slot holds it.
    /// [`Error::Bad`] where the slot is taken, or the root is null.
    pub fn pin<T>(&self, slot: u32, object: &Root<'_, T>) -> Result<u64, Error> {
        match self.call(Command::Pin { slot, obj: object.index() })? {
            Reply::At(place) => Ok(place),
            _ => Err(Error::Other(0)),
        }
    }

    /// Empties a pin slot; [`Error::Bad`] where it is empty.
    pub fn unpin(&self, slot: u32) -> Result<(), Error> {
        self.call(Command::Unpin { slot }).map(drop)
    }

    /// A root that no other value of [`Root`] is.
    fn take(&self) -> Result<u32, Error> {
        let used = self.used.get();
        let index = (!used).trailing_zeros();
        if index >= crate::ROOTS {
            return Err(Error::NoRoot);
        }
        self.used.set(used | 1 << index);
        Ok(index)
    }

    pub(crate) fn give_back(&self, index: u32) {
        self.used.set(self.used.get() & !(1 << index));
    }

    pub(crate) fn root<T>(&self) -> Result<Root<'_, T>, Error> {
        Ok(Root::new(self, self.take()?))
    }

    /// A root that is null.
    pub fn null<T>(&self) -> Result<Root<'_, T>, Error> {
        let mut root = self.root()?;
        root.clear()?;
        Ok(root)
    }

    /// The hub: an object of 16 references, which all mutators of a heap share.
    pub fn hub(&self) -> Result<Root<'_, Any>, Error> {
        let root = self.root()?;
        self.call(Command::Copy { dst: root.index(), src: 0 })?;
        Ok(root)
    }

    /// A new object, whose references are null and whose numbers are 0.
    pub fn make<T: Shape>(&self) -> Result<Root<'_, T>, Error> {
        self.make_named().map(|made| made.0)
    }

    /// The same, with its name.
    pub fn make_named<T: Shape>(&self) -> Result<(Root<'_, T>, Name), Error> {
        let root = self.root()?;
        match self.call(Command::New { dst: root.index(), references: T::REFERENCES, numbers: T::NUMBERS })? {
            Reply::Reference(name) => Ok((root, name)),
            _ => Err(Error::Other(0)),
        }
    }
}

impl Drop for Mutator<'_> {
    fn drop(&mut self) {
        let seat = &mut self.seat.get_mut().0;
        let (mut value, mut rounds) = (Value::default(), 0);
        // SAFETY: the seat is this value's own, and the other pointers are to values of this frame. A call in progress goes on to its end before
        // the mutator ends, where others work for the heap; else the seat is given up in the middle of it, which the library allows.
        unsafe {
            while self.waits_at_end && ffi::cvm_end(seat) != ffi::ENDED {
                if ffi::cvm_go(seat, 4096, &mut value) == ffi::AGAIN {
                    ffi::cvm_back_off(&mut rounds);
                }
            }
        }
    }
}
