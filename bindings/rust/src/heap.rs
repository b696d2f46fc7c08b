use crate::error::Error;
use crate::ffi::{self, Seat, Sizes, State, Value};
use crate::mutator::Mutator;
use std::fmt;
use std::marker::PhantomData;
use std::mem;
use std::sync::atomic::{AtomicBool, AtomicU64, Ordering::SeqCst};
use std::sync::{Arc, Mutex};
use std::thread::JoinHandle;

/// The sizes of a heap.
#[derive(Clone, Copy, Debug, PartialEq, Eq)]
pub struct Config {
    /// Regions, 4 to 64.
    pub regions: usize,
    /// Words of 8 bytes of each region, 64 to 33554432.
    pub region_words: usize,
    /// Mutators, 1 to 8.
    pub mutators: usize,
    /// Helpers of the control, 0 to 3.
    pub helpers: usize,
    /// Free regions that a new object leaves to the copies of a collection, fewer than the regions.
    pub reserve: usize,
}

// Which heap a seat is of, as no two have one number, and how many seats that heap has.
#[derive(Clone, Copy, PartialEq, Eq)]
struct Home {
    heap: u64,
    seats: usize,
}

// A seat that this thread may use, wherever it came from: the library orders nothing by threads.
pub(crate) struct Owned(pub(crate) Seat, Home);

static HEAPS: AtomicU64 = AtomicU64::new(0);

// SAFETY: a seat may go from one thread to another where something orders that, and what moves a value of Rust does.
unsafe impl Send for Owned {}

impl Drop for Owned {
    fn drop(&mut self) {
        // SAFETY: the seat is this value's own. Closing one that is empty does nothing.
        unsafe { ffi::cvm_close(&mut self.0) };
    }
}

fn open(config: &Config) -> Result<Vec<Owned>, Error> {
    let sizes = Sizes {
        regions: config.regions,
        region_words: config.region_words,
        mutators: config.mutators,
        helpers: config.helpers,
        reserve: config.reserve,
    };
    // Sizes that are out of range get one seat, and their own refusal, which comes before that of the count.
    let count = if config.mutators <= 8 && config.helpers <= 3 { config.mutators + config.helpers + 1 } else { 1 };
    let mut seats: Vec<Seat> = (0..count).map(|_| Seat::none()).collect();
    // SAFETY: both pointers are to values of this frame, the second to as many as `count` says, each of them empty.
    match unsafe { ffi::cvm_open(&sizes, seats.as_mut_ptr(), count) } {
        ffi::DONE => {
            let home = Home { heap: HEAPS.fetch_add(1, SeqCst), seats: count };
            Ok(seats.into_iter().map(|seat| Owned(seat, home)).collect())
        }
        status => Err(Error::of(status)),
    }
}

/// What runs beside the mutators: nothing, or a part of a cycle. Only a pause changes it.
#[derive(Clone, Copy, Debug, PartialEq, Eq)]
pub enum Phase {
    /// No cycle.
    Idle,
    /// Objects that roots lead to are marked.
    Marking,
    /// Objects of the regions that are to be freed are copied out.
    Evacuating,
    /// References to them are updated.
    Updating,
}

/// The place of a step: two letters or digits of the repository's `docs/STEP_TABLE.md`.
#[derive(Clone, Copy, PartialEq, Eq)]
pub struct Place([u8; 2]);

impl Place {
    /// The two.
    pub fn as_str(&self) -> &str {
        std::str::from_utf8(&self.0).unwrap_or("")
    }
}

impl fmt::Debug for Place {
    fn fmt(&self, to: &mut fmt::Formatter<'_>) -> fmt::Result {
        to.write_str(self.as_str())
    }
}

/// A helper or the control, for those who give it its steps themselves ([`Seats`]).
pub struct Worker<'heap> {
    pub(crate) seat: Owned,
    heap: PhantomData<&'heap ()>,
}

impl Worker<'_> {
    /// Makes at most so many steps: `Some(true)` if all were made, `Some(false)` if the machine waits, or finds nothing to do, and `None` if it has ended.
    pub fn work(&mut self, steps: u32) -> Option<bool> {
        // SAFETY: the seat is this value's own, and `&mut` keeps other calls away.
        match unsafe { ffi::cvm_work(&mut self.seat.0, steps) } {
            ffi::MORE => Some(true),
            ffi::AGAIN => Some(false),
            _ => None,
        }
    }

    /// Of the control: the phase in which its last pause has left the heap. A pause has chosen it from its first step at the place `PS` on.
    /// Of a helper none.
    pub fn phase(&mut self) -> Option<Phase> {
        let state = look(&mut self.seat);
        let phases = [Phase::Idle, Phase::Marking, Phase::Evacuating, Phase::Updating];
        phases.get(usize::try_from(state.phase).ok()?).copied().filter(|_| state.kind == ffi::CONTROL)
    }

    /// The place of its next step, or none where it has ended.
    pub fn place(&mut self) -> Option<Place> {
        let [one, two, ..] = look(&mut self.seat).place;
        (one != 0).then_some(Place([one, two]))
    }
}

/// All seats of a heap, for a program that owns the schedule: nothing happens but by its calls, on whichever threads it makes them.
///
/// ```
/// use covremuj::{Command, Config, Error, Progress, Reply, Seats};
///
/// # fn main() -> Result<(), Error> {
/// let mut seats = Seats::open(&Config { regions: 4, region_words: 64, mutators: 1, helpers: 0, reserve: 0 })?;
/// let me = &seats.mutators[0];
/// let mut waits = 0;
/// for _ in 0..100 {
///     me.begin(Command::New { dst: 1, references: 16, numbers: 16 })?;
///     loop {
///         match me.go(3)? {
///             Progress::More => {}
///             Progress::Again => {
///                 waits += 1; // an event loop would see to something else
///                 seats.workers[0].work(1000);
///             }
///             Progress::Done(Reply::Reference(_)) => break,
///             Progress::Done(other) => panic!("{other:?}"),
///         }
///     }
/// }
/// assert!(waits > 0);
/// # Ok(())
/// # }
/// ```
pub struct Seats {
    /// The mutators.
    pub mutators: Vec<Mutator<'static>>,
    /// The helpers, and the control as the last one.
    pub workers: Vec<Worker<'static>>,
}

impl Seats {
    /// Opens a heap.
    pub fn open(config: &Config) -> Result<Seats, Error> {
        let mut mutators = open(config)?;
        let workers = mutators.split_off(config.mutators);
        Ok(Seats {
            mutators: mutators.into_iter().map(|seat| Mutator::new(seat, false)).collect(),
            workers: workers.into_iter().map(|seat| Worker { seat, heap: PhantomData }).collect(),
        })
    }
}

/// What came of a renewal. The heap goes on in each case.
#[derive(Clone, Copy, Debug, PartialEq, Eq)]
pub enum Renewal {
    /// Its objects have new names, counted from 1 for each mutator.
    Renewed,
    /// A pin slot holds an object, which may not move: all names are as they were.
    Pinned,
    /// The objects do not fit, one behind the other in the order of their names and each within one region: all names are as they were.
    TooSmall,
    /// Memory was refused for the new names: all are as they were.
    NotRenewed,
}

impl Seats {
    /// Ends all seats, and goes on with the graph of the heap in another one of the same sizes, whose seats take their places: with new names for
    /// its objects, or with those that they have. A mutator goes on with its roots. No call is in progress: [`Error::Busy`]; and these are all
    /// seats of one heap, in their order: [`Error::NotAll`]. With [`Error::NoMemory`] the seats have ended, and may be renewed another time; with
    /// [`Error::Lost`] nothing is left of the heap.
    pub fn renew(&mut self) -> Result<Renewal, Error> {
        if self.mutators.iter_mut().any(|mutator| look(mutator.owned()).state == ffi::WORKS) {
            return Err(Error::Busy);
        }
        let places = self.places();
        let home = places.first().ok_or(Error::NotAll)?.1;
        if places.len() != home.seats || places.iter().any(|place| place.1 != home) {
            return Err(Error::NotAll);
        }
        self.end();
        let mut places = self.places();
        let mut seats: Vec<Seat> = places.iter_mut().map(|place| mem::replace(&mut place.0, Seat::none())).collect();
        // SAFETY: the pointer is to values of this frame, to as many as the length says, and they are of one heap. `&mut` keeps other calls away.
        let status = unsafe { ffi::cvm_renew(seats.as_mut_ptr(), seats.len()) };
        places.iter_mut().zip(seats).for_each(|(place, seat)| place.0 = seat);
        match status {
            ffi::DONE => Ok(Renewal::Renewed),
            ffi::PINNED => Ok(Renewal::Pinned),
            ffi::TOO_SMALL => Ok(Renewal::TooSmall),
            ffi::NOT_RENEWED => Ok(Renewal::NotRenewed),
            other => Err(Error::of(other)),
        }
    }

    fn places(&mut self) -> Vec<&mut Owned> {
        let workers = self.workers.iter_mut().map(|worker| &mut worker.seat);
        self.mutators.iter_mut().map(|mutator| mutator.owned()).chain(workers).collect()
    }

    // Ends the mutators, which are between two calls, and gives all seats steps in turn until each has ended.
    fn end(&mut self) {
        let mut value = Value::default();
        for mutator in &mut self.mutators {
            // SAFETY: the seat is this value's own, and `&mut` keeps other calls away.
            unsafe { ffi::cvm_end(&mut mutator.owned().0) };
        }
        let mut has_ended = false;
        while !has_ended {
            has_ended = true;
            for mutator in &mut self.mutators {
                // SAFETY: as above, and the other pointer is to a value of this frame.
                has_ended &= matches!(unsafe { ffi::cvm_go(&mut mutator.owned().0, 64, &mut value) }, ffi::ENDED | ffi::NOT_OPEN);
            }
            for worker in &mut self.workers {
                has_ended &= worker.work(64).is_none();
            }
        }
    }
}

fn look(seat: &mut Owned) -> State {
    let mut state = State::default();
    // SAFETY: the seat is this value's own, `&mut` keeps other calls away, and the other pointer is to a value of this frame. A seat that is
    // refused leaves the state as it is.
    unsafe { ffi::cvm_look(&mut seat.0, &mut state) };
    state
}

fn serve(mut worker: Worker<'static>, stops: Arc<AtomicBool>) {
    let mut rounds = 0;
    while !stops.load(SeqCst) {
        match worker.work(4096) {
            Some(true) => rounds = 0,
            // SAFETY: the pointer is to a number of this frame.
            Some(false) => unsafe { ffi::cvm_back_off(&mut rounds) },
            None => return,
        }
    }
}

/// A heap, with a thread for each helper and the control. Dropping it waits until all of its mutators have ended.
pub struct Heap {
    mutators: Mutex<Vec<Mutator<'static>>>,
    threads: Vec<JoinHandle<()>>,
}

impl Heap {
    /// Opens a heap, and starts its threads.
    pub fn open(config: &Config) -> Result<Heap, Error> {
        let Seats { mut mutators, workers } = Seats::open(config)?;
        mutators.reverse();
        for mutator in &mut mutators {
            mutator.waits_at_end = true;
        }
        let stops = Arc::new(AtomicBool::new(false));
        let mut threads = Vec::new();
        for worker in workers {
            let stopped = Arc::clone(&stops);
            match std::thread::Builder::new().spawn(move || serve(worker, stopped)) {
                Ok(thread) => threads.push(thread),
                Err(_) => {
                    stops.store(true, SeqCst);
                    threads.into_iter().for_each(|thread| drop(thread.join()));
                    mutators.iter_mut().for_each(|mutator| mutator.waits_at_end = false);
                    return Err(Error::NoThread);
                }
            }
        }
        Ok(Heap { mutators: Mutex::new(mutators), threads })
    }

    /// The next mutator, of as many as the heap was opened with.
    pub fn mutator(&self) -> Option<Mutator<'_>> {
        self.mutators.lock().unwrap_or_else(|poisoned| poisoned.into_inner()).pop()
    }
}

impl Drop for Heap {
    fn drop(&mut self) {
        self.mutators.lock().unwrap_or_else(|poisoned| poisoned.into_inner()).clear();
        for thread in self.threads.drain(..) {
            drop(thread.join());
        }
    }
}
