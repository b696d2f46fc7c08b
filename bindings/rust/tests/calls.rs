//! Each call, each error, and heaps that fill up.

use covremuj::{Any, Command, Config, Error, Heap, Phase, Progress, Renewal, Reply, Root, Seats, Shape};

struct Pair;
impl Shape for Pair {
    const REFERENCES: u32 = 2;
    const NUMBERS: u32 = 1;
}

struct Large;
impl Shape for Large {
    const REFERENCES: u32 = 16;
    const NUMBERS: u32 = 16;
}

fn config(mutators: usize) -> Config {
    Config { regions: 4 + 2 * mutators, region_words: 64, mutators, helpers: 1, reserve: 1 }
}

#[test]
fn each_call() -> Result<(), Error> {
    let heap = Heap::open(&config(1))?;
    let me = heap.mutator().expect("a mutator");
    assert!(heap.mutator().is_none());
    let (pair, name) = me.make_named::<Pair>()?;
    assert_eq!((name.thread, name.count), (1, 1));
    let other: Root<Pair> = me.make()?;
    let mut null: Root<Pair> = me.null()?;
    assert!(pair.get::<Pair>(0)?.is_none());
    pair.set(0, &other)?;
    assert!(pair.get::<Pair>(0)?.expect("the other").same(&other)?);
    assert!(!pair.compare_exchange(0, &pair, &null)?);
    assert!(pair.compare_exchange(0, &other, &pair)?);
    assert!(pair.exchange::<Pair, Pair>(0, &null)?.expect("itself").same(&pair)?);
    pair.write(0, u64::MAX)?;
    assert_eq!(pair.read(0)?, u64::MAX);
    null.assign(&pair)?;
    assert!(null.same(&pair)?);
    assert!(!null.advance(1)?);
    assert_eq!(null.read(0), Err(Error::Bad));
    assert_eq!(pair.read(1), Err(Error::Bad));
    assert_eq!(pair.read(32), Err(Error::OutOfRange));
    assert_eq!(pair.get::<Any>(2).unwrap_err(), Error::Bad);
    me.collect()
}

#[test]
fn roots_come_back() -> Result<(), Error> {
    let heap = Heap::open(&config(1))?;
    let me = heap.mutator().expect("a mutator");
    for _ in 0..3 {
        let roots: Vec<Root<Any>> = (0..15).map(|_| me.null()).collect::<Result<_, _>>()?;
        assert_eq!(me.null::<Any>().unwrap_err(), Error::NoRoot);
        drop(roots);
    }
    Ok(())
}

#[test]
fn a_root_of_another_mutator() -> Result<(), Error> {
    let heap = Heap::open(&config(2))?;
    let (one, two) = (heap.mutator().expect("one"), heap.mutator().expect("two"));
    let (a, b) = (one.make::<Pair>()?, two.make::<Pair>()?);
    assert_eq!(a.set(0, &b), Err(Error::OtherMutator));
    assert_eq!(a.same(&b), Err(Error::OtherMutator));
    Ok(())
}

#[test]
fn full_and_on() -> Result<(), Error> {
    let heap = Heap::open(&config(1))?;
    let me = heap.mutator().expect("a mutator");
    let mut kept: Root<Large> = me.null()?;
    let full = loop {
        match me.make::<Large>() {
            Ok(made) => {
                made.set(0, &kept)?;
                kept.assign(&made)?;
            }
            Err(error) => break error,
        }
    };
    assert_eq!(full, Error::Full);
    kept.clear()?;
    me.make::<Large>().map(drop)
}

#[test]
fn sizes_out_of_range() {
    let good = config(1);
    let tries = [
        (Config { regions: 3, ..good }, Error::BadRegions),
        (Config { region_words: 63, ..good }, Error::BadRegionWords),
        (Config { mutators: 9, ..good }, Error::BadMutators),
        (Config { mutators: usize::MAX, ..good }, Error::BadMutators),
        (Config { helpers: 4, ..good }, Error::BadHelpers),
        (Config { reserve: 6, ..good }, Error::BadReserve),
    ];
    for (config, error) in tries {
        assert_eq!(Heap::open(&config).err(), Some(error));
    }
}

#[test]
fn pieces() -> Result<(), Error> {
    let seats = Seats::open(&config(1))?;
    let me = &seats.mutators[0];
    assert_eq!(me.go(1), Err(Error::Other(3)));
    me.begin(Command::New { dst: 1, references: 1, numbers: 0 })?;
    assert_eq!(me.begin(Command::Gc), Err(Error::Busy));
    assert_eq!(me.go(1), Ok(Progress::More));
    assert!(matches!(me.wait(), Ok(Reply::Reference(_))));
    assert_eq!(me.call(Command::Copy { dst: 16, src: 0 }), Err(Error::OutOfRange));
    Ok(())
}

/// A heap whose control makes steps only where a test says so. Of the objects that fill a region one is kept.
fn quiet() -> Result<Seats, Error> {
    let seats = Seats::open(&Config { regions: 8, region_words: 64, mutators: 1, helpers: 0, reserve: 0 })?;
    let me = &seats.mutators[0];
    for i in 0..27 {
        me.call(Command::New { dst: 1, references: 2, numbers: 2 })?;
        if i % 9 == 0 {
            me.call(Command::Set { obj: 0, field: i / 9, val: 1 })?;
        }
    }
    Ok(seats)
}

/// The phases that the pauses from here on leave, until the control has left a pause behind which no cycle runs.
fn pauses(seats: &mut Seats) -> Vec<Phase> {
    let control = &mut seats.workers[0];
    let mut left = Vec::new();
    while left.last() != Some(&Phase::Idle) || control.place().expect("the control has not ended").as_str() != "I0" {
        let before = control.place();
        control.work(1);
        if control.place() != before && control.place().is_some_and(|place| place.as_str() == "PS") {
            left.extend(control.phase());
        }
    }
    left
}

/// Gives the control steps until it stands outside of a pause, in this phase.
fn work_until(seats: &mut Seats, phase: Phase) {
    let control = &mut seats.workers[0];
    while control.phase() != Some(phase) || control.place().expect("the control has not ended").as_str() != "I0" {
        control.work(1);
    }
}

/// Makes objects until one waits for room.
fn make_until_it_waits(seats: &Seats) -> Result<(), Error> {
    let me = &seats.mutators[0];
    loop {
        me.begin(Command::New { dst: 1, references: 16, numbers: 16 })?;
        match me.go(4096)? {
            Progress::Again => return Ok(()),
            Progress::Done(Reply::Reference(_)) => {}
            other => panic!("{other:?}"),
        }
    }
}

#[test]
fn a_cycle_goes_through_its_phases() -> Result<(), Error> {
    let mut seats = quiet()?;
    let control = &mut seats.workers[0];
    assert_eq!((control.phase(), format!("{:?}", control.place())), (Some(Phase::Idle), "Some(I0)".to_string()));
    seats.mutators[0].collect()?;
    assert_eq!(pauses(&mut seats), [Phase::Marking, Phase::Evacuating, Phase::Updating, Phase::Idle]);
    Ok(())
}

#[test]
fn a_cycle_has_nothing_to_evacuate() -> Result<(), Error> {
    let mut seats = Seats::open(&Config { helpers: 0, ..config(1) })?;
    seats.mutators[0].collect()?;
    assert_eq!(pauses(&mut seats), [Phase::Marking, Phase::Idle]);
    Ok(())
}

#[test]
fn a_cycle_is_cut_short() -> Result<(), Error> {
    for phase in [Phase::Marking, Phase::Evacuating, Phase::Updating] {
        let mut seats = quiet()?;
        seats.mutators[0].collect()?;
        work_until(&mut seats, phase);
        make_until_it_waits(&seats)?;
        assert_eq!(pauses(&mut seats), [Phase::Idle]);
        assert!(matches!(seats.mutators[0].wait(), Ok(Reply::Reference(_))));
    }
    Ok(())
}

#[test]
fn a_full_collection() -> Result<(), Error> {
    let mut seats = quiet()?;
    make_until_it_waits(&seats)?;
    assert_eq!(pauses(&mut seats), [Phase::Idle]);
    assert!(matches!(seats.mutators[0].wait(), Ok(Reply::Reference(_))));
    Ok(())
}

// A call of the first mutator, for which the workers make steps.
fn answer(seats: &mut Seats, command: Command) -> Result<Reply, Error> {
    seats.mutators[0].begin(command)?;
    loop {
        match seats.mutators[0].go(100)? {
            Progress::More => {}
            Progress::Again => seats.workers.iter_mut().for_each(|worker| {
                worker.work(100);
            }),
            Progress::Done(reply) => return Ok(reply),
        }
    }
}

fn name_of(reply: Reply) -> (u64, u64) {
    match reply {
        Reply::Reference(name) => (name.thread, name.count),
        other => panic!("{other:?}"),
    }
}

#[test]
fn heaps_are_renewed() -> Result<(), Error> {
    let mut seats = Seats::open(&config(2))?;
    for round in 0..10 {
        for _ in 0..30 {
            answer(&mut seats, Command::New { dst: 1, references: 2, numbers: 2 })?;
        }
        answer(&mut seats, Command::Wr { obj: 1, index: 0, value: round })?;
        answer(&mut seats, Command::Set { obj: 0, field: 3, val: 1 })?;
        if round == 4 {
            answer(&mut seats, Command::Pin { slot: 1, obj: 1 })?;
            assert_eq!(seats.renew()?, Renewal::Pinned);
            answer(&mut seats, Command::Unpin { slot: 1 })?;
        }
        assert_eq!(seats.renew()?, Renewal::Renewed);
        assert_eq!(name_of(answer(&mut seats, Command::Get { dst: 2, src: 0, field: 3 })?), (1, 1));
        answer(&mut seats, Command::Drop { dst: 2 })?;
        assert_eq!(answer(&mut seats, Command::Rd { obj: 1, index: 0 })?, Reply::Number(round));
    }
    seats.mutators[1].begin(Command::Gc)?;
    assert_eq!(seats.renew(), Err(Error::Busy));
    Ok(())
}

#[test]
fn seats_of_two_heaps_are_not_renewed() -> Result<(), Error> {
    let (mut one, mut other) = (Seats::open(&config(1))?, Seats::open(&config(1))?);
    std::mem::swap(&mut one.mutators, &mut other.mutators);
    assert_eq!(one.renew(), Err(Error::NotAll));
    Ok(())
}
