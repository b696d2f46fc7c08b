//! Threads that count by compare-exchange: each count is an object of its own, and what is replaced is garbage.

use covremuj::{Any, Config, Error, Heap, Mutator, Root, Shape};

struct Count;
impl Shape for Count {
    const REFERENCES: u32 = 0;
    const NUMBERS: u32 = 1;
}

const TIMES: u64 = 1000;

fn add(hub: &Root<Any>, me: &Mutator) -> Result<bool, Error> {
    let old: Root<Count> = hub.get(0)?.ok_or(Error::Bad)?;
    let next: Root<Count> = me.make()?;
    next.write(0, old.read(0)? + 1)?;
    hub.compare_exchange(0, &old, &next)
}

fn count(me: Mutator) -> Result<(), Error> {
    let hub = me.hub()?;
    let mut done = 0;
    while done < TIMES {
        done += u64::from(add(&hub, &me)?);
    }
    Ok(())
}

fn main() -> Result<(), Error> {
    let heap = Heap::open(&Config { regions: 16, region_words: 64, mutators: 5, helpers: 1, reserve: 2 })?;
    let first = heap.mutator().ok_or(Error::Ended)?;
    first.hub()?.set(0, &first.make::<Count>()?)?;
    std::thread::scope(|scope| {
        let threads: Vec<_> = std::iter::from_fn(|| heap.mutator()).map(|me| scope.spawn(|| count(me))).collect();
        threads.into_iter().try_for_each(|thread| thread.join().expect("a thread that counts"))
    })?;
    let last: Root<Count> = first.hub()?.get(0)?.ok_or(Error::Bad)?;
    let total = last.read(0)?;
    println!("4 threads counted to {total}");
    assert_eq!(total, 4 * TIMES);
    Ok(())
}
