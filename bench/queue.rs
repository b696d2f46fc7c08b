// The workload of `shenrun queue COUNT` on a `Mutex<VecDeque<u64>>` of Rust, with the same three lines. The standard error has the seconds of the
// threads. It is no part of the repository's crates: rustc builds it alone.
use std::collections::VecDeque;
use std::sync::{Arc, Mutex};
use std::thread;
use std::time::Instant;

fn main() {
    let count: u64 = std::env::args().nth(1).and_then(|it| it.parse().ok()).expect("a count");
    let queue = Arc::new(Mutex::new(VecDeque::new()));
    let start = Instant::now();
    let putters: Vec<_> = [1_000_001, 2_000_001]
        .into_iter()
        .map(|first| {
            let queue = Arc::clone(&queue);
            thread::spawn(move || {
                for number in first..first + count {
                    queue.lock().unwrap().push_back(number);
                }
            })
        })
        .collect();
    let takers: Vec<_> = (0..2)
        .map(|_| {
            let queue = Arc::clone(&queue);
            thread::spawn(move || {
                let (mut items, mut sum) = (0u64, 0u128);
                while items < count {
                    if let Some(number) = queue.lock().unwrap().pop_front() {
                        items += 1;
                        sum += u128::from(number);
                    }
                }
                (items, sum)
            })
        })
        .collect();
    for putter in putters {
        putter.join().unwrap();
    }
    let got: Vec<(u64, u128)> = takers.into_iter().map(|it| it.join().unwrap()).collect();
    eprintln!("{}", start.elapsed().as_secs_f64());
    println!("queue {count}");
    println!("items {}", got.iter().map(|it| it.0).sum::<u64>());
    println!("sum {}", got.iter().map(|it| it.1).sum::<u128>());
}
