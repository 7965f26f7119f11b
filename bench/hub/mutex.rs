// The same tally as bench/programs/bench_hub, under std's Mutex: `mutex THREADS CALLS`, with the calls of each thread.
use std::hint::black_box;
use std::sync::Mutex;
use std::thread;

struct Tally {
    total: u64,
}

impl Tally {
    fn step(&mut self, amount: &u64) -> Option<u64> {
        let total = self.total.checked_add(*amount)?;
        self.total = total;
        Some(total)
    }
}

fn main() {
    let words: Vec<String> = std::env::args().collect();
    let threads: usize = words[1].parse().expect("THREADS is a number");
    let calls: u64 = words[2].parse().expect("CALLS is a number");
    let tally = Mutex::new(Tally { total: 0 });
    thread::scope(|scope| {
        for _ in 0..threads {
            scope.spawn(|| {
                for _ in 0..calls {
                    black_box(tally.lock().unwrap().step(&1));
                }
            });
        }
    });
    println!("{}", tally.into_inner().unwrap().total);
}
