// Counts under a mutex by several threads: so many entries by each of 2^DEPTH threads.
use std::env;
use std::sync::Mutex;
use std::thread;

struct Tally {
    count: u64,
}

impl Tally {
    #[inline(never)]
    fn turn(&mut self) -> Option<u64> {
        self.count = self.count.checked_add(1)?;
        Some(self.count)
    }
}

fn main() {
    let mut words = env::args().skip(1);
    let count: u64 = words.next().expect("how many entries").parse().expect("a number");
    let depth: u32 = words.next().expect("how often to halve").parse().expect("a number");
    let tally = Mutex::new(Tally { count: 0 });
    thread::scope(|scope| {
        for _ in 0..1 << depth {
            scope.spawn(|| {
                for _ in 0..count {
                    let _ = tally.lock().expect("no panic").turn();
                }
            });
        }
    });
    println!("{}", tally.into_inner().expect("no panic").count);
}
