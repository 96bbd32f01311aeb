//! Operations on the list of a sitting, timed through the Rust wrapper, beside a sorted `Vec` that makes the same tests.
use crate::time::best;
use std::hint::black_box;

/// A sorted `Vec` that makes the same tests, for the times of a list's operations to stand beside.
struct Sorted {
    stamps: Vec<i64>,
    min_duration: u64,
}

impl Sorted {
    fn is_bad(&self) -> bool {
        self.stamps.len() > 512
            || self.stamps.windows(2).any(|w| w[0] >= w[1] || w[1].abs_diff(w[0]) < self.min_duration)
    }

    fn add(&mut self, ts: i64) -> u32 {
        let place = self.stamps.partition_point(|&x| x < ts);
        let near = |x: &i64| *x == ts || x.abs_diff(ts) < self.min_duration;
        let (before, from) = self.stamps.split_at(place);
        match (self.is_bad(), before.last().is_some_and(near) || from.first().is_some_and(near), self.stamps.len()) {
            (true, _, _) => 15,
            (_, true, _) => 17,
            (_, _, 512) => 18,
            _ => {
                self.stamps.insert(place, ts);
                0
            }
        }
    }

    fn remove(&mut self, ts: i64) -> u32 {
        match (self.is_bad(), self.stamps.binary_search(&ts)) {
            (true, _) => 15,
            (_, Err(_)) => 19,
            (_, Ok(place)) => {
                self.stamps.remove(place);
                0
            }
        }
    }

    fn nearest(&self, ts: i64) -> Option<i64> {
        let place = self.stamps.partition_point(|&x| x < ts);
        let (before, from) = self.stamps.split_at(place);
        match self.is_bad() {
            true => None,
            false => before.last().into_iter().chain(from.first()).min_by_key(|x| x.abs_diff(ts)).copied(),
        }
    }

    fn clip(&self, ts: i64) -> usize {
        if self.is_bad() { 0 } else { self.stamps.partition_point(|&x| x <= ts) }
    }
}

fn row(name: &str, vec: f64, rattle: f64) {
    println!("{name:<36} {vec:>8.2} {rattle:>8.2} {:>8.3}", rattle / vec);
}

/// Operations on a list of so many stamps, a million microseconds apart: the stamp in question lies in the middle.
pub fn print(count: usize) {
    const N: usize = 1000;
    let min_duration = 1000;
    let stamps: Vec<i64> = (0..count as i64).map(|i| i * 1_000_000).collect();
    let ts = count as i64 / 2 * 1_000_000 + 500_000;
    let mut list = mawerodu::CutList::new(min_duration);
    stamps.iter().for_each(|&x| list.add(x).expect("far enough"));
    let mut sorted = Sorted { stamps, min_duration };
    let title = format!("list of {count} stamps, ns a call");
    println!("\n{title:<36} {:>8} {:>8} {:>8}", "Vec", "Rattle", "ratio");
    let changes = best(2 * N, |_| {
        for _ in 0..N {
            black_box((sorted.add(black_box(ts)), sorted.remove(black_box(ts))));
        }
    });
    row(
        "add, remove",
        changes,
        best(2 * N, |_| {
            for _ in 0..N {
                black_box((list.add(black_box(ts)).is_ok(), list.remove(black_box(ts)).is_ok()));
            }
        }),
    );
    row("nearest", best(N, |_| (0..N).for_each(|_| _ = black_box(sorted.nearest(black_box(ts))))), {
        best(N, |_| (0..N).for_each(|_| _ = black_box(list.nearest(black_box(ts)))))
    });
    row("clip", best(N, |_| (0..N).for_each(|_| _ = black_box(sorted.clip(black_box(ts))))), {
        best(N, |_| (0..N).for_each(|_| _ = black_box(list.clip(black_box(ts)))))
    });
}
