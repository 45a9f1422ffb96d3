//! Contestants at one job, timed in turns.

use std::{hint::black_box, time::Instant};

use runs::random::Random;

use crate::width::Width;

/// Who is timed.
#[derive(Clone, Copy, Debug, Eq, PartialEq)]
pub enum Who {
    Library,
    Bitvec,
    Plain,
    Checked,
    Memory,
    /// Plain Rust that takes eight bytes at once.
    Eight,
}

impl Who {
    /// All of them, in the order of their columns.
    pub const ALL: [Who; 6] = [Who::Library, Who::Bitvec, Who::Plain, Who::Checked, Who::Memory, Who::Eight];
}

/// The words of a job. All contestants work on the same.
#[derive(Clone, PartialEq)]
pub struct Buffers<T> {
    pub left: Vec<T>,
    pub right: Vec<T>,
    /// The left words once more, for memcmp.
    pub twin: Vec<T>,
}

impl<T: Width> Buffers<T> {
    /// Buffers of so many random words.
    pub fn random(words: usize) -> Self {
        let mut random = Random::new(words as u64);
        let mut fill = || -> Vec<T> { (0..words).map(|_| T::of(random.bits())).collect() };
        let (left, right) = (fill(), fill());
        Buffers { twin: left.clone(), left, right }
    }
}

/// A contestant's work: what it answers, as a number.
pub type Work<T> = Box<dyn Fn(&mut Buffers<T>) -> u64>;

/// A work that does its job `repeat` times.
pub fn times<T: 'static>(repeat: usize, job: impl Fn(&mut Buffers<T>) -> u64 + 'static) -> Work<T> {
    Box::new(move |buffers| {
        let mut answer = 0;
        for _ in 0..repeat {
            answer = black_box(job(black_box(buffers)));
        }
        answer
    })
}

/// The same for a job that only writes.
pub fn writes<T: 'static>(repeat: usize, job: impl Fn(&mut Buffers<T>) + 'static) -> Work<T> {
    times(repeat, move |buffers| {
        job(buffers);
        0
    })
}

/// A job and those who do it.
pub struct Contest<T> {
    pub buffers: Buffers<T>,
    pub works: Vec<(Who, Work<T>)>,
    /// How often each does the job in one go.
    pub repeat: usize,
}

/// The best time of each contestant for the job done once, in nanoseconds.
pub type Times = [Option<f64>; Who::ALL.len()];

/// How long one timing takes, at least where the job is short.
const SLICE: f64 = 300_000.0;

impl<T: Width> Contest<T> {
    /// Times all in turns, after a check that they do the same.
    pub fn run(mut self, rounds: usize) -> Times {
        self.check();
        let goes: Vec<usize> = (0..self.works.len())
            .map(|n| {
                self.time(n, 1);
                (SLICE / self.time(n, 1)).ceil() as usize
            })
            .collect();
        let mut times: Times = [None; Who::ALL.len()];
        for _ in 0..rounds {
            for (n, &goes) in goes.iter().enumerate() {
                let each = self.time(n, goes) / (goes * self.repeat) as f64;
                let best = &mut times[self.works[n].0 as usize];
                *best = Some(best.map_or(each, |best| best.min(each)));
            }
        }
        times
    }

    /// How long a contestant takes for so many goes, in nanoseconds.
    fn time(&mut self, n: usize, goes: usize) -> f64 {
        let begun = Instant::now();
        for _ in 0..goes {
            black_box((self.works[n].1)(&mut self.buffers));
        }
        begun.elapsed().as_nanos() as f64
    }

    /// Stops unless bitvec and Rust by hand answer and leave what the library does.
    fn check(&self) {
        let done = |work: &Work<T>| {
            let mut buffers = self.buffers.clone();
            (work(&mut buffers), buffers)
        };
        let library = done(&self.works[0].1);
        for (who, work) in &self.works[1..] {
            assert!(*who == Who::Memory || done(work) == library, "the library and {who:?} do not do the same");
        }
    }
}
