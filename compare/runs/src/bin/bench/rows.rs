//! The row jobs: copies, boolean operations, swap, equality.

use bitvec::{
    oracle::Row as _,
    order::{BitOrder, Lsb0, Msb0},
    slice::BitSlice,
};
use model::{Order, AND, OR, XOR};

use crate::{
    contest::{times, writes, Buffers, Contest, Who, Work},
    plain::Plain,
    width::{Calls, Row, Width},
};

/// What is done to a row.
#[derive(Clone, Copy, Debug, Eq, PartialEq)]
pub enum Job {
    CopyFrom,
    /// By so many bits to higher indexes: backwards.
    CopyUp(usize),
    /// By so many bits to lower indexes.
    CopyDown(usize),
    /// By the number of the truth table.
    Boolean(u8),
    Swap,
    Equal,
}

/// A job at two heads.
#[derive(Clone, Copy)]
pub struct Task {
    pub job: Job,
    pub left: Row,
    pub right: Row,
}

impl Task {
    /// The bits that the job is about.
    pub fn bits(self) -> usize {
        match self.job {
            Job::CopyUp(by) | Job::CopyDown(by) => self.left.length - by,
            _ => self.left.length,
        }
    }

    /// Start, count and destination of a copy inside.
    fn ranges(self) -> (usize, usize, usize) {
        match self.job {
            Job::CopyUp(by) => (0, self.bits(), by),
            Job::CopyDown(by) => (by, self.bits(), 0),
            _ => (0, 0, 0),
        }
    }
}

/// The contest of a task on buffers of random words, `repeat` times in a go.
pub fn contest<T: Width>(task: Task, buffers: Buffers<T>, repeat: usize) -> Contest<T> {
    let mut buffers = buffers;
    if task.job == Job::Equal {
        T::PlainRust::copy_from(&mut buffers.right, task.right, &buffers.left, task.left);
    }
    let bitvec = match task.left.order {
        Order::Lsb0 => bitvec::<T, Lsb0>(task, repeat),
        Order::Msb0 => bitvec::<T, Msb0>(task, repeat),
    };
    let mut works = vec![
        (Who::Library, by_calls::<T, T::Library>(task, repeat)),
        (Who::Bitvec, bitvec),
        (Who::Plain, by_calls::<T, T::PlainRust>(task, repeat)),
    ];
    works.extend(memory::<T>(task, repeat).map(|work| (Who::Memory, work)));
    Contest { buffers, works, repeat }
}

/// The work of the library, or of plain Rust.
fn by_calls<T: Width, C: Calls<T>>(task: Task, repeat: usize) -> Work<T> {
    let Task { job, left, right } = task;
    let (start, count, destination) = task.ranges();
    match job {
        Job::CopyFrom => times(repeat, move |b: &mut Buffers<T>| C::copy_from(&mut b.left, left, &b.right, right)),
        Job::CopyUp(_) | Job::CopyDown(_) => {
            times(repeat, move |b: &mut Buffers<T>| C::copy_within(&mut b.left, left, start, count, destination))
        }
        Job::Boolean(operation) => {
            times(repeat, move |b: &mut Buffers<T>| C::boolean(&mut b.left, left, &b.right, right, operation))
        }
        Job::Swap => times(repeat, move |b: &mut Buffers<T>| C::swap(&mut b.left, left, &mut b.right, right)),
        Job::Equal => times(repeat, move |b: &mut Buffers<T>| C::equal(&b.left, left, &b.right, right)),
    }
}

/// The work of plain Rust that takes eight bytes at once, where there is one: at copies inside.
pub fn by_eight<T: Width>(task: Task, repeat: usize) -> Option<Work<T>> {
    let (copy, (start, count, destination)) = (T::BY_EIGHT?, task.ranges());
    matches!(task.job, Job::CopyUp(_) | Job::CopyDown(_))
        .then(|| times(repeat, move |b: &mut Buffers<T>| copy(&mut b.left, task.left, start, count, destination)))
}

/// bitvec's work.
fn bitvec<T: Width, O: BitOrder>(task: Task, repeat: usize) -> Work<T>
where
    BitSlice<T, O>: bitvec::oracle::Row,
{
    let Task { job, left, right } = task;
    let (start, count, destination) = task.ranges();
    match job {
        Job::CopyFrom => writes(repeat, move |b| left.see_mut::<T, O>(&mut b.left).copy_from(right.see(&b.right))),
        Job::CopyUp(_) | Job::CopyDown(_) => {
            writes(repeat, move |b| unsafe { left.see_mut::<T, O>(&mut b.left).copy_within(start..start + count, destination) })
        }
        Job::Boolean(AND) => writes(repeat, move |b| left.see_mut::<T, O>(&mut b.left).bitop::<AND>(right.see(&b.right))),
        Job::Boolean(OR) => writes(repeat, move |b| left.see_mut::<T, O>(&mut b.left).bitop::<OR>(right.see(&b.right))),
        Job::Boolean(_) => writes(repeat, move |b| left.see_mut::<T, O>(&mut b.left).bitop::<XOR>(right.see(&b.right))),
        Job::Swap => writes(repeat, move |b| left.see_mut::<T, O>(&mut b.left).swap(right.see_mut(&mut b.right))),
        Job::Equal => times(repeat, move |b| left.see::<T, O>(&b.left).same(right.see(&b.right)) as u64),
    }
}

/// memcpy, memmove or memcmp of as many words, where the job has one.
fn memory<T: Width>(task: Task, repeat: usize) -> Option<Work<T>> {
    let words = task.bits().div_ceil(<T as Plain>::WIDTH);
    Some(match task.job {
        Job::CopyFrom => writes(repeat, move |b: &mut Buffers<T>| b.left[..words].copy_from_slice(&b.right[..words])),
        Job::CopyUp(_) => writes(repeat, move |b: &mut Buffers<T>| b.left.copy_within(..words, 1)),
        Job::CopyDown(_) => writes(repeat, move |b: &mut Buffers<T>| b.left.copy_within(1..words + 1, 0)),
        Job::Equal => times(repeat, move |b: &mut Buffers<T>| (b.left[..words] == b.twin[..words]) as u64),
        _ => return None,
    })
}
