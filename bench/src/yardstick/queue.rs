//! A queue of facts, nearest first: buckets while distances are small, a heap otherwise.

use crate::task::Task;
use std::cmp::Reverse;
use std::collections::BinaryHeap;

/// The highest cost of a step with which buckets are tried.
const BUCKET_COST: u32 = 8;

/// How many buckets there may be.
const BUCKETS: u32 = 1_024;

/// Facts by distance; `lowest` is a bucket before which all are empty, `count` the number of facts.
pub enum Queue {
    Buckets {
        buckets: Vec<Vec<u16>>,
        lowest: usize,
        count: usize,
    },
    Heap(BinaryHeap<Reverse<(u32, u16)>>),
}

impl Queue {
    /// An empty queue for the distances of a task.
    pub fn new(task: &Task) -> Queue {
        match task.costs.iter().all(|&cost| cost <= BUCKET_COST) {
            true => Queue::Buckets {
                buckets: Vec::with_capacity(64),
                lowest: 0,
                count: 0,
            },
            false => Queue::Heap(BinaryHeap::with_capacity(task.facts)),
        }
    }

    /// Adds a fact at a distance.
    #[inline]
    pub fn push(&mut self, distance: u32, fact: u16) {
        match self {
            Queue::Heap(heap) => heap.push(Reverse((distance, fact))),
            Queue::Buckets { .. } if distance >= BUCKETS => {
                let mut heap = self.emptied_into_heap();
                heap.push(Reverse((distance, fact)));
                *self = Queue::Heap(heap);
            }
            Queue::Buckets {
                buckets,
                lowest,
                count,
            } => {
                let bucket = distance as usize;
                if buckets.len() <= bucket {
                    buckets.resize_with(bucket + 1, || Vec::with_capacity(8));
                }
                buckets[bucket].push(fact);
                *count += 1;
                *lowest = bucket.min(*lowest);
            }
        }
    }

    /// A heap of all facts in the queue.
    fn emptied_into_heap(&mut self) -> BinaryHeap<Reverse<(u32, u16)>> {
        let mut heap = BinaryHeap::new();
        while let Some(entry) = self.pop() {
            heap.push(Reverse(entry));
        }
        heap
    }

    /// Takes out a nearest fact.
    #[inline]
    pub fn pop(&mut self) -> Option<(u32, u16)> {
        match self {
            Queue::Heap(heap) => heap.pop().map(|Reverse(entry)| entry),
            Queue::Buckets { count: 0, .. } => None,
            Queue::Buckets {
                buckets,
                lowest,
                count,
            } => loop {
                if let Some(fact) = buckets[*lowest].pop() {
                    *count -= 1;
                    return Some((*lowest as u32, fact));
                }
                *lowest += 1;
            },
        }
    }
}
