//! The nodes that have a label and are not settled, in buckets by their tick: a ring of 4,096 ticks, longer than any travel, with a bit for
//! each bucket that holds a node. It measured a little faster here than a binary heap and than a scan of all such nodes.

const RING: usize = 4096;
const NONE: u16 = u16::MAX;

pub struct Queue {
    bits: [u64; RING / 64],
    first: [u16; RING],
    next: [u16; 512],
    before: [u16; 512],
    at: usize,
    size: usize,
}

fn bucket(tick: u32) -> usize {
    tick as usize % RING
}

impl Queue {
    /// An empty queue; no tick comes before `tick`, nor 4,096 or more after the last that was popped.
    pub fn new(tick: u32) -> Queue {
        Queue { bits: [0; RING / 64], first: [NONE; RING], next: [NONE; 512], before: [NONE; 512], at: bucket(tick), size: 0 }
    }

    #[inline(always)]
    pub fn push(&mut self, v: usize, tick: u32) {
        let b = bucket(tick);
        let old = self.first[b];
        self.next[v] = old;
        self.before[v] = NONE;
        if old != NONE {
            self.before[old as usize] = v as u16;
        }
        self.first[b] = v as u16;
        self.bits[b / 64] |= 1 << (b % 64);
        self.size += 1;
    }

    /// Takes out a node that stands at this tick.
    #[inline(always)]
    pub fn remove(&mut self, v: usize, tick: u32) {
        let b = bucket(tick);
        let (before, next) = (self.before[v], self.next[v]);
        if before != NONE {
            self.next[before as usize] = next;
        } else {
            self.first[b] = next;
            if next == NONE {
                self.bits[b / 64] &= !(1 << (b % 64));
            }
        }
        if next != NONE {
            self.before[next as usize] = before;
        }
        self.size -= 1;
    }

    /// A node with the least tick. It stays until it is removed.
    #[inline(always)]
    pub fn least(&mut self) -> Option<usize> {
        if self.size == 0 {
            return None;
        }
        let mut word = self.at / 64;
        let mut bits = self.bits[word] & (u64::MAX << (self.at % 64));
        while bits == 0 {
            word = (word + 1) % (RING / 64);
            bits = self.bits[word];
        }
        self.at = 64 * word + bits.trailing_zeros() as usize;
        Some(self.first[self.at] as usize)
    }
}
