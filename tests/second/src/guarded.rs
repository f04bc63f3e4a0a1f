//! Memory to lend to the other side of the boundary, with guards around it that tell of writing beside it.

/// How one call lends its memory; varied from call to call so that no layout or guard hides a fault.
#[derive(Clone, Copy, Debug)]
pub struct Lending {
    pub front: usize,
    pub guard: u8,
    /// Lend the null pointer where there is nothing to lend.
    pub null: bool,
    /// What the lists are filled from that a reader is to fill.
    pub filling: u32,
}

impl Lending {
    pub fn of_case(number: u64) -> Lending {
        Lending {
            front: 64 + (number % 8) as usize,
            guard: [0x00, 0xFF, 0xA5][(number % 3) as usize],
            null: (number / 8) % 2 == 1,
            filling: number as u32,
        }
    }

    /// What stands in a list for a reader before it is called, different at each place and from call to call.
    pub fn unfilled(self, place: usize) -> u32 {
        self.filling.wrapping_mul(4_099).wrapping_add(place as u32).wrapping_mul(0x9E37_79B1)
    }
}

const BACK: usize = 64;

pub struct Guarded<T> {
    memory: Vec<T>,
    front: usize,
    count: usize,
    guard: T,
    null: bool,
}

impl<T: Copy + PartialEq> Guarded<T> {
    pub fn new(lent: &[T], guard: T, lending: Lending) -> Guarded<T> {
        let mut memory = Vec::with_capacity(lending.front + lent.len() + BACK);
        memory.resize(lending.front, guard);
        memory.extend_from_slice(lent);
        memory.resize(memory.len() + BACK, guard);
        Guarded { memory, front: lending.front, count: lent.len(), guard, null: lending.null }
    }

    pub fn count(&self) -> usize {
        self.count
    }

    pub fn pointer(&mut self) -> *mut T {
        if self.count == 0 && self.null {
            return std::ptr::null_mut();
        }
        self.memory[self.front..].as_mut_ptr()
    }

    pub fn lent(&self) -> &[T] {
        &self.memory[self.front..self.front + self.count]
    }

    /// Whether every guard is in place.
    pub fn is_intact(&self) -> bool {
        let (front, rest) = self.memory.split_at(self.front);
        all_are(front, self.guard) && all_are(&rest[self.count..], self.guard)
    }

    /// The places outside the lent slice that no longer hold the guard, counted from its first element.
    pub fn disturbed(&self) -> Vec<isize> {
        if self.is_intact() {
            return vec![];
        }
        let outside = (0..self.front).chain(self.front + self.count..self.memory.len());
        outside
            .filter(|&place| self.memory[place] != self.guard)
            .map(|place| place as isize - self.front as isize)
            .collect()
    }
}

/// A slice that begins with the element and equals itself moved on by one has nothing else, and this is quickly seen.
fn all_are<T: PartialEq>(slice: &[T], element: T) -> bool {
    match slice {
        [] => true,
        [first, others @ ..] => *first == element && others == &slice[..others.len()],
    }
}
