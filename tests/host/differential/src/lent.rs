//! Memory lent to the library, with guards on both sides. In each call of the library the guarded slices are separate
//! buffers, valid and aligned for their lengths.

use crate::case::Difference;

/// A value that fills the guards: no call may change it.
pub trait Guard: Copy + PartialEq {
    const GUARD: Self;
}

impl Guard for u8 {
    const GUARD: u8 = 0xa7;
}

impl Guard for u32 {
    const GUARD: u32 = 0xa7b6_c5d4;
}

impl Guard for u64 {
    const GUARD: u64 = 0xa7b6_c5d4_e3f2_0118;
}

/// Elements of guard on each side; a byte slice begins at an odd address now and then.
const WIDTH: usize = 67;

/// A slice between guards.
pub struct Guarded<T> {
    all: Vec<T>,
    length: usize,
}

impl<T: Guard> Guarded<T> {
    pub fn new(content: &[T]) -> Guarded<T> {
        let mut guarded = Guarded { all: Vec::new(), length: 0 };
        guarded.fill(content);
        guarded
    }

    /// Lays out new content between new guards.
    pub fn fill(&mut self, content: &[T]) {
        self.length = content.len();
        self.all.clear();
        self.all.resize(WIDTH, T::GUARD);
        self.all.extend_from_slice(content);
        self.all.resize(2 * WIDTH + content.len(), T::GUARD);
    }

    pub fn content(&self) -> &[T] {
        &self.all[WIDTH..WIDTH + self.length]
    }

    pub fn length(&self) -> usize {
        self.length
    }

    pub fn pointer(&self) -> *const T {
        self.content().as_ptr()
    }

    /// A pointer into the whole buffer, so that a write behind the slice is seen and not undefined.
    pub fn pointer_mut(&mut self) -> *mut T {
        // SAFETY: the buffer has more than WIDTH elements.
        unsafe { self.all.as_mut_ptr().add(WIDTH) }
    }
}

/// Memory whose guards can be looked at.
pub trait Stands {
    fn stands(&self) -> bool;
}

impl<T: Guard> Stands for Guarded<T> {
    fn stands(&self) -> bool {
        let stands = |guard: &[T]| guard.iter().all(|element| *element == T::GUARD);
        stands(&self.all[..WIDTH]) && stands(&self.all[WIDTH + self.length..])
    }
}

/// The guards of all these are as they were.
pub fn guards_stand(lent: &[&dyn Stands]) -> Difference {
    let stand = lent.iter().all(|memory| memory.stands());
    (!stand).then(|| "memory beside a lent slice was written".to_string())
}
