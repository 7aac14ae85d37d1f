//! Lent memory that shows misuse: buffers with guards on both sides, and bytes next to a page that cannot be touched.

/// Items on each side of a buffer that no call may write.
const GUARD: usize = 32;

/// An item of lent memory.
pub trait Item: Copy + PartialEq + std::fmt::Debug {
    /// What the k-th item holds before a call; no call writes these.
    fn filling(k: usize) -> Self;
}

impl Item for u8 {
    fn filling(k: usize) -> u8 {
        0x80 | (k * 37) as u8
    }
}

impl Item for u32 {
    fn filling(k: usize) -> u32 {
        0xa5c3_0000 + k as u32
    }
}

impl Item for u64 {
    fn filling(k: usize) -> u64 {
        0xa5c3_5a3c_0000_0000 + k as u64
    }
}

impl Item for i64 {
    fn filling(k: usize) -> i64 {
        u64::filling(k) as i64
    }
}

/// A buffer with guards on both sides.
pub struct Guarded<T> {
    all: Vec<T>,
    /// Items in front of the lent ones.
    before: usize,
}

impl<T: Item> Guarded<T> {
    /// A buffer of `room` items, filled; `shift` items further from where the memory begins.
    pub fn new(room: usize, shift: usize) -> Guarded<T> {
        let before = GUARD + shift;
        Guarded { all: (0..before + room + GUARD).map(T::filling).collect(), before }
    }

    /// The same with the first items given, as many as are lent.
    pub fn holding(items: &[T], room: usize, shift: usize) -> Guarded<T> {
        let mut guarded = Guarded::new(room, shift);
        for (k, &item) in items.iter().take(room).enumerate() {
            guarded.all[guarded.before + k] = item;
        }
        guarded
    }

    /// How many items are lent.
    pub fn room(&self) -> usize {
        self.all.len() - self.before - GUARD
    }

    /// Where they are.
    pub fn pointer(&mut self) -> *mut T {
        self.all[self.before..].as_mut_ptr()
    }

    /// The items.
    pub fn items(&self) -> &[T] {
        &self.all[self.before..self.before + self.room()]
    }

    /// Whether no guard was written.
    pub fn guards_intact(&self) -> bool {
        let end = self.before + self.room();
        let held = |k: usize| self.all[k] == T::filling(k);
        (0..self.before).all(held) && (end..end + GUARD).all(held)
    }
}

const PAGE: usize = 4096;
const READ: i32 = 1;
const WRITE: i32 = 2;
const PRIVATE_ANONYMOUS: i32 = 0x22;

extern "C" {
    fn mmap(at: *mut u8, length: usize, protection: i32, flags: i32, file: i32, offset: i64) -> *mut u8;
    fn mprotect(at: *mut u8, length: usize, protection: i32) -> i32;
}

/// Pages between two that cannot be touched.
pub struct Arena {
    first: *mut u8,
    size: usize,
}

impl Arena {
    /// An arena for up to `capacity` bytes.
    pub fn new(capacity: usize) -> Arena {
        let size = capacity.div_ceil(PAGE) * PAGE;
        // SAFETY: fresh private memory; the first and the last page stay untouchable.
        let all = unsafe { mmap(std::ptr::null_mut(), size + 2 * PAGE, 0, PRIVATE_ANONYMOUS, -1, 0) };
        assert!(all as isize != -1, "no memory");
        let arena = Arena { first: all.wrapping_add(PAGE), size };
        arena.allow(READ | WRITE);
        arena
    }

    fn allow(&self, protection: i32) {
        // SAFETY: the arena's own pages.
        assert_eq!(unsafe { mprotect(self.first, self.size, protection) }, 0);
    }

    /// Puts bytes at the arena's end or its beginning, so that a read past it or before it faults.
    pub fn place(&mut self, bytes: &[u8], at_end: bool) -> *const u8 {
        self.put(bytes, if at_end { self.size - bytes.len() } else { 0 })
    }

    /// Puts bytes so many before the arena's end.
    pub fn place_before_end(&mut self, bytes: &[u8], gap: usize) -> *const u8 {
        self.put(bytes, self.size - bytes.len() - gap)
    }

    /// Whether the bytes at the arena's end are these.
    pub fn ends_with(&self, bytes: &[u8]) -> bool {
        self.bytes(self.size - bytes.len(), bytes.len()) == bytes
    }

    fn bytes(&self, at: usize, length: usize) -> &[u8] {
        assert!(at + length <= self.size);
        // SAFETY: the bytes are the arena's own, and no call is being made.
        unsafe { std::slice::from_raw_parts(self.first.wrapping_add(at), length) }
    }

    fn put(&mut self, bytes: &[u8], at: usize) -> *const u8 {
        assert!(at <= self.size && bytes.len() <= self.size - at);
        let at = self.first.wrapping_add(at);
        // SAFETY: the bytes fit, and the pages can be written.
        unsafe { std::ptr::copy_nonoverlapping(bytes.as_ptr(), at, bytes.len()) };
        at
    }

    /// The same as `place`, with writes faulting too until the next call.
    pub fn place_read_only(&mut self, bytes: &[u8], at_end: bool) -> *const u8 {
        self.allow(READ | WRITE);
        let at = self.place(bytes, at_end);
        self.allow(READ);
        at
    }
}

/// Bytes that calls read and write: on one side a page that cannot be touched, on the other guards.
pub struct Room<'a> {
    arena: &'a mut Arena,
    at: usize,
    length: usize,
}

impl Room<'_> {
    /// Bytes at the arena's end or its beginning.
    pub fn new<'a>(arena: &'a mut Arena, bytes: &[u8], at_end: bool) -> Room<'a> {
        let (length, size) = (bytes.len(), arena.size);
        let at = if at_end { size - length } else { 0 };
        assert!(length + GUARD <= size);
        arena.put(bytes, at);
        let guards: Vec<u8> = (0..GUARD).map(u8::filling).collect();
        arena.put(&guards, if at_end { at - GUARD } else { length });
        Room { arena, at, length }
    }

    /// Where they are.
    pub fn pointer(&self) -> *mut u8 {
        self.arena.first.wrapping_add(self.at)
    }

    /// The bytes.
    pub fn bytes(&self) -> &[u8] {
        self.arena.bytes(self.at, self.length)
    }

    /// Changes some of them.
    pub fn alter(&mut self, at: usize, bytes: &[u8]) {
        assert!(at + bytes.len() <= self.length);
        self.arena.put(bytes, self.at + at);
    }

    /// Whether no guard was written.
    pub fn guards_intact(&self) -> bool {
        let at = if self.at > 0 { self.at - GUARD } else { self.length };
        self.arena.bytes(at, GUARD).iter().enumerate().all(|(k, &byte)| byte == u8::filling(k))
    }
}
