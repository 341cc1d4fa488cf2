//! A stand-in for the crate heapless: as much of its queue, vector and string as the files use.

pub mod spsc {
    use core::cell::UnsafeCell;
    use core::marker::PhantomData;
    use core::mem::MaybeUninit;
    use core::sync::atomic::{AtomicUsize, Ordering};

    /// A ring of `N` slots that holds `N - 1` items.
    pub struct Queue<T, const N: usize> {
        head: AtomicUsize,
        tail: AtomicUsize,
        slots: [UnsafeCell<MaybeUninit<T>>; N],
    }

    pub struct Producer<'a, T> {
        head: &'a AtomicUsize,
        tail: &'a AtomicUsize,
        slots: &'a [UnsafeCell<MaybeUninit<T>>],
        one_thread: PhantomData<*mut T>,
    }

    pub struct Consumer<'a, T> {
        head: &'a AtomicUsize,
        tail: &'a AtomicUsize,
        slots: &'a [UnsafeCell<MaybeUninit<T>>],
        one_thread: PhantomData<*mut T>,
    }

    impl<T: Copy, const N: usize> Queue<T, N> {
        pub const fn new() -> Self {
            Self { head: AtomicUsize::new(0), tail: AtomicUsize::new(0), slots: [const { UnsafeCell::new(MaybeUninit::uninit()) }; N] }
        }

        pub fn split(&mut self) -> (Producer<'_, T>, Consumer<'_, T>) {
            let Self { head, tail, slots } = &*self;
            let producer = Producer { head, tail, slots, one_thread: PhantomData };
            (producer, Consumer { head, tail, slots, one_thread: PhantomData })
        }
    }

    impl<T: Copy> Producer<'_, T> {
        /// The item goes behind those held, or comes back where the ring is full.
        pub fn enqueue(&mut self, item: T) -> Result<(), T> {
            let tail = self.tail.load(Ordering::Relaxed);
            let next = if tail + 1 == self.slots.len() { 0 } else { tail + 1 };
            if next == self.head.load(Ordering::Acquire) {
                return Err(item);
            }
            // SAFETY: only the producer writes the slot at the tail, and the consumer reads it after the tail has moved on.
            unsafe { (*self.slots[tail].get()).write(item) };
            self.tail.store(next, Ordering::Release);
            Ok(())
        }
    }

    impl<T: Copy> Consumer<'_, T> {
        pub fn len(&self) -> usize {
            let (head, tail) = (self.head.load(Ordering::Relaxed), self.tail.load(Ordering::Acquire));
            (tail + self.slots.len() - head) % self.slots.len()
        }

        pub fn is_empty(&self) -> bool {
            self.len() == 0
        }

        pub fn peek(&self) -> Option<&T> {
            let head = self.head.load(Ordering::Relaxed);
            if head == self.tail.load(Ordering::Acquire) {
                return None;
            }
            // SAFETY: a slot between head and tail was written by the producer.
            Some(unsafe { (*self.slots[head].get()).assume_init_ref() })
        }

        pub fn dequeue(&mut self) -> Option<T> {
            let item = *self.peek()?;
            let head = self.head.load(Ordering::Relaxed);
            let next = if head + 1 == self.slots.len() { 0 } else { head + 1 };
            self.head.store(next, Ordering::Release);
            Some(item)
        }
    }
}

/// At most `N` items.
pub struct Vec<T, const N: usize> {
    items: [Option<T>; N],
    len: usize,
}

impl<T: Copy, const N: usize> Vec<T, N> {
    pub const fn new() -> Self {
        Self { items: [None; N], len: 0 }
    }

    pub fn push(&mut self, item: T) -> Result<(), T> {
        if self.len == N {
            return Err(item);
        }
        self.items[self.len] = Some(item);
        self.len += 1;
        Ok(())
    }

    pub fn len(&self) -> usize {
        self.len
    }

    pub fn is_empty(&self) -> bool {
        self.len == 0
    }

    pub fn iter(&self) -> impl Iterator<Item = T> {
        self.items.iter().take(self.len).map(|item| item.unwrap())
    }
}

/// A text of at most `N` bytes.
pub struct String<const N: usize> {
    bytes: [u8; N],
    len: usize,
}

impl<const N: usize> String<N> {
    pub const fn new() -> Self {
        Self { bytes: [0; N], len: 0 }
    }

    pub fn clear(&mut self) {
        self.len = 0;
    }

    pub fn as_str(&self) -> &str {
        core::str::from_utf8(&self.bytes[..self.len]).unwrap()
    }
}

impl<const N: usize> core::fmt::Write for String<N> {
    fn write_str(&mut self, text: &str) -> core::fmt::Result {
        if N - self.len < text.len() {
            return Err(core::fmt::Error);
        }
        self.bytes[self.len..self.len + text.len()].copy_from_slice(text.as_bytes());
        self.len += text.len();
        Ok(())
    }
}
