//! A stamped lock round a value, over the static library. Four threads add to the value, and the sum is
//! printed: 40000.
use std::cell::UnsafeCell;
use std::sync::atomic::{AtomicU64, Ordering};
use std::thread;

/// The functions and structs of `stamped.h`.
mod stamped {
    #[repr(C)]
    #[derive(Clone, Copy)]
    pub struct Limits {
        pub layout: u32,
        pub readers: u32,
        pub versions: u64,
    }

    #[repr(C)]
    pub struct Decision {
        pub word: u64,
        pub reply: u64,
    }

    pub const WRITE_LOCK: u32 = 3;
    pub const READ_LOCK: u32 = 4;
    pub const UNLOCK: u32 = 9;
    pub const WAIT: u64 = 16;
    pub const LEAST_WORD: u64 = 256;
    pub const DONE: u64 = 1;

    unsafe extern "C" {
        pub safe fn stamped_opening(layout: u32) -> u64;
        pub safe fn stamped_decide(limits: Limits, word: u64, call: u32, stamp: u64) -> Decision;
    }
}

const LIMITS: stamped::Limits = stamped::Limits {
    layout: 1,
    readers: 127,
    versions: 36_028_797_018_963_966,
};

/// A value that one thread writes, or up to 127 read, at a time.
pub struct Locked<T> {
    word: AtomicU64,
    value: UnsafeCell<T>,
}

// The value is lent out by `write` alone, in write mode, and by `read`, in read mode.
unsafe impl<T: Send + Sync> Sync for Locked<T> {}

/// Releases the stamp's mode at its end, also where the closure panics.
struct Held<'a, T> {
    lock: &'a Locked<T>,
    stamp: u64,
}

impl<T> Drop for Held<'_, T> {
    fn drop(&mut self) {
        let released = self.lock.call(stamped::UNLOCK, self.stamp);
        assert_eq!(released, stamped::DONE);
    }
}

impl<T> Locked<T> {
    pub fn new(value: T) -> Self {
        let word = AtomicU64::new(stamped::stamped_opening(LIMITS.layout));
        Locked { word, value: UnsafeCell::new(value) }
    }

    /// Makes a call, and waits where it has to. Returns the reply.
    fn call(&self, call: u32, stamp: u64) -> u64 {
        let order = Ordering::SeqCst;
        let mut found = self.word.load(order);
        loop {
            let made = stamped::stamped_decide(LIMITS, found, call, stamp);
            if made.word == stamped::WAIT {
                thread::yield_now();
                found = self.word.load(order);
                continue;
            }
            assert!(made.word >= stamped::LEAST_WORD, "error {}", made.word);
            if made.word == found {
                return made.reply;
            }
            match self.word.compare_exchange(found, made.word, order, order) {
                Ok(_) => return made.reply,
                Err(other) => found = other,
            }
        }
    }

    fn acquire(&self, call: u32) -> Held<'_, T> {
        let stamp = self.call(call, 0);
        assert_ne!(stamp, 0);
        Held { lock: self, stamp }
    }

    pub fn write<R>(&self, f: impl FnOnce(&mut T) -> R) -> R {
        let _held = self.acquire(stamped::WRITE_LOCK);
        f(unsafe { &mut *self.value.get() })
    }

    pub fn read<R>(&self, f: impl FnOnce(&T) -> R) -> R {
        let _held = self.acquire(stamped::READ_LOCK);
        f(unsafe { &*self.value.get() })
    }
}

fn main() {
    let sum = Locked::new(0u64);
    thread::scope(|scope| {
        for _ in 0..4 {
            scope.spawn(|| {
                for _ in 0..10_000 {
                    let before = sum.read(|sum| *sum);
                    sum.write(|sum| {
                        assert!(*sum >= before);
                        *sum += 1;
                    });
                }
            });
        }
    });
    println!("{}", sum.read(|sum| *sum));
}
