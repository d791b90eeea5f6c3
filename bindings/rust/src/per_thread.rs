//! Places, one for each thread.

use std::{
    cell::Cell,
    sync::{
        atomic::{AtomicU64, Ordering},
        OnceLock,
    },
};

/// How many threads may have a number at a time, as a power of 2.
const BITS: usize = 10;

/// The numbers that threads have: a bit for each. A bit is a lock, which its thread holds until it ends.
static TAKEN: [AtomicU64; (1 << BITS) / 64] = {
    #[allow(clippy::declare_interior_mutable_const)]
    const NONE: AtomicU64 = AtomicU64::new(0);
    [NONE; (1 << BITS) / 64]
};

/// The number of a thread: the lowest that no other thread had when this one first asked for it. No other thread has it until
/// this one ends.
struct Number(Option<At>);

/// Where the place of a number is.
#[derive(Clone, Copy)]
struct At {
    part: usize,
    /// Its index in the part.
    index: usize,
}

impl At {
    /// The first part has the place of number 0, and part `k` above 0 the places of the `2^(k - 1)` numbers from `2^(k - 1)` on.
    fn of(number: usize) -> At {
        let part = (usize::BITS - number.leading_zeros()) as usize;
        At { part, index: number - At::first(part) }
    }

    fn number(self) -> usize {
        At::first(self.part) + self.index
    }

    /// The first number of a part.
    fn first(part: usize) -> usize {
        1 << part >> 1
    }

    /// How many places a part has.
    fn len(part: usize) -> usize {
        At::first(part).max(1)
    }
}

impl Number {
    /// Takes a number, or none if all are taken.
    fn take() -> Number {
        for (at, word) in TAKEN.iter().enumerate() {
            let mut bits = word.load(Ordering::Relaxed);
            while bits != u64::MAX {
                let free = bits.trailing_ones();
                match word.compare_exchange_weak(bits, bits | 1 << free, Ordering::Acquire, Ordering::Relaxed) {
                    Ok(_) => return Number(Some(At::of(at * 64 + free as usize))),
                    Err(now) => bits = now,
                }
            }
        }
        Number(None)
    }
}

impl Drop for Number {
    fn drop(&mut self) {
        if let Some(number) = self.0.map(At::number) {
            HERE.with(|here| here.set(None));
            TAKEN[number / 64].fetch_and(!(1 << (number % 64)), Ordering::Release);
        }
    }
}

thread_local! {
    static NUMBER: Number = Number::take();
    /// Where this thread's places are, as long as it has a number and from its first question on. It is there to be read fast.
    static HERE: Cell<Option<At>> = const { Cell::new(None) };
}

/// Places, one for each number that a thread may have. They are made as threads ask.
pub(crate) struct PerThread<T> {
    parts: [OnceLock<Box<[Place<T>]>>; BITS + 1],
}

/// No two places share a line of the processor's cache, so that threads do not slow each other down.
#[derive(Default)]
#[repr(align(128))]
struct Place<T>(T);

impl<T: Default> PerThread<T> {
    pub(crate) fn new() -> PerThread<T> {
        PerThread { parts: std::array::from_fn(|_| OnceLock::new()) }
    }

    /// The place of this thread. As long as the thread runs, no other thread is given it. The next thread that is, has a number
    /// that this thread gave back at its end, and so sees all that this one did.
    ///
    /// There is none for a thread that asked when all numbers were taken, or that ends and gave its number back.
    #[inline]
    pub(crate) fn of_this_thread(&self) -> Option<&T> {
        match HERE.with(Cell::get).and_then(|at| self.made(at)) {
            Some(place) => Some(place),
            None => self.first_of_this_thread(),
        }
    }

    /// The same, where the thread asks for the first time, and where it has no place.
    #[cold]
    fn first_of_this_thread(&self) -> Option<&T> {
        let at = NUMBER.try_with(|number| number.0).ok()??;
        HERE.with(|here| here.set(Some(at)));
        Some(self.place(at))
    }

    /// A place, if its part was made.
    #[inline]
    fn made(&self, at: At) -> Option<&T> {
        Some(&self.parts.get(at.part)?.get()?.get(at.index)?.0)
    }

    /// A place. Its part is made before it is locked, so that an allocator may ask for places, too.
    fn place(&self, at: At) -> &T {
        let part = &self.parts[at.part];
        if part.get().is_none() {
            let places = (0..At::len(at.part)).map(|_| Place::default()).collect();
            part.get_or_init(|| places);
        }
        self.made(at).expect("the part was made")
    }
}

#[cfg(test)]
mod tests {
    use super::*;
    use std::{
        cell::OnceCell,
        collections::HashSet,
        sync::{
            atomic::AtomicUsize,
            mpsc::{channel, Sender},
            Arc, Barrier,
        },
        thread,
    };

    /// The address of this thread's place.
    fn at(places: &PerThread<AtomicUsize>) -> usize {
        places.of_this_thread().expect("a place") as *const AtomicUsize as usize
    }

    #[test]
    fn each_number_has_a_place_of_its_own() {
        let places = PerThread::<AtomicUsize>::new();
        let all: HashSet<usize> =
            (0..1 << BITS).map(|number| places.place(At::of(number)) as *const _ as usize).collect();
        assert_eq!(all.len(), 1 << BITS);
        assert_eq!(at(&places), at(&places));
    }

    #[test]
    fn threads_at_the_same_time_have_different_places() {
        let places = Arc::new(PerThread::new());
        let all_have = Arc::new(Barrier::new(20));
        let threads: Vec<_> = (0..20)
            .map(|_| {
                let (places, all_have) = (Arc::clone(&places), Arc::clone(&all_have));
                thread::spawn(move || {
                    let place = at(&places);
                    all_have.wait();
                    place
                })
            })
            .collect();
        let all: HashSet<usize> = threads.into_iter().map(|thread| thread.join().expect("a thread ends")).collect();
        assert_eq!(all.len(), 20);
    }

    #[test]
    fn a_place_of_a_thread_that_ended_is_given_to_another() {
        let places = Arc::new(PerThread::new());
        let all: HashSet<usize> = (0..200)
            .map(|_| {
                let places = Arc::clone(&places);
                thread::spawn(move || at(&places)).join().expect("a thread ends")
            })
            .collect();
        // Other tests may run beside this one, and their threads have numbers too.
        assert!(all.len() < 200);
    }
    /// Says whether the thread has a place when this is dropped.
    struct AskedAtEnd(Arc<PerThread<AtomicUsize>>, Sender<bool>);

    impl Drop for AskedAtEnd {
        fn drop(&mut self) {
            self.1.send(self.0.of_this_thread().is_some()).expect("a receiver");
        }
    }

    thread_local! {
        static AT_END: OnceCell<AskedAtEnd> = const { OnceCell::new() };
    }

    #[test]
    fn a_thread_that_gave_its_number_back_has_no_place() {
        let (sender, receiver) = channel();
        let thread = thread::spawn(move || {
            let places = Arc::new(PerThread::new());
            // What a thread makes first, it drops last.
            AT_END.with(|asked| assert!(asked.set(AskedAtEnd(Arc::clone(&places), sender)).is_ok()));
            assert_eq!(at(&places), at(&places));
        });
        thread.join().expect("a thread ends");
        assert_eq!(receiver.recv(), Ok(false));
    }
}
