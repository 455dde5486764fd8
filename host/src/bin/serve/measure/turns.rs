//! A lock that is had in the order in which it was asked for. The standard library's is had by who comes by when it is free.

use std::collections::VecDeque;
use std::sync::{Arc, Condvar, Mutex, MutexGuard, PoisonError};

/// A value that one thread has at a time.
pub struct Turns<T>(Mutex<Desk<T>>);

/// The value, while nobody has it, and who waits for it, the first at the front.
struct Desk<T> {
    value: Option<T>,
    queue: VecDeque<Arc<Place<T>>>,
}

/// A place in the queue, at which the value is handed over.
struct Place<T> {
    given: Mutex<Option<T>>,
    here: Condvar,
}

impl<T> Turns<T> {
    /// Puts a value behind a lock.
    pub fn new(value: T) -> Self {
        Turns(Mutex::new(Desk {
            value: Some(value),
            queue: VecDeque::new(),
        }))
    }

    /// Waits for the value, works with it, and hands it to who waits first.
    pub fn with<R>(&self, work: impl FnOnce(&mut T) -> R) -> R {
        let mut value = self.take();
        let done = work(&mut value);
        let mut desk = locked(&self.0);
        match desk.queue.pop_front() {
            None => desk.value = Some(value),
            Some(place) => {
                drop(desk);
                *locked(&place.given) = Some(value);
                place.here.notify_one();
            }
        }
        done
    }

    /// Takes the value, or waits until it is handed over.
    fn take(&self) -> T {
        let mut desk = locked(&self.0);
        if let Some(value) = desk.value.take() {
            return value;
        }
        let place = Arc::new(Place {
            given: Mutex::new(None),
            here: Condvar::new(),
        });
        desk.queue.push_back(Arc::clone(&place));
        drop(desk);
        let mut given = locked(&place.given);
        loop {
            match given.take() {
                Some(value) => return value,
                None => {
                    let waited = place.here.wait(given);
                    given = waited.unwrap_or_else(PoisonError::into_inner);
                }
            }
        }
    }
}

/// Locks what is held for a few instructions, none of which can fail.
fn locked<T>(mutex: &Mutex<T>) -> MutexGuard<'_, T> {
    mutex.lock().unwrap_or_else(PoisonError::into_inner)
}
