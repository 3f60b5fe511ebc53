//! What a connection waits for: requests of its clients, and bytes of its stream.

use std::collections::VecDeque;
use std::io;
use std::sync::{Condvar, Mutex, MutexGuard, PoisonError};
use std::time::{Duration, Instant};

/// Requests of clients, at most `cap` at a time, and what the reader of a stream read.
pub(crate) struct Inbox<R> {
    state: Mutex<State<R>>,
    changed: Condvar,
    cap: usize,
}

struct State<R> {
    requests: VecDeque<R>,
    clients: usize,
    is_closed: bool,
    /// Of the stream with this number.
    stream: u64,
    read: VecDeque<io::Result<Vec<u8>>>,
    /// How many requests go before what was read.
    turns: usize,
}

/// What came.
pub(crate) enum Came<R> {
    /// Nothing of these bytes is the end of the stream.
    Read(io::Result<Vec<u8>>),
    Request(R),
    /// No client is left.
    NoClient,
    /// The moment came.
    Due,
}

/// How many pieces a reader reads ahead.
const AHEAD: usize = 16;

/// Whether nothing is read behind this.
pub(crate) fn is_end(read: &io::Result<Vec<u8>>) -> bool {
    read.as_ref().map_or(true, Vec::is_empty)
}

impl<R> State<R> {
    fn has_ended(&self) -> bool {
        self.read.back().is_some_and(is_end)
    }

    /// What was read. The requests that wait by then are the next.
    fn next_read(&mut self) -> Option<Came<R>> {
        let read = self.read.pop_front()?;
        self.turns = self.requests.len().max(1);
        Some(Came::Read(read))
    }

    fn next_request(&mut self) -> Option<Came<R>> {
        self.turns = self.turns.saturating_sub(1);
        let none = (self.clients == 0).then_some(Came::NoClient);
        self.requests.pop_front().map(Came::Request).or(none)
    }

    /// What was read and requests, by turns.
    fn next(&mut self, takes_requests: bool) -> Option<Came<R>> {
        if !takes_requests {
            self.next_read()
        } else if self.turns > 0 {
            self.next_request().or_else(|| self.next_read())
        } else {
            self.next_read().or_else(|| self.next_request())
        }
    }
}

impl<R> Inbox<R> {
    pub(crate) fn new(cap: usize) -> Inbox<R> {
        let (requests, read) = (VecDeque::new(), VecDeque::new());
        let state = State { requests, clients: 1, is_closed: false, stream: 0, read, turns: 0 };
        Inbox { state: Mutex::new(state), changed: Condvar::new(), cap: cap.max(1) }
    }

    fn lock(&self) -> MutexGuard<'_, State<R>> {
        self.state.lock().unwrap_or_else(PoisonError::into_inner)
    }

    fn wait<'a>(&self, state: MutexGuard<'a, State<R>>) -> MutexGuard<'a, State<R>> {
        self.changed.wait(state).unwrap_or_else(PoisonError::into_inner)
    }

    /// Waits for room. The request comes back where the connection is gone, or where there is no room and it mustn't wait.
    pub(crate) fn send(&self, request: R, may_wait: bool) -> Result<(), R> {
        let mut state = self.lock();
        while state.requests.len() >= self.cap && !state.is_closed {
            if !may_wait {
                return Err(request);
            }
            state = self.wait(state);
        }
        if state.is_closed {
            return Err(request);
        }
        state.requests.push_back(request);
        self.changed.notify_all();
        Ok(())
    }

    pub(crate) fn add_client(&self) {
        self.lock().clients += 1;
    }

    pub(crate) fn drop_client(&self) {
        self.lock().clients -= 1;
        self.changed.notify_all();
    }

    pub(crate) fn close(&self) {
        self.lock().is_closed = true;
        self.changed.notify_all();
    }

    /// A new stream: what was read of the last one is gone. Its number.
    pub(crate) fn begin_stream(&self) -> u64 {
        let mut state = self.lock();
        state.stream += 1;
        state.read.clear();
        self.changed.notify_all();
        state.stream
    }

    /// Hands on what was read of a stream; false where that is no longer wanted.
    pub(crate) fn hand_on(&self, stream: u64, read: io::Result<Vec<u8>>) -> bool {
        let mut state = self.lock();
        while state.read.len() >= AHEAD && state.stream == stream && !state.is_closed {
            state = self.wait(state);
        }
        if state.stream != stream || state.is_closed {
            return false;
        }
        state.read.push_back(read);
        self.changed.notify_all();
        true
    }

    /// Whether something was read that isn't taken yet.
    pub(crate) fn has_read(&self) -> bool {
        !self.lock().read.is_empty()
    }

    /// Whether the stream ended, be it behind what isn't taken yet.
    pub(crate) fn has_ended(&self) -> bool {
        self.lock().has_ended()
    }

    /// Whether no client is left, and no request of one.
    pub(crate) fn is_done(&self) -> bool {
        let state = self.lock();
        state.clients == 0 && state.requests.is_empty()
    }

    /// Waits until the moment at most, for a request too where one may be taken. The moment goes first. For a stream that
    /// ended there is neither.
    pub(crate) fn receive(&self, takes_requests: bool, due: Option<Instant>) -> Came<R> {
        let mut state = self.lock();
        loop {
            let is_open = !state.has_ended();
            let left = due.filter(|_| is_open).map(|due| due.saturating_duration_since(Instant::now()));
            if left == Some(Duration::ZERO) {
                return Came::Due;
            }
            if let Some(came) = state.next(takes_requests && is_open) {
                self.changed.notify_all();
                return came;
            }
            state = match left {
                None => self.wait(state),
                Some(left) => self.changed.wait_timeout(state, left).unwrap_or_else(PoisonError::into_inner).0,
            };
        }
    }
}
