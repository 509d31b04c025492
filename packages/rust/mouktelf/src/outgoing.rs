//! What goes out on a connection, in the order of the calls that gave it.

use std::io::{self, Write};
use std::mem::take;
use std::sync::{Mutex, MutexGuard, PoisonError};

/// What goes out on one connection: filled in calls under a lock, and written by one thread at a time, in the order of the calls. So a
/// cancel never overtakes its request, and none waits behind a write that stalls: whoever writes then writes its bytes too.
///
/// What the calls are made on, a `Client` or a table of several connections, stands in a `Mutex`; each connection has an `Outgoing`.
///
/// ```
/// # use mouktelf::{Client, Outgoing, Request};
/// # use std::sync::Mutex;
/// let (client, outgoing) = (Mutex::new(Client::new(4096)?), Outgoing::new(Vec::new()));
/// outgoing.call(&client, |client, out| {
///     client.start(Request::Batch("rows 7 2"))?;
///     while client.send(out)? {}
///     Ok::<(), mouktelf::Fault>(())
/// })??;
/// outgoing.call(&client, |client, out| client.cancel(out))??;
/// # Ok::<(), Box<dyn std::error::Error>>(())
/// ```
pub struct Outgoing<W> {
    queue: Mutex<Queue>,
    writer: Mutex<W>,
}

#[derive(Default)]
struct Queue {
    waiting: Vec<u8>,
    is_writing: bool,
    failed: Option<(io::ErrorKind, String)>,
}

fn locked<T>(it: &Mutex<T>) -> MutexGuard<'_, T> {
    it.lock().unwrap_or_else(PoisonError::into_inner)
}

impl<W: Write> Outgoing<W> {
    pub fn new(writer: W) -> Outgoing<W> {
        Outgoing { queue: Mutex::default(), writer: Mutex::new(writer) }
    }

    /// Makes calls that nobody else makes meanwhile. What they append goes out behind what waits: it is written before this ends, or
    /// by the thread that writes already. Where a write fails, whoever writes is told, and each later call. The calls are short, and
    /// no other one of the same lock stands in them.
    pub fn call<T, R>(&self, shared: &Mutex<T>, calls: impl FnOnce(&mut T, &mut Vec<u8>) -> R) -> io::Result<R> {
        let (given, writes) = {
            let mut shared = locked(shared);
            let mut out = Vec::new();
            let given = calls(&mut shared, &mut out);
            let mut queue = locked(&self.queue);
            queue.waiting.append(&mut out);
            // Whoever writes is chosen before somebody else can append anything.
            let writes = !queue.waiting.is_empty() && !queue.is_writing;
            queue.is_writing |= writes;
            if !writes {
                queue.result()?;
            }
            (given, writes)
        };
        if writes {
            self.drain()?;
        }
        Ok(given)
    }

    fn drain(&self) -> io::Result<()> {
        let mut writer = locked(&self.writer);
        loop {
            let data = {
                let mut queue = locked(&self.queue);
                let data = take(&mut queue.waiting);
                if data.is_empty() || queue.failed.is_some() {
                    queue.is_writing = false;
                    return queue.result();
                }
                data
            };
            if let Err(error) = writer.write_all(&data).and_then(|()| writer.flush()) {
                locked(&self.queue).failed = Some((error.kind(), error.to_string()));
            }
        }
    }
}

impl Queue {
    fn result(&self) -> io::Result<()> {
        self.failed.as_ref().map_or(Ok(()), |(kind, text)| Err(io::Error::new(*kind, text.clone())))
    }
}
