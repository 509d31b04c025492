//! One application that asks more often than a relay might have counted on.

use crate::parking::Two;
use std::alloc::Global;
use std::io;
use tds_relay::Mode;

/// How many requests it asks on its connection.
const REQUESTS: u32 = 1_500;

/// An application asks, and is answered, again and again. The first thing that is wrong, if one is.
pub(crate) fn ask_often(alloc: Global) -> io::Result<Option<&'static str>> {
    let Some(mut two) = Two::new(alloc, Mode::Sessions)? else {
        return Ok(Some("a connection is opened"));
    };
    let key = two.first;
    for _ in 1..REQUESTS {
        if !two.answer(key, &[], &[])? {
            return Ok(Some("each request is answered"));
        }
        two.ask(key)?;
        if !two.is_sent(0) {
            return Ok(Some("each request goes on"));
        }
        let _ = two.relay.orders();
    }
    Ok(None)
}
