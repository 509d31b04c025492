//! The sizes of the values that a program holds.

use crate::fault::SpeedFault;
use tds_client::Client;
use tds_ends::{ClientEnd, ServerEnd};
use tds_packet::PacketReader;
use tds_pool::{Lease, Pool};
use tds_server::{ScriptEngine, Server, Session};
use tds_token::{Token, TokenFault, TokenRef};

/// Prints a line for each: its name and its bytes, what it owns elsewhere not counted.
pub fn print_sizes(rt: &HostRuntime) -> Result<(), SpeedFault> {
    let sizes = [
        ("Client", size_of::<Client>()),
        ("PacketReader", size_of::<PacketReader>()),
        ("ClientEnd", size_of::<ClientEnd>()),
        ("Session", size_of::<Session>()),
        ("Server<ScriptEngine>", size_of::<Server<ScriptEngine>>()),
        (
            "ServerEnd<ScriptEngine>",
            size_of::<ServerEnd<ScriptEngine>>(),
        ),
        ("Pool", size_of::<Pool>()),
        ("Lease", size_of::<Lease>()),
        ("Token", size_of::<Token>()),
        ("TokenRef", size_of::<TokenRef<'static>>()),
        (
            "Option<Result<TokenRef, TokenFault>>",
            size_of::<Option<Result<TokenRef<'static>, TokenFault>>>(),
        ),
    ];
    for (name, size) in sizes {
        println!(rt; "{name} {size}")?;
    }
    Ok(())
}
