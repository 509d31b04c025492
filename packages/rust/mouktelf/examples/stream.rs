//! Streams a table of ten types, and cancels it in the middle, from a second thread: `tdsserve --real 127.0.0.1:1433 & stream 1433`
use mouktelf::rows::{Columns, RowPlace};
use mouktelf::{is_let_in, login, Client, Outgoing, Packets, Request, Taken};
use std::error::Error;
use std::io::{Read, Write};
use std::net::TcpStream;
use std::sync::Mutex;

const TABLE: &str = "select cast(1 as bit),cast(7 as tinyint),cast(8 as smallint),cast(9 as int),cast(10 as bigint),cast(1.50 as decimal(9,2)),\
    cast('a' as nvarchar(9)),cast('b' as varchar(9)),cast(0x0102 as varbinary(9)),cast('2026-11-28' as date);";

fn packet(socket: &mut TcpStream, came: &mut Vec<u8>) -> Result<Vec<u8>, Box<dyn Error>> {
    loop {
        if let Some(packet) = Packets::new(came, 4096).next() {
            return Ok(packet.map(<[u8]>::len).map(|length| came.drain(..length).collect())?);
        }
        let mut piece = [0; 4096];
        let count = socket.read(&mut piece)?;
        came.extend_from_slice(&piece[..count]);
    }
}

fn main() -> Result<(), Box<dyn Error>> {
    let mut socket = TcpStream::connect(format!("127.0.0.1:{}", std::env::args().nth(1).ok_or("a port is wanted")?))?;
    let (client, outgoing) = (Mutex::new(Client::new(4096)?), Outgoing::new(socket.try_clone()?));
    let (mut came, mut told, mut places) = (Vec::new(), Vec::new(), Vec::new());
    socket.write_all(&login("sa", 4096))?;
    assert!(is_let_in(&packet(&mut socket, &mut came)?));
    for (text, most) in [(TABLE.repeat(4) + &"rows 0 64;".repeat(64), 3), ("rows 7 2".into(), 9)] {
        outgoing.call(&client, |client, out| client.start(Request::Batch(&text)).and_then(|()| client.send(out)))??;
        let (mut data, mut columns, mut count, mut taken) = (Vec::new(), None, 0, Taken::More);
        while taken == Taken::More {
            let next = packet(&mut socket, &mut came)?;
            data.extend_from_slice(&next[8..]);
            told.clear();
            taken = client.lock().unwrap().hear(&next, &mut told)?;
            for token in &told {
                let own = &data[token.start as usize..(token.start + token.length) as usize];
                match (token.kind, &columns) {
                    (0x81, _) => columns = Columns::of(own, false)?,
                    (0xD1 | 0xD2, Some(its)) => {
                        its.places(own, &mut places)?;
                        count += 1;
                        if count <= most {
                            let lengths = |it: &RowPlace| if it.null == 1 { "-".into() } else { it.length.to_string() };
                            println!("{}", places.iter().map(lengths).collect::<Vec<String>>().join(" "));
                        }
                        if count == most {
                            std::thread::scope(|all| all.spawn(|| outgoing.call(&client, |client, out| client.cancel(out))).join()).unwrap()??;
                        }
                    }
                    _ => {}
                }
            }
        }
        println!("{}", if taken == Taken::Finished { "finished" } else { "cancelled" });
    }
    Ok(())
}
