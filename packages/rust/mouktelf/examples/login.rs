//! Over a socket: logs in to a server of the batch language (tdsserve, also with --real), begins a transaction, is given rows,
//! cancels a batch in its middle, and commits.
//!
//!     tdsserve 127.0.0.1:1433 & cargo run --example login 1433

use mouktelf::{is_let_in, login, Cancelled, Client, Outgoing, Packets, Request, Taken, Told};
use std::error::Error;
use std::io::{Read, Write};
use std::net::TcpStream;
use std::sync::Mutex;

const SIZE: u16 = 4096;

struct Connection {
    socket: TcpStream,
    client: Mutex<Client>,
    outgoing: Outgoing<TcpStream>,
    /// What came and is no packet yet.
    came: Vec<u8>,
}

impl Connection {
    fn open(port: u16) -> Result<Connection, Box<dyn Error>> {
        let socket = TcpStream::connect(("127.0.0.1", port))?;
        let outgoing = Outgoing::new(socket.try_clone()?);
        Ok(Connection { socket, client: Mutex::new(Client::new(SIZE)?), outgoing, came: Vec::new() })
    }

    /// The next packet, from its first byte to its last.
    fn packet(&mut self) -> Result<Vec<u8>, Box<dyn Error>> {
        loop {
            if let Some(packet) = Packets::new(&self.came, SIZE).next() {
                let packet = packet?.to_vec();
                self.came.drain(..packet.len());
                return Ok(packet);
            }
            let mut piece = [0; 4096];
            let count = self.socket.read(&mut piece)?;
            if count == 0 {
                self.client.lock().unwrap().lost();
                return Err("the server has gone".into());
            }
            self.came.extend_from_slice(&piece[..count]);
        }
    }

    fn log_in(&mut self, name: &str) -> Result<(), Box<dyn Error>> {
        self.socket.write_all(&login(name, SIZE))?;
        if !is_let_in(&self.packet()?) {
            return Err("the server let nobody in".into());
        }
        println!("logged in");
        Ok(())
    }

    fn ask(&self, request: Request<'_>) -> Result<(), Box<dyn Error>> {
        Ok(self.outgoing.call(&self.client, |client, out| {
            client.start(request)?;
            while client.send(out)? {}
            Ok::<(), mouktelf::Fault>(())
        })??)
    }

    /// Any thread may: its bytes go out behind the request's.
    fn cancel(&self) -> Result<Cancelled, Box<dyn Error>> {
        Ok(self.outgoing.call(&self.client, |client, out| client.cancel(out))??)
    }

    /// Hears packets until the request is settled, and shows what is told.
    fn hear(&mut self) -> Result<(), Box<dyn Error>> {
        let (mut data, mut columns, mut told) = (Vec::new(), Vec::new(), Vec::new());
        loop {
            let packet = self.packet()?;
            data.extend_from_slice(&packet[8..]);
            told.clear();
            let taken = self.client.lock().unwrap().hear(&packet, &mut told)?;
            for token in &told {
                let own = cut(&data, token.start, token.length);
                match (token.told, token.kind) {
                    (Told::Message { text, .. }, _) => println!("info {}", units(cut(&data, text.start, text.length))),
                    (_, 0x81) => columns = own.to_vec(),
                    (_, 0xD1 | 0xD2) => println!("row {}", first_of(&columns, own)),
                    _ => {}
                }
            }
            match taken {
                Taken::More => continue,
                Taken::Finished => println!("finished"),
                Taken::Acknowledged => println!("cancelled"),
            }
            return Ok(());
        }
    }

    fn tell_transaction(&self) {
        println!("in a transaction: {}", if self.client.lock().unwrap().descriptor() == 0 { "no" } else { "yes" });
    }
}

fn cut(data: &[u8], start: u64, length: u64) -> &[u8] {
    &data[start as usize..(start + length) as usize]
}

fn units(text: &[u8]) -> String {
    char::decode_utf16(text.chunks_exact(2).map(|it| u16::from_le_bytes([it[0], it[1]]))).map(|it| it.unwrap_or('?')).collect()
}

/// The first value of a row, a whole number of four bytes: a walk says where rows stand, and values are yours to read (MS-TDS 2.2.7).
fn first_of(columns: &[u8], row: &[u8]) -> i32 {
    // NBCROW has a bit for each column, INTN a length.
    let nulls = if row[0] == 0xD2 { usize::from(u16::from_le_bytes([columns[1], columns[2]])).div_ceil(8) } else { 0 };
    let at = 1 + nulls + usize::from(columns[9] == 0x26);
    i32::from_le_bytes([row[at], row[at + 1], row[at + 2], row[at + 3]])
}

fn main() -> Result<(), Box<dyn Error>> {
    let port = std::env::args().nth(1).unwrap_or("1433".into()).parse()?;
    let mut it = Connection::open(port)?;
    it.log_in("sa")?;
    it.ask(Request::Begin(0))?;
    it.hear()?;
    it.ask(Request::Batch("set a 5;say hello;rows 7 2"))?;
    it.hear()?;
    it.ask(Request::Batch("rows 0 64;rows 0 64;rows 0 64"))?;
    if it.cancel()? != Cancelled::Asked {
        return Err("nothing is cancelled".into());
    }
    it.hear()?;
    it.tell_transaction();
    it.ask(Request::Commit(None))?;
    it.hear()?;
    it.tell_transaction();
    Ok(())
}
