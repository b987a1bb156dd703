//! A client of PostgreSQL's protocol, version 3, on a socket, for a server that trusts whoever connects.

use std::io::{BufReader, Read, Result, Write};
use std::os::unix::net::UnixStream;
use std::path::Path;

const VERSION: i32 = 3 << 16;

pub struct Server {
    stream: BufReader<UnixStream>,
    said: Vec<u8>,
}

/// What has to be sent to run a prepared statement.
pub struct Statement(Vec<u8>);

/// A message: its kind, its length and its parts.
fn message(kind: &[u8], parts: &[&[u8]]) -> Vec<u8> {
    let body = parts.concat();
    [kind, &(body.len() as i32 + 4).to_be_bytes(), &body].concat()
}

/// A text that a zero byte ends.
fn ended(text: &str) -> Vec<u8> {
    [text.as_bytes(), &[0]].concat()
}

impl Server {
    /// Connects to the server whose socket stands in the folder.
    pub fn connect(folder: &Path, user: &str, database: &str) -> Result<Server> {
        let stream = UnixStream::connect(folder.join(".s.PGSQL.5432"))?;
        let mut server = Server { stream: BufReader::with_capacity(1 << 16, stream), said: Vec::new() };
        let words = ["user", user, "database", database].map(ended).concat();
        server.tell(&message(&[], &[&VERSION.to_be_bytes(), &words, &[0]]), |_| {})?;
        Ok(server)
    }

    /// Sends messages, and sees each row until the server is ready again.
    fn tell(&mut self, messages: &[u8], mut see: impl FnMut(&[u8])) -> Result<()> {
        self.stream.get_mut().write_all(messages)?;
        loop {
            let mut head = [0; 5];
            self.stream.read_exact(&mut head)?;
            let [kind, len @ ..] = head;
            self.said.resize(i32::from_be_bytes(len) as usize - 4, 0);
            self.stream.read_exact(&mut self.said)?;
            match kind {
                b'D' => see(&self.said),
                b'Z' => return Ok(()),
                b'E' => panic!("PostgreSQL: {}", String::from_utf8_lossy(&self.said).replace('\0', " ")),
                _ => {}
            }
        }
    }

    pub fn run(&mut self, text: &str) -> Result<()> {
        self.tell(&message(b"Q", &[&ended(text)]), |_| {})
    }

    pub fn prepare(&mut self, name: &str, text: &str) -> Result<Statement> {
        let (name, sync) = (ended(name), message(b"S", &[]));
        self.tell(&[message(b"P", &[&name, &ended(text), &[0, 0]]), sync.clone()].concat(), |_| {})?;
        // A portal without a name, no parameters, one format for all columns, binary; then all rows.
        let bind = message(b"B", &[&[0], &name, &[0, 0], &[0, 0], &[0, 1, 0, 1]]);
        Ok(Statement([bind, message(b"E", &[&[0], &[0; 4]]), sync].concat()))
    }

    /// Runs a prepared statement, and sees each row.
    pub fn ask(&mut self, statement: &Statement, see: impl FnMut(&[u8])) {
        self.tell(&statement.0, see).expect("the server answers")
    }
}

/// The fields of a row: behind their number, each with its length before it.
pub fn fields(row: &[u8]) -> impl Iterator<Item = &[u8]> {
    let mut rest = &row[2..];
    std::iter::from_fn(move || {
        let (len, behind) = rest.split_first_chunk()?;
        let (field, behind) = behind.split_at(i32::from_be_bytes(*len) as usize);
        rest = behind;
        Some(field)
    })
}

/// A field that is a BIGINT.
pub fn number(field: &[u8]) -> i64 {
    i64::from_be_bytes(field.try_into().expect("a number has eight bytes"))
}
