//! Converses with many at once in one loop: sessions IMG COUNT < INPUT
//! Each of COUNT sessions is fed standard input, 3 bytes at a time, and gives its output, 2 bytes at a time, 1,000 turns
//! in its turn. Standard output takes the output of the first; that of each other one has to be the same.
use geyserpan::{Error, Image, Session, State, Terms};
use std::io::{self, Read, Write};

struct Client {
    session: Session,
    read: usize,
    output: Vec<u8>,
    exit: Option<u32>,
}

impl Client {
    fn go_on(&mut self, input: &[u8]) -> Result<(), Error> {
        let piece = &input[self.read..input.len().min(self.read + 3)];
        let last = self.read + piece.len() == input.len();
        let mut room = [0; 2];
        let step = self.session.step(1000, piece, last, &mut room);
        self.read += step.read;
        self.output.extend_from_slice(&room[..step.written]);
        match step.state {
            State::Ended(word) => self.exit = Some(word),
            State::Stopped(error) => return Err(error),
            State::Wants | State::Full | State::Paused => {}
        }
        Ok(())
    }
}

fn main() -> Result<(), Box<dyn std::error::Error>> {
    let usage = "usage: sessions IMG COUNT < INPUT";
    let mut words = std::env::args().skip(1);
    let path = words.next().ok_or(usage)?;
    let count: usize = words.next().ok_or(usage)?.parse()?;
    let image = Image::open(&std::fs::read(path)?, &Terms::new().turns(u64::MAX).output(u64::MAX))?;
    let mut input = Vec::new();
    io::stdin().read_to_end(&mut input)?;
    let mut clients = Vec::new();
    for _ in 0..count {
        clients.push(Client { session: image.session()?, read: 0, output: Vec::new(), exit: None });
    }
    while clients.iter().any(|client| client.exit.is_none()) {
        for client in clients.iter_mut().filter(|client| client.exit.is_none()) {
            client.go_on(&input)?;
        }
    }
    let first = clients.first().ok_or(usage)?;
    if clients.iter().any(|client| client.output != first.output || client.exit != first.exit) {
        return Err("two sessions differ".into());
    }
    io::stdout().write_all(&first.output)?;
    Ok(())
}
