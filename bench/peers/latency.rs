//! How long single requests wait for their replies, while other clients load the same server.

use crate::numbers::Numbers;
use std::collections::VecDeque;
use std::io::{self, BufRead, BufReader, ErrorKind, Write};
use std::net::{Ipv4Addr, TcpStream};
use std::sync::atomic::{AtomicBool, Ordering};
use std::thread;
use std::time::Instant;

/// How many clients load the server, each with three requests at a time.
const LOADERS: u64 = 3;

/// How many inserts are sent at a time before anything is measured.
const CHUNK: u64 = 1000;

/// The width of a counted range: a thousandth of the keys, which have 32 bits.
const WIDTH: u64 = 4294967;

/// The requests that are measured, in the order in which a round sends them: Redis has no sum.
pub const REQUESTS: [&str; 5] = ["count", "again", "insert", "delete", "sum"];

/// Which server is asked.
#[derive(Clone, Copy, PartialEq)]
pub enum Server {
    Crackd,
    Redis,
}

impl Server {
    /// How many of the requests it answers.
    pub fn requests(self) -> usize {
        REQUESTS.len() - usize::from(self == Server::Redis)
    }
}

/// How many requests of each kind were answered.
#[derive(Clone, Copy, Default)]
pub struct Totals {
    reads: u64,
    inserts: u64,
    deletes: u64,
}

impl Totals {
    /// Adds those of another client.
    pub fn add(&mut self, other: &Totals) {
        self.reads += other.reads;
        self.inserts += other.inserts;
        self.deletes += other.deletes;
    }

    /// Prints how many commands were answered, rows inserted, deleted and left.
    pub fn print(&self) {
        let Totals { reads, inserts, deletes } = self;
        println!("{} {inserts} {deletes} {}", reads + inserts + deletes, inserts - deletes);
    }
}

/// Reads a reply of one line, which must begin like this.
pub fn read_reply(reader: &mut impl BufRead, reply: &mut String, begins: &str) -> io::Result<()> {
    reply.clear();
    reader.read_line(reply)?;
    if reply.starts_with(begins) {
        return Ok(());
    }
    Err(io::Error::new(ErrorKind::InvalidData, format!("{reply:?} for {begins:?}")))
}

/// A connection to a server that answers each request by one line.
pub struct Client {
    server: Server,
    reader: BufReader<TcpStream>,
    numbers: Numbers,
    /// The member that Redis gives the next row; each client has its own.
    next: u64,
    requests: Vec<u8>,
    reply: String,
    /// Where the last counted range begins, and the names of the rows that are deleted next.
    low: u64,
    rows: VecDeque<String>,
    pub totals: Totals,
}

impl Client {
    pub fn connect(server: Server, port: u16, number: u64) -> io::Result<Client> {
        let stream = TcpStream::connect((Ipv4Addr::LOCALHOST, port))?;
        stream.set_nodelay(true)?;
        let mut client = Client {
            server,
            reader: BufReader::new(stream),
            numbers: Numbers(number + 23),
            next: number << 40,
            requests: Vec::new(),
            reply: String::new(),
            low: 0,
            rows: VecDeque::new(),
            totals: Totals::default(),
        };
        if server == Server::Crackd {
            client.requests.extend_from_slice(b"policy auto\n");
            client.send()?;
            client.read("policy auto")?;
        }
        Ok(client)
    }

    /// The connection, whose only descriptor this is, so that a process has as many clients as descriptors.
    pub fn stream(&self) -> &TcpStream {
        self.reader.get_ref()
    }

    /// Adds a request to Redis to those that are sent next.
    fn add_words(&mut self, words: &[&str]) {
        self.requests.extend_from_slice(format!("*{}\r\n", words.len()).as_bytes());
        for word in words {
            self.requests.extend_from_slice(format!("${}\r\n{word}\r\n", word.len()).as_bytes());
        }
    }

    fn add_insert(&mut self) {
        let (key, member) = (self.numbers.word(), self.next);
        self.next += 1;
        self.totals.inserts += 1;
        match self.server {
            Server::Crackd => self.requests.extend_from_slice(format!("insert {key} 7\n").as_bytes()),
            Server::Redis => self.add_words(&["ZADD", "rows", &key.to_string(), &member.to_string()]),
        }
    }

    fn add_delete(&mut self, row: &str) {
        self.totals.deletes += 1;
        match self.server {
            Server::Crackd => self.requests.extend_from_slice(format!("delete {row}\n").as_bytes()),
            Server::Redis => self.add_words(&["ZREM", "rows", row]),
        }
    }

    fn add_count(&mut self, low: u64) {
        self.totals.reads += 1;
        let high = low + WIDTH;
        match self.server {
            Server::Crackd => self.requests.extend_from_slice(format!("count {low} {high}\n").as_bytes()),
            Server::Redis => self.add_words(&["ZCOUNT", "rows", &low.to_string(), &format!("({high}")]),
        }
    }

    /// Adds the request of a round with this place: a count of a new range, the same again, an insert, the delete of
    /// the first row that is left, and the sum of the range.
    fn add(&mut self, at: usize) {
        match at {
            0 => {
                self.low = u64::from(self.numbers.word());
                self.add_count(self.low);
            }
            1 => self.add_count(self.low),
            2 => self.add_insert(),
            3 => {
                let row = self.rows.pop_front().unwrap_or_default();
                self.add_delete(&row);
            }
            _ => {
                self.totals.reads += 1;
                let (low, high) = (self.low, self.low + WIDTH);
                self.requests.extend_from_slice(format!("sum {low} {high}\n").as_bytes());
            }
        }
    }

    /// Reads the reply to it.
    fn read_reply(&mut self, at: usize) -> io::Result<()> {
        match at {
            0 | 1 => self.read_count(),
            2 => {
                let row = self.read_row()?;
                self.rows.push_back(row);
                Ok(())
            }
            3 => self.read_deleted(),
            _ => self.read("sum "),
        }
    }

    /// Sends the request of a round with this place.
    pub fn ask(&mut self, at: usize) -> io::Result<()> {
        self.add(at);
        self.send()
    }

    /// Reads the reply to it, and returns how many nanoseconds have passed since then.
    pub fn hear(&mut self, at: usize, asked: Instant) -> io::Result<u64> {
        self.read_reply(at)?;
        Ok(asked.elapsed().as_nanos() as u64)
    }

    pub fn send(&mut self) -> io::Result<()> {
        self.reader.get_mut().write_all(&self.requests)?;
        self.requests.clear();
        Ok(())
    }

    /// Reads the next reply, which must begin like this.
    fn read(&mut self, begins: &str) -> io::Result<()> {
        read_reply(&mut self.reader, &mut self.reply, begins)
    }

    fn read_count(&mut self) -> io::Result<()> {
        self.read(if self.server == Server::Crackd { "count " } else { ":" })
    }

    /// Reads the reply to an insert. Returns by which name the row is deleted.
    fn read_row(&mut self) -> io::Result<String> {
        match self.server {
            Server::Crackd => {
                self.read("row ")?;
                Ok(self.reply[4..].trim_end().to_string())
            }
            Server::Redis => {
                self.read(":1")?;
                Ok((self.next - 1).to_string())
            }
        }
    }

    fn read_deleted(&mut self) -> io::Result<()> {
        self.read(if self.server == Server::Crackd { "gone " } else { ":1" })
    }

    /// Inserts rows, many at a time.
    pub fn load(&mut self, rows: u64) -> io::Result<()> {
        for _ in 0..rows / CHUNK {
            (0..CHUNK).for_each(|_| self.add_insert());
            self.send()?;
            (0..CHUNK).try_for_each(|_| self.read_row().map(drop))?;
        }
        Ok(())
    }

    /// Inserts rows, one by one. Then each row is deleted after this many others were inserted.
    pub fn insert_ahead(&mut self, rows: usize) -> io::Result<()> {
        (0..rows).try_for_each(|_| {
            self.ask(2)?;
            self.read_reply(2)
        })
    }

    /// Counts a new range, inserts a row and deletes the one before, three requests at a time, until it is stopped.
    fn keep_busy(mut self, stopped: &AtomicBool) -> io::Result<Totals> {
        self.add_insert();
        self.send()?;
        let mut row = self.read_row()?;
        while !stopped.load(Ordering::Relaxed) {
            self.add(0);
            self.add_insert();
            self.add_delete(&row);
            self.send()?;
            self.read_count()?;
            row = self.read_row()?;
            self.read_deleted()?;
        }
        Ok(self.totals)
    }

    /// Sends the requests of a round, each once the previous reply has come. Returns the nanoseconds that each takes.
    fn round(&mut self) -> io::Result<Vec<u64>> {
        let mut took = Vec::with_capacity(REQUESTS.len());
        for at in 0..self.server.requests() {
            let asked = Instant::now();
            self.ask(at)?;
            took.push(self.hear(at, asked)?);
        }
        Ok(took)
    }
}

/// Reports how long a kind of request took: the median, 99 and 99.9 of 100, and the longest.
pub fn report(name: &str, mut took: Vec<u64>) {
    took.sort_unstable();
    let at = |thousandths: usize| took[(took.len() * thousandths / 1000).min(took.len() - 1)];
    for (what, nanoseconds) in [("p50", at(500)), ("p99", at(990)), ("p99.9", at(999)), ("worst", at(1000))] {
        eprintln!("{name}_{what} {nanoseconds}");
    }
}

/// Loads a server that listens to the port with rows, and measures as many rounds beside clients that load it. Prints
/// how many commands were answered, rows inserted, deleted and left.
pub fn run(server: Server, port: u16, rows: u64, rounds: u64) -> io::Result<()> {
    let mut first = Client::connect(server, port, 0)?;
    first.load(rows)?;
    let stopped = AtomicBool::new(false);
    let (took, totals) = thread::scope(|scope| {
        let busy: Vec<_> = (1..=LOADERS)
            .map(|number| Client::connect(server, port, number).map(|it| scope.spawn(|| it.keep_busy(&stopped))))
            .collect::<io::Result<_>>()?;
        let took = (0..rounds).map(|_| first.round()).collect::<io::Result<Vec<_>>>();
        stopped.store(true, Ordering::Relaxed);
        let loaded = busy.into_iter().map(|it| it.join().expect("no thread failed")).collect::<io::Result<Vec<_>>>()?;
        Ok::<_, io::Error>((took?, loaded))
    })?;
    for (at, name) in REQUESTS.into_iter().enumerate().take(server.requests()) {
        report(name, took.iter().map(|it| it[at]).collect());
    }
    totals.iter().for_each(|it| first.totals.add(it));
    first.totals.print();
    Ok(())
}
