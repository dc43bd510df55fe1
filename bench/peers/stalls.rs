//! What holds up single requests to `crackd serve`: another client's listings of all rows, and a growing table. Beside
//! the time that passes, the server's processor time is measured, which other processes change little.

use crate::latency::{read_reply, report};
use crate::numbers::Numbers;
use std::io::{self, BufReader, ErrorKind, Read, Write};
use std::net::{Ipv4Addr, TcpStream};
use std::sync::atomic::{AtomicBool, Ordering};
use std::thread;
use std::time::Instant;

/// How many inserts are sent at a time before anything is measured, and of how many rows one is replaced by a new one.
const CHUNK: u64 = 1000;
const RENEWED: u64 = 100;

/// A count of all rows, which merges all that is pending.
const EVERYTHING: &str = "count 0 18446744073709551616\n";

/// The time of a clock, as Linux has it.
#[repr(C)]
struct Time {
    seconds: i64,
    nanoseconds: i64,
}

unsafe extern "C" {
    fn clock_gettime(clock: i32, time: *mut Time) -> i32;
}

/// The clock of the processor time of a process.
#[derive(Clone, Copy)]
struct Processor(i32);

impl Processor {
    fn of(process: u64) -> Processor {
        Processor((!(process as i32) << 3) | 2)
    }

    /// How many nanoseconds it has taken.
    fn now(self) -> io::Result<u64> {
        let mut time = Time { seconds: 0, nanoseconds: 0 };
        match unsafe { clock_gettime(self.0, &mut time) } {
            0 => Ok(time.seconds as u64 * 1_000_000_000 + time.nanoseconds as u64),
            _ => Err(io::Error::last_os_error()),
        }
    }
}

/// A connection to a server.
struct Client {
    writer: TcpStream,
    reader: BufReader<TcpStream>,
    reply: String,
    numbers: Numbers,
}

impl Client {
    fn connect(port: u16, seed: u64) -> io::Result<Client> {
        let writer = TcpStream::connect((Ipv4Addr::LOCALHOST, port))?;
        writer.set_nodelay(true)?;
        let reader = BufReader::with_capacity(1 << 18, writer.try_clone()?);
        let mut client = Client { writer, reader, reply: String::new(), numbers: Numbers(seed) };
        client.ask("policy auto\n", "policy auto")?;
        Ok(client)
    }

    /// Sends a request whose reply is one line, which must begin like this. Returns how many nanoseconds that takes.
    fn ask(&mut self, request: &str, begins: &str) -> io::Result<u64> {
        let start = Instant::now();
        self.writer.write_all(request.as_bytes())?;
        self.read(begins)?;
        Ok(start.elapsed().as_nanos() as u64)
    }

    fn read(&mut self, begins: &str) -> io::Result<()> {
        read_reply(&mut self.reader, &mut self.reply, begins)
    }

    fn insert(&mut self) -> io::Result<u64> {
        let request = format!("insert {} 7\n", self.numbers.word());
        self.ask(&request, "row ")
    }

    /// Inserts rows, many at a time. Returns the numbers of one row of each `RENEWED`.
    fn load(&mut self, rows: u64) -> io::Result<Vec<String>> {
        let mut some = Vec::new();
        for first in (0..rows).step_by(CHUNK as usize) {
            let next = rows.min(first + CHUNK);
            let lines: String = (first..next).map(|_| format!("insert {} 7\n", self.numbers.word())).collect();
            self.writer.write_all(lines.as_bytes())?;
            for number in first..next {
                self.read("row ")?;
                if number % RENEWED == 0 {
                    some.push(self.reply[4..].trim_end().to_string());
                }
            }
        }
        Ok(some)
    }

    /// Deletes these rows, has the deletions merged, and inserts as many rows, which take the freed cells.
    fn renew(&mut self, rows: &[String]) -> io::Result<()> {
        for some in rows.chunks(CHUNK as usize) {
            let lines: String = some.iter().map(|row| format!("delete {row}\n")).collect();
            self.writer.write_all(lines.as_bytes())?;
            some.iter().try_for_each(|_| self.read("gone "))?;
        }
        self.ask(EVERYTHING, "count ")?;
        self.load(rows.len() as u64)?;
        self.ask(EVERYTHING, "count ").map(|_| ())
    }

    /// Lists all rows. Returns the processor time of the server until the listing begins: it has gathered the rows.
    fn list_once(&mut self, processor: Processor, buffer: &mut [u8]) -> io::Result<u64> {
        let before = processor.now()?;
        self.writer.write_all(b"select 0 18446744073709551616\n")?;
        self.read("rows ")?;
        let took = processor.now()? - before;
        let mut left: usize = self.reply[5..].trim_end().parse().map_err(|_| ErrorKind::InvalidData)?;
        while left > 0 {
            let count = self.reader.read(buffer)?;
            left -= buffer[..count].iter().filter(|it| **it == b'\n').count();
        }
        Ok(took)
    }

    /// Lists all rows again and again until it is stopped. Returns how often.
    fn list(mut self, processor: Processor, stopped: &AtomicBool) -> io::Result<u64> {
        let (mut buffer, mut times) = (vec![0; 1 << 18], 0);
        while !stopped.load(Ordering::Relaxed) {
            self.list_once(processor, &mut buffer)?;
            times += 1;
        }
        Ok(times)
    }
}

/// How many listings are measured by themselves.
const LISTINGS: usize = 20;

/// Loads a server, and measures single requests while this many clients list all rows. Prints how many rows there are.
pub fn list(port: u16, process: u64, rows: u64, listers: u64, rounds: u64) -> io::Result<()> {
    let (mut first, processor, mut buffer) = (Client::connect(port, 1)?, Processor::of(process), vec![0; 1 << 18]);
    let some = first.load(rows)?;
    first.ask(EVERYTHING, "count ")?;
    first.renew(&some)?;
    let gathered = (0..LISTINGS).map(|_| first.list_once(processor, &mut buffer)).collect::<io::Result<_>>()?;
    report("gathering", gathered);
    let (stopped, mut took) = (AtomicBool::new(false), [const { Vec::new() }; 3]);
    let listed: u64 = thread::scope(|scope| {
        let listing: Vec<_> = (0..listers)
            .map(|number| Client::connect(port, 2 + number).map(|it| scope.spawn(|| it.list(processor, &stopped))))
            .collect::<io::Result<_>>()?;
        let asked = (0..rounds).try_for_each(|_| {
            took[0].push(first.ask("ping\n", "pong")?);
            took[1].push(first.ask("count 0 4294967\n", "count ")?);
            took[2].push(first.insert()?);
            Ok::<_, io::Error>(())
        });
        stopped.store(true, Ordering::Relaxed);
        let listed = listing.into_iter().map(|it| it.join().expect("no thread failed")).sum::<io::Result<u64>>()?;
        asked.map(|()| listed)
    })?;
    for (name, took) in ["ping", "again", "insert"].into_iter().zip(took) {
        report(name, took);
    }
    eprintln!("listings {listed}");
    println!("{}", rows + rounds);
    Ok(())
}

/// Inserts rows one by one. Reports what that takes, and beside it pings, which change nothing. Prints how many rows
/// there are.
pub fn grow(port: u16, process: u64, rows: u64) -> io::Result<()> {
    let (mut client, processor) = (Client::connect(port, 1)?, Processor::of(process));
    let (mut took, mut used, mut pings) = (Vec::new(), Vec::new(), Vec::new());
    let mut before = processor.now()?;
    for _ in 0..rows {
        took.push(client.insert()?);
        let now = processor.now()?;
        used.push(now - before);
        before = now;
        if took.len() % 8 == 0 {
            pings.push(client.ask("ping\n", "pong")?);
            before = processor.now()?;
        }
    }
    let mut worst: Vec<_> = used.iter().copied().zip(1..).collect();
    worst.sort_unstable();
    for (nanoseconds, row) in worst.iter().rev().take(5) {
        eprintln!("row_{row} {nanoseconds}");
    }
    report("insert", took);
    report("used", used);
    report("ping", pings);
    println!("{rows}");
    Ok(())
}
