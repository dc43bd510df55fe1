//! How long many clients of a server wait for their replies, each of which has one request in flight.

use crate::latency::{Client, REQUESTS, Server, Totals, report};
use std::io;
use std::os::fd::AsRawFd;
use std::thread;
use std::time::Instant;

/// How many threads have the clients.
const THREADS: usize = 2;

/// How many events a thread takes at once.
const EVENTS: usize = 256;

/// An event of Linux's epoll, and the calls.
#[repr(C)]
#[cfg_attr(target_arch = "x86_64", repr(packed))]
#[derive(Clone, Copy)]
struct Event {
    events: u32,
    data: u64,
}

const READABLE: u32 = 1;
const ADD: i32 = 1;

unsafe extern "C" {
    fn epoll_create1(flags: i32) -> i32;
    fn epoll_ctl(epoll: i32, change: i32, descriptor: i32, event: *mut Event) -> i32;
    fn epoll_wait(epoll: i32, events: *mut Event, most: i32, millis: i32) -> i32;
}

/// What is waited for: which of several streams has something to read.
struct Poll(i32);

impl Poll {
    fn new(clients: &[Client]) -> io::Result<Poll> {
        let poll = Poll(checked(unsafe { epoll_create1(0) })?);
        for (at, client) in clients.iter().enumerate() {
            let mut event = Event { events: READABLE, data: at as u64 };
            checked(unsafe { epoll_ctl(poll.0, ADD, client.stream().as_raw_fd(), &mut event) })?;
        }
        Ok(poll)
    }

    /// The places of those that have something to read, at least one.
    fn wait(&self) -> io::Result<Vec<usize>> {
        let mut events = [Event { events: 0, data: 0 }; EVENTS];
        let count = checked(unsafe { epoll_wait(self.0, events.as_mut_ptr(), EVENTS as i32, -1) })?;
        Ok(events[..count as usize].iter().map(|it| it.data as usize).collect())
    }
}

fn checked(result: i32) -> io::Result<i32> {
    if result < 0 { Err(io::Error::last_os_error()) } else { Ok(result) }
}

/// What requests took, by their place in a round.
type Took = Vec<Vec<u64>>;

/// The clients of one thread.
struct Group {
    server: Server,
    clients: Vec<Client>,
    poll: Poll,
}

impl Group {
    fn new(server: Server, clients: Vec<Client>) -> io::Result<Group> {
        let poll = Poll::new(&clients)?;
        Ok(Group { server, clients, poll })
    }

    /// Has each client send its requests, one once the reply to the one before has come, for this many rounds.
    fn ask(&mut self, rounds: usize) -> io::Result<Took> {
        let kinds = self.server.requests();
        let mut took = vec![Vec::new(); kinds];
        let mut asked = vec![(0, Instant::now()); self.clients.len()];
        for (client, (_, when)) in self.clients.iter_mut().zip(&mut asked) {
            *when = Instant::now();
            client.ask(0)?;
        }
        let mut left = self.clients.len();
        while left > 0 {
            for place in self.poll.wait()? {
                let (client, (done, when)) = (&mut self.clients[place], &mut asked[place]);
                took[*done % kinds].push(client.hear(*done % kinds, *when)?);
                *done += 1;
                if *done == rounds * kinds {
                    left -= 1;
                } else {
                    *when = Instant::now();
                    client.ask(*done % kinds)?;
                }
            }
        }
        Ok(took)
    }
}

/// Clients of a server, divided among the threads.
struct Crowd(Vec<Group>);

impl Crowd {
    /// Connects so many clients, which have numbers from this one on. Each inserts this many rows ahead.
    fn connect(server: Server, port: u16, clients: usize, first: usize, ahead: usize) -> io::Result<Crowd> {
        let mut groups: Vec<Vec<Client>> = (0..THREADS).map(|_| Vec::new()).collect();
        for number in 0..clients {
            let mut client = Client::connect(server, port, (first + number) as u64)?;
            client.insert_ahead(ahead)?;
            groups[number % THREADS].push(client);
        }
        Ok(Crowd(groups.into_iter().map(|it| Group::new(server, it)).collect::<io::Result<_>>()?))
    }

    /// Has all ask at once for this many rounds each. Returns what each thread's requests took.
    fn ask(&mut self, rounds: usize) -> io::Result<Vec<Took>> {
        thread::scope(|scope| {
            let asking: Vec<_> = self.0.iter_mut().map(|it| scope.spawn(move || it.ask(rounds))).collect();
            asking.into_iter().map(|it| it.join().expect("no thread failed")).collect()
        })
    }

    fn add_totals(&self, totals: &mut Totals) {
        self.0.iter().flat_map(|it| &it.clients).for_each(|it| totals.add(&it.totals));
    }
}

/// Loads a server that listens to the port with rows, and measures so many clients that send this many rounds of
/// requests. Prints how many commands were answered, rows inserted, deleted and left.
pub fn run(server: Server, port: u16, rows: u64, clients: usize, rounds: usize) -> io::Result<()> {
    let mut first = Client::connect(server, port, 0)?;
    first.load(rows)?;
    let mut crowd = Crowd::connect(server, port, clients, 1, 0)?;
    let start = Instant::now();
    let heard = crowd.ask(rounds)?;
    crate::report("all", start);
    for (at, name) in REQUESTS.into_iter().enumerate().take(server.requests()) {
        report(name, heard.iter().flat_map(|it| it[at].iter().copied()).collect());
    }
    crowd.add_totals(&mut first.totals);
    first.totals.print();
    Ok(())
}

/// Loads a server of `crackd`, and measures crowds of these sizes by turns: while one works the others are silent. In a
/// turn a crowd sends about this many rounds of requests in all. Of each crowd a row is deleted after about as many
/// others were inserted, so that the server has the same work; else the rows of few clients are deleted while they are
/// pending. The first turn of each isn't reported, since the first counts merge and crack the loaded rows. Prints how
/// many commands were answered, rows inserted, deleted and left.
pub fn run_by_turns(port: u16, rows: u64, rounds: usize, turns: usize, sizes: &[usize]) -> io::Result<()> {
    let mut first = Client::connect(Server::Crackd, port, 0)?;
    first.load(rows)?;
    let (mut crowds, mut number, most) = (Vec::new(), 1, sizes.iter().max().copied().unwrap_or(0));
    for clients in sizes {
        crowds.push(Crowd::connect(Server::Crackd, port, *clients, number, most / clients)?);
        number += clients;
    }
    for turn in 0..=turns {
        for (crowd, clients) in crowds.iter_mut().zip(sizes) {
            let start = Instant::now();
            crowd.ask(rounds / clients)?;
            if turn > 0 {
                crate::report(&format!("{clients}_{turn}"), start);
            }
        }
    }
    crowds.iter().for_each(|it| it.add_totals(&mut first.totals));
    first.totals.print();
    Ok(())
}
