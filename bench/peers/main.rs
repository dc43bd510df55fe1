//! Plain Rust beside what the benchmark measures: `peers session`, `peers arena STEPS ROWS`, `peers column ROWS`, and,
//! by a table of which `TABLE` says the kind, `peers counts TABLE ROWS RANGES`, `peers sums TABLE ROWS RANGES`, `peers
//! each|rising|narrow TABLE ROWS RANGES`, `peers cold TABLE ROWS RANGES`, `peers pass TABLE ROWS RANGES`, `peers
//! updates|ageing TABLE ROWS BATCHES SIZE`, `peers merge TABLE ROWS PIECES PENDING` and `peers pulls TABLE ROWS
//! PIECES DELETES`; `peers fold ROWS CHANGES` sorts what a checkpoint keeps. A table is `complete`, `gradual`, `ripple`
//! or `anew`, a cracked partition that merges by this policy, represented as the measured one is; `fast-complete`,
//! `fast-gradual` or `fast-ripple`, a cracker column that is written for speed alone; or `inline`, `pairs`, `tree`,
//! `through`, `rows`, `sorted`, `rebuilt` or `overlay`, which do the same in other ways. `peers own WORKERS ROWS STEPS`
//! and `peers shared WORKERS ROWS STEPS` have workers on threads, and `peers copies WORKERS ROWS` copies what they did.
//! `peers client PORT FILE` and `peers turns PORT FILE` send a file's statements to a server on this machine, all at
//! once or one by one, and `peers echo PORT` is such a server. `peers crackd|redis PORT ROWS ROUNDS` inserts rows into
//! a server, and then measures single requests while other clients load it; with a further number, those of so many
//! clients. `peers crowds PORT ROWS ROUNDS TURNS CLIENTS ..` measures crowds of these sizes by turns. `peers list PORT
//! PROCESS ROWS LISTERS ROUNDS` measures single requests while clients list all rows, and `peers grow PORT PROCESS
//! ROWS` inserts.
//!
//! What a run computes goes to standard output, and must be what the measured program writes there. Times go to
//! standard error, in nanoseconds, a line `NAME NUMBER` each, followed by what the merges did, if that is counted.

mod arena;
mod client;
mod column;
mod crowd;
mod fast;
mod fold;
mod index;
mod inline;
mod latency;
mod numbers;
mod overlay;
mod pairs;
mod partition;
mod pending;
mod serials;
mod session;
mod sorted;
mod stalls;
mod store;
mod through;
mod tree;
mod workers;

use std::time::Instant;

fn number(word: Option<String>) -> u64 {
    word.and_then(|it| it.parse().ok()).expect("a number")
}

fn port(word: Option<String>) -> u16 {
    number(word).try_into().expect("a port")
}

fn report(name: &str, since: Instant) {
    eprintln!("{name} {}", since.elapsed().as_nanos());
}

fn main() {
    let mut words = std::env::args().skip(1);
    match words.next().as_deref() {
        Some("session") => session::run().expect("standard input and output"),
        Some("arena") => {
            let steps = number(words.next());
            arena::run(steps, number(words.next()));
        }
        Some("column") => column::run(number(words.next())),
        Some(
            word @ ("counts" | "sums" | "each" | "rising" | "narrow" | "cold" | "pass" | "updates" | "ageing" | "merge"
            | "pulls"),
        ) => {
            let table = words.next().expect("a table");
            let numbers: Vec<u64> = words.map(|it| number(Some(it))).collect();
            partition::run(word, &table, &numbers);
        }
        Some("fold") => {
            let rows = number(words.next());
            fold::run(rows, number(words.next()));
        }
        Some(word @ ("own" | "shared")) => {
            let [workers, rows, steps] = [(); 3].map(|()| number(words.next()) as u32);
            workers::work(workers, word == "shared", rows, steps);
        }
        Some("copies") => {
            let workers = number(words.next()) as u32;
            workers::copies(workers, number(words.next()) as u32);
        }
        Some(word @ ("crackd" | "redis")) => {
            let server = if word == "crackd" { latency::Server::Crackd } else { latency::Server::Redis };
            let (port, rows, rounds) = (port(words.next()), number(words.next()), number(words.next()));
            let ran = match words.next() {
                Some(clients) => crowd::run(server, port, rows, number(Some(clients)) as usize, rounds as usize),
                None => latency::run(server, port, rows, rounds),
            };
            ran.expect("a server answers");
        }
        Some("crowds") => {
            let (port, rows) = (port(words.next()), number(words.next()));
            let [rounds, turns] = [(); 2].map(|()| number(words.next()) as usize);
            let sizes: Vec<usize> = words.map(|it| number(Some(it)) as usize).collect();
            crowd::run_by_turns(port, rows, rounds, turns, &sizes).expect("a server answers");
        }
        Some("list") => {
            let port = port(words.next());
            let [process, rows, listers, rounds] = [(); 4].map(|()| number(words.next()));
            stalls::list(port, process, rows, listers, rounds).expect("a server answers");
        }
        Some("grow") => {
            let (port, process) = (port(words.next()), number(words.next()));
            stalls::grow(port, process, number(words.next())).expect("a server answers");
        }
        Some(word @ ("client" | "turns")) => {
            let send = if word == "client" { client::pipeline } else { client::take_turns };
            let port = port(words.next());
            send(port, &words.next().expect("a file")).expect("a server that answers");
        }
        Some("echo") => client::echo(port(words.next())).expect("a client that reads"),
        _ => panic!(
            "session, arena, column, counts, sums, each, rising, narrow, cold, pass, updates, ageing, merge, pulls, \
             fold, own, shared, copies, crackd, redis, crowds, list, grow, client, turns or echo"
        ),
    }
}
