//! Inserts and counts from standard input to standard output, answered by a cracked partition.

use crate::partition::{Command, Partition, Reply};
use crate::store::{GREATEST_BOUND, Policy};
use std::io::{self, BufWriter, Read, Write};

fn number(word: &[u8]) -> Option<u128> {
    if word.is_empty() || word.len() > 20 {
        return None;
    }
    word.iter().try_fold(0, |n, byte| {
        byte.is_ascii_digit()
            .then(|| n * 10 + u128::from(byte - b'0'))
    })
}

fn signed(word: &[u8]) -> Option<i128> {
    match word.strip_prefix(b"-") {
        Some(digits) => Some(-(number(digits)? as i128)),
        None => Some(number(word)? as i128),
    }
}

fn command(line: &[u8]) -> Option<Command> {
    let mut words = line.split(|byte| *byte == b' ').filter(|it| !it.is_empty());
    let (word, first, second) = (
        words.next()?,
        number(words.next()?)?,
        words.next()?,
    );
    if words.next().is_some() {
        return None;
    }
    match word {
        b"insert" => Some(Command::Insert {
            key: first.try_into().ok()?,
            payload: signed(second)?.try_into().ok()?,
        }),
        b"count" => {
            let (low, high) = (first, number(second)?);
            (low <= high && high <= GREATEST_BOUND).then_some(Command::Count { low, high })
        }
        _ => None,
    }
}

fn answer(line: &[u8], partition: &mut Partition, writer: &mut impl Write) -> io::Result<()> {
    let Some(command) = command(line) else {
        return writeln!(writer, "refused 1");
    };
    match partition.reply_to(command) {
        Reply::Placed(serial) => writeln!(writer, "row 0.{serial}"),
        Reply::Counted(count) => writeln!(writer, "count {count}"),
        _ => unreachable!(),
    }
}

pub fn run() -> io::Result<()> {
    let mut partition = Partition::new(Policy::Gradual);
    let mut reader = io::stdin().lock();
    let mut writer = BufWriter::new(io::stdout().lock());
    let mut buffer = [0; 4096];
    let mut begun = Vec::new();
    loop {
        let read = reader.read(&mut buffer)?;
        if read == 0 {
            break;
        }
        for part in buffer[..read].split_inclusive(|byte| *byte == b'\n') {
            begun.extend_from_slice(part);
            if begun.last() == Some(&b'\n') {
                begun.pop();
                answer(&begun, &mut partition, &mut writer)?;
                begun.clear();
            }
        }
        writer.flush()?;
    }
    writer.flush()
}
