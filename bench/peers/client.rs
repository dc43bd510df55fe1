//! A client of a server on this machine, and a server that returns each line.

use std::fs;
use std::io::{self, BufRead, BufReader, ErrorKind, Read, Write};
use std::net::{Ipv4Addr, Shutdown, TcpListener, TcpStream};
use std::thread;
use std::time::Instant;

fn connect(port: u16) -> io::Result<TcpStream> {
    let stream = TcpStream::connect((Ipv4Addr::LOCALHOST, port))?;
    stream.set_nodelay(true)?;
    Ok(stream)
}

/// Writes all, and ends the output.
fn write_whole(mut stream: TcpStream, text: &[u8]) -> io::Result<()> {
    stream.write_all(text)?;
    stream.shutdown(Shutdown::Write)
}

/// Sends a file's statements without waiting, and reads the replies meanwhile.
pub fn pipeline(port: u16, file: &str) -> io::Result<()> {
    let text = fs::read(file)?;
    let mut replies = Vec::new();
    let start = Instant::now();
    let mut reader = connect(port)?;
    let writer = reader.try_clone()?;
    thread::scope(|scope| {
        let writing = scope.spawn(|| write_whole(writer, &text));
        reader.read_to_end(&mut replies)?;
        writing.join().expect("no thread failed")
    })?;
    crate::report("client", start);
    io::stdout().write_all(&replies)
}

/// Sends a file's statements one by one, each once the previous reply, a line, has come.
pub fn take_turns(port: u16, file: &str) -> io::Result<()> {
    let text = fs::read_to_string(file)?;
    let mut replies = String::new();
    let mut writer = connect(port)?;
    let mut reader = BufReader::new(writer.try_clone()?);
    let start = Instant::now();
    for line in text.split_inclusive('\n') {
        writer.write_all(line.as_bytes())?;
        if reader.read_line(&mut replies)? == 0 {
            return Err(ErrorKind::UnexpectedEof.into());
        }
    }
    crate::report("turns", start);
    io::stdout().write_all(replies.as_bytes())
}

/// Returns each line of one connection. Port 0 is some free port; the port is printed first.
pub fn echo(port: u16) -> io::Result<()> {
    let listener = TcpListener::bind((Ipv4Addr::LOCALHOST, port))?;
    println!("listening {}", listener.local_addr()?.port());
    let (mut writer, _) = listener.accept()?;
    writer.set_nodelay(true)?;
    let mut reader = BufReader::new(writer.try_clone()?);
    let mut line = Vec::new();
    while reader.read_until(b'\n', &mut line)? > 0 {
        writer.write_all(&line)?;
        line.clear();
    }
    Ok(())
}
