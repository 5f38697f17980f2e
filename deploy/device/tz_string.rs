//! Prints the TZ string of a zone, as POSIX has it: the footer of the TZif file that a tzdist server gives.
//! With the standard library only: `rustc -O tz_string.rs && ./tz_string 127.0.0.1:8008 Europe/Lisbon`

use std::io::{Error, Read, Write};
use std::net::TcpStream;

fn tz_string(host: &str, zone: &str) -> Result<String, Error> {
    let mut server = TcpStream::connect(host)?;
    let target = format!("/tzdist/zones/{}", zone.replace('+', "%2B").replace('/', "%2F"));
    let fields = format!("Host: {host}\r\nAccept: application/tzif\r\nConnection: close");
    write!(server, "GET {target} HTTP/1.1\r\n{fields}\r\n\r\n")?;
    let mut reply = Vec::new();
    server.read_to_end(&mut reply)?;
    let status = String::from_utf8_lossy(reply.split(|&byte| byte == b'\r').next().unwrap_or_default());
    if !status.starts_with("HTTP/1.1 200 ") || reply.last() != Some(&b'\n') {
        return Err(Error::other(format!("{host}{target}: {status}")));
    }
    let footer = reply[..reply.len() - 1].rsplit(|&byte| byte == b'\n').next().unwrap_or_default();
    Ok(String::from_utf8_lossy(footer).into_owned())
}

fn main() -> Result<(), Error> {
    let words: Vec<String> = std::env::args().collect();
    if words.len() != 3 {
        return Err(Error::other("usage: tz_string HOST:PORT ZONE"));
    }
    println!("{}", tz_string(&words[1], &words[2])?);
    Ok(())
}
