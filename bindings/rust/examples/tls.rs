//! Sends messages to a queue of a server over TLS, logged in by EXTERNAL, or without a certificate by ANONYMOUS, and
//! has each accepted: `tls HOST:PORT QUEUE COUNT CA [CERTIFICATE KEY]`. The server's certificate has to be for the
//! host, and of the authority CA. `openssl s_client` speaks TLS here, as a program beside this one; the page of `Timed`
//! says how `rustls` and `native-tls` do.

use std::os::fd::OwnedFd;
use std::os::unix::net::UnixStream;
use std::process::{Child, Command, Stdio};

use amqp_engine::{Connection, Failure, Message, Options};

/// A stream to the server, and the program that speaks TLS for it.
fn tls(address: &str, files: &[String]) -> std::io::Result<(UnixStream, Child)> {
    let (near, far) = UnixStream::pair()?;
    let host = address.split(':').next().unwrap_or_default();
    let child = Command::new("openssl")
        .args(["s_client", "-quiet", "-verify_return_error", "-verify_hostname", host, "-connect", address])
        .args(["-CAfile", "-cert", "-key"].iter().zip(files).flat_map(|(&name, file)| [name, file]))
        .stdin(OwnedFd::from(far.try_clone()?))
        .stdout(OwnedFd::from(far))
        .stderr(Stdio::null())
        .spawn()?;
    Ok((near, child))
}

fn main() -> Result<(), Failure> {
    let words: Vec<String> = std::env::args().skip(1).collect();
    let [address, queue, count, files @ ..] = &words[..] else {
        panic!("usage: tls HOST:PORT QUEUE COUNT CA CERT KEY")
    };
    let (stream, mut child) = tls(address, files)?;
    let options = Options::new("tls");
    let mut options = if files.len() == 1 { options } else { options.external() };
    options.open.hostname = address.split(':').next();
    let mut connection = Connection::over(stream, &options)?;
    let session = connection.begin()?;
    let sender = connection.sender(session, "to", queue)?;
    for number in 0..count.parse().expect("a number of messages") {
        let number = connection.send(&sender, &Message::data(format!("message {number}").as_bytes()))?;
        assert!(connection.settled_of(&sender, number)?.is_accepted());
    }
    connection.close()?;
    child.kill()?;
    println!("sent {count} messages over TLS, all accepted");
    child.wait().map(drop).map_err(Failure::from)
}
