//! The host: the process that holds the library, and the messages to and from it.

use std::io::{self, ErrorKind, Read, Write};
use std::process::{Child, ChildStdin, ChildStdout, Command, Stdio};
use std::sync::mpsc::{channel, Receiver, RecvTimeoutError, Sender};
use std::thread;
use std::time::Duration;

/// How long an answer is waited for.
const PATIENCE: Duration = Duration::from_secs(60);

/// The bytes of a message before its own: verb, count and length.
const HEADER: usize = 12;

#[derive(Clone, Copy)]
pub enum Verb {
    Calls = 1,
    Speed = 2,
}

/// A message from the host.
pub struct Reply {
    pub verb: u32,
    pub count: u32,
    pub bytes: Vec<u8>,
}

/// One thread writes to the host and another reads from it, so that neither side ever waits for the other's pipe.
pub struct Host {
    child: Child,
    requests: Option<Sender<Vec<u8>>>,
    replies: Receiver<io::Result<Reply>>,
}

impl Host {
    pub fn start(command: &[String]) -> Result<Host, String> {
        let mut child = Command::new(&command[0])
            .args(&command[1..])
            .stdin(Stdio::piped())
            .stdout(Stdio::piped())
            .spawn()
            .map_err(|error| format!("the host `{}` cannot be started: {error}", command.join(" ")))?;
        let input = child.stdin.take().expect("the host's input is a pipe");
        let output = child.stdout.take().expect("the host's output is a pipe");
        let (requests, to_write) = channel();
        let (from_host, replies) = channel();
        thread::spawn(move || write_requests(input, to_write));
        thread::spawn(move || read_replies(output, from_host));
        Ok(Host { child, requests: Some(requests), replies })
    }

    /// Sends a message without waiting. Where the host has ended, the missing reply tells.
    pub fn ask(&mut self, verb: Verb, count: usize, bytes: &[u8]) {
        let mut message = Vec::with_capacity(HEADER + bytes.len());
        for number in [verb as u32, count as u32, bytes.len() as u32] {
            message.extend(number.to_le_bytes());
        }
        message.extend(bytes);
        if let Some(requests) = &self.requests {
            let _ = requests.send(message);
        }
    }

    /// The next reply, which is one to this verb with this many answers in it; otherwise what is wrong with it.
    pub fn reply(&mut self, verb: Verb, asked: usize) -> Result<Vec<u8>, String> {
        let reply = match self.replies.recv_timeout(PATIENCE) {
            Ok(Ok(reply)) => reply,
            Ok(Err(error)) if error.kind() == ErrorKind::UnexpectedEof => {
                return Err(format!("the host ended in the middle of a reply, {}", self.end()));
            }
            Ok(Err(error)) => return Err(format!("the host's reply cannot be read: {error}")),
            Err(RecvTimeoutError::Timeout) => {
                return Err(format!("the host gave no reply within {} seconds", PATIENCE.as_secs()));
            }
            Err(RecvTimeoutError::Disconnected) => {
                return Err(format!("the host ended before it replied, {}", self.end()));
            }
        };
        if reply.verb != verb as u32 {
            return Err(format!("the host replied to verb {} when asked with verb {}", reply.verb, verb as u32));
        }
        if reply.count as usize != asked {
            return Err(format!("the host answered {} when asked {asked}", reply.count));
        }
        Ok(reply.bytes)
    }

    /// Ends the host's input and waits for its end; says what is wrong where it has more to say or ends badly.
    pub fn finish(mut self) -> Result<(), String> {
        self.requests = None;
        match self.replies.recv_timeout(PATIENCE) {
            Ok(_) => Err("the host said more than it was asked".to_string()),
            Err(RecvTimeoutError::Timeout) => Err("the host did not end with its input".to_string()),
            Err(RecvTimeoutError::Disconnected) => match self.child.wait() {
                Ok(status) if status.success() => Ok(()),
                Ok(status) => Err(format!("the host ended with {status}")),
                Err(error) => Err(format!("the host's end is not known: {error}")),
            },
        }
    }

    /// How the host ended, when its output has.
    fn end(&mut self) -> String {
        match self.child.wait() {
            Ok(status) => status.to_string(),
            Err(error) => error.to_string(),
        }
    }
}

impl Drop for Host {
    /// A host that still runs is of no use without its asker.
    fn drop(&mut self) {
        let _ = self.child.kill();
        let _ = self.child.wait();
    }
}

/// Writes until there are no more requests or the host has ended.
fn write_requests(mut input: ChildStdin, requests: Receiver<Vec<u8>>) {
    for request in requests {
        if input.write_all(&request).is_err() {
            return;
        }
    }
}

/// Reads until the host's output ends or nobody takes the replies any more.
fn read_replies(mut output: ChildStdout, replies: Sender<io::Result<Reply>>) {
    while let Some(reply) = read_reply(&mut output).transpose() {
        let broken = reply.is_err();
        if replies.send(reply).is_err() || broken {
            return;
        }
    }
}

/// The next reply; nothing where the output ends before it.
fn read_reply(output: &mut ChildStdout) -> io::Result<Option<Reply>> {
    let mut header = Vec::new();
    output.take(HEADER as u64).read_to_end(&mut header)?;
    if header.is_empty() {
        return Ok(None);
    }
    if header.len() < HEADER {
        return Err(ErrorKind::UnexpectedEof.into());
    }
    let number = |i: usize| u32::from_le_bytes([header[i], header[i + 1], header[i + 2], header[i + 3]]);
    let mut bytes = vec![0; number(8) as usize];
    output.read_exact(&mut bytes)?;
    Ok(Some(Reply { verb: number(0), count: number(4), bytes }))
}
