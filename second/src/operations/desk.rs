//! The desk: a program under test that answers requests one after another.

use std::io::{Error, ErrorKind, Read, Result, Write};
use std::process::{Child, ChildStdin, Command, Stdio};
use std::sync::mpsc::{channel, Receiver, Sender};

use crate::compare::MOST_TIME;
use crate::operations::request::Request;

/// A desk that has been started.
pub struct Desk {
    child: Child,
    input: ChildStdin,
    output: Receiver<Vec<u8>>,
}

impl Desk {
    /// Starts the desk of this command, whose words are parted by blanks.
    pub fn start(command: &str) -> Result<Desk> {
        let mut words = command.split_whitespace();
        let program = words.next().ok_or(ErrorKind::NotFound)?;
        let mut child = Command::new(program)
            .args(words)
            .stdin(Stdio::piped())
            .stdout(Stdio::piped())
            .spawn()?;
        let pipes = (child.stdin.take(), child.stdout.take());
        let (Some(input), Some(source)) = pipes else {
            return Err(Error::from(ErrorKind::BrokenPipe));
        };
        let (sender, output) = channel();
        std::thread::spawn(move || pass_on(source, &sender));
        Ok(Desk {
            child,
            input,
            output,
        })
    }

    /// The answer to a request, of so many bytes; none if the desk ends or
    /// takes too long.
    pub fn answer(&mut self, request: &Request, length: usize) -> Option<Vec<u8>> {
        self.input.write_all(&request.bytes()).ok()?;
        let mut answer = Vec::with_capacity(length);
        while answer.len() < length {
            answer.extend(self.output.recv_timeout(MOST_TIME).ok()?);
        }
        Some(answer)
    }
}

impl Drop for Desk {
    /// Stops the desk.
    fn drop(&mut self) {
        let _ = self.child.kill();
        let _ = self.child.wait();
    }
}

/// Passes on what is read until the source ends or nobody listens.
fn pass_on(mut source: impl Read, sender: &Sender<Vec<u8>>) {
    let mut bytes = vec![0; 1 << 16];
    while let Ok(count @ 1..) = source.read(&mut bytes) {
        if sender.send(bytes[..count].to_vec()).is_err() {
            return;
        }
    }
}
