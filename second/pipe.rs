// Runs the command under comparison and talks to it over a pipe.
// One thread writes requests while the other reads responses, so neither side waits for the other for ever.
// A request is the op byte, then each slice's length (4 bytes, low byte first) and bytes.
// A response is the packed outcome, 8 bytes, then the bytes of each slice that the call may write.
// It leans on case, outcome and the standard library's processes.

use crate::case::{Case, Response};
use crate::outcome::Outcome;
use std::io::{self, BufReader, BufWriter, Read, Write};
use std::process::{Child, ChildStdin, ChildStdout, Command, Stdio};
use std::thread;
use std::time::Duration;

/// How long a command that has stopped answering may take to end, in tenths of a second.
const LINGER_TENTHS: usize = 20;

pub struct Requests {
    pipe: BufWriter<ChildStdin>,
    op: u8,
}

pub struct Responses {
    child: Child,
    pipe: BufReader<ChildStdout>,
}

/// Starts the command. Its error output goes where ours goes.
pub fn start(command: &[String], op: u8) -> Result<(Requests, Responses), String> {
    let mut child = Command::new(&command[0])
        .args(&command[1..])
        .stdin(Stdio::piped())
        .stdout(Stdio::piped())
        .spawn()
        .map_err(|error| format!("{} can't be started: {error}", command[0]))?;
    let input = child.stdin.take().ok_or("the command has no input")?;
    let output = child.stdout.take().ok_or("the command has no output")?;
    let requests = Requests { pipe: BufWriter::with_capacity(1 << 16, input), op };
    Ok((requests, Responses { child, pipe: BufReader::with_capacity(1 << 16, output) }))
}

impl Requests {
    pub fn send(&mut self, case: &Case) -> io::Result<()> {
        self.pipe.write_all(&[self.op])?;
        for slice in &case.slices {
            self.pipe.write_all(&(slice.len() as u32).to_le_bytes())?;
            self.pipe.write_all(slice)?;
        }
        Ok(())
    }
}

impl Responses {
    /// The response to the next case, of whose slices the call may write so many.
    pub fn next(&mut self, case: &Case, writes: usize) -> io::Result<Response> {
        let mut packed = [0; 8];
        self.pipe.read_exact(&mut packed)?;
        let mut after = Vec::with_capacity(writes);
        for slice in &case.slices[case.slices.len() - writes..] {
            let mut bytes = vec![0; slice.len()];
            self.pipe.read_exact(&mut bytes)?;
            after.push(bytes);
        }
        Ok(Response { outcome: Outcome::unpack(u64::from_le_bytes(packed)), after })
    }

    /// After the last case the command must say nothing more and end with status 0.
    pub fn finish(mut self) -> Result<(), String> {
        let more = self.pipe.read(&mut [0]).map_err(|error| error.to_string())?;
        if more > 0 {
            self.stop();
            return Err("the command writes more than it was asked for".into());
        }
        let status = self.child.wait().map_err(|error| error.to_string())?;
        if !status.success() {
            return Err(format!("the command ended with {status}"));
        }
        Ok(())
    }

    /// Says how the command ended after a response failed to come. One that lingers is ended.
    pub fn explain(mut self, answered: usize, error: io::Error) -> String {
        let mut ended = self.child.try_wait();
        for _ in 0..LINGER_TENTHS {
            if !matches!(ended, Ok(None)) {
                break;
            }
            thread::sleep(Duration::from_millis(100));
            ended = self.child.try_wait();
        }
        self.stop();
        let end = match ended {
            Ok(Some(status)) => format!("the command ended with {status}"),
            _ => "the command did not end".into(),
        };
        format!("no whole response after {answered} cases ({error}); {end}")
    }

    /// Ends the command early. It may have ended already.
    pub fn stop(&mut self) {
        let _ = self.child.kill();
    }
}
