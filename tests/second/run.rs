// Starts the program under test as a child, feeds it from one thread and reads it on another.
// It knows bytes only: what they mean, and whether they are right, is decided elsewhere.

use std::io::{self, BufWriter, Read, Write};
use std::process::{Child, ChildStdin, ChildStdout, Command, Stdio};
use std::sync::mpsc::{sync_channel, Receiver, RecvTimeoutError, SyncSender};
use std::thread;
use std::time::{Duration, Instant};

/// A child that is silent for so long, or does not end for so long, is taken to hang.
const PATIENCE: Duration = Duration::from_secs(60);
const PIECE_BYTES: usize = 1 << 16;
/// Pieces read but not yet taken; bounded, so that a runaway child cannot fill the memory.
const PIECES_WAITING: usize = 64;

/// The words of the command line that starts the program, an emulator's before its own.
pub struct Program {
    words: Vec<String>,
}

/// How the child ended.
#[derive(Debug, PartialEq, Eq)]
pub enum Ending {
    Status(i32),
    /// By a signal: a crash, whatever was answered before.
    Signal,
    /// It was ended from here, since it went on or hung.
    Stopped,
}

/// What was missing where more output was awaited.
#[derive(Debug)]
pub struct Lack {
    pub bytes_got: usize,
    pub silent: bool,
}

impl Program {
    pub fn new(path: &str, emulator: Option<&str>) -> Program {
        let words = emulator.unwrap_or("").split_whitespace();
        Program {
            words: words.chain([path]).map(str::to_string).collect(),
        }
    }

    fn start(&self) -> Result<Child, String> {
        Command::new(&self.words[0])
            .args(&self.words[1..])
            .stdin(Stdio::piped())
            .stdout(Stdio::piped())
            .spawn()
            .map_err(|error| format!("{} does not start: {error}", self.words.join(" ")))
    }

    /// One run: what feed writes goes in while take reads what comes out. Writing and reading
    /// are on threads of their own, so neither pipe can fill and stop both sides.
    pub fn converse<Taken>(
        &self,
        feed: impl FnOnce(&mut dyn Write) -> io::Result<()> + Send,
        take: impl FnOnce(&mut Output) -> Taken,
    ) -> Result<(Taken, Ending), String> {
        let mut child = self.start()?;
        let input = child.stdin.take().ok_or("the child has no input")?;
        let output = child.stdout.take().ok_or("the child has no output")?;
        let (sender, receiver) = sync_channel(PIECES_WAITING);
        thread::scope(|scope| {
            scope.spawn(move || write_input(input, feed));
            scope.spawn(move || read_output(output, sender));
            let mut output = Output {
                receiver,
                held: Vec::new(),
                taken: 0,
                ended: false,
            };
            let taken = take(&mut output);
            let ending = end_of(&mut child, output.ended);
            // The reading thread may wait to hand over a piece; without a taker it goes on.
            drop(output);
            Ok((taken, ending?))
        })
    }
}

/// A child may rightly end before its input does (after a stop), so a broken pipe is no error
/// here: if answers are missing, the taker of the output sees it.
fn write_input(input: ChildStdin, feed: impl FnOnce(&mut dyn Write) -> io::Result<()>) {
    let mut writer = BufWriter::with_capacity(PIECE_BYTES, input);
    if feed(&mut writer).is_ok() {
        let _ = writer.flush();
    }
}

fn read_output(mut output: ChildStdout, sender: SyncSender<Vec<u8>>) {
    let mut piece = vec![0; PIECE_BYTES];
    loop {
        match output.read(&mut piece) {
            Ok(0) => return,
            Ok(count) => {
                if sender.send(piece[..count].to_vec()).is_err() {
                    return;
                }
            }
            Err(error) if error.kind() == io::ErrorKind::Interrupted => {}
            Err(_) => return,
        }
    }
}

/// Waits for a child whose output has ended; any other is ended here, it alone and by handle.
fn end_of(child: &mut Child, output_ended: bool) -> Result<Ending, String> {
    let begin = Instant::now();
    while output_ended && begin.elapsed() < PATIENCE {
        let status = child.try_wait().map_err(|error| error.to_string())?;
        match status {
            None => thread::sleep(Duration::from_millis(1)),
            Some(status) => return Ok(status.code().map_or(Ending::Signal, Ending::Status)),
        }
    }
    let _ = child.kill();
    child.wait().map_err(|error| error.to_string())?;
    Ok(Ending::Stopped)
}

/// How many bytes are the same from the front on.
pub fn equal_front(expected: &[u8], got: &[u8]) -> usize {
    let pairs = expected.iter().zip(got);
    pairs.take_while(|(expected, got)| expected == got).count()
}

/// The child's output, taken from the front.
pub struct Output {
    receiver: Receiver<Vec<u8>>,
    held: Vec<u8>,
    taken: usize,
    ended: bool,
}

impl Output {
    fn available(&self) -> usize {
        self.held.len() - self.taken
    }

    /// Waits for one more piece. Err tells that none comes: the end, or too long a silence.
    fn wait_for_piece(&mut self) -> Result<(), Lack> {
        match self.receiver.recv_timeout(PATIENCE) {
            Ok(piece) => {
                self.held.drain(..self.taken);
                self.taken = 0;
                self.held.extend_from_slice(&piece);
                Ok(())
            }
            Err(reason) => {
                self.ended = reason == RecvTimeoutError::Disconnected;
                Err(Lack {
                    bytes_got: self.available(),
                    silent: !self.ended,
                })
            }
        }
    }

    /// Exactly so many bytes.
    pub fn take(&mut self, count: usize) -> Result<&[u8], Lack> {
        while self.available() < count {
            self.wait_for_piece()?;
        }
        let from = self.taken;
        self.taken += count;
        Ok(&self.held[from..from + count])
    }

    /// All that is left, read to the end or until it is more than the given number of bytes.
    pub fn rest(&mut self, most: usize) -> Result<Vec<u8>, Lack> {
        while self.available() <= most {
            match self.wait_for_piece() {
                Ok(()) => {}
                Err(lack) if lack.silent => return Err(lack),
                Err(_) => break,
            }
        }
        Ok(self.held[self.taken..].to_vec())
    }
}
