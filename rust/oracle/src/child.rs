//! The calls that may hang or overflow the stack, in a child process with a limit of time and of memory.
//!
//! The child is the running program once more: its `main` calls `serve_if_asked` before anything else. The parent unpacks
//! the files, so that nothing is left behind where a child is killed.
use crate::bundle::{Files, Unpacked};
use crate::{context, reference, sheet};
use std::io::{self, Read, Write};
use std::panic::catch_unwind;
use std::path::Path;
use std::process::{Child, ChildStdin, Command, Stdio, exit};
use std::sync::mpsc::{Receiver, RecvTimeoutError, channel};
use std::time::Duration;
use std::{env, panic, thread};

const ASKED: &str = "--oracle-child";
/// Starts the program with a limit of its memory, in KiB: 2 GiB.
const LIMITED: &str = "ulimit -v 2097152 && exec \"$0\" \"$1\"";

/// A call of the reference. Sheets are bytes that can be read.
#[derive(Clone, Copy, Debug)]
pub enum Call<'a> {
    Includes {
        folder: &'a str,
        text: &'a str,
    },
    Expansion {
        text: &'a str,
        sheet: &'a [u8],
    },
    Definitions {
        path: &'a str,
    },
    /// Includes, then expansion.
    Pass {
        folder: &'a str,
        text: &'a str,
        sheet: &'a [u8],
    },
}

/// What became of it.
#[derive(Clone, Debug, PartialEq, Eq)]
pub enum Answer {
    /// The output and the bindings left as a sheet's bytes, each empty where the call has none. The sheet is None where a
    /// length in it passes 16 bits.
    Done {
        out: Vec<u8>,
        left: Option<Vec<u8>>,
    },
    /// The reference answers an error.
    Failed,
    /// No answer in time.
    Stalled,
    /// The process died, as by a stack overflow.
    Died,
    Panicked,
}

/// Runs calls in a child, which is started anew where it stalls or dies.
pub struct Runner {
    limit: Duration,
    running: Option<Running>,
}

struct Running {
    child: Child,
    to: ChildStdin,
    from: Receiver<Answer>,
}

impl Runner {
    pub fn new(limit: Duration) -> Runner {
        Runner { limit, running: None }
    }

    pub fn run(&mut self, files: &Files, call: Call) -> io::Result<Answer> {
        self.run_within(self.limit, files, call)
    }

    /// The same with a limit of its own. A child that is not running yet is started within it.
    pub fn run_within(&mut self, limit: Duration, files: &Files, call: Call) -> io::Result<Answer> {
        let unpacked = Unpacked::new(files)?;
        let running = match &mut self.running {
            Some(running) => running,
            none => none.insert(Running::start()?),
        };
        let sent = send(&mut running.to, &request(unpacked.root(), call));
        match sent.map(|()| running.from.recv_timeout(limit)) {
            Ok(Ok(answer)) => Ok(answer),
            Ok(Err(RecvTimeoutError::Timeout)) => {
                self.running = None;
                Ok(Answer::Stalled)
            }
            Ok(Err(RecvTimeoutError::Disconnected)) | Err(_) => {
                self.running = None;
                Ok(Answer::Died)
            }
        }
    }
}

impl Running {
    fn start() -> io::Result<Running> {
        let mut child = Command::new("sh")
            .args(["-c", LIMITED])
            .arg(env::current_exe()?)
            .arg(ASKED)
            .stdin(Stdio::piped())
            .stdout(Stdio::piped())
            .stderr(Stdio::null())
            .spawn()?;
        let to = child.stdin.take().expect("a pipe");
        let mut out = child.stdout.take().expect("a pipe");
        let (sender, from) = channel();
        thread::spawn(move || {
            while let Ok(Some(fields)) = receive(&mut out) {
                if sender.send(answer_of(fields)).is_err() {
                    break;
                }
            }
        });
        Ok(Running { child, to, from })
    }
}

impl Drop for Running {
    fn drop(&mut self) {
        let _ = self.child.kill();
        let _ = self.child.wait();
    }
}

/// Where this process was started as a child, serves calls until its input ends, and exits.
pub fn serve_if_asked() {
    if env::args().nth(1).as_deref() != Some(ASKED) {
        return;
    }
    panic::set_hook(Box::new(|_| {}));
    let (mut from, mut to) = (io::stdin().lock(), io::stdout().lock());
    while let Ok(Some(fields)) = receive(&mut from) {
        let answer = catch_unwind(|| serve(&fields)).unwrap_or(Answer::Panicked);
        if send(&mut to, &fields_of(answer)).is_err() {
            break;
        }
    }
    exit(0)
}

/// A request is five fields: the call's letter, the root, and the call's own (empty where it has fewer).
fn request(root: &Path, call: Call) -> Vec<Vec<u8>> {
    let (letter, a, b, c): (&str, &str, &str, &[u8]) = match call {
        Call::Includes { folder, text } => ("i", folder, text, b""),
        Call::Expansion { text, sheet } => ("e", "", text, sheet),
        Call::Definitions { path } => ("d", path, "", b""),
        Call::Pass { folder, text, sheet } => ("p", folder, text, sheet),
    };
    let root = root.to_str().expect("a UTF-8 folder for temporary files");
    [letter.as_bytes(), root.as_bytes(), a.as_bytes(), b.as_bytes(), c].map(<[u8]>::to_vec).into()
}

fn serve(fields: &[Vec<u8>]) -> Answer {
    let text = |i: usize| str::from_utf8(&fields[i]).expect("UTF-8");
    let root = Path::new(text(1));
    let bindings = || context(&fields[4]).expect("a sheet");
    let done = match text(0) {
        "i" => reference::includes(root, text(2), text(3)).map(|out| (out, None)),
        "e" => reference::expansion(root, text(3), &bindings()).map(|(out, left)| (out, Some(left))),
        "d" => reference::definitions(root, text(2)).map(|left| (String::new(), Some(left))),
        "p" => reference::includes(root, text(2), text(3))
            .and_then(|middle| reference::expansion(root, &middle, &bindings()))
            .map(|(out, left)| (out, Some(left))),
        other => panic!("call {other}"),
    };
    match done {
        Ok((out, left)) => {
            Answer::Done { out: out.into(), left: left.map_or(Some(vec![]), |c| sheet::encode(&c.tree())) }
        }
        Err(_) => Answer::Failed,
    }
}

/// An answer is a letter, then the output and, where it can be written, the sheet.
fn fields_of(answer: Answer) -> Vec<Vec<u8>> {
    match answer {
        Answer::Done { out, left } => [b"o".to_vec(), out].into_iter().chain(left).collect(),
        Answer::Panicked => vec![b"p".to_vec()],
        _ => vec![b"f".to_vec()],
    }
}

fn answer_of(mut fields: Vec<Vec<u8>>) -> Answer {
    match fields[0].as_slice() {
        b"o" => {
            let left = if fields.len() == 3 { fields.pop() } else { None };
            Answer::Done { out: fields.pop().expect("an output"), left }
        }
        b"p" => Answer::Panicked,
        _ => Answer::Failed,
    }
}

/// A count, then each field's length and bytes; numbers have 32 bits.
fn send(to: &mut impl Write, fields: &[Vec<u8>]) -> io::Result<()> {
    let number = |n: usize| u32::try_from(n).expect("below 4 GiB").to_le_bytes();
    let mut all = number(fields.len()).to_vec();
    for field in fields {
        all.extend(number(field.len()));
        all.extend(field);
    }
    to.write_all(&all)?;
    to.flush()
}

/// None where the input has ended.
fn receive(from: &mut impl Read) -> io::Result<Option<Vec<Vec<u8>>>> {
    let Some(count) = number(from)? else { return Ok(None) };
    let mut fields = Vec::new();
    for _ in 0..count {
        let n = number(from)?.ok_or(io::ErrorKind::UnexpectedEof)?;
        let mut field = vec![0; n];
        from.read_exact(&mut field)?;
        fields.push(field);
    }
    Ok(Some(fields))
}

fn number(from: &mut impl Read) -> io::Result<Option<usize>> {
    let mut four = [0; 4];
    match from.read_exact(&mut four) {
        Ok(()) => Ok(Some(u32::from_le_bytes(four) as usize)),
        Err(e) if e.kind() == io::ErrorKind::UnexpectedEof => Ok(None),
        Err(e) => Err(e),
    }
}
