//! The program `serve` at the other end of pipes. Requests are written by a thread of their own and answers read by the
//! caller, so that neither program waits for the other with both pipes full; so many bytes are under way at most.

use std::collections::VecDeque;
use std::io::{BufReader, BufWriter, Read, Write};
use std::path::{Path, PathBuf};
use std::process::{Child, ChildStdin, ChildStdout, Command, Stdio};
use std::sync::mpsc::{Receiver, Sender, channel};

use super::{Answer, Call, Difference, request};

/// Bytes of requests and answers that may be under way.
const WINDOW: usize = 1 << 20;
/// What each costs beside its bytes.
const EACH: usize = 64;

/// A request that is not answered yet.
struct Waiting {
    request: Vec<u8>,
    wanted: Answer,
}

impl Waiting {
    fn size(&self) -> usize {
        EACH + self.request.len() + self.wanted.out.len()
    }
}

/// A running `serve`.
pub struct Pipe {
    command: String,
    child: Child,
    requests: Option<Sender<Vec<u8>>>,
    answers: BufReader<ChildStdout>,
    waiting: VecDeque<Waiting>,
    under_way: usize,
}

/// The words that start the program: those of `SERVE`, else `./run serve` of the repository.
fn words() -> Vec<String> {
    match std::env::var("SERVE") {
        Ok(given) => given.split_whitespace().map(str::to_owned).collect(),
        Err(_) => vec!["./run".to_owned(), "serve".to_owned()],
    }
}

/// The repository's root.
fn root() -> PathBuf {
    let own = Path::new(env!("CARGO_MANIFEST_DIR"));
    let found = own.ancestors().nth(2).expect("oracle/compare lies in it");
    found.to_path_buf()
}

/// Ends this program: there is no going on without the other.
fn lost(command: &str, what: &str) -> ! {
    println!("DIFFERENCE: `{command}` {what}");
    std::process::exit(1);
}

/// Writes requests as they come, each behind its length, until there are no more.
fn write_all(stdin: ChildStdin, requests: &Receiver<Vec<u8>>) {
    let mut pipe = BufWriter::with_capacity(1 << 16, stdin);
    while let Ok(first) = requests.recv() {
        let mut next = Some(first);
        while let Some(request) = next {
            let length = (request.len() as u32).to_le_bytes();
            if pipe.write_all(&length).is_err() || pipe.write_all(&request).is_err() {
                // The program is gone; whoever waits for an answer sees it.
                return;
            }
            next = requests.try_recv().ok();
        }
        if pipe.flush().is_err() {
            return;
        }
    }
}

impl Pipe {
    /// Starts the program and asks it for one known answer; in one line why it can't be had.
    pub fn start() -> Result<Pipe, String> {
        let words = words();
        let command = words.join(" ");
        let (program, arguments) = words.split_first().ok_or("SERVE is empty")?;
        let mut child = Command::new(program)
            .args(arguments)
            .current_dir(root())
            .stdin(Stdio::piped())
            .stdout(Stdio::piped())
            .spawn()
            .map_err(|why| format!("`{command}` can't be started: {why}"))?;
        let stdin = child.stdin.take().ok_or("no pipe")?;
        let stdout = child.stdout.take().ok_or("no pipe")?;
        let (requests, taken) = channel();
        std::thread::spawn(move || write_all(stdin, &taken));
        let mut pipe = Pipe {
            command,
            child,
            requests: Some(requests),
            answers: BufReader::with_capacity(1 << 16, stdout),
            waiting: VecDeque::new(),
            under_way: 0,
        };
        pipe.greet()?;
        Ok(pipe)
    }

    /// A published vector of the check; what is no answer at all is a program that did not start.
    fn greet(&mut self) -> Result<(), String> {
        let call = Call::Check {
            start: 0x811c_9dc5,
            bytes: b"foobar",
        };
        self.send(request::written(&call));
        let bytes = self
            .read()
            .ok_or_else(|| format!("`{}` does not answer", self.command))?;
        match request::answer(&call, &bytes) {
            Some(answer) if answer.number == 0xbf9c_f968 => Ok(()),
            _ => Err(format!("`{}` answers {bytes:02x?}", self.command)),
        }
    }

    /// What was started.
    pub fn command(&self) -> &str {
        &self.command
    }

    fn send(&mut self, request: Vec<u8>) {
        if let Some(requests) = &self.requests {
            // If the program is gone, whoever waits for an answer sees it.
            let _ = requests.send(request);
        }
    }

    /// The bytes of the next answer, if there is one.
    fn read(&mut self) -> Option<Vec<u8>> {
        let mut length = [0; 4];
        self.answers.read_exact(&mut length).ok()?;
        let mut bytes = Vec::new();
        let length = u64::from(u32::from_le_bytes(length));
        let answers = &mut self.answers;
        answers.take(length).read_to_end(&mut bytes).ok()?;
        (bytes.len() as u64 == length).then_some(bytes)
    }

    /// The next answer, which has to be one of this request.
    fn next_answer(&mut self, request: &[u8]) -> Answer {
        let Some(call) = request::read(request) else {
            lost(&self.command, "was asked what is no request");
        };
        let Some(bytes) = self.read() else {
            lost(&self.command, &format!("ended and left unanswered: {call}"));
        };
        request::answer(&call, &bytes).unwrap_or_else(|| {
            let what = format!(
                "answered {} bytes, which is no answer, to: {call}",
                bytes.len()
            );
            lost(&self.command, &what)
        })
    }

    /// The answer to a call, with nothing under way before it.
    pub fn answer(&mut self, call: &Call) -> Answer {
        assert!(self.waiting.is_empty(), "answers are still to come");
        let request = request::written(call);
        self.send(request.clone());
        self.next_answer(&request)
    }

    /// Sends a call whose answer is known, and takes answers that came as far as the window wants it.
    pub fn expect(&mut self, call: &Call, wanted: Answer) -> Result<(), Difference> {
        let request = request::written(call);
        self.send(request.clone());
        let next = Waiting { request, wanted };
        self.under_way += next.size();
        self.waiting.push_back(next);
        while self.under_way > WINDOW {
            self.take_one()?;
        }
        Ok(())
    }

    fn take_one(&mut self) -> Result<(), Difference> {
        let Some(first) = self.waiting.pop_front() else {
            return Ok(());
        };
        self.under_way -= first.size();
        let given = self.next_answer(&first.request);
        if given == first.wanted {
            return Ok(());
        }
        Err(Difference {
            request: first.request,
            given,
            wanted: first.wanted,
        })
    }

    /// Takes all answers.
    pub fn settle(&mut self) -> Result<(), Difference> {
        while !self.waiting.is_empty() {
            self.take_one()?;
        }
        Ok(())
    }

    /// The same, and looks at none.
    pub fn forget(&mut self) {
        while !self.waiting.is_empty() {
            let _ = self.take_one();
        }
    }
}

impl Pipe {
    /// Ends its input, with nothing under way: the program has to end then, to write nothing more and to give 0.
    pub fn end(&mut self) {
        assert!(self.waiting.is_empty(), "answers are still to come");
        self.requests = None;
        let mut rest = Vec::new();
        let silent = self.answers.read_to_end(&mut rest).is_ok() && rest.is_empty();
        match self.child.wait() {
            Ok(status) if silent && status.success() => (),
            status => {
                let what = format!("wrote {} bytes at its input's end: {status:?}", rest.len());
                lost(&self.command, &what)
            }
        }
    }
}

impl Drop for Pipe {
    /// A program that was not ended by its input's end is ended.
    fn drop(&mut self) {
        self.requests = None;
        if let Ok(None) = self.child.try_wait() {
            let _ = self.child.kill();
            let _ = self.child.wait();
        }
    }
}
