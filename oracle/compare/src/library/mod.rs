//! The proved library, by one of two ways: linked into the program, or behind the pipes of the Rattle program `serve`, where it
//! can't be linked. The calls and their answers are the same, and so are the requests that say them (docs/EXPORTS.md).
//!
//! Behind pipes many calls are under way at once, since each costs a turn of two programs: a comparison hands in a call with
//! the answer that it has to get, and a difference may be told at a later call.

pub mod linked;
mod piped;
mod request;

use std::fmt;

use piped::Pipe;

/// A call of the library with its arguments; `room` is the length of the buffer that it is lent.
#[derive(Clone, Copy, Debug)]
pub enum Call<'a> {
    /// `slot_check`.
    Check { start: u32, bytes: &'a [u8] },
    /// `header_encode`.
    Encode {
        in_use: u8,
        len: u64,
        generation: u64,
        path: &'a [u8],
        room: usize,
    },
    /// `header_decode`.
    Decode { block: &'a [u8], room: usize },
    /// `text_is`.
    Text { bytes: &'a [u8] },
    /// `path_same`.
    Same { a: &'a [u8], b: &'a [u8] },
    /// `path_normal`.
    Normal { path: &'a [u8], room: usize },
    /// `path_parent`.
    Parent { path: &'a [u8], room: usize },
    /// `pool_script`.
    Script { script: &'a [u8], room: usize },
}

/// What a call gives back: its number, and the whole lent buffer after it.
#[derive(Clone, Debug, PartialEq, Eq)]
pub struct Answer {
    pub number: u64,
    pub out: Vec<u8>,
}

/// A call that was not answered as it has to be.
#[derive(Debug)]
pub struct Difference {
    /// The call as a request.
    request: Vec<u8>,
    given: Answer,
    wanted: Answer,
}

impl Difference {
    /// The script, if the call was one.
    pub fn script(&self) -> Option<&[u8]> {
        match request::read(&self.request) {
            Some(Call::Script { script, .. }) => Some(script),
            _ => None,
        }
    }
}

impl fmt::Display for Difference {
    fn fmt(&self, f: &mut fmt::Formatter<'_>) -> fmt::Result {
        let Some(call) = request::read(&self.request) else {
            return write!(f, "the request {}", hex(&self.request));
        };
        if let Call::Script { room, .. } = call {
            return write!(f, "{}", self.of_script(room));
        }
        let (given, wanted) = (&self.given, &self.wanted);
        write!(f, "{call}: {:#x}", given.number)?;
        if call.room() > 0 {
            write!(f, " with {}", hex(&given.out))?;
        }
        write!(f, ", not {:#x}", wanted.number)?;
        if call.room() > 0 {
            write!(f, " with {}", hex(&wanted.out))?;
        }
        Ok(())
    }
}

impl Difference {
    fn of_script(&self, room: usize) -> String {
        let (given, wanted) = (&self.given, &self.wanted);
        if given.number != wanted.number {
            return format!("output lengths {} and {}", given.number, wanted.number);
        }
        let bytes = given.out.iter().zip(&wanted.out);
        match bytes.enumerate().find(|(_, (one, two))| one != two) {
            Some((at, (one, two))) => format!(
                "output byte {at} of {}, into {room} bytes: {one:#04x} and {two:#04x}",
                wanted.number
            ),
            None => format!("{} bytes of {room}", given.out.len()),
        }
    }
}

/// Bytes in hexadecimal.
pub fn hex(bytes: &[u8]) -> String {
    bytes.iter().map(|byte| format!("{byte:02x}")).collect()
}

/// The library by one of the two ways.
pub enum Library {
    /// Linked into this program.
    Linked,
    /// The program `serve` at the other end of pipes.
    Piped(Box<Pipe>),
}

impl Library {
    /// The library: linked if it can be and `piped` is not asked for, else piped; in one line why there is none.
    pub fn find_silently(piped: bool) -> Result<Library, String> {
        if linked::PRESENT && !piped {
            return Ok(Library::Linked);
        }
        match Pipe::start() {
            Ok(pipe) => Ok(Library::Piped(Box::new(pipe))),
            Err(why) if linked::PRESENT => Err(why),
            Err(why) => Err(format!("{NOT_LINKED}; {why}")),
        }
    }

    /// The same; says in a line which way it is, or why there is none.
    pub fn find(piped: bool) -> Option<Library> {
        let found = Library::find_silently(piped);
        match &found {
            Ok(Library::Linked) => println!("library: linked"),
            Ok(Library::Piped(pipe)) => println!("library: piped through `{}`", pipe.command()),
            Err(why) => println!("library skipped: {why}"),
        }
        found.ok()
    }

    /// Whether it is at the other end of pipes.
    pub fn is_piped(&self) -> bool {
        matches!(self, Library::Piped(_))
    }

    /// What a lent buffer holds before a call. The program behind pipes fills it itself, with what a script's own buffers hold too;
    /// linked it is something else, so that a byte of theirs that is not written is seen.
    pub fn fill(&self) -> u8 {
        match self {
            Library::Linked => 0xA5,
            Library::Piped(_) => request::FILL,
        }
    }

    /// The longest buffer that a call can be lent.
    fn most_room(&self) -> usize {
        match self {
            Library::Linked => usize::MAX,
            Library::Piped(_) => request::MOST_ROOM,
        }
    }

    /// The answer to a call, waited for. Nothing may be under way.
    pub fn answer(&mut self, call: &Call) -> Answer {
        match self {
            Library::Linked => linked::answer(call, self.fill()),
            Library::Piped(pipe) => pipe.answer(call),
        }
    }

    /// Makes a call whose answer is known. Behind pipes the answer may come later: the difference can be of an earlier call.
    pub fn expect(&mut self, call: &Call, wanted: Answer) -> Result<(), Difference> {
        match self {
            Library::Linked => {
                let given = linked::answer(call, self.fill());
                if given == wanted {
                    return Ok(());
                }
                let request = request::written(call);
                Err(Difference {
                    request,
                    given,
                    wanted,
                })
            }
            Library::Piped(pipe) => pipe.expect(call, wanted),
        }
    }

    /// Runs a script whose output is known: into a buffer that is longer than it has to be, and into one of half the length.
    pub fn expect_output(&mut self, script: &[u8], output: &[u8]) -> Result<(), Difference> {
        for room in [output.len() + 8, output.len() / 2 + 1] {
            let room = room.min(self.most_room());
            let mut out = vec![self.fill(); room];
            let number = script::deliver(output, &mut out) as u64;
            self.expect(&Call::Script { script, room }, Answer { number, out })?;
        }
        Ok(())
    }

    /// Waits for all answers that are still to come.
    pub fn settle(&mut self) -> Result<(), Difference> {
        match self {
            Library::Linked => Ok(()),
            Library::Piped(pipe) => pipe.settle(),
        }
    }

    /// Ends the library's program, if it has one. Nothing may be under way.
    pub fn end(self) {
        if let Library::Piped(mut pipe) = self {
            pipe.end();
        }
    }

    /// Whether the output of a script is this one. What is under way is waited for and passed over: this is for making a script smaller
    /// that showed a difference.
    pub fn gives(&mut self, script: &[u8], output: &[u8]) -> Result<(), Difference> {
        if let Library::Piped(pipe) = self {
            pipe.forget();
        }
        self.expect_output(script, output)?;
        self.settle()
    }
}

/// Why the library is not linked, in one line.
pub const NOT_LINKED: &str =
    "target/staticlib/libharness.a was not there, or for another processor, when this was built";

impl script::Runner for Library {
    fn name(&self) -> &'static str {
        match self {
            Library::Linked if cfg!(feature = "selfcheck") => "stand-in library",
            Library::Linked => "library",
            Library::Piped(_) => "piped library",
        }
    }

    fn run(&mut self, script: &[u8], out: &mut [u8]) -> usize {
        let room = out.len().min(self.most_room());
        let call = Call::Script { script, room };
        match self {
            Library::Linked => linked::call(&call, out) as usize,
            Library::Piped(pipe) => {
                let answer = pipe.answer(&call);
                let length = answer.number as usize;
                // What lies behind the output stays as it is.
                let end = length.min(room);
                assert!(end == length.min(out.len()), "an output of {length} bytes");
                out[..end].copy_from_slice(&answer.out[..end]);
                length
            }
        }
    }
}
