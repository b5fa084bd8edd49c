//! What the subcommands share: reading their input, and leaving with an output and a status.

use crate::decode::decode;
use crate::encode::encode;
use crate::fault::Fault;
use crate::list::{self, Entry};
use crate::meaning::Source;
use crate::model::Sheet;
use crate::notation::read as read_notation;
use crate::note::{render, Note};
use std::ffi::OsStr;
use std::fs;
use std::io::{self, ErrorKind, Read, Write};
use std::path::Path;
use std::process::ExitCode;

/// A plan, a yes, or the work done.
pub const DONE: u8 = 0;
/// Any other answer; input that can be read and is refused.
pub const REFUSED: u8 = 1;
/// Wrong use, or a file that cannot be read or written.
pub const USAGE: u8 = 2;

/// Why a command leaves without a result.
#[derive(Debug)]
pub struct Failure {
    pub status: u8,
    /// Lines for standard error.
    pub message: String,
}

impl Failure {
    pub fn new(status: u8, message: impl Into<String>) -> Failure {
        Failure { status, message: message.into() }
    }

    pub fn usage(message: impl Into<String>) -> Failure {
        Failure::new(USAGE, format!("corrumai: {}", message.into()))
    }
}

/// What a command prints, and with which status it leaves.
#[derive(Debug, Default)]
pub struct Output {
    pub status: u8,
    pub out: Vec<u8>,
    /// For standard error: warnings, and where to read on.
    pub aside: String,
}

impl Output {
    pub fn new(status: u8, out: impl Into<Vec<u8>>) -> Output {
        Output { status, out: out.into(), aside: String::new() }
    }
}

/// A file's bytes, with the name that messages give it.
pub struct Input {
    pub name: String,
    pub bytes: Vec<u8>,
}

impl Input {
    /// Byte 0 of a sheet or a list is its edition, which begins no text.
    pub fn is_text(&self) -> bool {
        self.bytes.first().is_some_and(|byte| *byte >= b'\t')
    }

    fn refuse(&self, errors: &[Note]) -> Failure {
        Failure::new(REFUSED, render(&self.name, &self.bytes, "error", errors))
    }

    /// The name without its folders.
    pub fn base_name(&self) -> String {
        let last = Path::new(&self.name).file_name().and_then(OsStr::to_str);
        last.unwrap_or(&self.name).to_string()
    }
}

/// Reads a file, or standard input where the path is `-` or none.
pub fn read(path: Option<&OsStr>) -> Result<Input, Failure> {
    let Some(path) = path.filter(|path| *path != "-") else {
        let mut input = Input { name: "standard input".to_string(), bytes: Vec::new() };
        return match io::stdin().lock().read_to_end(&mut input.bytes) {
            Ok(_) => Ok(input),
            Err(fault) => Err(Failure::usage(format!("cannot read standard input: {fault}"))),
        };
    };
    let name = Path::new(path).display().to_string();
    match fs::read(path) {
        Ok(bytes) => Ok(Input { name, bytes }),
        Err(fault) => Err(Failure::usage(format!("cannot read the file '{name}': {fault}"))),
    }
}

/// A sheet as planner and judge read it; with names and places where it came as a text.
pub struct Given {
    pub input: Input,
    pub bytes: Vec<u8>,
    /// The sheet, or why its bytes are none.
    pub sheet: Result<Sheet, Fault>,
    pub source: Option<Source>,
}

impl Given {
    /// Opens a sheet in bytes or as text. A text with errors is refused.
    pub fn open(path: Option<&OsStr>) -> Result<Given, Failure> {
        let input = read(path)?;
        if !input.is_text() {
            let (sheet, bytes) = (decode(&input.bytes), input.bytes.clone());
            return Ok(Given { input, bytes, sheet, source: None });
        }
        let (sheet, source) =
            read_notation(&input.bytes).map_err(|errors| input.refuse(&errors))?;
        let bytes = encode(&sheet);
        Ok(Given { input, bytes, sheet: Ok(sheet), source: Some(source) })
    }
}

/// The failure for bytes that are no sheet.
pub fn refuse_bytes(input: &Input, what: &str, fault: &Fault) -> Failure {
    let (name, number, reason) = (&input.name, fault.number, fault.reason());
    let message = format!("{name}: no well-formed {what}, answer {number} 0: {reason}");
    Failure::new(REFUSED, message)
}

/// A list in bytes, or as text for this sheet.
pub struct GivenList {
    pub bytes: Vec<u8>,
    pub entries: Result<Vec<Entry>, Fault>,
}

impl GivenList {
    pub fn open(sheet: &Sheet, input: &Input) -> Result<GivenList, Failure> {
        if !input.is_text() {
            let entries = list::decode(sheet, &input.bytes);
            return Ok(GivenList { bytes: input.bytes.clone(), entries });
        }
        let entries = list::parse(sheet, &input.bytes).map_err(|errors| input.refuse(&errors))?;
        Ok(GivenList { bytes: list::encode(sheet, &entries), entries: Ok(entries) })
    }
}

/// Writes output and messages; what cannot be written is status 2.
pub fn finish(outcome: Result<Output, Failure>) -> ExitCode {
    let (status, message) = match outcome {
        Ok(output) => {
            let mut out = io::stdout().lock();
            match out.write_all(&output.out).and_then(|()| out.flush()) {
                Ok(()) => (output.status, output.aside),
                // The reader has gone, and needs no words.
                Err(fault) if fault.kind() == ErrorKind::BrokenPipe => (USAGE, String::new()),
                Err(fault) => (USAGE, format!("corrumai: cannot write the result: {fault}")),
            }
        }
        Err(failure) => (failure.status, failure.message),
    };
    if !message.trim_end().is_empty() {
        // Where standard error is closed there is nobody to tell.
        let _ = writeln!(io::stderr(), "{}", message.trim_end());
    }
    ExitCode::from(status)
}
