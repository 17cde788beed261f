//! Runs of the program.

use crate::sys;
use std::error::Error;
use std::fmt;
use std::ptr;

/// The result of a run of the program.
#[derive(Clone, Debug, PartialEq, Eq)]
pub struct Ran {
    /// The status that the program ended with, 0 to 7.
    pub status: u8,
    /// What it printed to its standard output.
    pub out: Vec<u8>,
    /// The line that it printed to its standard error.
    pub err: Vec<u8>,
}

/// Why a run did not begin.
#[derive(Clone, Copy, Debug, PartialEq, Eq)]
pub enum RunError {
    /// Out of memory for the words.
    NoMemory,
    /// There are more than three files.
    TooManyFiles,
    /// A word has a newline.
    Newline,
    /// The words are those of `race`, which starts threads.
    NoThreads,
}

impl fmt::Display for RunError {
    fn fmt(&self, f: &mut fmt::Formatter<'_>) -> fmt::Result {
        f.write_str(match self {
            RunError::NoMemory => "no memory for the words",
            RunError::TooManyFiles => "more than three files",
            RunError::Newline => "a word has a newline",
            RunError::NoThreads => "race starts threads",
        })
    }
}

impl Error for RunError {}

/// Runs the program `inputflinger` over files in memory: any of its commands except `race`. The words are those after its
/// name, and name the files `1`, `2` and `3`.
///
/// ```
/// let stream = b"channel 1 main\n1 1000 motion 1 DOWN 0@540,1200\n2 2000 motion 1 UP 0@540,1200\nend 1 sent 2 received 2 finished 2\n";
/// let ran = inputflinger::run(&["verify", "--stream", "1"], &[stream])?;
/// assert_eq!((ran.status, ran.out.as_slice()), (0, b"well formed 1 2\n".as_slice()));
/// # Ok::<(), inputflinger::RunError>(())
/// ```
///
/// # Errors
///
/// `TooManyFiles`, `Newline`, `NoThreads`, and `NoMemory` for the words. If memory runs out later, the status is 6, or 5 if
/// there is none for what is printed.
pub fn run(words: &[&str], files: &[&[u8]]) -> Result<Ran, RunError> {
    if words.iter().any(|word| word.contains('\n')) {
        return Err(RunError::Newline);
    }
    let words: String = words.iter().flat_map(|word| [word, "\n"]).collect();
    let files: Vec<_> = files
        .iter()
        .map(|bytes| sys::File {
            bytes: bytes.as_ptr().cast(),
            len: bytes.len(),
        })
        .collect();
    let (mut out, mut err) = (vec![0; 1 << 16], vec![0; 1 << 10]);
    let mut ran = run_into(&words, &files, &mut out, &mut err)?;
    if ran.out_len > out.len() || ran.err_len > err.len() {
        out.resize(ran.out_len, 0);
        err.resize(ran.err_len, 0);
        ran = run_into(&words, &files, &mut out, &mut err)?;
    }
    out.truncate(ran.out_len);
    err.truncate(ran.err_len);
    Ok(Ran {
        status: ran.status as u8,
        out,
        err,
    })
}

/// Runs it once, with this much room.
fn run_into(
    words: &str,
    files: &[sys::File],
    out: &mut [u8],
    err: &mut [u8],
) -> Result<sys::Ran, RunError> {
    let mut ran = sys::Ran::default();
    // SAFETY: each pointer is of as many bytes as its length says, and nobody else's during the call.
    let status = unsafe {
        sys::inputflinger_run(
            words.as_ptr().cast(),
            words.len(),
            if files.is_empty() {
                ptr::null()
            } else {
                files.as_ptr()
            },
            files.len(),
            out.as_mut_ptr().cast(),
            out.len(),
            err.as_mut_ptr().cast(),
            err.len(),
            &mut ran,
        )
    };
    match status {
        sys::OK | sys::NO_ROOM => Ok(ran),
        sys::NO_MEMORY => Err(RunError::NoMemory),
        sys::OUT_OF_RANGE => Err(RunError::TooManyFiles),
        sys::NO_THREADS => Err(RunError::NoThreads),
        status => unreachable!("no pointer is null: status {status}"),
    }
}
