//! Readers and writers with one failing call, which would succeed if repeated: each call in turn, with steps
//! of one byte, a few or all, for short and long inputs. They count their calls to show any further call. An
//! interrupted call counts as a failure.

use for_tests::{FailingReader, repeated};
use std::io::{self, ErrorKind, Write};
use std::test::Fail;
use upath::{StreamFault, Watched, run_streams};

/// Kinds of errors: errors after which a caller might repeat the call, errors that end a stream, and others.
pub(crate) const KINDS: &[ErrorKind] = &[
    ErrorKind::Interrupted,
    ErrorKind::WouldBlock,
    ErrorKind::TimedOut,
    ErrorKind::Other,
    ErrorKind::UnexpectedEof,
    ErrorKind::WriteZero,
    ErrorKind::BrokenPipe,
    ErrorKind::OutOfMemory,
    ErrorKind::StorageFull,
    ErrorKind::NotFound,
    ErrorKind::Uncategorized,
];

/// A run, and the greatest number of bytes that one call of its reader or its writer transfers.
#[derive(Clone, Copy)]
struct Run<'a> {
    input: &'a [u8],
    output: &'a [u8],
    step: usize,
}

/// A writer that accepts at most `step` bytes a call. Its write number `failing`, counted from 1, fails with
/// `failure`, or accepts nothing if `failure` is `None`. The first flush fails with `flush`, if that is not
/// `None`.
#[derive(Drop)]
pub(crate) struct FailingWriter {
    pub(crate) held: Vec<u8>,
    pub(crate) step: usize,
    pub(crate) failing: usize,
    pub(crate) failure: Option<ErrorKind>,
    pub(crate) flush: Option<ErrorKind>,
    pub(crate) writes: usize,
    pub(crate) flushes: usize,
}

impl FailingWriter {
    /// Creates a writer that never fails.
    pub(crate) fn new(rt: &HostRuntime, step: usize) -> FailingWriter {
        FailingWriter {
            held: Vec::new(rt.alloc()),
            step,
            failing: 0,
            failure: None,
            flush: None,
            writes: 0,
            flushes: 0,
        }
    }

    /// Returns whether the writer contains `held`, after these numbers of writes and flushes.
    pub(crate) fn has_taken(&self, held: &[u8], writes: usize, flushes: usize) -> bool {
        self.held.as_slice() == held && self.writes == writes && self.flushes == flushes
    }
}

impl Write for FailingWriter {
    fn write(&mut self, buf: &[u8]) -> io::Result<usize> {
        self.writes = self.writes.saturating_add(1);
        if self.writes == self.failing {
            return match self.failure {
                Some(kind) => Err(io::Error::from(kind)),
                None => Ok(0),
            };
        }
        let taken = self.step.min(buf.len());
        self.held.extend_from_slice(&buf[..taken])?;
        Ok(taken)
    }

    fn flush(&mut self) -> io::Result<()> {
        self.flushes = self.flushes.saturating_add(1);
        match self.flush {
            Some(kind) if self.flushes == 1 => Err(io::Error::from(kind)),
            _ => Ok(()),
        }
    }
}

/// The result of a run, with its reader and its writer.
#[derive(Drop)]
struct Ended<'a> {
    outcome: Result<(), StreamFault>,
    reader: FailingReader<'a>,
    writer: FailingWriter,
}

/// Runs with this failing read, or none if `failing` is 0. Returns an error if the marks don't show which of
/// the two streams failed.
fn end_of<'a>(
    rt: &HostRuntime,
    run: Run<'a>,
    failing: usize,
    kind: ErrorKind,
    writer: FailingWriter,
) -> Result<Ended<'a>, Fail> {
    let mut reader = Watched::new(FailingReader {
        rest: run.input,
        step: run.step,
        failing,
        kind,
        calls: 0,
    });
    let mut writer = Watched::new(writer);
    let outcome = run_streams(rt.alloc(), &mut reader, &mut writer);
    if reader.has_failed() != (outcome == Err(StreamFault::Read))
        || writer.has_failed() != (outcome == Err(StreamFault::Write))
    {
        return Err("a mark".into());
    }
    Ok(Ended {
        outcome,
        reader: reader.into_inner(),
        writer: writer.into_inner(),
    })
}

/// Counts the reads and the writes of a run in which no call fails. Returns an error unless all input is
/// read, and all output is written and flushed once.
fn calls_of(rt: &HostRuntime, run: Run<'_>) -> Result<(usize, usize), Fail> {
    let end = end_of(
        rt,
        run,
        0,
        ErrorKind::Other,
        FailingWriter::new(rt, run.step),
    )?;
    let writes = end.writer.writes;
    if end.outcome.is_err()
        || !end.reader.rest.is_empty()
        || !end.writer.has_taken(run.output, writes, 1)
    {
        return Err("a run without a failed call".into());
    }
    Ok((end.reader.calls, writes))
}

/// Returns whether a run with this failing read reports it, reads no more, and writes nothing.
fn ends_unwritten(
    rt: &HostRuntime,
    run: Run<'_>,
    failing: usize,
    kind: ErrorKind,
) -> Result<bool, Fail> {
    let end = end_of(rt, run, failing, kind, FailingWriter::new(rt, run.step))?;
    Ok(
        end.outcome == Err(StreamFault::Read)
            && end.reader.calls == failing
            && end.writer.has_taken(b"", 0, 0),
    )
}

/// Returns whether a run with this failing write reports it, writes only the bytes before it, and calls the
/// writer no more.
fn ends_in_write(
    rt: &HostRuntime,
    run: Run<'_>,
    failing: usize,
    failure: Option<ErrorKind>,
) -> Result<bool, Fail> {
    let mut writer = FailingWriter::new(rt, run.step);
    writer.failing = failing;
    writer.failure = failure;
    let end = end_of(rt, run, 0, ErrorKind::Other, writer)?;
    let len = run.step.saturating_mul(failing.saturating_sub(1));
    let taken = run.output.get(..len).unwrap_or(&[]);
    Ok(end.outcome == Err(StreamFault::Write) && end.writer.has_taken(taken, failing, 0))
}

/// Returns whether a run with a failing flush reports it, writes all output, and flushes no more.
fn ends_in_flush(
    rt: &HostRuntime,
    run: Run<'_>,
    writes: usize,
    kind: ErrorKind,
) -> Result<bool, Fail> {
    let mut writer = FailingWriter::new(rt, run.step);
    writer.flush = Some(kind);
    let end = end_of(rt, run, 0, ErrorKind::Other, writer)?;
    Ok(end.outcome == Err(StreamFault::Write) && end.writer.has_taken(run.output, writes, 1))
}

/// Returns whether a run ends at each read, each write and the flush that fails with this kind, and at each
/// write that accepts nothing. For a long input, only the last read and the last write fail.
fn each_call_ends(rt: &HostRuntime, run: Run<'_>, kind: ErrorKind) -> Result<bool, Fail> {
    let (reads, writes) = calls_of(rt, run)?;
    let is_short = run.input.len() < 10_000;
    for failing in (if is_short { 1 } else { reads })..=reads {
        if !ends_unwritten(rt, run, failing, kind)? {
            return Ok(false);
        }
    }
    for failing in (if is_short { 1 } else { writes })..=writes {
        if !ends_in_write(rt, run, failing, None)?
            || !ends_in_write(rt, run, failing, Some(kind))?
        {
            return Ok(false);
        }
    }
    ends_in_flush(rt, run, writes, kind)
}

/// Inputs and outputs: a path and its pieces, no input, the shortest input that is not empty, and the input
/// of the program's stored run.
pub(crate) const SHORT: &[(&[u8], &[u8])] = &[
    (
        b"from \\foo\\bar\npieces\n",
        b"= \\foo\\bar\npieces 2\n| foo\n| bar\n",
    ),
    (b"", b""),
    (b"\n", b"? unknown command\n"),
    (
        b"from /a\npush b\nup\nparent\nparent\npieces\ncheck\n",
        b"= \\a\n= \\a\\b\nparents 1\n| a\n= a\nnone\npieces 1\n| a\nok\n",
    ),
];

#[test]
fn each_call_that_fails(rt: HostRuntime) -> Result<(), Fail> {
    for (input, output) in SHORT {
        for step in [1, 5, 99] {
            let run = Run {
                input,
                output,
                step,
            };
            for kind in KINDS {
                assert!(rt; each_call_ends(&rt, run, *kind)?, "{output:?}, {kind:?}");
            }
        }
    }
    Ok(())
}

/// Returns whether failing calls end a run over this input, with at most `step` bytes a call.
fn long_run_ends(rt: &HostRuntime, input: &str, output: &str, step: usize) -> Result<bool, Fail> {
    let (input, output) = (input.as_bytes(), output.as_bytes());
    let run = Run {
        input,
        output,
        step,
    };
    each_call_ends(rt, run, ErrorKind::Interrupted)
}

/// The lengths of inputs and outputs include 4,095, 4,096, 4,097 and 65,536 bytes.
#[test]
fn calls_that_fail_on_long_lines(rt: HostRuntime) -> Result<(), Fail> {
    for len in [4089, 4090, 4091, 4092, 4093, 4094, 65530, 65533] {
        let text = repeated(rt.alloc(), "a", len)?;
        let input = format!(in rt.alloc(); "from {text}\n")?;
        let output = format!(in rt.alloc(); "= {text}\n")?;
        for step in [1500, usize::MAX] {
            let is_right = long_run_ends(&rt, &input, &output, step)?;
            assert!(rt; is_right, "{len} characters, {step}");
        }
    }
    Ok(())
}

/// An input of 2,000,000 bytes, and an output of 2,000,016 bytes.
#[test]
fn calls_that_fail_on_the_longest(rt: HostRuntime) -> Result<(), Fail> {
    for (len, count) in [(1_999_999, 1), (0, 111_112)] {
        let mut line = repeated(rt.alloc(), "x", len)?;
        line.push('\n')?;
        let input = repeated(rt.alloc(), &line, count)?;
        let output = repeated(rt.alloc(), "? unknown command\n", count)?;
        assert!(rt; long_run_ends(&rt, &input, &output, 700_000)?, "{count}");
    }
    Ok(())
}
