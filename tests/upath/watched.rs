//! Calls of a watched stream inside another one. The outer stream is called by its own method, and calls the
//! inner one by the trait's method. The tests check the result, both marks, and how often the stream was
//! called.

use crate::streams::{FailingWriter, KINDS};
use for_tests::FailingReader;
use std::io::{self, ErrorKind, Read, Write};
use std::test::Fail;
use upath::Watched;

/// Replaces an error by its kind.
fn by_kind<T>(outcome: io::Result<T>) -> Result<T, ErrorKind> {
    match outcome {
        Ok(value) => Ok(value),
        Err(error) => Err(error.kind()),
    }
}

/// Creates a reader of this input, watched twice, whose call number `failing` fails.
fn reader_of(input: &[u8], failing: usize, kind: ErrorKind) -> Watched<Watched<FailingReader<'_>>> {
    Watched::new(Watched::new(FailingReader {
        rest: input,
        step: usize::MAX,
        failing,
        kind,
        calls: 0,
    }))
}

/// Creates a writer, watched twice, whose write number `failing` fails, or accepts nothing if `failure` is
/// `None`.
fn writer_of(
    rt: &HostRuntime,
    failing: usize,
    failure: Option<ErrorKind>,
) -> Watched<Watched<FailingWriter>> {
    let mut writer = FailingWriter::new(rt, usize::MAX);
    writer.failing = failing;
    writer.failure = failure;
    Watched::new(Watched::new(writer))
}

/// Returns whether a failing read returns its kind and sets the marks, and the next read returns all input
/// and leaves the marks set.
fn marks_a_read(kind: ErrorKind) -> bool {
    let mut reader = reader_of(b"ab", 1, kind);
    let mut buf = [0; 3];
    let is_refused = by_kind(reader.read(&mut buf)) == Err(kind) && reader.has_failed();
    let is_read = by_kind(reader.read(&mut buf)) == Ok(2) && reader.has_failed();
    let inner = reader.into_inner();
    let is_marked = is_refused && is_read && inner.has_failed();
    is_marked && buf == [97, 98, 0] && inner.into_inner().calls == 2
}

/// Returns whether a write that fails or accepts nothing returns its kind and sets the marks, and the next
/// write accepts all and leaves the marks set.
fn marks_a_write(rt: &HostRuntime, failure: Option<ErrorKind>) -> bool {
    let mut writer = writer_of(rt, 1, failure);
    let want = failure.unwrap_or(ErrorKind::WriteZero);
    let is_refused = by_kind(writer.write(b"ab")) == Err(want) && writer.has_failed();
    let is_taken = by_kind(writer.write(b"cd")) == Ok(2) && writer.has_failed();
    let inner = writer.into_inner();
    let is_marked = is_refused && is_taken && inner.has_failed();
    is_marked && inner.into_inner().has_taken(b"cd", 2, 0)
}

/// Returns whether a failing flush returns its kind and sets the marks, and the next flush succeeds and
/// leaves the marks set.
fn marks_a_flush(rt: &HostRuntime, kind: ErrorKind) -> bool {
    let mut writer = FailingWriter::new(rt, usize::MAX);
    writer.flush = Some(kind);
    let mut writer = Watched::new(Watched::new(writer));
    let is_refused = by_kind(writer.flush()) == Err(kind) && writer.has_failed();
    let is_flushed = by_kind(writer.flush()) == Ok(()) && writer.has_failed();
    let inner = writer.into_inner();
    let is_marked = is_refused && is_flushed && inner.has_failed();
    is_marked && inner.into_inner().has_taken(b"", 0, 2)
}

/// A write that accepts nothing fails with `WriteZero`.
#[test]
fn calls_that_fail(rt: HostRuntime) {
    assert!(rt; marks_a_write(&rt, None));
    for kind in KINDS {
        let is_marked = marks_a_read(*kind) && marks_a_write(&rt, Some(*kind));
        assert!(rt; is_marked, "{kind:?}");
        assert!(rt; marks_a_flush(&rt, *kind), "{kind:?}");
    }
}

/// Returns whether two reads return an input, each as much as the buffer has room for, and set no mark.
fn gives(rt: &HostRuntime, input: &[u8], room: usize) -> Result<bool, Fail> {
    let mut reader = reader_of(input, 0, ErrorKind::Other);
    let mut buf = vec![in rt.alloc(); 0u8; room]?;
    let first = input.len().min(room);
    let (given, rest) = input.split_at(first);
    let is_first = by_kind(reader.read(&mut buf)) == Ok(first) && buf.starts_with(given);
    let second = rest.len().min(room);
    let is_second = by_kind(reader.read(&mut buf)) == Ok(second)
        && buf.starts_with(rest.get(..second).unwrap_or(&[]));
    let is_marked = reader.has_failed();
    let inner = reader.into_inner();
    let is_right = is_first && is_second && !is_marked && !inner.has_failed();
    Ok(is_right && inner.into_inner().calls == 2)
}

/// Returns whether a write accepts these bytes, a flush follows, and an empty write accepts nothing, all
/// without setting a mark.
fn takes(rt: &HostRuntime, bytes: &[u8]) -> bool {
    let mut writer = writer_of(rt, 2, None);
    let is_taken = by_kind(writer.write(bytes)) == Ok(bytes.len());
    let is_flushed = by_kind(writer.flush()) == Ok(());
    let is_right = is_taken && is_flushed && by_kind(writer.write(b"")) == Ok(0);
    let is_marked = writer.has_failed();
    let inner = writer.into_inner();
    is_right && !is_marked && !inner.has_failed() && inner.into_inner().has_taken(bytes, 2, 1)
}

/// How many bytes one call transfers.
const LENGTHS: [usize; 10] = [0, 1, 2, 4095, 4096, 4097, 65535, 65536, 65537, 2_000_000];

#[test]
fn calls_of_each_length(rt: HostRuntime) -> Result<(), Fail> {
    for len in LENGTHS {
        let bytes = vec![in rt.alloc(); b'a'; len]?;
        let is_right = takes(&rt, &bytes)
            && gives(&rt, &bytes, len)?
            && gives(&rt, &bytes, len / 2)?;
        assert!(rt; is_right, "{len} bytes");
    }
    Ok(())
}
