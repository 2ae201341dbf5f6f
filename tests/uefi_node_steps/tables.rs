//! The forms of nodes as steps, compared with the rows of `uefi_device_nodes`, which were written first.

ghost use Rattle.std.specs.Prelude.{◌≡◌};

use arrayvec::ArrayString;
use std::test::Fail;
use uefi_device_nodes::node_table::rows::{Mode as RowMode, Row};
use uefi_device_nodes::node_table::{printing, table as rows};
use uefi_node_steps::forms::put_form;
use uefi_node_steps::steps::{Form, Mode};
use uefi_node_steps::table;
use uefi_text::text_sink::TextSink;

/// The number of groups in each table, with that of libefivar.
const GROUPS: usize = rows::GROUPS + 1;

/// The most bytes of data.
const MOST: usize = 128;

/// A text that was printed.
#[derive(Drop)]
pub(crate) struct Printed {
    pub(crate) text: ArrayString<1024>,
}

impl TextSink for Printed {
    ghost puts = { λ old text new. text ≡ text };

    fn put_str(&mut self, text: &str) {
        let _is_whole = self.text.try_push_str(text).is_ok();
    }

    fn put_char(&mut self, character: char) {
        let _is_whole = self.text.try_push(character).is_ok();
    }
}

/// Returns the forms of a group.
fn group(index: usize) -> &'static [Form] {
    match index {
        0 => table::HARDWARE,
        1 => table::ACPI,
        2 => table::SAS,
        3 => table::SAS_IN_BAYS,
        4 => table::SAS_EX,
        5 => table::MESSAGING,
        6 => table::IPV4,
        7 => table::IPV6,
        8 => table::IPV6_SHORT,
        9 => table::USB_CLASSES,
        10 => table::MEDIA,
        11 => table::BOOT,
        12 => table::TYPED_ACPI,
        13 => table::TYPED_MESSAGING,
        14 => table::TYPED_MEDIA,
        15 => table::LIBEFIVAR,
        _ => &[],
    }
}

/// Returns whether both tables have the same mode.
fn has_mode(form: &Form, row: &Row) -> bool {
    matches!(
        (form.mode, row.mode),
        (Mode::Read, RowMode::Read)
            | (Mode::Printed, RowMode::Printed)
            | (Mode::Display, RowMode::Display)
            | (Mode::Libefivar, RowMode::Libefivar)
            | (Mode::People, RowMode::People)
    )
}

/// Returns whether bytes are the same at the same offsets.
fn has_bytes(bytes: &[(usize, u8)], others: &[(u8, u8)]) -> bool {
    let mut same = bytes.len() == others.len();
    for (one, other) in bytes.iter().zip(others) {
        same = same && one.0 == usize::from(other.0) && one.1 == other.1;
    }
    same
}

/// Returns whether a form is for the same nodes as a row.
fn is_like(form: &Form, row: &Row) -> bool {
    form.kind == row.kind
        && form.sub_kind == row.sub_kind
        && form.layout.size == usize::from(row.least)
        && form.more == usize::from(row.more)
        && has_mode(form, row)
        && has_bytes(form.when, row.when.as_slice())
        && has_bytes(form.layout.bytes, row.also.as_slice())
}

#[test]
fn forms_are_for_the_same_nodes(rt: HostRuntime) -> Result<(), Fail> {
    let mut count = 0;
    for index in 0..GROUPS {
        let forms = group(index);
        assert_eq!(rt; forms.len(), rows::group(index).len(), "group {index}");
        for (form, row) in forms.iter().zip(rows::group(index)) {
            assert!(rt;
                is_like(form, row),
                "group {index}: {} {}",
                form.kind,
                form.sub_kind
            );
            count += 1;
        }
    }
    assert_eq!(rt; count, 206);
    Ok(())
}

/// Returns whether a form prints a node.
fn prints(form: &Form, display_only: bool, kind: u8, sub_kind: u8, content: &[u8]) -> bool {
    let is_printed = match form.mode {
        Mode::Read | Mode::Printed => true,
        Mode::Display => display_only,
        Mode::Libefivar | Mode::People => false,
    };
    let mut prints = is_printed
        && form.kind == kind
        && form.sub_kind == sub_kind
        && form.layout.size + form.more <= content.len();
    for (place, byte) in form.when {
        prints = prints && content[*place] == *byte;
    }
    prints
}

/// Puts a node in its form, and returns the group and the index of the form if it is found.
fn put_node(
    sink: &mut Printed,
    display_only: bool,
    kind: u8,
    sub_kind: u8,
    content: &[u8],
) -> Option<(usize, usize)> {
    for index in 0..GROUPS {
        for (place, form) in group(index).iter().enumerate() {
            if prints(form, display_only, kind, sub_kind, content) {
                put_form(sink, form, content);
                return Some((index, place));
            }
        }
    }
    None
}

/// Fills data with bytes that a number determines: any bytes, printable ones, small ones or zeros.
pub(crate) fn fill(content: &mut [u8], seed: u32) {
    let mut state = seed.wrapping_mul(2654435761).wrapping_add(1);
    for i in 0..content.len() {
        state = state.wrapping_mul(1664525).wrapping_add(1013904223);
        let byte = (state >> 16) % 256;
        let byte = match seed % 4 {
            0 => byte,
            1 => 32 + byte % 95,
            2 => byte % 6,
            _ => byte / 254,
        };
        content[i] = u8::try_from(byte).unwrap_or(0);
    }
}

/// Returns whether a node has the same text by steps and by rows, and whether its form is a given one.
fn is_same(display_only: bool, form: &Form, at: (usize, usize), content: &[u8]) -> (bool, bool) {
    let mut by_steps = Printed {
        text: ArrayString::new(),
    };
    let mut by_rows = Printed {
        text: ArrayString::new(),
    };
    let found = put_node(
        &mut by_steps,
        display_only,
        form.kind,
        form.sub_kind,
        content,
    );
    let is_found = printing::put_form(
        &mut by_rows,
        display_only,
        form.kind,
        form.sub_kind,
        content,
    );
    (
        found.is_some() == is_found && by_steps.text.as_str() == by_rows.text.as_str(),
        found == Some(at),
    )
}

#[test]
fn nodes_have_the_same_texts(rt: HostRuntime) -> Result<(), Fail> {
    for index in 0..GROUPS {
        for (place, form) in group(index).iter().enumerate() {
            let mut uses = 0;
            for seed in 0u32..96 {
                let mut content = [0; MOST];
                fill(&mut content, seed);
                for (at, byte) in form.when {
                    content[*at] = *byte;
                }
                let more = usize::try_from(seed / 4).unwrap_or(0) * 2 % 50;
                let content = &content[..form.layout.size + form.more + more];
                for display_only in [false, true] {
                    let (same, is_used) = is_same(display_only, form, (index, place), content);
                    assert!(rt;
                        same,
                        "group {index}, form {place}, data {seed}, {display_only}"
                    );
                    if is_used {
                        uses += 1;
                    }
                }
            }
            let is_printed = !matches!(form.mode, Mode::People | Mode::Libefivar);
            assert!(rt;
                (uses > 0) == is_printed,
                "group {index}, form {place}: {uses} uses"
            );
        }
    }
    Ok(())
}
