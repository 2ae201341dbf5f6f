//! Texts of nodes that are read by steps, compared with `uefi_node_reader`, which was written first.

use crate::tables::{Printed, fill};
use crate::told_texts::{Data, forms};
use arrayvec::ArrayString;
use std::alloc::Global;
use std::test::Fail;
use uefi_device_nodes::build_node::BuildNode;
use uefi_device_nodes::node_table::layouts::acpi::expanded;
use uefi_device_nodes::node_table::layouts::bios_boot_spec::boot_specification;
use uefi_device_nodes::node_table::layouts::{ACPI_TYPE, BIOS_BOOT_SPEC_TYPE};
use uefi_node_reader::node_texts::read_lenient_node;
use uefi_node_reader::read_node::ReadNode;
use uefi_node_steps::forms::put_form;
use uefi_node_steps::steps::{Form, Mode};
use uefi_node_steps::told::{put_data, told_node};

/// A node that was read, and the length of the text after it and its blanks.
#[derive(Drop)]
struct Node {
    types: [u8; 2],
    data: Data,
    left: usize,
}

/// Returns whether two nodes are the same, and the same text follows them.
fn is_same(one: &Node, other: &Node) -> bool {
    one.types == other.types
        && one.data.len == other.data.len
        && one.data.bytes == other.data.bytes
        && one.left == other.left
}

/// Returns the text after its blanks.
fn past_blanks(text: &[u8]) -> &[u8] {
    text.trim_ascii_start()
}

/// Reads a node by the steps of its form, before the end of the text, a slash or a comma.
fn by_steps(forms: &[Form], text: &[u8]) -> Option<Node> {
    let found = told_node(forms, text).ok()?;
    let rest = past_blanks(found.rest);
    if !matches!(rest.first(), None | Some(b'/' | b',')) {
        return None;
    }
    let mut data = Data::new();
    put_data(&mut data, &found);
    Some(Node {
        types: [found.form.kind, found.form.sub_kind],
        data,
        left: rest.len(),
    })
}

/// Reads a node that is not the name of a file.
fn by_reader(text: &[u8]) -> Option<Node> {
    let (node, rest) = read_lenient_node(false, text).ok()?;
    if let ReadNode::File(_) = node {
        return None;
    }
    let (kind, sub_kind) = node.full_type();
    let mut data = Data::new();
    data.len = node.data_len();
    if let Some(bytes) = data.bytes.get_mut(..data.len) {
        node.write_data(bytes);
    }
    Some(Node {
        types: [kind.0, sub_kind.0],
        data,
        left: past_blanks(rest).len(),
    })
}

/// Returns a text as people change it: not at all, to lower case, without its last field, without a letter,
/// or with another letter.
fn changed(alloc: Global, text: &str, how: usize, seed: usize) -> Result<Vec<u8>, Fail> {
    let letters = text.as_bytes();
    let place = seed * 7 % letters.len();
    let mut changed = Vec::new(alloc);
    match how {
        0 => changed.extend_from_slice(letters)?,
        1 => {
            changed.extend_from_slice(letters)?;
            changed.make_ascii_lowercase();
        }
        2 => {
            let comma = letters.iter().rposition(|letter| *letter == b',');
            changed.extend_from_slice(&letters[..comma.unwrap_or(0)])?;
            changed.push(b')')?;
        }
        3 => {
            changed.extend_from_slice(&letters[..place])?;
            changed.extend_from_slice(&letters[place + 1..])?;
        }
        _ => {
            changed.extend_from_slice(letters)?;
            changed[place] = b"019afx,.:-)"[seed % 11];
        }
    }
    Ok(changed)
}

/// Returns whether no step reads a text that the other reader reads: a call without the text in it, or an IPv4
/// address without its last number.
fn is_unread(form: &Form, text: &[u8]) -> bool {
    let types = [form.kind, form.sub_kind];
    types == [BIOS_BOOT_SPEC_TYPE, boot_specification::SUB_TYPE]
        || types == [ACPI_TYPE, expanded::SUB_TYPE]
        || text.ends_with(b".)")
}

#[test]
fn nodes_are_the_same(rt: HostRuntime) -> Result<(), Fail> {
    let forms = forms(rt.alloc())?;
    let mut both = 0;
    for (index, form) in forms.iter().enumerate() {
        if !matches!(form.mode, Mode::Read) {
            continue;
        }
        for seed in 0..4 {
            let mut content = [0; 128];
            fill(&mut content, seed);
            for (place, byte) in form.when {
                content[*place] = *byte;
            }
            let mut printed = Printed {
                text: ArrayString::new(),
            };
            put_form(
                &mut printed,
                form,
                &content[..form.layout.size + form.more + 6],
            );
            if !printed.text.is_ascii() {
                // Steps read no other letters yet.
                continue;
            }
            for how in 0..5 {
                let text = changed(
                    rt.alloc(),
                    printed.text.as_str(),
                    how,
                    index * 4 + seed as usize,
                )?;
                let shown = str::from_utf8(&text).unwrap_or("");
                match (by_steps(&forms, &text), by_reader(&text)) {
                    (Some(one), Some(other)) => {
                        both += 1;
                        assert!(rt; is_same(&one, &other), "{shown}");
                    }
                    (None, Some(_)) => assert!(rt; is_unread(form, &text), "{shown}"),
                    // Steps read more forms of numbers.
                    (Some(_), None) => assert!(rt; how > 0, "{shown}"),
                    (None, None) => {}
                }
            }
        }
    }
    assert!(rt; both > 1500, "{both}");
    Ok(())
}
