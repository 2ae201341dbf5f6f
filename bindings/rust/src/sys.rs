//! The calls of the library over slices, made from `nardcorbel.h` by `make-sys`: the header says what each does.
#![allow(dead_code, unused_imports, clippy::too_many_arguments)]

use crate::error::{Error, Said};
pub use nardcorbel_sys::{
    NARD_OK as OK,
    NARD_NO_NUL as NO_NUL,
    NARD_INVALID_CHAR as INVALID_CHAR,
    NARD_INTERIOR_NUL as INTERIOR_NUL,
    NARD_BUFFER_TOO_SMALL as BUFFER_TOO_SMALL,
    NARD_NOT_UTF8 as NOT_UTF8,
    NARD_ODD_BYTES as ODD_BYTES,
    NARD_PATH_EMPTY as PATH_EMPTY,
    NARD_EMPTY_COMPONENT as EMPTY_COMPONENT,
    NARD_ILLEGAL_CHAR as ILLEGAL_CHAR,
    NARD_CLIMBS_ABOVE_ROOT as CLIMBS_ABOVE_ROOT,
    NARD_NO_PARENT as NO_PARENT,
    NARD_NO_END_NODE as NO_END_NODE,
    NARD_TRUNCATED_HEADER as TRUNCATED_HEADER,
    NARD_UNKNOWN_END as UNKNOWN_END,
    NARD_LENGTH_BELOW_HEADER as LENGTH_BELOW_HEADER,
    NARD_END_WITH_DATA as END_WITH_DATA,
    NARD_NODE_BEYOND_END as NODE_BEYOND_END,
    NARD_OPTION_TOO_SHORT as OPTION_TOO_SHORT,
    NARD_DESCRIPTION_WITHOUT_END as DESCRIPTION_WITHOUT_END,
    NARD_LIST_BEYOND_END as LIST_BEYOND_END,
    NARD_EMPTY_LIST as EMPTY_LIST,
    NARD_UNKNOWN_STYLE as UNKNOWN_STYLE,
    NARD_NAME_EMPTY as NAME_EMPTY,
    NARD_NAME_TOO_LONG as NAME_TOO_LONG,
    NARD_NODE_OF_END as NODE_OF_END,
    NARD_NODE_TOO_LONG as NODE_TOO_LONG,
    NARD_LIST_TOO_LONG as LIST_TOO_LONG,
    NARD_NOT_A_NAME as NOT_A_NAME,
    NARD_NO_NODE as NO_NODE,
    NARD_NO_FIELD as NO_FIELD,
    NARD_END as END,
    NARD_CHAR_REPLACED as CHAR_REPLACED,
    NARD_STYLE_UEFI as STYLE_UEFI,
    NARD_STYLE_TYPED as STYLE_TYPED,
    NARD_STYLE_LIBEFIVAR as STYLE_LIBEFIVAR,
    NARD_DISPLAY_ONLY as DISPLAY_ONLY,
    NARD_ALLOW_SHORTCUTS as ALLOW_SHORTCUTS,
    NARD_BOOT as BOOT,
    NARD_DRIVER as DRIVER,
    NARD_SYS_PREP as SYS_PREP,
    NARD_PLATFORM_RECOVERY as PLATFORM_RECOVERY,
    nard_device_node as DeviceNode,
    nard_load_option_parts as LoadOptionParts,
};

/// Defines a function with the name of a call, which takes slices and references.
macro_rules! call {
    ($name:ident($($given:ident: $kind:ty),*) -> $result:ty as ($($passed:expr),*)$( to $said:ident.$told:ident)?) => {
        pub fn $name($($given: $kind),*) -> $result {
            $(let mut $said = Said::default();)?
            // SAFETY: the library asks for pointers that are aligned for their type, with as many elements as the number after
            // them says, for what it writes to overlap nothing else, and for memory that nobody else uses during the call.
            // Slices and references have all of it. The library keeps no pointer, and writes only whole elements.
            let result = unsafe { nardcorbel_sys::$name($($passed),*) };
            $(let result = $said.$told(result);)?
            result
        }
    };
}

call!(nard_string_check(text: &[u16]) -> Result<usize, Error>
    as (text.as_ptr(), text.len(), &mut said.length, &mut said.fault) to said.result);
call!(nard_string_length(text: &[u16]) -> Result<usize, Error>
    as (text.as_ptr(), text.len(), &mut said.length, &mut said.fault) to said.result);
call!(nard_string_equal(first: &[u16], second: &[u16]) -> bool
    as (first.as_ptr(), first.len(), second.as_ptr(), second.len()));
call!(nard_string_compare(first: &[u16], second: &[u16]) -> i32
    as (first.as_ptr(), first.len(), second.as_ptr(), second.len()));
call!(nard_string_is_ascii(text: &[u16]) -> bool
    as (text.as_ptr(), text.len()));
call!(nard_string_equal_ignore_case(first: &[u16], second: &[u16]) -> bool
    as (first.as_ptr(), first.len(), second.as_ptr(), second.len()));
call!(nard_string_compare_ignore_case(first: &[u16], second: &[u16]) -> i32
    as (first.as_ptr(), first.len(), second.as_ptr(), second.len()));
call!(nard_string_make_uppercase(buffer: &mut [u16]) -> usize
    as (buffer.as_mut_ptr(), buffer.len()));
call!(nard_string_make_lowercase(buffer: &mut [u16]) -> usize
    as (buffer.as_mut_ptr(), buffer.len()));
call!(nard_string_matches(text: &[u16], pattern: &[u16]) -> bool
    as (text.as_ptr(), text.len(), pattern.as_ptr(), pattern.len()));
call!(nard_units_from_bytes(bytes: &[u8], buffer: &mut [u16]) -> Result<usize, Error>
    as (bytes.as_ptr(), bytes.len(), buffer.as_mut_ptr(), buffer.len(), &mut said.length) to said.result);
call!(nard_packed_length(bytes: &[u8]) -> Result<usize, Error>
    as (bytes.as_ptr(), bytes.len(), &mut said.length) to said.result);
call!(nard_packed_escape(bytes: &[u8], buffer: &mut [u8]) -> Result<usize, Error>
    as (bytes.as_ptr(), bytes.len(), buffer.as_mut_ptr(), buffer.len(), &mut said.length) to said.text);
call!(nard_string_from_utf8(text: &[u8], buffer: &mut [u16]) -> Result<usize, Error>
    as (text.as_ptr(), text.len(), buffer.as_mut_ptr(), buffer.len(), &mut said.length, &mut said.fault) to said.text);
call!(nard_string_to_utf8(text: &[u16], buffer: &mut [u8]) -> Result<usize, Error>
    as (text.as_ptr(), text.len(), buffer.as_mut_ptr(), buffer.len(), &mut said.length, &mut said.fault) to said.text);
call!(nard_string_to_utf8_lossy(text: &[u16], buffer: &mut [u8]) -> Result<usize, Error>
    as (text.as_ptr(), text.len(), buffer.as_mut_ptr(), buffer.len(), &mut said.length) to said.text);
call!(nard_string_equal_until_nul(text: &[u16], utf8: &[u8]) -> bool
    as (text.as_ptr(), text.len(), utf8.as_ptr(), utf8.len()));
call!(nard_utf8_is_latin1(text: &[u8]) -> bool
    as (text.as_ptr(), text.len()));
call!(nard_path_check(path: &[u16]) -> Result<usize, Error>
    as (path.as_ptr(), path.len(), &mut said.length, &mut said.fault, &mut said.character) to said.result);
call!(nard_path_equal(first: &[u16], second: &[u16]) -> bool
    as (first.as_ptr(), first.len(), second.as_ptr(), second.len()));
call!(nard_path_compare(first: &[u16], second: &[u16]) -> i32
    as (first.as_ptr(), first.len(), second.as_ptr(), second.len()));
call!(nard_path_equal_ignore_case(first: &[u16], second: &[u16]) -> bool
    as (first.as_ptr(), first.len(), second.as_ptr(), second.len()));
call!(nard_path_matches(path: &[u16], pattern: &[u16]) -> bool
    as (path.as_ptr(), path.len(), pattern.as_ptr(), pattern.len()));
call!(nard_path_next_component(path: &[u16], offset: &mut usize, start: &mut usize, component_length: &mut usize) -> bool
    as (path.as_ptr(), path.len(), offset, start, component_length));
call!(nard_path_file_name(path: &[u16], start: &mut usize) -> bool
    as (path.as_ptr(), path.len(), start));
call!(nard_path_parent_length(path: &[u16], parent_length: &mut usize) -> bool
    as (path.as_ptr(), path.len(), parent_length));
call!(nard_path_push(buffer: &mut [u16], path_length: usize, other: &[u16]) -> Result<usize, Error>
    as (buffer.as_mut_ptr(), buffer.len(), path_length, other.as_ptr(), other.len(), &mut said.length, &mut said.fault) to said.text);
call!(nard_path_join(path: &[u16], other: &[u16], buffer: &mut [u16]) -> Result<usize, Error>
    as (path.as_ptr(), path.len(), other.as_ptr(), other.len(), buffer.as_mut_ptr(), buffer.len(), &mut said.length, &mut said.fault) to said.text);
call!(nard_path_parent(path: &[u16], buffer: &mut [u16]) -> Result<usize, Error>
    as (path.as_ptr(), path.len(), buffer.as_mut_ptr(), buffer.len(), &mut said.length, &mut said.fault) to said.text);
call!(nard_path_normalize_utf16(path: &[u16], buffer: &mut [u16]) -> Result<usize, Error>
    as (path.as_ptr(), path.len(), buffer.as_mut_ptr(), buffer.len(), &mut said.length, &mut said.fault, &mut said.character) to said.text);
call!(nard_path_normalize(path: &[u8], buffer: &mut [u16]) -> Result<usize, Error>
    as (path.as_ptr(), path.len(), buffer.as_mut_ptr(), buffer.len(), &mut said.length, &mut said.fault, &mut said.character) to said.text);
call!(nard_fat_name_check(name: &[u16]) -> Result<usize, Error>
    as (name.as_ptr(), name.len(), &mut said.length, &mut said.fault, &mut said.character) to said.result);
call!(nard_fat_name_equal(first: &[u16], second: &[u16]) -> bool
    as (first.as_ptr(), first.len(), second.as_ptr(), second.len()));
call!(nard_fat_name_is_short(name: &[u16]) -> bool
    as (name.as_ptr(), name.len()));
call!(nard_fat_from_string(text: &[u16], buffer: &mut [u8]) -> Result<usize, Error>
    as (text.as_ptr(), text.len(), buffer.as_mut_ptr(), buffer.len(), &mut said.length) to said.result);
call!(nard_string_from_fat(bytes: &[u8], buffer: &mut [u16]) -> Result<usize, Error>
    as (bytes.as_ptr(), bytes.len(), buffer.as_mut_ptr(), buffer.len(), &mut said.length) to said.text);
call!(nard_device_path_check(path: &[u8]) -> Result<usize, Error>
    as (path.as_ptr(), path.len(), &mut said.length, &mut said.fault) to said.result);
call!(nard_device_path_needs(path: &[u8], offset: &mut usize, needed: &mut usize) -> Result<u32, Error>
    as (path.as_ptr(), path.len(), offset, needed, &mut said.fault) to said.status);
call!(nard_device_path_next_node(path: &[u8], offset: &mut usize, node: &mut DeviceNode) -> Result<u32, Error>
    as (path.as_ptr(), path.len(), offset, node, &mut said.fault) to said.status);
call!(nard_node_number(data: &[u8], field: u32, number: &mut u64) -> u32
    as (data.as_ptr(), data.len(), field, number));
call!(nard_device_path_file_path(path: &[u8], buffer: &mut [u8]) -> Result<usize, Error>
    as (path.as_ptr(), path.len(), buffer.as_mut_ptr(), buffer.len(), &mut said.length, &mut said.fault) to said.text);
call!(nard_device_path_file_path_utf16(path: &[u8], buffer: &mut [u16]) -> Result<usize, Error>
    as (path.as_ptr(), path.len(), buffer.as_mut_ptr(), buffer.len(), &mut said.length, &mut said.fault) to said.text);
call!(nard_device_path_format(path: &[u8], style: u32, buffer: &mut [u8]) -> Result<usize, Error>
    as (path.as_ptr(), path.len(), style, buffer.as_mut_ptr(), buffer.len(), &mut said.length, &mut said.fault) to said.text);
call!(nard_device_path_format_utf16(path: &[u8], style: u32, buffer: &mut [u16]) -> Result<usize, Error>
    as (path.as_ptr(), path.len(), style, buffer.as_mut_ptr(), buffer.len(), &mut said.length, &mut said.fault) to said.text);
call!(nard_node_format(node: &[u8], style: u32, buffer: &mut [u8]) -> Result<usize, Error>
    as (node.as_ptr(), node.len(), style, buffer.as_mut_ptr(), buffer.len(), &mut said.length, &mut said.fault) to said.text);
call!(nard_node_format_utf16(node: &[u8], style: u32, buffer: &mut [u16]) -> Result<usize, Error>
    as (node.as_ptr(), node.len(), style, buffer.as_mut_ptr(), buffer.len(), &mut said.length, &mut said.fault) to said.text);
call!(nard_device_path_parse(text: &[u8], style: u32, buffer: &mut [u8]) -> Result<usize, Error>
    as (text.as_ptr(), text.len(), style, buffer.as_mut_ptr(), buffer.len(), &mut said.length, &mut said.fault) to said.result);
call!(nard_device_path_parse_utf16(text: &[u16], style: u32, buffer: &mut [u8]) -> Result<usize, Error>
    as (text.as_ptr(), text.len(), style, buffer.as_mut_ptr(), buffer.len(), &mut said.length, &mut said.fault) to said.result);
call!(nard_device_path_text_extent(text: &[u8], style: u32) -> Result<usize, Error>
    as (text.as_ptr(), text.len(), style, &mut said.length, &mut said.fault) to said.result);
call!(nard_device_path_explain(text: &[u8], style: u32, buffer: &mut [u8]) -> Result<usize, Error>
    as (text.as_ptr(), text.len(), style, buffer.as_mut_ptr(), buffer.len(), &mut said.length, &mut said.fault) to said.text);
call!(nard_device_path_explain_utf16(text: &[u16], style: u32, buffer: &mut [u16]) -> Result<usize, Error>
    as (text.as_ptr(), text.len(), style, buffer.as_mut_ptr(), buffer.len(), &mut said.length, &mut said.fault) to said.text);
call!(nard_device_path_init(buffer: &mut [u8]) -> Result<usize, Error>
    as (buffer.as_mut_ptr(), buffer.len(), &mut said.length) to said.result);
call!(nard_device_path_push(buffer: &mut [u8], path_size: usize, node_type: u32, data: &[u8]) -> Result<usize, Error>
    as (buffer.as_mut_ptr(), buffer.len(), path_size, node_type, data.as_ptr(), data.len(), &mut said.length, &mut said.fault) to said.result);
call!(nard_device_path_append(buffer: &mut [u8], path_size: usize, other: &[u8]) -> Result<usize, Error>
    as (buffer.as_mut_ptr(), buffer.len(), path_size, other.as_ptr(), other.len(), &mut said.length, &mut said.fault) to said.result);
call!(nard_device_path_push_text(buffer: &mut [u8], path_size: usize, text: &[u8], style: u32) -> Result<usize, Error>
    as (buffer.as_mut_ptr(), buffer.len(), path_size, text.as_ptr(), text.len(), style, &mut said.length, &mut said.fault) to said.result);
call!(nard_device_path_push_text_utf16(buffer: &mut [u8], path_size: usize, text: &[u16], style: u32) -> Result<usize, Error>
    as (buffer.as_mut_ptr(), buffer.len(), path_size, text.as_ptr(), text.len(), style, &mut said.length, &mut said.fault) to said.result);
call!(nard_device_path_strip_prefix(path: &[u8], prefix: &[u8], offset: &mut usize) -> bool
    as (path.as_ptr(), path.len(), prefix.as_ptr(), prefix.len(), offset));
call!(nard_device_path_is_expansion(path: &[u8], form: &[u8]) -> bool
    as (path.as_ptr(), path.len(), form.as_ptr(), form.len()));
call!(nard_load_option_check(option: &[u8], parts: &mut LoadOptionParts) -> Result<u32, Error>
    as (option.as_ptr(), option.len(), parts, &mut said.fault) to said.status);
call!(nard_load_option_write(attributes: u32, description: &[u16], path: &[u8], optional_data: &[u8], buffer: &mut [u8]) -> Result<usize, Error>
    as (attributes, description.as_ptr(), description.len(), path.as_ptr(), path.len(), optional_data.as_ptr(), optional_data.len(), buffer.as_mut_ptr(), buffer.len(), &mut said.length, &mut said.fault) to said.result);
call!(nard_boot_name_read(text: &[u8], kind: &mut u32, number: &mut u16) -> u32
    as (text.as_ptr(), text.len(), kind, number));
call!(nard_boot_name_read_utf16(text: &[u16], kind: &mut u32, number: &mut u16) -> u32
    as (text.as_ptr(), text.len(), kind, number));
call!(nard_boot_name_write(kind: u32, number: u16, buffer: &mut [u8]) -> Result<usize, Error>
    as (kind, number, buffer.as_mut_ptr(), buffer.len(), &mut said.length) to said.text);
call!(nard_boot_name_write_utf16(kind: u32, number: u16, buffer: &mut [u16]) -> Result<usize, Error>
    as (kind, number, buffer.as_mut_ptr(), buffer.len(), &mut said.length) to said.text);
call!(nard_boot_order_read(order: &[u8], index: usize, number: &mut u16) -> u32
    as (order.as_ptr(), order.len(), index, number));
call!(nard_boot_order_insert(order: &mut [u16], count: &mut usize, index: usize, number: u16) -> u32
    as (order.as_mut_ptr(), order.len(), count, index, number));
call!(nard_boot_order_remove(order: &mut [u16], count: &mut usize, number: u16) -> bool
    as (order.as_mut_ptr(), order.len(), count, number));
call!(nard_boot_order_move_to_front(order: &mut [u16], count: &mut usize, number: u16) -> bool
    as (order.as_mut_ptr(), order.len(), count, number));
call!(nard_version() -> u32
    as ());
call!(nard_interface_0_8() -> u32
    as ());
