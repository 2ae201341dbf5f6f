#![doc = include_str!("../README.md")]
#![no_std]
#![allow(non_camel_case_types)]
#![cfg_attr(rustfmt, rustfmt::skip)]

// Made from `nardcorbel.h` by `make-sys`: the header says what each item is.

pub const NARD_OK: u32 = 0;
pub const NARD_NO_NUL: u32 = 1;
pub const NARD_INVALID_CHAR: u32 = 2;
pub const NARD_INTERIOR_NUL: u32 = 3;
pub const NARD_BUFFER_TOO_SMALL: u32 = 4;
pub const NARD_NOT_UTF8: u32 = 5;
pub const NARD_ODD_BYTES: u32 = 6;
pub const NARD_PATH_EMPTY: u32 = 7;
pub const NARD_EMPTY_COMPONENT: u32 = 8;
pub const NARD_ILLEGAL_CHAR: u32 = 9;
pub const NARD_CLIMBS_ABOVE_ROOT: u32 = 10;
pub const NARD_NO_PARENT: u32 = 11;
pub const NARD_NO_END_NODE: u32 = 12;
pub const NARD_TRUNCATED_HEADER: u32 = 13;
pub const NARD_UNKNOWN_END: u32 = 14;
pub const NARD_LENGTH_BELOW_HEADER: u32 = 15;
pub const NARD_END_WITH_DATA: u32 = 16;
pub const NARD_NODE_BEYOND_END: u32 = 17;
pub const NARD_OPTION_TOO_SHORT: u32 = 18;
pub const NARD_DESCRIPTION_WITHOUT_END: u32 = 19;
pub const NARD_LIST_BEYOND_END: u32 = 20;
pub const NARD_EMPTY_LIST: u32 = 21;
pub const NARD_UNKNOWN_STYLE: u32 = 22;
pub const NARD_NAME_EMPTY: u32 = 23;
pub const NARD_NAME_TOO_LONG: u32 = 24;
pub const NARD_NODE_OF_END: u32 = 26;
pub const NARD_NODE_TOO_LONG: u32 = 27;
pub const NARD_LIST_TOO_LONG: u32 = 28;
pub const NARD_NOT_A_NAME: u32 = 29;
pub const NARD_NO_NODE: u32 = 31;
pub const NARD_NO_FIELD: u32 = 32;
pub const NARD_END: u32 = 256;
pub const NARD_CHAR_REPLACED: u32 = 257;
pub const NARD_STYLE_UEFI: u32 = 0;
pub const NARD_STYLE_TYPED: u32 = 1;
pub const NARD_STYLE_LIBEFIVAR: u32 = 2;
pub const NARD_DISPLAY_ONLY: u32 = 16;
pub const NARD_ALLOW_SHORTCUTS: u32 = 32;
pub const NARD_BOOT: u32 = 0;
pub const NARD_DRIVER: u32 = 1;
pub const NARD_SYS_PREP: u32 = 2;
pub const NARD_PLATFORM_RECOVERY: u32 = 3;
pub const NARD_NUL_TERMINATED: usize = usize::MAX;

#[repr(C)]
#[derive(Clone, Copy, Debug, Default)]
pub struct nard_device_node {
    pub node_type: u32,
    pub data_offset: usize,
    pub data_size: usize,
}

#[repr(C)]
#[derive(Clone, Copy, Debug, Default)]
pub struct nard_load_option_parts {
    pub attributes: u32,
    pub description_offset: usize,
    pub description_length: usize,
    pub path_list_offset: usize,
    pub path_list_size: usize,
    pub first_path_size: usize,
    pub optional_data_offset: usize,
    pub optional_data_size: usize,
}

extern "C" {
    pub fn nard_string_check(text: *const u16, text_length: usize, length: *mut usize, fault: *mut usize) -> u32;
    pub fn nard_string_length(text: *const u16, text_length: usize, length: *mut usize, fault: *mut usize) -> u32;
    pub fn nard_string_equal(first: *const u16, first_length: usize, second: *const u16, second_length: usize) -> bool;
    pub fn nard_string_compare(first: *const u16, first_length: usize, second: *const u16, second_length: usize) -> i32;
    pub fn nard_string_is_ascii(text: *const u16, text_length: usize) -> bool;
    pub fn nard_string_equal_ignore_case(first: *const u16, first_length: usize, second: *const u16, second_length: usize) -> bool;
    pub fn nard_string_compare_ignore_case(first: *const u16, first_length: usize, second: *const u16, second_length: usize) -> i32;
    pub fn nard_string_make_uppercase(buffer: *mut u16, capacity: usize) -> usize;
    pub fn nard_string_make_lowercase(buffer: *mut u16, capacity: usize) -> usize;
    pub fn nard_string_matches(text: *const u16, text_length: usize, pattern: *const u16, pattern_length: usize) -> bool;
    pub fn nard_units_from_bytes(bytes: *const u8, bytes_size: usize, buffer: *mut u16, capacity: usize, length: *mut usize) -> u32;
    pub fn nard_packed_length(bytes: *const u8, bytes_size: usize, length: *mut usize) -> u32;
    pub fn nard_packed_escape(bytes: *const u8, bytes_size: usize, buffer: *mut u8, capacity: usize, size: *mut usize) -> u32;
    pub fn nard_string_from_utf8(text: *const u8, text_size: usize, buffer: *mut u16, capacity: usize, length: *mut usize, fault: *mut usize) -> u32;
    pub fn nard_string_to_utf8(text: *const u16, text_length: usize, buffer: *mut u8, capacity: usize, size: *mut usize, fault: *mut usize) -> u32;
    pub fn nard_string_to_utf8_lossy(text: *const u16, text_length: usize, buffer: *mut u8, capacity: usize, size: *mut usize) -> u32;
    pub fn nard_string_equal_until_nul(text: *const u16, text_length: usize, utf8: *const u8, utf8_size: usize) -> bool;
    pub fn nard_utf8_is_latin1(text: *const u8, text_size: usize) -> bool;
    pub fn nard_path_check(path: *const u16, path_length: usize, length: *mut usize, fault: *mut usize, character: *mut u16) -> u32;
    pub fn nard_path_equal(first: *const u16, first_length: usize, second: *const u16, second_length: usize) -> bool;
    pub fn nard_path_compare(first: *const u16, first_length: usize, second: *const u16, second_length: usize) -> i32;
    pub fn nard_path_equal_ignore_case(first: *const u16, first_length: usize, second: *const u16, second_length: usize) -> bool;
    pub fn nard_path_matches(path: *const u16, path_length: usize, pattern: *const u16, pattern_length: usize) -> bool;
    pub fn nard_path_next_component(path: *const u16, path_length: usize, offset: *mut usize, start: *mut usize, component_length: *mut usize) -> bool;
    pub fn nard_path_file_name(path: *const u16, path_length: usize, start: *mut usize) -> bool;
    pub fn nard_path_parent_length(path: *const u16, path_length: usize, parent_length: *mut usize) -> bool;
    pub fn nard_path_push(buffer: *mut u16, capacity: usize, path_length: usize, other: *const u16, other_length: usize, length: *mut usize, fault: *mut usize) -> u32;
    pub fn nard_path_join(path: *const u16, path_length: usize, other: *const u16, other_length: usize, buffer: *mut u16, capacity: usize, length: *mut usize, fault: *mut usize) -> u32;
    pub fn nard_path_parent(path: *const u16, path_length: usize, buffer: *mut u16, capacity: usize, length: *mut usize, fault: *mut usize) -> u32;
    pub fn nard_path_normalize_utf16(path: *const u16, path_length: usize, buffer: *mut u16, capacity: usize, length: *mut usize, fault: *mut usize, character: *mut u16) -> u32;
    pub fn nard_path_normalize(path: *const u8, path_size: usize, buffer: *mut u16, capacity: usize, length: *mut usize, fault: *mut usize, character: *mut u16) -> u32;
    pub fn nard_fat_name_check(name: *const u16, name_length: usize, length: *mut usize, fault: *mut usize, character: *mut u16) -> u32;
    pub fn nard_fat_name_equal(first: *const u16, first_length: usize, second: *const u16, second_length: usize) -> bool;
    pub fn nard_fat_name_is_short(name: *const u16, name_length: usize) -> bool;
    pub fn nard_fat_from_string(text: *const u16, text_length: usize, buffer: *mut u8, capacity: usize, size: *mut usize) -> u32;
    pub fn nard_string_from_fat(bytes: *const u8, bytes_size: usize, buffer: *mut u16, capacity: usize, length: *mut usize) -> u32;
    pub fn nard_device_path_check(path: *const u8, path_size: usize, size: *mut usize, fault: *mut usize) -> u32;
    pub fn nard_device_path_needs(path: *const u8, path_size: usize, offset: *mut usize, needed: *mut usize, fault: *mut usize) -> u32;
    pub fn nard_device_path_next_node(path: *const u8, path_size: usize, offset: *mut usize, node: *mut nard_device_node, fault: *mut usize) -> u32;
    pub fn nard_node_number(data: *const u8, data_size: usize, field: u32, number: *mut u64) -> u32;
    pub fn nard_device_path_file_path(path: *const u8, path_size: usize, buffer: *mut u8, capacity: usize, size: *mut usize, fault: *mut usize) -> u32;
    pub fn nard_device_path_file_path_utf16(path: *const u8, path_size: usize, buffer: *mut u16, capacity: usize, length: *mut usize, fault: *mut usize) -> u32;
    pub fn nard_device_path_format(path: *const u8, path_size: usize, style: u32, buffer: *mut u8, capacity: usize, size: *mut usize, fault: *mut usize) -> u32;
    pub fn nard_device_path_format_utf16(path: *const u8, path_size: usize, style: u32, buffer: *mut u16, capacity: usize, length: *mut usize, fault: *mut usize) -> u32;
    pub fn nard_node_format(node: *const u8, node_size: usize, style: u32, buffer: *mut u8, capacity: usize, size: *mut usize, fault: *mut usize) -> u32;
    pub fn nard_node_format_utf16(node: *const u8, node_size: usize, style: u32, buffer: *mut u16, capacity: usize, length: *mut usize, fault: *mut usize) -> u32;
    pub fn nard_device_path_parse(text: *const u8, text_size: usize, style: u32, buffer: *mut u8, capacity: usize, size: *mut usize, fault: *mut usize) -> u32;
    pub fn nard_device_path_parse_utf16(text: *const u16, text_length: usize, style: u32, buffer: *mut u8, capacity: usize, size: *mut usize, fault: *mut usize) -> u32;
    pub fn nard_device_path_text_extent(text: *const u8, text_size: usize, style: u32, size: *mut usize, fault: *mut usize) -> u32;
    pub fn nard_device_path_explain(text: *const u8, text_size: usize, style: u32, buffer: *mut u8, capacity: usize, size: *mut usize, fault: *mut usize) -> u32;
    pub fn nard_device_path_explain_utf16(text: *const u16, text_length: usize, style: u32, buffer: *mut u16, capacity: usize, length: *mut usize, fault: *mut usize) -> u32;
    pub fn nard_device_path_init(buffer: *mut u8, capacity: usize, size: *mut usize) -> u32;
    pub fn nard_device_path_push(buffer: *mut u8, capacity: usize, path_size: usize, node_type: u32, data: *const u8, data_size: usize, size: *mut usize, fault: *mut usize) -> u32;
    pub fn nard_device_path_append(buffer: *mut u8, capacity: usize, path_size: usize, other: *const u8, other_size: usize, size: *mut usize, fault: *mut usize) -> u32;
    pub fn nard_device_path_push_text(buffer: *mut u8, capacity: usize, path_size: usize, text: *const u8, text_size: usize, style: u32, size: *mut usize, fault: *mut usize) -> u32;
    pub fn nard_device_path_push_text_utf16(buffer: *mut u8, capacity: usize, path_size: usize, text: *const u16, text_length: usize, style: u32, size: *mut usize, fault: *mut usize) -> u32;
    pub fn nard_device_path_strip_prefix(path: *const u8, path_size: usize, prefix: *const u8, prefix_size: usize, offset: *mut usize) -> bool;
    pub fn nard_device_path_is_expansion(path: *const u8, path_size: usize, form: *const u8, form_size: usize) -> bool;
    pub fn nard_load_option_check(option: *const u8, option_size: usize, parts: *mut nard_load_option_parts, fault: *mut usize) -> u32;
    pub fn nard_load_option_write(attributes: u32, description: *const u16, description_length: usize, path: *const u8, path_size: usize, optional_data: *const u8, optional_data_size: usize, buffer: *mut u8, capacity: usize, size: *mut usize, fault: *mut usize) -> u32;
    pub fn nard_boot_name_read(text: *const u8, text_size: usize, kind: *mut u32, number: *mut u16) -> u32;
    pub fn nard_boot_name_read_utf16(text: *const u16, text_length: usize, kind: *mut u32, number: *mut u16) -> u32;
    pub fn nard_boot_name_write(kind: u32, number: u16, buffer: *mut u8, capacity: usize, size: *mut usize) -> u32;
    pub fn nard_boot_name_write_utf16(kind: u32, number: u16, buffer: *mut u16, capacity: usize, length: *mut usize) -> u32;
    pub fn nard_boot_order_read(order: *const u8, order_size: usize, index: usize, number: *mut u16) -> u32;
    pub fn nard_boot_order_insert(order: *mut u16, capacity: usize, count: *mut usize, index: usize, number: u16) -> u32;
    pub fn nard_boot_order_remove(order: *mut u16, capacity: usize, count: *mut usize, number: u16) -> bool;
    pub fn nard_boot_order_move_to_front(order: *mut u16, capacity: usize, count: *mut usize, number: u16) -> bool;
    pub fn nard_version() -> u32;
    pub fn nard_interface_0_8() -> u32;
}

/// Refers to the interface of these declarations, so that no program links with a library of another one.
#[used]
static INTERFACE: unsafe extern "C" fn() -> u32 = nard_interface_0_8;
