#![doc = include_str!("../README.md")]
#![no_std]
#![warn(missing_docs, clippy::undocumented_unsafe_blocks)]

#[cfg(feature = "alloc")]
extern crate alloc;
#[cfg(test)]
extern crate std;

#[cfg(test)]
mod beside;
#[cfg(doctest)]
#[doc = include_str!("../tests/misuses.md")]
mod misuses {}
mod boot_variables;
pub mod data_types;
mod error;
#[allow(missing_docs)]
#[rustfmt::skip]
pub mod fields;
pub mod fs;
pub mod proto;
#[allow(missing_docs)]
#[rustfmt::skip]
mod sys;
#[cfg(feature = "uefi")]
pub mod with_uefi;

pub use boot_variables::{
    order_numbers, LoadOptionKind, LoadOptionName, OrderBuffer, OrderNumbers,
};
#[cfg(feature = "alloc")]
pub use data_types::CString16;
pub use data_types::{str_from_units_lossy, CStr16, CStr8, Char16, Char8, Guid, Shown};
pub use error::{Error, Reason};
#[cfg(feature = "alloc")]
pub use fs::PathBuf;
pub use fs::{Component, Components, Path};
pub use proto::device_path::{DevicePath, DevicePathNode, LoadOption};

/// The items that most programs use.
pub mod prelude {
    pub use crate::{char16, cstr16, cstr8, guid, CStr16, CStr8, Char16, Char8};
}
