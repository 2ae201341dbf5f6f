//! The parts of which the views of nodes and their builders are made.

use crate::data_types::unaligned_slice::Plain;
use crate::data_types::{Guid, UnalignedSlice};
use crate::proto::device_path::{DeviceSubType, DeviceType};

/// A part of a node's data, which a view returns.
pub(crate) trait Field<'a>: Sized {
    /// The number of bytes of the part, or of each of its items.
    const WIDTH: usize;

    /// Reads it. The data of a view has as many bytes as its kind needs.
    fn read(data: &'a [u8], place: usize) -> Self;
}

/// Returns the type and the sub-type that a constant of [`fields`](crate::fields) has in one number.
pub(crate) const fn full_type(node_type: u16) -> (DeviceType, DeviceSubType) {
    let [kind, sub_type] = node_type.to_be_bytes();
    (DeviceType(kind), DeviceSubType(sub_type))
}

/// A part of a node's data, which a builder writes.
pub(crate) trait Put {
    /// Writes its bytes, in pieces.
    fn bytes(&self, write: &mut dyn FnMut(&[u8]));
}

impl<'a, const N: usize> Field<'a> for [u8; N] {
    const WIDTH: usize = N;

    fn read(data: &'a [u8], place: usize) -> Self {
        let mut bytes = [0; N];
        bytes.copy_from_slice(&data[place..place + N]);
        bytes
    }
}

impl<const N: usize> Put for [u8; N] {
    fn bytes(&self, write: &mut dyn FnMut(&[u8])) {
        write(self);
    }
}

impl<'a, const N: usize> Field<'a> for Option<[u8; N]> {
    const WIDTH: usize = N;

    fn read(data: &'a [u8], place: usize) -> Self {
        data.get(place..place + N)?.try_into().ok()
    }
}

impl<const N: usize> Put for Option<[u8; N]> {
    fn bytes(&self, write: &mut dyn FnMut(&[u8])) {
        self.iter().for_each(|it| write(it));
    }
}

impl<'a> Field<'a> for &'a [u8] {
    const WIDTH: usize = 0;

    fn read(data: &'a [u8], place: usize) -> Self {
        data.get(place..).unwrap_or_default()
    }
}

impl<'a, T: Plain> Field<'a> for UnalignedSlice<'a, T> {
    const WIDTH: usize = size_of::<T>();

    fn read(data: &'a [u8], place: usize) -> Self {
        Self::of_bytes(data.get(place..).unwrap_or_default())
    }
}

impl<const N: usize> Put for &[[u8; N]] {
    fn bytes(&self, write: &mut dyn FnMut(&[u8])) {
        write(self.as_flattened());
    }
}

macro_rules! numbers {
    ($($number:ty)*) => {$(
        impl<'a> Field<'a> for $number {
            const WIDTH: usize = size_of::<$number>();

            fn read(data: &'a [u8], place: usize) -> Self {
                Self::from_le_bytes(Field::read(data, place))
            }
        }

        impl Put for $number {
            fn bytes(&self, write: &mut dyn FnMut(&[u8])) {
                write(&self.to_le_bytes());
            }
        }

        impl Put for &[$number] {
            fn bytes(&self, write: &mut dyn FnMut(&[u8])) {
                self.iter().for_each(|it| it.bytes(write));
            }
        }
    )*};
}
numbers!(u8 u16 u32 u64);

impl<'a> Field<'a> for Guid {
    const WIDTH: usize = 16;

    fn read(data: &'a [u8], place: usize) -> Self {
        Self::from_bytes(Field::read(data, place))
    }
}

impl Put for Guid {
    fn bytes(&self, write: &mut dyn FnMut(&[u8])) {
        write(&self.to_bytes());
    }
}

/// Defines a number of a node with names for some of its values.
macro_rules! named {
    ($(#[$about:meta])* $name:ident($inner:ty) { $($value:ident = $number:expr;)* }) => {
        $(#[$about])*
        #[doc = concat!("\n```no_run\nuse ", module_path!(), "::", stringify!($name), ";\n\nlet known = [")]
        $(#[doc = concat!("    ", stringify!($name), "::", stringify!($value), ",")])*
        #[doc = "];\nprintln!(\"{known:?}\");\n```"]
        #[derive(Clone, Copy, Debug, PartialEq, Eq, PartialOrd, Ord, Hash)]
        #[repr(transparent)]
        pub struct $name(pub $inner);

        #[allow(missing_docs)]
        impl $name {
            $(pub const $value: Self = Self($number);)*
        }

        impl<'a> $crate::proto::device_path::node_fields::Field<'a> for $name {
            const WIDTH: usize = size_of::<$inner>();

            fn read(data: &'a [u8], place: usize) -> Self {
                Self($crate::proto::device_path::node_fields::Field::read(data, place))
            }
        }

        impl $crate::proto::device_path::node_fields::Put for $name {
            fn bytes(&self, write: &mut dyn FnMut(&[u8])) {
                self.0.bytes(write);
            }
        }
    };
}
pub(crate) use named;

/// Defines the view of a kind of node: its type and sub-type, and how many bytes of data it needs.
macro_rules! view {
    ($(#[$about:meta])* $name:ident: $kind:expr, $least:literal) => {
        $(#[$about])*
        #[doc = concat!(
            "\n```no_run\nuse nardcorbel::proto::device_path::DevicePathNode;\nuse ", module_path!(), "::", stringify!($name),
            ";\n\nfn view(node: &DevicePathNode) -> Option<&", stringify!($name), "> {\n    node.try_into().ok()\n}\n```"
        )]
        #[derive(Debug, PartialEq, Eq, Hash)]
        #[repr(transparent)]
        pub struct $name($crate::proto::device_path::DevicePathNode);

        impl<'a> TryFrom<&'a $crate::proto::device_path::DevicePathNode> for &'a $name {
            type Error = $crate::proto::device_path::NodeConversionError;

            fn try_from(node: &'a $crate::proto::device_path::DevicePathNode) -> Result<Self, Self::Error> {
                node.check_kind($kind, $least)?;
                // SAFETY: the view is a transparent wrapper.
                Ok(unsafe { &*(core::ptr::from_ref(node) as *const $name) })
            }
        }

        impl AsRef<$crate::proto::device_path::DevicePathNode> for $name {
            fn as_ref(&self) -> &$crate::proto::device_path::DevicePathNode {
                &self.0
            }
        }

        impl core::fmt::Display for $name {
            fn fmt(&self, f: &mut core::fmt::Formatter<'_>) -> core::fmt::Result {
                self.0.fmt(f)
            }
        }
    };
}
pub(crate) use view;

/// Defines views of nodes, with a call for each field, and structs of the same fields that build the nodes. The constants of
/// [`fields`](crate::fields) have the offsets of the fields.
macro_rules! views {
    ($($(#[$about:meta])* $name:ident[$($life:lifetime)?]: $kind:ident, $least:literal {
        $($(#[$field_about:meta])* $field:ident: $type:ty $(| $built:ty)? = $place:ident;)*
    })*) => {
        $(
            $crate::proto::device_path::node_fields::view! {
                $(#[$about])*
                $name: $crate::fields::$kind, $least
            }

            #[allow(clippy::needless_lifetimes)]
            impl $name {
                $(
                    $(#[$field_about])*
                    #[doc = concat!(
                        "\n```no_run\nuse ", module_path!(), "::", stringify!($name), ";\n\nfn print(node: &", stringify!($name),
                        ") {\n    println!(\"{:?}\", node.", stringify!($field), "());\n}\n```"
                    )]
                    #[must_use]
                    pub fn $field<'a>(&'a self) -> $type {
                        const {
                            let width = $crate::fields::size($crate::fields::$place);
                            assert!(width == 0 || width == <$type as $crate::proto::device_path::node_fields::Field>::WIDTH);
                        }
                        $crate::proto::device_path::node_fields::Field::read(self.0.data(), $crate::fields::offset($crate::fields::$place))
                    }
                )*
            }
        )*

        /// Structs that build the nodes.
        pub mod build {
            #[allow(unused_imports)]
            use super::*;
            use $crate::proto::device_path::node_fields::{built, full_type, Put};
            use $crate::proto::device_path::{BuildNode, DeviceSubType, DeviceType};

            $(
                $(#[$about])*
                #[doc = concat!(
                    "\n```no_run\nuse nardcorbel::proto::device_path::build::{BuildError, DevicePathBuilder};\nuse ", module_path!(), "::",
                    stringify!($name), ";\n\nfn add<'a>(path: DevicePathBuilder<'a>, node: &", stringify!($name),
                    ") -> Result<DevicePathBuilder<'a>, BuildError> {\n    path.push(node)\n}\n```"
                )]
                #[derive(Clone, Copy, Debug, PartialEq, Eq)]
                pub struct $name<$($life)?> {
                    $($(#[$field_about])* pub $field: built!($type $(; $built)?),)*
                }

                impl<$($life)?> BuildNode for $name<$($life)?> {
                    fn full_type(&self) -> (DeviceType, DeviceSubType) {
                        full_type($crate::fields::$kind)
                    }

                    fn parts(&self, write: &mut dyn FnMut(usize, &[u8])) {
                        // Bytes that belong to no field are zero.
                        write($least, &[]);
                        $(
                            let mut place = $crate::fields::offset($crate::fields::$place);
                            self.$field.bytes(&mut |bytes| {
                                write(place, bytes);
                                place += bytes.len();
                            });
                        )*
                    }
                }
            )*
        }
    };
}
pub(crate) use views;

/// The type of a field of a builder.
macro_rules! built {
    ($type:ty) => {
        $type
    };
    ($type:ty; $built:ty) => {
        $built
    };
}
pub(crate) use built;
