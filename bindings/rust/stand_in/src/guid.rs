//! GUIDs, which have the alignment of their first number.

/// A GUID.
#[derive(Clone, Copy, Debug, PartialEq, Eq)]
#[repr(C)]
pub struct Guid(u32, [u8; 12]);

impl Guid {
    /// Creates a GUID from the bytes that firmware stores.
    pub const fn from_bytes(bytes: [u8; 16]) -> Self {
        let (first, mut rest, mut index) = ([bytes[0], bytes[1], bytes[2], bytes[3]], [0; 12], 0);
        while index < 12 {
            rest[index] = bytes[index + 4];
            index += 1;
        }
        Self(u32::from_le_bytes(first), rest)
    }

    /// Returns the bytes that firmware stores.
    pub const fn to_bytes(self) -> [u8; 16] {
        let ([a, b, c, d], [e, f, g, h, i, j, k, l, m, n, o, p]) = (self.0.to_le_bytes(), self.1);
        [a, b, c, d, e, f, g, h, i, j, k, l, m, n, o, p]
    }
}
