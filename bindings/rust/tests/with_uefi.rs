//! Conversions from and to the types of the crate `uefi`.
#![cfg(feature = "uefi")]

use nardcorbel::{cstr16, CStr16, CString16, DevicePath, Guid, Path, PathBuf, Reason};
use uefi::proto::device_path::DevicePath as TheirPath;

#[test]
fn strings() {
    let theirs: &uefi::CStr16 = cstr16!("a\u{20ac}").into();
    assert_eq!(theirs.to_u16_slice_with_nul(), [0x61, 0x20ac, 0]);
    let ours: &CStr16 = theirs.into();
    assert_eq!(ours, "a€");
    assert_eq!(
        ours.as_ptr().cast(),
        theirs.to_u16_slice_with_nul().as_ptr()
    );
    let again: &uefi::CStr16 = ours.as_ref();
    assert_eq!(again.to_u16_slice_with_nul(), [0x61, 0x20ac, 0]);
    let owned = uefi::CString16::from(CString16::try_from("ab").unwrap());
    assert_eq!(owned.to_u16_slice_with_nul(), [0x61, 0x62, 0]);
    assert_eq!(CString16::from(owned), "ab");
}

#[test]
fn paths() {
    let theirs: &uefi::CStr16 = cstr16!("EFI/BOOT").into();
    let mut path = PathBuf::new();
    path.push(theirs);
    path.push(theirs);
    assert_eq!(path, r"EFI\BOOT\EFI\BOOT");
    assert_eq!(Path::new(theirs).to_path_buf(), r"EFI\BOOT");
}

#[test]
fn device_paths() {
    let ours: Box<DevicePath> = r"Pci(0x1F,0x2)/\a".parse().unwrap();
    let theirs: &TheirPath = (&*ours).into();
    assert_eq!(std::mem::size_of_val(theirs), ours.as_bytes().len());
    let again: &DevicePath = theirs.try_into().unwrap();
    assert!(std::ptr::eq(again, &*ours));
    // The end node has data.
    let bytes = [1_u8, 1, 6, 0, 2, 0x1f, 0x7f, 0xff, 5, 0, 9];
    // SAFETY: the bytes are nodes.
    let theirs = unsafe { TheirPath::from_ffi_ptr(bytes.as_ptr().cast()) };
    let error = <&DevicePath>::try_from(theirs).unwrap_err();
    assert_eq!((error.reason, error.place), (Reason::EndWithData, 8));
}

#[test]
fn guids() {
    let bytes = *b"0123456789abcdef";
    let theirs = uefi::Guid::from(Guid::from_bytes(bytes));
    assert_eq!(theirs.to_bytes(), bytes);
    let ours: &Guid = (&theirs).into();
    assert_eq!(
        (*ours, Guid::from(theirs)),
        (Guid::from_bytes(bytes), *ours)
    );
}
