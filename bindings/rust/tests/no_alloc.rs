//! Tests of the crate without the feature `alloc`.

use nardcorbel::proto::device_path::build::{self, DevicePathBuilder};
use nardcorbel::{cstr16, guid, CStr16, Error, Path};

/// The displayed text of a long node if there is no memory for it.
fn long(head: &str, data: &str) -> String {
    if cfg!(feature = "alloc") {
        return format!("VenHw(12345678-9ABC-DEF0-1234-56789ABCDEF0,{data})");
    }
    format!("Path(1,4,{head}{data})")
}

#[test]
fn paths() -> Result<(), Error> {
    let (mut joined, mut normal) = ([0; 32], [0; 32]);
    let folder: &Path = Path::new(cstr16!("EFI/.."));
    let path = folder.join_in_buf(Path::new(cstr16!("BOOT")), &mut joined)?;
    assert_eq!(path, r"EFI\..\BOOT");
    assert_eq!(
        path.normalize_in_buf(&mut normal)?.file_name(),
        Some(cstr16!("BOOT"))
    );
    assert!(CStr16::from_str_with_buf("a", &mut normal).is_ok_and(|it| it == "a"));
    Ok(())
}

#[test]
fn texts_of_any_length() -> Result<(), Error> {
    let vendor_guid = guid!("12345678-9abc-def0-1234-56789abcdef0");
    let vendor_defined_data = &[0xab; 600];
    let pci = build::hardware::Pci {
        function: 2,
        device: 0x1f,
    };
    let mut buffer = [0; 1024];
    let path = DevicePathBuilder::with_buf(&mut buffer)
        .push(&pci)?
        .push(&build::hardware::Vendor {
            vendor_guid,
            vendor_defined_data,
        })?
        .push(&build::end::Instance)?
        .push(&pci)?
        .finalize()?;
    let node = long("78563412BC9AF0DE123456789ABCDEF0", &"AB".repeat(600));
    assert_eq!(
        format!("{path}"),
        format!("Pci(0x1F,0x2)/{node},Pci(0x1F,0x2)")
    );
    assert_eq!(format!("{}", path.node_iter().nth(1).unwrap()), node);
    Ok(())
}
