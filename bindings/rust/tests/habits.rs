//! Lines as authors of Rust write them, who know `std::path`, `camino` or the crate `uefi`.
#![cfg(feature = "alloc")]

use nardcorbel::proto::device_path::build::{self, DevicePathBuilder};
use nardcorbel::proto::device_path::{
    AllowShortcuts, DevicePathInstance, DevicePathNodeEnum, DisplayOnly,
};
use nardcorbel::{char16, cstr16, CString16, DevicePath, OrderBuffer, Path, PathBuf};
use std::collections::{BTreeSet, HashMap};
use std::error::Error;
use std::fmt::Write;

#[test]
fn strings_and_paths() -> Result<(), Box<dyn Error>> {
    let path = PathBuf::try_from(r"EFI\BOOT")?; // 1
    let parsed = "EFI/BOOT".parse::<PathBuf>()?; // 2
    assert!(path == r"EFI\BOOT" && path == parsed); // 3
    let file = path.join("BOOTX64.EFI")?; // 4
    let mut names = vec![];
    for component in &file {
        names.push(format!("{component}")); // 5
    }
    assert_eq!(names.join(" > "), "EFI > BOOT > BOOTX64.EFI");
    let name = file.file_name().unwrap();
    assert_eq!(format!("{}", name), "BOOTX64.EFI"); // 6
    let mut copy = file.parent().unwrap();
    copy.push("grub.cfg")?; // 7
    assert_eq!(copy.to_string(), r"EFI\BOOT\grub.cfg"); // 8
    let text: String = file
        .iter()
        .rev()
        .map(|it| it.to_string().to_lowercase())
        .collect(); // 9
    assert_eq!(text, "bootx64.efibootefi");
    let seen: HashMap<PathBuf, u32> = [(file, 1)].into(); // 10
    assert_eq!(
        seen.get(Path::new(cstr16!(r"\EFI\BOOT\BOOTX64.EFI"))),
        Some(&1)
    );
    assert_eq!(
        format!("{:<10}|", CString16::try_from("debian")?.to_string()),
        "debian    |"
    ); // 11
    Ok(())
}

#[test]
fn orders_and_device_paths() -> Result<(), Box<dyn Error>> {
    let mut places = [0; 8];
    let mut order = OrderBuffer::from_order(&mut places, &[1, 0, 0, 0])?; // 12
    order.push(0x1f)?; // 13
    assert!(order.len() == 3 && order.contains(&0x1f)); // 14
    let mut buffer = [0; 128];
    let path = DevicePathBuilder::with_buf(&mut buffer)
        .push(&build::messaging::Sata {
            hba_port_number: 1,
            port_multiplier_port_number: 0xffff,
            logical_unit_number: 0,
        })?
        .push(&build::media::FilePath {
            path_name: cstr16!(r"\a.efi"),
        })?
        .finalize()?; // 15
    let nodes: Vec<String> = path.node_iter().map(|node| format!("{node}")).collect();
    assert_eq!(
        (format!("{path}"), nodes.join("/")),
        (nodes.join("/"), r"Sata(0x1,0xFFFF,0x0)/\a.efi".into())
    ); // 16
    Ok(())
}

#[test]
fn refusals() {
    let refusals: [Box<dyn Error>; 4] = [
        r"a\b😀".parse::<PathBuf>().unwrap_err().into(),
        "a:b"
            .parse::<PathBuf>()
            .unwrap()
            .validate()
            .unwrap_err()
            .into(),
        DevicePath::from_bytes(&[1, 1, 3, 0]).unwrap_err().into(),
        CString16::try_from("a\0").unwrap_err().into(),
    ];
    let sentences = [
        "invalid character at index 3: '😀'",
        "path contains an illegal character (value 58) at index 1: ':'",
        "device path node is shorter than its header at offset 2",
        "UCS-2 Conversion Error: Interior null terminator",
    ];
    assert!(refusals.iter().map(|it| it.to_string()).eq(sentences)); // 17
}

#[test]
fn names_and_parts() -> Result<(), Box<dyn Error>> {
    let path = Path::new(cstr16!(r"\EFI\debian\shimx64.efi"));
    assert_eq!(path.extension(), Some(cstr16!("efi"))); // 18
    assert_eq!(path.file_stem().unwrap(), "shimx64"); // 19
    assert!(path.starts_with(cstr16!(r"\EFI"))); // 20
    let rest = path.strip_prefix(cstr16!("EFI")).unwrap(); // 21
    assert_eq!(
        rest.map(|it| it.to_string()).collect::<Vec<_>>(), // 22
        ["debian", "shimx64.efi"]
    );
    let names: Vec<String> = path.components().map(|it| format!("{it}")).collect(); // 23
    assert_eq!(names.join("/"), "EFI/debian/shimx64.efi");
    let mut string = CString16::new();
    for component in path.components() {
        string.extend(component); // 24
        string.push(char16!('.')); // 25
    }
    write!(string, "{}", 4)?; // 26
    assert_eq!(string.len(), 24); // 27
    assert!(string.to_string().ends_with("efi.4")); // 28
    let sorted: BTreeSet<PathBuf> = ["b", r"\a", "c"]
        .into_iter()
        .map(str::parse)
        .collect::<Result<_, _>>()?; // 29
    assert_eq!(sorted.first().unwrap(), "a"); // 30
    let parents: Vec<PathBuf> = std::iter::successors(path.parent(), |it| it.parent()).collect(); // 31
    assert_eq!(parents, [r"EFI\debian", "EFI"]);
    let joined: PathBuf = [cstr16!("a"), cstr16!("b")].into_iter().collect(); // 32
    assert!(matches!(joined.file_name(), Some(it) if it == "b")); // 33
    Ok(())
}

#[test]
fn device_paths_and_files() -> Result<(), Box<dyn Error>> {
    let file = "/EFI/debian/../BOOT/a.efi"
        .parse::<PathBuf>()?
        .normalize()?;
    let mut bytes = Vec::new();
    let path = DevicePathBuilder::with_vec(&mut bytes)
        .push(&build::acpi::Expanded {
            hid: 0,
            uid: 0,
            cid: 0,
            hid_str: b"PNP0A08\0",
            uid_str: b"0\0",
            cid_str: b"\0",
        })? // 34
        .push(&build::media::FilePath {
            path_name: file.with_root().to_cstr16(),
        })? // 35
        .push(&build::end::Entire)? // 36
        .finalize()?;
    let text = path.to_string(DisplayOnly(false), AllowShortcuts(false))?; // 37
    let again: Box<DevicePath> = text.to_string().parse()?; // 38
    assert_eq!(again.file_path()?.normalize()?, file);
    let kept: Vec<Box<DevicePathInstance>> = path.instance_iter().map(|it| it.to_boxed()).collect(); // 39
    assert_eq!(kept[0].as_bytes(), path.as_bytes());
    match path.node_iter().nth(1).unwrap().as_enum()? {
        DevicePathNodeEnum::MediaFilePath(name) => {
            let name = name.path_name().to_cstring16()?; // 40
            assert_eq!(Path::new(&name), &*file);
        }
        other => panic!("{other:?}"),
    }
    Ok(())
}
