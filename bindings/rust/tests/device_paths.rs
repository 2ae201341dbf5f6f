//! Device paths: read, built, displayed and compared, and load options.
#![cfg(feature = "alloc")]

use nardcorbel::proto::device_path::{
    build, end, hardware, AllowShortcuts, BuildError, BuildNode, DevicePath, DevicePathHeader,
    DevicePathInstance, DevicePathNode, DeviceSubType, DeviceType, DisplayOnly, LoadOption,
    NodeConversionError,
};
use nardcorbel::{cstr16, fields, guid, Error, Guid, Reason};

const GUID: Guid = guid!("12345678-9abc-def0-1234-56789abcdef0");

/// A PCI device, and the file `\a` on it.
const PATH: &[u8] = &[
    1, 1, 6, 0, 2, 0x1f, 4, 4, 10, 0, 0x5c, 0, 0x61, 0, 0, 0, 0x7f, 0xff, 4, 0,
];

#[test]
fn nodes() {
    let node = <&DevicePathNode>::try_from(PATH).unwrap();
    assert_eq!(
        node.full_type(),
        (DeviceType::HARDWARE, DeviceSubType::HARDWARE_PCI)
    );
    assert_eq!(
        (node.device_type(), node.sub_type(), node.length()),
        (DeviceType(1), DeviceSubType(1), 6)
    );
    assert_eq!(
        (node.data(), node.as_bytes(), node.is_end_entire()),
        (&[2, 0x1f][..], &PATH[..6], false)
    );
    assert!(node.is(fields::PCI) && !node.is(fields::ACPI));
    assert_eq!(
        (
            node.number(fields::PCI_DEVICE),
            node.number(fields::ACPI_UID)
        ),
        (Some(0x1f), None)
    );
    assert_eq!(
        (node.bytes(fields::PCI_DEVICE), node.bytes(fields::ACPI_UID)),
        (Some(&[0x1f][..]), None)
    );
    assert_eq!(
        <&hardware::Pci>::try_from(node).map(|it| it.to_string()),
        Ok("Pci(0x1F,0x2)".to_string())
    );
    assert_eq!(
        <&hardware::Bmc>::try_from(node).err(),
        Some(NodeConversionError::DifferentType)
    );
    let short = <&DevicePathNode>::try_from(&[1, 1, 5, 0, 2][..]).unwrap();
    assert_eq!(short.as_enum(), Err(NodeConversionError::InvalidLength));
    let lamp = <&DevicePathNode>::try_from(&[3, 40, 4, 0][..]).unwrap();
    assert_eq!(lamp.as_enum(), Err(NodeConversionError::UnsupportedType));
    let end = <&DevicePathNode>::try_from(&PATH[16..]).unwrap();
    assert!(end.is_end_entire() && <&end::Entire>::try_from(end).is_ok());
    let error = <&DevicePathNode>::try_from(&[1, 1, 3, 0][..]).unwrap_err();
    assert_eq!((error.reason, error.place), (Reason::LengthBelowHeader, 2));
    // A field without a width is all that follows its place.
    let vendor = [&[1, 4, 22, 0][..], &[7; 16], &[8, 9]].concat();
    let vendor = <&DevicePathNode>::try_from(&vendor[..]).unwrap();
    let field = fields::HARDWARE_VENDOR_VENDOR_DEFINED_DATA;
    assert_eq!(
        (vendor.bytes(field), vendor.number(field)),
        (Some(&[8, 9][..]), None)
    );
}

#[test]
fn paths() -> Result<(), Error> {
    let path = <&DevicePath>::try_from(&[PATH, &[9]].concat()[..])?.to_owned();
    assert_eq!((path.as_bytes(), path.clone()), (PATH, path.to_boxed()));
    assert_eq!(format!("{path}"), r"Pci(0x1F,0x2)/\a");
    assert_eq!(
        path.to_text(DisplayOnly(true), AllowShortcuts(true)),
        r"Pci(0x1F,0x2)/\a"
    );
    assert_eq!(format!("{path:?}"), r"DevicePath(Pci(0x1F,0x2)/\a)");
    assert_eq!(path.file_path()?, r"\a");
    let lengths: Vec<_> = path.into_iter().map(|it| it.length()).collect();
    assert_eq!(lengths, [6, 10]);
    let [device, file] = ["Pci(0x1F,0x2)", r"\a"].map(|it| it.parse::<Box<DevicePath>>().unwrap());
    assert_eq!(device.append_path(&file)?, path);
    assert_eq!(device.append_node(file.node_iter().next().unwrap())?, path);
    assert_eq!(path.strip_prefix(&device), Some(&*file));
    assert_eq!(path.strip_prefix(&file), None);
    assert!(path.is_expansion_of(&file) && !path.is_expansion_of(&device));
    // SAFETY: there is a whole path.
    assert_eq!(
        unsafe { DevicePath::from_ffi_ptr(path.as_ffi_ptr()) },
        &*path
    );
    for limit in 0..=PATH.len() {
        let bytes = PATH[..limit].to_vec();
        // SAFETY: `limit` bytes can be read.
        let found = unsafe { DevicePath::try_from_ffi_ptr(bytes.as_ptr().cast(), limit) };
        assert_eq!(found, DevicePath::from_bytes(&bytes));
    }
    let error = DevicePath::from_bytes(&PATH[..18]).unwrap_err();
    assert_eq!((error.reason, error.place), (Reason::TruncatedHeader, 16));
    let error = "Pci(0x1,0x2)/Pci(x)"
        .parse::<Box<DevicePath>>()
        .unwrap_err();
    assert_eq!((error.reason, error.place), (Reason::NoNode, 13));
    Ok(())
}

#[test]
fn instances() {
    let path: Box<DevicePath> = r"Pci(0x1,0x0)/\a,Pci(0x2,0x0)".parse().unwrap();
    let instances: Vec<_> = path.instance_iter().collect();
    assert_eq!(
        instances
            .iter()
            .map(|it| it.to_string())
            .collect::<Vec<_>>()
            .join(","),
        format!("{path}")
    );
    assert_eq!(instances[0].into_iter().count(), 2);
    assert_eq!(instances.len(), 2);
    let texts = |index: usize| {
        instances[index]
            .node_iter()
            .map(|it| format!("{it}"))
            .collect::<Vec<_>>()
    };
    assert_eq!(
        (texts(0), texts(1)),
        (
            vec!["Pci(0x1,0x0)".into(), r"\a".into()],
            vec!["Pci(0x2,0x0)".into()]
        )
    );
    assert_eq!(
        [instances[0].as_bytes(), instances[1].as_bytes()].concat(),
        path.as_bytes()
    );
    assert_eq!(
        path.node_iter()
            .filter(|it| <&end::Instance>::try_from(*it).is_ok())
            .count(),
        1
    );
    let mut bytes = Vec::new();
    let built = build::DevicePathBuilder::with_vec(&mut bytes)
        .push_text(r"Pci(0x1,0x0)/\a")
        .unwrap();
    let built = built
        .push(&build::end::Instance)
        .unwrap()
        .push_text("Pci(0x2,0x0)")
        .unwrap();
    assert_eq!(built.finalize(), Ok(&*path));
    assert_eq!(
        DevicePath::from_bytes(&[0x7f, 0xff, 4, 0])
            .unwrap()
            .instance_iter()
            .count(),
        1
    );
}

#[test]
fn long_texts() {
    let data = [0xab; 3000];
    let vendor = build::hardware::Vendor {
        vendor_guid: GUID,
        vendor_defined_data: &data,
    };
    let mut bytes = Vec::new();
    let path = build::DevicePathBuilder::with_vec(&mut bytes)
        .push(&vendor)
        .unwrap()
        .finalize()
        .unwrap();
    let wanted = format!(
        "VenHw(12345678-9ABC-DEF0-1234-56789ABCDEF0,{})",
        "AB".repeat(3000)
    );
    assert_eq!(format!("{path}"), wanted);
    assert_eq!(format!("{}", path.node_iter().next().unwrap()), wanted);
    assert_eq!(
        path.to_text(DisplayOnly(false), AllowShortcuts(false)),
        wanted
    );
}

#[test]
fn what_is_not_built() {
    let pci = build::hardware::Pci {
        function: 0,
        device: 1,
    };
    for (room, wanted) in [(3, false), (13, true), (14, true)] {
        let mut buffer = vec![9; room];
        let builder = build::DevicePathBuilder::with_buf(&mut buffer[..]);
        let builder = builder.push(&pci).and_then(|it| {
            it.push_text("Pci(0x1,0x0)")
                .map_err(|_| BuildError::EndNode)
        });
        assert_eq!(
            builder.err(),
            Some(if wanted {
                BuildError::EndNode
            } else {
                BuildError::BufferTooSmall
            })
        );
    }
    let mut buffer = [9; 16];
    assert_eq!(
        build::DevicePathBuilder::with_buf(&mut buffer[..3]).finalize(),
        Err(BuildError::BufferTooSmall)
    );
    let whole = build::DevicePathBuilder::with_buf(&mut buffer)
        .push(&pci)
        .unwrap()
        .push(&pci)
        .unwrap();
    assert_eq!(whole.finalize().map(|it| it.as_bytes().len()), Ok(16));
    let error = build::DevicePathBuilder::with_buf(&mut buffer)
        .push_path(DevicePath::from_bytes(PATH).unwrap())
        .unwrap_err();
    assert_eq!((error.reason, error.place), (Reason::BufferTooSmall, 20));
    let vendor = build::hardware::Vendor {
        vendor_guid: GUID,
        vendor_defined_data: &[0; 0x10000],
    };
    let mut bytes = Vec::new();
    for node in [
        &vendor as &dyn BuildNode,
        &Far(0x10000 - 5),
        &Far(usize::MAX),
    ] {
        let builder = build::DevicePathBuilder::with_vec(&mut bytes);
        assert_eq!(builder.push(node).err(), Some(BuildError::NodeTooBig));
    }
}

#[test]
fn texts_of_errors() {
    for (error, text) in [
        (
            &NodeConversionError::DifferentType as &dyn std::error::Error,
            "device path node has a different type or sub-type",
        ),
        (
            &NodeConversionError::InvalidLength,
            "device path node has an invalid length",
        ),
        (
            &NodeConversionError::UnsupportedType,
            "unknown device path node type",
        ),
        (&BuildError::BufferTooSmall, "buffer too small"),
        (
            &BuildError::NodeTooBig,
            "device path node is longer than 65,535 bytes",
        ),
        (
            &BuildError::EndNode,
            "end node is only allowed at the end of a device path",
        ),
    ] {
        assert_eq!(error.to_string(), text);
    }
}

#[test]
fn ends() {
    // The builder adds the end of a path, and takes one that is pushed; nothing follows it.
    let pci = build::hardware::Pci {
        function: 2,
        device: 0x1f,
    };
    let end = <&DevicePathNode>::try_from(&PATH[16..]).unwrap();
    for node in [&build::end::Entire as &dyn BuildNode, &end] {
        let mut bytes = Vec::new();
        let builder = build::DevicePathBuilder::with_vec(&mut bytes);
        let path = builder.push(&pci).unwrap().push(node).unwrap().finalize();
        assert_eq!(
            path.unwrap().as_bytes(),
            [1, 1, 6, 0, 2, 0x1f, 0x7f, 0xff, 4, 0]
        );
        type Push = fn(build::DevicePathBuilder<'_>) -> Option<BuildError>;
        let pushes: [Push; 2] = [
            |it| it.push(&build::end::Instance).err(),
            |it| it.push(&build::end::Entire).err(),
        ];
        for push in pushes {
            let builder = build::DevicePathBuilder::with_vec(&mut bytes);
            assert_eq!(push(builder.push(node).unwrap()), Some(BuildError::EndNode));
        }
        let builder = build::DevicePathBuilder::with_vec(&mut bytes);
        let error = builder.push(node).unwrap().push_text("Pci(0x0,0x0)");
        assert_eq!(error.unwrap_err().reason, Reason::NodeOfEnd);
    }
}

#[test]
fn pointers_of_firmware() {
    let path = DevicePath::from_bytes(PATH).unwrap();
    // SAFETY: the pointers are those of whole nodes, and of a path.
    let (whole, node) = unsafe {
        let start = path.as_ffi_ptr();
        (
            DevicePath::from_ffi_ptr(start),
            DevicePathNode::from_ffi_ptr(start),
        )
    };
    assert_eq!((whole, node.as_bytes()), (path, &PATH[..6]));
    assert_eq!(node.as_ffi_ptr(), path.as_ffi_ptr());
    let header = <&DevicePathHeader>::try_from(PATH).unwrap();
    assert_eq!((header.device_type, header.sub_type), node.full_type());
    assert_eq!({ header.length }, 6);
    assert!(<&DevicePathHeader>::try_from(&PATH[..3]).is_err());
    let copies: Vec<Box<DevicePathInstance>> =
        path.instance_iter().map(|it| it.to_boxed()).collect();
    assert_eq!(copies[0].as_bytes(), PATH);
    assert_eq!(copies.clone(), copies);
    let instance: &DevicePathInstance = &copies[0];
    assert_eq!(*instance.to_owned(), *instance);
}

#[test]
fn texts_that_people_write() {
    let mut bytes = Vec::new();
    let builder = build::DevicePathBuilder::with_vec(&mut bytes)
        .push_text("Pci(0x1F,0x2)")
        .unwrap();
    let path = builder
        .push_lenient_text("file(a)")
        .unwrap()
        .finalize()
        .unwrap();
    assert_eq!(path.as_bytes(), PATH);
    let mut bytes = [0; 32];
    let builder = build::DevicePathBuilder::with_buf(&mut bytes);
    let error = builder.push_lenient_text("pci(x)").unwrap_err();
    assert_eq!((error.reason, error.place), (Reason::NoNode, 4));
}

#[test]
fn load_options() -> Result<(), Error> {
    let entry = build::LoadOption {
        attributes: 9,
        description: cstr16!("d"),
        device_path: DevicePath::from_bytes(PATH)?,
        optional_data: b"root",
    };
    let bytes = [
        &[9, 0, 0, 0, PATH.len() as u8, 0, 0x64, 0, 0, 0][..],
        PATH,
        b"root",
    ]
    .concat();
    assert_eq!(entry.to_vec()?, bytes);
    let mut room = vec![7; bytes.len() + 1];
    assert_eq!(entry.write_in_buf(&mut room)?, bytes);
    let error = entry.write_in_buf(&mut room[..3]).unwrap_err();
    assert_eq!(
        (error.reason, error.place),
        (Reason::BufferTooSmall, bytes.len())
    );
    let option = LoadOption::try_from(&bytes[..])?;
    assert_eq!(
        (
            option.attributes(),
            option.is_active(),
            option.optional_data()
        ),
        (9, true, &b"root"[..])
    );
    assert!(option.description_chars().eq(['d']) && option.description_units().eq([0x64]));
    assert!(option.device_paths().eq([entry.device_path]));
    let error = LoadOption::from_bytes(&bytes[..9]).unwrap_err();
    assert_eq!(
        error.to_string(),
        "description is not null-terminated at offset 8"
    );

    // A pair of surrogates, a surrogate without a partner, and ESC.
    let units = [0xd83d, 0xde00, 0xd800, 0x1b, 0x62, 0];
    let description: Vec<u8> = units.iter().flat_map(|it: &u16| it.to_le_bytes()).collect();
    let shown = [&[1, 0, 0, 0, PATH.len() as u8, 0][..], &description, PATH].concat();
    let shown = LoadOption::from_bytes(&shown)?;
    assert_eq!(
        shown.description_chars().collect::<String>(),
        "\u{1f600}\u{fffd}\u{1b}b"
    );
    assert_eq!(shown.description().to_string(), "\u{1f600}\u{fffd}\\u{1b}b");
    Ok(())
}

/// A node whose last byte is far from its header.
struct Far(usize);

impl BuildNode for Far {
    fn full_type(&self) -> (DeviceType, DeviceSubType) {
        (DeviceType::HARDWARE, DeviceSubType(0x28))
    }

    fn parts(&self, write: &mut dyn FnMut(usize, &[u8])) {
        write(self.0, &[1]);
    }
}
