//! Built nodes, and their bytes by the UEFI Specification, section 10.3.
//!
//! The view of each kind reads the fields of a built node at the positions that `checks/efivar/layouts`
//! compares with libefivar's structs. So the rows here have only the kinds for which libefivar has no struct,
//! and the kinds with a reserved field, which is zero and which no view shows. All other data counts up: 1,
//! 2, 3.

use for_tests::bytes;
use std::test::Fail;
use uefi_device_path::build::{acpi, media, messaging};
use uefi_device_path::{BuildNode, DevicePathBuf, DevicePathBuilder, Guid};

/// Returns whether a path with only this node has these bytes and an end node, in memory and in a buffer.
fn is_built<N: BuildNode>(rt: &HostRuntime, node: &N, digits: &str) -> Result<bool, Fail> {
    let mut want = bytes(rt.alloc(), digits)?;
    want.extend_from_slice(&[0x7f, 0xff, 4, 0])?;
    let mut path = DevicePathBuf::new(rt.alloc())?;
    path.push_node(node)?;
    let mut room = [9; 96];
    let mut built = DevicePathBuilder::with_buf(&mut room)?;
    built.push_node(node)?;
    Ok(
        path.as_device_path().as_bytes() == want.as_slice()
            && built.finalize().as_bytes() == want.as_slice(),
    )
}

#[test]
fn reserved_fields(rt: HostRuntime) -> Result<(), Fail> {
    let node = messaging::FibreChannel {
        world_wide_name: 0xc0b_0a09_0807_0605,
        logical_unit_number: 0x1413_1211_100f_0e0d,
    };
    let want = "030318000000000005060708090a0b0c0d0e0f1011121314";
    assert!(rt; is_built(&rt, &node, want)?);
    let guid = [5, 6, 7, 8, 9, 10, 11, 12];
    let node = messaging::Ieee1394 { guid };
    assert!(rt; is_built(&rt, &node, "030410000000000005060708090a0b0c")?);
    let node = messaging::FibreChannelEx {
        world_wide_name: guid,
        logical_unit_number: [13, 14, 15, 16, 17, 18, 19, 20],
    };
    let want = "031518000000000005060708090a0b0c0d0e0f1011121314";
    assert!(rt; is_built(&rt, &node, want)?);
    let node = messaging::Uart {
        baud_rate: 0xc0b_0a09_0807_0605,
        data_bits: 0xd,
        parity: 0xe,
        stop_bits: 0xf,
    };
    assert!(rt; is_built(&rt, &node, "030e13000000000005060708090a0b0c0d0e0f")?);
    let node = media::RelativeOffsetRange {
        starting_offset: 0xc0b_0a09_0807_0605,
        ending_offset: 0x1413_1211_100f_0e0d,
    };
    let want = "040818000000000005060708090a0b0c0d0e0f1011121314";
    assert!(rt; is_built(&rt, &node, want)?);
    Ok(())
}

#[test]
fn lists_and_kinds_of_no_struct(rt: HostRuntime) -> Result<(), Fail> {
    // Two outputs of a display adapter.
    let adr = &[0x8001_0400, 0x0403_0201];
    let node = acpi::Adr { adr };
    assert!(rt; is_built(&rt, &node, "02030c000004018001020304")?);
    let nfit_device_handle = 0x403_0201;
    let node = acpi::Nvdimm { nfit_device_handle };
    assert!(rt; is_built(&rt, &node, "0204080001020304")?);
    let node = messaging::RestService {
        service_type: 0x1,
        access_mode: 0x2,
        vendor_guid: None,
        vendor_defined_data: &[3, 4, 5],
    };
    assert!(rt; is_built(&rt, &node, "032109000102030405")?);
    let guid = [1, 2, 3, 4, 5, 6, 7, 8, 9, 10, 11, 12, 13, 14, 15, 16];
    let node = messaging::RestService {
        service_type: 0xff,
        access_mode: 0x2,
        vendor_guid: Some(Guid::from_bytes(guid)),
        vendor_defined_data: &[17, 18],
    };
    let want = "03211800ff020102030405060708090a0b0c0d0e0f101112";
    assert!(rt; is_built(&rt, &node, want)?);
    let node = messaging::NvmeOfNamespace {
        nidt: 0x1,
        nid: [2, 3, 4, 5, 6, 7, 8, 9, 10, 11, 12, 13, 14, 15, 16, 17],
        subsystem_nqn: &[18, 19, 20],
    };
    let want = "032218000102030405060708090a0b0c0d0e0f1011121314";
    assert!(rt; is_built(&rt, &node, want)?);
    Ok(())
}

#[test]
fn firmware_files(rt: HostRuntime) -> Result<(), Fail> {
    let guid = Guid::from_bytes([1, 2, 3, 4, 5, 6, 7, 8, 9, 10, 11, 12, 13, 14, 15, 16]);
    let node = media::PiwgFirmwareFile { file_name: guid };
    assert!(rt; is_built(&rt, &node, "040614000102030405060708090a0b0c0d0e0f10")?);
    let node = media::PiwgFirmwareVolume { volume_name: guid };
    assert!(rt; is_built(&rt, &node, "040714000102030405060708090a0b0c0d0e0f10")?);
    Ok(())
}
