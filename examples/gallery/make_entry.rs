//! Makes a boot entry, the value of a variable `Boot####`, for a file on a partition of a GPT disk.
//!
//!     cargo run --manifest-path examples/gallery/Cargo.toml --bin make_entry \
//!         1 2048 1048576 03020100-0504-0706-0809-0a0b0c0d0e0f EFI/debian/shimx64.efi debian | od -An -tx1
//!
//!      01 00 00 00 62 00 64 00 65 00 62 00 69 00 61 00
//!
//! The words are the partition's number, its first block, its size in blocks and its GUID, the file, and the description.

use nardcorbel::proto::device_path::build::{self, DevicePathBuilder};
use nardcorbel::proto::device_path::media::{PartitionFormat, PartitionSignature};
use nardcorbel::{cstr16, CString16, Path, PathBuf};
use std::error::Error;
use std::io::{self, Write};

fn main() -> Result<(), Box<dyn Error>> {
    let words: Vec<String> = std::env::args().collect();
    let [_, number, start, size, signature, file, description] = &words[..] else {
        return Err("usage: make_entry NUMBER START SIZE GUID FILE DESCRIPTION > ENTRY".into());
    };
    // A file's name in an entry begins with a separator, which the normal form leaves out.
    let file = Path::new(cstr16!(r"\")).join(file.parse::<PathBuf>()?.normalize()?);
    let mut nodes = Vec::new();
    let device_path = DevicePathBuilder::with_vec(&mut nodes)
        .push(&build::media::HardDrive {
            partition_number: number.parse()?,
            partition_start: start.parse()?,
            partition_size: size.parse()?,
            partition_signature: PartitionSignature::Guid(signature.parse()?),
            partition_format: PartitionFormat::GPT,
        })?
        .push(&build::media::FilePath {
            path_name: file.to_cstr16(),
        })?
        .finalize()?;
    let entry = build::LoadOption {
        attributes: 1, // LOAD_OPTION_ACTIVE
        description: &CString16::try_from(&**description)?,
        device_path,
        optional_data: &[],
    };
    Ok(io::stdout().write_all(&entry.to_vec()?)?)
}
