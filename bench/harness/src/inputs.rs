//! The texts that calls are timed on, in each form that a call takes.

/// A text of some number of units, twice, so that two equal arguments lie at different places.
pub struct Inputs {
    /// The units and a NUL.
    pub units: [Vec<u16>; 2],
    /// The text in UTF-8.
    pub texts: [String; 2],
    /// The text in Latin-1 and a zero; characters above U+00FF as `?`.
    pub latin1: [Vec<u8>; 2],
    /// One byte, and after it the units and a NUL, the low byte first.
    pub packed: [Vec<u8>; 2],
    /// Room for the units and a NUL.
    pub places: Vec<u16>,
    pub numbers: Vec<u32>,
    /// A device path, and a load option of it.
    pub device_paths: [Vec<u8>; 2],
    pub load_options: [Vec<u8>; 2],
    /// How many characters, or pushes, where a call counts them.
    pub count: usize,
}

impl Inputs {
    pub fn of(text: String) -> Inputs {
        let units: Vec<u16> = text.encode_utf16().chain([0]).collect();
        let latin1: Vec<u8> = text
            .chars()
            .map(|c| u8::try_from(c).unwrap_or(b'?'))
            .chain([0])
            .collect();
        let packed: Vec<u8> = [7]
            .into_iter()
            .chain(units.iter().flat_map(|unit| unit.to_le_bytes()))
            .collect();
        Inputs {
            places: vec![0; units.len()],
            numbers: vec![0; units.len() / 2],
            count: units.len() - 1,
            units: [units.clone(), units],
            texts: [text.clone(), text],
            latin1: [latin1.clone(), latin1],
            packed: [packed.clone(), packed],
            device_paths: Default::default(),
            load_options: Default::default(),
        }
    }
}

fn text_of(characters: &[char], size: usize) -> Inputs {
    Inputs::of(characters.iter().copied().cycle().take(size).collect())
}

pub fn ascii(size: usize) -> Inputs {
    text_of(
        &"The quick brown fox jumps over the lazy dog; "
            .chars()
            .collect::<Vec<_>>(),
        size,
    )
}

pub fn latin1(size: usize) -> Inputs {
    text_of(
        &"Größe über Maß, déjà vu à côté; señor Ibáñez "
            .chars()
            .collect::<Vec<_>>(),
        size,
    )
}

pub fn cjk(size: usize) -> Inputs {
    text_of(
        &"漢字仮名交じり文の例として用いる"
            .chars()
            .collect::<Vec<_>>(),
        size,
    )
}

/// A text in which characters of ASCII, of Latin-1 and of CJK alternate at random, so that no processor
/// predicts the branches over a long one.
pub fn mixed(size: usize) -> Inputs {
    let mut state = 1u64;
    let characters = (0..size).map(|_| {
        state = state
            .wrapping_mul(6364136223846793005)
            .wrapping_add(1442695040888963407);
        ['a', 'é', '漢'][(state >> 33) as usize % 3]
    });
    Inputs::of(characters.collect())
}

/// A text of ASCII, but for one character at its front: the thirtieth, or the last of a shorter text.
fn ascii_but(character: char, size: usize) -> Inputs {
    let place = 29.min(size - 1);
    let letters = |count: usize| "a".repeat(count);
    Inputs::of(letters(place) + &character.to_string() + &letters(size - 1 - place))
}

pub fn early_latin1(size: usize) -> Inputs {
    ascii_but('é', size)
}

/// With a character that no string of UCS-2 holds.
pub fn early_emoji(size: usize) -> Inputs {
    ascii_but('😀', size)
}

/// A path of some number of units, over and over the same components, none of them empty.
fn path_of(components: &str, size: usize) -> Inputs {
    let text: String = components.chars().cycle().take(size).collect();
    Inputs::of(text.trim_end_matches('\\').to_owned() + if text.ends_with('\\') { "x" } else { "" })
}

/// A path of names of seven characters.
pub fn path(size: usize) -> Inputs {
    path_of("\\loader1\\kernel2\\initrd3", size)
}

/// A path of names of many lengths.
pub fn uneven_path(size: usize) -> Inputs {
    path_of(
        "\\EFI\\BOOT\\a\\systemd-bootx64.efi\\b2\\vmlinuz-linux-lts\\c",
        size,
    )
}

/// A path with `.` and `..` among its names, none of which climbs.
pub fn dotted_path(size: usize) -> Inputs {
    path_of("\\EFI\\.\\BOOT\\..\\debian\\shimx64.efi\\..", size)
}

/// A device path of some number of bytes, all of whose nodes have this many, and a load option of it.
fn device_path(node: usize, size: usize) -> Inputs {
    let mut bytes = Vec::new();
    while bytes.len() + node + 4 <= size {
        let length = u16::try_from(node).expect("a node's length has two bytes");
        bytes.extend([1, 4]);
        bytes.extend(length.to_le_bytes());
        bytes.resize(bytes.len() + node - 4, 7);
    }
    bytes.extend([0x7f, 0xff, 4, 0]);
    let mut inputs = Inputs::of(String::from("debian"));
    let mut option = vec![1, 0, 0, 0];
    let length = u16::try_from(bytes.len()).expect("a list's length has two bytes");
    option.extend(length.to_le_bytes());
    option.extend(&inputs.packed[0][1..]);
    option.extend(&bytes);
    inputs.device_paths = [bytes.clone(), bytes];
    inputs.load_options = [option.clone(), option];
    inputs
}

/// Of nodes without data.
pub fn empty_nodes(size: usize) -> Inputs {
    device_path(4, size)
}

/// Of nodes as long as that of a partition.
pub fn long_nodes(size: usize) -> Inputs {
    device_path(42, size)
}
