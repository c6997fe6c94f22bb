//! The keys that both key programs print for one sheet, beside each other.

use crate::check::ensure;
use crate::device::Device;
use crate::key::Key;
use crate::key_check::{decode, lamps, random_patch};
use crate::older_traits::{older_traits, OlderTrait};
use crate::random::Random;
use crate::sheet::read;
use crate::tree::groups;

/// So many patches are tried with both players.
const PATCHES: usize = 3;

/// The lines NO, LIFT and HELD with which a key begins.
pub fn lines_before_code(key: &[u8]) -> &[u8] {
    let names: [&[u8]; 3] = [b"NO\t", b"LIFT\t", b"HELD\t"];
    let lines = key.split_inclusive(|&byte| byte == b'\n');
    let before = lines.take_while(|line| names.iter().any(|name| line.starts_with(name)));
    &key[..before.map(<[u8]>::len).sum()]
}

/// The older key has the other's NO, LIFT and HELD lines, and code for the same tree; both players light what the tree
/// as written selects, under the same patches.
pub fn both_keys(sheet: &[u8], key: &[u8], older: &[u8], random: &mut Random) -> Result<Vec<OlderTrait>, String> {
    let before_code = lines_before_code(key);
    ensure(before_code == lines_before_code(older), "the NO, LIFT and HELD lines are not the other program's")?;
    if key == before_code {
        return ensure(older == key, "code after a key without code").map(|()| Vec::new());
    }
    let parsed = |device: Device, bytes: &[u8]| Key::parse(device, bytes).ok_or("the bytes are not those of a key");
    let (key, older) = (parsed(Device::Newer, key)?, parsed(Device::Older, older)?);
    let tree = decode(Device::Newer, &key.code).ok_or("the instructions do not compute a tree")?;
    let code = Device::Older.encode(&tree);
    ensure(code.as_deref() == Ok(&older.code), "the older code is not that of the other program's tree")?;
    let sheet = read(sheet).map_err(|fault| format!("code for a sheet refused with {}", fault.number))?;
    for _ in 0..PATCHES {
        let patch = random_patch(&groups(&sheet.tree), random);
        lamps(&key, &sheet.tree, &patch)?;
        lamps(&older, &sheet.tree, &patch)?;
    }
    Ok(older_traits(&older.code))
}
