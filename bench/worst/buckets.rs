//! Names that fall into one bucket of a table of names: the hash of crate `names`, h * 31 + byte.
/// Buckets of each kind of a rulebook's names (crate `items`), of goals (crate `tables`) and of abbreviations (crate `nodes`).
pub const SYMBOLS: u32 = 256;
pub const GOALS: u32 = 64;
pub const ABBREVIATIONS: u32 = 192;

/// Bytes of names, so many that enough names fall into one bucket.
const BYTES: &[u8] = b"abcdefghijklmnopqrstuvwxyzABCDEFGHIJKLMNOPQRSTUVWXYZ0123456789!#$%&*+-./:<=>@^_~|";

fn bucket(name: &str, buckets: u32) -> u32 {
    name.bytes().fold(0u32, |h, b| h.wrapping_mul(31).wrapping_add(b.into())) % buckets
}

/// Other names in the bucket of `name`: a prefix and three bytes each.
pub fn mates(name: &str, prefix: &str, buckets: u32) -> Vec<String> {
    let wanted = bucket(name, buckets);
    let mut out = Vec::new();
    for a in BYTES {
        for b in BYTES {
            for c in BYTES {
                let other = format!("{prefix}{}{}{}", *a as char, *b as char, *c as char);
                if other != name && bucket(&other, buckets) == wanted {
                    out.push(other);
                }
            }
        }
    }
    out
}
