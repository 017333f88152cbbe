//! Uncompressed domain names in wire form (RFC 1035, section 3.1).

/// The longest label, in octets.
pub const MAX_LABEL: u8 = 63;
/// The longest name, in octets, length octets and the final zero included.
pub const MAX_NAME: usize = 255;

/// How many octets the name that starts at `place` has, its zero octet included; `None` where no name stands.
pub fn read(octets: &[u8], place: usize) -> Option<usize> {
    let mut next = place;
    loop {
        let label = *octets.get(next)?;
        if label > MAX_LABEL {
            return None;
        }
        next += 1 + usize::from(label);
        if next - place > MAX_NAME {
            return None;
        }
        if label == 0 {
            return Some(next - place);
        }
    }
}

/// Whether the octets are one name and nothing after it.
pub fn is_whole(octets: &[u8]) -> bool {
    read(octets, 0) == Some(octets.len())
}

/// The labels of a whole name from left to right, without the root's empty one.
fn labels(name: &[u8]) -> Vec<&[u8]> {
    let mut found = Vec::new();
    let mut rest = name;
    while let Some((&length, tail)) = rest.split_first() {
        if length == 0 {
            break;
        }
        let (label, after) = tail.split_at(usize::from(length));
        found.push(label);
        rest = after;
    }
    found
}

fn same_labels(left: &[&[u8]], right: &[&[u8]]) -> bool {
    left.len() == right.len() && left.iter().zip(right).all(|(a, b)| a.eq_ignore_ascii_case(b))
}

/// Whether two whole names are the same name; US-ASCII letters compare without case.
pub fn same(left: &[u8], right: &[u8]) -> bool {
    same_labels(&labels(left), &labels(right))
}

/// Whether the whole name is the zone's name or stands below it.
pub fn within(zone: &[u8], name: &[u8]) -> bool {
    let (zone, name) = (labels(zone), labels(name));
    name.len() >= zone.len() && same_labels(&zone, &name[name.len() - zone.len()..])
}

/// Answer to "are these the same name?": `None` where one of the two is no whole name.
pub fn ask_same(left: &[u8], right: &[u8]) -> Option<bool> {
    (is_whole(left) && is_whole(right)).then(|| same(left, right))
}

/// Answer to "is the second name at or below the first?": `None` where one of the two is no whole name.
pub fn ask_within(zone: &[u8], name: &[u8]) -> Option<bool> {
    (is_whole(zone) && is_whole(name)).then(|| within(zone, name))
}
