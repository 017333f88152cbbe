//! Fields and uncompressed names in wire form (RFC 1035), and a writer into a lent slice.

pub const MAX_LABEL: usize = 63;
pub const MAX_NAME: usize = 255;

pub fn be16(bytes: &[u8], at: usize) -> u16 {
    u16::from_be_bytes([bytes[at], bytes[at + 1]])
}

pub fn be32(bytes: &[u8], at: usize) -> u32 {
    u32::from_be_bytes([bytes[at], bytes[at + 1], bytes[at + 2], bytes[at + 3]])
}

/// How many octets the name at the front of the bytes has, its zero octet included.
pub fn name_length(bytes: &[u8]) -> Option<usize> {
    let mut end = 0;
    loop {
        let label = usize::from(*bytes.get(end)?);
        end += label + 1;
        if label > MAX_LABEL || end > MAX_NAME {
            return None;
        }
        if label == 0 {
            return Some(end);
        }
    }
}

/// Whether a name is the zone's or stands below it.
pub fn within(zone: &[u8], name: &[u8]) -> bool {
    let mut rest = name;
    while rest.len() > zone.len() {
        rest = &rest[usize::from(rest[0]) + 1..];
    }
    rest.eq_ignore_ascii_case(zone)
}

/// A name as it was spelled, and in small letters for comparing. Length octets are below 64 and so no letters.
#[derive(Clone, Debug)]
pub struct Name {
    pub octets: Box<[u8]>,
    folded: Box<[u8]>,
}

impl Name {
    pub fn new(octets: &[u8]) -> Name {
        Name { octets: octets.into(), folded: octets.to_ascii_lowercase().into() }
    }

    pub fn same(&self, other: &Name) -> bool {
        self.folded == other.folded
    }

    pub fn spells(&self, octets: &[u8]) -> bool {
        self.octets.eq_ignore_ascii_case(octets)
    }
}

/// Writes from the front of a slice on.
pub struct Writer<'a> {
    out: &'a mut [u8],
    at: usize,
}

impl<'a> Writer<'a> {
    pub fn new(out: &'a mut [u8]) -> Writer<'a> {
        Writer { out, at: 0 }
    }

    pub fn at(&self) -> usize {
        self.at
    }

    pub fn put(&mut self, bytes: &[u8]) {
        self.out[self.at..self.at + bytes.len()].copy_from_slice(bytes);
        self.at += bytes.len();
    }

    pub fn put16(&mut self, field: u16) {
        self.put(&field.to_be_bytes());
    }

    pub fn put32(&mut self, field: u32) {
        self.put(&field.to_be_bytes());
    }

    /// Goes back to write where something was left free.
    pub fn put16_at(&mut self, at: usize, field: u16) {
        self.out[at..at + 2].copy_from_slice(&field.to_be_bytes());
    }

    /// A message's length prefix and header; the length is set by `finish`.
    pub fn begin(&mut self, id: u16, flags: u16) -> usize {
        let start = self.at;
        self.put16(0);
        self.put16(id);
        self.put16(flags);
        self.put(&[0; 8]);
        start
    }

    pub fn finish(&mut self, start: usize) {
        self.put16_at(start, (self.at - start - 2) as u16);
    }
}
