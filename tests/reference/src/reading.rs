//! How the observer reads bytes: length-prefixed frames, replies, PUSHes, and records in the layout of change notifications.
//! It shares no reader with the server.

/// What stands between a frame's prefix and the next frame.
#[derive(Clone, Debug, PartialEq, Eq)]
pub enum Frame {
    Reply(Reply),
    Push(Vec<Notice>),
}

#[derive(Clone, Debug, PartialEq, Eq)]
pub struct Reply {
    pub id: u16,
    pub rcode: u8,
    pub tlvs: Vec<(u16, Vec<u8>)>,
}

/// One change notification, its fields as they stand.
#[derive(Clone, Debug, PartialEq, Eq)]
pub struct Notice {
    pub name: Vec<u8>,
    pub rtype: u16,
    pub class: u16,
    pub ttl: u32,
    pub rdata: Vec<u8>,
}

/// Bytes not yet read.
pub struct Rest<'a>(pub &'a [u8]);

impl<'a> Rest<'a> {
    pub fn take(&mut self, count: usize) -> Result<&'a [u8], String> {
        if self.0.len() < count {
            return Err(format!("{count} bytes wanted, {} left", self.0.len()));
        }
        let (head, tail) = self.0.split_at(count);
        self.0 = tail;
        Ok(head)
    }

    /// A big-endian number of `count` bytes.
    pub fn number(&mut self, count: usize) -> Result<u64, String> {
        Ok(self.take(count)?.iter().fold(0, |value, byte| value * 256 + u64::from(*byte)))
    }

    pub fn short(&mut self) -> Result<u16, String> {
        Ok(self.number(2)? as u16)
    }

    pub fn name(&mut self) -> Result<Vec<u8>, String> {
        let mut octets = Vec::new();
        loop {
            let length = self.number(1)? as usize;
            octets.push(length as u8);
            if length >= 64 {
                return Err(format!("label of {length}"));
            }
            octets.extend_from_slice(self.take(length)?);
            if octets.len() > 255 {
                return Err("name over 255 octets".to_string());
            }
            if length == 0 {
                return Ok(octets);
            }
        }
    }

    fn tlv(&mut self) -> Result<(u16, Vec<u8>), String> {
        let tlv_type = self.short()?;
        let length = self.short()?;
        Ok((tlv_type, self.take(usize::from(length))?.to_vec()))
    }

    pub fn notice(&mut self) -> Result<Notice, String> {
        let name = self.name()?;
        let (rtype, class, ttl) = (self.short()?, self.short()?, self.number(4)? as u32);
        let length = self.short()?;
        Ok(Notice { name, rtype, class, ttl, rdata: self.take(usize::from(length))?.to_vec() })
    }
}

/// Notices end to end, as in a PUSH's data and in a batch.
pub fn notices(bytes: &[u8]) -> Result<Vec<Notice>, String> {
    let mut rest = Rest(bytes);
    let mut list = Vec::new();
    while !rest.0.is_empty() {
        list.push(rest.notice()?);
    }
    Ok(list)
}

/// Everything written for one session by one call.
pub fn frames(bytes: &[u8]) -> Result<Vec<Frame>, String> {
    let mut rest = Rest(bytes);
    let mut list = Vec::new();
    while !rest.0.is_empty() {
        let length = rest.short()?;
        list.push(frame(rest.take(usize::from(length))?)?);
    }
    Ok(list)
}

/// The TLVs of a DSO message with counts of zero that they fill to its end.
pub fn tlvs_of(message: &[u8]) -> Result<Vec<(u16, Vec<u8>)>, String> {
    let mut rest = Rest(message);
    let (_, flags, counts) = (rest.short()?, rest.short()?, rest.number(8)?);
    if flags & 0x7800 != 0x3000 || counts != 0 {
        return Err("another opcode, or counts that are not zero".to_string());
    }
    let mut tlvs = Vec::new();
    while !rest.0.is_empty() {
        tlvs.push(rest.tlv()?);
    }
    Ok(tlvs)
}

fn frame(message: &[u8]) -> Result<Frame, String> {
    let tlvs = tlvs_of(message)?;
    let mut rest = Rest(message);
    let (id, flags) = (rest.short()?, rest.short()?);
    match flags & 0xfff0 {
        0xb000 if id != 0 => Ok(Frame::Reply(Reply { id, rcode: (flags & 15) as u8, tlvs })),
        0x3000 => push(id, flags, message.len(), &tlvs),
        _ => Err(format!("flags {flags:04x} with ID {id}")),
    }
}

fn push(id: u16, flags: u16, length: usize, tlvs: &[(u16, Vec<u8>)]) -> Result<Frame, String> {
    let [(0x0041, data)] = tlvs else {
        return Err("a message that is neither reply nor PUSH".to_string());
    };
    if id != 0 || flags != 0x3000 || data.is_empty() || length > 16_382 {
        return Err(format!("a PUSH with ID {id}, flags {flags:04x} and {length} bytes"));
    }
    let list = notices(data)?;
    match list.iter().find(|notice| !notice.is_lawful()) {
        Some(notice) => Err(format!("a notice that no client takes: {notice:?}")),
        None => Ok(Frame::Push(list)),
    }
}

impl Notice {
    pub fn is_add(&self) -> bool {
        self.ttl <= 0x7fff_ffff
    }

    /// Whether the notice is one of RFC 8765's five and written as it asks.
    fn is_lawful(&self) -> bool {
        match self.ttl {
            0xffff_fffe => self.rdata.is_empty() && (self.class != 255 || self.rtype == 0),
            0xffff_ffff | 0..=0x7fff_ffff => self.rtype != 255 && self.class != 255,
            _ => false,
        }
    }
}
