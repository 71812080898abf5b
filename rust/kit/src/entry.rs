//! Entries of a key table: document 01, "Key table (house bytes)", and document 02, Tickets 4 and 10. Those
//! of an MD5 table have the same bytes: Ticket 9.

/// One side of whom an entry is for: a range of ports, its ends included, and a prefix of addresses.
#[derive(Clone, Debug, PartialEq, Eq)]
pub struct Side {
    pub low: u16,
    pub high: u16,
    /// 4 or 16 bytes.
    pub address: Vec<u8>,
    /// How many bits of the address are fixed.
    pub prefix: u8,
}

impl Side {
    /// Any address of so many bytes, and any port.
    pub fn any(address_bytes: usize) -> Side {
        Side {
            low: 0,
            high: 65_535,
            address: vec![0; address_bytes],
            prefix: 0,
        }
    }

    /// This address alone, and any port.
    pub fn host(address: &[u8]) -> Side {
        Side {
            address: address.to_vec(),
            prefix: 8 * address.len() as u8,
            ..Side::any(0)
        }
    }

    /// With these ports, ends included.
    pub fn ports(self, low: u16, high: u16) -> Side {
        Side { low, high, ..self }
    }

    /// With the addresses of this prefix.
    pub fn prefix(self, address: &[u8], prefix: u8) -> Side {
        Side {
            address: address.to_vec(),
            prefix,
            ..self
        }
    }
}

/// Which bits of an address's byte, by its index, a prefix of so many bits covers.
pub fn covered(prefix: usize, byte: usize) -> u8 {
    let bits = prefix.saturating_sub(8 * byte).min(8);
    !(0xff_u16 >> bits) as u8
}

/// An entry, good or bad, before it is written. What is not said is [`Entry::default`]'s.
#[derive(Clone, Debug, PartialEq, Eq)]
pub struct Entry {
    pub flags: u8,
    pub algorithm: u8,
    pub send_id: u8,
    pub recv_id: u8,
    pub local: Side,
    pub remote: Side,
    /// How many bytes the MAC has, in kinds 5 and 7; nothing in kinds 4 and 6, where it has 12.
    pub mac_length: Option<u8>,
    /// At most 80 bytes; zeros are put behind it.
    pub key: Vec<u8>,
}

impl Default for Entry {
    /// For any IPv4 pair: kind 4, all options covered, HMAC-SHA-1, both IDs 0.
    fn default() -> Entry {
        Entry {
            flags: 1,
            algorithm: 1,
            send_id: 0,
            recv_id: 0,
            local: Side::any(4),
            remote: Side::any(4),
            mac_length: None,
            key: b"a master key".to_vec(),
        }
    }
}

impl Entry {
    /// For two addresses of one family, and any ports.
    pub fn between(local: &[u8], remote: &[u8]) -> Entry {
        Entry {
            local: Side::host(local),
            remote: Side::host(remote),
            ..Entry::default()
        }
    }

    /// Of an MD5 table, for two addresses of one family, and any ports.
    pub fn md5(local: &[u8], remote: &[u8]) -> Entry {
        Entry {
            flags: 0,
            algorithm: 19,
            key: b"an MD5 key".to_vec(),
            ..Entry::between(local, remote)
        }
    }

    pub fn ids(self, send_id: u8, recv_id: u8) -> Entry {
        Entry {
            send_id,
            recv_id,
            ..self
        }
    }

    /// With our side, the peer's, both or none translated on the way (RFC 6978): flags 2 and 4.
    pub fn nat(self, local: bool, remote: bool) -> Entry {
        let flags = self.flags & !6 | u8::from(local) << 1 | u8::from(remote) << 2;
        Entry { flags, ..self }
    }

    /// Whether the MAC covers all options.
    pub fn covers_options(&self) -> bool {
        self.flags & 1 != 0
    }

    /// Whether our side is translated on the way.
    pub fn local_nat(&self) -> bool {
        self.flags & 2 != 0
    }

    /// Whether the peer's side is.
    pub fn remote_nat(&self) -> bool {
        self.flags & 4 != 0
    }

    /// What the other end holds, if it sees the same addresses and ports.
    pub fn mirror(&self) -> Entry {
        Entry {
            send_id: self.recv_id,
            recv_id: self.send_id,
            local: self.remote.clone(),
            remote: self.local.clone(),
            ..self.clone().nat(self.remote_nat(), self.local_nat())
        }
    }

    /// With a MAC of so many bytes: kind 5 or 7.
    pub fn mac_length(self, bytes: u8) -> Entry {
        Entry {
            mac_length: Some(bytes),
            ..self
        }
    }

    /// The kind by its addresses, and by whether the MAC's length is said.
    pub fn kind(&self) -> u8 {
        match (self.local.address.len(), self.mac_length) {
            (4, None) => 4,
            (4, Some(_)) => 5,
            (_, None) => 6,
            (_, Some(_)) => 7,
        }
    }

    /// The length of the TCP-AO that is signed under it.
    pub fn ao_length(&self) -> u8 {
        self.mac_length.unwrap_or(12).saturating_add(4)
    }

    /// What signing under it adds to a segment: TCP-AO, and kind 1 bytes to a multiple of four.
    pub fn added(&self) -> usize {
        usize::from(self.ao_length()).next_multiple_of(4)
    }

    pub fn bytes(&self) -> Vec<u8> {
        let mut bytes = vec![
            self.kind(),
            self.flags,
            self.algorithm,
            self.send_id,
            self.recv_id,
        ];
        for side in [&self.local, &self.remote] {
            bytes.extend(side.low.to_be_bytes());
            bytes.extend(side.high.to_be_bytes());
        }
        for side in [&self.local, &self.remote] {
            bytes.extend(&side.address);
            bytes.push(side.prefix);
        }
        bytes.extend(self.mac_length);
        bytes.push(self.key.len() as u8);
        bytes.extend(&self.key);
        bytes.resize(bytes.len() + 80 - self.key.len(), 0);
        bytes
    }
}

/// The table with these entries.
pub fn table(entries: &[Entry]) -> Vec<u8> {
    entries.iter().flat_map(Entry::bytes).collect()
}

/// The other end's table.
pub fn mirrored(entries: &[Entry]) -> Vec<u8> {
    entries
        .iter()
        .flat_map(|entry| entry.mirror().bytes())
        .collect()
}
