//! Tables as text: what is written is read again, and a mistake is named with its line and entry.

use formats::entry::{Algorithm, Entry, Side, Signing, TcpAo};
use formats::text::{parse, write, Keys, Kind};
use kit::Bytes;

fn no_file(name: &str) -> Result<Vec<u8>, String> {
    Err(format!("{name}: no such file"))
}

fn read(text: &str, kind: Kind) -> Result<Vec<Entry>, String> {
    let blocks = parse(text, kind, &mut no_file).map_err(|mistake| mistake.to_string())?;
    Ok(blocks.into_iter().map(|block| block.entry).collect())
}

const WHOLE: &str = "
# The connections with peer 7.
entry peer-7   # its name
\tlocal         10.0.0.1
    local-ports   179
    remote        10.0.7.0/24
    remote-ports  1024 - 65535
    send-id       1
    recv-id       2
    algorithm     aes-128-cmac
    mac-length    16
    options       not-covered
    nat           remote
    key           hex 00 11AAbb ff#no comment
";

#[test]
fn every_field() {
    let text = WHOLE.replace("#no comment", "");
    let mut side = Side::new([10, 0, 0, 1], 32);
    (side.low, side.high) = (179, 179);
    let mut remote = Side::new([10, 0, 7, 0], 24);
    (remote.low, remote.high) = (1_024, 65_535);
    let entry = Entry {
        local: side,
        remote,
        signing: Signing::TcpAo(TcpAo {
            send_id: 1,
            recv_id: 2,
            algorithm: Algorithm::Aes128Cmac,
            mac_length: Some(16),
            all_options: false,
            local_nat: false,
            remote_nat: true,
        }),
        key: vec![0, 0x11, 0xAA, 0xBB, 0xFF],
    };
    let blocks = parse(&text, Kind::Keys, &mut no_file).unwrap();
    assert_eq!(
        (blocks[0].line, blocks[0].name.as_deref()),
        (3, Some("peer-7"))
    );
    assert_eq!(blocks[0].entry, entry);
    assert_eq!(read("", Kind::Keys), Ok(vec![]));
    assert_eq!(read("# nothing\n\n", Kind::Md5), Ok(vec![]));
}

#[test]
fn keys_in_files() {
    let text = WHOLE.replace("hex 00 11AAbb ff#no comment", "file keys/peer 7.key");
    let mut named = Vec::new();
    let mut read_key = |name: &str| {
        named.push(name.to_string());
        Ok(b"secret\n".to_vec())
    };
    let blocks = parse(&text, Kind::Keys, &mut read_key).unwrap();
    assert_eq!(blocks[0].entry.key, b"secret\n");
    assert_eq!(named, ["keys/peer 7.key"]);
    let mistake = parse(&text, Kind::Keys, &mut no_file).unwrap_err();
    assert_eq!(
        mistake.to_string(),
        "line 14, entry 0 (peer-7): key: keys/peer 7.key: no such file"
    );
}

/// Every mistake, in an entry that stands behind a good one: the line, and words of what is said.
#[test]
fn mistakes() {
    let good = "entry\nlocal 1.2.3.4\nremote ::ffff/128\n";
    let first = "entry first\nlocal 10.0.0.1\nremote 10.0.0.2\nsend-id 1\nrecv-id 1\nalgorithm hmac-sha-1\nkey hex 01\n";
    let second = "entry\nlocal 10.0.0.1\nremote 10.0.0.2\nsend-id 2\nrecv-id 2\nalgorithm hmac-sha-256\nkey hex 01\n";
    assert_eq!(
        read(&[first, second].concat(), Kind::Keys).unwrap().len(),
        2
    );
    let cases = [
        ("local 10.0.0.1", "local 10.0.0.256", 9, "no address"),
        ("local 10.0.0.1", "local 10.0.0.1/", 9, "no number"),
        ("local 10.0.0.1", "local 10.0.0.1/x", 9, "no number"),
        ("local 10.0.0.1", "local any", 9, "no address"),
        ("local 10.0.0.1", "local", 9, "has no value"),
        (
            "local 10.0.0.1",
            "local ::1",
            8,
            "not both IPv4 or both IPv6",
        ),
        (
            "local 10.0.0.1",
            "locale 10.0.0.1",
            9,
            "there is no field \"locale\"",
        ),
        ("local 10.0.0.1", "local-ports 1", 8, "\"local\" is missing"),
        ("remote 10.0.0.2\n", "", 8, "\"remote\" is missing"),
        ("send-id 2", "send-id 256", 11, "0 to 255"),
        ("send-id 2", "send-id -1", 11, "0 to 255"),
        ("send-id 2\n", "", 8, "\"send-id\" is missing"),
        ("recv-id 2", "recv-id two", 12, "0 to 255"),
        ("recv-id 2\n", "", 8, "\"recv-id\" is missing"),
        ("recv-id 2", "send-id 2", 12, "was said on line 11 already"),
        (
            "algorithm hmac-sha-256",
            "algorithm sha256",
            13,
            "is none of hmac-sha-1",
        ),
        (
            "algorithm hmac-sha-256",
            "algorithm tcp-md5",
            13,
            "the MD5 table",
        ),
        (
            "algorithm hmac-sha-256\n",
            "",
            8,
            "\"algorithm\" is missing",
        ),
        ("key hex 01", "key hex 012", 14, "odd"),
        ("key hex 01", "key hex 0g", 14, "no hexadecimal digit"),
        ("key hex 01", "key 01", 14, "\"hex\" and its digits"),
        ("key hex 01", "key file", 14, "\"hex\" and its digits"),
        ("key hex 01\n", "", 8, "\"key\" is missing"),
        ("send-id 2", "local-ports 1-65536\nsend-id 2", 11, "no port"),
        ("send-id 2", "remote-ports -\nsend-id 2", 11, "no port"),
        ("send-id 2", "remote-ports all\nsend-id 2", 11, "no port"),
        ("send-id 2", "mac-length long\nsend-id 2", 11, "no number"),
        (
            "send-id 2",
            "options all\nsend-id 2",
            11,
            "covered, not-covered",
        ),
        (
            "send-id 2",
            "nat yes\nsend-id 2",
            11,
            "none, local, remote, both",
        ),
    ];
    for (old, new, line, words) in cases {
        let text = [first, &second.replacen(old, new, 1)].concat();
        let said = read(&text, Kind::Keys).unwrap_err();
        let place = format!("line {line}, entry 1: ");
        assert!(
            said.starts_with(&place) && said.contains(words),
            "{new}: {said}"
        );
    }
    let said = read(&format!("local 10.0.0.1\n{first}"), Kind::Keys).unwrap_err();
    assert_eq!(said, "line 1: \"local\" stands before the first \"entry\"");
    let said = read(good, Kind::Keys).unwrap_err();
    assert!(said.starts_with("line 1, entry 0: "), "{said}");
}

#[test]
fn mistakes_in_the_md5_table() {
    let entry = "entry\nlocal 10.0.0.1\nremote 10.0.0.2\nalgorithm tcp-md5\nkey hex 01\n";
    assert_eq!(read(entry, Kind::Md5).unwrap()[0].signing, Signing::TcpMd5);
    let said = read(entry, Kind::Keys).unwrap_err();
    assert!(
        said.starts_with("line 4, entry 0: tcp-md5 is for the MD5 table"),
        "{said}"
    );
    for field in [
        "send-id 1",
        "recv-id 1",
        "mac-length 16",
        "options covered",
        "nat none",
    ] {
        let said = read(&format!("{entry}{field}\n"), Kind::Md5).unwrap_err();
        assert!(
            said.starts_with("line 6, entry 0: an entry for TCP MD5 has no"),
            "{said}"
        );
    }
    let said = read(&entry.replace("tcp-md5", "hmac-sha-1"), Kind::Md5).unwrap_err();
    assert!(
        said.starts_with("line 4, entry 0: this is the MD5 table"),
        "{said}"
    );
}

/// A number that no byte holds is one that the archive refuses.
#[test]
fn numbers_above_a_byte() {
    let text = WHOLE.replace("#no comment", "");
    let text = text
        .replace("10.0.7.0/24", "10.0.7.0/999")
        .replace("16", "1000");
    let entry = &read(&text, Kind::Keys).unwrap()[0];
    assert_eq!(entry.remote.prefix, 255);
    let said = |ao: &TcpAo| ao.mac_length == Some(255);
    assert!(matches!(&entry.signing, Signing::TcpAo(ao) if said(ao)));
}

fn side(bytes: &mut Bytes, ipv4: bool) -> Side {
    let address = bytes.take(16);
    let mut side = match ipv4 {
        true => Side::new(
            [address[0], address[1], address[2], address[3]],
            bytes.byte(),
        ),
        false => Side::new(<[u8; 16]>::try_from(address).unwrap(), bytes.byte()),
    };
    if bytes.below(2) == 0 {
        side.low = bytes.below(65_536) as u16;
        side.high = [side.low, bytes.below(65_536) as u16][bytes.below(2)];
    }
    side
}

/// Any entry, good or bad, is written and read again; without its key, all else can be read.
#[test]
fn round_trips() {
    let mut bytes = Bytes(2_026);
    for _ in 0..2_000 {
        let ipv4 = bytes.below(2) == 0;
        let algorithms = [
            Algorithm::HmacSha1,
            Algorithm::Aes128Cmac,
            Algorithm::HmacSha256,
        ];
        let signing = match bytes.below(4) {
            0 => Signing::TcpMd5,
            _ => Signing::TcpAo(TcpAo {
                send_id: bytes.byte(),
                recv_id: bytes.byte(),
                algorithm: algorithms[bytes.below(3)],
                mac_length: (bytes.below(2) == 0).then(|| bytes.byte()),
                all_options: bytes.below(2) == 0,
                local_nat: bytes.below(2) == 0,
                remote_nat: bytes.below(2) == 0,
            }),
        };
        let kind = if signing == Signing::TcpMd5 {
            Kind::Md5
        } else {
            Kind::Keys
        };
        let length = bytes.below(100);
        let entry = Entry {
            local: side(&mut bytes, ipv4),
            remote: side(&mut bytes, ipv4),
            signing,
            key: bytes.take(length),
        };
        let text = write(&entry, 7, Keys::Shown);
        assert_eq!(read(&text, kind), Ok(vec![entry.clone()]), "{text}");
        let hidden = write(&entry, 7, Keys::Hidden);
        let digits: String = entry.key.iter().map(|byte| format!("{byte:02x}")).collect();
        assert!(digits.len() < 8 || !hidden.contains(&digits));
        assert!(read(&hidden, kind)
            .unwrap_err()
            .contains("\"key\" is missing"));
    }
}
