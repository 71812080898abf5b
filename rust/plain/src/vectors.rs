//! The published vectors, from the same files that the program `vectors` reads; of SHA-256 and MD5, the
//! reference's.

use crate::{aes, aes_tables, cmac, hmac, md5, sha1, sha256};

fn file(text: &'static str) -> impl Iterator<Item = Vec<&'static str>> {
    text.lines()
        .filter(|l| !l.starts_with('#'))
        .map(|l| l.split(' ').collect())
}

fn hex(text: &str) -> Vec<u8> {
    if text == "-" {
        return Vec::new();
    }
    assert!(text.len() % 2 == 0);
    (0..text.len())
        .step_by(2)
        .map(|i| u8::from_str_radix(&text[i..i + 2], 16).unwrap())
        .collect()
}

fn block(text: &str) -> [u8; 16] {
    hex(text).try_into().unwrap()
}

macro_rules! vectors {
    ($name:literal) => {
        file(include_str!(concat!(
            "../../../crates/vectors/data/",
            $name,
            ".txt"
        )))
    };
}

#[test]
fn fips180() {
    let mut lines = 0;
    for c in vectors!("fips180") {
        let message = if c[0] == "million-a" {
            vec![0x61; 1_000_000]
        } else {
            hex(c[0])
        };
        assert_eq!(sha1::sha1(&message)[..], hex(c[1]), "{c:?}");
        lines += 1;
    }
    assert_eq!(lines, 5);
}

#[test]
fn fips180_256() {
    let mut lines = 0;
    for c in file(include_str!("../../reference/vectors/fips180-256.txt")) {
        let message = if c[0] == "million-a" {
            vec![0x61; 1_000_000]
        } else {
            hex(c[0])
        };
        assert_eq!(sha256::sha256(&message)[..], hex(c[1]), "{c:?}");
        lines += 1;
    }
    assert_eq!(lines, 5);
}

#[test]
fn rfc1321() {
    let mut lines = 0;
    for c in file(include_str!("../../reference/vectors/rfc1321.txt")) {
        assert_eq!(md5::md5(&hex(c[0]))[..], hex(c[1]), "{c:?}");
        lines += 1;
    }
    assert_eq!(lines, 7);
}

#[test]
fn fips197() {
    let mut lines = 0;
    for c in vectors!("fips197") {
        let keys = aes::expand_key(&block(c[0]));
        assert_eq!(aes::encrypt(&keys, &block(c[1])), block(c[2]), "{c:?}");
        let keys = aes_tables::expand_key(&block(c[0]));
        assert_eq!(aes_tables::encrypt(&keys, &block(c[1])), block(c[2]));
        lines += 1;
    }
    assert_eq!(lines, 2);
}

#[test]
fn rfc2202() {
    let mut lines = 0;
    for c in vectors!("rfc2202") {
        assert_eq!(
            hmac::hmac_sha1(&hex(c[1]), &hex(c[2]))[..],
            hex(c[3]),
            "{c:?}"
        );
        lines += 1;
    }
    assert_eq!(lines, 7);
}

/// Case 5 is cut to 16 bytes.
#[test]
fn rfc4231() {
    let mut lines = 0;
    for c in file(include_str!("../../reference/vectors/rfc4231.txt")) {
        let digest = hex(c[3]);
        let mac = hmac::hmac_sha256(&hex(c[1]), &hex(c[2]));
        assert_eq!(mac[..digest.len()], digest, "{c:?}");
        lines += 1;
    }
    assert_eq!(lines, 7);
}

#[test]
fn rfc4493() {
    let mut lines = 0;
    let mut key = [0; 16];
    let subkeys = |key: [u8; 16]| {
        let keys = aes::expand_key(&key);
        cmac::subkeys(|block| aes::encrypt(&keys, block))
    };
    for c in vectors!("rfc4493") {
        match c[0] {
            "key" => key = block(c[1]),
            "k1" => assert_eq!(subkeys(key).0, block(c[1])),
            "k2" => assert_eq!(subkeys(key).1, block(c[1])),
            n => {
                let message = hex(c[1]);
                assert_eq!(n.parse(), Ok(message.len()));
                assert_eq!(cmac::cmac(&key, &message), block(c[2]), "{c:?}");
                assert_eq!(aes_tables::cmac(&key, &message), block(c[2]), "{c:?}");
            }
        }
        lines += 1;
    }
    assert_eq!(lines, 7);
}

#[test]
fn pieces() {
    let message: Vec<u8> = (0..1000u32).map(|i| (i * 7) as u8).collect();
    for size in [1, 7, 63, 64, 65, 200] {
        let mut context = sha1::Sha1::new();
        message.chunks(size).for_each(|piece| context.update(piece));
        assert_eq!(context.finish(), sha1::sha1(&message));
        let mut context = sha256::Sha256::new();
        message.chunks(size).for_each(|piece| context.update(piece));
        assert_eq!(context.finish(), sha256::sha256(&message));
        let mut context = md5::Md5::new();
        message.chunks(size).for_each(|piece| context.update(piece));
        assert_eq!(context.finish(), md5::md5(&message));
    }
}

/// By T-tables and by the S-box: the same, under a thousand keys, and for every length to 300.
#[test]
fn tables() {
    let (mut key, mut block) = ([0; 16], [0; 16]);
    for n in 0..1000 {
        let keys = aes::expand_key(&key);
        let want = aes::encrypt(&keys, &block);
        assert_eq!(
            aes_tables::encrypt(&aes_tables::expand_key(&key), &block),
            want
        );
        let message = want.repeat(20);
        let message = &message[..n % 301];
        assert_eq!(aes_tables::cmac(&key, message), cmac::cmac(&key, message));
        (key, block) = (want, key);
    }
}
