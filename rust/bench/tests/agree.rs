//! The archive's calls on messages against plain Rust: on messages of every length to 300 bytes, on keys of
//! every length to 100, and on buffers, keys and blocks of wrong lengths, which must stay as they are.

use bench::{aes128, aes128_cmac, hmac_sha1, hmac_sha256, md5, sha1, sha256, Bytes};

/// Calls with a buffer of `room` bytes: `want` stands at its front if it has room, and the rest stays.
fn check(room: usize, can: bool, want: &[u8], call: impl Fn(&mut [u8]) -> u64) {
    let before = Bytes(room as u64 + 1).take(room);
    let mut out = before.clone();
    let given = call(&mut out);
    if can && room >= want.len() {
        assert_eq!(given, want.len() as u64);
        assert_eq!(out[..want.len()], *want);
        assert_eq!(out[want.len()..], before[want.len()..]);
    } else {
        assert_eq!(given, 0);
        assert_eq!(out, before);
    }
}

#[test]
fn messages() {
    let mut bytes = Bytes(1);
    for n in 0..=300 {
        let message = bytes.take(n);
        let key: [u8; 16] = bytes.take(16).try_into().unwrap();
        check(20, true, &plain::sha1::sha1(&message), |out| {
            sha1(&message, out)
        });
        check(33, true, &plain::hmac::hmac_sha1(&key, &message), |out| {
            hmac_sha1(&key, &message, out)
        });
        check(32, true, &plain::sha256::sha256(&message), |out| {
            sha256(&message, out)
        });
        check(19, true, &plain::md5::md5(&message), |out| {
            md5(&message, out)
        });
        check(35, true, &plain::hmac::hmac_sha256(&key, &message), |out| {
            hmac_sha256(&key, &message, out)
        });
        check(17, true, &plain::cmac::cmac(&key, &message), |out| {
            aes128_cmac(&key, &message, out)
        });
    }
}

#[test]
fn long_messages() {
    let mut bytes = Bytes(2);
    for n in [1_400, 65_000, 65_535, 1_000_000] {
        let message = bytes.take(n);
        let key: [u8; 16] = bytes.take(16).try_into().unwrap();
        check(20, true, &plain::sha1::sha1(&message), |out| {
            sha1(&message, out)
        });
        check(20, true, &plain::hmac::hmac_sha1(&key, &message), |out| {
            hmac_sha1(&key, &message, out)
        });
        check(32, true, &plain::hmac::hmac_sha256(&key, &message), |out| {
            hmac_sha256(&key, &message, out)
        });
        check(32, true, &plain::sha256::sha256(&message), |out| {
            sha256(&message, out)
        });
        check(19, true, &plain::md5::md5(&message), |out| {
            md5(&message, out)
        });
        check(16, true, &plain::cmac::cmac(&key, &message), |out| {
            aes128_cmac(&key, &message, out)
        });
    }
}

#[test]
fn hmac_keys() {
    let mut bytes = Bytes(3);
    for n in 0..=100 {
        let (key, message) = (bytes.take(n), bytes.take(3 * n));
        check(20, true, &plain::hmac::hmac_sha1(&key, &message), |out| {
            hmac_sha1(&key, &message, out)
        });
        check(32, true, &plain::hmac::hmac_sha256(&key, &message), |out| {
            hmac_sha256(&key, &message, out)
        });
    }
}

#[test]
fn blocks() {
    let mut bytes = Bytes(4);
    for _ in 0..1000 {
        let key: [u8; 16] = bytes.take(16).try_into().unwrap();
        let block: [u8; 16] = bytes.take(16).try_into().unwrap();
        let want = plain::aes::encrypt(&plain::aes::expand_key(&key), &block);
        check(16, true, &want, |out| aes128(&key, &block, out));
    }
}

#[test]
fn wrong_lengths() {
    let mut bytes = Bytes(5);
    let key: [u8; 16] = bytes.take(16).try_into().unwrap();
    let block: [u8; 16] = bytes.take(16).try_into().unwrap();
    let tag = plain::cmac::cmac(&key, &block);
    let cipher = plain::aes::encrypt(&plain::aes::expand_key(&key), &block);
    for room in 0..40 {
        check(room, true, &plain::sha1::sha1(&block), |out| {
            sha1(&block, out)
        });
        check(room, true, &plain::hmac::hmac_sha1(&key, &block), |out| {
            hmac_sha1(&key, &block, out)
        });
        check(room, true, &plain::sha256::sha256(&block), |out| {
            sha256(&block, out)
        });
        check(room, true, &plain::hmac::hmac_sha256(&key, &block), |out| {
            hmac_sha256(&key, &block, out)
        });
        check(room, true, &plain::md5::md5(&block), |out| md5(&block, out));
        check(room, true, &tag, |out| aes128_cmac(&key, &block, out));
        check(room, true, &cipher, |out| aes128(&key, &block, out));
        for n in (0..40).filter(|n| *n != 16) {
            let wrong = bytes.take(n);
            check(room, false, &tag, |out| aes128_cmac(&wrong, &block, out));
            check(room, false, &cipher, |out| aes128(&wrong, &block, out));
            check(room, false, &cipher, |out| aes128(&key, &wrong, out));
            check(room, false, &cipher, |out| aes128(&wrong, &wrong, out));
        }
    }
}

/// The reference adds word by word, plain Rust likewise but folds later: the same sums.
#[test]
fn sums() {
    let mut bytes = Bytes(6);
    for n in (0..=300).chain([1_399, 1_400, 65_534, 65_535]) {
        for address in [4, 16] {
            let (source, destination) = (bytes.take(address), bytes.take(address));
            for segment in [bytes.take(n), vec![0xff; n]] {
                assert_eq!(
                    plain::checksum::sum(&source, &destination, &segment),
                    reference::checksum::sum(&source, &destination, &segment),
                );
            }
        }
    }
}
