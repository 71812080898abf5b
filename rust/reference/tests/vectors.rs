//! The published vectors: FIPS 180-4, FIPS 197, RFC 1321, RFC 2202, RFC 4231, RFC 4493, RFC 9235 and RFC 9187;
//! and segments that Linux signed by TCP MD5.

mod common;

use common::*;
use kit::Pair;
use reference::boundary as c;
use reference::crypto;
use reference::mac::{self, Direction, Ends};
use reference::segment::{read_options, Header, WithAo};
use reference::table;

/// The lines of a file in `vectors`, split into columns, without the remarks.
fn columns(text: &'static str) -> Vec<Vec<&'static str>> {
    text.lines()
        .filter(|line| !line.starts_with('#') && !line.trim().is_empty())
        .map(|line| line.split_whitespace().collect())
        .collect()
}

fn hex(text: &str) -> Vec<u8> {
    (0..text.len() / 2)
        .map(|i| u8::from_str_radix(&text[2 * i..2 * i + 2], 16).unwrap())
        .collect()
}

fn bytes_or_none(column: &str) -> Vec<u8> {
    if column == "-" {
        vec![]
    } else {
        hex(column)
    }
}

fn sixteen(column: &str) -> [u8; 16] {
    hex(column).try_into().unwrap()
}

#[test]
fn fips_180() {
    let lines = columns(include_str!("../vectors/fips180.txt"));
    assert_eq!(lines.len(), 5);
    for line in lines {
        let message = if line[0] == "million-a" {
            vec![0x61; 1_000_000]
        } else {
            bytes_or_none(line[0])
        };
        let digest = hex(line[1]);
        assert_eq!(crypto::sha1(&message)[..], digest);
        let mut out = [0; 20];
        assert_eq!(c::mac_sha1(&message, &mut out), 20);
        assert_eq!(out[..], digest);
    }
}

#[test]
fn fips_180_256() {
    let lines = columns(include_str!("../vectors/fips180-256.txt"));
    assert_eq!(lines.len(), 5);
    for line in lines {
        let message = if line[0] == "million-a" {
            vec![0x61; 1_000_000]
        } else {
            bytes_or_none(line[0])
        };
        let digest = hex(line[1]);
        assert_eq!(crypto::sha256(&message)[..], digest);
        let mut out = [0; 32];
        assert_eq!(c::mac_sha256(&message, &mut out), 32);
        assert_eq!(out[..], digest);
    }
}

#[test]
fn rfc_1321() {
    let lines = columns(include_str!("../vectors/rfc1321.txt"));
    assert_eq!(lines.len(), 7);
    for line in lines {
        let (message, digest) = (bytes_or_none(line[0]), hex(line[1]));
        assert_eq!(crypto::md5(&message)[..], digest);
        let mut out = [0; 16];
        assert_eq!(c::mac_md5(&message, &mut out), 16);
        assert_eq!(out[..], digest);
    }
}

#[test]
fn fips_197() {
    let lines = columns(include_str!("../vectors/fips197.txt"));
    assert_eq!(lines.len(), 2);
    for line in lines {
        let (key, plain, cipher) = (sixteen(line[0]), sixteen(line[1]), sixteen(line[2]));
        assert_eq!(crypto::aes128(&key, &plain), cipher);
        let mut out = [0; 16];
        assert_eq!(c::mac_aes128(&key, &plain, &mut out), 16);
        assert_eq!(out, cipher);
    }
}

#[test]
fn rfc_2202() {
    let lines = columns(include_str!("../vectors/rfc2202.txt"));
    assert_eq!(lines.len(), 7);
    for line in lines {
        let (key, message, digest) = (hex(line[1]), hex(line[2]), hex(line[3]));
        assert_eq!(
            crypto::hmac_sha1(&key, &message)[..],
            digest,
            "case {}",
            line[0]
        );
        let mut out = [0; 20];
        assert_eq!(c::mac_hmac_sha1(&key, &message, &mut out), 20);
        assert_eq!(out[..], digest);
    }
}

#[test]
fn rfc_4231() {
    let lines = columns(include_str!("../vectors/rfc4231.txt"));
    assert_eq!(lines.len(), 7);
    for line in lines {
        let (key, message, digest) = (hex(line[1]), hex(line[2]), hex(line[3]));
        // Case 5 is cut.
        let cut = if line[0] == "5" { 16 } else { 32 };
        assert_eq!(digest.len(), cut);
        let whole = crypto::hmac_sha256(&key, &message);
        assert_eq!(whole[..cut], digest, "case {}", line[0]);
        let mut out = [0; 32];
        assert_eq!(c::mac_hmac_sha256(&key, &message, &mut out), 32);
        assert_eq!(out, whole);
    }
}

#[test]
fn rfc_4493() {
    let lines = columns(include_str!("../vectors/rfc4493.txt"));
    assert_eq!(lines.len(), 7);
    let key = sixteen(lines[0][1]);
    let subkeys = (sixteen(lines[1][1]), sixteen(lines[2][1]));
    assert_eq!(crypto::cmac_subkeys(&key), subkeys);
    for line in &lines[3..] {
        let message = bytes_or_none(line[1]);
        assert_eq!(message.len().to_string(), line[0]);
        assert_eq!(crypto::aes128_cmac(&key, &message), sixteen(line[2]));
        let mut out = [0; 16];
        assert_eq!(c::mac_aes128_cmac(&key, &message, &mut out), 16);
        assert_eq!(out, sixteen(line[2]));
    }
}

/// One packet of RFC 9235.
struct Packet {
    section: &'static str,
    algorithm: u8,
    flags: u8,
    source_isn: u32,
    destination_isn: u32,
    traffic_key: Vec<u8>,
    source: Vec<u8>,
    destination: Vec<u8>,
    segment: Vec<u8>,
}

impl Packet {
    fn header(&self) -> Header {
        Header::read(&self.segment).unwrap()
    }

    fn ends(&self) -> Ends<'_> {
        let header = self.header();
        Ends {
            source: &self.source,
            destination: &self.destination,
            source_port: header.source_port,
            destination_port: header.destination_port,
            source_isn: self.source_isn,
            destination_isn: self.destination_isn,
        }
    }

    fn carrier(&self) -> WithAo<'_> {
        let header = self.header();
        let options = read_options(&self.segment, &header).unwrap();
        WithAo {
            segment: &self.segment,
            header,
            ao: options.ao.unwrap(),
        }
    }

    fn mac(&self) -> &[u8] {
        let at = self.carrier().ao.at;
        &self.segment[at + 4..at + 16]
    }

    /// The entry as the sender holds it.
    fn sender_key(&self) -> Entry {
        let ao = self.carrier().ao;
        Entry {
            flags: self.flags,
            algorithm: self.algorithm,
            key: b"testvector".to_vec(),
            ..Entry::between(&self.source, &self.destination).ids(ao.key_id, ao.rnext_key_id)
        }
    }

    /// The pair as the sender holds it.
    fn sender_pair(&self) -> Pair {
        let header = self.header();
        Pair {
            local: self.source.clone(),
            remote: self.destination.clone(),
            local_port: header.source_port,
            remote_port: header.destination_port,
        }
    }

    /// An end with the sender's key.
    fn sender(&self) -> End {
        End::new(REFERENCE, self.sender_pair(), self.sender_key().bytes())
    }

    /// The other end.
    fn receiver(&self) -> End {
        let table = self.sender_key().mirror().bytes();
        End::new(REFERENCE, self.sender_pair().mirror(), table)
    }

    /// The segment as it was before TCP-AO was put in.
    fn unsigned(&self) -> Vec<u8> {
        let ao = self.carrier().ao;
        let mut segment = self.segment.clone();
        segment.drain(ao.at..ao.at + ao.length);
        segment[12] -= 4 << 4;
        segment
    }
}

fn packets() -> Vec<Packet> {
    columns(include_str!("../vectors/rfc9235.txt"))
        .into_iter()
        .map(|line| Packet {
            section: line[0],
            algorithm: line[1].parse().unwrap(),
            flags: line[2].parse().unwrap(),
            source_isn: u32::from_str_radix(line[3], 16).unwrap(),
            destination_isn: u32::from_str_radix(line[4], 16).unwrap(),
            traffic_key: hex(line[5]),
            source: hex(line[6]),
            destination: hex(line[7]),
            segment: hex(line[8]),
        })
        .collect()
}

/// Traffic key, checksum and MAC of all 32 packets.
#[test]
fn rfc_9235_keys_and_macs() {
    let packets = packets();
    assert_eq!(packets.len(), 32);
    for packet in &packets {
        let bytes = packet.sender_key().bytes();
        let entry = table::read(&bytes).unwrap()[0];
        let ends = packet.ends();
        let input = mac::traffic_key_input(entry.algorithm, &ends);
        assert_eq!(input.len(), if packet.source.len() == 4 { 29 } else { 53 });
        assert_eq!(
            mac::traffic_key(entry.algorithm, entry.key, &ends),
            packet.traffic_key,
            "{}",
            packet.section
        );
        // As printed, or computed anew where that was wrong, as the file says.
        let sum = reference::checksum::sum(&packet.source, &packet.destination, &packet.segment);
        assert_eq!(sum, 0xffff, "{}", packet.section);
        assert_eq!(
            mac::mac(&entry, Direction::Leaving, &ends, 0, &packet.carrier()),
            packet.mac(),
            "{}",
            packet.section
        );
    }
}

/// The eight conversations, each through the calls at both ends: SYN through judge_syn and
/// open_passive, SYN+ACK through an opening connection, the two others on open ones. Where the MAC
/// leaves the options out, where TCP-AO stands among them does not matter, and signing gives the
/// published MACs.
#[test]
fn rfc_9235_conversations() {
    let packets = packets();
    for four in packets.chunks(4) {
        let [syn, syn_ack, from_client, from_server] = four else {
            panic!("not four");
        };
        let client_key = syn.sender_key();
        let mut client = syn.sender();
        let mut server = syn.receiver();
        let section = syn.section;

        // The SYN.
        assert_eq!(client.open_active(syn.source_isn, client_key.send_id), 0);
        signs_alike(&mut client, syn);
        for setting in [0, 1] {
            assert_eq!(server.judge_syn(&syn.segment, setting), 0, "{section}");
        }
        assert_eq!(
            server.open_passive(&syn.segment, syn_ack.source_isn, 1),
            0,
            "{section}"
        );
        let opened = server.state();
        assert!(opened.is_open());
        assert_eq!(opened.peer_isn, syn.source_isn);
        assert_eq!(opened.arriving_reference, syn.source_isn as u64);
        assert_eq!(opened.outgoing_send_id, client_key.recv_id);
        assert_eq!(opened.asked_recv_id, client_key.send_id);

        // The SYN+ACK.
        signs_alike(&mut server, syn_ack);
        assert_eq!(client.judge(&syn_ack.segment), 0, "{section}");
        let opened = client.state();
        assert!(opened.is_open());
        assert_eq!(opened.peer_isn, syn_ack.source_isn);
        assert_eq!(opened.accepted, 0);

        // The others.
        signs_alike(&mut client, from_client);
        assert_eq!(server.judge(&from_client.segment), 0, "{section}");
        signs_alike(&mut server, from_server);
        assert_eq!(client.judge(&from_server.segment), 0, "{section}");
        assert_eq!(server.state().accepted, 1);
        assert_eq!(client.state().accepted, 1);

        // All but the SYN once more, on open connections that are put together here.
        for packet in &four[1..] {
            let mut end = packet.receiver();
            let mut state = kit::State::of_pair(&end.pair);
            state.stage = 1;
            state.our_isn = packet.destination_isn;
            state.peer_isn = packet.source_isn;
            state.arriving_reference = packet.source_isn as u64;
            end.set(state);
            let opened = end.clone();
            assert_eq!(end.judge(&packet.segment), 0, "{}", packet.section);
            assert_eq!(
                end.state().arriving_reference,
                packet.header().sequence as u64
            );
            every_byte_counts(&opened, packet);
        }
    }
}

/// Signs the packet as it was without TCP-AO.
fn signs_alike(end: &mut End, packet: &Packet) {
    let signed = end.try_sign(&packet.unsigned()).unwrap();
    let ao = packet.carrier().ao;
    assert_eq!(
        signed[20..24],
        [29, 16, ao.key_id, ao.rnext_key_id],
        "{}",
        packet.section
    );
    let Packet {
        source,
        destination,
        segment,
        ..
    } = packet;
    assert_eq!(kit::segment::sum(source, destination, &signed), 0xffff);
    if packet.flags == 0 {
        assert_eq!(&signed[24..36], packet.mac(), "{}", packet.section);
        // The same words in another order: the same checksum.
        assert_eq!(signed[16..18], segment[16..18], "{}", packet.section);
    } else {
        assert_ne!(&signed[24..36], packet.mac(), "{}", packet.section);
    }
}

/// A packet with one bit changed, tried in each byte, has a wrong checksum. With a right one again it is
/// dropped, unless the bit was in the checksum or, where options are left out, changes another option without
/// making it malformed.
fn every_byte_counts(opened: &End, packet: &Packet) {
    let ao = packet.carrier().ao;
    let header_bytes = packet.header().bytes();
    for at in 0..packet.segment.len() {
        let mut segment = packet.segment.clone();
        segment[at] ^= 1 << (at % 8);
        let in_other_option =
            (20..header_bytes).contains(&at) && !(ao.at..ao.at + ao.length).contains(&at);
        let left_out = (16..18).contains(&at) || (packet.flags == 0 && in_other_option);
        let answer = number(opened.clone().judge(&segment));
        let size = Header::read(&segment).is_none();
        assert_eq!(answer, if size { 20 } else { 40 });
        let segment = opened.arriving(&segment);
        let answer = number(opened.clone().judge(&segment));
        if left_out && !in_other_option {
            assert_eq!(answer, 0, "{} byte {at}", packet.section);
        } else if !left_out {
            assert!(
                (20..=29).contains(&answer),
                "{} byte {at}: {answer}",
                packet.section
            );
        }
    }
}

/// A segment that Linux signed by TCP MD5.
struct LinuxSegment {
    source: Vec<u8>,
    destination: Vec<u8>,
    ports: (u16, u16),
    key: Vec<u8>,
    segment: Vec<u8>,
}

impl LinuxSegment {
    fn new(line: &[&str]) -> LinuxSegment {
        let address = |text: &str| match text.parse().unwrap() {
            std::net::IpAddr::V4(address) => address.octets().to_vec(),
            std::net::IpAddr::V6(address) => address.octets().to_vec(),
        };
        LinuxSegment {
            source: address(line[2]),
            destination: address(line[3]),
            ports: (line[4].parse().unwrap(), line[5].parse().unwrap()),
            key: hex(line[6]),
            segment: hex(line[7]),
        }
    }

    fn header(&self) -> Header {
        Header::read(&self.segment).unwrap()
    }

    /// The end that sent it.
    fn sender(&self) -> End {
        let pair = Pair {
            local: self.source.clone(),
            remote: self.destination.clone(),
            local_port: self.ports.0,
            remote_port: self.ports.1,
        };
        let entry = Entry {
            key: self.key.clone(),
            ..Entry::md5(&self.source, &self.destination)
        };
        let mut end = End::new(REFERENCE, pair, vec![]);
        end.md5 = entry.bytes();
        end
    }

    /// The segment as it was before MD5 and its padding were put in, at bytes 20 to 39.
    fn unsigned(&self) -> Vec<u8> {
        let mut segment = self.segment.clone();
        segment.drain(20..40);
        segment[12] -= 5 << 4;
        segment
    }

    /// Signed here, it has Linux's digest and checksum; only the two kind 1 bytes stand behind.
    fn signs_alike(&self, end: &mut End) {
        let signed = end.try_sign(&self.unsigned()).unwrap();
        let theirs = &self.segment;
        assert_eq!(signed[..20], theirs[..20]);
        assert_eq!(theirs[20..22], [1, 1]);
        assert_eq!(signed[20..38], theirs[22..40]);
        assert_eq!(signed[38..40], [1, 1]);
        assert_eq!(signed[40..], theirs[40..]);
    }
}

/// Two connections of Linux's through the calls at both ends, in both families.
#[test]
fn linux_md5() {
    let lines = columns(include_str!("../vectors/linux-6.12-md5.txt"));
    let mut seen = 0;
    for name in ["beyond-md5-v4", "beyond-md5-reset-v6"] {
        let segments: Vec<LinuxSegment> = lines
            .iter()
            .filter(|line| line[0] == name)
            .map(|line| LinuxSegment::new(line))
            .collect();
        let [syn, syn_ack, rest @ ..] = &segments[..] else {
            panic!("not three");
        };
        let (mut client, mut server) = (syn.sender(), syn_ack.sender());
        assert_eq!(client.open_active_md5(syn.header().sequence), 0);
        syn.signs_alike(&mut client);
        assert_eq!(server.judge_syn(&syn.segment, 0), 0);
        let isn = syn_ack.header().sequence;
        assert_eq!(server.open_passive(&syn.segment, isn, 0), 0);
        syn_ack.signs_alike(&mut server);
        assert_eq!(client.judge(&syn_ack.segment), 0);
        for segment in rest {
            let ends = if segment.source == syn.source {
                [&mut client, &mut server]
            } else {
                [&mut server, &mut client]
            };
            let [sender, receiver] = ends;
            segment.signs_alike(sender);
            assert_eq!(receiver.judge(&segment.segment), 0);
            every_bit_counts(receiver, &segment.segment);
        }
        seen += segments.len();
        let accepted = client.state().accepted + server.state().accepted;
        assert_eq!(accepted, rest.len() as u64);
    }
    assert_eq!(seen, lines.len());
}

/// A changed bit gives 40, and with a right checksum 29 or less: but where it is in an option other than MD5.
fn every_bit_counts(receiver: &End, segment: &[u8]) {
    let header = 4 * usize::from(segment[12] >> 4);
    for at in (0..segment.len()).filter(|at| !(16..18).contains(at)) {
        let mut changed = segment.to_vec();
        changed[at] ^= 1 << (at % 8);
        let damaged = number(receiver.clone().judge(&changed));
        assert!(damaged == 40 || damaged == 20 && at == 12);
        let answer = number(receiver.clone().judge(&receiver.arriving(&changed)));
        let other_option = (20..22).contains(&at) || (40..header).contains(&at);
        assert!(other_option || answer >= 20, "byte {at}");
    }
}

/// RFC 9187's sequence with segments that are really signed, in both families and under both
/// algorithms.
#[test]
fn rfc_9187() {
    let lines = columns(include_str!("../vectors/rfc9187.txt"));
    assert_eq!(lines.len(), 29);
    let four = (A4.to_vec(), B4.to_vec());
    let six = (A6.to_vec(), B6.to_vec());
    for (a, b) in [four, six] {
        for send_id in [1, 3] {
            let (mut sender, mut receiver) = opened(&a, &b);
            let mut state = sender.state();
            state.outgoing_send_id = send_id;
            state.signing_reference = 0;
            sender.set(state);
            let mut state = receiver.state();
            state.arriving_reference = 0;
            receiver.set(state);

            let accepted = receiver.state().accepted;
            let mut largest = 0;
            for line in &lines {
                let extension: u32 = line[0].parse().unwrap();
                let sequence = u32::from_str_radix(line[1], 16).unwrap();
                let segment = sender.sign(sequence, ACK, b"rfc 9187");
                let word = receiver.judge(&segment);
                assert_eq!((number(word), value(word)), (0, extension), "{line:?}");
                largest = largest.max((extension as u64) << 32 | sequence as u64);
                assert_eq!(receiver.state().arriving_reference, largest);
                assert_eq!(sender.state().signing_reference, largest);
            }
            assert_eq!(receiver.state().accepted, accepted + 29);
        }
    }
}
