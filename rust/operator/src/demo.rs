//! The rollover demonstration: two ends whose sequence numbers roll over while they exchange segments.

use crate::show::verdict_in_words;
use crate::stop::{Stop, DONE, REFUSED};
use embankery::{Algorithm, Connection, Entry, KeyTable, Refusal, UnknownKeyId, Verdict};
use formats::capture::tcp::with_checksum;
use std::io::Write;
use std::net::Ipv4Addr;

const CLIENT: (Ipv4Addr, u16) = (Ipv4Addr::new(10, 0, 0, 1), 40_000);
const SERVER: (Ipv4Addr, u16) = (Ipv4Addr::new(10, 0, 0, 2), 179);
const ISNS: [u32; 2] = [0xFFFF_FFC0, 0xFFFF_FFD8];
const DATA: u32 = 24;
const SYN: u8 = 0x02;
const ACK: u8 = 0x10;

/// An end: its table, its state, and the pair as it holds it.
struct End {
    name: &'static str,
    table: KeyTable,
    state: Connection,
    here: (Ipv4Addr, u16),
    there: (Ipv4Addr, u16),
}

impl End {
    fn sign(&mut self, sequence: u32, flags: u8, data: &[u8]) -> Result<Vec<u8>, Refusal> {
        let segment = segment(self.here.1, self.there.1, sequence, flags, data);
        self.state.sign(&self.table, &segment)
    }

    fn judge(&mut self, segment: &[u8]) -> Verdict {
        self.state
            .judge(&self.table, self.there.0, self.here.0, segment)
    }
}

fn segment(from: u16, to: u16, sequence: u32, flags: u8, data: &[u8]) -> Vec<u8> {
    let mut segment = [from.to_be_bytes(), to.to_be_bytes()].concat();
    segment.extend(sequence.to_be_bytes());
    segment.extend([0, 0, 0, 0, 0x50, flags, 0xFF, 0xFF, 0, 0, 0, 0]);
    segment.extend(data);
    segment
}

/// Two keys: each end's IDs are the other's exchanged.
fn table(here: Ipv4Addr, there: Ipv4Addr, ids: [[u8; 2]; 2]) -> Result<KeyTable, Refusal> {
    let algorithms = [Algorithm::HmacSha1_96, Algorithm::Aes128Cmac96];
    let keys = ["last year's key", "this year's key"];
    let entries: Result<Vec<Entry>, Refusal> = (0..2)
        .map(|i| {
            let entry = Entry::ipv4().local(here, 32).remote(there, 32);
            let entry = entry.send_id(ids[i][0]).recv_id(ids[i][1]);
            entry.algorithm(algorithms[i]).key(keys[i]).build()
        })
        .collect();
    KeyTable::new(&entries?)
}

/// Runs it, and writes a line for each arrival. It ends with 1 if something came out otherwise than it must.
pub fn demo(out: &mut dyn Write) -> Result<u8, Stop> {
    let mut demo = Demo { out, good: true };
    demo.run()?;
    Ok(if demo.good { DONE } else { REFUSED })
}

struct Demo<'a> {
    out: &'a mut dyn Write,
    good: bool,
}

const TITLE: &str = "\
A client and a server exchange signed segments while their 32-bit sequence numbers pass ffffffff. In
whatever order they arrive, each end finds where a segment lies, written extension:number. \"key\" is
the KeyID of a segment, \"signs\" the one under which its receiver signs from then on. Key 1 has KeyID
61 from the client and 84 from the server, key 2 has 62 and 85.

at      what                   number    lies at     key   no.  signs  what happened
";

impl Demo<'_> {
    /// A segment arrives, and must get this number.
    fn arrives(
        &mut self,
        end: &mut End,
        what: &str,
        segment: &[u8],
        number: u8,
    ) -> Result<(), Stop> {
        let sequence = u32::from_be_bytes([segment[4], segment[5], segment[6], segment[7]]);
        let key = segment[22];
        let verdict = end.judge(segment);
        let (given, extension, words) = verdict_in_words(verdict);
        let lies = match verdict {
            Verdict::Accept { .. } => format!("{extension}:{sequence:08x}"),
            _ => "-".to_string(),
        };
        self.good &= given == number;
        let (to, signs) = (end.name, end.state.send_id());
        let place = format!("{to:<7} {what:<22} {sequence:08x}  {lies:<11}");
        writeln!(self.out, "{place} {key:>3} {given:>5}  {signs:>5}  {words}")?;
        Ok(())
    }

    fn run(&mut self) -> Result<(), Stop> {
        self.out.write_all(TITLE.as_bytes())?;
        let [mut client, mut server] = ends()?;
        let data = [b'a'; DATA as usize];
        let places = [1, 2, 3, 4].map(|i| ISNS[0].wrapping_add(1 + (i - 1) * DATA));
        let mut sent = Vec::new();
        for place in places {
            sent.push(client.sign(place, ACK, &data)?);
        }
        let mut damaged = sent[1].clone();
        damaged[40] ^= 1;
        let forged = with_checksum(CLIENT.0.into(), SERVER.0.into(), &damaged);
        self.arrives(&mut server, "data 1", &sent[0], 0)?;
        self.arrives(&mut server, "data 4, too early", &sent[3], 0)?;
        self.arrives(&mut server, "data 2, damaged", &damaged, 40)?;
        self.arrives(&mut server, "data 2, forged", &forged, 29)?;
        self.arrives(&mut server, "data 2", &sent[1], 0)?;
        self.arrives(&mut server, "data 4 again", &sent[3], 0)?;
        self.arrives(&mut server, "data 3", &sent[2], 0)?;

        writeln!(
            self.out,
            "        the server's operator asks for key 2; what it signs then says so"
        )?;
        server.state.ask(&server.table, 62)?;
        let answer = server.sign(ISNS[1].wrapping_add(1), ACK, b"use key 2")?;
        self.arrives(&mut client, "data, asks for key 2", &answer, 0)?;
        let next = client.sign(ISNS[0].wrapping_add(1 + 4 * DATA), ACK, b"under key 2")?;
        self.arrives(&mut server, "data under key 2", &next, 0)?;
        writeln!(self.out)?;
        for end in [client, server] {
            let state = &end.state;
            let drops = state.drops().filter(|(_, count)| *count > 0);
            let drops: Vec<String> = drops
                .map(|(number, count)| format!("{count} with {number}"))
                .collect();
            let drops = match drops.is_empty() {
                true => "none".to_string(),
                false => drops.join(", "),
            };
            let (high, low) = (state.seen_reference() >> 32, state.seen_reference() as u32);
            let counts = format!("{} accepted, dropped: {drops}", state.accepted());
            writeln!(
                self.out,
                "{}: {counts}; reference {high}:{low:08x}",
                end.name
            )?;
        }
        Ok(())
    }
}

/// Both ends, open: the client's SYN opens the server's end, the server's SYN+ACK the client's.
fn ends() -> Result<[End; 2], Refusal> {
    let tables = [
        table(CLIENT.0, SERVER.0, [[61, 84], [62, 85]])?,
        table(SERVER.0, CLIENT.0, [[84, 61], [85, 62]])?,
    ];
    let mut client = Connection::open_active(&tables[0], CLIENT, SERVER, ISNS[0], 61)?;
    let syn = segment(CLIENT.1, SERVER.1, ISNS[0], SYN, b"");
    let syn = client.sign(&tables[0], &syn)?;
    let drop = UnknownKeyId::Drop;
    let server = Connection::open_passive(&tables[1], CLIENT.0, SERVER.0, &syn, ISNS[1], drop)?;
    let mut server = server.ok_or(Refusal::UnknownKeyId)?;
    let answer = segment(SERVER.1, CLIENT.1, ISNS[1], SYN | ACK, b"");
    let answer = server.sign(&tables[1], &answer)?;
    if let Verdict::Drop(refusal) = client.judge(&tables[0], SERVER.0, CLIENT.0, &answer) {
        return Err(refusal);
    }
    let [at_client, at_server] = tables;
    Ok([
        End {
            name: "client",
            table: at_client,
            state: client,
            here: CLIENT,
            there: SERVER,
        },
        End {
            name: "server",
            table: at_server,
            state: server,
            here: SERVER,
            there: CLIENT,
        },
    ])
}
