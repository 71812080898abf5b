//! What the command says of itself.

/// The command as a whole.
pub const ALL: &str = "\
embankery: key tables and captures for TCP-AO (RFC 5925) and TCP MD5 (RFC 2385)

  embankery table build    a key table or MD5 table from text
  embankery table check    what is wrong with tables, in words
  embankery table show     tables as text
  embankery desk           checks a capture: what each segment gets
  embankery record         writes one direction of a connection in a capture as a recording
  embankery explain        what a number means, what causes it, what to do
  embankery demo           two ends whose sequence numbers roll over

embankery COMMAND --help says more of each. Exit status: 0 all is well; 1 something was refused,
dropped or could not be judged; 2 bad usage, or a file cannot be read. docs/OPERATING.md has
the tables' grammar and the procedures.
";

/// `table build`.
pub const BUILD: &str = "\
embankery table build KEYS.txt > KEYS.table
embankery table build --md5 MD5.txt > MD5.table

Reads a table as text, has the archive check it, and writes its bytes. A mistake is named with its
line and entry, a refusal with its number too (embankery explain NUMBER). One block to an entry:

    entry peer-7                        a name, for messages only; may be left out
        local         10.0.0.1          an address, or a prefix such as 10.0.0.0/8
        local-ports   179               a port, a range such as 1024-65535, or any (usual)
        remote        10.0.7.0/24
        remote-ports  any
        send-id       1                 the KeyID that we send; the peer's recv-id
        recv-id       2                 the KeyID that the peer sends; the peer's send-id
        algorithm     hmac-sha-1        or aes-128-cmac, hmac-sha-256
        mac-length    12                4 to 16; 12 is usual
        options       covered           or not-covered: the MAC leaves the other options out
        nat           none              or local, remote, both: who is behind translation
        key           hex 0011aabb      1 to 80 bytes; or: file peer-7.key, its bytes as they are

local, remote, send-id, recv-id, algorithm and key must be there. # begins a comment. In the MD5
table the algorithm is tcp-md5, and send-id, recv-id, mac-length, options and nat are not there.
";

/// `table check`.
pub const CHECK: &str = "\
embankery table check [KEYS] [--md5 MD5]

Reads tables, each as text or as bytes, and says the first refusal in words: where, its number,
what it means. For a clash (17, 45): both entries, and a pair of ends that both match.
";

/// `table show`.
pub const SHOW: &str = "\
embankery table show [KEYS] [--md5 MD5] [--show-keys]

Writes tables as text. The keys are left out unless --show-keys is given; with it, the text can be
built again and gives the same bytes.
";

/// `desk`.
pub const DESK: &str = "\
embankery desk CAPTURE [--keys KEYS] [--md5 MD5] [--connection N] [--local ADDRESS]
                       [--problems] [--set-checksums]

Reads a capture (pcap or pcapng; Ethernet, raw IP, Linux cooked) and has the archive judge every
segment of each connection that an entry matches, both directions: what arrives at the endpoint
whose tables are given (in) by these, what arrives at its peer (out) by their mirror. A connection
can be judged if its SYN and SYN+ACK are in the capture, since the keys depend on both ISNs.

A line has the packet's number, the time since the first packet, the connection, the direction, the
index in the recording of that direction, the number (0 accepted), the extension, the KeyID, and
what happened. A summary by reason follows.

  --keys, --md5     the endpoint's tables, as text or as bytes
  --connection N    only this connection (embankery record --list has the numbers)
  --local ADDRESS   the endpoint's address; otherwise it is found by trying both ends
  --problems        only lines of segments that were not accepted
  --set-checksums   sets each segment's checksum right first: for a capture made on the sender,
                    where the network card writes checksums afterwards, so that all would get 40
";

/// `record`.
pub const RECORD: &str = "\
embankery record CAPTURE --keys KEYS [--md5 MD5] [--connection N] [--local ADDRESS] [--leaving]
                         [--set-checksums] > LINE.recording
embankery record CAPTURE --list

Lists the connections of a capture and writes one direction of one of them as a recording, which
the program desk reads: the key table, the connection just after its opening, and each segment that
arrives. That is the direction that arrives at the endpoint whose table is given; with --leaving it
is the other one, with the table's mirror. The list goes to the standard error, or with --list,
alone, to the standard output.
";

/// `explain`.
pub const EXPLAIN: &str = "\
embankery explain NUMBER
embankery explain

Says what a number means, what usually causes it and what to do; without a number, lists all.
";

/// `demo`.
pub const DEMO: &str = "\
embankery demo

Two ends open a connection just below the rollover of their sequence numbers, exchange segments
across it out of order, with a forgery and a damaged copy between, and change a key. Every line is
what the archive answered.
";
