/* Embankery's calls for C and for any language that calls C: TCP-AO (RFC 5925, RFC 5926) between IP
 * and a small TCP, and TCP MD5 (RFC 2385) for peers that know nothing better. Link libembankery.a
 * (x86-64 Linux).
 *
 * Every call may be made with any bytes of any lengths: none asks for anything to be tested
 * beforehand. What C itself needs stays the caller's, and is said again at each call ("C needs"):
 *   - a pointer is good for the length beside it; where the length is 0 it is not used and may be NULL
 *     (tested, not proved);
 *   - a buffer lent for writing (a pointer without const) overlaps no other buffer of the call, so
 *     nothing is signed in place;
 *   - no other thread writes to a buffer of the call while it runs, or touches one lent for writing.
 * A call keeps no pointer, allocates nothing and has no state of its own, so calls may run at the same
 * time where no buffer that one of them writes is a buffer of another; tables, prepared or not, are only
 * read and may be shared. Nothing is claimed of how long a call takes: no call hides, by its timing, what
 * it is given.
 *
 * A segment is the TCP header with its options and data, as on the wire, without an IP header. An
 * address is 4 bytes (IPv4) or 16 (IPv6), as on the wire. Ports and ISNs that are passed as numbers
 * are numbers: no htons, no htonl.
 */
#ifndef EMBANKERY_H
#define EMBANKERY_H

#include <stddef.h>
#include <stdint.h>

#ifdef __cplusplus
extern "C" {
#endif

/* The answer.
 *
 * The calls whose names begin tcpao_ or tcpmd5_ give a number in bits 0 to 7 of the answer, and a value
 * in bits 32 to 63. Beside 10 to 17 and 45 bits 8 to 15 say whose entry the value names: 0 the key
 * table's, 1 the MD5 table's (beside 45 always 1). Else they are zero, as bits 16 to 31 always are.
 *
 *   no.  meaning
 *    0   accept, or done
 *    1   pass: a bare SYN whose pair no entry matches, without TCP-AO or, with setting 0, with it
 *
 *   A table is refused:
 *   10   the entry is cut off before its end
 *   11   the entry's kind is none of 4, 5 (IPv4), 6 and 7 (IPv6); in the MD5 table, neither 4 nor 6
 *   12   a 1,025th entry begins
 *   13   the entry's flags or algorithm are not listed, or its MAC's length is not 4 to 16; in the
 *        MD5 table, an ID is not 0
 *   14   a low port is above its high port
 *   15   a prefix length is above 32 (IPv4) or 128 (IPv6), or address bits are set past it
 *   16   the key's length is 0 or above 80, or its padding is not zero
 *   17   a socket pair exists that this entry and an earlier one both match, and they share SendID
 *        or RecvID
 *   44   the prepared table's length is not that of its counts, a count is above 1,024, or a second
 *        table stands beside it
 *   45   a socket pair exists that this entry of the MD5 table and one of the key table both match
 *
 *   The call is refused:
 *   18   the state is not 177 bytes long, or its family is neither 4 (IPv4) nor 6 (IPv6)
 *   19   the addresses are not both 4 or both 16 bytes long
 *
 *   An arriving segment is dropped:
 *   20   the segment's length or data offset is bad
 *   21   the segment's options are malformed
 *   22   the segment has two TCP-AO, two TCP MD5, or both together
 *   23   the segment's addresses and ports are not the connection's
 *   24   the segment is the wrong one for the connection's stage
 *   25   the segment has no TCP-AO
 *   26   no entry that matches the pair has the segment's KeyID as its RecvID; by TCP MD5, none
 *        matches the pair
 *   27   the MAC's length is not the entry's; by TCP MD5, the option's is not 18
 *   28   the sequence number has no position
 *   29   the MAC, or TCP MD5's digest, differs
 *   40   the segment's checksum is wrong
 *   46   TCP MD5 is due, and the segment has TCP-AO
 *   47   TCP MD5 is due, and the segment has neither that nor TCP-AO
 *
 *   A segment is not signed, or a call not done:
 *   30   signing: the segment's length or data offset is bad
 *   31   signing: the options are malformed, or TCP-AO or TCP MD5 is there already
 *   32   signing: the data offset would be above 15, or the result longer than 65,535 bytes
 *   33   signing: the segment's ports are not the connection's
 *   34   signing: the segment is the wrong one for the connection's stage
 *   35   no matching entry has the outgoing SendID (opening, signing) or the RecvID to ask; by TCP
 *        MD5, none matches, or asking
 *   36   signing: the sequence number has no position, or a SYN's (bare or with ACK) is not our ISN
 *   37   signing, preparing: the output is too short
 *
 * The value beside 0 is, of tcpao_judge, tcpao_judge_syn and tcpao_open_passive, the segment's sequence
 * number extension, by TCP MD5 always 0; of tcpao_sign the signed length; of tcpao_check_table how many
 * entries the key table has; of tcpao_prepare the length written. Beside 10 to 17 and 45 it is the
 * entry's index, from 0. Else it is 0. 177 is EMBANKERY_STATE_BYTES.
 *
 * Where several apply, 18 is given before 19, then 10 to 17 of the key table, 10 to 17 of the MD5 table
 * and 45, or 44 in their place, and then the others in the order of this list, but 40 right behind 20,
 * 46 and 47 right behind 24, and 32 right behind 35. Of a table's entries the first that is refused
 * counts; of one entry 12 comes first, then 11, 10, 13, 14, 15, 16 and 17.
 *
 * A call that is refused (10 and above) leaves every buffer as it was, but for one thing: drops 20 to 29,
 * 40, 46 and 47 by tcpao_judge on an open connection add one to that number's count. A passive opening
 * that only passes its SYN is not refused: it writes the empty state, all zero.
 */
#define EMBANKERY_NUMBER(answer) ((unsigned)((uint64_t)(answer) & 255u))
#define EMBANKERY_IN_MD5(answer) ((unsigned)((uint64_t)(answer) >> 8 & 255u))
#define EMBANKERY_VALUE(answer) ((uint32_t)((uint64_t)(answer) >> 32))

#define EMBANKERY_DONE 0   /* also: accept */
#define EMBANKERY_PASS 1

/* The key table.
 *
 * Entries one behind the other, at most EMBANKERY_ENTRIES; none is allowed. The order matters only for
 * which refusal is given, and its index. Numbers of two bytes are big-endian. Of one entry, with an
 * address of w bytes:
 *
 *   bytes  field
 *   1      kind: 4 or 5 (IPv4, w = 4), 6 or 7 (IPv6, w = 16)
 *   1      flags, a sum: 1, the MAC covers all options, else only TCP-AO; 2, the local side is behind
 *          address translation; 4, the remote side is (RFC 6978). Of such a side address and port count
 *          as zero for the MAC and its key, so that they may be rewritten on the way; the entry matches
 *          what is seen here, the checksum is over what is really there, and the peer's entry has 2 and
 *          4 the other way round
 *   1      algorithm: 1, HMAC-SHA-1; 2, AES-128-CMAC; 3, HMAC-SHA-256
 *   1      SendID: the KeyID of segments that we sign
 *   1      RecvID: the KeyID of segments that we receive
 *   2, 2   local port, low and high, both included
 *   2, 2   remote port, low and high
 *   w, 1   local address, and its prefix length in bits
 *   w, 1   remote address, and its prefix length
 *   1      only in kinds 5 and 7: the MAC's length, 4 to 16 bytes; in kinds 4 and 6 it is 12
 *   1      key length, 1 to 80
 *   80     the key, and zeros behind it
 *
 * An entry matches a socket pair of its family when both ports lie in the ranges and, on each side, the
 * first prefix-length bits agree; prefix length 0 matches every address. Address bits past the prefix
 * are zero.
 *
 * The MD5 table.
 *
 * The keys of peers that sign only by TCP MD5, in a table of its own, likewise at most EMBANKERY_ENTRIES.
 * An entry has the same bytes, of kind 4 or 6 alone, so that a key table given in its place is refused:
 *
 *   bytes  field
 *   1      kind: 4 (IPv4, w = 4) or 6 (IPv6, w = 16)
 *   1      0
 *   1      19, TCP MD5's kind in a segment
 *   1, 1   0, 0
 *   2, 2   local port, low and high, both included
 *   2, 2   remote port, low and high
 *   w, 1   local address, and its prefix length in bits
 *   w, 1   remote address, and its prefix length
 *   1      key length, 1 to 80
 *   80     the key, and zeros behind it
 *
 * It matches as an entry of the key table does. Since TCP MD5 has no key IDs, no two of its entries may
 * match one pair (17); and a pair goes one way or the other, so no entry of each may (45).
 *
 * Both tables, as bytes or prepared.
 *
 * Every call on a connection takes both tables, in the form that form says:
 *
 *   form 0           keys and md5 are the tables' own bytes, of which either may be empty. Every call
 *                    checks both anew, as tcpao_check_table does: an entry that shares an ID with one
 *                    before it is compared with all before it, and every MD5 entry with all before it
 *                    and with every key entry, so that with many entries a call may spend nearly all
 *                    its time on that
 *   any other value  keys is a prepared table, which tcpao_prepare wrote once and which has both; md5 is
 *                    empty (else 44)
 *
 * A call with a prepared table gives what it would give with the bytes that were prepared. Any bytes may
 * come as one. Where their length is not that of their counts, or a count is above EMBANKERY_ENTRIES, the
 * call is refused with 44, in the place of 10 to 17 and 45. Nothing else is tested: every stored entry
 * reads as one that a table could hold, 17 and 45 are not tested again, and of several entries that fit
 * the first is taken. So keep a prepared table as safe as the tables, and prepare it anew where these
 * change: until then a call goes by the old one. keys_len is the length that tcpao_prepare gave, not the
 * room of the buffer (else 44). A new one is written to another buffer while calls with the old one run.
 * States go on with it: they hold IDs, no entries. Its bytes are documented in docs/BOUNDARY.md, "The
 * prepared form"; a later version of the library may have another form, and no byte says which it is, so
 * what was stored is prepared anew with a new library.
 */
#define EMBANKERY_FORM_BYTES 0
#define EMBANKERY_FORM_PREPARED 1
#define EMBANKERY_ENTRIES 1024 /* of each table */
#define EMBANKERY_PREPARED_BYTES(entries) (4 + 129 * (size_t)(entries)) /* of both tables' entries */
#define EMBANKERY_PREPARED_MAX EMBANKERY_PREPARED_BYTES(2 * EMBANKERY_ENTRIES) /* 264,196 */
#define EMBANKERY_IPV4_ENTRY_BYTES 104 /* of kind 4; one more of kind 5 */
#define EMBANKERY_IPV6_ENTRY_BYTES 128 /* of kind 6; one more of kind 7 */

/* A connection's state.
 *
 * EMBANKERY_STATE_BYTES bytes of the caller's, which the openings write and the calls on a connection
 * read and write. state must be writable even where the call is refused: the calls may write back the
 * bytes that they found. Nothing else is kept anywhere, so a state may be copied, stored and given back
 * as bytes; but an old copy takes the references, keys and counts back to what they were. Integers are
 * big-endian. Any bytes are a state; one whose family is neither 4 nor 6, such as all zero, belongs to
 * no connection and gets 18.
 *
 *   at   bytes  field
 *   0    1      family: 4 or 6
 *   1    1      stage: 1 open, any other value opening
 *   2    1      outgoing SendID
 *   3    1      RecvID asked of the peer
 *   4    2      local port
 *   6    2      remote port
 *   8    4      our ISN
 *   12   4      the peer's ISN
 *   16   16     local address, IPv4 in the first four bytes; those behind are zero from an opening,
 *               and are carried untouched
 *   32   16     remote address, likewise
 *   48   8      reference of the direction that we sign
 *   56   8      reference of the arriving direction
 *   64   8      how many segments were accepted since the opening
 *   72   80     how many were dropped with 20, 21, .. 29, eight bytes each
 *   152  8      how many were dropped with 40
 *   160  16     how many were dropped with 46 and 47, eight bytes each
 *   176  1      way: 1 TCP MD5, any other value TCP-AO
 *
 * The segment that opens is not counted, and a count stops at 2^64 - 1. Later versions may append
 * fields; what stands here keeps its place.
 *
 * Once open, a segment's position is the whole number from 0 to 2^64 - 1 that has its sequence number as
 * lower half and lies less than 2^31 from its direction's reference, if there is one; the extension is
 * the upper half. While opening a segment's position is its sequence number, and its extension 0.
 *
 * A connection goes the way by which it was opened, and never accepts the other. By TCP MD5 there are no
 * key IDs (an opening sets both to 0) and no positions: once it is open both references stay, every
 * extension is 0, and a segment without SYN may have any number.
 *
 * WARNING: an opening that is refused does not clear the buffer. One that was used before still holds the
 * old connection, and later calls would go on with that. Look at the answer's number, and use a buffer of
 * zeros for each opening. A passive opening whose SYN is only passed does clear it: all bytes are zero
 * then, and later calls give 18.
 */
#define EMBANKERY_STATE_BYTES 177

/* What signing adds to a segment, and the most that a segment may have. */
#define EMBANKERY_ADDED_BYTES 20 /* the most that signing adds: a MAC of 16 bytes, or TCP MD5 */
#define EMBANKERY_SEGMENT_BYTES 65535

/* Checks both tables. Gives 0 with the number of entries of the key table, or 10 to 17 or 45 with an
 * entry's index, or 44. Writes nothing.
 *
 * C needs: pointers good for their lengths.
 */
uint64_t tcpao_check_table(uint8_t form, const uint8_t *keys, size_t keys_len,
                           const uint8_t *md5, size_t md5_len);

/* Prepares both tables, given as bytes: writes to out their prepared form, of
 * EMBANKERY_PREPARED_BYTES(n) bytes where both together have n entries. Room for EMBANKERY_PREPARED_MAX
 * bytes is always enough; so is room for
 * keys_len / EMBANKERY_IPV4_ENTRY_BYTES + md5_len / EMBANKERY_IPV4_ENTRY_BYTES entries.
 *
 * Gives 0 with the length written, or 10 to 17, 45, 37. Where it gives 0 it writes so many bytes at the
 * front of out, and what stands behind them stays; else out stays.
 *
 * C needs: pointers good for their lengths; out overlaps neither keys nor md5.
 */
uint64_t tcpao_prepare(const uint8_t *keys, size_t keys_len, const uint8_t *md5, size_t md5_len,
                       uint8_t *out, size_t out_len);

/* Opens actively by TCP-AO: writes the state of a connection whose SYN is yet to be signed and sent.
 * send_id names the entry of the key table whose key signs it; the entry must match the pair. The key
 * asked of the peer is that entry's RecvID.
 *
 * Gives 0, or 18 (of state_len only), 19, 10 to 17, 45, 44, 35. Writes all of state where it gives 0; else
 * state stays: see the warning above.
 *
 * C needs: pointers good for their lengths; state overlaps neither keys, md5, local nor remote.
 */
uint64_t tcpao_open_active(uint8_t form, const uint8_t *keys, size_t keys_len,
                           const uint8_t *md5, size_t md5_len, const uint8_t *local, size_t local_len,
                           const uint8_t *remote, size_t remote_len, uint16_t local_port,
                           uint16_t remote_port, uint32_t isn, uint8_t send_id,
                           uint8_t *state, size_t state_len);

/* Opens actively by TCP MD5: likewise, by the entry of the MD5 table that matches the pair.
 *
 * Gives 0, or 18 (of state_len only), 19, 10 to 17, 45, 44, 35. Writes all of state where it gives 0; else
 * state stays: see the warning above.
 *
 * C needs: pointers good for their lengths; state overlaps neither keys, md5, local nor remote.
 */
uint64_t tcpmd5_open_active(uint8_t form, const uint8_t *keys, size_t keys_len,
                            const uint8_t *md5, size_t md5_len, const uint8_t *local, size_t local_len,
                            const uint8_t *remote, size_t remote_len, uint16_t local_port,
                            uint16_t remote_port, uint32_t isn, uint8_t *state, size_t state_len);

/* Judges a bare SYN (SYN set, ACK clear) without a state. source and destination are the segment's, so
 * source is the peer.
 *
 * If an entry of the MD5 table matches the pair, the SYN goes by TCP MD5: it gets 46 with TCP-AO, and 47
 * with neither. Otherwise it goes by TCP-AO, and TCP MD5 in it counts as no TCP-AO: without TCP-AO it gets
 * 25 if any entry matches the pair, else 1. With TCP-AO whose KeyID no entry for the pair has, it gets 26
 * if any entry matches the pair, whatever setting is. Only where no entry matches the pair does setting
 * decide: 0 gives 1 (pass), any other value gives 26.
 *
 * Gives 0 with the extension, which is 0; or 1, 19, 10 to 17, 45, 44, 20, 40, 21, 22, 24, 46, 47, 25 to 27,
 * 29. Writes nothing.
 *
 * C needs: pointers good for their lengths.
 */
uint64_t tcpao_judge_syn(uint8_t form, const uint8_t *keys, size_t keys_len,
                         const uint8_t *md5, size_t md5_len, const uint8_t *source, size_t source_len,
                         const uint8_t *destination, size_t destination_len,
                         const uint8_t *segment, size_t segment_len, uint8_t setting);

/* Opens passively: takes the same bare SYN and our ISN, judges it again as tcpao_judge_syn does and, where
 * that accepts, writes the state of an open connection, of the way that the SYN is signed. source is the
 * peer, destination is us. By TCP-AO the entry found gives the outgoing key and the key asked of the peer;
 * the SYN's RNextKeyID may then change the outgoing key, as at tcpao_judge.
 *
 * Gives what tcpao_judge_syn gives, or 18 (of state_len only) before all others. Writes all of state where
 * it gives 0, and where it gives 1: then all zero, the empty state. Else state stays: see the warning above.
 *
 * C needs: pointers good for their lengths; state overlaps neither keys, md5, source, destination nor
 * segment.
 */
uint64_t tcpao_open_passive(uint8_t form, const uint8_t *keys, size_t keys_len,
                            const uint8_t *md5, size_t md5_len, const uint8_t *source, size_t source_len,
                            const uint8_t *destination, size_t destination_len,
                            const uint8_t *segment, size_t segment_len, uint32_t isn, uint8_t setting,
                            uint8_t *state, size_t state_len);

/* Judges an arriving segment on a connection. source is the peer, destination is us. While opening the
 * segment must be the SYN+ACK; once open it may be any that carries SYN and ACK, or no SYN.
 *
 * The checksum is tested over source and destination as given, also where they are not the connection's.
 * Gives 0 with the extension, or 18, 19, 10 to 17, 45, 44, 20, 40, 21 to 24, then by TCP-AO 25 to 29 or by
 * TCP MD5 46, 47, 26, 27, 29. It changes state so:
 *   - 0 while opening: sets the stage to open, the peer's ISN to the segment's number, both references
 *     to the ISNs, and all counts to 0;
 *   - 0 once open: adds one to the count of accepted segments and, by TCP-AO, sets the arriving
 *     direction's reference to the larger of the old one and the segment's position;
 *   - 0 in both cases by TCP-AO: where the segment's RNextKeyID is the SendID of an entry that matches the
 *     pair, that becomes the outgoing SendID;
 *   - 20 to 29, 40, 46 and 47 once open: adds one to that number's count.
 * Else state stays.
 *
 * C needs: pointers good for their lengths; state overlaps neither keys, md5, source, destination nor
 * segment.
 */
uint64_t tcpao_judge(uint8_t form, const uint8_t *keys, size_t keys_len,
                     const uint8_t *md5, size_t md5_len, const uint8_t *source, size_t source_len,
                     const uint8_t *destination, size_t destination_len,
                     const uint8_t *segment, size_t segment_len, uint8_t *state, size_t state_len);

/* Signs a segment, the connection's way: writes to out the segment with TCP-AO or TCP MD5 directly behind
 * byte 20, padded with kind 1 bytes to a multiple of four (two behind TCP MD5), the data offset raised by
 * these words and the right checksum, over the connection's addresses and all that is written; the
 * segment's own checksum is not looked at. While opening only the bare SYN whose number is our ISN may be
 * signed; once open a SYN+ACK whose number is our ISN, or a segment without SYN.
 *
 * out must have room for what is signed, EMBANKERY_ADDED_BYTES more than the segment being always enough,
 * else 37. Gives 0 with the signed length n, or 18, 10 to 17, 45, 44, 30 to 37. Where it gives 0 it writes
 * the first n bytes of out, and what stands behind them stays; in state it changes only the reference of
 * the direction that we sign, to the larger of the old one and the segment's position, and by TCP MD5 once
 * open not even that. Else both stay.
 *
 * C needs: pointers good for their lengths; out overlaps neither keys, md5, segment nor state, and state
 * neither keys, md5 nor segment.
 */
uint64_t tcpao_sign(uint8_t form, const uint8_t *keys, size_t keys_len,
                    const uint8_t *md5, size_t md5_len, const uint8_t *segment, size_t segment_len,
                    uint8_t *out, size_t out_len, uint8_t *state, size_t state_len);

/* Asks the peer for another key: sets the RecvID that signed segments carry as RNextKeyID from now on. An
 * entry that matches the pair must have it. It may be asked while opening, too. By TCP MD5 it is always
 * refused with 35.
 *
 * Gives 0, or 18, 10 to 17, 45, 44, 35. Where it gives 0 it changes that one byte of state; else state
 * stays.
 *
 * C needs: pointers good for their lengths; state overlaps neither keys nor md5.
 */
uint64_t tcpao_ask(uint8_t form, const uint8_t *keys, size_t keys_len,
                   const uint8_t *md5, size_t md5_len, uint8_t recv_id,
                   uint8_t *state, size_t state_len);

/* The MAC library.
 *
 * Each of these gives how many bytes it wrote at the front of out: the whole answer is that number. Where
 * out is shorter than that, or an AES key or block has not 16 bytes, it gives 0 and writes nothing. What
 * stands in out behind the bytes written stays.
 */

/* SHA-1 (FIPS 180-4) of the message: writes 20 bytes.
 *
 * C needs: pointers good for their lengths; out does not overlap message.
 */
uint64_t mac_sha1(const uint8_t *message, size_t message_len, uint8_t *out, size_t out_len);

/* HMAC-SHA-1 (RFC 2104) of the message under a key of any length, also none: writes 20 bytes.
 *
 * C needs: pointers good for their lengths; out overlaps neither key nor message.
 */
uint64_t mac_hmac_sha1(const uint8_t *key, size_t key_len, const uint8_t *message, size_t message_len,
                       uint8_t *out, size_t out_len);

/* SHA-256 (FIPS 180-4) of the message: writes 32 bytes.
 *
 * C needs: pointers good for their lengths; out does not overlap message.
 */
uint64_t mac_sha256(const uint8_t *message, size_t message_len, uint8_t *out, size_t out_len);

/* HMAC-SHA-256 (RFC 2104) of the message under a key of any length, also none: writes 32 bytes.
 *
 * C needs: pointers good for their lengths; out overlaps neither key nor message.
 */
uint64_t mac_hmac_sha256(const uint8_t *key, size_t key_len, const uint8_t *message, size_t message_len,
                         uint8_t *out, size_t out_len);

/* MD5 (RFC 1321) of the message: writes 16 bytes. It is here for TCP MD5; as a hash it is broken.
 *
 * C needs: pointers good for their lengths; out does not overlap message.
 */
uint64_t mac_md5(const uint8_t *message, size_t message_len, uint8_t *out, size_t out_len);

/* One block encrypted by AES-128 (FIPS 197). key_len and block_len must be 16: writes 16 bytes.
 *
 * C needs: pointers good for their lengths; out overlaps neither key nor block.
 */
uint64_t mac_aes128(const uint8_t *key, size_t key_len, const uint8_t *block, size_t block_len,
                    uint8_t *out, size_t out_len);

/* AES-CMAC (RFC 4493) of the message. key_len must be 16: writes 16 bytes.
 *
 * C needs: pointers good for their lengths; out overlaps neither key nor message.
 */
uint64_t mac_aes128_cmac(const uint8_t *key, size_t key_len, const uint8_t *message, size_t message_len,
                         uint8_t *out, size_t out_len);

#ifdef __cplusplus
}
#endif

#endif
