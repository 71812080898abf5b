/* A server prepares its tables once, a key table for a thousand peers and an MD5 table for an old one, and opens,
 * signs and judges with the prepared table. Its peer has one entry, and gives its table as bytes. */
#include <stdio.h>
#include <stdlib.h>
#include <string.h>

#include "embankery.h"

enum { ENTRY = EMBANKERY_IPV4_ENTRY_BYTES, STATE = EMBANKERY_STATE_BYTES, PEERS = 1000, ROOM = 64 };
enum { SYN = 2, ACK = 16, PORT_A = 40000, PORT_B = 179 };
enum { BYTES = EMBANKERY_FORM_BYTES, PREPARED = EMBANKERY_FORM_PREPARED };

/* The last of the thousand peers, the server, and the old peer. */
static const uint8_t A[4] = {10, 1, 3, 231}, B[4] = {10, 0, 0, 1}, OLD[4] = {10, 9, 9, 9};

/* An entry for two addresses and any ports: of the key table or, with algorithm 19, of the MD5 table. */
static void put_entry(uint8_t *entry, uint8_t algorithm, uint8_t send_id, uint8_t recv_id,
                      const uint8_t local[4], const uint8_t remote[4])
{
    static const char key[] = "our master key";
    const uint8_t front[] = {4 /* IPv4 */, algorithm != 19 /* all options covered */, algorithm,
                             send_id, recv_id, 0, 0, 255, 255, 0, 0, 255, 255,
                             local[0], local[1], local[2], local[3], 32,
                             remote[0], remote[1], remote[2], remote[3], 32, sizeof key - 1};
    memset(entry, 0, ENTRY);
    memcpy(entry, front, sizeof front);
    memcpy(entry + sizeof front, key, sizeof key - 1);
}

/* A segment without options. Gives its length. */
static size_t make_segment(uint8_t segment[ROOM], uint16_t from, uint16_t to, uint16_t number,
                           uint8_t flags, const char *data)
{
    const uint8_t header[20] = {from >> 8, from & 255, to >> 8, to & 255, 0, 0, number >> 8,
                                number & 255, 0, 0, 0, 0, 0x50, flags, 255, 255};
    memcpy(segment, header, 20);
    memcpy(segment + 20, data, strlen(data));
    return 20 + strlen(data);
}

/* The value beside 0; anything else ends the program. */
static size_t done(uint64_t answer)
{
    if (EMBANKERY_NUMBER(answer) != EMBANKERY_DONE) {
        fprintf(stderr, "got %u\n", EMBANKERY_NUMBER(answer));
        exit(1);
    }
    return EMBANKERY_VALUE(answer);
}

int main(void)
{
    static uint8_t keys[PEERS * ENTRY], prepared[EMBANKERY_PREPARED_MAX];
    uint8_t md5[ENTRY], entry[ENTRY], a[STATE] = {0}, b[STATE] = {0}, plain[ROOM], wire[ROOM];
    size_t i, length, size; /* size is what was written: the calls take that, not the buffer's room */

    /* Once, and anew where a table changes. */
    for (i = 0; i < PEERS; i++) {
        const uint8_t peer[4] = {10, 1, (uint8_t)(i / 256), (uint8_t)(i % 256)};
        put_entry(keys + i * ENTRY, 1, 2, 1, B, peer);
    }
    put_entry(md5, 19, 0, 0, B, OLD);
    size = done(tcpao_prepare(keys, sizeof keys, md5, sizeof md5, prepared, sizeof prepared));
    printf("prepared: %u bytes\n", (unsigned)size);

    /* A's SYN opens the server's end, whose SYN+ACK opens A's. */
    put_entry(entry, 1, 1, 2, A, B);
    done(tcpao_open_active(BYTES, entry, ENTRY, NULL, 0, A, 4, B, 4, PORT_A, PORT_B, 1000, 1, a, STATE));
    length = make_segment(plain, PORT_A, PORT_B, 1000, SYN, "");
    length = done(tcpao_sign(BYTES, entry, ENTRY, NULL, 0, plain, length, wire, ROOM, a, STATE));
    done(tcpao_open_passive(PREPARED, prepared, size, NULL, 0, A, 4, B, 4, wire, length, 2000, 1, b,
                            STATE));
    length = make_segment(plain, PORT_B, PORT_A, 2000, SYN | ACK, "");
    length = done(tcpao_sign(PREPARED, prepared, size, NULL, 0, plain, length, wire, ROOM, b, STATE));
    done(tcpao_judge(BYTES, entry, ENTRY, NULL, 0, B, 4, A, 4, wire, length, a, STATE));

    length = make_segment(plain, PORT_A, PORT_B, 1001, ACK, "hello");
    length = done(tcpao_sign(BYTES, entry, ENTRY, NULL, 0, plain, length, wire, ROOM, a, STATE));
    printf("as signed: accepted with extension %u\n",
           (unsigned)done(tcpao_judge(PREPARED, prepared, size, NULL, 0, A, 4, B, 4, wire, length, b,
                                      STATE)));

    /* The old peer's connection is opened by TCP MD5, with the same prepared table. */
    done(tcpmd5_open_active(PREPARED, prepared, size, NULL, 0, B, 4, OLD, 4, PORT_B, PORT_A, 3000, b,
                            STATE));
    length = make_segment(plain, PORT_B, PORT_A, 3000, SYN, "");
    length = done(tcpao_sign(PREPARED, prepared, size, NULL, 0, plain, length, wire, ROOM, b, STATE));
    printf("to the old peer: %u bytes, option kind %u\n", (unsigned)length, wire[20]);
    return 0;
}
