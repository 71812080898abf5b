/* Both ends of one connection in one program: A signs a segment, B accepts it, and drops a damaged
 * copy. */
#include <stdio.h>
#include <stdlib.h>
#include <string.h>

#include "embankery.h"

enum { ENTRY = EMBANKERY_IPV4_ENTRY_BYTES, STATE = EMBANKERY_STATE_BYTES, ROOM = 64 };
enum { SYN = 2, ACK = 16, PORT_A = 40000, PORT_B = 179, BYTES = EMBANKERY_FORM_BYTES };

static const uint8_t A[4] = {10, 0, 0, 1}, B[4] = {10, 0, 0, 2};

/* A key table with one entry, for one peer. The two ends' IDs are exchanged, the key is the same. */
static void make_table(uint8_t entry[ENTRY], const uint8_t local[4], const uint8_t remote[4],
                       uint8_t send_id, uint8_t recv_id)
{
    static const char key[] = "our master key";
    const uint8_t front[] = {4 /* IPv4 */, 1 /* all options covered */, 1 /* HMAC-SHA-1-96 */,
                             send_id, recv_id,
                             0, 0, 255, 255 /* local ports */, 0, 0, 255, 255 /* remote ports */,
                             local[0], local[1], local[2], local[3], 32 /* its prefix */,
                             remote[0], remote[1], remote[2], remote[3], 32,
                             sizeof key - 1};
    memset(entry, 0, ENTRY);
    memcpy(entry, front, sizeof front);
    memcpy(entry + sizeof front, key, sizeof key - 1);
}

/* A segment as a small TCP would hand it down: no options, checksum zero. Gives its length. */
static size_t make_segment(uint8_t segment[ROOM], uint16_t from, uint16_t to, uint16_t number,
                           uint8_t flags, const char *data)
{
    const uint8_t header[20] = {from >> 8, from & 255, to >> 8, to & 255, 0, 0, number >> 8,
                                number & 255, 0, 0, 0, 0, 0x50, flags, 255, 255};
    memcpy(segment, header, 20);
    memcpy(segment + 20, data, strlen(data));
    return 20 + strlen(data);
}

/* The value beside the number, which must be the one expected. */
static unsigned expect(unsigned number, uint64_t answer)
{
    if (EMBANKERY_NUMBER(answer) != number) {
        fprintf(stderr, "expected %u, got %u\n", number, EMBANKERY_NUMBER(answer));
        exit(1);
    }
    return EMBANKERY_VALUE(answer);
}

int main(void)
{
    uint8_t table_a[ENTRY], table_b[ENTRY], a[STATE] = {0}, b[STATE] = {0};
    uint8_t plain[ROOM], wire[ROOM];
    size_t length;

    make_table(table_a, A, B, 1, 2);
    make_table(table_b, B, A, 2, 1);

    /* A's SYN opens B's end, B's SYN+ACK opens A's. No peer goes by TCP MD5: that table is empty. */
    expect(0, tcpao_open_active(BYTES, table_a, ENTRY, NULL, 0, A, 4, B, 4, PORT_A, PORT_B, 1000, 1, a,
                                STATE));
    length = make_segment(plain, PORT_A, PORT_B, 1000, SYN, "");
    length = expect(0, tcpao_sign(BYTES, table_a, ENTRY, NULL, 0, plain, length, wire, ROOM, a, STATE));
    expect(0, tcpao_open_passive(BYTES, table_b, ENTRY, NULL, 0, A, 4, B, 4, wire, length, 2000, 1, b,
                                 STATE));
    length = make_segment(plain, PORT_B, PORT_A, 2000, SYN | ACK, "");
    length = expect(0, tcpao_sign(BYTES, table_b, ENTRY, NULL, 0, plain, length, wire, ROOM, b, STATE));
    expect(0, tcpao_judge(BYTES, table_a, ENTRY, NULL, 0, B, 4, A, 4, wire, length, a, STATE));

    length = make_segment(plain, PORT_A, PORT_B, 1001, ACK, "hello");
    length = expect(0, tcpao_sign(BYTES, table_a, ENTRY, NULL, 0, plain, length, wire, ROOM, a, STATE));
    printf("signed: %u bytes\n", (unsigned)length);

    printf("as signed: accepted with extension %u\n",
           expect(0, tcpao_judge(BYTES, table_b, ENTRY, NULL, 0, A, 4, B, 4, wire, length, b, STATE)));

    wire[36] ^= 1; /* the first byte of the data */
    expect(40, tcpao_judge(BYTES, table_b, ENTRY, NULL, 0, A, 4, B, 4, wire, length, b, STATE));
    printf("damaged: dropped with 40\n");
    return 0;
}
