/* The proved functions that can be linked, of libdecode.a, libexports.a, libbasics.a and libbit_stream.a.
 *
 * `tools/build NAME` writes target/staticlib/libNAME.a. The archives are for x86-64 Linux. Of other libraries they call memcpy only; they allocate
 * nothing and keep nothing between calls. Every input has an answer. From C: cc -Icompare/include PROGRAM.c target/staticlib/libdecode.a; from Rust:
 * rustc -L native=target/staticlib -l static=decode PROGRAM.rs, with the structs as #[repr(C)] (compare/src/ours.rs and its ours/ have them).
 *
 * A slice is a pointer and a length; the pointer is not null, also where the length is 0. No two buffers of a call overlap if one of them is
 * written. A bool is 0 or 1.
 *
 * `number` in an answer is 0, or says why the call was refused:
 *   1 a field, record or output needs more octets than there are     7 a payload length to set outside 6 to 37
 *   2 a length that does not fit                                     8 a data channel above 36, a place that a map does not have
 *   3 an unknown PDU type, a name that is not UTF-8, a bad list      9 a record length above 255
 *   4 a header of under two octets                                  10 a channel index above 39
 *   5 the wrong mode                                                11 neither area has a name
 *   6 a channel map that marks no channel                          12 a connection's setting outside its range
 * What has no meaning in an answer is 0, save two fields of BoardPacket. A call that is refused leaves its buffers as they were; board_call, as the
 * calls of its list left them.
 *
 * An address is six octets as they are sent, and whether it is random. A filter list is 7 octets for each address: 0 public or 1 random, then the six;
 * it is looked at only where it is in use. A time is in microseconds, an instant the same modulo 2^32. A channel is its index: 0 to 36 for data, 37 to
 * 39 for advertising. A PDU type is a header's four bits: 0 ADV_IND, 1 ADV_DIRECT_IND, 2 ADV_NONCONN_IND, 3 SCAN_REQ, 4 SCAN_RSP, 5 CONNECT_IND (the
 * connect request), 6 ADV_SCAN_IND.
 *
 * A device or a scanner does not live across calls yet: board_call and board_scanner_call replay a list from a fresh one on and answer one more
 * call. The list is octets, 272 for each call; octets after the last whole 272 are not looked at. The call that is answered may be shorter: octets
 * that it lacks are 0, and a header, records or a payload that do not lie in it whole are 0 and none. */
#ifndef BOARD_H
#define BOARD_H

#include <stdbool.h>
#include <stddef.h>
#include <stdint.h>

#ifdef __cplusplus
extern "C" {
#endif

/* Up to two numbers. */
typedef struct BoardGot {
    uint8_t number;
    size_t first;
    size_t second;
} BoardGot;

/* --- libdecode.a --- */

/* A PDU. ty: its type; receiver: of types 1, 3 and 5, which has_receiver says; its records are `count`, in the `len` octets of the payload from its
 * octet `start` on. The rest is a connect request's, times in microseconds:
 *   window_end     win_offset + win_size + 1250, from the end of the request on     map        as BoardMap has it, map_count its marks
 *   latency        how many events may be slept through                             hop        0 to 31
 *   timeout        so long without a packet ends the connection                     crc_init   24 bits
 *   interval       from one event to the next                                       sca        a code, 0 the worst clock, 7 the best
 *   sca 0 to 7: the clock is off by up to 500, 250, 150, 100, 75, 50, 30 and 20 parts per million
 * After a refusal `ty` is 15, and without a connect request `window_end` is 1250. */
typedef struct BoardPacket {
    uint8_t number;
    uint8_t ty;
    bool sender_random;
    uint8_t sender[6];
    bool has_receiver;
    bool receiver_random;
    uint8_t receiver[6];
    size_t start;
    size_t len;
    size_t count;
    uint32_t access_address;
    uint32_t crc_init;
    uint32_t win_size;
    uint32_t win_offset;
    uint32_t window_end;
    uint32_t interval;
    uint16_t latency;
    uint32_t timeout;
    uint8_t map[5];
    uint8_t map_count;
    uint8_t hop;
    uint8_t sca;
} BoardPacket;

/* Reads a PDU from its header and its payload. */
BoardPacket board_decode(const uint8_t *header, size_t header_len, const uint8_t *payload, size_t payload_len);

/* --- libexports.a: headers and PDUs --- */

/* A header. raw: its 16 bits, the first octet the lower one; tx_add, rx_add: the first and the second address is random; length: of the payload;
 * is_beacon: type 2; allows_adv_data: the type has records (0, 2, 4 and 6). */
typedef struct BoardHead {
    uint8_t number;
    uint16_t raw;
    uint8_t ty;
    bool tx_add;
    bool rx_add;
    uint8_t length;
    bool is_beacon;
    bool allows_adv_data;
} BoardHead;

/* What the first two octets say. */
BoardHead board_header(const uint8_t *raw, size_t raw_len);

/* first: a header of a type, and one that is given, with TxAdd, RxAdd and length set. Bits 4 and 5 of `ty` go into the header too. */
BoardGot board_new_header(uint8_t ty, bool tx_add, bool rx_add, uint8_t length);
BoardGot board_set_header(const uint8_t *raw, size_t raw_len, bool tx_add, bool rx_add, uint8_t length);

/* A built PDU: its header, and its payload, which the header counts, with zeros after it. */
typedef struct BoardFrame {
    uint8_t number;
    uint16_t header;
    uint8_t payload[37];
} BoardFrame;

/* Builds a PDU with records. which: 0 ADV_IND, 1 ADV_IND with Flags first, 2 ADV_NONCONN_IND, 3 a beacon, 4 SCAN_RSP, otherwise ADV_SCAN_IND. */
BoardFrame board_build(uint8_t which, const uint8_t own[6], bool random, const uint8_t *records, size_t records_len);

/* Builds an ADV_DIRECT_IND. */
BoardFrame board_build_directed(const uint8_t own[6], bool random, const uint8_t other[6], bool other_random);

/* --- libexports.a: a beacon, a scanner, a device --- */

/* What is transmitted: the header, with the payload, on these three channels in turn. */
typedef struct BoardSent {
    uint8_t number;
    uint16_t header;
    uint8_t first;
    uint8_t second;
    uint8_t third;
} BoardSent;

/* Makes a beacon and writes its payload to the front of tx. */
BoardSent board_beacon(const uint8_t own[6], bool random, const uint8_t *records, size_t records_len, uint8_t *tx, size_t tx_len);

/* What a scanner says of a packet. The sender and the place of its record area in the payload (as in BoardPacket) are those of a packet that is reported.
 * It reads the area as board_padded_area does: `len` is the whole area, `count` its records, and `taken` the octets that they took, the same as `len` where
 * no zeros follow them. channel: where it keeps listening, 0 after refusal 4. */
typedef struct BoardHeard {
    uint8_t number;
    bool reported;
    bool random;
    uint8_t sender[6];
    size_t start;
    size_t len;
    size_t count;
    size_t taken;
    uint8_t channel;
} BoardHeard;

/* A packet for a scanner after up to 3 timer updates (more count as 3), with a filter list in use or without. */
BoardHeard board_scan(bool filtered, const uint8_t *list, size_t list_len, uint8_t updates, const uint8_t *header, size_t header_len, const uint8_t *payload, size_t payload_len, bool crc_ok);

/* first: the channel that a scanner listens on after up to 3 timer updates (more count as 3), all at `time`; second: until when. */
BoardGot board_scanner(uint32_t time, uint32_t interval, uint8_t updates);

/* The same as BoardHeard; next: until when it listens, after a configure or a timer update. */
typedef struct BoardListened {
    uint8_t number;
    bool reported;
    bool random;
    uint8_t sender[6];
    size_t start;
    size_t len;
    size_t count;
    size_t taken;
    uint8_t channel;
    uint32_t next;
} BoardListened;

/* An entry for a scanner after the entries before it. An entry, numbers least significant octet first:
 *   | 0 kind | 1 CRC good | 2 0 | 3 length n | 4 time 4 | 8 interval 4 | 12 header 2 | 14 payload, n of 258 |
 * kind: 0 configure, 1 timer update, otherwise a packet. CRC good: 1, and no other number. time: of a configure or a timer update. interval: of a
 * configure, kept until the next. A packet of the list changes nothing. */
BoardListened board_scanner_call(bool filtered, const uint8_t *list, size_t list_len, const uint8_t *entries, size_t entries_len, const uint8_t *entry, size_t entry_len);

/* What a call answers, and the mode after it, standby where neither bool is 1. kind: 0 refused, 1 sent, 2 listen, 3 respond, 4 first event, 5 next
 * event, 6 stopped, 7 scan data set. header: to transmit with the buffer that the call wrote (1, 3); channel: where to do so, and to listen (1 to 5); at:
 * when the next tick is due (1), or until when to listen for the first event (4); access_address and crc_init: the connection's (4). */
typedef struct BoardSaid {
    uint8_t number;
    uint8_t kind;
    bool advertising;
    bool connected;
    uint8_t channel;
    uint16_t header;
    uint32_t at;
    uint32_t access_address;
    uint32_t crc_init;
} BoardSaid;

/* A call on a device after the calls before it. A call, numbers least significant octet first:
 *   | 0 kind | 1 CRC good | 2 buffer | 3 length n | 4 time 4 | 8 interval 4 | 12 header 2 | 14 records or payload, n of 258 |
 * kind: 0 start, 1 tick, 2 packet, 3 event, 5 scan data to set, otherwise stop. CRC good: 1, and no other number. buffer: 1 where a start, a tick or
 * the reply to a scan request is written to `second`, otherwise to `first`. time: of a start, or the end of a packet. interval: of a start. Scan data
 * that do not lie whole in the call are none, and none make the reply bare. Both buffers go through all calls of the list. */
BoardSaid board_call(const uint8_t own[6], bool random, const uint8_t *calls, size_t calls_len, const uint8_t *call, size_t call_len, uint8_t *first, size_t first_len, uint8_t *second, size_t second_len);

/* --- libbasics.a: records --- */

/* first: the number of records in an area. A record of length 0 is 2. */
BoardGot board_area(const uint8_t *s, size_t s_len);

/* The same as the hub reads an area, which a board may have filled with zeros: a length of 0 ends the records. second: how many octets they took, without
 * that zero. An octet after it that is not zero is 2. board_rewrite writes the records of so many octets again. */
BoardGot board_padded_area(const uint8_t *s, size_t s_len);

/* A record. kind: 0 the end of the area, 1 Flags, 2, 3 and 4 lists of UUIDs of 16, 32 and 128 bits, 5 service data, 6 a complete name, 7 a
 * shortened one, 8 data of a manufacturer, 9 any other. complete: of a list. value: the bits of Flags (1), a UUID (5), a company (8) or a type (9).
 * start, len: where the rest of its data lies in s, none for Flags. next: the position after the record, 0 at the end. */
typedef struct BoardStructure {
    uint8_t number;
    uint8_t kind;
    bool complete;
    uint16_t value;
    size_t start;
    size_t len;
    size_t next;
} BoardStructure;

/* The record at a position. board_record knows kinds 1 and 2, and has the others as 9; board_known reads these on to the kind that the type names. */
BoardStructure board_record(const uint8_t *s, size_t s_len, size_t at);
BoardStructure board_known(const uint8_t *s, size_t s_len, size_t at);

/* Writes a record to position `at` of out; first: the position after it. It is given as in BoardStructure: of Flags the low five bits of value count,
 * of a type the low eight, and kinds 0 and 10 to 255 are taken as 9. */
BoardGot board_write(uint8_t kind, bool complete, uint16_t value, size_t start, size_t len, const uint8_t *s, size_t s_len, size_t at, uint8_t *out, size_t out_len);

/* Reads an area and writes its records; first: the position after them. */
BoardGot board_rewrite(const uint8_t *s, size_t s_len, uint8_t *out, size_t out_len);

/* first: the UUID of 16 bits at a position of a list, second: the position after it; at the end 0 and the same position. */
BoardGot board_uuid_at(const uint8_t *data, size_t data_len, size_t at);

/* Flags. bits: those with a name, 0 to 4; limited, general: discoverable so (bits 0 and 1); classic: BR/EDR is supported (bit 2 is not set);
 * controller, host: LE and BR/EDR at once (bits 3 and 4). */
typedef struct BoardFlagsSaid {
    uint8_t bits;
    bool classic;
    bool limited;
    bool general;
    bool controller;
    bool host;
} BoardFlagsSaid;

/* What the octet of a Flags record says. */
BoardFlagsSaid board_flags(uint8_t octet);

/* A name: its `len` octets from `start` on, of the reply or of the advertisement. */
typedef struct BoardNameSaid {
    uint8_t number;
    bool in_reply;
    size_t start;
    size_t len;
} BoardNameSaid;

/* The player's name in two areas, which are read as board_padded_area does: complete in the reply, or else complete in the advertisement, shortened in the reply,
 * shortened in the advertisement; of those the area's first that is UTF-8. A bad advertisement is refused first, then a bad reply, then where there is no name. */
BoardNameSaid board_name(const uint8_t *advertisement, size_t advertisement_len, const uint8_t *reply, size_t reply_len);

/* --- libbasics.a: UTF-8, UUIDs, instants, channels, maps, hops, settings --- */

/* Whether octets are UTF-8. */
bool board_utf8(const uint8_t *s, size_t s_len);

/* A UUID of 128 bits, most significant octet first. */
typedef struct BoardUuid {
    uint8_t octets[16];
} BoardUuid;

/* The full UUID of a short one. */
BoardUuid board_uuid16(uint16_t value);
BoardUuid board_uuid32(uint32_t value);

/* An instant so many microseconds later, and the microseconds to `time` from an earlier instant: modulo 2^32. */
uint32_t board_later(uint32_t time, uint32_t micros);
uint32_t board_since(uint32_t time, uint32_t earlier);

/* A channel. rf_channel: its place among the 40 by frequency, from 0; whitening_iv: where its whitening starts; freq: its centre in MHz. */
typedef struct BoardChannel {
    uint8_t number;
    uint8_t index;
    uint8_t rf_channel;
    uint8_t whitening_iv;
    uint16_t freq;
} BoardChannel;

/* The advertising channel after up to 3 steps from 37 on (more count as 3, which is 37 again), and the data channel of an index. */
BoardChannel board_advertising_channel(uint8_t times);
BoardChannel board_data_channel(uint8_t index);

/* A channel map. raw: bit b of octet k marks channel 8k + b, and the last three bits are cleared; count: how many it marks. */
typedef struct BoardMap {
    uint8_t raw[5];
    uint8_t count;
} BoardMap;

/* The map of five octets, and the one that marks all. */
BoardMap board_map(const uint8_t raw[5]);
BoardMap board_all_channels(void);

/* first: 1 where a map marks a data channel; the channel that it marks at place n, from 0. */
BoardGot board_is_used(const uint8_t raw[5], uint8_t channel);
BoardGot board_by_index(const uint8_t raw[5], uint8_t n);

/* first: the next unmapped channel, second: the channel to use. Of `hop` the low five bits count. */
BoardGot board_hop(const uint8_t raw[5], uint8_t unmapped, uint8_t hop);

/* The settings of a connection, as the request counts them: interval, win_size and win_offset by 1,250 microseconds, timeout by 10 milliseconds, latency by
 * events. map: as BoardMap has it, `channels` its marks. */
typedef struct BoardSettingsSaid {
    uint8_t number;
    uint8_t hop;
    uint8_t map[5];
    uint8_t channels;
    uint16_t interval;
    uint16_t latency;
    uint16_t timeout;
    uint8_t win_size;
    uint16_t win_offset;
} BoardSettingsSaid;

/* The settings in the 22 octets after a connect request's two addresses. A map that marks no channel is 6, and is tested first. Otherwise 12, unless
 *   hop          5 to 16                                 timeout      10 to 3,200, and 4 times it above (1 + latency) times interval
 *   channels     2 and more                              win_size     1 to 8, and below interval
 *   interval     6 to 3,200                              win_offset   up to interval
 *   latency      up to 499
 * board_decode reads a request with any settings; board_call begins a connection on these alone, and refuses a request with others in the same way. */
BoardSettingsSaid board_settings(const uint8_t octets[22]);

/* --- libbasics.a: octets at a position, which may lie past the end --- */

/* first: the position n octets on. */
BoardGot board_skip(const uint8_t *s, size_t s_len, size_t at, size_t n);

/* first: how many octets are left, second: 1 where there are none. */
BoardGot board_bytes_left(const uint8_t *s, size_t s_len, size_t at);

/* A part of s: its `len` octets from `start` on; next: the position after it. */
typedef struct BoardPart {
    uint8_t number;
    size_t start;
    size_t len;
    size_t next;
} BoardPart;

/* The place of n octets. */
BoardPart board_read_slice(const uint8_t *s, size_t s_len, size_t at, size_t n);

/* Fills dst; first: the position after what was read. */
BoardGot board_read_into(const uint8_t *s, size_t s_len, size_t at, uint8_t *dst, size_t dst_len);

/* Octets that were read; next: the position after them. */
typedef struct BoardFive {
    uint8_t number;
    uint8_t octets[5];
    size_t next;
} BoardFive;

/* The same. */
typedef struct BoardSix {
    uint8_t number;
    uint8_t octets[6];
    size_t next;
} BoardSix;

/* Five octets, and six. */
BoardFive board_read_array5(const uint8_t *s, size_t s_len, size_t at);
BoardSix board_read_array6(const uint8_t *s, size_t s_len, size_t at);

/* first: a number, least significant octet first, second: the position after it. */
BoardGot board_read_u8(const uint8_t *s, size_t s_len, size_t at);
BoardGot board_read_u16_le(const uint8_t *s, size_t s_len, size_t at);
BoardGot board_read_u32_le(const uint8_t *s, size_t s_len, size_t at);

/* first: the position n octets on, which are kept. */
BoardGot board_write_skip(const uint8_t *out, size_t out_len, size_t at, size_t n);

/* How many octets can be written. */
size_t board_space_left(const uint8_t *out, size_t out_len, size_t at);

/* Writes all or nothing; first: the position after it. */
BoardGot board_write_slice(uint8_t *out, size_t out_len, size_t at, const uint8_t *other, size_t other_len);
BoardGot board_write_u8(uint8_t *out, size_t out_len, size_t at, uint8_t byte);
BoardGot board_write_u16_le(uint8_t *out, size_t out_len, size_t at, uint16_t value);
BoardGot board_write_u32_le(uint8_t *out, size_t out_len, size_t at, uint32_t value);

/* Writes as many octets as there is space for; first: their number, second: the position after them. */
BoardGot board_write_slice_truncate(uint8_t *out, size_t out_len, size_t at, const uint8_t *other, size_t other_len);

/* --- libbasics.a: UUIDs, headers and PDUs at a position --- */

/* The 16 octets of a UUID as they stand; next: the position after them. */
typedef struct BoardUuidRead {
    uint8_t number;
    uint8_t octets[16];
    size_t next;
} BoardUuidRead;

/* first: a UUID, least significant octet first, second: the position after it; the long one as it stands. */
BoardGot board_read_uuid16(const uint8_t *s, size_t s_len, size_t at);
BoardGot board_read_uuid32(const uint8_t *s, size_t s_len, size_t at);
BoardUuidRead board_read_uuid128(const uint8_t *s, size_t s_len, size_t at);

/* first: the position after a UUID that is written, in the same order. */
BoardGot board_write_uuid16(uint8_t *out, size_t out_len, size_t at, uint16_t value);
BoardGot board_write_uuid32(uint8_t *out, size_t out_len, size_t at, uint32_t value);
BoardGot board_write_uuid128(uint8_t *out, size_t out_len, size_t at, const uint8_t octets[16]);

/* first: a header's 16 bits, second: the position after it. */
BoardGot board_read_header(const uint8_t *s, size_t s_len, size_t at);

/* Writes the header of the first two octets of raw; first: the position after it. */
BoardGot board_write_header(uint8_t *out, size_t out_len, size_t at, const uint8_t *raw, size_t raw_len);

/* A PDU whose header begins at a position, and whose payload is all that follows it. */
BoardPacket board_read_pdu(const uint8_t *s, size_t s_len, size_t at);

/* --- libbasics.a: filters and Flags --- */

/* first: 1 where a list holds an address. */
BoardGot board_whitelist(const uint8_t *list, size_t list_len, const uint8_t octets[6], bool random);

/* first: 1 where an address may scan, may connect, and is heard by a scanner. scan, connect: the list is in use for these, otherwise all may. */
BoardGot board_may_scan(bool scan, bool connect, const uint8_t *list, size_t list_len, const uint8_t octets[6], bool random);
BoardGot board_may_connect(bool scan, bool connect, const uint8_t *list, size_t list_len, const uint8_t octets[6], bool random);
BoardGot board_should_scan(bool scan, const uint8_t *list, size_t list_len, const uint8_t octets[6], bool random);

/* The Flags of a start, and those of a beacon. */
uint8_t board_discoverable_flags(void);
uint8_t board_broadcast_flags(void);

/* --- libbit_stream.a --- */

/* A packet as it is heard: header, payload and CRC, whitened, 5 to 42 octets. A channel above 39 is refused with 10, which is tested first; more octets
 * with 2, fewer with 1. Of a start value, which is a connect request's crc_init, the low 24 bits count. */

/* Adds a channel's whitening to a packet, or takes it off; the number of a refusal, or 0. */
uint8_t board_whiten(uint8_t channel, uint8_t *packet, size_t packet_len);

/* The CRC of any octets, from a start value on: 0x555555 on the channels 37 to 39. Its 24 bits as a number, the one sent first the lowest. */
uint32_t board_crc(uint32_t start, const uint8_t *octets, size_t octets_len);

/* The three octets of a CRC, in the order in which they are sent: the number's lowest first. */
typedef struct BoardCrcOctets {
    uint8_t octets[3];
} BoardCrcOctets;

/* The same CRC, to append. */
BoardCrcOctets board_crc_octets(uint32_t start, const uint8_t *octets, size_t octets_len);

/* good: the last three octets are the CRC of those before them, whatever the header counts. */
typedef struct BoardFlagSaid {
    uint8_t number;
    bool good;
} BoardFlagSaid;

/* The CRC flag of a packet that is still whitened, and stays so. The start value is not used on the channels 37 to 39. */
BoardFlagSaid board_crc_flag(uint8_t channel, uint32_t start, const uint8_t *packet, size_t packet_len);

#ifdef __cplusplus
}
#endif

#endif
