/* Calls every function, so that each field of the header is held to a known answer: every.out, whose values are document 01's, of padding, names and settings document
 * 02's, and of the bit stream those on which other implementations agree. What the header says of `which`, kinds, refusals and lists that are cut is tried one by one. */
#include "board.h"
#include <stdio.h>
#include <string.h>

static void octets(const uint8_t *s, size_t n) {
    for (size_t i = 0; i < n; i++)
        printf(" %02x", s[i]);
}

static void got(const char *name, BoardGot g) { printf("%s %d %zu %zu\n", name, g.number, g.first, g.second); }

static void packet(const char *name, BoardPacket p) {
    printf("%s %d %d %d", name, p.number, p.ty, p.sender_random);
    octets(p.sender, 6);
    printf(" %d %d", p.has_receiver, p.receiver_random);
    octets(p.receiver, 6);
    printf(" %zu %zu %zu %x %x %u %u %u %u %u %u", p.start, p.len, p.count, p.access_address, p.crc_init, p.win_size, p.win_offset,
           p.window_end, p.interval, p.latency, p.timeout);
    octets(p.map, 5);
    printf(" %d %d %d\n", p.map_count, p.hop, p.sca);
}

static void channel(const char *name, BoardChannel c) {
    printf("%s %d %d %d %d %d\n", name, c.number, c.index, c.rf_channel, c.whitening_iv, c.freq);
}

static void map(const char *name, BoardMap m) {
    printf("%s", name);
    octets(m.raw, 5);
    printf(" %d\n", m.count);
}

static void uuid(const char *name, BoardUuid u) {
    printf("%s", name);
    octets(u.octets, 16);
    printf("\n");
}

static void frame(const char *name, BoardFrame f) {
    printf("%s %d %04x", name, f.number, f.header);
    octets(f.payload, 37);
    printf("\n");
}

static void structure(const char *name, BoardStructure r) {
    printf("%s %d %d %d %x %zu %zu %zu\n", name, r.number, r.kind, r.complete, r.value, r.start, r.len, r.next);
}

static void flags(BoardFlagsSaid f) {
    printf("board_flags %x %d %d %d %d %d\n", f.bits, f.classic, f.limited, f.general, f.controller, f.host);
}

static void said(BoardSaid d) {
    printf("board_call %d %d %d %d %d %04x %u %x %x", d.number, d.kind, d.advertising, d.connected, d.channel, d.header, d.at, d.access_address,
           d.crc_init);
}

static void listened(BoardListened l) {
    printf("board_scanner_call %d %d %d", l.number, l.reported, l.random);
    octets(l.sender, 6);
    printf(" %zu %zu %zu %zu %d %u\n", l.start, l.len, l.count, l.taken, l.channel, l.next);
}

static void heard(BoardHeard h) {
    printf("board_scan %d %d %d", h.number, h.reported, h.random);
    octets(h.sender, 6);
    printf(" %zu %zu %zu %zu %d\n", h.start, h.len, h.count, h.taken, h.channel);
}

static void name(const char *what, const uint8_t *advertisement, size_t advertisement_len, const uint8_t *reply, size_t reply_len) {
    BoardNameSaid n = board_name(advertisement, advertisement_len, reply, reply_len);
    printf("%s board_name %d %d %zu %zu\n", what, n.number, n.in_reply, n.start, n.len);
}

static uint8_t out[16];

static void wrote(const char *name, BoardGot g) {
    printf("%s %d %zu %zu", name, g.number, g.first, g.second);
    octets(out, sizeof out);
    printf("\n");
    memset(out, 0xFF, sizeof out);
}

#define S(a) (a), sizeof(a)

static const uint8_t beacon[] = {0x42, 0x09}, records[] = {1, 2, 3, 4, 5, 0xC6, 2, 1, 6};
static const uint8_t request[] = {0x85, 0x22, 0x11, 0x12, 0x13, 0x14, 0x15, 0x16, 1, 2, 3, 4, 5, 6, 0xD6, 0xBE, 0x89, 0x8E, 0x56, 0x34, 0x12,
                                  2,    3,    0,    0x18, 0,    7,    0,    100,  0, 0x0A, 0, 0, 0, 0, 0xA5};
static const uint8_t own[6] = {1, 2, 3, 4, 5, 0xC6}, other[6] = {1, 2, 3, 4, 5, 6}, two[5] = {0x0A}, mark[5] = {0xFF, 0xFF, 0xFF, 0xFF, 0xFF};
static const uint8_t list[7] = {1, 1, 2, 3, 4, 5, 0xC6}, area[] = {2, 1, 6, 5, 3, 0x0F, 0x18, 0x0A, 0x18}, bits[] = {0, 1, 2, 3, 4, 5, 6, 7};
static const uint8_t padded[] = {2, 1, 0x86, 3, 9, 0x47, 0x6F, 0, 0, 0};
static const uint8_t full[16] = {0, 1, 2, 3, 4, 5, 6, 7, 8, 9, 10, 11, 12, 13, 14, 15};

static void call_of(uint8_t c[272], uint8_t kind, uint8_t time, uint8_t interval, const uint8_t *header, const uint8_t *s, uint8_t n) {
    memset(c, 0, 272);
    c[0] = kind, c[1] = 1, c[3] = n, c[4] = time, c[8] = interval;
    memcpy(c + 12, header, 2);
    memcpy(c + 14, s, n);
}

static void leaves(void) {
    printf("board_utf8 %d\n", board_utf8(S(bits)));
    uuid("board_uuid16", board_uuid16(0x180F));
    uuid("board_uuid32", board_uuid32(0x12345678));
    printf("board_later %u\n", board_later(0xFFFFFFFF, 101));
    printf("board_since %u\n", board_since(100, 0xFFFFFFFF));
    channel("board_advertising_channel", board_advertising_channel(1));
    channel("board_data_channel", board_data_channel(11));
    map("board_map", board_map(mark));
    map("board_all_channels", board_all_channels());
    got("board_is_used", board_is_used(two, 3));
    got("board_by_index", board_by_index(two, 1));
    got("board_hop", board_hop(two, 0, 5));
    printf("board_discoverable_flags %x\n", board_discoverable_flags());
    printf("board_broadcast_flags %x\n", board_broadcast_flags());
}

static void packets(void) {
    packet("board_decode", board_decode(S(beacon), S(records)));
    packet("board_read_pdu", board_read_pdu(S(request), 0));
    BoardHead h = board_header(S(beacon));
    printf("board_header %d %04x %d %d %d %d %d %d\n", h.number, h.raw, h.ty, h.tx_add, h.rx_add, h.length, h.is_beacon, h.allows_adv_data);
    got("board_new_header", board_new_header(2, true, false, 9));
    got("board_set_header", board_set_header(S(beacon), false, true, 38));
    frame("board_build", board_build(1, own, true, records + 6, 3));
    frame("board_build_directed", board_build_directed(own, true, other, false));
    got("board_read_header", board_read_header(S(bits), 1));
    wrote("board_write_header", board_write_header(S(out), 1, S(beacon)));
    got("board_whitelist", board_whitelist(S(list), own, true));
    got("board_may_scan", board_may_scan(true, false, S(list), other, true));
    got("board_may_connect", board_may_connect(true, false, S(list), other, true));
    got("board_should_scan", board_should_scan(true, S(list), own, true));
}

static void areas(void) {
    got("board_area", board_area(S(area)));
    got("board_padded_area", board_padded_area(S(padded)));
    structure("board_record", board_record(S(area), 0));
    structure("board_known", board_known(S(area), 3));
    wrote("board_write", board_write(5, false, 0x180F, 0, 1, S(bits), 1, S(out)));
    wrote("board_rewrite", board_rewrite(S(area), S(out)));
    got("board_uuid_at", board_uuid_at(area + 5, 4, 2));
    flags(board_flags(0x86));
}

static void positions(void) {
    got("board_skip", board_skip(S(bits), 3, 5));
    got("board_bytes_left", board_bytes_left(S(bits), 8));
    BoardPart p = board_read_slice(S(bits), 3, 2);
    printf("board_read_slice %d %zu %zu %zu\n", p.number, p.start, p.len, p.next);
    wrote("board_read_into", board_read_into(S(bits), 1, out, 3));
    BoardFive five = board_read_array5(S(bits), 1);
    printf("board_read_array5 %d %zu", five.number, five.next), octets(five.octets, 5), printf("\n");
    BoardSix six = board_read_array6(S(bits), 1);
    printf("board_read_array6 %d %zu", six.number, six.next), octets(six.octets, 6), printf("\n");
    got("board_read_u8", board_read_u8(S(bits), 7));
    got("board_read_u16_le", board_read_u16_le(S(bits), 1));
    got("board_read_u32_le", board_read_u32_le(S(bits), 5));
    got("board_write_skip", board_write_skip(S(bits), 9, 0));
    printf("board_space_left %zu\n", board_space_left(S(bits), 3));
    wrote("board_write_slice", board_write_slice(S(out), 14, S(beacon)));
    wrote("board_write_slice_truncate", board_write_slice_truncate(S(out), 15, S(beacon)));
    wrote("board_write_u8", board_write_u8(S(out), 1, 0x12));
    wrote("board_write_u16_le", board_write_u16_le(S(out), 1, 0x1234));
    wrote("board_write_u32_le", board_write_u32_le(S(out), 1, 0x12345678));
    got("board_read_uuid16", board_read_uuid16(S(bits), 1));
    got("board_read_uuid32", board_read_uuid32(S(bits), 1));
    BoardUuidRead u = board_read_uuid128(S(full), 0);
    printf("board_read_uuid128 %d %zu", u.number, u.next), octets(u.octets, 16), printf("\n");
    wrote("board_write_uuid16", board_write_uuid16(S(out), 1, 0x180F));
    wrote("board_write_uuid32", board_write_uuid32(S(out), 1, 0x12345678));
    wrote("board_write_uuid128", board_write_uuid128(S(out), 0, full));
}

static void air(void) {
    BoardSent s = board_beacon(own, true, records + 6, 3, S(out));
    printf("board_beacon %d %04x %d %d %d", s.number, s.header, s.first, s.second, s.third), octets(S(out)), printf("\n");
    heard(board_scan(true, S(list), 1, S(beacon), S(records), true));
    got("board_scanner", board_scanner(100, 20, 2));
    static uint8_t calls[2 * 272], call[272], first[37], second[37];
    call_of(calls, 0, 5, 30, beacon, bits, 0), call_of(calls + 272, 1, 200, 0, beacon, bits, 0);
    call_of(call, 2, 0, 0, beacon, records, 9);
    listened(board_scanner_call(true, S(list), S(calls), S(call)));
    listened(board_scanner_call(true, S(list), calls, 272, calls + 272, 272));
    call_of(call, 2, 232, 3, request, request + 2, 34);
    said(board_call(other, true, S(calls), S(call), S(first), S(second)));
    octets(first, 9), printf("\n");
}

/* Every `which`, and one more; a header of a type above 15; each bit of Flags. */
static void builders(void) {
    for (int which = 0; which <= 6; which++)
        printf("%d ", which), frame("board_build", board_build((uint8_t)which, own, true, records + 6, 3));
    got("board_new_header", board_new_header(0xFF, false, true, 6));
    for (int b = 0; b < 8; b++)
        flags(board_flags((uint8_t)(1 << b)));
}

/* Every kind, and one more, of complete lists and of others. Flags are the low five bits, a type is the low octet. */
static void writes(void) {
    static uint8_t to[24];
    for (int i = 0; i <= 21; i++) {
        int kind = i / 2;
        bool complete = i % 2 == 1;
        memset(to, 0xFF, sizeof to);
        BoardGot g = board_write((uint8_t)kind, complete, 0x1287, 0, 16, S(full), 1, S(to));
        printf("%d %d board_write %d %zu %zu", kind, complete, g.number, g.first, g.second), octets(S(to)), printf("\n");
        structure("board_record", board_record(to, g.first, 1));
        structure("board_known", board_known(to, g.first, 1));
    }
    structure("end board_record", board_record(S(area), sizeof area));
    structure("end board_known", board_known(S(area), sizeof area));
    got("end board_uuid_at", board_uuid_at(area + 5, 4, 4));
}

static void ran(const char *name, const uint8_t *calls, size_t calls_len, const uint8_t *call, size_t call_len) {
    uint8_t first[37], second[37];
    memset(first, 0xFF, sizeof first), memset(second, 0xFF, sizeof second);
    printf("%s ", name);
    said(board_call(other, true, calls, calls_len, call, call_len, S(first), S(second)));
    printf(",");
    octets(first, 12), printf(","), octets(second, 12), printf("\n");
}

/* Every call, and one more, in each mode; octets 1 and 2 of a call; a connect request that marks no channel, and one with hop 17, after which a tick follows; lists and
 * calls that are cut; a reply with scan data, by both buffers. */
static void device(void) {
    static const uint8_t name[] = {3, 9, 0x47, 0x6F};
    static uint8_t calls[2 * 272], call[272], scan[14] = {0x83, 0x0C};
    memcpy(scan + 8, other, 6);
    call_of(calls, 0, 5, 30, beacon, records + 6, 3), call_of(calls + 272, 2, 232, 3, request, request + 2, 34);
    const char *modes[3] = {"standby", "advertising", "connected"};
    for (size_t mode = 0; mode < 3; mode++)
        for (int kind = 0; kind <= 6; kind++) {
            call_of(call, (uint8_t)kind, 7, 50, scan, kind == 5 ? records + 6 : scan + 2, kind == 0 ? 0 : kind == 5 ? 3 : 12);
            printf("%d ", kind), ran(modes[mode], calls, 272 * mode, S(call));
        }
    for (int n = 0; n <= 2; n++) {
        call_of(call, 2, 7, 50, scan, scan + 2, 12), call[1] = (uint8_t)n;
        printf("%d ", n), ran("CRC", calls, 272, S(call));
        call_of(call, 1, 7, 50, scan, scan + 2, 12), call[2] = (uint8_t)n;
        printf("%d ", n), ran("buffer", calls, 272, S(call));
    }
    call_of(call, 2, 232, 3, request, request + 2, 34), memset(call + 14 + 28, 0, 5);
    ran("unmarked", calls, 272, S(call));
    call_of(call, 2, 232, 3, request, request + 2, 34), call[14 + 33] = 17;
    ran("hop 17", calls, 272, S(call));
    call_of(call, 3, 0, 0, beacon, bits, 0);
    ran("271", calls, 271, S(call));
    ran("543", calls, 543, S(call));
    ran("544", calls, 544, S(call));
    ran("empty", calls, 0, call, 0);
    call_of(call, 0, 5, 30, beacon, bits, 0), call[3] = 20;
    ran("20", calls, 0, call, 20);
    call_of(call, 2, 5, 30, scan, scan + 2, 12);
    ran("25", calls, 272, call, 25);
    ran("13", calls, 272, call, 13);
    call_of(calls, 5, 0, 0, beacon, S(name)), call_of(calls + 272, 0, 5, 30, beacon, bits, 0);
    call_of(call, 2, 7, 50, scan, scan + 2, 12);
    ran("reply", S(calls), S(call));
    call[2] = 1;
    ran("reply", S(calls), S(call));
    call_of(calls, 0, 5, 30, beacon, records + 6, 3), call_of(calls + 272, 2, 232, 3, request, request + 2, 34), calls[272 + 14 + 33] = 17;
    call_of(call, 1, 0, 0, beacon, bits, 0);
    ran("tick", S(calls), S(call));
}

/* Every entry of a scanner, and one more, before and after a configure; the CRC; a list and an entry that are cut. */
static void scanner(void) {
    static uint8_t entries[272], entry[272];
    call_of(entries, 0, 5, 30, beacon, bits, 0), entries[0] = 1, listened(board_scanner_call(false, S(list), entries, 0, S(entries)));
    call_of(entries, 0, 5, 30, beacon, bits, 0);
    for (int kind = 0; kind <= 3; kind++) {
        call_of(entry, (uint8_t)kind, 200, 9, beacon, records, 9);
        listened(board_scanner_call(false, list, 6, S(entries), S(entry)));
        listened(board_scanner_call(true, list, 6, S(entries), S(entry)));
    }
    for (int n = 0; n <= 2; n++)
        entry[1] = (uint8_t)n, listened(board_scanner_call(false, S(list), S(entries), S(entry)));
    entry[0] = 1;
    listened(board_scanner_call(false, S(list), entries, 271, S(entry)));
    listened(board_scanner_call(false, S(list), S(entries), entry, 5));
    for (int n = 0; n <= 4; n++)
        got("board_scanner", board_scanner(100, 20, (uint8_t)n)), channel("board_advertising_channel", board_advertising_channel((uint8_t)n));
}

/* An area that is padded: all octets of it and fewer, up to each end; with an octet after the first zero, and the last, that is not zero. What was read is
 * rewritten. The scanner hears the same, and the general decoder, a builder and a start refuse it. */
static void padding(void) {
    static const uint8_t sizes[] = {0, 2, 3, 6, 7, 8, 10}, header[] = {0x42, 0x10};
    static uint8_t a[10], payload[16], call[272], first[37], second[37];
    for (size_t i = 0; i < sizeof sizes; i++)
        printf("%d ", sizes[i]), got("board_padded_area", board_padded_area(padded, sizes[i]));
    wrote("7", board_rewrite(padded, 7, S(out)));
    wrote("10", board_rewrite(S(padded), S(out)));
    memcpy(payload, own, 6), memcpy(payload + 6, padded, 10);
    heard(board_scan(false, list, 0, 0, S(header), S(payload), true));
    packet("board_decode", board_decode(S(header), S(payload)));
    frame("board_build", board_build(2, own, true, S(padded)));
    call_of(call, 0, 5, 30, beacon, S(padded));
    said(board_call(other, true, call, 0, S(call), S(first), S(second))), printf("\n");
    call_of(call, 2, 0, 0, header, S(payload));
    listened(board_scanner_call(false, list, 0, call, 0, S(call)));
    for (size_t i = 8; i < sizeof a; i++) {
        memcpy(a, padded, 10), a[i] = 1;
        printf("%zu ", i), got("board_padded_area", board_padded_area(S(a)));
        memcpy(payload + 6, a, 10);
        heard(board_scan(false, list, 0, 0, S(header), S(payload), true));
    }
}

/* A name in each place, with those that come after it in the other places; one that is not UTF-8 before it; empty ones; none; each refusal in each area, with a
 * name in the other; both bad. */
static void names(void) {
    static const uint8_t advertisement[] = {2, 1, 6, 4, 8, 0x41, 0x64, 0x61, 3, 9, 0x42, 0x6F, 0}, reply[] = {3, 8, 0x43, 0x79, 4, 9, 0x44, 0x61, 0x6E, 0, 0};
    static const uint8_t broken[] = {2, 9, 0xC3, 3, 9, 0xC3, 0xA9}, empty[] = {1, 8, 1, 9}, zero[] = {0, 1};
    name("complete, reply", S(advertisement), S(reply));
    name("complete, advertisement", S(advertisement), reply, 4);
    name("shortened, reply", advertisement, 8, reply, 4);
    name("shortened, advertisement", advertisement, 8, reply, 0);
    name("not UTF-8", advertisement, 8, S(broken));
    name("empty", S(advertisement), S(empty));
    name("empty", S(empty), reply, 4);
    name("none", advertisement, 3, broken, 3);
    name("none", advertisement, 0, reply, 0);
    name("cut, advertisement", advertisement, 7, S(reply));
    name("cut, reply", S(advertisement), reply, 8);
    name("zero, advertisement", S(zero), S(reply));
    name("zero, reply", S(advertisement), S(zero));
    name("zero, cut", S(zero), reply, 8);
    name("cut, zero", advertisement, 7, S(zero));
}

static void settings(const char *name, const uint8_t s[22]) {
    BoardSettingsSaid c = board_settings(s);
    printf("%s board_settings %d %d", name, c.number, c.hop);
    octets(c.map, 5);
    printf(" %d %u %u %u %d %u\n", c.channels, c.interval, c.latency, c.timeout, c.win_size, c.win_offset);
}

/* Settings with one of them set, which begins at an octet. */
static void set(const char *name, const uint8_t from[22], size_t at, size_t size, unsigned value) {
    uint8_t s[22];
    memcpy(s, from, 22), s[at] = (uint8_t)value;
    if (size == 2)
        s[at + 1] = (uint8_t)(value >> 8);
    settings(name, s);
}

/* The settings of the request above; each at its least, and at its most beside an interval of 3,200, and from these one after the other across its limit; none at all. */
static void ranges(void) {
    static const uint8_t low[22] = {0, 0, 0, 0, 0, 0, 0, 1, 0, 0, 6, 0, 0, 0, 10, 0, 3, 0, 0, 0, 0, 5}, none[22];
    static const uint8_t high[22] = {0, 0, 0, 0, 0, 0, 0, 8, 0x80, 0x0C, 0x80, 0x0C, 2, 0, 0x80, 0x0C, 0xFF, 0xFF, 0xFF, 0xFF, 0xFF, 0xF0};
    static uint8_t long_sleep[22], all[22];
    settings("request", request + 14), settings("low", low), settings("high", high), settings("none", none);
    memset(all, 0xFF, 22), settings("FF", all);
    set("hop 4", low, 21, 1, 4), set("hop 17", high, 21, 1, 17);
    set("1 channel", low, 16, 1, 0x80), set("no channel", low, 16, 1, 0);
    set("interval 5", low, 10, 2, 5), set("interval 3199", high, 10, 2, 3199), set("interval 3201", high, 10, 2, 3201);
    set("latency 3", high, 12, 2, 3);
    memcpy(long_sleep, low, 22), long_sleep[14] = 0x80, long_sleep[15] = 0x0C;
    set("latency 499", long_sleep, 12, 2, 499), set("latency 500", long_sleep, 12, 2, 500);
    set("timeout 9", low, 14, 2, 9), set("timeout 3201", high, 14, 2, 3201);
    set("40 above 39", low, 10, 2, 39), set("40 above 40", low, 10, 2, 40);
    set("size 0", low, 7, 1, 0), set("size 5", low, 7, 1, 5), set("size 6", low, 7, 1, 6), set("size 9", high, 7, 1, 9);
    set("offset 6", low, 8, 2, 6), set("offset 7", low, 8, 2, 7), set("offset 3201", high, 8, 2, 3201);
}

/* A call for each refusal's number, and what it leaves. */
static void refusals(void) {
    static const uint8_t name[] = {2, 9, 0xFF}, zero[] = {0}, none[5], long_data[255], bad[7] = {2}, unknown[] = {0x47, 0x09};
    static uint8_t to[300];
    wrote("1", board_read_into(S(bits), 1, out, 8));
    wrote("1", board_write_slice(S(out), 15, S(beacon)));
    wrote("1", board_write(9, false, 7, 0, 15, S(full), 0, S(out)));
    wrote("1", board_rewrite(S(area), out, 8));
    got("2", board_area(S(zero)));
    packet("2", board_decode(S(beacon), records, 8));
    packet("3", board_decode(S(unknown), S(records)));
    structure("3", board_known(S(name), 0));
    got("3", board_whitelist(S(bad), own, true));
    BoardHead h = board_header(beacon, 1);
    printf("4 %d %04x %d %d %d %d %d %d\n", h.number, h.raw, h.ty, h.tx_add, h.rx_add, h.length, h.is_beacon, h.allows_adv_data);
    packet("4", board_decode(beacon, 1, S(records)));
    BoardHeard s = board_scan(false, S(list), 1, beacon, 1, S(records), true);
    printf("4 %d %d %d\n", s.number, s.reported, s.channel);
    got("6", board_hop(none, 36, 5));
    got("7", board_new_header(2, true, false, 5));
    got("8", board_hop(none, 37, 5));
    channel("8", board_data_channel(37));
    got("8", board_is_used(two, 37));
    got("8", board_by_index(two, 2));
    got("9", board_write(9, false, 7, 0, 255, S(long_data), 0, S(to)));
    frame("2", board_build(0, own, true, S(zero)));
    BoardSent b = board_beacon(own, true, records + 6, 3, out, 8);
    printf("1 %d %04x %d %d %d", b.number, b.header, b.first, b.second, b.third), octets(S(out)), printf("\n");
}

static void whitened(const char *name, uint8_t channel, uint8_t *packet, size_t n) {
    printf("%s board_whiten %d", name, board_whiten(channel, packet, n)), octets(packet, n), printf("\n");
}

static void flag(const char *name, BoardFlagSaid f) { printf("%s board_crc_flag %d %d\n", name, f.number, f.good); }

static void crc(const char *name, uint32_t start, const uint8_t *s, size_t n) {
    BoardCrcOctets c = board_crc_octets(start, s, n);
    printf("%s board_crc %06x", name, board_crc(start, s, n)), octets(c.octets, 3), printf("\n");
}

/* CRCs: the check value of CRC-24/BLE, and start values of more than 24 bits. Document 01's beacon as it is heard on 39 and, with a bit off, on 38; a
 * data packet on 10, asked with three start values; the least packet on 36 and 37, which alone does not use the value. Both sides of each limit. */
static void stream(void) {
    static const uint8_t digits[] = {0x31, 0x32, 0x33, 0x34, 0x35, 0x36, 0x37, 0x38, 0x39}, data[] = {0x0D, 0, 0};
    static const uint8_t on10[] = {0x98, 0xC2, 0xD7, 0x65, 0xBB, 0xBB, 0xD1, 0x18}, on36[] = {0x46, 0x20, 0xCC, 0x30, 0x06};
    static const uint8_t on37[] = {0x8F, 0xD2, 0x23, 0x77, 0xDF}, used37[] = {0x8F, 0xD2, 0xC2, 0x4F, 0xDA};
    static const uint8_t on38[] = {0x95, 0xCC, 0x45, 0x22, 0x5A, 0xDA, 0xE4, 0x49, 0x19, 0xA4, 0xA9, 0xDD, 0xAC, 0x8C};
    static const uint8_t channels[] = {0, 39, 40, 255}, lengths[] = {0, 4, 5, 42, 43, 255};
    static uint8_t sent[14] = {0x42, 0x09, 1, 2, 3, 4, 5, 0xC6, 2, 1, 6, 0x9F, 0xD7, 0xC2}, any[255];
    crc("digits", 0x555555, S(digits));
    crc("beacon", 0x555555, sent, 11);
    crc("data", 0x123456, S(data));
    crc("data", 0xFF123456, S(data));
    crc("none", 1, data, 0);
    crc("none", 0xFF800000, data, 0);
    whitened("39", 39, S(sent));
    flag("39", board_crc_flag(39, 0x123456, S(sent)));
    whitened("39", 39, S(sent));
    flag("38", board_crc_flag(38, 0, S(on38)));
    flag("10", board_crc_flag(10, 0x123456, S(on10)));
    flag("10", board_crc_flag(10, 0xFF123456, S(on10)));
    flag("10", board_crc_flag(10, 0x555555, S(on10)));
    flag("36", board_crc_flag(36, 0x123456, S(on36)));
    flag("36", board_crc_flag(36, 0x555555, S(on36)));
    flag("37", board_crc_flag(37, 0x123456, S(on37)));
    flag("37", board_crc_flag(37, 0x555555, S(on37)));
    flag("37", board_crc_flag(37, 0x123456, S(used37)));
    for (size_t c = 0; c < sizeof channels; c++)
        for (size_t n = 0; n < sizeof lengths; n++) {
            memset(any, 0, sizeof any);
            BoardFlagSaid f = board_crc_flag(channels[c], 0, any, lengths[n]);
            printf("%d %d %d %d", channels[c], lengths[n], f.number, f.good);
            printf(" board_whiten %d", board_whiten(channels[c], any, lengths[n])), octets(any, 44), printf("\n");
        }
}

int main(void) {
    memset(out, 0xFF, sizeof out);
    leaves(), packets(), areas(), positions(), air();
    memset(out, 0xFF, sizeof out);
    builders(), writes(), device(), scanner(), padding(), names(), ranges(), refusals(), stream();
    return 0;
}
