/* What `decode` has to do at the least: reads hexadecimal digits, and tells the UPDATEs that they spell.

   It is as quick as plain C is, and no more careful than that asks: it knows the messages that bench.py makes, UPDATEs with
   route targets and VPN-IPv4 routes, and stops with status 1 at anything else. Its text is that of `overlay decode`. */
#include <stdint.h>
#include <stdio.h>
#include <stdlib.h>
#include <string.h>

enum { PIECE = 1 << 16, MOST_TARGETS = 512, LONGEST_TARGET = 24 };

typedef unsigned char octet;

/* Text that is gathered, and written when it is a piece. */
static char piece[PIECE];
static size_t gathered;

static void flush(void) {
    if (fwrite(piece, 1, gathered, stdout) != gathered) exit(8);
    gathered = 0;
}

static void put(const char *text, size_t length) {
    while (gathered + length > PIECE) {
        size_t room = PIECE - gathered;
        memcpy(piece + gathered, text, room);
        gathered += room;
        text += room;
        length -= room;
        flush();
    }
    memcpy(piece + gathered, text, length);
    gathered += length;
}

#define PUT(text) put(text, sizeof text - 1)

/* Each of these writes at a place and answers the place behind. */
static char *number(char *at, uint32_t n) {
    char digits[10];
    int count = 0;
    do digits[count++] = (char)('0' + n % 10); while (n /= 10);
    while (count) *at++ = digits[--count];
    return at;
}

static uint32_t big(const octet *octets, int count) {
    uint32_t n = 0;
    for (int i = 0; i < count; i++) n = n << 8 | octets[i];
    return n;
}

static char *address(char *at, uint32_t a) {
    for (int shift = 24; shift >= 0; shift -= 8) {
        at = number(at, a >> shift & 255);
        if (shift) *at++ = '.';
    }
    return at;
}

/* Six octets in the form that a type says: of an address, of a system with two octets or of one with four. */
static char *kinded(char *at, uint32_t kind, const octet *six) {
    if (kind == 0) {
        at = number(at, big(six, 2));
        *at++ = ':';
        return number(at, big(six + 2, 4));
    }
    if (kind == 1) {
        at = address(at, big(six, 4));
    } else if (kind == 2) {
        *at++ = 'L';
        at = number(at, big(six, 4));
    } else {
        exit(1);
    }
    *at++ = ':';
    return number(at, big(six + 4, 2));
}

static int compared(const void *a, const void *b) {
    return memcmp(a, b, 8);
}

/* The targets, ascending and each once, joined by commas. */
static size_t targets_text(char *text, const octet *value, size_t length) {
    octet targets[MOST_TARGETS][8];
    size_t count = 0;
    for (size_t i = 0; i + 8 <= length; i += 8) {
        if (value[i] > 2 || value[i + 1] != 2) continue;
        if (count == MOST_TARGETS) exit(1);
        memcpy(targets[count++], value + i, 8);
    }
    if (!count) {
        *text = '-';
        return 1;
    }
    qsort(targets, count, 8, compared);
    char *at = text;
    for (size_t i = 0; i < count; i++) {
        if (i && !memcmp(targets[i], targets[i - 1], 8)) continue;
        if (i) *at++ = ',';
        at = kinded(at, targets[i][0], targets[i] + 2);
    }
    return (size_t)(at - text);
}

static void tell_routes(const octet *at, const octet *end, uint32_t next_hop, const char *targets, size_t length) {
    while (at < end) {
        char line[128];
        uint32_t bits = at[0] - 88u, octets = (bits + 7) / 8, prefix = 0;
        if (at[0] < 88 || bits > 32 || end - at < 12 + (long)octets) exit(1);
        for (uint32_t i = 0; i < octets; i++) prefix |= (uint32_t)at[12 + i] << (24 - 8 * i);
        if (bits < 32) prefix &= ~(0xffffffffu >> bits);
        char *text = kinded(line, big(at + 4, 2), at + 6);
        *text++ = ' ';
        text = address(text, prefix);
        *text++ = '/';
        text = number(text, bits);
        memcpy(text, " next-hop ", 10);
        text = address(text + 10, next_hop);
        memcpy(text, " label ", 7);
        text = number(text + 7, big(at + 1, 3) >> 4);
        memcpy(text, " targets ", 9);
        text += 9;
        PUT("put ");
        put(line, (size_t)(text - line));
        put(targets, length);
        PUT("\n");
        at += 12 + octets;
    }
}

static void tell_update(const octet *body, size_t length) {
    static char targets[MOST_TARGETS * LONGEST_TARGET];
    const octet *routes = NULL, *communities = NULL;
    size_t routes_length = 0, communities_length = 0;
    if (length < 4 || big(body, 2) != 0 || big(body + 2, 2) != length - 4) exit(1);
    const octet *at = body + 4, *end = body + length;
    while (at < end) {
        size_t head = at[0] & 0x10 ? 4 : 3;
        if ((size_t)(end - at) < head) exit(1);
        size_t size = head == 4 ? big(at + 2, 2) : at[2];
        if ((size_t)(end - at) < head + size) exit(1);
        if (at[1] == 14) routes = at + head, routes_length = size;
        if (at[1] == 16) communities = at + head, communities_length = size;
        at += head + size;
    }
    PUT("update\n");
    if (!routes) return;
    if (routes_length < 17 || memcmp(routes, "\0\1\200\14", 4)) exit(1);
    size_t text = targets_text(targets, communities, communities_length);
    tell_routes(routes + 17, routes + routes_length, big(routes + 12, 4), targets, text);
}

static int digit(int c) {
    if (c >= '0' && c <= '9') return c - '0';
    if (c >= 'a' && c <= 'f') return c - 'a' + 10;
    if (c >= 'A' && c <= 'F') return c - 'A' + 10;
    return -1;
}

/* The octets that the digits of standard input spell, in place of the digits. */
static octet *spelled(size_t *length) {
    size_t room = 1 << 16, count = 0, got, digits = 0;
    octet *text = malloc(room);
    while (text && (got = fread(text + count, 1, room - count, stdin)) > 0) {
        count += got;
        if (count == room) text = realloc(text, room *= 2);
    }
    if (!text) exit(9);
    for (size_t i = 0; i < count; i++) {
        int c = text[i];
        if (c == ' ' || c == '\t' || c == '\n' || c == '\r') continue;
        int value = digit(c);
        if (value < 0) exit(5);
        if (digits % 2) text[digits / 2] = (octet)(text[digits / 2] << 4 | value);
        else text[digits / 2] = (octet)value;
        digits++;
    }
    if (digits % 2) exit(5);
    *length = digits / 2;
    return text;
}

int main(void) {
    size_t length;
    octet *octets = spelled(&length);
    setvbuf(stdout, NULL, _IONBF, 0);
    for (size_t at = 0; at < length;) {
        if (length - at < 19) exit(1);
        for (int i = 0; i < 16; i++) if (octets[at + i] != 0xff) exit(1);
        size_t size = big(octets + at + 16, 2);
        if (size < 23 || size > 4096 || length - at < size || octets[at + 18] != 2) exit(1);
        tell_update(octets + at + 19, size - 19);
        at += size;
    }
    flush();
    return 0;
}
