/* What the race's C programs do with a frame: functions of onvm that the race uses, with the same parameters as in
   bench/cases.py, and without any check that a frame of the race doesn't need. */
#include <stdint.h>
#include <stdio.h>
#include <stdlib.h>
#include <string.h>

enum work { FORWARD, TTL, NAT, MACS };
#define MOST_WORKS 16

/* A chain of functions. */
struct works {
    int count;
    enum work list[MOST_WORKS];
};

/* One NAT's senders, by protocol, address and port, and the outside port of each. Ports are given from the lowest on, and none is
   given back. */
#define SENDERS 65536
struct nat {
    uint64_t sender[SENDERS];
    uint16_t outside[SENDERS];
    uint16_t next[256];
};

static inline uint16_t word_at(const uint8_t *place) { return (uint16_t)(place[0] << 8 | place[1]); }

static inline void put_word(uint8_t *place, uint16_t word) {
    place[0] = (uint8_t)(word >> 8);
    place[1] = (uint8_t)word;
}

/* The checksum at `place` after one word that it covers became another one (RFC 1624). */
static inline void change_sum(uint8_t *place, uint16_t old, uint16_t new) {
    uint32_t sum = (uint16_t)~word_at(place) + (uint16_t)~old + (uint32_t)new;
    sum = (sum & 0xffff) + (sum >> 16);
    sum = (sum & 0xffff) + (sum >> 16);
    put_word(place, (uint16_t)~sum);
}

static inline int is_ipv4(const uint8_t *frame, uint32_t length) {
    return length >= 42 && word_at(frame + 12) == 0x800 && frame[14] == 0x45;
}

static inline void take_one_hop(uint8_t *frame, uint32_t length) {
    if (!is_ipv4(frame, length) || frame[22] < 2) return;
    uint16_t old = word_at(frame + 22);
    frame[22]--;
    change_sum(frame + 24, old, word_at(frame + 22));
}

/* The outside port of a sender: the next one where it is new. */
static inline uint16_t outside_port(struct nat *nat, const uint8_t *frame) {
    uint64_t key = 0;
    memcpy(&key, frame + 26, 4);
    key |= (uint64_t)word_at(frame + 34) << 32 | (uint64_t)frame[23] << 48 | 1ull << 56;
    uint32_t place = (uint32_t)(key * 0x9e3779b97f4a7c15ull >> 48);
    while (nat->sender[place] && nat->sender[place] != key) place = (place + 1) % SENDERS;
    if (!nat->sender[place]) {
        nat->sender[place] = key;
        nat->outside[place] = (uint16_t)(40000 + nat->next[frame[23]]++);
    }
    return nat->outside[place];
}

/* From 10.0.0.0/8 to 192.0.2.1. */
static inline void translate(struct nat *nat, uint8_t *frame, uint32_t length) {
    if (!is_ipv4(frame, length) || frame[26] != 10 || frame[23] != 17) return;
    uint16_t high = word_at(frame + 26), low = word_at(frame + 28), port = word_at(frame + 34);
    uint16_t outside = outside_port(nat, frame);
    change_sum(frame + 24, high, 0xc000);
    change_sum(frame + 24, low, 0x0201);
    if (word_at(frame + 40)) {
        change_sum(frame + 40, high, 0xc000);
        change_sum(frame + 40, low, 0x0201);
        change_sum(frame + 40, port, outside);
        if (!word_at(frame + 40)) put_word(frame + 40, 0xffff);
    }
    put_word(frame + 26, 0xc000);
    put_word(frame + 28, 0x0201);
    put_word(frame + 34, outside);
}

static inline void write_addresses(uint8_t *frame, uint32_t length) {
    if (length >= 14) memcpy(frame, "\2\0\0\0\0\3\2\0\0\0\0\4", 12);
}

static inline void do_work(enum work work, struct nat *nat, uint8_t *frame, uint32_t length) {
    if (work == TTL) take_one_hop(frame, length);
    if (work == NAT) translate(nat, frame, length);
    if (work == MACS) write_addresses(frame, length);
}

static inline void do_works(const struct works *works, struct nat *nat, uint8_t *frame, uint32_t length) {
    for (int i = 0; i < works->count; i++) do_work(works->list[i], nat, frame, length);
}

static void give_up(const char *what) {
    perror(what);
    exit(1);
}

/* Reads a list as `ttl,forward,macs`. */
static struct works read_works(const char *text) {
    static const char *const names[] = {"forward", "ttl", "nat", "macs"};
    struct works works = {0};
    char *copy = strdup(text);
    for (char *word = strtok(copy, ","); word; word = strtok(NULL, ",")) {
        int work = 0;
        while (work < 4 && strcmp(word, names[work])) work++;
        if (work == 4 || works.count == MOST_WORKS) {
            fprintf(stderr, "no such work: %s\n", word);
            exit(2);
        }
        works.list[works.count++] = (enum work)work;
    }
    free(copy);
    return works;
}

static struct nat *new_nat(void) {
    struct nat *nat = calloc(1, sizeof *nat);
    if (!nat) give_up("calloc");
    return nat;
}
