/* What the programs of the machine send to each other over SOCK_SEQPACKET: a head, and at most a block of data. */
#ifndef MACHINE_FRAME_H
#define MACHINE_FRAME_H

#include <stdbool.h>
#include <stddef.h>
#include <stdint.h>
#include <string.h>

enum { BLOCK = 4096 };

enum verb {
    READ = 1, /* block number `place` */
    WRITE,    /* block number `place`, with its data */
    CHECK,    /* reads each copy of a block, and heals those that are wrong */
    PUT,      /* characters, to a console */
    SETUP,    /* begins a port */
    SEND,     /* a datagram to the wire */
    RECEIVED, /* a datagram from the wire; it answers nothing */
    DONE,     /* carried out; the answer to a READ has the block */
    FAILED,   /* it can't be carried out */
    FAULT     /* the driver died with it, and the application decides whether it asks again */
};

/* The answer to a request has the id and the place of the request. */
struct head { uint64_t id, place; uint32_t verb, length; };
struct frame { struct head head; uint8_t data[BLOCK]; };

/* Whether a frame has all of its data, and nothing else. */
static inline bool frame_is_whole(const struct frame *frame, ptrdiff_t got) {
    return got >= (ptrdiff_t)sizeof frame->head && (size_t)got - sizeof frame->head == frame->head.length;
}

/* A checksum of bytes and of their place, so the right bytes of another block are wrong, too. It finds accidents, not malice. */
static inline uint64_t sum_of(uint64_t place, const uint8_t *data, size_t length) {
    uint64_t sum = place * 0xD1342543DE82EF95u + length, word;
    for (size_t at = 0; at < length; at += sizeof word) {
        word = 0;
        memcpy(&word, data + at, length - at < sizeof word ? length - at : sizeof word);
        sum = (sum ^ word) * 0x9E3779B97F4A7C15u;
        sum ^= sum >> 29;
    }
    return sum;
}

#endif
