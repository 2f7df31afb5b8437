/*
 * What firmware in C calls of the port engine. Link with libsternquast.a (pkg-config: sternquast).
 *
 * Every function is proved: it answers by the rules, whatever octets it is lent, reads no octet beside them and writes none, and
 * returns. That this header says what the library does, and NULL, are tested and not proved. It allocates nothing and keeps
 * nothing between calls, so any number of threads may call it.
 */
#ifndef STERNQUAST_H
#define STERNQUAST_H

#include <stddef.h>
#include <stdint.h>

#ifdef __cplusplus
extern "C" {
#endif

/* Why a call is refused. Each number is given exactly when its words hold; of several that do, 16 first, then the lowest, except
   11 before 9. */
enum sternquast_refusal {
    STERNQUAST_REFUSAL_NONE = 0,
    STERNQUAST_REFUSAL_NOT_RUNNING = 1,        /* the port is not running: a frame, peer gone, or a request to write */
    STERNQUAST_REFUSAL_SEVERAL_NEIGHBOURS = 2, /* a frame while several neighbours are flagged */
    STERNQUAST_REFUSAL_NOT_DCBX = 3,           /* fewer than 6 octets, type not 127, or OUI or subtype differs */
    STERNQUAST_REFUSAL_WRONG_LENGTH = 4,       /* the length field is not the octets after the head */
    STERNQUAST_REFUSAL_PAST_END = 5,           /* a sub-TLV, or its head, runs past the end */
    STERNQUAST_REFUSAL_NO_CONTROL = 6,         /* no control sub-TLV */
    STERNQUAST_REFUSAL_CONTROL_LENGTH = 7,     /* exactly one control, length not 10 */
    STERNQUAST_REFUSAL_CONTROL_VERSION = 8,    /* its Oper is above its Max */
    STERNQUAST_REFUSAL_INVALID_SETTING = 9,    /* the local setting is invalid */
    STERNQUAST_REFUSAL_SHORT_OUTPUT = 10,      /* the lent output is shorter than the frame */
    STERNQUAST_REFUSAL_UNKNOWN_FEATURE = 11,   /* the feature number is not 2, 3 or 4; 4 at a port of Rev 1.0 */
    STERNQUAST_REFUSAL_NO_NOTICE = 12,         /* a notice is taken when the port holds none */
    STERNQUAST_REFUSAL_NO_PORT = 16            /* the port is not 1 to 4 */
};

/* ---- The frame judge: refusals 3 to 8 of a whole DCBX TLV */

typedef struct sternquast_verdict {
    uint32_t refusal; /* 3 to 8, or 0 where none of them applies */
    size_t place;     /* where the frame went wrong, from 0 at its first octet: 0 for 3 and 4, the head of the first sub-TLV that runs
                         over for 5, the end of the frame for 6, the control's head for 7 and 8; 0 where nothing did */
} sternquast_verdict;

/* Judges the frame of `length` octets at `frame`. NULL is a frame of no octets, with length 0 alone. A frame with two or more
   controls is not refused: a port handles it. */
sternquast_verdict sternquast_judge(const uint8_t *frame, size_t length);

#ifdef __cplusplus
}
#endif

#endif
