/* The four entries of Adjagosk, and its writer, for C: link libadjagosk.a, which `tools/library` writes (x86-64).

   Each takes a frame and lends words for the records; all memory is the caller's. It writes nothing but the words
   given, reads nothing but what is passed, keeps nothing, and always returns. No pointer may be null, also where the
   length is 0; the words must be aligned for uint64_t, and may not overlap the frame or a table. A first reading keeps
   its records on the stack: up to 1,920 bytes of them, and by adjagosk_pdus 49,920 for a long message. */
#ifndef ADJAGOSK_H
#define ADJAGOSK_H

#include <stdbool.h>
#include <stddef.h>
#include <stdint.h>

#ifdef __cplusplus
extern "C" {
#endif

struct adjagosk_numbers {
    uint64_t refused; /* 0: accepted; 1 frame over 65,536 bytes, 2 a table of 0 or over 256 entries, 3 direction over 1,
                         4 ran out, 5 badly formed, 6 an item that is not supplied, 7 too few words */
    bool cut;         /* the frame ended where the reading carries on without the missing part */
    size_t reach;     /* the bits of the frame that the answer rests on */
    uint64_t marks;   /* the sum of 2^(mark - 1) over the marks 1 to 7 */
    size_t records;   /* each has five words, at the front: tag, element, value, second number, and the bit where
                         its field starts; words behind them stay */
    size_t need;      /* behind 7: the words needed */
    size_t lacked;    /* behind 4: the bits that the first read past the end lacked */
}; /* behind a refusal all but `refused`, `reach`, `need` and `lacked` is 0, and the words stay */

/* CPDLC, direction unknown. A table has one byte for each element index; docs/TAGS.md says what it stands for. */
struct adjagosk_numbers adjagosk_apdu(const uint8_t *frame, size_t frame_length,
                                      const uint8_t *down, size_t down_length,
                                      const uint8_t *up, size_t up_length,
                                      uint64_t *words, size_t words_length);

/* CPDLC, direction 0 for the downlink, 1 for the uplink. */
struct adjagosk_numbers adjagosk_pdus(const uint8_t *frame, size_t frame_length, uint64_t direction,
                                      const uint8_t *down, size_t down_length,
                                      const uint8_t *up, size_t up_length,
                                      uint64_t *words, size_t words_length);

/* Context Management, direction 0 for the aircraft's message, 1 for the ground's. */
struct adjagosk_numbers adjagosk_cm(const uint8_t *frame, size_t frame_length, uint64_t direction,
                                    uint64_t *words, size_t words_length);

/* Association control. */
struct adjagosk_numbers adjagosk_acse(const uint8_t *frame, size_t frame_length, uint64_t *words, size_t words_length);

struct adjagosk_frame {
    uint64_t refused; /* 0: written; 2 a table of 0 or over 256 entries, 3 direction over 1, 8 an unknown kind, a list of no
                         clean message or a span past its bytes, 9 too few bytes */
    size_t bits;      /* the bits of the message; its last byte is padded with zero bits */
    size_t need;      /* behind 9: the bytes needed */
}; /* behind a refusal the bytes stay */

/* From a list of records, five words each, to the frame of a clean message: kind 0 CPDLC, 1 Context Management,
   2 association control; direction 0 the aircraft's message, 1 the ground's. The list's spans point into the bits of
   `source`, and the fifth word of a record says nothing. Nothing of `out` may overlap what is read. */
struct adjagosk_frame adjagosk_write(uint64_t kind, uint64_t direction,
                                     const uint8_t *down, size_t down_length,
                                     const uint8_t *up, size_t up_length,
                                     const uint64_t *words, size_t words_length,
                                     const uint8_t *source, size_t source_length,
                                     uint8_t *out, size_t out_length);

#ifdef __cplusplus
}
#endif

#endif
