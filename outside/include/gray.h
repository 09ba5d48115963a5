/* The calls of the proved library for C and for Rust (target/staticlib/libcapi.a, made by outside/build).
 *
 * A survey is n notch counts (radices), sluice n first; so are the notches of a setting. Each call returns a value, or minus
 * the number of the refusal (document 01, "Turned down, in checking order", and document 02). No call has a precondition but
 * C's own: a pointer and the length after it are memory that may be read, or for `out` and `counts` written, and `made` may be
 * written; where a length is 0 the pointer must still not be null. Memory that is only read may overlap with other such memory,
 * `out`, `counts` and `made` with none. A refusal writes nothing to `out` or `counts`; their places past those that are written
 * stay as they came.
 *
 * crates/capi/src/lib.rt has the contracts. tests/header holds these declarations to it by their text, outside/header.c by
 * calling each of them. */
#ifndef GRAY_H
#define GRAY_H
#include <stddef.h>
#include <stdint.h>

#ifdef __cplusplus
extern "C" {
#endif

/* N, the number of settings. Refusals 2 3 4. */
int64_t gray_size(const uint8_t *radices, size_t n);

/* The rank of a setting, from 0. Refusals 2 3 4 8. */
int64_t gray_rank(const uint8_t *radices, size_t n, const uint8_t *word, size_t len);

/* The setting of a rank at the start of out; the bytes written. Refusals 2 3 4 8 9. */
int64_t gray_word(const uint8_t *radices, size_t n, uint64_t rank, uint8_t *out, size_t len);

/* The settings of ranks from .. from + count - 1, one after another; the bytes written. Refusals 2 3 4 8 9. */
int64_t gray_list(const uint8_t *radices, size_t n, uint64_t from, uint64_t count, uint8_t *out, size_t len);

/* A fresh walk of the buffered engine and one run of at most t moves: one byte a move at the start of out, the sluice in the
 * low seven bits, the top bit set for down. 0 if all t moves were made; 1 if the walk ended after fewer; -10 if a removal was
 * dry after fewer: the moves before it stand. *made is the number of moves whose bytes stand. Refusals, which make no move and
 * set *made to 0: 2 3 4 5, then 9 if len is below t, even where the walk would end sooner. */
int64_t gray_moves(const uint8_t *radices, size_t n, size_t capacity, uint64_t t, uint8_t *out, size_t len, uint64_t *made);

/* The same from a setting: a walk picked up at word (len bytes, sluice n first) and one run of at most t moves, with the values
 * of gray_moves. The moves are the list's from that setting on; at the last setting the walk ends at once. Refusals 2 3 4 5,
 * then 8 if len is not n or a notch is not below its count, then 9 if out_len is below t. */
int64_t gray_resume_moves(const uint8_t *radices, size_t n, size_t capacity, const uint8_t *word, size_t len, uint64_t t,
                          uint8_t *out, size_t out_len, uint64_t *made);

/* gray_moves by the disk engine, which is never dry. Refusals 2 3 4 6 9. */
int64_t gray_towers(const uint8_t *radices, size_t n, uint64_t t, uint8_t *out, size_t len, uint64_t *made);

/* The log of the first moves; the bytes written. Refusals 2 3 4 5 8 9. */
int64_t gray_log_write(const uint8_t *radices, size_t n, size_t capacity, uint64_t moves, uint8_t *out, size_t len);

/* The number of moves of a log. Refusals 1 2 3 4 5 11. */
int64_t gray_log_read(const uint8_t *log, size_t len);

/* Tide windows from the harbour office's file, len bytes of lines like 2031-04-07,05:12,H, each ended by a newline: for every
 * high water with a low water after it, how many moves fit in its window, in file order at the start of counts, which has room
 * places; the number of windows. Refusals 12 for a line that cannot be read, wherever it stands, then 13 for times that do not
 * rise or letters that do not alternate, then 9 if room is below the number of windows. */
int64_t gray_tide_counts(const uint8_t *file, size_t len, uint32_t *counts, size_t room);

/* Whether a move may begin at a minute, counted from 2000-01-01 00:00: 1 if it has its four minutes in a window of the file,
 * 0 if not. Refusals 12 13. */
int64_t gray_tide_may_begin(const uint8_t *file, size_t len, uint64_t minute);

#ifdef __cplusplus
}
#endif
#endif
