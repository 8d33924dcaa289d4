/* The three hashers of the field table, for C and C++.
 *
 * Link with libhashers.a, an archive for x86-64 Linux: compare/archive runs `rt lib` in
 * crates/hashers_c and copies what it builds to target/staticlib/. Each function reads the bytes
 * and nothing else, writes nothing, keeps no state, and always returns.
 *
 * `bytes` points to `length` bytes that can be read, and that nobody writes before the call
 * returns. Where `length` is 0 nothing is read, and `bytes` may be a null pointer. No object is
 * longer than 2^63 - 1 bytes, so `length` is not greater than that.
 */
#ifndef LEAPFROG_HASH_H
#define LEAPFROG_HASH_H

#include <stddef.h>
#include <stdint.h>

#ifdef __cplusplus
extern "C" {
#endif

/* Simple: the bytes as a little-endian number, bytes that lack being 0. At most 8 bytes: more are
 * refused (refusal 8), which is 0 here. No bytes give 0 too. */
uint64_t leapfrog_hash_simple(const uint8_t *bytes, size_t length);

/* Murmur: fmix64, the 64-bit finalizer of MurmurHash3, of the number that Simple gives. At most 8
 * bytes: more are refused (refusal 8), which is 0 here. No bytes give 0 too. */
uint64_t leapfrog_hash_murmur(const uint8_t *bytes, size_t length);

/* Fnv: FNV-1a with 64 bits. Any length, and no refusal. No bytes give 0xcbf29ce484222325. */
uint64_t leapfrog_hash_fnv(const uint8_t *bytes, size_t length);

#ifdef __cplusplus
}
#endif

#endif
