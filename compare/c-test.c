/* The three hashers as a C program sees them: published vectors, a plain C version of each hasher
 * on many byte strings, lengths that are refused, and a null pointer. Run by compare/c-test. */
#include <stddef.h>
#include <stdint.h>
#include <stdio.h>

#include "leapfrog_hash.h"

typedef uint64_t hash_function(const uint8_t *bytes, size_t length);

/* ---- the hashers once more, in plain C, from their published descriptions */

static uint64_t little_endian(const uint8_t *bytes, size_t length)
{
    uint64_t number = 0;
    for (size_t i = 0; i < length; i++)
        number |= (uint64_t)bytes[i] << (8 * i);
    return number;
}

static uint64_t fmix64(uint64_t k)
{
    k ^= k >> 33;
    k *= UINT64_C(0xff51afd7ed558ccd);
    k ^= k >> 33;
    k *= UINT64_C(0xc4ceb9fe1a85ec53);
    k ^= k >> 33;
    return k;
}

/* what is expected of Simple: 0 where the length is refused */
static uint64_t plain_simple(const uint8_t *bytes, size_t length)
{
    return length <= 8 ? little_endian(bytes, length) : 0;
}

/* what is expected of Murmur: 0 where the length is refused */
static uint64_t plain_murmur(const uint8_t *bytes, size_t length)
{
    return length <= 8 ? fmix64(little_endian(bytes, length)) : 0;
}

static uint64_t plain_fnv(const uint8_t *bytes, size_t length)
{
    uint64_t hash = UINT64_C(0xcbf29ce484222325);
    for (size_t i = 0; i < length; i++)
        hash = (hash ^ bytes[i]) * UINT64_C(0x100000001b3);
    return hash;
}

/* ---- counting */

static unsigned long checks, failed;   /* of the whole run */
static unsigned long before, wrong;    /* what they were where the group began */

static void begin(void)
{
    before = checks;
    wrong = failed;
}

static void end(const char *group)
{
    printf("%-6s %6lu checks, %lu failed: %s\n", failed == wrong ? "ok" : "FAILED",
           checks - before, failed - wrong, group);
}

/* One check. Only the first ten failures of the run are shown. */
static void expect(const char *hasher, size_t length, uint64_t got, uint64_t wanted)
{
    checks++;
    if (got == wanted)
        return;
    failed++;
    if (failed <= 10)
        printf("  %s of %lu bytes gave %016llx and not %016llx\n", hasher, (unsigned long)length,
               (unsigned long long)got, (unsigned long long)wanted);
}

/* ---- the groups */

/* FNV-1a, 64 bits: vectors that its authors publish */
static const struct {
    const char *text;
    size_t length;
    uint64_t hash;
} fnv_vectors[] = {
    {"", 0, UINT64_C(0xcbf29ce484222325)},       {"a", 1, UINT64_C(0xaf63dc4c8601ec8c)},
    {"b", 1, UINT64_C(0xaf63df4c8601f1a5)},      {"c", 1, UINT64_C(0xaf63de4c8601eff2)},
    {"d", 1, UINT64_C(0xaf63d94c8601e773)},      {"e", 1, UINT64_C(0xaf63d84c8601e5c0)},
    {"f", 1, UINT64_C(0xaf63db4c8601ead9)},      {"fo", 2, UINT64_C(0x08985907b541d342)},
    {"foo", 3, UINT64_C(0xdcb27518fed9d577)},    {"foob", 4, UINT64_C(0xdd120e790c2512af)},
    {"fooba", 5, UINT64_C(0xcac165afa2fef40a)},  {"foobar", 6, UINT64_C(0x85944171f73967e8)},
};

static void published(void)
{
    begin();
    for (size_t i = 0; i < sizeof fnv_vectors / sizeof fnv_vectors[0]; i++)
        expect("fnv", fnv_vectors[i].length,
               leapfrog_hash_fnv((const uint8_t *)fnv_vectors[i].text, fnv_vectors[i].length),
               fnv_vectors[i].hash);
    end("Fnv on published FNV-1a vectors");

    /* the number 1 in one byte, and in eight */
    static const uint8_t one[8] = {1};
    begin();
    expect("murmur", 1, leapfrog_hash_murmur(one, 1), UINT64_C(0xb456bcfc34c2cb2c));
    expect("murmur", 8, leapfrog_hash_murmur(one, 8), UINT64_C(0xb456bcfc34c2cb2c));
    end("Murmur of the number 1 is fmix64 of 1");
}

static void null_pointer(void)
{
    begin();
    expect("simple", 0, leapfrog_hash_simple(NULL, 0), 0);
    expect("murmur", 0, leapfrog_hash_murmur(NULL, 0), 0);
    expect("fnv", 0, leapfrog_hash_fnv(NULL, 0), UINT64_C(0xcbf29ce484222325));
    end("a null pointer with length 0");
}

/* Bytes that look random and are the same in each run: the top byte of a linear congruence. */
static uint8_t next_byte(void)
{
    static uint64_t state = 1;
    state = state * UINT64_C(6364136223846793005) + UINT64_C(1442695040888963407);
    return (uint8_t)(state >> 56);
}

/* One hasher against its plain version: `turns` strings of each length from `low` to `high`. */
static void against(const char *hasher, hash_function *proved, hash_function *plain, size_t low,
                    size_t high, int turns)
{
    static uint8_t bytes[1024];
    for (size_t length = low; length <= high; length++)
        for (int turn = 0; turn < turns; turn++) {
            for (size_t i = 0; i < length; i++)
                bytes[i] = next_byte();
            expect(hasher, length, proved(bytes, length), plain(bytes, length));
        }
}

static void strings(void)
{
    begin();
    against("simple", leapfrog_hash_simple, plain_simple, 0, 16, 1000);
    end("Simple against plain C, 1000 strings of each length 0 to 16, 0 above 8");
    begin();
    against("murmur", leapfrog_hash_murmur, plain_murmur, 0, 16, 1000);
    end("Murmur against plain C, 1000 strings of each length 0 to 16, 0 above 8");
    begin();
    against("fnv", leapfrog_hash_fnv, plain_fnv, 0, 16, 1000);
    end("Fnv against plain C, 1000 strings of each length 0 to 16");
    begin();
    against("simple", leapfrog_hash_simple, plain_simple, 17, 1024, 1);
    against("murmur", leapfrog_hash_murmur, plain_murmur, 17, 1024, 1);
    against("fnv", leapfrog_hash_fnv, plain_fnv, 17, 1024, 1);
    end("all three against plain C, one string of each length 17 to 1024");
}

int main(void)
{
    published();
    null_pointer();
    strings();
    printf("c-test: %lu checks, %lu failed\n", checks, failed);
    return failed == 0 ? 0 : 1;
}
