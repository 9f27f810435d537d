/* The cache's C linkage: `./staticlib caching` makes the library. Every function is proved to meet its contract, which stands above its code in
 * crates/caching/src/ (one file for each, but lib.rt has setup, the single calls and the counts). docs/BEHAVIOUR.md has the rules.
 *
 * Common to the calls that take them:
 *   arena, arena_len   the lent arena, which nobody else reads or writes meanwhile. docs/LAYOUT.md says what it holds.
 *   size, mode, ttl    the settings: keys of the whole cache, 1 to 65,536; 0 All or 1 opt-in; default TTL in milliseconds. The size that setup
 *                      was given must be given again with that arena; mode and TTL are free in every call.
 *   clock, epoch       the time in milliseconds, judged as given, and the epoch that items are looked up and stored under.
 *   counts             the counts record: hit, miss, invalidate, in this order. It wraps at 64 bits.
 * A call returns 0 or the number of the cause that refuses it. The checks run in this order: 1; then, but for setup, 9; then in planning 3, 2, 4, 5,
 * in resolving 10, 6, 7, 8, in a push 6, in a single call 3, 6, 11.
 *    1   the size is not from 1 to 65,536, the mode neither 0 nor 1, or the arena longer than 2^31 bytes or shorter than 64 for each shard
 *    2   the call record is none (docs/LAYOUT.md); an offset comes with it
 *    3   the call record is longer than 16 MiB; in a single call the key than 65,535 bytes, the command key or the value than 16 MiB
 *    4   the clock and a command's TTL add up to more than 64 bits hold
 *    5   the plan buffer or the send buffer is too small
 *    6   replies, push or value to store are not one RESP3 value, whole and alone, within 16 MiB and 16 levels; null may be `_`, `$-1` or `*-1`
 *    7   the replies are no list, or a command finds no fitting reply in it
 *    8   the answer buffer is too small
 *    9   no run of calls from a setup of this size leaves this arena
 *   10   the plan breaks a rule of docs/LAYOUT.md
 *   11   the shard has no space for the value
 * A refused call leaves arena, counts and buffers as they were. Only 7 does not: stores of the commands before it remain, and the whole answer buffer
 * is zeroed.
 *
 * A call takes less than 64 KB of stack. Memory lent to one call must not overlap: the functions are proved for slices that are apart.
 * A pointer with length 0 must still not be null and must be aligned. Keys, commands and values may hold any bytes.
 */
#ifndef REDIS_CACHE_H
#define REDIS_CACHE_H

#include <stddef.h>
#include <stdint.h>

#ifdef __cplusplus
extern "C" {
#endif

/* Bytes lent for reading: a Rust slice. */
typedef struct {
    const uint8_t *ptr;
    size_t len;
} redis_cache_bytes;

/* What setup returns: the epoch that it takes and the next epoch number; both 0 where it is refused. */
typedef struct {
    uint64_t cause;
    uint64_t epoch;
    uint64_t next;
} redis_cache_setup_return;

/* What a new epoch returns: the number that it takes and the next epoch number. */
typedef struct {
    uint64_t epoch;
    uint64_t next;
} redis_cache_epoch_return;

/* What a lookup returns: hit is 1 where a value is served, else 0. */
typedef struct {
    uint64_t cause;
    uint64_t hit;
} redis_cache_lookup_return;

/* What planning returns: so many bytes of the plan buffer and of the send buffer are the plan and what is to be sent; of the responses to what is sent,
 * the first `offset` are skipped and the next `count` are the replies: of a transaction what EXEC answers, with all before it skipped, else every
 * response. `at` is cause 2's offset, the one at which the record goes wrong: the bytes before it are a front of some valid record, and with the
 * byte there they are a front of none; of a record that is cut short it is the length.
 * All that is not told is 0: for cause 0 `at`, for cause 2 all but cause and `at`, for the other causes all but cause. */
typedef struct {
    uint64_t cause;
    uint64_t at;
    uint64_t plan;
    uint64_t send;
    uint64_t offset;
    uint64_t count;
} redis_cache_plan_return;

/* What resolving returns: so many bytes of the answer buffer are the result; so many stores were refused as 11. Both are 0 where it is refused. */
typedef struct {
    uint64_t cause;
    uint64_t answer;
    uint64_t refused;
} redis_cache_resolve_return;

/* What an answer without replies returns: so many bytes of the answer buffer are the result; replies is 1 where some command needs them, and then
 * nothing was written. All that is not told is 0. */
typedef struct {
    uint64_t cause;
    uint64_t answer;
    uint64_t replies;
} redis_cache_served_return;

/* How far a value stands in bytes: verdict 0, it is complete and has so many bytes; 1, it lacks so many bytes at least; 2, no value begins so (bytes is
 * 0). */
typedef struct {
    uint64_t verdict;
    uint64_t bytes;
} redis_cache_value_end_return;

/* The counts as they are read. */
typedef struct {
    uint64_t hit;
    uint64_t miss;
    uint64_t invalidate;
} redis_cache_statistics;

/* Sets a fresh cache up, whatever the arena held: every byte of it is zero then. Cause: 1. */
redis_cache_setup_return redis_cache_setup(uint8_t *arena, size_t arena_len, uint64_t size, uint64_t mode, uint64_t ttl);

/* Looks the value for the command up under the key, at this clock (milliseconds) and under this epoch. Causes: 1, 9, 3.
 * *value becomes the value, a part of the arena (no copy): it is valid until the arena is written again. Where none is served, and on a refusal, it
 * becomes a part of no bytes. *whole becomes the whole arena, as the call leaves it. Both must hold a valid part of memory before the call. */
redis_cache_lookup_return redis_cache_lookup(uint8_t *arena, size_t arena_len, uint64_t size, uint64_t mode, uint64_t ttl, uint64_t clock,
                                             uint64_t epoch, const uint8_t *key, size_t key_len, const uint8_t *command, size_t command_len,
                                             uint64_t (*counts)[3], redis_cache_bytes *value, redis_cache_bytes *whole);

/* Stores the value for the command under the key, up to this expiry (milliseconds of the same clock), under this epoch. Causes: 1, 9, 3, 6, 11. */
uint64_t redis_cache_store(uint8_t *arena, size_t arena_len, uint64_t size, uint64_t mode, uint64_t ttl, uint64_t epoch, const uint8_t *key,
                           size_t key_len, const uint8_t *command, size_t command_len, const uint8_t *value, size_t value_len, uint64_t expiry);

/* Drops the key's item. Causes: 1, 9, 3. */
uint64_t redis_cache_invalidate(uint8_t *arena, size_t arena_len, uint64_t size, uint64_t mode, uint64_t ttl, const uint8_t *key, size_t key_len,
                                uint64_t (*counts)[3]);

/* Plans the commands of a call record (docs/LAYOUT.md): looks up what may be cached, and writes the plan, which resolving is lent later, and the
 * bytes to send. Served values are copied into the plan. The buffers' bytes behind what is written stay as they were. Causes: 1, 9, 3, 2, 4, 5. */
redis_cache_plan_return redis_cache_plan(uint8_t *arena, size_t arena_len, uint64_t size, uint64_t mode, uint64_t ttl, uint64_t clock,
                                         uint64_t epoch, const uint8_t *record, size_t record_len, uint64_t (*counts)[3], uint8_t *plan,
                                         size_t plan_len, uint8_t *send, size_t send_len);

/* Makes the result of a plan and of the replies, and stores what was fetched. The plan is exactly the bytes that planning wrote, not the whole buffer.
 * The replies are one RESP3 array of the responses that planning's counts take: for a transaction of one, EXEC's array. The result, `*n` and the answers
 * of the n commands, in a transaction inside `*1`, is written to the answer buffer; its bytes behind it stay as they were. A store that the shard has
 * no space for does not refuse the call: it is counted. Causes: 1, 9, 10, 6, 7, 8. */
redis_cache_resolve_return redis_cache_resolve(uint8_t *arena, size_t arena_len, uint64_t size, uint64_t mode, uint64_t ttl, uint64_t clock,
                                               uint64_t epoch, const uint8_t *plan, size_t plan_len, const uint8_t *replies, size_t replies_len,
                                               uint8_t *answer, size_t answer_len);

/* Makes the result of a plan whose commands are all served, without arena and replies: what redis_cache_resolve makes of it with any list of replies,
 * storing nothing. Where some command needs replies, `replies` is 1. A transaction's MULTI and EXEC are in what planning gave to send even where all
 * is served: the result here is that of an EXEC that answers with an empty array, so a host that watches keys, or wants EXEC's own refusal, sends them
 * and resolves. Causes: 10, then 8 where no replies are needed. */
redis_cache_served_return redis_cache_served(const uint8_t *plan, size_t plan_len, uint8_t *answer, size_t answer_len);

/* Of bytes received so far, how far the first RESP3 value of at most 16 MiB and 16 levels stands in them. Complete: the first `bytes` of them are a value.
 * More needed: some value begins with these bytes, none is complete, and the shortest that begins so has `bytes` more. Otherwise no value begins so,
 * whatever follows. Bytes appended change neither a complete nor a wrong verdict. It is one pass over the first value's bytes, of which it keeps
 * nothing: a caller that waits for `bytes` more before it asks again reads a value that comes as one blob twice at most, and one of n elements at most
 * once for each time that it asked. Nothing refuses it. */
redis_cache_value_end_return redis_cache_value_end(const uint8_t *received, size_t received_len);

/* Does what a push asks for: where its first element is the blob string `invalidate`, the keys in the array behind it are dropped, or all where a
 * null stands there; any other push, and any other value, is ignored and returns 0. Causes: 1, 9, 6. */
uint64_t redis_cache_push(uint8_t *arena, size_t arena_len, uint64_t size, uint64_t mode, uint64_t ttl, const uint8_t *push, size_t push_len,
                          uint64_t (*counts)[3]);

/* Takes a new epoch: `next` is the next epoch number as setup or the new epoch before it returned it. It is the epoch taken, and what is returned as next
 * is one more, 0 after 2^64 - 1. What is kept under other epochs is not served under it. Nothing refuses it. */
redis_cache_epoch_return redis_cache_new_epoch(uint64_t next);

/* The counts at this moment. Nothing refuses it. */
redis_cache_statistics redis_cache_counts(const uint64_t (*counts)[3]);

#ifdef __cplusplus
}
#endif

#endif
