/* A C program over include/redis_cache.h: a value is stored, served as a part of the arena, dropped past its expiry and counted; a record is
 * planned, its plan resolved, what was fetched served, and dropped by a push; epochs are taken.
 * Ends with 0 where all is as it should be, else with the number of the line that is not. */
#include "redis_cache.h"
#include <string.h>

#define EXPECT(fact) do { if (!(fact)) return __LINE__; } while (0)
#define TEXT(text) (const uint8_t *)(text), sizeof(text) - 1

/* The call record of GET a. */
#define GET_A "TRP\1\0\0\1\0" "\0\0\0\0\0\0\0\0\0\0\0\0\0\0\0\0\0" "\2\0" "\0\3\0\0\0GET" "\0\1\0\0\0a"

static uint8_t arena[4096];

int main(void)
{
    uint64_t counts[3] = {0, 0, 0};
    redis_cache_bytes value = {arena, 0}, whole = {arena, 0};

    redis_cache_setup_return fresh = redis_cache_setup(arena, sizeof arena, 4, 0, 100);
    EXPECT(fresh.cause == 0 && fresh.epoch == 0 && fresh.next == 1);
    EXPECT(redis_cache_setup(arena, 63, 4, 0, 100).cause == 1);
    EXPECT(redis_cache_store(arena, sizeof arena, 4, 0, 100, 0, TEXT("a"), TEXT("GETa"), TEXT("$1\r\nx\r\n"), 5) == 0);
    EXPECT(redis_cache_store(arena, sizeof arena, 4, 0, 100, 0, TEXT("a"), TEXT("GETa"), TEXT("$1\r\nx\r"), 5) == 6);

    redis_cache_lookup_return found =
        redis_cache_lookup(arena, sizeof arena, 4, 0, 100, 5, 0, TEXT("a"), TEXT("GETa"), &counts, &value, &whole);
    EXPECT(found.cause == 0 && found.hit == 1);
    EXPECT(value.len == 7 && memcmp(value.ptr, "$1\r\nx\r\n", 7) == 0);
    EXPECT(value.ptr > arena && value.ptr + value.len <= arena + sizeof arena);
    EXPECT(whole.ptr == arena && whole.len == sizeof arena);

    found = redis_cache_lookup(arena, sizeof arena, 4, 0, 100, 6, 0, TEXT("a"), TEXT("GETa"), &counts, &value, &whole);
    EXPECT(found.cause == 0 && found.hit == 0 && value.len == 0);
    EXPECT(redis_cache_invalidate(arena, sizeof arena, 4, 0, 100, TEXT("a"), &counts) == 0);

    static uint8_t plan[256], send[256], answer[256];
    redis_cache_plan_return planned = redis_cache_plan(arena, sizeof arena, 4, 0, 100, 0, 0, TEXT(GET_A), &counts, plan, sizeof plan, send, sizeof send);
    EXPECT(planned.cause == 0 && planned.at == 0 && planned.offset == 0 && planned.count == 2);
    EXPECT(planned.send == 41 && memcmp(send, "*2\r\n$4\r\nPTTL\r\n$1\r\na\r\n*2\r\n$3\r\nGET\r\n$1\r\na\r\n", 41) == 0);
    redis_cache_resolve_return resolved =
        redis_cache_resolve(arena, sizeof arena, 4, 0, 100, 0, 0, plan, planned.plan, TEXT("*2\r\n:-1\r\n+x\r\n"), answer, sizeof answer);
    EXPECT(resolved.cause == 0 && resolved.refused == 0);
    EXPECT(resolved.answer == 8 && memcmp(answer, "*1\r\n+x\r\n", 8) == 0);
    planned = redis_cache_plan(arena, sizeof arena, 4, 0, 100, 0, 0, TEXT(GET_A), &counts, plan, sizeof plan, send, sizeof send);
    EXPECT(planned.cause == 0 && planned.send == 0 && planned.count == 0);
    EXPECT(redis_cache_push(arena, sizeof arena, 4, 0, 100, TEXT(">2\r\n$10\r\ninvalidate\r\n_\r\n"), &counts) == 0);
    planned = redis_cache_plan(arena, sizeof arena, 4, 0, 100, 0, 0, TEXT("TRP\1\0\0\2"), &counts, plan, sizeof plan, send, sizeof send);
    EXPECT(planned.cause == 2 && planned.at == 7);

    redis_cache_epoch_return taken = redis_cache_new_epoch(fresh.next);
    EXPECT(taken.epoch == 1 && taken.next == 2);
    taken = redis_cache_new_epoch(UINT64_MAX);
    EXPECT(taken.epoch == UINT64_MAX && taken.next == 0);

    redis_cache_statistics read = redis_cache_counts((const uint64_t(*)[3]) & counts);
    EXPECT(read.hit == 2 && read.miss == 2 && read.invalidate == 2);

    arena[sizeof arena - 1] = 1;
    EXPECT(redis_cache_invalidate(arena, sizeof arena, 4, 0, 100, TEXT("a"), &counts) == 9);
    return 0;
}
