#define _DEFAULT_SOURCE
#include "lend.h"

#include <stdio.h>
#include <stdlib.h>
#include <string.h>
#include <sys/mman.h>
#include <unistd.h>

/* What lies on the open side. */
#define WATCHED 40
static const uint8_t watch[WATCHED * sizeof(uint16_t)] =
    "a slice that is lent has its end here, and nothing behind it is to be ...";

/* The first byte that may be touched, and the number of such bytes. */
static uint8_t *room;
static size_t page, room_len, stride;

/* One stretch for all places: forbidden pages with a room between each two. */
static void make_rooms(void)
{
    page = (size_t)sysconf(_SC_PAGESIZE);
    room_len = sizeof(uint16_t) * LONGEST_SLICE + sizeof watch;
    room_len = (room_len + page - 1) / page * page;
    stride = room_len + page;
    uint8_t *all = mmap(NULL, PLACES * stride + page, PROT_NONE,
                        MAP_PRIVATE | MAP_ANONYMOUS, -1, 0);
    if (all == MAP_FAILED) {
        perror("mmap");
        exit(1);
    }
    room = all + page;
    for (size_t place = 0; place < PLACES; place++)
        if (mprotect(room + place * stride, room_len, PROT_READ | PROT_WRITE)) {
            perror("mprotect");
            exit(1);
        }
}

static uint16_t *slice_of(unsigned place, enum side side, size_t len)
{
    uint8_t *first = room + place * stride;
    if (side == AFTER)
        first += room_len - len * sizeof(uint16_t);
    return (uint16_t *)first;
}

/* The first of the watched numbers. */
static uint16_t *watched(unsigned place, enum side side, size_t len)
{
    uint16_t *slice = slice_of(place, side, len);
    return side == AFTER ? slice - WATCHED : slice + len;
}

uint16_t *lend(unsigned place, enum side side, size_t len)
{
    if (!room)
        make_rooms();
    if (place >= PLACES || len > LONGEST_SLICE)
        abort();
    memcpy(watched(place, side, len), watch, sizeof watch);
    return slice_of(place, side, len);
}

int beside_unchanged(unsigned place, enum side side, size_t len)
{
    return memcmp(watched(place, side, len), watch, sizeof watch) == 0;
}
