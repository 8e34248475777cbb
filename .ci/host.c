/* A host of `libecs` for tests: calls are read from the standard input, and what they end with is written to the
   standard output.

   A call is its letter (`o` ecs_open, `r` ecs_request, `a` ecs_reply, `c` ecs_close), the room that it has for a text
   and the length of its bytes, each a number of four bytes, and these bytes. An answer is the status and the length
   that is wanted, likewise, and all of the room. The host takes no memory, so that each allocation is the library's.
   It looks at the bytes next to what a call may write, and ends with status 9 where one has changed. */
#include "ecs.h"

#include <string.h>
#include <unistd.h>

enum { MOST = 1 << 24, EDGE = 64, MARK = 0xA5 };

static uint8_t in[MOST], out[EDGE + MOST + EDGE];

static void take(void *to, size_t count)
{
    for (uint8_t *at = to; count > 0;) {
        ssize_t got = read(0, at, count);
        if (got <= 0)
            _exit(0);
        at += got, count -= got;
    }
}

static void give(const void *from, size_t count)
{
    for (const uint8_t *at = from; count > 0;) {
        ssize_t put = write(1, at, count);
        if (put <= 0)
            _exit(8);
        at += put, count -= put;
    }
}

int main(void)
{
    struct {
        size_t before;
        ecs_world world;
        size_t between, wanted, after;
    } it = {7, ECS_CLOSED, 8, 0, 9};

    for (;;) {
        uint8_t call;
        uint32_t sizes[2], answer[2] = {0, 0};
        size_t room, length;

        take(&call, 1);
        take(sizes, sizeof sizes);
        room = sizes[0], length = sizes[1];
        if (room > MOST || length > MOST)
            _exit(7);
        take(in, length);
        memset(out, MARK, EDGE + room + EDGE);
        it.wanted = MARK;
        if (call == 'o')
            answer[0] = ecs_open(&it.world, in, length, out + EDGE, room, &it.wanted);
        else if (call == 'r')
            answer[0] = ecs_request(&it.world, in, length, out + EDGE, room, &it.wanted);
        else if (call == 'a')
            answer[0] = ecs_reply(&it.world, out + EDGE, room, &it.wanted);
        else
            ecs_close(&it.world), it.wanted = 0;
        for (size_t at = 0; at < EDGE; at++)
            if (out[at] != MARK || out[EDGE + room + at] != MARK)
                _exit(9);
        if (it.before != 7 || it.between != 8 || it.after != 9)
            _exit(9);
        answer[1] = it.wanted;
        give(answer, sizeof answer);
        give(out + EDGE, room);
    }
}
