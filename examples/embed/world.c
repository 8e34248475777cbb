/* A world inside a C program. It opens examples/move.toml, asks what docs/HOSTS.md shows, and prints each reply.

   `.ci/embed` builds and runs it: it links crates/libecs/out/liblibecs.a and liblibc_c.a of the kit. */
#include "ecs.h"

#include <stdio.h>
#include <stdlib.h>
#include <string.h>

static uint8_t *reply;
static size_t room;

/* Makes room for so many bytes. */
static void make_room(size_t wanted)
{
    reply = realloc(reply, wanted);
    if (reply == NULL)
        exit(3);
    room = wanted;
}

/* Asks, and prints the reply. */
static uint32_t ask(ecs_world *world, const char *request)
{
    size_t wanted;
    uint32_t status = ecs_request(world, (const uint8_t *)request, strlen(request), reply, room, &wanted);
    if (status == ECS_DONE && wanted > room) {
        make_room(wanted);
        status = ecs_reply(world, reply, room, &wanted);
    }
    printf("> %s\n", request);
    if (status == ECS_DONE)
        fwrite(reply, 1, wanted, stdout);
    else
        printf("status %u\n", status);
    return status;
}

int main(int argc, char **argv)
{
    static uint8_t file[1 << 20];
    ecs_world world = ECS_CLOSED;
    size_t length, wanted;
    FILE *source = argc > 1 ? fopen(argv[1], "rb") : NULL;

    if (source == NULL)
        return 2;
    length = fread(file, 1, sizeof file, source);
    fclose(source);
    make_room(16);

    printf("version %u\n", ecs_version());
    ask(&world, "resources");
    printf("a file that is none: status %u, ", ecs_open(&world, (const uint8_t *)"[", 1, reply, room, &wanted));
    fwrite(reply, 1, wanted, stdout);
    printf("the file: status %u\n", ecs_open(&world, file, length, reply, room, &wanted));
    printf("once more: status %u\n", ecs_open(&world, file, length, reply, room, &wanted));

    ask(&world, "spawn Position 3 4 Health 10");
    ask(&world, "run 1");
    ask(&world, "query 0 read Position, opt Health");
    ask(&world, "mark here");
    ask(&world, "run 2");
    ask(&world, "entity 0v1");
    ask(&world, "back here");
    ask(&world, "entity 0v1");
    ask(&world, "back there");
    ask(&world, "no such request");
    ask(&world, "quit");

    ecs_close(&world);
    ask(&world, "run 1");
    free(reply);
    return 0;
}
