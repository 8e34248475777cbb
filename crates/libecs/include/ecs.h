/* libecs: worlds of program files inside a C program. A world takes the requests of `ecsplay` and gives its replies;
   docs/HOSTS.md has them. What a call asks for is done within the call, on the thread of its caller.

   What a caller keeps to; no call can see whether it does:
   - A world begins as ECS_CLOSED, and its fields are left alone. An open world is never copied: use it by a pointer.
   - One call at a time uses a world, on the thread that opened it. Other threads may use other worlds.
   - No pointer is NULL, even where its length is 0. Each leads to as many bytes as its length says.
   - What a call writes (the world, `out`, `wanted`) overlaps none of its other arguments.
   - No function is called from a signal handler, nor in the forked child of a process with threads.

   Link the library with liblibc_c.a of the kit, which takes memory from malloc, realloc and free. It opens no file,
   prints nothing, starts no thread, and keeps nothing but its worlds. */
#ifndef ECS_H
#define ECS_H

#include <stdbool.h>
#include <stddef.h>
#include <stdint.h>

#ifdef __cplusplus
extern "C" {
#endif

/* A world, or none. */
typedef struct ecs_world {
    bool is_open;
    void *at;
} ecs_world;

/* How each world begins. */
#define ECS_CLOSED {false, NULL}

/* What a call ends with. */
enum {
    ECS_DONE = 0,    /* It is done. */
    ECS_REFUSED = 1, /* The program file is refused. */
    ECS_NO_WORLD = 2, /* No world is open. */
    ECS_MEMORY = 3,  /* An allocation failed. */
    ECS_IS_OPEN = 4  /* A world is open already. */
};

/* The version of these functions: 1. */
uint32_t ecs_version(void);

/* Texts: `wanted` is the length of the text that a call gives, 0 where it gives none. The text is written at the front
   of `out` if `room` is enough for all of it; else nothing is. No zero byte stands behind it. A caller with too little
   room asks ecs_reply with more, or calls ecs_open once more. */

/* Opens the world of a program file, whose bytes are given: ECS_DONE. Else nothing has changed. ECS_REFUSED: the text
   is the line that tells why, as `refused P4`. ECS_MEMORY, or ECS_IS_OPEN. */
uint32_t ecs_open(ecs_world *world, const uint8_t *file, size_t length, uint8_t *out, size_t room, size_t *wanted);

/* Does what a request asks for: ECS_DONE, and the text is the reply, whatever it says. The request is a line, with its
   end or without. Behind a `load` stand the lines that follow it, each with its end. Other bytes are replied
   `refused Q1`. `quit` ends nothing. ECS_NO_WORLD: nothing was done. ECS_MEMORY: the request was done, and there was
   no memory for the text of its reply. ecs_reply gives it later. */
uint32_t ecs_request(ecs_world *world, const uint8_t *request, size_t length, uint8_t *out, size_t room,
                     size_t *wanted);

/* Gives the reply to the last request once more; it is empty before the first. ECS_DONE, ECS_MEMORY or ECS_NO_WORLD. */
uint32_t ecs_reply(ecs_world *world, uint8_t *out, size_t room, size_t *wanted);

/* Closes the world that is open, if one is, and gives back its memory. It may be opened again. */
void ecs_close(ecs_world *world);

#ifdef __cplusplus
}
#endif

#endif
