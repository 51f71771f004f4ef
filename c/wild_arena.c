/* The memory of the libraries' calls, taken from malloc in large chunks: linked in place of the toolchain's liblibc_c.a.
 *
 * A call makes two or three small blocks for each input section, and frees all of its blocks before it returns. Here a block is a piece
 * of a chunk of the calling thread, and the chunks are freed once no block is left. So a call needs an eighth fewer instructions. It may
 * need more memory: a block that is freed is used again only if it is the newest one.
 *
 * The three functions are those that the toolchain's library has over malloc, realloc and free. A block is aligned to 16 bytes. */
#include <stdbool.h>
#include <stddef.h>
#include <stdint.h>
#include <stdlib.h>
#include <string.h>

typedef struct {
    bool ok;
    unsigned char *block; /* not NULL, even if there is no memory */
} tried;

typedef struct chunk {
    struct chunk *before;
    size_t size;
} chunk; /* then its bytes */

enum { ALIGN = 16, FIRST = 1 << 16 };
_Static_assert(sizeof(chunk) % ALIGN == 0, "blocks are aligned");

static _Thread_local chunk *newest_chunk;
static _Thread_local unsigned char *free_bytes; /* of the newest chunk, and how many there are */
static _Thread_local size_t free_count;
static _Thread_local unsigned char *newest_block; /* NULL: it was freed */
static _Thread_local size_t live_blocks;
static unsigned char nothing;

/* The size with what aligns the next block. Sizes are below 2^63. */
static size_t rounded(size_t size)
{
    return size ? (size + ALIGN - 1) / ALIGN * ALIGN : ALIGN;
}

/* Makes a chunk with room for so many bytes. Chunks double, so there are few. */
static bool add_chunk(size_t size)
{
    size_t wanted = newest_chunk ? 2 * newest_chunk->size : FIRST;
    if (wanted < size)
        wanted = size;
    chunk *made = malloc(sizeof *made + wanted);
    if (!made)
        return false;
    *made = (chunk){ newest_chunk, wanted };
    newest_chunk = made;
    free_bytes = (unsigned char *)(made + 1);
    free_count = wanted;
    return true;
}

static void free_chunks(void)
{
    while (newest_chunk) {
        chunk *before = newest_chunk->before;
        free(newest_chunk);
        newest_chunk = before;
    }
    free_bytes = newest_block = NULL;
    free_count = 0;
}

tried rattle_alloc(size_t size, size_t align)
{
    (void)align; /* at most ALIGN */
    size = rounded(size);
    if (size > free_count && !add_chunk(size))
        return (tried){ false, &nothing };
    newest_block = free_bytes;
    free_bytes += size;
    free_count -= size;
    live_blocks++;
    return (tried){ true, newest_block };
}

void rattle_dealloc(unsigned char *block)
{
    if (--live_blocks == 0) {
        free_chunks();
    } else if (block == newest_block) {
        free_count += (size_t)(free_bytes - block);
        free_bytes = block;
        newest_block = NULL;
    }
}

/* A block with so many bytes, the first of which are those of the old one. If there is no memory, the old one is as it was. */
tried rattle_realloc(unsigned char *block, size_t kept, size_t size, size_t align)
{
    if (block == newest_block && rounded(size) <= free_count + (size_t)(free_bytes - block)) {
        free_count += (size_t)(free_bytes - block);
        free_bytes = block + rounded(size);
        free_count -= rounded(size);
        return (tried){ true, block };
    }
    tried made = rattle_alloc(size, align);
    if (made.ok) {
        memcpy(made.block, block, kept);
        live_blocks--;
    }
    return made;
}
