/*
 * The update of a board's flash by the board's own firmware, in the order of `x7 update` (FORMATS, updates) and with
 * the steps that `flash_steps` lists: whenever the power goes, the flash boots as before, or starts with its golden
 * stream, or boots as updated.
 *
 * The flash holds an image of `x7 image`: 2,048 slots in its first sector, the golden stream at 65,536, and the update
 * where the slots lead. The update is found by the slots, so nothing of it stands in the firmware.
 *
 *     1. find     read the slots: where the update stands, which slot is open, and which is the next
 *     2. spend    program 00000000 over the sync word of the open slot: from now on the golden stream starts
 *     3. erase    each sector from the update's place to the end
 *     4. program  the stream, within the pages of the flash
 *     5. verify   read the stream back, and FF from its end to the end of the flash
 *     6. open     program the sync word in the next slot, and read it back: from now on the new stream starts
 *
 * C99. No memory is allocated and nothing is static; the stack holds two pages and some words. It may be called again
 * after a power loss, or after a result that isn't X7_DONE, with the same stream or another one.
 *
 * What it takes for granted:
 *   - The golden stream starts where no slot is open, and the new stream suits the board. `check_update` judges both
 *     before, with the stream and with what the flash holds; nothing here looks into a stream.
 *   - A bit whose program was cut short keeps the value that it is read with. A switch word that was torn so is neither
 *     the sync word nor FFFFFFFF; its slot counts as spent, and stays as it is. Whoever has a flash whose torn bits may
 *     read otherwise later programs 00000000 over such words between steps 2 and 3, while the old update is whole.
 *   - What `wait` says ended well has ended well. All is read back but the word that is spent in step 2: a flash whose
 *     first sector may be protected, and that ignores a program then, has to say so in `wait`.
 *   - An erase sets the 65,536 bytes of a sector to FF, and a program clears bits alone. A flash whose sectors are
 *     larger isn't served; one with smaller ones erases several in one call of `erase`.
 *   - No other writer is at the flash meanwhile, and what is read is the flash, and no cache of it.
 */
#ifndef X7_UPDATE_H
#define X7_UPDATE_H

#include <stdbool.h>
#include <stdint.h>

#ifdef __cplusplus
extern "C" {
#endif

#define X7_SECTOR UINT32_C(65536)         /* bytes that an erase sets to FF */
#define X7_SLOTS UINT32_C(2048)           /* slots of the first sector */
#define X7_SLOT_SIZE UINT32_C(32)         /* bytes of a slot */
#define X7_MOST_BYTES UINT32_C(134217728) /* of a flash */
#define X7_NO_SLOT X7_SLOTS               /* stands for a slot where there is none */

/* Bytes of a page of the flash: no program passes the end of one. 256 serve where pages are of 512 too. */
#ifndef X7_PAGE
#define X7_PAGE 256
#endif
#if X7_PAGE < 32
#error "a page holds a slot, which has 32 bytes"
#endif

/* The flash, and the four functions that the board gives. Each gets `flash`, and answers whether it was done. */
struct x7_board {
    void *flash;
    /* bytes of the flash, or the place where the region ends that the update may take: a multiple of X7_SECTOR */
    uint32_t size;
    /* reads `count` bytes from a place on, at most X7_PAGE */
    bool (*read)(void *flash, uint32_t place, uint8_t *data, uint32_t count);
    /* begins the erase of the X7_SECTOR bytes from a place on, a multiple of X7_SECTOR */
    bool (*erase)(void *flash, uint32_t place);
    /* begins the program of `count` bytes from a place on, all within one page */
    bool (*program)(void *flash, uint32_t place, const uint8_t *data, uint32_t count);
    /* waits until what was begun has ended in the flash (its busy bit), and answers whether it ended well */
    bool (*wait)(void *flash);
};

/* The new stream, without the header of a .bit file. It is read twice, from its first byte to its last one. */
struct x7_stream {
    const void *from;
    uint32_t size; /* bytes */
    /* copies `count` bytes from an offset on, at most X7_PAGE, and answers whether it did */
    bool (*read)(const void *from, uint32_t offset, uint8_t *data, uint32_t count);
};

/* What the slots say. */
struct x7_layout {
    uint32_t update; /* the place of the update, in bytes */
    uint32_t opened; /* the slot that is open, or X7_NO_SLOT */
    uint32_t next;   /* the slot that an update opens; X7_SLOTS - 1 - next updates are left after it */
};

/* How an update, or a look at the slots, ended. */
enum x7_result {
    X7_DONE,      /* all is done */
    X7_NO_LAYOUT, /* the size or the first sector is no such image's: nothing was written */
    X7_USED_UP,   /* the last slot is used up, and the flash wants a new image: nothing was written */
    X7_TOO_LONG,  /* the stream passes the end of the flash: nothing was written */
    X7_DIFFERS,   /* a byte that was read back differs: the flash starts as after a power loss */
    X7_FAILED     /* a function of the board, or of the stream, failed: the flash starts as after a power loss */
};

/* Reads the slots, and writes nothing. The layout is whole where the result is X7_DONE. */
enum x7_result x7_find(const struct x7_board *board, struct x7_layout *layout);

/* Updates the flash with the stream. */
enum x7_result x7_update(const struct x7_board *board, const struct x7_stream *stream);

#ifdef __cplusplus
}
#endif

#endif
