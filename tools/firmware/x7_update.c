/* The update of a board's flash by its own firmware: x7_update.h says what it does and what it takes for granted. */
#include "x7_update.h"

#define WORD UINT32_C(4)  /* bytes of a word */
#define START UINT32_C(12) /* the place in a slot of the word that leads to the update */

/* What the switch word of a slot is (FORMATS, flash images): a free one becomes an open one, and that a spent one. */
static const uint8_t FREE_WORD[WORD] = {0xFF, 0xFF, 0xFF, 0xFF};
static const uint8_t OPEN_WORD[WORD] = {0xAA, 0x99, 0x55, 0x66};
static const uint8_t SPENT_WORD[WORD] = {0x00, 0x00, 0x00, 0x00};

/* What stands in a slot after its switch word: a no-op, WBSTAR and its word, the commands IPROG and DESYNC. */
static const uint8_t BEFORE_START[] = {0x20, 0x00, 0x00, 0x00, 0x30, 0x02, 0x00, 0x01};
static const uint8_t AFTER_START[] = {0x30, 0x00, 0x80, 0x01, 0x00, 0x00, 0x00, 0x0F,
                                      0x30, 0x00, 0x80, 0x01, 0x00, 0x00, 0x00, 0x0D};

static bool is_same(const uint8_t *data, const uint8_t *wanted, uint32_t count)
{
    for (uint32_t at = 0; at < count; at++) {
        if (data[at] != wanted[at]) {
            return false;
        }
    }
    return true;
}

static bool is_erased(const uint8_t *data, uint32_t count)
{
    for (uint32_t at = 0; at < count; at++) {
        if (data[at] != 0xFF) {
            return false;
        }
    }
    return true;
}

/* How many bytes from a place on lie in its page and before the end. */
static uint32_t piece_of(uint32_t place, uint32_t end)
{
    uint32_t piece = X7_PAGE - place % X7_PAGE;
    return piece < end - place ? piece : end - place;
}

/* Begins a program, and waits for its end. */
static bool program(const struct x7_board *board, uint32_t place, const uint8_t *data, uint32_t count)
{
    return board->program(board->flash, place, data, count) && board->wait(board->flash);
}

/* Whether a slot has the words of one, and leads where the first slot does. */
static bool is_slot(const uint8_t *slot, const uint8_t *start)
{
    return is_same(slot + WORD, BEFORE_START, sizeof BEFORE_START) && is_same(slot + START, start, WORD) &&
           is_same(slot + START + WORD, AFTER_START, sizeof AFTER_START);
}

/* The place that the start address of a slot names. */
static uint32_t place_of(const uint8_t *start)
{
    return (uint32_t)start[0] << 24 | (uint32_t)start[1] << 16 | (uint32_t)start[2] << 8 | (uint32_t)start[3];
}

/* Reads all slots: which one is open, and the first of the free ones at the end. */
static enum x7_result find_slots(const struct x7_board *board, const uint8_t *start, struct x7_layout *layout)
{
    uint8_t slot[X7_SLOT_SIZE];
    layout->opened = X7_NO_SLOT;
    layout->next = 0;
    for (uint32_t number = 0; number < X7_SLOTS; number++) {
        if (!board->read(board->flash, number * X7_SLOT_SIZE, slot, X7_SLOT_SIZE)) {
            return X7_FAILED;
        }
        if (!is_slot(slot, start)) {
            return X7_NO_LAYOUT;
        }
        if (is_same(slot, OPEN_WORD, WORD)) {
            if (layout->opened != X7_NO_SLOT) {
                return X7_NO_LAYOUT;
            }
            layout->opened = number;
        }
        if (!is_same(slot, FREE_WORD, WORD)) {
            layout->next = number + 1;
        }
    }
    return layout->next < X7_SLOTS ? X7_DONE : X7_USED_UP;
}

enum x7_result x7_find(const struct x7_board *board, struct x7_layout *layout)
{
    uint8_t start[WORD];
    if (board->size % X7_SECTOR != 0 || board->size < 2 * X7_SECTOR || board->size > X7_MOST_BYTES) {
        return X7_NO_LAYOUT;
    }
    if (!board->read(board->flash, START, start, WORD)) {
        return X7_FAILED;
    }
    layout->update = place_of(start);
    if (layout->update % X7_SECTOR != 0 || layout->update < 2 * X7_SECTOR || layout->update > board->size) {
        return X7_NO_LAYOUT;
    }
    return find_slots(board, start, layout);
}

/* Erases each sector from a place to the end. */
static bool erase_from(const struct x7_board *board, uint32_t place)
{
    for (; place < board->size; place += X7_SECTOR) {
        if (!board->erase(board->flash, place) || !board->wait(board->flash)) {
            return false;
        }
    }
    return true;
}

/* Programs the stream from a place on, page by page. */
static bool program_stream(const struct x7_board *board, const struct x7_stream *stream, uint32_t begin)
{
    uint8_t data[X7_PAGE];
    uint32_t end = begin + stream->size;
    for (uint32_t place = begin, piece; place < end; place += piece) {
        piece = piece_of(place, end);
        if (!stream->read(stream->from, place - begin, data, piece) || !program(board, place, data, piece)) {
            return false;
        }
    }
    return true;
}

/* Reads the stream back, and FF from its end to the end of the flash. */
static enum x7_result verify(const struct x7_board *board, const struct x7_stream *stream, uint32_t begin)
{
    uint8_t data[X7_PAGE], wanted[X7_PAGE];
    uint32_t end = begin + stream->size;
    for (uint32_t place = begin, piece; place < board->size; place += piece) {
        piece = piece_of(place, place < end ? end : board->size);
        if (!board->read(board->flash, place, data, piece)) {
            return X7_FAILED;
        }
        if (place < end && !stream->read(stream->from, place - begin, wanted, piece)) {
            return X7_FAILED;
        }
        if (place < end ? !is_same(data, wanted, piece) : !is_erased(data, piece)) {
            return X7_DIFFERS;
        }
    }
    return X7_DONE;
}

/* Opens a slot, and reads its switch word back. */
static enum x7_result open_slot(const struct x7_board *board, uint32_t number)
{
    uint8_t word[WORD];
    uint32_t place = number * X7_SLOT_SIZE;
    if (!program(board, place, OPEN_WORD, WORD) || !board->read(board->flash, place, word, WORD)) {
        return X7_FAILED;
    }
    return is_same(word, OPEN_WORD, WORD) ? X7_DONE : X7_DIFFERS;
}

enum x7_result x7_update(const struct x7_board *board, const struct x7_stream *stream)
{
    struct x7_layout layout;
    enum x7_result result = x7_find(board, &layout);
    if (result != X7_DONE) {
        return result;
    }
    if (stream->size > board->size - layout.update) {
        return X7_TOO_LONG;
    }
    if (layout.opened != X7_NO_SLOT && !program(board, layout.opened * X7_SLOT_SIZE, SPENT_WORD, WORD)) {
        return X7_FAILED;
    }
    if (!erase_from(board, layout.update) || !program_stream(board, stream, layout.update)) {
        return X7_FAILED;
    }
    result = verify(board, stream, layout.update);
    return result == X7_DONE ? open_slot(board, layout.next) : result;
}
