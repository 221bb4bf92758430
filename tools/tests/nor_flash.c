/*
 * x7_update over a model of a NOR flash, for test_firmware.py.
 *
 *     nor_flash steps FLASH STREAM             updates the file FLASH, and writes the steps as `flash_steps --bytes`
 *     nor_flash cut FLASH STREAM STEP SEED     the same, but the power goes in step STEP, from 1
 *     nor_flash tries COUNT SEED               COUNT updates of flashes at random that a cut ends, and others in
 *                                              which a bit sticks, is read wrong, or a function fails
 *
 * An erase sets bits, and a program clears them, within a page; each is busy until `wait`, and nothing may be asked
 * meanwhile. A program that is cut short has cleared some of its bits, an erase leaves anything in its sector. What the
 * model doesn't allow ends the run with status 3.
 */
#include "x7_update.h"

#include <inttypes.h>
#include <setjmp.h>
#include <stdio.h>
#include <stdlib.h>
#include <string.h>

enum { SHOWS = 1, MOST_SECTORS = 4 };

/* What goes wrong in a step. */
enum mishap { NOTHING, CUT, STUCK_BIT, WRONG_BIT, FAILURE, MISHAPS };

struct nor {
    uint8_t *data;
    uint32_t size;
    bool is_busy, has_written, shows;
    uint32_t step, wrong_step; /* steps so far, and the one in which the mishap comes */
    enum mishap mishap;
    uint64_t random;
    jmp_buf power_is_off;
};

static uint32_t take(uint64_t *random, uint32_t below)
{
    *random ^= *random << 13;
    *random ^= *random >> 7;
    *random ^= *random << 17;
    return (uint32_t)((*random >> 32) % below);
}

static void refuse(const char *what)
{
    fprintf(stderr, "nor_flash: %s\n", what);
    exit(3);
}

/* Counts a step, and answers whether the mishap is in it. */
static bool is_wrong_step(struct nor *nor, const char *verb, uint32_t place, const uint8_t *data, uint32_t count)
{
    if (nor->is_busy) {
        refuse("the flash is busy");
    }
    if (place > nor->size || count > nor->size - place) {
        refuse("a step passes the end of the flash");
    }
    if (nor->shows) {
        printf("%s %08" PRIX32 " %" PRIu32 " ", verb, place, count);
        for (uint32_t at = 0; data && at < count; at++) {
            printf("%02X", data[at]);
        }
        printf("\n");
    }
    return ++nor->step == nor->wrong_step;
}

/* Each bit of `from` that isn't in `to` is cleared, or not, as often as `often` of 8 times. */
static uint8_t torn(struct nor *nor, uint8_t from, uint8_t to, uint32_t often)
{
    for (unsigned bit = 0; bit < 8; bit++) {
        if ((from & ~to) >> bit & 1 && take(&nor->random, 8) < often) {
            from = (uint8_t)(from & ~(1u << bit));
        }
    }
    return from;
}

static bool read_flash(void *flash, uint32_t place, uint8_t *data, uint32_t count)
{
    struct nor *nor = flash;
    if (!nor->has_written) { /* the slots are looked at */
        memcpy(data, nor->data + place, count);
        return true;
    }
    bool is_wrong = is_wrong_step(nor, "read", place, nor->data + place, count);
    if (is_wrong && nor->mishap == CUT) {
        longjmp(nor->power_is_off, 1);
    }
    memcpy(data, nor->data + place, count);
    if (is_wrong && (nor->mishap == WRONG_BIT || nor->mishap == STUCK_BIT)) {
        data[take(&nor->random, count)] ^= (uint8_t)(1u << take(&nor->random, 8));
    }
    return !(is_wrong && nor->mishap == FAILURE);
}

static bool erase_sector(void *flash, uint32_t place)
{
    struct nor *nor = flash;
    if (place % X7_SECTOR) {
        refuse("an erase begins inside a sector");
    }
    nor->has_written = true;
    bool is_wrong = is_wrong_step(nor, "erase", place, NULL, X7_SECTOR);
    memset(nor->data + place, 0xFF, X7_SECTOR);
    if (is_wrong && nor->mishap != WRONG_BIT) {
        uint32_t bits = nor->mishap == STUCK_BIT ? 1 : take(&nor->random, 3000);
        while (bits--) {
            nor->data[place + take(&nor->random, X7_SECTOR)] &= (uint8_t)~(1u << take(&nor->random, 8));
        }
        if (nor->mishap == CUT) {
            longjmp(nor->power_is_off, 1);
        }
    }
    nor->is_busy = true;
    return !(is_wrong && nor->mishap == FAILURE);
}

static bool program_page(void *flash, uint32_t place, const uint8_t *data, uint32_t count)
{
    struct nor *nor = flash;
    if (count == 0 || place / X7_PAGE != (place + count - 1) / X7_PAGE) {
        refuse("a program passes a page");
    }
    nor->has_written = true;
    bool is_wrong = is_wrong_step(nor, "program", place, data, count);
    uint32_t often = is_wrong && nor->mishap != WRONG_BIT ? take(&nor->random, 9) : 8;
    for (uint32_t at = 0; at < count; at++) {
        uint8_t *byte = nor->data + place + at;
        uint8_t left = often == 8 ? (uint8_t)(*byte & data[at]) : torn(nor, *byte, data[at], often);
        if (left != data[at] && (!nor->wrong_step || nor->step < nor->wrong_step)) {
            refuse("a program would set a bit");
        }
        *byte = left;
    }
    if (is_wrong && nor->mishap == CUT) {
        longjmp(nor->power_is_off, 1);
    }
    nor->is_busy = true;
    return !(is_wrong && nor->mishap == FAILURE);
}

static bool wait_for_flash(void *flash)
{
    struct nor *nor = flash;
    nor->is_busy = false;
    return true;
}

static bool read_stream(const void *from, uint32_t offset, uint8_t *data, uint32_t count)
{
    memcpy(data, (const uint8_t *)from + offset, count);
    return true;
}

/* An update up to its end or to the mishap; `is_off` says that the power went. */
static enum x7_result update(struct nor *nor, const uint8_t *stream, uint32_t count, bool *is_off)
{
    struct x7_board board = {nor, nor->size, read_flash, erase_sector, program_page, wait_for_flash};
    struct x7_stream given = {stream, count, read_stream};
    nor->step = 0;
    nor->is_busy = nor->has_written = false;
    *is_off = setjmp(nor->power_is_off) != 0;
    return *is_off ? X7_FAILED : x7_update(&board, &given);
}

/* ---- flashes at random, and what is left of them */

static const uint8_t OPEN_SLOT[] = {0xAA, 0x99, 0x55, 0x66, 0x20, 0, 0, 0, 0x30, 2, 0, 1, 0, 0, 0, 0,
                                    0x30, 0, 0x80, 1, 0, 0, 0, 0x0F, 0x30, 0, 0x80, 1, 0, 0, 0, 0x0D};

/* Fills a flash: some slots spent, torn or open, the last ones free; the golden stream and the update are any bytes. */
static void make_flash(struct nor *nor, uint32_t update_sector)
{
    uint32_t used = take(&nor->random, 4) ? take(&nor->random, 6) : take(&nor->random, X7_SLOTS);
    uint32_t opened = used && take(&nor->random, 4) ? take(&nor->random, used) : X7_NO_SLOT;
    for (uint32_t at = X7_SECTOR; at < nor->size; at += 4) {
        uint32_t word = take(&nor->random, UINT32_MAX);
        memcpy(nor->data + at, &word, 4);
    }
    for (uint32_t number = 0; number < X7_SLOTS; number++) {
        uint8_t *slot = nor->data + number * X7_SLOT_SIZE;
        memcpy(slot, OPEN_SLOT, sizeof OPEN_SLOT);
        slot[13] = (uint8_t)update_sector;
        for (unsigned at = 0; at < 4 && number != opened; at++) {
            slot[at] = number >= used ? 0xFF : take(&nor->random, 3) ? 0x00 : torn(nor, slot[at], 0x00, 4);
        }
        if (number != opened && !memcmp(slot, OPEN_SLOT, 4)) {
            slot[0] = 0;
        }
    }
}

/* The one slot that is open; X7_NO_SLOT where none is, and one more where several are. */
static uint32_t open_slot_of(const uint8_t *data)
{
    uint32_t opened = X7_NO_SLOT, count = 0;
    for (uint32_t number = 0; number < X7_SLOTS; number++) {
        if (!memcmp(data + number * X7_SLOT_SIZE, OPEN_SLOT, 4)) {
            opened = number;
            count++;
        }
    }
    return count > 1 ? X7_NO_SLOT + 1 : opened;
}

/* A flash before an update, and the update. */
struct trial {
    const uint8_t *before;
    uint32_t size, place, opened, next;
    const uint8_t *stream;
    uint32_t count;
};

/* Whether what lies from the update's place on is the new stream, and FF after it. */
static bool is_updated(const struct trial *it, const uint8_t *after)
{
    const uint8_t *rest = after + it->place + it->count;
    uint32_t left = it->size - it->place - it->count;
    return !memcmp(after + it->place, it->stream, it->count) &&
           (left == 0 || (rest[0] == 0xFF && !memcmp(rest, rest + 1, left - 1)));
}

/* Whether all that no step may touch is as it was: the golden stream, and the slots but for two switch words. */
static bool is_kept(const struct trial *it, const uint8_t *after)
{
    for (uint32_t number = 0; number < X7_SLOTS; number++) {
        uint32_t begin = number * X7_SLOT_SIZE + (number == it->opened || number == it->next ? 4 : 0);
        if (memcmp(after + begin, it->before + begin, (number + 1) * X7_SLOT_SIZE - begin)) {
            return false;
        }
    }
    return !memcmp(after + X7_SECTOR, it->before + X7_SECTOR, it->place - X7_SECTOR);
}

/* Whether a flash boots as before, or with the golden stream, or as updated. */
static bool is_alive(const struct trial *it, const uint8_t *after)
{
    uint32_t opened = open_slot_of(after);
    if (!is_kept(it, after)) {
        return false;
    }
    if (opened == X7_NO_SLOT) {
        return true; /* the golden stream */
    }
    if (opened == it->opened) {
        return !memcmp(after + it->place, it->before + it->place, it->size - it->place);
    }
    return opened == it->next && is_updated(it, after);
}

/* How many steps an update without a mishap takes; it has to leave what it should. */
static uint32_t steps_of(struct nor *nor, const struct trial *it)
{
    bool is_off;
    nor->wrong_step = 0;
    bool is_done = update(nor, it->stream, it->count, &is_off) == X7_DONE;
    if (!is_done || !is_kept(it, nor->data) || !is_updated(it, nor->data) || open_slot_of(nor->data) != it->next) {
        refuse("an update without a mishap doesn't leave what it should");
    }
    return nor->step;
}

/* The step in which the mishap comes: as often one of the last three as one of the first, and else any. */
static uint32_t wrong_step_of(struct nor *nor, uint32_t steps, uint32_t count)
{
    uint32_t programs = 1 + count / X7_PAGE + MOST_SECTORS + 2;
    switch (take(&nor->random, 4)) {
    case 0:
        return 1 + take(&nor->random, steps < 3 ? steps : 3);
    case 1:
        return steps - take(&nor->random, steps < 3 ? steps : 3);
    case 2:
        return 1 + take(&nor->random, steps);
    default:
        return 1 + take(&nor->random, steps < programs ? steps : programs);
    }
}

/* Whether an update with a mishap that isn't a cut gave the answer that it should. */
static bool is_right(const struct trial *it, const struct nor *nor, enum x7_result result)
{
    if (nor->mishap == FAILURE) {
        return result == X7_FAILED;
    }
    if (result == X7_DONE) {
        return is_updated(it, nor->data) && open_slot_of(nor->data) == it->next;
    }
    return result == X7_DIFFERS;
}

struct counts {
    uint32_t tries; /* updates with a mishap */
    uint32_t cuts;  /* those of them in which the power went */
    uint32_t dead, wrong;
};

/* Updates of the flash as it is, each with a mishap; the last one leaves the flash. Answers whether a slot was left. */
static bool try_update(struct nor *nor, uint8_t *before, uint8_t *stream, struct counts *counts)
{
    struct x7_board board = {nor, nor->size, read_flash, erase_sector, program_page, wait_for_flash};
    struct x7_layout layout;
    bool is_off;
    nor->has_written = false;
    if (x7_find(&board, &layout) != X7_DONE) {
        return false;
    }
    uint32_t room = nor->size - layout.update;
    uint32_t count = take(&nor->random, 8) ? take(&nor->random, 3000) : room - take(&nor->random, 3);
    memcpy(before, nor->data, nor->size);
    for (uint32_t at = 0; at < count; at += 4) {
        uint32_t word = take(&nor->random, UINT32_MAX);
        memcpy(stream + at, &word, 4);
    }
    struct trial it = {before, nor->size, layout.update, layout.opened, layout.next, stream, count};
    uint32_t steps = steps_of(nor, &it);
    for (unsigned again = 0; again < 8; again++) {
        memcpy(nor->data, before, nor->size);
        nor->mishap = again < 5 ? CUT : (enum mishap)(STUCK_BIT + take(&nor->random, MISHAPS - STUCK_BIT));
        nor->wrong_step = wrong_step_of(nor, steps, count);
        if (nor->mishap == STUCK_BIT && nor->wrong_step == 1 && it.opened != X7_NO_SLOT) {
            nor->mishap = FAILURE; /* the word that is spent isn't read back: the flash has to tell */
        }
        enum x7_result result = update(nor, stream, count, &is_off);
        counts->tries++;
        counts->dead += !is_alive(&it, nor->data);
        counts->wrong += nor->mishap == CUT ? !is_off : !is_right(&it, nor, result);
        counts->cuts += nor->mishap == CUT;
    }
    return true;
}

static int try_many(uint32_t count, uint64_t seed)
{
    static uint8_t data[MOST_SECTORS * 65536], before[MOST_SECTORS * 65536], stream[MOST_SECTORS * 65536];
    struct nor nor = {.data = data, .random = seed * UINT64_C(2654435769) + 88172645463325252U};
    struct counts counts = {0};
    while (counts.cuts < count) {
        uint32_t sectors = 3 + take(&nor.random, MOST_SECTORS - 2);
        nor.size = sectors * X7_SECTOR;
        make_flash(&nor, 2 + take(&nor.random, sectors - 2));
        for (unsigned chain = 0; chain < 4 && try_update(&nor, before, stream, &counts); chain++) {
        }
    }
    printf("%" PRIu32 " updates, %" PRIu32 " of them cut: %" PRIu32 " dead, %" PRIu32 " wrong answers\n", counts.tries,
           counts.cuts, counts.dead, counts.wrong);
    return counts.dead || counts.wrong;
}

/* ---- files */

static uint8_t *read_whole(const char *path, uint32_t *size)
{
    FILE *file = fopen(path, "rb");
    if (!file || fseek(file, 0, SEEK_END)) {
        refuse(path);
    }
    *size = (uint32_t)ftell(file);
    rewind(file);
    uint8_t *data = malloc(*size + 1);
    if (!data || fread(data, 1, *size, file) != *size) {
        refuse(path);
    }
    fclose(file);
    return data;
}

static void write_whole(const char *path, const uint8_t *data, uint32_t size)
{
    FILE *file = fopen(path, "wb");
    if (!file || fwrite(data, 1, size, file) != size || fclose(file)) {
        refuse(path);
    }
}

static int update_file(char **words, bool shows, uint32_t cut, uint64_t seed)
{
    struct nor nor = {.shows = shows, .wrong_step = cut, .mishap = CUT, .random = seed * 2 + 1};
    uint32_t count;
    bool is_off;
    uint8_t *stream = read_whole(words[3], &count);
    nor.data = read_whole(words[2], &nor.size);
    enum x7_result result = update(&nor, stream, count, &is_off);
    printf("%s %d after %" PRIu32 " steps\n", is_off ? "power" : "result", (int)result, nor.step);
    write_whole(words[2], nor.data, nor.size);
    free(nor.data);
    free(stream);
    return 0;
}

int main(int count, char **words)
{
    if (count == 4 && !strcmp(words[1], "steps")) {
        return update_file(words, SHOWS, 0, 0);
    }
    if (count == 6 && !strcmp(words[1], "cut")) {
        return update_file(words, !SHOWS, (uint32_t)strtoul(words[4], NULL, 10), strtoull(words[5], NULL, 10));
    }
    if (count == 4 && !strcmp(words[1], "tries")) {
        return try_many((uint32_t)strtoul(words[2], NULL, 10), strtoull(words[3], NULL, 10));
    }
    refuse("usage");
}
