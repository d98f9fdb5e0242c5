/* Mount. */
#include "floor.h"
#include "floor_look.h"

/* What a block is for a mount. NEEDED has a live page or an event above the covered sequence: all others
   are erased, but for the chosen ones. */
enum { EMPTY, WHOLE, OTHER, NEEDED };

/* What the blocks give: the chosen ones as the record has them, their epochs, and the highest epoch. */
struct survey {
    uint32_t at[COMMIT + 1], epoch[COMMIT + 1], covered, highest;
    uint8_t states[256];
};

/* Takes a whole block into the survey. */
static void take_block(struct survey *s, struct kind kind, uint32_t b)
{
    int which = kind.letter == 'C' ? COMMIT : KEYS_0 + kind.keys;
    if (kind.epoch > s->highest)
        s->highest = kind.epoch;
    if (kind.epoch <= s->epoch[which])
        return;
    s->epoch[which] = kind.epoch;
    s->at[which] = b;
    if (which == COMMIT)
        s->covered = kind.covered;
}

static void survey_blocks(const uint8_t *image, uint32_t blocks, struct survey *s)
{
    for (uint32_t b = 0; b < blocks; b++) {
        const uint8_t *block = image + (size_t)BLOCK * b;
        s->states[b] = OTHER;
        if (block[0] == 0xFF) {
            if (block_is_empty(block))
                s->states[b] = EMPTY;
            continue;
        }
        struct kind kind = floor_kind(block);
        if (kind.letter) {
            take_block(s, kind, b);
            s->states[b] = WHOLE;
        }
    }
}

/* What the commit says of places and positions. */
static void read_commit(const uint8_t *block, uint16_t *map, uint8_t *letters, uint32_t *scratch)
{
    memset(scratch, 0, PLACES * sizeof *scratch);
    for (int part = 2; part < PARTS; part++)
        for (int i = 0; i < ENTRIES_IN_PART; i++, map++) {
            uint64_t v = load8(block + PAGE * part + HEADER + 8 * i), values = entry_values(v);
            map[0] = v == VACANT ? NONE : (uint16_t)values;
            map[PLACES] = v == VACANT ? NONE : (uint16_t)(values >> 32);
        }
    for (int part = 0; part < 2; part++)
        for (int i = 0; i < PAYLOAD; i++)
            letters[PAYLOAD * part + i] = block[PAGE * part + HEADER + i] == 'f' ? 'f' : 'd';
}

/* The lists that the events alter, and what the blocks are. */
struct lists {
    uint16_t *map;
    uint8_t *letters, *states;
    uint32_t *scratch, covered, highest;
};

/* A place goes to a page and key, unless a later event has it. */
static void take_place(struct lists *l, unsigned x, uint32_t sequence, unsigned page, unsigned key)
{
    if (l->scratch[x] > sequence)
        return;
    l->scratch[x] = sequence;
    l->map[x] = (uint16_t)page;
    l->map[PLACES + x] = (uint16_t)key;
}

/* What a page with an event's header does. */
static void replay_event(struct lists *l, const uint8_t *page, unsigned g, struct event e)
{
    if (e.sequence > l->highest)
        l->highest = e.sequence;
    if (e.sequence <= l->covered)
        return;
    if (page[0] == 'N') {
        l->letters[e.key] = 'd';
        if (is_closed(page))
            take_place(l, file_start[e.file] + e.offset, e.sequence, g, e.key);
    } else if (is_closed(page)) {
        for (unsigned x = file_start[e.file] + e.offset; x < file_start[e.file + 1]; x++)
            take_place(l, x, e.sequence, NONE, NONE);
    }
}

static void replay(const uint8_t *image, uint32_t blocks, struct lists *l)
{
    struct event e;
    for (uint32_t b = 0; b < blocks; b++) {
        if (l->states[b] != OTHER)
            continue;
        for (unsigned g = b * PAGES_IN_BLOCK; g < (b + 1) * PAGES_IN_BLOCK; g++) {
            const uint8_t *page = image + (size_t)PAGE * g;
            if (is_event_letter(page[0]) && read_event(page, &e)) {
                if (e.sequence > l->covered)
                    l->states[b] = NEEDED;
                replay_event(l, page, g, e);
            }
        }
    }
}

/* Whether the deciding entries of eight places fit, and no key is named again; named letters become u, and
   the blocks of the pages are needed. */
static bool settle_eight(const uint8_t *image, size_t pages, struct lists *l, uint32_t file,
                         uint32_t offset)
{
    uint64_t wrong = 0;
    for (uint32_t end = offset + 8; offset < end; offset++) {
        unsigned x = file_start[file] + offset, page = l->map[x], key = l->map[PLACES + x];
        if (page == NONE)
            continue;
        if (page >= pages)
            return false;
        if (l->scratch[x] == 0) {
            const uint8_t *bytes = image + (size_t)PAGE * page;
            wrong |= node_differs(bytes, place_text(file, offset), key);
        }
        wrong |= l->letters[key] == 'u';
        l->letters[key] = 'u';
        l->states[page / PAGES_IN_BLOCK] = NEEDED;
    }
    return wrong == 0;
}

static bool settle(const uint8_t *image, size_t pages, struct lists *l)
{
    for (uint32_t file = 0; file < FILES; file++)
        for (uint32_t offset = 0; offset < file_count[file]; offset += 8)
            if (!eight_vacant(l->map, file_start[file] + offset)
                && !settle_eight(image, pages, l, file, offset))
                return false;
    return true;
}

static uint32_t refuse(uint16_t *map, uint8_t *letters, uint32_t *scratch, uint32_t reply)
{
    memset(map, 0xFF, 2 * PLACES * sizeof *map);
    memset(letters, 'd', POSITIONS);
    memset(scratch, 0, PLACES * sizeof *scratch);
    return reply;
}

uint32_t floor_mount(uint8_t *image, size_t image_length, uint16_t *map, size_t map_length,
                     uint8_t *letters, size_t letters_length, uint32_t *numbers, uint32_t *scratch,
                     size_t scratch_length)
{
    uint32_t refusal = refuse_lent(image_length, map_length, letters_length);
    uint32_t blocks = (uint32_t)(image_length / BLOCK);
    memset(numbers, 0, (COMMIT + 1) * sizeof *numbers);
    if (refusal || scratch_length != PLACES)
        return refusal ? refusal : 2;
    struct survey s;
    memset(&s, 0, offsetof(struct survey, states));
    survey_blocks(image, blocks, &s);
    if (!s.epoch[COMMIT])
        return refuse(map, letters, scratch, 13);
    if (!s.epoch[KEYS_0] || !s.epoch[KEYS_1])
        return refuse(map, letters, scratch, 12);
    struct lists l = { map, letters, s.states, scratch, s.covered, s.covered };
    read_commit(image + (size_t)BLOCK * s.at[COMMIT], map, letters, scratch);
    replay(image, blocks, &l);
    if (!settle(image, image_length / PAGE, &l))
        return refuse(map, letters, scratch, 14);
    memcpy(numbers, s.at, sizeof s.at);
    numbers[SEQUENCE] = l.highest + 1;
    numbers[EPOCH] = s.highest + 1;
    for (uint32_t b = 0; b < blocks; b++)
        if (s.states[b] != NEEDED && !is_chosen(numbers, b))
            memset(image + (size_t)BLOCK * b, 0xFF, BLOCK);
    return 0;
}
