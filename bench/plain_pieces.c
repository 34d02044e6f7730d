/* The library's reading in pieces written plainly in C, as plain.c has the other calls; for states that come from a start. */
#include "plain_rules.h"

static const uint64_t MOST_TAKEN = 2199023255552;

vestumbral_pieces plain_pieces_start(void)
{
    return (vestumbral_pieces){.at = FIRST};
}

/* Those of the `count` bytes from `at` on that the piece has, which begins at `begin` in the file. */
static inline void keep(uint8_t *to, uint64_t at, uint64_t count, uint64_t begin, const uint8_t *piece, size_t piece_len)
{
    uint64_t from = at > begin ? at : begin, end = begin + piece_len;
    if (end > at + count)
        end = at + count;
    if (from < end)
        memcpy(to + (from - at), piece + (from - begin), end - from);
}

/* Whether extensions may follow a file's first 352 bytes. A pair's region is not known to end yet. */
static inline bool open_region(const uint8_t *front, struct outline *o)
{
    bool pair = memcmp(front + 344, "ni1", 4) == 0;
    if (!judge_front(front, pair ? FIRST : MOST_TAKEN, o))
        return false;
    if (pair)
        o->end = MOST_TAKEN;
    return o->extended;
}

/* Moves on over the extensions that have come whole; any other may yet become one, and is judged at the end. */
static inline void move_on(vestumbral_pieces *p, const struct outline *o, uint64_t begin, const uint8_t *piece, size_t piece_len)
{
    uint64_t come = p->taken < o->end ? p->taken : o->end;
    for (;;) {
        uint64_t left = o->end - p->at;
        keep(p->coming, p->at, left < sizeof p->coming ? left : sizeof p->coming, begin, piece, piece_len);
        int32_t size = get32(p->coming, o->big), code = get32(p->coming + 4, o->big);
        if (p->count == MOST_EXTENSIONS || size < 16 || size % 16 != 0 || p->at + size > come || code < 0)
            return;
        p->marks[p->count].size = size;
        p->marks[p->count].code = code;
        p->count++;
        p->at += size;
        memset(p->coming, 0, sizeof p->coming);
    }
}

vestumbral_taken plain_pieces_take(vestumbral_pieces pieces, const uint8_t *piece, size_t piece_len)
{
    uint64_t begin = pieces.taken;
    if (piece_len > MOST_TAKEN - begin)
        return (vestumbral_taken){.refusal = 25, .pieces = pieces};
    struct outline o;
    keep(pieces.front, 0, FIRST, begin, piece, piece_len);
    pieces.taken += piece_len;
    if (pieces.taken > pieces.at && open_region(pieces.front, &o))
        move_on(&pieces, &o, begin, piece, piece_len);
    return (vestumbral_taken){.pieces = pieces};
}

/* Rules 1 to 15 of the bytes taken. */
static inline bool judge_pieces(const vestumbral_pieces *p, struct outline *o)
{
    if (!judge_front(p->front, p->taken, o))
        return false;
    if (!o->extended)
        return true;
    o->extensions = p->count;
    return (p->count > 0 && p->at == o->end) || walk(p->coming, p->at, p->count, 0, o);
}

vestumbral_file plain_pieces_file(vestumbral_pieces pieces)
{
    struct outline o;
    return shown(judge_pieces(&pieces, &o), &o);
}

vestumbral_extension plain_pieces_extension_at(vestumbral_pieces pieces, uint64_t number)
{
    struct outline o;
    if (!judge_pieces(&pieces, &o))
        return (vestumbral_extension){.refusal = o.refusal, .place = o.place};
    if (number >= o.extensions)
        return (vestumbral_extension){.refusal = 18};
    uint64_t start = FIRST;
    for (uint64_t i = 0; i < number; i++)
        start += pieces.marks[i].size;
    return (vestumbral_extension){.start = start, .size = pieces.marks[number].size, .code = pieces.marks[number].code};
}
