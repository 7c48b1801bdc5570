/* Compares the sizes of hookup.h, its kinds, its structs, the answers that hookup-host never gets, which levels, lists of observers and fine
 * columns are refused, limits, the calls of a script and what is answered on a shelf, in which order, with the library. A size is right
 * where the library takes it and nothing beyond it. C11, and C++ too; status 1 and a line for each that is wrong. */
#include <stdio.h>
#include <string.h>

#include "hookup.h"

enum { ONE = HOOKUP_ONE_OBSERVER, SEVERAL = HOOKUP_SEVERAL_OBSERVERS, LIMITED = HOOKUP_LIMITED };

/* The levels of listed observers, which rise; one more than a record may list. */
static const uint8_t levels_listed[HOOKUP_MAX_OBSERVERS + 1] = {0x00, 0x40, 0x80, 0xC0, 0xC1};

static int wrong = 0;
static uint8_t out[65536];

static void expect(size_t wanted, size_t got, const char *what)
{
    if (got == wanted)
        return;
    fprintf(stderr, "constants: %s: %zu, not %zu\n", what, got, wanted);
    wrong = 1;
}

/* The number of observers that a record lists, which is none except in the second kind. */
static size_t listed(const uint8_t *record)
{
    return record[4] == SEVERAL ? record[HOOKUP_HEADER] : 0;
}

/* The number of its class columns: one for each observer, and of a limited part a fine one too. */
static size_t columns(const uint8_t *record)
{
    return record[4] == SEVERAL ? listed(record) : record[4] == LIMITED ? 2 : 1;
}

/* A class column of a record that has its frame; behind the last one come the entries. */
static uint8_t *column(uint8_t *record, size_t k)
{
    return record + HOOKUP_HEADER + 4 + listed(record) + k * record[7];
}

/* The entry of the event at place i. */
static uint8_t *entry(uint8_t *record, size_t i)
{
    return column(record, columns(record)) + 4 * i;
}

/* Lays the frame of a record of this kind, so many listed observers, n states in one class in each column, and m low inputs without a
 * step, where there were only zeros, and gives its length. */
static size_t frame(uint8_t *record, uint8_t kind, size_t count, size_t n, size_t m)
{
    record[4] = kind;
    record[HOOKUP_HEADER] = (uint8_t)count;
    record[7] = (uint8_t)n;
    record[9] = (uint8_t)m;
    memcpy(record + HOOKUP_HEADER + 4, levels_listed, count);
    for (size_t i = 0; i < m; i++)
        entry(record, i)[0] = (uint8_t)i;
    size_t body = (size_t)(entry(record, m) - record) - HOOKUP_HEADER + 8 * m * n;
    record[0] = (uint8_t)body;
    record[1] = (uint8_t)(body >> 8);
    return HOOKUP_HEADER + body;
}

/* A step of the event at place i. */
static void step(uint8_t *record, size_t i, size_t s, size_t t)
{
    entry(record, record[9])[8 * (i * record[7] + s) + t / 8] |= (uint8_t)(1 << t % 8);
}

/* Such a record whose events stay in each state. */
static size_t make(uint8_t *record, uint8_t kind, size_t count, size_t n, size_t m)
{
    size_t len = frame(record, kind, count, n, m);
    for (size_t i = 0; i < m; i++)
        for (size_t s = 0; s < n; s++)
            step(record, i, s, s);
    return len;
}

/* What Check says of such a record. */
static uint32_t check_made(uint8_t kind, size_t count, size_t n, size_t m)
{
    static uint8_t record[65536];
    memset(record, 0, sizeof record);
    size_t len = make(record, kind, count, n, m);
    return hookup_check(record, len);
}

/* A call that writes to out. */
typedef uint32_t writer(const uint8_t *record, size_t len, uint8_t *out, size_t outlen);

/* Lends the call so many bytes of out. It is to answer this and to change this many of all bytes, up to the last. */
static void expect_written(writer *call, const uint8_t *record, size_t len, size_t room, uint32_t answer, size_t changed, const char *what)
{
    size_t end = sizeof out;
    memset(out, 0xAA, end);
    expect(answer, call(record, len, out, room), what);
    while (end > 0 && out[end - 1] == 0xAA)
        end--;
    expect(changed, end, "bytes that it changed");
}

/* The longest records of each kind, and what is one too many. */
static void sizes(void)
{
    static uint8_t largest[65536], smallest[64];
    size_t len = make(largest, SEVERAL, HOOKUP_MAX_OBSERVERS, HOOKUP_MAX_STATES, HOOKUP_MAX_EVENTS);
    expect(HOOKUP_MAX_RECORD, len, "bytes of the largest record");
    expect(HOOKUP_MAX_BODY, len - HOOKUP_HEADER, "bytes of its body");
    expect(HOOKUP_PASS, hookup_check(largest, len), "the largest record");
    expect(HOOKUP_WRONG_LENGTH, hookup_check(largest, HOOKUP_HEADER), "its header alone");
    expect(HOOKUP_TOO_SHORT, hookup_check(largest, HOOKUP_HEADER - 1), "its header without the last byte");
    expect(HOOKUP_PASS, check_made(ONE, 0, HOOKUP_MAX_STATES, HOOKUP_MAX_EVENTS), "the largest record with one observer");
    expect(HOOKUP_PASS, check_made(LIMITED, 0, HOOKUP_MAX_STATES, HOOKUP_MAX_EVENTS), "the largest record of a limited part");
    expect(HOOKUP_OUT_OF_RANGE, check_made(ONE, 0, HOOKUP_MAX_STATES + 1, 0), "one state too many");
    expect(HOOKUP_OUT_OF_RANGE, check_made(ONE, 0, 1, HOOKUP_MAX_EVENTS + 1), "one event too many");
    expect(HOOKUP_OUT_OF_RANGE, check_made(SEVERAL, 2, HOOKUP_MAX_STATES + 1, 0), "one state too many for two observers");
    expect(HOOKUP_OUT_OF_RANGE, check_made(SEVERAL, 2, 1, HOOKUP_MAX_EVENTS + 1), "one event too many for two observers");
    expect(HOOKUP_OUT_OF_RANGE, check_made(LIMITED, 0, HOOKUP_MAX_STATES + 1, 0), "one state too many for a limited part");
    expect(HOOKUP_OUT_OF_RANGE, check_made(LIMITED, 0, 1, HOOKUP_MAX_EVENTS + 1), "one event too many for a limited part");

    size_t little = make(smallest, SEVERAL, HOOKUP_MAX_OBSERVERS, 1, 0);
    expect(HOOKUP_JOINED, hookup_join(largest, len, smallest, little, out, HOOKUP_MAX_RECORD), "the largest joined record");
    expect(0, (size_t)memcmp(out, largest, HOOKUP_MAX_RECORD), "its difference from the largest record");
    expect(HOOKUP_NO_ROOM, hookup_join(largest, len, smallest, little, out, HOOKUP_MAX_RECORD - 1), "room for all but its last byte");
}

/* Every number but three is refused as a kind. */
static void kinds(void)
{
    static uint8_t record[64];
    size_t len = make(record, ONE, 0, 1, 0), refused = 0;
    for (size_t kind = 0; kind <= 0xFFFF; kind++) {
        record[4] = (uint8_t)kind;
        record[5] = (uint8_t)(kind >> 8);
        refused += hookup_check(record, len) == HOOKUP_WRONG_KIND;
    }
    expect(0xFFFD, refused, "kinds refused");
    expect(HOOKUP_PASS, check_made(ONE, 0, 1, 0), "one observer");
    expect(HOOKUP_PASS, check_made(SEVERAL, 2, 1, 0), "two observers");
    expect(HOOKUP_PASS, check_made(LIMITED, 0, 1, 0), "a limited part");
}

static void closures(void)
{
    static uint8_t line[65536], smallest[64];
    size_t len = frame(line, SEVERAL, HOOKUP_MAX_OBSERVERS, HOOKUP_MAX_STATES, 1), last = HOOKUP_MAX_STATES - 1;
    const uint8_t *block = out + (HOOKUP_MAX_OBSERVERS - 1) * HOOKUP_MAX_STATES * HOOKUP_CLOSURE_PIECE;
    entry(line, 0)[2] = 2; /* internal, so silent */
    for (size_t s = 0; s < last; s++)
        step(line, 0, s, s + 1);
    expect(HOOKUP_CLOSURE_PIECE, HOOKUP_CLOSURE_SET + 2 * HOOKUP_CLOSURE_VISITS, "bytes of a set, visits and distances");
    expect_written(hookup_closure, line, len, HOOKUP_MAX_CLOSURE, HOOKUP_CLOSED, HOOKUP_MAX_CLOSURE, "the closures of most states");
    expect_written(hookup_closure, line, len, sizeof out, HOOKUP_CLOSED, HOOKUP_MAX_CLOSURE, "the same with room behind them");
    expect(HOOKUP_MAX_STATES, line[HOOKUP_HEADER + 1], "the number of states in the record");
    expect(last, block[HOOKUP_CLOSURE_SET + last], "the last visit from the first state");
    expect(last, block[HOOKUP_CLOSURE_SET + HOOKUP_CLOSURE_VISITS + last], "its distance");
    expect(last, block[last * HOOKUP_CLOSURE_PIECE + HOOKUP_CLOSURE_SET], "the first visit from the last state");
    expect_written(hookup_closure, line, len, HOOKUP_MAX_CLOSURE - 1, HOOKUP_NO_ROOM, 0, "room for all but their last byte");

    len = make(smallest, ONE, 0, 1, 0);
    expect_written(hookup_closure, smallest, len, HOOKUP_CLOSURE_PIECE, HOOKUP_CLOSED, HOOKUP_CLOSURE_PIECE, "the closure of one state");
    expect_written(hookup_closure, smallest, len, HOOKUP_CLOSURE_PIECE - 1, HOOKUP_NO_ROOM, 0, "room for all but its last byte");
    expect(HOOKUP_TOO_SHORT, hookup_closure(smallest, HOOKUP_HEADER - 1, NULL, 0), "closures of no record, without room");
    len = make(smallest, LIMITED, 0, 1, 0);
    expect_written(hookup_closure, smallest, len, HOOKUP_CLOSURE_PIECE, HOOKUP_CLOSED, HOOKUP_CLOSURE_PIECE, "the same of a limited part");
}

/* The numbers that hookup_explain wrote to out, each by its name in the struct. */
static void expect_numbers(struct hookup_explanation wanted)
{
    struct hookup_explanation got;
    memcpy(&got, out, sizeof got);
    expect(wanted.rule, got.rule, "rule");
    expect(wanted.event, got.event, "event");
    expect(wanted.s, got.s, "s");
    expect(wanted.t, got.t, "t");
    expect(wanted.u, got.u, "u");
    expect(wanted.taken, got.taken, "taken");
    expect(wanted.observer, got.observer, "observer");
    expect(wanted.limit, got.limit, "limit");
}

/* Seven states, of which 1 and 6 share a class, and the observer 0x80. The low output 515 leads from 1 to 4, and the internal event
 * 600 from 0 to 2. So rule 5 is broken, since 515 has no step from 6, and the closure of 0 has two states. */
static size_t make_break(uint8_t *record)
{
    static const uint8_t classes[] = {0, 1, 2, 3, 4, 5, 1}, low[] = {515 & 255, 515 >> 8, 1, 0x80}, high[] = {600 & 255, 600 >> 8, 2, 0xC0};
    size_t len = frame(record, ONE, 0, sizeof classes, 2);
    record[HOOKUP_HEADER] = 0x80;
    memcpy(column(record, 0), classes, sizeof classes);
    memcpy(entry(record, 0), low, sizeof low);
    memcpy(entry(record, 1), high, sizeof high);
    step(record, 0, 1, 4);
    step(record, 1, 0, 2);
    return len;
}

static void explanations(void)
{
    static uint8_t smallest[64], broken[256];
    static const struct hookup_explanation pass = {0, 0, 0, 0, 0, 1, 0, 1}, first_break = {5, 515, 1, 4, 6, 8, 0x80, 0};
    size_t size = HOOKUP_EXPLANATION;
    expect(size, sizeof(struct hookup_explanation), "bytes of the struct");
    size_t len = make(smallest, ONE, 0, 1, 0);
    expect_written(hookup_explain, smallest, len, size, HOOKUP_PASS, size, "the explanation of one state");
    expect_numbers(pass);
    expect_written(hookup_explain, smallest, len, size - 1, HOOKUP_NO_ROOM, 0, "room for all but its last byte");
    len = make_break(broken);
    expect_written(hookup_explain, broken, len, sizeof out, HOOKUP_BREAK + 5, size, "the explanation of a break");
    expect_numbers(first_break);
    expect_written(hookup_explain, broken, len, size - 1, HOOKUP_NO_ROOM, 0, "room for all but its last byte");
    expect_written(hookup_explain, broken, len - 1, sizeof out, HOOKUP_WRONG_LENGTH, 0, "the explanation of a refused record");
    expect(HOOKUP_TOO_SHORT, hookup_explain(broken, HOOKUP_HEADER - 1, NULL, 0), "the explanation of no record, without room");
}

/* Most observers, and as many states, each in a class of its own for all of them. From each state but the last an output leads to the next
 * state, with the level of the observer of that number; so observer o sees the first o outputs, and the others are silent for it. */
static size_t make_chain(uint8_t *record)
{
    size_t count = HOOKUP_MAX_OBSERVERS, len = frame(record, SEVERAL, count, count, count - 1);
    for (size_t o = 0; o < count; o++)
        for (size_t s = 0; s < count; s++)
            column(record, o)[s] = (uint8_t)s;
    for (size_t i = 0; i < count - 1; i++) {
        entry(record, i)[2] = 1;
        entry(record, i)[3] = levels_listed[i + 1];
        step(record, i, i, i + 1);
    }
    return len;
}

/* In the block of observer o, states below o have themselves alone, and the others all states from them on. */
static void blocks(uint8_t *record, size_t len)
{
    size_t count = HOOKUP_MAX_OBSERVERS, size = count * count * HOOKUP_CLOSURE_PIECE;
    expect_written(hookup_closure, record, len, size, HOOKUP_CLOSED, size, "a block for each observer");
    for (size_t o = 0; o < count; o++)
        for (size_t s = 0; s < count; s++) {
            size_t all = (1u << count) - (1u << s), alone = 1u << s;
            expect(s < o ? alone : all, out[(o * count + s) * HOOKUP_CLOSURE_PIECE], "a set in the block of an observer");
        }
    expect_written(hookup_closure, record, len, size - 1, HOOKUP_NO_ROOM, 0, "room for all but the last byte of the last block");
}

/* The chain passes, and the count is the first observer's. With the last state in the class of state 0, for observer o and those behind it,
 * the break tells o and o's count: the first output leads from 0 to 1, and from the last state nothing leads into the class of 1. */
static void observers(void)
{
    static uint8_t record[256];
    size_t len = make_chain(record), last = HOOKUP_MAX_OBSERVERS - 1;
    static const struct hookup_explanation pass = {0, 0, 0, 0, 0, 10, 0, 1};
    static const size_t taken[HOOKUP_MAX_OBSERVERS] = {10, 7, 5, 4};
    blocks(record, len);
    expect_written(hookup_explain, record, len, sizeof out, HOOKUP_PASS, HOOKUP_EXPLANATION, "a pass for each observer");
    expect_numbers(pass);
    for (size_t o = HOOKUP_MAX_OBSERVERS; o-- > 0;) {
        uint32_t rule = o == 0 ? 4 : 5; /* the first output is silent for the first observer alone */
        struct hookup_explanation told = {rule, 0, 0, 1, last, taken[o], levels_listed[o], 0};
        column(record, o)[last] = 0;
        expect_written(hookup_explain, record, len, sizeof out, HOOKUP_BREAK + rule, HOOKUP_EXPLANATION, "a break for some observers");
        expect_numbers(told);
    }
}

/* How many levels, from 0 on, are judged right at this place of a record that otherwise passes: those that are not between these two are
 * refused, since the list does not rise, of the others those of rank 0 with a compartment, and no more. */
static size_t judged_between(int below, int above, uint8_t *record, size_t len, uint8_t *place)
{
    uint8_t before = *place;
    int level = 0;
    for (; level < 256; level++) {
        uint32_t wanted = level >= 0x01 && level <= 0x3F ? HOOKUP_MISLABELLED : HOOKUP_PASS;
        *place = (uint8_t)level;
        if (hookup_check(record, len) != (level > below && level < above ? wanted : HOOKUP_MISLISTED))
            break;
    }
    *place = before;
    return (size_t)level;
}

/* The same where any level may stand. */
static size_t judged_right(uint8_t *record, size_t len, uint8_t *place)
{
    return judged_between(-1, 256, record, len, place);
}

/* One state and most events, in a record of this kind. A stray bit, a mislabelled level and an unknown kind come in turn, and each hides the
 * one before. */
static void levels(uint8_t kind)
{
    uint8_t record[512] = {0};
    size_t len = make(record, kind, 0, 1, HOOKUP_MAX_EVENTS), last = HOOKUP_MAX_EVENTS - 1;
    expect(256, judged_right(record, len, record + HOOKUP_HEADER), "levels of the observer judged right");
    expect(256, judged_right(record, len, entry(record, 0) + 3), "levels of the first event judged right");
    expect(256, judged_right(record, len, entry(record, last) + 3), "levels of the last event judged right");
    step(record, 0, 0, 1);
    expect(HOOKUP_STRAY_BIT, hookup_check(record, len), "a stray bit");
    entry(record, last)[3] = 0x20;
    expect(HOOKUP_MISLABELLED, hookup_check(record, len), "a mislabelled level with it");
    expect_written(hookup_closure, record, len, sizeof out, HOOKUP_MISLABELLED, 0, "the closures of that");
    expect_written(hookup_explain, record, len, sizeof out, HOOKUP_MISLABELLED, 0, "the explanation of that");
    entry(record, last)[2] = 3;
    expect(HOOKUP_MISORDERED, hookup_check(record, len), "an unknown kind with both");
}

/* Each place of a list of most observers, where, since it rises, the third level and the fourth are never the first mislabelled one; each
 * number of observers. Then a wrong class, a list that does not rise and a wrong length come in turn, and each hides the one before. */
static void lists(void)
{
    static uint8_t record[512];
    size_t count = HOOKUP_MAX_OBSERVERS, len = make(record, SEVERAL, count, 2, 1);
    uint8_t *list = record + HOOKUP_HEADER + 4;
    for (size_t o = 0; o < count; o++) {
        int below = o == 0 ? -1 : list[o - 1], above = o == count - 1 ? 256 : list[o + 1];
        expect(256, judged_between(below, above, record, len, list + o), "levels of a listed observer judged right");
    }
    expect(256, judged_right(record, len, entry(record, 0) + 3), "levels of an event judged right, for several observers");
    for (size_t c = 0; c <= count + 1; c++)
        expect(c >= 2 && c <= count ? HOOKUP_PASS : HOOKUP_MISLISTED, check_made(SEVERAL, c, 1, 1), "a number of observers");
    column(record, count - 1)[1] = 2;
    expect(HOOKUP_MISNUMBERED, hookup_check(record, len), "a wrong class for the last observer");
    list[count - 1] = list[count - 2];
    expect(HOOKUP_MISLISTED, hookup_check(record, len), "equal observers with it");
    expect_written(hookup_closure, record, len, sizeof out, HOOKUP_MISLISTED, 0, "the closures of that");
    expect_written(hookup_explain, record, len, sizeof out, HOOKUP_MISLISTED, 0, "the explanation of that");
    record[HOOKUP_HEADER] = (uint8_t)(count + 1);
    expect(HOOKUP_WRONG_SIZE, hookup_check(record, len), "the length for one observer more with both");
}

/* A part without an event for the observer 0x00: its kind, its states, its columns one behind the other, and its limit. */
struct grouped {
    uint8_t kind;
    size_t n;
    uint8_t classes[32];
    size_t limit;
};

/* Its record, where there were only zeros. */
static size_t make_grouped(uint8_t *record, struct grouped part)
{
    size_t len = make(record, part.kind, 0, part.n, 0);
    memcpy(column(record, 0), part.classes, columns(record) * part.n);
    return len;
}

/* All coarse and fine columns of three states with bytes up to 3. Of the 64 columns 5 are numbered by first appearance. 12 pairs of these
 * are a grouping and a refinement: 5 of one class, 2 each of three groupings with two classes, 1 of three classes. Their limits add up to
 * 10, 3 each and 1. */
static void refinements(void)
{
    size_t answers[HOOKUP_BREAK] = {0}, limits = 0;
    for (size_t pair = 0; pair < 4096; pair++) {
        uint8_t record[64] = {0};
        struct grouped part = {LIMITED, 3, {0}, 0};
        struct hookup_explanation told = {0, 0, 0, 0, 0, 0, 0, 0};
        for (size_t k = 0; k < 6; k++)
            part.classes[k] = (uint8_t)(pair >> 2 * k & 3);
        size_t len = make_grouped(record, part);
        answers[hookup_explain(record, len, (uint8_t *)&told, sizeof told)]++;
        limits += told.limit;
    }
    expect((64 - 5) * 64, answers[HOOKUP_MISNUMBERED], "pairs with a wrong coarse column");
    expect(5 * 64 - 12, answers[HOOKUP_MISREFINED], "pairs with a wrong fine column");
    expect(12, answers[HOOKUP_PASS], "pairs of a grouping and a refinement");
    expect(10 + 3 * 3 + 1, limits, "the sum of their limits");
}

/* Two states in one coarse class, and a low output that leads from the first to the second. With two fine classes it passes, with one it
 * breaks rule 5. Then an unknown kind of event, a wrong fine column in both ways and a wrong coarse one come in turn, and each hides the one
 * before. */
static void limited(void)
{
    static uint8_t record[64];
    static const struct hookup_explanation pass = {0, 0, 0, 0, 0, 2, 0, 2}, first_break = {5, 0, 0, 1, 1, 2, 0, 0};
    size_t len = frame(record, LIMITED, 0, 2, 1), size = HOOKUP_EXPLANATION;
    uint8_t *coarse = column(record, 0), *fine = column(record, 1);
    entry(record, 0)[2] = 1;
    step(record, 0, 0, 1);
    fine[1] = 1;
    expect_written(hookup_explain, record, len, sizeof out, HOOKUP_PASS, size, "the explanation of a limited part");
    expect_numbers(pass);
    fine[1] = 0;
    expect_written(hookup_explain, record, len, sizeof out, HOOKUP_BREAK + 5, size, "the same with one fine class");
    expect_numbers(first_break);
    entry(record, 0)[2] = 3;
    expect(HOOKUP_MISORDERED, hookup_check(record, len), "an unknown kind of event");
    fine[1] = 2;
    expect(HOOKUP_MISREFINED, hookup_check(record, len), "a fine class that skips a number with it");
    fine[1] = 0;
    coarse[1] = 1;
    expect(HOOKUP_MISREFINED, hookup_check(record, len), "a fine class across two coarse ones with it");
    expect_written(hookup_closure, record, len, sizeof out, HOOKUP_MISREFINED, 0, "the closures of that");
    expect_written(hookup_explain, record, len, sizeof out, HOOKUP_MISREFINED, 0, "the explanation of that");
    coarse[1] = 2;
    expect(HOOKUP_MISNUMBERED, hookup_check(record, len), "a coarse class that skips a number with both");
}

/* Joins two parts, which has to give the record of the third, and compares its limit. */
static void expect_joined(struct grouped a, struct grouped b, struct grouped wanted)
{
    uint8_t first[64] = {0}, second[64] = {0}, record[64] = {0};
    struct hookup_explanation told;
    size_t alen = make_grouped(first, a), blen = make_grouped(second, b), len = make_grouped(record, wanted);
    expect(HOOKUP_JOINED, hookup_join(first, alen, second, blen, out, sizeof out), "a join");
    expect(0, (size_t)memcmp(out, record, len), "its difference from the joined record");
    expect(HOOKUP_PASS, hookup_explain(out, len, (uint8_t *)&told, sizeof told), "the joined record");
    expect(wanted.limit, told.limit, "its limit");
}

/* A limited part of four states, with two coarse classes and three fine ones, and a part of two states with one observer: kinds, columns and
 * limits of their joins. A list of observers and another observer do not join with the limited part. */
static void joins(void)
{
    static const struct grouped one = {ONE, 2, {0, 1}, 1}, fine = {LIMITED, 4, {0, 0, 0, 1, 0, 0, 1, 2}, 2};
    static const struct grouped both_one = {ONE, 4, {0, 1, 2, 3}, 1};
    static const struct grouped one_fine = {LIMITED, 8, {0, 0, 0, 1, 2, 2, 2, 3, 0, 0, 1, 2, 3, 3, 4, 5}, 2};
    static const struct grouped fine_one = {LIMITED, 8, {0, 1, 0, 1, 0, 1, 2, 3, 0, 1, 0, 1, 2, 3, 4, 5}, 2};
    static const struct grouped both_fine = {LIMITED, 16, {0, 0, 0, 1, 0, 0, 0, 1, 0, 0, 0, 1, 2, 2, 2, 3,
                                                           0, 0, 1, 2, 0, 0, 1, 2, 3, 3, 4, 5, 6, 6, 7, 8}, 4};
    static uint8_t record[64], list[64], above[64];
    size_t len = make_grouped(record, fine), list_len = make(list, SEVERAL, 2, 1, 0), above_len = make(above, ONE, 0, 1, 0);
    expect_joined(one, one, both_one);
    expect_joined(one, fine, one_fine);
    expect_joined(fine, one, fine_one);
    expect_joined(fine, fine, both_fine);
    expect(HOOKUP_OBSERVERS_DIFFER, hookup_join(record, len, list, list_len, out, sizeof out), "a limited part with a list");
    expect(HOOKUP_OBSERVERS_DIFFER, hookup_join(list, list_len, record, len, out, sizeof out), "a list with a limited part");
    above[HOOKUP_HEADER] = 0x40;
    expect(HOOKUP_OBSERVERS_DIFFER, hookup_join(record, len, above, above_len, out, sizeof out), "a limited part with another observer");
}

static uint8_t shelf[65536], script[65536];

/* Writes a number of four bytes, lowest first. */
static void put_number(uint8_t *at, size_t n)
{
    for (int k = 0; k < 4; k++)
        at[k] = (uint8_t)(n >> 8 * k);
}

/* The script's only call, Load of a record or Hookup, and its length. */
static size_t load_call(const uint8_t *record, size_t len)
{
    script[0] = HOOKUP_LOAD_CALL;
    put_number(script + 1, len);
    memcpy(script + HOOKUP_LOAD_BYTES, record, len);
    return HOOKUP_LOAD_BYTES + len;
}

static size_t hookup_call(size_t i, size_t j)
{
    script[0] = HOOKUP_HOOKUP_CALL;
    put_number(script + 1, i);
    put_number(script + 5, j);
    return HOOKUP_HOOKUP_BYTES;
}

/* What comes of any first byte with zeros behind it. A zero that is in no call is a Clear, so that only the first byte and the bytes of its
 * call decide. The call is not made where there is no room for its answer. */
static void scripts(void)
{
    static const size_t bytes[] = {HOOKUP_CLEAR_BYTES, HOOKUP_LOAD_BYTES, HOOKUP_HOOKUP_BYTES};
    static const size_t firsts[] = {HOOKUP_CLEAR_CALL, HOOKUP_LOAD_CALL, HOOKUP_HOOKUP_CALL};
    uint8_t zeros[16] = {0};
    for (size_t first = 0; first < 256; first++)
        for (size_t len = 1; len <= sizeof zeros; len++) {
            uint32_t wanted = HOOKUP_MALFORMED;
            for (size_t k = 0; k < 3; k++)
                if (first == firsts[k] && len >= bytes[k])
                    wanted = HOOKUP_NO_ROOM;
            zeros[0] = (uint8_t)first;
            expect(wanted, hookup_run(zeros, len, NULL, 0, NULL, 0), "a script of a byte with zeros behind it");
        }
    expect(HOOKUP_RAN, hookup_run(NULL, 0, NULL, 0, NULL, 0), "the empty script");
}

/* Lays a record on the shelf and an end record behind it, and gives the place of that. */
static size_t lay(size_t at, const uint8_t *record, size_t len)
{
    memcpy(shelf + at, record, len);
    memset(shelf + at + len, 0, HOOKUP_HEADER);
    return at + len;
}

/* A shelf of three records: the longest, one that is only a header of an unknown kind, the smallest. Gives the place of the end record, and
 * the other two. */
static size_t make_shelf(struct hookup_place *found)
{
    static uint8_t record[65536];
    static const uint8_t header[HOOKUP_HEADER] = {0, 0, 0, 0, 0, 1};
    memset(record, 0, sizeof record);
    size_t len = make(record, SEVERAL, HOOKUP_MAX_OBSERVERS, HOOKUP_MAX_STATES, HOOKUP_MAX_EVENTS);
    size_t second = lay(0, record, len), third = lay(second, header, sizeof header);
    memset(record, 0, sizeof record);
    len = make(record, ONE, 0, 1, 0);
    found[0].place = 0;
    found[0].length = second;
    found[1].place = second;
    found[1].length = sizeof header;
    found[2].place = third;
    found[2].length = len;
    return lay(third, record, len);
}

static void counts(void)
{
    struct hookup_place found[3];
    uint64_t number;
    size_t end = make_shelf(found), whole = end + HOOKUP_HEADER;
    expect_written(hookup_count, shelf, whole, HOOKUP_COUNT, HOOKUP_COUNTED, HOOKUP_COUNT, "the count of three records");
    memcpy(&number, out, sizeof number);
    expect(3, number, "their number");
    expect(HOOKUP_COUNT, sizeof number, "bytes of it");
    expect_written(hookup_count, shelf, sizeof shelf, HOOKUP_COUNT, HOOKUP_COUNTED, HOOKUP_COUNT, "the same with bytes behind");
    expect_written(hookup_count, shelf, whole, HOOKUP_COUNT - 1, HOOKUP_NO_ROOM, 0, "room for all but the last byte of the count");
    expect_written(hookup_count, shelf, whole - 1, HOOKUP_COUNT, HOOKUP_NO_END, 0, "the end record without its last byte");
    expect_written(hookup_count, shelf, end - 1, 0, HOOKUP_NO_END, 0, "the last record without its last byte, and no room");
    expect(HOOKUP_NO_END, hookup_count(NULL, 0, NULL, 0), "the count of no shelf");
}

/* The part whose place find_part asks for. */
static size_t asked;

static uint32_t find_part(const uint8_t *bytes, size_t len, uint8_t *to, size_t room)
{
    return hookup_part(bytes, len, asked, to, room);
}

static void places(void)
{
    struct hookup_place found[3], got;
    size_t size = HOOKUP_PLACE, end = make_shelf(found), whole = end + HOOKUP_HEADER;
    expect(size, sizeof got, "bytes of the struct of a place");
    for (asked = 0; asked < 3; asked++) {
        expect_written(find_part, shelf, whole, size, HOOKUP_FOUND, size, "a part");
        memcpy(&got, out, sizeof got);
        expect(found[asked].place, got.place, "its place");
        expect(found[asked].length, got.length, "its length");
        expect_written(find_part, shelf, whole, size - 1, HOOKUP_NO_ROOM, 0, "room for all but the last byte of a place");
        expect_written(find_part, shelf, whole - 1, size, HOOKUP_NO_END, 0, "a part before no end record");
    }
    expect_written(find_part, shelf, whole, 0, HOOKUP_NO_PART, 0, "the number behind the last part, and no room");
    expect_written(find_part, shelf, whole - 1, 0, HOOKUP_NO_END, 0, "the same and no end record");
    asked = SIZE_MAX;
    expect_written(find_part, shelf, whole, size, HOOKUP_NO_PART, 0, "the largest number");
    expect(HOOKUP_NO_END, hookup_part(NULL, 0, 0, NULL, 0), "a part of no shelf");
}

/* How many bytes of the shelf stay as they were, up to the first that does not. */
static size_t unchanged(const uint8_t *before)
{
    size_t at = 0;
    while (at < sizeof shelf && shelf[at] == before[at])
        at++;
    return at;
}

/* Makes the script's only call on the first so many bytes of the shelf. It is to write this answer and nothing behind it, and, unless it is
 * done, to leave the shelf as it was; without room for all of the answer neither changes. */
static void expect_answer(size_t len, size_t room, struct hookup_answer wanted, const char *what)
{
    static uint8_t before[sizeof shelf];
    struct hookup_answer got;
    size_t size = HOOKUP_ANSWER;
    memcpy(before, shelf, sizeof shelf);
    memset(out, 0xAA, sizeof out);
    expect(HOOKUP_NO_ROOM, hookup_run(script, len, shelf, room, out, size - 1), what);
    expect(0xAA, out[0], "a byte without room");
    expect(sizeof shelf, unchanged(before), "bytes of the shelf as before, without room");
    expect(HOOKUP_RAN, hookup_run(script, len, shelf, room, out, sizeof out), what);
    expect(0xAA, out[size], "the byte behind the answer");
    memcpy(&got, out, sizeof got);
    expect(wanted.tag, got.tag, "tag");
    expect(wanted.number, got.number, what);
    expect(wanted.event, got.event, "event");
    expect(wanted.s, got.s, "s");
    expect(wanted.t, got.t, "t");
    expect(wanted.u, got.u, "u");
    expect(wanted.observer, got.observer, "observer");
    expect(wanted.zero, got.zero, "zero");
    if (wanted.tag != HOOKUP_GIVES)
        expect(sizeof shelf, unchanged(before), "bytes of the shelf as before");
}

static struct hookup_answer answer(uint64_t tag, uint64_t number)
{
    struct hookup_answer made = {tag, number, 0, 0, 0, 0, 0, 0};
    return made;
}

static struct hookup_answer refused(uint32_t refusal)
{
    return answer(HOOKUP_REFUSED, refusal);
}

/* Clear, and Load of a record that breaks a rule. A wrong length hides the break, no end record both, and the break hides that there is no
 * room. */
static void loads(void)
{
    static uint8_t record[256], broken[256];
    static const struct hookup_answer first_break = {HOOKUP_BREAKS, 5, 515, 1, 4, 6, 0x80, 0};
    size_t end = HOOKUP_HEADER, len = make(record, ONE, 0, 2, 1), broken_len = make_break(broken);
    expect(HOOKUP_ANSWER, sizeof first_break, "bytes of the struct of an answer");
    memset(shelf, 0xAA, sizeof shelf);
    expect_answer(load_call(broken, broken_len - 1), sizeof shelf, refused(HOOKUP_NO_END), "a load on a shelf without an end record");
    script[0] = HOOKUP_CLEAR_CALL;
    expect_answer(HOOKUP_CLEAR_BYTES, end - 1, refused(HOOKUP_NO_END), "a clear of five bytes");
    expect_answer(HOOKUP_CLEAR_BYTES, end, answer(HOOKUP_GIVES, 0), "a clear of six bytes");
    expect_answer(HOOKUP_CLEAR_BYTES, sizeof shelf, answer(HOOKUP_GIVES, 0), "a clear of more bytes");
    expect(0xAA, shelf[end], "the byte behind the end record");
    expect_answer(load_call(broken, broken_len - 1), end, refused(HOOKUP_WRONG_LENGTH), "a load without the last byte");
    expect_answer(load_call(broken, broken_len), end, first_break, "a load that breaks a rule");
    expect_answer(load_call(record, len), len + end - 1, refused(HOOKUP_NO_ROOM), "a load with a byte too few");
    expect_answer(load_call(record, len), len + end, answer(HOOKUP_GIVES, 0), "a load that fits");
    expect(0, (size_t)memcmp(shelf, record, len), "the difference of the shelf from the record");
    expect_answer(load_call(record, 0), len + end, refused(HOOKUP_TOO_SHORT), "a load of no bytes");
    expect_answer(load_call(record, len), sizeof shelf, answer(HOOKUP_GIVES, 1), "a second load");
    expect(0xAA, shelf[2 * len + end], "the byte behind the new end record");
}

/* A part without an event, and three with the input 7: of two states, for another observer, and of most states. Another observer hides the
 * clash, the clash too many states, and these too little room. */
static void hookups(void)
{
    static uint8_t none[64], input[64], above[64], most[65536];
    size_t none_len = make(none, ONE, 0, 2, 0), input_len = make(input, ONE, 0, 2, 1), above_len = make(above, ONE, 0, 2, 1);
    size_t most_len = make(most, ONE, 0, HOOKUP_MAX_STATES, 1), end = HOOKUP_HEADER;
    above[HOOKUP_HEADER] = 0x40;
    input[8] = 1; /* the start state; the joined record tells which part is the first */
    entry(input, 0)[0] = entry(above, 0)[0] = entry(most, 0)[0] = 7;
    size_t at = lay(lay(lay(lay(0, none, none_len), input, input_len), above, above_len), most, most_len);
    expect_answer(hookup_call(0, 1), at + end - 1, refused(HOOKUP_NO_END), "a hookup on a shelf without an end record");
    expect_answer(hookup_call(4, 1), at + end, refused(HOOKUP_NO_PART), "a hookup of no first part");
    expect_answer(hookup_call(1, 4), at + end, refused(HOOKUP_NO_PART), "a hookup of no second part");
    expect_answer(hookup_call(1, 2), at + end, refused(HOOKUP_OBSERVERS_DIFFER), "a hookup with another observer");
    expect_answer(hookup_call(1, 3), at + end, answer(HOOKUP_CLASHES, 7), "a hookup that clashes");
    expect_answer(hookup_call(0, 3), at + end, refused(HOOKUP_TOO_LARGE), "a hookup with too many states");
    uint8_t joined[128];
    expect(HOOKUP_JOINED, hookup_join(none, none_len, input, input_len, joined, sizeof joined), "a join");
    size_t len = HOOKUP_HEADER + joined[0];
    expect_answer(hookup_call(0, 1), at + len + end - 1, refused(HOOKUP_NO_ROOM), "a hookup with a byte too few");
    expect_answer(hookup_call(0, 1), at + len + end, answer(HOOKUP_GIVES, 4), "a hookup that fits");
    expect(0, (size_t)memcmp(shelf + at, joined, len), "the difference of the shelf from the joined record");
    expect_answer(hookup_call(0, 0), sizeof shelf, answer(HOOKUP_GIVES, 5), "a hookup of a part with itself");
}

/* A passing part for another observer, a record that breaks a rule and one that is refused, as nothing but another writer leaves them. 13 for
 * the second part hides 14 for the first, and 14 that the observers differ. Load looks at none of them. */
static void unfit(void)
{
    static uint8_t record[64], broken[256];
    static const uint8_t header[HOOKUP_HEADER] = {0, 0, 0, 0, 0, 1};
    size_t len = make(record, ONE, 0, 1, 0), broken_len = make_break(broken);
    size_t whole = lay(lay(lay(0, record, len), broken, broken_len), header, sizeof header) + HOOKUP_HEADER;
    for (size_t i = 1; i < 3; i++) {
        expect_answer(hookup_call(i, 0), whole, refused(HOOKUP_UNFIT), "a hookup of an unfit first part");
        expect_answer(hookup_call(0, i), whole, refused(HOOKUP_UNFIT), "a hookup of an unfit second part");
        expect_answer(hookup_call(i, 3), whole, refused(HOOKUP_NO_PART), "a hookup of an unfit first part and no second");
    }
    expect_answer(load_call(record, len), sizeof shelf, answer(HOOKUP_GIVES, 3), "a load behind them");
}

/* A script of two calls: neither is made where the second is cut off, whatever the room, or where the second answer has no room. */
static void runs(void)
{
    static uint8_t record[64];
    size_t record_len = make(record, ONE, 0, 1, 0), len = HOOKUP_CLEAR_BYTES + load_call(record, record_len), size = 2 * HOOKUP_ANSWER;
    memmove(script + HOOKUP_CLEAR_BYTES, script, len - HOOKUP_CLEAR_BYTES);
    script[0] = HOOKUP_CLEAR_CALL;
    memset(shelf, 0xAA, sizeof shelf);
    memset(out, 0xAA, sizeof out);
    expect(HOOKUP_MALFORMED, hookup_run(script, len - 1, shelf, sizeof shelf, out, size - 1), "a second call that is cut off");
    expect(HOOKUP_NO_ROOM, hookup_run(script, len, shelf, sizeof shelf, out, size - 1), "no room for the second answer");
    expect(0xAA, shelf[0], "the first byte of the shelf then");
    expect(0xAA, out[0], "the first byte of the answers then");
    expect(HOOKUP_RAN, hookup_run(script, len, shelf, sizeof shelf, out, size), "two calls");
    expect(0, (size_t)memcmp(shelf, record, record_len), "the difference of the shelf from the record");
    expect(0xAA, out[size], "the byte behind the second answer");
}

int main(void)
{
    sizes();
    kinds();
    closures();
    explanations();
    observers();
    levels(ONE);
    levels(LIMITED);
    lists();
    refinements();
    limited();
    joins();
    scripts();
    counts();
    places();
    loads();
    hookups();
    unfit();
    runs();
    return wrong;
}
