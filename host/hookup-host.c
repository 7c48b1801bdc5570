/* Checks one part record and explains the answer, joins two and writes the joined record to a file, prints the silent closures of one, or
 * keeps parts on a shelf. An example of a host program: the calls of hookup.h, and beside them only C11 and its standard library. */
#include <errno.h>
#include <inttypes.h>
#include <stdbool.h>
#include <stdio.h>
#include <stdlib.h>
#include <string.h>

#include "hookup.h"

enum { DONE = 0, REFUSED = 1, TROUBLE = 2 }; /* the exit statuses */
enum { FILE_LIMIT = 1048576 };               /* a longer file is not taken */
enum { SHELF_SIZE = 262144 };                /* bytes of a shelf that is not in a file */

/* What an answer means. An own answer is about one record by itself; Join adds HOOKUP_SECOND to it for its second record. */
struct meaning {
    uint32_t number;
    bool own;
    const char *words;
    const char *limited; /* the words about a limited part, where they are others */
};

static const struct meaning meanings[] = {
    {HOOKUP_MALFORMED, false, "the script is malformed", NULL},
    {HOOKUP_NO_END, false, "the shelf has no end record", NULL},
    {HOOKUP_NO_PART, false, "no part has that number", NULL},
    {HOOKUP_UNFIT, false, "a record on the shelf does not pass", NULL},
    {HOOKUP_TOO_SHORT, true, "fewer than six bytes", NULL},
    {HOOKUP_WRONG_LENGTH, true, "the length is not the number of bytes after the first six", NULL},
    {HOOKUP_WRONG_KIND, true, "the kind is none of 1, 2 and 3", NULL},
    {HOOKUP_OUT_OF_RANGE, true, "the body is under four bytes, or the state count, start state or event count is out of range", NULL},
    {HOOKUP_WRONG_SIZE, true, "the length is not the one for so many states and events", NULL},
    {HOOKUP_MISLISTED, true, "the observer count is outside 2 to 4, or the observers do not rise", NULL},
    {HOOKUP_MISNUMBERED, true, "the classes are not numbered by first appearance", "the coarse classes are not numbered by first appearance"},
    {HOOKUP_MISREFINED, true, "the fine classes are not numbered by first appearance, or one lies across two coarse ones", NULL},
    {HOOKUP_MISORDERED, true, "the identifiers do not rise, or an event kind is above 2", NULL},
    {HOOKUP_MISLABELLED, true, "a level of rank 0 has a compartment", NULL},
    {HOOKUP_STRAY_BIT, true, "a row has a bit for a state that is not there", NULL},
    {HOOKUP_OBSERVERS_DIFFER, false, "the observers differ", NULL},
    {HOOKUP_CLASH, false, "a shared event clashes in kind or level", NULL},
    {HOOKUP_TOO_LARGE, false, "more than 64 states or more than 32 events together", NULL},
    {HOOKUP_NO_ROOM, false, "the buffer or the shelf is too short", NULL},
    {HOOKUP_BREAK + 1, true, "rule 1 is broken: an input has no step from some state", NULL},
    {HOOKUP_BREAK + 2, true, "rule 2 is broken: a high input leaves its state's class",
     "rule 2 is broken: a high input leaves its state's coarse class"},
    {HOOKUP_BREAK + 3, true, "rule 3 is broken: a low input leads from one state to a class where it does not lead from another of the same class",
     "rule 3 is broken: a low input leads from one state to a coarse class where it does not lead from another of the same coarse class"},
    {HOOKUP_BREAK + 4, true, "rule 4 is broken: a silent event (a high output or an internal event) leads to a class that another state of the same class cannot reach by silent steps",
     "rule 4 is broken: a silent event (a high output or an internal event) leads to a coarse class that another state of the same fine class cannot reach by silent steps"},
    {HOOKUP_BREAK + 5, true, "rule 5 is broken: a low output leads to a class that another state of the same class cannot reach by it and silent steps",
     "rule 5 is broken: a low output leads to a coarse class that another state of the same fine class cannot reach by it and silent steps"},
};

static const struct meaning *find_meaning(uint32_t answer)
{
    for (size_t i = 0; i < sizeof meanings / sizeof meanings[0]; i++) {
        const struct meaning *m = &meanings[i];
        if (answer == m->number || (m->own && answer == HOOKUP_SECOND + m->number))
            return m;
    }
    return NULL;
}

/* Which of Join's two records the answer is about, where it is about one. */
static const char *side(uint32_t answer)
{
    const struct meaning *m = find_meaning(answer);
    if (m == NULL || !m->own)
        return "";
    return answer > HOOKUP_SECOND ? " (second record)" : " (first record)";
}

static void complain(const char *about, const char *why)
{
    fprintf(stderr, "hookup-host: %s: %s\n", about, why);
}

/* The exit status behind what was printed, or TROUBLE where printing it or the flush fails; errno says why. */
static int after_printing(bool printed, int status)
{
    if (printed && fflush(stdout) == 0)
        return status;
    complain("standard output", strerror(errno));
    return TROUBLE;
}

static int print_done(uint32_t answer, const char *words)
{
    return after_printing(printf("%" PRIu32 ": %s\n", answer, words) >= 0, DONE);
}

/* The same of a limited part, for which it says less. */
static int print_limited(uint32_t answer, const char *words, uint64_t limit)
{
    return after_printing(printf("%" PRIu32 ": %s as a limited part with limit %" PRIu64 ": nothing is promised about its high inputs\n", answer,
                                 words, limit) >= 0, DONE);
}

/* Whether a level, with the rank in its two highest bits and a bit for each compartment, has rank 0 and a compartment. */
static bool mislabelled(uint8_t level)
{
    return level >> 6 == 0 && level != 0;
}

/* Prints a mislabelled level as a byte, and with its compartments. False and errno where that fails. */
static bool print_level(uint8_t level)
{
    bool single = (level & (level - 1)) == 0;
    bool printed = printf("0x%02x (rank 0, %s", level, single ? "compartment" : "compartments") >= 0;
    for (int c = 0; printed && c < 6; c++)
        if (level >> c & 1)
            printed = printf(" %d", c) >= 0;
    return printed && putchar(')') != EOF;
}

/* The observers of a record: whether it lists them, how many they are, and their levels, a byte each. */
struct observers {
    bool listed;
    int count;
    const uint8_t *levels;
};

/* The last two bytes of the header are the kind, lowest first. */
static bool has_kind(const uint8_t *record, int kind)
{
    return (record[4] | record[5] << 8) == kind;
}

/* The body begins with four numbers of a byte each: the level of the only observer or how many are listed, the number of states, the start
 * state, the number of events. The listed levels follow. */
static struct observers observers_of(const uint8_t *record)
{
    const uint8_t *body = record + HOOKUP_HEADER;
    if (has_kind(record, HOOKUP_SEVERAL_OBSERVERS))
        return (struct observers){true, body[0], body + 4};
    return (struct observers){false, 1, body};
}

/* The entries of a record's events, four bytes each: two of the identifier, lowest first, then kind and level. Before them stand columns
 * with a class byte for each state: one for each observer, and in a limited part the fine one behind it. */
static const uint8_t *entries_of(const uint8_t *record)
{
    const uint8_t *body = record + HOOKUP_HEADER;
    struct observers all = observers_of(record);
    int columns = has_kind(record, HOOKUP_LIMITED) ? 2 : all.count;
    return body + 4 + (all.listed ? all.count : 0) + columns * body[1];
}

/* Prints which is the first mislabelled level of a record that is refused for it: that of an observer, or that of an event. False and errno
 * where that fails. */
static bool print_mislabelled(const uint8_t *record)
{
    struct observers all = observers_of(record);
    for (int o = 0; o < all.count; o++)
        if (mislabelled(all.levels[o])) {
            bool named = all.listed ? printf(": observer %d of %d has level ", o + 1, all.count) >= 0
                                    : printf(": the observer has level ") >= 0;
            return named && print_level(all.levels[o]);
        }
    const uint8_t *entry = entries_of(record);
    for (int i = 0; i < record[HOOKUP_HEADER + 3]; i++, entry += 4)
        if (mislabelled(entry[3]))
            return printf(": event %d has level ", entry[0] | entry[1] << 8) >= 0 && print_level(entry[3]);
    return true;
}

static bool print_count(struct observers all)
{
    return printf(": the observer count is %d", all.count) >= 0;
}

/* Prints why a list of observers is refused: their number, or else the first level that is not above the one before it. False and errno
 * where that fails. */
static bool print_mislisted(struct observers all)
{
    if (all.count < 2 || all.count > HOOKUP_MAX_OBSERVERS)
        return print_count(all);
    for (int o = 1; o < all.count; o++)
        if (all.levels[o] <= all.levels[o - 1])
            return printf(": level 0x%02x comes behind 0x%02x", all.levels[o], all.levels[o - 1]) >= 0;
    return true;
}

/* Prints why the fine classes of a limited part are refused: the first that skips a number, or else two states whose fine classes are the
 * same and whose coarse ones are not. False and errno where that fails. */
static bool print_misrefined(const uint8_t *record)
{
    int n = record[HOOKUP_HEADER + 1], next = 0;
    const uint8_t *coarse = record + HOOKUP_HEADER + 4, *fine = coarse + n;
    for (int s = 0; s < n; s++) {
        if (fine[s] > next)
            return printf(": state %d has fine class %d, and none before it has %d", s, fine[s], next) >= 0;
        next += fine[s] == next;
    }
    for (int s = 0; s < n; s++)
        for (int u = 0; u < s; u++)
            if (fine[s] == fine[u] && coarse[s] != coarse[u])
                return printf(": states %d and %d have fine class %d, and coarse classes %d and %d", u, s, fine[s], coarse[u], coarse[s]) >= 0;
    return true;
}

/* Prints what more the record tells of its refusal: its observers, where their number or their list is why, its fine classes, or its
 * mislabelled level. False and errno where that fails. */
static bool print_detail(uint32_t refusal, const uint8_t *record)
{
    if (refusal == HOOKUP_WRONG_SIZE && observers_of(record).listed)
        return print_count(observers_of(record));
    if (refusal == HOOKUP_MISLISTED)
        return print_mislisted(observers_of(record));
    if (refusal == HOOKUP_MISREFINED)
        return print_misrefined(record);
    if (refusal == HOOKUP_MISLABELLED)
        return print_mislabelled(record);
    return true;
}

/* The words of an answer about this record, which has a header where those about a limited part are others. */
static const char *words_of(const struct meaning *m, const uint8_t *record)
{
    if (m == NULL)
        return "not an answer that hookup.h names";
    return m->limited != NULL && has_kind(record, HOOKUP_LIMITED) ? m->limited : m->words;
}

/* Prints an answer, and what more this record tells of it. False and errno where that fails. */
static bool print_answer(uint32_t answer, const char *which, const uint8_t *record)
{
    const struct meaning *m = find_meaning(answer);
    bool printed = printf("%" PRIu32 ": %s%s", answer, words_of(m, record), which) >= 0;
    return printed && (m == NULL || print_detail(m->number, record));
}

static int print_refusal(uint32_t answer, const char *which, const uint8_t *record)
{
    return after_printing(print_answer(answer, which, record) && putchar('\n') != EOF, REFUSED);
}

/* Bytes in memory that the holder frees. */
struct bytes {
    uint8_t *at;
    size_t len;
};

/* Reads from f to its end, or to one byte above the limit. Where that fails, errno says why. */
static bool read_all(FILE *f, struct bytes *into)
{
    into->at = malloc(FILE_LIMIT + 1);
    if (into->at == NULL)
        return false;
    into->len = fread(into->at, 1, FILE_LIMIT + 1, f);
    return !ferror(f);
}

/* Reads a whole file, or says why not. The caller frees the bytes in both cases. */
static bool read_file(const char *path, struct bytes *into)
{
    FILE *f = fopen(path, "rb");
    if (f == NULL) {
        complain(path, strerror(errno));
        return false;
    }
    bool whole = read_all(f, into);
    int why = errno;
    fclose(f);
    if (!whole)
        complain(path, strerror(why));
    else if (into->len > FILE_LIMIT)
        complain(path, "longer than 1,048,576 bytes");
    return whole && into->len <= FILE_LIMIT;
}

/* Whether a new file may take path's place: nothing is there, or a plain file that may be written. Otherwise says why not. A rename would
 * replace a device or a pipe as well; a plain file is one that can be set to position 1. */
static bool may_replace(const char *path)
{
    FILE *f = fopen(path, "r+b");
    if (f == NULL) {
        if (errno == ENOENT)
            return true;
        complain(path, strerror(errno));
        return false;
    }
    setvbuf(f, NULL, _IONBF, 0); /* the position of the file, not of a buffer */
    bool plain = fseek(f, 1, SEEK_SET) == 0 && ftell(f) == 1;
    fclose(f);
    if (!plain)
        complain(path, "not a plain file");
    return plain;
}

/* Makes a new file beside path, with the first name of path.tmp0 to path.tmp99 that is free, and writes that name to name, which has room
 * for size characters. NULL and errno where that fails. */
static FILE *create_beside(const char *path, char *name, size_t size)
{
    FILE *f = NULL;
    errno = EEXIST;
    for (int k = 0; f == NULL && errno == EEXIST && k < 100; k++) {
        snprintf(name, size, "%s.tmp%d", path, k);
        f = fopen(name, "wbx");
    }
    return f;
}

/* Writes the bytes and closes f in any case. A full disk may show only at the flush or the close. False and errno where one fails. */
static bool write_and_close(FILE *f, const uint8_t *at, size_t len)
{
    bool whole = fwrite(at, 1, len, f) == len && fflush(f) == 0;
    int why = errno;
    if (fclose(f) != 0 && whole)
        return false;
    errno = why;
    return whole;
}

/* Puts a file with these bytes in path's place, or says why not and leaves what was there. The bytes go to a new file; the rename is the
 * last step, so path never holds only some of them. */
static bool replace_file(const char *path, const uint8_t *at, size_t len)
{
    size_t size = strlen(path) + sizeof ".tmp99";
    char *name = malloc(size);
    FILE *f = name == NULL ? NULL : create_beside(path, name, size);
    bool created = f != NULL;
    bool done = created && write_and_close(f, at, len) && rename(name, path) == 0;
    if (!done)
        complain(path, strerror(errno));
    if (created && !done)
        remove(name);
    free(name);
    return done;
}

/* A number of four bytes, lowest first. */
static uint32_t number_at(const uint8_t *at)
{
    return at[0] | (uint32_t)at[1] << 8 | (uint32_t)at[2] << 16 | (uint32_t)at[3] << 24;
}

/* A record begins with the length of its body. */
static size_t record_length(const uint8_t *record)
{
    return HOOKUP_HEADER + (size_t)number_at(record);
}

/* The limit of a part that passes: 1, or of a limited part what hookup_explain tells. */
static uint64_t limit_of(struct bytes record)
{
    struct hookup_explanation explanation = {.limit = 1};
    if (has_kind(record.at, HOOKUP_LIMITED))
        hookup_explain(record.at, record.len, (uint8_t *)&explanation, sizeof explanation);
    return explanation.limit;
}

/* Prints the verdict on a record; the limit is that of a part that passes. */
static int print_verdict(uint32_t answer, const uint8_t *record, uint64_t limit)
{
    if (answer != HOOKUP_PASS)
        return print_refusal(answer, "", record);
    if (has_kind(record, HOOKUP_LIMITED))
        return print_limited(answer, "passes only", limit);
    struct observers all = observers_of(record);
    if (!all.listed)
        return print_done(answer, "passes");
    return after_printing(printf("%" PRIu32 ": passes for each of %d observers\n", answer, all.count) >= 0, DONE);
}

static int check_record(struct bytes record)
{
    uint32_t answer = hookup_check(record.at, record.len);
    return print_verdict(answer, record.at, answer == HOOKUP_PASS ? limit_of(record) : 0);
}

/* Prints which event breaks the rule, and at which states; of a limited part also which of its classes are meant. False and errno where that
 * fails. */
static bool print_steps(const struct hookup_explanation *e, bool limited)
{
    const char *coarse = limited ? "coarse " : "";
    const char *mates = limited && e->rule > 3 ? "fine " : coarse;
    if (e->rule == 1)
        return printf("event %" PRIu64 " has no step from state %" PRIu64, e->event, e->s) >= 0;
    if (printf("event %" PRIu64 " leads from state %" PRIu64 " to state %" PRIu64, e->event, e->s, e->t) < 0)
        return false;
    if (e->rule == 2)
        return printf(", of another %sclass", coarse) >= 0;
    return printf("; from state %" PRIu64 ", of the %sclass of %" PRIu64 ", %s into the %sclass of %" PRIu64 "%s", e->u, mates, e->s,
                  e->rule == 4 ? "silent steps do not lead" : "it does not lead", coarse, e->t,
                  e->rule == 5 ? ", even with silent steps before and after it" : "") >= 0;
}

/* Prints for which observer the rule is broken; of several also its place. False and errno where that fails. */
static bool print_concerned(const struct hookup_explanation *e, struct observers all)
{
    if (!all.listed)
        return printf("observer's level: 0x%02" PRIx64, e->observer) >= 0;
    int place = 0;
    while (place < all.count - 1 && all.levels[place] != e->observer)
        place++;
    return printf("first observer concerned: 0x%02" PRIx64 ", number %d of %d", e->observer, place + 1, all.count) >= 0;
}

/* Prints a break of this record, with a word between what and for whom. False and errno where that fails. */
static bool print_break(const struct hookup_explanation *e, const uint8_t *record, const char *between)
{
    return print_steps(e, has_kind(record, HOOKUP_LIMITED)) && fputs(between, stdout) != EOF && print_concerned(e, observers_of(record));
}

/* Prints how many states were taken up; of several observers also for which: that of the break, or the first where the part passes. False
 * and errno where that fails. */
static bool print_taken(const struct hookup_explanation *e, struct observers all)
{
    if (!all.listed)
        return printf("states taken up: %" PRIu64 "\n", e->taken) >= 0;
    uint64_t observer = e->rule == 0 ? all.levels[0] : e->observer;
    return printf("states taken up for observer 0x%02" PRIx64 ": %" PRIu64 "\n", observer, e->taken) >= 0;
}

/* Prints what hookup_explain wrote for a record. False and errno where that fails. */
static bool print_explanation(const struct hookup_explanation *e, const uint8_t *record)
{
    if (e->rule != 0 && !(print_break(e, record, "\n") && putchar('\n') != EOF))
        return false;
    return print_taken(e, observers_of(record));
}

/* Prints what check prints and, where the record is not refused, the explanation. */
static int explain_record(struct bytes record)
{
    struct hookup_explanation explanation = {0};
    uint32_t answer = hookup_explain(record.at, record.len, (uint8_t *)&explanation, sizeof explanation);
    int status = print_verdict(answer, record.at, explanation.limit);
    bool written = answer == HOOKUP_PASS || answer > HOOKUP_BREAK;
    if (status == TROUBLE || !written)
        return status;
    return after_printing(print_explanation(&explanation, record.at), status);
}

/* The number of states in a set of 64 bits. */
static int set_size(const uint8_t *set)
{
    int size = 0;
    for (int t = 0; t < HOOKUP_MAX_STATES; t++)
        size += set[t / 8] >> t % 8 & 1;
    return size;
}

/* Prints the visits from state s, as many as its set has states; where the distance grows, it comes first. False and errno where that
 * fails. */
static bool print_visits(int s, const uint8_t *piece)
{
    const uint8_t *visits = piece + HOOKUP_CLOSURE_SET;
    const uint8_t *distances = visits + HOOKUP_CLOSURE_VISITS;
    int count = set_size(piece);
    bool printed = printf("from %d:", s) >= 0;
    for (int i = 0; printed && i < count; i++) {
        if (i > 0 && distances[i] != distances[i - 1])
            printed = printf("; in %d %s:", distances[i], distances[i] == 1 ? "step" : "steps") >= 0;
        printed = printed && printf(" %d", visits[i]) >= 0;
    }
    return printed && putchar('\n') != EOF;
}

/* Prints a line for each state, from the pieces of one observer. False and errno where that fails. */
static bool print_block(int states, const uint8_t *pieces)
{
    bool printed = true;
    for (int s = 0; printed && s < states; s++)
        printed = print_visits(s, pieces + s * HOOKUP_CLOSURE_PIECE);
    return printed;
}

/* Prints the closures of a record that is not refused, for each observer; of several also a line with the observer's level before them. The
 * number of states is the second byte of the body. */
static int print_closures(struct bytes record)
{
    uint8_t pieces[HOOKUP_MAX_CLOSURE];
    uint32_t answer = hookup_closure(record.at, record.len, pieces, sizeof pieces);
    if (answer != HOOKUP_CLOSED)
        return print_refusal(answer, "", record.at);
    struct observers all = observers_of(record.at);
    int states = record.at[HOOKUP_HEADER + 1];
    bool printed = true;
    for (int o = 0; printed && o < all.count; o++) {
        if (all.listed)
            printed = printf("observer 0x%02x:\n", all.levels[o]) >= 0;
        printed = printed && print_block(states, pieces + o * states * HOOKUP_CLOSURE_PIECE);
    }
    return after_printing(printed, DONE);
}

/* Reads a file and does this with its bytes. */
static int with_file(const char *path, int (*action)(struct bytes))
{
    struct bytes record = {NULL, 0};
    int status = read_file(path, &record) ? action(record) : TROUBLE;
    free(record.at);
    return status;
}

/* Joins two records and writes the joined one; out is touched only where that succeeds. */
static int join_records(struct bytes a, struct bytes b, const char *out)
{
    uint8_t record[HOOKUP_MAX_RECORD];
    uint32_t answer = hookup_join(a.at, a.len, b.at, b.len, record, sizeof record);
    if (answer != HOOKUP_JOINED)
        return print_refusal(answer, side(answer), answer > HOOKUP_SECOND ? b.at : a.at);
    struct bytes joined = {record, record_length(record)};
    if (!(may_replace(out) && replace_file(out, joined.at, joined.len)))
        return TROUBLE;
    return has_kind(record, HOOKUP_LIMITED) ? print_limited(answer, "joined", limit_of(joined)) : print_done(answer, "joined");
}

static int join_files(const char *first, const char *second, const char *out)
{
    struct bytes a = {NULL, 0};
    struct bytes b = {NULL, 0};
    int status = TROUBLE;
    if (read_file(first, &a) && read_file(second, &b))
        status = join_records(a, b, out);
    free(a.at);
    free(b.at);
    return status;
}

/* The bytes of the call at a place of a script; 0 where no whole call stands there. */
static size_t call_size(struct bytes script, size_t at)
{
    static const size_t sizes[] = {
        [HOOKUP_CLEAR_CALL] = HOOKUP_CLEAR_BYTES, [HOOKUP_LOAD_CALL] = HOOKUP_LOAD_BYTES, [HOOKUP_HOOKUP_CALL] = HOOKUP_HOOKUP_BYTES};
    const uint8_t *call = script.at + at;
    size_t left = script.len - at;
    if (left == 0 || call[0] >= sizeof sizes / sizeof sizes[0] || left < sizes[call[0]])
        return 0;
    size_t size = sizes[call[0]] + (call[0] == HOOKUP_LOAD_CALL ? (size_t)number_at(call + 1) : 0);
    return size <= left ? size : 0;
}

/* A script with its calls: how many whole ones it begins with, the place behind them, which is its end unless it is malformed, and room for
 * their answers. The holder frees its bytes and the answers. */
struct script {
    struct bytes bytes;
    size_t count;
    size_t end;
    struct hookup_answer *answers;
};

/* Reads a script from a file, or says why not. */
static bool read_script(const char *path, struct script *into)
{
    size_t size;
    if (!read_file(path, &into->bytes))
        return false;
    for (; (size = call_size(into->bytes, into->end)) != 0; into->end += size)
        into->count++;
    into->answers = calloc(into->count + 1, sizeof *into->answers); /* a null pointer always is a failure */
    if (into->answers == NULL)
        complain(path, strerror(errno));
    return into->answers != NULL;
}

/* Prints the break of a rule that a call answers with, and the record. False and errno where that fails. */
static bool print_broken(const struct hookup_answer *told, const uint8_t *record)
{
    struct hookup_explanation e = {
        .rule = told->number, .event = told->event, .s = told->s, .t = told->t, .u = told->u, .observer = told->observer};
    return print_answer(HOOKUP_BREAK + (uint32_t)e.rule, "", record) && fputs("; ", stdout) != EOF && print_break(&e, record, "; ");
}

/* Prints what the call answers. False and errno where that fails. */
static bool print_told(const struct hookup_answer *told, const uint8_t *call)
{
    const uint8_t *record = call[0] == HOOKUP_LOAD_CALL ? call + HOOKUP_LOAD_BYTES : NULL;
    switch (told->tag) {
    case HOOKUP_GIVES:
        return call[0] == HOOKUP_CLEAR_CALL ? printf("cleared") >= 0 : printf("part %" PRIu64, told->number) >= 0;
    case HOOKUP_CLASHES:
        return print_answer(HOOKUP_CLASH, "", record) && printf(": event %" PRIu64, told->number) >= 0;
    case HOOKUP_BREAKS:
        return print_broken(told, record);
    default:
        return print_answer((uint32_t)told->number, "", record);
    }
}

/* Prints the number of a call, counted from 0, and which it is. False and errno where that fails. */
static bool print_call(size_t k, const uint8_t *call)
{
    if (call[0] == HOOKUP_HOOKUP_CALL)
        return printf("call %zu, hookup %" PRIu32 " %" PRIu32 ": ", k, number_at(call + 1), number_at(call + 5)) >= 0;
    return printf("call %zu, %s: ", k, call[0] == HOOKUP_CLEAR_CALL ? "clear" : "load") >= 0;
}

static int worse(int status, int other)
{
    return status > other ? status : other;
}

/* Prints a line for each call of a script that was run. */
static int print_answers(const struct script *script)
{
    int status = DONE;
    size_t at = 0;
    for (size_t k = 0; status != TROUBLE && k < script->count; k++) {
        const uint8_t *call = script->bytes.at + at;
        const struct hookup_answer *told = &script->answers[k];
        bool printed = print_call(k, call) && print_told(told, call) && putchar('\n') != EOF;
        status = worse(status, after_printing(printed, told->tag == HOOKUP_GIVES ? DONE : REFUSED));
        at += call_size(script->bytes, at);
    }
    return status;
}

/* Finds the record of a part where it stands on the shelf. */
static uint32_t find_part(struct bytes shelf, size_t i, struct bytes *record)
{
    struct hookup_place found = {0, 0};
    uint32_t answer = hookup_part(shelf.at, shelf.len, i, (uint8_t *)&found, sizeof found);
    if (answer == HOOKUP_FOUND)
        *record = (struct bytes){shelf.at + found.place, found.length};
    return answer;
}

/* Prints where a part's record stands on the shelf, and what follows. False and errno where that fails. */
static bool print_place(struct bytes shelf, size_t i, struct bytes record, const char *behind)
{
    return printf("part %zu, %zu bytes at byte %td%s", i, record.len, record.at - shelf.at, behind) >= 0;
}

/* Prints where a part's record stands, and the verdict on it. */
static int print_part(struct bytes shelf, size_t i)
{
    struct bytes record;
    uint32_t answer = find_part(shelf, i, &record);
    if (answer != HOOKUP_FOUND)
        return print_refusal(answer, "", NULL);
    return print_place(shelf, i, record, ": ") ? check_record(record) : after_printing(false, TROUBLE);
}

/* Prints how many parts are on a shelf, and a line for each. Each is found from the start of the shelf, so that very many take long. */
static int print_parts(struct bytes shelf)
{
    uint64_t count = 0;
    uint32_t answer = hookup_count(shelf.at, shelf.len, (uint8_t *)&count, sizeof count);
    if (answer != HOOKUP_COUNTED)
        return print_refusal(answer, "", NULL);
    int status = after_printing(printf("parts: %" PRIu64 "\n", count) >= 0, DONE);
    for (size_t i = 0; status != TROUBLE && i < count; i++)
        status = worse(status, print_part(shelf, i));
    return status;
}

/* Whether one of the calls is done; otherwise the shelf is as it was. */
static bool any_done(const struct script *script)
{
    for (size_t k = 0; k < script->count; k++)
        if (script->answers[k].tag == HOOKUP_GIVES)
            return true;
    return false;
}

/* Prints that a script is malformed, and where. */
static int print_malformed(uint32_t answer, size_t place)
{
    return after_printing(print_answer(answer, "", NULL) && printf(": no whole call begins at byte %zu\n", place) >= 0, REFUSED);
}

/* Makes the calls of a script on a shelf. Where the shelf has a file and a call is done, writes it there; then prints answers and parts. */
static int run_script(const struct script *script, struct bytes shelf, const char *path)
{
    size_t room = script->count * sizeof *script->answers;
    uint32_t answer = hookup_run(script->bytes.at, script->bytes.len, shelf.at, shelf.len, (uint8_t *)script->answers, room);
    if (answer == HOOKUP_MALFORMED)
        return print_malformed(answer, script->end);
    if (answer != HOOKUP_RAN)
        return print_refusal(answer, "", NULL);
    if (path != NULL && any_done(script) && !(may_replace(path) && replace_file(path, shelf.at, shelf.len)))
        return TROUBLE;
    int status = print_answers(script);
    return status == TROUBLE ? status : worse(status, print_parts(shelf));
}

/* Makes a shelf that is in no file, or says why not: bytes without an end record, so that the first call on it has to be Clear. */
static bool make_shelf(struct bytes *into)
{
    into->len = SHELF_SIZE;
    into->at = malloc(into->len);
    if (into->at == NULL)
        complain("shelf", strerror(errno));
    else
        memset(into->at, 0xAA, into->len);
    return into->at != NULL;
}

/* Runs a script on the shelf in a file, or on one of its own where the name is null. */
static int use_shelf(const char *script_path, const char *path)
{
    struct script script = {{NULL, 0}, 0, 0, NULL};
    struct bytes shelf = {NULL, 0};
    int status = TROUBLE;
    if (read_script(script_path, &script) && (path == NULL ? make_shelf(&shelf) : read_file(path, &shelf)))
        status = run_script(&script, shelf, path);
    free(script.bytes.at);
    free(script.answers);
    free(shelf.at);
    return status;
}

/* Writes the record of a part on a shelf to a file, which is touched only where that succeeds. */
static int write_part(struct bytes shelf, size_t i, const char *out)
{
    struct bytes record;
    uint32_t answer = find_part(shelf, i, &record);
    if (answer != HOOKUP_FOUND)
        return print_refusal(answer, "", NULL);
    if (!(may_replace(out) && replace_file(out, record.at, record.len)))
        return TROUBLE;
    return after_printing(printf("%" PRIu32 ": ", answer) >= 0 && print_place(shelf, i, record, "\n"), DONE);
}

static int save_part(const char *path, size_t i, const char *out)
{
    struct bytes shelf = {NULL, 0};
    int status = read_file(path, &shelf) ? write_part(shelf, i, out) : TROUBLE;
    free(shelf.at);
    return status;
}

/* Whether a text is a number in decimal digits. */
static bool is_number(const char *text)
{
    return text[0] != '\0' && text[strspn(text, "0123456789")] == '\0';
}

int main(int count, char **arguments)
{
    if (count == 3 && strcmp(arguments[1], "check") == 0)
        return with_file(arguments[2], check_record);
    if (count == 5 && strcmp(arguments[1], "join") == 0)
        return join_files(arguments[2], arguments[3], arguments[4]);
    if (count == 3 && strcmp(arguments[1], "closure") == 0)
        return with_file(arguments[2], print_closures);
    if (count == 3 && strcmp(arguments[1], "explain") == 0)
        return with_file(arguments[2], explain_record);
    if ((count == 3 || count == 4) && strcmp(arguments[1], "shelf") == 0)
        return use_shelf(arguments[2], count == 4 ? arguments[3] : NULL);
    if (count == 5 && strcmp(arguments[1], "part") == 0 && is_number(arguments[3]))
        return save_part(arguments[2], strtoul(arguments[3], NULL, 10), arguments[4]);
    fputs("usage: hookup-host check FILE\n       hookup-host explain FILE\n       hookup-host join A B OUT\n       hookup-host closure FILE\n"
          "       hookup-host shelf SCRIPT [SHELF]\n       hookup-host part SHELF NUMBER OUT\n", stderr);
    return TROUBLE;
}
