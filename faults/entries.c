/* Calls the C entries on the records and replay scripts in the files that are named, each in a buffer of exactly its size, so that a tool
 * that watches memory sees every byte read or written outside. Joins each record with the one before it and with itself, and writes its
 * closures and its explanation, into buffers of several sizes; runs a script of every call on shelves with the two, whatever they are. Where
 * a record is not refused, mislabels its first level and then its last, where it lists observers gives the last of them the level of the one
 * before it, and where the part is limited gives its first state the fine class 1: each call has to refuse that. Runs the calls of each
 * replay script on a shelf of its capacity. Counts and finds the parts on each shelf. Among the records must be some of each kind that join,
 * and among the answers on shelves each refusal of one. */
#include <inttypes.h>
#include <stdbool.h>
#include <stdio.h>
#include <stdlib.h>
#include <string.h>

#include "hookup.h"

struct bytes {
    uint8_t *at;
    size_t len;
};

static struct bytes read_file(const char *path)
{
    struct bytes b = {NULL, 0};
    FILE *f = fopen(path, "rb");
    if (f == NULL || fseek(f, 0, SEEK_END) != 0) {
        perror(path);
        exit(2);
    }
    long size = ftell(f);
    rewind(f);
    b.len = (size_t)size;
    b.at = b.len == 0 ? NULL : malloc(b.len);
    if ((b.len != 0 && b.at == NULL) || fread(b.at, 1, b.len, f) != b.len) {
        perror(path);
        exit(2);
    }
    fclose(f);
    return b;
}

/* A buffer of exactly so many bytes. */
static uint8_t *lend(size_t size)
{
    if (size == 0)
        return NULL;
    uint8_t *out = malloc(size);
    if (out == NULL) {
        perror("malloc");
        exit(2);
    }
    return memset(out, 0x5A, size);
}

/* Frees a buffer of which only the first so many bytes may have changed. */
static void take_back(uint8_t *out, size_t size, size_t written, const char *call)
{
    for (size_t i = written; i < size; i++)
        if (out[i] != 0x5A) {
            fprintf(stderr, "entries: %s changed byte %zu\n", call, i);
            exit(1);
        }
    free(out);
}

/* Ends the run where a call does not answer this. */
static void expect(uint32_t wanted, uint32_t answer, const char *call)
{
    if (answer == wanted)
        return;
    fprintf(stderr, "entries: %s answers %" PRIu32 ", not %" PRIu32 "\n", call, answer, wanted);
    exit(1);
}

/* How many joined records there were, by the lower byte of their kind. */
static unsigned long joined[256];

/* A join into a buffer of exactly so many bytes. A refused call changes none of them, another none behind the record. */
static uint32_t join_into(struct bytes a, struct bytes b, size_t size)
{
    uint8_t *out = lend(size);
    uint32_t answer = hookup_join(a.at, a.len, b.at, b.len, out, size);
    size_t written = answer == HOOKUP_JOINED ? HOOKUP_HEADER + (out[0] | (size_t)out[1] << 8) : 0;
    if (written != 0)
        joined[out[4]]++;
    take_back(out, size, written, "a join");
    return answer;
}

static bool has_kind(struct bytes record, int kind)
{
    return record.len > HOOKUP_HEADER && (record.at[4] | record.at[5] << 8) == kind;
}

/* How many observers a record lists: none except in the second kind, and none where the bytes do not say so. */
static size_t listed(struct bytes record)
{
    return has_kind(record, HOOKUP_SEVERAL_OBSERVERS) ? record.at[HOOKUP_HEADER] : 0;
}

/* The bytes of the closures of a record, by its number of observers and of states; 0 where the bytes are too few to say so. */
static size_t closures_size(struct bytes record)
{
    size_t count = listed(record);
    return record.len > 7 ? HOOKUP_CLOSURE_PIECE * (count == 0 ? 1 : count) * record.at[7] : 0;
}

/* The closures of a record, in the same way. */
static uint32_t closures_into(struct bytes record, size_t size)
{
    uint8_t *out = lend(size);
    uint32_t answer = hookup_closure(record.at, record.len, out, size);
    take_back(out, size, answer == HOOKUP_CLOSED ? closures_size(record) : 0, "a closure");
    return answer;
}

/* Whether an answer of Check says that the record passes or breaks a rule. */
static bool judged(uint32_t answer)
{
    return answer == HOOKUP_PASS || answer > HOOKUP_BREAK;
}

/* The explanation of a record, in the same way. Its answer is what Check says of the record, unless there is no room. */
static uint32_t explain_into(struct bytes record, uint32_t check, size_t size)
{
    uint8_t *out = lend(size);
    uint32_t answer = hookup_explain(record.at, record.len, out, size);
    expect(judged(check) && size < HOOKUP_EXPLANATION ? HOOKUP_NO_ROOM : check, answer, "an explanation");
    take_back(out, size, judged(answer) ? HOOKUP_EXPLANATION : 0, "an explanation");
    return answer;
}

static const size_t sizes[] = {0, 1, 11, 52, 63, 64, 136, 400, 8703, 8704, 16586, 16650, 16781, 16782, 34815, 34816, 40000};

struct tally {
    unsigned long calls, done;
};

static struct tally checks, joins, closures, explanations, runs;
static unsigned long mislabelled, mislisted, misrefined;

static void count(struct tally *tally, bool done)
{
    tally->calls++;
    tally->done += done;
}

/* A record that is not refused, with another byte at this place: each call refuses it with this number. */
static void spoil(struct bytes record, size_t place, uint8_t byte, uint32_t refusal, unsigned long *spoilt)
{
    uint8_t before = record.at[place];
    record.at[place] = byte;
    expect(refusal, hookup_check(record.at, record.len), "a check");
    expect(refusal, join_into(record, record, HOOKUP_MAX_RECORD), "a join");
    expect(refusal, closures_into(record, HOOKUP_MAX_CLOSURE), "a closure");
    explain_into(record, refusal, HOOKUP_EXPLANATION);
    record.at[place] = before;
    ++*spoilt;
}

/* A record that is not refused, spoilt in several ways: the first observer's level and the last event's mislabelled, the last two listed
 * levels equal, the first fine class not 0. The list stands behind the four numbers of the body, the class columns behind it, one for each
 * observer and in a limited part a fine one, and the last event's level is the byte before the rows. */
static void spoil_each(struct bytes record)
{
    size_t count = listed(record), n = record.at[7], m = record.at[9];
    bool limited = has_kind(record, HOOKUP_LIMITED);
    size_t list = HOOKUP_HEADER + 4, columns = limited ? 2 : count == 0 ? 1 : count;
    spoil(record, count == 0 ? HOOKUP_HEADER : list, 0x01, HOOKUP_MISLABELLED, &mislabelled);
    if (m > 0)
        spoil(record, list + count + columns * n + 4 * m - 1, 0x01, HOOKUP_MISLABELLED, &mislabelled);
    if (count > 0)
        spoil(record, list + count - 1, record.at[list + count - 2], HOOKUP_MISLISTED, &mislisted);
    if (limited)
        spoil(record, list + n, 1, HOOKUP_MISREFINED, &misrefined);
}

static void try_record(struct bytes before, struct bytes now)
{
    uint32_t check = hookup_check(now.at, now.len);
    count(&checks, check == HOOKUP_PASS);
    for (size_t i = 0; i < sizeof sizes / sizeof sizes[0]; i++) {
        count(&joins, join_into(before, now, sizes[i]) == HOOKUP_JOINED);
        count(&joins, join_into(now, now, sizes[i]) == HOOKUP_JOINED);
        count(&closures, closures_into(now, sizes[i]) == HOOKUP_CLOSED);
        count(&explanations, judged(explain_into(now, check, sizes[i])));
    }
    size_t fits = closures_size(now);
    count(&closures, closures_into(now, fits) == HOOKUP_CLOSED);
    count(&closures, closures_into(now, fits == 0 ? 0 : fits - 1) == HOOKUP_CLOSED);
    if (judged(check))
        spoil_each(now);
}

/* How often a run, and a call of one, was refused with each number; how many calls were done, and how many broke a rule. */
static unsigned long runs_refused[HOOKUP_BREAK], calls_refused[HOOKUP_BREAK], calls_done, calls_broken;

static void count_answer(const uint8_t *at)
{
    struct hookup_answer answer;
    memcpy(&answer, at, sizeof answer);
    calls_done += answer.tag == HOOKUP_GIVES;
    calls_broken += answer.tag == HOOKUP_BREAKS;
    if (answer.tag == HOOKUP_REFUSED && answer.number < HOOKUP_BREAK)
        calls_refused[answer.number]++;
    calls_refused[HOOKUP_CLASH] += answer.tag == HOOKUP_CLASHES;
}

/* Finds a part of a shelf, with buffers that are too short and that fit, which has to answer this. Check reads the record where it stands. */
static void find_part(struct bytes shelf, size_t i, uint32_t wanted)
{
    for (size_t size = HOOKUP_PLACE - 1; size <= HOOKUP_PLACE + 1; size++) {
        struct hookup_place found;
        uint8_t *out = lend(size);
        uint32_t answer = hookup_part(shelf.at, shelf.len, i, out, size);
        expect(wanted == HOOKUP_FOUND && size < HOOKUP_PLACE ? HOOKUP_NO_ROOM : wanted, answer, "a part");
        if (answer == HOOKUP_FOUND) {
            memcpy(&found, out, sizeof found);
            hookup_check(shelf.at + found.place, found.length);
        }
        take_back(out, size, answer == HOOKUP_FOUND ? HOOKUP_PLACE : 0, "a part");
    }
}

/* Counts the parts of a shelf in the same way, and finds the first ones, the last, and some that are not there. */
static void read_shelf(struct bytes shelf)
{
    uint64_t parts = 0;
    uint32_t ended = hookup_count(shelf.at, shelf.len, (uint8_t *)&parts, sizeof parts);
    for (size_t size = HOOKUP_COUNT - 1; size <= HOOKUP_COUNT + 1; size++) {
        uint8_t *out = lend(size);
        uint32_t answer = hookup_count(shelf.at, shelf.len, out, size);
        expect(ended == HOOKUP_COUNTED && size < HOOKUP_COUNT ? HOOKUP_NO_ROOM : ended, answer, "a count");
        take_back(out, size, answer == HOOKUP_COUNTED ? HOOKUP_COUNT : 0, "a count");
    }
    const size_t asked[] = {0, 1, parts - 1, parts, SIZE_MAX};
    for (size_t k = 0; k < sizeof asked / sizeof asked[0]; k++)
        find_part(shelf, asked[k], ended != HOOKUP_COUNTED ? ended : asked[k] < parts ? HOOKUP_FOUND : HOOKUP_NO_PART);
}

/* A copy in a buffer of exactly its size. */
static struct bytes copy(struct bytes bytes)
{
    struct bytes made = {lend(bytes.len), bytes.len};
    if (bytes.len != 0)
        memcpy(made.at, bytes.at, bytes.len);
    return made;
}

/* Runs a script of so many calls on a copy of a shelf, with exactly so many bytes for the answers, which has to answer this. Where no call
 * is made, no byte of the shelf changes. */
static void run_on(struct bytes script, size_t calls, struct bytes shelf, size_t size, uint32_t wanted)
{
    struct bytes used = copy(shelf);
    uint8_t *answers = lend(size);
    uint32_t answer = hookup_run(script.at, script.len, used.at, used.len, answers, size);
    expect(wanted, answer, "a run");
    count(&runs, answer == HOOKUP_RAN);
    if (answer != HOOKUP_RAN) {
        runs_refused[answer]++;
        expect(0, used.len != 0 && memcmp(used.at, shelf.at, used.len) != 0, "a run that is refused: a change of its shelf");
    }
    for (size_t k = 0; answer == HOOKUP_RAN && k < calls; k++)
        count_answer(answers + k * HOOKUP_ANSWER);
    take_back(answers, size, answer == HOOKUP_RAN ? calls * HOOKUP_ANSWER : 0, "a run");
    read_shelf(used);
    free(used.at);
}

/* Runs a script that begins with so many whole calls, which are all of it unless it is malformed, with room for all answers, for one byte
 * more and for one less. */
static void run_script(struct bytes script, size_t calls, bool whole, struct bytes shelf)
{
    size_t size = calls * HOOKUP_ANSWER;
    run_on(script, calls, shelf, size, whole ? HOOKUP_RAN : HOOKUP_MALFORMED);
    run_on(script, calls, shelf, size + 1, whole ? HOOKUP_RAN : HOOKUP_MALFORMED);
    if (size > 0)
        run_on(script, calls, shelf, size - 1, whole ? HOOKUP_NO_ROOM : HOOKUP_MALFORMED);
}

/* Adds bytes behind others. */
static void add(struct bytes *to, const void *at, size_t len)
{
    if (len == 0)
        return;
    to->at = realloc(to->at, to->len + len);
    if (to->at == NULL) {
        perror("realloc");
        exit(2);
    }
    memcpy(to->at + to->len, at, len);
    to->len += len;
}

static void add_load(struct bytes *script, struct bytes record)
{
    const uint8_t call[HOOKUP_LOAD_BYTES] = {HOOKUP_LOAD_CALL, (uint8_t)record.len, (uint8_t)(record.len >> 8), (uint8_t)(record.len >> 16)};
    add(script, call, sizeof call);
    add(script, record.at, record.len);
}

static void add_hookup(struct bytes *script, uint8_t i, uint8_t j)
{
    const uint8_t call[HOOKUP_HOOKUP_BYTES] = {HOOKUP_HOOKUP_CALL, i, 0, 0, 0, j};
    add(script, call, sizeof call);
}

/* A script of every call for a shelf with two records. */
enum { CALLS = 8 };

static struct bytes every_call(struct bytes before, struct bytes now)
{
    static const uint8_t clear[HOOKUP_CLEAR_BYTES] = {HOOKUP_CLEAR_CALL};
    struct bytes script = {NULL, 0};
    add_hookup(&script, 0, 1);
    add_hookup(&script, 1, 1);
    add_load(&script, now);
    add_hookup(&script, 0, 2);
    add_hookup(&script, 1, 9);
    add(&script, clear, sizeof clear);
    add_load(&script, before);
    add_hookup(&script, 0, 0);
    return script;
}

/* Shelves with two records, whatever they are: without an end record, full with it, with a byte too few for a record more, and with room for
 * joined ones. Then a script that is cut off. */
static void try_shelves(struct bytes before, struct bytes now)
{
    static const uint8_t zeros[HOOKUP_HEADER + 2 * HOOKUP_MAX_RECORD] = {0};
    const size_t ends[] = {0, HOOKUP_HEADER, HOOKUP_HEADER + (now.len == 0 ? 0 : now.len - 1), sizeof zeros};
    struct bytes script = every_call(before, now), shelf = {NULL, 0};
    for (size_t k = 0; k < sizeof ends / sizeof ends[0]; k++) {
        shelf.len = 0;
        add(&shelf, before.at, before.len);
        add(&shelf, now.at, now.len);
        add(&shelf, zeros, ends[k]);
        run_script(script, CALLS, true, shelf);
    }
    script.len--;
    struct bytes cut = copy(script);
    run_script(cut, CALLS - 1, false, shelf);
    free(cut.at);
    free(script.at);
    free(shelf.at);
}

/* The bytes of an operation of a replay script, those of a record too; 0 where none is whole. */
static size_t operation_size(const uint8_t *at, size_t left)
{
    static const uint8_t sizes[] = {HOOKUP_CLEAR_BYTES, HOOKUP_LOAD_BYTES, HOOKUP_HOOKUP_BYTES, 1, 5};
    if (left == 0 || at[0] >= sizeof sizes || left < sizes[at[0]])
        return 0;
    size_t record = at[0] == HOOKUP_LOAD_CALL ? at[1] | (size_t)at[2] << 8 | (size_t)at[3] << 16 | (size_t)at[4] << 24 : 0;
    return sizes[at[0]] + record <= left ? sizes[at[0]] + record : 0;
}

/* The calls of a replay script, which begins with the capacity of its shelf, of which the lower two bytes are taken. Count and Part are left
 * out, and where no whole operation stands the rest is kept, so that the script is malformed. With them it is malformed too. */
static void try_replay_script(struct bytes replay)
{
    if (replay.len < 4)
        return;
    struct bytes script = {NULL, 0}, whole = {replay.at + 4, replay.len - 4}, rest = whole;
    struct bytes shelf = {NULL, replay.at[0] | (size_t)replay.at[1] << 8};
    size_t calls = 0, size;
    shelf.at = lend(shelf.len);
    for (; (size = operation_size(rest.at, rest.len)) != 0; rest.at += size, rest.len -= size)
        if (rest.at[0] <= HOOKUP_HOOKUP_CALL) {
            add(&script, rest.at, size);
            calls++;
        }
    add(&script, rest.at, rest.len);
    run_script(script, calls, rest.len == 0, shelf);
    if (script.len != whole.len)
        run_on(whole, 0, shelf, whole.len * HOOKUP_ANSWER, HOOKUP_MALFORMED);
    free(script.at);
    free(shelf.at);
}

/* Prints what was answered on shelves, and says whether each refusal came up. */
static bool print_told(void)
{
    static const uint32_t refusals[] = {HOOKUP_NO_END, HOOKUP_NO_PART, HOOKUP_UNFIT, HOOKUP_OBSERVERS_DIFFER, HOOKUP_CLASH, HOOKUP_NO_ROOM};
    unsigned long malformed = runs_refused[HOOKUP_MALFORMED], no_room = runs_refused[HOOKUP_NO_ROOM];
    bool each = malformed != 0 && no_room != 0 && calls_done != 0 && calls_broken != 0;
    printf("entries: %lu runs, %lu made, %lu malformed, %lu without room; %lu calls done, %lu break a rule, refused with", runs.calls, runs.done,
           malformed, no_room, calls_done, calls_broken);
    for (size_t k = 0; k < sizeof refusals / sizeof refusals[0]; k++) {
        printf("%s %" PRIu32 ": %lu", k == 0 ? "" : ",", refusals[k], calls_refused[refusals[k]]);
        each = each && calls_refused[refusals[k]] != 0;
    }
    putchar('\n');
    return each;
}

/* Tries each file, by the last letters of its name. */
static void try_files(int named, char **names)
{
    struct bytes before = {NULL, 0};
    for (int k = 1; k < named; k++) {
        struct bytes now = read_file(names[k]);
        if (strstr(names[k], ".script") != NULL) {
            try_replay_script(now);
            free(now.at);
            continue;
        }
        try_record(before, now);
        try_shelves(before, now);
        free(before.at);
        before = now;
    }
    free(before.at);
}

int main(int named, char **names)
{
    try_files(named, names);
    unsigned long one = joined[HOOKUP_ONE_OBSERVER], several = joined[HOOKUP_SEVERAL_OBSERVERS], limited = joined[HOOKUP_LIMITED];
    printf("entries: %lu checks, %lu pass; %lu joins, %lu joined, %lu with several observers, %lu limited; %lu closures, %lu written; "
           "%lu explanations, %lu written; %lu mislabelled, %lu mislisted, %lu misrefined\n",
           checks.calls, checks.done, joins.calls, joins.done, several, limited, closures.calls, closures.done, explanations.calls,
           explanations.done, mislabelled, mislisted, misrefined);
    bool each_joined = one != 0 && several != 0 && limited != 0;
    bool all_done = checks.done != 0 && each_joined && closures.done != 0 && explanations.done != 0 && runs.done != 0;
    bool all_told = print_told();
    return all_done && all_told && mislabelled != 0 && mislisted != 0 && misrefined != 0 ? 0 : 1;
}
