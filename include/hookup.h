/* The hookup bench, for a host program in C. Link target/staticlib/libhookup.a (made by `tools/build library`, x86-64).
 * docs/FORMAT.md has the record, the shelf and the script byte by byte. The figures of stack that were measured are of the older kit's build.
 * The library takes memcpy and memset from the host, and nothing else. */
#ifndef HOOKUP_H
#define HOOKUP_H

#include <stddef.h>
#include <stdint.h>

/* Sizes. A record is a header and a body; the header's first four bytes are the length of the body, the other two the kind of the record,
 * both little-endian. */
#define HOOKUP_MAX_OBSERVERS 4
#define HOOKUP_MAX_STATES 64
#define HOOKUP_MAX_EVENTS 32
#define HOOKUP_HEADER 6         /* bytes */
#define HOOKUP_MAX_BODY 16776   /* bytes, with most observers, states and events */
#define HOOKUP_MAX_RECORD 16782 /* bytes of header and body; every joined record fits */
#define HOOKUP_CLOSURE_SET 8     /* bytes of the set with which a state's piece begins */
#define HOOKUP_CLOSURE_VISITS 64 /* bytes of its visits, and again of their distances */
#define HOOKUP_CLOSURE_PIECE 136 /* bytes that hookup_closure writes for an observer and a state: set, visits, distances */
#define HOOKUP_MAX_CLOSURE 34816 /* bytes that it writes for most observers and most states */
#define HOOKUP_EXPLANATION 64    /* bytes that hookup_explain writes */
#define HOOKUP_ANSWER 64         /* bytes that hookup_run writes for a call of its script */
#define HOOKUP_COUNT 8           /* bytes that hookup_count writes */
#define HOOKUP_PLACE 16          /* bytes that hookup_part writes */

/* Kinds of record. The number of states is the record's byte HOOKUP_HEADER + 1 in each. A part of the third kind is limited: its classes,
 * the coarse ones, are split into fine ones. A part of the first two kinds that passes hides its high inputs; a limited part need not. */
#define HOOKUP_ONE_OBSERVER 1      /* byte HOOKUP_HEADER is the observer's level */
#define HOOKUP_SEVERAL_OBSERVERS 2 /* byte HOOKUP_HEADER is their number; their levels are listed from byte HOOKUP_HEADER + 4 on */
#define HOOKUP_LIMITED 3           /* byte HOOKUP_HEADER is the observer's level; the fine column stands behind the coarse one */

/* Calls of a script, by their first byte, and the bytes of a call, those of a record apart. */
#define HOOKUP_CLEAR_CALL 0
#define HOOKUP_CLEAR_BYTES 1
#define HOOKUP_LOAD_CALL 1
#define HOOKUP_LOAD_BYTES 5 /* with the length of the record, which follows */
#define HOOKUP_HOOKUP_CALL 2
#define HOOKUP_HOOKUP_BYTES 9 /* with the numbers of two parts */

/* Answers: done. */
#define HOOKUP_PASS 0    /* of hookup_check and hookup_explain: no refusal applies and all five rules hold for each observer */
#define HOOKUP_JOINED 0  /* of hookup_join: the joined record is written */
#define HOOKUP_CLOSED 0  /* of hookup_closure: the closures are written */
#define HOOKUP_RAN 0     /* of hookup_run: the calls are made, and their answers are written */
#define HOOKUP_COUNTED 0 /* of hookup_count: the number is written */
#define HOOKUP_FOUND 0   /* of hookup_part: the place is written */

/* Answers: the refusal of a script, which comes before all others. */
#define HOOKUP_MALFORMED 99 /* something else than whole calls stands in it */

/* Answers: refusals of a shelf, tested in this order. */
#define HOOKUP_NO_END 12  /* the shelf has no end record; of Clear: it has fewer bytes than an end record */
#define HOOKUP_NO_PART 13 /* no part has this number */
#define HOOKUP_UNFIT 14   /* a record on the shelf does not pass; only in an answer that hookup_run writes */

/* Answers: refusals of a record, tested in this order, which is not that of the numbers. */
#define HOOKUP_TOO_SHORT 1    /* fewer bytes than a header has */
#define HOOKUP_WRONG_LENGTH 2 /* the length field is not the number of bytes behind the header */
#define HOOKUP_WRONG_KIND 3   /* the kind of the record is none of HOOKUP_ONE_OBSERVER, HOOKUP_SEVERAL_OBSERVERS and HOOKUP_LIMITED */
#define HOOKUP_OUT_OF_RANGE 4 /* a body under four bytes, or number of states, start state or number of events out of range */
#define HOOKUP_WRONG_SIZE 5   /* the length is not that of so many observers, states and events */
#define HOOKUP_MISLISTED 20   /* the listed observers are not 2 to HOOKUP_MAX_OBSERVERS, or their levels, as bytes, do not rise strictly */
#define HOOKUP_MISNUMBERED 6  /* the classes for an observer, of a limited part the coarse ones, are not numbered by first appearance */
#define HOOKUP_MISREFINED 21  /* of a limited part: the fine classes are not numbered by first appearance, or one lies across two coarse ones */
#define HOOKUP_MISORDERED 7   /* the identifiers do not rise, or an event's kind is above 2 */
#define HOOKUP_MISLABELLED 16 /* the level of an observer or of an event has rank 0 and a compartment */
#define HOOKUP_STRAY_BIT 8    /* a row has a bit for a state that is not there */

/* Answers: refusals of two passing parts, tested in this order. */
#define HOOKUP_OBSERVERS_DIFFER 9 /* the records have not as many observers, or not of the same levels */
#define HOOKUP_CLASH 10     /* a shared event clashes in kind or level */
#define HOOKUP_TOO_LARGE 11 /* more than HOOKUP_MAX_STATES states or HOOKUP_MAX_EVENTS events together */

/* Answers: the refusal that comes behind all others. */
#define HOOKUP_NO_ROOM 15 /* the buffer or the shelf is shorter than what is to be written */

/* What is added: to the number of the first broken rule, 1 to 5; and to an answer of hookup_join about its second record. */
#define HOOKUP_BREAK 100
#define HOOKUP_SECOND 1000

#ifdef __cplusplus
extern "C" {
#endif

/* Checks one part record of len bytes.
 *
 * Answers HOOKUP_PASS; the first refusal of a record that applies to the bytes; or HOOKUP_BREAK plus the first rule that is broken for the
 * first observer, in the order of the record, for whom one is. Any bytes of any length are taken, and nothing is written. The limit of a
 * limited part that passes is told by hookup_explain.
 *
 * record may be null only where len is 0; otherwise it points to len readable bytes. The call reads nothing else, keeps
 * nothing, takes no lock, and may be made by several threads at once. It needs less
 * than 10 KB of stack: 5,072 bytes were measured on records of 64 states and 32 events, 8,208 on a first call, in which the loader
 * resolves memset. */
uint32_t hookup_check(const uint8_t *record, size_t len);

/* Joins the parts of two records, a and b, and writes the joined record to the start of out.
 *
 * Answers HOOKUP_JOINED if it did; how long the record is, its header says, and its observers are those of both. Its kind is HOOKUP_LIMITED
 * where that of a or of b is, and otherwise that of both. It passes, and its limit is the product of the limits of a and b. Where the
 * answer is another, nothing is written, and it is the first of these that applies:
 *   what hookup_check says of a, where a does not pass
 *   HOOKUP_SECOND plus what it says of b, where b does not pass
 *   HOOKUP_OBSERVERS_DIFFER, HOOKUP_CLASH, HOOKUP_TOO_LARGE
 *   HOOKUP_NO_ROOM, which never comes where out has HOOKUP_MAX_RECORD bytes
 * The bytes of out behind the record stay as they were.
 *
 * out may not overlap a record; a and b may be the same bytes. A pointer may be null only where its length is 0. The call reads and
 * writes nothing else, keeps nothing, takes no lock, and may be made by several threads at once. It needs less than
 * 10 KB of stack: 5,760 bytes were measured on full records, 8,912 on a first call. */
uint32_t hookup_join(const uint8_t *a, size_t alen, const uint8_t *b, size_t blen, uint8_t *out, size_t outlen);

/* Writes, for a debugger, where silent steps lead from each state of a part, for each observer of the record. An event is silent if it is
 * a high output or, at any level, internal.
 *
 * Answers HOOKUP_CLOSED if it did. out then begins with a block for each observer, in the order of the record: one block, or in
 * HOOKUP_SEVERAL_OBSERVERS as many as are listed. A block has a piece of HOOKUP_CLOSURE_PIECE bytes for each state s, in the order of the
 * states:
 *   8 bytes   the silent closure of s as a set, lowest byte first: bit t is set where silent steps lead from s to t, and bit s always
 *   64 bytes  the visits, a state in each: the states of the set, each once, then zeros. They go by the least number of silent steps from
 *             s, the lowest state first among equals; so s is the first
 *   64 bytes  the distances: beside each visit that least number, then zeros
 * The number of visits is the number of set bits; a zero among the visits is state 0. The part need not pass.
 *
 * Otherwise nothing is written, and the answer is the first of these that applies:
 *   the first refusal of a record that applies to the bytes
 *   HOOKUP_NO_ROOM, which never comes where out has HOOKUP_MAX_CLOSURE bytes
 * The bytes of out behind the last piece stay as they were.
 *
 * out may not overlap the record. A pointer may be null only where its length is 0. The call reads and writes nothing else, keeps
 * nothing, takes no lock, and may be made by several threads at once. It needs less than 6 KB of stack: 1,936 bytes were measured on
 * records of 64 states and 32 events, 5,072 on a first call. */
uint32_t hookup_closure(const uint8_t *record, size_t len, uint8_t *out, size_t outlen);

/* What hookup_explain writes: eight numbers of eight bytes, lowest byte first, as they lie in memory on x86-64. Where the part passes, the
 * first five are 0. Otherwise they are the first break by observer, in the order of the record, then by rule, event, s, t and u. Rule 1 is
 * the same for all observers, so that a break of it tells the first one. */
struct hookup_explanation {
    uint64_t rule;     /* the broken rule, 1 to 5 */
    uint64_t event;    /* the identifier of the event that breaks it */
    uint64_t s;        /* the states of the break; t is 0 for rule 1, and u for rules 1 and 2 */
    uint64_t t;
    uint64_t u;
    uint64_t taken;    /* how many states were taken up: the sizes of the silent closures of all states together, for the first observer
                          of the record where the part passes, for the observer of the break where rule 4 or 5 is broken; otherwise 0 */
    uint64_t observer; /* the level of the observer of the break; 0 where the part passes */
    uint64_t limit;    /* where the part passes, the largest number of fine classes in one coarse class of a limited part, and 1 for the
                          other kinds; 0 where a rule is broken */
};

/* Checks one part record as hookup_check does, and says more about it.
 *
 * Answers what hookup_check answers. On HOOKUP_PASS and on a break the first HOOKUP_EXPLANATION bytes of out then are a struct
 * hookup_explanation, and the bytes behind them stay as they were. On a refusal of the record nothing is written; and where out has fewer
 * bytes than that, the answer for a pass or a break is HOOKUP_NO_ROOM and nothing is written.
 *
 * out may not overlap the record. A pointer may be null only where its length is 0. The call reads and writes nothing else, keeps
 * nothing, takes no lock, and may be made by several threads at once. It needs less than 10 KB of stack: 5,088 bytes were
 * measured on records of 64 states and 32 events, 8,272 on a first call. */
uint32_t hookup_explain(const uint8_t *record, size_t len, uint8_t *out, size_t outlen);

/* What hookup_run writes for a call of its script: eight numbers of eight bytes, lowest byte first, as they lie in memory on x86-64. What
 * is not named for a tag is 0. */
struct hookup_answer {
    uint64_t tag;      /* HOOKUP_GIVES, HOOKUP_REFUSED, HOOKUP_CLASHES or HOOKUP_BREAKS */
    uint64_t number;   /* the number of the new part, of Clear 0; the refusal; the smallest identifier that clashes; the broken rule, 1 to 5 */
    uint64_t event;    /* HOOKUP_BREAKS: the event, the states and the observer of the break, as in struct hookup_explanation */
    uint64_t s;
    uint64_t t;
    uint64_t u;
    uint64_t observer;
    uint64_t zero;     /* always 0 */
};

#define HOOKUP_GIVES 0   /* the call is done */
#define HOOKUP_REFUSED 1 /* it is refused, other than with HOOKUP_CLASH */
#define HOOKUP_CLASHES 2 /* of Hookup: it is refused with HOOKUP_CLASH */
#define HOOKUP_BREAKS 3  /* of Load: the record breaks a rule */

/* Makes the calls of a script on a shelf, one after the other, and writes the answer of each.
 *
 * A shelf is any bytes. Records stand on it one behind the other from its first byte on, then the end record, HOOKUP_HEADER zero bytes; what
 * stands behind that means nothing. The number of a part is the number of records before it. The length in its header leads from a record to
 * the next, whatever its kind, and no more of it is looked at until Hookup names it.
 *
 * A script is calls, one behind the other up to its last byte, with numbers of four bytes, lowest first:
 *   HOOKUP_CLEAR_CALL
 *   HOOKUP_LOAD_CALL, the length of a record, and so many bytes, whichever they are
 *   HOOKUP_HOOKUP_CALL, the numbers i and j of two parts, which may be the same
 * The first call finds the shelf as it is, so that several runs on a shelf are as one with all their calls. A shelf begins its life with a
 * Clear, whatever its bytes are. Once that is done, and as long as nothing else writes to the shelf, it has an end record, each record on it
 * passes, and neither HOOKUP_NO_END nor HOOKUP_UNFIT comes.
 *
 * Answers HOOKUP_RAN if the calls were made, whatever they answered. answers then begins with a struct hookup_answer of HOOKUP_ANSWER bytes
 * for each, so that an array of these can be lent as bytes; the bytes behind the last stay as they were. Otherwise no byte of the shelf or
 * of answers changes, and the answer is the first of these that applies:
 *   HOOKUP_MALFORMED, where something else than a call stands in the script, or its end cuts a call off
 *   HOOKUP_NO_ROOM, where answers has fewer than HOOKUP_ANSWER bytes for each call
 *
 * A call answers the first of these that applies, and then changes no byte of the shelf:
 *   Clear   HOOKUP_NO_END, where the shelf has fewer than HOOKUP_HEADER bytes
 *   Load    HOOKUP_NO_END; what hookup_check says of the record, where it does not pass; HOOKUP_NO_ROOM
 *   Hookup  HOOKUP_NO_END; HOOKUP_NO_PART for i, then for j; HOOKUP_UNFIT for i, then for j; HOOKUP_OBSERVERS_DIFFER, HOOKUP_CLASH,
 *           HOOKUP_TOO_LARGE; HOOKUP_NO_ROOM
 * Otherwise Clear lays an end record over the first bytes of the shelf. Load lays the record over the end record and a new end record behind
 * it; Hookup does so with the joined record of i and j. HOOKUP_NO_ROOM says that these do not fit. All other bytes of the shelf stay as they
 * were.
 *
 * No two of script, shelf and answers may overlap, empty ones apart. A pointer may be null only where its length is 0, and none has to be
 * aligned. The call reads and writes nothing else, keeps nothing, takes no lock, and may be made by several threads at once, as long as no
 * two use the same shelf. It needs less than 48 KB of stack: 39,312 bytes were measured on full records, 42,448 on a first call. */
uint32_t hookup_run(const uint8_t *script, size_t len, uint8_t *shelf, size_t shelflen, uint8_t *answers, size_t answerslen);

/* Counts the records on a shelf, whether they pass or not.
 *
 * Answers HOOKUP_COUNTED, and the first HOOKUP_COUNT bytes of out then are their number, lowest byte first, on x86-64 a uint64_t. Otherwise
 * nothing is written, and the answer is the first of these that applies:
 *   HOOKUP_NO_END
 *   HOOKUP_NO_ROOM, which never comes where out has HOOKUP_COUNT bytes
 * The bytes of out behind the number stay as they were.
 *
 * Any bytes are taken as a shelf. out may not overlap it. A pointer may be null only where its length is 0, and none has to be aligned. The
 * call reads and writes nothing else, keeps nothing, takes no lock, and may be made by several threads at once, on one shelf too as long as
 * nothing writes to it. It needs less than 1 KB of stack: 32 bytes were measured. */
uint32_t hookup_count(const uint8_t *shelf, size_t len, uint8_t *out, size_t outlen);

/* What hookup_part writes: two numbers of eight bytes, lowest byte first, as they lie in memory on x86-64. */
struct hookup_place {
    uint64_t place;  /* the place of the record's first byte on the shelf, counted from 0 */
    uint64_t length; /* the bytes of the record, header and body */
};

/* Finds the record of part i on a shelf, whether it passes or not.
 *
 * Answers HOOKUP_FOUND, and the first HOOKUP_PLACE bytes of out then are a struct hookup_place; all of the record lies on the shelf. Otherwise
 * nothing is written, and the answer is the first of these that applies:
 *   HOOKUP_NO_END
 *   HOOKUP_NO_PART
 *   HOOKUP_NO_ROOM, which never comes where out has HOOKUP_PLACE bytes
 * The bytes of out behind the two numbers stay as they were. The call walks over all records; the next record begins where one ends.
 *
 * Shelf, pointers and threads are as for hookup_count. It needs less than 1 KB of stack: 40 bytes were measured. */
uint32_t hookup_part(const uint8_t *shelf, size_t len, size_t i, uint8_t *out, size_t outlen);

#ifdef __cplusplus
}
#endif

#endif
