/* Job-close order check: the calls of libjob_order.a.
 *
 * What each call promises is proved for every input (docs/CONTRACTS.md, job_order). What the caller owes:
 * - a pointer with a length is to that many elements, which stay there during the call; it is not null, also where the length is 0;
 * - a pointer to one number is to a number of that type, and is not null;
 * - what a call may write (any pointer without const) overlaps nothing else that the same call is given.
 * Nothing is allocated and no state is kept between calls, so calls over different memory may run at the same time.
 * Stack, everything included: reading 1.6 KB, filling 6.9, a list 9.2, the pair question 8.1, the order question 5.8, the compactor 5.6. Where a record
 * is a send, a table of 70 KB comes on top: 75, 79, 80, 81, 78 and 79; in the recorder's step only where a link may put an event that is to begin behind
 * another.
 *
 * The result of each call is 0, or the number of a refusal. Numbers that a call gives through pointers are written in every case. place is the number of the
 * record that a refusal concerns, 0 where it concerns none or nothing is refused; the others, a recorder's state apart, are 0 after a refusal. Memory that a
 * refusal is not said to change is unchanged after it.
 */
#ifndef JOB_ORDER_H
#define JOB_ORDER_H

#include <stddef.h>
#include <stdint.h>

#ifdef __cplusplus
extern "C" {
#endif

/* Refusals because of the input: 4 to 8 and 31 concern the record under test, 9 the last record. */
enum {
    JCO_OK = 0,
    JCO_NO_TRAILER = 1,    /* fewer than 8 bytes, or last byte not hex A7 */
    JCO_EDITION = 2,       /* edition not 1 */
    JCO_DISTANCE = 3,      /* distance not a multiple of 5, above 20,480, or more than the bytes before the trailer */
    JCO_UNKNOWN_KIND = 4,  /* kind not 1 to 6 and not 16 to 19 */
    JCO_IDENTIFIER = 5,    /* event or cell not 1 to 1,024, or second of a begin or end not 0 */
    JCO_OUT_OF_PLACE = 6,  /* out of place, or first is not the open or joining event */
    JCO_BEGUN_ALREADY = 7, /* begin or join of an event that has begun already, or fork or send to one */
    JCO_NOT_ENDED = 8,     /* join of an event that has not ended */
    JCO_STOPS_INSIDE = 9,  /* the trace stops inside an event action or after a join */
    JCO_BEGIN_COUNT = 10,  /* begins differ from the trailer's number */
    JCO_NOT_IN_TRACE = 11, /* an event asked about has no begin, or a record asked about is not there */
    JCO_NO_RACE = 12,      /* the two records asked about are no race, first then second */
    JCO_TOO_LONG = 13,     /* more than 32,768 bytes: given by the trace program, by no call */
    JCO_BEHIND = 31        /* begin of an event that a link puts behind another target that has not begun; follows 7 */
};

/* Refusals because of the state: they follow those of the input, but 26, which is first, and 12, which stands between 23 and 24. */
enum {
    JCO_CLOCK_SPACE = 21, /* width not 1 to 1,024, or fewer clocks than event actions x width */
    JCO_WORK_SPACE = 22,  /* fewer work bytes than event actions */
    JCO_CHAINS = 23,      /* more chains needed than the width; place is the begin that needs one */
    JCO_LIST_SPACE = 24,  /* list space for fewer entries than the list has, or, in the pair question, than there are event actions;
                             or, in the compactor, output space for less than the slim trace */
    JCO_NO_SPACE = 25,    /* recorder: 4,096 records stored, or no space left for the record and a trailer */
    JCO_CLOSED = 26       /* recorder: closed already */
};

/* Kinds of record. A send is a fork on one of four links, which deliver in the order sent: where one send happens before another on the same link, the
 * first's target happens before the second's. */
enum { JCO_KIND_BEGIN = 1, JCO_KIND_END = 2, JCO_KIND_FORK = 3, JCO_KIND_JOIN = 4, JCO_KIND_READ = 5, JCO_KIND_WRITE = 6 };
enum { JCO_KIND_SEND_0 = 16, JCO_KIND_SEND_1 = 17, JCO_KIND_SEND_2 = 18, JCO_KIND_SEND_3 = 19 };

/* An entry of a list is five numbers: first record, second record, cell, shape (first access, then second), mark. One of the pair question is two. */
enum { JCO_LIST_ENTRY = 5, JCO_PAIR_ENTRY = 2 };
enum { JCO_SHAPE_WW = 1, JCO_SHAPE_WR = 2, JCO_SHAPE_RW = 3 };
enum { JCO_MARK_COVERED = 0, JCO_MARK_OPEN = 1 };

/* What the order question gives. */
enum { JCO_SAME = 1, JCO_BEFORE = 2, JCO_AFTER = 3, JCO_UNORDERED = 4 };

/* The most that a trace holds. */
enum { JCO_MOST_EVENTS = 1024, JCO_MOST_RECORDS = 4096 };

/* Reads the trace that the bytes end with; bytes before record 1 are the caller's own. Refuses with 1 to 10 and 31. start is where record 1 starts in the
 * bytes, events the number of event actions. */
uint16_t jco_read(const uint8_t *bytes, size_t bytes_length, uint16_t *place, size_t *start, size_t *records, size_t *events);

/* Fills the clocks with one row of width numbers for each event action, in order of begin. Refuses with 1 to 10, 31, 21, 23. After 23 the first event
 * actions x width clocks are 0. Clocks past the rows are unchanged in every case. */
uint16_t jco_fill(const uint8_t *bytes, size_t bytes_length, size_t width, uint16_t *clocks, size_t clocks_length, uint16_t *place, size_t *chains);

/* Which way round do the actions of events t and u stand? relation is JCO_SAME, JCO_BEFORE (t happens before u), JCO_AFTER (u happens before t) or
 * JCO_UNORDERED (neither), and 0 after a refusal: exactly that over clocks that were filled for these bytes and this width, and over any others the
 * comparison of their rows, where equal events are the same and JCO_BEFORE is told if both orders would be. Refuses with 1 to 10, 31, 11, 21, 23. */
uint16_t jco_order(const uint8_t *bytes, size_t bytes_length, size_t width, const uint16_t *clocks, size_t clocks_length, uint16_t t, uint16_t u,
                   uint16_t *place, uint8_t *relation);

/* The list of all races, and the short list: count entries of JCO_LIST_ENTRY numbers from the start of the list space, ordered by second record, then
 * first. list_length counts numbers. Refuse with 1 to 10, 31, 21, 22, 23, 24. After success and after 24 the clocks are filled as by jco_fill, after 23 they
 * are 0 over event actions x width; after all three the work space is 0 over one byte for each event action. Clocks past the rows and work bytes past
 * the event actions are unchanged. The list space is unchanged past the entries, and after a refusal all of it. */
uint16_t jco_all_races(const uint8_t *bytes, size_t bytes_length, size_t width, uint16_t *clocks, size_t clocks_length, uint8_t *work, size_t work_length,
                       uint16_t *list, size_t list_length, uint16_t *place, size_t *events, size_t *records, size_t *chains, size_t *count);
uint16_t jco_short_list(const uint8_t *bytes, size_t bytes_length, size_t width, uint16_t *clocks, size_t clocks_length, uint8_t *work, size_t work_length,
                        uint16_t *list, size_t list_length, uint16_t *place, size_t *events, size_t *records, size_t *chains, size_t *count);

/* Asks about the race of records a and b, numbered from 1, a first. Open (covered is 0): count entries (event, last record kept), the event actions of
 * an arrangement that runs b without a, in trace order. Covered (covered is 1): count entries (first, second), races of the trace that cover the pair,
 * in order. An entry is JCO_PAIR_ENTRY numbers. Refuses with 1 to 10, 31, 11, 21, 22, 23, 12, 24. Clocks, work space and list space are left as by a list,
 * after 12 as after 24. */
uint16_t jco_ask_pair(const uint8_t *bytes, size_t bytes_length, size_t width, uint16_t *clocks, size_t clocks_length, uint8_t *work, size_t work_length,
                      uint16_t *list, size_t list_length, uint16_t a, uint16_t b, uint16_t *place, uint8_t *covered, size_t *count);

/* Writes the slim trace of the trace that the bytes end with, from the first byte of out on, with nothing before its record 1: per event action and cell
 * the first read and the first write, and every other record. length is that of the slim trace in bytes, dropped the number of records left out. The
 * slim trace has the same cells with an open race, and the same combinations of first event action and second access among its open races; compacting it
 * drops 0. Refuses with 1 to 10, 31, 24. out is unchanged past the slim trace, and after a refusal all of it. As many bytes as the trace has from its record
 * 1 on are always enough. */
uint16_t jco_compact(const uint8_t *bytes, size_t bytes_length, uint8_t *out, size_t out_length, uint16_t *place, size_t *length, size_t *dropped);

/* The recorder writes a trace into the space from its first byte on. Its state is four numbers, which the caller keeps and lends to each call; closed is
 * 0 where the recorder is open, anything else where it is closed. No state and no content of the space leads to a fault. If nobody else altered the
 * space and the numbers meanwhile, what is closed is a trace of the steps taken, which jco_read accepts. */

/* Opens a recorder over the space, whose bytes are unchanged; closed becomes 0. Refuses with 25 (fewer than 8 bytes); the recorder is then closed, 1. */
uint16_t jco_recorder_open(const uint8_t *space, size_t space_length, uint16_t *count, uint8_t *situation, uint16_t *owner, uint8_t *closed);

/* Stores one record after those before it; no other byte of the space changes. Refuses with 26, 4 to 8 and 31 (place is the number that the record would
 * have had), 25; the space and all four numbers are then unchanged. */
uint16_t jco_recorder_step(uint8_t *space, size_t space_length, uint16_t *count, uint8_t *situation, uint16_t *owner, uint8_t *closed, uint8_t kind,
                           uint16_t first, uint16_t second, uint16_t *place);

/* Stores the trailer after the records; length is that of the whole trace, from the first byte of the space, and closed becomes 1. Refuses with 26, 9
 * (place is the last record), 25; the space and all four numbers are then unchanged. */
uint16_t jco_recorder_close(uint8_t *space, size_t space_length, uint16_t *count, uint8_t *situation, uint16_t *owner, uint8_t *closed, uint16_t *place,
                            size_t *length);

/* A recorder with the space that it writes into, for the three calls above. */
typedef struct jco_recorder {
    uint8_t *space;
    size_t space_length;
    uint16_t count;
    uint8_t situation;
    uint16_t owner;
    uint8_t closed;
} jco_recorder;

static inline uint16_t jco_open(jco_recorder *r, uint8_t *space, size_t space_length)
{
    r->space = space;
    r->space_length = space_length;
    return jco_recorder_open(space, space_length, &r->count, &r->situation, &r->owner, &r->closed);
}

static inline uint16_t jco_step(jco_recorder *r, uint8_t kind, uint16_t first, uint16_t second, uint16_t *place)
{
    return jco_recorder_step(r->space, r->space_length, &r->count, &r->situation, &r->owner, &r->closed, kind, first, second, place);
}

static inline uint16_t jco_close(jco_recorder *r, uint16_t *place, size_t *length)
{
    return jco_recorder_close(r->space, r->space_length, &r->count, &r->situation, &r->owner, &r->closed, place, length);
}

#ifdef __cplusplus
}
#endif

#endif
