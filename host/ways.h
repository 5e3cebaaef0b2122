/* The ways pass, for a planner in C: seven functions over memory that the caller lends.
 *
 * A sheet is a map of places and one-way legs with minutes, a start, a finish, a limit in minutes,
 * and a mark for each item: open, must or shut. Items are numbered once: the n places 0 to n - 1,
 * then the m legs n to n + m - 1. A walk is a chain of legs from start to finish; it may pass a
 * place twice. It is clear of an item that it neither uses nor touches, and meets one that it uses
 * or touches; to touch both ends of a leg is not to use it. Counted items are the must legs, and
 * the must places that are neither start, finish nor an end of a must leg. A walk that meets them
 * all meets all must items.
 *
 * A place may have service minutes, 0 to 600: what is spent at its door. Each touch of the place
 * adds them to a walk, but for the touch that the walk begins with. So a walk takes the minutes of
 * its legs, and for each leg the service minutes of the leg's head: those of the finish each time
 * that it comes there, those of the start only where it comes by the start again, and those of a
 * place that it passes twice two times. This is the length that is held against the limit.
 *
 * Numbers in a sheet or a slip are written in groups of seven bits, lowest group first, the high
 * bit of a byte set when another group follows: one to four groups, shortest form only.
 *
 *   sheet   n, m, start, finish, limit; tail, head, minutes of each leg; n place marks; m leg marks
 *           (the old form), or 1, all of these, and n service numbers (the new form)
 *   slip    of a round that stands:    0, n place marks, m leg marks
 *           of a refused round or a    the verdict 1 to 3, or 4 for a struck item; the count of
 *           struck item:               goals, the goals; the count of reasons, the reasons
 *                                      (both lists ascending)
 *
 * The first number of a sheet tells its form, since no n is 1. In the old form no place has service
 * minutes, and where none has any this form alone is taken.
 *
 * The reasons are shut items of the sheet: no walk clear of them, all else open, meets the goals
 * within the limit, and for each of them some walk does once it is open as well.
 *
 * A shelf keeps slips of refused rounds for later sheets of the same map, service minutes, start
 * and finish, so that a planner need not have the same refusal worked out day after day. It is a
 * struct ways_store that the caller has and lends: ways_store_put, ways_store_ask and
 * ways_store_empty.
 *
 * docs/FORMATS.md has sheet and slip at length, with examples.
 *
 * What holds of every function:
 *
 *   - It takes any bytes and any lengths, always returns, and reads and writes nothing outside what
 *     it is lent. What it is lent need not hold anything in particular. Bytes need not be aligned;
 *     the legs and services of ways_write and a struct ways_store have to be aligned as uint32_t
 *     is, to four bytes.
 *   - A pointer must be good for as many bytes as its length says, or as many numbers as its count
 *     says, or for a struct ways_store, and not null even where a length or count is 0. The lent
 *     parts must not overlap.
 *   - It uses what it is lent and nothing else: no heap, no file, no errno, no locale. What the
 *     shelf's functions keep between calls is in the store that they are lent; the other four keep
 *     nothing. So calls with different buffers and stores may run at the same time.
 *   - It needs up to WAYS_STACK_BYTES of its thread's stack, and ways_store_put up to
 *     WAYS_STORE_STACK_BYTES.
 *   - The number returned is 65,536 times the refusal, plus the length of the slip or sheet that
 *     was written, or for ways_check plus 1 for yes. A refused call gives length 0, or no.
 *     WAYS_REFUSAL and WAYS_LENGTH take the number apart. ways_store_empty returns nothing.
 */
#ifndef WAYS_H
#define WAYS_H

#include <stddef.h>
#include <stdint.h>

#ifdef __cplusplus
extern "C" {
#endif

/* The version of this header and of the answers it describes: 100 times the first number plus the
 * second, so 400 is 4.0. CHANGELOG.md says what each version changed. */
#define WAYS_VERSION 400

#define WAYS_WORK_BYTES 65536u /* what the work must have */
#define WAYS_SLIP_BYTES 1200u  /* what the slip of pass, reason and ask must have */
#define WAYS_SHEET_BYTES 3273u /* the longest sheet; in the old form 3,144 */
#define WAYS_STORE_SLIPS 64u   /* the most slips on a shelf */
#define WAYS_STORE_ITEMS 24u   /* the most goals and reasons together of a slip on a shelf */

/* A thread with a stack of the first size can make any call but ways_store_put, with one of the
 * second size that one too: what the largest sheets need, and a margin for the caller's own frames.
 * The host's tests make their calls on such sheets in threads of these sizes. */
#define WAYS_STACK_BYTES 65536u
#define WAYS_STORE_STACK_BYTES 131072u

/* The mark of an item, in a sheet and in the slip of a round that stands. */
enum ways_mark {
    WAYS_MARK_OPEN = 0, /* a round may meet it */
    WAYS_MARK_MUST = 1, /* a round has to meet it */
    WAYS_MARK_SHUT = 2  /* a round has to be clear of it */
};

/* The first number of a slip. ways_pass writes 0 to 3, ways_reason 4, ways_check takes 1 to 4. A
 * shelf keeps 1 to 3, and ways_store_ask hands them back. */
enum ways_verdict {
    /* The round stands. The slip has the marks, with each open item shut that no walk clear of the
     * shut items meets within the limit; then each place that is still open and is start, finish or
     * an end of a must leg becomes must. */
    WAYS_VERDICT_STANDS = 0,
    /* No walk clear of the shut items keeps to the limit. No goal. */
    WAYS_VERDICT_NO_WALK = 1,
    /* The goal is a must item that no such walk meets, the lowest. */
    WAYS_VERDICT_ITEM_UNMET = 2,
    /* The goals are the counted items, legs as well as the stops of the name: no such walk meets
     * them all. */
    WAYS_VERDICT_STOPS_UNMET = 3,
    /* Not a verdict on the round: the goal is an item that the pass strikes off. */
    WAYS_VERDICT_ITEM_STRUCK = 4
};

/* Why a call was refused. They are judged in this order, 3 to 11 number by number as the sheet is
 * read: a number is read to its end, then judged, and then the next is begun. Badly written, it
 * draws 4 at the byte that makes it so, whatever stands behind. The last service number draws 11
 * where all of them are 0, so before 12. ways_write judges the same numbers in the same order, but
 * that 3 comes behind 8 and that service minutes may all be 0. Which call draws which:
 *
 *   ways_pass       1 to 13
 *   ways_reason     1 to 13, 15, 16
 *   ways_check      1, 3 to 13, 17, 18
 *   ways_write      5 to 8, then 3, then 9 to 11, 13, 19
 *   ways_store_put  1, 3 to 13, 17, 18, 20, 22, 23
 *   ways_store_ask  2 to 13, 22
 */
enum ways_refusal {
    WAYS_REFUSED_NOT = 0,            /* the call finished */
    WAYS_REFUSED_WORK_SHORT = 1,     /* the work has under 65,536 bytes */
    WAYS_REFUSED_SLIP_SHORT = 2,     /* pass, reason, ask: the slip has under 1,200 bytes */
    WAYS_REFUSED_SHEET_ENDS = 3,     /* the sheet ends before its last number does; write: a list is
                                      * shorter or longer than n and m say */
    WAYS_REFUSED_NUMBER = 4,         /* over four groups, or a needless last group of zero */
    WAYS_REFUSED_PLACES = 5,         /* n is not 2 to 64: the first number, or where that is 1 the
                                      * second */
    WAYS_REFUSED_LEGS = 6,           /* m is over 512 */
    WAYS_REFUSED_START_FINISH = 7,   /* start or finish is no place, or they are the same */
    WAYS_REFUSED_LIMIT = 8,          /* the limit is over 1,000,000 */
    WAYS_REFUSED_LEG_ENDS = 9,       /* a leg's end is no place, or its head is its tail */
    WAYS_REFUSED_MINUTES = 10,       /* a leg's minutes are over 65,535 */
    WAYS_REFUSED_MARK = 11,          /* a mark is over 2; service minutes are over 600; in the new
                                      * form all service minutes are 0 */
    WAYS_REFUSED_BYTES_LEFT = 12,    /* bytes remain behind the last number */
    WAYS_REFUSED_STOPS = 13,         /* there are over eight counted items, legs as well as stops */
    WAYS_REFUSED_NO_ITEM = 15,       /* reason: there is no such item */
    WAYS_REFUSED_NOT_STRUCK = 16,    /* reason: the pass on this sheet does not strike the item */
    WAYS_REFUSED_SLIP_FORM = 17,     /* check, put: the slip ends early, has a badly written number,
                                      * a first number not 1 to 4, or bytes left over */
    WAYS_REFUSED_SLIP_LISTS = 18,    /* check, put: an unknown item; goals or reasons not strictly
                                      * ascending; or a goal count not 0, 1, 1 to 8, 1 for first
                                      * numbers 1, 2, 3, 4 */
    WAYS_REFUSED_SHEET_SHORT = 19,   /* write: the slice is shorter than the sheet */
    WAYS_REFUSED_NOT_SHELVABLE = 20, /* put: check says no to the slip, its first number is 4, or it
                                      * has over 24 goals and reasons together */
    WAYS_REFUSED_OTHER_MAP = 22,     /* put, ask: the sheet has another map, other service minutes,
                                      * another start or finish than the slips on the shelf */
    WAYS_REFUSED_STORE_FULL = 23     /* put: no slip on the shelf covers the newcomer, and 64 remain
                                      * that it does not cover */
};

/* The parts of the number that a call returns: an enum ways_refusal, and the length of the slip or
 * sheet that was written or, of ways_check, WAYS_YES or WAYS_NO. */
#define WAYS_REFUSAL(number) ((uint32_t)(number) >> 16)
#define WAYS_LENGTH(number) ((uint32_t)(number) & 0xffffu)

/* What a finished ways_check returns. */
#define WAYS_YES 1u
#define WAYS_NO 0u

/* Judges a sheet: writes the slip with its verdict.
 *
 * Returns 65,536 times the refusal (1 to 13), or the slip's length, at least 3 and under 1,200.
 *
 *   sheet   is only read.
 *   work    Refused: as it was. Finished: its first 65,536 bytes are zero, the bytes beyond those
 *           are as they were. What it holds before has no effect.
 *   slip    Refused: as it was. Finished: the slip is at its front, the bytes behind it are as they
 *           were. What it holds before has no effect.
 */
uint32_t ways_pass(const uint8_t *sheet, size_t sheet_len, uint8_t *work, size_t work_len,
                   uint8_t *slip, size_t slip_len);

/* Says why the pass on this sheet strikes an item off: writes the slip with first number 4, the
 * item as its only goal, and the reasons.
 *
 * An item is struck off when the verdict is 0, the sheet has it open, and no walk clear of the shut
 * items meets it within the limit.
 *
 * Returns 65,536 times the refusal (1 to 13, 15, 16), or the slip's length, at least 4 and under
 * 1,200.
 *
 *   sheet   is only read.
 *   work    Refused 1 to 13: as it was. Refused 15, 16 or finished: its first 65,536 bytes are
 *           zero. Bytes beyond those are as they were. What it holds before has no effect.
 *   slip    Refused: as it was. Finished: the slip is at its front, the bytes behind it are as they
 *           were. What it holds before has no effect.
 *   item    Any number; 15 if the sheet has no such item.
 */
uint32_t ways_reason(const uint8_t *sheet, size_t sheet_len, uint8_t *work, size_t work_len,
                     uint8_t *slip, size_t slip_len, uint32_t item);

/* Judges a slip with first number 1 to 4, whoever wrote it, against a sheet.
 *
 * Yes exactly when every reason is shut on the sheet; the goals are must (first number 2), counted
 * items (3), open (4); and no walk clear of the reasons, all else open, meets the goals within the
 * sheet's limit. So it says no to a 3 that names a must place which is start, finish or an end of a
 * must leg, or any item that is not must. It does not ask what the sheet's verdict is, nor whether
 * the goals of a 3 are all the counted items, nor whether a reason could be left out. It says yes
 * to each slip that ways_pass (verdict 1 to 3) and ways_reason write for the sheet.
 *
 * Returns 65,536 times the refusal (1, 3 to 13, 17, 18), or WAYS_YES or WAYS_NO.
 *
 *   sheet   is only read.
 *   work    Refused 1 or 3 to 13: as it was. Refused 17, 18 or finished: its first 65,536 bytes are
 *           zero. Bytes beyond those are as they were. What it holds before has no effect.
 *   slip    is only read. It may have any length.
 */
uint32_t ways_check(const uint8_t *sheet, size_t sheet_len, uint8_t *work, size_t work_len,
                    const uint8_t *slip, size_t slip_len);

/* Writes a sheet from its numbers, each in its shortest form: in the old form where all service
 * minutes are 0, otherwise in the new one. The other calls read what it wrote as the same numbers;
 * and the numbers of a sheet that they take, written by it, give that sheet's bytes again.
 *
 * The numbers are judged as a sheet's are, in the sheet's order: n (5), m (6), start and finish
 * (7), limit (8); then that the lists have the lengths that n and m say (3); then leg by leg the
 * tail and head (9) and the minutes (10), so that the minutes of one leg are judged before the tail
 * of the next; then the marks (11), the service minutes (11), the counted items (13), and last the
 * room (19). Any numbers may be handed over: one too great for a sheet draws its own 5 to 11. No
 * other refusal is drawn.
 *
 * Returns 65,536 times the refusal, or the sheet's length, at least 7 and at most WAYS_SHEET_BYTES.
 *
 *   n, m, start, finish, limit   are the five numbers before the legs.
 *   legs    The tail, head and minutes of each leg, one after the other: legs_count counts numbers,
 *           not legs and not bytes, and has to be 3 times m. Aligned as uint32_t is. Only read.
 *   marks   The marks of the n places, then of the m legs, a byte each: marks_len has to be n + m.
 *           Only read.
 *   services   The service minutes of each place: services_count counts numbers, not bytes, and has
 *           to be n. Aligned as uint32_t is. Only read.
 *   sheet   Refused: as it was. Finished: the sheet is at its front, the bytes behind it are as
 *           they were. What it holds before has no effect. It need not be longer than the sheet
 *           that is written; WAYS_SHEET_BYTES are always enough.
 */
uint32_t ways_write(uint32_t n, uint32_t m, uint32_t start, uint32_t finish, uint32_t limit,
                    const uint32_t *legs, size_t legs_count, const uint8_t *marks,
                    size_t marks_len, const uint32_t *services, size_t services_count,
                    uint8_t *sheet, size_t sheet_len);

/* A slip on a shelf. */
struct ways_slot {
    uint32_t first;                   /* its first number, 1 to 3 */
    uint32_t limit;                   /* the limit of the sheet that it was put with */
    uint32_t goals;                   /* how many goals it has */
    uint32_t reasons;                 /* how many reasons it has */
    uint32_t items[WAYS_STORE_ITEMS]; /* the goals, and behind them the reasons */
};

/* A shelf: 13,588 bytes that the caller has. Treat it as closed; begin with ways_store_empty or all
 * zero; one store, one thread at a time. The fields are here so that C knows the size, and for
 * whoever looks for a fault. It may be copied as any struct is.
 *
 * With count 0 it is empty, whatever else it holds. What the calls promise, they promise of a store
 * that was empty once and that only they have changed since. Any other bytes may be lent as well:
 * no count is trusted, the store is read as a shelf of at most 64 slips of at most 24 items and of
 * at most 512 legs and 64 places, and the calls stay inside their ends and return. But a slip that
 * is handed back then means nothing. A store kept from a version before 4.0 is another struct, and
 * a shorter one: begin anew.
 */
struct ways_store {
    uint32_t count;                           /* how many slips there are */
    uint32_t nodes;                           /* their map: how many places it has */
    uint32_t arcs;                            /* how many legs */
    uint32_t source;                          /* their start */
    uint32_t target;                          /* their finish */
    uint32_t legs[1536];                      /* tail, head, minutes plus head's service minutes */
    uint32_t services[64];                    /* service minutes of each place */
    struct ways_slot slots[WAYS_STORE_SLIPS]; /* the slips, earliest put first */
};

/* Puts the slip of a refused round on a shelf, with the limit of its sheet.
 *
 * The sheet and the slip have to be such that ways_check says yes; so what ways_pass wrote for the
 * sheet with verdict 1 to 3 is taken, if it has at most 24 goals and reasons together. The first
 * slip that is put on an empty shelf fixes the map, the service minutes, the start and the finish
 * of all later ones. The minutes of legs and the service minutes are compared, not their sums: it
 * does not help that every walk takes as long on another sheet.
 *
 * A slip covers another when its goals are among the other's goals, its reasons among the other's
 * reasons, and its limit is at least as great; the first numbers play no part. Wherever the other
 * applies, it does too. So a newcomer that a slip on the shelf covers is dropped: the put finishes,
 * with 0 as any other, and nothing is changed. Otherwise the slips that the newcomer covers are
 * removed, their room is used again, and the newcomer comes last. So on a shelf no slip covers
 * another, and a sheet to which some slip applied before a put has one that applies afterwards.
 *
 * Refusals are judged in this order: 1; 3 to 13 for the sheet; 17, 18 for the slip; 20; 22, which
 * an empty shelf never draws; then whether the newcomer is covered; and last 23.
 *
 * Returns 65,536 times the refusal (1, 3 to 13, 17, 18, 20, 22, 23), or 0.
 *
 *   store   Refused, or the newcomer is covered: every byte as it was. Otherwise: the shelf is as
 *           said above. Slots behind the count, and numbers behind the last leg, behind the last
 *           place's service minutes or behind the last reason of a slot, may hold anything then.
 *   sheet   is only read.
 *   work    Refused 1 or 3 to 13: as it was. Refused 17 to 23 or finished: its first 65,536 bytes
 *           are zero. Bytes beyond those are as they were. What it holds before has no effect.
 *   slip    is only read. It may have any length.
 */
uint32_t ways_store_put(struct ways_store *store, const uint8_t *sheet, size_t sheet_len,
                        uint8_t *work, size_t work_len, const uint8_t *slip, size_t slip_len);

/* Asks a shelf about a sheet: writes the earliest put slip that applies to it, if one does. Then
 * ways_pass on that sheet finishes with verdict 1, 2 or 3, though its own slip may be another. What
 * is written is the slip as it was put.
 *
 * A slip applies when each of its reasons is shut on the sheet, each of its goals is must there,
 * and the sheet's limit is no greater than the one that it was put with. That none applies says
 * nothing of the round: ask ways_pass. It needs no work and takes far less time than ways_pass on a
 * sheet with many closures.
 *
 * Refusals are judged in this order: 2; 3 to 13 for the sheet; 22, which an empty shelf never
 * draws: it has no slip, so none that applies.
 *
 * Returns 65,536 times the refusal (2 to 13, 22), or the slip's length, at least 3 and at most 51,
 * or 0 where no slip applies.
 *
 *   store   is only read.
 *   sheet   is only read.
 *   slip    Refused, or no slip applies: as it was. Otherwise: the slip is at its front, without
 *           the limit that it was put with; the bytes behind it are as they were. What it holds
 *           before has no effect.
 */
uint32_t ways_store_ask(const struct ways_store *store, const uint8_t *sheet, size_t sheet_len,
                        uint8_t *slip, size_t slip_len);

/* Makes a shelf empty: all its bytes are zero then. It is for any map, service minutes, start and
 * finish again. What the store holds before has no effect.
 */
void ways_store_empty(struct ways_store *store);

#ifdef __cplusplus
}
#endif

#endif
