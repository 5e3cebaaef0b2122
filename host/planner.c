/* A small planner: it has the sheet B written, asks for the pass, for the reason of each struck
 * item and for a check of each slip, and says in words what came back. Then it shuts a place and a
 * leg, so that the round is refused, and puts the slip on a shelf; a later sheet is answered by the
 * shelf, without the pass. Then it has a leg that must be driven, for which the round has no time;
 * then minutes that are spent at a door, for which it has none either; and last it hands over a
 * sheet that is cut short.
 *
 *     cc host/planner.c target/staticlib/libplanner.a -o target/planner && target/planner
 */
#include "ways.h"

#include <stdio.h>

#define PLACES 4u
#define LEGS 5u
#define ITEMS (PLACES + LEGS)
#define START 0u
#define FINISH 3u

/* tail, head and minutes of each leg */
static const uint32_t legs[3 * LEGS] = { 0, 1, 4,  1, 3, 4,  0, 2, 3,  2, 3, 9,  1, 2, 1 };

static const uint32_t no_services[PLACES] = { 0 };

static uint8_t sheet[WAYS_SHEET_BYTES];
static uint8_t work[WAYS_WORK_BYTES];
static uint8_t slip[WAYS_SLIP_BYTES];
static struct ways_store shelf; /* all zero, so empty */

/* A store has this size on every machine; in C99 an array of -1 chars is what says no. */
extern char store_has_13588_bytes[sizeof(struct ways_store) == 13588 ? 1 : -1];

/* Reads a number that the library wrote, so well formed, and moves on behind it. */
static uint32_t get(const uint8_t **at) {
    uint32_t value = 0;
    unsigned shift = 0;
    while (**at & 0x80u) {
        value |= (uint32_t)(*(*at)++ & 0x7fu) << shift;
        shift += 7;
    }
    return value | (uint32_t)*(*at)++ << shift;
}

/* Has the sheet written with this limit, these marks and these service minutes, and returns its
 * length. The numbers are good and there is room, so the call is not refused. */
static size_t draw_up(uint32_t limit, const uint8_t marks[ITEMS],
                      const uint32_t services[PLACES]) {
    uint32_t number = ways_write(PLACES, LEGS, START, FINISH, limit, legs, 3 * LEGS, marks, ITEMS,
                                 services, PLACES, sheet, sizeof sheet);
    return WAYS_LENGTH(number);
}

static void print_item(uint32_t item) {
    if (item < PLACES) {
        printf("place %u", (unsigned)item);
    } else {
        const uint32_t *leg = &legs[3 * (item - PLACES)];
        printf("the leg from %u to %u of %u minutes", (unsigned)leg[0], (unsigned)leg[1],
               (unsigned)leg[2]);
    }
}

/* Prints the list at a slip's place and moves on behind it. */
static void print_list(const uint8_t **at, const char *before, const char *when_empty) {
    uint32_t count = get(at);
    printf("  %s", count ? before : when_empty);
    for (uint32_t i = 0; i < count; i++) {
        printf(i ? ", " : " ");
        print_item(get(at));
    }
    printf("\n");
}

/* Says what a slip of a refused round or a struck item has, and asks for a check of it. */
static void explain(size_t sheet_length, uint32_t slip_length) {
    const uint8_t *at = slip;
    get(&at);
    print_list(&at, "it needs", "any walk within the limit would do");
    print_list(&at, "because these are shut:", "because the map alone is too long");
    uint32_t answer = ways_check(sheet, sheet_length, work, sizeof work, slip, slip_length);
    printf("  check says %s\n", answer == WAYS_YES ? "yes" : "no");
}

/* Says why the pass struck an item off. */
static void print_struck(size_t sheet_length, uint32_t item) {
    printf("struck off: ");
    print_item(item);
    printf("\n");
    uint32_t number =
        ways_reason(sheet, sheet_length, work, sizeof work, slip, sizeof slip, item);
    explain(sheet_length, WAYS_LENGTH(number));
}

/* Puts the slip of a refused round on the shelf. */
static void keep(size_t sheet_length, uint32_t slip_length) {
    uint32_t number =
        ways_store_put(&shelf, sheet, sheet_length, work, sizeof work, slip, slip_length);
    printf("  %s\n", number ? "the slip is not put on the shelf" : "the slip is put on the shelf");
}

/* Asks the shelf about the sheet drawn up, and says what came back. */
static void look_up(size_t sheet_length) {
    uint32_t number = ways_store_ask(&shelf, sheet, sheet_length, slip, sizeof slip);
    if (WAYS_REFUSAL(number) != WAYS_REFUSED_NOT || WAYS_LENGTH(number) == 0) {
        printf("the shelf has no answer\n");
        return;
    }
    printf("the shelf knows that the round is refused\n");
    explain(sheet_length, WAYS_LENGTH(number));
}

/* Asks for the pass on the sheet drawn up, and says what came back. Returns the length of the slip
 * of a refused round, otherwise 0. */
static uint32_t judge(size_t sheet_length, const uint8_t marks[ITEMS]) {
    uint32_t number = ways_pass(sheet, sheet_length, work, sizeof work, slip, sizeof slip);
    if (WAYS_REFUSAL(number) != WAYS_REFUSED_NOT) {
        printf("the sheet is refused with %u\n", (unsigned)WAYS_REFUSAL(number));
        return 0;
    }
    if (slip[0] != WAYS_VERDICT_STANDS) {
        printf("the round is refused with verdict %u\n", (unsigned)slip[0]);
        explain(sheet_length, WAYS_LENGTH(number));
        return WAYS_LENGTH(number);
    }
    printf("the round stands\n");
    uint8_t left[ITEMS]; /* the marks that the pass left, since the next call takes the slip */
    for (uint32_t item = 0; item < ITEMS; item++) {
        left[item] = slip[item + 1];
    }
    for (uint32_t item = 0; item < ITEMS; item++) {
        if (marks[item] == WAYS_MARK_OPEN && left[item] == WAYS_MARK_SHUT) {
            print_struck(sheet_length, item);
        }
    }
    return 0;
}

int main(void) {
    const uint8_t all_open[ITEMS] = { WAYS_MARK_OPEN };
    const uint8_t closed[ITEMS] = { [1] = WAYS_MARK_SHUT, [5] = WAYS_MARK_SHUT };
    const uint8_t later[ITEMS] = { [2] = WAYS_MARK_MUST, [5] = WAYS_MARK_SHUT };
    const uint8_t driven[ITEMS] = { [1] = WAYS_MARK_MUST, [6] = WAYS_MARK_MUST };
    const uint32_t unloading[PLACES] = { [1] = 2 };

    printf("B, within 8 minutes\n");
    judge(draw_up(8, all_open, no_services), all_open);

    printf("\nB with place 1 and the leg from 1 to 3 shut\n");
    size_t length = draw_up(8, closed, no_services);
    keep(length, judge(length, closed));

    printf("\nB with the leg from 1 to 3 shut and place 2 must\n");
    look_up(draw_up(8, later, no_services));

    printf("\nB within 14 minutes, with place 1 and the leg from 0 to 2 must\n");
    judge(draw_up(14, driven, no_services), driven);

    printf("\nB within 8 minutes, with 2 minutes spent at the door of place 1\n");
    length = draw_up(8, all_open, unloading);
    judge(length, all_open);
    look_up(length);

    printf("\nB without its last mark\n");
    judge(draw_up(8, all_open, no_services) - 1, all_open);
    return 0;
}
