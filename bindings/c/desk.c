/* A desk of dispatch in C: reads records off tablets, keeps the later one, takes the revoked trucks away, cuts and counts the trucks of
 * each pit, offers the next truck, says which trucks were busy, and saves and loads the mask. `make run` builds and runs it. */
#include <errno.h>
#include <inttypes.h>
#include <stdio.h>
#include <stdlib.h>
#include <string.h>

#include "poruwhina.h"

#define ROOM PW_FROZEN_BYTES(512) /* for masks of at most 512 trucks */

/* A mask with the bytes that it lies in. */
typedef struct {
    pw_mask mask;
    uint8_t bytes[ROOM];
} desk_mask;

enum { SHAPE = 255 }; /* no record: none of the library's numbers */

static const char *said(uint8_t number) { return number == SHAPE ? "not a record" : pw_refusal_text(number); }

/* Reads "operator serial flags zeros hexadecimal" and imports the mask, which counts its zeros. A number that does not fit, or has a
 * sign, is no record. */
static uint8_t read_record(const char *line, uint64_t *operator_number, desk_mask *out) {
    uint64_t field[4]; /* operator, serial, flags, zeros */
    for (int i = 0; i < 4; i++) {
        char *end;
        if (*line < '0' || *line > '9') return SHAPE;
        errno = 0;
        field[i] = strtoull(line, &end, 10);
        if (errno != 0 || *end != ' ') return SHAPE;
        line = end + 1;
    }
    const size_t n = strlen(line) / 2;
    if (strlen(line) % 2 != 0 || n > ROOM || strspn(line, "0123456789abcdef") != 2 * n || field[1] > UINT32_MAX) return SHAPE;
    memset(out->bytes, 0, ROOM);
    for (size_t i = 0; i < n; i++) {
        const char pair[3] = {line[2 * i], line[2 * i + 1], 0};
        out->bytes[i] = (uint8_t)strtoul(pair, NULL, 16);
    }
    pw_mask_answer made = pw_import(out->bytes, n, 0, field[2], field[3], (uint32_t)field[1]);
    *operator_number = field[0];
    out->mask = made.mask;
    return made.refusal;
}

/* Writes a record as read_record reads it: a mask that starts at flag 0, with its zeros. */
static void write_record(FILE *file, unsigned operator_number, const desk_mask *m) {
    const size_t zeros = pw_unset_bits(m->mask, m->bytes, ROOM).zeros;
    fprintf(file, "%u %" PRIu32 " %zu %zu ", operator_number, m->mask.serial, m->mask.length, zeros);
    for (size_t i = 0; i < PW_FROZEN_BYTES(m->mask.length); i++) fprintf(file, "%02x", m->bytes[i]);
    fprintf(file, "\n");
}

static void print_runs(const char *name, pw_mask mask, const uint8_t *bytes) {
    pw_cursor runs = pw_slices_new(mask, bytes, ROOM).cursor; /* refused: a cursor over no flags */
    printf("%s: %zu trucks, serial %" PRIu32 ", runs", name, mask.length, mask.serial);
    for (pw_step_answer run = pw_cursor_slices_next(&runs, bytes, ROOM); run.found; run = pw_cursor_slices_next(&runs, bytes, ROOM))
        printf(" %" PRIu64 "+%zu", run.value, run.count);
    printf("\n");
}

/* Reads the records of operator 7 and keeps the one with the larger serial. */
static desk_mask stored_mask(void) {
    static const char *const tablets[] = {
        "7 6 40 8 ffffffff00000000", "7 7 40 8 ffff0fff0f000000", "7 7 40 0 ffffffffff000000", "7 5 40 0 ffffffffff000000",
        "9 1 40 3 ffffffff00000000", "9 1 65 0 ffffffffffffffff", "9 1 4194305 0 00", "9 1 40 8 ffffffff0000000",
        "9 1 40 -1 ffffffff00000000", "9 1 0 0 ",
    };
    desk_mask stored = {pw_bitmap_new(), {0}}, record;
    for (size_t i = 0; i < sizeof tablets / sizeof *tablets; i++) {
        uint64_t who = 0;
        const uint8_t number = read_record(tablets[i], &who, &record);
        printf("record %zu: %s\n", i, said(number));
        if (number != 0 || who != 7) continue;
        if (stored.mask.length == 0) stored = record;
        if (record.mask.length != stored.mask.length) continue; /* a mask of other trucks must not win by its serial */
        pw_part_answer winner = pw_superseding(stored.mask, stored.bytes, ROOM, record.mask, record.bytes, ROOM);
        if (winner.refusal != 0) printf("  kept: %s\n", said(winner.refusal));
        else if (winner.second) stored = record;
    }
    return stored;
}

/* Returns the mask of `trucks` trucks of which those listed, in rising order, are revoked. */
static uint8_t revoke(const size_t *gone, size_t n, size_t trucks, uint32_t serial, desk_mask *out) {
    pw_serial_builder b = pw_serial_builder_new(serial);
    uint8_t refusal = 0;
    for (size_t i = 0; i < n && refusal == 0; i++) {
        refusal = pw_serial_extend_constant(&b, out->bytes, ROOM, gone[i] - b.builder.length, false);
        if (refusal == 0) refusal = pw_serial_push(&b, out->bytes, ROOM, true);
    }
    if (refusal == 0) refusal = pw_serial_extend_constant(&b, out->bytes, ROOM, trucks - b.builder.length, false);
    if (refusal != 0) return refusal;
    pw_mask_answer made = pw_serial_freeze(&b, out->bytes, ROOM);
    out->mask = made.mask;
    return made.refusal;
}

static void print_pits(const desk_mask *allowed) {
    static const struct { const char *name; size_t first, count; } pits[] = {
        {"north", 0, 16}, {"south", 16, 14}, {"west", 30, 10}, {"past", 36, 10},
    };
    for (size_t i = 0; i < sizeof pits / sizeof *pits; i++) {
        pw_mask pit = pw_bitmap_new();
        const uint8_t refusal = pw_cut(allowed->mask, allowed->bytes, ROOM, pits[i].first, pits[i].count, &pit);
        pw_zeros_answer counted = pw_unset_bits(pit, allowed->bytes, ROOM);
        if (refusal != 0 || counted.refusal != 0) printf("%s: %s\n", pits[i].name, said(refusal != 0 ? refusal : counted.refusal));
        else printf("%s: %zu of %zu\n", pits[i].name, pit.length - counted.zeros, pit.length);
    }
}

/* Offers three trucks, round and round, of those permitted and not revoked. */
static void print_offers(const desk_mask *permission, const desk_mask *revocation) {
    size_t cursor = 30;
    for (int i = 0; i < 3; i++) {
        pw_offer_answer o = pw_offer(true, permission->mask, permission->bytes, ROOM, true, revocation->mask, revocation->bytes, ROOM,
            cursor);
        if (o.refusal != 0 || !o.found) { printf("no offer: %s\n", said(o.refusal)); return; }
        printf("offer %zu\n", o.truck);
        cursor = o.cursor;
    }
    pw_flag_answer none = pw_may_reassign(false, pw_bitmap_new(), NULL, 0, true, revocation->mask, revocation->bytes, ROOM, 0);
    printf("with no permission mask: %d\n", none.value);
}

static void print_busy(void) {
    static uint64_t words[256];
    uint32_t counts[64], busy[64];
    static const uint64_t minutes[] = {5, 1, 3, 2}; /* truck j is bit j */
    pw_window_answer w = pw_activity_new(words, counts, 3);
    for (size_t i = 0; i < 4 && w.refusal == 0; i++) w = pw_activity_push_minute(words, counts, w.place, w.fill, w.width, minutes[i]);
    if (pw_activity_counts(words, counts, w.place, w.fill, w.width, busy) == 0)
        printf("busy in the last 3 minutes: %" PRIu32 " %" PRIu32 " %" PRIu32 "\n", busy[0], busy[1], busy[2]);
    counts[0]++; /* a damaged window */
    printf("a damaged window: %s\n", said(pw_activity_counts(words, counts, w.place, w.fill, w.width, busy)));
}

/* Saves a mask to a temporary file, loads it, and compares both; then damages a byte. */
static int save_and_load(const desk_mask *m) {
    char line[2 * ROOM + 100];
    desk_mask again = {pw_bitmap_new(), {0}};
    uint64_t who = 0;
    FILE *file = tmpfile();
    if (file == NULL) return perror("save"), 1;
    write_record(file, 7, m);
    rewind(file);
    if (fgets(line, sizeof line, file) == NULL || fclose(file) != 0) return perror("load"), 1;
    line[strcspn(line, "\n")] = 0;
    printf("loaded: %s, ", said(read_record(line, &who, &again)));
    printf("the same: %d\n", pw_eq(again.mask, again.bytes, ROOM, m->mask, m->bytes, ROOM).value);
    again.bytes[1] ^= 0x10;
    printf("damaged: %s\n", said(pw_eq(again.mask, again.bytes, ROOM, m->mask, m->bytes, ROOM).refusal));
    return 0;
}

int main(void) {
    static const size_t gone[] = {3, 5, 31};
    const desk_mask stored = stored_mask();
    desk_mask revoked = {pw_bitmap_new(), {0}}, allowed = {pw_bitmap_new(), {0}};
    print_runs("stored", stored.mask, stored.bytes);
    const uint8_t refusal = revoke(gone, 3, stored.mask.length, 8, &revoked);
    if (refusal != 0) return printf("revoked: %s\n", said(refusal)), 1;
    pw_mask_answer made = pw_and_not(stored.mask, stored.bytes, ROOM, revoked.mask, revoked.bytes, ROOM, allowed.bytes, ROOM);
    if (made.refusal != 0) return printf("and_not: %s\n", said(made.refusal)), 1;
    allowed.mask = made.mask;
    print_runs("allowed", allowed.mask, allowed.bytes);
    print_pits(&allowed);
    print_offers(&stored, &revoked);
    print_busy();
    return save_and_load(&stored);
}
