/*
 * A plan as text. No function of the library opens a plan, so its blocks are read here, by docs/FORMAT.md.
 * Whether the plan is right is not asked: only bytes that are there are looked at, and they are told as they
 * are.
 */
#include "plan_text.h"

#include <inttypes.h>
#include <stdlib.h>

enum { BLOCK = 512, HEAD = 8, SUMMED = 508 };
enum { PLAN_KIND = 5, FLAG_KIND = 6, COUNT_KIND = 7, POINT_KIND = 8 };
enum { PLAN_SIZE = 20, FLAG_SIZE = 8, COUNT_SIZE = 2, POINT_SIZE = 6 };

/* The entries of one kind, as they stand in the file: where each of them begins. */
struct entries {
    const uint8_t **start;
    size_t count;
};

struct plan {
    struct entries headers, flags, counts, points;
};

static uint64_t number_at(const uint8_t *bytes, size_t size)
{
    uint64_t value = 0;
    while (size > 0) {
        size -= 1;
        value = value * 256 + bytes[size];
    }
    return value;
}

static uint32_t number16(const uint8_t *bytes)
{
    return (uint32_t)number_at(bytes, 2);
}

static uint32_t number32(const uint8_t *bytes)
{
    return (uint32_t)number_at(bytes, 4);
}

bool looks_like_plan(const struct bytes *file)
{
    return file->length > 0 && file->start[0] == PLAN_KIND;
}

/* --- the blocks */

static size_t entry_size(const uint8_t *block)
{
    switch (block[0]) {
    case PLAN_KIND:
        return PLAN_SIZE;
    case FLAG_KIND:
        return FLAG_SIZE;
    case COUNT_KIND:
        return COUNT_SIZE;
    case POINT_KIND:
        return POINT_SIZE;
    default:
        return 0;
    }
}

static struct entries *entries_of(struct plan *plan, const uint8_t *block)
{
    switch (block[0]) {
    case PLAN_KIND:
        return &plan->headers;
    case FLAG_KIND:
        return &plan->flags;
    case COUNT_KIND:
        return &plan->counts;
    default:
        return &plan->points;
    }
}

/* As many entries as a block says that it holds, and has room for. */
static size_t entries_in(const uint8_t *block)
{
    size_t size = entry_size(block);
    size_t most = size == 0 ? 0 : (SUMMED - HEAD) / size;
    size_t count = number16(block + 2);
    return count < most ? count : most;
}

static void add_block(struct plan *plan, const uint8_t *block)
{
    size_t count = entries_in(block);
    struct entries *entries = entries_of(plan, block);
    for (size_t i = 0; i < count; i++) {
        entries->start[entries->count++] = block + HEAD + i * entry_size(block);
    }
}

/* Room for the entries of each kind, as many as the file's blocks have. */
static struct plan plan_of(const struct bytes *file)
{
    struct plan plan = {{NULL, 0}, {NULL, 0}, {NULL, 0}, {NULL, 0}};
    struct entries *const all[] = {&plan.headers, &plan.flags, &plan.counts, &plan.points};
    for (size_t at = 0; at + BLOCK <= file->length; at += BLOCK) {
        entries_of(&plan, file->start + at)->count += entries_in(file->start + at);
    }
    for (size_t i = 0; i < sizeof all / sizeof *all; i++) {
        all[i]->start = take_memory(all[i]->count, sizeof *all[i]->start);
        all[i]->count = 0;
    }
    for (size_t at = 0; at + BLOCK <= file->length; at += BLOCK) {
        add_block(&plan, file->start + at);
    }
    return plan;
}

static void free_plan(struct plan *plan)
{
    free(plan->headers.start);
    free(plan->flags.start);
    free(plan->counts.start);
    free(plan->points.start);
}

/* --- the records */

static void print_header(FILE *out, const uint8_t *entry)
{
    fprintf(out,
            "plan for network %" PRIu32 " period %" PRIu32 " places %" PRIu32 " roads %" PRIu32
            " cells %" PRIu32 " borders %" PRIu32 " points %" PRIu32 "\n",
            number32(entry), number16(entry + 4), number16(entry + 6), number16(entry + 8),
            number16(entry + 10), number16(entry + 12), number32(entry + 16));
}

static void print_flags(FILE *out, size_t road, const uint8_t *entry)
{
    uint64_t flags = number_at(entry, FLAG_SIZE);
    fprintf(out, "flags of road %zu cells", road);
    for (unsigned cell = 0; cell < 64; cell++) {
        if ((flags >> cell & 1) != 0) {
            fprintf(out, " %u", cell);
        }
    }
    fprintf(out, "%s\n", flags == 0 ? " none" : "");
}

static void print_profile(FILE *out, size_t profile, uint32_t places, uint32_t points,
                          const struct town *town)
{
    fprintf(out, "profile %zu", profile);
    if (places > 0) {
        fprintf(out, " border %zu", profile / places);
        if (town != NULL) {
            fprintf(out, " = place %" PRIu32, border_place(town, (uint32_t)(profile / places)));
        }
        fprintf(out, " from place %zu", profile % places);
    }
    fprintf(out, points == 0 ? " never\n" : " points %" PRIu32 "\n", points);
}

static void print_point(FILE *out, size_t point, const uint8_t *entry)
{
    fprintf(out, "point %zu tick %" PRIu32 " travel %" PRIu32 "\n", point, number16(entry),
            number32(entry + 2));
}

/* Each profile with its points behind it; then the points that no profile has counted. */
static void print_profiles(FILE *out, const struct plan *plan, uint32_t places, const struct town *town)
{
    size_t point = 0;
    for (size_t i = 0; i < plan->counts.count; i++) {
        uint32_t points = number16(plan->counts.start[i]);
        print_profile(out, i, places, points, town);
        for (; points > 0 && point < plan->points.count; points--) {
            print_point(out, point, plan->points.start[point]);
            point += 1;
        }
    }
    if (point < plan->points.count) {
        fprintf(out, "# the points from here on belong to no profile\n");
    }
    for (; point < plan->points.count; point++) {
        print_point(out, point, plan->points.start[point]);
    }
}

void print_plan(FILE *out, const struct bytes *file, const struct town *town)
{
    struct plan plan = plan_of(file);
    for (size_t i = 0; i < plan.headers.count; i++) {
        print_header(out, plan.headers.start[i]);
    }
    for (size_t i = 0; i < plan.flags.count; i++) {
        print_flags(out, i, plan.flags.start[i]);
    }
    uint32_t places = plan.headers.count == 0 ? 0 : number16(plan.headers.start[0] + 6);
    print_profiles(out, &plan, places, town);
    free_plan(&plan);
}
