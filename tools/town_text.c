/*
 * A network as text and back. The text has a line for each record: the network, its places, and each road
 * with its points behind it. Only the text's form is judged here; what it says goes to the library as it is.
 */
#include "town_text.h"

#include "words.h"

#include <inttypes.h>
#include <stdbool.h>
#include <stdlib.h>
#include <string.h>

/* --- showing */

static void print_place_line(FILE *out, const struct town *town, uint32_t place)
{
    fprintf(out, "place %" PRIu32 " cell %u", place, town->cell[place]);
    if (town->hours != 0) {
        fprintf(out, " open %u close %u", town->opens[place], town->closes[place]);
    }
    fprintf(out, "\n");
}

void print_town(FILE *out, const struct town *town)
{
    fprintf(out, "# %" PRIu32 " places, %" PRIu32 " roads, %" PRIu32 " points; a tick is half a minute\n",
            town->places, town->roads, town->points);
    fprintf(out, "network %" PRIu32 " period %" PRIu32 " cells %" PRIu32 " hours %" PRIu32 "\n",
            town->number, town->period, town->cells, town->hours);
    for (uint32_t place = 0; place < town->places; place++) {
        print_place_line(out, town, place);
    }
    uint32_t point = 0;
    for (uint32_t road = 0; road < town->roads; road++) {
        fprintf(out, "road %" PRIu32 " from %u to %u\n", road, town->from[road], town->to[road]);
        for (uint32_t end = point + town->counts[road]; point < end; point++) {
            fprintf(out, "point %" PRIu32 " tick %u travel %u\n", point, town->ticks[point],
                    town->travels[point]);
        }
    }
}

/* --- lists */

static void add(struct list *list, uint32_t value)
{
    if (list->count == list->room) {
        if (list->room > SIZE_MAX / 4) {
            give_up("there is too little memory");
        }
        list->room *= 2;
        list->start = more_memory(list->start, list->room, sizeof *list->start);
    }
    list->start[list->count++] = (uint16_t)value;
}

static void begin(struct list *list)
{
    list->room = 64;
    list->count = 0;
    list->start = take_memory(list->room, sizeof *list->start);
}

static struct list *table(struct tables *tables, size_t index)
{
    struct list *const all[] = {&tables->cell, &tables->opens,  &tables->closes, &tables->from,
                                &tables->to,   &tables->counts, &tables->ticks,  &tables->travels};
    return index < sizeof all / sizeof *all ? all[index] : NULL;
}

void free_tables(struct tables *tables)
{
    for (size_t i = 0; table(tables, i) != NULL; i++) {
        free(table(tables, i)->start);
    }
}

/* --- lines */

enum { MOST_WORDS = 12 };

/* A line of the text, as words. */
struct line {
    const char *path;
    size_t number; /* from 1 */
    size_t count;
    const char *words[MOST_WORDS];
    size_t lengths[MOST_WORDS];
};

/* What a record has behind its own number: names, each with its number. */
struct field {
    const char *name;
    bool time; /* a tick, that may be told as a time too */
    uint32_t most;
};

static const char *text_name(const char *path)
{
    return strcmp(path, "-") == 0 ? "standard input" : path;
}

/* Cuts a word for a sentence: a text may be any bytes. */
static const char *quoted(const struct line *line, size_t at)
{
    static char quote[44];
    size_t length = line->lengths[at] < 40 ? line->lengths[at] : 40;
    for (size_t i = 0; i < length; i++) {
        char byte = line->words[at][i];
        quote[i] = byte > ' ' && byte <= '~' ? byte : '?';
    }
    memcpy(quote + length, line->lengths[at] > 40 ? "..." : "", line->lengths[at] > 40 ? 4 : 1);
    return quote;
}

static bool is_word(const struct line *line, size_t at, const char *word)
{
    return at < line->count && line->lengths[at] == strlen(word) &&
           memcmp(line->words[at], word, line->lengths[at]) == 0;
}

static bool is_space(char byte)
{
    return byte == ' ' || byte == '\t' || byte == '\r';
}

/* Takes a line apart, up to a remark or its end. No record has as many words as there is room for, so those
 * that are left out are too many in any case. */
static void split(struct line *line, const char *start, const char *end)
{
    line->count = 0;
    while (start < end && *start != '#' && line->count < MOST_WORDS) {
        if (is_space(*start)) {
            start++;
            continue;
        }
        const char *word = start;
        while (start < end && !is_space(*start) && *start != '#') {
            start++;
        }
        line->words[line->count] = word;
        line->lengths[line->count++] = (size_t)(start - word);
    }
}

static enum time read_value(const struct line *line, size_t at, bool time, uint32_t *value)
{
    if (time) {
        return read_time(line->words[at], line->lengths[at], value);
    }
    return read_number(line->words[at], line->lengths[at], UINT32_MAX, value) ? TICK : NO_TIME;
}

static uint32_t value_at(const struct line *line, size_t at, const struct field *field)
{
    uint32_t value = 0;
    if (at >= line->count) {
        give_up("%s: line %zu: a number is missing behind `%s`", line->path, line->number, field->name);
    }
    enum time read = read_value(line, at, field->time, &value);
    if (read == BETWEEN_TICKS) {
        give_up("%s: line %zu: `%s` lies between two ticks of 30 seconds", line->path, line->number,
                quoted(line, at));
    }
    if (read == NO_TIME) {
        give_up("%s: line %zu: `%s` is no number behind `%s`", line->path, line->number, quoted(line, at),
                field->name);
    }
    if (value > field->most) {
        give_up("%s: line %zu: `%s` is above %" PRIu32 ", which no file can hold", line->path, line->number,
                quoted(line, at), field->most);
    }
    return value;
}

/* Reads names with their numbers from word `at` on, as many as there are fields, and gives where it ended. */
static size_t read_fields(const struct line *line, size_t at, const struct field *fields, size_t count,
                          uint32_t *values)
{
    for (size_t i = 0; i < count; i++) {
        if (at >= line->count) {
            give_up("%s: line %zu: `%s` is missing at the end", line->path, line->number, fields[i].name);
        }
        if (!is_word(line, at, fields[i].name)) {
            give_up("%s: line %zu: `%s` stands where `%s` has to", line->path, line->number, quoted(line, at),
                    fields[i].name);
        }
        values[i] = value_at(line, at + 1, &fields[i]);
        at += 2;
    }
    return at;
}

/* A record may tell its own number. Then it has to be the one that is due. */
static size_t read_own_number(const struct line *line, size_t due)
{
    uint32_t number = 0;
    if (line->count < 2 || !read_number(line->words[1], line->lengths[1], UINT32_MAX, &number)) {
        return 1;
    }
    if (number != due) {
        give_up("%s: line %zu: this is %.*s %zu, not %" PRIu32, line->path, line->number,
                (int)line->lengths[0], line->words[0], due, number);
    }
    return 2;
}

static void end_line(const struct line *line, size_t at)
{
    if (at < line->count) {
        give_up("%s: line %zu: `%s` is a word too many", line->path, line->number, quoted(line, at));
    }
}

/* --- records */

static void read_network(const struct line *line, struct tables *tables)
{
    static const struct field fields[] = {{"network", false, UINT32_MAX},
                                          {"period", false, UINT32_MAX},
                                          {"cells", false, UINT32_MAX},
                                          {"hours", false, UINT32_MAX}};
    uint32_t values[4];
    end_line(line, read_fields(line, 0, fields, 4, values));
    tables->number = values[0];
    tables->period = values[1];
    tables->cells = values[2];
    tables->hours = values[3];
}

/* A place without hours is open all day. */
static void read_place(const struct line *line, struct tables *tables)
{
    static const struct field cell = {"cell", false, UINT16_MAX};
    static const struct field hours[] = {{"open", true, UINT16_MAX}, {"close", true, UINT16_MAX}};
    uint32_t all_day = tables->period < UINT16_MAX ? tables->period : UINT16_MAX;
    uint32_t values[3] = {0, 0, all_day};
    size_t at = read_own_number(line, tables->cell.count);
    at = read_fields(line, at, &cell, 1, values);
    if (at < line->count) {
        at = read_fields(line, at, hours, 2, values + 1);
    }
    end_line(line, at);
    add(&tables->cell, values[0]);
    add(&tables->opens, values[1]);
    add(&tables->closes, values[2]);
}

static void read_road(const struct line *line, struct tables *tables)
{
    static const struct field fields[] = {{"from", false, UINT16_MAX}, {"to", false, UINT16_MAX}};
    uint32_t values[2];
    size_t at = read_own_number(line, tables->from.count);
    end_line(line, read_fields(line, at, fields, 2, values));
    add(&tables->from, values[0]);
    add(&tables->to, values[1]);
    add(&tables->counts, 0);
}

/* A count above 16 bits stays there: by the count of all points the library refuses such tables before it
 * looks at a road. */
static void read_point(const struct line *line, struct tables *tables)
{
    static const struct field fields[] = {{"tick", true, UINT16_MAX}, {"travel", true, UINT16_MAX}};
    uint32_t values[2];
    if (tables->counts.count == 0) {
        give_up("%s: line %zu: a point stands before every road", line->path, line->number);
    }
    size_t at = read_own_number(line, tables->ticks.count);
    end_line(line, read_fields(line, at, fields, 2, values));
    add(&tables->ticks, values[0]);
    add(&tables->travels, values[1]);
    uint16_t *count = &tables->counts.start[tables->counts.count - 1];
    if (*count < UINT16_MAX) {
        *count = (uint16_t)(*count + 1);
    }
}

/* The network comes first and once; places and roads may then stand in any order, each kind in its own. */
static void read_record(const struct line *line, struct tables *tables, bool *begun)
{
    bool network = is_word(line, 0, "network");
    if (network == *begun) {
        give_up(network ? "%s: line %zu: a second network begins"
                        : "%s: line %zu: a line `network ..` has to stand before all others",
                line->path, line->number);
    }
    *begun = true;
    if (network) {
        read_network(line, tables);
    } else if (is_word(line, 0, "place")) {
        read_place(line, tables);
    } else if (is_word(line, 0, "road")) {
        read_road(line, tables);
    } else if (is_word(line, 0, "point")) {
        read_point(line, tables);
    } else {
        give_up("%s: line %zu: no record begins with `%s`", line->path, line->number, quoted(line, 0));
    }
}

void read_town(const char *path, const struct bytes *text, struct tables *tables)
{
    struct line line = {text_name(path), 0, 0, {NULL}, {0}};
    bool begun = false;
    const char *start = (const char *)text->start;
    const char *all = start + text->length;
    memset(tables, 0, sizeof *tables);
    for (size_t i = 0; table(tables, i) != NULL; i++) {
        begin(table(tables, i));
    }
    while (start < all) {
        const char *end = memchr(start, '\n', (size_t)(all - start));
        end = end == NULL ? all : end;
        line.number += 1;
        split(&line, start, end);
        if (line.count > 0) {
            read_record(&line, tables, &begun);
        }
        start = end == all ? all : end + 1;
    }
    if (!begun) {
        give_up("%s: there is no line `network ..`", line.path);
    }
}

/* --- packing */

static uint32_t count_of(const struct list *list)
{
    return list->count < UINT32_MAX ? (uint32_t)list->count : UINT32_MAX;
}

uint32_t pack_tables(const struct tables *t, struct bytes *network, uint32_t places[3])
{
    uint32_t answer[4];
    network->start = take_memory(VARNWALNUT_NETWORK_BYTES, 1);
    uint32_t refusal = varnwalnut_pack_network(
        t->number, t->period, count_of(&t->cell), count_of(&t->from), t->cells, count_of(&t->ticks), t->hours,
        t->cell.start, t->cell.count, t->opens.start, t->opens.count, t->closes.start, t->closes.count,
        t->from.start, t->from.count, t->to.start, t->to.count, t->counts.start, t->counts.count,
        t->ticks.start, t->ticks.count, t->travels.start, t->travels.count,
        network->start, VARNWALNUT_NETWORK_BYTES, answer, 4);
    for (size_t i = 0; i < 3; i++) {
        places[i] = answer[i];
    }
    network->length = answer[3];
    return refusal;
}
