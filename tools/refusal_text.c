/*
 * The sentences of refusals, from the one table, tools/refusals.def. Nothing here judges: a number that the
 * library has answered is looked up and told.
 */
#include "varnwalnut_text.h"

#include <stddef.h>

struct refusal {
    uint32_t number;
    const char *name;
    const char *sentence;
    const char *places[3];
};

#define REFUSAL(number, name, sentence, first, second, third) \
    {number, #name, sentence, {first, second, third}},
#define SHEET_REFUSAL(number, sentence) {number, "", sentence, {"", "", ""}},
static const struct refusal REFUSALS[] = {
#include "refusals.def"
};
#undef REFUSAL
#undef SHEET_REFUSAL

static const struct refusal NONE = {0, "", "no refusal has this number", {"", "", ""}};

static const struct refusal *find(uint32_t number)
{
    for (size_t i = 0; i < sizeof REFUSALS / sizeof *REFUSALS; i++) {
        if (REFUSALS[i].number == number) {
            return &REFUSALS[i];
        }
    }
    return &NONE;
}

const char *varnwalnut_refusal_text(uint32_t refusal)
{
    return find(refusal)->sentence;
}

const char *varnwalnut_refusal_name(uint32_t refusal)
{
    return find(refusal)->name;
}

const char *varnwalnut_refusal_place(uint32_t refusal, uint32_t place)
{
    return place < 3 ? find(refusal)->places[place] : "";
}
