/*
 * Checks the calls of include/cabbagelute.h for request R-1, packages and versions, as C makes them: cases worked out from the
 * request's text, with guards around each buffer and room of every length up to the need and past it.
 * The last line is 'N passed, M failed'.
 */
#include <stdbool.h>
#include <stdio.h>
#include <string.h>

#include "../../include/cabbagelute.h"

enum { GUARD = 8, MOST = 400, DETAIL = 24 };

static unsigned long passed, failed;

static void check(bool fine, const char *what, const char *value, size_t room)
{
    if (fine) {
        passed++;
    } else {
        failed++;
        printf("FAILED: %s: \"%s\", room %zu\n", what, value, room);
    }
}

/* Appends a record. */
static size_t put(uint8_t *to, size_t at, unsigned kind, const void *payload, size_t length)
{
    for (int i = 0; i < 4; i++)
        to[at + (size_t)i] = (uint8_t)(length >> (8 * i));
    to[at + 4] = (uint8_t)kind;
    to[at + 5] = (uint8_t)(kind >> 8);
    memcpy(to + at + 6, payload, length);
    return at + 6 + length;
}

static uint64_t number_at(const uint8_t *detail, int which)
{
    uint64_t number = 0;
    for (int i = 7; i >= 0; i--)
        number = number << 8 | detail[8 * which + i];
    return number;
}

static bool is_all(const uint8_t *at, size_t length, uint8_t byte)
{
    for (size_t i = 0; i < length; i++)
        if (at[i] != byte)
            return false;
    return true;
}

struct item {
    uint8_t field, operator_number;
    const char *name, *version;
};

struct packages {
    const char *requires, *private; /* NULL where the field is absent */
    uint32_t number;                /* 0 or 20 */
    uint64_t field, index;          /* of 20 */
    struct item items[4];           /* of 0, up to one without a name */
};

static const struct packages packages[] = {
    {NULL, NULL, 0, 0, 0, {{0}}},
    {"", ",, \t", 0, 0, 0, {{0}}},
    {"a", NULL, 0, 0, 0, {{5, 0, "a", ""}}},
    {"a >= 1.10, b", "c!=2", 0, 0, 0, {{5, 5, "a", "1.10"}, {5, 0, "b", ""}, {6, 6, "c", "2"}}},
    {"a=1 b<2 c>3", NULL, 0, 0, 0, {{5, 1, "a", "1"}, {5, 2, "b", "2"}, {5, 3, "c", "3"}}},
    {NULL, "a<=1,b>=2", 0, 0, 0, {{6, 4, "a", "1"}, {6, 5, "b", "2"}}},
    {"a, = 1", NULL, 20, 5, 1, {{0}}},
    {"a =, 1", NULL, 20, 5, 0, {{0}}},
    {"a==1", "!", 20, 5, 0, {{0}}},
    {"a", "b c !", 20, 6, 1, {{0}}},
    {"a=1=2", NULL, 20, 5, 1, {{0}}},
};

static void check_packages(const struct packages *p)
{
    const char *value = p->requires != NULL ? p->requires : "";
    uint8_t records[MOST], expected[MOST];
    size_t length = put(records, 0, 1, "n", 1), need = 0;
    if (p->requires != NULL)
        length = put(records, length, 5, p->requires, strlen(p->requires));
    if (p->private != NULL)
        length = put(records, length, 6, p->private, strlen(p->private));
    for (const struct item *i = p->items; p->number == 0 && i < p->items + 4 && i->name != NULL; i++) {
        uint8_t head[2] = {i->field, i->operator_number};
        need = put(expected, need, 12, head, 2);
        need = put(expected, need, 13, i->name, strlen(i->name));
        need = put(expected, need, 14, i->version, strlen(i->version));
    }
    for (size_t room = 0; room <= need + 3; room++) {
        uint8_t output[MOST + 2 * GUARD], detail[DETAIL + 2 * GUARD];
        memset(output, 0xA5, sizeof output);
        memset(detail, 0x5A, sizeof detail);
        uint32_t number = cabbagelute_packages(records, length, output + GUARD, room, detail + GUARD, DETAIL);
        uint32_t due = p->number != 0 ? p->number : room < need ? 17 : 0;
        size_t written = due == 0 ? need : 0;
        uint64_t first = due == 20 ? p->field : need, second = due == 20 ? p->index : 0;
        check(number == due, "number", value, room);
        check(number_at(detail + GUARD, 0) == due && number_at(detail + GUARD, 1) == first &&
                  number_at(detail + GUARD, 2) == second,
              "detail", value, room);
        check(memcmp(output + GUARD, expected, written) == 0, "records", value, room);
        check(is_all(output, GUARD, 0xA5) && is_all(output + GUARD + written, sizeof output - GUARD - written, 0xA5) &&
                  is_all(detail, GUARD, 0x5A) && is_all(detail + GUARD + DETAIL, GUARD, 0x5A),
              "what must not be touched", value, room);
    }
    for (size_t room = 0; room < DETAIL; room++) {
        uint8_t output[MOST], detail[DETAIL];
        memset(output, 0xA5, sizeof output);
        memset(detail, 0x5A, sizeof detail);
        uint32_t number = cabbagelute_packages(records, length, output, sizeof output, detail, room);
        check(number == 19 && is_all(output, sizeof output, 0xA5) && is_all(detail, sizeof detail, 0x5A), "short detail", value,
              room);
    }
    for (size_t cut = 1; cut < 7; cut++) {
        uint8_t output[4] = {0}, detail[DETAIL];
        uint32_t number = cabbagelute_packages(records, cut, output, sizeof output, detail, sizeof detail);
        check(number == 18 && number_at(detail, 1) == 0, "records cut off", value, cut);
    }
}

struct order {
    const char *first, *second;
    uint32_t number; /* 0 equal, 1 the first is lower, 2 it is higher */
};

static const struct order orders[] = {
    {"", "", 0},       {"1", "1", 0},     {"007", "7", 0},  {"1..2", "1.2", 0},  {"1~2", "1.2", 0},
    {"1.10", "1.9", 2}, {"1.0", "1", 2},   {"a", "1", 1},    {"1a", "1", 2},      {"B", "a", 1},
    {"a", "ab", 1},     {"1.a", "1.1", 1}, {"", "0", 1},     {"10", "9", 2},      {"18446744073709551616", "18446744073709551615", 2},
};

static void check_order(const struct order *o)
{
    const uint8_t *a = (const uint8_t *)o->first, *b = (const uint8_t *)o->second;
    size_t m = strlen(o->first), n = strlen(o->second);
    uint32_t reversed = o->number == 0 ? 0 : 3 - o->number;
    check(cabbagelute_compare_versions(a, m, b, n) == o->number, "order", o->first, 0);
    check(cabbagelute_compare_versions(b, n, a, m) == reversed, "order reversed", o->first, 0);
    bool is_lower = o->number == 1, is_higher = o->number == 2, is_equal = o->number == 0;
    const bool meets[7] = {true, is_equal, is_lower, is_higher, is_lower || is_equal, is_higher || is_equal, !is_equal};
    for (uint32_t op = 0; op < 7; op++)
        check(cabbagelute_version_meets(a, m, op, b, n) == (meets[op] ? 1 : 0), "operator", o->first, op);
    check(cabbagelute_version_meets(a, m, 7, b, n) == 2, "no such operator", o->first, 7);
    check(cabbagelute_version_meets(a, m, UINT32_MAX, b, n) == 2, "no such operator", o->first, 0);
}

int main(void)
{
    for (size_t i = 0; i < sizeof packages / sizeof packages[0]; i++)
        check_packages(&packages[i]);
    for (size_t i = 0; i < sizeof orders / sizeof orders[0]; i++)
        check_order(&orders[i]);
    printf("%lu passed, %lu failed\n", passed, failed);
    return failed == 0 ? 0 : 1;
}
