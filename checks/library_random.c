/*
 * Random calls of the library in random order over a few groups, with arrays and buffers of random lengths:
 *
 *     library_random SEED CALLS
 *
 * Each buffer stands between guards. After each call the guards are as they were; where the status is not 0, nothing is written
 * but what sg.h says; the status is one that sg.h names for the call; and the same question gives the same answer again. It ends
 * with 1 at the first call that is otherwise, and prints it.
 */
#include <sg.h>
#include <stdio.h>
#include <stdlib.h>
#include <string.h>

enum { GROUPS = 4, GUARD = 64, BUFFERS = 16, FILL = 0xa5, MOST = 40 };

/* ---- Numbers at random. */

static uint64_t state;

static uint32_t draw(uint32_t below) {
    state = state * 6364136223846793005u + 1442695040888963407u;
    return (uint32_t)((state >> 33) % below);
}

static int32_t between(int32_t least, int32_t greatest) {
    return least + (int32_t)draw((uint32_t)(greatest - least) + 1);
}

/* ---- Buffers between guards. */

static struct {
    unsigned char *block;
    size_t size;
} buffers[BUFFERS];
static size_t buffers_count;

static void *buffer(size_t size) {
    unsigned char *block = malloc(size + 2 * GUARD);
    if (!block) abort();
    memset(block, FILL, size + 2 * GUARD);
    buffers[buffers_count].block = block;
    buffers[buffers_count++].size = size;
    return block + GUARD;
}

static bool is_filled(const unsigned char *bytes, size_t count) {
    while (count--)
        if (bytes[count] != FILL) return false;
    return true;
}

static bool are_guarded(void) {
    for (size_t i = 0; i < buffers_count; i++) {
        const unsigned char *block = buffers[i].block;
        if (!is_filled(block, GUARD) || !is_filled(block + GUARD + buffers[i].size, GUARD)) return false;
    }
    return true;
}

static void free_buffers(void) {
    while (buffers_count) free(buffers[--buffers_count].block);
}

/* ---- What is judged. */

static const char *call_name;
static unsigned long call_place;

static void judge(bool right, const char *what, unsigned status) {
    if (right) return;
    printf("call %lu, %s: status %u: %s\n", call_place, call_name, status, what);
    exit(1);
}

/* The status is one of these. */
#define ONE_OF(status, ...) judge(is_one_of(status, (const uint8_t[]){__VA_ARGS__}, sizeof(const uint8_t[]){__VA_ARGS__}), "not named", status)

static bool is_one_of(uint8_t status, const uint8_t *named, size_t count) {
    while (count--)
        if (named[count] == status) return true;
    return false;
}

/* The first answer, and the one to the same question again: the same, and where the status is not 0 neither is written. */
static void judge_pair(uint8_t status, uint8_t again, const void *first, const void *second, size_t size) {
    judge(status == again, "another status the second time", again);
    judge(memcmp(first, second, size) == 0, "another answer the second time", status);
    if (status != SG_OK) judge(is_filled(first, size), "written all the same", status);
}

/* ---- Questions. */

static sg_group groups[GROUPS] = {SG_NO_GROUP, SG_NO_GROUP, SG_NO_GROUP, SG_NO_GROUP};

static const char *const inputs[] = {
    "", "x,y,z", "-x,-y,-z", "-x,y+1/2,-z+1/2\n-x,-y,-z\n", "-y,x-y,z\n-x,-y,-z\ny,x,z", "# R-3\nx+2/3,y+1/3,z+1/3\n-y,x-y,z\n-x,-y,-z",
    "z,x,y\n-x,-y,z\ny,x,-z\n-x,-y,-z\nx,y+1/2,z+1/2\nx+1/2,y,z+1/2", "x,y", "2x,y,z", "x+y,y,z", "x,y,z\n\nbad", "x,y,z\n%%\n",
};
static const char *const words[] = {"ops", "types", "wyckoff", "site\n0\n1/2\n0", "refl\n2\n2\n2", "report", "none", "", "grid\n2\n2\n2", "fit\n1\n2"};

static size_t length_at_random(void) {
    return draw(4) == 0 ? draw(2) : draw(MOST);
}

/* The same length, or now and then another. */
static size_t like(size_t length) {
    return draw(8) == 0 ? draw(MOST) : length;
}

static void fill_indices(sg_index *indices, size_t count) {
    int32_t greatest = draw(16) == 0 ? SG_MAX_INDEX + 1 : 4;
    for (size_t i = 0; i < count; i++)
        indices[i] = (sg_index){between(-greatest, greatest), between(-greatest, greatest), between(-greatest, greatest)};
}

static sg_fraction fraction_at_random(void) {
    sg_fraction fraction = {between(-30, 30), between(draw(16) ? 1 : -1, 24)};
    if (draw(32) == 0) fraction.n = (int64_t)SG_MAX_NUMERATOR + between(-1, 1);
    if (draw(32) == 0) fraction.d = (int64_t)SG_MAX_DENOMINATOR + between(-1, 1);
    if (draw(64) == 0) fraction.n = INT64_MIN;
    if (draw(64) == 0) fraction.d = INT64_MIN;
    return fraction;
}

static void fill_points(sg_point *points, size_t count) {
    for (size_t i = 0; i < count; i++) points[i] = (sg_point){fraction_at_random(), fraction_at_random(), fraction_at_random()};
}

static void ask_answer(void) {
    const char *word = words[draw(sizeof words / sizeof *words)], *input = inputs[draw(sizeof inputs / sizeof *inputs)];
    size_t text_room = draw(3) ? draw(400) : draw(2), fault_room = draw(3) ? draw(SG_MAX_FAULT + 1) : draw(2);
    unsigned char *text = buffer(text_room), *fault = buffer(fault_room);
    sg_lengths lengths = {0, 0};
    uint8_t status = sg_answer((const uint8_t *)word, strlen(word), (const uint8_t *)input, strlen(input), text, text_room, fault, fault_room, &lengths);
    ONE_OF(status, SG_OK, SG_OUT_OF_RANGE, SG_UNREADABLE, SG_NOT_UNIMODULAR, SG_UNCLOSED, SG_NOT_KEPT, SG_NO_MEMORY, SG_TOO_LONG, SG_BAD_DATA, SG_WRONG_COUNT);
    judge(lengths.fault <= SG_MAX_FAULT, "a fault that is too long", status);
    judge(status == SG_OK ? lengths.fault == 0 : lengths.text == 0, "text and fault", status);
    if (lengths.text < text_room) judge(is_filled(text + lengths.text, text_room - lengths.text), "written behind the text", status);
    if (lengths.fault < fault_room) judge(is_filled(fault + lengths.fault, fault_room - lengths.fault), "written behind the fault", status);
}

static void ask_close(sg_group *group) {
    const char *input = inputs[draw(sizeof inputs / sizeof *inputs)];
    uint32_t *line = buffer(sizeof *line);
    uint8_t status = sg_group_close((const uint8_t *)input, strlen(input), group, line);
    ONE_OF(status, SG_OK, SG_UNREADABLE, SG_NOT_UNIMODULAR, SG_UNCLOSED);
    judge((*line != 0) == (status == SG_UNREADABLE || status == SG_NOT_UNIMODULAR), "the line", status);
    judge((sg_group_order(group) != 0) == (status == SG_OK), "whether a group is held", status);
}

static void ask_changed(sg_group *group, sg_group *other, bool cell) {
    sg_operator change;
    for (int i = 0; i < 9; i++) change.w[i] = draw(4) ? i % 4 == 0 : between(-1, 1);
    for (int i = 0; i < 3; i++) change.t[i] = between(draw(16) ? 0 : -1, SG_PARTS - 1);
    uint16_t order = sg_group_order(group);
    uint8_t status = cell ? sg_group_recell(group, &change, (uint8_t)draw(4), other) : sg_group_basis(group, &change, other);
    ONE_OF(status, SG_OK, SG_OUT_OF_RANGE, SG_NOT_KEPT, SG_EMPTY);
    judge((sg_group_order(other) != 0) == (status == SG_OK), "whether a group is held", status);
    judge(sg_group_order(group) == order, "the first group changed", status);
}

static void ask_operators(sg_group *group) {
    size_t count = like(sg_group_order(group)), size = count * sizeof(sg_operator), types_size = count * sizeof(sg_operator_type);
    sg_operator *ops = buffer(size), *again = buffer(size);
    uint8_t status = sg_group_operators(group, ops, count);
    ONE_OF(status, SG_OK, SG_WRONG_COUNT, SG_EMPTY);
    judge_pair(status, sg_group_operators(group, again, count), ops, again, size);
    sg_operator_type *types = buffer(types_size);
    judge(sg_group_types(group, types, count) == status, "another status for types", status);
    if (status != SG_OK) judge(is_filled((unsigned char *)types, types_size), "written all the same", status);
    sg_operator *one = buffer(sizeof *one);
    uint8_t found = sg_group_operator(group, draw(SG_MAX_ORDER + 2), one);
    ONE_OF(found, SG_OK, SG_OUT_OF_RANGE, SG_EMPTY);
    if (found != SG_OK) judge(is_filled((unsigned char *)one, sizeof *one), "written all the same", found);
}

/* bad is written only where a question is out of range, and is then the place of one. */
static void judge_bad(uint8_t status, const size_t *bad, size_t count) {
    if (status == SG_OUT_OF_RANGE) judge(*bad < count, "no place", status);
    else judge(is_filled((const unsigned char *)bad, sizeof *bad), "bad written all the same", status);
}

static void ask_reflections(sg_group *group) {
    size_t count = length_at_random(), room = like(count);
    bool friedel = draw(2);
    sg_index *indices = buffer(count * sizeof *indices), *keys = buffer(room * sizeof *keys);
    sg_reflection_marks *marks = buffer(room * sizeof *marks), *again = buffer(room * sizeof *again);
    size_t *bad = buffer(sizeof *bad), *bad_again = buffer(sizeof *bad), *bad_key = buffer(sizeof *bad);
    fill_indices(indices, count);
    uint8_t status = sg_reflections(group, friedel, indices, count, marks, room, bad);
    ONE_OF(status, SG_OK, SG_WRONG_COUNT, SG_OUT_OF_RANGE, SG_EMPTY);
    judge_bad(status, bad, count);
    judge_pair(status, sg_reflections(group, friedel, indices, count, again, room, bad_again), marks, again, room * sizeof *marks);
    judge(sg_class_keys(group, friedel, indices, count, keys, room, bad_key) == status, "another status for keys", status);
    judge_bad(status, bad_key, count);
    if (status != SG_OK) judge(is_filled((unsigned char *)keys, room * sizeof *keys), "written all the same", status);
    for (size_t i = 0; status == SG_OK && i < count; i++) {
        sg_reflection_marks one;
        judge(sg_reflection(group, indices[i].h, indices[i].k, indices[i].l, friedel, &one) == SG_OK, "one alone", status);
        judge(one.class_size == marks[i].class_size && one.fixers == marks[i].fixers && one.mark == marks[i].mark && one.phase == marks[i].phase, "another answer alone", status);
    }
}

static void ask_merge(sg_group *group) {
    size_t count = length_at_random(), values_count = like(count), room = like(count), filled = 0;
    sg_index *indices = buffer(count * sizeof *indices);
    int32_t *values = buffer(values_count * sizeof *values);
    sg_merged_class *classes = buffer(room * sizeof *classes);
    size_t *classes_count = buffer(sizeof *classes_count), *bad = buffer(sizeof *bad);
    fill_indices(indices, count);
    for (size_t i = 0; i < values_count; i++) values[i] = draw(8) ? between(-9, 9) : INT32_MIN;
    uint8_t status = sg_merge(group, draw(2), indices, count, values, values_count, classes, room, classes_count, bad);
    ONE_OF(status, SG_OK, SG_OUT_OF_RANGE, SG_WRONG_COUNT, SG_EMPTY);
    judge_bad(status, bad, count);
    if (status == SG_OK) {
        judge(*classes_count <= room && *classes_count <= count, "more classes than there are", status);
        for (filled = 0; filled < *classes_count; filled++) count -= classes[filled].count;
        judge(count == 0, "an index that is in no class, or in two", status);
    } else {
        judge(is_filled((unsigned char *)classes_count, sizeof *classes_count), "count written all the same", status);
    }
    judge(is_filled((unsigned char *)(classes + filled), (room - filled) * sizeof *classes), "written behind the classes", status);
}

static void ask_points(sg_group *group) {
    size_t count = length_at_random(), room = like(count), rows;
    sg_point *points = buffer(count * sizeof *points);
    sg_site_counts *sites = buffer(room * sizeof *sites), *again = buffer(room * sizeof *again);
    size_t *places = buffer(room * sizeof *places), *bad = buffer(sizeof *bad), *bad_again = buffer(sizeof *bad), *bad_place = buffer(sizeof *bad);
    fill_points(points, count);
    uint8_t status = sg_sites(group, points, count, sites, room, bad);
    ONE_OF(status, SG_OK, SG_WRONG_COUNT, SG_OUT_OF_RANGE, SG_EMPTY);
    judge_bad(status, bad, count);
    judge_pair(status, sg_sites(group, points, count, again, room, bad_again), sites, again, room * sizeof *sites);
    judge(sg_fit(group, points, count, places, room, bad_place) == status, "another status for fits", status);
    judge_bad(status, bad_place, count);
    if (status != SG_OK) judge(is_filled((unsigned char *)places, room * sizeof *places), "written all the same", status);
    else if (count && sg_rows_count(group, &rows) == SG_OK)
        for (size_t i = 0; i < count; i++) judge(places[i] < rows, "a row that is not there", status);
}

static void ask_rows(sg_group *group) {
    size_t *count = buffer(sizeof *count);
    uint8_t status = sg_rows_count(group, count);
    ONE_OF(status, SG_OK, SG_EMPTY);
    if (status != SG_OK) judge(is_filled((unsigned char *)count, sizeof *count), "written all the same", status);
    size_t room = like(status == SG_OK ? *count : 3), size = room * sizeof(sg_row);
    sg_row *rows = buffer(size), *again = buffer(size);
    status = sg_rows(group, rows, room);
    ONE_OF(status, SG_OK, SG_WRONG_COUNT, SG_EMPTY);
    judge_pair(status, sg_rows(group, again, room), rows, again, size);
    if (status == SG_OK) judge(room == 0 || rows[0].multiplicity == sg_group_order(group), "the general position", status);
}

static void ask_map(sg_group *group) {
    uint16_t a = (uint16_t)draw(7), b = (uint16_t)draw(7), c = (uint16_t)draw(7);
    if (draw(32) == 0) a = (uint16_t)between(SG_MAX_SIDE, 65535);
    size_t points = (size_t)a * b * c, count = draw(8) || points > 1000 ? (points > 1000 ? 1 : points) : draw(MOST), sums_count = like(count);
    int32_t *values = buffer(count * sizeof *values);
    int64_t *sums = buffer(sums_count * sizeof *sums), *total = buffer(sizeof *total), expected = 0;
    for (size_t i = 0; i < count; i++) expected += values[i] = between(-9, 9);
    uint8_t status = sg_symmetrize(group, a, b, c, values, count, sums, sums_count, total);
    ONE_OF(status, SG_OK, SG_OUT_OF_RANGE, SG_WRONG_COUNT, SG_NOT_KEPT, SG_EMPTY);
    if (status == SG_OK) judge(*total == expected, "the total", status);
    else judge(is_filled((unsigned char *)sums, sums_count * sizeof *sums) && is_filled((unsigned char *)total, sizeof *total), "written all the same", status);
}

static void ask(void) {
    unsigned at = draw(GROUPS);
    sg_group *group = &groups[at], *other = &groups[(at + 1 + draw(GROUPS - 1)) % GROUPS];
    switch (draw(11)) {
    case 0: call_name = "sg_answer"; ask_answer(); break;
    case 1: call_name = "sg_group_close"; ask_close(group); break;
    case 2: call_name = "sg_group_basis"; ask_changed(group, other, false); break;
    case 3: call_name = "sg_group_recell"; ask_changed(group, other, true); break;
    case 4: call_name = "sg_group_operators"; ask_operators(group); break;
    case 5: call_name = "sg_reflections"; ask_reflections(group); break;
    case 6: call_name = "sg_merge"; ask_merge(group); break;
    case 7: call_name = "sg_sites"; ask_points(group); break;
    case 8: call_name = "sg_rows"; ask_rows(group); break;
    case 9: call_name = "sg_symmetrize"; ask_map(group); break;
    default:
        call_name = "sg_group_free";
        if (draw(4) == 0) sg_group_free(group);
        judge(draw(4) != 0 || sg_group_order(group) <= SG_MAX_ORDER, "the order", 0);
    }
}

int main(int argc, char **argv) {
    if (argc != 3) return 2;
    state = strtoull(argv[1], NULL, 10);
    unsigned long calls = strtoul(argv[2], NULL, 10);
    for (call_place = 0; call_place < calls; call_place++) {
        ask();
        judge(are_guarded(), "written beyond a buffer", 0);
        free_buffers();
    }
    for (int i = 0; i < GROUPS; i++) {
        sg_group_free(&groups[i]);
        sg_group_free(&groups[i]);
    }
    return 0;
}
