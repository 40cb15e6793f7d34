/*
 * A program over the library: `library static WORD..` answers the words over standard input as `sg` does, and `library` without
 * words asks questions about groups, and prints what is not as it should be. checks/library.sh makes it and runs it.
 */
#include <sg.h>

#include <stdio.h>
#include <stdlib.h>
#include <string.h>

static int failed = 0;

static void expect(const char *what, long found, long wanted)
{
    if (found != wanted) {
        printf("failed: %s: %ld, not %ld\n", what, found, wanted);
        failed = 1;
    }
}

/* ---- the command */

/* The words, with a line feed between two of them. */
static uint8_t *join(int count, char **words, size_t *length)
{
    size_t room = 1, at = 0;
    uint8_t *joined;
    int i;
    for (i = 0; i < count; i++)
        room += strlen(words[i]) + 1;
    joined = malloc(room);
    if (joined == NULL)
        exit(SG_NO_MEMORY);
    for (i = 0; i < count; i++) {
        size_t size = strlen(words[i]);
        if (0 < i)
            joined[at++] = '\n';
        memcpy(joined + at, words[i], size);
        at += size;
    }
    *length = at;
    return joined;
}

/* Answers with room for a few bytes, and then, where they are not enough, with room for as many as it was told. */
static int answer(int count, char **words)
{
    static uint8_t input[SG_MAX_INPUT + 1];
    uint8_t few[16], fault[160], *joined, *text = few;
    size_t room = sizeof few, length, size = fread(input, 1, sizeof input, stdin);
    sg_lengths lengths;
    uint8_t status;
    joined = join(count, words, &length);
    status = sg_answer(joined, length, input, size, text, room, fault, sizeof fault, &lengths);
    if (status == SG_OK && room < lengths.text) {
        room = lengths.text;
        text = malloc(room);
        if (text == NULL)
            return SG_NO_MEMORY;
        status = sg_answer(joined, length, input, size, text, room, fault, sizeof fault, &lengths);
    }
    fwrite(text, 1, lengths.text, stdout);
    fwrite(fault, 1, lengths.fault, stderr);
    if (text != few)
        free(text);
    free(joined);
    return status;
}

/* ---- questions */

static uint8_t close_text(sg_group *group, const char *text, uint32_t *line)
{
    return sg_group_close((const uint8_t *)text, strlen(text), group, line);
}

/* Each array of questions is refused as a whole, and nothing is written. */
static void refuse_arrays(sg_group *group)
{
    const sg_index indices[3] = {{0, 3, 0}, {1, 1, 1}, {0, -10001, 0}};
    const sg_point points[3] = {{{0, 1}, {1, 2}, {0, 1}}, {{1, 1}, {1, 0}, {1, 1}}, {{1, 1000001}, {0, 1}, {0, 1}}};
    sg_reflection_marks marks[3] = {{7, 7, 7, 7}, {7, 7, 7, 7}, {7, 7, 7, 7}};
    sg_site_counts sites[3] = {{7, 7}, {7, 7}, {7, 7}};
    sg_operator ops[SG_MAX_ORDER + 1];
    sg_operator_type types[SG_MAX_ORDER + 1];
    size_t places[3] = {7, 7, 7}, bad = 77;
    ops[0].w[0] = 7;
    types[0].order = 7;
    expect("lengths", sg_reflections(group, true, indices, 2, marks, 3, &bad), SG_WRONG_COUNT);
    expect("lengths", sg_sites(group, points, 3, sites, 2, &bad), SG_WRONG_COUNT);
    expect("lengths", sg_fit(group, points, 1, places, 0, &bad), SG_WRONG_COUNT);
    expect("lengths", sg_group_operators(group, ops, SG_MAX_ORDER + 1), sg_group_order(group) == 0 ? SG_EMPTY : SG_WRONG_COUNT);
    expect("lengths", sg_group_types(group, types, 0), sg_group_order(group) == 0 ? SG_EMPTY : SG_WRONG_COUNT);
    expect("no place", (long)bad, 77);
    expect("range", sg_reflections(group, true, indices, 3, marks, 3, &bad), SG_OUT_OF_RANGE);
    expect("place of an index", (long)bad, 2);
    expect("range", sg_sites(group, points, 3, sites, 3, &bad), SG_OUT_OF_RANGE);
    expect("place of a point", (long)bad, 1);
    bad = 77;
    expect("range", sg_fit(group, points + 2, 1, places, 1, &bad), SG_OUT_OF_RANGE);
    expect("place of a point", (long)bad, 0);
    expect("unwritten", marks[0].mark == 7 && sites[0].order == 7 && places[0] == 7 && ops[0].w[0] == 7 && types[0].order == 7, 1);
}

static void ask_nothing(sg_group *group)
{
    sg_operator op;
    sg_operator_type type;
    sg_row row;
    sg_merged_class class;
    sg_reflection_marks marks;
    sg_site_counts site;
    size_t place, count = 77;
    const int32_t value = 0;
    int64_t sum = 0, total = 0;
    const sg_index index = {0, 0, 0};
    const sg_point origin = {{0, 1}, {0, 1}, {0, 1}};
    expect("order of none", sg_group_order(group), 0);
    expect("operator of none", sg_group_operator(group, 0, &op), SG_EMPTY);
    expect("reflection of none", sg_reflection(group, 0, 0, 0, true, &marks), SG_EMPTY);
    expect("site of none", sg_site(group, &origin, &site), SG_EMPTY);
    expect("reflections of none", sg_reflections(group, true, &index, 0, &marks, 0, &count), SG_EMPTY);
    expect("sites of none", sg_sites(group, &origin, 1, &site, 1, &count), SG_EMPTY);
    expect("rows of none", sg_fit(group, &origin, 1, &place, 1, &count), SG_EMPTY);
    expect("operators of none", sg_group_operators(group, &op, 1), SG_EMPTY);
    expect("types of none", sg_group_types(group, &type, 1), SG_EMPTY);
    expect("count of none", sg_rows_count(group, &count), SG_EMPTY);
    expect("rows of none", sg_rows(group, &row, 1), SG_EMPTY);
    expect("merge of none", sg_merge(group, true, &index, 1, &value, 1, &class, 1, &place, &count), SG_EMPTY);
    expect("map of none", sg_symmetrize(group, 1, 1, 1, &value, 1, &sum, 1, &total), SG_EMPTY);
    refuse_arrays(group);
}

static void refuse(sg_group *group, const char *text, uint8_t status, uint32_t wanted)
{
    uint32_t line = 77;
    expect(text, close_text(group, text, &line), status);
    expect("line", line, wanted);
    ask_nothing(group);
}

/* International Tables A, No. 14, P 1 2_1/c 1, and the reflections and points of its worked examples. */
static void ask_p21c(sg_group *group)
{
    sg_operator op = {{0}, {0}};
    sg_reflection_marks marks;
    sg_site_counts site;
    const sg_point centre = {{0, 1}, {1, 2}, {0, 1}}, general = {{1, 10}, {1, 5}, {3, 10}}, far = {{1, 1000001}, {0, 1}, {0, 1}};
    uint32_t line = 77;
    expect("close", close_text(group, "-x,y+1/2,-z+1/2\n-x,-y,-z\n", &line), SG_OK);
    expect("line", line, 0);
    expect("order", sg_group_order(group), 4);
    expect("operator", sg_group_operator(group, 1, &op), SG_OK);
    expect("glide plane", op.w[0] == 1 && op.w[4] == -1 && op.w[8] == 1 && op.t[0] == 0 && op.t[1] == 12 && op.t[2] == 12, 1);
    expect("beyond", sg_group_operator(group, 4, &op), SG_OUT_OF_RANGE);
    expect("unwritten", op.t[1], 12);
    expect("reflection", sg_reflection(group, 0, 3, 0, true, &marks), SG_OK);
    expect("absent", marks.mark, SG_ABSENT);
    expect("class size", marks.class_size, 2);
    expect("fixers", marks.fixers, 2);
    expect("reflection", sg_reflection(group, 0, 2, 0, true, &marks), SG_OK);
    expect("restricted", marks.mark, SG_RESTRICTED);
    expect("phase", marks.phase, 0);
    expect("reflection", sg_reflection(group, 0, 2, 0, false, &marks), SG_OK);
    expect("free", marks.mark, SG_FREE);
    expect("beyond", sg_reflection(group, 0, -10001, 0, true, &marks), SG_OUT_OF_RANGE);
    expect("site", sg_site(group, &centre, &site), SG_OK);
    expect("order", site.order, 2);
    expect("multiplicity", site.multiplicity, 2);
    expect("site", sg_site(group, &general, &site), SG_OK);
    expect("order", site.order, 1);
    expect("multiplicity", site.multiplicity, 4);
    expect("far", sg_site(group, &far, &site), SG_OUT_OF_RANGE);
}

/* The same group, all at once. The types and the rows are those of its worked examples. */
static void ask_p21c_arrays(sg_group *group)
{
    static const int32_t axes[4][3] = {{0, 0, 0}, {0, 1, 0}, {0, 1, 0}, {0, 0, 0}};
    static const int32_t parts[4][3] = {{0, 0, 0}, {0, 0, 1}, {0, 1, 0}, {0, 0, 0}};
    static const uint16_t orders[4] = {1, 2, 2, 1}, proper[4] = {1, 0, 1, 0};
    const sg_index indices[4] = {{0, 3, 0}, {0, 2, 0}, {1, 1, 1}, {-10000, 10000, 10000}};
    const sg_point points[3] = {{{0, 1}, {1, 2}, {0, 1}}, {{1, 10}, {1, 5}, {3, 10}}, {{5, 2}, {1, 2}, {1, 2}}};
    const size_t fitted[3] = {2, 0, 3};
    sg_operator ops[4], op;
    sg_operator_type types[4];
    sg_reflection_marks marks[4], mark;
    sg_site_counts sites[3], site;
    sg_row rows[5];
    size_t places[3], count = 0, bad = 77, i;
    int k;
    expect("operators", sg_group_operators(group, ops, 4), SG_OK);
    expect("types", sg_group_types(group, types, 4), SG_OK);
    for (i = 0; i < 4; i++) {
        expect("operator", sg_group_operator(group, (uint32_t)i, &op), SG_OK);
        expect("same operator", memcmp(&op, &ops[i], sizeof op), 0);
        expect("order of a type", types[i].order, orders[i]);
        expect("proper", types[i].proper, proper[i]);
        for (k = 0; k < 3; k++) {
            expect("axis", types[i].axis[k], axes[i][k]);
            expect("intrinsic part", 2 * types[i].intrinsic[k], parts[i][k] * types[i].denominator);
        }
    }
    expect("reflections", sg_reflections(group, false, indices, 4, marks, 4, &bad), SG_OK);
    for (i = 0; i < 4; i++) {
        expect("reflection", sg_reflection(group, indices[i].h, indices[i].k, indices[i].l, false, &mark), SG_OK);
        expect("same reflection", memcmp(&mark, &marks[i], sizeof mark), 0);
    }
    expect("reflections", sg_reflections(group, true, indices, 4, marks, 4, &bad), SG_OK);
    expect("absent", marks[0].mark, SG_ABSENT);
    expect("restricted", marks[1].mark, SG_RESTRICTED);
    expect("class size", marks[2].class_size, 4);
    expect("sites", sg_sites(group, points, 3, sites, 3, &bad), SG_OK);
    for (i = 0; i < 3; i++) {
        expect("site", sg_site(group, &points[i], &site), SG_OK);
        expect("same site", memcmp(&site, &sites[i], sizeof site), 0);
    }
    expect("rows", sg_rows_count(group, &count), SG_OK);
    expect("rows", (long)count, 5);
    expect("other count", sg_rows(group, rows, 4), SG_WRONG_COUNT);
    expect("rows", sg_rows(group, rows, 5), SG_OK);
    for (i = 0; i < 5; i++)
        expect("multiplicity", rows[i].multiplicity, i == 0 ? 4 : 2);
    expect("general position", rows[0].m[0] == 4 && rows[0].m[1] == 0 && rows[0].m[4] == 4 && rows[0].m[8] == 4, 1);
    expect("centre", rows[2].m[0] == 0 && rows[2].t[0] == 0 && rows[2].t[1] == 0 && rows[2].t[2] == 4 * SG_PARTS / 2, 1);
    expect("fit", sg_fit(group, points, 3, places, 3, &bad), SG_OK);
    for (i = 0; i < 3; i++)
        expect("row", (long)places[i], (long)fitted[i]);
    expect("fit of none", sg_fit(group, points, 0, places, 0, &bad), SG_OK);
    expect("no place", (long)bad, 77);
    refuse_arrays(group);
}

/* A change through the handle, and the same change as the command answers it. */
static void change_as_command(sg_group *group, const char *input, const char *words, const sg_operator *change, uint8_t over)
{
    static uint8_t text[4096], fault[SG_MAX_FAULT];
    sg_group changed = SG_NO_GROUP, told = SG_NO_GROUP;
    sg_operator ops[SG_MAX_ORDER], same[SG_MAX_ORDER];
    sg_lengths lengths;
    uint32_t line;
    uint16_t order;
    expect("answer", sg_answer((const uint8_t *)words, strlen(words), (const uint8_t *)input, strlen(input), text, sizeof text,
                               fault, sizeof fault, &lengths), SG_OK);
    expect("told", sg_group_close(text, lengths.text, &told, &line), SG_OK);
    if (over == 0)
        expect(words, sg_group_basis(group, change, &changed), SG_OK);
    else
        expect(words, sg_group_recell(group, change, over, &changed), SG_OK);
    order = sg_group_order(&told);
    expect("order", sg_group_order(&changed), order);
    expect("operators", sg_group_operators(&changed, ops, order), SG_OK);
    expect("operators", sg_group_operators(&told, same, order), SG_OK);
    expect("as the command", memcmp(ops, same, order * sizeof *ops), 0);
    sg_group_free(&changed);
    sg_group_free(&told);
}

static void ask_changes(sg_group *group)
{
    static const char input[] = "-x,y+1/2,-z+1/2\n-x,-y,-z\n";
    const sg_operator turned = {{0, 1, 0, 0, 0, 1, 1, 0, 0}, {6, 0, 12}}, fine = {{1, 0, 0, 0, 1, 0, 0, 0, 1}, {0, 0, 24}};
    const sg_operator flat = {{1, 0, 0, 0, 1, 0, 0, 0, 0}, {0, 0, 0}}, wide = {{1, 3, 0, 0, 1, 0, 0, 0, 1}, {0, 0, 0}};
    const sg_operator same = {{1, 0, 0, 0, 1, 0, 0, 0, 1}, {0, 0, 0}}, halved = {{2, 0, 0, 0, 1, 0, 0, 0, 1}, {0, 0, 0}};
    const sg_index indices[3] = {{0, -3, 0}, {-1, -1, -1}, {-1, 2, 3}};
    sg_index keys[3];
    sg_group changed = SG_NO_GROUP;
    size_t bad = 77;
    change_as_command(group, input, "basis\ny+1/4,z,x+1/2", &turned, 0);
    change_as_command(group, input, "recell\n2\nx,2y,2z", &(const sg_operator){{1, 0, 0, 0, 2, 0, 0, 0, 2}, {0, 0, 0}}, 2);
    expect("no inverse", sg_group_basis(group, &flat, &changed), SG_OUT_OF_RANGE);
    expect("translation", sg_group_basis(group, &fine, &changed), SG_OUT_OF_RANGE);
    expect("entry", sg_group_basis(group, &wide, &changed), SG_NOT_KEPT);
    expect("no inverse", sg_group_recell(group, &flat, 1, &changed), SG_OUT_OF_RANGE);
    expect("no denominator", sg_group_recell(group, &same, 0, &changed), SG_OUT_OF_RANGE);
    expect("no cell", sg_group_recell(group, &halved, 1, &changed), SG_NOT_KEPT);
    expect("none is held", sg_group_order(&changed), 0);
    expect("of none", sg_group_basis(&changed, &same, group), SG_EMPTY);
    expect("freed", sg_group_order(group), 0);
    expect("close again", close_text(group, input, &(uint32_t){0}), SG_OK);
    expect("keys", sg_class_keys(group, true, indices, 3, keys, 3, &bad), SG_OK);
    expect("key", keys[0].h == 0 && keys[0].k == 3 && keys[0].l == 0, 1);
    expect("key", keys[1].h == 1 && keys[1].k == 1 && keys[1].l == 1, 1);
    expect("key", keys[2].h == 1 && keys[2].k == 2 && keys[2].l == -3, 1);
    expect("lengths", sg_class_keys(group, true, indices, 3, keys, 2, &bad), SG_WRONG_COUNT);
    expect("no place", (long)bad, 77);
}

/* The indices of five reflections of P 2_1/c, of three classes, one of them absent. */
static void ask_merge(sg_group *group)
{
    const sg_index indices[5] = {{1, 2, 3}, {0, 3, 0}, {-1, 2, -3}, {-1, -1, -1}, {1, -2, 3}};
    const sg_index far[2] = {{1, 2, 3}, {0, 0, 10001}};
    const int32_t values[5] = {INT32_MAX, -4, INT32_MAX, 0, 7};
    sg_merged_class classes[4];
    size_t count = 77, bad = 77;
    classes[0].count = classes[3].count = 77;
    expect("values", sg_merge(group, true, indices, 5, values, 4, classes, 4, &count, &bad), SG_WRONG_COUNT);
    expect("room", sg_merge(group, true, indices, 5, values, 5, classes, 2, &count, &bad), SG_WRONG_COUNT);
    expect("no place", (long)bad, 77);
    expect("range", sg_merge(group, true, far, 2, values, 2, classes, 4, &count, &bad), SG_OUT_OF_RANGE);
    expect("place", (long)bad, 1);
    expect("unwritten", count == 77 && classes[0].count == 77, 1);
    expect("merge", sg_merge(group, true, indices, 5, values, 5, classes, 4, &count, &bad), SG_OK);
    expect("classes", (long)count, 3);
    expect("key", classes[0].key.h == 1 && classes[0].key.k == 2 && classes[0].key.l == 3, 1);
    expect("count", classes[0].count, 3);
    expect("sum", (long)classes[0].sum, 2 * (long)INT32_MAX + 7);
    expect("present", classes[0].absent || classes[0].observed, 0);
    expect("key", classes[1].key.h == 1 && classes[1].key.k == 1 && classes[1].key.l == 1, 1);
    expect("sum", (long)classes[1].sum, 0);
    expect("key", classes[2].key.h == 0 && classes[2].key.k == 3 && classes[2].key.l == 0, 1);
    expect("absent", classes[2].absent && classes[2].observed, 1);
    expect("behind", classes[3].count, 77);
}

/* Each point of P 2_1/c on a grid of 2, 2 and 2 has an image beside it, and none has more on this grid. */
static void ask_map(sg_group *group)
{
    const int32_t values[8] = {1, 20, 300, 4000, -50000, 600000, 7000000, INT32_MAX};
    const int64_t wanted[8] = {4001, 320, 320, 4001, (int64_t)INT32_MAX - 50000, 7600000, 7600000, (int64_t)INT32_MAX - 50000};
    int64_t sums[8], total = 77;
    int i;
    for (i = 0; i < 8; i++)
        sums[i] = 77;
    expect("side", sg_symmetrize(group, 2, 0, 2, values, 0, sums, 0, &total), SG_OUT_OF_RANGE);
    expect("points", sg_symmetrize(group, SG_MAX_SIDE, SG_MAX_SIDE, 2, values, 8, sums, 8, &total), SG_OUT_OF_RANGE);
    expect("values", sg_symmetrize(group, 2, 2, 2, values, 7, sums, 8, &total), SG_WRONG_COUNT);
    expect("sums", sg_symmetrize(group, 2, 2, 2, values, 8, sums, 7, &total), SG_WRONG_COUNT);
    expect("grid", sg_symmetrize(group, 8, 1, 1, values, 8, sums, 8, &total), SG_NOT_KEPT);
    expect("unwritten", total == 77 && sums[0] == 77 && sums[7] == 77, 1);
    expect("map", sg_symmetrize(group, 2, 2, 2, values, 8, sums, 8, &total), SG_OK);
    for (i = 0; i < 8; i++)
        expect("sum", (long)sums[i], (long)wanted[i]);
    expect("total", (long)total, (long)INT32_MAX + 7554321);
}

static int ask(void)
{
    sg_group group = SG_NO_GROUP;
    ask_nothing(&group);
    ask_p21c(&group);
    ask_p21c_arrays(&group);
    ask_p21c(&group);
    ask_p21c_arrays(&group);
    ask_changes(&group);
    ask_map(&group);
    ask_merge(&group);
    refuse(&group, "x,y,z\n\nx,y\n", SG_UNREADABLE, 3);
    ask_p21c(&group);
    refuse(&group, "2x,y,z", SG_NOT_UNIMODULAR, 1);
    refuse(&group, "x+y,y,z", SG_UNCLOSED, 0);
    ask_p21c(&group);
    sg_group_free(&group);
    ask_nothing(&group);
    sg_group_free(&group);
    return failed;
}

int main(int count, char **words)
{
    return count < 2 ? ask() : answer(count - 2, words + 2);
}
