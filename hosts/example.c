/* A host in C: closes the rim of a rim file of either edition and prints what the bench program prints. Its tables are as long as the rim needs. Then it
 * takes the rim's lists for a direct job: prices it, patches it at that total and at a wrong one, and judges the patch as if another program had made it,
 * with its own total and with a wrong one.
 * With --limit N it takes rims of at most N vertices. With --convert it writes the file in the other edition instead.
 * Status 0 where the file is accepted, 1 where it is refused, 2 with one line on standard error where it could not run. */
#include "patch_box.h"

#include <errno.h>
#include <stdio.h>
#include <stdlib.h>
#include <string.h>

static const char usage[] = "example [--limit N | --convert] RIM-FILE";

/* The words of the command line. Without --limit the calls that have none are made. */
struct request {
    int converts, limited;
    size_t limit;
    const char *name;
};

struct rim_file {
    uint8_t bytes[PATCH_BOX_MAX_FILE + 1]; /* one byte more is enough to see that a file is too long */
    size_t length;
};

struct tables {
    patch_box_sizes_answer sizes;
    uint16_t *triangles;
    patch_box_candidate *candidates;
    uint32_t *weights;
    patch_box_row *rows;
    uint64_t *work;
};

static int fail(const char *what, const char *why)
{
    fprintf(stderr, "example: %s: %s\n", what, why);
    return 2;
}

/* Memory for a table, and never null for one of no places. */
static void *table(size_t places, size_t size)
{
    return calloc(places > 0 ? places : 1, size);
}

static int allocate(struct tables *t)
{
    t->triangles = table(t->sizes.triangles, sizeof *t->triangles);
    t->candidates = table(t->sizes.candidates, sizeof *t->candidates);
    t->weights = table(t->sizes.weights, sizeof *t->weights);
    t->rows = table(t->sizes.rows, sizeof *t->rows);
    t->work = table(t->sizes.work, sizeof *t->work);
    return t->triangles && t->candidates && t->weights && t->rows && t->work;
}

static void release(struct tables *t)
{
    free(t->triangles);
    free(t->candidates);
    free(t->weights);
    free(t->rows);
    free(t->work);
}

/* The weight of the row to the triangle, earlier in walk order, that the i-th triangle of the patch hangs on. */
static uint32_t bend_weight(const struct tables *t, size_t i)
{
    for (size_t r = 0; r < t->sizes.rows; r++)
        for (size_t k = 0; k < i; k++)
            if (t->rows[r].inner == t->triangles[i] && t->rows[r].outer == t->triangles[k])
                return t->rows[r].weight;
    return 0;
}

static void print_patch(const struct tables *t, patch_box_patch_answer answer)
{
    printf("patch %zu %zu %llu\n", answer.triangles + 2, answer.triangles, (unsigned long long)answer.total);
    for (size_t i = 0; i < answer.triangles; i++) {
        patch_box_candidate c = t->candidates[t->triangles[i]];
        printf("%u %u %u %lu %lu\n", c.a, c.b, c.c, (unsigned long)t->weights[t->triangles[i]], (unsigned long)bend_weight(t, i));
    }
}

/* The rim's lists, as the calls that take a direct job of n vertices take them. */
#define LISTS(n, t) (n), (t)->candidates, (t)->sizes.candidates, (t)->weights, (t)->sizes.weights, (t)->rows, (t)->sizes.rows

/* Prices the rim's lists as a direct job of n vertices, which has a patch; gives the total. */
static uint64_t print_price(struct tables *t, size_t n)
{
    patch_box_price_answer answer = patch_box_price(LISTS(n, t), t->work, t->sizes.work);
    printf("priced: total %llu\n", (unsigned long long)answer.total);
    return answer.total;
}

/* Patches the job at a total that was agreed on. */
static void print_patched(struct tables *t, size_t n, uint64_t agreed)
{
    patch_box_patch_answer answer = patch_box_patch(LISTS(n, t), agreed, t->triangles, t->sizes.triangles, t->work, t->sizes.work);
    printf("patched at %llu: ", (unsigned long long)agreed);
    if (answer.number != PATCH_BOX_ACCEPTED)
        printf("refused %lu\n", (unsigned long)answer.number);
    else if (answer.triangles == 0)
        printf("none\n");
    else
        printf("patch %zu %zu %llu\n", n, answer.triangles, (unsigned long long)answer.total);
}

/* Judges the patch as one from elsewhere, which may have its triangles in any order, here in the reverse one, and with this total. */
static void print_judgement(struct tables *t, size_t triangles, uint64_t stated)
{
    uint16_t list[PATCH_BOX_MAX_TRIANGLES];
    for (size_t i = 0; i < triangles; i++)
        list[i] = t->triangles[triangles - 1 - i];
    patch_box_judge_answer answer = patch_box_judge(LISTS(triangles + 2, t), list, triangles, stated, t->work, t->sizes.work);
    printf("judged with total %llu: ", (unsigned long long)stated);
    if (answer.number == PATCH_BOX_ACCEPTED)
        printf("accepted %llu\n", (unsigned long long)answer.excess);
    else
        printf("refused %lu\n", (unsigned long)answer.number);
}

/* The calls on a direct job: its price, and its patch at that total and at one more, and judged with both. */
static void print_job(struct tables *t, size_t triangles)
{
    uint64_t total = print_price(t, triangles + 2);
    print_patched(t, triangles + 2, total);
    print_patched(t, triangles + 2, total + 1);
    print_judgement(t, triangles, total);
    print_judgement(t, triangles, total + 1);
}

/* The file and the tables, as the calls that close a rim take them. */
#define LENT(file, t) \
    (file)->bytes, (file)->length, (t)->triangles, (t)->sizes.triangles, (t)->candidates, (t)->sizes.candidates, (t)->weights, (t)->sizes.weights, \
        (t)->rows, (t)->sizes.rows, (t)->work, (t)->sizes.work

/* Closes the rim and prints the answer, and for a patch the calls on the rim's lists; gives the answer's number. */
static uint32_t close_with(struct tables *t, const struct rim_file *file, const struct request *asked)
{
    patch_box_patch_answer answer = asked->limited ? patch_box_rim_within(asked->limit, LENT(file, t)) : patch_box_rim(LENT(file, t));
    if (answer.number == PATCH_BOX_ACCEPTED && answer.triangles == 0) {
        printf("none\n");
    } else if (answer.number == PATCH_BOX_ACCEPTED) {
        print_patch(t, answer);
        print_job(t, answer.triangles);
    }
    return answer.number;
}

/* The same with tables of its own; 0 where there is no memory for them. */
static int close_rim(const struct rim_file *file, const struct request *asked, uint32_t *number)
{
    struct tables t;
    t.sizes = asked->limited ? patch_box_sizes_within(asked->limit, file->bytes, file->length) : patch_box_sizes(file->bytes, file->length);
    *number = t.sizes.number;
    if (*number != PATCH_BOX_ACCEPTED)
        return 1;
    int enough = allocate(&t);
    if (enough)
        *number = close_with(&t, file, asked);
    release(&t);
    return enough;
}

/* Writes the file in the other edition; gives the number. An error of standard output is seen at the end. */
static uint32_t convert(const struct rim_file *file)
{
    static uint8_t out[PATCH_BOX_MAX_FILE];
    patch_box_convert_answer answer = patch_box_convert(file->bytes, file->length, out, sizeof out);
    fwrite(out, 1, answer.length, stdout);
    return answer.number;
}

static int read_file(const char *name, struct rim_file *file)
{
    FILE *opened = fopen(name, "rb");
    if (opened == NULL)
        return 0;
    file->length = fread(file->bytes, 1, sizeof file->bytes, opened);
    int error = ferror(opened) ? errno : 0;
    fclose(opened);
    errno = error;
    return error == 0;
}

/* A limit in digits. The library refuses one that is not from 3 to 64; one that is too high for a size_t becomes the highest. */
static int parse_limit(const char *text, size_t *limit)
{
    *limit = strtoul(text, NULL, 10);
    return text[0] != '\0' && text[strspn(text, "0123456789")] == '\0';
}

/* What is wrong with the words, or null. */
static const char *parse(int count, char **arguments, struct request *asked)
{
    asked->limited = count > 1 && strcmp(arguments[1], "--limit") == 0;
    asked->converts = count > 1 && strcmp(arguments[1], "--convert") == 0;
    if (asked->limited && count > 2 && !parse_limit(arguments[2], &asked->limit))
        return "the limit is no number";
    int before = 1 + 2 * asked->limited + asked->converts;
    if (count != before + 1)
        return "one rim file is expected";
    asked->name = arguments[before];
    return NULL;
}

int main(int count, char **arguments)
{
    static struct rim_file file;
    struct request asked = {0};
    uint32_t number;
    const char *wrong = parse(count, arguments, &asked);
    if (wrong != NULL)
        return fail(wrong, usage);
    if (!read_file(asked.name, &file))
        return fail(asked.name, strerror(errno));
    if (asked.converts)
        number = convert(&file);
    else if (!close_rim(&file, &asked, &number))
        return fail("no memory", strerror(ENOMEM));
    if (number != PATCH_BOX_ACCEPTED)
        printf("refused %lu\n", (unsigned long)number);
    if (ferror(stdout) || fflush(stdout) != 0)
        return fail("the answer cannot be written", strerror(errno));
    return number == PATCH_BOX_ACCEPTED ? 0 : 1;
}
