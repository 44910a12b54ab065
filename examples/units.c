/* Writes C units of a block file with the proved library: all of them, or one by its number.
 *
 *     lib/archive take librecomp.a
 *     cc -std=c99 -Iinclude examples/units.c librecomp.a -o units
 *     ./units samples/three_blocks.blk . 1048576
 *     ./units samples/three_blocks.blk . 1048576 0
 *
 * units FILE DIR BYTES asks for the lengths of all units (recomp_lengths), lends a text that holds
 * them, and has them all written by one call (recomp_units). units FILE DIR BYTES UNIT has one unit
 * measured (recomp_measure), lends a text of just its length, and gives what was told of it back to
 * have it written (recomp_write).
 */
#include "recomp.h"

#include <stdio.h>
#include <stdlib.h>

/* What is lent to every call: the file, and four work numbers for each of its blocks. */
struct lent {
    uint8_t *file;
    size_t file_len;
    uint64_t blocks;
    uint32_t *work;
    size_t work_len;
};

static void *stop(const char *what) {
    perror(what);
    exit(2);
}

/* Makes room for so many items, never none: the calls ask for pointers that are not null. */
static void *room(void *old, size_t count, size_t size) {
    void *made = count < SIZE_MAX / size ? realloc(old, (count + 1) * size) : NULL;
    return made ? made : stop("memory");
}

static void refused(uint32_t number, uint64_t at) {
    fprintf(stderr, "refused %lu at %llu\n", (unsigned long)number, (unsigned long long)at);
    exit(1);
}

static void read_file(struct lent *lent, const char *path) {
    FILE *in = fopen(path, "rb");
    size_t got;
    if (!in) stop(path);
    do {
        lent->file = room(lent->file, lent->file_len + 65536, 1);
        got = fread(lent->file + lent->file_len, 1, 65536, in);
        lent->file_len += got;
    } while (got > 0);
    if (ferror(in)) stop(path);
    fclose(in);
}

/* The check says how many blocks there are, and so how many work numbers the other calls need. */
static void lend_work(struct lent *lent) {
    uint64_t at, instructions;
    uint32_t number = recomp_check(lent->file, lent->file_len, &at, &lent->blocks, &instructions);
    if (number) refused(number, at);
    lent->work_len = 4 * (size_t)lent->blocks;
    lent->work = room(NULL, lent->work_len, sizeof *lent->work);
}

static void write_file(const char *dir, uint64_t unit, const uint8_t *text, size_t length) {
    char path[4096];
    FILE *out;
    snprintf(path, sizeof path, "%s/unit_%03llu.c", dir, (unsigned long long)unit);
    out = fopen(path, "wb");
    if (!out) stop(path);
    if (fwrite(text, 1, length, out) < length || fclose(out)) stop(path);
}

/* The bytes of all units. `lengths` has a place for the length of each: there are at most as many
 * units as blocks and one more. */
static size_t measure_all(const struct lent *lent, uint64_t size, uint64_t *lengths,
                          size_t lengths_len) {
    uint64_t at, count, done, last;
    size_t bytes = 0;
    uint32_t number = recomp_lengths(lent->file, lent->file_len, size, 0, lent->work,
                                     lent->work_len, lengths, lengths_len, &at, &count, &done,
                                     &last);
    if (number) refused(number, at);
    while (count > 0) bytes += (size_t)lengths[--count];
    return bytes;
}

static void write_all(const struct lent *lent, const char *dir, uint64_t size) {
    uint64_t at, count, length, done, last, unit;
    size_t lengths_len = (size_t)lent->blocks + 1, from = 0;
    uint64_t *lengths = room(NULL, lengths_len, sizeof *lengths);
    size_t text_len = measure_all(lent, size, lengths, lengths_len);
    uint8_t *text = room(NULL, text_len, 1);
    /* There is room for all units, so one call makes them all. */
    uint32_t number = recomp_units(lent->file, lent->file_len, size, 0, lent->work, lent->work_len,
                                   text, text_len, lengths, lengths_len, &at, &count, &length,
                                   &done, &last);
    if (number) refused(number, at);
    for (unit = 0; unit < count; unit++) {
        write_file(dir, unit, text + from, (size_t)lengths[unit]);
        from += (size_t)lengths[unit];
    }
    printf("units %llu, blocks %llu, bytes %llu\n", (unsigned long long)count,
           (unsigned long long)done, (unsigned long long)length);
    free(lengths);
    free(text);
}

static void write_one(const struct lent *lent, const char *dir, uint64_t size, uint64_t wished) {
    uint64_t at, unit, length, done, last;
    uint8_t *text;
    uint32_t number = recomp_measure(lent->file, lent->file_len, size, wished, lent->work,
                                     lent->work_len, &at, &unit, &length, &done, &last);
    if (number) refused(number, at);
    /* Whoever reserves disk does it here: the length is known, and there is no text yet. */
    text = room(NULL, (size_t)length, 1);
    number = recomp_write(lent->file, lent->file_len, size, unit, length, done, last, lent->work,
                          lent->work_len, text, (size_t)length, &at);
    if (number) refused(number, at);
    write_file(dir, unit, text, (size_t)length);
    printf("unit %llu, length %llu, done %llu, last %llu\n", (unsigned long long)unit,
           (unsigned long long)length, (unsigned long long)done, (unsigned long long)last);
    free(text);
}

int main(int argc, char **argv) {
    struct lent lent = {NULL, 0, 0, NULL, 0};
    uint64_t size;
    if (argc != 4 && argc != 5) {
        fprintf(stderr, "usage: units FILE DIR BYTES [UNIT]\n");
        return 2;
    }
    size = strtoull(argv[3], NULL, 10);
    read_file(&lent, argv[1]);
    lend_work(&lent);
    if (argc == 4) {
        write_all(&lent, argv[2], size);
    } else {
        write_one(&lent, argv[2], size, strtoull(argv[4], NULL, 10));
    }
    free(lent.file);
    free(lent.work);
    return 0;
}
