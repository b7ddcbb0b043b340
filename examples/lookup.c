/* Lists a directory, checks it, and looks a name up in it.

   usage: lookup CAPTURE TABLE NAME
   CAPTURE: a directory's root and records, as tools/stick-to-capture writes them. TABLE: the volume's upcase table, two bytes a unit.
   NAME: in ASCII. Ends with 0 if the name was found, 1 if the directory is sound and does not hold it, 2 if something was refused or could
   not be read. */
#include <stdio.h>
#include <stdlib.h>
#include <string.h>

#include "ntfs_index.h"

/* As many records as a capture can hold may be opened. */
enum { UNITS = 65536, LONGEST = 255, ALLOWANCE = 112 };

struct directory {
    uint8_t root[65536], pool[65536];
    size_t root_length, pool_length, cluster;
};

static size_t number(const uint8_t *bytes, int count) {
    size_t n = 0;
    while (count-- > 0) n = n * 256 + bytes[count];
    return n;
}

static size_t read_file(const char *path, uint8_t *bytes, size_t room) {
    FILE *file = fopen(path, "rb");
    if (!file) {
        perror(path);
        exit(2);
    }
    size_t length = fread(bytes, 1, room, file);
    fclose(file);
    return length;
}

static int fail(const char *what) {
    fprintf(stderr, "%s\n", what);
    return 2;
}

/* A capture's fields: a tag, a length in two bytes, the bytes. 1 is the root, 2 the cluster size, 3 a record; 255 ends it. */
static int read_capture(const char *path, struct directory *d) {
    static uint8_t capture[65536];
    size_t length = read_file(path, capture, sizeof capture), at = 0;
    while (at + 3 <= length) {
        uint8_t tag = capture[at], *value = capture + at + 3;
        size_t size = number(capture + at + 1, 2);
        if (size > length - at - 3) break;
        if (tag == 255) return 0;
        if (tag == 1) memcpy(d->root, value, d->root_length = size);
        else if (tag == 2 && size == 4) d->cluster = number(value, 4);
        else if (tag == 3) memcpy(d->pool + d->pool_length, value, size), d->pool_length += size;
        else break;
        at += 3 + size;
    }
    return fail("no capture");
}

/* An entry's file reference and its name; a unit that is not ASCII is shown as '?'. */
static void print_entry(const struct directory *d, const uint64_t *answer) {
    const uint8_t *entry = (answer[NTFS_HOLDER] == NTFS_ROOT ? d->root : d->pool) + answer[NTFS_OFFSET];
    uint64_t name[NTFS_NAME_WORDS];
    ntfs_entry_name(entry, answer[NTFS_SIZE], name);
    printf("%llu %llu ", (unsigned long long)name[NTFS_RECORD_NUMBER], (unsigned long long)name[NTFS_SEQUENCE]);
    for (uint64_t i = 0; i < name[NTFS_NAME_UNITS]; i++) {
        size_t unit = number(entry + name[NTFS_NAME_OFFSET] + 2 * i, 2);
        putchar(unit >= 32 && unit < 127 ? (int)unit : '?');
    }
    putchar('\n');
}

static int refused(const uint64_t *answer) {
    printf("refused %llu\n", (unsigned long long)answer[NTFS_REFUSAL]);
    return 2;
}

static int list(const struct directory *d) {
    uint64_t cursor[NTFS_CURSOR_WORDS], answer[NTFS_ANSWER_WORDS];
    ntfs_new_cursor(cursor);
    for (;;) {
        ntfs_step(d->root, d->root_length, d->pool, d->pool_length, d->cluster, ALLOWANCE, cursor, answer);
        if (answer[NTFS_WHAT] == NTFS_REFUSED) return refused(answer);
        if (answer[NTFS_WHAT] == NTFS_NONE) return 0;
        print_entry(d, answer);
    }
}

/* Without a pass of the check "not found" would say nothing. */
static int check(const struct directory *d, const uint16_t *table, size_t table_length) {
    static uint8_t marks[sizeof d->pool / 512];
    uint64_t answer[NTFS_CHECK_WORDS];
    ntfs_check(d->root, d->root_length, d->pool, d->pool_length, d->cluster, table, table_length, marks, sizeof marks, answer);
    return answer[NTFS_WHAT] == NTFS_REFUSED ? refused(answer) : 0;
}

static int find(const struct directory *d, const uint16_t *table, size_t table_length, const char *text) {
    uint16_t name[LONGEST + 1];
    size_t length = 0;
    for (; text[length] && length <= LONGEST; length++) {
        if ((unsigned char)text[length] > 127) return fail("NAME is not ASCII");
        name[length] = (unsigned char)text[length];
    }
    uint64_t answer[NTFS_ANSWER_WORDS];
    ntfs_find(d->root, d->root_length, d->pool, d->pool_length, d->cluster, table, table_length, name, length, ALLOWANCE, answer);
    if (answer[NTFS_WHAT] == NTFS_REFUSED) return refused(answer);
    if (answer[NTFS_WHAT] == NTFS_NONE) {
        printf("not found\n");
        return 1;
    }
    printf("found ");
    print_entry(d, answer);
    return 0;
}

int main(int count, char **words) {
    static struct directory d;
    static uint8_t bytes[2 * UNITS + 2];
    static uint16_t table[UNITS + 1];
    if (count != 4) return fail("usage: lookup CAPTURE TABLE NAME");
    if (read_capture(words[1], &d)) return 2;
    size_t units = read_file(words[2], bytes, sizeof bytes) / 2;
    for (size_t i = 0; i < units; i++) table[i] = (uint16_t)number(bytes + 2 * i, 2);
    if (list(&d) || check(&d, table, units)) return 2;
    return find(&d, table, units, words[3]);
}
