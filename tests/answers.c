/* Answers cases with the archive's functions, a line for each case. Reads the cases of the comparison on standard input:

     list ID CLUSTER ROOT POOL              every step of a listing, until its end or its first refusal
     find ID CLUSTER ROOT POOL NAME TABLE   one lookup
     check ID CLUSTER ROOT POOL MARKS TABLE the checker; MARKS are the bytes of the marks before
     table NAME UNITS                       a table; four hex digits a unit
     table NAME map BASE 0061=0041,...      the table BASE with some units changed; T and I are built in

   Bytes are in hex, `-` is none, `=` for ROOT or POOL those of the case before, `#` starts a comment. Prints ID, entries and ending:

     root:OFFSET:LENGTH:OPENED  pool:OFFSET:LENGTH:OPENED   an entry, with the count of records opened
     end:OPENED  missing:OPENED  refused:NUMBER:OPENED  cut:OPENED   (cut: as many entries as --yields says)
     found:root:OFFSET:LENGTH:OPENED  found:pool:...
     passed:COUNT:MARKS  refused:NUMBER:COUNT:MARKS   of a check, with the bytes of the marks afterwards

   usage: answers [--yields N] [--allowance N] [FILE] */
#define _POSIX_C_SOURCE 200809L
#include <stdint.h>
#include <stdio.h>
#include <stdlib.h>
#include <string.h>

#include "ntfs_index.h"

#define TABLE 65536
#define TABLES 4096

typedef struct {
    char *name;
    uint16_t *units;
    size_t count;
} Table;

typedef struct {
    uint8_t *bytes;
    size_t size;
} Bytes;

static Table tables[TABLES];
static int table_count;
static uint64_t allowance = UINT64_MAX;
static uint64_t yields = 20000;

static void *take(size_t n) {
    void *p = malloc(n + 1);
    if (!p) {
        fprintf(stderr, "answers: out of memory\n");
        exit(2);
    }
    return p;
}

static int digit(int c) {
    if (c >= '0' && c <= '9') return c - '0';
    if (c >= 'a' && c <= 'f') return c - 'a' + 10;
    if (c >= 'A' && c <= 'F') return c - 'A' + 10;
    return -1;
}

/* Hex to bytes of their own allocation, so that a reader past the end can be caught; 0 where it is no hex. */
static int unhex(const char *s, Bytes *b) {
    size_t n = strcmp(s, "-") ? strlen(s) : 0;
    b->size = n / 2;
    b->bytes = malloc(b->size ? b->size : 1);
    if (!b->bytes || n % 2) return 0;
    for (size_t i = 0; i < b->size; i++) {
        int high = digit(s[2 * i]), low = digit(s[2 * i + 1]);
        if (high < 0 || low < 0) return 0;
        b->bytes[i] = (uint8_t)(16 * high + low);
    }
    return 1;
}

/* Four digits a unit, the first two the high byte. */
static int units_of(const char *s, uint16_t **units, size_t *count) {
    Bytes b;
    if (!unhex(s, &b) || b.size % 2) {
        free(b.bytes);
        return 0;
    }
    *count = b.size / 2;
    *units = take(b.size);
    for (size_t i = 0; i < *count; i++) (*units)[i] = (uint16_t)(256 * b.bytes[2 * i] + b.bytes[2 * i + 1]);
    free(b.bytes);
    return 1;
}

/* A field's bytes in place of the ones held; `=` leaves them. */
static int hold(const char *s, Bytes *held) {
    if (!strcmp(s, "=")) return held->bytes != NULL;
    free(held->bytes);
    return unhex(s, held);
}

static Table *table_named(const char *name) {
    for (int i = 0; i < table_count; i++)
        if (!strcmp(tables[i].name, name)) return &tables[i];
    return NULL;
}

static int keep_table(const char *name, uint16_t *units, size_t count) {
    Table *t = table_named(name);
    if (!t) {
        if (table_count == TABLES) return 0;
        t = &tables[table_count++];
        t->name = take(strlen(name));
        strcpy(t->name, name);
    } else {
        free(t->units);
    }
    t->units = units;
    t->count = count;
    return 1;
}

/* The identity; with `upper` a to z lose 32. */
static void built_in(const char *name, int upper) {
    uint16_t *units = take(TABLE * sizeof *units);
    for (int u = 0; u < TABLE; u++) units[u] = (uint16_t)(upper && u >= 0x61 && u <= 0x7A ? u - 32 : u);
    keep_table(name, units, TABLE);
}

static int table_from_map(const char *name, const char *base, char *pairs) {
    Table *t = table_named(base);
    if (!t) return 0;
    uint16_t *units = take(t->count * sizeof *units);
    memcpy(units, t->units, t->count * sizeof *units);
    for (char *pair = strtok(pairs, ","); pair; pair = strtok(NULL, ",")) {
        unsigned from, to;
        if (sscanf(pair, "%4x=%4x", &from, &to) != 2 || from >= t->count) {
            free(units);
            return 0;
        }
        units[from] = (uint16_t)to;
    }
    return keep_table(name, units, t->count);
}

static int define_table(char **field, int n) {
    uint16_t *units;
    size_t count;
    if (n == 3) return units_of(field[2], &units, &count) && keep_table(field[1], units, count);
    if (n == 5 && !strcmp(field[2], "map")) return table_from_map(field[1], field[3], field[4]);
    return 0;
}

static void print_number(const char *before, uint64_t n) {
    printf("%s%llu", before, (unsigned long long)n);
}

static void print_entry(const uint64_t *answer) {
    print_number(answer[NTFS_HOLDER] == NTFS_POOL ? "pool:" : "root:", answer[NTFS_OFFSET]);
    print_number(":", answer[NTFS_SIZE]);
    print_number(":", answer[NTFS_OPENED]);
}

static void print_ending(const char *end, const uint64_t *answer) {
    if (answer[NTFS_WHAT] == NTFS_REFUSED) print_number(" refused:", answer[NTFS_REFUSAL]);
    else printf(" %s", end);
    print_number(":", answer[NTFS_OPENED]);
}

static void list(size_t cluster, Bytes root, Bytes pool) {
    uint64_t cursor[NTFS_CURSOR_WORDS], answer[NTFS_ANSWER_WORDS] = {0};
    ntfs_new_cursor(cursor);
    for (uint64_t k = 0; k < yields; k++) {
        ntfs_step(root.bytes, root.size, pool.bytes, pool.size, cluster, allowance, cursor, answer);
        if (answer[NTFS_WHAT] != NTFS_ENTRY) {
            print_ending("end", answer);
            return;
        }
        putchar(' ');
        print_entry(answer);
    }
    print_ending("cut", answer);
}

static void find(size_t cluster, Bytes root, Bytes pool, const Table *t, const uint16_t *name, size_t count) {
    uint64_t answer[NTFS_ANSWER_WORDS] = {0};
    ntfs_find(root.bytes, root.size, pool.bytes, pool.size, cluster, t->units, t->count, name, count, allowance, answer);
    if (answer[NTFS_WHAT] == NTFS_ENTRY) {
        printf(" found:");
        print_entry(answer);
    } else {
        print_ending("missing", answer);
    }
}

static void print_bytes(Bytes b) {
    if (!b.size) putchar('-');
    for (size_t i = 0; i < b.size; i++) printf("%02x", b.bytes[i]);
}

static void check(size_t cluster, Bytes root, Bytes pool, const Table *t, Bytes marks) {
    uint64_t answer[NTFS_CHECK_WORDS];
    memset(answer, 0xFF, sizeof answer);
    ntfs_check(root.bytes, root.size, pool.bytes, pool.size, cluster, t->units, t->count, marks.bytes, marks.size, answer);
    if (answer[NTFS_WHAT] == NTFS_PASSED && answer[NTFS_REFUSAL] == 0) print_number(" passed:", answer[NTFS_OPENED]);
    else print_ending("odd", answer);
    putchar(':');
    print_bytes(marks);
}

/* A check's or a lookup's last two fields. 0 where they cannot be read. */
static int ask(char **field, size_t cluster, Bytes root, Bytes pool) {
    Table *t = table_named(field[6]);
    if (!strcmp(field[0], "check")) {
        Bytes marks;
        int fine = unhex(field[5], &marks) && t;
        if (fine) check(cluster, root, pool, t, marks);
        free(marks.bytes);
        return fine;
    }
    uint16_t *name;
    size_t count;
    if (!t || !units_of(field[5], &name, &count)) return 0;
    find(cluster, root, pool, t, name, count);
    free(name);
    return 1;
}

/* What every kind of case has: cluster, root, pool. 0 where they cannot be read. */
static int run_case(char **field, int n) {
    int listing = !strcmp(field[0], "list");
    if (n != (listing ? 5 : 7)) return 0;
    char *end;
    size_t cluster = strtoull(field[2], &end, 10);
    static Bytes root, pool;
    if (!hold(field[3], &root) || !hold(field[4], &pool) || *end) return 0;
    if (!listing) return ask(field, cluster, root, pool);
    list(cluster, root, pool);
    return 1;
}

static int is_case(const char *word) {
    return !strcmp(word, "list") || !strcmp(word, "find") || !strcmp(word, "check");
}

static int split(char *line, char **field, int most) {
    int n = 0;
    for (char *s = strtok(line, " \t\r\n"); s && n < most; s = strtok(NULL, " \t\r\n")) field[n++] = s;
    return n;
}

static void answer_line(char *line) {
    char *field[8];
    int n = split(line, field, 8);
    if (!n || field[0][0] == '#') return;
    if (!strcmp(field[0], "table")) {
        if (n < 3 || !define_table(field, n)) printf("%s bad line\n", n > 1 ? field[1] : "?");
        return;
    }
    printf("%s", n > 1 ? field[1] : "?");
    if (n < 2 || !is_case(field[0]) || !run_case(field, n)) printf(" bad line");
    putchar('\n');
}

int main(int argc, char **argv) {
    FILE *input = stdin;
    for (int i = 1; i < argc; i++) {
        if (!strcmp(argv[i], "--yields") && i + 1 < argc) yields = strtoull(argv[++i], NULL, 10);
        else if (!strcmp(argv[i], "--allowance") && i + 1 < argc) allowance = strtoull(argv[++i], NULL, 10);
        else if (!(input = fopen(argv[i], "r"))) {
            fprintf(stderr, "answers: there is no file '%s'\n", argv[i]);
            return 2;
        }
    }
    built_in("T", 1);
    built_in("I", 0);
    char *line = NULL;
    size_t room = 0;
    while (getline(&line, &room, input) != -1) answer_line(line);
    free(line);
    return 0;
}
