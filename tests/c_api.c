/* Lists a small directory from C, looks names up in it, checks it, reads its entries, and sees to every number:
   tools/native-staticlib c_api, then
   cc -std=c99 -Wall -Wextra -pedantic -Iinclude tests/c_api.c target/staticlib/libc_api.a -o target/c_api && target/c_api */
#include "ntfs_index.h"
#include <stdio.h>
#include <string.h>

enum { RECORD = 512, ROOT_ENTRY = 32, ROOT_LAST = ROOT_ENTRY + 88, ROOT_SIZE = ROOT_LAST + 24 };

static uint8_t root[ROOT_SIZE];
static uint8_t pool[2 * RECORD];
static uint16_t table[65536];
static int faults;

static void put(uint8_t *at, int bytes, uint64_t n)
{
    for (int i = 0; i < bytes; i++)
        at[i] = (uint8_t)(n >> (8 * i));
}

/* An entry of this length: its flags, and a key of one unit where it has a name; with the flag 1 its subnode's VCN ends it. */
static void put_entry(uint8_t *at, unsigned length, unsigned flags, unsigned name, uint64_t vcn)
{
    put(at + 8, 2, length);
    put(at + 10, 2, name != 0 ? 68 : 0);
    put(at + 12, 2, flags);
    if (name != 0) {
        at[16 + 64] = 1;
        at[16 + 65] = 1;
        put(at + 16 + 66, 2, name);
    }
    if (flags & 1)
        put(at + length - 8, 8, vcn);
}

/* The root: B, and a LAST_ENTRY whose subnode is the second record, with C. */
static void build(void)
{
    put(root, 4, 0x30);
    put(root + 4, 4, 1);
    put(root + 8, 4, RECORD);
    put(root + 12, 4, 1);
    put(root + 16, 4, 16);
    put(root + 20, 4, ROOT_SIZE - 16);
    put(root + 24, 4, ROOT_SIZE - 16);
    put(root + 28, 4, 1);
    put_entry(root + ROOT_ENTRY, 88, 0, 'B', 0);
    put_entry(root + ROOT_LAST, 24, 3, 0, 1);
    uint8_t *second = pool + RECORD;
    memcpy(second, "INDX", 4);
    put(second + 16, 8, 1);
    put(second + 24, 4, 40);
    put(second + 28, 4, 40 + 88 + 16);
    put(second + 32, 4, RECORD - 24);
    put_entry(second + 64, 88, 0, 'C', 0);
    put_entry(second + 64 + 88, 16, 2, 0, 0);
}

static void expect(const char *what, const uint64_t *found, const uint64_t *wanted, size_t n)
{
    for (size_t i = 0; i < n; i++)
        if (found[i] != wanted[i]) {
            printf("%s: number %u is %llu, not %llu\n", what, (unsigned)i, (unsigned long long)found[i], (unsigned long long)wanted[i]);
            faults++;
        }
}

static void expect_step(const char *what, uint64_t allowance, uint64_t *cursor, const uint64_t *wanted)
{
    uint64_t answer[NTFS_ANSWER_WORDS];
    memset(answer, 0xFF, sizeof answer);
    ntfs_step(root, sizeof root, pool, sizeof pool, RECORD, allowance, cursor, answer);
    expect(what, answer, wanted, NTFS_ANSWER_WORDS);
}

static void expect_find(const char *what, uint16_t unit, size_t units, const uint64_t *wanted)
{
    uint64_t answer[NTFS_ANSWER_WORDS];
    memset(answer, 0xFF, sizeof answer);
    ntfs_find(root, sizeof root, pool, sizeof pool, RECORD, table, units, &unit, 1, 9, answer);
    expect(what, answer, wanted, NTFS_ANSWER_WORDS);
}

/* Checks with four marks of 0xFF, of which so many are lent: the answer, and the marks afterwards. */
static void expect_check(const char *what, size_t root_length, size_t units, size_t lent, const uint64_t *wanted, const char *after)
{
    uint64_t answer[NTFS_CHECK_WORDS];
    uint8_t marks[4];
    memset(answer, 0xFF, sizeof answer);
    memset(marks, 0xFF, sizeof marks);
    ntfs_check(root, root_length, pool, sizeof pool, RECORD, table, units, marks, lent, answer);
    expect(what, answer, wanted, NTFS_CHECK_WORDS);
    if (memcmp(marks, after, sizeof marks) != 0) {
        printf("%s: marks %02x %02x %02x %02x\n", what, marks[0], marks[1], marks[2], marks[3]);
        faults++;
    }
}

/* One record of two is reached. */
static void check(void)
{
    static const uint64_t passed[] = {NTFS_PASSED, 0, 1}, no_table[] = {NTFS_REFUSED, NTFS_REFUSED_TABLE_LENGTH, 0};
    static const uint64_t too_short[] = {NTFS_REFUSED, NTFS_REFUSED_MARKS_TOO_SHORT, 0}, short_root[] = {NTFS_REFUSED, NTFS_REFUSED_ROOT_TOO_SHORT, 0};
    static const uint64_t falls[] = {NTFS_REFUSED, NTFS_REFUSED_NAME_FALLS, 1};
    expect_check("check", ROOT_SIZE, 65536, 4, passed, "\0\1\xFF\xFF");
    expect_check("check with marks enough", ROOT_SIZE, 65536, 2, passed, "\0\1\xFF\xFF");
    expect_check("check with a mark too few", ROOT_SIZE, 65536, 1, too_short, "\xFF\xFF\xFF\xFF");
    expect_check("check under a short table", ROOT_SIZE, 65535, 4, no_table, "\xFF\xFF\xFF\xFF");
    expect_check("check of a short root", 31, 65536, 4, short_root, "\xFF\xFF\xFF\xFF");
    put_entry(pool + RECORD + 64, 88, 0, 'a', 0);
    expect_check("check of a name that falls", ROOT_SIZE, 65536, 4, falls, "\0\0\xFF\xFF");
    put_entry(pool + RECORD + 64, 88, 0, 'C', 0);
}

static void expect_name(const char *what, const uint8_t *entry, size_t length, const uint64_t *wanted)
{
    uint64_t answer[NTFS_NAME_WORDS];
    memset(answer, 0xFF, sizeof answer);
    ntfs_entry_name(entry, length, answer);
    expect(what, answer, wanted, NTFS_NAME_WORDS);
}

static const uint64_t named[] = {NTFS_NAMED, 0, 41, 3, 1, 82, 1}, unnamed[] = {NTFS_NONE, 0, 41, 3, 0, 0, 0};
static const uint64_t no_entry[] = {NTFS_REFUSED, NTFS_REFUSED_ENTRY_SIZE, 0, 0, 0, 0, 0};
static const uint64_t outside[] = {NTFS_REFUSED, NTFS_REFUSED_ENTRY_DATA_RANGE, 41, 3, 0, 0, 0};
static const uint64_t unreadable[] = {NTFS_REFUSED, NTFS_REFUSED_KEY_UNREADABLE, 41, 3, 0, 0, 0};

/* An entry of 88 bytes, in more: record 41, sequence 3, the name A. */
static void put_named(uint8_t entry[96])
{
    memset(entry, 0, 96);
    put_entry(entry, 88, 0, 'A', 0);
    put(entry, 6, 41);
    put(entry + 6, 2, 3);
}

static void name_of_entries(void)
{
    static const uint64_t large[] = {NTFS_NAMED, 0, 0xFFFFFFFFFFFF, 0xFFFF, 1, 82, 1};
    uint8_t entry[96];
    put_named(entry);
    expect_name("name", entry, 88, named);
    expect_name("name in more bytes", entry, sizeof entry, named);
    expect_name("entry a byte short", entry, 87, no_entry);
    expect_name("no bytes", entry, 0, no_entry);
    expect_name("bytes for no header", entry, 15, no_entry);
    put(entry + 12, 2, 2);
    expect_name("LAST_ENTRY", entry, 88, unnamed);
    put_named(entry);
    put(entry + 8, 2, 15);
    expect_name("length 15", entry, sizeof entry, no_entry);
    put(entry + 8, 2, 16);
    expect_name("length 16", entry, sizeof entry, outside);
    put_named(entry);
    put(entry, 8, UINT64_MAX);
    expect_name("every bit of the reference", entry, 88, large);
}

static void name_of_keys(void)
{
    static const uint64_t empty[] = {NTFS_NAMED, 0, 41, 3, 3, 82, 0};
    uint8_t entry[96];
    put_named(entry);
    put(entry + 10, 2, 72);
    expect_name("key to the entry's end", entry, 88, named);
    put(entry + 10, 2, 73);
    expect_name("key past the entry's end", entry, sizeof entry, outside);
    put(entry + 10, 2, 67);
    expect_name("key a byte short", entry, 88, unreadable);
    put(entry + 10, 2, 65);
    expect_name("key without a namespace", entry, 88, unreadable);
    put(entry + 10, 2, 0);
    expect_name("no key", entry, 88, unnamed);
    put(entry + 10, 2, 66);
    entry[16 + 64] = 0;
    entry[16 + 65] = 3;
    expect_name("empty name", entry, 88, empty);
    entry[16 + 65] = 4;
    expect_name("namespace 4", entry, 88, unreadable);
}

static uint64_t next_number(void)
{
    static uint64_t seed = 1;
    seed = seed * 6364136223846793005u + 1442695040888963407u;
    return seed;
}

/* Any bytes are safe, and a name told lies in them. */
static void name_of_any_bytes(void)
{
    static const uint8_t fields[] = {8, 10, 12, 16 + 64, 16 + 65};
    uint64_t answer[NTFS_NAME_WORDS], names = 0;
    uint8_t entry[96];
    put_named(entry);
    for (int i = 0; i < 100000; i++) {
        uint64_t seed = 0;
        for (size_t k = 0; k < sizeof fields; k++) {
            seed = next_number();
            entry[fields[k]] = (uint8_t)(seed >> 33 & (k < 2 ? 127 : 7));
        }
        size_t lent = seed >> 50 & 1 ? sizeof entry : seed >> 51 & 63;
        ntfs_entry_name(entry, lent, answer);
        uint64_t end = answer[NTFS_NAME_OFFSET] + 2 * answer[NTFS_NAME_UNITS];
        names += answer[NTFS_WHAT] == NTFS_NAMED;
        if (answer[NTFS_WHAT] > NTFS_REFUSED || end > lent || (answer[NTFS_WHAT] == NTFS_NAMED) != (answer[NTFS_NAME_OFFSET] == 82)) {
            printf("any bytes: round %d\n", i);
            faults++;
        }
    }
    if (names == 0) {
        puts("any bytes: no name");
        faults++;
    }
}

static const uint64_t in_root[] = {NTFS_ENTRY, 0, 0, NTFS_ROOT, ROOT_ENTRY, 88};
static const uint64_t in_pool[] = {NTFS_ENTRY, 0, 1, NTFS_POOL, RECORD + 64, 88};
static const uint64_t end[] = {NTFS_NONE, 0, 1, 0, 0, 0};

static void list(void)
{
    static const uint64_t spent[] = {NTFS_REFUSED, NTFS_REFUSED_ALLOWANCE_SPENT, 0, 0, 0, 0};
    static const uint64_t short_root[] = {NTFS_REFUSED, NTFS_REFUSED_ROOT_TOO_SHORT, 0, 0, 0, 0};
    uint64_t cursor[NTFS_CURSOR_WORDS], fresh[NTFS_CURSOR_WORDS] = {1}, kept[NTFS_CURSOR_WORDS] = {0, 0, 12};
    uint64_t answer[NTFS_ANSWER_WORDS];

    memset(cursor, 0xFF, sizeof cursor);
    ntfs_new_cursor(cursor);
    expect("new cursor", cursor, fresh, NTFS_CURSOR_WORDS);
    expect_step("first", 9, cursor, in_root);
    expect_step("second", 9, cursor, in_pool);
    expect_step("end", 9, cursor, end);
    expect_step("end again", 9, cursor, end);

    ntfs_new_cursor(cursor);
    expect_step("first of none", 0, cursor, in_root);
    expect_step("allowance", 0, cursor, spent);
    expect("refusal kept", cursor, kept, NTFS_CURSOR_WORDS);
    expect_step("allowance again", 9, cursor, spent);

    ntfs_new_cursor(cursor);
    ntfs_step(root, 31, pool, sizeof pool, RECORD, 9, cursor, answer);
    expect("short root", answer, short_root, NTFS_ANSWER_WORDS);
}

static void find(void)
{
    static const uint64_t no_table[] = {NTFS_REFUSED, NTFS_REFUSED_TABLE_LENGTH, 0, 0, 0, 0};
    expect_find("find b", 'b', 65536, in_root);
    expect_find("find c", 'c', 65536, in_pool);
    expect_find("find d", 'd', 65536, end);
    expect_find("find under a short table", 'b', 65535, no_table);
}

/* Any numbers are safe, and an entry told lies in what holds it. */
static void step_of_any_numbers(void)
{
    uint64_t cursor[NTFS_CURSOR_WORDS], answer[NTFS_ANSWER_WORDS];
    for (int i = 0; i < 100000; i++) {
        uint64_t seed = 0;
        for (int k = 0; k < NTFS_CURSOR_WORDS; k++) {
            seed = next_number();
            cursor[k] = (seed >> 40 & 3) ? seed >> 33 & 3 : seed >> (seed >> 58);
        }
        cursor[2] = seed >> 60 ? 0 : cursor[2];
        ntfs_step(root, sizeof root, pool, sizeof pool, RECORD, 9, cursor, answer);
        uint64_t held = answer[NTFS_HOLDER] == NTFS_ROOT ? sizeof root : sizeof pool;
        if (answer[NTFS_WHAT] > NTFS_REFUSED || answer[NTFS_OFFSET] > held || answer[NTFS_SIZE] > held - answer[NTFS_OFFSET]) {
            printf("any numbers: round %d\n", i);
            faults++;
        }
    }
}

/* Each array is written whole, and nothing behind it. */
static void arrays(void)
{
    uint64_t cursor[NTFS_CURSOR_WORDS + 1], answer[NTFS_ANSWER_WORDS + 1], checked[NTFS_CHECK_WORDS + 1], name[NTFS_NAME_WORDS + 1];
    uint8_t marks[4];
    uint16_t unit = 'b';
    memset(cursor, 0xFF, sizeof cursor), memset(answer, 0xFF, sizeof answer);
    memset(checked, 0xFF, sizeof checked), memset(name, 0xFF, sizeof name);
    ntfs_new_cursor(cursor);
    ntfs_step(root, sizeof root, pool, sizeof pool, RECORD, 9, cursor, answer);
    ntfs_find(root, sizeof root, pool, sizeof pool, RECORD, table, 65536, &unit, 1, 9, answer);
    ntfs_check(root, sizeof root, pool, sizeof pool, RECORD, table, 65536, marks, sizeof marks, checked);
    ntfs_entry_name(root, 0, name);
    if (~(cursor[NTFS_CURSOR_WORDS] & answer[NTFS_ANSWER_WORDS] & checked[NTFS_CHECK_WORDS] & name[NTFS_NAME_WORDS])
        || !~cursor[NTFS_CURSOR_WORDS - 1] || !~answer[NTFS_ANSWER_WORDS - 1] || !~checked[NTFS_CHECK_WORDS - 1]
        || !~name[NTFS_NAME_WORDS - 1]) {
        puts("arrays: not written whole, or written past their end");
        faults++;
    }
}

int main(void)
{
    build();
    for (unsigned unit = 0; unit < 65536; unit++)
        table[unit] = (uint16_t)('a' <= unit && unit <= 'z' ? unit - 32 : unit);
    list();
    find();
    check();
    name_of_entries();
    name_of_keys();
    name_of_any_bytes();
    step_of_any_numbers();
    arrays();
    puts(faults == 0 ? "c_api: every number is as it should be" : "c_api: failed");
    return faults != 0;
}
