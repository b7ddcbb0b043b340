/* NTFS directory indexes, read with proof: the library for C and C++.

   A directory is lent as three things: its root (the value of $INDEX_ROOT), its pool (the whole value of $INDEX_ALLOCATION, unused records
   too, with update sequences undone; of length 0 where the directory has none), and the cluster size of the volume in bytes. Where
   clusters are larger than index records, VCNs count blocks of 512 bytes: lend 512 as the cluster size there.

   What is lent. A slice is two arguments, a pointer to its first element and its length in elements. A pointer may not be NULL, not
   even where the length is 0: lend any address then. It must be aligned as its type asks. Root, pool, table, name and entry are only read.
   They may overlap each other, but not an array that is written; the two arrays that ntfs_step or ntfs_check writes may not overlap
   either. Nothing else may write to what is lent until the call returns. No pointer is kept after that.

   Whatever the bytes and the numbers, every call ends, reads nothing outside what was lent, and writes only the arrays named for it.
   Nothing is allocated, there is no global state, and calls may run at the same time as long as they write different arrays.
   The library needs memcpy and memset.

   Every number written is fixed by a definition: crates/c_api/specs/Words.antt. */
#ifndef NTFS_INDEX_H
#define NTFS_INDEX_H

#include <stddef.h>
#include <stdint.h>

#ifdef __cplusplus
extern "C" {
#endif

enum {
    NTFS_CURSOR_WORDS = 43,
    NTFS_ANSWER_WORDS = 6,
    NTFS_CHECK_WORDS = 3,
    NTFS_NAME_WORDS = 7
};

/* Which number of an answer is what; that of a check has the first three, that of ntfs_entry_name the first two. All that is not said to
   hold something is 0. */
enum {
    NTFS_WHAT = 0,    /* NTFS_NONE, NTFS_ENTRY or NTFS_REFUSED; of a check NTFS_PASSED or NTFS_REFUSED; of ntfs_entry_name NTFS_NONE,
                         NTFS_NAMED or NTFS_REFUSED */
    NTFS_REFUSAL = 1, /* of a refusal: its number */
    NTFS_OPENED = 2,  /* how many records have been opened so far */
    NTFS_HOLDER = 3,  /* of an entry: NTFS_ROOT or NTFS_POOL, the slice that holds it */
    NTFS_OFFSET = 4,  /* of an entry: where in that slice it begins, in bytes */
    NTFS_SIZE = 5     /* of an entry: its length in bytes */
};

/* The others of ntfs_entry_name. */
enum {
    NTFS_RECORD_NUMBER = 2, /* of the file reference: the number of the file's record */
    NTFS_SEQUENCE = 3,      /* of the file reference: its sequence */
    NTFS_NAMESPACE = 4,     /* of a name: 0 to 3, POSIX, Win32, DOS, Win32 and DOS */
    NTFS_NAME_OFFSET = 5,   /* of a name: where in the entry it begins, in bytes */
    NTFS_NAME_UNITS = 6     /* of a name: how many UTF-16 units it has */
};

enum {
    NTFS_NONE = 0,   /* a listing: the end; a lookup: not found; ntfs_entry_name: the entry has no key */
    NTFS_ENTRY = 1,  /* a listing: the next entry; a lookup: the entry found */
    NTFS_PASSED = 1, /* a check: no fault */
    NTFS_NAMED = 1,  /* ntfs_entry_name: the entry has a name */
    NTFS_REFUSED = 2
};

enum {
    NTFS_ROOT = 0,
    NTFS_POOL = 1
};

/* The refusals. Only the checker gives 21 to 25; 26, malformed capture, is the capture program's. A cursor that ntfs_new_cursor and its
   steps did not make can hold any number from 1 to 26, which a step then repeats. */
enum {
    NTFS_REFUSED_ROOT_TOO_SHORT = 1,         /* root shorter than 32 */
    NTFS_REFUSED_ROOT_START_OUTSIDE = 2,     /* root entries start at or past the root's length */
    NTFS_REFUSED_ROOT_END_OUTSIDE = 3,       /* root used end past its length */
    NTFS_REFUSED_ROOT_START_PAST_END = 4,    /* root entries start past the used end */
    NTFS_REFUSED_LARGE_WITHOUT_POOL = 5,     /* large flag, pool empty */
    NTFS_REFUSED_SIZE_NOT_ALLOWED = 6,       /* record or cluster size not allowed */
    NTFS_REFUSED_POOL_NOT_WHOLE_RECORDS = 7, /* pool not whole records */
    NTFS_REFUSED_ENTRY_SIZE = 8,             /* fewer than 16 bytes remain for an entry, its length is under 16, or exceeds what remains */
    NTFS_REFUSED_ENTRY_DATA_RANGE = 9,       /* key or VCN ends outside the entry */
    NTFS_REFUSED_SUBNODE_WITHOUT_POOL = 10,  /* subnode wanted, pool empty */
    NTFS_REFUSED_TOO_MANY_LEVELS = 11,       /* subnode wanted at level 8 */
    NTFS_REFUSED_ALLOWANCE_SPENT = 12,       /* allowance spent: as many records opened as allowed, or more */
    NTFS_REFUSED_VCN_NOWHERE = 13,           /* VCN lies nowhere */
    NTFS_REFUSED_SIGNATURE = 14,             /* signature not INDX */
    NTFS_REFUSED_ALLOCATED_SIZE = 15,        /* 24 + allocated size over record size */
    NTFS_REFUSED_INDEX_SIZE = 16,            /* index size over allocated size */
    NTFS_REFUSED_OWN_VCN = 17,               /* own VCN not the wanted one */
    NTFS_REFUSED_KEY_UNREADABLE = 18,        /* key unreadable as a file name */
    NTFS_REFUSED_TABLE_LENGTH = 19,          /* table not 65,536 units */
    NTFS_REFUSED_NAME_TOO_LONG = 20,         /* name over 255 units */
    NTFS_REFUSED_MARKS_TOO_SHORT = 21,       /* marks shorter than the number of records */
    NTFS_REFUSED_REACHED_TWICE = 22,         /* record reached twice */
    NTFS_REFUSED_NODE_END = 23,              /* node's end wrong */
    NTFS_REFUSED_KEY_MISSING = 24,           /* entry without LAST_ENTRY has no key */
    NTFS_REFUSED_NAME_FALLS = 25             /* name less than the one listed before it */
};

/* A listing that has not begun: writes all 43 numbers of the cursor.

   To a caller the numbers of a cursor mean nothing. Begin with ntfs_new_cursor, and hand the same array to each step. A copy of them is
   a second listing that goes on from the same place. Any 43 numbers are safe: a step answers something, and never reads outside. What
   they are, for one who looks: depth, records opened, number of the refusal kept or 0; then for each of 8 levels five: 0 the root or
   1 a record, the record's VCN in two's complement, the next start, the stage (0 not begun, 1 going, 2 an entry put off, 3 ended), the
   start of the entry put off. */
void ntfs_new_cursor(uint64_t cursor[NTFS_CURSOR_WORDS]);

/* One step of a listing: the next entry, the end, or a refusal. Writes the 6 numbers of the answer and the 43 of the cursor to go on with.

   allowance: how many records may be opened in all. After the end every step says the end, after a refusal every step repeats it.
   The bytes of an entry are at offset in the slice that holder names, and lie in it. */
void ntfs_step(
    const uint8_t *root, size_t root_length,
    const uint8_t *pool, size_t pool_length,
    size_t cluster, uint64_t allowance,
    uint64_t cursor[NTFS_CURSOR_WORDS], uint64_t answer[NTFS_ANSWER_WORDS]);

/* Lookup of a name: the entry found, not found, or a refusal. Writes the 6 numbers of the answer.

   table: the upcase table of the volume, 65,536 units; name: the name's UTF-16 units, at most 255. Both lengths count units, and units are in
   the machine's own byte order. allowance: how many records may be opened. */
void ntfs_find(
    const uint8_t *root, size_t root_length,
    const uint8_t *pool, size_t pool_length,
    size_t cluster,
    const uint16_t *table, size_t table_length,
    const uint16_t *name, size_t name_length,
    uint64_t allowance, uint64_t answer[NTFS_ANSWER_WORDS]);

/* Checks a whole directory: a pass, or its first fault as a refusal. After a pass ntfs_find, under the same table and with an allowance
   of 7 or more, finds a name of at most 255 units exactly if an entry with an equal name is listed. Writes the 3 numbers of the answer:
   what, the refusal's number or 0, the count of records reached (of a refusal, of those that were in order before the fault). Writes the
   marks.

   table: as for ntfs_find. marks: one byte a record, at least as many as the pool has records, so that a host can see which records no
   path reaches; pool_length / 512 are always enough. After a pass a mark is 1 where its record was reached and 0 where not. On the
   refusals 19, 1 to 7 and 21 (marks too short) no mark changes; on any other the mark of every record is 0. Bytes past the number of
   records never change. What the marks were before does not matter. */
void ntfs_check(
    const uint8_t *root, size_t root_length,
    const uint8_t *pool, size_t pool_length,
    size_t cluster,
    const uint16_t *table, size_t table_length,
    uint8_t *marks, size_t marks_length,
    uint64_t answer[NTFS_CHECK_WORDS]);

/* What an entry says: the file it refers to, and its name. Writes the 7 numbers of the answer.

   entry: the bytes that ntfs_step or ntfs_find told, or any others; where they are more than the entry's own length says, the rest is not
   looked at. The refusals are 8 (the bytes are no entry), 9 (the key ends outside the entry) and 18 (the key is no file name). The file
   reference is told on every answer but 8. The bytes of the name are at the offset told, two for each unit, the low byte first, and lie
   in the bytes lent. */
void ntfs_entry_name(const uint8_t *entry, size_t entry_length, uint64_t answer[NTFS_NAME_WORDS]);

#ifdef __cplusplus
}
#endif

#endif
