/* Tables with several indices in a C program. docs/EMBED.md says how a program is built, docs/PROTOCOL.md what a schema file is.

   There are two ways to call. tc_open, tc_open_folder and what follows them take lines of JSON for all tables of a schema, in memory or
   in a folder that keeps them, and tell answer lines: docs/PROTOCOL.md has them. tc_rows_open and what follows it hold the records of one
   table, and take them as arrays of cells.

       tc_tables tables = TC_CLOSED;
       size_t taken, length;
       char answers[65536];

       if (tc_open(&tables, schema, strlen(schema)) == TC_OK
           && tc_call(&tables, "{\"op\":\"size\",\"t\":\"t\"}\n", 22, &taken) == TC_OK
           && tc_take(&tables, answers, sizeof answers, &length) == TC_OK)
           fwrite(answers, 1, length, stdout);
       tc_close(&tables);

       tc_rows rows = TC_CLOSED;
       tc_handle handle;
       size_t index;

       if (tc_rows_open(&rows, schema, strlen(schema), 0) == TC_OK
           && tc_rows_insert(&rows, (tc_cell[]){{7, TC_INTEGER}, {3, TC_TEXT}}, 2, "ant", 3, &handle, &index) == TC_OK)
           tc_rows_erase(&rows, &handle);
       tc_rows_close(&rows);

   Every length is a number of bytes, and no text ends with a byte 0. No pointer may be NULL, not even where a length is 0. The
   places that one call is given lie apart from one another. What a call reads it has done with when it returns.

   A handle is used by one call at a time, and stays on its thread. Handles know nothing of each other: each may have a thread of
   its own. No call is made from a signal handler, or from a child of fork() in a program with threads. Memory comes from the
   program's malloc, realloc and free, which align to 16 bytes. A call that is refused some tells it, and never ends the program. */
#ifndef THWARTCORNEL_H
#define THWARTCORNEL_H

#include <stdbool.h>
#include <stddef.h>
#include <stdint.h>

#ifdef __cplusplus
extern "C" {
#endif

/* A handle. It begins as TC_CLOSED. The program may move it as a whole, but uses no copy of it, and writes nothing to it. */
typedef struct tc_tables {
    void *at;
    bool is_open;
} tc_tables;

/* A handle of one container: the records of one table. The same holds of it. */
typedef struct tc_rows {
    void *at;
    bool is_open;
} tc_rows;

#define TC_CLOSED {NULL, false}

/* A record's handle: the number of the change that put the record in, and its slot. It may be copied, kept and compared: two are one
   where both numbers are. In its own container it names its record until that is taken out, also while its cells change, and no
   record afterwards. */
typedef struct tc_handle {
    uint64_t stamp;
    uint32_t slot;
} tc_handle;

/* What a cell is. */
enum tc_kind {
    TC_NULL = 0,    /* null; the number says nothing, and is told as 0 */
    TC_INTEGER = 1, /* the number */
    TC_TEXT = 2,    /* a text in UTF-8, of which the number is the length in bytes */
    TC_BOOLEAN = 3  /* true or false: the number is 1 or 0 */
};

/* A cell. The bytes of texts stand apart: a call has one room for those of all its cells, one after another in the cells' order. */
typedef struct tc_cell {
    int64_t number;
    uint8_t kind;
} tc_cell;

/* What a call answers. */
enum tc_status {
    TC_OK = 0,
    TC_MEMORY = 1,   /* memory was refused */
    TC_TOML = 2,     /* the schema is no TOML, */
    TC_SHAPE = 3,    /* lacks a key, or has an unknown one or a value of another type, */
    TC_LIMIT = 4,    /* has a number outside its limits, */
    TC_NAME = 5,     /* a name that is none, or one that stands twice, */
    TC_KEY = 6,      /* or an index whose key does not fit its kind */
    TC_HANDLE = 7,   /* the handle is open already, or is closed */
    TC_ROOM = 8,     /* what is told is longer than the room */
    TC_NONE = 9,     /* there is no such record */
    TC_ROW = 10,     /* the cells are no row of the table */
    TC_SEARCH = 11,  /* the cells are no search key of the index, or the parts no order */
    TC_KIND = 12,    /* no index has the number, or it is of a kind that has no such call */
    TC_STALE = 13,   /* the handle names no record */
    TC_BANNED = 14,  /* another record has the key at a unique index */
    TC_LOST = 15,    /* the same, and the record was taken out */
    TC_FULL = 16,    /* there are as many records as the schema allows */
    TC_SPENT = 17,   /* there were as many changes as can be numbered */
    TC_TABLE = 18,   /* no table of the schema has the number */
    TC_PLACE = 19,   /* the place is greater than the number of records */
    TC_DEVICE = 20,  /* a file or the folder can't be opened, read, made, written or synced */
    TC_TAKEN = 21,   /* another program has the folder, or another handle */
    TC_OTHER = 22,   /* the folder keeps a table of this name that is declared otherwise */
    TC_HURT = 23,    /* what the folder has is not whole, or not of these tables */
    TC_LOG = 24      /* a log can't be written or synced, now or before */
};

/* A column of an order: from its least cell up, where null is least, or from its greatest down. */
typedef struct tc_part {
    size_t column;
    bool falls;
} tc_part;

/* Opens the empty tables of a schema file, of which this is the text. A closed handle is then open.
   Answers TC_OK, or TC_MEMORY, TC_TOML to TC_KEY, or TC_HANDLE for a handle that is open. Then all is as before. */
uint8_t tc_open(tc_tables *tables, const void *schema, size_t length);

/* Opens the tables of a schema file that a folder keeps: with the files, the formats and the lock of table_keeper (docs/KEEPER.md), so
   either may go on where the other left off. The folder is made where it is absent; a start is made as there. With is_synced, no answer
   is told before the logs are synced; without it the system does that, or tc_sync.
   Answers TC_OK, and a closed handle is then open. Or TC_MEMORY, TC_TOML to TC_KEY, TC_DEVICE, TC_TAKEN (a program that was killed has
   its lock for a moment longer: try again), TC_OTHER, TC_HURT (table_keeper --compact tells which file and why), or TC_HANDLE for a
   handle that is open. Then it is as before. */
uint8_t tc_open_folder(tc_tables *tables, const void *schema, size_t length, const void *folder, size_t folder_length, bool is_synced);

/* Syncs the logs of tables that a folder keeps: what was written until now no crash takes away. Answers TC_OK, TC_LOG or TC_HANDLE. */
uint8_t tc_sync(tc_tables *tables);

/* Hands in the next bytes of a stream of lines, cut anywhere: half a line, or many. Each newline ends a line, which is carried
   out, and its answer waits for tc_take. Bytes behind the last newline wait for the next call or for tc_end.
   Answers TC_OK, and *taken is length. Or TC_MEMORY: *taken is less, the lines before that byte are answered, and the line that
   it ends is not carried out, as there is no memory for its answer. Take the answers, and call again with the bytes from *taken on.
   Once tc_take has moved them out there is room for one answer, so a call then takes at least one byte more.
   A line that is refused memory itself is answered {"err":"memory"}, and has changed nothing. TC_HANDLE: the handle is closed,
   and *taken is 0. TC_LOG: the log of the table that a line names can't be written. The lines before it are answered, *taken ends before
   its newline, and the handle takes nothing more: close it, see to the disk, and open the folder again. */
uint8_t tc_call(tc_tables *tables, const void *lines, size_t length, size_t *taken);

/* Ends the stream: a line that has no newline is carried out as if it had one. What is handed in next begins a new line.
   Answers TC_OK, TC_MEMORY (nothing is done: take the answers, and call again), TC_LOG as tc_call does, or TC_HANDLE for a handle that is
   closed. */
uint8_t tc_end(tc_tables *tables);

/* Moves the answers that wait to the front of the room: a line each, in the order of the lines, each with its newline.
   Answers TC_OK, and *length is how many bytes were written, 0 if none waited. Or TC_ROOM: *length is how many wait, the room is
   untouched, and they wait on. TC_HANDLE: the handle is closed, and *length is 0. It takes no memory.
   Of a folder that was opened with is_synced it first syncs each log that has more than is synced. TC_LOG: one of them can't be; *length is
   0, the room is untouched, and they wait on.
   What answers took is used for later ones, and goes back with the tables. */
uint8_t tc_take(tc_tables *tables, void *room, size_t room_length, size_t *length);

/* Ends the tables, and gives all their memory back. The handle is closed, and may be opened again. On a closed one it does nothing. */
void tc_close(tc_tables *tables);

/* The calls on the records of one table. Columns and indices have the numbers of their places in the schema, from 0 on. What a call is
   given it copies; what it tells it writes into places of the caller's, and leaves those alone that it has nothing to tell of. Where
   it answers another status than TC_OK, nothing is changed but by TC_LOST. Each answers TC_HANDLE where the handle is closed, and
   none ends the program. */

/* Opens the empty container of the table of that number in a schema file, of which this is the text.
   Answers TC_OK, or TC_MEMORY, TC_TOML to TC_KEY, TC_TABLE, or TC_HANDLE for a handle that is open. Then all is as before. */
uint8_t tc_rows_open(tc_rows *rows, const void *schema, size_t length, size_t table);

/* Puts a record in: a cell for each column, with all bytes of their texts. It goes after its equals in the indices that are in
   order, and last in the others.
   Answers TC_OK, and *handle is the new record's. TC_BANNED: at the unique index *index, the first such, the record *handle has the
   key. TC_ROW: the cells are not one for each column that the column may hold (a text has at most 4096 bytes), or their texts have
   not just these bytes. Or TC_FULL, TC_SPENT, TC_MEMORY. */
uint8_t tc_rows_insert(tc_rows *rows, const tc_cell *cells, size_t count, const void *texts, size_t length, tc_handle *handle, size_t *index);

/* Puts many records in: one for each of the handles, of which there are `records`. Their cells stand one after another, a cell for each
   column, and so do the bytes of their texts. Each is put in as tc_rows_insert does, in their order, until one is refused: *inserted is
   how many are in, and their handles are in the first places, of which the others are left alone. The last record has all cells and
   bytes that are left, so that too many are no row, and too few neither.
   Answers TC_OK, and all are in. Or what tc_rows_insert answers to the first that is refused; of TC_BANNED *by is the record that has
   the key, and *index the index. TC_HANDLE: *inserted is 0. After TC_MEMORY the records from *inserted on can be handed in again. */
uint8_t tc_rows_insert_all(tc_rows *rows, const tc_cell *cells, size_t count, const void *texts, size_t length, tc_handle *handles, size_t records,
                           size_t *inserted, tc_handle *by, size_t *index);

/* Gives the record *handle other cells, all of them; its handle stays.
   Answers TC_OK. Where another record has the new key at a unique index, *index is the first such index and *handle that record: with
   rollback that is TC_BANNED, and nothing is changed; without, it is TC_LOST, and the record is taken out. Or TC_ROW, TC_STALE,
   TC_SPENT, TC_MEMORY, in this order but for the last. */
uint8_t tc_rows_modify(tc_rows *rows, tc_handle *handle, const tc_cell *cells, size_t count, const void *texts, size_t length, bool rollback, size_t *index);

/* Takes a record out. Answers TC_OK, TC_STALE or TC_SPENT. It takes no memory. */
uint8_t tc_rows_erase(tc_rows *rows, const tc_handle *handle);

/* Takes all records out that have a search key at an index, as tc_rows_find takes one. Answers TC_OK, and *number is how many they
   were. Or TC_KIND, TC_SEARCH, TC_SPENT, TC_MEMORY, and *number is 0. */
uint8_t tc_rows_erase_key(tc_rows *rows, size_t index, const tc_cell *key, size_t count, const void *texts, size_t length, uint64_t *number);

/* Takes all records out. Answers TC_OK or TC_SPENT. It takes no memory. */
uint8_t tc_rows_clear(tc_rows *rows);

/* Puts a record of a sequenced or a random index before the one at a place, counted from 0 while it still stands where it stood. The
   place that is the number of records is the end. Answers TC_OK, or TC_KIND, TC_STALE, TC_PLACE, TC_SPENT. It takes no memory. */
uint8_t tc_rows_move(tc_rows *rows, size_t index, const tc_handle *handle, uint64_t place);

/* Sorts a sequenced or a random index by one to four columns. Records that are equal by them stay as they stand. Records that come
   later are last all the same. Answers TC_OK, or TC_KIND, TC_SEARCH for other parts, TC_SPENT, TC_MEMORY. */
uint8_t tc_rows_sort(tc_rows *rows, size_t index, const tc_part *by, size_t count);

/* Tells the number of records. Answers TC_OK; TC_HANDLE tells 0. */
uint8_t tc_rows_size(tc_rows *rows, uint64_t *size);

/* Moves a record's cells to the front of one room, and the bytes of its texts to the front of another; what lies behind stays.
   Answers TC_OK, and *count is the number of cells and *length that of the bytes. Or TC_ROOM: these say how much room is needed, and
   both rooms are untouched. TC_STALE and TC_HANDLE tell 0 and 0. It takes no memory. */
uint8_t tc_rows_get(tc_rows *rows, const tc_handle *handle, tc_cell *cells, size_t room, void *texts, size_t texts_room, size_t *count, size_t *length);

/* Find a record by a search key of an index: cells for the columns of its key, all of them or the first ones, with the bytes of
   their texts. A hashed index takes whole keys alone. tc_rows_find finds the first record that has the key; in a hashed index the
   one of those that was put in first. On the indices in order, ordered and ranked, tc_rows_lower finds the first record that does
   not come before the key, and tc_rows_upper the first that comes after it.
   They answer TC_OK, and *handle is the record's. Or TC_NONE, TC_KIND, TC_SEARCH, TC_MEMORY. */
uint8_t tc_rows_find(tc_rows *rows, size_t index, const tc_cell *key, size_t count, const void *texts, size_t length, tc_handle *handle);
uint8_t tc_rows_lower(tc_rows *rows, size_t index, const tc_cell *key, size_t count, const void *texts, size_t length, tc_handle *handle);
uint8_t tc_rows_upper(tc_rows *rows, size_t index, const tc_cell *key, size_t count, const void *texts, size_t length, tc_handle *handle);

/* Tells how many records have a search key. An ordered index steps over each, and a hashed one too. Answers TC_OK; TC_KIND, TC_SEARCH,
   TC_MEMORY and TC_HANDLE tell 0. */
uint8_t tc_rows_count(tc_rows *rows, size_t index, const tc_cell *key, size_t count, const void *texts, size_t length, uint64_t *number);

/* Find the first or the last record of an index, in its order, or the one after or before *handle. A hashed index has no order.
   They answer TC_OK, and *handle is the record's. Or TC_NONE, TC_KIND, and of a given handle TC_STALE. They take no memory. */
uint8_t tc_rows_first(tc_rows *rows, size_t index, tc_handle *handle);
uint8_t tc_rows_last(tc_rows *rows, size_t index, tc_handle *handle);
uint8_t tc_rows_next(tc_rows *rows, size_t index, tc_handle *handle);
uint8_t tc_rows_previous(tc_rows *rows, size_t index, tc_handle *handle);

/* Finds the record at a place, counted from 0, of a ranked or a random index. Answers TC_OK, and *handle is the record's. Or TC_NONE,
   TC_KIND. It takes no memory. */
uint8_t tc_rows_nth(tc_rows *rows, size_t index, uint64_t rank, tc_handle *handle);

/* Tell where a record stands, counted from 0: its rank in a ranked index, its place in a random one. They answer TC_OK; TC_KIND,
   TC_STALE and TC_HANDLE tell 0. They take no memory. */
uint8_t tc_rows_rank(tc_rows *rows, size_t index, const tc_handle *handle, uint64_t *rank);
uint8_t tc_rows_place(tc_rows *rows, size_t index, const tc_handle *handle, uint64_t *place);

/* Ends the container, and gives all its memory back. The handle is closed, and may be opened again. On a closed one it does nothing. */
void tc_rows_close(tc_rows *rows);

#ifdef __cplusplus
}
#endif

#endif
