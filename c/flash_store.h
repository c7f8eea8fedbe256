/*
 * The flash store of the telemetry box, for C on x86-64 Linux. Link crates/flash_store/out/libflash_store.a, which
 * `rt lib`, in crates/flash_store, proves and builds.
 *
 * The chip is the model that the caller lends: its cells, page register, program history and command interface are
 * buffers in memory. No call touches hardware. Array, page register, history, interface and state are all handed to
 * the next call as the last call left them.
 *
 * Start with struct flash_store, struct flash_store_call and the functions flash_store_do_..., at the end of this file:
 *   a new chip       array all FFh but for factory marks, history all 0, interface and state all 0; then format
 *   power returns    interface and state all 0, page_register any bytes; array and history as they were left; then mount, or
 *                    quick mount: either brings back the same pages
 *   a used chip      to be given to another box: as where power returns, then format, which keeps its list of bad blocks
 *   an update        a chip that an older version wrote, up to 4.6 with sequence numbers of 32 bits, up to 4.12 with plain pages: as
 *                    where power returns. The mount keeps every page, and nothing is converted: a logical block is stored in the new
 *                    way when it is next written or erased, and its other pages go along. No way back: an older version cannot read
 *                    what a newer one wrote, and may write over it
 *   a call           a product passes no mask, no fate words and FLASH_STORE_UNCUT; mask, fates and allowance are for tests,
 *                    which make the model fail, fall silent or lose power by them
 *   the line         write_protected of each call tells whether the chip's write-protect line is low
 *   the cells        hold the main bytes of data pages whitened, XORed with a bit stream of the page's place in its block
 *                    (docs/FORMAT.md): look at pages by a read, not in the array
 *
 * Stack that a call takes, measured as docs/BENCHMARKS.md says: format under 165,000 bytes, mount and quick mount under 85,000,
 * read under 90,000, write under 145,000, erase under 135,000, append under 185,000, takings under 90,000, identify under 30,000, the
 * dearest write under 1,000. No call takes memory from a heap, and the library keeps nothing between calls.
 */
#ifndef FLASH_STORE_H
#define FLASH_STORE_H

#include <stddef.h>
#include <stdint.h>

#ifdef __cplusplus
extern "C" {
static_assert(sizeof(size_t) == 8, "the library is built for a size_t of 8 bytes");
#else
_Static_assert(sizeof(size_t) == 8, "the library is built for a size_t of 8 bytes");
#endif

/* The version of this header and its archive: docs/CHANGES.md. */
#define FLASH_STORE_VERSION "4.13"

/*
 * The answers, in the order in which they are tested; SILENT and CUT come as they happen, CUT first. An append tests 16 and 2 after it has
 * read the journal: see there.
 */
enum flash_store_answer {
    FLASH_STORE_DONE = 0,
    FLASH_STORE_BAD_BUFFER = 100, /* state, interface, sent, finished, sizes, cycles, number or takings has the wrong length: no cycle,
                                     nothing changed */
    FLASH_STORE_GEOMETRY = 1,     /* a limit broken, or the chip or the mask has the wrong length: no cycle, nothing changed;
                                     of identify see there */
    FLASH_STORE_MOUNT_FIRST = 7,  /* state not mounted, or stopped by 8 to 11 or 255, or its open write names a block or page that is not
                                     on the chip: no cycle, nothing changed */
    FLASH_STORE_WRITE_OPEN = 15,  /* write, erase, open_write, append, format of a mounted state: a write is open; advance: none is. No
                                     cycle, nothing changed */
    FLASH_STORE_NOT_IN_FORCE = 16, /* append: the record to replace is not there, or was replaced before: state, array and history
                                     unchanged */
    FLASH_STORE_ADDRESS = 2,      /* no such logical block or page: no cycle, nothing changed; append: no room for one record more, state,
                                     array and history unchanged; of the dearest write see there */
    FLASH_STORE_LENGTH = 3,       /* page buffer not main bytes long: no cycle, nothing changed; of the dearest write see there */
    FLASH_STORE_NO_TABLE = 4,     /* no complete table: not mounted, chip unchanged */
    FLASH_STORE_WRONG_TABLE = 5,  /* the current table is wrong: not mounted, chip unchanged */
    FLASH_STORE_CLASH = 6,        /* two blocks with one number, or a copy of a logical block >= N: not mounted, chip unchanged */
    FLASH_STORE_PROTECTED = 13,   /* format, write, erase, open_write, append: the write-protect line is low. The state is the one handed in,
                                     array and history are unchanged; only the interface moves on, and the page register of a formatting
                                     or an append */
    FLASH_STORE_SPENT = 9,        /* a block is to be filled, and sequence number 18,446,744,073,709,551,615 is taken: stopped */
    FLASH_STORE_WORN = 8,         /* no block left: stopped */
    FLASH_STORE_NO_SIZES = 12,    /* identify: no copy of the parameter page is good: state and chip unchanged */
    FLASH_STORE_SILENT = 10,      /* 256 status reads of one operation all busy: stopped */
    FLASH_STORE_CUT = 11,         /* the allowed cycles are used and another is due: stopped */
    FLASH_STORE_ILLEGAL = 255     /* a read, write, erase, open_write, advance, append or takings was handed the interface of a chip that is
                                     not ready: stopped (docs/DECISIONS.md) */
};

/*
 * What to do then. After 8 to 11 and 255 the state is stopped: a mount or a formatting comes next. A chip whose last
 * formatting was answered 0, and that nothing but this store changed since, never gives a mount with the same geometry 4 to 6.
 *   1, 2, 3, 100       put the numbers and lengths of the call right
 *   7 MOUNT_FIRST      mount
 *   15 WRITE_OPEN      advance until the write is finished, or mount, which gives it up
 *   16 NOT_IN_FORCE    replace the record that replaced it, or none
 *   2 of an append     the journal is full: settle the takings, then format, or take another chip
 *   4 NO_TABLE         the chip was not formatted with this geometry and answer 0: take the right one, or format
 *   5 WRONG_TABLE      the same, or another number of logical blocks
 *   6 CLASH            the chip holds what this store does not leave: format, which gives up all pages
 *   13 PROTECTED       release the write-protect line and make the same call again. A state that was mounted still is: reads go
 *                      on, and no mount brings the request back
 *   9 SPENT            mount, read what is to be kept, format. Sequence numbers go on over a formatting: it finds the last number
 *                      on the chip, erases the pages and is answered 9 too. Format again: 0 where the number was on an erased
 *                      page; where the table or a bad block bears it, 9 comes each time: take another chip. Each block that is
 *                      filled takes one number, so that no box comes this far: the state or the chip held a number that this
 *                      store did not count up to
 *   8 WORN             write, erase: mount, read what is to be kept, take another chip. Format: fewer logical blocks, or another chip
 *   12 NO_SIZES        ask again; else take the sizes from the data sheet
 *   10 SILENT          mount; silent again, the chip has no power or is broken. Format: format again
 *   11 CUT             when power returns mount, and read whether the write or erase was stored; of an append see there. Format:
 *                      format again
 *   255 ILLEGAL        the interface was not what the last call left: mount
 */

enum {
    FLASH_STORE_STATE_BYTES = 17520,  /* the mounted state with its open write, laid out as docs/FORMAT.md says. Bytes 24 to 31, low byte first, are one
                                         less than the next sequence number: the greatest found or taken, 0 for none */
    FLASH_STORE_INTERFACE_WORDS = 12, /* the chip's command interface, laid out as docs/FORMAT.md says; all 0 at power on */
    FLASH_STORE_PROTECTED_WORD = 11,  /* which of them is the write-protect line: not 0 where it is low */
    FLASH_STORE_PARAMETER_BYTES = 768 /* the chip's parameter page: three copies of 256 bytes (002, Table 13) */
};

/* The largest allowance cuts nothing. */
#define FLASH_STORE_UNCUT UINT32_MAX

/*
 * The plain calls. Every buffer is lent as a pointer and the number of its elements, in this order. Any numbers, lengths
 * and contents get an answer. The caller sees to what no call can test: each pointer points to as many elements as its
 * length says, aligned for their type, not NULL (not even with length 0), and no buffer that a call writes overlaps
 * another buffer of the same call.
 *
 * What all of them take:
 *   main, spare         bytes of a page: 32 to 4,096 and 16 to 256
 *   pages               pages of a block: 4, 8, 16, 32 or 64
 *   blocks              blocks of the chip: 4 to 4,096, at most 8 x (main - 8)
 *   logical             logical blocks, N: 1 to blocks - 2
 *   state               FLASH_STORE_STATE_BYTES; any bytes before the first mount or formatting, then as the last call left them
 *   interface           FLASH_STORE_INTERFACE_WORDS; all 0 at power on, then as the last call left them, but for the word
 *                       FLASH_STORE_PROTECTED_WORD, which the caller sets before each call: not 0 where the write-protect line is
 *                       low. The line is fixed during a call and may change from one to the next. No call changes the word
 *   array               (main + spare) x pages x blocks bytes: the cells of the chip; FFh for a new chip but for factory marks,
 *                       then as the last call left them
 *   page_register       main + spare bytes: the chip's page register; any bytes before the first call, then as the last call
 *                       left it
 *   history             one byte a block: the lowest page that may be programmed, 255 after an erase that did not pass; 0 for a
 *                       new chip, then as the last call left it
 *   mask                (main + spare) x pages bytes: which bits an operation takes that does not pass
 *   fates               a word for each read, program and erase, in order: bits 0 to 15 the busy status reads, bit 16 failed;
 *                       after the last word all pass
 *   allowed             cycles before a cut
 *   sent                1: set to the cycles sent, with every answer but BAD_BUFFER
 * state, interface, array, page_register, history and sent are written; mask, fates and the bytes of a write are not. The
 * answer is returned.
 *
 * Format, write, erase and append look at the write-protect line, by two cycles that read the chip's status: format once it has read
 * every page, append once it has read the journal, write and erase before they take a sequence number. Mount, quick mount, read,
 * takings and identify do not, and work with the line low.
 */

/*
 * Formats the chip: reads every page, erases the blocks and fills a table. Mounted with answer 0, and every logical page reads FFh.
 *   what is kept        the list of bad blocks that the current table holds, but only if the table is laid out rightly, is one for
 *                       as many blocks (it may name another number of logical blocks) and does not list its own block. The blocks
 *                       on it are neither erased nor programmed, and old copies in them never show again. Blocks with a factory
 *                       mark are not touched either, and need no list
 *   what is not         pages; and the list of any other table, or of a chip whose table is gone: then every unmarked block is erased,
 *                       and a bad one is found when it fails again
 *   cut or silent       format again, for the same or another number of logical blocks. The old table is erased last, once the new
 *                       one is complete, so no entry of the list is lost, wherever formattings are cut and however often, on a chip
 *                       whose unmarked blocks hold what this store left there
 *   numbers             go on from the greatest on any whole page of an unmarked block: see SPENT
 * It costs a mount and little more: on the 002 part, unbusied and with no bad block, 573,215,308 cycles.
 */
size_t flash_store_format(size_t main, size_t spare, size_t pages, size_t blocks, size_t logical, uint8_t *state,
                          size_t state_len, size_t *interface, size_t interface_len, uint8_t *array, size_t array_len,
                          uint8_t *page_register, size_t page_register_len, uint8_t *history, size_t history_len,
                          const uint8_t *mask, size_t mask_len, const uint32_t *fates, size_t fates_len,
                          uint32_t allowed, size_t *sent, size_t sent_len);

/* Mounts: reads every page and leaves array and history as they are. Mounted with answer 0. */
size_t flash_store_mount(size_t main, size_t spare, size_t pages, size_t blocks, size_t logical, uint8_t *state,
                         size_t state_len, size_t *interface, size_t interface_len, uint8_t *array, size_t array_len,
                         uint8_t *page_register, size_t page_register_len, uint8_t *history, size_t history_len,
                         const uint8_t *mask, size_t mask_len, const uint32_t *fates, size_t fates_len,
                         uint32_t allowed, size_t *sent, size_t sent_len);

/*
 * Mounts quickly: of each block it reads the first page, the last page and the mark byte of page 1, and the other pages only where
 * the first and the last are both whole. It gives the answers of a mount, and its state the same copies, table, marks and list;
 * every other call takes the one state as the other, in any mixture. Only the next sequence number and the block filled last come
 * from the pages read, and may lie below a full mount's.
 *   when to use which   quick where the driver waits: a part that holds little is mounted in a small part of the time. A full
 *                       chip costs one short read a block more than a mount; there it gains nothing
 * On the 002 part, unbusied: 18,088,303 cycles just formatted, 573,091,843 with every block filled; a mount sends 573,046,787.
 */
size_t flash_store_quick_mount(size_t main, size_t spare, size_t pages, size_t blocks, size_t logical, uint8_t *state,
                               size_t state_len, size_t *interface, size_t interface_len, uint8_t *array,
                               size_t array_len, uint8_t *page_register, size_t page_register_len, uint8_t *history,
                               size_t history_len, const uint8_t *mask, size_t mask_len, const uint32_t *fates,
                               size_t fates_len, uint32_t allowed, size_t *sent, size_t sent_len);

/* Reads page `page` of logical block `block` into buffer, main bytes long, which changes with answer 0 only. */
size_t flash_store_read(size_t main, size_t spare, size_t pages, size_t blocks, size_t logical, uint8_t *state,
                        size_t state_len, size_t *interface, size_t interface_len, uint8_t *array, size_t array_len,
                        uint8_t *page_register, size_t page_register_len, uint8_t *history, size_t history_len,
                        const uint8_t *mask, size_t mask_len, const uint32_t *fates, size_t fates_len,
                        uint32_t allowed, size_t *sent, size_t sent_len, size_t block, size_t page, uint8_t *buffer,
                        size_t buffer_len);

/*
 * Writes bytes, main bytes long, to page `page` of logical block `block`. Stored with answer 0. On a chip once formatted with
 * answer 0, a write or erase answered 8 to 11 shows after the next mount answered 0 either whole or not at all, and no other
 * page changes; one answered 13 never shows.
 */
size_t flash_store_write(size_t main, size_t spare, size_t pages, size_t blocks, size_t logical, uint8_t *state,
                         size_t state_len, size_t *interface, size_t interface_len, uint8_t *array, size_t array_len,
                         uint8_t *page_register, size_t page_register_len, uint8_t *history, size_t history_len,
                         const uint8_t *mask, size_t mask_len, const uint32_t *fates, size_t fates_len,
                         uint32_t allowed, size_t *sent, size_t sent_len, size_t block, size_t page,
                         const uint8_t *bytes, size_t bytes_len);

/*
 * Opens a write of bytes, main bytes long, to page `page` of logical block `block`, so that reads can come while it goes on. It sends the two
 * cycles of the status read and no more; the bytes are kept in the state. With answer 0 the write is open, and nothing is stored yet.
 *   reads               are answered while it is open: the page shows its old bytes until the new copy of its block is filled, then the new
 *   given up            by a mount or quick mount not answered 1, and by an answer 8 to 11 or 255 to any call: as a write answered so, it shows after
 *                       the next mount answered 0 either whole or not at all
 *   the line            is not to change while a write is open: an advance does not look at it, and answers 255 where it is low
 */
size_t flash_store_open_write(size_t main, size_t spare, size_t pages, size_t blocks, size_t logical, uint8_t *state,
                              size_t state_len, size_t *interface, size_t interface_len, uint8_t *array,
                              size_t array_len, uint8_t *page_register, size_t page_register_len, uint8_t *history,
                              size_t history_len, const uint8_t *mask, size_t mask_len, const uint32_t *fates,
                              size_t fates_len, uint32_t allowed, size_t *sent, size_t sent_len, size_t block,
                              size_t page, const uint8_t *bytes, size_t bytes_len);

/*
 * Goes on with the write that is open: sends `most` page programs, passed or failed, those of a table included, fewer only where the write
 * finishes or stops; the erase and the kept read that are due come just before each. finished is set to 1 where the write is stored, which
 * acknowledges it, else to 0; with BAD_BUFFER it stays. Answer 0 and finished 0: the write is still open. Finished in any portions it
 * leaves what a plain write leaves, and sends as many cycles in all.
 */
size_t flash_store_advance(size_t main, size_t spare, size_t pages, size_t blocks, size_t logical, uint8_t *state,
                           size_t state_len, size_t *interface, size_t interface_len, uint8_t *array, size_t array_len,
                           uint8_t *page_register, size_t page_register_len, uint8_t *history, size_t history_len,
                           const uint8_t *mask, size_t mask_len, const uint32_t *fates, size_t fates_len,
                           uint32_t allowed, size_t *sent, size_t sent_len, uint64_t most, size_t *finished,
                           size_t finished_len);

/* Erases logical block `block`: all its pages read FFh. Stored with answer 0; answered 8 to 11, as a write. */
size_t flash_store_erase(size_t main, size_t spare, size_t pages, size_t blocks, size_t logical, uint8_t *state,
                         size_t state_len, size_t *interface, size_t interface_len, uint8_t *array, size_t array_len,
                         uint8_t *page_register, size_t page_register_len, uint8_t *history, size_t history_len,
                         const uint8_t *mask, size_t mask_len, const uint32_t *fates, size_t fates_len,
                         uint32_t allowed, size_t *sent, size_t sent_len, size_t block);

/*
 * The journal of sales: a record a page, from page 0 of logical block 0 on, over pages that were erased (a formatting leaves them so) and
 * that nothing else writes. A record, low bytes first, and FFh in the rest of the page:
 *   bytes 0, 1          its number, from 1 on
 *   byte 2              selection
 *   bytes 3, 4          count
 *   bytes 5 to 8        price in cents
 *   bytes 9, 10         the number of an earlier record that it replaces, 0 for none
 * The journal ends before the first page that is not the next record: one with another number, with a number to replace that is not
 * below its own, or with another byte behind. It takes at most 65,535 records, and at most logical x pages. A record is in force if no
 * record replaces it. One that was replaced stays out of force, even where the record that replaced it is replaced in its turn.
 */

/*
 * Appends a record; it is one write, stored with answer 0. It replaces the record numbered `replaces`, which must be in force, or none
 * where that is 0: a refund is a record with count 0 in place of the sale.
 *   number              1: set to the record's number, with every answer but BAD_BUFFER; 0 unless it is 0
 * Answers: GEOMETRY, MOUNT_FIRST, WRITE_OPEN; then the journal is read to its end, each page once (SILENT, CUT); then NOT_IN_FORCE and
 * ADDRESS, which is for a full journal; then as a write: PROTECTED, SPENT, WORN, SILENT, CUT. LENGTH never comes.
 *   what stands         answered 8 to 11, after the next mount answered 0 the record stands whole or not at all, and no other changes: the
 *                       takings are those with it or without. The next append's number tells which
 *   what it costs       main + 10 cycles, unbusied, for each record and the page after them, then a write; never more than 3,851,267,833.
 *                       8,192 bytes of its stack tell which records are replaced
 */
size_t flash_store_append(size_t main, size_t spare, size_t pages, size_t blocks, size_t logical, uint8_t *state,
                          size_t state_len, size_t *interface, size_t interface_len, uint8_t *array, size_t array_len,
                          uint8_t *page_register, size_t page_register_len, uint8_t *history, size_t history_len,
                          const uint8_t *mask, size_t mask_len, const uint32_t *fates, size_t fates_len,
                          uint32_t allowed, size_t *sent, size_t sent_len, uint8_t selection, uint16_t count,
                          uint32_t price, uint16_t replaces, size_t *number, size_t number_len);

/*
 * The takings in cents: the sum of count times price over the records in force. 65,535 of them always fit.
 *   takings             1: set to the sum, with every answer but BAD_BUFFER; 0 unless it is 0
 * Answers: GEOMETRY, MOUNT_FIRST, then SILENT and CUT, which stop the state as those of a read do. It is answered while a write is open
 * and with the line low; array, history and a state that goes on are left as they are. It reads the journal as an append does, then the
 * first 9 bytes of each record in force, in 19 cycles unbusied; never more than 303,754,725. 8,192 bytes of its stack tell which records
 * are replaced.
 */
size_t flash_store_takings(size_t main, size_t spare, size_t pages, size_t blocks, size_t logical, uint8_t *state,
                           size_t state_len, size_t *interface, size_t interface_len, uint8_t *array, size_t array_len,
                           uint8_t *page_register, size_t page_register_len, uint8_t *history, size_t history_len,
                           const uint8_t *mask, size_t mask_len, const uint32_t *fates, size_t fates_len,
                           uint32_t allowed, size_t *sent, size_t sent_len, uint64_t *takings, size_t takings_len);

/*
 * Lets the chip tell its size, before it is formatted or mounted: resets it and reads its parameter page, of which the first
 * good copy counts. Takes logical, and state to sent as above; array, page_register, history and mask may have any length.
 *   parameters          FLASH_STORE_PARAMETER_BYTES: the parameter page that the chip puts out, lent like its other memory; with
 *                       another length GEOMETRY, no cycle
 *   sizes               4: set to main, spare, pages and blocks, with every answer but BAD_BUFFER; four zeros unless it is 0
 * A copy is good if it starts with the bytes "ONFI" and its bytes 254 and 255 hold the CRC of those before them, low byte first
 * (ONFI 1.0: polynomial 8005h, start 4F4Eh). NO_SIZES comes before GEOMETRY is tested on what was read and logical. The reading
 * takes one fate word and cannot fail. SILENT and CUT stop the state; otherwise state and chip stay as they are, and only the
 * interface moves on.
 */
size_t flash_store_identify(size_t logical, uint8_t *state, size_t state_len, size_t *interface, size_t interface_len,
                            uint8_t *array, size_t array_len, uint8_t *page_register, size_t page_register_len,
                            uint8_t *history, size_t history_len, const uint8_t *mask, size_t mask_len,
                            const uint32_t *fates, size_t fates_len, uint32_t allowed, size_t *sent, size_t sent_len,
                            const uint8_t *parameters, size_t parameters_len, size_t *sizes, size_t sizes_len);

/*
 * The dearest write, for whoever sizes the capacitor that carries the box through a write when its supply fails. Of all page
 * writes that are acknowledged though `failed` fills failed on the way, none sends more bus cycles than are told here, whatever
 * the chip holds and however it behaves; and over an old copy some write does send as many. It needs no chip and no state, and
 * sends no cycle.
 *   failed              how many blocks the write may find bad: 0 to blocks - 3
 *   words               flash_store_dearest_words(pages, failed) of them: set to the fate words of that write, to be handed to a
 *                       write as its fates
 *   cycles              1: set to the cycles, with every answer but BAD_BUFFER; 0 unless it is 0
 * Answers: GEOMETRY as above, then ADDRESS for more failed fills than blocks - 3, then LENGTH for another number of words. A
 * refusal leaves the words as they were.
 *
 * From cycles to time: in each operation 256 of the cycles are status reads, and there are as many operations as words. The
 * others follow each other as fast as the bus goes (002 part: 20 ns each at 3 V); status reads come as often as the driver asks.
 * An operation whose 256 status reads are all busy counts as silent, so a driver asks no oftener than its longest busy time
 * allows (002 part: an erase takes up to 10 ms, so every 40 us). flash_store_dearest_ns adds the two up. From time to charge:
 * times the supply current while the chip programs and erases (002 part: up to 30 mA), and that of the rest of the box. The
 * capacitor is the charge divided by how far its voltage may fall.
 */
size_t flash_store_dearest_write(size_t main, size_t spare, size_t pages, size_t blocks, size_t logical, size_t failed,
                                 uint32_t *words, size_t words_len, size_t *cycles, size_t cycles_len);

/* The words, one for each operation: 2 x pages for each data fill, of which the last passes; then a table fill if any failed. */
static inline size_t flash_store_dearest_words(size_t pages, size_t failed) {
    return 2 * pages * (failed + 1) + (failed ? pages + 1 : 0);
}

/* Nanoseconds, where a bus cycle takes bus_ns and a status read comes every poll_ns. */
static inline uint64_t flash_store_dearest_ns(size_t cycles, size_t words, uint64_t bus_ns, uint64_t poll_ns) {
    uint64_t status_reads = 256 * (uint64_t)words;
    return (cycles - status_reads) * bus_ns + status_reads * poll_ns;
}

/* What stays from call to call. Set to 0 and filled in once; after that only calls change what it holds and points to. */
struct flash_store {
    size_t main, spare, pages, blocks, logical; /* the geometry */
    uint8_t state[FLASH_STORE_STATE_BYTES];
    size_t interface[FLASH_STORE_INTERFACE_WORDS]; /* all 0 at power on; each call sets the line's word */
    uint8_t *array; /* (main + spare) x pages x blocks; all FFh for a new chip, but for factory marks */
    size_t array_len;
    uint8_t *page_register; /* main + spare */
    size_t page_register_len;
    uint8_t *history; /* blocks; all 0 for a new chip */
    size_t history_len;
};

/* What a call brings, and the cycles that it took away. */
struct flash_store_call {
    const uint8_t *mask;    /* (main + spare) x pages; may be NULL: zeros, an operation that does not pass takes no effect */
    size_t mask_len;        /* of a mask that is not NULL */
    const uint32_t *fates;  /* may be NULL: no fate words, every operation passes */
    size_t fates_len;       /* of fates that are not NULL */
    uint32_t allowed;       /* FLASH_STORE_UNCUT: no cut */
    size_t write_protected; /* not 0: the write-protect line is low during this call */
    size_t sent;            /* set by the call */
};

/* The interface as the plain calls take it: with the write-protect line that the call brings. */
static inline size_t *flash_store_interface(struct flash_store *store, const struct flash_store_call *call) {
    store->interface[FLASH_STORE_PROTECTED_WORD] = call->write_protected;
    return store->interface;
}

/* The fate words of a call as the plain calls take them: never NULL. */
static inline const uint32_t *flash_store_fates(const struct flash_store_call *call) {
    static const uint32_t none = 0;
    return call->fates ? call->fates : &none;
}

static inline size_t flash_store_fates_len(const struct flash_store_call *call) {
    return call->fates ? call->fates_len : 0;
}

/* The greatest page and block. */
enum { FLASH_STORE_MOST_MAIN = 4096, FLASH_STORE_MOST_SPARE = 256, FLASH_STORE_MOST_PAGES = 64 };

/*
 * The mask of a call as the plain calls take it: never NULL. Each file that uses these functions has zeros of its own, 278,528
 * bytes; nothing writes them, and they are not const so that they take no room in the executable.
 */
static inline const uint8_t *flash_store_mask(const struct flash_store_call *call) {
    static uint8_t zeros[(FLASH_STORE_MOST_MAIN + FLASH_STORE_MOST_SPARE) * FLASH_STORE_MOST_PAGES];
    return call->mask ? call->mask : zeros;
}

/* Zeros are as long as a block; 0 for sizes beyond the limits, which get GEOMETRY. */
static inline size_t flash_store_mask_len(const struct flash_store *store, const struct flash_store_call *call) {
    if (call->mask) {
        return call->mask_len;
    }
    if (store->main > FLASH_STORE_MOST_MAIN || store->spare > FLASH_STORE_MOST_SPARE ||
        store->pages > FLASH_STORE_MOST_PAGES) {
        return 0;
    }
    return (store->main + store->spare) * store->pages;
}

/* The two structs as the plain calls take them, without and with the geometry. */
#define FLASH_STORE_MEMORY(store, call)                                                                             \
    (store)->state, FLASH_STORE_STATE_BYTES, flash_store_interface(store, call), FLASH_STORE_INTERFACE_WORDS,       \
        (store)->array, (store)->array_len, (store)->page_register, (store)->page_register_len, (store)->history,   \
        (store)->history_len, flash_store_mask(call), flash_store_mask_len(store, call), flash_store_fates(call),   \
        flash_store_fates_len(call), (call)->allowed, &(call)->sent, 1
#define FLASH_STORE_LENT(store, call)                                                                                 \
    (store)->main, (store)->spare, (store)->pages, (store)->blocks, (store)->logical, FLASH_STORE_MEMORY(store, call)

/* Formats and keeps the list of bad blocks; PROTECTED where the call has the write-protect line low. */
static inline enum flash_store_answer flash_store_do_format(struct flash_store *store, struct flash_store_call *call) {
    return (enum flash_store_answer)flash_store_format(FLASH_STORE_LENT(store, call));
}

/* Mounts, with the line low too. */
static inline enum flash_store_answer flash_store_do_mount(struct flash_store *store, struct flash_store_call *call) {
    return (enum flash_store_answer)flash_store_mount(FLASH_STORE_LENT(store, call));
}

/* Mounts quickly, with the line low too. */
static inline enum flash_store_answer flash_store_do_quick_mount(struct flash_store *store,
                                                                 struct flash_store_call *call) {
    return (enum flash_store_answer)flash_store_quick_mount(FLASH_STORE_LENT(store, call));
}

/* Reads a logical page into buffer, main bytes long, with the line low too. */
static inline enum flash_store_answer flash_store_do_read(struct flash_store *store, struct flash_store_call *call,
                                                          size_t block, size_t page, uint8_t *buffer,
                                                          size_t buffer_len) {
    return (enum flash_store_answer)flash_store_read(FLASH_STORE_LENT(store, call), block, page, buffer, buffer_len);
}

/* Writes bytes, main bytes long, to a logical page; PROTECTED where the call has the write-protect line low. */
static inline enum flash_store_answer flash_store_do_write(struct flash_store *store, struct flash_store_call *call,
                                                           size_t block, size_t page, const uint8_t *bytes,
                                                           size_t bytes_len) {
    return (enum flash_store_answer)flash_store_write(FLASH_STORE_LENT(store, call), block, page, bytes, bytes_len);
}

/* Opens a write of bytes, main bytes long, to a logical page; PROTECTED where the call has the write-protect line low. */
static inline enum flash_store_answer flash_store_do_open_write(struct flash_store *store, struct flash_store_call *call,
                                                                size_t block, size_t page, const uint8_t *bytes,
                                                                size_t bytes_len) {
    return (enum flash_store_answer)flash_store_open_write(FLASH_STORE_LENT(store, call), block, page, bytes,
                                                           bytes_len);
}

/* Goes on with the write that is open by at most so many page programs; *finished is set to 1 where it is stored. */
static inline enum flash_store_answer flash_store_do_advance(struct flash_store *store, struct flash_store_call *call,
                                                             uint64_t most, size_t *finished) {
    return (enum flash_store_answer)flash_store_advance(FLASH_STORE_LENT(store, call), most, finished, 1);
}

/* Erases a logical block; PROTECTED where the call has the write-protect line low. */
static inline enum flash_store_answer flash_store_do_erase(struct flash_store *store, struct flash_store_call *call,
                                                           size_t block) {
    return (enum flash_store_answer)flash_store_erase(FLASH_STORE_LENT(store, call), block);
}

/* Appends a record to the journal of sales, and tells its number; PROTECTED where the call has the write-protect line low. */
static inline enum flash_store_answer flash_store_do_append(struct flash_store *store, struct flash_store_call *call,
                                                            uint8_t selection, uint16_t count, uint32_t price,
                                                            uint16_t replaces, size_t *number) {
    return (enum flash_store_answer)flash_store_append(FLASH_STORE_LENT(store, call), selection, count, price, replaces,
                                                       number, 1);
}

/* The takings of the journal in cents, with the line low too. */
static inline enum flash_store_answer flash_store_do_takings(struct flash_store *store, struct flash_store_call *call,
                                                             uint64_t *takings) {
    return (enum flash_store_answer)flash_store_takings(FLASH_STORE_LENT(store, call), takings, 1);
}

/* What a chip tells of one logical unit. */
struct flash_store_sizes {
    size_t main, spare, pages, blocks;
};

/*
 * Lets the chip tell its size. Of the geometry only logical need be filled in; array, page_register and history are not NULL,
 * and may have any length, as the mask may.
 */
static inline enum flash_store_answer flash_store_do_identify(struct flash_store *store, struct flash_store_call *call,
                                                              const uint8_t *parameters, size_t parameters_len,
                                                              struct flash_store_sizes *sizes) {
    size_t words[4] = {0};
    size_t answer =
        flash_store_identify(store->logical, FLASH_STORE_MEMORY(store, call), parameters, parameters_len, words, 4);
    sizes->main = words[0];
    sizes->spare = words[1];
    sizes->pages = words[2];
    sizes->blocks = words[3];
    return (enum flash_store_answer)answer;
}

/* The dearest write of the store's geometry. */
static inline enum flash_store_answer flash_store_do_dearest_write(const struct flash_store *store, size_t failed,
                                                                   uint32_t *words, size_t words_len, size_t *cycles) {
    return (enum flash_store_answer)flash_store_dearest_write(store->main, store->spare, store->pages, store->blocks,
                                                              store->logical, failed, words, words_len, cycles, 1);
}

#undef FLASH_STORE_LENT
#undef FLASH_STORE_MEMORY

#ifdef __cplusplus
}
#endif

#endif
