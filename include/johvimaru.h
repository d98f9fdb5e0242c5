/*
 * Johvimaru: a store of small records on a flash chip, which can be made to forget.
 *
 * The store keeps payloads of 1 to 224 bytes in files of fixed size on the image of a flash chip. Each
 * payload is enciphered with AES-128 in counter mode under a key of its own. The keys stand in key blocks
 * on the same chip: a payload is forgotten by replacing its key, whatever is left of its page.
 *
 * This library is built from code that is proved to do what its contracts say, for all arguments and
 * for a power cut at every byte (crates/recorder/src/lib.rt and the definitions that it cites). This
 * text says the same in words. A caller in C is checked by nothing: it must keep to the section
 * "What the caller owes".
 *
 *
 * LINKING
 *
 * librecorder.a is an archive for x86-64, of ELF objects with the System V calling convention; its code
 * can stand at any address. It needs memcpy and memset, and nothing else. It allocates nothing, keeps
 * nothing between calls and has no data that changes: all that it works on is lent to it for the call,
 * and JOHVIMARU_STACK_SIZE bytes of stack. Calls on different buffers may run at the same time, and so
 * may two reads of one image and record into different outputs and lengths.
 *
 * johvimaru_version and johvimaru_reply_text are not in it. They are in johvimaru.c beside this header,
 * plain C that nothing else here needs and that is no part of what is proved: whoever calls them compiles
 * it too. tools/install.sh puts both together into libjohvimaru.a, with a file for pkg-config.
 *
 * What stays secret: the library clears nothing behind it. As measured on x86-64, keys and payloads on the
 * stack and in vector registers by tests/c/secrets.c, the rest by hand:
 *
 *   - After a write or a read the key, its round keys and the last 16 bytes of key stream that it used lie
 *     on the stack, below the caller's frame, and some of these 16 in general registers. After a read of 16
 *     bytes or more a vector register holds 16 bytes of the payload, from its end or close to it.
 *   - After a format, a commit or a wipe vector registers hold keys, and the stack holds none.
 *   - After a mount, a cut-off or a gather neither holds a key. A gather copies a payload as it is stored,
 *     enciphered, and uses no key.
 *   - No call puts a payload on the stack. What saves registers there while a call runs may do so: an
 *     interrupt, a signal, a dynamic linker that looks for memcpy at its first call.
 *   - Of the functions for a bus, johvimaru_bus_program_byte leaves no more of a page than the byte that it
 *     gives. The model of the chip is for tests, and leaves pages as they were sent on the stack.
 *
 * On the chip itself the 30 bytes of a page's header are not enciphered. That of a node tells its file, its
 * offset, its key position and the length of its payload, and after a commit or a wipe it may stand there
 * until its block is erased.
 *
 * A device that must not keep any of this overwrites JOHVIMARU_STACK_SIZE bytes of that stack and the
 * registers after the call. The cipher is not constant-time: it looks up tables by bytes of the
 * key, so its time tells of the key whoever shares the processor's cache with it. Nobody else's code
 * may run there while keys are in use.
 *
 * What a call costs: the time of a format grows with the bytes of the image, that of a mount with its pages
 * and with the bytes of the blocks that it erases, that of a write, a cut-off, a gather, a commit or a wipe
 * with its pages, and that of a read does not grow with it. Most of a write or a read is the test of the
 * record: it looks at the 42 pages of the three blocks that the record names, at each page that the map
 * names, and at all letters. On the chip a mount has an erase for each block that nothing needs, also after
 * a call that was done: of B blocks that is B - 3 after a format, and one less for each data block in use.
 *
 *
 * THE IMAGE
 *
 * The image is the content of the flash, as bytes in memory. It has 8 to 256 blocks, each of 16 pages,
 * each of 256 bytes. An erased byte is FFh; a page or a block is empty where nothing else stands in
 * it. The library changes the image in two kinds of steps only, which are those of the chip: it
 * programs a page that is empty, or it erases a block.
 *
 * For a call that changes it the image is a mirror: memory of the caller's, apart from the chip. It
 * must not be memory that the chip answers for, because a step is made in several stores. A write puts
 * the plain payload into its page and enciphers it there, so such a chip would be given the plaintext;
 * and no chip takes a byte twice. A read changes nothing, and may be given the mapped flash itself.
 *
 *
 * THE CHIP
 *
 * The steps of a call on the mirror are repeated on the chip, one after the other in the same order: what
 * a power failure leaves is right only in that order.
 *
 * The steps of a mount and of a format are read off the image that the call, made whole, has left:
 *
 *   - A mount's are the erases of exactly those blocks that are empty in that image, in ascending order
 *     (proved as mount-steps-seen).
 *   - A format's are the erases of all blocks in ascending order, then the programs of pages 0 to 41 in
 *     ascending order, with the bytes that the image then has (proved as format-steps-seen).
 *
 * So the chip is told erases of blocks that were empty before, too. They make no difference to the image,
 * and yet the chip must do them: that settles a block whose erase was cut (see POWER CUTS). Each step of any
 * other call makes a difference (proved as calls-seen).
 *
 * A write has one step, the page that the map now has at the place; a gather has one for each page that it
 * copies. For any call but mount and format, its steps are learnt from its form with n and k, with k = 0, on
 * copies of image and record as they were before the call:
 *
 *   - The copy after n is what the image is after n steps. Where the reply is JOHVIMARU_POWER_CUT
 *     there are more; else there are no more than n.
 *   - The copies after n and after n + 1 differ by one step. A page that was empty and is no more is
 *     programmed with the 256 bytes that it now has. A block that is now empty and was not is erased.
 *
 * Two images far apart do not show the steps between them: format erases a block and then programs it,
 * and a call may program a page and erase it again before it is done. tests/c/chip.c is an example.
 *
 * Where the chip fails in a step, or its power does, the steps after it are not begun. The record is void
 * then: the chip is read into the mirror, and mounted.
 *
 *
 * A CHIP ON A BUS
 *
 * A chip with the commands of ONFI takes bytes one by one, each marked as command, address or data, and
 * gives bytes back. The mark is that of two lines: CLE is high for a command, ALE for an address, neither
 * for data. What is sent for a step, where C is a command, A an address and D data:
 *
 *     program of a page    C FFh, C 80h, A column 00h 00h, A row, D 256 bytes, C 10h, C 70h
 *     erase of a block     C FFh, C 60h, A row, C D0h, C 70h
 *
 * The row is the page, for an erase the block's first page, as three bytes, the low one first. The library
 * tells these bytes one by one:
 *
 *   1. For i = 0 to JOHVIMARU_BUS_PROGRAM_LENGTH - 1, or JOHVIMARU_BUS_ERASE_LENGTH - 1, it asks for byte i
 *      by johvimaru_bus_program_byte or johvimaru_bus_erase_byte, and sends it with its mark.
 *   2. After the commands FFh, 10h and D0h the chip works. The caller waits for its ready line before it
 *      sends the next byte.
 *   3. After the last byte it receives one, the status. johvimaru_bus_reply says whether the step was done.
 *      Where it was not, the chip has failed: see THE CHIP.
 *
 * To read a page the caller sends C FFh, C 00h, A column 00h 00h, A row and C 30h, waits for the ready line,
 * and receives 256 bytes.
 *
 * What the chip does is written down as a model: a few registers and a rule for each byte. Proved is that
 * after these bytes, for the program of any empty page or the erase of any block and from any registers, the
 * step is done on the model's image and the status is not failed; and that where they stop and a reset
 * follows, the step is undone or complete.
 * Not proved, and the caller's, are what the model does not have: time, the ready line (here status bit 6,
 * ready, is always 1), bits that flip, and the wires. A power failure after 10h or D0h, while the chip
 * works, is one within a step: see POWER CUTS.
 *
 * johvimaru_model_send and johvimaru_model_receive are the model, to try a driver against.
 * tests/c/bus.c is an example.
 *
 *
 * FILES, OFFSETS AND PLACES
 *
 * There are 14 files, 0 to 13. Each holds a fixed count of nodes, of one payload each:
 *
 *     file    0   1   2   3   4   5   6   7   8   9  10  11  12  13
 *     nodes  32  32  24  24  16  16  16  16   8   8   8   8   8   8
 *
 * JOHVIMARU_FILE_COUNTS has these counts. A node is named by its file and its offset, which is below
 * the file's count. The nodes of all files, one file after the other, are at the places 0 to 223.
 *
 * A payload has 1 to 224 bytes, and reads back with the length that it was written with: no byte at its
 * end is taken for padding. On its page spaces (20h) follow it up to 224 bytes. They are enciphered as it
 * is, so that of the page's bytes nothing but the length in its header tells where it ends.
 *
 * A gather copies pages: the same node then stands on several pages, under one key, with the same length and
 * the same stored bytes. The page of the highest sequence is the live one, and the others are older copies,
 * which go when their block is erased.
 *
 * Version 1 of this library took payloads of 224 bytes only and kept no length. Its nodes are mounted, read
 * and removed as others are; their payloads have 224 bytes, with what their writer put after a record.
 * The other way does not go: version 1 finds no header on pages of nodes that have a length, and its mount
 * erases blocks of such pages. An image that this version has written must not be given to version 1.
 * Version 2 has no gather, and reads, commits and wipes an image on which gathers were made, whole or cut, as
 * this version does. A caller of version 2 compiles anew: there are two calls more and the reply 15, which
 * these alone give. The mount of version 2, and of version 3 before the release 0.5.0, finds the same
 * record, but leaves empty blocks and data blocks without a live page as they are. So a caller that was
 * written for it has one thing to change: it must have the chip erase empty blocks too, as THE CHIP says.
 * Version 3 has no functions for a bus. A caller of version 3 has nothing to change.
 *
 *
 * THE WORKING RECORD
 *
 * Beside the image the store has a working record, in three buffers of the caller:
 *
 *   map       448 numbers. map[x] is the page of place x, counted from the start of the image, and
 *             map[224 + x] is its key position; both are JOHVIMARU_NONE where the place holds nothing.
 *   letters   448 letters, one for each key position: 'f' free, 'u' used, 'd' deleted. A free key
 *             has enciphered nothing yet. A deleted one is never used again until it is replaced.
 *   numbers   5 numbers: the next sequence, the next epoch, and the blocks that hold key block 0, key
 *             block 1 and the commit. JOHVIMARU_NEXT_SEQUENCE and so on are their indices.
 *
 * Format makes the record, and mount finds it again from the image alone. The other calls keep it up to
 * date. It belongs to the image: the two must be kept together, and nothing but the library should
 * change either.
 *
 * All calls but format and mount test whether the record fits the image, and refuse it where it does
 * not. It fits where
 *
 *   - both next numbers are 1 to 100,000,000;
 *   - each of the three blocks is whole, and of the kind that the record says;
 *   - each place holds nothing, in both halves of the map, or has a whole page on the image whose
 *     header has its file, its offset and its key position;
 *   - each letter is 'f', 'u' or 'd', two places never have one key position, and the positions that
 *     places have are those with the letter 'u'.
 *
 *
 * REPLIES
 *
 * Each call replies a number: 0 where it was done, 1 to 15 where it was refused, 255 where the power cut
 * it. It makes its tests in the order that is given with it, and the first that fails gives the reply.
 * A refused call changes nothing at all, with these exceptions: a refused format or mount sets the five
 * numbers to 0, and a mount that is refused for what is on the image also fills map, letters and
 * scratch.
 *
 *
 * POWER CUTS
 *
 * The forms that end in _cut run the same code as if the power failed after n whole steps and k bytes
 * of one more. They are for tests of a device, and to learn the steps of a call. A program that is cut
 * leaves its first k bytes written and the rest of the page FFh; an erase that is cut leaves FFh in
 * the block's first k bytes and the rest as it was. A k that is larger than the step does the whole
 * step. Where the call has no more than n steps it is not cut, and the form does and replies what the
 * plain call does.
 *
 * A call that is cut replies JOHVIMARU_POWER_CUT. Its image is the one that a real cut leaves. Map,
 * letters and numbers are then as if the call had been finished, and of no use: after a real cut they
 * are gone. Until a mount has finished, nothing but a mount may then be called on the image: it finds
 * the record again, and erases what the cut call has left. A mount that is cut itself is followed by
 * another.
 *
 * A block in whose erase the power failed is unsettled, however it reads: until an erase of it ends, pages
 * that are programmed into it may not be kept. No image shows which blocks are, so a mount erases every
 * block that nothing needs. If the chip does all steps, no step of any call programs an unsettled block, and
 * after a call that was done no block is unsettled.
 *
 *
 * WHAT THE CALLER OWES
 *
 * - A buffer goes over as a pointer and a length, in elements. The pointer is not null, even where the
 *   length is 0, is aligned for its type, and so many elements can be read there, and written where
 *   the pointer is not to const. A length is at most PTRDIFF_MAX bytes.
 * - numbers points to five elements, and the length of a read to one. So do, of the functions for a bus,
 *   registers to five, page_register to 256, cycle to two and byte to one. They have no length beside them,
 *   and no pointer is null.
 * - Buffers of one call that the call may write do not overlap any other buffer of that call.
 * - Nothing else writes the buffers while the call runs, nor reads those that it may write.
 * - The chip does the steps in the order in which they come, and a step is begun only when the one
 *   before it has ended. A page is programmed from its first byte on: where the power fails, some
 *   bytes at its start are written and the rest is still FFh. A block is erased from its first byte
 *   on: where the power fails, some bytes at its start are FFh and the rest is as it was, and until an
 *   erase of it ends the block need not keep what is programmed into it. An erase that ends has left
 *   nothing but FFh, and a program that ends in any other block the whole page. No erase is left out
 *   because the block reads FFh.
 * - Lengths that are wrong for the call, and any content of image, map, letters and numbers, are no
 *   fault of the caller: the call refuses what it cannot take.
 */
#ifndef JOHVIMARU_H
#define JOHVIMARU_H

#include <stddef.h>
#include <stdint.h>

#ifdef __cplusplus
extern "C" {
#endif

/* The version of the library's calls and constants: those of another one are others. */
#define JOHVIMARU_VERSION 4

/* ---- Sizes, of a type in which an image's bytes can be counted whatever an int holds */

/* Bytes in a page and in a block. */
#define JOHVIMARU_PAGE_SIZE 256UL
#define JOHVIMARU_BLOCK_SIZE 4096UL

/* The least and the largest number of blocks in an image. */
#define JOHVIMARU_MIN_BLOCKS 8UL
#define JOHVIMARU_MAX_BLOCKS 256UL

/* Files, and nodes in all of them. */
#define JOHVIMARU_FILES 14UL
#define JOHVIMARU_PLACES 224UL

/* The count of nodes of each file, as the initial value of an array of JOHVIMARU_FILES numbers. */
#define JOHVIMARU_FILE_COUNTS {32, 32, 24, 24, 16, 16, 16, 16, 8, 8, 8, 8, 8, 8}

/* The most bytes that a payload has, and the bytes of an output for one. */
#define JOHVIMARU_PAYLOAD_SIZE 224UL

/* Elements of the record's three buffers. */
#define JOHVIMARU_MAP_LENGTH 448UL
#define JOHVIMARU_LETTERS_LENGTH 448UL
#define JOHVIMARU_NUMBERS_LENGTH 5UL

/* Numbers of the scratch that mount takes. */
#define JOHVIMARU_SCRATCH_LENGTH 224UL

/* Bytes of noise that format, commit and wipe take: a key of 16 bytes for each of 448 key positions. */
#define JOHVIMARU_NOISE_SIZE 7168UL

/* Bytes that are sent to a chip on a bus for a step, until its status is received. */
#define JOHVIMARU_BUS_PROGRAM_LENGTH 265UL
#define JOHVIMARU_BUS_ERASE_LENGTH 7UL

/* Registers of the model of a chip. */
#define JOHVIMARU_MODEL_REGISTERS_LENGTH 5UL

/* Stands in a map for none. */
#define JOHVIMARU_NONE 65535U

/* Bytes of stack that are enough for any call, as measured on x86-64. */
#define JOHVIMARU_STACK_SIZE 7168UL

/* ---- The record's numbers, by their index */

#define JOHVIMARU_NEXT_SEQUENCE 0
#define JOHVIMARU_NEXT_EPOCH 1
#define JOHVIMARU_KEYS_0 2
#define JOHVIMARU_KEYS_1 3
#define JOHVIMARU_COMMIT 4

/* ---- Marks of a byte on a bus */

#define JOHVIMARU_BUS_COMMAND 0
#define JOHVIMARU_BUS_ADDRESS 1
#define JOHVIMARU_BUS_DATA 2

/* ---- Replies */

/* The call was done. */
#define JOHVIMARU_DONE 0
/* The image is not 8 to 256 full blocks. */
#define JOHVIMARU_REFUSED_IMAGE 1
/* Map, letters or scratch are of a wrong length. */
#define JOHVIMARU_REFUSED_LENGTHS 2
/* The noise is not 7,168 bytes. */
#define JOHVIMARU_REFUSED_NOISE 3
/* The file is above 13. */
#define JOHVIMARU_REFUSED_FILE 4
/* The offset is not below the file's count. */
#define JOHVIMARU_REFUSED_OFFSET 5
/* The payload is not 1 to 224 bytes, or the output for it is not 224 bytes. On a bus: not 256 bytes. */
#define JOHVIMARU_REFUSED_PAYLOAD 6
/* The record does not fit the image. */
#define JOHVIMARU_REFUSED_RECORD 7
/* There is no node there. */
#define JOHVIMARU_NOTHING_THERE 8
/* No key is free; a commit replaces the deleted ones. */
#define JOHVIMARU_NO_FREE_KEY 9
/* There is no page to take, or no empty block. On a bus: no such page or block, or the chip failed. */
#define JOHVIMARU_NO_ROOM 10
/* The sequences or epochs, which end at 99,999,999, do not last for the call. */
#define JOHVIMARU_NUMBERS_SPENT 11
/* One of the key blocks is nowhere whole on the image. */
#define JOHVIMARU_NO_KEY_BLOCK 12
/* No commit block on the image is whole. */
#define JOHVIMARU_NO_COMMIT 13
/* The image names a page for a place that is not a whole node of it, or one key for two places. */
#define JOHVIMARU_ENTRY_UNFIT 14
/* The block is not a data block, or none of its pages is live. */
#define JOHVIMARU_NOTHING_TO_GATHER 15
/* The power failed before the call's last step was whole. Only the _cut forms reply it. */
#define JOHVIMARU_POWER_CUT 255

/* ---- Calls */

/*
 * Formats the image: makes an empty store on it, and the record of that store. All that was on the
 * image is gone.
 *
 *   image     the image. What it held before does not matter.
 *   map, letters, numbers
 *             the record. What it held before does not matter.
 *   noise     7,168 bytes from a good source of randomness, which nobody else knows: they become the
 *             keys, bytes 16p to 16p + 15 that of key position p.
 *
 * Tests, in order: JOHVIMARU_REFUSED_IMAGE, JOHVIMARU_REFUSED_LENGTHS (map or letters),
 * JOHVIMARU_REFUSED_NOISE.
 *
 * Done, it has erased all blocks in order and has then programmed key block 0 into block 0, key block 1
 * into block 1 (16 pages each) and a commit without entries into block 2 (10 pages): as many steps as
 * there are blocks, and 42. The map is all JOHVIMARU_NONE, the letters are all 'f', and the numbers are
 * 1, 2, 0, 1, 2. Refused, the numbers are all 0, and image, map and letters are as they were.
 */
uint32_t johvimaru_format(uint8_t *image, size_t image_length,
                          uint16_t *map, size_t map_length,
                          uint8_t *letters, size_t letters_length,
                          uint32_t numbers[JOHVIMARU_NUMBERS_LENGTH],
                          const uint8_t *noise, size_t noise_length);

/*
 * A format of which the power lasts for n steps and k bytes of one more.
 */
uint32_t johvimaru_format_cut(uint8_t *image, size_t image_length,
                              uint16_t *map, size_t map_length,
                              uint8_t *letters, size_t letters_length,
                              uint32_t numbers[JOHVIMARU_NUMBERS_LENGTH],
                              const uint8_t *noise, size_t noise_length,
                              uint64_t n, size_t k);

/*
 * Mounts the image: finds its record from what is on it alone, and erases every block that nothing needs,
 * what cut calls have left and empty blocks among them.
 *
 *   image     the image.
 *   map, letters, numbers
 *             the record. What it held before does not matter.
 *   scratch   224 numbers. What they held before does not matter.
 *
 * Tests, in order: JOHVIMARU_REFUSED_IMAGE, JOHVIMARU_REFUSED_LENGTHS (map, letters or scratch),
 * JOHVIMARU_NO_COMMIT, JOHVIMARU_NO_KEY_BLOCK, JOHVIMARU_ENTRY_UNFIT.
 *
 * Of several whole copies of a key block or of the commit it takes the one of the highest epoch, and of
 * equal ones that in the lowest block. A place holds what the commit says, unless a whole page of a later
 * sequence than the commit covers says otherwise: a node that is written there, or a cut-off that removes
 * it. The page of the highest sequence decides, and of equal ones the highest page, so of several copies of
 * a node the newest. Keys that places have are used. Others are deleted where the commit does not say that
 * they are free, or where a later page, whole or torn, is one of a node under that key; all others are
 * free.
 *
 * Done, it has erased, in order, every block that is not one of the three that it took and is no data
 * block (see write), empty ones too, since an erase of one may have been cut; and every data block without
 * a live page on which the commit covers the sequences of all nodes and cut-offs, whole or torn: a step for
 * each. Map, letters and numbers are the record, both next numbers one above the highest that was found.
 * scratch has for each place the sequence of the page that decided, 0 where the commit did. A second mount
 * finds the same record and changes no byte, but erases all blocks that are empty once more.
 *
 * Refused for image or lengths, it has set the numbers to 0 and left all else as it was. Refused for
 * what is on the image, it has left the image as it was, filled the map with JOHVIMARU_NONE and the
 * letters with 'd', and set numbers and scratch to 0.
 */
uint32_t johvimaru_mount(uint8_t *image, size_t image_length,
                         uint16_t *map, size_t map_length,
                         uint8_t *letters, size_t letters_length,
                         uint32_t numbers[JOHVIMARU_NUMBERS_LENGTH],
                         uint32_t *scratch, size_t scratch_length);

/*
 * A mount of which the power lasts for n steps and k bytes of one more. Cut, it has left scratch too as
 * if it had been finished.
 */
uint32_t johvimaru_mount_cut(uint8_t *image, size_t image_length,
                             uint16_t *map, size_t map_length,
                             uint8_t *letters, size_t letters_length,
                             uint32_t numbers[JOHVIMARU_NUMBERS_LENGTH],
                             uint32_t *scratch, size_t scratch_length,
                             uint64_t n, size_t k);

/*
 * Writes a payload at a file's offset. What was there before is replaced, and its key deleted.
 *
 *   image     the image.
 *   map, letters, numbers
 *             its record.
 *   file      0 to 13.
 *   offset    below the file's count.
 *   payload   1 to 224 bytes.
 *
 * Tests, in order: JOHVIMARU_REFUSED_IMAGE, JOHVIMARU_REFUSED_LENGTHS (map or letters),
 * JOHVIMARU_REFUSED_FILE, JOHVIMARU_REFUSED_OFFSET, JOHVIMARU_REFUSED_PAYLOAD,
 * JOHVIMARU_REFUSED_RECORD, JOHVIMARU_NUMBERS_SPENT, JOHVIMARU_NO_FREE_KEY, JOHVIMARU_NO_ROOM.
 *
 * Done, it has programmed one page, in one step. It is the lowest one from which on its block is empty,
 * among the data blocks: those with a page, whole or torn, that has the header of a node or a
 * cut-off. Where there is none, and at least two blocks are empty, it is page 0 of the lowest of
 * these. Its header has the payload's length. The payload, with spaces after it up to 224 bytes, is
 * enciphered under the lowest free key, whose letter is now 'u'. The letter of the key that was there
 * before, if any, is now 'd'. The map has the page and the key position at the place, and the next
 * sequence is one higher. Refused, nothing is changed.
 */
uint32_t johvimaru_write(uint8_t *image, size_t image_length,
                         uint16_t *map, size_t map_length,
                         uint8_t *letters, size_t letters_length,
                         uint32_t numbers[JOHVIMARU_NUMBERS_LENGTH],
                         uint32_t file, uint32_t offset,
                         const uint8_t *payload, size_t payload_length);

/*
 * A write of which the power lasts for n steps and k bytes of one more. A write has one step, so it is
 * cut where n is 0. Cut at a k below 30 it has left no header, and its key is still free; at
 * 30 to 255 it has left a header and no end, its key must not be used again, and what was at the place
 * before still is; at 256 or more it is as good as done.
 */
uint32_t johvimaru_write_cut(uint8_t *image, size_t image_length,
                             uint16_t *map, size_t map_length,
                             uint8_t *letters, size_t letters_length,
                             uint32_t numbers[JOHVIMARU_NUMBERS_LENGTH],
                             uint32_t file, uint32_t offset,
                             const uint8_t *payload, size_t payload_length,
                             uint64_t n, size_t k);

/*
 * Reads the payload at a file's offset. It changes nothing but output and length, and has no steps that
 * the power could cut.
 *
 *   image     the image.
 *   map, letters, numbers
 *             its record.
 *   file      0 to 13.
 *   offset    below the file's count.
 *   output    224 bytes, of which the payload fills the first ones.
 *   length    one number, apart from all other buffers, for the payload's length. What it held before
 *             does not matter.
 *
 * Tests, in order: JOHVIMARU_REFUSED_IMAGE, JOHVIMARU_REFUSED_LENGTHS (map or letters),
 * JOHVIMARU_REFUSED_FILE, JOHVIMARU_REFUSED_OFFSET, JOHVIMARU_REFUSED_PAYLOAD (output),
 * JOHVIMARU_REFUSED_RECORD, JOHVIMARU_NOTHING_THERE.
 *
 * Done, length is how many bytes the payload has that was last written there, 1 to 224, the first bytes of
 * the output are the payload, and the others are as they were. A text that was written without a zero byte
 * has none after it here. A node of version 1 has the length 224. Refused, length is 0, and the output is
 * as it was.
 */
uint32_t johvimaru_read(const uint8_t *image, size_t image_length,
                        const uint16_t *map, size_t map_length,
                        const uint8_t *letters, size_t letters_length,
                        const uint32_t numbers[JOHVIMARU_NUMBERS_LENGTH],
                        uint32_t file, uint32_t offset,
                        uint8_t *output, size_t output_length,
                        size_t *length);

/*
 * Cuts a file off: removes its nodes from an offset on. Their keys are deleted, but still on the image
 * until the next commit.
 *
 *   image     the image.
 *   map, letters, numbers
 *             its record.
 *   file      0 to 13.
 *   offset    below the file's count: the first node that is removed.
 *
 * Tests, in order: JOHVIMARU_REFUSED_IMAGE, JOHVIMARU_REFUSED_LENGTHS (map or letters),
 * JOHVIMARU_REFUSED_FILE, JOHVIMARU_REFUSED_OFFSET, JOHVIMARU_REFUSED_RECORD, JOHVIMARU_NOTHING_THERE
 * (no node from the offset on), JOHVIMARU_NUMBERS_SPENT (the next sequence), JOHVIMARU_NO_ROOM.
 *
 * Done, it has programmed one page, in one step, chosen as a write chooses it. The map has
 * JOHVIMARU_NONE in both halves at the places removed, the letters of their keys are now 'd', and the
 * next sequence is one higher. Refused, nothing is changed.
 */
uint32_t johvimaru_cut_off(uint8_t *image, size_t image_length,
                           uint16_t *map, size_t map_length,
                           uint8_t *letters, size_t letters_length,
                           uint32_t numbers[JOHVIMARU_NUMBERS_LENGTH],
                           uint32_t file, uint32_t offset);

/*
 * A cut-off of which the power lasts for n steps and k bytes of one more. It has one step, so it is cut
 * where n is 0. Cut at a k below 256 it has removed nothing; at 256 or more it is as good as done.
 */
uint32_t johvimaru_cut_off_cut(uint8_t *image, size_t image_length,
                               uint16_t *map, size_t map_length,
                               uint8_t *letters, size_t letters_length,
                               uint32_t numbers[JOHVIMARU_NUMBERS_LENGTH],
                               uint32_t file, uint32_t offset,
                               uint64_t n, size_t k);

/*
 * Gathers a block: copies each of its live pages, those that the map has, to a page outside it, so that the
 * next commit erases the block. A commit alone leaves a block as it is while one live page is on it.
 *
 *   image     the image.
 *   map, letters, numbers
 *             its record.
 *   block     a data block (see write) with a live page. Which block has how many is told by the map: map[x]
 *             divided by 16 is the block of place x.
 *
 * Tests, in order: JOHVIMARU_REFUSED_IMAGE, JOHVIMARU_REFUSED_LENGTHS (map or letters),
 * JOHVIMARU_REFUSED_RECORD, JOHVIMARU_NOTHING_TO_GATHER (also where the image has no such block),
 * JOHVIMARU_NUMBERS_SPENT (it takes a sequence for each copy), JOHVIMARU_NO_ROOM (it takes a page for each
 * copy: so many pages at the end of other data blocks, or two empty blocks).
 *
 * Done, it has programmed as many pages as the block has live ones, 1 to 16, in as many steps: copies of
 * these, the lowest first, each on the page that a write would take if the block were not there. Payload
 * bytes, length and key position are as they were; the sequences are the next ones, in that order. The map
 * has the new pages, its key positions and the letters are as they were, and the next sequence is higher by
 * the number of copies. The block itself is as it was, and no live page is on it: a commit or a wipe erases
 * it, unless a write or another gather has put a node on a page at its end before; and so does a mount, where
 * the last commit covers all sequences on it. Refused, nothing is changed, and nothing was programmed.
 *
 * Where a write is refused with JOHVIMARU_NO_ROOM, so is a gather: make it before. While 16 pages can be
 * taken, at the end of data blocks or in empty blocks but one, there is room for the gather of any block.
 */
uint32_t johvimaru_gather(uint8_t *image, size_t image_length,
                          uint16_t *map, size_t map_length,
                          uint8_t *letters, size_t letters_length,
                          uint32_t numbers[JOHVIMARU_NUMBERS_LENGTH],
                          uint32_t block);

/*
 * A gather of which the power lasts for n steps and k bytes of one more. Wherever it is cut, the next mount
 * finds every node with its payload, length and key, and every letter, as they were before: a node whose
 * copy is whole is on the copy, and the others are where they were. A copy that was begun and is not whole
 * has spent a page and, from its 30th byte on, a sequence. The gather is made again for the pages that are
 * left.
 */
uint32_t johvimaru_gather_cut(uint8_t *image, size_t image_length,
                              uint16_t *map, size_t map_length,
                              uint8_t *letters, size_t letters_length,
                              uint32_t numbers[JOHVIMARU_NUMBERS_LENGTH],
                              uint32_t block,
                              uint64_t n, size_t k);

/*
 * Commits: replaces every key that no node has, so that what it enciphered cannot be read again, and
 * writes the record onto the image, so that dead pages can go.
 *
 *   image     the image.
 *   map, letters, numbers
 *             its record.
 *   noise     7,168 bytes from a good source of randomness, other ones at each call, which nobody else
 *             knows: bytes 16p to 16p + 15 become the key of position p where its letter is not 'u'.
 *
 * Tests, in order: JOHVIMARU_REFUSED_IMAGE, JOHVIMARU_REFUSED_LENGTHS (map or letters),
 * JOHVIMARU_REFUSED_NOISE, JOHVIMARU_REFUSED_RECORD, JOHVIMARU_NUMBERS_SPENT (the next epoch),
 * JOHVIMARU_NO_ROOM (no block is empty).
 *
 * Done, it has programmed a new copy of key block 0 (16 pages), erased the old one, done the same with
 * key block 1 (16 pages) and with the commit (10 pages), and has then erased, in order, each data block
 * in which no page is a node's of the map: 45 steps, and one for each such block. Each copy went into
 * the block that was the lowest empty one at that time, and all carry the old next epoch. The map is
 * as it was. Each 'd' of the letters is now 'f'. The next epoch is one higher, and the numbers have the
 * new blocks. Refused, nothing is changed.
 */
uint32_t johvimaru_commit(uint8_t *image, size_t image_length,
                          uint16_t *map, size_t map_length,
                          uint8_t *letters, size_t letters_length,
                          uint32_t numbers[JOHVIMARU_NUMBERS_LENGTH],
                          const uint8_t *noise, size_t noise_length);

/*
 * A commit of which the power lasts for n steps and k bytes of one more. Wherever it is cut, every node
 * that the map has is found by the next mount.
 */
uint32_t johvimaru_commit_cut(uint8_t *image, size_t image_length,
                              uint16_t *map, size_t map_length,
                              uint8_t *letters, size_t letters_length,
                              uint32_t numbers[JOHVIMARU_NUMBERS_LENGTH],
                              const uint8_t *noise, size_t noise_length,
                              uint64_t n, size_t k);

/*
 * Wipes a file from an offset on: removes its nodes from there, and commits. What they held can then not
 * be read again from the image. It is done too where there is no node to remove.
 *
 *   image     the image.
 *   map, letters, numbers
 *             its record.
 *   noise     as for a commit.
 *   file      0 to 13.
 *   offset    below the file's count: the first node that is removed.
 *
 * Tests, in order: JOHVIMARU_REFUSED_IMAGE, JOHVIMARU_REFUSED_LENGTHS (map or letters),
 * JOHVIMARU_REFUSED_NOISE, JOHVIMARU_REFUSED_FILE, JOHVIMARU_REFUSED_OFFSET,
 * JOHVIMARU_REFUSED_RECORD, JOHVIMARU_NUMBERS_SPENT (it takes two epochs), JOHVIMARU_NO_ROOM (no block
 * is empty).
 *
 * Done, it has programmed a commit without the nodes removed into the lowest empty block (10 pages),
 * erased the old one, and has then done all steps of a commit: 11 more than that. The map has
 * JOHVIMARU_NONE in both halves at the places removed; letters and numbers are as after a commit, but
 * the next epoch is two higher. Refused, nothing is changed.
 */
uint32_t johvimaru_wipe(uint8_t *image, size_t image_length,
                        uint16_t *map, size_t map_length,
                        uint8_t *letters, size_t letters_length,
                        uint32_t numbers[JOHVIMARU_NUMBERS_LENGTH],
                        const uint8_t *noise, size_t noise_length,
                        uint32_t file, uint32_t offset);

/*
 * A wipe of which the power lasts for n steps and k bytes of one more. Cut before its tenth page was
 * whole it has removed nothing. Cut later it has removed the nodes, and the keys that it has not yet
 * replaced are deleted: the next commit or wipe replaces them.
 */
uint32_t johvimaru_wipe_cut(uint8_t *image, size_t image_length,
                            uint16_t *map, size_t map_length,
                            uint8_t *letters, size_t letters_length,
                            uint32_t numbers[JOHVIMARU_NUMBERS_LENGTH],
                            const uint8_t *noise, size_t noise_length,
                            uint32_t file, uint32_t offset,
                            uint64_t n, size_t k);

/* ---- A chip on a bus */

/*
 * Tells byte i of those that program a page, of which there are JOHVIMARU_BUS_PROGRAM_LENGTH.
 *
 *   page      0 to 4,095: the page, counted from the start of the image.
 *   bytes     its 256 bytes.
 *   i         which byte, from 0 on. Behind the last one it is the command 70h again.
 *   cycle     two bytes: one for the mark, then the byte that is sent.
 *
 * Tests, in order: JOHVIMARU_REFUSED_PAYLOAD (bytes not of 256), JOHVIMARU_NO_ROOM (page). Refused, cycle is
 * as it was, and nothing of the step is to be sent.
 */
uint32_t johvimaru_bus_program_byte(uint32_t page, const uint8_t *bytes, size_t bytes_length,
                                    size_t i, uint8_t cycle[2]);

/*
 * Tells byte i of those that erase a block, of which there are JOHVIMARU_BUS_ERASE_LENGTH.
 *
 *   block     0 to 255.
 *   i         which byte, from 0 on. Behind the last one it is the command 70h again.
 *   cycle     two bytes: one for the mark, then the byte that is sent.
 *
 * Tests: JOHVIMARU_NO_ROOM (block). Refused, cycle is as it was, and nothing of the step is to be sent.
 */
uint32_t johvimaru_bus_erase_byte(uint32_t block, size_t i, uint8_t cycle[2]);

/*
 * Tells how a step ended, by the status byte that was received after its last byte: JOHVIMARU_DONE, or
 * JOHVIMARU_NO_ROOM where bit 0 says that the chip failed.
 */
uint32_t johvimaru_bus_reply(uint8_t status);

/*
 * Sends a byte to the model of a chip.
 *
 *   image     what is on the chip.
 *   registers five numbers: the state (0 idle, 1 status, 2 output, 3 read, 4 program, 5 erase), the address
 *             bytes so far (an erase counts from 2, so that an address is whole at 5), the column, the row,
 *             and 1 for failed, else 0. To begin with: 0, 0, 0, 0, 0, as after a reset.
 *   page_register
 *             256 bytes: those of a program so far, FFh elsewhere. To begin with: all FFh.
 *   mark      JOHVIMARU_BUS_COMMAND, JOHVIMARU_BUS_ADDRESS or JOHVIMARU_BUS_DATA. A byte of any other mark
 *             counts as a command that there is not.
 *   byte      the byte.
 *
 * Tests: JOHVIMARU_REFUSED_IMAGE. Refused, nothing is changed. Any registers are taken: those that no bytes
 * over this image leave count as failed, with no command.
 *
 * Done, the registers are the next ones. Failed is set and the command dropped by a byte that is out of
 * place, by the last byte of an address if its column or row is outside, and by data behind the page's end.
 * Failed is cleared by 00h, 60h and 80h where they begin a command, and by FFh, which drops any command.
 * 10h programs the page with the page register, where it is empty; where not, it sets failed and changes
 * nothing. D0h erases the block, whatever the low four bits of the row are.
 */
uint32_t johvimaru_model_send(uint8_t *image, size_t image_length,
                              uint32_t registers[JOHVIMARU_MODEL_REGISTERS_LENGTH],
                              uint8_t page_register[JOHVIMARU_PAGE_SIZE],
                              uint32_t mark, uint8_t byte);

/*
 * Receives a byte from the model of a chip, into byte[0]: after 30h those of the page from the column on,
 * and FFh behind its end; after 70h the status, 40h, or 41h for failed; at any other time FFh.
 *
 * Tests: JOHVIMARU_REFUSED_IMAGE. Refused, byte[0] is FFh, and the registers are as they were. Done, the
 * column may be one higher, and nothing else is changed.
 */
uint32_t johvimaru_model_receive(const uint8_t *image, size_t image_length,
                                 uint32_t registers[JOHVIMARU_MODEL_REGISTERS_LENGTH],
                                 const uint8_t page_register[JOHVIMARU_PAGE_SIZE],
                                 uint8_t byte[1]);

/* ---- Words, of johvimaru.c */

/* JOHVIMARU_VERSION of the header that johvimaru.c was compiled with. */
unsigned johvimaru_version(void);

/*
 * A reply as a sentence, for a log or a message: the first one that stands above at the number, without
 * its capital and its full stop. It is never null: a number that no call replies has a sentence too.
 */
const char *johvimaru_reply_text(uint32_t reply);

#ifdef __cplusplus
}
#endif

#endif
