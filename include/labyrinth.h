/* The block cipher Labyrinth, and over it CBC and CTR of NIST SP 800-38A, the tag of SP 800-38B (CMAC), the wrapping of keys of SP 800-38F
 * (KW), records of pages and a register of their keys. Each function that takes a key expands it, does one operation and keeps nothing; two mix a word, two make a
 * row, and one judges a row. Those whose names begin with labyrinth_key_ take a working key, expanded before by labyrinth_expand, and a
 * store of substitutions and rows; labyrinth_page_write and labyrinth_page_open take two such keys. n is 1, 2 or 4: a block has 16n bytes.
 * l is 2, 3 or 4: a key has 8nl bytes. Tags, wrapped keys and page records are at n = 1.
 *
 * Returned is the number of documents 01 and 02: 0 if it was done, else the first of these that applies, and then dst, or the tag to be
 * made, holds what it held before, and so do a store and a working key:
 *   4  a lent store isn't 1072 bytes, or a lent working key isn't 272, or a row to be loaded isn't 8, or a register isn't 2824, a wrapped key
 *      to be added to it 40, or room for an entry 44 (here the number is our choice)
 *   1  n isn't 1, 2 or 4
 *   2  l isn't 2, 3 or 4
 *  15  the store has no such set, or it isn't loaded; there is no such publisher
 *  12  n isn't 1 (a tag, a wrapped key or a page record, under a working key)
 *   3  the key isn't 8nl bytes
 *  19  the title isn't 32 bytes (a page to be written), or the bytes are no page record (one to be read)
 *   6  the start block isn't 16n bytes
 *   4  the source isn't 16n bytes (a block), or no multiple of that (CBC), or a body isn't 0 to 4096 whole blocks of 16 bytes (a page); a
 *      row isn't 8 bytes (here the number is our choice)
 *  17  a key to be wrapped isn't 16 to 128 bytes, or one to be unwrapped isn't 24 to 136, in steps of 8
 *  14  the substitution isn't 256 different bytes
 *  13  the row's eight coefficients XOR to zero (a product takes any rows, and any row is judged)
 *  16  someone holds the set, the loader included
 *  20  the tag of a page record is wrong
 *   5  the destination isn't 16n bytes (a block), or isn't as long as the source (CBC, CTR), or isn't 8 bytes (a row), or isn't 8 bytes
 *      longer than the source (wrapping) or 8 bytes shorter (unwrapping), or isn't of the record's length (a page written) or of its
 *      body's (a page opened)
 *  11  the tag isn't 8 to 16 bytes
 *  18  the check value of a key to be unwrapped is wrong
 *  21  the number of a key to be added is 0, or the register has it
 *  22  the number that a key is to replace isn't 0, and the register doesn't have it, or one of its keys replaces it already; or a number to
 *      be found isn't in the register
 *  23  the register has 64 keys
 * Of two keys the sealing key's 1, 15 and 12 come before the tag key's.
 *
 * 0 alone does not say that a page is genuine: by a wrong key, or altered, it opens to something too, and verifying its tag returns 0 for a
 * no as for a yes. So does judging a row. Look at *yes. Unwrapping and opening a page record have no *yes: there 18 and 20 are the no.
 *
 * What the caller owes; what is proved of these functions holds only then:
 *   - Each pointer that comes with a length is valid for it: for reading if it is to const bytes, else for writing. Any alignment will do.
 *     NULL only with length 0: such a pointer is never followed. For writing too, yes and rule point to one byte, out, row_judge's word, blocks,
 *     title_at and followed to a uint64_t, page_catalogue's number and day to a uint32_t, aligned as such a number is; none of these is ever NULL.
 *   - What is written overlaps nothing else of its call; what is only read may overlap. So nothing is sealed, opened, wrapped or unwrapped
 *     in place, and no product or inverse put in the place of a row that it is made from.
 *   - While a call runs nobody else writes to its buffers or reads those that it writes, which may hold other bytes then than in the end.
 *   - The stack has LABYRINTH_STACK bytes left.
 *
 * The calls are reentrant, also in threads: there is no heap and no state. The archive has no writable data and refers to no symbols but
 * memcpy and memset. Keys and what is made from them stay on the stack after a call; they are not cleared. Look-ups in tables depend on
 * keys and data, so the time of a call may tell of them.
 *
 * Tested on x86_64 Linux (Debian 12) only, for which the archive is made. */
#ifndef LABYRINTH_H
#define LABYRINTH_H

#include <stddef.h>
#include <stdint.h>

/* The library's version is 0.k.0, the landing being the kth in CHANGELOG.md from the first release, 0.1.0, on. */
#define LABYRINTH_VERSION "0.16.0"

/* No call uses more bytes of the stack. Measured on a painted stack were 40848, of labyrinth_page_open, and at most 33008 of each other, the
 * return address and what the caller pushes counted (x86_64 Linux, Debian 12, gcc 12.2, glibc 2.36, the archive as rattle-kit-5b makes it);
 * the rest is room for a memcpy that uses more. Where memcpy and memset are only bound when first called, the first call takes more, 3136
 * bytes when it was measured: link with -z now, or call once where the stack is large. */
#define LABYRINTH_STACK 49152

#ifdef __cplusplus
extern "C" {
#endif

/* One block. */
uint8_t labyrinth_encipher(size_t n, size_t l, const uint8_t *key, size_t key_len, const uint8_t *src, size_t src_len, uint8_t *dst, size_t dst_len);
uint8_t labyrinth_decipher(size_t n, size_t l, const uint8_t *key, size_t key_len, const uint8_t *src, size_t src_len, uint8_t *dst, size_t dst_len);

/* Whole blocks, any number of them, after a start block of 16n bytes. */
uint8_t labyrinth_cbc_seal(size_t n, size_t l, const uint8_t *key, size_t key_len, const uint8_t *start, size_t start_len, const uint8_t *src, size_t src_len, uint8_t *dst, size_t dst_len);
uint8_t labyrinth_cbc_open(size_t n, size_t l, const uint8_t *key, size_t key_len, const uint8_t *start, size_t start_len, const uint8_t *src, size_t src_len, uint8_t *dst, size_t dst_len);

/* Any number of bytes; sealing and opening are the same. Block i has the counter start + q + i modulo 2^(128n), the start block read with
 * its last byte least. Never use one start block with overlapping counters for two pages under one key. */
uint8_t labyrinth_ctr(size_t n, size_t l, const uint8_t *key, size_t key_len, const uint8_t *start, size_t start_len, uint64_t q, const uint8_t *src, size_t src_len, uint8_t *dst, size_t dst_len);

/* The tag of a message of any length, the empty one too: the first tag_len bytes of its CMAC. There is no n, which is 1: a key has 8l
 * bytes. labyrinth_cmac writes the tag. labyrinth_cmac_verify sets *yes at every call: to 1 if it returns 0 and tag is the message's, else
 * to 0, at every refusal too. It compares all bytes, without an early exit; nothing is claimed of its time.
 *
 * Tag the sealed page, under a key used for nothing else, and verify before opening. A tag covers its message only: a start block, or q,
 * kept where it could be altered belongs to the message. */
uint8_t labyrinth_cmac(size_t l, const uint8_t *key, size_t key_len, const uint8_t *msg, size_t msg_len, uint8_t *tag, size_t tag_len);
uint8_t labyrinth_cmac_verify(size_t l, const uint8_t *key, size_t key_len, const uint8_t *msg, size_t msg_len, const uint8_t *tag, size_t tag_len, uint8_t *yes);

/* Two publishers, 0 and 1, share a store of sets 0 to 3, each a substitution and a row, and a working key names the set that it is used with.
 * Both are bytes that the caller keeps and lends. A number in them is 8 bytes, the least first, and every value is taken; so a record may
 * be made by hand.
 *   store        1072 bytes: sets 0 to 3, each a substitution (256) and a row (8); then what publisher 0 has taken (8) and what publisher 1
 *                has (8): a set's number, or 4 or more for none
 *   working key  272 bytes: n (8), set (8), words 0 to 31 (8 each)
 *
 * Set 0 is the published one, whatever stands at its place in a store, loaded and held for good. Another set is loaded exactly if its
 * substitution is 256 different bytes and its row's coefficients don't XOR to zero; it is held if a publisher has taken it. To name a set
 * one need not hold it.
 *
 * labyrinth_store_fresh writes a store with only set 0 loaded and none taken. labyrinth_store_load puts a substitution and a row in a set's
 * place, and labyrinth_store_take has a publisher take a set, and so drop the one taken before; each gives 15 first, and loading then 14, 13
 * and 16. A row that isn't 8 bytes is 4, right after the store's length. */
uint8_t labyrinth_store_fresh(uint8_t *store, size_t store_len);
uint8_t labyrinth_store_load(uint8_t *store, size_t store_len, uint64_t publisher, uint64_t set, const uint8_t *substitution, size_t substitution_len, const uint8_t *row, size_t row_len);
uint8_t labyrinth_store_take(uint8_t *store, size_t store_len, uint64_t publisher, uint64_t set);

/* The working key of a key, by a set, which it then names. With set 0 it is the key that the functions above expand, whatever the store
 * holds. */
uint8_t labyrinth_expand(const uint8_t *store, size_t store_len, uint64_t n, uint64_t l, uint64_t set, const uint8_t *key, size_t key_len, uint8_t *working, size_t working_len);

/* Blocks, runs and tags under a working key, by the set that it names and what the store holds there now. With a working key of set 0 they
 * give what the functions above give. A page comes back by any store that has the set loaded with the substitution and the row that
 * expanding and sealing had. 15 comes right after 1, also where there is no byte to seal. By the matrix a block comes out the same, only
 * slower. labyrinth_key_cmac_verify sets *yes at every call, as labyrinth_cmac_verify does. */
uint8_t labyrinth_key_encipher(const uint8_t *store, size_t store_len, const uint8_t *working, size_t working_len, const uint8_t *src, size_t src_len, uint8_t *dst, size_t dst_len);
uint8_t labyrinth_key_decipher(const uint8_t *store, size_t store_len, const uint8_t *working, size_t working_len, const uint8_t *src, size_t src_len, uint8_t *dst, size_t dst_len);
uint8_t labyrinth_key_encipher_by_matrix(const uint8_t *store, size_t store_len, const uint8_t *working, size_t working_len, const uint8_t *src, size_t src_len, uint8_t *dst, size_t dst_len);
uint8_t labyrinth_key_decipher_by_matrix(const uint8_t *store, size_t store_len, const uint8_t *working, size_t working_len, const uint8_t *src, size_t src_len, uint8_t *dst, size_t dst_len);
uint8_t labyrinth_key_cbc_seal(const uint8_t *store, size_t store_len, const uint8_t *working, size_t working_len, const uint8_t *start, size_t start_len, const uint8_t *src, size_t src_len, uint8_t *dst, size_t dst_len);
uint8_t labyrinth_key_cbc_open(const uint8_t *store, size_t store_len, const uint8_t *working, size_t working_len, const uint8_t *start, size_t start_len, const uint8_t *src, size_t src_len, uint8_t *dst, size_t dst_len);
uint8_t labyrinth_key_ctr(const uint8_t *store, size_t store_len, const uint8_t *working, size_t working_len, const uint8_t *start, size_t start_len, uint64_t q, const uint8_t *src, size_t src_len, uint8_t *dst, size_t dst_len);
uint8_t labyrinth_key_cmac(const uint8_t *store, size_t store_len, const uint8_t *working, size_t working_len, const uint8_t *msg, size_t msg_len, uint8_t *tag, size_t tag_len);
uint8_t labyrinth_key_cmac_verify(const uint8_t *store, size_t store_len, const uint8_t *working, size_t working_len, const uint8_t *msg, size_t msg_len, const uint8_t *tag, size_t tag_len, uint8_t *yes);

/* Keys wrapped under a working key, by KW: of 16 to 128 bytes, in steps of 8; and unwrapped, from 24 to 136. dst has 8 bytes more than src at
 * wrapping, 8 less at unwrapping. The working key is a master key's, with n = 1, and should be used for nothing else. The order is 4, 1, 15,
 * 12, 17, 5, and then, at unwrapping only, 18.
 *
 * What was wrapped unwraps to the key under the same working key, by any store that has its set loaded with the substitution and the row
 * that wrapping had. What unwrapping takes is just what wrapping makes of some key; all else of such a length gets 18. So a wrapped key that
 * was altered, or is under another master key or set, is noticed, unless by chance it is what wrapping makes of another key. Nothing of a
 * key whose check value is wrong is ever written to dst, not while the call runs either; on the stack it stays, as keys do. While a key is
 * being wrapped dst may hold it. A key wrapped twice gives the same bytes twice. */
uint8_t labyrinth_key_wrap(const uint8_t *store, size_t store_len, const uint8_t *working, size_t working_len, const uint8_t *src, size_t src_len, uint8_t *dst, size_t dst_len);
uint8_t labyrinth_key_unwrap(const uint8_t *store, size_t store_len, const uint8_t *working, size_t working_len, const uint8_t *src, size_t src_len, uint8_t *dst, size_t dst_len);

/* A page record: a page's number, day and title, which anyone can read, and its body, sealed, all under one tag. It is these commands, each
 * a byte, here in hexadecimal, and what follows it, for a body of m blocks of 16 bytes, m from 0 to 4096:
 *   from byte 0        10 and the number (4 bytes, the least first)
 *   from byte 5        11 and the day (4 bytes, the least first)
 *   from byte 10       12 and the title (32 bytes)
 *   from byte 43       13 and the start block (16 bytes)
 *   from byte 60 + 17i 15 and sealed block i (16 bytes), for each i from 0 to m - 1
 *   from byte 60 + 17m 1F and the tag (16 bytes), and nothing after it
 * So it has 77 + 17m bytes. The sealed blocks, without the bytes 15, are what labyrinth_key_cbc_seal makes of the body; the tag is
 * labyrinth_key_cmac's of all bytes before 1F. Any number, day and title will do. The two working keys should be two keys, each used for
 * nothing else; each is used by the set that it names in the one store.
 *
 * labyrinth_page_write makes a record of 77 + 17m bytes. The order is 4 for the lengths of store and keys; 1, 15, 12 for the sealing key; the
 * same for the tag key; 19, 6, 4, 5. A start block is for one page only, and nobody should be able to tell it beforehand.
 *
 * labyrinth_page_catalogue takes no key and no store. Every call sets *number, *day, *blocks and *title_at: if it returns 0, to the record's
 * number, its day, its m, and 11, the title being the 32 bytes of the record itself from there on; else, with 19, to 0. It verifies nothing:
 * what it shows may have been altered, and only opening tells. To it records of one length that differ only in sealed bytes, start block
 * or tag are the same.
 *
 * labyrinth_page_open verifies the tag, and then opens the body to dst, of 16m bytes. The order is that of writing as far as the keys; then
 * 19, 20, 5. So with a wrong tag nothing is opened, and the destination's length isn't looked at. What was written opens to its body under
 * the same two working keys, by any store that has their sets loaded with the substitutions and the rows that writing had. 20 tells that
 * the record was altered, or that the tag key or its set is another; of another sealing key nothing tells. */
uint8_t labyrinth_page_write(const uint8_t *store, size_t store_len, const uint8_t *sealing, size_t sealing_len, const uint8_t *tagging, size_t tagging_len, uint32_t number, uint32_t day, const uint8_t *title, size_t title_len, const uint8_t *start, size_t start_len, const uint8_t *body, size_t body_len, uint8_t *dst, size_t dst_len);
uint8_t labyrinth_page_catalogue(const uint8_t *record, size_t record_len, uint32_t *number, uint32_t *day, uint64_t *blocks, uint64_t *title_at);
uint8_t labyrinth_page_open(const uint8_t *store, size_t store_len, const uint8_t *sealing, size_t sealing_len, const uint8_t *tagging, size_t tagging_len, const uint8_t *record, size_t record_len, uint8_t *dst, size_t dst_len);

/* A register of up to 64 page keys, and which of them replaced which: 2824 bytes. From byte 0 its count (8 bytes, the least first); from byte
 * 8 + 44i entry i, for each i from 0 to 63: the key's number (2 bytes, the least first), the number that it replaces (2, likewise; 0 for
 * none), and 40 bytes of wrapped key, which are kept as they are and never unwrapped or judged. The empty register is all zeros. The first
 * count entries are the register's, in the order of their adding; a count above 64, in a register made by hand, is read as 64. Any other
 * bytes are taken too. No entry is ever removed.
 *
 * labyrinth_register_add puts an entry behind the others. The order is 4, 21, 22, 23; a refused call leaves the register as it was.
 *
 * labyrinth_register_find takes the first entry with the number, then each time the first later entry that replaces the one reached, and
 * puts the one at the end of these into entry, 44 bytes laid out as in the register. 0 matches none. The order is 4, 22. Every call sets *rule
 * and *followed: if it returns 0, *followed to how many replacements were followed, and *rule to 0, 'still current', if that is none, else
 * to 1, 'replaced'; if it returns another number both to 0, and entry is left as it was.
 *
 * So it gives the key to seal with now. A page opens with the key that it was sealed under: for that, read the first entry with its number
 * out of the register itself. Nothing tells that a register was altered: it has no tag. */
uint8_t labyrinth_register_add(uint8_t *reg, size_t reg_len, uint16_t number, uint16_t replaces, const uint8_t *wrapped, size_t wrapped_len);
uint8_t labyrinth_register_find(const uint8_t *reg, size_t reg_len, uint16_t number, uint8_t *entry, size_t entry_len, uint8_t *rule, uint64_t *followed);

/* The article's mixing of a word. */
uint64_t labyrinth_mix(uint64_t word);

/* Mixing by a row of eight coefficients, g_0 first, in the article's field (modulo 0x12D): byte i of the mixed word, byte 0 the lowest, is
 * the XOR over j of g_((i - j) mod 8) times byte j of the word. Every call sets *out: to the mixed word if it returns 0, else to the zero
 * word. The published row, 01 01 03 0F 0A 1F 0F 0C, gives what labyrinth_mix gives. */
uint8_t labyrinth_mix_row(const uint8_t *row, size_t row_len, uint64_t word, uint64_t *out);

/* Rows made from rows, in the same field; dst is 8 bytes and overlaps no row. Coefficient i of the product is the XOR over j of g_j times
 * h_((i - j) mod 8): mixing by g and then by h is mixing by their product. The inverse is the one row whose product with row is 01 and seven
 * 00: mixing by it undoes mixing by row. The published row's is 35 C0 C7 A9 9E C6 2E F3.
 *
 * So words mixed by an old row are converted to a new one by mixing them by the product of the old row's inverse and the new row. */
uint8_t labyrinth_row_product(const uint8_t *g, size_t g_len, const uint8_t *h, size_t h_len, uint8_t *dst, size_t dst_len);
uint8_t labyrinth_row_inverse(const uint8_t *row, size_t row_len, uint8_t *dst, size_t dst_len);

/* Judges a row. It is good enough if every word that isn't zero has nine or more bytes that aren't zero, counted in the word and in the
 * word mixed by the row together. Mixing is as at labyrinth_mix_row, here by any row, also one that XORs to zero. The published row is good
 * enough.
 *
 * Returned is 4 or 0 only, and 0 is no yes: look at *yes. Every call sets *yes and *word. With 0, *yes is 1 and *word is 0 if the row is
 * good enough; else *yes is 0 and *word is a word that isn't zero and has eight or fewer. Which of these words it is is left open. With 4
 * both are 0. A yes took about 5 ms where the stack was measured, a no less. */
uint8_t labyrinth_row_judge(const uint8_t *row, size_t row_len, uint8_t *yes, uint64_t *word);

#ifdef __cplusplus
}
#endif

#endif
