#include <stddef.h>
#include <stdint.h>

/* by one table or by eight, a block at a time or, opening CBC and in CTR, two side by side; by eight also as many as pay: four at n = 1, three at
   n = 2, two at n = 4, with the counters in words */
enum lab_shape { LAB_ONE, LAB_EIGHT, LAB_ONE_PAIRS, LAB_EIGHT_PAIRS, LAB_EIGHT_MOST };
/* many blocks, each by itself, either way; runs from a start block: CBC, and CTR with offset 0 */
enum lab_kind { LAB_ENCIPHER, LAB_DECIPHER, LAB_CBC_SEAL, LAB_CBC_OPEN, LAB_CTR };

/* makes the eight tables; call it once, before all else */
void lab_init(void);
/* the schedule of 20 half-blocks (at most 80 words) of a working key, for enciphering or, with back, for deciphering */
void lab_schedule(int n, const uint64_t *w, int back, uint64_t *k);
/* whole blocks; n is 1, 2 or 4 */
void lab_run(enum lab_shape shape, enum lab_kind kind, int n, const uint64_t *k, const uint8_t *start, const uint8_t *src, uint8_t *dst, size_t blocks);
/* CMAC of a message at n = 1, block by block, by one table or by eight */
void lab_tag(enum lab_shape shape, const uint64_t *k, const uint8_t *message, size_t length, uint8_t tag[16]);
/* KW of a key at n = 1, whole semiblocks, and back, block by block, by one table or by eight; unwrapping answers whether the check value is right */
void lab_wrap(enum lab_shape shape, const uint64_t *k, const uint8_t *key, size_t length, uint8_t *wrapped);
int lab_unwrap(enum lab_shape shape, const uint64_t *k, const uint8_t *wrapped, size_t length, uint8_t *key);
/* a page record of up to 4096 blocks, written, and opened if its layout and its tag are right (0 if not); the schedules are those of the sealing key,
   for opening the one for deciphering, and of the tag key. Tagged and sealed block by block, by one table or by eight; opened two side by side, or four */
void lab_page_write(enum lab_shape shape, const uint64_t *sealing, const uint64_t *tagging, uint32_t number, uint32_t day, const uint8_t title[32], const uint8_t start[16], const uint8_t *body, size_t blocks, uint8_t *record);
int lab_page_open(enum lab_shape shape, const uint64_t *sealing, const uint64_t *tagging, const uint8_t *record, size_t length, uint8_t *body);
/* mixing by the published row's matrix, product by product, the loop of each ending after the multiplier's highest one; by any row, all bytes
   of the word at once, eight turns always; and the merged table of a row, the product of two rows and the inverse row, made so too */
extern const uint8_t lab_row[8];
uint64_t lab_mix_by_matrix(uint64_t w);
uint64_t lab_mix(const uint8_t row[8], uint64_t w);
void lab_make_table(const uint8_t row[8], uint64_t table[256]);
void lab_row_product(const uint8_t g[8], const uint8_t h[8], uint8_t made[8]);
int lab_row_inverse(const uint8_t g[8], uint8_t made[8]);
/* 0 if every word that isn't zero has nine or more non-zero bytes before and after mixing by the row together; else a word that has fewer */
uint64_t lab_judge(const uint8_t row[8]);
/* the register of page keys, 2824 bytes: an entry put behind the others, and the one at the end of a number's replacements; the numbers of document 02 */
enum { LAB_REGISTER = 2824 };
uint8_t lab_register_add(uint8_t reg[LAB_REGISTER], uint16_t number, uint16_t replaces, const uint8_t wrapped[40]);
uint8_t lab_register_find(const uint8_t reg[LAB_REGISTER], uint16_t number, uint8_t entry[44], uint8_t *rule, uint64_t *followed);
