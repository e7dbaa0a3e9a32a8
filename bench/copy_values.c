/* Copies a container with one block: reads the file OLD, visits each value once, and writes the values anew into the file NEW, equal ones
   once, with sync. What was written is found by a table of hashes, which could be chosen to meet; nothing is tested but that each value stands
   within the file. So this is what `apk add` has to do at the least, without tests, owners and packages.

   usage: copy_values OLD NEW */
#include <fcntl.h>
#include <stdint.h>
#include <stdlib.h>
#include <string.h>
#include <unistd.h>

enum { BLOB_8 = 0x8, ARRAY = 0xd, OBJECT = 0xe, HEAD = 12, MOST_ENTRIES = 1 << 20 };

static const uint8_t *in;
static uint8_t *out;
static uint64_t in_len, out_len = 8, *table, slots = 1 << 12, items;

static uint32_t word_at(uint64_t at) {
    uint32_t word;
    if (at + 4 > in_len) exit(1);
    memcpy(&word, in + at, 4);
    return word;
}

static uint32_t hash_of(uint32_t kind, const uint8_t *bytes, uint64_t len) {
    uint64_t hash = kind + len, part;
    for (; len > 0; bytes += 8) {
        uint64_t n = len < 8 ? len : 8;
        part = 0;
        memcpy(&part, bytes, n);
        hash = (hash ^ part) * 0x9e3779b97f4a7c15;
        hash ^= hash >> 32;
        len -= n;
    }
    return hash;
}

/* An entry of the table: the hash of an item, and in the 32 bits below the word that leads to it. */
static void enter(uint64_t entry) {
    uint64_t at = entry >> 32;
    while (table[at & (slots - 1)]) at++;
    table[at & (slots - 1)] = entry;
}

static void grow(void) {
    uint64_t *old = table, n = slots;
    slots = 2 * n;
    table = calloc(slots, 8);
    if (!table) exit(1);
    for (uint64_t i = 0; i < n; i++)
        if (old[i]) enter(old[i]);
    free(old);
}

static uint32_t put(uint32_t kind, const void *bytes, uint64_t len, uint64_t align) {
    uint64_t hash = hash_of(kind, bytes, len);
    for (uint64_t at = hash; table[at & (slots - 1)]; at++) {
        uint64_t entry = table[at & (slots - 1)];
        uint32_t word = entry;
        if (entry >> 32 == hash && word >> 28 == kind && !memcmp(out + (word & 0xfffffff), bytes, len)) return word;
    }
    while (out_len % align) out[out_len++] = 0;
    uint32_t word = kind << 28 | out_len;
    memcpy(out + out_len, bytes, len);
    out_len += len;
    enter(hash << 32 | word);
    if (2 * ++items > slots) grow();
    return word;
}

static uint32_t copy(uint32_t word) {
    uint32_t kind = word >> 28;
    uint64_t at = word & 0xfffffff;
    if (kind == BLOB_8) {
        if (at >= in_len || at + 1 + in[at] > in_len) exit(1);
        return put(kind, in + at, 1 + in[at], 1);
    }
    if (kind != ARRAY && kind != OBJECT) return word;
    uint32_t n = word_at(at);
    if (n == 0 || n > MOST_ENTRIES || at + 4ull * n > in_len) exit(1);
    uint32_t words[n];
    words[0] = n;
    for (uint32_t i = 1; i < n; i++) words[i] = copy(word_at(at + 4 * i));
    return put(kind, words, 4ull * n, 4);
}

int main(int argc, char **argv) {
    if (argc != 3) return 1;
    int file = open(argv[1], O_RDONLY);
    off_t size = lseek(file, 0, SEEK_END);
    uint8_t *bytes = malloc(size);
    if (size < HEAD + 8 || !bytes || pread(file, bytes, size, 0) != size) return 1;
    in = bytes + HEAD;
    in_len = size - HEAD;
    uint8_t *made = malloc(size + HEAD);
    table = calloc(slots, 8);
    if (!made || !table) return 1;
    memcpy(made, bytes, HEAD + 8);
    out = made + HEAD;
    uint32_t root = copy(word_at(4));
    memcpy(out + 4, &root, 4);
    int other = open(argv[2], O_CREAT | O_TRUNC | O_WRONLY, 0644);
    if (write(other, made, HEAD + out_len) != (ssize_t)(HEAD + out_len) || fsync(other)) return 1;
    return 0;
}
