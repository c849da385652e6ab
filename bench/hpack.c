/* libnghttp2's header compression over the blocks of crates/mq_bench/src/hpack.rt, which come as lines of hex
   on standard input, with an empty line between connections. The word hpack reads them and lends each field;
   hpack_owned copies each name and value, and keeps the copies up to the end of the block, as mq_hpack gives
   them. Both print the checksum of mq_bench's hpack: the lengths and last bytes of names and values, added up.
   The word hpack_write writes the fields again; none is indexed, and the other side's table has the limit 0. */
#include <nghttp2/nghttp2.h>
#include <stdio.h>
#include <stdlib.h>
#include <string.h>

enum { MOST_BLOCKS = 64, MOST_FIELDS = 32, MOST_BYTES = 1024 };

struct block {
    uint8_t bytes[MOST_BYTES];
    size_t len;
    int first; /* of its connection */
};

struct message {
    nghttp2_nv fields[MOST_FIELDS];
    size_t len;
};

static struct block blocks[MOST_BLOCKS];
static struct message messages[MOST_BLOCKS];
static size_t block_count;

static void read_blocks(void) {
    char line[2 * MOST_BYTES + 2];
    int first = 1;
    while (fgets(line, sizeof line, stdin)) {
        struct block *block = &blocks[block_count];
        size_t digits = strcspn(line, "\n");
        if (digits == 0) {
            first = 1;
            continue;
        }
        if (block_count == MOST_BLOCKS || digits > 2 * MOST_BYTES) exit(1);
        for (size_t i = 0; i < digits / 2; i++) {
            unsigned byte;
            if (sscanf(line + 2 * i, "%2x", &byte) != 1) exit(1);
            block->bytes[i] = byte;
        }
        block->len = digits / 2;
        block->first = first;
        first = 0;
        block_count++;
    }
}

static long ends(const uint8_t *bytes, size_t len) { return (long)len + (len > 0 ? bytes[len - 1] : 0); }

static uint8_t *copy_of(const uint8_t *bytes, size_t len) {
    uint8_t *copy = malloc(len + 1);
    if (!copy) exit(1);
    return memcpy(copy, bytes, len);
}

static void drop_fields(struct message *message) {
    for (size_t i = 0; i < message->len; i++) {
        free(message->fields[i].name);
        free(message->fields[i].value);
    }
    message->len = 0;
}

/* Copies of the fields go to the message, where there is one. */
static long read_block(nghttp2_hd_inflater *inflater, struct block *block, struct message *message) {
    uint8_t *bytes = block->bytes;
    size_t left = block->len;
    long sum = 0;
    for (;;) {
        nghttp2_nv field;
        int flags = 0;
        ssize_t used = nghttp2_hd_inflate_hd2(inflater, &field, &flags, bytes, left, 1);
        if (used < 0) exit(1);
        bytes += used;
        left -= used;
        if (flags & NGHTTP2_HD_INFLATE_EMIT) {
            sum += ends(field.name, field.namelen) + ends(field.value, field.valuelen);
            if (message) {
                if (message->len == MOST_FIELDS) exit(1);
                nghttp2_nv copy = {copy_of(field.name, field.namelen), copy_of(field.value, field.valuelen),
                                   field.namelen, field.valuelen, NGHTTP2_NV_FLAG_NO_INDEX};
                message->fields[message->len++] = copy;
            }
        }
        if (flags & NGHTTP2_HD_INFLATE_FINAL) break;
        if (!(flags & NGHTTP2_HD_INFLATE_EMIT) && left == 0) break;
    }
    nghttp2_hd_inflate_end_headers(inflater);
    return sum;
}

static long read_all(int owned, int keep) {
    nghttp2_hd_inflater *inflater = NULL;
    long sum = 0;
    for (size_t i = 0; i < block_count; i++) {
        if (blocks[i].first) {
            if (inflater) nghttp2_hd_inflate_del(inflater);
            if (nghttp2_hd_inflate_new(&inflater)) exit(1);
        }
        sum += read_block(inflater, &blocks[i], owned ? &messages[i] : NULL);
        if (owned && !keep) drop_fields(&messages[i]);
    }
    if (inflater) nghttp2_hd_inflate_del(inflater);
    return sum;
}

static long write_all(void) {
    nghttp2_hd_deflater *deflater;
    uint8_t bytes[4096];
    long sum = 0;
    if (nghttp2_hd_deflate_new(&deflater, 0)) exit(1);
    for (size_t i = 0; i < block_count; i++) {
        ssize_t len = nghttp2_hd_deflate_hd(deflater, bytes, sizeof bytes, messages[i].fields, messages[i].len);
        if (len < 0) exit(1);
        sum += ends(bytes, len);
    }
    nghttp2_hd_deflate_del(deflater);
    return sum;
}

int main(int argc, char **argv) {
    const char *word = argc > 1 ? argv[1] : "";
    long count = argc > 2 ? atol(argv[2]) : 0, sum = 0;
    int writes = strcmp(word, "hpack_write") == 0, owned = strcmp(word, "hpack_owned") == 0;
    read_blocks();
    if (writes) read_all(1, 1);
    for (long i = 0; i < count; i++) sum += writes ? write_all() : read_all(owned, 0);
    printf("%ld\n", sum);
    return 0;
}
