/* libnghttp2's header compression over the texts of crates/mq_bench/src/huffman.rt, written and read
   again: its Huffman functions are not exported, so each text is the value of a field that isn't indexed. */
#include <nghttp2/nghttp2.h>
#include <stdio.h>
#include <stdlib.h>
#include <string.h>

static const char *texts[8] = {
    "www.example.com",
    "/.well-known/masque/udp/192.0.2.6/443/",
    "Mozilla/5.0 (X11; Linux x86_64; rv:128.0) Gecko/20100101 Firefox/128.0",
    "text/html,application/xhtml+xml,application/xml;q=0.9,*/*;q=0.8",
    "gzip, deflate, br",
    "session=1f9b0c7e5a; theme=dark; lang=en-GB",
    "Mon, 21 Oct 2013 20:13:22 GMT",
    "connect-udp",
};

static long read_block(nghttp2_hd_inflater *inflater, uint8_t *bytes, size_t left) {
    long sum = 0;
    for (;;) {
        nghttp2_nv field;
        int flags = 0;
        ssize_t used = nghttp2_hd_inflate_hd2(inflater, &field, &flags, bytes, left, 1);
        if (used < 0) exit(1);
        bytes += used;
        left -= used;
        if (flags & NGHTTP2_HD_INFLATE_EMIT) sum += field.valuelen;
        if (flags & NGHTTP2_HD_INFLATE_FINAL) break;
        if (!(flags & NGHTTP2_HD_INFLATE_EMIT) && left == 0) break;
    }
    nghttp2_hd_inflate_end_headers(inflater);
    return sum;
}

int main(int argc, char **argv) {
    long count = argc > 1 ? atol(argv[1]) : 0, sum = 0;
    nghttp2_hd_deflater *deflater;
    nghttp2_hd_inflater *inflater;
    uint8_t bytes[4096];
    if (nghttp2_hd_deflate_new(&deflater, 0) || nghttp2_hd_inflate_new(&inflater)) return 1;
    for (long i = 0; i < count / 8; i++) {
        nghttp2_nv fields[8];
        for (int k = 0; k < 8; k++) {
            nghttp2_nv field = {(uint8_t *)"x", (uint8_t *)texts[k], 1, strlen(texts[k]), NGHTTP2_NV_FLAG_NO_INDEX};
            fields[k] = field;
        }
        sum += read_block(inflater, bytes, nghttp2_hd_deflate_hd(deflater, bytes, sizeof bytes, fields, 8));
    }
    printf("%ld\n", sum);
    return 0;
}
