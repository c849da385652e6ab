/* A server's session of libnghttp2 over the bytes of crates/mq_bench/src/h2.rt, with the same sums. The words
   `data FRAME PIECE COUNT` read COUNT megabytes of DATA in frames of FRAME bytes and pieces of PIECE, and
   `requests COUNT` reads COUNT rounds of 10,000 requests and answers them. `owned` in place of either copies contents, names and values,
   as mq_h2 gives them. */
#include <nghttp2/nghttp2.h>
#include <stdio.h>
#include <stdlib.h>
#include <string.h>

static const uint8_t settings_frame[] = {0, 0, 0, 4, 0, 0, 0, 0, 0};
static const uint8_t post[] = {0,    0,    17,   1,    4,    0,    0,    0,    1,    0x83, 0x86, 0x84, 0x41,
                               0x8c, 0xf1, 0xe3, 0xc2, 0xe5, 0xf2, 0x3a, 0x6b, 0xa0, 0xab, 0x90, 0xf4, 0xff};
static const uint8_t first[] = {0x82, 0x86, 0x84, 0x41, 0x8c, 0xf1, 0xe3, 0xc2, 0xe5,
                                0xf2, 0x3a, 0x6b, 0xa0, 0xab, 0x90, 0xf4, 0xff};
static const uint8_t later[] = {0x82, 0x86, 0x84, 0xbe};
enum { MEGABYTE = 1048576 };

static long sum;
static int owned;

/* a compiler may not leave out what was copied to here */
static void keep(void *copy) { __asm__ volatile("" : : "r"(copy) : "memory"); }

static int on_data(nghttp2_session *session, uint8_t flags, int32_t stream, const uint8_t *data, size_t len,
                   void *user) {
    sum += len;
    if (owned) {
        uint8_t *copy = malloc(len + 1);
        if (!copy) exit(1);
        memcpy(copy, data, len);
        keep(copy);
        free(copy);
    }
    return 0;
}

static int on_header(nghttp2_session *session, const nghttp2_frame *frame, const uint8_t *name, size_t name_len,
                     const uint8_t *value, size_t value_len, uint8_t flags, void *user) {
    sum += name_len + value_len;
    if (owned) {
        uint8_t *copy = malloc(name_len + value_len + 1);
        if (!copy) exit(1);
        memcpy(copy, name, name_len);
        memcpy(copy + name_len, value, value_len);
        keep(copy);
        free(copy);
    }
    return 0;
}

static int on_frame(nghttp2_session *session, const nghttp2_frame *frame, void *user) {
    if (frame->hd.type == NGHTTP2_HEADERS && (frame->hd.flags & NGHTTP2_FLAG_END_STREAM)) {
        nghttp2_nv status = {(uint8_t *)":status", (uint8_t *)"404", 7, 3, NGHTTP2_NV_FLAG_NONE};
        if (nghttp2_submit_response(session, frame->hd.stream_id, &status, 1, NULL)) exit(1);
    }
    return 0;
}

static nghttp2_session *server(void) {
    nghttp2_session_callbacks *callbacks;
    nghttp2_option *option;
    nghttp2_session *session;
    nghttp2_settings_entry own[] = {{NGHTTP2_SETTINGS_MAX_CONCURRENT_STREAMS, 100},
                                    {NGHTTP2_SETTINGS_MAX_HEADER_LIST_SIZE, 16384},
                                    {NGHTTP2_SETTINGS_ENABLE_CONNECT_PROTOCOL, 1}};
    if (nghttp2_session_callbacks_new(&callbacks) || nghttp2_option_new(&option)) exit(1);
    nghttp2_option_set_no_recv_client_magic(option, 1);
    nghttp2_session_callbacks_set_on_data_chunk_recv_callback(callbacks, on_data);
    nghttp2_session_callbacks_set_on_header_callback(callbacks, on_header);
    nghttp2_session_callbacks_set_on_frame_recv_callback(callbacks, on_frame);
    if (nghttp2_session_server_new2(&session, callbacks, NULL, option)) exit(1);
    nghttp2_session_callbacks_del(callbacks);
    nghttp2_option_del(option);
    if (nghttp2_submit_settings(session, NGHTTP2_FLAG_NONE, own, 3)) exit(1);
    return session;
}

static void read_piece(nghttp2_session *session, const uint8_t *bytes, size_t len) {
    const uint8_t *owed;
    ssize_t count;
    if (nghttp2_session_mem_recv(session, bytes, len) != (ssize_t)len) exit(1);
    while ((count = nghttp2_session_mem_send(session, &owed)) > 0) {}
    if (count < 0) exit(1);
}

static void data(long frame, long piece, long count) {
    long frames = (MEGABYTE + frame - 1) / frame, len = frames * (9 + frame);
    uint8_t *round = malloc(len), *at = round;
    nghttp2_session *session = server();
    if (!round) exit(1);
    for (long n = 0; n < frames; n++) {
        uint8_t header[9] = {0, frame >> 8, frame & 255, 0, 0, 0, 0, 0, 1};
        memcpy(at, header, 9);
        for (long i = 0; i < frame; i++) at[9 + i] = i % 255;
        at += 9 + frame;
    }
    read_piece(session, settings_frame, sizeof settings_frame);
    read_piece(session, post, sizeof post);
    sum = 0;
    for (long n = 0; n < count; n++)
        for (long i = 0; i < len; i += piece) read_piece(session, round + i, len - i < piece ? len - i : piece);
    nghttp2_session_del(session);
    free(round);
}

static void requests(long count) {
    static uint8_t pieces[200][50 * 26];
    static size_t lens[200];
    for (int n = 0; n < 200; n++) {
        uint8_t *at = pieces[n];
        for (int i = 0; i < 50; i++) {
            int stream = 100 * n + 2 * i + 1;
            const uint8_t *block = stream == 1 ? first : later;
            size_t len = stream == 1 ? sizeof first : sizeof later;
            uint8_t header[9] = {0, 0, len, 1, 5, 0, 0, stream >> 8, stream & 255};
            memcpy(at, header, 9);
            memcpy(at + 9, block, len);
            at += 9 + len;
        }
        lens[n] = at - pieces[n];
    }
    for (long n = 0; n < count; n++) {
        nghttp2_session *session = server();
        read_piece(session, settings_frame, sizeof settings_frame);
        for (int i = 0; i < 200; i++) read_piece(session, pieces[i], lens[i]);
        nghttp2_session_del(session);
    }
}

int main(int argc, char **argv) {
    const char *word = argc > 1 ? argv[1] : "";
    owned = strncmp(word, "owned", 5) == 0;
    if (argc == 5) data(atol(argv[2]), atol(argv[3]), atol(argv[4]));
    if (argc == 3) requests(atol(argv[2]));
    printf("%ld\n", sum);
    return 0;
}
