/* Files by the Reed-Solomon codes of libfec: 255 bytes of which 141 are message, eight codewords interleaved, a group of 2,040 bytes.
 *   reed_solomon encode|decode < IN > OUT     decode ends with 2 where a codeword cannot be repaired
 */
#include <fec.h>
#include <stdio.h>
#include <stdlib.h>
#include <string.h>

enum { N = 255, K = 141, DEPTH = 8 };

static int encode(void *code) {
    unsigned char file[K * DEPTH], word[N], stored[N * DEPTH];
    size_t got;
    do {
        got = fread(file, 1, sizeof file, stdin);
        if (got < sizeof file) {
            memset(file + got, 0, sizeof file - got);
            file[got] = 0x80;
        }
        for (int c = 0; c < DEPTH; c++) {
            memcpy(word, file + c * K, K);
            encode_rs_char(code, word, word + K);
            for (int p = 0; p < N; p++) stored[p * DEPTH + c] = word[p];
        }
        fwrite(stored, 1, sizeof stored, stdout);
    } while (got == sizeof file);
    return 0;
}

static int decode(void *code) {
    unsigned char file[K * DEPTH], word[N], stored[N * DEPTH];
    int held = 0, c;
    while (fread(stored, 1, sizeof stored, stdin) == sizeof stored) {
        if (held) fwrite(file, 1, sizeof file, stdout);
        for (c = 0; c < DEPTH; c++) {
            for (int p = 0; p < N; p++) word[p] = stored[p * DEPTH + c];
            if (decode_rs_char(code, word, NULL, 0) < 0) return 2;
            memcpy(file + c * K, word, K);
        }
        held = 1;
    }
    int end = K * DEPTH;
    while (end > 0 && file[end - 1] == 0) end--;
    fwrite(file, 1, end > 0 ? end - 1 : 0, stdout);
    return 0;
}

int main(int count, char **words) {
    void *code = init_rs_char(8, 0x11d, 1, 1, N - K, 0);
    if (count != 2 || !code) return 64;
    return strcmp(words[1], "encode") == 0 ? encode(code) : decode(code);
}
