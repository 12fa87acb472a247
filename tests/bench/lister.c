/* The key lister in plain C, to compare speed with: see docs/DECISIONS.md, "Speed". */
#include <stdio.h>
#include <stdlib.h>
#include <string.h>
#include <stdint.h>
static int value(int c) { if (c >= '0' && c <= '9') return c - '0'; if (c >= 'a' && c <= 'f') return c - 'a' + 10; return -1; }
static uint8_t reversed[256];
int main(void) {
    for (int b = 0; b < 256; b++) for (int i = 0; i < 8; i++) reversed[b] |= ((b >> i) & 1) << (7 - i);
    char *line = NULL; size_t cap = 0; ssize_t n;
    static const char digits[] = "0123456789abcdef";
    while ((n = getline(&line, &cap, stdin)) >= 0) {
        if (n > 0 && line[n - 1] == '\n') n--;
        int bad = n % 2;
        uint8_t key[9];
        for (ssize_t i = 0; i < n; i++) {
            int v = value((unsigned char)line[i]);
            if (v < 0) { bad = 1; break; }
            if (i < 18) key[i / 2] = i % 2 ? key[i / 2] * 16 + v : v;
        }
        if (bad) { fputs("refused 15\n", stdout); continue; }
        if (n != 18) { fputs("refused 7\n", stdout); continue; }
        if (key[0] > 1) { fputs("refused 8\n", stdout); continue; }
        uint8_t id[32] = {0};
        id[0] = key[2]; id[1] = key[1];
        for (int i = 0; i < 6; i++) id[2 + i] = reversed[key[3 + i]];
        id[31] = key[0];
        char out[65];
        for (int i = 0; i < 32; i++) { out[2 * i] = digits[id[i] >> 4]; out[2 * i + 1] = digits[id[i] & 15]; }
        out[64] = '\n';
        fwrite(out, 1, 65, stdout);
    }
    free(line);
    return 0;
}
