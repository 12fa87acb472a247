/* Compares the calls on headers with plain C: see docs/DECISIONS.md, "Speed". */
#include <stdint.h>
#include <stdio.h>
#include <string.h>
#include <time.h>

/* The door: a slice is its address and its length. */
void headers_hash(const uint8_t *message, size_t size, uint8_t *out, size_t room);
size_t headers_root(const uint8_t *records, size_t size, uint8_t *out, size_t room);
size_t headers_proof(const uint8_t *records, size_t size, uint64_t position, uint8_t *out, size_t room);

#define SIZE 1048576

/* the bytes of the longest answer, a proof */
#define LONGEST 480

static const uint32_t K[64] = {
    0x428a2f98, 0x71374491, 0xb5c0fbcf, 0xe9b5dba5, 0x3956c25b, 0x59f111f1, 0x923f82a4, 0xab1c5ed5,
    0xd807aa98, 0x12835b01, 0x243185be, 0x550c7dc3, 0x72be5d74, 0x80deb1fe, 0x9bdc06a7, 0xc19bf174,
    0xe49b69c1, 0xefbe4786, 0x0fc19dc6, 0x240ca1cc, 0x2de92c6f, 0x4a7484aa, 0x5cb0a9dc, 0x76f988da,
    0x983e5152, 0xa831c66d, 0xb00327c8, 0xbf597fc7, 0xc6e00bf3, 0xd5a79147, 0x06ca6351, 0x14292967,
    0x27b70a85, 0x2e1b2138, 0x4d2c6dfc, 0x53380d13, 0x650a7354, 0x766a0abb, 0x81c2c92e, 0x92722c85,
    0xa2bfe8a1, 0xa81a664b, 0xc24b8b70, 0xc76c51a3, 0xd192e819, 0xd6990624, 0xf40e3585, 0x106aa070,
    0x19a4c116, 0x1e376c08, 0x2748774c, 0x34b0bcb5, 0x391c0cb3, 0x4ed8aa4a, 0x5b9cca4f, 0x682e6ff3,
    0x748f82ee, 0x78a5636f, 0x84c87814, 0x8cc70208, 0x90befffa, 0xa4506ceb, 0xbef9a3f7, 0xc67178f2,
};

static const uint32_t START[8] = {
    0x6a09e667, 0xbb67ae85, 0x3c6ef372, 0xa54ff53a, 0x510e527f, 0x9b05688c, 0x1f83d9ab, 0x5be0cd19,
};

static uint32_t turned(uint32_t x, int n) { return x >> n | x << (32 - n); }

/* SHA-256 as FIPS 180-4 writes it down: a schedule of 64 words, then 64 rounds. */
static void block(uint32_t *state, const uint8_t *bytes) {
    uint32_t w[64];
    for (int t = 0; t < 16; t++)
        w[t] = (uint32_t)bytes[4 * t] << 24 | (uint32_t)bytes[4 * t + 1] << 16 | (uint32_t)bytes[4 * t + 2] << 8 | bytes[4 * t + 3];
    for (int t = 16; t < 64; t++) {
        uint32_t s0 = turned(w[t - 15], 7) ^ turned(w[t - 15], 18) ^ w[t - 15] >> 3;
        uint32_t s1 = turned(w[t - 2], 17) ^ turned(w[t - 2], 19) ^ w[t - 2] >> 10;
        w[t] = s1 + w[t - 7] + s0 + w[t - 16];
    }
    uint32_t a = state[0], b = state[1], c = state[2], d = state[3], e = state[4], f = state[5], g = state[6], h = state[7];
    for (int t = 0; t < 64; t++) {
        uint32_t t1 = h + (turned(e, 6) ^ turned(e, 11) ^ turned(e, 25)) + ((e & f) ^ (~e & g)) + K[t] + w[t];
        uint32_t t2 = (turned(a, 2) ^ turned(a, 13) ^ turned(a, 22)) + ((a & b) ^ (a & c) ^ (b & c));
        h = g;
        g = f;
        f = e;
        e = d + t1;
        d = c;
        c = b;
        b = a;
        a = t1 + t2;
    }
    state[0] += a;
    state[1] += b;
    state[2] += c;
    state[3] += d;
    state[4] += e;
    state[5] += f;
    state[6] += g;
    state[7] += h;
}

static void plain_hash(const uint8_t *message, size_t size, uint8_t *out) {
    uint32_t state[8];
    uint8_t last[128] = {0};
    memcpy(state, START, sizeof state);
    size_t whole = size / 64 * 64;
    for (size_t i = 0; i < whole; i += 64) block(state, message + i);
    memcpy(last, message + whole, size - whole);
    last[size - whole] = 128;
    size_t end = size - whole < 56 ? 64 : 128;
    for (int i = 0; i < 8; i++) last[end - 1 - i] = (uint8_t)((uint64_t)size * 8 >> 8 * i);
    for (size_t i = 0; i < end; i += 64) block(state, last + i);
    for (int i = 0; i < 32; i++) out[i] = (uint8_t)(state[i / 4] >> (24 - 8 * (i % 4)));
}

/* The root and a proof, level by level over an array of nodes, by SSZ. What is all zeros is one node for each level. */
static uint8_t nodes[8192 * 32];

static void joined(const uint8_t *left, const uint8_t *right, uint8_t *out) {
    uint8_t both[64];
    memcpy(both, left, 32);
    memcpy(both + 32, right, 32);
    plain_hash(both, 64, out);
}

static void plain_tree(const uint8_t *records, size_t count, size_t position, uint8_t *root, uint8_t *proof) {
    uint8_t zeros[32] = {0}, number[32] = {(uint8_t)count, (uint8_t)(count >> 8)};
    for (size_t i = 0; i < count; i++) plain_hash(records + 64 * i, 64, nodes + 32 * i);
    memcpy(proof, records + 64 * position + 32, 32);
    for (size_t level = 0, width = count, at = position; level < 13; level++, at /= 2) {
        memcpy(proof + 32 * (level + 1), (at ^ 1) < width ? nodes + 32 * (at ^ 1) : zeros, 32);
        for (size_t i = 0; i < width; i += 2) joined(nodes + 32 * i, i + 1 < width ? nodes + 32 * (i + 1) : zeros, nodes + 16 * i);
        joined(zeros, zeros, zeros);
        width = (width + 1) / 2;
    }
    memcpy(proof + 448, number, 32);
    joined(nodes, number, root);
}

/* The same work on both sides: a megabyte as messages of one size, and of each answer what it does to the next. */
static uint8_t megabyte[SIZE];

static void fresh(void) {
    for (size_t i = 0; i < SIZE; i++) megabyte[i] = (uint8_t)(7 * i + i / 256);
}

static void proved_hashes(size_t size, uint8_t *out) {
    for (size_t i = 0; i + size <= SIZE; i += size) {
        megabyte[i] ^= out[0];
        headers_hash(megabyte + i, size, out, 32);
    }
}

static void plain_hashes(size_t size, uint8_t *out) {
    for (size_t i = 0; i + size <= SIZE; i += size) {
        megabyte[i] ^= out[0];
        plain_hash(megabyte + i, size, out);
    }
}

/* The records are the first so many bytes of the megabyte. */
static void proved_root(size_t size, uint8_t *out) { headers_root(megabyte, size, out, 32); }

static void plain_root(size_t size, uint8_t *out) {
    uint8_t proof[480];
    plain_tree(megabyte, size / 64, 0, out, proof);
}

/* The proof of the position in the middle. */
static void proved_proof(size_t size, uint8_t *out) { headers_proof(megabyte, size, size / 128, out, LONGEST); }

static void plain_proof(size_t size, uint8_t *out) {
    uint8_t root[32];
    plain_tree(megabyte, size / 64, size / 128, root, out);
}

static const struct {
    const char *name;
    void (*proved)(size_t, uint8_t *);
    void (*other)(size_t, uint8_t *);
    size_t size;
} calls[] = {
    {"hash, one message of a megabyte", proved_hashes, plain_hashes, SIZE},
    {"hash, messages of 1,024 bytes", proved_hashes, plain_hashes, 1024},
    {"hash, messages of 64 bytes", proved_hashes, plain_hashes, 64},
    {"root of 8,192 records", proved_root, plain_root, 8192 * 64},
    {"proof in 8,192 records", proved_proof, plain_proof, 8192 * 64},
    {"proof in 8,192 records beside their proved root", proved_proof, proved_root, 8192 * 64},
    {"root of 8,191 records", proved_root, plain_root, 8191 * 64},
    {"root of 1 record", proved_root, plain_root, 64},
};

static double timed(void (*work)(size_t, uint8_t *), size_t size, uint8_t *out) {
    struct timespec from, to;
    fresh();
    memset(out, 0, LONGEST);
    clock_gettime(CLOCK_PROCESS_CPUTIME_ID, &from);
    work(size, out);
    clock_gettime(CLOCK_PROCESS_CPUTIME_ID, &to);
    return (double)(to.tv_sec - from.tv_sec) * 1e3 + (double)(to.tv_nsec - from.tv_nsec) / 1e6;
}

/* The best of many turns of both sides, one after the other. Plain C must answer the same. */
int main(void) {
    for (size_t k = 0; k < sizeof calls / sizeof *calls; k++) {
        double proved = 1e9, other = 1e9;
        int plain = calls[k].other != proved_root;
        for (int turn = 0; turn < 25; turn++) {
            uint8_t ours[LONGEST], theirs[LONGEST];
            double x = timed(calls[k].proved, calls[k].size, ours);
            double y = timed(calls[k].other, calls[k].size, theirs);
            if (plain && memcmp(ours, theirs, LONGEST) != 0) {
                puts("the answers differ");
                return 1;
            }
            if (x < proved) proved = x;
            if (y < other) other = y;
        }
        printf("%s: proved %.3f ms, %s %.3f ms, ratio %.3f\n", calls[k].name, proved, plain ? "C" : "root", other, proved / other);
    }
    return 0;
}
