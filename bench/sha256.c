// SHA-256 of this repository against OpenSSL's, on the same bytes in one run. Prints one line for each length:
// megabytes a second of each, and the ratio of ours to OpenSSL's.
#include <openssl/sha.h>
#include <stddef.h>
#include <stdint.h>
#include <stdio.h>
#include <string.h>
#include <time.h>

uint32_t tender_sha256(const uint8_t *message, size_t length, uint8_t *buffer, size_t room);

enum { LONGEST = 49152, ROUNDS = 200, BATCH_BYTES = 1 << 20 };

static uint8_t message[LONGEST];
static uint8_t ours[32], theirs[32];

static double seconds(void) {
    struct timespec t;
    clock_gettime(CLOCK_MONOTONIC, &t);
    return t.tv_sec + t.tv_nsec * 1e-9;
}

// OpenSSL's calls that are nearest to its code: the newer ones look the algorithm up first, which short messages pay for.
static void openssl_sha256(size_t length) {
    SHA256_CTX context;
    SHA256_Init(&context);
    SHA256_Update(&context, message, length);
    SHA256_Final(theirs, &context);
}

static double smaller(double a, double b) { return a < b ? a : b; }

// The digest goes back into the message, so that no call can be left out.
static double time_ours(size_t length, int calls) {
    double start = seconds();
    for (int i = 0; i < calls; i++) {
        tender_sha256(message, length, ours, sizeof ours);
        message[0] ^= ours[0];
    }
    return seconds() - start;
}

static double time_theirs(size_t length, int calls) {
    double start = seconds();
    for (int i = 0; i < calls; i++) {
        openssl_sha256(length);
        message[0] ^= theirs[0];
    }
    return seconds() - start;
}

static int agree(size_t length) {
    tender_sha256(message, length, ours, sizeof ours);
    openssl_sha256(length);
    return memcmp(ours, theirs, sizeof ours) == 0;
}

int main(void) {
    for (size_t i = 0; i < LONGEST; i++) message[i] = (uint8_t)(i * 31 + 7);
    for (size_t length = 0; length <= 1024; length++) {
        if (!agree(length)) {
            printf("sha256 of %zu bytes differs\n", length);
            return 1;
        }
    }
    size_t lengths[] = {64, 1024, LONGEST};
    for (int k = 0; k < 3; k++) {
        size_t length = lengths[k];
        int calls = BATCH_BYTES / length;
        double best_ours = 1e9, best_theirs = 1e9;
        // Short turns, one after the other, and the best of each: what else the machine does falls on both alike.
        for (int i = 0; i < ROUNDS; i++) {
            best_ours = smaller(best_ours, time_ours(length, calls));
            best_theirs = smaller(best_theirs, time_theirs(length, calls));
        }
        double bytes = (double)calls * length / 1e6;
        printf("sha256 %6zu bytes: ours %7.1f MB/s, openssl %7.1f MB/s, ratio %.2f\n", length, bytes / best_ours,
               bytes / best_theirs, best_theirs / best_ours);
    }
    return 0;
}
