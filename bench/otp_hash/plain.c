/* The chains of main.rt.txt by OpenSSL's one-block digests: called with the same words, it prints the same line. */
#include <inttypes.h>
#include <openssl/md5.h>
#include <openssl/sha.h>
#include <stdio.h>
#include <stdlib.h>
#include <string.h>
#include <time.h>

enum { STEPS = 9999, FOLDED = 8 };

typedef void hash(const uint8_t *message, size_t length, uint8_t *folded);

static void hash_md5(const uint8_t *message, size_t length, uint8_t *folded)
{
    uint8_t digest[MD5_DIGEST_LENGTH];
    MD5_CTX context;

    MD5_Init(&context);
    MD5_Update(&context, message, length);
    MD5_Final(digest, &context);
    for (int k = 0; k < FOLDED; k++)
        folded[k] = digest[k] ^ digest[k + 8];
}

static void hash_sha1(const uint8_t *message, size_t length, uint8_t *folded)
{
    uint8_t digest[SHA_DIGEST_LENGTH];
    SHA_CTX context;

    SHA1_Init(&context);
    SHA1_Update(&context, message, length);
    SHA1_Final(digest, &context);
    /* A word of the digest has its highest byte first, one of the fold its lowest. */
    for (int k = 0; k < 4; k++) {
        folded[k] = digest[3 - k] ^ digest[11 - k] ^ digest[19 - k];
        folded[4 + k] = digest[7 - k] ^ digest[15 - k];
    }
}

static uint64_t password_at(hash *step, uint8_t phrase)
{
    uint8_t message[5] = "test";
    uint8_t folded[FOLDED];
    uint64_t password = 0;

    message[4] = phrase;
    step(message, sizeof message, folded);
    for (int n = 0; n < STEPS; n++)
        step(folded, sizeof folded, folded);
    for (int k = 0; k < FOLDED; k++)
        password = password << 8 | folded[k];
    return password;
}

static void run_chains(const char *name, hash *step, int chains)
{
    struct timespec start, end;
    uint64_t sum = 0;

    clock_gettime(CLOCK_MONOTONIC, &start);
    for (int phrase = 0; phrase < chains; phrase++)
        sum += password_at(step, (uint8_t)phrase);
    clock_gettime(CLOCK_MONOTONIC, &end);
    printf("%s %d %lld %" PRIu64 "\n", name, chains * STEPS,
        (end.tv_sec - start.tv_sec) * 1000000000LL + (end.tv_nsec - start.tv_nsec), sum);
}

int main(int argc, char **argv)
{
    if (argc != 3)
        return 2;
    run_chains(argv[1], strcmp(argv[1], "md5") == 0 ? hash_md5 : hash_sha1, atoi(argv[2]));
    return 0;
}
