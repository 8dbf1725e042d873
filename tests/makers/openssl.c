/* OpenSSL's bn_compute_wNAF, out of the libcrypto.a of libssl-dev, where it is not part of the interface but has its name.
 * A line in is `bn_compute_wNAF W HEXADECIMAL`, W as OpenSSL counts; a line out the digits, place 0 first. */
#include <openssl/bn.h>
#include <openssl/crypto.h>
#include <stdio.h>

signed char *bn_compute_wNAF(const BIGNUM *scalar, int w, size_t *ret_len);

int main(void) {
    char number[256];
    int w;
    while (scanf("%*s %d %255s", &w, number) == 2) {
        BIGNUM *k = NULL;
        size_t count;
        signed char *digits;
        if (!BN_hex2bn(&k, number) || !(digits = bn_compute_wNAF(k, w, &count))) return 1;
        for (size_t i = 0; i < count; i++) printf("%d ", digits[i]);
        putchar('\n');
        OPENSSL_free(digits);
        BN_free(k);
    }
    return 0;
}
