/* The ciphers of Bulwarkle for C: link out/libcapi.a, which `rt lib` in this folder writes. src/lib.rt has the contracts.
   Each function works in place and answers 0, or 22 (EINVAL) where a length is wrong, and then the buffer is as it was. Each address must have so many
   bytes behind it and not be null, key and buffer must not overlap, and nobody else may write them during the call. */
#ifndef BULWARKLE_H
#define BULWARKLE_H

#include <stddef.h>
#include <stdint.h>

#ifdef __cplusplus
extern "C" {
#endif

/* XTS-AES-256: a key of 64 bytes, a block of 4,096 */
uint8_t bulwarkle_xts_encrypt(const uint8_t *key, size_t key_len, uint64_t block_number, uint8_t *block, size_t block_len);
uint8_t bulwarkle_xts_decrypt(const uint8_t *key, size_t key_len, uint64_t block_number, uint8_t *block, size_t block_len);

/* CBC-CS3 from an initialization vector of zeros: a key of 16 or 32 bytes, a text of 16 to 4,096 */
uint8_t bulwarkle_cts_encrypt(const uint8_t *key, size_t key_len, uint8_t *text, size_t text_len);
uint8_t bulwarkle_cts_decrypt(const uint8_t *key, size_t key_len, uint8_t *text, size_t text_len);

/* AES-128 of each block by itself: a key of 16 bytes, a text of 16, 32, 48 or 64 */
uint8_t bulwarkle_ecb_encrypt(const uint8_t *key, size_t key_len, uint8_t *text, size_t text_len);

#ifdef __cplusplus
}
#endif

#endif
