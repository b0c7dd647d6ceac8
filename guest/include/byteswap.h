/* Numbers with their bytes in the other order. */
#ifndef NESTED_BYTESWAP_H
#define NESTED_BYTESWAP_H

#define bswap_16(x) __builtin_bswap16(x)
#define bswap_32(x) __builtin_bswap32(x)
#define bswap_64(x) __builtin_bswap64(x)

#endif
