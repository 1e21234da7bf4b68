/* A Fletcher sum and a CRC over 64 KiB, some 3 million instructions. */
#include <guest.h>

static unsigned char bytes[65536];

int main(void) {
    unsigned long state = 1;
    for (int i = 0; i < 65536; i++) {
        state = state * 6364136223846793005ul + 1442695040888963407ul;
        bytes[i] = state >> 56;
    }
    unsigned low = 1, high = 0, crc = ~0u;
    for (int i = 0; i < 65536; i++) {
        low += bytes[i];
        high += low;
        crc ^= bytes[i];
        for (int k = 0; k < 4; k++)
            crc = crc & 1 ? crc >> 1 ^ 0xedb88320u : crc >> 1;
    }
    return (low ^ high ^ crc) & 127;
}
