/* The 1-Wire CRC as the circuit in the DS2781 and DS2775 sheets works it out ("CRC Generation", figure 23): a shift register
 * of eight stages and XOR gates for the polynomial X^8 + X^5 + X^4 + 1. The stages start at 0. Each bit of the message, low
 * bit of a byte first, is added to what leaves the last stage (X^8); the sum enters the first stage (1) and is added on the
 * way into the fifth (X^4) and the sixth (X^5). The register leaves by its last stage, and on the bus the low bit of a byte
 * comes first, so the last stage is bit 0 of the CRC.
 *
 * Standard input is a sequence of messages, each a length byte 0 to 64 and that many bytes. For each the CRC is printed as a
 * line of two hex digits. A larger length, or a message that is cut, prints a line `--` and ends the run. */
#include <stdio.h>
#include <string.h>

static int stage[9]; /* stage[1] to stage[8] */

static void shift_in(int bit)
{
    int sum = bit ^ stage[8];
    stage[8] = stage[7];
    stage[7] = stage[6];
    stage[6] = stage[5] ^ sum;
    stage[5] = stage[4] ^ sum;
    stage[4] = stage[3];
    stage[3] = stage[2];
    stage[2] = stage[1];
    stage[1] = sum;
}

int main(void)
{
    int length;
    while ((length = getchar()) != EOF) {
        int cut = length > 64;
        int crc = 0;
        memset(stage, 0, sizeof stage);
        while (!cut && length-- > 0) {
            int byte = getchar();
            cut = byte == EOF;
            for (int i = 0; i < 8; i++)
                shift_in(byte >> i & 1);
        }
        if (cut) {
            puts("--");
            return 0;
        }
        for (int i = 0; i < 8; i++)
            crc |= stage[8 - i] << i;
        printf("%02x\n", crc);
    }
    return 0;
}
