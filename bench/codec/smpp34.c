/* Decodes and encodes one submit_sm so many times with libsmpp34, for bench/codec.py: the words are `decode` or `encode`, the
 * count, and the PDU in hex. */
#include <stdint.h>
#include <stdio.h>
#include <stdlib.h>
#include <string.h>
#include <netinet/in.h>
#include <smpp34.h>
#include <smpp34_structs.h>
#include <smpp34_params.h>


int main(int argc, char **argv)
{
    static uint8_t octets[8192], out[8192];
    submit_sm_t message;
    int length = 0, written = 0;
    if (argc != 4)
        return 2;
    for (const char *digit = argv[3]; digit[0] && digit[1]; digit += 2) {
        unsigned octet;
        if (sscanf(digit, "%2x", &octet) != 1)
            return 2;
        octets[length++] = (uint8_t)octet;
    }
    memset(&message, 0, sizeof message);
    if (smpp34_unpack2(&message, octets, length) != 0)
        return 3;
    for (long turn = strtol(argv[2], NULL, 10); turn > 0; turn--) {
        if (strcmp(argv[1], "decode") == 0) {
            memset(&message, 0, sizeof message);
            if (smpp34_unpack2(&message, octets, length) != 0)
                return 3;
        } else if (smpp34_pack2(out, sizeof out, &written, &message) != 0 || written != length)
            return 4;
    }
    return 0;
}
