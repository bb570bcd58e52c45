/* Decodes the bytes of standard input as vw_bench does, with Zydis: one after the other, and where they are
 * no instruction goes on at the next byte. It prints how many instructions there are, and a sum over their
 * operands, so that none is decoded for nothing. The first word says how often all this is done; a second one
 * leaves the operands out. */
#include <Zydis/Zydis.h>
#include <stdio.h>
#include <stdlib.h>

enum { MOST = 64 << 20 };

int main(int count, char **words) {
    long rounds = count > 1 ? atol(words[1]) : 1;
    int bare = count > 2;
    unsigned char *bytes = malloc(MOST);
    if (bytes == NULL) return 1;
    size_t length = fread(bytes, 1, MOST, stdin);
    ZydisDecoder decoder;
    if (!ZYAN_SUCCESS(ZydisDecoderInit(&decoder, ZYDIS_MACHINE_MODE_LONG_64, ZYDIS_STACK_WIDTH_64))) return 1;
    unsigned long spelled = 0, sum = 0;
    for (long round = 0; round < rounds; round++) {
        size_t at = 0;
        while (at < length) {
            ZydisDecodedInstruction instruction;
            ZydisDecodedOperand operands[ZYDIS_MAX_OPERAND_COUNT];
            ZyanStatus status = bare
                ? ZydisDecoderDecodeInstruction(&decoder, ZYAN_NULL, bytes + at, length - at, &instruction)
                : ZydisDecoderDecodeFull(&decoder, bytes + at, length - at, &instruction, operands);
            if (ZYAN_SUCCESS(status)) {
                spelled++;
                sum += instruction.mnemonic;
                for (int i = 0; !bare && i < instruction.operand_count_visible; i++) sum += operands[i].type;
                at += instruction.length;
            } else {
                at++;
            }
        }
    }
    printf("%lu %lu\n", spelled, sum);
    return 0;
}
