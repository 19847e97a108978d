/* Three steps from reset with 4,096 zero cells (Manual 16). Prints '3 0 00000000'. */
#include <coffee.h>
#include <stdio.h>

int main(void)
{
    static const uint8_t program[] = {0x88, 1, 0, 5, 0x48, 7, 0x88, 0x3F, 0xDC, 0, 0, 3};
    static uint32_t cells[4096];
    uint8_t reset[COFFEE_IMAGE_MAX], image[COFFEE_IMAGE_MAX], *pc = image + 488;

    coffee_reset(reset, sizeof reset);
    struct coffee_answer answer = coffee_run(program, sizeof program, cells, 4096, reset, COFFEE_IMAGE_MIN,
                                             NULL, 0, 3, image, sizeof image);
    printf("%u %u %02X%02X%02X%02X\n", answer.steps, answer.ending, pc[0], pc[1], pc[2], pc[3]);
    return answer.refusal != 0;
}
