// Moves the code that is linked after this by PAD bytes.
#define TEXT(n) #n
#define BYTES(n) TEXT(n)
__asm__(".section .text.pad,\"ax\",@progbits\n.skip " BYTES(PAD) ", 0x90\n.text");
