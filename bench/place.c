/* Where the code that is linked after this begins: so many bytes behind a multiple of 64; 64 if nothing is said. Without it the
   length of the program that measures would decide about that, and so about a seventh of the agent's time. */
#ifndef PLACE
#define PLACE 64
#endif
#define TEXT_OF(number) #number
#define TEXT(number) TEXT_OF(number)
__asm__(".text\n.p2align 6\n.skip " TEXT(PLACE) ", 0x90\n");
