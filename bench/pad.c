/* A quarter of a page of code that nobody calls, so that what is linked behind it lies elsewhere within its page. */
__asm__(".text\n.skip 1024, 0x90\n");
