/* page.h: runs a program with its stack at the start of a page. How many instructions a copy takes depends on where its bytes lie, and
 * the environment's size moves the stack. */
#ifndef PAGE_H
#define PAGE_H

#define PAGE 4096

static int on_a_page(int (*program)(int count, char **arguments), int count, char **arguments) {
    volatile char page[PAGE] __attribute__((aligned(PAGE)));
    page[0] = 0;
    return program(count, arguments) + page[0];
}

#endif
