/*
 * The kernel's macros of which target/kernel/hcube_x86_64.S makes use, in the least form that they have. By this the
 * file is assembled where no kernel's headers are, to be checked and watched. A driver takes the kernel's own.
 */
#define RET ret; int3
#define SYM_FUNC_START(name) .globl name; .p2align 4; name:
#define SYM_FUNC_START_LOCAL(name) .p2align 4; name:
#define SYM_FUNC_END(name) .type name, @function; .size name, .-name
