/* Calls one export of the library with arguments from standard input, wipes all that it passed and got, and waits, so that
   scan.py can read its memory: what is found there is the library's.

   calls LIBRARY, where - is the library that is linked in. Input: struct block, and so many bytes as it says. Output: the status
   and the stack pointer after the call, the bytes after the call, and a byte when they are wiped. It ends when its input ends.

   After the call nothing of the C library is used, and nothing is copied: the system is called inline. */
#define _GNU_SOURCE
#include <dlfcn.h>
#include <stdint.h>
#include <stdio.h>
#include <sys/mman.h>
#include <sys/syscall.h>
#include <unistd.h>

#define WORDS 32
struct block {
    char name[64];
    /* A word is a number, or where its kind is 1 an offset into the bytes. */
    uint64_t kinds[WORDS], words[WORDS], length;
};

/* What the registers held right after the call. */
static struct {
    uint64_t general[9];
    _Alignas(64) uint8_t vectors[8192];
} registers;

static inline long sys(long n, long a, long b, long c) {
    long r;
    __asm__ volatile("syscall" : "=a"(r) : "a"(n), "D"(a), "S"(b), "d"(c) : "rcx", "r11", "memory");
    return r;
}

/* Reads or writes all of them. */
static inline void all(long call, int file, uint8_t *p, size_t n) {
    while (n) {
        long moved = sys(call, file, (long)p, (long)n);
        if (moved <= 0) sys(SYS_exit, 3, 0, 0);
        p += moved, n -= (size_t)moved;
    }
}

/* Fills 256 KB of the stack below with 0xa5, calls f with 32 words, and saves the registers and the stack pointer right after;
   of the vector registers those of AVX and AVX-512, where the processor has AVX. */
uint64_t call_words(void *f, const uint64_t *words, void *registers, uint64_t has_avx);
__asm__(".text\n"
        "call_words:\n"
        "  push %rbp\n  mov %rsp, %rbp\n  push %rbx\n  push %r12\n  push %r13\n  push %r14\n"
        "  mov %rdi, %rbx\n  mov %rdx, %r12\n  mov %rcx, %r13\n  mov %rsi, %r10\n"
        "  lea -262144(%rsp), %rdi\n  mov $262144, %ecx\n  mov $0xa5, %eax\n  rep stosb\n"
        "  mov $31, %rcx\n"
        "1: push (%r10,%rcx,8)\n  dec %rcx\n  cmp $6, %rcx\n  jge 1b\n"
        "  mov (%r10), %rdi\n  mov 8(%r10), %rsi\n  mov 16(%r10), %rdx\n  mov 24(%r10), %rcx\n"
        "  mov 32(%r10), %r8\n  mov 40(%r10), %r9\n"
        "  call *%rbx\n"
        "  mov %rcx, (%r12)\n  mov %rdx, 8(%r12)\n  mov %rsi, 16(%r12)\n  mov %rdi, 24(%r12)\n  mov %r8, 32(%r12)\n"
        "  mov %r9, 40(%r12)\n  mov %r10, 48(%r12)\n  mov %r11, 56(%r12)\n  mov %rsp, 64(%r12)\n  mov %rax, %r10\n"
        "  test %r13, %r13\n  jz 2f\n"
        "  mov $0xe7, %eax\n  xor %edx, %edx\n  xsave64 128(%r12)\n  vzeroupper\n  jmp 3f\n"
        "2: fxsave64 128(%r12)\n"
        "3: mov %r10, %rax\n"
        "  lea -32(%rbp), %rsp\n  pop %r14\n  pop %r13\n  pop %r12\n  pop %rbx\n  pop %rbp\n  ret\n");

int main(int count, char **words) {
    static struct block block;
    if (count != 2) return 2;
    void *library = dlopen(words[1][0] == '-' ? NULL : words[1], RTLD_NOW);
    if (!library) return fprintf(stderr, "%s\n", dlerror()), 2;
    all(SYS_read, 0, (uint8_t *)&block, sizeof block);
    uint8_t *bytes = mmap(NULL, block.length + 4096, PROT_READ | PROT_WRITE, MAP_PRIVATE | MAP_ANONYMOUS, -1, 0);
    if (bytes == MAP_FAILED) return 2;
    all(SYS_read, 0, bytes, block.length);
    for (int i = 0; i < WORDS; i++)
        if (block.kinds[i]) block.words[i] += (uint64_t)bytes;
    void *f = dlsym(library, block.name);
    if (!f) return fprintf(stderr, "there is no %s\n", block.name), 2;
    uint64_t status = call_words(f, block.words, &registers, __builtin_cpu_supports("avx") != 0);
    uint64_t at = registers.general[8];
    all(SYS_write, 1, (uint8_t *)&status, 8);
    all(SYS_write, 1, (uint8_t *)&at, 8);
    all(SYS_write, 1, bytes, block.length);
    for (volatile uint8_t *p = bytes; p < bytes + block.length; p++) *p = 0;
    uint8_t last = 0;
    all(SYS_write, 1, &last, 1);
    sys(SYS_read, 0, (long)&last, 1);
    sys(SYS_exit, 0, 0, 0);
    return 0;
}
