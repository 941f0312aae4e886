/* uint64_t proved_wipe(uint64_t status, size_t depth, uintptr_t low, size_t length, size_t window, size_t after)

   Writes zeros over the stack from here down to depth bytes below, and clears the registers that a call may leave used:
   vector registers, masks, and rcx, rdx, rsi, rdi, r8 to r11. Returns status. depth, window and after are multiples of 8, and
   depth is 64 or more.

   Where length is not 0, the call may have recurred, and gone deeper. As deep as it went there is a return address among the
   length bytes of code from low on in each window bytes. So as long as the window below has one it is wiped, too; and then
   after bytes more.

   rsp is moved below what is wiped, so that no signal handler's frame is there. Each page on the way is touched, the upper ones
   first: where a stack is too short, its guard page is met before anything below it is written. */
        .text
        .globl  proved_wipe
        .type   proved_wipe, @function
        .p2align 5
proved_wipe:
        endbr64
        movq    %rdi, %r11              /* status */
        movq    %rsp, %r10              /* where to return to */
.Lpage:
        cmpq    $4096, %rsi
        jb      .Lrest
        subq    $4096, %rsp
        orq     $0, (%rsp)
        subq    $4096, %rsi
        jmp     .Lpage
.Lrest:
        subq    %rsi, %rsp
        movq    %rdx, %rsi              /* low */
        testq   %rcx, %rcx
        jz      .Lwipe
.Lstep:
        movq    %rsp, %rdi
        subq    %r8, %rsp
        /* Under valgrind, what the call left there is read on purpose: VALGRIND_MAKE_MEM_DEFINED(rsp, window). Else the rotations
           give rdi again, and nothing happens. */
        movq    $0x4d430002, -48(%r10)
        movq    %rsp, -40(%r10)
        movq    %r8, -32(%r10)
        leaq    -48(%r10), %rax
        xorl    %edx, %edx
        rolq    $3, %rdi
        rolq    $13, %rdi
        rolq    $61, %rdi
        rolq    $51, %rdi
        xchgq   %rbx, %rbx
.Lword:
        subq    $8, %rdi
        movq    (%rdi), %rax
        subq    %rsi, %rax
        cmpq    %rcx, %rax
        jb      .Lstep
        cmpq    %rsp, %rdi
        ja      .Lword
        addq    %r8, %rsp
        subq    %r9, %rsp
.Lwipe:
        movq    %r10, %rcx
        subq    %rsp, %rcx
        shrq    $3, %rcx
        movq    %rsp, %rdi
        xorl    %eax, %eax
        rep stosq
        movq    %r10, %rsp
        movl    .Lfeatures(%rip), %eax
        testl   $4, %eax
        jz      .Lno_512
        vpxord  %xmm16, %xmm16, %xmm16
        vpxord  %xmm17, %xmm17, %xmm17
        vpxord  %xmm18, %xmm18, %xmm18
        vpxord  %xmm19, %xmm19, %xmm19
        vpxord  %xmm20, %xmm20, %xmm20
        vpxord  %xmm21, %xmm21, %xmm21
        vpxord  %xmm22, %xmm22, %xmm22
        vpxord  %xmm23, %xmm23, %xmm23
        vpxord  %xmm24, %xmm24, %xmm24
        vpxord  %xmm25, %xmm25, %xmm25
        vpxord  %xmm26, %xmm26, %xmm26
        vpxord  %xmm27, %xmm27, %xmm27
        vpxord  %xmm28, %xmm28, %xmm28
        vpxord  %xmm29, %xmm29, %xmm29
        vpxord  %xmm30, %xmm30, %xmm30
        vpxord  %xmm31, %xmm31, %xmm31
        kxorw   %k0, %k0, %k0
        kxorw   %k1, %k1, %k1
        kxorw   %k2, %k2, %k2
        kxorw   %k3, %k3, %k3
        kxorw   %k4, %k4, %k4
        kxorw   %k5, %k5, %k5
        kxorw   %k6, %k6, %k6
        kxorw   %k7, %k7, %k7
.Lno_512:
        testl   $2, %eax
        jz      .Lno_avx
        vzeroall
        jmp     .Lgeneral
.Lno_avx:
        pxor    %xmm0, %xmm0
        pxor    %xmm1, %xmm1
        pxor    %xmm2, %xmm2
        pxor    %xmm3, %xmm3
        pxor    %xmm4, %xmm4
        pxor    %xmm5, %xmm5
        pxor    %xmm6, %xmm6
        pxor    %xmm7, %xmm7
        pxor    %xmm8, %xmm8
        pxor    %xmm9, %xmm9
        pxor    %xmm10, %xmm10
        pxor    %xmm11, %xmm11
        pxor    %xmm12, %xmm12
        pxor    %xmm13, %xmm13
        pxor    %xmm14, %xmm14
        pxor    %xmm15, %xmm15
.Lgeneral:
        movq    %r11, %rax
        xorl    %ecx, %ecx
        xorl    %edx, %edx
        xorl    %esi, %esi
        xorl    %edi, %edi
        xorl    %r8d, %r8d
        xorl    %r9d, %r9d
        xorl    %r10d, %r10d
        xorl    %r11d, %r11d
        ret
        .size   proved_wipe, .-proved_wipe

/* Asks the processor, before main and before other constructors, what registers it has: 2 AVX, 4 AVX-512 with VL. */
        .type   ask, @function
ask:
        endbr64
        movq    %rbx, %rsi
        xorl    %r9d, %r9d
        xorl    %eax, %eax
        cpuid
        movl    %eax, %r10d             /* the highest leaf */
        movl    $1, %eax
        cpuid
        andl    $0x18000000, %ecx       /* OSXSAVE and AVX */
        cmpl    $0x18000000, %ecx
        jne     .Ltold
        xorl    %ecx, %ecx
        xgetbv
        movl    %eax, %r11d
        andl    $6, %eax
        cmpl    $6, %eax
        jne     .Ltold
        orl     $2, %r9d
        cmpl    $7, %r10d
        jb      .Ltold
        andl    $0xe6, %r11d
        cmpl    $0xe6, %r11d
        jne     .Ltold
        movl    $7, %eax
        xorl    %ecx, %ecx
        cpuid
        andl    $0x80010000, %ebx       /* AVX512F and VL */
        cmpl    $0x80010000, %ebx
        jne     .Ltold
        orl     $4, %r9d
.Ltold:
        movq    %rsi, %rbx
        movl    %r9d, .Lfeatures(%rip)
        ret
        .size   ask, .-ask

        .section .init_array.00101, "aw", @init_array
        .p2align 3
        .quad   ask

        .bss
        .p2align 2
.Lfeatures:
        .zero   4
        .section .note.GNU-stack,"",@progbits
