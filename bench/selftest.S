/* A program with a known count, to try the counting plugin on: its argument is two decimal digits,
   r, and each of r rounds executes exactly 1 + 4 * 1000 + 2 = 4003 instructions. One instruction of
   the inner loop lies across the end of a page. It tries nothing of the library. */
        .globl  _start
        .text
_start: mov     16(%rsp), %rsi          /* argv[1] */
        movzbl  (%rsi), %eax
        sub     $48, %eax
        imul    $10, %eax, %eax
        movzbl  1(%rsi), %ecx
        lea     -48(%rax,%rcx), %r8d
        jmp     1f
        .balign 4096
        .skip   4096 - 8
1:      mov     $1000, %edx             /* 5 bytes */
2:      nop                             /* 1 byte */
        mov     $7, %ecx                /* 5 bytes: 2 on this page, 3 on the next */
        dec     %edx
        jnz     2b
        dec     %r8d
        jnz     1b
        mov     $231, %eax              /* exit_group(0) */
        xor     %edi, %edi
        syscall
        .section .note.GNU-stack, "", @progbits
