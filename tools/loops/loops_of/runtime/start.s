# Where the program starts: a stack, the pointer to the thread's variables, and loops_main, which calls main and ends.
.section .text.start, "ax"
.globl loops_start
loops_start:
 la x2, loops_stack_end
 la x4, loops_thread
 lw x10, loops_argc
 la x11, loops_argv
 jal x1, loops_main
1: jal x0, 1b

# The words of the command line, which stand here before the program starts.
.section .data.start, "aw"
.globl loops_argc
.globl loops_argv
.globl loops_words
.balign 4
loops_argc: .word 0
loops_argv: .space 128
loops_words: .space 896
