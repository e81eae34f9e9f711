# Transfers between accounts, in Rust: epoch e moves an amount from one account to another.
# Epochs that share an account conflict; the eight accounts lie in two lines.
# The assembly was made by rustc from transfers.rs, which says how, and the image by tools/image-of transfers.s.
#
# Report:
#> end done 8
#> at 00000080 4d000000690000008700000005000000
#> at 00000090 bc000000690000004100000078000000
#
# image: --epochs 8 --limit 60
	.text
	.attribute	4, 16
	.attribute	5, "rv32i2p0"
	.file	"transfers.b6d0fd4f-cgu.0"
	.section	.text.body,"ax",@progbits
	.globl	body
	.p2align	2
	.type	body,@function
body:
	slli	a0, a0, 2
	andi	a0, a0, 28
	lui	a1, %hi(_ZN9transfers9TRANSFERS17h78d18406638f4ef0E)
	addi	a1, a1, %lo(_ZN9transfers9TRANSFERS17h78d18406638f4ef0E)
	add	a0, a0, a1
	lbu	a1, 2(a0)
	andi	a1, a1, 7
	lhu	a2, 0(a0)
	slli	a1, a1, 2
	lui	a3, %hi(accounts)
	addi	a3, a3, %lo(accounts)
	add	a1, a1, a3
	lw	a4, 0(a1)
	lbu	a0, 3(a0)
	sub	a4, a4, a2
	sw	a4, 0(a1)
	andi	a0, a0, 7
	slli	a0, a0, 2
	add	a0, a0, a3
	lw	a1, 0(a0)
	add	a1, a1, a2
	sw	a1, 0(a0)
	ret
.Lfunc_end0:
	.size	body, .Lfunc_end0-body

	.type	_ZN9transfers9TRANSFERS17h78d18406638f4ef0E,@object
	.section	.rodata.cst32,"aM",@progbits,32
	.p2align	1
_ZN9transfers9TRANSFERS17h78d18406638f4ef0E:
	.ascii	"\036\000\000\001\005\000\002\003\f\000\004\005\031\000\001\006(\000\007\002\007\000\005\000d\000\003\004<\000\006\007"
	.size	_ZN9transfers9TRANSFERS17h78d18406638f4ef0E, 32

	.type	accounts,@object
	.section	.data.accounts,"aw",@progbits
	.globl	accounts
	.p2align	4
accounts:
	.asciz	"d\000\000\000d\000\000\000d\000\000\000d\000\000\000d\000\000\000d\000\000\000d\000\000\000d\000\000"
	.size	accounts, 32

	.section	".note.GNU-stack","",@progbits
