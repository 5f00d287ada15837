# Made by tools/dist from the Rattle sources of Loamchalice, for x86_64; not written by hand. MADE_OF says from what.
# words
	.section	.text.loamchalice_check,"ax",@progbits
	.globl	loamchalice_check
	.p2align	4
	.type	loamchalice_check,@function
loamchalice_check:
	movl	%esi, %edx
	movq	%rdi, %rax
	movzbl	%dl, %ecx
	movabsq	$4311810305, %rsi
	imulq	%rsi, %rcx
	andq	$-259101349, %rcx
	movzbl	%dh, %edi
	imulq	%rsi, %rdi
	movabsq	$1096410404365, %r8
	andq	%rdi, %r8
	xorq	%rcx, %r8
	movq	%r8, %rcx
	shrq	$4, %rcx
	xorq	%r8, %rcx
	movq	%rcx, %rdi
	shrq	$2, %rdi
	xorq	%rcx, %rdi
	movq	%rdi, %rcx
	shrq	%rcx
	xorq	%rdi, %rcx
	andq	%rsi, %rcx
	je	.Lwords_BB0_5
	movq	%rcx, %rsi
	shrq	$32, %rsi
	jne	.Lwords_BB0_2
	movzwl	%dx, %esi
	movl	$3, %ecx
	xorl	%edx, %edx
	jmp	.Lwords_BB0_4
.Lwords_BB0_5:
	andl	$2047, %edx
	xorl	%ecx, %ecx
	xorl	%esi, %esi
	jmp	.Lwords_BB0_4
.Lwords_BB0_2:
	imull	$16909320, %ecx, %ecx
	shrl	$22, %ecx
	andb	$60, %cl
	movabsq	$-6230900172921172801, %rdi
	shrq	%cl, %rdi
	andl	$15, %edi
	btcl	%edi, %edx
	andl	$2047, %edx
	shll	$24, %edi
	orl	%edx, %edi
	orq	$65536, %rdi
	xorl	%ecx, %ecx
	xorl	%esi, %esi
	movq	%rdi, %rdx
.Lwords_BB0_4:
	movq	%rcx, (%rax)
	movq	$0, 8(%rax)
	movq	%rsi, 16(%rax)
	movq	%rdx, 24(%rax)
	retq
.Lwords_func_end0:
	.size	loamchalice_check, .Lwords_func_end0-loamchalice_check

	.section	.rodata.cst16,"aM",@progbits,16
	.p2align	4, 0x0
.Lwords_CPI1_0:
	.short	1371
	.short	1645
	.short	1934
	.short	2032
	.zero	2
	.zero	2
	.zero	2
	.zero	2
.Lwords_CPI1_1:
	.zero	16,85
.Lwords_CPI1_2:
	.zero	16,51
.Lwords_CPI1_3:
	.zero	16,15
.Lwords_CPI1_4:
	.short	2048
	.short	4096
	.short	8192
	.short	16384
	.zero	2
	.zero	2
	.zero	2
	.zero	2
.Lwords_CPI1_5:
	.short	2048
	.short	4096
	.short	8192
	.short	16384
	.short	0
	.short	0
	.short	0
	.short	0
	.section	.text.loamchalice_encode,"ax",@progbits
	.globl	loamchalice_encode
	.p2align	4
	.type	loamchalice_encode,@function
loamchalice_encode:
	movq	%rdi, %rax
	movzwl	%si, %ecx
	cmpl	$2047, %ecx
	ja	.Lwords_BB1_2
	pushq	%rbx
	movd	%esi, %xmm0
	pshuflw	$0, %xmm0, %xmm0
	pand	.Lwords_CPI1_0(%rip), %xmm0
	movdqa	%xmm0, %xmm1
	psrlw	$1, %xmm1
	pand	.Lwords_CPI1_1(%rip), %xmm1
	psubb	%xmm1, %xmm0
	movdqa	.Lwords_CPI1_2(%rip), %xmm1
	movdqa	%xmm0, %xmm2
	pand	%xmm1, %xmm2
	psrlw	$2, %xmm0
	pand	%xmm1, %xmm0
	paddb	%xmm2, %xmm0
	movdqa	%xmm0, %xmm1
	psrlw	$4, %xmm1
	paddb	%xmm0, %xmm1
	pand	.Lwords_CPI1_3(%rip), %xmm1
	movdqa	%xmm1, %xmm0
	psllw	$8, %xmm0
	paddb	%xmm1, %xmm0
	psrlw	$8, %xmm0
	movq	.Lwords_CPI1_5(%rip), %xmm1
	pmullw	%xmm1, %xmm0
	pand	%xmm1, %xmm0
	pshufd	$85, %xmm0, %xmm1
	por	%xmm0, %xmm1
	movdqa	%xmm1, %xmm0
	psrld	$16, %xmm0
	por	%xmm1, %xmm0
	movd	%xmm0, %ecx
	orl	%esi, %ecx
	xorl	%edx, %edx
	movl	%ecx, %ebx
	xorb	%ch, %bl
	setnp	%dl
	shll	$15, %edx
	orl	%ecx, %edx
	movzwl	%dx, %edx
	xorl	%esi, %esi
	xorl	%ecx, %ecx
	popq	%rbx
	jmp	.Lwords_BB1_3
.Lwords_BB1_2:
	movl	$9, %esi
	xorl	%edx, %edx
.Lwords_BB1_3:
	movq	%rsi, (%rax)
	movq	%rcx, 8(%rax)
	movq	$0, 16(%rax)
	movq	%rdx, 24(%rax)
	retq
.Lwords_func_end1:
	.size	loamchalice_encode, .Lwords_func_end1-loamchalice_encode

	.section	.rodata.cst4,"aM",@progbits,4
	.p2align	2, 0x0
.Lwords_CPI2_0:
	.long	0x7fc00000
	.section	.rodata.cst8,"aM",@progbits,8
	.p2align	3, 0x0
.Lwords_CPI2_1:
	.long	0x7fc00000
	.long	0x7f800000
.Lwords_CPI2_2:
	.quad	0xbfd8d6dad5c5805a
.Lwords_CPI2_3:
	.quad	0x3ff48987b38c9874
.Lwords_CPI2_4:
	.quad	0xbf89e11a55579851
.Lwords_CPI2_5:
	.quad	0x3fbbd11ca559a5b5
.Lwords_CPI2_6:
	.quad	0xbfd9564a9a0cc3d0
.Lwords_CPI2_7:
	.quad	0x3ff49e6fb879243c
.Lwords_CPI2_8:
	.quad	0xbf8b3fdc3e64f496
.Lwords_CPI2_9:
	.quad	0x3fbcd40c7b79c813
.Lwords_CPI2_10:
	.quad	0xbfd9da666a8282c0
.Lwords_CPI2_11:
	.quad	0x3ff4b3c3e0838e08
.Lwords_CPI2_12:
	.quad	0xbf8cb74d9f20e3c5
.Lwords_CPI2_13:
	.quad	0x3fbde4cf1160987f
.Lwords_CPI2_14:
	.quad	0xbfda636eaa84aa24
.Lwords_CPI2_15:
	.quad	0x3ff4c9882b15accb
.Lwords_CPI2_16:
	.quad	0xbf8e499d1637aac6
.Lwords_CPI2_17:
	.quad	0x3fbf045f9100c8fb
.Lwords_CPI2_18:
	.quad	0xbfdaf1a85969655f
.Lwords_CPI2_19:
	.quad	0x3ff4dfc0cf2a5dce
.Lwords_CPI2_20:
	.quad	0xbf8ff9350c84276a
.Lwords_CPI2_21:
	.quad	0x3fc019e7c4a5cc82
.Lwords_CPI2_22:
	.quad	0xbfdb855d7ca13de0
.Lwords_CPI2_23:
	.quad	0x3ff4f6723f50bfea
.Lwords_CPI2_24:
	.quad	0xbf90e461a137b60f
.Lwords_CPI2_25:
	.quad	0x3fc0ba24ac9d711a
.Lwords_CPI2_26:
	.quad	0xbfdc1edd9569549c
.Lwords_CPI2_27:
	.quad	0x3ff50da12e0ca82a
.Lwords_CPI2_28:
	.quad	0xbf91dda0bc0f98f5
.Lwords_CPI2_29:
	.quad	0x3fc1638974e0b1d2
.Lwords_CPI2_30:
	.quad	0xbfdcbe7e238a7215
.Lwords_CPI2_31:
	.quad	0x3ff52552929e8fbf
.Lwords_CPI2_32:
	.quad	0xbf92e9ffafd562c7
.Lwords_CPI2_33:
	.quad	0x3fc216c861238d76
.Lwords_CPI2_34:
	.quad	0xbfdd649b36da6586
.Lwords_CPI2_35:
	.quad	0x3ff53d8bae3e8fed
.Lwords_CPI2_36:
	.quad	0xbf940b5708b9b0fb
.Lwords_CPI2_37:
	.quad	0x3fc2d4a4c2a70153
.Lwords_CPI2_38:
	.quad	0xbfde119811778ee7
.Lwords_CPI2_39:
	.quad	0x3ff5565211d78886
.Lwords_CPI2_40:
	.quad	0xbf9543b6a2c0f3d1
.Lwords_CPI2_41:
	.quad	0x3fc39df4f298d76f
.Lwords_CPI2_42:
	.quad	0xbfdec5dfdd045494
.Lwords_CPI2_43:
	.quad	0x3ff56faba4515177
.Lwords_CPI2_44:
	.quad	0xbf96956d50f05671
.Lwords_CPI2_45:
	.quad	0x3fc473a491df2605
.Lwords_CPI2_46:
	.quad	0xbfdf81e67583ece0
.Lwords_CPI2_47:
	.quad	0x3ff5899ea97ae286
.Lwords_CPI2_48:
	.quad	0xbf980311beecdf50
.Lwords_CPI2_49:
	.quad	0x3fc556b719595084
.Lwords_CPI2_50:
	.quad	0xbfe02314a673068e
.Lwords_CPI2_51:
	.quad	0x3ff5a431c9a7ba2d
.Lwords_CPI2_52:
	.quad	0xbf998f8cc6c133d0
.Lwords_CPI2_53:
	.quad	0x3fc6484ac7a206de
.Lwords_CPI2_54:
	.quad	0xbfe0899835678b25
.Lwords_CPI2_55:
	.quad	0x3ff5bf6c1a168c70
.Lwords_CPI2_56:
	.quad	0xbf9b3e25807701df
.Lwords_CPI2_57:
	.quad	0x3fc7499bfbc8f77c
.Lwords_CPI2_58:
	.quad	0xbfe0f4c7c6612df5
.Lwords_CPI2_59:
	.quad	0x3ff5db55263a7735
.Lwords_CPI2_60:
	.quad	0xbf9d128f5ff1d144
.Lwords_CPI2_61:
	.quad	0x3fc85c090f67f3a1
.Lwords_CPI2_62:
	.quad	0xbfe164f3b5c49c7a
.Lwords_CPI2_63:
	.quad	0x3ff5f7f4fa03b8fd
.Lwords_CPI2_64:
	.quad	0xbf9f10fac7b9e0fd
.Lwords_CPI2_65:
	.quad	0x3fc98116c604a5ac
.Lwords_CPI2_66:
	.quad	0xbfe1da7395c50e4c
.Lwords_CPI2_67:
	.quad	0x3ff615542d494b58
.Lwords_CPI2_68:
	.quad	0xbfa09f1447099ec3
.Lwords_CPI2_69:
	.quad	0x3fcaba756c0423f4
.Lwords_CPI2_70:
	.quad	0xbfe255a6ff632f04
.Lwords_CPI2_71:
	.quad	0x3ff6337bf079ed95
.Lwords_CPI2_72:
	.quad	0xbfa1cfc087047581
.Lwords_CPI2_73:
	.quad	0x3fcc0a06c4c15e4e
.Lwords_CPI2_74:
	.quad	0xbfe2d6f680371f14
.Lwords_CPI2_75:
	.quad	0x3ff652761ac144d6
.Lwords_CPI2_76:
	.quad	0xbfa31d97c0c539a3
.Lwords_CPI2_77:
	.quad	0x3fcd71e4edd8a92e
.Lwords_CPI2_78:
	.quad	0xbfe35ed4a9ba21f2
.Lwords_CPI2_79:
	.quad	0x3ff6724d39d4ef3d
.Lwords_CPI2_80:
	.quad	0xbfa48c214730858e
.Lwords_CPI2_81:
	.quad	0x3fcef46a65c0d8ac
.Lwords_CPI2_82:
	.quad	0xbfe3edbf47a9bdea
.Lwords_CPI2_83:
	.quad	0x3ff6930ca3a5fbdb
.Lwords_CPI2_84:
	.quad	0xbfa61f699420162c
.Lwords_CPI2_85:
	.quad	0x3fd04a1db6ddbdce
.Lwords_CPI2_86:
	.quad	0xbfe48440c4354b61
.Lwords_CPI2_87:
	.quad	0x3ff6b4c08a3d7463
.Lwords_CPI2_88:
	.quad	0xbfa7dc1999064aaa
.Lwords_CPI2_89:
	.quad	0x3fd12a2885c2d55c
.Lwords_CPI2_90:
	.quad	0xbfe522f1c1fc9caa
.Lwords_CPI2_91:
	.quad	0x3ff6d7761216e589
.Lwords_CPI2_92:
	.quad	0xbfa9c792d22551ea
.Lwords_CPI2_93:
	.quad	0x3fd21c02ff5670aa
.Lwords_CPI2_94:
	.quad	0xbfe5ca7af58a6166
.Lwords_CPI2_95:
	.quad	0x3ff6fb3b6b5a8c6c
.Lwords_CPI2_96:
	.quad	0xbfabe8113a584e1d
.Lwords_CPI2_97:
	.quad	0x3fd32193086fb443
.Lwords_CPI2_98:
	.quad	0xbfe67b9749fb94b2
.Lwords_CPI2_99:
	.quad	0x3ff7201fee6a962f
.Lwords_CPI2_100:
	.quad	0xbfae44d489bade19
.Lwords_CPI2_101:
	.quad	0x3fd43d0020924148
.Lwords_CPI2_102:
	.quad	0xbfe737165f09042f
.Lwords_CPI2_103:
	.quad	0x3ff746343c4c6c38
.Lwords_CPI2_104:
	.quad	0xbfb07329465d1743
.Lwords_CPI2_105:
	.quad	0x3fd570be3491b6b7
.Lwords_CPI2_106:
	.quad	0xbfe7fddf71cb1ffa
.Lwords_CPI2_107:
	.quad	0x3ff76d8a639148f5
.Lwords_CPI2_108:
	.quad	0xbfb1eb3a718070d4
.Lwords_CPI2_109:
	.quad	0x3fd6bf9a91c44d0c
.Lwords_CPI2_110:
	.quad	0xbfe8d0f4c57fb846
.Lwords_CPI2_111:
	.quad	0x3ff796360a817401
.Lwords_CPI2_112:
	.quad	0xbfb39072906b220e
.Lwords_CPI2_113:
	.quad	0x3fd82ccb76f32def
.Lwords_CPI2_114:
	.quad	0xbfe9b177a6904feb
.Lwords_CPI2_115:
	.quad	0x3ff7c04c9f750ec5
.Lwords_CPI2_116:
	.quad	0xbfb569b5984f8e41
.Lwords_CPI2_117:
	.quad	0x3fd9bc02e1674462
.Lwords_CPI2_118:
	.quad	0xbfeaa0ad2864dd46
.Lwords_CPI2_119:
	.quad	0x3ff7ebe590764371
.Lwords_CPI2_120:
	.quad	0xbfb77f3180d8ed5f
.Lwords_CPI2_121:
	.quad	0x3fdb71855faad984
.Lwords_CPI2_122:
	.quad	0xbfeba003c69b59ab
.Lwords_CPI2_123:
	.quad	0x3ff8191a8b857f7c
.Lwords_CPI2_124:
	.quad	0xbfb9daa8153fb04b
.Lwords_CPI2_125:
	.quad	0x3fdd5245ec4a3182
.Lwords_CPI2_126:
	.quad	0xbfecb11a1c961214
.Lwords_CPI2_127:
	.quad	0x3ff84807c924869d
.Lwords_CPI2_128:
	.quad	0xbfbc87cc279b3083
.Lwords_CPI2_129:
	.quad	0x3fdf64081dc7d151
.Lwords_CPI2_130:
	.quad	0x4330000000000000
.Lwords_CPI2_131:
	.quad	0xc330000000000000
	.section	.text.loamchalice_root,"ax",@progbits
	.globl	loamchalice_root
	.p2align	4
	.type	loamchalice_root,@function
loamchalice_root:
	movdqa	%xmm0, %xmm1
	ucomiss	%xmm1, %xmm1
	jp	.Lwords_BB2_1
	movd	%xmm0, %eax
	movl	%eax, %ecx
	andl	$2147483647, %ecx
	je	.Lwords_BB2_3
	cmpl	$2139095039, %eax
	ja	.Lwords_BB2_50
	movabsq	$4607182418800017408, %rdx
	cmpl	$8388607, %eax
	ja	.Lwords_BB2_7
	movl	$63, %esi
	bsrl	%eax, %esi
	xorl	$31, %esi
	leal	-8(%rsi), %ecx
	shll	%cl, %eax
	shll	$23, %esi
	subl	%esi, %eax
	addl	$1115684864, %eax
	movl	%eax, %ecx
	shlq	$29, %rcx
	orq	%rdx, %rcx
	movq	%rcx, %xmm0
	movl	%eax, %ecx
	shrl	$18, %ecx
	andl	$31, %ecx
	leaq	.Lwords_JTI2_0(%rip), %rdx
	movslq	(%rdx,%rcx,4), %rcx
	addq	%rdx, %rcx
	jmpq	*%rcx
.Lwords_BB2_3:
	pxor	%xmm0, %xmm0
	jmp	.Lwords_BB2_51
.Lwords_BB2_50:
	xorl	%eax, %eax
	cmpl	$2139095040, %ecx
	sete	%al
	leaq	.Lwords_CPI2_1(%rip), %rcx
	movd	(%rcx,%rax,4), %xmm0
	jmp	.Lwords_BB2_51
.Lwords_BB2_7:
	addl	$1048576000, %eax
	movl	%eax, %ecx
	shlq	$29, %rcx
	orq	%rdx, %rcx
	movq	%rcx, %xmm0
	movl	%eax, %ecx
	shrl	$18, %ecx
	andl	$31, %ecx
	leaq	.Lwords_JTI2_0(%rip), %rdx
	movslq	(%rdx,%rcx,4), %rcx
	addq	%rdx, %rcx
	jmpq	*%rcx
.Lwords_BB2_8:
	movsd	.Lwords_CPI2_126(%rip), %xmm1
	mulsd	%xmm0, %xmm1
	addsd	.Lwords_CPI2_127(%rip), %xmm1
	movsd	.Lwords_CPI2_128(%rip), %xmm2
	movsd	.Lwords_CPI2_129(%rip), %xmm3
	jmp	.Lwords_BB2_40
.Lwords_BB2_35:
	movsd	.Lwords_CPI2_18(%rip), %xmm1
	mulsd	%xmm0, %xmm1
	addsd	.Lwords_CPI2_19(%rip), %xmm1
	movsd	.Lwords_CPI2_20(%rip), %xmm2
	movsd	.Lwords_CPI2_21(%rip), %xmm3
	jmp	.Lwords_BB2_40
.Lwords_BB2_24:
	movsd	.Lwords_CPI2_62(%rip), %xmm1
	mulsd	%xmm0, %xmm1
	addsd	.Lwords_CPI2_63(%rip), %xmm1
	movsd	.Lwords_CPI2_64(%rip), %xmm2
	movsd	.Lwords_CPI2_65(%rip), %xmm3
	jmp	.Lwords_BB2_40
.Lwords_BB2_22:
	movsd	.Lwords_CPI2_70(%rip), %xmm1
	mulsd	%xmm0, %xmm1
	addsd	.Lwords_CPI2_71(%rip), %xmm1
	movsd	.Lwords_CPI2_72(%rip), %xmm2
	movsd	.Lwords_CPI2_73(%rip), %xmm3
	jmp	.Lwords_BB2_40
.Lwords_BB2_19:
	movsd	.Lwords_CPI2_82(%rip), %xmm1
	mulsd	%xmm0, %xmm1
	addsd	.Lwords_CPI2_83(%rip), %xmm1
	movsd	.Lwords_CPI2_84(%rip), %xmm2
	movsd	.Lwords_CPI2_85(%rip), %xmm3
	jmp	.Lwords_BB2_40
.Lwords_BB2_12:
	movsd	.Lwords_CPI2_110(%rip), %xmm1
	mulsd	%xmm0, %xmm1
	addsd	.Lwords_CPI2_111(%rip), %xmm1
	movsd	.Lwords_CPI2_112(%rip), %xmm2
	movsd	.Lwords_CPI2_113(%rip), %xmm3
	jmp	.Lwords_BB2_40
.Lwords_BB2_20:
	movsd	.Lwords_CPI2_78(%rip), %xmm1
	mulsd	%xmm0, %xmm1
	addsd	.Lwords_CPI2_79(%rip), %xmm1
	movsd	.Lwords_CPI2_80(%rip), %xmm2
	movsd	.Lwords_CPI2_81(%rip), %xmm3
	jmp	.Lwords_BB2_40
.Lwords_BB2_17:
	movsd	.Lwords_CPI2_90(%rip), %xmm1
	mulsd	%xmm0, %xmm1
	addsd	.Lwords_CPI2_91(%rip), %xmm1
	movsd	.Lwords_CPI2_92(%rip), %xmm2
	movsd	.Lwords_CPI2_93(%rip), %xmm3
	jmp	.Lwords_BB2_40
.Lwords_BB2_33:
	movsd	.Lwords_CPI2_26(%rip), %xmm1
	mulsd	%xmm0, %xmm1
	addsd	.Lwords_CPI2_27(%rip), %xmm1
	movsd	.Lwords_CPI2_28(%rip), %xmm2
	movsd	.Lwords_CPI2_29(%rip), %xmm3
	jmp	.Lwords_BB2_40
.Lwords_BB2_32:
	movsd	.Lwords_CPI2_30(%rip), %xmm1
	mulsd	%xmm0, %xmm1
	addsd	.Lwords_CPI2_31(%rip), %xmm1
	movsd	.Lwords_CPI2_32(%rip), %xmm2
	movsd	.Lwords_CPI2_33(%rip), %xmm3
	jmp	.Lwords_BB2_40
.Lwords_BB2_10:
	movsd	.Lwords_CPI2_118(%rip), %xmm1
	mulsd	%xmm0, %xmm1
	addsd	.Lwords_CPI2_119(%rip), %xmm1
	movsd	.Lwords_CPI2_120(%rip), %xmm2
	movsd	.Lwords_CPI2_121(%rip), %xmm3
	jmp	.Lwords_BB2_40
.Lwords_BB2_23:
	movsd	.Lwords_CPI2_66(%rip), %xmm1
	mulsd	%xmm0, %xmm1
	addsd	.Lwords_CPI2_67(%rip), %xmm1
	movsd	.Lwords_CPI2_68(%rip), %xmm2
	movsd	.Lwords_CPI2_69(%rip), %xmm3
	jmp	.Lwords_BB2_40
.Lwords_BB2_11:
	movsd	.Lwords_CPI2_114(%rip), %xmm1
	mulsd	%xmm0, %xmm1
	addsd	.Lwords_CPI2_115(%rip), %xmm1
	movsd	.Lwords_CPI2_116(%rip), %xmm2
	movsd	.Lwords_CPI2_117(%rip), %xmm3
	jmp	.Lwords_BB2_40
.Lwords_BB2_15:
	movsd	.Lwords_CPI2_98(%rip), %xmm1
	mulsd	%xmm0, %xmm1
	addsd	.Lwords_CPI2_99(%rip), %xmm1
	movsd	.Lwords_CPI2_100(%rip), %xmm2
	movsd	.Lwords_CPI2_101(%rip), %xmm3
	jmp	.Lwords_BB2_40
.Lwords_BB2_9:
	movsd	.Lwords_CPI2_122(%rip), %xmm1
	mulsd	%xmm0, %xmm1
	addsd	.Lwords_CPI2_123(%rip), %xmm1
	movsd	.Lwords_CPI2_124(%rip), %xmm2
	movsd	.Lwords_CPI2_125(%rip), %xmm3
	jmp	.Lwords_BB2_40
.Lwords_BB2_39:
	movsd	.Lwords_CPI2_2(%rip), %xmm1
	mulsd	%xmm0, %xmm1
	addsd	.Lwords_CPI2_3(%rip), %xmm1
	movsd	.Lwords_CPI2_4(%rip), %xmm2
	movsd	.Lwords_CPI2_5(%rip), %xmm3
	jmp	.Lwords_BB2_40
.Lwords_BB2_25:
	movsd	.Lwords_CPI2_58(%rip), %xmm1
	mulsd	%xmm0, %xmm1
	addsd	.Lwords_CPI2_59(%rip), %xmm1
	movsd	.Lwords_CPI2_60(%rip), %xmm2
	movsd	.Lwords_CPI2_61(%rip), %xmm3
	jmp	.Lwords_BB2_40
.Lwords_BB2_28:
	movsd	.Lwords_CPI2_46(%rip), %xmm1
	mulsd	%xmm0, %xmm1
	addsd	.Lwords_CPI2_47(%rip), %xmm1
	movsd	.Lwords_CPI2_48(%rip), %xmm2
	movsd	.Lwords_CPI2_49(%rip), %xmm3
	jmp	.Lwords_BB2_40
.Lwords_BB2_13:
	movsd	.Lwords_CPI2_106(%rip), %xmm1
	mulsd	%xmm0, %xmm1
	addsd	.Lwords_CPI2_107(%rip), %xmm1
	movsd	.Lwords_CPI2_108(%rip), %xmm2
	movsd	.Lwords_CPI2_109(%rip), %xmm3
	jmp	.Lwords_BB2_40
.Lwords_BB2_29:
	movsd	.Lwords_CPI2_42(%rip), %xmm1
	mulsd	%xmm0, %xmm1
	addsd	.Lwords_CPI2_43(%rip), %xmm1
	movsd	.Lwords_CPI2_44(%rip), %xmm2
	movsd	.Lwords_CPI2_45(%rip), %xmm3
	jmp	.Lwords_BB2_40
.Lwords_BB2_21:
	movsd	.Lwords_CPI2_74(%rip), %xmm1
	mulsd	%xmm0, %xmm1
	addsd	.Lwords_CPI2_75(%rip), %xmm1
	movsd	.Lwords_CPI2_76(%rip), %xmm2
	movsd	.Lwords_CPI2_77(%rip), %xmm3
	jmp	.Lwords_BB2_40
.Lwords_BB2_14:
	movsd	.Lwords_CPI2_102(%rip), %xmm1
	mulsd	%xmm0, %xmm1
	addsd	.Lwords_CPI2_103(%rip), %xmm1
	movsd	.Lwords_CPI2_104(%rip), %xmm2
	movsd	.Lwords_CPI2_105(%rip), %xmm3
	jmp	.Lwords_BB2_40
.Lwords_BB2_26:
	movsd	.Lwords_CPI2_54(%rip), %xmm1
	mulsd	%xmm0, %xmm1
	addsd	.Lwords_CPI2_55(%rip), %xmm1
	movsd	.Lwords_CPI2_56(%rip), %xmm2
	movsd	.Lwords_CPI2_57(%rip), %xmm3
	jmp	.Lwords_BB2_40
.Lwords_BB2_18:
	movsd	.Lwords_CPI2_86(%rip), %xmm1
	mulsd	%xmm0, %xmm1
	addsd	.Lwords_CPI2_87(%rip), %xmm1
	movsd	.Lwords_CPI2_88(%rip), %xmm2
	movsd	.Lwords_CPI2_89(%rip), %xmm3
	jmp	.Lwords_BB2_40
.Lwords_BB2_16:
	movsd	.Lwords_CPI2_94(%rip), %xmm1
	mulsd	%xmm0, %xmm1
	addsd	.Lwords_CPI2_95(%rip), %xmm1
	movsd	.Lwords_CPI2_96(%rip), %xmm2
	movsd	.Lwords_CPI2_97(%rip), %xmm3
	jmp	.Lwords_BB2_40
.Lwords_BB2_38:
	movsd	.Lwords_CPI2_6(%rip), %xmm1
	mulsd	%xmm0, %xmm1
	addsd	.Lwords_CPI2_7(%rip), %xmm1
	movsd	.Lwords_CPI2_8(%rip), %xmm2
	movsd	.Lwords_CPI2_9(%rip), %xmm3
	jmp	.Lwords_BB2_40
.Lwords_BB2_30:
	movsd	.Lwords_CPI2_38(%rip), %xmm1
	mulsd	%xmm0, %xmm1
	addsd	.Lwords_CPI2_39(%rip), %xmm1
	movsd	.Lwords_CPI2_40(%rip), %xmm2
	movsd	.Lwords_CPI2_41(%rip), %xmm3
	jmp	.Lwords_BB2_40
.Lwords_BB2_27:
	movsd	.Lwords_CPI2_50(%rip), %xmm1
	mulsd	%xmm0, %xmm1
	addsd	.Lwords_CPI2_51(%rip), %xmm1
	movsd	.Lwords_CPI2_52(%rip), %xmm2
	movsd	.Lwords_CPI2_53(%rip), %xmm3
	jmp	.Lwords_BB2_40
.Lwords_BB2_31:
	movsd	.Lwords_CPI2_34(%rip), %xmm1
	mulsd	%xmm0, %xmm1
	addsd	.Lwords_CPI2_35(%rip), %xmm1
	movsd	.Lwords_CPI2_36(%rip), %xmm2
	movsd	.Lwords_CPI2_37(%rip), %xmm3
	jmp	.Lwords_BB2_40
.Lwords_BB2_36:
	movsd	.Lwords_CPI2_14(%rip), %xmm1
	mulsd	%xmm0, %xmm1
	addsd	.Lwords_CPI2_15(%rip), %xmm1
	movsd	.Lwords_CPI2_16(%rip), %xmm2
	movsd	.Lwords_CPI2_17(%rip), %xmm3
	jmp	.Lwords_BB2_40
.Lwords_BB2_37:
	movsd	.Lwords_CPI2_10(%rip), %xmm1
	mulsd	%xmm0, %xmm1
	addsd	.Lwords_CPI2_11(%rip), %xmm1
	movsd	.Lwords_CPI2_12(%rip), %xmm2
	movsd	.Lwords_CPI2_13(%rip), %xmm3
	jmp	.Lwords_BB2_40
.Lwords_BB2_34:
	movsd	.Lwords_CPI2_22(%rip), %xmm1
	mulsd	%xmm0, %xmm1
	addsd	.Lwords_CPI2_23(%rip), %xmm1
	movsd	.Lwords_CPI2_24(%rip), %xmm2
	movsd	.Lwords_CPI2_25(%rip), %xmm3
.Lwords_BB2_40:
	movapd	%xmm0, %xmm4
	mulsd	%xmm0, %xmm4
	mulsd	%xmm0, %xmm2
	addsd	%xmm3, %xmm2
	mulsd	%xmm4, %xmm2
	addsd	%xmm1, %xmm2
	movl	%eax, %ecx
	shrl	$20, %ecx
	andl	$24, %ecx
	leaq	.Lwords_switch.table.loamchalice_root(%rip), %rdx
	mulsd	(%rcx,%rdx), %xmm0
	mulsd	%xmm2, %xmm0
	mulsd	%xmm2, %xmm0
	movsd	.Lwords_CPI2_130(%rip), %xmm3
	movapd	%xmm0, %xmm1
	addsd	%xmm3, %xmm1
	movsd	.Lwords_CPI2_131(%rip), %xmm4
	addsd	%xmm1, %xmm4
	addsd	%xmm0, %xmm4
	leaq	.Lwords_switch.table.loamchalice_root.1(%rip), %rdx
	mulsd	(%rcx,%rdx), %xmm2
	mulsd	%xmm4, %xmm2
	addsd	%xmm3, %xmm2
	movapd	%xmm2, %xmm0
	ucomisd	%xmm0, %xmm0
	jp	.Lwords_BB2_41
	movq	%xmm1, %rcx
	movl	%ecx, %edx
	movq	%xmm2, %rcx
	movl	%ecx, %ecx
	movl	%eax, %edi
	andl	$8388607, %edi
.Lwords_BB2_43:
	orl	$8388608, %edi
	movl	%eax, %esi
	andl	$8388608, %esi
	addl	$8388608, %esi
	imulq	%rdi, %rsi
	leaq	1(%rdx), %rdi
	imulq	%rdx, %rdi
	subq	%rsi, %rdi
	leaq	(%rdx,%rdx), %r8
	cmpq	%r8, %rdi
	jb	.Lwords_BB2_46
	.p2align	4
.Lwords_BB2_44:
	movq	%rdx, %rdi
	incq	%rdx
	imulq	%rdx, %rdi
	cmpq	%rsi, %rdi
	jb	.Lwords_BB2_44
	.p2align	4
.Lwords_BB2_45:
	leaq	(%rsi,%rdx), %rdi
	decq	%rdi
	decq	%rdx
	movq	%rdx, %r8
	imulq	%rdx, %r8
	cmpq	%r8, %rdi
	jbe	.Lwords_BB2_45
.Lwords_BB2_46:
	movl	%eax, %esi
	shrl	%esi
	andl	$8388608, %esi
	addl	$8388608, %esi
	imulq	%rdx, %rsi
	leaq	1(%rcx), %rdx
	imulq	%rcx, %rdx
	subq	%rsi, %rdx
	leaq	(%rcx,%rcx), %rdi
	cmpq	%rdi, %rdx
	jb	.Lwords_BB2_49
	.p2align	4
.Lwords_BB2_47:
	movq	%rcx, %rdx
	incq	%rcx
	imulq	%rcx, %rdx
	cmpq	%rsi, %rdx
	jb	.Lwords_BB2_47
	.p2align	4
.Lwords_BB2_48:
	leaq	(%rsi,%rcx), %rdx
	decq	%rdx
	decq	%rcx
	movq	%rcx, %rdi
	imulq	%rcx, %rdi
	cmpq	%rdi, %rdx
	jbe	.Lwords_BB2_48
.Lwords_BB2_49:
	shrl	$2, %eax
	andl	$1065353216, %eax
	addl	%ecx, %eax
	addl	$528482304, %eax
	movd	%eax, %xmm0
.Lwords_BB2_51:
	movd	%xmm0, %ecx
	ucomiss	%xmm0, %xmm0
	movl	$2143289344, %eax
	cmovnpl	%ecx, %eax
	retq
.Lwords_BB2_1:
	movd	.Lwords_CPI2_0(%rip), %xmm0
	jmp	.Lwords_BB2_51
.Lwords_BB2_41:
	movl	%eax, %edi
	andl	$8388607, %edi
	movl	%edi, %edx
	shrl	%edx
	orl	$8388608, %edx
	movl	%edi, %ecx
	shrl	$2, %ecx
	orl	$8388608, %ecx
	jmp	.Lwords_BB2_43
.Lwords_func_end2:
	.size	loamchalice_root, .Lwords_func_end2-loamchalice_root
	.section	.rodata.loamchalice_root,"a",@progbits
	.p2align	2, 0x0
.Lwords_JTI2_0:
	.long	.Lwords_BB2_8-.Lwords_JTI2_0
	.long	.Lwords_BB2_9-.Lwords_JTI2_0
	.long	.Lwords_BB2_10-.Lwords_JTI2_0
	.long	.Lwords_BB2_11-.Lwords_JTI2_0
	.long	.Lwords_BB2_12-.Lwords_JTI2_0
	.long	.Lwords_BB2_13-.Lwords_JTI2_0
	.long	.Lwords_BB2_14-.Lwords_JTI2_0
	.long	.Lwords_BB2_15-.Lwords_JTI2_0
	.long	.Lwords_BB2_16-.Lwords_JTI2_0
	.long	.Lwords_BB2_17-.Lwords_JTI2_0
	.long	.Lwords_BB2_18-.Lwords_JTI2_0
	.long	.Lwords_BB2_19-.Lwords_JTI2_0
	.long	.Lwords_BB2_20-.Lwords_JTI2_0
	.long	.Lwords_BB2_21-.Lwords_JTI2_0
	.long	.Lwords_BB2_22-.Lwords_JTI2_0
	.long	.Lwords_BB2_23-.Lwords_JTI2_0
	.long	.Lwords_BB2_24-.Lwords_JTI2_0
	.long	.Lwords_BB2_25-.Lwords_JTI2_0
	.long	.Lwords_BB2_26-.Lwords_JTI2_0
	.long	.Lwords_BB2_27-.Lwords_JTI2_0
	.long	.Lwords_BB2_28-.Lwords_JTI2_0
	.long	.Lwords_BB2_29-.Lwords_JTI2_0
	.long	.Lwords_BB2_30-.Lwords_JTI2_0
	.long	.Lwords_BB2_31-.Lwords_JTI2_0
	.long	.Lwords_BB2_32-.Lwords_JTI2_0
	.long	.Lwords_BB2_33-.Lwords_JTI2_0
	.long	.Lwords_BB2_34-.Lwords_JTI2_0
	.long	.Lwords_BB2_35-.Lwords_JTI2_0
	.long	.Lwords_BB2_36-.Lwords_JTI2_0
	.long	.Lwords_BB2_37-.Lwords_JTI2_0
	.long	.Lwords_BB2_38-.Lwords_JTI2_0
	.long	.Lwords_BB2_39-.Lwords_JTI2_0

	.type	.Lwords_switch.table.loamchalice_root,@object
	.section	.rodata.cst32,"aM",@progbits,32
	.p2align	3, 0x0
.Lwords_switch.table.loamchalice_root:
	.quad	0x4160000000000000
	.quad	0x4166a09e667f3bcd
	.quad	0x4160000000000000
	.quad	0x4166a09e667f3bcd
	.size	.Lwords_switch.table.loamchalice_root, 32

	.type	.Lwords_switch.table.loamchalice_root.1,@object
	.p2align	3, 0x0
.Lwords_switch.table.loamchalice_root.1:
	.quad	0x3fe0000000000000
	.quad	0x3fdae89f995ad3ad
	.quad	0x3fe6a09e667f3bcd
	.quad	0x3fe306fe0a31b715
	.size	.Lwords_switch.table.loamchalice_root.1, 32

# cards
	.section	.rodata.cst16,"aM",@progbits,16
	.p2align	4, 0x0
.Lcards_CPI0_0:
	.byte	255
	.byte	0
	.byte	255
	.byte	0
	.byte	255
	.byte	0
	.byte	255
	.byte	0
	.byte	255
	.byte	0
	.byte	255
	.byte	0
	.byte	255
	.byte	0
	.byte	255
	.byte	0
.Lcards_CPI0_1:
	.zero	16,85
.Lcards_CPI0_2:
	.zero	16,51
.Lcards_CPI0_3:
	.zero	16,240
.Lcards_CPI0_4:
	.zero	16,71
.Lcards_CPI0_5:
	.zero	16,142
.Lcards_CPI0_6:
	.zero	16,39
.Lcards_CPI0_7:
	.zero	16,109
.Lcards_CPI0_8:
	.zero	16,22
.Lcards_CPI0_9:
	.zero	16,91
.Lcards_CPI0_10:
	.zero	16,13
.Lcards_CPI0_11:
	.zero	16,1
.Lcards_CPI0_12:
	.byte	240
	.byte	240
	.byte	240
	.byte	240
	.byte	240
	.byte	240
	.byte	240
	.byte	240
	.zero	1
	.zero	1
	.zero	1
	.zero	1
	.zero	1
	.zero	1
	.zero	1
	.zero	1
.Lcards_CPI0_13:
	.byte	71
	.byte	71
	.byte	71
	.byte	71
	.byte	71
	.byte	71
	.byte	71
	.byte	71
	.zero	1
	.zero	1
	.zero	1
	.zero	1
	.zero	1
	.zero	1
	.zero	1
	.zero	1
.Lcards_CPI0_14:
	.zero	16,15
.Lcards_CPI0_15:
	.byte	142
	.byte	142
	.byte	142
	.byte	142
	.byte	142
	.byte	142
	.byte	142
	.byte	142
	.zero	1
	.zero	1
	.zero	1
	.zero	1
	.zero	1
	.zero	1
	.zero	1
	.zero	1
.Lcards_CPI0_16:
	.byte	39
	.byte	39
	.byte	39
	.byte	39
	.byte	39
	.byte	39
	.byte	39
	.byte	39
	.zero	1
	.zero	1
	.zero	1
	.zero	1
	.zero	1
	.zero	1
	.zero	1
	.zero	1
.Lcards_CPI0_17:
	.byte	109
	.byte	109
	.byte	109
	.byte	109
	.byte	109
	.byte	109
	.byte	109
	.byte	109
	.zero	1
	.zero	1
	.zero	1
	.zero	1
	.zero	1
	.zero	1
	.zero	1
	.zero	1
.Lcards_CPI0_18:
	.byte	22
	.byte	22
	.byte	22
	.byte	22
	.byte	22
	.byte	22
	.byte	22
	.byte	22
	.zero	1
	.zero	1
	.zero	1
	.zero	1
	.zero	1
	.zero	1
	.zero	1
	.zero	1
.Lcards_CPI0_19:
	.byte	91
	.byte	91
	.byte	91
	.byte	91
	.byte	91
	.byte	91
	.byte	91
	.byte	91
	.zero	1
	.zero	1
	.zero	1
	.zero	1
	.zero	1
	.zero	1
	.zero	1
	.zero	1
.Lcards_CPI0_20:
	.byte	13
	.byte	13
	.byte	13
	.byte	13
	.byte	13
	.byte	13
	.byte	13
	.byte	13
	.zero	1
	.zero	1
	.zero	1
	.zero	1
	.zero	1
	.zero	1
	.zero	1
	.zero	1
.Lcards_CPI0_21:
	.byte	1
	.byte	1
	.byte	1
	.byte	1
	.byte	1
	.byte	1
	.byte	1
	.byte	1
	.zero	1
	.zero	1
	.zero	1
	.zero	1
	.zero	1
	.zero	1
	.zero	1
	.zero	1
.Lcards_CPI0_22:
	.short	65287
	.short	65287
	.short	65287
	.short	65287
	.short	65287
	.short	65287
	.short	65287
	.short	65287
.Lcards_CPI0_23:
	.short	1792
	.short	1792
	.short	1792
	.short	1792
	.short	1792
	.short	1792
	.short	1792
	.short	1792
	.section	.text.cards.card.decode,"ax",@progbits
	.p2align	4
	.type	loamchalice.cards.card.decode,@function
loamchalice.cards.card.decode:
	pushq	%rbp
	pushq	%r15
	pushq	%r14
	pushq	%r13
	pushq	%r12
	pushq	%rbx
	subq	$216, %rsp
	movq	%rdx, %r10
	subq	%rsi, %r10
	leaq	16(%rdx), %r11
	leaq	16(%rsi), %rbx
	leaq	2(%rdx), %r14
	leaq	2(%rsi), %r15
	movl	$832, %eax
	movq	%rax, -120(%rsp)
	xorl	%eax, %eax
	xorl	%r8d, %r8d
	.p2align	4
.Lcards_BB0_1:
	cmpq	$24, %r8
	jb	.Lcards_BB0_26
	movl	%r8d, %ecx
	andl	$7, %ecx
	jne	.Lcards_BB0_26
	movabsq	$-3689348814741910323, %rcx
	imulq	%r8, %rcx
	movabsq	$7378697629483820640, %r9
	addq	%rcx, %r9
	rorq	$5, %r9
	movabsq	$115292150460684697, %rcx
	cmpq	%rcx, %r9
	ja	.Lcards_BB0_7
	pxor	%xmm0, %xmm0
	movdqa	%xmm0, 48(%rsp)
	movdqa	%xmm0, 64(%rsp)
	movdqa	%xmm0, 80(%rsp)
	movdqa	%xmm0, 96(%rsp)
	movdqa	%xmm0, 112(%rsp)
	movdqa	%xmm0, 128(%rsp)
	movdqa	%xmm0, 144(%rsp)
	movdqa	%xmm0, 160(%rsp)
	movdqa	%xmm0, 176(%rsp)
	movdqa	%xmm0, 192(%rsp)
	movdqa	%xmm0, -112(%rsp)
	movdqa	%xmm0, -96(%rsp)
	movdqa	%xmm0, -80(%rsp)
	movdqa	%xmm0, -64(%rsp)
	movdqa	%xmm0, -48(%rsp)
	movdqa	%xmm0, -32(%rsp)
	movdqa	%xmm0, -16(%rsp)
	movdqa	%xmm0, (%rsp)
	movdqa	%xmm0, 16(%rsp)
	movdqa	%xmm0, 32(%rsp)
	movdqu	(%rsi,%r8,2), %xmm2
	movdqu	16(%rsi,%r8,2), %xmm3
	movdqa	%xmm2, %xmm4
	psrlw	$8, %xmm4
	movdqa	%xmm3, %xmm1
	psrlw	$8, %xmm1
	packuswb	%xmm1, %xmm4
	movdqa	.Lcards_CPI0_0(%rip), %xmm1
	pand	%xmm1, %xmm2
	pand	%xmm1, %xmm3
	packuswb	%xmm3, %xmm2
	movdqa	%xmm2, 48(%rsp)
	movdqa	%xmm4, -112(%rsp)
	movdqu	32(%rsi,%r8,2), %xmm2
	movdqu	48(%rsi,%r8,2), %xmm3
	movdqa	%xmm2, %xmm4
	psrlw	$8, %xmm4
	movdqa	%xmm3, %xmm5
	psrlw	$8, %xmm5
	packuswb	%xmm5, %xmm4
	pand	%xmm1, %xmm2
	pand	%xmm1, %xmm3
	packuswb	%xmm3, %xmm2
	movdqa	%xmm2, 64(%rsp)
	movdqa	%xmm4, -96(%rsp)
	movdqu	64(%rsi,%r8,2), %xmm2
	movdqu	80(%rsi,%r8,2), %xmm3
	movdqa	%xmm2, %xmm4
	psrlw	$8, %xmm4
	movdqa	%xmm3, %xmm5
	psrlw	$8, %xmm5
	packuswb	%xmm5, %xmm4
	pand	%xmm1, %xmm2
	pand	%xmm1, %xmm3
	packuswb	%xmm3, %xmm2
	movdqa	%xmm2, 80(%rsp)
	movdqa	%xmm4, -80(%rsp)
	movdqu	96(%rsi,%r8,2), %xmm2
	movdqu	112(%rsi,%r8,2), %xmm3
	movdqa	%xmm2, %xmm4
	psrlw	$8, %xmm4
	movdqa	%xmm3, %xmm5
	psrlw	$8, %xmm5
	packuswb	%xmm5, %xmm4
	pand	%xmm1, %xmm2
	pand	%xmm1, %xmm3
	packuswb	%xmm3, %xmm2
	movdqa	%xmm2, 96(%rsp)
	movdqa	%xmm4, -64(%rsp)
	movdqu	128(%rsi,%r8,2), %xmm2
	movdqu	144(%rsi,%r8,2), %xmm3
	movdqa	%xmm2, %xmm4
	psrlw	$8, %xmm4
	movdqa	%xmm3, %xmm5
	psrlw	$8, %xmm5
	packuswb	%xmm5, %xmm4
	pand	%xmm1, %xmm2
	pand	%xmm1, %xmm3
	packuswb	%xmm3, %xmm2
	movdqa	%xmm2, 112(%rsp)
	movdqa	%xmm4, -48(%rsp)
	movdqu	160(%rsi,%r8,2), %xmm2
	movdqu	176(%rsi,%r8,2), %xmm3
	movdqa	%xmm2, %xmm4
	psrlw	$8, %xmm4
	movdqa	%xmm3, %xmm5
	psrlw	$8, %xmm5
	packuswb	%xmm5, %xmm4
	pand	%xmm1, %xmm2
	pand	%xmm1, %xmm3
	packuswb	%xmm3, %xmm2
	movdqa	%xmm2, 128(%rsp)
	movdqa	%xmm4, -32(%rsp)
	movdqu	192(%rsi,%r8,2), %xmm2
	movdqu	208(%rsi,%r8,2), %xmm3
	movdqa	%xmm2, %xmm4
	psrlw	$8, %xmm4
	movdqa	%xmm3, %xmm5
	psrlw	$8, %xmm5
	packuswb	%xmm5, %xmm4
	pand	%xmm1, %xmm2
	pand	%xmm1, %xmm3
	packuswb	%xmm3, %xmm2
	movdqa	%xmm2, 144(%rsp)
	movdqa	%xmm4, -16(%rsp)
	movdqu	224(%rsi,%r8,2), %xmm2
	movdqu	240(%rsi,%r8,2), %xmm3
	movdqa	%xmm2, %xmm4
	psrlw	$8, %xmm4
	movdqa	%xmm3, %xmm5
	psrlw	$8, %xmm5
	packuswb	%xmm5, %xmm4
	pand	%xmm1, %xmm2
	pand	%xmm1, %xmm3
	packuswb	%xmm3, %xmm2
	movdqa	%xmm2, 160(%rsp)
	movdqa	%xmm4, (%rsp)
	movdqu	256(%rsi,%r8,2), %xmm2
	movdqu	272(%rsi,%r8,2), %xmm3
	movdqa	%xmm2, %xmm4
	psrlw	$8, %xmm4
	movdqa	%xmm3, %xmm5
	psrlw	$8, %xmm5
	packuswb	%xmm5, %xmm4
	pand	%xmm1, %xmm2
	pand	%xmm1, %xmm3
	packuswb	%xmm3, %xmm2
	movdqa	%xmm2, 176(%rsp)
	movdqa	%xmm4, 16(%rsp)
	movdqu	288(%rsi,%r8,2), %xmm2
	movdqu	304(%rsi,%r8,2), %xmm3
	movdqa	%xmm2, %xmm4
	psrlw	$8, %xmm4
	movdqa	%xmm3, %xmm5
	psrlw	$8, %xmm5
	packuswb	%xmm5, %xmm4
	pand	%xmm1, %xmm2
	pand	%xmm1, %xmm3
	packuswb	%xmm3, %xmm2
	movdqa	%xmm2, 192(%rsp)
	movdqa	%xmm4, 32(%rsp)
	movl	$16, %r12d
	pxor	%xmm1, %xmm1
	.p2align	4
.Lcards_BB0_5:
	movdqu	32(%rsp,%r12), %xmm3
	movdqu	48(%rsp,%r12), %xmm2
	movdqu	-128(%rsp,%r12), %xmm7
	movdqu	-112(%rsp,%r12), %xmm6
	movdqa	%xmm7, %xmm10
	pxor	%xmm3, %xmm10
	movdqa	%xmm6, %xmm9
	pxor	%xmm2, %xmm9
	movdqa	%xmm10, %xmm4
	psrlw	$1, %xmm4
	movdqa	.Lcards_CPI0_1(%rip), %xmm5
	pand	%xmm5, %xmm4
	psubb	%xmm4, %xmm10
	movdqa	.Lcards_CPI0_2(%rip), %xmm4
	movdqa	%xmm10, %xmm8
	pand	%xmm4, %xmm8
	psrlw	$2, %xmm10
	pand	%xmm4, %xmm10
	paddb	%xmm8, %xmm10
	movdqa	%xmm10, %xmm8
	psrlw	$4, %xmm8
	paddb	%xmm10, %xmm8
	movdqa	%xmm9, %xmm10
	psrlw	$1, %xmm10
	pand	%xmm5, %xmm10
	psubb	%xmm10, %xmm9
	movdqa	%xmm9, %xmm10
	pand	%xmm4, %xmm10
	psrlw	$2, %xmm9
	pand	%xmm4, %xmm9
	paddb	%xmm10, %xmm9
	movdqa	%xmm9, %xmm10
	psrlw	$4, %xmm10
	paddb	%xmm9, %xmm10
	movdqa	.Lcards_CPI0_3(%rip), %xmm9
	movdqa	%xmm7, %xmm12
	pand	%xmm9, %xmm12
	pand	%xmm6, %xmm9
	movdqa	.Lcards_CPI0_4(%rip), %xmm11
	movdqa	%xmm3, %xmm13
	pand	%xmm11, %xmm13
	pxor	%xmm12, %xmm13
	pand	%xmm2, %xmm11
	pxor	%xmm9, %xmm11
	movdqa	%xmm13, %xmm9
	psrlw	$1, %xmm9
	pand	%xmm5, %xmm9
	psubb	%xmm9, %xmm13
	movdqa	%xmm13, %xmm9
	pand	%xmm4, %xmm9
	psrlw	$2, %xmm13
	pand	%xmm4, %xmm13
	paddb	%xmm9, %xmm13
	movdqa	%xmm13, %xmm9
	psrlw	$4, %xmm9
	paddb	%xmm13, %xmm9
	por	%xmm8, %xmm9
	movdqa	%xmm11, %xmm8
	psrlw	$1, %xmm8
	pand	%xmm5, %xmm8
	psubb	%xmm8, %xmm11
	movdqa	%xmm11, %xmm8
	pand	%xmm4, %xmm8
	psrlw	$2, %xmm11
	pand	%xmm4, %xmm11
	paddb	%xmm8, %xmm11
	movdqa	%xmm11, %xmm8
	psrlw	$4, %xmm8
	paddb	%xmm11, %xmm8
	por	%xmm10, %xmm8
	movdqa	.Lcards_CPI0_5(%rip), %xmm11
	movdqa	%xmm7, %xmm12
	pand	%xmm11, %xmm12
	pand	%xmm6, %xmm11
	movdqa	.Lcards_CPI0_6(%rip), %xmm10
	movdqa	%xmm3, %xmm13
	pand	%xmm10, %xmm13
	pxor	%xmm12, %xmm13
	pand	%xmm2, %xmm10
	pxor	%xmm11, %xmm10
	movdqa	%xmm13, %xmm11
	psrlw	$1, %xmm11
	pand	%xmm5, %xmm11
	psubb	%xmm11, %xmm13
	movdqa	%xmm13, %xmm11
	pand	%xmm4, %xmm11
	psrlw	$2, %xmm13
	pand	%xmm4, %xmm13
	paddb	%xmm11, %xmm13
	movdqa	%xmm13, %xmm12
	psrlw	$4, %xmm12
	paddb	%xmm13, %xmm12
	movdqa	%xmm10, %xmm11
	psrlw	$1, %xmm11
	pand	%xmm5, %xmm11
	psubb	%xmm11, %xmm10
	movdqa	%xmm10, %xmm11
	pand	%xmm4, %xmm11
	psrlw	$2, %xmm10
	pand	%xmm4, %xmm10
	paddb	%xmm11, %xmm10
	movdqa	%xmm10, %xmm11
	psrlw	$4, %xmm11
	paddb	%xmm10, %xmm11
	movdqa	.Lcards_CPI0_7(%rip), %xmm10
	movdqa	%xmm7, %xmm14
	pand	%xmm10, %xmm14
	pand	%xmm6, %xmm10
	movdqa	.Lcards_CPI0_8(%rip), %xmm13
	movdqa	%xmm3, %xmm15
	pand	%xmm13, %xmm15
	pxor	%xmm14, %xmm15
	pand	%xmm2, %xmm13
	pxor	%xmm10, %xmm13
	movdqa	%xmm15, %xmm10
	psrlw	$1, %xmm10
	pand	%xmm5, %xmm10
	psubb	%xmm10, %xmm15
	movdqa	%xmm15, %xmm10
	pand	%xmm4, %xmm10
	psrlw	$2, %xmm15
	pand	%xmm4, %xmm15
	paddb	%xmm10, %xmm15
	movdqa	%xmm15, %xmm10
	psrlw	$4, %xmm10
	paddb	%xmm15, %xmm10
	por	%xmm12, %xmm10
	por	%xmm9, %xmm10
	movdqa	%xmm13, %xmm9
	psrlw	$1, %xmm9
	pand	%xmm5, %xmm9
	psubb	%xmm9, %xmm13
	movdqa	%xmm13, %xmm9
	pand	%xmm4, %xmm9
	psrlw	$2, %xmm13
	pand	%xmm4, %xmm13
	paddb	%xmm9, %xmm13
	movdqa	%xmm13, %xmm9
	psrlw	$4, %xmm9
	paddb	%xmm13, %xmm9
	por	%xmm11, %xmm9
	por	%xmm8, %xmm9
	movdqa	.Lcards_CPI0_9(%rip), %xmm8
	pand	%xmm8, %xmm7
	pand	%xmm8, %xmm6
	movdqa	.Lcards_CPI0_10(%rip), %xmm8
	pand	%xmm8, %xmm3
	pxor	%xmm7, %xmm3
	pand	%xmm8, %xmm2
	pxor	%xmm6, %xmm2
	movdqa	%xmm3, %xmm6
	psrlw	$1, %xmm6
	pand	%xmm5, %xmm6
	psubb	%xmm6, %xmm3
	movdqa	%xmm3, %xmm6
	pand	%xmm4, %xmm6
	psrlw	$2, %xmm3
	pand	%xmm4, %xmm3
	paddb	%xmm6, %xmm3
	movdqa	%xmm3, %xmm6
	psrlw	$4, %xmm6
	paddb	%xmm3, %xmm6
	por	%xmm10, %xmm6
	movdqa	%xmm2, %xmm3
	psrlw	$1, %xmm3
	pand	%xmm5, %xmm3
	psubb	%xmm3, %xmm2
	movdqa	%xmm2, %xmm3
	pand	%xmm4, %xmm3
	psrlw	$2, %xmm2
	pand	%xmm4, %xmm2
	paddb	%xmm3, %xmm2
	movdqa	%xmm2, %xmm3
	psrlw	$4, %xmm3
	paddb	%xmm2, %xmm3
	por	%xmm9, %xmm3
	movdqa	.Lcards_CPI0_11(%rip), %xmm2
	pand	%xmm2, %xmm6
	por	%xmm6, %xmm1
	pand	%xmm2, %xmm3
	por	%xmm3, %xmm0
	addq	$32, %r12
	cmpq	$176, %r12
	jne	.Lcards_BB0_5
	por	%xmm1, %xmm0
	pxor	%xmm1, %xmm1
	pcmpeqb	%xmm0, %xmm1
	pmovmskb	%xmm1, %ecx
	xorl	$65535, %ecx
	je	.Lcards_BB0_11
.Lcards_BB0_7:
	testb	$24, %r8b
	jne	.Lcards_BB0_9
	movdqu	(%rsi,%r8,2), %xmm0
	movdqu	16(%rsi,%r8,2), %xmm2
	movdqu	32(%rsi,%r8,2), %xmm4
	movdqu	48(%rsi,%r8,2), %xmm3
	movdqa	%xmm0, %xmm1
	psrlw	$8, %xmm1
	movdqa	%xmm2, %xmm5
	psrlw	$8, %xmm5
	packuswb	%xmm5, %xmm1
	movdqa	.Lcards_CPI0_0(%rip), %xmm5
	pand	%xmm5, %xmm0
	pand	%xmm5, %xmm2
	packuswb	%xmm2, %xmm0
	movdqa	%xmm4, %xmm11
	psrlw	$8, %xmm11
	movdqa	%xmm3, %xmm2
	psrlw	$8, %xmm2
	packuswb	%xmm2, %xmm11
	pand	%xmm5, %xmm4
	pand	%xmm5, %xmm3
	packuswb	%xmm3, %xmm4
	movdqa	.Lcards_CPI0_3(%rip), %xmm8
	movdqa	%xmm11, %xmm2
	pand	%xmm8, %xmm2
	movdqa	.Lcards_CPI0_4(%rip), %xmm5
	movdqa	%xmm4, %xmm6
	pand	%xmm5, %xmm6
	pxor	%xmm2, %xmm6
	movdqa	%xmm6, %xmm2
	psrlw	$1, %xmm2
	movdqa	.Lcards_CPI0_1(%rip), %xmm3
	pand	%xmm3, %xmm2
	psubb	%xmm2, %xmm6
	movdqa	.Lcards_CPI0_2(%rip), %xmm2
	movdqa	%xmm6, %xmm7
	pand	%xmm2, %xmm7
	psrlw	$2, %xmm6
	pand	%xmm2, %xmm6
	paddb	%xmm7, %xmm6
	movdqa	%xmm6, %xmm7
	psrlw	$4, %xmm7
	paddb	%xmm6, %xmm7
	movdqa	%xmm11, %xmm6
	pxor	%xmm4, %xmm6
	movdqa	%xmm6, %xmm9
	psrlw	$1, %xmm9
	pand	%xmm3, %xmm9
	psubb	%xmm9, %xmm6
	movdqa	%xmm6, %xmm9
	pand	%xmm2, %xmm9
	psrlw	$2, %xmm6
	pand	%xmm2, %xmm6
	paddb	%xmm9, %xmm6
	movdqa	%xmm6, %xmm12
	psrlw	$4, %xmm12
	paddb	%xmm6, %xmm12
	por	%xmm7, %xmm12
	movdqa	.Lcards_CPI0_5(%rip), %xmm9
	movdqa	%xmm11, %xmm7
	pand	%xmm9, %xmm7
	movdqa	.Lcards_CPI0_6(%rip), %xmm6
	movdqa	%xmm4, %xmm10
	pand	%xmm6, %xmm10
	pxor	%xmm7, %xmm10
	movdqa	%xmm10, %xmm7
	psrlw	$1, %xmm7
	pand	%xmm3, %xmm7
	psubb	%xmm7, %xmm10
	movdqa	%xmm10, %xmm7
	pand	%xmm2, %xmm7
	psrlw	$2, %xmm10
	pand	%xmm2, %xmm10
	paddb	%xmm7, %xmm10
	movdqa	%xmm10, %xmm13
	psrlw	$4, %xmm13
	paddb	%xmm10, %xmm13
	movdqa	.Lcards_CPI0_7(%rip), %xmm10
	movdqa	%xmm11, %xmm14
	pand	%xmm10, %xmm14
	movdqa	.Lcards_CPI0_8(%rip), %xmm7
	movdqa	%xmm4, %xmm15
	pand	%xmm7, %xmm15
	pxor	%xmm14, %xmm15
	movdqa	%xmm15, %xmm14
	psrlw	$1, %xmm14
	pand	%xmm3, %xmm14
	psubb	%xmm14, %xmm15
	movdqa	%xmm15, %xmm14
	pand	%xmm2, %xmm14
	psrlw	$2, %xmm15
	pand	%xmm2, %xmm15
	paddb	%xmm14, %xmm15
	movdqa	%xmm15, %xmm14
	psrlw	$4, %xmm14
	paddb	%xmm15, %xmm14
	por	%xmm13, %xmm14
	por	%xmm12, %xmm14
	movdqa	.Lcards_CPI0_9(%rip), %xmm12
	pand	%xmm12, %xmm11
	movdqa	.Lcards_CPI0_10(%rip), %xmm13
	pand	%xmm13, %xmm4
	pxor	%xmm11, %xmm4
	movdqa	%xmm4, %xmm11
	psrlw	$1, %xmm11
	pand	%xmm3, %xmm11
	psubb	%xmm11, %xmm4
	movdqa	%xmm4, %xmm11
	pand	%xmm2, %xmm11
	psrlw	$2, %xmm4
	pand	%xmm2, %xmm4
	paddb	%xmm11, %xmm4
	movdqa	%xmm4, %xmm11
	psrlw	$4, %xmm11
	paddb	%xmm4, %xmm11
	por	%xmm14, %xmm11
	pand	%xmm1, %xmm8
	pand	%xmm0, %xmm5
	pxor	%xmm8, %xmm5
	movdqa	%xmm5, %xmm4
	psrlw	$1, %xmm4
	pand	%xmm3, %xmm4
	psubb	%xmm4, %xmm5
	movdqa	%xmm5, %xmm4
	pand	%xmm2, %xmm4
	psrlw	$2, %xmm5
	pand	%xmm2, %xmm5
	paddb	%xmm4, %xmm5
	movdqa	%xmm5, %xmm8
	psrlw	$4, %xmm8
	paddb	%xmm5, %xmm8
	movdqa	%xmm1, %xmm5
	pxor	%xmm0, %xmm5
	movdqa	%xmm5, %xmm4
	psrlw	$1, %xmm4
	pand	%xmm3, %xmm4
	psubb	%xmm4, %xmm5
	movdqa	%xmm5, %xmm4
	pand	%xmm2, %xmm4
	psrlw	$2, %xmm5
	pand	%xmm2, %xmm5
	paddb	%xmm4, %xmm5
	movdqa	%xmm5, %xmm4
	psrlw	$4, %xmm4
	paddb	%xmm5, %xmm4
	por	%xmm8, %xmm4
	pand	%xmm1, %xmm9
	pand	%xmm0, %xmm6
	pxor	%xmm9, %xmm6
	movdqa	%xmm6, %xmm5
	psrlw	$1, %xmm5
	pand	%xmm3, %xmm5
	psubb	%xmm5, %xmm6
	movdqa	%xmm6, %xmm5
	pand	%xmm2, %xmm5
	psrlw	$2, %xmm6
	pand	%xmm2, %xmm6
	paddb	%xmm5, %xmm6
	movdqa	%xmm6, %xmm8
	psrlw	$4, %xmm8
	paddb	%xmm6, %xmm8
	pand	%xmm1, %xmm10
	pand	%xmm0, %xmm7
	pxor	%xmm10, %xmm7
	movdqa	%xmm7, %xmm5
	psrlw	$1, %xmm5
	pand	%xmm3, %xmm5
	psubb	%xmm5, %xmm7
	movdqa	%xmm7, %xmm5
	pand	%xmm2, %xmm5
	psrlw	$2, %xmm7
	pand	%xmm2, %xmm7
	paddb	%xmm5, %xmm7
	movdqa	%xmm7, %xmm5
	psrlw	$4, %xmm5
	paddb	%xmm7, %xmm5
	por	%xmm8, %xmm5
	por	%xmm4, %xmm5
	pand	%xmm12, %xmm1
	pand	%xmm13, %xmm0
	pxor	%xmm1, %xmm0
	movdqa	%xmm0, %xmm1
	psrlw	$1, %xmm1
	pand	%xmm3, %xmm1
	psubb	%xmm1, %xmm0
	movdqa	%xmm0, %xmm1
	pand	%xmm2, %xmm1
	psrlw	$2, %xmm0
	pand	%xmm2, %xmm0
	paddb	%xmm1, %xmm0
	movdqa	%xmm0, %xmm1
	psrlw	$4, %xmm1
	paddb	%xmm0, %xmm1
	por	%xmm5, %xmm1
	por	%xmm11, %xmm1
	psllw	$7, %xmm1
	pmovmskb	%xmm1, %ecx
	testl	%ecx, %ecx
	je	.Lcards_BB0_15
.Lcards_BB0_9:
	movdqu	(%rsi,%r8,2), %xmm0
	movdqa	%xmm0, %xmm1
	psrlw	$8, %xmm1
	pand	.Lcards_CPI0_0(%rip), %xmm0
	packuswb	%xmm0, %xmm0
	packuswb	%xmm1, %xmm1
	movdqa	.Lcards_CPI0_12(%rip), %xmm2
	pand	%xmm1, %xmm2
	movdqa	.Lcards_CPI0_13(%rip), %xmm4
	pand	%xmm0, %xmm4
	pxor	%xmm2, %xmm4
	movdqa	%xmm4, %xmm2
	psrlw	$1, %xmm2
	movdqa	.Lcards_CPI0_1(%rip), %xmm3
	pand	%xmm3, %xmm2
	psubb	%xmm2, %xmm4
	movdqa	.Lcards_CPI0_2(%rip), %xmm2
	movdqa	%xmm4, %xmm5
	pand	%xmm2, %xmm5
	psrlw	$2, %xmm4
	pand	%xmm2, %xmm4
	paddb	%xmm5, %xmm4
	movdqa	%xmm4, %xmm5
	psrlw	$4, %xmm5
	paddb	%xmm4, %xmm5
	movdqa	%xmm1, %xmm6
	pxor	%xmm0, %xmm6
	movdqa	%xmm6, %xmm4
	psrlw	$1, %xmm4
	pand	%xmm3, %xmm4
	psubb	%xmm4, %xmm6
	movdqa	%xmm6, %xmm4
	pand	%xmm2, %xmm4
	psrlw	$2, %xmm6
	pand	%xmm2, %xmm6
	paddb	%xmm4, %xmm6
	movdqa	%xmm6, %xmm4
	psrlw	$4, %xmm4
	paddb	%xmm6, %xmm4
	por	%xmm5, %xmm4
	pand	.Lcards_CPI0_14(%rip), %xmm4
	movdqa	.Lcards_CPI0_15(%rip), %xmm5
	pand	%xmm1, %xmm5
	movdqa	.Lcards_CPI0_16(%rip), %xmm6
	pand	%xmm0, %xmm6
	pxor	%xmm5, %xmm6
	movdqa	%xmm6, %xmm5
	psrlw	$1, %xmm5
	pand	%xmm3, %xmm5
	psubb	%xmm5, %xmm6
	movdqa	%xmm6, %xmm5
	pand	%xmm2, %xmm5
	psrlw	$2, %xmm6
	pand	%xmm2, %xmm6
	paddb	%xmm5, %xmm6
	movdqa	%xmm6, %xmm5
	psrlw	$4, %xmm5
	paddb	%xmm6, %xmm5
	movdqa	.Lcards_CPI0_17(%rip), %xmm6
	pand	%xmm1, %xmm6
	movdqa	.Lcards_CPI0_18(%rip), %xmm7
	pand	%xmm0, %xmm7
	pxor	%xmm6, %xmm7
	movdqa	%xmm7, %xmm6
	psrlw	$1, %xmm6
	pand	%xmm3, %xmm6
	psubb	%xmm6, %xmm7
	movdqa	%xmm7, %xmm6
	pand	%xmm2, %xmm6
	psrlw	$2, %xmm7
	pand	%xmm2, %xmm7
	paddb	%xmm6, %xmm7
	movdqa	%xmm7, %xmm6
	psrlw	$4, %xmm6
	paddb	%xmm7, %xmm6
	pand	.Lcards_CPI0_19(%rip), %xmm1
	pand	.Lcards_CPI0_20(%rip), %xmm0
	por	%xmm5, %xmm6
	pxor	%xmm1, %xmm0
	movdqa	%xmm0, %xmm1
	psrlw	$1, %xmm1
	pand	%xmm3, %xmm1
	psubb	%xmm1, %xmm0
	movdqa	%xmm0, %xmm1
	pand	%xmm2, %xmm1
	psrlw	$2, %xmm0
	pand	%xmm2, %xmm0
	paddb	%xmm1, %xmm0
	movdqa	%xmm0, %xmm1
	psrlw	$4, %xmm1
	paddb	%xmm0, %xmm1
	por	%xmm6, %xmm1
	por	%xmm4, %xmm1
	pand	.Lcards_CPI0_21(%rip), %xmm1
	movq	%xmm1, %rcx
	testq	%rcx, %rcx
	jne	.Lcards_BB0_26
	movl	$8, %r12d
	movb	$1, %cl
	cmpq	$32, %r10
	jae	.Lcards_BB0_16
.Lcards_BB0_12:
	xorl	%r13d, %r13d
.Lcards_BB0_13:
	leaq	(%r14,%r8,2), %rcx
	leaq	(%r15,%r8,2), %r9
	.p2align	4
.Lcards_BB0_14:
	movzwl	-2(%r9,%r13,2), %ebp
	andl	$65287, %ebp
	rolw	$8, %bp
	movw	%bp, -2(%rcx,%r13,2)
	movzwl	(%r9,%r13,2), %ebp
	andl	$65287, %ebp
	rolw	$8, %bp
	movw	%bp, (%rcx,%r13,2)
	addq	$2, %r13
	cmpq	%r13, %r12
	jne	.Lcards_BB0_14
	jmp	.Lcards_BB0_23
.Lcards_BB0_11:
	xorl	%ecx, %ecx
	movl	$160, %r12d
	cmpq	$32, %r10
	jb	.Lcards_BB0_12
	.p2align	4
.Lcards_BB0_16:
	testb	%cl, %cl
	je	.Lcards_BB0_20
	xorl	%r13d, %r13d
.Lcards_BB0_18:
	leaq	(%rdx,%r8,2), %rcx
	leaq	(%rsi,%r8,2), %r9
	.p2align	4
.Lcards_BB0_19:
	movdqu	(%r9,%r13,2), %xmm0
	movdqa	%xmm0, %xmm1
	psrlw	$8, %xmm1
	psllw	$8, %xmm0
	pand	.Lcards_CPI0_23(%rip), %xmm0
	por	%xmm1, %xmm0
	movdqu	%xmm0, (%rcx,%r13,2)
	addq	$8, %r13
	cmpq	%r13, %r12
	jne	.Lcards_BB0_19
	jmp	.Lcards_BB0_23
	.p2align	4
.Lcards_BB0_20:
	movl	%r12d, %r13d
	andl	$-96, %r13d
	leaq	(%r11,%r8,2), %rbp
	leaq	(%rbx,%r8,2), %r9
	xorl	%ecx, %ecx
	.p2align	4
.Lcards_BB0_21:
	movdqu	-16(%r9,%rcx,2), %xmm0
	movdqu	(%r9,%rcx,2), %xmm1
	movdqa	.Lcards_CPI0_22(%rip), %xmm2
	movdqa	%xmm0, %xmm3
	pand	%xmm2, %xmm3
	pand	%xmm1, %xmm2
	psrlw	$8, %xmm0
	psllw	$8, %xmm3
	por	%xmm0, %xmm3
	psrlw	$8, %xmm1
	psllw	$8, %xmm2
	por	%xmm1, %xmm2
	movdqu	%xmm3, -16(%rbp,%rcx,2)
	movdqu	%xmm2, (%rbp,%rcx,2)
	addq	$16, %rcx
	cmpq	%rcx, %r13
	jne	.Lcards_BB0_21
	cmpl	%r13d, %r12d
	jne	.Lcards_BB0_25
	.p2align	4
.Lcards_BB0_23:
	addq	%r12, %r8
.Lcards_BB0_24:
	cmpq	$832, %r8
	jne	.Lcards_BB0_1
	jmp	.Lcards_BB0_38
.Lcards_BB0_25:
	testb	$8, %r12b
	je	.Lcards_BB0_13
	jmp	.Lcards_BB0_18
.Lcards_BB0_15:
	movl	$32, %r12d
	xorl	%ecx, %ecx
	cmpq	$32, %r10
	jb	.Lcards_BB0_12
	jmp	.Lcards_BB0_16
.Lcards_BB0_26:
	cmpq	$63, %r8
	ja	.Lcards_BB0_33
	movabsq	$-279648911203696640, %rcx
	btq	%r8, %rcx
	jae	.Lcards_BB0_33
.Lcards_BB0_28:
	movzbl	(%rsi,%r8,2), %ecx
	movzbl	1(%rsi,%r8,2), %r9d
	movl	%ecx, %r12d
	shll	$8, %r12d
	leal	(%r9,%r12), %ebp
	movabsq	$4311810305, %r13
	imulq	%r13, %r9
	movabsq	$1099252526427, %r12
	andq	%r9, %r12
	imulq	%r13, %rcx
	movabsq	$1096410404365, %r9
	andq	%rcx, %r9
	xorq	%r12, %r9
	movq	%r9, %rcx
	shrq	$4, %rcx
	xorq	%r9, %rcx
	movq	%rcx, %r9
	shrq	$2, %r9
	xorq	%rcx, %r9
	movq	%r9, %rcx
	shrq	%rcx
	xorq	%r9, %rcx
	andq	%r13, %rcx
	je	.Lcards_BB0_31
	movq	%rcx, %r9
	shrq	$32, %r9
	je	.Lcards_BB0_39
	imull	$16909320, %ecx, %ecx
	shrl	$22, %ecx
	andb	$60, %cl
	movabsq	$-6230900172921172801, %r9
	shrq	%cl, %r9
	andb	$15, %r9b
	btcl	%r9d, %ebp
	andl	$2047, %ebp
	movw	%bp, (%rdx,%r8,2)
	incq	%rax
	movq	%r8, -120(%rsp)
	incq	%r8
	jmp	.Lcards_BB0_24
.Lcards_BB0_31:
	andl	$2047, %ebp
.Lcards_BB0_32:
	movw	%bp, (%rdx,%r8,2)
	incq	%r8
	jmp	.Lcards_BB0_24
.Lcards_BB0_33:
	cmpq	$41, %r8
	ja	.Lcards_BB0_36
	cmpq	$16, %r8
	setae	%cl
	leaq	-21(%r8), %r9
	cmpq	$-2, %r9
	setb	%r9b
	testb	%r9b, %cl
	jne	.Lcards_BB0_28
	jmp	.Lcards_BB0_35
.Lcards_BB0_36:
	cmpq	$831, %r8
	jbe	.Lcards_BB0_28
.Lcards_BB0_35:
	xorl	%ebp, %ebp
	jmp	.Lcards_BB0_32
.Lcards_BB0_38:
	movl	$832, %r8d
.Lcards_BB0_39:
	xorl	%ecx, %ecx
	xorl	%edx, %edx
	cmpq	$832, %r8
	setb	%dl
	cmovbq	%r8, %rcx
	movq	%rdx, (%rdi)
	movq	%rcx, 8(%rdi)
	movq	%rax, 16(%rdi)
	movq	-120(%rsp), %rax
	movq	%rax, 24(%rdi)
	addq	$216, %rsp
	popq	%rbx
	popq	%r12
	popq	%r13
	popq	%r14
	popq	%r15
	popq	%rbp
	retq
.Lcards_func_end0:
	.size	loamchalice.cards.card.decode, .Lcards_func_end0-loamchalice.cards.card.decode

	.section	.text.loamchalice_alpha_row,"ax",@progbits
	.globl	loamchalice_alpha_row
	.p2align	4
	.type	loamchalice_alpha_row,@function
loamchalice_alpha_row:
	cmpq	$6, %rdx
	setae	%al
	cmpq	$1664, %rsi
	setb	%cl
	orb	%al, %cl
	shlq	$6, %rdx
	leaq	512(%rdx), %rsi
	movl	%ecx, %eax
	xorb	$1, %al
	movzbl	%al, %edx
	shll	$6, %edx
	xorl	%eax, %eax
	testb	%cl, %cl
	cmoveq	%rsi, %rax
	retq
.Lcards_func_end1:
	.size	loamchalice_alpha_row, .Lcards_func_end1-loamchalice_alpha_row

	.section	.rodata.cst4,"aM",@progbits,4
	.p2align	2, 0x0
.Lcards_CPI2_0:
	.long	0x7f800000
.Lcards_CPI2_1:
	.long	0x47800000
.Lcards_CPI2_3:
	.long	0x3f800000
.Lcards_CPI2_7:
	.long	0x44ffe000
.Lcards_CPI2_8:
	.long	0x3c800000
.Lcards_CPI2_12:
	.long	0x3c000000
	.section	.rodata.cst16,"aM",@progbits,16
	.p2align	4, 0x0
.Lcards_CPI2_2:
	.long	0x80000000
	.long	0x80000000
	.long	0x80000000
	.long	0x80000000
.Lcards_CPI2_4:
	.short	2047
	.short	2047
	.short	2047
	.short	2047
	.zero	2
	.zero	2
	.zero	2
	.zero	2
.Lcards_CPI2_5:
	.short	1024
	.short	1024
	.short	1024
	.short	1024
	.zero	2
	.zero	2
	.zero	2
	.zero	2
.Lcards_CPI2_6:
	.short	63488
	.short	63488
	.short	63488
	.short	63488
	.short	0
	.short	0
	.short	0
	.short	0
.Lcards_CPI2_9:
	.long	2147516416
	.long	2147516416
	.long	2147516416
	.long	2147516416
.Lcards_CPI2_10:
	.short	127
	.short	127
	.short	127
	.zero	2
	.zero	2
	.zero	2
	.zero	2
	.zero	2
.Lcards_CPI2_11:
	.long	0x7f800000
	.long	0x7f800000
	.zero	4
	.zero	4
.Lcards_CPI2_13:
	.long	0x39800000
	.long	0x3e000000
	.zero	4
	.zero	4
.Lcards_CPI2_14:
	.long	0x38000000
	.long	0x3b000000
	.zero	4
	.zero	4
.Lcards_CPI2_15:
	.short	80
	.short	120
	.short	0
	.short	0
	.zero	2
	.zero	2
	.zero	2
	.zero	2
.Lcards_CPI2_16:
	.short	65496
	.short	65516
	.zero	2
	.zero	2
	.zero	2
	.zero	2
	.zero	2
	.zero	2
.Lcards_CPI2_17:
	.byte	0
	.byte	0
	.byte	0
	.byte	0
	.byte	0
	.byte	0
	.byte	0
	.byte	0
	.byte	64
	.byte	3
	.byte	0
	.byte	0
	.byte	0
	.byte	0
	.byte	0
	.byte	0
.Lcards_CPI2_18:
	.short	80
	.short	120
	.short	0
	.short	0
	.short	0
	.short	0
	.short	0
	.short	0
.Lcards_CPI2_19:
	.short	65496
	.short	65516
	.short	0
	.short	0
	.short	0
	.short	0
	.short	0
	.short	0
	.section	.text.loamchalice_load,"ax",@progbits
	.globl	loamchalice_load
	.p2align	4
	.type	loamchalice_load,@function
loamchalice_load:
	pushq	%rbp
	pushq	%r15
	pushq	%r14
	pushq	%r13
	pushq	%r12
	pushq	%rbx
	subq	$2024, %rsp
	movq	%r9, %rbp
	movq	%rcx, 32(%rsp)
	movq	%rdx, %r12
	movq	%rsi, %r13
	movq	%rdi, %rbx
	xorl	%r15d, %r15d
	testq	%rsi, %rsi
	sete	%r14b
	movq	%r8, 104(%rsp)
	testq	%r8, %r8
	sete	24(%rsp)
	cmpq	$0, 2080(%rsp)
	sete	20(%rsp)
	cmpq	$0, 2096(%rsp)
	sete	16(%rsp)
	cmpq	$0, 2112(%rsp)
	sete	12(%rsp)
	cmpq	$0, 2128(%rsp)
	xorps	%xmm0, %xmm0
	movaps	%xmm0, 272(%rsp)
	movaps	%xmm0, 256(%rsp)
	movaps	%xmm0, 304(%rsp)
	movaps	%xmm0, 288(%rsp)
	sete	10(%rsp)
	leaq	352(%rsp), %rdi
	movl	$1664, %edx
	xorl	%esi, %esi
	callq	memset@PLT
	xorps	%xmm0, %xmm0
	movaps	%xmm0, 176(%rsp)
	movaps	%xmm0, 160(%rsp)
	cmpq	$1663, %r12
	ja	.Lcards_BB2_2
	movl	$1, %eax
	jmp	.Lcards_BB2_19
.Lcards_BB2_2:
	movq	2136(%rsp), %rax
	movq	2088(%rsp), %rcx
	cmpq	%rcx, %rbp
	cmovbq	%rbp, %rcx
	movq	2120(%rsp), %rdx
	cmpq	%rax, %rdx
	cmovbq	%rdx, %rax
	movq	2104(%rsp), %rdx
	cmpq	%rax, %rdx
	cmovbq	%rdx, %rax
	cmpq	%rax, %rcx
	cmovbq	%rcx, %rax
	cmpq	$192, %rax
	jae	.Lcards_BB2_4
	movl	$2, %eax
	xorl	%r12d, %r12d
.Lcards_BB2_19:
	xorl	%ecx, %ecx
.Lcards_BB2_20:
	xorps	%xmm14, %xmm14
	movaps	%xmm14, 368(%rsp)
	movaps	%xmm14, 352(%rsp)
	movaps	.Lcards_CPI2_17(%rip), %xmm3
	xorps	%xmm11, %xmm11
	xorl	%esi, %esi
	xorps	%xmm5, %xmm5
	xorps	%xmm12, %xmm12
	xorl	%edx, %edx
	xorps	%xmm4, %xmm4
	xorps	%xmm0, %xmm0
	xorps	%xmm10, %xmm10
	xorps	%xmm2, %xmm2
	xorps	%xmm6, %xmm6
	xorps	%xmm1, %xmm1
.Lcards_BB2_21:
	movq	%rax, (%rbx)
	movq	%r12, 8(%rbx)
	movq	%rcx, 16(%rbx)
	movups	%xmm3, 24(%rbx)
	movlps	%xmm10, 40(%rbx)
	movss	%xmm11, 48(%rbx)
	movss	%xmm5, 52(%rbx)
	movss	%xmm12, 56(%rbx)
	movups	%xmm14, 60(%rbx)
	movups	%xmm4, 76(%rbx)
	movups	%xmm0, 92(%rbx)
	movlps	%xmm2, 108(%rbx)
	movss	%xmm6, 116(%rbx)
	movw	$0, 120(%rbx)
	movups	%xmm1, 122(%rbx)
	movb	%sil, 138(%rbx)
	movb	%dl, 139(%rbx)
	movaps	352(%rsp), %xmm0
	movaps	368(%rsp), %xmm1
	movups	%xmm0, 140(%rbx)
	movups	%xmm1, 156(%rbx)
	movl	$0, 172(%rbx)
	movq	%rbx, %rax
	addq	$2024, %rsp
	popq	%rbx
	popq	%r12
	popq	%r13
	popq	%r14
	popq	%r15
	popq	%rbp
	retq
.Lcards_BB2_4:
	movb	%r14b, %r15b
	shll	$12, %r15d
	addq	%r15, %r13
	leaq	160(%rsp), %rdi
	leaq	352(%rsp), %rdx
	movq	%r13, %rsi
	callq	loamchalice.cards.card.decode
	cmpb	$1, 160(%rsp)
	jne	.Lcards_BB2_6
	movq	168(%rsp), %r12
	movzwl	(%r13,%r12,2), %eax
	rolw	$8, %ax
	movzwl	%ax, %ecx
	movl	$3, %eax
	jmp	.Lcards_BB2_20
.Lcards_BB2_6:
	movzwl	384(%rsp), %edi
	cmpl	$671, %edi
	jbe	.Lcards_BB2_8
	shrl	$5, %edi
	movl	$4, %eax
	xorl	%ecx, %ecx
	movq	%rdi, %r12
	jmp	.Lcards_BB2_20
.Lcards_BB2_8:
	movq	32(%rsp), %r10
	cmpq	$7, %r10
	jbe	.Lcards_BB2_10
	movl	$6, %eax
	xorl	%ecx, %ecx
	movq	%r10, %r12
	jmp	.Lcards_BB2_20
.Lcards_BB2_10:
	movzwl	456(%rsp), %eax
	movzwl	458(%rsp), %ecx
	andl	$2047, %ecx
	xorl	%edx, %edx
	cmpl	$1024, %ecx
	setb	%dl
	shll	$11, %edx
	addl	%edx, %ecx
	addl	$-2048, %ecx
	movswl	%cx, %ecx
	cvtsi2ss	%ecx, %xmm7
	cmpl	$128, %eax
	jb	.Lcards_BB2_12
	movd	.Lcards_CPI2_0(%rip), %xmm3
	jmp	.Lcards_BB2_13
.Lcards_BB2_12:
	shll	$23, %eax
	addl	$1065353216, %eax
	movd	%eax, %xmm3
.Lcards_BB2_13:
	movzwl	460(%rsp), %eax
	andl	$2047, %eax
	xorl	%ecx, %ecx
	cmpl	$1024, %eax
	setb	%cl
	shll	$11, %ecx
	addl	%ecx, %eax
	addl	$-2048, %eax
	cwtl
	xorps	%xmm0, %xmm0
	cvtsi2ss	%eax, %xmm0
	unpcklps	%xmm0, %xmm7
	shufps	$0, %xmm3, %xmm3
	divps	%xmm3, %xmm7
	movzwl	462(%rsp), %eax
	andl	$2047, %eax
	xorl	%ecx, %ecx
	cmpl	$1024, %eax
	setb	%cl
	shll	$11, %ecx
	addl	%ecx, %eax
	addl	$-2048, %eax
	cwtl
	xorps	%xmm0, %xmm0
	cvtsi2ss	%eax, %xmm0
	movzwl	464(%rsp), %eax
	andl	$2047, %eax
	xorl	%ecx, %ecx
	cmpl	$1024, %eax
	setb	%cl
	shll	$11, %ecx
	addl	%ecx, %eax
	addl	$-2048, %eax
	cwtl
	cvtsi2ss	%eax, %xmm1
	unpcklps	%xmm1, %xmm0
	movzwl	466(%rsp), %eax
	andl	$2047, %eax
	xorl	%ecx, %ecx
	cmpl	$1024, %eax
	setb	%cl
	shll	$11, %ecx
	addl	%ecx, %eax
	addl	$-2048, %eax
	cwtl
	xorps	%xmm1, %xmm1
	cvtsi2ss	%eax, %xmm1
	movzwl	468(%rsp), %r13d
	movzwl	472(%rsp), %r8d
	movzwl	470(%rsp), %eax
	andl	$2047, %eax
	xorl	%ecx, %ecx
	cmpl	$1024, %eax
	setb	%cl
	shll	$11, %ecx
	addl	%ecx, %eax
	addl	$-2048, %eax
	cwtl
	cvtsi2ss	%eax, %xmm2
	unpcklps	%xmm2, %xmm1
	movzwl	474(%rsp), %eax
	andl	$2047, %eax
	xorl	%ecx, %ecx
	cmpl	$1024, %eax
	setb	%cl
	shll	$11, %ecx
	addl	%ecx, %eax
	addl	$-2048, %eax
	cwtl
	xorps	%xmm2, %xmm2
	cvtsi2ss	%eax, %xmm2
	movlhps	%xmm1, %xmm0
	movzwl	478(%rsp), %eax
	andl	$2047, %eax
	xorl	%ecx, %ecx
	cmpl	$1024, %eax
	setb	%cl
	shll	$11, %ecx
	addl	%ecx, %eax
	addl	$-2048, %eax
	cwtl
	xorps	%xmm1, %xmm1
	cvtsi2ss	%eax, %xmm1
	divps	%xmm3, %xmm0
	movzwl	476(%rsp), %r11d
	unpcklps	%xmm1, %xmm2
	divps	%xmm3, %xmm2
	movabsq	$22518002430574552, %rax
	movq	%rax, 64(%rsp)
	movw	$120, 72(%rsp)
	movw	%r13w, 74(%rsp)
	movw	%r8w, 76(%rsp)
	movw	%r11w, 78(%rsp)
	movaps	%xmm7, %xmm9
	movlhps	%xmm0, %xmm9
	movaps	%xmm9, 128(%rsp)
	movaps	%xmm0, %xmm6
	shufps	$78, %xmm2, %xmm6
	movaps	%xmm6, 144(%rsp)
	xorps	%xmm3, %xmm3
	movss	.Lcards_CPI2_1(%rip), %xmm4
	mulss	%xmm3, %xmm4
	testq	%r10, %r10
	je	.Lcards_BB2_54
	movss	124(%rsp,%r10,4), %xmm1
	movswl	64(%rsp,%r10,2), %eax
	movswl	62(%rsp,%r10,2), %ecx
	subl	%ecx, %eax
	js	.Lcards_BB2_16
	cvtsi2ss	%eax, %xmm5
	addss	%xmm4, %xmm5
	jmp	.Lcards_BB2_17
.Lcards_BB2_16:
	negl	%eax
	cvtsi2ss	%eax, %xmm5
	addss	%xmm4, %xmm5
	xorps	.Lcards_CPI2_2(%rip), %xmm5
.Lcards_BB2_17:
	mulss	%xmm5, %xmm1
	leaq	-1(%r10), %r12
	addss	.Lcards_CPI2_3(%rip), %xmm1
	ucomiss	%xmm3, %xmm1
	jne	.Lcards_BB2_22
	jp	.Lcards_BB2_22
.Lcards_BB2_18:
	movl	$13, %eax
	jmp	.Lcards_BB2_19
.Lcards_BB2_22:
	testq	%r12, %r12
	je	.Lcards_BB2_54
	movss	120(%rsp,%r10,4), %xmm1
	movswl	62(%rsp,%r10,2), %eax
	movswl	60(%rsp,%r10,2), %ecx
	subl	%ecx, %eax
	js	.Lcards_BB2_25
	xorps	%xmm5, %xmm5
	cvtsi2ss	%eax, %xmm5
	addss	%xmm4, %xmm5
	jmp	.Lcards_BB2_26
.Lcards_BB2_25:
	negl	%eax
	xorps	%xmm5, %xmm5
	cvtsi2ss	%eax, %xmm5
	addss	%xmm4, %xmm5
	xorps	.Lcards_CPI2_2(%rip), %xmm5
.Lcards_BB2_26:
	mulss	%xmm5, %xmm1
	leaq	-2(%r10), %r12
	addss	.Lcards_CPI2_3(%rip), %xmm1
	ucomiss	%xmm3, %xmm1
	jne	.Lcards_BB2_27
	jnp	.Lcards_BB2_18
.Lcards_BB2_27:
	testq	%r12, %r12
	je	.Lcards_BB2_54
	movss	116(%rsp,%r10,4), %xmm1
	movswl	60(%rsp,%r10,2), %eax
	movswl	58(%rsp,%r10,2), %ecx
	subl	%ecx, %eax
	js	.Lcards_BB2_30
	xorps	%xmm5, %xmm5
	cvtsi2ss	%eax, %xmm5
	addss	%xmm4, %xmm5
	jmp	.Lcards_BB2_31
.Lcards_BB2_30:
	negl	%eax
	xorps	%xmm5, %xmm5
	cvtsi2ss	%eax, %xmm5
	addss	%xmm4, %xmm5
	xorps	.Lcards_CPI2_2(%rip), %xmm5
.Lcards_BB2_31:
	mulss	%xmm5, %xmm1
	leaq	-3(%r10), %r12
	addss	.Lcards_CPI2_3(%rip), %xmm1
	ucomiss	%xmm3, %xmm1
	jne	.Lcards_BB2_32
	jnp	.Lcards_BB2_18
.Lcards_BB2_32:
	testq	%r12, %r12
	je	.Lcards_BB2_54
	movss	112(%rsp,%r10,4), %xmm1
	movswl	58(%rsp,%r10,2), %eax
	movswl	56(%rsp,%r10,2), %ecx
	subl	%ecx, %eax
	js	.Lcards_BB2_35
	xorps	%xmm5, %xmm5
	cvtsi2ss	%eax, %xmm5
	addss	%xmm4, %xmm5
	jmp	.Lcards_BB2_36
.Lcards_BB2_35:
	negl	%eax
	xorps	%xmm5, %xmm5
	cvtsi2ss	%eax, %xmm5
	addss	%xmm4, %xmm5
	xorps	.Lcards_CPI2_2(%rip), %xmm5
.Lcards_BB2_36:
	mulss	%xmm5, %xmm1
	leaq	-4(%r10), %r12
	addss	.Lcards_CPI2_3(%rip), %xmm1
	ucomiss	%xmm3, %xmm1
	jne	.Lcards_BB2_37
	jnp	.Lcards_BB2_18
.Lcards_BB2_37:
	testq	%r12, %r12
	je	.Lcards_BB2_54
	movaps	%xmm0, %xmm11
	movaps	%xmm9, %xmm10
	movl	%r11d, %ebp
	movl	%r8d, %r9d
	movl	%r13d, %edx
	movaps	%xmm7, %xmm8
	movss	108(%rsp,%r10,4), %xmm1
	movswl	56(%rsp,%r10,2), %eax
	movswl	54(%rsp,%r10,2), %ecx
	subl	%ecx, %eax
	js	.Lcards_BB2_40
	xorps	%xmm5, %xmm5
	cvtsi2ss	%eax, %xmm5
	addss	%xmm4, %xmm5
	jmp	.Lcards_BB2_41
.Lcards_BB2_40:
	negl	%eax
	xorps	%xmm5, %xmm5
	cvtsi2ss	%eax, %xmm5
	addss	%xmm4, %xmm5
	xorps	.Lcards_CPI2_2(%rip), %xmm5
.Lcards_BB2_41:
	mulss	%xmm5, %xmm1
	movq	32(%rsp), %rax
	leaq	-5(%rax), %r12
	addss	.Lcards_CPI2_3(%rip), %xmm1
	ucomiss	%xmm3, %xmm1
	jne	.Lcards_BB2_42
	jnp	.Lcards_BB2_18
.Lcards_BB2_42:
	testq	%r12, %r12
	movaps	%xmm8, %xmm7
	movl	%edx, %r13d
	movl	%r9d, %r8d
	movq	32(%rsp), %rcx
	movl	%ebp, %r11d
	movaps	%xmm10, %xmm9
	movaps	%xmm11, %xmm0
	je	.Lcards_BB2_54
	movss	104(%rsp,%rcx,4), %xmm1
	movswl	54(%rsp,%rcx,2), %eax
	movswl	52(%rsp,%rcx,2), %ecx
	subl	%ecx, %eax
	js	.Lcards_BB2_45
	xorps	%xmm5, %xmm5
	cvtsi2ss	%eax, %xmm5
	addss	%xmm4, %xmm5
	jmp	.Lcards_BB2_46
.Lcards_BB2_45:
	negl	%eax
	xorps	%xmm5, %xmm5
	cvtsi2ss	%eax, %xmm5
	addss	%xmm4, %xmm5
	xorps	.Lcards_CPI2_2(%rip), %xmm5
.Lcards_BB2_46:
	mulss	%xmm5, %xmm1
	movq	32(%rsp), %rax
	leaq	-6(%rax), %r12
	addss	.Lcards_CPI2_3(%rip), %xmm1
	ucomiss	%xmm3, %xmm1
	jne	.Lcards_BB2_47
	jnp	.Lcards_BB2_18
.Lcards_BB2_47:
	testq	%r12, %r12
	movaps	%xmm8, %xmm7
	movl	%edx, %r13d
	movl	%r9d, %r8d
	movq	32(%rsp), %rcx
	movl	%ebp, %r11d
	movaps	%xmm10, %xmm9
	movaps	%xmm11, %xmm0
	je	.Lcards_BB2_54
	movss	100(%rsp,%rcx,4), %xmm1
	movswl	52(%rsp,%rcx,2), %eax
	movswl	50(%rsp,%rcx,2), %ecx
	subl	%ecx, %eax
	js	.Lcards_BB2_50
	xorps	%xmm5, %xmm5
	cvtsi2ss	%eax, %xmm5
	addss	%xmm4, %xmm5
	jmp	.Lcards_BB2_51
.Lcards_BB2_50:
	negl	%eax
	xorps	%xmm5, %xmm5
	cvtsi2ss	%eax, %xmm5
	addss	%xmm4, %xmm5
	xorps	.Lcards_CPI2_2(%rip), %xmm5
.Lcards_BB2_51:
	mulss	%xmm5, %xmm1
	movq	32(%rsp), %rax
	leaq	-7(%rax), %r12
	addss	.Lcards_CPI2_3(%rip), %xmm1
	ucomiss	%xmm3, %xmm1
	jne	.Lcards_BB2_52
	jnp	.Lcards_BB2_18
.Lcards_BB2_52:
	testq	%r12, %r12
	movaps	%xmm8, %xmm7
	movl	%edx, %r13d
	movl	%r9d, %r8d
	movq	32(%rsp), %r12
	movl	%ebp, %r11d
	movaps	%xmm10, %xmm9
	movaps	%xmm11, %xmm0
	je	.Lcards_BB2_54
	orq	$-8, %r12
	jmp	.Lcards_BB2_18
.Lcards_BB2_54:
	movaps	%xmm9, 192(%rsp)
	movaps	%xmm7, 240(%rsp)
	xorl	%eax, %eax
	movzbl	12(%rsp), %ecx
	movb	%cl, %al
	xorl	%r9d, %r9d
	movzbl	10(%rsp), %ecx
	movb	%cl, %r9b
	xorl	%ecx, %ecx
	movzbl	24(%rsp), %edx
	movb	%dl, %cl
	xorl	%edx, %edx
	movzbl	20(%rsp), %esi
	movb	%sil, %dl
	xorl	%esi, %esi
	movzbl	16(%rsp), %r10d
	movb	%r10b, %sil
	shll	$12, %eax
	shll	$12, %r9d
	shll	$12, %ecx
	shll	$12, %edx
	shll	$12, %esi
	movq	2112(%rsp), %r12
	addq	%rax, %r12
	movq	2128(%rsp), %r15
	addq	%r9, %r15
	movaps	176(%rsp), %xmm3
	xorps	%xmm1, %xmm1
	movaps	%xmm1, 336(%rsp)
	movaps	%xmm1, 320(%rsp)
	shrl	$5, %edi
	movzwl	386(%rsp), %eax
	shll	$5, %eax
	orw	388(%rsp), %ax
	cwtl
	movd	%edi, %xmm7
	movd	%eax, %xmm1
	pshufd	$0, %xmm1, %xmm8
	movq	104(%rsp), %rax
	addq	%rcx, %rax
	addq	$16, %rax
	xorl	%ecx, %ecx
	.p2align	4
.Lcards_BB2_55:
	movq	480(%rsp,%rcx,2), %xmm1
	movq	488(%rsp,%rcx,2), %xmm5
	movdqa	.Lcards_CPI2_4(%rip), %xmm9
	pand	%xmm9, %xmm1
	pand	%xmm9, %xmm5
	movdqa	.Lcards_CPI2_5(%rip), %xmm10
	movdqa	%xmm10, %xmm12
	pcmpgtw	%xmm1, %xmm12
	movq	.Lcards_CPI2_6(%rip), %xmm11
	pandn	%xmm11, %xmm12
	movdqa	%xmm10, %xmm13
	pcmpgtw	%xmm5, %xmm13
	pandn	%xmm11, %xmm13
	por	%xmm1, %xmm12
	por	%xmm5, %xmm13
	punpcklwd	%xmm12, %xmm1
	psrad	$16, %xmm1
	punpcklwd	%xmm13, %xmm5
	psrad	$16, %xmm5
	pxor	%xmm12, %xmm12
	movss	%xmm7, %xmm12
	pslld	%xmm12, %xmm1
	pslld	%xmm12, %xmm5
	paddd	%xmm8, %xmm1
	paddd	%xmm8, %xmm5
	movdqu	%xmm1, -16(%rax,%rcx,4)
	movdqu	%xmm5, (%rax,%rcx,4)
	addq	$8, %rcx
	cmpq	$192, %rcx
	jne	.Lcards_BB2_55
	movq	2080(%rsp), %rax
	addq	%rdx, %rax
	addq	$16, %rax
	xorl	%ecx, %ecx
	.p2align	4
.Lcards_BB2_57:
	movsd	1632(%rsp,%rcx,2), %xmm1
	movsd	1640(%rsp,%rcx,2), %xmm5
	andps	%xmm9, %xmm1
	andps	%xmm9, %xmm5
	movaps	%xmm10, %xmm12
	pcmpgtw	%xmm1, %xmm12
	pandn	%xmm11, %xmm12
	movaps	%xmm10, %xmm13
	pcmpgtw	%xmm5, %xmm13
	pandn	%xmm11, %xmm13
	por	%xmm1, %xmm12
	por	%xmm5, %xmm13
	punpcklwd	%xmm12, %xmm1
	psrad	$16, %xmm1
	punpcklwd	%xmm13, %xmm5
	psrad	$16, %xmm5
	pxor	%xmm12, %xmm12
	movss	%xmm7, %xmm12
	pslld	%xmm12, %xmm1
	pslld	%xmm12, %xmm5
	paddd	%xmm8, %xmm1
	paddd	%xmm8, %xmm5
	movdqu	%xmm1, -16(%rax,%rcx,4)
	movdqu	%xmm5, (%rax,%rcx,4)
	addq	$8, %rcx
	cmpq	$192, %rcx
	jne	.Lcards_BB2_57
	movzwl	404(%rsp), %edi
	movzwl	406(%rsp), %eax
	movl	%eax, %ecx
	andl	$31, %ecx
	shll	$23, %ecx
	movd	.Lcards_CPI2_0(%rip), %xmm8
	cmpl	$3456, %eax
	movl	%r8d, 60(%rsp)
	jb	.Lcards_BB2_60
	movdqa	%xmm8, %xmm7
	jmp	.Lcards_BB2_61
.Lcards_BB2_60:
	andl	$-32, %eax
	shll	$18, %eax
	addl	$1233125376, %eax
	movd	%eax, %xmm7
.Lcards_BB2_61:
	movzwl	408(%rsp), %edx
	movzwl	402(%rsp), %eax
	addl	$1233125376, %ecx
	movl	%edi, %r8d
	andl	$31, %r8d
	shll	$23, %r8d
	addl	$1233125376, %r8d
	cmpl	$3456, %edi
	movl	%r11d, 56(%rsp)
	jb	.Lcards_BB2_63
	movdqa	%xmm8, %xmm9
	jmp	.Lcards_BB2_64
.Lcards_BB2_63:
	andl	$-32, %edi
	shll	$18, %edi
	addl	$1233125376, %edi
	movd	%edi, %xmm9
.Lcards_BB2_64:
	movl	%eax, %r9d
	andl	$31, %r9d
	shll	$23, %r9d
	addl	$1233125376, %r9d
	movzwl	410(%rsp), %r10d
	movzwl	412(%rsp), %r11d
	movzwl	414(%rsp), %ebp
	movzwl	416(%rsp), %r14d
	movzwl	418(%rsp), %edi
	xorps	%xmm1, %xmm1
	cvtsi2ss	%r14d, %xmm1
	movd	%ecx, %xmm10
	xorps	%xmm12, %xmm12
	cvtsi2ss	%ebp, %xmm12
	movd	%r8d, %xmm11
	xorps	%xmm13, %xmm13
	cvtsi2ss	%r11d, %xmm13
	cvtsi2ss	%r10d, %xmm15
	movd	%r9d, %xmm5
	cvtsi2ss	%edx, %xmm14
	cmpl	$3456, %eax
	jae	.Lcards_BB2_66
	andl	$-32, %eax
	shll	$18, %eax
	addl	$1233125376, %eax
	movd	%eax, %xmm8
.Lcards_BB2_66:
	punpckldq	%xmm5, %xmm8
	xorps	%xmm5, %xmm5
	cvtsi2ss	%edi, %xmm5
	unpcklps	%xmm5, %xmm1
	unpcklps	%xmm12, %xmm13
	unpcklps	%xmm15, %xmm14
	movlhps	%xmm13, %xmm14
	punpckldq	%xmm11, %xmm9
	punpcklqdq	%xmm9, %xmm8
	divps	%xmm8, %xmm14
	movaps	%xmm14, 128(%rsp)
	punpckldq	%xmm10, %xmm7
	divps	%xmm7, %xmm1
	movlps	%xmm1, 144(%rsp)
	movq	2096(%rsp), %rax
	addq	%rsi, %rax
	addq	$4, %rax
	xorl	%ecx, %ecx
	movq	32(%rsp), %r14
	.p2align	4
.Lcards_BB2_67:
	movzwl	864(%rsp,%rcx,2), %edx
	movl	%ecx, %edi
	shrl	$3, %edi
	andl	$28, %edi
	movss	128(%rsp,%rdi), %xmm1
	xorps	%xmm5, %xmm5
	cvtsi2ss	%edx, %xmm5
	movss	.Lcards_CPI2_7(%rip), %xmm7
	divss	%xmm7, %xmm5
	mulss	%xmm1, %xmm5
	movss	%xmm5, -4(%rax,%rcx,4)
	movzwl	866(%rsp,%rcx,2), %edx
	xorps	%xmm5, %xmm5
	cvtsi2ss	%edx, %xmm5
	divss	%xmm7, %xmm5
	mulss	%xmm1, %xmm5
	movss	%xmm5, (%rax,%rcx,4)
	addq	$2, %rcx
	cmpq	$192, %rcx
	jne	.Lcards_BB2_67
	movzwl	398(%rsp), %eax
	andl	$2047, %eax
	xorl	%ecx, %ecx
	cmpl	$1024, %eax
	setb	%cl
	shll	$11, %ecx
	leal	(%rcx,%rax), %edx
	addl	$-2048, %edx
	movzwl	400(%rsp), %ecx
	movl	%ecx, %eax
	andl	$31, %eax
	movswl	%dx, %edx
	xorps	%xmm7, %xmm7
	cvtsi2ss	%edx, %xmm7
	cmpl	$4096, %ecx
	movabsq	$22518002430574552, %rsi
	movaps	192(%rsp), %xmm9
	jb	.Lcards_BB2_70
	movd	.Lcards_CPI2_0(%rip), %xmm1
	jmp	.Lcards_BB2_71
.Lcards_BB2_70:
	andl	$-32, %ecx
	shll	$18, %ecx
	addl	$1065353216, %ecx
	movd	%ecx, %xmm1
.Lcards_BB2_71:
	shll	$23, %eax
	addl	$1065353216, %eax
	movd	%eax, %xmm8
	xorl	%eax, %eax
	.p2align	4
.Lcards_BB2_72:
	movzwl	1248(%rsp,%rax,2), %ecx
	andl	$31, %ecx
	xorl	%edx, %edx
	cmpw	$16, %cx
	setb	%dl
	shll	$5, %edx
	addl	%edx, %ecx
	addl	$-32, %ecx
	movswl	%cx, %ecx
	xorps	%xmm5, %xmm5
	cvtsi2ss	%ecx, %xmm5
	mulss	%xmm8, %xmm5
	addss	%xmm7, %xmm5
	divss	%xmm1, %xmm5
	movss	%xmm5, (%r12,%rax,4)
	incq	%rax
	cmpq	$192, %rax
	jne	.Lcards_BB2_72
	movzwl	394(%rsp), %eax
	andl	$2047, %eax
	xorl	%ecx, %ecx
	cmpl	$1024, %eax
	setb	%cl
	shll	$11, %ecx
	leal	(%rcx,%rax), %edx
	addl	$-2048, %edx
	movzwl	396(%rsp), %ecx
	movl	%ecx, %eax
	andl	$31, %eax
	movswl	%dx, %edx
	xorps	%xmm7, %xmm7
	cvtsi2ss	%edx, %xmm7
	cmpl	$4096, %ecx
	jb	.Lcards_BB2_75
	movd	.Lcards_CPI2_0(%rip), %xmm1
	jmp	.Lcards_BB2_76
.Lcards_BB2_75:
	andl	$-32, %ecx
	shll	$18, %ecx
	addl	$1065353216, %ecx
	movd	%ecx, %xmm1
.Lcards_BB2_76:
	shll	$23, %eax
	addl	$1065353216, %eax
	movd	%eax, %xmm8
	xorl	%eax, %eax
	.p2align	4
.Lcards_BB2_77:
	movzwl	1248(%rsp,%rax,2), %ecx
	shrl	$5, %ecx
	andl	$63, %ecx
	xorl	%edx, %edx
	cmpw	$32, %cx
	setb	%dl
	shll	$6, %edx
	addl	%edx, %ecx
	addl	$-64, %ecx
	movswl	%cx, %ecx
	xorps	%xmm5, %xmm5
	cvtsi2ss	%ecx, %xmm5
	mulss	%xmm8, %xmm5
	addss	%xmm7, %xmm5
	divss	%xmm1, %xmm5
	movss	%xmm5, (%r15,%rax,4)
	incq	%rax
	cmpq	$192, %rax
	jne	.Lcards_BB2_77
	xorps	%xmm1, %xmm1
	movaps	%xmm1, 80(%rsp)
	movaps	%xmm1, 64(%rsp)
	movzwl	420(%rsp), %r10d
	movzwl	422(%rsp), %r11d
	movzwl	424(%rsp), %ebp
	movzwl	426(%rsp), %eax
	movl	%eax, 16(%rsp)
	movzwl	428(%rsp), %eax
	movl	%eax, 24(%rsp)
	movzwl	430(%rsp), %eax
	movl	%eax, 20(%rsp)
	movzwl	432(%rsp), %r12d
	movzwl	434(%rsp), %eax
	movl	%eax, 12(%rsp)
	movzwl	436(%rsp), %edi
	movzwl	438(%rsp), %eax
	movzwl	440(%rsp), %ecx
	movw	%cx, 10(%rsp)
	movzwl	442(%rsp), %ecx
	movw	%cx, 30(%rsp)
	movdqu	444(%rsp), %xmm15
	movzwl	446(%rsp), %r9d
	movzwl	448(%rsp), %r8d
	movq	%rsi, 112(%rsp)
	movzwl	450(%rsp), %r15d
	movw	$120, 120(%rsp)
	movl	%r13d, 104(%rsp)
	movw	%r13w, 122(%rsp)
	movl	60(%rsp), %ecx
	movw	%cx, 124(%rsp)
	movl	56(%rsp), %ecx
	movw	%cx, 126(%rsp)
	movaps	%xmm9, 128(%rsp)
	movaps	%xmm6, 144(%rsp)
	movaps	%xmm1, 160(%rsp)
	movaps	%xmm1, 176(%rsp)
	movzwl	452(%rsp), %r13d
	movzwl	454(%rsp), %esi
	cmpq	$7, %r14
	jne	.Lcards_BB2_80
	movl	$1065353216, 188(%rsp)
	jmp	.Lcards_BB2_86
.Lcards_BB2_80:
	movss	.Lcards_CPI2_3(%rip), %xmm1
	jmp	.Lcards_BB2_83
.Lcards_BB2_81:
	negl	%ecx
	xorps	%xmm5, %xmm5
	cvtsi2ss	%ecx, %xmm5
	addss	%xmm4, %xmm5
	xorps	.Lcards_CPI2_2(%rip), %xmm5
.Lcards_BB2_82:
	mulss	128(%rsp,%r14,4), %xmm5
	addss	.Lcards_CPI2_3(%rip), %xmm5
	mulss	%xmm5, %xmm1
	incq	%r14
	cmpq	$7, %r14
	je	.Lcards_BB2_85
.Lcards_BB2_83:
	movss	%xmm1, 160(%rsp,%r14,4)
	movswl	114(%rsp,%r14,2), %ecx
	movswl	112(%rsp,%r14,2), %edx
	subl	%edx, %ecx
	js	.Lcards_BB2_81
	xorps	%xmm5, %xmm5
	cvtsi2ss	%ecx, %xmm5
	addss	%xmm4, %xmm5
	jmp	.Lcards_BB2_82
.Lcards_BB2_85:
	movss	%xmm1, 188(%rsp)
	movq	32(%rsp), %r14
	testq	%r14, %r14
	je	.Lcards_BB2_91
.Lcards_BB2_86:
	movss	.Lcards_CPI2_3(%rip), %xmm1
	jmp	.Lcards_BB2_89
.Lcards_BB2_87:
	negl	%ecx
	xorps	%xmm5, %xmm5
	cvtsi2ss	%ecx, %xmm5
	addss	%xmm4, %xmm5
	xorps	.Lcards_CPI2_2(%rip), %xmm5
.Lcards_BB2_88:
	mulss	124(%rsp,%r14,4), %xmm5
	decq	%r14
	addss	.Lcards_CPI2_3(%rip), %xmm5
	divss	%xmm5, %xmm1
	movss	%xmm1, 160(%rsp,%r14,4)
	je	.Lcards_BB2_91
.Lcards_BB2_89:
	movswl	112(%rsp,%r14,2), %ecx
	movswl	110(%rsp,%r14,2), %edx
	subl	%edx, %ecx
	js	.Lcards_BB2_87
	xorps	%xmm5, %xmm5
	cvtsi2ss	%ecx, %xmm5
	addss	%xmm4, %xmm5
	jmp	.Lcards_BB2_88
.Lcards_BB2_91:
	movl	%esi, %ecx
	andl	$511, %ecx
	xorl	%edx, %edx
	cmpl	$256, %ecx
	setb	%dl
	shll	$9, %edx
	addl	%edx, %ecx
	addl	$-512, %ecx
	movswl	%cx, %ecx
	xorps	%xmm1, %xmm1
	cvtsi2ss	%ecx, %xmm1
	shrl	$9, %esi
	movl	%r13d, %ecx
	andl	$63, %ecx
	xorl	%edx, %edx
	cmpw	$32, %cx
	setb	%dl
	shll	$6, %edx
	addl	%edx, %ecx
	addl	$-64, %ecx
	cvtsi2ss	%ecx, %xmm4
	mulss	.Lcards_CPI2_8(%rip), %xmm1
	movaps	%xmm1, 32(%rsp)
	pinsrw	$1, %r13d, %xmm15
	movzwl	%r13w, %r14d
	movaps	%xmm4, 224(%rsp)
	pshufd	$100, %xmm15, %xmm1
	pxor	.Lcards_CPI2_9(%rip), %xmm1
	movl	$-1610579840, %ecx
	movd	%ecx, %xmm4
	pcmpgtw	%xmm1, %xmm4
	pshuflw	$80, %xmm4, %xmm9
	shrl	$6, %r14d
	movl	%r15d, %ecx
	andl	$63, %ecx
	xorl	%edx, %edx
	cmpw	$32, %cx
	setb	%dl
	shll	$6, %edx
	addl	%edx, %ecx
	addl	$-64, %ecx
	xorps	%xmm4, %xmm4
	cvtsi2ss	%ecx, %xmm4
	cmpl	$8192, %r15d
	movaps	%xmm0, 208(%rsp)
	jb	.Lcards_BB2_93
	movd	.Lcards_CPI2_0(%rip), %xmm1
	movd	%xmm1, 192(%rsp)
	jmp	.Lcards_BB2_94
.Lcards_BB2_93:
	andl	$-64, %r15d
	shll	$17, %r15d
	addl	$1065353216, %r15d
	movl	%r15d, 192(%rsp)
.Lcards_BB2_94:
	movl	104(%rsp), %edx
	movzwl	30(%rsp), %ecx
	cvtsi2ss	%ecx, %xmm8
	movzwl	10(%rsp), %ecx
	xorps	%xmm5, %xmm5
	cvtsi2ss	%ecx, %xmm5
	shll	$5, %r9d
	orl	%r9d, %r8d
	andl	$2047, %eax
	xorl	%ecx, %ecx
	cmpl	$1024, %eax
	setb	%cl
	shll	$11, %ecx
	addl	%ecx, %eax
	addl	$-2048, %eax
	cwtl
	cvtsi2ss	%eax, %xmm10
	andl	$2047, %edi
	xorl	%eax, %eax
	cmpl	$1024, %edi
	setb	%al
	shll	$11, %eax
	addl	%edi, %eax
	addl	$-2048, %eax
	cwtl
	cvtsi2ss	%eax, %xmm13
	shll	$5, %r12d
	orl	12(%rsp), %r12d
	cvtsi2ss	%r12d, %xmm11
	shll	$5, %ebp
	orl	16(%rsp), %ebp
	cvtsi2ss	%ebp, %xmm12
	andl	$2047, %r11d
	xorl	%eax, %eax
	cmpl	$1024, %r11d
	setb	%al
	shll	$11, %eax
	addl	%r11d, %eax
	addl	$-2048, %eax
	cwtl
	xorps	%xmm1, %xmm1
	cvtsi2ss	%eax, %xmm1
	pinsrw	$1, %r14d, %xmm15
	andl	$2047, %r10d
	xorl	%eax, %eax
	cmpl	$1024, %r10d
	setb	%al
	shll	$11, %eax
	addl	%r10d, %eax
	addl	$-2048, %eax
	cwtl
	cvtsi2ss	%eax, %xmm14
	movd	56(%rsp), %xmm7
	movd	20(%rsp), %xmm6
	divss	192(%rsp), %xmm4
	unpcklps	32(%rsp), %xmm4
	pshuflw	$212, %xmm15, %xmm15
	paddw	.Lcards_CPI2_10(%rip), %xmm15
	pslld	$23, %xmm15
	pand	%xmm9, %xmm15
	pandn	.Lcards_CPI2_11(%rip), %xmm9
	movdqa	%xmm9, %xmm0
	movaps	224(%rsp), %xmm9
	movlhps	%xmm8, %xmm9
	por	%xmm15, %xmm0
	unpcklps	%xmm13, %xmm10
	unpcklps	%xmm1, %xmm14
	mulss	.Lcards_CPI2_12(%rip), %xmm5
	mulps	.Lcards_CPI2_13(%rip), %xmm10
	shufps	$36, %xmm9, %xmm1
	pshufd	$68, %xmm0, %xmm8
	mulps	.Lcards_CPI2_14(%rip), %xmm14
	divps	%xmm8, %xmm1
	shufps	$228, %xmm1, %xmm14
	movaps	160(%rsp), %xmm1
	movaps	%xmm1, 256(%rsp)
	movaps	%xmm1, 352(%rsp)
	movaps	176(%rsp), %xmm1
	andb	$3, %sil
	movaps	%xmm1, 272(%rsp)
	movaps	%xmm1, 368(%rsp)
	unpcklpd	240(%rsp), %xmm4
	pslld	$5, %xmm6
	punpcklwd	%xmm6, %xmm7
	movd	%r8d, %xmm1
	movd	24(%rsp), %xmm6
	pslld	$5, %xmm6
	punpcklwd	%xmm1, %xmm6
	punpckldq	%xmm6, %xmm7
	movd	60(%rsp), %xmm1
	movd	%edx, %xmm6
	punpcklwd	%xmm1, %xmm6
	movd	.Lcards_CPI2_18(%rip), %xmm1
	punpckldq	%xmm6, %xmm1
	punpcklqdq	%xmm7, %xmm1
	movss	.Lcards_CPI2_19(%rip), %xmm6
	movb	$1, %dl
	xorl	%eax, %eax
	xorl	%r12d, %r12d
	xorl	%ecx, %ecx
	movaps	208(%rsp), %xmm0
	jmp	.Lcards_BB2_21
.Lcards_func_end2:
	.size	loamchalice_load, .Lcards_func_end2-loamchalice_load

	.section	.text.loamchalice_read_words,"ax",@progbits
	.globl	loamchalice_read_words
	.p2align	4
	.type	loamchalice_read_words,@function
loamchalice_read_words:
	pushq	%rbp
	pushq	%r15
	pushq	%r14
	pushq	%r13
	pushq	%r12
	pushq	%rbx
	subq	$1720, %rsp
	movq	%r8, %rbp
	movq	%rcx, %r15
	movq	%rdx, %r13
	movq	%rsi, %r12
	movq	%rdi, %rbx
	xorl	%r14d, %r14d
	testq	%rsi, %rsi
	sete	7(%rsp)
	testq	%rcx, %rcx
	sete	5(%rsp)
	movq	%r9, 8(%rsp)
	testq	%r9, %r9
	sete	6(%rsp)
	leaq	56(%rsp), %rdi
	movl	$1664, %edx
	xorl	%esi, %esi
	callq	memset@PLT
	xorps	%xmm0, %xmm0
	movaps	%xmm0, 32(%rsp)
	movaps	%xmm0, 16(%rsp)
	cmpq	$1663, %r13
	ja	.Lcards_BB3_2
	movl	$1, %eax
	jmp	.Lcards_BB3_17
.Lcards_BB3_2:
	cmpq	$814, %rbp
	setb	%al
	cmpq	$18, 1776(%rsp)
	setb	%cl
	orb	%al, %cl
	je	.Lcards_BB3_4
	movl	$2, %eax
	jmp	.Lcards_BB3_16
.Lcards_BB3_4:
	movzbl	7(%rsp), %eax
	movb	%al, %r14b
	shll	$12, %r14d
	leaq	(%r12,%r14), %rbp
	leaq	16(%rsp), %rdi
	leaq	56(%rsp), %rdx
	movq	%rbp, %rsi
	callq	loamchalice.cards.card.decode
	movzbl	16(%rsp), %eax
	cmpb	$1, %al
	jne	.Lcards_BB3_6
	movq	24(%rsp), %r13
	movzwl	(%rbp,%r13,2), %eax
	rolw	$8, %ax
	movzwl	%ax, %ecx
	movl	$3, %eax
	jmp	.Lcards_BB3_18
.Lcards_BB3_6:
	testb	%al, %al
	je	.Lcards_BB3_8
	movl	$1, %eax
	jmp	.Lcards_BB3_16
.Lcards_BB3_8:
	xorl	%eax, %eax
	movzbl	5(%rsp), %ecx
	movb	%cl, %al
	shll	$12, %eax
	addq	%rax, %r15
	xorl	%eax, %eax
	movzbl	6(%rsp), %ecx
	movb	%cl, %al
	shll	$12, %eax
	movq	8(%rsp), %r9
	addq	%rax, %r9
	leaq	(%r14,%r12), %rax
	incq	%rax
	xorl	%ecx, %ecx
	xorl	%edx, %edx
	.p2align	4
.Lcards_BB3_9:
	cmpq	$63, %rcx
	ja	.Lcards_BB3_12
	movabsq	$-279648911203696640, %rsi
	btq	%rcx, %rsi
	jae	.Lcards_BB3_12
.Lcards_BB3_11:
	movzwl	56(%rsp,%rcx,2), %esi
	movw	%si, (%r15,%rdx,2)
	incq	%rdx
	incq	%rcx
	cmpq	$832, %rcx
	jne	.Lcards_BB3_9
	jmp	.Lcards_BB3_15
.Lcards_BB3_12:
	cmpq	$41, %rcx
	ja	.Lcards_BB3_11
	cmpq	$16, %rcx
	setae	%sil
	leaq	-21(%rcx), %rdi
	cmpq	$-2, %rdi
	setb	%dil
	andb	%sil, %dil
	cmpb	$1, %dil
	je	.Lcards_BB3_11
	movzwl	-1(%rax,%rcx,2), %esi
	rolw	$8, %si
	movq	%r9, %r8
	subq	%rdx, %r8
	subq	%rdx, %r8
	movw	%si, (%r8,%rcx,2)
	incq	%rcx
	cmpq	$832, %rcx
	jne	.Lcards_BB3_9
.Lcards_BB3_15:
	xorl	%eax, %eax
.Lcards_BB3_16:
	xorl	%r13d, %r13d
.Lcards_BB3_17:
	xorl	%ecx, %ecx
.Lcards_BB3_18:
	movq	%rax, (%rbx)
	movq	%r13, 8(%rbx)
	movq	%rcx, 16(%rbx)
	movq	%rbx, %rax
	addq	$1720, %rsp
	popq	%rbx
	popq	%r12
	popq	%r13
	popq	%r14
	popq	%r15
	popq	%rbp
	retq
.Lcards_func_end3:
	.size	loamchalice_read_words, .Lcards_func_end3-loamchalice_read_words

	.section	.text.loamchalice_subpage_offsets,"ax",@progbits
	.globl	loamchalice_subpage_offsets
	.p2align	4
	.type	loamchalice_subpage_offsets,@function
loamchalice_subpage_offsets:
	xorl	%eax, %eax
	cmpq	$192, %rsi
	movl	$192, %edx
	movl	$192, %esi
	cmovbq	%rax, %rsi
	cmpq	$192, %rcx
	cmovbq	%rax, %rdx
	testb	%r8b, %r8b
	cmoveq	%rsi, %rdx
	xorl	%eax, %eax
	retq
.Lcards_func_end4:
	.size	loamchalice_subpage_offsets, .Lcards_func_end4-loamchalice_subpage_offsets

	.section	.rodata.cst16,"aM",@progbits,16
	.p2align	4, 0x0
.Lcards_CPI5_0:
	.short	1371
	.short	1645
	.short	1934
	.short	2032
	.zero	2
	.zero	2
	.zero	2
	.zero	2
.Lcards_CPI5_1:
	.zero	16,85
.Lcards_CPI5_2:
	.zero	16,51
.Lcards_CPI5_3:
	.zero	16,15
.Lcards_CPI5_4:
	.short	2048
	.short	4096
	.short	8192
	.short	16384
	.zero	2
	.zero	2
	.zero	2
	.zero	2
.Lcards_CPI5_5:
	.short	2048
	.short	4096
	.short	8192
	.short	16384
	.short	0
	.short	0
	.short	0
	.short	0
	.section	.text.loamchalice_write,"ax",@progbits
	.globl	loamchalice_write
	.p2align	4
	.type	loamchalice_write,@function
loamchalice_write:
	pushq	%rbp
	pushq	%r15
	pushq	%r14
	pushq	%rbx
	movq	%rdi, %rax
	xorl	%r14d, %r14d
	testq	%rsi, %rsi
	sete	%r15b
	xorl	%r11d, %r11d
	testq	%rcx, %rcx
	sete	%bpl
	xorl	%edi, %edi
	testq	%r9, %r9
	sete	%bl
	movl	$1, %r10d
	cmpq	$814, %rdx
	jne	.Lcards_BB5_29
	cmpq	$18, %r8
	jne	.Lcards_BB5_5
	cmpq	$1664, 40(%rsp)
	jae	.Lcards_BB5_6
	movl	$2, %r10d
	jmp	.Lcards_BB5_28
.Lcards_BB5_5:
	xorl	%ecx, %ecx
	movq	%r8, %rdx
	jmp	.Lcards_BB5_30
.Lcards_BB5_6:
	movb	%r15b, %r14b
	shll	$12, %r14d
	addq	%r14, %rsi
	movb	%bpl, %r11b
	shll	$12, %r11d
	addq	%r11, %rcx
	movb	%bl, %dil
	shll	$12, %edi
	xorl	%edx, %edx
	.p2align	4
.Lcards_BB5_7:
	cmpw	$2047, (%rsi,%rdx,2)
	ja	.Lcards_BB5_26
	cmpw	$2047, 2(%rsi,%rdx,2)
	ja	.Lcards_BB5_25
	addq	$2, %rdx
	cmpq	$814, %rdx
	jne	.Lcards_BB5_7
	leaq	(%rdi,%r9), %r14
	incq	%r14
	xorl	%edi, %edi
	xorl	%r8d, %r8d
	.p2align	4
.Lcards_BB5_11:
	movabsq	$-279648911203696640, %r9
	cmpq	$63, %rdi
	ja	.Lcards_BB5_19
	btq	%rdi, %r9
	jae	.Lcards_BB5_19
.Lcards_BB5_13:
	movzwl	(%rsi,%r8,2), %r10d
	cmpl	$2047, %r10d
	ja	.Lcards_BB5_15
	movd	%r10d, %xmm0
	pshuflw	$0, %xmm0, %xmm0
	pand	.Lcards_CPI5_0(%rip), %xmm0
	movdqa	%xmm0, %xmm1
	psrlw	$1, %xmm1
	pand	.Lcards_CPI5_1(%rip), %xmm1
	psubb	%xmm1, %xmm0
	movdqa	.Lcards_CPI5_2(%rip), %xmm1
	movdqa	%xmm0, %xmm2
	pand	%xmm1, %xmm2
	psrlw	$2, %xmm0
	pand	%xmm1, %xmm0
	paddb	%xmm2, %xmm0
	movdqa	%xmm0, %xmm1
	psrlw	$4, %xmm1
	paddb	%xmm0, %xmm1
	pand	.Lcards_CPI5_3(%rip), %xmm1
	movdqa	%xmm1, %xmm0
	psllw	$8, %xmm0
	paddb	%xmm1, %xmm0
	psrlw	$8, %xmm0
	movq	.Lcards_CPI5_5(%rip), %xmm1
	pmullw	%xmm1, %xmm0
	pand	%xmm1, %xmm0
	pshufd	$85, %xmm0, %xmm1
	por	%xmm0, %xmm1
	movdqa	%xmm1, %xmm0
	psrld	$16, %xmm0
	por	%xmm1, %xmm0
	movd	%xmm0, %ebx
	orl	%r10d, %ebx
	xorl	%r10d, %r10d
	movl	%ebx, %edx
	xorb	%bh, %dl
	setnp	%r10b
	shll	$15, %r10d
	orl	%ebx, %r10d
	rolw	$8, %r10w
	movw	%r10w, -1(%r14,%rdi,2)
	cmpq	$63, %rdi
	jbe	.Lcards_BB5_16
	jmp	.Lcards_BB5_22
	.p2align	4
.Lcards_BB5_15:
	xorl	%r10d, %r10d
	rolw	$8, %r10w
	movw	%r10w, -1(%r14,%rdi,2)
	cmpq	$63, %rdi
	ja	.Lcards_BB5_22
.Lcards_BB5_16:
	btq	%rdi, %r9
	jae	.Lcards_BB5_22
.Lcards_BB5_17:
	incq	%r8
.Lcards_BB5_18:
	incq	%rdi
	cmpq	$832, %rdi
	jne	.Lcards_BB5_11
	jmp	.Lcards_BB5_27
.Lcards_BB5_19:
	cmpq	$41, %rdi
	ja	.Lcards_BB5_13
	cmpq	$16, %rdi
	setae	%r10b
	leaq	-21(%rdi), %r11
	cmpq	$-2, %r11
	setb	%r11b
	andb	%r10b, %r11b
	cmpb	$1, %r11b
	je	.Lcards_BB5_13
	movq	%rcx, %r10
	subq	%r8, %r10
	subq	%r8, %r10
	movzwl	(%r10,%rdi,2), %r10d
	rolw	$8, %r10w
	movw	%r10w, -1(%r14,%rdi,2)
	cmpq	$63, %rdi
	jbe	.Lcards_BB5_16
.Lcards_BB5_22:
	cmpq	$41, %rdi
	ja	.Lcards_BB5_17
	cmpq	$16, %rdi
	jb	.Lcards_BB5_18
	leaq	-21(%rdi), %rdx
	cmpq	$-2, %rdx
	adcq	$0, %r8
	jmp	.Lcards_BB5_18
.Lcards_BB5_25:
	incq	%rdx
.Lcards_BB5_26:
	movzwl	(%rsi,%rdx,2), %ecx
	movl	$9, %r10d
	jmp	.Lcards_BB5_30
.Lcards_BB5_27:
	xorl	%r10d, %r10d
.Lcards_BB5_28:
	xorl	%edx, %edx
.Lcards_BB5_29:
	xorl	%ecx, %ecx
.Lcards_BB5_30:
	movq	%r10, (%rax)
	movq	%rdx, 8(%rax)
	movq	%rcx, 16(%rax)
	popq	%rbx
	popq	%r14
	popq	%r15
	popq	%rbp
	retq
.Lcards_func_end5:
	.size	loamchalice_write, .Lcards_func_end5-loamchalice_write

# frames
	.section	.rodata.cst4,"aM",@progbits,4
	.p2align	2, 0x0
.Lframes_CPI0_0:
	.long	0xc1c80000
.Lframes_CPI0_5:
	.long	0x47800000
.Lframes_CPI0_6:
	.long	0x3f800000
	.section	.rodata.cst16,"aM",@progbits,16
	.p2align	4, 0x0
.Lframes_CPI0_1:
	.long	0x80000000
	.long	0xc0533333
	.zero	4
	.zero	4
.Lframes_CPI0_2:
	.long	2147483647
	.long	2147483647
	.long	2147483647
	.long	2147483647
.Lframes_CPI0_3:
	.long	2139095040
	.long	2139095040
	.long	2139095040
	.long	2139095040
.Lframes_CPI0_4:
	.long	0x7fc00000
	.long	0x7fc00000
	.long	0x7fc00000
	.long	0x7fc00000
.Lframes_CPI0_7:
	.zero	4
	.long	0x3f800000
	.zero	4
	.zero	4
.Lframes_CPI0_8:
	.long	0x80000000
	.long	0xc0533333
	.long	0x00000000
	.long	0x00000000
	.section	.text.frames.pixels.frame_pixels,"ax",@progbits
	.p2align	4
	.type	loamchalice.frames.pixels.frame_pixels,@function
loamchalice.frames.pixels.frame_pixels:
	pushq	%rbp
	pushq	%r15
	pushq	%r14
	pushq	%r13
	pushq	%r12
	pushq	%rbx
	subq	$1096, %rsp
	movq	%r8, %r15
	movq	%rsi, %r14
	movq	(%rdi), %r9
	movq	8(%rdi), %r10
	movzbl	24(%rdi), %r11d
	movsd	28(%rdi), %xmm9
	movss	36(%rdi), %xmm8
	movss	40(%rdi), %xmm10
	movzbl	44(%rdi), %esi
	movss	48(%rdi), %xmm11
	movq	(%rdx), %rax
	movq	%rax, 392(%rsp)
	movq	16(%rdx), %r8
	movq	32(%rdx), %rax
	movq	%rax, 384(%rsp)
	movq	48(%rdx), %rbx
	movq	64(%rdx), %rdx
	movq	(%rcx), %rax
	movq	%rax, 48(%rsp)
	movq	16(%rcx), %rax
	movq	%rax, 352(%rsp)
	movq	32(%rcx), %rax
	movq	%rax, 344(%rsp)
	movq	48(%rcx), %rax
	movq	%rax, 336(%rsp)
	movq	16(%rdi), %rcx
	movzbl	52(%rdi), %eax
	movl	%eax, 60(%rsp)
	movl	80(%rdi), %eax
	movq	%rax, 328(%rsp)
	movq	72(%rdi), %rax
	movq	%rax, 240(%rsp)
	movdqu	56(%rdi), %xmm0
	movdqa	%xmm0, 224(%rsp)
	testq	%r9, %r9
	je	.Lframes_BB0_1
	movq	%rdx, 200(%rsp)
	movq	%rbx, 208(%rsp)
	movb	%sil, 3(%rsp)
	addss	.Lframes_CPI0_0(%rip), %xmm10
	movsd	.Lframes_CPI0_8(%rip), %xmm12
	addps	%xmm9, %xmm12
	movaps	%xmm12, %xmm13
	shufps	$85, %xmm12, %xmm13
	movzbl	224(%rsp), %eax
	movb	%al, 2(%rsp)
	movss	228(%rsp), %xmm0
	movss	%xmm0, 56(%rsp)
	movss	232(%rsp), %xmm0
	movss	%xmm0, 12(%rsp)
	movd	236(%rsp), %xmm0
	movd	%xmm0, 8(%rsp)
	xorl	%edx, %edx
	xorl	%r12d, %r12d
	movq	%r8, 376(%rsp)
.Lframes_BB0_3:
	movq	%r12, %rbp
	shlq	$5, %rbp
	movq	%r12, %r13
	shlq	$7, %r13
	leaq	(%r15,%r13), %rbx
	movq	384(%rsp), %rax
	leaq	(%rax,%r13), %rsi
	leaq	(%r8,%r13), %rdi
	movq	%r12, %r8
	shlq	$6, %r8
	addq	392(%rsp), %r8
	addq	48(%rsp), %r13
	.p2align	4
.Lframes_BB0_4:
	movdqu	(%r14,%rbp), %xmm0
	movdqu	16(%r14,%rbp), %xmm1
	por	%xmm0, %xmm1
	pxor	%xmm0, %xmm0
	pcmpeqb	%xmm0, %xmm1
	pmovmskb	%xmm1, %eax
	xorl	$65535, %eax
	jne	.Lframes_BB0_5
	incq	%r12
	addq	$32, %rbp
	subq	$-128, %rbx
	subq	$-128, %rsi
	subq	$-128, %rdi
	addq	$64, %r8
	subq	$-128, %r13
	cmpq	%r9, %r12
	jb	.Lframes_BB0_4
	jmp	.Lframes_BB0_42
	.p2align	4
.Lframes_BB0_5:
	movdqa	%xmm0, 512(%rsp)
	movdqa	%xmm0, 496(%rsp)
	movdqa	%xmm0, 480(%rsp)
	movdqa	%xmm0, 464(%rsp)
	movdqa	%xmm0, 448(%rsp)
	movdqa	%xmm0, 432(%rsp)
	movdqa	%xmm0, 416(%rsp)
	movdqa	%xmm0, 400(%rsp)
	movdqa	%xmm0, 656(%rsp)
	movdqa	%xmm0, 672(%rsp)
	movdqa	%xmm0, 688(%rsp)
	movdqa	%xmm0, 704(%rsp)
	movdqa	%xmm0, 720(%rsp)
	movdqa	%xmm0, 736(%rsp)
	movdqa	%xmm0, 752(%rsp)
	movdqa	%xmm0, 768(%rsp)
	movdqa	%xmm0, 528(%rsp)
	movdqa	%xmm0, 544(%rsp)
	movdqa	%xmm0, 560(%rsp)
	movdqa	%xmm0, 576(%rsp)
	movdqa	%xmm0, 592(%rsp)
	movdqa	%xmm0, 608(%rsp)
	movdqa	%xmm0, 624(%rsp)
	movdqa	%xmm0, 640(%rsp)
	testb	%r11b, %r11b
	movq	%r15, 24(%rsp)
	movq	%r9, 40(%rsp)
	movq	%r10, 32(%rsp)
	movb	%r11b, 1(%rsp)
	movq	%r14, 216(%rsp)
	movq	%rcx, 368(%rsp)
	movq	%rdx, 360(%rsp)
	je	.Lframes_BB0_8
	movdqu	(%r15,%rbp,4), %xmm3
	movdqu	16(%r15,%rbp,4), %xmm4
	movdqa	.Lframes_CPI0_2(%rip), %xmm0
	movdqa	%xmm3, %xmm5
	pand	%xmm0, %xmm5
	movdqa	%xmm4, %xmm6
	pand	%xmm0, %xmm6
	movdqa	.Lframes_CPI0_3(%rip), %xmm2
	pcmpgtd	%xmm2, %xmm5
	pcmpgtd	%xmm2, %xmm6
	movdqa	.Lframes_CPI0_4(%rip), %xmm1
	movdqa	%xmm1, %xmm7
	pand	%xmm5, %xmm7
	pandn	%xmm3, %xmm5
	por	%xmm7, %xmm5
	movdqa	%xmm1, %xmm3
	pand	%xmm6, %xmm3
	pandn	%xmm4, %xmm6
	por	%xmm3, %xmm6
	movdqa	%xmm5, 400(%rsp)
	movdqa	%xmm6, 416(%rsp)
	movdqu	32(%r15,%rbp,4), %xmm3
	movdqu	48(%r15,%rbp,4), %xmm4
	movdqa	%xmm3, %xmm5
	pand	%xmm0, %xmm5
	movdqa	%xmm4, %xmm6
	pand	%xmm0, %xmm6
	pcmpgtd	%xmm2, %xmm5
	pcmpgtd	%xmm2, %xmm6
	movdqa	%xmm1, %xmm7
	pand	%xmm5, %xmm7
	pandn	%xmm3, %xmm5
	por	%xmm7, %xmm5
	movdqa	%xmm1, %xmm3
	pand	%xmm6, %xmm3
	pandn	%xmm4, %xmm6
	por	%xmm3, %xmm6
	movdqa	%xmm5, 432(%rsp)
	movdqa	%xmm6, 448(%rsp)
	movdqu	64(%r15,%rbp,4), %xmm3
	movdqu	80(%r15,%rbp,4), %xmm4
	movdqa	%xmm3, %xmm5
	pand	%xmm0, %xmm5
	movdqa	%xmm4, %xmm6
	pand	%xmm0, %xmm6
	pcmpgtd	%xmm2, %xmm5
	pcmpgtd	%xmm2, %xmm6
	movdqa	%xmm1, %xmm7
	pand	%xmm5, %xmm7
	pandn	%xmm3, %xmm5
	por	%xmm7, %xmm5
	movdqa	%xmm1, %xmm3
	pand	%xmm6, %xmm3
	pandn	%xmm4, %xmm6
	por	%xmm3, %xmm6
	movdqa	%xmm5, 464(%rsp)
	movdqa	%xmm6, 480(%rsp)
	movdqu	96(%r15,%rbp,4), %xmm3
	movdqu	112(%r15,%rbp,4), %xmm4
	movdqa	%xmm3, %xmm5
	pand	%xmm0, %xmm5
	pand	%xmm4, %xmm0
	pcmpgtd	%xmm2, %xmm5
	pcmpgtd	%xmm2, %xmm0
	movdqa	%xmm1, %xmm2
	pand	%xmm5, %xmm2
	pandn	%xmm3, %xmm5
	por	%xmm2, %xmm5
	pand	%xmm0, %xmm1
	pandn	%xmm4, %xmm0
	por	%xmm1, %xmm0
	movdqa	%xmm5, 496(%rsp)
	movdqa	%xmm0, 512(%rsp)
	jmp	.Lframes_BB0_21
.Lframes_BB0_8:
	testq	%r10, %r10
	je	.Lframes_BB0_43
	movq	%r12, %rax
	orq	%r10, %rax
	shrq	$32, %rax
	je	.Lframes_BB0_10
	movq	%r12, %rax
	xorl	%edx, %edx
	divq	%r10
	movq	%rdx, %r10
	testq	%rcx, %rcx
	jne	.Lframes_BB0_13
	jmp	.Lframes_BB0_43
.Lframes_BB0_10:
	movl	%r12d, %eax
	xorl	%edx, %edx
	divl	%r10d
	movl	%edx, %r10d
	testq	%rcx, %rcx
	je	.Lframes_BB0_43
.Lframes_BB0_13:
	movq	%r12, %rax
	orq	%rcx, %rax
	shrq	$32, %rax
	je	.Lframes_BB0_14
	movq	%r12, %rax
	xorl	%edx, %edx
	divq	%rcx
	jmp	.Lframes_BB0_16
.Lframes_BB0_14:
	movl	%r12d, %eax
	xorl	%edx, %edx
	divl	%ecx
.Lframes_BB0_16:
	movq	%r10, %r15
	shlq	$5, %r15
	shlq	$5, %rdx
	cmpb	$0, 3(%rsp)
	movq	%r15, 256(%rsp)
	je	.Lframes_BB0_19
	xorl	%eax, %eax
	xorl	%r9d, %r9d
	movq	208(%rsp), %r14
	movq	200(%rsp), %rcx
	.p2align	4
.Lframes_BB0_18:
	movzwl	(%r8,%rax), %r10d
	rolw	$8, %r10w
	movswl	%r10w, %r10d
	xorps	%xmm0, %xmm0
	cvtsi2ss	%r10d, %xmm0
	movl	(%rdi,%rax,2), %r10d
	movl	%r10d, %r11d
	sarl	$16, %r11d
	xorps	%xmm1, %xmm1
	cvtsi2ss	%r11d, %xmm1
	movzwl	%r10w, %r10d
	leaq	(%r9,%r15), %r11
	mulss	.Lframes_CPI0_5(%rip), %xmm1
	leaq	(%r9,%rdx), %r15
	xorps	%xmm2, %xmm2
	cvtsi2ss	%r10d, %xmm2
	addss	%xmm1, %xmm2
	mulss	%xmm9, %xmm0
	addss	(%rcx,%r15,4), %xmm0
	movq	256(%rsp), %r15
	movss	(%rsi,%rax,2), %xmm1
	mulss	%xmm10, %xmm1
	movss	.Lframes_CPI0_6(%rip), %xmm3
	addss	%xmm3, %xmm1
	mulss	%xmm2, %xmm1
	movss	(%r14,%r11,4), %xmm2
	mulss	%xmm13, %xmm2
	addss	%xmm3, %xmm2
	mulss	%xmm1, %xmm2
	subss	%xmm2, %xmm0
	divss	%xmm8, %xmm0
	subss	%xmm11, %xmm0
	movss	%xmm0, 400(%rsp,%rax,2)
	incq	%r9
	addq	$2, %rax
	cmpq	$64, %rax
	jne	.Lframes_BB0_18
	jmp	.Lframes_BB0_21
.Lframes_BB0_19:
	xorl	%eax, %eax
	xorl	%r9d, %r9d
	movq	208(%rsp), %r10
	movq	200(%rsp), %r14
	movq	%rdx, %rcx
	movq	%r10, %rdx
	.p2align	4
.Lframes_BB0_20:
	movzwl	(%r8,%rax), %r10d
	rolw	$8, %r10w
	movswl	%r10w, %r10d
	xorps	%xmm0, %xmm0
	cvtsi2ss	%r10d, %xmm0
	leaq	(%r9,%r15), %r10
	movl	(%rdi,%rax,2), %r11d
	movzwl	%r11w, %r15d
	sarl	$16, %r11d
	xorps	%xmm1, %xmm1
	cvtsi2ss	%r11d, %xmm1
	leaq	(%r9,%rcx), %r11
	xorps	%xmm2, %xmm2
	cvtsi2ss	%r15d, %xmm2
	movq	256(%rsp), %r15
	mulss	.Lframes_CPI0_5(%rip), %xmm1
	addss	%xmm1, %xmm2
	movss	(%rsi,%rax,2), %xmm1
	mulss	%xmm10, %xmm1
	addss	.Lframes_CPI0_6(%rip), %xmm1
	mulss	%xmm2, %xmm1
	movss	(%rdx,%r10,4), %xmm2
	unpcklps	%xmm2, %xmm0
	mulps	%xmm12, %xmm0
	movss	(%r14,%r11,4), %xmm2
	movaps	.Lframes_CPI0_7(%rip), %xmm3
	movss	%xmm2, %xmm3
	addps	%xmm0, %xmm3
	movaps	%xmm3, %xmm0
	shufps	$85, %xmm3, %xmm0
	mulss	%xmm1, %xmm0
	subss	%xmm0, %xmm3
	divss	%xmm8, %xmm3
	movss	%xmm3, 400(%rsp,%rax,2)
	incq	%r9
	addq	$2, %rax
	cmpq	$64, %rax
	jne	.Lframes_BB0_20
	.p2align	4
.Lframes_BB0_21:
	pxor	%xmm0, %xmm0
	movdqa	%xmm0, 176(%rsp)
	movdqa	%xmm0, 160(%rsp)
	movdqa	%xmm0, 144(%rsp)
	movdqa	%xmm0, 128(%rsp)
	movdqa	%xmm0, 112(%rsp)
	movdqa	%xmm0, 96(%rsp)
	movdqa	%xmm0, 80(%rsp)
	movdqa	%xmm0, 64(%rsp)
	movl	60(%rsp), %eax
	cmpl	$2, %eax
	movss	%xmm8, 20(%rsp)
	movss	%xmm11, 16(%rsp)
	je	.Lframes_BB0_27
	cmpl	$1, %eax
	movq	216(%rsp), %r14
	jne	.Lframes_BB0_23
	leaq	224(%rsp), %rdi
	leaq	400(%rsp), %rcx
	leaq	64(%rsp), %r8
	movq	48(%rsp), %rsi
	movq	%rbp, %rdx
	movaps	%xmm9, 304(%rsp)
	movss	%xmm10, 4(%rsp)
	movaps	%xmm12, 288(%rsp)
	movaps	%xmm13, 272(%rsp)
	callq	loamchalice.frames.pixels.temperature_block
	movaps	272(%rsp), %xmm13
	movaps	288(%rsp), %xmm12
	movss	4(%rsp), %xmm10
	movaps	304(%rsp), %xmm9
	xorl	%eax, %eax
	movq	24(%rsp), %r15
	movq	40(%rsp), %r9
	movq	32(%rsp), %r10
	movzbl	1(%rsp), %r11d
	.p2align	4
.Lframes_BB0_26:
	movd	64(%rsp,%rax,4), %xmm0
	movd	68(%rsp,%rax,4), %xmm1
	movd	%xmm0, %ecx
	xorl	%edx, %edx
	ucomiss	%xmm0, %xmm0
	setp	%dl
	movl	$2143289344, %esi
	cmovpl	%esi, %ecx
	movl	%ecx, 656(%rsp,%rax,4)
	movd	%xmm1, %ecx
	xorl	%edi, %edi
	ucomiss	%xmm1, %xmm1
	movl	%edx, 528(%rsp,%rax,4)
	setp	%dil
	cmovpl	%esi, %ecx
	movl	%ecx, 660(%rsp,%rax,4)
	movl	%edi, 532(%rsp,%rax,4)
	addq	$2, %rax
	cmpq	$32, %rax
	jne	.Lframes_BB0_26
	jmp	.Lframes_BB0_38
.Lframes_BB0_27:
	movaps	%xmm13, 272(%rsp)
	movaps	%xmm12, 288(%rsp)
	movss	%xmm10, 4(%rsp)
	movaps	%xmm9, 304(%rsp)
	movdqa	%xmm0, 784(%rsp)
	movdqa	%xmm0, 800(%rsp)
	movdqa	%xmm0, 816(%rsp)
	movdqa	%xmm0, 832(%rsp)
	movdqa	%xmm0, 848(%rsp)
	movdqa	%xmm0, 864(%rsp)
	movdqa	%xmm0, 880(%rsp)
	movdqa	%xmm0, 896(%rsp)
	movdqa	%xmm0, 960(%rsp)
	movdqa	%xmm0, 976(%rsp)
	movdqa	%xmm0, 992(%rsp)
	movdqa	%xmm0, 1008(%rsp)
	movdqa	%xmm0, 1024(%rsp)
	movdqa	%xmm0, 1040(%rsp)
	movdqa	%xmm0, 1056(%rsp)
	movdqa	%xmm0, 1072(%rsp)
	leaq	224(%rsp), %rdi
	leaq	400(%rsp), %rcx
	leaq	64(%rsp), %r8
	movq	48(%rsp), %rsi
	movq	%rbp, %rdx
	callq	loamchalice.frames.pixels.temperature_block
	movq	328(%rsp), %rdx
	testq	%rdx, %rdx
	movq	216(%rsp), %r14
	movq	352(%rsp), %rsi
	movq	344(%rsp), %rdi
	movq	336(%rsp), %r8
	je	.Lframes_BB0_31
	movss	64(%rsp), %xmm2
	movss	68(%rsp), %xmm0
	unpcklps	%xmm0, %xmm2
	movss	72(%rsp), %xmm0
	movss	76(%rsp), %xmm1
	unpcklps	%xmm1, %xmm0
	movlhps	%xmm0, %xmm2
	movaps	%xmm2, 256(%rsp)
	movss	80(%rsp), %xmm2
	movss	84(%rsp), %xmm0
	unpcklps	%xmm0, %xmm2
	movss	88(%rsp), %xmm0
	movss	92(%rsp), %xmm1
	unpcklps	%xmm1, %xmm0
	movlhps	%xmm0, %xmm2
	movaps	%xmm2, 944(%rsp)
	movss	96(%rsp), %xmm2
	movss	100(%rsp), %xmm0
	unpcklps	%xmm0, %xmm2
	movss	104(%rsp), %xmm0
	movss	108(%rsp), %xmm1
	unpcklps	%xmm1, %xmm0
	movlhps	%xmm0, %xmm2
	movaps	%xmm2, 928(%rsp)
	movss	112(%rsp), %xmm2
	movss	116(%rsp), %xmm0
	punpckldq	%xmm0, %xmm2
	movss	120(%rsp), %xmm0
	movss	124(%rsp), %xmm1
	punpckldq	%xmm1, %xmm0
	punpcklqdq	%xmm0, %xmm2
	movdqa	%xmm2, 912(%rsp)
	movss	128(%rsp), %xmm4
	movss	132(%rsp), %xmm0
	unpcklps	%xmm0, %xmm4
	movss	136(%rsp), %xmm0
	movss	140(%rsp), %xmm1
	unpcklps	%xmm1, %xmm0
	movlhps	%xmm0, %xmm4
	movss	144(%rsp), %xmm5
	movss	148(%rsp), %xmm0
	unpcklps	%xmm0, %xmm5
	movss	152(%rsp), %xmm0
	movss	156(%rsp), %xmm1
	unpcklps	%xmm1, %xmm0
	movlhps	%xmm0, %xmm5
	movss	160(%rsp), %xmm6
	movss	164(%rsp), %xmm0
	unpcklps	%xmm0, %xmm6
	movss	168(%rsp), %xmm0
	movss	172(%rsp), %xmm1
	unpcklps	%xmm1, %xmm0
	movlhps	%xmm0, %xmm6
	movss	176(%rsp), %xmm7
	movss	180(%rsp), %xmm0
	unpcklps	%xmm0, %xmm7
	movss	184(%rsp), %xmm0
	movss	188(%rsp), %xmm1
	unpcklps	%xmm1, %xmm0
	movlhps	%xmm0, %xmm7
	xorps	%xmm8, %xmm8
	xorl	%eax, %eax
	xorps	%xmm9, %xmm9
	xorps	%xmm10, %xmm10
	xorps	%xmm11, %xmm11
	xorps	%xmm12, %xmm12
	xorps	%xmm13, %xmm13
	pxor	%xmm14, %xmm14
	pxor	%xmm2, %xmm2
	.p2align	4
.Lframes_BB0_29:
	movswl	(%rsi,%rax,2), %ecx
	xorps	%xmm0, %xmm0
	cvtsi2ss	%ecx, %xmm0
	shufps	$0, %xmm0, %xmm0
	movaps	%xmm0, %xmm15
	cmpleps	256(%rsp), %xmm15
	movd	%eax, %xmm1
	pshufd	$0, %xmm1, %xmm3
	movdqa	%xmm3, %xmm1
	pand	%xmm15, %xmm1
	andnps	%xmm8, %xmm15
	movaps	%xmm15, %xmm8
	orps	%xmm1, %xmm8
	movaps	%xmm0, %xmm1
	cmpleps	944(%rsp), %xmm1
	movdqa	%xmm3, %xmm15
	pand	%xmm1, %xmm15
	andnps	%xmm9, %xmm1
	movaps	%xmm1, %xmm9
	orps	%xmm15, %xmm9
	movaps	%xmm0, %xmm1
	cmpleps	928(%rsp), %xmm1
	movdqa	%xmm3, %xmm15
	pand	%xmm1, %xmm15
	andnps	%xmm10, %xmm1
	movaps	%xmm1, %xmm10
	orps	%xmm15, %xmm10
	movaps	%xmm0, %xmm1
	cmpleps	912(%rsp), %xmm1
	movdqa	%xmm3, %xmm15
	pand	%xmm1, %xmm15
	andnps	%xmm11, %xmm1
	movaps	%xmm1, %xmm11
	orps	%xmm15, %xmm11
	movaps	%xmm0, %xmm1
	cmpleps	%xmm4, %xmm1
	movdqa	%xmm3, %xmm15
	pand	%xmm1, %xmm15
	andnps	%xmm12, %xmm1
	movaps	%xmm1, %xmm12
	orps	%xmm15, %xmm12
	movaps	%xmm0, %xmm1
	cmpleps	%xmm5, %xmm1
	movdqa	%xmm3, %xmm15
	pand	%xmm1, %xmm15
	andnps	%xmm13, %xmm1
	movaps	%xmm1, %xmm13
	orps	%xmm15, %xmm13
	movaps	%xmm0, %xmm1
	cmpleps	%xmm6, %xmm1
	movdqa	%xmm3, %xmm15
	pand	%xmm1, %xmm15
	pandn	%xmm14, %xmm1
	movdqa	%xmm1, %xmm14
	por	%xmm15, %xmm14
	cmpleps	%xmm7, %xmm0
	pand	%xmm0, %xmm3
	pandn	%xmm2, %xmm0
	movdqa	%xmm0, %xmm2
	por	%xmm3, %xmm2
	incq	%rax
	cmpq	%rax, %rdx
	jne	.Lframes_BB0_29
	movaps	%xmm8, 784(%rsp)
	movaps	%xmm9, 800(%rsp)
	movaps	%xmm10, 816(%rsp)
	movaps	%xmm11, 832(%rsp)
	movaps	%xmm12, 848(%rsp)
	movaps	%xmm13, 864(%rsp)
	movdqa	%xmm14, 880(%rsp)
	movdqa	%xmm2, 896(%rsp)
.Lframes_BB0_31:
	cmpb	$0, 2(%rsp)
	je	.Lframes_BB0_34
	xorl	%eax, %eax
	movq	24(%rsp), %r15
	movss	56(%rsp), %xmm4
	movss	12(%rsp), %xmm5
	movss	8(%rsp), %xmm6
	.p2align	4
.Lframes_BB0_33:
	movl	784(%rsp,%rax,4), %ecx
	movss	(%r13,%rax,4), %xmm0
	subss	%xmm4, %xmm0
	movswl	(%rsi,%rcx,2), %edx
	xorps	%xmm1, %xmm1
	cvtsi2ss	%edx, %xmm1
	mulss	%xmm5, %xmm0
	movss	400(%rsp,%rax,4), %xmm2
	movss	64(%rsp,%rax,4), %xmm3
	subss	%xmm1, %xmm3
	mulss	(%r8,%rcx,4), %xmm0
	mulss	(%rdi,%rcx,4), %xmm3
	addss	.Lframes_CPI0_6(%rip), %xmm3
	mulss	%xmm0, %xmm3
	divss	%xmm3, %xmm2
	addss	%xmm6, %xmm2
	movss	%xmm2, 960(%rsp,%rax,4)
	incq	%rax
	cmpq	$32, %rax
	jne	.Lframes_BB0_33
	jmp	.Lframes_BB0_36
.Lframes_BB0_23:
	xorl	%eax, %eax
	movq	24(%rsp), %r15
	movq	40(%rsp), %r9
	movq	32(%rsp), %r10
	movzbl	1(%rsp), %r11d
	.p2align	4
.Lframes_BB0_24:
	movd	400(%rsp,%rax,4), %xmm0
	movd	404(%rsp,%rax,4), %xmm1
	movd	%xmm0, %ecx
	xorl	%edx, %edx
	ucomiss	%xmm0, %xmm0
	setp	%dl
	movl	$2143289344, %esi
	cmovpl	%esi, %ecx
	movl	%ecx, 656(%rsp,%rax,4)
	movd	%xmm1, %ecx
	xorl	%edi, %edi
	ucomiss	%xmm1, %xmm1
	movl	%edx, 528(%rsp,%rax,4)
	setp	%dil
	cmovpl	%esi, %ecx
	movl	%ecx, 660(%rsp,%rax,4)
	movl	%edi, 532(%rsp,%rax,4)
	addq	$2, %rax
	cmpq	$32, %rax
	jne	.Lframes_BB0_24
	jmp	.Lframes_BB0_38
.Lframes_BB0_34:
	xorl	%eax, %eax
	movq	24(%rsp), %r15
	movss	12(%rsp), %xmm4
	movss	8(%rsp), %xmm5
	.p2align	4
.Lframes_BB0_35:
	movl	784(%rsp,%rax,4), %ecx
	movss	(%r13,%rax,4), %xmm0
	movswl	(%rsi,%rcx,2), %edx
	xorps	%xmm1, %xmm1
	cvtsi2ss	%edx, %xmm1
	mulss	%xmm4, %xmm0
	movss	400(%rsp,%rax,4), %xmm2
	movss	64(%rsp,%rax,4), %xmm3
	subss	%xmm1, %xmm3
	mulss	(%r8,%rcx,4), %xmm0
	mulss	(%rdi,%rcx,4), %xmm3
	addss	.Lframes_CPI0_6(%rip), %xmm3
	mulss	%xmm0, %xmm3
	divss	%xmm3, %xmm2
	addss	%xmm5, %xmm2
	movss	%xmm2, 960(%rsp,%rax,4)
	incq	%rax
	cmpq	$32, %rax
	jne	.Lframes_BB0_35
.Lframes_BB0_36:
	leaq	960(%rsp), %rdi
	leaq	64(%rsp), %rsi
	callq	loamchalice.frames.pixels.degrees_block
	xorl	%eax, %eax
	movq	40(%rsp), %r9
	movq	32(%rsp), %r10
	movzbl	1(%rsp), %r11d
	movaps	304(%rsp), %xmm9
	movss	4(%rsp), %xmm10
	movaps	288(%rsp), %xmm12
	movaps	272(%rsp), %xmm13
	.p2align	4
.Lframes_BB0_37:
	movd	64(%rsp,%rax,4), %xmm0
	movd	68(%rsp,%rax,4), %xmm1
	movd	%xmm0, %ecx
	xorl	%edx, %edx
	ucomiss	%xmm0, %xmm0
	setp	%dl
	movl	$2143289344, %esi
	cmovpl	%esi, %ecx
	movl	%ecx, 656(%rsp,%rax,4)
	movd	%xmm1, %ecx
	xorl	%edi, %edi
	ucomiss	%xmm1, %xmm1
	movl	%edx, 528(%rsp,%rax,4)
	setp	%dil
	cmovpl	%esi, %ecx
	movl	%ecx, 660(%rsp,%rax,4)
	movl	%edi, 532(%rsp,%rax,4)
	addq	$2, %rax
	cmpq	$32, %rax
	jne	.Lframes_BB0_37
.Lframes_BB0_38:
	leaq	128(%rbx), %rcx
	leaq	(%r14,%rbp), %rax
	leaq	(%r14,%rbp), %rdx
	addq	$32, %rdx
	cmpq	%rdx, %rbx
	setae	%dl
	cmpq	%rcx, %rax
	setae	%cl
	orb	%dl, %cl
	jne	.Lframes_BB0_44
	xorl	%edx, %edx
	xorl	%ecx, %ecx
	xorl	%esi, %esi
	movss	20(%rsp), %xmm8
	movss	16(%rsp), %xmm11
	.p2align	4
.Lframes_BB0_40:
	cmpb	$0, (%rax,%rsi)
	leaq	656(%rsp,%rsi,4), %rdi
	leaq	(%rbx,%rsi,4), %r8
	cmovneq	%rdi, %r8
	movl	(%r8), %edi
	movl	%edi, (%rbx,%rsi,4)
	movl	528(%rsp,%rsi,4), %edi
	cmovel	%edx, %edi
	addl	%edi, %ecx
	incq	%rsi
	cmpq	$32, %rsi
	jne	.Lframes_BB0_40
	jmp	.Lframes_BB0_41
	.p2align	4
.Lframes_BB0_44:
	movd	(%r14,%rbp), %xmm4
	movd	4(%r14,%rbp), %xmm3
	punpcklbw	%xmm4, %xmm4
	punpcklwd	%xmm4, %xmm4
	xorps	%xmm0, %xmm0
	pcmpeqb	%xmm0, %xmm4
	punpcklbw	%xmm3, %xmm3
	punpcklwd	%xmm3, %xmm3
	pcmpeqb	%xmm0, %xmm3
	movdqu	(%r15,%rbp,4), %xmm1
	movdqu	16(%r15,%rbp,4), %xmm2
	movdqu	32(%r15,%rbp,4), %xmm6
	movdqu	48(%r15,%rbp,4), %xmm5
	pand	%xmm4, %xmm1
	movdqa	%xmm4, %xmm7
	pandn	656(%rsp), %xmm7
	por	%xmm1, %xmm7
	movdqa	%xmm3, %xmm1
	pandn	672(%rsp), %xmm1
	pand	%xmm3, %xmm2
	por	%xmm2, %xmm1
	movdqu	%xmm7, (%r15,%rbp,4)
	movdqu	%xmm1, 16(%r15,%rbp,4)
	pandn	528(%rsp), %xmm4
	pandn	544(%rsp), %xmm3
	movd	8(%r14,%rbp), %xmm2
	movd	12(%r14,%rbp), %xmm1
	punpcklbw	%xmm2, %xmm2
	punpcklwd	%xmm2, %xmm2
	pcmpeqb	%xmm0, %xmm2
	punpcklbw	%xmm1, %xmm1
	punpcklwd	%xmm1, %xmm1
	pcmpeqb	%xmm0, %xmm1
	pand	%xmm2, %xmm6
	movdqa	%xmm2, %xmm7
	pandn	688(%rsp), %xmm7
	por	%xmm6, %xmm7
	movdqa	%xmm1, %xmm6
	pandn	704(%rsp), %xmm6
	pand	%xmm1, %xmm5
	por	%xmm5, %xmm6
	movdqu	%xmm7, 32(%r15,%rbp,4)
	movdqu	%xmm6, 48(%r15,%rbp,4)
	pandn	560(%rsp), %xmm2
	pandn	576(%rsp), %xmm1
	paddd	%xmm4, %xmm2
	paddd	%xmm3, %xmm1
	movd	16(%r14,%rbp), %xmm4
	movd	20(%r14,%rbp), %xmm3
	punpcklbw	%xmm4, %xmm4
	punpcklwd	%xmm4, %xmm4
	pcmpeqb	%xmm0, %xmm4
	punpcklbw	%xmm3, %xmm3
	punpcklwd	%xmm3, %xmm3
	pcmpeqb	%xmm0, %xmm3
	movdqu	64(%r15,%rbp,4), %xmm5
	movdqu	80(%r15,%rbp,4), %xmm6
	pand	%xmm4, %xmm5
	movdqa	%xmm4, %xmm7
	pandn	720(%rsp), %xmm7
	por	%xmm5, %xmm7
	movdqa	%xmm3, %xmm5
	pandn	736(%rsp), %xmm5
	pand	%xmm3, %xmm6
	por	%xmm6, %xmm5
	movdqu	%xmm7, 64(%r15,%rbp,4)
	movdqu	%xmm5, 80(%r15,%rbp,4)
	pandn	592(%rsp), %xmm4
	pandn	608(%rsp), %xmm3
	movd	24(%r14,%rbp), %xmm6
	movd	28(%r14,%rbp), %xmm5
	punpcklbw	%xmm6, %xmm6
	punpcklwd	%xmm6, %xmm6
	pcmpeqb	%xmm0, %xmm6
	punpcklbw	%xmm5, %xmm5
	punpcklwd	%xmm5, %xmm5
	pcmpeqb	%xmm0, %xmm5
	movdqu	96(%r15,%rbp,4), %xmm0
	movdqu	112(%r15,%rbp,4), %xmm7
	pand	%xmm6, %xmm0
	movdqa	%xmm6, %xmm8
	pandn	752(%rsp), %xmm8
	por	%xmm0, %xmm8
	pand	%xmm5, %xmm7
	movdqa	%xmm5, %xmm0
	pandn	768(%rsp), %xmm0
	por	%xmm7, %xmm0
	movdqu	%xmm8, 96(%r15,%rbp,4)
	movdqu	%xmm0, 112(%r15,%rbp,4)
	pandn	624(%rsp), %xmm6
	paddd	%xmm4, %xmm6
	paddd	%xmm2, %xmm6
	pandn	640(%rsp), %xmm5
	paddd	%xmm3, %xmm5
	paddd	%xmm1, %xmm5
	paddd	%xmm6, %xmm5
	pshufd	$238, %xmm5, %xmm0
	paddd	%xmm5, %xmm0
	pshufd	$85, %xmm0, %xmm1
	paddd	%xmm0, %xmm1
	movd	%xmm1, %ecx
	movss	20(%rsp), %xmm8
	movss	16(%rsp), %xmm11
.Lframes_BB0_41:
	movl	%ecx, %eax
	movq	360(%rsp), %rdx
	addq	%rax, %rdx
	incq	%r12
	cmpq	%r9, %r12
	movq	376(%rsp), %r8
	movq	368(%rsp), %rcx
	jb	.Lframes_BB0_3
	jmp	.Lframes_BB0_42
.Lframes_BB0_1:
	xorl	%edx, %edx
.Lframes_BB0_42:
	movq	%rdx, %rax
	addq	$1096, %rsp
	popq	%rbx
	popq	%r12
	popq	%r13
	popq	%r14
	popq	%r15
	popq	%rbp
	retq
.Lframes_BB0_43:
	ud2
.Lframes_func_end0:
	.size	loamchalice.frames.pixels.frame_pixels, .Lframes_func_end0-loamchalice.frames.pixels.frame_pixels

	.section	.text.frames.pixels.temperature_block,"ax",@progbits
	.p2align	4
	.type	loamchalice.frames.pixels.temperature_block,@function
loamchalice.frames.pixels.temperature_block:
	pushq	%r15
	pushq	%r14
	pushq	%r12
	pushq	%rbx
	subq	$216, %rsp
	movq	%r8, %rbx
	movq	%rcx, %r14
	movq	%rdx, %r15
	movq	%rsi, %r12
	movss	4(%rdi), %xmm3
	movss	8(%rdi), %xmm2
	movss	12(%rdi), %xmm1
	movss	16(%rdi), %xmm0
	movaps	%xmm0, 160(%rsp)
	movss	20(%rdi), %xmm0
	movaps	%xmm0, 176(%rsp)
	cmpb	$0, (%rdi)
	xorps	%xmm0, %xmm0
	movaps	%xmm0, 112(%rsp)
	movaps	%xmm0, 96(%rsp)
	movaps	%xmm0, 80(%rsp)
	movaps	%xmm0, 64(%rsp)
	movaps	%xmm0, 48(%rsp)
	movaps	%xmm0, 32(%rsp)
	movaps	%xmm0, 16(%rsp)
	movaps	%xmm0, (%rsp)
	shufps	$0, %xmm1, %xmm1
	shufps	$0, %xmm2, %xmm2
	je	.Lframes_BB1_2
	shufps	$0, %xmm3, %xmm3
	movaps	%xmm3, 192(%rsp)
	movups	(%r12,%r15,4), %xmm0
	subps	%xmm3, %xmm0
	mulps	%xmm2, %xmm0
	movaps	%xmm1, %xmm4
	movups	(%r14), %xmm1
	movaps	%xmm2, %xmm5
	movaps	%xmm0, %xmm2
	mulps	%xmm0, %xmm2
	mulps	%xmm2, %xmm0
	mulps	%xmm1, %xmm0
	mulps	%xmm2, %xmm2
	mulps	%xmm4, %xmm2
	addps	%xmm0, %xmm2
	movaps	%xmm2, (%rsp)
	movups	16(%r12,%r15,4), %xmm0
	subps	%xmm3, %xmm0
	mulps	%xmm5, %xmm0
	movups	16(%r14), %xmm1
	movaps	%xmm0, %xmm2
	mulps	%xmm0, %xmm2
	mulps	%xmm2, %xmm0
	mulps	%xmm1, %xmm0
	mulps	%xmm2, %xmm2
	mulps	%xmm4, %xmm2
	addps	%xmm0, %xmm2
	movaps	%xmm2, 16(%rsp)
	movups	32(%r12,%r15,4), %xmm0
	subps	%xmm3, %xmm0
	mulps	%xmm5, %xmm0
	movups	32(%r14), %xmm1
	movaps	%xmm0, %xmm2
	mulps	%xmm0, %xmm2
	mulps	%xmm2, %xmm0
	mulps	%xmm1, %xmm0
	mulps	%xmm2, %xmm2
	mulps	%xmm4, %xmm2
	addps	%xmm0, %xmm2
	movaps	%xmm2, 32(%rsp)
	movups	48(%r12,%r15,4), %xmm0
	subps	%xmm3, %xmm0
	mulps	%xmm5, %xmm0
	movups	48(%r14), %xmm1
	movaps	%xmm0, %xmm2
	mulps	%xmm0, %xmm2
	mulps	%xmm2, %xmm0
	mulps	%xmm1, %xmm0
	mulps	%xmm2, %xmm2
	mulps	%xmm4, %xmm2
	addps	%xmm0, %xmm2
	movaps	%xmm2, 48(%rsp)
	movups	64(%r12,%r15,4), %xmm0
	subps	%xmm3, %xmm0
	mulps	%xmm5, %xmm0
	movups	64(%r14), %xmm1
	movaps	%xmm0, %xmm2
	mulps	%xmm0, %xmm2
	mulps	%xmm2, %xmm0
	mulps	%xmm1, %xmm0
	mulps	%xmm2, %xmm2
	mulps	%xmm4, %xmm2
	addps	%xmm0, %xmm2
	movaps	%xmm2, 64(%rsp)
	movups	80(%r12,%r15,4), %xmm0
	subps	%xmm3, %xmm0
	mulps	%xmm5, %xmm0
	movups	80(%r14), %xmm1
	movaps	%xmm0, %xmm2
	mulps	%xmm0, %xmm2
	mulps	%xmm2, %xmm0
	mulps	%xmm1, %xmm0
	mulps	%xmm2, %xmm2
	movaps	%xmm4, 144(%rsp)
	mulps	%xmm4, %xmm2
	addps	%xmm0, %xmm2
	movaps	%xmm2, 80(%rsp)
	movups	96(%r12,%r15,4), %xmm0
	subps	%xmm3, %xmm0
	mulps	%xmm5, %xmm0
	movaps	%xmm5, 128(%rsp)
	movups	96(%r14), %xmm1
	movaps	%xmm0, %xmm2
	mulps	%xmm0, %xmm2
	mulps	%xmm2, %xmm0
	mulps	%xmm1, %xmm0
	mulps	%xmm2, %xmm2
	mulps	%xmm4, %xmm2
	addps	%xmm0, %xmm2
	movaps	%xmm2, 96(%rsp)
	movups	112(%r12,%r15,4), %xmm0
	subps	%xmm3, %xmm0
	mulps	%xmm5, %xmm0
	movups	112(%r14), %xmm1
	movaps	%xmm0, %xmm2
	mulps	%xmm0, %xmm2
	mulps	%xmm2, %xmm0
	mulps	%xmm1, %xmm0
	mulps	%xmm2, %xmm2
	mulps	%xmm4, %xmm2
	addps	%xmm0, %xmm2
	movaps	%xmm2, 112(%rsp)
	movq	%rsp, %rdi
	movq	%rbx, %rsi
	callq	loamchalice.frames.roots.fourth_roots
	movaps	176(%rsp), %xmm3
	shufps	$0, %xmm3, %xmm3
	movaps	160(%rsp), %xmm4
	shufps	$0, %xmm4, %xmm4
	movups	(%r12,%r15,4), %xmm0
	movaps	192(%rsp), %xmm7
	subps	%xmm7, %xmm0
	movaps	128(%rsp), %xmm6
	mulps	%xmm6, %xmm0
	movups	(%r14), %xmm1
	movups	(%rbx), %xmm2
	mulps	%xmm4, %xmm2
	mulps	%xmm3, %xmm0
	addps	%xmm2, %xmm0
	divps	%xmm0, %xmm1
	movaps	144(%rsp), %xmm5
	addps	%xmm5, %xmm1
	movaps	%xmm1, (%rsp)
	movups	16(%r12,%r15,4), %xmm0
	subps	%xmm7, %xmm0
	mulps	%xmm6, %xmm0
	movups	16(%r14), %xmm1
	movups	16(%rbx), %xmm2
	mulps	%xmm4, %xmm2
	mulps	%xmm3, %xmm0
	addps	%xmm2, %xmm0
	divps	%xmm0, %xmm1
	addps	%xmm5, %xmm1
	movaps	%xmm1, 16(%rsp)
	movups	32(%r12,%r15,4), %xmm0
	subps	%xmm7, %xmm0
	mulps	%xmm6, %xmm0
	movups	32(%r14), %xmm1
	movups	32(%rbx), %xmm2
	mulps	%xmm4, %xmm2
	mulps	%xmm3, %xmm0
	addps	%xmm2, %xmm0
	divps	%xmm0, %xmm1
	addps	%xmm5, %xmm1
	movaps	%xmm1, 32(%rsp)
	movups	48(%r12,%r15,4), %xmm0
	subps	%xmm7, %xmm0
	mulps	%xmm6, %xmm0
	movups	48(%r14), %xmm1
	movups	48(%rbx), %xmm2
	mulps	%xmm4, %xmm2
	mulps	%xmm3, %xmm0
	addps	%xmm2, %xmm0
	divps	%xmm0, %xmm1
	addps	%xmm5, %xmm1
	movaps	%xmm1, 48(%rsp)
	movups	64(%r12,%r15,4), %xmm0
	subps	%xmm7, %xmm0
	mulps	%xmm6, %xmm0
	movups	64(%r14), %xmm1
	movups	64(%rbx), %xmm2
	mulps	%xmm4, %xmm2
	mulps	%xmm3, %xmm0
	addps	%xmm2, %xmm0
	divps	%xmm0, %xmm1
	addps	%xmm5, %xmm1
	movaps	%xmm1, 64(%rsp)
	movups	80(%r12,%r15,4), %xmm0
	subps	%xmm7, %xmm0
	mulps	%xmm6, %xmm0
	movups	80(%r14), %xmm1
	movups	80(%rbx), %xmm2
	mulps	%xmm4, %xmm2
	mulps	%xmm3, %xmm0
	addps	%xmm2, %xmm0
	divps	%xmm0, %xmm1
	addps	%xmm5, %xmm1
	movaps	%xmm1, 80(%rsp)
	movups	96(%r12,%r15,4), %xmm0
	subps	%xmm7, %xmm0
	mulps	%xmm6, %xmm0
	movups	96(%r14), %xmm1
	movups	96(%rbx), %xmm2
	mulps	%xmm4, %xmm2
	mulps	%xmm3, %xmm0
	addps	%xmm2, %xmm0
	divps	%xmm0, %xmm1
	addps	%xmm5, %xmm1
	movaps	%xmm1, 96(%rsp)
	movups	112(%r12,%r15,4), %xmm0
	subps	%xmm7, %xmm0
	jmp	.Lframes_BB1_3
.Lframes_BB1_2:
	movups	(%r12,%r15,4), %xmm0
	mulps	%xmm2, %xmm0
	movaps	%xmm1, %xmm3
	movups	(%r14), %xmm1
	movaps	%xmm2, %xmm4
	movaps	%xmm0, %xmm2
	mulps	%xmm0, %xmm2
	mulps	%xmm2, %xmm0
	mulps	%xmm1, %xmm0
	mulps	%xmm2, %xmm2
	mulps	%xmm3, %xmm2
	addps	%xmm0, %xmm2
	movaps	%xmm2, (%rsp)
	movups	16(%r12,%r15,4), %xmm0
	mulps	%xmm4, %xmm0
	movups	16(%r14), %xmm1
	movaps	%xmm0, %xmm2
	mulps	%xmm0, %xmm2
	mulps	%xmm2, %xmm0
	mulps	%xmm1, %xmm0
	mulps	%xmm2, %xmm2
	mulps	%xmm3, %xmm2
	addps	%xmm0, %xmm2
	movaps	%xmm2, 16(%rsp)
	movups	32(%r12,%r15,4), %xmm0
	mulps	%xmm4, %xmm0
	movups	32(%r14), %xmm1
	movaps	%xmm0, %xmm2
	mulps	%xmm0, %xmm2
	mulps	%xmm2, %xmm0
	mulps	%xmm1, %xmm0
	mulps	%xmm2, %xmm2
	mulps	%xmm3, %xmm2
	addps	%xmm0, %xmm2
	movaps	%xmm2, 32(%rsp)
	movups	48(%r12,%r15,4), %xmm0
	movaps	%xmm4, 128(%rsp)
	mulps	%xmm4, %xmm0
	movups	48(%r14), %xmm1
	movaps	%xmm0, %xmm2
	mulps	%xmm0, %xmm2
	mulps	%xmm2, %xmm0
	mulps	%xmm1, %xmm0
	mulps	%xmm2, %xmm2
	mulps	%xmm3, %xmm2
	addps	%xmm0, %xmm2
	movaps	%xmm2, 48(%rsp)
	movups	64(%r12,%r15,4), %xmm0
	mulps	%xmm4, %xmm0
	movups	64(%r14), %xmm1
	movaps	%xmm0, %xmm2
	mulps	%xmm0, %xmm2
	mulps	%xmm2, %xmm0
	mulps	%xmm1, %xmm0
	mulps	%xmm2, %xmm2
	mulps	%xmm3, %xmm2
	addps	%xmm0, %xmm2
	movaps	%xmm2, 64(%rsp)
	movups	80(%r12,%r15,4), %xmm0
	mulps	%xmm4, %xmm0
	movups	80(%r14), %xmm1
	movaps	%xmm0, %xmm2
	mulps	%xmm0, %xmm2
	mulps	%xmm2, %xmm0
	mulps	%xmm1, %xmm0
	mulps	%xmm2, %xmm2
	mulps	%xmm3, %xmm2
	addps	%xmm0, %xmm2
	movaps	%xmm2, 80(%rsp)
	movups	96(%r12,%r15,4), %xmm0
	mulps	%xmm4, %xmm0
	movups	96(%r14), %xmm1
	movaps	%xmm0, %xmm2
	mulps	%xmm0, %xmm2
	mulps	%xmm2, %xmm0
	mulps	%xmm1, %xmm0
	mulps	%xmm2, %xmm2
	mulps	%xmm3, %xmm2
	movaps	%xmm3, 144(%rsp)
	addps	%xmm0, %xmm2
	movaps	%xmm2, 96(%rsp)
	movups	112(%r12,%r15,4), %xmm0
	mulps	%xmm4, %xmm0
	movups	112(%r14), %xmm1
	movaps	%xmm0, %xmm2
	mulps	%xmm0, %xmm2
	mulps	%xmm2, %xmm0
	mulps	%xmm1, %xmm0
	mulps	%xmm2, %xmm2
	mulps	%xmm3, %xmm2
	addps	%xmm0, %xmm2
	movaps	%xmm2, 112(%rsp)
	movq	%rsp, %rdi
	movq	%rbx, %rsi
	callq	loamchalice.frames.roots.fourth_roots
	movaps	176(%rsp), %xmm3
	shufps	$0, %xmm3, %xmm3
	movaps	160(%rsp), %xmm4
	shufps	$0, %xmm4, %xmm4
	movups	(%r12,%r15,4), %xmm0
	movaps	128(%rsp), %xmm6
	mulps	%xmm6, %xmm0
	movups	(%r14), %xmm1
	movups	(%rbx), %xmm2
	mulps	%xmm4, %xmm2
	mulps	%xmm3, %xmm0
	addps	%xmm2, %xmm0
	divps	%xmm0, %xmm1
	movaps	144(%rsp), %xmm5
	addps	%xmm5, %xmm1
	movaps	%xmm1, (%rsp)
	movups	16(%r12,%r15,4), %xmm0
	mulps	%xmm6, %xmm0
	movups	16(%r14), %xmm1
	movups	16(%rbx), %xmm2
	mulps	%xmm4, %xmm2
	mulps	%xmm3, %xmm0
	addps	%xmm2, %xmm0
	divps	%xmm0, %xmm1
	addps	%xmm5, %xmm1
	movaps	%xmm1, 16(%rsp)
	movups	32(%r12,%r15,4), %xmm0
	mulps	%xmm6, %xmm0
	movups	32(%r14), %xmm1
	movups	32(%rbx), %xmm2
	mulps	%xmm4, %xmm2
	mulps	%xmm3, %xmm0
	addps	%xmm2, %xmm0
	divps	%xmm0, %xmm1
	addps	%xmm5, %xmm1
	movaps	%xmm1, 32(%rsp)
	movups	48(%r12,%r15,4), %xmm0
	mulps	%xmm6, %xmm0
	movups	48(%r14), %xmm1
	movups	48(%rbx), %xmm2
	mulps	%xmm4, %xmm2
	mulps	%xmm3, %xmm0
	addps	%xmm2, %xmm0
	divps	%xmm0, %xmm1
	addps	%xmm5, %xmm1
	movaps	%xmm1, 48(%rsp)
	movups	64(%r12,%r15,4), %xmm0
	mulps	%xmm6, %xmm0
	movups	64(%r14), %xmm1
	movups	64(%rbx), %xmm2
	mulps	%xmm4, %xmm2
	mulps	%xmm3, %xmm0
	addps	%xmm2, %xmm0
	divps	%xmm0, %xmm1
	addps	%xmm5, %xmm1
	movaps	%xmm1, 64(%rsp)
	movups	80(%r12,%r15,4), %xmm0
	mulps	%xmm6, %xmm0
	movups	80(%r14), %xmm1
	movups	80(%rbx), %xmm2
	mulps	%xmm4, %xmm2
	mulps	%xmm3, %xmm0
	addps	%xmm2, %xmm0
	divps	%xmm0, %xmm1
	addps	%xmm5, %xmm1
	movaps	%xmm1, 80(%rsp)
	movups	96(%r12,%r15,4), %xmm0
	mulps	%xmm6, %xmm0
	movups	96(%r14), %xmm1
	movups	96(%rbx), %xmm2
	mulps	%xmm4, %xmm2
	mulps	%xmm3, %xmm0
	addps	%xmm2, %xmm0
	divps	%xmm0, %xmm1
	addps	%xmm5, %xmm1
	movaps	%xmm1, 96(%rsp)
	movups	112(%r12,%r15,4), %xmm0
.Lframes_BB1_3:
	mulps	%xmm6, %xmm0
	movups	112(%r14), %xmm1
	movups	112(%rbx), %xmm2
	mulps	%xmm4, %xmm2
	mulps	%xmm3, %xmm0
	addps	%xmm2, %xmm0
	divps	%xmm0, %xmm1
	addps	%xmm5, %xmm1
	movaps	%xmm1, 112(%rsp)
	movq	%rsp, %rdi
	movq	%rbx, %rsi
	callq	loamchalice.frames.pixels.degrees_block
	addq	$216, %rsp
	popq	%rbx
	popq	%r12
	popq	%r14
	popq	%r15
	retq
.Lframes_func_end1:
	.size	loamchalice.frames.pixels.temperature_block, .Lframes_func_end1-loamchalice.frames.pixels.temperature_block

	.section	.rodata.cst16,"aM",@progbits,16
	.p2align	4, 0x0
.Lframes_CPI2_0:
	.long	2143289344
	.long	2143289344
	.long	2143289344
	.long	2143289344
.Lframes_CPI2_1:
	.long	8388608
	.long	8388608
	.long	8388608
	.long	8388608
.Lframes_CPI2_2:
	.long	33554431
	.long	33554431
	.long	33554431
	.long	33554431
.Lframes_CPI2_3:
	.long	1065353216
	.long	1065353216
	.long	1065353216
	.long	1065353216
.Lframes_CPI2_4:
	.long	1331173376
	.long	1331173376
	.long	1331173376
	.long	1331173376
.Lframes_CPI2_5:
	.long	0x3dc5d67e
	.long	0x3dc5d67e
	.long	0x3dc5d67e
	.long	0x3dc5d67e
.Lframes_CPI2_6:
	.long	0x3df332a8
	.long	0x3df332a8
	.long	0x3df332a8
	.long	0x3df332a8
.Lframes_CPI2_7:
	.long	0x3e1ffe93
	.long	0x3e1ffe93
	.long	0x3e1ffe93
	.long	0x3e1ffe93
.Lframes_CPI2_8:
	.long	0x3e7ffe6f
	.long	0x3e7ffe6f
	.long	0x3e7ffe6f
	.long	0x3e7ffe6f
.Lframes_CPI2_12:
	.long	1048576000
	.long	1048576000
	.long	1048576000
	.long	1048576000
.Lframes_CPI2_13:
	.long	8388607
	.long	8388607
	.long	8388607
	.long	8388607
.Lframes_CPI2_14:
	.long	4286578688
	.long	4286578688
	.long	4286578688
	.long	4286578688
.Lframes_CPI2_15:
	.long	2139095039
	.long	2139095039
	.long	2139095039
	.long	2139095039
.Lframes_CPI2_16:
	.long	528482304
	.long	528482304
	.long	528482304
	.long	528482304
	.section	.rodata.cst4,"aM",@progbits,4
	.p2align	2, 0x0
.Lframes_CPI2_9:
	.long	0x3f800000
.Lframes_CPI2_10:
	.long	0x3f000000
.Lframes_CPI2_11:
	.long	0x45800800
.Lframes_CPI2_17:
	.long	0x7fc00000
	.section	.rodata.cst8,"aM",@progbits,8
	.p2align	3, 0x0
.Lframes_CPI2_18:
	.long	0x7fc00000
	.long	0x7f800000
.Lframes_CPI2_19:
	.quad	0xbfd8d6dad5c5805a
.Lframes_CPI2_20:
	.quad	0x3ff48987b38c9874
.Lframes_CPI2_21:
	.quad	0xbf89e11a55579851
.Lframes_CPI2_22:
	.quad	0x3fbbd11ca559a5b5
.Lframes_CPI2_23:
	.quad	0xbfd9564a9a0cc3d0
.Lframes_CPI2_24:
	.quad	0x3ff49e6fb879243c
.Lframes_CPI2_25:
	.quad	0xbf8b3fdc3e64f496
.Lframes_CPI2_26:
	.quad	0x3fbcd40c7b79c813
.Lframes_CPI2_27:
	.quad	0xbfd9da666a8282c0
.Lframes_CPI2_28:
	.quad	0x3ff4b3c3e0838e08
.Lframes_CPI2_29:
	.quad	0xbf8cb74d9f20e3c5
.Lframes_CPI2_30:
	.quad	0x3fbde4cf1160987f
.Lframes_CPI2_31:
	.quad	0xbfda636eaa84aa24
.Lframes_CPI2_32:
	.quad	0x3ff4c9882b15accb
.Lframes_CPI2_33:
	.quad	0xbf8e499d1637aac6
.Lframes_CPI2_34:
	.quad	0x3fbf045f9100c8fb
.Lframes_CPI2_35:
	.quad	0xbfdaf1a85969655f
.Lframes_CPI2_36:
	.quad	0x3ff4dfc0cf2a5dce
.Lframes_CPI2_37:
	.quad	0xbf8ff9350c84276a
.Lframes_CPI2_38:
	.quad	0x3fc019e7c4a5cc82
.Lframes_CPI2_39:
	.quad	0xbfdb855d7ca13de0
.Lframes_CPI2_40:
	.quad	0x3ff4f6723f50bfea
.Lframes_CPI2_41:
	.quad	0xbf90e461a137b60f
.Lframes_CPI2_42:
	.quad	0x3fc0ba24ac9d711a
.Lframes_CPI2_43:
	.quad	0xbfdc1edd9569549c
.Lframes_CPI2_44:
	.quad	0x3ff50da12e0ca82a
.Lframes_CPI2_45:
	.quad	0xbf91dda0bc0f98f5
.Lframes_CPI2_46:
	.quad	0x3fc1638974e0b1d2
.Lframes_CPI2_47:
	.quad	0xbfdcbe7e238a7215
.Lframes_CPI2_48:
	.quad	0x3ff52552929e8fbf
.Lframes_CPI2_49:
	.quad	0xbf92e9ffafd562c7
.Lframes_CPI2_50:
	.quad	0x3fc216c861238d76
.Lframes_CPI2_51:
	.quad	0xbfdd649b36da6586
.Lframes_CPI2_52:
	.quad	0x3ff53d8bae3e8fed
.Lframes_CPI2_53:
	.quad	0xbf940b5708b9b0fb
.Lframes_CPI2_54:
	.quad	0x3fc2d4a4c2a70153
.Lframes_CPI2_55:
	.quad	0xbfde119811778ee7
.Lframes_CPI2_56:
	.quad	0x3ff5565211d78886
.Lframes_CPI2_57:
	.quad	0xbf9543b6a2c0f3d1
.Lframes_CPI2_58:
	.quad	0x3fc39df4f298d76f
.Lframes_CPI2_59:
	.quad	0xbfdec5dfdd045494
.Lframes_CPI2_60:
	.quad	0x3ff56faba4515177
.Lframes_CPI2_61:
	.quad	0xbf96956d50f05671
.Lframes_CPI2_62:
	.quad	0x3fc473a491df2605
.Lframes_CPI2_63:
	.quad	0xbfdf81e67583ece0
.Lframes_CPI2_64:
	.quad	0x3ff5899ea97ae286
.Lframes_CPI2_65:
	.quad	0xbf980311beecdf50
.Lframes_CPI2_66:
	.quad	0x3fc556b719595084
.Lframes_CPI2_67:
	.quad	0xbfe02314a673068e
.Lframes_CPI2_68:
	.quad	0x3ff5a431c9a7ba2d
.Lframes_CPI2_69:
	.quad	0xbf998f8cc6c133d0
.Lframes_CPI2_70:
	.quad	0x3fc6484ac7a206de
.Lframes_CPI2_71:
	.quad	0xbfe0899835678b25
.Lframes_CPI2_72:
	.quad	0x3ff5bf6c1a168c70
.Lframes_CPI2_73:
	.quad	0xbf9b3e25807701df
.Lframes_CPI2_74:
	.quad	0x3fc7499bfbc8f77c
.Lframes_CPI2_75:
	.quad	0xbfe0f4c7c6612df5
.Lframes_CPI2_76:
	.quad	0x3ff5db55263a7735
.Lframes_CPI2_77:
	.quad	0xbf9d128f5ff1d144
.Lframes_CPI2_78:
	.quad	0x3fc85c090f67f3a1
.Lframes_CPI2_79:
	.quad	0xbfe164f3b5c49c7a
.Lframes_CPI2_80:
	.quad	0x3ff5f7f4fa03b8fd
.Lframes_CPI2_81:
	.quad	0xbf9f10fac7b9e0fd
.Lframes_CPI2_82:
	.quad	0x3fc98116c604a5ac
.Lframes_CPI2_83:
	.quad	0xbfe1da7395c50e4c
.Lframes_CPI2_84:
	.quad	0x3ff615542d494b58
.Lframes_CPI2_85:
	.quad	0xbfa09f1447099ec3
.Lframes_CPI2_86:
	.quad	0x3fcaba756c0423f4
.Lframes_CPI2_87:
	.quad	0xbfe255a6ff632f04
.Lframes_CPI2_88:
	.quad	0x3ff6337bf079ed95
.Lframes_CPI2_89:
	.quad	0xbfa1cfc087047581
.Lframes_CPI2_90:
	.quad	0x3fcc0a06c4c15e4e
.Lframes_CPI2_91:
	.quad	0xbfe2d6f680371f14
.Lframes_CPI2_92:
	.quad	0x3ff652761ac144d6
.Lframes_CPI2_93:
	.quad	0xbfa31d97c0c539a3
.Lframes_CPI2_94:
	.quad	0x3fcd71e4edd8a92e
.Lframes_CPI2_95:
	.quad	0xbfe35ed4a9ba21f2
.Lframes_CPI2_96:
	.quad	0x3ff6724d39d4ef3d
.Lframes_CPI2_97:
	.quad	0xbfa48c214730858e
.Lframes_CPI2_98:
	.quad	0x3fcef46a65c0d8ac
.Lframes_CPI2_99:
	.quad	0xbfe3edbf47a9bdea
.Lframes_CPI2_100:
	.quad	0x3ff6930ca3a5fbdb
.Lframes_CPI2_101:
	.quad	0xbfa61f699420162c
.Lframes_CPI2_102:
	.quad	0x3fd04a1db6ddbdce
.Lframes_CPI2_103:
	.quad	0xbfe48440c4354b61
.Lframes_CPI2_104:
	.quad	0x3ff6b4c08a3d7463
.Lframes_CPI2_105:
	.quad	0xbfa7dc1999064aaa
.Lframes_CPI2_106:
	.quad	0x3fd12a2885c2d55c
.Lframes_CPI2_107:
	.quad	0xbfe522f1c1fc9caa
.Lframes_CPI2_108:
	.quad	0x3ff6d7761216e589
.Lframes_CPI2_109:
	.quad	0xbfa9c792d22551ea
.Lframes_CPI2_110:
	.quad	0x3fd21c02ff5670aa
.Lframes_CPI2_111:
	.quad	0xbfe5ca7af58a6166
.Lframes_CPI2_112:
	.quad	0x3ff6fb3b6b5a8c6c
.Lframes_CPI2_113:
	.quad	0xbfabe8113a584e1d
.Lframes_CPI2_114:
	.quad	0x3fd32193086fb443
.Lframes_CPI2_115:
	.quad	0xbfe67b9749fb94b2
.Lframes_CPI2_116:
	.quad	0x3ff7201fee6a962f
.Lframes_CPI2_117:
	.quad	0xbfae44d489bade19
.Lframes_CPI2_118:
	.quad	0x3fd43d0020924148
.Lframes_CPI2_119:
	.quad	0xbfe737165f09042f
.Lframes_CPI2_120:
	.quad	0x3ff746343c4c6c38
.Lframes_CPI2_121:
	.quad	0xbfb07329465d1743
.Lframes_CPI2_122:
	.quad	0x3fd570be3491b6b7
.Lframes_CPI2_123:
	.quad	0xbfe7fddf71cb1ffa
.Lframes_CPI2_124:
	.quad	0x3ff76d8a639148f5
.Lframes_CPI2_125:
	.quad	0xbfb1eb3a718070d4
.Lframes_CPI2_126:
	.quad	0x3fd6bf9a91c44d0c
.Lframes_CPI2_127:
	.quad	0xbfe8d0f4c57fb846
.Lframes_CPI2_128:
	.quad	0x3ff796360a817401
.Lframes_CPI2_129:
	.quad	0xbfb39072906b220e
.Lframes_CPI2_130:
	.quad	0x3fd82ccb76f32def
.Lframes_CPI2_131:
	.quad	0xbfe9b177a6904feb
.Lframes_CPI2_132:
	.quad	0x3ff7c04c9f750ec5
.Lframes_CPI2_133:
	.quad	0xbfb569b5984f8e41
.Lframes_CPI2_134:
	.quad	0x3fd9bc02e1674462
.Lframes_CPI2_135:
	.quad	0xbfeaa0ad2864dd46
.Lframes_CPI2_136:
	.quad	0x3ff7ebe590764371
.Lframes_CPI2_137:
	.quad	0xbfb77f3180d8ed5f
.Lframes_CPI2_138:
	.quad	0x3fdb71855faad984
.Lframes_CPI2_139:
	.quad	0xbfeba003c69b59ab
.Lframes_CPI2_140:
	.quad	0x3ff8191a8b857f7c
.Lframes_CPI2_141:
	.quad	0xbfb9daa8153fb04b
.Lframes_CPI2_142:
	.quad	0x3fdd5245ec4a3182
.Lframes_CPI2_143:
	.quad	0xbfecb11a1c961214
.Lframes_CPI2_144:
	.quad	0x3ff84807c924869d
.Lframes_CPI2_145:
	.quad	0xbfbc87cc279b3083
.Lframes_CPI2_146:
	.quad	0x3fdf64081dc7d151
.Lframes_CPI2_147:
	.quad	0x4330000000000000
.Lframes_CPI2_148:
	.quad	0xc330000000000000
	.section	.text.frames.roots.fourth_roots,"ax",@progbits
	.p2align	4
	.type	loamchalice.frames.roots.fourth_roots,@function
loamchalice.frames.roots.fourth_roots:
	pushq	%rbx
	subq	$384, %rsp
	xorps	%xmm0, %xmm0
	movaps	%xmm0, (%rsp)
	movaps	%xmm0, 16(%rsp)
	movaps	%xmm0, 32(%rsp)
	movaps	%xmm0, 48(%rsp)
	movaps	%xmm0, 64(%rsp)
	movaps	%xmm0, 80(%rsp)
	movaps	%xmm0, 96(%rsp)
	movaps	%xmm0, 112(%rsp)
	movaps	%xmm0, -128(%rsp)
	movaps	%xmm0, -112(%rsp)
	movaps	%xmm0, -96(%rsp)
	movaps	%xmm0, -80(%rsp)
	movaps	%xmm0, -64(%rsp)
	movaps	%xmm0, -48(%rsp)
	movaps	%xmm0, -32(%rsp)
	movaps	%xmm0, -16(%rsp)
	movups	(%rdi), %xmm1
	movaps	%xmm1, %xmm8
	movaps	%xmm1, %xmm2
	shufps	$85, %xmm1, %xmm2
	unpcklps	%xmm2, %xmm8
	movaps	%xmm1, %xmm2
	unpckhpd	%xmm1, %xmm2
	movaps	%xmm1, %xmm3
	shufps	$255, %xmm1, %xmm3
	unpcklps	%xmm3, %xmm2
	movlhps	%xmm2, %xmm8
	cmpunordps	%xmm0, %xmm8
	movaps	%xmm8, %xmm2
	andnps	%xmm1, %xmm2
	movaps	.Lframes_CPI2_0(%rip), %xmm4
	andps	%xmm4, %xmm8
	orps	%xmm2, %xmm8
	movaps	%xmm8, 128(%rsp)
	movups	16(%rdi), %xmm1
	movaps	%xmm1, %xmm10
	movaps	%xmm1, %xmm2
	shufps	$85, %xmm1, %xmm2
	unpcklps	%xmm2, %xmm10
	movaps	%xmm1, %xmm2
	unpckhpd	%xmm1, %xmm2
	movaps	%xmm1, %xmm3
	shufps	$255, %xmm1, %xmm3
	unpcklps	%xmm3, %xmm2
	movlhps	%xmm2, %xmm10
	cmpunordps	%xmm0, %xmm10
	movaps	%xmm10, %xmm2
	andnps	%xmm1, %xmm2
	andps	%xmm4, %xmm10
	orps	%xmm2, %xmm10
	movaps	%xmm10, 144(%rsp)
	movups	32(%rdi), %xmm1
	movaps	%xmm1, %xmm9
	movaps	%xmm1, %xmm2
	shufps	$85, %xmm1, %xmm2
	unpcklps	%xmm2, %xmm9
	movaps	%xmm1, %xmm2
	unpckhpd	%xmm1, %xmm2
	movaps	%xmm1, %xmm3
	shufps	$255, %xmm1, %xmm3
	unpcklps	%xmm3, %xmm2
	movlhps	%xmm2, %xmm9
	cmpunordps	%xmm0, %xmm9
	movaps	%xmm9, %xmm2
	andnps	%xmm1, %xmm2
	andps	%xmm4, %xmm9
	orps	%xmm2, %xmm9
	movaps	%xmm9, 160(%rsp)
	movups	48(%rdi), %xmm1
	movaps	%xmm1, %xmm7
	movaps	%xmm1, %xmm2
	shufps	$85, %xmm1, %xmm2
	unpcklps	%xmm2, %xmm7
	movaps	%xmm1, %xmm2
	unpckhpd	%xmm1, %xmm2
	movaps	%xmm1, %xmm3
	shufps	$255, %xmm1, %xmm3
	unpcklps	%xmm3, %xmm2
	movlhps	%xmm2, %xmm7
	cmpunordps	%xmm0, %xmm7
	movaps	%xmm7, %xmm2
	andnps	%xmm1, %xmm2
	andps	%xmm4, %xmm7
	orps	%xmm2, %xmm7
	movaps	%xmm7, 176(%rsp)
	movups	64(%rdi), %xmm1
	movaps	%xmm1, %xmm5
	movaps	%xmm1, %xmm2
	shufps	$85, %xmm1, %xmm2
	unpcklps	%xmm2, %xmm5
	movaps	%xmm1, %xmm2
	unpckhpd	%xmm1, %xmm2
	movaps	%xmm1, %xmm3
	shufps	$255, %xmm1, %xmm3
	unpcklps	%xmm3, %xmm2
	movlhps	%xmm2, %xmm5
	cmpunordps	%xmm0, %xmm5
	movaps	%xmm5, %xmm2
	andnps	%xmm1, %xmm2
	andps	%xmm4, %xmm5
	orps	%xmm2, %xmm5
	movaps	%xmm5, 192(%rsp)
	movups	80(%rdi), %xmm1
	movaps	%xmm1, %xmm3
	movaps	%xmm1, %xmm2
	shufps	$85, %xmm1, %xmm2
	unpcklps	%xmm2, %xmm3
	movaps	%xmm1, %xmm2
	unpckhpd	%xmm1, %xmm2
	movaps	%xmm1, %xmm6
	shufps	$255, %xmm1, %xmm6
	unpcklps	%xmm6, %xmm2
	movlhps	%xmm2, %xmm3
	cmpunordps	%xmm0, %xmm3
	movaps	%xmm3, %xmm2
	andnps	%xmm1, %xmm2
	andps	%xmm4, %xmm3
	orps	%xmm2, %xmm3
	movaps	%xmm3, 208(%rsp)
	movups	96(%rdi), %xmm1
	movaps	%xmm1, %xmm2
	movaps	%xmm1, %xmm6
	shufps	$85, %xmm1, %xmm6
	unpcklps	%xmm6, %xmm2
	movaps	%xmm1, %xmm6
	unpckhpd	%xmm1, %xmm6
	movaps	%xmm1, %xmm11
	shufps	$255, %xmm1, %xmm11
	unpcklps	%xmm11, %xmm6
	movlhps	%xmm6, %xmm2
	cmpunordps	%xmm0, %xmm2
	movaps	%xmm2, %xmm6
	andnps	%xmm1, %xmm6
	andps	%xmm4, %xmm2
	orps	%xmm6, %xmm2
	movaps	%xmm2, 224(%rsp)
	movups	112(%rdi), %xmm6
	movaps	%xmm6, %xmm1
	movaps	%xmm6, %xmm11
	shufps	$85, %xmm6, %xmm11
	unpcklps	%xmm11, %xmm1
	movaps	%xmm6, %xmm11
	unpckhpd	%xmm6, %xmm11
	movaps	%xmm6, %xmm12
	shufps	$255, %xmm6, %xmm12
	unpcklps	%xmm12, %xmm11
	movlhps	%xmm11, %xmm1
	cmpunordps	%xmm0, %xmm1
	movaps	%xmm1, %xmm0
	andnps	%xmm6, %xmm0
	andps	%xmm4, %xmm1
	orps	%xmm0, %xmm1
	movdqa	.Lframes_CPI2_1(%rip), %xmm0
	paddd	%xmm0, %xmm8
	pand	.Lframes_CPI2_2(%rip), %xmm8
	movdqa	.Lframes_CPI2_3(%rip), %xmm11
	paddd	%xmm11, %xmm8
	movdqa	%xmm8, %xmm12
	psrld	$2, %xmm12
	movdqa	.Lframes_CPI2_4(%rip), %xmm13
	movdqa	%xmm13, %xmm15
	psubd	%xmm12, %xmm15
	movdqa	%xmm15, %xmm12
	mulps	%xmm15, %xmm12
	mulps	%xmm12, %xmm8
	mulps	%xmm12, %xmm8
	movdqa	%xmm11, %xmm6
	subps	%xmm8, %xmm6
	movaps	.Lframes_CPI2_5(%rip), %xmm8
	movaps	%xmm6, %xmm4
	mulps	%xmm8, %xmm4
	addps	.Lframes_CPI2_6(%rip), %xmm4
	mulps	%xmm6, %xmm4
	movaps	.Lframes_CPI2_7(%rip), %xmm14
	addps	%xmm14, %xmm4
	mulps	%xmm6, %xmm4
	movaps	.Lframes_CPI2_8(%rip), %xmm12
	addps	%xmm12, %xmm4
	mulps	%xmm6, %xmm4
	mulps	%xmm15, %xmm4
	addps	%xmm15, %xmm4
	movaps	%xmm4, 256(%rsp)
	paddd	%xmm0, %xmm10
	movdqa	.Lframes_CPI2_2(%rip), %xmm15
	pand	%xmm15, %xmm10
	paddd	%xmm11, %xmm10
	movdqa	%xmm10, %xmm4
	psrld	$2, %xmm4
	movdqa	%xmm13, %xmm6
	psubd	%xmm4, %xmm6
	movdqa	%xmm6, %xmm4
	mulps	%xmm6, %xmm4
	mulps	%xmm4, %xmm10
	mulps	%xmm4, %xmm10
	movdqa	%xmm11, %xmm4
	subps	%xmm10, %xmm4
	movaps	%xmm4, %xmm10
	mulps	%xmm8, %xmm10
	addps	.Lframes_CPI2_6(%rip), %xmm10
	mulps	%xmm4, %xmm10
	addps	%xmm14, %xmm10
	mulps	%xmm4, %xmm10
	addps	%xmm12, %xmm10
	mulps	%xmm4, %xmm10
	mulps	%xmm6, %xmm10
	addps	%xmm6, %xmm10
	movaps	%xmm10, 272(%rsp)
	paddd	%xmm0, %xmm9
	pand	%xmm15, %xmm9
	movdqa	%xmm15, %xmm10
	paddd	%xmm11, %xmm9
	movdqa	%xmm9, %xmm4
	psrld	$2, %xmm4
	movdqa	%xmm13, %xmm6
	psubd	%xmm4, %xmm6
	movdqa	%xmm6, %xmm4
	mulps	%xmm6, %xmm4
	mulps	%xmm4, %xmm9
	mulps	%xmm4, %xmm9
	movdqa	%xmm11, %xmm4
	subps	%xmm9, %xmm4
	movaps	%xmm4, %xmm9
	mulps	%xmm8, %xmm9
	movaps	.Lframes_CPI2_6(%rip), %xmm15
	addps	%xmm15, %xmm9
	mulps	%xmm4, %xmm9
	movaps	%xmm14, %xmm12
	addps	%xmm14, %xmm9
	mulps	%xmm4, %xmm9
	movaps	.Lframes_CPI2_8(%rip), %xmm14
	addps	%xmm14, %xmm9
	mulps	%xmm4, %xmm9
	mulps	%xmm6, %xmm9
	addps	%xmm6, %xmm9
	movaps	%xmm9, 288(%rsp)
	paddd	%xmm0, %xmm7
	pand	%xmm10, %xmm7
	paddd	%xmm11, %xmm7
	movdqa	%xmm7, %xmm4
	psrld	$2, %xmm4
	movdqa	%xmm13, %xmm6
	psubd	%xmm4, %xmm6
	movdqa	%xmm6, %xmm4
	mulps	%xmm6, %xmm4
	mulps	%xmm4, %xmm7
	mulps	%xmm4, %xmm7
	movdqa	%xmm11, %xmm4
	subps	%xmm7, %xmm4
	movaps	%xmm4, %xmm7
	mulps	%xmm8, %xmm7
	addps	%xmm15, %xmm7
	mulps	%xmm4, %xmm7
	addps	%xmm12, %xmm7
	mulps	%xmm4, %xmm7
	addps	%xmm14, %xmm7
	mulps	%xmm4, %xmm7
	mulps	%xmm6, %xmm7
	addps	%xmm6, %xmm7
	movaps	%xmm7, 304(%rsp)
	paddd	%xmm0, %xmm5
	pand	%xmm10, %xmm5
	paddd	%xmm11, %xmm5
	movdqa	%xmm5, %xmm4
	psrld	$2, %xmm4
	movdqa	%xmm13, %xmm6
	psubd	%xmm4, %xmm6
	movdqa	%xmm6, %xmm4
	mulps	%xmm6, %xmm4
	mulps	%xmm4, %xmm5
	mulps	%xmm4, %xmm5
	movdqa	%xmm11, %xmm4
	subps	%xmm5, %xmm4
	movaps	%xmm4, %xmm5
	mulps	%xmm8, %xmm5
	addps	%xmm15, %xmm5
	mulps	%xmm4, %xmm5
	addps	%xmm12, %xmm5
	mulps	%xmm4, %xmm5
	addps	%xmm14, %xmm5
	mulps	%xmm4, %xmm5
	mulps	%xmm6, %xmm5
	addps	%xmm6, %xmm5
	movaps	%xmm5, 320(%rsp)
	paddd	%xmm0, %xmm3
	pand	%xmm10, %xmm3
	paddd	%xmm11, %xmm3
	movdqa	%xmm3, %xmm4
	psrld	$2, %xmm4
	movdqa	%xmm13, %xmm5
	psubd	%xmm4, %xmm5
	movdqa	%xmm5, %xmm4
	mulps	%xmm5, %xmm4
	mulps	%xmm4, %xmm3
	mulps	%xmm4, %xmm3
	movdqa	%xmm11, %xmm4
	subps	%xmm3, %xmm4
	movaps	%xmm4, %xmm3
	mulps	%xmm8, %xmm3
	addps	%xmm15, %xmm3
	mulps	%xmm4, %xmm3
	addps	%xmm12, %xmm3
	mulps	%xmm4, %xmm3
	addps	%xmm14, %xmm3
	mulps	%xmm4, %xmm3
	mulps	%xmm5, %xmm3
	addps	%xmm5, %xmm3
	movaps	%xmm3, 336(%rsp)
	paddd	%xmm0, %xmm2
	pand	%xmm10, %xmm2
	paddd	%xmm11, %xmm2
	movdqa	%xmm2, %xmm3
	psrld	$2, %xmm3
	movdqa	%xmm13, %xmm4
	psubd	%xmm3, %xmm4
	movdqa	%xmm4, %xmm3
	mulps	%xmm4, %xmm3
	mulps	%xmm3, %xmm2
	mulps	%xmm3, %xmm2
	movdqa	%xmm11, %xmm3
	subps	%xmm2, %xmm3
	movaps	%xmm3, %xmm2
	mulps	%xmm8, %xmm2
	addps	%xmm15, %xmm2
	mulps	%xmm3, %xmm2
	addps	%xmm12, %xmm2
	mulps	%xmm3, %xmm2
	addps	%xmm14, %xmm2
	mulps	%xmm3, %xmm2
	mulps	%xmm4, %xmm2
	addps	%xmm4, %xmm2
	movaps	%xmm2, 352(%rsp)
	movaps	%xmm1, 240(%rsp)
	paddd	%xmm0, %xmm1
	pand	%xmm10, %xmm1
	paddd	%xmm11, %xmm1
	movdqa	%xmm1, %xmm2
	psrld	$2, %xmm2
	psubd	%xmm2, %xmm13
	movdqa	%xmm13, %xmm2
	mulps	%xmm13, %xmm2
	mulps	%xmm2, %xmm1
	mulps	%xmm2, %xmm1
	subps	%xmm1, %xmm11
	mulps	%xmm11, %xmm8
	addps	%xmm15, %xmm8
	mulps	%xmm11, %xmm8
	addps	%xmm12, %xmm8
	mulps	%xmm11, %xmm8
	addps	%xmm14, %xmm8
	mulps	%xmm11, %xmm8
	mulps	%xmm13, %xmm8
	addps	%xmm13, %xmm8
	movaps	%xmm8, 368(%rsp)
	movss	.Lframes_CPI2_9(%rip), %xmm1
	xorl	%eax, %eax
	.p2align	4
.Lframes_BB2_1:
	movl	$8388608, %ecx
	addl	128(%rsp,%rax,4), %ecx
	andl	$33554431, %ecx
	addl	$1065353216, %ecx
	movd	%ecx, %xmm3
	movss	256(%rsp,%rax,4), %xmm2
	mulss	%xmm2, %xmm2
	movaps	%xmm2, %xmm4
	mulss	.Lframes_CPI2_10(%rip), %xmm2
	mulss	%xmm3, %xmm4
	movss	.Lframes_CPI2_11(%rip), %xmm5
	mulss	%xmm4, %xmm5
	movaps	%xmm4, %xmm6
	subss	%xmm5, %xmm6
	addss	%xmm5, %xmm6
	movaps	%xmm4, %xmm5
	addss	%xmm6, %xmm5
	movaps	%xmm4, %xmm7
	subss	%xmm6, %xmm7
	mulss	%xmm6, %xmm6
	subss	%xmm6, %xmm3
	mulss	%xmm5, %xmm7
	subss	%xmm7, %xmm3
	mulss	%xmm2, %xmm3
	addss	%xmm4, %xmm3
	movaps	%xmm3, %xmm2
	movaps	%xmm1, %xmm4
	cmpltss	%xmm2, %xmm4
	andps	%xmm4, %xmm3
	movss	.Lframes_CPI2_9(%rip), %xmm2
	andnps	%xmm2, %xmm4
	orps	%xmm3, %xmm4
	movss	%xmm4, (%rsi,%rax,4)
	movss	%xmm4, (%rsp,%rax,4)
	incq	%rax
	cmpq	$32, %rax
	jne	.Lframes_BB2_1
	xorl	%eax, %eax
	.p2align	4
.Lframes_BB2_3:
	movss	(%rsi,%rax,4), %xmm3
	movss	256(%rsp,%rax,4), %xmm4
	movaps	%xmm3, %xmm5
	mulss	%xmm4, %xmm5
	mulss	.Lframes_CPI2_10(%rip), %xmm4
	movss	.Lframes_CPI2_11(%rip), %xmm6
	mulss	%xmm5, %xmm6
	movaps	%xmm6, %xmm7
	subss	%xmm5, %xmm7
	subss	%xmm7, %xmm6
	movaps	%xmm5, %xmm7
	addss	%xmm6, %xmm7
	movaps	%xmm5, %xmm8
	subss	%xmm6, %xmm8
	mulss	%xmm6, %xmm6
	subss	%xmm6, %xmm3
	mulss	%xmm7, %xmm8
	subss	%xmm8, %xmm3
	mulss	%xmm4, %xmm3
	addss	%xmm5, %xmm3
	movaps	%xmm3, %xmm4
	movaps	%xmm1, %xmm5
	cmpltss	%xmm4, %xmm5
	andps	%xmm5, %xmm3
	andnps	%xmm2, %xmm5
	orps	%xmm3, %xmm5
	movss	%xmm5, -128(%rsp,%rax,4)
	incq	%rax
	cmpq	$32, %rax
	jne	.Lframes_BB2_3
	xorps	%xmm1, %xmm1
	xorl	%eax, %eax
	xorps	%xmm2, %xmm2
	.p2align	4
.Lframes_BB2_5:
	movdqa	128(%rsp,%rax,4), %xmm4
	movdqu	(%rsp,%rax,4), %xmm13
	movdqu	-128(%rsp,%rax,4), %xmm6
	movdqa	.Lframes_CPI2_12(%rip), %xmm3
	paddd	%xmm4, %xmm3
	movdqa	.Lframes_CPI2_13(%rip), %xmm7
	pand	%xmm7, %xmm13
	por	%xmm0, %xmm13
	movdqa	%xmm13, %xmm5
	punpckhdq	%xmm1, %xmm5
	punpckldq	%xmm1, %xmm13
	pand	%xmm7, %xmm6
	por	%xmm0, %xmm6
	pand	%xmm4, %xmm7
	por	%xmm0, %xmm7
	pshufd	$246, %xmm7, %xmm8
	pshufd	$212, %xmm7, %xmm7
	movdqa	%xmm3, %xmm9
	pand	%xmm0, %xmm9
	paddd	%xmm0, %xmm9
	pshufd	$246, %xmm9, %xmm11
	pmuludq	%xmm8, %xmm11
	pshufd	$212, %xmm9, %xmm8
	pmuludq	%xmm7, %xmm8
	movdqa	%xmm3, %xmm10
	psrld	$1, %xmm10
	pand	%xmm0, %xmm10
	paddd	%xmm0, %xmm10
	pshufd	$212, %xmm10, %xmm9
	pmuludq	%xmm13, %xmm9
	movdqa	%xmm13, %xmm7
	pmuludq	%xmm13, %xmm7
	psubq	%xmm8, %xmm7
	movdqa	%xmm5, %xmm8
	pmuludq	%xmm5, %xmm8
	psubq	%xmm11, %xmm8
	movdqa	%xmm7, %xmm12
	paddq	%xmm13, %xmm12
	pcmpeqd	%xmm11, %xmm11
	pxor	%xmm11, %xmm7
	paddq	%xmm13, %xmm7
	psrld	$2, %xmm3
	pand	.Lframes_CPI2_3(%rip), %xmm3
	movdqa	%xmm6, %xmm13
	paddd	%xmm6, %xmm3
	punpckhdq	%xmm1, %xmm6
	punpckldq	%xmm1, %xmm13
	pshufd	$246, %xmm10, %xmm10
	pmuludq	%xmm5, %xmm10
	por	%xmm12, %xmm7
	movdqa	%xmm8, %xmm12
	paddq	%xmm5, %xmm12
	pxor	%xmm11, %xmm8
	paddq	%xmm5, %xmm8
	por	%xmm12, %xmm8
	movdqa	%xmm13, %xmm5
	pmuludq	%xmm13, %xmm5
	psubq	%xmm9, %xmm5
	movdqa	%xmm6, %xmm9
	pmuludq	%xmm6, %xmm9
	psubq	%xmm10, %xmm9
	movdqa	%xmm5, %xmm10
	movdqa	%xmm9, %xmm12
	pxor	%xmm11, %xmm5
	pxor	%xmm11, %xmm9
	paddq	%xmm6, %xmm12
	paddq	%xmm6, %xmm9
	por	%xmm8, %xmm9
	por	%xmm12, %xmm9
	paddq	%xmm13, %xmm10
	paddq	%xmm13, %xmm5
	por	%xmm7, %xmm5
	por	%xmm10, %xmm5
	shufps	$221, %xmm9, %xmm5
	movdqa	.Lframes_CPI2_14(%rip), %xmm6
	paddd	%xmm4, %xmm6
	movdqa	.Lframes_CPI2_15(%rip), %xmm7
	psubd	%xmm4, %xmm7
	por	%xmm6, %xmm7
	por	%xmm5, %xmm7
	paddd	.Lframes_CPI2_16(%rip), %xmm3
	movdqa	%xmm7, %xmm4
	psrad	$31, %xmm4
	pandn	%xmm3, %xmm4
	movdqu	%xmm4, (%rsi,%rax,4)
	psrld	$31, %xmm7
	paddd	%xmm7, %xmm2
	addq	$4, %rax
	cmpq	$32, %rax
	jne	.Lframes_BB2_5
	pshufd	$238, %xmm2, %xmm0
	paddd	%xmm2, %xmm0
	pshufd	$85, %xmm0, %xmm1
	paddd	%xmm0, %xmm1
	movd	%xmm1, %eax
	testl	%eax, %eax
	je	.Lframes_BB2_64
	pxor	%xmm0, %xmm0
	xorl	%eax, %eax
	jmp	.Lframes_BB2_11
.Lframes_BB2_8:
	pxor	%xmm1, %xmm1
.Lframes_BB2_9:
	movd	%xmm1, (%rsi,%rax,4)
.Lframes_BB2_10:
	incq	%rax
	cmpq	$32, %rax
	je	.Lframes_BB2_64
.Lframes_BB2_11:
	movss	(%rsi,%rax,4), %xmm1
	ucomiss	%xmm0, %xmm1
	jne	.Lframes_BB2_10
	jp	.Lframes_BB2_10
	movd	(%rdi,%rax,4), %xmm1
	movdqa	%xmm1, %xmm2
	ucomiss	%xmm2, %xmm2
	jp	.Lframes_BB2_62
	movd	%xmm1, %edx
	movl	%edx, %ecx
	andl	$2147483647, %ecx
	je	.Lframes_BB2_8
	cmpl	$2139095039, %edx
	ja	.Lframes_BB2_17
	movabsq	$4607182418800017408, %r8
	cmpl	$8388607, %edx
	ja	.Lframes_BB2_18
	movl	$63, %r9d
	bsrl	%edx, %r9d
	xorl	$31, %r9d
	leal	-8(%r9), %ecx
	shll	%cl, %edx
	shll	$23, %r9d
	subl	%r9d, %edx
	addl	$1115684864, %edx
	movl	%edx, %ecx
	shlq	$29, %rcx
	orq	%r8, %rcx
	movq	%rcx, %xmm1
	movl	%edx, %ecx
	shrl	$18, %ecx
	andl	$31, %ecx
	leaq	.Lframes_JTI2_0(%rip), %r8
	movslq	(%r8,%rcx,4), %rcx
	addq	%r8, %rcx
	jmpq	*%rcx
.Lframes_BB2_17:
	xorl	%edx, %edx
	cmpl	$2139095040, %ecx
	sete	%dl
	leaq	.Lframes_CPI2_18(%rip), %rcx
	movd	(%rcx,%rdx,4), %xmm1
	jmp	.Lframes_BB2_9
.Lframes_BB2_18:
	addl	$1048576000, %edx
	movl	%edx, %ecx
	shlq	$29, %rcx
	orq	%r8, %rcx
	movq	%rcx, %xmm1
	movl	%edx, %ecx
	shrl	$18, %ecx
	andl	$31, %ecx
	leaq	.Lframes_JTI2_0(%rip), %r8
	movslq	(%r8,%rcx,4), %rcx
	addq	%r8, %rcx
	jmpq	*%rcx
.Lframes_BB2_19:
	movsd	.Lframes_CPI2_143(%rip), %xmm2
	mulsd	%xmm1, %xmm2
	addsd	.Lframes_CPI2_144(%rip), %xmm2
	movsd	.Lframes_CPI2_145(%rip), %xmm3
	movsd	.Lframes_CPI2_146(%rip), %xmm4
	jmp	.Lframes_BB2_51
.Lframes_BB2_20:
	movsd	.Lframes_CPI2_35(%rip), %xmm2
	mulsd	%xmm1, %xmm2
	addsd	.Lframes_CPI2_36(%rip), %xmm2
	movsd	.Lframes_CPI2_37(%rip), %xmm3
	movsd	.Lframes_CPI2_38(%rip), %xmm4
	jmp	.Lframes_BB2_51
.Lframes_BB2_21:
	movsd	.Lframes_CPI2_79(%rip), %xmm2
	mulsd	%xmm1, %xmm2
	addsd	.Lframes_CPI2_80(%rip), %xmm2
	movsd	.Lframes_CPI2_81(%rip), %xmm3
	movsd	.Lframes_CPI2_82(%rip), %xmm4
	jmp	.Lframes_BB2_51
.Lframes_BB2_22:
	movsd	.Lframes_CPI2_87(%rip), %xmm2
	mulsd	%xmm1, %xmm2
	addsd	.Lframes_CPI2_88(%rip), %xmm2
	movsd	.Lframes_CPI2_89(%rip), %xmm3
	movsd	.Lframes_CPI2_90(%rip), %xmm4
	jmp	.Lframes_BB2_51
.Lframes_BB2_23:
	movsd	.Lframes_CPI2_99(%rip), %xmm2
	mulsd	%xmm1, %xmm2
	addsd	.Lframes_CPI2_100(%rip), %xmm2
	movsd	.Lframes_CPI2_101(%rip), %xmm3
	movsd	.Lframes_CPI2_102(%rip), %xmm4
	jmp	.Lframes_BB2_51
.Lframes_BB2_24:
	movsd	.Lframes_CPI2_127(%rip), %xmm2
	mulsd	%xmm1, %xmm2
	addsd	.Lframes_CPI2_128(%rip), %xmm2
	movsd	.Lframes_CPI2_129(%rip), %xmm3
	movsd	.Lframes_CPI2_130(%rip), %xmm4
	jmp	.Lframes_BB2_51
.Lframes_BB2_25:
	movsd	.Lframes_CPI2_95(%rip), %xmm2
	mulsd	%xmm1, %xmm2
	addsd	.Lframes_CPI2_96(%rip), %xmm2
	movsd	.Lframes_CPI2_97(%rip), %xmm3
	movsd	.Lframes_CPI2_98(%rip), %xmm4
	jmp	.Lframes_BB2_51
.Lframes_BB2_26:
	movsd	.Lframes_CPI2_107(%rip), %xmm2
	mulsd	%xmm1, %xmm2
	addsd	.Lframes_CPI2_108(%rip), %xmm2
	movsd	.Lframes_CPI2_109(%rip), %xmm3
	movsd	.Lframes_CPI2_110(%rip), %xmm4
	jmp	.Lframes_BB2_51
.Lframes_BB2_27:
	movsd	.Lframes_CPI2_43(%rip), %xmm2
	mulsd	%xmm1, %xmm2
	addsd	.Lframes_CPI2_44(%rip), %xmm2
	movsd	.Lframes_CPI2_45(%rip), %xmm3
	movsd	.Lframes_CPI2_46(%rip), %xmm4
	jmp	.Lframes_BB2_51
.Lframes_BB2_28:
	movsd	.Lframes_CPI2_47(%rip), %xmm2
	mulsd	%xmm1, %xmm2
	addsd	.Lframes_CPI2_48(%rip), %xmm2
	movsd	.Lframes_CPI2_49(%rip), %xmm3
	movsd	.Lframes_CPI2_50(%rip), %xmm4
	jmp	.Lframes_BB2_51
.Lframes_BB2_29:
	movsd	.Lframes_CPI2_135(%rip), %xmm2
	mulsd	%xmm1, %xmm2
	addsd	.Lframes_CPI2_136(%rip), %xmm2
	movsd	.Lframes_CPI2_137(%rip), %xmm3
	movsd	.Lframes_CPI2_138(%rip), %xmm4
	jmp	.Lframes_BB2_51
.Lframes_BB2_30:
	movsd	.Lframes_CPI2_83(%rip), %xmm2
	mulsd	%xmm1, %xmm2
	addsd	.Lframes_CPI2_84(%rip), %xmm2
	movsd	.Lframes_CPI2_85(%rip), %xmm3
	movsd	.Lframes_CPI2_86(%rip), %xmm4
	jmp	.Lframes_BB2_51
.Lframes_BB2_31:
	movsd	.Lframes_CPI2_131(%rip), %xmm2
	mulsd	%xmm1, %xmm2
	addsd	.Lframes_CPI2_132(%rip), %xmm2
	movsd	.Lframes_CPI2_133(%rip), %xmm3
	movsd	.Lframes_CPI2_134(%rip), %xmm4
	jmp	.Lframes_BB2_51
.Lframes_BB2_32:
	movsd	.Lframes_CPI2_115(%rip), %xmm2
	mulsd	%xmm1, %xmm2
	addsd	.Lframes_CPI2_116(%rip), %xmm2
	movsd	.Lframes_CPI2_117(%rip), %xmm3
	movsd	.Lframes_CPI2_118(%rip), %xmm4
	jmp	.Lframes_BB2_51
.Lframes_BB2_33:
	movsd	.Lframes_CPI2_139(%rip), %xmm2
	mulsd	%xmm1, %xmm2
	addsd	.Lframes_CPI2_140(%rip), %xmm2
	movsd	.Lframes_CPI2_141(%rip), %xmm3
	movsd	.Lframes_CPI2_142(%rip), %xmm4
	jmp	.Lframes_BB2_51
.Lframes_BB2_34:
	movsd	.Lframes_CPI2_19(%rip), %xmm2
	mulsd	%xmm1, %xmm2
	addsd	.Lframes_CPI2_20(%rip), %xmm2
	movsd	.Lframes_CPI2_21(%rip), %xmm3
	movsd	.Lframes_CPI2_22(%rip), %xmm4
	jmp	.Lframes_BB2_51
.Lframes_BB2_35:
	movsd	.Lframes_CPI2_75(%rip), %xmm2
	mulsd	%xmm1, %xmm2
	addsd	.Lframes_CPI2_76(%rip), %xmm2
	movsd	.Lframes_CPI2_77(%rip), %xmm3
	movsd	.Lframes_CPI2_78(%rip), %xmm4
	jmp	.Lframes_BB2_51
.Lframes_BB2_36:
	movsd	.Lframes_CPI2_63(%rip), %xmm2
	mulsd	%xmm1, %xmm2
	addsd	.Lframes_CPI2_64(%rip), %xmm2
	movsd	.Lframes_CPI2_65(%rip), %xmm3
	movsd	.Lframes_CPI2_66(%rip), %xmm4
	jmp	.Lframes_BB2_51
.Lframes_BB2_37:
	movsd	.Lframes_CPI2_123(%rip), %xmm2
	mulsd	%xmm1, %xmm2
	addsd	.Lframes_CPI2_124(%rip), %xmm2
	movsd	.Lframes_CPI2_125(%rip), %xmm3
	movsd	.Lframes_CPI2_126(%rip), %xmm4
	jmp	.Lframes_BB2_51
.Lframes_BB2_38:
	movsd	.Lframes_CPI2_59(%rip), %xmm2
	mulsd	%xmm1, %xmm2
	addsd	.Lframes_CPI2_60(%rip), %xmm2
	movsd	.Lframes_CPI2_61(%rip), %xmm3
	movsd	.Lframes_CPI2_62(%rip), %xmm4
	jmp	.Lframes_BB2_51
.Lframes_BB2_39:
	movsd	.Lframes_CPI2_91(%rip), %xmm2
	mulsd	%xmm1, %xmm2
	addsd	.Lframes_CPI2_92(%rip), %xmm2
	movsd	.Lframes_CPI2_93(%rip), %xmm3
	movsd	.Lframes_CPI2_94(%rip), %xmm4
	jmp	.Lframes_BB2_51
.Lframes_BB2_40:
	movsd	.Lframes_CPI2_119(%rip), %xmm2
	mulsd	%xmm1, %xmm2
	addsd	.Lframes_CPI2_120(%rip), %xmm2
	movsd	.Lframes_CPI2_121(%rip), %xmm3
	movsd	.Lframes_CPI2_122(%rip), %xmm4
	jmp	.Lframes_BB2_51
.Lframes_BB2_41:
	movsd	.Lframes_CPI2_71(%rip), %xmm2
	mulsd	%xmm1, %xmm2
	addsd	.Lframes_CPI2_72(%rip), %xmm2
	movsd	.Lframes_CPI2_73(%rip), %xmm3
	movsd	.Lframes_CPI2_74(%rip), %xmm4
	jmp	.Lframes_BB2_51
.Lframes_BB2_42:
	movsd	.Lframes_CPI2_103(%rip), %xmm2
	mulsd	%xmm1, %xmm2
	addsd	.Lframes_CPI2_104(%rip), %xmm2
	movsd	.Lframes_CPI2_105(%rip), %xmm3
	movsd	.Lframes_CPI2_106(%rip), %xmm4
	jmp	.Lframes_BB2_51
.Lframes_BB2_43:
	movsd	.Lframes_CPI2_111(%rip), %xmm2
	mulsd	%xmm1, %xmm2
	addsd	.Lframes_CPI2_112(%rip), %xmm2
	movsd	.Lframes_CPI2_113(%rip), %xmm3
	movsd	.Lframes_CPI2_114(%rip), %xmm4
	jmp	.Lframes_BB2_51
.Lframes_BB2_44:
	movsd	.Lframes_CPI2_23(%rip), %xmm2
	mulsd	%xmm1, %xmm2
	addsd	.Lframes_CPI2_24(%rip), %xmm2
	movsd	.Lframes_CPI2_25(%rip), %xmm3
	movsd	.Lframes_CPI2_26(%rip), %xmm4
	jmp	.Lframes_BB2_51
.Lframes_BB2_45:
	movsd	.Lframes_CPI2_55(%rip), %xmm2
	mulsd	%xmm1, %xmm2
	addsd	.Lframes_CPI2_56(%rip), %xmm2
	movsd	.Lframes_CPI2_57(%rip), %xmm3
	movsd	.Lframes_CPI2_58(%rip), %xmm4
	jmp	.Lframes_BB2_51
.Lframes_BB2_46:
	movsd	.Lframes_CPI2_67(%rip), %xmm2
	mulsd	%xmm1, %xmm2
	addsd	.Lframes_CPI2_68(%rip), %xmm2
	movsd	.Lframes_CPI2_69(%rip), %xmm3
	movsd	.Lframes_CPI2_70(%rip), %xmm4
	jmp	.Lframes_BB2_51
.Lframes_BB2_47:
	movsd	.Lframes_CPI2_51(%rip), %xmm2
	mulsd	%xmm1, %xmm2
	addsd	.Lframes_CPI2_52(%rip), %xmm2
	movsd	.Lframes_CPI2_53(%rip), %xmm3
	movsd	.Lframes_CPI2_54(%rip), %xmm4
	jmp	.Lframes_BB2_51
.Lframes_BB2_48:
	movsd	.Lframes_CPI2_31(%rip), %xmm2
	mulsd	%xmm1, %xmm2
	addsd	.Lframes_CPI2_32(%rip), %xmm2
	movsd	.Lframes_CPI2_33(%rip), %xmm3
	movsd	.Lframes_CPI2_34(%rip), %xmm4
	jmp	.Lframes_BB2_51
.Lframes_BB2_49:
	movsd	.Lframes_CPI2_27(%rip), %xmm2
	mulsd	%xmm1, %xmm2
	addsd	.Lframes_CPI2_28(%rip), %xmm2
	movsd	.Lframes_CPI2_29(%rip), %xmm3
	movsd	.Lframes_CPI2_30(%rip), %xmm4
	jmp	.Lframes_BB2_51
.Lframes_BB2_50:
	movsd	.Lframes_CPI2_39(%rip), %xmm2
	mulsd	%xmm1, %xmm2
	addsd	.Lframes_CPI2_40(%rip), %xmm2
	movsd	.Lframes_CPI2_41(%rip), %xmm3
	movsd	.Lframes_CPI2_42(%rip), %xmm4
.Lframes_BB2_51:
	movapd	%xmm1, %xmm5
	mulsd	%xmm1, %xmm5
	mulsd	%xmm1, %xmm3
	addsd	%xmm4, %xmm3
	mulsd	%xmm5, %xmm3
	addsd	%xmm2, %xmm3
	movl	%edx, %ecx
	shrl	$20, %ecx
	andl	$24, %ecx
	leaq	.Lframes_switch.table.roots.fourth_roots(%rip), %r8
	mulsd	(%rcx,%r8), %xmm1
	mulsd	%xmm3, %xmm1
	mulsd	%xmm3, %xmm1
	movsd	.Lframes_CPI2_147(%rip), %xmm4
	movapd	%xmm1, %xmm2
	addsd	%xmm4, %xmm2
	movsd	.Lframes_CPI2_148(%rip), %xmm5
	addsd	%xmm2, %xmm5
	addsd	%xmm1, %xmm5
	leaq	.Lframes_switch.table.roots.fourth_roots.9(%rip), %r8
	mulsd	(%rcx,%r8), %xmm3
	mulsd	%xmm5, %xmm3
	addsd	%xmm4, %xmm3
	movapd	%xmm3, %xmm1
	ucomisd	%xmm1, %xmm1
	jp	.Lframes_BB2_63
	movq	%xmm2, %rcx
	movl	%ecx, %r8d
	movq	%xmm3, %rcx
	movl	%ecx, %ecx
	movl	%edx, %r10d
	andl	$8388607, %r10d
.Lframes_BB2_53:
	orl	$8388608, %r10d
	movl	%edx, %r9d
	andl	$8388608, %r9d
	addl	$8388608, %r9d
	imulq	%r10, %r9
	leaq	1(%r8), %r11
	movq	%r11, %r10
	imulq	%r8, %r10
	subq	%r9, %r10
	leaq	(%r8,%r8), %rbx
	cmpq	%rbx, %r10
	jae	.Lframes_BB2_55
	movq	%r8, %r10
	jmp	.Lframes_BB2_57
	.p2align	4
.Lframes_BB2_55:
	movq	%r11, %r10
	leaq	1(%r8), %rbx
	imulq	%rbx, %r8
	incq	%r11
	cmpq	%r9, %r8
	movq	%rbx, %r8
	jb	.Lframes_BB2_55
	.p2align	4
.Lframes_BB2_56:
	leaq	(%r9,%r10), %r8
	decq	%r8
	decq	%r10
	movq	%r10, %r11
	imulq	%r10, %r11
	cmpq	%r11, %r8
	jbe	.Lframes_BB2_56
.Lframes_BB2_57:
	movl	%edx, %r8d
	shrl	%r8d
	andl	$8388608, %r8d
	addl	$8388608, %r8d
	imulq	%r10, %r8
	leaq	1(%rcx), %r10
	movq	%r10, %r9
	imulq	%rcx, %r9
	subq	%r8, %r9
	leaq	(%rcx,%rcx), %r11
	cmpq	%r11, %r9
	jae	.Lframes_BB2_59
	movq	%rcx, %r9
	jmp	.Lframes_BB2_61
	.p2align	4
.Lframes_BB2_59:
	movq	%r10, %r9
	leaq	1(%rcx), %r11
	imulq	%r11, %rcx
	incq	%r10
	cmpq	%r8, %rcx
	movq	%r11, %rcx
	jb	.Lframes_BB2_59
	.p2align	4
.Lframes_BB2_60:
	leaq	(%r8,%r9), %rcx
	decq	%rcx
	decq	%r9
	movq	%r9, %r10
	imulq	%r9, %r10
	cmpq	%r10, %rcx
	jbe	.Lframes_BB2_60
.Lframes_BB2_61:
	shrl	$2, %edx
	andl	$1065353216, %edx
	leal	(%rdx,%r9), %ecx
	addl	$528482304, %ecx
	movd	%ecx, %xmm1
	jmp	.Lframes_BB2_9
.Lframes_BB2_62:
	movd	.Lframes_CPI2_17(%rip), %xmm1
	jmp	.Lframes_BB2_9
.Lframes_BB2_63:
	movl	%edx, %r10d
	andl	$8388607, %r10d
	movl	%r10d, %r8d
	shrl	%r8d
	orl	$8388608, %r8d
	movl	%r10d, %ecx
	shrl	$2, %ecx
	orl	$8388608, %ecx
	jmp	.Lframes_BB2_53
.Lframes_BB2_64:
	addq	$384, %rsp
	popq	%rbx
	retq
.Lframes_func_end2:
	.size	loamchalice.frames.roots.fourth_roots, .Lframes_func_end2-loamchalice.frames.roots.fourth_roots
	.section	.rodata.frames.roots.fourth_roots,"a",@progbits
	.p2align	2, 0x0
.Lframes_JTI2_0:
	.long	.Lframes_BB2_19-.Lframes_JTI2_0
	.long	.Lframes_BB2_33-.Lframes_JTI2_0
	.long	.Lframes_BB2_29-.Lframes_JTI2_0
	.long	.Lframes_BB2_31-.Lframes_JTI2_0
	.long	.Lframes_BB2_24-.Lframes_JTI2_0
	.long	.Lframes_BB2_37-.Lframes_JTI2_0
	.long	.Lframes_BB2_40-.Lframes_JTI2_0
	.long	.Lframes_BB2_32-.Lframes_JTI2_0
	.long	.Lframes_BB2_43-.Lframes_JTI2_0
	.long	.Lframes_BB2_26-.Lframes_JTI2_0
	.long	.Lframes_BB2_42-.Lframes_JTI2_0
	.long	.Lframes_BB2_23-.Lframes_JTI2_0
	.long	.Lframes_BB2_25-.Lframes_JTI2_0
	.long	.Lframes_BB2_39-.Lframes_JTI2_0
	.long	.Lframes_BB2_22-.Lframes_JTI2_0
	.long	.Lframes_BB2_30-.Lframes_JTI2_0
	.long	.Lframes_BB2_21-.Lframes_JTI2_0
	.long	.Lframes_BB2_35-.Lframes_JTI2_0
	.long	.Lframes_BB2_41-.Lframes_JTI2_0
	.long	.Lframes_BB2_46-.Lframes_JTI2_0
	.long	.Lframes_BB2_36-.Lframes_JTI2_0
	.long	.Lframes_BB2_38-.Lframes_JTI2_0
	.long	.Lframes_BB2_45-.Lframes_JTI2_0
	.long	.Lframes_BB2_47-.Lframes_JTI2_0
	.long	.Lframes_BB2_28-.Lframes_JTI2_0
	.long	.Lframes_BB2_27-.Lframes_JTI2_0
	.long	.Lframes_BB2_50-.Lframes_JTI2_0
	.long	.Lframes_BB2_20-.Lframes_JTI2_0
	.long	.Lframes_BB2_48-.Lframes_JTI2_0
	.long	.Lframes_BB2_49-.Lframes_JTI2_0
	.long	.Lframes_BB2_44-.Lframes_JTI2_0
	.long	.Lframes_BB2_34-.Lframes_JTI2_0

	.section	.rodata.cst16,"aM",@progbits,16
	.p2align	4, 0x0
.Lframes_CPI3_0:
	.long	0xc3889333
	.long	0xc3889333
	.long	0xc3889333
	.long	0xc3889333
	.section	.text.frames.pixels.degrees_block,"ax",@progbits
	.p2align	4
	.type	loamchalice.frames.pixels.degrees_block,@function
loamchalice.frames.pixels.degrees_block:
	pushq	%rbx
	movq	%rsi, %rbx
	callq	loamchalice.frames.roots.fourth_roots
	movaps	.Lframes_CPI3_0(%rip), %xmm0
	movups	(%rbx), %xmm1
	movups	16(%rbx), %xmm2
	movups	32(%rbx), %xmm3
	movups	48(%rbx), %xmm4
	addps	%xmm0, %xmm1
	movups	%xmm1, (%rbx)
	addps	%xmm0, %xmm2
	movups	%xmm2, 16(%rbx)
	addps	%xmm0, %xmm3
	movups	%xmm3, 32(%rbx)
	addps	%xmm0, %xmm4
	movups	%xmm4, 48(%rbx)
	movups	64(%rbx), %xmm1
	addps	%xmm0, %xmm1
	movups	%xmm1, 64(%rbx)
	movups	80(%rbx), %xmm1
	addps	%xmm0, %xmm1
	movups	%xmm1, 80(%rbx)
	movups	96(%rbx), %xmm1
	addps	%xmm0, %xmm1
	movups	%xmm1, 96(%rbx)
	movups	112(%rbx), %xmm1
	addps	%xmm0, %xmm1
	movups	%xmm1, 112(%rbx)
	popq	%rbx
	retq
.Lframes_func_end3:
	.size	loamchalice.frames.pixels.degrees_block, .Lframes_func_end3-loamchalice.frames.pixels.degrees_block

	.section	.rodata.cst4,"aM",@progbits,4
	.p2align	2, 0x0
.Lframes_CPI4_0:
	.long	0x3f800000
.Lframes_CPI4_1:
	.long	0x48800000
.Lframes_CPI4_2:
	.long	0x41c80000
.Lframes_CPI4_3:
	.long	0xc1c80000
.Lframes_CPI4_6:
	.long	0x43889333
.Lframes_CPI4_7:
	.long	0xc3889333
	.section	.rodata.cst16,"aM",@progbits,16
	.p2align	4, 0x0
.Lframes_CPI4_4:
	.long	0x80000000
	.long	0xc0533333
	.zero	4
	.zero	4
.Lframes_CPI4_5:
	.long	0x00000000
	.long	0x3f800000
	.zero	4
	.zero	4
	.section	.text.frames.calculations.from_pixels,"ax",@progbits
	.p2align	4
	.type	loamchalice.frames.calculations.from_pixels,@function
loamchalice.frames.calculations.from_pixels:
	pushq	%rbp
	pushq	%r15
	pushq	%r14
	pushq	%r13
	pushq	%r12
	pushq	%rbx
	subq	$504, %rsp
	movq	616(%rsp), %r12
	movq	600(%rsp), %r10
	movq	568(%rsp), %r11
	cmpq	%r11, %r9
	movq	%r11, %rax
	cmovbq	%r9, %rax
	cmpq	%r12, %r10
	cmovbq	%r10, %r12
	cmpq	%r12, %rax
	cmovbq	%rax, %r12
	xorl	%r10d, %r10d
	cmpq	$192, %r9
	movl	$192, %eax
	movl	$192, %r9d
	cmovbq	%r10, %r9
	cmpq	$192, %r11
	cmovbq	%r10, %rax
	cmpb	$0, 42(%rdx)
	je	.Lframes_BB4_2
	movq	560(%rsp), %r8
	movq	%rax, %r9
.Lframes_BB4_2:
	movq	%r8, 64(%rsp)
	movzbl	100(%rsi), %eax
	movq	664(%rsp), %r8
	movq	648(%rsp), %r14
	movzwl	(%rsi), %r10d
	movswl	2(%rsi), %r11d
	movss	8(%rsi), %xmm11
	movss	12(%rsi), %xmm10
	movss	16(%rsi), %xmm12
	movss	20(%rsi), %xmm14
	movss	24(%rsi), %xmm3
	movss	28(%rsi), %xmm4
	movss	84(%rsi), %xmm5
	movzwl	88(%rsi), %ebx
	movw	%bx, 30(%rsp)
	movss	92(%rsi), %xmm9
	movss	96(%rsi), %xmm8
	movss	104(%rsi), %xmm6
	movss	(%rdx), %xmm1
	movss	%xmm1, 8(%rsp)
	movss	4(%rdx), %xmm13
	movss	8(%rdx), %xmm2
	movq	16(%rdx), %rbx
	movq	%rbx, 56(%rsp)
	movzbl	24(%rdx), %ebx
	movb	%bl, 7(%rsp)
	movss	28(%rdx), %xmm7
	movzwl	32(%rdx), %ebp
	movzwl	34(%rdx), %ebx
	movswl	36(%rdx), %r15d
	movzwl	38(%rdx), %r13d
	xorps	%xmm15, %xmm15
	movaps	%xmm15, 480(%rsp)
	movaps	%xmm15, 464(%rsp)
	movaps	%xmm15, 448(%rsp)
	movaps	%xmm15, 432(%rsp)
	movaps	%xmm15, 416(%rsp)
	movaps	%xmm15, 400(%rsp)
	movaps	%xmm15, 384(%rsp)
	movaps	%xmm15, 368(%rsp)
	movups	32(%rsi), %xmm15
	movaps	%xmm15, 32(%rsp)
	movups	48(%rsi), %xmm15
	movups	64(%rsi), %xmm1
	movaps	%xmm15, 160(%rsp)
	movaps	%xmm1, 176(%rsp)
	movups	108(%rsi), %xmm1
	movups	124(%rsi), %xmm15
	movaps	%xmm1, 336(%rsp)
	movaps	%xmm15, 352(%rsp)
	movq	$0, 152(%rsp)
	movzbl	%cl, %edx
	cmpb	$2, %dl
	je	.Lframes_BB4_17
	cmpl	$1, %edx
	jne	.Lframes_BB4_48
	movq	584(%rsp), %rsi
	cmpq	%r12, %rsi
	cmovbq	%rsi, %r12
	movl	$1, %esi
	cmpq	$192, %r12
	jb	.Lframes_BB4_49
	movb	%al, 12(%rsp)
	movl	$11, %r12d
	movq	632(%rsp), %rax
	cmpq	$384, %rax
	jb	.Lframes_BB4_53
	cmpq	$192, %r8
	jb	.Lframes_BB4_51
	cmpq	$192, %r14
	jb	.Lframes_BB4_56
	movl	$6, %r12d
	movq	56(%rsp), %r8
	cmpq	$7, %r8
	ja	.Lframes_BB4_51
	jmp	.Lframes_BB4_9
.Lframes_BB4_17:
	movq	584(%rsp), %rsi
	cmpq	%r12, %rsi
	cmovbq	%rsi, %r12
	movl	$1, %esi
	cmpq	$192, %r12
	jb	.Lframes_BB4_49
	movb	%al, 12(%rsp)
	movl	$11, %r12d
	movq	632(%rsp), %rax
	cmpq	$384, %rax
	jb	.Lframes_BB4_53
	cmpq	$192, %r8
	jb	.Lframes_BB4_51
	cmpq	$192, %r14
	jb	.Lframes_BB4_56
	movl	$6, %r12d
	movq	56(%rsp), %r8
	cmpq	$7, %r8
	ja	.Lframes_BB4_51
	subl	%r11d, %r15d
	movswl	%r15w, %eax
	cmpl	%r15d, %eax
	jne	.Lframes_BB4_58
	movswl	%r10w, %eax
	xorps	%xmm15, %xmm15
	cvtsi2ss	%eax, %xmm15
	xorps	%xmm1, %xmm1
	movl	$8, %r12d
	movss	%xmm1, (%rsp)
	ucomiss	%xmm1, %xmm15
	jne	.Lframes_BB4_24
	jnp	.Lframes_BB4_50
.Lframes_BB4_24:
	movswl	%r13w, %eax
	xorps	%xmm1, %xmm1
	cvtsi2ss	%eax, %xmm1
	xorl	%r8d, %r8d
	ucomiss	(%rsp), %xmm1
	jne	.Lframes_BB4_25
	jnp	.Lframes_BB4_51
.Lframes_BB4_25:
	movss	%xmm1, 24(%rsp)
	movaps	%xmm10, %xmm1
	ucomiss	(%rsp), %xmm1
	jne	.Lframes_BB4_26
	jnp	.Lframes_BB4_51
.Lframes_BB4_26:
	xorps	%xmm1, %xmm1
	cvtsi2ss	%r15d, %xmm1
	divss	%xmm15, %xmm1
	movaps	%xmm1, %xmm15
	mulss	%xmm1, %xmm11
	addss	.Lframes_CPI4_0(%rip), %xmm11
	movaps	%xmm11, %xmm1
	ucomiss	(%rsp), %xmm1
	jne	.Lframes_BB4_27
	jnp	.Lframes_BB4_50
.Lframes_BB4_27:
	movss	%xmm15, 20(%rsp)
	movswl	%bx, %eax
	xorps	%xmm15, %xmm15
	cvtsi2ss	%eax, %xmm15
	mulss	%xmm15, %xmm14
	movswl	%bp, %eax
	xorps	%xmm1, %xmm1
	cvtsi2ss	%eax, %xmm1
	addss	%xmm14, %xmm1
	movaps	%xmm1, %xmm14
	ucomiss	(%rsp), %xmm1
	jne	.Lframes_BB4_28
	jnp	.Lframes_BB4_50
.Lframes_BB4_28:
	movss	%xmm14, 16(%rsp)
	movss	8(%rsp), %xmm14
	xorl	%r8d, %r8d
	ucomiss	(%rsp), %xmm14
	jne	.Lframes_BB4_29
	jnp	.Lframes_BB4_51
.Lframes_BB4_29:
	ucomiss	%xmm14, %xmm14
	jp	.Lframes_BB4_51
	movzwl	34(%rsp), %eax
	movl	$13, %r12d
	cmpw	32(%rsp), %ax
	jle	.Lframes_BB4_68
	movzwl	36(%rsp), %r10d
	movl	$2, %r8d
	cmpw	%ax, %r10w
	jle	.Lframes_BB4_51
	movzwl	38(%rsp), %eax
	movl	$3, %r8d
	cmpw	%r10w, %ax
	jle	.Lframes_BB4_51
	movzwl	40(%rsp), %r10d
	movl	$4, %r8d
	cmpw	%ax, %r10w
	jle	.Lframes_BB4_51
	movzwl	42(%rsp), %eax
	movl	$5, %r8d
	cmpw	%r10w, %ax
	jle	.Lframes_BB4_51
	movzwl	44(%rsp), %r10d
	movl	$6, %r8d
	cmpw	%ax, %r10w
	jle	.Lframes_BB4_51
	movaps	%xmm15, %xmm1
	movl	$7, %r8d
	cmpw	%r10w, 46(%rsp)
	movq	632(%rsp), %r10
	movss	8(%rsp), %xmm15
	movzbl	12(%rsp), %eax
	jle	.Lframes_BB4_51
	jmp	.Lframes_BB4_37
.Lframes_BB4_48:
	movl	$1, %esi
	cmpq	$192, %r12
	jae	.Lframes_BB4_52
.Lframes_BB4_49:
	movl	$2, %r12d
.Lframes_BB4_50:
	xorl	%r8d, %r8d
	jmp	.Lframes_BB4_51
.Lframes_BB4_52:
	movb	%al, 12(%rsp)
	movl	$11, %r12d
	movq	632(%rsp), %rax
	cmpq	$384, %rax
	jae	.Lframes_BB4_54
.Lframes_BB4_53:
	movq	%rax, %r8
.Lframes_BB4_51:
	movq	%rsi, (%rdi)
	movl	%r12d, 8(%rdi)
	movl	$0, 12(%rdi)
	movq	%r8, 16(%rdi)
	movw	$0, 24(%rdi)
	addq	$504, %rsp
	popq	%rbx
	popq	%r12
	popq	%r13
	popq	%r14
	popq	%r15
	popq	%rbp
	retq
.Lframes_BB4_54:
	cmpq	$192, %r8
	jb	.Lframes_BB4_51
	cmpq	$192, %r14
	jae	.Lframes_BB4_9
.Lframes_BB4_56:
	movq	%r14, %r8
	jmp	.Lframes_BB4_51
.Lframes_BB4_9:
	subl	%r11d, %r15d
	movswl	%r15w, %eax
	cmpl	%r15d, %eax
	je	.Lframes_BB4_10
.Lframes_BB4_58:
	movl	$7, %r12d
	jmp	.Lframes_BB4_50
.Lframes_BB4_10:
	movswl	%r10w, %eax
	xorps	%xmm15, %xmm15
	cvtsi2ss	%eax, %xmm15
	xorps	%xmm1, %xmm1
	movl	$8, %r12d
	movss	%xmm1, (%rsp)
	ucomiss	%xmm1, %xmm15
	jne	.Lframes_BB4_11
	jnp	.Lframes_BB4_50
.Lframes_BB4_11:
	movswl	%r13w, %eax
	xorps	%xmm1, %xmm1
	cvtsi2ss	%eax, %xmm1
	xorl	%r8d, %r8d
	ucomiss	(%rsp), %xmm1
	jne	.Lframes_BB4_12
	jnp	.Lframes_BB4_51
.Lframes_BB4_12:
	movss	%xmm1, 24(%rsp)
	movaps	%xmm10, %xmm1
	ucomiss	(%rsp), %xmm1
	jne	.Lframes_BB4_13
	jnp	.Lframes_BB4_51
.Lframes_BB4_13:
	xorps	%xmm1, %xmm1
	cvtsi2ss	%r15d, %xmm1
	divss	%xmm15, %xmm1
	movaps	%xmm1, %xmm15
	mulss	%xmm1, %xmm11
	addss	.Lframes_CPI4_0(%rip), %xmm11
	movaps	%xmm11, %xmm1
	ucomiss	(%rsp), %xmm1
	jne	.Lframes_BB4_14
	jnp	.Lframes_BB4_50
.Lframes_BB4_14:
	movss	%xmm15, 20(%rsp)
	movswl	%bx, %eax
	xorps	%xmm15, %xmm15
	cvtsi2ss	%eax, %xmm15
	mulss	%xmm15, %xmm14
	movswl	%bp, %eax
	xorps	%xmm1, %xmm1
	cvtsi2ss	%eax, %xmm1
	addss	%xmm14, %xmm1
	movaps	%xmm1, %xmm14
	ucomiss	(%rsp), %xmm1
	jne	.Lframes_BB4_15
	jnp	.Lframes_BB4_50
.Lframes_BB4_15:
	movss	%xmm14, 16(%rsp)
	movaps	%xmm15, %xmm1
	movss	8(%rsp), %xmm15
	movaps	%xmm15, %xmm14
	xorl	%r8d, %r8d
	ucomiss	(%rsp), %xmm14
	jne	.Lframes_BB4_16
	jnp	.Lframes_BB4_51
.Lframes_BB4_16:
	ucomiss	%xmm14, %xmm14
	movq	632(%rsp), %r10
	movzbl	12(%rsp), %eax
	jp	.Lframes_BB4_51
.Lframes_BB4_37:
	mulss	20(%rsp), %xmm13
	divss	16(%rsp), %xmm1
	mulss	.Lframes_CPI4_1(%rip), %xmm1
	divss	%xmm11, %xmm1
	subss	%xmm12, %xmm1
	divss	24(%rsp), %xmm3
	divss	%xmm10, %xmm1
	addss	.Lframes_CPI4_2(%rip), %xmm1
	movaps	%xmm1, %xmm14
	addss	%xmm13, %xmm2
	xorps	%xmm11, %xmm11
	xorps	%xmm10, %xmm10
	movl	%eax, %r11d
	cmpb	$1, %al
	jne	.Lframes_BB4_39
	movswl	30(%rsp), %eax
	xorps	%xmm1, %xmm1
	cvtsi2ss	%eax, %xmm1
	movss	.Lframes_CPI4_3(%rip), %xmm10
	addss	%xmm14, %xmm10
	mulss	%xmm10, %xmm8
	addss	.Lframes_CPI4_0(%rip), %xmm8
	movaps	%xmm3, %xmm10
	unpcklps	%xmm2, %xmm10
	addps	.Lframes_CPI4_4(%rip), %xmm10
	unpcklps	%xmm9, %xmm0
	mulps	%xmm10, %xmm0
	addps	.Lframes_CPI4_5(%rip), %xmm0
	mulss	%xmm1, %xmm8
	movaps	%xmm0, %xmm1
	shufps	$85, %xmm0, %xmm1
	mulss	%xmm8, %xmm1
	subss	%xmm1, %xmm0
	divss	%xmm15, %xmm0
	mulss	%xmm6, %xmm0
	movaps	%xmm0, %xmm10
.Lframes_BB4_39:
	movq	%rdi, %r14
	movq	656(%rsp), %rax
	movq	640(%rsp), %rsi
	movq	624(%rsp), %rbp
	movq	608(%rsp), %r12
	movq	592(%rsp), %rbx
	movq	576(%rsp), %rdi
	movzbl	%r11b, %r15d
	xorps	%xmm9, %xmm9
	xorps	%xmm0, %xmm0
	xorps	%xmm8, %xmm8
	xorps	%xmm12, %xmm12
	movl	%edx, %r8d
	testb	%cl, %cl
	je	.Lframes_BB4_67
	movss	.Lframes_CPI4_6(%rip), %xmm0
	cmpl	$2, %edx
	jne	.Lframes_BB4_59
	addss	%xmm14, %xmm0
	mulss	%xmm0, %xmm0
	mulss	%xmm0, %xmm0
	movaps	%xmm15, %xmm1
	movss	.Lframes_CPI4_0(%rip), %xmm9
	movaps	%xmm9, %xmm8
	ucomiss	%xmm8, %xmm1
	jne	.Lframes_BB4_42
	jnp	.Lframes_BB4_45
.Lframes_BB4_42:
	cmpb	$0, 7(%rsp)
	je	.Lframes_BB4_44
	movaps	%xmm14, %xmm1
	subss	%xmm7, %xmm1
	movaps	%xmm1, %xmm7
.Lframes_BB4_44:
	addss	.Lframes_CPI4_6(%rip), %xmm7
	mulss	%xmm7, %xmm7
	mulss	%xmm7, %xmm7
	movaps	%xmm7, %xmm1
	subss	%xmm0, %xmm1
	divss	8(%rsp), %xmm1
	subss	%xmm1, %xmm7
	movaps	%xmm7, %xmm0
.Lframes_BB4_45:
	movq	56(%rsp), %rcx
	movss	160(%rsp,%rcx,4), %xmm8
	movss	.Lframes_CPI4_3(%rip), %xmm1
	addss	%xmm14, %xmm1
	mulss	%xmm1, %xmm4
	cmpb	$1, %r11b
	jne	.Lframes_BB4_47
	mulss	%xmm6, %xmm5
	movaps	%xmm5, %xmm11
.Lframes_BB4_47:
	addss	%xmm9, %xmm4
	movss	.Lframes_CPI4_7(%rip), %xmm12
	mulss	%xmm8, %xmm12
	addss	%xmm9, %xmm12
	movl	$8, %r8d
	jmp	.Lframes_BB4_66
.Lframes_BB4_59:
	addss	%xmm14, %xmm0
	mulss	%xmm0, %xmm0
	mulss	%xmm0, %xmm0
	movaps	%xmm15, %xmm1
	movss	.Lframes_CPI4_0(%rip), %xmm9
	movaps	%xmm9, %xmm8
	ucomiss	%xmm8, %xmm1
	jne	.Lframes_BB4_60
	jnp	.Lframes_BB4_63
.Lframes_BB4_60:
	cmpb	$0, 7(%rsp)
	je	.Lframes_BB4_62
	movaps	%xmm14, %xmm1
	subss	%xmm7, %xmm1
	movaps	%xmm1, %xmm7
.Lframes_BB4_62:
	addss	.Lframes_CPI4_6(%rip), %xmm7
	mulss	%xmm7, %xmm7
	mulss	%xmm7, %xmm7
	movaps	%xmm7, %xmm1
	subss	%xmm0, %xmm1
	divss	8(%rsp), %xmm1
	subss	%xmm1, %xmm7
	movaps	%xmm7, %xmm0
.Lframes_BB4_63:
	movq	56(%rsp), %rcx
	movss	160(%rsp,%rcx,4), %xmm8
	movss	.Lframes_CPI4_3(%rip), %xmm1
	addss	%xmm14, %xmm1
	mulss	%xmm1, %xmm4
	cmpb	$1, %r11b
	jne	.Lframes_BB4_65
	mulss	%xmm6, %xmm5
	movaps	%xmm5, %xmm11
.Lframes_BB4_65:
	addss	%xmm9, %xmm4
	movss	.Lframes_CPI4_7(%rip), %xmm12
	mulss	%xmm8, %xmm12
	addss	%xmm9, %xmm12
	xorl	%r8d, %r8d
.Lframes_BB4_66:
	movl	%r11d, %ecx
	movaps	%xmm4, %xmm9
	movss	8(%rsp), %xmm15
.Lframes_BB4_67:
	movzbl	%cl, %ecx
	movq	$6, 72(%rsp)
	movq	$6, 80(%rsp)
	movq	$1, 88(%rsp)
	movl	$0, 96(%rsp)
	movss	%xmm3, 100(%rsp)
	movss	%xmm2, 104(%rsp)
	movss	%xmm15, 108(%rsp)
	movss	%xmm14, 12(%rsp)
	movss	%xmm14, 112(%rsp)
	movl	%r15d, 116(%rsp)
	movss	%xmm10, 120(%rsp)
	movl	%edx, 124(%rsp)
	movl	%ecx, 128(%rsp)
	movss	%xmm11, 132(%rsp)
	movss	%xmm9, 136(%rsp)
	movss	%xmm0, 140(%rsp)
	movss	%xmm8, 144(%rsp)
	movss	%xmm12, 148(%rsp)
	movl	%r8d, 152(%rsp)
	movq	%rbp, 256(%rsp)
	movq	%r10, 264(%rsp)
	movq	64(%rsp), %rcx
	movq	%rcx, 272(%rsp)
	movq	%r9, 280(%rsp)
	movq	%r12, 288(%rsp)
	movq	616(%rsp), %rcx
	movq	%rcx, 296(%rsp)
	movq	%rbx, 304(%rsp)
	movq	600(%rsp), %rcx
	movq	%rcx, 312(%rsp)
	leaq	368(%rsp), %rcx
	movq	%rcx, 320(%rsp)
	movq	$32, 328(%rsp)
	movq	%rdi, 192(%rsp)
	movq	584(%rsp), %rcx
	movq	%rcx, 200(%rsp)
	leaq	32(%rsp), %rcx
	movq	%rcx, 208(%rsp)
	movq	$8, 216(%rsp)
	leaq	160(%rsp), %rcx
	movq	%rcx, 224(%rsp)
	movq	$8, 232(%rsp)
	leaq	336(%rsp), %rcx
	movq	%rcx, 240(%rsp)
	movq	$8, 248(%rsp)
	leaq	72(%rsp), %rdi
	leaq	256(%rsp), %rdx
	leaq	192(%rsp), %rcx
	movq	%rax, %r8
	callq	loamchalice.frames.pixels.frame_pixels
	movq	%rax, %r8
	movd	12(%rsp), %xmm0
	movd	%xmm0, %ecx
	ucomiss	%xmm0, %xmm0
	movl	$2143289344, %r12d
	cmovnpl	%ecx, %r12d
	xorl	%esi, %esi
	movq	%r14, %rdi
	jmp	.Lframes_BB4_51
.Lframes_BB4_68:
	movl	$1, %r8d
	jmp	.Lframes_BB4_51
.Lframes_func_end4:
	.size	loamchalice.frames.calculations.from_pixels, .Lframes_func_end4-loamchalice.frames.calculations.from_pixels

	.section	.rodata.cst4,"aM",@progbits,4
	.p2align	2, 0x0
.Lframes_CPI5_0:
	.long	0x43889333
.Lframes_CPI5_1:
	.long	0x3f800000
.Lframes_CPI5_2:
	.long	0xc1c80000
.Lframes_CPI5_3:
	.long	0xc3889333
	.section	.text.loamchalice_raw_ir_to_temperatures,"ax",@progbits
	.globl	loamchalice_raw_ir_to_temperatures
	.p2align	4
	.type	loamchalice_raw_ir_to_temperatures,@function
loamchalice_raw_ir_to_temperatures:
	pushq	%rbp
	pushq	%r15
	pushq	%r14
	pushq	%r13
	pushq	%r12
	pushq	%rbx
	subq	$296, %rsp
	movq	%rdi, %rax
	testq	%rsi, %rsi
	sete	%bpl
	xorl	%r14d, %r14d
	testq	%rcx, %rcx
	sete	%r10b
	xorl	%r15d, %r15d
	testq	%r9, %r9
	sete	%r13b
	movss	372(%rsp), %xmm2
	movss	380(%rsp), %xmm10
	movss	392(%rsp), %xmm1
	movzbl	451(%rsp), %r11d
	movq	488(%rsp), %rbx
	movss	496(%rsp), %xmm3
	movss	508(%rsp), %xmm6
	movss	512(%rsp), %xmm4
	movzbl	516(%rsp), %r12d
	testb	%r11b, %r11b
	setne	%dil
	movups	412(%rsp), %xmm5
	movaps	%xmm5, 272(%rsp)
	movups	396(%rsp), %xmm5
	movaps	%xmm5, 256(%rsp)
	movq	$0, 104(%rsp)
	cmpq	$192, %rdx
	jae	.Lframes_BB5_3
	xorl	%ebx, %ebx
	movl	$2, %edx
.Lframes_BB5_2:
	xorl	%ecx, %ecx
	jmp	.Lframes_BB5_7
.Lframes_BB5_3:
	movb	%dil, 13(%rsp)
	movq	520(%rsp), %rdi
	cmpq	$192, %rdi
	jb	.Lframes_BB5_6
	cmpq	$192, %r8
	jae	.Lframes_BB5_9
	movq	%r8, %rdi
.Lframes_BB5_6:
	xorl	%ecx, %ecx
	movl	$10, %edx
	movq	%rdi, %rbx
.Lframes_BB5_7:
	xorl	%esi, %esi
.Lframes_BB5_8:
	movq	%rdx, (%rax)
	movq	%rbx, 8(%rax)
	movq	$0, 16(%rax)
	movq	%rcx, 24(%rax)
	movl	%esi, 32(%rax)
	movl	$0, 36(%rax)
	addq	$296, %rsp
	popq	%rbx
	popq	%r12
	popq	%r13
	popq	%r14
	popq	%r15
	popq	%rbp
	retq
.Lframes_BB5_9:
	cmpq	$7, %rbx
	ja	.Lframes_BB5_14
	movaps	%xmm3, %xmm8
	xorps	%xmm5, %xmm5
	ucomiss	%xmm5, %xmm8
	jne	.Lframes_BB5_11
	jnp	.Lframes_BB5_15
.Lframes_BB5_11:
	ucomiss	%xmm8, %xmm8
	jp	.Lframes_BB5_15
	xorl	%edi, %edi
	movb	%bpl, %dil
	shll	$12, %edi
	movq	%rdi, %rbp
	movb	%r10b, %r14b
	shll	$12, %r14d
	movb	%r13b, %r15b
	shll	$12, %r15d
	movss	.Lframes_CPI5_0(%rip), %xmm5
	addss	%xmm0, %xmm5
	mulss	%xmm5, %xmm5
	mulss	%xmm5, %xmm5
	movss	.Lframes_CPI5_1(%rip), %xmm7
	movaps	%xmm7, %xmm9
	ucomiss	%xmm9, %xmm8
	jne	.Lframes_BB5_16
	jp	.Lframes_BB5_16
	xorl	%edi, %edi
	jmp	.Lframes_BB5_19
.Lframes_BB5_14:
	xorl	%ecx, %ecx
	movl	$6, %edx
	jmp	.Lframes_BB5_7
.Lframes_BB5_15:
	xorl	%ebx, %ebx
	movl	$8, %edx
	jmp	.Lframes_BB5_2
.Lframes_BB5_16:
	testb	%r12b, %r12b
	movl	$0, %edi
	jne	.Lframes_BB5_18
	movaps	%xmm0, %xmm4
	subss	%xmm6, %xmm4
.Lframes_BB5_18:
	addss	.Lframes_CPI5_0(%rip), %xmm4
	mulss	%xmm4, %xmm4
	mulss	%xmm4, %xmm4
	movaps	%xmm4, %xmm6
	subss	%xmm5, %xmm6
	divss	%xmm3, %xmm6
	subss	%xmm6, %xmm4
	movaps	%xmm4, %xmm5
.Lframes_BB5_19:
	addq	%rbp, %rsi
	addq	%r14, %rcx
	addq	%r15, %r9
	movzbl	13(%rsp), %r10d
	movb	%r10b, %dil
	movss	256(%rsp,%rbx,4), %xmm3
	movss	.Lframes_CPI5_2(%rip), %xmm4
	addss	%xmm0, %xmm4
	mulss	%xmm2, %xmm4
	addss	%xmm7, %xmm4
	testb	%r11b, %r11b
	movss	%xmm0, 16(%rsp)
	movq	%rax, %r14
	jne	.Lframes_BB5_21
	xorps	%xmm10, %xmm10
	jmp	.Lframes_BB5_22
.Lframes_BB5_21:
	mulss	%xmm1, %xmm10
.Lframes_BB5_22:
	movss	.Lframes_CPI5_3(%rip), %xmm1
	mulss	%xmm3, %xmm1
	addss	%xmm7, %xmm1
	movq	$6, 24(%rsp)
	xorps	%xmm2, %xmm2
	movups	%xmm2, 32(%rsp)
	movl	$1, 48(%rsp)
	movups	%xmm2, 52(%rsp)
	movq	$0, 68(%rsp)
	movl	$1, 76(%rsp)
	movl	%edi, 80(%rsp)
	movss	%xmm10, 84(%rsp)
	movss	%xmm4, 88(%rsp)
	movss	%xmm5, 92(%rsp)
	movss	%xmm3, 96(%rsp)
	movss	%xmm1, 100(%rsp)
	movl	$0, 20(%rsp)
	movw	$0, 14(%rsp)
	movq	%rcx, 176(%rsp)
	movq	%r8, 184(%rsp)
	leaq	20(%rsp), %rax
	movq	%rax, 192(%rsp)
	movq	$1, 200(%rsp)
	movq	%rsi, 208(%rsp)
	movq	%rdx, 216(%rsp)
	movq	%rsi, 224(%rsp)
	movq	%rdx, 232(%rsp)
	movq	%rsi, 240(%rsp)
	movq	%rdx, 248(%rsp)
	movq	%rsi, 112(%rsp)
	movq	%rdx, 120(%rsp)
	leaq	14(%rsp), %rax
	movq	%rax, 128(%rsp)
	movq	$1, 136(%rsp)
	leaq	256(%rsp), %rax
	movq	%rax, 144(%rsp)
	movq	$8, 152(%rsp)
	movq	%rax, 160(%rsp)
	movq	$8, 168(%rsp)
	leaq	24(%rsp), %rdi
	leaq	176(%rsp), %rdx
	leaq	112(%rsp), %rax
	movq	%rcx, %rsi
	movq	%rax, %rcx
	movq	%r9, %r8
	callq	loamchalice.frames.pixels.frame_pixels
	movq	%rax, %rcx
	movd	16(%rsp), %xmm0
	movd	%xmm0, %eax
	ucomiss	%xmm0, %xmm0
	movl	$2143289344, %esi
	cmovnpl	%eax, %esi
	xorl	%edx, %edx
	xorl	%ebx, %ebx
	movq	%r14, %rax
	jmp	.Lframes_BB5_8
.Lframes_func_end5:
	.size	loamchalice_raw_ir_to_temperatures, .Lframes_func_end5-loamchalice_raw_ir_to_temperatures

	.section	.text.loamchalice_raw_pixels_to_ir_data,"ax",@progbits
	.globl	loamchalice_raw_pixels_to_ir_data
	.p2align	4
	.type	loamchalice_raw_pixels_to_ir_data,@function
loamchalice_raw_pixels_to_ir_data:
	pushq	%rbp
	pushq	%r15
	pushq	%r14
	pushq	%r13
	pushq	%r12
	pushq	%rbx
	subq	$376, %rsp
	movq	%r8, 128(%rsp)
	movq	%rdx, 136(%rsp)
	movq	%rdi, 120(%rsp)
	movq	672(%rsp), %r13
	movq	656(%rsp), %rdi
	movq	640(%rsp), %rdx
	movq	624(%rsp), %r8
	xorl	%eax, %eax
	testq	%rsi, %rsi
	sete	%al
	shll	$12, %eax
	addq	%rsi, %rax
	xorl	%esi, %esi
	testq	%rcx, %rcx
	sete	%sil
	shll	$12, %esi
	addq	%rcx, %rsi
	xorl	%ecx, %ecx
	testq	%r9, %r9
	sete	%cl
	shll	$12, %ecx
	addq	%r9, %rcx
	xorl	%r9d, %r9d
	testq	%r8, %r8
	sete	%r9b
	shll	$12, %r9d
	addq	%r8, %r9
	xorl	%r14d, %r14d
	testq	%rdx, %rdx
	sete	%r14b
	shll	$12, %r14d
	addq	%rdx, %r14
	xorl	%r15d, %r15d
	testq	%rdi, %rdi
	sete	%r15b
	shll	$12, %r15d
	addq	%rdi, %r15
	xorl	%r12d, %r12d
	testq	%r13, %r13
	sete	%r12b
	shll	$12, %r12d
	addq	%r13, %r12
	movzbl	530(%rsp), %r10d
	movss	584(%rsp), %xmm0
	xorl	%edx, %edx
	cmpb	$0, 531(%rsp)
	setne	%bpl
	movzwl	528(%rsp), %r13d
	movq	568(%rsp), %r11
	leaq	588(%rsp), %rbx
	leaq	592(%rsp), %r8
	movswl	608(%rsp), %edi
	jne	.Lframes_BB6_2
	xorps	%xmm1, %xmm1
	jmp	.Lframes_BB6_3
.Lframes_BB6_2:
	movss	472(%rsp), %xmm1
.Lframes_BB6_3:
	movb	%bpl, %dl
	xorl	%ebp, %ebp
	cmpb	$0, 596(%rsp)
	cmoveq	%rbx, %r8
	sete	%bpl
	movss	(%r8), %xmm2
	cmpb	$0, 610(%rsp)
	movups	508(%rsp), %xmm3
	movups	%xmm3, 268(%rsp)
	movups	476(%rsp), %xmm3
	movups	%xmm3, 284(%rsp)
	movups	492(%rsp), %xmm3
	movups	%xmm3, 300(%rsp)
	movups	532(%rsp), %xmm3
	movups	548(%rsp), %xmm4
	movups	%xmm3, 344(%rsp)
	movups	%xmm4, 360(%rsp)
	movl	524(%rsp), %r8d
	movl	%r8d, 236(%rsp)
	movb	%r10b, 240(%rsp)
	movw	$0, 241(%rsp)
	movb	$0, 243(%rsp)
	movaps	432(%rsp), %xmm3
	movups	%xmm3, 244(%rsp)
	movsd	448(%rsp), %xmm3
	movsd	%xmm3, 260(%rsp)
	movsd	456(%rsp), %xmm3
	movsd	%xmm3, 316(%rsp)
	movw	%r13w, 324(%rsp)
	movw	$0, 326(%rsp)
	movsd	464(%rsp), %xmm3
	movsd	%xmm3, 328(%rsp)
	movl	%edx, 336(%rsp)
	movss	%xmm1, 340(%rsp)
	movsd	576(%rsp), %xmm1
	movsd	%xmm1, 144(%rsp)
	movss	%xmm0, 152(%rsp)
	movl	$0, 156(%rsp)
	movq	%r11, 160(%rsp)
	movl	%ebp, 168(%rsp)
	movss	%xmm2, 172(%rsp)
	movq	600(%rsp), %rdx
	movq	%rdx, 176(%rsp)
	movw	%di, 184(%rsp)
	setne	186(%rsp)
	movb	$0, 191(%rsp)
	movl	$0, 187(%rsp)
	xorps	%xmm0, %xmm0
	movaps	%xmm0, 208(%rsp)
	movaps	%xmm0, 192(%rsp)
	xorps	%xmm0, %xmm0
	cvtsi2ss	%edi, %xmm0
	movq	680(%rsp), %rdx
	movq	%rdx, 104(%rsp)
	movq	%r12, 96(%rsp)
	movq	664(%rsp), %rdx
	movq	%rdx, 88(%rsp)
	movq	%r15, 80(%rsp)
	movq	648(%rsp), %rdx
	movq	%rdx, 72(%rsp)
	movq	%r14, 64(%rsp)
	movq	632(%rsp), %rdx
	movq	%rdx, 56(%rsp)
	movq	%r9, 48(%rsp)
	movq	616(%rsp), %rdi
	movq	%rdi, 40(%rsp)
	movq	%rcx, 32(%rsp)
	movq	%rdx, 24(%rsp)
	movq	%r9, 16(%rsp)
	movq	128(%rsp), %rcx
	movq	%rcx, 8(%rsp)
	movq	%rsi, (%rsp)
	leaq	192(%rsp), %rdi
	leaq	236(%rsp), %rsi
	leaq	144(%rsp), %rdx
	xorl	%r14d, %r14d
	xorl	%ecx, %ecx
	movq	%rax, %r8
	movq	136(%rsp), %r9
	callq	loamchalice.frames.calculations.from_pixels
	movl	200(%rsp), %esi
	movq	208(%rsp), %rcx
	cmpb	$0, 192(%rsp)
	je	.Lframes_BB6_6
	movzwl	216(%rsp), %edx
	movl	%esi, %edi
	shrl	$16, %edi
	xorl	%r9d, %r9d
	movzbl	%sil, %esi
	leaq	.Lframes_JTI6_0(%rip), %r8
	movslq	(%r8,%rsi,4), %rsi
	addq	%r8, %rsi
	jmpq	*%rsi
.Lframes_BB6_5:
	movl	$1, %r14d
	jmp	.Lframes_BB6_22
.Lframes_BB6_6:
	xorl	%edi, %edi
	xorl	%edx, %edx
	movl	%esi, %r9d
	movq	120(%rsp), %rax
	jmp	.Lframes_BB6_24
.Lframes_BB6_7:
	movl	$13, %r14d
	jmp	.Lframes_BB6_22
.Lframes_BB6_8:
	movl	$10, %r14d
	jmp	.Lframes_BB6_22
.Lframes_BB6_9:
	movl	$4, %r14d
	xorl	%edx, %edx
	movq	%rdi, %rcx
	jmp	.Lframes_BB6_23
.Lframes_BB6_10:
	movl	$11, %r14d
	jmp	.Lframes_BB6_22
.Lframes_BB6_11:
	movl	%edi, %ecx
	movl	$9, %r14d
	jmp	.Lframes_BB6_22
.Lframes_BB6_12:
	movl	$2, %r14d
	jmp	.Lframes_BB6_21
.Lframes_BB6_13:
	movl	$14, %r14d
	jmp	.Lframes_BB6_22
.Lframes_BB6_14:
	movl	$3, %r14d
	jmp	.Lframes_BB6_23
.Lframes_BB6_15:
	movl	$7, %r14d
	jmp	.Lframes_BB6_21
.Lframes_BB6_16:
	movl	$5, %r14d
	jmp	.Lframes_BB6_22
.Lframes_BB6_17:
	movl	$12, %r14d
	jmp	.Lframes_BB6_22
.Lframes_BB6_18:
	movl	$6, %r14d
	jmp	.Lframes_BB6_22
.Lframes_BB6_19:
	movl	$9, %r14d
	jmp	.Lframes_BB6_23
.Lframes_BB6_20:
	movl	$8, %r14d
.Lframes_BB6_21:
	xorl	%ecx, %ecx
.Lframes_BB6_22:
	xorl	%edx, %edx
.Lframes_BB6_23:
	movq	120(%rsp), %rax
	movzwl	%dx, %edx
	movq	%rcx, %rdi
	xorl	%ecx, %ecx
.Lframes_BB6_24:
	movq	%r14, (%rax)
	movq	%rdi, 8(%rax)
	movq	%rdx, 16(%rax)
	movq	%rcx, 24(%rax)
	movl	%r9d, 32(%rax)
	movl	$0, 36(%rax)
	addq	$376, %rsp
	popq	%rbx
	popq	%r12
	popq	%r13
	popq	%r14
	popq	%r15
	popq	%rbp
	retq
.Lframes_func_end6:
	.size	loamchalice_raw_pixels_to_ir_data, .Lframes_func_end6-loamchalice_raw_pixels_to_ir_data
	.section	.rodata.loamchalice_raw_pixels_to_ir_data,"a",@progbits
	.p2align	2, 0x0
.Lframes_JTI6_0:
	.long	.Lframes_BB6_5-.Lframes_JTI6_0
	.long	.Lframes_BB6_5-.Lframes_JTI6_0
	.long	.Lframes_BB6_12-.Lframes_JTI6_0
	.long	.Lframes_BB6_14-.Lframes_JTI6_0
	.long	.Lframes_BB6_9-.Lframes_JTI6_0
	.long	.Lframes_BB6_16-.Lframes_JTI6_0
	.long	.Lframes_BB6_18-.Lframes_JTI6_0
	.long	.Lframes_BB6_15-.Lframes_JTI6_0
	.long	.Lframes_BB6_20-.Lframes_JTI6_0
	.long	.Lframes_BB6_11-.Lframes_JTI6_0
	.long	.Lframes_BB6_19-.Lframes_JTI6_0
	.long	.Lframes_BB6_8-.Lframes_JTI6_0
	.long	.Lframes_BB6_10-.Lframes_JTI6_0
	.long	.Lframes_BB6_17-.Lframes_JTI6_0
	.long	.Lframes_BB6_7-.Lframes_JTI6_0
	.long	.Lframes_BB6_13-.Lframes_JTI6_0

	.section	.text.loamchalice_raw_pixels_to_ranged_temperatures,"ax",@progbits
	.globl	loamchalice_raw_pixels_to_ranged_temperatures
	.p2align	4
	.type	loamchalice_raw_pixels_to_ranged_temperatures,@function
loamchalice_raw_pixels_to_ranged_temperatures:
	pushq	%rbp
	pushq	%r15
	pushq	%r14
	pushq	%r13
	pushq	%r12
	pushq	%rbx
	subq	$376, %rsp
	movq	%r8, 128(%rsp)
	movq	%rdx, 136(%rsp)
	movq	%rdi, 112(%rsp)
	movq	688(%rsp), %r13
	movq	672(%rsp), %rdx
	movq	656(%rsp), %rdi
	movq	640(%rsp), %r8
	movq	624(%rsp), %r10
	xorl	%eax, %eax
	testq	%rsi, %rsi
	sete	%al
	shll	$12, %eax
	addq	%rsi, %rax
	xorl	%esi, %esi
	testq	%rcx, %rcx
	sete	%sil
	shll	$12, %esi
	addq	%rcx, %rsi
	xorl	%ecx, %ecx
	testq	%r9, %r9
	sete	%cl
	shll	$12, %ecx
	addq	%r9, %rcx
	xorl	%r9d, %r9d
	testq	%r10, %r10
	sete	%r9b
	shll	$12, %r9d
	addq	%r10, %r9
	xorl	%r11d, %r11d
	testq	%r8, %r8
	sete	%r11b
	shll	$12, %r11d
	addq	%r8, %r11
	xorl	%r14d, %r14d
	testq	%rdi, %rdi
	sete	%r14b
	shll	$12, %r14d
	addq	%rdi, %r14
	xorl	%r15d, %r15d
	testq	%rdx, %rdx
	sete	%r15b
	shll	$12, %r15d
	addq	%rdx, %r15
	xorl	%r12d, %r12d
	testq	%r13, %r13
	sete	%r12b
	shll	$12, %r12d
	addq	%r13, %r12
	movzbl	530(%rsp), %ebp
	movss	584(%rsp), %xmm0
	xorl	%r13d, %r13d
	cmpb	$0, 531(%rsp)
	setne	%dil
	movzwl	528(%rsp), %edx
	movq	568(%rsp), %r8
	movq	%r8, 120(%rsp)
	leaq	592(%rsp), %rbx
	movswl	608(%rsp), %r10d
	jne	.Lframes_BB7_2
	xorps	%xmm1, %xmm1
	jmp	.Lframes_BB7_3
.Lframes_BB7_2:
	movss	472(%rsp), %xmm1
.Lframes_BB7_3:
	movb	%dil, %r13b
	xorl	%edi, %edi
	cmpb	$0, 596(%rsp)
	leaq	588(%rsp), %r8
	cmoveq	%r8, %rbx
	sete	%dil
	movss	(%rbx), %xmm2
	cmpb	$0, 610(%rsp)
	movups	508(%rsp), %xmm3
	movups	%xmm3, 268(%rsp)
	movups	476(%rsp), %xmm3
	movups	%xmm3, 284(%rsp)
	movups	492(%rsp), %xmm3
	movups	%xmm3, 300(%rsp)
	movups	532(%rsp), %xmm3
	movups	548(%rsp), %xmm4
	movups	%xmm3, 344(%rsp)
	movups	%xmm4, 360(%rsp)
	movl	524(%rsp), %ebx
	movl	%ebx, 236(%rsp)
	movb	%bpl, 240(%rsp)
	movw	$0, 241(%rsp)
	movb	$0, 243(%rsp)
	movaps	432(%rsp), %xmm3
	movups	%xmm3, 244(%rsp)
	movsd	448(%rsp), %xmm3
	movsd	%xmm3, 260(%rsp)
	movsd	456(%rsp), %xmm3
	movsd	%xmm3, 316(%rsp)
	movw	%dx, 324(%rsp)
	movw	$0, 326(%rsp)
	movsd	464(%rsp), %xmm3
	movsd	%xmm3, 328(%rsp)
	movl	%r13d, 336(%rsp)
	movss	%xmm1, 340(%rsp)
	movsd	576(%rsp), %xmm1
	movsd	%xmm1, 144(%rsp)
	movss	%xmm0, 152(%rsp)
	movl	$0, 156(%rsp)
	movq	120(%rsp), %rdx
	movq	%rdx, 160(%rsp)
	movl	%edi, 168(%rsp)
	movss	%xmm2, 172(%rsp)
	movq	600(%rsp), %rdx
	movq	%rdx, 176(%rsp)
	movw	%r10w, 184(%rsp)
	setne	186(%rsp)
	movb	$0, 191(%rsp)
	movl	$0, 187(%rsp)
	xorps	%xmm0, %xmm0
	movaps	%xmm0, 208(%rsp)
	movaps	%xmm0, 192(%rsp)
	xorps	%xmm0, %xmm0
	cvtsi2ss	%r10d, %xmm0
	movq	696(%rsp), %rdx
	movq	%rdx, 104(%rsp)
	movq	%r12, 96(%rsp)
	movq	680(%rsp), %rdx
	movq	%rdx, 88(%rsp)
	movq	%r15, 80(%rsp)
	movq	664(%rsp), %rdx
	movq	%rdx, 72(%rsp)
	movq	%r14, 64(%rsp)
	movq	648(%rsp), %rdx
	movq	%rdx, 56(%rsp)
	movq	%r11, 48(%rsp)
	movq	632(%rsp), %rdx
	movq	%rdx, 40(%rsp)
	movq	%r9, 32(%rsp)
	movq	616(%rsp), %rdx
	movq	%rdx, 24(%rsp)
	movq	%rcx, 16(%rsp)
	movq	128(%rsp), %rcx
	movq	%rcx, 8(%rsp)
	movq	%rsi, (%rsp)
	leaq	192(%rsp), %rdi
	leaq	236(%rsp), %rsi
	leaq	144(%rsp), %rdx
	movq	%rax, %r8
	movq	136(%rsp), %r9
	movl	$2, %ecx
	callq	loamchalice.frames.calculations.from_pixels
	movl	200(%rsp), %edi
	movq	208(%rsp), %rcx
	cmpb	$0, 192(%rsp)
	je	.Lframes_BB7_6
	movzwl	216(%rsp), %esi
	movl	%edi, %r8d
	shrl	$16, %r8d
	xorl	%r9d, %r9d
	movzbl	%dil, %edx
	leaq	.Lframes_JTI7_0(%rip), %rdi
	movslq	(%rdi,%rdx,4), %rdx
	addq	%rdi, %rdx
	jmpq	*%rdx
.Lframes_BB7_5:
	movl	$1, %edx
	jmp	.Lframes_BB7_22
.Lframes_BB7_6:
	xorl	%edx, %edx
	xorl	%r8d, %r8d
	xorl	%esi, %esi
	movl	%edi, %r9d
	movq	112(%rsp), %rax
	jmp	.Lframes_BB7_24
.Lframes_BB7_7:
	movl	$13, %edx
	jmp	.Lframes_BB7_22
.Lframes_BB7_8:
	movl	$10, %edx
	jmp	.Lframes_BB7_22
.Lframes_BB7_9:
	movl	$4, %edx
	xorl	%esi, %esi
	movq	%r8, %rcx
	jmp	.Lframes_BB7_23
.Lframes_BB7_10:
	movl	$11, %edx
	jmp	.Lframes_BB7_22
.Lframes_BB7_11:
	movl	%r8d, %ecx
	movl	$9, %edx
	jmp	.Lframes_BB7_22
.Lframes_BB7_12:
	movl	$2, %edx
	jmp	.Lframes_BB7_21
.Lframes_BB7_13:
	movl	$14, %edx
	jmp	.Lframes_BB7_22
.Lframes_BB7_14:
	movl	$3, %edx
	jmp	.Lframes_BB7_23
.Lframes_BB7_15:
	movl	$7, %edx
	jmp	.Lframes_BB7_21
.Lframes_BB7_16:
	movl	$5, %edx
	jmp	.Lframes_BB7_22
.Lframes_BB7_17:
	movl	$12, %edx
	jmp	.Lframes_BB7_22
.Lframes_BB7_18:
	movl	$6, %edx
	jmp	.Lframes_BB7_22
.Lframes_BB7_19:
	movl	$9, %edx
	jmp	.Lframes_BB7_23
.Lframes_BB7_20:
	movl	$8, %edx
.Lframes_BB7_21:
	xorl	%ecx, %ecx
.Lframes_BB7_22:
	xorl	%esi, %esi
.Lframes_BB7_23:
	movq	112(%rsp), %rax
	movzwl	%si, %esi
	movq	%rcx, %r8
	xorl	%ecx, %ecx
.Lframes_BB7_24:
	movq	%rdx, (%rax)
	movq	%r8, 8(%rax)
	movq	%rsi, 16(%rax)
	movq	%rcx, 24(%rax)
	movl	%r9d, 32(%rax)
	movl	$0, 36(%rax)
	addq	$376, %rsp
	popq	%rbx
	popq	%r12
	popq	%r13
	popq	%r14
	popq	%r15
	popq	%rbp
	retq
.Lframes_func_end7:
	.size	loamchalice_raw_pixels_to_ranged_temperatures, .Lframes_func_end7-loamchalice_raw_pixels_to_ranged_temperatures
	.section	.rodata.loamchalice_raw_pixels_to_ranged_temperatures,"a",@progbits
	.p2align	2, 0x0
.Lframes_JTI7_0:
	.long	.Lframes_BB7_5-.Lframes_JTI7_0
	.long	.Lframes_BB7_5-.Lframes_JTI7_0
	.long	.Lframes_BB7_12-.Lframes_JTI7_0
	.long	.Lframes_BB7_14-.Lframes_JTI7_0
	.long	.Lframes_BB7_9-.Lframes_JTI7_0
	.long	.Lframes_BB7_16-.Lframes_JTI7_0
	.long	.Lframes_BB7_18-.Lframes_JTI7_0
	.long	.Lframes_BB7_15-.Lframes_JTI7_0
	.long	.Lframes_BB7_20-.Lframes_JTI7_0
	.long	.Lframes_BB7_11-.Lframes_JTI7_0
	.long	.Lframes_BB7_19-.Lframes_JTI7_0
	.long	.Lframes_BB7_8-.Lframes_JTI7_0
	.long	.Lframes_BB7_10-.Lframes_JTI7_0
	.long	.Lframes_BB7_17-.Lframes_JTI7_0
	.long	.Lframes_BB7_7-.Lframes_JTI7_0
	.long	.Lframes_BB7_13-.Lframes_JTI7_0

	.section	.text.loamchalice_raw_pixels_to_temperatures,"ax",@progbits
	.globl	loamchalice_raw_pixels_to_temperatures
	.p2align	4
	.type	loamchalice_raw_pixels_to_temperatures,@function
loamchalice_raw_pixels_to_temperatures:
	pushq	%rbp
	pushq	%r15
	pushq	%r14
	pushq	%r13
	pushq	%r12
	pushq	%rbx
	subq	$376, %rsp
	movq	%r8, 128(%rsp)
	movq	%rdx, 136(%rsp)
	movq	%rdi, 112(%rsp)
	movq	688(%rsp), %r13
	movq	672(%rsp), %rdx
	movq	656(%rsp), %rdi
	movq	640(%rsp), %r8
	movq	624(%rsp), %r10
	xorl	%eax, %eax
	testq	%rsi, %rsi
	sete	%al
	shll	$12, %eax
	addq	%rsi, %rax
	xorl	%esi, %esi
	testq	%rcx, %rcx
	sete	%sil
	shll	$12, %esi
	addq	%rcx, %rsi
	xorl	%ecx, %ecx
	testq	%r9, %r9
	sete	%cl
	shll	$12, %ecx
	addq	%r9, %rcx
	xorl	%r9d, %r9d
	testq	%r10, %r10
	sete	%r9b
	shll	$12, %r9d
	addq	%r10, %r9
	xorl	%r11d, %r11d
	testq	%r8, %r8
	sete	%r11b
	shll	$12, %r11d
	addq	%r8, %r11
	xorl	%r14d, %r14d
	testq	%rdi, %rdi
	sete	%r14b
	shll	$12, %r14d
	addq	%rdi, %r14
	xorl	%r15d, %r15d
	testq	%rdx, %rdx
	sete	%r15b
	shll	$12, %r15d
	addq	%rdx, %r15
	xorl	%r12d, %r12d
	testq	%r13, %r13
	sete	%r12b
	shll	$12, %r12d
	addq	%r13, %r12
	movzbl	530(%rsp), %ebp
	movss	584(%rsp), %xmm0
	xorl	%r13d, %r13d
	cmpb	$0, 531(%rsp)
	setne	%dil
	movzwl	528(%rsp), %edx
	movq	568(%rsp), %r8
	movq	%r8, 120(%rsp)
	leaq	592(%rsp), %rbx
	movswl	608(%rsp), %r10d
	jne	.Lframes_BB8_2
	xorps	%xmm1, %xmm1
	jmp	.Lframes_BB8_3
.Lframes_BB8_2:
	movss	472(%rsp), %xmm1
.Lframes_BB8_3:
	movb	%dil, %r13b
	xorl	%edi, %edi
	cmpb	$0, 596(%rsp)
	leaq	588(%rsp), %r8
	cmoveq	%r8, %rbx
	sete	%dil
	movss	(%rbx), %xmm2
	cmpb	$0, 610(%rsp)
	movups	508(%rsp), %xmm3
	movups	%xmm3, 268(%rsp)
	movups	476(%rsp), %xmm3
	movups	%xmm3, 284(%rsp)
	movups	492(%rsp), %xmm3
	movups	%xmm3, 300(%rsp)
	movups	532(%rsp), %xmm3
	movups	548(%rsp), %xmm4
	movups	%xmm3, 344(%rsp)
	movups	%xmm4, 360(%rsp)
	movl	524(%rsp), %ebx
	movl	%ebx, 236(%rsp)
	movb	%bpl, 240(%rsp)
	movw	$0, 241(%rsp)
	movb	$0, 243(%rsp)
	movaps	432(%rsp), %xmm3
	movups	%xmm3, 244(%rsp)
	movsd	448(%rsp), %xmm3
	movsd	%xmm3, 260(%rsp)
	movsd	456(%rsp), %xmm3
	movsd	%xmm3, 316(%rsp)
	movw	%dx, 324(%rsp)
	movw	$0, 326(%rsp)
	movsd	464(%rsp), %xmm3
	movsd	%xmm3, 328(%rsp)
	movl	%r13d, 336(%rsp)
	movss	%xmm1, 340(%rsp)
	movsd	576(%rsp), %xmm1
	movsd	%xmm1, 144(%rsp)
	movss	%xmm0, 152(%rsp)
	movl	$0, 156(%rsp)
	movq	120(%rsp), %rdx
	movq	%rdx, 160(%rsp)
	movl	%edi, 168(%rsp)
	movss	%xmm2, 172(%rsp)
	movq	600(%rsp), %rdx
	movq	%rdx, 176(%rsp)
	movw	%r10w, 184(%rsp)
	setne	186(%rsp)
	movb	$0, 191(%rsp)
	movl	$0, 187(%rsp)
	xorps	%xmm0, %xmm0
	movaps	%xmm0, 208(%rsp)
	movaps	%xmm0, 192(%rsp)
	xorps	%xmm0, %xmm0
	cvtsi2ss	%r10d, %xmm0
	movq	696(%rsp), %rdx
	movq	%rdx, 104(%rsp)
	movq	%r12, 96(%rsp)
	movq	680(%rsp), %rdx
	movq	%rdx, 88(%rsp)
	movq	%r15, 80(%rsp)
	movq	664(%rsp), %rdx
	movq	%rdx, 72(%rsp)
	movq	%r14, 64(%rsp)
	movq	648(%rsp), %rdx
	movq	%rdx, 56(%rsp)
	movq	%r11, 48(%rsp)
	movq	632(%rsp), %rdx
	movq	%rdx, 40(%rsp)
	movq	%r9, 32(%rsp)
	movq	616(%rsp), %rdx
	movq	%rdx, 24(%rsp)
	movq	%rcx, 16(%rsp)
	movq	128(%rsp), %rcx
	movq	%rcx, 8(%rsp)
	movq	%rsi, (%rsp)
	leaq	192(%rsp), %rdi
	leaq	236(%rsp), %rsi
	leaq	144(%rsp), %rdx
	movq	%rax, %r8
	movq	136(%rsp), %r9
	movl	$1, %ecx
	callq	loamchalice.frames.calculations.from_pixels
	movl	200(%rsp), %edi
	movq	208(%rsp), %rcx
	cmpb	$0, 192(%rsp)
	je	.Lframes_BB8_6
	movzwl	216(%rsp), %esi
	movl	%edi, %r8d
	shrl	$16, %r8d
	xorl	%r9d, %r9d
	movzbl	%dil, %edx
	leaq	.Lframes_JTI8_0(%rip), %rdi
	movslq	(%rdi,%rdx,4), %rdx
	addq	%rdi, %rdx
	jmpq	*%rdx
.Lframes_BB8_5:
	movl	$1, %edx
	jmp	.Lframes_BB8_22
.Lframes_BB8_6:
	xorl	%edx, %edx
	xorl	%r8d, %r8d
	xorl	%esi, %esi
	movl	%edi, %r9d
	movq	112(%rsp), %rax
	jmp	.Lframes_BB8_24
.Lframes_BB8_7:
	movl	$13, %edx
	jmp	.Lframes_BB8_22
.Lframes_BB8_8:
	movl	$10, %edx
	jmp	.Lframes_BB8_22
.Lframes_BB8_9:
	movl	$4, %edx
	xorl	%esi, %esi
	movq	%r8, %rcx
	jmp	.Lframes_BB8_23
.Lframes_BB8_10:
	movl	$11, %edx
	jmp	.Lframes_BB8_22
.Lframes_BB8_11:
	movl	%r8d, %ecx
	movl	$9, %edx
	jmp	.Lframes_BB8_22
.Lframes_BB8_12:
	movl	$2, %edx
	jmp	.Lframes_BB8_21
.Lframes_BB8_13:
	movl	$14, %edx
	jmp	.Lframes_BB8_22
.Lframes_BB8_14:
	movl	$3, %edx
	jmp	.Lframes_BB8_23
.Lframes_BB8_15:
	movl	$7, %edx
	jmp	.Lframes_BB8_21
.Lframes_BB8_16:
	movl	$5, %edx
	jmp	.Lframes_BB8_22
.Lframes_BB8_17:
	movl	$12, %edx
	jmp	.Lframes_BB8_22
.Lframes_BB8_18:
	movl	$6, %edx
	jmp	.Lframes_BB8_22
.Lframes_BB8_19:
	movl	$9, %edx
	jmp	.Lframes_BB8_23
.Lframes_BB8_20:
	movl	$8, %edx
.Lframes_BB8_21:
	xorl	%ecx, %ecx
.Lframes_BB8_22:
	xorl	%esi, %esi
.Lframes_BB8_23:
	movq	112(%rsp), %rax
	movzwl	%si, %esi
	movq	%rcx, %r8
	xorl	%ecx, %ecx
.Lframes_BB8_24:
	movq	%rdx, (%rax)
	movq	%r8, 8(%rax)
	movq	%rsi, 16(%rax)
	movq	%rcx, 24(%rax)
	movl	%r9d, 32(%rax)
	movl	$0, 36(%rax)
	addq	$376, %rsp
	popq	%rbx
	popq	%r12
	popq	%r13
	popq	%r14
	popq	%r15
	popq	%rbp
	retq
.Lframes_func_end8:
	.size	loamchalice_raw_pixels_to_temperatures, .Lframes_func_end8-loamchalice_raw_pixels_to_temperatures
	.section	.rodata.loamchalice_raw_pixels_to_temperatures,"a",@progbits
	.p2align	2, 0x0
.Lframes_JTI8_0:
	.long	.Lframes_BB8_5-.Lframes_JTI8_0
	.long	.Lframes_BB8_5-.Lframes_JTI8_0
	.long	.Lframes_BB8_12-.Lframes_JTI8_0
	.long	.Lframes_BB8_14-.Lframes_JTI8_0
	.long	.Lframes_BB8_9-.Lframes_JTI8_0
	.long	.Lframes_BB8_16-.Lframes_JTI8_0
	.long	.Lframes_BB8_18-.Lframes_JTI8_0
	.long	.Lframes_BB8_15-.Lframes_JTI8_0
	.long	.Lframes_BB8_20-.Lframes_JTI8_0
	.long	.Lframes_BB8_11-.Lframes_JTI8_0
	.long	.Lframes_BB8_19-.Lframes_JTI8_0
	.long	.Lframes_BB8_8-.Lframes_JTI8_0
	.long	.Lframes_BB8_10-.Lframes_JTI8_0
	.long	.Lframes_BB8_17-.Lframes_JTI8_0
	.long	.Lframes_BB8_7-.Lframes_JTI8_0
	.long	.Lframes_BB8_13-.Lframes_JTI8_0

	.type	.Lframes_switch.table.roots.fourth_roots,@object
	.section	.rodata.cst32,"aM",@progbits,32
	.p2align	3, 0x0
.Lframes_switch.table.roots.fourth_roots:
	.quad	0x4160000000000000
	.quad	0x4166a09e667f3bcd
	.quad	0x4160000000000000
	.quad	0x4166a09e667f3bcd
	.size	.Lframes_switch.table.roots.fourth_roots, 32

	.type	.Lframes_switch.table.roots.fourth_roots.9,@object
	.p2align	3, 0x0
.Lframes_switch.table.roots.fourth_roots.9:
	.quad	0x3fe0000000000000
	.quad	0x3fdae89f995ad3ad
	.quad	0x3fe6a09e667f3bcd
	.quad	0x3fe306fe0a31b715
	.size	.Lframes_switch.table.roots.fourth_roots.9, 32

# filter
	.section	.rodata.cst4,"aM",@progbits,4
	.p2align	2, 0x0
.Lfilter_CPI0_0:
	.long	0x3f800000
.Lfilter_CPI0_1:
	.long	0x48800000
.Lfilter_CPI0_2:
	.long	0x41c80000
.Lfilter_CPI0_3:
	.long	0xc1c80000
.Lfilter_CPI0_6:
	.long	0x43889333
.Lfilter_CPI0_7:
	.long	0xc3889333
.Lfilter_CPI0_8:
	.long	0xc0533333
.Lfilter_CPI0_9:
	.long	0x47800000
	.section	.rodata.cst16,"aM",@progbits,16
	.p2align	4, 0x0
.Lfilter_CPI0_4:
	.long	0x80000000
	.long	0xc0533333
	.zero	4
	.zero	4
.Lfilter_CPI0_5:
	.long	0x00000000
	.long	0x3f800000
	.zero	4
	.zero	4
.Lfilter_CPI0_10:
	.long	0x3f800000
	.long	0x3f800000
	.zero	4
	.zero	4
	.section	.text.filter.calculations.from_pixels,"ax",@progbits
	.p2align	4
	.type	loamchalice.filter.calculations.from_pixels,@function
loamchalice.filter.calculations.from_pixels:
	pushq	%rbp
	pushq	%r15
	pushq	%r14
	pushq	%r13
	pushq	%r12
	pushq	%rbx
	subq	$1192, %rsp
	movl	%ecx, 28(%rsp)
	movq	1304(%rsp), %rcx
	movq	1288(%rsp), %rax
	movq	1256(%rsp), %r10
	cmpq	%r10, %r9
	cmovbq	%r9, %r10
	cmpq	%rcx, %rax
	cmovbq	%rax, %rcx
	cmpq	%rcx, %r10
	cmovbq	%r10, %rcx
	cmpb	$0, 42(%rdx)
	je	.Lfilter_BB0_2
	movq	1248(%rsp), %r8
.Lfilter_BB0_2:
	movq	%r8, 56(%rsp)
	movq	1352(%rsp), %r8
	movq	1336(%rsp), %r13
	movq	1320(%rsp), %r11
	movq	1272(%rsp), %rax
	movzwl	(%rsi), %r12d
	movswl	2(%rsi), %r9d
	movss	8(%rsi), %xmm6
	movss	12(%rsi), %xmm5
	movss	16(%rsi), %xmm7
	movss	20(%rsi), %xmm9
	movss	24(%rsi), %xmm1
	movss	28(%rsi), %xmm2
	movss	%xmm2, 12(%rsp)
	movss	84(%rsi), %xmm13
	movzwl	88(%rsi), %r10d
	movw	%r10w, 304(%rsp)
	movss	92(%rsi), %xmm4
	movss	96(%rsi), %xmm3
	movzbl	100(%rsi), %r10d
	movb	%r10b, 3(%rsp)
	movss	104(%rsi), %xmm15
	movss	(%rdx), %xmm14
	movss	4(%rdx), %xmm8
	movss	8(%rdx), %xmm12
	movq	16(%rdx), %r10
	movq	%r10, 96(%rsp)
	movzbl	24(%rdx), %r10d
	movss	28(%rdx), %xmm2
	movzwl	32(%rdx), %ebx
	movzwl	34(%rdx), %r14d
	movswl	36(%rdx), %r15d
	movzwl	38(%rdx), %ebp
	xorps	%xmm10, %xmm10
	movaps	%xmm10, 1168(%rsp)
	movaps	%xmm10, 1152(%rsp)
	movaps	%xmm10, 1136(%rsp)
	movaps	%xmm10, 1120(%rsp)
	movaps	%xmm10, 1104(%rsp)
	movaps	%xmm10, 1088(%rsp)
	movaps	%xmm10, 1072(%rsp)
	movaps	%xmm10, 1056(%rsp)
	movups	32(%rsi), %xmm10
	movaps	%xmm10, 32(%rsp)
	movups	48(%rsi), %xmm10
	movups	64(%rsi), %xmm11
	movaps	%xmm10, 336(%rsp)
	movaps	%xmm11, 352(%rsp)
	movups	108(%rsi), %xmm10
	movups	124(%rsi), %xmm11
	movaps	%xmm10, 768(%rsp)
	movaps	%xmm11, 784(%rsp)
	movzbl	28(%rsp), %esi
	cmpb	$2, %sil
	je	.Lfilter_BB0_17
	cmpl	$1, %esi
	jne	.Lfilter_BB0_47
	cmpq	%rcx, %rax
	cmovbq	%rax, %rcx
	movl	$1, %eax
	cmpq	$192, %rcx
	jb	.Lfilter_BB0_48
	movl	$11, %edx
	cmpq	$384, %r11
	jb	.Lfilter_BB0_52
	cmpq	$192, %r8
	jb	.Lfilter_BB0_54
	cmpq	$192, %r13
	jb	.Lfilter_BB0_56
	movl	$6, %edx
	movq	96(%rsp), %rcx
	cmpq	$7, %rcx
	ja	.Lfilter_BB0_50
	jmp	.Lfilter_BB0_9
.Lfilter_BB0_17:
	cmpq	%rcx, %rax
	cmovbq	%rax, %rcx
	movl	$1, %eax
	cmpq	$192, %rcx
	jb	.Lfilter_BB0_48
	movl	$11, %edx
	cmpq	$384, %r11
	jb	.Lfilter_BB0_52
	cmpq	$192, %r8
	jb	.Lfilter_BB0_54
	cmpq	$192, %r13
	jb	.Lfilter_BB0_56
	movl	$6, %edx
	movq	96(%rsp), %rcx
	cmpq	$7, %rcx
	ja	.Lfilter_BB0_50
	subl	%r9d, %r15d
	movswl	%r15w, %ecx
	cmpl	%r15d, %ecx
	jne	.Lfilter_BB0_58
	movss	%xmm13, 16(%rsp)
	movaps	%xmm12, 64(%rsp)
	movswl	%r12w, %ecx
	xorps	%xmm12, %xmm12
	cvtsi2ss	%ecx, %xmm12
	xorps	%xmm13, %xmm13
	movl	$8, %edx
	ucomiss	%xmm13, %xmm12
	jne	.Lfilter_BB0_24
	jnp	.Lfilter_BB0_49
.Lfilter_BB0_24:
	movswl	%bp, %ecx
	xorps	%xmm10, %xmm10
	cvtsi2ss	%ecx, %xmm10
	xorl	%ecx, %ecx
	ucomiss	%xmm13, %xmm10
	jne	.Lfilter_BB0_25
	jnp	.Lfilter_BB0_50
.Lfilter_BB0_25:
	movaps	%xmm5, %xmm11
	ucomiss	%xmm13, %xmm11
	jne	.Lfilter_BB0_26
	jnp	.Lfilter_BB0_50
.Lfilter_BB0_26:
	xorps	%xmm11, %xmm11
	cvtsi2ss	%r15d, %xmm11
	divss	%xmm12, %xmm11
	mulss	%xmm11, %xmm6
	addss	.Lfilter_CPI0_0(%rip), %xmm6
	movaps	%xmm6, %xmm12
	ucomiss	%xmm13, %xmm12
	jne	.Lfilter_BB0_27
	jnp	.Lfilter_BB0_49
.Lfilter_BB0_27:
	movswl	%r14w, %ecx
	xorps	%xmm12, %xmm12
	cvtsi2ss	%ecx, %xmm12
	movss	%xmm12, 4(%rsp)
	mulss	%xmm12, %xmm9
	movswl	%bx, %ecx
	xorps	%xmm12, %xmm12
	cvtsi2ss	%ecx, %xmm12
	addss	%xmm9, %xmm12
	movaps	%xmm12, %xmm9
	ucomiss	%xmm13, %xmm9
	jne	.Lfilter_BB0_28
	jnp	.Lfilter_BB0_49
.Lfilter_BB0_28:
	movss	%xmm12, 256(%rsp)
	movaps	%xmm14, %xmm9
	xorl	%ecx, %ecx
	ucomiss	%xmm13, %xmm9
	jne	.Lfilter_BB0_29
	jnp	.Lfilter_BB0_50
.Lfilter_BB0_29:
	ucomiss	%xmm9, %xmm9
	jp	.Lfilter_BB0_50
	movzwl	34(%rsp), %r8d
	movl	$13, %edx
	cmpw	32(%rsp), %r8w
	jle	.Lfilter_BB0_113
	movzwl	36(%rsp), %r9d
	cmpw	%r8w, %r9w
	jle	.Lfilter_BB0_114
	movzwl	38(%rsp), %r8d
	cmpw	%r9w, %r8w
	jle	.Lfilter_BB0_115
	movzwl	40(%rsp), %r9d
	cmpw	%r8w, %r9w
	jle	.Lfilter_BB0_116
	movzwl	42(%rsp), %r8d
	cmpw	%r9w, %r8w
	jle	.Lfilter_BB0_117
	movzwl	44(%rsp), %r9d
	cmpw	%r8w, %r9w
	jle	.Lfilter_BB0_120
	movaps	%xmm14, %xmm9
	cmpw	%r9w, 46(%rsp)
	movl	$7, %ecx
	movaps	%xmm1, %xmm14
	movzbl	3(%rsp), %r8d
	movaps	%xmm9, %xmm12
	jle	.Lfilter_BB0_50
	jmp	.Lfilter_BB0_37
.Lfilter_BB0_47:
	movl	$1, %eax
	cmpq	$192, %rcx
	jae	.Lfilter_BB0_51
.Lfilter_BB0_48:
	movl	$2, %edx
.Lfilter_BB0_49:
	xorl	%ecx, %ecx
	jmp	.Lfilter_BB0_50
.Lfilter_BB0_51:
	movl	$11, %edx
	cmpq	$384, %r11
	jae	.Lfilter_BB0_53
.Lfilter_BB0_52:
	movq	%r11, %rcx
	jmp	.Lfilter_BB0_50
.Lfilter_BB0_53:
	cmpq	$192, %r8
	jae	.Lfilter_BB0_55
.Lfilter_BB0_54:
	movq	%r8, %rcx
	jmp	.Lfilter_BB0_50
.Lfilter_BB0_55:
	cmpq	$192, %r13
	jae	.Lfilter_BB0_9
.Lfilter_BB0_56:
	movq	%r13, %rcx
.Lfilter_BB0_50:
	movq	%rax, (%rdi)
	movl	%edx, 8(%rdi)
	movl	$0, 12(%rdi)
	movq	%rcx, 16(%rdi)
	movw	$0, 24(%rdi)
	addq	$1192, %rsp
	popq	%rbx
	popq	%r12
	popq	%r13
	popq	%r14
	popq	%r15
	popq	%rbp
	retq
.Lfilter_BB0_9:
	subl	%r9d, %r15d
	movswl	%r15w, %ecx
	cmpl	%r15d, %ecx
	je	.Lfilter_BB0_10
.Lfilter_BB0_58:
	movl	$7, %edx
	jmp	.Lfilter_BB0_49
.Lfilter_BB0_10:
	movss	%xmm13, 16(%rsp)
	movaps	%xmm12, 64(%rsp)
	movswl	%r12w, %ecx
	xorps	%xmm12, %xmm12
	cvtsi2ss	%ecx, %xmm12
	xorps	%xmm13, %xmm13
	movl	$8, %edx
	ucomiss	%xmm13, %xmm12
	jne	.Lfilter_BB0_11
	jnp	.Lfilter_BB0_49
.Lfilter_BB0_11:
	movswl	%bp, %ecx
	xorps	%xmm10, %xmm10
	cvtsi2ss	%ecx, %xmm10
	xorl	%ecx, %ecx
	ucomiss	%xmm13, %xmm10
	jne	.Lfilter_BB0_12
	jnp	.Lfilter_BB0_50
.Lfilter_BB0_12:
	movaps	%xmm5, %xmm11
	ucomiss	%xmm13, %xmm11
	jne	.Lfilter_BB0_13
	jnp	.Lfilter_BB0_50
.Lfilter_BB0_13:
	xorps	%xmm11, %xmm11
	cvtsi2ss	%r15d, %xmm11
	divss	%xmm12, %xmm11
	mulss	%xmm11, %xmm6
	addss	.Lfilter_CPI0_0(%rip), %xmm6
	movaps	%xmm6, %xmm12
	ucomiss	%xmm13, %xmm12
	jne	.Lfilter_BB0_14
	jnp	.Lfilter_BB0_49
.Lfilter_BB0_14:
	movswl	%r14w, %ecx
	xorps	%xmm12, %xmm12
	cvtsi2ss	%ecx, %xmm12
	movss	%xmm12, 4(%rsp)
	mulss	%xmm12, %xmm9
	movswl	%bx, %ecx
	xorps	%xmm12, %xmm12
	cvtsi2ss	%ecx, %xmm12
	addss	%xmm9, %xmm12
	movaps	%xmm12, %xmm9
	ucomiss	%xmm13, %xmm9
	jne	.Lfilter_BB0_15
	jnp	.Lfilter_BB0_49
.Lfilter_BB0_15:
	movss	%xmm12, 256(%rsp)
	movaps	%xmm14, %xmm9
	xorl	%ecx, %ecx
	ucomiss	%xmm13, %xmm9
	jne	.Lfilter_BB0_16
	jnp	.Lfilter_BB0_50
.Lfilter_BB0_16:
	movaps	%xmm14, %xmm12
	ucomiss	%xmm9, %xmm9
	movzbl	3(%rsp), %r8d
	movaps	%xmm1, %xmm14
	jp	.Lfilter_BB0_50
.Lfilter_BB0_37:
	mulss	%xmm11, %xmm8
	movss	4(%rsp), %xmm11
	divss	256(%rsp), %xmm11
	mulss	.Lfilter_CPI0_1(%rip), %xmm11
	divss	%xmm6, %xmm11
	subss	%xmm7, %xmm11
	divss	%xmm10, %xmm14
	movaps	64(%rsp), %xmm9
	addss	%xmm8, %xmm9
	divss	%xmm5, %xmm11
	addss	.Lfilter_CPI0_2(%rip), %xmm11
	xorps	%xmm10, %xmm10
	cmpb	$1, %r8b
	jne	.Lfilter_BB0_39
	movswl	304(%rsp), %eax
	cvtsi2ss	%eax, %xmm5
	movss	.Lfilter_CPI0_3(%rip), %xmm6
	addss	%xmm11, %xmm6
	mulss	%xmm6, %xmm3
	addss	.Lfilter_CPI0_0(%rip), %xmm3
	movaps	%xmm14, %xmm6
	unpcklps	%xmm9, %xmm6
	addps	.Lfilter_CPI0_4(%rip), %xmm6
	unpcklps	%xmm4, %xmm0
	mulps	%xmm6, %xmm0
	addps	.Lfilter_CPI0_5(%rip), %xmm0
	mulss	%xmm5, %xmm3
	movaps	%xmm0, %xmm4
	shufps	$85, %xmm0, %xmm4
	mulss	%xmm3, %xmm4
	subss	%xmm4, %xmm0
	divss	%xmm12, %xmm0
	mulss	%xmm15, %xmm0
	movaps	%xmm0, %xmm10
.Lfilter_BB0_39:
	cmpb	$2, 28(%rsp)
	movaps	%xmm14, 240(%rsp)
	movss	%xmm11, 4(%rsp)
	movss	%xmm10, 20(%rsp)
	movl	%esi, 92(%rsp)
	je	.Lfilter_BB0_59
	cmpl	$1, %esi
	jne	.Lfilter_BB0_65
	movq	56(%rsp), %rax
	movss	.Lfilter_CPI0_6(%rip), %xmm0
	addss	%xmm11, %xmm0
	mulss	%xmm0, %xmm0
	mulss	%xmm0, %xmm0
	movss	%xmm0, 8(%rsp)
	movaps	%xmm12, %xmm5
	movaps	%xmm12, %xmm0
	movss	.Lfilter_CPI0_0(%rip), %xmm3
	movaps	%xmm3, %xmm4
	ucomiss	%xmm4, %xmm0
	jne	.Lfilter_BB0_42
	jnp	.Lfilter_BB0_45
.Lfilter_BB0_42:
	testb	%r10b, %r10b
	je	.Lfilter_BB0_44
	movss	4(%rsp), %xmm0
	subss	%xmm2, %xmm0
	movaps	%xmm0, %xmm2
.Lfilter_BB0_44:
	addss	.Lfilter_CPI0_6(%rip), %xmm2
	mulss	%xmm2, %xmm2
	mulss	%xmm2, %xmm2
	movaps	%xmm2, %xmm0
	subss	8(%rsp), %xmm0
	divss	%xmm5, %xmm0
	subss	%xmm0, %xmm2
	movss	%xmm2, 8(%rsp)
.Lfilter_BB0_45:
	movq	96(%rsp), %rcx
	movss	336(%rsp,%rcx,4), %xmm2
	movss	.Lfilter_CPI0_3(%rip), %xmm0
	addss	4(%rsp), %xmm0
	movss	12(%rsp), %xmm1
	mulss	%xmm0, %xmm1
	movss	%xmm1, 12(%rsp)
	cmpb	$1, 3(%rsp)
	je	.Lfilter_BB0_66
	xorps	%xmm4, %xmm4
	jmp	.Lfilter_BB0_67
.Lfilter_BB0_59:
	movq	56(%rsp), %rax
	movss	.Lfilter_CPI0_6(%rip), %xmm0
	addss	%xmm11, %xmm0
	mulss	%xmm0, %xmm0
	mulss	%xmm0, %xmm0
	movss	%xmm0, 8(%rsp)
	movaps	%xmm12, %xmm5
	movaps	%xmm12, %xmm0
	movss	.Lfilter_CPI0_0(%rip), %xmm3
	movaps	%xmm3, %xmm4
	ucomiss	%xmm4, %xmm0
	jne	.Lfilter_BB0_60
	jnp	.Lfilter_BB0_63
.Lfilter_BB0_60:
	testb	%r10b, %r10b
	je	.Lfilter_BB0_62
	movss	4(%rsp), %xmm0
	subss	%xmm2, %xmm0
	movaps	%xmm0, %xmm2
.Lfilter_BB0_62:
	addss	.Lfilter_CPI0_6(%rip), %xmm2
	mulss	%xmm2, %xmm2
	mulss	%xmm2, %xmm2
	movaps	%xmm2, %xmm0
	subss	8(%rsp), %xmm0
	divss	%xmm5, %xmm0
	subss	%xmm0, %xmm2
	movss	%xmm2, 8(%rsp)
.Lfilter_BB0_63:
	movq	96(%rsp), %rcx
	movss	336(%rsp,%rcx,4), %xmm2
	movss	.Lfilter_CPI0_3(%rip), %xmm0
	addss	4(%rsp), %xmm0
	movss	12(%rsp), %xmm1
	mulss	%xmm0, %xmm1
	movss	%xmm1, 12(%rsp)
	cmpb	$1, 3(%rsp)
	je	.Lfilter_BB0_68
	xorps	%xmm4, %xmm4
	jmp	.Lfilter_BB0_69
.Lfilter_BB0_65:
	movss	.Lfilter_CPI0_3(%rip), %xmm0
	addss	%xmm11, %xmm0
	movb	$1, %al
	movl	%eax, 24(%rsp)
	xorps	%xmm4, %xmm4
	xorl	%r12d, %r12d
	xorps	%xmm15, %xmm15
	xorps	%xmm1, %xmm1
	movss	%xmm1, 8(%rsp)
	xorps	%xmm2, %xmm2
	movq	$0, 80(%rsp)
	movq	56(%rsp), %r13
	jmp	.Lfilter_BB0_71
.Lfilter_BB0_66:
	movss	16(%rsp), %xmm4
	mulss	%xmm15, %xmm4
.Lfilter_BB0_67:
	movss	12(%rsp), %xmm15
	addss	%xmm3, %xmm15
	movss	.Lfilter_CPI0_7(%rip), %xmm1
	mulss	%xmm2, %xmm1
	addss	%xmm3, %xmm1
	movb	$1, %cl
	movl	%ecx, 24(%rsp)
	movq	$0, 80(%rsp)
	jmp	.Lfilter_BB0_70
.Lfilter_BB0_68:
	movss	16(%rsp), %xmm4
	mulss	%xmm15, %xmm4
.Lfilter_BB0_69:
	movss	12(%rsp), %xmm15
	addss	%xmm3, %xmm15
	movss	.Lfilter_CPI0_7(%rip), %xmm1
	mulss	%xmm2, %xmm1
	addss	%xmm3, %xmm1
	movl	$8, %ecx
	movq	%rcx, 80(%rsp)
	movl	$0, 24(%rsp)
.Lfilter_BB0_70:
	movzbl	3(%rsp), %r8d
	movl	%r8d, %r12d
	movq	%rax, %r13
	movaps	240(%rsp), %xmm14
	movaps	%xmm5, %xmm12
	movss	4(%rsp), %xmm11
	movss	20(%rsp), %xmm10
.Lfilter_BB0_71:
	movss	%xmm4, 16(%rsp)
	movq	1344(%rsp), %r11
	movq	1328(%rsp), %rdx
	movzbl	%r12b, %eax
	movl	%eax, 280(%rsp)
	movss	%xmm4, 284(%rsp)
	movss	%xmm15, 12(%rsp)
	movss	%xmm15, 288(%rsp)
	movd	8(%rsp), %xmm3
	movd	%xmm3, 292(%rsp)
	movss	%xmm2, 296(%rsp)
	addss	.Lfilter_CPI0_8(%rip), %xmm9
	movss	%xmm1, 300(%rsp)
	unpcklps	%xmm0, %xmm9
	xorl	%ecx, %ecx
	xorl	%r14d, %r14d
	movaps	%xmm9, 64(%rsp)
	movq	%r12, 272(%rsp)
	movq	%rdi, 320(%rsp)
	movss	%xmm12, 52(%rsp)
	jmp	.Lfilter_BB0_74
.Lfilter_BB0_72:
	movd	(%r9,%r15), %xmm4
	movd	4(%r9,%r15), %xmm3
	punpcklbw	%xmm4, %xmm4
	punpcklwd	%xmm4, %xmm4
	xorps	%xmm0, %xmm0
	pcmpeqb	%xmm0, %xmm4
	punpcklbw	%xmm3, %xmm3
	punpcklwd	%xmm3, %xmm3
	pcmpeqb	%xmm0, %xmm3
	movdqu	(%r11,%r15,4), %xmm1
	movdqu	16(%r11,%r15,4), %xmm2
	pand	%xmm4, %xmm1
	movdqa	%xmm4, %xmm5
	pandn	496(%rsp), %xmm5
	por	%xmm1, %xmm5
	pand	%xmm3, %xmm2
	movdqa	%xmm3, %xmm1
	pandn	512(%rsp), %xmm1
	por	%xmm2, %xmm1
	movdqu	%xmm5, (%r11,%r15,4)
	movdqu	%xmm1, 16(%r11,%r15,4)
	pandn	368(%rsp), %xmm4
	pandn	384(%rsp), %xmm3
	movd	8(%r9,%r15), %xmm2
	movd	12(%r9,%r15), %xmm1
	punpcklbw	%xmm2, %xmm2
	punpcklwd	%xmm2, %xmm2
	pcmpeqb	%xmm0, %xmm2
	punpcklbw	%xmm1, %xmm1
	punpcklwd	%xmm1, %xmm1
	pcmpeqb	%xmm0, %xmm1
	movdqu	32(%r11,%r15,4), %xmm5
	movdqu	48(%r11,%r15,4), %xmm6
	pand	%xmm2, %xmm5
	movdqa	%xmm2, %xmm7
	pandn	528(%rsp), %xmm7
	por	%xmm5, %xmm7
	movdqa	%xmm1, %xmm5
	pandn	544(%rsp), %xmm5
	pand	%xmm1, %xmm6
	por	%xmm6, %xmm5
	movdqu	%xmm7, 32(%r11,%r15,4)
	movdqu	%xmm5, 48(%r11,%r15,4)
	pandn	400(%rsp), %xmm2
	pandn	416(%rsp), %xmm1
	paddd	%xmm4, %xmm2
	paddd	%xmm3, %xmm1
	movd	16(%r9,%r15), %xmm4
	movd	20(%r9,%r15), %xmm3
	punpcklbw	%xmm4, %xmm4
	punpcklwd	%xmm4, %xmm4
	pcmpeqb	%xmm0, %xmm4
	punpcklbw	%xmm3, %xmm3
	punpcklwd	%xmm3, %xmm3
	pcmpeqb	%xmm0, %xmm3
	movdqu	64(%r11,%r15,4), %xmm5
	movdqu	80(%r11,%r15,4), %xmm6
	pand	%xmm4, %xmm5
	movdqa	%xmm4, %xmm7
	pandn	560(%rsp), %xmm7
	por	%xmm5, %xmm7
	movdqa	%xmm3, %xmm5
	pandn	576(%rsp), %xmm5
	pand	%xmm3, %xmm6
	por	%xmm6, %xmm5
	movdqu	%xmm7, 64(%r11,%r15,4)
	movdqu	%xmm5, 80(%r11,%r15,4)
	pandn	432(%rsp), %xmm4
	pandn	448(%rsp), %xmm3
	movd	24(%r9,%r15), %xmm6
	movd	28(%r9,%r15), %xmm5
	punpcklbw	%xmm6, %xmm6
	punpcklwd	%xmm6, %xmm6
	pcmpeqb	%xmm0, %xmm6
	punpcklbw	%xmm5, %xmm5
	punpcklwd	%xmm5, %xmm5
	pcmpeqb	%xmm0, %xmm5
	movdqu	96(%r11,%r15,4), %xmm0
	movdqu	112(%r11,%r15,4), %xmm7
	pand	%xmm6, %xmm0
	movdqa	%xmm6, %xmm8
	pandn	592(%rsp), %xmm8
	por	%xmm0, %xmm8
	pand	%xmm5, %xmm7
	movdqa	%xmm5, %xmm0
	pandn	608(%rsp), %xmm0
	por	%xmm7, %xmm0
	movdqu	%xmm8, 96(%r11,%r15,4)
	movdqu	%xmm0, 112(%r11,%r15,4)
	pandn	464(%rsp), %xmm6
	paddd	%xmm4, %xmm6
	paddd	%xmm2, %xmm6
	pandn	480(%rsp), %xmm5
	paddd	%xmm3, %xmm5
	paddd	%xmm1, %xmm5
	paddd	%xmm6, %xmm5
	pshufd	$238, %xmm5, %xmm0
	paddd	%xmm5, %xmm0
	pshufd	$85, %xmm0, %xmm1
	paddd	%xmm0, %xmm1
	movd	%xmm1, %ecx
.Lfilter_BB0_73:
	movl	%ecx, %eax
	movq	328(%rsp), %rcx
	addq	%rax, %rcx
	leaq	1(%rbx), %r14
	cmpq	$5, %rbx
	movq	1328(%rsp), %rdx
	movzbl	3(%rsp), %r8d
	jae	.Lfilter_BB0_119
.Lfilter_BB0_74:
	movq	%r14, %r15
	shlq	$5, %r15
	movdqu	(%rdx,%r15), %xmm0
	movdqu	16(%rdx,%r15), %xmm1
	por	%xmm0, %xmm1
	pxor	%xmm0, %xmm0
	pcmpeqb	%xmm0, %xmm1
	pmovmskb	%xmm1, %eax
	xorl	$65535, %eax
	je	.Lfilter_BB0_76
	xorl	%ebp, %ebp
	movq	%r14, %rbx
	jmp	.Lfilter_BB0_87
.Lfilter_BB0_76:
	cmpq	$4, %r14
	ja	.Lfilter_BB0_119
	leaq	1(%r14), %rbx
	movq	%rbx, %r15
	shlq	$5, %r15
	movdqu	(%rdx,%r15), %xmm1
	movdqu	16(%rdx,%r15), %xmm2
	por	%xmm1, %xmm2
	pxor	%xmm1, %xmm1
	pcmpeqb	%xmm2, %xmm1
	pmovmskb	%xmm1, %eax
	xorl	$65535, %eax
	movl	$1, %ebp
	jne	.Lfilter_BB0_87
	cmpq	$4, %r14
	je	.Lfilter_BB0_119
	leaq	2(%r14), %rbx
	movq	%rbx, %r15
	shlq	$5, %r15
	movdqu	(%rdx,%r15), %xmm1
	movdqu	16(%rdx,%r15), %xmm2
	por	%xmm1, %xmm2
	pxor	%xmm1, %xmm1
	pcmpeqb	%xmm2, %xmm1
	pmovmskb	%xmm1, %eax
	xorl	$65535, %eax
	movl	$2, %ebp
	jne	.Lfilter_BB0_87
	cmpq	$2, %r14
	ja	.Lfilter_BB0_119
	leaq	3(%r14), %rbx
	movq	%rbx, %r15
	shlq	$5, %r15
	movdqu	(%rdx,%r15), %xmm1
	movdqu	16(%rdx,%r15), %xmm2
	por	%xmm1, %xmm2
	pxor	%xmm1, %xmm1
	pcmpeqb	%xmm2, %xmm1
	pmovmskb	%xmm1, %eax
	xorl	$65535, %eax
	movl	$3, %ebp
	jne	.Lfilter_BB0_87
	cmpq	$2, %r14
	je	.Lfilter_BB0_119
	movq	%r14, %rbx
	orq	$4, %rbx
	movq	%rbx, %r15
	shlq	$5, %r15
	movdqu	(%rdx,%r15), %xmm1
	movdqu	16(%rdx,%r15), %xmm2
	por	%xmm1, %xmm2
	pxor	%xmm1, %xmm1
	pcmpeqb	%xmm2, %xmm1
	pmovmskb	%xmm1, %eax
	xorl	$65535, %eax
	movl	$4, %ebp
	jne	.Lfilter_BB0_87
	movq	%rcx, %rsi
	testq	%r14, %r14
	jne	.Lfilter_BB0_118
	movq	1328(%rsp), %rcx
	movdqu	160(%rcx), %xmm1
	movdqu	176(%rcx), %xmm2
	por	%xmm1, %xmm2
	pxor	%xmm1, %xmm1
	pcmpeqb	%xmm2, %xmm1
	pmovmskb	%xmm1, %edx
	xorl	$65535, %edx
	je	.Lfilter_BB0_118
	movl	$160, %r15d
	movl	$5, %ebp
	movl	$5, %ebx
	movaps	240(%rsp), %xmm14
	movzbl	3(%rsp), %r8d
	movaps	64(%rsp), %xmm9
	movss	4(%rsp), %xmm11
	movq	%rsi, %rcx
	movss	20(%rsp), %xmm10
	movq	272(%rsp), %r12
	movq	1344(%rsp), %r11
.Lfilter_BB0_87:
	movq	%rcx, 328(%rsp)
	movdqa	%xmm0, 912(%rsp)
	movdqa	%xmm0, 896(%rsp)
	movdqa	%xmm0, 880(%rsp)
	movdqa	%xmm0, 864(%rsp)
	movdqa	%xmm0, 848(%rsp)
	movdqa	%xmm0, 832(%rsp)
	movdqa	%xmm0, 816(%rsp)
	movdqa	%xmm0, 800(%rsp)
	movdqa	%xmm0, 496(%rsp)
	movdqa	%xmm0, 512(%rsp)
	movdqa	%xmm0, 528(%rsp)
	movdqa	%xmm0, 544(%rsp)
	movdqa	%xmm0, 560(%rsp)
	movdqa	%xmm0, 576(%rsp)
	movdqa	%xmm0, 592(%rsp)
	movdqa	%xmm0, 608(%rsp)
	movdqa	%xmm0, 368(%rsp)
	movdqa	%xmm0, 384(%rsp)
	movdqa	%xmm0, 400(%rsp)
	movdqa	%xmm0, 416(%rsp)
	movdqa	%xmm0, 432(%rsp)
	movdqa	%xmm0, 448(%rsp)
	movdqa	%xmm0, 464(%rsp)
	movdqa	%xmm0, 480(%rsp)
	movq	%rbx, %rcx
	shlq	$7, %rcx
	movabsq	$-6148914691236517205, %rdx
	movq	%rbx, %rax
	mulq	%rdx
	andq	$-4, %rdx
	shlq	$6, %rdx
	leaq	(%rdx,%rdx,2), %rax
	subq	%rax, %rcx
	addq	1280(%rsp), %rcx
	movq	1296(%rsp), %rax
	leaq	(%rax,%r15,4), %rax
	leaq	(,%r15,4), %rdx
	addq	%r13, %rdx
	movq	1312(%rsp), %rsi
	leaq	(%rsi,%r15,2), %rsi
	testb	%r8b, %r8b
	je	.Lfilter_BB0_90
	xorl	%r8d, %r8d
.Lfilter_BB0_89:
	movzwl	(%rsi,%r8), %r9d
	rolw	$8, %r9w
	movswl	%r9w, %r9d
	xorps	%xmm0, %xmm0
	cvtsi2ss	%r9d, %xmm0
	movl	(%rdx,%r8,2), %r9d
	movl	%r9d, %r10d
	sarl	$16, %r10d
	xorps	%xmm1, %xmm1
	cvtsi2ss	%r10d, %xmm1
	mulss	.Lfilter_CPI0_9(%rip), %xmm1
	movzwl	%r9w, %r9d
	xorps	%xmm2, %xmm2
	cvtsi2ss	%r9d, %xmm2
	addss	%xmm1, %xmm2
	mulss	%xmm14, %xmm0
	addss	1056(%rsp,%r8,2), %xmm0
	movss	(%rax,%r8,2), %xmm1
	movss	(%rcx,%r8,2), %xmm3
	unpcklps	%xmm1, %xmm3
	mulps	%xmm9, %xmm3
	addps	.Lfilter_CPI0_10(%rip), %xmm3
	movaps	%xmm3, %xmm1
	shufps	$85, %xmm3, %xmm1
	mulss	%xmm2, %xmm1
	mulss	%xmm3, %xmm1
	subss	%xmm1, %xmm0
	divss	%xmm12, %xmm0
	subss	%xmm10, %xmm0
	movss	%xmm0, 800(%rsp,%r8,2)
	addq	$2, %r8
	cmpq	$64, %r8
	jne	.Lfilter_BB0_89
	jmp	.Lfilter_BB0_92
.Lfilter_BB0_90:
	xorl	%r8d, %r8d
.Lfilter_BB0_91:
	movzwl	(%rsi,%r8), %r9d
	rolw	$8, %r9w
	movswl	%r9w, %r9d
	xorps	%xmm0, %xmm0
	cvtsi2ss	%r9d, %xmm0
	movl	(%rdx,%r8,2), %r9d
	movl	%r9d, %r10d
	sarl	$16, %r10d
	xorps	%xmm1, %xmm1
	cvtsi2ss	%r10d, %xmm1
	mulss	.Lfilter_CPI0_9(%rip), %xmm1
	movzwl	%r9w, %r9d
	xorps	%xmm2, %xmm2
	cvtsi2ss	%r9d, %xmm2
	mulss	%xmm14, %xmm0
	addss	1056(%rsp,%r8,2), %xmm0
	addss	%xmm1, %xmm2
	movss	(%rax,%r8,2), %xmm1
	movss	(%rcx,%r8,2), %xmm3
	unpcklps	%xmm1, %xmm3
	mulps	%xmm9, %xmm3
	addps	.Lfilter_CPI0_10(%rip), %xmm3
	movaps	%xmm3, %xmm1
	shufps	$85, %xmm3, %xmm1
	mulss	%xmm2, %xmm1
	mulss	%xmm3, %xmm1
	subss	%xmm1, %xmm0
	divss	%xmm12, %xmm0
	movss	%xmm0, 800(%rsp,%r8,2)
	addq	$2, %r8
	cmpq	$64, %r8
	jne	.Lfilter_BB0_91
.Lfilter_BB0_92:
	xorps	%xmm0, %xmm0
	movaps	%xmm0, 224(%rsp)
	movaps	%xmm0, 208(%rsp)
	movaps	%xmm0, 192(%rsp)
	movaps	%xmm0, 176(%rsp)
	movaps	%xmm0, 160(%rsp)
	movaps	%xmm0, 144(%rsp)
	movaps	%xmm0, 128(%rsp)
	movaps	%xmm0, 112(%rsp)
	cmpb	$2, 28(%rsp)
	je	.Lfilter_BB0_96
	movl	92(%rsp), %eax
	cmpl	$1, %eax
	jne	.Lfilter_BB0_103
	leaq	280(%rsp), %rax
	leaq	800(%rsp), %rcx
	leaq	112(%rsp), %r8
	movq	%rdi, %r12
	movq	%rax, %rdi
	movq	1264(%rsp), %rsi
	movq	%r15, %rdx
	callq	loamchalice.filter.pixels.temperature_block
	movq	1344(%rsp), %r11
	movss	20(%rsp), %xmm10
	movss	4(%rsp), %xmm11
	movaps	64(%rsp), %xmm9
	movss	52(%rsp), %xmm12
	movaps	240(%rsp), %xmm14
	movq	%r12, %rdi
	movq	272(%rsp), %r12
	xorl	%eax, %eax
	movq	1328(%rsp), %r9
.Lfilter_BB0_95:
	movd	112(%rsp,%rax,4), %xmm0
	movd	116(%rsp,%rax,4), %xmm1
	movd	%xmm0, %ecx
	xorl	%edx, %edx
	ucomiss	%xmm0, %xmm0
	setp	%dl
	movl	$2143289344, %esi
	cmovpl	%esi, %ecx
	movl	%ecx, 496(%rsp,%rax,4)
	movd	%xmm1, %ecx
	xorl	%r8d, %r8d
	ucomiss	%xmm1, %xmm1
	movl	%edx, 368(%rsp,%rax,4)
	setp	%r8b
	cmovpl	%esi, %ecx
	movl	%ecx, 500(%rsp,%rax,4)
	movl	%r8d, 372(%rsp,%rax,4)
	addq	$2, %rax
	cmpq	$32, %rax
	jne	.Lfilter_BB0_95
	jmp	.Lfilter_BB0_109
.Lfilter_BB0_96:
	movaps	%xmm0, 624(%rsp)
	movaps	%xmm0, 640(%rsp)
	movaps	%xmm0, 656(%rsp)
	movaps	%xmm0, 672(%rsp)
	movaps	%xmm0, 688(%rsp)
	movaps	%xmm0, 704(%rsp)
	movaps	%xmm0, 720(%rsp)
	movaps	%xmm0, 736(%rsp)
	movaps	%xmm0, 928(%rsp)
	movaps	%xmm0, 944(%rsp)
	movaps	%xmm0, 960(%rsp)
	movaps	%xmm0, 976(%rsp)
	movaps	%xmm0, 992(%rsp)
	movaps	%xmm0, 1008(%rsp)
	movaps	%xmm0, 1024(%rsp)
	movaps	%xmm0, 1040(%rsp)
	leaq	280(%rsp), %rdi
	leaq	800(%rsp), %rcx
	leaq	112(%rsp), %r8
	movq	1264(%rsp), %rsi
	movq	%r15, %rdx
	callq	loamchalice.filter.pixels.temperature_block
	cmpb	$0, 24(%rsp)
	movq	80(%rsp), %rdx
	jne	.Lfilter_BB0_100
	movss	112(%rsp), %xmm2
	movss	116(%rsp), %xmm0
	unpcklps	%xmm0, %xmm2
	movss	120(%rsp), %xmm0
	movss	124(%rsp), %xmm1
	unpcklps	%xmm1, %xmm0
	movlhps	%xmm0, %xmm2
	movaps	%xmm2, 96(%rsp)
	movss	128(%rsp), %xmm2
	movss	132(%rsp), %xmm0
	unpcklps	%xmm0, %xmm2
	movss	136(%rsp), %xmm0
	movss	140(%rsp), %xmm1
	unpcklps	%xmm1, %xmm0
	movlhps	%xmm0, %xmm2
	movaps	%xmm2, 304(%rsp)
	movss	144(%rsp), %xmm2
	movss	148(%rsp), %xmm0
	unpcklps	%xmm0, %xmm2
	movss	152(%rsp), %xmm0
	movss	156(%rsp), %xmm1
	unpcklps	%xmm1, %xmm0
	movlhps	%xmm0, %xmm2
	movaps	%xmm2, 256(%rsp)
	movss	160(%rsp), %xmm2
	movss	164(%rsp), %xmm0
	punpckldq	%xmm0, %xmm2
	movss	168(%rsp), %xmm0
	movss	172(%rsp), %xmm1
	punpckldq	%xmm1, %xmm0
	punpcklqdq	%xmm0, %xmm2
	movdqa	%xmm2, 752(%rsp)
	movss	176(%rsp), %xmm4
	movss	180(%rsp), %xmm0
	unpcklps	%xmm0, %xmm4
	movss	184(%rsp), %xmm0
	movss	188(%rsp), %xmm1
	unpcklps	%xmm1, %xmm0
	movlhps	%xmm0, %xmm4
	movss	192(%rsp), %xmm5
	movss	196(%rsp), %xmm0
	unpcklps	%xmm0, %xmm5
	movss	200(%rsp), %xmm0
	movss	204(%rsp), %xmm1
	unpcklps	%xmm1, %xmm0
	movlhps	%xmm0, %xmm5
	movss	208(%rsp), %xmm6
	movss	212(%rsp), %xmm0
	unpcklps	%xmm0, %xmm6
	movss	216(%rsp), %xmm0
	movss	220(%rsp), %xmm1
	unpcklps	%xmm1, %xmm0
	movlhps	%xmm0, %xmm6
	movss	224(%rsp), %xmm7
	movss	228(%rsp), %xmm0
	unpcklps	%xmm0, %xmm7
	movss	232(%rsp), %xmm0
	movss	236(%rsp), %xmm1
	unpcklps	%xmm1, %xmm0
	movlhps	%xmm0, %xmm7
	xorps	%xmm8, %xmm8
	xorl	%eax, %eax
	xorps	%xmm9, %xmm9
	xorps	%xmm10, %xmm10
	xorps	%xmm11, %xmm11
	xorps	%xmm12, %xmm12
	xorps	%xmm13, %xmm13
	xorps	%xmm14, %xmm14
	pxor	%xmm2, %xmm2
.Lfilter_BB0_98:
	movswl	32(%rsp,%rax,2), %ecx
	xorps	%xmm0, %xmm0
	cvtsi2ss	%ecx, %xmm0
	shufps	$0, %xmm0, %xmm0
	movaps	%xmm0, %xmm15
	cmpleps	96(%rsp), %xmm15
	movd	%eax, %xmm1
	pshufd	$0, %xmm1, %xmm3
	movdqa	%xmm3, %xmm1
	pand	%xmm15, %xmm1
	andnps	%xmm8, %xmm15
	movaps	%xmm15, %xmm8
	orps	%xmm1, %xmm8
	movaps	%xmm0, %xmm1
	cmpleps	304(%rsp), %xmm1
	movdqa	%xmm3, %xmm15
	pand	%xmm1, %xmm15
	andnps	%xmm9, %xmm1
	movaps	%xmm1, %xmm9
	orps	%xmm15, %xmm9
	movaps	%xmm0, %xmm1
	cmpleps	256(%rsp), %xmm1
	movdqa	%xmm3, %xmm15
	pand	%xmm1, %xmm15
	andnps	%xmm10, %xmm1
	movaps	%xmm1, %xmm10
	orps	%xmm15, %xmm10
	movaps	%xmm0, %xmm1
	cmpleps	752(%rsp), %xmm1
	movdqa	%xmm3, %xmm15
	pand	%xmm1, %xmm15
	andnps	%xmm11, %xmm1
	movaps	%xmm1, %xmm11
	orps	%xmm15, %xmm11
	movaps	%xmm0, %xmm1
	cmpleps	%xmm4, %xmm1
	movdqa	%xmm3, %xmm15
	pand	%xmm1, %xmm15
	andnps	%xmm12, %xmm1
	movaps	%xmm1, %xmm12
	orps	%xmm15, %xmm12
	movaps	%xmm0, %xmm1
	cmpleps	%xmm5, %xmm1
	movdqa	%xmm3, %xmm15
	pand	%xmm1, %xmm15
	andnps	%xmm13, %xmm1
	movaps	%xmm1, %xmm13
	orps	%xmm15, %xmm13
	movaps	%xmm0, %xmm1
	cmpleps	%xmm6, %xmm1
	movdqa	%xmm3, %xmm15
	pand	%xmm1, %xmm15
	andnps	%xmm14, %xmm1
	movaps	%xmm1, %xmm14
	orps	%xmm15, %xmm14
	cmpleps	%xmm7, %xmm0
	pand	%xmm0, %xmm3
	pandn	%xmm2, %xmm0
	movdqa	%xmm0, %xmm2
	por	%xmm3, %xmm2
	incq	%rax
	cmpq	%rax, %rdx
	jne	.Lfilter_BB0_98
	movaps	%xmm8, 624(%rsp)
	movaps	%xmm9, 640(%rsp)
	movaps	%xmm10, 656(%rsp)
	movaps	%xmm11, 672(%rsp)
	movaps	%xmm12, 688(%rsp)
	movaps	%xmm13, 704(%rsp)
	movaps	%xmm14, 720(%rsp)
	movdqa	%xmm2, 736(%rsp)
.Lfilter_BB0_100:
	movq	1264(%rsp), %rax
	leaq	(%rax,%r15,4), %rax
	xorl	%ecx, %ecx
	testb	%r12b, %r12b
	je	.Lfilter_BB0_105
	movss	16(%rsp), %xmm4
	movss	12(%rsp), %xmm5
	movss	8(%rsp), %xmm6
.Lfilter_BB0_102:
	movl	624(%rsp,%rcx,4), %edx
	movss	(%rax,%rcx,4), %xmm0
	subss	%xmm4, %xmm0
	movswl	32(%rsp,%rdx,2), %esi
	xorps	%xmm1, %xmm1
	cvtsi2ss	%esi, %xmm1
	mulss	%xmm5, %xmm0
	movss	800(%rsp,%rcx,4), %xmm2
	movss	112(%rsp,%rcx,4), %xmm3
	subss	%xmm1, %xmm3
	mulss	768(%rsp,%rdx,4), %xmm0
	mulss	336(%rsp,%rdx,4), %xmm3
	addss	.Lfilter_CPI0_0(%rip), %xmm3
	mulss	%xmm0, %xmm3
	divss	%xmm3, %xmm2
	addss	%xmm6, %xmm2
	movss	%xmm2, 928(%rsp,%rcx,4)
	incq	%rcx
	cmpq	$32, %rcx
	jne	.Lfilter_BB0_102
	jmp	.Lfilter_BB0_107
.Lfilter_BB0_103:
	xorl	%eax, %eax
	movq	1328(%rsp), %r9
.Lfilter_BB0_104:
	movd	800(%rsp,%rax,4), %xmm0
	movd	804(%rsp,%rax,4), %xmm1
	movd	%xmm0, %ecx
	xorl	%edx, %edx
	ucomiss	%xmm0, %xmm0
	setp	%dl
	movl	$2143289344, %esi
	cmovpl	%esi, %ecx
	movl	%ecx, 496(%rsp,%rax,4)
	movd	%xmm1, %ecx
	xorl	%r8d, %r8d
	ucomiss	%xmm1, %xmm1
	movl	%edx, 368(%rsp,%rax,4)
	setp	%r8b
	cmovpl	%esi, %ecx
	movl	%ecx, 500(%rsp,%rax,4)
	movl	%r8d, 372(%rsp,%rax,4)
	addq	$2, %rax
	cmpq	$32, %rax
	jne	.Lfilter_BB0_104
	jmp	.Lfilter_BB0_109
.Lfilter_BB0_105:
	movss	12(%rsp), %xmm4
	movss	8(%rsp), %xmm5
.Lfilter_BB0_106:
	movl	624(%rsp,%rcx,4), %edx
	movss	(%rax,%rcx,4), %xmm0
	movswl	32(%rsp,%rdx,2), %esi
	xorps	%xmm1, %xmm1
	cvtsi2ss	%esi, %xmm1
	mulss	%xmm4, %xmm0
	movss	800(%rsp,%rcx,4), %xmm2
	movss	112(%rsp,%rcx,4), %xmm3
	subss	%xmm1, %xmm3
	mulss	768(%rsp,%rdx,4), %xmm0
	mulss	336(%rsp,%rdx,4), %xmm3
	addss	.Lfilter_CPI0_0(%rip), %xmm3
	mulss	%xmm0, %xmm3
	divss	%xmm3, %xmm2
	addss	%xmm5, %xmm2
	movss	%xmm2, 928(%rsp,%rcx,4)
	incq	%rcx
	cmpq	$32, %rcx
	jne	.Lfilter_BB0_106
.Lfilter_BB0_107:
	leaq	928(%rsp), %rdi
	leaq	112(%rsp), %rsi
	callq	loamchalice.filter.pixels.degrees_block
	xorl	%eax, %eax
	movq	320(%rsp), %rdi
	movq	56(%rsp), %r13
	movaps	240(%rsp), %xmm14
	movss	52(%rsp), %xmm12
	movaps	64(%rsp), %xmm9
	movss	4(%rsp), %xmm11
	movss	20(%rsp), %xmm10
	movq	1344(%rsp), %r11
	movq	1328(%rsp), %r9
.Lfilter_BB0_108:
	movd	112(%rsp,%rax,4), %xmm0
	movd	116(%rsp,%rax,4), %xmm1
	movd	%xmm0, %ecx
	xorl	%edx, %edx
	ucomiss	%xmm0, %xmm0
	setp	%dl
	movl	$2143289344, %esi
	cmovpl	%esi, %ecx
	movl	%ecx, 496(%rsp,%rax,4)
	movd	%xmm1, %ecx
	xorl	%r8d, %r8d
	ucomiss	%xmm1, %xmm1
	movl	%edx, 368(%rsp,%rax,4)
	setp	%r8b
	cmovpl	%esi, %ecx
	movl	%ecx, 500(%rsp,%rax,4)
	movl	%r8d, 372(%rsp,%rax,4)
	addq	$2, %rax
	cmpq	$32, %rax
	jne	.Lfilter_BB0_108
.Lfilter_BB0_109:
	movq	%r14, %rax
	shlq	$7, %rax
	movl	%ebp, %ecx
	shll	$7, %ecx
	addq	%r11, %rcx
	leaq	(%rcx,%rax), %rdx
	addq	%rbp, %r14
	shlq	$5, %r14
	leaq	(%r9,%r14), %rsi
	addq	$32, %rsi
	cmpq	%rsi, %rdx
	jae	.Lfilter_BB0_72
	addq	%rax, %rcx
	addq	$128, %rcx
	leaq	(%r9,%r15), %rax
	cmpq	%rcx, %rax
	jae	.Lfilter_BB0_72
	leaq	(%r11,%r15,4), %rdx
	xorl	%esi, %esi
	xorl	%ecx, %ecx
	xorl	%r8d, %r8d
.Lfilter_BB0_112:
	cmpb	$0, (%rax,%r8)
	leaq	496(%rsp,%r8,4), %r9
	leaq	(%rdx,%r8,4), %r10
	cmovneq	%r9, %r10
	movl	(%r10), %r9d
	movl	%r9d, (%rdx,%r8,4)
	movl	368(%rsp,%r8,4), %r9d
	cmovel	%esi, %r9d
	addl	%r9d, %ecx
	incq	%r8
	cmpq	$32, %r8
	jne	.Lfilter_BB0_112
	jmp	.Lfilter_BB0_73
.Lfilter_BB0_113:
	movl	$1, %ecx
	jmp	.Lfilter_BB0_50
.Lfilter_BB0_114:
	movl	$2, %ecx
	jmp	.Lfilter_BB0_50
.Lfilter_BB0_115:
	movl	$3, %ecx
	jmp	.Lfilter_BB0_50
.Lfilter_BB0_116:
	movl	$4, %ecx
	jmp	.Lfilter_BB0_50
.Lfilter_BB0_117:
	movl	$5, %ecx
	jmp	.Lfilter_BB0_50
.Lfilter_BB0_118:
	movss	4(%rsp), %xmm11
	movq	%rsi, %rcx
.Lfilter_BB0_119:
	movd	%xmm11, %eax
	ucomiss	%xmm11, %xmm11
	movl	$2143289344, %edx
	cmovnpl	%eax, %edx
	xorl	%eax, %eax
	jmp	.Lfilter_BB0_50
.Lfilter_BB0_120:
	movl	$6, %ecx
	jmp	.Lfilter_BB0_50
.Lfilter_func_end0:
	.size	loamchalice.filter.calculations.from_pixels, .Lfilter_func_end0-loamchalice.filter.calculations.from_pixels

	.section	.text.filter.pixels.temperature_block,"ax",@progbits
	.p2align	4
	.type	loamchalice.filter.pixels.temperature_block,@function
loamchalice.filter.pixels.temperature_block:
	pushq	%r15
	pushq	%r14
	pushq	%r12
	pushq	%rbx
	subq	$216, %rsp
	movq	%r8, %rbx
	movq	%rcx, %r14
	movq	%rdx, %r15
	movq	%rsi, %r12
	movss	4(%rdi), %xmm3
	movss	8(%rdi), %xmm2
	movss	12(%rdi), %xmm1
	movss	16(%rdi), %xmm0
	movaps	%xmm0, 160(%rsp)
	movss	20(%rdi), %xmm0
	movaps	%xmm0, 176(%rsp)
	cmpb	$0, (%rdi)
	xorps	%xmm0, %xmm0
	movaps	%xmm0, 112(%rsp)
	movaps	%xmm0, 96(%rsp)
	movaps	%xmm0, 80(%rsp)
	movaps	%xmm0, 64(%rsp)
	movaps	%xmm0, 48(%rsp)
	movaps	%xmm0, 32(%rsp)
	movaps	%xmm0, 16(%rsp)
	movaps	%xmm0, (%rsp)
	shufps	$0, %xmm1, %xmm1
	shufps	$0, %xmm2, %xmm2
	je	.Lfilter_BB1_2
	shufps	$0, %xmm3, %xmm3
	movaps	%xmm3, 192(%rsp)
	movups	(%r12,%r15,4), %xmm0
	subps	%xmm3, %xmm0
	mulps	%xmm2, %xmm0
	movaps	%xmm1, %xmm4
	movups	(%r14), %xmm1
	movaps	%xmm2, %xmm5
	movaps	%xmm0, %xmm2
	mulps	%xmm0, %xmm2
	mulps	%xmm2, %xmm0
	mulps	%xmm1, %xmm0
	mulps	%xmm2, %xmm2
	mulps	%xmm4, %xmm2
	addps	%xmm0, %xmm2
	movaps	%xmm2, (%rsp)
	movups	16(%r12,%r15,4), %xmm0
	subps	%xmm3, %xmm0
	mulps	%xmm5, %xmm0
	movups	16(%r14), %xmm1
	movaps	%xmm0, %xmm2
	mulps	%xmm0, %xmm2
	mulps	%xmm2, %xmm0
	mulps	%xmm1, %xmm0
	mulps	%xmm2, %xmm2
	mulps	%xmm4, %xmm2
	addps	%xmm0, %xmm2
	movaps	%xmm2, 16(%rsp)
	movups	32(%r12,%r15,4), %xmm0
	subps	%xmm3, %xmm0
	mulps	%xmm5, %xmm0
	movups	32(%r14), %xmm1
	movaps	%xmm0, %xmm2
	mulps	%xmm0, %xmm2
	mulps	%xmm2, %xmm0
	mulps	%xmm1, %xmm0
	mulps	%xmm2, %xmm2
	mulps	%xmm4, %xmm2
	addps	%xmm0, %xmm2
	movaps	%xmm2, 32(%rsp)
	movups	48(%r12,%r15,4), %xmm0
	subps	%xmm3, %xmm0
	mulps	%xmm5, %xmm0
	movups	48(%r14), %xmm1
	movaps	%xmm0, %xmm2
	mulps	%xmm0, %xmm2
	mulps	%xmm2, %xmm0
	mulps	%xmm1, %xmm0
	mulps	%xmm2, %xmm2
	mulps	%xmm4, %xmm2
	addps	%xmm0, %xmm2
	movaps	%xmm2, 48(%rsp)
	movups	64(%r12,%r15,4), %xmm0
	subps	%xmm3, %xmm0
	mulps	%xmm5, %xmm0
	movups	64(%r14), %xmm1
	movaps	%xmm0, %xmm2
	mulps	%xmm0, %xmm2
	mulps	%xmm2, %xmm0
	mulps	%xmm1, %xmm0
	mulps	%xmm2, %xmm2
	mulps	%xmm4, %xmm2
	addps	%xmm0, %xmm2
	movaps	%xmm2, 64(%rsp)
	movups	80(%r12,%r15,4), %xmm0
	subps	%xmm3, %xmm0
	mulps	%xmm5, %xmm0
	movups	80(%r14), %xmm1
	movaps	%xmm0, %xmm2
	mulps	%xmm0, %xmm2
	mulps	%xmm2, %xmm0
	mulps	%xmm1, %xmm0
	mulps	%xmm2, %xmm2
	movaps	%xmm4, 144(%rsp)
	mulps	%xmm4, %xmm2
	addps	%xmm0, %xmm2
	movaps	%xmm2, 80(%rsp)
	movups	96(%r12,%r15,4), %xmm0
	subps	%xmm3, %xmm0
	mulps	%xmm5, %xmm0
	movaps	%xmm5, 128(%rsp)
	movups	96(%r14), %xmm1
	movaps	%xmm0, %xmm2
	mulps	%xmm0, %xmm2
	mulps	%xmm2, %xmm0
	mulps	%xmm1, %xmm0
	mulps	%xmm2, %xmm2
	mulps	%xmm4, %xmm2
	addps	%xmm0, %xmm2
	movaps	%xmm2, 96(%rsp)
	movups	112(%r12,%r15,4), %xmm0
	subps	%xmm3, %xmm0
	mulps	%xmm5, %xmm0
	movups	112(%r14), %xmm1
	movaps	%xmm0, %xmm2
	mulps	%xmm0, %xmm2
	mulps	%xmm2, %xmm0
	mulps	%xmm1, %xmm0
	mulps	%xmm2, %xmm2
	mulps	%xmm4, %xmm2
	addps	%xmm0, %xmm2
	movaps	%xmm2, 112(%rsp)
	movq	%rsp, %rdi
	movq	%rbx, %rsi
	callq	loamchalice.filter.roots.fourth_roots
	movaps	176(%rsp), %xmm3
	shufps	$0, %xmm3, %xmm3
	movaps	160(%rsp), %xmm4
	shufps	$0, %xmm4, %xmm4
	movups	(%r12,%r15,4), %xmm0
	movaps	192(%rsp), %xmm7
	subps	%xmm7, %xmm0
	movaps	128(%rsp), %xmm6
	mulps	%xmm6, %xmm0
	movups	(%r14), %xmm1
	movups	(%rbx), %xmm2
	mulps	%xmm4, %xmm2
	mulps	%xmm3, %xmm0
	addps	%xmm2, %xmm0
	divps	%xmm0, %xmm1
	movaps	144(%rsp), %xmm5
	addps	%xmm5, %xmm1
	movaps	%xmm1, (%rsp)
	movups	16(%r12,%r15,4), %xmm0
	subps	%xmm7, %xmm0
	mulps	%xmm6, %xmm0
	movups	16(%r14), %xmm1
	movups	16(%rbx), %xmm2
	mulps	%xmm4, %xmm2
	mulps	%xmm3, %xmm0
	addps	%xmm2, %xmm0
	divps	%xmm0, %xmm1
	addps	%xmm5, %xmm1
	movaps	%xmm1, 16(%rsp)
	movups	32(%r12,%r15,4), %xmm0
	subps	%xmm7, %xmm0
	mulps	%xmm6, %xmm0
	movups	32(%r14), %xmm1
	movups	32(%rbx), %xmm2
	mulps	%xmm4, %xmm2
	mulps	%xmm3, %xmm0
	addps	%xmm2, %xmm0
	divps	%xmm0, %xmm1
	addps	%xmm5, %xmm1
	movaps	%xmm1, 32(%rsp)
	movups	48(%r12,%r15,4), %xmm0
	subps	%xmm7, %xmm0
	mulps	%xmm6, %xmm0
	movups	48(%r14), %xmm1
	movups	48(%rbx), %xmm2
	mulps	%xmm4, %xmm2
	mulps	%xmm3, %xmm0
	addps	%xmm2, %xmm0
	divps	%xmm0, %xmm1
	addps	%xmm5, %xmm1
	movaps	%xmm1, 48(%rsp)
	movups	64(%r12,%r15,4), %xmm0
	subps	%xmm7, %xmm0
	mulps	%xmm6, %xmm0
	movups	64(%r14), %xmm1
	movups	64(%rbx), %xmm2
	mulps	%xmm4, %xmm2
	mulps	%xmm3, %xmm0
	addps	%xmm2, %xmm0
	divps	%xmm0, %xmm1
	addps	%xmm5, %xmm1
	movaps	%xmm1, 64(%rsp)
	movups	80(%r12,%r15,4), %xmm0
	subps	%xmm7, %xmm0
	mulps	%xmm6, %xmm0
	movups	80(%r14), %xmm1
	movups	80(%rbx), %xmm2
	mulps	%xmm4, %xmm2
	mulps	%xmm3, %xmm0
	addps	%xmm2, %xmm0
	divps	%xmm0, %xmm1
	addps	%xmm5, %xmm1
	movaps	%xmm1, 80(%rsp)
	movups	96(%r12,%r15,4), %xmm0
	subps	%xmm7, %xmm0
	mulps	%xmm6, %xmm0
	movups	96(%r14), %xmm1
	movups	96(%rbx), %xmm2
	mulps	%xmm4, %xmm2
	mulps	%xmm3, %xmm0
	addps	%xmm2, %xmm0
	divps	%xmm0, %xmm1
	addps	%xmm5, %xmm1
	movaps	%xmm1, 96(%rsp)
	movups	112(%r12,%r15,4), %xmm0
	subps	%xmm7, %xmm0
	jmp	.Lfilter_BB1_3
.Lfilter_BB1_2:
	movups	(%r12,%r15,4), %xmm0
	mulps	%xmm2, %xmm0
	movaps	%xmm1, %xmm3
	movups	(%r14), %xmm1
	movaps	%xmm2, %xmm4
	movaps	%xmm0, %xmm2
	mulps	%xmm0, %xmm2
	mulps	%xmm2, %xmm0
	mulps	%xmm1, %xmm0
	mulps	%xmm2, %xmm2
	mulps	%xmm3, %xmm2
	addps	%xmm0, %xmm2
	movaps	%xmm2, (%rsp)
	movups	16(%r12,%r15,4), %xmm0
	mulps	%xmm4, %xmm0
	movups	16(%r14), %xmm1
	movaps	%xmm0, %xmm2
	mulps	%xmm0, %xmm2
	mulps	%xmm2, %xmm0
	mulps	%xmm1, %xmm0
	mulps	%xmm2, %xmm2
	mulps	%xmm3, %xmm2
	addps	%xmm0, %xmm2
	movaps	%xmm2, 16(%rsp)
	movups	32(%r12,%r15,4), %xmm0
	mulps	%xmm4, %xmm0
	movups	32(%r14), %xmm1
	movaps	%xmm0, %xmm2
	mulps	%xmm0, %xmm2
	mulps	%xmm2, %xmm0
	mulps	%xmm1, %xmm0
	mulps	%xmm2, %xmm2
	mulps	%xmm3, %xmm2
	addps	%xmm0, %xmm2
	movaps	%xmm2, 32(%rsp)
	movups	48(%r12,%r15,4), %xmm0
	movaps	%xmm4, 128(%rsp)
	mulps	%xmm4, %xmm0
	movups	48(%r14), %xmm1
	movaps	%xmm0, %xmm2
	mulps	%xmm0, %xmm2
	mulps	%xmm2, %xmm0
	mulps	%xmm1, %xmm0
	mulps	%xmm2, %xmm2
	mulps	%xmm3, %xmm2
	addps	%xmm0, %xmm2
	movaps	%xmm2, 48(%rsp)
	movups	64(%r12,%r15,4), %xmm0
	mulps	%xmm4, %xmm0
	movups	64(%r14), %xmm1
	movaps	%xmm0, %xmm2
	mulps	%xmm0, %xmm2
	mulps	%xmm2, %xmm0
	mulps	%xmm1, %xmm0
	mulps	%xmm2, %xmm2
	mulps	%xmm3, %xmm2
	addps	%xmm0, %xmm2
	movaps	%xmm2, 64(%rsp)
	movups	80(%r12,%r15,4), %xmm0
	mulps	%xmm4, %xmm0
	movups	80(%r14), %xmm1
	movaps	%xmm0, %xmm2
	mulps	%xmm0, %xmm2
	mulps	%xmm2, %xmm0
	mulps	%xmm1, %xmm0
	mulps	%xmm2, %xmm2
	mulps	%xmm3, %xmm2
	addps	%xmm0, %xmm2
	movaps	%xmm2, 80(%rsp)
	movups	96(%r12,%r15,4), %xmm0
	mulps	%xmm4, %xmm0
	movups	96(%r14), %xmm1
	movaps	%xmm0, %xmm2
	mulps	%xmm0, %xmm2
	mulps	%xmm2, %xmm0
	mulps	%xmm1, %xmm0
	mulps	%xmm2, %xmm2
	mulps	%xmm3, %xmm2
	movaps	%xmm3, 144(%rsp)
	addps	%xmm0, %xmm2
	movaps	%xmm2, 96(%rsp)
	movups	112(%r12,%r15,4), %xmm0
	mulps	%xmm4, %xmm0
	movups	112(%r14), %xmm1
	movaps	%xmm0, %xmm2
	mulps	%xmm0, %xmm2
	mulps	%xmm2, %xmm0
	mulps	%xmm1, %xmm0
	mulps	%xmm2, %xmm2
	mulps	%xmm3, %xmm2
	addps	%xmm0, %xmm2
	movaps	%xmm2, 112(%rsp)
	movq	%rsp, %rdi
	movq	%rbx, %rsi
	callq	loamchalice.filter.roots.fourth_roots
	movaps	176(%rsp), %xmm3
	shufps	$0, %xmm3, %xmm3
	movaps	160(%rsp), %xmm4
	shufps	$0, %xmm4, %xmm4
	movups	(%r12,%r15,4), %xmm0
	movaps	128(%rsp), %xmm6
	mulps	%xmm6, %xmm0
	movups	(%r14), %xmm1
	movups	(%rbx), %xmm2
	mulps	%xmm4, %xmm2
	mulps	%xmm3, %xmm0
	addps	%xmm2, %xmm0
	divps	%xmm0, %xmm1
	movaps	144(%rsp), %xmm5
	addps	%xmm5, %xmm1
	movaps	%xmm1, (%rsp)
	movups	16(%r12,%r15,4), %xmm0
	mulps	%xmm6, %xmm0
	movups	16(%r14), %xmm1
	movups	16(%rbx), %xmm2
	mulps	%xmm4, %xmm2
	mulps	%xmm3, %xmm0
	addps	%xmm2, %xmm0
	divps	%xmm0, %xmm1
	addps	%xmm5, %xmm1
	movaps	%xmm1, 16(%rsp)
	movups	32(%r12,%r15,4), %xmm0
	mulps	%xmm6, %xmm0
	movups	32(%r14), %xmm1
	movups	32(%rbx), %xmm2
	mulps	%xmm4, %xmm2
	mulps	%xmm3, %xmm0
	addps	%xmm2, %xmm0
	divps	%xmm0, %xmm1
	addps	%xmm5, %xmm1
	movaps	%xmm1, 32(%rsp)
	movups	48(%r12,%r15,4), %xmm0
	mulps	%xmm6, %xmm0
	movups	48(%r14), %xmm1
	movups	48(%rbx), %xmm2
	mulps	%xmm4, %xmm2
	mulps	%xmm3, %xmm0
	addps	%xmm2, %xmm0
	divps	%xmm0, %xmm1
	addps	%xmm5, %xmm1
	movaps	%xmm1, 48(%rsp)
	movups	64(%r12,%r15,4), %xmm0
	mulps	%xmm6, %xmm0
	movups	64(%r14), %xmm1
	movups	64(%rbx), %xmm2
	mulps	%xmm4, %xmm2
	mulps	%xmm3, %xmm0
	addps	%xmm2, %xmm0
	divps	%xmm0, %xmm1
	addps	%xmm5, %xmm1
	movaps	%xmm1, 64(%rsp)
	movups	80(%r12,%r15,4), %xmm0
	mulps	%xmm6, %xmm0
	movups	80(%r14), %xmm1
	movups	80(%rbx), %xmm2
	mulps	%xmm4, %xmm2
	mulps	%xmm3, %xmm0
	addps	%xmm2, %xmm0
	divps	%xmm0, %xmm1
	addps	%xmm5, %xmm1
	movaps	%xmm1, 80(%rsp)
	movups	96(%r12,%r15,4), %xmm0
	mulps	%xmm6, %xmm0
	movups	96(%r14), %xmm1
	movups	96(%rbx), %xmm2
	mulps	%xmm4, %xmm2
	mulps	%xmm3, %xmm0
	addps	%xmm2, %xmm0
	divps	%xmm0, %xmm1
	addps	%xmm5, %xmm1
	movaps	%xmm1, 96(%rsp)
	movups	112(%r12,%r15,4), %xmm0
.Lfilter_BB1_3:
	mulps	%xmm6, %xmm0
	movups	112(%r14), %xmm1
	movups	112(%rbx), %xmm2
	mulps	%xmm4, %xmm2
	mulps	%xmm3, %xmm0
	addps	%xmm2, %xmm0
	divps	%xmm0, %xmm1
	addps	%xmm5, %xmm1
	movaps	%xmm1, 112(%rsp)
	movq	%rsp, %rdi
	movq	%rbx, %rsi
	callq	loamchalice.filter.pixels.degrees_block
	addq	$216, %rsp
	popq	%rbx
	popq	%r12
	popq	%r14
	popq	%r15
	retq
.Lfilter_func_end1:
	.size	loamchalice.filter.pixels.temperature_block, .Lfilter_func_end1-loamchalice.filter.pixels.temperature_block

	.section	.rodata.cst16,"aM",@progbits,16
	.p2align	4, 0x0
.Lfilter_CPI2_0:
	.long	2143289344
	.long	2143289344
	.long	2143289344
	.long	2143289344
.Lfilter_CPI2_1:
	.long	8388608
	.long	8388608
	.long	8388608
	.long	8388608
.Lfilter_CPI2_2:
	.long	33554431
	.long	33554431
	.long	33554431
	.long	33554431
.Lfilter_CPI2_3:
	.long	1065353216
	.long	1065353216
	.long	1065353216
	.long	1065353216
.Lfilter_CPI2_4:
	.long	1331173376
	.long	1331173376
	.long	1331173376
	.long	1331173376
.Lfilter_CPI2_5:
	.long	0x3dc5d67e
	.long	0x3dc5d67e
	.long	0x3dc5d67e
	.long	0x3dc5d67e
.Lfilter_CPI2_6:
	.long	0x3df332a8
	.long	0x3df332a8
	.long	0x3df332a8
	.long	0x3df332a8
.Lfilter_CPI2_7:
	.long	0x3e1ffe93
	.long	0x3e1ffe93
	.long	0x3e1ffe93
	.long	0x3e1ffe93
.Lfilter_CPI2_8:
	.long	0x3e7ffe6f
	.long	0x3e7ffe6f
	.long	0x3e7ffe6f
	.long	0x3e7ffe6f
.Lfilter_CPI2_12:
	.long	1048576000
	.long	1048576000
	.long	1048576000
	.long	1048576000
.Lfilter_CPI2_13:
	.long	8388607
	.long	8388607
	.long	8388607
	.long	8388607
.Lfilter_CPI2_14:
	.long	4286578688
	.long	4286578688
	.long	4286578688
	.long	4286578688
.Lfilter_CPI2_15:
	.long	2139095039
	.long	2139095039
	.long	2139095039
	.long	2139095039
.Lfilter_CPI2_16:
	.long	528482304
	.long	528482304
	.long	528482304
	.long	528482304
	.section	.rodata.cst4,"aM",@progbits,4
	.p2align	2, 0x0
.Lfilter_CPI2_9:
	.long	0x3f800000
.Lfilter_CPI2_10:
	.long	0x3f000000
.Lfilter_CPI2_11:
	.long	0x45800800
.Lfilter_CPI2_17:
	.long	0x7fc00000
	.section	.rodata.cst8,"aM",@progbits,8
	.p2align	3, 0x0
.Lfilter_CPI2_18:
	.long	0x7fc00000
	.long	0x7f800000
.Lfilter_CPI2_19:
	.quad	0xbfd8d6dad5c5805a
.Lfilter_CPI2_20:
	.quad	0x3ff48987b38c9874
.Lfilter_CPI2_21:
	.quad	0xbf89e11a55579851
.Lfilter_CPI2_22:
	.quad	0x3fbbd11ca559a5b5
.Lfilter_CPI2_23:
	.quad	0xbfd9564a9a0cc3d0
.Lfilter_CPI2_24:
	.quad	0x3ff49e6fb879243c
.Lfilter_CPI2_25:
	.quad	0xbf8b3fdc3e64f496
.Lfilter_CPI2_26:
	.quad	0x3fbcd40c7b79c813
.Lfilter_CPI2_27:
	.quad	0xbfd9da666a8282c0
.Lfilter_CPI2_28:
	.quad	0x3ff4b3c3e0838e08
.Lfilter_CPI2_29:
	.quad	0xbf8cb74d9f20e3c5
.Lfilter_CPI2_30:
	.quad	0x3fbde4cf1160987f
.Lfilter_CPI2_31:
	.quad	0xbfda636eaa84aa24
.Lfilter_CPI2_32:
	.quad	0x3ff4c9882b15accb
.Lfilter_CPI2_33:
	.quad	0xbf8e499d1637aac6
.Lfilter_CPI2_34:
	.quad	0x3fbf045f9100c8fb
.Lfilter_CPI2_35:
	.quad	0xbfdaf1a85969655f
.Lfilter_CPI2_36:
	.quad	0x3ff4dfc0cf2a5dce
.Lfilter_CPI2_37:
	.quad	0xbf8ff9350c84276a
.Lfilter_CPI2_38:
	.quad	0x3fc019e7c4a5cc82
.Lfilter_CPI2_39:
	.quad	0xbfdb855d7ca13de0
.Lfilter_CPI2_40:
	.quad	0x3ff4f6723f50bfea
.Lfilter_CPI2_41:
	.quad	0xbf90e461a137b60f
.Lfilter_CPI2_42:
	.quad	0x3fc0ba24ac9d711a
.Lfilter_CPI2_43:
	.quad	0xbfdc1edd9569549c
.Lfilter_CPI2_44:
	.quad	0x3ff50da12e0ca82a
.Lfilter_CPI2_45:
	.quad	0xbf91dda0bc0f98f5
.Lfilter_CPI2_46:
	.quad	0x3fc1638974e0b1d2
.Lfilter_CPI2_47:
	.quad	0xbfdcbe7e238a7215
.Lfilter_CPI2_48:
	.quad	0x3ff52552929e8fbf
.Lfilter_CPI2_49:
	.quad	0xbf92e9ffafd562c7
.Lfilter_CPI2_50:
	.quad	0x3fc216c861238d76
.Lfilter_CPI2_51:
	.quad	0xbfdd649b36da6586
.Lfilter_CPI2_52:
	.quad	0x3ff53d8bae3e8fed
.Lfilter_CPI2_53:
	.quad	0xbf940b5708b9b0fb
.Lfilter_CPI2_54:
	.quad	0x3fc2d4a4c2a70153
.Lfilter_CPI2_55:
	.quad	0xbfde119811778ee7
.Lfilter_CPI2_56:
	.quad	0x3ff5565211d78886
.Lfilter_CPI2_57:
	.quad	0xbf9543b6a2c0f3d1
.Lfilter_CPI2_58:
	.quad	0x3fc39df4f298d76f
.Lfilter_CPI2_59:
	.quad	0xbfdec5dfdd045494
.Lfilter_CPI2_60:
	.quad	0x3ff56faba4515177
.Lfilter_CPI2_61:
	.quad	0xbf96956d50f05671
.Lfilter_CPI2_62:
	.quad	0x3fc473a491df2605
.Lfilter_CPI2_63:
	.quad	0xbfdf81e67583ece0
.Lfilter_CPI2_64:
	.quad	0x3ff5899ea97ae286
.Lfilter_CPI2_65:
	.quad	0xbf980311beecdf50
.Lfilter_CPI2_66:
	.quad	0x3fc556b719595084
.Lfilter_CPI2_67:
	.quad	0xbfe02314a673068e
.Lfilter_CPI2_68:
	.quad	0x3ff5a431c9a7ba2d
.Lfilter_CPI2_69:
	.quad	0xbf998f8cc6c133d0
.Lfilter_CPI2_70:
	.quad	0x3fc6484ac7a206de
.Lfilter_CPI2_71:
	.quad	0xbfe0899835678b25
.Lfilter_CPI2_72:
	.quad	0x3ff5bf6c1a168c70
.Lfilter_CPI2_73:
	.quad	0xbf9b3e25807701df
.Lfilter_CPI2_74:
	.quad	0x3fc7499bfbc8f77c
.Lfilter_CPI2_75:
	.quad	0xbfe0f4c7c6612df5
.Lfilter_CPI2_76:
	.quad	0x3ff5db55263a7735
.Lfilter_CPI2_77:
	.quad	0xbf9d128f5ff1d144
.Lfilter_CPI2_78:
	.quad	0x3fc85c090f67f3a1
.Lfilter_CPI2_79:
	.quad	0xbfe164f3b5c49c7a
.Lfilter_CPI2_80:
	.quad	0x3ff5f7f4fa03b8fd
.Lfilter_CPI2_81:
	.quad	0xbf9f10fac7b9e0fd
.Lfilter_CPI2_82:
	.quad	0x3fc98116c604a5ac
.Lfilter_CPI2_83:
	.quad	0xbfe1da7395c50e4c
.Lfilter_CPI2_84:
	.quad	0x3ff615542d494b58
.Lfilter_CPI2_85:
	.quad	0xbfa09f1447099ec3
.Lfilter_CPI2_86:
	.quad	0x3fcaba756c0423f4
.Lfilter_CPI2_87:
	.quad	0xbfe255a6ff632f04
.Lfilter_CPI2_88:
	.quad	0x3ff6337bf079ed95
.Lfilter_CPI2_89:
	.quad	0xbfa1cfc087047581
.Lfilter_CPI2_90:
	.quad	0x3fcc0a06c4c15e4e
.Lfilter_CPI2_91:
	.quad	0xbfe2d6f680371f14
.Lfilter_CPI2_92:
	.quad	0x3ff652761ac144d6
.Lfilter_CPI2_93:
	.quad	0xbfa31d97c0c539a3
.Lfilter_CPI2_94:
	.quad	0x3fcd71e4edd8a92e
.Lfilter_CPI2_95:
	.quad	0xbfe35ed4a9ba21f2
.Lfilter_CPI2_96:
	.quad	0x3ff6724d39d4ef3d
.Lfilter_CPI2_97:
	.quad	0xbfa48c214730858e
.Lfilter_CPI2_98:
	.quad	0x3fcef46a65c0d8ac
.Lfilter_CPI2_99:
	.quad	0xbfe3edbf47a9bdea
.Lfilter_CPI2_100:
	.quad	0x3ff6930ca3a5fbdb
.Lfilter_CPI2_101:
	.quad	0xbfa61f699420162c
.Lfilter_CPI2_102:
	.quad	0x3fd04a1db6ddbdce
.Lfilter_CPI2_103:
	.quad	0xbfe48440c4354b61
.Lfilter_CPI2_104:
	.quad	0x3ff6b4c08a3d7463
.Lfilter_CPI2_105:
	.quad	0xbfa7dc1999064aaa
.Lfilter_CPI2_106:
	.quad	0x3fd12a2885c2d55c
.Lfilter_CPI2_107:
	.quad	0xbfe522f1c1fc9caa
.Lfilter_CPI2_108:
	.quad	0x3ff6d7761216e589
.Lfilter_CPI2_109:
	.quad	0xbfa9c792d22551ea
.Lfilter_CPI2_110:
	.quad	0x3fd21c02ff5670aa
.Lfilter_CPI2_111:
	.quad	0xbfe5ca7af58a6166
.Lfilter_CPI2_112:
	.quad	0x3ff6fb3b6b5a8c6c
.Lfilter_CPI2_113:
	.quad	0xbfabe8113a584e1d
.Lfilter_CPI2_114:
	.quad	0x3fd32193086fb443
.Lfilter_CPI2_115:
	.quad	0xbfe67b9749fb94b2
.Lfilter_CPI2_116:
	.quad	0x3ff7201fee6a962f
.Lfilter_CPI2_117:
	.quad	0xbfae44d489bade19
.Lfilter_CPI2_118:
	.quad	0x3fd43d0020924148
.Lfilter_CPI2_119:
	.quad	0xbfe737165f09042f
.Lfilter_CPI2_120:
	.quad	0x3ff746343c4c6c38
.Lfilter_CPI2_121:
	.quad	0xbfb07329465d1743
.Lfilter_CPI2_122:
	.quad	0x3fd570be3491b6b7
.Lfilter_CPI2_123:
	.quad	0xbfe7fddf71cb1ffa
.Lfilter_CPI2_124:
	.quad	0x3ff76d8a639148f5
.Lfilter_CPI2_125:
	.quad	0xbfb1eb3a718070d4
.Lfilter_CPI2_126:
	.quad	0x3fd6bf9a91c44d0c
.Lfilter_CPI2_127:
	.quad	0xbfe8d0f4c57fb846
.Lfilter_CPI2_128:
	.quad	0x3ff796360a817401
.Lfilter_CPI2_129:
	.quad	0xbfb39072906b220e
.Lfilter_CPI2_130:
	.quad	0x3fd82ccb76f32def
.Lfilter_CPI2_131:
	.quad	0xbfe9b177a6904feb
.Lfilter_CPI2_132:
	.quad	0x3ff7c04c9f750ec5
.Lfilter_CPI2_133:
	.quad	0xbfb569b5984f8e41
.Lfilter_CPI2_134:
	.quad	0x3fd9bc02e1674462
.Lfilter_CPI2_135:
	.quad	0xbfeaa0ad2864dd46
.Lfilter_CPI2_136:
	.quad	0x3ff7ebe590764371
.Lfilter_CPI2_137:
	.quad	0xbfb77f3180d8ed5f
.Lfilter_CPI2_138:
	.quad	0x3fdb71855faad984
.Lfilter_CPI2_139:
	.quad	0xbfeba003c69b59ab
.Lfilter_CPI2_140:
	.quad	0x3ff8191a8b857f7c
.Lfilter_CPI2_141:
	.quad	0xbfb9daa8153fb04b
.Lfilter_CPI2_142:
	.quad	0x3fdd5245ec4a3182
.Lfilter_CPI2_143:
	.quad	0xbfecb11a1c961214
.Lfilter_CPI2_144:
	.quad	0x3ff84807c924869d
.Lfilter_CPI2_145:
	.quad	0xbfbc87cc279b3083
.Lfilter_CPI2_146:
	.quad	0x3fdf64081dc7d151
.Lfilter_CPI2_147:
	.quad	0x4330000000000000
.Lfilter_CPI2_148:
	.quad	0xc330000000000000
	.section	.text.filter.roots.fourth_roots,"ax",@progbits
	.p2align	4
	.type	loamchalice.filter.roots.fourth_roots,@function
loamchalice.filter.roots.fourth_roots:
	pushq	%rbx
	subq	$384, %rsp
	xorps	%xmm0, %xmm0
	movaps	%xmm0, (%rsp)
	movaps	%xmm0, 16(%rsp)
	movaps	%xmm0, 32(%rsp)
	movaps	%xmm0, 48(%rsp)
	movaps	%xmm0, 64(%rsp)
	movaps	%xmm0, 80(%rsp)
	movaps	%xmm0, 96(%rsp)
	movaps	%xmm0, 112(%rsp)
	movaps	%xmm0, -128(%rsp)
	movaps	%xmm0, -112(%rsp)
	movaps	%xmm0, -96(%rsp)
	movaps	%xmm0, -80(%rsp)
	movaps	%xmm0, -64(%rsp)
	movaps	%xmm0, -48(%rsp)
	movaps	%xmm0, -32(%rsp)
	movaps	%xmm0, -16(%rsp)
	movups	(%rdi), %xmm1
	movaps	%xmm1, %xmm8
	movaps	%xmm1, %xmm2
	shufps	$85, %xmm1, %xmm2
	unpcklps	%xmm2, %xmm8
	movaps	%xmm1, %xmm2
	unpckhpd	%xmm1, %xmm2
	movaps	%xmm1, %xmm3
	shufps	$255, %xmm1, %xmm3
	unpcklps	%xmm3, %xmm2
	movlhps	%xmm2, %xmm8
	cmpunordps	%xmm0, %xmm8
	movaps	%xmm8, %xmm2
	andnps	%xmm1, %xmm2
	movaps	.Lfilter_CPI2_0(%rip), %xmm4
	andps	%xmm4, %xmm8
	orps	%xmm2, %xmm8
	movaps	%xmm8, 128(%rsp)
	movups	16(%rdi), %xmm1
	movaps	%xmm1, %xmm10
	movaps	%xmm1, %xmm2
	shufps	$85, %xmm1, %xmm2
	unpcklps	%xmm2, %xmm10
	movaps	%xmm1, %xmm2
	unpckhpd	%xmm1, %xmm2
	movaps	%xmm1, %xmm3
	shufps	$255, %xmm1, %xmm3
	unpcklps	%xmm3, %xmm2
	movlhps	%xmm2, %xmm10
	cmpunordps	%xmm0, %xmm10
	movaps	%xmm10, %xmm2
	andnps	%xmm1, %xmm2
	andps	%xmm4, %xmm10
	orps	%xmm2, %xmm10
	movaps	%xmm10, 144(%rsp)
	movups	32(%rdi), %xmm1
	movaps	%xmm1, %xmm9
	movaps	%xmm1, %xmm2
	shufps	$85, %xmm1, %xmm2
	unpcklps	%xmm2, %xmm9
	movaps	%xmm1, %xmm2
	unpckhpd	%xmm1, %xmm2
	movaps	%xmm1, %xmm3
	shufps	$255, %xmm1, %xmm3
	unpcklps	%xmm3, %xmm2
	movlhps	%xmm2, %xmm9
	cmpunordps	%xmm0, %xmm9
	movaps	%xmm9, %xmm2
	andnps	%xmm1, %xmm2
	andps	%xmm4, %xmm9
	orps	%xmm2, %xmm9
	movaps	%xmm9, 160(%rsp)
	movups	48(%rdi), %xmm1
	movaps	%xmm1, %xmm7
	movaps	%xmm1, %xmm2
	shufps	$85, %xmm1, %xmm2
	unpcklps	%xmm2, %xmm7
	movaps	%xmm1, %xmm2
	unpckhpd	%xmm1, %xmm2
	movaps	%xmm1, %xmm3
	shufps	$255, %xmm1, %xmm3
	unpcklps	%xmm3, %xmm2
	movlhps	%xmm2, %xmm7
	cmpunordps	%xmm0, %xmm7
	movaps	%xmm7, %xmm2
	andnps	%xmm1, %xmm2
	andps	%xmm4, %xmm7
	orps	%xmm2, %xmm7
	movaps	%xmm7, 176(%rsp)
	movups	64(%rdi), %xmm1
	movaps	%xmm1, %xmm5
	movaps	%xmm1, %xmm2
	shufps	$85, %xmm1, %xmm2
	unpcklps	%xmm2, %xmm5
	movaps	%xmm1, %xmm2
	unpckhpd	%xmm1, %xmm2
	movaps	%xmm1, %xmm3
	shufps	$255, %xmm1, %xmm3
	unpcklps	%xmm3, %xmm2
	movlhps	%xmm2, %xmm5
	cmpunordps	%xmm0, %xmm5
	movaps	%xmm5, %xmm2
	andnps	%xmm1, %xmm2
	andps	%xmm4, %xmm5
	orps	%xmm2, %xmm5
	movaps	%xmm5, 192(%rsp)
	movups	80(%rdi), %xmm1
	movaps	%xmm1, %xmm3
	movaps	%xmm1, %xmm2
	shufps	$85, %xmm1, %xmm2
	unpcklps	%xmm2, %xmm3
	movaps	%xmm1, %xmm2
	unpckhpd	%xmm1, %xmm2
	movaps	%xmm1, %xmm6
	shufps	$255, %xmm1, %xmm6
	unpcklps	%xmm6, %xmm2
	movlhps	%xmm2, %xmm3
	cmpunordps	%xmm0, %xmm3
	movaps	%xmm3, %xmm2
	andnps	%xmm1, %xmm2
	andps	%xmm4, %xmm3
	orps	%xmm2, %xmm3
	movaps	%xmm3, 208(%rsp)
	movups	96(%rdi), %xmm1
	movaps	%xmm1, %xmm2
	movaps	%xmm1, %xmm6
	shufps	$85, %xmm1, %xmm6
	unpcklps	%xmm6, %xmm2
	movaps	%xmm1, %xmm6
	unpckhpd	%xmm1, %xmm6
	movaps	%xmm1, %xmm11
	shufps	$255, %xmm1, %xmm11
	unpcklps	%xmm11, %xmm6
	movlhps	%xmm6, %xmm2
	cmpunordps	%xmm0, %xmm2
	movaps	%xmm2, %xmm6
	andnps	%xmm1, %xmm6
	andps	%xmm4, %xmm2
	orps	%xmm6, %xmm2
	movaps	%xmm2, 224(%rsp)
	movups	112(%rdi), %xmm6
	movaps	%xmm6, %xmm1
	movaps	%xmm6, %xmm11
	shufps	$85, %xmm6, %xmm11
	unpcklps	%xmm11, %xmm1
	movaps	%xmm6, %xmm11
	unpckhpd	%xmm6, %xmm11
	movaps	%xmm6, %xmm12
	shufps	$255, %xmm6, %xmm12
	unpcklps	%xmm12, %xmm11
	movlhps	%xmm11, %xmm1
	cmpunordps	%xmm0, %xmm1
	movaps	%xmm1, %xmm0
	andnps	%xmm6, %xmm0
	andps	%xmm4, %xmm1
	orps	%xmm0, %xmm1
	movdqa	.Lfilter_CPI2_1(%rip), %xmm0
	paddd	%xmm0, %xmm8
	pand	.Lfilter_CPI2_2(%rip), %xmm8
	movdqa	.Lfilter_CPI2_3(%rip), %xmm11
	paddd	%xmm11, %xmm8
	movdqa	%xmm8, %xmm12
	psrld	$2, %xmm12
	movdqa	.Lfilter_CPI2_4(%rip), %xmm13
	movdqa	%xmm13, %xmm15
	psubd	%xmm12, %xmm15
	movdqa	%xmm15, %xmm12
	mulps	%xmm15, %xmm12
	mulps	%xmm12, %xmm8
	mulps	%xmm12, %xmm8
	movdqa	%xmm11, %xmm6
	subps	%xmm8, %xmm6
	movaps	.Lfilter_CPI2_5(%rip), %xmm8
	movaps	%xmm6, %xmm4
	mulps	%xmm8, %xmm4
	addps	.Lfilter_CPI2_6(%rip), %xmm4
	mulps	%xmm6, %xmm4
	movaps	.Lfilter_CPI2_7(%rip), %xmm14
	addps	%xmm14, %xmm4
	mulps	%xmm6, %xmm4
	movaps	.Lfilter_CPI2_8(%rip), %xmm12
	addps	%xmm12, %xmm4
	mulps	%xmm6, %xmm4
	mulps	%xmm15, %xmm4
	addps	%xmm15, %xmm4
	movaps	%xmm4, 256(%rsp)
	paddd	%xmm0, %xmm10
	movdqa	.Lfilter_CPI2_2(%rip), %xmm15
	pand	%xmm15, %xmm10
	paddd	%xmm11, %xmm10
	movdqa	%xmm10, %xmm4
	psrld	$2, %xmm4
	movdqa	%xmm13, %xmm6
	psubd	%xmm4, %xmm6
	movdqa	%xmm6, %xmm4
	mulps	%xmm6, %xmm4
	mulps	%xmm4, %xmm10
	mulps	%xmm4, %xmm10
	movdqa	%xmm11, %xmm4
	subps	%xmm10, %xmm4
	movaps	%xmm4, %xmm10
	mulps	%xmm8, %xmm10
	addps	.Lfilter_CPI2_6(%rip), %xmm10
	mulps	%xmm4, %xmm10
	addps	%xmm14, %xmm10
	mulps	%xmm4, %xmm10
	addps	%xmm12, %xmm10
	mulps	%xmm4, %xmm10
	mulps	%xmm6, %xmm10
	addps	%xmm6, %xmm10
	movaps	%xmm10, 272(%rsp)
	paddd	%xmm0, %xmm9
	pand	%xmm15, %xmm9
	movdqa	%xmm15, %xmm10
	paddd	%xmm11, %xmm9
	movdqa	%xmm9, %xmm4
	psrld	$2, %xmm4
	movdqa	%xmm13, %xmm6
	psubd	%xmm4, %xmm6
	movdqa	%xmm6, %xmm4
	mulps	%xmm6, %xmm4
	mulps	%xmm4, %xmm9
	mulps	%xmm4, %xmm9
	movdqa	%xmm11, %xmm4
	subps	%xmm9, %xmm4
	movaps	%xmm4, %xmm9
	mulps	%xmm8, %xmm9
	movaps	.Lfilter_CPI2_6(%rip), %xmm15
	addps	%xmm15, %xmm9
	mulps	%xmm4, %xmm9
	movaps	%xmm14, %xmm12
	addps	%xmm14, %xmm9
	mulps	%xmm4, %xmm9
	movaps	.Lfilter_CPI2_8(%rip), %xmm14
	addps	%xmm14, %xmm9
	mulps	%xmm4, %xmm9
	mulps	%xmm6, %xmm9
	addps	%xmm6, %xmm9
	movaps	%xmm9, 288(%rsp)
	paddd	%xmm0, %xmm7
	pand	%xmm10, %xmm7
	paddd	%xmm11, %xmm7
	movdqa	%xmm7, %xmm4
	psrld	$2, %xmm4
	movdqa	%xmm13, %xmm6
	psubd	%xmm4, %xmm6
	movdqa	%xmm6, %xmm4
	mulps	%xmm6, %xmm4
	mulps	%xmm4, %xmm7
	mulps	%xmm4, %xmm7
	movdqa	%xmm11, %xmm4
	subps	%xmm7, %xmm4
	movaps	%xmm4, %xmm7
	mulps	%xmm8, %xmm7
	addps	%xmm15, %xmm7
	mulps	%xmm4, %xmm7
	addps	%xmm12, %xmm7
	mulps	%xmm4, %xmm7
	addps	%xmm14, %xmm7
	mulps	%xmm4, %xmm7
	mulps	%xmm6, %xmm7
	addps	%xmm6, %xmm7
	movaps	%xmm7, 304(%rsp)
	paddd	%xmm0, %xmm5
	pand	%xmm10, %xmm5
	paddd	%xmm11, %xmm5
	movdqa	%xmm5, %xmm4
	psrld	$2, %xmm4
	movdqa	%xmm13, %xmm6
	psubd	%xmm4, %xmm6
	movdqa	%xmm6, %xmm4
	mulps	%xmm6, %xmm4
	mulps	%xmm4, %xmm5
	mulps	%xmm4, %xmm5
	movdqa	%xmm11, %xmm4
	subps	%xmm5, %xmm4
	movaps	%xmm4, %xmm5
	mulps	%xmm8, %xmm5
	addps	%xmm15, %xmm5
	mulps	%xmm4, %xmm5
	addps	%xmm12, %xmm5
	mulps	%xmm4, %xmm5
	addps	%xmm14, %xmm5
	mulps	%xmm4, %xmm5
	mulps	%xmm6, %xmm5
	addps	%xmm6, %xmm5
	movaps	%xmm5, 320(%rsp)
	paddd	%xmm0, %xmm3
	pand	%xmm10, %xmm3
	paddd	%xmm11, %xmm3
	movdqa	%xmm3, %xmm4
	psrld	$2, %xmm4
	movdqa	%xmm13, %xmm5
	psubd	%xmm4, %xmm5
	movdqa	%xmm5, %xmm4
	mulps	%xmm5, %xmm4
	mulps	%xmm4, %xmm3
	mulps	%xmm4, %xmm3
	movdqa	%xmm11, %xmm4
	subps	%xmm3, %xmm4
	movaps	%xmm4, %xmm3
	mulps	%xmm8, %xmm3
	addps	%xmm15, %xmm3
	mulps	%xmm4, %xmm3
	addps	%xmm12, %xmm3
	mulps	%xmm4, %xmm3
	addps	%xmm14, %xmm3
	mulps	%xmm4, %xmm3
	mulps	%xmm5, %xmm3
	addps	%xmm5, %xmm3
	movaps	%xmm3, 336(%rsp)
	paddd	%xmm0, %xmm2
	pand	%xmm10, %xmm2
	paddd	%xmm11, %xmm2
	movdqa	%xmm2, %xmm3
	psrld	$2, %xmm3
	movdqa	%xmm13, %xmm4
	psubd	%xmm3, %xmm4
	movdqa	%xmm4, %xmm3
	mulps	%xmm4, %xmm3
	mulps	%xmm3, %xmm2
	mulps	%xmm3, %xmm2
	movdqa	%xmm11, %xmm3
	subps	%xmm2, %xmm3
	movaps	%xmm3, %xmm2
	mulps	%xmm8, %xmm2
	addps	%xmm15, %xmm2
	mulps	%xmm3, %xmm2
	addps	%xmm12, %xmm2
	mulps	%xmm3, %xmm2
	addps	%xmm14, %xmm2
	mulps	%xmm3, %xmm2
	mulps	%xmm4, %xmm2
	addps	%xmm4, %xmm2
	movaps	%xmm2, 352(%rsp)
	movaps	%xmm1, 240(%rsp)
	paddd	%xmm0, %xmm1
	pand	%xmm10, %xmm1
	paddd	%xmm11, %xmm1
	movdqa	%xmm1, %xmm2
	psrld	$2, %xmm2
	psubd	%xmm2, %xmm13
	movdqa	%xmm13, %xmm2
	mulps	%xmm13, %xmm2
	mulps	%xmm2, %xmm1
	mulps	%xmm2, %xmm1
	subps	%xmm1, %xmm11
	mulps	%xmm11, %xmm8
	addps	%xmm15, %xmm8
	mulps	%xmm11, %xmm8
	addps	%xmm12, %xmm8
	mulps	%xmm11, %xmm8
	addps	%xmm14, %xmm8
	mulps	%xmm11, %xmm8
	mulps	%xmm13, %xmm8
	addps	%xmm13, %xmm8
	movaps	%xmm8, 368(%rsp)
	movss	.Lfilter_CPI2_9(%rip), %xmm1
	xorl	%eax, %eax
	.p2align	4
.Lfilter_BB2_1:
	movl	$8388608, %ecx
	addl	128(%rsp,%rax,4), %ecx
	andl	$33554431, %ecx
	addl	$1065353216, %ecx
	movd	%ecx, %xmm3
	movss	256(%rsp,%rax,4), %xmm2
	mulss	%xmm2, %xmm2
	movaps	%xmm2, %xmm4
	mulss	.Lfilter_CPI2_10(%rip), %xmm2
	mulss	%xmm3, %xmm4
	movss	.Lfilter_CPI2_11(%rip), %xmm5
	mulss	%xmm4, %xmm5
	movaps	%xmm4, %xmm6
	subss	%xmm5, %xmm6
	addss	%xmm5, %xmm6
	movaps	%xmm4, %xmm5
	addss	%xmm6, %xmm5
	movaps	%xmm4, %xmm7
	subss	%xmm6, %xmm7
	mulss	%xmm6, %xmm6
	subss	%xmm6, %xmm3
	mulss	%xmm5, %xmm7
	subss	%xmm7, %xmm3
	mulss	%xmm2, %xmm3
	addss	%xmm4, %xmm3
	movaps	%xmm3, %xmm2
	movaps	%xmm1, %xmm4
	cmpltss	%xmm2, %xmm4
	andps	%xmm4, %xmm3
	movss	.Lfilter_CPI2_9(%rip), %xmm2
	andnps	%xmm2, %xmm4
	orps	%xmm3, %xmm4
	movss	%xmm4, (%rsi,%rax,4)
	movss	%xmm4, (%rsp,%rax,4)
	incq	%rax
	cmpq	$32, %rax
	jne	.Lfilter_BB2_1
	xorl	%eax, %eax
	.p2align	4
.Lfilter_BB2_3:
	movss	(%rsi,%rax,4), %xmm3
	movss	256(%rsp,%rax,4), %xmm4
	movaps	%xmm3, %xmm5
	mulss	%xmm4, %xmm5
	mulss	.Lfilter_CPI2_10(%rip), %xmm4
	movss	.Lfilter_CPI2_11(%rip), %xmm6
	mulss	%xmm5, %xmm6
	movaps	%xmm6, %xmm7
	subss	%xmm5, %xmm7
	subss	%xmm7, %xmm6
	movaps	%xmm5, %xmm7
	addss	%xmm6, %xmm7
	movaps	%xmm5, %xmm8
	subss	%xmm6, %xmm8
	mulss	%xmm6, %xmm6
	subss	%xmm6, %xmm3
	mulss	%xmm7, %xmm8
	subss	%xmm8, %xmm3
	mulss	%xmm4, %xmm3
	addss	%xmm5, %xmm3
	movaps	%xmm3, %xmm4
	movaps	%xmm1, %xmm5
	cmpltss	%xmm4, %xmm5
	andps	%xmm5, %xmm3
	andnps	%xmm2, %xmm5
	orps	%xmm3, %xmm5
	movss	%xmm5, -128(%rsp,%rax,4)
	incq	%rax
	cmpq	$32, %rax
	jne	.Lfilter_BB2_3
	xorps	%xmm1, %xmm1
	xorl	%eax, %eax
	xorps	%xmm2, %xmm2
	.p2align	4
.Lfilter_BB2_5:
	movdqa	128(%rsp,%rax,4), %xmm4
	movdqu	(%rsp,%rax,4), %xmm13
	movdqu	-128(%rsp,%rax,4), %xmm6
	movdqa	.Lfilter_CPI2_12(%rip), %xmm3
	paddd	%xmm4, %xmm3
	movdqa	.Lfilter_CPI2_13(%rip), %xmm7
	pand	%xmm7, %xmm13
	por	%xmm0, %xmm13
	movdqa	%xmm13, %xmm5
	punpckhdq	%xmm1, %xmm5
	punpckldq	%xmm1, %xmm13
	pand	%xmm7, %xmm6
	por	%xmm0, %xmm6
	pand	%xmm4, %xmm7
	por	%xmm0, %xmm7
	pshufd	$246, %xmm7, %xmm8
	pshufd	$212, %xmm7, %xmm7
	movdqa	%xmm3, %xmm9
	pand	%xmm0, %xmm9
	paddd	%xmm0, %xmm9
	pshufd	$246, %xmm9, %xmm11
	pmuludq	%xmm8, %xmm11
	pshufd	$212, %xmm9, %xmm8
	pmuludq	%xmm7, %xmm8
	movdqa	%xmm3, %xmm10
	psrld	$1, %xmm10
	pand	%xmm0, %xmm10
	paddd	%xmm0, %xmm10
	pshufd	$212, %xmm10, %xmm9
	pmuludq	%xmm13, %xmm9
	movdqa	%xmm13, %xmm7
	pmuludq	%xmm13, %xmm7
	psubq	%xmm8, %xmm7
	movdqa	%xmm5, %xmm8
	pmuludq	%xmm5, %xmm8
	psubq	%xmm11, %xmm8
	movdqa	%xmm7, %xmm12
	paddq	%xmm13, %xmm12
	pcmpeqd	%xmm11, %xmm11
	pxor	%xmm11, %xmm7
	paddq	%xmm13, %xmm7
	psrld	$2, %xmm3
	pand	.Lfilter_CPI2_3(%rip), %xmm3
	movdqa	%xmm6, %xmm13
	paddd	%xmm6, %xmm3
	punpckhdq	%xmm1, %xmm6
	punpckldq	%xmm1, %xmm13
	pshufd	$246, %xmm10, %xmm10
	pmuludq	%xmm5, %xmm10
	por	%xmm12, %xmm7
	movdqa	%xmm8, %xmm12
	paddq	%xmm5, %xmm12
	pxor	%xmm11, %xmm8
	paddq	%xmm5, %xmm8
	por	%xmm12, %xmm8
	movdqa	%xmm13, %xmm5
	pmuludq	%xmm13, %xmm5
	psubq	%xmm9, %xmm5
	movdqa	%xmm6, %xmm9
	pmuludq	%xmm6, %xmm9
	psubq	%xmm10, %xmm9
	movdqa	%xmm5, %xmm10
	movdqa	%xmm9, %xmm12
	pxor	%xmm11, %xmm5
	pxor	%xmm11, %xmm9
	paddq	%xmm6, %xmm12
	paddq	%xmm6, %xmm9
	por	%xmm8, %xmm9
	por	%xmm12, %xmm9
	paddq	%xmm13, %xmm10
	paddq	%xmm13, %xmm5
	por	%xmm7, %xmm5
	por	%xmm10, %xmm5
	shufps	$221, %xmm9, %xmm5
	movdqa	.Lfilter_CPI2_14(%rip), %xmm6
	paddd	%xmm4, %xmm6
	movdqa	.Lfilter_CPI2_15(%rip), %xmm7
	psubd	%xmm4, %xmm7
	por	%xmm6, %xmm7
	por	%xmm5, %xmm7
	paddd	.Lfilter_CPI2_16(%rip), %xmm3
	movdqa	%xmm7, %xmm4
	psrad	$31, %xmm4
	pandn	%xmm3, %xmm4
	movdqu	%xmm4, (%rsi,%rax,4)
	psrld	$31, %xmm7
	paddd	%xmm7, %xmm2
	addq	$4, %rax
	cmpq	$32, %rax
	jne	.Lfilter_BB2_5
	pshufd	$238, %xmm2, %xmm0
	paddd	%xmm2, %xmm0
	pshufd	$85, %xmm0, %xmm1
	paddd	%xmm0, %xmm1
	movd	%xmm1, %eax
	testl	%eax, %eax
	je	.Lfilter_BB2_64
	pxor	%xmm0, %xmm0
	xorl	%eax, %eax
	jmp	.Lfilter_BB2_11
.Lfilter_BB2_8:
	pxor	%xmm1, %xmm1
.Lfilter_BB2_9:
	movd	%xmm1, (%rsi,%rax,4)
.Lfilter_BB2_10:
	incq	%rax
	cmpq	$32, %rax
	je	.Lfilter_BB2_64
.Lfilter_BB2_11:
	movss	(%rsi,%rax,4), %xmm1
	ucomiss	%xmm0, %xmm1
	jne	.Lfilter_BB2_10
	jp	.Lfilter_BB2_10
	movd	(%rdi,%rax,4), %xmm1
	movdqa	%xmm1, %xmm2
	ucomiss	%xmm2, %xmm2
	jp	.Lfilter_BB2_62
	movd	%xmm1, %edx
	movl	%edx, %ecx
	andl	$2147483647, %ecx
	je	.Lfilter_BB2_8
	cmpl	$2139095039, %edx
	ja	.Lfilter_BB2_17
	movabsq	$4607182418800017408, %r8
	cmpl	$8388607, %edx
	ja	.Lfilter_BB2_18
	movl	$63, %r9d
	bsrl	%edx, %r9d
	xorl	$31, %r9d
	leal	-8(%r9), %ecx
	shll	%cl, %edx
	shll	$23, %r9d
	subl	%r9d, %edx
	addl	$1115684864, %edx
	movl	%edx, %ecx
	shlq	$29, %rcx
	orq	%r8, %rcx
	movq	%rcx, %xmm1
	movl	%edx, %ecx
	shrl	$18, %ecx
	andl	$31, %ecx
	leaq	.Lfilter_JTI2_0(%rip), %r8
	movslq	(%r8,%rcx,4), %rcx
	addq	%r8, %rcx
	jmpq	*%rcx
.Lfilter_BB2_17:
	xorl	%edx, %edx
	cmpl	$2139095040, %ecx
	sete	%dl
	leaq	.Lfilter_CPI2_18(%rip), %rcx
	movd	(%rcx,%rdx,4), %xmm1
	jmp	.Lfilter_BB2_9
.Lfilter_BB2_18:
	addl	$1048576000, %edx
	movl	%edx, %ecx
	shlq	$29, %rcx
	orq	%r8, %rcx
	movq	%rcx, %xmm1
	movl	%edx, %ecx
	shrl	$18, %ecx
	andl	$31, %ecx
	leaq	.Lfilter_JTI2_0(%rip), %r8
	movslq	(%r8,%rcx,4), %rcx
	addq	%r8, %rcx
	jmpq	*%rcx
.Lfilter_BB2_19:
	movsd	.Lfilter_CPI2_143(%rip), %xmm2
	mulsd	%xmm1, %xmm2
	addsd	.Lfilter_CPI2_144(%rip), %xmm2
	movsd	.Lfilter_CPI2_145(%rip), %xmm3
	movsd	.Lfilter_CPI2_146(%rip), %xmm4
	jmp	.Lfilter_BB2_51
.Lfilter_BB2_20:
	movsd	.Lfilter_CPI2_35(%rip), %xmm2
	mulsd	%xmm1, %xmm2
	addsd	.Lfilter_CPI2_36(%rip), %xmm2
	movsd	.Lfilter_CPI2_37(%rip), %xmm3
	movsd	.Lfilter_CPI2_38(%rip), %xmm4
	jmp	.Lfilter_BB2_51
.Lfilter_BB2_21:
	movsd	.Lfilter_CPI2_79(%rip), %xmm2
	mulsd	%xmm1, %xmm2
	addsd	.Lfilter_CPI2_80(%rip), %xmm2
	movsd	.Lfilter_CPI2_81(%rip), %xmm3
	movsd	.Lfilter_CPI2_82(%rip), %xmm4
	jmp	.Lfilter_BB2_51
.Lfilter_BB2_22:
	movsd	.Lfilter_CPI2_87(%rip), %xmm2
	mulsd	%xmm1, %xmm2
	addsd	.Lfilter_CPI2_88(%rip), %xmm2
	movsd	.Lfilter_CPI2_89(%rip), %xmm3
	movsd	.Lfilter_CPI2_90(%rip), %xmm4
	jmp	.Lfilter_BB2_51
.Lfilter_BB2_23:
	movsd	.Lfilter_CPI2_99(%rip), %xmm2
	mulsd	%xmm1, %xmm2
	addsd	.Lfilter_CPI2_100(%rip), %xmm2
	movsd	.Lfilter_CPI2_101(%rip), %xmm3
	movsd	.Lfilter_CPI2_102(%rip), %xmm4
	jmp	.Lfilter_BB2_51
.Lfilter_BB2_24:
	movsd	.Lfilter_CPI2_127(%rip), %xmm2
	mulsd	%xmm1, %xmm2
	addsd	.Lfilter_CPI2_128(%rip), %xmm2
	movsd	.Lfilter_CPI2_129(%rip), %xmm3
	movsd	.Lfilter_CPI2_130(%rip), %xmm4
	jmp	.Lfilter_BB2_51
.Lfilter_BB2_25:
	movsd	.Lfilter_CPI2_95(%rip), %xmm2
	mulsd	%xmm1, %xmm2
	addsd	.Lfilter_CPI2_96(%rip), %xmm2
	movsd	.Lfilter_CPI2_97(%rip), %xmm3
	movsd	.Lfilter_CPI2_98(%rip), %xmm4
	jmp	.Lfilter_BB2_51
.Lfilter_BB2_26:
	movsd	.Lfilter_CPI2_107(%rip), %xmm2
	mulsd	%xmm1, %xmm2
	addsd	.Lfilter_CPI2_108(%rip), %xmm2
	movsd	.Lfilter_CPI2_109(%rip), %xmm3
	movsd	.Lfilter_CPI2_110(%rip), %xmm4
	jmp	.Lfilter_BB2_51
.Lfilter_BB2_27:
	movsd	.Lfilter_CPI2_43(%rip), %xmm2
	mulsd	%xmm1, %xmm2
	addsd	.Lfilter_CPI2_44(%rip), %xmm2
	movsd	.Lfilter_CPI2_45(%rip), %xmm3
	movsd	.Lfilter_CPI2_46(%rip), %xmm4
	jmp	.Lfilter_BB2_51
.Lfilter_BB2_28:
	movsd	.Lfilter_CPI2_47(%rip), %xmm2
	mulsd	%xmm1, %xmm2
	addsd	.Lfilter_CPI2_48(%rip), %xmm2
	movsd	.Lfilter_CPI2_49(%rip), %xmm3
	movsd	.Lfilter_CPI2_50(%rip), %xmm4
	jmp	.Lfilter_BB2_51
.Lfilter_BB2_29:
	movsd	.Lfilter_CPI2_135(%rip), %xmm2
	mulsd	%xmm1, %xmm2
	addsd	.Lfilter_CPI2_136(%rip), %xmm2
	movsd	.Lfilter_CPI2_137(%rip), %xmm3
	movsd	.Lfilter_CPI2_138(%rip), %xmm4
	jmp	.Lfilter_BB2_51
.Lfilter_BB2_30:
	movsd	.Lfilter_CPI2_83(%rip), %xmm2
	mulsd	%xmm1, %xmm2
	addsd	.Lfilter_CPI2_84(%rip), %xmm2
	movsd	.Lfilter_CPI2_85(%rip), %xmm3
	movsd	.Lfilter_CPI2_86(%rip), %xmm4
	jmp	.Lfilter_BB2_51
.Lfilter_BB2_31:
	movsd	.Lfilter_CPI2_131(%rip), %xmm2
	mulsd	%xmm1, %xmm2
	addsd	.Lfilter_CPI2_132(%rip), %xmm2
	movsd	.Lfilter_CPI2_133(%rip), %xmm3
	movsd	.Lfilter_CPI2_134(%rip), %xmm4
	jmp	.Lfilter_BB2_51
.Lfilter_BB2_32:
	movsd	.Lfilter_CPI2_115(%rip), %xmm2
	mulsd	%xmm1, %xmm2
	addsd	.Lfilter_CPI2_116(%rip), %xmm2
	movsd	.Lfilter_CPI2_117(%rip), %xmm3
	movsd	.Lfilter_CPI2_118(%rip), %xmm4
	jmp	.Lfilter_BB2_51
.Lfilter_BB2_33:
	movsd	.Lfilter_CPI2_139(%rip), %xmm2
	mulsd	%xmm1, %xmm2
	addsd	.Lfilter_CPI2_140(%rip), %xmm2
	movsd	.Lfilter_CPI2_141(%rip), %xmm3
	movsd	.Lfilter_CPI2_142(%rip), %xmm4
	jmp	.Lfilter_BB2_51
.Lfilter_BB2_34:
	movsd	.Lfilter_CPI2_19(%rip), %xmm2
	mulsd	%xmm1, %xmm2
	addsd	.Lfilter_CPI2_20(%rip), %xmm2
	movsd	.Lfilter_CPI2_21(%rip), %xmm3
	movsd	.Lfilter_CPI2_22(%rip), %xmm4
	jmp	.Lfilter_BB2_51
.Lfilter_BB2_35:
	movsd	.Lfilter_CPI2_75(%rip), %xmm2
	mulsd	%xmm1, %xmm2
	addsd	.Lfilter_CPI2_76(%rip), %xmm2
	movsd	.Lfilter_CPI2_77(%rip), %xmm3
	movsd	.Lfilter_CPI2_78(%rip), %xmm4
	jmp	.Lfilter_BB2_51
.Lfilter_BB2_36:
	movsd	.Lfilter_CPI2_63(%rip), %xmm2
	mulsd	%xmm1, %xmm2
	addsd	.Lfilter_CPI2_64(%rip), %xmm2
	movsd	.Lfilter_CPI2_65(%rip), %xmm3
	movsd	.Lfilter_CPI2_66(%rip), %xmm4
	jmp	.Lfilter_BB2_51
.Lfilter_BB2_37:
	movsd	.Lfilter_CPI2_123(%rip), %xmm2
	mulsd	%xmm1, %xmm2
	addsd	.Lfilter_CPI2_124(%rip), %xmm2
	movsd	.Lfilter_CPI2_125(%rip), %xmm3
	movsd	.Lfilter_CPI2_126(%rip), %xmm4
	jmp	.Lfilter_BB2_51
.Lfilter_BB2_38:
	movsd	.Lfilter_CPI2_59(%rip), %xmm2
	mulsd	%xmm1, %xmm2
	addsd	.Lfilter_CPI2_60(%rip), %xmm2
	movsd	.Lfilter_CPI2_61(%rip), %xmm3
	movsd	.Lfilter_CPI2_62(%rip), %xmm4
	jmp	.Lfilter_BB2_51
.Lfilter_BB2_39:
	movsd	.Lfilter_CPI2_91(%rip), %xmm2
	mulsd	%xmm1, %xmm2
	addsd	.Lfilter_CPI2_92(%rip), %xmm2
	movsd	.Lfilter_CPI2_93(%rip), %xmm3
	movsd	.Lfilter_CPI2_94(%rip), %xmm4
	jmp	.Lfilter_BB2_51
.Lfilter_BB2_40:
	movsd	.Lfilter_CPI2_119(%rip), %xmm2
	mulsd	%xmm1, %xmm2
	addsd	.Lfilter_CPI2_120(%rip), %xmm2
	movsd	.Lfilter_CPI2_121(%rip), %xmm3
	movsd	.Lfilter_CPI2_122(%rip), %xmm4
	jmp	.Lfilter_BB2_51
.Lfilter_BB2_41:
	movsd	.Lfilter_CPI2_71(%rip), %xmm2
	mulsd	%xmm1, %xmm2
	addsd	.Lfilter_CPI2_72(%rip), %xmm2
	movsd	.Lfilter_CPI2_73(%rip), %xmm3
	movsd	.Lfilter_CPI2_74(%rip), %xmm4
	jmp	.Lfilter_BB2_51
.Lfilter_BB2_42:
	movsd	.Lfilter_CPI2_103(%rip), %xmm2
	mulsd	%xmm1, %xmm2
	addsd	.Lfilter_CPI2_104(%rip), %xmm2
	movsd	.Lfilter_CPI2_105(%rip), %xmm3
	movsd	.Lfilter_CPI2_106(%rip), %xmm4
	jmp	.Lfilter_BB2_51
.Lfilter_BB2_43:
	movsd	.Lfilter_CPI2_111(%rip), %xmm2
	mulsd	%xmm1, %xmm2
	addsd	.Lfilter_CPI2_112(%rip), %xmm2
	movsd	.Lfilter_CPI2_113(%rip), %xmm3
	movsd	.Lfilter_CPI2_114(%rip), %xmm4
	jmp	.Lfilter_BB2_51
.Lfilter_BB2_44:
	movsd	.Lfilter_CPI2_23(%rip), %xmm2
	mulsd	%xmm1, %xmm2
	addsd	.Lfilter_CPI2_24(%rip), %xmm2
	movsd	.Lfilter_CPI2_25(%rip), %xmm3
	movsd	.Lfilter_CPI2_26(%rip), %xmm4
	jmp	.Lfilter_BB2_51
.Lfilter_BB2_45:
	movsd	.Lfilter_CPI2_55(%rip), %xmm2
	mulsd	%xmm1, %xmm2
	addsd	.Lfilter_CPI2_56(%rip), %xmm2
	movsd	.Lfilter_CPI2_57(%rip), %xmm3
	movsd	.Lfilter_CPI2_58(%rip), %xmm4
	jmp	.Lfilter_BB2_51
.Lfilter_BB2_46:
	movsd	.Lfilter_CPI2_67(%rip), %xmm2
	mulsd	%xmm1, %xmm2
	addsd	.Lfilter_CPI2_68(%rip), %xmm2
	movsd	.Lfilter_CPI2_69(%rip), %xmm3
	movsd	.Lfilter_CPI2_70(%rip), %xmm4
	jmp	.Lfilter_BB2_51
.Lfilter_BB2_47:
	movsd	.Lfilter_CPI2_51(%rip), %xmm2
	mulsd	%xmm1, %xmm2
	addsd	.Lfilter_CPI2_52(%rip), %xmm2
	movsd	.Lfilter_CPI2_53(%rip), %xmm3
	movsd	.Lfilter_CPI2_54(%rip), %xmm4
	jmp	.Lfilter_BB2_51
.Lfilter_BB2_48:
	movsd	.Lfilter_CPI2_31(%rip), %xmm2
	mulsd	%xmm1, %xmm2
	addsd	.Lfilter_CPI2_32(%rip), %xmm2
	movsd	.Lfilter_CPI2_33(%rip), %xmm3
	movsd	.Lfilter_CPI2_34(%rip), %xmm4
	jmp	.Lfilter_BB2_51
.Lfilter_BB2_49:
	movsd	.Lfilter_CPI2_27(%rip), %xmm2
	mulsd	%xmm1, %xmm2
	addsd	.Lfilter_CPI2_28(%rip), %xmm2
	movsd	.Lfilter_CPI2_29(%rip), %xmm3
	movsd	.Lfilter_CPI2_30(%rip), %xmm4
	jmp	.Lfilter_BB2_51
.Lfilter_BB2_50:
	movsd	.Lfilter_CPI2_39(%rip), %xmm2
	mulsd	%xmm1, %xmm2
	addsd	.Lfilter_CPI2_40(%rip), %xmm2
	movsd	.Lfilter_CPI2_41(%rip), %xmm3
	movsd	.Lfilter_CPI2_42(%rip), %xmm4
.Lfilter_BB2_51:
	movapd	%xmm1, %xmm5
	mulsd	%xmm1, %xmm5
	mulsd	%xmm1, %xmm3
	addsd	%xmm4, %xmm3
	mulsd	%xmm5, %xmm3
	addsd	%xmm2, %xmm3
	movl	%edx, %ecx
	shrl	$20, %ecx
	andl	$24, %ecx
	leaq	.Lfilter_switch.table.roots.fourth_roots(%rip), %r8
	mulsd	(%rcx,%r8), %xmm1
	mulsd	%xmm3, %xmm1
	mulsd	%xmm3, %xmm1
	movsd	.Lfilter_CPI2_147(%rip), %xmm4
	movapd	%xmm1, %xmm2
	addsd	%xmm4, %xmm2
	movsd	.Lfilter_CPI2_148(%rip), %xmm5
	addsd	%xmm2, %xmm5
	addsd	%xmm1, %xmm5
	leaq	.Lfilter_switch.table.roots.fourth_roots.10(%rip), %r8
	mulsd	(%rcx,%r8), %xmm3
	mulsd	%xmm5, %xmm3
	addsd	%xmm4, %xmm3
	movapd	%xmm3, %xmm1
	ucomisd	%xmm1, %xmm1
	jp	.Lfilter_BB2_63
	movq	%xmm2, %rcx
	movl	%ecx, %r8d
	movq	%xmm3, %rcx
	movl	%ecx, %ecx
	movl	%edx, %r10d
	andl	$8388607, %r10d
.Lfilter_BB2_53:
	orl	$8388608, %r10d
	movl	%edx, %r9d
	andl	$8388608, %r9d
	addl	$8388608, %r9d
	imulq	%r10, %r9
	leaq	1(%r8), %r11
	movq	%r11, %r10
	imulq	%r8, %r10
	subq	%r9, %r10
	leaq	(%r8,%r8), %rbx
	cmpq	%rbx, %r10
	jae	.Lfilter_BB2_55
	movq	%r8, %r10
	jmp	.Lfilter_BB2_57
	.p2align	4
.Lfilter_BB2_55:
	movq	%r11, %r10
	leaq	1(%r8), %rbx
	imulq	%rbx, %r8
	incq	%r11
	cmpq	%r9, %r8
	movq	%rbx, %r8
	jb	.Lfilter_BB2_55
	.p2align	4
.Lfilter_BB2_56:
	leaq	(%r9,%r10), %r8
	decq	%r8
	decq	%r10
	movq	%r10, %r11
	imulq	%r10, %r11
	cmpq	%r11, %r8
	jbe	.Lfilter_BB2_56
.Lfilter_BB2_57:
	movl	%edx, %r8d
	shrl	%r8d
	andl	$8388608, %r8d
	addl	$8388608, %r8d
	imulq	%r10, %r8
	leaq	1(%rcx), %r10
	movq	%r10, %r9
	imulq	%rcx, %r9
	subq	%r8, %r9
	leaq	(%rcx,%rcx), %r11
	cmpq	%r11, %r9
	jae	.Lfilter_BB2_59
	movq	%rcx, %r9
	jmp	.Lfilter_BB2_61
	.p2align	4
.Lfilter_BB2_59:
	movq	%r10, %r9
	leaq	1(%rcx), %r11
	imulq	%r11, %rcx
	incq	%r10
	cmpq	%r8, %rcx
	movq	%r11, %rcx
	jb	.Lfilter_BB2_59
	.p2align	4
.Lfilter_BB2_60:
	leaq	(%r8,%r9), %rcx
	decq	%rcx
	decq	%r9
	movq	%r9, %r10
	imulq	%r9, %r10
	cmpq	%r10, %rcx
	jbe	.Lfilter_BB2_60
.Lfilter_BB2_61:
	shrl	$2, %edx
	andl	$1065353216, %edx
	leal	(%rdx,%r9), %ecx
	addl	$528482304, %ecx
	movd	%ecx, %xmm1
	jmp	.Lfilter_BB2_9
.Lfilter_BB2_62:
	movd	.Lfilter_CPI2_17(%rip), %xmm1
	jmp	.Lfilter_BB2_9
.Lfilter_BB2_63:
	movl	%edx, %r10d
	andl	$8388607, %r10d
	movl	%r10d, %r8d
	shrl	%r8d
	orl	$8388608, %r8d
	movl	%r10d, %ecx
	shrl	$2, %ecx
	orl	$8388608, %ecx
	jmp	.Lfilter_BB2_53
.Lfilter_BB2_64:
	addq	$384, %rsp
	popq	%rbx
	retq
.Lfilter_func_end2:
	.size	loamchalice.filter.roots.fourth_roots, .Lfilter_func_end2-loamchalice.filter.roots.fourth_roots
	.section	.rodata.filter.roots.fourth_roots,"a",@progbits
	.p2align	2, 0x0
.Lfilter_JTI2_0:
	.long	.Lfilter_BB2_19-.Lfilter_JTI2_0
	.long	.Lfilter_BB2_33-.Lfilter_JTI2_0
	.long	.Lfilter_BB2_29-.Lfilter_JTI2_0
	.long	.Lfilter_BB2_31-.Lfilter_JTI2_0
	.long	.Lfilter_BB2_24-.Lfilter_JTI2_0
	.long	.Lfilter_BB2_37-.Lfilter_JTI2_0
	.long	.Lfilter_BB2_40-.Lfilter_JTI2_0
	.long	.Lfilter_BB2_32-.Lfilter_JTI2_0
	.long	.Lfilter_BB2_43-.Lfilter_JTI2_0
	.long	.Lfilter_BB2_26-.Lfilter_JTI2_0
	.long	.Lfilter_BB2_42-.Lfilter_JTI2_0
	.long	.Lfilter_BB2_23-.Lfilter_JTI2_0
	.long	.Lfilter_BB2_25-.Lfilter_JTI2_0
	.long	.Lfilter_BB2_39-.Lfilter_JTI2_0
	.long	.Lfilter_BB2_22-.Lfilter_JTI2_0
	.long	.Lfilter_BB2_30-.Lfilter_JTI2_0
	.long	.Lfilter_BB2_21-.Lfilter_JTI2_0
	.long	.Lfilter_BB2_35-.Lfilter_JTI2_0
	.long	.Lfilter_BB2_41-.Lfilter_JTI2_0
	.long	.Lfilter_BB2_46-.Lfilter_JTI2_0
	.long	.Lfilter_BB2_36-.Lfilter_JTI2_0
	.long	.Lfilter_BB2_38-.Lfilter_JTI2_0
	.long	.Lfilter_BB2_45-.Lfilter_JTI2_0
	.long	.Lfilter_BB2_47-.Lfilter_JTI2_0
	.long	.Lfilter_BB2_28-.Lfilter_JTI2_0
	.long	.Lfilter_BB2_27-.Lfilter_JTI2_0
	.long	.Lfilter_BB2_50-.Lfilter_JTI2_0
	.long	.Lfilter_BB2_20-.Lfilter_JTI2_0
	.long	.Lfilter_BB2_48-.Lfilter_JTI2_0
	.long	.Lfilter_BB2_49-.Lfilter_JTI2_0
	.long	.Lfilter_BB2_44-.Lfilter_JTI2_0
	.long	.Lfilter_BB2_34-.Lfilter_JTI2_0

	.section	.rodata.cst16,"aM",@progbits,16
	.p2align	4, 0x0
.Lfilter_CPI3_0:
	.long	0xc3889333
	.long	0xc3889333
	.long	0xc3889333
	.long	0xc3889333
	.section	.text.filter.pixels.degrees_block,"ax",@progbits
	.p2align	4
	.type	loamchalice.filter.pixels.degrees_block,@function
loamchalice.filter.pixels.degrees_block:
	pushq	%rbx
	movq	%rsi, %rbx
	callq	loamchalice.filter.roots.fourth_roots
	movaps	.Lfilter_CPI3_0(%rip), %xmm0
	movups	(%rbx), %xmm1
	movups	16(%rbx), %xmm2
	movups	32(%rbx), %xmm3
	movups	48(%rbx), %xmm4
	addps	%xmm0, %xmm1
	movups	%xmm1, (%rbx)
	addps	%xmm0, %xmm2
	movups	%xmm2, 16(%rbx)
	addps	%xmm0, %xmm3
	movups	%xmm3, 32(%rbx)
	addps	%xmm0, %xmm4
	movups	%xmm4, 48(%rbx)
	movups	64(%rbx), %xmm1
	addps	%xmm0, %xmm1
	movups	%xmm1, 64(%rbx)
	movups	80(%rbx), %xmm1
	addps	%xmm0, %xmm1
	movups	%xmm1, 80(%rbx)
	movups	96(%rbx), %xmm1
	addps	%xmm0, %xmm1
	movups	%xmm1, 96(%rbx)
	movups	112(%rbx), %xmm1
	addps	%xmm0, %xmm1
	movups	%xmm1, 112(%rbx)
	popq	%rbx
	retq
.Lfilter_func_end3:
	.size	loamchalice.filter.pixels.degrees_block, .Lfilter_func_end3-loamchalice.filter.pixels.degrees_block

	.section	.rodata.cst4,"aM",@progbits,4
	.p2align	2, 0x0
.Lfilter_CPI4_0:
	.long	0x3d800000
	.section	.text.loamchalice_filter_average,"ax",@progbits
	.globl	loamchalice_filter_average
	.p2align	4
	.type	loamchalice_filter_average,@function
loamchalice_filter_average:
	cmpb	$16, 44(%rsp)
	jae	.Lfilter_BB4_2
	xorl	%ecx, %ecx
	xorl	%eax, %eax
	jmp	.Lfilter_BB4_3
.Lfilter_BB4_2:
	leaq	8(%rsp), %rax
	movl	32(%rax), %eax
	cmpl	$-524287, %eax
	movl	$-524288, %ecx
	cmovgel	%eax, %ecx
	cmpl	$524287, %ecx
	movl	$524287, %eax
	cmovll	%ecx, %eax
	cvtsi2ss	%eax, %xmm0
	mulss	.Lfilter_CPI4_0(%rip), %xmm0
	movd	%xmm0, %ecx
	movb	$1, %al
.Lfilter_BB4_3:
	movzbl	%al, %edx
	movq	%rdx, %rsi
	shlq	$32, %rsi
	xorl	%eax, %eax
	testb	%dl, %dl
	cmovneq	%rcx, %rax
	orq	%rsi, %rax
	retq
.Lfilter_func_end4:
	.size	loamchalice_filter_average, .Lfilter_func_end4-loamchalice_filter_average

	.section	.text.loamchalice_filter_new,"ax",@progbits
	.globl	loamchalice_filter_new
	.p2align	4
	.type	loamchalice_filter_new,@function
loamchalice_filter_new:
	movq	%rdi, %rax
	xorps	%xmm0, %xmm0
	movups	%xmm0, 16(%rdi)
	movups	%xmm0, (%rdi)
	movq	$0, 32(%rdi)
	retq
.Lfilter_func_end5:
	.size	loamchalice_filter_new, .Lfilter_func_end5-loamchalice_filter_new

	.section	.text.loamchalice_filter_push,"ax",@progbits
	.globl	loamchalice_filter_push
	.p2align	4
	.type	loamchalice_filter_push,@function
loamchalice_filter_push:
	movq	%rdi, %rax
	movaps	8(%rsp), %xmm0
	movaps	24(%rsp), %xmm1
	movaps	%xmm1, -24(%rsp)
	movaps	%xmm0, -40(%rsp)
	movl	40(%rsp), %ecx
	movl	44(%rsp), %edx
	movl	%edx, %edi
	andl	$15, %edi
	cmpl	$-524287, %ecx
	movl	$-524288, %r8d
	cmovgel	%ecx, %r8d
	cmpl	$524287, %r8d
	movl	$524287, %ecx
	cmovll	%r8d, %ecx
	movswl	-40(%rsp,%rdi,2), %r8d
	movswl	%si, %esi
	addl	%esi, %ecx
	subl	%r8d, %ecx
	movw	%si, -40(%rsp,%rdi,2)
	leal	1(%rdx), %esi
	cmpb	$31, %dl
	movzbl	%sil, %edx
	movl	$16, %esi
	cmovbl	%edx, %esi
	movaps	-40(%rsp), %xmm0
	movaps	-24(%rsp), %xmm1
	movups	%xmm0, (%rax)
	movups	%xmm1, 16(%rax)
	movl	%ecx, 32(%rax)
	movb	%sil, 36(%rax)
	movw	$0, 37(%rax)
	movb	$0, 39(%rax)
	retq
.Lfilter_func_end6:
	.size	loamchalice_filter_push, .Lfilter_func_end6-loamchalice_filter_push

	.section	.text.loamchalice_filtered_pixels_to_ir_data,"ax",@progbits
	.globl	loamchalice_filtered_pixels_to_ir_data
	.p2align	4
	.type	loamchalice_filtered_pixels_to_ir_data,@function
loamchalice_filtered_pixels_to_ir_data:
	pushq	%rbp
	pushq	%r15
	pushq	%r14
	pushq	%r13
	pushq	%r12
	pushq	%rbx
	subq	$392, %rsp
	movq	%r8, 144(%rsp)
	movq	%rdx, 152(%rsp)
	movq	%rdi, 112(%rsp)
	movq	680(%rsp), %rdi
	movq	664(%rsp), %rax
	movq	648(%rsp), %rdx
	xorl	%r14d, %r14d
	movq	%rsi, 136(%rsp)
	testq	%rsi, %rsi
	sete	%r14b
	shll	$12, %r14d
	xorl	%r15d, %r15d
	movq	%rcx, 128(%rsp)
	testq	%rcx, %rcx
	movq	%rax, %rcx
	sete	%r15b
	shll	$12, %r15d
	xorl	%r13d, %r13d
	testq	%r9, %r9
	sete	%r13b
	shll	$12, %r13d
	xorl	%r10d, %r10d
	testq	%rdx, %rdx
	sete	%r10b
	shll	$12, %r10d
	xorl	%ebp, %ebp
	testq	%rax, %rax
	sete	%bpl
	shll	$12, %ebp
	xorl	%r8d, %r8d
	movq	%rdi, 120(%rsp)
	testq	%rdi, %rdi
	sete	%r8b
	shll	$12, %r8d
	movq	696(%rsp), %r11
	xorl	%esi, %esi
	testq	%r11, %r11
	sete	%sil
	shll	$12, %esi
	xorl	%r12d, %r12d
	cmpb	$0, 547(%rsp)
	setne	%bl
	leaq	608(%rsp), %rax
	movswl	624(%rsp), %edi
	jne	.Lfilter_BB7_2
	xorps	%xmm1, %xmm1
	jmp	.Lfilter_BB7_3
.Lfilter_BB7_2:
	movss	488(%rsp), %xmm1
.Lfilter_BB7_3:
	addq	%r14, 136(%rsp)
	addq	%r15, 128(%rsp)
	addq	%r13, %r9
	movq	656(%rsp), %r15
	addq	%r10, %rdx
	addq	%rbp, %rcx
	movq	688(%rsp), %r14
	addq	%r8, 120(%rsp)
	addq	%rsi, %r11
	xorl	%r10d, %r10d
	cmpb	$0, 612(%rsp)
	movq	704(%rsp), %r13
	leaq	604(%rsp), %rsi
	cmoveq	%rsi, %rax
	movzwl	544(%rsp), %esi
	movzbl	546(%rsp), %ebp
	movss	(%rax), %xmm2
	movq	584(%rsp), %r8
	movss	600(%rsp), %xmm3
	movb	%bl, %r12b
	sete	%al
	cmpb	$0, 636(%rsp)
	je	.Lfilter_BB7_5
	movss	632(%rsp), %xmm0
	jmp	.Lfilter_BB7_6
.Lfilter_BB7_5:
	cvtsi2ss	%edi, %xmm0
.Lfilter_BB7_6:
	cmpb	$0, 626(%rsp)
	movups	524(%rsp), %xmm4
	movups	%xmm4, 284(%rsp)
	movups	492(%rsp), %xmm4
	movups	%xmm4, 300(%rsp)
	movups	508(%rsp), %xmm4
	movups	%xmm4, 316(%rsp)
	movups	548(%rsp), %xmm4
	movups	564(%rsp), %xmm5
	movups	%xmm4, 360(%rsp)
	movups	%xmm5, 376(%rsp)
	movb	%al, %r10b
	movl	540(%rsp), %eax
	movl	%eax, 252(%rsp)
	movb	%bpl, 256(%rsp)
	movw	$0, 257(%rsp)
	movb	$0, 259(%rsp)
	movaps	448(%rsp), %xmm4
	movups	%xmm4, 260(%rsp)
	movsd	464(%rsp), %xmm4
	movsd	%xmm4, 276(%rsp)
	movsd	472(%rsp), %xmm4
	movsd	%xmm4, 332(%rsp)
	movw	%si, 340(%rsp)
	movw	$0, 342(%rsp)
	movsd	480(%rsp), %xmm4
	movsd	%xmm4, 344(%rsp)
	movl	%r12d, 352(%rsp)
	movss	%xmm1, 356(%rsp)
	xorps	%xmm1, %xmm1
	movsd	592(%rsp), %xmm4
	movsd	%xmm4, 160(%rsp)
	movss	%xmm3, 168(%rsp)
	movl	$0, 172(%rsp)
	movq	%r8, 176(%rsp)
	movl	%r10d, 184(%rsp)
	movss	%xmm2, 188(%rsp)
	movq	616(%rsp), %rax
	movq	%rax, 192(%rsp)
	movw	%di, 200(%rsp)
	setne	202(%rsp)
	movaps	%xmm1, 208(%rsp)
	movaps	%xmm1, 224(%rsp)
	movl	$0, 203(%rsp)
	movb	$0, 207(%rsp)
	movq	%r13, 104(%rsp)
	movq	%r11, 96(%rsp)
	movq	%r14, 88(%rsp)
	movq	120(%rsp), %rax
	movq	%rax, 80(%rsp)
	movq	672(%rsp), %rax
	movq	%rax, 72(%rsp)
	movq	%rcx, 64(%rsp)
	movq	%r15, 56(%rsp)
	movq	%rdx, 48(%rsp)
	movq	640(%rsp), %rax
	movq	%rax, 40(%rsp)
	movq	%r9, 32(%rsp)
	movq	%r15, 24(%rsp)
	movq	%rdx, 16(%rsp)
	movq	144(%rsp), %rax
	movq	%rax, 8(%rsp)
	movq	128(%rsp), %rax
	movq	%rax, (%rsp)
	leaq	208(%rsp), %rdi
	leaq	252(%rsp), %rsi
	leaq	160(%rsp), %rdx
	xorl	%r14d, %r14d
	xorl	%ecx, %ecx
	movq	136(%rsp), %r8
	movq	152(%rsp), %r9
	callq	loamchalice.filter.calculations.from_pixels
	movl	216(%rsp), %esi
	movq	224(%rsp), %rcx
	cmpb	$0, 208(%rsp)
	je	.Lfilter_BB7_9
	movzwl	232(%rsp), %edx
	movl	%esi, %edi
	shrl	$16, %edi
	xorl	%r9d, %r9d
	movzbl	%sil, %esi
	leaq	.Lfilter_JTI7_0(%rip), %r8
	movslq	(%r8,%rsi,4), %rsi
	addq	%r8, %rsi
	jmpq	*%rsi
.Lfilter_BB7_8:
	movl	$1, %r14d
	jmp	.Lfilter_BB7_25
.Lfilter_BB7_9:
	xorl	%edi, %edi
	xorl	%edx, %edx
	movl	%esi, %r9d
	movq	112(%rsp), %rax
	jmp	.Lfilter_BB7_27
.Lfilter_BB7_10:
	movl	$13, %r14d
	jmp	.Lfilter_BB7_25
.Lfilter_BB7_11:
	movl	$10, %r14d
	jmp	.Lfilter_BB7_25
.Lfilter_BB7_12:
	movl	$4, %r14d
	xorl	%edx, %edx
	movq	%rdi, %rcx
	jmp	.Lfilter_BB7_26
.Lfilter_BB7_13:
	movl	$11, %r14d
	jmp	.Lfilter_BB7_25
.Lfilter_BB7_14:
	movl	%edi, %ecx
	movl	$9, %r14d
	jmp	.Lfilter_BB7_25
.Lfilter_BB7_15:
	movl	$2, %r14d
	jmp	.Lfilter_BB7_24
.Lfilter_BB7_16:
	movl	$14, %r14d
	jmp	.Lfilter_BB7_25
.Lfilter_BB7_17:
	movl	$3, %r14d
	jmp	.Lfilter_BB7_26
.Lfilter_BB7_18:
	movl	$7, %r14d
	jmp	.Lfilter_BB7_24
.Lfilter_BB7_19:
	movl	$5, %r14d
	jmp	.Lfilter_BB7_25
.Lfilter_BB7_20:
	movl	$12, %r14d
	jmp	.Lfilter_BB7_25
.Lfilter_BB7_21:
	movl	$6, %r14d
	jmp	.Lfilter_BB7_25
.Lfilter_BB7_22:
	movl	$9, %r14d
	jmp	.Lfilter_BB7_26
.Lfilter_BB7_23:
	movl	$8, %r14d
.Lfilter_BB7_24:
	xorl	%ecx, %ecx
.Lfilter_BB7_25:
	xorl	%edx, %edx
.Lfilter_BB7_26:
	movq	112(%rsp), %rax
	movzwl	%dx, %edx
	movq	%rcx, %rdi
	xorl	%ecx, %ecx
.Lfilter_BB7_27:
	movq	%r14, (%rax)
	movq	%rdi, 8(%rax)
	movq	%rdx, 16(%rax)
	movq	%rcx, 24(%rax)
	movl	%r9d, 32(%rax)
	movl	$0, 36(%rax)
	addq	$392, %rsp
	popq	%rbx
	popq	%r12
	popq	%r13
	popq	%r14
	popq	%r15
	popq	%rbp
	retq
.Lfilter_func_end7:
	.size	loamchalice_filtered_pixels_to_ir_data, .Lfilter_func_end7-loamchalice_filtered_pixels_to_ir_data
	.section	.rodata.loamchalice_filtered_pixels_to_ir_data,"a",@progbits
	.p2align	2, 0x0
.Lfilter_JTI7_0:
	.long	.Lfilter_BB7_8-.Lfilter_JTI7_0
	.long	.Lfilter_BB7_8-.Lfilter_JTI7_0
	.long	.Lfilter_BB7_15-.Lfilter_JTI7_0
	.long	.Lfilter_BB7_17-.Lfilter_JTI7_0
	.long	.Lfilter_BB7_12-.Lfilter_JTI7_0
	.long	.Lfilter_BB7_19-.Lfilter_JTI7_0
	.long	.Lfilter_BB7_21-.Lfilter_JTI7_0
	.long	.Lfilter_BB7_18-.Lfilter_JTI7_0
	.long	.Lfilter_BB7_23-.Lfilter_JTI7_0
	.long	.Lfilter_BB7_14-.Lfilter_JTI7_0
	.long	.Lfilter_BB7_22-.Lfilter_JTI7_0
	.long	.Lfilter_BB7_11-.Lfilter_JTI7_0
	.long	.Lfilter_BB7_13-.Lfilter_JTI7_0
	.long	.Lfilter_BB7_20-.Lfilter_JTI7_0
	.long	.Lfilter_BB7_10-.Lfilter_JTI7_0
	.long	.Lfilter_BB7_16-.Lfilter_JTI7_0

	.section	.text.loamchalice_filtered_pixels_to_ranged_temperatures,"ax",@progbits
	.globl	loamchalice_filtered_pixels_to_ranged_temperatures
	.p2align	4
	.type	loamchalice_filtered_pixels_to_ranged_temperatures,@function
loamchalice_filtered_pixels_to_ranged_temperatures:
	pushq	%rbp
	pushq	%r15
	pushq	%r14
	pushq	%r13
	pushq	%r12
	pushq	%rbx
	subq	$408, %rsp
	movq	%r8, 160(%rsp)
	movq	%rdx, 168(%rsp)
	movq	%rdi, 120(%rsp)
	movq	696(%rsp), %rdi
	movq	680(%rsp), %rax
	xorl	%r15d, %r15d
	movq	%rsi, 152(%rsp)
	testq	%rsi, %rsi
	sete	%r15b
	shll	$12, %r15d
	xorl	%r12d, %r12d
	movq	%rcx, 128(%rsp)
	testq	%rcx, %rcx
	sete	%r12b
	shll	$12, %r12d
	xorl	%r10d, %r10d
	movq	%r9, 144(%rsp)
	testq	%r9, %r9
	sete	%r10b
	shll	$12, %r10d
	xorl	%ebp, %ebp
	cmpq	$0, 664(%rsp)
	sete	%bpl
	shll	$12, %ebp
	xorl	%r8d, %r8d
	movq	%rax, 136(%rsp)
	testq	%rax, %rax
	sete	%r8b
	shll	$12, %r8d
	xorl	%ebx, %ebx
	testq	%rdi, %rdi
	sete	%bl
	shll	$12, %ebx
	movq	712(%rsp), %r11
	xorl	%eax, %eax
	testq	%r11, %r11
	sete	%al
	shll	$12, %eax
	movq	728(%rsp), %r14
	xorl	%r9d, %r9d
	testq	%r14, %r14
	sete	%r9b
	shll	$12, %r9d
	xorl	%r13d, %r13d
	cmpb	$0, 563(%rsp)
	setne	%dl
	leaq	624(%rsp), %rcx
	movswl	640(%rsp), %esi
	jne	.Lfilter_BB8_2
	xorps	%xmm1, %xmm1
	jmp	.Lfilter_BB8_3
.Lfilter_BB8_2:
	movss	504(%rsp), %xmm1
.Lfilter_BB8_3:
	addq	%r15, 152(%rsp)
	addq	%r12, 128(%rsp)
	addq	%r10, 144(%rsp)
	movq	664(%rsp), %r10
	addq	%rbp, %r10
	movq	%r10, %rbp
	addq	%r8, 136(%rsp)
	movq	704(%rsp), %r12
	addq	%rbx, %rdi
	movq	720(%rsp), %r15
	addq	%rax, %r11
	addq	%r9, %r14
	xorl	%r8d, %r8d
	cmpb	$0, 628(%rsp)
	movq	736(%rsp), %r10
	leaq	620(%rsp), %rax
	cmoveq	%rax, %rcx
	movzwl	560(%rsp), %r9d
	movzbl	562(%rsp), %ebx
	movss	(%rcx), %xmm2
	movq	600(%rsp), %rax
	movss	616(%rsp), %xmm3
	movb	%dl, %r13b
	sete	%cl
	cmpb	$0, 652(%rsp)
	je	.Lfilter_BB8_5
	movss	648(%rsp), %xmm0
	jmp	.Lfilter_BB8_6
.Lfilter_BB8_5:
	cvtsi2ss	%esi, %xmm0
.Lfilter_BB8_6:
	cmpb	$0, 642(%rsp)
	movups	540(%rsp), %xmm4
	movups	%xmm4, 300(%rsp)
	movups	508(%rsp), %xmm4
	movups	%xmm4, 316(%rsp)
	movups	524(%rsp), %xmm4
	movups	%xmm4, 332(%rsp)
	movups	564(%rsp), %xmm4
	movups	580(%rsp), %xmm5
	movups	%xmm4, 376(%rsp)
	movups	%xmm5, 392(%rsp)
	movb	%cl, %r8b
	movl	556(%rsp), %ecx
	movl	%ecx, 268(%rsp)
	movb	%bl, 272(%rsp)
	movw	$0, 273(%rsp)
	movb	$0, 275(%rsp)
	movaps	464(%rsp), %xmm4
	movups	%xmm4, 276(%rsp)
	movsd	480(%rsp), %xmm4
	movsd	%xmm4, 292(%rsp)
	movsd	488(%rsp), %xmm4
	movsd	%xmm4, 348(%rsp)
	movw	%r9w, 356(%rsp)
	movw	$0, 358(%rsp)
	movsd	496(%rsp), %xmm4
	movsd	%xmm4, 360(%rsp)
	movl	%r13d, 368(%rsp)
	movss	%xmm1, 372(%rsp)
	xorps	%xmm1, %xmm1
	movsd	608(%rsp), %xmm4
	movsd	%xmm4, 176(%rsp)
	movss	%xmm3, 184(%rsp)
	movl	$0, 188(%rsp)
	movq	%rax, 192(%rsp)
	movl	%r8d, 200(%rsp)
	movss	%xmm2, 204(%rsp)
	movq	632(%rsp), %rax
	movq	%rax, 208(%rsp)
	movw	%si, 216(%rsp)
	setne	218(%rsp)
	movaps	%xmm1, 224(%rsp)
	movaps	%xmm1, 240(%rsp)
	movl	$0, 219(%rsp)
	movb	$0, 223(%rsp)
	movq	%r10, 104(%rsp)
	movq	%r14, 96(%rsp)
	movq	%r15, 88(%rsp)
	movq	%r11, 80(%rsp)
	movq	%r12, 72(%rsp)
	movq	%rdi, 64(%rsp)
	movq	688(%rsp), %rax
	movq	%rax, 56(%rsp)
	movq	136(%rsp), %rax
	movq	%rax, 48(%rsp)
	movq	672(%rsp), %rax
	movq	%rax, 40(%rsp)
	movq	%rbp, 32(%rsp)
	movq	656(%rsp), %rax
	movq	%rax, 24(%rsp)
	movq	144(%rsp), %rax
	movq	%rax, 16(%rsp)
	movq	160(%rsp), %rax
	movq	%rax, 8(%rsp)
	movq	128(%rsp), %rax
	movq	%rax, (%rsp)
	leaq	224(%rsp), %rdi
	leaq	268(%rsp), %rsi
	leaq	176(%rsp), %rdx
	movq	152(%rsp), %r8
	movq	168(%rsp), %r9
	movl	$2, %ecx
	callq	loamchalice.filter.calculations.from_pixels
	movl	232(%rsp), %edi
	movq	240(%rsp), %rcx
	cmpb	$0, 224(%rsp)
	je	.Lfilter_BB8_9
	movzwl	248(%rsp), %esi
	movl	%edi, %r8d
	shrl	$16, %r8d
	xorl	%r9d, %r9d
	movzbl	%dil, %edx
	leaq	.Lfilter_JTI8_0(%rip), %rdi
	movslq	(%rdi,%rdx,4), %rdx
	addq	%rdi, %rdx
	jmpq	*%rdx
.Lfilter_BB8_8:
	movl	$1, %edx
	jmp	.Lfilter_BB8_25
.Lfilter_BB8_9:
	xorl	%edx, %edx
	xorl	%r8d, %r8d
	xorl	%esi, %esi
	movl	%edi, %r9d
	movq	120(%rsp), %rax
	jmp	.Lfilter_BB8_27
.Lfilter_BB8_10:
	movl	$13, %edx
	jmp	.Lfilter_BB8_25
.Lfilter_BB8_11:
	movl	$10, %edx
	jmp	.Lfilter_BB8_25
.Lfilter_BB8_12:
	movl	$4, %edx
	xorl	%esi, %esi
	movq	%r8, %rcx
	jmp	.Lfilter_BB8_26
.Lfilter_BB8_13:
	movl	$11, %edx
	jmp	.Lfilter_BB8_25
.Lfilter_BB8_14:
	movl	%r8d, %ecx
	movl	$9, %edx
	jmp	.Lfilter_BB8_25
.Lfilter_BB8_15:
	movl	$2, %edx
	jmp	.Lfilter_BB8_24
.Lfilter_BB8_16:
	movl	$14, %edx
	jmp	.Lfilter_BB8_25
.Lfilter_BB8_17:
	movl	$3, %edx
	jmp	.Lfilter_BB8_26
.Lfilter_BB8_18:
	movl	$7, %edx
	jmp	.Lfilter_BB8_24
.Lfilter_BB8_19:
	movl	$5, %edx
	jmp	.Lfilter_BB8_25
.Lfilter_BB8_20:
	movl	$12, %edx
	jmp	.Lfilter_BB8_25
.Lfilter_BB8_21:
	movl	$6, %edx
	jmp	.Lfilter_BB8_25
.Lfilter_BB8_22:
	movl	$9, %edx
	jmp	.Lfilter_BB8_26
.Lfilter_BB8_23:
	movl	$8, %edx
.Lfilter_BB8_24:
	xorl	%ecx, %ecx
.Lfilter_BB8_25:
	xorl	%esi, %esi
.Lfilter_BB8_26:
	movq	120(%rsp), %rax
	movzwl	%si, %esi
	movq	%rcx, %r8
	xorl	%ecx, %ecx
.Lfilter_BB8_27:
	movq	%rdx, (%rax)
	movq	%r8, 8(%rax)
	movq	%rsi, 16(%rax)
	movq	%rcx, 24(%rax)
	movl	%r9d, 32(%rax)
	movl	$0, 36(%rax)
	addq	$408, %rsp
	popq	%rbx
	popq	%r12
	popq	%r13
	popq	%r14
	popq	%r15
	popq	%rbp
	retq
.Lfilter_func_end8:
	.size	loamchalice_filtered_pixels_to_ranged_temperatures, .Lfilter_func_end8-loamchalice_filtered_pixels_to_ranged_temperatures
	.section	.rodata.loamchalice_filtered_pixels_to_ranged_temperatures,"a",@progbits
	.p2align	2, 0x0
.Lfilter_JTI8_0:
	.long	.Lfilter_BB8_8-.Lfilter_JTI8_0
	.long	.Lfilter_BB8_8-.Lfilter_JTI8_0
	.long	.Lfilter_BB8_15-.Lfilter_JTI8_0
	.long	.Lfilter_BB8_17-.Lfilter_JTI8_0
	.long	.Lfilter_BB8_12-.Lfilter_JTI8_0
	.long	.Lfilter_BB8_19-.Lfilter_JTI8_0
	.long	.Lfilter_BB8_21-.Lfilter_JTI8_0
	.long	.Lfilter_BB8_18-.Lfilter_JTI8_0
	.long	.Lfilter_BB8_23-.Lfilter_JTI8_0
	.long	.Lfilter_BB8_14-.Lfilter_JTI8_0
	.long	.Lfilter_BB8_22-.Lfilter_JTI8_0
	.long	.Lfilter_BB8_11-.Lfilter_JTI8_0
	.long	.Lfilter_BB8_13-.Lfilter_JTI8_0
	.long	.Lfilter_BB8_20-.Lfilter_JTI8_0
	.long	.Lfilter_BB8_10-.Lfilter_JTI8_0
	.long	.Lfilter_BB8_16-.Lfilter_JTI8_0

	.section	.text.loamchalice_filtered_pixels_to_temperatures,"ax",@progbits
	.globl	loamchalice_filtered_pixels_to_temperatures
	.p2align	4
	.type	loamchalice_filtered_pixels_to_temperatures,@function
loamchalice_filtered_pixels_to_temperatures:
	pushq	%rbp
	pushq	%r15
	pushq	%r14
	pushq	%r13
	pushq	%r12
	pushq	%rbx
	subq	$408, %rsp
	movq	%r8, 160(%rsp)
	movq	%rdx, 168(%rsp)
	movq	%rdi, 120(%rsp)
	movq	696(%rsp), %rdi
	movq	680(%rsp), %rax
	xorl	%r15d, %r15d
	movq	%rsi, 152(%rsp)
	testq	%rsi, %rsi
	sete	%r15b
	shll	$12, %r15d
	xorl	%r12d, %r12d
	movq	%rcx, 128(%rsp)
	testq	%rcx, %rcx
	sete	%r12b
	shll	$12, %r12d
	xorl	%r10d, %r10d
	movq	%r9, 144(%rsp)
	testq	%r9, %r9
	sete	%r10b
	shll	$12, %r10d
	xorl	%ebp, %ebp
	cmpq	$0, 664(%rsp)
	sete	%bpl
	shll	$12, %ebp
	xorl	%r8d, %r8d
	movq	%rax, 136(%rsp)
	testq	%rax, %rax
	sete	%r8b
	shll	$12, %r8d
	xorl	%ebx, %ebx
	testq	%rdi, %rdi
	sete	%bl
	shll	$12, %ebx
	movq	712(%rsp), %r11
	xorl	%eax, %eax
	testq	%r11, %r11
	sete	%al
	shll	$12, %eax
	movq	728(%rsp), %r14
	xorl	%r9d, %r9d
	testq	%r14, %r14
	sete	%r9b
	shll	$12, %r9d
	xorl	%r13d, %r13d
	cmpb	$0, 563(%rsp)
	setne	%dl
	leaq	624(%rsp), %rcx
	movswl	640(%rsp), %esi
	jne	.Lfilter_BB9_2
	xorps	%xmm1, %xmm1
	jmp	.Lfilter_BB9_3
.Lfilter_BB9_2:
	movss	504(%rsp), %xmm1
.Lfilter_BB9_3:
	addq	%r15, 152(%rsp)
	addq	%r12, 128(%rsp)
	addq	%r10, 144(%rsp)
	movq	664(%rsp), %r10
	addq	%rbp, %r10
	movq	%r10, %rbp
	addq	%r8, 136(%rsp)
	movq	704(%rsp), %r12
	addq	%rbx, %rdi
	movq	720(%rsp), %r15
	addq	%rax, %r11
	addq	%r9, %r14
	xorl	%r8d, %r8d
	cmpb	$0, 628(%rsp)
	movq	736(%rsp), %r10
	leaq	620(%rsp), %rax
	cmoveq	%rax, %rcx
	movzwl	560(%rsp), %r9d
	movzbl	562(%rsp), %ebx
	movss	(%rcx), %xmm2
	movq	600(%rsp), %rax
	movss	616(%rsp), %xmm3
	movb	%dl, %r13b
	sete	%cl
	cmpb	$0, 652(%rsp)
	je	.Lfilter_BB9_5
	movss	648(%rsp), %xmm0
	jmp	.Lfilter_BB9_6
.Lfilter_BB9_5:
	cvtsi2ss	%esi, %xmm0
.Lfilter_BB9_6:
	cmpb	$0, 642(%rsp)
	movups	540(%rsp), %xmm4
	movups	%xmm4, 300(%rsp)
	movups	508(%rsp), %xmm4
	movups	%xmm4, 316(%rsp)
	movups	524(%rsp), %xmm4
	movups	%xmm4, 332(%rsp)
	movups	564(%rsp), %xmm4
	movups	580(%rsp), %xmm5
	movups	%xmm4, 376(%rsp)
	movups	%xmm5, 392(%rsp)
	movb	%cl, %r8b
	movl	556(%rsp), %ecx
	movl	%ecx, 268(%rsp)
	movb	%bl, 272(%rsp)
	movw	$0, 273(%rsp)
	movb	$0, 275(%rsp)
	movaps	464(%rsp), %xmm4
	movups	%xmm4, 276(%rsp)
	movsd	480(%rsp), %xmm4
	movsd	%xmm4, 292(%rsp)
	movsd	488(%rsp), %xmm4
	movsd	%xmm4, 348(%rsp)
	movw	%r9w, 356(%rsp)
	movw	$0, 358(%rsp)
	movsd	496(%rsp), %xmm4
	movsd	%xmm4, 360(%rsp)
	movl	%r13d, 368(%rsp)
	movss	%xmm1, 372(%rsp)
	xorps	%xmm1, %xmm1
	movsd	608(%rsp), %xmm4
	movsd	%xmm4, 176(%rsp)
	movss	%xmm3, 184(%rsp)
	movl	$0, 188(%rsp)
	movq	%rax, 192(%rsp)
	movl	%r8d, 200(%rsp)
	movss	%xmm2, 204(%rsp)
	movq	632(%rsp), %rax
	movq	%rax, 208(%rsp)
	movw	%si, 216(%rsp)
	setne	218(%rsp)
	movaps	%xmm1, 224(%rsp)
	movaps	%xmm1, 240(%rsp)
	movl	$0, 219(%rsp)
	movb	$0, 223(%rsp)
	movq	%r10, 104(%rsp)
	movq	%r14, 96(%rsp)
	movq	%r15, 88(%rsp)
	movq	%r11, 80(%rsp)
	movq	%r12, 72(%rsp)
	movq	%rdi, 64(%rsp)
	movq	688(%rsp), %rax
	movq	%rax, 56(%rsp)
	movq	136(%rsp), %rax
	movq	%rax, 48(%rsp)
	movq	672(%rsp), %rax
	movq	%rax, 40(%rsp)
	movq	%rbp, 32(%rsp)
	movq	656(%rsp), %rax
	movq	%rax, 24(%rsp)
	movq	144(%rsp), %rax
	movq	%rax, 16(%rsp)
	movq	160(%rsp), %rax
	movq	%rax, 8(%rsp)
	movq	128(%rsp), %rax
	movq	%rax, (%rsp)
	leaq	224(%rsp), %rdi
	leaq	268(%rsp), %rsi
	leaq	176(%rsp), %rdx
	movq	152(%rsp), %r8
	movq	168(%rsp), %r9
	movl	$1, %ecx
	callq	loamchalice.filter.calculations.from_pixels
	movl	232(%rsp), %edi
	movq	240(%rsp), %rcx
	cmpb	$0, 224(%rsp)
	je	.Lfilter_BB9_9
	movzwl	248(%rsp), %esi
	movl	%edi, %r8d
	shrl	$16, %r8d
	xorl	%r9d, %r9d
	movzbl	%dil, %edx
	leaq	.Lfilter_JTI9_0(%rip), %rdi
	movslq	(%rdi,%rdx,4), %rdx
	addq	%rdi, %rdx
	jmpq	*%rdx
.Lfilter_BB9_8:
	movl	$1, %edx
	jmp	.Lfilter_BB9_25
.Lfilter_BB9_9:
	xorl	%edx, %edx
	xorl	%r8d, %r8d
	xorl	%esi, %esi
	movl	%edi, %r9d
	movq	120(%rsp), %rax
	jmp	.Lfilter_BB9_27
.Lfilter_BB9_10:
	movl	$13, %edx
	jmp	.Lfilter_BB9_25
.Lfilter_BB9_11:
	movl	$10, %edx
	jmp	.Lfilter_BB9_25
.Lfilter_BB9_12:
	movl	$4, %edx
	xorl	%esi, %esi
	movq	%r8, %rcx
	jmp	.Lfilter_BB9_26
.Lfilter_BB9_13:
	movl	$11, %edx
	jmp	.Lfilter_BB9_25
.Lfilter_BB9_14:
	movl	%r8d, %ecx
	movl	$9, %edx
	jmp	.Lfilter_BB9_25
.Lfilter_BB9_15:
	movl	$2, %edx
	jmp	.Lfilter_BB9_24
.Lfilter_BB9_16:
	movl	$14, %edx
	jmp	.Lfilter_BB9_25
.Lfilter_BB9_17:
	movl	$3, %edx
	jmp	.Lfilter_BB9_26
.Lfilter_BB9_18:
	movl	$7, %edx
	jmp	.Lfilter_BB9_24
.Lfilter_BB9_19:
	movl	$5, %edx
	jmp	.Lfilter_BB9_25
.Lfilter_BB9_20:
	movl	$12, %edx
	jmp	.Lfilter_BB9_25
.Lfilter_BB9_21:
	movl	$6, %edx
	jmp	.Lfilter_BB9_25
.Lfilter_BB9_22:
	movl	$9, %edx
	jmp	.Lfilter_BB9_26
.Lfilter_BB9_23:
	movl	$8, %edx
.Lfilter_BB9_24:
	xorl	%ecx, %ecx
.Lfilter_BB9_25:
	xorl	%esi, %esi
.Lfilter_BB9_26:
	movq	120(%rsp), %rax
	movzwl	%si, %esi
	movq	%rcx, %r8
	xorl	%ecx, %ecx
.Lfilter_BB9_27:
	movq	%rdx, (%rax)
	movq	%r8, 8(%rax)
	movq	%rsi, 16(%rax)
	movq	%rcx, 24(%rax)
	movl	%r9d, 32(%rax)
	movl	$0, 36(%rax)
	addq	$408, %rsp
	popq	%rbx
	popq	%r12
	popq	%r13
	popq	%r14
	popq	%r15
	popq	%rbp
	retq
.Lfilter_func_end9:
	.size	loamchalice_filtered_pixels_to_temperatures, .Lfilter_func_end9-loamchalice_filtered_pixels_to_temperatures
	.section	.rodata.loamchalice_filtered_pixels_to_temperatures,"a",@progbits
	.p2align	2, 0x0
.Lfilter_JTI9_0:
	.long	.Lfilter_BB9_8-.Lfilter_JTI9_0
	.long	.Lfilter_BB9_8-.Lfilter_JTI9_0
	.long	.Lfilter_BB9_15-.Lfilter_JTI9_0
	.long	.Lfilter_BB9_17-.Lfilter_JTI9_0
	.long	.Lfilter_BB9_12-.Lfilter_JTI9_0
	.long	.Lfilter_BB9_19-.Lfilter_JTI9_0
	.long	.Lfilter_BB9_21-.Lfilter_JTI9_0
	.long	.Lfilter_BB9_18-.Lfilter_JTI9_0
	.long	.Lfilter_BB9_23-.Lfilter_JTI9_0
	.long	.Lfilter_BB9_14-.Lfilter_JTI9_0
	.long	.Lfilter_BB9_22-.Lfilter_JTI9_0
	.long	.Lfilter_BB9_11-.Lfilter_JTI9_0
	.long	.Lfilter_BB9_13-.Lfilter_JTI9_0
	.long	.Lfilter_BB9_20-.Lfilter_JTI9_0
	.long	.Lfilter_BB9_10-.Lfilter_JTI9_0
	.long	.Lfilter_BB9_16-.Lfilter_JTI9_0

	.type	.Lfilter_switch.table.roots.fourth_roots,@object
	.section	.rodata.cst32,"aM",@progbits,32
	.p2align	3, 0x0
.Lfilter_switch.table.roots.fourth_roots:
	.quad	0x4160000000000000
	.quad	0x4166a09e667f3bcd
	.quad	0x4160000000000000
	.quad	0x4166a09e667f3bcd
	.size	.Lfilter_switch.table.roots.fourth_roots, 32

	.type	.Lfilter_switch.table.roots.fourth_roots.10,@object
	.p2align	3, 0x0
.Lfilter_switch.table.roots.fourth_roots.10:
	.quad	0x3fe0000000000000
	.quad	0x3fdae89f995ad3ad
	.quad	0x3fe6a09e667f3bcd
	.quad	0x3fe306fe0a31b715
	.size	.Lfilter_switch.table.roots.fourth_roots.10, 32

# reader
	.section	.text.loamchalice_reader_new,"ax",@progbits
	.globl	loamchalice_reader_new
	.p2align	4
	.type	loamchalice_reader_new,@function
loamchalice_reader_new:
	movq	%rdi, %rax
	xorps	%xmm0, %xmm0
	movups	%xmm0, 32(%rdi)
	movups	%xmm0, 16(%rdi)
	movups	%xmm0, (%rdi)
	movq	$832, 48(%rdi)
	movups	%xmm0, 56(%rdi)
	movups	%xmm0, 72(%rdi)
	movups	%xmm0, 88(%rdi)
	movups	%xmm0, 104(%rdi)
	movups	%xmm0, 120(%rdi)
	movups	%xmm0, 136(%rdi)
	movups	%xmm0, 152(%rdi)
	movups	%xmm0, 168(%rdi)
	movq	$0, 184(%rdi)
	retq
.Lreader_func_end0:
	.size	loamchalice_reader_new, .Lreader_func_end0-loamchalice_reader_new

	.section	.text.loamchalice_reader_finished,"ax",@progbits
	.globl	loamchalice_reader_finished
	.p2align	4
	.type	loamchalice_reader_finished,@function
loamchalice_reader_finished:
	movq	%rdi, %rax
	movq	8(%rsp), %rsi
	movzbl	16(%rsp), %edi
	testb	%dil, %dil
	je	.Lreader_BB1_1
	leaq	8(%rsp), %rdx
	movl	188(%rdx), %ecx
	movl	152(%rdx), %r8d
	movss	96(%rdx), %xmm0
	movq	48(%rdx), %r9
	movq	%rsi, (%rax)
	movb	%dil, 8(%rax)
	movl	9(%rdx), %esi
	movl	12(%rdx), %edi
	movl	%esi, 9(%rax)
	movl	%edi, 12(%rax)
	movups	16(%rdx), %xmm1
	movups	%xmm1, 16(%rax)
	movups	32(%rdx), %xmm1
	movups	%xmm1, 32(%rax)
	movq	%r9, 48(%rax)
	movups	56(%rdx), %xmm1
	movups	%xmm1, 56(%rax)
	movups	72(%rdx), %xmm1
	movups	%xmm1, 72(%rax)
	movsd	88(%rdx), %xmm1
	movsd	%xmm1, 88(%rax)
	movss	%xmm0, 96(%rax)
	movups	100(%rdx), %xmm0
	movups	116(%rdx), %xmm1
	movups	%xmm1, 116(%rax)
	movups	%xmm0, 100(%rax)
	movups	132(%rdx), %xmm0
	movups	%xmm0, 132(%rax)
	movl	148(%rdx), %esi
	movl	%esi, 148(%rax)
	movl	%r8d, 152(%rax)
	movups	156(%rdx), %xmm0
	movups	172(%rdx), %xmm1
	movups	%xmm0, 156(%rax)
	movups	%xmm1, 172(%rax)
	movl	%ecx, 188(%rax)
	retq
.Lreader_BB1_1:
	xorl	%ecx, %ecx
	xorl	%edx, %edx
	cmpq	$1664, %rsi
	setb	%dl
	movl	$0, %edi
	cmovbq	%rsi, %rdi
	movq	%rsi, (%rax)
	setb	8(%rax)
	movl	$0, 9(%rax)
	movl	$0, 12(%rax)
	movq	%rdx, 16(%rax)
	movq	%rdi, 24(%rax)
	xorps	%xmm0, %xmm0
	movups	%xmm0, 32(%rax)
	movq	$832, 48(%rax)
	movups	%xmm0, 56(%rax)
	movups	%xmm0, 72(%rax)
	movups	%xmm0, 88(%rax)
	movups	%xmm0, 104(%rax)
	movups	%xmm0, 120(%rax)
	movups	%xmm0, 136(%rax)
	movups	%xmm0, 152(%rax)
	movups	%xmm0, 168(%rax)
	movl	$0, 184(%rax)
	movl	%ecx, 188(%rax)
	retq
.Lreader_func_end1:
	.size	loamchalice_reader_finished, .Lreader_func_end1-loamchalice_reader_finished

	.section	.rodata.cst16,"aM",@progbits,16
	.p2align	4, 0x0
.Lreader_CPI2_0:
	.byte	255
	.byte	0
	.byte	255
	.byte	0
	.byte	255
	.byte	0
	.byte	255
	.byte	0
	.byte	255
	.byte	0
	.byte	255
	.byte	0
	.byte	255
	.byte	0
	.byte	255
	.byte	0
.Lreader_CPI2_1:
	.zero	16,85
.Lreader_CPI2_2:
	.zero	16,51
.Lreader_CPI2_3:
	.zero	16,240
.Lreader_CPI2_4:
	.zero	16,71
.Lreader_CPI2_5:
	.zero	16,142
.Lreader_CPI2_6:
	.zero	16,39
.Lreader_CPI2_7:
	.zero	16,109
.Lreader_CPI2_8:
	.zero	16,22
.Lreader_CPI2_9:
	.zero	16,91
.Lreader_CPI2_10:
	.zero	16,13
.Lreader_CPI2_11:
	.zero	16,1
.Lreader_CPI2_12:
	.byte	240
	.byte	240
	.byte	240
	.byte	240
	.byte	240
	.byte	240
	.byte	240
	.byte	240
	.zero	1
	.zero	1
	.zero	1
	.zero	1
	.zero	1
	.zero	1
	.zero	1
	.zero	1
.Lreader_CPI2_13:
	.byte	71
	.byte	71
	.byte	71
	.byte	71
	.byte	71
	.byte	71
	.byte	71
	.byte	71
	.zero	1
	.zero	1
	.zero	1
	.zero	1
	.zero	1
	.zero	1
	.zero	1
	.zero	1
.Lreader_CPI2_14:
	.zero	16,15
.Lreader_CPI2_15:
	.byte	142
	.byte	142
	.byte	142
	.byte	142
	.byte	142
	.byte	142
	.byte	142
	.byte	142
	.zero	1
	.zero	1
	.zero	1
	.zero	1
	.zero	1
	.zero	1
	.zero	1
	.zero	1
.Lreader_CPI2_16:
	.byte	39
	.byte	39
	.byte	39
	.byte	39
	.byte	39
	.byte	39
	.byte	39
	.byte	39
	.zero	1
	.zero	1
	.zero	1
	.zero	1
	.zero	1
	.zero	1
	.zero	1
	.zero	1
.Lreader_CPI2_17:
	.byte	109
	.byte	109
	.byte	109
	.byte	109
	.byte	109
	.byte	109
	.byte	109
	.byte	109
	.zero	1
	.zero	1
	.zero	1
	.zero	1
	.zero	1
	.zero	1
	.zero	1
	.zero	1
.Lreader_CPI2_18:
	.byte	22
	.byte	22
	.byte	22
	.byte	22
	.byte	22
	.byte	22
	.byte	22
	.byte	22
	.zero	1
	.zero	1
	.zero	1
	.zero	1
	.zero	1
	.zero	1
	.zero	1
	.zero	1
.Lreader_CPI2_19:
	.byte	91
	.byte	91
	.byte	91
	.byte	91
	.byte	91
	.byte	91
	.byte	91
	.byte	91
	.zero	1
	.zero	1
	.zero	1
	.zero	1
	.zero	1
	.zero	1
	.zero	1
	.zero	1
.Lreader_CPI2_20:
	.byte	13
	.byte	13
	.byte	13
	.byte	13
	.byte	13
	.byte	13
	.byte	13
	.byte	13
	.zero	1
	.zero	1
	.zero	1
	.zero	1
	.zero	1
	.zero	1
	.zero	1
	.zero	1
.Lreader_CPI2_21:
	.byte	1
	.byte	1
	.byte	1
	.byte	1
	.byte	1
	.byte	1
	.byte	1
	.byte	1
	.zero	1
	.zero	1
	.zero	1
	.zero	1
	.zero	1
	.zero	1
	.zero	1
	.zero	1
.Lreader_CPI2_22:
	.short	65287
	.short	65287
	.short	65287
	.short	65287
	.short	65287
	.short	65287
	.short	65287
	.short	65287
.Lreader_CPI2_23:
	.short	1792
	.short	1792
	.short	1792
	.short	1792
	.short	1792
	.short	1792
	.short	1792
	.short	1792
.Lreader_CPI2_26:
	.long	0x80000000
	.long	0x80000000
	.long	0x80000000
	.long	0x80000000
.Lreader_CPI2_28:
	.short	2047
	.short	2047
	.short	2047
	.short	2047
	.zero	2
	.zero	2
	.zero	2
	.zero	2
.Lreader_CPI2_29:
	.short	1024
	.short	1024
	.short	1024
	.short	1024
	.zero	2
	.zero	2
	.zero	2
	.zero	2
.Lreader_CPI2_30:
	.short	63488
	.short	63488
	.short	63488
	.short	63488
	.short	0
	.short	0
	.short	0
	.short	0
.Lreader_CPI2_33:
	.long	2147516416
	.long	2147516416
	.long	2147516416
	.long	2147516416
.Lreader_CPI2_34:
	.short	127
	.short	127
	.short	127
	.zero	2
	.zero	2
	.zero	2
	.zero	2
	.zero	2
.Lreader_CPI2_35:
	.long	0x7f800000
	.long	0x7f800000
	.zero	4
	.zero	4
.Lreader_CPI2_39:
	.long	0x38000000
	.long	0x3b000000
	.zero	4
	.zero	4
	.section	.rodata.cst4,"aM",@progbits,4
	.p2align	2, 0x0
.Lreader_CPI2_24:
	.long	0x7f800000
.Lreader_CPI2_25:
	.long	0x47800000
.Lreader_CPI2_27:
	.long	0x3f800000
.Lreader_CPI2_31:
	.long	0x44ffe000
.Lreader_CPI2_32:
	.long	0x3c800000
.Lreader_CPI2_36:
	.long	0x3c000000
.Lreader_CPI2_37:
	.long	0x39800000
.Lreader_CPI2_38:
	.long	0x3e000000
	.section	.text.loamchalice_reader_take,"ax",@progbits
	.globl	loamchalice_reader_take
	.p2align	4
	.type	loamchalice_reader_take,@function
loamchalice_reader_take:
	pushq	%rbp
	pushq	%r15
	pushq	%r14
	pushq	%r13
	pushq	%r12
	pushq	%rbx
	subq	$2520, %rsp
	movq	%r9, %rax
	movq	%r8, 16(%rsp)
	movq	%rcx, 72(%rsp)
	movq	%rsi, 64(%rsp)
	testq	%rdx, %rdx
	sete	40(%rsp)
	testq	%r9, %r9
	sete	32(%rsp)
	cmpq	$0, 2776(%rsp)
	sete	48(%rsp)
	cmpq	$0, 2792(%rsp)
	sete	(%rsp)
	cmpq	$0, 2808(%rsp)
	sete	128(%rsp)
	cmpq	$0, 2824(%rsp)
	movdqu	2632(%rsp), %xmm0
	movdqu	2648(%rsp), %xmm1
	movdqu	2664(%rsp), %xmm2
	movdqu	2680(%rsp), %xmm3
	movq	2696(%rsp), %xmm4
	movd	2704(%rsp), %xmm5
	movdqu	2708(%rsp), %xmm6
	pxor	%xmm7, %xmm7
	movdqa	%xmm7, 640(%rsp)
	movdqa	%xmm7, 624(%rsp)
	movdqa	%xmm7, 592(%rsp)
	movdqa	%xmm7, 608(%rsp)
	movdqa	%xmm7, 80(%rsp)
	movdqa	%xmm7, 96(%rsp)
	sete	%cl
	movzbl	2584(%rsp), %r8d
	movzbl	2730(%rsp), %esi
	movb	%sil, 56(%rsp)
	movzbl	2731(%rsp), %esi
	movb	%sil, 24(%rsp)
	movq	2576(%rsp), %r14
	movq	2592(%rsp), %rbp
	movq	2600(%rsp), %rsi
	movq	2608(%rsp), %r10
	movq	2616(%rsp), %r11
	movq	2624(%rsp), %r15
	movzwl	2724(%rsp), %ebx
	movzwl	2726(%rsp), %r12d
	movzwl	2728(%rsp), %r13d
	movl	2764(%rsp), %r9d
	testb	%r8b, %r8b
	je	.Lreader_BB2_2
	leaq	2576(%rsp), %rcx
	movq	%r14, (%rdi)
	movb	%r8b, 8(%rdi)
	movl	9(%rcx), %eax
	movl	12(%rcx), %edx
	movl	%eax, 9(%rdi)
	movl	%edx, 12(%rdi)
	movq	%rbp, 16(%rdi)
	movq	%rsi, 24(%rdi)
	movq	%r10, 32(%rdi)
	movq	%r11, 40(%rdi)
	movq	%r15, 48(%rdi)
	movdqu	%xmm0, 56(%rdi)
	movdqu	%xmm1, 72(%rdi)
	movdqu	%xmm2, 88(%rdi)
	movdqu	%xmm3, 104(%rdi)
	movq	%xmm4, 120(%rdi)
	movd	%xmm5, 128(%rdi)
	movdqu	%xmm6, 132(%rdi)
	movw	%bx, 148(%rdi)
	movw	%r12w, 150(%rdi)
	movw	%r13w, 152(%rdi)
	movzbl	56(%rsp), %eax
	movb	%al, 154(%rdi)
	movzbl	24(%rsp), %edx
	movb	%dl, 155(%rdi)
	movdqu	156(%rcx), %xmm7
	movups	172(%rcx), %xmm8
	movups	%xmm8, 172(%rdi)
	movdqu	%xmm7, 156(%rdi)
	movl	%r9d, 188(%rdi)
	movq	%rbp, 192(%rdi)
	movq	%rsi, 200(%rdi)
	movq	%r10, 208(%rdi)
	movq	%r11, 216(%rdi)
	movq	%r15, 224(%rdi)
	movdqu	%xmm0, 232(%rdi)
	movdqu	%xmm1, 248(%rdi)
	movdqu	%xmm2, 264(%rdi)
	movdqu	%xmm3, 280(%rdi)
	movq	%xmm4, 296(%rdi)
	movd	%xmm5, 304(%rdi)
	movdqu	%xmm6, 308(%rdi)
	movw	%bx, 324(%rdi)
	movw	%r12w, 326(%rdi)
	movw	%r13w, 328(%rdi)
	movb	%al, 330(%rdi)
	movb	%dl, 331(%rdi)
	movups	156(%rcx), %xmm0
	movups	172(%rcx), %xmm1
	movups	%xmm1, 348(%rdi)
	movups	%xmm0, 332(%rdi)
	movl	%r9d, 364(%rdi)
	movq	%rdi, %rax
	jmp	.Lreader_BB2_80
.Lreader_BB2_2:
	movb	%cl, 56(%rsp)
	movzbl	40(%rsp), %ebp
	movzbl	32(%rsp), %ebx
	movzbl	48(%rsp), %r11d
	movq	72(%rsp), %r13
	movq	64(%rsp), %r15
	movq	%rax, 8(%rsp)
	movq	2808(%rsp), %rax
	movq	%rax, 24(%rsp)
	movq	%rdi, 200(%rsp)
	movq	2832(%rsp), %rsi
	movq	2816(%rsp), %rdi
	movq	2800(%rsp), %r8
	movq	2784(%rsp), %r9
	movq	2768(%rsp), %r10
	movdqa	%xmm7, 752(%rsp)
	movdqa	%xmm7, 768(%rsp)
	movdqa	%xmm7, 720(%rsp)
	movdqa	%xmm7, 736(%rsp)
	cmpq	%r9, %r10
	cmovbq	%r10, %r9
	movdqa	%xmm7, 224(%rsp)
	cmpq	%rsi, %rdi
	cmovbq	%rdi, %rsi
	movdqa	%xmm7, 208(%rsp)
	cmpq	%rsi, %r8
	cmovbq	%r8, %rsi
	cmpq	%rsi, %r9
	cmovbq	%r9, %rsi
	cmpq	$192, %rsi
	jae	.Lreader_BB2_7
	pxor	%xmm0, %xmm0
	movdqa	%xmm0, 80(%rsp)
	movdqa	%xmm0, 96(%rsp)
	movl	$2, %eax
	movq	%rax, 8(%rsp)
	movq	$0, (%rsp)
	xorl	%r8d, %r8d
	xorl	%r9d, %r9d
	movq	$0, 16(%rsp)
	movq	%r14, 128(%rsp)
.Lreader_BB2_4:
	xorl	%r14d, %r14d
.Lreader_BB2_5:
	movzwl	%r8w, %eax
	movq	%rax, 184(%rsp)
	movzwl	%r14w, %eax
	movq	%rax, 192(%rsp)
	xorps	%xmm5, %xmm5
	movaps	%xmm5, 672(%rsp)
	movaps	%xmm5, 656(%rsp)
	movl	$832, %r13d
	movq	$0, 64(%rsp)
	xorps	%xmm2, %xmm2
	movq	$0, 48(%rsp)
	movq	$0, 24(%rsp)
	xorl	%r15d, %r15d
	xorl	%r12d, %r12d
	xorps	%xmm4, %xmm4
	pxor	%xmm6, %xmm6
	xorps	%xmm3, %xmm3
	xorl	%edi, %edi
	xorl	%r11d, %r11d
	movl	$0, 148(%rsp)
	xorl	%r10d, %r10d
	xorl	%edx, %edx
	movq	$0, 56(%rsp)
	xorl	%ebp, %ebp
	xorps	%xmm1, %xmm1
	movq	$0, 72(%rsp)
	xorl	%ecx, %ecx
	xorl	%ebx, %ebx
	xorl	%esi, %esi
.Lreader_BB2_6:
	movq	%rbx, 40(%rsp)
	movq	200(%rsp), %rax
	movq	128(%rsp), %r8
	movq	%r8, (%rax)
	movq	(%rsp), %r8
	movb	%r8b, 8(%rax)
	movl	$0, 9(%rax)
	movl	$0, 12(%rax)
	movq	16(%rsp), %r8
	movq	%r8, 16(%rax)
	movq	%r9, 24(%rax)
	movq	184(%rsp), %r8
	movq	%r8, 32(%rax)
	movq	%r10, 40(%rax)
	movq	%r13, %r8
	movq	%r13, 48(%rax)
	movl	148(%rsp), %r13d
	movl	%r13d, 56(%rax)
	movl	%r11d, 60(%rax)
	movl	%edi, 64(%rax)
	movss	%xmm3, 68(%rax)
	movd	%xmm6, 72(%rax)
	movups	%xmm5, 76(%rax)
	movss	%xmm4, 92(%rax)
	movss	%xmm2, 96(%rax)
	movups	%xmm0, 100(%rax)
	movups	%xmm1, 116(%rax)
	movq	%rsi, 120(%rsp)
	movw	%si, 132(%rax)
	movw	%bx, 134(%rax)
	movw	$0, 136(%rax)
	movq	%rcx, %rbx
	movw	%bx, 138(%rax)
	movq	72(%rsp), %rcx
	movw	%cx, 140(%rax)
	movw	%bp, 142(%rax)
	movq	56(%rsp), %rcx
	movw	%cx, 144(%rax)
	movw	%dx, 146(%rax)
	movq	%r12, %rcx
	movw	%cx, 148(%rax)
	movq	%r15, 32(%rsp)
	movw	%r15w, 150(%rax)
	movq	24(%rsp), %r14
	movw	%r14w, 152(%rax)
	movq	48(%rsp), %r14
	movb	%r14b, 154(%rax)
	movq	%r12, %r15
	movq	%r8, %r12
	movq	%rdx, %rcx
	movl	%edi, %edx
	movq	%r14, %rdi
	movq	64(%rsp), %r14
	movb	%r14b, 155(%rax)
	movdqa	80(%rsp), %xmm7
	movaps	96(%rsp), %xmm8
	movups	%xmm8, 172(%rax)
	movdqu	%xmm7, 156(%rax)
	movl	$0, 188(%rax)
	movq	8(%rsp), %r8
	movq	%r8, 192(%rax)
	movq	%r9, 200(%rax)
	movq	192(%rsp), %r8
	movq	%r8, 208(%rax)
	movq	%r10, 216(%rax)
	movq	%r12, 224(%rax)
	movl	%r13d, 232(%rax)
	movl	%r11d, 236(%rax)
	movl	%edx, 240(%rax)
	movss	%xmm3, 244(%rax)
	movd	%xmm6, 248(%rax)
	movups	%xmm5, 252(%rax)
	movss	%xmm4, 268(%rax)
	movss	%xmm2, 272(%rax)
	movups	%xmm0, 276(%rax)
	movups	%xmm1, 292(%rax)
	movq	120(%rsp), %rdx
	movw	%dx, 308(%rax)
	movq	40(%rsp), %rdx
	movw	%dx, 310(%rax)
	movw	$0, 312(%rax)
	movw	%bx, 314(%rax)
	movq	72(%rsp), %rdx
	movw	%dx, 316(%rax)
	movw	%bp, 318(%rax)
	movq	56(%rsp), %rdx
	movw	%dx, 320(%rax)
	movw	%cx, 322(%rax)
	movw	%r15w, 324(%rax)
	movq	32(%rsp), %rcx
	movw	%cx, 326(%rax)
	movq	24(%rsp), %rcx
	movw	%cx, 328(%rax)
	movb	%dil, 330(%rax)
	movb	%r14b, 331(%rax)
	movaps	656(%rsp), %xmm0
	movaps	672(%rsp), %xmm1
	movups	%xmm1, 348(%rax)
	movups	%xmm0, 332(%rax)
	movl	$0, 364(%rax)
	jmp	.Lreader_BB2_80
.Lreader_BB2_7:
	testq	%r13, %r13
	movq	%r14, %r12
	je	.Lreader_BB2_79
	movq	%r13, %r8
	xorl	%eax, %eax
	movb	%bpl, %al
	shll	$12, %eax
	addq	%rax, %rdx
	xorl	%ecx, %ecx
	movb	%bl, %cl
	shll	$12, %ecx
	movq	%rcx, 32(%rsp)
	xorl	%ecx, %ecx
	movb	%r11b, %cl
	shll	$12, %ecx
	movq	%rcx, 40(%rsp)
	xorl	%eax, %eax
	movzbl	(%rsp), %ecx
	movb	%cl, %al
	shll	$12, %eax
	xorl	%ecx, %ecx
	movzbl	128(%rsp), %esi
	movb	%sil, %cl
	shll	$12, %ecx
	addq	%rcx, 24(%rsp)
	xorl	%ecx, %ecx
	movzbl	56(%rsp), %esi
	movb	%sil, %cl
	shll	$12, %ecx
	movq	2824(%rsp), %rsi
	addq	%rcx, %rsi
	movq	%rsi, 48(%rsp)
	movabsq	$-4294967296, %r11
	movq	%r15, %rdi
	leaq	(%r15,%r12), %rbx
	xorl	%ecx, %ecx
	jmp	.Lreader_BB2_10
	.p2align	4
.Lreader_BB2_9:
	leaq	1(%r10), %rcx
	cmpq	%rcx, %r8
	je	.Lreader_BB2_18
.Lreader_BB2_10:
	leaq	(%r12,%rcx), %rbp
	cmpq	$1664, %rbp
	jae	.Lreader_BB2_17
	movq	%rcx, %r10
	movzbl	(%rdx,%rcx), %ecx
	movb	%cl, (%rbx,%r10)
	testb	$1, %bpl
	je	.Lreader_BB2_9
	movq	%rbp, %rcx
	shrq	%rcx
	movq	%rcx, %r9
	cmpq	$63, %rcx
	ja	.Lreader_BB2_15
	movabsq	$-279648911203696640, %rcx
	btq	%r9, %rcx
	jae	.Lreader_BB2_15
.Lreader_BB2_14:
	andl	$2046, %ebp
	movzbl	(%rdi,%rbp), %esi
	movzbl	1(%rdi,%rbp), %ecx
	movq	%rcx, %rdi
	movabsq	$4311810305, %r12
	imulq	%r12, %rdi
	movabsq	$1099252526427, %r8
	andq	%r8, %rdi
	movq	%rsi, %r8
	imulq	%r12, %r8
	movabsq	$1096410404365, %rbp
	andq	%rbp, %r8
	xorq	%rdi, %r8
	movq	%r8, %rdi
	shrq	$4, %rdi
	xorq	%r8, %rdi
	movq	%rdi, %r8
	shrq	$2, %r8
	xorq	%rdi, %r8
	movq	%r8, %rdi
	shrq	%rdi
	xorq	%r8, %rdi
	andq	%r12, %rdi
	movq	%r14, %r12
	addq	%r11, %rdi
	leaq	1(%r11), %r8
	cmpq	%r8, %rdi
	movq	%r13, %r8
	movq	%r15, %rdi
	jb	.Lreader_BB2_9
	jmp	.Lreader_BB2_20
.Lreader_BB2_15:
	cmpq	$83, %rbp
	ja	.Lreader_BB2_14
	cmpq	$32, %rbp
	setae	%cl
	leaq	-21(%r9), %rsi
	cmpq	$-2, %rsi
	setb	%sil
	andb	%cl, %sil
	cmpb	$1, %sil
	jne	.Lreader_BB2_9
	jmp	.Lreader_BB2_14
.Lreader_BB2_17:
	movq	%rax, 72(%rsp)
	movq	%rdi, %r13
	movq	8(%rsp), %r14
	movq	16(%rsp), %rbx
	pxor	%xmm0, %xmm0
	movdqa	%xmm0, 256(%rsp)
	movdqa	%xmm0, 240(%rsp)
	jmp	.Lreader_BB2_23
.Lreader_BB2_18:
	pxor	%xmm5, %xmm5
	movdqa	%xmm5, 256(%rsp)
	movdqa	%xmm5, 240(%rsp)
	addq	%r12, %rcx
	cmpq	$1664, %rcx
	movq	%r12, %rcx
	movq	16(%rsp), %r12
	movq	8(%rsp), %r14
	je	.Lreader_BB2_22
	leaq	(%rcx,%r10), %rbp
	incq	%rbp
	movdqa	%xmm5, 224(%rsp)
	movdqa	%xmm5, 208(%rsp)
	pxor	%xmm3, %xmm3
	xorl	%r10d, %r10d
	movb	$1, %r11b
	xorl	%ecx, %ecx
	xorl	%r12d, %r12d
	xorl	%edi, %edi
	xorl	%r9d, %r9d
	xorl	%r8d, %r8d
	xorl	%r14d, %r14d
	pxor	%xmm6, %xmm6
	xorl	%r15d, %r15d
	xorl	%esi, %esi
	xorl	%ebx, %ebx
	xorl	%r13d, %r13d
	movq	$0, 136(%rsp)
	xorl	%eax, %eax
	pxor	%xmm4, %xmm4
	pxor	%xmm2, %xmm2
	pxor	%xmm0, %xmm0
	pxor	%xmm1, %xmm1
	xorl	%edx, %edx
	jmp	.Lreader_BB2_21
.Lreader_BB2_20:
	movzwl	%si, %eax
	shll	$8, %eax
	movzwl	%cx, %r8d
	orl	%eax, %r8d
	pxor	%xmm5, %xmm5
	movdqa	%xmm5, 208(%rsp)
	movdqa	%xmm5, 224(%rsp)
	leaq	(%r12,%r10), %rbp
	incq	%rbp
	pxor	%xmm3, %xmm3
	xorl	%r11d, %r11d
	movw	$3, %cx
	movb	$1, %r10b
	xorl	%r12d, %r12d
	xorl	%edi, %edi
	xorl	%r14d, %r14d
	pxor	%xmm6, %xmm6
	xorl	%r15d, %r15d
	xorl	%esi, %esi
	xorl	%ebx, %ebx
	xorl	%r13d, %r13d
	movq	$0, 136(%rsp)
	xorl	%eax, %eax
	xorl	%edx, %edx
	pxor	%xmm4, %xmm4
	pxor	%xmm2, %xmm2
	pxor	%xmm0, %xmm0
	pxor	%xmm1, %xmm1
.Lreader_BB2_21:
	movq	$0, 24(%rsp)
	movq	$0, 64(%rsp)
	movq	$0, 120(%rsp)
	movq	$0, 152(%rsp)
	jmp	.Lreader_BB2_73
.Lreader_BB2_22:
	movq	%rax, 72(%rsp)
	movq	%rdi, %r13
	movq	%r12, %rbx
	movl	$1664, %ebp
.Lreader_BB2_23:
	pxor	%xmm0, %xmm0
	movdqa	%xmm0, 704(%rsp)
	movdqa	%xmm0, 688(%rsp)
	leaq	856(%rsp), %rdi
	movq	$0, 120(%rsp)
	movl	$1664, %edx
	movq	%rdi, %r12
	xorl	%esi, %esi
	callq	memset@PLT
	movq	%r13, %rdi
	leaq	16(%r13), %r9
	movl	$832, %r13d
	xorl	%r10d, %r10d
	movq	%rbx, %rdx
	movq	%r14, %rsi
	.p2align	4
.Lreader_BB2_24:
	cmpq	$24, %r10
	jb	.Lreader_BB2_47
	movl	%r10d, %eax
	andl	$7, %eax
	jne	.Lreader_BB2_47
	movabsq	$-3689348814741910323, %rax
	imulq	%r10, %rax
	movabsq	$7378697629483820640, %rcx
	addq	%rax, %rcx
	rorq	$5, %rcx
	movabsq	$115292150460684697, %rax
	cmpq	%rax, %rcx
	ja	.Lreader_BB2_30
	pxor	%xmm0, %xmm0
	movdqa	%xmm0, 432(%rsp)
	movdqa	%xmm0, 448(%rsp)
	movdqa	%xmm0, 464(%rsp)
	movdqa	%xmm0, 480(%rsp)
	movdqa	%xmm0, 496(%rsp)
	movdqa	%xmm0, 512(%rsp)
	movdqa	%xmm0, 528(%rsp)
	movdqa	%xmm0, 544(%rsp)
	movdqa	%xmm0, 560(%rsp)
	movdqa	%xmm0, 576(%rsp)
	movdqa	%xmm0, 272(%rsp)
	movdqa	%xmm0, 288(%rsp)
	movdqa	%xmm0, 304(%rsp)
	movdqa	%xmm0, 320(%rsp)
	movdqa	%xmm0, 336(%rsp)
	movdqa	%xmm0, 352(%rsp)
	movdqa	%xmm0, 368(%rsp)
	movdqa	%xmm0, 384(%rsp)
	movdqa	%xmm0, 400(%rsp)
	movdqa	%xmm0, 416(%rsp)
	movdqu	(%rdi,%r10,2), %xmm2
	movdqu	16(%rdi,%r10,2), %xmm3
	movdqa	%xmm2, %xmm4
	psrlw	$8, %xmm4
	movdqa	%xmm3, %xmm1
	psrlw	$8, %xmm1
	packuswb	%xmm1, %xmm4
	movdqa	.Lreader_CPI2_0(%rip), %xmm1
	pand	%xmm1, %xmm2
	pand	%xmm1, %xmm3
	packuswb	%xmm3, %xmm2
	movdqa	%xmm2, 432(%rsp)
	movdqa	%xmm4, 272(%rsp)
	movdqu	32(%rdi,%r10,2), %xmm2
	movdqu	48(%rdi,%r10,2), %xmm3
	movdqa	%xmm2, %xmm4
	psrlw	$8, %xmm4
	movdqa	%xmm3, %xmm5
	psrlw	$8, %xmm5
	packuswb	%xmm5, %xmm4
	pand	%xmm1, %xmm2
	pand	%xmm1, %xmm3
	packuswb	%xmm3, %xmm2
	movdqa	%xmm2, 448(%rsp)
	movdqa	%xmm4, 288(%rsp)
	movdqu	64(%rdi,%r10,2), %xmm2
	movdqu	80(%rdi,%r10,2), %xmm3
	movdqa	%xmm2, %xmm4
	psrlw	$8, %xmm4
	movdqa	%xmm3, %xmm5
	psrlw	$8, %xmm5
	packuswb	%xmm5, %xmm4
	pand	%xmm1, %xmm2
	pand	%xmm1, %xmm3
	packuswb	%xmm3, %xmm2
	movdqa	%xmm2, 464(%rsp)
	movdqa	%xmm4, 304(%rsp)
	movdqu	96(%rdi,%r10,2), %xmm2
	movdqu	112(%rdi,%r10,2), %xmm3
	movdqa	%xmm2, %xmm4
	psrlw	$8, %xmm4
	movdqa	%xmm3, %xmm5
	psrlw	$8, %xmm5
	packuswb	%xmm5, %xmm4
	pand	%xmm1, %xmm2
	pand	%xmm1, %xmm3
	packuswb	%xmm3, %xmm2
	movdqa	%xmm2, 480(%rsp)
	movdqa	%xmm4, 320(%rsp)
	movdqu	128(%rdi,%r10,2), %xmm2
	movdqu	144(%rdi,%r10,2), %xmm3
	movdqa	%xmm2, %xmm4
	psrlw	$8, %xmm4
	movdqa	%xmm3, %xmm5
	psrlw	$8, %xmm5
	packuswb	%xmm5, %xmm4
	pand	%xmm1, %xmm2
	pand	%xmm1, %xmm3
	packuswb	%xmm3, %xmm2
	movdqa	%xmm2, 496(%rsp)
	movdqa	%xmm4, 336(%rsp)
	movdqu	160(%rdi,%r10,2), %xmm2
	movdqu	176(%rdi,%r10,2), %xmm3
	movdqa	%xmm2, %xmm4
	psrlw	$8, %xmm4
	movdqa	%xmm3, %xmm5
	psrlw	$8, %xmm5
	packuswb	%xmm5, %xmm4
	pand	%xmm1, %xmm2
	pand	%xmm1, %xmm3
	packuswb	%xmm3, %xmm2
	movdqa	%xmm2, 512(%rsp)
	movdqa	%xmm4, 352(%rsp)
	movdqu	192(%rdi,%r10,2), %xmm2
	movdqu	208(%rdi,%r10,2), %xmm3
	movdqa	%xmm2, %xmm4
	psrlw	$8, %xmm4
	movdqa	%xmm3, %xmm5
	psrlw	$8, %xmm5
	packuswb	%xmm5, %xmm4
	pand	%xmm1, %xmm2
	pand	%xmm1, %xmm3
	packuswb	%xmm3, %xmm2
	movdqa	%xmm2, 528(%rsp)
	movdqa	%xmm4, 368(%rsp)
	movdqu	224(%rdi,%r10,2), %xmm2
	movdqu	240(%rdi,%r10,2), %xmm3
	movdqa	%xmm2, %xmm4
	psrlw	$8, %xmm4
	movdqa	%xmm3, %xmm5
	psrlw	$8, %xmm5
	packuswb	%xmm5, %xmm4
	pand	%xmm1, %xmm2
	pand	%xmm1, %xmm3
	packuswb	%xmm3, %xmm2
	movdqa	%xmm2, 544(%rsp)
	movdqa	%xmm4, 384(%rsp)
	movdqu	256(%rdi,%r10,2), %xmm2
	movdqu	272(%rdi,%r10,2), %xmm3
	movdqa	%xmm2, %xmm4
	psrlw	$8, %xmm4
	movdqa	%xmm3, %xmm5
	psrlw	$8, %xmm5
	packuswb	%xmm5, %xmm4
	pand	%xmm1, %xmm2
	pand	%xmm1, %xmm3
	packuswb	%xmm3, %xmm2
	movdqa	%xmm2, 560(%rsp)
	movdqa	%xmm4, 400(%rsp)
	movdqu	288(%rdi,%r10,2), %xmm2
	movdqu	304(%rdi,%r10,2), %xmm3
	movdqa	%xmm2, %xmm4
	psrlw	$8, %xmm4
	movdqa	%xmm3, %xmm5
	psrlw	$8, %xmm5
	packuswb	%xmm5, %xmm4
	pand	%xmm1, %xmm2
	pand	%xmm1, %xmm3
	packuswb	%xmm3, %xmm2
	movdqa	%xmm2, 576(%rsp)
	movdqa	%xmm4, 416(%rsp)
	movl	$16, %ecx
	pxor	%xmm1, %xmm1
	.p2align	4
.Lreader_BB2_28:
	movdqu	416(%rsp,%rcx), %xmm3
	movdqu	432(%rsp,%rcx), %xmm2
	movdqu	256(%rsp,%rcx), %xmm7
	movdqu	272(%rsp,%rcx), %xmm6
	movdqa	%xmm7, %xmm10
	pxor	%xmm3, %xmm10
	movdqa	%xmm6, %xmm9
	pxor	%xmm2, %xmm9
	movdqa	%xmm10, %xmm4
	psrlw	$1, %xmm4
	movdqa	.Lreader_CPI2_1(%rip), %xmm5
	pand	%xmm5, %xmm4
	psubb	%xmm4, %xmm10
	movdqa	.Lreader_CPI2_2(%rip), %xmm4
	movdqa	%xmm10, %xmm8
	pand	%xmm4, %xmm8
	psrlw	$2, %xmm10
	pand	%xmm4, %xmm10
	paddb	%xmm8, %xmm10
	movdqa	%xmm10, %xmm8
	psrlw	$4, %xmm8
	paddb	%xmm10, %xmm8
	movdqa	%xmm9, %xmm10
	psrlw	$1, %xmm10
	pand	%xmm5, %xmm10
	psubb	%xmm10, %xmm9
	movdqa	%xmm9, %xmm10
	pand	%xmm4, %xmm10
	psrlw	$2, %xmm9
	pand	%xmm4, %xmm9
	paddb	%xmm10, %xmm9
	movdqa	%xmm9, %xmm10
	psrlw	$4, %xmm10
	paddb	%xmm9, %xmm10
	movdqa	.Lreader_CPI2_3(%rip), %xmm9
	movdqa	%xmm7, %xmm12
	pand	%xmm9, %xmm12
	pand	%xmm6, %xmm9
	movdqa	.Lreader_CPI2_4(%rip), %xmm11
	movdqa	%xmm3, %xmm13
	pand	%xmm11, %xmm13
	pxor	%xmm12, %xmm13
	pand	%xmm2, %xmm11
	pxor	%xmm9, %xmm11
	movdqa	%xmm13, %xmm9
	psrlw	$1, %xmm9
	pand	%xmm5, %xmm9
	psubb	%xmm9, %xmm13
	movdqa	%xmm13, %xmm9
	pand	%xmm4, %xmm9
	psrlw	$2, %xmm13
	pand	%xmm4, %xmm13
	paddb	%xmm9, %xmm13
	movdqa	%xmm13, %xmm9
	psrlw	$4, %xmm9
	paddb	%xmm13, %xmm9
	por	%xmm8, %xmm9
	movdqa	%xmm11, %xmm8
	psrlw	$1, %xmm8
	pand	%xmm5, %xmm8
	psubb	%xmm8, %xmm11
	movdqa	%xmm11, %xmm8
	pand	%xmm4, %xmm8
	psrlw	$2, %xmm11
	pand	%xmm4, %xmm11
	paddb	%xmm8, %xmm11
	movdqa	%xmm11, %xmm8
	psrlw	$4, %xmm8
	paddb	%xmm11, %xmm8
	por	%xmm10, %xmm8
	movdqa	.Lreader_CPI2_5(%rip), %xmm11
	movdqa	%xmm7, %xmm12
	pand	%xmm11, %xmm12
	pand	%xmm6, %xmm11
	movdqa	.Lreader_CPI2_6(%rip), %xmm10
	movdqa	%xmm3, %xmm13
	pand	%xmm10, %xmm13
	pxor	%xmm12, %xmm13
	pand	%xmm2, %xmm10
	pxor	%xmm11, %xmm10
	movdqa	%xmm13, %xmm11
	psrlw	$1, %xmm11
	pand	%xmm5, %xmm11
	psubb	%xmm11, %xmm13
	movdqa	%xmm13, %xmm11
	pand	%xmm4, %xmm11
	psrlw	$2, %xmm13
	pand	%xmm4, %xmm13
	paddb	%xmm11, %xmm13
	movdqa	%xmm13, %xmm12
	psrlw	$4, %xmm12
	paddb	%xmm13, %xmm12
	movdqa	%xmm10, %xmm11
	psrlw	$1, %xmm11
	pand	%xmm5, %xmm11
	psubb	%xmm11, %xmm10
	movdqa	%xmm10, %xmm11
	pand	%xmm4, %xmm11
	psrlw	$2, %xmm10
	pand	%xmm4, %xmm10
	paddb	%xmm11, %xmm10
	movdqa	%xmm10, %xmm11
	psrlw	$4, %xmm11
	paddb	%xmm10, %xmm11
	movdqa	.Lreader_CPI2_7(%rip), %xmm10
	movdqa	%xmm7, %xmm14
	pand	%xmm10, %xmm14
	pand	%xmm6, %xmm10
	movdqa	.Lreader_CPI2_8(%rip), %xmm13
	movdqa	%xmm3, %xmm15
	pand	%xmm13, %xmm15
	pxor	%xmm14, %xmm15
	pand	%xmm2, %xmm13
	pxor	%xmm10, %xmm13
	movdqa	%xmm15, %xmm10
	psrlw	$1, %xmm10
	pand	%xmm5, %xmm10
	psubb	%xmm10, %xmm15
	movdqa	%xmm15, %xmm10
	pand	%xmm4, %xmm10
	psrlw	$2, %xmm15
	pand	%xmm4, %xmm15
	paddb	%xmm10, %xmm15
	movdqa	%xmm15, %xmm10
	psrlw	$4, %xmm10
	paddb	%xmm15, %xmm10
	por	%xmm12, %xmm10
	por	%xmm9, %xmm10
	movdqa	%xmm13, %xmm9
	psrlw	$1, %xmm9
	pand	%xmm5, %xmm9
	psubb	%xmm9, %xmm13
	movdqa	%xmm13, %xmm9
	pand	%xmm4, %xmm9
	psrlw	$2, %xmm13
	pand	%xmm4, %xmm13
	paddb	%xmm9, %xmm13
	movdqa	%xmm13, %xmm9
	psrlw	$4, %xmm9
	paddb	%xmm13, %xmm9
	por	%xmm11, %xmm9
	por	%xmm8, %xmm9
	movdqa	.Lreader_CPI2_9(%rip), %xmm8
	pand	%xmm8, %xmm7
	pand	%xmm8, %xmm6
	movdqa	.Lreader_CPI2_10(%rip), %xmm8
	pand	%xmm8, %xmm3
	pxor	%xmm7, %xmm3
	pand	%xmm8, %xmm2
	pxor	%xmm6, %xmm2
	movdqa	%xmm3, %xmm6
	psrlw	$1, %xmm6
	pand	%xmm5, %xmm6
	psubb	%xmm6, %xmm3
	movdqa	%xmm3, %xmm6
	pand	%xmm4, %xmm6
	psrlw	$2, %xmm3
	pand	%xmm4, %xmm3
	paddb	%xmm6, %xmm3
	movdqa	%xmm3, %xmm6
	psrlw	$4, %xmm6
	paddb	%xmm3, %xmm6
	por	%xmm10, %xmm6
	movdqa	%xmm2, %xmm3
	psrlw	$1, %xmm3
	pand	%xmm5, %xmm3
	psubb	%xmm3, %xmm2
	movdqa	%xmm2, %xmm3
	pand	%xmm4, %xmm3
	psrlw	$2, %xmm2
	pand	%xmm4, %xmm2
	paddb	%xmm3, %xmm2
	movdqa	%xmm2, %xmm3
	psrlw	$4, %xmm3
	paddb	%xmm2, %xmm3
	por	%xmm9, %xmm3
	movdqa	.Lreader_CPI2_11(%rip), %xmm2
	pand	%xmm2, %xmm6
	por	%xmm6, %xmm1
	pand	%xmm2, %xmm3
	por	%xmm3, %xmm0
	addq	$32, %rcx
	cmpq	$176, %rcx
	jne	.Lreader_BB2_28
	por	%xmm1, %xmm0
	pxor	%xmm1, %xmm1
	pcmpeqb	%xmm0, %xmm1
	pmovmskb	%xmm1, %eax
	xorl	$65535, %eax
	je	.Lreader_BB2_34
.Lreader_BB2_30:
	testb	$24, %r10b
	jne	.Lreader_BB2_32
	movdqu	(%rdi,%r10,2), %xmm0
	movdqu	16(%rdi,%r10,2), %xmm2
	movdqu	32(%rdi,%r10,2), %xmm4
	movdqu	48(%rdi,%r10,2), %xmm3
	movdqa	%xmm0, %xmm1
	psrlw	$8, %xmm1
	movdqa	%xmm2, %xmm5
	psrlw	$8, %xmm5
	packuswb	%xmm5, %xmm1
	movdqa	.Lreader_CPI2_0(%rip), %xmm5
	pand	%xmm5, %xmm0
	pand	%xmm5, %xmm2
	packuswb	%xmm2, %xmm0
	movdqa	%xmm4, %xmm11
	psrlw	$8, %xmm11
	movdqa	%xmm3, %xmm2
	psrlw	$8, %xmm2
	packuswb	%xmm2, %xmm11
	pand	%xmm5, %xmm4
	pand	%xmm5, %xmm3
	packuswb	%xmm3, %xmm4
	movdqa	.Lreader_CPI2_3(%rip), %xmm8
	movdqa	%xmm11, %xmm2
	pand	%xmm8, %xmm2
	movdqa	.Lreader_CPI2_4(%rip), %xmm5
	movdqa	%xmm4, %xmm6
	pand	%xmm5, %xmm6
	pxor	%xmm2, %xmm6
	movdqa	%xmm6, %xmm2
	psrlw	$1, %xmm2
	movdqa	.Lreader_CPI2_1(%rip), %xmm3
	pand	%xmm3, %xmm2
	psubb	%xmm2, %xmm6
	movdqa	.Lreader_CPI2_2(%rip), %xmm2
	movdqa	%xmm6, %xmm7
	pand	%xmm2, %xmm7
	psrlw	$2, %xmm6
	pand	%xmm2, %xmm6
	paddb	%xmm7, %xmm6
	movdqa	%xmm6, %xmm7
	psrlw	$4, %xmm7
	paddb	%xmm6, %xmm7
	movdqa	%xmm11, %xmm6
	pxor	%xmm4, %xmm6
	movdqa	%xmm6, %xmm9
	psrlw	$1, %xmm9
	pand	%xmm3, %xmm9
	psubb	%xmm9, %xmm6
	movdqa	%xmm6, %xmm9
	pand	%xmm2, %xmm9
	psrlw	$2, %xmm6
	pand	%xmm2, %xmm6
	paddb	%xmm9, %xmm6
	movdqa	%xmm6, %xmm12
	psrlw	$4, %xmm12
	paddb	%xmm6, %xmm12
	por	%xmm7, %xmm12
	movdqa	.Lreader_CPI2_5(%rip), %xmm9
	movdqa	%xmm11, %xmm7
	pand	%xmm9, %xmm7
	movdqa	.Lreader_CPI2_6(%rip), %xmm6
	movdqa	%xmm4, %xmm10
	pand	%xmm6, %xmm10
	pxor	%xmm7, %xmm10
	movdqa	%xmm10, %xmm7
	psrlw	$1, %xmm7
	pand	%xmm3, %xmm7
	psubb	%xmm7, %xmm10
	movdqa	%xmm10, %xmm7
	pand	%xmm2, %xmm7
	psrlw	$2, %xmm10
	pand	%xmm2, %xmm10
	paddb	%xmm7, %xmm10
	movdqa	%xmm10, %xmm13
	psrlw	$4, %xmm13
	paddb	%xmm10, %xmm13
	movdqa	.Lreader_CPI2_7(%rip), %xmm10
	movdqa	%xmm11, %xmm14
	pand	%xmm10, %xmm14
	movdqa	.Lreader_CPI2_8(%rip), %xmm7
	movdqa	%xmm4, %xmm15
	pand	%xmm7, %xmm15
	pxor	%xmm14, %xmm15
	movdqa	%xmm15, %xmm14
	psrlw	$1, %xmm14
	pand	%xmm3, %xmm14
	psubb	%xmm14, %xmm15
	movdqa	%xmm15, %xmm14
	pand	%xmm2, %xmm14
	psrlw	$2, %xmm15
	pand	%xmm2, %xmm15
	paddb	%xmm14, %xmm15
	movdqa	%xmm15, %xmm14
	psrlw	$4, %xmm14
	paddb	%xmm15, %xmm14
	por	%xmm13, %xmm14
	por	%xmm12, %xmm14
	movdqa	.Lreader_CPI2_9(%rip), %xmm12
	pand	%xmm12, %xmm11
	movdqa	.Lreader_CPI2_10(%rip), %xmm13
	pand	%xmm13, %xmm4
	pxor	%xmm11, %xmm4
	movdqa	%xmm4, %xmm11
	psrlw	$1, %xmm11
	pand	%xmm3, %xmm11
	psubb	%xmm11, %xmm4
	movdqa	%xmm4, %xmm11
	pand	%xmm2, %xmm11
	psrlw	$2, %xmm4
	pand	%xmm2, %xmm4
	paddb	%xmm11, %xmm4
	movdqa	%xmm4, %xmm11
	psrlw	$4, %xmm11
	paddb	%xmm4, %xmm11
	por	%xmm14, %xmm11
	pand	%xmm1, %xmm8
	pand	%xmm0, %xmm5
	pxor	%xmm8, %xmm5
	movdqa	%xmm5, %xmm4
	psrlw	$1, %xmm4
	pand	%xmm3, %xmm4
	psubb	%xmm4, %xmm5
	movdqa	%xmm5, %xmm4
	pand	%xmm2, %xmm4
	psrlw	$2, %xmm5
	pand	%xmm2, %xmm5
	paddb	%xmm4, %xmm5
	movdqa	%xmm5, %xmm8
	psrlw	$4, %xmm8
	paddb	%xmm5, %xmm8
	movdqa	%xmm1, %xmm5
	pxor	%xmm0, %xmm5
	movdqa	%xmm5, %xmm4
	psrlw	$1, %xmm4
	pand	%xmm3, %xmm4
	psubb	%xmm4, %xmm5
	movdqa	%xmm5, %xmm4
	pand	%xmm2, %xmm4
	psrlw	$2, %xmm5
	pand	%xmm2, %xmm5
	paddb	%xmm4, %xmm5
	movdqa	%xmm5, %xmm4
	psrlw	$4, %xmm4
	paddb	%xmm5, %xmm4
	por	%xmm8, %xmm4
	pand	%xmm1, %xmm9
	pand	%xmm0, %xmm6
	pxor	%xmm9, %xmm6
	movdqa	%xmm6, %xmm5
	psrlw	$1, %xmm5
	pand	%xmm3, %xmm5
	psubb	%xmm5, %xmm6
	movdqa	%xmm6, %xmm5
	pand	%xmm2, %xmm5
	psrlw	$2, %xmm6
	pand	%xmm2, %xmm6
	paddb	%xmm5, %xmm6
	movdqa	%xmm6, %xmm8
	psrlw	$4, %xmm8
	paddb	%xmm6, %xmm8
	pand	%xmm1, %xmm10
	pand	%xmm0, %xmm7
	pxor	%xmm10, %xmm7
	movdqa	%xmm7, %xmm5
	psrlw	$1, %xmm5
	pand	%xmm3, %xmm5
	psubb	%xmm5, %xmm7
	movdqa	%xmm7, %xmm5
	pand	%xmm2, %xmm5
	psrlw	$2, %xmm7
	pand	%xmm2, %xmm7
	paddb	%xmm5, %xmm7
	movdqa	%xmm7, %xmm5
	psrlw	$4, %xmm5
	paddb	%xmm7, %xmm5
	por	%xmm8, %xmm5
	por	%xmm4, %xmm5
	pand	%xmm12, %xmm1
	pand	%xmm13, %xmm0
	pxor	%xmm1, %xmm0
	movdqa	%xmm0, %xmm1
	psrlw	$1, %xmm1
	pand	%xmm3, %xmm1
	psubb	%xmm1, %xmm0
	movdqa	%xmm0, %xmm1
	pand	%xmm2, %xmm1
	psrlw	$2, %xmm0
	pand	%xmm2, %xmm0
	paddb	%xmm1, %xmm0
	movdqa	%xmm0, %xmm1
	psrlw	$4, %xmm1
	paddb	%xmm0, %xmm1
	por	%xmm5, %xmm1
	por	%xmm11, %xmm1
	psllw	$7, %xmm1
	pmovmskb	%xmm1, %eax
	testl	%eax, %eax
	je	.Lreader_BB2_38
.Lreader_BB2_32:
	movdqu	(%rdi,%r10,2), %xmm0
	movdqa	%xmm0, %xmm1
	psrlw	$8, %xmm1
	pand	.Lreader_CPI2_0(%rip), %xmm0
	packuswb	%xmm0, %xmm0
	packuswb	%xmm1, %xmm1
	movdqa	.Lreader_CPI2_12(%rip), %xmm2
	pand	%xmm1, %xmm2
	movdqa	.Lreader_CPI2_13(%rip), %xmm4
	pand	%xmm0, %xmm4
	pxor	%xmm2, %xmm4
	movdqa	%xmm4, %xmm2
	psrlw	$1, %xmm2
	movdqa	.Lreader_CPI2_1(%rip), %xmm3
	pand	%xmm3, %xmm2
	psubb	%xmm2, %xmm4
	movdqa	.Lreader_CPI2_2(%rip), %xmm2
	movdqa	%xmm4, %xmm5
	pand	%xmm2, %xmm5
	psrlw	$2, %xmm4
	pand	%xmm2, %xmm4
	paddb	%xmm5, %xmm4
	movdqa	%xmm4, %xmm5
	psrlw	$4, %xmm5
	paddb	%xmm4, %xmm5
	movdqa	%xmm1, %xmm6
	pxor	%xmm0, %xmm6
	movdqa	%xmm6, %xmm4
	psrlw	$1, %xmm4
	pand	%xmm3, %xmm4
	psubb	%xmm4, %xmm6
	movdqa	%xmm6, %xmm4
	pand	%xmm2, %xmm4
	psrlw	$2, %xmm6
	pand	%xmm2, %xmm6
	paddb	%xmm4, %xmm6
	movdqa	%xmm6, %xmm4
	psrlw	$4, %xmm4
	paddb	%xmm6, %xmm4
	por	%xmm5, %xmm4
	pand	.Lreader_CPI2_14(%rip), %xmm4
	movdqa	.Lreader_CPI2_15(%rip), %xmm5
	pand	%xmm1, %xmm5
	movdqa	.Lreader_CPI2_16(%rip), %xmm6
	pand	%xmm0, %xmm6
	pxor	%xmm5, %xmm6
	movdqa	%xmm6, %xmm5
	psrlw	$1, %xmm5
	pand	%xmm3, %xmm5
	psubb	%xmm5, %xmm6
	movdqa	%xmm6, %xmm5
	pand	%xmm2, %xmm5
	psrlw	$2, %xmm6
	pand	%xmm2, %xmm6
	paddb	%xmm5, %xmm6
	movdqa	%xmm6, %xmm5
	psrlw	$4, %xmm5
	paddb	%xmm6, %xmm5
	movdqa	.Lreader_CPI2_17(%rip), %xmm6
	pand	%xmm1, %xmm6
	movdqa	.Lreader_CPI2_18(%rip), %xmm7
	pand	%xmm0, %xmm7
	pxor	%xmm6, %xmm7
	movdqa	%xmm7, %xmm6
	psrlw	$1, %xmm6
	pand	%xmm3, %xmm6
	psubb	%xmm6, %xmm7
	movdqa	%xmm7, %xmm6
	pand	%xmm2, %xmm6
	psrlw	$2, %xmm7
	pand	%xmm2, %xmm7
	paddb	%xmm6, %xmm7
	movdqa	%xmm7, %xmm6
	psrlw	$4, %xmm6
	paddb	%xmm7, %xmm6
	pand	.Lreader_CPI2_19(%rip), %xmm1
	pand	.Lreader_CPI2_20(%rip), %xmm0
	por	%xmm5, %xmm6
	pxor	%xmm1, %xmm0
	movdqa	%xmm0, %xmm1
	psrlw	$1, %xmm1
	pand	%xmm3, %xmm1
	psubb	%xmm1, %xmm0
	movdqa	%xmm0, %xmm1
	pand	%xmm2, %xmm1
	psrlw	$2, %xmm0
	pand	%xmm2, %xmm0
	paddb	%xmm1, %xmm0
	movdqa	%xmm0, %xmm1
	psrlw	$4, %xmm1
	paddb	%xmm0, %xmm1
	por	%xmm6, %xmm1
	por	%xmm4, %xmm1
	pand	.Lreader_CPI2_21(%rip), %xmm1
	movq	%xmm1, %rax
	testq	%rax, %rax
	jne	.Lreader_BB2_47
	movl	$8, %ecx
	movb	$1, %al
	testb	%al, %al
	je	.Lreader_BB2_39
.Lreader_BB2_35:
	xorl	%r8d, %r8d
.Lreader_BB2_36:
	leaq	(%rsp,%r10,2), %r11
	addq	$856, %r11
	leaq	(%rdi,%r10,2), %rbx
	.p2align	4
.Lreader_BB2_37:
	movdqu	(%rbx,%r8,2), %xmm0
	movdqa	%xmm0, %xmm1
	psrlw	$8, %xmm1
	psllw	$8, %xmm0
	pand	.Lreader_CPI2_23(%rip), %xmm0
	por	%xmm1, %xmm0
	movdqu	%xmm0, (%r11,%r8,2)
	addq	$8, %r8
	cmpq	%r8, %rcx
	jne	.Lreader_BB2_37
	jmp	.Lreader_BB2_45
.Lreader_BB2_34:
	xorl	%eax, %eax
	movl	$160, %ecx
	testb	%al, %al
	jne	.Lreader_BB2_35
	.p2align	4
.Lreader_BB2_39:
	movl	%ecx, %r8d
	andl	$-96, %r8d
	leaq	(%r12,%r10,2), %r11
	addq	$16, %r11
	leaq	(%r9,%r10,2), %rbx
	xorl	%r14d, %r14d
	.p2align	4
.Lreader_BB2_40:
	movdqu	-16(%rbx,%r14,2), %xmm0
	movdqu	(%rbx,%r14,2), %xmm1
	movdqa	.Lreader_CPI2_22(%rip), %xmm2
	movdqa	%xmm0, %xmm3
	pand	%xmm2, %xmm3
	pand	%xmm1, %xmm2
	psrlw	$8, %xmm0
	psllw	$8, %xmm3
	por	%xmm0, %xmm3
	psrlw	$8, %xmm1
	psllw	$8, %xmm2
	por	%xmm1, %xmm2
	movdqu	%xmm3, -16(%r11,%r14,2)
	movdqu	%xmm2, (%r11,%r14,2)
	addq	$16, %r14
	cmpq	%r14, %r8
	jne	.Lreader_BB2_40
	cmpl	%r8d, %ecx
	je	.Lreader_BB2_45
	testb	$8, %cl
	jne	.Lreader_BB2_36
	leaq	(%rsp,%r10,2), %rax
	addq	$856, %rax
	leaq	(%rdi,%r10,2), %r11
	.p2align	4
.Lreader_BB2_44:
	movzwl	(%r11,%r8,2), %ebx
	andl	$65287, %ebx
	rolw	$8, %bx
	movw	%bx, (%rax,%r8,2)
	incq	%r8
	cmpq	%r8, %rcx
	jne	.Lreader_BB2_44
	.p2align	4
.Lreader_BB2_45:
	addq	%rcx, %r10
.Lreader_BB2_46:
	cmpq	$832, %r10
	jne	.Lreader_BB2_24
	jmp	.Lreader_BB2_58
.Lreader_BB2_38:
	movl	$32, %ecx
	xorl	%eax, %eax
	testb	%al, %al
	jne	.Lreader_BB2_35
	jmp	.Lreader_BB2_39
.Lreader_BB2_47:
	cmpq	$63, %r10
	ja	.Lreader_BB2_53
	movabsq	$-279648911203696640, %rax
	btq	%r10, %rax
	jae	.Lreader_BB2_53
.Lreader_BB2_49:
	movzbl	(%rdi,%r10,2), %eax
	movzbl	1(%rdi,%r10,2), %ecx
	movl	%eax, %r8d
	shll	$8, %r8d
	addl	%ecx, %r8d
	movabsq	$4311810305, %rbx
	imulq	%rbx, %rcx
	movabsq	$1099252526427, %r11
	andq	%r11, %rcx
	imulq	%rbx, %rax
	movabsq	$1096410404365, %r11
	andq	%r11, %rax
	xorq	%rcx, %rax
	movq	%rax, %rcx
	shrq	$4, %rcx
	xorq	%rax, %rcx
	movq	%rcx, %r11
	shrq	$2, %r11
	xorq	%rcx, %r11
	movq	%r11, %rax
	shrq	%rax
	xorq	%r11, %rax
	andq	%rbx, %rax
	je	.Lreader_BB2_52
	movq	%rax, %rcx
	shrq	$32, %rcx
	je	.Lreader_BB2_86
	imull	$16909320, %eax, %ecx
	shrl	$22, %ecx
	andb	$60, %cl
	movabsq	$-6230900172921172801, %rax
	shrq	%cl, %rax
	andb	$15, %al
	btcl	%eax, %r8d
	andl	$2047, %r8d
	movw	%r8w, 856(%rsp,%r10,2)
	incq	120(%rsp)
	movq	%r10, %r13
	incq	%r10
	jmp	.Lreader_BB2_46
.Lreader_BB2_52:
	andl	$2047, %r8d
	movw	%r8w, 856(%rsp,%r10,2)
	incq	%r10
	jmp	.Lreader_BB2_46
.Lreader_BB2_53:
	cmpq	$41, %r10
	ja	.Lreader_BB2_56
	cmpq	$16, %r10
	setae	%al
	leaq	-21(%r10), %rcx
	cmpq	$-2, %rcx
	setb	%cl
	testb	%cl, %al
	jne	.Lreader_BB2_49
	jmp	.Lreader_BB2_55
.Lreader_BB2_56:
	cmpq	$831, %r10
	jbe	.Lreader_BB2_49
.Lreader_BB2_55:
	xorl	%r8d, %r8d
	movw	%r8w, 856(%rsp,%r10,2)
	incq	%r10
	jmp	.Lreader_BB2_46
.Lreader_BB2_58:
	movzwl	888(%rsp), %r8d
	cmpq	$672, %r8
	jb	.Lreader_BB2_60
	shll	$11, %r8d
	andl	$134152192, %r8d
	orq	$4, %r8
	xorl	%edx, %edx
	movq	%r8, %rcx
	jmp	.Lreader_BB2_70
.Lreader_BB2_60:
	movl	$6, %ecx
	cmpq	$7, %rdx
	ja	.Lreader_BB2_70
	movzwl	960(%rsp), %ecx
	movzwl	962(%rsp), %eax
	andl	$2047, %eax
	xorl	%edi, %edi
	cmpl	$1024, %eax
	setb	%dil
	shll	$11, %edi
	addl	%edi, %eax
	addl	$-2048, %eax
	cwtl
	xorps	%xmm0, %xmm0
	cvtsi2ss	%eax, %xmm0
	cmpl	$128, %ecx
	jb	.Lreader_BB2_63
	movd	.Lreader_CPI2_24(%rip), %xmm2
	jmp	.Lreader_BB2_64
.Lreader_BB2_63:
	shll	$23, %ecx
	addl	$1065353216, %ecx
	movd	%ecx, %xmm2
.Lreader_BB2_64:
	movq	2776(%rsp), %rbx
	movq	40(%rsp), %r14
	movq	32(%rsp), %r15
	movzwl	964(%rsp), %eax
	andl	$2047, %eax
	xorl	%ecx, %ecx
	cmpl	$1024, %eax
	setb	%cl
	shll	$11, %ecx
	addl	%ecx, %eax
	addl	$-2048, %eax
	cwtl
	xorps	%xmm1, %xmm1
	cvtsi2ss	%eax, %xmm1
	movzwl	966(%rsp), %eax
	andl	$2047, %eax
	xorl	%ecx, %ecx
	cmpl	$1024, %eax
	setb	%cl
	shll	$11, %ecx
	addl	%ecx, %eax
	addl	$-2048, %eax
	cwtl
	xorps	%xmm3, %xmm3
	cvtsi2ss	%eax, %xmm3
	movzwl	968(%rsp), %eax
	andl	$2047, %eax
	xorl	%ecx, %ecx
	cmpl	$1024, %eax
	setb	%cl
	shll	$11, %ecx
	addl	%ecx, %eax
	addl	$-2048, %eax
	cwtl
	cvtsi2ss	%eax, %xmm4
	unpcklps	%xmm1, %xmm0
	unpcklps	%xmm4, %xmm3
	movlhps	%xmm3, %xmm0
	shufps	$0, %xmm2, %xmm2
	divps	%xmm2, %xmm0
	movzwl	970(%rsp), %eax
	andl	$2047, %eax
	xorl	%ecx, %ecx
	cmpl	$1024, %eax
	setb	%cl
	shll	$11, %ecx
	addl	%ecx, %eax
	addl	$-2048, %eax
	cwtl
	xorps	%xmm1, %xmm1
	cvtsi2ss	%eax, %xmm1
	movzwl	972(%rsp), %edi
	movzwl	974(%rsp), %eax
	andl	$2047, %eax
	xorl	%ecx, %ecx
	cmpl	$1024, %eax
	setb	%cl
	shll	$11, %ecx
	addl	%ecx, %eax
	addl	$-2048, %eax
	cwtl
	xorps	%xmm3, %xmm3
	cvtsi2ss	%eax, %xmm3
	movzwl	976(%rsp), %r9d
	movzwl	978(%rsp), %eax
	andl	$2047, %eax
	xorl	%ecx, %ecx
	cmpl	$1024, %eax
	setb	%cl
	shll	$11, %ecx
	addl	%ecx, %eax
	addl	$-2048, %eax
	cwtl
	xorps	%xmm4, %xmm4
	cvtsi2ss	%eax, %xmm4
	unpcklps	%xmm3, %xmm1
	movzwl	982(%rsp), %eax
	andl	$2047, %eax
	xorl	%ecx, %ecx
	cmpl	$1024, %eax
	setb	%cl
	shll	$11, %ecx
	addl	%ecx, %eax
	addl	$-2048, %eax
	cwtl
	xorps	%xmm3, %xmm3
	cvtsi2ss	%eax, %xmm3
	movzwl	980(%rsp), %eax
	unpcklps	%xmm3, %xmm4
	movlhps	%xmm4, %xmm1
	divps	%xmm2, %xmm1
	movabsq	$22518002430574552, %rcx
	movq	%rcx, 272(%rsp)
	movw	$120, 280(%rsp)
	movq	%rdi, 136(%rsp)
	movw	%di, 282(%rsp)
	movq	%r9, 56(%rsp)
	movw	%r9w, 284(%rsp)
	movq	%rax, 128(%rsp)
	movw	%ax, 286(%rsp)
	movaps	%xmm0, 432(%rsp)
	movaps	%xmm1, 448(%rsp)
	xorps	%xmm3, %xmm3
	movss	.Lreader_CPI2_25(%rip), %xmm2
	mulss	%xmm3, %xmm2
	testq	%rdx, %rdx
	je	.Lreader_BB2_134
	movss	428(%rsp,%rdx,4), %xmm4
	movswl	272(%rsp,%rdx,2), %eax
	movswl	270(%rsp,%rdx,2), %ecx
	subl	%ecx, %eax
	js	.Lreader_BB2_67
	cvtsi2ss	%eax, %xmm5
	addss	%xmm2, %xmm5
	jmp	.Lreader_BB2_68
.Lreader_BB2_67:
	negl	%eax
	cvtsi2ss	%eax, %xmm5
	addss	%xmm2, %xmm5
	xorps	.Lreader_CPI2_26(%rip), %xmm5
.Lreader_BB2_68:
	mulss	%xmm5, %xmm4
	leaq	-1(%rdx), %r10
	addss	.Lreader_CPI2_27(%rip), %xmm4
	ucomiss	%xmm3, %xmm4
	jne	.Lreader_BB2_83
	jp	.Lreader_BB2_83
.Lreader_BB2_69:
	movl	$14, %ecx
	movq	%r10, %rdx
.Lreader_BB2_70:
	movl	%ecx, %r12d
	shrl	$16, %r12d
	movzbl	%cl, %ecx
	xorl	%r8d, %r8d
	movq	%rdx, %r10
.Lreader_BB2_71:
	movq	%r10, %r9
	shrq	$32, %r9
	xorps	%xmm5, %xmm5
	movaps	%xmm5, 256(%rsp)
	movaps	%xmm5, 240(%rsp)
	xorps	%xmm3, %xmm3
	xorl	%r11d, %r11d
	xorl	%edi, %edi
	xorl	%r14d, %r14d
	pxor	%xmm6, %xmm6
	xorl	%r15d, %r15d
	xorl	%esi, %esi
	xorl	%ebx, %ebx
	xorl	%r13d, %r13d
	movq	$0, 136(%rsp)
	movq	$0, 56(%rsp)
	xorl	%edx, %edx
	movq	$0, 24(%rsp)
	xorps	%xmm4, %xmm4
	movq	$0, 64(%rsp)
	xorps	%xmm2, %xmm2
	movq	$0, 152(%rsp)
	movq	$0, 120(%rsp)
	xorps	%xmm0, %xmm0
	xorps	%xmm1, %xmm1
.Lreader_BB2_72:
	movl	%r10d, %eax
	shlq	$32, %r9
	orq	%rax, %r9
	movdqa	240(%rsp), %xmm7
	movaps	256(%rsp), %xmm8
	movdqa	%xmm7, 208(%rsp)
	movaps	%xmm8, 224(%rsp)
	movb	$1, %r10b
	movq	56(%rsp), %rax
.Lreader_BB2_73:
	movdqa	208(%rsp), %xmm7
	movaps	224(%rsp), %xmm8
	movdqa	%xmm7, 624(%rsp)
	movaps	%xmm8, 640(%rsp)
	movdqa	%xmm7, 592(%rsp)
	movaps	%xmm8, 608(%rsp)
	testb	%r10b, %r10b
	je	.Lreader_BB2_78
	movq	%rsi, 40(%rsp)
	movq	%rbx, 32(%rsp)
	movq	%rax, %r10
	movzwl	%r8w, %eax
	orl	%eax, %r14d
	testb	%r11b, %r11b
	movq	%rbp, 128(%rsp)
	je	.Lreader_BB2_81
	movq	%r15, %rsi
	movq	%r13, 72(%rsp)
	movl	%r14d, 180(%rsp)
	movq	%rdi, %r8
	movq	%r12, %rbp
	movq	%rdx, %r14
	movq	136(%rsp), %r12
	movq	%r9, %r11
	shrq	$32, %r11
	cmpb	$0, 64(%rsp)
	jne	.Lreader_BB2_77
	xorps	%xmm2, %xmm2
.Lreader_BB2_77:
	movaps	624(%rsp), %xmm7
	movaps	640(%rsp), %xmm8
	movaps	%xmm8, 96(%rsp)
	movaps	%xmm7, 80(%rsp)
	movdqa	592(%rsp), %xmm7
	movaps	608(%rsp), %xmm8
	movdqa	%xmm7, 656(%rsp)
	movaps	%xmm8, 672(%rsp)
	movb	$1, %dl
	movq	%rdx, (%rsp)
	movl	%r9d, 148(%rsp)
	xorl	%r9d, %r9d
	movq	$0, 16(%rsp)
	movq	$0, 8(%rsp)
	movq	$0, 192(%rsp)
	movq	120(%rsp), %rax
	movq	152(%rsp), %r13
	movq	%r12, %rdi
	movq	%r10, 56(%rsp)
	movq	%rax, %r10
	movq	$0, 184(%rsp)
	movq	%r14, %rdx
	movq	%rcx, %r12
	movq	%rbp, %r15
	movq	%rdi, %rbp
	movq	%r8, 48(%rsp)
	movl	180(%rsp), %edi
	movq	32(%rsp), %rcx
	movq	40(%rsp), %rbx
	jmp	.Lreader_BB2_6
.Lreader_BB2_78:
	movq	%rbp, %r12
.Lreader_BB2_79:
	movq	200(%rsp), %rax
	movq	%r12, (%rax)
	xorps	%xmm0, %xmm0
	movups	%xmm0, 8(%rax)
	movups	%xmm0, 24(%rax)
	movq	$0, 40(%rax)
	movq	$832, 48(%rax)
	movups	%xmm0, 56(%rax)
	movups	%xmm0, 72(%rax)
	movups	%xmm0, 88(%rax)
	movups	%xmm0, 104(%rax)
	movups	%xmm0, 120(%rax)
	movups	%xmm0, 136(%rax)
	movups	%xmm0, 152(%rax)
	movups	%xmm0, 168(%rax)
	movups	%xmm0, 184(%rax)
	movups	%xmm0, 200(%rax)
	movq	$0, 216(%rax)
	movq	$832, 224(%rax)
	movups	%xmm0, 232(%rax)
	movups	%xmm0, 248(%rax)
	movups	%xmm0, 264(%rax)
	movups	%xmm0, 280(%rax)
	movups	%xmm0, 296(%rax)
	movups	%xmm0, 312(%rax)
	movups	%xmm0, 328(%rax)
	movups	%xmm0, 344(%rax)
	movq	$0, 360(%rax)
.Lreader_BB2_80:
	addq	$2520, %rsp
	popq	%rbx
	popq	%r12
	popq	%r13
	popq	%r14
	popq	%r15
	popq	%rbp
	retq
.Lreader_BB2_81:
	movzwl	%cx, %eax
	movzbl	%al, %eax
	leaq	.Lreader_JTI2_0(%rip), %rcx
	movslq	(%rcx,%rax,4), %rax
	addq	%rcx, %rax
	jmpq	*%rax
.Lreader_BB2_82:
	xorps	%xmm0, %xmm0
	movaps	%xmm0, 96(%rsp)
	movaps	%xmm0, 80(%rsp)
	movl	$1, %eax
	movq	%rax, 16(%rsp)
	movb	$1, %al
	movq	%rax, (%rsp)
	xorl	%r8d, %r8d
	movl	$1, %eax
	jmp	.Lreader_BB2_101
.Lreader_BB2_83:
	testq	%r10, %r10
	je	.Lreader_BB2_134
	movss	424(%rsp,%rdx,4), %xmm4
	movswl	270(%rsp,%rdx,2), %eax
	movswl	268(%rsp,%rdx,2), %ecx
	subl	%ecx, %eax
	js	.Lreader_BB2_102
	xorps	%xmm5, %xmm5
	cvtsi2ss	%eax, %xmm5
	addss	%xmm2, %xmm5
	jmp	.Lreader_BB2_103
.Lreader_BB2_86:
	movw	$3, %cx
	xorl	%r12d, %r12d
	jmp	.Lreader_BB2_71
.Lreader_BB2_87:
	xorps	%xmm0, %xmm0
	movaps	%xmm0, 96(%rsp)
	movaps	%xmm0, 80(%rsp)
	movl	$13, %eax
	movq	%rax, 16(%rsp)
	movb	$1, %al
	movq	%rax, (%rsp)
	xorl	%r8d, %r8d
	movl	$13, %eax
	jmp	.Lreader_BB2_101
.Lreader_BB2_88:
	xorps	%xmm0, %xmm0
	movaps	%xmm0, 96(%rsp)
	movaps	%xmm0, 80(%rsp)
	movl	$10, %eax
	movq	%rax, 16(%rsp)
	movb	$1, %al
	movq	%rax, (%rsp)
	xorl	%r8d, %r8d
	movl	$10, %eax
	jmp	.Lreader_BB2_101
.Lreader_BB2_89:
	movzwl	%r12w, %r9d
	xorps	%xmm0, %xmm0
	movaps	%xmm0, 96(%rsp)
	movaps	%xmm0, 80(%rsp)
	movl	$4, %eax
	movq	%rax, 16(%rsp)
	movb	$1, %al
	movq	%rax, (%rsp)
	xorl	%r8d, %r8d
	movl	$4, %eax
	jmp	.Lreader_BB2_101
.Lreader_BB2_90:
	xorps	%xmm0, %xmm0
	movaps	%xmm0, 96(%rsp)
	movaps	%xmm0, 80(%rsp)
	movl	$11, %eax
	movq	%rax, 16(%rsp)
	movb	$1, %al
	movq	%rax, (%rsp)
	xorl	%r8d, %r8d
	movl	$11, %eax
	jmp	.Lreader_BB2_101
.Lreader_BB2_91:
	movzwl	%r12w, %r9d
	xorps	%xmm0, %xmm0
	movaps	%xmm0, 96(%rsp)
	movaps	%xmm0, 80(%rsp)
	movl	$9, %eax
	movq	%rax, 16(%rsp)
	movb	$1, %al
	movq	%rax, (%rsp)
	xorl	%r8d, %r8d
	movl	$9, %eax
	jmp	.Lreader_BB2_101
.Lreader_BB2_92:
	xorps	%xmm0, %xmm0
	movaps	%xmm0, 96(%rsp)
	movaps	%xmm0, 80(%rsp)
	movl	$2, %eax
	movq	%rax, 16(%rsp)
	movb	$1, %al
	movq	%rax, (%rsp)
	xorl	%r8d, %r8d
	xorl	%r9d, %r9d
	movl	$2, %eax
	jmp	.Lreader_BB2_101
.Lreader_BB2_93:
	xorps	%xmm0, %xmm0
	movaps	%xmm0, 96(%rsp)
	movaps	%xmm0, 80(%rsp)
	movl	$14, %eax
	movq	%rax, 16(%rsp)
	movb	$1, %al
	movq	%rax, (%rsp)
	xorl	%r8d, %r8d
	movl	$14, %eax
	jmp	.Lreader_BB2_101
.Lreader_BB2_94:
	xorps	%xmm0, %xmm0
	movaps	%xmm0, 96(%rsp)
	movaps	%xmm0, 80(%rsp)
	movl	$3, %eax
	movq	%rax, 16(%rsp)
	movb	$1, %al
	movq	%rax, (%rsp)
	movl	$3, %eax
	movq	%rax, 8(%rsp)
	jmp	.Lreader_BB2_5
.Lreader_BB2_95:
	xorps	%xmm0, %xmm0
	movaps	%xmm0, 96(%rsp)
	movaps	%xmm0, 80(%rsp)
	movl	$7, %eax
	movq	%rax, 16(%rsp)
	movb	$1, %al
	movq	%rax, (%rsp)
	xorl	%r8d, %r8d
	xorl	%r9d, %r9d
	movl	$7, %eax
	jmp	.Lreader_BB2_101
.Lreader_BB2_96:
	xorps	%xmm0, %xmm0
	movaps	%xmm0, 96(%rsp)
	movaps	%xmm0, 80(%rsp)
	movl	$5, %eax
	movq	%rax, 16(%rsp)
	movb	$1, %al
	movq	%rax, (%rsp)
	xorl	%r8d, %r8d
	movl	$5, %eax
	jmp	.Lreader_BB2_101
.Lreader_BB2_97:
	xorps	%xmm0, %xmm0
	movaps	%xmm0, 96(%rsp)
	movaps	%xmm0, 80(%rsp)
	movl	$12, %eax
	movq	%rax, 16(%rsp)
	movb	$1, %al
	movq	%rax, (%rsp)
	xorl	%r8d, %r8d
	movl	$12, %eax
	jmp	.Lreader_BB2_101
.Lreader_BB2_98:
	xorps	%xmm0, %xmm0
	movaps	%xmm0, 96(%rsp)
	movaps	%xmm0, 80(%rsp)
	movl	$6, %eax
	movq	%rax, 16(%rsp)
	movb	$1, %al
	movq	%rax, (%rsp)
	xorl	%r8d, %r8d
	movl	$6, %eax
	jmp	.Lreader_BB2_101
.Lreader_BB2_99:
	xorps	%xmm0, %xmm0
	movaps	%xmm0, 96(%rsp)
	movaps	%xmm0, 80(%rsp)
	movl	$9, %eax
	movq	%rax, 16(%rsp)
	movb	$1, %al
	movq	%rax, (%rsp)
	movl	$9, %eax
	movq	%rax, 8(%rsp)
	jmp	.Lreader_BB2_5
.Lreader_BB2_100:
	xorps	%xmm0, %xmm0
	movaps	%xmm0, 96(%rsp)
	movaps	%xmm0, 80(%rsp)
	movl	$8, %eax
	movq	%rax, 16(%rsp)
	movb	$1, %al
	movq	%rax, (%rsp)
	xorl	%r8d, %r8d
	xorl	%r9d, %r9d
	movl	$8, %eax
.Lreader_BB2_101:
	movq	%rax, 8(%rsp)
	jmp	.Lreader_BB2_4
.Lreader_BB2_102:
	negl	%eax
	xorps	%xmm5, %xmm5
	cvtsi2ss	%eax, %xmm5
	addss	%xmm2, %xmm5
	xorps	.Lreader_CPI2_26(%rip), %xmm5
.Lreader_BB2_103:
	mulss	%xmm5, %xmm4
	leaq	-2(%rdx), %r10
	addss	.Lreader_CPI2_27(%rip), %xmm4
	ucomiss	%xmm3, %xmm4
	jne	.Lreader_BB2_104
	jnp	.Lreader_BB2_69
.Lreader_BB2_104:
	testq	%r10, %r10
	je	.Lreader_BB2_134
	movss	420(%rsp,%rdx,4), %xmm4
	movswl	268(%rsp,%rdx,2), %eax
	movswl	266(%rsp,%rdx,2), %ecx
	subl	%ecx, %eax
	js	.Lreader_BB2_107
	xorps	%xmm5, %xmm5
	cvtsi2ss	%eax, %xmm5
	addss	%xmm2, %xmm5
	jmp	.Lreader_BB2_108
.Lreader_BB2_107:
	negl	%eax
	xorps	%xmm5, %xmm5
	cvtsi2ss	%eax, %xmm5
	addss	%xmm2, %xmm5
	xorps	.Lreader_CPI2_26(%rip), %xmm5
.Lreader_BB2_108:
	mulss	%xmm5, %xmm4
	leaq	-3(%rdx), %r10
	addss	.Lreader_CPI2_27(%rip), %xmm4
	ucomiss	%xmm3, %xmm4
	jne	.Lreader_BB2_109
	jnp	.Lreader_BB2_69
.Lreader_BB2_109:
	testq	%r10, %r10
	je	.Lreader_BB2_134
	movss	416(%rsp,%rdx,4), %xmm4
	movswl	266(%rsp,%rdx,2), %eax
	movswl	264(%rsp,%rdx,2), %ecx
	subl	%ecx, %eax
	js	.Lreader_BB2_112
	xorps	%xmm5, %xmm5
	cvtsi2ss	%eax, %xmm5
	addss	%xmm2, %xmm5
	jmp	.Lreader_BB2_113
.Lreader_BB2_112:
	negl	%eax
	xorps	%xmm5, %xmm5
	cvtsi2ss	%eax, %xmm5
	addss	%xmm2, %xmm5
	xorps	.Lreader_CPI2_26(%rip), %xmm5
.Lreader_BB2_113:
	mulss	%xmm5, %xmm4
	leaq	-4(%rdx), %r10
	addss	.Lreader_CPI2_27(%rip), %xmm4
	ucomiss	%xmm3, %xmm4
	jne	.Lreader_BB2_114
	jnp	.Lreader_BB2_69
.Lreader_BB2_114:
	testq	%r10, %r10
	je	.Lreader_BB2_134
	movq	%rbp, %rcx
	movq	%r13, %r11
	movq	%rsi, %rdi
	movss	412(%rsp,%rdx,4), %xmm4
	movswl	264(%rsp,%rdx,2), %eax
	movq	%rdx, %r9
	movswl	262(%rsp,%rdx,2), %edx
	subl	%edx, %eax
	js	.Lreader_BB2_117
	xorps	%xmm5, %xmm5
	cvtsi2ss	%eax, %xmm5
	addss	%xmm2, %xmm5
	jmp	.Lreader_BB2_118
.Lreader_BB2_117:
	negl	%eax
	xorps	%xmm5, %xmm5
	cvtsi2ss	%eax, %xmm5
	addss	%xmm2, %xmm5
	xorps	.Lreader_CPI2_26(%rip), %xmm5
.Lreader_BB2_118:
	mulss	%xmm5, %xmm4
	leaq	-5(%r9), %r10
	addss	.Lreader_CPI2_27(%rip), %xmm4
	ucomiss	%xmm3, %xmm4
	jne	.Lreader_BB2_120
	jp	.Lreader_BB2_120
.Lreader_BB2_119:
	movq	%rcx, %rbp
	jmp	.Lreader_BB2_69
.Lreader_BB2_120:
	testq	%r10, %r10
	movq	%r9, %rdx
	movq	%rdi, %rsi
	movq	%r11, %r13
	movq	40(%rsp), %r14
	movq	32(%rsp), %r15
	movq	%rcx, %rbp
	je	.Lreader_BB2_134
	movss	408(%rsp,%rdx,4), %xmm4
	movswl	262(%rsp,%rdx,2), %eax
	movswl	260(%rsp,%rdx,2), %edx
	subl	%edx, %eax
	js	.Lreader_BB2_123
	xorps	%xmm5, %xmm5
	cvtsi2ss	%eax, %xmm5
	addss	%xmm2, %xmm5
	jmp	.Lreader_BB2_124
.Lreader_BB2_123:
	negl	%eax
	xorps	%xmm5, %xmm5
	cvtsi2ss	%eax, %xmm5
	addss	%xmm2, %xmm5
	xorps	.Lreader_CPI2_26(%rip), %xmm5
.Lreader_BB2_124:
	mulss	%xmm5, %xmm4
	leaq	-6(%r9), %r10
	addss	.Lreader_CPI2_27(%rip), %xmm4
	ucomiss	%xmm3, %xmm4
	jne	.Lreader_BB2_126
	jnp	.Lreader_BB2_119
.Lreader_BB2_126:
	testq	%r10, %r10
	movq	%r9, %rdx
	movq	%rdi, %rsi
	movq	%r11, %r13
	movq	40(%rsp), %r14
	movq	32(%rsp), %r15
	movq	%rcx, %rbp
	je	.Lreader_BB2_134
	movss	404(%rsp,%rdx,4), %xmm4
	movswl	260(%rsp,%rdx,2), %eax
	movswl	258(%rsp,%rdx,2), %edx
	subl	%edx, %eax
	js	.Lreader_BB2_129
	xorps	%xmm5, %xmm5
	cvtsi2ss	%eax, %xmm5
	addss	%xmm2, %xmm5
	jmp	.Lreader_BB2_130
.Lreader_BB2_129:
	negl	%eax
	xorps	%xmm5, %xmm5
	cvtsi2ss	%eax, %xmm5
	addss	%xmm2, %xmm5
	xorps	.Lreader_CPI2_26(%rip), %xmm5
.Lreader_BB2_130:
	mulss	%xmm5, %xmm4
	leaq	-7(%r9), %r10
	addss	.Lreader_CPI2_27(%rip), %xmm4
	ucomiss	%xmm3, %xmm4
	jne	.Lreader_BB2_132
	jnp	.Lreader_BB2_119
.Lreader_BB2_132:
	testq	%r10, %r10
	movq	%r9, %rdx
	movq	%rdi, %rsi
	movq	%r11, %r13
	movq	40(%rsp), %r14
	movq	32(%rsp), %r15
	movq	%rcx, %rbp
	je	.Lreader_BB2_134
	orq	$-8, %rdx
	movq	%rdx, %r10
	jmp	.Lreader_BB2_69
.Lreader_BB2_134:
	xorps	%xmm3, %xmm3
	movaps	%xmm3, 800(%rsp)
	movaps	%xmm3, 784(%rsp)
	shrl	$5, %r8d
	movzwl	890(%rsp), %eax
	shll	$5, %eax
	orw	892(%rsp), %ax
	cwtl
	movd	%r8d, %xmm3
	movd	%eax, %xmm4
	pshufd	$0, %xmm4, %xmm4
	leaq	(%r15,%rsi), %rcx
	addq	$16, %rcx
	xorl	%esi, %esi
	.p2align	4
.Lreader_BB2_135:
	movq	984(%rsp,%rsi,2), %xmm8
	movq	992(%rsp,%rsi,2), %xmm9
	movdqa	.Lreader_CPI2_28(%rip), %xmm5
	pand	%xmm5, %xmm8
	pand	%xmm5, %xmm9
	movdqa	.Lreader_CPI2_29(%rip), %xmm6
	movdqa	%xmm6, %xmm10
	pcmpgtw	%xmm8, %xmm10
	movq	.Lreader_CPI2_30(%rip), %xmm7
	pandn	%xmm7, %xmm10
	movdqa	%xmm6, %xmm11
	pcmpgtw	%xmm9, %xmm11
	pandn	%xmm7, %xmm11
	por	%xmm8, %xmm10
	por	%xmm9, %xmm11
	punpcklwd	%xmm10, %xmm8
	psrad	$16, %xmm8
	punpcklwd	%xmm11, %xmm9
	psrad	$16, %xmm9
	pxor	%xmm10, %xmm10
	movss	%xmm3, %xmm10
	pslld	%xmm10, %xmm8
	pslld	%xmm10, %xmm9
	paddd	%xmm4, %xmm8
	paddd	%xmm4, %xmm9
	movdqu	%xmm8, -16(%rcx,%rsi,4)
	movdqu	%xmm9, (%rcx,%rsi,4)
	addq	$8, %rsi
	cmpq	$192, %rsi
	jne	.Lreader_BB2_135
	leaq	(%r14,%rbx), %rcx
	addq	$16, %rcx
	xorl	%esi, %esi
	.p2align	4
.Lreader_BB2_137:
	movsd	2136(%rsp,%rsi,2), %xmm8
	movsd	2144(%rsp,%rsi,2), %xmm9
	andps	%xmm5, %xmm8
	andps	%xmm5, %xmm9
	movdqa	%xmm6, %xmm10
	pcmpgtw	%xmm8, %xmm10
	pandn	%xmm7, %xmm10
	movdqa	%xmm6, %xmm11
	pcmpgtw	%xmm9, %xmm11
	pandn	%xmm7, %xmm11
	por	%xmm8, %xmm10
	por	%xmm9, %xmm11
	punpcklwd	%xmm10, %xmm8
	psrad	$16, %xmm8
	punpcklwd	%xmm11, %xmm9
	psrad	$16, %xmm9
	pxor	%xmm10, %xmm10
	movss	%xmm3, %xmm10
	pslld	%xmm10, %xmm8
	pslld	%xmm10, %xmm9
	paddd	%xmm4, %xmm8
	paddd	%xmm4, %xmm9
	movdqu	%xmm8, -16(%rcx,%rsi,4)
	movdqu	%xmm9, (%rcx,%rsi,4)
	addq	$8, %rsi
	cmpq	$192, %rsi
	jne	.Lreader_BB2_137
	movzwl	908(%rsp), %r8d
	movzwl	910(%rsp), %eax
	movl	%eax, %esi
	andl	$31, %esi
	shll	$23, %esi
	movd	.Lreader_CPI2_24(%rip), %xmm4
	cmpl	$3456, %eax
	jb	.Lreader_BB2_140
	movdqa	%xmm4, %xmm3
	jmp	.Lreader_BB2_141
.Lreader_BB2_140:
	andl	$-32, %eax
	shll	$18, %eax
	addl	$1233125376, %eax
	movd	%eax, %xmm3
.Lreader_BB2_141:
	movzwl	912(%rsp), %edi
	movzwl	906(%rsp), %ecx
	addl	$1233125376, %esi
	movl	%r8d, %r9d
	andl	$31, %r9d
	shll	$23, %r9d
	addl	$1233125376, %r9d
	cmpl	$3456, %r8d
	jb	.Lreader_BB2_143
	movdqa	%xmm4, %xmm5
	jmp	.Lreader_BB2_144
.Lreader_BB2_143:
	andl	$-32, %r8d
	shll	$18, %r8d
	addl	$1233125376, %r8d
	movd	%r8d, %xmm5
.Lreader_BB2_144:
	movl	%ecx, %eax
	andl	$31, %eax
	shll	$23, %eax
	addl	$1233125376, %eax
	movzwl	914(%rsp), %r10d
	movzwl	916(%rsp), %r11d
	movzwl	918(%rsp), %ebx
	movzwl	920(%rsp), %r14d
	movzwl	922(%rsp), %r8d
	cvtsi2ss	%r14d, %xmm6
	movd	%esi, %xmm7
	xorps	%xmm9, %xmm9
	cvtsi2ss	%ebx, %xmm9
	movd	%r9d, %xmm8
	xorps	%xmm10, %xmm10
	cvtsi2ss	%r11d, %xmm10
	cvtsi2ss	%r10d, %xmm12
	movd	%eax, %xmm13
	xorps	%xmm11, %xmm11
	cvtsi2ss	%edi, %xmm11
	cmpl	$3456, %ecx
	jae	.Lreader_BB2_146
	andl	$-32, %ecx
	shll	$18, %ecx
	addl	$1233125376, %ecx
	movd	%ecx, %xmm4
.Lreader_BB2_146:
	movq	48(%rsp), %r9
	movq	24(%rsp), %r12
	movq	2792(%rsp), %rax
	punpckldq	%xmm13, %xmm4
	xorps	%xmm13, %xmm13
	cvtsi2ss	%r8d, %xmm13
	unpcklps	%xmm13, %xmm6
	unpcklps	%xmm9, %xmm10
	unpcklps	%xmm12, %xmm11
	movlhps	%xmm10, %xmm11
	punpckldq	%xmm8, %xmm5
	punpcklqdq	%xmm5, %xmm4
	divps	%xmm4, %xmm11
	movaps	%xmm11, 432(%rsp)
	punpckldq	%xmm7, %xmm3
	divps	%xmm3, %xmm6
	movlps	%xmm6, 448(%rsp)
	movq	72(%rsp), %rcx
	addq	%rax, %rcx
	addq	$4, %rcx
	xorl	%esi, %esi
	.p2align	4
.Lreader_BB2_147:
	movzwl	1368(%rsp,%rsi,2), %eax
	movl	%esi, %edi
	shrl	$3, %edi
	andl	$28, %edi
	movss	432(%rsp,%rdi), %xmm3
	xorps	%xmm4, %xmm4
	cvtsi2ss	%eax, %xmm4
	movss	.Lreader_CPI2_31(%rip), %xmm5
	divss	%xmm5, %xmm4
	mulss	%xmm3, %xmm4
	movss	%xmm4, -4(%rcx,%rsi,4)
	movzwl	1370(%rsp,%rsi,2), %eax
	xorps	%xmm4, %xmm4
	cvtsi2ss	%eax, %xmm4
	divss	%xmm5, %xmm4
	mulss	%xmm3, %xmm4
	movss	%xmm4, (%rcx,%rsi,4)
	addq	$2, %rsi
	cmpq	$192, %rsi
	jne	.Lreader_BB2_147
	movzwl	902(%rsp), %eax
	andl	$2047, %eax
	xorl	%ecx, %ecx
	cmpl	$1024, %eax
	setb	%cl
	shll	$11, %ecx
	leal	(%rcx,%rax), %esi
	addl	$-2048, %esi
	movzwl	904(%rsp), %eax
	movl	%eax, %ecx
	andl	$31, %ecx
	movswl	%si, %esi
	xorps	%xmm3, %xmm3
	cvtsi2ss	%esi, %xmm3
	cmpl	$4096, %eax
	jb	.Lreader_BB2_150
	movd	.Lreader_CPI2_24(%rip), %xmm4
	jmp	.Lreader_BB2_151
.Lreader_BB2_150:
	andl	$-32, %eax
	shll	$18, %eax
	addl	$1065353216, %eax
	movd	%eax, %xmm4
.Lreader_BB2_151:
	shll	$23, %ecx
	addl	$1065353216, %ecx
	movd	%ecx, %xmm5
	xorl	%ecx, %ecx
	.p2align	4
.Lreader_BB2_152:
	movzwl	1752(%rsp,%rcx,2), %eax
	andl	$31, %eax
	xorl	%esi, %esi
	cmpw	$16, %ax
	setb	%sil
	shll	$5, %esi
	addl	%esi, %eax
	addl	$-32, %eax
	cwtl
	xorps	%xmm6, %xmm6
	cvtsi2ss	%eax, %xmm6
	mulss	%xmm5, %xmm6
	addss	%xmm3, %xmm6
	divss	%xmm4, %xmm6
	movss	%xmm6, (%r12,%rcx,4)
	incq	%rcx
	cmpq	$192, %rcx
	jne	.Lreader_BB2_152
	movzwl	898(%rsp), %eax
	andl	$2047, %eax
	xorl	%ecx, %ecx
	cmpl	$1024, %eax
	setb	%cl
	shll	$11, %ecx
	leal	(%rcx,%rax), %esi
	addl	$-2048, %esi
	movzwl	900(%rsp), %eax
	movl	%eax, %ecx
	andl	$31, %ecx
	movswl	%si, %esi
	xorps	%xmm3, %xmm3
	cvtsi2ss	%esi, %xmm3
	cmpl	$4096, %eax
	jb	.Lreader_BB2_155
	movd	.Lreader_CPI2_24(%rip), %xmm4
	jmp	.Lreader_BB2_156
.Lreader_BB2_155:
	andl	$-32, %eax
	shll	$18, %eax
	addl	$1065353216, %eax
	movd	%eax, %xmm4
.Lreader_BB2_156:
	movq	%r13, 152(%rsp)
	shll	$23, %ecx
	addl	$1065353216, %ecx
	movd	%ecx, %xmm5
	xorl	%ecx, %ecx
	.p2align	4
.Lreader_BB2_157:
	movzwl	1752(%rsp,%rcx,2), %eax
	shrl	$5, %eax
	andl	$63, %eax
	xorl	%esi, %esi
	cmpw	$32, %ax
	setb	%sil
	shll	$6, %esi
	addl	%esi, %eax
	addl	$-64, %eax
	cwtl
	xorps	%xmm6, %xmm6
	cvtsi2ss	%eax, %xmm6
	mulss	%xmm5, %xmm6
	addss	%xmm3, %xmm6
	divss	%xmm4, %xmm6
	movss	%xmm6, (%r9,%rcx,4)
	incq	%rcx
	cmpq	$192, %rcx
	jne	.Lreader_BB2_157
	xorps	%xmm4, %xmm4
	movaps	%xmm4, 832(%rsp)
	movaps	%xmm4, 816(%rsp)
	movzwl	924(%rsp), %r8d
	movzwl	926(%rsp), %r14d
	movzwl	928(%rsp), %ecx
	movzwl	930(%rsp), %r15d
	movzwl	932(%rsp), %eax
	movq	%rax, 32(%rsp)
	movzwl	934(%rsp), %eax
	movq	%rax, 72(%rsp)
	movzwl	936(%rsp), %r9d
	movzwl	938(%rsp), %eax
	movl	%eax, 64(%rsp)
	movzwl	940(%rsp), %r12d
	movzwl	942(%rsp), %r13d
	movzwl	944(%rsp), %eax
	movw	%ax, 40(%rsp)
	movzwl	946(%rsp), %eax
	movw	%ax, (%rsp)
	movdqu	948(%rsp), %xmm3
	movzwl	950(%rsp), %r11d
	movzwl	952(%rsp), %eax
	movq	%rax, 24(%rsp)
	movabsq	$22518002430574552, %rax
	movq	%rax, 160(%rsp)
	movzwl	954(%rsp), %ebx
	movw	$120, 168(%rsp)
	movq	136(%rsp), %rax
	movw	%ax, 170(%rsp)
	movq	56(%rsp), %rax
	movw	%ax, 172(%rsp)
	movq	128(%rsp), %rax
	movw	%ax, 174(%rsp)
	movaps	%xmm0, 432(%rsp)
	movaps	%xmm1, 448(%rsp)
	movaps	%xmm4, 272(%rsp)
	movaps	%xmm4, 288(%rsp)
	movzwl	956(%rsp), %r10d
	movzwl	958(%rsp), %edi
	cmpq	$7, %rdx
	jne	.Lreader_BB2_160
	movl	$1065353216, 300(%rsp)
	jmp	.Lreader_BB2_166
.Lreader_BB2_160:
	movq	%r8, 48(%rsp)
	movl	%r15d, %r8d
	movss	.Lreader_CPI2_27(%rip), %xmm4
	movq	%rdx, %rsi
	jmp	.Lreader_BB2_163
.Lreader_BB2_161:
	negl	%eax
	xorps	%xmm5, %xmm5
	cvtsi2ss	%eax, %xmm5
	addss	%xmm2, %xmm5
	xorps	.Lreader_CPI2_26(%rip), %xmm5
.Lreader_BB2_162:
	mulss	432(%rsp,%rsi,4), %xmm5
	addss	.Lreader_CPI2_27(%rip), %xmm5
	mulss	%xmm5, %xmm4
	incq	%rsi
	cmpq	$7, %rsi
	je	.Lreader_BB2_165
.Lreader_BB2_163:
	movss	%xmm4, 272(%rsp,%rsi,4)
	movswl	162(%rsp,%rsi,2), %eax
	movswl	160(%rsp,%rsi,2), %r15d
	subl	%r15d, %eax
	js	.Lreader_BB2_161
	xorps	%xmm5, %xmm5
	cvtsi2ss	%eax, %xmm5
	addss	%xmm2, %xmm5
	jmp	.Lreader_BB2_162
.Lreader_BB2_165:
	movss	%xmm4, 300(%rsp)
	testq	%rdx, %rdx
	movl	%r8d, %r15d
	movq	48(%rsp), %r8
	je	.Lreader_BB2_171
.Lreader_BB2_166:
	movss	.Lreader_CPI2_27(%rip), %xmm4
	jmp	.Lreader_BB2_169
.Lreader_BB2_167:
	negl	%eax
	xorps	%xmm5, %xmm5
	cvtsi2ss	%eax, %xmm5
	addss	%xmm2, %xmm5
	xorps	.Lreader_CPI2_26(%rip), %xmm5
.Lreader_BB2_168:
	mulss	428(%rsp,%rdx,4), %xmm5
	decq	%rdx
	addss	.Lreader_CPI2_27(%rip), %xmm5
	divss	%xmm5, %xmm4
	movss	%xmm4, 272(%rsp,%rdx,4)
	je	.Lreader_BB2_171
.Lreader_BB2_169:
	movswl	160(%rsp,%rdx,2), %eax
	movswl	158(%rsp,%rdx,2), %esi
	subl	%esi, %eax
	js	.Lreader_BB2_167
	xorps	%xmm5, %xmm5
	cvtsi2ss	%eax, %xmm5
	addss	%xmm2, %xmm5
	jmp	.Lreader_BB2_168
.Lreader_BB2_171:
	movl	%edi, %eax
	andl	$511, %eax
	xorl	%edx, %edx
	cmpl	$256, %eax
	setb	%dl
	shll	$9, %edx
	addl	%edx, %eax
	addl	$-512, %eax
	cwtl
	cvtsi2ss	%eax, %xmm2
	shrl	$9, %edi
	movq	%rdi, 48(%rsp)
	movl	%r10d, %eax
	andl	$63, %eax
	xorl	%edx, %edx
	cmpw	$32, %ax
	setb	%dl
	shll	$6, %edx
	addl	%edx, %eax
	addl	$-64, %eax
	cvtsi2ss	%eax, %xmm7
	pinsrw	$1, %r10d, %xmm3
	movzwl	%r10w, %edx
	pshufd	$100, %xmm3, %xmm4
	pxor	.Lreader_CPI2_33(%rip), %xmm4
	movl	$-1610579840, %eax
	movd	%eax, %xmm5
	pcmpgtw	%xmm4, %xmm5
	pshuflw	$80, %xmm5, %xmm8
	shrl	$6, %edx
	movl	%ebx, %eax
	andl	$63, %eax
	xorl	%esi, %esi
	cmpw	$32, %ax
	setb	%sil
	shll	$6, %esi
	addl	%esi, %eax
	addl	$-64, %eax
	xorps	%xmm4, %xmm4
	cvtsi2ss	%eax, %xmm4
	cmpl	$8192, %ebx
	jb	.Lreader_BB2_173
	movd	.Lreader_CPI2_24(%rip), %xmm5
	jmp	.Lreader_BB2_174
.Lreader_BB2_173:
	andl	$-64, %ebx
	shll	$17, %ebx
	addl	$1065353216, %ebx
	movd	%ebx, %xmm5
.Lreader_BB2_174:
	shll	$5, %r11d
	movq	24(%rsp), %rax
	orl	%r11d, %eax
	movq	%rax, 24(%rsp)
	movzwl	(%rsp), %eax
	cvtsi2ss	%eax, %xmm6
	divss	%xmm5, %xmm4
	mulss	.Lreader_CPI2_32(%rip), %xmm2
	pinsrw	$1, %edx, %xmm3
	movlhps	%xmm6, %xmm7
	pshuflw	$212, %xmm3, %xmm5
	paddw	.Lreader_CPI2_34(%rip), %xmm5
	pslld	$23, %xmm5
	pand	%xmm8, %xmm5
	pandn	.Lreader_CPI2_35(%rip), %xmm8
	movzwl	40(%rsp), %eax
	xorps	%xmm3, %xmm3
	cvtsi2ss	%eax, %xmm3
	mulss	.Lreader_CPI2_36(%rip), %xmm3
	andl	$2047, %r13d
	xorl	%eax, %eax
	cmpl	$1024, %r13d
	setb	%al
	shll	$11, %eax
	addl	%r13d, %eax
	addl	$-2048, %eax
	cwtl
	cvtsi2ss	%eax, %xmm9
	mulss	.Lreader_CPI2_37(%rip), %xmm9
	andl	$2047, %r12d
	xorl	%eax, %eax
	cmpl	$1024, %r12d
	setb	%al
	shll	$11, %eax
	addl	%r12d, %eax
	addl	$-2048, %eax
	cwtl
	cvtsi2ss	%eax, %xmm10
	mulss	.Lreader_CPI2_38(%rip), %xmm10
	shll	$5, %r9d
	orl	64(%rsp), %r9d
	cvtsi2ss	%r9d, %xmm11
	shll	$5, %ecx
	orl	%r15d, %ecx
	xorps	%xmm6, %xmm6
	cvtsi2ss	%ecx, %xmm6
	movq	72(%rsp), %rcx
	shll	$5, %ecx
	movq	32(%rsp), %r12
	shll	$5, %r12d
	andl	$2047, %r14d
	xorl	%eax, %eax
	cmpl	$1024, %r14d
	setb	%al
	shll	$11, %eax
	addl	%r14d, %eax
	addl	$-2048, %eax
	cwtl
	cvtsi2ss	%eax, %xmm12
	por	%xmm5, %xmm8
	andl	$2047, %r8d
	xorl	%eax, %eax
	cmpl	$1024, %r8d
	setb	%al
	shll	$11, %eax
	addl	%r8d, %eax
	addl	$-2048, %eax
	cwtl
	xorps	%xmm5, %xmm5
	cvtsi2ss	%eax, %xmm5
	unpcklps	%xmm12, %xmm5
	shufps	$36, %xmm7, %xmm7
	pshufd	$68, %xmm8, %xmm8
	mulps	.Lreader_CPI2_39(%rip), %xmm5
	divps	%xmm8, %xmm7
	shufps	$228, %xmm7, %xmm5
	movdqa	272(%rsp), %xmm7
	movdqa	288(%rsp), %xmm8
	movdqa	%xmm7, 688(%rsp)
	movdqa	%xmm8, 704(%rsp)
	movd	%xmm9, %r10d
	movd	%xmm10, %r9d
	movd	%xmm11, %r8d
	movl	%r8d, %r14d
	andl	$2147418112, %r14d
	movdqa	%xmm7, 240(%rsp)
	movdqa	%xmm8, 256(%rsp)
	movq	48(%rsp), %rdi
	andb	$3, %dil
	movb	$1, %r11b
	movw	$120, %r13w
	movw	$80, %bx
	movw	$-20, %si
	movw	$-40, %r15w
	movb	$1, %al
	movq	%rax, 64(%rsp)
	movq	128(%rsp), %rdx
	jmp	.Lreader_BB2_72
.Lreader_func_end2:
	.size	loamchalice_reader_take, .Lreader_func_end2-loamchalice_reader_take
	.section	.rodata.loamchalice_reader_take,"a",@progbits
	.p2align	2, 0x0
.Lreader_JTI2_0:
	.long	.Lreader_BB2_82-.Lreader_JTI2_0
	.long	.Lreader_BB2_82-.Lreader_JTI2_0
	.long	.Lreader_BB2_92-.Lreader_JTI2_0
	.long	.Lreader_BB2_94-.Lreader_JTI2_0
	.long	.Lreader_BB2_89-.Lreader_JTI2_0
	.long	.Lreader_BB2_96-.Lreader_JTI2_0
	.long	.Lreader_BB2_98-.Lreader_JTI2_0
	.long	.Lreader_BB2_95-.Lreader_JTI2_0
	.long	.Lreader_BB2_100-.Lreader_JTI2_0
	.long	.Lreader_BB2_91-.Lreader_JTI2_0
	.long	.Lreader_BB2_99-.Lreader_JTI2_0
	.long	.Lreader_BB2_88-.Lreader_JTI2_0
	.long	.Lreader_BB2_90-.Lreader_JTI2_0
	.long	.Lreader_BB2_97-.Lreader_JTI2_0
	.long	.Lreader_BB2_87-.Lreader_JTI2_0
	.long	.Lreader_BB2_93-.Lreader_JTI2_0

# burn
	.section	.text.loamchalice_burn,"ax",@progbits
	.globl	loamchalice_burn
	.p2align	4
	.type	loamchalice_burn,@function
loamchalice_burn:
	pushq	%rbp
	pushq	%r14
	pushq	%rbx
	movq	%rdi, %rax
	xorl	%edi, %edi
	testq	%rsi, %rsi
	sete	%bl
	xorl	%r9d, %r9d
	testq	%rcx, %rcx
	sete	%r11b
	movl	$1, %r10d
	cmpq	$1664, %rdx
	jae	.Lburn_BB0_2
	movq	%rdx, %r8
	jmp	.Lburn_BB0_10
.Lburn_BB0_2:
	cmpq	$1664, %r8
	jae	.Lburn_BB0_3
.Lburn_BB0_10:
	movb	$0, -4(%rsp)
	movl	$0, -8(%rsp)
	movl	$832, %ecx
	xorl	%r9d, %r9d
	xorl	%edx, %edx
	jmp	.Lburn_BB0_25
.Lburn_BB0_3:
	movb	%bl, %dil
	shll	$12, %edi
	leaq	(%rsi,%rdi), %rdx
	movb	%r11b, %r9b
	shll	$12, %r9d
	leaq	(%r9,%rcx), %r10
	incq	%r10
	leaq	(%rdi,%rsi), %r11
	incq	%r11
	xorl	%r8d, %r8d
	.p2align	4
.Lburn_BB0_4:
	cmpq	$63, %r8
	ja	.Lburn_BB0_6
	movabsq	$-279648911203696640, %rbx
	btq	%r8, %rbx
	jae	.Lburn_BB0_6
.Lburn_BB0_11:
	incq	%r8
	cmpq	$832, %r8
	jne	.Lburn_BB0_4
	jmp	.Lburn_BB0_12
.Lburn_BB0_6:
	cmpq	$41, %r8
	ja	.Lburn_BB0_11
	cmpq	$16, %r8
	setae	%bl
	leaq	-21(%r8), %r14
	cmpq	$-2, %r14
	setb	%bpl
	testb	%bpl, %bl
	jne	.Lburn_BB0_11
	movzwl	-1(%r11,%r8,2), %ebx
	rolw	$8, %bx
	movzwl	-1(%r10,%r8,2), %ebp
	rolw	$8, %bp
	cmpw	%bp, %bx
	je	.Lburn_BB0_11
	movl	$11, %r10d
	jmp	.Lburn_BB0_10
.Lburn_BB0_12:
	leaq	(%r9,%rcx), %r8
	addq	$3, %r8
	xorl	%ecx, %ecx
	xorl	%ebx, %ebx
	.p2align	4
.Lburn_BB0_13:
	cmpq	$832, %rcx
	je	.Lburn_BB0_14
	movzbl	(%rdx,%rcx,2), %r10d
	movzbl	1(%rdx,%rcx,2), %r11d
	movl	%r10d, %ebp
	shll	$8, %ebp
	orl	%r11d, %ebp
	movzwl	-3(%r8,%rcx,2), %r9d
	rolw	$8, %r9w
	cmpw	%r9w, %bp
	jne	.Lburn_BB0_18
	leaq	2(%rcx), %r14
	movzbl	2(%rdx,%rcx,2), %r10d
	movzbl	3(%rdx,%rcx,2), %r11d
	movl	%r10d, %ebp
	shll	$8, %ebp
	movzwl	-1(%r8,%rcx,2), %r9d
	rolw	$8, %r9w
	orl	%r11d, %ebp
	addq	$4, %rbx
	movq	%r14, %rcx
	cmpw	%r9w, %bp
	je	.Lburn_BB0_13
	decq	%r14
	addq	%rbx, %rdx
	addq	$-2, %rdx
	movq	%r14, %rcx
	jmp	.Lburn_BB0_19
.Lburn_BB0_14:
	movb	$1, %dl
	xorl	%r9d, %r9d
	jmp	.Lburn_BB0_24
.Lburn_BB0_18:
	addq	%rbx, %rdx
.Lburn_BB0_19:
	xorl	%ebx, %ebx
	orb	%r11b, %r10b
	cmovnel	%ebx, %r9d
	movl	%r9d, %r10d
	rolw	$8, %r10w
	movw	%r10w, (%rdx)
	leaq	(%rdi,%rsi), %rdx
	addq	$3, %rdx
	.p2align	4
.Lburn_BB0_20:
	movq	%rbx, %rsi
	cmpq	$832, %rbx
	je	.Lburn_BB0_23
	movzwl	-3(%rdx,%rsi,2), %edi
	rolw	$8, %di
	movzwl	-3(%r8,%rsi,2), %r10d
	rolw	$8, %r10w
	cmpw	%r10w, %di
	jne	.Lburn_BB0_23
	leaq	2(%rsi), %rbx
	movzwl	-1(%rdx,%rsi,2), %edi
	rolw	$8, %di
	movzwl	-1(%r8,%rsi,2), %r10d
	rolw	$8, %r10w
	cmpw	%r10w, %di
	je	.Lburn_BB0_20
.Lburn_BB0_23:
	cmpq	$832, %rsi
	sete	%dl
.Lburn_BB0_24:
	movb	$0, -4(%rsp)
	movl	$0, -8(%rsp)
	xorl	%r10d, %r10d
	xorl	%r8d, %r8d
.Lburn_BB0_25:
	movq	%r10, (%rax)
	movq	%r8, 8(%rax)
	movq	$0, 16(%rax)
	movq	%rcx, 24(%rax)
	movw	%r9w, 32(%rax)
	movb	%dl, 34(%rax)
	movl	-8(%rsp), %ecx
	movl	%ecx, 35(%rax)
	movzbl	-4(%rsp), %ecx
	movb	%cl, 39(%rax)
	popq	%rbx
	popq	%r14
	popq	%rbp
	retq
.Lburn_func_end0:
	.size	loamchalice_burn, .Lburn_func_end0-loamchalice_burn

	.section	.text.loamchalice_next_step,"ax",@progbits
	.globl	loamchalice_next_step
	.p2align	4
	.type	loamchalice_next_step,@function
loamchalice_next_step:
	pushq	%rbp
	pushq	%r14
	pushq	%rbx
	movq	%rdi, %rax
	xorl	%r9d, %r9d
	testq	%rsi, %rsi
	sete	%bpl
	xorl	%r10d, %r10d
	testq	%rcx, %rcx
	sete	%bl
	movl	$832, %edi
	movl	$1, %r11d
	cmpq	$1664, %rdx
	jae	.Lburn_BB1_2
.Lburn_BB1_1:
	xorl	%esi, %esi
	xorl	%ecx, %ecx
	jmp	.Lburn_BB1_21
.Lburn_BB1_2:
	cmpq	$1664, %r8
	jae	.Lburn_BB1_4
	xorl	%esi, %esi
	movq	%r8, %rdx
	xorl	%ecx, %ecx
	jmp	.Lburn_BB1_21
.Lburn_BB1_4:
	movb	%bpl, %r9b
	shll	$12, %r9d
	movb	%bl, %r10b
	shll	$12, %r10d
	leaq	(%r10,%rcx), %r8
	incq	%r8
	leaq	(%r9,%rsi), %r11
	incq	%r11
	xorl	%edx, %edx
	.p2align	4
.Lburn_BB1_5:
	cmpq	$63, %rdx
	ja	.Lburn_BB1_7
	movabsq	$-279648911203696640, %rbx
	btq	%rdx, %rbx
	jae	.Lburn_BB1_7
.Lburn_BB1_11:
	incq	%rdx
	cmpq	$832, %rdx
	jne	.Lburn_BB1_5
	jmp	.Lburn_BB1_12
.Lburn_BB1_7:
	cmpq	$41, %rdx
	ja	.Lburn_BB1_11
	cmpq	$16, %rdx
	setae	%bl
	leaq	-21(%rdx), %r14
	cmpq	$-2, %r14
	setb	%bpl
	testb	%bpl, %bl
	jne	.Lburn_BB1_11
	movzwl	-1(%r11,%rdx,2), %ebx
	rolw	$8, %bx
	movzwl	-1(%r8,%rdx,2), %ebp
	rolw	$8, %bp
	cmpw	%bp, %bx
	je	.Lburn_BB1_11
	movl	$11, %r11d
	jmp	.Lburn_BB1_1
.Lburn_BB1_12:
	addq	%rcx, %r10
	addq	$3, %r10
	addq	%rsi, %r9
	addq	$3, %r9
	xorl	%edi, %edi
	.p2align	4
.Lburn_BB1_13:
	movq	%rdi, %rdx
	cmpq	$832, %rdi
	je	.Lburn_BB1_14
	movzbl	-3(%r9,%rdx,2), %esi
	movzbl	-2(%r9,%rdx,2), %r8d
	movl	%esi, %edi
	shll	$8, %edi
	orl	%r8d, %edi
	movzwl	-3(%r10,%rdx,2), %ecx
	rolw	$8, %cx
	cmpw	%cx, %di
	jne	.Lburn_BB1_16
	leaq	2(%rdx), %rdi
	movzbl	-1(%r9,%rdx,2), %esi
	movzbl	(%r9,%rdx,2), %r8d
	movl	%esi, %r11d
	shll	$8, %r11d
	orl	%r8d, %r11d
	movzwl	-1(%r10,%rdx,2), %ecx
	rolw	$8, %cx
	cmpw	%cx, %r11w
	je	.Lburn_BB1_13
	decq	%rdi
	jmp	.Lburn_BB1_19
.Lburn_BB1_14:
	xorl	%ecx, %ecx
	movq	%rdx, %rdi
	jmp	.Lburn_BB1_20
.Lburn_BB1_16:
	movq	%rdx, %rdi
.Lburn_BB1_19:
	xorl	%r9d, %r9d
	orb	%r8b, %sil
	cmovnel	%r9d, %ecx
.Lburn_BB1_20:
	cmpq	$832, %rdx
	sete	%sil
	xorl	%r11d, %r11d
	xorl	%edx, %edx
.Lburn_BB1_21:
	movq	%r11, (%rax)
	movq	%rdx, 8(%rax)
	movq	$0, 16(%rax)
	movq	%rdi, 24(%rax)
	movw	%cx, 32(%rax)
	movb	%sil, 34(%rax)
	movl	$0, 35(%rax)
	movb	$0, 39(%rax)
	popq	%rbx
	popq	%r14
	popq	%rbp
	retq
.Lburn_func_end1:
	.size	loamchalice_next_step, .Lburn_func_end1-loamchalice_next_step

# scrub
	.section	.text.loamchalice_scrub,"ax",@progbits
	.globl	loamchalice_scrub
	.p2align	4
	.type	loamchalice_scrub,@function
loamchalice_scrub:
	pushq	%rbp
	pushq	%r15
	pushq	%r14
	pushq	%r13
	pushq	%r12
	pushq	%rbx
	movq	%rcx, %r10
	movq	%rdi, %rax
	xorl	%ecx, %ecx
	testq	%rsi, %rsi
	sete	%r14b
	xorl	%r11d, %r11d
	testq	%r10, %r10
	sete	%bpl
	xorl	%edi, %edi
	testq	%r9, %r9
	sete	%bl
	cmpq	$1664, %rdx
	jae	.Lscrub_BB0_3
	movl	$1, %ecx
	jmp	.Lscrub_BB0_2
.Lscrub_BB0_3:
	cmpq	$814, %r8
	setb	%dl
	cmpq	$814, 56(%rsp)
	setb	%r8b
	orb	%dl, %r8b
	je	.Lscrub_BB0_5
	movl	$2, %ecx
	xorl	%edx, %edx
.Lscrub_BB0_2:
	xorl	%esi, %esi
	xorl	%edi, %edi
	jmp	.Lscrub_BB0_16
.Lscrub_BB0_5:
	movb	%r14b, %cl
	shll	$12, %ecx
	movb	%bpl, %r11b
	shll	$12, %r11d
	addq	%r11, %r10
	movb	%bl, %dil
	shll	$12, %edi
	addq	%rdi, %r9
	movabsq	$4311810305, %r13
	leaq	(%rcx,%rsi), %rbx
	incq	%rbx
	xorl	%edi, %edi
	xorl	%ebp, %ebp
	xorl	%esi, %esi
	jmp	.Lscrub_BB0_6
	.p2align	4
.Lscrub_BB0_13:
	movw	%bp, (%r9,%rdi,2)
	incq	%rdi
.Lscrub_BB0_14:
	incq	%rbp
	cmpq	$832, %rbp
	je	.Lscrub_BB0_15
.Lscrub_BB0_6:
	cmpq	$63, %rbp
	ja	.Lscrub_BB0_8
	movabsq	$-279648911203696640, %rcx
	btq	%rbp, %rcx
	jae	.Lscrub_BB0_8
.Lscrub_BB0_10:
	movzbl	-1(%rbx,%rbp,2), %r11d
	movzbl	(%rbx,%rbp,2), %r8d
	movq	%r8, %rcx
	imulq	%r13, %rcx
	movabsq	$1099252526427, %r14
	andq	%rcx, %r14
	movq	%r11, %rcx
	imulq	%r13, %rcx
	movabsq	$1096410404365, %r15
	andq	%rcx, %r15
	xorq	%r14, %r15
	movq	%r15, %rcx
	shrq	$4, %rcx
	xorq	%r15, %rcx
	movq	%rcx, %r14
	shrq	$2, %r14
	xorq	%rcx, %r14
	movq	%r14, %rcx
	shrq	%rcx
	xorq	%r14, %rcx
	andq	%r13, %rcx
	je	.Lscrub_BB0_14
	movq	%rcx, %r14
	shrq	$32, %r14
	je	.Lscrub_BB0_13
	shll	$8, %r11d
	imull	$16909320, %ecx, %ecx
	shrl	$22, %ecx
	andb	$60, %cl
	movabsq	$-6230900172921172801, %r14
	shrq	%cl, %r14
	orl	%r11d, %r8d
	andb	$15, %r14b
	btcl	%r14d, %r8d
	movl	%r8d, %r11d
	andl	$2047, %r11d
	movl	%r8d, %edx
	andl	$1371, %edx
	xorl	%ecx, %ecx
	xorb	%dh, %dl
	setnp	%cl
	movl	%r8d, %edx
	andl	$1645, %edx
	xorl	%r14d, %r14d
	xorb	%dh, %dl
	setnp	%r14b
	movl	%r8d, %edx
	andl	$1934, %edx
	xorl	%r12d, %r12d
	xorb	%dh, %dl
	setnp	%r12b
	movl	%r8d, %edx
	andl	$2032, %edx
	xorl	%r15d, %r15d
	xorb	%dh, %dl
	setnp	%r15b
	shll	$11, %ecx
	orl	%r11d, %ecx
	shll	$12, %r14d
	shll	$13, %r12d
	orl	%r14d, %r12d
	orl	%ecx, %r12d
	shll	$14, %r15d
	orl	%r12d, %r15d
	movl	%r15d, %edx
	shrl	$8, %edx
	xorl	%ecx, %ecx
	xorb	%r8b, %dl
	setnp	%cl
	shll	$15, %ecx
	orl	%r15d, %ecx
	movb	%ch, -1(%rbx,%rbp,2)
	movb	%r8b, (%rbx,%rbp,2)
	movw	%bp, (%r10,%rsi,2)
	incq	%rsi
	jmp	.Lscrub_BB0_14
.Lscrub_BB0_8:
	cmpq	$41, %rbp
	ja	.Lscrub_BB0_10
	cmpq	$16, %rbp
	setae	%cl
	leaq	-21(%rbp), %r8
	cmpq	$-2, %r8
	setb	%r8b
	andb	%cl, %r8b
	cmpb	$1, %r8b
	jne	.Lscrub_BB0_14
	jmp	.Lscrub_BB0_10
.Lscrub_BB0_15:
	xorl	%ecx, %ecx
	xorl	%edx, %edx
.Lscrub_BB0_16:
	movq	%rcx, (%rax)
	movq	%rdx, 8(%rax)
	movq	$0, 16(%rax)
	movq	%rsi, 24(%rax)
	movq	%rdi, 32(%rax)
	popq	%rbx
	popq	%r12
	popq	%r13
	popq	%r14
	popq	%r15
	popq	%rbp
	retq
.Lscrub_func_end0:
	.size	loamchalice_scrub, .Lscrub_func_end0-loamchalice_scrub

# mlx90640
	.section	.rodata.cst4,"aM",@progbits,4
	.p2align	2, 0x0
.Lmlx90640_CPI0_0:
	.long	0x3d800000
	.section	.rodata.cst16,"aM",@progbits,16
	.p2align	4, 0x0
.Lmlx90640_CPI0_1:
	.long	0x3e000000
	.long	0x3f000000
	.zero	4
	.zero	4
.Lmlx90640_CPI0_2:
	.long	0x80000000
	.long	0x80000000
	.long	0x80000000
	.long	0x80000000
	.section	.text.loamchalice_mlx90640_access_pattern,"ax",@progbits
	.globl	loamchalice_mlx90640_access_pattern
	.p2align	4
	.type	loamchalice_mlx90640_access_pattern,@function
loamchalice_mlx90640_access_pattern:
	movzwl	%si, %eax
	movl	%eax, %ecx
	shrl	$11, %ecx
	testw	%ax, %ax
	setns	%al
	shlb	$5, %al
	orb	%cl, %al
	addb	$-32, %al
	movsbl	%al, %eax
	cvtsi2ss	%eax, %xmm0
	movl	%esi, %eax
	shrl	$6, %eax
	andl	$31, %eax
	cmpw	$16, %ax
	setb	%cl
	shlb	$5, %cl
	orb	%al, %cl
	addb	$-32, %cl
	movsbl	%cl, %eax
	cvtsi2ss	%eax, %xmm1
	movq	%rdi, %rax
	unpcklps	%xmm1, %xmm0
	andl	$63, %esi
	cmpw	$32, %si
	setb	%cl
	shlb	$6, %cl
	orb	%sil, %cl
	addb	$-64, %cl
	movsbl	%cl, %ecx
	xorps	%xmm1, %xmm1
	cvtsi2ss	%ecx, %xmm1
	mulss	.Lmlx90640_CPI0_0(%rip), %xmm1
	mulps	.Lmlx90640_CPI0_1(%rip), %xmm0
	movaps	%xmm0, %xmm2
	shufps	$85, %xmm0, %xmm2
	movaps	%xmm0, %xmm3
	addss	%xmm2, %xmm3
	subss	%xmm0, %xmm2
	movaps	.Lmlx90640_CPI0_2(%rip), %xmm4
	movaps	%xmm0, %xmm5
	xorps	%xmm4, %xmm5
	movaps	%xmm3, %xmm6
	xorps	%xmm4, %xmm6
	xorps	%xmm2, %xmm4
	movlps	%xmm0, (%rdi)
	movss	%xmm1, 8(%rdi)
	movss	%xmm5, 12(%rdi)
	movss	%xmm2, 16(%rdi)
	movss	%xmm6, 20(%rdi)
	movss	%xmm0, 24(%rdi)
	movss	%xmm4, 28(%rdi)
	movss	%xmm3, 32(%rdi)
	retq
.Lmlx90640_func_end0:
	.size	loamchalice_mlx90640_access_pattern, .Lmlx90640_func_end0-loamchalice_mlx90640_access_pattern

	.section	.text.loamchalice_mlx90640_chessboard_entry,"ax",@progbits
	.globl	loamchalice_mlx90640_chessboard_entry
	.p2align	4
	.type	loamchalice_mlx90640_chessboard_entry,@function
loamchalice_mlx90640_chessboard_entry:
	movq	%rdi, %rax
	movl	%esi, %ecx
	shrl	$5, %ecx
	andl	$1, %ecx
	movl	%esi, %edx
	andl	$1, %edx
	xorl	%edi, %edi
	cmpq	$768, %rsi
	movl	$14, %r8d
	cmovbq	%rdi, %r8
	cmovbq	%rdi, %rsi
	leal	(%rcx,%rdx,2), %ecx
	cmovaeq	%rdi, %rcx
	movq	%r8, (%rax)
	movq	%rsi, 8(%rax)
	movq	$0, 16(%rax)
	movq	%rcx, 24(%rax)
	retq
.Lmlx90640_func_end1:
	.size	loamchalice_mlx90640_chessboard_entry, .Lmlx90640_func_end1-loamchalice_mlx90640_chessboard_entry

	.section	.text.loamchalice_mlx90640_interleave_entry,"ax",@progbits
	.globl	loamchalice_mlx90640_interleave_entry
	.p2align	4
	.type	loamchalice_mlx90640_interleave_entry,@function
loamchalice_mlx90640_interleave_entry:
	movq	%rdi, %rax
	movq	%rsi, %rcx
	shlq	$58, %rcx
	sarq	$63, %rcx
	andl	$3, %ecx
	movl	%esi, %edx
	andl	$3, %edx
	cmpq	$3, %rdx
	je	.Lmlx90640_BB2_3
	cmpl	$1, %edx
	jne	.Lmlx90640_BB2_4
	incq	%rcx
	jmp	.Lmlx90640_BB2_4
.Lmlx90640_BB2_3:
	addq	$2, %rcx
.Lmlx90640_BB2_4:
	xorl	%edx, %edx
	cmpq	$768, %rsi
	movl	$14, %edi
	cmovbq	%rdx, %rdi
	cmovbq	%rdx, %rsi
	cmovaeq	%rdx, %rcx
	movq	%rdi, (%rax)
	movq	%rsi, 8(%rax)
	movq	$0, 16(%rax)
	movq	%rcx, 24(%rax)
	retq
.Lmlx90640_func_end2:
	.size	loamchalice_mlx90640_interleave_entry, .Lmlx90640_func_end2-loamchalice_mlx90640_interleave_entry

	.section	.text.loamchalice_mlx90640_word_6_10_split,"ax",@progbits
	.globl	loamchalice_mlx90640_word_6_10_split
	.p2align	4
	.type	loamchalice_mlx90640_word_6_10_split,@function
loamchalice_mlx90640_word_6_10_split:
	movzwl	%di, %eax
	movl	%eax, %ecx
	shrl	$10, %ecx
	xorl	%edx, %edx
	testw	%ax, %ax
	movl	$192, %eax
	cmovnsl	%edx, %eax
	orl	%ecx, %eax
	andl	$1023, %edi
	shll	$16, %edi
	orl	%edi, %eax
	retq
.Lmlx90640_func_end3:
	.size	loamchalice_mlx90640_word_6_10_split, .Lmlx90640_func_end3-loamchalice_mlx90640_word_6_10_split

	.section	.text.loamchalice_mlx90640_word_to_i4s,"ax",@progbits
	.globl	loamchalice_mlx90640_word_to_i4s
	.p2align	4
	.type	loamchalice_mlx90640_word_to_i4s,@function
loamchalice_mlx90640_word_to_i4s:
	movzwl	%di, %eax
	movl	%eax, %r8d
	shrl	$12, %r8d
	xorl	%esi, %esi
	testw	%ax, %ax
	movl	$240, %edx
	movl	$240, %ecx
	cmovnsl	%esi, %ecx
	orl	%r8d, %ecx
	movl	%edi, %r8d
	shrl	$8, %r8d
	andl	$15, %r8d
	cmpw	$8, %r8w
	movl	$240, %eax
	cmovbl	%esi, %eax
	orl	%r8d, %eax
	movl	%edi, %r8d
	shrl	$4, %r8d
	andl	$15, %r8d
	cmpw	$8, %r8w
	movl	$240, %r9d
	cmovbl	%esi, %r9d
	orl	%r8d, %r9d
	andl	$15, %edi
	cmpw	$8, %di
	cmovbl	%esi, %edx
	orl	%edi, %edx
	shll	$24, %edx
	shll	$16, %r9d
	orl	%edx, %r9d
	shll	$8, %eax
	orl	%r9d, %eax
	orl	%ecx, %eax
	retq
.Lmlx90640_func_end4:
	.size	loamchalice_mlx90640_word_to_i4s, .Lmlx90640_func_end4-loamchalice_mlx90640_word_to_i4s

	.section	.text.loamchalice_mlx90640_word_to_u4s,"ax",@progbits
	.globl	loamchalice_mlx90640_word_to_u4s
	.p2align	4
	.type	loamchalice_mlx90640_word_to_u4s,@function
loamchalice_mlx90640_word_to_u4s:
	movzwl	%di, %ecx
	shrl	$12, %ecx
	movl	%edi, %eax
	shrb	$4, %al
	movl	%edi, %edx
	andb	$15, %dl
	movzbl	%dl, %edx
	shll	$24, %edx
	movzbl	%al, %eax
	shll	$16, %eax
	orl	%edx, %eax
	andl	$3840, %edi
	orl	%edi, %eax
	orl	%ecx, %eax
	retq
.Lmlx90640_func_end5:
	.size	loamchalice_mlx90640_word_to_u4s, .Lmlx90640_func_end5-loamchalice_mlx90640_word_to_u4s

# load640
	.section	.rodata.cst4,"aM",@progbits,4
	.p2align	2, 0x0
.Lload640_CPI0_0:
	.long	0x47800000
.Lload640_CPI0_2:
	.long	0x3f800000
.Lload640_CPI0_3:
	.long	0x3d000000
.Lload640_CPI0_4:
	.long	0x3c000000
.Lload640_CPI0_6:
	.long	0x39000000
.Lload640_CPI0_8:
	.long	0x3d800000
.Lload640_CPI0_9:
	.long	0x3f000000
.Lload640_CPI0_10:
	.long	0x3e000000
	.section	.rodata.cst16,"aM",@progbits,16
	.p2align	4, 0x0
.Lload640_CPI0_1:
	.long	0x80000000
	.long	0x80000000
	.long	0x80000000
	.long	0x80000000
.Lload640_CPI0_5:
	.byte	127
	.byte	135
	.zero	1
	.zero	1
	.zero	1
	.zero	1
	.zero	1
	.zero	1
	.zero	1
	.zero	1
	.zero	1
	.zero	1
	.zero	1
	.zero	1
	.zero	1
	.zero	1
.Lload640_CPI0_7:
	.long	0x39800000
	.long	0x3e000000
	.zero	4
	.zero	4
	.section	.text.loamchalice_mlx90640_load,"ax",@progbits
	.globl	loamchalice_mlx90640_load
	.p2align	4
	.type	loamchalice_mlx90640_load,@function
loamchalice_mlx90640_load:
	pushq	%rbp
	pushq	%r15
	pushq	%r14
	pushq	%r13
	pushq	%r12
	pushq	%rbx
	subq	$664, %rsp
	movq	%r9, %rbp
	movq	%rcx, 56(%rsp)
	movq	%rdx, %r13
	movq	%rdi, 192(%rsp)
	movq	%rsi, 16(%rsp)
	testq	%rsi, %rsi
	sete	%r14b
	xorl	%ebx, %ebx
	movq	%r8, 40(%rsp)
	testq	%r8, %r8
	sete	144(%rsp)
	xorl	%r15d, %r15d
	cmpq	$0, 720(%rsp)
	sete	48(%rsp)
	xorl	%r12d, %r12d
	cmpq	$0, 736(%rsp)
	sete	12(%rsp)
	leaq	200(%rsp), %rdi
	movl	$464, %edx
	xorl	%esi, %esi
	callq	memset@PLT
	cmpq	$1663, %r13
	ja	.Lload640_BB0_2
	movl	$1, %r8d
	jmp	.Lload640_BB0_61
.Lload640_BB0_2:
	movq	744(%rsp), %rax
	movq	728(%rsp), %rcx
	cmpq	%rax, %rcx
	cmovbq	%rcx, %rax
	cmpq	%rax, %rbp
	cmovbq	%rbp, %rax
	cmpq	$768, %rax
	jae	.Lload640_BB0_4
	movl	$2, %r8d
	xorl	%r13d, %r13d
	jmp	.Lload640_BB0_61
.Lload640_BB0_4:
	xorl	%ecx, %ecx
	movb	%r14b, %cl
	shll	$12, %ecx
	movq	16(%rsp), %rax
	movq	%rcx, 64(%rsp)
	leaq	(%rax,%rcx), %rsi
	movzbl	144(%rsp), %eax
	movb	%al, %bl
	shll	$12, %ebx
	addq	%rbx, 40(%rsp)
	movzbl	48(%rsp), %eax
	movb	%al, %r15b
	shll	$12, %r15d
	movq	720(%rsp), %r13
	addq	%r15, %r13
	movzbl	12(%rsp), %eax
	movb	%al, %r12b
	shll	$12, %r12d
	movq	736(%rsp), %r15
	addq	%r12, %r15
	movabsq	$9223372036854775806, %rax
	leaq	110(%rsi), %rdx
	leaq	109(%rsi), %rdi
	leaq	108(%rsi), %r8
	leaq	111(%rsi), %r9
	xorl	%r10d, %r10d
	jmp	.Lload640_BB0_7
	.p2align	4
.Lload640_BB0_5:
	movzbl	(%rcx), %r11d
	leal	(%r11,%r11), %ecx
	andl	$256, %ecx
	subl	%ecx, %r11d
.Lload640_BB0_6:
	movl	%r11d, 200(%rsp,%r10,4)
	incq	%r10
	cmpq	$116, %r10
	je	.Lload640_BB0_41
.Lload640_BB0_7:
	cmpq	$56, %r10
	jae	.Lload640_BB0_11
	cmpq	$24, %r10
	jae	.Lload640_BB0_15
	movl	%r10d, %ecx
	shrl	%ecx
	andl	$14, %ecx
	movzbl	36(%rsi,%rcx), %r11d
	movzbl	37(%rsi,%rcx), %ebx
	movl	%r11d, %ecx
	shll	$8, %ecx
	orl	%ebx, %ecx
	movl	%r10d, %ebx
	andl	$3, %ebx
	leaq	.Lload640_JTI0_3(%rip), %r14
	movslq	(%r14,%rbx,4), %rbx
	addq	%r14, %rbx
	jmpq	*%rbx
.Lload640_BB0_10:
	movl	%ecx, %r11d
	jmp	.Lload640_BB0_27
	.p2align	4
.Lload640_BB0_11:
	cmpq	$112, %r10
	jae	.Lload640_BB0_17
	cmpq	$80, %r10
	jae	.Lload640_BB0_21
	leaq	-56(%r10), %rcx
	shrq	%rcx
	andq	%rax, %rcx
	movzbl	68(%rsi,%rcx), %r11d
	movzbl	69(%rsi,%rcx), %ebx
	movl	%r11d, %ecx
	shll	$8, %ecx
	orl	%ebx, %ecx
	movl	%r10d, %ebx
	andl	$3, %ebx
	leaq	.Lload640_JTI0_1(%rip), %r14
	movslq	(%r14,%rbx,4), %rbx
	addq	%r14, %rbx
	jmpq	*%rbx
.Lload640_BB0_14:
	movl	%ecx, %r11d
	jmp	.Lload640_BB0_35
	.p2align	4
.Lload640_BB0_15:
	leaq	-24(%r10), %rcx
	shrq	%rcx
	andq	%rax, %rcx
	movzbl	48(%rsi,%rcx), %r11d
	movzbl	49(%rsi,%rcx), %ebx
	movl	%r11d, %ecx
	shll	$8, %ecx
	orl	%ebx, %ecx
	movl	%r10d, %ebx
	andl	$3, %ebx
	leaq	.Lload640_JTI0_2(%rip), %r14
	movslq	(%r14,%rbx,4), %rbx
	addq	%r14, %rbx
	jmpq	*%rbx
.Lload640_BB0_16:
	movl	%ecx, %r11d
	jmp	.Lload640_BB0_30
	.p2align	4
.Lload640_BB0_17:
	movq	%r8, %rcx
	je	.Lload640_BB0_5
	movq	%rdx, %rcx
	cmpq	$114, %r10
	je	.Lload640_BB0_5
	movq	%rdi, %rcx
	cmpq	$113, %r10
	je	.Lload640_BB0_5
	movq	%r9, %rcx
	jmp	.Lload640_BB0_5
.Lload640_BB0_21:
	leaq	-80(%r10), %rcx
	shrq	%rcx
	andq	%rax, %rcx
	movzbl	80(%rsi,%rcx), %r11d
	movzbl	81(%rsi,%rcx), %ebx
	movl	%r11d, %ecx
	shll	$8, %ecx
	orl	%ebx, %ecx
	movl	%r10d, %ebx
	andl	$3, %ebx
	leaq	.Lload640_JTI0_0(%rip), %r14
	movslq	(%r14,%rbx,4), %rbx
	addq	%r14, %rbx
	jmpq	*%rbx
.Lload640_BB0_22:
	movl	%ecx, %r11d
	jmp	.Lload640_BB0_39
.Lload640_BB0_23:
	movzwl	%cx, %r11d
	jmp	.Lload640_BB0_26
.Lload640_BB0_24:
	movzwl	%cx, %r11d
	jmp	.Lload640_BB0_29
.Lload640_BB0_25:
	movzwl	%r11w, %r11d
.Lload640_BB0_26:
	shrl	$4, %r11d
.Lload640_BB0_27:
	movzbl	32(%rsi), %ecx
	movzbl	34(%rsi), %ebx
	movzbl	35(%rsi), %ebp
	jmp	.Lload640_BB0_36
.Lload640_BB0_28:
	movzwl	%r11w, %r11d
.Lload640_BB0_29:
	shrl	$4, %r11d
.Lload640_BB0_30:
	movzbl	33(%rsi), %ecx
	jmp	.Lload640_BB0_40
.Lload640_BB0_31:
	movzwl	%cx, %r11d
	jmp	.Lload640_BB0_34
.Lload640_BB0_32:
	movzwl	%cx, %r11d
	jmp	.Lload640_BB0_38
.Lload640_BB0_33:
	movzwl	%r11w, %r11d
.Lload640_BB0_34:
	shrl	$4, %r11d
.Lload640_BB0_35:
	movzbl	64(%rsi), %ecx
	movzbl	66(%rsi), %ebx
	movzbl	67(%rsi), %ebp
.Lload640_BB0_36:
	movzwl	%bx, %ebx
	shll	$8, %ebx
	movswl	%bx, %ebx
	orl	%ebp, %ebx
	andl	$15, %r11d
	xorl	%r14d, %r14d
	cmpw	$8, %r11w
	setb	%r14b
	shll	$4, %r14d
	addl	%r14d, %r11d
	addl	$-16, %r11d
	andb	$15, %cl
	shll	%cl, %r11d
	addl	%ebx, %r11d
	jmp	.Lload640_BB0_6
.Lload640_BB0_37:
	movzwl	%r11w, %r11d
.Lload640_BB0_38:
	shrl	$4, %r11d
.Lload640_BB0_39:
	movzbl	65(%rsi), %ecx
.Lload640_BB0_40:
	shrl	$4, %ecx
	andl	$15, %r11d
	xorl	%ebx, %ebx
	cmpw	$8, %r11w
	setb	%bl
	shll	$4, %ebx
	addl	%ebx, %r11d
	addl	$-16, %r11d
	shll	%cl, %r11d
	jmp	.Lload640_BB0_6
.Lload640_BB0_41:
	movzbl	33(%rsi), %eax
	movzbl	34(%rsi), %r8d
	movzbl	35(%rsi), %r10d
	shll	$8, %r8d
	movzbl	32(%rsi), %ecx
	andb	$15, %cl
	movl	$1, %r9d
	shll	%cl, %r9d
	leal	(%r8,%r10), %r11d
	movl	%eax, %ecx
	shrl	$4, %ecx
	movl	$1, %ebx
	shll	%cl, %ebx
	movzbl	113(%rsi), %edx
	movl	$1, %edi
	leal	(%r8,%r10), %ecx
	incl	%ecx
	movl	$65536, %r10d
	subl	%r11d, %r10d
	testw	%r8w, %r8w
	cmovnsl	%ecx, %r10d
	movl	$65536, %r8d
	movl	%eax, %ecx
	andb	$15, %cl
	movl	$32, %r11d
	shll	%cl, %r11d
	addl	%r9d, %ebx
	leal	(%r11,%rbx,8), %ecx
	addl	%r10d, %ecx
	cmpl	$32769, %ecx
	jb	.Lload640_BB0_50
	movq	%r13, %rbx
	andb	$15, %dl
.Lload640_BB0_43:
	andl	$15, %eax
	xorl	%r13d, %r13d
	.p2align	4
.Lload640_BB0_44:
	movzbl	128(%rsi,%r13,2), %edi
	movl	%edi, %ecx
	shrl	$2, %ecx
	xorl	%r8d, %r8d
	testb	%dil, %dil
	setns	%r8b
	shll	$6, %r8d
	addl	%ecx, %r8d
	addl	$-64, %r8d
	movl	%eax, %ecx
	shll	%cl, %r8d
	movl	%r13d, %ecx
	shrl	$3, %ecx
	andl	$124, %ecx
	movl	200(%rsp,%rcx), %r9d
	leal	(,%r13,4), %ecx
	andl	$124, %ecx
	addl	296(%rsp,%rcx), %r9d
	addl	%r8d, %r9d
	movswl	%r9w, %r8d
	cmpl	%r9d, %r8d
	jne	.Lload640_BB0_49
	movq	%r13, %r8
	shrq	$5, %r8
	movl	424(%rsp,%r8,4), %r9d
	addl	520(%rsp,%rcx), %r9d
	movswl	%r9w, %ecx
	cmpl	%r9d, %ecx
	jne	.Lload640_BB0_49
	leaq	(,%r13,2), %r9
	movzbl	65(%rsi), %ecx
	movzbl	129(%rsi,%r9), %r10d
	movl	%edi, %r11d
	shll	$8, %r11d
	orl	%r10d, %r11d
	shrl	$4, %r11d
	andl	$63, %r11d
	shll	$5, %edi
	andl	$64, %edi
	subl	%edi, %r11d
	andb	$15, %cl
	shll	%cl, %r11d
	movswl	%r11w, %ecx
	cmpl	%r11d, %ecx
	jne	.Lload640_BB0_49
	shrl	%r10d
	andl	$7, %r10d
	xorl	%ecx, %ecx
	cmpb	$4, %r10b
	setb	%cl
	leal	(%r10,%rcx,8), %edi
	addl	$-8, %edi
	movl	%edx, %ecx
	shll	%cl, %edi
	andl	$1, %r8d
	andl	$2, %r9d
	orl	%r8d, %r9d
	addl	648(%rsp,%r9,4), %edi
	movswl	%di, %ecx
	cmpl	%edi, %ecx
	jne	.Lload640_BB0_49
	incq	%r13
	cmpq	$768, %r13
	jne	.Lload640_BB0_44
	jmp	.Lload640_BB0_53
.Lload640_BB0_49:
	movl	$5, %r8d
	jmp	.Lload640_BB0_61
.Lload640_BB0_50:
	movzbl	65(%rsi), %r9d
	movzbl	64(%rsi), %ecx
	movzbl	66(%rsi), %r10d
	shll	$8, %r10d
	movzbl	67(%rsi), %r11d
	andb	$15, %cl
	movl	$1, %ebx
	shll	%cl, %ebx
	leal	(%r10,%r11), %ebp
	movl	%r9d, %ecx
	shrl	$4, %ecx
	shll	%cl, %edi
	leal	(%r10,%r11), %ecx
	incl	%ecx
	subl	%ebp, %r8d
	testw	%r10w, %r10w
	cmovnsl	%ecx, %r8d
	addl	%ebx, %edi
	leal	(%r8,%rdi,8), %ecx
	andb	$15, %dl
	movq	%r13, %rbx
	cmpl	$32768, %ecx
	ja	.Lload640_BB0_43
	andl	$15, %r9d
	cmpw	$10, %r9w
	ja	.Lload640_BB0_43
	cmpb	$13, %dl
	jae	.Lload640_BB0_43
.Lload640_BB0_53:
	movq	56(%rsp), %r9
	cmpq	$3, %r9
	jbe	.Lload640_BB0_55
	movl	$6, %r8d
	movq	%r9, %r13
	jmp	.Lload640_BB0_61
.Lload640_BB0_55:
	movzbl	126(%rsi), %ecx
	movzbl	127(%rsi), %eax
	movl	%ecx, %edx
	shrl	$3, %edx
	andl	$6, %edx
	leaq	(%rdx,%rdx,4), %rdx
	movl	%eax, %edi
	shrl	$4, %edi
	andl	$15, %ecx
	addl	%edi, %ecx
	imull	%edx, %ecx
	imull	%edi, %edx
	shlq	$48, %rcx
	shlq	$32, %rdx
	orq	%rcx, %rdx
	orq	$65496, %rdx
	movq	%rdx, (%rsp)
	andl	$15, %eax
	movzbl	123(%rsi), %ecx
	xorl	%edx, %edx
	testb	%cl, %cl
	setns	%dl
	shll	$8, %edx
	addl	%edx, %ecx
	addl	$-256, %ecx
	movswl	%cx, %ecx
	cvtsi2ss	%ecx, %xmm0
	movzbl	122(%rsi), %ecx
	shll	$23, %eax
	addl	$1132462080, %eax
	xorl	%edx, %edx
	testb	%cl, %cl
	setns	%dl
	shll	$8, %edx
	addl	%edx, %ecx
	addl	$-256, %ecx
	movswl	%cx, %ecx
	cvtsi2ss	%ecx, %xmm1
	movzbl	124(%rsi), %ecx
	movzbl	125(%rsi), %edx
	xorl	%edi, %edi
	testb	%dl, %dl
	setns	%dil
	shll	$8, %edi
	addl	%edi, %edx
	addl	$-256, %edx
	movswl	%dx, %edx
	cvtsi2ss	%edx, %xmm2
	xorl	%edx, %edx
	testb	%cl, %cl
	setns	%dl
	shll	$8, %edx
	addl	%edx, %ecx
	addl	$-256, %ecx
	movswl	%cx, %ecx
	cvtsi2ss	%ecx, %xmm3
	unpcklps	%xmm1, %xmm0
	unpcklps	%xmm3, %xmm2
	movlhps	%xmm2, %xmm0
	movd	%eax, %xmm1
	pshufd	$0, %xmm1, %xmm1
	divps	%xmm1, %xmm0
	movaps	%xmm0, 128(%rsp)
	xorps	%xmm0, %xmm0
	movss	.Lload640_CPI0_0(%rip), %xmm1
	mulss	%xmm0, %xmm1
	testq	%r9, %r9
	je	.Lload640_BB0_75
	movss	124(%rsp,%r9,4), %xmm2
	movswl	(%rsp,%r9,2), %eax
	movswl	-2(%rsp,%r9,2), %ecx
	subl	%ecx, %eax
	js	.Lload640_BB0_58
	xorps	%xmm3, %xmm3
	cvtsi2ss	%eax, %xmm3
	addss	%xmm1, %xmm3
	jmp	.Lload640_BB0_59
.Lload640_BB0_58:
	negl	%eax
	xorps	%xmm3, %xmm3
	cvtsi2ss	%eax, %xmm3
	addss	%xmm1, %xmm3
	xorps	.Lload640_CPI0_1(%rip), %xmm3
.Lload640_BB0_59:
	mulss	%xmm3, %xmm2
	leaq	-1(%r9), %r13
	addss	.Lload640_CPI0_2(%rip), %xmm2
	ucomiss	%xmm0, %xmm2
	jne	.Lload640_BB0_63
	jp	.Lload640_BB0_63
.Lload640_BB0_60:
	movl	$13, %r8d
.Lload640_BB0_61:
	xorps	%xmm5, %xmm5
	movaps	%xmm5, 112(%rsp)
	xorl	%r12d, %r12d
	xorps	%xmm3, %xmm3
	xorps	%xmm8, %xmm8
	xorps	%xmm13, %xmm13
	xorps	%xmm10, %xmm10
	xorps	%xmm4, %xmm4
	xorps	%xmm2, %xmm2
	xorps	%xmm7, %xmm7
	xorl	%edi, %edi
	xorps	%xmm11, %xmm11
	xorl	%r9d, %r9d
	xorl	%edx, %edx
	xorl	%esi, %esi
	xorl	%ecx, %ecx
	xorps	%xmm9, %xmm9
	xorps	%xmm1, %xmm1
	xorps	%xmm12, %xmm12
	xorps	%xmm0, %xmm0
	xorps	%xmm6, %xmm6
.Lload640_BB0_62:
	movq	192(%rsp), %rax
	movq	%r8, (%rax)
	movq	%r13, 8(%rax)
	movq	$0, 16(%rax)
	movlps	%xmm12, 24(%rax)
	movss	%xmm9, 32(%rax)
	movss	%xmm7, 36(%rax)
	movups	%xmm5, 40(%rax)
	movss	%xmm1, 56(%rax)
	movss	%xmm11, 60(%rax)
	movq	%rsi, 64(%rax)
	movups	%xmm0, 72(%rax)
	movaps	112(%rsp), %xmm0
	movups	%xmm0, 88(%rax)
	movups	%xmm6, 104(%rax)
	movss	%xmm3, 120(%rax)
	movss	%xmm8, 124(%rax)
	movss	%xmm13, 128(%rax)
	movss	%xmm10, 132(%rax)
	movss	%xmm4, 136(%rax)
	movss	%xmm2, 140(%rax)
	movq	%rcx, 144(%rax)
	movl	%edx, 152(%rax)
	movl	%edi, 156(%rax)
	movb	%r12b, 160(%rax)
	movb	%r9b, 161(%rax)
	movw	$0, 162(%rax)
	movl	$0, 164(%rax)
	addq	$664, %rsp
	popq	%rbx
	popq	%r12
	popq	%r13
	popq	%r14
	popq	%r15
	popq	%rbp
	retq
.Lload640_BB0_63:
	testq	%r13, %r13
	je	.Lload640_BB0_75
	movss	120(%rsp,%r9,4), %xmm2
	movswl	-2(%rsp,%r9,2), %eax
	movswl	-4(%rsp,%r9,2), %ecx
	subl	%ecx, %eax
	js	.Lload640_BB0_66
	xorps	%xmm3, %xmm3
	cvtsi2ss	%eax, %xmm3
	addss	%xmm1, %xmm3
	jmp	.Lload640_BB0_67
.Lload640_BB0_66:
	negl	%eax
	xorps	%xmm3, %xmm3
	cvtsi2ss	%eax, %xmm3
	addss	%xmm1, %xmm3
	xorps	.Lload640_CPI0_1(%rip), %xmm3
.Lload640_BB0_67:
	mulss	%xmm3, %xmm2
	leaq	-2(%r9), %r13
	addss	.Lload640_CPI0_2(%rip), %xmm2
	ucomiss	%xmm0, %xmm2
	jne	.Lload640_BB0_68
	jnp	.Lload640_BB0_60
.Lload640_BB0_68:
	testq	%r13, %r13
	je	.Lload640_BB0_75
	movss	116(%rsp,%r9,4), %xmm2
	movswl	-4(%rsp,%r9,2), %eax
	movswl	-6(%rsp,%r9,2), %ecx
	subl	%ecx, %eax
	js	.Lload640_BB0_71
	xorps	%xmm3, %xmm3
	cvtsi2ss	%eax, %xmm3
	addss	%xmm1, %xmm3
	jmp	.Lload640_BB0_72
.Lload640_BB0_71:
	negl	%eax
	xorps	%xmm3, %xmm3
	cvtsi2ss	%eax, %xmm3
	addss	%xmm1, %xmm3
	xorps	.Lload640_CPI0_1(%rip), %xmm3
.Lload640_BB0_72:
	mulss	%xmm3, %xmm2
	leaq	-3(%r9), %r13
	addss	.Lload640_CPI0_2(%rip), %xmm2
	ucomiss	%xmm0, %xmm2
	jne	.Lload640_BB0_73
	jnp	.Lload640_BB0_60
.Lload640_BB0_73:
	testq	%r13, %r13
	je	.Lload640_BB0_75
	orq	$-4, %r9
	movq	%r9, %r13
	jmp	.Lload640_BB0_60
.Lload640_BB0_75:
	movq	16(%rsp), %rax
	movq	64(%rsp), %r14
	addq	%r14, %rax
	addq	$128, %rax
	xorl	%edx, %edx
	xorl	%edi, %edi
	movq	40(%rsp), %r11
	.p2align	4
.Lload640_BB0_76:
	movzbl	33(%rsi), %ecx
	movzbl	(%rax,%rdi,2), %r8d
	movl	%r8d, %r9d
	shrl	$2, %r8d
	xorl	%r10d, %r10d
	testb	%r9b, %r9b
	setns	%r10b
	shll	$6, %r10d
	addl	%r10d, %r8d
	addl	$-64, %r8d
	andb	$15, %cl
	shll	%cl, %r8d
	movl	%edi, %ecx
	shrl	$3, %ecx
	andl	$124, %ecx
	movl	%edx, %r9d
	andl	$124, %r9d
	movl	296(%rsp,%r9), %r9d
	addl	200(%rsp,%rcx), %r9d
	addl	%r8d, %r9d
	movl	%r9d, (%r11,%rdi,4)
	incq	%rdi
	addq	$4, %rdx
	cmpq	$768, %rdi
	jne	.Lload640_BB0_76
	movq	16(%rsp), %rax
	addq	%r14, %rax
	addq	$129, %rax
	xorl	%edx, %edx
	xorl	%edi, %edi
	.p2align	4
.Lload640_BB0_78:
	movl	%edi, %ecx
	shrl	$3, %ecx
	andl	$124, %ecx
	movl	%edx, %r8d
	andl	$124, %r8d
	movl	520(%rsp,%r8), %r8d
	addl	424(%rsp,%rcx), %r8d
	xorps	%xmm0, %xmm0
	cvtsi2ss	%r8d, %xmm0
	movzbl	65(%rsi), %ecx
	movzbl	-1(%rax,%rdi,2), %r8d
	movzbl	(%rax,%rdi,2), %r9d
	movl	%r8d, %r10d
	shll	$8, %r10d
	orl	%r9d, %r10d
	shrl	$4, %r10d
	andl	$63, %r10d
	shll	$5, %r8d
	andl	$64, %r8d
	subl	%r8d, %r10d
	andb	$15, %cl
	shll	%cl, %r10d
	xorps	%xmm2, %xmm2
	cvtsi2ss	%r10d, %xmm2
	movzbl	64(%rsi), %ecx
	addss	%xmm0, %xmm2
	shll	$19, %ecx
	andl	$125829120, %ecx
	addl	$1317011456, %ecx
	movd	%ecx, %xmm0
	divss	%xmm0, %xmm2
	movss	%xmm2, (%rbx,%rdi,4)
	incq	%rdi
	addq	$4, %rdx
	cmpq	$768, %rdi
	jne	.Lload640_BB0_78
	xorl	%eax, %eax
	.p2align	4
.Lload640_BB0_80:
	movzbl	113(%rsi), %edx
	movzbl	129(%rsi,%rax,2), %ecx
	shrl	%ecx
	andl	$7, %ecx
	xorl	%edi, %edi
	cmpb	$4, %cl
	setb	%dil
	leal	(%rcx,%rdi,8), %edi
	addl	$-8, %edi
	movl	%edx, %ecx
	andb	$15, %cl
	shll	%cl, %edi
	leaq	(%rax,%rax), %rcx
	movl	%eax, %r8d
	shrl	$5, %r8d
	andl	$1, %r8d
	andl	$2, %ecx
	orl	%r8d, %ecx
	addl	648(%rsp,%rcx,4), %edi
	xorps	%xmm0, %xmm0
	cvtsi2ss	%edi, %xmm0
	shll	$19, %edx
	andl	$125829120, %edx
	addl	$1132462080, %edx
	movd	%edx, %xmm2
	divss	%xmm2, %xmm0
	movss	%xmm0, (%r15,%rax,4)
	incq	%rax
	cmpq	$768, %rax
	jne	.Lload640_BB0_80
	movzbl	102(%rsi), %eax
	movl	%eax, 64(%rsp)
	movzbl	103(%rsi), %eax
	movq	%rax, 16(%rsp)
	movzbl	106(%rsi), %eax
	movl	%eax, 144(%rsp)
	movzbl	107(%rsi), %eax
	movl	%eax, 108(%rsp)
	movzbl	32(%rsi), %eax
	movb	%al, 48(%rsp)
	movzbl	112(%rsi), %r12d
	movzbl	100(%rsi), %eax
	movl	%eax, 40(%rsp)
	movzbl	101(%rsi), %r13d
	movzbl	98(%rsi), %r15d
	movzbl	99(%rsi), %eax
	movzbl	126(%rsi), %edi
	movzbl	127(%rsi), %edx
	movl	%edi, %ecx
	shrl	$3, %ecx
	andl	$6, %ecx
	leaq	(%rcx,%rcx,4), %rcx
	movl	%edx, %r8d
	shrl	$4, %r8d
	andl	$15, %edi
	addl	%r8d, %edi
	imull	%ecx, %edi
	imull	%r8d, %ecx
	shlq	$48, %rdi
	shlq	$32, %rcx
	orq	%rdi, %rcx
	orq	$65496, %rcx
	andl	$15, %edx
	movzbl	123(%rsi), %edi
	xorl	%r8d, %r8d
	testb	%dil, %dil
	setns	%r8b
	shll	$8, %r8d
	addl	%r8d, %edi
	addl	$-256, %edi
	movzbl	122(%rsi), %r8d
	movswl	%di, %edi
	xorps	%xmm0, %xmm0
	cvtsi2ss	%edi, %xmm0
	shll	$23, %edx
	addl	$1132462080, %edx
	xorl	%edi, %edi
	testb	%r8b, %r8b
	setns	%dil
	shll	$8, %edi
	addl	%r8d, %edi
	addl	$-256, %edi
	movzbl	125(%rsi), %r8d
	movswl	%di, %edi
	xorps	%xmm2, %xmm2
	cvtsi2ss	%edi, %xmm2
	xorl	%edi, %edi
	testb	%r8b, %r8b
	setns	%dil
	shll	$8, %edi
	addl	%r8d, %edi
	addl	$-256, %edi
	movswl	%di, %edi
	cvtsi2ss	%edi, %xmm3
	movzbl	124(%rsi), %edi
	xorl	%r8d, %r8d
	testb	%dil, %dil
	setns	%r8b
	shll	$8, %r8d
	addl	%r8d, %edi
	addl	$-256, %edi
	movzbl	96(%rsi), %r10d
	unpcklps	%xmm2, %xmm0
	movswl	%di, %edi
	xorps	%xmm2, %xmm2
	cvtsi2ss	%edi, %xmm2
	movzbl	97(%rsi), %r11d
	unpcklps	%xmm2, %xmm3
	movd	%edx, %xmm2
	movzbl	120(%rsi), %ebx
	movlhps	%xmm3, %xmm0
	pshufd	$0, %xmm2, %xmm2
	divps	%xmm2, %xmm0
	movq	%rcx, (%rsp)
	movaps	%xmm0, 128(%rsp)
	xorps	%xmm2, %xmm2
	movaps	%xmm2, 112(%rsp)
	movq	56(%rsp), %r9
	cmpq	$3, %r9
	movl	%r10d, 32(%rsp)
	movl	%r11d, 28(%rsp)
	movl	%ebx, 88(%rsp)
	jne	.Lload640_BB0_83
	movl	$1065353216, 124(%rsp)
	jmp	.Lload640_BB0_89
.Lload640_BB0_83:
	movss	.Lload640_CPI0_2(%rip), %xmm2
	movq	%r9, %rdx
	jmp	.Lload640_BB0_86
.Lload640_BB0_84:
	negl	%edi
	xorps	%xmm3, %xmm3
	cvtsi2ss	%edi, %xmm3
	addss	%xmm1, %xmm3
	xorps	.Lload640_CPI0_1(%rip), %xmm3
.Lload640_BB0_85:
	mulss	128(%rsp,%rdx,4), %xmm3
	addss	.Lload640_CPI0_2(%rip), %xmm3
	mulss	%xmm3, %xmm2
	incq	%rdx
	cmpq	$3, %rdx
	je	.Lload640_BB0_88
.Lload640_BB0_86:
	movss	%xmm2, 112(%rsp,%rdx,4)
	movswl	2(%rsp,%rdx,2), %edi
	movswl	(%rsp,%rdx,2), %r8d
	subl	%r8d, %edi
	js	.Lload640_BB0_84
	xorps	%xmm3, %xmm3
	cvtsi2ss	%edi, %xmm3
	addss	%xmm1, %xmm3
	jmp	.Lload640_BB0_85
.Lload640_BB0_88:
	movss	%xmm2, 124(%rsp)
	testq	%r9, %r9
	je	.Lload640_BB0_94
.Lload640_BB0_89:
	movss	.Lload640_CPI0_2(%rip), %xmm2
	jmp	.Lload640_BB0_92
	.p2align	4
.Lload640_BB0_90:
	negl	%edx
	xorps	%xmm3, %xmm3
	cvtsi2ss	%edx, %xmm3
	addss	%xmm1, %xmm3
	xorps	.Lload640_CPI0_1(%rip), %xmm3
.Lload640_BB0_91:
	mulss	124(%rsp,%r9,4), %xmm3
	decq	%r9
	addss	.Lload640_CPI0_2(%rip), %xmm3
	divss	%xmm3, %xmm2
	movss	%xmm2, 112(%rsp,%r9,4)
	je	.Lload640_BB0_94
.Lload640_BB0_92:
	movswl	(%rsp,%r9,2), %edx
	movswl	-2(%rsp,%r9,2), %edi
	subl	%edi, %edx
	js	.Lload640_BB0_90
	xorps	%xmm3, %xmm3
	cvtsi2ss	%edx, %xmm3
	addss	%xmm1, %xmm3
	jmp	.Lload640_BB0_91
.Lload640_BB0_94:
	movzbl	64(%rsi), %edx
	movzbl	114(%rsi), %edi
	movzbl	115(%rsi), %r8d
	movl	%r8d, 104(%rsp)
	movzbl	116(%rsi), %r10d
	movzbl	117(%rsi), %r8d
	movl	%r8d, 36(%rsp)
	movzbl	118(%rsi), %ebx
	movzbl	113(%rsi), %r11d
	movzbl	119(%rsi), %ebp
	movzbl	121(%rsi), %r14d
	xorps	%xmm1, %xmm1
	xorps	%xmm2, %xmm2
	movl	%r14d, 12(%rsp)
	testw	%r14w, %r14w
	je	.Lload640_BB0_96
	movl	%eax, %r8d
	movl	%r13d, %eax
	movl	12(%rsp), %r13d
	movzwl	%r13w, %r14d
	movl	%r15d, %r9d
	xorl	%r15d, %r15d
	testb	%r13b, %r13b
	movl	%eax, %r13d
	movl	%r8d, %eax
	setns	%r15b
	shll	$8, %r15d
	addl	%r15d, %r14d
	addl	$-256, %r14d
	movl	%r9d, %r15d
	movswl	%r14w, %r14d
	xorps	%xmm2, %xmm2
	cvtsi2ss	%r14d, %xmm2
	mulss	.Lload640_CPI0_3(%rip), %xmm2
.Lload640_BB0_96:
	movss	%xmm2, 100(%rsp)
	movzwl	%bx, %r8d
	movq	%r8, 184(%rsp)
	movzwl	%bp, %r9d
	movq	%r9, 176(%rsp)
	xorl	%ebx, %ebx
	testb	%r9b, %r9b
	setns	%bl
	shll	$8, %ebx
	movq	%rbx, 168(%rsp)
	shrb	$4, %r11b
	xorl	%r9d, %r9d
	testb	%r8b, %r8b
	setns	%r9b
	movl	%r12d, %ebx
	andb	$15, %bl
	movzbl	%r11b, %r8d
	shll	$8, %r8d
	movzbl	%bl, %r11d
	orl	%r11d, %r8d
	movl	%r8d, 56(%rsp)
	movzwl	%r10w, %ebp
	movl	%ebp, %r10d
	shll	$8, %r10d
	movswl	%r10w, %r11d
	shrl	$15, %r11d
	andl	$65472, %r11d
	shrl	$2, %ebp
	orl	%r11d, %ebp
	shll	$8, %r9d
	movq	%r9, 160(%rsp)
	andl	$768, %r10d
	xorl	%r11d, %r11d
	cmpl	$512, %r10d
	setb	%r11b
	shll	$10, %r11d
	movzwl	36(%rsp), %r9d
	orl	%r11d, %r9d
	leal	(%r10,%r9), %r11d
	addl	$-1024, %r11d
	movl	%r11d, 36(%rsp)
	movzwl	%di, %r9d
	movl	%r9d, %r10d
	andl	$3, %r10d
	shll	$8, %r10d
	movzwl	104(%rsp), %r8d
	orl	%r10d, %r8d
	cvtsi2ss	%r8d, %xmm3
	addl	%r11d, %ebp
	shll	$19, %edx
	andl	$125829120, %edx
	addl	$1291845632, %edx
	xorl	%r8d, %r8d
	testb	%dil, %dil
	setns	%r8b
	shll	$6, %r8d
	shrl	$2, %r9d
	leal	(%r8,%r9), %edi
	addl	$-64, %edi
	cvtsi2ss	%edi, %xmm4
	movd	%edx, %xmm6
	movzwl	88(%rsp), %edx
	movq	%rdx, 88(%rsp)
	xorl	%r11d, %r11d
	testb	%dl, %dl
	setns	%r11b
	movzwl	32(%rsp), %edx
	shll	$8, %edx
	movzwl	28(%rsp), %edi
	orl	%edx, %edi
	movl	%edi, 28(%rsp)
	movzwl	%r15w, %edx
	shll	$8, %edx
	movzwl	%ax, %eax
	orl	%edx, %eax
	movl	%eax, 32(%rsp)
	movl	40(%rsp), %eax
	movzwl	%ax, %edx
	movl	%edx, %edi
	andl	$3, %edi
	shll	$8, %edi
	movzwl	%r13w, %r10d
	orl	%edi, %r10d
	andl	$2, %edx
	shll	$9, %edx
	subl	%edx, %r10d
	shll	$8, %r11d
	movzbl	48(%rsp), %r9d
	shrb	$6, %r9b
	orb	$8, %r9b
	xorl	%r14d, %r14d
	testb	%al, %al
	setns	%r14b
	shll	$6, %r14d
	shrb	$2, %al
	movl	%eax, 40(%rsp)
	shrb	$4, %r12b
	andb	$3, %r12b
	movq	16(%rsp), %rax
	shll	$21, %eax
	movq	%rax, 16(%rsp)
	xorl	%r13d, %r13d
	movl	64(%rsp), %eax
	testb	%al, %al
	movl	$1792, %edx
	cmovnsl	%r13d, %edx
	orl	%eax, %edx
	shll	$5, %edx
	movq	%rdx, 48(%rsp)
	movzwl	108(%rsp), %ebx
	movl	%ebx, %edi
	andl	$63, %edi
	cmpw	$32, %di
	setb	%r8b
	movl	144(%rsp), %eax
	movzwl	%ax, %edx
	shll	$8, %edx
	movw	%dx, 64(%rsp)
	orl	%ebx, %edx
	movq	176(%rsp), %rbx
	movq	168(%rsp), %r15
	addl	%r15d, %ebx
	addl	$-256, %ebx
	movswl	%bx, %ebx
	cvtsi2ss	%ebx, %xmm15
	shlb	$6, %r8b
	orb	%r8b, %dil
	addb	$-64, %dil
	shrl	$6, %edx
	andl	$31, %edx
	cmpw	$16, %dx
	setb	%r8b
	shlb	$5, %r8b
	orb	%r8b, %dl
	addb	$-32, %dl
	cmpw	$0, 64(%rsp)
	setns	%r8b
	shrb	$3, %al
	shlb	$5, %r8b
	orb	%al, %r8b
	movq	184(%rsp), %rax
	movq	160(%rsp), %rbx
	addl	%eax, %ebx
	addl	$-256, %ebx
	movswl	%bx, %ebx
	cvtsi2ss	%ebx, %xmm14
	movq	88(%rsp), %rax
	leal	-256(%r11,%rax), %r11d
	movswl	%r11w, %r11d
	cvtsi2ss	%r11d, %xmm2
	movaps	%xmm2, 144(%rsp)
	movswl	28(%rsp), %r11d
	cvtsi2ss	%r11d, %xmm5
	movzbl	%r9b, %r11d
	cvtsi2ss	%r11d, %xmm7
	movswl	32(%rsp), %r11d
	cvtsi2ss	%r11d, %xmm9
	xorps	%xmm2, %xmm2
	cvtsi2ss	%r10d, %xmm2
	movaps	%xmm2, 64(%rsp)
	movzbl	40(%rsp), %r10d
	leal	-64(%r14,%r10), %r9d
	cvtsi2ss	%r9d, %xmm12
	movsbl	%dil, %edi
	cvtsi2ss	%edi, %xmm11
	movsbl	%dl, %edx
	cvtsi2ss	%edx, %xmm8
	addb	$-32, %r8b
	movzbl	104(%rsi), %edx
	movl	%edx, %edi
	shrl	$4, %edi
	movsbl	%r8b, %r8d
	cvtsi2ss	%r8d, %xmm10
	xorl	%r8d, %r8d
	testb	%dl, %dl
	setns	%r8b
	shll	$4, %r8d
	addl	%edi, %r8d
	addl	$-16, %r8d
	divss	%xmm6, %xmm3
	mulss	.Lload640_CPI0_4(%rip), %xmm4
	addss	.Lload640_CPI0_2(%rip), %xmm4
	mulss	%xmm3, %xmm4
	movzbl	105(%rsi), %edi
	andl	$15, %edx
	cvtsi2ss	%r8d, %xmm6
	xorl	%esi, %esi
	cmpb	$8, %dl
	setb	%sil
	shll	$4, %esi
	addl	%esi, %edx
	addl	$-16, %edx
	cvtsi2ss	%edx, %xmm13
	movl	%edi, %edx
	shrl	$4, %edx
	xorl	%esi, %esi
	testb	%dil, %dil
	setns	%sil
	shll	$4, %esi
	andl	$15, %edi
	addl	%edx, %esi
	addl	$-16, %esi
	xorl	%r8d, %r8d
	cmpb	$8, %dil
	setb	%r8b
	shll	$16, %ebp
	movzwl	36(%rsp), %edx
	xorps	%xmm2, %xmm2
	cvtsi2ss	%esi, %xmm2
	orl	%ebp, %edx
	movd	%xmm3, %esi
	movd	%xmm4, %r9d
	shlq	$32, %r9
	orq	%r9, %rsi
	movd	56(%rsp), %xmm4
	shll	$4, %r8d
	addl	%r8d, %edi
	addl	$-16, %edi
	xorps	%xmm3, %xmm3
	cvtsi2ss	%edi, %xmm3
	movq	16(%rsp), %rax
	movq	48(%rsp), %rdi
	leal	-1073741824(%rdi,%rax), %edi
	punpckldq	%xmm15, %xmm14
	paddb	.Lload640_CPI0_5(%rip), %xmm4
	pxor	%xmm15, %xmm15
	punpcklbw	%xmm15, %xmm4
	movaps	144(%rsp), %xmm15
	mulss	.Lload640_CPI0_6(%rip), %xmm15
	unpcklps	%xmm15, %xmm5
	movaps	64(%rsp), %xmm15
	unpcklps	%xmm15, %xmm12
	punpcklwd	%xmm4, %xmm4
	pslld	$23, %xmm4
	divps	%xmm4, %xmm14
	mulps	.Lload640_CPI0_7(%rip), %xmm12
	mulss	.Lload640_CPI0_8(%rip), %xmm11
	mulss	.Lload640_CPI0_9(%rip), %xmm8
	mulss	.Lload640_CPI0_10(%rip), %xmm10
	movlhps	%xmm14, %xmm5
	unpcklps	%xmm13, %xmm6
	unpcklps	%xmm3, %xmm2
	movlhps	%xmm2, %xmm6
	pshufd	$0, %xmm4, %xmm2
	divps	%xmm2, %xmm6
	movaps	%xmm10, %xmm2
	addss	%xmm8, %xmm2
	subss	%xmm10, %xmm8
	movaps	.Lload640_CPI0_1(%rip), %xmm4
	movaps	%xmm10, %xmm3
	xorps	%xmm4, %xmm3
	movaps	%xmm2, %xmm13
	xorps	%xmm4, %xmm13
	xorps	%xmm8, %xmm4
	cmpb	$0, 12(%rsp)
	je	.Lload640_BB0_98
	movb	$1, %r9b
	xorl	%r13d, %r13d
	xorl	%r8d, %r8d
	movss	100(%rsp), %xmm1
	jmp	.Lload640_BB0_62
.Lload640_BB0_98:
	xorl	%r8d, %r8d
	xorl	%r9d, %r9d
	jmp	.Lload640_BB0_62
.Lload640_func_end0:
	.size	loamchalice_mlx90640_load, .Lload640_func_end0-loamchalice_mlx90640_load
	.section	.rodata.loamchalice_mlx90640_load,"a",@progbits
	.p2align	2, 0x0
.Lload640_JTI0_0:
	.long	.Lload640_BB0_22-.Lload640_JTI0_0
	.long	.Lload640_BB0_32-.Lload640_JTI0_0
	.long	.Lload640_BB0_39-.Lload640_JTI0_0
	.long	.Lload640_BB0_37-.Lload640_JTI0_0
.Lload640_JTI0_1:
	.long	.Lload640_BB0_14-.Lload640_JTI0_1
	.long	.Lload640_BB0_31-.Lload640_JTI0_1
	.long	.Lload640_BB0_35-.Lload640_JTI0_1
	.long	.Lload640_BB0_33-.Lload640_JTI0_1
.Lload640_JTI0_2:
	.long	.Lload640_BB0_16-.Lload640_JTI0_2
	.long	.Lload640_BB0_24-.Lload640_JTI0_2
	.long	.Lload640_BB0_30-.Lload640_JTI0_2
	.long	.Lload640_BB0_28-.Lload640_JTI0_2
.Lload640_JTI0_3:
	.long	.Lload640_BB0_10-.Lload640_JTI0_3
	.long	.Lload640_BB0_23-.Lload640_JTI0_3
	.long	.Lload640_BB0_27-.Lload640_JTI0_3
	.long	.Lload640_BB0_25-.Lload640_JTI0_3

# frames640
	.section	.rodata.cst4,"aM",@progbits,4
	.p2align	2, 0x0
.Lframes640_CPI0_0:
	.long	0xc1c80000
.Lframes640_CPI0_5:
	.long	0x47800000
.Lframes640_CPI0_6:
	.long	0x3f800000
	.section	.rodata.cst16,"aM",@progbits,16
	.p2align	4, 0x0
.Lframes640_CPI0_1:
	.long	0x80000000
	.long	0xc0533333
	.zero	4
	.zero	4
.Lframes640_CPI0_2:
	.long	2147483647
	.long	2147483647
	.long	2147483647
	.long	2147483647
.Lframes640_CPI0_3:
	.long	2139095040
	.long	2139095040
	.long	2139095040
	.long	2139095040
.Lframes640_CPI0_4:
	.long	0x7fc00000
	.long	0x7fc00000
	.long	0x7fc00000
	.long	0x7fc00000
.Lframes640_CPI0_7:
	.zero	4
	.long	0x3f800000
	.zero	4
	.zero	4
.Lframes640_CPI0_8:
	.long	0x80000000
	.long	0xc0533333
	.long	0x00000000
	.long	0x00000000
	.section	.text.frames640.pixels.frame_pixels,"ax",@progbits
	.p2align	4
	.type	loamchalice.frames640.pixels.frame_pixels,@function
loamchalice.frames640.pixels.frame_pixels:
	pushq	%rbp
	pushq	%r15
	pushq	%r14
	pushq	%r13
	pushq	%r12
	pushq	%rbx
	subq	$1096, %rsp
	movq	%r8, %r15
	movq	%rsi, %r14
	movq	(%rdi), %r9
	movq	8(%rdi), %r10
	movzbl	24(%rdi), %r11d
	movsd	28(%rdi), %xmm9
	movss	36(%rdi), %xmm8
	movss	40(%rdi), %xmm10
	movzbl	44(%rdi), %esi
	movss	48(%rdi), %xmm11
	movq	(%rdx), %rax
	movq	%rax, 392(%rsp)
	movq	16(%rdx), %r8
	movq	32(%rdx), %rax
	movq	%rax, 384(%rsp)
	movq	48(%rdx), %rbx
	movq	64(%rdx), %rdx
	movq	(%rcx), %rax
	movq	%rax, 48(%rsp)
	movq	16(%rcx), %rax
	movq	%rax, 352(%rsp)
	movq	32(%rcx), %rax
	movq	%rax, 344(%rsp)
	movq	48(%rcx), %rax
	movq	%rax, 336(%rsp)
	movq	16(%rdi), %rcx
	movzbl	52(%rdi), %eax
	movl	%eax, 60(%rsp)
	movl	80(%rdi), %eax
	movq	%rax, 328(%rsp)
	movq	72(%rdi), %rax
	movq	%rax, 240(%rsp)
	movdqu	56(%rdi), %xmm0
	movdqa	%xmm0, 224(%rsp)
	testq	%r9, %r9
	je	.Lframes640_BB0_1
	movq	%rdx, 200(%rsp)
	movq	%rbx, 208(%rsp)
	movb	%sil, 3(%rsp)
	addss	.Lframes640_CPI0_0(%rip), %xmm10
	movsd	.Lframes640_CPI0_8(%rip), %xmm12
	addps	%xmm9, %xmm12
	movaps	%xmm12, %xmm13
	shufps	$85, %xmm12, %xmm13
	movzbl	224(%rsp), %eax
	movb	%al, 2(%rsp)
	movss	228(%rsp), %xmm0
	movss	%xmm0, 56(%rsp)
	movss	232(%rsp), %xmm0
	movss	%xmm0, 12(%rsp)
	movd	236(%rsp), %xmm0
	movd	%xmm0, 8(%rsp)
	xorl	%edx, %edx
	xorl	%r12d, %r12d
	movq	%r8, 376(%rsp)
.Lframes640_BB0_3:
	movq	%r12, %rbp
	shlq	$5, %rbp
	movq	%r12, %r13
	shlq	$7, %r13
	leaq	(%r15,%r13), %rbx
	movq	384(%rsp), %rax
	leaq	(%rax,%r13), %rsi
	leaq	(%r8,%r13), %rdi
	movq	%r12, %r8
	shlq	$6, %r8
	addq	392(%rsp), %r8
	addq	48(%rsp), %r13
	.p2align	4
.Lframes640_BB0_4:
	movdqu	(%r14,%rbp), %xmm0
	movdqu	16(%r14,%rbp), %xmm1
	por	%xmm0, %xmm1
	pxor	%xmm0, %xmm0
	pcmpeqb	%xmm0, %xmm1
	pmovmskb	%xmm1, %eax
	xorl	$65535, %eax
	jne	.Lframes640_BB0_5
	incq	%r12
	addq	$32, %rbp
	subq	$-128, %rbx
	subq	$-128, %rsi
	subq	$-128, %rdi
	addq	$64, %r8
	subq	$-128, %r13
	cmpq	%r9, %r12
	jb	.Lframes640_BB0_4
	jmp	.Lframes640_BB0_42
	.p2align	4
.Lframes640_BB0_5:
	movdqa	%xmm0, 512(%rsp)
	movdqa	%xmm0, 496(%rsp)
	movdqa	%xmm0, 480(%rsp)
	movdqa	%xmm0, 464(%rsp)
	movdqa	%xmm0, 448(%rsp)
	movdqa	%xmm0, 432(%rsp)
	movdqa	%xmm0, 416(%rsp)
	movdqa	%xmm0, 400(%rsp)
	movdqa	%xmm0, 656(%rsp)
	movdqa	%xmm0, 672(%rsp)
	movdqa	%xmm0, 688(%rsp)
	movdqa	%xmm0, 704(%rsp)
	movdqa	%xmm0, 720(%rsp)
	movdqa	%xmm0, 736(%rsp)
	movdqa	%xmm0, 752(%rsp)
	movdqa	%xmm0, 768(%rsp)
	movdqa	%xmm0, 528(%rsp)
	movdqa	%xmm0, 544(%rsp)
	movdqa	%xmm0, 560(%rsp)
	movdqa	%xmm0, 576(%rsp)
	movdqa	%xmm0, 592(%rsp)
	movdqa	%xmm0, 608(%rsp)
	movdqa	%xmm0, 624(%rsp)
	movdqa	%xmm0, 640(%rsp)
	testb	%r11b, %r11b
	movq	%r15, 24(%rsp)
	movq	%r9, 40(%rsp)
	movq	%r10, 32(%rsp)
	movb	%r11b, 1(%rsp)
	movq	%r14, 216(%rsp)
	movq	%rcx, 368(%rsp)
	movq	%rdx, 360(%rsp)
	je	.Lframes640_BB0_8
	movdqu	(%r15,%rbp,4), %xmm3
	movdqu	16(%r15,%rbp,4), %xmm4
	movdqa	.Lframes640_CPI0_2(%rip), %xmm0
	movdqa	%xmm3, %xmm5
	pand	%xmm0, %xmm5
	movdqa	%xmm4, %xmm6
	pand	%xmm0, %xmm6
	movdqa	.Lframes640_CPI0_3(%rip), %xmm2
	pcmpgtd	%xmm2, %xmm5
	pcmpgtd	%xmm2, %xmm6
	movdqa	.Lframes640_CPI0_4(%rip), %xmm1
	movdqa	%xmm1, %xmm7
	pand	%xmm5, %xmm7
	pandn	%xmm3, %xmm5
	por	%xmm7, %xmm5
	movdqa	%xmm1, %xmm3
	pand	%xmm6, %xmm3
	pandn	%xmm4, %xmm6
	por	%xmm3, %xmm6
	movdqa	%xmm5, 400(%rsp)
	movdqa	%xmm6, 416(%rsp)
	movdqu	32(%r15,%rbp,4), %xmm3
	movdqu	48(%r15,%rbp,4), %xmm4
	movdqa	%xmm3, %xmm5
	pand	%xmm0, %xmm5
	movdqa	%xmm4, %xmm6
	pand	%xmm0, %xmm6
	pcmpgtd	%xmm2, %xmm5
	pcmpgtd	%xmm2, %xmm6
	movdqa	%xmm1, %xmm7
	pand	%xmm5, %xmm7
	pandn	%xmm3, %xmm5
	por	%xmm7, %xmm5
	movdqa	%xmm1, %xmm3
	pand	%xmm6, %xmm3
	pandn	%xmm4, %xmm6
	por	%xmm3, %xmm6
	movdqa	%xmm5, 432(%rsp)
	movdqa	%xmm6, 448(%rsp)
	movdqu	64(%r15,%rbp,4), %xmm3
	movdqu	80(%r15,%rbp,4), %xmm4
	movdqa	%xmm3, %xmm5
	pand	%xmm0, %xmm5
	movdqa	%xmm4, %xmm6
	pand	%xmm0, %xmm6
	pcmpgtd	%xmm2, %xmm5
	pcmpgtd	%xmm2, %xmm6
	movdqa	%xmm1, %xmm7
	pand	%xmm5, %xmm7
	pandn	%xmm3, %xmm5
	por	%xmm7, %xmm5
	movdqa	%xmm1, %xmm3
	pand	%xmm6, %xmm3
	pandn	%xmm4, %xmm6
	por	%xmm3, %xmm6
	movdqa	%xmm5, 464(%rsp)
	movdqa	%xmm6, 480(%rsp)
	movdqu	96(%r15,%rbp,4), %xmm3
	movdqu	112(%r15,%rbp,4), %xmm4
	movdqa	%xmm3, %xmm5
	pand	%xmm0, %xmm5
	pand	%xmm4, %xmm0
	pcmpgtd	%xmm2, %xmm5
	pcmpgtd	%xmm2, %xmm0
	movdqa	%xmm1, %xmm2
	pand	%xmm5, %xmm2
	pandn	%xmm3, %xmm5
	por	%xmm2, %xmm5
	pand	%xmm0, %xmm1
	pandn	%xmm4, %xmm0
	por	%xmm1, %xmm0
	movdqa	%xmm5, 496(%rsp)
	movdqa	%xmm0, 512(%rsp)
	jmp	.Lframes640_BB0_21
.Lframes640_BB0_8:
	testq	%r10, %r10
	je	.Lframes640_BB0_43
	movq	%r12, %rax
	orq	%r10, %rax
	shrq	$32, %rax
	je	.Lframes640_BB0_10
	movq	%r12, %rax
	xorl	%edx, %edx
	divq	%r10
	movq	%rdx, %r10
	testq	%rcx, %rcx
	jne	.Lframes640_BB0_13
	jmp	.Lframes640_BB0_43
.Lframes640_BB0_10:
	movl	%r12d, %eax
	xorl	%edx, %edx
	divl	%r10d
	movl	%edx, %r10d
	testq	%rcx, %rcx
	je	.Lframes640_BB0_43
.Lframes640_BB0_13:
	movq	%r12, %rax
	orq	%rcx, %rax
	shrq	$32, %rax
	je	.Lframes640_BB0_14
	movq	%r12, %rax
	xorl	%edx, %edx
	divq	%rcx
	jmp	.Lframes640_BB0_16
.Lframes640_BB0_14:
	movl	%r12d, %eax
	xorl	%edx, %edx
	divl	%ecx
.Lframes640_BB0_16:
	movq	%r10, %r15
	shlq	$5, %r15
	shlq	$5, %rdx
	cmpb	$0, 3(%rsp)
	movq	%r15, 256(%rsp)
	je	.Lframes640_BB0_19
	xorl	%eax, %eax
	xorl	%r9d, %r9d
	movq	208(%rsp), %r14
	movq	200(%rsp), %rcx
	.p2align	4
.Lframes640_BB0_18:
	movzwl	(%r8,%rax), %r10d
	rolw	$8, %r10w
	movswl	%r10w, %r10d
	xorps	%xmm0, %xmm0
	cvtsi2ss	%r10d, %xmm0
	movl	(%rdi,%rax,2), %r10d
	movl	%r10d, %r11d
	sarl	$16, %r11d
	xorps	%xmm1, %xmm1
	cvtsi2ss	%r11d, %xmm1
	movzwl	%r10w, %r10d
	leaq	(%r9,%r15), %r11
	mulss	.Lframes640_CPI0_5(%rip), %xmm1
	leaq	(%r9,%rdx), %r15
	xorps	%xmm2, %xmm2
	cvtsi2ss	%r10d, %xmm2
	addss	%xmm1, %xmm2
	mulss	%xmm9, %xmm0
	addss	(%rcx,%r15,4), %xmm0
	movq	256(%rsp), %r15
	movss	(%rsi,%rax,2), %xmm1
	mulss	%xmm10, %xmm1
	movss	.Lframes640_CPI0_6(%rip), %xmm3
	addss	%xmm3, %xmm1
	mulss	%xmm2, %xmm1
	movss	(%r14,%r11,4), %xmm2
	mulss	%xmm13, %xmm2
	addss	%xmm3, %xmm2
	mulss	%xmm1, %xmm2
	subss	%xmm2, %xmm0
	divss	%xmm8, %xmm0
	subss	%xmm11, %xmm0
	movss	%xmm0, 400(%rsp,%rax,2)
	incq	%r9
	addq	$2, %rax
	cmpq	$64, %rax
	jne	.Lframes640_BB0_18
	jmp	.Lframes640_BB0_21
.Lframes640_BB0_19:
	xorl	%eax, %eax
	xorl	%r9d, %r9d
	movq	208(%rsp), %r10
	movq	200(%rsp), %r14
	movq	%rdx, %rcx
	movq	%r10, %rdx
	.p2align	4
.Lframes640_BB0_20:
	movzwl	(%r8,%rax), %r10d
	rolw	$8, %r10w
	movswl	%r10w, %r10d
	xorps	%xmm0, %xmm0
	cvtsi2ss	%r10d, %xmm0
	leaq	(%r9,%r15), %r10
	movl	(%rdi,%rax,2), %r11d
	movzwl	%r11w, %r15d
	sarl	$16, %r11d
	xorps	%xmm1, %xmm1
	cvtsi2ss	%r11d, %xmm1
	leaq	(%r9,%rcx), %r11
	xorps	%xmm2, %xmm2
	cvtsi2ss	%r15d, %xmm2
	movq	256(%rsp), %r15
	mulss	.Lframes640_CPI0_5(%rip), %xmm1
	addss	%xmm1, %xmm2
	movss	(%rsi,%rax,2), %xmm1
	mulss	%xmm10, %xmm1
	addss	.Lframes640_CPI0_6(%rip), %xmm1
	mulss	%xmm2, %xmm1
	movss	(%rdx,%r10,4), %xmm2
	unpcklps	%xmm2, %xmm0
	mulps	%xmm12, %xmm0
	movss	(%r14,%r11,4), %xmm2
	movaps	.Lframes640_CPI0_7(%rip), %xmm3
	movss	%xmm2, %xmm3
	addps	%xmm0, %xmm3
	movaps	%xmm3, %xmm0
	shufps	$85, %xmm3, %xmm0
	mulss	%xmm1, %xmm0
	subss	%xmm0, %xmm3
	divss	%xmm8, %xmm3
	movss	%xmm3, 400(%rsp,%rax,2)
	incq	%r9
	addq	$2, %rax
	cmpq	$64, %rax
	jne	.Lframes640_BB0_20
	.p2align	4
.Lframes640_BB0_21:
	pxor	%xmm0, %xmm0
	movdqa	%xmm0, 176(%rsp)
	movdqa	%xmm0, 160(%rsp)
	movdqa	%xmm0, 144(%rsp)
	movdqa	%xmm0, 128(%rsp)
	movdqa	%xmm0, 112(%rsp)
	movdqa	%xmm0, 96(%rsp)
	movdqa	%xmm0, 80(%rsp)
	movdqa	%xmm0, 64(%rsp)
	movl	60(%rsp), %eax
	cmpl	$2, %eax
	movss	%xmm8, 20(%rsp)
	movss	%xmm11, 16(%rsp)
	je	.Lframes640_BB0_27
	cmpl	$1, %eax
	movq	216(%rsp), %r14
	jne	.Lframes640_BB0_23
	leaq	224(%rsp), %rdi
	leaq	400(%rsp), %rcx
	leaq	64(%rsp), %r8
	movq	48(%rsp), %rsi
	movq	%rbp, %rdx
	movaps	%xmm9, 304(%rsp)
	movss	%xmm10, 4(%rsp)
	movaps	%xmm12, 288(%rsp)
	movaps	%xmm13, 272(%rsp)
	callq	loamchalice.frames640.pixels.temperature_block
	movaps	272(%rsp), %xmm13
	movaps	288(%rsp), %xmm12
	movss	4(%rsp), %xmm10
	movaps	304(%rsp), %xmm9
	xorl	%eax, %eax
	movq	24(%rsp), %r15
	movq	40(%rsp), %r9
	movq	32(%rsp), %r10
	movzbl	1(%rsp), %r11d
	.p2align	4
.Lframes640_BB0_26:
	movd	64(%rsp,%rax,4), %xmm0
	movd	68(%rsp,%rax,4), %xmm1
	movd	%xmm0, %ecx
	xorl	%edx, %edx
	ucomiss	%xmm0, %xmm0
	setp	%dl
	movl	$2143289344, %esi
	cmovpl	%esi, %ecx
	movl	%ecx, 656(%rsp,%rax,4)
	movd	%xmm1, %ecx
	xorl	%edi, %edi
	ucomiss	%xmm1, %xmm1
	movl	%edx, 528(%rsp,%rax,4)
	setp	%dil
	cmovpl	%esi, %ecx
	movl	%ecx, 660(%rsp,%rax,4)
	movl	%edi, 532(%rsp,%rax,4)
	addq	$2, %rax
	cmpq	$32, %rax
	jne	.Lframes640_BB0_26
	jmp	.Lframes640_BB0_38
.Lframes640_BB0_27:
	movaps	%xmm13, 272(%rsp)
	movaps	%xmm12, 288(%rsp)
	movss	%xmm10, 4(%rsp)
	movaps	%xmm9, 304(%rsp)
	movdqa	%xmm0, 784(%rsp)
	movdqa	%xmm0, 800(%rsp)
	movdqa	%xmm0, 816(%rsp)
	movdqa	%xmm0, 832(%rsp)
	movdqa	%xmm0, 848(%rsp)
	movdqa	%xmm0, 864(%rsp)
	movdqa	%xmm0, 880(%rsp)
	movdqa	%xmm0, 896(%rsp)
	movdqa	%xmm0, 960(%rsp)
	movdqa	%xmm0, 976(%rsp)
	movdqa	%xmm0, 992(%rsp)
	movdqa	%xmm0, 1008(%rsp)
	movdqa	%xmm0, 1024(%rsp)
	movdqa	%xmm0, 1040(%rsp)
	movdqa	%xmm0, 1056(%rsp)
	movdqa	%xmm0, 1072(%rsp)
	leaq	224(%rsp), %rdi
	leaq	400(%rsp), %rcx
	leaq	64(%rsp), %r8
	movq	48(%rsp), %rsi
	movq	%rbp, %rdx
	callq	loamchalice.frames640.pixels.temperature_block
	movq	328(%rsp), %rdx
	testq	%rdx, %rdx
	movq	216(%rsp), %r14
	movq	352(%rsp), %rsi
	movq	344(%rsp), %rdi
	movq	336(%rsp), %r8
	je	.Lframes640_BB0_31
	movss	64(%rsp), %xmm2
	movss	68(%rsp), %xmm0
	unpcklps	%xmm0, %xmm2
	movss	72(%rsp), %xmm0
	movss	76(%rsp), %xmm1
	unpcklps	%xmm1, %xmm0
	movlhps	%xmm0, %xmm2
	movaps	%xmm2, 256(%rsp)
	movss	80(%rsp), %xmm2
	movss	84(%rsp), %xmm0
	unpcklps	%xmm0, %xmm2
	movss	88(%rsp), %xmm0
	movss	92(%rsp), %xmm1
	unpcklps	%xmm1, %xmm0
	movlhps	%xmm0, %xmm2
	movaps	%xmm2, 944(%rsp)
	movss	96(%rsp), %xmm2
	movss	100(%rsp), %xmm0
	unpcklps	%xmm0, %xmm2
	movss	104(%rsp), %xmm0
	movss	108(%rsp), %xmm1
	unpcklps	%xmm1, %xmm0
	movlhps	%xmm0, %xmm2
	movaps	%xmm2, 928(%rsp)
	movss	112(%rsp), %xmm2
	movss	116(%rsp), %xmm0
	punpckldq	%xmm0, %xmm2
	movss	120(%rsp), %xmm0
	movss	124(%rsp), %xmm1
	punpckldq	%xmm1, %xmm0
	punpcklqdq	%xmm0, %xmm2
	movdqa	%xmm2, 912(%rsp)
	movss	128(%rsp), %xmm4
	movss	132(%rsp), %xmm0
	unpcklps	%xmm0, %xmm4
	movss	136(%rsp), %xmm0
	movss	140(%rsp), %xmm1
	unpcklps	%xmm1, %xmm0
	movlhps	%xmm0, %xmm4
	movss	144(%rsp), %xmm5
	movss	148(%rsp), %xmm0
	unpcklps	%xmm0, %xmm5
	movss	152(%rsp), %xmm0
	movss	156(%rsp), %xmm1
	unpcklps	%xmm1, %xmm0
	movlhps	%xmm0, %xmm5
	movss	160(%rsp), %xmm6
	movss	164(%rsp), %xmm0
	unpcklps	%xmm0, %xmm6
	movss	168(%rsp), %xmm0
	movss	172(%rsp), %xmm1
	unpcklps	%xmm1, %xmm0
	movlhps	%xmm0, %xmm6
	movss	176(%rsp), %xmm7
	movss	180(%rsp), %xmm0
	unpcklps	%xmm0, %xmm7
	movss	184(%rsp), %xmm0
	movss	188(%rsp), %xmm1
	unpcklps	%xmm1, %xmm0
	movlhps	%xmm0, %xmm7
	xorps	%xmm8, %xmm8
	xorl	%eax, %eax
	xorps	%xmm9, %xmm9
	xorps	%xmm10, %xmm10
	xorps	%xmm11, %xmm11
	xorps	%xmm12, %xmm12
	xorps	%xmm13, %xmm13
	pxor	%xmm14, %xmm14
	pxor	%xmm2, %xmm2
	.p2align	4
.Lframes640_BB0_29:
	movswl	(%rsi,%rax,2), %ecx
	xorps	%xmm0, %xmm0
	cvtsi2ss	%ecx, %xmm0
	shufps	$0, %xmm0, %xmm0
	movaps	%xmm0, %xmm15
	cmpleps	256(%rsp), %xmm15
	movd	%eax, %xmm1
	pshufd	$0, %xmm1, %xmm3
	movdqa	%xmm3, %xmm1
	pand	%xmm15, %xmm1
	andnps	%xmm8, %xmm15
	movaps	%xmm15, %xmm8
	orps	%xmm1, %xmm8
	movaps	%xmm0, %xmm1
	cmpleps	944(%rsp), %xmm1
	movdqa	%xmm3, %xmm15
	pand	%xmm1, %xmm15
	andnps	%xmm9, %xmm1
	movaps	%xmm1, %xmm9
	orps	%xmm15, %xmm9
	movaps	%xmm0, %xmm1
	cmpleps	928(%rsp), %xmm1
	movdqa	%xmm3, %xmm15
	pand	%xmm1, %xmm15
	andnps	%xmm10, %xmm1
	movaps	%xmm1, %xmm10
	orps	%xmm15, %xmm10
	movaps	%xmm0, %xmm1
	cmpleps	912(%rsp), %xmm1
	movdqa	%xmm3, %xmm15
	pand	%xmm1, %xmm15
	andnps	%xmm11, %xmm1
	movaps	%xmm1, %xmm11
	orps	%xmm15, %xmm11
	movaps	%xmm0, %xmm1
	cmpleps	%xmm4, %xmm1
	movdqa	%xmm3, %xmm15
	pand	%xmm1, %xmm15
	andnps	%xmm12, %xmm1
	movaps	%xmm1, %xmm12
	orps	%xmm15, %xmm12
	movaps	%xmm0, %xmm1
	cmpleps	%xmm5, %xmm1
	movdqa	%xmm3, %xmm15
	pand	%xmm1, %xmm15
	andnps	%xmm13, %xmm1
	movaps	%xmm1, %xmm13
	orps	%xmm15, %xmm13
	movaps	%xmm0, %xmm1
	cmpleps	%xmm6, %xmm1
	movdqa	%xmm3, %xmm15
	pand	%xmm1, %xmm15
	pandn	%xmm14, %xmm1
	movdqa	%xmm1, %xmm14
	por	%xmm15, %xmm14
	cmpleps	%xmm7, %xmm0
	pand	%xmm0, %xmm3
	pandn	%xmm2, %xmm0
	movdqa	%xmm0, %xmm2
	por	%xmm3, %xmm2
	incq	%rax
	cmpq	%rax, %rdx
	jne	.Lframes640_BB0_29
	movaps	%xmm8, 784(%rsp)
	movaps	%xmm9, 800(%rsp)
	movaps	%xmm10, 816(%rsp)
	movaps	%xmm11, 832(%rsp)
	movaps	%xmm12, 848(%rsp)
	movaps	%xmm13, 864(%rsp)
	movdqa	%xmm14, 880(%rsp)
	movdqa	%xmm2, 896(%rsp)
.Lframes640_BB0_31:
	cmpb	$0, 2(%rsp)
	je	.Lframes640_BB0_34
	xorl	%eax, %eax
	movq	24(%rsp), %r15
	movss	56(%rsp), %xmm4
	movss	12(%rsp), %xmm5
	movss	8(%rsp), %xmm6
	.p2align	4
.Lframes640_BB0_33:
	movl	784(%rsp,%rax,4), %ecx
	movss	(%r13,%rax,4), %xmm0
	subss	%xmm4, %xmm0
	movswl	(%rsi,%rcx,2), %edx
	xorps	%xmm1, %xmm1
	cvtsi2ss	%edx, %xmm1
	mulss	%xmm5, %xmm0
	movss	400(%rsp,%rax,4), %xmm2
	movss	64(%rsp,%rax,4), %xmm3
	subss	%xmm1, %xmm3
	mulss	(%r8,%rcx,4), %xmm0
	mulss	(%rdi,%rcx,4), %xmm3
	addss	.Lframes640_CPI0_6(%rip), %xmm3
	mulss	%xmm0, %xmm3
	divss	%xmm3, %xmm2
	addss	%xmm6, %xmm2
	movss	%xmm2, 960(%rsp,%rax,4)
	incq	%rax
	cmpq	$32, %rax
	jne	.Lframes640_BB0_33
	jmp	.Lframes640_BB0_36
.Lframes640_BB0_23:
	xorl	%eax, %eax
	movq	24(%rsp), %r15
	movq	40(%rsp), %r9
	movq	32(%rsp), %r10
	movzbl	1(%rsp), %r11d
	.p2align	4
.Lframes640_BB0_24:
	movd	400(%rsp,%rax,4), %xmm0
	movd	404(%rsp,%rax,4), %xmm1
	movd	%xmm0, %ecx
	xorl	%edx, %edx
	ucomiss	%xmm0, %xmm0
	setp	%dl
	movl	$2143289344, %esi
	cmovpl	%esi, %ecx
	movl	%ecx, 656(%rsp,%rax,4)
	movd	%xmm1, %ecx
	xorl	%edi, %edi
	ucomiss	%xmm1, %xmm1
	movl	%edx, 528(%rsp,%rax,4)
	setp	%dil
	cmovpl	%esi, %ecx
	movl	%ecx, 660(%rsp,%rax,4)
	movl	%edi, 532(%rsp,%rax,4)
	addq	$2, %rax
	cmpq	$32, %rax
	jne	.Lframes640_BB0_24
	jmp	.Lframes640_BB0_38
.Lframes640_BB0_34:
	xorl	%eax, %eax
	movq	24(%rsp), %r15
	movss	12(%rsp), %xmm4
	movss	8(%rsp), %xmm5
	.p2align	4
.Lframes640_BB0_35:
	movl	784(%rsp,%rax,4), %ecx
	movss	(%r13,%rax,4), %xmm0
	movswl	(%rsi,%rcx,2), %edx
	xorps	%xmm1, %xmm1
	cvtsi2ss	%edx, %xmm1
	mulss	%xmm4, %xmm0
	movss	400(%rsp,%rax,4), %xmm2
	movss	64(%rsp,%rax,4), %xmm3
	subss	%xmm1, %xmm3
	mulss	(%r8,%rcx,4), %xmm0
	mulss	(%rdi,%rcx,4), %xmm3
	addss	.Lframes640_CPI0_6(%rip), %xmm3
	mulss	%xmm0, %xmm3
	divss	%xmm3, %xmm2
	addss	%xmm5, %xmm2
	movss	%xmm2, 960(%rsp,%rax,4)
	incq	%rax
	cmpq	$32, %rax
	jne	.Lframes640_BB0_35
.Lframes640_BB0_36:
	leaq	960(%rsp), %rdi
	leaq	64(%rsp), %rsi
	callq	loamchalice.frames640.pixels.degrees_block
	xorl	%eax, %eax
	movq	40(%rsp), %r9
	movq	32(%rsp), %r10
	movzbl	1(%rsp), %r11d
	movaps	304(%rsp), %xmm9
	movss	4(%rsp), %xmm10
	movaps	288(%rsp), %xmm12
	movaps	272(%rsp), %xmm13
	.p2align	4
.Lframes640_BB0_37:
	movd	64(%rsp,%rax,4), %xmm0
	movd	68(%rsp,%rax,4), %xmm1
	movd	%xmm0, %ecx
	xorl	%edx, %edx
	ucomiss	%xmm0, %xmm0
	setp	%dl
	movl	$2143289344, %esi
	cmovpl	%esi, %ecx
	movl	%ecx, 656(%rsp,%rax,4)
	movd	%xmm1, %ecx
	xorl	%edi, %edi
	ucomiss	%xmm1, %xmm1
	movl	%edx, 528(%rsp,%rax,4)
	setp	%dil
	cmovpl	%esi, %ecx
	movl	%ecx, 660(%rsp,%rax,4)
	movl	%edi, 532(%rsp,%rax,4)
	addq	$2, %rax
	cmpq	$32, %rax
	jne	.Lframes640_BB0_37
.Lframes640_BB0_38:
	leaq	128(%rbx), %rcx
	leaq	(%r14,%rbp), %rax
	leaq	(%r14,%rbp), %rdx
	addq	$32, %rdx
	cmpq	%rdx, %rbx
	setae	%dl
	cmpq	%rcx, %rax
	setae	%cl
	orb	%dl, %cl
	jne	.Lframes640_BB0_44
	xorl	%edx, %edx
	xorl	%ecx, %ecx
	xorl	%esi, %esi
	movss	20(%rsp), %xmm8
	movss	16(%rsp), %xmm11
	.p2align	4
.Lframes640_BB0_40:
	cmpb	$0, (%rax,%rsi)
	leaq	656(%rsp,%rsi,4), %rdi
	leaq	(%rbx,%rsi,4), %r8
	cmovneq	%rdi, %r8
	movl	(%r8), %edi
	movl	%edi, (%rbx,%rsi,4)
	movl	528(%rsp,%rsi,4), %edi
	cmovel	%edx, %edi
	addl	%edi, %ecx
	incq	%rsi
	cmpq	$32, %rsi
	jne	.Lframes640_BB0_40
	jmp	.Lframes640_BB0_41
	.p2align	4
.Lframes640_BB0_44:
	movd	(%r14,%rbp), %xmm4
	movd	4(%r14,%rbp), %xmm3
	punpcklbw	%xmm4, %xmm4
	punpcklwd	%xmm4, %xmm4
	xorps	%xmm0, %xmm0
	pcmpeqb	%xmm0, %xmm4
	punpcklbw	%xmm3, %xmm3
	punpcklwd	%xmm3, %xmm3
	pcmpeqb	%xmm0, %xmm3
	movdqu	(%r15,%rbp,4), %xmm1
	movdqu	16(%r15,%rbp,4), %xmm2
	movdqu	32(%r15,%rbp,4), %xmm6
	movdqu	48(%r15,%rbp,4), %xmm5
	pand	%xmm4, %xmm1
	movdqa	%xmm4, %xmm7
	pandn	656(%rsp), %xmm7
	por	%xmm1, %xmm7
	movdqa	%xmm3, %xmm1
	pandn	672(%rsp), %xmm1
	pand	%xmm3, %xmm2
	por	%xmm2, %xmm1
	movdqu	%xmm7, (%r15,%rbp,4)
	movdqu	%xmm1, 16(%r15,%rbp,4)
	pandn	528(%rsp), %xmm4
	pandn	544(%rsp), %xmm3
	movd	8(%r14,%rbp), %xmm2
	movd	12(%r14,%rbp), %xmm1
	punpcklbw	%xmm2, %xmm2
	punpcklwd	%xmm2, %xmm2
	pcmpeqb	%xmm0, %xmm2
	punpcklbw	%xmm1, %xmm1
	punpcklwd	%xmm1, %xmm1
	pcmpeqb	%xmm0, %xmm1
	pand	%xmm2, %xmm6
	movdqa	%xmm2, %xmm7
	pandn	688(%rsp), %xmm7
	por	%xmm6, %xmm7
	movdqa	%xmm1, %xmm6
	pandn	704(%rsp), %xmm6
	pand	%xmm1, %xmm5
	por	%xmm5, %xmm6
	movdqu	%xmm7, 32(%r15,%rbp,4)
	movdqu	%xmm6, 48(%r15,%rbp,4)
	pandn	560(%rsp), %xmm2
	pandn	576(%rsp), %xmm1
	paddd	%xmm4, %xmm2
	paddd	%xmm3, %xmm1
	movd	16(%r14,%rbp), %xmm4
	movd	20(%r14,%rbp), %xmm3
	punpcklbw	%xmm4, %xmm4
	punpcklwd	%xmm4, %xmm4
	pcmpeqb	%xmm0, %xmm4
	punpcklbw	%xmm3, %xmm3
	punpcklwd	%xmm3, %xmm3
	pcmpeqb	%xmm0, %xmm3
	movdqu	64(%r15,%rbp,4), %xmm5
	movdqu	80(%r15,%rbp,4), %xmm6
	pand	%xmm4, %xmm5
	movdqa	%xmm4, %xmm7
	pandn	720(%rsp), %xmm7
	por	%xmm5, %xmm7
	movdqa	%xmm3, %xmm5
	pandn	736(%rsp), %xmm5
	pand	%xmm3, %xmm6
	por	%xmm6, %xmm5
	movdqu	%xmm7, 64(%r15,%rbp,4)
	movdqu	%xmm5, 80(%r15,%rbp,4)
	pandn	592(%rsp), %xmm4
	pandn	608(%rsp), %xmm3
	movd	24(%r14,%rbp), %xmm6
	movd	28(%r14,%rbp), %xmm5
	punpcklbw	%xmm6, %xmm6
	punpcklwd	%xmm6, %xmm6
	pcmpeqb	%xmm0, %xmm6
	punpcklbw	%xmm5, %xmm5
	punpcklwd	%xmm5, %xmm5
	pcmpeqb	%xmm0, %xmm5
	movdqu	96(%r15,%rbp,4), %xmm0
	movdqu	112(%r15,%rbp,4), %xmm7
	pand	%xmm6, %xmm0
	movdqa	%xmm6, %xmm8
	pandn	752(%rsp), %xmm8
	por	%xmm0, %xmm8
	pand	%xmm5, %xmm7
	movdqa	%xmm5, %xmm0
	pandn	768(%rsp), %xmm0
	por	%xmm7, %xmm0
	movdqu	%xmm8, 96(%r15,%rbp,4)
	movdqu	%xmm0, 112(%r15,%rbp,4)
	pandn	624(%rsp), %xmm6
	paddd	%xmm4, %xmm6
	paddd	%xmm2, %xmm6
	pandn	640(%rsp), %xmm5
	paddd	%xmm3, %xmm5
	paddd	%xmm1, %xmm5
	paddd	%xmm6, %xmm5
	pshufd	$238, %xmm5, %xmm0
	paddd	%xmm5, %xmm0
	pshufd	$85, %xmm0, %xmm1
	paddd	%xmm0, %xmm1
	movd	%xmm1, %ecx
	movss	20(%rsp), %xmm8
	movss	16(%rsp), %xmm11
.Lframes640_BB0_41:
	movl	%ecx, %eax
	movq	360(%rsp), %rdx
	addq	%rax, %rdx
	incq	%r12
	cmpq	%r9, %r12
	movq	376(%rsp), %r8
	movq	368(%rsp), %rcx
	jb	.Lframes640_BB0_3
	jmp	.Lframes640_BB0_42
.Lframes640_BB0_1:
	xorl	%edx, %edx
.Lframes640_BB0_42:
	movq	%rdx, %rax
	addq	$1096, %rsp
	popq	%rbx
	popq	%r12
	popq	%r13
	popq	%r14
	popq	%r15
	popq	%rbp
	retq
.Lframes640_BB0_43:
	ud2
.Lframes640_func_end0:
	.size	loamchalice.frames640.pixels.frame_pixels, .Lframes640_func_end0-loamchalice.frames640.pixels.frame_pixels

	.section	.text.frames640.pixels.temperature_block,"ax",@progbits
	.p2align	4
	.type	loamchalice.frames640.pixels.temperature_block,@function
loamchalice.frames640.pixels.temperature_block:
	pushq	%r15
	pushq	%r14
	pushq	%r12
	pushq	%rbx
	subq	$216, %rsp
	movq	%r8, %rbx
	movq	%rcx, %r14
	movq	%rdx, %r15
	movq	%rsi, %r12
	movss	4(%rdi), %xmm3
	movss	8(%rdi), %xmm2
	movss	12(%rdi), %xmm1
	movss	16(%rdi), %xmm0
	movaps	%xmm0, 160(%rsp)
	movss	20(%rdi), %xmm0
	movaps	%xmm0, 176(%rsp)
	cmpb	$0, (%rdi)
	xorps	%xmm0, %xmm0
	movaps	%xmm0, 112(%rsp)
	movaps	%xmm0, 96(%rsp)
	movaps	%xmm0, 80(%rsp)
	movaps	%xmm0, 64(%rsp)
	movaps	%xmm0, 48(%rsp)
	movaps	%xmm0, 32(%rsp)
	movaps	%xmm0, 16(%rsp)
	movaps	%xmm0, (%rsp)
	shufps	$0, %xmm1, %xmm1
	shufps	$0, %xmm2, %xmm2
	je	.Lframes640_BB1_2
	shufps	$0, %xmm3, %xmm3
	movaps	%xmm3, 192(%rsp)
	movups	(%r12,%r15,4), %xmm0
	subps	%xmm3, %xmm0
	mulps	%xmm2, %xmm0
	movaps	%xmm1, %xmm4
	movups	(%r14), %xmm1
	movaps	%xmm2, %xmm5
	movaps	%xmm0, %xmm2
	mulps	%xmm0, %xmm2
	mulps	%xmm2, %xmm0
	mulps	%xmm1, %xmm0
	mulps	%xmm2, %xmm2
	mulps	%xmm4, %xmm2
	addps	%xmm0, %xmm2
	movaps	%xmm2, (%rsp)
	movups	16(%r12,%r15,4), %xmm0
	subps	%xmm3, %xmm0
	mulps	%xmm5, %xmm0
	movups	16(%r14), %xmm1
	movaps	%xmm0, %xmm2
	mulps	%xmm0, %xmm2
	mulps	%xmm2, %xmm0
	mulps	%xmm1, %xmm0
	mulps	%xmm2, %xmm2
	mulps	%xmm4, %xmm2
	addps	%xmm0, %xmm2
	movaps	%xmm2, 16(%rsp)
	movups	32(%r12,%r15,4), %xmm0
	subps	%xmm3, %xmm0
	mulps	%xmm5, %xmm0
	movups	32(%r14), %xmm1
	movaps	%xmm0, %xmm2
	mulps	%xmm0, %xmm2
	mulps	%xmm2, %xmm0
	mulps	%xmm1, %xmm0
	mulps	%xmm2, %xmm2
	mulps	%xmm4, %xmm2
	addps	%xmm0, %xmm2
	movaps	%xmm2, 32(%rsp)
	movups	48(%r12,%r15,4), %xmm0
	subps	%xmm3, %xmm0
	mulps	%xmm5, %xmm0
	movups	48(%r14), %xmm1
	movaps	%xmm0, %xmm2
	mulps	%xmm0, %xmm2
	mulps	%xmm2, %xmm0
	mulps	%xmm1, %xmm0
	mulps	%xmm2, %xmm2
	mulps	%xmm4, %xmm2
	addps	%xmm0, %xmm2
	movaps	%xmm2, 48(%rsp)
	movups	64(%r12,%r15,4), %xmm0
	subps	%xmm3, %xmm0
	mulps	%xmm5, %xmm0
	movups	64(%r14), %xmm1
	movaps	%xmm0, %xmm2
	mulps	%xmm0, %xmm2
	mulps	%xmm2, %xmm0
	mulps	%xmm1, %xmm0
	mulps	%xmm2, %xmm2
	mulps	%xmm4, %xmm2
	addps	%xmm0, %xmm2
	movaps	%xmm2, 64(%rsp)
	movups	80(%r12,%r15,4), %xmm0
	subps	%xmm3, %xmm0
	mulps	%xmm5, %xmm0
	movups	80(%r14), %xmm1
	movaps	%xmm0, %xmm2
	mulps	%xmm0, %xmm2
	mulps	%xmm2, %xmm0
	mulps	%xmm1, %xmm0
	mulps	%xmm2, %xmm2
	movaps	%xmm4, 144(%rsp)
	mulps	%xmm4, %xmm2
	addps	%xmm0, %xmm2
	movaps	%xmm2, 80(%rsp)
	movups	96(%r12,%r15,4), %xmm0
	subps	%xmm3, %xmm0
	mulps	%xmm5, %xmm0
	movaps	%xmm5, 128(%rsp)
	movups	96(%r14), %xmm1
	movaps	%xmm0, %xmm2
	mulps	%xmm0, %xmm2
	mulps	%xmm2, %xmm0
	mulps	%xmm1, %xmm0
	mulps	%xmm2, %xmm2
	mulps	%xmm4, %xmm2
	addps	%xmm0, %xmm2
	movaps	%xmm2, 96(%rsp)
	movups	112(%r12,%r15,4), %xmm0
	subps	%xmm3, %xmm0
	mulps	%xmm5, %xmm0
	movups	112(%r14), %xmm1
	movaps	%xmm0, %xmm2
	mulps	%xmm0, %xmm2
	mulps	%xmm2, %xmm0
	mulps	%xmm1, %xmm0
	mulps	%xmm2, %xmm2
	mulps	%xmm4, %xmm2
	addps	%xmm0, %xmm2
	movaps	%xmm2, 112(%rsp)
	movq	%rsp, %rdi
	movq	%rbx, %rsi
	callq	loamchalice.frames640.roots.fourth_roots
	movaps	176(%rsp), %xmm3
	shufps	$0, %xmm3, %xmm3
	movaps	160(%rsp), %xmm4
	shufps	$0, %xmm4, %xmm4
	movups	(%r12,%r15,4), %xmm0
	movaps	192(%rsp), %xmm7
	subps	%xmm7, %xmm0
	movaps	128(%rsp), %xmm6
	mulps	%xmm6, %xmm0
	movups	(%r14), %xmm1
	movups	(%rbx), %xmm2
	mulps	%xmm4, %xmm2
	mulps	%xmm3, %xmm0
	addps	%xmm2, %xmm0
	divps	%xmm0, %xmm1
	movaps	144(%rsp), %xmm5
	addps	%xmm5, %xmm1
	movaps	%xmm1, (%rsp)
	movups	16(%r12,%r15,4), %xmm0
	subps	%xmm7, %xmm0
	mulps	%xmm6, %xmm0
	movups	16(%r14), %xmm1
	movups	16(%rbx), %xmm2
	mulps	%xmm4, %xmm2
	mulps	%xmm3, %xmm0
	addps	%xmm2, %xmm0
	divps	%xmm0, %xmm1
	addps	%xmm5, %xmm1
	movaps	%xmm1, 16(%rsp)
	movups	32(%r12,%r15,4), %xmm0
	subps	%xmm7, %xmm0
	mulps	%xmm6, %xmm0
	movups	32(%r14), %xmm1
	movups	32(%rbx), %xmm2
	mulps	%xmm4, %xmm2
	mulps	%xmm3, %xmm0
	addps	%xmm2, %xmm0
	divps	%xmm0, %xmm1
	addps	%xmm5, %xmm1
	movaps	%xmm1, 32(%rsp)
	movups	48(%r12,%r15,4), %xmm0
	subps	%xmm7, %xmm0
	mulps	%xmm6, %xmm0
	movups	48(%r14), %xmm1
	movups	48(%rbx), %xmm2
	mulps	%xmm4, %xmm2
	mulps	%xmm3, %xmm0
	addps	%xmm2, %xmm0
	divps	%xmm0, %xmm1
	addps	%xmm5, %xmm1
	movaps	%xmm1, 48(%rsp)
	movups	64(%r12,%r15,4), %xmm0
	subps	%xmm7, %xmm0
	mulps	%xmm6, %xmm0
	movups	64(%r14), %xmm1
	movups	64(%rbx), %xmm2
	mulps	%xmm4, %xmm2
	mulps	%xmm3, %xmm0
	addps	%xmm2, %xmm0
	divps	%xmm0, %xmm1
	addps	%xmm5, %xmm1
	movaps	%xmm1, 64(%rsp)
	movups	80(%r12,%r15,4), %xmm0
	subps	%xmm7, %xmm0
	mulps	%xmm6, %xmm0
	movups	80(%r14), %xmm1
	movups	80(%rbx), %xmm2
	mulps	%xmm4, %xmm2
	mulps	%xmm3, %xmm0
	addps	%xmm2, %xmm0
	divps	%xmm0, %xmm1
	addps	%xmm5, %xmm1
	movaps	%xmm1, 80(%rsp)
	movups	96(%r12,%r15,4), %xmm0
	subps	%xmm7, %xmm0
	mulps	%xmm6, %xmm0
	movups	96(%r14), %xmm1
	movups	96(%rbx), %xmm2
	mulps	%xmm4, %xmm2
	mulps	%xmm3, %xmm0
	addps	%xmm2, %xmm0
	divps	%xmm0, %xmm1
	addps	%xmm5, %xmm1
	movaps	%xmm1, 96(%rsp)
	movups	112(%r12,%r15,4), %xmm0
	subps	%xmm7, %xmm0
	jmp	.Lframes640_BB1_3
.Lframes640_BB1_2:
	movups	(%r12,%r15,4), %xmm0
	mulps	%xmm2, %xmm0
	movaps	%xmm1, %xmm3
	movups	(%r14), %xmm1
	movaps	%xmm2, %xmm4
	movaps	%xmm0, %xmm2
	mulps	%xmm0, %xmm2
	mulps	%xmm2, %xmm0
	mulps	%xmm1, %xmm0
	mulps	%xmm2, %xmm2
	mulps	%xmm3, %xmm2
	addps	%xmm0, %xmm2
	movaps	%xmm2, (%rsp)
	movups	16(%r12,%r15,4), %xmm0
	mulps	%xmm4, %xmm0
	movups	16(%r14), %xmm1
	movaps	%xmm0, %xmm2
	mulps	%xmm0, %xmm2
	mulps	%xmm2, %xmm0
	mulps	%xmm1, %xmm0
	mulps	%xmm2, %xmm2
	mulps	%xmm3, %xmm2
	addps	%xmm0, %xmm2
	movaps	%xmm2, 16(%rsp)
	movups	32(%r12,%r15,4), %xmm0
	mulps	%xmm4, %xmm0
	movups	32(%r14), %xmm1
	movaps	%xmm0, %xmm2
	mulps	%xmm0, %xmm2
	mulps	%xmm2, %xmm0
	mulps	%xmm1, %xmm0
	mulps	%xmm2, %xmm2
	mulps	%xmm3, %xmm2
	addps	%xmm0, %xmm2
	movaps	%xmm2, 32(%rsp)
	movups	48(%r12,%r15,4), %xmm0
	movaps	%xmm4, 128(%rsp)
	mulps	%xmm4, %xmm0
	movups	48(%r14), %xmm1
	movaps	%xmm0, %xmm2
	mulps	%xmm0, %xmm2
	mulps	%xmm2, %xmm0
	mulps	%xmm1, %xmm0
	mulps	%xmm2, %xmm2
	mulps	%xmm3, %xmm2
	addps	%xmm0, %xmm2
	movaps	%xmm2, 48(%rsp)
	movups	64(%r12,%r15,4), %xmm0
	mulps	%xmm4, %xmm0
	movups	64(%r14), %xmm1
	movaps	%xmm0, %xmm2
	mulps	%xmm0, %xmm2
	mulps	%xmm2, %xmm0
	mulps	%xmm1, %xmm0
	mulps	%xmm2, %xmm2
	mulps	%xmm3, %xmm2
	addps	%xmm0, %xmm2
	movaps	%xmm2, 64(%rsp)
	movups	80(%r12,%r15,4), %xmm0
	mulps	%xmm4, %xmm0
	movups	80(%r14), %xmm1
	movaps	%xmm0, %xmm2
	mulps	%xmm0, %xmm2
	mulps	%xmm2, %xmm0
	mulps	%xmm1, %xmm0
	mulps	%xmm2, %xmm2
	mulps	%xmm3, %xmm2
	addps	%xmm0, %xmm2
	movaps	%xmm2, 80(%rsp)
	movups	96(%r12,%r15,4), %xmm0
	mulps	%xmm4, %xmm0
	movups	96(%r14), %xmm1
	movaps	%xmm0, %xmm2
	mulps	%xmm0, %xmm2
	mulps	%xmm2, %xmm0
	mulps	%xmm1, %xmm0
	mulps	%xmm2, %xmm2
	mulps	%xmm3, %xmm2
	movaps	%xmm3, 144(%rsp)
	addps	%xmm0, %xmm2
	movaps	%xmm2, 96(%rsp)
	movups	112(%r12,%r15,4), %xmm0
	mulps	%xmm4, %xmm0
	movups	112(%r14), %xmm1
	movaps	%xmm0, %xmm2
	mulps	%xmm0, %xmm2
	mulps	%xmm2, %xmm0
	mulps	%xmm1, %xmm0
	mulps	%xmm2, %xmm2
	mulps	%xmm3, %xmm2
	addps	%xmm0, %xmm2
	movaps	%xmm2, 112(%rsp)
	movq	%rsp, %rdi
	movq	%rbx, %rsi
	callq	loamchalice.frames640.roots.fourth_roots
	movaps	176(%rsp), %xmm3
	shufps	$0, %xmm3, %xmm3
	movaps	160(%rsp), %xmm4
	shufps	$0, %xmm4, %xmm4
	movups	(%r12,%r15,4), %xmm0
	movaps	128(%rsp), %xmm6
	mulps	%xmm6, %xmm0
	movups	(%r14), %xmm1
	movups	(%rbx), %xmm2
	mulps	%xmm4, %xmm2
	mulps	%xmm3, %xmm0
	addps	%xmm2, %xmm0
	divps	%xmm0, %xmm1
	movaps	144(%rsp), %xmm5
	addps	%xmm5, %xmm1
	movaps	%xmm1, (%rsp)
	movups	16(%r12,%r15,4), %xmm0
	mulps	%xmm6, %xmm0
	movups	16(%r14), %xmm1
	movups	16(%rbx), %xmm2
	mulps	%xmm4, %xmm2
	mulps	%xmm3, %xmm0
	addps	%xmm2, %xmm0
	divps	%xmm0, %xmm1
	addps	%xmm5, %xmm1
	movaps	%xmm1, 16(%rsp)
	movups	32(%r12,%r15,4), %xmm0
	mulps	%xmm6, %xmm0
	movups	32(%r14), %xmm1
	movups	32(%rbx), %xmm2
	mulps	%xmm4, %xmm2
	mulps	%xmm3, %xmm0
	addps	%xmm2, %xmm0
	divps	%xmm0, %xmm1
	addps	%xmm5, %xmm1
	movaps	%xmm1, 32(%rsp)
	movups	48(%r12,%r15,4), %xmm0
	mulps	%xmm6, %xmm0
	movups	48(%r14), %xmm1
	movups	48(%rbx), %xmm2
	mulps	%xmm4, %xmm2
	mulps	%xmm3, %xmm0
	addps	%xmm2, %xmm0
	divps	%xmm0, %xmm1
	addps	%xmm5, %xmm1
	movaps	%xmm1, 48(%rsp)
	movups	64(%r12,%r15,4), %xmm0
	mulps	%xmm6, %xmm0
	movups	64(%r14), %xmm1
	movups	64(%rbx), %xmm2
	mulps	%xmm4, %xmm2
	mulps	%xmm3, %xmm0
	addps	%xmm2, %xmm0
	divps	%xmm0, %xmm1
	addps	%xmm5, %xmm1
	movaps	%xmm1, 64(%rsp)
	movups	80(%r12,%r15,4), %xmm0
	mulps	%xmm6, %xmm0
	movups	80(%r14), %xmm1
	movups	80(%rbx), %xmm2
	mulps	%xmm4, %xmm2
	mulps	%xmm3, %xmm0
	addps	%xmm2, %xmm0
	divps	%xmm0, %xmm1
	addps	%xmm5, %xmm1
	movaps	%xmm1, 80(%rsp)
	movups	96(%r12,%r15,4), %xmm0
	mulps	%xmm6, %xmm0
	movups	96(%r14), %xmm1
	movups	96(%rbx), %xmm2
	mulps	%xmm4, %xmm2
	mulps	%xmm3, %xmm0
	addps	%xmm2, %xmm0
	divps	%xmm0, %xmm1
	addps	%xmm5, %xmm1
	movaps	%xmm1, 96(%rsp)
	movups	112(%r12,%r15,4), %xmm0
.Lframes640_BB1_3:
	mulps	%xmm6, %xmm0
	movups	112(%r14), %xmm1
	movups	112(%rbx), %xmm2
	mulps	%xmm4, %xmm2
	mulps	%xmm3, %xmm0
	addps	%xmm2, %xmm0
	divps	%xmm0, %xmm1
	addps	%xmm5, %xmm1
	movaps	%xmm1, 112(%rsp)
	movq	%rsp, %rdi
	movq	%rbx, %rsi
	callq	loamchalice.frames640.pixels.degrees_block
	addq	$216, %rsp
	popq	%rbx
	popq	%r12
	popq	%r14
	popq	%r15
	retq
.Lframes640_func_end1:
	.size	loamchalice.frames640.pixels.temperature_block, .Lframes640_func_end1-loamchalice.frames640.pixels.temperature_block

	.section	.rodata.cst16,"aM",@progbits,16
	.p2align	4, 0x0
.Lframes640_CPI2_0:
	.long	2143289344
	.long	2143289344
	.long	2143289344
	.long	2143289344
.Lframes640_CPI2_1:
	.long	8388608
	.long	8388608
	.long	8388608
	.long	8388608
.Lframes640_CPI2_2:
	.long	33554431
	.long	33554431
	.long	33554431
	.long	33554431
.Lframes640_CPI2_3:
	.long	1065353216
	.long	1065353216
	.long	1065353216
	.long	1065353216
.Lframes640_CPI2_4:
	.long	1331173376
	.long	1331173376
	.long	1331173376
	.long	1331173376
.Lframes640_CPI2_5:
	.long	0x3dc5d67e
	.long	0x3dc5d67e
	.long	0x3dc5d67e
	.long	0x3dc5d67e
.Lframes640_CPI2_6:
	.long	0x3df332a8
	.long	0x3df332a8
	.long	0x3df332a8
	.long	0x3df332a8
.Lframes640_CPI2_7:
	.long	0x3e1ffe93
	.long	0x3e1ffe93
	.long	0x3e1ffe93
	.long	0x3e1ffe93
.Lframes640_CPI2_8:
	.long	0x3e7ffe6f
	.long	0x3e7ffe6f
	.long	0x3e7ffe6f
	.long	0x3e7ffe6f
.Lframes640_CPI2_12:
	.long	1048576000
	.long	1048576000
	.long	1048576000
	.long	1048576000
.Lframes640_CPI2_13:
	.long	8388607
	.long	8388607
	.long	8388607
	.long	8388607
.Lframes640_CPI2_14:
	.long	4286578688
	.long	4286578688
	.long	4286578688
	.long	4286578688
.Lframes640_CPI2_15:
	.long	2139095039
	.long	2139095039
	.long	2139095039
	.long	2139095039
.Lframes640_CPI2_16:
	.long	528482304
	.long	528482304
	.long	528482304
	.long	528482304
	.section	.rodata.cst4,"aM",@progbits,4
	.p2align	2, 0x0
.Lframes640_CPI2_9:
	.long	0x3f800000
.Lframes640_CPI2_10:
	.long	0x3f000000
.Lframes640_CPI2_11:
	.long	0x45800800
.Lframes640_CPI2_17:
	.long	0x7fc00000
	.section	.rodata.cst8,"aM",@progbits,8
	.p2align	3, 0x0
.Lframes640_CPI2_18:
	.long	0x7fc00000
	.long	0x7f800000
.Lframes640_CPI2_19:
	.quad	0xbfd8d6dad5c5805a
.Lframes640_CPI2_20:
	.quad	0x3ff48987b38c9874
.Lframes640_CPI2_21:
	.quad	0xbf89e11a55579851
.Lframes640_CPI2_22:
	.quad	0x3fbbd11ca559a5b5
.Lframes640_CPI2_23:
	.quad	0xbfd9564a9a0cc3d0
.Lframes640_CPI2_24:
	.quad	0x3ff49e6fb879243c
.Lframes640_CPI2_25:
	.quad	0xbf8b3fdc3e64f496
.Lframes640_CPI2_26:
	.quad	0x3fbcd40c7b79c813
.Lframes640_CPI2_27:
	.quad	0xbfd9da666a8282c0
.Lframes640_CPI2_28:
	.quad	0x3ff4b3c3e0838e08
.Lframes640_CPI2_29:
	.quad	0xbf8cb74d9f20e3c5
.Lframes640_CPI2_30:
	.quad	0x3fbde4cf1160987f
.Lframes640_CPI2_31:
	.quad	0xbfda636eaa84aa24
.Lframes640_CPI2_32:
	.quad	0x3ff4c9882b15accb
.Lframes640_CPI2_33:
	.quad	0xbf8e499d1637aac6
.Lframes640_CPI2_34:
	.quad	0x3fbf045f9100c8fb
.Lframes640_CPI2_35:
	.quad	0xbfdaf1a85969655f
.Lframes640_CPI2_36:
	.quad	0x3ff4dfc0cf2a5dce
.Lframes640_CPI2_37:
	.quad	0xbf8ff9350c84276a
.Lframes640_CPI2_38:
	.quad	0x3fc019e7c4a5cc82
.Lframes640_CPI2_39:
	.quad	0xbfdb855d7ca13de0
.Lframes640_CPI2_40:
	.quad	0x3ff4f6723f50bfea
.Lframes640_CPI2_41:
	.quad	0xbf90e461a137b60f
.Lframes640_CPI2_42:
	.quad	0x3fc0ba24ac9d711a
.Lframes640_CPI2_43:
	.quad	0xbfdc1edd9569549c
.Lframes640_CPI2_44:
	.quad	0x3ff50da12e0ca82a
.Lframes640_CPI2_45:
	.quad	0xbf91dda0bc0f98f5
.Lframes640_CPI2_46:
	.quad	0x3fc1638974e0b1d2
.Lframes640_CPI2_47:
	.quad	0xbfdcbe7e238a7215
.Lframes640_CPI2_48:
	.quad	0x3ff52552929e8fbf
.Lframes640_CPI2_49:
	.quad	0xbf92e9ffafd562c7
.Lframes640_CPI2_50:
	.quad	0x3fc216c861238d76
.Lframes640_CPI2_51:
	.quad	0xbfdd649b36da6586
.Lframes640_CPI2_52:
	.quad	0x3ff53d8bae3e8fed
.Lframes640_CPI2_53:
	.quad	0xbf940b5708b9b0fb
.Lframes640_CPI2_54:
	.quad	0x3fc2d4a4c2a70153
.Lframes640_CPI2_55:
	.quad	0xbfde119811778ee7
.Lframes640_CPI2_56:
	.quad	0x3ff5565211d78886
.Lframes640_CPI2_57:
	.quad	0xbf9543b6a2c0f3d1
.Lframes640_CPI2_58:
	.quad	0x3fc39df4f298d76f
.Lframes640_CPI2_59:
	.quad	0xbfdec5dfdd045494
.Lframes640_CPI2_60:
	.quad	0x3ff56faba4515177
.Lframes640_CPI2_61:
	.quad	0xbf96956d50f05671
.Lframes640_CPI2_62:
	.quad	0x3fc473a491df2605
.Lframes640_CPI2_63:
	.quad	0xbfdf81e67583ece0
.Lframes640_CPI2_64:
	.quad	0x3ff5899ea97ae286
.Lframes640_CPI2_65:
	.quad	0xbf980311beecdf50
.Lframes640_CPI2_66:
	.quad	0x3fc556b719595084
.Lframes640_CPI2_67:
	.quad	0xbfe02314a673068e
.Lframes640_CPI2_68:
	.quad	0x3ff5a431c9a7ba2d
.Lframes640_CPI2_69:
	.quad	0xbf998f8cc6c133d0
.Lframes640_CPI2_70:
	.quad	0x3fc6484ac7a206de
.Lframes640_CPI2_71:
	.quad	0xbfe0899835678b25
.Lframes640_CPI2_72:
	.quad	0x3ff5bf6c1a168c70
.Lframes640_CPI2_73:
	.quad	0xbf9b3e25807701df
.Lframes640_CPI2_74:
	.quad	0x3fc7499bfbc8f77c
.Lframes640_CPI2_75:
	.quad	0xbfe0f4c7c6612df5
.Lframes640_CPI2_76:
	.quad	0x3ff5db55263a7735
.Lframes640_CPI2_77:
	.quad	0xbf9d128f5ff1d144
.Lframes640_CPI2_78:
	.quad	0x3fc85c090f67f3a1
.Lframes640_CPI2_79:
	.quad	0xbfe164f3b5c49c7a
.Lframes640_CPI2_80:
	.quad	0x3ff5f7f4fa03b8fd
.Lframes640_CPI2_81:
	.quad	0xbf9f10fac7b9e0fd
.Lframes640_CPI2_82:
	.quad	0x3fc98116c604a5ac
.Lframes640_CPI2_83:
	.quad	0xbfe1da7395c50e4c
.Lframes640_CPI2_84:
	.quad	0x3ff615542d494b58
.Lframes640_CPI2_85:
	.quad	0xbfa09f1447099ec3
.Lframes640_CPI2_86:
	.quad	0x3fcaba756c0423f4
.Lframes640_CPI2_87:
	.quad	0xbfe255a6ff632f04
.Lframes640_CPI2_88:
	.quad	0x3ff6337bf079ed95
.Lframes640_CPI2_89:
	.quad	0xbfa1cfc087047581
.Lframes640_CPI2_90:
	.quad	0x3fcc0a06c4c15e4e
.Lframes640_CPI2_91:
	.quad	0xbfe2d6f680371f14
.Lframes640_CPI2_92:
	.quad	0x3ff652761ac144d6
.Lframes640_CPI2_93:
	.quad	0xbfa31d97c0c539a3
.Lframes640_CPI2_94:
	.quad	0x3fcd71e4edd8a92e
.Lframes640_CPI2_95:
	.quad	0xbfe35ed4a9ba21f2
.Lframes640_CPI2_96:
	.quad	0x3ff6724d39d4ef3d
.Lframes640_CPI2_97:
	.quad	0xbfa48c214730858e
.Lframes640_CPI2_98:
	.quad	0x3fcef46a65c0d8ac
.Lframes640_CPI2_99:
	.quad	0xbfe3edbf47a9bdea
.Lframes640_CPI2_100:
	.quad	0x3ff6930ca3a5fbdb
.Lframes640_CPI2_101:
	.quad	0xbfa61f699420162c
.Lframes640_CPI2_102:
	.quad	0x3fd04a1db6ddbdce
.Lframes640_CPI2_103:
	.quad	0xbfe48440c4354b61
.Lframes640_CPI2_104:
	.quad	0x3ff6b4c08a3d7463
.Lframes640_CPI2_105:
	.quad	0xbfa7dc1999064aaa
.Lframes640_CPI2_106:
	.quad	0x3fd12a2885c2d55c
.Lframes640_CPI2_107:
	.quad	0xbfe522f1c1fc9caa
.Lframes640_CPI2_108:
	.quad	0x3ff6d7761216e589
.Lframes640_CPI2_109:
	.quad	0xbfa9c792d22551ea
.Lframes640_CPI2_110:
	.quad	0x3fd21c02ff5670aa
.Lframes640_CPI2_111:
	.quad	0xbfe5ca7af58a6166
.Lframes640_CPI2_112:
	.quad	0x3ff6fb3b6b5a8c6c
.Lframes640_CPI2_113:
	.quad	0xbfabe8113a584e1d
.Lframes640_CPI2_114:
	.quad	0x3fd32193086fb443
.Lframes640_CPI2_115:
	.quad	0xbfe67b9749fb94b2
.Lframes640_CPI2_116:
	.quad	0x3ff7201fee6a962f
.Lframes640_CPI2_117:
	.quad	0xbfae44d489bade19
.Lframes640_CPI2_118:
	.quad	0x3fd43d0020924148
.Lframes640_CPI2_119:
	.quad	0xbfe737165f09042f
.Lframes640_CPI2_120:
	.quad	0x3ff746343c4c6c38
.Lframes640_CPI2_121:
	.quad	0xbfb07329465d1743
.Lframes640_CPI2_122:
	.quad	0x3fd570be3491b6b7
.Lframes640_CPI2_123:
	.quad	0xbfe7fddf71cb1ffa
.Lframes640_CPI2_124:
	.quad	0x3ff76d8a639148f5
.Lframes640_CPI2_125:
	.quad	0xbfb1eb3a718070d4
.Lframes640_CPI2_126:
	.quad	0x3fd6bf9a91c44d0c
.Lframes640_CPI2_127:
	.quad	0xbfe8d0f4c57fb846
.Lframes640_CPI2_128:
	.quad	0x3ff796360a817401
.Lframes640_CPI2_129:
	.quad	0xbfb39072906b220e
.Lframes640_CPI2_130:
	.quad	0x3fd82ccb76f32def
.Lframes640_CPI2_131:
	.quad	0xbfe9b177a6904feb
.Lframes640_CPI2_132:
	.quad	0x3ff7c04c9f750ec5
.Lframes640_CPI2_133:
	.quad	0xbfb569b5984f8e41
.Lframes640_CPI2_134:
	.quad	0x3fd9bc02e1674462
.Lframes640_CPI2_135:
	.quad	0xbfeaa0ad2864dd46
.Lframes640_CPI2_136:
	.quad	0x3ff7ebe590764371
.Lframes640_CPI2_137:
	.quad	0xbfb77f3180d8ed5f
.Lframes640_CPI2_138:
	.quad	0x3fdb71855faad984
.Lframes640_CPI2_139:
	.quad	0xbfeba003c69b59ab
.Lframes640_CPI2_140:
	.quad	0x3ff8191a8b857f7c
.Lframes640_CPI2_141:
	.quad	0xbfb9daa8153fb04b
.Lframes640_CPI2_142:
	.quad	0x3fdd5245ec4a3182
.Lframes640_CPI2_143:
	.quad	0xbfecb11a1c961214
.Lframes640_CPI2_144:
	.quad	0x3ff84807c924869d
.Lframes640_CPI2_145:
	.quad	0xbfbc87cc279b3083
.Lframes640_CPI2_146:
	.quad	0x3fdf64081dc7d151
.Lframes640_CPI2_147:
	.quad	0x4330000000000000
.Lframes640_CPI2_148:
	.quad	0xc330000000000000
	.section	.text.frames640.roots.fourth_roots,"ax",@progbits
	.p2align	4
	.type	loamchalice.frames640.roots.fourth_roots,@function
loamchalice.frames640.roots.fourth_roots:
	pushq	%rbx
	subq	$384, %rsp
	xorps	%xmm0, %xmm0
	movaps	%xmm0, (%rsp)
	movaps	%xmm0, 16(%rsp)
	movaps	%xmm0, 32(%rsp)
	movaps	%xmm0, 48(%rsp)
	movaps	%xmm0, 64(%rsp)
	movaps	%xmm0, 80(%rsp)
	movaps	%xmm0, 96(%rsp)
	movaps	%xmm0, 112(%rsp)
	movaps	%xmm0, -128(%rsp)
	movaps	%xmm0, -112(%rsp)
	movaps	%xmm0, -96(%rsp)
	movaps	%xmm0, -80(%rsp)
	movaps	%xmm0, -64(%rsp)
	movaps	%xmm0, -48(%rsp)
	movaps	%xmm0, -32(%rsp)
	movaps	%xmm0, -16(%rsp)
	movups	(%rdi), %xmm1
	movaps	%xmm1, %xmm8
	movaps	%xmm1, %xmm2
	shufps	$85, %xmm1, %xmm2
	unpcklps	%xmm2, %xmm8
	movaps	%xmm1, %xmm2
	unpckhpd	%xmm1, %xmm2
	movaps	%xmm1, %xmm3
	shufps	$255, %xmm1, %xmm3
	unpcklps	%xmm3, %xmm2
	movlhps	%xmm2, %xmm8
	cmpunordps	%xmm0, %xmm8
	movaps	%xmm8, %xmm2
	andnps	%xmm1, %xmm2
	movaps	.Lframes640_CPI2_0(%rip), %xmm4
	andps	%xmm4, %xmm8
	orps	%xmm2, %xmm8
	movaps	%xmm8, 128(%rsp)
	movups	16(%rdi), %xmm1
	movaps	%xmm1, %xmm10
	movaps	%xmm1, %xmm2
	shufps	$85, %xmm1, %xmm2
	unpcklps	%xmm2, %xmm10
	movaps	%xmm1, %xmm2
	unpckhpd	%xmm1, %xmm2
	movaps	%xmm1, %xmm3
	shufps	$255, %xmm1, %xmm3
	unpcklps	%xmm3, %xmm2
	movlhps	%xmm2, %xmm10
	cmpunordps	%xmm0, %xmm10
	movaps	%xmm10, %xmm2
	andnps	%xmm1, %xmm2
	andps	%xmm4, %xmm10
	orps	%xmm2, %xmm10
	movaps	%xmm10, 144(%rsp)
	movups	32(%rdi), %xmm1
	movaps	%xmm1, %xmm9
	movaps	%xmm1, %xmm2
	shufps	$85, %xmm1, %xmm2
	unpcklps	%xmm2, %xmm9
	movaps	%xmm1, %xmm2
	unpckhpd	%xmm1, %xmm2
	movaps	%xmm1, %xmm3
	shufps	$255, %xmm1, %xmm3
	unpcklps	%xmm3, %xmm2
	movlhps	%xmm2, %xmm9
	cmpunordps	%xmm0, %xmm9
	movaps	%xmm9, %xmm2
	andnps	%xmm1, %xmm2
	andps	%xmm4, %xmm9
	orps	%xmm2, %xmm9
	movaps	%xmm9, 160(%rsp)
	movups	48(%rdi), %xmm1
	movaps	%xmm1, %xmm7
	movaps	%xmm1, %xmm2
	shufps	$85, %xmm1, %xmm2
	unpcklps	%xmm2, %xmm7
	movaps	%xmm1, %xmm2
	unpckhpd	%xmm1, %xmm2
	movaps	%xmm1, %xmm3
	shufps	$255, %xmm1, %xmm3
	unpcklps	%xmm3, %xmm2
	movlhps	%xmm2, %xmm7
	cmpunordps	%xmm0, %xmm7
	movaps	%xmm7, %xmm2
	andnps	%xmm1, %xmm2
	andps	%xmm4, %xmm7
	orps	%xmm2, %xmm7
	movaps	%xmm7, 176(%rsp)
	movups	64(%rdi), %xmm1
	movaps	%xmm1, %xmm5
	movaps	%xmm1, %xmm2
	shufps	$85, %xmm1, %xmm2
	unpcklps	%xmm2, %xmm5
	movaps	%xmm1, %xmm2
	unpckhpd	%xmm1, %xmm2
	movaps	%xmm1, %xmm3
	shufps	$255, %xmm1, %xmm3
	unpcklps	%xmm3, %xmm2
	movlhps	%xmm2, %xmm5
	cmpunordps	%xmm0, %xmm5
	movaps	%xmm5, %xmm2
	andnps	%xmm1, %xmm2
	andps	%xmm4, %xmm5
	orps	%xmm2, %xmm5
	movaps	%xmm5, 192(%rsp)
	movups	80(%rdi), %xmm1
	movaps	%xmm1, %xmm3
	movaps	%xmm1, %xmm2
	shufps	$85, %xmm1, %xmm2
	unpcklps	%xmm2, %xmm3
	movaps	%xmm1, %xmm2
	unpckhpd	%xmm1, %xmm2
	movaps	%xmm1, %xmm6
	shufps	$255, %xmm1, %xmm6
	unpcklps	%xmm6, %xmm2
	movlhps	%xmm2, %xmm3
	cmpunordps	%xmm0, %xmm3
	movaps	%xmm3, %xmm2
	andnps	%xmm1, %xmm2
	andps	%xmm4, %xmm3
	orps	%xmm2, %xmm3
	movaps	%xmm3, 208(%rsp)
	movups	96(%rdi), %xmm1
	movaps	%xmm1, %xmm2
	movaps	%xmm1, %xmm6
	shufps	$85, %xmm1, %xmm6
	unpcklps	%xmm6, %xmm2
	movaps	%xmm1, %xmm6
	unpckhpd	%xmm1, %xmm6
	movaps	%xmm1, %xmm11
	shufps	$255, %xmm1, %xmm11
	unpcklps	%xmm11, %xmm6
	movlhps	%xmm6, %xmm2
	cmpunordps	%xmm0, %xmm2
	movaps	%xmm2, %xmm6
	andnps	%xmm1, %xmm6
	andps	%xmm4, %xmm2
	orps	%xmm6, %xmm2
	movaps	%xmm2, 224(%rsp)
	movups	112(%rdi), %xmm6
	movaps	%xmm6, %xmm1
	movaps	%xmm6, %xmm11
	shufps	$85, %xmm6, %xmm11
	unpcklps	%xmm11, %xmm1
	movaps	%xmm6, %xmm11
	unpckhpd	%xmm6, %xmm11
	movaps	%xmm6, %xmm12
	shufps	$255, %xmm6, %xmm12
	unpcklps	%xmm12, %xmm11
	movlhps	%xmm11, %xmm1
	cmpunordps	%xmm0, %xmm1
	movaps	%xmm1, %xmm0
	andnps	%xmm6, %xmm0
	andps	%xmm4, %xmm1
	orps	%xmm0, %xmm1
	movdqa	.Lframes640_CPI2_1(%rip), %xmm0
	paddd	%xmm0, %xmm8
	pand	.Lframes640_CPI2_2(%rip), %xmm8
	movdqa	.Lframes640_CPI2_3(%rip), %xmm11
	paddd	%xmm11, %xmm8
	movdqa	%xmm8, %xmm12
	psrld	$2, %xmm12
	movdqa	.Lframes640_CPI2_4(%rip), %xmm13
	movdqa	%xmm13, %xmm15
	psubd	%xmm12, %xmm15
	movdqa	%xmm15, %xmm12
	mulps	%xmm15, %xmm12
	mulps	%xmm12, %xmm8
	mulps	%xmm12, %xmm8
	movdqa	%xmm11, %xmm6
	subps	%xmm8, %xmm6
	movaps	.Lframes640_CPI2_5(%rip), %xmm8
	movaps	%xmm6, %xmm4
	mulps	%xmm8, %xmm4
	addps	.Lframes640_CPI2_6(%rip), %xmm4
	mulps	%xmm6, %xmm4
	movaps	.Lframes640_CPI2_7(%rip), %xmm14
	addps	%xmm14, %xmm4
	mulps	%xmm6, %xmm4
	movaps	.Lframes640_CPI2_8(%rip), %xmm12
	addps	%xmm12, %xmm4
	mulps	%xmm6, %xmm4
	mulps	%xmm15, %xmm4
	addps	%xmm15, %xmm4
	movaps	%xmm4, 256(%rsp)
	paddd	%xmm0, %xmm10
	movdqa	.Lframes640_CPI2_2(%rip), %xmm15
	pand	%xmm15, %xmm10
	paddd	%xmm11, %xmm10
	movdqa	%xmm10, %xmm4
	psrld	$2, %xmm4
	movdqa	%xmm13, %xmm6
	psubd	%xmm4, %xmm6
	movdqa	%xmm6, %xmm4
	mulps	%xmm6, %xmm4
	mulps	%xmm4, %xmm10
	mulps	%xmm4, %xmm10
	movdqa	%xmm11, %xmm4
	subps	%xmm10, %xmm4
	movaps	%xmm4, %xmm10
	mulps	%xmm8, %xmm10
	addps	.Lframes640_CPI2_6(%rip), %xmm10
	mulps	%xmm4, %xmm10
	addps	%xmm14, %xmm10
	mulps	%xmm4, %xmm10
	addps	%xmm12, %xmm10
	mulps	%xmm4, %xmm10
	mulps	%xmm6, %xmm10
	addps	%xmm6, %xmm10
	movaps	%xmm10, 272(%rsp)
	paddd	%xmm0, %xmm9
	pand	%xmm15, %xmm9
	movdqa	%xmm15, %xmm10
	paddd	%xmm11, %xmm9
	movdqa	%xmm9, %xmm4
	psrld	$2, %xmm4
	movdqa	%xmm13, %xmm6
	psubd	%xmm4, %xmm6
	movdqa	%xmm6, %xmm4
	mulps	%xmm6, %xmm4
	mulps	%xmm4, %xmm9
	mulps	%xmm4, %xmm9
	movdqa	%xmm11, %xmm4
	subps	%xmm9, %xmm4
	movaps	%xmm4, %xmm9
	mulps	%xmm8, %xmm9
	movaps	.Lframes640_CPI2_6(%rip), %xmm15
	addps	%xmm15, %xmm9
	mulps	%xmm4, %xmm9
	movaps	%xmm14, %xmm12
	addps	%xmm14, %xmm9
	mulps	%xmm4, %xmm9
	movaps	.Lframes640_CPI2_8(%rip), %xmm14
	addps	%xmm14, %xmm9
	mulps	%xmm4, %xmm9
	mulps	%xmm6, %xmm9
	addps	%xmm6, %xmm9
	movaps	%xmm9, 288(%rsp)
	paddd	%xmm0, %xmm7
	pand	%xmm10, %xmm7
	paddd	%xmm11, %xmm7
	movdqa	%xmm7, %xmm4
	psrld	$2, %xmm4
	movdqa	%xmm13, %xmm6
	psubd	%xmm4, %xmm6
	movdqa	%xmm6, %xmm4
	mulps	%xmm6, %xmm4
	mulps	%xmm4, %xmm7
	mulps	%xmm4, %xmm7
	movdqa	%xmm11, %xmm4
	subps	%xmm7, %xmm4
	movaps	%xmm4, %xmm7
	mulps	%xmm8, %xmm7
	addps	%xmm15, %xmm7
	mulps	%xmm4, %xmm7
	addps	%xmm12, %xmm7
	mulps	%xmm4, %xmm7
	addps	%xmm14, %xmm7
	mulps	%xmm4, %xmm7
	mulps	%xmm6, %xmm7
	addps	%xmm6, %xmm7
	movaps	%xmm7, 304(%rsp)
	paddd	%xmm0, %xmm5
	pand	%xmm10, %xmm5
	paddd	%xmm11, %xmm5
	movdqa	%xmm5, %xmm4
	psrld	$2, %xmm4
	movdqa	%xmm13, %xmm6
	psubd	%xmm4, %xmm6
	movdqa	%xmm6, %xmm4
	mulps	%xmm6, %xmm4
	mulps	%xmm4, %xmm5
	mulps	%xmm4, %xmm5
	movdqa	%xmm11, %xmm4
	subps	%xmm5, %xmm4
	movaps	%xmm4, %xmm5
	mulps	%xmm8, %xmm5
	addps	%xmm15, %xmm5
	mulps	%xmm4, %xmm5
	addps	%xmm12, %xmm5
	mulps	%xmm4, %xmm5
	addps	%xmm14, %xmm5
	mulps	%xmm4, %xmm5
	mulps	%xmm6, %xmm5
	addps	%xmm6, %xmm5
	movaps	%xmm5, 320(%rsp)
	paddd	%xmm0, %xmm3
	pand	%xmm10, %xmm3
	paddd	%xmm11, %xmm3
	movdqa	%xmm3, %xmm4
	psrld	$2, %xmm4
	movdqa	%xmm13, %xmm5
	psubd	%xmm4, %xmm5
	movdqa	%xmm5, %xmm4
	mulps	%xmm5, %xmm4
	mulps	%xmm4, %xmm3
	mulps	%xmm4, %xmm3
	movdqa	%xmm11, %xmm4
	subps	%xmm3, %xmm4
	movaps	%xmm4, %xmm3
	mulps	%xmm8, %xmm3
	addps	%xmm15, %xmm3
	mulps	%xmm4, %xmm3
	addps	%xmm12, %xmm3
	mulps	%xmm4, %xmm3
	addps	%xmm14, %xmm3
	mulps	%xmm4, %xmm3
	mulps	%xmm5, %xmm3
	addps	%xmm5, %xmm3
	movaps	%xmm3, 336(%rsp)
	paddd	%xmm0, %xmm2
	pand	%xmm10, %xmm2
	paddd	%xmm11, %xmm2
	movdqa	%xmm2, %xmm3
	psrld	$2, %xmm3
	movdqa	%xmm13, %xmm4
	psubd	%xmm3, %xmm4
	movdqa	%xmm4, %xmm3
	mulps	%xmm4, %xmm3
	mulps	%xmm3, %xmm2
	mulps	%xmm3, %xmm2
	movdqa	%xmm11, %xmm3
	subps	%xmm2, %xmm3
	movaps	%xmm3, %xmm2
	mulps	%xmm8, %xmm2
	addps	%xmm15, %xmm2
	mulps	%xmm3, %xmm2
	addps	%xmm12, %xmm2
	mulps	%xmm3, %xmm2
	addps	%xmm14, %xmm2
	mulps	%xmm3, %xmm2
	mulps	%xmm4, %xmm2
	addps	%xmm4, %xmm2
	movaps	%xmm2, 352(%rsp)
	movaps	%xmm1, 240(%rsp)
	paddd	%xmm0, %xmm1
	pand	%xmm10, %xmm1
	paddd	%xmm11, %xmm1
	movdqa	%xmm1, %xmm2
	psrld	$2, %xmm2
	psubd	%xmm2, %xmm13
	movdqa	%xmm13, %xmm2
	mulps	%xmm13, %xmm2
	mulps	%xmm2, %xmm1
	mulps	%xmm2, %xmm1
	subps	%xmm1, %xmm11
	mulps	%xmm11, %xmm8
	addps	%xmm15, %xmm8
	mulps	%xmm11, %xmm8
	addps	%xmm12, %xmm8
	mulps	%xmm11, %xmm8
	addps	%xmm14, %xmm8
	mulps	%xmm11, %xmm8
	mulps	%xmm13, %xmm8
	addps	%xmm13, %xmm8
	movaps	%xmm8, 368(%rsp)
	movss	.Lframes640_CPI2_9(%rip), %xmm1
	xorl	%eax, %eax
	.p2align	4
.Lframes640_BB2_1:
	movl	$8388608, %ecx
	addl	128(%rsp,%rax,4), %ecx
	andl	$33554431, %ecx
	addl	$1065353216, %ecx
	movd	%ecx, %xmm3
	movss	256(%rsp,%rax,4), %xmm2
	mulss	%xmm2, %xmm2
	movaps	%xmm2, %xmm4
	mulss	.Lframes640_CPI2_10(%rip), %xmm2
	mulss	%xmm3, %xmm4
	movss	.Lframes640_CPI2_11(%rip), %xmm5
	mulss	%xmm4, %xmm5
	movaps	%xmm4, %xmm6
	subss	%xmm5, %xmm6
	addss	%xmm5, %xmm6
	movaps	%xmm4, %xmm5
	addss	%xmm6, %xmm5
	movaps	%xmm4, %xmm7
	subss	%xmm6, %xmm7
	mulss	%xmm6, %xmm6
	subss	%xmm6, %xmm3
	mulss	%xmm5, %xmm7
	subss	%xmm7, %xmm3
	mulss	%xmm2, %xmm3
	addss	%xmm4, %xmm3
	movaps	%xmm3, %xmm2
	movaps	%xmm1, %xmm4
	cmpltss	%xmm2, %xmm4
	andps	%xmm4, %xmm3
	movss	.Lframes640_CPI2_9(%rip), %xmm2
	andnps	%xmm2, %xmm4
	orps	%xmm3, %xmm4
	movss	%xmm4, (%rsi,%rax,4)
	movss	%xmm4, (%rsp,%rax,4)
	incq	%rax
	cmpq	$32, %rax
	jne	.Lframes640_BB2_1
	xorl	%eax, %eax
	.p2align	4
.Lframes640_BB2_3:
	movss	(%rsi,%rax,4), %xmm3
	movss	256(%rsp,%rax,4), %xmm4
	movaps	%xmm3, %xmm5
	mulss	%xmm4, %xmm5
	mulss	.Lframes640_CPI2_10(%rip), %xmm4
	movss	.Lframes640_CPI2_11(%rip), %xmm6
	mulss	%xmm5, %xmm6
	movaps	%xmm6, %xmm7
	subss	%xmm5, %xmm7
	subss	%xmm7, %xmm6
	movaps	%xmm5, %xmm7
	addss	%xmm6, %xmm7
	movaps	%xmm5, %xmm8
	subss	%xmm6, %xmm8
	mulss	%xmm6, %xmm6
	subss	%xmm6, %xmm3
	mulss	%xmm7, %xmm8
	subss	%xmm8, %xmm3
	mulss	%xmm4, %xmm3
	addss	%xmm5, %xmm3
	movaps	%xmm3, %xmm4
	movaps	%xmm1, %xmm5
	cmpltss	%xmm4, %xmm5
	andps	%xmm5, %xmm3
	andnps	%xmm2, %xmm5
	orps	%xmm3, %xmm5
	movss	%xmm5, -128(%rsp,%rax,4)
	incq	%rax
	cmpq	$32, %rax
	jne	.Lframes640_BB2_3
	xorps	%xmm1, %xmm1
	xorl	%eax, %eax
	xorps	%xmm2, %xmm2
	.p2align	4
.Lframes640_BB2_5:
	movdqa	128(%rsp,%rax,4), %xmm4
	movdqu	(%rsp,%rax,4), %xmm13
	movdqu	-128(%rsp,%rax,4), %xmm6
	movdqa	.Lframes640_CPI2_12(%rip), %xmm3
	paddd	%xmm4, %xmm3
	movdqa	.Lframes640_CPI2_13(%rip), %xmm7
	pand	%xmm7, %xmm13
	por	%xmm0, %xmm13
	movdqa	%xmm13, %xmm5
	punpckhdq	%xmm1, %xmm5
	punpckldq	%xmm1, %xmm13
	pand	%xmm7, %xmm6
	por	%xmm0, %xmm6
	pand	%xmm4, %xmm7
	por	%xmm0, %xmm7
	pshufd	$246, %xmm7, %xmm8
	pshufd	$212, %xmm7, %xmm7
	movdqa	%xmm3, %xmm9
	pand	%xmm0, %xmm9
	paddd	%xmm0, %xmm9
	pshufd	$246, %xmm9, %xmm11
	pmuludq	%xmm8, %xmm11
	pshufd	$212, %xmm9, %xmm8
	pmuludq	%xmm7, %xmm8
	movdqa	%xmm3, %xmm10
	psrld	$1, %xmm10
	pand	%xmm0, %xmm10
	paddd	%xmm0, %xmm10
	pshufd	$212, %xmm10, %xmm9
	pmuludq	%xmm13, %xmm9
	movdqa	%xmm13, %xmm7
	pmuludq	%xmm13, %xmm7
	psubq	%xmm8, %xmm7
	movdqa	%xmm5, %xmm8
	pmuludq	%xmm5, %xmm8
	psubq	%xmm11, %xmm8
	movdqa	%xmm7, %xmm12
	paddq	%xmm13, %xmm12
	pcmpeqd	%xmm11, %xmm11
	pxor	%xmm11, %xmm7
	paddq	%xmm13, %xmm7
	psrld	$2, %xmm3
	pand	.Lframes640_CPI2_3(%rip), %xmm3
	movdqa	%xmm6, %xmm13
	paddd	%xmm6, %xmm3
	punpckhdq	%xmm1, %xmm6
	punpckldq	%xmm1, %xmm13
	pshufd	$246, %xmm10, %xmm10
	pmuludq	%xmm5, %xmm10
	por	%xmm12, %xmm7
	movdqa	%xmm8, %xmm12
	paddq	%xmm5, %xmm12
	pxor	%xmm11, %xmm8
	paddq	%xmm5, %xmm8
	por	%xmm12, %xmm8
	movdqa	%xmm13, %xmm5
	pmuludq	%xmm13, %xmm5
	psubq	%xmm9, %xmm5
	movdqa	%xmm6, %xmm9
	pmuludq	%xmm6, %xmm9
	psubq	%xmm10, %xmm9
	movdqa	%xmm5, %xmm10
	movdqa	%xmm9, %xmm12
	pxor	%xmm11, %xmm5
	pxor	%xmm11, %xmm9
	paddq	%xmm6, %xmm12
	paddq	%xmm6, %xmm9
	por	%xmm8, %xmm9
	por	%xmm12, %xmm9
	paddq	%xmm13, %xmm10
	paddq	%xmm13, %xmm5
	por	%xmm7, %xmm5
	por	%xmm10, %xmm5
	shufps	$221, %xmm9, %xmm5
	movdqa	.Lframes640_CPI2_14(%rip), %xmm6
	paddd	%xmm4, %xmm6
	movdqa	.Lframes640_CPI2_15(%rip), %xmm7
	psubd	%xmm4, %xmm7
	por	%xmm6, %xmm7
	por	%xmm5, %xmm7
	paddd	.Lframes640_CPI2_16(%rip), %xmm3
	movdqa	%xmm7, %xmm4
	psrad	$31, %xmm4
	pandn	%xmm3, %xmm4
	movdqu	%xmm4, (%rsi,%rax,4)
	psrld	$31, %xmm7
	paddd	%xmm7, %xmm2
	addq	$4, %rax
	cmpq	$32, %rax
	jne	.Lframes640_BB2_5
	pshufd	$238, %xmm2, %xmm0
	paddd	%xmm2, %xmm0
	pshufd	$85, %xmm0, %xmm1
	paddd	%xmm0, %xmm1
	movd	%xmm1, %eax
	testl	%eax, %eax
	je	.Lframes640_BB2_64
	pxor	%xmm0, %xmm0
	xorl	%eax, %eax
	jmp	.Lframes640_BB2_11
.Lframes640_BB2_8:
	pxor	%xmm1, %xmm1
.Lframes640_BB2_9:
	movd	%xmm1, (%rsi,%rax,4)
.Lframes640_BB2_10:
	incq	%rax
	cmpq	$32, %rax
	je	.Lframes640_BB2_64
.Lframes640_BB2_11:
	movss	(%rsi,%rax,4), %xmm1
	ucomiss	%xmm0, %xmm1
	jne	.Lframes640_BB2_10
	jp	.Lframes640_BB2_10
	movd	(%rdi,%rax,4), %xmm1
	movdqa	%xmm1, %xmm2
	ucomiss	%xmm2, %xmm2
	jp	.Lframes640_BB2_62
	movd	%xmm1, %edx
	movl	%edx, %ecx
	andl	$2147483647, %ecx
	je	.Lframes640_BB2_8
	cmpl	$2139095039, %edx
	ja	.Lframes640_BB2_17
	movabsq	$4607182418800017408, %r8
	cmpl	$8388607, %edx
	ja	.Lframes640_BB2_18
	movl	$63, %r9d
	bsrl	%edx, %r9d
	xorl	$31, %r9d
	leal	-8(%r9), %ecx
	shll	%cl, %edx
	shll	$23, %r9d
	subl	%r9d, %edx
	addl	$1115684864, %edx
	movl	%edx, %ecx
	shlq	$29, %rcx
	orq	%r8, %rcx
	movq	%rcx, %xmm1
	movl	%edx, %ecx
	shrl	$18, %ecx
	andl	$31, %ecx
	leaq	.Lframes640_JTI2_0(%rip), %r8
	movslq	(%r8,%rcx,4), %rcx
	addq	%r8, %rcx
	jmpq	*%rcx
.Lframes640_BB2_17:
	xorl	%edx, %edx
	cmpl	$2139095040, %ecx
	sete	%dl
	leaq	.Lframes640_CPI2_18(%rip), %rcx
	movd	(%rcx,%rdx,4), %xmm1
	jmp	.Lframes640_BB2_9
.Lframes640_BB2_18:
	addl	$1048576000, %edx
	movl	%edx, %ecx
	shlq	$29, %rcx
	orq	%r8, %rcx
	movq	%rcx, %xmm1
	movl	%edx, %ecx
	shrl	$18, %ecx
	andl	$31, %ecx
	leaq	.Lframes640_JTI2_0(%rip), %r8
	movslq	(%r8,%rcx,4), %rcx
	addq	%r8, %rcx
	jmpq	*%rcx
.Lframes640_BB2_19:
	movsd	.Lframes640_CPI2_143(%rip), %xmm2
	mulsd	%xmm1, %xmm2
	addsd	.Lframes640_CPI2_144(%rip), %xmm2
	movsd	.Lframes640_CPI2_145(%rip), %xmm3
	movsd	.Lframes640_CPI2_146(%rip), %xmm4
	jmp	.Lframes640_BB2_51
.Lframes640_BB2_20:
	movsd	.Lframes640_CPI2_35(%rip), %xmm2
	mulsd	%xmm1, %xmm2
	addsd	.Lframes640_CPI2_36(%rip), %xmm2
	movsd	.Lframes640_CPI2_37(%rip), %xmm3
	movsd	.Lframes640_CPI2_38(%rip), %xmm4
	jmp	.Lframes640_BB2_51
.Lframes640_BB2_21:
	movsd	.Lframes640_CPI2_79(%rip), %xmm2
	mulsd	%xmm1, %xmm2
	addsd	.Lframes640_CPI2_80(%rip), %xmm2
	movsd	.Lframes640_CPI2_81(%rip), %xmm3
	movsd	.Lframes640_CPI2_82(%rip), %xmm4
	jmp	.Lframes640_BB2_51
.Lframes640_BB2_22:
	movsd	.Lframes640_CPI2_87(%rip), %xmm2
	mulsd	%xmm1, %xmm2
	addsd	.Lframes640_CPI2_88(%rip), %xmm2
	movsd	.Lframes640_CPI2_89(%rip), %xmm3
	movsd	.Lframes640_CPI2_90(%rip), %xmm4
	jmp	.Lframes640_BB2_51
.Lframes640_BB2_23:
	movsd	.Lframes640_CPI2_99(%rip), %xmm2
	mulsd	%xmm1, %xmm2
	addsd	.Lframes640_CPI2_100(%rip), %xmm2
	movsd	.Lframes640_CPI2_101(%rip), %xmm3
	movsd	.Lframes640_CPI2_102(%rip), %xmm4
	jmp	.Lframes640_BB2_51
.Lframes640_BB2_24:
	movsd	.Lframes640_CPI2_127(%rip), %xmm2
	mulsd	%xmm1, %xmm2
	addsd	.Lframes640_CPI2_128(%rip), %xmm2
	movsd	.Lframes640_CPI2_129(%rip), %xmm3
	movsd	.Lframes640_CPI2_130(%rip), %xmm4
	jmp	.Lframes640_BB2_51
.Lframes640_BB2_25:
	movsd	.Lframes640_CPI2_95(%rip), %xmm2
	mulsd	%xmm1, %xmm2
	addsd	.Lframes640_CPI2_96(%rip), %xmm2
	movsd	.Lframes640_CPI2_97(%rip), %xmm3
	movsd	.Lframes640_CPI2_98(%rip), %xmm4
	jmp	.Lframes640_BB2_51
.Lframes640_BB2_26:
	movsd	.Lframes640_CPI2_107(%rip), %xmm2
	mulsd	%xmm1, %xmm2
	addsd	.Lframes640_CPI2_108(%rip), %xmm2
	movsd	.Lframes640_CPI2_109(%rip), %xmm3
	movsd	.Lframes640_CPI2_110(%rip), %xmm4
	jmp	.Lframes640_BB2_51
.Lframes640_BB2_27:
	movsd	.Lframes640_CPI2_43(%rip), %xmm2
	mulsd	%xmm1, %xmm2
	addsd	.Lframes640_CPI2_44(%rip), %xmm2
	movsd	.Lframes640_CPI2_45(%rip), %xmm3
	movsd	.Lframes640_CPI2_46(%rip), %xmm4
	jmp	.Lframes640_BB2_51
.Lframes640_BB2_28:
	movsd	.Lframes640_CPI2_47(%rip), %xmm2
	mulsd	%xmm1, %xmm2
	addsd	.Lframes640_CPI2_48(%rip), %xmm2
	movsd	.Lframes640_CPI2_49(%rip), %xmm3
	movsd	.Lframes640_CPI2_50(%rip), %xmm4
	jmp	.Lframes640_BB2_51
.Lframes640_BB2_29:
	movsd	.Lframes640_CPI2_135(%rip), %xmm2
	mulsd	%xmm1, %xmm2
	addsd	.Lframes640_CPI2_136(%rip), %xmm2
	movsd	.Lframes640_CPI2_137(%rip), %xmm3
	movsd	.Lframes640_CPI2_138(%rip), %xmm4
	jmp	.Lframes640_BB2_51
.Lframes640_BB2_30:
	movsd	.Lframes640_CPI2_83(%rip), %xmm2
	mulsd	%xmm1, %xmm2
	addsd	.Lframes640_CPI2_84(%rip), %xmm2
	movsd	.Lframes640_CPI2_85(%rip), %xmm3
	movsd	.Lframes640_CPI2_86(%rip), %xmm4
	jmp	.Lframes640_BB2_51
.Lframes640_BB2_31:
	movsd	.Lframes640_CPI2_131(%rip), %xmm2
	mulsd	%xmm1, %xmm2
	addsd	.Lframes640_CPI2_132(%rip), %xmm2
	movsd	.Lframes640_CPI2_133(%rip), %xmm3
	movsd	.Lframes640_CPI2_134(%rip), %xmm4
	jmp	.Lframes640_BB2_51
.Lframes640_BB2_32:
	movsd	.Lframes640_CPI2_115(%rip), %xmm2
	mulsd	%xmm1, %xmm2
	addsd	.Lframes640_CPI2_116(%rip), %xmm2
	movsd	.Lframes640_CPI2_117(%rip), %xmm3
	movsd	.Lframes640_CPI2_118(%rip), %xmm4
	jmp	.Lframes640_BB2_51
.Lframes640_BB2_33:
	movsd	.Lframes640_CPI2_139(%rip), %xmm2
	mulsd	%xmm1, %xmm2
	addsd	.Lframes640_CPI2_140(%rip), %xmm2
	movsd	.Lframes640_CPI2_141(%rip), %xmm3
	movsd	.Lframes640_CPI2_142(%rip), %xmm4
	jmp	.Lframes640_BB2_51
.Lframes640_BB2_34:
	movsd	.Lframes640_CPI2_19(%rip), %xmm2
	mulsd	%xmm1, %xmm2
	addsd	.Lframes640_CPI2_20(%rip), %xmm2
	movsd	.Lframes640_CPI2_21(%rip), %xmm3
	movsd	.Lframes640_CPI2_22(%rip), %xmm4
	jmp	.Lframes640_BB2_51
.Lframes640_BB2_35:
	movsd	.Lframes640_CPI2_75(%rip), %xmm2
	mulsd	%xmm1, %xmm2
	addsd	.Lframes640_CPI2_76(%rip), %xmm2
	movsd	.Lframes640_CPI2_77(%rip), %xmm3
	movsd	.Lframes640_CPI2_78(%rip), %xmm4
	jmp	.Lframes640_BB2_51
.Lframes640_BB2_36:
	movsd	.Lframes640_CPI2_63(%rip), %xmm2
	mulsd	%xmm1, %xmm2
	addsd	.Lframes640_CPI2_64(%rip), %xmm2
	movsd	.Lframes640_CPI2_65(%rip), %xmm3
	movsd	.Lframes640_CPI2_66(%rip), %xmm4
	jmp	.Lframes640_BB2_51
.Lframes640_BB2_37:
	movsd	.Lframes640_CPI2_123(%rip), %xmm2
	mulsd	%xmm1, %xmm2
	addsd	.Lframes640_CPI2_124(%rip), %xmm2
	movsd	.Lframes640_CPI2_125(%rip), %xmm3
	movsd	.Lframes640_CPI2_126(%rip), %xmm4
	jmp	.Lframes640_BB2_51
.Lframes640_BB2_38:
	movsd	.Lframes640_CPI2_59(%rip), %xmm2
	mulsd	%xmm1, %xmm2
	addsd	.Lframes640_CPI2_60(%rip), %xmm2
	movsd	.Lframes640_CPI2_61(%rip), %xmm3
	movsd	.Lframes640_CPI2_62(%rip), %xmm4
	jmp	.Lframes640_BB2_51
.Lframes640_BB2_39:
	movsd	.Lframes640_CPI2_91(%rip), %xmm2
	mulsd	%xmm1, %xmm2
	addsd	.Lframes640_CPI2_92(%rip), %xmm2
	movsd	.Lframes640_CPI2_93(%rip), %xmm3
	movsd	.Lframes640_CPI2_94(%rip), %xmm4
	jmp	.Lframes640_BB2_51
.Lframes640_BB2_40:
	movsd	.Lframes640_CPI2_119(%rip), %xmm2
	mulsd	%xmm1, %xmm2
	addsd	.Lframes640_CPI2_120(%rip), %xmm2
	movsd	.Lframes640_CPI2_121(%rip), %xmm3
	movsd	.Lframes640_CPI2_122(%rip), %xmm4
	jmp	.Lframes640_BB2_51
.Lframes640_BB2_41:
	movsd	.Lframes640_CPI2_71(%rip), %xmm2
	mulsd	%xmm1, %xmm2
	addsd	.Lframes640_CPI2_72(%rip), %xmm2
	movsd	.Lframes640_CPI2_73(%rip), %xmm3
	movsd	.Lframes640_CPI2_74(%rip), %xmm4
	jmp	.Lframes640_BB2_51
.Lframes640_BB2_42:
	movsd	.Lframes640_CPI2_103(%rip), %xmm2
	mulsd	%xmm1, %xmm2
	addsd	.Lframes640_CPI2_104(%rip), %xmm2
	movsd	.Lframes640_CPI2_105(%rip), %xmm3
	movsd	.Lframes640_CPI2_106(%rip), %xmm4
	jmp	.Lframes640_BB2_51
.Lframes640_BB2_43:
	movsd	.Lframes640_CPI2_111(%rip), %xmm2
	mulsd	%xmm1, %xmm2
	addsd	.Lframes640_CPI2_112(%rip), %xmm2
	movsd	.Lframes640_CPI2_113(%rip), %xmm3
	movsd	.Lframes640_CPI2_114(%rip), %xmm4
	jmp	.Lframes640_BB2_51
.Lframes640_BB2_44:
	movsd	.Lframes640_CPI2_23(%rip), %xmm2
	mulsd	%xmm1, %xmm2
	addsd	.Lframes640_CPI2_24(%rip), %xmm2
	movsd	.Lframes640_CPI2_25(%rip), %xmm3
	movsd	.Lframes640_CPI2_26(%rip), %xmm4
	jmp	.Lframes640_BB2_51
.Lframes640_BB2_45:
	movsd	.Lframes640_CPI2_55(%rip), %xmm2
	mulsd	%xmm1, %xmm2
	addsd	.Lframes640_CPI2_56(%rip), %xmm2
	movsd	.Lframes640_CPI2_57(%rip), %xmm3
	movsd	.Lframes640_CPI2_58(%rip), %xmm4
	jmp	.Lframes640_BB2_51
.Lframes640_BB2_46:
	movsd	.Lframes640_CPI2_67(%rip), %xmm2
	mulsd	%xmm1, %xmm2
	addsd	.Lframes640_CPI2_68(%rip), %xmm2
	movsd	.Lframes640_CPI2_69(%rip), %xmm3
	movsd	.Lframes640_CPI2_70(%rip), %xmm4
	jmp	.Lframes640_BB2_51
.Lframes640_BB2_47:
	movsd	.Lframes640_CPI2_51(%rip), %xmm2
	mulsd	%xmm1, %xmm2
	addsd	.Lframes640_CPI2_52(%rip), %xmm2
	movsd	.Lframes640_CPI2_53(%rip), %xmm3
	movsd	.Lframes640_CPI2_54(%rip), %xmm4
	jmp	.Lframes640_BB2_51
.Lframes640_BB2_48:
	movsd	.Lframes640_CPI2_31(%rip), %xmm2
	mulsd	%xmm1, %xmm2
	addsd	.Lframes640_CPI2_32(%rip), %xmm2
	movsd	.Lframes640_CPI2_33(%rip), %xmm3
	movsd	.Lframes640_CPI2_34(%rip), %xmm4
	jmp	.Lframes640_BB2_51
.Lframes640_BB2_49:
	movsd	.Lframes640_CPI2_27(%rip), %xmm2
	mulsd	%xmm1, %xmm2
	addsd	.Lframes640_CPI2_28(%rip), %xmm2
	movsd	.Lframes640_CPI2_29(%rip), %xmm3
	movsd	.Lframes640_CPI2_30(%rip), %xmm4
	jmp	.Lframes640_BB2_51
.Lframes640_BB2_50:
	movsd	.Lframes640_CPI2_39(%rip), %xmm2
	mulsd	%xmm1, %xmm2
	addsd	.Lframes640_CPI2_40(%rip), %xmm2
	movsd	.Lframes640_CPI2_41(%rip), %xmm3
	movsd	.Lframes640_CPI2_42(%rip), %xmm4
.Lframes640_BB2_51:
	movapd	%xmm1, %xmm5
	mulsd	%xmm1, %xmm5
	mulsd	%xmm1, %xmm3
	addsd	%xmm4, %xmm3
	mulsd	%xmm5, %xmm3
	addsd	%xmm2, %xmm3
	movl	%edx, %ecx
	shrl	$20, %ecx
	andl	$24, %ecx
	leaq	.Lframes640_switch.table.roots.fourth_roots(%rip), %r8
	mulsd	(%rcx,%r8), %xmm1
	mulsd	%xmm3, %xmm1
	mulsd	%xmm3, %xmm1
	movsd	.Lframes640_CPI2_147(%rip), %xmm4
	movapd	%xmm1, %xmm2
	addsd	%xmm4, %xmm2
	movsd	.Lframes640_CPI2_148(%rip), %xmm5
	addsd	%xmm2, %xmm5
	addsd	%xmm1, %xmm5
	leaq	.Lframes640_switch.table.roots.fourth_roots.9(%rip), %r8
	mulsd	(%rcx,%r8), %xmm3
	mulsd	%xmm5, %xmm3
	addsd	%xmm4, %xmm3
	movapd	%xmm3, %xmm1
	ucomisd	%xmm1, %xmm1
	jp	.Lframes640_BB2_63
	movq	%xmm2, %rcx
	movl	%ecx, %r8d
	movq	%xmm3, %rcx
	movl	%ecx, %ecx
	movl	%edx, %r10d
	andl	$8388607, %r10d
.Lframes640_BB2_53:
	orl	$8388608, %r10d
	movl	%edx, %r9d
	andl	$8388608, %r9d
	addl	$8388608, %r9d
	imulq	%r10, %r9
	leaq	1(%r8), %r11
	movq	%r11, %r10
	imulq	%r8, %r10
	subq	%r9, %r10
	leaq	(%r8,%r8), %rbx
	cmpq	%rbx, %r10
	jae	.Lframes640_BB2_55
	movq	%r8, %r10
	jmp	.Lframes640_BB2_57
	.p2align	4
.Lframes640_BB2_55:
	movq	%r11, %r10
	leaq	1(%r8), %rbx
	imulq	%rbx, %r8
	incq	%r11
	cmpq	%r9, %r8
	movq	%rbx, %r8
	jb	.Lframes640_BB2_55
	.p2align	4
.Lframes640_BB2_56:
	leaq	(%r9,%r10), %r8
	decq	%r8
	decq	%r10
	movq	%r10, %r11
	imulq	%r10, %r11
	cmpq	%r11, %r8
	jbe	.Lframes640_BB2_56
.Lframes640_BB2_57:
	movl	%edx, %r8d
	shrl	%r8d
	andl	$8388608, %r8d
	addl	$8388608, %r8d
	imulq	%r10, %r8
	leaq	1(%rcx), %r10
	movq	%r10, %r9
	imulq	%rcx, %r9
	subq	%r8, %r9
	leaq	(%rcx,%rcx), %r11
	cmpq	%r11, %r9
	jae	.Lframes640_BB2_59
	movq	%rcx, %r9
	jmp	.Lframes640_BB2_61
	.p2align	4
.Lframes640_BB2_59:
	movq	%r10, %r9
	leaq	1(%rcx), %r11
	imulq	%r11, %rcx
	incq	%r10
	cmpq	%r8, %rcx
	movq	%r11, %rcx
	jb	.Lframes640_BB2_59
	.p2align	4
.Lframes640_BB2_60:
	leaq	(%r8,%r9), %rcx
	decq	%rcx
	decq	%r9
	movq	%r9, %r10
	imulq	%r9, %r10
	cmpq	%r10, %rcx
	jbe	.Lframes640_BB2_60
.Lframes640_BB2_61:
	shrl	$2, %edx
	andl	$1065353216, %edx
	leal	(%rdx,%r9), %ecx
	addl	$528482304, %ecx
	movd	%ecx, %xmm1
	jmp	.Lframes640_BB2_9
.Lframes640_BB2_62:
	movd	.Lframes640_CPI2_17(%rip), %xmm1
	jmp	.Lframes640_BB2_9
.Lframes640_BB2_63:
	movl	%edx, %r10d
	andl	$8388607, %r10d
	movl	%r10d, %r8d
	shrl	%r8d
	orl	$8388608, %r8d
	movl	%r10d, %ecx
	shrl	$2, %ecx
	orl	$8388608, %ecx
	jmp	.Lframes640_BB2_53
.Lframes640_BB2_64:
	addq	$384, %rsp
	popq	%rbx
	retq
.Lframes640_func_end2:
	.size	loamchalice.frames640.roots.fourth_roots, .Lframes640_func_end2-loamchalice.frames640.roots.fourth_roots
	.section	.rodata.frames640.roots.fourth_roots,"a",@progbits
	.p2align	2, 0x0
.Lframes640_JTI2_0:
	.long	.Lframes640_BB2_19-.Lframes640_JTI2_0
	.long	.Lframes640_BB2_33-.Lframes640_JTI2_0
	.long	.Lframes640_BB2_29-.Lframes640_JTI2_0
	.long	.Lframes640_BB2_31-.Lframes640_JTI2_0
	.long	.Lframes640_BB2_24-.Lframes640_JTI2_0
	.long	.Lframes640_BB2_37-.Lframes640_JTI2_0
	.long	.Lframes640_BB2_40-.Lframes640_JTI2_0
	.long	.Lframes640_BB2_32-.Lframes640_JTI2_0
	.long	.Lframes640_BB2_43-.Lframes640_JTI2_0
	.long	.Lframes640_BB2_26-.Lframes640_JTI2_0
	.long	.Lframes640_BB2_42-.Lframes640_JTI2_0
	.long	.Lframes640_BB2_23-.Lframes640_JTI2_0
	.long	.Lframes640_BB2_25-.Lframes640_JTI2_0
	.long	.Lframes640_BB2_39-.Lframes640_JTI2_0
	.long	.Lframes640_BB2_22-.Lframes640_JTI2_0
	.long	.Lframes640_BB2_30-.Lframes640_JTI2_0
	.long	.Lframes640_BB2_21-.Lframes640_JTI2_0
	.long	.Lframes640_BB2_35-.Lframes640_JTI2_0
	.long	.Lframes640_BB2_41-.Lframes640_JTI2_0
	.long	.Lframes640_BB2_46-.Lframes640_JTI2_0
	.long	.Lframes640_BB2_36-.Lframes640_JTI2_0
	.long	.Lframes640_BB2_38-.Lframes640_JTI2_0
	.long	.Lframes640_BB2_45-.Lframes640_JTI2_0
	.long	.Lframes640_BB2_47-.Lframes640_JTI2_0
	.long	.Lframes640_BB2_28-.Lframes640_JTI2_0
	.long	.Lframes640_BB2_27-.Lframes640_JTI2_0
	.long	.Lframes640_BB2_50-.Lframes640_JTI2_0
	.long	.Lframes640_BB2_20-.Lframes640_JTI2_0
	.long	.Lframes640_BB2_48-.Lframes640_JTI2_0
	.long	.Lframes640_BB2_49-.Lframes640_JTI2_0
	.long	.Lframes640_BB2_44-.Lframes640_JTI2_0
	.long	.Lframes640_BB2_34-.Lframes640_JTI2_0

	.section	.rodata.cst16,"aM",@progbits,16
	.p2align	4, 0x0
.Lframes640_CPI3_0:
	.long	0xc3889333
	.long	0xc3889333
	.long	0xc3889333
	.long	0xc3889333
	.section	.text.frames640.pixels.degrees_block,"ax",@progbits
	.p2align	4
	.type	loamchalice.frames640.pixels.degrees_block,@function
loamchalice.frames640.pixels.degrees_block:
	pushq	%rbx
	movq	%rsi, %rbx
	callq	loamchalice.frames640.roots.fourth_roots
	movaps	.Lframes640_CPI3_0(%rip), %xmm0
	movups	(%rbx), %xmm1
	movups	16(%rbx), %xmm2
	movups	32(%rbx), %xmm3
	movups	48(%rbx), %xmm4
	addps	%xmm0, %xmm1
	movups	%xmm1, (%rbx)
	addps	%xmm0, %xmm2
	movups	%xmm2, 16(%rbx)
	addps	%xmm0, %xmm3
	movups	%xmm3, 32(%rbx)
	addps	%xmm0, %xmm4
	movups	%xmm4, 48(%rbx)
	movups	64(%rbx), %xmm1
	addps	%xmm0, %xmm1
	movups	%xmm1, 64(%rbx)
	movups	80(%rbx), %xmm1
	addps	%xmm0, %xmm1
	movups	%xmm1, 80(%rbx)
	movups	96(%rbx), %xmm1
	addps	%xmm0, %xmm1
	movups	%xmm1, 96(%rbx)
	movups	112(%rbx), %xmm1
	addps	%xmm0, %xmm1
	movups	%xmm1, 112(%rbx)
	popq	%rbx
	retq
.Lframes640_func_end3:
	.size	loamchalice.frames640.pixels.degrees_block, .Lframes640_func_end3-loamchalice.frames640.pixels.degrees_block

	.section	.rodata.cst4,"aM",@progbits,4
	.p2align	2, 0x0
.Lframes640_CPI4_0:
	.long	0x3f800000
.Lframes640_CPI4_1:
	.long	0x48800000
.Lframes640_CPI4_5:
	.long	0x43889333
.Lframes640_CPI4_6:
	.long	0xc1c80000
.Lframes640_CPI4_7:
	.long	0xc3889333
	.section	.rodata.cst16,"aM",@progbits,16
	.p2align	4, 0x0
.Lframes640_CPI4_2:
	.zero	4
	.long	0x41c80000
	.zero	4
	.zero	4
.Lframes640_CPI4_3:
	.long	0xc0533333
	.long	0xc1c80000
	.zero	4
	.zero	4
.Lframes640_CPI4_4:
	.long	0x3f800000
	.long	0x3f800000
	.zero	4
	.zero	4
.Lframes640_CPI4_8:
	.long	0xc0533333
	.long	0xc1c80000
	.long	0x00000000
	.long	0x00000000
	.section	.text.frames640.frames640.from_pixels,"ax",@progbits
	.p2align	4
	.type	loamchalice.frames640.frames640.from_pixels,@function
loamchalice.frames640.frames640.from_pixels:
	pushq	%rbp
	pushq	%r15
	pushq	%r14
	pushq	%r13
	pushq	%r12
	pushq	%rbx
	subq	$904, %rsp
	movq	%r9, 80(%rsp)
	movq	%r8, 216(%rsp)
	movl	%ecx, %r13d
	movzwl	(%rsi), %eax
	movw	%ax, 32(%rsp)
	movswl	2(%rsi), %eax
	movl	%eax, 48(%rsp)
	movss	8(%rsi), %xmm9
	movss	12(%rsi), %xmm8
	movss	16(%rsi), %xmm10
	movss	20(%rsi), %xmm14
	movss	24(%rsi), %xmm3
	movss	28(%rsi), %xmm1
	movss	%xmm1, 28(%rsp)
	movq	32(%rsi), %r11
	movss	72(%rsi), %xmm4
	movss	76(%rsi), %xmm15
	movsd	84(%rsi), %xmm7
	movzbl	92(%rsi), %ecx
	movss	96(%rsi), %xmm5
	movss	140(%rsi), %xmm2
	movss	(%rdx), %xmm1
	movss	%xmm1, 16(%rsp)
	movss	4(%rdx), %xmm11
	movss	8(%rdx), %xmm12
	movq	16(%rdx), %rax
	movq	%rax, 64(%rsp)
	movzbl	24(%rdx), %eax
	movb	%al, 15(%rsp)
	movss	28(%rdx), %xmm6
	movzwl	32(%rdx), %eax
	movw	%ax, 26(%rsp)
	movzwl	34(%rdx), %eax
	movw	%ax, 24(%rsp)
	movswl	36(%rdx), %r9d
	movzbl	42(%rdx), %r10d
	movzbl	43(%rdx), %r8d
	movzwl	38(%rdx), %eax
	movw	%ax, 20(%rsp)
	movzwl	80(%rsi), %ebp
	movzwl	82(%rsi), %r15d
	movq	$0, 88(%rsp)
	movups	100(%rsi), %xmm1
	movaps	%xmm1, 96(%rsp)
	xorps	%xmm1, %xmm1
	movaps	%xmm1, 640(%rsp)
	movaps	%xmm1, 656(%rsp)
	movaps	%xmm1, 672(%rsp)
	movaps	%xmm1, 688(%rsp)
	movaps	%xmm1, 704(%rsp)
	movaps	%xmm1, 720(%rsp)
	movaps	%xmm1, 736(%rsp)
	movaps	%xmm1, 752(%rsp)
	movaps	%xmm1, 768(%rsp)
	movaps	%xmm1, 784(%rsp)
	movaps	%xmm1, 800(%rsp)
	movaps	%xmm1, 816(%rsp)
	movaps	%xmm1, 832(%rsp)
	movaps	%xmm1, 848(%rsp)
	movaps	%xmm1, 864(%rsp)
	movaps	%xmm1, 880(%rsp)
	leaq	40(%rsi), %r12
	leaq	56(%rsi), %rbx
	addq	$116, %rsi
	movq	1032(%rsp), %rax
	movabsq	$1152921504606846972, %rdx
	movb	%cl, 14(%rsp)
	movzbl	%cl, %ecx
	movl	%ecx, 76(%rsp)
	xorl	%r14d, %r14d
	.p2align	4
.Lframes640_BB4_1:
	movq	%r14, %rcx
	shrq	$3, %rcx
	andq	%rdx, %rcx
	movss	96(%rsp,%rcx), %xmm1
	movss	104(%rsp,%rcx), %xmm13
	movss	%xmm1, 640(%rsp,%r14,4)
	movss	%xmm13, 644(%rsp,%r14,4)
	addq	$2, %r14
	cmpq	$64, %r14
	jne	.Lframes640_BB4_1
	xorps	%xmm13, %xmm13
	xorps	%xmm1, %xmm1
	testb	%r8b, %r8b
	je	.Lframes640_BB4_3
	movaps	%xmm2, %xmm1
	testb	%r10b, %r10b
	jne	.Lframes640_BB4_14
.Lframes640_BB4_4:
	cmovel	%ebp, %r15d
	je	.Lframes640_BB4_6
.Lframes640_BB4_5:
	movaps	%xmm1, %xmm13
.Lframes640_BB4_6:
	movq	984(%rsp), %rbp
	movq	80(%rsp), %rcx
	cmpq	%rbp, %rcx
	cmovbq	%rcx, %rbp
	xorps	%xmm1, %xmm1
	movaps	%xmm1, 368(%rsp)
	movaps	%xmm1, 384(%rsp)
	movaps	%xmm1, 400(%rsp)
	movaps	%xmm1, 416(%rsp)
	movaps	%xmm1, 432(%rsp)
	movaps	%xmm1, 448(%rsp)
	movaps	%xmm1, 464(%rsp)
	movaps	%xmm1, 480(%rsp)
	movaps	%xmm1, 496(%rsp)
	movaps	%xmm1, 512(%rsp)
	movaps	%xmm1, 528(%rsp)
	movaps	%xmm1, 544(%rsp)
	movaps	%xmm1, 560(%rsp)
	movaps	%xmm1, 576(%rsp)
	movaps	%xmm1, 592(%rsp)
	movaps	%xmm1, 608(%rsp)
	testb	%r8b, %r8b
	je	.Lframes640_BB4_15
	xorl	%r8d, %r8d
	jmp	.Lframes640_BB4_10
	.p2align	4
.Lframes640_BB4_8:
	addq	$2, %r10
.Lframes640_BB4_9:
	movss	96(%rsp,%r10,4), %xmm1
	movss	%xmm1, 368(%rsp,%r8,4)
	incq	%r8
	cmpq	$64, %r8
	je	.Lframes640_BB4_16
.Lframes640_BB4_10:
	movq	16(%rsi), %rcx
	movq	%rcx, 112(%rsp)
	movups	(%rsi), %xmm1
	movaps	%xmm1, 96(%rsp)
	movq	%r8, %rcx
	shrq	$5, %rcx
	leaq	(%rcx,%rcx,2), %r10
	movl	%r8d, %ecx
	andl	$3, %ecx
	cmpq	$3, %rcx
	je	.Lframes640_BB4_8
	cmpl	$1, %ecx
	jne	.Lframes640_BB4_9
	incq	%r10
	jmp	.Lframes640_BB4_9
.Lframes640_BB4_3:
	testb	%r10b, %r10b
	je	.Lframes640_BB4_4
.Lframes640_BB4_14:
	movaps	%xmm15, %xmm4
	cmovel	%ebp, %r15d
	jne	.Lframes640_BB4_5
	jmp	.Lframes640_BB4_6
.Lframes640_BB4_15:
	movaps	%xmm1, 608(%rsp)
	movaps	%xmm1, 592(%rsp)
	movaps	%xmm1, 576(%rsp)
	movaps	%xmm1, 560(%rsp)
	movaps	%xmm1, 544(%rsp)
	movaps	%xmm1, 528(%rsp)
	movaps	%xmm1, 512(%rsp)
	movaps	%xmm1, 496(%rsp)
	movaps	%xmm1, 480(%rsp)
	movaps	%xmm1, 464(%rsp)
	movaps	%xmm1, 448(%rsp)
	movaps	%xmm1, 432(%rsp)
	movaps	%xmm1, 416(%rsp)
	movaps	%xmm1, 400(%rsp)
	movaps	%xmm1, 384(%rsp)
	movaps	%xmm1, 368(%rsp)
.Lframes640_BB4_16:
	movq	%r11, 88(%rsp)
	movups	(%r12), %xmm1
	movaps	%xmm1, 192(%rsp)
	movups	(%rbx), %xmm1
	movaps	%xmm1, 624(%rsp)
	movq	$0, 176(%rsp)
	movl	%r13d, %r8d
	movzbl	%r8b, %esi
	cmpb	$2, %sil
	je	.Lframes640_BB4_21
	cmpl	$1, %esi
	jne	.Lframes640_BB4_24
	movq	968(%rsp), %rcx
	cmpq	%rbp, %rcx
	cmovbq	%rcx, %rbp
	movl	$1, %r12d
	cmpq	$768, %rbp
	jb	.Lframes640_BB4_25
	movl	$11, %ebx
	movq	1000(%rsp), %rdx
	cmpq	$1536, %rdx
	jb	.Lframes640_BB4_29
	cmpq	$768, %rax
	jb	.Lframes640_BB4_27
	movq	1016(%rsp), %rax
	cmpq	$768, %rax
	jb	.Lframes640_BB4_27
	movl	$6, %ebx
	movq	64(%rsp), %rax
	cmpq	$3, %rax
	ja	.Lframes640_BB4_27
	subl	48(%rsp), %r9d
	movswl	%r9w, %eax
	cmpl	%r9d, %eax
	jne	.Lframes640_BB4_45
	movswl	32(%rsp), %eax
	cvtsi2ss	%eax, %xmm15
	xorps	%xmm1, %xmm1
	movl	$8, %ebx
	ucomiss	%xmm1, %xmm15
	jne	.Lframes640_BB4_52
	jnp	.Lframes640_BB4_26
.Lframes640_BB4_52:
	movswl	20(%rsp), %eax
	cvtsi2ss	%eax, %xmm2
	xorl	%eax, %eax
	ucomiss	%xmm1, %xmm2
	jne	.Lframes640_BB4_53
	jnp	.Lframes640_BB4_27
.Lframes640_BB4_53:
	movss	%xmm2, 48(%rsp)
	movaps	%xmm8, %xmm2
	ucomiss	%xmm1, %xmm2
	jne	.Lframes640_BB4_54
	jnp	.Lframes640_BB4_27
.Lframes640_BB4_54:
	xorps	%xmm2, %xmm2
	cvtsi2ss	%r9d, %xmm2
	divss	%xmm15, %xmm2
	movaps	%xmm2, %xmm15
	mulss	%xmm2, %xmm9
	addss	.Lframes640_CPI4_0(%rip), %xmm9
	movaps	%xmm9, %xmm2
	ucomiss	%xmm1, %xmm2
	jne	.Lframes640_BB4_62
	jnp	.Lframes640_BB4_26
.Lframes640_BB4_62:
	movss	%xmm15, 20(%rsp)
	movswl	24(%rsp), %eax
	xorps	%xmm2, %xmm2
	cvtsi2ss	%eax, %xmm2
	movaps	%xmm2, 32(%rsp)
	mulss	%xmm2, %xmm14
	movswl	26(%rsp), %eax
	xorps	%xmm15, %xmm15
	cvtsi2ss	%eax, %xmm15
	addss	%xmm14, %xmm15
	movaps	%xmm15, %xmm2
	ucomiss	%xmm1, %xmm2
	jne	.Lframes640_BB4_68
	jnp	.Lframes640_BB4_26
.Lframes640_BB4_68:
	movss	16(%rsp), %xmm2
	xorl	%eax, %eax
	ucomiss	%xmm1, %xmm2
	jne	.Lframes640_BB4_69
	jnp	.Lframes640_BB4_27
.Lframes640_BB4_69:
	movaps	%xmm15, %xmm14
	ucomiss	%xmm2, %xmm2
	movaps	32(%rsp), %xmm1
	jnp	.Lframes640_BB4_70
	jmp	.Lframes640_BB4_27
.Lframes640_BB4_21:
	movq	968(%rsp), %rcx
	cmpq	%rbp, %rcx
	cmovbq	%rcx, %rbp
	movl	$1, %r12d
	cmpq	$768, %rbp
	jb	.Lframes640_BB4_25
	movl	$11, %ebx
	movq	1000(%rsp), %rcx
	cmpq	$1536, %rcx
	jae	.Lframes640_BB4_36
	movq	%rcx, %rax
	jmp	.Lframes640_BB4_27
.Lframes640_BB4_24:
	movl	$1, %r12d
	cmpq	$768, %rbp
	jae	.Lframes640_BB4_28
.Lframes640_BB4_25:
	movl	$2, %ebx
.Lframes640_BB4_26:
	xorl	%eax, %eax
	jmp	.Lframes640_BB4_27
.Lframes640_BB4_28:
	movl	$11, %ebx
	movq	1000(%rsp), %rdx
	cmpq	$1536, %rdx
	jae	.Lframes640_BB4_42
.Lframes640_BB4_29:
	movq	%rdx, %rax
.Lframes640_BB4_27:
	movq	%r12, (%rdi)
	movl	%ebx, 8(%rdi)
	movl	$0, 12(%rdi)
	movq	%rax, 16(%rdi)
	movw	$0, 24(%rdi)
	addq	$904, %rsp
	popq	%rbx
	popq	%r12
	popq	%r13
	popq	%r14
	popq	%r15
	popq	%rbp
	retq
.Lframes640_BB4_36:
	cmpq	$768, %rax
	jb	.Lframes640_BB4_27
	movq	1016(%rsp), %rax
	cmpq	$768, %rax
	jb	.Lframes640_BB4_27
	movl	$6, %ebx
	movq	64(%rsp), %rax
	cmpq	$3, %rax
	ja	.Lframes640_BB4_27
	subl	48(%rsp), %r9d
	movswl	%r9w, %eax
	cmpl	%r9d, %eax
	jne	.Lframes640_BB4_45
	movswl	32(%rsp), %eax
	cvtsi2ss	%eax, %xmm15
	xorps	%xmm1, %xmm1
	movl	$8, %ebx
	ucomiss	%xmm1, %xmm15
	jne	.Lframes640_BB4_56
	jnp	.Lframes640_BB4_26
.Lframes640_BB4_56:
	movswl	20(%rsp), %eax
	cvtsi2ss	%eax, %xmm2
	xorl	%eax, %eax
	ucomiss	%xmm1, %xmm2
	jne	.Lframes640_BB4_57
	jnp	.Lframes640_BB4_27
.Lframes640_BB4_57:
	movss	%xmm2, 48(%rsp)
	movaps	%xmm8, %xmm2
	ucomiss	%xmm1, %xmm2
	jne	.Lframes640_BB4_58
	jnp	.Lframes640_BB4_27
.Lframes640_BB4_58:
	xorps	%xmm2, %xmm2
	cvtsi2ss	%r9d, %xmm2
	divss	%xmm15, %xmm2
	movaps	%xmm2, %xmm15
	mulss	%xmm2, %xmm9
	addss	.Lframes640_CPI4_0(%rip), %xmm9
	movaps	%xmm9, %xmm2
	ucomiss	%xmm1, %xmm2
	jne	.Lframes640_BB4_64
	jnp	.Lframes640_BB4_26
.Lframes640_BB4_64:
	movswl	24(%rsp), %eax
	xorps	%xmm2, %xmm2
	cvtsi2ss	%eax, %xmm2
	movaps	%xmm2, 32(%rsp)
	mulss	%xmm2, %xmm14
	movswl	26(%rsp), %eax
	xorps	%xmm2, %xmm2
	cvtsi2ss	%eax, %xmm2
	addss	%xmm14, %xmm2
	movaps	%xmm2, %xmm14
	ucomiss	%xmm1, %xmm2
	jne	.Lframes640_BB4_81
	jnp	.Lframes640_BB4_26
.Lframes640_BB4_81:
	movss	16(%rsp), %xmm2
	xorl	%eax, %eax
	ucomiss	%xmm1, %xmm2
	jne	.Lframes640_BB4_82
	jnp	.Lframes640_BB4_27
.Lframes640_BB4_82:
	ucomiss	%xmm2, %xmm2
	jp	.Lframes640_BB4_27
	movl	%r11d, %ecx
	shrl	$16, %ecx
	movl	$13, %ebx
	cmpw	%r11w, %cx
	jle	.Lframes640_BB4_95
	movq	%r11, %rdx
	shrq	$32, %rdx
	movl	$2, %eax
	cmpw	%cx, %dx
	jle	.Lframes640_BB4_27
	shrq	$48, %r11
	movl	$3, %eax
	cmpw	%dx, %r11w
	movq	1000(%rsp), %rdx
	movl	%r13d, %r8d
	movss	%xmm15, 20(%rsp)
	movaps	32(%rsp), %xmm1
	jle	.Lframes640_BB4_27
	jmp	.Lframes640_BB4_70
.Lframes640_BB4_42:
	cmpq	$768, %rax
	jb	.Lframes640_BB4_27
	movq	1016(%rsp), %rax
	cmpq	$768, %rax
	jb	.Lframes640_BB4_27
	subl	48(%rsp), %r9d
	movswl	%r9w, %eax
	cmpl	%r9d, %eax
	je	.Lframes640_BB4_46
.Lframes640_BB4_45:
	movl	$7, %ebx
	jmp	.Lframes640_BB4_26
.Lframes640_BB4_46:
	movswl	32(%rsp), %eax
	cvtsi2ss	%eax, %xmm15
	xorps	%xmm1, %xmm1
	movl	$8, %ebx
	ucomiss	%xmm1, %xmm15
	jne	.Lframes640_BB4_48
	jnp	.Lframes640_BB4_26
.Lframes640_BB4_48:
	movswl	20(%rsp), %eax
	cvtsi2ss	%eax, %xmm2
	xorl	%eax, %eax
	ucomiss	%xmm1, %xmm2
	jne	.Lframes640_BB4_49
	jnp	.Lframes640_BB4_27
.Lframes640_BB4_49:
	movss	%xmm2, 48(%rsp)
	movaps	%xmm8, %xmm2
	ucomiss	%xmm1, %xmm2
	jne	.Lframes640_BB4_50
	jnp	.Lframes640_BB4_27
.Lframes640_BB4_50:
	xorps	%xmm2, %xmm2
	cvtsi2ss	%r9d, %xmm2
	divss	%xmm15, %xmm2
	movaps	%xmm2, %xmm15
	mulss	%xmm2, %xmm9
	addss	.Lframes640_CPI4_0(%rip), %xmm9
	movaps	%xmm9, %xmm2
	ucomiss	%xmm1, %xmm2
	jne	.Lframes640_BB4_60
	jnp	.Lframes640_BB4_26
.Lframes640_BB4_60:
	movss	%xmm15, 20(%rsp)
	movswl	24(%rsp), %eax
	xorps	%xmm2, %xmm2
	cvtsi2ss	%eax, %xmm2
	movaps	%xmm2, 32(%rsp)
	mulss	%xmm2, %xmm14
	movswl	26(%rsp), %eax
	xorps	%xmm15, %xmm15
	cvtsi2ss	%eax, %xmm15
	addss	%xmm14, %xmm15
	movaps	%xmm15, %xmm2
	ucomiss	%xmm1, %xmm2
	jne	.Lframes640_BB4_66
	jnp	.Lframes640_BB4_26
.Lframes640_BB4_66:
	movaps	%xmm15, %xmm14
	movaps	32(%rsp), %xmm15
	movss	16(%rsp), %xmm2
	xorl	%eax, %eax
	ucomiss	%xmm1, %xmm2
	jne	.Lframes640_BB4_67
	jnp	.Lframes640_BB4_27
.Lframes640_BB4_67:
	ucomiss	%xmm2, %xmm2
	movaps	%xmm15, %xmm1
	jp	.Lframes640_BB4_27
.Lframes640_BB4_70:
	divss	%xmm14, %xmm1
	mulss	.Lframes640_CPI4_1(%rip), %xmm1
	divss	48(%rsp), %xmm3
	divss	%xmm9, %xmm1
	subss	%xmm10, %xmm1
	mulss	20(%rsp), %xmm11
	divss	%xmm8, %xmm1
	unpcklps	%xmm1, %xmm11
	movaps	.Lframes640_CPI4_2(%rip), %xmm8
	movss	%xmm12, %xmm8
	addps	%xmm11, %xmm8
	xorps	%xmm10, %xmm10
	xorps	%xmm9, %xmm9
	cmpb	$1, 14(%rsp)
	movss	16(%rsp), %xmm2
	jne	.Lframes640_BB4_72
	movswl	%r15w, %eax
	xorps	%xmm1, %xmm1
	cvtsi2ss	%eax, %xmm1
	mulss	%xmm3, %xmm0
	addss	%xmm0, %xmm13
	movsd	.Lframes640_CPI4_8(%rip), %xmm0
	addps	%xmm8, %xmm0
	mulps	%xmm0, %xmm7
	addps	.Lframes640_CPI4_4(%rip), %xmm7
	movaps	%xmm7, %xmm0
	shufps	$85, %xmm7, %xmm0
	mulss	%xmm1, %xmm0
	mulss	%xmm7, %xmm0
	subss	%xmm0, %xmm13
	divss	%xmm2, %xmm13
	mulss	%xmm5, %xmm13
	movaps	%xmm13, %xmm9
.Lframes640_BB4_72:
	movq	%rdi, %r14
	movaps	%xmm8, %xmm0
	shufps	$85, %xmm8, %xmm0
	movaps	%xmm0, %xmm12
	xorps	%xmm1, %xmm1
	xorps	%xmm0, %xmm0
	xorps	%xmm7, %xmm7
	xorps	%xmm11, %xmm11
	movl	%esi, %eax
	testb	%r8b, %r8b
	je	.Lframes640_BB4_94
	movss	.Lframes640_CPI4_5(%rip), %xmm0
	cmpl	$2, %esi
	jne	.Lframes640_BB4_86
	addss	%xmm12, %xmm0
	mulss	%xmm0, %xmm0
	mulss	%xmm0, %xmm0
	movss	.Lframes640_CPI4_0(%rip), %xmm1
	movaps	%xmm1, %xmm7
	ucomiss	%xmm7, %xmm2
	jne	.Lframes640_BB4_75
	jnp	.Lframes640_BB4_78
.Lframes640_BB4_75:
	cmpb	$0, 15(%rsp)
	je	.Lframes640_BB4_77
	movaps	%xmm12, %xmm2
	subss	%xmm6, %xmm2
	movaps	%xmm2, %xmm6
.Lframes640_BB4_77:
	addss	.Lframes640_CPI4_5(%rip), %xmm6
	mulss	%xmm6, %xmm6
	mulss	%xmm6, %xmm6
	movaps	%xmm6, %xmm2
	subss	%xmm0, %xmm2
	divss	16(%rsp), %xmm2
	subss	%xmm2, %xmm6
	movaps	%xmm6, %xmm0
.Lframes640_BB4_78:
	movq	64(%rsp), %rax
	movss	192(%rsp,%rax,4), %xmm7
	movss	.Lframes640_CPI4_6(%rip), %xmm2
	addss	%xmm12, %xmm2
	movss	28(%rsp), %xmm6
	mulss	%xmm2, %xmm6
	movss	%xmm6, 28(%rsp)
	cmpb	$1, 14(%rsp)
	jne	.Lframes640_BB4_80
	mulss	%xmm4, %xmm5
	movaps	%xmm5, %xmm10
.Lframes640_BB4_80:
	movss	28(%rsp), %xmm2
	addss	%xmm1, %xmm2
	movss	.Lframes640_CPI4_7(%rip), %xmm11
	mulss	%xmm7, %xmm11
	addss	%xmm1, %xmm11
	movl	$4, %eax
	jmp	.Lframes640_BB4_93
.Lframes640_BB4_86:
	addss	%xmm12, %xmm0
	mulss	%xmm0, %xmm0
	mulss	%xmm0, %xmm0
	movss	.Lframes640_CPI4_0(%rip), %xmm1
	movaps	%xmm1, %xmm7
	ucomiss	%xmm7, %xmm2
	jne	.Lframes640_BB4_87
	jnp	.Lframes640_BB4_90
.Lframes640_BB4_87:
	cmpb	$0, 15(%rsp)
	je	.Lframes640_BB4_89
	movaps	%xmm12, %xmm2
	subss	%xmm6, %xmm2
	movaps	%xmm2, %xmm6
.Lframes640_BB4_89:
	addss	.Lframes640_CPI4_5(%rip), %xmm6
	mulss	%xmm6, %xmm6
	mulss	%xmm6, %xmm6
	movaps	%xmm6, %xmm2
	subss	%xmm0, %xmm2
	divss	16(%rsp), %xmm2
	subss	%xmm2, %xmm6
	movaps	%xmm6, %xmm0
.Lframes640_BB4_90:
	movq	64(%rsp), %rax
	movss	192(%rsp,%rax,4), %xmm7
	movss	.Lframes640_CPI4_6(%rip), %xmm2
	addss	%xmm12, %xmm2
	movss	28(%rsp), %xmm6
	mulss	%xmm2, %xmm6
	movss	%xmm6, 28(%rsp)
	cmpb	$1, 14(%rsp)
	jne	.Lframes640_BB4_92
	mulss	%xmm4, %xmm5
	movaps	%xmm5, %xmm10
.Lframes640_BB4_92:
	movss	28(%rsp), %xmm2
	addss	%xmm1, %xmm2
	movss	.Lframes640_CPI4_7(%rip), %xmm11
	mulss	%xmm7, %xmm11
	addss	%xmm1, %xmm11
	xorl	%eax, %eax
.Lframes640_BB4_93:
	movzbl	14(%rsp), %ecx
	movl	%ecx, %r8d
	movaps	%xmm2, %xmm1
	movss	16(%rsp), %xmm2
.Lframes640_BB4_94:
	movzbl	%r8b, %ecx
	movq	$24, 96(%rsp)
	movq	$2, 104(%rsp)
	movq	$2, 112(%rsp)
	movl	$0, 120(%rsp)
	movss	%xmm3, 124(%rsp)
	movss	%xmm8, 128(%rsp)
	movss	%xmm2, 132(%rsp)
	movaps	%xmm12, 48(%rsp)
	movss	%xmm12, 136(%rsp)
	movl	76(%rsp), %edi
	movl	%edi, 140(%rsp)
	movss	%xmm9, 144(%rsp)
	movl	%esi, 148(%rsp)
	movl	%ecx, 152(%rsp)
	movss	%xmm10, 156(%rsp)
	movss	%xmm1, 160(%rsp)
	movss	%xmm0, 164(%rsp)
	movss	%xmm7, 168(%rsp)
	movss	%xmm11, 172(%rsp)
	movl	%eax, 176(%rsp)
	movq	992(%rsp), %rax
	movq	%rax, 288(%rsp)
	movq	%rdx, 296(%rsp)
	movq	216(%rsp), %rax
	movq	%rax, 304(%rsp)
	movq	80(%rsp), %rax
	movq	%rax, 312(%rsp)
	movq	976(%rsp), %rax
	movq	%rax, 320(%rsp)
	movq	984(%rsp), %rax
	movq	%rax, 328(%rsp)
	leaq	640(%rsp), %rax
	movq	%rax, 336(%rsp)
	movq	$64, 344(%rsp)
	leaq	368(%rsp), %rax
	movq	%rax, 352(%rsp)
	movq	$64, 360(%rsp)
	movq	960(%rsp), %rax
	movq	%rax, 224(%rsp)
	movq	968(%rsp), %rax
	movq	%rax, 232(%rsp)
	leaq	88(%rsp), %rax
	movq	%rax, 240(%rsp)
	movq	$4, 248(%rsp)
	leaq	192(%rsp), %rax
	movq	%rax, 256(%rsp)
	movq	$4, 264(%rsp)
	leaq	624(%rsp), %rax
	movq	%rax, 272(%rsp)
	movq	$4, 280(%rsp)
	leaq	96(%rsp), %rdi
	leaq	288(%rsp), %rdx
	leaq	224(%rsp), %rcx
	movq	1008(%rsp), %rsi
	movq	1024(%rsp), %r8
	callq	loamchalice.frames640.pixels.frame_pixels
	movdqa	48(%rsp), %xmm0
	movd	%xmm0, %ecx
	ucomiss	%xmm0, %xmm0
	movl	$2143289344, %ebx
	cmovnpl	%ecx, %ebx
	xorl	%r12d, %r12d
	movq	%r14, %rdi
	jmp	.Lframes640_BB4_27
.Lframes640_BB4_95:
	movl	$1, %eax
	jmp	.Lframes640_BB4_27
.Lframes640_func_end4:
	.size	loamchalice.frames640.frames640.from_pixels, .Lframes640_func_end4-loamchalice.frames640.frames640.from_pixels

	.section	.rodata.cst4,"aM",@progbits,4
	.p2align	2, 0x0
.Lframes640_CPI5_0:
	.long	0x43889333
.Lframes640_CPI5_1:
	.long	0x3f800000
.Lframes640_CPI5_2:
	.long	0xc1c80000
.Lframes640_CPI5_3:
	.long	0xc3889333
	.section	.text.loamchalice_mlx90640_raw_ir_to_temperatures,"ax",@progbits
	.globl	loamchalice_mlx90640_raw_ir_to_temperatures
	.p2align	4
	.type	loamchalice_mlx90640_raw_ir_to_temperatures,@function
loamchalice_mlx90640_raw_ir_to_temperatures:
	pushq	%rbp
	pushq	%r15
	pushq	%r14
	pushq	%r13
	pushq	%r12
	pushq	%rbx
	subq	$264, %rsp
	movq	%r9, %rbx
	movq	496(%rsp), %rax
	testq	%rdx, %rdx
	sete	%r10b
	xorl	%r14d, %r14d
	testq	%r8, %r8
	sete	%r13b
	xorl	%r15d, %r15d
	testq	%rax, %rax
	sete	%r12b
	movzbl	457(%rsp), %r11d
	testb	%r11b, %r11b
	setne	5(%rsp)
	xorl	%r9d, %r9d
	testb	%sil, %sil
	movss	340(%rsp), %xmm2
	movss	352(%rsp), %xmm10
	setne	%r9b
	movss	360(%rsp,%r9,4), %xmm1
	movq	464(%rsp), %r9
	movss	472(%rsp), %xmm3
	movss	484(%rsp), %xmm6
	movss	488(%rsp), %xmm4
	movzbl	492(%rsp), %ebp
	movaps	368(%rsp), %xmm5
	movaps	%xmm5, 16(%rsp)
	movq	$0, 112(%rsp)
	cmpq	$768, %rcx
	jae	.Lframes640_BB5_1
	xorl	%r9d, %r9d
	movl	$2, %ecx
	xorl	%eax, %eax
	jmp	.Lframes640_BB5_20
.Lframes640_BB5_1:
	movq	504(%rsp), %rsi
	cmpq	$768, %rsi
	jb	.Lframes640_BB5_19
	movq	%rbx, %rsi
	cmpq	$768, %rbx
	jae	.Lframes640_BB5_3
.Lframes640_BB5_19:
	xorl	%eax, %eax
	movl	$10, %ecx
	movq	%rsi, %r9
.Lframes640_BB5_20:
	xorl	%edx, %edx
.Lframes640_BB5_21:
	movq	%rcx, (%rdi)
	movq	%r9, 8(%rdi)
	movq	$0, 16(%rdi)
	movq	%rax, 24(%rdi)
	movl	%edx, 32(%rdi)
	movl	$0, 36(%rdi)
	movq	%rdi, %rax
	addq	$264, %rsp
	popq	%rbx
	popq	%r12
	popq	%r13
	popq	%r14
	popq	%r15
	popq	%rbp
	retq
.Lframes640_BB5_3:
	cmpq	$3, %r9
	ja	.Lframes640_BB5_17
	movaps	%xmm3, %xmm8
	xorps	%xmm5, %xmm5
	ucomiss	%xmm5, %xmm8
	jne	.Lframes640_BB5_5
	jnp	.Lframes640_BB5_18
.Lframes640_BB5_5:
	ucomiss	%xmm8, %xmm8
	jp	.Lframes640_BB5_18
	xorl	%ebx, %ebx
	movb	%r10b, %bl
	shll	$12, %ebx
	movb	%r13b, %r14b
	shll	$12, %r14d
	movb	%r12b, %r15b
	shll	$12, %r15d
	movss	.Lframes640_CPI5_0(%rip), %xmm5
	addss	%xmm0, %xmm5
	mulss	%xmm5, %xmm5
	mulss	%xmm5, %xmm5
	movss	.Lframes640_CPI5_1(%rip), %xmm7
	movaps	%xmm7, %xmm9
	ucomiss	%xmm9, %xmm8
	jne	.Lframes640_BB5_8
	jp	.Lframes640_BB5_8
	xorl	%r10d, %r10d
	jmp	.Lframes640_BB5_11
.Lframes640_BB5_17:
	xorl	%eax, %eax
	movl	$6, %ecx
	jmp	.Lframes640_BB5_20
.Lframes640_BB5_18:
	xorl	%r9d, %r9d
	movl	$8, %ecx
	xorl	%eax, %eax
	jmp	.Lframes640_BB5_20
.Lframes640_BB5_8:
	testb	%bpl, %bpl
	movl	$0, %r10d
	jne	.Lframes640_BB5_10
	movaps	%xmm0, %xmm4
	subss	%xmm6, %xmm4
.Lframes640_BB5_10:
	addss	.Lframes640_CPI5_0(%rip), %xmm4
	mulss	%xmm4, %xmm4
	mulss	%xmm4, %xmm4
	movaps	%xmm4, %xmm6
	subss	%xmm5, %xmm6
	divss	%xmm3, %xmm6
	subss	%xmm6, %xmm4
	movaps	%xmm4, %xmm5
.Lframes640_BB5_11:
	addq	%rbx, %rdx
	addq	%r14, %r8
	addq	%r15, %rax
	movzbl	5(%rsp), %ebx
	movb	%bl, %r10b
	movss	16(%rsp,%r9,4), %xmm3
	movss	.Lframes640_CPI5_2(%rip), %xmm4
	addss	%xmm0, %xmm4
	mulss	%xmm2, %xmm4
	addss	%xmm7, %xmm4
	testb	%r11b, %r11b
	movss	%xmm0, 8(%rsp)
	movq	%rdi, %rbx
	jne	.Lframes640_BB5_12
	xorps	%xmm10, %xmm10
	jmp	.Lframes640_BB5_14
.Lframes640_BB5_12:
	mulss	%xmm1, %xmm10
.Lframes640_BB5_14:
	movss	.Lframes640_CPI5_3(%rip), %xmm1
	mulss	%xmm3, %xmm1
	addss	%xmm7, %xmm1
	movq	$24, 32(%rsp)
	xorps	%xmm2, %xmm2
	movups	%xmm2, 40(%rsp)
	movl	$1, 56(%rsp)
	movups	%xmm2, 60(%rsp)
	movq	$0, 76(%rsp)
	movl	$1, 84(%rsp)
	movl	%r10d, 88(%rsp)
	movss	%xmm10, 92(%rsp)
	movss	%xmm4, 96(%rsp)
	movss	%xmm5, 100(%rsp)
	movss	%xmm3, 104(%rsp)
	movss	%xmm1, 108(%rsp)
	movl	$0, 12(%rsp)
	movw	$0, 6(%rsp)
	movq	%r8, 184(%rsp)
	movq	%rsi, 192(%rsp)
	leaq	12(%rsp), %rsi
	movq	%rsi, 200(%rsp)
	movq	$1, 208(%rsp)
	movq	%rdx, 216(%rsp)
	movq	%rcx, 224(%rsp)
	movq	%rdx, 232(%rsp)
	movq	%rcx, 240(%rsp)
	movq	%rdx, 248(%rsp)
	movq	%rcx, 256(%rsp)
	movq	%rdx, 120(%rsp)
	movq	%rcx, 128(%rsp)
	leaq	6(%rsp), %rcx
	movq	%rcx, 136(%rsp)
	movq	$1, 144(%rsp)
	leaq	16(%rsp), %rcx
	movq	%rcx, 152(%rsp)
	movq	$4, 160(%rsp)
	movq	%rcx, 168(%rsp)
	movq	$4, 176(%rsp)
	leaq	32(%rsp), %rdi
	leaq	184(%rsp), %rdx
	leaq	120(%rsp), %rcx
	movq	%r8, %rsi
	movq	%rax, %r8
	callq	loamchalice.frames640.pixels.frame_pixels
	movd	8(%rsp), %xmm0
	movd	%xmm0, %ecx
	ucomiss	%xmm0, %xmm0
	movl	$2143289344, %edx
	cmovnpl	%ecx, %edx
	xorl	%ecx, %ecx
	xorl	%r9d, %r9d
	movq	%rbx, %rdi
	jmp	.Lframes640_BB5_21
.Lframes640_func_end5:
	.size	loamchalice_mlx90640_raw_ir_to_temperatures, .Lframes640_func_end5-loamchalice_mlx90640_raw_ir_to_temperatures

	.section	.text.loamchalice_mlx90640_raw_pixels_to_ir_data,"ax",@progbits
	.globl	loamchalice_mlx90640_raw_pixels_to_ir_data
	.p2align	4
	.type	loamchalice_mlx90640_raw_pixels_to_ir_data,@function
loamchalice_mlx90640_raw_pixels_to_ir_data:
	pushq	%rbp
	pushq	%r15
	pushq	%r14
	pushq	%r13
	pushq	%r12
	pushq	%rbx
	subq	$328, %rsp
	movq	%rdx, 88(%rsp)
	movq	%rdi, %rbx
	movss	420(%rsp), %xmm0
	movq	424(%rsp), %r10
	movq	504(%rsp), %r14
	movl	512(%rsp), %r11d
	movzbl	520(%rsp), %r15d
	movq	528(%rsp), %rdi
	movss	544(%rsp), %xmm1
	leaq	548(%rsp), %r13
	leaq	552(%rsp), %rax
	movswl	568(%rsp), %edx
	xorl	%ebp, %ebp
	cmpb	$0, 521(%rsp)
	setne	%r12b
	jne	.Lframes640_BB6_2
	xorps	%xmm2, %xmm2
	jmp	.Lframes640_BB6_3
.Lframes640_BB6_2:
	movss	416(%rsp), %xmm2
.Lframes640_BB6_3:
	movb	%r12b, %bpl
	xorl	%r12d, %r12d
	cmpb	$0, 556(%rsp)
	sete	%r12b
	cmoveq	%r13, %rax
	movss	(%rax), %xmm3
	cmpb	$0, 570(%rsp)
	movzbl	571(%rsp), %r13d
	movaps	432(%rsp), %xmm4
	movups	%xmm4, 224(%rsp)
	movaps	448(%rsp), %xmm4
	movups	%xmm4, 240(%rsp)
	movaps	464(%rsp), %xmm4
	movups	%xmm4, 284(%rsp)
	movaps	480(%rsp), %xmm4
	movups	%xmm4, 300(%rsp)
	movq	496(%rsp), %rax
	movq	%rax, 316(%rsp)
	movl	516(%rsp), %eax
	movl	%eax, 184(%rsp)
	movb	%r15b, 188(%rsp)
	movw	$0, 189(%rsp)
	movb	$0, 191(%rsp)
	movaps	384(%rsp), %xmm4
	movups	%xmm4, 192(%rsp)
	movsd	400(%rsp), %xmm4
	movsd	%xmm4, 208(%rsp)
	movq	%r14, 216(%rsp)
	movq	%r10, 256(%rsp)
	movl	%r11d, 264(%rsp)
	movsd	408(%rsp), %xmm4
	movsd	%xmm4, 268(%rsp)
	movl	%ebp, 276(%rsp)
	movss	%xmm2, 280(%rsp)
	movss	%xmm0, 324(%rsp)
	movsd	536(%rsp), %xmm0
	movsd	%xmm0, 96(%rsp)
	movss	%xmm1, 104(%rsp)
	movl	$0, 108(%rsp)
	movq	%rdi, 112(%rsp)
	movl	%r12d, 120(%rsp)
	movss	%xmm3, 124(%rsp)
	setne	138(%rsp)
	movq	560(%rsp), %r15
	testb	%r13b, %r13b
	movq	576(%rsp), %rdi
	movq	592(%rsp), %r11
	movq	608(%rsp), %r14
	sete	139(%rsp)
	movq	600(%rsp), %r12
	movq	584(%rsp), %r13
	xorl	%r10d, %r10d
	testq	%rsi, %rsi
	sete	%r10b
	shll	$12, %r10d
	addq	%rsi, %r10
	xorl	%esi, %esi
	testq	%rcx, %rcx
	sete	%sil
	shll	$12, %esi
	addq	%rcx, %rsi
	xorl	%ecx, %ecx
	testq	%r9, %r9
	sete	%cl
	shll	$12, %ecx
	addq	%r9, %rcx
	xorl	%r9d, %r9d
	testq	%r13, %r13
	sete	%r9b
	shll	$12, %r9d
	addq	%r13, %r9
	xorl	%eax, %eax
	testq	%r12, %r12
	sete	%al
	shll	$12, %eax
	movq	%r15, 128(%rsp)
	movw	%dx, 136(%rsp)
	addq	%r12, %rax
	movl	$0, 140(%rsp)
	xorps	%xmm0, %xmm0
	movaps	%xmm0, 160(%rsp)
	movaps	%xmm0, 144(%rsp)
	xorps	%xmm0, %xmm0
	cvtsi2ss	%edx, %xmm0
	movq	%r14, 72(%rsp)
	movq	%rax, 64(%rsp)
	movq	%r11, 56(%rsp)
	movq	%r9, 48(%rsp)
	movq	%rdi, 40(%rsp)
	movq	%rcx, 32(%rsp)
	movq	%r8, 24(%rsp)
	movq	%rsi, 16(%rsp)
	movq	%r8, 8(%rsp)
	movq	%rsi, (%rsp)
	leaq	144(%rsp), %rdi
	leaq	184(%rsp), %rsi
	leaq	96(%rsp), %rdx
	xorl	%r14d, %r14d
	xorl	%ecx, %ecx
	movq	%r10, %r8
	movq	88(%rsp), %r9
	callq	loamchalice.frames640.frames640.from_pixels
	movl	152(%rsp), %esi
	movq	160(%rsp), %rcx
	cmpb	$0, 144(%rsp)
	je	.Lframes640_BB6_6
	movzwl	168(%rsp), %edx
	movl	%esi, %edi
	shrl	$16, %edi
	xorl	%eax, %eax
	movzbl	%sil, %esi
	leaq	.Lframes640_JTI6_0(%rip), %r8
	movslq	(%r8,%rsi,4), %rsi
	addq	%r8, %rsi
	jmpq	*%rsi
.Lframes640_BB6_5:
	movl	$1, %r14d
	jmp	.Lframes640_BB6_22
.Lframes640_BB6_6:
	xorl	%edi, %edi
	xorl	%edx, %edx
	movl	%esi, %eax
	jmp	.Lframes640_BB6_24
.Lframes640_BB6_7:
	movl	$13, %r14d
	jmp	.Lframes640_BB6_22
.Lframes640_BB6_8:
	movl	$10, %r14d
	jmp	.Lframes640_BB6_22
.Lframes640_BB6_9:
	movl	$4, %r14d
	xorl	%edx, %edx
	movq	%rdi, %rcx
	jmp	.Lframes640_BB6_23
.Lframes640_BB6_10:
	movl	$11, %r14d
	jmp	.Lframes640_BB6_22
.Lframes640_BB6_11:
	movl	%edi, %ecx
	movl	$9, %r14d
	jmp	.Lframes640_BB6_22
.Lframes640_BB6_12:
	movl	$2, %r14d
	jmp	.Lframes640_BB6_21
.Lframes640_BB6_13:
	movl	$14, %r14d
	jmp	.Lframes640_BB6_22
.Lframes640_BB6_14:
	movl	$3, %r14d
	jmp	.Lframes640_BB6_23
.Lframes640_BB6_15:
	movl	$7, %r14d
	jmp	.Lframes640_BB6_21
.Lframes640_BB6_16:
	movl	$5, %r14d
	jmp	.Lframes640_BB6_22
.Lframes640_BB6_17:
	movl	$12, %r14d
	jmp	.Lframes640_BB6_22
.Lframes640_BB6_18:
	movl	$6, %r14d
	jmp	.Lframes640_BB6_22
.Lframes640_BB6_19:
	movl	$9, %r14d
	jmp	.Lframes640_BB6_23
.Lframes640_BB6_20:
	movl	$8, %r14d
.Lframes640_BB6_21:
	xorl	%ecx, %ecx
.Lframes640_BB6_22:
	xorl	%edx, %edx
.Lframes640_BB6_23:
	movzwl	%dx, %edx
	movq	%rcx, %rdi
	xorl	%ecx, %ecx
.Lframes640_BB6_24:
	movq	%r14, (%rbx)
	movq	%rdi, 8(%rbx)
	movq	%rdx, 16(%rbx)
	movq	%rcx, 24(%rbx)
	movl	%eax, 32(%rbx)
	movl	$0, 36(%rbx)
	movq	%rbx, %rax
	addq	$328, %rsp
	popq	%rbx
	popq	%r12
	popq	%r13
	popq	%r14
	popq	%r15
	popq	%rbp
	retq
.Lframes640_func_end6:
	.size	loamchalice_mlx90640_raw_pixels_to_ir_data, .Lframes640_func_end6-loamchalice_mlx90640_raw_pixels_to_ir_data
	.section	.rodata.loamchalice_mlx90640_raw_pixels_to_ir_data,"a",@progbits
	.p2align	2, 0x0
.Lframes640_JTI6_0:
	.long	.Lframes640_BB6_5-.Lframes640_JTI6_0
	.long	.Lframes640_BB6_5-.Lframes640_JTI6_0
	.long	.Lframes640_BB6_12-.Lframes640_JTI6_0
	.long	.Lframes640_BB6_14-.Lframes640_JTI6_0
	.long	.Lframes640_BB6_9-.Lframes640_JTI6_0
	.long	.Lframes640_BB6_16-.Lframes640_JTI6_0
	.long	.Lframes640_BB6_18-.Lframes640_JTI6_0
	.long	.Lframes640_BB6_15-.Lframes640_JTI6_0
	.long	.Lframes640_BB6_20-.Lframes640_JTI6_0
	.long	.Lframes640_BB6_11-.Lframes640_JTI6_0
	.long	.Lframes640_BB6_19-.Lframes640_JTI6_0
	.long	.Lframes640_BB6_8-.Lframes640_JTI6_0
	.long	.Lframes640_BB6_10-.Lframes640_JTI6_0
	.long	.Lframes640_BB6_17-.Lframes640_JTI6_0
	.long	.Lframes640_BB6_7-.Lframes640_JTI6_0
	.long	.Lframes640_BB6_13-.Lframes640_JTI6_0

	.section	.text.loamchalice_mlx90640_raw_pixels_to_ranged_temperatures,"ax",@progbits
	.globl	loamchalice_mlx90640_raw_pixels_to_ranged_temperatures
	.p2align	4
	.type	loamchalice_mlx90640_raw_pixels_to_ranged_temperatures,@function
loamchalice_mlx90640_raw_pixels_to_ranged_temperatures:
	pushq	%rbp
	pushq	%r15
	pushq	%r14
	pushq	%r13
	pushq	%r12
	pushq	%rbx
	subq	$328, %rsp
	movq	%r8, 80(%rsp)
	movq	%rdx, 88(%rsp)
	movq	%rdi, %rbx
	movss	420(%rsp), %xmm0
	movq	424(%rsp), %r10
	movq	504(%rsp), %r14
	movl	512(%rsp), %r11d
	movzbl	520(%rsp), %r15d
	movq	528(%rsp), %rdi
	movss	544(%rsp), %xmm1
	leaq	548(%rsp), %rax
	leaq	552(%rsp), %r13
	movswl	568(%rsp), %r8d
	xorl	%ebp, %ebp
	cmpb	$0, 521(%rsp)
	setne	%dl
	jne	.Lframes640_BB7_2
	xorps	%xmm2, %xmm2
	jmp	.Lframes640_BB7_3
.Lframes640_BB7_2:
	movss	416(%rsp), %xmm2
.Lframes640_BB7_3:
	xorl	%r12d, %r12d
	cmpb	$0, 556(%rsp)
	movb	%dl, %bpl
	sete	%r12b
	cmoveq	%rax, %r13
	movss	(%r13), %xmm3
	cmpb	$0, 570(%rsp)
	movzbl	571(%rsp), %r13d
	movaps	432(%rsp), %xmm4
	movups	%xmm4, 224(%rsp)
	movaps	448(%rsp), %xmm4
	movups	%xmm4, 240(%rsp)
	movaps	464(%rsp), %xmm4
	movups	%xmm4, 284(%rsp)
	movaps	480(%rsp), %xmm4
	movups	%xmm4, 300(%rsp)
	movq	496(%rsp), %rax
	movq	%rax, 316(%rsp)
	movl	516(%rsp), %eax
	movl	%eax, 184(%rsp)
	movb	%r15b, 188(%rsp)
	movw	$0, 189(%rsp)
	movb	$0, 191(%rsp)
	movaps	384(%rsp), %xmm4
	movups	%xmm4, 192(%rsp)
	movsd	400(%rsp), %xmm4
	movsd	%xmm4, 208(%rsp)
	movq	%r14, 216(%rsp)
	movq	%r10, 256(%rsp)
	movl	%r11d, 264(%rsp)
	movsd	408(%rsp), %xmm4
	movsd	%xmm4, 268(%rsp)
	movl	%ebp, 276(%rsp)
	movss	%xmm2, 280(%rsp)
	movsd	536(%rsp), %xmm2
	movsd	%xmm2, 96(%rsp)
	movss	%xmm1, 104(%rsp)
	movl	$0, 108(%rsp)
	movq	%rdi, 112(%rsp)
	movl	%r12d, 120(%rsp)
	movss	%xmm3, 124(%rsp)
	setne	138(%rsp)
	movss	%xmm0, 324(%rsp)
	movq	560(%rsp), %r12
	testb	%r13b, %r13b
	movq	576(%rsp), %rdi
	movq	592(%rsp), %r11
	movq	608(%rsp), %r14
	movq	624(%rsp), %r15
	movq	616(%rsp), %r13
	movq	600(%rsp), %rbp
	sete	139(%rsp)
	movq	584(%rsp), %rax
	xorl	%r10d, %r10d
	testq	%rsi, %rsi
	sete	%r10b
	shll	$12, %r10d
	addq	%rsi, %r10
	xorl	%esi, %esi
	testq	%rcx, %rcx
	sete	%sil
	shll	$12, %esi
	addq	%rcx, %rsi
	xorl	%ecx, %ecx
	testq	%r9, %r9
	sete	%cl
	shll	$12, %ecx
	addq	%r9, %rcx
	xorl	%r9d, %r9d
	testq	%rax, %rax
	sete	%r9b
	shll	$12, %r9d
	addq	%rax, %r9
	xorl	%eax, %eax
	testq	%rbp, %rbp
	sete	%al
	shll	$12, %eax
	addq	%rbp, %rax
	xorl	%edx, %edx
	testq	%r13, %r13
	sete	%dl
	shll	$12, %edx
	movq	%r12, 128(%rsp)
	movw	%r8w, 136(%rsp)
	addq	%r13, %rdx
	movl	$0, 140(%rsp)
	xorps	%xmm0, %xmm0
	movaps	%xmm0, 160(%rsp)
	movaps	%xmm0, 144(%rsp)
	xorps	%xmm0, %xmm0
	cvtsi2ss	%r8d, %xmm0
	movq	%r15, 72(%rsp)
	movq	%rdx, 64(%rsp)
	movq	%r14, 56(%rsp)
	movq	%rax, 48(%rsp)
	movq	%r11, 40(%rsp)
	movq	%r9, 32(%rsp)
	movq	%rdi, 24(%rsp)
	movq	%rcx, 16(%rsp)
	movq	80(%rsp), %rax
	movq	%rax, 8(%rsp)
	movq	%rsi, (%rsp)
	leaq	144(%rsp), %rdi
	leaq	184(%rsp), %rsi
	leaq	96(%rsp), %rdx
	movl	$2, %ecx
	movq	%r10, %r8
	movq	88(%rsp), %r9
	callq	loamchalice.frames640.frames640.from_pixels
	movl	152(%rsp), %edi
	movq	160(%rsp), %rcx
	cmpb	$0, 144(%rsp)
	je	.Lframes640_BB7_6
	movzwl	168(%rsp), %esi
	movl	%edi, %r8d
	shrl	$16, %r8d
	xorl	%eax, %eax
	movzbl	%dil, %edx
	leaq	.Lframes640_JTI7_0(%rip), %rdi
	movslq	(%rdi,%rdx,4), %rdx
	addq	%rdi, %rdx
	jmpq	*%rdx
.Lframes640_BB7_5:
	movl	$1, %edx
	jmp	.Lframes640_BB7_22
.Lframes640_BB7_6:
	xorl	%edx, %edx
	xorl	%r8d, %r8d
	xorl	%esi, %esi
	movl	%edi, %eax
	jmp	.Lframes640_BB7_24
.Lframes640_BB7_7:
	movl	$13, %edx
	jmp	.Lframes640_BB7_22
.Lframes640_BB7_8:
	movl	$10, %edx
	jmp	.Lframes640_BB7_22
.Lframes640_BB7_9:
	movl	$4, %edx
	xorl	%esi, %esi
	movq	%r8, %rcx
	jmp	.Lframes640_BB7_23
.Lframes640_BB7_10:
	movl	$11, %edx
	jmp	.Lframes640_BB7_22
.Lframes640_BB7_11:
	movl	%r8d, %ecx
	movl	$9, %edx
	jmp	.Lframes640_BB7_22
.Lframes640_BB7_12:
	movl	$2, %edx
	jmp	.Lframes640_BB7_21
.Lframes640_BB7_13:
	movl	$14, %edx
	jmp	.Lframes640_BB7_22
.Lframes640_BB7_14:
	movl	$3, %edx
	jmp	.Lframes640_BB7_23
.Lframes640_BB7_15:
	movl	$7, %edx
	jmp	.Lframes640_BB7_21
.Lframes640_BB7_16:
	movl	$5, %edx
	jmp	.Lframes640_BB7_22
.Lframes640_BB7_17:
	movl	$12, %edx
	jmp	.Lframes640_BB7_22
.Lframes640_BB7_18:
	movl	$6, %edx
	jmp	.Lframes640_BB7_22
.Lframes640_BB7_19:
	movl	$9, %edx
	jmp	.Lframes640_BB7_23
.Lframes640_BB7_20:
	movl	$8, %edx
.Lframes640_BB7_21:
	xorl	%ecx, %ecx
.Lframes640_BB7_22:
	xorl	%esi, %esi
.Lframes640_BB7_23:
	movzwl	%si, %esi
	movq	%rcx, %r8
	xorl	%ecx, %ecx
.Lframes640_BB7_24:
	movq	%rdx, (%rbx)
	movq	%r8, 8(%rbx)
	movq	%rsi, 16(%rbx)
	movq	%rcx, 24(%rbx)
	movl	%eax, 32(%rbx)
	movl	$0, 36(%rbx)
	movq	%rbx, %rax
	addq	$328, %rsp
	popq	%rbx
	popq	%r12
	popq	%r13
	popq	%r14
	popq	%r15
	popq	%rbp
	retq
.Lframes640_func_end7:
	.size	loamchalice_mlx90640_raw_pixels_to_ranged_temperatures, .Lframes640_func_end7-loamchalice_mlx90640_raw_pixels_to_ranged_temperatures
	.section	.rodata.loamchalice_mlx90640_raw_pixels_to_ranged_temperatures,"a",@progbits
	.p2align	2, 0x0
.Lframes640_JTI7_0:
	.long	.Lframes640_BB7_5-.Lframes640_JTI7_0
	.long	.Lframes640_BB7_5-.Lframes640_JTI7_0
	.long	.Lframes640_BB7_12-.Lframes640_JTI7_0
	.long	.Lframes640_BB7_14-.Lframes640_JTI7_0
	.long	.Lframes640_BB7_9-.Lframes640_JTI7_0
	.long	.Lframes640_BB7_16-.Lframes640_JTI7_0
	.long	.Lframes640_BB7_18-.Lframes640_JTI7_0
	.long	.Lframes640_BB7_15-.Lframes640_JTI7_0
	.long	.Lframes640_BB7_20-.Lframes640_JTI7_0
	.long	.Lframes640_BB7_11-.Lframes640_JTI7_0
	.long	.Lframes640_BB7_19-.Lframes640_JTI7_0
	.long	.Lframes640_BB7_8-.Lframes640_JTI7_0
	.long	.Lframes640_BB7_10-.Lframes640_JTI7_0
	.long	.Lframes640_BB7_17-.Lframes640_JTI7_0
	.long	.Lframes640_BB7_7-.Lframes640_JTI7_0
	.long	.Lframes640_BB7_13-.Lframes640_JTI7_0

	.section	.text.loamchalice_mlx90640_raw_pixels_to_temperatures,"ax",@progbits
	.globl	loamchalice_mlx90640_raw_pixels_to_temperatures
	.p2align	4
	.type	loamchalice_mlx90640_raw_pixels_to_temperatures,@function
loamchalice_mlx90640_raw_pixels_to_temperatures:
	pushq	%rbp
	pushq	%r15
	pushq	%r14
	pushq	%r13
	pushq	%r12
	pushq	%rbx
	subq	$328, %rsp
	movq	%r8, 80(%rsp)
	movq	%rdx, 88(%rsp)
	movq	%rdi, %rbx
	movss	420(%rsp), %xmm0
	movq	424(%rsp), %r10
	movq	504(%rsp), %r14
	movl	512(%rsp), %r11d
	movzbl	520(%rsp), %r15d
	movq	528(%rsp), %rdi
	movss	544(%rsp), %xmm1
	leaq	548(%rsp), %rax
	leaq	552(%rsp), %r13
	movswl	568(%rsp), %r8d
	xorl	%ebp, %ebp
	cmpb	$0, 521(%rsp)
	setne	%dl
	jne	.Lframes640_BB8_2
	xorps	%xmm2, %xmm2
	jmp	.Lframes640_BB8_3
.Lframes640_BB8_2:
	movss	416(%rsp), %xmm2
.Lframes640_BB8_3:
	xorl	%r12d, %r12d
	cmpb	$0, 556(%rsp)
	movb	%dl, %bpl
	sete	%r12b
	cmoveq	%rax, %r13
	movss	(%r13), %xmm3
	cmpb	$0, 570(%rsp)
	movzbl	571(%rsp), %r13d
	movaps	432(%rsp), %xmm4
	movups	%xmm4, 224(%rsp)
	movaps	448(%rsp), %xmm4
	movups	%xmm4, 240(%rsp)
	movaps	464(%rsp), %xmm4
	movups	%xmm4, 284(%rsp)
	movaps	480(%rsp), %xmm4
	movups	%xmm4, 300(%rsp)
	movq	496(%rsp), %rax
	movq	%rax, 316(%rsp)
	movl	516(%rsp), %eax
	movl	%eax, 184(%rsp)
	movb	%r15b, 188(%rsp)
	movw	$0, 189(%rsp)
	movb	$0, 191(%rsp)
	movaps	384(%rsp), %xmm4
	movups	%xmm4, 192(%rsp)
	movsd	400(%rsp), %xmm4
	movsd	%xmm4, 208(%rsp)
	movq	%r14, 216(%rsp)
	movq	%r10, 256(%rsp)
	movl	%r11d, 264(%rsp)
	movsd	408(%rsp), %xmm4
	movsd	%xmm4, 268(%rsp)
	movl	%ebp, 276(%rsp)
	movss	%xmm2, 280(%rsp)
	movsd	536(%rsp), %xmm2
	movsd	%xmm2, 96(%rsp)
	movss	%xmm1, 104(%rsp)
	movl	$0, 108(%rsp)
	movq	%rdi, 112(%rsp)
	movl	%r12d, 120(%rsp)
	movss	%xmm3, 124(%rsp)
	setne	138(%rsp)
	movss	%xmm0, 324(%rsp)
	movq	560(%rsp), %r12
	testb	%r13b, %r13b
	movq	576(%rsp), %rdi
	movq	592(%rsp), %r11
	movq	608(%rsp), %r14
	movq	624(%rsp), %r15
	movq	616(%rsp), %r13
	movq	600(%rsp), %rbp
	sete	139(%rsp)
	movq	584(%rsp), %rax
	xorl	%r10d, %r10d
	testq	%rsi, %rsi
	sete	%r10b
	shll	$12, %r10d
	addq	%rsi, %r10
	xorl	%esi, %esi
	testq	%rcx, %rcx
	sete	%sil
	shll	$12, %esi
	addq	%rcx, %rsi
	xorl	%ecx, %ecx
	testq	%r9, %r9
	sete	%cl
	shll	$12, %ecx
	addq	%r9, %rcx
	xorl	%r9d, %r9d
	testq	%rax, %rax
	sete	%r9b
	shll	$12, %r9d
	addq	%rax, %r9
	xorl	%eax, %eax
	testq	%rbp, %rbp
	sete	%al
	shll	$12, %eax
	addq	%rbp, %rax
	xorl	%edx, %edx
	testq	%r13, %r13
	sete	%dl
	shll	$12, %edx
	movq	%r12, 128(%rsp)
	movw	%r8w, 136(%rsp)
	addq	%r13, %rdx
	movl	$0, 140(%rsp)
	xorps	%xmm0, %xmm0
	movaps	%xmm0, 160(%rsp)
	movaps	%xmm0, 144(%rsp)
	xorps	%xmm0, %xmm0
	cvtsi2ss	%r8d, %xmm0
	movq	%r15, 72(%rsp)
	movq	%rdx, 64(%rsp)
	movq	%r14, 56(%rsp)
	movq	%rax, 48(%rsp)
	movq	%r11, 40(%rsp)
	movq	%r9, 32(%rsp)
	movq	%rdi, 24(%rsp)
	movq	%rcx, 16(%rsp)
	movq	80(%rsp), %rax
	movq	%rax, 8(%rsp)
	movq	%rsi, (%rsp)
	leaq	144(%rsp), %rdi
	leaq	184(%rsp), %rsi
	leaq	96(%rsp), %rdx
	movl	$1, %ecx
	movq	%r10, %r8
	movq	88(%rsp), %r9
	callq	loamchalice.frames640.frames640.from_pixels
	movl	152(%rsp), %edi
	movq	160(%rsp), %rcx
	cmpb	$0, 144(%rsp)
	je	.Lframes640_BB8_6
	movzwl	168(%rsp), %esi
	movl	%edi, %r8d
	shrl	$16, %r8d
	xorl	%eax, %eax
	movzbl	%dil, %edx
	leaq	.Lframes640_JTI8_0(%rip), %rdi
	movslq	(%rdi,%rdx,4), %rdx
	addq	%rdi, %rdx
	jmpq	*%rdx
.Lframes640_BB8_5:
	movl	$1, %edx
	jmp	.Lframes640_BB8_22
.Lframes640_BB8_6:
	xorl	%edx, %edx
	xorl	%r8d, %r8d
	xorl	%esi, %esi
	movl	%edi, %eax
	jmp	.Lframes640_BB8_24
.Lframes640_BB8_7:
	movl	$13, %edx
	jmp	.Lframes640_BB8_22
.Lframes640_BB8_8:
	movl	$10, %edx
	jmp	.Lframes640_BB8_22
.Lframes640_BB8_9:
	movl	$4, %edx
	xorl	%esi, %esi
	movq	%r8, %rcx
	jmp	.Lframes640_BB8_23
.Lframes640_BB8_10:
	movl	$11, %edx
	jmp	.Lframes640_BB8_22
.Lframes640_BB8_11:
	movl	%r8d, %ecx
	movl	$9, %edx
	jmp	.Lframes640_BB8_22
.Lframes640_BB8_12:
	movl	$2, %edx
	jmp	.Lframes640_BB8_21
.Lframes640_BB8_13:
	movl	$14, %edx
	jmp	.Lframes640_BB8_22
.Lframes640_BB8_14:
	movl	$3, %edx
	jmp	.Lframes640_BB8_23
.Lframes640_BB8_15:
	movl	$7, %edx
	jmp	.Lframes640_BB8_21
.Lframes640_BB8_16:
	movl	$5, %edx
	jmp	.Lframes640_BB8_22
.Lframes640_BB8_17:
	movl	$12, %edx
	jmp	.Lframes640_BB8_22
.Lframes640_BB8_18:
	movl	$6, %edx
	jmp	.Lframes640_BB8_22
.Lframes640_BB8_19:
	movl	$9, %edx
	jmp	.Lframes640_BB8_23
.Lframes640_BB8_20:
	movl	$8, %edx
.Lframes640_BB8_21:
	xorl	%ecx, %ecx
.Lframes640_BB8_22:
	xorl	%esi, %esi
.Lframes640_BB8_23:
	movzwl	%si, %esi
	movq	%rcx, %r8
	xorl	%ecx, %ecx
.Lframes640_BB8_24:
	movq	%rdx, (%rbx)
	movq	%r8, 8(%rbx)
	movq	%rsi, 16(%rbx)
	movq	%rcx, 24(%rbx)
	movl	%eax, 32(%rbx)
	movl	$0, 36(%rbx)
	movq	%rbx, %rax
	addq	$328, %rsp
	popq	%rbx
	popq	%r12
	popq	%r13
	popq	%r14
	popq	%r15
	popq	%rbp
	retq
.Lframes640_func_end8:
	.size	loamchalice_mlx90640_raw_pixels_to_temperatures, .Lframes640_func_end8-loamchalice_mlx90640_raw_pixels_to_temperatures
	.section	.rodata.loamchalice_mlx90640_raw_pixels_to_temperatures,"a",@progbits
	.p2align	2, 0x0
.Lframes640_JTI8_0:
	.long	.Lframes640_BB8_5-.Lframes640_JTI8_0
	.long	.Lframes640_BB8_5-.Lframes640_JTI8_0
	.long	.Lframes640_BB8_12-.Lframes640_JTI8_0
	.long	.Lframes640_BB8_14-.Lframes640_JTI8_0
	.long	.Lframes640_BB8_9-.Lframes640_JTI8_0
	.long	.Lframes640_BB8_16-.Lframes640_JTI8_0
	.long	.Lframes640_BB8_18-.Lframes640_JTI8_0
	.long	.Lframes640_BB8_15-.Lframes640_JTI8_0
	.long	.Lframes640_BB8_20-.Lframes640_JTI8_0
	.long	.Lframes640_BB8_11-.Lframes640_JTI8_0
	.long	.Lframes640_BB8_19-.Lframes640_JTI8_0
	.long	.Lframes640_BB8_8-.Lframes640_JTI8_0
	.long	.Lframes640_BB8_10-.Lframes640_JTI8_0
	.long	.Lframes640_BB8_17-.Lframes640_JTI8_0
	.long	.Lframes640_BB8_7-.Lframes640_JTI8_0
	.long	.Lframes640_BB8_13-.Lframes640_JTI8_0

	.section	.rodata.cst16,"aM",@progbits,16
	.p2align	4, 0x0
.Lframes640_CPI9_0:
	.quad	6
	.quad	7
.Lframes640_CPI9_1:
	.quad	4
	.quad	5
.Lframes640_CPI9_2:
	.quad	2
	.quad	3
.Lframes640_CPI9_3:
	.byte	0
	.byte	0
	.byte	0
	.byte	0
	.byte	0
	.byte	0
	.byte	0
	.byte	0
	.byte	1
	.byte	0
	.byte	0
	.byte	0
	.byte	0
	.byte	0
	.byte	0
	.byte	0
.Lframes640_CPI9_4:
	.short	1
	.short	1
	.short	1
	.short	1
	.short	1
	.short	1
	.short	1
	.short	1
.Lframes640_CPI9_5:
	.quad	8
	.quad	8
.Lframes640_CPI9_6:
	.quad	14
	.quad	15
.Lframes640_CPI9_7:
	.quad	12
	.quad	13
.Lframes640_CPI9_8:
	.quad	10
	.quad	11
.Lframes640_CPI9_9:
	.quad	8
	.quad	9
.Lframes640_CPI9_10:
	.quad	32
	.quad	32
.Lframes640_CPI9_11:
	.zero	16,1
.Lframes640_CPI9_12:
	.quad	16
	.quad	16
	.section	.text.loamchalice_mlx90640_subpage_mask,"ax",@progbits
	.globl	loamchalice_mlx90640_subpage_mask
	.p2align	4
	.type	loamchalice_mlx90640_subpage_mask,@function
loamchalice_mlx90640_subpage_mask:
	movq	%rdi, %rax
	xorl	%edi, %edi
	testq	%rcx, %rcx
	sete	%r10b
	movl	$2, %r9d
	cmpq	$768, %r8
	jb	.Lframes640_BB9_7
	movb	%r10b, %dil
	shll	$12, %edi
	addq	%rdi, %rcx
	testb	%dl, %dl
	je	.Lframes640_BB9_2
	xorl	%edx, %edx
	testb	%sil, %sil
	setne	%dl
	movd	%edx, %xmm0
	pshuflw	$0, %xmm0, %xmm0
	pshufd	$68, %xmm0, %xmm1
	pcmpeqd	%xmm0, %xmm0
	pxor	%xmm1, %xmm0
	movdqa	.Lframes640_CPI9_0(%rip), %xmm1
	movdqa	.Lframes640_CPI9_1(%rip), %xmm2
	movdqa	.Lframes640_CPI9_2(%rip), %xmm3
	movdqa	.Lframes640_CPI9_3(%rip), %xmm4
	xorl	%edx, %edx
	.p2align	4
.Lframes640_BB9_5:
	movdqa	%xmm3, %xmm6
	psrlq	$5, %xmm6
	movdqa	%xmm4, %xmm5
	psrlq	$5, %xmm5
	movdqa	%xmm1, %xmm7
	psrlq	$5, %xmm7
	movdqa	%xmm2, %xmm8
	psrlq	$5, %xmm8
	paddq	%xmm2, %xmm8
	paddq	%xmm1, %xmm7
	shufps	$136, %xmm7, %xmm8
	paddq	%xmm4, %xmm5
	paddq	%xmm3, %xmm6
	shufps	$136, %xmm6, %xmm5
	pslld	$16, %xmm5
	psrad	$16, %xmm5
	pslld	$16, %xmm8
	psrad	$16, %xmm8
	packssdw	%xmm8, %xmm5
	pxor	%xmm0, %xmm5
	pand	.Lframes640_CPI9_4(%rip), %xmm5
	packuswb	%xmm5, %xmm5
	movq	%xmm5, (%rcx,%rdx)
	addq	$8, %rdx
	movdqa	.Lframes640_CPI9_5(%rip), %xmm5
	paddq	%xmm5, %xmm4
	paddq	%xmm5, %xmm3
	paddq	%xmm5, %xmm2
	paddq	%xmm5, %xmm1
	cmpq	$768, %rdx
	jne	.Lframes640_BB9_5
	jmp	.Lframes640_BB9_6
.Lframes640_BB9_2:
	xorl	%edx, %edx
	testb	%sil, %sil
	setne	%dl
	movd	%edx, %xmm0
	punpcklbw	%xmm0, %xmm0
	pshuflw	$0, %xmm0, %xmm0
	pshufd	$68, %xmm0, %xmm0
	movdqa	%xmm0, -24(%rsp)
	movdqa	.Lframes640_CPI9_6(%rip), %xmm9
	movdqa	.Lframes640_CPI9_7(%rip), %xmm10
	movdqa	.Lframes640_CPI9_8(%rip), %xmm3
	movdqa	.Lframes640_CPI9_9(%rip), %xmm4
	movdqa	.Lframes640_CPI9_0(%rip), %xmm0
	movdqa	.Lframes640_CPI9_1(%rip), %xmm1
	movdqa	.Lframes640_CPI9_2(%rip), %xmm2
	movdqa	.Lframes640_CPI9_3(%rip), %xmm8
	xorl	%edx, %edx
	.p2align	4
.Lframes640_BB9_3:
	movdqa	%xmm10, -56(%rsp)
	movdqa	%xmm9, -40(%rsp)
	movdqa	.Lframes640_CPI9_10(%rip), %xmm15
	movdqa	-40(%rsp), %xmm9
	pand	%xmm15, %xmm9
	movdqa	-56(%rsp), %xmm10
	pand	%xmm15, %xmm10
	movdqa	%xmm3, %xmm12
	pand	%xmm15, %xmm12
	movdqa	%xmm4, %xmm14
	pand	%xmm15, %xmm14
	movdqa	%xmm0, %xmm5
	pand	%xmm15, %xmm5
	movdqa	%xmm1, %xmm6
	pand	%xmm15, %xmm6
	movdqa	%xmm2, %xmm7
	pand	%xmm15, %xmm7
	pand	%xmm8, %xmm15
	pxor	%xmm13, %xmm13
	pcmpeqd	%xmm13, %xmm15
	pshufd	$177, %xmm15, %xmm11
	pand	%xmm15, %xmm11
	pcmpeqd	%xmm13, %xmm7
	pshufd	$177, %xmm7, %xmm15
	pand	%xmm7, %xmm15
	packssdw	%xmm15, %xmm11
	pcmpeqd	%xmm13, %xmm6
	pshufd	$177, %xmm6, %xmm7
	pand	%xmm6, %xmm7
	pcmpeqd	%xmm13, %xmm5
	pshufd	$177, %xmm5, %xmm6
	pand	%xmm5, %xmm6
	packssdw	%xmm6, %xmm7
	packssdw	%xmm7, %xmm11
	pcmpeqd	%xmm13, %xmm14
	pshufd	$177, %xmm14, %xmm5
	pand	%xmm14, %xmm5
	pcmpeqd	%xmm13, %xmm12
	pshufd	$177, %xmm12, %xmm6
	pand	%xmm12, %xmm6
	packssdw	%xmm6, %xmm5
	pcmpeqd	%xmm13, %xmm10
	pshufd	$177, %xmm10, %xmm6
	pand	%xmm10, %xmm6
	movdqa	-56(%rsp), %xmm10
	pcmpeqd	%xmm13, %xmm9
	pshufd	$177, %xmm9, %xmm7
	pand	%xmm9, %xmm7
	movdqa	-40(%rsp), %xmm9
	packssdw	%xmm7, %xmm6
	packssdw	%xmm6, %xmm5
	packsswb	%xmm5, %xmm11
	pxor	-24(%rsp), %xmm11
	pand	.Lframes640_CPI9_11(%rip), %xmm11
	movdqu	%xmm11, (%rcx,%rdx)
	movdqa	.Lframes640_CPI9_12(%rip), %xmm5
	paddq	%xmm5, %xmm8
	paddq	%xmm5, %xmm2
	paddq	%xmm5, %xmm1
	paddq	%xmm5, %xmm0
	paddq	%xmm5, %xmm4
	paddq	%xmm5, %xmm3
	paddq	%xmm5, %xmm10
	paddq	%xmm5, %xmm9
	addq	$16, %rdx
	cmpq	$768, %rdx
	jne	.Lframes640_BB9_3
.Lframes640_BB9_6:
	xorl	%r9d, %r9d
.Lframes640_BB9_7:
	movq	%r9, (%rax)
	pxor	%xmm0, %xmm0
	movdqu	%xmm0, 8(%rax)
	retq
.Lframes640_func_end9:
	.size	loamchalice_mlx90640_subpage_mask, .Lframes640_func_end9-loamchalice_mlx90640_subpage_mask

	.type	.Lframes640_switch.table.roots.fourth_roots,@object
	.section	.rodata.cst32,"aM",@progbits,32
	.p2align	3, 0x0
.Lframes640_switch.table.roots.fourth_roots:
	.quad	0x4160000000000000
	.quad	0x4166a09e667f3bcd
	.quad	0x4160000000000000
	.quad	0x4166a09e667f3bcd
	.size	.Lframes640_switch.table.roots.fourth_roots, 32

	.type	.Lframes640_switch.table.roots.fourth_roots.9,@object
	.p2align	3, 0x0
.Lframes640_switch.table.roots.fourth_roots.9:
	.quad	0x3fe0000000000000
	.quad	0x3fdae89f995ad3ad
	.quad	0x3fe6a09e667f3bcd
	.quad	0x3fe306fe0a31b715
	.size	.Lframes640_switch.table.roots.fourth_roots.9, 32

# filter640
	.section	.rodata.cst4,"aM",@progbits,4
	.p2align	2, 0x0
.Lfilter640_CPI0_0:
	.long	0x3f800000
.Lfilter640_CPI0_1:
	.long	0x48800000
.Lfilter640_CPI0_5:
	.long	0x43889333
.Lfilter640_CPI0_6:
	.long	0xc1c80000
.Lfilter640_CPI0_7:
	.long	0xc3889333
.Lfilter640_CPI0_8:
	.long	0xc0533333
.Lfilter640_CPI0_9:
	.long	0x47800000
	.section	.rodata.cst16,"aM",@progbits,16
	.p2align	4, 0x0
.Lfilter640_CPI0_2:
	.zero	4
	.long	0x41c80000
	.zero	4
	.zero	4
.Lfilter640_CPI0_3:
	.long	0xc0533333
	.long	0xc1c80000
	.zero	4
	.zero	4
.Lfilter640_CPI0_4:
	.long	0x3f800000
	.long	0x3f800000
	.zero	4
	.zero	4
.Lfilter640_CPI0_10:
	.long	0xc0533333
	.long	0xc1c80000
	.long	0x00000000
	.long	0x00000000
	.section	.text.filter640.frames640.from_pixels,"ax",@progbits
	.p2align	4
	.type	loamchalice.filter640.frames640.from_pixels,@function
loamchalice.filter640.frames640.from_pixels:
	pushq	%rbp
	pushq	%r15
	pushq	%r14
	pushq	%r13
	pushq	%r12
	pushq	%rbx
	subq	$1576, %rsp
	movq	%r8, 56(%rsp)
	movl	%ecx, %r12d
	movq	%rdi, 376(%rsp)
	movzwl	(%rsi), %eax
	movw	%ax, 272(%rsp)
	movswl	2(%rsi), %eax
	movl	%eax, 288(%rsp)
	movss	8(%rsi), %xmm5
	movss	12(%rsi), %xmm4
	movss	16(%rsi), %xmm6
	movss	20(%rsi), %xmm10
	movss	24(%rsi), %xmm14
	movss	28(%rsi), %xmm1
	movss	%xmm1, 20(%rsp)
	movq	32(%rsi), %rdi
	movss	72(%rsi), %xmm1
	movss	76(%rsi), %xmm11
	movsd	84(%rsi), %xmm3
	movzbl	92(%rsi), %eax
	movb	%al, 11(%rsp)
	movss	96(%rsi), %xmm2
	movss	%xmm2, 28(%rsp)
	movss	140(%rsi), %xmm12
	movss	(%rdx), %xmm15
	movss	4(%rdx), %xmm7
	movss	8(%rdx), %xmm8
	movq	16(%rdx), %rax
	movq	%rax, 32(%rsp)
	movzbl	24(%rdx), %eax
	movb	%al, 48(%rsp)
	movss	28(%rdx), %xmm2
	movzwl	32(%rdx), %eax
	movw	%ax, 240(%rsp)
	movzwl	34(%rdx), %eax
	movw	%ax, 12(%rsp)
	movswl	36(%rdx), %eax
	movl	%eax, 16(%rsp)
	movzbl	42(%rdx), %ebp
	movzbl	43(%rdx), %r13d
	movzwl	38(%rdx), %eax
	movw	%ax, 256(%rsp)
	movzwl	80(%rsi), %r15d
	movzwl	82(%rsi), %edx
	movq	$0, 64(%rsp)
	movups	100(%rsi), %xmm9
	movaps	%xmm9, 400(%rsp)
	xorps	%xmm9, %xmm9
	movaps	%xmm9, 1312(%rsp)
	movaps	%xmm9, 1328(%rsp)
	movaps	%xmm9, 1344(%rsp)
	movaps	%xmm9, 1360(%rsp)
	movaps	%xmm9, 1376(%rsp)
	movaps	%xmm9, 1392(%rsp)
	movaps	%xmm9, 1408(%rsp)
	movaps	%xmm9, 1424(%rsp)
	movaps	%xmm9, 1440(%rsp)
	movaps	%xmm9, 1456(%rsp)
	movaps	%xmm9, 1472(%rsp)
	movaps	%xmm9, 1488(%rsp)
	movaps	%xmm9, 1504(%rsp)
	movaps	%xmm9, 1520(%rsp)
	movaps	%xmm9, 1536(%rsp)
	movaps	%xmm9, 1552(%rsp)
	leaq	40(%rsi), %rcx
	leaq	56(%rsi), %r11
	leaq	116(%rsi), %r14
	movq	1656(%rsp), %r10
	movq	1640(%rsp), %rsi
	movabsq	$1152921504606846972, %rbx
	xorl	%r8d, %r8d
	.p2align	4
.Lfilter640_BB0_1:
	movq	%r8, %rax
	shrq	$3, %rax
	andq	%rbx, %rax
	movss	400(%rsp,%rax), %xmm9
	movss	408(%rsp,%rax), %xmm13
	movss	%xmm9, 1312(%rsp,%r8,4)
	movss	%xmm13, 1316(%rsp,%r8,4)
	addq	$2, %r8
	cmpq	$64, %r8
	jne	.Lfilter640_BB0_1
	xorps	%xmm9, %xmm9
	xorps	%xmm13, %xmm13
	testb	%r13b, %r13b
	je	.Lfilter640_BB0_3
	movaps	%xmm12, %xmm13
	testb	%bpl, %bpl
	jne	.Lfilter640_BB0_14
.Lfilter640_BB0_4:
	cmovel	%r15d, %edx
	je	.Lfilter640_BB0_6
.Lfilter640_BB0_5:
	movaps	%xmm13, %xmm9
.Lfilter640_BB0_6:
	cmpq	%r10, %r9
	cmovbq	%r9, %r10
	xorps	%xmm11, %xmm11
	movaps	%xmm11, 784(%rsp)
	movaps	%xmm11, 800(%rsp)
	movaps	%xmm11, 816(%rsp)
	movaps	%xmm11, 832(%rsp)
	movaps	%xmm11, 848(%rsp)
	movaps	%xmm11, 864(%rsp)
	movaps	%xmm11, 880(%rsp)
	movaps	%xmm11, 896(%rsp)
	movaps	%xmm11, 912(%rsp)
	movaps	%xmm11, 928(%rsp)
	movaps	%xmm11, 944(%rsp)
	movaps	%xmm11, 960(%rsp)
	movaps	%xmm11, 976(%rsp)
	movaps	%xmm11, 992(%rsp)
	movaps	%xmm11, 1008(%rsp)
	movaps	%xmm11, 1024(%rsp)
	testb	%r13b, %r13b
	je	.Lfilter640_BB0_15
	xorl	%r9d, %r9d
	jmp	.Lfilter640_BB0_10
	.p2align	4
.Lfilter640_BB0_8:
	addq	$2, %r15
.Lfilter640_BB0_9:
	movss	400(%rsp,%r15,4), %xmm11
	movss	%xmm11, 784(%rsp,%r9,4)
	incq	%r9
	cmpq	$64, %r9
	je	.Lfilter640_BB0_16
.Lfilter640_BB0_10:
	movq	16(%r14), %rax
	movq	%rax, 416(%rsp)
	movups	(%r14), %xmm11
	movaps	%xmm11, 400(%rsp)
	movq	%r9, %rax
	shrq	$5, %rax
	leaq	(%rax,%rax,2), %r15
	movl	%r9d, %eax
	andl	$3, %eax
	cmpq	$3, %rax
	je	.Lfilter640_BB0_8
	cmpl	$1, %eax
	jne	.Lfilter640_BB0_9
	incq	%r15
	jmp	.Lfilter640_BB0_9
.Lfilter640_BB0_3:
	testb	%bpl, %bpl
	je	.Lfilter640_BB0_4
.Lfilter640_BB0_14:
	movaps	%xmm11, %xmm1
	cmovel	%r15d, %edx
	jne	.Lfilter640_BB0_5
	jmp	.Lfilter640_BB0_6
.Lfilter640_BB0_15:
	movaps	%xmm11, 1024(%rsp)
	movaps	%xmm11, 1008(%rsp)
	movaps	%xmm11, 992(%rsp)
	movaps	%xmm11, 976(%rsp)
	movaps	%xmm11, 960(%rsp)
	movaps	%xmm11, 944(%rsp)
	movaps	%xmm11, 928(%rsp)
	movaps	%xmm11, 912(%rsp)
	movaps	%xmm11, 896(%rsp)
	movaps	%xmm11, 880(%rsp)
	movaps	%xmm11, 864(%rsp)
	movaps	%xmm11, 848(%rsp)
	movaps	%xmm11, 832(%rsp)
	movaps	%xmm11, 816(%rsp)
	movaps	%xmm11, 800(%rsp)
	movaps	%xmm11, 784(%rsp)
.Lfilter640_BB0_16:
	movq	%rdi, 64(%rsp)
	movups	(%rcx), %xmm11
	movaps	%xmm11, 336(%rsp)
	movups	(%r11), %xmm11
	movaps	%xmm11, 384(%rsp)
	movzbl	%r12b, %ebp
	cmpb	$2, %bpl
	je	.Lfilter640_BB0_31
	cmpl	$1, %ebp
	jne	.Lfilter640_BB0_57
	cmpq	%r10, %rsi
	cmovbq	%rsi, %r10
	movl	$1, %esi
	cmpq	$768, %r10
	jb	.Lfilter640_BB0_58
	movl	$11, %r9d
	movq	1672(%rsp), %r10
	cmpq	$1536, %r10
	jb	.Lfilter640_BB0_60
	movq	1704(%rsp), %r10
	cmpq	$768, %r10
	jb	.Lfilter640_BB0_60
	movq	1688(%rsp), %r10
	cmpq	$768, %r10
	jb	.Lfilter640_BB0_60
	movl	$6, %r9d
	movq	32(%rsp), %r10
	cmpq	$3, %r10
	ja	.Lfilter640_BB0_60
	jmp	.Lfilter640_BB0_23
.Lfilter640_BB0_31:
	cmpq	%r10, %rsi
	cmovbq	%rsi, %r10
	movl	$1, %esi
	cmpq	$768, %r10
	jb	.Lfilter640_BB0_58
	movl	$11, %r9d
	movq	1672(%rsp), %r10
	cmpq	$1536, %r10
	jb	.Lfilter640_BB0_60
	movq	1704(%rsp), %r10
	cmpq	$768, %r10
	jb	.Lfilter640_BB0_60
	movq	1688(%rsp), %r10
	cmpq	$768, %r10
	jb	.Lfilter640_BB0_60
	movl	$6, %r9d
	movq	32(%rsp), %r10
	cmpq	$3, %r10
	ja	.Lfilter640_BB0_60
	movl	16(%rsp), %ecx
	subl	288(%rsp), %ecx
	movswl	%cx, %eax
	cmpl	%ecx, %eax
	jne	.Lfilter640_BB0_65
	movss	%xmm15, 24(%rsp)
	movswl	272(%rsp), %eax
	cvtsi2ss	%eax, %xmm13
	xorps	%xmm15, %xmm15
	movl	$8, %r9d
	ucomiss	%xmm15, %xmm13
	jne	.Lfilter640_BB0_38
	jnp	.Lfilter640_BB0_59
.Lfilter640_BB0_38:
	movswl	256(%rsp), %eax
	xorps	%xmm11, %xmm11
	cvtsi2ss	%eax, %xmm11
	xorl	%r10d, %r10d
	ucomiss	%xmm15, %xmm11
	jne	.Lfilter640_BB0_39
	jnp	.Lfilter640_BB0_60
.Lfilter640_BB0_39:
	movaps	%xmm4, %xmm12
	ucomiss	%xmm15, %xmm12
	jne	.Lfilter640_BB0_40
	jnp	.Lfilter640_BB0_60
.Lfilter640_BB0_40:
	xorps	%xmm12, %xmm12
	cvtsi2ss	%ecx, %xmm12
	divss	%xmm13, %xmm12
	mulss	%xmm12, %xmm5
	addss	.Lfilter640_CPI0_0(%rip), %xmm5
	movaps	%xmm5, %xmm13
	ucomiss	%xmm15, %xmm13
	jne	.Lfilter640_BB0_41
	jnp	.Lfilter640_BB0_59
.Lfilter640_BB0_41:
	movss	%xmm14, 16(%rsp)
	movswl	12(%rsp), %eax
	xorps	%xmm13, %xmm13
	cvtsi2ss	%eax, %xmm13
	mulss	%xmm13, %xmm10
	movswl	240(%rsp), %eax
	cvtsi2ss	%eax, %xmm14
	addss	%xmm10, %xmm14
	movaps	%xmm14, %xmm10
	ucomiss	%xmm15, %xmm10
	jne	.Lfilter640_BB0_42
	jnp	.Lfilter640_BB0_59
.Lfilter640_BB0_42:
	movss	24(%rsp), %xmm10
	xorl	%r10d, %r10d
	ucomiss	%xmm15, %xmm10
	jne	.Lfilter640_BB0_43
	jnp	.Lfilter640_BB0_60
.Lfilter640_BB0_43:
	ucomiss	%xmm10, %xmm10
	jp	.Lfilter640_BB0_60
	movl	%edi, %r8d
	shrl	$16, %r8d
	movl	$13, %r9d
	cmpw	%di, %r8w
	jle	.Lfilter640_BB0_110
	movq	%rdi, %r10
	shrq	$32, %r10
	cmpw	%r8w, %r10w
	jle	.Lfilter640_BB0_111
	shrq	$48, %rdi
	cmpw	%r10w, %di
	movl	$3, %r10d
	jle	.Lfilter640_BB0_60
	jmp	.Lfilter640_BB0_47
.Lfilter640_BB0_57:
	movl	$1, %esi
	cmpq	$768, %r10
	jae	.Lfilter640_BB0_61
.Lfilter640_BB0_58:
	movl	$2, %r9d
.Lfilter640_BB0_59:
	xorl	%r10d, %r10d
.Lfilter640_BB0_60:
	movq	376(%rsp), %rax
	movq	%rsi, (%rax)
	movl	%r9d, 8(%rax)
	movl	$0, 12(%rax)
	movq	%r10, 16(%rax)
	movw	$0, 24(%rax)
	addq	$1576, %rsp
	popq	%rbx
	popq	%r12
	popq	%r13
	popq	%r14
	popq	%r15
	popq	%rbp
	retq
.Lfilter640_BB0_61:
	movl	$11, %r9d
	movq	1672(%rsp), %r10
	cmpq	$1536, %r10
	jb	.Lfilter640_BB0_60
	movq	1704(%rsp), %r10
	cmpq	$768, %r10
	jb	.Lfilter640_BB0_60
	movq	1688(%rsp), %r10
	cmpq	$768, %r10
	jb	.Lfilter640_BB0_60
.Lfilter640_BB0_23:
	movl	16(%rsp), %ecx
	subl	288(%rsp), %ecx
	movswl	%cx, %eax
	cmpl	%ecx, %eax
	je	.Lfilter640_BB0_24
.Lfilter640_BB0_65:
	movl	$7, %r9d
	jmp	.Lfilter640_BB0_59
.Lfilter640_BB0_24:
	movss	%xmm15, 24(%rsp)
	movswl	272(%rsp), %eax
	cvtsi2ss	%eax, %xmm13
	xorps	%xmm15, %xmm15
	movl	$8, %r9d
	ucomiss	%xmm15, %xmm13
	jne	.Lfilter640_BB0_25
	jnp	.Lfilter640_BB0_59
.Lfilter640_BB0_25:
	movswl	256(%rsp), %eax
	xorps	%xmm11, %xmm11
	cvtsi2ss	%eax, %xmm11
	xorl	%r10d, %r10d
	ucomiss	%xmm15, %xmm11
	jne	.Lfilter640_BB0_26
	jnp	.Lfilter640_BB0_60
.Lfilter640_BB0_26:
	movaps	%xmm4, %xmm12
	ucomiss	%xmm15, %xmm12
	jne	.Lfilter640_BB0_27
	jnp	.Lfilter640_BB0_60
.Lfilter640_BB0_27:
	xorps	%xmm12, %xmm12
	cvtsi2ss	%ecx, %xmm12
	divss	%xmm13, %xmm12
	mulss	%xmm12, %xmm5
	addss	.Lfilter640_CPI0_0(%rip), %xmm5
	movaps	%xmm5, %xmm13
	ucomiss	%xmm15, %xmm13
	jne	.Lfilter640_BB0_28
	jnp	.Lfilter640_BB0_59
.Lfilter640_BB0_28:
	movss	%xmm14, 16(%rsp)
	movswl	12(%rsp), %eax
	xorps	%xmm13, %xmm13
	cvtsi2ss	%eax, %xmm13
	mulss	%xmm13, %xmm10
	movswl	240(%rsp), %eax
	cvtsi2ss	%eax, %xmm14
	addss	%xmm10, %xmm14
	movaps	%xmm14, %xmm10
	ucomiss	%xmm15, %xmm10
	jne	.Lfilter640_BB0_29
	jnp	.Lfilter640_BB0_59
.Lfilter640_BB0_29:
	movss	24(%rsp), %xmm10
	xorl	%r10d, %r10d
	ucomiss	%xmm15, %xmm10
	jne	.Lfilter640_BB0_30
	jnp	.Lfilter640_BB0_60
.Lfilter640_BB0_30:
	ucomiss	%xmm10, %xmm10
	jp	.Lfilter640_BB0_60
.Lfilter640_BB0_47:
	movss	16(%rsp), %xmm10
	divss	%xmm11, %xmm10
	movss	%xmm10, 16(%rsp)
	divss	%xmm14, %xmm13
	mulss	.Lfilter640_CPI0_1(%rip), %xmm13
	divss	%xmm5, %xmm13
	subss	%xmm6, %xmm13
	mulss	%xmm12, %xmm7
	divss	%xmm4, %xmm13
	unpcklps	%xmm13, %xmm7
	movaps	.Lfilter640_CPI0_2(%rip), %xmm11
	movss	%xmm8, %xmm11
	addps	%xmm7, %xmm11
	xorps	%xmm7, %xmm7
	cmpb	$1, 11(%rsp)
	movss	24(%rsp), %xmm10
	movss	28(%rsp), %xmm5
	jne	.Lfilter640_BB0_49
	movswl	%dx, %eax
	cvtsi2ss	%eax, %xmm4
	mulss	16(%rsp), %xmm0
	addss	%xmm0, %xmm9
	movsd	.Lfilter640_CPI0_10(%rip), %xmm0
	addps	%xmm11, %xmm0
	mulps	%xmm0, %xmm3
	addps	.Lfilter640_CPI0_4(%rip), %xmm3
	movaps	%xmm3, %xmm0
	shufps	$85, %xmm3, %xmm0
	mulss	%xmm4, %xmm0
	mulss	%xmm3, %xmm0
	subss	%xmm0, %xmm9
	divss	%xmm10, %xmm9
	mulss	%xmm5, %xmm9
	movaps	%xmm9, %xmm7
.Lfilter640_BB0_49:
	movaps	%xmm11, %xmm3
	shufps	$85, %xmm11, %xmm3
	cmpb	$2, %r12b
	movss	%xmm7, 44(%rsp)
	movaps	%xmm3, 224(%rsp)
	je	.Lfilter640_BB0_66
	cmpl	$1, %ebp
	jne	.Lfilter640_BB0_72
	movq	56(%rsp), %rcx
	movss	.Lfilter640_CPI0_5(%rip), %xmm0
	addss	%xmm3, %xmm0
	mulss	%xmm0, %xmm0
	mulss	%xmm0, %xmm0
	movss	%xmm0, 12(%rsp)
	movaps	%xmm10, %xmm5
	movaps	%xmm10, %xmm0
	movss	.Lfilter640_CPI0_0(%rip), %xmm3
	movaps	%xmm3, %xmm4
	ucomiss	%xmm4, %xmm0
	jne	.Lfilter640_BB0_52
	jnp	.Lfilter640_BB0_55
.Lfilter640_BB0_52:
	cmpb	$0, 48(%rsp)
	je	.Lfilter640_BB0_54
	movaps	224(%rsp), %xmm0
	subss	%xmm2, %xmm0
	movaps	%xmm0, %xmm2
.Lfilter640_BB0_54:
	addss	.Lfilter640_CPI0_5(%rip), %xmm2
	mulss	%xmm2, %xmm2
	mulss	%xmm2, %xmm2
	movaps	%xmm2, %xmm0
	subss	12(%rsp), %xmm0
	divss	%xmm5, %xmm0
	subss	%xmm0, %xmm2
	movss	%xmm2, 12(%rsp)
.Lfilter640_BB0_55:
	movq	32(%rsp), %rdx
	movss	336(%rsp,%rdx,4), %xmm2
	movss	.Lfilter640_CPI0_6(%rip), %xmm0
	addss	224(%rsp), %xmm0
	movss	20(%rsp), %xmm4
	mulss	%xmm0, %xmm4
	movss	%xmm4, 20(%rsp)
	cmpb	$1, 11(%rsp)
	je	.Lfilter640_BB0_73
	xorps	%xmm6, %xmm6
	jmp	.Lfilter640_BB0_74
.Lfilter640_BB0_66:
	movq	56(%rsp), %rcx
	movss	.Lfilter640_CPI0_5(%rip), %xmm0
	addss	%xmm3, %xmm0
	mulss	%xmm0, %xmm0
	mulss	%xmm0, %xmm0
	movss	%xmm0, 12(%rsp)
	movaps	%xmm10, %xmm5
	movaps	%xmm10, %xmm0
	movss	.Lfilter640_CPI0_0(%rip), %xmm3
	movaps	%xmm3, %xmm4
	ucomiss	%xmm4, %xmm0
	jne	.Lfilter640_BB0_67
	jnp	.Lfilter640_BB0_70
.Lfilter640_BB0_67:
	cmpb	$0, 48(%rsp)
	je	.Lfilter640_BB0_69
	movaps	224(%rsp), %xmm0
	subss	%xmm2, %xmm0
	movaps	%xmm0, %xmm2
.Lfilter640_BB0_69:
	addss	.Lfilter640_CPI0_5(%rip), %xmm2
	mulss	%xmm2, %xmm2
	mulss	%xmm2, %xmm2
	movaps	%xmm2, %xmm0
	subss	12(%rsp), %xmm0
	divss	%xmm5, %xmm0
	subss	%xmm0, %xmm2
	movss	%xmm2, 12(%rsp)
.Lfilter640_BB0_70:
	movq	32(%rsp), %rdx
	movss	336(%rsp,%rdx,4), %xmm2
	movss	.Lfilter640_CPI0_6(%rip), %xmm0
	addss	224(%rsp), %xmm0
	movss	20(%rsp), %xmm4
	mulss	%xmm0, %xmm4
	movss	%xmm4, 20(%rsp)
	cmpb	$1, 11(%rsp)
	je	.Lfilter640_BB0_75
	xorps	%xmm6, %xmm6
	jmp	.Lfilter640_BB0_76
.Lfilter640_BB0_72:
	movl	%r12d, %edi
	movss	.Lfilter640_CPI0_6(%rip), %xmm0
	addss	%xmm3, %xmm0
	movb	$1, %al
	movl	%eax, 40(%rsp)
	xorps	%xmm6, %xmm6
	xorl	%edx, %edx
	xorps	%xmm4, %xmm4
	xorps	%xmm1, %xmm1
	movss	%xmm1, 12(%rsp)
	xorps	%xmm2, %xmm2
	movq	$0, 72(%rsp)
	movss	16(%rsp), %xmm9
	movq	1696(%rsp), %rbx
	movq	1680(%rsp), %r14
	movq	1664(%rsp), %r8
	movq	1648(%rsp), %r12
	movq	56(%rsp), %r11
	jmp	.Lfilter640_BB0_78
.Lfilter640_BB0_73:
	movss	28(%rsp), %xmm6
	mulss	%xmm1, %xmm6
.Lfilter640_BB0_74:
	movss	20(%rsp), %xmm4
	addss	%xmm3, %xmm4
	movss	.Lfilter640_CPI0_7(%rip), %xmm1
	mulss	%xmm2, %xmm1
	addss	%xmm3, %xmm1
	movb	$1, %dl
	movl	%edx, 40(%rsp)
	movq	$0, 72(%rsp)
	jmp	.Lfilter640_BB0_77
.Lfilter640_BB0_75:
	movss	28(%rsp), %xmm6
	mulss	%xmm1, %xmm6
.Lfilter640_BB0_76:
	movss	20(%rsp), %xmm4
	addss	%xmm3, %xmm4
	movss	.Lfilter640_CPI0_7(%rip), %xmm1
	mulss	%xmm2, %xmm1
	addss	%xmm3, %xmm1
	movl	$4, %edx
	movq	%rdx, 72(%rsp)
	movl	$0, 40(%rsp)
.Lfilter640_BB0_77:
	movzbl	11(%rsp), %edx
	movq	%rcx, %r11
	movl	%r12d, %edi
	movss	16(%rsp), %xmm9
	movaps	%xmm5, %xmm10
	movq	1696(%rsp), %rbx
	movq	1680(%rsp), %r14
	movq	1664(%rsp), %r8
	movq	1648(%rsp), %r12
	movss	44(%rsp), %xmm7
.Lfilter640_BB0_78:
	movq	%rdx, 360(%rsp)
	movzbl	%dl, %eax
	movl	%eax, 312(%rsp)
	movss	%xmm6, 316(%rsp)
	movss	%xmm4, 320(%rsp)
	movd	12(%rsp), %xmm3
	movd	%xmm3, 324(%rsp)
	movss	%xmm2, 328(%rsp)
	addss	.Lfilter640_CPI0_8(%rip), %xmm11
	movss	%xmm1, 332(%rsp)
	unpcklps	%xmm0, %xmm11
	xorl	%r10d, %r10d
	xorl	%ecx, %ecx
.Lfilter640_BB0_79:
	movq	%rcx, %r15
	shlq	$5, %r15
	movq	%rcx, %r9
	shlq	$7, %r9
	leaq	(%rbx,%r9), %rax
	movq	%rax, 32(%rsp)
	movq	%r12, %r13
	leaq	(%r12,%r9), %rax
	leaq	(%r11,%r9), %rdx
	movq	%rcx, %rsi
	shlq	$6, %rsi
	addq	%r8, %rsi
	addq	1632(%rsp), %r9
	movq	%r9, %r12
	movq	%rcx, %r9
.Lfilter640_BB0_80:
	movdqu	(%r14,%r15), %xmm0
	movdqu	16(%r14,%r15), %xmm1
	por	%xmm0, %xmm1
	pxor	%xmm0, %xmm0
	pcmpeqb	%xmm0, %xmm1
	pmovmskb	%xmm1, %r8d
	xorl	$65535, %r8d
	jne	.Lfilter640_BB0_82
	addq	$32, %r15
	subq	$-128, 32(%rsp)
	subq	$-128, %rax
	subq	$-128, %rdx
	addq	$64, %rsi
	subq	$-128, %r12
	xorb	$1, %cl
	cmpq	$23, %r9
	leaq	1(%r9), %r9
	jb	.Lfilter640_BB0_80
	jmp	.Lfilter640_BB0_109
.Lfilter640_BB0_82:
	movq	%r15, 48(%rsp)
	movq	%r9, 80(%rsp)
	movq	%r10, 368(%rsp)
	movdqa	%xmm0, 1168(%rsp)
	movdqa	%xmm0, 1152(%rsp)
	movdqa	%xmm0, 1136(%rsp)
	movdqa	%xmm0, 1120(%rsp)
	movdqa	%xmm0, 1104(%rsp)
	movdqa	%xmm0, 1088(%rsp)
	movdqa	%xmm0, 1072(%rsp)
	movdqa	%xmm0, 1056(%rsp)
	movdqa	%xmm0, 656(%rsp)
	movdqa	%xmm0, 672(%rsp)
	movdqa	%xmm0, 688(%rsp)
	movdqa	%xmm0, 704(%rsp)
	movdqa	%xmm0, 720(%rsp)
	movdqa	%xmm0, 736(%rsp)
	movdqa	%xmm0, 752(%rsp)
	movdqa	%xmm0, 768(%rsp)
	movdqa	%xmm0, 528(%rsp)
	movdqa	%xmm0, 544(%rsp)
	movdqa	%xmm0, 560(%rsp)
	movdqa	%xmm0, 576(%rsp)
	movdqa	%xmm0, 592(%rsp)
	movdqa	%xmm0, 608(%rsp)
	movdqa	%xmm0, 624(%rsp)
	movdqa	%xmm0, 640(%rsp)
	cmpb	$0, 11(%rsp)
	je	.Lfilter640_BB0_85
	movzbl	%cl, %r8d
	andl	$1, %r8d
	shll	$7, %r8d
	leaq	(%rsp,%r8), %rcx
	addq	$784, %rcx
	addq	%rsp, %r8
	addq	$1312, %r8
	xorl	%r9d, %r9d
.Lfilter640_BB0_84:
	movzwl	(%rsi,%r9), %r10d
	rolw	$8, %r10w
	movswl	%r10w, %r10d
	xorps	%xmm0, %xmm0
	cvtsi2ss	%r10d, %xmm0
	movl	(%rdx,%r9,2), %r10d
	movl	%r10d, %r11d
	sarl	$16, %r11d
	xorps	%xmm1, %xmm1
	cvtsi2ss	%r11d, %xmm1
	mulss	.Lfilter640_CPI0_9(%rip), %xmm1
	movzwl	%r10w, %r10d
	xorps	%xmm2, %xmm2
	cvtsi2ss	%r10d, %xmm2
	addss	%xmm1, %xmm2
	mulss	%xmm9, %xmm0
	addss	(%rcx,%r9,2), %xmm0
	movss	(%rax,%r9,2), %xmm1
	movss	(%r8,%r9,2), %xmm3
	unpcklps	%xmm1, %xmm3
	mulps	%xmm11, %xmm3
	addps	.Lfilter640_CPI0_4(%rip), %xmm3
	movaps	%xmm3, %xmm1
	shufps	$85, %xmm3, %xmm1
	mulss	%xmm2, %xmm1
	mulss	%xmm3, %xmm1
	subss	%xmm1, %xmm0
	divss	%xmm10, %xmm0
	subss	%xmm7, %xmm0
	movss	%xmm0, 1056(%rsp,%r9,2)
	addq	$2, %r9
	cmpq	$64, %r9
	jne	.Lfilter640_BB0_84
	jmp	.Lfilter640_BB0_87
.Lfilter640_BB0_85:
	movzbl	%cl, %r8d
	andl	$1, %r8d
	shll	$7, %r8d
	leaq	(%rsp,%r8), %rcx
	addq	$784, %rcx
	addq	%rsp, %r8
	addq	$1312, %r8
	xorl	%r9d, %r9d
.Lfilter640_BB0_86:
	movzwl	(%rsi,%r9), %r10d
	rolw	$8, %r10w
	movswl	%r10w, %r10d
	xorps	%xmm0, %xmm0
	cvtsi2ss	%r10d, %xmm0
	movl	(%rdx,%r9,2), %r10d
	movl	%r10d, %r11d
	sarl	$16, %r11d
	xorps	%xmm1, %xmm1
	cvtsi2ss	%r11d, %xmm1
	mulss	.Lfilter640_CPI0_9(%rip), %xmm1
	movzwl	%r10w, %r10d
	xorps	%xmm2, %xmm2
	cvtsi2ss	%r10d, %xmm2
	mulss	%xmm9, %xmm0
	addss	(%rcx,%r9,2), %xmm0
	addss	%xmm1, %xmm2
	movss	(%rax,%r9,2), %xmm1
	movss	(%r8,%r9,2), %xmm3
	unpcklps	%xmm1, %xmm3
	mulps	%xmm11, %xmm3
	addps	.Lfilter640_CPI0_4(%rip), %xmm3
	movaps	%xmm3, %xmm1
	shufps	$85, %xmm3, %xmm1
	mulss	%xmm2, %xmm1
	mulss	%xmm3, %xmm1
	subss	%xmm1, %xmm0
	divss	%xmm10, %xmm0
	movss	%xmm0, 1056(%rsp,%r9,2)
	addq	$2, %r9
	cmpq	$64, %r9
	jne	.Lfilter640_BB0_86
.Lfilter640_BB0_87:
	xorps	%xmm0, %xmm0
	movaps	%xmm0, 208(%rsp)
	movaps	%xmm0, 192(%rsp)
	movaps	%xmm0, 176(%rsp)
	movaps	%xmm0, 160(%rsp)
	movaps	%xmm0, 144(%rsp)
	movaps	%xmm0, 128(%rsp)
	movaps	%xmm0, 112(%rsp)
	movaps	%xmm0, 96(%rsp)
	cmpb	$2, %dil
	movl	%edi, 92(%rsp)
	movss	%xmm10, 24(%rsp)
	movss	%xmm4, 20(%rsp)
	movss	%xmm6, 28(%rsp)
	movaps	%xmm11, 1040(%rsp)
	je	.Lfilter640_BB0_91
	cmpl	$1, %ebp
	jne	.Lfilter640_BB0_98
	leaq	312(%rsp), %rdi
	leaq	1056(%rsp), %rcx
	leaq	96(%rsp), %r8
	movq	1632(%rsp), %rsi
	movq	48(%rsp), %rdx
	callq	loamchalice.filter640.pixels.temperature_block
	xorl	%eax, %eax
	movq	80(%rsp), %r15
	movq	%r13, %r12
.Lfilter640_BB0_90:
	movd	96(%rsp,%rax,4), %xmm0
	movd	100(%rsp,%rax,4), %xmm1
	movd	%xmm0, %ecx
	xorl	%edx, %edx
	ucomiss	%xmm0, %xmm0
	setp	%dl
	movl	$2143289344, %esi
	cmovpl	%esi, %ecx
	movl	%ecx, 656(%rsp,%rax,4)
	movd	%xmm1, %ecx
	xorl	%edi, %edi
	ucomiss	%xmm1, %xmm1
	movl	%edx, 528(%rsp,%rax,4)
	setp	%dil
	cmovpl	%esi, %ecx
	movl	%ecx, 660(%rsp,%rax,4)
	movl	%edi, 532(%rsp,%rax,4)
	addq	$2, %rax
	cmpq	$32, %rax
	jne	.Lfilter640_BB0_90
	jmp	.Lfilter640_BB0_104
.Lfilter640_BB0_91:
	movaps	%xmm0, 400(%rsp)
	movaps	%xmm0, 416(%rsp)
	movaps	%xmm0, 432(%rsp)
	movaps	%xmm0, 448(%rsp)
	movaps	%xmm0, 464(%rsp)
	movaps	%xmm0, 480(%rsp)
	movaps	%xmm0, 496(%rsp)
	movaps	%xmm0, 512(%rsp)
	movaps	%xmm0, 1184(%rsp)
	movaps	%xmm0, 1200(%rsp)
	movaps	%xmm0, 1216(%rsp)
	movaps	%xmm0, 1232(%rsp)
	movaps	%xmm0, 1248(%rsp)
	movaps	%xmm0, 1264(%rsp)
	movaps	%xmm0, 1280(%rsp)
	movaps	%xmm0, 1296(%rsp)
	leaq	312(%rsp), %rdi
	leaq	1056(%rsp), %rcx
	leaq	96(%rsp), %r8
	movq	1632(%rsp), %rsi
	movq	48(%rsp), %rdx
	callq	loamchalice.filter640.pixels.temperature_block
	cmpb	$0, 40(%rsp)
	jne	.Lfilter640_BB0_95
	movss	96(%rsp), %xmm2
	movss	100(%rsp), %xmm0
	unpcklps	%xmm0, %xmm2
	movss	104(%rsp), %xmm0
	movss	108(%rsp), %xmm1
	unpcklps	%xmm1, %xmm0
	movlhps	%xmm0, %xmm2
	movaps	%xmm2, 288(%rsp)
	movss	112(%rsp), %xmm2
	movss	116(%rsp), %xmm0
	unpcklps	%xmm0, %xmm2
	movss	120(%rsp), %xmm0
	movss	124(%rsp), %xmm1
	unpcklps	%xmm1, %xmm0
	movlhps	%xmm0, %xmm2
	movaps	%xmm2, 272(%rsp)
	movss	128(%rsp), %xmm2
	movss	132(%rsp), %xmm0
	unpcklps	%xmm0, %xmm2
	movss	136(%rsp), %xmm0
	movss	140(%rsp), %xmm1
	unpcklps	%xmm1, %xmm0
	movlhps	%xmm0, %xmm2
	movaps	%xmm2, 256(%rsp)
	movss	144(%rsp), %xmm2
	movss	148(%rsp), %xmm0
	punpckldq	%xmm0, %xmm2
	movss	152(%rsp), %xmm0
	movss	156(%rsp), %xmm1
	punpckldq	%xmm1, %xmm0
	punpcklqdq	%xmm0, %xmm2
	movdqa	%xmm2, 240(%rsp)
	movss	160(%rsp), %xmm4
	movss	164(%rsp), %xmm0
	unpcklps	%xmm0, %xmm4
	movss	168(%rsp), %xmm0
	movss	172(%rsp), %xmm1
	unpcklps	%xmm1, %xmm0
	movlhps	%xmm0, %xmm4
	movss	176(%rsp), %xmm5
	movss	180(%rsp), %xmm0
	unpcklps	%xmm0, %xmm5
	movss	184(%rsp), %xmm0
	movss	188(%rsp), %xmm1
	unpcklps	%xmm1, %xmm0
	movlhps	%xmm0, %xmm5
	movss	192(%rsp), %xmm6
	movss	196(%rsp), %xmm0
	unpcklps	%xmm0, %xmm6
	movss	200(%rsp), %xmm0
	movss	204(%rsp), %xmm1
	unpcklps	%xmm1, %xmm0
	movlhps	%xmm0, %xmm6
	movss	208(%rsp), %xmm7
	movss	212(%rsp), %xmm0
	unpcklps	%xmm0, %xmm7
	movss	216(%rsp), %xmm0
	movss	220(%rsp), %xmm1
	unpcklps	%xmm1, %xmm0
	movlhps	%xmm0, %xmm7
	xorps	%xmm8, %xmm8
	xorl	%eax, %eax
	xorps	%xmm9, %xmm9
	xorps	%xmm10, %xmm10
	xorps	%xmm11, %xmm11
	xorps	%xmm12, %xmm12
	xorps	%xmm13, %xmm13
	xorps	%xmm14, %xmm14
	pxor	%xmm2, %xmm2
	movq	72(%rsp), %rdx
.Lfilter640_BB0_93:
	movswl	64(%rsp,%rax,2), %ecx
	xorps	%xmm0, %xmm0
	cvtsi2ss	%ecx, %xmm0
	shufps	$0, %xmm0, %xmm0
	movaps	%xmm0, %xmm15
	cmpleps	288(%rsp), %xmm15
	movd	%eax, %xmm1
	pshufd	$0, %xmm1, %xmm3
	movdqa	%xmm3, %xmm1
	pand	%xmm15, %xmm1
	andnps	%xmm8, %xmm15
	movaps	%xmm15, %xmm8
	orps	%xmm1, %xmm8
	movaps	%xmm0, %xmm1
	cmpleps	272(%rsp), %xmm1
	movdqa	%xmm3, %xmm15
	pand	%xmm1, %xmm15
	andnps	%xmm9, %xmm1
	movaps	%xmm1, %xmm9
	orps	%xmm15, %xmm9
	movaps	%xmm0, %xmm1
	cmpleps	256(%rsp), %xmm1
	movdqa	%xmm3, %xmm15
	pand	%xmm1, %xmm15
	andnps	%xmm10, %xmm1
	movaps	%xmm1, %xmm10
	orps	%xmm15, %xmm10
	movaps	%xmm0, %xmm1
	cmpleps	240(%rsp), %xmm1
	movdqa	%xmm3, %xmm15
	pand	%xmm1, %xmm15
	andnps	%xmm11, %xmm1
	movaps	%xmm1, %xmm11
	orps	%xmm15, %xmm11
	movaps	%xmm0, %xmm1
	cmpleps	%xmm4, %xmm1
	movdqa	%xmm3, %xmm15
	pand	%xmm1, %xmm15
	andnps	%xmm12, %xmm1
	movaps	%xmm1, %xmm12
	orps	%xmm15, %xmm12
	movaps	%xmm0, %xmm1
	cmpleps	%xmm5, %xmm1
	movdqa	%xmm3, %xmm15
	pand	%xmm1, %xmm15
	andnps	%xmm13, %xmm1
	movaps	%xmm1, %xmm13
	orps	%xmm15, %xmm13
	movaps	%xmm0, %xmm1
	cmpleps	%xmm6, %xmm1
	movdqa	%xmm3, %xmm15
	pand	%xmm1, %xmm15
	andnps	%xmm14, %xmm1
	movaps	%xmm1, %xmm14
	orps	%xmm15, %xmm14
	cmpleps	%xmm7, %xmm0
	pand	%xmm0, %xmm3
	pandn	%xmm2, %xmm0
	movdqa	%xmm0, %xmm2
	por	%xmm3, %xmm2
	incq	%rax
	cmpq	%rax, %rdx
	jne	.Lfilter640_BB0_93
	movaps	%xmm8, 400(%rsp)
	movaps	%xmm9, 416(%rsp)
	movaps	%xmm10, 432(%rsp)
	movaps	%xmm11, 448(%rsp)
	movaps	%xmm12, 464(%rsp)
	movaps	%xmm13, 480(%rsp)
	movaps	%xmm14, 496(%rsp)
	movdqa	%xmm2, 512(%rsp)
.Lfilter640_BB0_95:
	cmpb	$0, 360(%rsp)
	je	.Lfilter640_BB0_100
	xorl	%eax, %eax
	movss	20(%rsp), %xmm4
	movss	28(%rsp), %xmm5
	movss	12(%rsp), %xmm6
.Lfilter640_BB0_97:
	movl	400(%rsp,%rax,4), %ecx
	movss	(%r12,%rax,4), %xmm0
	subss	%xmm5, %xmm0
	movswl	64(%rsp,%rcx,2), %edx
	xorps	%xmm1, %xmm1
	cvtsi2ss	%edx, %xmm1
	mulss	%xmm4, %xmm0
	movss	1056(%rsp,%rax,4), %xmm2
	movss	96(%rsp,%rax,4), %xmm3
	subss	%xmm1, %xmm3
	mulss	384(%rsp,%rcx,4), %xmm0
	mulss	336(%rsp,%rcx,4), %xmm3
	addss	.Lfilter640_CPI0_0(%rip), %xmm3
	mulss	%xmm0, %xmm3
	divss	%xmm3, %xmm2
	addss	%xmm6, %xmm2
	movss	%xmm2, 1184(%rsp,%rax,4)
	incq	%rax
	cmpq	$32, %rax
	jne	.Lfilter640_BB0_97
	jmp	.Lfilter640_BB0_102
.Lfilter640_BB0_98:
	xorl	%eax, %eax
	movq	80(%rsp), %r15
	movq	%r13, %r12
.Lfilter640_BB0_99:
	movd	1056(%rsp,%rax,4), %xmm0
	movd	1060(%rsp,%rax,4), %xmm1
	movd	%xmm0, %ecx
	xorl	%edx, %edx
	ucomiss	%xmm0, %xmm0
	setp	%dl
	movl	$2143289344, %esi
	cmovpl	%esi, %ecx
	movl	%ecx, 656(%rsp,%rax,4)
	movd	%xmm1, %ecx
	xorl	%edi, %edi
	ucomiss	%xmm1, %xmm1
	movl	%edx, 528(%rsp,%rax,4)
	setp	%dil
	cmovpl	%esi, %ecx
	movl	%ecx, 660(%rsp,%rax,4)
	movl	%edi, 532(%rsp,%rax,4)
	addq	$2, %rax
	cmpq	$32, %rax
	jne	.Lfilter640_BB0_99
	jmp	.Lfilter640_BB0_104
.Lfilter640_BB0_100:
	xorl	%eax, %eax
	movss	20(%rsp), %xmm4
	movss	12(%rsp), %xmm5
.Lfilter640_BB0_101:
	movl	400(%rsp,%rax,4), %ecx
	movss	(%r12,%rax,4), %xmm0
	movswl	64(%rsp,%rcx,2), %edx
	xorps	%xmm1, %xmm1
	cvtsi2ss	%edx, %xmm1
	mulss	%xmm4, %xmm0
	movss	1056(%rsp,%rax,4), %xmm2
	movss	96(%rsp,%rax,4), %xmm3
	subss	%xmm1, %xmm3
	mulss	384(%rsp,%rcx,4), %xmm0
	mulss	336(%rsp,%rcx,4), %xmm3
	addss	.Lfilter640_CPI0_0(%rip), %xmm3
	mulss	%xmm0, %xmm3
	divss	%xmm3, %xmm2
	addss	%xmm5, %xmm2
	movss	%xmm2, 1184(%rsp,%rax,4)
	incq	%rax
	cmpq	$32, %rax
	jne	.Lfilter640_BB0_101
.Lfilter640_BB0_102:
	leaq	1184(%rsp), %rdi
	leaq	96(%rsp), %rsi
	callq	loamchalice.filter640.pixels.degrees_block
	xorl	%eax, %eax
	movq	1696(%rsp), %rbx
	movq	1680(%rsp), %r14
	movq	1648(%rsp), %r12
	movq	80(%rsp), %r15
.Lfilter640_BB0_103:
	movd	96(%rsp,%rax,4), %xmm0
	movd	100(%rsp,%rax,4), %xmm1
	movd	%xmm0, %ecx
	xorl	%edx, %edx
	ucomiss	%xmm0, %xmm0
	setp	%dl
	movl	$2143289344, %esi
	cmovpl	%esi, %ecx
	movl	%ecx, 656(%rsp,%rax,4)
	movd	%xmm1, %ecx
	xorl	%edi, %edi
	ucomiss	%xmm1, %xmm1
	movl	%edx, 528(%rsp,%rax,4)
	setp	%dil
	cmovpl	%esi, %ecx
	movl	%ecx, 660(%rsp,%rax,4)
	movl	%edi, 532(%rsp,%rax,4)
	addq	$2, %rax
	cmpq	$32, %rax
	jne	.Lfilter640_BB0_103
.Lfilter640_BB0_104:
	movq	32(%rsp), %rdi
	leaq	128(%rdi), %rcx
	movq	48(%rsp), %rsi
	leaq	(%r14,%rsi), %rax
	leaq	(%r14,%rsi), %rdx
	addq	$32, %rdx
	cmpq	%rdx, %rdi
	setae	%dl
	cmpq	%rcx, %rax
	setae	%cl
	orb	%dl, %cl
	movq	56(%rsp), %r11
	movl	92(%rsp), %edi
	movss	16(%rsp), %xmm9
	movss	24(%rsp), %xmm10
	movq	368(%rsp), %r10
	movaps	1040(%rsp), %xmm11
	jne	.Lfilter640_BB0_107
	xorl	%edx, %edx
	xorl	%ecx, %ecx
	xorl	%esi, %esi
.Lfilter640_BB0_106:
	cmpb	$0, (%rax,%rsi)
	leaq	656(%rsp,%rsi,4), %r8
	movq	32(%rsp), %r9
	leaq	(%r9,%rsi,4), %r9
	cmovneq	%r8, %r9
	movl	(%r9), %r8d
	movq	32(%rsp), %r9
	movl	%r8d, (%r9,%rsi,4)
	movl	528(%rsp,%rsi,4), %r8d
	cmovel	%edx, %r8d
	addl	%r8d, %ecx
	incq	%rsi
	cmpq	$32, %rsi
	jne	.Lfilter640_BB0_106
	jmp	.Lfilter640_BB0_108
.Lfilter640_BB0_107:
	movd	(%r14,%rsi), %xmm4
	movd	4(%r14,%rsi), %xmm3
	punpcklbw	%xmm4, %xmm4
	punpcklwd	%xmm4, %xmm4
	xorps	%xmm0, %xmm0
	pcmpeqb	%xmm0, %xmm4
	punpcklbw	%xmm3, %xmm3
	punpcklwd	%xmm3, %xmm3
	pcmpeqb	%xmm0, %xmm3
	movdqu	(%rbx,%rsi,4), %xmm1
	movdqu	16(%rbx,%rsi,4), %xmm2
	movdqu	32(%rbx,%rsi,4), %xmm6
	movdqu	48(%rbx,%rsi,4), %xmm5
	pand	%xmm4, %xmm1
	movdqa	%xmm4, %xmm7
	pandn	656(%rsp), %xmm7
	por	%xmm1, %xmm7
	movdqa	%xmm3, %xmm1
	pandn	672(%rsp), %xmm1
	pand	%xmm3, %xmm2
	por	%xmm2, %xmm1
	movdqu	%xmm7, (%rbx,%rsi,4)
	movdqu	%xmm1, 16(%rbx,%rsi,4)
	pandn	528(%rsp), %xmm4
	pandn	544(%rsp), %xmm3
	movd	8(%r14,%rsi), %xmm2
	movd	12(%r14,%rsi), %xmm1
	punpcklbw	%xmm2, %xmm2
	punpcklwd	%xmm2, %xmm2
	pcmpeqb	%xmm0, %xmm2
	punpcklbw	%xmm1, %xmm1
	punpcklwd	%xmm1, %xmm1
	pcmpeqb	%xmm0, %xmm1
	pand	%xmm2, %xmm6
	movdqa	%xmm2, %xmm7
	pandn	688(%rsp), %xmm7
	por	%xmm6, %xmm7
	movdqa	%xmm1, %xmm6
	pandn	704(%rsp), %xmm6
	pand	%xmm1, %xmm5
	por	%xmm5, %xmm6
	movdqu	%xmm7, 32(%rbx,%rsi,4)
	movdqu	%xmm6, 48(%rbx,%rsi,4)
	pandn	560(%rsp), %xmm2
	pandn	576(%rsp), %xmm1
	paddd	%xmm4, %xmm2
	paddd	%xmm3, %xmm1
	movd	16(%r14,%rsi), %xmm4
	movd	20(%r14,%rsi), %xmm3
	punpcklbw	%xmm4, %xmm4
	punpcklwd	%xmm4, %xmm4
	pcmpeqb	%xmm0, %xmm4
	punpcklbw	%xmm3, %xmm3
	punpcklwd	%xmm3, %xmm3
	pcmpeqb	%xmm0, %xmm3
	movdqu	64(%rbx,%rsi,4), %xmm5
	movdqu	80(%rbx,%rsi,4), %xmm6
	pand	%xmm4, %xmm5
	movdqa	%xmm4, %xmm7
	pandn	720(%rsp), %xmm7
	por	%xmm5, %xmm7
	movdqa	%xmm3, %xmm5
	pandn	736(%rsp), %xmm5
	pand	%xmm3, %xmm6
	por	%xmm6, %xmm5
	movdqu	%xmm7, 64(%rbx,%rsi,4)
	movdqu	%xmm5, 80(%rbx,%rsi,4)
	pandn	592(%rsp), %xmm4
	pandn	608(%rsp), %xmm3
	movd	24(%r14,%rsi), %xmm6
	movd	28(%r14,%rsi), %xmm5
	punpcklbw	%xmm6, %xmm6
	punpcklwd	%xmm6, %xmm6
	pcmpeqb	%xmm0, %xmm6
	punpcklbw	%xmm5, %xmm5
	punpcklwd	%xmm5, %xmm5
	pcmpeqb	%xmm0, %xmm5
	movdqu	96(%rbx,%rsi,4), %xmm0
	movdqu	112(%rbx,%rsi,4), %xmm7
	pand	%xmm6, %xmm0
	movdqa	%xmm6, %xmm8
	pandn	752(%rsp), %xmm8
	por	%xmm0, %xmm8
	pand	%xmm5, %xmm7
	movdqa	%xmm5, %xmm0
	pandn	768(%rsp), %xmm0
	por	%xmm7, %xmm0
	movdqu	%xmm8, 96(%rbx,%rsi,4)
	movdqu	%xmm0, 112(%rbx,%rsi,4)
	pandn	624(%rsp), %xmm6
	paddd	%xmm4, %xmm6
	paddd	%xmm2, %xmm6
	pandn	640(%rsp), %xmm5
	paddd	%xmm3, %xmm5
	paddd	%xmm1, %xmm5
	paddd	%xmm6, %xmm5
	pshufd	$238, %xmm5, %xmm0
	paddd	%xmm5, %xmm0
	pshufd	$85, %xmm0, %xmm1
	paddd	%xmm0, %xmm1
	movd	%xmm1, %ecx
.Lfilter640_BB0_108:
	movl	%ecx, %eax
	addq	%rax, %r10
	leaq	1(%r15), %rcx
	cmpq	$23, %r15
	movss	20(%rsp), %xmm4
	movss	28(%rsp), %xmm6
	movss	44(%rsp), %xmm7
	movq	1664(%rsp), %r8
	jb	.Lfilter640_BB0_79
.Lfilter640_BB0_109:
	movdqa	224(%rsp), %xmm0
	movd	%xmm0, %eax
	ucomiss	%xmm0, %xmm0
	movl	$2143289344, %r9d
	cmovnpl	%eax, %r9d
	xorl	%esi, %esi
	jmp	.Lfilter640_BB0_60
.Lfilter640_BB0_110:
	movl	$1, %r10d
	jmp	.Lfilter640_BB0_60
.Lfilter640_BB0_111:
	movl	$2, %r10d
	jmp	.Lfilter640_BB0_60
.Lfilter640_func_end0:
	.size	loamchalice.filter640.frames640.from_pixels, .Lfilter640_func_end0-loamchalice.filter640.frames640.from_pixels

	.section	.text.filter640.pixels.temperature_block,"ax",@progbits
	.p2align	4
	.type	loamchalice.filter640.pixels.temperature_block,@function
loamchalice.filter640.pixels.temperature_block:
	pushq	%r15
	pushq	%r14
	pushq	%r12
	pushq	%rbx
	subq	$216, %rsp
	movq	%r8, %rbx
	movq	%rcx, %r14
	movq	%rdx, %r15
	movq	%rsi, %r12
	movss	4(%rdi), %xmm3
	movss	8(%rdi), %xmm2
	movss	12(%rdi), %xmm1
	movss	16(%rdi), %xmm0
	movaps	%xmm0, 160(%rsp)
	movss	20(%rdi), %xmm0
	movaps	%xmm0, 176(%rsp)
	cmpb	$0, (%rdi)
	xorps	%xmm0, %xmm0
	movaps	%xmm0, 112(%rsp)
	movaps	%xmm0, 96(%rsp)
	movaps	%xmm0, 80(%rsp)
	movaps	%xmm0, 64(%rsp)
	movaps	%xmm0, 48(%rsp)
	movaps	%xmm0, 32(%rsp)
	movaps	%xmm0, 16(%rsp)
	movaps	%xmm0, (%rsp)
	shufps	$0, %xmm1, %xmm1
	shufps	$0, %xmm2, %xmm2
	je	.Lfilter640_BB1_2
	shufps	$0, %xmm3, %xmm3
	movaps	%xmm3, 192(%rsp)
	movups	(%r12,%r15,4), %xmm0
	subps	%xmm3, %xmm0
	mulps	%xmm2, %xmm0
	movaps	%xmm1, %xmm4
	movups	(%r14), %xmm1
	movaps	%xmm2, %xmm5
	movaps	%xmm0, %xmm2
	mulps	%xmm0, %xmm2
	mulps	%xmm2, %xmm0
	mulps	%xmm1, %xmm0
	mulps	%xmm2, %xmm2
	mulps	%xmm4, %xmm2
	addps	%xmm0, %xmm2
	movaps	%xmm2, (%rsp)
	movups	16(%r12,%r15,4), %xmm0
	subps	%xmm3, %xmm0
	mulps	%xmm5, %xmm0
	movups	16(%r14), %xmm1
	movaps	%xmm0, %xmm2
	mulps	%xmm0, %xmm2
	mulps	%xmm2, %xmm0
	mulps	%xmm1, %xmm0
	mulps	%xmm2, %xmm2
	mulps	%xmm4, %xmm2
	addps	%xmm0, %xmm2
	movaps	%xmm2, 16(%rsp)
	movups	32(%r12,%r15,4), %xmm0
	subps	%xmm3, %xmm0
	mulps	%xmm5, %xmm0
	movups	32(%r14), %xmm1
	movaps	%xmm0, %xmm2
	mulps	%xmm0, %xmm2
	mulps	%xmm2, %xmm0
	mulps	%xmm1, %xmm0
	mulps	%xmm2, %xmm2
	mulps	%xmm4, %xmm2
	addps	%xmm0, %xmm2
	movaps	%xmm2, 32(%rsp)
	movups	48(%r12,%r15,4), %xmm0
	subps	%xmm3, %xmm0
	mulps	%xmm5, %xmm0
	movups	48(%r14), %xmm1
	movaps	%xmm0, %xmm2
	mulps	%xmm0, %xmm2
	mulps	%xmm2, %xmm0
	mulps	%xmm1, %xmm0
	mulps	%xmm2, %xmm2
	mulps	%xmm4, %xmm2
	addps	%xmm0, %xmm2
	movaps	%xmm2, 48(%rsp)
	movups	64(%r12,%r15,4), %xmm0
	subps	%xmm3, %xmm0
	mulps	%xmm5, %xmm0
	movups	64(%r14), %xmm1
	movaps	%xmm0, %xmm2
	mulps	%xmm0, %xmm2
	mulps	%xmm2, %xmm0
	mulps	%xmm1, %xmm0
	mulps	%xmm2, %xmm2
	mulps	%xmm4, %xmm2
	addps	%xmm0, %xmm2
	movaps	%xmm2, 64(%rsp)
	movups	80(%r12,%r15,4), %xmm0
	subps	%xmm3, %xmm0
	mulps	%xmm5, %xmm0
	movups	80(%r14), %xmm1
	movaps	%xmm0, %xmm2
	mulps	%xmm0, %xmm2
	mulps	%xmm2, %xmm0
	mulps	%xmm1, %xmm0
	mulps	%xmm2, %xmm2
	movaps	%xmm4, 144(%rsp)
	mulps	%xmm4, %xmm2
	addps	%xmm0, %xmm2
	movaps	%xmm2, 80(%rsp)
	movups	96(%r12,%r15,4), %xmm0
	subps	%xmm3, %xmm0
	mulps	%xmm5, %xmm0
	movaps	%xmm5, 128(%rsp)
	movups	96(%r14), %xmm1
	movaps	%xmm0, %xmm2
	mulps	%xmm0, %xmm2
	mulps	%xmm2, %xmm0
	mulps	%xmm1, %xmm0
	mulps	%xmm2, %xmm2
	mulps	%xmm4, %xmm2
	addps	%xmm0, %xmm2
	movaps	%xmm2, 96(%rsp)
	movups	112(%r12,%r15,4), %xmm0
	subps	%xmm3, %xmm0
	mulps	%xmm5, %xmm0
	movups	112(%r14), %xmm1
	movaps	%xmm0, %xmm2
	mulps	%xmm0, %xmm2
	mulps	%xmm2, %xmm0
	mulps	%xmm1, %xmm0
	mulps	%xmm2, %xmm2
	mulps	%xmm4, %xmm2
	addps	%xmm0, %xmm2
	movaps	%xmm2, 112(%rsp)
	movq	%rsp, %rdi
	movq	%rbx, %rsi
	callq	loamchalice.filter640.roots.fourth_roots
	movaps	176(%rsp), %xmm3
	shufps	$0, %xmm3, %xmm3
	movaps	160(%rsp), %xmm4
	shufps	$0, %xmm4, %xmm4
	movups	(%r12,%r15,4), %xmm0
	movaps	192(%rsp), %xmm7
	subps	%xmm7, %xmm0
	movaps	128(%rsp), %xmm6
	mulps	%xmm6, %xmm0
	movups	(%r14), %xmm1
	movups	(%rbx), %xmm2
	mulps	%xmm4, %xmm2
	mulps	%xmm3, %xmm0
	addps	%xmm2, %xmm0
	divps	%xmm0, %xmm1
	movaps	144(%rsp), %xmm5
	addps	%xmm5, %xmm1
	movaps	%xmm1, (%rsp)
	movups	16(%r12,%r15,4), %xmm0
	subps	%xmm7, %xmm0
	mulps	%xmm6, %xmm0
	movups	16(%r14), %xmm1
	movups	16(%rbx), %xmm2
	mulps	%xmm4, %xmm2
	mulps	%xmm3, %xmm0
	addps	%xmm2, %xmm0
	divps	%xmm0, %xmm1
	addps	%xmm5, %xmm1
	movaps	%xmm1, 16(%rsp)
	movups	32(%r12,%r15,4), %xmm0
	subps	%xmm7, %xmm0
	mulps	%xmm6, %xmm0
	movups	32(%r14), %xmm1
	movups	32(%rbx), %xmm2
	mulps	%xmm4, %xmm2
	mulps	%xmm3, %xmm0
	addps	%xmm2, %xmm0
	divps	%xmm0, %xmm1
	addps	%xmm5, %xmm1
	movaps	%xmm1, 32(%rsp)
	movups	48(%r12,%r15,4), %xmm0
	subps	%xmm7, %xmm0
	mulps	%xmm6, %xmm0
	movups	48(%r14), %xmm1
	movups	48(%rbx), %xmm2
	mulps	%xmm4, %xmm2
	mulps	%xmm3, %xmm0
	addps	%xmm2, %xmm0
	divps	%xmm0, %xmm1
	addps	%xmm5, %xmm1
	movaps	%xmm1, 48(%rsp)
	movups	64(%r12,%r15,4), %xmm0
	subps	%xmm7, %xmm0
	mulps	%xmm6, %xmm0
	movups	64(%r14), %xmm1
	movups	64(%rbx), %xmm2
	mulps	%xmm4, %xmm2
	mulps	%xmm3, %xmm0
	addps	%xmm2, %xmm0
	divps	%xmm0, %xmm1
	addps	%xmm5, %xmm1
	movaps	%xmm1, 64(%rsp)
	movups	80(%r12,%r15,4), %xmm0
	subps	%xmm7, %xmm0
	mulps	%xmm6, %xmm0
	movups	80(%r14), %xmm1
	movups	80(%rbx), %xmm2
	mulps	%xmm4, %xmm2
	mulps	%xmm3, %xmm0
	addps	%xmm2, %xmm0
	divps	%xmm0, %xmm1
	addps	%xmm5, %xmm1
	movaps	%xmm1, 80(%rsp)
	movups	96(%r12,%r15,4), %xmm0
	subps	%xmm7, %xmm0
	mulps	%xmm6, %xmm0
	movups	96(%r14), %xmm1
	movups	96(%rbx), %xmm2
	mulps	%xmm4, %xmm2
	mulps	%xmm3, %xmm0
	addps	%xmm2, %xmm0
	divps	%xmm0, %xmm1
	addps	%xmm5, %xmm1
	movaps	%xmm1, 96(%rsp)
	movups	112(%r12,%r15,4), %xmm0
	subps	%xmm7, %xmm0
	jmp	.Lfilter640_BB1_3
.Lfilter640_BB1_2:
	movups	(%r12,%r15,4), %xmm0
	mulps	%xmm2, %xmm0
	movaps	%xmm1, %xmm3
	movups	(%r14), %xmm1
	movaps	%xmm2, %xmm4
	movaps	%xmm0, %xmm2
	mulps	%xmm0, %xmm2
	mulps	%xmm2, %xmm0
	mulps	%xmm1, %xmm0
	mulps	%xmm2, %xmm2
	mulps	%xmm3, %xmm2
	addps	%xmm0, %xmm2
	movaps	%xmm2, (%rsp)
	movups	16(%r12,%r15,4), %xmm0
	mulps	%xmm4, %xmm0
	movups	16(%r14), %xmm1
	movaps	%xmm0, %xmm2
	mulps	%xmm0, %xmm2
	mulps	%xmm2, %xmm0
	mulps	%xmm1, %xmm0
	mulps	%xmm2, %xmm2
	mulps	%xmm3, %xmm2
	addps	%xmm0, %xmm2
	movaps	%xmm2, 16(%rsp)
	movups	32(%r12,%r15,4), %xmm0
	mulps	%xmm4, %xmm0
	movups	32(%r14), %xmm1
	movaps	%xmm0, %xmm2
	mulps	%xmm0, %xmm2
	mulps	%xmm2, %xmm0
	mulps	%xmm1, %xmm0
	mulps	%xmm2, %xmm2
	mulps	%xmm3, %xmm2
	addps	%xmm0, %xmm2
	movaps	%xmm2, 32(%rsp)
	movups	48(%r12,%r15,4), %xmm0
	movaps	%xmm4, 128(%rsp)
	mulps	%xmm4, %xmm0
	movups	48(%r14), %xmm1
	movaps	%xmm0, %xmm2
	mulps	%xmm0, %xmm2
	mulps	%xmm2, %xmm0
	mulps	%xmm1, %xmm0
	mulps	%xmm2, %xmm2
	mulps	%xmm3, %xmm2
	addps	%xmm0, %xmm2
	movaps	%xmm2, 48(%rsp)
	movups	64(%r12,%r15,4), %xmm0
	mulps	%xmm4, %xmm0
	movups	64(%r14), %xmm1
	movaps	%xmm0, %xmm2
	mulps	%xmm0, %xmm2
	mulps	%xmm2, %xmm0
	mulps	%xmm1, %xmm0
	mulps	%xmm2, %xmm2
	mulps	%xmm3, %xmm2
	addps	%xmm0, %xmm2
	movaps	%xmm2, 64(%rsp)
	movups	80(%r12,%r15,4), %xmm0
	mulps	%xmm4, %xmm0
	movups	80(%r14), %xmm1
	movaps	%xmm0, %xmm2
	mulps	%xmm0, %xmm2
	mulps	%xmm2, %xmm0
	mulps	%xmm1, %xmm0
	mulps	%xmm2, %xmm2
	mulps	%xmm3, %xmm2
	addps	%xmm0, %xmm2
	movaps	%xmm2, 80(%rsp)
	movups	96(%r12,%r15,4), %xmm0
	mulps	%xmm4, %xmm0
	movups	96(%r14), %xmm1
	movaps	%xmm0, %xmm2
	mulps	%xmm0, %xmm2
	mulps	%xmm2, %xmm0
	mulps	%xmm1, %xmm0
	mulps	%xmm2, %xmm2
	mulps	%xmm3, %xmm2
	movaps	%xmm3, 144(%rsp)
	addps	%xmm0, %xmm2
	movaps	%xmm2, 96(%rsp)
	movups	112(%r12,%r15,4), %xmm0
	mulps	%xmm4, %xmm0
	movups	112(%r14), %xmm1
	movaps	%xmm0, %xmm2
	mulps	%xmm0, %xmm2
	mulps	%xmm2, %xmm0
	mulps	%xmm1, %xmm0
	mulps	%xmm2, %xmm2
	mulps	%xmm3, %xmm2
	addps	%xmm0, %xmm2
	movaps	%xmm2, 112(%rsp)
	movq	%rsp, %rdi
	movq	%rbx, %rsi
	callq	loamchalice.filter640.roots.fourth_roots
	movaps	176(%rsp), %xmm3
	shufps	$0, %xmm3, %xmm3
	movaps	160(%rsp), %xmm4
	shufps	$0, %xmm4, %xmm4
	movups	(%r12,%r15,4), %xmm0
	movaps	128(%rsp), %xmm6
	mulps	%xmm6, %xmm0
	movups	(%r14), %xmm1
	movups	(%rbx), %xmm2
	mulps	%xmm4, %xmm2
	mulps	%xmm3, %xmm0
	addps	%xmm2, %xmm0
	divps	%xmm0, %xmm1
	movaps	144(%rsp), %xmm5
	addps	%xmm5, %xmm1
	movaps	%xmm1, (%rsp)
	movups	16(%r12,%r15,4), %xmm0
	mulps	%xmm6, %xmm0
	movups	16(%r14), %xmm1
	movups	16(%rbx), %xmm2
	mulps	%xmm4, %xmm2
	mulps	%xmm3, %xmm0
	addps	%xmm2, %xmm0
	divps	%xmm0, %xmm1
	addps	%xmm5, %xmm1
	movaps	%xmm1, 16(%rsp)
	movups	32(%r12,%r15,4), %xmm0
	mulps	%xmm6, %xmm0
	movups	32(%r14), %xmm1
	movups	32(%rbx), %xmm2
	mulps	%xmm4, %xmm2
	mulps	%xmm3, %xmm0
	addps	%xmm2, %xmm0
	divps	%xmm0, %xmm1
	addps	%xmm5, %xmm1
	movaps	%xmm1, 32(%rsp)
	movups	48(%r12,%r15,4), %xmm0
	mulps	%xmm6, %xmm0
	movups	48(%r14), %xmm1
	movups	48(%rbx), %xmm2
	mulps	%xmm4, %xmm2
	mulps	%xmm3, %xmm0
	addps	%xmm2, %xmm0
	divps	%xmm0, %xmm1
	addps	%xmm5, %xmm1
	movaps	%xmm1, 48(%rsp)
	movups	64(%r12,%r15,4), %xmm0
	mulps	%xmm6, %xmm0
	movups	64(%r14), %xmm1
	movups	64(%rbx), %xmm2
	mulps	%xmm4, %xmm2
	mulps	%xmm3, %xmm0
	addps	%xmm2, %xmm0
	divps	%xmm0, %xmm1
	addps	%xmm5, %xmm1
	movaps	%xmm1, 64(%rsp)
	movups	80(%r12,%r15,4), %xmm0
	mulps	%xmm6, %xmm0
	movups	80(%r14), %xmm1
	movups	80(%rbx), %xmm2
	mulps	%xmm4, %xmm2
	mulps	%xmm3, %xmm0
	addps	%xmm2, %xmm0
	divps	%xmm0, %xmm1
	addps	%xmm5, %xmm1
	movaps	%xmm1, 80(%rsp)
	movups	96(%r12,%r15,4), %xmm0
	mulps	%xmm6, %xmm0
	movups	96(%r14), %xmm1
	movups	96(%rbx), %xmm2
	mulps	%xmm4, %xmm2
	mulps	%xmm3, %xmm0
	addps	%xmm2, %xmm0
	divps	%xmm0, %xmm1
	addps	%xmm5, %xmm1
	movaps	%xmm1, 96(%rsp)
	movups	112(%r12,%r15,4), %xmm0
.Lfilter640_BB1_3:
	mulps	%xmm6, %xmm0
	movups	112(%r14), %xmm1
	movups	112(%rbx), %xmm2
	mulps	%xmm4, %xmm2
	mulps	%xmm3, %xmm0
	addps	%xmm2, %xmm0
	divps	%xmm0, %xmm1
	addps	%xmm5, %xmm1
	movaps	%xmm1, 112(%rsp)
	movq	%rsp, %rdi
	movq	%rbx, %rsi
	callq	loamchalice.filter640.pixels.degrees_block
	addq	$216, %rsp
	popq	%rbx
	popq	%r12
	popq	%r14
	popq	%r15
	retq
.Lfilter640_func_end1:
	.size	loamchalice.filter640.pixels.temperature_block, .Lfilter640_func_end1-loamchalice.filter640.pixels.temperature_block

	.section	.rodata.cst16,"aM",@progbits,16
	.p2align	4, 0x0
.Lfilter640_CPI2_0:
	.long	2143289344
	.long	2143289344
	.long	2143289344
	.long	2143289344
.Lfilter640_CPI2_1:
	.long	8388608
	.long	8388608
	.long	8388608
	.long	8388608
.Lfilter640_CPI2_2:
	.long	33554431
	.long	33554431
	.long	33554431
	.long	33554431
.Lfilter640_CPI2_3:
	.long	1065353216
	.long	1065353216
	.long	1065353216
	.long	1065353216
.Lfilter640_CPI2_4:
	.long	1331173376
	.long	1331173376
	.long	1331173376
	.long	1331173376
.Lfilter640_CPI2_5:
	.long	0x3dc5d67e
	.long	0x3dc5d67e
	.long	0x3dc5d67e
	.long	0x3dc5d67e
.Lfilter640_CPI2_6:
	.long	0x3df332a8
	.long	0x3df332a8
	.long	0x3df332a8
	.long	0x3df332a8
.Lfilter640_CPI2_7:
	.long	0x3e1ffe93
	.long	0x3e1ffe93
	.long	0x3e1ffe93
	.long	0x3e1ffe93
.Lfilter640_CPI2_8:
	.long	0x3e7ffe6f
	.long	0x3e7ffe6f
	.long	0x3e7ffe6f
	.long	0x3e7ffe6f
.Lfilter640_CPI2_12:
	.long	1048576000
	.long	1048576000
	.long	1048576000
	.long	1048576000
.Lfilter640_CPI2_13:
	.long	8388607
	.long	8388607
	.long	8388607
	.long	8388607
.Lfilter640_CPI2_14:
	.long	4286578688
	.long	4286578688
	.long	4286578688
	.long	4286578688
.Lfilter640_CPI2_15:
	.long	2139095039
	.long	2139095039
	.long	2139095039
	.long	2139095039
.Lfilter640_CPI2_16:
	.long	528482304
	.long	528482304
	.long	528482304
	.long	528482304
	.section	.rodata.cst4,"aM",@progbits,4
	.p2align	2, 0x0
.Lfilter640_CPI2_9:
	.long	0x3f800000
.Lfilter640_CPI2_10:
	.long	0x3f000000
.Lfilter640_CPI2_11:
	.long	0x45800800
.Lfilter640_CPI2_17:
	.long	0x7fc00000
	.section	.rodata.cst8,"aM",@progbits,8
	.p2align	3, 0x0
.Lfilter640_CPI2_18:
	.long	0x7fc00000
	.long	0x7f800000
.Lfilter640_CPI2_19:
	.quad	0xbfd8d6dad5c5805a
.Lfilter640_CPI2_20:
	.quad	0x3ff48987b38c9874
.Lfilter640_CPI2_21:
	.quad	0xbf89e11a55579851
.Lfilter640_CPI2_22:
	.quad	0x3fbbd11ca559a5b5
.Lfilter640_CPI2_23:
	.quad	0xbfd9564a9a0cc3d0
.Lfilter640_CPI2_24:
	.quad	0x3ff49e6fb879243c
.Lfilter640_CPI2_25:
	.quad	0xbf8b3fdc3e64f496
.Lfilter640_CPI2_26:
	.quad	0x3fbcd40c7b79c813
.Lfilter640_CPI2_27:
	.quad	0xbfd9da666a8282c0
.Lfilter640_CPI2_28:
	.quad	0x3ff4b3c3e0838e08
.Lfilter640_CPI2_29:
	.quad	0xbf8cb74d9f20e3c5
.Lfilter640_CPI2_30:
	.quad	0x3fbde4cf1160987f
.Lfilter640_CPI2_31:
	.quad	0xbfda636eaa84aa24
.Lfilter640_CPI2_32:
	.quad	0x3ff4c9882b15accb
.Lfilter640_CPI2_33:
	.quad	0xbf8e499d1637aac6
.Lfilter640_CPI2_34:
	.quad	0x3fbf045f9100c8fb
.Lfilter640_CPI2_35:
	.quad	0xbfdaf1a85969655f
.Lfilter640_CPI2_36:
	.quad	0x3ff4dfc0cf2a5dce
.Lfilter640_CPI2_37:
	.quad	0xbf8ff9350c84276a
.Lfilter640_CPI2_38:
	.quad	0x3fc019e7c4a5cc82
.Lfilter640_CPI2_39:
	.quad	0xbfdb855d7ca13de0
.Lfilter640_CPI2_40:
	.quad	0x3ff4f6723f50bfea
.Lfilter640_CPI2_41:
	.quad	0xbf90e461a137b60f
.Lfilter640_CPI2_42:
	.quad	0x3fc0ba24ac9d711a
.Lfilter640_CPI2_43:
	.quad	0xbfdc1edd9569549c
.Lfilter640_CPI2_44:
	.quad	0x3ff50da12e0ca82a
.Lfilter640_CPI2_45:
	.quad	0xbf91dda0bc0f98f5
.Lfilter640_CPI2_46:
	.quad	0x3fc1638974e0b1d2
.Lfilter640_CPI2_47:
	.quad	0xbfdcbe7e238a7215
.Lfilter640_CPI2_48:
	.quad	0x3ff52552929e8fbf
.Lfilter640_CPI2_49:
	.quad	0xbf92e9ffafd562c7
.Lfilter640_CPI2_50:
	.quad	0x3fc216c861238d76
.Lfilter640_CPI2_51:
	.quad	0xbfdd649b36da6586
.Lfilter640_CPI2_52:
	.quad	0x3ff53d8bae3e8fed
.Lfilter640_CPI2_53:
	.quad	0xbf940b5708b9b0fb
.Lfilter640_CPI2_54:
	.quad	0x3fc2d4a4c2a70153
.Lfilter640_CPI2_55:
	.quad	0xbfde119811778ee7
.Lfilter640_CPI2_56:
	.quad	0x3ff5565211d78886
.Lfilter640_CPI2_57:
	.quad	0xbf9543b6a2c0f3d1
.Lfilter640_CPI2_58:
	.quad	0x3fc39df4f298d76f
.Lfilter640_CPI2_59:
	.quad	0xbfdec5dfdd045494
.Lfilter640_CPI2_60:
	.quad	0x3ff56faba4515177
.Lfilter640_CPI2_61:
	.quad	0xbf96956d50f05671
.Lfilter640_CPI2_62:
	.quad	0x3fc473a491df2605
.Lfilter640_CPI2_63:
	.quad	0xbfdf81e67583ece0
.Lfilter640_CPI2_64:
	.quad	0x3ff5899ea97ae286
.Lfilter640_CPI2_65:
	.quad	0xbf980311beecdf50
.Lfilter640_CPI2_66:
	.quad	0x3fc556b719595084
.Lfilter640_CPI2_67:
	.quad	0xbfe02314a673068e
.Lfilter640_CPI2_68:
	.quad	0x3ff5a431c9a7ba2d
.Lfilter640_CPI2_69:
	.quad	0xbf998f8cc6c133d0
.Lfilter640_CPI2_70:
	.quad	0x3fc6484ac7a206de
.Lfilter640_CPI2_71:
	.quad	0xbfe0899835678b25
.Lfilter640_CPI2_72:
	.quad	0x3ff5bf6c1a168c70
.Lfilter640_CPI2_73:
	.quad	0xbf9b3e25807701df
.Lfilter640_CPI2_74:
	.quad	0x3fc7499bfbc8f77c
.Lfilter640_CPI2_75:
	.quad	0xbfe0f4c7c6612df5
.Lfilter640_CPI2_76:
	.quad	0x3ff5db55263a7735
.Lfilter640_CPI2_77:
	.quad	0xbf9d128f5ff1d144
.Lfilter640_CPI2_78:
	.quad	0x3fc85c090f67f3a1
.Lfilter640_CPI2_79:
	.quad	0xbfe164f3b5c49c7a
.Lfilter640_CPI2_80:
	.quad	0x3ff5f7f4fa03b8fd
.Lfilter640_CPI2_81:
	.quad	0xbf9f10fac7b9e0fd
.Lfilter640_CPI2_82:
	.quad	0x3fc98116c604a5ac
.Lfilter640_CPI2_83:
	.quad	0xbfe1da7395c50e4c
.Lfilter640_CPI2_84:
	.quad	0x3ff615542d494b58
.Lfilter640_CPI2_85:
	.quad	0xbfa09f1447099ec3
.Lfilter640_CPI2_86:
	.quad	0x3fcaba756c0423f4
.Lfilter640_CPI2_87:
	.quad	0xbfe255a6ff632f04
.Lfilter640_CPI2_88:
	.quad	0x3ff6337bf079ed95
.Lfilter640_CPI2_89:
	.quad	0xbfa1cfc087047581
.Lfilter640_CPI2_90:
	.quad	0x3fcc0a06c4c15e4e
.Lfilter640_CPI2_91:
	.quad	0xbfe2d6f680371f14
.Lfilter640_CPI2_92:
	.quad	0x3ff652761ac144d6
.Lfilter640_CPI2_93:
	.quad	0xbfa31d97c0c539a3
.Lfilter640_CPI2_94:
	.quad	0x3fcd71e4edd8a92e
.Lfilter640_CPI2_95:
	.quad	0xbfe35ed4a9ba21f2
.Lfilter640_CPI2_96:
	.quad	0x3ff6724d39d4ef3d
.Lfilter640_CPI2_97:
	.quad	0xbfa48c214730858e
.Lfilter640_CPI2_98:
	.quad	0x3fcef46a65c0d8ac
.Lfilter640_CPI2_99:
	.quad	0xbfe3edbf47a9bdea
.Lfilter640_CPI2_100:
	.quad	0x3ff6930ca3a5fbdb
.Lfilter640_CPI2_101:
	.quad	0xbfa61f699420162c
.Lfilter640_CPI2_102:
	.quad	0x3fd04a1db6ddbdce
.Lfilter640_CPI2_103:
	.quad	0xbfe48440c4354b61
.Lfilter640_CPI2_104:
	.quad	0x3ff6b4c08a3d7463
.Lfilter640_CPI2_105:
	.quad	0xbfa7dc1999064aaa
.Lfilter640_CPI2_106:
	.quad	0x3fd12a2885c2d55c
.Lfilter640_CPI2_107:
	.quad	0xbfe522f1c1fc9caa
.Lfilter640_CPI2_108:
	.quad	0x3ff6d7761216e589
.Lfilter640_CPI2_109:
	.quad	0xbfa9c792d22551ea
.Lfilter640_CPI2_110:
	.quad	0x3fd21c02ff5670aa
.Lfilter640_CPI2_111:
	.quad	0xbfe5ca7af58a6166
.Lfilter640_CPI2_112:
	.quad	0x3ff6fb3b6b5a8c6c
.Lfilter640_CPI2_113:
	.quad	0xbfabe8113a584e1d
.Lfilter640_CPI2_114:
	.quad	0x3fd32193086fb443
.Lfilter640_CPI2_115:
	.quad	0xbfe67b9749fb94b2
.Lfilter640_CPI2_116:
	.quad	0x3ff7201fee6a962f
.Lfilter640_CPI2_117:
	.quad	0xbfae44d489bade19
.Lfilter640_CPI2_118:
	.quad	0x3fd43d0020924148
.Lfilter640_CPI2_119:
	.quad	0xbfe737165f09042f
.Lfilter640_CPI2_120:
	.quad	0x3ff746343c4c6c38
.Lfilter640_CPI2_121:
	.quad	0xbfb07329465d1743
.Lfilter640_CPI2_122:
	.quad	0x3fd570be3491b6b7
.Lfilter640_CPI2_123:
	.quad	0xbfe7fddf71cb1ffa
.Lfilter640_CPI2_124:
	.quad	0x3ff76d8a639148f5
.Lfilter640_CPI2_125:
	.quad	0xbfb1eb3a718070d4
.Lfilter640_CPI2_126:
	.quad	0x3fd6bf9a91c44d0c
.Lfilter640_CPI2_127:
	.quad	0xbfe8d0f4c57fb846
.Lfilter640_CPI2_128:
	.quad	0x3ff796360a817401
.Lfilter640_CPI2_129:
	.quad	0xbfb39072906b220e
.Lfilter640_CPI2_130:
	.quad	0x3fd82ccb76f32def
.Lfilter640_CPI2_131:
	.quad	0xbfe9b177a6904feb
.Lfilter640_CPI2_132:
	.quad	0x3ff7c04c9f750ec5
.Lfilter640_CPI2_133:
	.quad	0xbfb569b5984f8e41
.Lfilter640_CPI2_134:
	.quad	0x3fd9bc02e1674462
.Lfilter640_CPI2_135:
	.quad	0xbfeaa0ad2864dd46
.Lfilter640_CPI2_136:
	.quad	0x3ff7ebe590764371
.Lfilter640_CPI2_137:
	.quad	0xbfb77f3180d8ed5f
.Lfilter640_CPI2_138:
	.quad	0x3fdb71855faad984
.Lfilter640_CPI2_139:
	.quad	0xbfeba003c69b59ab
.Lfilter640_CPI2_140:
	.quad	0x3ff8191a8b857f7c
.Lfilter640_CPI2_141:
	.quad	0xbfb9daa8153fb04b
.Lfilter640_CPI2_142:
	.quad	0x3fdd5245ec4a3182
.Lfilter640_CPI2_143:
	.quad	0xbfecb11a1c961214
.Lfilter640_CPI2_144:
	.quad	0x3ff84807c924869d
.Lfilter640_CPI2_145:
	.quad	0xbfbc87cc279b3083
.Lfilter640_CPI2_146:
	.quad	0x3fdf64081dc7d151
.Lfilter640_CPI2_147:
	.quad	0x4330000000000000
.Lfilter640_CPI2_148:
	.quad	0xc330000000000000
	.section	.text.filter640.roots.fourth_roots,"ax",@progbits
	.p2align	4
	.type	loamchalice.filter640.roots.fourth_roots,@function
loamchalice.filter640.roots.fourth_roots:
	pushq	%rbx
	subq	$384, %rsp
	xorps	%xmm0, %xmm0
	movaps	%xmm0, (%rsp)
	movaps	%xmm0, 16(%rsp)
	movaps	%xmm0, 32(%rsp)
	movaps	%xmm0, 48(%rsp)
	movaps	%xmm0, 64(%rsp)
	movaps	%xmm0, 80(%rsp)
	movaps	%xmm0, 96(%rsp)
	movaps	%xmm0, 112(%rsp)
	movaps	%xmm0, -128(%rsp)
	movaps	%xmm0, -112(%rsp)
	movaps	%xmm0, -96(%rsp)
	movaps	%xmm0, -80(%rsp)
	movaps	%xmm0, -64(%rsp)
	movaps	%xmm0, -48(%rsp)
	movaps	%xmm0, -32(%rsp)
	movaps	%xmm0, -16(%rsp)
	movups	(%rdi), %xmm1
	movaps	%xmm1, %xmm8
	movaps	%xmm1, %xmm2
	shufps	$85, %xmm1, %xmm2
	unpcklps	%xmm2, %xmm8
	movaps	%xmm1, %xmm2
	unpckhpd	%xmm1, %xmm2
	movaps	%xmm1, %xmm3
	shufps	$255, %xmm1, %xmm3
	unpcklps	%xmm3, %xmm2
	movlhps	%xmm2, %xmm8
	cmpunordps	%xmm0, %xmm8
	movaps	%xmm8, %xmm2
	andnps	%xmm1, %xmm2
	movaps	.Lfilter640_CPI2_0(%rip), %xmm4
	andps	%xmm4, %xmm8
	orps	%xmm2, %xmm8
	movaps	%xmm8, 128(%rsp)
	movups	16(%rdi), %xmm1
	movaps	%xmm1, %xmm10
	movaps	%xmm1, %xmm2
	shufps	$85, %xmm1, %xmm2
	unpcklps	%xmm2, %xmm10
	movaps	%xmm1, %xmm2
	unpckhpd	%xmm1, %xmm2
	movaps	%xmm1, %xmm3
	shufps	$255, %xmm1, %xmm3
	unpcklps	%xmm3, %xmm2
	movlhps	%xmm2, %xmm10
	cmpunordps	%xmm0, %xmm10
	movaps	%xmm10, %xmm2
	andnps	%xmm1, %xmm2
	andps	%xmm4, %xmm10
	orps	%xmm2, %xmm10
	movaps	%xmm10, 144(%rsp)
	movups	32(%rdi), %xmm1
	movaps	%xmm1, %xmm9
	movaps	%xmm1, %xmm2
	shufps	$85, %xmm1, %xmm2
	unpcklps	%xmm2, %xmm9
	movaps	%xmm1, %xmm2
	unpckhpd	%xmm1, %xmm2
	movaps	%xmm1, %xmm3
	shufps	$255, %xmm1, %xmm3
	unpcklps	%xmm3, %xmm2
	movlhps	%xmm2, %xmm9
	cmpunordps	%xmm0, %xmm9
	movaps	%xmm9, %xmm2
	andnps	%xmm1, %xmm2
	andps	%xmm4, %xmm9
	orps	%xmm2, %xmm9
	movaps	%xmm9, 160(%rsp)
	movups	48(%rdi), %xmm1
	movaps	%xmm1, %xmm7
	movaps	%xmm1, %xmm2
	shufps	$85, %xmm1, %xmm2
	unpcklps	%xmm2, %xmm7
	movaps	%xmm1, %xmm2
	unpckhpd	%xmm1, %xmm2
	movaps	%xmm1, %xmm3
	shufps	$255, %xmm1, %xmm3
	unpcklps	%xmm3, %xmm2
	movlhps	%xmm2, %xmm7
	cmpunordps	%xmm0, %xmm7
	movaps	%xmm7, %xmm2
	andnps	%xmm1, %xmm2
	andps	%xmm4, %xmm7
	orps	%xmm2, %xmm7
	movaps	%xmm7, 176(%rsp)
	movups	64(%rdi), %xmm1
	movaps	%xmm1, %xmm5
	movaps	%xmm1, %xmm2
	shufps	$85, %xmm1, %xmm2
	unpcklps	%xmm2, %xmm5
	movaps	%xmm1, %xmm2
	unpckhpd	%xmm1, %xmm2
	movaps	%xmm1, %xmm3
	shufps	$255, %xmm1, %xmm3
	unpcklps	%xmm3, %xmm2
	movlhps	%xmm2, %xmm5
	cmpunordps	%xmm0, %xmm5
	movaps	%xmm5, %xmm2
	andnps	%xmm1, %xmm2
	andps	%xmm4, %xmm5
	orps	%xmm2, %xmm5
	movaps	%xmm5, 192(%rsp)
	movups	80(%rdi), %xmm1
	movaps	%xmm1, %xmm3
	movaps	%xmm1, %xmm2
	shufps	$85, %xmm1, %xmm2
	unpcklps	%xmm2, %xmm3
	movaps	%xmm1, %xmm2
	unpckhpd	%xmm1, %xmm2
	movaps	%xmm1, %xmm6
	shufps	$255, %xmm1, %xmm6
	unpcklps	%xmm6, %xmm2
	movlhps	%xmm2, %xmm3
	cmpunordps	%xmm0, %xmm3
	movaps	%xmm3, %xmm2
	andnps	%xmm1, %xmm2
	andps	%xmm4, %xmm3
	orps	%xmm2, %xmm3
	movaps	%xmm3, 208(%rsp)
	movups	96(%rdi), %xmm1
	movaps	%xmm1, %xmm2
	movaps	%xmm1, %xmm6
	shufps	$85, %xmm1, %xmm6
	unpcklps	%xmm6, %xmm2
	movaps	%xmm1, %xmm6
	unpckhpd	%xmm1, %xmm6
	movaps	%xmm1, %xmm11
	shufps	$255, %xmm1, %xmm11
	unpcklps	%xmm11, %xmm6
	movlhps	%xmm6, %xmm2
	cmpunordps	%xmm0, %xmm2
	movaps	%xmm2, %xmm6
	andnps	%xmm1, %xmm6
	andps	%xmm4, %xmm2
	orps	%xmm6, %xmm2
	movaps	%xmm2, 224(%rsp)
	movups	112(%rdi), %xmm6
	movaps	%xmm6, %xmm1
	movaps	%xmm6, %xmm11
	shufps	$85, %xmm6, %xmm11
	unpcklps	%xmm11, %xmm1
	movaps	%xmm6, %xmm11
	unpckhpd	%xmm6, %xmm11
	movaps	%xmm6, %xmm12
	shufps	$255, %xmm6, %xmm12
	unpcklps	%xmm12, %xmm11
	movlhps	%xmm11, %xmm1
	cmpunordps	%xmm0, %xmm1
	movaps	%xmm1, %xmm0
	andnps	%xmm6, %xmm0
	andps	%xmm4, %xmm1
	orps	%xmm0, %xmm1
	movdqa	.Lfilter640_CPI2_1(%rip), %xmm0
	paddd	%xmm0, %xmm8
	pand	.Lfilter640_CPI2_2(%rip), %xmm8
	movdqa	.Lfilter640_CPI2_3(%rip), %xmm11
	paddd	%xmm11, %xmm8
	movdqa	%xmm8, %xmm12
	psrld	$2, %xmm12
	movdqa	.Lfilter640_CPI2_4(%rip), %xmm13
	movdqa	%xmm13, %xmm15
	psubd	%xmm12, %xmm15
	movdqa	%xmm15, %xmm12
	mulps	%xmm15, %xmm12
	mulps	%xmm12, %xmm8
	mulps	%xmm12, %xmm8
	movdqa	%xmm11, %xmm6
	subps	%xmm8, %xmm6
	movaps	.Lfilter640_CPI2_5(%rip), %xmm8
	movaps	%xmm6, %xmm4
	mulps	%xmm8, %xmm4
	addps	.Lfilter640_CPI2_6(%rip), %xmm4
	mulps	%xmm6, %xmm4
	movaps	.Lfilter640_CPI2_7(%rip), %xmm14
	addps	%xmm14, %xmm4
	mulps	%xmm6, %xmm4
	movaps	.Lfilter640_CPI2_8(%rip), %xmm12
	addps	%xmm12, %xmm4
	mulps	%xmm6, %xmm4
	mulps	%xmm15, %xmm4
	addps	%xmm15, %xmm4
	movaps	%xmm4, 256(%rsp)
	paddd	%xmm0, %xmm10
	movdqa	.Lfilter640_CPI2_2(%rip), %xmm15
	pand	%xmm15, %xmm10
	paddd	%xmm11, %xmm10
	movdqa	%xmm10, %xmm4
	psrld	$2, %xmm4
	movdqa	%xmm13, %xmm6
	psubd	%xmm4, %xmm6
	movdqa	%xmm6, %xmm4
	mulps	%xmm6, %xmm4
	mulps	%xmm4, %xmm10
	mulps	%xmm4, %xmm10
	movdqa	%xmm11, %xmm4
	subps	%xmm10, %xmm4
	movaps	%xmm4, %xmm10
	mulps	%xmm8, %xmm10
	addps	.Lfilter640_CPI2_6(%rip), %xmm10
	mulps	%xmm4, %xmm10
	addps	%xmm14, %xmm10
	mulps	%xmm4, %xmm10
	addps	%xmm12, %xmm10
	mulps	%xmm4, %xmm10
	mulps	%xmm6, %xmm10
	addps	%xmm6, %xmm10
	movaps	%xmm10, 272(%rsp)
	paddd	%xmm0, %xmm9
	pand	%xmm15, %xmm9
	movdqa	%xmm15, %xmm10
	paddd	%xmm11, %xmm9
	movdqa	%xmm9, %xmm4
	psrld	$2, %xmm4
	movdqa	%xmm13, %xmm6
	psubd	%xmm4, %xmm6
	movdqa	%xmm6, %xmm4
	mulps	%xmm6, %xmm4
	mulps	%xmm4, %xmm9
	mulps	%xmm4, %xmm9
	movdqa	%xmm11, %xmm4
	subps	%xmm9, %xmm4
	movaps	%xmm4, %xmm9
	mulps	%xmm8, %xmm9
	movaps	.Lfilter640_CPI2_6(%rip), %xmm15
	addps	%xmm15, %xmm9
	mulps	%xmm4, %xmm9
	movaps	%xmm14, %xmm12
	addps	%xmm14, %xmm9
	mulps	%xmm4, %xmm9
	movaps	.Lfilter640_CPI2_8(%rip), %xmm14
	addps	%xmm14, %xmm9
	mulps	%xmm4, %xmm9
	mulps	%xmm6, %xmm9
	addps	%xmm6, %xmm9
	movaps	%xmm9, 288(%rsp)
	paddd	%xmm0, %xmm7
	pand	%xmm10, %xmm7
	paddd	%xmm11, %xmm7
	movdqa	%xmm7, %xmm4
	psrld	$2, %xmm4
	movdqa	%xmm13, %xmm6
	psubd	%xmm4, %xmm6
	movdqa	%xmm6, %xmm4
	mulps	%xmm6, %xmm4
	mulps	%xmm4, %xmm7
	mulps	%xmm4, %xmm7
	movdqa	%xmm11, %xmm4
	subps	%xmm7, %xmm4
	movaps	%xmm4, %xmm7
	mulps	%xmm8, %xmm7
	addps	%xmm15, %xmm7
	mulps	%xmm4, %xmm7
	addps	%xmm12, %xmm7
	mulps	%xmm4, %xmm7
	addps	%xmm14, %xmm7
	mulps	%xmm4, %xmm7
	mulps	%xmm6, %xmm7
	addps	%xmm6, %xmm7
	movaps	%xmm7, 304(%rsp)
	paddd	%xmm0, %xmm5
	pand	%xmm10, %xmm5
	paddd	%xmm11, %xmm5
	movdqa	%xmm5, %xmm4
	psrld	$2, %xmm4
	movdqa	%xmm13, %xmm6
	psubd	%xmm4, %xmm6
	movdqa	%xmm6, %xmm4
	mulps	%xmm6, %xmm4
	mulps	%xmm4, %xmm5
	mulps	%xmm4, %xmm5
	movdqa	%xmm11, %xmm4
	subps	%xmm5, %xmm4
	movaps	%xmm4, %xmm5
	mulps	%xmm8, %xmm5
	addps	%xmm15, %xmm5
	mulps	%xmm4, %xmm5
	addps	%xmm12, %xmm5
	mulps	%xmm4, %xmm5
	addps	%xmm14, %xmm5
	mulps	%xmm4, %xmm5
	mulps	%xmm6, %xmm5
	addps	%xmm6, %xmm5
	movaps	%xmm5, 320(%rsp)
	paddd	%xmm0, %xmm3
	pand	%xmm10, %xmm3
	paddd	%xmm11, %xmm3
	movdqa	%xmm3, %xmm4
	psrld	$2, %xmm4
	movdqa	%xmm13, %xmm5
	psubd	%xmm4, %xmm5
	movdqa	%xmm5, %xmm4
	mulps	%xmm5, %xmm4
	mulps	%xmm4, %xmm3
	mulps	%xmm4, %xmm3
	movdqa	%xmm11, %xmm4
	subps	%xmm3, %xmm4
	movaps	%xmm4, %xmm3
	mulps	%xmm8, %xmm3
	addps	%xmm15, %xmm3
	mulps	%xmm4, %xmm3
	addps	%xmm12, %xmm3
	mulps	%xmm4, %xmm3
	addps	%xmm14, %xmm3
	mulps	%xmm4, %xmm3
	mulps	%xmm5, %xmm3
	addps	%xmm5, %xmm3
	movaps	%xmm3, 336(%rsp)
	paddd	%xmm0, %xmm2
	pand	%xmm10, %xmm2
	paddd	%xmm11, %xmm2
	movdqa	%xmm2, %xmm3
	psrld	$2, %xmm3
	movdqa	%xmm13, %xmm4
	psubd	%xmm3, %xmm4
	movdqa	%xmm4, %xmm3
	mulps	%xmm4, %xmm3
	mulps	%xmm3, %xmm2
	mulps	%xmm3, %xmm2
	movdqa	%xmm11, %xmm3
	subps	%xmm2, %xmm3
	movaps	%xmm3, %xmm2
	mulps	%xmm8, %xmm2
	addps	%xmm15, %xmm2
	mulps	%xmm3, %xmm2
	addps	%xmm12, %xmm2
	mulps	%xmm3, %xmm2
	addps	%xmm14, %xmm2
	mulps	%xmm3, %xmm2
	mulps	%xmm4, %xmm2
	addps	%xmm4, %xmm2
	movaps	%xmm2, 352(%rsp)
	movaps	%xmm1, 240(%rsp)
	paddd	%xmm0, %xmm1
	pand	%xmm10, %xmm1
	paddd	%xmm11, %xmm1
	movdqa	%xmm1, %xmm2
	psrld	$2, %xmm2
	psubd	%xmm2, %xmm13
	movdqa	%xmm13, %xmm2
	mulps	%xmm13, %xmm2
	mulps	%xmm2, %xmm1
	mulps	%xmm2, %xmm1
	subps	%xmm1, %xmm11
	mulps	%xmm11, %xmm8
	addps	%xmm15, %xmm8
	mulps	%xmm11, %xmm8
	addps	%xmm12, %xmm8
	mulps	%xmm11, %xmm8
	addps	%xmm14, %xmm8
	mulps	%xmm11, %xmm8
	mulps	%xmm13, %xmm8
	addps	%xmm13, %xmm8
	movaps	%xmm8, 368(%rsp)
	movss	.Lfilter640_CPI2_9(%rip), %xmm1
	xorl	%eax, %eax
	.p2align	4
.Lfilter640_BB2_1:
	movl	$8388608, %ecx
	addl	128(%rsp,%rax,4), %ecx
	andl	$33554431, %ecx
	addl	$1065353216, %ecx
	movd	%ecx, %xmm3
	movss	256(%rsp,%rax,4), %xmm2
	mulss	%xmm2, %xmm2
	movaps	%xmm2, %xmm4
	mulss	.Lfilter640_CPI2_10(%rip), %xmm2
	mulss	%xmm3, %xmm4
	movss	.Lfilter640_CPI2_11(%rip), %xmm5
	mulss	%xmm4, %xmm5
	movaps	%xmm4, %xmm6
	subss	%xmm5, %xmm6
	addss	%xmm5, %xmm6
	movaps	%xmm4, %xmm5
	addss	%xmm6, %xmm5
	movaps	%xmm4, %xmm7
	subss	%xmm6, %xmm7
	mulss	%xmm6, %xmm6
	subss	%xmm6, %xmm3
	mulss	%xmm5, %xmm7
	subss	%xmm7, %xmm3
	mulss	%xmm2, %xmm3
	addss	%xmm4, %xmm3
	movaps	%xmm3, %xmm2
	movaps	%xmm1, %xmm4
	cmpltss	%xmm2, %xmm4
	andps	%xmm4, %xmm3
	movss	.Lfilter640_CPI2_9(%rip), %xmm2
	andnps	%xmm2, %xmm4
	orps	%xmm3, %xmm4
	movss	%xmm4, (%rsi,%rax,4)
	movss	%xmm4, (%rsp,%rax,4)
	incq	%rax
	cmpq	$32, %rax
	jne	.Lfilter640_BB2_1
	xorl	%eax, %eax
	.p2align	4
.Lfilter640_BB2_3:
	movss	(%rsi,%rax,4), %xmm3
	movss	256(%rsp,%rax,4), %xmm4
	movaps	%xmm3, %xmm5
	mulss	%xmm4, %xmm5
	mulss	.Lfilter640_CPI2_10(%rip), %xmm4
	movss	.Lfilter640_CPI2_11(%rip), %xmm6
	mulss	%xmm5, %xmm6
	movaps	%xmm6, %xmm7
	subss	%xmm5, %xmm7
	subss	%xmm7, %xmm6
	movaps	%xmm5, %xmm7
	addss	%xmm6, %xmm7
	movaps	%xmm5, %xmm8
	subss	%xmm6, %xmm8
	mulss	%xmm6, %xmm6
	subss	%xmm6, %xmm3
	mulss	%xmm7, %xmm8
	subss	%xmm8, %xmm3
	mulss	%xmm4, %xmm3
	addss	%xmm5, %xmm3
	movaps	%xmm3, %xmm4
	movaps	%xmm1, %xmm5
	cmpltss	%xmm4, %xmm5
	andps	%xmm5, %xmm3
	andnps	%xmm2, %xmm5
	orps	%xmm3, %xmm5
	movss	%xmm5, -128(%rsp,%rax,4)
	incq	%rax
	cmpq	$32, %rax
	jne	.Lfilter640_BB2_3
	xorps	%xmm1, %xmm1
	xorl	%eax, %eax
	xorps	%xmm2, %xmm2
	.p2align	4
.Lfilter640_BB2_5:
	movdqa	128(%rsp,%rax,4), %xmm4
	movdqu	(%rsp,%rax,4), %xmm13
	movdqu	-128(%rsp,%rax,4), %xmm6
	movdqa	.Lfilter640_CPI2_12(%rip), %xmm3
	paddd	%xmm4, %xmm3
	movdqa	.Lfilter640_CPI2_13(%rip), %xmm7
	pand	%xmm7, %xmm13
	por	%xmm0, %xmm13
	movdqa	%xmm13, %xmm5
	punpckhdq	%xmm1, %xmm5
	punpckldq	%xmm1, %xmm13
	pand	%xmm7, %xmm6
	por	%xmm0, %xmm6
	pand	%xmm4, %xmm7
	por	%xmm0, %xmm7
	pshufd	$246, %xmm7, %xmm8
	pshufd	$212, %xmm7, %xmm7
	movdqa	%xmm3, %xmm9
	pand	%xmm0, %xmm9
	paddd	%xmm0, %xmm9
	pshufd	$246, %xmm9, %xmm11
	pmuludq	%xmm8, %xmm11
	pshufd	$212, %xmm9, %xmm8
	pmuludq	%xmm7, %xmm8
	movdqa	%xmm3, %xmm10
	psrld	$1, %xmm10
	pand	%xmm0, %xmm10
	paddd	%xmm0, %xmm10
	pshufd	$212, %xmm10, %xmm9
	pmuludq	%xmm13, %xmm9
	movdqa	%xmm13, %xmm7
	pmuludq	%xmm13, %xmm7
	psubq	%xmm8, %xmm7
	movdqa	%xmm5, %xmm8
	pmuludq	%xmm5, %xmm8
	psubq	%xmm11, %xmm8
	movdqa	%xmm7, %xmm12
	paddq	%xmm13, %xmm12
	pcmpeqd	%xmm11, %xmm11
	pxor	%xmm11, %xmm7
	paddq	%xmm13, %xmm7
	psrld	$2, %xmm3
	pand	.Lfilter640_CPI2_3(%rip), %xmm3
	movdqa	%xmm6, %xmm13
	paddd	%xmm6, %xmm3
	punpckhdq	%xmm1, %xmm6
	punpckldq	%xmm1, %xmm13
	pshufd	$246, %xmm10, %xmm10
	pmuludq	%xmm5, %xmm10
	por	%xmm12, %xmm7
	movdqa	%xmm8, %xmm12
	paddq	%xmm5, %xmm12
	pxor	%xmm11, %xmm8
	paddq	%xmm5, %xmm8
	por	%xmm12, %xmm8
	movdqa	%xmm13, %xmm5
	pmuludq	%xmm13, %xmm5
	psubq	%xmm9, %xmm5
	movdqa	%xmm6, %xmm9
	pmuludq	%xmm6, %xmm9
	psubq	%xmm10, %xmm9
	movdqa	%xmm5, %xmm10
	movdqa	%xmm9, %xmm12
	pxor	%xmm11, %xmm5
	pxor	%xmm11, %xmm9
	paddq	%xmm6, %xmm12
	paddq	%xmm6, %xmm9
	por	%xmm8, %xmm9
	por	%xmm12, %xmm9
	paddq	%xmm13, %xmm10
	paddq	%xmm13, %xmm5
	por	%xmm7, %xmm5
	por	%xmm10, %xmm5
	shufps	$221, %xmm9, %xmm5
	movdqa	.Lfilter640_CPI2_14(%rip), %xmm6
	paddd	%xmm4, %xmm6
	movdqa	.Lfilter640_CPI2_15(%rip), %xmm7
	psubd	%xmm4, %xmm7
	por	%xmm6, %xmm7
	por	%xmm5, %xmm7
	paddd	.Lfilter640_CPI2_16(%rip), %xmm3
	movdqa	%xmm7, %xmm4
	psrad	$31, %xmm4
	pandn	%xmm3, %xmm4
	movdqu	%xmm4, (%rsi,%rax,4)
	psrld	$31, %xmm7
	paddd	%xmm7, %xmm2
	addq	$4, %rax
	cmpq	$32, %rax
	jne	.Lfilter640_BB2_5
	pshufd	$238, %xmm2, %xmm0
	paddd	%xmm2, %xmm0
	pshufd	$85, %xmm0, %xmm1
	paddd	%xmm0, %xmm1
	movd	%xmm1, %eax
	testl	%eax, %eax
	je	.Lfilter640_BB2_64
	pxor	%xmm0, %xmm0
	xorl	%eax, %eax
	jmp	.Lfilter640_BB2_11
.Lfilter640_BB2_8:
	pxor	%xmm1, %xmm1
.Lfilter640_BB2_9:
	movd	%xmm1, (%rsi,%rax,4)
.Lfilter640_BB2_10:
	incq	%rax
	cmpq	$32, %rax
	je	.Lfilter640_BB2_64
.Lfilter640_BB2_11:
	movss	(%rsi,%rax,4), %xmm1
	ucomiss	%xmm0, %xmm1
	jne	.Lfilter640_BB2_10
	jp	.Lfilter640_BB2_10
	movd	(%rdi,%rax,4), %xmm1
	movdqa	%xmm1, %xmm2
	ucomiss	%xmm2, %xmm2
	jp	.Lfilter640_BB2_62
	movd	%xmm1, %edx
	movl	%edx, %ecx
	andl	$2147483647, %ecx
	je	.Lfilter640_BB2_8
	cmpl	$2139095039, %edx
	ja	.Lfilter640_BB2_17
	movabsq	$4607182418800017408, %r8
	cmpl	$8388607, %edx
	ja	.Lfilter640_BB2_18
	movl	$63, %r9d
	bsrl	%edx, %r9d
	xorl	$31, %r9d
	leal	-8(%r9), %ecx
	shll	%cl, %edx
	shll	$23, %r9d
	subl	%r9d, %edx
	addl	$1115684864, %edx
	movl	%edx, %ecx
	shlq	$29, %rcx
	orq	%r8, %rcx
	movq	%rcx, %xmm1
	movl	%edx, %ecx
	shrl	$18, %ecx
	andl	$31, %ecx
	leaq	.Lfilter640_JTI2_0(%rip), %r8
	movslq	(%r8,%rcx,4), %rcx
	addq	%r8, %rcx
	jmpq	*%rcx
.Lfilter640_BB2_17:
	xorl	%edx, %edx
	cmpl	$2139095040, %ecx
	sete	%dl
	leaq	.Lfilter640_CPI2_18(%rip), %rcx
	movd	(%rcx,%rdx,4), %xmm1
	jmp	.Lfilter640_BB2_9
.Lfilter640_BB2_18:
	addl	$1048576000, %edx
	movl	%edx, %ecx
	shlq	$29, %rcx
	orq	%r8, %rcx
	movq	%rcx, %xmm1
	movl	%edx, %ecx
	shrl	$18, %ecx
	andl	$31, %ecx
	leaq	.Lfilter640_JTI2_0(%rip), %r8
	movslq	(%r8,%rcx,4), %rcx
	addq	%r8, %rcx
	jmpq	*%rcx
.Lfilter640_BB2_19:
	movsd	.Lfilter640_CPI2_143(%rip), %xmm2
	mulsd	%xmm1, %xmm2
	addsd	.Lfilter640_CPI2_144(%rip), %xmm2
	movsd	.Lfilter640_CPI2_145(%rip), %xmm3
	movsd	.Lfilter640_CPI2_146(%rip), %xmm4
	jmp	.Lfilter640_BB2_51
.Lfilter640_BB2_20:
	movsd	.Lfilter640_CPI2_35(%rip), %xmm2
	mulsd	%xmm1, %xmm2
	addsd	.Lfilter640_CPI2_36(%rip), %xmm2
	movsd	.Lfilter640_CPI2_37(%rip), %xmm3
	movsd	.Lfilter640_CPI2_38(%rip), %xmm4
	jmp	.Lfilter640_BB2_51
.Lfilter640_BB2_21:
	movsd	.Lfilter640_CPI2_79(%rip), %xmm2
	mulsd	%xmm1, %xmm2
	addsd	.Lfilter640_CPI2_80(%rip), %xmm2
	movsd	.Lfilter640_CPI2_81(%rip), %xmm3
	movsd	.Lfilter640_CPI2_82(%rip), %xmm4
	jmp	.Lfilter640_BB2_51
.Lfilter640_BB2_22:
	movsd	.Lfilter640_CPI2_87(%rip), %xmm2
	mulsd	%xmm1, %xmm2
	addsd	.Lfilter640_CPI2_88(%rip), %xmm2
	movsd	.Lfilter640_CPI2_89(%rip), %xmm3
	movsd	.Lfilter640_CPI2_90(%rip), %xmm4
	jmp	.Lfilter640_BB2_51
.Lfilter640_BB2_23:
	movsd	.Lfilter640_CPI2_99(%rip), %xmm2
	mulsd	%xmm1, %xmm2
	addsd	.Lfilter640_CPI2_100(%rip), %xmm2
	movsd	.Lfilter640_CPI2_101(%rip), %xmm3
	movsd	.Lfilter640_CPI2_102(%rip), %xmm4
	jmp	.Lfilter640_BB2_51
.Lfilter640_BB2_24:
	movsd	.Lfilter640_CPI2_127(%rip), %xmm2
	mulsd	%xmm1, %xmm2
	addsd	.Lfilter640_CPI2_128(%rip), %xmm2
	movsd	.Lfilter640_CPI2_129(%rip), %xmm3
	movsd	.Lfilter640_CPI2_130(%rip), %xmm4
	jmp	.Lfilter640_BB2_51
.Lfilter640_BB2_25:
	movsd	.Lfilter640_CPI2_95(%rip), %xmm2
	mulsd	%xmm1, %xmm2
	addsd	.Lfilter640_CPI2_96(%rip), %xmm2
	movsd	.Lfilter640_CPI2_97(%rip), %xmm3
	movsd	.Lfilter640_CPI2_98(%rip), %xmm4
	jmp	.Lfilter640_BB2_51
.Lfilter640_BB2_26:
	movsd	.Lfilter640_CPI2_107(%rip), %xmm2
	mulsd	%xmm1, %xmm2
	addsd	.Lfilter640_CPI2_108(%rip), %xmm2
	movsd	.Lfilter640_CPI2_109(%rip), %xmm3
	movsd	.Lfilter640_CPI2_110(%rip), %xmm4
	jmp	.Lfilter640_BB2_51
.Lfilter640_BB2_27:
	movsd	.Lfilter640_CPI2_43(%rip), %xmm2
	mulsd	%xmm1, %xmm2
	addsd	.Lfilter640_CPI2_44(%rip), %xmm2
	movsd	.Lfilter640_CPI2_45(%rip), %xmm3
	movsd	.Lfilter640_CPI2_46(%rip), %xmm4
	jmp	.Lfilter640_BB2_51
.Lfilter640_BB2_28:
	movsd	.Lfilter640_CPI2_47(%rip), %xmm2
	mulsd	%xmm1, %xmm2
	addsd	.Lfilter640_CPI2_48(%rip), %xmm2
	movsd	.Lfilter640_CPI2_49(%rip), %xmm3
	movsd	.Lfilter640_CPI2_50(%rip), %xmm4
	jmp	.Lfilter640_BB2_51
.Lfilter640_BB2_29:
	movsd	.Lfilter640_CPI2_135(%rip), %xmm2
	mulsd	%xmm1, %xmm2
	addsd	.Lfilter640_CPI2_136(%rip), %xmm2
	movsd	.Lfilter640_CPI2_137(%rip), %xmm3
	movsd	.Lfilter640_CPI2_138(%rip), %xmm4
	jmp	.Lfilter640_BB2_51
.Lfilter640_BB2_30:
	movsd	.Lfilter640_CPI2_83(%rip), %xmm2
	mulsd	%xmm1, %xmm2
	addsd	.Lfilter640_CPI2_84(%rip), %xmm2
	movsd	.Lfilter640_CPI2_85(%rip), %xmm3
	movsd	.Lfilter640_CPI2_86(%rip), %xmm4
	jmp	.Lfilter640_BB2_51
.Lfilter640_BB2_31:
	movsd	.Lfilter640_CPI2_131(%rip), %xmm2
	mulsd	%xmm1, %xmm2
	addsd	.Lfilter640_CPI2_132(%rip), %xmm2
	movsd	.Lfilter640_CPI2_133(%rip), %xmm3
	movsd	.Lfilter640_CPI2_134(%rip), %xmm4
	jmp	.Lfilter640_BB2_51
.Lfilter640_BB2_32:
	movsd	.Lfilter640_CPI2_115(%rip), %xmm2
	mulsd	%xmm1, %xmm2
	addsd	.Lfilter640_CPI2_116(%rip), %xmm2
	movsd	.Lfilter640_CPI2_117(%rip), %xmm3
	movsd	.Lfilter640_CPI2_118(%rip), %xmm4
	jmp	.Lfilter640_BB2_51
.Lfilter640_BB2_33:
	movsd	.Lfilter640_CPI2_139(%rip), %xmm2
	mulsd	%xmm1, %xmm2
	addsd	.Lfilter640_CPI2_140(%rip), %xmm2
	movsd	.Lfilter640_CPI2_141(%rip), %xmm3
	movsd	.Lfilter640_CPI2_142(%rip), %xmm4
	jmp	.Lfilter640_BB2_51
.Lfilter640_BB2_34:
	movsd	.Lfilter640_CPI2_19(%rip), %xmm2
	mulsd	%xmm1, %xmm2
	addsd	.Lfilter640_CPI2_20(%rip), %xmm2
	movsd	.Lfilter640_CPI2_21(%rip), %xmm3
	movsd	.Lfilter640_CPI2_22(%rip), %xmm4
	jmp	.Lfilter640_BB2_51
.Lfilter640_BB2_35:
	movsd	.Lfilter640_CPI2_75(%rip), %xmm2
	mulsd	%xmm1, %xmm2
	addsd	.Lfilter640_CPI2_76(%rip), %xmm2
	movsd	.Lfilter640_CPI2_77(%rip), %xmm3
	movsd	.Lfilter640_CPI2_78(%rip), %xmm4
	jmp	.Lfilter640_BB2_51
.Lfilter640_BB2_36:
	movsd	.Lfilter640_CPI2_63(%rip), %xmm2
	mulsd	%xmm1, %xmm2
	addsd	.Lfilter640_CPI2_64(%rip), %xmm2
	movsd	.Lfilter640_CPI2_65(%rip), %xmm3
	movsd	.Lfilter640_CPI2_66(%rip), %xmm4
	jmp	.Lfilter640_BB2_51
.Lfilter640_BB2_37:
	movsd	.Lfilter640_CPI2_123(%rip), %xmm2
	mulsd	%xmm1, %xmm2
	addsd	.Lfilter640_CPI2_124(%rip), %xmm2
	movsd	.Lfilter640_CPI2_125(%rip), %xmm3
	movsd	.Lfilter640_CPI2_126(%rip), %xmm4
	jmp	.Lfilter640_BB2_51
.Lfilter640_BB2_38:
	movsd	.Lfilter640_CPI2_59(%rip), %xmm2
	mulsd	%xmm1, %xmm2
	addsd	.Lfilter640_CPI2_60(%rip), %xmm2
	movsd	.Lfilter640_CPI2_61(%rip), %xmm3
	movsd	.Lfilter640_CPI2_62(%rip), %xmm4
	jmp	.Lfilter640_BB2_51
.Lfilter640_BB2_39:
	movsd	.Lfilter640_CPI2_91(%rip), %xmm2
	mulsd	%xmm1, %xmm2
	addsd	.Lfilter640_CPI2_92(%rip), %xmm2
	movsd	.Lfilter640_CPI2_93(%rip), %xmm3
	movsd	.Lfilter640_CPI2_94(%rip), %xmm4
	jmp	.Lfilter640_BB2_51
.Lfilter640_BB2_40:
	movsd	.Lfilter640_CPI2_119(%rip), %xmm2
	mulsd	%xmm1, %xmm2
	addsd	.Lfilter640_CPI2_120(%rip), %xmm2
	movsd	.Lfilter640_CPI2_121(%rip), %xmm3
	movsd	.Lfilter640_CPI2_122(%rip), %xmm4
	jmp	.Lfilter640_BB2_51
.Lfilter640_BB2_41:
	movsd	.Lfilter640_CPI2_71(%rip), %xmm2
	mulsd	%xmm1, %xmm2
	addsd	.Lfilter640_CPI2_72(%rip), %xmm2
	movsd	.Lfilter640_CPI2_73(%rip), %xmm3
	movsd	.Lfilter640_CPI2_74(%rip), %xmm4
	jmp	.Lfilter640_BB2_51
.Lfilter640_BB2_42:
	movsd	.Lfilter640_CPI2_103(%rip), %xmm2
	mulsd	%xmm1, %xmm2
	addsd	.Lfilter640_CPI2_104(%rip), %xmm2
	movsd	.Lfilter640_CPI2_105(%rip), %xmm3
	movsd	.Lfilter640_CPI2_106(%rip), %xmm4
	jmp	.Lfilter640_BB2_51
.Lfilter640_BB2_43:
	movsd	.Lfilter640_CPI2_111(%rip), %xmm2
	mulsd	%xmm1, %xmm2
	addsd	.Lfilter640_CPI2_112(%rip), %xmm2
	movsd	.Lfilter640_CPI2_113(%rip), %xmm3
	movsd	.Lfilter640_CPI2_114(%rip), %xmm4
	jmp	.Lfilter640_BB2_51
.Lfilter640_BB2_44:
	movsd	.Lfilter640_CPI2_23(%rip), %xmm2
	mulsd	%xmm1, %xmm2
	addsd	.Lfilter640_CPI2_24(%rip), %xmm2
	movsd	.Lfilter640_CPI2_25(%rip), %xmm3
	movsd	.Lfilter640_CPI2_26(%rip), %xmm4
	jmp	.Lfilter640_BB2_51
.Lfilter640_BB2_45:
	movsd	.Lfilter640_CPI2_55(%rip), %xmm2
	mulsd	%xmm1, %xmm2
	addsd	.Lfilter640_CPI2_56(%rip), %xmm2
	movsd	.Lfilter640_CPI2_57(%rip), %xmm3
	movsd	.Lfilter640_CPI2_58(%rip), %xmm4
	jmp	.Lfilter640_BB2_51
.Lfilter640_BB2_46:
	movsd	.Lfilter640_CPI2_67(%rip), %xmm2
	mulsd	%xmm1, %xmm2
	addsd	.Lfilter640_CPI2_68(%rip), %xmm2
	movsd	.Lfilter640_CPI2_69(%rip), %xmm3
	movsd	.Lfilter640_CPI2_70(%rip), %xmm4
	jmp	.Lfilter640_BB2_51
.Lfilter640_BB2_47:
	movsd	.Lfilter640_CPI2_51(%rip), %xmm2
	mulsd	%xmm1, %xmm2
	addsd	.Lfilter640_CPI2_52(%rip), %xmm2
	movsd	.Lfilter640_CPI2_53(%rip), %xmm3
	movsd	.Lfilter640_CPI2_54(%rip), %xmm4
	jmp	.Lfilter640_BB2_51
.Lfilter640_BB2_48:
	movsd	.Lfilter640_CPI2_31(%rip), %xmm2
	mulsd	%xmm1, %xmm2
	addsd	.Lfilter640_CPI2_32(%rip), %xmm2
	movsd	.Lfilter640_CPI2_33(%rip), %xmm3
	movsd	.Lfilter640_CPI2_34(%rip), %xmm4
	jmp	.Lfilter640_BB2_51
.Lfilter640_BB2_49:
	movsd	.Lfilter640_CPI2_27(%rip), %xmm2
	mulsd	%xmm1, %xmm2
	addsd	.Lfilter640_CPI2_28(%rip), %xmm2
	movsd	.Lfilter640_CPI2_29(%rip), %xmm3
	movsd	.Lfilter640_CPI2_30(%rip), %xmm4
	jmp	.Lfilter640_BB2_51
.Lfilter640_BB2_50:
	movsd	.Lfilter640_CPI2_39(%rip), %xmm2
	mulsd	%xmm1, %xmm2
	addsd	.Lfilter640_CPI2_40(%rip), %xmm2
	movsd	.Lfilter640_CPI2_41(%rip), %xmm3
	movsd	.Lfilter640_CPI2_42(%rip), %xmm4
.Lfilter640_BB2_51:
	movapd	%xmm1, %xmm5
	mulsd	%xmm1, %xmm5
	mulsd	%xmm1, %xmm3
	addsd	%xmm4, %xmm3
	mulsd	%xmm5, %xmm3
	addsd	%xmm2, %xmm3
	movl	%edx, %ecx
	shrl	$20, %ecx
	andl	$24, %ecx
	leaq	.Lfilter640_switch.table.roots.fourth_roots(%rip), %r8
	mulsd	(%rcx,%r8), %xmm1
	mulsd	%xmm3, %xmm1
	mulsd	%xmm3, %xmm1
	movsd	.Lfilter640_CPI2_147(%rip), %xmm4
	movapd	%xmm1, %xmm2
	addsd	%xmm4, %xmm2
	movsd	.Lfilter640_CPI2_148(%rip), %xmm5
	addsd	%xmm2, %xmm5
	addsd	%xmm1, %xmm5
	leaq	.Lfilter640_switch.table.roots.fourth_roots.9(%rip), %r8
	mulsd	(%rcx,%r8), %xmm3
	mulsd	%xmm5, %xmm3
	addsd	%xmm4, %xmm3
	movapd	%xmm3, %xmm1
	ucomisd	%xmm1, %xmm1
	jp	.Lfilter640_BB2_63
	movq	%xmm2, %rcx
	movl	%ecx, %r8d
	movq	%xmm3, %rcx
	movl	%ecx, %ecx
	movl	%edx, %r10d
	andl	$8388607, %r10d
.Lfilter640_BB2_53:
	orl	$8388608, %r10d
	movl	%edx, %r9d
	andl	$8388608, %r9d
	addl	$8388608, %r9d
	imulq	%r10, %r9
	leaq	1(%r8), %r11
	movq	%r11, %r10
	imulq	%r8, %r10
	subq	%r9, %r10
	leaq	(%r8,%r8), %rbx
	cmpq	%rbx, %r10
	jae	.Lfilter640_BB2_55
	movq	%r8, %r10
	jmp	.Lfilter640_BB2_57
	.p2align	4
.Lfilter640_BB2_55:
	movq	%r11, %r10
	leaq	1(%r8), %rbx
	imulq	%rbx, %r8
	incq	%r11
	cmpq	%r9, %r8
	movq	%rbx, %r8
	jb	.Lfilter640_BB2_55
	.p2align	4
.Lfilter640_BB2_56:
	leaq	(%r9,%r10), %r8
	decq	%r8
	decq	%r10
	movq	%r10, %r11
	imulq	%r10, %r11
	cmpq	%r11, %r8
	jbe	.Lfilter640_BB2_56
.Lfilter640_BB2_57:
	movl	%edx, %r8d
	shrl	%r8d
	andl	$8388608, %r8d
	addl	$8388608, %r8d
	imulq	%r10, %r8
	leaq	1(%rcx), %r10
	movq	%r10, %r9
	imulq	%rcx, %r9
	subq	%r8, %r9
	leaq	(%rcx,%rcx), %r11
	cmpq	%r11, %r9
	jae	.Lfilter640_BB2_59
	movq	%rcx, %r9
	jmp	.Lfilter640_BB2_61
	.p2align	4
.Lfilter640_BB2_59:
	movq	%r10, %r9
	leaq	1(%rcx), %r11
	imulq	%r11, %rcx
	incq	%r10
	cmpq	%r8, %rcx
	movq	%r11, %rcx
	jb	.Lfilter640_BB2_59
	.p2align	4
.Lfilter640_BB2_60:
	leaq	(%r8,%r9), %rcx
	decq	%rcx
	decq	%r9
	movq	%r9, %r10
	imulq	%r9, %r10
	cmpq	%r10, %rcx
	jbe	.Lfilter640_BB2_60
.Lfilter640_BB2_61:
	shrl	$2, %edx
	andl	$1065353216, %edx
	leal	(%rdx,%r9), %ecx
	addl	$528482304, %ecx
	movd	%ecx, %xmm1
	jmp	.Lfilter640_BB2_9
.Lfilter640_BB2_62:
	movd	.Lfilter640_CPI2_17(%rip), %xmm1
	jmp	.Lfilter640_BB2_9
.Lfilter640_BB2_63:
	movl	%edx, %r10d
	andl	$8388607, %r10d
	movl	%r10d, %r8d
	shrl	%r8d
	orl	$8388608, %r8d
	movl	%r10d, %ecx
	shrl	$2, %ecx
	orl	$8388608, %ecx
	jmp	.Lfilter640_BB2_53
.Lfilter640_BB2_64:
	addq	$384, %rsp
	popq	%rbx
	retq
.Lfilter640_func_end2:
	.size	loamchalice.filter640.roots.fourth_roots, .Lfilter640_func_end2-loamchalice.filter640.roots.fourth_roots
	.section	.rodata.filter640.roots.fourth_roots,"a",@progbits
	.p2align	2, 0x0
.Lfilter640_JTI2_0:
	.long	.Lfilter640_BB2_19-.Lfilter640_JTI2_0
	.long	.Lfilter640_BB2_33-.Lfilter640_JTI2_0
	.long	.Lfilter640_BB2_29-.Lfilter640_JTI2_0
	.long	.Lfilter640_BB2_31-.Lfilter640_JTI2_0
	.long	.Lfilter640_BB2_24-.Lfilter640_JTI2_0
	.long	.Lfilter640_BB2_37-.Lfilter640_JTI2_0
	.long	.Lfilter640_BB2_40-.Lfilter640_JTI2_0
	.long	.Lfilter640_BB2_32-.Lfilter640_JTI2_0
	.long	.Lfilter640_BB2_43-.Lfilter640_JTI2_0
	.long	.Lfilter640_BB2_26-.Lfilter640_JTI2_0
	.long	.Lfilter640_BB2_42-.Lfilter640_JTI2_0
	.long	.Lfilter640_BB2_23-.Lfilter640_JTI2_0
	.long	.Lfilter640_BB2_25-.Lfilter640_JTI2_0
	.long	.Lfilter640_BB2_39-.Lfilter640_JTI2_0
	.long	.Lfilter640_BB2_22-.Lfilter640_JTI2_0
	.long	.Lfilter640_BB2_30-.Lfilter640_JTI2_0
	.long	.Lfilter640_BB2_21-.Lfilter640_JTI2_0
	.long	.Lfilter640_BB2_35-.Lfilter640_JTI2_0
	.long	.Lfilter640_BB2_41-.Lfilter640_JTI2_0
	.long	.Lfilter640_BB2_46-.Lfilter640_JTI2_0
	.long	.Lfilter640_BB2_36-.Lfilter640_JTI2_0
	.long	.Lfilter640_BB2_38-.Lfilter640_JTI2_0
	.long	.Lfilter640_BB2_45-.Lfilter640_JTI2_0
	.long	.Lfilter640_BB2_47-.Lfilter640_JTI2_0
	.long	.Lfilter640_BB2_28-.Lfilter640_JTI2_0
	.long	.Lfilter640_BB2_27-.Lfilter640_JTI2_0
	.long	.Lfilter640_BB2_50-.Lfilter640_JTI2_0
	.long	.Lfilter640_BB2_20-.Lfilter640_JTI2_0
	.long	.Lfilter640_BB2_48-.Lfilter640_JTI2_0
	.long	.Lfilter640_BB2_49-.Lfilter640_JTI2_0
	.long	.Lfilter640_BB2_44-.Lfilter640_JTI2_0
	.long	.Lfilter640_BB2_34-.Lfilter640_JTI2_0

	.section	.rodata.cst16,"aM",@progbits,16
	.p2align	4, 0x0
.Lfilter640_CPI3_0:
	.long	0xc3889333
	.long	0xc3889333
	.long	0xc3889333
	.long	0xc3889333
	.section	.text.filter640.pixels.degrees_block,"ax",@progbits
	.p2align	4
	.type	loamchalice.filter640.pixels.degrees_block,@function
loamchalice.filter640.pixels.degrees_block:
	pushq	%rbx
	movq	%rsi, %rbx
	callq	loamchalice.filter640.roots.fourth_roots
	movaps	.Lfilter640_CPI3_0(%rip), %xmm0
	movups	(%rbx), %xmm1
	movups	16(%rbx), %xmm2
	movups	32(%rbx), %xmm3
	movups	48(%rbx), %xmm4
	addps	%xmm0, %xmm1
	movups	%xmm1, (%rbx)
	addps	%xmm0, %xmm2
	movups	%xmm2, 16(%rbx)
	addps	%xmm0, %xmm3
	movups	%xmm3, 32(%rbx)
	addps	%xmm0, %xmm4
	movups	%xmm4, 48(%rbx)
	movups	64(%rbx), %xmm1
	addps	%xmm0, %xmm1
	movups	%xmm1, 64(%rbx)
	movups	80(%rbx), %xmm1
	addps	%xmm0, %xmm1
	movups	%xmm1, 80(%rbx)
	movups	96(%rbx), %xmm1
	addps	%xmm0, %xmm1
	movups	%xmm1, 96(%rbx)
	movups	112(%rbx), %xmm1
	addps	%xmm0, %xmm1
	movups	%xmm1, 112(%rbx)
	popq	%rbx
	retq
.Lfilter640_func_end3:
	.size	loamchalice.filter640.pixels.degrees_block, .Lfilter640_func_end3-loamchalice.filter640.pixels.degrees_block

	.section	.text.loamchalice_mlx90640_filtered_pixels_to_ir_data,"ax",@progbits
	.globl	loamchalice_mlx90640_filtered_pixels_to_ir_data
	.p2align	4
	.type	loamchalice_mlx90640_filtered_pixels_to_ir_data,@function
loamchalice_mlx90640_filtered_pixels_to_ir_data:
	pushq	%rbp
	pushq	%r15
	pushq	%r14
	pushq	%r13
	pushq	%r12
	pushq	%rbx
	subq	$328, %rsp
	movq	%r8, 80(%rsp)
	movq	%rdx, 88(%rsp)
	movq	%rdi, %rbx
	leaq	548(%rsp), %rax
	leaq	552(%rsp), %r12
	xorl	%edi, %edi
	cmpb	$0, 521(%rsp)
	setne	%r11b
	jne	.Lfilter640_BB4_2
	xorps	%xmm1, %xmm1
	jmp	.Lfilter640_BB4_3
.Lfilter640_BB4_2:
	movss	416(%rsp), %xmm1
.Lfilter640_BB4_3:
	movswl	568(%rsp), %r8d
	movss	420(%rsp), %xmm2
	movq	424(%rsp), %r14
	movq	504(%rsp), %r15
	movl	512(%rsp), %ebp
	movzbl	520(%rsp), %r13d
	movq	528(%rsp), %r10
	movss	544(%rsp), %xmm3
	movb	%r11b, %dil
	xorl	%r11d, %r11d
	cmpb	$0, 556(%rsp)
	cmoveq	%rax, %r12
	sete	%al
	movss	(%r12), %xmm4
	cmpb	$0, 580(%rsp)
	je	.Lfilter640_BB4_5
	movss	576(%rsp), %xmm0
	jmp	.Lfilter640_BB4_6
.Lfilter640_BB4_5:
	cvtsi2ss	%r8d, %xmm0
.Lfilter640_BB4_6:
	cmpb	$0, 570(%rsp)
	movzbl	571(%rsp), %r12d
	movaps	432(%rsp), %xmm5
	movups	%xmm5, 224(%rsp)
	movaps	448(%rsp), %xmm5
	movups	%xmm5, 240(%rsp)
	movaps	464(%rsp), %xmm5
	movups	%xmm5, 284(%rsp)
	movaps	480(%rsp), %xmm5
	movups	%xmm5, 300(%rsp)
	movq	496(%rsp), %rdx
	movq	%rdx, 316(%rsp)
	movb	%al, %r11b
	movl	516(%rsp), %eax
	movl	%eax, 184(%rsp)
	movb	%r13b, 188(%rsp)
	movw	$0, 189(%rsp)
	movb	$0, 191(%rsp)
	movaps	384(%rsp), %xmm5
	movups	%xmm5, 192(%rsp)
	movsd	400(%rsp), %xmm5
	movsd	%xmm5, 208(%rsp)
	movq	%r15, 216(%rsp)
	movq	%r14, 256(%rsp)
	movl	%ebp, 264(%rsp)
	movsd	408(%rsp), %xmm5
	movsd	%xmm5, 268(%rsp)
	movl	%edi, 276(%rsp)
	movss	%xmm1, 280(%rsp)
	movss	%xmm2, 324(%rsp)
	xorps	%xmm1, %xmm1
	movaps	%xmm1, 144(%rsp)
	movaps	%xmm1, 160(%rsp)
	movsd	536(%rsp), %xmm1
	movsd	%xmm1, 96(%rsp)
	movss	%xmm3, 104(%rsp)
	movl	$0, 108(%rsp)
	movq	%r10, 112(%rsp)
	movl	%r11d, 120(%rsp)
	movss	%xmm4, 124(%rsp)
	movq	560(%rsp), %r15
	setne	138(%rsp)
	testb	%r12b, %r12b
	movq	584(%rsp), %rdi
	movq	600(%rsp), %r11
	movq	616(%rsp), %r14
	movq	608(%rsp), %r12
	movq	592(%rsp), %r13
	sete	139(%rsp)
	xorl	%r10d, %r10d
	testq	%rsi, %rsi
	sete	%r10b
	shll	$12, %r10d
	addq	%rsi, %r10
	xorl	%esi, %esi
	testq	%rcx, %rcx
	sete	%sil
	shll	$12, %esi
	addq	%rcx, %rsi
	xorl	%ecx, %ecx
	testq	%r9, %r9
	sete	%cl
	shll	$12, %ecx
	addq	%r9, %rcx
	xorl	%eax, %eax
	testq	%r13, %r13
	sete	%al
	shll	$12, %eax
	addq	%r13, %rax
	xorl	%edx, %edx
	testq	%r12, %r12
	sete	%dl
	shll	$12, %edx
	movq	%r15, 128(%rsp)
	movw	%r8w, 136(%rsp)
	movl	$0, 140(%rsp)
	addq	%r12, %rdx
	movq	%r14, 72(%rsp)
	movq	%rdx, 64(%rsp)
	movq	%r11, 56(%rsp)
	movq	%rax, 48(%rsp)
	movq	%rdi, 40(%rsp)
	movq	%rcx, 32(%rsp)
	movq	80(%rsp), %rax
	movq	%rax, 24(%rsp)
	movq	%rsi, 16(%rsp)
	movq	%rax, 8(%rsp)
	movq	%rsi, (%rsp)
	leaq	144(%rsp), %rdi
	leaq	184(%rsp), %rsi
	leaq	96(%rsp), %rdx
	xorl	%r14d, %r14d
	xorl	%ecx, %ecx
	movq	%r10, %r8
	movq	88(%rsp), %r9
	callq	loamchalice.filter640.frames640.from_pixels
	movl	152(%rsp), %esi
	movq	160(%rsp), %rcx
	cmpb	$0, 144(%rsp)
	je	.Lfilter640_BB4_9
	movzwl	168(%rsp), %edx
	movl	%esi, %edi
	shrl	$16, %edi
	xorl	%eax, %eax
	movzbl	%sil, %esi
	leaq	.Lfilter640_JTI4_0(%rip), %r8
	movslq	(%r8,%rsi,4), %rsi
	addq	%r8, %rsi
	jmpq	*%rsi
.Lfilter640_BB4_8:
	movl	$1, %r14d
	jmp	.Lfilter640_BB4_25
.Lfilter640_BB4_9:
	xorl	%edi, %edi
	xorl	%edx, %edx
	movl	%esi, %eax
	jmp	.Lfilter640_BB4_27
.Lfilter640_BB4_10:
	movl	$13, %r14d
	jmp	.Lfilter640_BB4_25
.Lfilter640_BB4_11:
	movl	$10, %r14d
	jmp	.Lfilter640_BB4_25
.Lfilter640_BB4_12:
	movl	$4, %r14d
	xorl	%edx, %edx
	movq	%rdi, %rcx
	jmp	.Lfilter640_BB4_26
.Lfilter640_BB4_13:
	movl	$11, %r14d
	jmp	.Lfilter640_BB4_25
.Lfilter640_BB4_14:
	movl	%edi, %ecx
	movl	$9, %r14d
	jmp	.Lfilter640_BB4_25
.Lfilter640_BB4_15:
	movl	$2, %r14d
	jmp	.Lfilter640_BB4_24
.Lfilter640_BB4_16:
	movl	$14, %r14d
	jmp	.Lfilter640_BB4_25
.Lfilter640_BB4_17:
	movl	$3, %r14d
	jmp	.Lfilter640_BB4_26
.Lfilter640_BB4_18:
	movl	$7, %r14d
	jmp	.Lfilter640_BB4_24
.Lfilter640_BB4_19:
	movl	$5, %r14d
	jmp	.Lfilter640_BB4_25
.Lfilter640_BB4_20:
	movl	$12, %r14d
	jmp	.Lfilter640_BB4_25
.Lfilter640_BB4_21:
	movl	$6, %r14d
	jmp	.Lfilter640_BB4_25
.Lfilter640_BB4_22:
	movl	$9, %r14d
	jmp	.Lfilter640_BB4_26
.Lfilter640_BB4_23:
	movl	$8, %r14d
.Lfilter640_BB4_24:
	xorl	%ecx, %ecx
.Lfilter640_BB4_25:
	xorl	%edx, %edx
.Lfilter640_BB4_26:
	movzwl	%dx, %edx
	movq	%rcx, %rdi
	xorl	%ecx, %ecx
.Lfilter640_BB4_27:
	movq	%r14, (%rbx)
	movq	%rdi, 8(%rbx)
	movq	%rdx, 16(%rbx)
	movq	%rcx, 24(%rbx)
	movl	%eax, 32(%rbx)
	movl	$0, 36(%rbx)
	movq	%rbx, %rax
	addq	$328, %rsp
	popq	%rbx
	popq	%r12
	popq	%r13
	popq	%r14
	popq	%r15
	popq	%rbp
	retq
.Lfilter640_func_end4:
	.size	loamchalice_mlx90640_filtered_pixels_to_ir_data, .Lfilter640_func_end4-loamchalice_mlx90640_filtered_pixels_to_ir_data
	.section	.rodata.loamchalice_mlx90640_filtered_pixels_to_ir_data,"a",@progbits
	.p2align	2, 0x0
.Lfilter640_JTI4_0:
	.long	.Lfilter640_BB4_8-.Lfilter640_JTI4_0
	.long	.Lfilter640_BB4_8-.Lfilter640_JTI4_0
	.long	.Lfilter640_BB4_15-.Lfilter640_JTI4_0
	.long	.Lfilter640_BB4_17-.Lfilter640_JTI4_0
	.long	.Lfilter640_BB4_12-.Lfilter640_JTI4_0
	.long	.Lfilter640_BB4_19-.Lfilter640_JTI4_0
	.long	.Lfilter640_BB4_21-.Lfilter640_JTI4_0
	.long	.Lfilter640_BB4_18-.Lfilter640_JTI4_0
	.long	.Lfilter640_BB4_23-.Lfilter640_JTI4_0
	.long	.Lfilter640_BB4_14-.Lfilter640_JTI4_0
	.long	.Lfilter640_BB4_22-.Lfilter640_JTI4_0
	.long	.Lfilter640_BB4_11-.Lfilter640_JTI4_0
	.long	.Lfilter640_BB4_13-.Lfilter640_JTI4_0
	.long	.Lfilter640_BB4_20-.Lfilter640_JTI4_0
	.long	.Lfilter640_BB4_10-.Lfilter640_JTI4_0
	.long	.Lfilter640_BB4_16-.Lfilter640_JTI4_0

	.section	.text.loamchalice_mlx90640_filtered_pixels_to_ranged_temperatures,"ax",@progbits
	.globl	loamchalice_mlx90640_filtered_pixels_to_ranged_temperatures
	.p2align	4
	.type	loamchalice_mlx90640_filtered_pixels_to_ranged_temperatures,@function
loamchalice_mlx90640_filtered_pixels_to_ranged_temperatures:
	pushq	%rbp
	pushq	%r15
	pushq	%r14
	pushq	%r13
	pushq	%r12
	pushq	%rbx
	subq	$328, %rsp
	movq	%r8, 80(%rsp)
	movq	%rdx, 88(%rsp)
	movq	%rdi, %rbx
	leaq	548(%rsp), %r13
	leaq	552(%rsp), %rax
	xorl	%edi, %edi
	cmpb	$0, 521(%rsp)
	setne	%dl
	jne	.Lfilter640_BB5_2
	xorps	%xmm1, %xmm1
	jmp	.Lfilter640_BB5_3
.Lfilter640_BB5_2:
	movss	416(%rsp), %xmm1
.Lfilter640_BB5_3:
	movswl	568(%rsp), %r8d
	movss	420(%rsp), %xmm2
	movq	424(%rsp), %r14
	movq	504(%rsp), %r15
	movl	512(%rsp), %ebp
	movzbl	520(%rsp), %r12d
	movq	528(%rsp), %r10
	movss	544(%rsp), %xmm3
	movb	%dl, %dil
	xorl	%r11d, %r11d
	cmpb	$0, 556(%rsp)
	cmoveq	%r13, %rax
	sete	%dl
	movss	(%rax), %xmm4
	cmpb	$0, 580(%rsp)
	je	.Lfilter640_BB5_5
	movss	576(%rsp), %xmm0
	jmp	.Lfilter640_BB5_6
.Lfilter640_BB5_5:
	cvtsi2ss	%r8d, %xmm0
.Lfilter640_BB5_6:
	cmpb	$0, 570(%rsp)
	movzbl	571(%rsp), %r13d
	movaps	432(%rsp), %xmm5
	movups	%xmm5, 224(%rsp)
	movaps	448(%rsp), %xmm5
	movups	%xmm5, 240(%rsp)
	movaps	464(%rsp), %xmm5
	movups	%xmm5, 284(%rsp)
	movaps	480(%rsp), %xmm5
	movups	%xmm5, 300(%rsp)
	movq	496(%rsp), %rax
	movq	%rax, 316(%rsp)
	movb	%dl, %r11b
	movl	516(%rsp), %eax
	movl	%eax, 184(%rsp)
	movb	%r12b, 188(%rsp)
	movw	$0, 189(%rsp)
	movb	$0, 191(%rsp)
	movaps	384(%rsp), %xmm5
	movups	%xmm5, 192(%rsp)
	movsd	400(%rsp), %xmm5
	movsd	%xmm5, 208(%rsp)
	movq	%r15, 216(%rsp)
	movq	%r14, 256(%rsp)
	movl	%ebp, 264(%rsp)
	movsd	408(%rsp), %xmm5
	movsd	%xmm5, 268(%rsp)
	movl	%edi, 276(%rsp)
	movss	%xmm1, 280(%rsp)
	movss	%xmm2, 324(%rsp)
	xorps	%xmm1, %xmm1
	movaps	%xmm1, 144(%rsp)
	movaps	%xmm1, 160(%rsp)
	movsd	536(%rsp), %xmm1
	movsd	%xmm1, 96(%rsp)
	movss	%xmm3, 104(%rsp)
	movl	$0, 108(%rsp)
	movq	%r10, 112(%rsp)
	movl	%r11d, 120(%rsp)
	movss	%xmm4, 124(%rsp)
	movq	560(%rsp), %r12
	setne	138(%rsp)
	testb	%r13b, %r13b
	movq	584(%rsp), %rdi
	movq	600(%rsp), %r11
	movq	616(%rsp), %r14
	movq	632(%rsp), %r15
	movq	624(%rsp), %r13
	movq	608(%rsp), %rbp
	movq	592(%rsp), %rax
	sete	139(%rsp)
	xorl	%r10d, %r10d
	testq	%rsi, %rsi
	sete	%r10b
	shll	$12, %r10d
	addq	%rsi, %r10
	xorl	%esi, %esi
	testq	%rcx, %rcx
	sete	%sil
	shll	$12, %esi
	addq	%rcx, %rsi
	xorl	%ecx, %ecx
	testq	%r9, %r9
	sete	%cl
	shll	$12, %ecx
	addq	%r9, %rcx
	xorl	%r9d, %r9d
	testq	%rax, %rax
	sete	%r9b
	shll	$12, %r9d
	addq	%rax, %r9
	xorl	%eax, %eax
	testq	%rbp, %rbp
	sete	%al
	shll	$12, %eax
	addq	%rbp, %rax
	xorl	%edx, %edx
	testq	%r13, %r13
	sete	%dl
	shll	$12, %edx
	movq	%r12, 128(%rsp)
	movw	%r8w, 136(%rsp)
	movl	$0, 140(%rsp)
	addq	%r13, %rdx
	movq	%r15, 72(%rsp)
	movq	%rdx, 64(%rsp)
	movq	%r14, 56(%rsp)
	movq	%rax, 48(%rsp)
	movq	%r11, 40(%rsp)
	movq	%r9, 32(%rsp)
	movq	%rdi, 24(%rsp)
	movq	%rcx, 16(%rsp)
	movq	80(%rsp), %rax
	movq	%rax, 8(%rsp)
	movq	%rsi, (%rsp)
	leaq	144(%rsp), %rdi
	leaq	184(%rsp), %rsi
	leaq	96(%rsp), %rdx
	movl	$2, %ecx
	movq	%r10, %r8
	movq	88(%rsp), %r9
	callq	loamchalice.filter640.frames640.from_pixels
	movl	152(%rsp), %edi
	movq	160(%rsp), %rcx
	cmpb	$0, 144(%rsp)
	je	.Lfilter640_BB5_9
	movzwl	168(%rsp), %esi
	movl	%edi, %r8d
	shrl	$16, %r8d
	xorl	%eax, %eax
	movzbl	%dil, %edx
	leaq	.Lfilter640_JTI5_0(%rip), %rdi
	movslq	(%rdi,%rdx,4), %rdx
	addq	%rdi, %rdx
	jmpq	*%rdx
.Lfilter640_BB5_8:
	movl	$1, %edx
	jmp	.Lfilter640_BB5_25
.Lfilter640_BB5_9:
	xorl	%edx, %edx
	xorl	%r8d, %r8d
	xorl	%esi, %esi
	movl	%edi, %eax
	jmp	.Lfilter640_BB5_27
.Lfilter640_BB5_10:
	movl	$13, %edx
	jmp	.Lfilter640_BB5_25
.Lfilter640_BB5_11:
	movl	$10, %edx
	jmp	.Lfilter640_BB5_25
.Lfilter640_BB5_12:
	movl	$4, %edx
	xorl	%esi, %esi
	movq	%r8, %rcx
	jmp	.Lfilter640_BB5_26
.Lfilter640_BB5_13:
	movl	$11, %edx
	jmp	.Lfilter640_BB5_25
.Lfilter640_BB5_14:
	movl	%r8d, %ecx
	movl	$9, %edx
	jmp	.Lfilter640_BB5_25
.Lfilter640_BB5_15:
	movl	$2, %edx
	jmp	.Lfilter640_BB5_24
.Lfilter640_BB5_16:
	movl	$14, %edx
	jmp	.Lfilter640_BB5_25
.Lfilter640_BB5_17:
	movl	$3, %edx
	jmp	.Lfilter640_BB5_26
.Lfilter640_BB5_18:
	movl	$7, %edx
	jmp	.Lfilter640_BB5_24
.Lfilter640_BB5_19:
	movl	$5, %edx
	jmp	.Lfilter640_BB5_25
.Lfilter640_BB5_20:
	movl	$12, %edx
	jmp	.Lfilter640_BB5_25
.Lfilter640_BB5_21:
	movl	$6, %edx
	jmp	.Lfilter640_BB5_25
.Lfilter640_BB5_22:
	movl	$9, %edx
	jmp	.Lfilter640_BB5_26
.Lfilter640_BB5_23:
	movl	$8, %edx
.Lfilter640_BB5_24:
	xorl	%ecx, %ecx
.Lfilter640_BB5_25:
	xorl	%esi, %esi
.Lfilter640_BB5_26:
	movzwl	%si, %esi
	movq	%rcx, %r8
	xorl	%ecx, %ecx
.Lfilter640_BB5_27:
	movq	%rdx, (%rbx)
	movq	%r8, 8(%rbx)
	movq	%rsi, 16(%rbx)
	movq	%rcx, 24(%rbx)
	movl	%eax, 32(%rbx)
	movl	$0, 36(%rbx)
	movq	%rbx, %rax
	addq	$328, %rsp
	popq	%rbx
	popq	%r12
	popq	%r13
	popq	%r14
	popq	%r15
	popq	%rbp
	retq
.Lfilter640_func_end5:
	.size	loamchalice_mlx90640_filtered_pixels_to_ranged_temperatures, .Lfilter640_func_end5-loamchalice_mlx90640_filtered_pixels_to_ranged_temperatures
	.section	.rodata.loamchalice_mlx90640_filtered_pixels_to_ranged_temperatures,"a",@progbits
	.p2align	2, 0x0
.Lfilter640_JTI5_0:
	.long	.Lfilter640_BB5_8-.Lfilter640_JTI5_0
	.long	.Lfilter640_BB5_8-.Lfilter640_JTI5_0
	.long	.Lfilter640_BB5_15-.Lfilter640_JTI5_0
	.long	.Lfilter640_BB5_17-.Lfilter640_JTI5_0
	.long	.Lfilter640_BB5_12-.Lfilter640_JTI5_0
	.long	.Lfilter640_BB5_19-.Lfilter640_JTI5_0
	.long	.Lfilter640_BB5_21-.Lfilter640_JTI5_0
	.long	.Lfilter640_BB5_18-.Lfilter640_JTI5_0
	.long	.Lfilter640_BB5_23-.Lfilter640_JTI5_0
	.long	.Lfilter640_BB5_14-.Lfilter640_JTI5_0
	.long	.Lfilter640_BB5_22-.Lfilter640_JTI5_0
	.long	.Lfilter640_BB5_11-.Lfilter640_JTI5_0
	.long	.Lfilter640_BB5_13-.Lfilter640_JTI5_0
	.long	.Lfilter640_BB5_20-.Lfilter640_JTI5_0
	.long	.Lfilter640_BB5_10-.Lfilter640_JTI5_0
	.long	.Lfilter640_BB5_16-.Lfilter640_JTI5_0

	.section	.text.loamchalice_mlx90640_filtered_pixels_to_temperatures,"ax",@progbits
	.globl	loamchalice_mlx90640_filtered_pixels_to_temperatures
	.p2align	4
	.type	loamchalice_mlx90640_filtered_pixels_to_temperatures,@function
loamchalice_mlx90640_filtered_pixels_to_temperatures:
	pushq	%rbp
	pushq	%r15
	pushq	%r14
	pushq	%r13
	pushq	%r12
	pushq	%rbx
	subq	$328, %rsp
	movq	%r8, 80(%rsp)
	movq	%rdx, 88(%rsp)
	movq	%rdi, %rbx
	leaq	548(%rsp), %r13
	leaq	552(%rsp), %rax
	xorl	%edi, %edi
	cmpb	$0, 521(%rsp)
	setne	%dl
	jne	.Lfilter640_BB6_2
	xorps	%xmm1, %xmm1
	jmp	.Lfilter640_BB6_3
.Lfilter640_BB6_2:
	movss	416(%rsp), %xmm1
.Lfilter640_BB6_3:
	movswl	568(%rsp), %r8d
	movss	420(%rsp), %xmm2
	movq	424(%rsp), %r14
	movq	504(%rsp), %r15
	movl	512(%rsp), %ebp
	movzbl	520(%rsp), %r12d
	movq	528(%rsp), %r10
	movss	544(%rsp), %xmm3
	movb	%dl, %dil
	xorl	%r11d, %r11d
	cmpb	$0, 556(%rsp)
	cmoveq	%r13, %rax
	sete	%dl
	movss	(%rax), %xmm4
	cmpb	$0, 580(%rsp)
	je	.Lfilter640_BB6_5
	movss	576(%rsp), %xmm0
	jmp	.Lfilter640_BB6_6
.Lfilter640_BB6_5:
	cvtsi2ss	%r8d, %xmm0
.Lfilter640_BB6_6:
	cmpb	$0, 570(%rsp)
	movzbl	571(%rsp), %r13d
	movaps	432(%rsp), %xmm5
	movups	%xmm5, 224(%rsp)
	movaps	448(%rsp), %xmm5
	movups	%xmm5, 240(%rsp)
	movaps	464(%rsp), %xmm5
	movups	%xmm5, 284(%rsp)
	movaps	480(%rsp), %xmm5
	movups	%xmm5, 300(%rsp)
	movq	496(%rsp), %rax
	movq	%rax, 316(%rsp)
	movb	%dl, %r11b
	movl	516(%rsp), %eax
	movl	%eax, 184(%rsp)
	movb	%r12b, 188(%rsp)
	movw	$0, 189(%rsp)
	movb	$0, 191(%rsp)
	movaps	384(%rsp), %xmm5
	movups	%xmm5, 192(%rsp)
	movsd	400(%rsp), %xmm5
	movsd	%xmm5, 208(%rsp)
	movq	%r15, 216(%rsp)
	movq	%r14, 256(%rsp)
	movl	%ebp, 264(%rsp)
	movsd	408(%rsp), %xmm5
	movsd	%xmm5, 268(%rsp)
	movl	%edi, 276(%rsp)
	movss	%xmm1, 280(%rsp)
	movss	%xmm2, 324(%rsp)
	xorps	%xmm1, %xmm1
	movaps	%xmm1, 144(%rsp)
	movaps	%xmm1, 160(%rsp)
	movsd	536(%rsp), %xmm1
	movsd	%xmm1, 96(%rsp)
	movss	%xmm3, 104(%rsp)
	movl	$0, 108(%rsp)
	movq	%r10, 112(%rsp)
	movl	%r11d, 120(%rsp)
	movss	%xmm4, 124(%rsp)
	movq	560(%rsp), %r12
	setne	138(%rsp)
	testb	%r13b, %r13b
	movq	584(%rsp), %rdi
	movq	600(%rsp), %r11
	movq	616(%rsp), %r14
	movq	632(%rsp), %r15
	movq	624(%rsp), %r13
	movq	608(%rsp), %rbp
	movq	592(%rsp), %rax
	sete	139(%rsp)
	xorl	%r10d, %r10d
	testq	%rsi, %rsi
	sete	%r10b
	shll	$12, %r10d
	addq	%rsi, %r10
	xorl	%esi, %esi
	testq	%rcx, %rcx
	sete	%sil
	shll	$12, %esi
	addq	%rcx, %rsi
	xorl	%ecx, %ecx
	testq	%r9, %r9
	sete	%cl
	shll	$12, %ecx
	addq	%r9, %rcx
	xorl	%r9d, %r9d
	testq	%rax, %rax
	sete	%r9b
	shll	$12, %r9d
	addq	%rax, %r9
	xorl	%eax, %eax
	testq	%rbp, %rbp
	sete	%al
	shll	$12, %eax
	addq	%rbp, %rax
	xorl	%edx, %edx
	testq	%r13, %r13
	sete	%dl
	shll	$12, %edx
	movq	%r12, 128(%rsp)
	movw	%r8w, 136(%rsp)
	movl	$0, 140(%rsp)
	addq	%r13, %rdx
	movq	%r15, 72(%rsp)
	movq	%rdx, 64(%rsp)
	movq	%r14, 56(%rsp)
	movq	%rax, 48(%rsp)
	movq	%r11, 40(%rsp)
	movq	%r9, 32(%rsp)
	movq	%rdi, 24(%rsp)
	movq	%rcx, 16(%rsp)
	movq	80(%rsp), %rax
	movq	%rax, 8(%rsp)
	movq	%rsi, (%rsp)
	leaq	144(%rsp), %rdi
	leaq	184(%rsp), %rsi
	leaq	96(%rsp), %rdx
	movl	$1, %ecx
	movq	%r10, %r8
	movq	88(%rsp), %r9
	callq	loamchalice.filter640.frames640.from_pixels
	movl	152(%rsp), %edi
	movq	160(%rsp), %rcx
	cmpb	$0, 144(%rsp)
	je	.Lfilter640_BB6_9
	movzwl	168(%rsp), %esi
	movl	%edi, %r8d
	shrl	$16, %r8d
	xorl	%eax, %eax
	movzbl	%dil, %edx
	leaq	.Lfilter640_JTI6_0(%rip), %rdi
	movslq	(%rdi,%rdx,4), %rdx
	addq	%rdi, %rdx
	jmpq	*%rdx
.Lfilter640_BB6_8:
	movl	$1, %edx
	jmp	.Lfilter640_BB6_25
.Lfilter640_BB6_9:
	xorl	%edx, %edx
	xorl	%r8d, %r8d
	xorl	%esi, %esi
	movl	%edi, %eax
	jmp	.Lfilter640_BB6_27
.Lfilter640_BB6_10:
	movl	$13, %edx
	jmp	.Lfilter640_BB6_25
.Lfilter640_BB6_11:
	movl	$10, %edx
	jmp	.Lfilter640_BB6_25
.Lfilter640_BB6_12:
	movl	$4, %edx
	xorl	%esi, %esi
	movq	%r8, %rcx
	jmp	.Lfilter640_BB6_26
.Lfilter640_BB6_13:
	movl	$11, %edx
	jmp	.Lfilter640_BB6_25
.Lfilter640_BB6_14:
	movl	%r8d, %ecx
	movl	$9, %edx
	jmp	.Lfilter640_BB6_25
.Lfilter640_BB6_15:
	movl	$2, %edx
	jmp	.Lfilter640_BB6_24
.Lfilter640_BB6_16:
	movl	$14, %edx
	jmp	.Lfilter640_BB6_25
.Lfilter640_BB6_17:
	movl	$3, %edx
	jmp	.Lfilter640_BB6_26
.Lfilter640_BB6_18:
	movl	$7, %edx
	jmp	.Lfilter640_BB6_24
.Lfilter640_BB6_19:
	movl	$5, %edx
	jmp	.Lfilter640_BB6_25
.Lfilter640_BB6_20:
	movl	$12, %edx
	jmp	.Lfilter640_BB6_25
.Lfilter640_BB6_21:
	movl	$6, %edx
	jmp	.Lfilter640_BB6_25
.Lfilter640_BB6_22:
	movl	$9, %edx
	jmp	.Lfilter640_BB6_26
.Lfilter640_BB6_23:
	movl	$8, %edx
.Lfilter640_BB6_24:
	xorl	%ecx, %ecx
.Lfilter640_BB6_25:
	xorl	%esi, %esi
.Lfilter640_BB6_26:
	movzwl	%si, %esi
	movq	%rcx, %r8
	xorl	%ecx, %ecx
.Lfilter640_BB6_27:
	movq	%rdx, (%rbx)
	movq	%r8, 8(%rbx)
	movq	%rsi, 16(%rbx)
	movq	%rcx, 24(%rbx)
	movl	%eax, 32(%rbx)
	movl	$0, 36(%rbx)
	movq	%rbx, %rax
	addq	$328, %rsp
	popq	%rbx
	popq	%r12
	popq	%r13
	popq	%r14
	popq	%r15
	popq	%rbp
	retq
.Lfilter640_func_end6:
	.size	loamchalice_mlx90640_filtered_pixels_to_temperatures, .Lfilter640_func_end6-loamchalice_mlx90640_filtered_pixels_to_temperatures
	.section	.rodata.loamchalice_mlx90640_filtered_pixels_to_temperatures,"a",@progbits
	.p2align	2, 0x0
.Lfilter640_JTI6_0:
	.long	.Lfilter640_BB6_8-.Lfilter640_JTI6_0
	.long	.Lfilter640_BB6_8-.Lfilter640_JTI6_0
	.long	.Lfilter640_BB6_15-.Lfilter640_JTI6_0
	.long	.Lfilter640_BB6_17-.Lfilter640_JTI6_0
	.long	.Lfilter640_BB6_12-.Lfilter640_JTI6_0
	.long	.Lfilter640_BB6_19-.Lfilter640_JTI6_0
	.long	.Lfilter640_BB6_21-.Lfilter640_JTI6_0
	.long	.Lfilter640_BB6_18-.Lfilter640_JTI6_0
	.long	.Lfilter640_BB6_23-.Lfilter640_JTI6_0
	.long	.Lfilter640_BB6_14-.Lfilter640_JTI6_0
	.long	.Lfilter640_BB6_22-.Lfilter640_JTI6_0
	.long	.Lfilter640_BB6_11-.Lfilter640_JTI6_0
	.long	.Lfilter640_BB6_13-.Lfilter640_JTI6_0
	.long	.Lfilter640_BB6_20-.Lfilter640_JTI6_0
	.long	.Lfilter640_BB6_10-.Lfilter640_JTI6_0
	.long	.Lfilter640_BB6_16-.Lfilter640_JTI6_0

	.type	.Lfilter640_switch.table.roots.fourth_roots,@object
	.section	.rodata.cst32,"aM",@progbits,32
	.p2align	3, 0x0
.Lfilter640_switch.table.roots.fourth_roots:
	.quad	0x4160000000000000
	.quad	0x4166a09e667f3bcd
	.quad	0x4160000000000000
	.quad	0x4166a09e667f3bcd
	.size	.Lfilter640_switch.table.roots.fourth_roots, 32

	.type	.Lfilter640_switch.table.roots.fourth_roots.9,@object
	.p2align	3, 0x0
.Lfilter640_switch.table.roots.fourth_roots.9:
	.quad	0x3fe0000000000000
	.quad	0x3fdae89f995ad3ad
	.quad	0x3fe6a09e667f3bcd
	.quad	0x3fe306fe0a31b715
	.size	.Lfilter640_switch.table.roots.fourth_roots.9, 32

	.section	.note.GNU-stack,"",@progbits
