// Made by tools/dist from the Rattle sources of Loamchalice, for aarch64; not written by hand. MADE_OF says from what.
// words
	.section	.text.loamchalice_check,"ax",@progbits
	.globl	loamchalice_check
	.p2align	2
	.type	loamchalice_check,@function
loamchalice_check:
	mov	x9, #72340172838076673
	ubfx	w11, w0, #8, #8
	and	x10, x0, #0xff
	and	x9, x9, #0xffffffffff
	mov	x12, #27995
	mov	x13, #5645
	mul	x10, x10, x9
	movk	x12, #61582, lsl #16
	movk	x13, #18215, lsl #16
	movk	x12, #255, lsl #32
	movk	x13, #255, lsl #32
	mul	x11, x11, x9
	and	x10, x10, x12
	and	x11, x11, x13
	eor	x10, x10, x11
	eor	x10, x10, x10, lsr #4
	eor	x10, x10, x10, lsr #2
	eor	x10, x10, x10, lsr #1
	ands	x11, x10, x9
	b.eq	.Lwords_BB0_3
	lsr	x9, x11, #32
	cbnz	x9, .Lwords_BB0_4
	and	x9, x0, #0xffff
	mov	w10, #3
	stp	x10, xzr, [x8]
	stp	x9, xzr, [x8, #16]
	ret
.Lwords_BB0_3:
	and	x11, x0, #0x7ff
	stp	xzr, xzr, [x8]
	stp	xzr, x11, [x8, #16]
	ret
.Lwords_BB0_4:
	mov	w12, #1032
	mov	w13, #1
	movk	w12, #258, lsl #16
	mul	w11, w11, w12
	mov	x12, #3263
	movk	x12, #12829, lsl #16
	movk	x12, #25934, lsl #32
	lsr	w11, w11, #22
	movk	x12, #43399, lsl #48
	and	x11, x11, #0x3c
	lsr	x11, x12, x11
	and	x12, x11, #0xf
	lsl	w12, w13, w12
	eor	w12, w12, w0
	and	w12, w12, #0x7ff
	bfi	x12, x11, #24, #4
	orr	x11, x12, #0x10000
	stp	xzr, xzr, [x8]
	stp	xzr, x11, [x8, #16]
	ret
.Lwords_func_end0:
	.size	loamchalice_check, .Lwords_func_end0-loamchalice_check

	.section	.rodata.cst8,"aM",@progbits,8
	.p2align	3, 0x0
.Lwords_CPI1_0:
	.hword	1371
	.hword	1645
	.hword	1934
	.hword	2032
.Lwords_CPI1_1:
	.hword	11
	.hword	12
	.hword	13
	.hword	14
.Lwords_CPI1_2:
	.hword	2048
	.hword	4096
	.hword	8192
	.hword	16384
	.section	.text.loamchalice_encode,"ax",@progbits
	.globl	loamchalice_encode
	.p2align	2
	.type	loamchalice_encode,@function
loamchalice_encode:
	and	w9, w0, #0xffff
	cmp	w9, #2047
	b.hi	.Lwords_BB1_2
	dup	v0.4h, w0
	adrp	x11, .Lwords_CPI1_0
	ldr	d1, [x11, :lo12:.Lwords_CPI1_0]
	adrp	x11, .Lwords_CPI1_1
	and	v0.8b, v0.8b, v1.8b
	ldr	d1, [x11, :lo12:.Lwords_CPI1_1]
	adrp	x11, .Lwords_CPI1_2
	cnt	v0.8b, v0.8b
	uaddlp	v0.4h, v0.8b
	ushl	v0.4h, v0.4h, v1.4h
	ldr	d1, [x11, :lo12:.Lwords_CPI1_2]
	and	v0.8b, v0.8b, v1.8b
	fmov	x11, d0
	orr	x11, x11, x11, lsr #32
	lsr	x12, x11, #16
	orr	w11, w11, w0
	orr	w11, w11, w12
	and	w12, w11, #0xffff
	eor	w12, w12, w12, lsr #8
	eor	w12, w12, w12, lsr #4
	eor	w12, w12, w12, lsr #2
	eor	w12, w12, w12, lsr #1
	orr	w11, w11, w12, lsl #15
	and	x11, x11, #0xffff
	stp	xzr, xzr, [x8]
	stp	xzr, x11, [x8, #16]
	ret
.Lwords_BB1_2:
	and	x9, x0, #0xffff
	mov	w10, #9
	stp	x10, x9, [x8]
	stp	xzr, xzr, [x8, #16]
	ret
.Lwords_func_end1:
	.size	loamchalice_encode, .Lwords_func_end1-loamchalice_encode

	.section	.rodata.cst8,"aM",@progbits,8
	.p2align	3, 0x0
.Lwords_CPI2_0:
	.xword	0xbfd8d6dad5c5805a
.Lwords_CPI2_1:
	.xword	0x3ff48987b38c9874
.Lwords_CPI2_2:
	.xword	0xbf89e11a55579851
.Lwords_CPI2_3:
	.xword	0x3fbbd11ca559a5b5
.Lwords_CPI2_4:
	.xword	0xbfd9564a9a0cc3d0
.Lwords_CPI2_5:
	.xword	0x3ff49e6fb879243c
.Lwords_CPI2_6:
	.xword	0xbf8b3fdc3e64f496
.Lwords_CPI2_7:
	.xword	0x3fbcd40c7b79c813
.Lwords_CPI2_8:
	.xword	0xbfd9da666a8282c0
.Lwords_CPI2_9:
	.xword	0x3ff4b3c3e0838e08
.Lwords_CPI2_10:
	.xword	0xbf8cb74d9f20e3c5
.Lwords_CPI2_11:
	.xword	0x3fbde4cf1160987f
.Lwords_CPI2_12:
	.xword	0xbfda636eaa84aa24
.Lwords_CPI2_13:
	.xword	0x3ff4c9882b15accb
.Lwords_CPI2_14:
	.xword	0xbf8e499d1637aac6
.Lwords_CPI2_15:
	.xword	0x3fbf045f9100c8fb
.Lwords_CPI2_16:
	.xword	0xbfdaf1a85969655f
.Lwords_CPI2_17:
	.xword	0x3ff4dfc0cf2a5dce
.Lwords_CPI2_18:
	.xword	0xbf8ff9350c84276a
.Lwords_CPI2_19:
	.xword	0x3fc019e7c4a5cc82
.Lwords_CPI2_20:
	.xword	0xbfdb855d7ca13de0
.Lwords_CPI2_21:
	.xword	0x3ff4f6723f50bfea
.Lwords_CPI2_22:
	.xword	0xbf90e461a137b60f
.Lwords_CPI2_23:
	.xword	0x3fc0ba24ac9d711a
.Lwords_CPI2_24:
	.xword	0xbfdc1edd9569549c
.Lwords_CPI2_25:
	.xword	0x3ff50da12e0ca82a
.Lwords_CPI2_26:
	.xword	0xbf91dda0bc0f98f5
.Lwords_CPI2_27:
	.xword	0x3fc1638974e0b1d2
.Lwords_CPI2_28:
	.xword	0xbfdcbe7e238a7215
.Lwords_CPI2_29:
	.xword	0x3ff52552929e8fbf
.Lwords_CPI2_30:
	.xword	0xbf92e9ffafd562c7
.Lwords_CPI2_31:
	.xword	0x3fc216c861238d76
.Lwords_CPI2_32:
	.xword	0xbfdd649b36da6586
.Lwords_CPI2_33:
	.xword	0x3ff53d8bae3e8fed
.Lwords_CPI2_34:
	.xword	0xbf940b5708b9b0fb
.Lwords_CPI2_35:
	.xword	0x3fc2d4a4c2a70153
.Lwords_CPI2_36:
	.xword	0xbfde119811778ee7
.Lwords_CPI2_37:
	.xword	0x3ff5565211d78886
.Lwords_CPI2_38:
	.xword	0xbf9543b6a2c0f3d1
.Lwords_CPI2_39:
	.xword	0x3fc39df4f298d76f
.Lwords_CPI2_40:
	.xword	0xbfdec5dfdd045494
.Lwords_CPI2_41:
	.xword	0x3ff56faba4515177
.Lwords_CPI2_42:
	.xword	0xbf96956d50f05671
.Lwords_CPI2_43:
	.xword	0x3fc473a491df2605
.Lwords_CPI2_44:
	.xword	0xbfdf81e67583ece0
.Lwords_CPI2_45:
	.xword	0x3ff5899ea97ae286
.Lwords_CPI2_46:
	.xword	0xbf980311beecdf50
.Lwords_CPI2_47:
	.xword	0x3fc556b719595084
.Lwords_CPI2_48:
	.xword	0xbfe02314a673068e
.Lwords_CPI2_49:
	.xword	0x3ff5a431c9a7ba2d
.Lwords_CPI2_50:
	.xword	0xbf998f8cc6c133d0
.Lwords_CPI2_51:
	.xword	0x3fc6484ac7a206de
.Lwords_CPI2_52:
	.xword	0xbfe0899835678b25
.Lwords_CPI2_53:
	.xword	0x3ff5bf6c1a168c70
.Lwords_CPI2_54:
	.xword	0xbf9b3e25807701df
.Lwords_CPI2_55:
	.xword	0x3fc7499bfbc8f77c
.Lwords_CPI2_56:
	.xword	0xbfe0f4c7c6612df5
.Lwords_CPI2_57:
	.xword	0x3ff5db55263a7735
.Lwords_CPI2_58:
	.xword	0xbf9d128f5ff1d144
.Lwords_CPI2_59:
	.xword	0x3fc85c090f67f3a1
.Lwords_CPI2_60:
	.xword	0xbfe164f3b5c49c7a
.Lwords_CPI2_61:
	.xword	0x3ff5f7f4fa03b8fd
.Lwords_CPI2_62:
	.xword	0xbf9f10fac7b9e0fd
.Lwords_CPI2_63:
	.xword	0x3fc98116c604a5ac
.Lwords_CPI2_64:
	.xword	0xbfe1da7395c50e4c
.Lwords_CPI2_65:
	.xword	0x3ff615542d494b58
.Lwords_CPI2_66:
	.xword	0xbfa09f1447099ec3
.Lwords_CPI2_67:
	.xword	0x3fcaba756c0423f4
.Lwords_CPI2_68:
	.xword	0xbfe255a6ff632f04
.Lwords_CPI2_69:
	.xword	0x3ff6337bf079ed95
.Lwords_CPI2_70:
	.xword	0xbfa1cfc087047581
.Lwords_CPI2_71:
	.xword	0x3fcc0a06c4c15e4e
.Lwords_CPI2_72:
	.xword	0xbfe2d6f680371f14
.Lwords_CPI2_73:
	.xword	0x3ff652761ac144d6
.Lwords_CPI2_74:
	.xword	0xbfa31d97c0c539a3
.Lwords_CPI2_75:
	.xword	0x3fcd71e4edd8a92e
.Lwords_CPI2_76:
	.xword	0xbfe35ed4a9ba21f2
.Lwords_CPI2_77:
	.xword	0x3ff6724d39d4ef3d
.Lwords_CPI2_78:
	.xword	0xbfa48c214730858e
.Lwords_CPI2_79:
	.xword	0x3fcef46a65c0d8ac
.Lwords_CPI2_80:
	.xword	0xbfe3edbf47a9bdea
.Lwords_CPI2_81:
	.xword	0x3ff6930ca3a5fbdb
.Lwords_CPI2_82:
	.xword	0xbfa61f699420162c
.Lwords_CPI2_83:
	.xword	0x3fd04a1db6ddbdce
.Lwords_CPI2_84:
	.xword	0xbfe48440c4354b61
.Lwords_CPI2_85:
	.xword	0x3ff6b4c08a3d7463
.Lwords_CPI2_86:
	.xword	0xbfa7dc1999064aaa
.Lwords_CPI2_87:
	.xword	0x3fd12a2885c2d55c
.Lwords_CPI2_88:
	.xword	0xbfe522f1c1fc9caa
.Lwords_CPI2_89:
	.xword	0x3ff6d7761216e589
.Lwords_CPI2_90:
	.xword	0xbfa9c792d22551ea
.Lwords_CPI2_91:
	.xword	0x3fd21c02ff5670aa
.Lwords_CPI2_92:
	.xword	0xbfe5ca7af58a6166
.Lwords_CPI2_93:
	.xword	0x3ff6fb3b6b5a8c6c
.Lwords_CPI2_94:
	.xword	0xbfabe8113a584e1d
.Lwords_CPI2_95:
	.xword	0x3fd32193086fb443
.Lwords_CPI2_96:
	.xword	0xbfe67b9749fb94b2
.Lwords_CPI2_97:
	.xword	0x3ff7201fee6a962f
.Lwords_CPI2_98:
	.xword	0xbfae44d489bade19
.Lwords_CPI2_99:
	.xword	0x3fd43d0020924148
.Lwords_CPI2_100:
	.xword	0xbfe737165f09042f
.Lwords_CPI2_101:
	.xword	0x3ff746343c4c6c38
.Lwords_CPI2_102:
	.xword	0xbfb07329465d1743
.Lwords_CPI2_103:
	.xword	0x3fd570be3491b6b7
.Lwords_CPI2_104:
	.xword	0xbfe7fddf71cb1ffa
.Lwords_CPI2_105:
	.xword	0x3ff76d8a639148f5
.Lwords_CPI2_106:
	.xword	0xbfb1eb3a718070d4
.Lwords_CPI2_107:
	.xword	0x3fd6bf9a91c44d0c
.Lwords_CPI2_108:
	.xword	0xbfe8d0f4c57fb846
.Lwords_CPI2_109:
	.xword	0x3ff796360a817401
.Lwords_CPI2_110:
	.xword	0xbfb39072906b220e
.Lwords_CPI2_111:
	.xword	0x3fd82ccb76f32def
.Lwords_CPI2_112:
	.xword	0xbfe9b177a6904feb
.Lwords_CPI2_113:
	.xword	0x3ff7c04c9f750ec5
.Lwords_CPI2_114:
	.xword	0xbfb569b5984f8e41
.Lwords_CPI2_115:
	.xword	0x3fd9bc02e1674462
.Lwords_CPI2_116:
	.xword	0xbfeaa0ad2864dd46
.Lwords_CPI2_117:
	.xword	0x3ff7ebe590764371
.Lwords_CPI2_118:
	.xword	0xbfb77f3180d8ed5f
.Lwords_CPI2_119:
	.xword	0x3fdb71855faad984
.Lwords_CPI2_120:
	.xword	0xbfeba003c69b59ab
.Lwords_CPI2_121:
	.xword	0x3ff8191a8b857f7c
.Lwords_CPI2_122:
	.xword	0xbfb9daa8153fb04b
.Lwords_CPI2_123:
	.xword	0x3fdd5245ec4a3182
.Lwords_CPI2_124:
	.xword	0xbfecb11a1c961214
.Lwords_CPI2_125:
	.xword	0x3ff84807c924869d
.Lwords_CPI2_126:
	.xword	0xbfbc87cc279b3083
.Lwords_CPI2_127:
	.xword	0x3fdf64081dc7d151
	.section	.text.loamchalice_root,"ax",@progbits
	.globl	loamchalice_root
	.p2align	2
	.type	loamchalice_root,@function
loamchalice_root:
	fmov	s1, s0
	mov	w8, #2143289344
	fcmp	s1, s1
	b.vs	.Lwords_BB2_51
	fmov	w9, s0
	ands	w10, w9, #0x7fffffff
	b.eq	.Lwords_BB2_5
	lsr	w11, w9, #23
	cmp	w11, #254
	b.hi	.Lwords_BB2_6
	cbnz	w11, .Lwords_BB2_7
	clz	w10, w9
	sub	w11, w10, #8
	lsl	w9, w9, w11
	sub	w9, w9, w10, lsl #23
	mov	w10, #1115684864
	b	.Lwords_BB2_8
.Lwords_BB2_5:
	movi	d0, #0000000000000000
	fmov	s1, s0
	fmov	w9, s0
	fcmp	s1, s1
	csel	w0, w8, w9, vs
	ret
.Lwords_BB2_6:
	mov	w9, #2139095040
	mov	w11, #2143289344
	fmov	s0, w11
	fmov	s1, w9
	cmp	w10, w9
	fcsel	s0, s1, s0, eq
	fmov	s1, s0
	fmov	w9, s0
	fcmp	s1, s1
	csel	w0, w8, w9, vs
	ret
.Lwords_BB2_7:
	mov	w10, #1048576000
.Lwords_BB2_8:
	add	w9, w9, w10
	ubfiz	x10, x9, #29, #32
	orr	x11, x10, #0x3ff0000000000000
	ubfx	w10, w9, #18, #5
	fmov	d0, x11
	adrp	x11, .Lwords_JTI2_0
	add	x11, x11, :lo12:.Lwords_JTI2_0
	adr	x12, .Lwords_BB2_9
	ldrh	w13, [x11, x10, lsl #1]
	add	x12, x12, x13, lsl #2
	br	x12
.Lwords_BB2_9:
	adrp	x10, .Lwords_CPI2_124
	adrp	x11, .Lwords_CPI2_127
	ldr	d1, [x10, :lo12:.Lwords_CPI2_124]
	adrp	x10, .Lwords_CPI2_125
	ldr	d3, [x11, :lo12:.Lwords_CPI2_127]
	ldr	d2, [x10, :lo12:.Lwords_CPI2_125]
	adrp	x10, .Lwords_CPI2_126
	fmul	d1, d0, d1
	fadd	d1, d1, d2
	ldr	d2, [x10, :lo12:.Lwords_CPI2_126]
	b	.Lwords_BB2_41
.Lwords_BB2_10:
	adrp	x10, .Lwords_CPI2_16
	adrp	x11, .Lwords_CPI2_19
	ldr	d1, [x10, :lo12:.Lwords_CPI2_16]
	adrp	x10, .Lwords_CPI2_17
	ldr	d3, [x11, :lo12:.Lwords_CPI2_19]
	ldr	d2, [x10, :lo12:.Lwords_CPI2_17]
	adrp	x10, .Lwords_CPI2_18
	fmul	d1, d0, d1
	fadd	d1, d1, d2
	ldr	d2, [x10, :lo12:.Lwords_CPI2_18]
	b	.Lwords_BB2_41
.Lwords_BB2_11:
	adrp	x10, .Lwords_CPI2_60
	adrp	x11, .Lwords_CPI2_63
	ldr	d1, [x10, :lo12:.Lwords_CPI2_60]
	adrp	x10, .Lwords_CPI2_61
	ldr	d3, [x11, :lo12:.Lwords_CPI2_63]
	ldr	d2, [x10, :lo12:.Lwords_CPI2_61]
	adrp	x10, .Lwords_CPI2_62
	fmul	d1, d0, d1
	fadd	d1, d1, d2
	ldr	d2, [x10, :lo12:.Lwords_CPI2_62]
	b	.Lwords_BB2_41
.Lwords_BB2_12:
	adrp	x10, .Lwords_CPI2_68
	adrp	x11, .Lwords_CPI2_71
	ldr	d1, [x10, :lo12:.Lwords_CPI2_68]
	adrp	x10, .Lwords_CPI2_69
	ldr	d3, [x11, :lo12:.Lwords_CPI2_71]
	ldr	d2, [x10, :lo12:.Lwords_CPI2_69]
	adrp	x10, .Lwords_CPI2_70
	fmul	d1, d0, d1
	fadd	d1, d1, d2
	ldr	d2, [x10, :lo12:.Lwords_CPI2_70]
	b	.Lwords_BB2_41
.Lwords_BB2_13:
	adrp	x10, .Lwords_CPI2_80
	adrp	x11, .Lwords_CPI2_83
	ldr	d1, [x10, :lo12:.Lwords_CPI2_80]
	adrp	x10, .Lwords_CPI2_81
	ldr	d3, [x11, :lo12:.Lwords_CPI2_83]
	ldr	d2, [x10, :lo12:.Lwords_CPI2_81]
	adrp	x10, .Lwords_CPI2_82
	fmul	d1, d0, d1
	fadd	d1, d1, d2
	ldr	d2, [x10, :lo12:.Lwords_CPI2_82]
	b	.Lwords_BB2_41
.Lwords_BB2_14:
	adrp	x10, .Lwords_CPI2_108
	adrp	x11, .Lwords_CPI2_111
	ldr	d1, [x10, :lo12:.Lwords_CPI2_108]
	adrp	x10, .Lwords_CPI2_109
	ldr	d3, [x11, :lo12:.Lwords_CPI2_111]
	ldr	d2, [x10, :lo12:.Lwords_CPI2_109]
	adrp	x10, .Lwords_CPI2_110
	fmul	d1, d0, d1
	fadd	d1, d1, d2
	ldr	d2, [x10, :lo12:.Lwords_CPI2_110]
	b	.Lwords_BB2_41
.Lwords_BB2_15:
	adrp	x10, .Lwords_CPI2_76
	adrp	x11, .Lwords_CPI2_79
	ldr	d1, [x10, :lo12:.Lwords_CPI2_76]
	adrp	x10, .Lwords_CPI2_77
	ldr	d3, [x11, :lo12:.Lwords_CPI2_79]
	ldr	d2, [x10, :lo12:.Lwords_CPI2_77]
	adrp	x10, .Lwords_CPI2_78
	fmul	d1, d0, d1
	fadd	d1, d1, d2
	ldr	d2, [x10, :lo12:.Lwords_CPI2_78]
	b	.Lwords_BB2_41
.Lwords_BB2_16:
	adrp	x10, .Lwords_CPI2_88
	adrp	x11, .Lwords_CPI2_91
	ldr	d1, [x10, :lo12:.Lwords_CPI2_88]
	adrp	x10, .Lwords_CPI2_89
	ldr	d3, [x11, :lo12:.Lwords_CPI2_91]
	ldr	d2, [x10, :lo12:.Lwords_CPI2_89]
	adrp	x10, .Lwords_CPI2_90
	fmul	d1, d0, d1
	fadd	d1, d1, d2
	ldr	d2, [x10, :lo12:.Lwords_CPI2_90]
	b	.Lwords_BB2_41
.Lwords_BB2_17:
	adrp	x10, .Lwords_CPI2_24
	adrp	x11, .Lwords_CPI2_27
	ldr	d1, [x10, :lo12:.Lwords_CPI2_24]
	adrp	x10, .Lwords_CPI2_25
	ldr	d3, [x11, :lo12:.Lwords_CPI2_27]
	ldr	d2, [x10, :lo12:.Lwords_CPI2_25]
	adrp	x10, .Lwords_CPI2_26
	fmul	d1, d0, d1
	fadd	d1, d1, d2
	ldr	d2, [x10, :lo12:.Lwords_CPI2_26]
	b	.Lwords_BB2_41
.Lwords_BB2_18:
	adrp	x10, .Lwords_CPI2_28
	adrp	x11, .Lwords_CPI2_31
	ldr	d1, [x10, :lo12:.Lwords_CPI2_28]
	adrp	x10, .Lwords_CPI2_29
	ldr	d3, [x11, :lo12:.Lwords_CPI2_31]
	ldr	d2, [x10, :lo12:.Lwords_CPI2_29]
	adrp	x10, .Lwords_CPI2_30
	fmul	d1, d0, d1
	fadd	d1, d1, d2
	ldr	d2, [x10, :lo12:.Lwords_CPI2_30]
	b	.Lwords_BB2_41
.Lwords_BB2_19:
	adrp	x10, .Lwords_CPI2_116
	adrp	x11, .Lwords_CPI2_119
	ldr	d1, [x10, :lo12:.Lwords_CPI2_116]
	adrp	x10, .Lwords_CPI2_117
	ldr	d3, [x11, :lo12:.Lwords_CPI2_119]
	ldr	d2, [x10, :lo12:.Lwords_CPI2_117]
	adrp	x10, .Lwords_CPI2_118
	fmul	d1, d0, d1
	fadd	d1, d1, d2
	ldr	d2, [x10, :lo12:.Lwords_CPI2_118]
	b	.Lwords_BB2_41
.Lwords_BB2_20:
	adrp	x10, .Lwords_CPI2_64
	adrp	x11, .Lwords_CPI2_67
	ldr	d1, [x10, :lo12:.Lwords_CPI2_64]
	adrp	x10, .Lwords_CPI2_65
	ldr	d3, [x11, :lo12:.Lwords_CPI2_67]
	ldr	d2, [x10, :lo12:.Lwords_CPI2_65]
	adrp	x10, .Lwords_CPI2_66
	fmul	d1, d0, d1
	fadd	d1, d1, d2
	ldr	d2, [x10, :lo12:.Lwords_CPI2_66]
	b	.Lwords_BB2_41
.Lwords_BB2_21:
	adrp	x10, .Lwords_CPI2_112
	adrp	x11, .Lwords_CPI2_115
	ldr	d1, [x10, :lo12:.Lwords_CPI2_112]
	adrp	x10, .Lwords_CPI2_113
	ldr	d3, [x11, :lo12:.Lwords_CPI2_115]
	ldr	d2, [x10, :lo12:.Lwords_CPI2_113]
	adrp	x10, .Lwords_CPI2_114
	fmul	d1, d0, d1
	fadd	d1, d1, d2
	ldr	d2, [x10, :lo12:.Lwords_CPI2_114]
	b	.Lwords_BB2_41
.Lwords_BB2_22:
	adrp	x10, .Lwords_CPI2_96
	adrp	x11, .Lwords_CPI2_99
	ldr	d1, [x10, :lo12:.Lwords_CPI2_96]
	adrp	x10, .Lwords_CPI2_97
	ldr	d3, [x11, :lo12:.Lwords_CPI2_99]
	ldr	d2, [x10, :lo12:.Lwords_CPI2_97]
	adrp	x10, .Lwords_CPI2_98
	fmul	d1, d0, d1
	fadd	d1, d1, d2
	ldr	d2, [x10, :lo12:.Lwords_CPI2_98]
	b	.Lwords_BB2_41
.Lwords_BB2_23:
	adrp	x10, .Lwords_CPI2_120
	adrp	x11, .Lwords_CPI2_123
	ldr	d1, [x10, :lo12:.Lwords_CPI2_120]
	adrp	x10, .Lwords_CPI2_121
	ldr	d3, [x11, :lo12:.Lwords_CPI2_123]
	ldr	d2, [x10, :lo12:.Lwords_CPI2_121]
	adrp	x10, .Lwords_CPI2_122
	fmul	d1, d0, d1
	fadd	d1, d1, d2
	ldr	d2, [x10, :lo12:.Lwords_CPI2_122]
	b	.Lwords_BB2_41
.Lwords_BB2_24:
	adrp	x10, .Lwords_CPI2_0
	adrp	x11, .Lwords_CPI2_3
	ldr	d1, [x10, :lo12:.Lwords_CPI2_0]
	adrp	x10, .Lwords_CPI2_1
	ldr	d3, [x11, :lo12:.Lwords_CPI2_3]
	ldr	d2, [x10, :lo12:.Lwords_CPI2_1]
	adrp	x10, .Lwords_CPI2_2
	fmul	d1, d0, d1
	fadd	d1, d1, d2
	ldr	d2, [x10, :lo12:.Lwords_CPI2_2]
	b	.Lwords_BB2_41
.Lwords_BB2_25:
	adrp	x10, .Lwords_CPI2_56
	adrp	x11, .Lwords_CPI2_59
	ldr	d1, [x10, :lo12:.Lwords_CPI2_56]
	adrp	x10, .Lwords_CPI2_57
	ldr	d3, [x11, :lo12:.Lwords_CPI2_59]
	ldr	d2, [x10, :lo12:.Lwords_CPI2_57]
	adrp	x10, .Lwords_CPI2_58
	fmul	d1, d0, d1
	fadd	d1, d1, d2
	ldr	d2, [x10, :lo12:.Lwords_CPI2_58]
	b	.Lwords_BB2_41
.Lwords_BB2_26:
	adrp	x10, .Lwords_CPI2_44
	adrp	x11, .Lwords_CPI2_47
	ldr	d1, [x10, :lo12:.Lwords_CPI2_44]
	adrp	x10, .Lwords_CPI2_45
	ldr	d3, [x11, :lo12:.Lwords_CPI2_47]
	ldr	d2, [x10, :lo12:.Lwords_CPI2_45]
	adrp	x10, .Lwords_CPI2_46
	fmul	d1, d0, d1
	fadd	d1, d1, d2
	ldr	d2, [x10, :lo12:.Lwords_CPI2_46]
	b	.Lwords_BB2_41
.Lwords_BB2_27:
	adrp	x10, .Lwords_CPI2_104
	adrp	x11, .Lwords_CPI2_107
	ldr	d1, [x10, :lo12:.Lwords_CPI2_104]
	adrp	x10, .Lwords_CPI2_105
	ldr	d3, [x11, :lo12:.Lwords_CPI2_107]
	ldr	d2, [x10, :lo12:.Lwords_CPI2_105]
	adrp	x10, .Lwords_CPI2_106
	fmul	d1, d0, d1
	fadd	d1, d1, d2
	ldr	d2, [x10, :lo12:.Lwords_CPI2_106]
	b	.Lwords_BB2_41
.Lwords_BB2_28:
	adrp	x10, .Lwords_CPI2_40
	adrp	x11, .Lwords_CPI2_43
	ldr	d1, [x10, :lo12:.Lwords_CPI2_40]
	adrp	x10, .Lwords_CPI2_41
	ldr	d3, [x11, :lo12:.Lwords_CPI2_43]
	ldr	d2, [x10, :lo12:.Lwords_CPI2_41]
	adrp	x10, .Lwords_CPI2_42
	fmul	d1, d0, d1
	fadd	d1, d1, d2
	ldr	d2, [x10, :lo12:.Lwords_CPI2_42]
	b	.Lwords_BB2_41
.Lwords_BB2_29:
	adrp	x10, .Lwords_CPI2_72
	adrp	x11, .Lwords_CPI2_75
	ldr	d1, [x10, :lo12:.Lwords_CPI2_72]
	adrp	x10, .Lwords_CPI2_73
	ldr	d3, [x11, :lo12:.Lwords_CPI2_75]
	ldr	d2, [x10, :lo12:.Lwords_CPI2_73]
	adrp	x10, .Lwords_CPI2_74
	fmul	d1, d0, d1
	fadd	d1, d1, d2
	ldr	d2, [x10, :lo12:.Lwords_CPI2_74]
	b	.Lwords_BB2_41
.Lwords_BB2_30:
	adrp	x10, .Lwords_CPI2_100
	adrp	x11, .Lwords_CPI2_103
	ldr	d1, [x10, :lo12:.Lwords_CPI2_100]
	adrp	x10, .Lwords_CPI2_101
	ldr	d3, [x11, :lo12:.Lwords_CPI2_103]
	ldr	d2, [x10, :lo12:.Lwords_CPI2_101]
	adrp	x10, .Lwords_CPI2_102
	fmul	d1, d0, d1
	fadd	d1, d1, d2
	ldr	d2, [x10, :lo12:.Lwords_CPI2_102]
	b	.Lwords_BB2_41
.Lwords_BB2_31:
	adrp	x10, .Lwords_CPI2_52
	adrp	x11, .Lwords_CPI2_55
	ldr	d1, [x10, :lo12:.Lwords_CPI2_52]
	adrp	x10, .Lwords_CPI2_53
	ldr	d3, [x11, :lo12:.Lwords_CPI2_55]
	ldr	d2, [x10, :lo12:.Lwords_CPI2_53]
	adrp	x10, .Lwords_CPI2_54
	fmul	d1, d0, d1
	fadd	d1, d1, d2
	ldr	d2, [x10, :lo12:.Lwords_CPI2_54]
	b	.Lwords_BB2_41
.Lwords_BB2_32:
	adrp	x10, .Lwords_CPI2_84
	adrp	x11, .Lwords_CPI2_87
	ldr	d1, [x10, :lo12:.Lwords_CPI2_84]
	adrp	x10, .Lwords_CPI2_85
	ldr	d3, [x11, :lo12:.Lwords_CPI2_87]
	ldr	d2, [x10, :lo12:.Lwords_CPI2_85]
	adrp	x10, .Lwords_CPI2_86
	fmul	d1, d0, d1
	fadd	d1, d1, d2
	ldr	d2, [x10, :lo12:.Lwords_CPI2_86]
	b	.Lwords_BB2_41
.Lwords_BB2_33:
	adrp	x10, .Lwords_CPI2_92
	adrp	x11, .Lwords_CPI2_95
	ldr	d1, [x10, :lo12:.Lwords_CPI2_92]
	adrp	x10, .Lwords_CPI2_93
	ldr	d3, [x11, :lo12:.Lwords_CPI2_95]
	ldr	d2, [x10, :lo12:.Lwords_CPI2_93]
	adrp	x10, .Lwords_CPI2_94
	fmul	d1, d0, d1
	fadd	d1, d1, d2
	ldr	d2, [x10, :lo12:.Lwords_CPI2_94]
	b	.Lwords_BB2_41
.Lwords_BB2_34:
	adrp	x10, .Lwords_CPI2_4
	adrp	x11, .Lwords_CPI2_7
	ldr	d1, [x10, :lo12:.Lwords_CPI2_4]
	adrp	x10, .Lwords_CPI2_5
	ldr	d3, [x11, :lo12:.Lwords_CPI2_7]
	ldr	d2, [x10, :lo12:.Lwords_CPI2_5]
	adrp	x10, .Lwords_CPI2_6
	fmul	d1, d0, d1
	fadd	d1, d1, d2
	ldr	d2, [x10, :lo12:.Lwords_CPI2_6]
	b	.Lwords_BB2_41
.Lwords_BB2_35:
	adrp	x10, .Lwords_CPI2_36
	adrp	x11, .Lwords_CPI2_39
	ldr	d1, [x10, :lo12:.Lwords_CPI2_36]
	adrp	x10, .Lwords_CPI2_37
	ldr	d3, [x11, :lo12:.Lwords_CPI2_39]
	ldr	d2, [x10, :lo12:.Lwords_CPI2_37]
	adrp	x10, .Lwords_CPI2_38
	fmul	d1, d0, d1
	fadd	d1, d1, d2
	ldr	d2, [x10, :lo12:.Lwords_CPI2_38]
	b	.Lwords_BB2_41
.Lwords_BB2_36:
	adrp	x10, .Lwords_CPI2_48
	adrp	x11, .Lwords_CPI2_51
	ldr	d1, [x10, :lo12:.Lwords_CPI2_48]
	adrp	x10, .Lwords_CPI2_49
	ldr	d3, [x11, :lo12:.Lwords_CPI2_51]
	ldr	d2, [x10, :lo12:.Lwords_CPI2_49]
	adrp	x10, .Lwords_CPI2_50
	fmul	d1, d0, d1
	fadd	d1, d1, d2
	ldr	d2, [x10, :lo12:.Lwords_CPI2_50]
	b	.Lwords_BB2_41
.Lwords_BB2_37:
	adrp	x10, .Lwords_CPI2_32
	adrp	x11, .Lwords_CPI2_35
	ldr	d1, [x10, :lo12:.Lwords_CPI2_32]
	adrp	x10, .Lwords_CPI2_33
	ldr	d3, [x11, :lo12:.Lwords_CPI2_35]
	ldr	d2, [x10, :lo12:.Lwords_CPI2_33]
	adrp	x10, .Lwords_CPI2_34
	fmul	d1, d0, d1
	fadd	d1, d1, d2
	ldr	d2, [x10, :lo12:.Lwords_CPI2_34]
	b	.Lwords_BB2_41
.Lwords_BB2_38:
	adrp	x10, .Lwords_CPI2_12
	adrp	x11, .Lwords_CPI2_15
	ldr	d1, [x10, :lo12:.Lwords_CPI2_12]
	adrp	x10, .Lwords_CPI2_13
	ldr	d3, [x11, :lo12:.Lwords_CPI2_15]
	ldr	d2, [x10, :lo12:.Lwords_CPI2_13]
	adrp	x10, .Lwords_CPI2_14
	fmul	d1, d0, d1
	fadd	d1, d1, d2
	ldr	d2, [x10, :lo12:.Lwords_CPI2_14]
	b	.Lwords_BB2_41
.Lwords_BB2_39:
	adrp	x10, .Lwords_CPI2_8
	adrp	x11, .Lwords_CPI2_11
	ldr	d1, [x10, :lo12:.Lwords_CPI2_8]
	adrp	x10, .Lwords_CPI2_9
	ldr	d3, [x11, :lo12:.Lwords_CPI2_11]
	ldr	d2, [x10, :lo12:.Lwords_CPI2_9]
	adrp	x10, .Lwords_CPI2_10
	fmul	d1, d0, d1
	fadd	d1, d1, d2
	ldr	d2, [x10, :lo12:.Lwords_CPI2_10]
	b	.Lwords_BB2_41
.Lwords_BB2_40:
	adrp	x10, .Lwords_CPI2_20
	adrp	x11, .Lwords_CPI2_23
	ldr	d1, [x10, :lo12:.Lwords_CPI2_20]
	adrp	x10, .Lwords_CPI2_21
	ldr	d3, [x11, :lo12:.Lwords_CPI2_23]
	ldr	d2, [x10, :lo12:.Lwords_CPI2_21]
	adrp	x10, .Lwords_CPI2_22
	fmul	d1, d0, d1
	fadd	d1, d1, d2
	ldr	d2, [x10, :lo12:.Lwords_CPI2_22]
.Lwords_BB2_41:
	fmul	d2, d2, d0
	fmul	d4, d0, d0
	ubfx	w10, w9, #23, #2
	adrp	x11, .Lwords_switch.table.loamchalice_root
	add	x11, x11, :lo12:.Lwords_switch.table.loamchalice_root
	fadd	d2, d3, d2
	ldr	d3, [x11, w10, uxtw #3]
	mov	x11, #4841369599423283200
	fmul	d0, d3, d0
	fmov	d3, x11
	mov	x11, #-4382002437431492608
	fmul	d2, d4, d2
	fmov	d4, x11
	adrp	x11, .Lwords_switch.table.loamchalice_root.1
	add	x11, x11, :lo12:.Lwords_switch.table.loamchalice_root.1
	ldr	d5, [x11, w10, uxtw #3]
	fadd	d1, d1, d2
	fmul	d0, d1, d0
	fmul	d2, d1, d0
	fmul	d1, d1, d5
	fadd	d0, d2, d3
	fadd	d4, d0, d4
	fadd	d2, d2, d4
	fmul	d1, d2, d1
	fadd	d1, d1, d3
	fmov	d2, d1
	fcmp	d2, d2
	b.vs	.Lwords_BB2_52
	fmov	x10, d0
	fmov	x12, d1
	mov	w11, w10
	mov	w10, w12
.Lwords_BB2_43:
	and	w12, w9, #0x7fffff
	and	w13, w9, #0x800000
	umaddl	x14, w11, w11, x11
	orr	w12, w12, #0x800000
	add	w13, w13, #2048, lsl #12
	umsubl	x14, w12, w13, x14
	cmp	x14, x11, lsl #1
	b.lo	.Lwords_BB2_47
	umull	x12, w12, w13
.Lwords_BB2_45:
	mov	x13, x11
	add	x11, x11, #1
	mul	x13, x11, x13
	cmp	x13, x12
	b.lo	.Lwords_BB2_45
.Lwords_BB2_46:
	sub	x11, x11, #1
	mul	x13, x11, x11
	add	x14, x12, x11
	cmp	x14, x13
	b.ls	.Lwords_BB2_46
.Lwords_BB2_47:
	lsr	w12, w9, #1
	and	w12, w12, #0x800000
	add	w12, w12, #2048, lsl #12
	mul	x11, x11, x12
	umaddl	x12, w10, w10, x10
	sub	x12, x12, x11
	cmp	x12, x10, lsl #1
	b.lo	.Lwords_BB2_50
.Lwords_BB2_48:
	mov	x12, x10
	add	x10, x10, #1
	mul	x12, x10, x12
	cmp	x12, x11
	b.lo	.Lwords_BB2_48
.Lwords_BB2_49:
	sub	x10, x10, #1
	mul	x12, x10, x10
	add	x13, x11, x10
	cmp	x13, x12
	b.ls	.Lwords_BB2_49
.Lwords_BB2_50:
	lsr	w9, w9, #25
	add	w9, w10, w9, lsl #23
	mov	w10, #528482304
	add	w9, w9, w10
	fmov	s0, w9
	fmov	s1, s0
	fmov	w9, s0
	fcmp	s1, s1
	csel	w0, w8, w9, vs
	ret
.Lwords_BB2_51:
	fmov	s0, w8
	fmov	s1, s0
	fmov	w9, s0
	fcmp	s1, s1
	csel	w0, w8, w9, vs
	ret
.Lwords_BB2_52:
	mov	w10, #8388608
	mov	w11, #8388608
	bfxil	w11, w9, #1, #22
	bfxil	w10, w9, #2, #21
	b	.Lwords_BB2_43
.Lwords_func_end2:
	.size	loamchalice_root, .Lwords_func_end2-loamchalice_root
	.section	.rodata.loamchalice_root,"a",@progbits
	.p2align	1, 0x0
.Lwords_JTI2_0:
	.hword	(.Lwords_BB2_9-.Lwords_BB2_9)>>2
	.hword	(.Lwords_BB2_23-.Lwords_BB2_9)>>2
	.hword	(.Lwords_BB2_19-.Lwords_BB2_9)>>2
	.hword	(.Lwords_BB2_21-.Lwords_BB2_9)>>2
	.hword	(.Lwords_BB2_14-.Lwords_BB2_9)>>2
	.hword	(.Lwords_BB2_27-.Lwords_BB2_9)>>2
	.hword	(.Lwords_BB2_30-.Lwords_BB2_9)>>2
	.hword	(.Lwords_BB2_22-.Lwords_BB2_9)>>2
	.hword	(.Lwords_BB2_33-.Lwords_BB2_9)>>2
	.hword	(.Lwords_BB2_16-.Lwords_BB2_9)>>2
	.hword	(.Lwords_BB2_32-.Lwords_BB2_9)>>2
	.hword	(.Lwords_BB2_13-.Lwords_BB2_9)>>2
	.hword	(.Lwords_BB2_15-.Lwords_BB2_9)>>2
	.hword	(.Lwords_BB2_29-.Lwords_BB2_9)>>2
	.hword	(.Lwords_BB2_12-.Lwords_BB2_9)>>2
	.hword	(.Lwords_BB2_20-.Lwords_BB2_9)>>2
	.hword	(.Lwords_BB2_11-.Lwords_BB2_9)>>2
	.hword	(.Lwords_BB2_25-.Lwords_BB2_9)>>2
	.hword	(.Lwords_BB2_31-.Lwords_BB2_9)>>2
	.hword	(.Lwords_BB2_36-.Lwords_BB2_9)>>2
	.hword	(.Lwords_BB2_26-.Lwords_BB2_9)>>2
	.hword	(.Lwords_BB2_28-.Lwords_BB2_9)>>2
	.hword	(.Lwords_BB2_35-.Lwords_BB2_9)>>2
	.hword	(.Lwords_BB2_37-.Lwords_BB2_9)>>2
	.hword	(.Lwords_BB2_18-.Lwords_BB2_9)>>2
	.hword	(.Lwords_BB2_17-.Lwords_BB2_9)>>2
	.hword	(.Lwords_BB2_40-.Lwords_BB2_9)>>2
	.hword	(.Lwords_BB2_10-.Lwords_BB2_9)>>2
	.hword	(.Lwords_BB2_38-.Lwords_BB2_9)>>2
	.hword	(.Lwords_BB2_39-.Lwords_BB2_9)>>2
	.hword	(.Lwords_BB2_34-.Lwords_BB2_9)>>2
	.hword	(.Lwords_BB2_24-.Lwords_BB2_9)>>2

	.type	.Lwords_switch.table.loamchalice_root,@object
	.section	.rodata.cst32,"aM",@progbits,32
	.p2align	3, 0x0
.Lwords_switch.table.loamchalice_root:
	.xword	0x4160000000000000
	.xword	0x4166a09e667f3bcd
	.xword	0x4160000000000000
	.xword	0x4166a09e667f3bcd
	.size	.Lwords_switch.table.loamchalice_root, 32

	.type	.Lwords_switch.table.loamchalice_root.1,@object
	.p2align	3, 0x0
.Lwords_switch.table.loamchalice_root.1:
	.xword	0x3fe0000000000000
	.xword	0x3fdae89f995ad3ad
	.xword	0x3fe6a09e667f3bcd
	.xword	0x3fe306fe0a31b715
	.size	.Lwords_switch.table.loamchalice_root.1, 32

// cards
	.section	.text.cards.card.decode,"ax",@progbits
	.p2align	2
	.type	loamchalice.cards.card.decode,@function
loamchalice.cards.card.decode:
	sub	sp, sp, #288
	mov	x11, #72340172838076673
	mov	x8, xzr
	mov	x9, xzr
	and	x11, x11, #0xffffffffff
	add	x12, x1, #32
	add	x13, x2, #32
	add	x14, x1, #1
	mov	w10, #832
	stp	d15, d14, [sp, #144]
	stp	d13, d12, [sp, #160]
	stp	d11, d10, [sp, #176]
	stp	d9, d8, [sp, #192]
	str	x30, [sp, #208]
	stp	x26, x25, [sp, #224]
	stp	x24, x23, [sp, #240]
	stp	x22, x21, [sp, #256]
	stp	x20, x19, [sp, #272]
.Lcards_BB0_1:
	cmp	x9, #24
	b.lo	.Lcards_BB0_26
	and	x15, x9, #0x7
	cbnz	x15, .Lcards_BB0_26
	mov	x16, #-3689348814741910324
	sub	x15, x9, #32
	movk	x16, #52429
	mul	x15, x15, x16
	mov	x16, #-7378697629483820647
	movk	x16, #409, lsl #48
	ror	x15, x15, #5
	cmp	x15, x16
	lsl	x15, x9, #1
	b.hi	.Lcards_BB0_5
	add	x16, x1, x9, lsl #1
	movi	v7.16b, #240
	movi	v22.16b, #142
	movi	v18.16b, #39
	add	x17, x16, #288
	add	x18, x16, #256
	ld2	{ v0.16b, v1.16b }, [x17]
	add	x17, sp, #112
	st1	{ v0.2d, v1.2d }, [x17]
	ld2	{ v0.16b, v1.16b }, [x18]
	add	x17, x16, #224
	add	x18, sp, #80
	st1	{ v0.2d, v1.2d }, [x18]
	ld2	{ v0.16b, v1.16b }, [x17]
	add	x17, sp, #48
	add	x18, x16, #192
	ld2	{ v19.16b, v20.16b }, [x18]
	add	x18, x16, #128
	ld2	{ v26.16b, v27.16b }, [x18]
	st1	{ v0.2d, v1.2d }, [x17]
	add	x17, x16, #160
	movi	v0.16b, #71
	ld2	{ v23.16b, v24.16b }, [x17]
	add	x17, x16, #96
	movi	v1.16b, #109
	ld2	{ v28.16b, v29.16b }, [x17]
	add	x17, x16, #64
	ld2	{ v30.16b, v31.16b }, [x17]
	ld2	{ v10.16b, v11.16b }, [x16], #32
	ld2	{ v8.16b, v9.16b }, [x16]
	add	x16, sp, #48
	and	v4.16b, v11.16b, v7.16b
	and	v16.16b, v10.16b, v0.16b
	eor	v21.16b, v11.16b, v10.16b
	and	v12.16b, v9.16b, v7.16b
	and	v13.16b, v8.16b, v0.16b
	and	v14.16b, v11.16b, v22.16b
	and	v15.16b, v9.16b, v22.16b
	and	v5.16b, v8.16b, v18.16b
	and	v2.16b, v11.16b, v1.16b
	eor	v4.16b, v4.16b, v16.16b
	cnt	v25.16b, v21.16b
	movi	v21.16b, #22
	eor	v17.16b, v12.16b, v13.16b
	movi	v16.16b, #91
	and	v3.16b, v9.16b, v1.16b
	cnt	v6.16b, v4.16b
	and	v4.16b, v10.16b, v18.16b
	and	v0.16b, v10.16b, v21.16b
	and	v1.16b, v8.16b, v21.16b
	eor	v13.16b, v14.16b, v4.16b
	eor	v4.16b, v15.16b, v5.16b
	and	v14.16b, v11.16b, v16.16b
	eor	v12.16b, v2.16b, v0.16b
	orr	v0.16b, v6.16b, v25.16b
	and	v6.16b, v31.16b, v22.16b
	eor	v15.16b, v3.16b, v1.16b
	and	v16.16b, v31.16b, v7.16b
	and	v2.16b, v30.16b, v18.16b
	stp	q4, q17, [sp]
	and	v4.16b, v29.16b, v22.16b
	movi	v22.16b, #109
	str	q0, [sp, #32]
	movi	v0.16b, #71
	and	v17.16b, v29.16b, v7.16b
	movi	v25.16b, #13
	eor	v2.16b, v6.16b, v2.16b
	and	v3.16b, v28.16b, v18.16b
	eor	v6.16b, v9.16b, v8.16b
	and	v1.16b, v31.16b, v22.16b
	and	v7.16b, v30.16b, v0.16b
	and	v5.16b, v28.16b, v0.16b
	and	v0.16b, v30.16b, v21.16b
	cnt	v2.16b, v2.16b
	and	v18.16b, v10.16b, v25.16b
	and	v10.16b, v29.16b, v22.16b
	eor	v3.16b, v4.16b, v3.16b
	cnt	v4.16b, v13.16b
	and	v22.16b, v30.16b, v25.16b
	eor	v0.16b, v1.16b, v0.16b
	eor	v7.16b, v16.16b, v7.16b
	eor	v5.16b, v17.16b, v5.16b
	eor	v16.16b, v31.16b, v30.16b
	cnt	v17.16b, v12.16b
	movi	v12.16b, #91
	eor	v30.16b, v29.16b, v28.16b
	and	v11.16b, v28.16b, v21.16b
	cnt	v3.16b, v3.16b
	cnt	v0.16b, v0.16b
	cnt	v7.16b, v7.16b
	cnt	v5.16b, v5.16b
	cnt	v16.16b, v16.16b
	cnt	v6.16b, v6.16b
	movi	v13.16b, #22
	and	v21.16b, v31.16b, v12.16b
	orr	v4.16b, v4.16b, v17.16b
	eor	v17.16b, v14.16b, v18.16b
	eor	v1.16b, v10.16b, v11.16b
	ldr	q18, [sp, #32]
	cnt	v11.16b, v15.16b
	orr	v0.16b, v2.16b, v0.16b
	cnt	v2.16b, v30.16b
	movi	v30.16b, #91
	orr	v7.16b, v7.16b, v16.16b
	eor	v16.16b, v21.16b, v22.16b
	cnt	v17.16b, v17.16b
	cnt	v1.16b, v1.16b
	orr	v4.16b, v18.16b, v4.16b
	and	v21.16b, v9.16b, v12.16b
	ldp	q10, q31, [sp]
	and	v22.16b, v8.16b, v25.16b
	orr	v2.16b, v5.16b, v2.16b
	cnt	v5.16b, v16.16b
	orr	v0.16b, v7.16b, v0.16b
	orr	v4.16b, v4.16b, v17.16b
	movi	v17.16b, #71
	and	v7.16b, v28.16b, v25.16b
	orr	v1.16b, v3.16b, v1.16b
	and	v3.16b, v29.16b, v30.16b
	cnt	v31.16b, v31.16b
	cnt	v10.16b, v10.16b
	eor	v16.16b, v21.16b, v22.16b
	movi	v21.16b, #142
	orr	v0.16b, v0.16b, v5.16b
	movi	v5.16b, #240
	movi	v25.16b, #39
	orr	v1.16b, v2.16b, v1.16b
	eor	v2.16b, v3.16b, v7.16b
	and	v7.16b, v26.16b, v17.16b
	orr	v6.16b, v31.16b, v6.16b
	movi	v29.16b, #109
	movi	v31.16b, #22
	orr	v18.16b, v10.16b, v11.16b
	cnt	v16.16b, v16.16b
	and	v17.16b, v23.16b, v17.16b
	and	v3.16b, v27.16b, v5.16b
	and	v5.16b, v24.16b, v5.16b
	and	v22.16b, v26.16b, v25.16b
	and	v25.16b, v23.16b, v25.16b
	cnt	v2.16b, v2.16b
	orr	v0.16b, v0.16b, v4.16b
	orr	v6.16b, v6.16b, v18.16b
	and	v18.16b, v27.16b, v21.16b
	and	v21.16b, v24.16b, v21.16b
	eor	v3.16b, v3.16b, v7.16b
	eor	v7.16b, v27.16b, v26.16b
	and	v28.16b, v27.16b, v29.16b
	and	v29.16b, v24.16b, v29.16b
	and	v30.16b, v26.16b, v31.16b
	and	v31.16b, v23.16b, v31.16b
	eor	v5.16b, v5.16b, v17.16b
	eor	v17.16b, v18.16b, v22.16b
	eor	v18.16b, v21.16b, v25.16b
	cnt	v7.16b, v7.16b
	cnt	v3.16b, v3.16b
	eor	v21.16b, v24.16b, v23.16b
	eor	v22.16b, v28.16b, v30.16b
	eor	v25.16b, v29.16b, v31.16b
	orr	v29.16b, v6.16b, v16.16b
	movi	v6.16b, #240
	movi	v9.16b, #39
	movi	v10.16b, #109
	cnt	v21.16b, v21.16b
	cnt	v5.16b, v5.16b
	cnt	v17.16b, v17.16b
	orr	v30.16b, v3.16b, v7.16b
	movi	v7.16b, #71
	cnt	v18.16b, v18.16b
	cnt	v22.16b, v22.16b
	cnt	v25.16b, v25.16b
	movi	v14.16b, #13
	ld1	{ v11.2d, v12.2d }, [x16]
	movi	v16.16b, #142
	orr	v8.16b, v1.16b, v2.16b
	str	q0, [sp, #32]
	and	v0.16b, v20.16b, v6.16b
	movi	v28.16b, #91
	and	v1.16b, v19.16b, v7.16b
	orr	v31.16b, v5.16b, v21.16b
	and	v21.16b, v19.16b, v13.16b
	and	v6.16b, v12.16b, v6.16b
	and	v7.16b, v11.16b, v7.16b
	orr	v2.16b, v17.16b, v22.16b
	orr	v3.16b, v18.16b, v25.16b
	and	v5.16b, v26.16b, v14.16b
	and	v17.16b, v19.16b, v9.16b
	eor	v0.16b, v0.16b, v1.16b
	and	v1.16b, v20.16b, v16.16b
	and	v16.16b, v12.16b, v16.16b
	and	v18.16b, v20.16b, v10.16b
	and	v22.16b, v11.16b, v9.16b
	and	v25.16b, v12.16b, v10.16b
	and	v26.16b, v11.16b, v13.16b
	and	v4.16b, v27.16b, v28.16b
	eor	v6.16b, v6.16b, v7.16b
	eor	v27.16b, v12.16b, v11.16b
	eor	v7.16b, v20.16b, v19.16b
	eor	v1.16b, v1.16b, v17.16b
	eor	v17.16b, v18.16b, v21.16b
	eor	v16.16b, v16.16b, v22.16b
	and	v21.16b, v23.16b, v14.16b
	eor	v22.16b, v25.16b, v26.16b
	movi	v23.16b, #13
	cnt	v6.16b, v6.16b
	cnt	v25.16b, v27.16b
	and	v18.16b, v24.16b, v28.16b
	cnt	v7.16b, v7.16b
	cnt	v0.16b, v0.16b
	cnt	v1.16b, v1.16b
	cnt	v17.16b, v17.16b
	orr	v24.16b, v8.16b, v29.16b
	cnt	v16.16b, v16.16b
	cnt	v22.16b, v22.16b
	orr	v26.16b, v31.16b, v3.16b
	and	v3.16b, v19.16b, v23.16b
	add	x16, sp, #80
	movi	v8.16b, #71
	eor	v31.16b, v18.16b, v21.16b
	str	q24, [sp, #16]
	orr	v24.16b, v30.16b, v2.16b
	and	v2.16b, v20.16b, v28.16b
	orr	v20.16b, v6.16b, v25.16b
	movi	v25.16b, #240
	orr	v19.16b, v0.16b, v7.16b
	orr	v27.16b, v1.16b, v17.16b
	orr	v29.16b, v16.16b, v22.16b
	and	v1.16b, v11.16b, v23.16b
	ld1	{ v21.2d, v22.2d }, [x16]
	movi	v11.16b, #142
	movi	v0.16b, #13
	add	x16, sp, #112
	eor	v30.16b, v4.16b, v5.16b
	eor	v23.16b, v2.16b, v3.16b
	ld1	{ v14.2d, v15.2d }, [x16]
	and	v6.16b, v12.16b, v28.16b
	orr	v19.16b, v19.16b, v27.16b
	and	v3.16b, v22.16b, v25.16b
	and	v4.16b, v21.16b, v8.16b
	eor	v2.16b, v22.16b, v21.16b
	and	v5.16b, v22.16b, v11.16b
	and	v7.16b, v21.16b, v9.16b
	and	v16.16b, v22.16b, v10.16b
	and	v17.16b, v21.16b, v13.16b
	and	v18.16b, v22.16b, v28.16b
	and	v21.16b, v21.16b, v0.16b
	and	v22.16b, v15.16b, v25.16b
	and	v25.16b, v14.16b, v8.16b
	and	v8.16b, v15.16b, v11.16b
	and	v9.16b, v14.16b, v9.16b
	and	v10.16b, v15.16b, v10.16b
	and	v11.16b, v14.16b, v13.16b
	eor	v3.16b, v3.16b, v4.16b
	and	v13.16b, v14.16b, v0.16b
	eor	v14.16b, v15.16b, v14.16b
	eor	v4.16b, v22.16b, v25.16b
	eor	v5.16b, v5.16b, v7.16b
	eor	v16.16b, v16.16b, v17.16b
	eor	v7.16b, v8.16b, v9.16b
	eor	v17.16b, v10.16b, v11.16b
	eor	v0.16b, v6.16b, v1.16b
	cnt	v1.16b, v2.16b
	cnt	v2.16b, v3.16b
	and	v12.16b, v15.16b, v28.16b
	cnt	v22.16b, v30.16b
	cnt	v25.16b, v31.16b
	cnt	v3.16b, v14.16b
	cnt	v4.16b, v4.16b
	cnt	v5.16b, v5.16b
	cnt	v7.16b, v7.16b
	cnt	v16.16b, v16.16b
	cnt	v17.16b, v17.16b
	eor	v6.16b, v18.16b, v21.16b
	orr	v1.16b, v2.16b, v1.16b
	cnt	v2.16b, v23.16b
	eor	v18.16b, v12.16b, v13.16b
	cnt	v0.16b, v0.16b
	orr	v22.16b, v24.16b, v22.16b
	orr	v24.16b, v26.16b, v25.16b
	orr	v20.16b, v20.16b, v29.16b
	orr	v3.16b, v4.16b, v3.16b
	cnt	v6.16b, v6.16b
	orr	v4.16b, v5.16b, v16.16b
	orr	v5.16b, v7.16b, v17.16b
	cnt	v17.16b, v18.16b
	ldp	q16, q7, [sp, #16]
	orr	v2.16b, v19.16b, v2.16b
	orr	v0.16b, v20.16b, v0.16b
	orr	v1.16b, v1.16b, v4.16b
	orr	v3.16b, v3.16b, v5.16b
	orr	v7.16b, v22.16b, v7.16b
	orr	v16.16b, v24.16b, v16.16b
	orr	v1.16b, v1.16b, v6.16b
	orr	v3.16b, v3.16b, v17.16b
	orr	v2.16b, v2.16b, v7.16b
	orr	v0.16b, v0.16b, v16.16b
	orr	v1.16b, v1.16b, v2.16b
	orr	v0.16b, v3.16b, v0.16b
	movi	v2.16b, #1
	orr	v0.16b, v0.16b, v1.16b
	and	v0.16b, v0.16b, v2.16b
	ext	v1.16b, v0.16b, v0.16b, #8
	orr	v0.8b, v0.8b, v1.8b
	fmov	x16, d0
	orr	x16, x16, x16, lsr #32
	lsr	x17, x16, #16
	orr	w16, w16, w17
	orr	w16, w16, w16, lsr #8
	tst	w16, #0xff
	b.eq	.Lcards_BB0_10
.Lcards_BB0_5:
	tst	x9, #0x18
	b.eq	.Lcards_BB0_7
	mov	w4, #10
	orr	x16, x15, #0x2
	orr	x17, x15, #0x4
	orr	x18, x15, #0x6
	orr	x3, x15, #0x8
	orr	x4, x15, x4
	orr	x5, x15, #0xc
	orr	x6, x15, #0xe
	b	.Lcards_BB0_8
.Lcards_BB0_7:
	add	x7, x1, x15
	orr	x16, x15, #0x2
	orr	x17, x15, #0x4
	ldr	b0, [x7]
	add	x24, x1, x16
	add	x25, x1, x17
	orr	x18, x15, #0x6
	orr	x3, x15, #0x8
	mov	w4, #10
	ld1	{ v0.b }[1], [x24], #1
	add	x23, x1, x18
	add	x21, x1, x3
	orr	x4, x15, x4
	orr	x5, x15, #0xc
	add	x22, x1, x4
	add	x20, x1, x5
	orr	x6, x15, #0xe
	ld1	{ v0.b }[2], [x25], #1
	add	x19, x1, x6
	add	x26, x7, #34
	movi	v4.16b, #240
	movi	v5.16b, #71
	movi	v6.16b, #39
	movi	v7.16b, #22
	movi	v16.16b, #142
	ld1	{ v0.b }[3], [x23], #1
	movi	v17.16b, #109
	movi	v19.16b, #13
	movi	v18.16b, #91
	ld1	{ v0.b }[4], [x21], #1
	ld1	{ v0.b }[5], [x22], #1
	ld1	{ v0.b }[6], [x20], #1
	ld1	{ v0.b }[7], [x19], #1
	ldr	b1, [x7, #32]
	ldr	b2, [x7, #33]
	ldr	b3, [x7, #1]
	ld1	{ v1.b }[1], [x26]
	add	x26, x7, #35
	ld1	{ v2.b }[1], [x26]
	ld1	{ v3.b }[1], [x24]
	add	x24, x7, #36
	ld1	{ v1.b }[2], [x24]
	add	x24, x7, #37
	ld1	{ v2.b }[2], [x24]
	ld1	{ v3.b }[2], [x25]
	add	x24, x7, #38
	ld1	{ v1.b }[3], [x24]
	add	x24, x7, #39
	ld1	{ v2.b }[3], [x24]
	ld1	{ v3.b }[3], [x23]
	add	x23, x7, #40
	ld1	{ v1.b }[4], [x23]
	add	x23, x7, #41
	ld1	{ v2.b }[4], [x23]
	ld1	{ v3.b }[4], [x21]
	add	x21, x7, #42
	ld1	{ v1.b }[5], [x21]
	add	x21, x7, #43
	ld1	{ v2.b }[5], [x21]
	ld1	{ v3.b }[5], [x22]
	add	x21, x7, #44
	ld1	{ v1.b }[6], [x21]
	add	x21, x7, #45
	ld1	{ v2.b }[6], [x21]
	ld1	{ v3.b }[6], [x20]
	add	x20, x7, #46
	ld1	{ v1.b }[7], [x20]
	add	x20, x7, #47
	ld1	{ v2.b }[7], [x20]
	add	x20, x7, #16
	ld1	{ v3.b }[7], [x19]
	add	x19, x7, #48
	ld1	{ v0.b }[8], [x20]
	add	x20, x7, #49
	ld1	{ v1.b }[8], [x19]
	add	x19, x7, #17
	ld1	{ v2.b }[8], [x20]
	add	x20, x7, #18
	ld1	{ v3.b }[8], [x19]
	add	x19, x7, #50
	ld1	{ v0.b }[9], [x20]
	add	x20, x7, #51
	ld1	{ v1.b }[9], [x19]
	add	x19, x7, #19
	ld1	{ v2.b }[9], [x20]
	add	x20, x7, #20
	ld1	{ v3.b }[9], [x19]
	add	x19, x7, #52
	ld1	{ v0.b }[10], [x20]
	add	x20, x7, #53
	ld1	{ v1.b }[10], [x19]
	add	x19, x7, #21
	ld1	{ v2.b }[10], [x20]
	add	x20, x7, #22
	ld1	{ v3.b }[10], [x19]
	add	x19, x7, #54
	ld1	{ v0.b }[11], [x20]
	add	x20, x7, #55
	ld1	{ v1.b }[11], [x19]
	add	x19, x7, #23
	ld1	{ v2.b }[11], [x20]
	add	x20, x7, #24
	ld1	{ v3.b }[11], [x19]
	add	x19, x7, #56
	ld1	{ v0.b }[12], [x20]
	add	x20, x7, #57
	ld1	{ v1.b }[12], [x19]
	add	x19, x7, #25
	ld1	{ v2.b }[12], [x20]
	add	x20, x7, #26
	ld1	{ v3.b }[12], [x19]
	add	x19, x7, #58
	ld1	{ v0.b }[13], [x20]
	add	x20, x7, #59
	ld1	{ v1.b }[13], [x19]
	add	x19, x7, #27
	ld1	{ v2.b }[13], [x20]
	ld1	{ v3.b }[13], [x19]
	add	x19, x7, #60
	add	x20, x7, #28
	ld1	{ v1.b }[14], [x19]
	add	x19, x7, #61
	ld1	{ v0.b }[14], [x20]
	ld1	{ v2.b }[14], [x19]
	add	x19, x7, #29
	ld1	{ v3.b }[14], [x19]
	add	x19, x7, #62
	ld1	{ v1.b }[15], [x19]
	add	x19, x7, #63
	ld1	{ v2.b }[15], [x19]
	add	x19, x7, #30
	add	x7, x7, #31
	ld1	{ v0.b }[15], [x19]
	ld1	{ v3.b }[15], [x7]
	and	v21.16b, v1.16b, v5.16b
	and	v20.16b, v2.16b, v4.16b
	and	v24.16b, v2.16b, v16.16b
	and	v25.16b, v2.16b, v17.16b
	and	v5.16b, v0.16b, v5.16b
	and	v22.16b, v0.16b, v6.16b
	and	v23.16b, v0.16b, v7.16b
	and	v6.16b, v1.16b, v6.16b
	and	v7.16b, v1.16b, v7.16b
	and	v4.16b, v3.16b, v4.16b
	and	v16.16b, v3.16b, v16.16b
	and	v17.16b, v3.16b, v17.16b
	eor	v20.16b, v20.16b, v21.16b
	and	v21.16b, v0.16b, v19.16b
	and	v19.16b, v1.16b, v19.16b
	eor	v1.16b, v2.16b, v1.16b
	eor	v0.16b, v3.16b, v0.16b
	eor	v6.16b, v24.16b, v6.16b
	eor	v7.16b, v25.16b, v7.16b
	eor	v4.16b, v4.16b, v5.16b
	eor	v5.16b, v16.16b, v22.16b
	eor	v16.16b, v17.16b, v23.16b
	and	v2.16b, v2.16b, v18.16b
	and	v3.16b, v3.16b, v18.16b
	cnt	v1.16b, v1.16b
	cnt	v0.16b, v0.16b
	cnt	v17.16b, v20.16b
	cnt	v6.16b, v6.16b
	cnt	v7.16b, v7.16b
	cnt	v4.16b, v4.16b
	cnt	v5.16b, v5.16b
	cnt	v16.16b, v16.16b
	eor	v2.16b, v2.16b, v19.16b
	eor	v3.16b, v3.16b, v21.16b
	orr	v1.16b, v17.16b, v1.16b
	orr	v6.16b, v6.16b, v7.16b
	orr	v0.16b, v4.16b, v0.16b
	cnt	v2.16b, v2.16b
	orr	v4.16b, v5.16b, v16.16b
	cnt	v3.16b, v3.16b
	orr	v1.16b, v1.16b, v6.16b
	orr	v0.16b, v0.16b, v4.16b
	orr	v1.16b, v1.16b, v2.16b
	movi	v2.16b, #1
	orr	v0.16b, v0.16b, v3.16b
	orr	v0.16b, v1.16b, v0.16b
	and	v0.16b, v0.16b, v2.16b
	ext	v1.16b, v0.16b, v0.16b, #8
	orr	v0.8b, v0.8b, v1.8b
	fmov	x7, d0
	orr	x7, x7, x7, lsr #32
	lsr	x19, x7, #16
	orr	w7, w7, w19
	orr	w7, w7, w7, lsr #8
	tst	w7, #0xff
	b.eq	.Lcards_BB0_11
.Lcards_BB0_8:
	add	x7, x1, x15
	add	x16, x1, x16
	add	x17, x1, x17
	ldr	b0, [x7]
	add	x18, x1, x18
	add	x3, x1, x3
	add	x4, x1, x4
	add	x5, x1, x5
	add	x6, x1, x6
	ld1	{ v0.b }[1], [x16], #1
	movi	v2.8b, #240
	movi	v3.8b, #71
	movi	v4.8b, #142
	movi	v5.8b, #39
	movi	v6.8b, #109
	movi	v7.8b, #22
	movi	v16.8b, #91
	ld1	{ v0.b }[2], [x17], #1
	movi	v17.8b, #13
	ld1	{ v0.b }[3], [x18], #1
	ld1	{ v0.b }[4], [x3], #1
	ld1	{ v0.b }[5], [x4], #1
	ld1	{ v0.b }[6], [x5], #1
	ld1	{ v0.b }[7], [x6], #1
	ldr	b1, [x7, #1]
	ld1	{ v1.b }[1], [x16]
	and	v3.8b, v0.8b, v3.8b
	and	v5.8b, v0.8b, v5.8b
	and	v7.8b, v0.8b, v7.8b
	ld1	{ v1.b }[2], [x17]
	ld1	{ v1.b }[3], [x18]
	ld1	{ v1.b }[4], [x3]
	ld1	{ v1.b }[5], [x4]
	ld1	{ v1.b }[6], [x5]
	ld1	{ v1.b }[7], [x6]
	and	v2.8b, v1.8b, v2.8b
	and	v4.8b, v1.8b, v4.8b
	and	v6.8b, v1.8b, v6.8b
	eor	v2.8b, v2.8b, v3.8b
	eor	v3.8b, v4.8b, v5.8b
	eor	v4.8b, v6.8b, v7.8b
	eor	v5.8b, v1.8b, v0.8b
	and	v0.8b, v0.8b, v17.8b
	and	v1.8b, v1.8b, v16.8b
	cnt	v2.8b, v2.8b
	cnt	v3.8b, v3.8b
	cnt	v4.8b, v4.8b
	cnt	v5.8b, v5.8b
	eor	v0.8b, v1.8b, v0.8b
	cnt	v0.8b, v0.8b
	orr	v1.8b, v2.8b, v5.8b
	orr	v2.8b, v3.8b, v4.8b
	orr	v1.8b, v1.8b, v2.8b
	movi	v2.8b, #1
	orr	v0.8b, v1.8b, v0.8b
	and	v0.8b, v0.8b, v2.8b
	fmov	x16, d0
	orr	x16, x16, x16, lsr #32
	lsr	x17, x16, #16
	orr	w16, w16, w17
	orr	w16, w16, w16, lsr #8
	tst	w16, #0xff
	b.ne	.Lcards_BB0_26
	mov	w17, #1
	mov	w16, #8
	add	x18, x16, x9
	add	x3, x2, x15
	lsl	x18, x18, #1
	add	x4, x1, x18
	cmp	x3, x4
	b.lo	.Lcards_BB0_12
	b	.Lcards_BB0_16
.Lcards_BB0_10:
	mov	w17, wzr
	mov	w16, #160
	add	x18, x16, x9
	add	x3, x2, x15
	lsl	x18, x18, #1
	add	x4, x1, x18
	cmp	x3, x4
	b.lo	.Lcards_BB0_12
	b	.Lcards_BB0_16
.Lcards_BB0_11:
	mov	w17, wzr
	mov	w16, #32
	add	x18, x16, x9
	add	x3, x2, x15
	lsl	x18, x18, #1
	add	x4, x1, x18
	cmp	x3, x4
	b.hs	.Lcards_BB0_16
.Lcards_BB0_12:
	add	x18, x2, x18
	add	x3, x1, x15
	cmp	x3, x18
	b.hs	.Lcards_BB0_16
	mov	x17, xzr
.Lcards_BB0_14:
	add	x15, x9, x17
	lsl	x18, x15, #1
	sub	x15, x16, x17
	add	x17, x2, x18
	add	x18, x14, x18
.Lcards_BB0_15:
	ldrb	w3, [x18]
	ldurb	w4, [x18, #-1]
	subs	x15, x15, #1
	add	x18, x18, #2
	bfi	w3, w4, #8, #3
	strh	w3, [x17], #2
	b.ne	.Lcards_BB0_15
	b	.Lcards_BB0_24
.Lcards_BB0_16:
	tbz	w17, #0, .Lcards_BB0_18
	mov	x17, xzr
	b	.Lcards_BB0_22
.Lcards_BB0_18:
	mov	w17, #160
	add	x18, x12, x15
	add	x15, x13, x15
	and	x17, x16, x17
	mov	x3, x17
.Lcards_BB0_19:
	sub	x4, x18, #32
	ld2	{ v2.16b, v3.16b }, [x18]
	subs	x3, x3, #32
	add	x18, x18, #64
	ld2	{ v0.16b, v1.16b }, [x4]
	shll2	v6.8h, v2.16b, #8
	shll	v7.8h, v2.8b, #8
	ushll	v2.8h, v3.8b, #0
	shll2	v4.8h, v0.16b, #8
	shll	v5.8h, v0.8b, #8
	ushll2	v16.8h, v1.16b, #0
	ushll	v0.8h, v1.8b, #0
	ushll2	v1.8h, v3.16b, #0
	bic	v6.8h, #248, lsl #8
	bic	v7.8h, #248, lsl #8
	bic	v4.8h, #248, lsl #8
	bic	v5.8h, #248, lsl #8
	orr	v1.16b, v6.16b, v1.16b
	orr	v2.16b, v7.16b, v2.16b
	orr	v3.16b, v4.16b, v16.16b
	orr	v0.16b, v5.16b, v0.16b
	stp	q0, q3, [x15, #-32]
	stp	q2, q1, [x15], #64
	b.ne	.Lcards_BB0_19
	cmp	x16, x17
	b.eq	.Lcards_BB0_24
	tbz	w16, #3, .Lcards_BB0_14
.Lcards_BB0_22:
	add	x15, x9, x17
	lsl	x18, x15, #1
	sub	x15, x16, x17
	add	x17, x2, x18
	add	x18, x1, x18
.Lcards_BB0_23:
	ld2	{ v0.8b, v1.8b }, [x18], #16
	subs	x15, x15, #8
	shll	v2.8h, v0.8b, #8
	ushll	v0.8h, v1.8b, #0
	bic	v2.8h, #248, lsl #8
	orr	v0.16b, v2.16b, v0.16b
	str	q0, [x17], #16
	b.ne	.Lcards_BB0_23
.Lcards_BB0_24:
	add	x9, x16, x9
.Lcards_BB0_25:
	cmp	x9, #832
	b.ne	.Lcards_BB0_1
	b	.Lcards_BB0_38
.Lcards_BB0_26:
	cmp	x9, #63
	b.hi	.Lcards_BB0_33
	mov	w15, #1
	mov	x16, #31522816
	lsl	x15, x15, x9
	movk	x16, #31948, lsl #32
	movk	x16, #64542, lsl #48
	tst	x15, x16
	b.eq	.Lcards_BB0_33
.Lcards_BB0_28:
	add	x15, x1, x9, lsl #1
	mov	x3, #27995
	mov	x4, #5645
	movk	x3, #61582, lsl #16
	movk	x4, #18215, lsl #16
	ldrb	w16, [x15, #1]
	ldrb	w15, [x15]
	movk	x3, #255, lsl #32
	movk	x4, #255, lsl #32
	mul	x17, x16, x11
	mul	x18, x15, x11
	orr	w15, w16, w15, lsl #8
	and	x17, x17, x3
	and	x18, x18, x4
	eor	x17, x17, x18
	eor	x17, x17, x17, lsr #4
	eor	x17, x17, x17, lsr #2
	eor	x17, x17, x17, lsr #1
	ands	x16, x17, x11
	b.eq	.Lcards_BB0_31
	lsr	x17, x16, #32
	cbz	x17, .Lcards_BB0_38
	mov	w10, #1032
	add	x8, x8, #1
	movk	w10, #258, lsl #16
	mul	w10, w16, w10
	mov	x16, #3263
	movk	x16, #12829, lsl #16
	movk	x16, #25934, lsl #32
	lsr	w10, w10, #22
	movk	x16, #43399, lsl #48
	and	x10, x10, #0x3c
	lsr	x10, x16, x10
	mov	w16, #1
	and	x10, x10, #0xf
	lsl	w10, w16, w10
	eor	w10, w10, w15
	and	w10, w10, #0x7ff
	strh	w10, [x2, x9, lsl #1]
	mov	x10, x9
	add	x9, x9, #1
	b	.Lcards_BB0_25
.Lcards_BB0_31:
	and	w15, w15, #0x7ff
.Lcards_BB0_32:
	strh	w15, [x2, x9, lsl #1]
	add	x9, x9, #1
	b	.Lcards_BB0_25
.Lcards_BB0_33:
	cmp	x9, #41
	b.hi	.Lcards_BB0_36
	cmp	x9, #16
	mov	w15, wzr
	b.lo	.Lcards_BB0_32
	sub	x16, x9, #21
	cmn	x16, #2
	b.lo	.Lcards_BB0_28
	b	.Lcards_BB0_32
.Lcards_BB0_36:
	cmp	x9, #831
	b.ls	.Lcards_BB0_28
	mov	w15, wzr
	b	.Lcards_BB0_32
.Lcards_BB0_38:
	cmp	x9, #832
	ldp	x20, x19, [sp, #272]
	ldp	x22, x21, [sp, #256]
	cset	w11, lo
	ldp	x24, x23, [sp, #240]
	csel	x9, x9, xzr, lo
	ldp	x26, x25, [sp, #224]
	ldr	x30, [sp, #208]
	ldp	d9, d8, [sp, #192]
	stp	x11, x9, [x0]
	stp	x8, x10, [x0, #16]
	ldp	d11, d10, [sp, #176]
	ldp	d13, d12, [sp, #160]
	ldp	d15, d14, [sp, #144]
	add	sp, sp, #288
	ret
.Lcards_func_end0:
	.size	loamchalice.cards.card.decode, .Lcards_func_end0-loamchalice.cards.card.decode

	.section	.text.loamchalice_alpha_row,"ax",@progbits
	.globl	loamchalice_alpha_row
	.p2align	2
	.type	loamchalice_alpha_row,@function
loamchalice_alpha_row:
	cmp	x1, #1664
	lsl	x9, x2, #6
	mov	w8, #64
	ccmp	x2, #5, #2, hs
	cset	w10, hi
	add	x9, x9, #512
	cmp	w10, #0
	csel	x1, xzr, x8, ne
	csel	x0, xzr, x9, ne
	ret
.Lcards_func_end1:
	.size	loamchalice_alpha_row, .Lcards_func_end1-loamchalice_alpha_row

	.section	.rodata.cst8,"aM",@progbits,8
	.p2align	3, 0x0
.Lcards_CPI2_0:
	.hword	65496
	.hword	65516
	.hword	0
	.hword	80
.Lcards_CPI2_1:
	.word	0x39800000
	.word	0x3e000000
.Lcards_CPI2_2:
	.word	0x38000000
	.word	0x3b000000
	.section	.rodata.cst16,"aM",@progbits,16
	.p2align	4, 0x0
.Lcards_CPI2_3:
	.xword	0
	.xword	832
	.section	.text.loamchalice_load,"ax",@progbits
	.globl	loamchalice_load
	.p2align	2
	.type	loamchalice_load,@function
loamchalice_load:
	stp	d15, d14, [sp, #-160]!
	stp	d13, d12, [sp, #16]
	stp	d11, d10, [sp, #32]
	stp	d9, d8, [sp, #48]
	stp	x29, x30, [sp, #64]
	add	x29, sp, #64
	stp	x28, x27, [sp, #80]
	stp	x26, x25, [sp, #96]
	stp	x24, x23, [sp, #112]
	stp	x22, x21, [sp, #128]
	stp	x20, x19, [sp, #144]
	sub	sp, sp, #1952
	mov	x19, x8
	cmp	x0, #0
	mov	w8, #4096
	csel	x28, x8, xzr, eq
	cmp	x3, #0
	ldr	x10, [x29, #104]
	csel	x21, x8, xzr, eq
	cmp	x5, #0
	movi	v0.2d, #0000000000000000
	ldr	x9, [x29, #120]
	csel	x11, x8, xzr, eq
	cmp	x7, #0
	str	xzr, [sp]
	mov	x25, x0
	mov	x20, x2
	str	x11, [sp, #8]
	csel	x11, x8, xzr, eq
	cmp	x10, #0
	str	x10, [sp, #40]
	csel	x10, x8, xzr, eq
	cmp	x9, #0
	mov	x22, x1
	csel	x8, x8, xzr, eq
	add	x0, sp, #128
	mov	w1, wzr
	mov	w2, #1664
	mov	x26, x6
	mov	x23, x5
	mov	x27, x4
	mov	x24, x3
	stp	x9, x7, [sp, #48]
	stp	q0, q0, [sp, #64]
	stp	x10, x11, [sp, #16]
	stp	q0, q0, [sp, #96]
	str	x8, [sp, #32]
	bl	memset
	movi	v0.2d, #0000000000000000
	cmp	x22, #1663
	stp	q0, q0, [x29, #-160]
	b.hi	.Lcards_BB2_2
	mov	x11, xzr
	mov	w12, #1
	b	.Lcards_BB2_16
.Lcards_BB2_2:
	ldr	x8, [x29, #128]
	ldr	x9, [x29, #112]
	cmp	x27, x26
	ldr	x10, [x29, #96]
	csel	x11, x27, x26, lo
	cmp	x9, x8
	csel	x8, x9, x8, lo
	cmp	x10, x8
	csel	x8, x10, x8, lo
	cmp	x11, x8
	csel	x8, x11, x8, lo
	cmp	x8, #192
	b.hs	.Lcards_BB2_4
	mov	x22, xzr
	mov	x11, xzr
	mov	w12, #2
	b	.Lcards_BB2_16
.Lcards_BB2_4:
	add	x25, x25, x28
	sub	x0, x29, #160
	add	x2, sp, #128
	mov	x1, x25
	bl	loamchalice.cards.card.decode
	ldurb	w8, [x29, #-160]
	cmp	w8, #1
	b.ne	.Lcards_BB2_6
	ldur	x22, [x29, #-152]
	mov	w12, #3
	ldrh	w8, [x25, x22, lsl #1]
	rev16	w11, w8
	b	.Lcards_BB2_16
.Lcards_BB2_6:
	ldrh	w12, [sp, #160]
	cmp	w12, #671
	b.ls	.Lcards_BB2_8
	mov	x11, xzr
	lsr	x22, x12, #5
	mov	w12, #4
	b	.Lcards_BB2_16
.Lcards_BB2_8:
	subs	x11, x20, #7
	b.ls	.Lcards_BB2_10
	mov	x11, xzr
	mov	w12, #6
	mov	x22, x20
	b	.Lcards_BB2_16
.Lcards_BB2_10:
	ldrh	w9, [sp, #234]
	ldrh	w10, [sp, #232]
	mov	w8, #-2048
	mov	w13, #1065353216
	movi	d18, #0000000000000000
	tst	w9, #0x400
	add	w13, w13, w10, lsl #23
	csel	w14, wzr, w8, eq
	cmp	w10, #128
	bfxil	w14, w9, #0, #11
	mov	w9, #2139095040
	fmov	s1, w13
	fmov	s0, w9
	ldrh	w9, [sp, #236]
	mov	w13, #1199570944
	scvtf	s2, w14
	fcsel	s7, s1, s0, lo
	tst	w9, #0x400
	csel	w10, wzr, w8, eq
	bfxil	w10, w9, #0, #11
	ldrh	w9, [sp, #238]
	fdiv	s0, s2, s7
	tst	w9, #0x400
	scvtf	s1, w10
	csel	w10, wzr, w8, eq
	bfxil	w10, w9, #0, #11
	ldrh	w9, [sp, #240]
	tst	w9, #0x400
	scvtf	s2, w10
	csel	w10, wzr, w8, eq
	bfxil	w10, w9, #0, #11
	ldrh	w9, [sp, #242]
	tst	w9, #0x400
	scvtf	s3, w10
	csel	w10, wzr, w8, eq
	fdiv	s1, s1, s7
	bfxil	w10, w9, #0, #11
	ldrh	w9, [sp, #246]
	tst	w9, #0x400
	scvtf	s4, w10
	csel	w10, wzr, w8, eq
	bfxil	w10, w9, #0, #11
	ldrh	w9, [sp, #250]
	tst	w9, #0x400
	scvtf	s5, w10
	csel	w10, wzr, w8, eq
	bfxil	w10, w9, #0, #11
	ldrh	w9, [sp, #254]
	fdiv	s2, s2, s7
	tst	w9, #0x400
	scvtf	s6, w10
	mov	w10, #120
	csel	w8, wzr, w8, eq
	sturh	w10, [x29, #-184]
	ldrh	w10, [sp, #252]
	bfxil	w8, w9, #0, #11
	ldrh	w9, [sp, #248]
	stp	s0, s1, [x29, #-128]
	sturh	w10, [x29, #-178]
	scvtf	s16, w8
	adrp	x8, .Lcards_CPI2_0
	sturh	w9, [x29, #-180]
	ldr	d17, [x8, :lo12:.Lcards_CPI2_0]
	ldrh	w8, [sp, #244]
	stur	d17, [x29, #-192]
	sturh	w8, [x29, #-182]
	fdiv	s3, s3, s7
	fdiv	s4, s4, s7
	stp	s2, s3, [x29, #-120]
	fdiv	s5, s5, s7
	fdiv	s6, s6, s7
	stp	s4, s5, [x29, #-112]
	fdiv	s7, s16, s7
	fmov	s16, w13
	fmul	s16, s18, s16
	stp	s6, s7, [x29, #-104]
	cbz	x20, .Lcards_BB2_51
	sub	x22, x20, #1
	sub	x13, x29, #192
	sub	x15, x29, #128
	add	x13, x13, x22, lsl #1
	ldr	s19, [x15, x22, lsl #2]
	ldrsh	w14, [x13, #2]
	ldrsh	w13, [x13]
	subs	w13, w14, w13
	b.mi	.Lcards_BB2_13
	ucvtf	s20, w13
	fadd	s20, s16, s20
	b	.Lcards_BB2_14
.Lcards_BB2_13:
	neg	w13, w13
	ucvtf	s20, w13
	fadd	s20, s16, s20
	fneg	s20, s20
.Lcards_BB2_14:
	fmul	s19, s19, s20
	fmov	s20, #1.00000000
	fadd	s19, s19, s20
	fcmp	s19, s18
	b.ne	.Lcards_BB2_18
.Lcards_BB2_15:
	mov	x11, xzr
	mov	w12, #13
.Lcards_BB2_16:
	movi	v25.2d, #0000000000000000
	movi	d17, #0000000000000000
	adrp	x3, .Lcards_CPI2_3
	movi	d0, #0000000000000000
	movi	d1, #0000000000000000
	ldr	q18, [x3, :lo12:.Lcards_CPI2_3]
	movi	d2, #0000000000000000
	movi	d3, #0000000000000000
	mov	w2, wzr
	movi	d4, #0000000000000000
	movi	d5, #0000000000000000
	mov	w1, wzr
	movi	d6, #0000000000000000
	movi	d7, #0000000000000000
	mov	w0, wzr
	movi	d19, #0000000000000000
	movi	d22, #0000000000000000
	mov	w18, wzr
	movi	d20, #0000000000000000
	movi	d16, #0000000000000000
	mov	w8, wzr
	movi	d21, #0000000000000000
	movi	d24, #0000000000000000
	mov	w9, wzr
	movi	d23, #0000000000000000
	mov	w10, wzr
	mov	w14, wzr
	mov	w13, wzr
	mov	w16, wzr
	mov	w15, wzr
	mov	w17, wzr
	stp	q25, q25, [sp, #128]
.Lcards_BB2_17:
	stp	s21, s0, [x19, #80]
	stp	s1, s2, [x19, #88]
	ldp	q0, q1, [sp, #128]
	stp	x12, x22, [x19]
	str	x11, [x19, #16]
	stur	q18, [x19, #24]
	str	d17, [x19, #40]
	stp	s19, s22, [x19, #48]
	str	s20, [x19, #56]
	stur	d24, [x19, #60]
	str	s16, [x19, #68]
	str	d23, [x19, #72]
	stp	s3, s4, [x19, #96]
	stp	s5, s6, [x19, #104]
	str	s7, [x19, #112]
	strh	w2, [x19, #116]
	strh	w1, [x19, #118]
	strh	wzr, [x19, #120]
	strh	w0, [x19, #122]
	strh	w18, [x19, #124]
	strh	w8, [x19, #126]
	strh	w9, [x19, #128]
	strh	w10, [x19, #130]
	strh	w14, [x19, #132]
	strh	w13, [x19, #134]
	strh	w16, [x19, #136]
	strb	w15, [x19, #138]
	strb	w17, [x19, #139]
	stur	q0, [x19, #140]
	stur	q1, [x19, #156]
	str	wzr, [x19, #172]
	add	sp, sp, #1952
	ldp	x20, x19, [sp, #144]
	ldp	x22, x21, [sp, #128]
	ldp	x24, x23, [sp, #112]
	ldp	x26, x25, [sp, #96]
	ldp	x28, x27, [sp, #80]
	ldp	x29, x30, [sp, #64]
	ldp	d9, d8, [sp, #48]
	ldp	d11, d10, [sp, #32]
	ldp	d13, d12, [sp, #16]
	ldp	d15, d14, [sp], #160
	ret
.Lcards_BB2_18:
	cbz	x22, .Lcards_BB2_51
	sub	x22, x20, #2
	sub	x13, x29, #192
	add	x13, x13, x22, lsl #1
	ldr	s19, [x15, x22, lsl #2]
	ldrsh	w14, [x13, #2]
	ldrsh	w13, [x13]
	subs	w13, w14, w13
	b.mi	.Lcards_BB2_21
	ucvtf	s20, w13
	fadd	s20, s16, s20
	b	.Lcards_BB2_22
.Lcards_BB2_21:
	neg	w13, w13
	ucvtf	s20, w13
	fadd	s20, s16, s20
	fneg	s20, s20
.Lcards_BB2_22:
	fmul	s19, s19, s20
	fmov	s20, #1.00000000
	fadd	s19, s19, s20
	fcmp	s19, s18
	b.eq	.Lcards_BB2_15
	cbz	x22, .Lcards_BB2_51
	sub	x22, x20, #3
	sub	x13, x29, #192
	add	x13, x13, x22, lsl #1
	ldr	s19, [x15, x22, lsl #2]
	ldrsh	w14, [x13, #2]
	ldrsh	w13, [x13]
	subs	w13, w14, w13
	b.mi	.Lcards_BB2_26
	ucvtf	s20, w13
	fadd	s20, s16, s20
	b	.Lcards_BB2_27
.Lcards_BB2_26:
	neg	w13, w13
	ucvtf	s20, w13
	fadd	s20, s16, s20
	fneg	s20, s20
.Lcards_BB2_27:
	fmul	s19, s19, s20
	fmov	s20, #1.00000000
	fadd	s19, s19, s20
	fcmp	s19, s18
	b.eq	.Lcards_BB2_15
	cbz	x22, .Lcards_BB2_51
	sub	x22, x20, #4
	sub	x13, x29, #192
	add	x13, x13, x22, lsl #1
	ldr	s19, [x15, x22, lsl #2]
	ldrsh	w14, [x13, #2]
	ldrsh	w13, [x13]
	subs	w13, w14, w13
	b.mi	.Lcards_BB2_31
	ucvtf	s20, w13
	fadd	s20, s16, s20
	b	.Lcards_BB2_32
.Lcards_BB2_31:
	neg	w13, w13
	ucvtf	s20, w13
	fadd	s20, s16, s20
	fneg	s20, s20
.Lcards_BB2_32:
	fmul	s19, s19, s20
	fmov	s20, #1.00000000
	fadd	s19, s19, s20
	fcmp	s19, s18
	b.eq	.Lcards_BB2_15
	cbz	x22, .Lcards_BB2_51
	sub	x22, x20, #5
	sub	x13, x29, #192
	fmov	d21, d17
	add	x13, x13, x22, lsl #1
	ldr	s19, [x15, x22, lsl #2]
	ldrsh	w14, [x13, #2]
	ldrsh	w13, [x13]
	subs	w13, w14, w13
	b.mi	.Lcards_BB2_36
	ucvtf	s20, w13
	fadd	s20, s16, s20
	b	.Lcards_BB2_37
.Lcards_BB2_36:
	neg	w13, w13
	ucvtf	s20, w13
	fadd	s20, s16, s20
	fneg	s20, s20
.Lcards_BB2_37:
	fmul	s19, s19, s20
	fmov	s20, #1.00000000
	fadd	s19, s19, s20
	fcmp	s19, s18
	b.eq	.Lcards_BB2_15
	fmov	d17, d21
	cbz	x22, .Lcards_BB2_51
	sub	x22, x20, #6
	sub	x13, x29, #192
	add	x13, x13, x22, lsl #1
	ldr	s19, [x15, x22, lsl #2]
	ldrsh	w14, [x13, #2]
	ldrsh	w13, [x13]
	subs	w13, w14, w13
	b.mi	.Lcards_BB2_41
	ucvtf	s20, w13
	fadd	s20, s16, s20
	b	.Lcards_BB2_42
.Lcards_BB2_41:
	neg	w13, w13
	ucvtf	s20, w13
	fadd	s20, s16, s20
	fneg	s20, s20
.Lcards_BB2_42:
	fmul	s19, s19, s20
	fmov	s20, #1.00000000
	fadd	s19, s19, s20
	fcmp	s19, s18
	b.eq	.Lcards_BB2_15
	fmov	d17, d21
	cbz	x22, .Lcards_BB2_51
	sub	x13, x29, #192
	ldr	s19, [x15, x11, lsl #2]
	add	x13, x13, x11, lsl #1
	ldrsh	w14, [x13, #2]
	ldrsh	w13, [x13]
	subs	w13, w14, w13
	b.mi	.Lcards_BB2_46
	ucvtf	s20, w13
	fadd	s20, s16, s20
	b	.Lcards_BB2_47
.Lcards_BB2_46:
	neg	w13, w13
	ucvtf	s20, w13
	fadd	s20, s16, s20
	fneg	s20, s20
.Lcards_BB2_47:
	fmul	s19, s19, s20
	fmov	s20, #1.00000000
	fadd	s19, s19, s20
	fcmp	s19, s18
	b.ne	.Lcards_BB2_49
	mov	x22, x11
	b	.Lcards_BB2_15
.Lcards_BB2_49:
	fmov	d17, d21
	cbz	x11, .Lcards_BB2_51
	orr	x22, x20, #0xfffffffffffffff8
	b	.Lcards_BB2_15
.Lcards_BB2_51:
	ldp	q20, q23, [sp, #256]
	movi	v19.8h, #4, lsl #8
	ldp	q25, q22, [sp, #288]
	movi	v18.8h, #248, lsl #8
	ldp	q26, q24, [sp, #320]
	lsr	w12, w12, #5
	bic	v20.8h, #248, lsl #8
	bic	v23.8h, #248, lsl #8
	ldrh	w13, [sp, #162]
	bic	v25.8h, #248, lsl #8
	bic	v22.8h, #248, lsl #8
	ldrh	w14, [sp, #164]
	bic	v26.8h, #248, lsl #8
	bic	v24.8h, #248, lsl #8
	ldr	h13, [sp, #188]
	cmhs	v21.8h, v20.8h, v19.8h
	cmhs	v27.8h, v23.8h, v19.8h
	orr	w13, w14, w13, lsl #5
	cmhs	v28.8h, v25.8h, v19.8h
	cmhs	v30.8h, v22.8h, v19.8h
	mov	w14, #1233125376
	cmhs	v31.8h, v26.8h, v19.8h
	cmhs	v8.8h, v24.8h, v19.8h
	sxth	w13, w13
	and	v21.16b, v21.16b, v18.16b
	and	v27.16b, v27.16b, v18.16b
	movi	v15.2s, #31
	and	v28.16b, v28.16b, v18.16b
	and	v30.16b, v30.16b, v18.16b
	ucvtf	s13, s13
	and	v31.16b, v31.16b, v18.16b
	and	v8.16b, v8.16b, v18.16b
	ldr	q12, [sp, #1728]
	orr	v29.16b, v21.16b, v20.16b
	orr	v23.16b, v27.16b, v23.16b
	movi	v27.2d, #0000000000000000
	dup	v21.4s, w12
	orr	v28.16b, v28.16b, v25.16b
	dup	v20.4s, w13
	orr	v22.16b, v30.16b, v22.16b
	orr	v26.16b, v31.16b, v26.16b
	add	x13, x24, x21
	sshll2	v9.4s, v29.8h, #0
	sshll	v29.4s, v29.4h, #0
	ldr	x12, [sp, #8]
	sshll2	v10.4s, v23.8h, #0
	sshll	v11.4s, v23.4h, #0
	stp	q27, q27, [x29, #-224]
	ldp	q25, q23, [sp, #352]
	sshll2	v27.4s, v28.8h, #0
	ushl	v9.4s, v9.4s, v21.4s
	ushl	v29.4s, v29.4s, v21.4s
	sshll	v28.4s, v28.4h, #0
	ushl	v30.4s, v10.4s, v21.4s
	ushl	v10.4s, v11.4s, v21.4s
	add	x12, x23, x12
	sshll	v11.4s, v22.4h, #0
	sshll2	v22.4s, v22.8h, #0
	str	d17, [sp]
	add	v9.4s, v9.4s, v20.4s
	add	v29.4s, v29.4s, v20.4s
	ldr	h17, [sp, #190]
	add	v30.4s, v30.4s, v20.4s
	add	v10.4s, v10.4s, v20.4s
	mov	x11, xzr
	ushl	v27.4s, v27.4s, v21.4s
	ushl	v28.4s, v28.4s, v21.4s
	bic	v25.8h, #248, lsl #8
	orr	v24.16b, v8.16b, v24.16b
	stp	q29, q9, [x13]
	bic	v23.8h, #248, lsl #8
	ushl	v29.4s, v11.4s, v21.4s
	stp	q10, q30, [x13, #32]
	ldr	h11, [sp, #184]
	ushl	v22.4s, v22.4s, v21.4s
	add	v27.4s, v27.4s, v20.4s
	add	v28.4s, v28.4s, v20.4s
	sshll2	v30.4s, v26.8h, #0
	sshll	v26.4s, v26.4h, #0
	cmhs	v31.8h, v25.8h, v19.8h
	sshll	v8.4s, v24.4h, #0
	cmhs	v9.8h, v23.8h, v19.8h
	add	v29.4s, v29.4s, v20.4s
	stp	q28, q27, [x13, #64]
	add	v22.4s, v22.4s, v20.4s
	sshll2	v24.4s, v24.8h, #0
	ushl	v27.4s, v30.4s, v21.4s
	ushl	v26.4s, v26.4s, v21.4s
	and	v28.16b, v31.16b, v18.16b
	ushl	v31.4s, v8.4s, v21.4s
	and	v8.16b, v9.16b, v18.16b
	bic	v12.8h, #248, lsl #8
	ldp	q30, q9, [sp, #384]
	stp	q29, q22, [x13, #96]
	add	v27.4s, v27.4s, v20.4s
	orr	v22.16b, v28.16b, v25.16b
	add	v25.4s, v26.4s, v20.4s
	ushl	v24.4s, v24.4s, v21.4s
	orr	v23.16b, v8.16b, v23.16b
	add	v26.4s, v31.4s, v20.4s
	ldp	q31, q8, [sp, #416]
	bic	v30.8h, #248, lsl #8
	stp	q25, q27, [x13, #128]
	bic	v9.8h, #248, lsl #8
	sshll	v28.4s, v22.4h, #0
	sshll2	v22.4s, v22.8h, #0
	add	v24.4s, v24.4s, v20.4s
	sshll	v25.4s, v23.4h, #0
	cmhs	v27.8h, v30.8h, v19.8h
	bic	v31.8h, #248, lsl #8
	sshll2	v23.4s, v23.8h, #0
	cmhs	v29.8h, v9.8h, v19.8h
	ushl	v28.4s, v28.4s, v21.4s
	bic	v8.8h, #248, lsl #8
	stp	q26, q24, [x13, #160]
	ushl	v22.4s, v22.4s, v21.4s
	ushl	v24.4s, v25.4s, v21.4s
	and	v27.16b, v27.16b, v18.16b
	ushl	v23.4s, v23.4s, v21.4s
	ucvtf	s17, s17
	and	v29.16b, v29.16b, v18.16b
	add	v22.4s, v22.4s, v20.4s
	add	v24.4s, v24.4s, v20.4s
	orr	v25.16b, v27.16b, v30.16b
	add	v27.4s, v28.4s, v20.4s
	cmhs	v28.8h, v31.8h, v19.8h
	orr	v26.16b, v29.16b, v9.16b
	cmhs	v30.8h, v8.8h, v19.8h
	add	v23.4s, v23.4s, v20.4s
	stp	q27, q22, [x13, #192]
	sshll	v29.4s, v25.4h, #0
	sshll2	v25.4s, v25.8h, #0
	stp	q24, q23, [x13, #224]
	and	v27.16b, v28.16b, v18.16b
	sshll	v22.4s, v26.4h, #0
	sshll2	v26.4s, v26.8h, #0
	ushl	v25.4s, v25.4s, v21.4s
	ushl	v28.4s, v29.4s, v21.4s
	and	v29.16b, v30.16b, v18.16b
	orr	v27.16b, v27.16b, v31.16b
	ldp	q30, q31, [sp, #448]
	ushl	v22.4s, v22.4s, v21.4s
	ushl	v23.4s, v26.4s, v21.4s
	add	v24.4s, v25.4s, v20.4s
	orr	v25.16b, v29.16b, v8.16b
	add	v26.4s, v28.4s, v20.4s
	bic	v30.8h, #248, lsl #8
	bic	v31.8h, #248, lsl #8
	sshll2	v28.4s, v27.8h, #0
	sshll	v27.4s, v27.4h, #0
	add	v22.4s, v22.4s, v20.4s
	add	v23.4s, v23.4s, v20.4s
	stp	q26, q24, [x13, #256]
	sshll	v8.4s, v25.4h, #0
	sshll2	v24.4s, v25.8h, #0
	cmhs	v29.8h, v30.8h, v19.8h
	cmhs	v9.8h, v31.8h, v19.8h
	ushl	v25.4s, v28.4s, v21.4s
	stp	q22, q23, [x13, #288]
	ushl	v26.4s, v27.4s, v21.4s
	ushl	v23.4s, v24.4s, v21.4s
	and	v27.16b, v29.16b, v18.16b
	ushl	v29.4s, v8.4s, v21.4s
	and	v8.16b, v9.16b, v18.16b
	ldp	q28, q9, [sp, #480]
	add	v25.4s, v25.4s, v20.4s
	add	v24.4s, v26.4s, v20.4s
	add	v23.4s, v23.4s, v20.4s
	orr	v22.16b, v27.16b, v30.16b
	orr	v26.16b, v8.16b, v31.16b
	add	v27.4s, v29.4s, v20.4s
	ldp	q31, q8, [sp, #512]
	bic	v28.8h, #248, lsl #8
	stp	q24, q25, [x13, #320]
	bic	v9.8h, #248, lsl #8
	stp	q27, q23, [x13, #352]
	sshll	v29.4s, v22.4h, #0
	sshll2	v22.4s, v22.8h, #0
	cmhs	v25.8h, v28.8h, v19.8h
	sshll	v24.4s, v26.4h, #0
	bic	v31.8h, #248, lsl #8
	cmhs	v30.8h, v9.8h, v19.8h
	sshll2	v26.4s, v26.8h, #0
	bic	v8.8h, #248, lsl #8
	ushl	v22.4s, v22.4s, v21.4s
	ushl	v29.4s, v29.4s, v21.4s
	and	v25.16b, v25.16b, v18.16b
	ushl	v23.4s, v24.4s, v21.4s
	and	v30.16b, v30.16b, v18.16b
	ushl	v26.4s, v26.4s, v21.4s
	add	v22.4s, v22.4s, v20.4s
	add	v27.4s, v29.4s, v20.4s
	orr	v24.16b, v25.16b, v28.16b
	cmhs	v28.8h, v31.8h, v19.8h
	add	v23.4s, v23.4s, v20.4s
	orr	v25.16b, v30.16b, v9.16b
	cmhs	v30.8h, v8.8h, v19.8h
	add	v26.4s, v26.4s, v20.4s
	stp	q27, q22, [x13, #384]
	sshll	v29.4s, v24.4h, #0
	and	v27.16b, v28.16b, v18.16b
	sshll2	v24.4s, v24.8h, #0
	stp	q23, q26, [x13, #416]
	sshll	v22.4s, v25.4h, #0
	sshll2	v25.4s, v25.8h, #0
	ushl	v28.4s, v29.4s, v21.4s
	and	v29.16b, v30.16b, v18.16b
	orr	v27.16b, v27.16b, v31.16b
	ldp	q30, q31, [sp, #544]
	ushl	v24.4s, v24.4s, v21.4s
	ushl	v23.4s, v25.4s, v21.4s
	ushl	v22.4s, v22.4s, v21.4s
	orr	v25.16b, v29.16b, v8.16b
	add	v26.4s, v28.4s, v20.4s
	sshll2	v28.4s, v27.8h, #0
	bic	v30.8h, #248, lsl #8
	bic	v31.8h, #248, lsl #8
	add	v24.4s, v24.4s, v20.4s
	sshll	v27.4s, v27.4h, #0
	add	v22.4s, v22.4s, v20.4s
	add	v23.4s, v23.4s, v20.4s
	sshll	v8.4s, v25.4h, #0
	stp	q26, q24, [x13, #448]
	cmhs	v29.8h, v30.8h, v19.8h
	cmhs	v9.8h, v31.8h, v19.8h
	stp	q22, q23, [x13, #480]
	sshll2	v24.4s, v25.8h, #0
	ushl	v25.4s, v28.4s, v21.4s
	ushl	v26.4s, v27.4s, v21.4s
	and	v27.16b, v29.16b, v18.16b
	ushl	v29.4s, v8.4s, v21.4s
	and	v8.16b, v9.16b, v18.16b
	ldp	q28, q9, [sp, #576]
	add	v25.4s, v25.4s, v20.4s
	ushl	v23.4s, v24.4s, v21.4s
	add	v24.4s, v26.4s, v20.4s
	orr	v22.16b, v27.16b, v30.16b
	orr	v26.16b, v8.16b, v31.16b
	add	v27.4s, v29.4s, v20.4s
	ldp	q31, q8, [sp, #608]
	bic	v28.8h, #248, lsl #8
	stp	q24, q25, [x13, #512]
	bic	v9.8h, #248, lsl #8
	add	v23.4s, v23.4s, v20.4s
	sshll	v29.4s, v22.4h, #0
	sshll2	v22.4s, v22.8h, #0
	sshll	v24.4s, v26.4h, #0
	cmhs	v25.8h, v28.8h, v19.8h
	bic	v31.8h, #248, lsl #8
	bic	v8.8h, #248, lsl #8
	stp	q27, q23, [x13, #544]
	cmhs	v30.8h, v9.8h, v19.8h
	sshll2	v26.4s, v26.8h, #0
	ushl	v22.4s, v22.4s, v21.4s
	ushl	v29.4s, v29.4s, v21.4s
	ushl	v23.4s, v24.4s, v21.4s
	and	v25.16b, v25.16b, v18.16b
	and	v30.16b, v30.16b, v18.16b
	ushl	v26.4s, v26.4s, v21.4s
	add	v22.4s, v22.4s, v20.4s
	add	v27.4s, v29.4s, v20.4s
	add	v23.4s, v23.4s, v20.4s
	orr	v24.16b, v25.16b, v28.16b
	cmhs	v28.8h, v31.8h, v19.8h
	orr	v25.16b, v30.16b, v9.16b
	cmhs	v30.8h, v8.8h, v19.8h
	add	v26.4s, v26.4s, v20.4s
	stp	q27, q22, [x13, #576]
	sshll	v29.4s, v24.4h, #0
	sshll2	v24.4s, v24.8h, #0
	and	v27.16b, v28.16b, v18.16b
	stp	q23, q26, [x13, #608]
	sshll	v22.4s, v25.4h, #0
	sshll2	v25.4s, v25.8h, #0
	ushl	v28.4s, v29.4s, v21.4s
	and	v29.16b, v30.16b, v18.16b
	ldr	q30, [sp, #1408]
	ushl	v24.4s, v24.4s, v21.4s
	orr	v27.16b, v27.16b, v31.16b
	ldr	q31, [sp, #1424]
	bic	v30.8h, #248, lsl #8
	ushl	v22.4s, v22.4s, v21.4s
	ushl	v23.4s, v25.4s, v21.4s
	orr	v25.16b, v29.16b, v8.16b
	bic	v31.8h, #248, lsl #8
	add	v26.4s, v28.4s, v20.4s
	add	v24.4s, v24.4s, v20.4s
	sshll2	v28.4s, v27.8h, #0
	sshll	v27.4s, v27.4h, #0
	cmhs	v29.8h, v30.8h, v19.8h
	add	v22.4s, v22.4s, v20.4s
	add	v23.4s, v23.4s, v20.4s
	sshll	v8.4s, v25.4h, #0
	cmhs	v9.8h, v31.8h, v19.8h
	stp	q26, q24, [x13, #640]
	sshll2	v24.4s, v25.8h, #0
	ushl	v25.4s, v28.4s, v21.4s
	ldr	q28, [sp, #1440]
	stp	q22, q23, [x13, #672]
	ushl	v26.4s, v27.4s, v21.4s
	and	v27.16b, v29.16b, v18.16b
	ushl	v29.4s, v8.4s, v21.4s
	and	v8.16b, v9.16b, v18.16b
	ldr	q9, [sp, #1456]
	add	v25.4s, v25.4s, v20.4s
	bic	v28.8h, #248, lsl #8
	ushl	v23.4s, v24.4s, v21.4s
	add	v24.4s, v26.4s, v20.4s
	orr	v22.16b, v27.16b, v30.16b
	bic	v9.8h, #248, lsl #8
	orr	v26.16b, v8.16b, v31.16b
	ldr	q31, [sp, #1472]
	ldr	q8, [sp, #1488]
	add	v27.4s, v29.4s, v20.4s
	stp	q24, q25, [x13, #704]
	cmhs	v25.8h, v28.8h, v19.8h
	add	v23.4s, v23.4s, v20.4s
	sshll	v29.4s, v22.4h, #0
	sshll2	v22.4s, v22.8h, #0
	cmhs	v30.8h, v9.8h, v19.8h
	sshll	v24.4s, v26.4h, #0
	bic	v31.8h, #248, lsl #8
	sshll2	v26.4s, v26.8h, #0
	stp	q27, q23, [x13, #736]
	ldrh	w13, [sp, #182]
	and	v25.16b, v25.16b, v18.16b
	ushl	v22.4s, v22.4s, v21.4s
	ushl	v29.4s, v29.4s, v21.4s
	and	v30.16b, v30.16b, v18.16b
	lsr	w15, w13, #5
	cmp	w13, #3456
	and	w13, w13, #0x1f
	add	w13, w14, w13, lsl #23
	ushl	v23.4s, v24.4s, v21.4s
	orr	v24.16b, v25.16b, v28.16b
	add	w15, w14, w15, lsl #23
	add	v22.4s, v22.4s, v20.4s
	bic	v8.8h, #248, lsl #8
	add	v27.4s, v29.4s, v20.4s
	cmhs	v28.8h, v31.8h, v19.8h
	orr	v25.16b, v30.16b, v9.16b
	ushl	v26.4s, v26.4s, v21.4s
	sshll	v29.4s, v24.4h, #0
	sshll2	v24.4s, v24.8h, #0
	cmhs	v30.8h, v8.8h, v19.8h
	add	v23.4s, v23.4s, v20.4s
	stp	q27, q22, [x12]
	and	v27.16b, v28.16b, v18.16b
	sshll	v22.4s, v25.4h, #0
	add	v26.4s, v26.4s, v20.4s
	sshll2	v25.4s, v25.8h, #0
	ushl	v24.4s, v24.4s, v21.4s
	ushl	v28.4s, v29.4s, v21.4s
	and	v29.16b, v30.16b, v18.16b
	ldr	q30, [sp, #1504]
	orr	v27.16b, v27.16b, v31.16b
	ldr	q31, [sp, #1520]
	ushl	v22.4s, v22.4s, v21.4s
	stp	q23, q26, [x12, #32]
	bic	v30.8h, #248, lsl #8
	ushl	v23.4s, v25.4s, v21.4s
	add	v24.4s, v24.4s, v20.4s
	orr	v25.16b, v29.16b, v8.16b
	bic	v31.8h, #248, lsl #8
	add	v26.4s, v28.4s, v20.4s
	sshll2	v28.4s, v27.8h, #0
	sshll	v27.4s, v27.4h, #0
	cmhs	v29.8h, v30.8h, v19.8h
	add	v22.4s, v22.4s, v20.4s
	add	v23.4s, v23.4s, v20.4s
	sshll	v8.4s, v25.4h, #0
	cmhs	v9.8h, v31.8h, v19.8h
	stp	q26, q24, [x12, #64]
	sshll2	v24.4s, v25.8h, #0
	ushl	v25.4s, v28.4s, v21.4s
	ldr	q28, [sp, #1536]
	stp	q22, q23, [x12, #96]
	ushl	v26.4s, v27.4s, v21.4s
	and	v27.16b, v29.16b, v18.16b
	ushl	v29.4s, v8.4s, v21.4s
	and	v8.16b, v9.16b, v18.16b
	ldr	q9, [sp, #1552]
	add	v25.4s, v25.4s, v20.4s
	bic	v28.8h, #248, lsl #8
	ushl	v23.4s, v24.4s, v21.4s
	add	v24.4s, v26.4s, v20.4s
	orr	v22.16b, v27.16b, v30.16b
	orr	v26.16b, v8.16b, v31.16b
	ldr	q31, [sp, #1568]
	ldr	q8, [sp, #1584]
	bic	v9.8h, #248, lsl #8
	add	v27.4s, v29.4s, v20.4s
	stp	q24, q25, [x12, #128]
	cmhs	v25.8h, v28.8h, v19.8h
	add	v23.4s, v23.4s, v20.4s
	sshll	v29.4s, v22.4h, #0
	sshll2	v22.4s, v22.8h, #0
	sshll	v24.4s, v26.4h, #0
	cmhs	v30.8h, v9.8h, v19.8h
	sshll2	v26.4s, v26.8h, #0
	bic	v31.8h, #248, lsl #8
	stp	q27, q23, [x12, #160]
	and	v25.16b, v25.16b, v18.16b
	bic	v8.8h, #248, lsl #8
	ushl	v22.4s, v22.4s, v21.4s
	ushl	v29.4s, v29.4s, v21.4s
	ushl	v23.4s, v24.4s, v21.4s
	and	v30.16b, v30.16b, v18.16b
	orr	v24.16b, v25.16b, v28.16b
	ushl	v25.4s, v26.4s, v21.4s
	cmhs	v28.8h, v31.8h, v19.8h
	add	v22.4s, v22.4s, v20.4s
	add	v26.4s, v29.4s, v20.4s
	add	v23.4s, v23.4s, v20.4s
	orr	v27.16b, v30.16b, v9.16b
	cmhs	v30.8h, v8.8h, v19.8h
	sshll	v29.4s, v24.4h, #0
	add	v25.4s, v25.4s, v20.4s
	sshll2	v24.4s, v24.8h, #0
	stp	q26, q22, [x12, #192]
	and	v26.16b, v28.16b, v18.16b
	sshll	v22.4s, v27.4h, #0
	sshll2	v27.4s, v27.8h, #0
	stp	q23, q25, [x12, #224]
	ushl	v28.4s, v29.4s, v21.4s
	and	v29.16b, v30.16b, v18.16b
	ldr	q30, [sp, #1600]
	orr	v23.16b, v26.16b, v31.16b
	ushl	v24.4s, v24.4s, v21.4s
	ushl	v25.4s, v27.4s, v21.4s
	ushl	v22.4s, v22.4s, v21.4s
	add	v26.4s, v28.4s, v20.4s
	ldr	q28, [sp, #1616]
	orr	v27.16b, v29.16b, v8.16b
	ldr	q8, [sp, #1632]
	sshll	v29.4s, v23.4h, #0
	sshll2	v23.4s, v23.8h, #0
	bic	v28.8h, #248, lsl #8
	bic	v30.8h, #248, lsl #8
	add	v24.4s, v24.4s, v20.4s
	sshll	v9.4s, v27.4h, #0
	sshll2	v27.4s, v27.8h, #0
	bic	v8.8h, #248, lsl #8
	ushl	v23.4s, v23.4s, v21.4s
	ushl	v29.4s, v29.4s, v21.4s
	add	v22.4s, v22.4s, v20.4s
	stp	q26, q24, [x12, #256]
	cmhs	v10.8h, v28.8h, v19.8h
	cmhs	v31.8h, v30.8h, v19.8h
	add	v25.4s, v25.4s, v20.4s
	ushl	v24.4s, v27.4s, v21.4s
	ushl	v26.4s, v9.4s, v21.4s
	add	v27.4s, v29.4s, v20.4s
	add	v23.4s, v23.4s, v20.4s
	cmhs	v29.8h, v8.8h, v19.8h
	and	v9.16b, v10.16b, v18.16b
	and	v31.16b, v31.16b, v18.16b
	stp	q22, q25, [x12, #288]
	ldr	q25, [sp, #1648]
	add	v22.4s, v26.4s, v20.4s
	stp	q27, q23, [x12, #320]
	add	v24.4s, v24.4s, v20.4s
	and	v26.16b, v29.16b, v18.16b
	orr	v23.16b, v9.16b, v28.16b
	orr	v30.16b, v31.16b, v30.16b
	bic	v25.8h, #248, lsl #8
	stp	q22, q24, [x12, #352]
	ldr	q22, [sp, #1680]
	orr	v24.16b, v26.16b, v8.16b
	sshll	v26.4s, v23.4h, #0
	sshll2	v29.4s, v23.8h, #0
	ldr	q23, [sp, #1664]
	sshll	v27.4s, v30.4h, #0
	sshll2	v28.4s, v30.8h, #0
	cmhs	v30.8h, v25.8h, v19.8h
	bic	v23.8h, #248, lsl #8
	sshll2	v31.4s, v24.8h, #0
	sshll	v24.4s, v24.4h, #0
	ushl	v29.4s, v29.4s, v21.4s
	ushl	v26.4s, v26.4s, v21.4s
	bic	v22.8h, #248, lsl #8
	ushl	v28.4s, v28.4s, v21.4s
	ushl	v27.4s, v27.4s, v21.4s
	and	v30.16b, v30.16b, v18.16b
	cmhs	v8.8h, v23.8h, v19.8h
	ushl	v31.4s, v31.4s, v21.4s
	ushl	v24.4s, v24.4s, v21.4s
	add	v9.4s, v26.4s, v20.4s
	add	v10.4s, v29.4s, v20.4s
	add	v28.4s, v28.4s, v20.4s
	add	v27.4s, v27.4s, v20.4s
	orr	v26.16b, v30.16b, v25.16b
	ldr	h30, [sp, #192]
	cmhs	v25.8h, v22.8h, v19.8h
	and	v29.16b, v8.16b, v18.16b
	ldur	s8, [sp, #178]
	stp	q9, q10, [x12, #416]
	stp	q27, q28, [x12, #384]
	add	v27.4s, v31.4s, v20.4s
	add	v28.4s, v24.4s, v20.4s
	and	v25.16b, v25.16b, v18.16b
	orr	v23.16b, v29.16b, v23.16b
	sshll	v24.4s, v26.4h, #0
	sshll2	v26.4s, v26.8h, #0
	fmov	s31, w15
	mov	w15, #2139095040
	stp	q28, q27, [x12, #448]
	ldr	q27, [sp, #1696]
	ucvtf	s30, s30
	orr	v25.16b, v25.16b, v22.16b
	ldr	q22, [sp, #1712]
	sshll	v28.4s, v23.4h, #0
	sshll2	v23.4s, v23.8h, #0
	ushl	v24.4s, v24.4s, v21.4s
	ushl	v26.4s, v26.4s, v21.4s
	bic	v27.8h, #248, lsl #8
	ushll	v8.4s, v8.4h, #0
	bic	v22.8h, #248, lsl #8
	sshll	v29.4s, v25.4h, #0
	sshll2	v25.4s, v25.8h, #0
	ushl	v28.4s, v28.4s, v21.4s
	ushl	v23.4s, v23.4s, v21.4s
	add	v24.4s, v24.4s, v20.4s
	add	v26.4s, v26.4s, v20.4s
	cmhs	v10.8h, v27.8h, v19.8h
	ushl	v9.4s, v25.4s, v21.4s
	ushl	v25.4s, v29.4s, v21.4s
	add	v29.4s, v28.4s, v20.4s
	stp	q24, q26, [x12, #480]
	fmov	s28, w15
	mov	w15, #3456
	add	v23.4s, v23.4s, v20.4s
	and	v26.16b, v10.16b, v18.16b
	ldr	h10, [sp, #186]
	add	v25.4s, v25.4s, v20.4s
	fcsel	s24, s31, s28, lo
	add	v28.4s, v9.4s, v20.4s
	mvni	v9.2s, #127, msl #16
	stp	q29, q23, [x12, #512]
	shl	v29.2s, v8.2s, #18
	orr	v27.16b, v26.16b, v27.16b
	ucvtf	s26, s11
	ldr	h11, [sp, #194]
	ucvtf	s10, s10
	fdiv	s23, s30, s24
	stp	q25, q28, [x12, #544]
	dup	v30.2s, w14
	dup	v24.2s, w15
	add	x15, sp, #128
	bic	v29.2s, #124, lsl #16
	add	x15, x15, #512
	fneg	v9.2s, v9.2s
	ucvtf	s11, s11
	cmhs	v31.8h, v22.8h, v19.8h
	sshll	v14.4s, v27.4h, #0
	sshll2	v27.4s, v27.8h, #0
	add	v29.2s, v29.2s, v30.2s
	mov	v26.s[1], v10.s[0]
	cmhs	v10.8h, v12.8h, v19.8h
	cmhi	v24.2s, v24.2s, v8.2s
	and	v8.8b, v8.8b, v15.8b
	and	v31.16b, v31.16b, v18.16b
	ushl	v27.4s, v27.4s, v21.4s
	ushl	v25.4s, v14.4s, v21.4s
	and	v10.16b, v10.16b, v18.16b
	bif	v29.8b, v9.8b, v24.8b
	ldr	q9, [sp, #1744]
	fmov	s24, w13
	ldp	x13, x16, [sp, #24]
	mov	v26.s[2], v13.s[0]
	ldr	q13, [sp, #1776]
	bic	v9.8h, #248, lsl #8
	shl	v8.2s, v8.2s, #23
	fdiv	s24, s11, s24
	ldr	q11, [sp, #1760]
	orr	v22.16b, v31.16b, v22.16b
	bic	v13.8h, #248, lsl #8
	add	v27.4s, v27.4s, v20.4s
	orr	v31.16b, v10.16b, v12.16b
	bic	v11.8h, #248, lsl #8
	cmhs	v28.8h, v9.8h, v19.8h
	add	v30.2s, v8.2s, v30.2s
	mov	v26.s[3], v17.s[0]
	add	v17.4s, v25.4s, v20.4s
	cmhs	v8.8h, v11.8h, v19.8h
	and	v25.16b, v28.16b, v18.16b
	cmhs	v19.8h, v13.8h, v19.8h
	stp	q17, q27, [x12, #576]
	zip1	v28.4s, v29.4s, v30.4s
	sshll	v29.4s, v22.4h, #0
	sshll2	v22.4s, v22.8h, #0
	and	v30.16b, v8.16b, v18.16b
	orr	v17.16b, v25.16b, v9.16b
	and	v18.16b, v19.16b, v18.16b
	sshll	v19.4s, v31.4h, #0
	sshll2	v25.4s, v31.8h, #0
	ushl	v27.4s, v29.4s, v21.4s
	fdiv	v26.4s, v26.4s, v28.4s
	ushl	v22.4s, v22.4s, v21.4s
	orr	v29.16b, v30.16b, v11.16b
	sshll	v28.4s, v17.4h, #0
	sshll2	v17.4s, v17.8h, #0
	orr	v18.16b, v18.16b, v13.16b
	ushl	v25.4s, v25.4s, v21.4s
	ushl	v19.4s, v19.4s, v21.4s
	stp	s23, s24, [x29, #-112]
	add	v27.4s, v27.4s, v20.4s
	add	v22.4s, v22.4s, v20.4s
	sshll2	v30.4s, v29.8h, #0
	ushl	v17.4s, v17.4s, v21.4s
	ushl	v28.4s, v28.4s, v21.4s
	sshll	v29.4s, v29.4h, #0
	sshll2	v31.4s, v18.8h, #0
	sshll	v18.4s, v18.4h, #0
	stp	q27, q22, [x12, #608]
	add	v19.4s, v19.4s, v20.4s
	add	v25.4s, v25.4s, v20.4s
	ushl	v30.4s, v30.4s, v21.4s
	add	v17.4s, v17.4s, v20.4s
	add	v27.4s, v28.4s, v20.4s
	ushl	v22.4s, v29.4s, v21.4s
	ushl	v28.4s, v31.4s, v21.4s
	ushl	v18.4s, v18.4s, v21.4s
	stp	q19, q25, [x12, #640]
	stp	q27, q17, [x12, #672]
	add	v19.4s, v30.4s, v20.4s
	add	v21.4s, v22.4s, v20.4s
	add	v17.4s, v28.4s, v20.4s
	add	v18.4s, v18.4s, v20.4s
	stur	q26, [x29, #-128]
	stp	q21, q19, [x12, #704]
	stp	q18, q17, [x12, #736]
	ldr	x12, [sp, #56]
	ldur	q18, [x29, #-144]
	add	x14, x12, x13
	ldr	x12, [sp, #40]
	ldr	x13, [sp, #16]
	add	x13, x12, x13
	ldr	x12, [sp, #48]
	add	x12, x12, x16
.Lcards_BB2_52:
	ldr	h17, [x15, x11, lsl #1]
	mov	w16, #57344
	sub	x17, x29, #128
	movk	w16, #17663, lsl #16
	ucvtf	s17, s17
	fmov	s19, w16
	lsr	x16, x11, #3
	and	x16, x16, #0x1c
	fdiv	s17, s17, s19
	ldr	s19, [x17, x16]
	fmul	s17, s19, s17
	str	s17, [x14, x11, lsl #2]
	add	x11, x11, #1
	cmp	x11, #192
	b.ne	.Lcards_BB2_52
	ldrh	w14, [sp, #174]
	ldrh	w15, [sp, #176]
	mov	w16, #-2048
	mov	w18, #1065353216
	mov	x11, xzr
	tst	w14, #0x400
	lsr	w17, w15, #5
	csel	w16, wzr, w16, eq
	cmp	w15, #1, lsl #12
	and	w15, w15, #0x1f
	bfxil	w16, w14, #0, #11
	add	w14, w18, w17, lsl #23
	fmov	s17, w14
	mov	w14, #2139095040
	scvtf	s19, w16
	fmov	s20, w14
	add	w14, w18, w15, lsl #23
	add	x15, sp, #128
	fmov	s21, w14
	add	x14, x15, #896
	fcsel	s20, s17, s20, lo
.Lcards_BB2_54:
	ldrh	w15, [x14, x11, lsl #1]
	mov	w16, #-32
	tst	w15, #0x10
	csel	w16, wzr, w16, eq
	bfxil	w16, w15, #0, #5
	scvtf	s17, w16
	fmul	s17, s17, s21
	fadd	s17, s19, s17
	fdiv	s17, s17, s20
	str	s17, [x13, x11, lsl #2]
	add	x11, x11, #1
	cmp	x11, #192
	b.ne	.Lcards_BB2_54
	ldrh	w13, [sp, #170]
	ldrh	w14, [sp, #172]
	mov	w15, #-2048
	mov	w17, #1065353216
	mov	x11, xzr
	tst	w13, #0x400
	lsr	w16, w14, #5
	csel	w15, wzr, w15, eq
	cmp	w14, #1, lsl #12
	and	w14, w14, #0x1f
	bfxil	w15, w13, #0, #11
	add	w13, w17, w16, lsl #23
	fmov	s17, w13
	mov	w13, #2139095040
	scvtf	s19, w15
	fmov	s20, w13
	add	w13, w17, w14, lsl #23
	add	x14, sp, #128
	fmov	s21, w13
	add	x13, x14, #896
	fcsel	s20, s17, s20, lo
.Lcards_BB2_56:
	ldrh	w14, [x13, x11, lsl #1]
	mov	w15, #32
	tst	w15, w14, lsr #5
	mov	w15, #-64
	csel	w15, wzr, w15, eq
	bfxil	w15, w14, #5, #6
	scvtf	s17, w15
	fmul	s17, s17, s21
	fadd	s17, s19, s17
	fdiv	s17, s17, s20
	str	s17, [x12, x11, lsl #2]
	add	x11, x11, #1
	cmp	x11, #192
	b.ne	.Lcards_BB2_56
	ldr	d17, [sp]
	movi	v19.2d, #0000000000000000
	ldrh	w3, [sp, #196]
	ldrh	w4, [sp, #198]
	ldrh	w16, [sp, #200]
	mov	w11, #120
	stur	d17, [x29, #-88]
	ldur	s17, [sp, #226]
	cmp	x20, #7
	ldrh	w18, [sp, #202]
	ldrh	w13, [sp, #204]
	ldrh	w14, [sp, #206]
	ushll	v17.4s, v17.4h, #0
	ldrh	w1, [sp, #208]
	ldrh	w2, [sp, #210]
	ldrh	w6, [sp, #212]
	ldrh	w7, [sp, #214]
	ldrh	w5, [sp, #216]
	ldrh	w21, [sp, #218]
	ldrh	w23, [sp, #220]
	ldrh	w17, [sp, #222]
	ldrh	w0, [sp, #224]
	ldrh	w15, [sp, #230]
	sturh	w8, [x29, #-78]
	sturh	w11, [x29, #-80]
	stp	q19, q19, [x29, #-192]
	sturh	w9, [x29, #-76]
	sturh	w10, [x29, #-74]
	stp	s0, s1, [x29, #-128]
	stp	s2, s3, [x29, #-120]
	stp	s4, s5, [x29, #-112]
	stp	s6, s7, [x29, #-104]
	stp	q19, q19, [x29, #-160]
	b.ne	.Lcards_BB2_59
	mov	w11, #1065353216
	stur	w11, [x29, #-132]
	b	.Lcards_BB2_65
.Lcards_BB2_59:
	sub	x11, x29, #88
	fmov	s19, #1.00000000
	mov	x12, x20
	add	x11, x11, x20, lsl #1
	add	x11, x11, #2
	b	.Lcards_BB2_62
.Lcards_BB2_60:
	neg	w22, w22
	ucvtf	s20, w22
	fadd	s20, s16, s20
	fneg	s20, s20
.Lcards_BB2_61:
	sub	x22, x29, #128
	add	x11, x11, #2
	ldr	s21, [x22, x12, lsl #2]
	add	x12, x12, #1
	cmp	x12, #7
	fmul	s20, s21, s20
	fmov	s21, #1.00000000
	fadd	s20, s20, s21
	fmul	s19, s19, s20
	b.eq	.Lcards_BB2_64
.Lcards_BB2_62:
	ldrsh	w22, [x11]
	ldursh	w24, [x11, #-2]
	sub	x25, x29, #160
	str	s19, [x25, x12, lsl #2]
	subs	w22, w22, w24
	b.mi	.Lcards_BB2_60
	ucvtf	s20, w22
	fadd	s20, s16, s20
	b	.Lcards_BB2_61
.Lcards_BB2_64:
	stur	s19, [x29, #-132]
	cbz	x20, .Lcards_BB2_70
.Lcards_BB2_65:
	sub	x11, x29, #88
	fmov	s19, #1.00000000
	sub	x12, x29, #128
	add	x11, x11, x20, lsl #1
	sub	x22, x29, #160
	sub	x12, x12, #4
	sub	x22, x22, #4
	b	.Lcards_BB2_68
.Lcards_BB2_66:
	neg	w24, w24
	ucvtf	s20, w24
	fadd	s20, s16, s20
	fneg	s20, s20
.Lcards_BB2_67:
	ldr	s21, [x12, x20, lsl #2]
	sub	x24, x20, #1
	fmul	s20, s21, s20
	fmov	s21, #1.00000000
	fadd	s20, s20, s21
	fdiv	s19, s19, s20
	str	s19, [x22, x20, lsl #2]
	mov	x20, x24
	cbz	x24, .Lcards_BB2_70
.Lcards_BB2_68:
	ldrsh	w24, [x11]
	ldrsh	w25, [x11, #-2]!
	subs	w24, w24, w25
	b.mi	.Lcards_BB2_66
	ucvtf	s20, w24
	fadd	s20, s16, s20
	b	.Lcards_BB2_67
.Lcards_BB2_70:
	mov	w24, v17.s[1]
	fmov	w26, s17
	tst	w15, #0x100
	mov	w20, #-512
	mov	w25, #-64
	shl	v16.2s, v17.2s, #17
	csel	w20, wzr, w20, eq
	movi	v19.2s, #32, lsl #8
	fmov	v20.2s, #1.00000000
	mvni	v21.2s, #127, msl #16
	bfxil	w20, w15, #0, #9
	orr	w1, w2, w1, lsl #5
	tst	w24, #0x20
	bic	v16.2s, #126, lsl #16
	orr	w16, w18, w16, lsl #5
	csel	w27, wzr, w25, eq
	tst	w26, #0x20
	ucvtf	s26, w5
	csel	w25, wzr, w25, eq
	bfxil	w27, w24, #0, #6
	fneg	v21.2s, v21.2s
	bfxil	w25, w26, #0, #6
	cmhi	v17.2s, v19.2s, v17.2s
	add	v16.2s, v16.2s, v20.2s
	scvtf	s23, w27
	mov	w24, #1065353216
	cmp	w23, #128
	scvtf	s22, w25
	add	w24, w24, w23, lsl #23
	mov	w25, #2139095040
	bif	v16.8b, v21.8b, v17.8b
	mov	w23, #-2048
	scvtf	s21, w20
	fmov	s17, w24
	movi	v27.2s, #60, lsl #24
	ucvtf	s20, w16
	adrp	x18, .Lcards_CPI2_1
	adrp	x16, .Lcards_CPI2_2
	mov	x12, xzr
	ldp	q30, q29, [x29, #-160]
	ldr	d28, [x16, :lo12:.Lcards_CPI2_2]
	mov	v22.s[1], v23.s[0]
	mov	x22, xzr
	mov	x11, xzr
	orr	w16, w0, w17, lsl #5
	lsl	w14, w14, #5
	lsl	w13, w13, #5
	stp	q30, q29, [sp, #64]
	ubfx	w15, w15, #9, #2
	mov	w17, #1
	stp	q30, q29, [sp, #128]
	mov	w0, #80
	mov	w2, #65496
	fdiv	v23.2s, v22.2s, v16.2s
	fmov	s16, w25
	fcsel	s16, s17, s16, lo
	tst	w7, #0x400
	ucvtf	s17, w21
	csel	w24, wzr, w23, eq
	tst	w6, #0x400
	csel	w25, wzr, w23, eq
	tst	w4, #0x400
	bfxil	w24, w7, #0, #11
	csel	w26, wzr, w23, eq
	tst	w3, #0x400
	bfxil	w25, w6, #0, #11
	csel	w7, wzr, w23, eq
	bfxil	w26, w4, #0, #11
	scvtf	s24, w24
	bfxil	w7, w3, #0, #11
	scvtf	s19, w25
	mov	w3, #1015021568
	fmov	s22, w3
	scvtf	s25, w7
	fdiv	s16, s17, s16
	scvtf	s17, w26
	mov	v24.s[1], v19.s[0]
	fmul	s21, s21, s22
	fmul	s22, s26, s27
	ucvtf	s19, w1
	rev64	v23.2s, v23.2s
	mov	w1, #65516
	mov	v25.s[1], v17.s[0]
	ldr	d17, [x18, :lo12:.Lcards_CPI2_1]
	mov	w18, #120
	fmul	v17.2s, v24.2s, v17.2s
	fmul	v24.2s, v25.2s, v28.2s
	b	.Lcards_BB2_17
.Lcards_func_end2:
	.size	loamchalice_load, .Lcards_func_end2-loamchalice_load

	.section	.text.loamchalice_read_words,"ax",@progbits
	.globl	loamchalice_read_words
	.p2align	2
	.type	loamchalice_read_words,@function
loamchalice_read_words:
	stp	x29, x30, [sp, #-96]!
	stp	x28, x27, [sp, #16]
	mov	x29, sp
	stp	x26, x25, [sp, #32]
	stp	x24, x23, [sp, #48]
	stp	x22, x21, [sp, #64]
	stp	x20, x19, [sp, #80]
	sub	sp, sp, #1712
	mov	x19, x8
	cmp	x0, #0
	mov	w8, #4096
	csel	x26, x8, xzr, eq
	cmp	x2, #0
	mov	x22, x0
	mov	x23, x2
	mov	x20, x1
	csel	x27, x8, xzr, eq
	cmp	x4, #0
	mov	x0, sp
	mov	w1, wzr
	mov	w2, #1664
	str	xzr, [sp]
	mov	x24, x5
	mov	x21, x4
	mov	x25, x3
	csel	x28, x8, xzr, eq
	bl	memset
	movi	v0.2d, #0000000000000000
	cmp	x20, #1663
	stp	q0, q0, [x29, #-48]
	b.hi	.Lcards_BB3_2
.Lcards_BB3_1:
	mov	x8, xzr
	mov	w9, #1
	b	.Lcards_BB3_7
.Lcards_BB3_2:
	cmp	x25, #814
	b.lo	.Lcards_BB3_6
	cmp	x24, #18
	b.lo	.Lcards_BB3_6
	sub	x0, x29, #48
	add	x1, x22, x26
	mov	x2, sp
	add	x24, x22, x26
	bl	loamchalice.cards.card.decode
	ldurb	w8, [x29, #-48]
	cmp	w8, #1
	b.ne	.Lcards_BB3_8
	ldur	x20, [x29, #-40]
	mov	w9, #3
	ldrh	w8, [x24, x20, lsl #1]
	rev16	w8, w8
	b	.Lcards_BB3_7
.Lcards_BB3_6:
	mov	x20, xzr
	mov	x8, xzr
	mov	w9, #2
.Lcards_BB3_7:
	stp	x9, x20, [x19]
	str	x8, [x19, #16]
	add	sp, sp, #1712
	ldp	x20, x19, [sp, #80]
	ldp	x22, x21, [sp, #64]
	ldp	x24, x23, [sp, #48]
	ldp	x26, x25, [sp, #32]
	ldp	x28, x27, [sp, #16]
	ldp	x29, x30, [sp], #96
	ret
.Lcards_BB3_8:
	cbz	w8, .Lcards_BB3_10
	mov	x20, xzr
	b	.Lcards_BB3_1
.Lcards_BB3_10:
	add	x12, x26, x22
	mov	x8, xzr
	mov	x9, xzr
	add	x10, x23, x27
	add	x11, x21, x28
	add	x12, x12, #1
.Lcards_BB3_11:
	cmp	x8, #63
	b.hi	.Lcards_BB3_14
	mov	w13, #1
	mov	x14, #31522816
	lsl	x13, x13, x8
	movk	x14, #31948, lsl #32
	movk	x14, #64542, lsl #48
	tst	x13, x14
	b.eq	.Lcards_BB3_14
.Lcards_BB3_13:
	mov	x13, sp
	ldrh	w13, [x13, x8, lsl #1]
	strh	w13, [x10, x9, lsl #1]
	add	x9, x9, #1
	add	x8, x8, #1
	add	x12, x12, #2
	cmp	x8, #832
	b.ne	.Lcards_BB3_11
	b	.Lcards_BB3_18
.Lcards_BB3_14:
	cmp	x8, #41
	b.hi	.Lcards_BB3_13
	cmp	x8, #16
	b.lo	.Lcards_BB3_17
	sub	x13, x8, #21
	cmn	x13, #3
	b.ls	.Lcards_BB3_13
.Lcards_BB3_17:
	ldurh	w13, [x12, #-1]
	sub	x14, x11, x9, lsl #1
	rev	w13, w13
	lsr	w13, w13, #16
	strh	w13, [x14, x8, lsl #1]
	add	x8, x8, #1
	add	x12, x12, #2
	cmp	x8, #832
	b.ne	.Lcards_BB3_11
.Lcards_BB3_18:
	mov	x9, xzr
	mov	x20, xzr
	mov	x8, xzr
	b	.Lcards_BB3_7
.Lcards_func_end3:
	.size	loamchalice_read_words, .Lcards_func_end3-loamchalice_read_words

	.section	.text.loamchalice_subpage_offsets,"ax",@progbits
	.globl	loamchalice_subpage_offsets
	.p2align	2
	.type	loamchalice_subpage_offsets,@function
loamchalice_subpage_offsets:
	cmp	x1, #192
	mov	w8, #192
	mov	x0, xzr
	csel	x9, xzr, x8, lo
	cmp	x3, #192
	csel	x8, xzr, x8, lo
	tst	w4, #0xff
	csel	x1, x9, x8, eq
	ret
.Lcards_func_end4:
	.size	loamchalice_subpage_offsets, .Lcards_func_end4-loamchalice_subpage_offsets

	.section	.rodata.cst8,"aM",@progbits,8
	.p2align	3, 0x0
.Lcards_CPI5_0:
	.hword	1371
	.hword	1645
	.hword	1934
	.hword	2032
.Lcards_CPI5_1:
	.hword	11
	.hword	12
	.hword	13
	.hword	14
.Lcards_CPI5_2:
	.hword	2048
	.hword	4096
	.hword	8192
	.hword	16384
	.section	.text.loamchalice_write,"ax",@progbits
	.globl	loamchalice_write
	.p2align	2
	.type	loamchalice_write,@function
loamchalice_write:
	cmp	x0, #0
	mov	w11, #4096
	csel	x9, x11, xzr, eq
	cmp	x2, #0
	csel	x10, x11, xzr, eq
	cmp	x4, #0
	csel	x12, x11, xzr, eq
	cmp	x1, #814
	b.ne	.Lcards_BB5_4
	cmp	x3, #18
	b.ne	.Lcards_BB5_5
	cmp	x5, #1664
	b.hs	.Lcards_BB5_6
	mov	w10, #2
	stp	x10, xzr, [x8]
	str	xzr, [x8, #16]
	ret
.Lcards_BB5_4:
	mov	w10, #1
	stp	x10, x1, [x8]
	str	xzr, [x8, #16]
	ret
.Lcards_BB5_5:
	mov	w10, #1
	stp	x10, x3, [x8]
	str	xzr, [x8, #16]
	ret
.Lcards_BB5_6:
	mov	x1, xzr
	add	x9, x0, x9
	add	x10, x2, x10
.Lcards_BB5_7:
	ldrh	w11, [x9, x1, lsl #1]
	cmp	w11, #2047
	b.hi	.Lcards_BB5_24
	add	x1, x1, #1
	cmp	x1, #814
	b.ne	.Lcards_BB5_7
	add	x12, x12, x4
	mov	x11, xzr
	mov	x13, #-21
	add	x12, x12, #1
.Lcards_BB5_10:
	add	x14, x13, #21
	mov	w15, #1
	lsl	x16, x15, x14
	mov	x15, #31522816
	cmp	x14, #63
	movk	x15, #31948, lsl #32
	movk	x15, #64542, lsl #48
	and	x16, x16, x15
	ccmp	x16, #0, #4, ls
	b.eq	.Lcards_BB5_17
.Lcards_BB5_11:
	ldrh	w16, [x9, x11, lsl #1]
	cmp	w16, #2047
	b.hi	.Lcards_BB5_13
	dup	v0.4h, w16
	adrp	x17, .Lcards_CPI5_0
	ldr	d1, [x17, :lo12:.Lcards_CPI5_0]
	adrp	x17, .Lcards_CPI5_1
	and	v0.8b, v0.8b, v1.8b
	ldr	d1, [x17, :lo12:.Lcards_CPI5_1]
	adrp	x17, .Lcards_CPI5_2
	cnt	v0.8b, v0.8b
	uaddlp	v0.4h, v0.8b
	ushl	v0.4h, v0.4h, v1.4h
	ldr	d1, [x17, :lo12:.Lcards_CPI5_2]
	and	v0.8b, v0.8b, v1.8b
	fmov	x17, d0
	orr	x17, x17, x17, lsr #32
	lsr	x18, x17, #16
	orr	w17, w17, w16
	orr	w17, w17, w18
	and	w18, w17, #0xffff
	eor	w18, w18, w18, lsr #8
	eor	w18, w18, w18, lsr #4
	eor	w18, w18, w18, lsr #2
	eor	w18, w18, w18, lsr #1
	orr	w17, w17, w18, lsl #15
	ubfx	w17, w17, #8, #8
	cmp	x14, #63
	sturb	w17, [x12, #-1]
	strb	w16, [x12]
	b.ls	.Lcards_BB5_14
	b	.Lcards_BB5_21
.Lcards_BB5_13:
	cmp	x14, #63
	sturb	wzr, [x12, #-1]
	strb	wzr, [x12]
	b.hi	.Lcards_BB5_21
.Lcards_BB5_14:
	mov	w16, #1
	lsl	x16, x16, x14
	tst	x16, x15
	b.eq	.Lcards_BB5_21
.Lcards_BB5_15:
	add	x11, x11, #1
.Lcards_BB5_16:
	add	x13, x13, #1
	add	x10, x10, #2
	add	x12, x12, #2
	cmp	x13, #811
	b.ne	.Lcards_BB5_10
	b	.Lcards_BB5_25
.Lcards_BB5_17:
	cmp	x14, #41
	b.hi	.Lcards_BB5_11
	cmp	x14, #16
	b.lo	.Lcards_BB5_20
	cmn	x13, #3
	b.ls	.Lcards_BB5_11
.Lcards_BB5_20:
	sub	x16, x10, x11, lsl #1
	ldrh	w16, [x16]
	lsr	w17, w16, #8
	cmp	x14, #63
	sturb	w17, [x12, #-1]
	strb	w16, [x12]
	b.ls	.Lcards_BB5_14
.Lcards_BB5_21:
	cmp	x14, #41
	b.hi	.Lcards_BB5_15
	cmp	x14, #16
	b.lo	.Lcards_BB5_16
	cmn	x13, #2
	cinc	x11, x11, lo
	b	.Lcards_BB5_16
.Lcards_BB5_24:
	ldrh	w9, [x9, x1, lsl #1]
	mov	w10, #9
	stp	x10, x1, [x8]
	str	x9, [x8, #16]
	ret
.Lcards_BB5_25:
	stp	xzr, xzr, [x8]
	str	xzr, [x8, #16]
	ret
.Lcards_func_end5:
	.size	loamchalice_write, .Lcards_func_end5-loamchalice_write

// frames
	.section	.text.frames.pixels.frame_pixels,"ax",@progbits
	.p2align	2
	.type	loamchalice.frames.pixels.frame_pixels,@function
loamchalice.frames.pixels.frame_pixels:
	stp	d15, d14, [sp, #-160]!
	stp	d13, d12, [sp, #16]
	stp	d11, d10, [sp, #32]
	stp	d9, d8, [sp, #48]
	stp	x29, x30, [sp, #64]
	add	x29, sp, #64
	stp	x28, x27, [sp, #80]
	stp	x26, x25, [sp, #96]
	stp	x24, x23, [sp, #112]
	stp	x22, x21, [sp, #128]
	stp	x20, x19, [sp, #144]
	sub	sp, sp, #1024
	ldp	x24, x18, [x0]
	mov	x20, x1
	ldp	s8, s0, [x0, #28]
	ldr	x8, [x2]
	ldp	s9, s1, [x0, #36]
	ldr	x5, [x0, #16]
	ldrb	w1, [x0, #24]
	ldrb	w10, [x0, #44]
	ldr	s10, [x0, #48]
	ldrb	w6, [x0, #52]
	ldr	w11, [x0, #80]
	ldr	x7, [x2, #16]
	ldr	x19, [x2, #32]
	ldr	x30, [x2, #48]
	ldr	x2, [x2, #64]
	ldur	q2, [x0, #56]
	ldr	x12, [x3]
	ldr	x26, [x3, #16]
	ldr	x9, [x0, #72]
	ldr	x13, [x3, #32]
	ldr	x14, [x3, #48]
	str	q2, [sp, #592]
	str	x9, [sp, #608]
	cbz	x24, .Lframes_BB0_35
	mov	w9, #13107
	fmov	s2, #-25.00000000
	stp	x14, x13, [sp, #72]
	movk	w9, #49235, lsl #16
	mov	x0, xzr
	mov	x13, xzr
	fmov	s3, w9
	add	x3, x8, #1
	str	x11, [sp, #88]
	fadd	s11, s1, s2
	str	w10, [sp, #100]
	str	x12, [sp, #200]
	fadd	s12, s0, s3
.Lframes_BB0_2:
	lsl	x11, x13, #7
	add	x8, x3, x13, lsl #6
	add	x22, x20, x13, lsl #5
	mov	x28, xzr
	mov	x27, x13
	add	x9, x19, x11
	add	x10, x7, x11
	add	x25, x12, x11
	add	x21, x4, x11
.Lframes_BB0_3:
	lsl	x23, x27, #5
	add	x11, x20, x23
	ldp	q1, q0, [x11]
	orr	v0.16b, v1.16b, v0.16b
	ext	v1.16b, v0.16b, v0.16b, #8
	orr	v0.8b, v0.8b, v1.8b
	fmov	x11, d0
	orr	x11, x11, x11, lsr #32
	lsr	x12, x11, #16
	orr	w11, w11, w12
	orr	w11, w11, w11, lsr #8
	tst	w11, #0xff
	b.ne	.Lframes_BB0_5
	add	x27, x27, #1
	add	x28, x28, #1
	add	x9, x9, #128
	add	x10, x10, #128
	add	x8, x8, #64
	cmp	x27, x24
	add	x25, x25, #128
	add	x21, x21, #128
	add	x22, x22, #32
	b.lo	.Lframes_BB0_3
	b	.Lframes_BB0_36
.Lframes_BB0_5:
	movi	v0.2d, #0000000000000000
	add	x11, x4, x27, lsl #7
	str	x13, [sp, #192]
	str	x11, [sp, #104]
	stp	q0, q0, [sp, #208]
	stp	q0, q0, [sp, #240]
	stp	q0, q0, [sp, #272]
	stp	q0, q0, [sp, #304]
	stp	q0, q0, [sp, #336]
	stp	q0, q0, [sp, #368]
	stp	q0, q0, [sp, #400]
	stp	q0, q0, [sp, #432]
	stp	q0, q0, [sp, #464]
	stp	q0, q0, [sp, #496]
	stp	q0, q0, [sp, #528]
	stp	q0, q0, [sp, #560]
	cbz	w1, .Lframes_BB0_7
	ldp	q1, q2, [x11]
	mvni	v0.4s, #127, msl #16
	ldp	q4, q5, [x11, #32]
	mvni	v3.4s, #63, msl #16
	ldp	q7, q16, [x11, #64]
	mov	v6.16b, v1.16b
	fneg	v0.4s, v0.4s
	mov	v19.16b, v2.16b
	ldp	q17, q18, [x11, #96]
	mov	v20.16b, v4.16b
	mov	v21.16b, v5.16b
	fneg	v3.4s, v3.4s
	mov	v22.16b, v7.16b
	bic	v6.4s, #128, lsl #24
	bic	v19.4s, #128, lsl #24
	mov	v23.16b, v16.16b
	bic	v20.4s, #128, lsl #24
	mov	v24.16b, v17.16b
	bic	v21.4s, #128, lsl #24
	bic	v22.4s, #128, lsl #24
	cmhi	v6.4s, v6.4s, v0.4s
	cmhi	v19.4s, v19.4s, v0.4s
	bic	v23.4s, #128, lsl #24
	cmhi	v20.4s, v20.4s, v0.4s
	bic	v24.4s, #128, lsl #24
	cmhi	v21.4s, v21.4s, v0.4s
	bit	v1.16b, v3.16b, v6.16b
	mov	v6.16b, v18.16b
	bit	v2.16b, v3.16b, v19.16b
	cmhi	v19.4s, v22.4s, v0.4s
	bit	v4.16b, v3.16b, v20.16b
	cmhi	v20.4s, v23.4s, v0.4s
	bit	v5.16b, v3.16b, v21.16b
	cmhi	v21.4s, v24.4s, v0.4s
	bic	v6.4s, #128, lsl #24
	stp	q1, q2, [sp, #464]
	mov	v1.16b, v20.16b
	mov	v2.16b, v21.16b
	cmhi	v0.4s, v6.4s, v0.4s
	mov	v6.16b, v19.16b
	stp	q4, q5, [sp, #496]
	bsl	v1.16b, v3.16b, v16.16b
	bsl	v2.16b, v3.16b, v17.16b
	bsl	v6.16b, v3.16b, v7.16b
	bsl	v0.16b, v3.16b, v18.16b
	stp	q6, q1, [sp, #528]
	stp	q2, q0, [sp, #560]
	b	.Lframes_BB0_14
.Lframes_BB0_7:
	cbz	x18, .Lframes_BB0_37
	cbz	x5, .Lframes_BB0_37
	udiv	x11, x27, x18
	ldr	w13, [sp, #100]
	udiv	x12, x27, x5
	msub	x11, x11, x18, x27
	lsl	x11, x11, #5
	msub	x12, x12, x5, x27
	lsl	x12, x12, #5
	cbz	w13, .Lframes_BB0_12
	mov	x13, xzr
	mov	x14, xzr
.Lframes_BB0_11:
	ldr	w15, [x10], #4
	mov	w17, #1199570944
	fmov	s2, w17
	ldr	s1, [x9], #4
	asr	w16, w15, #16
	and	w15, w15, #0xffff
	ucvtf	s3, w15
	fmul	s1, s11, s1
	scvtf	s0, w16
	ldurh	w16, [x8, #-1]
	add	x8, x8, #2
	rev	w15, w16
	add	x16, x14, x11
	asr	w15, w15, #16
	ldr	s4, [x30, x16, lsl #2]
	fmul	s0, s0, s2
	fmov	s2, #1.00000000
	scvtf	s5, w15
	add	x15, x14, x12
	add	x14, x14, #1
	fadd	s1, s1, s2
	fadd	s0, s3, s0
	fmul	s3, s12, s4
	fmul	s4, s8, s5
	fmul	s0, s1, s0
	fadd	s1, s3, s2
	ldr	s2, [x2, x15, lsl #2]
	add	x15, sp, #464
	fadd	s2, s2, s4
	fmul	s0, s1, s0
	fsub	s0, s2, s0
	fdiv	s0, s0, s9
	fsub	s0, s0, s10
	str	s0, [x15, x13]
	add	x13, x13, #4
	cmp	x13, #128
	b.ne	.Lframes_BB0_11
	b	.Lframes_BB0_14
.Lframes_BB0_12:
	mov	x13, xzr
	mov	x14, xzr
.Lframes_BB0_13:
	ldr	w15, [x10, x13]
	mov	w17, #1199570944
	ldr	s1, [x9, x13]
	fmov	s2, w17
	asr	w16, w15, #16
	and	w15, w15, #0xffff
	fmul	s1, s11, s1
	ucvtf	s3, w15
	scvtf	s0, w16
	ldurh	w16, [x8, #-1]
	add	x8, x8, #2
	rev	w15, w16
	add	x16, x14, x11
	asr	w15, w15, #16
	ldr	s4, [x30, x16, lsl #2]
	fmul	s0, s0, s2
	fmov	s2, #1.00000000
	scvtf	s5, w15
	add	x15, x14, x12
	add	x14, x14, #1
	fadd	s1, s1, s2
	fadd	s0, s3, s0
	fmul	s3, s12, s4
	fmul	s4, s8, s5
	fmul	s0, s1, s0
	fadd	s1, s3, s2
	ldr	s2, [x2, x15, lsl #2]
	add	x15, sp, #464
	fadd	s2, s2, s4
	fmul	s0, s1, s0
	fsub	s0, s2, s0
	fdiv	s0, s0, s9
	str	s0, [x15, x13]
	add	x13, x13, #4
	cmp	x13, #128
	b.ne	.Lframes_BB0_13
.Lframes_BB0_14:
	movi	v0.2d, #0000000000000000
	cmp	w6, #2
	stp	x18, x4, [sp, #176]
	str	x5, [sp, #168]
	stp	w6, w1, [sp, #160]
	stp	x19, x7, [sp, #144]
	stp	q0, q0, [sp, #624]
	stp	q0, q0, [sp, #656]
	stp	q0, q0, [sp, #688]
	stp	q0, q0, [sp, #720]
	stp	x2, x30, [sp, #128]
	stp	x3, x0, [sp, #112]
	b.eq	.Lframes_BB0_17
	ldr	x1, [sp, #200]
	cmp	w6, #1
	b.ne	.Lframes_BB0_24
	add	x0, sp, #592
	add	x3, sp, #464
	add	x4, sp, #624
	mov	x2, x23
	bl	loamchalice.frames.pixels.temperature_block
	b	.Lframes_BB0_28
.Lframes_BB0_17:
	ldrb	w8, [sp, #592]
	ldr	x1, [sp, #200]
	add	x0, sp, #592
	ldr	s15, [sp, #596]
	ldr	s13, [sp, #600]
	add	x3, sp, #464
	ldr	s14, [sp, #604]
	add	x4, sp, #624
	mov	x2, x23
	stp	q0, q0, [x29, #-208]
	stp	q0, q0, [x29, #-176]
	stp	q0, q0, [x29, #-144]
	stp	q0, q0, [x29, #-112]
	stp	q0, q0, [sp, #752]
	stp	q0, q0, [sp, #784]
	stp	q0, q0, [sp, #816]
	str	w8, [sp, #68]
	stp	q0, q0, [sp, #848]
	bl	loamchalice.frames.pixels.temperature_block
	ldp	x12, x11, [sp, #80]
	ldr	x13, [sp, #72]
	cbz	w11, .Lframes_BB0_21
	ldr	s0, [sp, #624]
	ldr	s17, [sp, #628]
	mov	x8, xzr
	ldr	s1, [sp, #640]
	ldr	s2, [sp, #656]
	ldr	s3, [sp, #672]
	ldr	s4, [sp, #688]
	ldr	s5, [sp, #704]
	ldr	s6, [sp, #720]
	mov	v0.s[1], v17.s[0]
	ldr	s17, [sp, #736]
	ldr	s24, [sp, #644]
	ldr	s25, [sp, #660]
	ldr	s26, [sp, #676]
	ldr	s27, [sp, #692]
	mov	v1.s[1], v24.s[0]
	ldr	s29, [sp, #708]
	ldr	s28, [sp, #724]
	mov	v2.s[1], v25.s[0]
	mov	v3.s[1], v26.s[0]
	mov	v4.s[1], v27.s[0]
	ldr	s30, [sp, #740]
	mov	v5.s[1], v29.s[0]
	mov	v6.s[1], v28.s[0]
	ldr	s7, [sp, #632]
	ldr	s16, [sp, #648]
	ldr	s18, [sp, #664]
	mov	v17.s[1], v30.s[0]
	ldr	s20, [sp, #680]
	ldr	s25, [sp, #696]
	ldr	s26, [sp, #712]
	mov	v0.s[2], v7.s[0]
	mov	v1.s[2], v16.s[0]
	ldr	s27, [sp, #728]
	ldr	s7, [sp, #744]
	mov	v2.s[2], v18.s[0]
	mov	v3.s[2], v20.s[0]
	mov	v4.s[2], v25.s[0]
	mov	v5.s[2], v26.s[0]
	mov	v6.s[2], v27.s[0]
	mov	v17.s[2], v7.s[0]
	ldr	s19, [sp, #636]
	ldr	s21, [sp, #652]
	ldr	s22, [sp, #668]
	ldr	s23, [sp, #684]
	ldr	s16, [sp, #748]
	ldr	s24, [sp, #700]
	ldr	s28, [sp, #716]
	ldr	s29, [sp, #732]
	mov	v0.s[3], v19.s[0]
	mov	v1.s[3], v21.s[0]
	mov	v2.s[3], v22.s[0]
	mov	v3.s[3], v23.s[0]
	mov	v4.s[3], v24.s[0]
	mov	v5.s[3], v28.s[0]
	mov	v6.s[3], v29.s[0]
	mov	v17.s[3], v16.s[0]
	movi	v7.2d, #0000000000000000
	movi	v16.2d, #0000000000000000
	movi	v18.2d, #0000000000000000
	movi	v19.2d, #0000000000000000
	movi	v20.2d, #0000000000000000
	movi	v21.2d, #0000000000000000
	movi	v22.2d, #0000000000000000
	movi	v23.2d, #0000000000000000
	str	s10, [sp, #64]
.Lframes_BB0_19:
	ldrsh	w9, [x26, x8, lsl #1]
	dup	v10.4s, w8
	add	x8, x8, #1
	cmp	x11, x8
	scvtf	s24, w9
	dup	v24.4s, v24.s[0]
	fcmge	v25.4s, v0.4s, v24.4s
	fcmge	v26.4s, v1.4s, v24.4s
	fcmge	v27.4s, v2.4s, v24.4s
	fcmge	v28.4s, v3.4s, v24.4s
	fcmge	v29.4s, v4.4s, v24.4s
	fcmge	v30.4s, v5.4s, v24.4s
	fcmge	v31.4s, v6.4s, v24.4s
	fcmge	v24.4s, v17.4s, v24.4s
	cmlt	v25.4s, v25.4s, #0
	cmlt	v26.4s, v26.4s, #0
	cmlt	v27.4s, v27.4s, #0
	cmlt	v28.4s, v28.4s, #0
	cmlt	v29.4s, v29.4s, #0
	cmlt	v30.4s, v30.4s, #0
	cmlt	v31.4s, v31.4s, #0
	cmlt	v24.4s, v24.4s, #0
	bit	v7.16b, v10.16b, v25.16b
	bit	v16.16b, v10.16b, v26.16b
	bit	v18.16b, v10.16b, v27.16b
	bit	v19.16b, v10.16b, v28.16b
	bit	v20.16b, v10.16b, v29.16b
	bit	v21.16b, v10.16b, v30.16b
	bit	v22.16b, v10.16b, v31.16b
	bit	v23.16b, v10.16b, v24.16b
	b.ne	.Lframes_BB0_19
	ldr	s10, [sp, #64]
	stp	q7, q16, [x29, #-208]
	stp	q18, q19, [x29, #-176]
	stp	q20, q21, [x29, #-144]
	stp	q22, q23, [x29, #-112]
.Lframes_BB0_21:
	ldr	w8, [sp, #68]
	cbz	w8, .Lframes_BB0_25
	mov	x8, xzr
.Lframes_BB0_23:
	sub	x9, x29, #208
	ldr	s1, [x25], #4
	ldr	w9, [x9, x8]
	fsub	s1, s1, s15
	ldrsh	w10, [x26, x9, lsl #1]
	ldr	s3, [x13, x9, lsl #2]
	scvtf	s0, w10
	add	x10, sp, #624
	ldr	s2, [x10, x8]
	fmul	s1, s13, s1
	fsub	s0, s2, s0
	ldr	s2, [x12, x9, lsl #2]
	fmul	s1, s1, s3
	add	x9, sp, #464
	fmul	s0, s2, s0
	fmov	s2, #1.00000000
	fadd	s0, s0, s2
	fmul	s0, s1, s0
	ldr	s1, [x9, x8]
	add	x9, sp, #752
	fdiv	s0, s1, s0
	fadd	s0, s14, s0
	str	s0, [x9, x8]
	add	x8, x8, #4
	cmp	x8, #128
	b.ne	.Lframes_BB0_23
	b	.Lframes_BB0_27
.Lframes_BB0_24:
	ldr	s0, [sp, #464]
	ldr	s1, [sp, #468]
	mov	w8, #2143289344
	fmov	s2, s0
	fmov	w9, s0
	ldr	s0, [sp, #472]
	fmov	s3, s0
	fcmp	s2, s2
	fmov	s2, s1
	cset	w12, vs
	csel	w15, w8, w9, vs
	fmov	w9, s1
	str	w15, [sp, #336]
	fcmp	s2, s2
	ldr	s2, [sp, #476]
	fmov	s1, s2
	cset	w10, vs
	csel	w14, w8, w9, vs
	fcmp	s3, s3
	fmov	w9, s0
	ldr	s0, [sp, #480]
	stp	w12, w10, [sp, #208]
	fmov	s3, s0
	str	w14, [sp, #340]
	cset	w13, vs
	csel	w11, w8, w9, vs
	fcmp	s1, s1
	fmov	w9, s2
	ldr	s1, [sp, #484]
	str	w11, [sp, #344]
	fmov	s2, s1
	cset	w16, vs
	csel	w9, w8, w9, vs
	fcmp	s3, s3
	stp	w13, w16, [sp, #216]
	str	w9, [sp, #64]
	fmov	w9, s0
	ldr	s0, [sp, #488]
	cset	w17, vs
	fmov	s3, s0
	csel	w19, w8, w9, vs
	fcmp	s2, s2
	fmov	w9, s1
	ldr	s2, [sp, #492]
	str	w17, [sp, #60]
	str	w19, [sp, #352]
	csel	w9, w8, w9, vs
	cset	w17, vs
	fcmp	s3, s3
	str	w9, [sp, #48]
	fmov	s1, s2
	fmov	w9, s0
	ldr	s0, [sp, #496]
	str	w17, [sp, #68]
	cset	w17, vs
	csel	w9, w8, w9, vs
	fmov	s3, s0
	stp	w17, w9, [sp, #52]
	fcmp	s1, s1
	fmov	w9, s2
	ldr	s1, [sp, #500]
	csel	w9, w8, w9, vs
	fmov	s2, s1
	cset	w17, vs
	str	w9, [sp, #32]
	fcmp	s3, s3
	fmov	w9, s0
	ldr	s0, [sp, #504]
	str	w17, [sp, #44]
	csel	w9, w8, w9, vs
	cset	w17, vs
	fcmp	s2, s2
	str	w9, [sp, #40]
	ldr	s2, [sp, #508]
	fmov	s3, s0
	fmov	w9, s1
	str	w17, [sp, #28]
	fmov	s1, s2
	cset	w17, vs
	str	w17, [sp, #36]
	csel	w9, w8, w9, vs
	fcmp	s3, s3
	str	w9, [sp, #16]
	fmov	w9, s0
	ldr	s0, [sp, #512]
	cset	w17, vs
	fmov	s3, s0
	csel	w9, w8, w9, vs
	fcmp	s1, s1
	ldr	s1, [sp, #516]
	stp	w17, w9, [sp, #20]
	fmov	w9, s2
	fmov	s2, s1
	cset	w17, vs
	csel	w25, w8, w9, vs
	fcmp	s3, s3
	fmov	w9, s0
	ldr	s0, [sp, #520]
	str	w25, [sp, #380]
	cset	w7, vs
	csel	w9, w8, w9, vs
	fcmp	s2, s2
	ldr	s2, [sp, #524]
	fmov	s3, s0
	stp	w9, w17, [sp, #8]
	fmov	w9, s1
	ldr	w25, [sp, #12]
	fmov	s1, s2
	cset	w30, vs
	stp	w25, w7, [sp, #252]
	csel	w4, w8, w9, vs
	fcmp	s3, s3
	fmov	w9, s0
	ldr	s0, [sp, #528]
	str	w4, [sp, #388]
	str	w30, [sp, #260]
	fmov	s3, s0
	cset	w5, vs
	csel	w6, w8, w9, vs
	fcmp	s1, s1
	ldr	s1, [sp, #532]
	fmov	w9, s2
	str	w5, [sp, #264]
	fmov	s2, s1
	str	w6, [sp, #392]
	csel	w1, w8, w9, vs
	cset	w2, vs
	fcmp	s3, s3
	fmov	w9, s0
	ldr	s0, [sp, #536]
	str	w1, [sp, #396]
	str	w2, [sp, #268]
	cset	w0, vs
	fmov	s3, s0
	csel	w3, w8, w9, vs
	fcmp	s2, s2
	fmov	w9, s1
	ldr	s2, [sp, #540]
	ldr	s1, [sp, #544]
	str	w0, [sp, #272]
	str	w3, [sp, #400]
	csel	w17, w8, w9, vs
	cset	w18, vs
	fcmp	s3, s3
	ldp	w10, w9, [sp, #60]
	fmov	s3, s1
	str	w17, [sp, #404]
	cset	w15, vs
	str	w18, [sp, #276]
	str	w9, [sp, #348]
	fmov	w9, s0
	fmov	s0, s2
	str	w15, [sp, #280]
	csel	w16, w8, w9, vs
	ldr	w9, [sp, #48]
	fcmp	s0, s0
	str	w16, [sp, #408]
	str	w9, [sp, #356]
	ldr	w9, [sp, #68]
	ldr	s0, [sp, #548]
	stp	w10, w9, [sp, #224]
	fmov	w9, s2
	cset	w14, vs
	ldr	s2, [sp, #552]
	str	w14, [sp, #284]
	csel	w13, w8, w9, vs
	ldp	w10, w9, [sp, #52]
	fcmp	s3, s3
	str	w10, [sp, #232]
	ldr	w10, [sp, #44]
	fmov	s3, s2
	str	w9, [sp, #360]
	ldr	w9, [sp, #32]
	str	w10, [sp, #236]
	cset	w11, vs
	str	w9, [sp, #364]
	fmov	w9, s1
	fmov	s1, s0
	ldp	w19, w10, [sp, #24]
	str	w13, [sp, #412]
	csel	w12, w8, w9, vs
	ldr	w9, [sp, #40]
	str	w11, [sp, #288]
	fcmp	s1, s1
	str	w19, [sp, #376]
	fmov	w19, s2
	str	w9, [sp, #368]
	ldr	w9, [sp, #16]
	ldr	s1, [sp, #556]
	ldr	s2, [sp, #560]
	str	w12, [sp, #416]
	str	w9, [sp, #372]
	ldr	w9, [sp, #36]
	fmov	w6, s2
	stp	w10, w9, [sp, #240]
	fmov	w9, s0
	ldr	w10, [sp, #20]
	fmov	s0, s1
	str	w10, [sp, #248]
	cset	w10, vs
	csel	w9, w8, w9, vs
	fcmp	s3, s3
	fmov	s3, s2
	ldr	s2, [sp, #568]
	str	w9, [sp, #420]
	str	w10, [sp, #292]
	csel	w7, w8, w19, vs
	ldr	w19, [sp, #8]
	cset	w25, vs
	fcmp	s0, s0
	ldr	s0, [sp, #564]
	fmov	w13, s2
	str	w19, [sp, #384]
	fmov	w19, s1
	fmov	s1, s0
	fmov	w17, s0
	str	w25, [sp, #296]
	cset	w4, vs
	str	w7, [sp, #424]
	csel	w5, w8, w19, vs
	fcmp	s3, s3
	fmov	s3, s2
	ldr	s2, [sp, #576]
	str	w5, [sp, #428]
	str	w4, [sp, #300]
	cset	w1, vs
	csel	w0, w8, w6, vs
	fcmp	s1, s1
	ldr	s1, [sp, #572]
	fmov	w12, s2
	str	w1, [sp, #304]
	str	w0, [sp, #432]
	fmov	s0, s1
	cset	w15, vs
	csel	w17, w8, w17, vs
	fcmp	s3, s3
	fmov	s3, s2
	fmov	w9, s1
	ldr	s2, [sp, #584]
	str	w17, [sp, #436]
	cset	w11, vs
	csel	w13, w8, w13, vs
	fcmp	s0, s0
	ldr	s0, [sp, #580]
	fmov	s1, s0
	cset	w10, vs
	csel	w9, w8, w9, vs
	fcmp	s3, s3
	cset	w14, vs
	csel	w12, w8, w12, vs
	fcmp	s1, s1
	ldr	s1, [sp, #588]
	b	.Lframes_BB0_29
.Lframes_BB0_25:
	mov	x8, xzr
.Lframes_BB0_26:
	sub	x9, x29, #208
	ldr	w9, [x9, x8]
	ldrsh	w10, [x26, x9, lsl #1]
	ldr	s2, [x12, x9, lsl #2]
	ldr	s3, [x13, x9, lsl #2]
	add	x9, sp, #464
	scvtf	s0, w10
	add	x10, sp, #624
	ldr	s1, [x10, x8]
	fsub	s0, s1, s0
	ldr	s1, [x25, x8]
	fmul	s1, s13, s1
	fmul	s0, s2, s0
	fmov	s2, #1.00000000
	fmul	s1, s1, s3
	fadd	s0, s0, s2
	fmul	s0, s1, s0
	ldr	s1, [x9, x8]
	add	x9, sp, #752
	fdiv	s0, s1, s0
	fadd	s0, s14, s0
	str	s0, [x9, x8]
	add	x8, x8, #4
	cmp	x8, #128
	b.ne	.Lframes_BB0_26
.Lframes_BB0_27:
	add	x0, sp, #752
	add	x1, sp, #624
	bl	loamchalice.frames.pixels.degrees_block
.Lframes_BB0_28:
	ldr	s0, [sp, #624]
	ldr	s1, [sp, #628]
	mov	w8, #2143289344
	fmov	s2, s0
	fmov	w9, s0
	ldr	s0, [sp, #632]
	fmov	s3, s0
	fcmp	s2, s2
	fmov	s2, s1
	cset	w12, vs
	csel	w15, w8, w9, vs
	fmov	w9, s1
	str	w15, [sp, #336]
	fcmp	s2, s2
	ldr	s2, [sp, #636]
	fmov	s1, s2
	cset	w10, vs
	csel	w14, w8, w9, vs
	fcmp	s3, s3
	fmov	w9, s0
	ldr	s0, [sp, #640]
	stp	w12, w10, [sp, #208]
	fmov	s3, s0
	str	w14, [sp, #340]
	cset	w13, vs
	csel	w11, w8, w9, vs
	fcmp	s1, s1
	fmov	w9, s2
	ldr	s1, [sp, #644]
	str	w11, [sp, #344]
	fmov	s2, s1
	cset	w16, vs
	csel	w9, w8, w9, vs
	fcmp	s3, s3
	stp	w13, w16, [sp, #216]
	str	w9, [sp, #64]
	fmov	w9, s0
	ldr	s0, [sp, #648]
	cset	w17, vs
	fmov	s3, s0
	csel	w19, w8, w9, vs
	fcmp	s2, s2
	fmov	w9, s1
	ldr	s2, [sp, #652]
	str	w17, [sp, #60]
	str	w19, [sp, #352]
	csel	w9, w8, w9, vs
	cset	w17, vs
	fcmp	s3, s3
	str	w9, [sp, #48]
	fmov	s1, s2
	fmov	w9, s0
	ldr	s0, [sp, #656]
	str	w17, [sp, #68]
	cset	w17, vs
	csel	w9, w8, w9, vs
	fmov	s3, s0
	stp	w17, w9, [sp, #52]
	fcmp	s1, s1
	fmov	w9, s2
	ldr	s1, [sp, #660]
	csel	w9, w8, w9, vs
	fmov	s2, s1
	cset	w17, vs
	str	w9, [sp, #32]
	fcmp	s3, s3
	fmov	w9, s0
	ldr	s0, [sp, #664]
	str	w17, [sp, #44]
	csel	w9, w8, w9, vs
	cset	w17, vs
	fcmp	s2, s2
	str	w9, [sp, #40]
	ldr	s2, [sp, #668]
	fmov	s3, s0
	fmov	w9, s1
	str	w17, [sp, #28]
	fmov	s1, s2
	cset	w17, vs
	str	w17, [sp, #36]
	csel	w9, w8, w9, vs
	fcmp	s3, s3
	str	w9, [sp, #16]
	fmov	w9, s0
	ldr	s0, [sp, #672]
	cset	w17, vs
	fmov	s3, s0
	csel	w9, w8, w9, vs
	fcmp	s1, s1
	ldr	s1, [sp, #676]
	stp	w17, w9, [sp, #20]
	fmov	w9, s2
	fmov	s2, s1
	cset	w17, vs
	csel	w25, w8, w9, vs
	fcmp	s3, s3
	fmov	w9, s0
	ldr	s0, [sp, #680]
	str	w25, [sp, #380]
	cset	w7, vs
	csel	w9, w8, w9, vs
	fcmp	s2, s2
	ldr	s2, [sp, #684]
	fmov	s3, s0
	stp	w9, w17, [sp, #8]
	fmov	w9, s1
	ldr	w25, [sp, #12]
	fmov	s1, s2
	cset	w30, vs
	stp	w25, w7, [sp, #252]
	csel	w4, w8, w9, vs
	fcmp	s3, s3
	fmov	w9, s0
	ldr	s0, [sp, #688]
	str	w4, [sp, #388]
	str	w30, [sp, #260]
	fmov	s3, s0
	cset	w5, vs
	csel	w6, w8, w9, vs
	fcmp	s1, s1
	ldr	s1, [sp, #692]
	fmov	w9, s2
	str	w5, [sp, #264]
	fmov	s2, s1
	str	w6, [sp, #392]
	csel	w1, w8, w9, vs
	cset	w2, vs
	fcmp	s3, s3
	fmov	w9, s0
	ldr	s0, [sp, #696]
	str	w1, [sp, #396]
	str	w2, [sp, #268]
	cset	w0, vs
	fmov	s3, s0
	csel	w3, w8, w9, vs
	fcmp	s2, s2
	fmov	w9, s1
	ldr	s2, [sp, #700]
	ldr	s1, [sp, #704]
	str	w0, [sp, #272]
	str	w3, [sp, #400]
	csel	w17, w8, w9, vs
	cset	w18, vs
	fcmp	s3, s3
	ldp	w10, w9, [sp, #60]
	fmov	s3, s1
	str	w17, [sp, #404]
	cset	w15, vs
	str	w18, [sp, #276]
	str	w9, [sp, #348]
	fmov	w9, s0
	fmov	s0, s2
	str	w15, [sp, #280]
	csel	w16, w8, w9, vs
	ldr	w9, [sp, #48]
	fcmp	s0, s0
	str	w16, [sp, #408]
	str	w9, [sp, #356]
	ldr	w9, [sp, #68]
	ldr	s0, [sp, #708]
	stp	w10, w9, [sp, #224]
	fmov	w9, s2
	cset	w14, vs
	ldr	s2, [sp, #712]
	str	w14, [sp, #284]
	csel	w13, w8, w9, vs
	ldp	w10, w9, [sp, #52]
	fcmp	s3, s3
	str	w10, [sp, #232]
	ldr	w10, [sp, #44]
	fmov	s3, s2
	str	w9, [sp, #360]
	ldr	w9, [sp, #32]
	str	w10, [sp, #236]
	cset	w11, vs
	str	w9, [sp, #364]
	fmov	w9, s1
	fmov	s1, s0
	ldp	w19, w10, [sp, #24]
	str	w13, [sp, #412]
	csel	w12, w8, w9, vs
	ldr	w9, [sp, #40]
	str	w11, [sp, #288]
	fcmp	s1, s1
	str	w19, [sp, #376]
	fmov	w19, s2
	str	w9, [sp, #368]
	ldr	w9, [sp, #16]
	ldr	s1, [sp, #716]
	ldr	s2, [sp, #720]
	str	w12, [sp, #416]
	str	w9, [sp, #372]
	ldr	w9, [sp, #36]
	fmov	w6, s2
	stp	w10, w9, [sp, #240]
	fmov	w9, s0
	ldr	w10, [sp, #20]
	fmov	s0, s1
	str	w10, [sp, #248]
	cset	w10, vs
	csel	w9, w8, w9, vs
	fcmp	s3, s3
	fmov	s3, s2
	ldr	s2, [sp, #728]
	str	w9, [sp, #420]
	str	w10, [sp, #292]
	csel	w7, w8, w19, vs
	ldr	w19, [sp, #8]
	cset	w25, vs
	fcmp	s0, s0
	ldr	s0, [sp, #724]
	fmov	w13, s2
	str	w19, [sp, #384]
	fmov	w19, s1
	fmov	s1, s0
	fmov	w17, s0
	str	w25, [sp, #296]
	cset	w4, vs
	str	w7, [sp, #424]
	csel	w5, w8, w19, vs
	fcmp	s3, s3
	fmov	s3, s2
	ldr	s2, [sp, #736]
	str	w5, [sp, #428]
	str	w4, [sp, #300]
	cset	w1, vs
	csel	w0, w8, w6, vs
	fcmp	s1, s1
	ldr	s1, [sp, #732]
	fmov	w12, s2
	str	w1, [sp, #304]
	str	w0, [sp, #432]
	fmov	s0, s1
	cset	w15, vs
	csel	w17, w8, w17, vs
	fcmp	s3, s3
	fmov	s3, s2
	fmov	w9, s1
	ldr	s2, [sp, #744]
	str	w17, [sp, #436]
	cset	w11, vs
	csel	w13, w8, w13, vs
	fcmp	s0, s0
	ldr	s0, [sp, #740]
	fmov	s1, s0
	cset	w10, vs
	csel	w9, w8, w9, vs
	fcmp	s3, s3
	cset	w14, vs
	csel	w12, w8, w12, vs
	fcmp	s1, s1
	ldr	s1, [sp, #748]
.Lframes_BB0_29:
	fmov	s3, s2
	str	w15, [sp, #308]
	fmov	w15, s0
	fmov	s0, s1
	str	w11, [sp, #312]
	cset	w11, vs
	str	w9, [sp, #444]
	fmov	w9, s2
	ldr	w1, [sp, #164]
	csel	w15, w8, w15, vs
	str	w10, [sp, #316]
	fcmp	s3, s3
	str	w12, [sp, #448]
	fmov	w12, s1
	str	w11, [sp, #324]
	ldp	x4, x11, [sp, #184]
	ldp	x5, x18, [sp, #168]
	str	w13, [sp, #440]
	cset	w10, vs
	csel	w9, w8, w9, vs
	fcmp	s0, s0
	str	w9, [sp, #456]
	add	x9, x11, x28
	str	w10, [sp, #328]
	add	x10, x20, x9, lsl #5
	csel	w8, w8, w12, vs
	ldp	x19, x7, [sp, #144]
	str	w8, [sp, #460]
	cset	w8, vs
	str	w8, [sp, #332]
	add	x8, x4, x28, lsl #7
	ldp	x3, x0, [sp, #112]
	str	w14, [sp, #320]
	add	x9, x8, x11, lsl #7
	add	x8, x10, #32
	str	w15, [sp, #452]
	cmp	x9, x8
	add	x8, x20, x23
	b.hs	.Lframes_BB0_34
	add	x9, x9, #128
	cmp	x8, x9
	b.hs	.Lframes_BB0_34
	ldp	x2, x30, [sp, #128]
	mov	x9, xzr
	ldr	w6, [sp, #160]
	ldr	x12, [sp, #200]
	mov	w8, wzr
.Lframes_BB0_32:
	ldrb	w10, [x22], #1
	add	x11, sp, #336
	add	x11, x11, x9
	cmp	w10, #0
	add	x10, sp, #208
	ldr	w10, [x10, x9]
	csel	x11, x21, x11, eq
	add	x9, x9, #4
	ldr	w11, [x11]
	csel	w10, wzr, w10, eq
	cmp	x9, #128
	add	w8, w10, w8
	str	w11, [x21], #4
	b.ne	.Lframes_BB0_32
	add	x13, x27, #1
	add	x0, x0, w8, uxtw
	cmp	x13, x24
	b.lo	.Lframes_BB0_2
	b	.Lframes_BB0_36
.Lframes_BB0_34:
	ldp	q0, q1, [x8]
	ldr	x8, [sp, #104]
	ldp	q16, q17, [sp, #304]
	ldr	w6, [sp, #160]
	ldr	x12, [sp, #200]
	ldp	q20, q21, [sp, #240]
	cmeq	v4.16b, v0.16b, #0
	cmeq	v5.16b, v1.16b, #0
	ldp	q18, q19, [sp, #272]
	ldp	q26, q27, [sp, #208]
	sshll2	v6.8h, v4.16b, #0
	sshll2	v7.8h, v5.16b, #0
	sshll	v5.8h, v5.8b, #0
	sshll	v4.8h, v4.8b, #0
	ldp	q1, q2, [sp, #368]
	ldp	q31, q30, [x8, #32]
	sshll2	v22.4s, v6.8h, #0
	sshll2	v23.4s, v7.8h, #0
	sshll	v6.4s, v6.4h, #0
	sshll	v7.4s, v7.4h, #0
	sshll2	v24.4s, v5.8h, #0
	sshll	v5.4s, v5.4h, #0
	sshll2	v25.4s, v4.8h, #0
	sshll	v4.4s, v4.4h, #0
	bic	v20.16b, v20.16b, v6.16b
	bic	v17.16b, v17.16b, v23.16b
	bic	v21.16b, v21.16b, v22.16b
	bic	v16.16b, v16.16b, v7.16b
	bic	v19.16b, v19.16b, v24.16b
	bic	v18.16b, v18.16b, v5.16b
	bic	v27.16b, v27.16b, v25.16b
	bic	v26.16b, v26.16b, v4.16b
	bit	v2.16b, v30.16b, v22.16b
	ldp	q0, q3, [sp, #336]
	add	v17.4s, v17.4s, v21.4s
	add	v16.4s, v16.4s, v20.4s
	ldp	q22, q20, [x8]
	add	v18.4s, v18.4s, v26.4s
	add	v19.4s, v19.4s, v27.4s
	bit	v1.16b, v31.16b, v6.16b
	ldp	q29, q28, [sp, #432]
	bit	v3.16b, v20.16b, v25.16b
	bit	v0.16b, v22.16b, v4.16b
	add	v6.4s, v19.4s, v17.4s
	add	v16.4s, v18.4s, v16.4s
	ldp	q26, q21, [sp, #400]
	stp	q1, q2, [x8, #32]
	ldp	q18, q17, [x8, #96]
	mov	v2.16b, v7.16b
	ldp	q19, q4, [x8, #64]
	stp	q0, q3, [x8]
	mov	v3.16b, v5.16b
	add	v1.4s, v16.4s, v6.4s
	bif	v17.16b, v28.16b, v23.16b
	bsl	v2.16b, v18.16b, v29.16b
	bif	v4.16b, v21.16b, v24.16b
	ldp	x2, x30, [sp, #128]
	bsl	v3.16b, v19.16b, v26.16b
	addv	s0, v1.4s
	stp	q2, q17, [x8, #96]
	stp	q3, q4, [x8, #64]
	fmov	w8, s0
	add	x13, x27, #1
	add	x0, x0, w8, uxtw
	cmp	x13, x24
	b.lo	.Lframes_BB0_2
	b	.Lframes_BB0_36
.Lframes_BB0_35:
	mov	x0, xzr
.Lframes_BB0_36:
	add	sp, sp, #1024
	ldp	x20, x19, [sp, #144]
	ldp	x22, x21, [sp, #128]
	ldp	x24, x23, [sp, #112]
	ldp	x26, x25, [sp, #96]
	ldp	x28, x27, [sp, #80]
	ldp	x29, x30, [sp, #64]
	ldp	d9, d8, [sp, #48]
	ldp	d11, d10, [sp, #32]
	ldp	d13, d12, [sp, #16]
	ldp	d15, d14, [sp], #160
	ret
.Lframes_BB0_37:
	brk	#0x1
.Lframes_func_end0:
	.size	loamchalice.frames.pixels.frame_pixels, .Lframes_func_end0-loamchalice.frames.pixels.frame_pixels

	.section	.text.frames.pixels.temperature_block,"ax",@progbits
	.p2align	2
	.type	loamchalice.frames.pixels.temperature_block,@function
loamchalice.frames.pixels.temperature_block:
	sub	sp, sp, #256
	ldp	s24, s2, [x0, #12]
	movi	v1.2d, #0000000000000000
	ldp	s0, s4, [x0, #4]
	str	x21, [sp, #224]
	ldrb	w8, [x0]
	add	x21, x1, x2, lsl #2
	stp	x20, x19, [sp, #240]
	stp	q24, q2, [sp, #32]
	mov	x19, x4
	mov	x20, x3
	ldr	s2, [x0, #20]
	stp	x29, x30, [sp, #208]
	add	x29, sp, #208
	stp	q1, q1, [sp, #80]
	stp	q1, q1, [sp, #112]
	stp	q1, q1, [sp, #144]
	str	q2, [sp, #64]
	stp	q1, q1, [sp, #176]
	str	q4, [sp, #16]
	cbz	w8, .Lframes_BB1_2
	dup	v18.4s, v0.s[0]
	ldp	q0, q1, [x21]
	ldp	q2, q3, [x21, #32]
	mov	v22.16b, v4.16b
	ldp	q7, q16, [x21, #96]
	add	x0, sp, #80
	fsub	v0.4s, v0.4s, v18.4s
	fsub	v1.4s, v1.4s, v18.4s
	mov	v19.16b, v18.16b
	fsub	v2.4s, v2.4s, v18.4s
	fsub	v3.4s, v3.4s, v18.4s
	str	q18, [sp]
	fsub	v7.4s, v7.4s, v18.4s
	ldp	q20, q21, [x20]
	fsub	v16.4s, v16.4s, v19.4s
	mov	x1, x19
	fmul	v0.4s, v0.4s, v4.s[0]
	fmul	v1.4s, v1.4s, v4.s[0]
	fmul	v2.4s, v2.4s, v4.s[0]
	ldp	q4, q5, [x21, #64]
	fmul	v3.4s, v3.4s, v22.s[0]
	fmul	v7.4s, v7.4s, v22.s[0]
	fmul	v16.4s, v16.4s, v22.s[0]
	fsub	v4.4s, v4.4s, v18.4s
	fmul	v6.4s, v0.4s, v0.4s
	fmul	v17.4s, v1.4s, v1.4s
	fsub	v5.4s, v5.4s, v18.4s
	fmul	v18.4s, v2.4s, v2.4s
	fmul	v19.4s, v3.4s, v3.4s
	fmul	v4.4s, v4.4s, v22.s[0]
	fmul	v0.4s, v0.4s, v6.4s
	fmul	v1.4s, v1.4s, v17.4s
	fmul	v5.4s, v5.4s, v22.s[0]
	fmul	v6.4s, v6.4s, v6.4s
	fmul	v17.4s, v17.4s, v17.4s
	fmul	v2.4s, v2.4s, v18.4s
	fmul	v3.4s, v3.4s, v19.4s
	fmul	v18.4s, v18.4s, v18.4s
	ldp	q22, q23, [x20, #32]
	fmul	v19.4s, v19.4s, v19.4s
	fmul	v0.4s, v20.4s, v0.4s
	fmul	v20.4s, v4.4s, v4.4s
	fmul	v1.4s, v21.4s, v1.4s
	fmul	v21.4s, v5.4s, v5.4s
	fmul	v6.4s, v6.4s, v24.s[0]
	fmul	v17.4s, v17.4s, v24.s[0]
	fmul	v2.4s, v22.4s, v2.4s
	fmul	v22.4s, v7.4s, v7.4s
	fmul	v3.4s, v23.4s, v3.4s
	fmul	v23.4s, v16.4s, v16.4s
	fmul	v18.4s, v18.4s, v24.s[0]
	fmul	v19.4s, v19.4s, v24.s[0]
	fmul	v4.4s, v4.4s, v20.4s
	fmul	v20.4s, v20.4s, v20.4s
	fmul	v5.4s, v5.4s, v21.4s
	fadd	v0.4s, v0.4s, v6.4s
	fadd	v1.4s, v1.4s, v17.4s
	ldp	q6, q17, [x20, #64]
	fmul	v21.4s, v21.4s, v21.4s
	fmul	v7.4s, v7.4s, v22.4s
	fmul	v22.4s, v22.4s, v22.4s
	fmul	v16.4s, v16.4s, v23.4s
	fmul	v23.4s, v23.4s, v23.4s
	fmul	v20.4s, v20.4s, v24.s[0]
	fadd	v2.4s, v2.4s, v18.4s
	fmul	v4.4s, v6.4s, v4.4s
	fmul	v5.4s, v17.4s, v5.4s
	fadd	v3.4s, v3.4s, v19.4s
	ldp	q6, q17, [x20, #96]
	fmul	v21.4s, v21.4s, v24.s[0]
	stp	q0, q1, [sp, #80]
	fmul	v6.4s, v6.4s, v7.4s
	fmul	v7.4s, v22.4s, v24.s[0]
	fmul	v16.4s, v17.4s, v16.4s
	fmul	v17.4s, v23.4s, v24.s[0]
	fadd	v4.4s, v4.4s, v20.4s
	fadd	v0.4s, v5.4s, v21.4s
	stp	q2, q3, [sp, #112]
	fadd	v1.4s, v6.4s, v7.4s
	fadd	v2.4s, v16.4s, v17.4s
	stp	q4, q0, [sp, #144]
	stp	q1, q2, [sp, #176]
	bl	loamchalice.frames.roots.fourth_roots
	ldp	q0, q1, [x21]
	ldp	q18, q21, [sp]
	ldp	q2, q3, [x19]
	ldp	q20, q19, [sp, #48]
	fsub	v0.4s, v0.4s, v18.4s
	fsub	v1.4s, v1.4s, v18.4s
	fmul	v2.4s, v2.4s, v20.s[0]
	fmul	v0.4s, v0.4s, v21.s[0]
	fmul	v1.4s, v1.4s, v21.s[0]
	fmul	v0.4s, v0.4s, v19.s[0]
	fmul	v1.4s, v1.4s, v19.s[0]
	fadd	v0.4s, v2.4s, v0.4s
	ldp	q2, q4, [x20]
	fdiv	v0.4s, v2.4s, v0.4s
	fmul	v2.4s, v3.4s, v20.s[0]
	ldp	q3, q5, [x21, #32]
	fsub	v3.4s, v3.4s, v18.4s
	fadd	v1.4s, v2.4s, v1.4s
	fsub	v5.4s, v5.4s, v18.4s
	fmul	v2.4s, v3.4s, v21.s[0]
	fdiv	v1.4s, v4.4s, v1.4s
	ldp	q3, q4, [x19, #32]
	fmul	v2.4s, v2.4s, v19.s[0]
	fmul	v3.4s, v3.4s, v20.s[0]
	fmul	v4.4s, v4.4s, v20.s[0]
	fadd	v2.4s, v3.4s, v2.4s
	fmul	v3.4s, v5.4s, v21.s[0]
	ldp	q5, q6, [x20, #32]
	fdiv	v2.4s, v5.4s, v2.4s
	fmul	v3.4s, v3.4s, v19.s[0]
	ldp	q5, q7, [x21, #64]
	fsub	v5.4s, v5.4s, v18.4s
	fadd	v3.4s, v4.4s, v3.4s
	fsub	v7.4s, v7.4s, v18.4s
	fmul	v4.4s, v5.4s, v21.s[0]
	fdiv	v3.4s, v6.4s, v3.4s
	ldp	q5, q6, [x19, #64]
	fmul	v4.4s, v4.4s, v19.s[0]
	fmul	v5.4s, v5.4s, v20.s[0]
	fmul	v6.4s, v6.4s, v20.s[0]
	fadd	v4.4s, v5.4s, v4.4s
	fmul	v5.4s, v7.4s, v21.s[0]
	ldp	q7, q16, [x20, #64]
	fdiv	v4.4s, v7.4s, v4.4s
	fmul	v5.4s, v5.4s, v19.s[0]
	ldp	q7, q17, [x21, #96]
	fsub	v7.4s, v7.4s, v18.4s
	fadd	v5.4s, v6.4s, v5.4s
	fsub	v17.4s, v17.4s, v18.4s
	fmul	v6.4s, v7.4s, v21.s[0]
	fdiv	v5.4s, v16.4s, v5.4s
	ldp	q7, q16, [x19, #96]
	fmul	v6.4s, v6.4s, v19.s[0]
	fmul	v7.4s, v7.4s, v20.s[0]
	fmul	v16.4s, v16.4s, v20.s[0]
	fadd	v6.4s, v7.4s, v6.4s
	fmul	v7.4s, v17.4s, v21.s[0]
	ldp	q17, q18, [x20, #96]
	fmul	v7.4s, v7.4s, v19.s[0]
	fdiv	v6.4s, v17.4s, v6.4s
	fadd	v7.4s, v16.4s, v7.4s
	b	.Lframes_BB1_3
.Lframes_BB1_2:
	ldp	q0, q1, [x21]
	mov	v22.16b, v4.16b
	ldp	q2, q3, [x21, #32]
	add	x0, sp, #80
	ldp	q17, q18, [x21, #64]
	mov	x1, x19
	fmul	v0.4s, v0.4s, v4.s[0]
	fmul	v1.4s, v1.4s, v4.s[0]
	fmul	v2.4s, v2.4s, v4.s[0]
	fmul	v3.4s, v3.4s, v4.s[0]
	ldp	q20, q21, [x21, #96]
	fmul	v17.4s, v17.4s, v22.s[0]
	fmul	v18.4s, v18.4s, v22.s[0]
	ldp	q6, q7, [x20]
	fmul	v4.4s, v0.4s, v0.4s
	fmul	v5.4s, v1.4s, v1.4s
	fmul	v16.4s, v2.4s, v2.4s
	fmul	v19.4s, v3.4s, v3.4s
	fmul	v20.4s, v20.4s, v22.s[0]
	fmul	v21.4s, v21.4s, v22.s[0]
	ldp	q22, q23, [x20, #32]
	fmul	v0.4s, v0.4s, v4.4s
	fmul	v1.4s, v1.4s, v5.4s
	fmul	v4.4s, v4.4s, v4.4s
	fmul	v5.4s, v5.4s, v5.4s
	fmul	v2.4s, v2.4s, v16.4s
	fmul	v3.4s, v3.4s, v19.4s
	fmul	v16.4s, v16.4s, v16.4s
	fmul	v19.4s, v19.4s, v19.4s
	fmul	v0.4s, v6.4s, v0.4s
	fmul	v6.4s, v17.4s, v17.4s
	fmul	v1.4s, v7.4s, v1.4s
	fmul	v7.4s, v18.4s, v18.4s
	fmul	v4.4s, v4.4s, v24.s[0]
	fmul	v5.4s, v5.4s, v24.s[0]
	fmul	v2.4s, v22.4s, v2.4s
	fmul	v22.4s, v20.4s, v20.4s
	fmul	v3.4s, v23.4s, v3.4s
	fmul	v23.4s, v21.4s, v21.4s
	fmul	v16.4s, v16.4s, v24.s[0]
	fmul	v19.4s, v19.4s, v24.s[0]
	fmul	v17.4s, v17.4s, v6.4s
	fmul	v6.4s, v6.4s, v6.4s
	fmul	v18.4s, v18.4s, v7.4s
	fadd	v0.4s, v0.4s, v4.4s
	fadd	v1.4s, v1.4s, v5.4s
	ldp	q4, q5, [x20, #64]
	fmul	v7.4s, v7.4s, v7.4s
	fmul	v20.4s, v20.4s, v22.4s
	fmul	v22.4s, v22.4s, v22.4s
	fmul	v21.4s, v21.4s, v23.4s
	fmul	v23.4s, v23.4s, v23.4s
	fmul	v6.4s, v6.4s, v24.s[0]
	fadd	v2.4s, v2.4s, v16.4s
	fmul	v4.4s, v4.4s, v17.4s
	fmul	v5.4s, v5.4s, v18.4s
	fadd	v3.4s, v3.4s, v19.4s
	ldp	q17, q18, [x20, #96]
	fmul	v7.4s, v7.4s, v24.s[0]
	stp	q0, q1, [sp, #80]
	fmul	v19.4s, v23.4s, v24.s[0]
	fmul	v16.4s, v17.4s, v20.4s
	fmul	v17.4s, v22.4s, v24.s[0]
	fmul	v18.4s, v18.4s, v21.4s
	fadd	v4.4s, v4.4s, v6.4s
	fadd	v0.4s, v5.4s, v7.4s
	stp	q2, q3, [sp, #112]
	fadd	v1.4s, v16.4s, v17.4s
	fadd	v2.4s, v18.4s, v19.4s
	stp	q4, q0, [sp, #144]
	stp	q1, q2, [sp, #176]
	bl	loamchalice.frames.roots.fourth_roots
	ldp	q0, q1, [x21]
	ldr	q18, [sp, #16]
	ldp	q2, q3, [x19]
	ldp	q20, q19, [sp, #48]
	fmul	v0.4s, v0.4s, v18.s[0]
	fmul	v1.4s, v1.4s, v18.s[0]
	fmul	v2.4s, v2.4s, v20.s[0]
	fmul	v0.4s, v0.4s, v19.s[0]
	fmul	v1.4s, v1.4s, v19.s[0]
	fadd	v0.4s, v0.4s, v2.4s
	ldp	q2, q4, [x20]
	fdiv	v0.4s, v2.4s, v0.4s
	fmul	v2.4s, v3.4s, v20.s[0]
	fadd	v1.4s, v1.4s, v2.4s
	ldp	q2, q3, [x21, #32]
	fmul	v2.4s, v2.4s, v18.s[0]
	fmul	v3.4s, v3.4s, v18.s[0]
	fdiv	v1.4s, v4.4s, v1.4s
	ldp	q4, q5, [x19, #32]
	fmul	v2.4s, v2.4s, v19.s[0]
	fmul	v3.4s, v3.4s, v19.s[0]
	fmul	v4.4s, v4.4s, v20.s[0]
	fadd	v2.4s, v2.4s, v4.4s
	ldp	q4, q6, [x20, #32]
	fdiv	v2.4s, v4.4s, v2.4s
	fmul	v4.4s, v5.4s, v20.s[0]
	fadd	v3.4s, v3.4s, v4.4s
	ldp	q4, q5, [x21, #64]
	fmul	v4.4s, v4.4s, v18.s[0]
	fmul	v5.4s, v5.4s, v18.s[0]
	fdiv	v3.4s, v6.4s, v3.4s
	ldp	q6, q7, [x19, #64]
	fmul	v4.4s, v4.4s, v19.s[0]
	fmul	v5.4s, v5.4s, v19.s[0]
	fmul	v6.4s, v6.4s, v20.s[0]
	fadd	v4.4s, v4.4s, v6.4s
	ldp	q6, q16, [x20, #64]
	fdiv	v4.4s, v6.4s, v4.4s
	fmul	v6.4s, v7.4s, v20.s[0]
	fadd	v5.4s, v5.4s, v6.4s
	ldp	q6, q7, [x21, #96]
	fmul	v6.4s, v6.4s, v18.s[0]
	fmul	v7.4s, v7.4s, v18.s[0]
	fdiv	v5.4s, v16.4s, v5.4s
	ldp	q16, q17, [x19, #96]
	fmul	v6.4s, v6.4s, v19.s[0]
	fmul	v7.4s, v7.4s, v19.s[0]
	fmul	v16.4s, v16.4s, v20.s[0]
	fadd	v6.4s, v6.4s, v16.4s
	ldp	q16, q18, [x20, #96]
	fdiv	v6.4s, v16.4s, v6.4s
	fmul	v16.4s, v17.4s, v20.s[0]
	fadd	v7.4s, v7.4s, v16.4s
.Lframes_BB1_3:
	fdiv	v7.4s, v18.4s, v7.4s
	ldr	q16, [sp, #32]
	add	x0, sp, #80
	mov	x1, x19
	dup	v16.4s, v16.s[0]
	fadd	v0.4s, v16.4s, v0.4s
	fadd	v1.4s, v16.4s, v1.4s
	fadd	v2.4s, v16.4s, v2.4s
	fadd	v3.4s, v16.4s, v3.4s
	fadd	v4.4s, v16.4s, v4.4s
	stp	q0, q1, [sp, #80]
	fadd	v0.4s, v16.4s, v5.4s
	fadd	v1.4s, v16.4s, v6.4s
	stp	q2, q3, [sp, #112]
	fadd	v2.4s, v16.4s, v7.4s
	stp	q4, q0, [sp, #144]
	stp	q1, q2, [sp, #176]
	bl	loamchalice.frames.pixels.degrees_block
	ldp	x20, x19, [sp, #240]
	ldr	x21, [sp, #224]
	ldp	x29, x30, [sp, #208]
	add	sp, sp, #256
	ret
.Lframes_func_end1:
	.size	loamchalice.frames.pixels.temperature_block, .Lframes_func_end1-loamchalice.frames.pixels.temperature_block

	.section	.rodata.cst8,"aM",@progbits,8
	.p2align	3, 0x0
.Lframes_CPI2_0:
	.xword	0xbfd8d6dad5c5805a
.Lframes_CPI2_1:
	.xword	0x3ff48987b38c9874
.Lframes_CPI2_2:
	.xword	0xbf89e11a55579851
.Lframes_CPI2_3:
	.xword	0x3fbbd11ca559a5b5
.Lframes_CPI2_4:
	.xword	0xbfd9564a9a0cc3d0
.Lframes_CPI2_5:
	.xword	0x3ff49e6fb879243c
.Lframes_CPI2_6:
	.xword	0xbf8b3fdc3e64f496
.Lframes_CPI2_7:
	.xword	0x3fbcd40c7b79c813
.Lframes_CPI2_8:
	.xword	0xbfd9da666a8282c0
.Lframes_CPI2_9:
	.xword	0x3ff4b3c3e0838e08
.Lframes_CPI2_10:
	.xword	0xbf8cb74d9f20e3c5
.Lframes_CPI2_11:
	.xword	0x3fbde4cf1160987f
.Lframes_CPI2_12:
	.xword	0xbfda636eaa84aa24
.Lframes_CPI2_13:
	.xword	0x3ff4c9882b15accb
.Lframes_CPI2_14:
	.xword	0xbf8e499d1637aac6
.Lframes_CPI2_15:
	.xword	0x3fbf045f9100c8fb
.Lframes_CPI2_16:
	.xword	0xbfdaf1a85969655f
.Lframes_CPI2_17:
	.xword	0x3ff4dfc0cf2a5dce
.Lframes_CPI2_18:
	.xword	0xbf8ff9350c84276a
.Lframes_CPI2_19:
	.xword	0x3fc019e7c4a5cc82
.Lframes_CPI2_20:
	.xword	0xbfdb855d7ca13de0
.Lframes_CPI2_21:
	.xword	0x3ff4f6723f50bfea
.Lframes_CPI2_22:
	.xword	0xbf90e461a137b60f
.Lframes_CPI2_23:
	.xword	0x3fc0ba24ac9d711a
.Lframes_CPI2_24:
	.xword	0xbfdc1edd9569549c
.Lframes_CPI2_25:
	.xword	0x3ff50da12e0ca82a
.Lframes_CPI2_26:
	.xword	0xbf91dda0bc0f98f5
.Lframes_CPI2_27:
	.xword	0x3fc1638974e0b1d2
.Lframes_CPI2_28:
	.xword	0xbfdcbe7e238a7215
.Lframes_CPI2_29:
	.xword	0x3ff52552929e8fbf
.Lframes_CPI2_30:
	.xword	0xbf92e9ffafd562c7
.Lframes_CPI2_31:
	.xword	0x3fc216c861238d76
.Lframes_CPI2_32:
	.xword	0xbfdd649b36da6586
.Lframes_CPI2_33:
	.xword	0x3ff53d8bae3e8fed
.Lframes_CPI2_34:
	.xword	0xbf940b5708b9b0fb
.Lframes_CPI2_35:
	.xword	0x3fc2d4a4c2a70153
.Lframes_CPI2_36:
	.xword	0xbfde119811778ee7
.Lframes_CPI2_37:
	.xword	0x3ff5565211d78886
.Lframes_CPI2_38:
	.xword	0xbf9543b6a2c0f3d1
.Lframes_CPI2_39:
	.xword	0x3fc39df4f298d76f
.Lframes_CPI2_40:
	.xword	0xbfdec5dfdd045494
.Lframes_CPI2_41:
	.xword	0x3ff56faba4515177
.Lframes_CPI2_42:
	.xword	0xbf96956d50f05671
.Lframes_CPI2_43:
	.xword	0x3fc473a491df2605
.Lframes_CPI2_44:
	.xword	0xbfdf81e67583ece0
.Lframes_CPI2_45:
	.xword	0x3ff5899ea97ae286
.Lframes_CPI2_46:
	.xword	0xbf980311beecdf50
.Lframes_CPI2_47:
	.xword	0x3fc556b719595084
.Lframes_CPI2_48:
	.xword	0xbfe02314a673068e
.Lframes_CPI2_49:
	.xword	0x3ff5a431c9a7ba2d
.Lframes_CPI2_50:
	.xword	0xbf998f8cc6c133d0
.Lframes_CPI2_51:
	.xword	0x3fc6484ac7a206de
.Lframes_CPI2_52:
	.xword	0xbfe0899835678b25
.Lframes_CPI2_53:
	.xword	0x3ff5bf6c1a168c70
.Lframes_CPI2_54:
	.xword	0xbf9b3e25807701df
.Lframes_CPI2_55:
	.xword	0x3fc7499bfbc8f77c
.Lframes_CPI2_56:
	.xword	0xbfe0f4c7c6612df5
.Lframes_CPI2_57:
	.xword	0x3ff5db55263a7735
.Lframes_CPI2_58:
	.xword	0xbf9d128f5ff1d144
.Lframes_CPI2_59:
	.xword	0x3fc85c090f67f3a1
.Lframes_CPI2_60:
	.xword	0xbfe164f3b5c49c7a
.Lframes_CPI2_61:
	.xword	0x3ff5f7f4fa03b8fd
.Lframes_CPI2_62:
	.xword	0xbf9f10fac7b9e0fd
.Lframes_CPI2_63:
	.xword	0x3fc98116c604a5ac
.Lframes_CPI2_64:
	.xword	0xbfe1da7395c50e4c
.Lframes_CPI2_65:
	.xword	0x3ff615542d494b58
.Lframes_CPI2_66:
	.xword	0xbfa09f1447099ec3
.Lframes_CPI2_67:
	.xword	0x3fcaba756c0423f4
.Lframes_CPI2_68:
	.xword	0xbfe255a6ff632f04
.Lframes_CPI2_69:
	.xword	0x3ff6337bf079ed95
.Lframes_CPI2_70:
	.xword	0xbfa1cfc087047581
.Lframes_CPI2_71:
	.xword	0x3fcc0a06c4c15e4e
.Lframes_CPI2_72:
	.xword	0xbfe2d6f680371f14
.Lframes_CPI2_73:
	.xword	0x3ff652761ac144d6
.Lframes_CPI2_74:
	.xword	0xbfa31d97c0c539a3
.Lframes_CPI2_75:
	.xword	0x3fcd71e4edd8a92e
.Lframes_CPI2_76:
	.xword	0xbfe35ed4a9ba21f2
.Lframes_CPI2_77:
	.xword	0x3ff6724d39d4ef3d
.Lframes_CPI2_78:
	.xword	0xbfa48c214730858e
.Lframes_CPI2_79:
	.xword	0x3fcef46a65c0d8ac
.Lframes_CPI2_80:
	.xword	0xbfe3edbf47a9bdea
.Lframes_CPI2_81:
	.xword	0x3ff6930ca3a5fbdb
.Lframes_CPI2_82:
	.xword	0xbfa61f699420162c
.Lframes_CPI2_83:
	.xword	0x3fd04a1db6ddbdce
.Lframes_CPI2_84:
	.xword	0xbfe48440c4354b61
.Lframes_CPI2_85:
	.xword	0x3ff6b4c08a3d7463
.Lframes_CPI2_86:
	.xword	0xbfa7dc1999064aaa
.Lframes_CPI2_87:
	.xword	0x3fd12a2885c2d55c
.Lframes_CPI2_88:
	.xword	0xbfe522f1c1fc9caa
.Lframes_CPI2_89:
	.xword	0x3ff6d7761216e589
.Lframes_CPI2_90:
	.xword	0xbfa9c792d22551ea
.Lframes_CPI2_91:
	.xword	0x3fd21c02ff5670aa
.Lframes_CPI2_92:
	.xword	0xbfe5ca7af58a6166
.Lframes_CPI2_93:
	.xword	0x3ff6fb3b6b5a8c6c
.Lframes_CPI2_94:
	.xword	0xbfabe8113a584e1d
.Lframes_CPI2_95:
	.xword	0x3fd32193086fb443
.Lframes_CPI2_96:
	.xword	0xbfe67b9749fb94b2
.Lframes_CPI2_97:
	.xword	0x3ff7201fee6a962f
.Lframes_CPI2_98:
	.xword	0xbfae44d489bade19
.Lframes_CPI2_99:
	.xword	0x3fd43d0020924148
.Lframes_CPI2_100:
	.xword	0xbfe737165f09042f
.Lframes_CPI2_101:
	.xword	0x3ff746343c4c6c38
.Lframes_CPI2_102:
	.xword	0xbfb07329465d1743
.Lframes_CPI2_103:
	.xword	0x3fd570be3491b6b7
.Lframes_CPI2_104:
	.xword	0xbfe7fddf71cb1ffa
.Lframes_CPI2_105:
	.xword	0x3ff76d8a639148f5
.Lframes_CPI2_106:
	.xword	0xbfb1eb3a718070d4
.Lframes_CPI2_107:
	.xword	0x3fd6bf9a91c44d0c
.Lframes_CPI2_108:
	.xword	0xbfe8d0f4c57fb846
.Lframes_CPI2_109:
	.xword	0x3ff796360a817401
.Lframes_CPI2_110:
	.xword	0xbfb39072906b220e
.Lframes_CPI2_111:
	.xword	0x3fd82ccb76f32def
.Lframes_CPI2_112:
	.xword	0xbfe9b177a6904feb
.Lframes_CPI2_113:
	.xword	0x3ff7c04c9f750ec5
.Lframes_CPI2_114:
	.xword	0xbfb569b5984f8e41
.Lframes_CPI2_115:
	.xword	0x3fd9bc02e1674462
.Lframes_CPI2_116:
	.xword	0xbfeaa0ad2864dd46
.Lframes_CPI2_117:
	.xword	0x3ff7ebe590764371
.Lframes_CPI2_118:
	.xword	0xbfb77f3180d8ed5f
.Lframes_CPI2_119:
	.xword	0x3fdb71855faad984
.Lframes_CPI2_120:
	.xword	0xbfeba003c69b59ab
.Lframes_CPI2_121:
	.xword	0x3ff8191a8b857f7c
.Lframes_CPI2_122:
	.xword	0xbfb9daa8153fb04b
.Lframes_CPI2_123:
	.xword	0x3fdd5245ec4a3182
.Lframes_CPI2_124:
	.xword	0xbfecb11a1c961214
.Lframes_CPI2_125:
	.xword	0x3ff84807c924869d
.Lframes_CPI2_126:
	.xword	0xbfbc87cc279b3083
.Lframes_CPI2_127:
	.xword	0x3fdf64081dc7d151
	.section	.text.frames.roots.fourth_roots,"ax",@progbits
	.p2align	2
	.type	loamchalice.frames.roots.fourth_roots,@function
loamchalice.frames.roots.fourth_roots:
	str	d10, [sp, #-96]!
	stp	d9, d8, [sp, #16]
	stp	x30, x25, [sp, #32]
	stp	x24, x23, [sp, #48]
	stp	x22, x21, [sp, #64]
	stp	x20, x19, [sp, #80]
	sub	sp, sp, #512
	ldp	s0, s1, [x0]
	mov	w9, #2143289344
	mov	x8, xzr
	fmov	s2, s0
	fmov	w10, s0
	fmov	s0, s1
	fmov	w11, s1
	fcmp	s2, s2
	csel	w10, w9, w10, vs
	fcmp	s0, s0
	ldp	s2, s0, [x0, #8]
	str	w10, [sp, #256]
	csel	w11, w9, w11, vs
	fmov	s1, s2
	fmov	w12, s2
	fmov	w13, s0
	str	w11, [sp, #260]
	fcmp	s1, s1
	fmov	s1, s0
	ldp	s2, s0, [x0, #16]
	csel	w12, w9, w12, vs
	fmov	w14, s2
	fmov	w15, s0
	str	w12, [sp, #264]
	fcmp	s1, s1
	fmov	s1, s2
	csel	w13, w9, w13, vs
	str	w13, [sp, #268]
	fcmp	s1, s1
	fmov	s1, s0
	ldp	s2, s0, [x0, #24]
	csel	w14, w9, w14, vs
	fmov	w16, s2
	fmov	w17, s0
	str	w14, [sp, #272]
	fcmp	s1, s1
	fmov	s1, s2
	csel	w15, w9, w15, vs
	str	w15, [sp, #276]
	fcmp	s1, s1
	fmov	s1, s0
	ldp	s2, s0, [x0, #32]
	csel	w16, w9, w16, vs
	fmov	w18, s2
	fmov	w2, s0
	str	w16, [sp, #280]
	fcmp	s1, s1
	fmov	s1, s2
	csel	w17, w9, w17, vs
	str	w17, [sp, #284]
	fcmp	s1, s1
	ldp	q4, q6, [sp, #256]
	fmov	s1, s0
	ldp	s2, s0, [x0, #40]
	csel	w18, w9, w18, vs
	fmov	w3, s2
	fmov	w4, s0
	str	w18, [sp, #288]
	fcmp	s1, s1
	fmov	s1, s2
	csel	w2, w9, w2, vs
	str	w2, [sp, #292]
	fcmp	s1, s1
	fmov	s1, s0
	ldp	s2, s0, [x0, #48]
	csel	w3, w9, w3, vs
	fmov	w5, s2
	fmov	w6, s0
	str	w3, [sp, #296]
	fcmp	s1, s1
	fmov	s1, s2
	csel	w4, w9, w4, vs
	str	w4, [sp, #300]
	fcmp	s1, s1
	fmov	s1, s0
	ldp	s2, s0, [x0, #56]
	csel	w5, w9, w5, vs
	fmov	w7, s2
	fmov	w19, s0
	str	w5, [sp, #304]
	fcmp	s1, s1
	fmov	s1, s2
	csel	w6, w9, w6, vs
	str	w6, [sp, #308]
	fcmp	s1, s1
	fmov	s1, s0
	ldp	s2, s0, [x0, #64]
	csel	w7, w9, w7, vs
	fmov	w20, s2
	fmov	w21, s0
	str	w7, [sp, #312]
	fcmp	s1, s1
	fmov	s1, s2
	csel	w19, w9, w19, vs
	str	w19, [sp, #316]
	fcmp	s1, s1
	fmov	s1, s0
	ldp	s2, s0, [x0, #72]
	csel	w20, w9, w20, vs
	fmov	w22, s2
	fmov	w23, s0
	str	w20, [sp, #320]
	fcmp	s1, s1
	fmov	s1, s2
	csel	w21, w9, w21, vs
	str	w21, [sp, #324]
	fcmp	s1, s1
	fmov	s1, s0
	ldp	s2, s0, [x0, #80]
	csel	w22, w9, w22, vs
	fmov	w24, s2
	fmov	w25, s0
	str	w22, [sp, #328]
	fcmp	s1, s1
	fmov	s1, s2
	fmov	s2, s0
	csel	w23, w9, w23, vs
	str	w23, [sp, #332]
	fcmp	s1, s1
	csel	w24, w9, w24, vs
	fcmp	s2, s2
	ldp	s1, s2, [x0, #88]
	str	w24, [sp, #336]
	csel	w25, w9, w25, vs
	fmov	s3, s1
	fmov	w10, s1
	fmov	s1, s2
	str	w25, [sp, #340]
	fcmp	s3, s3
	csel	w11, w9, w10, vs
	fcmp	s1, s1
	fmov	w10, s2
	ldp	s0, s1, [x0, #96]
	str	w11, [sp, #344]
	csel	w13, w9, w10, vs
	fmov	s3, s0
	fmov	s2, s1
	fmov	w10, s0
	str	w13, [sp, #348]
	fcmp	s3, s3
	csel	w14, w9, w10, vs
	fcmp	s2, s2
	fmov	w10, s1
	ldp	s0, s2, [x0, #104]
	str	w14, [sp, #352]
	csel	w10, w9, w10, vs
	fmov	s3, s0
	fmov	s1, s2
	fmov	w12, s0
	fmov	w15, s2
	str	w10, [sp, #356]
	fcmp	s3, s3
	ldp	s0, s3, [x0, #112]
	csel	w12, w9, w12, vs
	fcmp	s1, s1
	fmov	s1, s0
	fmov	w16, s0
	fmov	s0, s3
	str	w12, [sp, #360]
	csel	w15, w9, w15, vs
	str	w15, [sp, #364]
	fcmp	s1, s1
	movi	v1.4s, #128, lsl #16
	csel	w11, w9, w16, vs
	fmov	w16, s3
	fcmp	s0, s0
	ldp	s2, s3, [x0, #120]
	str	w11, [sp, #368]
	add	v4.4s, v4.4s, v1.4s
	csel	w13, w9, w16, vs
	fmov	s0, s2
	fmov	s5, s3
	fmov	w10, s2
	fmov	w12, s3
	bic	v4.4s, #254, lsl #24
	str	w13, [sp, #372]
	add	v2.4s, v6.4s, v1.4s
	fcmp	s0, s0
	fmov	v0.4s, #1.00000000
	bic	v2.4s, #254, lsl #24
	csel	w10, w9, w10, vs
	fcmp	s5, s5
	ldp	q3, q5, [sp, #288]
	str	w10, [sp, #376]
	add	v16.4s, v4.4s, v0.4s
	add	v19.4s, v2.4s, v0.4s
	csel	w9, w9, w12, vs
	add	v3.4s, v3.4s, v1.4s
	add	v4.4s, v5.4s, v1.4s
	str	w9, [sp, #380]
	ldp	q6, q5, [sp, #320]
	mov	w9, #6144
	ldp	q7, q17, [sp, #352]
	movk	w9, #20312, lsl #16
	bic	v3.4s, #254, lsl #24
	bic	v4.4s, #254, lsl #24
	ushr	v18.4s, v16.4s, #2
	add	v5.4s, v5.4s, v1.4s
	add	v6.4s, v6.4s, v1.4s
	dup	v20.4s, w9
	add	v7.4s, v7.4s, v1.4s
	add	v1.4s, v17.4s, v1.4s
	mov	w9, #54910
	add	v17.4s, v3.4s, v0.4s
	add	v21.4s, v4.4s, v0.4s
	ushr	v3.4s, v19.4s, #2
	bic	v5.4s, #254, lsl #24
	bic	v6.4s, #254, lsl #24
	sub	v2.4s, v20.4s, v18.4s
	bic	v7.4s, #254, lsl #24
	bic	v1.4s, #254, lsl #24
	movk	w9, #15813, lsl #16
	ushr	v4.4s, v17.4s, #2
	sub	v3.4s, v20.4s, v3.4s
	add	v23.4s, v5.4s, v0.4s
	ushr	v5.4s, v21.4s, #2
	add	v22.4s, v6.4s, v0.4s
	add	v18.4s, v7.4s, v0.4s
	add	v24.4s, v1.4s, v0.4s
	fmul	v25.4s, v2.4s, v2.4s
	sub	v4.4s, v20.4s, v4.4s
	fmul	v27.4s, v3.4s, v3.4s
	sub	v1.4s, v20.4s, v5.4s
	ushr	v6.4s, v22.4s, #2
	ushr	v7.4s, v23.4s, #2
	ushr	v26.4s, v18.4s, #2
	ushr	v28.4s, v24.4s, #2
	fmul	v29.4s, v4.4s, v4.4s
	fmul	v30.4s, v1.4s, v1.4s
	sub	v5.4s, v20.4s, v6.4s
	sub	v6.4s, v20.4s, v7.4s
	sub	v7.4s, v20.4s, v26.4s
	fmul	v26.4s, v25.4s, v16.4s
	sub	v16.4s, v20.4s, v28.4s
	fmul	v19.4s, v27.4s, v19.4s
	fmul	v31.4s, v5.4s, v5.4s
	fmul	v28.4s, v6.4s, v6.4s
	fmul	v17.4s, v29.4s, v17.4s
	fmul	v8.4s, v7.4s, v7.4s
	fmul	v20.4s, v30.4s, v21.4s
	fmul	v9.4s, v16.4s, v16.4s
	fmul	v21.4s, v25.4s, v26.4s
	fmul	v19.4s, v27.4s, v19.4s
	dup	v27.4s, w9
	mov	w9, #12968
	fmul	v22.4s, v31.4s, v22.4s
	fmul	v23.4s, v28.4s, v23.4s
	fmul	v17.4s, v29.4s, v17.4s
	fmul	v18.4s, v8.4s, v18.4s
	fmul	v25.4s, v30.4s, v20.4s
	fmul	v26.4s, v9.4s, v24.4s
	fsub	v20.4s, v0.4s, v21.4s
	movk	w9, #15859, lsl #16
	fsub	v24.4s, v0.4s, v19.4s
	fmul	v22.4s, v31.4s, v22.4s
	fmul	v19.4s, v28.4s, v23.4s
	fsub	v21.4s, v0.4s, v17.4s
	fmul	v17.4s, v8.4s, v18.4s
	fsub	v18.4s, v0.4s, v25.4s
	fmul	v25.4s, v9.4s, v26.4s
	fmul	v26.4s, v20.4s, v27.4s
	dup	v28.4s, w9
	mov	w9, #65171
	fmul	v29.4s, v24.4s, v27.4s
	movk	w9, #15903, lsl #16
	fsub	v22.4s, v0.4s, v22.4s
	fsub	v23.4s, v0.4s, v19.4s
	fmul	v30.4s, v21.4s, v27.4s
	fsub	v19.4s, v0.4s, v17.4s
	fmul	v31.4s, v18.4s, v27.4s
	fsub	v17.4s, v0.4s, v25.4s
	fadd	v25.4s, v26.4s, v28.4s
	dup	v10.4s, w9
	mov	w9, #65135
	fadd	v29.4s, v29.4s, v28.4s
	movk	w9, #15999, lsl #16
	movi	v0.2d, #0000000000000000
	fmul	v26.4s, v22.4s, v27.4s
	fmul	v8.4s, v23.4s, v27.4s
	fadd	v30.4s, v30.4s, v28.4s
	fmul	v9.4s, v19.4s, v27.4s
	fadd	v31.4s, v31.4s, v28.4s
	fmul	v27.4s, v17.4s, v27.4s
	fmul	v25.4s, v20.4s, v25.4s
	fmul	v29.4s, v24.4s, v29.4s
	stp	q0, q0, [sp]
	fadd	v26.4s, v26.4s, v28.4s
	fadd	v8.4s, v8.4s, v28.4s
	fmul	v30.4s, v21.4s, v30.4s
	fadd	v9.4s, v9.4s, v28.4s
	fmul	v31.4s, v18.4s, v31.4s
	fadd	v27.4s, v27.4s, v28.4s
	fadd	v25.4s, v25.4s, v10.4s
	stp	q0, q0, [sp, #32]
	fadd	v28.4s, v29.4s, v10.4s
	stp	q0, q0, [sp, #64]
	fmul	v26.4s, v22.4s, v26.4s
	fmul	v29.4s, v23.4s, v8.4s
	fadd	v30.4s, v30.4s, v10.4s
	fmul	v8.4s, v19.4s, v9.4s
	fadd	v31.4s, v31.4s, v10.4s
	fmul	v27.4s, v17.4s, v27.4s
	fmul	v25.4s, v20.4s, v25.4s
	dup	v9.4s, w9
	stp	q0, q0, [sp, #96]
	fmul	v28.4s, v24.4s, v28.4s
	stp	q0, q0, [sp, #128]
	fadd	v26.4s, v26.4s, v10.4s
	fadd	v29.4s, v29.4s, v10.4s
	fmul	v30.4s, v21.4s, v30.4s
	fadd	v8.4s, v8.4s, v10.4s
	fadd	v27.4s, v27.4s, v10.4s
	fmul	v31.4s, v18.4s, v31.4s
	fadd	v25.4s, v25.4s, v9.4s
	stp	q0, q0, [sp, #160]
	fadd	v28.4s, v28.4s, v9.4s
	stp	q0, q0, [sp, #192]
	fmul	v26.4s, v22.4s, v26.4s
	fmul	v29.4s, v23.4s, v29.4s
	fadd	v30.4s, v30.4s, v9.4s
	fmul	v8.4s, v19.4s, v8.4s
	fadd	v31.4s, v31.4s, v9.4s
	fmul	v27.4s, v17.4s, v27.4s
	fmul	v20.4s, v20.4s, v25.4s
	stp	q0, q0, [sp, #224]
	fmul	v24.4s, v24.4s, v28.4s
	stp	q0, q0, [sp, #384]
	fadd	v25.4s, v26.4s, v9.4s
	fadd	v26.4s, v29.4s, v9.4s
	fmul	v21.4s, v21.4s, v30.4s
	fadd	v28.4s, v8.4s, v9.4s
	fmul	v18.4s, v18.4s, v31.4s
	fadd	v27.4s, v27.4s, v9.4s
	fmul	v20.4s, v20.4s, v2.4s
	stp	q0, q0, [sp, #416]
	fmul	v24.4s, v24.4s, v3.4s
	stp	q0, q0, [sp, #448]
	fmul	v22.4s, v22.4s, v25.4s
	fmul	v23.4s, v23.4s, v26.4s
	fmul	v21.4s, v21.4s, v4.4s
	fmul	v19.4s, v19.4s, v28.4s
	fmul	v17.4s, v17.4s, v27.4s
	fmul	v18.4s, v18.4s, v1.4s
	stp	q0, q0, [sp, #480]
	fadd	v2.4s, v20.4s, v2.4s
	fadd	v3.4s, v24.4s, v3.4s
	fmul	v20.4s, v22.4s, v5.4s
	fmul	v22.4s, v23.4s, v6.4s
	fadd	v4.4s, v21.4s, v4.4s
	fmul	v19.4s, v19.4s, v7.4s
	fadd	v0.4s, v18.4s, v1.4s
	fmul	v1.4s, v17.4s, v16.4s
	stp	q2, q3, [sp, #384]
	fadd	v5.4s, v20.4s, v5.4s
	fadd	v2.4s, v22.4s, v6.4s
	fadd	v3.4s, v19.4s, v7.4s
	stp	q4, q0, [sp, #416]
	fadd	v4.4s, v1.4s, v16.4s
	fmov	s0, #1.00000000
	fmov	s1, #1.00000000
	stp	q5, q2, [sp, #448]
	stp	q3, q4, [sp, #480]
.Lframes_BB2_1:
	add	x9, sp, #256
	add	x10, sp, #384
	ldr	w9, [x9, x8]
	ldr	s2, [x10, x8]
	mov	w10, #1065353216
	add	w9, w9, #2048, lsl #12
	fmul	s2, s2, s2
	and	w9, w9, #0x1ffffff
	add	w9, w9, w10
	fmov	s3, w9
	mov	w9, #2048
	movk	w9, #17792, lsl #16
	fmov	s5, w9
	fmul	s4, s2, s3
	fmul	s5, s4, s5
	fsub	s6, s4, s5
	fadd	s5, s5, s6
	fmul	s6, s5, s5
	fadd	s7, s4, s5
	fsub	s5, s4, s5
	fsub	s3, s3, s6
	fmul	s5, s7, s5
	fmov	s6, #0.50000000
	fmul	s2, s2, s6
	fsub	s3, s3, s5
	fmul	s2, s2, s3
	fadd	s2, s4, s2
	fmov	s3, s2
	fcmp	s0, s3
	cset	w9, mi
	//APP
	//NO_APP
	cmp	w9, #0
	fcsel	s2, s2, s1, ne
	add	x9, sp, #128
	str	s2, [x1, x8]
	str	s2, [x9, x8]
	add	x8, x8, #4
	cmp	x8, #128
	b.ne	.Lframes_BB2_1
	mov	x8, xzr
.Lframes_BB2_3:
	add	x9, sp, #384
	ldr	s1, [x1, x8]
	mov	x11, sp
	ldr	s2, [x9, x8]
	mov	w9, #2048
	movk	w9, #17792, lsl #16
	fmul	s3, s1, s2
	fmov	s4, w9
	fmul	s4, s3, s4
	fsub	s5, s4, s3
	fsub	s4, s4, s5
	fmul	s5, s4, s4
	fadd	s6, s3, s4
	fsub	s4, s3, s4
	fsub	s1, s1, s5
	fmul	s4, s6, s4
	fmov	s5, #0.50000000
	fmul	s2, s2, s5
	fsub	s1, s1, s4
	fmul	s1, s2, s1
	fadd	s1, s3, s1
	fmov	s2, s1
	fcmp	s0, s2
	fmov	s2, #1.00000000
	cset	w9, mi
	//APP
	//NO_APP
	cmp	w9, #0
	fcsel	s1, s1, s2, ne
	str	s1, [x11, x8]
	add	x8, x8, #4
	cmp	x8, #128
	b.ne	.Lframes_BB2_3
	movi	v0.2d, #0000000000000000
	movi	v1.2d, #0000000000000000
	add	x8, sp, #256
	add	x10, sp, #128
	add	x8, x8, #16
	add	x9, x1, #16
	add	x10, x10, #16
	add	x11, x11, #16
	mov	w12, #32
.Lframes_BB2_5:
	movi	v19.4s, #127, msl #16
	fmov	v2.4s, #0.25000000
	mov	w13, #528482304
	ldp	q3, q7, [x10, #-16]
	movi	v18.4s, #128, lsl #16
	ldp	q4, q5, [x8, #-16]
	mvni	v8.4s, #128, lsl #16
	subs	x12, x12, #8
	add	x8, x8, #32
	add	x10, x10, #32
	and	v17.16b, v3.16b, v19.16b
	ldp	q3, q20, [x11, #-16]
	add	v6.4s, v4.4s, v2.4s
	and	v16.16b, v7.16b, v19.16b
	add	v7.4s, v5.4s, v2.4s
	add	x11, x11, #32
	orr	v17.4s, #128, lsl #16
	and	v3.16b, v3.16b, v19.16b
	and	v2.16b, v20.16b, v19.16b
	and	v20.16b, v4.16b, v19.16b
	and	v21.16b, v6.16b, v18.16b
	orr	v16.4s, #128, lsl #16
	ushr	v22.4s, v6.4s, #1
	and	v19.16b, v5.16b, v19.16b
	and	v23.16b, v7.16b, v18.16b
	ushr	v26.4s, v7.4s, #1
	umull	v24.2d, v17.2s, v17.2s
	umull2	v25.2d, v17.4s, v17.4s
	orr	v3.4s, #128, lsl #16
	orr	v20.4s, #128, lsl #16
	add	v21.4s, v21.4s, v18.4s
	orr	v2.4s, #128, lsl #16
	and	v22.16b, v22.16b, v18.16b
	umull	v27.2d, v16.2s, v16.2s
	umull2	v28.2d, v16.4s, v16.4s
	orr	v19.4s, #128, lsl #16
	add	v23.4s, v23.4s, v18.4s
	and	v26.16b, v26.16b, v18.16b
	umlsl2	v25.2d, v21.4s, v20.4s
	umlsl	v24.2d, v21.2s, v20.2s
	add	v20.4s, v22.4s, v18.4s
	umull	v21.2d, v3.2s, v3.2s
	umull2	v22.2d, v3.4s, v3.4s
	umull	v29.2d, v2.2s, v2.2s
	umull2	v30.2d, v2.4s, v2.4s
	umlsl	v27.2d, v23.2s, v19.2s
	add	v18.4s, v26.4s, v18.4s
	umlsl2	v28.2d, v23.4s, v19.4s
	ushr	v6.4s, v6.4s, #2
	uaddw	v19.2d, v24.2d, v17.2s
	mvn	v23.16b, v25.16b
	mvn	v24.16b, v24.16b
	umlsl2	v22.2d, v20.4s, v17.4s
	umlsl	v21.2d, v20.2s, v17.2s
	ushr	v7.4s, v7.4s, #2
	umlsl2	v30.2d, v18.4s, v16.4s
	umlsl	v29.2d, v18.2s, v16.2s
	mvn	v20.16b, v27.16b
	mvn	v26.16b, v28.16b
	uaddw2	v18.2d, v25.2d, v17.4s
	uaddw	v25.2d, v27.2d, v16.2s
	uaddw2	v27.2d, v28.2d, v16.4s
	uaddw	v24.2d, v24.2d, v17.2s
	uaddw2	v17.2d, v23.2d, v17.4s
	uaddw	v20.2d, v20.2d, v16.2s
	mvn	v23.16b, v21.16b
	mvn	v28.16b, v22.16b
	uaddw2	v16.2d, v26.2d, v16.4s
	mvn	v26.16b, v29.16b
	mvn	v31.16b, v30.16b
	uaddw	v21.2d, v21.2d, v3.2s
	uaddw2	v22.2d, v22.2d, v3.4s
	uaddw	v29.2d, v29.2d, v2.2s
	uaddw2	v30.2d, v30.2d, v2.4s
	uaddw2	v28.2d, v28.2d, v3.4s
	uaddw	v23.2d, v23.2d, v3.2s
	uaddw2	v31.2d, v31.2d, v2.4s
	uaddw	v26.2d, v26.2d, v2.2s
	orr	v17.16b, v18.16b, v17.16b
	orr	v18.16b, v19.16b, v24.16b
	orr	v16.16b, v27.16b, v16.16b
	orr	v19.16b, v25.16b, v20.16b
	orr	v20.16b, v28.16b, v22.16b
	orr	v21.16b, v23.16b, v21.16b
	fneg	v24.4s, v8.4s
	orr	v22.16b, v31.16b, v30.16b
	orr	v23.16b, v26.16b, v29.16b
	mvni	v25.4s, #127, msl #16
	orr	v17.16b, v17.16b, v20.16b
	orr	v18.16b, v18.16b, v21.16b
	fmov	v20.4s, #1.00000000
	orr	v16.16b, v16.16b, v22.16b
	orr	v19.16b, v19.16b, v23.16b
	add	v21.4s, v4.4s, v25.4s
	sub	v4.4s, v24.4s, v4.4s
	add	v22.4s, v5.4s, v25.4s
	sub	v5.4s, v24.4s, v5.4s
	uzp2	v17.4s, v18.4s, v17.4s
	uzp2	v16.4s, v19.4s, v16.4s
	and	v6.16b, v6.16b, v20.16b
	and	v7.16b, v7.16b, v20.16b
	orr	v4.16b, v21.16b, v4.16b
	orr	v5.16b, v22.16b, v5.16b
	add	v3.4s, v6.4s, v3.4s
	dup	v6.4s, w13
	add	v2.4s, v7.4s, v2.4s
	orr	v4.16b, v4.16b, v17.16b
	orr	v5.16b, v5.16b, v16.16b
	add	v3.4s, v3.4s, v6.4s
	add	v2.4s, v2.4s, v6.4s
	cmge	v7.4s, v4.4s, #0
	cmge	v6.4s, v5.4s, #0
	usra	v0.4s, v4.4s, #31
	usra	v1.4s, v5.4s, #31
	and	v3.16b, v7.16b, v3.16b
	and	v2.16b, v6.16b, v2.16b
	stp	q3, q2, [x9, #-16]
	add	x9, x9, #32
	b.ne	.Lframes_BB2_5
	add	v0.4s, v1.4s, v0.4s
	addv	s0, v0.4s
	fmov	w8, s0
	cbz	w8, .Lframes_BB2_67
	movi	d0, #0000000000000000
	mov	x8, xzr
	b	.Lframes_BB2_11
.Lframes_BB2_8:
	movi	d1, #0000000000000000
.Lframes_BB2_9:
	str	s1, [x1, x8, lsl #2]
.Lframes_BB2_10:
	add	x8, x8, #1
	cmp	x8, #32
	b.eq	.Lframes_BB2_67
.Lframes_BB2_11:
	ldr	s1, [x1, x8, lsl #2]
	fcmp	s1, s0
	b.ne	.Lframes_BB2_10
	ldr	s1, [x0, x8, lsl #2]
	fmov	s2, s1
	fcmp	s2, s2
	b.vs	.Lframes_BB2_65
	fmov	w9, s1
	ands	w10, w9, #0x7fffffff
	b.eq	.Lframes_BB2_8
	lsr	w11, w9, #23
	cmp	w11, #254
	b.hi	.Lframes_BB2_17
	cbnz	w11, .Lframes_BB2_18
	clz	w10, w9
	sub	w11, w10, #8
	lsl	w9, w9, w11
	sub	w9, w9, w10, lsl #23
	mov	w10, #1115684864
	b	.Lframes_BB2_19
.Lframes_BB2_17:
	mov	w9, #2139095040
	mov	w11, #2143289344
	fmov	s1, w11
	fmov	s2, w9
	cmp	w10, w9
	fcsel	s1, s2, s1, eq
	b	.Lframes_BB2_9
.Lframes_BB2_18:
	mov	w10, #1048576000
.Lframes_BB2_19:
	add	w9, w9, w10
	ubfiz	x10, x9, #29, #32
	orr	x11, x10, #0x3ff0000000000000
	ubfx	w10, w9, #18, #5
	fmov	d1, x11
	adrp	x11, .Lframes_JTI2_0
	add	x11, x11, :lo12:.Lframes_JTI2_0
.Lframes_tmp0:
	adr	x12, .Lframes_tmp0
	ldrsw	x13, [x11, x10, lsl #2]
	add	x12, x12, x13
	br	x12
.Lframes_BB2_20:
	adrp	x10, .Lframes_CPI2_124
	adrp	x11, .Lframes_CPI2_127
	ldr	d2, [x10, :lo12:.Lframes_CPI2_124]
	adrp	x10, .Lframes_CPI2_125
	ldr	d4, [x11, :lo12:.Lframes_CPI2_127]
	ldr	d3, [x10, :lo12:.Lframes_CPI2_125]
	adrp	x10, .Lframes_CPI2_126
	fmul	d2, d1, d2
	fadd	d2, d2, d3
	ldr	d3, [x10, :lo12:.Lframes_CPI2_126]
	b	.Lframes_BB2_52
.Lframes_BB2_21:
	adrp	x10, .Lframes_CPI2_16
	adrp	x11, .Lframes_CPI2_19
	ldr	d2, [x10, :lo12:.Lframes_CPI2_16]
	adrp	x10, .Lframes_CPI2_17
	ldr	d4, [x11, :lo12:.Lframes_CPI2_19]
	ldr	d3, [x10, :lo12:.Lframes_CPI2_17]
	adrp	x10, .Lframes_CPI2_18
	fmul	d2, d1, d2
	fadd	d2, d2, d3
	ldr	d3, [x10, :lo12:.Lframes_CPI2_18]
	b	.Lframes_BB2_52
.Lframes_BB2_22:
	adrp	x10, .Lframes_CPI2_60
	adrp	x11, .Lframes_CPI2_63
	ldr	d2, [x10, :lo12:.Lframes_CPI2_60]
	adrp	x10, .Lframes_CPI2_61
	ldr	d4, [x11, :lo12:.Lframes_CPI2_63]
	ldr	d3, [x10, :lo12:.Lframes_CPI2_61]
	adrp	x10, .Lframes_CPI2_62
	fmul	d2, d1, d2
	fadd	d2, d2, d3
	ldr	d3, [x10, :lo12:.Lframes_CPI2_62]
	b	.Lframes_BB2_52
.Lframes_BB2_23:
	adrp	x10, .Lframes_CPI2_68
	adrp	x11, .Lframes_CPI2_71
	ldr	d2, [x10, :lo12:.Lframes_CPI2_68]
	adrp	x10, .Lframes_CPI2_69
	ldr	d4, [x11, :lo12:.Lframes_CPI2_71]
	ldr	d3, [x10, :lo12:.Lframes_CPI2_69]
	adrp	x10, .Lframes_CPI2_70
	fmul	d2, d1, d2
	fadd	d2, d2, d3
	ldr	d3, [x10, :lo12:.Lframes_CPI2_70]
	b	.Lframes_BB2_52
.Lframes_BB2_24:
	adrp	x10, .Lframes_CPI2_80
	adrp	x11, .Lframes_CPI2_83
	ldr	d2, [x10, :lo12:.Lframes_CPI2_80]
	adrp	x10, .Lframes_CPI2_81
	ldr	d4, [x11, :lo12:.Lframes_CPI2_83]
	ldr	d3, [x10, :lo12:.Lframes_CPI2_81]
	adrp	x10, .Lframes_CPI2_82
	fmul	d2, d1, d2
	fadd	d2, d2, d3
	ldr	d3, [x10, :lo12:.Lframes_CPI2_82]
	b	.Lframes_BB2_52
.Lframes_BB2_25:
	adrp	x10, .Lframes_CPI2_108
	adrp	x11, .Lframes_CPI2_111
	ldr	d2, [x10, :lo12:.Lframes_CPI2_108]
	adrp	x10, .Lframes_CPI2_109
	ldr	d4, [x11, :lo12:.Lframes_CPI2_111]
	ldr	d3, [x10, :lo12:.Lframes_CPI2_109]
	adrp	x10, .Lframes_CPI2_110
	fmul	d2, d1, d2
	fadd	d2, d2, d3
	ldr	d3, [x10, :lo12:.Lframes_CPI2_110]
	b	.Lframes_BB2_52
.Lframes_BB2_26:
	adrp	x10, .Lframes_CPI2_76
	adrp	x11, .Lframes_CPI2_79
	ldr	d2, [x10, :lo12:.Lframes_CPI2_76]
	adrp	x10, .Lframes_CPI2_77
	ldr	d4, [x11, :lo12:.Lframes_CPI2_79]
	ldr	d3, [x10, :lo12:.Lframes_CPI2_77]
	adrp	x10, .Lframes_CPI2_78
	fmul	d2, d1, d2
	fadd	d2, d2, d3
	ldr	d3, [x10, :lo12:.Lframes_CPI2_78]
	b	.Lframes_BB2_52
.Lframes_BB2_27:
	adrp	x10, .Lframes_CPI2_88
	adrp	x11, .Lframes_CPI2_91
	ldr	d2, [x10, :lo12:.Lframes_CPI2_88]
	adrp	x10, .Lframes_CPI2_89
	ldr	d4, [x11, :lo12:.Lframes_CPI2_91]
	ldr	d3, [x10, :lo12:.Lframes_CPI2_89]
	adrp	x10, .Lframes_CPI2_90
	fmul	d2, d1, d2
	fadd	d2, d2, d3
	ldr	d3, [x10, :lo12:.Lframes_CPI2_90]
	b	.Lframes_BB2_52
.Lframes_BB2_28:
	adrp	x10, .Lframes_CPI2_24
	adrp	x11, .Lframes_CPI2_27
	ldr	d2, [x10, :lo12:.Lframes_CPI2_24]
	adrp	x10, .Lframes_CPI2_25
	ldr	d4, [x11, :lo12:.Lframes_CPI2_27]
	ldr	d3, [x10, :lo12:.Lframes_CPI2_25]
	adrp	x10, .Lframes_CPI2_26
	fmul	d2, d1, d2
	fadd	d2, d2, d3
	ldr	d3, [x10, :lo12:.Lframes_CPI2_26]
	b	.Lframes_BB2_52
.Lframes_BB2_29:
	adrp	x10, .Lframes_CPI2_28
	adrp	x11, .Lframes_CPI2_31
	ldr	d2, [x10, :lo12:.Lframes_CPI2_28]
	adrp	x10, .Lframes_CPI2_29
	ldr	d4, [x11, :lo12:.Lframes_CPI2_31]
	ldr	d3, [x10, :lo12:.Lframes_CPI2_29]
	adrp	x10, .Lframes_CPI2_30
	fmul	d2, d1, d2
	fadd	d2, d2, d3
	ldr	d3, [x10, :lo12:.Lframes_CPI2_30]
	b	.Lframes_BB2_52
.Lframes_BB2_30:
	adrp	x10, .Lframes_CPI2_116
	adrp	x11, .Lframes_CPI2_119
	ldr	d2, [x10, :lo12:.Lframes_CPI2_116]
	adrp	x10, .Lframes_CPI2_117
	ldr	d4, [x11, :lo12:.Lframes_CPI2_119]
	ldr	d3, [x10, :lo12:.Lframes_CPI2_117]
	adrp	x10, .Lframes_CPI2_118
	fmul	d2, d1, d2
	fadd	d2, d2, d3
	ldr	d3, [x10, :lo12:.Lframes_CPI2_118]
	b	.Lframes_BB2_52
.Lframes_BB2_31:
	adrp	x10, .Lframes_CPI2_64
	adrp	x11, .Lframes_CPI2_67
	ldr	d2, [x10, :lo12:.Lframes_CPI2_64]
	adrp	x10, .Lframes_CPI2_65
	ldr	d4, [x11, :lo12:.Lframes_CPI2_67]
	ldr	d3, [x10, :lo12:.Lframes_CPI2_65]
	adrp	x10, .Lframes_CPI2_66
	fmul	d2, d1, d2
	fadd	d2, d2, d3
	ldr	d3, [x10, :lo12:.Lframes_CPI2_66]
	b	.Lframes_BB2_52
.Lframes_BB2_32:
	adrp	x10, .Lframes_CPI2_112
	adrp	x11, .Lframes_CPI2_115
	ldr	d2, [x10, :lo12:.Lframes_CPI2_112]
	adrp	x10, .Lframes_CPI2_113
	ldr	d4, [x11, :lo12:.Lframes_CPI2_115]
	ldr	d3, [x10, :lo12:.Lframes_CPI2_113]
	adrp	x10, .Lframes_CPI2_114
	fmul	d2, d1, d2
	fadd	d2, d2, d3
	ldr	d3, [x10, :lo12:.Lframes_CPI2_114]
	b	.Lframes_BB2_52
.Lframes_BB2_33:
	adrp	x10, .Lframes_CPI2_96
	adrp	x11, .Lframes_CPI2_99
	ldr	d2, [x10, :lo12:.Lframes_CPI2_96]
	adrp	x10, .Lframes_CPI2_97
	ldr	d4, [x11, :lo12:.Lframes_CPI2_99]
	ldr	d3, [x10, :lo12:.Lframes_CPI2_97]
	adrp	x10, .Lframes_CPI2_98
	fmul	d2, d1, d2
	fadd	d2, d2, d3
	ldr	d3, [x10, :lo12:.Lframes_CPI2_98]
	b	.Lframes_BB2_52
.Lframes_BB2_34:
	adrp	x10, .Lframes_CPI2_120
	adrp	x11, .Lframes_CPI2_123
	ldr	d2, [x10, :lo12:.Lframes_CPI2_120]
	adrp	x10, .Lframes_CPI2_121
	ldr	d4, [x11, :lo12:.Lframes_CPI2_123]
	ldr	d3, [x10, :lo12:.Lframes_CPI2_121]
	adrp	x10, .Lframes_CPI2_122
	fmul	d2, d1, d2
	fadd	d2, d2, d3
	ldr	d3, [x10, :lo12:.Lframes_CPI2_122]
	b	.Lframes_BB2_52
.Lframes_BB2_35:
	adrp	x10, .Lframes_CPI2_0
	adrp	x11, .Lframes_CPI2_3
	ldr	d2, [x10, :lo12:.Lframes_CPI2_0]
	adrp	x10, .Lframes_CPI2_1
	ldr	d4, [x11, :lo12:.Lframes_CPI2_3]
	ldr	d3, [x10, :lo12:.Lframes_CPI2_1]
	adrp	x10, .Lframes_CPI2_2
	fmul	d2, d1, d2
	fadd	d2, d2, d3
	ldr	d3, [x10, :lo12:.Lframes_CPI2_2]
	b	.Lframes_BB2_52
.Lframes_BB2_36:
	adrp	x10, .Lframes_CPI2_56
	adrp	x11, .Lframes_CPI2_59
	ldr	d2, [x10, :lo12:.Lframes_CPI2_56]
	adrp	x10, .Lframes_CPI2_57
	ldr	d4, [x11, :lo12:.Lframes_CPI2_59]
	ldr	d3, [x10, :lo12:.Lframes_CPI2_57]
	adrp	x10, .Lframes_CPI2_58
	fmul	d2, d1, d2
	fadd	d2, d2, d3
	ldr	d3, [x10, :lo12:.Lframes_CPI2_58]
	b	.Lframes_BB2_52
.Lframes_BB2_37:
	adrp	x10, .Lframes_CPI2_44
	adrp	x11, .Lframes_CPI2_47
	ldr	d2, [x10, :lo12:.Lframes_CPI2_44]
	adrp	x10, .Lframes_CPI2_45
	ldr	d4, [x11, :lo12:.Lframes_CPI2_47]
	ldr	d3, [x10, :lo12:.Lframes_CPI2_45]
	adrp	x10, .Lframes_CPI2_46
	fmul	d2, d1, d2
	fadd	d2, d2, d3
	ldr	d3, [x10, :lo12:.Lframes_CPI2_46]
	b	.Lframes_BB2_52
.Lframes_BB2_38:
	adrp	x10, .Lframes_CPI2_104
	adrp	x11, .Lframes_CPI2_107
	ldr	d2, [x10, :lo12:.Lframes_CPI2_104]
	adrp	x10, .Lframes_CPI2_105
	ldr	d4, [x11, :lo12:.Lframes_CPI2_107]
	ldr	d3, [x10, :lo12:.Lframes_CPI2_105]
	adrp	x10, .Lframes_CPI2_106
	fmul	d2, d1, d2
	fadd	d2, d2, d3
	ldr	d3, [x10, :lo12:.Lframes_CPI2_106]
	b	.Lframes_BB2_52
.Lframes_BB2_39:
	adrp	x10, .Lframes_CPI2_40
	adrp	x11, .Lframes_CPI2_43
	ldr	d2, [x10, :lo12:.Lframes_CPI2_40]
	adrp	x10, .Lframes_CPI2_41
	ldr	d4, [x11, :lo12:.Lframes_CPI2_43]
	ldr	d3, [x10, :lo12:.Lframes_CPI2_41]
	adrp	x10, .Lframes_CPI2_42
	fmul	d2, d1, d2
	fadd	d2, d2, d3
	ldr	d3, [x10, :lo12:.Lframes_CPI2_42]
	b	.Lframes_BB2_52
.Lframes_BB2_40:
	adrp	x10, .Lframes_CPI2_72
	adrp	x11, .Lframes_CPI2_75
	ldr	d2, [x10, :lo12:.Lframes_CPI2_72]
	adrp	x10, .Lframes_CPI2_73
	ldr	d4, [x11, :lo12:.Lframes_CPI2_75]
	ldr	d3, [x10, :lo12:.Lframes_CPI2_73]
	adrp	x10, .Lframes_CPI2_74
	fmul	d2, d1, d2
	fadd	d2, d2, d3
	ldr	d3, [x10, :lo12:.Lframes_CPI2_74]
	b	.Lframes_BB2_52
.Lframes_BB2_41:
	adrp	x10, .Lframes_CPI2_100
	adrp	x11, .Lframes_CPI2_103
	ldr	d2, [x10, :lo12:.Lframes_CPI2_100]
	adrp	x10, .Lframes_CPI2_101
	ldr	d4, [x11, :lo12:.Lframes_CPI2_103]
	ldr	d3, [x10, :lo12:.Lframes_CPI2_101]
	adrp	x10, .Lframes_CPI2_102
	fmul	d2, d1, d2
	fadd	d2, d2, d3
	ldr	d3, [x10, :lo12:.Lframes_CPI2_102]
	b	.Lframes_BB2_52
.Lframes_BB2_42:
	adrp	x10, .Lframes_CPI2_52
	adrp	x11, .Lframes_CPI2_55
	ldr	d2, [x10, :lo12:.Lframes_CPI2_52]
	adrp	x10, .Lframes_CPI2_53
	ldr	d4, [x11, :lo12:.Lframes_CPI2_55]
	ldr	d3, [x10, :lo12:.Lframes_CPI2_53]
	adrp	x10, .Lframes_CPI2_54
	fmul	d2, d1, d2
	fadd	d2, d2, d3
	ldr	d3, [x10, :lo12:.Lframes_CPI2_54]
	b	.Lframes_BB2_52
.Lframes_BB2_43:
	adrp	x10, .Lframes_CPI2_84
	adrp	x11, .Lframes_CPI2_87
	ldr	d2, [x10, :lo12:.Lframes_CPI2_84]
	adrp	x10, .Lframes_CPI2_85
	ldr	d4, [x11, :lo12:.Lframes_CPI2_87]
	ldr	d3, [x10, :lo12:.Lframes_CPI2_85]
	adrp	x10, .Lframes_CPI2_86
	fmul	d2, d1, d2
	fadd	d2, d2, d3
	ldr	d3, [x10, :lo12:.Lframes_CPI2_86]
	b	.Lframes_BB2_52
.Lframes_BB2_44:
	adrp	x10, .Lframes_CPI2_92
	adrp	x11, .Lframes_CPI2_95
	ldr	d2, [x10, :lo12:.Lframes_CPI2_92]
	adrp	x10, .Lframes_CPI2_93
	ldr	d4, [x11, :lo12:.Lframes_CPI2_95]
	ldr	d3, [x10, :lo12:.Lframes_CPI2_93]
	adrp	x10, .Lframes_CPI2_94
	fmul	d2, d1, d2
	fadd	d2, d2, d3
	ldr	d3, [x10, :lo12:.Lframes_CPI2_94]
	b	.Lframes_BB2_52
.Lframes_BB2_45:
	adrp	x10, .Lframes_CPI2_4
	adrp	x11, .Lframes_CPI2_7
	ldr	d2, [x10, :lo12:.Lframes_CPI2_4]
	adrp	x10, .Lframes_CPI2_5
	ldr	d4, [x11, :lo12:.Lframes_CPI2_7]
	ldr	d3, [x10, :lo12:.Lframes_CPI2_5]
	adrp	x10, .Lframes_CPI2_6
	fmul	d2, d1, d2
	fadd	d2, d2, d3
	ldr	d3, [x10, :lo12:.Lframes_CPI2_6]
	b	.Lframes_BB2_52
.Lframes_BB2_46:
	adrp	x10, .Lframes_CPI2_36
	adrp	x11, .Lframes_CPI2_39
	ldr	d2, [x10, :lo12:.Lframes_CPI2_36]
	adrp	x10, .Lframes_CPI2_37
	ldr	d4, [x11, :lo12:.Lframes_CPI2_39]
	ldr	d3, [x10, :lo12:.Lframes_CPI2_37]
	adrp	x10, .Lframes_CPI2_38
	fmul	d2, d1, d2
	fadd	d2, d2, d3
	ldr	d3, [x10, :lo12:.Lframes_CPI2_38]
	b	.Lframes_BB2_52
.Lframes_BB2_47:
	adrp	x10, .Lframes_CPI2_48
	adrp	x11, .Lframes_CPI2_51
	ldr	d2, [x10, :lo12:.Lframes_CPI2_48]
	adrp	x10, .Lframes_CPI2_49
	ldr	d4, [x11, :lo12:.Lframes_CPI2_51]
	ldr	d3, [x10, :lo12:.Lframes_CPI2_49]
	adrp	x10, .Lframes_CPI2_50
	fmul	d2, d1, d2
	fadd	d2, d2, d3
	ldr	d3, [x10, :lo12:.Lframes_CPI2_50]
	b	.Lframes_BB2_52
.Lframes_BB2_48:
	adrp	x10, .Lframes_CPI2_32
	adrp	x11, .Lframes_CPI2_35
	ldr	d2, [x10, :lo12:.Lframes_CPI2_32]
	adrp	x10, .Lframes_CPI2_33
	ldr	d4, [x11, :lo12:.Lframes_CPI2_35]
	ldr	d3, [x10, :lo12:.Lframes_CPI2_33]
	adrp	x10, .Lframes_CPI2_34
	fmul	d2, d1, d2
	fadd	d2, d2, d3
	ldr	d3, [x10, :lo12:.Lframes_CPI2_34]
	b	.Lframes_BB2_52
.Lframes_BB2_49:
	adrp	x10, .Lframes_CPI2_12
	adrp	x11, .Lframes_CPI2_15
	ldr	d2, [x10, :lo12:.Lframes_CPI2_12]
	adrp	x10, .Lframes_CPI2_13
	ldr	d4, [x11, :lo12:.Lframes_CPI2_15]
	ldr	d3, [x10, :lo12:.Lframes_CPI2_13]
	adrp	x10, .Lframes_CPI2_14
	fmul	d2, d1, d2
	fadd	d2, d2, d3
	ldr	d3, [x10, :lo12:.Lframes_CPI2_14]
	b	.Lframes_BB2_52
.Lframes_BB2_50:
	adrp	x10, .Lframes_CPI2_8
	adrp	x11, .Lframes_CPI2_11
	ldr	d2, [x10, :lo12:.Lframes_CPI2_8]
	adrp	x10, .Lframes_CPI2_9
	ldr	d4, [x11, :lo12:.Lframes_CPI2_11]
	ldr	d3, [x10, :lo12:.Lframes_CPI2_9]
	adrp	x10, .Lframes_CPI2_10
	fmul	d2, d1, d2
	fadd	d2, d2, d3
	ldr	d3, [x10, :lo12:.Lframes_CPI2_10]
	b	.Lframes_BB2_52
.Lframes_BB2_51:
	adrp	x10, .Lframes_CPI2_20
	adrp	x11, .Lframes_CPI2_23
	ldr	d2, [x10, :lo12:.Lframes_CPI2_20]
	adrp	x10, .Lframes_CPI2_21
	ldr	d4, [x11, :lo12:.Lframes_CPI2_23]
	ldr	d3, [x10, :lo12:.Lframes_CPI2_21]
	adrp	x10, .Lframes_CPI2_22
	fmul	d2, d1, d2
	fadd	d2, d2, d3
	ldr	d3, [x10, :lo12:.Lframes_CPI2_22]
.Lframes_BB2_52:
	fmul	d3, d3, d1
	fmul	d5, d1, d1
	ubfx	w10, w9, #23, #2
	adrp	x11, .Lframes_switch.table.roots.fourth_roots
	add	x11, x11, :lo12:.Lframes_switch.table.roots.fourth_roots
	fadd	d3, d4, d3
	ldr	d4, [x11, w10, uxtw #3]
	mov	x11, #4841369599423283200
	fmul	d1, d4, d1
	fmov	d4, x11
	mov	x11, #-4382002437431492608
	fmul	d3, d5, d3
	fmov	d5, x11
	adrp	x11, .Lframes_switch.table.roots.fourth_roots.9
	add	x11, x11, :lo12:.Lframes_switch.table.roots.fourth_roots.9
	ldr	d6, [x11, w10, uxtw #3]
	fadd	d2, d2, d3
	fmul	d1, d2, d1
	fmul	d3, d2, d1
	fmul	d2, d2, d6
	fadd	d1, d3, d4
	fadd	d5, d1, d5
	fadd	d3, d3, d5
	fmul	d2, d3, d2
	fadd	d2, d2, d4
	fmov	d3, d2
	fcmp	d3, d3
	b.vs	.Lframes_BB2_66
	fmov	x10, d1
	fmov	x12, d2
	mov	w11, w10
	mov	w10, w12
.Lframes_BB2_54:
	and	w12, w9, #0x7fffff
	and	w13, w9, #0x800000
	umaddl	x14, w11, w11, x11
	orr	w12, w12, #0x800000
	add	w13, w13, #2048, lsl #12
	umsubl	x14, w12, w13, x14
	cmp	x14, x11, lsl #1
	b.hs	.Lframes_BB2_56
	mov	x13, x11
	b	.Lframes_BB2_59
.Lframes_BB2_56:
	umull	x12, w12, w13
	add	x14, x11, #1
.Lframes_BB2_57:
	mov	x13, x11
	add	x11, x11, #1
	mul	x15, x11, x13
	mov	x13, x14
	add	x14, x14, #1
	cmp	x15, x12
	b.lo	.Lframes_BB2_57
.Lframes_BB2_58:
	sub	x13, x13, #1
	mul	x11, x13, x13
	add	x14, x12, x13
	cmp	x14, x11
	b.ls	.Lframes_BB2_58
.Lframes_BB2_59:
	lsr	w11, w9, #1
	umaddl	x12, w10, w10, x10
	and	w11, w11, #0x800000
	add	w11, w11, #2048, lsl #12
	mul	x11, x13, x11
	sub	x12, x12, x11
	cmp	x12, x10, lsl #1
	b.hs	.Lframes_BB2_61
	mov	x12, x10
	b	.Lframes_BB2_64
.Lframes_BB2_61:
	add	x13, x10, #1
.Lframes_BB2_62:
	mov	x12, x10
	add	x10, x10, #1
	mul	x14, x10, x12
	mov	x12, x13
	add	x13, x13, #1
	cmp	x14, x11
	b.lo	.Lframes_BB2_62
.Lframes_BB2_63:
	sub	x12, x12, #1
	mul	x10, x12, x12
	add	x13, x11, x12
	cmp	x13, x10
	b.ls	.Lframes_BB2_63
.Lframes_BB2_64:
	lsr	w9, w9, #25
	mov	w10, #528482304
	add	w9, w12, w9, lsl #23
	add	w9, w9, w10
	fmov	s1, w9
	b	.Lframes_BB2_9
.Lframes_BB2_65:
	mov	w9, #2143289344
	fmov	s1, w9
	b	.Lframes_BB2_9
.Lframes_BB2_66:
	mov	w10, #8388608
	mov	w11, #8388608
	bfxil	w11, w9, #1, #22
	bfxil	w10, w9, #2, #21
	b	.Lframes_BB2_54
.Lframes_BB2_67:
	add	sp, sp, #512
	ldp	x20, x19, [sp, #80]
	ldp	x22, x21, [sp, #64]
	ldp	x24, x23, [sp, #48]
	ldp	x30, x25, [sp, #32]
	ldp	d9, d8, [sp, #16]
	ldr	d10, [sp], #96
	ret
.Lframes_func_end2:
	.size	loamchalice.frames.roots.fourth_roots, .Lframes_func_end2-loamchalice.frames.roots.fourth_roots
	.section	.rodata.frames.roots.fourth_roots,"a",@progbits
	.p2align	2, 0x0
.Lframes_JTI2_0:
	.word	.Lframes_BB2_20-.Lframes_tmp0
	.word	.Lframes_BB2_34-.Lframes_tmp0
	.word	.Lframes_BB2_30-.Lframes_tmp0
	.word	.Lframes_BB2_32-.Lframes_tmp0
	.word	.Lframes_BB2_25-.Lframes_tmp0
	.word	.Lframes_BB2_38-.Lframes_tmp0
	.word	.Lframes_BB2_41-.Lframes_tmp0
	.word	.Lframes_BB2_33-.Lframes_tmp0
	.word	.Lframes_BB2_44-.Lframes_tmp0
	.word	.Lframes_BB2_27-.Lframes_tmp0
	.word	.Lframes_BB2_43-.Lframes_tmp0
	.word	.Lframes_BB2_24-.Lframes_tmp0
	.word	.Lframes_BB2_26-.Lframes_tmp0
	.word	.Lframes_BB2_40-.Lframes_tmp0
	.word	.Lframes_BB2_23-.Lframes_tmp0
	.word	.Lframes_BB2_31-.Lframes_tmp0
	.word	.Lframes_BB2_22-.Lframes_tmp0
	.word	.Lframes_BB2_36-.Lframes_tmp0
	.word	.Lframes_BB2_42-.Lframes_tmp0
	.word	.Lframes_BB2_47-.Lframes_tmp0
	.word	.Lframes_BB2_37-.Lframes_tmp0
	.word	.Lframes_BB2_39-.Lframes_tmp0
	.word	.Lframes_BB2_46-.Lframes_tmp0
	.word	.Lframes_BB2_48-.Lframes_tmp0
	.word	.Lframes_BB2_29-.Lframes_tmp0
	.word	.Lframes_BB2_28-.Lframes_tmp0
	.word	.Lframes_BB2_51-.Lframes_tmp0
	.word	.Lframes_BB2_21-.Lframes_tmp0
	.word	.Lframes_BB2_49-.Lframes_tmp0
	.word	.Lframes_BB2_50-.Lframes_tmp0
	.word	.Lframes_BB2_45-.Lframes_tmp0
	.word	.Lframes_BB2_35-.Lframes_tmp0

	.section	.text.frames.pixels.degrees_block,"ax",@progbits
	.p2align	2
	.type	loamchalice.frames.pixels.degrees_block,@function
loamchalice.frames.pixels.degrees_block:
	stp	x29, x30, [sp, #-32]!
	str	x19, [sp, #16]
	mov	x29, sp
	mov	x19, x1
	bl	loamchalice.frames.roots.fourth_roots
	mov	w8, #37683
	ldp	q1, q2, [x19]
	movk	w8, #50056, lsl #16
	ldp	q3, q4, [x19, #32]
	dup	v0.4s, w8
	ldp	q5, q6, [x19, #64]
	fadd	v1.4s, v1.4s, v0.4s
	fadd	v2.4s, v2.4s, v0.4s
	fadd	v3.4s, v3.4s, v0.4s
	fadd	v4.4s, v4.4s, v0.4s
	fadd	v5.4s, v5.4s, v0.4s
	stp	q1, q2, [x19]
	ldp	q7, q1, [x19, #96]
	fadd	v2.4s, v6.4s, v0.4s
	stp	q3, q4, [x19, #32]
	fadd	v3.4s, v7.4s, v0.4s
	fadd	v0.4s, v1.4s, v0.4s
	stp	q5, q2, [x19, #64]
	stp	q3, q0, [x19, #96]
	ldr	x19, [sp, #16]
	ldp	x29, x30, [sp], #32
	ret
.Lframes_func_end3:
	.size	loamchalice.frames.pixels.degrees_block, .Lframes_func_end3-loamchalice.frames.pixels.degrees_block

	.section	.text.frames.calculations.from_pixels,"ax",@progbits
	.p2align	2
	.type	loamchalice.frames.calculations.from_pixels,@function
loamchalice.frames.calculations.from_pixels:
	str	d8, [sp, #-80]!
	stp	x29, x30, [sp, #8]
	add	x29, sp, #8
	str	x28, [sp, #24]
	stp	x24, x23, [sp, #32]
	stp	x22, x21, [sp, #48]
	stp	x20, x19, [sp, #64]
	sub	sp, sp, #448
	movi	v5.2d, #0000000000000000
	ldr	x12, [x29, #112]
	ldr	x11, [x29, #96]
	cmp	x5, x7
	ldrb	w22, [x2, #42]
	ldr	x8, [x29, #160]
	csel	x15, x5, x7, lo
	cmp	x11, x12
	ldr	x19, [x29, #144]
	csel	x16, x11, x12, lo
	ldp	s22, s6, [x1, #8]
	stp	q5, q5, [sp, #80]
	cmp	x15, x16
	ldr	x9, [x29, #128]
	stp	q5, q5, [sp, #112]
	csel	x23, x15, x16, lo
	cmp	x5, #192
	stp	q5, q5, [sp, #144]
	mov	w15, #192
	ldr	x10, [x29, #80]
	stp	q5, q5, [sp, #176]
	ldp	q23, q5, [x1, #32]
	ldp	s17, s21, [x1, #16]
	csel	x16, xzr, x15, lo
	ldp	s18, s3, [x1, #24]
	cmp	x7, #192
	str	q23, [sp, #64]
	ldr	q23, [x1, #64]
	ldrh	w20, [x1]
	ldp	s7, s16, [x1, #92]
	and	w13, w3, #0xff
	stp	q5, q23, [sp, #32]
	ldur	q5, [x1, #124]
	csel	x24, xzr, x15, lo
	ldur	q23, [x1, #108]
	ldp	s1, s19, [x2]
	ldrsh	w21, [x1, #2]
	cmp	w22, #0
	ldr	s2, [x1, #84]
	ldrh	w3, [x1, #88]
	csel	x15, x4, x6, eq
	csel	x16, x16, x24, eq
	ldrb	w14, [x1, #100]
	ldr	s4, [x1, #104]
	cmp	w13, #2
	ldr	s20, [x2, #8]
	ldr	x17, [x2, #16]
	ldrb	w18, [x2, #24]
	stp	q23, q5, [sp]
	ldr	s5, [x2, #28]
	ldrh	w5, [x2, #32]
	ldrh	w7, [x2, #34]
	ldrsh	w22, [x2, #36]
	ldrh	w1, [x2, #38]
	stur	xzr, [x29, #-24]
	b.eq	.Lframes_BB4_7
	cmp	w13, #1
	b.ne	.Lframes_BB4_28
	cmp	x10, x23
	csel	x2, x10, x23, lo
	cmp	x2, #192
	b.lo	.Lframes_BB4_29
	cmp	x9, #384
	b.lo	.Lframes_BB4_32
	cmp	x8, #192
	b.lo	.Lframes_BB4_35
	cmp	x19, #192
	b.lo	.Lframes_BB4_37
	cmp	x17, #7
	b.hi	.Lframes_BB4_40
	b	.Lframes_BB4_38
.Lframes_BB4_7:
	cmp	x10, x23
	csel	x2, x10, x23, lo
	cmp	x2, #192
	b.lo	.Lframes_BB4_29
	cmp	x9, #384
	b.lo	.Lframes_BB4_32
	cmp	x8, #192
	b.lo	.Lframes_BB4_35
	cmp	x19, #192
	b.lo	.Lframes_BB4_37
	cmp	x17, #7
	b.hi	.Lframes_BB4_40
	sub	w4, w22, w21
	cmp	w4, w4, sxth
	b.ne	.Lframes_BB4_39
	sxth	w8, w20
	movi	d26, #0000000000000000
	scvtf	s24, w8
	fcmp	s24, s26
	b.eq	.Lframes_BB4_42
	sxth	w1, w1
	mov	x8, xzr
	mov	w2, #1
	scvtf	s23, w1
	mov	w1, #8
	fcmp	s23, s26
	b.eq	.Lframes_BB4_33
	fmov	s25, s6
	fcmp	s25, s26
	b.eq	.Lframes_BB4_33
	scvtf	s25, w4
	fdiv	s24, s25, s24
	fmov	s25, #1.00000000
	fmul	s22, s22, s24
	fadd	s22, s22, s25
	fmov	s25, s22
	fcmp	s25, s26
	b.eq	.Lframes_BB4_47
	sxth	w8, w7
	scvtf	s25, w8
	sxth	w8, w5
	scvtf	s27, w8
	fmul	s21, s21, s25
	fadd	s21, s27, s21
	fmov	s27, s21
	fcmp	s27, s26
	b.eq	.Lframes_BB4_47
	fmov	s27, s1
	mov	x8, xzr
	mov	w2, #1
	fcmp	s27, s26
	b.eq	.Lframes_BB4_33
	fcmp	s27, s27
	b.vs	.Lframes_BB4_33
	ldrsh	w8, [sp, #66]
	ldrsh	w1, [sp, #64]
	cmp	w8, w1
	b.le	.Lframes_BB4_62
	ldrsh	w1, [sp, #68]
	cmp	w1, w8
	b.le	.Lframes_BB4_63
	ldrsh	w8, [sp, #70]
	cmp	w8, w1
	b.le	.Lframes_BB4_64
	ldrsh	w1, [sp, #72]
	cmp	w1, w8
	b.le	.Lframes_BB4_65
	ldrsh	w8, [sp, #74]
	cmp	w8, w1
	b.le	.Lframes_BB4_66
	ldrsh	w1, [sp, #76]
	cmp	w1, w8
	b.le	.Lframes_BB4_67
	ldrsh	w8, [sp, #78]
	cmp	w8, w1
	b.gt	.Lframes_BB4_50
	mov	w1, #13
	mov	w2, #1
	mov	w8, #7
	b	.Lframes_BB4_33
.Lframes_BB4_28:
	cmp	x23, #192
	b.hs	.Lframes_BB4_31
.Lframes_BB4_29:
	mov	x8, xzr
	mov	w1, #2
.Lframes_BB4_30:
	mov	w2, #1
	b	.Lframes_BB4_33
.Lframes_BB4_31:
	cmp	x9, #384
	b.hs	.Lframes_BB4_34
.Lframes_BB4_32:
	mov	w1, #11
	mov	w2, #1
	mov	x8, x9
.Lframes_BB4_33:
	str	x2, [x0]
	stp	w1, wzr, [x0, #8]
	str	x8, [x0, #16]
	strh	wzr, [x0, #24]
	add	sp, sp, #448
	ldp	x20, x19, [sp, #64]
	ldr	x28, [sp, #24]
	ldp	x22, x21, [sp, #48]
	ldp	x24, x23, [sp, #32]
	ldp	x29, x30, [sp, #8]
	ldr	d8, [sp], #80
	ret
.Lframes_BB4_34:
	cmp	x8, #192
	b.hs	.Lframes_BB4_36
.Lframes_BB4_35:
	mov	w1, #11
	b	.Lframes_BB4_30
.Lframes_BB4_36:
	cmp	x19, #192
	b.hs	.Lframes_BB4_38
.Lframes_BB4_37:
	mov	w1, #11
	mov	w2, #1
	mov	x8, x19
	b	.Lframes_BB4_33
.Lframes_BB4_38:
	sub	w4, w22, w21
	cmp	w4, w4, sxth
	b.eq	.Lframes_BB4_41
.Lframes_BB4_39:
	mov	x8, xzr
	mov	w1, #7
	b	.Lframes_BB4_30
.Lframes_BB4_40:
	mov	w1, #6
	mov	w2, #1
	mov	x8, x17
	b	.Lframes_BB4_33
.Lframes_BB4_41:
	sxth	w8, w20
	movi	d26, #0000000000000000
	scvtf	s24, w8
	fcmp	s24, s26
	b.ne	.Lframes_BB4_43
.Lframes_BB4_42:
	mov	x8, xzr
	mov	w1, #8
	b	.Lframes_BB4_30
.Lframes_BB4_43:
	sxth	w1, w1
	mov	x8, xzr
	mov	w2, #1
	scvtf	s23, w1
	mov	w1, #8
	fcmp	s23, s26
	b.eq	.Lframes_BB4_33
	fmov	s25, s6
	fcmp	s25, s26
	b.eq	.Lframes_BB4_33
	scvtf	s25, w4
	fdiv	s24, s25, s24
	fmov	s25, #1.00000000
	fmul	s22, s22, s24
	fadd	s22, s22, s25
	fmov	s25, s22
	fcmp	s25, s26
	b.eq	.Lframes_BB4_47
	sxth	w8, w7
	scvtf	s25, w8
	sxth	w8, w5
	scvtf	s27, w8
	fmul	s21, s21, s25
	fadd	s21, s27, s21
	fmov	s27, s21
	fcmp	s27, s26
	b.ne	.Lframes_BB4_48
.Lframes_BB4_47:
	mov	x8, xzr
	b	.Lframes_BB4_30
.Lframes_BB4_48:
	fmov	s27, s1
	mov	x8, xzr
	mov	w2, #1
	fcmp	s27, s26
	b.eq	.Lframes_BB4_33
	fcmp	s27, s27
	b.vs	.Lframes_BB4_33
.Lframes_BB4_50:
	fdiv	s21, s25, s21
	mov	w8, #1216348160
	ldr	x4, [x29, #152]
	fmov	s25, w8
	ldr	x1, [x29, #136]
	cmp	w14, #1
	fmul	s21, s21, s25
	fdiv	s21, s21, s22
	fsub	s17, s21, s17
	fdiv	s21, s17, s6
	fmul	s17, s19, s24
	movi	d19, #0000000000000000
	fadd	s17, s20, s17
	fdiv	s6, s18, s23
	fmov	s18, #25.00000000
	fadd	s8, s21, s18
	movi	d18, #0000000000000000
	b.ne	.Lframes_BB4_52
	fmov	s18, #-25.00000000
	mov	w8, #13107
	fmul	s0, s0, s6
	movk	w8, #49235, lsl #16
	fmov	s20, w8
	sxth	w8, w3
	fadd	s18, s8, s18
	scvtf	s21, w8
	fmul	s16, s16, s18
	fadd	s18, s17, s20
	fmov	s20, #1.00000000
	fmul	s7, s7, s18
	fadd	s16, s16, s20
	movi	d18, #0000000000000000
	fmul	s16, s21, s16
	fadd	s7, s7, s20
	fadd	s0, s0, s18
	fmul	s7, s7, s16
	fsub	s0, s0, s7
	fdiv	s0, s0, s1
	fmul	s18, s4, s0
.Lframes_BB4_52:
	movi	d16, #0000000000000000
	movi	d0, #0000000000000000
	mov	x19, x0
	movi	d7, #0000000000000000
	movi	d20, #0000000000000000
	ldr	x3, [x29, #120]
	ldr	x2, [x29, #104]
	ldr	x0, [x29, #88]
	ldr	x8, [x29, #72]
	mov	w6, w13
	mov	w5, w13
	cbz	w13, .Lframes_BB4_61
	mov	w5, #37683
	fmov	s16, s1
	fmov	s7, #1.00000000
	movk	w5, #17288, lsl #16
	cmp	w13, #2
	fmov	s0, w5
	fadd	s0, s8, s0
	fmul	s0, s0, s0
	fmul	s0, s0, s0
	b.ne	.Lframes_BB4_57
	fcmp	s16, s7
	add	x5, sp, #32
	fmov	s19, #1.00000000
	ldr	s7, [x5, x17, lsl #2]
	b.eq	.Lframes_BB4_56
	fsub	s16, s8, s5
	mov	w17, #37683
	cmp	w18, #0
	movk	w17, #17288, lsl #16
	fcsel	s5, s5, s16, eq
	fmov	s16, w17
	fadd	s5, s5, s16
	fmul	s5, s5, s5
	fmul	s5, s5, s5
	fsub	s0, s5, s0
	fdiv	s0, s0, s1
	fsub	s0, s5, s0
.Lframes_BB4_56:
	fmov	s5, #-25.00000000
	mov	w17, #37683
	fmul	s2, s2, s4
	movk	w17, #50056, lsl #16
	movi	d4, #0000000000000000
	cmp	w14, #1
	fmov	s16, w17
	mov	w5, #8
	b	.Lframes_BB4_60
.Lframes_BB4_57:
	fcmp	s16, s7
	add	x5, sp, #32
	fmov	s19, #1.00000000
	ldr	s7, [x5, x17, lsl #2]
	b.eq	.Lframes_BB4_59
	fsub	s16, s8, s5
	mov	w17, #37683
	cmp	w18, #0
	movk	w17, #17288, lsl #16
	fcsel	s5, s5, s16, eq
	fmov	s16, w17
	fadd	s5, s5, s16
	fmul	s5, s5, s5
	fmul	s5, s5, s5
	fsub	s0, s5, s0
	fdiv	s0, s0, s1
	fsub	s0, s5, s0
.Lframes_BB4_59:
	fmov	s5, #-25.00000000
	mov	w17, #37683
	fmul	s2, s2, s4
	movk	w17, #50056, lsl #16
	movi	d4, #0000000000000000
	cmp	w14, #1
	fmov	s16, w17
	mov	w5, wzr
.Lframes_BB4_60:
	fadd	s5, s8, s5
	fmul	s3, s3, s5
	fmul	s5, s7, s16
	fadd	s16, s3, s19
	fadd	s20, s5, s19
	fcsel	s19, s2, s4, eq
	mov	w6, w14
.Lframes_BB4_61:
	mov	w17, #6
	stp	x3, x9, [x29, #-184]
	add	x9, sp, #80
	stp	x0, x11, [x29, #-136]
	mov	w11, #32
	dup	v2.2d, x17
	stp	x9, x11, [x29, #-120]
	mov	w9, #8
	mov	w17, #1
	stp	x8, x10, [sp, #208]
	add	x8, sp, #64
	sub	x0, x29, #104
	stp	x8, x9, [sp, #224]
	add	x8, sp, #32
	add	x3, sp, #208
	stp	x2, x12, [x29, #-152]
	sub	x2, x29, #184
	stp	x8, x9, [sp, #240]
	mov	x8, sp
	stur	wzr, [x29, #-80]
	stp	s6, s17, [x29, #-76]
	stur	x17, [x29, #-88]
	stur	q2, [x29, #-104]
	stp	s1, s8, [x29, #-68]
	stur	w14, [x29, #-60]
	stur	s18, [x29, #-56]
	stp	w13, w6, [x29, #-52]
	stp	s19, s16, [x29, #-44]
	stp	s0, s7, [x29, #-36]
	stur	s20, [x29, #-28]
	stur	w5, [x29, #-24]
	stp	x15, x16, [x29, #-168]
	stp	x8, x9, [sp, #256]
	bl	loamchalice.frames.pixels.frame_pixels
	fmov	s0, s8
	fmov	w9, s8
	mov	w10, #2143289344
	mov	x8, x0
	mov	x2, xzr
	mov	x0, x19
	fcmp	s0, s0
	csel	w1, w10, w9, vs
	b	.Lframes_BB4_33
.Lframes_BB4_62:
	mov	w1, #13
	mov	w8, #1
	b	.Lframes_BB4_30
.Lframes_BB4_63:
	mov	w1, #13
	mov	w2, #1
	mov	w8, #2
	b	.Lframes_BB4_33
.Lframes_BB4_64:
	mov	w1, #13
	mov	w2, #1
	mov	w8, #3
	b	.Lframes_BB4_33
.Lframes_BB4_65:
	mov	w1, #13
	mov	w2, #1
	mov	w8, #4
	b	.Lframes_BB4_33
.Lframes_BB4_66:
	mov	w1, #13
	mov	w2, #1
	mov	w8, #5
	b	.Lframes_BB4_33
.Lframes_BB4_67:
	mov	w1, #13
	mov	w2, #1
	mov	w8, #6
	b	.Lframes_BB4_33
.Lframes_func_end4:
	.size	loamchalice.frames.calculations.from_pixels, .Lframes_func_end4-loamchalice.frames.calculations.from_pixels

	.section	.text.loamchalice_raw_ir_to_temperatures,"ax",@progbits
	.globl	loamchalice_raw_ir_to_temperatures
	.p2align	2
	.type	loamchalice_raw_ir_to_temperatures,@function
loamchalice_raw_ir_to_temperatures:
	sub	sp, sp, #320
	cmp	x2, #0
	mov	w9, #4096
	ldrb	w10, [x0, #99]
	csel	x14, x9, xzr, eq
	cmp	x4, #0
	ldr	s1, [x0, #20]
	csel	x15, x9, xzr, eq
	cmp	x6, #0
	ldr	s2, [x0, #28]
	ldp	s7, s6, [x1, #20]
	csel	x9, x9, xzr, eq
	ldr	s3, [x0, #40]
	cmp	w10, #0
	ldr	x11, [x1]
	ldur	q5, [x0, #44]
	ldr	s4, [x1, #8]
	ldur	q16, [x0, #60]
	ldrb	w16, [x1, #28]
	stp	x29, x30, [sp, #288]
	add	x29, sp, #288
	cset	w12, ne
	cmp	x3, #192
	str	d8, [sp, #272]
	stp	x28, x19, [sp, #304]
	stp	q5, q16, [sp]
	stur	xzr, [x29, #-24]
	b.hs	.Lframes_BB5_2
	mov	x11, xzr
	mov	x0, xzr
	mov	w9, wzr
	mov	w10, #2
	b	.Lframes_BB5_6
.Lframes_BB5_2:
	cmp	x7, #192
	b.lo	.Lframes_BB5_5
	cmp	x5, #192
	b.hs	.Lframes_BB5_7
	mov	x7, x5
.Lframes_BB5_5:
	mov	x0, xzr
	mov	w9, wzr
	mov	w10, #10
	mov	x11, x7
.Lframes_BB5_6:
	ldp	x28, x19, [sp, #304]
	ldr	d8, [sp, #272]
	ldp	x29, x30, [sp, #288]
	stp	x10, x11, [x8]
	stp	xzr, x0, [x8, #16]
	stp	w9, wzr, [x8, #32]
	add	sp, sp, #320
	ret
.Lframes_BB5_7:
	cmp	x11, #7
	b.hi	.Lframes_BB5_13
	movi	d16, #0000000000000000
	fmov	s5, s4
	fcmp	s5, s16
	b.eq	.Lframes_BB5_14
	fcmp	s5, s5
	b.vs	.Lframes_BB5_14
	mov	w13, #37683
	fmov	s18, #1.00000000
	sub	x17, x29, #104
	movk	w13, #17288, lsl #16
	add	x1, x4, x15
	mov	x19, x8
	fmov	s16, w13
	mov	x13, sp
	fcmp	s5, s18
	fmov	s5, #1.00000000
	fadd	s16, s0, s16
	fmul	s16, s16, s16
	fmul	s17, s16, s16
	ldr	s16, [x13, x11, lsl #2]
	add	x11, x2, x14
	b.eq	.Lframes_BB5_12
	fsub	s7, s0, s7
	mov	w8, #37683
	cmp	w16, #0
	movk	w8, #17288, lsl #16
	fcsel	s6, s7, s6, eq
	fmov	s7, w8
	fadd	s6, s6, s7
	fmul	s6, s6, s6
	fmul	s6, s6, s6
	fsub	s7, s6, s17
	fdiv	s4, s7, s4
	fsub	s17, s6, s4
.Lframes_BB5_12:
	fmov	s4, #-25.00000000
	mov	w8, #37683
	fmul	s2, s2, s3
	movk	w8, #50056, lsl #16
	movi	d3, #0000000000000000
	cmp	w10, #0
	fmov	s6, w8
	mov	w8, #6
	sub	x10, x29, #108
	fadd	s4, s0, s4
	stur	x8, [x29, #-104]
	mov	w8, #1
	stp	x10, x8, [sp, #112]
	sub	x10, x29, #112
	sub	x0, x29, #104
	fmul	s6, s16, s6
	fcsel	s2, s2, s3, ne
	stur	w8, [x29, #-80]
	stp	w8, w12, [x29, #-52]
	add	x2, sp, #96
	add	x4, x6, x9
	fmul	s1, s4, s1
	stp	x11, x3, [sp, #128]
	fmov	s8, s0
	stp	x11, x3, [sp, #144]
	fadd	s4, s6, s5
	stp	x11, x3, [sp, #160]
	stp	x11, x3, [sp, #32]
	add	x3, sp, #32
	fadd	s1, s1, s5
	stp	x10, x8, [sp, #48]
	mov	w8, #8
	stur	xzr, [x17, #28]
	stur	xzr, [x17, #44]
	stur	xzr, [x17, #36]
	stp	xzr, xzr, [x29, #-96]
	stp	s17, s16, [x29, #-36]
	stur	wzr, [x29, #-108]
	sturh	wzr, [x29, #-112]
	stur	s4, [x29, #-28]
	stp	s2, s1, [x29, #-44]
	stp	x1, x5, [sp, #96]
	stp	x13, x8, [sp, #64]
	stp	x13, x8, [sp, #80]
	bl	loamchalice.frames.pixels.frame_pixels
	fmov	s0, s8
	fmov	w8, s8
	mov	w9, #2143289344
	mov	x10, xzr
	mov	x11, xzr
	fcmp	s0, s0
	csel	w9, w9, w8, vs
	mov	x8, x19
	b	.Lframes_BB5_6
.Lframes_BB5_13:
	mov	x0, xzr
	mov	w9, wzr
	mov	w10, #6
	b	.Lframes_BB5_6
.Lframes_BB5_14:
	mov	x11, xzr
	mov	x0, xzr
	mov	w9, wzr
	mov	w10, #8
	b	.Lframes_BB5_6
.Lframes_func_end5:
	.size	loamchalice_raw_ir_to_temperatures, .Lframes_func_end5-loamchalice_raw_ir_to_temperatures

	.section	.text.loamchalice_raw_pixels_to_ir_data,"ax",@progbits
	.globl	loamchalice_raw_pixels_to_ir_data
	.p2align	2
	.type	loamchalice_raw_pixels_to_ir_data,@function
loamchalice_raw_pixels_to_ir_data:
	sub	sp, sp, #384
	stp	x29, x30, [sp, #320]
	add	x29, sp, #320
	mov	x9, x4
	cmp	x2, #0
	mov	w4, #4096
	stp	x20, x19, [sp, #368]
	mov	x19, x8
	ldr	x13, [x29, #64]
	csel	x8, x4, xzr, eq
	cmp	x9, #0
	ldr	x14, [x29, #80]
	ldr	x15, [x29, #96]
	csel	x12, x4, xzr, eq
	cmp	x6, #0
	ldr	x16, [x29, #112]
	csel	x17, x4, xzr, eq
	cmp	x13, #0
	movi	d0, #0000000000000000
	csel	x18, x4, xzr, eq
	cmp	x14, #0
	mov	x10, x2
	csel	x2, x4, xzr, eq
	cmp	x15, #0
	ldrb	w20, [x0, #99]
	stp	x22, x21, [sp, #352]
	mov	x11, x5
	mov	x5, x3
	csel	x3, x4, xzr, eq
	cmp	x16, #0
	ldr	s1, [x0, #40]
	ldrb	w21, [x1, #28]
	csel	x4, x4, xzr, eq
	cmp	w20, #0
	stp	x28, x23, [sp, #336]
	add	x20, x1, #20
	add	x22, x1, #24
	cset	w23, ne
	fcsel	s0, s1, s0, ne
	cmp	w21, #0
	ldur	q1, [x0, #76]
	csel	x20, x20, x22, eq
	ldur	q2, [x0, #44]
	ldr	s3, [x20]
	add	x20, sp, #148
	ldr	w21, [x0, #92]
	stur	q1, [sp, #180]
	ldur	q1, [x0, #100]
	ldur	q4, [x0, #60]
	stur	q2, [sp, #196]
	ldur	q2, [x0, #116]
	ldrb	w22, [x0, #98]
	stur	q1, [x20, #108]
	ldr	q1, [x0]
	add	x17, x6, x17
	stur	q2, [x20, #124]
	add	x14, x14, x2
	add	x15, x15, x3
	stur	q1, [sp, #156]
	ldp	d2, d1, [x0, #16]
	str	w21, [sp, #148]
	ldrh	w21, [x0, #96]
	add	x13, x13, x18
	str	s0, [sp, #252]
	ldr	d0, [x1, #32]
	add	x16, x16, x4
	str	d1, [x20, #80]
	ldr	d1, [x0, #32]
	ldr	x0, [x1]
	stur	d2, [sp, #172]
	ldr	s2, [x1, #16]
	mov	w3, wzr
	str	x0, [sp, #112]
	ldrb	w0, [x1, #42]
	add	x2, sp, #96
	stur	d1, [x20, #92]
	ldr	d1, [x1, #8]
	ldrsh	w1, [x1, #40]
	cset	w20, eq
	cmp	w0, #0
	str	d0, [sp, #128]
	str	d1, [sp, #96]
	cset	w0, ne
	movi	v1.2d, #0000000000000000
	scvtf	s0, w1
	strh	w1, [sp, #136]
	ldr	x1, [x29, #104]
	strb	w0, [sp, #138]
	ldr	x0, [x29, #88]
	add	x4, x10, x8
	strh	w21, [sp, #236]
	ldr	x21, [x29, #120]
	add	x6, x9, x12
	str	w20, [sp, #120]
	ldr	x20, [x29, #72]
	stp	x15, x1, [sp, #64]
	add	x1, sp, #148
	stp	x14, x0, [sp, #48]
	sub	x0, x29, #32
	stp	x17, x7, [sp, #16]
	mov	x7, x11
	stur	q4, [sp, #212]
	strb	w22, [sp, #152]
	strb	wzr, [sp, #155]
	sturh	wzr, [sp, #153]
	strh	wzr, [sp, #238]
	str	w23, [sp, #248]
	str	s2, [sp, #104]
	str	wzr, [sp, #108]
	str	s3, [sp, #124]
	strb	wzr, [sp, #143]
	stur	wzr, [sp, #139]
	stp	q1, q1, [x29, #-32]
	stp	x16, x21, [sp, #80]
	stp	x13, x20, [sp, #32]
	stp	x13, x20, [sp]
	bl	loamchalice.frames.calculations.from_pixels
	ldurb	w9, [x29, #-32]
	ldur	w11, [x29, #-24]
	ldur	x8, [x29, #-16]
	cbz	w9, .Lframes_BB6_3
	lsr	x13, x11, #16
	and	x11, x11, #0xff
	adrp	x14, .Lframes_JTI6_0
	add	x14, x14, :lo12:.Lframes_JTI6_0
	ldurh	w12, [x29, #-8]
	mov	w10, #1
	adr	x15, .Lframes_BB6_2
	ldrb	w16, [x14, x11]
	add	x15, x15, x16, lsl #2
	mov	w9, wzr
	br	x15
.Lframes_BB6_2:
	mov	x8, xzr
	mov	w9, wzr
	mov	w10, #2
	b	.Lframes_BB6_17
.Lframes_BB6_3:
	mov	x10, xzr
	mov	x12, xzr
	mov	x9, xzr
	b	.Lframes_BB6_18
.Lframes_BB6_4:
	mov	w9, wzr
	mov	w10, #13
	b	.Lframes_BB6_17
.Lframes_BB6_5:
	mov	w9, wzr
	mov	w10, #10
	b	.Lframes_BB6_17
.Lframes_BB6_6:
	mov	w9, wzr
	mov	w10, #4
	mov	x8, x13
	b	.Lframes_BB6_17
.Lframes_BB6_7:
	mov	w9, wzr
	mov	w10, #11
	b	.Lframes_BB6_17
.Lframes_BB6_8:
	mov	w9, wzr
	mov	w8, w13
	mov	w10, #9
	b	.Lframes_BB6_17
.Lframes_BB6_9:
	mov	w9, wzr
	mov	w10, #14
	b	.Lframes_BB6_17
.Lframes_BB6_10:
	mov	w10, #3
	mov	w9, w12
	b	.Lframes_BB6_17
.Lframes_BB6_11:
	mov	x8, xzr
	mov	w9, wzr
	mov	w10, #7
	b	.Lframes_BB6_17
.Lframes_BB6_12:
	mov	w9, wzr
	mov	w10, #5
	b	.Lframes_BB6_17
.Lframes_BB6_13:
	mov	w9, wzr
	mov	w10, #12
	b	.Lframes_BB6_17
.Lframes_BB6_14:
	mov	w9, wzr
	mov	w10, #6
	b	.Lframes_BB6_17
.Lframes_BB6_15:
	mov	w10, #9
	mov	w9, w12
	b	.Lframes_BB6_17
.Lframes_BB6_16:
	mov	x8, xzr
	mov	w9, wzr
	mov	w10, #8
.Lframes_BB6_17:
	mov	w11, wzr
	mov	w9, w9
	mov	x12, x8
	mov	x8, xzr
.Lframes_BB6_18:
	stp	x10, x12, [x19]
	ldp	x22, x21, [sp, #352]
	stp	x9, x8, [x19, #16]
	ldp	x28, x23, [sp, #336]
	stp	w11, wzr, [x19, #32]
	ldp	x20, x19, [sp, #368]
	ldp	x29, x30, [sp, #320]
	add	sp, sp, #384
	ret
.Lframes_func_end6:
	.size	loamchalice_raw_pixels_to_ir_data, .Lframes_func_end6-loamchalice_raw_pixels_to_ir_data
	.section	.rodata.loamchalice_raw_pixels_to_ir_data,"a",@progbits
.Lframes_JTI6_0:
	.byte	(.Lframes_BB6_17-.Lframes_BB6_2)>>2
	.byte	(.Lframes_BB6_17-.Lframes_BB6_2)>>2
	.byte	(.Lframes_BB6_2-.Lframes_BB6_2)>>2
	.byte	(.Lframes_BB6_10-.Lframes_BB6_2)>>2
	.byte	(.Lframes_BB6_6-.Lframes_BB6_2)>>2
	.byte	(.Lframes_BB6_12-.Lframes_BB6_2)>>2
	.byte	(.Lframes_BB6_14-.Lframes_BB6_2)>>2
	.byte	(.Lframes_BB6_11-.Lframes_BB6_2)>>2
	.byte	(.Lframes_BB6_16-.Lframes_BB6_2)>>2
	.byte	(.Lframes_BB6_8-.Lframes_BB6_2)>>2
	.byte	(.Lframes_BB6_15-.Lframes_BB6_2)>>2
	.byte	(.Lframes_BB6_5-.Lframes_BB6_2)>>2
	.byte	(.Lframes_BB6_7-.Lframes_BB6_2)>>2
	.byte	(.Lframes_BB6_13-.Lframes_BB6_2)>>2
	.byte	(.Lframes_BB6_4-.Lframes_BB6_2)>>2
	.byte	(.Lframes_BB6_9-.Lframes_BB6_2)>>2

	.section	.text.loamchalice_raw_pixels_to_ranged_temperatures,"ax",@progbits
	.globl	loamchalice_raw_pixels_to_ranged_temperatures
	.p2align	2
	.type	loamchalice_raw_pixels_to_ranged_temperatures,@function
loamchalice_raw_pixels_to_ranged_temperatures:
	sub	sp, sp, #400
	stp	x29, x30, [sp, #320]
	add	x29, sp, #320
	cmp	x2, #0
	stp	x22, x21, [sp, #368]
	mov	w21, #4096
	ldr	x13, [x29, #80]
	stp	x20, x19, [sp, #384]
	mov	x19, x8
	csel	x8, x21, xzr, eq
	cmp	x4, #0
	ldr	x14, [x29, #96]
	ldr	x15, [x29, #112]
	csel	x12, x21, xzr, eq
	cmp	x6, #0
	mov	x11, x2
	csel	x17, x21, xzr, eq
	cmp	x13, #0
	ldr	x16, [x29, #128]
	csel	x2, x21, xzr, eq
	cmp	x14, #0
	mov	x9, x5
	mov	x5, x3
	csel	x3, x21, xzr, eq
	cmp	x15, #0
	ldr	x18, [x29, #144]
	movi	d0, #0000000000000000
	mov	x10, x4
	csel	x4, x21, xzr, eq
	cmp	x16, #0
	ldrb	w22, [x0, #99]
	stp	x24, x23, [sp, #352]
	csel	x20, x21, xzr, eq
	cmp	x18, #0
	ldr	s1, [x0, #40]
	ldrb	w23, [x1, #28]
	csel	x21, x21, xzr, eq
	cmp	w22, #0
	stp	x28, x25, [sp, #336]
	add	x22, x1, #20
	add	x24, x1, #24
	cset	w25, ne
	fcsel	s0, s1, s0, ne
	cmp	w23, #0
	ldur	q1, [x0, #76]
	ldur	q2, [x0, #44]
	csel	x22, x22, x24, eq
	ldr	w23, [x0, #92]
	ldur	q4, [x0, #60]
	ldr	s3, [x22]
	stur	q1, [sp, #180]
	ldur	q1, [x0, #100]
	add	x22, sp, #148
	stur	q2, [sp, #196]
	ldur	q2, [x0, #116]
	stur	q1, [x22, #108]
	ldr	q1, [x0]
	ldrb	w24, [x0, #98]
	stur	q2, [x22, #124]
	add	x17, x6, x17
	add	x16, x16, x20
	stur	q1, [sp, #156]
	ldp	d2, d1, [x0, #16]
	str	w23, [sp, #148]
	ldrh	w23, [x0, #96]
	add	x18, x18, x21
	str	s0, [sp, #252]
	ldr	d0, [x1, #32]
	add	x13, x13, x2
	str	d1, [x22, #80]
	ldr	d1, [x0, #32]
	ldr	x0, [x1]
	stur	d2, [sp, #172]
	ldr	s2, [x1, #16]
	add	x14, x14, x3
	str	x0, [sp, #112]
	ldrb	w0, [x1, #42]
	add	x15, x15, x4
	stur	d1, [x22, #92]
	ldr	d1, [x1, #8]
	ldrsh	w1, [x1, #40]
	cset	w22, eq
	cmp	w0, #0
	str	d0, [sp, #128]
	str	d1, [sp, #96]
	cset	w0, ne
	movi	v1.2d, #0000000000000000
	scvtf	s0, w1
	strh	w1, [sp, #136]
	ldr	x1, [x29, #152]
	strb	w0, [sp, #138]
	ldr	x0, [x29, #136]
	add	x2, sp, #96
	strb	w24, [sp, #152]
	ldr	x24, [x29, #120]
	add	x4, x11, x8
	strh	w23, [sp, #236]
	ldr	x23, [x29, #104]
	add	x6, x10, x12
	str	w22, [sp, #120]
	ldr	x22, [x29, #88]
	mov	w3, #2
	stp	x18, x1, [sp, #80]
	add	x1, sp, #148
	stp	x16, x0, [sp, #64]
	sub	x0, x29, #32
	stp	x17, x7, [sp]
	mov	x7, x9
	stur	q4, [sp, #212]
	strb	wzr, [sp, #155]
	sturh	wzr, [sp, #153]
	strh	wzr, [sp, #238]
	str	w25, [sp, #248]
	str	s2, [sp, #104]
	str	wzr, [sp, #108]
	str	s3, [sp, #124]
	strb	wzr, [sp, #143]
	stur	wzr, [sp, #139]
	stp	q1, q1, [x29, #-32]
	stp	x15, x24, [sp, #48]
	stp	x14, x23, [sp, #32]
	stp	x13, x22, [sp, #16]
	bl	loamchalice.frames.calculations.from_pixels
	ldurb	w9, [x29, #-32]
	ldur	w11, [x29, #-24]
	ldur	x8, [x29, #-16]
	cbz	w9, .Lframes_BB7_3
	lsr	x13, x11, #16
	and	x11, x11, #0xff
	adrp	x14, .Lframes_JTI7_0
	add	x14, x14, :lo12:.Lframes_JTI7_0
	ldurh	w12, [x29, #-8]
	mov	w10, #1
	adr	x15, .Lframes_BB7_2
	ldrb	w16, [x14, x11]
	add	x15, x15, x16, lsl #2
	mov	w9, wzr
	br	x15
.Lframes_BB7_2:
	mov	x8, xzr
	mov	w9, wzr
	mov	w10, #2
	b	.Lframes_BB7_17
.Lframes_BB7_3:
	mov	x10, xzr
	mov	x12, xzr
	mov	x9, xzr
	b	.Lframes_BB7_18
.Lframes_BB7_4:
	mov	w9, wzr
	mov	w10, #13
	b	.Lframes_BB7_17
.Lframes_BB7_5:
	mov	w9, wzr
	mov	w10, #10
	b	.Lframes_BB7_17
.Lframes_BB7_6:
	mov	w9, wzr
	mov	w10, #4
	mov	x8, x13
	b	.Lframes_BB7_17
.Lframes_BB7_7:
	mov	w9, wzr
	mov	w10, #11
	b	.Lframes_BB7_17
.Lframes_BB7_8:
	mov	w9, wzr
	mov	w8, w13
	mov	w10, #9
	b	.Lframes_BB7_17
.Lframes_BB7_9:
	mov	w9, wzr
	mov	w10, #14
	b	.Lframes_BB7_17
.Lframes_BB7_10:
	mov	w10, #3
	mov	w9, w12
	b	.Lframes_BB7_17
.Lframes_BB7_11:
	mov	x8, xzr
	mov	w9, wzr
	mov	w10, #7
	b	.Lframes_BB7_17
.Lframes_BB7_12:
	mov	w9, wzr
	mov	w10, #5
	b	.Lframes_BB7_17
.Lframes_BB7_13:
	mov	w9, wzr
	mov	w10, #12
	b	.Lframes_BB7_17
.Lframes_BB7_14:
	mov	w9, wzr
	mov	w10, #6
	b	.Lframes_BB7_17
.Lframes_BB7_15:
	mov	w10, #9
	mov	w9, w12
	b	.Lframes_BB7_17
.Lframes_BB7_16:
	mov	x8, xzr
	mov	w9, wzr
	mov	w10, #8
.Lframes_BB7_17:
	mov	w11, wzr
	mov	w9, w9
	mov	x12, x8
	mov	x8, xzr
.Lframes_BB7_18:
	stp	x10, x12, [x19]
	ldp	x22, x21, [sp, #368]
	stp	x9, x8, [x19, #16]
	ldp	x24, x23, [sp, #352]
	stp	w11, wzr, [x19, #32]
	ldp	x20, x19, [sp, #384]
	ldp	x28, x25, [sp, #336]
	ldp	x29, x30, [sp, #320]
	add	sp, sp, #400
	ret
.Lframes_func_end7:
	.size	loamchalice_raw_pixels_to_ranged_temperatures, .Lframes_func_end7-loamchalice_raw_pixels_to_ranged_temperatures
	.section	.rodata.loamchalice_raw_pixels_to_ranged_temperatures,"a",@progbits
.Lframes_JTI7_0:
	.byte	(.Lframes_BB7_17-.Lframes_BB7_2)>>2
	.byte	(.Lframes_BB7_17-.Lframes_BB7_2)>>2
	.byte	(.Lframes_BB7_2-.Lframes_BB7_2)>>2
	.byte	(.Lframes_BB7_10-.Lframes_BB7_2)>>2
	.byte	(.Lframes_BB7_6-.Lframes_BB7_2)>>2
	.byte	(.Lframes_BB7_12-.Lframes_BB7_2)>>2
	.byte	(.Lframes_BB7_14-.Lframes_BB7_2)>>2
	.byte	(.Lframes_BB7_11-.Lframes_BB7_2)>>2
	.byte	(.Lframes_BB7_16-.Lframes_BB7_2)>>2
	.byte	(.Lframes_BB7_8-.Lframes_BB7_2)>>2
	.byte	(.Lframes_BB7_15-.Lframes_BB7_2)>>2
	.byte	(.Lframes_BB7_5-.Lframes_BB7_2)>>2
	.byte	(.Lframes_BB7_7-.Lframes_BB7_2)>>2
	.byte	(.Lframes_BB7_13-.Lframes_BB7_2)>>2
	.byte	(.Lframes_BB7_4-.Lframes_BB7_2)>>2
	.byte	(.Lframes_BB7_9-.Lframes_BB7_2)>>2

	.section	.text.loamchalice_raw_pixels_to_temperatures,"ax",@progbits
	.globl	loamchalice_raw_pixels_to_temperatures
	.p2align	2
	.type	loamchalice_raw_pixels_to_temperatures,@function
loamchalice_raw_pixels_to_temperatures:
	sub	sp, sp, #400
	stp	x29, x30, [sp, #320]
	add	x29, sp, #320
	cmp	x2, #0
	stp	x22, x21, [sp, #368]
	mov	w21, #4096
	ldr	x13, [x29, #80]
	stp	x20, x19, [sp, #384]
	mov	x19, x8
	csel	x8, x21, xzr, eq
	cmp	x4, #0
	ldr	x14, [x29, #96]
	ldr	x15, [x29, #112]
	csel	x12, x21, xzr, eq
	cmp	x6, #0
	mov	x11, x2
	csel	x17, x21, xzr, eq
	cmp	x13, #0
	ldr	x16, [x29, #128]
	csel	x2, x21, xzr, eq
	cmp	x14, #0
	mov	x9, x5
	mov	x5, x3
	csel	x3, x21, xzr, eq
	cmp	x15, #0
	ldr	x18, [x29, #144]
	movi	d0, #0000000000000000
	mov	x10, x4
	csel	x4, x21, xzr, eq
	cmp	x16, #0
	ldrb	w22, [x0, #99]
	stp	x24, x23, [sp, #352]
	csel	x20, x21, xzr, eq
	cmp	x18, #0
	ldr	s1, [x0, #40]
	ldrb	w23, [x1, #28]
	csel	x21, x21, xzr, eq
	cmp	w22, #0
	stp	x28, x25, [sp, #336]
	add	x22, x1, #20
	add	x24, x1, #24
	cset	w25, ne
	fcsel	s0, s1, s0, ne
	cmp	w23, #0
	ldur	q1, [x0, #76]
	ldur	q2, [x0, #44]
	csel	x22, x22, x24, eq
	ldr	w23, [x0, #92]
	ldur	q4, [x0, #60]
	ldr	s3, [x22]
	stur	q1, [sp, #180]
	ldur	q1, [x0, #100]
	add	x22, sp, #148
	stur	q2, [sp, #196]
	ldur	q2, [x0, #116]
	stur	q1, [x22, #108]
	ldr	q1, [x0]
	ldrb	w24, [x0, #98]
	stur	q2, [x22, #124]
	add	x17, x6, x17
	add	x16, x16, x20
	stur	q1, [sp, #156]
	ldp	d2, d1, [x0, #16]
	str	w23, [sp, #148]
	ldrh	w23, [x0, #96]
	add	x18, x18, x21
	str	s0, [sp, #252]
	ldr	d0, [x1, #32]
	add	x13, x13, x2
	str	d1, [x22, #80]
	ldr	d1, [x0, #32]
	ldr	x0, [x1]
	stur	d2, [sp, #172]
	ldr	s2, [x1, #16]
	add	x14, x14, x3
	str	x0, [sp, #112]
	ldrb	w0, [x1, #42]
	add	x15, x15, x4
	stur	d1, [x22, #92]
	ldr	d1, [x1, #8]
	ldrsh	w1, [x1, #40]
	cset	w22, eq
	cmp	w0, #0
	str	d0, [sp, #128]
	str	d1, [sp, #96]
	cset	w0, ne
	movi	v1.2d, #0000000000000000
	scvtf	s0, w1
	strh	w1, [sp, #136]
	ldr	x1, [x29, #152]
	strb	w0, [sp, #138]
	ldr	x0, [x29, #136]
	add	x2, sp, #96
	strb	w24, [sp, #152]
	ldr	x24, [x29, #120]
	add	x4, x11, x8
	strh	w23, [sp, #236]
	ldr	x23, [x29, #104]
	add	x6, x10, x12
	str	w22, [sp, #120]
	ldr	x22, [x29, #88]
	mov	w3, #1
	stp	x18, x1, [sp, #80]
	add	x1, sp, #148
	stp	x16, x0, [sp, #64]
	sub	x0, x29, #32
	stp	x17, x7, [sp]
	mov	x7, x9
	stur	q4, [sp, #212]
	strb	wzr, [sp, #155]
	sturh	wzr, [sp, #153]
	strh	wzr, [sp, #238]
	str	w25, [sp, #248]
	str	s2, [sp, #104]
	str	wzr, [sp, #108]
	str	s3, [sp, #124]
	strb	wzr, [sp, #143]
	stur	wzr, [sp, #139]
	stp	q1, q1, [x29, #-32]
	stp	x15, x24, [sp, #48]
	stp	x14, x23, [sp, #32]
	stp	x13, x22, [sp, #16]
	bl	loamchalice.frames.calculations.from_pixels
	ldurb	w9, [x29, #-32]
	ldur	w11, [x29, #-24]
	ldur	x8, [x29, #-16]
	cbz	w9, .Lframes_BB8_3
	lsr	x13, x11, #16
	and	x11, x11, #0xff
	adrp	x14, .Lframes_JTI8_0
	add	x14, x14, :lo12:.Lframes_JTI8_0
	ldurh	w12, [x29, #-8]
	mov	w10, #1
	adr	x15, .Lframes_BB8_2
	ldrb	w16, [x14, x11]
	add	x15, x15, x16, lsl #2
	mov	w9, wzr
	br	x15
.Lframes_BB8_2:
	mov	x8, xzr
	mov	w9, wzr
	mov	w10, #2
	b	.Lframes_BB8_17
.Lframes_BB8_3:
	mov	x10, xzr
	mov	x12, xzr
	mov	x9, xzr
	b	.Lframes_BB8_18
.Lframes_BB8_4:
	mov	w9, wzr
	mov	w10, #13
	b	.Lframes_BB8_17
.Lframes_BB8_5:
	mov	w9, wzr
	mov	w10, #10
	b	.Lframes_BB8_17
.Lframes_BB8_6:
	mov	w9, wzr
	mov	w10, #4
	mov	x8, x13
	b	.Lframes_BB8_17
.Lframes_BB8_7:
	mov	w9, wzr
	mov	w10, #11
	b	.Lframes_BB8_17
.Lframes_BB8_8:
	mov	w9, wzr
	mov	w8, w13
	mov	w10, #9
	b	.Lframes_BB8_17
.Lframes_BB8_9:
	mov	w9, wzr
	mov	w10, #14
	b	.Lframes_BB8_17
.Lframes_BB8_10:
	mov	w10, #3
	mov	w9, w12
	b	.Lframes_BB8_17
.Lframes_BB8_11:
	mov	x8, xzr
	mov	w9, wzr
	mov	w10, #7
	b	.Lframes_BB8_17
.Lframes_BB8_12:
	mov	w9, wzr
	mov	w10, #5
	b	.Lframes_BB8_17
.Lframes_BB8_13:
	mov	w9, wzr
	mov	w10, #12
	b	.Lframes_BB8_17
.Lframes_BB8_14:
	mov	w9, wzr
	mov	w10, #6
	b	.Lframes_BB8_17
.Lframes_BB8_15:
	mov	w10, #9
	mov	w9, w12
	b	.Lframes_BB8_17
.Lframes_BB8_16:
	mov	x8, xzr
	mov	w9, wzr
	mov	w10, #8
.Lframes_BB8_17:
	mov	w11, wzr
	mov	w9, w9
	mov	x12, x8
	mov	x8, xzr
.Lframes_BB8_18:
	stp	x10, x12, [x19]
	ldp	x22, x21, [sp, #368]
	stp	x9, x8, [x19, #16]
	ldp	x24, x23, [sp, #352]
	stp	w11, wzr, [x19, #32]
	ldp	x20, x19, [sp, #384]
	ldp	x28, x25, [sp, #336]
	ldp	x29, x30, [sp, #320]
	add	sp, sp, #400
	ret
.Lframes_func_end8:
	.size	loamchalice_raw_pixels_to_temperatures, .Lframes_func_end8-loamchalice_raw_pixels_to_temperatures
	.section	.rodata.loamchalice_raw_pixels_to_temperatures,"a",@progbits
.Lframes_JTI8_0:
	.byte	(.Lframes_BB8_17-.Lframes_BB8_2)>>2
	.byte	(.Lframes_BB8_17-.Lframes_BB8_2)>>2
	.byte	(.Lframes_BB8_2-.Lframes_BB8_2)>>2
	.byte	(.Lframes_BB8_10-.Lframes_BB8_2)>>2
	.byte	(.Lframes_BB8_6-.Lframes_BB8_2)>>2
	.byte	(.Lframes_BB8_12-.Lframes_BB8_2)>>2
	.byte	(.Lframes_BB8_14-.Lframes_BB8_2)>>2
	.byte	(.Lframes_BB8_11-.Lframes_BB8_2)>>2
	.byte	(.Lframes_BB8_16-.Lframes_BB8_2)>>2
	.byte	(.Lframes_BB8_8-.Lframes_BB8_2)>>2
	.byte	(.Lframes_BB8_15-.Lframes_BB8_2)>>2
	.byte	(.Lframes_BB8_5-.Lframes_BB8_2)>>2
	.byte	(.Lframes_BB8_7-.Lframes_BB8_2)>>2
	.byte	(.Lframes_BB8_13-.Lframes_BB8_2)>>2
	.byte	(.Lframes_BB8_4-.Lframes_BB8_2)>>2
	.byte	(.Lframes_BB8_9-.Lframes_BB8_2)>>2

	.type	.Lframes_switch.table.roots.fourth_roots,@object
	.section	.rodata.cst32,"aM",@progbits,32
	.p2align	3, 0x0
.Lframes_switch.table.roots.fourth_roots:
	.xword	0x4160000000000000
	.xword	0x4166a09e667f3bcd
	.xword	0x4160000000000000
	.xword	0x4166a09e667f3bcd
	.size	.Lframes_switch.table.roots.fourth_roots, 32

	.type	.Lframes_switch.table.roots.fourth_roots.9,@object
	.p2align	3, 0x0
.Lframes_switch.table.roots.fourth_roots.9:
	.xword	0x3fe0000000000000
	.xword	0x3fdae89f995ad3ad
	.xword	0x3fe6a09e667f3bcd
	.xword	0x3fe306fe0a31b715
	.size	.Lframes_switch.table.roots.fourth_roots.9, 32

// filter
	.section	.text.filter.calculations.from_pixels,"ax",@progbits
	.p2align	2
	.type	loamchalice.filter.calculations.from_pixels,@function
loamchalice.filter.calculations.from_pixels:
	stp	d15, d14, [sp, #-160]!
	stp	d13, d12, [sp, #16]
	stp	d11, d10, [sp, #32]
	stp	d9, d8, [sp, #48]
	stp	x29, x30, [sp, #64]
	add	x29, sp, #64
	stp	x28, x27, [sp, #80]
	stp	x26, x25, [sp, #96]
	stp	x24, x23, [sp, #112]
	stp	x22, x21, [sp, #128]
	stp	x20, x19, [sp, #144]
	sub	sp, sp, #1184
	movi	v22.2d, #0000000000000000
	str	xzr, [sp]
	ldr	x13, [x29, #136]
	ldr	x14, [x29, #120]
	cmp	x5, x7
	ldr	x16, [x29, #184]
	csel	x17, x5, x7, lo
	ldrb	w7, [x2, #42]
	ldr	x15, [x29, #168]
	cmp	x14, x13
	ldp	s21, s5, [x1, #8]
	stp	q22, q22, [sp, #240]
	csel	x14, x14, x13, lo
	ldr	x23, [x29, #152]
	stp	q22, q22, [sp, #272]
	cmp	x17, x14
	ldr	x18, [x29, #104]
	stp	q22, q22, [sp, #304]
	ldp	s6, s20, [x1, #16]
	stp	q22, q22, [sp, #336]
	csel	x5, x17, x14, lo
	cmp	w7, #0
	ldp	q23, q22, [x1, #32]
	csel	x22, x4, x6, eq
	ldp	s17, s2, [x1, #24]
	and	w4, w3, #0xff
	ldp	s7, s16, [x1, #92]
	cmp	w4, #2
	str	q23, [sp, #224]
	ldr	q23, [x1, #64]
	ldrh	w11, [x1]
	ldp	s8, s19, [x2]
	ldrsh	w12, [x1, #2]
	ldr	s1, [x1, #84]
	ldrh	w10, [x1, #88]
	ldrb	w21, [x1, #100]
	ldr	s3, [x1, #104]
	ldr	s18, [x2, #8]
	ldr	x8, [x2, #16]
	ldrb	w9, [x2, #24]
	ldr	s4, [x2, #28]
	ldrh	w13, [x2, #32]
	ldrh	w14, [x2, #34]
	ldur	q24, [x1, #124]
	stp	q22, q23, [sp, #192]
	ldur	q22, [x1, #108]
	ldrsh	w1, [x2, #36]
	ldrh	w17, [x2, #38]
	stp	q22, q24, [sp, #160]
	b.eq	.Lfilter_BB0_7
	cmp	w4, #1
	b.ne	.Lfilter_BB0_28
	cmp	x18, x5
	csel	x18, x18, x5, lo
	cmp	x18, #192
	b.lo	.Lfilter_BB0_29
	cmp	x23, #384
	b.lo	.Lfilter_BB0_31
	cmp	x16, #192
	b.lo	.Lfilter_BB0_35
	cmp	x15, #192
	b.lo	.Lfilter_BB0_37
	cmp	x8, #7
	b.hi	.Lfilter_BB0_40
	b	.Lfilter_BB0_38
.Lfilter_BB0_7:
	cmp	x18, x5
	csel	x18, x18, x5, lo
	cmp	x18, #192
	b.lo	.Lfilter_BB0_29
	cmp	x23, #384
	b.lo	.Lfilter_BB0_31
	cmp	x16, #192
	b.lo	.Lfilter_BB0_35
	cmp	x15, #192
	b.lo	.Lfilter_BB0_37
	cmp	x8, #7
	b.hi	.Lfilter_BB0_40
	sub	w15, w1, w12
	cmp	w15, w15, sxth
	b.ne	.Lfilter_BB0_39
	sxth	w11, w11
	movi	d25, #0000000000000000
	scvtf	s23, w11
	fcmp	s23, s25
	b.eq	.Lfilter_BB0_42
	sxth	w11, w17
	mov	x23, xzr
	mov	w12, #1
	scvtf	s22, w11
	mov	w11, #8
	fcmp	s22, s25
	b.eq	.Lfilter_BB0_33
	fmov	s24, s5
	fcmp	s24, s25
	b.eq	.Lfilter_BB0_33
	scvtf	s24, w15
	fdiv	s23, s24, s23
	fmov	s24, #1.00000000
	fmul	s21, s21, s23
	fadd	s21, s21, s24
	fmov	s24, s21
	fcmp	s24, s25
	b.eq	.Lfilter_BB0_46
	sxth	w11, w14
	scvtf	s24, w11
	sxth	w11, w13
	scvtf	s26, w11
	fmul	s20, s20, s24
	fadd	s20, s26, s20
	fmov	s26, s20
	fcmp	s26, s25
	b.eq	.Lfilter_BB0_42
	fmov	s26, s8
	mov	x23, xzr
	mov	w11, #8
	mov	w12, #1
	fcmp	s26, s25
	b.eq	.Lfilter_BB0_33
	fcmp	s26, s26
	b.vs	.Lfilter_BB0_33
	ldrsh	w11, [sp, #226]
	ldrsh	w12, [sp, #224]
	cmp	w11, w12
	b.le	.Lfilter_BB0_91
	ldrsh	w12, [sp, #228]
	cmp	w12, w11
	b.le	.Lfilter_BB0_92
	ldrsh	w11, [sp, #230]
	cmp	w11, w12
	b.le	.Lfilter_BB0_93
	ldrsh	w12, [sp, #232]
	cmp	w12, w11
	b.le	.Lfilter_BB0_94
	ldrsh	w11, [sp, #234]
	cmp	w11, w12
	b.le	.Lfilter_BB0_95
	ldrsh	w12, [sp, #236]
	cmp	w12, w11
	b.le	.Lfilter_BB0_96
	ldrsh	w11, [sp, #238]
	cmp	w11, w12
	b.gt	.Lfilter_BB0_50
	mov	w11, #13
	mov	w12, #1
	mov	w23, #7
	b	.Lfilter_BB0_33
.Lfilter_BB0_28:
	cmp	x5, #192
	b.hs	.Lfilter_BB0_30
.Lfilter_BB0_29:
	mov	x23, xzr
	mov	w11, #2
	b	.Lfilter_BB0_32
.Lfilter_BB0_30:
	cmp	x23, #384
	b.hs	.Lfilter_BB0_34
.Lfilter_BB0_31:
	mov	w11, #11
.Lfilter_BB0_32:
	mov	w12, #1
.Lfilter_BB0_33:
	str	x12, [x0]
	stp	w11, wzr, [x0, #8]
	str	x23, [x0, #16]
	strh	wzr, [x0, #24]
	add	sp, sp, #1184
	ldp	x20, x19, [sp, #144]
	ldp	x22, x21, [sp, #128]
	ldp	x24, x23, [sp, #112]
	ldp	x26, x25, [sp, #96]
	ldp	x28, x27, [sp, #80]
	ldp	x29, x30, [sp, #64]
	ldp	d9, d8, [sp, #48]
	ldp	d11, d10, [sp, #32]
	ldp	d13, d12, [sp, #16]
	ldp	d15, d14, [sp], #160
	ret
.Lfilter_BB0_34:
	cmp	x16, #192
	b.hs	.Lfilter_BB0_36
.Lfilter_BB0_35:
	mov	w11, #11
	mov	w12, #1
	mov	x23, x16
	b	.Lfilter_BB0_33
.Lfilter_BB0_36:
	cmp	x15, #192
	b.hs	.Lfilter_BB0_38
.Lfilter_BB0_37:
	mov	w11, #11
	mov	w12, #1
	mov	x23, x15
	b	.Lfilter_BB0_33
.Lfilter_BB0_38:
	sub	w15, w1, w12
	cmp	w15, w15, sxth
	b.eq	.Lfilter_BB0_41
.Lfilter_BB0_39:
	mov	x23, xzr
	mov	w11, #7
	b	.Lfilter_BB0_32
.Lfilter_BB0_40:
	mov	w11, #6
	mov	w12, #1
	mov	x23, x8
	b	.Lfilter_BB0_33
.Lfilter_BB0_41:
	sxth	w11, w11
	movi	d25, #0000000000000000
	scvtf	s23, w11
	fcmp	s23, s25
	b.ne	.Lfilter_BB0_43
.Lfilter_BB0_42:
	mov	x23, xzr
	mov	w11, #8
	b	.Lfilter_BB0_32
.Lfilter_BB0_43:
	sxth	w11, w17
	mov	x23, xzr
	mov	w12, #1
	scvtf	s22, w11
	mov	w11, #8
	fcmp	s22, s25
	b.eq	.Lfilter_BB0_33
	fmov	s24, s5
	fcmp	s24, s25
	b.eq	.Lfilter_BB0_33
	scvtf	s24, w15
	fdiv	s23, s24, s23
	fmov	s24, #1.00000000
	fmul	s21, s21, s23
	fadd	s21, s21, s24
	fmov	s24, s21
	fcmp	s24, s25
	b.ne	.Lfilter_BB0_47
.Lfilter_BB0_46:
	mov	x23, xzr
	b	.Lfilter_BB0_32
.Lfilter_BB0_47:
	sxth	w11, w14
	scvtf	s24, w11
	sxth	w11, w13
	scvtf	s26, w11
	fmul	s20, s20, s24
	fadd	s20, s26, s20
	fmov	s26, s20
	fcmp	s26, s25
	b.eq	.Lfilter_BB0_42
	fmov	s26, s8
	mov	x23, xzr
	mov	w11, #8
	mov	w12, #1
	fcmp	s26, s25
	b.eq	.Lfilter_BB0_33
	fcmp	s26, s26
	b.vs	.Lfilter_BB0_33
.Lfilter_BB0_50:
	fdiv	s20, s24, s20
	mov	w11, #1216348160
	movi	d11, #0000000000000000
	fmov	s24, w11
	cmp	w21, #1
	fdiv	s10, s17, s22
	fmov	s17, #25.00000000
	fmul	s20, s20, s24
	fdiv	s20, s20, s21
	fsub	s6, s20, s6
	fdiv	s6, s6, s5
	fmul	s5, s19, s23
	fadd	s5, s18, s5
	fadd	s14, s6, s17
	b.ne	.Lfilter_BB0_52
	fmov	s6, #-25.00000000
	mov	w11, #13107
	sxth	w10, w10
	movk	w11, #49235, lsl #16
	fmul	s0, s0, s10
	fmov	s17, w11
	scvtf	s18, w10
	fadd	s6, s14, s6
	fmul	s6, s16, s6
	fadd	s16, s5, s17
	fmov	s17, #1.00000000
	fmul	s7, s7, s16
	fadd	s6, s6, s17
	movi	d16, #0000000000000000
	fmul	s6, s18, s6
	fadd	s7, s7, s17
	fadd	s0, s0, s16
	fmul	s6, s7, s6
	fsub	s0, s0, s6
	fdiv	s0, s0, s8
	fmul	s11, s3, s0
.Lfilter_BB0_52:
	and	w11, w3, #0xff
	ldr	x1, [x29, #96]
	ldr	x10, [x29, #144]
	cmp	w11, #2
	str	x1, [sp, #152]
	b.eq	.Lfilter_BB0_57
	cmp	w11, #1
	b.ne	.Lfilter_BB0_61
	mov	w11, #37683
	fmov	s6, #1.00000000
	fmov	s7, s8
	movk	w11, #17288, lsl #16
	fmov	s16, s14
	fmov	s0, w11
	add	x11, sp, #192
	fcmp	s7, s6
	fmov	s6, #1.00000000
	fadd	s0, s14, s0
	fmul	s0, s0, s0
	fmul	s12, s0, s0
	ldr	s0, [x11, x8, lsl #2]
	b.eq	.Lfilter_BB0_56
	fsub	s7, s16, s4
	mov	w8, #37683
	cmp	w9, #0
	movk	w8, #17288, lsl #16
	fcsel	s4, s4, s7, eq
	fmov	s7, w8
	fadd	s4, s4, s7
	fmul	s4, s4, s4
	fmul	s4, s4, s4
	fsub	s7, s4, s12
	fdiv	s7, s7, s8
	fsub	s12, s4, s7
.Lfilter_BB0_56:
	fmov	s4, #-25.00000000
	mov	w8, #37683
	fmul	s3, s1, s3
	movk	w8, #50056, lsl #16
	movi	d7, #0000000000000000
	cmp	w21, #1
	str	xzr, [sp, #80]
	fmov	s14, s16
	fadd	s13, s16, s4
	fmov	s4, w8
	mov	w8, #1
	str	w8, [sp, #92]
	b	.Lfilter_BB0_60
.Lfilter_BB0_57:
	mov	w11, #37683
	fmov	s6, #1.00000000
	fmov	s7, s8
	movk	w11, #17288, lsl #16
	fmov	s16, s14
	fmov	s0, w11
	add	x11, sp, #192
	fcmp	s7, s6
	fmov	s6, #1.00000000
	fadd	s0, s14, s0
	fmul	s0, s0, s0
	fmul	s12, s0, s0
	ldr	s0, [x11, x8, lsl #2]
	b.eq	.Lfilter_BB0_59
	fsub	s7, s16, s4
	mov	w8, #37683
	cmp	w9, #0
	movk	w8, #17288, lsl #16
	fcsel	s4, s4, s7, eq
	fmov	s7, w8
	fadd	s4, s4, s7
	fmul	s4, s4, s4
	fmul	s4, s4, s4
	fsub	s7, s4, s12
	fdiv	s7, s7, s8
	fsub	s12, s4, s7
.Lfilter_BB0_59:
	fmov	s4, #-25.00000000
	mov	w8, #37683
	fmul	s3, s1, s3
	movk	w8, #50056, lsl #16
	movi	d7, #0000000000000000
	fmov	s14, s16
	cmp	w21, #1
	str	wzr, [sp, #92]
	fadd	s13, s16, s4
	fmov	s4, w8
	mov	w8, #8
	str	x8, [sp, #80]
.Lfilter_BB0_60:
	fmul	s4, s0, s4
	fmul	s2, s2, s13
	fadd	s1, s4, s6
	fadd	s15, s2, s6
	fcsel	s6, s3, s7, eq
	ldr	x1, [sp, #152]
	mov	w8, w21
	b	.Lfilter_BB0_62
.Lfilter_BB0_61:
	fmov	s0, #-25.00000000
	mov	w9, #1
	mov	w8, wzr
	str	xzr, [sp, #80]
	movi	d6, #0000000000000000
	movi	d15, #0000000000000000
	movi	d12, #0000000000000000
	movi	d1, #0000000000000000
	str	w9, [sp, #92]
	fadd	s13, s14, s0
	movi	d0, #0000000000000000
.Lfilter_BB0_62:
	str	w8, [sp, #760]
	mov	w8, #13107
	ldr	x16, [x29, #176]
	movk	w8, #49235, lsl #16
	ldr	x26, [x29, #160]
	ldr	x17, [x29, #128]
	fmov	s2, w8
	ldr	x18, [x29, #112]
	mov	x23, xzr
	mov	x4, xzr
	add	x2, x10, #1
	str	s6, [sp, #764]
	str	s15, [sp, #768]
	fadd	s9, s5, s2
	str	s12, [sp, #772]
	str	s0, [sp, #776]
	str	s1, [sp, #780]
.Lfilter_BB0_63:
	lsl	x12, x4, #7
	add	x8, x2, x4, lsl #6
	add	x24, x26, x4, lsl #5
	mov	x25, xzr
	mov	x27, x4
	add	x11, x18, x12
	add	x9, x17, x12
	add	x10, x22, x12
	add	x28, x1, x12
	add	x19, x16, x12
.Lfilter_BB0_64:
	lsl	x20, x27, #5
	add	x12, x26, x20
	ldp	q1, q0, [x12]
	orr	v0.16b, v1.16b, v0.16b
	ext	v1.16b, v0.16b, v0.16b, #8
	orr	v0.8b, v0.8b, v1.8b
	fmov	x12, d0
	orr	x12, x12, x12, lsr #32
	lsr	x13, x12, #16
	orr	w12, w12, w13
	orr	w12, w12, w12, lsr #8
	tst	w12, #0xff
	b.ne	.Lfilter_BB0_66
	cmp	x27, #5
	add	x27, x27, #1
	add	x25, x25, #1
	add	x11, x11, #128
	add	x9, x9, #128
	add	x10, x10, #128
	add	x8, x8, #64
	add	x28, x28, #128
	add	x19, x19, #128
	add	x24, x24, #32
	b.ne	.Lfilter_BB0_64
	b	.Lfilter_BB0_90
.Lfilter_BB0_66:
	mov	x12, #-6148914691236517206
	mov	x13, #-768
	movi	v0.2d, #0000000000000000
	movk	x12, #43691
	umulh	x12, x27, x12
	stp	q0, q0, [sp, #368]
	stp	q0, q0, [sp, #400]
	stp	q0, q0, [sp, #432]
	lsr	x12, x12, #2
	stp	q0, q0, [sp, #464]
	stp	q0, q0, [sp, #496]
	madd	x11, x12, x13, x11
	mov	x12, xzr
	stp	q0, q0, [sp, #528]
	stp	q0, q0, [sp, #560]
	stp	q0, q0, [sp, #592]
	stp	q0, q0, [sp, #624]
	stp	q0, q0, [sp, #656]
	stp	q0, q0, [sp, #688]
	stp	q0, q0, [sp, #720]
	cbz	w21, .Lfilter_BB0_68
.Lfilter_BB0_67:
	ldr	w13, [x10], #4
	mov	w15, #1199570944
	fmov	s2, w15
	ldr	s1, [x9], #4
	asr	w14, w13, #16
	and	w13, w13, #0xffff
	ldr	s4, [x11, x12]
	ucvtf	s3, w13
	fmul	s1, s13, s1
	scvtf	s0, w14
	ldurh	w14, [x8, #-1]
	add	x8, x8, #2
	rev	w13, w14
	asr	w13, w13, #16
	fmul	s0, s0, s2
	fmov	s2, #1.00000000
	scvtf	s5, w13
	add	x13, sp, #240
	fadd	s1, s1, s2
	fadd	s0, s3, s0
	fmul	s3, s9, s4
	fmul	s4, s10, s5
	fmul	s0, s1, s0
	fadd	s1, s3, s2
	ldr	s2, [x13, x12]
	add	x13, sp, #624
	fadd	s2, s2, s4
	fmul	s0, s1, s0
	fsub	s0, s2, s0
	fdiv	s0, s0, s8
	fsub	s0, s0, s11
	str	s0, [x13, x12]
	add	x12, x12, #4
	cmp	x12, #128
	b.ne	.Lfilter_BB0_67
	b	.Lfilter_BB0_69
.Lfilter_BB0_68:
	ldr	w13, [x10, x12]
	mov	w15, #1199570944
	ldr	s1, [x9, x12]
	fmov	s2, w15
	ldr	s4, [x11, x12]
	asr	w14, w13, #16
	and	w13, w13, #0xffff
	fmul	s1, s13, s1
	ucvtf	s3, w13
	scvtf	s0, w14
	ldurh	w14, [x8, #-1]
	add	x8, x8, #2
	rev	w13, w14
	asr	w13, w13, #16
	fmul	s0, s0, s2
	fmov	s2, #1.00000000
	scvtf	s5, w13
	add	x13, sp, #240
	fadd	s1, s1, s2
	fadd	s0, s3, s0
	fmul	s3, s9, s4
	fmul	s4, s10, s5
	fmul	s0, s1, s0
	fadd	s1, s3, s2
	ldr	s2, [x13, x12]
	add	x13, sp, #624
	fadd	s2, s2, s4
	fmul	s0, s1, s0
	fsub	s0, s2, s0
	fdiv	s0, s0, s8
	str	s0, [x13, x12]
	add	x12, x12, #4
	cmp	x12, #128
	b.ne	.Lfilter_BB0_68
.Lfilter_BB0_69:
	movi	v0.2d, #0000000000000000
	and	w8, w3, #0xff
	str	w3, [sp, #144]
	cmp	w8, #2
	stp	x16, x0, [sp, #128]
	str	s6, [sp, #148]
	stp	x18, x17, [sp, #112]
	stp	q0, q0, [sp, #784]
	stp	q0, q0, [sp, #816]
	stp	q0, q0, [sp, #848]
	stp	q0, q0, [sp, #880]
	stp	x4, x2, [sp, #96]
	b.eq	.Lfilter_BB0_72
	cmp	w8, #1
	b.ne	.Lfilter_BB0_79
	add	x0, sp, #760
	add	x3, sp, #624
	add	x4, sp, #784
	mov	x2, x20
	bl	loamchalice.filter.pixels.temperature_block
	ldr	s0, [sp, #784]
	ldr	s1, [sp, #788]
	mov	w10, #2143289344
	fmov	s2, s0
	fmov	w9, s0
	ldr	s0, [sp, #792]
	fmov	s3, s0
	fcmp	s2, s2
	fmov	s2, s1
	cset	w12, vs
	csel	w15, w10, w9, vs
	fmov	w9, s1
	str	w15, [sp, #496]
	fcmp	s2, s2
	str	w12, [sp, #368]
	ldr	s2, [sp, #796]
	fmov	s1, s2
	cset	w8, vs
	csel	w14, w10, w9, vs
	fcmp	s3, s3
	fmov	w9, s0
	ldr	s0, [sp, #800]
	str	w8, [sp, #372]
	fmov	s3, s0
	str	w14, [sp, #500]
	cset	w13, vs
	csel	w11, w10, w9, vs
	fcmp	s1, s1
	fmov	w9, s2
	ldr	s1, [sp, #804]
	str	w13, [sp, #376]
	str	w11, [sp, #504]
	cset	w16, vs
	fmov	s2, s1
	csel	w18, w10, w9, vs
	fcmp	s3, s3
	fmov	w9, s0
	ldr	s0, [sp, #808]
	str	w18, [sp, #508]
	str	w16, [sp, #380]
	csel	w9, w10, w9, vs
	cset	w17, vs
	fcmp	s2, s2
	str	w9, [sp, #76]
	fmov	s3, s0
	fmov	w9, s1
	ldr	s2, [sp, #812]
	str	w17, [sp, #68]
	cset	w17, vs
	ldr	w8, [sp, #68]
	csel	w9, w10, w9, vs
	fmov	s1, s2
	str	w17, [sp, #72]
	str	w9, [sp, #56]
	fcmp	s3, s3
	fmov	w9, s0
	ldr	s0, [sp, #816]
	str	w8, [sp, #384]
	ldr	w8, [sp, #76]
	cset	w17, vs
	csel	w9, w10, w9, vs
	fcmp	s1, s1
	stp	w17, w9, [sp, #60]
	fmov	s3, s0
	fmov	w9, s2
	ldr	s1, [sp, #820]
	str	w8, [sp, #512]
	ldr	w8, [sp, #56]
	cset	w17, vs
	csel	w9, w10, w9, vs
	fmov	s2, s1
	str	w17, [sp, #52]
	str	w9, [sp, #40]
	fcmp	s3, s3
	fmov	w9, s0
	ldr	s0, [sp, #824]
	str	w8, [sp, #516]
	ldr	w8, [sp, #72]
	csel	w9, w10, w9, vs
	cset	w17, vs
	fcmp	s2, s2
	str	w9, [sp, #48]
	ldr	s2, [sp, #828]
	fmov	s3, s0
	fmov	w9, s1
	str	w17, [sp, #36]
	fmov	s1, s2
	cset	w17, vs
	str	w8, [sp, #388]
	str	w17, [sp, #44]
	ldr	w8, [sp, #60]
	csel	w9, w10, w9, vs
	fcmp	s3, s3
	str	w9, [sp, #24]
	fmov	w9, s0
	ldr	s0, [sp, #832]
	str	w8, [sp, #392]
	ldr	w8, [sp, #64]
	cset	w17, vs
	fmov	s3, s0
	csel	w9, w10, w9, vs
	fcmp	s1, s1
	ldr	s1, [sp, #836]
	stp	w17, w9, [sp, #28]
	fmov	w9, s2
	fmov	s2, s1
	str	w8, [sp, #520]
	ldr	w8, [sp, #40]
	cset	w17, vs
	csel	w28, w10, w9, vs
	fcmp	s3, s3
	fmov	w9, s0
	ldr	s0, [sp, #840]
	str	w8, [sp, #524]
	ldr	w8, [sp, #52]
	str	w28, [sp, #540]
	cset	w7, vs
	csel	w9, w10, w9, vs
	fcmp	s2, s2
	ldr	s2, [sp, #844]
	fmov	s3, s0
	stp	w9, w17, [sp, #16]
	fmov	w9, s1
	str	w8, [sp, #396]
	ldr	w8, [sp, #36]
	fmov	s1, s2
	cset	w17, vs
	str	w7, [sp, #416]
	str	w17, [sp, #12]
	ldr	w28, [sp, #20]
	csel	w4, w10, w9, vs
	fcmp	s3, s3
	fmov	w9, s0
	ldr	s0, [sp, #848]
	str	w8, [sp, #400]
	ldr	w8, [sp, #48]
	str	w28, [sp, #412]
	fmov	s3, s0
	cset	w5, vs
	csel	w30, w10, w9, vs
	fcmp	s1, s1
	ldr	s1, [sp, #852]
	fmov	w9, s2
	str	w8, [sp, #528]
	ldr	w8, [sp, #24]
	fmov	s2, s1
	str	w4, [sp, #548]
	csel	w1, w10, w9, vs
	cset	w6, vs
	fcmp	s3, s3
	fmov	w9, s0
	ldr	s0, [sp, #856]
	str	w8, [sp, #532]
	ldr	w8, [sp, #44]
	str	w5, [sp, #424]
	cset	w0, vs
	fmov	s3, s0
	str	w1, [sp, #556]
	csel	w3, w10, w9, vs
	fcmp	s2, s2
	fmov	w9, s1
	ldr	s2, [sp, #860]
	ldr	s1, [sp, #864]
	str	w8, [sp, #404]
	ldr	w8, [sp, #28]
	str	w0, [sp, #432]
	csel	w17, w10, w9, vs
	fmov	w9, s0
	fmov	s0, s2
	cset	w2, vs
	fcmp	s3, s3
	str	w8, [sp, #408]
	fmov	s3, s1
	ldr	w8, [sp, #32]
	str	w30, [sp, #552]
	str	w6, [sp, #428]
	cset	w15, vs
	csel	w18, w10, w9, vs
	fcmp	s0, s0
	fmov	w9, s2
	ldr	s0, [sp, #868]
	ldr	s2, [sp, #872]
	str	w8, [sp, #536]
	cset	w16, vs
	fmov	w8, s2
	str	w15, [sp, #440]
	csel	w14, w10, w9, vs
	fmov	w9, s1
	fmov	s1, s0
	fcmp	s3, s3
	fmov	s3, s2
	ldr	s2, [sp, #880]
	str	w14, [sp, #572]
	str	w16, [sp, #444]
	cset	w12, vs
	csel	w13, w10, w9, vs
	fcmp	s1, s1
	fmov	w9, s0
	ldr	s1, [sp, #876]
	str	w12, [sp, #448]
	str	w13, [sp, #576]
	cset	w11, vs
	fmov	s0, s1
	str	w3, [sp, #560]
	csel	w9, w10, w9, vs
	fcmp	s3, s3
	fmov	s3, s2
	str	w9, [sp, #580]
	str	w11, [sp, #452]
	csel	w7, w10, w8, vs
	ldr	w8, [sp, #16]
	cset	w28, vs
	fcmp	s0, s0
	ldr	s0, [sp, #884]
	str	w17, [sp, #564]
	str	w8, [sp, #544]
	ldr	w8, [sp, #12]
	str	w2, [sp, #436]
	str	w8, [sp, #420]
	fmov	w8, s1
	fmov	s1, s0
	cset	w4, vs
	str	w18, [sp, #568]
	str	w28, [sp, #456]
	csel	w5, w10, w8, vs
	fcmp	s3, s3
	fmov	w8, s2
	ldr	s2, [sp, #888]
	str	w7, [sp, #584]
	str	w5, [sp, #588]
	cset	w1, vs
	csel	w0, w10, w8, vs
	fcmp	s1, s1
	ldr	s1, [sp, #892]
	fmov	s3, s2
	fmov	w8, s0
	fmov	w14, s2
	ldr	s2, [sp, #896]
	str	w4, [sp, #460]
	fmov	s0, s1
	cset	w15, vs
	fmov	w9, s1
	csel	w8, w10, w8, vs
	fmov	w13, s2
	str	w1, [sp, #464]
	fcmp	s3, s3
	str	w0, [sp, #592]
	fmov	s3, s2
	ldr	s2, [sp, #904]
	str	w8, [sp, #596]
	cset	w12, vs
	csel	w14, w10, w14, vs
	fcmp	s0, s0
	ldr	s0, [sp, #900]
	fmov	s1, s0
	cset	w11, vs
	csel	w9, w10, w9, vs
	fcmp	s3, s3
	cset	w16, vs
	csel	w13, w10, w13, vs
	fcmp	s1, s1
	ldr	s1, [sp, #908]
	b	.Lfilter_BB0_80
.Lfilter_BB0_72:
	ldrb	w8, [sp, #760]
	add	x0, sp, #760
	add	x3, sp, #624
	add	x4, sp, #784
	mov	x2, x20
	str	s14, [sp, #76]
	stp	q0, q0, [x29, #-208]
	stp	q0, q0, [x29, #-176]
	stp	q0, q0, [x29, #-144]
	stp	q0, q0, [x29, #-112]
	stp	q0, q0, [sp, #912]
	stp	q0, q0, [sp, #944]
	stp	q0, q0, [sp, #976]
	str	w8, [sp, #72]
	stp	q0, q0, [sp, #1008]
	bl	loamchalice.filter.pixels.temperature_block
	ldr	w8, [sp, #92]
	tbnz	w8, #0, .Lfilter_BB0_76
	ldr	s0, [sp, #784]
	ldr	s17, [sp, #788]
	mov	x8, xzr
	ldr	s1, [sp, #800]
	ldr	s2, [sp, #816]
	ldr	s3, [sp, #832]
	ldr	s4, [sp, #848]
	ldr	s5, [sp, #864]
	ldr	s6, [sp, #880]
	mov	v0.s[1], v17.s[0]
	ldr	s17, [sp, #896]
	ldr	s24, [sp, #804]
	ldr	s25, [sp, #820]
	ldr	s26, [sp, #836]
	ldr	s27, [sp, #852]
	mov	v1.s[1], v24.s[0]
	ldr	s29, [sp, #868]
	ldr	s28, [sp, #884]
	mov	v2.s[1], v25.s[0]
	mov	v3.s[1], v26.s[0]
	mov	v4.s[1], v27.s[0]
	ldr	s30, [sp, #900]
	mov	v5.s[1], v29.s[0]
	mov	v6.s[1], v28.s[0]
	ldr	s7, [sp, #792]
	ldr	s16, [sp, #808]
	ldr	s18, [sp, #824]
	mov	v17.s[1], v30.s[0]
	ldr	s20, [sp, #840]
	ldr	s25, [sp, #856]
	ldr	s26, [sp, #872]
	mov	v0.s[2], v7.s[0]
	mov	v1.s[2], v16.s[0]
	ldr	s27, [sp, #888]
	ldr	s7, [sp, #904]
	mov	v2.s[2], v18.s[0]
	mov	v3.s[2], v20.s[0]
	mov	v4.s[2], v25.s[0]
	mov	v5.s[2], v26.s[0]
	mov	v6.s[2], v27.s[0]
	mov	v17.s[2], v7.s[0]
	ldr	s19, [sp, #796]
	ldr	s21, [sp, #812]
	ldr	s22, [sp, #828]
	ldr	s23, [sp, #844]
	ldr	s16, [sp, #908]
	ldr	s24, [sp, #860]
	ldr	s28, [sp, #876]
	ldr	s29, [sp, #892]
	mov	v0.s[3], v19.s[0]
	mov	v1.s[3], v21.s[0]
	mov	v2.s[3], v22.s[0]
	mov	v3.s[3], v23.s[0]
	mov	v4.s[3], v24.s[0]
	mov	v5.s[3], v28.s[0]
	mov	v6.s[3], v29.s[0]
	mov	v17.s[3], v16.s[0]
	movi	v7.2d, #0000000000000000
	movi	v16.2d, #0000000000000000
	movi	v18.2d, #0000000000000000
	movi	v19.2d, #0000000000000000
	movi	v20.2d, #0000000000000000
	movi	v21.2d, #0000000000000000
	movi	v22.2d, #0000000000000000
	movi	v23.2d, #0000000000000000
	ldr	x9, [sp, #80]
.Lfilter_BB0_74:
	add	x10, sp, #224
	dup	v14.4s, w8
	ldrsh	w10, [x10, x8, lsl #1]
	add	x8, x8, #1
	cmp	x9, x8
	scvtf	s24, w10
	dup	v24.4s, v24.s[0]
	fcmge	v25.4s, v0.4s, v24.4s
	fcmge	v26.4s, v1.4s, v24.4s
	fcmge	v27.4s, v2.4s, v24.4s
	fcmge	v28.4s, v3.4s, v24.4s
	fcmge	v29.4s, v4.4s, v24.4s
	fcmge	v30.4s, v5.4s, v24.4s
	fcmge	v31.4s, v6.4s, v24.4s
	fcmge	v24.4s, v17.4s, v24.4s
	cmlt	v25.4s, v25.4s, #0
	cmlt	v26.4s, v26.4s, #0
	cmlt	v27.4s, v27.4s, #0
	cmlt	v28.4s, v28.4s, #0
	cmlt	v29.4s, v29.4s, #0
	cmlt	v30.4s, v30.4s, #0
	cmlt	v31.4s, v31.4s, #0
	cmlt	v24.4s, v24.4s, #0
	bit	v7.16b, v14.16b, v25.16b
	bit	v16.16b, v14.16b, v26.16b
	bit	v18.16b, v14.16b, v27.16b
	bit	v19.16b, v14.16b, v28.16b
	bit	v20.16b, v14.16b, v29.16b
	bit	v21.16b, v14.16b, v30.16b
	bit	v22.16b, v14.16b, v31.16b
	bit	v23.16b, v14.16b, v24.16b
	b.ne	.Lfilter_BB0_74
	stp	q7, q16, [x29, #-208]
	stp	q18, q19, [x29, #-176]
	stp	q20, q21, [x29, #-144]
	stp	q22, q23, [x29, #-112]
.Lfilter_BB0_76:
	ldr	w8, [sp, #72]
	cbz	w8, .Lfilter_BB0_81
	ldr	s4, [sp, #148]
	mov	x8, xzr
.Lfilter_BB0_78:
	sub	x9, x29, #208
	add	x10, sp, #224
	ldr	w9, [x9, x8]
	ldr	s1, [x28], #4
	ldrsh	w10, [x10, x9, lsl #1]
	fsub	s1, s1, s4
	scvtf	s0, w10
	add	x10, sp, #784
	ldr	s2, [x10, x8]
	add	x10, sp, #192
	fmul	s1, s15, s1
	fsub	s0, s2, s0
	ldr	s2, [x10, x9, lsl #2]
	add	x10, sp, #160
	ldr	s3, [x10, x9, lsl #2]
	add	x9, sp, #624
	fmul	s1, s1, s3
	fmul	s0, s2, s0
	fmov	s2, #1.00000000
	fadd	s0, s0, s2
	fmul	s0, s1, s0
	ldr	s1, [x9, x8]
	add	x9, sp, #912
	fdiv	s0, s1, s0
	fadd	s0, s12, s0
	str	s0, [x9, x8]
	add	x8, x8, #4
	cmp	x8, #128
	b.ne	.Lfilter_BB0_78
	b	.Lfilter_BB0_83
.Lfilter_BB0_79:
	ldr	s0, [sp, #624]
	ldr	s1, [sp, #628]
	mov	w10, #2143289344
	fmov	s2, s0
	fmov	w9, s0
	ldr	s0, [sp, #632]
	fmov	s3, s0
	fcmp	s2, s2
	fmov	s2, s1
	cset	w12, vs
	csel	w15, w10, w9, vs
	fmov	w9, s1
	str	w15, [sp, #496]
	fcmp	s2, s2
	str	w12, [sp, #368]
	ldr	s2, [sp, #636]
	fmov	s1, s2
	cset	w8, vs
	csel	w14, w10, w9, vs
	fcmp	s3, s3
	fmov	w9, s0
	ldr	s0, [sp, #640]
	str	w8, [sp, #372]
	fmov	s3, s0
	str	w14, [sp, #500]
	cset	w13, vs
	csel	w11, w10, w9, vs
	fcmp	s1, s1
	fmov	w9, s2
	ldr	s1, [sp, #644]
	str	w13, [sp, #376]
	str	w11, [sp, #504]
	cset	w16, vs
	fmov	s2, s1
	csel	w18, w10, w9, vs
	fcmp	s3, s3
	fmov	w9, s0
	ldr	s0, [sp, #648]
	str	w18, [sp, #508]
	str	w16, [sp, #380]
	csel	w9, w10, w9, vs
	cset	w17, vs
	fcmp	s2, s2
	str	w9, [sp, #76]
	fmov	s3, s0
	fmov	w9, s1
	ldr	s2, [sp, #652]
	str	w17, [sp, #68]
	cset	w17, vs
	ldr	w8, [sp, #68]
	csel	w9, w10, w9, vs
	fmov	s1, s2
	str	w17, [sp, #72]
	str	w9, [sp, #56]
	fcmp	s3, s3
	fmov	w9, s0
	ldr	s0, [sp, #656]
	str	w8, [sp, #384]
	ldr	w8, [sp, #76]
	cset	w17, vs
	csel	w9, w10, w9, vs
	fcmp	s1, s1
	stp	w17, w9, [sp, #60]
	fmov	s3, s0
	fmov	w9, s2
	ldr	s1, [sp, #660]
	str	w8, [sp, #512]
	ldr	w8, [sp, #56]
	cset	w17, vs
	csel	w9, w10, w9, vs
	fmov	s2, s1
	str	w17, [sp, #52]
	str	w9, [sp, #40]
	fcmp	s3, s3
	fmov	w9, s0
	ldr	s0, [sp, #664]
	str	w8, [sp, #516]
	ldr	w8, [sp, #72]
	csel	w9, w10, w9, vs
	cset	w17, vs
	fcmp	s2, s2
	str	w9, [sp, #48]
	ldr	s2, [sp, #668]
	fmov	s3, s0
	fmov	w9, s1
	str	w17, [sp, #36]
	fmov	s1, s2
	cset	w17, vs
	str	w8, [sp, #388]
	str	w17, [sp, #44]
	ldr	w8, [sp, #60]
	csel	w9, w10, w9, vs
	fcmp	s3, s3
	str	w9, [sp, #24]
	fmov	w9, s0
	ldr	s0, [sp, #672]
	str	w8, [sp, #392]
	ldr	w8, [sp, #64]
	cset	w17, vs
	fmov	s3, s0
	csel	w9, w10, w9, vs
	fcmp	s1, s1
	ldr	s1, [sp, #676]
	stp	w17, w9, [sp, #28]
	fmov	w9, s2
	fmov	s2, s1
	str	w8, [sp, #520]
	ldr	w8, [sp, #40]
	cset	w17, vs
	csel	w28, w10, w9, vs
	fcmp	s3, s3
	fmov	w9, s0
	ldr	s0, [sp, #680]
	str	w8, [sp, #524]
	ldr	w8, [sp, #52]
	str	w28, [sp, #540]
	cset	w7, vs
	csel	w9, w10, w9, vs
	fcmp	s2, s2
	ldr	s2, [sp, #684]
	fmov	s3, s0
	stp	w9, w17, [sp, #16]
	fmov	w9, s1
	str	w8, [sp, #396]
	ldr	w8, [sp, #36]
	fmov	s1, s2
	cset	w17, vs
	str	w7, [sp, #416]
	str	w17, [sp, #12]
	ldr	w28, [sp, #20]
	csel	w4, w10, w9, vs
	fcmp	s3, s3
	fmov	w9, s0
	ldr	s0, [sp, #688]
	str	w8, [sp, #400]
	ldr	w8, [sp, #48]
	str	w28, [sp, #412]
	fmov	s3, s0
	cset	w5, vs
	csel	w30, w10, w9, vs
	fcmp	s1, s1
	ldr	s1, [sp, #692]
	fmov	w9, s2
	str	w8, [sp, #528]
	ldr	w8, [sp, #24]
	fmov	s2, s1
	str	w4, [sp, #548]
	csel	w1, w10, w9, vs
	cset	w6, vs
	fcmp	s3, s3
	fmov	w9, s0
	ldr	s0, [sp, #696]
	str	w8, [sp, #532]
	ldr	w8, [sp, #44]
	str	w5, [sp, #424]
	cset	w0, vs
	fmov	s3, s0
	str	w1, [sp, #556]
	csel	w3, w10, w9, vs
	fcmp	s2, s2
	fmov	w9, s1
	ldr	s2, [sp, #700]
	ldr	s1, [sp, #704]
	str	w8, [sp, #404]
	ldr	w8, [sp, #28]
	str	w0, [sp, #432]
	csel	w17, w10, w9, vs
	fmov	w9, s0
	fmov	s0, s2
	cset	w2, vs
	fcmp	s3, s3
	str	w8, [sp, #408]
	fmov	s3, s1
	ldr	w8, [sp, #32]
	str	w30, [sp, #552]
	str	w6, [sp, #428]
	cset	w15, vs
	csel	w18, w10, w9, vs
	fcmp	s0, s0
	fmov	w9, s2
	ldr	s0, [sp, #708]
	ldr	s2, [sp, #712]
	str	w8, [sp, #536]
	cset	w16, vs
	fmov	w8, s2
	str	w15, [sp, #440]
	csel	w14, w10, w9, vs
	fmov	w9, s1
	fmov	s1, s0
	fcmp	s3, s3
	fmov	s3, s2
	ldr	s2, [sp, #720]
	str	w14, [sp, #572]
	str	w16, [sp, #444]
	cset	w12, vs
	csel	w13, w10, w9, vs
	fcmp	s1, s1
	fmov	w9, s0
	ldr	s1, [sp, #716]
	str	w12, [sp, #448]
	str	w13, [sp, #576]
	cset	w11, vs
	fmov	s0, s1
	str	w3, [sp, #560]
	csel	w9, w10, w9, vs
	fcmp	s3, s3
	fmov	s3, s2
	str	w9, [sp, #580]
	str	w11, [sp, #452]
	csel	w7, w10, w8, vs
	ldr	w8, [sp, #16]
	cset	w28, vs
	fcmp	s0, s0
	ldr	s0, [sp, #724]
	str	w17, [sp, #564]
	str	w8, [sp, #544]
	ldr	w8, [sp, #12]
	str	w2, [sp, #436]
	str	w8, [sp, #420]
	fmov	w8, s1
	fmov	s1, s0
	cset	w4, vs
	str	w18, [sp, #568]
	str	w28, [sp, #456]
	csel	w5, w10, w8, vs
	fcmp	s3, s3
	fmov	w8, s2
	ldr	s2, [sp, #728]
	str	w7, [sp, #584]
	str	w5, [sp, #588]
	cset	w1, vs
	csel	w0, w10, w8, vs
	fcmp	s1, s1
	ldr	s1, [sp, #732]
	fmov	s3, s2
	fmov	w8, s0
	fmov	w14, s2
	ldr	s2, [sp, #736]
	str	w4, [sp, #460]
	fmov	s0, s1
	cset	w15, vs
	fmov	w9, s1
	csel	w8, w10, w8, vs
	fmov	w13, s2
	str	w1, [sp, #464]
	fcmp	s3, s3
	str	w0, [sp, #592]
	fmov	s3, s2
	ldr	s2, [sp, #744]
	str	w8, [sp, #596]
	cset	w12, vs
	csel	w14, w10, w14, vs
	fcmp	s0, s0
	ldr	s0, [sp, #740]
	fmov	s1, s0
	cset	w11, vs
	csel	w9, w10, w9, vs
	fcmp	s3, s3
	cset	w16, vs
	csel	w13, w10, w13, vs
	fcmp	s1, s1
	ldr	s1, [sp, #748]
.Lfilter_BB0_80:
	fmov	s3, s2
	fmov	w8, s0
	str	w12, [sp, #472]
	fmov	s0, s1
	cset	w12, vs
	str	w9, [sp, #604]
	fmov	w9, s2
	str	w11, [sp, #476]
	csel	w8, w10, w8, vs
	str	w15, [sp, #468]
	fcmp	s3, s3
	str	w8, [sp, #612]
	fmov	w8, s1
	str	w14, [sp, #600]
	str	w16, [sp, #480]
	cset	w11, vs
	csel	w9, w10, w9, vs
	fcmp	s0, s0
	str	w13, [sp, #608]
	str	w12, [sp, #484]
	csel	w8, w10, w8, vs
	str	w9, [sp, #616]
	str	w8, [sp, #620]
	cset	w8, vs
	str	w11, [sp, #488]
	b	.Lfilter_BB0_84
.Lfilter_BB0_81:
	mov	x8, xzr
.Lfilter_BB0_82:
	sub	x9, x29, #208
	add	x10, sp, #224
	ldr	w9, [x9, x8]
	ldrsh	w10, [x10, x9, lsl #1]
	scvtf	s0, w10
	add	x10, sp, #784
	ldr	s1, [x10, x8]
	add	x10, sp, #192
	ldr	s2, [x10, x9, lsl #2]
	add	x10, sp, #160
	ldr	s3, [x10, x9, lsl #2]
	add	x9, sp, #624
	fsub	s0, s1, s0
	ldr	s1, [x28, x8]
	fmul	s1, s15, s1
	fmul	s0, s2, s0
	fmov	s2, #1.00000000
	fmul	s1, s1, s3
	fadd	s0, s0, s2
	fmul	s0, s1, s0
	ldr	s1, [x9, x8]
	add	x9, sp, #912
	fdiv	s0, s1, s0
	fadd	s0, s12, s0
	str	s0, [x9, x8]
	add	x8, x8, #4
	cmp	x8, #128
	b.ne	.Lfilter_BB0_82
.Lfilter_BB0_83:
	add	x0, sp, #912
	add	x1, sp, #784
	bl	loamchalice.filter.pixels.degrees_block
	ldr	s0, [sp, #784]
	ldr	s1, [sp, #788]
	mov	w10, #2143289344
	ldr	s14, [sp, #76]
	fmov	s2, s0
	fmov	w9, s0
	ldr	s0, [sp, #792]
	fmov	s3, s0
	fcmp	s2, s2
	fmov	s2, s1
	cset	w12, vs
	csel	w15, w10, w9, vs
	fmov	w9, s1
	str	w15, [sp, #496]
	fcmp	s2, s2
	str	w12, [sp, #368]
	ldr	s2, [sp, #796]
	fmov	s1, s2
	cset	w8, vs
	csel	w14, w10, w9, vs
	fcmp	s3, s3
	fmov	w9, s0
	ldr	s0, [sp, #800]
	str	w8, [sp, #372]
	fmov	s3, s0
	str	w14, [sp, #500]
	cset	w13, vs
	csel	w11, w10, w9, vs
	fcmp	s1, s1
	fmov	w9, s2
	ldr	s1, [sp, #804]
	str	w13, [sp, #376]
	str	w11, [sp, #504]
	cset	w16, vs
	fmov	s2, s1
	csel	w18, w10, w9, vs
	fcmp	s3, s3
	fmov	w9, s0
	ldr	s0, [sp, #808]
	str	w18, [sp, #508]
	str	w16, [sp, #380]
	csel	w9, w10, w9, vs
	cset	w17, vs
	fcmp	s2, s2
	str	w9, [sp, #72]
	fmov	s3, s0
	fmov	w9, s1
	ldr	s2, [sp, #812]
	str	w17, [sp, #64]
	cset	w17, vs
	ldr	w8, [sp, #64]
	csel	w9, w10, w9, vs
	fmov	s1, s2
	str	w17, [sp, #68]
	str	w9, [sp, #52]
	fcmp	s3, s3
	fmov	w9, s0
	ldr	s0, [sp, #816]
	str	w8, [sp, #384]
	ldr	w8, [sp, #72]
	cset	w17, vs
	csel	w9, w10, w9, vs
	fcmp	s1, s1
	stp	w17, w9, [sp, #56]
	fmov	s3, s0
	fmov	w9, s2
	ldr	s1, [sp, #820]
	str	w8, [sp, #512]
	ldr	w8, [sp, #52]
	cset	w17, vs
	csel	w9, w10, w9, vs
	fmov	s2, s1
	str	w17, [sp, #48]
	str	w9, [sp, #36]
	fcmp	s3, s3
	fmov	w9, s0
	ldr	s0, [sp, #824]
	str	w8, [sp, #516]
	ldr	w8, [sp, #68]
	csel	w9, w10, w9, vs
	cset	w17, vs
	fcmp	s2, s2
	str	w9, [sp, #44]
	ldr	s2, [sp, #828]
	fmov	s3, s0
	fmov	w9, s1
	str	w17, [sp, #32]
	fmov	s1, s2
	cset	w17, vs
	str	w8, [sp, #388]
	str	w17, [sp, #40]
	ldr	w8, [sp, #56]
	csel	w9, w10, w9, vs
	fcmp	s3, s3
	str	w9, [sp, #20]
	fmov	w9, s0
	ldr	s0, [sp, #832]
	str	w8, [sp, #392]
	ldr	w8, [sp, #60]
	cset	w17, vs
	fmov	s3, s0
	csel	w9, w10, w9, vs
	fcmp	s1, s1
	ldr	s1, [sp, #836]
	stp	w17, w9, [sp, #24]
	fmov	w9, s2
	fmov	s2, s1
	str	w8, [sp, #520]
	ldr	w8, [sp, #36]
	cset	w17, vs
	csel	w28, w10, w9, vs
	fcmp	s3, s3
	fmov	w9, s0
	ldr	s0, [sp, #840]
	str	w8, [sp, #524]
	ldr	w8, [sp, #48]
	str	w28, [sp, #540]
	cset	w7, vs
	csel	w9, w10, w9, vs
	fcmp	s2, s2
	ldr	s2, [sp, #844]
	fmov	s3, s0
	stp	w9, w17, [sp, #12]
	fmov	w9, s1
	str	w8, [sp, #396]
	ldr	w8, [sp, #32]
	fmov	s1, s2
	cset	w17, vs
	str	w7, [sp, #416]
	str	w17, [sp, #8]
	ldr	w28, [sp, #16]
	csel	w4, w10, w9, vs
	fcmp	s3, s3
	fmov	w9, s0
	ldr	s0, [sp, #848]
	str	w8, [sp, #400]
	ldr	w8, [sp, #44]
	str	w28, [sp, #412]
	fmov	s3, s0
	cset	w5, vs
	csel	w30, w10, w9, vs
	fcmp	s1, s1
	ldr	s1, [sp, #852]
	fmov	w9, s2
	str	w8, [sp, #528]
	ldr	w8, [sp, #20]
	fmov	s2, s1
	str	w4, [sp, #548]
	csel	w1, w10, w9, vs
	cset	w6, vs
	fcmp	s3, s3
	fmov	w9, s0
	ldr	s0, [sp, #856]
	str	w8, [sp, #532]
	ldr	w8, [sp, #40]
	str	w5, [sp, #424]
	cset	w0, vs
	fmov	s3, s0
	str	w1, [sp, #556]
	csel	w3, w10, w9, vs
	fcmp	s2, s2
	fmov	w9, s1
	ldr	s2, [sp, #860]
	ldr	s1, [sp, #864]
	str	w8, [sp, #404]
	ldr	w8, [sp, #24]
	str	w0, [sp, #432]
	csel	w17, w10, w9, vs
	fmov	w9, s0
	fmov	s0, s2
	cset	w2, vs
	fcmp	s3, s3
	str	w8, [sp, #408]
	fmov	s3, s1
	ldr	w8, [sp, #28]
	str	w30, [sp, #552]
	str	w6, [sp, #428]
	cset	w15, vs
	csel	w18, w10, w9, vs
	fcmp	s0, s0
	fmov	w9, s2
	ldr	s0, [sp, #868]
	ldr	s2, [sp, #872]
	str	w8, [sp, #536]
	cset	w16, vs
	fmov	w8, s2
	str	w15, [sp, #440]
	csel	w14, w10, w9, vs
	fmov	w9, s1
	fmov	s1, s0
	fcmp	s3, s3
	fmov	s3, s2
	ldr	s2, [sp, #880]
	str	w14, [sp, #572]
	str	w16, [sp, #444]
	cset	w12, vs
	csel	w13, w10, w9, vs
	fcmp	s1, s1
	fmov	w9, s0
	ldr	s1, [sp, #876]
	str	w12, [sp, #448]
	str	w13, [sp, #576]
	cset	w11, vs
	fmov	s0, s1
	str	w3, [sp, #560]
	csel	w9, w10, w9, vs
	fcmp	s3, s3
	fmov	s3, s2
	str	w9, [sp, #580]
	str	w11, [sp, #452]
	csel	w7, w10, w8, vs
	ldr	w8, [sp, #12]
	cset	w28, vs
	fcmp	s0, s0
	ldr	s0, [sp, #884]
	str	w17, [sp, #564]
	str	w8, [sp, #544]
	ldr	w8, [sp, #8]
	str	w2, [sp, #436]
	str	w8, [sp, #420]
	fmov	w8, s1
	fmov	s1, s0
	cset	w4, vs
	str	w18, [sp, #568]
	str	w28, [sp, #456]
	csel	w5, w10, w8, vs
	fcmp	s3, s3
	fmov	w8, s2
	ldr	s2, [sp, #888]
	str	w7, [sp, #584]
	str	w5, [sp, #588]
	cset	w1, vs
	csel	w0, w10, w8, vs
	fcmp	s1, s1
	ldr	s1, [sp, #892]
	fmov	s3, s2
	fmov	w8, s0
	fmov	w14, s2
	ldr	s2, [sp, #896]
	str	w4, [sp, #460]
	fmov	s0, s1
	cset	w15, vs
	fmov	w9, s1
	csel	w8, w10, w8, vs
	fmov	w13, s2
	str	w1, [sp, #464]
	fcmp	s3, s3
	str	w8, [sp, #596]
	fmov	s3, s2
	ldr	s2, [sp, #904]
	str	w0, [sp, #592]
	str	w15, [sp, #468]
	cset	w12, vs
	csel	w14, w10, w14, vs
	fcmp	s0, s0
	ldr	s0, [sp, #900]
	str	w12, [sp, #472]
	str	w14, [sp, #600]
	fmov	s1, s0
	cset	w11, vs
	csel	w9, w10, w9, vs
	fcmp	s3, s3
	fmov	s3, s2
	fmov	w8, s0
	str	w9, [sp, #604]
	fmov	w9, s2
	str	w11, [sp, #476]
	cset	w16, vs
	csel	w13, w10, w13, vs
	fcmp	s1, s1
	ldr	s1, [sp, #908]
	str	w16, [sp, #480]
	str	w13, [sp, #608]
	fmov	s0, s1
	cset	w12, vs
	csel	w8, w10, w8, vs
	fcmp	s3, s3
	str	w8, [sp, #612]
	fmov	w8, s1
	str	w12, [sp, #484]
	cset	w11, vs
	csel	w9, w10, w9, vs
	fcmp	s0, s0
	str	w9, [sp, #616]
	str	w11, [sp, #488]
	csel	w8, w10, w8, vs
	str	w8, [sp, #620]
	cset	w8, vs
.Lfilter_BB0_84:
	str	w8, [sp, #492]
	ldp	x16, x0, [sp, #128]
	ldr	w3, [sp, #144]
	ldp	x11, x2, [sp, #96]
	ldr	x1, [sp, #152]
	ldp	x18, x17, [sp, #112]
	add	x8, x16, x25, lsl #7
	add	x9, x11, x25
	add	x10, x26, x9, lsl #5
	add	x9, x8, x11, lsl #7
	add	x8, x10, #32
	cmp	x9, x8
	add	x8, x26, x20
	b.hs	.Lfilter_BB0_88
	add	x9, x9, #128
	cmp	x8, x9
	b.hs	.Lfilter_BB0_88
	mov	x9, xzr
	mov	w8, wzr
.Lfilter_BB0_87:
	ldrb	w10, [x24], #1
	add	x11, sp, #496
	add	x11, x11, x9
	cmp	w10, #0
	add	x10, sp, #368
	ldr	w10, [x10, x9]
	csel	x11, x19, x11, eq
	add	x9, x9, #4
	ldr	w11, [x11]
	csel	w10, wzr, w10, eq
	cmp	x9, #128
	add	w8, w10, w8
	str	w11, [x19], #4
	b.ne	.Lfilter_BB0_87
	b	.Lfilter_BB0_89
.Lfilter_BB0_88:
	ldp	q0, q1, [x8]
	add	x8, x16, x27, lsl #7
	ldp	q16, q17, [sp, #464]
	ldp	q20, q21, [sp, #400]
	cmeq	v4.16b, v0.16b, #0
	cmeq	v5.16b, v1.16b, #0
	ldp	q18, q19, [sp, #432]
	ldp	q26, q27, [sp, #368]
	sshll2	v6.8h, v4.16b, #0
	sshll2	v7.8h, v5.16b, #0
	sshll	v5.8h, v5.8b, #0
	sshll	v4.8h, v4.8b, #0
	ldp	q1, q2, [sp, #528]
	ldp	q31, q30, [x8, #32]
	sshll2	v22.4s, v6.8h, #0
	sshll2	v23.4s, v7.8h, #0
	sshll	v6.4s, v6.4h, #0
	sshll	v7.4s, v7.4h, #0
	sshll2	v24.4s, v5.8h, #0
	sshll	v5.4s, v5.4h, #0
	sshll2	v25.4s, v4.8h, #0
	sshll	v4.4s, v4.4h, #0
	bic	v20.16b, v20.16b, v6.16b
	bic	v17.16b, v17.16b, v23.16b
	bic	v21.16b, v21.16b, v22.16b
	bic	v16.16b, v16.16b, v7.16b
	bic	v19.16b, v19.16b, v24.16b
	bic	v18.16b, v18.16b, v5.16b
	bic	v27.16b, v27.16b, v25.16b
	bic	v26.16b, v26.16b, v4.16b
	bit	v2.16b, v30.16b, v22.16b
	ldp	q0, q3, [sp, #496]
	add	v17.4s, v17.4s, v21.4s
	add	v16.4s, v16.4s, v20.4s
	ldp	q22, q20, [x8]
	add	v18.4s, v18.4s, v26.4s
	add	v19.4s, v19.4s, v27.4s
	bit	v1.16b, v31.16b, v6.16b
	ldp	q29, q28, [sp, #592]
	bit	v3.16b, v20.16b, v25.16b
	bit	v0.16b, v22.16b, v4.16b
	add	v6.4s, v19.4s, v17.4s
	add	v16.4s, v18.4s, v16.4s
	ldp	q26, q21, [sp, #560]
	stp	q1, q2, [x8, #32]
	ldp	q18, q17, [x8, #96]
	mov	v2.16b, v7.16b
	ldp	q19, q4, [x8, #64]
	stp	q0, q3, [x8]
	mov	v3.16b, v5.16b
	add	v1.4s, v16.4s, v6.4s
	bif	v17.16b, v28.16b, v23.16b
	bsl	v2.16b, v18.16b, v29.16b
	bif	v4.16b, v21.16b, v24.16b
	bsl	v3.16b, v19.16b, v26.16b
	addv	s0, v1.4s
	stp	q2, q17, [x8, #96]
	stp	q3, q4, [x8, #64]
	fmov	w8, s0
.Lfilter_BB0_89:
	add	x23, x23, w8, uxtw
	ldr	s6, [sp, #148]
	cmp	x27, #5
	add	x4, x27, #1
	b.lo	.Lfilter_BB0_63
.Lfilter_BB0_90:
	fmov	s0, s14
	fmov	w8, s14
	mov	w9, #2143289344
	mov	x12, xzr
	fcmp	s0, s0
	csel	w11, w9, w8, vs
	b	.Lfilter_BB0_33
.Lfilter_BB0_91:
	mov	w11, #13
	mov	w23, #1
	b	.Lfilter_BB0_32
.Lfilter_BB0_92:
	mov	w11, #13
	mov	w12, #1
	mov	w23, #2
	b	.Lfilter_BB0_33
.Lfilter_BB0_93:
	mov	w11, #13
	mov	w12, #1
	mov	w23, #3
	b	.Lfilter_BB0_33
.Lfilter_BB0_94:
	mov	w11, #13
	mov	w12, #1
	mov	w23, #4
	b	.Lfilter_BB0_33
.Lfilter_BB0_95:
	mov	w11, #13
	mov	w12, #1
	mov	w23, #5
	b	.Lfilter_BB0_33
.Lfilter_BB0_96:
	mov	w11, #13
	mov	w12, #1
	mov	w23, #6
	b	.Lfilter_BB0_33
.Lfilter_func_end0:
	.size	loamchalice.filter.calculations.from_pixels, .Lfilter_func_end0-loamchalice.filter.calculations.from_pixels

	.section	.text.filter.pixels.temperature_block,"ax",@progbits
	.p2align	2
	.type	loamchalice.filter.pixels.temperature_block,@function
loamchalice.filter.pixels.temperature_block:
	sub	sp, sp, #256
	ldp	s24, s2, [x0, #12]
	movi	v1.2d, #0000000000000000
	ldp	s0, s4, [x0, #4]
	str	x21, [sp, #224]
	ldrb	w8, [x0]
	add	x21, x1, x2, lsl #2
	stp	x20, x19, [sp, #240]
	stp	q24, q2, [sp, #32]
	mov	x19, x4
	mov	x20, x3
	ldr	s2, [x0, #20]
	stp	x29, x30, [sp, #208]
	add	x29, sp, #208
	stp	q1, q1, [sp, #80]
	stp	q1, q1, [sp, #112]
	stp	q1, q1, [sp, #144]
	str	q2, [sp, #64]
	stp	q1, q1, [sp, #176]
	str	q4, [sp, #16]
	cbz	w8, .Lfilter_BB1_2
	dup	v18.4s, v0.s[0]
	ldp	q0, q1, [x21]
	ldp	q2, q3, [x21, #32]
	mov	v22.16b, v4.16b
	ldp	q7, q16, [x21, #96]
	add	x0, sp, #80
	fsub	v0.4s, v0.4s, v18.4s
	fsub	v1.4s, v1.4s, v18.4s
	mov	v19.16b, v18.16b
	fsub	v2.4s, v2.4s, v18.4s
	fsub	v3.4s, v3.4s, v18.4s
	str	q18, [sp]
	fsub	v7.4s, v7.4s, v18.4s
	ldp	q20, q21, [x20]
	fsub	v16.4s, v16.4s, v19.4s
	mov	x1, x19
	fmul	v0.4s, v0.4s, v4.s[0]
	fmul	v1.4s, v1.4s, v4.s[0]
	fmul	v2.4s, v2.4s, v4.s[0]
	ldp	q4, q5, [x21, #64]
	fmul	v3.4s, v3.4s, v22.s[0]
	fmul	v7.4s, v7.4s, v22.s[0]
	fmul	v16.4s, v16.4s, v22.s[0]
	fsub	v4.4s, v4.4s, v18.4s
	fmul	v6.4s, v0.4s, v0.4s
	fmul	v17.4s, v1.4s, v1.4s
	fsub	v5.4s, v5.4s, v18.4s
	fmul	v18.4s, v2.4s, v2.4s
	fmul	v19.4s, v3.4s, v3.4s
	fmul	v4.4s, v4.4s, v22.s[0]
	fmul	v0.4s, v0.4s, v6.4s
	fmul	v1.4s, v1.4s, v17.4s
	fmul	v5.4s, v5.4s, v22.s[0]
	fmul	v6.4s, v6.4s, v6.4s
	fmul	v17.4s, v17.4s, v17.4s
	fmul	v2.4s, v2.4s, v18.4s
	fmul	v3.4s, v3.4s, v19.4s
	fmul	v18.4s, v18.4s, v18.4s
	ldp	q22, q23, [x20, #32]
	fmul	v19.4s, v19.4s, v19.4s
	fmul	v0.4s, v20.4s, v0.4s
	fmul	v20.4s, v4.4s, v4.4s
	fmul	v1.4s, v21.4s, v1.4s
	fmul	v21.4s, v5.4s, v5.4s
	fmul	v6.4s, v6.4s, v24.s[0]
	fmul	v17.4s, v17.4s, v24.s[0]
	fmul	v2.4s, v22.4s, v2.4s
	fmul	v22.4s, v7.4s, v7.4s
	fmul	v3.4s, v23.4s, v3.4s
	fmul	v23.4s, v16.4s, v16.4s
	fmul	v18.4s, v18.4s, v24.s[0]
	fmul	v19.4s, v19.4s, v24.s[0]
	fmul	v4.4s, v4.4s, v20.4s
	fmul	v20.4s, v20.4s, v20.4s
	fmul	v5.4s, v5.4s, v21.4s
	fadd	v0.4s, v0.4s, v6.4s
	fadd	v1.4s, v1.4s, v17.4s
	ldp	q6, q17, [x20, #64]
	fmul	v21.4s, v21.4s, v21.4s
	fmul	v7.4s, v7.4s, v22.4s
	fmul	v22.4s, v22.4s, v22.4s
	fmul	v16.4s, v16.4s, v23.4s
	fmul	v23.4s, v23.4s, v23.4s
	fmul	v20.4s, v20.4s, v24.s[0]
	fadd	v2.4s, v2.4s, v18.4s
	fmul	v4.4s, v6.4s, v4.4s
	fmul	v5.4s, v17.4s, v5.4s
	fadd	v3.4s, v3.4s, v19.4s
	ldp	q6, q17, [x20, #96]
	fmul	v21.4s, v21.4s, v24.s[0]
	stp	q0, q1, [sp, #80]
	fmul	v6.4s, v6.4s, v7.4s
	fmul	v7.4s, v22.4s, v24.s[0]
	fmul	v16.4s, v17.4s, v16.4s
	fmul	v17.4s, v23.4s, v24.s[0]
	fadd	v4.4s, v4.4s, v20.4s
	fadd	v0.4s, v5.4s, v21.4s
	stp	q2, q3, [sp, #112]
	fadd	v1.4s, v6.4s, v7.4s
	fadd	v2.4s, v16.4s, v17.4s
	stp	q4, q0, [sp, #144]
	stp	q1, q2, [sp, #176]
	bl	loamchalice.filter.roots.fourth_roots
	ldp	q0, q1, [x21]
	ldp	q18, q21, [sp]
	ldp	q2, q3, [x19]
	ldp	q20, q19, [sp, #48]
	fsub	v0.4s, v0.4s, v18.4s
	fsub	v1.4s, v1.4s, v18.4s
	fmul	v2.4s, v2.4s, v20.s[0]
	fmul	v0.4s, v0.4s, v21.s[0]
	fmul	v1.4s, v1.4s, v21.s[0]
	fmul	v0.4s, v0.4s, v19.s[0]
	fmul	v1.4s, v1.4s, v19.s[0]
	fadd	v0.4s, v2.4s, v0.4s
	ldp	q2, q4, [x20]
	fdiv	v0.4s, v2.4s, v0.4s
	fmul	v2.4s, v3.4s, v20.s[0]
	ldp	q3, q5, [x21, #32]
	fsub	v3.4s, v3.4s, v18.4s
	fadd	v1.4s, v2.4s, v1.4s
	fsub	v5.4s, v5.4s, v18.4s
	fmul	v2.4s, v3.4s, v21.s[0]
	fdiv	v1.4s, v4.4s, v1.4s
	ldp	q3, q4, [x19, #32]
	fmul	v2.4s, v2.4s, v19.s[0]
	fmul	v3.4s, v3.4s, v20.s[0]
	fmul	v4.4s, v4.4s, v20.s[0]
	fadd	v2.4s, v3.4s, v2.4s
	fmul	v3.4s, v5.4s, v21.s[0]
	ldp	q5, q6, [x20, #32]
	fdiv	v2.4s, v5.4s, v2.4s
	fmul	v3.4s, v3.4s, v19.s[0]
	ldp	q5, q7, [x21, #64]
	fsub	v5.4s, v5.4s, v18.4s
	fadd	v3.4s, v4.4s, v3.4s
	fsub	v7.4s, v7.4s, v18.4s
	fmul	v4.4s, v5.4s, v21.s[0]
	fdiv	v3.4s, v6.4s, v3.4s
	ldp	q5, q6, [x19, #64]
	fmul	v4.4s, v4.4s, v19.s[0]
	fmul	v5.4s, v5.4s, v20.s[0]
	fmul	v6.4s, v6.4s, v20.s[0]
	fadd	v4.4s, v5.4s, v4.4s
	fmul	v5.4s, v7.4s, v21.s[0]
	ldp	q7, q16, [x20, #64]
	fdiv	v4.4s, v7.4s, v4.4s
	fmul	v5.4s, v5.4s, v19.s[0]
	ldp	q7, q17, [x21, #96]
	fsub	v7.4s, v7.4s, v18.4s
	fadd	v5.4s, v6.4s, v5.4s
	fsub	v17.4s, v17.4s, v18.4s
	fmul	v6.4s, v7.4s, v21.s[0]
	fdiv	v5.4s, v16.4s, v5.4s
	ldp	q7, q16, [x19, #96]
	fmul	v6.4s, v6.4s, v19.s[0]
	fmul	v7.4s, v7.4s, v20.s[0]
	fmul	v16.4s, v16.4s, v20.s[0]
	fadd	v6.4s, v7.4s, v6.4s
	fmul	v7.4s, v17.4s, v21.s[0]
	ldp	q17, q18, [x20, #96]
	fmul	v7.4s, v7.4s, v19.s[0]
	fdiv	v6.4s, v17.4s, v6.4s
	fadd	v7.4s, v16.4s, v7.4s
	b	.Lfilter_BB1_3
.Lfilter_BB1_2:
	ldp	q0, q1, [x21]
	mov	v22.16b, v4.16b
	ldp	q2, q3, [x21, #32]
	add	x0, sp, #80
	ldp	q17, q18, [x21, #64]
	mov	x1, x19
	fmul	v0.4s, v0.4s, v4.s[0]
	fmul	v1.4s, v1.4s, v4.s[0]
	fmul	v2.4s, v2.4s, v4.s[0]
	fmul	v3.4s, v3.4s, v4.s[0]
	ldp	q20, q21, [x21, #96]
	fmul	v17.4s, v17.4s, v22.s[0]
	fmul	v18.4s, v18.4s, v22.s[0]
	ldp	q6, q7, [x20]
	fmul	v4.4s, v0.4s, v0.4s
	fmul	v5.4s, v1.4s, v1.4s
	fmul	v16.4s, v2.4s, v2.4s
	fmul	v19.4s, v3.4s, v3.4s
	fmul	v20.4s, v20.4s, v22.s[0]
	fmul	v21.4s, v21.4s, v22.s[0]
	ldp	q22, q23, [x20, #32]
	fmul	v0.4s, v0.4s, v4.4s
	fmul	v1.4s, v1.4s, v5.4s
	fmul	v4.4s, v4.4s, v4.4s
	fmul	v5.4s, v5.4s, v5.4s
	fmul	v2.4s, v2.4s, v16.4s
	fmul	v3.4s, v3.4s, v19.4s
	fmul	v16.4s, v16.4s, v16.4s
	fmul	v19.4s, v19.4s, v19.4s
	fmul	v0.4s, v6.4s, v0.4s
	fmul	v6.4s, v17.4s, v17.4s
	fmul	v1.4s, v7.4s, v1.4s
	fmul	v7.4s, v18.4s, v18.4s
	fmul	v4.4s, v4.4s, v24.s[0]
	fmul	v5.4s, v5.4s, v24.s[0]
	fmul	v2.4s, v22.4s, v2.4s
	fmul	v22.4s, v20.4s, v20.4s
	fmul	v3.4s, v23.4s, v3.4s
	fmul	v23.4s, v21.4s, v21.4s
	fmul	v16.4s, v16.4s, v24.s[0]
	fmul	v19.4s, v19.4s, v24.s[0]
	fmul	v17.4s, v17.4s, v6.4s
	fmul	v6.4s, v6.4s, v6.4s
	fmul	v18.4s, v18.4s, v7.4s
	fadd	v0.4s, v0.4s, v4.4s
	fadd	v1.4s, v1.4s, v5.4s
	ldp	q4, q5, [x20, #64]
	fmul	v7.4s, v7.4s, v7.4s
	fmul	v20.4s, v20.4s, v22.4s
	fmul	v22.4s, v22.4s, v22.4s
	fmul	v21.4s, v21.4s, v23.4s
	fmul	v23.4s, v23.4s, v23.4s
	fmul	v6.4s, v6.4s, v24.s[0]
	fadd	v2.4s, v2.4s, v16.4s
	fmul	v4.4s, v4.4s, v17.4s
	fmul	v5.4s, v5.4s, v18.4s
	fadd	v3.4s, v3.4s, v19.4s
	ldp	q17, q18, [x20, #96]
	fmul	v7.4s, v7.4s, v24.s[0]
	stp	q0, q1, [sp, #80]
	fmul	v19.4s, v23.4s, v24.s[0]
	fmul	v16.4s, v17.4s, v20.4s
	fmul	v17.4s, v22.4s, v24.s[0]
	fmul	v18.4s, v18.4s, v21.4s
	fadd	v4.4s, v4.4s, v6.4s
	fadd	v0.4s, v5.4s, v7.4s
	stp	q2, q3, [sp, #112]
	fadd	v1.4s, v16.4s, v17.4s
	fadd	v2.4s, v18.4s, v19.4s
	stp	q4, q0, [sp, #144]
	stp	q1, q2, [sp, #176]
	bl	loamchalice.filter.roots.fourth_roots
	ldp	q0, q1, [x21]
	ldr	q18, [sp, #16]
	ldp	q2, q3, [x19]
	ldp	q20, q19, [sp, #48]
	fmul	v0.4s, v0.4s, v18.s[0]
	fmul	v1.4s, v1.4s, v18.s[0]
	fmul	v2.4s, v2.4s, v20.s[0]
	fmul	v0.4s, v0.4s, v19.s[0]
	fmul	v1.4s, v1.4s, v19.s[0]
	fadd	v0.4s, v0.4s, v2.4s
	ldp	q2, q4, [x20]
	fdiv	v0.4s, v2.4s, v0.4s
	fmul	v2.4s, v3.4s, v20.s[0]
	fadd	v1.4s, v1.4s, v2.4s
	ldp	q2, q3, [x21, #32]
	fmul	v2.4s, v2.4s, v18.s[0]
	fmul	v3.4s, v3.4s, v18.s[0]
	fdiv	v1.4s, v4.4s, v1.4s
	ldp	q4, q5, [x19, #32]
	fmul	v2.4s, v2.4s, v19.s[0]
	fmul	v3.4s, v3.4s, v19.s[0]
	fmul	v4.4s, v4.4s, v20.s[0]
	fadd	v2.4s, v2.4s, v4.4s
	ldp	q4, q6, [x20, #32]
	fdiv	v2.4s, v4.4s, v2.4s
	fmul	v4.4s, v5.4s, v20.s[0]
	fadd	v3.4s, v3.4s, v4.4s
	ldp	q4, q5, [x21, #64]
	fmul	v4.4s, v4.4s, v18.s[0]
	fmul	v5.4s, v5.4s, v18.s[0]
	fdiv	v3.4s, v6.4s, v3.4s
	ldp	q6, q7, [x19, #64]
	fmul	v4.4s, v4.4s, v19.s[0]
	fmul	v5.4s, v5.4s, v19.s[0]
	fmul	v6.4s, v6.4s, v20.s[0]
	fadd	v4.4s, v4.4s, v6.4s
	ldp	q6, q16, [x20, #64]
	fdiv	v4.4s, v6.4s, v4.4s
	fmul	v6.4s, v7.4s, v20.s[0]
	fadd	v5.4s, v5.4s, v6.4s
	ldp	q6, q7, [x21, #96]
	fmul	v6.4s, v6.4s, v18.s[0]
	fmul	v7.4s, v7.4s, v18.s[0]
	fdiv	v5.4s, v16.4s, v5.4s
	ldp	q16, q17, [x19, #96]
	fmul	v6.4s, v6.4s, v19.s[0]
	fmul	v7.4s, v7.4s, v19.s[0]
	fmul	v16.4s, v16.4s, v20.s[0]
	fadd	v6.4s, v6.4s, v16.4s
	ldp	q16, q18, [x20, #96]
	fdiv	v6.4s, v16.4s, v6.4s
	fmul	v16.4s, v17.4s, v20.s[0]
	fadd	v7.4s, v7.4s, v16.4s
.Lfilter_BB1_3:
	fdiv	v7.4s, v18.4s, v7.4s
	ldr	q16, [sp, #32]
	add	x0, sp, #80
	mov	x1, x19
	dup	v16.4s, v16.s[0]
	fadd	v0.4s, v16.4s, v0.4s
	fadd	v1.4s, v16.4s, v1.4s
	fadd	v2.4s, v16.4s, v2.4s
	fadd	v3.4s, v16.4s, v3.4s
	fadd	v4.4s, v16.4s, v4.4s
	stp	q0, q1, [sp, #80]
	fadd	v0.4s, v16.4s, v5.4s
	fadd	v1.4s, v16.4s, v6.4s
	stp	q2, q3, [sp, #112]
	fadd	v2.4s, v16.4s, v7.4s
	stp	q4, q0, [sp, #144]
	stp	q1, q2, [sp, #176]
	bl	loamchalice.filter.pixels.degrees_block
	ldp	x20, x19, [sp, #240]
	ldr	x21, [sp, #224]
	ldp	x29, x30, [sp, #208]
	add	sp, sp, #256
	ret
.Lfilter_func_end1:
	.size	loamchalice.filter.pixels.temperature_block, .Lfilter_func_end1-loamchalice.filter.pixels.temperature_block

	.section	.rodata.cst8,"aM",@progbits,8
	.p2align	3, 0x0
.Lfilter_CPI2_0:
	.xword	0xbfd8d6dad5c5805a
.Lfilter_CPI2_1:
	.xword	0x3ff48987b38c9874
.Lfilter_CPI2_2:
	.xword	0xbf89e11a55579851
.Lfilter_CPI2_3:
	.xword	0x3fbbd11ca559a5b5
.Lfilter_CPI2_4:
	.xword	0xbfd9564a9a0cc3d0
.Lfilter_CPI2_5:
	.xword	0x3ff49e6fb879243c
.Lfilter_CPI2_6:
	.xword	0xbf8b3fdc3e64f496
.Lfilter_CPI2_7:
	.xword	0x3fbcd40c7b79c813
.Lfilter_CPI2_8:
	.xword	0xbfd9da666a8282c0
.Lfilter_CPI2_9:
	.xword	0x3ff4b3c3e0838e08
.Lfilter_CPI2_10:
	.xword	0xbf8cb74d9f20e3c5
.Lfilter_CPI2_11:
	.xword	0x3fbde4cf1160987f
.Lfilter_CPI2_12:
	.xword	0xbfda636eaa84aa24
.Lfilter_CPI2_13:
	.xword	0x3ff4c9882b15accb
.Lfilter_CPI2_14:
	.xword	0xbf8e499d1637aac6
.Lfilter_CPI2_15:
	.xword	0x3fbf045f9100c8fb
.Lfilter_CPI2_16:
	.xword	0xbfdaf1a85969655f
.Lfilter_CPI2_17:
	.xword	0x3ff4dfc0cf2a5dce
.Lfilter_CPI2_18:
	.xword	0xbf8ff9350c84276a
.Lfilter_CPI2_19:
	.xword	0x3fc019e7c4a5cc82
.Lfilter_CPI2_20:
	.xword	0xbfdb855d7ca13de0
.Lfilter_CPI2_21:
	.xword	0x3ff4f6723f50bfea
.Lfilter_CPI2_22:
	.xword	0xbf90e461a137b60f
.Lfilter_CPI2_23:
	.xword	0x3fc0ba24ac9d711a
.Lfilter_CPI2_24:
	.xword	0xbfdc1edd9569549c
.Lfilter_CPI2_25:
	.xword	0x3ff50da12e0ca82a
.Lfilter_CPI2_26:
	.xword	0xbf91dda0bc0f98f5
.Lfilter_CPI2_27:
	.xword	0x3fc1638974e0b1d2
.Lfilter_CPI2_28:
	.xword	0xbfdcbe7e238a7215
.Lfilter_CPI2_29:
	.xword	0x3ff52552929e8fbf
.Lfilter_CPI2_30:
	.xword	0xbf92e9ffafd562c7
.Lfilter_CPI2_31:
	.xword	0x3fc216c861238d76
.Lfilter_CPI2_32:
	.xword	0xbfdd649b36da6586
.Lfilter_CPI2_33:
	.xword	0x3ff53d8bae3e8fed
.Lfilter_CPI2_34:
	.xword	0xbf940b5708b9b0fb
.Lfilter_CPI2_35:
	.xword	0x3fc2d4a4c2a70153
.Lfilter_CPI2_36:
	.xword	0xbfde119811778ee7
.Lfilter_CPI2_37:
	.xword	0x3ff5565211d78886
.Lfilter_CPI2_38:
	.xword	0xbf9543b6a2c0f3d1
.Lfilter_CPI2_39:
	.xword	0x3fc39df4f298d76f
.Lfilter_CPI2_40:
	.xword	0xbfdec5dfdd045494
.Lfilter_CPI2_41:
	.xword	0x3ff56faba4515177
.Lfilter_CPI2_42:
	.xword	0xbf96956d50f05671
.Lfilter_CPI2_43:
	.xword	0x3fc473a491df2605
.Lfilter_CPI2_44:
	.xword	0xbfdf81e67583ece0
.Lfilter_CPI2_45:
	.xword	0x3ff5899ea97ae286
.Lfilter_CPI2_46:
	.xword	0xbf980311beecdf50
.Lfilter_CPI2_47:
	.xword	0x3fc556b719595084
.Lfilter_CPI2_48:
	.xword	0xbfe02314a673068e
.Lfilter_CPI2_49:
	.xword	0x3ff5a431c9a7ba2d
.Lfilter_CPI2_50:
	.xword	0xbf998f8cc6c133d0
.Lfilter_CPI2_51:
	.xword	0x3fc6484ac7a206de
.Lfilter_CPI2_52:
	.xword	0xbfe0899835678b25
.Lfilter_CPI2_53:
	.xword	0x3ff5bf6c1a168c70
.Lfilter_CPI2_54:
	.xword	0xbf9b3e25807701df
.Lfilter_CPI2_55:
	.xword	0x3fc7499bfbc8f77c
.Lfilter_CPI2_56:
	.xword	0xbfe0f4c7c6612df5
.Lfilter_CPI2_57:
	.xword	0x3ff5db55263a7735
.Lfilter_CPI2_58:
	.xword	0xbf9d128f5ff1d144
.Lfilter_CPI2_59:
	.xword	0x3fc85c090f67f3a1
.Lfilter_CPI2_60:
	.xword	0xbfe164f3b5c49c7a
.Lfilter_CPI2_61:
	.xword	0x3ff5f7f4fa03b8fd
.Lfilter_CPI2_62:
	.xword	0xbf9f10fac7b9e0fd
.Lfilter_CPI2_63:
	.xword	0x3fc98116c604a5ac
.Lfilter_CPI2_64:
	.xword	0xbfe1da7395c50e4c
.Lfilter_CPI2_65:
	.xword	0x3ff615542d494b58
.Lfilter_CPI2_66:
	.xword	0xbfa09f1447099ec3
.Lfilter_CPI2_67:
	.xword	0x3fcaba756c0423f4
.Lfilter_CPI2_68:
	.xword	0xbfe255a6ff632f04
.Lfilter_CPI2_69:
	.xword	0x3ff6337bf079ed95
.Lfilter_CPI2_70:
	.xword	0xbfa1cfc087047581
.Lfilter_CPI2_71:
	.xword	0x3fcc0a06c4c15e4e
.Lfilter_CPI2_72:
	.xword	0xbfe2d6f680371f14
.Lfilter_CPI2_73:
	.xword	0x3ff652761ac144d6
.Lfilter_CPI2_74:
	.xword	0xbfa31d97c0c539a3
.Lfilter_CPI2_75:
	.xword	0x3fcd71e4edd8a92e
.Lfilter_CPI2_76:
	.xword	0xbfe35ed4a9ba21f2
.Lfilter_CPI2_77:
	.xword	0x3ff6724d39d4ef3d
.Lfilter_CPI2_78:
	.xword	0xbfa48c214730858e
.Lfilter_CPI2_79:
	.xword	0x3fcef46a65c0d8ac
.Lfilter_CPI2_80:
	.xword	0xbfe3edbf47a9bdea
.Lfilter_CPI2_81:
	.xword	0x3ff6930ca3a5fbdb
.Lfilter_CPI2_82:
	.xword	0xbfa61f699420162c
.Lfilter_CPI2_83:
	.xword	0x3fd04a1db6ddbdce
.Lfilter_CPI2_84:
	.xword	0xbfe48440c4354b61
.Lfilter_CPI2_85:
	.xword	0x3ff6b4c08a3d7463
.Lfilter_CPI2_86:
	.xword	0xbfa7dc1999064aaa
.Lfilter_CPI2_87:
	.xword	0x3fd12a2885c2d55c
.Lfilter_CPI2_88:
	.xword	0xbfe522f1c1fc9caa
.Lfilter_CPI2_89:
	.xword	0x3ff6d7761216e589
.Lfilter_CPI2_90:
	.xword	0xbfa9c792d22551ea
.Lfilter_CPI2_91:
	.xword	0x3fd21c02ff5670aa
.Lfilter_CPI2_92:
	.xword	0xbfe5ca7af58a6166
.Lfilter_CPI2_93:
	.xword	0x3ff6fb3b6b5a8c6c
.Lfilter_CPI2_94:
	.xword	0xbfabe8113a584e1d
.Lfilter_CPI2_95:
	.xword	0x3fd32193086fb443
.Lfilter_CPI2_96:
	.xword	0xbfe67b9749fb94b2
.Lfilter_CPI2_97:
	.xword	0x3ff7201fee6a962f
.Lfilter_CPI2_98:
	.xword	0xbfae44d489bade19
.Lfilter_CPI2_99:
	.xword	0x3fd43d0020924148
.Lfilter_CPI2_100:
	.xword	0xbfe737165f09042f
.Lfilter_CPI2_101:
	.xword	0x3ff746343c4c6c38
.Lfilter_CPI2_102:
	.xword	0xbfb07329465d1743
.Lfilter_CPI2_103:
	.xword	0x3fd570be3491b6b7
.Lfilter_CPI2_104:
	.xword	0xbfe7fddf71cb1ffa
.Lfilter_CPI2_105:
	.xword	0x3ff76d8a639148f5
.Lfilter_CPI2_106:
	.xword	0xbfb1eb3a718070d4
.Lfilter_CPI2_107:
	.xword	0x3fd6bf9a91c44d0c
.Lfilter_CPI2_108:
	.xword	0xbfe8d0f4c57fb846
.Lfilter_CPI2_109:
	.xword	0x3ff796360a817401
.Lfilter_CPI2_110:
	.xword	0xbfb39072906b220e
.Lfilter_CPI2_111:
	.xword	0x3fd82ccb76f32def
.Lfilter_CPI2_112:
	.xword	0xbfe9b177a6904feb
.Lfilter_CPI2_113:
	.xword	0x3ff7c04c9f750ec5
.Lfilter_CPI2_114:
	.xword	0xbfb569b5984f8e41
.Lfilter_CPI2_115:
	.xword	0x3fd9bc02e1674462
.Lfilter_CPI2_116:
	.xword	0xbfeaa0ad2864dd46
.Lfilter_CPI2_117:
	.xword	0x3ff7ebe590764371
.Lfilter_CPI2_118:
	.xword	0xbfb77f3180d8ed5f
.Lfilter_CPI2_119:
	.xword	0x3fdb71855faad984
.Lfilter_CPI2_120:
	.xword	0xbfeba003c69b59ab
.Lfilter_CPI2_121:
	.xword	0x3ff8191a8b857f7c
.Lfilter_CPI2_122:
	.xword	0xbfb9daa8153fb04b
.Lfilter_CPI2_123:
	.xword	0x3fdd5245ec4a3182
.Lfilter_CPI2_124:
	.xword	0xbfecb11a1c961214
.Lfilter_CPI2_125:
	.xword	0x3ff84807c924869d
.Lfilter_CPI2_126:
	.xword	0xbfbc87cc279b3083
.Lfilter_CPI2_127:
	.xword	0x3fdf64081dc7d151
	.section	.text.filter.roots.fourth_roots,"ax",@progbits
	.p2align	2
	.type	loamchalice.filter.roots.fourth_roots,@function
loamchalice.filter.roots.fourth_roots:
	str	d10, [sp, #-96]!
	stp	d9, d8, [sp, #16]
	stp	x30, x25, [sp, #32]
	stp	x24, x23, [sp, #48]
	stp	x22, x21, [sp, #64]
	stp	x20, x19, [sp, #80]
	sub	sp, sp, #512
	ldp	s0, s1, [x0]
	mov	w9, #2143289344
	mov	x8, xzr
	fmov	s2, s0
	fmov	w10, s0
	fmov	s0, s1
	fmov	w11, s1
	fcmp	s2, s2
	csel	w10, w9, w10, vs
	fcmp	s0, s0
	ldp	s2, s0, [x0, #8]
	str	w10, [sp, #256]
	csel	w11, w9, w11, vs
	fmov	s1, s2
	fmov	w12, s2
	fmov	w13, s0
	str	w11, [sp, #260]
	fcmp	s1, s1
	fmov	s1, s0
	ldp	s2, s0, [x0, #16]
	csel	w12, w9, w12, vs
	fmov	w14, s2
	fmov	w15, s0
	str	w12, [sp, #264]
	fcmp	s1, s1
	fmov	s1, s2
	csel	w13, w9, w13, vs
	str	w13, [sp, #268]
	fcmp	s1, s1
	fmov	s1, s0
	ldp	s2, s0, [x0, #24]
	csel	w14, w9, w14, vs
	fmov	w16, s2
	fmov	w17, s0
	str	w14, [sp, #272]
	fcmp	s1, s1
	fmov	s1, s2
	csel	w15, w9, w15, vs
	str	w15, [sp, #276]
	fcmp	s1, s1
	fmov	s1, s0
	ldp	s2, s0, [x0, #32]
	csel	w16, w9, w16, vs
	fmov	w18, s2
	fmov	w2, s0
	str	w16, [sp, #280]
	fcmp	s1, s1
	fmov	s1, s2
	csel	w17, w9, w17, vs
	str	w17, [sp, #284]
	fcmp	s1, s1
	ldp	q4, q6, [sp, #256]
	fmov	s1, s0
	ldp	s2, s0, [x0, #40]
	csel	w18, w9, w18, vs
	fmov	w3, s2
	fmov	w4, s0
	str	w18, [sp, #288]
	fcmp	s1, s1
	fmov	s1, s2
	csel	w2, w9, w2, vs
	str	w2, [sp, #292]
	fcmp	s1, s1
	fmov	s1, s0
	ldp	s2, s0, [x0, #48]
	csel	w3, w9, w3, vs
	fmov	w5, s2
	fmov	w6, s0
	str	w3, [sp, #296]
	fcmp	s1, s1
	fmov	s1, s2
	csel	w4, w9, w4, vs
	str	w4, [sp, #300]
	fcmp	s1, s1
	fmov	s1, s0
	ldp	s2, s0, [x0, #56]
	csel	w5, w9, w5, vs
	fmov	w7, s2
	fmov	w19, s0
	str	w5, [sp, #304]
	fcmp	s1, s1
	fmov	s1, s2
	csel	w6, w9, w6, vs
	str	w6, [sp, #308]
	fcmp	s1, s1
	fmov	s1, s0
	ldp	s2, s0, [x0, #64]
	csel	w7, w9, w7, vs
	fmov	w20, s2
	fmov	w21, s0
	str	w7, [sp, #312]
	fcmp	s1, s1
	fmov	s1, s2
	csel	w19, w9, w19, vs
	str	w19, [sp, #316]
	fcmp	s1, s1
	fmov	s1, s0
	ldp	s2, s0, [x0, #72]
	csel	w20, w9, w20, vs
	fmov	w22, s2
	fmov	w23, s0
	str	w20, [sp, #320]
	fcmp	s1, s1
	fmov	s1, s2
	csel	w21, w9, w21, vs
	str	w21, [sp, #324]
	fcmp	s1, s1
	fmov	s1, s0
	ldp	s2, s0, [x0, #80]
	csel	w22, w9, w22, vs
	fmov	w24, s2
	fmov	w25, s0
	str	w22, [sp, #328]
	fcmp	s1, s1
	fmov	s1, s2
	fmov	s2, s0
	csel	w23, w9, w23, vs
	str	w23, [sp, #332]
	fcmp	s1, s1
	csel	w24, w9, w24, vs
	fcmp	s2, s2
	ldp	s1, s2, [x0, #88]
	str	w24, [sp, #336]
	csel	w25, w9, w25, vs
	fmov	s3, s1
	fmov	w10, s1
	fmov	s1, s2
	str	w25, [sp, #340]
	fcmp	s3, s3
	csel	w11, w9, w10, vs
	fcmp	s1, s1
	fmov	w10, s2
	ldp	s0, s1, [x0, #96]
	str	w11, [sp, #344]
	csel	w13, w9, w10, vs
	fmov	s3, s0
	fmov	s2, s1
	fmov	w10, s0
	str	w13, [sp, #348]
	fcmp	s3, s3
	csel	w14, w9, w10, vs
	fcmp	s2, s2
	fmov	w10, s1
	ldp	s0, s2, [x0, #104]
	str	w14, [sp, #352]
	csel	w10, w9, w10, vs
	fmov	s3, s0
	fmov	s1, s2
	fmov	w12, s0
	fmov	w15, s2
	str	w10, [sp, #356]
	fcmp	s3, s3
	ldp	s0, s3, [x0, #112]
	csel	w12, w9, w12, vs
	fcmp	s1, s1
	fmov	s1, s0
	fmov	w16, s0
	fmov	s0, s3
	str	w12, [sp, #360]
	csel	w15, w9, w15, vs
	str	w15, [sp, #364]
	fcmp	s1, s1
	movi	v1.4s, #128, lsl #16
	csel	w11, w9, w16, vs
	fmov	w16, s3
	fcmp	s0, s0
	ldp	s2, s3, [x0, #120]
	str	w11, [sp, #368]
	add	v4.4s, v4.4s, v1.4s
	csel	w13, w9, w16, vs
	fmov	s0, s2
	fmov	s5, s3
	fmov	w10, s2
	fmov	w12, s3
	bic	v4.4s, #254, lsl #24
	str	w13, [sp, #372]
	add	v2.4s, v6.4s, v1.4s
	fcmp	s0, s0
	fmov	v0.4s, #1.00000000
	bic	v2.4s, #254, lsl #24
	csel	w10, w9, w10, vs
	fcmp	s5, s5
	ldp	q3, q5, [sp, #288]
	str	w10, [sp, #376]
	add	v16.4s, v4.4s, v0.4s
	add	v19.4s, v2.4s, v0.4s
	csel	w9, w9, w12, vs
	add	v3.4s, v3.4s, v1.4s
	add	v4.4s, v5.4s, v1.4s
	str	w9, [sp, #380]
	ldp	q6, q5, [sp, #320]
	mov	w9, #6144
	ldp	q7, q17, [sp, #352]
	movk	w9, #20312, lsl #16
	bic	v3.4s, #254, lsl #24
	bic	v4.4s, #254, lsl #24
	ushr	v18.4s, v16.4s, #2
	add	v5.4s, v5.4s, v1.4s
	add	v6.4s, v6.4s, v1.4s
	dup	v20.4s, w9
	add	v7.4s, v7.4s, v1.4s
	add	v1.4s, v17.4s, v1.4s
	mov	w9, #54910
	add	v17.4s, v3.4s, v0.4s
	add	v21.4s, v4.4s, v0.4s
	ushr	v3.4s, v19.4s, #2
	bic	v5.4s, #254, lsl #24
	bic	v6.4s, #254, lsl #24
	sub	v2.4s, v20.4s, v18.4s
	bic	v7.4s, #254, lsl #24
	bic	v1.4s, #254, lsl #24
	movk	w9, #15813, lsl #16
	ushr	v4.4s, v17.4s, #2
	sub	v3.4s, v20.4s, v3.4s
	add	v23.4s, v5.4s, v0.4s
	ushr	v5.4s, v21.4s, #2
	add	v22.4s, v6.4s, v0.4s
	add	v18.4s, v7.4s, v0.4s
	add	v24.4s, v1.4s, v0.4s
	fmul	v25.4s, v2.4s, v2.4s
	sub	v4.4s, v20.4s, v4.4s
	fmul	v27.4s, v3.4s, v3.4s
	sub	v1.4s, v20.4s, v5.4s
	ushr	v6.4s, v22.4s, #2
	ushr	v7.4s, v23.4s, #2
	ushr	v26.4s, v18.4s, #2
	ushr	v28.4s, v24.4s, #2
	fmul	v29.4s, v4.4s, v4.4s
	fmul	v30.4s, v1.4s, v1.4s
	sub	v5.4s, v20.4s, v6.4s
	sub	v6.4s, v20.4s, v7.4s
	sub	v7.4s, v20.4s, v26.4s
	fmul	v26.4s, v25.4s, v16.4s
	sub	v16.4s, v20.4s, v28.4s
	fmul	v19.4s, v27.4s, v19.4s
	fmul	v31.4s, v5.4s, v5.4s
	fmul	v28.4s, v6.4s, v6.4s
	fmul	v17.4s, v29.4s, v17.4s
	fmul	v8.4s, v7.4s, v7.4s
	fmul	v20.4s, v30.4s, v21.4s
	fmul	v9.4s, v16.4s, v16.4s
	fmul	v21.4s, v25.4s, v26.4s
	fmul	v19.4s, v27.4s, v19.4s
	dup	v27.4s, w9
	mov	w9, #12968
	fmul	v22.4s, v31.4s, v22.4s
	fmul	v23.4s, v28.4s, v23.4s
	fmul	v17.4s, v29.4s, v17.4s
	fmul	v18.4s, v8.4s, v18.4s
	fmul	v25.4s, v30.4s, v20.4s
	fmul	v26.4s, v9.4s, v24.4s
	fsub	v20.4s, v0.4s, v21.4s
	movk	w9, #15859, lsl #16
	fsub	v24.4s, v0.4s, v19.4s
	fmul	v22.4s, v31.4s, v22.4s
	fmul	v19.4s, v28.4s, v23.4s
	fsub	v21.4s, v0.4s, v17.4s
	fmul	v17.4s, v8.4s, v18.4s
	fsub	v18.4s, v0.4s, v25.4s
	fmul	v25.4s, v9.4s, v26.4s
	fmul	v26.4s, v20.4s, v27.4s
	dup	v28.4s, w9
	mov	w9, #65171
	fmul	v29.4s, v24.4s, v27.4s
	movk	w9, #15903, lsl #16
	fsub	v22.4s, v0.4s, v22.4s
	fsub	v23.4s, v0.4s, v19.4s
	fmul	v30.4s, v21.4s, v27.4s
	fsub	v19.4s, v0.4s, v17.4s
	fmul	v31.4s, v18.4s, v27.4s
	fsub	v17.4s, v0.4s, v25.4s
	fadd	v25.4s, v26.4s, v28.4s
	dup	v10.4s, w9
	mov	w9, #65135
	fadd	v29.4s, v29.4s, v28.4s
	movk	w9, #15999, lsl #16
	movi	v0.2d, #0000000000000000
	fmul	v26.4s, v22.4s, v27.4s
	fmul	v8.4s, v23.4s, v27.4s
	fadd	v30.4s, v30.4s, v28.4s
	fmul	v9.4s, v19.4s, v27.4s
	fadd	v31.4s, v31.4s, v28.4s
	fmul	v27.4s, v17.4s, v27.4s
	fmul	v25.4s, v20.4s, v25.4s
	fmul	v29.4s, v24.4s, v29.4s
	stp	q0, q0, [sp]
	fadd	v26.4s, v26.4s, v28.4s
	fadd	v8.4s, v8.4s, v28.4s
	fmul	v30.4s, v21.4s, v30.4s
	fadd	v9.4s, v9.4s, v28.4s
	fmul	v31.4s, v18.4s, v31.4s
	fadd	v27.4s, v27.4s, v28.4s
	fadd	v25.4s, v25.4s, v10.4s
	stp	q0, q0, [sp, #32]
	fadd	v28.4s, v29.4s, v10.4s
	stp	q0, q0, [sp, #64]
	fmul	v26.4s, v22.4s, v26.4s
	fmul	v29.4s, v23.4s, v8.4s
	fadd	v30.4s, v30.4s, v10.4s
	fmul	v8.4s, v19.4s, v9.4s
	fadd	v31.4s, v31.4s, v10.4s
	fmul	v27.4s, v17.4s, v27.4s
	fmul	v25.4s, v20.4s, v25.4s
	dup	v9.4s, w9
	stp	q0, q0, [sp, #96]
	fmul	v28.4s, v24.4s, v28.4s
	stp	q0, q0, [sp, #128]
	fadd	v26.4s, v26.4s, v10.4s
	fadd	v29.4s, v29.4s, v10.4s
	fmul	v30.4s, v21.4s, v30.4s
	fadd	v8.4s, v8.4s, v10.4s
	fadd	v27.4s, v27.4s, v10.4s
	fmul	v31.4s, v18.4s, v31.4s
	fadd	v25.4s, v25.4s, v9.4s
	stp	q0, q0, [sp, #160]
	fadd	v28.4s, v28.4s, v9.4s
	stp	q0, q0, [sp, #192]
	fmul	v26.4s, v22.4s, v26.4s
	fmul	v29.4s, v23.4s, v29.4s
	fadd	v30.4s, v30.4s, v9.4s
	fmul	v8.4s, v19.4s, v8.4s
	fadd	v31.4s, v31.4s, v9.4s
	fmul	v27.4s, v17.4s, v27.4s
	fmul	v20.4s, v20.4s, v25.4s
	stp	q0, q0, [sp, #224]
	fmul	v24.4s, v24.4s, v28.4s
	stp	q0, q0, [sp, #384]
	fadd	v25.4s, v26.4s, v9.4s
	fadd	v26.4s, v29.4s, v9.4s
	fmul	v21.4s, v21.4s, v30.4s
	fadd	v28.4s, v8.4s, v9.4s
	fmul	v18.4s, v18.4s, v31.4s
	fadd	v27.4s, v27.4s, v9.4s
	fmul	v20.4s, v20.4s, v2.4s
	stp	q0, q0, [sp, #416]
	fmul	v24.4s, v24.4s, v3.4s
	stp	q0, q0, [sp, #448]
	fmul	v22.4s, v22.4s, v25.4s
	fmul	v23.4s, v23.4s, v26.4s
	fmul	v21.4s, v21.4s, v4.4s
	fmul	v19.4s, v19.4s, v28.4s
	fmul	v17.4s, v17.4s, v27.4s
	fmul	v18.4s, v18.4s, v1.4s
	stp	q0, q0, [sp, #480]
	fadd	v2.4s, v20.4s, v2.4s
	fadd	v3.4s, v24.4s, v3.4s
	fmul	v20.4s, v22.4s, v5.4s
	fmul	v22.4s, v23.4s, v6.4s
	fadd	v4.4s, v21.4s, v4.4s
	fmul	v19.4s, v19.4s, v7.4s
	fadd	v0.4s, v18.4s, v1.4s
	fmul	v1.4s, v17.4s, v16.4s
	stp	q2, q3, [sp, #384]
	fadd	v5.4s, v20.4s, v5.4s
	fadd	v2.4s, v22.4s, v6.4s
	fadd	v3.4s, v19.4s, v7.4s
	stp	q4, q0, [sp, #416]
	fadd	v4.4s, v1.4s, v16.4s
	fmov	s0, #1.00000000
	fmov	s1, #1.00000000
	stp	q5, q2, [sp, #448]
	stp	q3, q4, [sp, #480]
.Lfilter_BB2_1:
	add	x9, sp, #256
	add	x10, sp, #384
	ldr	w9, [x9, x8]
	ldr	s2, [x10, x8]
	mov	w10, #1065353216
	add	w9, w9, #2048, lsl #12
	fmul	s2, s2, s2
	and	w9, w9, #0x1ffffff
	add	w9, w9, w10
	fmov	s3, w9
	mov	w9, #2048
	movk	w9, #17792, lsl #16
	fmov	s5, w9
	fmul	s4, s2, s3
	fmul	s5, s4, s5
	fsub	s6, s4, s5
	fadd	s5, s5, s6
	fmul	s6, s5, s5
	fadd	s7, s4, s5
	fsub	s5, s4, s5
	fsub	s3, s3, s6
	fmul	s5, s7, s5
	fmov	s6, #0.50000000
	fmul	s2, s2, s6
	fsub	s3, s3, s5
	fmul	s2, s2, s3
	fadd	s2, s4, s2
	fmov	s3, s2
	fcmp	s0, s3
	cset	w9, mi
	//APP
	//NO_APP
	cmp	w9, #0
	fcsel	s2, s2, s1, ne
	add	x9, sp, #128
	str	s2, [x1, x8]
	str	s2, [x9, x8]
	add	x8, x8, #4
	cmp	x8, #128
	b.ne	.Lfilter_BB2_1
	mov	x8, xzr
.Lfilter_BB2_3:
	add	x9, sp, #384
	ldr	s1, [x1, x8]
	mov	x11, sp
	ldr	s2, [x9, x8]
	mov	w9, #2048
	movk	w9, #17792, lsl #16
	fmul	s3, s1, s2
	fmov	s4, w9
	fmul	s4, s3, s4
	fsub	s5, s4, s3
	fsub	s4, s4, s5
	fmul	s5, s4, s4
	fadd	s6, s3, s4
	fsub	s4, s3, s4
	fsub	s1, s1, s5
	fmul	s4, s6, s4
	fmov	s5, #0.50000000
	fmul	s2, s2, s5
	fsub	s1, s1, s4
	fmul	s1, s2, s1
	fadd	s1, s3, s1
	fmov	s2, s1
	fcmp	s0, s2
	fmov	s2, #1.00000000
	cset	w9, mi
	//APP
	//NO_APP
	cmp	w9, #0
	fcsel	s1, s1, s2, ne
	str	s1, [x11, x8]
	add	x8, x8, #4
	cmp	x8, #128
	b.ne	.Lfilter_BB2_3
	movi	v0.2d, #0000000000000000
	movi	v1.2d, #0000000000000000
	add	x8, sp, #256
	add	x10, sp, #128
	add	x8, x8, #16
	add	x9, x1, #16
	add	x10, x10, #16
	add	x11, x11, #16
	mov	w12, #32
.Lfilter_BB2_5:
	movi	v19.4s, #127, msl #16
	fmov	v2.4s, #0.25000000
	mov	w13, #528482304
	ldp	q3, q7, [x10, #-16]
	movi	v18.4s, #128, lsl #16
	ldp	q4, q5, [x8, #-16]
	mvni	v8.4s, #128, lsl #16
	subs	x12, x12, #8
	add	x8, x8, #32
	add	x10, x10, #32
	and	v17.16b, v3.16b, v19.16b
	ldp	q3, q20, [x11, #-16]
	add	v6.4s, v4.4s, v2.4s
	and	v16.16b, v7.16b, v19.16b
	add	v7.4s, v5.4s, v2.4s
	add	x11, x11, #32
	orr	v17.4s, #128, lsl #16
	and	v3.16b, v3.16b, v19.16b
	and	v2.16b, v20.16b, v19.16b
	and	v20.16b, v4.16b, v19.16b
	and	v21.16b, v6.16b, v18.16b
	orr	v16.4s, #128, lsl #16
	ushr	v22.4s, v6.4s, #1
	and	v19.16b, v5.16b, v19.16b
	and	v23.16b, v7.16b, v18.16b
	ushr	v26.4s, v7.4s, #1
	umull	v24.2d, v17.2s, v17.2s
	umull2	v25.2d, v17.4s, v17.4s
	orr	v3.4s, #128, lsl #16
	orr	v20.4s, #128, lsl #16
	add	v21.4s, v21.4s, v18.4s
	orr	v2.4s, #128, lsl #16
	and	v22.16b, v22.16b, v18.16b
	umull	v27.2d, v16.2s, v16.2s
	umull2	v28.2d, v16.4s, v16.4s
	orr	v19.4s, #128, lsl #16
	add	v23.4s, v23.4s, v18.4s
	and	v26.16b, v26.16b, v18.16b
	umlsl2	v25.2d, v21.4s, v20.4s
	umlsl	v24.2d, v21.2s, v20.2s
	add	v20.4s, v22.4s, v18.4s
	umull	v21.2d, v3.2s, v3.2s
	umull2	v22.2d, v3.4s, v3.4s
	umull	v29.2d, v2.2s, v2.2s
	umull2	v30.2d, v2.4s, v2.4s
	umlsl	v27.2d, v23.2s, v19.2s
	add	v18.4s, v26.4s, v18.4s
	umlsl2	v28.2d, v23.4s, v19.4s
	ushr	v6.4s, v6.4s, #2
	uaddw	v19.2d, v24.2d, v17.2s
	mvn	v23.16b, v25.16b
	mvn	v24.16b, v24.16b
	umlsl2	v22.2d, v20.4s, v17.4s
	umlsl	v21.2d, v20.2s, v17.2s
	ushr	v7.4s, v7.4s, #2
	umlsl2	v30.2d, v18.4s, v16.4s
	umlsl	v29.2d, v18.2s, v16.2s
	mvn	v20.16b, v27.16b
	mvn	v26.16b, v28.16b
	uaddw2	v18.2d, v25.2d, v17.4s
	uaddw	v25.2d, v27.2d, v16.2s
	uaddw2	v27.2d, v28.2d, v16.4s
	uaddw	v24.2d, v24.2d, v17.2s
	uaddw2	v17.2d, v23.2d, v17.4s
	uaddw	v20.2d, v20.2d, v16.2s
	mvn	v23.16b, v21.16b
	mvn	v28.16b, v22.16b
	uaddw2	v16.2d, v26.2d, v16.4s
	mvn	v26.16b, v29.16b
	mvn	v31.16b, v30.16b
	uaddw	v21.2d, v21.2d, v3.2s
	uaddw2	v22.2d, v22.2d, v3.4s
	uaddw	v29.2d, v29.2d, v2.2s
	uaddw2	v30.2d, v30.2d, v2.4s
	uaddw2	v28.2d, v28.2d, v3.4s
	uaddw	v23.2d, v23.2d, v3.2s
	uaddw2	v31.2d, v31.2d, v2.4s
	uaddw	v26.2d, v26.2d, v2.2s
	orr	v17.16b, v18.16b, v17.16b
	orr	v18.16b, v19.16b, v24.16b
	orr	v16.16b, v27.16b, v16.16b
	orr	v19.16b, v25.16b, v20.16b
	orr	v20.16b, v28.16b, v22.16b
	orr	v21.16b, v23.16b, v21.16b
	fneg	v24.4s, v8.4s
	orr	v22.16b, v31.16b, v30.16b
	orr	v23.16b, v26.16b, v29.16b
	mvni	v25.4s, #127, msl #16
	orr	v17.16b, v17.16b, v20.16b
	orr	v18.16b, v18.16b, v21.16b
	fmov	v20.4s, #1.00000000
	orr	v16.16b, v16.16b, v22.16b
	orr	v19.16b, v19.16b, v23.16b
	add	v21.4s, v4.4s, v25.4s
	sub	v4.4s, v24.4s, v4.4s
	add	v22.4s, v5.4s, v25.4s
	sub	v5.4s, v24.4s, v5.4s
	uzp2	v17.4s, v18.4s, v17.4s
	uzp2	v16.4s, v19.4s, v16.4s
	and	v6.16b, v6.16b, v20.16b
	and	v7.16b, v7.16b, v20.16b
	orr	v4.16b, v21.16b, v4.16b
	orr	v5.16b, v22.16b, v5.16b
	add	v3.4s, v6.4s, v3.4s
	dup	v6.4s, w13
	add	v2.4s, v7.4s, v2.4s
	orr	v4.16b, v4.16b, v17.16b
	orr	v5.16b, v5.16b, v16.16b
	add	v3.4s, v3.4s, v6.4s
	add	v2.4s, v2.4s, v6.4s
	cmge	v7.4s, v4.4s, #0
	cmge	v6.4s, v5.4s, #0
	usra	v0.4s, v4.4s, #31
	usra	v1.4s, v5.4s, #31
	and	v3.16b, v7.16b, v3.16b
	and	v2.16b, v6.16b, v2.16b
	stp	q3, q2, [x9, #-16]
	add	x9, x9, #32
	b.ne	.Lfilter_BB2_5
	add	v0.4s, v1.4s, v0.4s
	addv	s0, v0.4s
	fmov	w8, s0
	cbz	w8, .Lfilter_BB2_67
	movi	d0, #0000000000000000
	mov	x8, xzr
	b	.Lfilter_BB2_11
.Lfilter_BB2_8:
	movi	d1, #0000000000000000
.Lfilter_BB2_9:
	str	s1, [x1, x8, lsl #2]
.Lfilter_BB2_10:
	add	x8, x8, #1
	cmp	x8, #32
	b.eq	.Lfilter_BB2_67
.Lfilter_BB2_11:
	ldr	s1, [x1, x8, lsl #2]
	fcmp	s1, s0
	b.ne	.Lfilter_BB2_10
	ldr	s1, [x0, x8, lsl #2]
	fmov	s2, s1
	fcmp	s2, s2
	b.vs	.Lfilter_BB2_65
	fmov	w9, s1
	ands	w10, w9, #0x7fffffff
	b.eq	.Lfilter_BB2_8
	lsr	w11, w9, #23
	cmp	w11, #254
	b.hi	.Lfilter_BB2_17
	cbnz	w11, .Lfilter_BB2_18
	clz	w10, w9
	sub	w11, w10, #8
	lsl	w9, w9, w11
	sub	w9, w9, w10, lsl #23
	mov	w10, #1115684864
	b	.Lfilter_BB2_19
.Lfilter_BB2_17:
	mov	w9, #2139095040
	mov	w11, #2143289344
	fmov	s1, w11
	fmov	s2, w9
	cmp	w10, w9
	fcsel	s1, s2, s1, eq
	b	.Lfilter_BB2_9
.Lfilter_BB2_18:
	mov	w10, #1048576000
.Lfilter_BB2_19:
	add	w9, w9, w10
	ubfiz	x10, x9, #29, #32
	orr	x11, x10, #0x3ff0000000000000
	ubfx	w10, w9, #18, #5
	fmov	d1, x11
	adrp	x11, .Lfilter_JTI2_0
	add	x11, x11, :lo12:.Lfilter_JTI2_0
.Lfilter_tmp0:
	adr	x12, .Lfilter_tmp0
	ldrsw	x13, [x11, x10, lsl #2]
	add	x12, x12, x13
	br	x12
.Lfilter_BB2_20:
	adrp	x10, .Lfilter_CPI2_124
	adrp	x11, .Lfilter_CPI2_127
	ldr	d2, [x10, :lo12:.Lfilter_CPI2_124]
	adrp	x10, .Lfilter_CPI2_125
	ldr	d4, [x11, :lo12:.Lfilter_CPI2_127]
	ldr	d3, [x10, :lo12:.Lfilter_CPI2_125]
	adrp	x10, .Lfilter_CPI2_126
	fmul	d2, d1, d2
	fadd	d2, d2, d3
	ldr	d3, [x10, :lo12:.Lfilter_CPI2_126]
	b	.Lfilter_BB2_52
.Lfilter_BB2_21:
	adrp	x10, .Lfilter_CPI2_16
	adrp	x11, .Lfilter_CPI2_19
	ldr	d2, [x10, :lo12:.Lfilter_CPI2_16]
	adrp	x10, .Lfilter_CPI2_17
	ldr	d4, [x11, :lo12:.Lfilter_CPI2_19]
	ldr	d3, [x10, :lo12:.Lfilter_CPI2_17]
	adrp	x10, .Lfilter_CPI2_18
	fmul	d2, d1, d2
	fadd	d2, d2, d3
	ldr	d3, [x10, :lo12:.Lfilter_CPI2_18]
	b	.Lfilter_BB2_52
.Lfilter_BB2_22:
	adrp	x10, .Lfilter_CPI2_60
	adrp	x11, .Lfilter_CPI2_63
	ldr	d2, [x10, :lo12:.Lfilter_CPI2_60]
	adrp	x10, .Lfilter_CPI2_61
	ldr	d4, [x11, :lo12:.Lfilter_CPI2_63]
	ldr	d3, [x10, :lo12:.Lfilter_CPI2_61]
	adrp	x10, .Lfilter_CPI2_62
	fmul	d2, d1, d2
	fadd	d2, d2, d3
	ldr	d3, [x10, :lo12:.Lfilter_CPI2_62]
	b	.Lfilter_BB2_52
.Lfilter_BB2_23:
	adrp	x10, .Lfilter_CPI2_68
	adrp	x11, .Lfilter_CPI2_71
	ldr	d2, [x10, :lo12:.Lfilter_CPI2_68]
	adrp	x10, .Lfilter_CPI2_69
	ldr	d4, [x11, :lo12:.Lfilter_CPI2_71]
	ldr	d3, [x10, :lo12:.Lfilter_CPI2_69]
	adrp	x10, .Lfilter_CPI2_70
	fmul	d2, d1, d2
	fadd	d2, d2, d3
	ldr	d3, [x10, :lo12:.Lfilter_CPI2_70]
	b	.Lfilter_BB2_52
.Lfilter_BB2_24:
	adrp	x10, .Lfilter_CPI2_80
	adrp	x11, .Lfilter_CPI2_83
	ldr	d2, [x10, :lo12:.Lfilter_CPI2_80]
	adrp	x10, .Lfilter_CPI2_81
	ldr	d4, [x11, :lo12:.Lfilter_CPI2_83]
	ldr	d3, [x10, :lo12:.Lfilter_CPI2_81]
	adrp	x10, .Lfilter_CPI2_82
	fmul	d2, d1, d2
	fadd	d2, d2, d3
	ldr	d3, [x10, :lo12:.Lfilter_CPI2_82]
	b	.Lfilter_BB2_52
.Lfilter_BB2_25:
	adrp	x10, .Lfilter_CPI2_108
	adrp	x11, .Lfilter_CPI2_111
	ldr	d2, [x10, :lo12:.Lfilter_CPI2_108]
	adrp	x10, .Lfilter_CPI2_109
	ldr	d4, [x11, :lo12:.Lfilter_CPI2_111]
	ldr	d3, [x10, :lo12:.Lfilter_CPI2_109]
	adrp	x10, .Lfilter_CPI2_110
	fmul	d2, d1, d2
	fadd	d2, d2, d3
	ldr	d3, [x10, :lo12:.Lfilter_CPI2_110]
	b	.Lfilter_BB2_52
.Lfilter_BB2_26:
	adrp	x10, .Lfilter_CPI2_76
	adrp	x11, .Lfilter_CPI2_79
	ldr	d2, [x10, :lo12:.Lfilter_CPI2_76]
	adrp	x10, .Lfilter_CPI2_77
	ldr	d4, [x11, :lo12:.Lfilter_CPI2_79]
	ldr	d3, [x10, :lo12:.Lfilter_CPI2_77]
	adrp	x10, .Lfilter_CPI2_78
	fmul	d2, d1, d2
	fadd	d2, d2, d3
	ldr	d3, [x10, :lo12:.Lfilter_CPI2_78]
	b	.Lfilter_BB2_52
.Lfilter_BB2_27:
	adrp	x10, .Lfilter_CPI2_88
	adrp	x11, .Lfilter_CPI2_91
	ldr	d2, [x10, :lo12:.Lfilter_CPI2_88]
	adrp	x10, .Lfilter_CPI2_89
	ldr	d4, [x11, :lo12:.Lfilter_CPI2_91]
	ldr	d3, [x10, :lo12:.Lfilter_CPI2_89]
	adrp	x10, .Lfilter_CPI2_90
	fmul	d2, d1, d2
	fadd	d2, d2, d3
	ldr	d3, [x10, :lo12:.Lfilter_CPI2_90]
	b	.Lfilter_BB2_52
.Lfilter_BB2_28:
	adrp	x10, .Lfilter_CPI2_24
	adrp	x11, .Lfilter_CPI2_27
	ldr	d2, [x10, :lo12:.Lfilter_CPI2_24]
	adrp	x10, .Lfilter_CPI2_25
	ldr	d4, [x11, :lo12:.Lfilter_CPI2_27]
	ldr	d3, [x10, :lo12:.Lfilter_CPI2_25]
	adrp	x10, .Lfilter_CPI2_26
	fmul	d2, d1, d2
	fadd	d2, d2, d3
	ldr	d3, [x10, :lo12:.Lfilter_CPI2_26]
	b	.Lfilter_BB2_52
.Lfilter_BB2_29:
	adrp	x10, .Lfilter_CPI2_28
	adrp	x11, .Lfilter_CPI2_31
	ldr	d2, [x10, :lo12:.Lfilter_CPI2_28]
	adrp	x10, .Lfilter_CPI2_29
	ldr	d4, [x11, :lo12:.Lfilter_CPI2_31]
	ldr	d3, [x10, :lo12:.Lfilter_CPI2_29]
	adrp	x10, .Lfilter_CPI2_30
	fmul	d2, d1, d2
	fadd	d2, d2, d3
	ldr	d3, [x10, :lo12:.Lfilter_CPI2_30]
	b	.Lfilter_BB2_52
.Lfilter_BB2_30:
	adrp	x10, .Lfilter_CPI2_116
	adrp	x11, .Lfilter_CPI2_119
	ldr	d2, [x10, :lo12:.Lfilter_CPI2_116]
	adrp	x10, .Lfilter_CPI2_117
	ldr	d4, [x11, :lo12:.Lfilter_CPI2_119]
	ldr	d3, [x10, :lo12:.Lfilter_CPI2_117]
	adrp	x10, .Lfilter_CPI2_118
	fmul	d2, d1, d2
	fadd	d2, d2, d3
	ldr	d3, [x10, :lo12:.Lfilter_CPI2_118]
	b	.Lfilter_BB2_52
.Lfilter_BB2_31:
	adrp	x10, .Lfilter_CPI2_64
	adrp	x11, .Lfilter_CPI2_67
	ldr	d2, [x10, :lo12:.Lfilter_CPI2_64]
	adrp	x10, .Lfilter_CPI2_65
	ldr	d4, [x11, :lo12:.Lfilter_CPI2_67]
	ldr	d3, [x10, :lo12:.Lfilter_CPI2_65]
	adrp	x10, .Lfilter_CPI2_66
	fmul	d2, d1, d2
	fadd	d2, d2, d3
	ldr	d3, [x10, :lo12:.Lfilter_CPI2_66]
	b	.Lfilter_BB2_52
.Lfilter_BB2_32:
	adrp	x10, .Lfilter_CPI2_112
	adrp	x11, .Lfilter_CPI2_115
	ldr	d2, [x10, :lo12:.Lfilter_CPI2_112]
	adrp	x10, .Lfilter_CPI2_113
	ldr	d4, [x11, :lo12:.Lfilter_CPI2_115]
	ldr	d3, [x10, :lo12:.Lfilter_CPI2_113]
	adrp	x10, .Lfilter_CPI2_114
	fmul	d2, d1, d2
	fadd	d2, d2, d3
	ldr	d3, [x10, :lo12:.Lfilter_CPI2_114]
	b	.Lfilter_BB2_52
.Lfilter_BB2_33:
	adrp	x10, .Lfilter_CPI2_96
	adrp	x11, .Lfilter_CPI2_99
	ldr	d2, [x10, :lo12:.Lfilter_CPI2_96]
	adrp	x10, .Lfilter_CPI2_97
	ldr	d4, [x11, :lo12:.Lfilter_CPI2_99]
	ldr	d3, [x10, :lo12:.Lfilter_CPI2_97]
	adrp	x10, .Lfilter_CPI2_98
	fmul	d2, d1, d2
	fadd	d2, d2, d3
	ldr	d3, [x10, :lo12:.Lfilter_CPI2_98]
	b	.Lfilter_BB2_52
.Lfilter_BB2_34:
	adrp	x10, .Lfilter_CPI2_120
	adrp	x11, .Lfilter_CPI2_123
	ldr	d2, [x10, :lo12:.Lfilter_CPI2_120]
	adrp	x10, .Lfilter_CPI2_121
	ldr	d4, [x11, :lo12:.Lfilter_CPI2_123]
	ldr	d3, [x10, :lo12:.Lfilter_CPI2_121]
	adrp	x10, .Lfilter_CPI2_122
	fmul	d2, d1, d2
	fadd	d2, d2, d3
	ldr	d3, [x10, :lo12:.Lfilter_CPI2_122]
	b	.Lfilter_BB2_52
.Lfilter_BB2_35:
	adrp	x10, .Lfilter_CPI2_0
	adrp	x11, .Lfilter_CPI2_3
	ldr	d2, [x10, :lo12:.Lfilter_CPI2_0]
	adrp	x10, .Lfilter_CPI2_1
	ldr	d4, [x11, :lo12:.Lfilter_CPI2_3]
	ldr	d3, [x10, :lo12:.Lfilter_CPI2_1]
	adrp	x10, .Lfilter_CPI2_2
	fmul	d2, d1, d2
	fadd	d2, d2, d3
	ldr	d3, [x10, :lo12:.Lfilter_CPI2_2]
	b	.Lfilter_BB2_52
.Lfilter_BB2_36:
	adrp	x10, .Lfilter_CPI2_56
	adrp	x11, .Lfilter_CPI2_59
	ldr	d2, [x10, :lo12:.Lfilter_CPI2_56]
	adrp	x10, .Lfilter_CPI2_57
	ldr	d4, [x11, :lo12:.Lfilter_CPI2_59]
	ldr	d3, [x10, :lo12:.Lfilter_CPI2_57]
	adrp	x10, .Lfilter_CPI2_58
	fmul	d2, d1, d2
	fadd	d2, d2, d3
	ldr	d3, [x10, :lo12:.Lfilter_CPI2_58]
	b	.Lfilter_BB2_52
.Lfilter_BB2_37:
	adrp	x10, .Lfilter_CPI2_44
	adrp	x11, .Lfilter_CPI2_47
	ldr	d2, [x10, :lo12:.Lfilter_CPI2_44]
	adrp	x10, .Lfilter_CPI2_45
	ldr	d4, [x11, :lo12:.Lfilter_CPI2_47]
	ldr	d3, [x10, :lo12:.Lfilter_CPI2_45]
	adrp	x10, .Lfilter_CPI2_46
	fmul	d2, d1, d2
	fadd	d2, d2, d3
	ldr	d3, [x10, :lo12:.Lfilter_CPI2_46]
	b	.Lfilter_BB2_52
.Lfilter_BB2_38:
	adrp	x10, .Lfilter_CPI2_104
	adrp	x11, .Lfilter_CPI2_107
	ldr	d2, [x10, :lo12:.Lfilter_CPI2_104]
	adrp	x10, .Lfilter_CPI2_105
	ldr	d4, [x11, :lo12:.Lfilter_CPI2_107]
	ldr	d3, [x10, :lo12:.Lfilter_CPI2_105]
	adrp	x10, .Lfilter_CPI2_106
	fmul	d2, d1, d2
	fadd	d2, d2, d3
	ldr	d3, [x10, :lo12:.Lfilter_CPI2_106]
	b	.Lfilter_BB2_52
.Lfilter_BB2_39:
	adrp	x10, .Lfilter_CPI2_40
	adrp	x11, .Lfilter_CPI2_43
	ldr	d2, [x10, :lo12:.Lfilter_CPI2_40]
	adrp	x10, .Lfilter_CPI2_41
	ldr	d4, [x11, :lo12:.Lfilter_CPI2_43]
	ldr	d3, [x10, :lo12:.Lfilter_CPI2_41]
	adrp	x10, .Lfilter_CPI2_42
	fmul	d2, d1, d2
	fadd	d2, d2, d3
	ldr	d3, [x10, :lo12:.Lfilter_CPI2_42]
	b	.Lfilter_BB2_52
.Lfilter_BB2_40:
	adrp	x10, .Lfilter_CPI2_72
	adrp	x11, .Lfilter_CPI2_75
	ldr	d2, [x10, :lo12:.Lfilter_CPI2_72]
	adrp	x10, .Lfilter_CPI2_73
	ldr	d4, [x11, :lo12:.Lfilter_CPI2_75]
	ldr	d3, [x10, :lo12:.Lfilter_CPI2_73]
	adrp	x10, .Lfilter_CPI2_74
	fmul	d2, d1, d2
	fadd	d2, d2, d3
	ldr	d3, [x10, :lo12:.Lfilter_CPI2_74]
	b	.Lfilter_BB2_52
.Lfilter_BB2_41:
	adrp	x10, .Lfilter_CPI2_100
	adrp	x11, .Lfilter_CPI2_103
	ldr	d2, [x10, :lo12:.Lfilter_CPI2_100]
	adrp	x10, .Lfilter_CPI2_101
	ldr	d4, [x11, :lo12:.Lfilter_CPI2_103]
	ldr	d3, [x10, :lo12:.Lfilter_CPI2_101]
	adrp	x10, .Lfilter_CPI2_102
	fmul	d2, d1, d2
	fadd	d2, d2, d3
	ldr	d3, [x10, :lo12:.Lfilter_CPI2_102]
	b	.Lfilter_BB2_52
.Lfilter_BB2_42:
	adrp	x10, .Lfilter_CPI2_52
	adrp	x11, .Lfilter_CPI2_55
	ldr	d2, [x10, :lo12:.Lfilter_CPI2_52]
	adrp	x10, .Lfilter_CPI2_53
	ldr	d4, [x11, :lo12:.Lfilter_CPI2_55]
	ldr	d3, [x10, :lo12:.Lfilter_CPI2_53]
	adrp	x10, .Lfilter_CPI2_54
	fmul	d2, d1, d2
	fadd	d2, d2, d3
	ldr	d3, [x10, :lo12:.Lfilter_CPI2_54]
	b	.Lfilter_BB2_52
.Lfilter_BB2_43:
	adrp	x10, .Lfilter_CPI2_84
	adrp	x11, .Lfilter_CPI2_87
	ldr	d2, [x10, :lo12:.Lfilter_CPI2_84]
	adrp	x10, .Lfilter_CPI2_85
	ldr	d4, [x11, :lo12:.Lfilter_CPI2_87]
	ldr	d3, [x10, :lo12:.Lfilter_CPI2_85]
	adrp	x10, .Lfilter_CPI2_86
	fmul	d2, d1, d2
	fadd	d2, d2, d3
	ldr	d3, [x10, :lo12:.Lfilter_CPI2_86]
	b	.Lfilter_BB2_52
.Lfilter_BB2_44:
	adrp	x10, .Lfilter_CPI2_92
	adrp	x11, .Lfilter_CPI2_95
	ldr	d2, [x10, :lo12:.Lfilter_CPI2_92]
	adrp	x10, .Lfilter_CPI2_93
	ldr	d4, [x11, :lo12:.Lfilter_CPI2_95]
	ldr	d3, [x10, :lo12:.Lfilter_CPI2_93]
	adrp	x10, .Lfilter_CPI2_94
	fmul	d2, d1, d2
	fadd	d2, d2, d3
	ldr	d3, [x10, :lo12:.Lfilter_CPI2_94]
	b	.Lfilter_BB2_52
.Lfilter_BB2_45:
	adrp	x10, .Lfilter_CPI2_4
	adrp	x11, .Lfilter_CPI2_7
	ldr	d2, [x10, :lo12:.Lfilter_CPI2_4]
	adrp	x10, .Lfilter_CPI2_5
	ldr	d4, [x11, :lo12:.Lfilter_CPI2_7]
	ldr	d3, [x10, :lo12:.Lfilter_CPI2_5]
	adrp	x10, .Lfilter_CPI2_6
	fmul	d2, d1, d2
	fadd	d2, d2, d3
	ldr	d3, [x10, :lo12:.Lfilter_CPI2_6]
	b	.Lfilter_BB2_52
.Lfilter_BB2_46:
	adrp	x10, .Lfilter_CPI2_36
	adrp	x11, .Lfilter_CPI2_39
	ldr	d2, [x10, :lo12:.Lfilter_CPI2_36]
	adrp	x10, .Lfilter_CPI2_37
	ldr	d4, [x11, :lo12:.Lfilter_CPI2_39]
	ldr	d3, [x10, :lo12:.Lfilter_CPI2_37]
	adrp	x10, .Lfilter_CPI2_38
	fmul	d2, d1, d2
	fadd	d2, d2, d3
	ldr	d3, [x10, :lo12:.Lfilter_CPI2_38]
	b	.Lfilter_BB2_52
.Lfilter_BB2_47:
	adrp	x10, .Lfilter_CPI2_48
	adrp	x11, .Lfilter_CPI2_51
	ldr	d2, [x10, :lo12:.Lfilter_CPI2_48]
	adrp	x10, .Lfilter_CPI2_49
	ldr	d4, [x11, :lo12:.Lfilter_CPI2_51]
	ldr	d3, [x10, :lo12:.Lfilter_CPI2_49]
	adrp	x10, .Lfilter_CPI2_50
	fmul	d2, d1, d2
	fadd	d2, d2, d3
	ldr	d3, [x10, :lo12:.Lfilter_CPI2_50]
	b	.Lfilter_BB2_52
.Lfilter_BB2_48:
	adrp	x10, .Lfilter_CPI2_32
	adrp	x11, .Lfilter_CPI2_35
	ldr	d2, [x10, :lo12:.Lfilter_CPI2_32]
	adrp	x10, .Lfilter_CPI2_33
	ldr	d4, [x11, :lo12:.Lfilter_CPI2_35]
	ldr	d3, [x10, :lo12:.Lfilter_CPI2_33]
	adrp	x10, .Lfilter_CPI2_34
	fmul	d2, d1, d2
	fadd	d2, d2, d3
	ldr	d3, [x10, :lo12:.Lfilter_CPI2_34]
	b	.Lfilter_BB2_52
.Lfilter_BB2_49:
	adrp	x10, .Lfilter_CPI2_12
	adrp	x11, .Lfilter_CPI2_15
	ldr	d2, [x10, :lo12:.Lfilter_CPI2_12]
	adrp	x10, .Lfilter_CPI2_13
	ldr	d4, [x11, :lo12:.Lfilter_CPI2_15]
	ldr	d3, [x10, :lo12:.Lfilter_CPI2_13]
	adrp	x10, .Lfilter_CPI2_14
	fmul	d2, d1, d2
	fadd	d2, d2, d3
	ldr	d3, [x10, :lo12:.Lfilter_CPI2_14]
	b	.Lfilter_BB2_52
.Lfilter_BB2_50:
	adrp	x10, .Lfilter_CPI2_8
	adrp	x11, .Lfilter_CPI2_11
	ldr	d2, [x10, :lo12:.Lfilter_CPI2_8]
	adrp	x10, .Lfilter_CPI2_9
	ldr	d4, [x11, :lo12:.Lfilter_CPI2_11]
	ldr	d3, [x10, :lo12:.Lfilter_CPI2_9]
	adrp	x10, .Lfilter_CPI2_10
	fmul	d2, d1, d2
	fadd	d2, d2, d3
	ldr	d3, [x10, :lo12:.Lfilter_CPI2_10]
	b	.Lfilter_BB2_52
.Lfilter_BB2_51:
	adrp	x10, .Lfilter_CPI2_20
	adrp	x11, .Lfilter_CPI2_23
	ldr	d2, [x10, :lo12:.Lfilter_CPI2_20]
	adrp	x10, .Lfilter_CPI2_21
	ldr	d4, [x11, :lo12:.Lfilter_CPI2_23]
	ldr	d3, [x10, :lo12:.Lfilter_CPI2_21]
	adrp	x10, .Lfilter_CPI2_22
	fmul	d2, d1, d2
	fadd	d2, d2, d3
	ldr	d3, [x10, :lo12:.Lfilter_CPI2_22]
.Lfilter_BB2_52:
	fmul	d3, d3, d1
	fmul	d5, d1, d1
	ubfx	w10, w9, #23, #2
	adrp	x11, .Lfilter_switch.table.roots.fourth_roots
	add	x11, x11, :lo12:.Lfilter_switch.table.roots.fourth_roots
	fadd	d3, d4, d3
	ldr	d4, [x11, w10, uxtw #3]
	mov	x11, #4841369599423283200
	fmul	d1, d4, d1
	fmov	d4, x11
	mov	x11, #-4382002437431492608
	fmul	d3, d5, d3
	fmov	d5, x11
	adrp	x11, .Lfilter_switch.table.roots.fourth_roots.10
	add	x11, x11, :lo12:.Lfilter_switch.table.roots.fourth_roots.10
	ldr	d6, [x11, w10, uxtw #3]
	fadd	d2, d2, d3
	fmul	d1, d2, d1
	fmul	d3, d2, d1
	fmul	d2, d2, d6
	fadd	d1, d3, d4
	fadd	d5, d1, d5
	fadd	d3, d3, d5
	fmul	d2, d3, d2
	fadd	d2, d2, d4
	fmov	d3, d2
	fcmp	d3, d3
	b.vs	.Lfilter_BB2_66
	fmov	x10, d1
	fmov	x12, d2
	mov	w11, w10
	mov	w10, w12
.Lfilter_BB2_54:
	and	w12, w9, #0x7fffff
	and	w13, w9, #0x800000
	umaddl	x14, w11, w11, x11
	orr	w12, w12, #0x800000
	add	w13, w13, #2048, lsl #12
	umsubl	x14, w12, w13, x14
	cmp	x14, x11, lsl #1
	b.hs	.Lfilter_BB2_56
	mov	x13, x11
	b	.Lfilter_BB2_59
.Lfilter_BB2_56:
	umull	x12, w12, w13
	add	x14, x11, #1
.Lfilter_BB2_57:
	mov	x13, x11
	add	x11, x11, #1
	mul	x15, x11, x13
	mov	x13, x14
	add	x14, x14, #1
	cmp	x15, x12
	b.lo	.Lfilter_BB2_57
.Lfilter_BB2_58:
	sub	x13, x13, #1
	mul	x11, x13, x13
	add	x14, x12, x13
	cmp	x14, x11
	b.ls	.Lfilter_BB2_58
.Lfilter_BB2_59:
	lsr	w11, w9, #1
	umaddl	x12, w10, w10, x10
	and	w11, w11, #0x800000
	add	w11, w11, #2048, lsl #12
	mul	x11, x13, x11
	sub	x12, x12, x11
	cmp	x12, x10, lsl #1
	b.hs	.Lfilter_BB2_61
	mov	x12, x10
	b	.Lfilter_BB2_64
.Lfilter_BB2_61:
	add	x13, x10, #1
.Lfilter_BB2_62:
	mov	x12, x10
	add	x10, x10, #1
	mul	x14, x10, x12
	mov	x12, x13
	add	x13, x13, #1
	cmp	x14, x11
	b.lo	.Lfilter_BB2_62
.Lfilter_BB2_63:
	sub	x12, x12, #1
	mul	x10, x12, x12
	add	x13, x11, x12
	cmp	x13, x10
	b.ls	.Lfilter_BB2_63
.Lfilter_BB2_64:
	lsr	w9, w9, #25
	mov	w10, #528482304
	add	w9, w12, w9, lsl #23
	add	w9, w9, w10
	fmov	s1, w9
	b	.Lfilter_BB2_9
.Lfilter_BB2_65:
	mov	w9, #2143289344
	fmov	s1, w9
	b	.Lfilter_BB2_9
.Lfilter_BB2_66:
	mov	w10, #8388608
	mov	w11, #8388608
	bfxil	w11, w9, #1, #22
	bfxil	w10, w9, #2, #21
	b	.Lfilter_BB2_54
.Lfilter_BB2_67:
	add	sp, sp, #512
	ldp	x20, x19, [sp, #80]
	ldp	x22, x21, [sp, #64]
	ldp	x24, x23, [sp, #48]
	ldp	x30, x25, [sp, #32]
	ldp	d9, d8, [sp, #16]
	ldr	d10, [sp], #96
	ret
.Lfilter_func_end2:
	.size	loamchalice.filter.roots.fourth_roots, .Lfilter_func_end2-loamchalice.filter.roots.fourth_roots
	.section	.rodata.filter.roots.fourth_roots,"a",@progbits
	.p2align	2, 0x0
.Lfilter_JTI2_0:
	.word	.Lfilter_BB2_20-.Lfilter_tmp0
	.word	.Lfilter_BB2_34-.Lfilter_tmp0
	.word	.Lfilter_BB2_30-.Lfilter_tmp0
	.word	.Lfilter_BB2_32-.Lfilter_tmp0
	.word	.Lfilter_BB2_25-.Lfilter_tmp0
	.word	.Lfilter_BB2_38-.Lfilter_tmp0
	.word	.Lfilter_BB2_41-.Lfilter_tmp0
	.word	.Lfilter_BB2_33-.Lfilter_tmp0
	.word	.Lfilter_BB2_44-.Lfilter_tmp0
	.word	.Lfilter_BB2_27-.Lfilter_tmp0
	.word	.Lfilter_BB2_43-.Lfilter_tmp0
	.word	.Lfilter_BB2_24-.Lfilter_tmp0
	.word	.Lfilter_BB2_26-.Lfilter_tmp0
	.word	.Lfilter_BB2_40-.Lfilter_tmp0
	.word	.Lfilter_BB2_23-.Lfilter_tmp0
	.word	.Lfilter_BB2_31-.Lfilter_tmp0
	.word	.Lfilter_BB2_22-.Lfilter_tmp0
	.word	.Lfilter_BB2_36-.Lfilter_tmp0
	.word	.Lfilter_BB2_42-.Lfilter_tmp0
	.word	.Lfilter_BB2_47-.Lfilter_tmp0
	.word	.Lfilter_BB2_37-.Lfilter_tmp0
	.word	.Lfilter_BB2_39-.Lfilter_tmp0
	.word	.Lfilter_BB2_46-.Lfilter_tmp0
	.word	.Lfilter_BB2_48-.Lfilter_tmp0
	.word	.Lfilter_BB2_29-.Lfilter_tmp0
	.word	.Lfilter_BB2_28-.Lfilter_tmp0
	.word	.Lfilter_BB2_51-.Lfilter_tmp0
	.word	.Lfilter_BB2_21-.Lfilter_tmp0
	.word	.Lfilter_BB2_49-.Lfilter_tmp0
	.word	.Lfilter_BB2_50-.Lfilter_tmp0
	.word	.Lfilter_BB2_45-.Lfilter_tmp0
	.word	.Lfilter_BB2_35-.Lfilter_tmp0

	.section	.text.filter.pixels.degrees_block,"ax",@progbits
	.p2align	2
	.type	loamchalice.filter.pixels.degrees_block,@function
loamchalice.filter.pixels.degrees_block:
	stp	x29, x30, [sp, #-32]!
	str	x19, [sp, #16]
	mov	x29, sp
	mov	x19, x1
	bl	loamchalice.filter.roots.fourth_roots
	mov	w8, #37683
	ldp	q1, q2, [x19]
	movk	w8, #50056, lsl #16
	ldp	q3, q4, [x19, #32]
	dup	v0.4s, w8
	ldp	q5, q6, [x19, #64]
	fadd	v1.4s, v1.4s, v0.4s
	fadd	v2.4s, v2.4s, v0.4s
	fadd	v3.4s, v3.4s, v0.4s
	fadd	v4.4s, v4.4s, v0.4s
	fadd	v5.4s, v5.4s, v0.4s
	stp	q1, q2, [x19]
	ldp	q7, q1, [x19, #96]
	fadd	v2.4s, v6.4s, v0.4s
	stp	q3, q4, [x19, #32]
	fadd	v3.4s, v7.4s, v0.4s
	fadd	v0.4s, v1.4s, v0.4s
	stp	q5, q2, [x19, #64]
	stp	q3, q0, [x19, #96]
	ldr	x19, [sp, #16]
	ldp	x29, x30, [sp], #32
	ret
.Lfilter_func_end3:
	.size	loamchalice.filter.pixels.degrees_block, .Lfilter_func_end3-loamchalice.filter.pixels.degrees_block

	.section	.text.loamchalice_filter_average,"ax",@progbits
	.globl	loamchalice_filter_average
	.p2align	2
	.type	loamchalice_filter_average,@function
loamchalice_filter_average:
	ldrb	w8, [x0, #36]
	cmp	w8, #16
	b.hs	.Lfilter_BB4_2
	mov	w9, wzr
	cmp	w9, #0
	csel	x8, xzr, xzr, ne
	orr	x0, x8, x9, lsl #32
	ret
.Lfilter_BB4_2:
	ldr	w8, [x0, #32]
	mov	w9, #-524288
	cmn	w8, #128, lsl #12
	csel	w8, w8, w9, gt
	mov	w9, #524287
	cmp	w8, w9
	csel	w8, w8, w9, lt
	mov	w9, #1
	scvtf	s0, w8
	mov	w8, #1031798784
	fmov	s1, w8
	fmul	s0, s0, s1
	fmov	w8, s0
	cmp	w9, #0
	csel	x8, x8, xzr, ne
	orr	x0, x8, x9, lsl #32
	ret
.Lfilter_func_end4:
	.size	loamchalice_filter_average, .Lfilter_func_end4-loamchalice_filter_average

	.section	.text.loamchalice_filter_new,"ax",@progbits
	.globl	loamchalice_filter_new
	.p2align	2
	.type	loamchalice_filter_new,@function
loamchalice_filter_new:
	movi	v0.2d, #0000000000000000
	str	xzr, [x8, #32]
	stp	q0, q0, [x8]
	ret
.Lfilter_func_end5:
	.size	loamchalice_filter_new, .Lfilter_func_end5-loamchalice_filter_new

	.section	.text.loamchalice_filter_push,"ax",@progbits
	.globl	loamchalice_filter_push
	.p2align	2
	.type	loamchalice_filter_push,@function
loamchalice_filter_push:
	ldp	q0, q1, [x0]
	ldrb	w9, [x0, #36]
	stp	q0, q1, [sp, #-32]!
	ubfiz	x10, x9, #1, #4
	ldr	w12, [x0, #32]
	mov	x11, sp
	mov	w14, #16
	sturh	wzr, [x8, #37]
	ldrsh	w13, [x11, x10]
	strh	w1, [x11, x10]
	mov	w10, #-524288
	cmn	w12, #128, lsl #12
	mov	w11, #524287
	strb	wzr, [x8, #39]
	csel	w10, w12, w10, gt
	and	w12, w9, #0xff
	cmp	w10, w11
	ldp	q0, q1, [sp]
	csel	w10, w10, w11, lt
	cmp	w12, #31
	add	w10, w10, w1, sxth
	csinc	w9, w14, w9, hs
	strb	w9, [x8, #36]
	sub	w9, w10, w13
	stp	q0, q1, [x8]
	str	w9, [x8, #32]
	add	sp, sp, #32
	ret
.Lfilter_func_end6:
	.size	loamchalice_filter_push, .Lfilter_func_end6-loamchalice_filter_push

	.section	.text.loamchalice_filtered_pixels_to_ir_data,"ax",@progbits
	.globl	loamchalice_filtered_pixels_to_ir_data
	.p2align	2
	.type	loamchalice_filtered_pixels_to_ir_data,@function
loamchalice_filtered_pixels_to_ir_data:
	sub	sp, sp, #400
	stp	x29, x30, [sp, #320]
	add	x29, sp, #320
	mov	x9, x4
	cmp	x2, #0
	mov	w4, #4096
	stp	x20, x19, [sp, #384]
	mov	x19, x8
	ldr	x13, [x29, #80]
	csel	x8, x4, xzr, eq
	cmp	x9, #0
	ldr	x14, [x29, #96]
	ldr	x15, [x29, #112]
	csel	x12, x4, xzr, eq
	cmp	x6, #0
	ldr	x16, [x29, #128]
	csel	x18, x4, xzr, eq
	cmp	x13, #0
	movi	d0, #0000000000000000
	csel	x17, x4, xzr, eq
	cmp	x14, #0
	mov	x10, x2
	csel	x2, x4, xzr, eq
	cmp	x15, #0
	ldrb	w20, [x0, #99]
	stp	x22, x21, [sp, #368]
	mov	x11, x5
	mov	x5, x3
	csel	x3, x4, xzr, eq
	cmp	x16, #0
	ldr	s1, [x0, #40]
	ldrb	w21, [x1, #28]
	csel	x4, x4, xzr, eq
	cmp	w20, #0
	stp	x24, x23, [sp, #352]
	add	x20, x1, #20
	add	x22, x1, #24
	cset	w23, ne
	fcsel	s1, s1, s0, ne
	cmp	w21, #0
	ldur	q2, [x0, #76]
	stp	x28, x25, [sp, #336]
	csel	x20, x20, x22, eq
	ldur	q3, [x0, #44]
	ldr	s0, [x20]
	add	x20, sp, #148
	stur	q2, [sp, #180]
	ldur	q2, [x0, #100]
	ldr	w21, [x0, #92]
	stur	q3, [sp, #196]
	ldur	q3, [x0, #116]
	ldrb	w24, [x1, #42]
	stur	q2, [x20, #108]
	ldr	q2, [x0]
	cset	w25, eq
	stur	q3, [x20, #124]
	cmp	w24, #0
	ldrb	w22, [x0, #98]
	stur	q2, [sp, #156]
	ldp	d3, d2, [x0, #16]
	str	w23, [sp, #248]
	ldrsh	w23, [x1, #40]
	ldur	q4, [x0, #60]
	str	w21, [sp, #148]
	ldrh	w21, [x0, #96]
	add	x18, x6, x18
	str	d2, [x20, #80]
	ldr	d2, [x0, #32]
	ldr	x0, [x29, #104]
	str	s1, [sp, #252]
	ldr	d1, [x1, #8]
	add	x14, x14, x2
	stur	d2, [x20, #92]
	ldr	s2, [x1, #16]
	ldr	x20, [x29, #88]
	str	w25, [sp, #120]
	ldrb	w25, [x1, #52]
	add	x13, x13, x17
	str	s2, [sp, #104]
	scvtf	s2, w23
	add	x15, x15, x3
	str	s0, [sp, #124]
	ldr	s0, [x1, #48]
	add	x16, x16, x4
	stur	d3, [sp, #172]
	movi	v3.2d, #0000000000000000
	mov	w3, wzr
	strh	w21, [sp, #236]
	ldr	x21, [x1]
	add	x2, sp, #96
	str	d1, [sp, #96]
	ldr	d1, [x1, #32]
	cset	w1, ne
	cmp	w25, #0
	strb	w22, [sp, #152]
	ldr	x22, [x29, #120]
	fcsel	s0, s2, s0, eq
	str	x21, [sp, #112]
	ldr	x21, [x29, #136]
	strb	w1, [sp, #138]
	add	x1, sp, #148
	add	x4, x10, x8
	stp	x14, x0, [sp, #48]
	sub	x0, x29, #32
	add	x6, x9, x12
	stp	x18, x7, [sp, #16]
	mov	x7, x11
	stur	q4, [sp, #212]
	strb	wzr, [sp, #155]
	sturh	wzr, [sp, #153]
	strh	wzr, [sp, #238]
	stp	q3, q3, [x29, #-32]
	str	wzr, [sp, #108]
	str	d1, [sp, #128]
	strh	w23, [sp, #136]
	strb	wzr, [sp, #143]
	stur	wzr, [sp, #139]
	stp	x16, x21, [sp, #80]
	stp	x15, x22, [sp, #64]
	stp	x13, x20, [sp, #32]
	stp	x13, x20, [sp]
	bl	loamchalice.filter.calculations.from_pixels
	ldurb	w9, [x29, #-32]
	ldur	w11, [x29, #-24]
	ldur	x8, [x29, #-16]
	cbz	w9, .Lfilter_BB7_3
	lsr	x13, x11, #16
	and	x11, x11, #0xff
	adrp	x14, .Lfilter_JTI7_0
	add	x14, x14, :lo12:.Lfilter_JTI7_0
	ldurh	w12, [x29, #-8]
	mov	w10, #1
	adr	x15, .Lfilter_BB7_2
	ldrb	w16, [x14, x11]
	add	x15, x15, x16, lsl #2
	mov	w9, wzr
	br	x15
.Lfilter_BB7_2:
	mov	x8, xzr
	mov	w9, wzr
	mov	w10, #2
	b	.Lfilter_BB7_17
.Lfilter_BB7_3:
	mov	x10, xzr
	mov	x12, xzr
	mov	x9, xzr
	b	.Lfilter_BB7_18
.Lfilter_BB7_4:
	mov	w9, wzr
	mov	w10, #13
	b	.Lfilter_BB7_17
.Lfilter_BB7_5:
	mov	w9, wzr
	mov	w10, #10
	b	.Lfilter_BB7_17
.Lfilter_BB7_6:
	mov	w9, wzr
	mov	w10, #4
	mov	x8, x13
	b	.Lfilter_BB7_17
.Lfilter_BB7_7:
	mov	w9, wzr
	mov	w10, #11
	b	.Lfilter_BB7_17
.Lfilter_BB7_8:
	mov	w9, wzr
	mov	w8, w13
	mov	w10, #9
	b	.Lfilter_BB7_17
.Lfilter_BB7_9:
	mov	w9, wzr
	mov	w10, #14
	b	.Lfilter_BB7_17
.Lfilter_BB7_10:
	mov	w10, #3
	mov	w9, w12
	b	.Lfilter_BB7_17
.Lfilter_BB7_11:
	mov	x8, xzr
	mov	w9, wzr
	mov	w10, #7
	b	.Lfilter_BB7_17
.Lfilter_BB7_12:
	mov	w9, wzr
	mov	w10, #5
	b	.Lfilter_BB7_17
.Lfilter_BB7_13:
	mov	w9, wzr
	mov	w10, #12
	b	.Lfilter_BB7_17
.Lfilter_BB7_14:
	mov	w9, wzr
	mov	w10, #6
	b	.Lfilter_BB7_17
.Lfilter_BB7_15:
	mov	w10, #9
	mov	w9, w12
	b	.Lfilter_BB7_17
.Lfilter_BB7_16:
	mov	x8, xzr
	mov	w9, wzr
	mov	w10, #8
.Lfilter_BB7_17:
	mov	w11, wzr
	mov	w9, w9
	mov	x12, x8
	mov	x8, xzr
.Lfilter_BB7_18:
	stp	x10, x12, [x19]
	ldp	x22, x21, [sp, #368]
	stp	x9, x8, [x19, #16]
	ldp	x24, x23, [sp, #352]
	stp	w11, wzr, [x19, #32]
	ldp	x20, x19, [sp, #384]
	ldp	x28, x25, [sp, #336]
	ldp	x29, x30, [sp, #320]
	add	sp, sp, #400
	ret
.Lfilter_func_end7:
	.size	loamchalice_filtered_pixels_to_ir_data, .Lfilter_func_end7-loamchalice_filtered_pixels_to_ir_data
	.section	.rodata.loamchalice_filtered_pixels_to_ir_data,"a",@progbits
.Lfilter_JTI7_0:
	.byte	(.Lfilter_BB7_17-.Lfilter_BB7_2)>>2
	.byte	(.Lfilter_BB7_17-.Lfilter_BB7_2)>>2
	.byte	(.Lfilter_BB7_2-.Lfilter_BB7_2)>>2
	.byte	(.Lfilter_BB7_10-.Lfilter_BB7_2)>>2
	.byte	(.Lfilter_BB7_6-.Lfilter_BB7_2)>>2
	.byte	(.Lfilter_BB7_12-.Lfilter_BB7_2)>>2
	.byte	(.Lfilter_BB7_14-.Lfilter_BB7_2)>>2
	.byte	(.Lfilter_BB7_11-.Lfilter_BB7_2)>>2
	.byte	(.Lfilter_BB7_16-.Lfilter_BB7_2)>>2
	.byte	(.Lfilter_BB7_8-.Lfilter_BB7_2)>>2
	.byte	(.Lfilter_BB7_15-.Lfilter_BB7_2)>>2
	.byte	(.Lfilter_BB7_5-.Lfilter_BB7_2)>>2
	.byte	(.Lfilter_BB7_7-.Lfilter_BB7_2)>>2
	.byte	(.Lfilter_BB7_13-.Lfilter_BB7_2)>>2
	.byte	(.Lfilter_BB7_4-.Lfilter_BB7_2)>>2
	.byte	(.Lfilter_BB7_9-.Lfilter_BB7_2)>>2

	.section	.text.loamchalice_filtered_pixels_to_ranged_temperatures,"ax",@progbits
	.globl	loamchalice_filtered_pixels_to_ranged_temperatures
	.p2align	2
	.type	loamchalice_filtered_pixels_to_ranged_temperatures,@function
loamchalice_filtered_pixels_to_ranged_temperatures:
	sub	sp, sp, #400
	stp	x29, x30, [sp, #320]
	add	x29, sp, #320
	mov	x9, x5
	mov	x5, x3
	cmp	x2, #0
	mov	w3, #4096
	stp	x20, x19, [sp, #384]
	mov	x19, x8
	ldr	x18, [x29, #80]
	csel	x8, x3, xzr, eq
	cmp	x4, #0
	mov	x11, x2
	ldr	x2, [x29, #96]
	csel	x12, x3, xzr, eq
	cmp	x6, #0
	mov	x10, x4
	ldr	x13, [x29, #112]
	csel	x4, x3, xzr, eq
	cmp	x18, #0
	ldr	x14, [x29, #128]
	stp	x22, x21, [sp, #368]
	csel	x20, x3, xzr, eq
	cmp	x2, #0
	ldr	x15, [x29, #144]
	csel	x21, x3, xzr, eq
	cmp	x13, #0
	movi	d0, #0000000000000000
	csel	x16, x3, xzr, eq
	cmp	x14, #0
	ldrb	w22, [x0, #99]
	stp	x24, x23, [sp, #352]
	csel	x17, x3, xzr, eq
	cmp	x15, #0
	ldr	s1, [x0, #40]
	ldrb	w23, [x1, #28]
	csel	x3, x3, xzr, eq
	cmp	w22, #0
	stp	x28, x25, [sp, #336]
	ldr	w22, [x0, #92]
	add	x24, x1, #20
	cset	w25, ne
	fcsel	s1, s1, s0, ne
	cmp	w23, #0
	add	x23, x1, #24
	ldur	q2, [x0, #100]
	csel	x23, x24, x23, eq
	ldur	q3, [x0, #116]
	ldrb	w24, [x0, #98]
	ldr	s0, [x23]
	str	w22, [sp, #148]
	ldrh	w22, [x0, #96]
	ldur	q4, [x0, #60]
	str	s1, [sp, #252]
	ldr	d1, [x1, #8]
	strh	w22, [sp, #236]
	add	x22, sp, #148
	add	x18, x18, x20
	stur	q2, [x22, #108]
	add	x2, x2, x21
	add	x13, x13, x16
	stur	q3, [x22, #124]
	ldp	d2, d3, [x0, #24]
	str	d1, [sp, #96]
	ldr	s1, [x1, #16]
	ldr	x16, [x29, #152]
	str	s0, [sp, #124]
	add	x14, x14, x17
	add	x15, x15, x3
	str	d2, [x22, #80]
	ldur	q2, [x0, #76]
	mov	w3, #2
	stur	d3, [x22, #92]
	ldur	q3, [x0, #44]
	add	x22, x6, x4
	stur	q2, [sp, #180]
	ldr	q2, [x0]
	ldrb	w6, [x1, #42]
	stur	q3, [sp, #196]
	ldr	d3, [x0, #16]
	ldr	x0, [x1]
	stur	q2, [sp, #156]
	movi	v2.2d, #0000000000000000
	cset	w4, eq
	str	x0, [sp, #112]
	ldrsh	w0, [x1, #40]
	cmp	w6, #0
	str	s1, [sp, #104]
	cset	w6, ne
	scvtf	s1, w0
	strh	w0, [sp, #136]
	ldrb	w0, [x1, #52]
	stp	q2, q2, [x29, #-32]
	ldr	s2, [x1, #48]
	cmp	w0, #0
	stur	d3, [sp, #172]
	ldr	d3, [x1, #32]
	str	w4, [sp, #120]
	ldr	x4, [x29, #88]
	ldr	x1, [x29, #104]
	strb	w6, [sp, #138]
	ldr	x6, [x29, #120]
	ldr	x0, [x29, #136]
	fcsel	s0, s1, s2, eq
	stp	x2, x1, [sp, #32]
	add	x1, sp, #148
	stp	x14, x0, [sp, #64]
	sub	x0, x29, #32
	add	x2, sp, #96
	stp	x13, x6, [sp, #48]
	add	x6, x10, x12
	stp	x18, x4, [sp, #16]
	add	x4, x11, x8
	stp	x22, x7, [sp]
	mov	x7, x9
	strb	w24, [sp, #152]
	str	w25, [sp, #248]
	stur	q4, [sp, #212]
	strb	wzr, [sp, #155]
	sturh	wzr, [sp, #153]
	strh	wzr, [sp, #238]
	str	wzr, [sp, #108]
	str	d3, [sp, #128]
	strb	wzr, [sp, #143]
	stur	wzr, [sp, #139]
	stp	x15, x16, [sp, #80]
	bl	loamchalice.filter.calculations.from_pixels
	ldurb	w9, [x29, #-32]
	ldur	w11, [x29, #-24]
	ldur	x8, [x29, #-16]
	cbz	w9, .Lfilter_BB8_3
	lsr	x13, x11, #16
	and	x11, x11, #0xff
	adrp	x14, .Lfilter_JTI8_0
	add	x14, x14, :lo12:.Lfilter_JTI8_0
	ldurh	w12, [x29, #-8]
	mov	w10, #1
	adr	x15, .Lfilter_BB8_2
	ldrb	w16, [x14, x11]
	add	x15, x15, x16, lsl #2
	mov	w9, wzr
	br	x15
.Lfilter_BB8_2:
	mov	x8, xzr
	mov	w9, wzr
	mov	w10, #2
	b	.Lfilter_BB8_17
.Lfilter_BB8_3:
	mov	x10, xzr
	mov	x12, xzr
	mov	x9, xzr
	b	.Lfilter_BB8_18
.Lfilter_BB8_4:
	mov	w9, wzr
	mov	w10, #13
	b	.Lfilter_BB8_17
.Lfilter_BB8_5:
	mov	w9, wzr
	mov	w10, #10
	b	.Lfilter_BB8_17
.Lfilter_BB8_6:
	mov	w9, wzr
	mov	w10, #4
	mov	x8, x13
	b	.Lfilter_BB8_17
.Lfilter_BB8_7:
	mov	w9, wzr
	mov	w10, #11
	b	.Lfilter_BB8_17
.Lfilter_BB8_8:
	mov	w9, wzr
	mov	w8, w13
	mov	w10, #9
	b	.Lfilter_BB8_17
.Lfilter_BB8_9:
	mov	w9, wzr
	mov	w10, #14
	b	.Lfilter_BB8_17
.Lfilter_BB8_10:
	mov	w10, #3
	mov	w9, w12
	b	.Lfilter_BB8_17
.Lfilter_BB8_11:
	mov	x8, xzr
	mov	w9, wzr
	mov	w10, #7
	b	.Lfilter_BB8_17
.Lfilter_BB8_12:
	mov	w9, wzr
	mov	w10, #5
	b	.Lfilter_BB8_17
.Lfilter_BB8_13:
	mov	w9, wzr
	mov	w10, #12
	b	.Lfilter_BB8_17
.Lfilter_BB8_14:
	mov	w9, wzr
	mov	w10, #6
	b	.Lfilter_BB8_17
.Lfilter_BB8_15:
	mov	w10, #9
	mov	w9, w12
	b	.Lfilter_BB8_17
.Lfilter_BB8_16:
	mov	x8, xzr
	mov	w9, wzr
	mov	w10, #8
.Lfilter_BB8_17:
	mov	w11, wzr
	mov	w9, w9
	mov	x12, x8
	mov	x8, xzr
.Lfilter_BB8_18:
	stp	x10, x12, [x19]
	ldp	x22, x21, [sp, #368]
	stp	x9, x8, [x19, #16]
	ldp	x24, x23, [sp, #352]
	stp	w11, wzr, [x19, #32]
	ldp	x20, x19, [sp, #384]
	ldp	x28, x25, [sp, #336]
	ldp	x29, x30, [sp, #320]
	add	sp, sp, #400
	ret
.Lfilter_func_end8:
	.size	loamchalice_filtered_pixels_to_ranged_temperatures, .Lfilter_func_end8-loamchalice_filtered_pixels_to_ranged_temperatures
	.section	.rodata.loamchalice_filtered_pixels_to_ranged_temperatures,"a",@progbits
.Lfilter_JTI8_0:
	.byte	(.Lfilter_BB8_17-.Lfilter_BB8_2)>>2
	.byte	(.Lfilter_BB8_17-.Lfilter_BB8_2)>>2
	.byte	(.Lfilter_BB8_2-.Lfilter_BB8_2)>>2
	.byte	(.Lfilter_BB8_10-.Lfilter_BB8_2)>>2
	.byte	(.Lfilter_BB8_6-.Lfilter_BB8_2)>>2
	.byte	(.Lfilter_BB8_12-.Lfilter_BB8_2)>>2
	.byte	(.Lfilter_BB8_14-.Lfilter_BB8_2)>>2
	.byte	(.Lfilter_BB8_11-.Lfilter_BB8_2)>>2
	.byte	(.Lfilter_BB8_16-.Lfilter_BB8_2)>>2
	.byte	(.Lfilter_BB8_8-.Lfilter_BB8_2)>>2
	.byte	(.Lfilter_BB8_15-.Lfilter_BB8_2)>>2
	.byte	(.Lfilter_BB8_5-.Lfilter_BB8_2)>>2
	.byte	(.Lfilter_BB8_7-.Lfilter_BB8_2)>>2
	.byte	(.Lfilter_BB8_13-.Lfilter_BB8_2)>>2
	.byte	(.Lfilter_BB8_4-.Lfilter_BB8_2)>>2
	.byte	(.Lfilter_BB8_9-.Lfilter_BB8_2)>>2

	.section	.text.loamchalice_filtered_pixels_to_temperatures,"ax",@progbits
	.globl	loamchalice_filtered_pixels_to_temperatures
	.p2align	2
	.type	loamchalice_filtered_pixels_to_temperatures,@function
loamchalice_filtered_pixels_to_temperatures:
	sub	sp, sp, #400
	stp	x29, x30, [sp, #320]
	add	x29, sp, #320
	mov	x9, x5
	mov	x5, x3
	cmp	x2, #0
	mov	w3, #4096
	stp	x20, x19, [sp, #384]
	mov	x19, x8
	ldr	x18, [x29, #80]
	csel	x8, x3, xzr, eq
	cmp	x4, #0
	mov	x11, x2
	ldr	x2, [x29, #96]
	csel	x12, x3, xzr, eq
	cmp	x6, #0
	mov	x10, x4
	ldr	x13, [x29, #112]
	csel	x4, x3, xzr, eq
	cmp	x18, #0
	ldr	x14, [x29, #128]
	stp	x22, x21, [sp, #368]
	csel	x20, x3, xzr, eq
	cmp	x2, #0
	ldr	x15, [x29, #144]
	csel	x21, x3, xzr, eq
	cmp	x13, #0
	movi	d0, #0000000000000000
	csel	x16, x3, xzr, eq
	cmp	x14, #0
	ldrb	w22, [x0, #99]
	stp	x24, x23, [sp, #352]
	csel	x17, x3, xzr, eq
	cmp	x15, #0
	ldr	s1, [x0, #40]
	ldrb	w23, [x1, #28]
	csel	x3, x3, xzr, eq
	cmp	w22, #0
	stp	x28, x25, [sp, #336]
	ldr	w22, [x0, #92]
	add	x24, x1, #20
	cset	w25, ne
	fcsel	s1, s1, s0, ne
	cmp	w23, #0
	add	x23, x1, #24
	ldur	q2, [x0, #100]
	csel	x23, x24, x23, eq
	ldur	q3, [x0, #116]
	ldrb	w24, [x0, #98]
	ldr	s0, [x23]
	str	w22, [sp, #148]
	ldrh	w22, [x0, #96]
	ldur	q4, [x0, #60]
	str	s1, [sp, #252]
	ldr	d1, [x1, #8]
	strh	w22, [sp, #236]
	add	x22, sp, #148
	add	x18, x18, x20
	stur	q2, [x22, #108]
	add	x2, x2, x21
	add	x13, x13, x16
	stur	q3, [x22, #124]
	ldp	d2, d3, [x0, #24]
	str	d1, [sp, #96]
	ldr	s1, [x1, #16]
	ldr	x16, [x29, #152]
	str	s0, [sp, #124]
	add	x14, x14, x17
	add	x15, x15, x3
	str	d2, [x22, #80]
	ldur	q2, [x0, #76]
	mov	w3, #1
	stur	d3, [x22, #92]
	ldur	q3, [x0, #44]
	add	x22, x6, x4
	stur	q2, [sp, #180]
	ldr	q2, [x0]
	ldrb	w6, [x1, #42]
	stur	q3, [sp, #196]
	ldr	d3, [x0, #16]
	ldr	x0, [x1]
	stur	q2, [sp, #156]
	movi	v2.2d, #0000000000000000
	cset	w4, eq
	str	x0, [sp, #112]
	ldrsh	w0, [x1, #40]
	cmp	w6, #0
	str	s1, [sp, #104]
	cset	w6, ne
	scvtf	s1, w0
	strh	w0, [sp, #136]
	ldrb	w0, [x1, #52]
	stp	q2, q2, [x29, #-32]
	ldr	s2, [x1, #48]
	cmp	w0, #0
	stur	d3, [sp, #172]
	ldr	d3, [x1, #32]
	str	w4, [sp, #120]
	ldr	x4, [x29, #88]
	ldr	x1, [x29, #104]
	strb	w6, [sp, #138]
	ldr	x6, [x29, #120]
	ldr	x0, [x29, #136]
	fcsel	s0, s1, s2, eq
	stp	x2, x1, [sp, #32]
	add	x1, sp, #148
	stp	x14, x0, [sp, #64]
	sub	x0, x29, #32
	add	x2, sp, #96
	stp	x13, x6, [sp, #48]
	add	x6, x10, x12
	stp	x18, x4, [sp, #16]
	add	x4, x11, x8
	stp	x22, x7, [sp]
	mov	x7, x9
	strb	w24, [sp, #152]
	str	w25, [sp, #248]
	stur	q4, [sp, #212]
	strb	wzr, [sp, #155]
	sturh	wzr, [sp, #153]
	strh	wzr, [sp, #238]
	str	wzr, [sp, #108]
	str	d3, [sp, #128]
	strb	wzr, [sp, #143]
	stur	wzr, [sp, #139]
	stp	x15, x16, [sp, #80]
	bl	loamchalice.filter.calculations.from_pixels
	ldurb	w9, [x29, #-32]
	ldur	w11, [x29, #-24]
	ldur	x8, [x29, #-16]
	cbz	w9, .Lfilter_BB9_3
	lsr	x13, x11, #16
	and	x11, x11, #0xff
	adrp	x14, .Lfilter_JTI9_0
	add	x14, x14, :lo12:.Lfilter_JTI9_0
	ldurh	w12, [x29, #-8]
	mov	w10, #1
	adr	x15, .Lfilter_BB9_2
	ldrb	w16, [x14, x11]
	add	x15, x15, x16, lsl #2
	mov	w9, wzr
	br	x15
.Lfilter_BB9_2:
	mov	x8, xzr
	mov	w9, wzr
	mov	w10, #2
	b	.Lfilter_BB9_17
.Lfilter_BB9_3:
	mov	x10, xzr
	mov	x12, xzr
	mov	x9, xzr
	b	.Lfilter_BB9_18
.Lfilter_BB9_4:
	mov	w9, wzr
	mov	w10, #13
	b	.Lfilter_BB9_17
.Lfilter_BB9_5:
	mov	w9, wzr
	mov	w10, #10
	b	.Lfilter_BB9_17
.Lfilter_BB9_6:
	mov	w9, wzr
	mov	w10, #4
	mov	x8, x13
	b	.Lfilter_BB9_17
.Lfilter_BB9_7:
	mov	w9, wzr
	mov	w10, #11
	b	.Lfilter_BB9_17
.Lfilter_BB9_8:
	mov	w9, wzr
	mov	w8, w13
	mov	w10, #9
	b	.Lfilter_BB9_17
.Lfilter_BB9_9:
	mov	w9, wzr
	mov	w10, #14
	b	.Lfilter_BB9_17
.Lfilter_BB9_10:
	mov	w10, #3
	mov	w9, w12
	b	.Lfilter_BB9_17
.Lfilter_BB9_11:
	mov	x8, xzr
	mov	w9, wzr
	mov	w10, #7
	b	.Lfilter_BB9_17
.Lfilter_BB9_12:
	mov	w9, wzr
	mov	w10, #5
	b	.Lfilter_BB9_17
.Lfilter_BB9_13:
	mov	w9, wzr
	mov	w10, #12
	b	.Lfilter_BB9_17
.Lfilter_BB9_14:
	mov	w9, wzr
	mov	w10, #6
	b	.Lfilter_BB9_17
.Lfilter_BB9_15:
	mov	w10, #9
	mov	w9, w12
	b	.Lfilter_BB9_17
.Lfilter_BB9_16:
	mov	x8, xzr
	mov	w9, wzr
	mov	w10, #8
.Lfilter_BB9_17:
	mov	w11, wzr
	mov	w9, w9
	mov	x12, x8
	mov	x8, xzr
.Lfilter_BB9_18:
	stp	x10, x12, [x19]
	ldp	x22, x21, [sp, #368]
	stp	x9, x8, [x19, #16]
	ldp	x24, x23, [sp, #352]
	stp	w11, wzr, [x19, #32]
	ldp	x20, x19, [sp, #384]
	ldp	x28, x25, [sp, #336]
	ldp	x29, x30, [sp, #320]
	add	sp, sp, #400
	ret
.Lfilter_func_end9:
	.size	loamchalice_filtered_pixels_to_temperatures, .Lfilter_func_end9-loamchalice_filtered_pixels_to_temperatures
	.section	.rodata.loamchalice_filtered_pixels_to_temperatures,"a",@progbits
.Lfilter_JTI9_0:
	.byte	(.Lfilter_BB9_17-.Lfilter_BB9_2)>>2
	.byte	(.Lfilter_BB9_17-.Lfilter_BB9_2)>>2
	.byte	(.Lfilter_BB9_2-.Lfilter_BB9_2)>>2
	.byte	(.Lfilter_BB9_10-.Lfilter_BB9_2)>>2
	.byte	(.Lfilter_BB9_6-.Lfilter_BB9_2)>>2
	.byte	(.Lfilter_BB9_12-.Lfilter_BB9_2)>>2
	.byte	(.Lfilter_BB9_14-.Lfilter_BB9_2)>>2
	.byte	(.Lfilter_BB9_11-.Lfilter_BB9_2)>>2
	.byte	(.Lfilter_BB9_16-.Lfilter_BB9_2)>>2
	.byte	(.Lfilter_BB9_8-.Lfilter_BB9_2)>>2
	.byte	(.Lfilter_BB9_15-.Lfilter_BB9_2)>>2
	.byte	(.Lfilter_BB9_5-.Lfilter_BB9_2)>>2
	.byte	(.Lfilter_BB9_7-.Lfilter_BB9_2)>>2
	.byte	(.Lfilter_BB9_13-.Lfilter_BB9_2)>>2
	.byte	(.Lfilter_BB9_4-.Lfilter_BB9_2)>>2
	.byte	(.Lfilter_BB9_9-.Lfilter_BB9_2)>>2

	.type	.Lfilter_switch.table.roots.fourth_roots,@object
	.section	.rodata.cst32,"aM",@progbits,32
	.p2align	3, 0x0
.Lfilter_switch.table.roots.fourth_roots:
	.xword	0x4160000000000000
	.xword	0x4166a09e667f3bcd
	.xword	0x4160000000000000
	.xword	0x4166a09e667f3bcd
	.size	.Lfilter_switch.table.roots.fourth_roots, 32

	.type	.Lfilter_switch.table.roots.fourth_roots.10,@object
	.p2align	3, 0x0
.Lfilter_switch.table.roots.fourth_roots.10:
	.xword	0x3fe0000000000000
	.xword	0x3fdae89f995ad3ad
	.xword	0x3fe6a09e667f3bcd
	.xword	0x3fe306fe0a31b715
	.size	.Lfilter_switch.table.roots.fourth_roots.10, 32

// reader
	.section	.text.loamchalice_reader_new,"ax",@progbits
	.globl	loamchalice_reader_new
	.p2align	2
	.type	loamchalice_reader_new,@function
loamchalice_reader_new:
	movi	v0.2d, #0000000000000000
	mov	w9, #832
	str	xzr, [x8, #184]
	str	x9, [x8, #48]
	stp	q0, q0, [x8, #16]
	str	q0, [x8]
	stur	q0, [x8, #56]
	stur	q0, [x8, #72]
	stur	q0, [x8, #88]
	stur	q0, [x8, #104]
	stur	q0, [x8, #120]
	stur	q0, [x8, #136]
	stur	q0, [x8, #152]
	stur	q0, [x8, #168]
	ret
.Lreader_func_end0:
	.size	loamchalice_reader_new, .Lreader_func_end0-loamchalice_reader_new

	.section	.text.loamchalice_reader_finished,"ax",@progbits
	.globl	loamchalice_reader_finished
	.p2align	2
	.type	loamchalice_reader_finished,@function
loamchalice_reader_finished:
	ldrb	w11, [x0, #8]
	ldr	x10, [x0]
	cbz	w11, .Lreader_BB1_2
	sub	sp, sp, #96
	ldur	q0, [x0, #100]
	ldur	q1, [x0, #116]
	ldur	q2, [x0, #132]
	ldur	w9, [x0, #9]
	ldr	w12, [x0, #12]
	ldr	x13, [x0, #48]
	stp	q0, q1, [sp, #48]
	ldur	q0, [x0, #172]
	ldur	q1, [x0, #156]
	str	w9, [sp, #88]
	ldr	w9, [x0, #188]
	ldr	d3, [x0, #88]
	stp	q0, q2, [sp, #16]
	ldur	q0, [x0, #56]
	ldr	s2, [x0, #96]
	str	q1, [sp]
	ldur	q1, [x0, #72]
	stur	w12, [sp, #91]
	ldur	x12, [x0, #148]
	ldp	q4, q5, [x0, #16]
	stur	q0, [x8, #56]
	stur	q1, [x8, #72]
	ldp	q0, q1, [sp, #48]
	str	x10, [x8]
	ldr	w10, [sp, #88]
	strb	w11, [x8, #8]
	ldur	w11, [sp, #91]
	stur	q0, [x8, #100]
	ldr	q0, [sp, #32]
	stur	q1, [x8, #116]
	stur	q0, [x8, #132]
	ldp	q1, q0, [sp]
	stur	w10, [x8, #9]
	str	w11, [x8, #12]
	stp	q4, q5, [x8, #16]
	str	x13, [x8, #48]
	str	d3, [x8, #88]
	str	s2, [x8, #96]
	stur	x12, [x8, #148]
	stur	q0, [x8, #172]
	stur	q1, [x8, #156]
	add	sp, sp, #96
	str	w9, [x8, #188]
	ret
.Lreader_BB1_2:
	movi	v0.2d, #0000000000000000
	cmp	x10, #1664
	str	x10, [x8]
	cset	w11, lo
	csel	x10, x10, xzr, lo
	stur	wzr, [x8, #9]
	stp	x11, x10, [x8, #16]
	mov	w10, #832
	strb	w11, [x8, #8]
	str	wzr, [x8, #12]
	stp	xzr, xzr, [x8, #32]
	str	x10, [x8, #48]
	stur	q0, [x8, #56]
	stur	q0, [x8, #72]
	stur	q0, [x8, #88]
	stur	q0, [x8, #104]
	stur	q0, [x8, #120]
	stur	q0, [x8, #136]
	stur	q0, [x8, #152]
	stur	q0, [x8, #168]
	str	xzr, [x8, #184]
	ret
.Lreader_func_end1:
	.size	loamchalice_reader_finished, .Lreader_func_end1-loamchalice_reader_finished

	.section	.rodata.cst8,"aM",@progbits,8
	.p2align	3, 0x0
.Lreader_CPI2_0:
	.hword	65496
	.hword	65516
	.hword	0
	.hword	80
	.section	.text.loamchalice_reader_take,"ax",@progbits
	.globl	loamchalice_reader_take
	.p2align	2
	.type	loamchalice_reader_take,@function
loamchalice_reader_take:
	stp	d15, d14, [sp, #-160]!
	stp	d13, d12, [sp, #16]
	stp	d11, d10, [sp, #32]
	stp	d9, d8, [sp, #48]
	stp	x29, x30, [sp, #64]
	add	x29, sp, #64
	stp	x28, x27, [sp, #80]
	stp	x26, x25, [sp, #96]
	stp	x24, x23, [sp, #112]
	stp	x22, x21, [sp, #128]
	stp	x20, x19, [sp, #144]
	sub	sp, sp, #2400
	str	xzr, [sp]
	cmp	x2, #0
	ldr	x13, [x29, #104]
	ldr	x9, [x1]
	stp	x0, x6, [sp, #24]
	mov	w0, #4096
	csel	x14, x0, xzr, eq
	cmp	x5, #0
	str	x4, [sp, #16]
	str	x9, [sp, #200]
	ldr	x9, [x1, #16]
	ldr	x12, [x29, #120]
	csel	x4, x0, xzr, eq
	cmp	x7, #0
	ldr	x10, [x29, #136]
	str	x9, [sp, #160]
	ldr	x9, [x1, #24]
	movi	v27.2d, #0000000000000000
	csel	x6, x0, xzr, eq
	cmp	x13, #0
	mov	x16, x7
	str	x9, [sp, #128]
	ldr	x9, [x1, #32]
	csel	x7, x0, xzr, eq
	ldp	s0, s1, [x1, #56]
	cmp	x12, #0
	str	x9, [sp, #96]
	ldr	x9, [x1, #40]
	ldrb	w27, [x1, #8]
	ldp	s2, s3, [x1, #64]
	mov	x23, x2
	str	x9, [sp, #80]
	ldr	x9, [x1, #48]
	mov	x15, x5
	ldp	s4, s5, [x1, #72]
	ldr	s26, [x1, #128]
	str	x9, [sp, #64]
	ldrh	w9, [x1, #132]
	ldrh	w5, [x1, #134]
	ldp	s6, s7, [x1, #80]
	csel	x20, x0, xzr, eq
	ldp	s16, s17, [x1, #88]
	cmp	x10, #0
	ldp	s18, s19, [x1, #96]
	add	x18, sp, #376
	ldp	s20, s21, [x1, #104]
	csel	x0, x0, xzr, eq
	ldp	s22, s23, [x1, #112]
	str	w9, [sp, #40]
	ldp	s24, s25, [x1, #120]
	ldrh	w21, [x1, #136]
	ldrh	w2, [x1, #138]
	ldrh	w25, [x1, #140]
	ldrh	w9, [x1, #142]
	ldrh	w30, [x1, #144]
	ldrh	w22, [x1, #146]
	ldrh	w28, [x1, #148]
	ldrh	w24, [x1, #150]
	ldrh	w17, [x1, #152]
	ldrb	w19, [x1, #154]
	ldrb	w26, [x1, #155]
	ldr	w11, [x1, #188]
	stur	wzr, [x18, #3]
	str	wzr, [sp, #376]
	stp	q27, q27, [sp, #208]
	stp	q27, q27, [sp, #240]
	stp	q27, q27, [sp, #272]
	stp	q27, q27, [sp, #304]
	stp	q27, q27, [sp, #336]
	str	w11, [sp, #48]
	cbz	w27, .Lreader_BB2_2
	ldur	w15, [x1, #9]
	ldr	w16, [x1, #12]
	ldur	q27, [x1, #156]
	ldur	q28, [x1, #172]
	ldr	x10, [sp, #200]
	stp	s0, s1, [x8, #56]
	str	w15, [sp, #376]
	ldr	x11, [sp, #128]
	ldr	x12, [sp, #96]
	stur	w16, [x18, #3]
	mov	w16, w16
	ldr	x13, [sp, #80]
	stp	q27, q28, [sp, #304]
	ldr	w15, [sp, #376]
	ldr	x14, [sp, #64]
	stp	q27, q28, [sp, #336]
	ldr	w18, [sp, #40]
	stp	s0, s1, [x8, #232]
	ldp	q27, q28, [sp, #336]
	str	x10, [x8]
	ldr	x10, [sp, #160]
	stur	w15, [x8, #9]
	mov	w15, w22
	strh	w22, [x8, #146]
	ldr	w22, [sp, #48]
	strh	w9, [x8, #142]
	ldp	q0, q1, [sp, #304]
	strh	w9, [x8, #318]
	add	x9, x8, #332
	strb	w27, [x8, #8]
	str	w16, [x8, #12]
	stp	x10, x11, [x8, #16]
	stp	x12, x13, [x8, #32]
	str	x14, [x8, #48]
	stp	s2, s3, [x8, #64]
	stp	s4, s5, [x8, #72]
	stp	s6, s7, [x8, #80]
	stp	s16, s17, [x8, #88]
	stp	s18, s19, [x8, #96]
	stp	s20, s21, [x8, #104]
	stp	s22, s23, [x8, #112]
	stp	s24, s25, [x8, #120]
	str	s26, [x8, #128]
	strh	w18, [x8, #132]
	strh	w5, [x8, #134]
	strh	w21, [x8, #136]
	strh	w2, [x8, #138]
	strh	w25, [x8, #140]
	strh	w30, [x8, #144]
	strh	w28, [x8, #148]
	strh	w24, [x8, #150]
	strh	w17, [x8, #152]
	strb	w19, [x8, #154]
	strb	w26, [x8, #155]
	stur	q27, [x8, #156]
	stur	q28, [x8, #172]
	str	w22, [x8, #188]
	stp	x10, x11, [x8, #192]
	stp	x12, x13, [x8, #208]
	str	x14, [x8, #224]
	stp	s2, s3, [x8, #240]
	stp	s4, s5, [x8, #248]
	str	s6, [x8, #256]
	str	s7, [x8, #260]
	str	s16, [x8, #264]
	str	s17, [x8, #268]
	str	s18, [x8, #272]
	str	s19, [x8, #276]
	str	s20, [x8, #280]
	str	s21, [x8, #284]
	str	s22, [x8, #288]
	str	s23, [x8, #292]
	str	s24, [x8, #296]
	str	s25, [x8, #300]
	str	s26, [x8, #304]
	strh	w18, [x8, #308]
	strh	w5, [x8, #310]
	strh	w21, [x8, #312]
	strh	w2, [x8, #314]
	strh	w25, [x8, #316]
	strh	w30, [x8, #320]
	strh	w15, [x8, #322]
	strh	w28, [x8, #324]
	strh	w24, [x8, #326]
	strh	w17, [x8, #328]
	strb	w19, [x8, #330]
	strb	w26, [x8, #331]
	stp	q0, q1, [x9]
	str	w22, [x8, #364]
	b	.Lreader_BB2_22
.Lreader_BB2_2:
	ldp	x19, x18, [sp, #24]
	mov	x17, x13
	ldr	x9, [x29, #96]
	mov	x13, x10
	ldr	x10, [x29, #144]
	ldr	x11, [x29, #128]
	mov	x1, x14
	mov	x14, x12
	cmp	x18, x9
	ldr	x12, [x29, #112]
	stp	q27, q27, [sp, #384]
	csel	x9, x18, x9, lo
	cmp	x11, x10
	stp	q27, q27, [sp, #416]
	csel	x10, x11, x10, lo
	stp	q27, q27, [sp, #448]
	cmp	x12, x10
	csel	x10, x12, x10, lo
	cmp	x9, x10
	csel	x9, x9, x10, lo
	cmp	x9, #192
	b.hs	.Lreader_BB2_8
	movi	v0.2d, #0000000000000000
	mov	w6, wzr
	mov	w17, wzr
	mov	x11, xzr
	mov	x20, xzr
	mov	w15, wzr
.Lreader_BB2_4:
	mov	w21, #2
.Lreader_BB2_5:
	stp	q0, q0, [sp, #208]
.Lreader_BB2_6:
	movi	v24.2d, #0000000000000000
	movi	d23, #0000000000000000
	mov	w5, wzr
	movi	d18, #0000000000000000
	movi	d16, #0000000000000000
	mov	w18, wzr
	movi	d21, #0000000000000000
	movi	d22, #0000000000000000
	mov	w0, wzr
	movi	d20, #0000000000000000
	movi	d19, #0000000000000000
	mov	w16, wzr
	movi	d17, #0000000000000000
	movi	d7, #0000000000000000
	mov	w7, wzr
	movi	d6, #0000000000000000
	movi	d5, #0000000000000000
	mov	w22, wzr
	movi	d4, #0000000000000000
	movi	d3, #0000000000000000
	mov	w23, wzr
	movi	d2, #0000000000000000
	movi	d1, #0000000000000000
	mov	x9, xzr
	movi	d0, #0000000000000000
	mov	w14, wzr
	mov	w13, wzr
	mov	w12, wzr
	mov	w1, wzr
	mov	w2, wzr
	mov	w3, wzr
	mov	w4, wzr
	and	x24, x17, #0xffff
	and	w17, w15, #0xffff
	mov	w10, #832
	mov	w15, wzr
	stp	q24, q24, [x29, #-112]
.Lreader_BB2_7:
	ldp	q24, q25, [sp, #208]
	stp	s0, s1, [x8, #100]
	str	s0, [x8, #276]
	ldr	x19, [sp, #200]
	str	s1, [x8, #280]
	ldp	q0, q1, [x29, #-112]
	stp	x24, x9, [x8, #32]
	stp	x17, x9, [x8, #208]
	add	x9, x8, #332
	stur	q24, [x8, #156]
	str	x19, [x8]
	strb	w6, [x8, #8]
	stur	wzr, [x8, #9]
	str	wzr, [x8, #12]
	stp	x20, x11, [x8, #16]
	str	x10, [x8, #48]
	stp	w23, w22, [x8, #56]
	str	w15, [x8, #64]
	stp	s17, s19, [x8, #68]
	stp	s20, s22, [x8, #76]
	stp	s21, s16, [x8, #84]
	stp	s18, s23, [x8, #92]
	stp	s2, s3, [x8, #108]
	stp	s4, s5, [x8, #116]
	stp	s6, s7, [x8, #124]
	strh	w4, [x8, #132]
	strh	w3, [x8, #134]
	strh	wzr, [x8, #136]
	strh	w2, [x8, #138]
	strh	w1, [x8, #140]
	strh	w12, [x8, #142]
	strh	w13, [x8, #144]
	strh	w14, [x8, #146]
	strh	w7, [x8, #148]
	strh	w16, [x8, #150]
	strh	w0, [x8, #152]
	strb	w18, [x8, #154]
	strb	w5, [x8, #155]
	stur	q25, [x8, #172]
	str	wzr, [x8, #188]
	stp	x21, x11, [x8, #192]
	str	x10, [x8, #224]
	stp	w23, w22, [x8, #232]
	str	w15, [x8, #240]
	stp	s17, s19, [x8, #244]
	stp	s20, s22, [x8, #252]
	str	s21, [x8, #260]
	str	s16, [x8, #264]
	str	s18, [x8, #268]
	str	s23, [x8, #272]
	str	s2, [x8, #284]
	str	s3, [x8, #288]
	str	s4, [x8, #292]
	str	s5, [x8, #296]
	str	s6, [x8, #300]
	str	s7, [x8, #304]
	strh	w4, [x8, #308]
	strh	w3, [x8, #310]
	strh	wzr, [x8, #312]
	strh	w2, [x8, #314]
	strh	w1, [x8, #316]
	strh	w12, [x8, #318]
	strh	w13, [x8, #320]
	strh	w14, [x8, #322]
	strh	w7, [x8, #324]
	strh	w16, [x8, #326]
	strh	w0, [x8, #328]
	strb	w18, [x8, #330]
	strb	w5, [x8, #331]
	stp	q0, q1, [x9]
	str	wzr, [x8, #364]
	b	.Lreader_BB2_22
.Lreader_BB2_8:
	cbz	x3, .Lreader_BB2_21
	add	x18, x17, x7
	ldr	x7, [sp, #200]
	mov	w10, #1664
	mov	x28, #27995
	mov	x26, #5645
	mov	x27, #72340172838076673
	cmp	x7, #1664
	movk	x28, #61582, lsl #16
	movk	x26, #18215, lsl #16
	csel	x10, x7, x10, lo
	add	x9, x23, x1
	add	x25, x15, x4
	add	x23, x16, x6
	add	x16, x14, x20
	add	x14, x13, x0
	movk	x28, #255, lsl #32
	movk	x26, #255, lsl #32
	and	x27, x27, #0xffffffffff
	sub	x10, x10, #1664
	b	.Lreader_BB2_11
.Lreader_BB2_10:
	subs	x3, x3, #1
	add	x10, x10, #1
	add	x7, x7, #1
	b.eq	.Lreader_BB2_19
.Lreader_BB2_11:
	cbz	x10, .Lreader_BB2_19
	ldrb	w11, [x9], #1
	strb	w11, [x19, x7]
	tbz	w7, #0, .Lreader_BB2_10
	lsr	x11, x7, #1
	cmp	x11, #63
	b.hi	.Lreader_BB2_16
	mov	w12, #1
	mov	x13, #31522816
	lsl	x12, x12, x11
	movk	x13, #31948, lsl #32
	movk	x13, #64542, lsl #48
	tst	x12, x13
	b.eq	.Lreader_BB2_16
.Lreader_BB2_15:
	and	x12, x7, #0x7fe
	add	x12, x19, x12
	ldrb	w15, [x12, #1]
	ldrb	w17, [x12]
	mul	x12, x15, x27
	mul	x13, x17, x27
	and	x12, x12, x28
	and	x13, x13, x26
	eor	x12, x12, x13
	mov	x13, #-4294967296
	eor	x12, x12, x12, lsr #4
	eor	x12, x12, x12, lsr #2
	eor	x12, x12, x12, lsr #1
	and	x12, x12, x27
	add	x12, x12, x13
	cmp	x12, x13
	b.ls	.Lreader_BB2_10
	b	.Lreader_BB2_60
.Lreader_BB2_16:
	cmp	x7, #83
	b.hi	.Lreader_BB2_15
	cmp	x7, #32
	b.lo	.Lreader_BB2_10
	sub	x12, x11, #21
	cmn	x12, #3
	b.ls	.Lreader_BB2_15
	b	.Lreader_BB2_10
.Lreader_BB2_19:
	movi	v0.2d, #0000000000000000
	cmp	x7, #1663
	str	x7, [sp, #200]
	stp	q0, q0, [sp, #480]
	b.hi	.Lreader_BB2_23
	movi	v24.2d, #0000000000000000
	mov	w7, wzr
	mov	w6, wzr
	mov	w16, wzr
	mov	w18, wzr
	mov	x11, xzr
	mov	w17, wzr
	mov	w20, wzr
	mov	w4, wzr
	mov	w3, wzr
	mov	w2, wzr
	mov	w1, wzr
	mov	w12, wzr
	mov	w13, wzr
	mov	w14, wzr
	mov	w0, wzr
	mov	w5, wzr
	mov	x9, xzr
	mov	x10, xzr
	movi	d17, #0000000000000000
	movi	d19, #0000000000000000
	movi	d20, #0000000000000000
	movi	d0, #0000000000000000
	movi	d1, #0000000000000000
	movi	d2, #0000000000000000
	movi	d3, #0000000000000000
	movi	d4, #0000000000000000
	movi	d5, #0000000000000000
	movi	d6, #0000000000000000
	movi	d7, #0000000000000000
	movi	d22, #0000000000000000
	movi	d21, #0000000000000000
	movi	d16, #0000000000000000
	movi	d18, #0000000000000000
	movi	d23, #0000000000000000
	stp	q24, q24, [sp, #448]
	mov	w21, #1
	ldp	q24, q25, [sp, #448]
	stp	q24, q25, [sp, #240]
	stp	q24, q25, [sp, #272]
.Lreader_BB2_21:
	movi	v0.2d, #0000000000000000
	ldr	x9, [sp, #200]
	str	xzr, [x8, #360]
	str	x9, [x8]
	mov	w9, #832
	stp	xzr, x9, [x8, #40]
	stur	q0, [x8, #8]
	stur	q0, [x8, #24]
	stur	q0, [x8, #56]
	stur	q0, [x8, #72]
	stur	q0, [x8, #88]
	stur	q0, [x8, #104]
	stur	q0, [x8, #120]
	stur	q0, [x8, #136]
	stur	q0, [x8, #152]
	stur	q0, [x8, #168]
	stur	q0, [x8, #184]
	stur	q0, [x8, #200]
	stp	xzr, x9, [x8, #216]
	stur	q0, [x8, #248]
	str	q0, [x8, #232]!
	stp	q0, q0, [x8, #32]
	stp	q0, q0, [x8, #64]
	stp	q0, q0, [x8, #96]
.Lreader_BB2_22:
	add	sp, sp, #2400
	ldp	x20, x19, [sp, #144]
	ldp	x22, x21, [sp, #128]
	ldp	x24, x23, [sp, #112]
	ldp	x26, x25, [sp, #96]
	ldp	x28, x27, [sp, #80]
	ldp	x29, x30, [sp, #64]
	ldp	d9, d8, [sp, #48]
	ldp	d11, d10, [sp, #32]
	ldp	d13, d12, [sp, #16]
	ldp	d15, d14, [sp], #160
	ret
.Lreader_BB2_23:
	add	x0, sp, #544
	mov	w1, wzr
	mov	w2, #1664
	stp	x18, x16, [sp]
	add	x24, sp, #544
	stp	x14, x8, [sp, #32]
	stp	q0, q0, [sp, #512]
	bl	memset
	ldr	x11, [sp, #16]
	ldr	x8, [sp, #40]
	mov	x12, x19
	mov	x9, xzr
	mov	x15, xzr
	add	x13, x19, #32
	add	x14, x24, #32
	mov	w10, #832
.Lreader_BB2_24:
	cmp	x15, #24
	b.lo	.Lreader_BB2_46
	and	x17, x15, #0x7
	cbnz	x17, .Lreader_BB2_46
	mov	x18, #-3689348814741910324
	sub	x17, x15, #32
	movk	x18, #52429
	mul	x17, x17, x18
	mov	x18, #-7378697629483820647
	movk	x18, #409, lsl #48
	ror	x17, x17, #5
	cmp	x17, x18
	b.hi	.Lreader_BB2_28
	add	x17, x12, x15, lsl #1
	add	x16, sp, #160
	movi	v7.16b, #240
	movi	v22.16b, #142
	movi	v18.16b, #39
	add	x18, x17, #288
	add	x0, x17, #256
	ld2	{ v0.16b, v1.16b }, [x18]
	add	x18, x17, #224
	st1	{ v0.2d, v1.2d }, [x16]
	ld2	{ v0.16b, v1.16b }, [x0]
	add	x16, sp, #128
	add	x0, x17, #192
	ld2	{ v19.16b, v20.16b }, [x0]
	add	x0, x17, #128
	ld2	{ v26.16b, v27.16b }, [x0]
	st1	{ v0.2d, v1.2d }, [x16]
	ld2	{ v0.16b, v1.16b }, [x18]
	add	x18, x17, #160
	add	x16, sp, #96
	ld2	{ v23.16b, v24.16b }, [x18]
	add	x18, x17, #96
	ld2	{ v28.16b, v29.16b }, [x18]
	add	x18, x17, #64
	ld2	{ v30.16b, v31.16b }, [x18]
	st1	{ v0.2d, v1.2d }, [x16]
	movi	v0.16b, #71
	movi	v1.16b, #109
	ld2	{ v10.16b, v11.16b }, [x17], #32
	ld2	{ v8.16b, v9.16b }, [x17]
	add	x16, sp, #96
	and	v4.16b, v11.16b, v7.16b
	and	v16.16b, v10.16b, v0.16b
	eor	v21.16b, v11.16b, v10.16b
	and	v12.16b, v9.16b, v7.16b
	and	v13.16b, v8.16b, v0.16b
	and	v14.16b, v11.16b, v22.16b
	and	v15.16b, v9.16b, v22.16b
	and	v5.16b, v8.16b, v18.16b
	and	v2.16b, v11.16b, v1.16b
	eor	v4.16b, v4.16b, v16.16b
	cnt	v25.16b, v21.16b
	movi	v21.16b, #22
	eor	v17.16b, v12.16b, v13.16b
	movi	v16.16b, #91
	and	v3.16b, v9.16b, v1.16b
	cnt	v6.16b, v4.16b
	and	v4.16b, v10.16b, v18.16b
	and	v0.16b, v10.16b, v21.16b
	and	v1.16b, v8.16b, v21.16b
	eor	v13.16b, v14.16b, v4.16b
	eor	v4.16b, v15.16b, v5.16b
	and	v14.16b, v11.16b, v16.16b
	eor	v12.16b, v2.16b, v0.16b
	orr	v0.16b, v6.16b, v25.16b
	and	v6.16b, v31.16b, v22.16b
	eor	v15.16b, v3.16b, v1.16b
	and	v16.16b, v31.16b, v7.16b
	and	v2.16b, v30.16b, v18.16b
	stp	q4, q17, [sp, #48]
	and	v4.16b, v29.16b, v22.16b
	movi	v22.16b, #109
	str	q0, [sp, #80]
	movi	v0.16b, #71
	and	v17.16b, v29.16b, v7.16b
	movi	v25.16b, #13
	eor	v2.16b, v6.16b, v2.16b
	and	v3.16b, v28.16b, v18.16b
	eor	v6.16b, v9.16b, v8.16b
	and	v1.16b, v31.16b, v22.16b
	and	v7.16b, v30.16b, v0.16b
	and	v5.16b, v28.16b, v0.16b
	and	v0.16b, v30.16b, v21.16b
	cnt	v2.16b, v2.16b
	and	v18.16b, v10.16b, v25.16b
	and	v10.16b, v29.16b, v22.16b
	eor	v3.16b, v4.16b, v3.16b
	cnt	v4.16b, v13.16b
	and	v22.16b, v30.16b, v25.16b
	eor	v0.16b, v1.16b, v0.16b
	eor	v7.16b, v16.16b, v7.16b
	eor	v5.16b, v17.16b, v5.16b
	eor	v16.16b, v31.16b, v30.16b
	cnt	v17.16b, v12.16b
	movi	v12.16b, #91
	eor	v30.16b, v29.16b, v28.16b
	and	v11.16b, v28.16b, v21.16b
	cnt	v3.16b, v3.16b
	cnt	v0.16b, v0.16b
	cnt	v7.16b, v7.16b
	cnt	v5.16b, v5.16b
	cnt	v16.16b, v16.16b
	cnt	v6.16b, v6.16b
	movi	v13.16b, #22
	and	v21.16b, v31.16b, v12.16b
	orr	v4.16b, v4.16b, v17.16b
	eor	v17.16b, v14.16b, v18.16b
	eor	v1.16b, v10.16b, v11.16b
	ldr	q18, [sp, #80]
	cnt	v11.16b, v15.16b
	orr	v0.16b, v2.16b, v0.16b
	cnt	v2.16b, v30.16b
	movi	v30.16b, #91
	orr	v7.16b, v7.16b, v16.16b
	eor	v16.16b, v21.16b, v22.16b
	cnt	v17.16b, v17.16b
	cnt	v1.16b, v1.16b
	orr	v4.16b, v18.16b, v4.16b
	and	v21.16b, v9.16b, v12.16b
	ldp	q10, q31, [sp, #48]
	and	v22.16b, v8.16b, v25.16b
	orr	v2.16b, v5.16b, v2.16b
	cnt	v5.16b, v16.16b
	orr	v0.16b, v7.16b, v0.16b
	orr	v4.16b, v4.16b, v17.16b
	movi	v17.16b, #71
	and	v7.16b, v28.16b, v25.16b
	orr	v1.16b, v3.16b, v1.16b
	and	v3.16b, v29.16b, v30.16b
	cnt	v31.16b, v31.16b
	cnt	v10.16b, v10.16b
	eor	v16.16b, v21.16b, v22.16b
	movi	v21.16b, #142
	orr	v0.16b, v0.16b, v5.16b
	movi	v5.16b, #240
	movi	v25.16b, #39
	orr	v1.16b, v2.16b, v1.16b
	eor	v2.16b, v3.16b, v7.16b
	and	v7.16b, v26.16b, v17.16b
	orr	v6.16b, v31.16b, v6.16b
	movi	v29.16b, #109
	movi	v31.16b, #22
	orr	v18.16b, v10.16b, v11.16b
	cnt	v16.16b, v16.16b
	and	v17.16b, v23.16b, v17.16b
	and	v3.16b, v27.16b, v5.16b
	and	v5.16b, v24.16b, v5.16b
	and	v22.16b, v26.16b, v25.16b
	and	v25.16b, v23.16b, v25.16b
	cnt	v2.16b, v2.16b
	orr	v0.16b, v0.16b, v4.16b
	orr	v6.16b, v6.16b, v18.16b
	and	v18.16b, v27.16b, v21.16b
	and	v21.16b, v24.16b, v21.16b
	eor	v3.16b, v3.16b, v7.16b
	eor	v7.16b, v27.16b, v26.16b
	and	v28.16b, v27.16b, v29.16b
	and	v29.16b, v24.16b, v29.16b
	and	v30.16b, v26.16b, v31.16b
	and	v31.16b, v23.16b, v31.16b
	eor	v5.16b, v5.16b, v17.16b
	eor	v17.16b, v18.16b, v22.16b
	eor	v18.16b, v21.16b, v25.16b
	cnt	v7.16b, v7.16b
	cnt	v3.16b, v3.16b
	eor	v21.16b, v24.16b, v23.16b
	eor	v22.16b, v28.16b, v30.16b
	eor	v25.16b, v29.16b, v31.16b
	orr	v29.16b, v6.16b, v16.16b
	movi	v6.16b, #240
	movi	v9.16b, #39
	movi	v10.16b, #109
	cnt	v21.16b, v21.16b
	cnt	v5.16b, v5.16b
	cnt	v17.16b, v17.16b
	orr	v30.16b, v3.16b, v7.16b
	movi	v7.16b, #71
	cnt	v18.16b, v18.16b
	cnt	v22.16b, v22.16b
	cnt	v25.16b, v25.16b
	movi	v14.16b, #13
	ld1	{ v11.2d, v12.2d }, [x16]
	movi	v16.16b, #142
	orr	v8.16b, v1.16b, v2.16b
	str	q0, [sp, #80]
	and	v0.16b, v20.16b, v6.16b
	movi	v28.16b, #91
	and	v1.16b, v19.16b, v7.16b
	orr	v31.16b, v5.16b, v21.16b
	and	v21.16b, v19.16b, v13.16b
	and	v6.16b, v12.16b, v6.16b
	and	v7.16b, v11.16b, v7.16b
	orr	v2.16b, v17.16b, v22.16b
	orr	v3.16b, v18.16b, v25.16b
	and	v5.16b, v26.16b, v14.16b
	and	v17.16b, v19.16b, v9.16b
	eor	v0.16b, v0.16b, v1.16b
	and	v1.16b, v20.16b, v16.16b
	and	v16.16b, v12.16b, v16.16b
	and	v18.16b, v20.16b, v10.16b
	and	v22.16b, v11.16b, v9.16b
	and	v25.16b, v12.16b, v10.16b
	and	v26.16b, v11.16b, v13.16b
	and	v4.16b, v27.16b, v28.16b
	eor	v6.16b, v6.16b, v7.16b
	eor	v27.16b, v12.16b, v11.16b
	eor	v7.16b, v20.16b, v19.16b
	eor	v1.16b, v1.16b, v17.16b
	eor	v17.16b, v18.16b, v21.16b
	eor	v16.16b, v16.16b, v22.16b
	and	v21.16b, v23.16b, v14.16b
	eor	v22.16b, v25.16b, v26.16b
	movi	v23.16b, #13
	cnt	v6.16b, v6.16b
	cnt	v25.16b, v27.16b
	and	v18.16b, v24.16b, v28.16b
	cnt	v7.16b, v7.16b
	cnt	v0.16b, v0.16b
	cnt	v1.16b, v1.16b
	cnt	v17.16b, v17.16b
	orr	v24.16b, v8.16b, v29.16b
	cnt	v16.16b, v16.16b
	cnt	v22.16b, v22.16b
	orr	v26.16b, v31.16b, v3.16b
	and	v3.16b, v19.16b, v23.16b
	add	x16, sp, #128
	movi	v8.16b, #71
	eor	v31.16b, v18.16b, v21.16b
	str	q24, [sp, #64]
	orr	v24.16b, v30.16b, v2.16b
	and	v2.16b, v20.16b, v28.16b
	orr	v20.16b, v6.16b, v25.16b
	movi	v25.16b, #240
	orr	v19.16b, v0.16b, v7.16b
	orr	v27.16b, v1.16b, v17.16b
	orr	v29.16b, v16.16b, v22.16b
	and	v1.16b, v11.16b, v23.16b
	ld1	{ v21.2d, v22.2d }, [x16]
	movi	v11.16b, #142
	movi	v0.16b, #13
	add	x16, sp, #160
	eor	v30.16b, v4.16b, v5.16b
	eor	v23.16b, v2.16b, v3.16b
	ld1	{ v14.2d, v15.2d }, [x16]
	and	v6.16b, v12.16b, v28.16b
	orr	v19.16b, v19.16b, v27.16b
	and	v3.16b, v22.16b, v25.16b
	and	v4.16b, v21.16b, v8.16b
	eor	v2.16b, v22.16b, v21.16b
	and	v5.16b, v22.16b, v11.16b
	and	v7.16b, v21.16b, v9.16b
	and	v16.16b, v22.16b, v10.16b
	and	v17.16b, v21.16b, v13.16b
	and	v18.16b, v22.16b, v28.16b
	and	v21.16b, v21.16b, v0.16b
	and	v22.16b, v15.16b, v25.16b
	and	v25.16b, v14.16b, v8.16b
	and	v8.16b, v15.16b, v11.16b
	and	v9.16b, v14.16b, v9.16b
	and	v10.16b, v15.16b, v10.16b
	and	v11.16b, v14.16b, v13.16b
	eor	v3.16b, v3.16b, v4.16b
	and	v13.16b, v14.16b, v0.16b
	eor	v14.16b, v15.16b, v14.16b
	eor	v4.16b, v22.16b, v25.16b
	eor	v5.16b, v5.16b, v7.16b
	eor	v16.16b, v16.16b, v17.16b
	eor	v7.16b, v8.16b, v9.16b
	eor	v17.16b, v10.16b, v11.16b
	eor	v0.16b, v6.16b, v1.16b
	cnt	v1.16b, v2.16b
	cnt	v2.16b, v3.16b
	and	v12.16b, v15.16b, v28.16b
	cnt	v22.16b, v30.16b
	cnt	v25.16b, v31.16b
	cnt	v3.16b, v14.16b
	cnt	v4.16b, v4.16b
	cnt	v5.16b, v5.16b
	cnt	v7.16b, v7.16b
	cnt	v16.16b, v16.16b
	cnt	v17.16b, v17.16b
	eor	v6.16b, v18.16b, v21.16b
	orr	v1.16b, v2.16b, v1.16b
	cnt	v2.16b, v23.16b
	eor	v18.16b, v12.16b, v13.16b
	cnt	v0.16b, v0.16b
	orr	v22.16b, v24.16b, v22.16b
	orr	v24.16b, v26.16b, v25.16b
	orr	v20.16b, v20.16b, v29.16b
	orr	v3.16b, v4.16b, v3.16b
	cnt	v6.16b, v6.16b
	orr	v4.16b, v5.16b, v16.16b
	orr	v5.16b, v7.16b, v17.16b
	cnt	v17.16b, v18.16b
	ldp	q16, q7, [sp, #64]
	orr	v2.16b, v19.16b, v2.16b
	orr	v0.16b, v20.16b, v0.16b
	orr	v1.16b, v1.16b, v4.16b
	orr	v3.16b, v3.16b, v5.16b
	orr	v7.16b, v22.16b, v7.16b
	orr	v16.16b, v24.16b, v16.16b
	orr	v1.16b, v1.16b, v6.16b
	orr	v3.16b, v3.16b, v17.16b
	orr	v2.16b, v2.16b, v7.16b
	orr	v0.16b, v0.16b, v16.16b
	orr	v1.16b, v1.16b, v2.16b
	orr	v0.16b, v3.16b, v0.16b
	movi	v2.16b, #1
	orr	v0.16b, v0.16b, v1.16b
	and	v0.16b, v0.16b, v2.16b
	ext	v1.16b, v0.16b, v0.16b, #8
	orr	v0.8b, v0.8b, v1.8b
	fmov	x17, d0
	orr	x17, x17, x17, lsr #32
	lsr	x18, x17, #16
	orr	w17, w17, w18
	orr	w17, w17, w17, lsr #8
	tst	w17, #0xff
	b.eq	.Lreader_BB2_34
.Lreader_BB2_28:
	lsl	x18, x15, #1
	tst	x15, #0x18
	b.eq	.Lreader_BB2_30
	mov	w3, #10
	orr	x17, x18, #0x2
	orr	x0, x18, #0x4
	orr	x1, x18, #0x6
	orr	x2, x18, #0x8
	orr	x3, x18, x3
	orr	x4, x18, #0xc
	orr	x5, x18, #0xe
	b	.Lreader_BB2_31
.Lreader_BB2_30:
	add	x6, x12, x18
	orr	x17, x18, #0x2
	orr	x0, x18, #0x4
	ldr	b0, [x6]
	add	x7, x12, x17
	add	x19, x12, x0
	orr	x1, x18, #0x6
	orr	x2, x18, #0x8
	mov	w3, #10
	ld1	{ v0.b }[1], [x7], #1
	add	x24, x12, x1
	add	x30, x12, x2
	orr	x3, x18, x3
	orr	x4, x18, #0xc
	add	x16, x12, x3
	add	x20, x12, x4
	orr	x5, x18, #0xe
	ld1	{ v0.b }[2], [x19], #1
	add	x21, x12, x5
	add	x22, x6, #16
	movi	v7.16b, #240
	movi	v16.16b, #71
	movi	v17.16b, #39
	movi	v18.16b, #22
	movi	v19.16b, #142
	ld1	{ v0.b }[3], [x24], #1
	movi	v20.16b, #109
	ld1	{ v0.b }[4], [x30], #1
	ld1	{ v0.b }[5], [x16], #1
	ld1	{ v0.b }[6], [x20], #1
	ld1	{ v0.b }[7], [x21], #1
	ldr	b1, [x6, #1]
	ld1	{ v0.b }[8], [x22]
	add	x22, x6, #18
	ld1	{ v0.b }[9], [x22]
	add	x22, x6, #20
	ld1	{ v0.b }[10], [x22]
	add	x22, x6, #22
	ld1	{ v0.b }[11], [x22]
	add	x22, x6, #24
	ld1	{ v0.b }[12], [x22]
	add	x22, x6, #26
	ld1	{ v0.b }[13], [x22]
	add	x22, x6, #28
	ld1	{ v0.b }[14], [x22]
	add	x22, x6, #30
	ld1	{ v0.b }[15], [x22]
	ld1	{ v1.b }[1], [x7]
	ld1	{ v1.b }[2], [x19]
	and	v21.16b, v0.16b, v17.16b
	and	v22.16b, v0.16b, v18.16b
	ld1	{ v1.b }[3], [x24]
	ld1	{ v1.b }[4], [x30]
	ld1	{ v1.b }[5], [x16]
	add	x16, x6, #19
	ld1	{ v1.b }[6], [x20]
	ld1	{ v1.b }[7], [x21]
	ldur	b2, [x6, #17]
	ld1	{ v2.b }[1], [x16]
	add	x16, x6, #21
	ld1	{ v2.b }[2], [x16]
	add	x16, x6, #23
	ld1	{ v2.b }[3], [x16]
	add	x16, x6, #25
	ld1	{ v2.b }[4], [x16]
	add	x16, x6, #27
	ld1	{ v2.b }[5], [x16]
	add	x16, x6, #29
	ld1	{ v2.b }[6], [x16]
	add	x16, x6, #31
	ld1	{ v2.b }[7], [x16]
	ldr	b3, [x6, #32]
	add	x16, x6, #34
	ld1	{ v3.b }[1], [x16]
	add	x16, x6, #36
	zip1	v1.2d, v1.2d, v2.2d
	ld1	{ v3.b }[2], [x16]
	add	x16, x6, #38
	and	v23.16b, v1.16b, v7.16b
	and	v24.16b, v1.16b, v19.16b
	and	v25.16b, v1.16b, v20.16b
	ld1	{ v3.b }[3], [x16]
	add	x16, x6, #40
	eor	v21.16b, v24.16b, v21.16b
	eor	v22.16b, v25.16b, v22.16b
	ld1	{ v3.b }[4], [x16]
	add	x16, x6, #42
	ld1	{ v3.b }[5], [x16]
	add	x16, x6, #44
	ld1	{ v3.b }[6], [x16]
	add	x16, x6, #46
	ld1	{ v3.b }[7], [x16]
	ldur	b4, [x6, #48]
	add	x16, x6, #50
	ld1	{ v4.b }[1], [x16]
	add	x16, x6, #52
	ld1	{ v4.b }[2], [x16]
	add	x16, x6, #54
	ld1	{ v4.b }[3], [x16]
	add	x16, x6, #56
	ld1	{ v4.b }[4], [x16]
	add	x16, x6, #58
	ld1	{ v4.b }[5], [x16]
	add	x16, x6, #60
	ld1	{ v4.b }[6], [x16]
	add	x16, x6, #62
	ld1	{ v4.b }[7], [x16]
	ldr	b5, [x6, #33]
	add	x16, x6, #35
	ld1	{ v5.b }[1], [x16]
	add	x16, x6, #37
	zip1	v2.2d, v3.2d, v4.2d
	movi	v4.16b, #91
	ld1	{ v5.b }[2], [x16]
	add	x16, x6, #39
	and	v17.16b, v2.16b, v17.16b
	and	v18.16b, v2.16b, v18.16b
	ld1	{ v5.b }[3], [x16]
	add	x16, x6, #41
	ld1	{ v5.b }[4], [x16]
	add	x16, x6, #43
	ld1	{ v5.b }[5], [x16]
	add	x16, x6, #45
	ld1	{ v5.b }[6], [x16]
	add	x16, x6, #47
	ld1	{ v5.b }[7], [x16]
	ldur	b6, [x6, #49]
	add	x16, x6, #51
	ld1	{ v6.b }[1], [x16]
	add	x16, x6, #53
	ld1	{ v6.b }[2], [x16]
	add	x16, x6, #55
	ld1	{ v6.b }[3], [x16]
	add	x16, x6, #57
	ld1	{ v6.b }[4], [x16]
	add	x16, x6, #59
	ld1	{ v6.b }[5], [x16]
	add	x16, x6, #61
	ld1	{ v6.b }[6], [x16]
	add	x16, x6, #63
	ld1	{ v6.b }[7], [x16]
	zip1	v3.2d, v5.2d, v6.2d
	and	v6.16b, v0.16b, v16.16b
	and	v16.16b, v2.16b, v16.16b
	movi	v5.16b, #13
	eor	v6.16b, v23.16b, v6.16b
	eor	v23.16b, v1.16b, v0.16b
	and	v1.16b, v1.16b, v4.16b
	and	v7.16b, v3.16b, v7.16b
	and	v19.16b, v3.16b, v19.16b
	and	v20.16b, v3.16b, v20.16b
	and	v0.16b, v0.16b, v5.16b
	cnt	v6.16b, v6.16b
	eor	v7.16b, v7.16b, v16.16b
	eor	v16.16b, v19.16b, v17.16b
	eor	v17.16b, v20.16b, v18.16b
	eor	v18.16b, v3.16b, v2.16b
	cnt	v19.16b, v23.16b
	cnt	v20.16b, v21.16b
	cnt	v21.16b, v22.16b
	and	v2.16b, v2.16b, v5.16b
	and	v3.16b, v3.16b, v4.16b
	cnt	v7.16b, v7.16b
	cnt	v4.16b, v16.16b
	cnt	v16.16b, v17.16b
	cnt	v5.16b, v18.16b
	eor	v0.16b, v1.16b, v0.16b
	eor	v1.16b, v3.16b, v2.16b
	orr	v3.16b, v4.16b, v16.16b
	orr	v4.16b, v6.16b, v19.16b
	cnt	v0.16b, v0.16b
	orr	v2.16b, v7.16b, v5.16b
	orr	v5.16b, v20.16b, v21.16b
	cnt	v1.16b, v1.16b
	orr	v2.16b, v2.16b, v3.16b
	orr	v3.16b, v4.16b, v5.16b
	orr	v1.16b, v2.16b, v1.16b
	orr	v0.16b, v3.16b, v0.16b
	movi	v2.16b, #1
	orr	v0.16b, v1.16b, v0.16b
	and	v0.16b, v0.16b, v2.16b
	ext	v1.16b, v0.16b, v0.16b, #8
	orr	v0.8b, v0.8b, v1.8b
	fmov	x16, d0
	orr	x16, x16, x16, lsr #32
	lsr	x6, x16, #16
	orr	w16, w16, w6
	orr	w16, w16, w16, lsr #8
	tst	w16, #0xff
	b.eq	.Lreader_BB2_43
.Lreader_BB2_31:
	add	x16, x12, x18
	add	x17, x12, x17
	add	x18, x12, x0
	ldr	b0, [x16]
	add	x0, x12, x1
	add	x1, x12, x2
	add	x2, x12, x3
	add	x3, x12, x4
	add	x4, x12, x5
	ld1	{ v0.b }[1], [x17], #1
	movi	v2.8b, #240
	movi	v3.8b, #71
	movi	v4.8b, #142
	movi	v5.8b, #39
	movi	v6.8b, #109
	movi	v7.8b, #22
	movi	v16.8b, #91
	ld1	{ v0.b }[2], [x18], #1
	movi	v17.8b, #13
	ld1	{ v0.b }[3], [x0], #1
	ld1	{ v0.b }[4], [x1], #1
	ld1	{ v0.b }[5], [x2], #1
	ld1	{ v0.b }[6], [x3], #1
	ld1	{ v0.b }[7], [x4], #1
	ldr	b1, [x16, #1]
	ld1	{ v1.b }[1], [x17]
	and	v3.8b, v0.8b, v3.8b
	and	v5.8b, v0.8b, v5.8b
	and	v7.8b, v0.8b, v7.8b
	ld1	{ v1.b }[2], [x18]
	ld1	{ v1.b }[3], [x0]
	ld1	{ v1.b }[4], [x1]
	ld1	{ v1.b }[5], [x2]
	ld1	{ v1.b }[6], [x3]
	ld1	{ v1.b }[7], [x4]
	and	v2.8b, v1.8b, v2.8b
	and	v4.8b, v1.8b, v4.8b
	and	v6.8b, v1.8b, v6.8b
	eor	v2.8b, v2.8b, v3.8b
	eor	v3.8b, v4.8b, v5.8b
	eor	v4.8b, v6.8b, v7.8b
	eor	v5.8b, v1.8b, v0.8b
	and	v0.8b, v0.8b, v17.8b
	and	v1.8b, v1.8b, v16.8b
	cnt	v2.8b, v2.8b
	cnt	v3.8b, v3.8b
	cnt	v4.8b, v4.8b
	cnt	v5.8b, v5.8b
	eor	v0.8b, v1.8b, v0.8b
	cnt	v0.8b, v0.8b
	orr	v1.8b, v2.8b, v5.8b
	orr	v2.8b, v3.8b, v4.8b
	orr	v1.8b, v1.8b, v2.8b
	movi	v2.8b, #1
	orr	v0.8b, v1.8b, v0.8b
	and	v0.8b, v0.8b, v2.8b
	fmov	x16, d0
	orr	x16, x16, x16, lsr #32
	lsr	x17, x16, #16
	orr	w16, w16, w17
	orr	w16, w16, w16, lsr #8
	tst	w16, #0xff
	b.ne	.Lreader_BB2_46
	mov	w18, #1
	mov	w17, #8
	tbz	w18, #0, .Lreader_BB2_35
	mov	x18, xzr
	b	.Lreader_BB2_39
.Lreader_BB2_34:
	mov	w17, #160
.Lreader_BB2_35:
	mov	w16, #160
	lsl	x0, x15, #1
	and	x18, x17, x16
	add	x1, x13, x0
	add	x2, x14, x0
	mov	x3, x18
.Lreader_BB2_36:
	sub	x16, x1, #32
	ld2	{ v2.16b, v3.16b }, [x1]
	subs	x3, x3, #32
	add	x1, x1, #64
	ld2	{ v0.16b, v1.16b }, [x16]
	shll2	v6.8h, v2.16b, #8
	shll	v7.8h, v2.8b, #8
	ushll	v2.8h, v3.8b, #0
	shll2	v4.8h, v0.16b, #8
	shll	v5.8h, v0.8b, #8
	ushll2	v16.8h, v1.16b, #0
	ushll	v0.8h, v1.8b, #0
	ushll2	v1.8h, v3.16b, #0
	bic	v6.8h, #248, lsl #8
	bic	v7.8h, #248, lsl #8
	bic	v4.8h, #248, lsl #8
	bic	v5.8h, #248, lsl #8
	orr	v1.16b, v6.16b, v1.16b
	orr	v2.16b, v7.16b, v2.16b
	orr	v3.16b, v4.16b, v16.16b
	orr	v0.16b, v5.16b, v0.16b
	stp	q0, q3, [x2, #-32]
	stp	q2, q1, [x2], #64
	b.ne	.Lreader_BB2_36
	subs	x1, x17, x18
	b.eq	.Lreader_BB2_41
	tbz	w17, #3, .Lreader_BB2_44
.Lreader_BB2_39:
	add	x16, x15, x18
	add	x0, sp, #544
	sub	x18, x17, x18
	lsl	x16, x16, #1
	add	x0, x0, x16
	add	x1, x12, x16
.Lreader_BB2_40:
	ld2	{ v0.8b, v1.8b }, [x1], #16
	subs	x18, x18, #8
	shll	v2.8h, v0.8b, #8
	ushll	v0.8h, v1.8b, #0
	bic	v2.8h, #248, lsl #8
	orr	v0.16b, v2.16b, v0.16b
	str	q0, [x0], #16
	b.ne	.Lreader_BB2_40
.Lreader_BB2_41:
	add	x15, x17, x15
.Lreader_BB2_42:
	cmp	x15, #832
	b.ne	.Lreader_BB2_24
	b	.Lreader_BB2_58
.Lreader_BB2_43:
	mov	w17, #32
	b	.Lreader_BB2_35
.Lreader_BB2_44:
	lsl	x16, x17, #1
	add	x18, sp, #544
	and	x16, x16, #0x1c0
	add	x16, x16, x0
	add	x0, x12, #1
	add	x18, x18, x16
	add	x0, x0, x16
.Lreader_BB2_45:
	ldrb	w16, [x0]
	ldurb	w2, [x0, #-1]
	subs	x1, x1, #1
	add	x0, x0, #2
	bfi	w16, w2, #8, #3
	strh	w16, [x18], #2
	b.ne	.Lreader_BB2_45
	b	.Lreader_BB2_41
.Lreader_BB2_46:
	cmp	x15, #63
	b.hi	.Lreader_BB2_53
	mov	w16, #1
	mov	x17, #31522816
	lsl	x16, x16, x15
	movk	x17, #31948, lsl #32
	movk	x17, #64542, lsl #48
	tst	x16, x17
	b.eq	.Lreader_BB2_53
.Lreader_BB2_48:
	lsl	x18, x15, #1
	add	x16, x12, x18
	ldrb	w17, [x16, #1]
	ldrb	w16, [x16]
	mul	x0, x17, x27
	orr	w17, w17, w16, lsl #8
	mul	x1, x16, x27
	and	x0, x0, x28
	and	x1, x1, x26
	eor	x0, x0, x1
	eor	x0, x0, x0, lsr #4
	eor	x0, x0, x0, lsr #2
	eor	x0, x0, x0, lsr #1
	ands	x0, x0, x27
	b.eq	.Lreader_BB2_51
	lsr	x10, x0, #32
	cbz	x10, .Lreader_BB2_94
	mov	w10, #1032
	mov	x16, #3263
	add	x9, x9, #1
	movk	w10, #258, lsl #16
	movk	x16, #12829, lsl #16
	mul	w10, w0, w10
	movk	x16, #25934, lsl #32
	movk	x16, #43399, lsl #48
	lsr	w10, w10, #22
	and	x10, x10, #0x3c
	lsr	x10, x16, x10
	mov	w16, #1
	and	x10, x10, #0xf
	lsl	w10, w16, w10
	add	x16, sp, #544
	eor	w10, w10, w17
	and	w10, w10, #0x7ff
	strh	w10, [x16, x18]
	mov	x10, x15
	add	x15, x15, #1
	b	.Lreader_BB2_42
.Lreader_BB2_51:
	and	w17, w17, #0x7ff
.Lreader_BB2_52:
	add	x16, sp, #544
	strh	w17, [x16, x15, lsl #1]
	add	x15, x15, #1
	b	.Lreader_BB2_42
.Lreader_BB2_53:
	cmp	x15, #41
	b.hi	.Lreader_BB2_56
	cmp	x15, #16
	mov	w17, wzr
	b.lo	.Lreader_BB2_52
	sub	x16, x15, #21
	cmn	x16, #2
	b.lo	.Lreader_BB2_48
	b	.Lreader_BB2_52
.Lreader_BB2_56:
	cmp	x15, #831
	b.ls	.Lreader_BB2_48
	mov	w17, wzr
	b	.Lreader_BB2_52
.Lreader_BB2_58:
	ldrh	w16, [sp, #576]
	cmp	w16, #672
	b.lo	.Lreader_BB2_61
	lsr	x9, x16, #5
	mov	w7, #4
	mov	x11, xzr
	bfi	x7, x9, #16, #11
	b	.Lreader_BB2_69
.Lreader_BB2_60:
	movi	v24.2d, #0000000000000000
	add	x7, x7, #1
	mov	w21, wzr
	mov	w6, wzr
	mov	w16, wzr
	mov	w18, wzr
	mov	w20, wzr
	mov	w4, wzr
	mov	w3, wzr
	mov	w2, wzr
	mov	w1, wzr
	mov	w12, wzr
	mov	w13, wzr
	mov	w14, wzr
	mov	w0, wzr
	mov	w5, wzr
	mov	x9, xzr
	mov	x10, xzr
	movi	d17, #0000000000000000
	movi	d19, #0000000000000000
	movi	d20, #0000000000000000
	movi	d0, #0000000000000000
	movi	d1, #0000000000000000
	movi	d2, #0000000000000000
	movi	d3, #0000000000000000
	movi	d4, #0000000000000000
	movi	d5, #0000000000000000
	movi	d6, #0000000000000000
	movi	d7, #0000000000000000
	movi	d22, #0000000000000000
	movi	d21, #0000000000000000
	movi	d16, #0000000000000000
	movi	d18, #0000000000000000
	movi	d23, #0000000000000000
	stp	q24, q24, [sp, #448]
	orr	w17, w15, w17, lsl #8
	str	x7, [sp, #200]
	mov	w7, #3
	mov	w15, #1
	ldp	q24, q25, [sp, #448]
	stp	q24, q25, [sp, #240]
	stp	q24, q25, [sp, #272]
	tbz	w15, #0, .Lreader_BB2_21
	b	.Lreader_BB2_72
.Lreader_BB2_61:
	subs	x15, x11, #7
	b.ls	.Lreader_BB2_63
	mov	w7, #6
	b	.Lreader_BB2_69
.Lreader_BB2_63:
	ldrh	w13, [sp, #650]
	ldrh	w14, [sp, #648]
	mov	w12, #-2048
	mov	w17, #1065353216
	movi	d18, #0000000000000000
	add	x2, sp, #376
	tst	w13, #0x400
	add	w17, w17, w14, lsl #23
	csel	w18, wzr, w12, eq
	cmp	w14, #128
	bfxil	w18, w13, #0, #11
	mov	w13, #2139095040
	fmov	s1, w17
	fmov	s0, w13
	ldrh	w13, [sp, #652]
	mov	w17, #1199570944
	scvtf	s2, w18
	fcsel	s7, s1, s0, lo
	tst	w13, #0x400
	csel	w14, wzr, w12, eq
	bfxil	w14, w13, #0, #11
	ldrh	w13, [sp, #654]
	fdiv	s0, s2, s7
	tst	w13, #0x400
	scvtf	s1, w14
	csel	w14, wzr, w12, eq
	bfxil	w14, w13, #0, #11
	ldrh	w13, [sp, #656]
	tst	w13, #0x400
	scvtf	s2, w14
	csel	w14, wzr, w12, eq
	bfxil	w14, w13, #0, #11
	ldrh	w13, [sp, #658]
	tst	w13, #0x400
	scvtf	s3, w14
	csel	w14, wzr, w12, eq
	fdiv	s1, s1, s7
	bfxil	w14, w13, #0, #11
	ldrh	w13, [sp, #662]
	tst	w13, #0x400
	scvtf	s4, w14
	csel	w14, wzr, w12, eq
	bfxil	w14, w13, #0, #11
	ldrh	w13, [sp, #666]
	tst	w13, #0x400
	scvtf	s5, w14
	csel	w14, wzr, w12, eq
	bfxil	w14, w13, #0, #11
	ldrh	w13, [sp, #670]
	fdiv	s2, s2, s7
	tst	w13, #0x400
	scvtf	s6, w14
	mov	w14, #120
	csel	w12, wzr, w12, eq
	sturh	w14, [x29, #-184]
	ldrh	w14, [sp, #668]
	bfxil	w12, w13, #0, #11
	ldrh	w13, [sp, #664]
	stp	s0, s1, [x29, #-160]
	sturh	w14, [x29, #-178]
	scvtf	s16, w12
	adrp	x12, .Lreader_CPI2_0
	sturh	w13, [x29, #-180]
	ldr	d17, [x12, :lo12:.Lreader_CPI2_0]
	ldrh	w12, [sp, #660]
	stur	d17, [x29, #-192]
	sturh	w12, [x29, #-182]
	fdiv	s3, s3, s7
	fdiv	s4, s4, s7
	stp	s2, s3, [x29, #-152]
	fdiv	s5, s5, s7
	fdiv	s6, s6, s7
	stp	s4, s5, [x29, #-144]
	fdiv	s7, s16, s7
	fmov	s16, w17
	fmul	s16, s18, s16
	stp	s6, s7, [x29, #-136]
	cbz	x11, .Lreader_BB2_126
	sub	x17, x11, #1
	sub	x18, x29, #192
	sub	x1, x29, #160
	add	x18, x18, x17, lsl #1
	ldr	s19, [x1, x17, lsl #2]
	ldrsh	w0, [x18, #2]
	ldrsh	w18, [x18]
	subs	w18, w0, w18
	b.mi	.Lreader_BB2_66
	ucvtf	s20, w18
	fadd	s20, s16, s20
	b	.Lreader_BB2_67
.Lreader_BB2_66:
	neg	w18, w18
	ucvtf	s20, w18
	fadd	s20, s16, s20
	fneg	s20, s20
.Lreader_BB2_67:
	fmul	s19, s19, s20
	fmov	s20, #1.00000000
	fadd	s19, s19, s20
	fcmp	s19, s18
	b.ne	.Lreader_BB2_76
.Lreader_BB2_68:
	mov	w7, #14
	mov	x11, x17
.Lreader_BB2_69:
	lsr	x16, x7, #16
	mov	w17, wzr
	mov	x15, x11
.Lreader_BB2_70:
	movi	v24.2d, #0000000000000000
	mov	w21, wzr
	mov	w6, wzr
	mov	w18, wzr
	mov	w20, wzr
	mov	w4, wzr
	mov	w3, wzr
	mov	w2, wzr
	mov	w1, wzr
	mov	w12, wzr
	mov	w13, wzr
	mov	w14, wzr
	mov	w0, wzr
	mov	x10, xzr
	mov	x9, xzr
	movi	d17, #0000000000000000
	movi	d19, #0000000000000000
	movi	d20, #0000000000000000
	movi	d0, #0000000000000000
	movi	d1, #0000000000000000
	movi	d2, #0000000000000000
	movi	d3, #0000000000000000
	movi	d4, #0000000000000000
	movi	d5, #0000000000000000
	movi	d6, #0000000000000000
	movi	d7, #0000000000000000
	movi	d22, #0000000000000000
	movi	d21, #0000000000000000
	movi	d16, #0000000000000000
	movi	d18, #0000000000000000
	movi	d23, #0000000000000000
	lsr	x11, x15, #32
	stp	q24, q24, [sp, #480]
.Lreader_BB2_71:
	ldp	q24, q25, [sp, #480]
	mov	w15, w15
	mov	w5, w21
	orr	x11, x15, x11, lsl #32
	mov	w15, #1
	stp	q24, q25, [sp, #448]
	ldp	q24, q25, [sp, #448]
	stp	q24, q25, [sp, #240]
	stp	q24, q25, [sp, #272]
	tbz	w15, #0, .Lreader_BB2_21
.Lreader_BB2_72:
	and	w15, w17, #0xffff
	orr	w15, w20, w15
	tbz	w21, #0, .Lreader_BB2_74
	ldp	q25, q26, [sp, #272]
	movi	d24, #0000000000000000
	cmp	w5, #1
	and	w7, w7, #0xff
	mov	x24, xzr
	mov	x20, xzr
	mov	x21, xzr
	mov	x17, xzr
	stp	q25, q26, [sp, #208]
	ldp	q25, q26, [sp, #240]
	fcsel	s23, s23, s24, eq
	lsr	x22, x11, #32
	orr	w7, w7, w6, lsl #8
	mov	w6, #1
	mov	w23, w11
	mov	x11, xzr
	stp	q25, q26, [x29, #-112]
	b	.Lreader_BB2_7
.Lreader_BB2_74:
	and	x9, x7, #0xff
	adrp	x10, .Lreader_JTI2_0
	add	x10, x10, :lo12:.Lreader_JTI2_0
	adr	x12, .Lreader_BB2_75
	ldrb	w13, [x10, x9]
	add	x12, x12, x13, lsl #2
	br	x12
.Lreader_BB2_75:
	movi	v0.2d, #0000000000000000
	mov	w17, wzr
	mov	w15, wzr
	mov	w6, #1
	mov	w20, #1
	mov	w21, #1
	b	.Lreader_BB2_5
.Lreader_BB2_76:
	cbz	x17, .Lreader_BB2_126
	sub	x17, x11, #2
	sub	x18, x29, #192
	add	x18, x18, x17, lsl #1
	ldr	s19, [x1, x17, lsl #2]
	ldrsh	w0, [x18, #2]
	ldrsh	w18, [x18]
	subs	w18, w0, w18
	b.mi	.Lreader_BB2_95
	ucvtf	s20, w18
	fadd	s20, s16, s20
	b	.Lreader_BB2_96
.Lreader_BB2_79:
	movi	v0.2d, #0000000000000000
	mov	w17, wzr
	mov	w15, wzr
	mov	w6, #1
	mov	w20, #13
	mov	w21, #13
	b	.Lreader_BB2_5
.Lreader_BB2_80:
	movi	v0.2d, #0000000000000000
	mov	w17, wzr
	mov	w15, wzr
	mov	w6, #1
	mov	w20, #10
	mov	w21, #10
	b	.Lreader_BB2_5
.Lreader_BB2_81:
	movi	v0.2d, #0000000000000000
	mov	w17, wzr
	mov	w15, wzr
	and	x11, x16, #0xffff
	mov	w6, #1
	mov	w20, #4
	mov	w21, #4
	b	.Lreader_BB2_5
.Lreader_BB2_82:
	movi	v0.2d, #0000000000000000
	mov	w17, wzr
	mov	w15, wzr
	mov	w6, #1
	mov	w20, #11
	mov	w21, #11
	b	.Lreader_BB2_5
.Lreader_BB2_83:
	movi	v0.2d, #0000000000000000
	mov	w17, wzr
	mov	w15, wzr
	and	x11, x16, #0xffff
	b	.Lreader_BB2_92
.Lreader_BB2_84:
	movi	v0.2d, #0000000000000000
	mov	w17, wzr
	mov	x11, xzr
	mov	w15, wzr
	mov	w6, #1
	mov	w20, #2
	b	.Lreader_BB2_4
.Lreader_BB2_85:
	movi	v0.2d, #0000000000000000
	mov	w17, wzr
	mov	w15, wzr
	mov	w6, #1
	mov	w20, #14
	mov	w21, #14
	b	.Lreader_BB2_5
.Lreader_BB2_86:
	movi	v0.2d, #0000000000000000
	mov	w6, #1
	mov	w20, #3
	mov	w21, #3
	b	.Lreader_BB2_5
.Lreader_BB2_87:
	movi	v0.2d, #0000000000000000
	mov	w17, wzr
	mov	x11, xzr
	mov	w15, wzr
	mov	w6, #1
	mov	w20, #7
	mov	w21, #7
	b	.Lreader_BB2_5
.Lreader_BB2_88:
	movi	v0.2d, #0000000000000000
	mov	w17, wzr
	mov	w15, wzr
	mov	w6, #1
	mov	w20, #5
	mov	w21, #5
	b	.Lreader_BB2_5
.Lreader_BB2_89:
	movi	v0.2d, #0000000000000000
	mov	w17, wzr
	mov	w15, wzr
	mov	w6, #1
	mov	w20, #12
	mov	w21, #12
	b	.Lreader_BB2_5
.Lreader_BB2_90:
	movi	v0.2d, #0000000000000000
	mov	w17, wzr
	mov	w15, wzr
	mov	w6, #1
	mov	w20, #6
	mov	w21, #6
	b	.Lreader_BB2_5
.Lreader_BB2_91:
	movi	v0.2d, #0000000000000000
.Lreader_BB2_92:
	stp	q0, q0, [sp, #208]
	mov	w6, #1
	mov	w20, #9
	mov	w21, #9
	b	.Lreader_BB2_6
.Lreader_BB2_93:
	movi	v0.2d, #0000000000000000
	mov	w17, wzr
	mov	x11, xzr
	mov	w15, wzr
	mov	w6, #1
	mov	w20, #8
	mov	w21, #8
	b	.Lreader_BB2_5
.Lreader_BB2_94:
	mov	w16, wzr
	mov	w7, #3
	b	.Lreader_BB2_70
.Lreader_BB2_95:
	neg	w18, w18
	ucvtf	s20, w18
	fadd	s20, s16, s20
	fneg	s20, s20
.Lreader_BB2_96:
	fmul	s19, s19, s20
	fmov	s20, #1.00000000
	fadd	s19, s19, s20
	fcmp	s19, s18
	b.eq	.Lreader_BB2_68
	cbz	x17, .Lreader_BB2_126
	sub	x17, x11, #3
	sub	x18, x29, #192
	add	x18, x18, x17, lsl #1
	ldr	s19, [x1, x17, lsl #2]
	ldrsh	w0, [x18, #2]
	ldrsh	w18, [x18]
	subs	w18, w0, w18
	b.mi	.Lreader_BB2_100
	ucvtf	s20, w18
	fadd	s20, s16, s20
	b	.Lreader_BB2_101
.Lreader_BB2_100:
	neg	w18, w18
	ucvtf	s20, w18
	fadd	s20, s16, s20
	fneg	s20, s20
.Lreader_BB2_101:
	fmul	s19, s19, s20
	fmov	s20, #1.00000000
	fadd	s19, s19, s20
	fcmp	s19, s18
	b.eq	.Lreader_BB2_68
	cbz	x17, .Lreader_BB2_126
	sub	x17, x11, #4
	sub	x8, x29, #192
	fmov	d21, d17
	add	x8, x8, x17, lsl #1
	sub	x18, x29, #160
	ldr	s19, [x18, x17, lsl #2]
	ldrsh	w11, [x8, #2]
	ldrsh	w8, [x8]
	subs	w8, w11, w8
	b.mi	.Lreader_BB2_105
	ucvtf	s20, w8
	fadd	s20, s16, s20
	b	.Lreader_BB2_106
.Lreader_BB2_105:
	neg	w8, w8
	ucvtf	s20, w8
	fadd	s20, s16, s20
	fneg	s20, s20
.Lreader_BB2_106:
	fmul	s19, s19, s20
	fmov	s20, #1.00000000
	fadd	s19, s19, s20
	fcmp	s19, s18
	b.ne	.Lreader_BB2_108
.Lreader_BB2_107:
	ldr	x8, [sp, #40]
	b	.Lreader_BB2_68
.Lreader_BB2_108:
	fmov	d17, d21
	ldr	x8, [sp, #40]
	ldr	x11, [sp, #16]
	add	x2, sp, #376
	cbz	x17, .Lreader_BB2_126
	sub	x17, x11, #5
	sub	x8, x29, #192
	add	x8, x8, x17, lsl #1
	ldr	s19, [x18, x17, lsl #2]
	ldrsh	w11, [x8, #2]
	ldrsh	w8, [x8]
	subs	w8, w11, w8
	b.mi	.Lreader_BB2_111
	ucvtf	s20, w8
	fadd	s20, s16, s20
	b	.Lreader_BB2_112
.Lreader_BB2_111:
	neg	w8, w8
	ucvtf	s20, w8
	fadd	s20, s16, s20
	fneg	s20, s20
.Lreader_BB2_112:
	fmul	s19, s19, s20
	fmov	s20, #1.00000000
	fadd	s19, s19, s20
	fcmp	s19, s18
	b.eq	.Lreader_BB2_107
	fmov	d17, d21
	ldr	x8, [sp, #40]
	ldr	x11, [sp, #16]
	add	x2, sp, #376
	cbz	x17, .Lreader_BB2_126
	sub	x17, x11, #6
	sub	x8, x29, #192
	add	x8, x8, x17, lsl #1
	ldr	s19, [x18, x17, lsl #2]
	ldrsh	w11, [x8, #2]
	ldrsh	w8, [x8]
	subs	w8, w11, w8
	b.mi	.Lreader_BB2_116
	ucvtf	s20, w8
	fadd	s20, s16, s20
	b	.Lreader_BB2_117
.Lreader_BB2_116:
	neg	w8, w8
	ucvtf	s20, w8
	fadd	s20, s16, s20
	fneg	s20, s20
.Lreader_BB2_117:
	fmul	s19, s19, s20
	fmov	s20, #1.00000000
	fadd	s19, s19, s20
	fcmp	s19, s18
	b.eq	.Lreader_BB2_107
	fmov	d17, d21
	ldr	x8, [sp, #40]
	ldr	x11, [sp, #16]
	add	x2, sp, #376
	cbz	x17, .Lreader_BB2_126
	sub	x8, x29, #192
	sub	x17, x29, #160
	add	x8, x8, x15, lsl #1
	ldr	s19, [x17, x15, lsl #2]
	ldrsh	w11, [x8, #2]
	ldrsh	w8, [x8]
	subs	w8, w11, w8
	b.mi	.Lreader_BB2_121
	ucvtf	s20, w8
	fadd	s20, s16, s20
	b	.Lreader_BB2_122
.Lreader_BB2_121:
	neg	w8, w8
	ucvtf	s20, w8
	fadd	s20, s16, s20
	fneg	s20, s20
.Lreader_BB2_122:
	fmul	s19, s19, s20
	fmov	s20, #1.00000000
	fadd	s19, s19, s20
	fcmp	s19, s18
	b.ne	.Lreader_BB2_124
	ldr	x8, [sp, #40]
	mov	x17, x15
	b	.Lreader_BB2_68
.Lreader_BB2_124:
	fmov	d17, d21
	ldr	x8, [sp, #40]
	ldr	x11, [sp, #16]
	add	x2, sp, #376
	cbz	x15, .Lreader_BB2_126
	orr	x17, x11, #0xfffffffffffffff8
	b	.Lreader_BB2_68
.Lreader_BB2_126:
	ldp	q22, q21, [sp, #672]
	movi	v19.8h, #4, lsl #8
	movi	v18.8h, #248, lsl #8
	ldp	q25, q24, [sp, #704]
	lsr	w16, w16, #5
	ldp	q28, q27, [sp, #736]
	bic	v22.8h, #248, lsl #8
	bic	v21.8h, #248, lsl #8
	ldrh	w17, [sp, #580]
	bic	v25.8h, #248, lsl #8
	bic	v24.8h, #248, lsl #8
	movi	v23.2d, #0000000000000000
	bic	v28.8h, #248, lsl #8
	bic	v27.8h, #248, lsl #8
	mvni	v13.2s, #127, msl #16
	cmhs	v20.8h, v22.8h, v19.8h
	cmhs	v26.8h, v21.8h, v19.8h
	ldr	h15, [sp, #610]
	cmhs	v31.8h, v25.8h, v19.8h
	cmhs	v8.8h, v24.8h, v19.8h
	ldr	q14, [sp, #2160]
	cmhs	v10.8h, v28.8h, v19.8h
	stp	q23, q23, [x29, #-256]
	cmhs	v23.8h, v27.8h, v19.8h
	and	v29.16b, v20.16b, v18.16b
	and	v30.16b, v26.16b, v18.16b
	dup	v20.4s, w16
	ldrh	w16, [sp, #578]
	and	v31.16b, v31.16b, v18.16b
	and	v8.16b, v8.16b, v18.16b
	and	v23.16b, v23.16b, v18.16b
	fneg	v13.2s, v13.2s
	ucvtf	s15, s15
	orr	v29.16b, v29.16b, v22.16b
	orr	v30.16b, v30.16b, v21.16b
	orr	w16, w17, w16, lsl #5
	ldp	q26, q22, [sp, #768]
	orr	v25.16b, v31.16b, v25.16b
	sxth	w16, w16
	orr	v24.16b, v8.16b, v24.16b
	orr	v23.16b, v23.16b, v27.16b
	sshll2	v9.4s, v29.8h, #0
	sshll	v29.4s, v29.4h, #0
	sshll2	v11.4s, v30.8h, #0
	sshll	v30.4s, v30.4h, #0
	dup	v21.4s, w16
	ldrh	w16, [sp, #598]
	bic	v26.8h, #248, lsl #8
	bic	v22.8h, #248, lsl #8
	mov	w17, #1233125376
	ushl	v9.4s, v9.4s, v20.4s
	ushl	v29.4s, v29.4s, v20.4s
	lsr	w18, w16, #5
	ushl	v31.4s, v11.4s, v20.4s
	ushl	v30.4s, v30.4s, v20.4s
	cmp	w16, #3456
	sshll	v11.4s, v24.4h, #0
	sshll2	v24.4s, v24.8h, #0
	add	w18, w17, w18, lsl #23
	add	v8.4s, v9.4s, v21.4s
	and	v9.16b, v10.16b, v18.16b
	and	w16, w16, #0x1f
	sshll2	v10.4s, v25.8h, #0
	add	v29.4s, v29.4s, v21.4s
	add	w16, w17, w16, lsl #23
	sshll	v25.4s, v25.4h, #0
	add	v31.4s, v31.4s, v21.4s
	str	d17, [sp, #160]
	add	v30.4s, v30.4s, v21.4s
	orr	v28.16b, v9.16b, v28.16b
	ldr	x0, [sp]
	stp	q29, q8, [x25]
	ushl	v8.4s, v10.4s, v20.4s
	ushl	v29.4s, v11.4s, v20.4s
	ushl	v25.4s, v25.4s, v20.4s
	ushl	v24.4s, v24.4s, v20.4s
	mov	x15, xzr
	stp	q30, q31, [x25, #32]
	cmhs	v31.8h, v26.8h, v19.8h
	sshll	v27.4s, v28.4h, #0
	add	v30.4s, v8.4s, v21.4s
	cmhs	v8.8h, v22.8h, v19.8h
	sshll2	v28.4s, v28.8h, #0
	add	v25.4s, v25.4s, v21.4s
	add	v29.4s, v29.4s, v21.4s
	add	v24.4s, v24.4s, v21.4s
	and	v31.16b, v31.16b, v18.16b
	ushl	v27.4s, v27.4s, v20.4s
	dup	v12.2s, w17
	and	v8.16b, v8.16b, v18.16b
	ushl	v28.4s, v28.4s, v20.4s
	bic	v14.8h, #248, lsl #8
	stp	q25, q30, [x25, #64]
	sshll	v25.4s, v23.4h, #0
	sshll2	v23.4s, v23.8h, #0
	stp	q29, q24, [x25, #96]
	orr	v26.16b, v31.16b, v26.16b
	add	v27.4s, v27.4s, v21.4s
	ldp	q30, q31, [sp, #800]
	orr	v22.16b, v8.16b, v22.16b
	ushl	v25.4s, v25.4s, v20.4s
	ushl	v23.4s, v23.4s, v20.4s
	add	v24.4s, v28.4s, v21.4s
	sshll2	v28.4s, v26.8h, #0
	sshll	v26.4s, v26.4h, #0
	bic	v30.8h, #248, lsl #8
	bic	v31.8h, #248, lsl #8
	sshll	v9.4s, v22.4h, #0
	stp	q27, q24, [x25, #128]
	add	v25.4s, v25.4s, v21.4s
	add	v23.4s, v23.4s, v21.4s
	ushl	v28.4s, v28.4s, v20.4s
	ushl	v26.4s, v26.4s, v20.4s
	sshll2	v22.4s, v22.8h, #0
	cmhs	v29.8h, v30.8h, v19.8h
	cmhs	v8.8h, v31.8h, v19.8h
	stp	q25, q23, [x25, #160]
	add	v28.4s, v28.4s, v21.4s
	add	v25.4s, v26.4s, v21.4s
	ushl	v22.4s, v22.4s, v20.4s
	and	v24.16b, v29.16b, v18.16b
	and	v27.16b, v8.16b, v18.16b
	ushl	v8.4s, v9.4s, v20.4s
	ldp	q29, q9, [sp, #832]
	stp	q25, q28, [x25, #192]
	add	v22.4s, v22.4s, v21.4s
	orr	v24.16b, v24.16b, v30.16b
	orr	v23.16b, v27.16b, v31.16b
	add	v26.4s, v8.4s, v21.4s
	bic	v29.8h, #248, lsl #8
	bic	v9.8h, #248, lsl #8
	stp	q26, q22, [x25, #224]
	sshll2	v27.4s, v24.8h, #0
	sshll	v24.4s, v24.4h, #0
	cmhs	v28.8h, v29.8h, v19.8h
	cmhs	v31.8h, v9.8h, v19.8h
	sshll	v30.4s, v23.4h, #0
	sshll2	v23.4s, v23.8h, #0
	ushl	v25.4s, v27.4s, v20.4s
	ushl	v24.4s, v24.4s, v20.4s
	and	v27.16b, v28.16b, v18.16b
	ldp	q28, q8, [sp, #864]
	and	v31.16b, v31.16b, v18.16b
	ushl	v30.4s, v30.4s, v20.4s
	ushl	v23.4s, v23.4s, v20.4s
	add	v22.4s, v25.4s, v21.4s
	add	v24.4s, v24.4s, v21.4s
	bic	v28.8h, #248, lsl #8
	orr	v25.16b, v27.16b, v29.16b
	bic	v8.8h, #248, lsl #8
	orr	v27.16b, v31.16b, v9.16b
	ldp	q31, q9, [sp, #896]
	stp	q24, q22, [x25, #256]
	add	v26.4s, v30.4s, v21.4s
	add	v23.4s, v23.4s, v21.4s
	cmhs	v29.8h, v28.8h, v19.8h
	sshll	v22.4s, v25.4h, #0
	sshll2	v25.4s, v25.8h, #0
	cmhs	v24.8h, v8.8h, v19.8h
	bic	v31.8h, #248, lsl #8
	sshll	v30.4s, v27.4h, #0
	stp	q26, q23, [x25, #288]
	sshll2	v27.4s, v27.8h, #0
	bic	v9.8h, #248, lsl #8
	and	v29.16b, v29.16b, v18.16b
	ushl	v25.4s, v25.4s, v20.4s
	ushl	v22.4s, v22.4s, v20.4s
	and	v24.16b, v24.16b, v18.16b
	cmhs	v26.8h, v31.8h, v19.8h
	ushl	v30.4s, v30.4s, v20.4s
	ushl	v23.4s, v27.4s, v20.4s
	orr	v28.16b, v29.16b, v28.16b
	add	v25.4s, v25.4s, v21.4s
	add	v22.4s, v22.4s, v21.4s
	orr	v24.16b, v24.16b, v8.16b
	and	v26.16b, v26.16b, v18.16b
	add	v27.4s, v30.4s, v21.4s
	cmhs	v30.8h, v9.8h, v19.8h
	add	v23.4s, v23.4s, v21.4s
	stp	q22, q25, [x25, #320]
	sshll2	v29.4s, v28.8h, #0
	sshll	v28.4s, v28.4h, #0
	sshll2	v8.4s, v24.8h, #0
	sshll	v22.4s, v24.4h, #0
	orr	v26.16b, v26.16b, v31.16b
	stp	q27, q23, [x25, #352]
	ushl	v24.4s, v29.4s, v20.4s
	ldp	q29, q31, [sp, #928]
	ushl	v25.4s, v28.4s, v20.4s
	and	v28.16b, v30.16b, v18.16b
	ushl	v30.4s, v8.4s, v20.4s
	sshll2	v27.4s, v26.8h, #0
	sshll	v26.4s, v26.4h, #0
	ushl	v22.4s, v22.4s, v20.4s
	bic	v29.8h, #248, lsl #8
	bic	v31.8h, #248, lsl #8
	add	v24.4s, v24.4s, v21.4s
	orr	v23.16b, v28.16b, v9.16b
	add	v25.4s, v25.4s, v21.4s
	add	v28.4s, v30.4s, v21.4s
	ushl	v27.4s, v27.4s, v20.4s
	ushl	v26.4s, v26.4s, v20.4s
	add	v22.4s, v22.4s, v21.4s
	cmhs	v30.8h, v29.8h, v19.8h
	cmhs	v9.8h, v31.8h, v19.8h
	stp	q25, q24, [x25, #384]
	sshll	v8.4s, v23.4h, #0
	sshll2	v23.4s, v23.8h, #0
	stp	q22, q28, [x25, #416]
	add	v27.4s, v27.4s, v21.4s
	add	v26.4s, v26.4s, v21.4s
	and	v24.16b, v30.16b, v18.16b
	ldp	q10, q30, [sp, #960]
	and	v25.16b, v9.16b, v18.16b
	ushl	v8.4s, v8.4s, v20.4s
	ushl	v23.4s, v23.4s, v20.4s
	stp	q26, q27, [x25, #448]
	bic	v10.8h, #248, lsl #8
	orr	v24.16b, v24.16b, v29.16b
	bic	v30.8h, #248, lsl #8
	orr	v22.16b, v25.16b, v31.16b
	add	v28.4s, v8.4s, v21.4s
	add	v23.4s, v23.4s, v21.4s
	cmhs	v25.8h, v10.8h, v19.8h
	sshll2	v27.4s, v24.8h, #0
	cmhs	v29.8h, v30.8h, v19.8h
	stp	q28, q23, [x25, #480]
	sshll	v24.4s, v24.4h, #0
	sshll	v31.4s, v22.4h, #0
	sshll2	v22.4s, v22.8h, #0
	and	v25.16b, v25.16b, v18.16b
	ushl	v26.4s, v27.4s, v20.4s
	and	v27.16b, v29.16b, v18.16b
	ldp	q29, q8, [sp, #992]
	ushl	v24.4s, v24.4s, v20.4s
	ushl	v31.4s, v31.4s, v20.4s
	ushl	v22.4s, v22.4s, v20.4s
	orr	v25.16b, v25.16b, v10.16b
	ldr	q10, [sp, #1024]
	orr	v23.16b, v27.16b, v30.16b
	bic	v29.8h, #248, lsl #8
	bic	v8.8h, #248, lsl #8
	add	v24.4s, v24.4s, v21.4s
	add	v26.4s, v26.4s, v21.4s
	add	v27.4s, v31.4s, v21.4s
	add	v22.4s, v22.4s, v21.4s
	sshll2	v28.4s, v25.8h, #0
	sshll	v25.4s, v25.4h, #0
	sshll	v31.4s, v23.4h, #0
	cmhs	v30.8h, v29.8h, v19.8h
	cmhs	v9.8h, v8.8h, v19.8h
	bic	v10.8h, #248, lsl #8
	stp	q24, q26, [x25, #512]
	ldr	q24, [sp, #1040]
	sshll2	v23.4s, v23.8h, #0
	stp	q27, q22, [x25, #544]
	ushl	v28.4s, v28.4s, v20.4s
	ushl	v25.4s, v25.4s, v20.4s
	and	v30.16b, v30.16b, v18.16b
	and	v26.16b, v9.16b, v18.16b
	ldr	q9, [sp, #1856]
	ushl	v31.4s, v31.4s, v20.4s
	bic	v24.8h, #248, lsl #8
	ushl	v23.4s, v23.4s, v20.4s
	add	v28.4s, v28.4s, v21.4s
	add	v22.4s, v25.4s, v21.4s
	bic	v9.8h, #248, lsl #8
	orr	v29.16b, v30.16b, v29.16b
	cmhs	v30.8h, v10.8h, v19.8h
	orr	v25.16b, v26.16b, v8.16b
	add	v26.4s, v31.4s, v21.4s
	cmhs	v31.8h, v24.8h, v19.8h
	add	v23.4s, v23.4s, v21.4s
	stp	q22, q28, [x25, #576]
	sshll	v27.4s, v29.4h, #0
	and	v30.16b, v30.16b, v18.16b
	sshll2	v22.4s, v29.8h, #0
	ldr	q29, [sp, #1824]
	stp	q26, q23, [x25, #608]
	ldr	q26, [sp, #1840]
	sshll	v28.4s, v25.4h, #0
	sshll2	v25.4s, v25.8h, #0
	and	v31.16b, v31.16b, v18.16b
	ushl	v27.4s, v27.4s, v20.4s
	orr	v30.16b, v30.16b, v10.16b
	ushl	v22.4s, v22.4s, v20.4s
	bic	v29.8h, #248, lsl #8
	bic	v26.8h, #248, lsl #8
	ushl	v23.4s, v25.4s, v20.4s
	ushl	v25.4s, v28.4s, v20.4s
	orr	v24.16b, v31.16b, v24.16b
	add	v27.4s, v27.4s, v21.4s
	sshll2	v28.4s, v30.8h, #0
	add	v22.4s, v22.4s, v21.4s
	cmhs	v31.8h, v29.8h, v19.8h
	sshll	v30.4s, v30.4h, #0
	cmhs	v10.8h, v26.8h, v19.8h
	add	v25.4s, v25.4s, v21.4s
	add	v23.4s, v23.4s, v21.4s
	sshll	v8.4s, v24.4h, #0
	stp	q27, q22, [x25, #640]
	ushl	v28.4s, v28.4s, v20.4s
	sshll2	v22.4s, v24.8h, #0
	and	v31.16b, v31.16b, v18.16b
	ushl	v24.4s, v30.4s, v20.4s
	ldr	q30, [sp, #1872]
	stp	q25, q23, [x25, #672]
	ushl	v27.4s, v8.4s, v20.4s
	and	v8.16b, v10.16b, v18.16b
	ldr	q10, [sp, #1984]
	add	v28.4s, v28.4s, v21.4s
	bic	v30.8h, #248, lsl #8
	orr	v29.16b, v31.16b, v29.16b
	cmhs	v31.8h, v9.8h, v19.8h
	ushl	v22.4s, v22.4s, v20.4s
	add	v23.4s, v24.4s, v21.4s
	add	v24.4s, v27.4s, v21.4s
	orr	v25.16b, v8.16b, v26.16b
	ldr	q8, [sp, #1904]
	bic	v10.8h, #248, lsl #8
	sshll2	v26.4s, v29.8h, #0
	and	v27.16b, v31.16b, v18.16b
	ldr	q31, [sp, #1888]
	stp	q23, q28, [x25, #704]
	cmhs	v28.8h, v30.8h, v19.8h
	add	v22.4s, v22.4s, v21.4s
	sshll	v23.4s, v29.4h, #0
	sshll	v29.4s, v25.4h, #0
	sshll2	v25.4s, v25.8h, #0
	ushl	v26.4s, v26.4s, v20.4s
	orr	v27.16b, v27.16b, v9.16b
	bic	v31.8h, #248, lsl #8
	stp	q24, q22, [x25, #736]
	and	v28.16b, v28.16b, v18.16b
	bic	v8.8h, #248, lsl #8
	ushl	v22.4s, v23.4s, v20.4s
	ushl	v23.4s, v29.4s, v20.4s
	ushl	v24.4s, v25.4s, v20.4s
	add	v26.4s, v26.4s, v21.4s
	cmhs	v29.8h, v31.8h, v19.8h
	orr	v25.16b, v28.16b, v30.16b
	sshll2	v28.4s, v27.8h, #0
	sshll	v27.4s, v27.4h, #0
	add	v22.4s, v22.4s, v21.4s
	cmhs	v9.8h, v8.8h, v19.8h
	add	v23.4s, v23.4s, v21.4s
	add	v24.4s, v24.4s, v21.4s
	and	v29.16b, v29.16b, v18.16b
	sshll	v30.4s, v25.4h, #0
	ushl	v28.4s, v28.4s, v20.4s
	stp	q22, q26, [x23]
	sshll2	v22.4s, v25.8h, #0
	ushl	v25.4s, v27.4s, v20.4s
	ldr	q27, [sp, #1920]
	stp	q23, q24, [x23, #32]
	and	v26.16b, v9.16b, v18.16b
	ldr	q9, [sp, #1936]
	ushl	v30.4s, v30.4s, v20.4s
	add	v28.4s, v28.4s, v21.4s
	orr	v29.16b, v29.16b, v31.16b
	bic	v27.8h, #248, lsl #8
	add	v24.4s, v25.4s, v21.4s
	bic	v9.8h, #248, lsl #8
	ushl	v22.4s, v22.4s, v20.4s
	orr	v23.16b, v26.16b, v8.16b
	ldr	q8, [sp, #1968]
	add	v25.4s, v30.4s, v21.4s
	stp	q24, q28, [x23, #64]
	sshll2	v26.4s, v29.8h, #0
	cmhs	v28.8h, v27.8h, v19.8h
	cmhs	v30.8h, v9.8h, v19.8h
	sshll	v29.4s, v29.4h, #0
	sshll	v31.4s, v23.4h, #0
	add	v22.4s, v22.4s, v21.4s
	sshll2	v23.4s, v23.8h, #0
	bic	v8.8h, #248, lsl #8
	ushl	v24.4s, v26.4s, v20.4s
	and	v26.16b, v28.16b, v18.16b
	and	v28.16b, v30.16b, v18.16b
	ldr	q30, [sp, #1952]
	ushl	v29.4s, v29.4s, v20.4s
	stp	q25, q22, [x23, #96]
	ushl	v31.4s, v31.4s, v20.4s
	ushl	v23.4s, v23.4s, v20.4s
	bic	v30.8h, #248, lsl #8
	orr	v22.16b, v26.16b, v27.16b
	add	v24.4s, v24.4s, v21.4s
	orr	v25.16b, v28.16b, v9.16b
	add	v26.4s, v29.4s, v21.4s
	cmhs	v9.8h, v8.8h, v19.8h
	add	v27.4s, v31.4s, v21.4s
	add	v23.4s, v23.4s, v21.4s
	cmhs	v28.8h, v30.8h, v19.8h
	sshll	v29.4s, v22.4h, #0
	sshll2	v22.4s, v22.8h, #0
	stp	q26, q24, [x23, #128]
	ldr	q26, [sp, #2000]
	sshll	v31.4s, v25.4h, #0
	stp	q27, q23, [x23, #160]
	sshll2	v24.4s, v25.8h, #0
	and	v25.16b, v28.16b, v18.16b
	ushl	v22.4s, v22.4s, v20.4s
	ushl	v28.4s, v29.4s, v20.4s
	ushl	v29.4s, v31.4s, v20.4s
	and	v31.16b, v9.16b, v18.16b
	bic	v26.8h, #248, lsl #8
	ushl	v23.4s, v24.4s, v20.4s
	cmhs	v24.8h, v10.8h, v19.8h
	add	v27.4s, v28.4s, v21.4s
	add	v22.4s, v22.4s, v21.4s
	orr	v25.16b, v25.16b, v30.16b
	orr	v28.16b, v31.16b, v8.16b
	cmhs	v31.8h, v26.8h, v19.8h
	add	v29.4s, v29.4s, v21.4s
	and	v24.16b, v24.16b, v18.16b
	add	v23.4s, v23.4s, v21.4s
	stp	q27, q22, [x23, #192]
	sshll	v30.4s, v25.4h, #0
	sshll2	v25.4s, v25.8h, #0
	and	v27.16b, v31.16b, v18.16b
	sshll	v8.4s, v28.4h, #0
	sshll2	v28.4s, v28.8h, #0
	stp	q29, q23, [x23, #224]
	orr	v24.16b, v24.16b, v10.16b
	ushl	v22.4s, v30.4s, v20.4s
	ldr	q30, [sp, #2032]
	ushl	v25.4s, v25.4s, v20.4s
	orr	v26.16b, v27.16b, v26.16b
	ldr	q27, [sp, #2016]
	ushl	v23.4s, v28.4s, v20.4s
	ushl	v28.4s, v8.4s, v20.4s
	ldr	q8, [sp, #2048]
	sshll	v29.4s, v24.4h, #0
	bic	v27.8h, #248, lsl #8
	add	v22.4s, v22.4s, v21.4s
	add	v25.4s, v25.4s, v21.4s
	sshll2	v24.4s, v24.8h, #0
	sshll	v31.4s, v26.4h, #0
	sshll2	v26.4s, v26.8h, #0
	add	v28.4s, v28.4s, v21.4s
	add	v23.4s, v23.4s, v21.4s
	bic	v30.8h, #248, lsl #8
	stp	q22, q25, [x23, #256]
	cmhs	v9.8h, v27.8h, v19.8h
	ushl	v29.4s, v29.4s, v20.4s
	ushl	v24.4s, v24.4s, v20.4s
	bic	v8.8h, #248, lsl #8
	ushl	v25.4s, v26.4s, v20.4s
	stp	q28, q23, [x23, #288]
	ldr	q28, [sp, #2080]
	ushl	v26.4s, v31.4s, v20.4s
	and	v31.16b, v9.16b, v18.16b
	ldr	q9, [sp, #2064]
	cmhs	v22.8h, v30.8h, v19.8h
	add	v29.4s, v29.4s, v21.4s
	add	v24.4s, v24.4s, v21.4s
	cmhs	v10.8h, v8.8h, v19.8h
	add	v23.4s, v25.4s, v21.4s
	bic	v9.8h, #248, lsl #8
	add	v25.4s, v26.4s, v21.4s
	orr	v26.16b, v31.16b, v27.16b
	and	v22.16b, v22.16b, v18.16b
	bic	v28.8h, #248, lsl #8
	stp	q29, q24, [x23, #320]
	ldr	q29, [sp, #2096]
	and	v24.16b, v10.16b, v18.16b
	stp	q25, q23, [x23, #352]
	ldur	s10, [x2, #218]
	cmhs	v27.8h, v9.8h, v19.8h
	sshll	v23.4s, v26.4h, #0
	sshll2	v25.4s, v26.8h, #0
	orr	v22.16b, v22.16b, v30.16b
	orr	v24.16b, v24.16b, v8.16b
	bic	v29.8h, #248, lsl #8
	cmhs	v31.8h, v28.8h, v19.8h
	and	v27.16b, v27.16b, v18.16b
	ushl	v25.4s, v25.4s, v20.4s
	ushl	v23.4s, v23.4s, v20.4s
	sshll	v26.4s, v22.4h, #0
	sshll2	v22.4s, v22.8h, #0
	sshll2	v30.4s, v24.8h, #0
	sshll	v24.4s, v24.4h, #0
	orr	v27.16b, v27.16b, v9.16b
	cmhs	v8.8h, v29.8h, v19.8h
	and	v31.16b, v31.16b, v18.16b
	add	v23.4s, v23.4s, v21.4s
	add	v25.4s, v25.4s, v21.4s
	ushl	v26.4s, v26.4s, v20.4s
	ushl	v22.4s, v22.4s, v20.4s
	ushl	v24.4s, v24.4s, v20.4s
	ushl	v30.4s, v30.4s, v20.4s
	sshll2	v9.4s, v27.8h, #0
	sshll	v27.4s, v27.4h, #0
	stp	q23, q25, [x23, #384]
	and	v23.16b, v8.16b, v18.16b
	add	v26.4s, v26.4s, v21.4s
	add	v22.4s, v22.4s, v21.4s
	add	v30.4s, v30.4s, v21.4s
	ushl	v8.4s, v9.4s, v20.4s
	add	v9.4s, v24.4s, v21.4s
	ushl	v25.4s, v27.4s, v20.4s
	orr	v24.16b, v31.16b, v28.16b
	orr	v23.16b, v23.16b, v29.16b
	stp	q26, q22, [x23, #416]
	ldr	q22, [sp, #2112]
	stp	q9, q30, [x23, #448]
	add	v26.4s, v8.4s, v21.4s
	add	v25.4s, v25.4s, v21.4s
	sshll	v27.4s, v24.4h, #0
	sshll2	v24.4s, v24.8h, #0
	sshll2	v29.4s, v23.8h, #0
	bic	v22.8h, #248, lsl #8
	sshll	v28.4s, v23.4h, #0
	ldr	q23, [sp, #2128]
	stp	q25, q26, [x23, #480]
	ushl	v25.4s, v27.4s, v20.4s
	ushl	v24.4s, v24.4s, v20.4s
	ushl	v27.4s, v29.4s, v20.4s
	ldr	h29, [sp, #608]
	cmhs	v26.8h, v22.8h, v19.8h
	bic	v23.8h, #248, lsl #8
	ushl	v28.4s, v28.4s, v20.4s
	ucvtf	s8, s29
	fmov	s29, w18
	mov	w18, #2139095040
	add	v25.4s, v25.4s, v21.4s
	add	v24.4s, v24.4s, v21.4s
	fmov	s9, w18
	mov	w18, #3456
	and	v30.16b, v26.16b, v18.16b
	cmhs	v31.8h, v23.8h, v19.8h
	add	v26.4s, v28.4s, v21.4s
	add	v28.4s, v27.4s, v21.4s
	ldr	q27, [sp, #2144]
	stp	q25, q24, [x23, #512]
	ldr	h25, [sp, #600]
	fcsel	s24, s29, s9, lo
	ushll	v9.4s, v10.4h, #0
	orr	v30.16b, v30.16b, v22.16b
	and	v29.16b, v31.16b, v18.16b
	stp	q26, q28, [x23, #544]
	movi	v31.2s, #31
	dup	v10.2s, w18
	fdiv	s22, s8, s24
	ldr	h24, [sp, #602]
	ucvtf	s25, s25
	shl	v8.2s, v9.2s, #18
	bic	v27.8h, #248, lsl #8
	sshll2	v11.4s, v30.8h, #0
	ucvtf	s24, s24
	sshll	v30.4s, v30.4h, #0
	cmhs	v28.8h, v14.8h, v19.8h
	and	v31.8b, v9.8b, v31.8b
	cmhi	v9.2s, v10.2s, v9.2s
	ldr	h10, [sp, #604]
	bic	v8.2s, #124, lsl #16
	ushl	v11.4s, v11.4s, v20.4s
	orr	v23.16b, v29.16b, v23.16b
	ucvtf	s10, s10
	ushl	v26.4s, v30.4s, v20.4s
	and	v28.16b, v28.16b, v18.16b
	mov	v25.s[1], v24.s[0]
	shl	v31.2s, v31.2s, #23
	add	v8.2s, v8.2s, v12.2s
	cmhs	v24.8h, v27.8h, v19.8h
	add	v30.4s, v11.4s, v21.4s
	add	v26.4s, v26.4s, v21.4s
	add	v29.2s, v31.2s, v12.2s
	sshll	v31.4s, v23.4h, #0
	sshll2	v23.4s, v23.8h, #0
	bif	v8.8b, v13.8b, v9.8b
	ldr	h13, [sp, #606]
	fmov	s9, w16
	stp	q26, q30, [x23, #576]
	add	x16, sp, #544
	and	v17.16b, v24.16b, v18.16b
	add	x16, x16, #512
	mov	v25.s[2], v10.s[0]
	ldr	q10, [sp, #2192]
	fdiv	s24, s15, s9
	ldr	q9, [sp, #2176]
	ucvtf	s13, s13
	bic	v10.8h, #248, lsl #8
	orr	v17.16b, v17.16b, v27.16b
	zip1	v29.4s, v8.4s, v29.4s
	bic	v9.8h, #248, lsl #8
	orr	v26.16b, v28.16b, v14.16b
	ushl	v23.4s, v23.4s, v20.4s
	ushl	v28.4s, v31.4s, v20.4s
	mov	v25.s[3], v13.s[0]
	cmhs	v27.8h, v9.8h, v19.8h
	cmhs	v19.8h, v10.8h, v19.8h
	add	v23.4s, v23.4s, v21.4s
	add	v28.4s, v28.4s, v21.4s
	and	v27.16b, v27.16b, v18.16b
	and	v18.16b, v19.16b, v18.16b
	sshll	v19.4s, v17.4h, #0
	stp	q28, q23, [x23, #608]
	sshll2	v17.4s, v17.8h, #0
	fdiv	v25.4s, v25.4s, v29.4s
	sshll	v29.4s, v26.4h, #0
	sshll2	v26.4s, v26.8h, #0
	orr	v27.16b, v27.16b, v9.16b
	ushl	v19.4s, v19.4s, v20.4s
	orr	v18.16b, v18.16b, v10.16b
	ushl	v17.4s, v17.4s, v20.4s
	stp	s22, s24, [x29, #-144]
	ushl	v26.4s, v26.4s, v20.4s
	ushl	v29.4s, v29.4s, v20.4s
	sshll2	v30.4s, v27.8h, #0
	sshll	v27.4s, v27.4h, #0
	add	v19.4s, v19.4s, v21.4s
	add	v17.4s, v17.4s, v21.4s
	sshll2	v31.4s, v18.8h, #0
	sshll	v18.4s, v18.4h, #0
	add	v23.4s, v26.4s, v21.4s
	ushl	v30.4s, v30.4s, v20.4s
	ushl	v26.4s, v27.4s, v20.4s
	add	v27.4s, v29.4s, v21.4s
	stp	q19, q17, [x23, #640]
	ushl	v28.4s, v31.4s, v20.4s
	ushl	v17.4s, v18.4s, v20.4s
	stp	q27, q23, [x23, #672]
	add	v18.4s, v30.4s, v21.4s
	add	v19.4s, v26.4s, v21.4s
	add	v20.4s, v28.4s, v21.4s
	add	v17.4s, v17.4s, v21.4s
	stp	q19, q18, [x23, #704]
	stp	q17, q20, [x23, #736]
	stur	q25, [x29, #-160]
.Lreader_BB2_127:
	ldr	h17, [x16, x15, lsl #1]
	mov	w17, #57344
	sub	x18, x29, #160
	movk	w17, #17663, lsl #16
	ucvtf	s17, s17
	fmov	s18, w17
	lsr	x17, x15, #3
	and	x17, x17, #0x1c
	fdiv	s17, s17, s18
	ldr	s18, [x18, x17]
	fmul	s17, s18, s17
	str	s17, [x0, x15, lsl #2]
	add	x15, x15, #1
	cmp	x15, #192
	b.ne	.Lreader_BB2_127
	ldrh	w16, [sp, #590]
	ldrh	w17, [sp, #592]
	mov	w18, #-2048
	mov	w1, #1065353216
	mov	x15, xzr
	tst	w16, #0x400
	lsr	w0, w17, #5
	csel	w18, wzr, w18, eq
	cmp	w17, #1, lsl #12
	and	w17, w17, #0x1f
	bfxil	w18, w16, #0, #11
	add	w16, w1, w0, lsl #23
	ldr	x0, [sp, #8]
	fmov	s17, w16
	mov	w16, #2139095040
	scvtf	s18, w18
	fmov	s19, w16
	add	w16, w1, w17, lsl #23
	add	x17, sp, #544
	fmov	s20, w16
	add	x16, x17, #896
	fcsel	s19, s17, s19, lo
.Lreader_BB2_129:
	ldrh	w17, [x16, x15, lsl #1]
	mov	w18, #-32
	tst	w17, #0x10
	csel	w18, wzr, w18, eq
	bfxil	w18, w17, #0, #5
	scvtf	s17, w18
	fmul	s17, s17, s20
	fadd	s17, s18, s17
	fdiv	s17, s17, s19
	str	s17, [x0, x15, lsl #2]
	add	x15, x15, #1
	cmp	x15, #192
	b.ne	.Lreader_BB2_129
	ldrh	w16, [sp, #586]
	ldrh	w17, [sp, #588]
	mov	w18, #-2048
	mov	w1, #1065353216
	mov	x15, xzr
	tst	w16, #0x400
	lsr	w0, w17, #5
	csel	w18, wzr, w18, eq
	cmp	w17, #1, lsl #12
	and	w17, w17, #0x1f
	bfxil	w18, w16, #0, #11
	add	w16, w1, w0, lsl #23
	ldr	x0, [sp, #32]
	fmov	s17, w16
	mov	w16, #2139095040
	scvtf	s18, w18
	fmov	s19, w16
	add	w16, w1, w17, lsl #23
	add	x17, sp, #544
	fmov	s20, w16
	add	x16, x17, #896
	fcsel	s19, s17, s19, lo
.Lreader_BB2_131:
	ldrh	w17, [x16, x15, lsl #1]
	mov	w18, #32
	tst	w18, w17, lsr #5
	mov	w18, #-64
	csel	w18, wzr, w18, eq
	bfxil	w18, w17, #5, #6
	scvtf	s17, w18
	fmul	s17, s17, s20
	fadd	s17, s18, s17
	fdiv	s17, s17, s19
	str	s17, [x0, x15, lsl #2]
	add	x15, x15, #1
	cmp	x15, #192
	b.ne	.Lreader_BB2_131
	movi	v17.2d, #0000000000000000
	mov	w15, #120
	ldr	d18, [sp, #160]
	sturh	w15, [x29, #-120]
	ldrh	w0, [sp, #612]
	ldrh	w4, [sp, #614]
	ldrh	w2, [sp, #616]
	ldrh	w3, [sp, #618]
	cmp	x11, #7
	ldrh	w15, [sp, #620]
	ldrh	w18, [sp, #622]
	ldrh	w5, [sp, #624]
	ldrh	w6, [sp, #626]
	ldrh	w7, [sp, #628]
	ldrh	w21, [sp, #630]
	ldrh	w20, [sp, #632]
	ldrh	w23, [sp, #634]
	ldrh	w22, [sp, #636]
	ldrh	w16, [sp, #638]
	ldrh	w17, [sp, #640]
	ldrh	w24, [sp, #642]
	ldrh	w25, [sp, #644]
	ldrh	w1, [sp, #646]
	stur	d18, [x29, #-128]
	sturh	w12, [x29, #-118]
	stp	q17, q17, [x29, #-224]
	sturh	w13, [x29, #-116]
	sturh	w14, [x29, #-114]
	stp	s0, s1, [x29, #-160]
	stp	s2, s3, [x29, #-152]
	stp	s4, s5, [x29, #-144]
	stp	s6, s7, [x29, #-136]
	stp	q17, q17, [x29, #-192]
	b.ne	.Lreader_BB2_134
	mov	w19, #1065353216
	stur	w19, [x29, #-164]
	b	.Lreader_BB2_140
.Lreader_BB2_134:
	sub	x19, x29, #128
	fmov	s17, #1.00000000
	mov	x26, x11
	add	x19, x19, x11, lsl #1
	add	x19, x19, #2
	b	.Lreader_BB2_137
.Lreader_BB2_135:
	neg	w27, w27
	ucvtf	s18, w27
	fadd	s18, s16, s18
	fneg	s18, s18
.Lreader_BB2_136:
	sub	x27, x29, #160
	add	x19, x19, #2
	ldr	s19, [x27, x26, lsl #2]
	add	x26, x26, #1
	cmp	x26, #7
	fmul	s18, s19, s18
	fmov	s19, #1.00000000
	fadd	s18, s18, s19
	fmul	s17, s17, s18
	b.eq	.Lreader_BB2_139
.Lreader_BB2_137:
	ldrsh	w27, [x19]
	ldursh	w28, [x19, #-2]
	sub	x30, x29, #192
	str	s17, [x30, x26, lsl #2]
	subs	w27, w27, w28
	b.mi	.Lreader_BB2_135
	ucvtf	s18, w27
	fadd	s18, s16, s18
	b	.Lreader_BB2_136
.Lreader_BB2_139:
	stur	s17, [x29, #-164]
	cbz	x11, .Lreader_BB2_145
.Lreader_BB2_140:
	sub	x19, x29, #128
	fmov	s17, #1.00000000
	sub	x26, x29, #160
	add	x19, x19, x11, lsl #1
	sub	x27, x29, #192
	sub	x26, x26, #4
	sub	x27, x27, #4
	b	.Lreader_BB2_143
.Lreader_BB2_141:
	ucvtf	s18, w28
	fadd	s18, s16, s18
.Lreader_BB2_142:
	ldr	s19, [x26, x11, lsl #2]
	sub	x28, x11, #1
	fmul	s18, s19, s18
	fmov	s19, #1.00000000
	fadd	s18, s18, s19
	fdiv	s17, s17, s18
	str	s17, [x27, x11, lsl #2]
	mov	x11, x28
	cbz	x28, .Lreader_BB2_145
.Lreader_BB2_143:
	ldrsh	w28, [x19]
	ldrsh	w30, [x19, #-2]!
	subs	w28, w28, w30
	b.pl	.Lreader_BB2_141
	neg	w28, w28
	ucvtf	s18, w28
	fadd	s18, s16, s18
	fneg	s18, s18
	b	.Lreader_BB2_142
.Lreader_BB2_145:
	tst	w1, #0x100
	mov	w11, #-512
	lsr	w26, w25, #6
	mov	w19, #-64
	csel	w11, wzr, w11, eq
	tst	w25, #0x20
	mov	w27, #1065353216
	csel	w28, wzr, w19, eq
	mov	w30, #2139095040
	add	w26, w27, w26, lsl #23
	bfxil	w28, w25, #0, #6
	fmov	s20, w30
	cmp	w25, #2, lsl #12
	lsr	w25, w24, #6
	bfxil	w11, w1, #0, #9
	fmov	s16, w26
	scvtf	s17, w28
	ucvtf	s22, w20
	add	w25, w27, w25, lsl #23
	movi	v24.2s, #60, lsl #24
	fmov	s27, #0.12500000
	movi	v28.2s, #59, lsl #24
	movi	v30.2s, #56, lsl #24
	orr	w2, w3, w2, lsl #5
	fcsel	s16, s16, s20, lo
	tst	w24, #0x20
	mov	w3, #65516
	csel	w19, wzr, w19, eq
	cmp	w24, #2, lsl #12
	bfxil	w19, w24, #0, #6
	fdiv	s16, s17, s16
	fmov	s17, w25
	scvtf	s18, w19
	add	w19, w27, w22, lsl #23
	fcsel	s19, s17, s20, lo
	fmov	s21, w19
	cmp	w22, #128
	scvtf	s17, w11
	mov	w11, #-2048
	mov	w22, #1015021568
	fcsel	s20, s21, s20, lo
	tst	w21, #0x400
	csel	w19, wzr, w11, eq
	tst	w7, #0x400
	bfxil	w19, w21, #0, #11
	csel	w20, wzr, w11, eq
	tst	w4, #0x400
	bfxil	w20, w7, #0, #11
	mov	w7, #964689920
	mov	w21, #1
	fdiv	s18, s18, s19
	ucvtf	s19, w23
	scvtf	s25, w19
	csel	w19, wzr, w11, eq
	tst	w0, #0x400
	scvtf	s26, w20
	bfxil	w19, w4, #0, #11
	csel	w11, wzr, w11, eq
	fmov	s31, w7
	bfxil	w11, w0, #0, #11
	orr	w0, w6, w5, lsl #5
	lsl	w7, w18, #5
	ubfx	w6, w18, #3, #8
	ubfx	w18, w1, #9, #2
	mov	w1, #120
	scvtf	s29, w11
	ucvtf	s8, w0
	fmul	s25, s25, s31
	orr	w0, w17, w16, lsl #5
	lsl	w16, w15, #5
	mov	w4, #65496
	fmov	w17, s8
	fmov	w15, s25
	fdiv	s21, s19, s20
	fmov	s19, w22
	scvtf	s20, w19
	and	w20, w17, #0x7fff0000
	fmul	s23, s17, s19
	fmul	s17, s22, s24
	ucvtf	s19, w2
	fmul	s24, s26, s27
	fmul	s22, s20, s28
	mov	w2, #80
	fmul	s20, s29, s30
	ldp	q27, q26, [x29, #-192]
	fmov	w11, s24
	stp	q27, q26, [sp, #480]
	stp	q27, q26, [sp, #512]
	b	.Lreader_BB2_71
.Lreader_func_end2:
	.size	loamchalice_reader_take, .Lreader_func_end2-loamchalice_reader_take
	.section	.rodata.loamchalice_reader_take,"a",@progbits
.Lreader_JTI2_0:
	.byte	(.Lreader_BB2_75-.Lreader_BB2_75)>>2
	.byte	(.Lreader_BB2_75-.Lreader_BB2_75)>>2
	.byte	(.Lreader_BB2_84-.Lreader_BB2_75)>>2
	.byte	(.Lreader_BB2_86-.Lreader_BB2_75)>>2
	.byte	(.Lreader_BB2_81-.Lreader_BB2_75)>>2
	.byte	(.Lreader_BB2_88-.Lreader_BB2_75)>>2
	.byte	(.Lreader_BB2_90-.Lreader_BB2_75)>>2
	.byte	(.Lreader_BB2_87-.Lreader_BB2_75)>>2
	.byte	(.Lreader_BB2_93-.Lreader_BB2_75)>>2
	.byte	(.Lreader_BB2_83-.Lreader_BB2_75)>>2
	.byte	(.Lreader_BB2_91-.Lreader_BB2_75)>>2
	.byte	(.Lreader_BB2_80-.Lreader_BB2_75)>>2
	.byte	(.Lreader_BB2_82-.Lreader_BB2_75)>>2
	.byte	(.Lreader_BB2_89-.Lreader_BB2_75)>>2
	.byte	(.Lreader_BB2_79-.Lreader_BB2_75)>>2
	.byte	(.Lreader_BB2_85-.Lreader_BB2_75)>>2

// burn
	.section	.text.loamchalice_burn,"ax",@progbits
	.globl	loamchalice_burn
	.p2align	2
	.type	loamchalice_burn,@function
loamchalice_burn:
	sub	sp, sp, #16
	mov	w10, #4096
	cmp	x0, #0
	csel	x9, x10, xzr, eq
	cmp	x2, #0
	csel	x11, x10, xzr, eq
	cmp	x1, #1664
	b.hs	.Lburn_BB0_2
	mov	w11, #1
	b	.Lburn_BB0_4
.Lburn_BB0_2:
	cmp	x3, #1664
	b.hs	.Lburn_BB0_5
	mov	w11, #1
	mov	x1, x3
.Lburn_BB0_4:
	mov	w13, wzr
	mov	w9, wzr
	strb	wzr, [sp, #12]
	mov	w10, #832
	b	.Lburn_BB0_23
.Lburn_BB0_5:
	add	x10, x11, x2
	add	x13, x9, x0
	mov	x1, xzr
	add	x12, x0, x9
	add	x10, x10, #1
	add	x13, x13, #1
.Lburn_BB0_6:
	cmp	x1, #63
	b.hi	.Lburn_BB0_9
	mov	w14, #1
	mov	x15, #31522816
	lsl	x14, x14, x1
	movk	x15, #31948, lsl #32
	movk	x15, #64542, lsl #48
	tst	x14, x15
	b.eq	.Lburn_BB0_9
.Lburn_BB0_8:
	add	x1, x1, #1
	add	x10, x10, #2
	add	x13, x13, #2
	cmp	x1, #832
	b.ne	.Lburn_BB0_6
	b	.Lburn_BB0_14
.Lburn_BB0_9:
	cmp	x1, #41
	b.hi	.Lburn_BB0_8
	cmp	x1, #16
	b.lo	.Lburn_BB0_12
	sub	x14, x1, #21
	cmn	x14, #2
	b.lo	.Lburn_BB0_8
.Lburn_BB0_12:
	ldurh	w14, [x13, #-1]
	ldurh	w15, [x10, #-1]
	rev16	w14, w14
	rev	w15, w15
	cmp	w14, w15, lsr #16
	b.eq	.Lburn_BB0_8
	mov	w11, #11
	b	.Lburn_BB0_4
.Lburn_BB0_14:
	add	x10, x11, x2
	mov	x17, xzr
	add	x13, x10, #1
.Lburn_BB0_15:
	mov	x10, x17
	cmp	x17, #832
	b.eq	.Lburn_BB0_21
	ldrb	w14, [x12]
	ldrb	w15, [x12, #1]
	add	x12, x12, #2
	ldurh	w16, [x13, #-1]
	add	x13, x13, #2
	orr	w17, w15, w14, lsl #8
	rev	w18, w16
	cmp	w17, w18, lsr #16
	add	x17, x10, #1
	b.eq	.Lburn_BB0_15
	orr	w13, w15, w14
	rev16	w14, w16
	add	x11, x11, x2
	cmp	w13, #0
	add	x9, x9, x0
	csel	w13, w14, wzr, eq
	rev	w14, w13
	lsr	w14, w14, #16
	sturh	w14, [x12, #-2]
	add	x12, x11, #1
	add	x11, x9, #1
	mov	w9, #833
.Lburn_BB0_18:
	subs	x9, x9, #1
	b.eq	.Lburn_BB0_20
	ldurh	w14, [x11, #-1]
	ldurh	w15, [x12, #-1]
	add	x12, x12, #2
	add	x11, x11, #2
	rev16	w14, w14
	rev	w15, w15
	cmp	w14, w15, lsr #16
	b.eq	.Lburn_BB0_18
.Lburn_BB0_20:
	cmp	x9, #0
	cset	w9, eq
	b	.Lburn_BB0_22
.Lburn_BB0_21:
	mov	w13, wzr
	mov	w9, #1
.Lburn_BB0_22:
	mov	x11, xzr
	mov	x1, xzr
	strb	wzr, [sp, #12]
.Lburn_BB0_23:
	strb	w9, [x8, #34]
	ldrb	w9, [sp, #12]
	stp	xzr, x10, [x8, #16]
	str	wzr, [sp, #8]
	stp	x11, x1, [x8]
	strh	w13, [x8, #32]
	stur	wzr, [x8, #35]
	strb	w9, [x8, #39]
	add	sp, sp, #16
	ret
.Lburn_func_end0:
	.size	loamchalice_burn, .Lburn_func_end0-loamchalice_burn

	.section	.text.loamchalice_next_step,"ax",@progbits
	.globl	loamchalice_next_step
	.p2align	2
	.type	loamchalice_next_step,@function
loamchalice_next_step:
	mov	w10, #4096
	cmp	x0, #0
	csel	x9, x10, xzr, eq
	cmp	x2, #0
	csel	x10, x10, xzr, eq
	cmp	x1, #1664
	b.hs	.Lburn_BB1_2
	mov	w11, wzr
	mov	w10, wzr
	mov	w9, #832
	mov	w12, #1
	b	.Lburn_BB1_19
.Lburn_BB1_2:
	cmp	x3, #1664
	b.hs	.Lburn_BB1_4
	mov	w11, wzr
	mov	w10, wzr
	mov	w9, #832
	mov	w12, #1
	mov	x1, x3
	b	.Lburn_BB1_19
.Lburn_BB1_4:
	add	x11, x10, x2
	add	x12, x9, x0
	mov	x1, xzr
	add	x11, x11, #1
	add	x12, x12, #1
.Lburn_BB1_5:
	cmp	x1, #63
	b.hi	.Lburn_BB1_8
	mov	w13, #1
	mov	x14, #31522816
	lsl	x13, x13, x1
	movk	x14, #31948, lsl #32
	movk	x14, #64542, lsl #48
	tst	x13, x14
	b.eq	.Lburn_BB1_8
.Lburn_BB1_7:
	add	x1, x1, #1
	add	x11, x11, #2
	add	x12, x12, #2
	cmp	x1, #832
	b.ne	.Lburn_BB1_5
	b	.Lburn_BB1_13
.Lburn_BB1_8:
	cmp	x1, #41
	b.hi	.Lburn_BB1_7
	cmp	x1, #16
	b.lo	.Lburn_BB1_11
	sub	x13, x1, #21
	cmn	x13, #2
	b.lo	.Lburn_BB1_7
.Lburn_BB1_11:
	ldurh	w13, [x12, #-1]
	ldurh	w14, [x11, #-1]
	rev16	w13, w13
	rev	w14, w14
	cmp	w13, w14, lsr #16
	b.eq	.Lburn_BB1_7
	mov	w11, wzr
	mov	w10, wzr
	mov	w9, #832
	mov	w12, #11
	b	.Lburn_BB1_19
.Lburn_BB1_13:
	add	x10, x10, x2
	add	x9, x9, x0
	mov	x12, xzr
	add	x10, x10, #1
	add	x11, x9, #1
.Lburn_BB1_14:
	mov	x9, x12
	cmp	x12, #832
	b.eq	.Lburn_BB1_17
	ldurb	w13, [x11, #-1]
	ldrb	w14, [x11], #2
	ldurh	w15, [x10, #-1]
	add	x10, x10, #2
	orr	w12, w14, w13, lsl #8
	rev	w16, w15
	cmp	w12, w16, lsr #16
	add	x12, x9, #1
	b.eq	.Lburn_BB1_14
	orr	w10, w14, w13
	rev16	w11, w15
	cmp	w10, #0
	csel	w10, w11, wzr, eq
	b	.Lburn_BB1_18
.Lburn_BB1_17:
	mov	w10, wzr
.Lburn_BB1_18:
	cmp	x9, #832
	mov	x12, xzr
	mov	x1, xzr
	cset	w11, eq
.Lburn_BB1_19:
	stp	x12, x1, [x8]
	stp	xzr, x9, [x8, #16]
	strh	w10, [x8, #32]
	strb	w11, [x8, #34]
	stur	wzr, [x8, #35]
	strb	wzr, [x8, #39]
	ret
.Lburn_func_end1:
	.size	loamchalice_next_step, .Lburn_func_end1-loamchalice_next_step

// scrub
	.section	.text.loamchalice_scrub,"ax",@progbits
	.globl	loamchalice_scrub
	.p2align	2
	.type	loamchalice_scrub,@function
loamchalice_scrub:
	cmp	x0, #0
	mov	w9, #4096
	csel	x13, x9, xzr, eq
	cmp	x2, #0
	csel	x12, x9, xzr, eq
	cmp	x4, #0
	csel	x14, x9, xzr, eq
	cmp	x1, #1664
	b.hs	.Lscrub_BB0_3
	mov	x9, xzr
	mov	x10, xzr
	mov	w11, #1
.Lscrub_BB0_2:
	stp	x11, x1, [x8]
	stp	xzr, x9, [x8, #16]
	str	x10, [x8, #32]
	ret
.Lscrub_BB0_3:
	mov	x1, xzr
	cmp	x3, #814
	mov	w11, #2
	b.lo	.Lscrub_BB0_17
	cmp	x5, #814
	mov	x9, x1
	mov	x10, x1
	b.lo	.Lscrub_BB0_2
	add	x15, x13, x0
	add	x13, x4, x14
	mov	x14, #72340172838076673
	mov	x11, xzr
	mov	x10, xzr
	mov	x9, xzr
	add	x12, x2, x12
	and	x14, x14, #0xffffffffff
	add	x15, x15, #1
	b	.Lscrub_BB0_8
.Lscrub_BB0_6:
	strh	w11, [x13, x10, lsl #1]
	add	x10, x10, #1
.Lscrub_BB0_7:
	add	x11, x11, #1
	add	x15, x15, #2
	cmp	x11, #832
	b.eq	.Lscrub_BB0_16
.Lscrub_BB0_8:
	cmp	x11, #63
	b.hi	.Lscrub_BB0_13
	mov	w16, #1
	mov	x17, #31522816
	lsl	x16, x16, x11
	movk	x17, #31948, lsl #32
	movk	x17, #64542, lsl #48
	tst	x16, x17
	b.eq	.Lscrub_BB0_13
.Lscrub_BB0_10:
	ldrb	w16, [x15]
	ldurb	w17, [x15, #-1]
	mov	x1, #27995
	mov	x2, #5645
	movk	x1, #61582, lsl #16
	mul	x18, x16, x14
	movk	x2, #18215, lsl #16
	movk	x1, #255, lsl #32
	movk	x2, #255, lsl #32
	mul	x0, x17, x14
	and	x18, x18, x1
	and	x0, x0, x2
	eor	x18, x18, x0
	eor	x18, x18, x18, lsr #4
	eor	x18, x18, x18, lsr #2
	eor	x18, x18, x18, lsr #1
	ands	x18, x18, x14
	b.eq	.Lscrub_BB0_7
	lsr	x0, x18, #32
	cbz	x0, .Lscrub_BB0_6
	mov	w0, #1032
	orr	w16, w16, w17, lsl #8
	mov	w1, #1934
	movk	w0, #258, lsl #16
	mul	w18, w18, w0
	mov	x0, #3263
	movk	x0, #12829, lsl #16
	movk	x0, #25934, lsl #32
	lsr	w18, w18, #22
	movk	x0, #43399, lsl #48
	and	x18, x18, #0x3c
	lsr	x18, x0, x18
	mov	w0, #1
	and	x18, x18, #0xf
	lsl	w17, w0, w18
	mov	w18, #1371
	eor	w16, w17, w16
	and	w17, w16, w18
	mov	w18, #1645
	strb	w16, [x15]
	eor	w0, w17, w17, lsr #8
	and	w18, w16, w18
	eor	w2, w18, w18, lsr #8
	eor	w17, w0, w17, lsr #4
	and	w0, w16, w1
	and	w1, w16, #0x7f0
	eor	w3, w0, w0, lsr #8
	eor	w18, w2, w18, lsr #4
	orr	w2, w1, w1, lsr #8
	eor	w17, w17, w17, lsr #2
	eor	w0, w3, w0, lsr #4
	eor	w18, w18, w18, lsr #2
	and	w3, w16, #0x7ff
	eor	w17, w17, w17, lsr #1
	eor	w1, w2, w1, lsr #4
	eor	w0, w0, w0, lsr #2
	eor	w18, w18, w18, lsr #1
	bfi	w3, w17, #11, #1
	eor	w17, w1, w1, lsr #2
	eor	w0, w0, w0, lsr #1
	bfi	w3, w18, #12, #1
	eor	w17, w17, w17, lsr #1
	bfi	w3, w0, #13, #1
	bfi	w3, w17, #14, #1
	eor	w17, w3, w3, lsr #8
	eor	w17, w17, w17, lsr #4
	eor	w17, w17, w17, lsr #2
	eor	w17, w17, w17, lsr #1
	orr	w17, w3, w17, lsl #15
	lsr	w17, w17, #8
	sturb	w17, [x15, #-1]
	strh	w11, [x12, x9, lsl #1]
	add	x9, x9, #1
	b	.Lscrub_BB0_7
.Lscrub_BB0_13:
	cmp	x11, #41
	b.hi	.Lscrub_BB0_10
	cmp	x11, #16
	b.lo	.Lscrub_BB0_7
	sub	x16, x11, #21
	cmn	x16, #3
	b.ls	.Lscrub_BB0_10
	b	.Lscrub_BB0_7
.Lscrub_BB0_16:
	stp	xzr, xzr, [x8]
	stp	xzr, x9, [x8, #16]
	str	x10, [x8, #32]
	ret
.Lscrub_BB0_17:
	stp	x11, x1, [x8]
	stp	xzr, x1, [x8, #16]
	str	x1, [x8, #32]
	ret
.Lscrub_func_end0:
	.size	loamchalice_scrub, .Lscrub_func_end0-loamchalice_scrub

// mlx90640
	.section	.rodata.cst8,"aM",@progbits,8
	.p2align	3, 0x0
.Lmlx90640_CPI0_0:
	.word	0x3f000000
	.word	0x3d800000
	.section	.text.loamchalice_mlx90640_access_pattern,"ax",@progbits
	.globl	loamchalice_mlx90640_access_pattern
	.p2align	2
	.type	loamchalice_mlx90640_access_pattern,@function
loamchalice_mlx90640_access_pattern:
	sxth	w9, w0
	mov	w10, #-32
	mov	w11, #16
	cmn	w9, #1
	csel	w9, wzr, w10, gt
	tst	w11, w0, lsr #6
	mov	w11, #-64
	csel	w10, wzr, w10, eq
	tst	w0, #0x20
	bfxil	w9, w0, #11, #5
	bfxil	w10, w0, #6, #5
	csel	w11, wzr, w11, eq
	bfxil	w11, w0, #0, #6
	scvtf	s2, w9
	adrp	x9, .Lmlx90640_CPI0_0
	scvtf	s0, w10
	ldr	d3, [x9, :lo12:.Lmlx90640_CPI0_0]
	scvtf	s1, w11
	mov	v0.s[1], v1.s[0]
	fmov	s1, #0.12500000
	fmul	s4, s2, s1
	fmul	v0.2s, v0.2s, v3.2s
	fnmul	s1, s2, s1
	fadd	s3, s4, s0
	fsub	s2, s0, s4
	stur	d0, [x8, #4]
	str	s4, [x8]
	fneg	s5, s3
	fneg	s0, s2
	stp	s1, s2, [x8, #12]
	stp	s5, s4, [x8, #20]
	stp	s0, s3, [x8, #28]
	ret
.Lmlx90640_func_end0:
	.size	loamchalice_mlx90640_access_pattern, .Lmlx90640_func_end0-loamchalice_mlx90640_access_pattern

	.section	.text.loamchalice_mlx90640_chessboard_entry,"ax",@progbits
	.globl	loamchalice_mlx90640_chessboard_entry
	.p2align	2
	.type	loamchalice_mlx90640_chessboard_entry,@function
loamchalice_mlx90640_chessboard_entry:
	ubfiz	x10, x0, #1, #1
	mov	w9, #14
	cmp	x0, #768
	csel	x9, xzr, x9, lo
	csel	x11, xzr, x0, lo
	bfxil	x10, x0, #5, #1
	stp	x9, x11, [x8]
	csel	x9, x10, xzr, lo
	stp	xzr, x9, [x8, #16]
	ret
.Lmlx90640_func_end1:
	.size	loamchalice_mlx90640_chessboard_entry, .Lmlx90640_func_end1-loamchalice_mlx90640_chessboard_entry

	.section	.text.loamchalice_mlx90640_interleave_entry,"ax",@progbits
	.globl	loamchalice_mlx90640_interleave_entry
	.p2align	2
	.type	loamchalice_mlx90640_interleave_entry,@function
loamchalice_mlx90640_interleave_entry:
	sbfx	x10, x0, #5, #1
	and	x11, x0, #0x3
	mov	w9, #14
	cmp	x11, #1
	and	x10, x10, #0x3
	cinc	x12, x10, eq
	cmp	x11, #3
	add	x10, x10, #2
	csel	x10, x10, x12, eq
	cmp	x0, #768
	csel	x9, xzr, x9, lo
	csel	x11, xzr, x0, lo
	stp	x9, x11, [x8]
	csel	x9, x10, xzr, lo
	stp	xzr, x9, [x8, #16]
	ret
.Lmlx90640_func_end2:
	.size	loamchalice_mlx90640_interleave_entry, .Lmlx90640_func_end2-loamchalice_mlx90640_interleave_entry

	.section	.text.loamchalice_mlx90640_word_6_10_split,"ax",@progbits
	.globl	loamchalice_mlx90640_word_6_10_split
	.p2align	2
	.type	loamchalice_mlx90640_word_6_10_split,@function
loamchalice_mlx90640_word_6_10_split:
	sxth	w9, w0
	mov	w8, #192
	cmn	w9, #1
	csel	w8, wzr, w8, gt
	bfxil	w8, w0, #10, #6
	bfi	w8, w0, #16, #10
	mov	w0, w8
	ret
.Lmlx90640_func_end3:
	.size	loamchalice_mlx90640_word_6_10_split, .Lmlx90640_func_end3-loamchalice_mlx90640_word_6_10_split

	.section	.rodata.cst8,"aM",@progbits,8
	.p2align	3, 0x0
.Lmlx90640_CPI4_0:
	.hword	65532
	.hword	0
	.hword	65528
	.hword	0
.Lmlx90640_CPI4_1:
	.hword	15
	.hword	15
	.hword	15
	.hword	12
.Lmlx90640_CPI4_2:
	.hword	65521
	.hword	65521
	.hword	65521
	.hword	65524
	.section	.rodata.cst16,"aM",@progbits,16
	.p2align	4, 0x0
.Lmlx90640_CPI4_3:
	.word	16
	.word	24
	.word	8
	.word	0
	.section	.text.loamchalice_mlx90640_word_to_i4s,"ax",@progbits
	.globl	loamchalice_mlx90640_word_to_i4s
	.p2align	2
	.type	loamchalice_mlx90640_word_to_i4s,@function
loamchalice_mlx90640_word_to_i4s:
	dup	v0.4h, w0
	adrp	x8, .Lmlx90640_CPI4_0
	movi	v2.4h, #8
	ldr	d1, [x8, :lo12:.Lmlx90640_CPI4_0]
	adrp	x8, .Lmlx90640_CPI4_1
	adrp	x9, .Lmlx90640_CPI4_2
	ldr	d3, [x9, :lo12:.Lmlx90640_CPI4_2]
	movi	v4.2d, #0000000000000000
	ushl	v0.4h, v0.4h, v1.4h
	ldr	d1, [x8, :lo12:.Lmlx90640_CPI4_1]
	sxth	w8, w0
	cmn	w8, #1
	mov	w8, #240
	and	v1.8b, v0.8b, v1.8b
	umov	w10, v0.h[2]
	ushl	v0.4h, v0.4h, v3.4h
	movi	v3.4s, #240
	csel	w9, wzr, w8, gt
	cmhi	v2.4h, v2.4h, v1.4h
	mov	v1.h[3], v0.h[3]
	tst	w10, #0x8
	csel	w8, wzr, w8, eq
	sshll	v2.4s, v2.4h, #0
	mov	v4.s[2], w8
	adrp	x8, .Lmlx90640_CPI4_3
	ushll	v1.4s, v1.4h, #0
	bic	v0.16b, v3.16b, v2.16b
	mov	v0.d[1], v4.d[1]
	orr	v0.16b, v0.16b, v1.16b
	ldr	q1, [x8, :lo12:.Lmlx90640_CPI4_3]
	ushl	v0.4s, v0.4s, v1.4s
	ext	v1.16b, v0.16b, v0.16b, #8
	orr	v0.8b, v0.8b, v1.8b
	fmov	x8, d0
	lsr	x10, x8, #32
	orr	w8, w8, w9
	orr	w0, w8, w10
	ret
.Lmlx90640_func_end4:
	.size	loamchalice_mlx90640_word_to_i4s, .Lmlx90640_func_end4-loamchalice_mlx90640_word_to_i4s

	.section	.text.loamchalice_mlx90640_word_to_u4s,"ax",@progbits
	.globl	loamchalice_mlx90640_word_to_u4s
	.p2align	2
	.type	loamchalice_mlx90640_word_to_u4s,@function
loamchalice_mlx90640_word_to_u4s:
	lsl	w8, w0, #12
	and	w9, w0, #0xf00
	and	w8, w8, #0xf0000
	bfi	w8, w0, #24, #4
	orr	w8, w8, w9
	bfxil	w8, w0, #12, #4
	mov	w0, w8
	ret
.Lmlx90640_func_end5:
	.size	loamchalice_mlx90640_word_to_u4s, .Lmlx90640_func_end5-loamchalice_mlx90640_word_to_u4s

// load640
	.section	.rodata.cst8,"aM",@progbits,8
	.p2align	3, 0x0
.Lload640_CPI0_0:
	.word	127
	.word	135
.Lload640_CPI0_1:
	.word	0x39800000
	.word	0x3e000000
	.section	.text.loamchalice_mlx90640_load,"ax",@progbits
	.globl	loamchalice_mlx90640_load
	.p2align	2
	.type	loamchalice_mlx90640_load,@function
loamchalice_mlx90640_load:
	str	x30, [sp, #-96]!
	stp	x28, x27, [sp, #16]
	stp	x26, x25, [sp, #32]
	stp	x24, x23, [sp, #48]
	stp	x22, x21, [sp, #64]
	stp	x20, x19, [sp, #80]
	sub	sp, sp, #544
	cmp	x0, #0
	mov	w9, #4096
	movi	v0.2d, #0000000000000000
	csel	x11, x9, xzr, eq
	cmp	x3, #0
	csel	x10, x9, xzr, eq
	cmp	x5, #0
	csel	x12, x9, xzr, eq
	cmp	x7, #0
	csel	x15, x9, xzr, eq
	cmp	x1, #1663
	stp	q0, q0, [sp, #64]
	stp	q0, q0, [sp, #96]
	stp	q0, q0, [sp, #128]
	stp	q0, q0, [sp, #160]
	stp	q0, q0, [sp, #192]
	stp	q0, q0, [sp, #224]
	stp	q0, q0, [sp, #256]
	stp	q0, q0, [sp, #288]
	stp	q0, q0, [sp, #320]
	stp	q0, q0, [sp, #352]
	stp	q0, q0, [sp, #384]
	stp	q0, q0, [sp, #416]
	stp	q0, q0, [sp, #448]
	stp	q0, q0, [sp, #480]
	str	q0, [sp, #48]
	b.hi	.Lload640_BB0_2
	mov	w16, #1
	b	.Lload640_BB0_40
.Lload640_BB0_2:
	ldr	x9, [sp, #640]
	cmp	x6, x9
	csel	x9, x6, x9, lo
	cmp	x4, x9
	csel	x9, x4, x9, lo
	cmp	x9, #768
	b.hs	.Lload640_BB0_4
	mov	x1, xzr
	mov	w16, #2
	b	.Lload640_BB0_40
.Lload640_BB0_4:
	mov	x14, xzr
	add	x9, x0, x11
	add	x13, x3, x10
	add	x12, x5, x12
	add	x10, x7, x15
	b	.Lload640_BB0_7
.Lload640_BB0_5:
	ldrb	w15, [x15]
	lsl	w16, w15, #1
	and	w16, w16, #0x100
	sub	w15, w15, w16
.Lload640_BB0_6:
	add	x16, sp, #48
	str	w15, [x16, x14, lsl #2]
	add	x14, x14, #1
	cmp	x14, #116
	b.eq	.Lload640_BB0_20
.Lload640_BB0_7:
	subs	x15, x14, #56
	b.hs	.Lload640_BB0_10
	subs	x15, x14, #24
	b.hs	.Lload640_BB0_13
	lsr	x15, x14, #1
	and	x1, x14, #0x3
	ldrb	w17, [x9, #34]
	cmp	x1, #2
	and	x15, x15, #0xe
	lsl	w17, w17, #8
	add	x15, x9, x15
	ldrb	w16, [x15, #36]
	ldrb	w15, [x15, #37]
	sxth	w17, w17
	orr	w18, w15, w16, lsl #8
	lsr	w3, w16, #4
	ldrb	w15, [x9, #32]
	lsr	w4, w18, #4
	csel	w3, w16, w3, eq
	cmp	x1, #0
	ldrb	w16, [x9, #35]
	and	w15, w15, #0xf
	csel	w18, w18, w4, eq
	cmp	x1, #1
	mov	w1, #-16
	csel	w18, w3, w18, gt
	orr	w16, w17, w16
	tst	w18, #0x8
	csel	w1, wzr, w1, eq
	bfxil	w1, w18, #0, #4
	lsl	w15, w1, w15
	add	w15, w15, w16
	b	.Lload640_BB0_6
.Lload640_BB0_10:
	cmp	x14, #112
	b.hs	.Lload640_BB0_14
	subs	x16, x14, #80
	b.hs	.Lload640_BB0_18
	lsr	x15, x15, #2
	and	x17, x14, #0x3
	cmp	x17, #2
	add	x15, x9, x15, lsl #1
	ldrb	w16, [x15, #68]
	ldrb	w15, [x15, #69]
	orr	w15, w15, w16, lsl #8
	lsr	w18, w16, #4
	lsr	w1, w15, #4
	csel	w16, w16, w18, eq
	cmp	x17, #0
	ldrb	w18, [x9, #64]
	csel	w15, w15, w1, eq
	cmp	x17, #1
	ldrb	w17, [x9, #66]
	csel	w15, w16, w15, gt
	mov	w16, #-16
	and	w18, w18, #0xf
	tst	w15, #0x8
	lsl	w17, w17, #8
	csel	w16, wzr, w16, eq
	bfxil	w16, w15, #0, #4
	ldrb	w15, [x9, #67]
	sxth	w17, w17
	lsl	w16, w16, w18
	orr	w15, w17, w15
	add	w15, w16, w15
	b	.Lload640_BB0_6
.Lload640_BB0_13:
	lsr	x15, x15, #2
	and	x17, x14, #0x3
	cmp	x17, #2
	add	x15, x9, x15, lsl #1
	ldrb	w16, [x15, #48]
	ldrb	w15, [x15, #49]
	orr	w15, w15, w16, lsl #8
	lsr	w18, w16, #4
	lsr	w1, w15, #4
	csel	w16, w16, w18, eq
	cmp	x17, #0
	csel	w15, w15, w1, eq
	cmp	x17, #1
	csel	w15, w16, w15, gt
	ldrb	w16, [x9, #33]
	b	.Lload640_BB0_19
.Lload640_BB0_14:
	add	x15, x9, #108
	b.eq	.Lload640_BB0_5
	cmp	x14, #114
	add	x15, x9, #110
	b.eq	.Lload640_BB0_5
	cmp	x14, #113
	add	x15, x9, #109
	b.eq	.Lload640_BB0_5
	add	x15, x9, #111
	b	.Lload640_BB0_5
.Lload640_BB0_18:
	lsr	x15, x16, #2
	and	x17, x14, #0x3
	cmp	x17, #2
	add	x15, x9, x15, lsl #1
	ldrb	w16, [x15, #80]
	ldrb	w15, [x15, #81]
	orr	w15, w15, w16, lsl #8
	lsr	w18, w16, #4
	lsr	w1, w15, #4
	csel	w16, w16, w18, eq
	cmp	x17, #0
	csel	w15, w15, w1, eq
	cmp	x17, #1
	csel	w15, w16, w15, gt
	ldrb	w16, [x9, #65]
.Lload640_BB0_19:
	tst	w15, #0x8
	mov	w17, #-16
	lsr	w16, w16, #4
	csel	w17, wzr, w17, eq
	bfxil	w17, w15, #0, #4
	lsl	w15, w17, w16
	b	.Lload640_BB0_6
.Lload640_BB0_20:
	ldrb	w17, [x9, #33]
	ldrb	w14, [x9, #32]
	mov	w18, #32
	ldrb	w1, [x9, #34]
	ldrb	w3, [x9, #35]
	lsr	w16, w17, #4
	and	w15, w14, #0xf
	mov	w14, #1
	lsl	w15, w14, w15
	bfi	w3, w1, #8, #8
	lsl	w4, w14, w16
	and	w16, w17, #0xf
	lsl	w5, w18, w16
	mov	w16, #65536
	mov	w18, #32768
	add	w15, w4, w15
	sub	w4, w16, w3
	tst	w18, w1, lsl #8
	add	w15, w5, w15, lsl #3
	csinc	w1, w4, w3, ne
	add	w1, w15, w1
	ldrb	w15, [x9, #113]
	cmp	w1, #8, lsl #12
	b.ls	.Lload640_BB0_29
	and	w14, w15, #0xf
.Lload640_BB0_22:
	mov	x15, xzr
	mov	x16, xzr
	mov	x1, xzr
	and	w17, w17, #0xf
.Lload640_BB0_23:
	add	x18, x9, x15
	lsr	x4, x1, #3
	and	x6, x16, #0x7c
	ldrb	w18, [x18, #128]
	and	x7, x4, #0x7c
	sxtb	w3, w18
	cmn	w3, #1
	mov	w3, #-64
	csel	w5, wzr, w3, gt
	add	x3, sp, #48
	orr	w5, w5, w18, lsr #2
	add	x4, x3, x6
	ldr	w6, [x3, x7]
	ldr	w7, [x4, #96]
	lsl	w5, w5, w17
	add	w6, w6, w7
	add	w5, w6, w5
	add	w5, w5, #8, lsl #12
	lsr	w5, w5, #16
	cbnz	w5, .Lload640_BB0_28
	lsr	x5, x1, #5
	ldr	w4, [x4, #320]
	add	x3, x3, x5, lsl #2
	ldr	w3, [x3, #224]
	add	w3, w3, w4
	add	w3, w3, #8, lsl #12
	lsr	w3, w3, #16
	cbnz	w3, .Lload640_BB0_28
	add	x3, x9, x15
	ldrb	w5, [x9, #65]
	ldrb	w3, [x3, #129]
	and	w5, w5, #0xf
	orr	w4, w3, w18, lsl #8
	lsl	w18, w18, #5
	ubfx	w4, w4, #4, #6
	and	w18, w18, #0x40
	sub	w18, w4, w18
	lsl	w18, w18, w5
	cmp	w18, w18, sxth
	b.ne	.Lload640_BB0_28
	mov	w18, #4
	and	x4, x15, #0x2
	add	x5, sp, #48
	tst	w18, w3, lsr #1
	mov	w18, #-8
	bfxil	x4, x1, #5, #1
	csel	w18, wzr, w18, eq
	bfxil	w18, w3, #1, #3
	orr	x3, x5, x4, lsl #2
	lsl	w18, w18, w14
	ldr	w3, [x3, #448]
	add	w18, w18, w3
	cmp	w18, w18, sxth
	b.ne	.Lload640_BB0_28
	add	x1, x1, #1
	add	x16, x16, #4
	add	x15, x15, #2
	cmp	x1, #768
	b.ne	.Lload640_BB0_23
	b	.Lload640_BB0_32
.Lload640_BB0_28:
	mov	w16, #5
	b	.Lload640_BB0_40
.Lload640_BB0_29:
	ldrb	w1, [x9, #65]
	ldrb	w3, [x9, #64]
	ldrb	w4, [x9, #66]
	ldrb	w5, [x9, #67]
	lsr	w6, w1, #4
	and	w3, w3, #0xf
	tst	w18, w4, lsl #8
	bfi	w5, w4, #8, #8
	lsl	w3, w14, w3
	lsl	w14, w14, w6
	sub	w16, w16, w5
	csinc	w16, w16, w5, ne
	add	w14, w3, w14
	add	w14, w16, w14, lsl #3
	cmp	w14, #8, lsl #12
	and	w14, w15, #0xf
	b.hi	.Lload640_BB0_22
	and	w15, w1, #0xf
	cmp	w15, #10
	b.hi	.Lload640_BB0_22
	cmp	w14, #13
	b.hs	.Lload640_BB0_22
.Lload640_BB0_32:
	subs	x14, x2, #3
	b.ls	.Lload640_BB0_34
	mov	w16, #6
	mov	x1, x2
	b	.Lload640_BB0_40
.Lload640_BB0_34:
	ldrb	w15, [x9, #123]
	ldrb	w16, [x9, #122]
	ldrb	w1, [x9, #125]
	sxtb	w17, w15
	sxtb	w18, w16
	cmn	w17, #1
	mov	w17, #-256
	csel	w3, wzr, w17, gt
	cmn	w18, #1
	orr	w15, w3, w15
	csel	w18, wzr, w17, gt
	sxtb	w3, w1
	scvtf	s0, w15
	orr	w15, w18, w16
	scvtf	s1, w15
	ldrb	w15, [x9, #124]
	cmn	w3, #1
	csel	w16, wzr, w17, gt
	sxtb	w18, w15
	orr	w16, w16, w1
	scvtf	s2, w16
	ldrb	w16, [x9, #127]
	mov	v0.s[1], v1.s[0]
	cmn	w18, #1
	csel	w17, wzr, w17, gt
	orr	w15, w17, w15
	and	w17, w16, #0xf
	scvtf	s1, w15
	sub	w15, w17, #121
	ldrb	w17, [x9, #126]
	mov	v0.s[2], v2.s[0]
	and	w15, w15, #0xff
	lsl	w15, w15, #23
	ubfx	w18, w17, #4, #2
	lsl	w18, w18, #1
	mov	v0.s[3], v1.s[0]
	dup	v1.4s, w15
	lsr	w15, w17, #4
	bfi	w18, w15, #3, #2
	lsr	w15, w16, #4
	and	w16, w17, #0xf
	fdiv	v1.4s, v0.4s, v1.4s
	mul	w17, w18, w15
	add	w15, w16, w15
	mul	w15, w15, w18
	movi	d0, #0000000000000000
	lsl	x16, x17, #32
	mov	w17, #1199570944
	fmov	s2, w17
	lsr	x15, x15, #1
	bfi	x16, x15, #49, #9
	mov	w15, #65496
	fmul	s4, s0, s2
	orr	x15, x16, x15
	str	x15, [sp, #552]
	str	q1, [sp, #528]
	cbz	x2, .Lload640_BB0_55
	sub	x1, x2, #1
	add	x15, sp, #552
	add	x17, sp, #528
	add	x15, x15, x1, lsl #1
	ldr	s1, [x17, x1, lsl #2]
	ldrsh	w16, [x15, #2]
	ldrsh	w15, [x15]
	subs	w15, w16, w15
	b.mi	.Lload640_BB0_37
	ucvtf	s2, w15
	fadd	s2, s4, s2
	b	.Lload640_BB0_38
.Lload640_BB0_37:
	neg	w15, w15
	ucvtf	s2, w15
	fadd	s2, s4, s2
	fneg	s2, s2
.Lload640_BB0_38:
	fmul	s1, s1, s2
	fmov	s2, #1.00000000
	fadd	s1, s1, s2
	fcmp	s1, s0
	b.ne	.Lload640_BB0_42
.Lload640_BB0_39:
	mov	w16, #13
.Lload640_BB0_40:
	mov	w11, wzr
	mov	w12, wzr
	mov	w18, wzr
	mov	w9, wzr
	mov	x13, xzr
	mov	x10, xzr
	movi	v5.2d, #0000000000000000
	movi	d18, #0000000000000000
	movi	d3, #0000000000000000
	movi	d2, #0000000000000000
	movi	d1, #0000000000000000
	movi	d0, #0000000000000000
	movi	d20, #0000000000000000
	movi	d16, #0000000000000000
	movi	d21, #0000000000000000
	movi	d7, #0000000000000000
	movi	d22, #0000000000000000
	movi	d17, #0000000000000000
	movi	d23, #0000000000000000
	movi	d25, #0000000000000000
	str	xzr, [sp, #520]
	movi	d19, #0000000000000000
	movi	d24, #0000000000000000
	str	xzr, [sp, #512]
	movi	d26, #0000000000000000
	movi	d4, #0000000000000000
	movi	d6, #0000000000000000
.Lload640_BB0_41:
	stp	s0, s1, [x8, #72]
	ldr	q0, [sp, #512]
	stp	x16, x1, [x8]
	str	xzr, [x8, #16]
	str	d18, [x8, #24]
	stp	s26, s23, [x8, #32]
	stp	s24, s19, [x8, #40]
	str	d6, [x8, #48]
	stp	s4, s25, [x8, #56]
	str	x13, [x8, #64]
	stp	s2, s3, [x8, #80]
	stur	q0, [x8, #88]
	stur	q5, [x8, #104]
	stp	s20, s16, [x8, #120]
	stp	s21, s7, [x8, #128]
	stp	s22, s17, [x8, #136]
	str	x10, [x8, #144]
	stp	w9, w12, [x8, #152]
	strb	w11, [x8, #160]
	strb	w18, [x8, #161]
	strh	wzr, [x8, #162]
	str	wzr, [x8, #164]
	add	sp, sp, #544
	ldp	x20, x19, [sp, #80]
	ldp	x22, x21, [sp, #64]
	ldp	x24, x23, [sp, #48]
	ldp	x26, x25, [sp, #32]
	ldp	x28, x27, [sp, #16]
	ldr	x30, [sp], #96
	ret
.Lload640_BB0_42:
	cbz	x1, .Lload640_BB0_55
	sub	x1, x2, #2
	add	x15, sp, #552
	add	x15, x15, x1, lsl #1
	ldr	s1, [x17, x1, lsl #2]
	ldrsh	w16, [x15, #2]
	ldrsh	w15, [x15]
	subs	w15, w16, w15
	b.mi	.Lload640_BB0_45
	ucvtf	s2, w15
	fadd	s2, s4, s2
	b	.Lload640_BB0_46
.Lload640_BB0_45:
	neg	w15, w15
	ucvtf	s2, w15
	fadd	s2, s4, s2
	fneg	s2, s2
.Lload640_BB0_46:
	fmul	s1, s1, s2
	fmov	s2, #1.00000000
	fadd	s1, s1, s2
	fcmp	s1, s0
	b.eq	.Lload640_BB0_39
	cbz	x1, .Lload640_BB0_55
	add	x15, sp, #552
	ldr	s1, [x17, x14, lsl #2]
	add	x15, x15, x14, lsl #1
	ldrsh	w16, [x15, #2]
	ldrsh	w15, [x15]
	subs	w15, w16, w15
	b.mi	.Lload640_BB0_50
	ucvtf	s2, w15
	fadd	s2, s4, s2
	b	.Lload640_BB0_51
.Lload640_BB0_50:
	neg	w15, w15
	ucvtf	s2, w15
	fadd	s2, s4, s2
	fneg	s2, s2
.Lload640_BB0_51:
	fmul	s1, s1, s2
	fmov	s2, #1.00000000
	fadd	s1, s1, s2
	fcmp	s1, s0
	b.ne	.Lload640_BB0_53
	mov	x1, x14
	b	.Lload640_BB0_39
.Lload640_BB0_53:
	cbz	x14, .Lload640_BB0_55
	orr	x1, x2, #0xfffffffffffffffc
	b	.Lload640_BB0_39
.Lload640_BB0_55:
	add	x16, x11, x0
	mov	x14, xzr
	mov	x15, xzr
	add	x16, x16, #128
.Lload640_BB0_56:
	ldrb	w17, [x16], #2
	lsr	x3, x15, #3
	ldrb	w1, [x9, #33]
	add	x4, sp, #48
	and	x5, x14, #0x7c
	sxtb	w18, w17
	add	x14, x14, #4
	and	w1, w1, #0xf
	cmn	w18, #1
	mov	w18, #-64
	csel	w18, wzr, w18, gt
	orr	w17, w18, w17, lsr #2
	and	x18, x3, #0x7c
	add	x3, x4, x5
	ldr	w18, [x4, x18]
	ldr	w3, [x3, #96]
	lsl	w17, w17, w1
	add	w18, w3, w18
	add	w17, w18, w17
	str	w17, [x13, x15, lsl #2]
	add	x15, x15, #1
	cmp	x15, #768
	b.ne	.Lload640_BB0_56
	add	x15, x11, x0
	mov	x13, xzr
	mov	x14, xzr
	add	x15, x15, #129
.Lload640_BB0_58:
	ldurb	w16, [x15, #-1]
	ldrb	w17, [x15], #2
	lsr	x18, x14, #3
	add	x1, sp, #48
	and	x3, x13, #0x7c
	orr	w17, w17, w16, lsl #8
	lsl	w16, w16, #5
	ldrb	w4, [x9, #65]
	and	x18, x18, #0x7c
	add	x3, x1, x3
	add	x13, x13, #4
	ubfx	w17, w17, #4, #6
	and	w16, w16, #0x40
	add	x18, x1, x18
	and	w1, w4, #0xf
	sub	w16, w17, w16
	ldr	w17, [x18, #224]
	ldr	w18, [x3, #320]
	lsl	w16, w16, w1
	add	w17, w18, w17
	scvtf	s0, w17
	scvtf	s1, w16
	ldrb	w16, [x9, #64]
	mov	w17, #1317011456
	lsl	w16, w16, #19
	and	w16, w16, #0x7800000
	fadd	s0, s0, s1
	add	w16, w16, w17
	fmov	s1, w16
	fdiv	s0, s0, s1
	str	s0, [x12, x14, lsl #2]
	add	x14, x14, #1
	cmp	x14, #768
	b.ne	.Lload640_BB0_58
	add	x11, x11, x0
	mov	x12, xzr
	mov	x13, xzr
	add	x11, x11, #129
.Lload640_BB0_60:
	ldrb	w14, [x11, x12]
	mov	w15, #4
	and	x16, x12, #0x2
	bfxil	x16, x13, #5, #1
	ldrb	w17, [x9, #113]
	add	x18, sp, #48
	tst	w15, w14, lsr #1
	mov	w15, #-8
	add	x12, x12, #2
	csel	w15, wzr, w15, eq
	bfxil	w15, w14, #1, #3
	orr	x14, x18, x16, lsl #2
	and	w16, w17, #0xf
	lsl	w15, w15, w16
	ldr	w14, [x14, #448]
	add	w14, w15, w14
	lsl	w15, w17, #19
	scvtf	s0, w14
	and	w14, w15, #0x7800000
	mov	w15, #1132462080
	add	w14, w14, w15
	fmov	s1, w14
	fdiv	s0, s0, s1
	str	s0, [x10, x13, lsl #2]
	add	x13, x13, #1
	cmp	x13, #768
	b.ne	.Lload640_BB0_60
	ldrsb	w10, [x9, #123]
	ldrb	w11, [x9, #127]
	mov	w12, #-256
	ldrb	w7, [x9, #102]
	ldrb	w0, [x9, #106]
	ldrb	w4, [x9, #107]
	cmn	w10, #1
	and	w14, w11, #0xf
	ldrb	w20, [x9, #112]
	csel	w13, wzr, w12, gt
	ldrb	w3, [x9, #100]
	ldrb	w5, [x9, #101]
	bfxil	w13, w10, #0, #8
	sub	w10, w14, #121
	ldrb	w15, [x9, #32]
	and	w10, w10, #0xff
	ldrb	w16, [x9, #96]
	ldrb	w1, [x9, #97]
	lsl	w10, w10, #23
	scvtf	s0, w13
	ldrb	w19, [x9, #120]
	str	xzr, [sp, #520]
	fmov	s3, w10
	ldrsb	w10, [x9, #122]
	str	xzr, [sp, #512]
	stp	w16, w15, [sp, #28]
	cmn	w10, #1
	csel	w13, wzr, w12, gt
	fdiv	s0, s0, s3
	bfxil	w13, w10, #0, #8
	ldrsb	w10, [x9, #125]
	cmn	w10, #1
	scvtf	s1, w13
	csel	w13, wzr, w12, gt
	bfxil	w13, w10, #0, #8
	ldrsb	w10, [x9, #124]
	cmn	w10, #1
	scvtf	s2, w13
	ldrb	w13, [x9, #126]
	csel	w12, wzr, w12, gt
	cmp	x2, #3
	bfxil	w12, w10, #0, #8
	ubfx	w14, w13, #4, #2
	lsr	w10, w13, #4
	fdiv	s1, s1, s3
	scvtf	s5, w12
	lsl	w14, w14, #1
	bfi	w14, w10, #3, #2
	lsr	w10, w11, #4
	and	w11, w13, #0xf
	ldrb	w13, [x9, #98]
	str	s0, [sp, #528]
	mul	w12, w14, w10
	add	w10, w11, w10
	mul	w10, w10, w14
	ldrb	w14, [x9, #99]
	lsl	x11, x12, #32
	ldrb	w12, [x9, #103]
	stp	w14, w13, [sp, #36]
	lsr	x10, x10, #1
	fdiv	s2, s2, s3
	bfi	x11, x10, #49, #9
	mov	w10, #65496
	orr	x10, x11, x10
	str	s1, [sp, #532]
	str	x10, [sp, #552]
	fdiv	s3, s5, s3
	str	s2, [sp, #536]
	str	s3, [sp, #540]
	b.ne	.Lload640_BB0_63
	mov	w13, #1065353216
	str	w13, [sp, #524]
	b	.Lload640_BB0_69
.Lload640_BB0_63:
	add	x13, sp, #552
	fmov	s5, #1.00000000
	mov	x14, x2
	add	x13, x13, x2, lsl #1
	add	x13, x13, #2
	b	.Lload640_BB0_66
.Lload640_BB0_64:
	neg	w15, w15
	ucvtf	s6, w15
	fadd	s6, s4, s6
	fneg	s6, s6
.Lload640_BB0_65:
	add	x15, sp, #528
	add	x13, x13, #2
	ldr	s7, [x15, x14, lsl #2]
	add	x14, x14, #1
	cmp	x14, #3
	fmul	s6, s7, s6
	fmov	s7, #1.00000000
	fadd	s6, s6, s7
	fmul	s5, s5, s6
	b.eq	.Lload640_BB0_68
.Lload640_BB0_66:
	ldrsh	w15, [x13]
	ldursh	w16, [x13, #-2]
	add	x17, sp, #512
	str	s5, [x17, x14, lsl #2]
	subs	w15, w15, w16
	b.mi	.Lload640_BB0_64
	ucvtf	s6, w15
	fadd	s6, s4, s6
	b	.Lload640_BB0_65
.Lload640_BB0_68:
	str	s5, [sp, #524]
	cbz	x2, .Lload640_BB0_74
.Lload640_BB0_69:
	add	x13, sp, #552
	fmov	s5, #1.00000000
	add	x14, sp, #528
	add	x13, x13, x2, lsl #1
	add	x15, sp, #512
	sub	x14, x14, #4
	sub	x15, x15, #4
	b	.Lload640_BB0_72
.Lload640_BB0_70:
	neg	w16, w16
	ucvtf	s6, w16
	fadd	s6, s4, s6
	fneg	s6, s6
.Lload640_BB0_71:
	ldr	s7, [x14, x2, lsl #2]
	sub	x16, x2, #1
	fmul	s6, s7, s6
	fmov	s7, #1.00000000
	fadd	s6, s6, s7
	fdiv	s5, s5, s6
	str	s5, [x15, x2, lsl #2]
	mov	x2, x16
	cbz	x16, .Lload640_BB0_74
.Lload640_BB0_72:
	ldrsh	w16, [x13]
	ldrsh	w17, [x13, #-2]!
	subs	w16, w16, w17
	b.mi	.Lload640_BB0_70
	ucvtf	s6, w16
	fadd	s6, s4, s6
	b	.Lload640_BB0_71
.Lload640_BB0_74:
	ldrb	w24, [x9, #64]
	ldrb	w21, [x9, #114]
	ldrb	w23, [x9, #115]
	ldrb	w2, [x9, #116]
	ldrb	w13, [x9, #117]
	ldrb	w18, [x9, #121]
	ldrb	w14, [x9, #118]
	ldrb	w17, [x9, #113]
	ldrb	w15, [x9, #119]
	str	w12, [sp, #44]
	stp	w13, w1, [sp, #20]
	cbz	w18, .Lload640_BB0_76
	sxtb	w13, w18
	movi	v5.2s, #61, lsl #24
	cmn	w13, #1
	mov	w13, #-256
	csel	w13, wzr, w13, gt
	orr	w13, w13, w18
	scvtf	s4, w13
	fmul	s4, s4, s5
	b	.Lload640_BB0_77
.Lload640_BB0_76:
	movi	d4, #0000000000000000
.Lload640_BB0_77:
	sxtb	w6, w15
	sxtb	w22, w14
	cmp	w18, #0
	cset	w18, ne
	mov	w27, #-256
	lsl	w25, w2, #8
	cmn	w6, #1
	sxtb	w6, w21
	sxtb	w26, w19
	csel	w28, wzr, w27, gt
	cmn	w22, #1
	sxtb	w13, w3
	csel	w22, wzr, w27, gt
	tst	w25, #0x200
	orr	w28, w28, w15
	orr	w30, w22, w14
	and	w14, w20, #0xf
	mov	w15, #-64
	fmov	s5, w14
	mov	w14, #-1024
	lsr	w17, w17, #4
	csel	w22, wzr, w14, eq
	cmn	w6, #1
	sxtb	w6, w7
	csel	w14, wzr, w15, gt
	cmn	w26, #1
	bfi	w23, w21, #8, #2
	csel	w27, wzr, w27, gt
	cmn	w13, #1
	mov	v5.s[1], w17
	csel	w13, wzr, w15, gt
	cmn	w6, #1
	mov	w17, #1792
	csel	w26, wzr, w17, gt
	tst	w4, #0x20
	lsl	w17, w24, #19
	csel	w24, wzr, w15, eq
	lsl	w15, w0, #8
	adrp	x6, .Lload640_CPI0_0
	bfxil	w24, w4, #0, #6
	bfi	w4, w0, #8, #8
	ldr	d6, [x6, :lo12:.Lload640_CPI0_0]
	mov	w6, #16
	sxth	w15, w15
	mov	w12, w7
	tst	w6, w4, lsr #6
	mov	w7, #-32
	ldrsb	w11, [x9, #104]
	ucvtf	s7, w23
	and	w17, w17, #0x7800000
	mov	w6, #1291845632
	csel	w23, wzr, w7, eq
	cmn	w15, #1
	add	w17, w17, w6
	csel	w15, wzr, w7, gt
	cmn	w11, #1
	mov	w6, #-16
	fmov	s16, w17
	csel	w17, wzr, w6, gt
	tst	w11, #0x8
	csel	w7, wzr, w6, eq
	bfxil	w17, w11, #4, #4
	scvtf	s17, w30
	bfxil	w7, w11, #0, #4
	add	v6.2s, v5.2s, v6.2s
	ldrsb	w9, [x9, #105]
	fdiv	s20, s7, s16
	scvtf	s7, w28
	orr	w11, w14, w21, lsr #2
	scvtf	s5, w17
	scvtf	s16, w7
	cmn	w9, #1
	bic	v6.2s, #1, lsl #8
	scvtf	s18, w11
	csel	w11, wzr, w6, gt
	movi	v19.2s, #60, lsl #24
	bfxil	w11, w9, #4, #4
	sxth	w14, w25
	mov	v17.s[1], v7.s[0]
	tst	w9, #0x8
	bfxil	w23, w4, #6, #5
	shl	v7.2s, v6.2s, #23
	scvtf	s21, w11
	lsr	w11, w14, #15
	mov	v5.s[1], v16.s[0]
	csel	w14, wzr, w6, eq
	bfi	w5, w3, #8, #2
	bfxil	w14, w9, #0, #4
	fmul	s16, s18, s19
	and	w9, w11, #0xffc0
	orr	w11, w27, w19
	orr	w15, w15, w0, lsr #3
	orr	w13, w13, w3, lsr #2
	scvtf	s18, w14
	fmov	s23, #0.50000000
	fmov	s27, #0.12500000
	fdiv	v6.2s, v17.2s, v7.2s
	fmov	s17, #1.00000000
	mov	v5.s[2], v21.s[0]
	ldp	w17, w14, [sp, #24]
	scvtf	s21, w15
	dup	v7.4s, v7.s[0]
	scvtf	s22, w13
	fadd	s16, s16, s17
	scvtf	s17, w11
	lsl	w11, w3, #9
	orr	w14, w17, w14, lsl #8
	mov	v5.s[3], v18.s[0]
	ldr	w15, [sp, #40]
	and	w11, w11, #0x400
	scvtf	s18, w23
	movi	v19.2s, #57, lsl #24
	sub	w11, w5, w11
	orr	w13, w9, w2, lsr #2
	ldr	w9, [sp, #20]
	scvtf	s25, w11
	sxth	w11, w14
	fmul	s28, s20, s16
	ldp	w14, w17, [sp, #32]
	scvtf	s24, w11
	fmul	s19, s17, s19
	orr	w9, w22, w9
	fdiv	v5.4s, v5.4s, v7.4s
	fmul	s18, s18, s23
	fmul	s7, s21, s27
	lsr	w14, w14, #6
	orr	w15, w17, w15, lsl #8
	mov	v22.s[1], v25.s[0]
	scvtf	s25, w24
	bfi	w9, w2, #8, #2
	mov	x1, xzr
	orr	w11, w14, #0x8
	sxth	w14, w15
	adrp	x15, .Lload640_CPI0_1
	ldr	d29, [x15, :lo12:.Lload640_CPI0_1]
	fsub	s16, s18, s7
	fadd	s17, s7, s18
	ucvtf	s23, w11
	mov	w11, #1031798784
	scvtf	s26, w14
	fmul	v18.2s, v22.2s, v29.2s
	ldr	w14, [sp, #44]
	fmov	s22, w11
	orr	w11, w26, w12
	fmov	w12, s20
	fmov	w15, s28
	lsl	w14, w14, #21
	fnmul	s20, s21, s27
	fneg	s21, s17
	fmul	s25, s25, s22
	fneg	s22, s16
	add	w13, w13, w9
	orr	w14, w14, w11, lsl #5
	ubfx	w11, w20, #4, #2
	bfi	w9, w13, #16, #16
	orr	x13, x12, x15, lsl #32
	mov	x16, xzr
	orr	w12, w14, #0xc0000000
	b	.Lload640_BB0_41
.Lload640_func_end0:
	.size	loamchalice_mlx90640_load, .Lload640_func_end0-loamchalice_mlx90640_load

// frames640
	.section	.text.frames640.pixels.frame_pixels,"ax",@progbits
	.p2align	2
	.type	loamchalice.frames640.pixels.frame_pixels,@function
loamchalice.frames640.pixels.frame_pixels:
	stp	d15, d14, [sp, #-160]!
	stp	d13, d12, [sp, #16]
	stp	d11, d10, [sp, #32]
	stp	d9, d8, [sp, #48]
	stp	x29, x30, [sp, #64]
	add	x29, sp, #64
	stp	x28, x27, [sp, #80]
	stp	x26, x25, [sp, #96]
	stp	x24, x23, [sp, #112]
	stp	x22, x21, [sp, #128]
	stp	x20, x19, [sp, #144]
	sub	sp, sp, #1024
	ldp	x24, x18, [x0]
	mov	x20, x1
	ldp	s8, s0, [x0, #28]
	ldr	x8, [x2]
	ldp	s9, s1, [x0, #36]
	ldr	x5, [x0, #16]
	ldrb	w1, [x0, #24]
	ldrb	w10, [x0, #44]
	ldr	s10, [x0, #48]
	ldrb	w6, [x0, #52]
	ldr	w11, [x0, #80]
	ldr	x7, [x2, #16]
	ldr	x19, [x2, #32]
	ldr	x30, [x2, #48]
	ldr	x2, [x2, #64]
	ldur	q2, [x0, #56]
	ldr	x12, [x3]
	ldr	x26, [x3, #16]
	ldr	x9, [x0, #72]
	ldr	x13, [x3, #32]
	ldr	x14, [x3, #48]
	str	q2, [sp, #592]
	str	x9, [sp, #608]
	cbz	x24, .Lframes640_BB0_35
	mov	w9, #13107
	fmov	s2, #-25.00000000
	stp	x14, x13, [sp, #72]
	movk	w9, #49235, lsl #16
	mov	x0, xzr
	mov	x13, xzr
	fmov	s3, w9
	add	x3, x8, #1
	str	x11, [sp, #88]
	fadd	s11, s1, s2
	str	w10, [sp, #100]
	str	x12, [sp, #200]
	fadd	s12, s0, s3
.Lframes640_BB0_2:
	lsl	x11, x13, #7
	add	x8, x3, x13, lsl #6
	add	x22, x20, x13, lsl #5
	mov	x28, xzr
	mov	x27, x13
	add	x9, x19, x11
	add	x10, x7, x11
	add	x25, x12, x11
	add	x21, x4, x11
.Lframes640_BB0_3:
	lsl	x23, x27, #5
	add	x11, x20, x23
	ldp	q1, q0, [x11]
	orr	v0.16b, v1.16b, v0.16b
	ext	v1.16b, v0.16b, v0.16b, #8
	orr	v0.8b, v0.8b, v1.8b
	fmov	x11, d0
	orr	x11, x11, x11, lsr #32
	lsr	x12, x11, #16
	orr	w11, w11, w12
	orr	w11, w11, w11, lsr #8
	tst	w11, #0xff
	b.ne	.Lframes640_BB0_5
	add	x27, x27, #1
	add	x28, x28, #1
	add	x9, x9, #128
	add	x10, x10, #128
	add	x8, x8, #64
	cmp	x27, x24
	add	x25, x25, #128
	add	x21, x21, #128
	add	x22, x22, #32
	b.lo	.Lframes640_BB0_3
	b	.Lframes640_BB0_36
.Lframes640_BB0_5:
	movi	v0.2d, #0000000000000000
	add	x11, x4, x27, lsl #7
	str	x13, [sp, #192]
	str	x11, [sp, #104]
	stp	q0, q0, [sp, #208]
	stp	q0, q0, [sp, #240]
	stp	q0, q0, [sp, #272]
	stp	q0, q0, [sp, #304]
	stp	q0, q0, [sp, #336]
	stp	q0, q0, [sp, #368]
	stp	q0, q0, [sp, #400]
	stp	q0, q0, [sp, #432]
	stp	q0, q0, [sp, #464]
	stp	q0, q0, [sp, #496]
	stp	q0, q0, [sp, #528]
	stp	q0, q0, [sp, #560]
	cbz	w1, .Lframes640_BB0_7
	ldp	q1, q2, [x11]
	mvni	v0.4s, #127, msl #16
	ldp	q4, q5, [x11, #32]
	mvni	v3.4s, #63, msl #16
	ldp	q7, q16, [x11, #64]
	mov	v6.16b, v1.16b
	fneg	v0.4s, v0.4s
	mov	v19.16b, v2.16b
	ldp	q17, q18, [x11, #96]
	mov	v20.16b, v4.16b
	mov	v21.16b, v5.16b
	fneg	v3.4s, v3.4s
	mov	v22.16b, v7.16b
	bic	v6.4s, #128, lsl #24
	bic	v19.4s, #128, lsl #24
	mov	v23.16b, v16.16b
	bic	v20.4s, #128, lsl #24
	mov	v24.16b, v17.16b
	bic	v21.4s, #128, lsl #24
	bic	v22.4s, #128, lsl #24
	cmhi	v6.4s, v6.4s, v0.4s
	cmhi	v19.4s, v19.4s, v0.4s
	bic	v23.4s, #128, lsl #24
	cmhi	v20.4s, v20.4s, v0.4s
	bic	v24.4s, #128, lsl #24
	cmhi	v21.4s, v21.4s, v0.4s
	bit	v1.16b, v3.16b, v6.16b
	mov	v6.16b, v18.16b
	bit	v2.16b, v3.16b, v19.16b
	cmhi	v19.4s, v22.4s, v0.4s
	bit	v4.16b, v3.16b, v20.16b
	cmhi	v20.4s, v23.4s, v0.4s
	bit	v5.16b, v3.16b, v21.16b
	cmhi	v21.4s, v24.4s, v0.4s
	bic	v6.4s, #128, lsl #24
	stp	q1, q2, [sp, #464]
	mov	v1.16b, v20.16b
	mov	v2.16b, v21.16b
	cmhi	v0.4s, v6.4s, v0.4s
	mov	v6.16b, v19.16b
	stp	q4, q5, [sp, #496]
	bsl	v1.16b, v3.16b, v16.16b
	bsl	v2.16b, v3.16b, v17.16b
	bsl	v6.16b, v3.16b, v7.16b
	bsl	v0.16b, v3.16b, v18.16b
	stp	q6, q1, [sp, #528]
	stp	q2, q0, [sp, #560]
	b	.Lframes640_BB0_14
.Lframes640_BB0_7:
	cbz	x18, .Lframes640_BB0_37
	cbz	x5, .Lframes640_BB0_37
	udiv	x11, x27, x18
	ldr	w13, [sp, #100]
	udiv	x12, x27, x5
	msub	x11, x11, x18, x27
	lsl	x11, x11, #5
	msub	x12, x12, x5, x27
	lsl	x12, x12, #5
	cbz	w13, .Lframes640_BB0_12
	mov	x13, xzr
	mov	x14, xzr
.Lframes640_BB0_11:
	ldr	w15, [x10], #4
	mov	w17, #1199570944
	fmov	s2, w17
	ldr	s1, [x9], #4
	asr	w16, w15, #16
	and	w15, w15, #0xffff
	ucvtf	s3, w15
	fmul	s1, s11, s1
	scvtf	s0, w16
	ldurh	w16, [x8, #-1]
	add	x8, x8, #2
	rev	w15, w16
	add	x16, x14, x11
	asr	w15, w15, #16
	ldr	s4, [x30, x16, lsl #2]
	fmul	s0, s0, s2
	fmov	s2, #1.00000000
	scvtf	s5, w15
	add	x15, x14, x12
	add	x14, x14, #1
	fadd	s1, s1, s2
	fadd	s0, s3, s0
	fmul	s3, s12, s4
	fmul	s4, s8, s5
	fmul	s0, s1, s0
	fadd	s1, s3, s2
	ldr	s2, [x2, x15, lsl #2]
	add	x15, sp, #464
	fadd	s2, s2, s4
	fmul	s0, s1, s0
	fsub	s0, s2, s0
	fdiv	s0, s0, s9
	fsub	s0, s0, s10
	str	s0, [x15, x13]
	add	x13, x13, #4
	cmp	x13, #128
	b.ne	.Lframes640_BB0_11
	b	.Lframes640_BB0_14
.Lframes640_BB0_12:
	mov	x13, xzr
	mov	x14, xzr
.Lframes640_BB0_13:
	ldr	w15, [x10, x13]
	mov	w17, #1199570944
	ldr	s1, [x9, x13]
	fmov	s2, w17
	asr	w16, w15, #16
	and	w15, w15, #0xffff
	fmul	s1, s11, s1
	ucvtf	s3, w15
	scvtf	s0, w16
	ldurh	w16, [x8, #-1]
	add	x8, x8, #2
	rev	w15, w16
	add	x16, x14, x11
	asr	w15, w15, #16
	ldr	s4, [x30, x16, lsl #2]
	fmul	s0, s0, s2
	fmov	s2, #1.00000000
	scvtf	s5, w15
	add	x15, x14, x12
	add	x14, x14, #1
	fadd	s1, s1, s2
	fadd	s0, s3, s0
	fmul	s3, s12, s4
	fmul	s4, s8, s5
	fmul	s0, s1, s0
	fadd	s1, s3, s2
	ldr	s2, [x2, x15, lsl #2]
	add	x15, sp, #464
	fadd	s2, s2, s4
	fmul	s0, s1, s0
	fsub	s0, s2, s0
	fdiv	s0, s0, s9
	str	s0, [x15, x13]
	add	x13, x13, #4
	cmp	x13, #128
	b.ne	.Lframes640_BB0_13
.Lframes640_BB0_14:
	movi	v0.2d, #0000000000000000
	cmp	w6, #2
	stp	x18, x4, [sp, #176]
	str	x5, [sp, #168]
	stp	w6, w1, [sp, #160]
	stp	x19, x7, [sp, #144]
	stp	q0, q0, [sp, #624]
	stp	q0, q0, [sp, #656]
	stp	q0, q0, [sp, #688]
	stp	q0, q0, [sp, #720]
	stp	x2, x30, [sp, #128]
	stp	x3, x0, [sp, #112]
	b.eq	.Lframes640_BB0_17
	ldr	x1, [sp, #200]
	cmp	w6, #1
	b.ne	.Lframes640_BB0_24
	add	x0, sp, #592
	add	x3, sp, #464
	add	x4, sp, #624
	mov	x2, x23
	bl	loamchalice.frames640.pixels.temperature_block
	b	.Lframes640_BB0_28
.Lframes640_BB0_17:
	ldrb	w8, [sp, #592]
	ldr	x1, [sp, #200]
	add	x0, sp, #592
	ldr	s15, [sp, #596]
	ldr	s13, [sp, #600]
	add	x3, sp, #464
	ldr	s14, [sp, #604]
	add	x4, sp, #624
	mov	x2, x23
	stp	q0, q0, [x29, #-208]
	stp	q0, q0, [x29, #-176]
	stp	q0, q0, [x29, #-144]
	stp	q0, q0, [x29, #-112]
	stp	q0, q0, [sp, #752]
	stp	q0, q0, [sp, #784]
	stp	q0, q0, [sp, #816]
	str	w8, [sp, #68]
	stp	q0, q0, [sp, #848]
	bl	loamchalice.frames640.pixels.temperature_block
	ldp	x12, x11, [sp, #80]
	ldr	x13, [sp, #72]
	cbz	w11, .Lframes640_BB0_21
	ldr	s0, [sp, #624]
	ldr	s17, [sp, #628]
	mov	x8, xzr
	ldr	s1, [sp, #640]
	ldr	s2, [sp, #656]
	ldr	s3, [sp, #672]
	ldr	s4, [sp, #688]
	ldr	s5, [sp, #704]
	ldr	s6, [sp, #720]
	mov	v0.s[1], v17.s[0]
	ldr	s17, [sp, #736]
	ldr	s24, [sp, #644]
	ldr	s25, [sp, #660]
	ldr	s26, [sp, #676]
	ldr	s27, [sp, #692]
	mov	v1.s[1], v24.s[0]
	ldr	s29, [sp, #708]
	ldr	s28, [sp, #724]
	mov	v2.s[1], v25.s[0]
	mov	v3.s[1], v26.s[0]
	mov	v4.s[1], v27.s[0]
	ldr	s30, [sp, #740]
	mov	v5.s[1], v29.s[0]
	mov	v6.s[1], v28.s[0]
	ldr	s7, [sp, #632]
	ldr	s16, [sp, #648]
	ldr	s18, [sp, #664]
	mov	v17.s[1], v30.s[0]
	ldr	s20, [sp, #680]
	ldr	s25, [sp, #696]
	ldr	s26, [sp, #712]
	mov	v0.s[2], v7.s[0]
	mov	v1.s[2], v16.s[0]
	ldr	s27, [sp, #728]
	ldr	s7, [sp, #744]
	mov	v2.s[2], v18.s[0]
	mov	v3.s[2], v20.s[0]
	mov	v4.s[2], v25.s[0]
	mov	v5.s[2], v26.s[0]
	mov	v6.s[2], v27.s[0]
	mov	v17.s[2], v7.s[0]
	ldr	s19, [sp, #636]
	ldr	s21, [sp, #652]
	ldr	s22, [sp, #668]
	ldr	s23, [sp, #684]
	ldr	s16, [sp, #748]
	ldr	s24, [sp, #700]
	ldr	s28, [sp, #716]
	ldr	s29, [sp, #732]
	mov	v0.s[3], v19.s[0]
	mov	v1.s[3], v21.s[0]
	mov	v2.s[3], v22.s[0]
	mov	v3.s[3], v23.s[0]
	mov	v4.s[3], v24.s[0]
	mov	v5.s[3], v28.s[0]
	mov	v6.s[3], v29.s[0]
	mov	v17.s[3], v16.s[0]
	movi	v7.2d, #0000000000000000
	movi	v16.2d, #0000000000000000
	movi	v18.2d, #0000000000000000
	movi	v19.2d, #0000000000000000
	movi	v20.2d, #0000000000000000
	movi	v21.2d, #0000000000000000
	movi	v22.2d, #0000000000000000
	movi	v23.2d, #0000000000000000
	str	s10, [sp, #64]
.Lframes640_BB0_19:
	ldrsh	w9, [x26, x8, lsl #1]
	dup	v10.4s, w8
	add	x8, x8, #1
	cmp	x11, x8
	scvtf	s24, w9
	dup	v24.4s, v24.s[0]
	fcmge	v25.4s, v0.4s, v24.4s
	fcmge	v26.4s, v1.4s, v24.4s
	fcmge	v27.4s, v2.4s, v24.4s
	fcmge	v28.4s, v3.4s, v24.4s
	fcmge	v29.4s, v4.4s, v24.4s
	fcmge	v30.4s, v5.4s, v24.4s
	fcmge	v31.4s, v6.4s, v24.4s
	fcmge	v24.4s, v17.4s, v24.4s
	cmlt	v25.4s, v25.4s, #0
	cmlt	v26.4s, v26.4s, #0
	cmlt	v27.4s, v27.4s, #0
	cmlt	v28.4s, v28.4s, #0
	cmlt	v29.4s, v29.4s, #0
	cmlt	v30.4s, v30.4s, #0
	cmlt	v31.4s, v31.4s, #0
	cmlt	v24.4s, v24.4s, #0
	bit	v7.16b, v10.16b, v25.16b
	bit	v16.16b, v10.16b, v26.16b
	bit	v18.16b, v10.16b, v27.16b
	bit	v19.16b, v10.16b, v28.16b
	bit	v20.16b, v10.16b, v29.16b
	bit	v21.16b, v10.16b, v30.16b
	bit	v22.16b, v10.16b, v31.16b
	bit	v23.16b, v10.16b, v24.16b
	b.ne	.Lframes640_BB0_19
	ldr	s10, [sp, #64]
	stp	q7, q16, [x29, #-208]
	stp	q18, q19, [x29, #-176]
	stp	q20, q21, [x29, #-144]
	stp	q22, q23, [x29, #-112]
.Lframes640_BB0_21:
	ldr	w8, [sp, #68]
	cbz	w8, .Lframes640_BB0_25
	mov	x8, xzr
.Lframes640_BB0_23:
	sub	x9, x29, #208
	ldr	s1, [x25], #4
	ldr	w9, [x9, x8]
	fsub	s1, s1, s15
	ldrsh	w10, [x26, x9, lsl #1]
	ldr	s3, [x13, x9, lsl #2]
	scvtf	s0, w10
	add	x10, sp, #624
	ldr	s2, [x10, x8]
	fmul	s1, s13, s1
	fsub	s0, s2, s0
	ldr	s2, [x12, x9, lsl #2]
	fmul	s1, s1, s3
	add	x9, sp, #464
	fmul	s0, s2, s0
	fmov	s2, #1.00000000
	fadd	s0, s0, s2
	fmul	s0, s1, s0
	ldr	s1, [x9, x8]
	add	x9, sp, #752
	fdiv	s0, s1, s0
	fadd	s0, s14, s0
	str	s0, [x9, x8]
	add	x8, x8, #4
	cmp	x8, #128
	b.ne	.Lframes640_BB0_23
	b	.Lframes640_BB0_27
.Lframes640_BB0_24:
	ldr	s0, [sp, #464]
	ldr	s1, [sp, #468]
	mov	w8, #2143289344
	fmov	s2, s0
	fmov	w9, s0
	ldr	s0, [sp, #472]
	fmov	s3, s0
	fcmp	s2, s2
	fmov	s2, s1
	cset	w12, vs
	csel	w15, w8, w9, vs
	fmov	w9, s1
	str	w15, [sp, #336]
	fcmp	s2, s2
	ldr	s2, [sp, #476]
	fmov	s1, s2
	cset	w10, vs
	csel	w14, w8, w9, vs
	fcmp	s3, s3
	fmov	w9, s0
	ldr	s0, [sp, #480]
	stp	w12, w10, [sp, #208]
	fmov	s3, s0
	str	w14, [sp, #340]
	cset	w13, vs
	csel	w11, w8, w9, vs
	fcmp	s1, s1
	fmov	w9, s2
	ldr	s1, [sp, #484]
	str	w11, [sp, #344]
	fmov	s2, s1
	cset	w16, vs
	csel	w9, w8, w9, vs
	fcmp	s3, s3
	stp	w13, w16, [sp, #216]
	str	w9, [sp, #64]
	fmov	w9, s0
	ldr	s0, [sp, #488]
	cset	w17, vs
	fmov	s3, s0
	csel	w19, w8, w9, vs
	fcmp	s2, s2
	fmov	w9, s1
	ldr	s2, [sp, #492]
	str	w17, [sp, #60]
	str	w19, [sp, #352]
	csel	w9, w8, w9, vs
	cset	w17, vs
	fcmp	s3, s3
	str	w9, [sp, #48]
	fmov	s1, s2
	fmov	w9, s0
	ldr	s0, [sp, #496]
	str	w17, [sp, #68]
	cset	w17, vs
	csel	w9, w8, w9, vs
	fmov	s3, s0
	stp	w17, w9, [sp, #52]
	fcmp	s1, s1
	fmov	w9, s2
	ldr	s1, [sp, #500]
	csel	w9, w8, w9, vs
	fmov	s2, s1
	cset	w17, vs
	str	w9, [sp, #32]
	fcmp	s3, s3
	fmov	w9, s0
	ldr	s0, [sp, #504]
	str	w17, [sp, #44]
	csel	w9, w8, w9, vs
	cset	w17, vs
	fcmp	s2, s2
	str	w9, [sp, #40]
	ldr	s2, [sp, #508]
	fmov	s3, s0
	fmov	w9, s1
	str	w17, [sp, #28]
	fmov	s1, s2
	cset	w17, vs
	str	w17, [sp, #36]
	csel	w9, w8, w9, vs
	fcmp	s3, s3
	str	w9, [sp, #16]
	fmov	w9, s0
	ldr	s0, [sp, #512]
	cset	w17, vs
	fmov	s3, s0
	csel	w9, w8, w9, vs
	fcmp	s1, s1
	ldr	s1, [sp, #516]
	stp	w17, w9, [sp, #20]
	fmov	w9, s2
	fmov	s2, s1
	cset	w17, vs
	csel	w25, w8, w9, vs
	fcmp	s3, s3
	fmov	w9, s0
	ldr	s0, [sp, #520]
	str	w25, [sp, #380]
	cset	w7, vs
	csel	w9, w8, w9, vs
	fcmp	s2, s2
	ldr	s2, [sp, #524]
	fmov	s3, s0
	stp	w9, w17, [sp, #8]
	fmov	w9, s1
	ldr	w25, [sp, #12]
	fmov	s1, s2
	cset	w30, vs
	stp	w25, w7, [sp, #252]
	csel	w4, w8, w9, vs
	fcmp	s3, s3
	fmov	w9, s0
	ldr	s0, [sp, #528]
	str	w4, [sp, #388]
	str	w30, [sp, #260]
	fmov	s3, s0
	cset	w5, vs
	csel	w6, w8, w9, vs
	fcmp	s1, s1
	ldr	s1, [sp, #532]
	fmov	w9, s2
	str	w5, [sp, #264]
	fmov	s2, s1
	str	w6, [sp, #392]
	csel	w1, w8, w9, vs
	cset	w2, vs
	fcmp	s3, s3
	fmov	w9, s0
	ldr	s0, [sp, #536]
	str	w1, [sp, #396]
	str	w2, [sp, #268]
	cset	w0, vs
	fmov	s3, s0
	csel	w3, w8, w9, vs
	fcmp	s2, s2
	fmov	w9, s1
	ldr	s2, [sp, #540]
	ldr	s1, [sp, #544]
	str	w0, [sp, #272]
	str	w3, [sp, #400]
	csel	w17, w8, w9, vs
	cset	w18, vs
	fcmp	s3, s3
	ldp	w10, w9, [sp, #60]
	fmov	s3, s1
	str	w17, [sp, #404]
	cset	w15, vs
	str	w18, [sp, #276]
	str	w9, [sp, #348]
	fmov	w9, s0
	fmov	s0, s2
	str	w15, [sp, #280]
	csel	w16, w8, w9, vs
	ldr	w9, [sp, #48]
	fcmp	s0, s0
	str	w16, [sp, #408]
	str	w9, [sp, #356]
	ldr	w9, [sp, #68]
	ldr	s0, [sp, #548]
	stp	w10, w9, [sp, #224]
	fmov	w9, s2
	cset	w14, vs
	ldr	s2, [sp, #552]
	str	w14, [sp, #284]
	csel	w13, w8, w9, vs
	ldp	w10, w9, [sp, #52]
	fcmp	s3, s3
	str	w10, [sp, #232]
	ldr	w10, [sp, #44]
	fmov	s3, s2
	str	w9, [sp, #360]
	ldr	w9, [sp, #32]
	str	w10, [sp, #236]
	cset	w11, vs
	str	w9, [sp, #364]
	fmov	w9, s1
	fmov	s1, s0
	ldp	w19, w10, [sp, #24]
	str	w13, [sp, #412]
	csel	w12, w8, w9, vs
	ldr	w9, [sp, #40]
	str	w11, [sp, #288]
	fcmp	s1, s1
	str	w19, [sp, #376]
	fmov	w19, s2
	str	w9, [sp, #368]
	ldr	w9, [sp, #16]
	ldr	s1, [sp, #556]
	ldr	s2, [sp, #560]
	str	w12, [sp, #416]
	str	w9, [sp, #372]
	ldr	w9, [sp, #36]
	fmov	w6, s2
	stp	w10, w9, [sp, #240]
	fmov	w9, s0
	ldr	w10, [sp, #20]
	fmov	s0, s1
	str	w10, [sp, #248]
	cset	w10, vs
	csel	w9, w8, w9, vs
	fcmp	s3, s3
	fmov	s3, s2
	ldr	s2, [sp, #568]
	str	w9, [sp, #420]
	str	w10, [sp, #292]
	csel	w7, w8, w19, vs
	ldr	w19, [sp, #8]
	cset	w25, vs
	fcmp	s0, s0
	ldr	s0, [sp, #564]
	fmov	w13, s2
	str	w19, [sp, #384]
	fmov	w19, s1
	fmov	s1, s0
	fmov	w17, s0
	str	w25, [sp, #296]
	cset	w4, vs
	str	w7, [sp, #424]
	csel	w5, w8, w19, vs
	fcmp	s3, s3
	fmov	s3, s2
	ldr	s2, [sp, #576]
	str	w5, [sp, #428]
	str	w4, [sp, #300]
	cset	w1, vs
	csel	w0, w8, w6, vs
	fcmp	s1, s1
	ldr	s1, [sp, #572]
	fmov	w12, s2
	str	w1, [sp, #304]
	str	w0, [sp, #432]
	fmov	s0, s1
	cset	w15, vs
	csel	w17, w8, w17, vs
	fcmp	s3, s3
	fmov	s3, s2
	fmov	w9, s1
	ldr	s2, [sp, #584]
	str	w17, [sp, #436]
	cset	w11, vs
	csel	w13, w8, w13, vs
	fcmp	s0, s0
	ldr	s0, [sp, #580]
	fmov	s1, s0
	cset	w10, vs
	csel	w9, w8, w9, vs
	fcmp	s3, s3
	cset	w14, vs
	csel	w12, w8, w12, vs
	fcmp	s1, s1
	ldr	s1, [sp, #588]
	b	.Lframes640_BB0_29
.Lframes640_BB0_25:
	mov	x8, xzr
.Lframes640_BB0_26:
	sub	x9, x29, #208
	ldr	w9, [x9, x8]
	ldrsh	w10, [x26, x9, lsl #1]
	ldr	s2, [x12, x9, lsl #2]
	ldr	s3, [x13, x9, lsl #2]
	add	x9, sp, #464
	scvtf	s0, w10
	add	x10, sp, #624
	ldr	s1, [x10, x8]
	fsub	s0, s1, s0
	ldr	s1, [x25, x8]
	fmul	s1, s13, s1
	fmul	s0, s2, s0
	fmov	s2, #1.00000000
	fmul	s1, s1, s3
	fadd	s0, s0, s2
	fmul	s0, s1, s0
	ldr	s1, [x9, x8]
	add	x9, sp, #752
	fdiv	s0, s1, s0
	fadd	s0, s14, s0
	str	s0, [x9, x8]
	add	x8, x8, #4
	cmp	x8, #128
	b.ne	.Lframes640_BB0_26
.Lframes640_BB0_27:
	add	x0, sp, #752
	add	x1, sp, #624
	bl	loamchalice.frames640.pixels.degrees_block
.Lframes640_BB0_28:
	ldr	s0, [sp, #624]
	ldr	s1, [sp, #628]
	mov	w8, #2143289344
	fmov	s2, s0
	fmov	w9, s0
	ldr	s0, [sp, #632]
	fmov	s3, s0
	fcmp	s2, s2
	fmov	s2, s1
	cset	w12, vs
	csel	w15, w8, w9, vs
	fmov	w9, s1
	str	w15, [sp, #336]
	fcmp	s2, s2
	ldr	s2, [sp, #636]
	fmov	s1, s2
	cset	w10, vs
	csel	w14, w8, w9, vs
	fcmp	s3, s3
	fmov	w9, s0
	ldr	s0, [sp, #640]
	stp	w12, w10, [sp, #208]
	fmov	s3, s0
	str	w14, [sp, #340]
	cset	w13, vs
	csel	w11, w8, w9, vs
	fcmp	s1, s1
	fmov	w9, s2
	ldr	s1, [sp, #644]
	str	w11, [sp, #344]
	fmov	s2, s1
	cset	w16, vs
	csel	w9, w8, w9, vs
	fcmp	s3, s3
	stp	w13, w16, [sp, #216]
	str	w9, [sp, #64]
	fmov	w9, s0
	ldr	s0, [sp, #648]
	cset	w17, vs
	fmov	s3, s0
	csel	w19, w8, w9, vs
	fcmp	s2, s2
	fmov	w9, s1
	ldr	s2, [sp, #652]
	str	w17, [sp, #60]
	str	w19, [sp, #352]
	csel	w9, w8, w9, vs
	cset	w17, vs
	fcmp	s3, s3
	str	w9, [sp, #48]
	fmov	s1, s2
	fmov	w9, s0
	ldr	s0, [sp, #656]
	str	w17, [sp, #68]
	cset	w17, vs
	csel	w9, w8, w9, vs
	fmov	s3, s0
	stp	w17, w9, [sp, #52]
	fcmp	s1, s1
	fmov	w9, s2
	ldr	s1, [sp, #660]
	csel	w9, w8, w9, vs
	fmov	s2, s1
	cset	w17, vs
	str	w9, [sp, #32]
	fcmp	s3, s3
	fmov	w9, s0
	ldr	s0, [sp, #664]
	str	w17, [sp, #44]
	csel	w9, w8, w9, vs
	cset	w17, vs
	fcmp	s2, s2
	str	w9, [sp, #40]
	ldr	s2, [sp, #668]
	fmov	s3, s0
	fmov	w9, s1
	str	w17, [sp, #28]
	fmov	s1, s2
	cset	w17, vs
	str	w17, [sp, #36]
	csel	w9, w8, w9, vs
	fcmp	s3, s3
	str	w9, [sp, #16]
	fmov	w9, s0
	ldr	s0, [sp, #672]
	cset	w17, vs
	fmov	s3, s0
	csel	w9, w8, w9, vs
	fcmp	s1, s1
	ldr	s1, [sp, #676]
	stp	w17, w9, [sp, #20]
	fmov	w9, s2
	fmov	s2, s1
	cset	w17, vs
	csel	w25, w8, w9, vs
	fcmp	s3, s3
	fmov	w9, s0
	ldr	s0, [sp, #680]
	str	w25, [sp, #380]
	cset	w7, vs
	csel	w9, w8, w9, vs
	fcmp	s2, s2
	ldr	s2, [sp, #684]
	fmov	s3, s0
	stp	w9, w17, [sp, #8]
	fmov	w9, s1
	ldr	w25, [sp, #12]
	fmov	s1, s2
	cset	w30, vs
	stp	w25, w7, [sp, #252]
	csel	w4, w8, w9, vs
	fcmp	s3, s3
	fmov	w9, s0
	ldr	s0, [sp, #688]
	str	w4, [sp, #388]
	str	w30, [sp, #260]
	fmov	s3, s0
	cset	w5, vs
	csel	w6, w8, w9, vs
	fcmp	s1, s1
	ldr	s1, [sp, #692]
	fmov	w9, s2
	str	w5, [sp, #264]
	fmov	s2, s1
	str	w6, [sp, #392]
	csel	w1, w8, w9, vs
	cset	w2, vs
	fcmp	s3, s3
	fmov	w9, s0
	ldr	s0, [sp, #696]
	str	w1, [sp, #396]
	str	w2, [sp, #268]
	cset	w0, vs
	fmov	s3, s0
	csel	w3, w8, w9, vs
	fcmp	s2, s2
	fmov	w9, s1
	ldr	s2, [sp, #700]
	ldr	s1, [sp, #704]
	str	w0, [sp, #272]
	str	w3, [sp, #400]
	csel	w17, w8, w9, vs
	cset	w18, vs
	fcmp	s3, s3
	ldp	w10, w9, [sp, #60]
	fmov	s3, s1
	str	w17, [sp, #404]
	cset	w15, vs
	str	w18, [sp, #276]
	str	w9, [sp, #348]
	fmov	w9, s0
	fmov	s0, s2
	str	w15, [sp, #280]
	csel	w16, w8, w9, vs
	ldr	w9, [sp, #48]
	fcmp	s0, s0
	str	w16, [sp, #408]
	str	w9, [sp, #356]
	ldr	w9, [sp, #68]
	ldr	s0, [sp, #708]
	stp	w10, w9, [sp, #224]
	fmov	w9, s2
	cset	w14, vs
	ldr	s2, [sp, #712]
	str	w14, [sp, #284]
	csel	w13, w8, w9, vs
	ldp	w10, w9, [sp, #52]
	fcmp	s3, s3
	str	w10, [sp, #232]
	ldr	w10, [sp, #44]
	fmov	s3, s2
	str	w9, [sp, #360]
	ldr	w9, [sp, #32]
	str	w10, [sp, #236]
	cset	w11, vs
	str	w9, [sp, #364]
	fmov	w9, s1
	fmov	s1, s0
	ldp	w19, w10, [sp, #24]
	str	w13, [sp, #412]
	csel	w12, w8, w9, vs
	ldr	w9, [sp, #40]
	str	w11, [sp, #288]
	fcmp	s1, s1
	str	w19, [sp, #376]
	fmov	w19, s2
	str	w9, [sp, #368]
	ldr	w9, [sp, #16]
	ldr	s1, [sp, #716]
	ldr	s2, [sp, #720]
	str	w12, [sp, #416]
	str	w9, [sp, #372]
	ldr	w9, [sp, #36]
	fmov	w6, s2
	stp	w10, w9, [sp, #240]
	fmov	w9, s0
	ldr	w10, [sp, #20]
	fmov	s0, s1
	str	w10, [sp, #248]
	cset	w10, vs
	csel	w9, w8, w9, vs
	fcmp	s3, s3
	fmov	s3, s2
	ldr	s2, [sp, #728]
	str	w9, [sp, #420]
	str	w10, [sp, #292]
	csel	w7, w8, w19, vs
	ldr	w19, [sp, #8]
	cset	w25, vs
	fcmp	s0, s0
	ldr	s0, [sp, #724]
	fmov	w13, s2
	str	w19, [sp, #384]
	fmov	w19, s1
	fmov	s1, s0
	fmov	w17, s0
	str	w25, [sp, #296]
	cset	w4, vs
	str	w7, [sp, #424]
	csel	w5, w8, w19, vs
	fcmp	s3, s3
	fmov	s3, s2
	ldr	s2, [sp, #736]
	str	w5, [sp, #428]
	str	w4, [sp, #300]
	cset	w1, vs
	csel	w0, w8, w6, vs
	fcmp	s1, s1
	ldr	s1, [sp, #732]
	fmov	w12, s2
	str	w1, [sp, #304]
	str	w0, [sp, #432]
	fmov	s0, s1
	cset	w15, vs
	csel	w17, w8, w17, vs
	fcmp	s3, s3
	fmov	s3, s2
	fmov	w9, s1
	ldr	s2, [sp, #744]
	str	w17, [sp, #436]
	cset	w11, vs
	csel	w13, w8, w13, vs
	fcmp	s0, s0
	ldr	s0, [sp, #740]
	fmov	s1, s0
	cset	w10, vs
	csel	w9, w8, w9, vs
	fcmp	s3, s3
	cset	w14, vs
	csel	w12, w8, w12, vs
	fcmp	s1, s1
	ldr	s1, [sp, #748]
.Lframes640_BB0_29:
	fmov	s3, s2
	str	w15, [sp, #308]
	fmov	w15, s0
	fmov	s0, s1
	str	w11, [sp, #312]
	cset	w11, vs
	str	w9, [sp, #444]
	fmov	w9, s2
	ldr	w1, [sp, #164]
	csel	w15, w8, w15, vs
	str	w10, [sp, #316]
	fcmp	s3, s3
	str	w12, [sp, #448]
	fmov	w12, s1
	str	w11, [sp, #324]
	ldp	x4, x11, [sp, #184]
	ldp	x5, x18, [sp, #168]
	str	w13, [sp, #440]
	cset	w10, vs
	csel	w9, w8, w9, vs
	fcmp	s0, s0
	str	w9, [sp, #456]
	add	x9, x11, x28
	str	w10, [sp, #328]
	add	x10, x20, x9, lsl #5
	csel	w8, w8, w12, vs
	ldp	x19, x7, [sp, #144]
	str	w8, [sp, #460]
	cset	w8, vs
	str	w8, [sp, #332]
	add	x8, x4, x28, lsl #7
	ldp	x3, x0, [sp, #112]
	str	w14, [sp, #320]
	add	x9, x8, x11, lsl #7
	add	x8, x10, #32
	str	w15, [sp, #452]
	cmp	x9, x8
	add	x8, x20, x23
	b.hs	.Lframes640_BB0_34
	add	x9, x9, #128
	cmp	x8, x9
	b.hs	.Lframes640_BB0_34
	ldp	x2, x30, [sp, #128]
	mov	x9, xzr
	ldr	w6, [sp, #160]
	ldr	x12, [sp, #200]
	mov	w8, wzr
.Lframes640_BB0_32:
	ldrb	w10, [x22], #1
	add	x11, sp, #336
	add	x11, x11, x9
	cmp	w10, #0
	add	x10, sp, #208
	ldr	w10, [x10, x9]
	csel	x11, x21, x11, eq
	add	x9, x9, #4
	ldr	w11, [x11]
	csel	w10, wzr, w10, eq
	cmp	x9, #128
	add	w8, w10, w8
	str	w11, [x21], #4
	b.ne	.Lframes640_BB0_32
	add	x13, x27, #1
	add	x0, x0, w8, uxtw
	cmp	x13, x24
	b.lo	.Lframes640_BB0_2
	b	.Lframes640_BB0_36
.Lframes640_BB0_34:
	ldp	q0, q1, [x8]
	ldr	x8, [sp, #104]
	ldp	q16, q17, [sp, #304]
	ldr	w6, [sp, #160]
	ldr	x12, [sp, #200]
	ldp	q20, q21, [sp, #240]
	cmeq	v4.16b, v0.16b, #0
	cmeq	v5.16b, v1.16b, #0
	ldp	q18, q19, [sp, #272]
	ldp	q26, q27, [sp, #208]
	sshll2	v6.8h, v4.16b, #0
	sshll2	v7.8h, v5.16b, #0
	sshll	v5.8h, v5.8b, #0
	sshll	v4.8h, v4.8b, #0
	ldp	q1, q2, [sp, #368]
	ldp	q31, q30, [x8, #32]
	sshll2	v22.4s, v6.8h, #0
	sshll2	v23.4s, v7.8h, #0
	sshll	v6.4s, v6.4h, #0
	sshll	v7.4s, v7.4h, #0
	sshll2	v24.4s, v5.8h, #0
	sshll	v5.4s, v5.4h, #0
	sshll2	v25.4s, v4.8h, #0
	sshll	v4.4s, v4.4h, #0
	bic	v20.16b, v20.16b, v6.16b
	bic	v17.16b, v17.16b, v23.16b
	bic	v21.16b, v21.16b, v22.16b
	bic	v16.16b, v16.16b, v7.16b
	bic	v19.16b, v19.16b, v24.16b
	bic	v18.16b, v18.16b, v5.16b
	bic	v27.16b, v27.16b, v25.16b
	bic	v26.16b, v26.16b, v4.16b
	bit	v2.16b, v30.16b, v22.16b
	ldp	q0, q3, [sp, #336]
	add	v17.4s, v17.4s, v21.4s
	add	v16.4s, v16.4s, v20.4s
	ldp	q22, q20, [x8]
	add	v18.4s, v18.4s, v26.4s
	add	v19.4s, v19.4s, v27.4s
	bit	v1.16b, v31.16b, v6.16b
	ldp	q29, q28, [sp, #432]
	bit	v3.16b, v20.16b, v25.16b
	bit	v0.16b, v22.16b, v4.16b
	add	v6.4s, v19.4s, v17.4s
	add	v16.4s, v18.4s, v16.4s
	ldp	q26, q21, [sp, #400]
	stp	q1, q2, [x8, #32]
	ldp	q18, q17, [x8, #96]
	mov	v2.16b, v7.16b
	ldp	q19, q4, [x8, #64]
	stp	q0, q3, [x8]
	mov	v3.16b, v5.16b
	add	v1.4s, v16.4s, v6.4s
	bif	v17.16b, v28.16b, v23.16b
	bsl	v2.16b, v18.16b, v29.16b
	bif	v4.16b, v21.16b, v24.16b
	ldp	x2, x30, [sp, #128]
	bsl	v3.16b, v19.16b, v26.16b
	addv	s0, v1.4s
	stp	q2, q17, [x8, #96]
	stp	q3, q4, [x8, #64]
	fmov	w8, s0
	add	x13, x27, #1
	add	x0, x0, w8, uxtw
	cmp	x13, x24
	b.lo	.Lframes640_BB0_2
	b	.Lframes640_BB0_36
.Lframes640_BB0_35:
	mov	x0, xzr
.Lframes640_BB0_36:
	add	sp, sp, #1024
	ldp	x20, x19, [sp, #144]
	ldp	x22, x21, [sp, #128]
	ldp	x24, x23, [sp, #112]
	ldp	x26, x25, [sp, #96]
	ldp	x28, x27, [sp, #80]
	ldp	x29, x30, [sp, #64]
	ldp	d9, d8, [sp, #48]
	ldp	d11, d10, [sp, #32]
	ldp	d13, d12, [sp, #16]
	ldp	d15, d14, [sp], #160
	ret
.Lframes640_BB0_37:
	brk	#0x1
.Lframes640_func_end0:
	.size	loamchalice.frames640.pixels.frame_pixels, .Lframes640_func_end0-loamchalice.frames640.pixels.frame_pixels

	.section	.text.frames640.pixels.temperature_block,"ax",@progbits
	.p2align	2
	.type	loamchalice.frames640.pixels.temperature_block,@function
loamchalice.frames640.pixels.temperature_block:
	sub	sp, sp, #256
	ldp	s24, s2, [x0, #12]
	movi	v1.2d, #0000000000000000
	ldp	s0, s4, [x0, #4]
	str	x21, [sp, #224]
	ldrb	w8, [x0]
	add	x21, x1, x2, lsl #2
	stp	x20, x19, [sp, #240]
	stp	q24, q2, [sp, #32]
	mov	x19, x4
	mov	x20, x3
	ldr	s2, [x0, #20]
	stp	x29, x30, [sp, #208]
	add	x29, sp, #208
	stp	q1, q1, [sp, #80]
	stp	q1, q1, [sp, #112]
	stp	q1, q1, [sp, #144]
	str	q2, [sp, #64]
	stp	q1, q1, [sp, #176]
	str	q4, [sp, #16]
	cbz	w8, .Lframes640_BB1_2
	dup	v18.4s, v0.s[0]
	ldp	q0, q1, [x21]
	ldp	q2, q3, [x21, #32]
	mov	v22.16b, v4.16b
	ldp	q7, q16, [x21, #96]
	add	x0, sp, #80
	fsub	v0.4s, v0.4s, v18.4s
	fsub	v1.4s, v1.4s, v18.4s
	mov	v19.16b, v18.16b
	fsub	v2.4s, v2.4s, v18.4s
	fsub	v3.4s, v3.4s, v18.4s
	str	q18, [sp]
	fsub	v7.4s, v7.4s, v18.4s
	ldp	q20, q21, [x20]
	fsub	v16.4s, v16.4s, v19.4s
	mov	x1, x19
	fmul	v0.4s, v0.4s, v4.s[0]
	fmul	v1.4s, v1.4s, v4.s[0]
	fmul	v2.4s, v2.4s, v4.s[0]
	ldp	q4, q5, [x21, #64]
	fmul	v3.4s, v3.4s, v22.s[0]
	fmul	v7.4s, v7.4s, v22.s[0]
	fmul	v16.4s, v16.4s, v22.s[0]
	fsub	v4.4s, v4.4s, v18.4s
	fmul	v6.4s, v0.4s, v0.4s
	fmul	v17.4s, v1.4s, v1.4s
	fsub	v5.4s, v5.4s, v18.4s
	fmul	v18.4s, v2.4s, v2.4s
	fmul	v19.4s, v3.4s, v3.4s
	fmul	v4.4s, v4.4s, v22.s[0]
	fmul	v0.4s, v0.4s, v6.4s
	fmul	v1.4s, v1.4s, v17.4s
	fmul	v5.4s, v5.4s, v22.s[0]
	fmul	v6.4s, v6.4s, v6.4s
	fmul	v17.4s, v17.4s, v17.4s
	fmul	v2.4s, v2.4s, v18.4s
	fmul	v3.4s, v3.4s, v19.4s
	fmul	v18.4s, v18.4s, v18.4s
	ldp	q22, q23, [x20, #32]
	fmul	v19.4s, v19.4s, v19.4s
	fmul	v0.4s, v20.4s, v0.4s
	fmul	v20.4s, v4.4s, v4.4s
	fmul	v1.4s, v21.4s, v1.4s
	fmul	v21.4s, v5.4s, v5.4s
	fmul	v6.4s, v6.4s, v24.s[0]
	fmul	v17.4s, v17.4s, v24.s[0]
	fmul	v2.4s, v22.4s, v2.4s
	fmul	v22.4s, v7.4s, v7.4s
	fmul	v3.4s, v23.4s, v3.4s
	fmul	v23.4s, v16.4s, v16.4s
	fmul	v18.4s, v18.4s, v24.s[0]
	fmul	v19.4s, v19.4s, v24.s[0]
	fmul	v4.4s, v4.4s, v20.4s
	fmul	v20.4s, v20.4s, v20.4s
	fmul	v5.4s, v5.4s, v21.4s
	fadd	v0.4s, v0.4s, v6.4s
	fadd	v1.4s, v1.4s, v17.4s
	ldp	q6, q17, [x20, #64]
	fmul	v21.4s, v21.4s, v21.4s
	fmul	v7.4s, v7.4s, v22.4s
	fmul	v22.4s, v22.4s, v22.4s
	fmul	v16.4s, v16.4s, v23.4s
	fmul	v23.4s, v23.4s, v23.4s
	fmul	v20.4s, v20.4s, v24.s[0]
	fadd	v2.4s, v2.4s, v18.4s
	fmul	v4.4s, v6.4s, v4.4s
	fmul	v5.4s, v17.4s, v5.4s
	fadd	v3.4s, v3.4s, v19.4s
	ldp	q6, q17, [x20, #96]
	fmul	v21.4s, v21.4s, v24.s[0]
	stp	q0, q1, [sp, #80]
	fmul	v6.4s, v6.4s, v7.4s
	fmul	v7.4s, v22.4s, v24.s[0]
	fmul	v16.4s, v17.4s, v16.4s
	fmul	v17.4s, v23.4s, v24.s[0]
	fadd	v4.4s, v4.4s, v20.4s
	fadd	v0.4s, v5.4s, v21.4s
	stp	q2, q3, [sp, #112]
	fadd	v1.4s, v6.4s, v7.4s
	fadd	v2.4s, v16.4s, v17.4s
	stp	q4, q0, [sp, #144]
	stp	q1, q2, [sp, #176]
	bl	loamchalice.frames640.roots.fourth_roots
	ldp	q0, q1, [x21]
	ldp	q18, q21, [sp]
	ldp	q2, q3, [x19]
	ldp	q20, q19, [sp, #48]
	fsub	v0.4s, v0.4s, v18.4s
	fsub	v1.4s, v1.4s, v18.4s
	fmul	v2.4s, v2.4s, v20.s[0]
	fmul	v0.4s, v0.4s, v21.s[0]
	fmul	v1.4s, v1.4s, v21.s[0]
	fmul	v0.4s, v0.4s, v19.s[0]
	fmul	v1.4s, v1.4s, v19.s[0]
	fadd	v0.4s, v2.4s, v0.4s
	ldp	q2, q4, [x20]
	fdiv	v0.4s, v2.4s, v0.4s
	fmul	v2.4s, v3.4s, v20.s[0]
	ldp	q3, q5, [x21, #32]
	fsub	v3.4s, v3.4s, v18.4s
	fadd	v1.4s, v2.4s, v1.4s
	fsub	v5.4s, v5.4s, v18.4s
	fmul	v2.4s, v3.4s, v21.s[0]
	fdiv	v1.4s, v4.4s, v1.4s
	ldp	q3, q4, [x19, #32]
	fmul	v2.4s, v2.4s, v19.s[0]
	fmul	v3.4s, v3.4s, v20.s[0]
	fmul	v4.4s, v4.4s, v20.s[0]
	fadd	v2.4s, v3.4s, v2.4s
	fmul	v3.4s, v5.4s, v21.s[0]
	ldp	q5, q6, [x20, #32]
	fdiv	v2.4s, v5.4s, v2.4s
	fmul	v3.4s, v3.4s, v19.s[0]
	ldp	q5, q7, [x21, #64]
	fsub	v5.4s, v5.4s, v18.4s
	fadd	v3.4s, v4.4s, v3.4s
	fsub	v7.4s, v7.4s, v18.4s
	fmul	v4.4s, v5.4s, v21.s[0]
	fdiv	v3.4s, v6.4s, v3.4s
	ldp	q5, q6, [x19, #64]
	fmul	v4.4s, v4.4s, v19.s[0]
	fmul	v5.4s, v5.4s, v20.s[0]
	fmul	v6.4s, v6.4s, v20.s[0]
	fadd	v4.4s, v5.4s, v4.4s
	fmul	v5.4s, v7.4s, v21.s[0]
	ldp	q7, q16, [x20, #64]
	fdiv	v4.4s, v7.4s, v4.4s
	fmul	v5.4s, v5.4s, v19.s[0]
	ldp	q7, q17, [x21, #96]
	fsub	v7.4s, v7.4s, v18.4s
	fadd	v5.4s, v6.4s, v5.4s
	fsub	v17.4s, v17.4s, v18.4s
	fmul	v6.4s, v7.4s, v21.s[0]
	fdiv	v5.4s, v16.4s, v5.4s
	ldp	q7, q16, [x19, #96]
	fmul	v6.4s, v6.4s, v19.s[0]
	fmul	v7.4s, v7.4s, v20.s[0]
	fmul	v16.4s, v16.4s, v20.s[0]
	fadd	v6.4s, v7.4s, v6.4s
	fmul	v7.4s, v17.4s, v21.s[0]
	ldp	q17, q18, [x20, #96]
	fmul	v7.4s, v7.4s, v19.s[0]
	fdiv	v6.4s, v17.4s, v6.4s
	fadd	v7.4s, v16.4s, v7.4s
	b	.Lframes640_BB1_3
.Lframes640_BB1_2:
	ldp	q0, q1, [x21]
	mov	v22.16b, v4.16b
	ldp	q2, q3, [x21, #32]
	add	x0, sp, #80
	ldp	q17, q18, [x21, #64]
	mov	x1, x19
	fmul	v0.4s, v0.4s, v4.s[0]
	fmul	v1.4s, v1.4s, v4.s[0]
	fmul	v2.4s, v2.4s, v4.s[0]
	fmul	v3.4s, v3.4s, v4.s[0]
	ldp	q20, q21, [x21, #96]
	fmul	v17.4s, v17.4s, v22.s[0]
	fmul	v18.4s, v18.4s, v22.s[0]
	ldp	q6, q7, [x20]
	fmul	v4.4s, v0.4s, v0.4s
	fmul	v5.4s, v1.4s, v1.4s
	fmul	v16.4s, v2.4s, v2.4s
	fmul	v19.4s, v3.4s, v3.4s
	fmul	v20.4s, v20.4s, v22.s[0]
	fmul	v21.4s, v21.4s, v22.s[0]
	ldp	q22, q23, [x20, #32]
	fmul	v0.4s, v0.4s, v4.4s
	fmul	v1.4s, v1.4s, v5.4s
	fmul	v4.4s, v4.4s, v4.4s
	fmul	v5.4s, v5.4s, v5.4s
	fmul	v2.4s, v2.4s, v16.4s
	fmul	v3.4s, v3.4s, v19.4s
	fmul	v16.4s, v16.4s, v16.4s
	fmul	v19.4s, v19.4s, v19.4s
	fmul	v0.4s, v6.4s, v0.4s
	fmul	v6.4s, v17.4s, v17.4s
	fmul	v1.4s, v7.4s, v1.4s
	fmul	v7.4s, v18.4s, v18.4s
	fmul	v4.4s, v4.4s, v24.s[0]
	fmul	v5.4s, v5.4s, v24.s[0]
	fmul	v2.4s, v22.4s, v2.4s
	fmul	v22.4s, v20.4s, v20.4s
	fmul	v3.4s, v23.4s, v3.4s
	fmul	v23.4s, v21.4s, v21.4s
	fmul	v16.4s, v16.4s, v24.s[0]
	fmul	v19.4s, v19.4s, v24.s[0]
	fmul	v17.4s, v17.4s, v6.4s
	fmul	v6.4s, v6.4s, v6.4s
	fmul	v18.4s, v18.4s, v7.4s
	fadd	v0.4s, v0.4s, v4.4s
	fadd	v1.4s, v1.4s, v5.4s
	ldp	q4, q5, [x20, #64]
	fmul	v7.4s, v7.4s, v7.4s
	fmul	v20.4s, v20.4s, v22.4s
	fmul	v22.4s, v22.4s, v22.4s
	fmul	v21.4s, v21.4s, v23.4s
	fmul	v23.4s, v23.4s, v23.4s
	fmul	v6.4s, v6.4s, v24.s[0]
	fadd	v2.4s, v2.4s, v16.4s
	fmul	v4.4s, v4.4s, v17.4s
	fmul	v5.4s, v5.4s, v18.4s
	fadd	v3.4s, v3.4s, v19.4s
	ldp	q17, q18, [x20, #96]
	fmul	v7.4s, v7.4s, v24.s[0]
	stp	q0, q1, [sp, #80]
	fmul	v19.4s, v23.4s, v24.s[0]
	fmul	v16.4s, v17.4s, v20.4s
	fmul	v17.4s, v22.4s, v24.s[0]
	fmul	v18.4s, v18.4s, v21.4s
	fadd	v4.4s, v4.4s, v6.4s
	fadd	v0.4s, v5.4s, v7.4s
	stp	q2, q3, [sp, #112]
	fadd	v1.4s, v16.4s, v17.4s
	fadd	v2.4s, v18.4s, v19.4s
	stp	q4, q0, [sp, #144]
	stp	q1, q2, [sp, #176]
	bl	loamchalice.frames640.roots.fourth_roots
	ldp	q0, q1, [x21]
	ldr	q18, [sp, #16]
	ldp	q2, q3, [x19]
	ldp	q20, q19, [sp, #48]
	fmul	v0.4s, v0.4s, v18.s[0]
	fmul	v1.4s, v1.4s, v18.s[0]
	fmul	v2.4s, v2.4s, v20.s[0]
	fmul	v0.4s, v0.4s, v19.s[0]
	fmul	v1.4s, v1.4s, v19.s[0]
	fadd	v0.4s, v0.4s, v2.4s
	ldp	q2, q4, [x20]
	fdiv	v0.4s, v2.4s, v0.4s
	fmul	v2.4s, v3.4s, v20.s[0]
	fadd	v1.4s, v1.4s, v2.4s
	ldp	q2, q3, [x21, #32]
	fmul	v2.4s, v2.4s, v18.s[0]
	fmul	v3.4s, v3.4s, v18.s[0]
	fdiv	v1.4s, v4.4s, v1.4s
	ldp	q4, q5, [x19, #32]
	fmul	v2.4s, v2.4s, v19.s[0]
	fmul	v3.4s, v3.4s, v19.s[0]
	fmul	v4.4s, v4.4s, v20.s[0]
	fadd	v2.4s, v2.4s, v4.4s
	ldp	q4, q6, [x20, #32]
	fdiv	v2.4s, v4.4s, v2.4s
	fmul	v4.4s, v5.4s, v20.s[0]
	fadd	v3.4s, v3.4s, v4.4s
	ldp	q4, q5, [x21, #64]
	fmul	v4.4s, v4.4s, v18.s[0]
	fmul	v5.4s, v5.4s, v18.s[0]
	fdiv	v3.4s, v6.4s, v3.4s
	ldp	q6, q7, [x19, #64]
	fmul	v4.4s, v4.4s, v19.s[0]
	fmul	v5.4s, v5.4s, v19.s[0]
	fmul	v6.4s, v6.4s, v20.s[0]
	fadd	v4.4s, v4.4s, v6.4s
	ldp	q6, q16, [x20, #64]
	fdiv	v4.4s, v6.4s, v4.4s
	fmul	v6.4s, v7.4s, v20.s[0]
	fadd	v5.4s, v5.4s, v6.4s
	ldp	q6, q7, [x21, #96]
	fmul	v6.4s, v6.4s, v18.s[0]
	fmul	v7.4s, v7.4s, v18.s[0]
	fdiv	v5.4s, v16.4s, v5.4s
	ldp	q16, q17, [x19, #96]
	fmul	v6.4s, v6.4s, v19.s[0]
	fmul	v7.4s, v7.4s, v19.s[0]
	fmul	v16.4s, v16.4s, v20.s[0]
	fadd	v6.4s, v6.4s, v16.4s
	ldp	q16, q18, [x20, #96]
	fdiv	v6.4s, v16.4s, v6.4s
	fmul	v16.4s, v17.4s, v20.s[0]
	fadd	v7.4s, v7.4s, v16.4s
.Lframes640_BB1_3:
	fdiv	v7.4s, v18.4s, v7.4s
	ldr	q16, [sp, #32]
	add	x0, sp, #80
	mov	x1, x19
	dup	v16.4s, v16.s[0]
	fadd	v0.4s, v16.4s, v0.4s
	fadd	v1.4s, v16.4s, v1.4s
	fadd	v2.4s, v16.4s, v2.4s
	fadd	v3.4s, v16.4s, v3.4s
	fadd	v4.4s, v16.4s, v4.4s
	stp	q0, q1, [sp, #80]
	fadd	v0.4s, v16.4s, v5.4s
	fadd	v1.4s, v16.4s, v6.4s
	stp	q2, q3, [sp, #112]
	fadd	v2.4s, v16.4s, v7.4s
	stp	q4, q0, [sp, #144]
	stp	q1, q2, [sp, #176]
	bl	loamchalice.frames640.pixels.degrees_block
	ldp	x20, x19, [sp, #240]
	ldr	x21, [sp, #224]
	ldp	x29, x30, [sp, #208]
	add	sp, sp, #256
	ret
.Lframes640_func_end1:
	.size	loamchalice.frames640.pixels.temperature_block, .Lframes640_func_end1-loamchalice.frames640.pixels.temperature_block

	.section	.rodata.cst8,"aM",@progbits,8
	.p2align	3, 0x0
.Lframes640_CPI2_0:
	.xword	0xbfd8d6dad5c5805a
.Lframes640_CPI2_1:
	.xword	0x3ff48987b38c9874
.Lframes640_CPI2_2:
	.xword	0xbf89e11a55579851
.Lframes640_CPI2_3:
	.xword	0x3fbbd11ca559a5b5
.Lframes640_CPI2_4:
	.xword	0xbfd9564a9a0cc3d0
.Lframes640_CPI2_5:
	.xword	0x3ff49e6fb879243c
.Lframes640_CPI2_6:
	.xword	0xbf8b3fdc3e64f496
.Lframes640_CPI2_7:
	.xword	0x3fbcd40c7b79c813
.Lframes640_CPI2_8:
	.xword	0xbfd9da666a8282c0
.Lframes640_CPI2_9:
	.xword	0x3ff4b3c3e0838e08
.Lframes640_CPI2_10:
	.xword	0xbf8cb74d9f20e3c5
.Lframes640_CPI2_11:
	.xword	0x3fbde4cf1160987f
.Lframes640_CPI2_12:
	.xword	0xbfda636eaa84aa24
.Lframes640_CPI2_13:
	.xword	0x3ff4c9882b15accb
.Lframes640_CPI2_14:
	.xword	0xbf8e499d1637aac6
.Lframes640_CPI2_15:
	.xword	0x3fbf045f9100c8fb
.Lframes640_CPI2_16:
	.xword	0xbfdaf1a85969655f
.Lframes640_CPI2_17:
	.xword	0x3ff4dfc0cf2a5dce
.Lframes640_CPI2_18:
	.xword	0xbf8ff9350c84276a
.Lframes640_CPI2_19:
	.xword	0x3fc019e7c4a5cc82
.Lframes640_CPI2_20:
	.xword	0xbfdb855d7ca13de0
.Lframes640_CPI2_21:
	.xword	0x3ff4f6723f50bfea
.Lframes640_CPI2_22:
	.xword	0xbf90e461a137b60f
.Lframes640_CPI2_23:
	.xword	0x3fc0ba24ac9d711a
.Lframes640_CPI2_24:
	.xword	0xbfdc1edd9569549c
.Lframes640_CPI2_25:
	.xword	0x3ff50da12e0ca82a
.Lframes640_CPI2_26:
	.xword	0xbf91dda0bc0f98f5
.Lframes640_CPI2_27:
	.xword	0x3fc1638974e0b1d2
.Lframes640_CPI2_28:
	.xword	0xbfdcbe7e238a7215
.Lframes640_CPI2_29:
	.xword	0x3ff52552929e8fbf
.Lframes640_CPI2_30:
	.xword	0xbf92e9ffafd562c7
.Lframes640_CPI2_31:
	.xword	0x3fc216c861238d76
.Lframes640_CPI2_32:
	.xword	0xbfdd649b36da6586
.Lframes640_CPI2_33:
	.xword	0x3ff53d8bae3e8fed
.Lframes640_CPI2_34:
	.xword	0xbf940b5708b9b0fb
.Lframes640_CPI2_35:
	.xword	0x3fc2d4a4c2a70153
.Lframes640_CPI2_36:
	.xword	0xbfde119811778ee7
.Lframes640_CPI2_37:
	.xword	0x3ff5565211d78886
.Lframes640_CPI2_38:
	.xword	0xbf9543b6a2c0f3d1
.Lframes640_CPI2_39:
	.xword	0x3fc39df4f298d76f
.Lframes640_CPI2_40:
	.xword	0xbfdec5dfdd045494
.Lframes640_CPI2_41:
	.xword	0x3ff56faba4515177
.Lframes640_CPI2_42:
	.xword	0xbf96956d50f05671
.Lframes640_CPI2_43:
	.xword	0x3fc473a491df2605
.Lframes640_CPI2_44:
	.xword	0xbfdf81e67583ece0
.Lframes640_CPI2_45:
	.xword	0x3ff5899ea97ae286
.Lframes640_CPI2_46:
	.xword	0xbf980311beecdf50
.Lframes640_CPI2_47:
	.xword	0x3fc556b719595084
.Lframes640_CPI2_48:
	.xword	0xbfe02314a673068e
.Lframes640_CPI2_49:
	.xword	0x3ff5a431c9a7ba2d
.Lframes640_CPI2_50:
	.xword	0xbf998f8cc6c133d0
.Lframes640_CPI2_51:
	.xword	0x3fc6484ac7a206de
.Lframes640_CPI2_52:
	.xword	0xbfe0899835678b25
.Lframes640_CPI2_53:
	.xword	0x3ff5bf6c1a168c70
.Lframes640_CPI2_54:
	.xword	0xbf9b3e25807701df
.Lframes640_CPI2_55:
	.xword	0x3fc7499bfbc8f77c
.Lframes640_CPI2_56:
	.xword	0xbfe0f4c7c6612df5
.Lframes640_CPI2_57:
	.xword	0x3ff5db55263a7735
.Lframes640_CPI2_58:
	.xword	0xbf9d128f5ff1d144
.Lframes640_CPI2_59:
	.xword	0x3fc85c090f67f3a1
.Lframes640_CPI2_60:
	.xword	0xbfe164f3b5c49c7a
.Lframes640_CPI2_61:
	.xword	0x3ff5f7f4fa03b8fd
.Lframes640_CPI2_62:
	.xword	0xbf9f10fac7b9e0fd
.Lframes640_CPI2_63:
	.xword	0x3fc98116c604a5ac
.Lframes640_CPI2_64:
	.xword	0xbfe1da7395c50e4c
.Lframes640_CPI2_65:
	.xword	0x3ff615542d494b58
.Lframes640_CPI2_66:
	.xword	0xbfa09f1447099ec3
.Lframes640_CPI2_67:
	.xword	0x3fcaba756c0423f4
.Lframes640_CPI2_68:
	.xword	0xbfe255a6ff632f04
.Lframes640_CPI2_69:
	.xword	0x3ff6337bf079ed95
.Lframes640_CPI2_70:
	.xword	0xbfa1cfc087047581
.Lframes640_CPI2_71:
	.xword	0x3fcc0a06c4c15e4e
.Lframes640_CPI2_72:
	.xword	0xbfe2d6f680371f14
.Lframes640_CPI2_73:
	.xword	0x3ff652761ac144d6
.Lframes640_CPI2_74:
	.xword	0xbfa31d97c0c539a3
.Lframes640_CPI2_75:
	.xword	0x3fcd71e4edd8a92e
.Lframes640_CPI2_76:
	.xword	0xbfe35ed4a9ba21f2
.Lframes640_CPI2_77:
	.xword	0x3ff6724d39d4ef3d
.Lframes640_CPI2_78:
	.xword	0xbfa48c214730858e
.Lframes640_CPI2_79:
	.xword	0x3fcef46a65c0d8ac
.Lframes640_CPI2_80:
	.xword	0xbfe3edbf47a9bdea
.Lframes640_CPI2_81:
	.xword	0x3ff6930ca3a5fbdb
.Lframes640_CPI2_82:
	.xword	0xbfa61f699420162c
.Lframes640_CPI2_83:
	.xword	0x3fd04a1db6ddbdce
.Lframes640_CPI2_84:
	.xword	0xbfe48440c4354b61
.Lframes640_CPI2_85:
	.xword	0x3ff6b4c08a3d7463
.Lframes640_CPI2_86:
	.xword	0xbfa7dc1999064aaa
.Lframes640_CPI2_87:
	.xword	0x3fd12a2885c2d55c
.Lframes640_CPI2_88:
	.xword	0xbfe522f1c1fc9caa
.Lframes640_CPI2_89:
	.xword	0x3ff6d7761216e589
.Lframes640_CPI2_90:
	.xword	0xbfa9c792d22551ea
.Lframes640_CPI2_91:
	.xword	0x3fd21c02ff5670aa
.Lframes640_CPI2_92:
	.xword	0xbfe5ca7af58a6166
.Lframes640_CPI2_93:
	.xword	0x3ff6fb3b6b5a8c6c
.Lframes640_CPI2_94:
	.xword	0xbfabe8113a584e1d
.Lframes640_CPI2_95:
	.xword	0x3fd32193086fb443
.Lframes640_CPI2_96:
	.xword	0xbfe67b9749fb94b2
.Lframes640_CPI2_97:
	.xword	0x3ff7201fee6a962f
.Lframes640_CPI2_98:
	.xword	0xbfae44d489bade19
.Lframes640_CPI2_99:
	.xword	0x3fd43d0020924148
.Lframes640_CPI2_100:
	.xword	0xbfe737165f09042f
.Lframes640_CPI2_101:
	.xword	0x3ff746343c4c6c38
.Lframes640_CPI2_102:
	.xword	0xbfb07329465d1743
.Lframes640_CPI2_103:
	.xword	0x3fd570be3491b6b7
.Lframes640_CPI2_104:
	.xword	0xbfe7fddf71cb1ffa
.Lframes640_CPI2_105:
	.xword	0x3ff76d8a639148f5
.Lframes640_CPI2_106:
	.xword	0xbfb1eb3a718070d4
.Lframes640_CPI2_107:
	.xword	0x3fd6bf9a91c44d0c
.Lframes640_CPI2_108:
	.xword	0xbfe8d0f4c57fb846
.Lframes640_CPI2_109:
	.xword	0x3ff796360a817401
.Lframes640_CPI2_110:
	.xword	0xbfb39072906b220e
.Lframes640_CPI2_111:
	.xword	0x3fd82ccb76f32def
.Lframes640_CPI2_112:
	.xword	0xbfe9b177a6904feb
.Lframes640_CPI2_113:
	.xword	0x3ff7c04c9f750ec5
.Lframes640_CPI2_114:
	.xword	0xbfb569b5984f8e41
.Lframes640_CPI2_115:
	.xword	0x3fd9bc02e1674462
.Lframes640_CPI2_116:
	.xword	0xbfeaa0ad2864dd46
.Lframes640_CPI2_117:
	.xword	0x3ff7ebe590764371
.Lframes640_CPI2_118:
	.xword	0xbfb77f3180d8ed5f
.Lframes640_CPI2_119:
	.xword	0x3fdb71855faad984
.Lframes640_CPI2_120:
	.xword	0xbfeba003c69b59ab
.Lframes640_CPI2_121:
	.xword	0x3ff8191a8b857f7c
.Lframes640_CPI2_122:
	.xword	0xbfb9daa8153fb04b
.Lframes640_CPI2_123:
	.xword	0x3fdd5245ec4a3182
.Lframes640_CPI2_124:
	.xword	0xbfecb11a1c961214
.Lframes640_CPI2_125:
	.xword	0x3ff84807c924869d
.Lframes640_CPI2_126:
	.xword	0xbfbc87cc279b3083
.Lframes640_CPI2_127:
	.xword	0x3fdf64081dc7d151
	.section	.text.frames640.roots.fourth_roots,"ax",@progbits
	.p2align	2
	.type	loamchalice.frames640.roots.fourth_roots,@function
loamchalice.frames640.roots.fourth_roots:
	str	d10, [sp, #-96]!
	stp	d9, d8, [sp, #16]
	stp	x30, x25, [sp, #32]
	stp	x24, x23, [sp, #48]
	stp	x22, x21, [sp, #64]
	stp	x20, x19, [sp, #80]
	sub	sp, sp, #512
	ldp	s0, s1, [x0]
	mov	w9, #2143289344
	mov	x8, xzr
	fmov	s2, s0
	fmov	w10, s0
	fmov	s0, s1
	fmov	w11, s1
	fcmp	s2, s2
	csel	w10, w9, w10, vs
	fcmp	s0, s0
	ldp	s2, s0, [x0, #8]
	str	w10, [sp, #256]
	csel	w11, w9, w11, vs
	fmov	s1, s2
	fmov	w12, s2
	fmov	w13, s0
	str	w11, [sp, #260]
	fcmp	s1, s1
	fmov	s1, s0
	ldp	s2, s0, [x0, #16]
	csel	w12, w9, w12, vs
	fmov	w14, s2
	fmov	w15, s0
	str	w12, [sp, #264]
	fcmp	s1, s1
	fmov	s1, s2
	csel	w13, w9, w13, vs
	str	w13, [sp, #268]
	fcmp	s1, s1
	fmov	s1, s0
	ldp	s2, s0, [x0, #24]
	csel	w14, w9, w14, vs
	fmov	w16, s2
	fmov	w17, s0
	str	w14, [sp, #272]
	fcmp	s1, s1
	fmov	s1, s2
	csel	w15, w9, w15, vs
	str	w15, [sp, #276]
	fcmp	s1, s1
	fmov	s1, s0
	ldp	s2, s0, [x0, #32]
	csel	w16, w9, w16, vs
	fmov	w18, s2
	fmov	w2, s0
	str	w16, [sp, #280]
	fcmp	s1, s1
	fmov	s1, s2
	csel	w17, w9, w17, vs
	str	w17, [sp, #284]
	fcmp	s1, s1
	ldp	q4, q6, [sp, #256]
	fmov	s1, s0
	ldp	s2, s0, [x0, #40]
	csel	w18, w9, w18, vs
	fmov	w3, s2
	fmov	w4, s0
	str	w18, [sp, #288]
	fcmp	s1, s1
	fmov	s1, s2
	csel	w2, w9, w2, vs
	str	w2, [sp, #292]
	fcmp	s1, s1
	fmov	s1, s0
	ldp	s2, s0, [x0, #48]
	csel	w3, w9, w3, vs
	fmov	w5, s2
	fmov	w6, s0
	str	w3, [sp, #296]
	fcmp	s1, s1
	fmov	s1, s2
	csel	w4, w9, w4, vs
	str	w4, [sp, #300]
	fcmp	s1, s1
	fmov	s1, s0
	ldp	s2, s0, [x0, #56]
	csel	w5, w9, w5, vs
	fmov	w7, s2
	fmov	w19, s0
	str	w5, [sp, #304]
	fcmp	s1, s1
	fmov	s1, s2
	csel	w6, w9, w6, vs
	str	w6, [sp, #308]
	fcmp	s1, s1
	fmov	s1, s0
	ldp	s2, s0, [x0, #64]
	csel	w7, w9, w7, vs
	fmov	w20, s2
	fmov	w21, s0
	str	w7, [sp, #312]
	fcmp	s1, s1
	fmov	s1, s2
	csel	w19, w9, w19, vs
	str	w19, [sp, #316]
	fcmp	s1, s1
	fmov	s1, s0
	ldp	s2, s0, [x0, #72]
	csel	w20, w9, w20, vs
	fmov	w22, s2
	fmov	w23, s0
	str	w20, [sp, #320]
	fcmp	s1, s1
	fmov	s1, s2
	csel	w21, w9, w21, vs
	str	w21, [sp, #324]
	fcmp	s1, s1
	fmov	s1, s0
	ldp	s2, s0, [x0, #80]
	csel	w22, w9, w22, vs
	fmov	w24, s2
	fmov	w25, s0
	str	w22, [sp, #328]
	fcmp	s1, s1
	fmov	s1, s2
	fmov	s2, s0
	csel	w23, w9, w23, vs
	str	w23, [sp, #332]
	fcmp	s1, s1
	csel	w24, w9, w24, vs
	fcmp	s2, s2
	ldp	s1, s2, [x0, #88]
	str	w24, [sp, #336]
	csel	w25, w9, w25, vs
	fmov	s3, s1
	fmov	w10, s1
	fmov	s1, s2
	str	w25, [sp, #340]
	fcmp	s3, s3
	csel	w11, w9, w10, vs
	fcmp	s1, s1
	fmov	w10, s2
	ldp	s0, s1, [x0, #96]
	str	w11, [sp, #344]
	csel	w13, w9, w10, vs
	fmov	s3, s0
	fmov	s2, s1
	fmov	w10, s0
	str	w13, [sp, #348]
	fcmp	s3, s3
	csel	w14, w9, w10, vs
	fcmp	s2, s2
	fmov	w10, s1
	ldp	s0, s2, [x0, #104]
	str	w14, [sp, #352]
	csel	w10, w9, w10, vs
	fmov	s3, s0
	fmov	s1, s2
	fmov	w12, s0
	fmov	w15, s2
	str	w10, [sp, #356]
	fcmp	s3, s3
	ldp	s0, s3, [x0, #112]
	csel	w12, w9, w12, vs
	fcmp	s1, s1
	fmov	s1, s0
	fmov	w16, s0
	fmov	s0, s3
	str	w12, [sp, #360]
	csel	w15, w9, w15, vs
	str	w15, [sp, #364]
	fcmp	s1, s1
	movi	v1.4s, #128, lsl #16
	csel	w11, w9, w16, vs
	fmov	w16, s3
	fcmp	s0, s0
	ldp	s2, s3, [x0, #120]
	str	w11, [sp, #368]
	add	v4.4s, v4.4s, v1.4s
	csel	w13, w9, w16, vs
	fmov	s0, s2
	fmov	s5, s3
	fmov	w10, s2
	fmov	w12, s3
	bic	v4.4s, #254, lsl #24
	str	w13, [sp, #372]
	add	v2.4s, v6.4s, v1.4s
	fcmp	s0, s0
	fmov	v0.4s, #1.00000000
	bic	v2.4s, #254, lsl #24
	csel	w10, w9, w10, vs
	fcmp	s5, s5
	ldp	q3, q5, [sp, #288]
	str	w10, [sp, #376]
	add	v16.4s, v4.4s, v0.4s
	add	v19.4s, v2.4s, v0.4s
	csel	w9, w9, w12, vs
	add	v3.4s, v3.4s, v1.4s
	add	v4.4s, v5.4s, v1.4s
	str	w9, [sp, #380]
	ldp	q6, q5, [sp, #320]
	mov	w9, #6144
	ldp	q7, q17, [sp, #352]
	movk	w9, #20312, lsl #16
	bic	v3.4s, #254, lsl #24
	bic	v4.4s, #254, lsl #24
	ushr	v18.4s, v16.4s, #2
	add	v5.4s, v5.4s, v1.4s
	add	v6.4s, v6.4s, v1.4s
	dup	v20.4s, w9
	add	v7.4s, v7.4s, v1.4s
	add	v1.4s, v17.4s, v1.4s
	mov	w9, #54910
	add	v17.4s, v3.4s, v0.4s
	add	v21.4s, v4.4s, v0.4s
	ushr	v3.4s, v19.4s, #2
	bic	v5.4s, #254, lsl #24
	bic	v6.4s, #254, lsl #24
	sub	v2.4s, v20.4s, v18.4s
	bic	v7.4s, #254, lsl #24
	bic	v1.4s, #254, lsl #24
	movk	w9, #15813, lsl #16
	ushr	v4.4s, v17.4s, #2
	sub	v3.4s, v20.4s, v3.4s
	add	v23.4s, v5.4s, v0.4s
	ushr	v5.4s, v21.4s, #2
	add	v22.4s, v6.4s, v0.4s
	add	v18.4s, v7.4s, v0.4s
	add	v24.4s, v1.4s, v0.4s
	fmul	v25.4s, v2.4s, v2.4s
	sub	v4.4s, v20.4s, v4.4s
	fmul	v27.4s, v3.4s, v3.4s
	sub	v1.4s, v20.4s, v5.4s
	ushr	v6.4s, v22.4s, #2
	ushr	v7.4s, v23.4s, #2
	ushr	v26.4s, v18.4s, #2
	ushr	v28.4s, v24.4s, #2
	fmul	v29.4s, v4.4s, v4.4s
	fmul	v30.4s, v1.4s, v1.4s
	sub	v5.4s, v20.4s, v6.4s
	sub	v6.4s, v20.4s, v7.4s
	sub	v7.4s, v20.4s, v26.4s
	fmul	v26.4s, v25.4s, v16.4s
	sub	v16.4s, v20.4s, v28.4s
	fmul	v19.4s, v27.4s, v19.4s
	fmul	v31.4s, v5.4s, v5.4s
	fmul	v28.4s, v6.4s, v6.4s
	fmul	v17.4s, v29.4s, v17.4s
	fmul	v8.4s, v7.4s, v7.4s
	fmul	v20.4s, v30.4s, v21.4s
	fmul	v9.4s, v16.4s, v16.4s
	fmul	v21.4s, v25.4s, v26.4s
	fmul	v19.4s, v27.4s, v19.4s
	dup	v27.4s, w9
	mov	w9, #12968
	fmul	v22.4s, v31.4s, v22.4s
	fmul	v23.4s, v28.4s, v23.4s
	fmul	v17.4s, v29.4s, v17.4s
	fmul	v18.4s, v8.4s, v18.4s
	fmul	v25.4s, v30.4s, v20.4s
	fmul	v26.4s, v9.4s, v24.4s
	fsub	v20.4s, v0.4s, v21.4s
	movk	w9, #15859, lsl #16
	fsub	v24.4s, v0.4s, v19.4s
	fmul	v22.4s, v31.4s, v22.4s
	fmul	v19.4s, v28.4s, v23.4s
	fsub	v21.4s, v0.4s, v17.4s
	fmul	v17.4s, v8.4s, v18.4s
	fsub	v18.4s, v0.4s, v25.4s
	fmul	v25.4s, v9.4s, v26.4s
	fmul	v26.4s, v20.4s, v27.4s
	dup	v28.4s, w9
	mov	w9, #65171
	fmul	v29.4s, v24.4s, v27.4s
	movk	w9, #15903, lsl #16
	fsub	v22.4s, v0.4s, v22.4s
	fsub	v23.4s, v0.4s, v19.4s
	fmul	v30.4s, v21.4s, v27.4s
	fsub	v19.4s, v0.4s, v17.4s
	fmul	v31.4s, v18.4s, v27.4s
	fsub	v17.4s, v0.4s, v25.4s
	fadd	v25.4s, v26.4s, v28.4s
	dup	v10.4s, w9
	mov	w9, #65135
	fadd	v29.4s, v29.4s, v28.4s
	movk	w9, #15999, lsl #16
	movi	v0.2d, #0000000000000000
	fmul	v26.4s, v22.4s, v27.4s
	fmul	v8.4s, v23.4s, v27.4s
	fadd	v30.4s, v30.4s, v28.4s
	fmul	v9.4s, v19.4s, v27.4s
	fadd	v31.4s, v31.4s, v28.4s
	fmul	v27.4s, v17.4s, v27.4s
	fmul	v25.4s, v20.4s, v25.4s
	fmul	v29.4s, v24.4s, v29.4s
	stp	q0, q0, [sp]
	fadd	v26.4s, v26.4s, v28.4s
	fadd	v8.4s, v8.4s, v28.4s
	fmul	v30.4s, v21.4s, v30.4s
	fadd	v9.4s, v9.4s, v28.4s
	fmul	v31.4s, v18.4s, v31.4s
	fadd	v27.4s, v27.4s, v28.4s
	fadd	v25.4s, v25.4s, v10.4s
	stp	q0, q0, [sp, #32]
	fadd	v28.4s, v29.4s, v10.4s
	stp	q0, q0, [sp, #64]
	fmul	v26.4s, v22.4s, v26.4s
	fmul	v29.4s, v23.4s, v8.4s
	fadd	v30.4s, v30.4s, v10.4s
	fmul	v8.4s, v19.4s, v9.4s
	fadd	v31.4s, v31.4s, v10.4s
	fmul	v27.4s, v17.4s, v27.4s
	fmul	v25.4s, v20.4s, v25.4s
	dup	v9.4s, w9
	stp	q0, q0, [sp, #96]
	fmul	v28.4s, v24.4s, v28.4s
	stp	q0, q0, [sp, #128]
	fadd	v26.4s, v26.4s, v10.4s
	fadd	v29.4s, v29.4s, v10.4s
	fmul	v30.4s, v21.4s, v30.4s
	fadd	v8.4s, v8.4s, v10.4s
	fadd	v27.4s, v27.4s, v10.4s
	fmul	v31.4s, v18.4s, v31.4s
	fadd	v25.4s, v25.4s, v9.4s
	stp	q0, q0, [sp, #160]
	fadd	v28.4s, v28.4s, v9.4s
	stp	q0, q0, [sp, #192]
	fmul	v26.4s, v22.4s, v26.4s
	fmul	v29.4s, v23.4s, v29.4s
	fadd	v30.4s, v30.4s, v9.4s
	fmul	v8.4s, v19.4s, v8.4s
	fadd	v31.4s, v31.4s, v9.4s
	fmul	v27.4s, v17.4s, v27.4s
	fmul	v20.4s, v20.4s, v25.4s
	stp	q0, q0, [sp, #224]
	fmul	v24.4s, v24.4s, v28.4s
	stp	q0, q0, [sp, #384]
	fadd	v25.4s, v26.4s, v9.4s
	fadd	v26.4s, v29.4s, v9.4s
	fmul	v21.4s, v21.4s, v30.4s
	fadd	v28.4s, v8.4s, v9.4s
	fmul	v18.4s, v18.4s, v31.4s
	fadd	v27.4s, v27.4s, v9.4s
	fmul	v20.4s, v20.4s, v2.4s
	stp	q0, q0, [sp, #416]
	fmul	v24.4s, v24.4s, v3.4s
	stp	q0, q0, [sp, #448]
	fmul	v22.4s, v22.4s, v25.4s
	fmul	v23.4s, v23.4s, v26.4s
	fmul	v21.4s, v21.4s, v4.4s
	fmul	v19.4s, v19.4s, v28.4s
	fmul	v17.4s, v17.4s, v27.4s
	fmul	v18.4s, v18.4s, v1.4s
	stp	q0, q0, [sp, #480]
	fadd	v2.4s, v20.4s, v2.4s
	fadd	v3.4s, v24.4s, v3.4s
	fmul	v20.4s, v22.4s, v5.4s
	fmul	v22.4s, v23.4s, v6.4s
	fadd	v4.4s, v21.4s, v4.4s
	fmul	v19.4s, v19.4s, v7.4s
	fadd	v0.4s, v18.4s, v1.4s
	fmul	v1.4s, v17.4s, v16.4s
	stp	q2, q3, [sp, #384]
	fadd	v5.4s, v20.4s, v5.4s
	fadd	v2.4s, v22.4s, v6.4s
	fadd	v3.4s, v19.4s, v7.4s
	stp	q4, q0, [sp, #416]
	fadd	v4.4s, v1.4s, v16.4s
	fmov	s0, #1.00000000
	fmov	s1, #1.00000000
	stp	q5, q2, [sp, #448]
	stp	q3, q4, [sp, #480]
.Lframes640_BB2_1:
	add	x9, sp, #256
	add	x10, sp, #384
	ldr	w9, [x9, x8]
	ldr	s2, [x10, x8]
	mov	w10, #1065353216
	add	w9, w9, #2048, lsl #12
	fmul	s2, s2, s2
	and	w9, w9, #0x1ffffff
	add	w9, w9, w10
	fmov	s3, w9
	mov	w9, #2048
	movk	w9, #17792, lsl #16
	fmov	s5, w9
	fmul	s4, s2, s3
	fmul	s5, s4, s5
	fsub	s6, s4, s5
	fadd	s5, s5, s6
	fmul	s6, s5, s5
	fadd	s7, s4, s5
	fsub	s5, s4, s5
	fsub	s3, s3, s6
	fmul	s5, s7, s5
	fmov	s6, #0.50000000
	fmul	s2, s2, s6
	fsub	s3, s3, s5
	fmul	s2, s2, s3
	fadd	s2, s4, s2
	fmov	s3, s2
	fcmp	s0, s3
	cset	w9, mi
	//APP
	//NO_APP
	cmp	w9, #0
	fcsel	s2, s2, s1, ne
	add	x9, sp, #128
	str	s2, [x1, x8]
	str	s2, [x9, x8]
	add	x8, x8, #4
	cmp	x8, #128
	b.ne	.Lframes640_BB2_1
	mov	x8, xzr
.Lframes640_BB2_3:
	add	x9, sp, #384
	ldr	s1, [x1, x8]
	mov	x11, sp
	ldr	s2, [x9, x8]
	mov	w9, #2048
	movk	w9, #17792, lsl #16
	fmul	s3, s1, s2
	fmov	s4, w9
	fmul	s4, s3, s4
	fsub	s5, s4, s3
	fsub	s4, s4, s5
	fmul	s5, s4, s4
	fadd	s6, s3, s4
	fsub	s4, s3, s4
	fsub	s1, s1, s5
	fmul	s4, s6, s4
	fmov	s5, #0.50000000
	fmul	s2, s2, s5
	fsub	s1, s1, s4
	fmul	s1, s2, s1
	fadd	s1, s3, s1
	fmov	s2, s1
	fcmp	s0, s2
	fmov	s2, #1.00000000
	cset	w9, mi
	//APP
	//NO_APP
	cmp	w9, #0
	fcsel	s1, s1, s2, ne
	str	s1, [x11, x8]
	add	x8, x8, #4
	cmp	x8, #128
	b.ne	.Lframes640_BB2_3
	movi	v0.2d, #0000000000000000
	movi	v1.2d, #0000000000000000
	add	x8, sp, #256
	add	x10, sp, #128
	add	x8, x8, #16
	add	x9, x1, #16
	add	x10, x10, #16
	add	x11, x11, #16
	mov	w12, #32
.Lframes640_BB2_5:
	movi	v19.4s, #127, msl #16
	fmov	v2.4s, #0.25000000
	mov	w13, #528482304
	ldp	q3, q7, [x10, #-16]
	movi	v18.4s, #128, lsl #16
	ldp	q4, q5, [x8, #-16]
	mvni	v8.4s, #128, lsl #16
	subs	x12, x12, #8
	add	x8, x8, #32
	add	x10, x10, #32
	and	v17.16b, v3.16b, v19.16b
	ldp	q3, q20, [x11, #-16]
	add	v6.4s, v4.4s, v2.4s
	and	v16.16b, v7.16b, v19.16b
	add	v7.4s, v5.4s, v2.4s
	add	x11, x11, #32
	orr	v17.4s, #128, lsl #16
	and	v3.16b, v3.16b, v19.16b
	and	v2.16b, v20.16b, v19.16b
	and	v20.16b, v4.16b, v19.16b
	and	v21.16b, v6.16b, v18.16b
	orr	v16.4s, #128, lsl #16
	ushr	v22.4s, v6.4s, #1
	and	v19.16b, v5.16b, v19.16b
	and	v23.16b, v7.16b, v18.16b
	ushr	v26.4s, v7.4s, #1
	umull	v24.2d, v17.2s, v17.2s
	umull2	v25.2d, v17.4s, v17.4s
	orr	v3.4s, #128, lsl #16
	orr	v20.4s, #128, lsl #16
	add	v21.4s, v21.4s, v18.4s
	orr	v2.4s, #128, lsl #16
	and	v22.16b, v22.16b, v18.16b
	umull	v27.2d, v16.2s, v16.2s
	umull2	v28.2d, v16.4s, v16.4s
	orr	v19.4s, #128, lsl #16
	add	v23.4s, v23.4s, v18.4s
	and	v26.16b, v26.16b, v18.16b
	umlsl2	v25.2d, v21.4s, v20.4s
	umlsl	v24.2d, v21.2s, v20.2s
	add	v20.4s, v22.4s, v18.4s
	umull	v21.2d, v3.2s, v3.2s
	umull2	v22.2d, v3.4s, v3.4s
	umull	v29.2d, v2.2s, v2.2s
	umull2	v30.2d, v2.4s, v2.4s
	umlsl	v27.2d, v23.2s, v19.2s
	add	v18.4s, v26.4s, v18.4s
	umlsl2	v28.2d, v23.4s, v19.4s
	ushr	v6.4s, v6.4s, #2
	uaddw	v19.2d, v24.2d, v17.2s
	mvn	v23.16b, v25.16b
	mvn	v24.16b, v24.16b
	umlsl2	v22.2d, v20.4s, v17.4s
	umlsl	v21.2d, v20.2s, v17.2s
	ushr	v7.4s, v7.4s, #2
	umlsl2	v30.2d, v18.4s, v16.4s
	umlsl	v29.2d, v18.2s, v16.2s
	mvn	v20.16b, v27.16b
	mvn	v26.16b, v28.16b
	uaddw2	v18.2d, v25.2d, v17.4s
	uaddw	v25.2d, v27.2d, v16.2s
	uaddw2	v27.2d, v28.2d, v16.4s
	uaddw	v24.2d, v24.2d, v17.2s
	uaddw2	v17.2d, v23.2d, v17.4s
	uaddw	v20.2d, v20.2d, v16.2s
	mvn	v23.16b, v21.16b
	mvn	v28.16b, v22.16b
	uaddw2	v16.2d, v26.2d, v16.4s
	mvn	v26.16b, v29.16b
	mvn	v31.16b, v30.16b
	uaddw	v21.2d, v21.2d, v3.2s
	uaddw2	v22.2d, v22.2d, v3.4s
	uaddw	v29.2d, v29.2d, v2.2s
	uaddw2	v30.2d, v30.2d, v2.4s
	uaddw2	v28.2d, v28.2d, v3.4s
	uaddw	v23.2d, v23.2d, v3.2s
	uaddw2	v31.2d, v31.2d, v2.4s
	uaddw	v26.2d, v26.2d, v2.2s
	orr	v17.16b, v18.16b, v17.16b
	orr	v18.16b, v19.16b, v24.16b
	orr	v16.16b, v27.16b, v16.16b
	orr	v19.16b, v25.16b, v20.16b
	orr	v20.16b, v28.16b, v22.16b
	orr	v21.16b, v23.16b, v21.16b
	fneg	v24.4s, v8.4s
	orr	v22.16b, v31.16b, v30.16b
	orr	v23.16b, v26.16b, v29.16b
	mvni	v25.4s, #127, msl #16
	orr	v17.16b, v17.16b, v20.16b
	orr	v18.16b, v18.16b, v21.16b
	fmov	v20.4s, #1.00000000
	orr	v16.16b, v16.16b, v22.16b
	orr	v19.16b, v19.16b, v23.16b
	add	v21.4s, v4.4s, v25.4s
	sub	v4.4s, v24.4s, v4.4s
	add	v22.4s, v5.4s, v25.4s
	sub	v5.4s, v24.4s, v5.4s
	uzp2	v17.4s, v18.4s, v17.4s
	uzp2	v16.4s, v19.4s, v16.4s
	and	v6.16b, v6.16b, v20.16b
	and	v7.16b, v7.16b, v20.16b
	orr	v4.16b, v21.16b, v4.16b
	orr	v5.16b, v22.16b, v5.16b
	add	v3.4s, v6.4s, v3.4s
	dup	v6.4s, w13
	add	v2.4s, v7.4s, v2.4s
	orr	v4.16b, v4.16b, v17.16b
	orr	v5.16b, v5.16b, v16.16b
	add	v3.4s, v3.4s, v6.4s
	add	v2.4s, v2.4s, v6.4s
	cmge	v7.4s, v4.4s, #0
	cmge	v6.4s, v5.4s, #0
	usra	v0.4s, v4.4s, #31
	usra	v1.4s, v5.4s, #31
	and	v3.16b, v7.16b, v3.16b
	and	v2.16b, v6.16b, v2.16b
	stp	q3, q2, [x9, #-16]
	add	x9, x9, #32
	b.ne	.Lframes640_BB2_5
	add	v0.4s, v1.4s, v0.4s
	addv	s0, v0.4s
	fmov	w8, s0
	cbz	w8, .Lframes640_BB2_67
	movi	d0, #0000000000000000
	mov	x8, xzr
	b	.Lframes640_BB2_11
.Lframes640_BB2_8:
	movi	d1, #0000000000000000
.Lframes640_BB2_9:
	str	s1, [x1, x8, lsl #2]
.Lframes640_BB2_10:
	add	x8, x8, #1
	cmp	x8, #32
	b.eq	.Lframes640_BB2_67
.Lframes640_BB2_11:
	ldr	s1, [x1, x8, lsl #2]
	fcmp	s1, s0
	b.ne	.Lframes640_BB2_10
	ldr	s1, [x0, x8, lsl #2]
	fmov	s2, s1
	fcmp	s2, s2
	b.vs	.Lframes640_BB2_65
	fmov	w9, s1
	ands	w10, w9, #0x7fffffff
	b.eq	.Lframes640_BB2_8
	lsr	w11, w9, #23
	cmp	w11, #254
	b.hi	.Lframes640_BB2_17
	cbnz	w11, .Lframes640_BB2_18
	clz	w10, w9
	sub	w11, w10, #8
	lsl	w9, w9, w11
	sub	w9, w9, w10, lsl #23
	mov	w10, #1115684864
	b	.Lframes640_BB2_19
.Lframes640_BB2_17:
	mov	w9, #2139095040
	mov	w11, #2143289344
	fmov	s1, w11
	fmov	s2, w9
	cmp	w10, w9
	fcsel	s1, s2, s1, eq
	b	.Lframes640_BB2_9
.Lframes640_BB2_18:
	mov	w10, #1048576000
.Lframes640_BB2_19:
	add	w9, w9, w10
	ubfiz	x10, x9, #29, #32
	orr	x11, x10, #0x3ff0000000000000
	ubfx	w10, w9, #18, #5
	fmov	d1, x11
	adrp	x11, .Lframes640_JTI2_0
	add	x11, x11, :lo12:.Lframes640_JTI2_0
.Lframes640_tmp0:
	adr	x12, .Lframes640_tmp0
	ldrsw	x13, [x11, x10, lsl #2]
	add	x12, x12, x13
	br	x12
.Lframes640_BB2_20:
	adrp	x10, .Lframes640_CPI2_124
	adrp	x11, .Lframes640_CPI2_127
	ldr	d2, [x10, :lo12:.Lframes640_CPI2_124]
	adrp	x10, .Lframes640_CPI2_125
	ldr	d4, [x11, :lo12:.Lframes640_CPI2_127]
	ldr	d3, [x10, :lo12:.Lframes640_CPI2_125]
	adrp	x10, .Lframes640_CPI2_126
	fmul	d2, d1, d2
	fadd	d2, d2, d3
	ldr	d3, [x10, :lo12:.Lframes640_CPI2_126]
	b	.Lframes640_BB2_52
.Lframes640_BB2_21:
	adrp	x10, .Lframes640_CPI2_16
	adrp	x11, .Lframes640_CPI2_19
	ldr	d2, [x10, :lo12:.Lframes640_CPI2_16]
	adrp	x10, .Lframes640_CPI2_17
	ldr	d4, [x11, :lo12:.Lframes640_CPI2_19]
	ldr	d3, [x10, :lo12:.Lframes640_CPI2_17]
	adrp	x10, .Lframes640_CPI2_18
	fmul	d2, d1, d2
	fadd	d2, d2, d3
	ldr	d3, [x10, :lo12:.Lframes640_CPI2_18]
	b	.Lframes640_BB2_52
.Lframes640_BB2_22:
	adrp	x10, .Lframes640_CPI2_60
	adrp	x11, .Lframes640_CPI2_63
	ldr	d2, [x10, :lo12:.Lframes640_CPI2_60]
	adrp	x10, .Lframes640_CPI2_61
	ldr	d4, [x11, :lo12:.Lframes640_CPI2_63]
	ldr	d3, [x10, :lo12:.Lframes640_CPI2_61]
	adrp	x10, .Lframes640_CPI2_62
	fmul	d2, d1, d2
	fadd	d2, d2, d3
	ldr	d3, [x10, :lo12:.Lframes640_CPI2_62]
	b	.Lframes640_BB2_52
.Lframes640_BB2_23:
	adrp	x10, .Lframes640_CPI2_68
	adrp	x11, .Lframes640_CPI2_71
	ldr	d2, [x10, :lo12:.Lframes640_CPI2_68]
	adrp	x10, .Lframes640_CPI2_69
	ldr	d4, [x11, :lo12:.Lframes640_CPI2_71]
	ldr	d3, [x10, :lo12:.Lframes640_CPI2_69]
	adrp	x10, .Lframes640_CPI2_70
	fmul	d2, d1, d2
	fadd	d2, d2, d3
	ldr	d3, [x10, :lo12:.Lframes640_CPI2_70]
	b	.Lframes640_BB2_52
.Lframes640_BB2_24:
	adrp	x10, .Lframes640_CPI2_80
	adrp	x11, .Lframes640_CPI2_83
	ldr	d2, [x10, :lo12:.Lframes640_CPI2_80]
	adrp	x10, .Lframes640_CPI2_81
	ldr	d4, [x11, :lo12:.Lframes640_CPI2_83]
	ldr	d3, [x10, :lo12:.Lframes640_CPI2_81]
	adrp	x10, .Lframes640_CPI2_82
	fmul	d2, d1, d2
	fadd	d2, d2, d3
	ldr	d3, [x10, :lo12:.Lframes640_CPI2_82]
	b	.Lframes640_BB2_52
.Lframes640_BB2_25:
	adrp	x10, .Lframes640_CPI2_108
	adrp	x11, .Lframes640_CPI2_111
	ldr	d2, [x10, :lo12:.Lframes640_CPI2_108]
	adrp	x10, .Lframes640_CPI2_109
	ldr	d4, [x11, :lo12:.Lframes640_CPI2_111]
	ldr	d3, [x10, :lo12:.Lframes640_CPI2_109]
	adrp	x10, .Lframes640_CPI2_110
	fmul	d2, d1, d2
	fadd	d2, d2, d3
	ldr	d3, [x10, :lo12:.Lframes640_CPI2_110]
	b	.Lframes640_BB2_52
.Lframes640_BB2_26:
	adrp	x10, .Lframes640_CPI2_76
	adrp	x11, .Lframes640_CPI2_79
	ldr	d2, [x10, :lo12:.Lframes640_CPI2_76]
	adrp	x10, .Lframes640_CPI2_77
	ldr	d4, [x11, :lo12:.Lframes640_CPI2_79]
	ldr	d3, [x10, :lo12:.Lframes640_CPI2_77]
	adrp	x10, .Lframes640_CPI2_78
	fmul	d2, d1, d2
	fadd	d2, d2, d3
	ldr	d3, [x10, :lo12:.Lframes640_CPI2_78]
	b	.Lframes640_BB2_52
.Lframes640_BB2_27:
	adrp	x10, .Lframes640_CPI2_88
	adrp	x11, .Lframes640_CPI2_91
	ldr	d2, [x10, :lo12:.Lframes640_CPI2_88]
	adrp	x10, .Lframes640_CPI2_89
	ldr	d4, [x11, :lo12:.Lframes640_CPI2_91]
	ldr	d3, [x10, :lo12:.Lframes640_CPI2_89]
	adrp	x10, .Lframes640_CPI2_90
	fmul	d2, d1, d2
	fadd	d2, d2, d3
	ldr	d3, [x10, :lo12:.Lframes640_CPI2_90]
	b	.Lframes640_BB2_52
.Lframes640_BB2_28:
	adrp	x10, .Lframes640_CPI2_24
	adrp	x11, .Lframes640_CPI2_27
	ldr	d2, [x10, :lo12:.Lframes640_CPI2_24]
	adrp	x10, .Lframes640_CPI2_25
	ldr	d4, [x11, :lo12:.Lframes640_CPI2_27]
	ldr	d3, [x10, :lo12:.Lframes640_CPI2_25]
	adrp	x10, .Lframes640_CPI2_26
	fmul	d2, d1, d2
	fadd	d2, d2, d3
	ldr	d3, [x10, :lo12:.Lframes640_CPI2_26]
	b	.Lframes640_BB2_52
.Lframes640_BB2_29:
	adrp	x10, .Lframes640_CPI2_28
	adrp	x11, .Lframes640_CPI2_31
	ldr	d2, [x10, :lo12:.Lframes640_CPI2_28]
	adrp	x10, .Lframes640_CPI2_29
	ldr	d4, [x11, :lo12:.Lframes640_CPI2_31]
	ldr	d3, [x10, :lo12:.Lframes640_CPI2_29]
	adrp	x10, .Lframes640_CPI2_30
	fmul	d2, d1, d2
	fadd	d2, d2, d3
	ldr	d3, [x10, :lo12:.Lframes640_CPI2_30]
	b	.Lframes640_BB2_52
.Lframes640_BB2_30:
	adrp	x10, .Lframes640_CPI2_116
	adrp	x11, .Lframes640_CPI2_119
	ldr	d2, [x10, :lo12:.Lframes640_CPI2_116]
	adrp	x10, .Lframes640_CPI2_117
	ldr	d4, [x11, :lo12:.Lframes640_CPI2_119]
	ldr	d3, [x10, :lo12:.Lframes640_CPI2_117]
	adrp	x10, .Lframes640_CPI2_118
	fmul	d2, d1, d2
	fadd	d2, d2, d3
	ldr	d3, [x10, :lo12:.Lframes640_CPI2_118]
	b	.Lframes640_BB2_52
.Lframes640_BB2_31:
	adrp	x10, .Lframes640_CPI2_64
	adrp	x11, .Lframes640_CPI2_67
	ldr	d2, [x10, :lo12:.Lframes640_CPI2_64]
	adrp	x10, .Lframes640_CPI2_65
	ldr	d4, [x11, :lo12:.Lframes640_CPI2_67]
	ldr	d3, [x10, :lo12:.Lframes640_CPI2_65]
	adrp	x10, .Lframes640_CPI2_66
	fmul	d2, d1, d2
	fadd	d2, d2, d3
	ldr	d3, [x10, :lo12:.Lframes640_CPI2_66]
	b	.Lframes640_BB2_52
.Lframes640_BB2_32:
	adrp	x10, .Lframes640_CPI2_112
	adrp	x11, .Lframes640_CPI2_115
	ldr	d2, [x10, :lo12:.Lframes640_CPI2_112]
	adrp	x10, .Lframes640_CPI2_113
	ldr	d4, [x11, :lo12:.Lframes640_CPI2_115]
	ldr	d3, [x10, :lo12:.Lframes640_CPI2_113]
	adrp	x10, .Lframes640_CPI2_114
	fmul	d2, d1, d2
	fadd	d2, d2, d3
	ldr	d3, [x10, :lo12:.Lframes640_CPI2_114]
	b	.Lframes640_BB2_52
.Lframes640_BB2_33:
	adrp	x10, .Lframes640_CPI2_96
	adrp	x11, .Lframes640_CPI2_99
	ldr	d2, [x10, :lo12:.Lframes640_CPI2_96]
	adrp	x10, .Lframes640_CPI2_97
	ldr	d4, [x11, :lo12:.Lframes640_CPI2_99]
	ldr	d3, [x10, :lo12:.Lframes640_CPI2_97]
	adrp	x10, .Lframes640_CPI2_98
	fmul	d2, d1, d2
	fadd	d2, d2, d3
	ldr	d3, [x10, :lo12:.Lframes640_CPI2_98]
	b	.Lframes640_BB2_52
.Lframes640_BB2_34:
	adrp	x10, .Lframes640_CPI2_120
	adrp	x11, .Lframes640_CPI2_123
	ldr	d2, [x10, :lo12:.Lframes640_CPI2_120]
	adrp	x10, .Lframes640_CPI2_121
	ldr	d4, [x11, :lo12:.Lframes640_CPI2_123]
	ldr	d3, [x10, :lo12:.Lframes640_CPI2_121]
	adrp	x10, .Lframes640_CPI2_122
	fmul	d2, d1, d2
	fadd	d2, d2, d3
	ldr	d3, [x10, :lo12:.Lframes640_CPI2_122]
	b	.Lframes640_BB2_52
.Lframes640_BB2_35:
	adrp	x10, .Lframes640_CPI2_0
	adrp	x11, .Lframes640_CPI2_3
	ldr	d2, [x10, :lo12:.Lframes640_CPI2_0]
	adrp	x10, .Lframes640_CPI2_1
	ldr	d4, [x11, :lo12:.Lframes640_CPI2_3]
	ldr	d3, [x10, :lo12:.Lframes640_CPI2_1]
	adrp	x10, .Lframes640_CPI2_2
	fmul	d2, d1, d2
	fadd	d2, d2, d3
	ldr	d3, [x10, :lo12:.Lframes640_CPI2_2]
	b	.Lframes640_BB2_52
.Lframes640_BB2_36:
	adrp	x10, .Lframes640_CPI2_56
	adrp	x11, .Lframes640_CPI2_59
	ldr	d2, [x10, :lo12:.Lframes640_CPI2_56]
	adrp	x10, .Lframes640_CPI2_57
	ldr	d4, [x11, :lo12:.Lframes640_CPI2_59]
	ldr	d3, [x10, :lo12:.Lframes640_CPI2_57]
	adrp	x10, .Lframes640_CPI2_58
	fmul	d2, d1, d2
	fadd	d2, d2, d3
	ldr	d3, [x10, :lo12:.Lframes640_CPI2_58]
	b	.Lframes640_BB2_52
.Lframes640_BB2_37:
	adrp	x10, .Lframes640_CPI2_44
	adrp	x11, .Lframes640_CPI2_47
	ldr	d2, [x10, :lo12:.Lframes640_CPI2_44]
	adrp	x10, .Lframes640_CPI2_45
	ldr	d4, [x11, :lo12:.Lframes640_CPI2_47]
	ldr	d3, [x10, :lo12:.Lframes640_CPI2_45]
	adrp	x10, .Lframes640_CPI2_46
	fmul	d2, d1, d2
	fadd	d2, d2, d3
	ldr	d3, [x10, :lo12:.Lframes640_CPI2_46]
	b	.Lframes640_BB2_52
.Lframes640_BB2_38:
	adrp	x10, .Lframes640_CPI2_104
	adrp	x11, .Lframes640_CPI2_107
	ldr	d2, [x10, :lo12:.Lframes640_CPI2_104]
	adrp	x10, .Lframes640_CPI2_105
	ldr	d4, [x11, :lo12:.Lframes640_CPI2_107]
	ldr	d3, [x10, :lo12:.Lframes640_CPI2_105]
	adrp	x10, .Lframes640_CPI2_106
	fmul	d2, d1, d2
	fadd	d2, d2, d3
	ldr	d3, [x10, :lo12:.Lframes640_CPI2_106]
	b	.Lframes640_BB2_52
.Lframes640_BB2_39:
	adrp	x10, .Lframes640_CPI2_40
	adrp	x11, .Lframes640_CPI2_43
	ldr	d2, [x10, :lo12:.Lframes640_CPI2_40]
	adrp	x10, .Lframes640_CPI2_41
	ldr	d4, [x11, :lo12:.Lframes640_CPI2_43]
	ldr	d3, [x10, :lo12:.Lframes640_CPI2_41]
	adrp	x10, .Lframes640_CPI2_42
	fmul	d2, d1, d2
	fadd	d2, d2, d3
	ldr	d3, [x10, :lo12:.Lframes640_CPI2_42]
	b	.Lframes640_BB2_52
.Lframes640_BB2_40:
	adrp	x10, .Lframes640_CPI2_72
	adrp	x11, .Lframes640_CPI2_75
	ldr	d2, [x10, :lo12:.Lframes640_CPI2_72]
	adrp	x10, .Lframes640_CPI2_73
	ldr	d4, [x11, :lo12:.Lframes640_CPI2_75]
	ldr	d3, [x10, :lo12:.Lframes640_CPI2_73]
	adrp	x10, .Lframes640_CPI2_74
	fmul	d2, d1, d2
	fadd	d2, d2, d3
	ldr	d3, [x10, :lo12:.Lframes640_CPI2_74]
	b	.Lframes640_BB2_52
.Lframes640_BB2_41:
	adrp	x10, .Lframes640_CPI2_100
	adrp	x11, .Lframes640_CPI2_103
	ldr	d2, [x10, :lo12:.Lframes640_CPI2_100]
	adrp	x10, .Lframes640_CPI2_101
	ldr	d4, [x11, :lo12:.Lframes640_CPI2_103]
	ldr	d3, [x10, :lo12:.Lframes640_CPI2_101]
	adrp	x10, .Lframes640_CPI2_102
	fmul	d2, d1, d2
	fadd	d2, d2, d3
	ldr	d3, [x10, :lo12:.Lframes640_CPI2_102]
	b	.Lframes640_BB2_52
.Lframes640_BB2_42:
	adrp	x10, .Lframes640_CPI2_52
	adrp	x11, .Lframes640_CPI2_55
	ldr	d2, [x10, :lo12:.Lframes640_CPI2_52]
	adrp	x10, .Lframes640_CPI2_53
	ldr	d4, [x11, :lo12:.Lframes640_CPI2_55]
	ldr	d3, [x10, :lo12:.Lframes640_CPI2_53]
	adrp	x10, .Lframes640_CPI2_54
	fmul	d2, d1, d2
	fadd	d2, d2, d3
	ldr	d3, [x10, :lo12:.Lframes640_CPI2_54]
	b	.Lframes640_BB2_52
.Lframes640_BB2_43:
	adrp	x10, .Lframes640_CPI2_84
	adrp	x11, .Lframes640_CPI2_87
	ldr	d2, [x10, :lo12:.Lframes640_CPI2_84]
	adrp	x10, .Lframes640_CPI2_85
	ldr	d4, [x11, :lo12:.Lframes640_CPI2_87]
	ldr	d3, [x10, :lo12:.Lframes640_CPI2_85]
	adrp	x10, .Lframes640_CPI2_86
	fmul	d2, d1, d2
	fadd	d2, d2, d3
	ldr	d3, [x10, :lo12:.Lframes640_CPI2_86]
	b	.Lframes640_BB2_52
.Lframes640_BB2_44:
	adrp	x10, .Lframes640_CPI2_92
	adrp	x11, .Lframes640_CPI2_95
	ldr	d2, [x10, :lo12:.Lframes640_CPI2_92]
	adrp	x10, .Lframes640_CPI2_93
	ldr	d4, [x11, :lo12:.Lframes640_CPI2_95]
	ldr	d3, [x10, :lo12:.Lframes640_CPI2_93]
	adrp	x10, .Lframes640_CPI2_94
	fmul	d2, d1, d2
	fadd	d2, d2, d3
	ldr	d3, [x10, :lo12:.Lframes640_CPI2_94]
	b	.Lframes640_BB2_52
.Lframes640_BB2_45:
	adrp	x10, .Lframes640_CPI2_4
	adrp	x11, .Lframes640_CPI2_7
	ldr	d2, [x10, :lo12:.Lframes640_CPI2_4]
	adrp	x10, .Lframes640_CPI2_5
	ldr	d4, [x11, :lo12:.Lframes640_CPI2_7]
	ldr	d3, [x10, :lo12:.Lframes640_CPI2_5]
	adrp	x10, .Lframes640_CPI2_6
	fmul	d2, d1, d2
	fadd	d2, d2, d3
	ldr	d3, [x10, :lo12:.Lframes640_CPI2_6]
	b	.Lframes640_BB2_52
.Lframes640_BB2_46:
	adrp	x10, .Lframes640_CPI2_36
	adrp	x11, .Lframes640_CPI2_39
	ldr	d2, [x10, :lo12:.Lframes640_CPI2_36]
	adrp	x10, .Lframes640_CPI2_37
	ldr	d4, [x11, :lo12:.Lframes640_CPI2_39]
	ldr	d3, [x10, :lo12:.Lframes640_CPI2_37]
	adrp	x10, .Lframes640_CPI2_38
	fmul	d2, d1, d2
	fadd	d2, d2, d3
	ldr	d3, [x10, :lo12:.Lframes640_CPI2_38]
	b	.Lframes640_BB2_52
.Lframes640_BB2_47:
	adrp	x10, .Lframes640_CPI2_48
	adrp	x11, .Lframes640_CPI2_51
	ldr	d2, [x10, :lo12:.Lframes640_CPI2_48]
	adrp	x10, .Lframes640_CPI2_49
	ldr	d4, [x11, :lo12:.Lframes640_CPI2_51]
	ldr	d3, [x10, :lo12:.Lframes640_CPI2_49]
	adrp	x10, .Lframes640_CPI2_50
	fmul	d2, d1, d2
	fadd	d2, d2, d3
	ldr	d3, [x10, :lo12:.Lframes640_CPI2_50]
	b	.Lframes640_BB2_52
.Lframes640_BB2_48:
	adrp	x10, .Lframes640_CPI2_32
	adrp	x11, .Lframes640_CPI2_35
	ldr	d2, [x10, :lo12:.Lframes640_CPI2_32]
	adrp	x10, .Lframes640_CPI2_33
	ldr	d4, [x11, :lo12:.Lframes640_CPI2_35]
	ldr	d3, [x10, :lo12:.Lframes640_CPI2_33]
	adrp	x10, .Lframes640_CPI2_34
	fmul	d2, d1, d2
	fadd	d2, d2, d3
	ldr	d3, [x10, :lo12:.Lframes640_CPI2_34]
	b	.Lframes640_BB2_52
.Lframes640_BB2_49:
	adrp	x10, .Lframes640_CPI2_12
	adrp	x11, .Lframes640_CPI2_15
	ldr	d2, [x10, :lo12:.Lframes640_CPI2_12]
	adrp	x10, .Lframes640_CPI2_13
	ldr	d4, [x11, :lo12:.Lframes640_CPI2_15]
	ldr	d3, [x10, :lo12:.Lframes640_CPI2_13]
	adrp	x10, .Lframes640_CPI2_14
	fmul	d2, d1, d2
	fadd	d2, d2, d3
	ldr	d3, [x10, :lo12:.Lframes640_CPI2_14]
	b	.Lframes640_BB2_52
.Lframes640_BB2_50:
	adrp	x10, .Lframes640_CPI2_8
	adrp	x11, .Lframes640_CPI2_11
	ldr	d2, [x10, :lo12:.Lframes640_CPI2_8]
	adrp	x10, .Lframes640_CPI2_9
	ldr	d4, [x11, :lo12:.Lframes640_CPI2_11]
	ldr	d3, [x10, :lo12:.Lframes640_CPI2_9]
	adrp	x10, .Lframes640_CPI2_10
	fmul	d2, d1, d2
	fadd	d2, d2, d3
	ldr	d3, [x10, :lo12:.Lframes640_CPI2_10]
	b	.Lframes640_BB2_52
.Lframes640_BB2_51:
	adrp	x10, .Lframes640_CPI2_20
	adrp	x11, .Lframes640_CPI2_23
	ldr	d2, [x10, :lo12:.Lframes640_CPI2_20]
	adrp	x10, .Lframes640_CPI2_21
	ldr	d4, [x11, :lo12:.Lframes640_CPI2_23]
	ldr	d3, [x10, :lo12:.Lframes640_CPI2_21]
	adrp	x10, .Lframes640_CPI2_22
	fmul	d2, d1, d2
	fadd	d2, d2, d3
	ldr	d3, [x10, :lo12:.Lframes640_CPI2_22]
.Lframes640_BB2_52:
	fmul	d3, d3, d1
	fmul	d5, d1, d1
	ubfx	w10, w9, #23, #2
	adrp	x11, .Lframes640_switch.table.roots.fourth_roots
	add	x11, x11, :lo12:.Lframes640_switch.table.roots.fourth_roots
	fadd	d3, d4, d3
	ldr	d4, [x11, w10, uxtw #3]
	mov	x11, #4841369599423283200
	fmul	d1, d4, d1
	fmov	d4, x11
	mov	x11, #-4382002437431492608
	fmul	d3, d5, d3
	fmov	d5, x11
	adrp	x11, .Lframes640_switch.table.roots.fourth_roots.9
	add	x11, x11, :lo12:.Lframes640_switch.table.roots.fourth_roots.9
	ldr	d6, [x11, w10, uxtw #3]
	fadd	d2, d2, d3
	fmul	d1, d2, d1
	fmul	d3, d2, d1
	fmul	d2, d2, d6
	fadd	d1, d3, d4
	fadd	d5, d1, d5
	fadd	d3, d3, d5
	fmul	d2, d3, d2
	fadd	d2, d2, d4
	fmov	d3, d2
	fcmp	d3, d3
	b.vs	.Lframes640_BB2_66
	fmov	x10, d1
	fmov	x12, d2
	mov	w11, w10
	mov	w10, w12
.Lframes640_BB2_54:
	and	w12, w9, #0x7fffff
	and	w13, w9, #0x800000
	umaddl	x14, w11, w11, x11
	orr	w12, w12, #0x800000
	add	w13, w13, #2048, lsl #12
	umsubl	x14, w12, w13, x14
	cmp	x14, x11, lsl #1
	b.hs	.Lframes640_BB2_56
	mov	x13, x11
	b	.Lframes640_BB2_59
.Lframes640_BB2_56:
	umull	x12, w12, w13
	add	x14, x11, #1
.Lframes640_BB2_57:
	mov	x13, x11
	add	x11, x11, #1
	mul	x15, x11, x13
	mov	x13, x14
	add	x14, x14, #1
	cmp	x15, x12
	b.lo	.Lframes640_BB2_57
.Lframes640_BB2_58:
	sub	x13, x13, #1
	mul	x11, x13, x13
	add	x14, x12, x13
	cmp	x14, x11
	b.ls	.Lframes640_BB2_58
.Lframes640_BB2_59:
	lsr	w11, w9, #1
	umaddl	x12, w10, w10, x10
	and	w11, w11, #0x800000
	add	w11, w11, #2048, lsl #12
	mul	x11, x13, x11
	sub	x12, x12, x11
	cmp	x12, x10, lsl #1
	b.hs	.Lframes640_BB2_61
	mov	x12, x10
	b	.Lframes640_BB2_64
.Lframes640_BB2_61:
	add	x13, x10, #1
.Lframes640_BB2_62:
	mov	x12, x10
	add	x10, x10, #1
	mul	x14, x10, x12
	mov	x12, x13
	add	x13, x13, #1
	cmp	x14, x11
	b.lo	.Lframes640_BB2_62
.Lframes640_BB2_63:
	sub	x12, x12, #1
	mul	x10, x12, x12
	add	x13, x11, x12
	cmp	x13, x10
	b.ls	.Lframes640_BB2_63
.Lframes640_BB2_64:
	lsr	w9, w9, #25
	mov	w10, #528482304
	add	w9, w12, w9, lsl #23
	add	w9, w9, w10
	fmov	s1, w9
	b	.Lframes640_BB2_9
.Lframes640_BB2_65:
	mov	w9, #2143289344
	fmov	s1, w9
	b	.Lframes640_BB2_9
.Lframes640_BB2_66:
	mov	w10, #8388608
	mov	w11, #8388608
	bfxil	w11, w9, #1, #22
	bfxil	w10, w9, #2, #21
	b	.Lframes640_BB2_54
.Lframes640_BB2_67:
	add	sp, sp, #512
	ldp	x20, x19, [sp, #80]
	ldp	x22, x21, [sp, #64]
	ldp	x24, x23, [sp, #48]
	ldp	x30, x25, [sp, #32]
	ldp	d9, d8, [sp, #16]
	ldr	d10, [sp], #96
	ret
.Lframes640_func_end2:
	.size	loamchalice.frames640.roots.fourth_roots, .Lframes640_func_end2-loamchalice.frames640.roots.fourth_roots
	.section	.rodata.frames640.roots.fourth_roots,"a",@progbits
	.p2align	2, 0x0
.Lframes640_JTI2_0:
	.word	.Lframes640_BB2_20-.Lframes640_tmp0
	.word	.Lframes640_BB2_34-.Lframes640_tmp0
	.word	.Lframes640_BB2_30-.Lframes640_tmp0
	.word	.Lframes640_BB2_32-.Lframes640_tmp0
	.word	.Lframes640_BB2_25-.Lframes640_tmp0
	.word	.Lframes640_BB2_38-.Lframes640_tmp0
	.word	.Lframes640_BB2_41-.Lframes640_tmp0
	.word	.Lframes640_BB2_33-.Lframes640_tmp0
	.word	.Lframes640_BB2_44-.Lframes640_tmp0
	.word	.Lframes640_BB2_27-.Lframes640_tmp0
	.word	.Lframes640_BB2_43-.Lframes640_tmp0
	.word	.Lframes640_BB2_24-.Lframes640_tmp0
	.word	.Lframes640_BB2_26-.Lframes640_tmp0
	.word	.Lframes640_BB2_40-.Lframes640_tmp0
	.word	.Lframes640_BB2_23-.Lframes640_tmp0
	.word	.Lframes640_BB2_31-.Lframes640_tmp0
	.word	.Lframes640_BB2_22-.Lframes640_tmp0
	.word	.Lframes640_BB2_36-.Lframes640_tmp0
	.word	.Lframes640_BB2_42-.Lframes640_tmp0
	.word	.Lframes640_BB2_47-.Lframes640_tmp0
	.word	.Lframes640_BB2_37-.Lframes640_tmp0
	.word	.Lframes640_BB2_39-.Lframes640_tmp0
	.word	.Lframes640_BB2_46-.Lframes640_tmp0
	.word	.Lframes640_BB2_48-.Lframes640_tmp0
	.word	.Lframes640_BB2_29-.Lframes640_tmp0
	.word	.Lframes640_BB2_28-.Lframes640_tmp0
	.word	.Lframes640_BB2_51-.Lframes640_tmp0
	.word	.Lframes640_BB2_21-.Lframes640_tmp0
	.word	.Lframes640_BB2_49-.Lframes640_tmp0
	.word	.Lframes640_BB2_50-.Lframes640_tmp0
	.word	.Lframes640_BB2_45-.Lframes640_tmp0
	.word	.Lframes640_BB2_35-.Lframes640_tmp0

	.section	.text.frames640.pixels.degrees_block,"ax",@progbits
	.p2align	2
	.type	loamchalice.frames640.pixels.degrees_block,@function
loamchalice.frames640.pixels.degrees_block:
	stp	x29, x30, [sp, #-32]!
	str	x19, [sp, #16]
	mov	x29, sp
	mov	x19, x1
	bl	loamchalice.frames640.roots.fourth_roots
	mov	w8, #37683
	ldp	q1, q2, [x19]
	movk	w8, #50056, lsl #16
	ldp	q3, q4, [x19, #32]
	dup	v0.4s, w8
	ldp	q5, q6, [x19, #64]
	fadd	v1.4s, v1.4s, v0.4s
	fadd	v2.4s, v2.4s, v0.4s
	fadd	v3.4s, v3.4s, v0.4s
	fadd	v4.4s, v4.4s, v0.4s
	fadd	v5.4s, v5.4s, v0.4s
	stp	q1, q2, [x19]
	ldp	q7, q1, [x19, #96]
	fadd	v2.4s, v6.4s, v0.4s
	stp	q3, q4, [x19, #32]
	fadd	v3.4s, v7.4s, v0.4s
	fadd	v0.4s, v1.4s, v0.4s
	stp	q5, q2, [x19, #64]
	stp	q3, q0, [x19, #96]
	ldr	x19, [sp, #16]
	ldp	x29, x30, [sp], #32
	ret
.Lframes640_func_end3:
	.size	loamchalice.frames640.pixels.degrees_block, .Lframes640_func_end3-loamchalice.frames640.pixels.degrees_block

	.section	.rodata.cst16,"aM",@progbits,16
	.p2align	4, 0x0
.Lframes640_CPI4_0:
	.xword	24
	.xword	2
	.section	.text.frames640.frames640.from_pixels,"ax",@progbits
	.p2align	2
	.type	loamchalice.frames640.frames640.from_pixels,@function
loamchalice.frames640.frames640.from_pixels:
	str	d8, [sp, #-112]!
	stp	x29, x30, [sp, #16]
	add	x29, sp, #16
	stp	x28, x27, [sp, #32]
	stp	x26, x25, [sp, #48]
	stp	x24, x23, [sp, #64]
	stp	x22, x21, [sp, #80]
	stp	x20, x19, [sp, #96]
	sub	sp, sp, #800
	mov	x10, x1
	ldp	x8, x9, [x29, #144]
	ldur	q1, [x1, #100]
	movi	v25.2d, #0000000000000000
	str	x6, [sp]
	ldp	x1, x22, [x29, #128]
	mov	x27, xzr
	ldp	x14, x11, [x29, #112]
	and	w16, w3, #0xff
	ldp	x6, x12, [x29, #96]
	stur	q1, [x29, #-112]
	ldp	s23, s16, [x10, #8]
	str	x8, [sp, #8]
	ldrh	w23, [x10]
	ldrsh	w25, [x10, #2]
	ldr	x21, [x10, #32]
	ldrh	w28, [x10, #80]
	ldrh	w30, [x10, #82]
	ldrb	w15, [x10, #92]
	ldr	s3, [x10, #96]
	ldr	s24, [x10, #140]
	ldr	s20, [x2, #8]
	ldr	x17, [x2, #16]
	ldrb	w18, [x2, #24]
	ldr	s4, [x2, #28]
	ldrh	w19, [x2, #32]
	ldrh	w20, [x2, #34]
	ldrsh	w26, [x2, #36]
	ldrh	w24, [x2, #38]
	ldrb	w13, [x2, #42]
	ldrb	w8, [x2, #43]
	stur	xzr, [x29, #-8]
	ldp	s17, s22, [x10, #16]
	stp	q25, q25, [sp, #304]
	ldp	s18, s2, [x10, #24]
	stp	q25, q25, [sp, #336]
	ldp	s5, s21, [x10, #72]
	stp	q25, q25, [sp, #368]
	ldp	s6, s7, [x10, #84]
	stp	q25, q25, [sp, #400]
	ldp	s1, s19, [x2]
	stp	q25, q25, [sp, #432]
	stp	q25, q25, [sp, #464]
	stp	q25, q25, [sp, #496]
	stp	q25, q25, [sp, #528]
.Lframes640_BB4_1:
	lsr	x2, x27, #5
	sub	x3, x29, #112
	add	x2, x3, x2, lsl #2
	add	x3, sp, #304
	add	x3, x3, x27, lsl #2
	add	x27, x27, #2
	ldr	s25, [x2]
	ldr	s26, [x2, #8]
	cmp	x27, #64
	stp	s25, s26, [x3]
	b.ne	.Lframes640_BB4_1
	movi	d26, #0000000000000000
	cmp	w13, #0
	movi	v25.2d, #0000000000000000
	fcsel	s5, s5, s21, eq
	csel	w2, w28, w30, eq
	cmp	w8, #0
	ccmp	w13, #0, #4, ne
	fcsel	s21, s26, s24, eq
	cmp	x5, x12
	stp	q25, q25, [sp, #48]
	csel	x3, x5, x12, lo
	stp	q25, q25, [sp, #80]
	stp	q25, q25, [sp, #112]
	stp	q25, q25, [sp, #144]
	stp	q25, q25, [sp, #176]
	stp	q25, q25, [sp, #208]
	stp	q25, q25, [sp, #240]
	stp	q25, q25, [sp, #272]
	cbz	w8, .Lframes640_BB4_5
	mov	x8, xzr
.Lframes640_BB4_4:
	lsr	x13, x8, #5
	and	x27, x8, #0x3
	ldur	q24, [x10, #116]
	cmp	x27, #1
	ldur	x28, [x10, #132]
	add	x13, x13, x13, lsl #1
	stur	q24, [x29, #-112]
	stur	x28, [x29, #-96]
	cinc	x30, x13, eq
	cmp	x27, #3
	add	x13, x13, #2
	csel	x13, x13, x30, eq
	sub	x27, x29, #112
	ldr	s24, [x27, x13, lsl #2]
	add	x13, sp, #48
	str	s24, [x13, x8, lsl #2]
	add	x8, x8, #1
	cmp	x8, #64
	b.ne	.Lframes640_BB4_4
	b	.Lframes640_BB4_6
.Lframes640_BB4_5:
	stp	q25, q25, [sp, #48]
	stp	q25, q25, [sp, #80]
	stp	q25, q25, [sp, #112]
	stp	q25, q25, [sp, #144]
	stp	q25, q25, [sp, #176]
	stp	q25, q25, [sp, #208]
	stp	q25, q25, [sp, #240]
	stp	q25, q25, [sp, #272]
.Lframes640_BB4_6:
	ldur	q24, [x10, #40]
	ldur	q25, [x10, #56]
	cmp	w16, #2
	stur	x21, [x29, #-8]
	stp	q25, q24, [sp, #16]
	stur	xzr, [x29, #-32]
	b.eq	.Lframes640_BB4_13
	cmp	w16, #1
	b.ne	.Lframes640_BB4_30
	cmp	x7, x3
	csel	x8, x7, x3, lo
	cmp	x8, #768
	b.lo	.Lframes640_BB4_31
	cmp	x11, #1536
	b.lo	.Lframes640_BB4_34
	cmp	x9, #768
	b.lo	.Lframes640_BB4_37
	cmp	x22, #768
	b.lo	.Lframes640_BB4_39
	cmp	x17, #3
	b.hi	.Lframes640_BB4_42
	b	.Lframes640_BB4_40
.Lframes640_BB4_13:
	cmp	x7, x3
	csel	x8, x7, x3, lo
	cmp	x8, #768
	b.lo	.Lframes640_BB4_31
	cmp	x11, #1536
	b.lo	.Lframes640_BB4_34
	cmp	x9, #768
	b.lo	.Lframes640_BB4_37
	cmp	x22, #768
	b.lo	.Lframes640_BB4_39
	cmp	x17, #3
	b.hi	.Lframes640_BB4_42
	sub	w8, w26, w25
	cmp	w8, w8, sxth
	b.ne	.Lframes640_BB4_41
	sxth	w9, w23
	movi	d27, #0000000000000000
	scvtf	s25, w9
	fcmp	s25, s27
	b.eq	.Lframes640_BB4_44
	sxth	w10, w24
	mov	x9, xzr
	mov	w3, #1
	scvtf	s24, w10
	mov	w10, #8
	fcmp	s24, s27
	b.eq	.Lframes640_BB4_35
	fmov	s26, s16
	fcmp	s26, s27
	b.eq	.Lframes640_BB4_35
	scvtf	s26, w8
	fdiv	s25, s26, s25
	fmov	s26, #1.00000000
	fmul	s23, s23, s25
	fadd	s23, s23, s26
	fmov	s26, s23
	fcmp	s26, s27
	b.eq	.Lframes640_BB4_49
	sxth	w8, w20
	scvtf	s26, w8
	sxth	w8, w19
	scvtf	s28, w8
	fmul	s22, s22, s26
	fadd	s22, s28, s22
	fmov	s28, s22
	fcmp	s28, s27
	b.eq	.Lframes640_BB4_49
	fmov	s28, s1
	mov	x9, xzr
	mov	w3, #1
	fcmp	s28, s27
	b.eq	.Lframes640_BB4_35
	fcmp	s28, s28
	b.vs	.Lframes640_BB4_35
	sxth	w8, w21
	cmp	w8, w21, asr #16
	b.ge	.Lframes640_BB4_64
	sbfx	x8, x21, #32, #16
	cmp	w8, w21, asr #16
	b.le	.Lframes640_BB4_65
	asr	x8, x21, #48
	lsr	x9, x21, #32
	cmp	w8, w9, sxth
	b.gt	.Lframes640_BB4_52
	mov	w10, #13
	mov	w3, #1
	mov	w9, #3
	b	.Lframes640_BB4_35
.Lframes640_BB4_30:
	cmp	x3, #768
	b.hs	.Lframes640_BB4_33
.Lframes640_BB4_31:
	mov	x9, xzr
	mov	w10, #2
.Lframes640_BB4_32:
	mov	w3, #1
	b	.Lframes640_BB4_35
.Lframes640_BB4_33:
	cmp	x11, #1536
	b.hs	.Lframes640_BB4_36
.Lframes640_BB4_34:
	mov	w10, #11
	mov	w3, #1
	mov	x9, x11
.Lframes640_BB4_35:
	str	x3, [x0]
	stp	w10, wzr, [x0, #8]
	str	x9, [x0, #16]
	strh	wzr, [x0, #24]
	add	sp, sp, #800
	ldp	x20, x19, [sp, #96]
	ldp	x22, x21, [sp, #80]
	ldp	x24, x23, [sp, #64]
	ldp	x26, x25, [sp, #48]
	ldp	x28, x27, [sp, #32]
	ldp	x29, x30, [sp, #16]
	ldr	d8, [sp], #112
	ret
.Lframes640_BB4_36:
	cmp	x9, #768
	b.hs	.Lframes640_BB4_38
.Lframes640_BB4_37:
	mov	w10, #11
	b	.Lframes640_BB4_32
.Lframes640_BB4_38:
	cmp	x22, #768
	b.hs	.Lframes640_BB4_40
.Lframes640_BB4_39:
	mov	w10, #11
	mov	w3, #1
	mov	x9, x22
	b	.Lframes640_BB4_35
.Lframes640_BB4_40:
	sub	w8, w26, w25
	cmp	w8, w8, sxth
	b.eq	.Lframes640_BB4_43
.Lframes640_BB4_41:
	mov	x9, xzr
	mov	w10, #7
	b	.Lframes640_BB4_32
.Lframes640_BB4_42:
	mov	w10, #6
	mov	w3, #1
	mov	x9, x17
	b	.Lframes640_BB4_35
.Lframes640_BB4_43:
	sxth	w9, w23
	movi	d27, #0000000000000000
	scvtf	s25, w9
	fcmp	s25, s27
	b.ne	.Lframes640_BB4_45
.Lframes640_BB4_44:
	mov	x9, xzr
	mov	w10, #8
	b	.Lframes640_BB4_32
.Lframes640_BB4_45:
	sxth	w10, w24
	mov	x9, xzr
	mov	w3, #1
	scvtf	s24, w10
	mov	w10, #8
	fcmp	s24, s27
	b.eq	.Lframes640_BB4_35
	fmov	s26, s16
	fcmp	s26, s27
	b.eq	.Lframes640_BB4_35
	scvtf	s26, w8
	fdiv	s25, s26, s25
	fmov	s26, #1.00000000
	fmul	s23, s23, s25
	fadd	s23, s23, s26
	fmov	s26, s23
	fcmp	s26, s27
	b.eq	.Lframes640_BB4_49
	sxth	w8, w20
	scvtf	s26, w8
	sxth	w8, w19
	scvtf	s28, w8
	fmul	s22, s22, s26
	fadd	s22, s28, s22
	fmov	s28, s22
	fcmp	s28, s27
	b.ne	.Lframes640_BB4_50
.Lframes640_BB4_49:
	mov	x9, xzr
	b	.Lframes640_BB4_32
.Lframes640_BB4_50:
	fmov	s28, s1
	mov	x9, xzr
	mov	w3, #1
	fcmp	s28, s27
	b.eq	.Lframes640_BB4_35
	fcmp	s28, s28
	b.vs	.Lframes640_BB4_35
.Lframes640_BB4_52:
	fdiv	s22, s26, s22
	mov	w8, #1216348160
	cmp	w15, #1
	fmov	s26, w8
	fmul	s22, s22, s26
	fdiv	s22, s22, s23
	fsub	s17, s22, s17
	fdiv	s22, s17, s16
	fmul	s17, s19, s25
	movi	d19, #0000000000000000
	fadd	s17, s20, s17
	fdiv	s16, s18, s24
	fmov	s18, #25.00000000
	fadd	s8, s22, s18
	movi	d18, #0000000000000000
	b.ne	.Lframes640_BB4_54
	fmov	s18, #-25.00000000
	mov	w8, #13107
	fmul	s0, s0, s16
	movk	w8, #49235, lsl #16
	fmov	s20, w8
	sxth	w8, w2
	fadd	s18, s8, s18
	scvtf	s22, w8
	fadd	s0, s21, s0
	fmul	s7, s7, s18
	fadd	s18, s17, s20
	fmov	s20, #1.00000000
	fmul	s6, s6, s18
	fadd	s7, s7, s20
	fmul	s7, s22, s7
	fadd	s6, s6, s20
	fmul	s6, s6, s7
	fsub	s0, s0, s6
	fdiv	s0, s0, s1
	fmul	s18, s3, s0
.Lframes640_BB4_54:
	movi	d7, #0000000000000000
	movi	d0, #0000000000000000
	mov	x19, x0
	movi	d6, #0000000000000000
	movi	d20, #0000000000000000
	mov	w8, w16
	mov	w9, w16
	cbz	w16, .Lframes640_BB4_63
	mov	w8, #37683
	fmov	s7, s1
	fmov	s6, #1.00000000
	movk	w8, #17288, lsl #16
	cmp	w16, #2
	fmov	s0, w8
	fadd	s0, s8, s0
	fmul	s0, s0, s0
	fmul	s0, s0, s0
	b.ne	.Lframes640_BB4_59
	fcmp	s7, s6
	add	x8, sp, #32
	fmov	s19, #1.00000000
	ldr	s6, [x8, x17, lsl #2]
	b.eq	.Lframes640_BB4_58
	fsub	s7, s8, s4
	mov	w8, #37683
	cmp	w18, #0
	movk	w8, #17288, lsl #16
	fcsel	s4, s4, s7, eq
	fmov	s7, w8
	fadd	s4, s4, s7
	fmul	s4, s4, s4
	fmul	s4, s4, s4
	fsub	s0, s4, s0
	fdiv	s0, s0, s1
	fsub	s0, s4, s0
.Lframes640_BB4_58:
	fmov	s4, #-25.00000000
	mov	w8, #37683
	fmul	s3, s3, s5
	movk	w8, #50056, lsl #16
	movi	d5, #0000000000000000
	cmp	w15, #1
	fmov	s7, w8
	mov	w9, #4
	b	.Lframes640_BB4_62
.Lframes640_BB4_59:
	fcmp	s7, s6
	add	x8, sp, #32
	fmov	s19, #1.00000000
	ldr	s6, [x8, x17, lsl #2]
	b.eq	.Lframes640_BB4_61
	fsub	s7, s8, s4
	mov	w8, #37683
	cmp	w18, #0
	movk	w8, #17288, lsl #16
	fcsel	s4, s4, s7, eq
	fmov	s7, w8
	fadd	s4, s4, s7
	fmul	s4, s4, s4
	fmul	s4, s4, s4
	fsub	s0, s4, s0
	fdiv	s0, s0, s1
	fsub	s0, s4, s0
.Lframes640_BB4_61:
	fmov	s4, #-25.00000000
	mov	w8, #37683
	fmul	s3, s3, s5
	movk	w8, #50056, lsl #16
	movi	d5, #0000000000000000
	cmp	w15, #1
	fmov	s7, w8
	mov	w9, wzr
.Lframes640_BB4_62:
	fadd	s4, s8, s4
	fmul	s2, s2, s4
	fmul	s4, s6, s7
	fadd	s7, s2, s19
	fadd	s20, s4, s19
	fcsel	s19, s3, s5, eq
	mov	w8, w15
.Lframes640_BB4_63:
	stp	w16, w8, [x29, #-60]
	add	x8, sp, #304
	adrp	x10, .Lframes640_CPI4_0
	stur	w9, [x29, #-32]
	mov	w9, #64
	ldr	q2, [x10, :lo12:.Lframes640_CPI4_0]
	stp	x8, x9, [x29, #-144]
	add	x8, sp, #48
	mov	w10, #2
	stp	x4, x5, [x29, #-176]
	sub	x0, x29, #112
	sub	x2, x29, #192
	stp	x8, x9, [x29, #-128]
	ldp	x8, x4, [sp]
	mov	w9, #4
	sub	x3, x29, #256
	stur	wzr, [x29, #-88]
	stur	x10, [x29, #-96]
	stp	x8, x7, [x29, #-256]
	sub	x8, x29, #8
	stp	x8, x9, [x29, #-240]
	add	x8, sp, #32
	stp	x8, x9, [x29, #-224]
	add	x8, sp, #16
	stur	q2, [x29, #-112]
	stp	s16, s17, [x29, #-84]
	stp	s1, s8, [x29, #-76]
	stur	w15, [x29, #-68]
	stur	s18, [x29, #-64]
	stp	s19, s7, [x29, #-52]
	stp	s0, s6, [x29, #-44]
	stur	s20, [x29, #-36]
	stp	x14, x11, [x29, #-192]
	stp	x6, x12, [x29, #-160]
	stp	x8, x9, [x29, #-208]
	bl	loamchalice.frames640.pixels.frame_pixels
	fmov	s0, s8
	fmov	w8, s8
	mov	w10, #2143289344
	mov	x9, x0
	mov	x3, xzr
	mov	x0, x19
	fcmp	s0, s0
	csel	w10, w10, w8, vs
	b	.Lframes640_BB4_35
.Lframes640_BB4_64:
	mov	w10, #13
	mov	w9, #1
	b	.Lframes640_BB4_32
.Lframes640_BB4_65:
	mov	w10, #13
	mov	w3, #1
	mov	w9, #2
	b	.Lframes640_BB4_35
.Lframes640_func_end4:
	.size	loamchalice.frames640.frames640.from_pixels, .Lframes640_func_end4-loamchalice.frames640.frames640.from_pixels

	.section	.text.loamchalice_mlx90640_raw_ir_to_temperatures,"ax",@progbits
	.globl	loamchalice_mlx90640_raw_ir_to_temperatures
	.p2align	2
	.type	loamchalice_mlx90640_raw_ir_to_temperatures,@function
loamchalice_mlx90640_raw_ir_to_temperatures:
	sub	sp, sp, #304
	cmp	x3, #0
	mov	w9, #4096
	ldrb	w10, [x0, #137]
	csel	x14, x9, xzr, eq
	cmp	x5, #0
	add	x13, x0, #40
	csel	x15, x9, xzr, eq
	cmp	x7, #0
	add	x17, x0, #44
	csel	x9, x9, xzr, eq
	cmp	w10, #0
	str	d8, [sp, #256]
	cset	w12, ne
	tst	w2, #0xff
	stp	x29, x30, [sp, #272]
	stp	x28, x19, [sp, #288]
	ldp	s7, s6, [x1, #20]
	csel	x13, x13, x17, eq
	ldr	s1, [x0, #20]
	ldr	s2, [x0, #32]
	ldr	x11, [x1]
	ldr	s4, [x1, #8]
	ldr	q5, [x0, #48]
	ldrb	w16, [x1, #28]
	ldr	s3, [x13]
	add	x29, sp, #272
	cmp	x4, #768
	str	q5, [sp]
	stur	xzr, [x29, #-24]
	b.hs	.Lframes640_BB5_2
	mov	x11, xzr
	mov	x0, xzr
	mov	w9, wzr
	mov	w10, #2
	b	.Lframes640_BB5_6
.Lframes640_BB5_2:
	ldr	x13, [x29, #32]
	cmp	x13, #768
	b.lo	.Lframes640_BB5_5
	cmp	x6, #768
	b.hs	.Lframes640_BB5_7
	mov	x13, x6
.Lframes640_BB5_5:
	mov	x0, xzr
	mov	w9, wzr
	mov	w10, #10
	mov	x11, x13
.Lframes640_BB5_6:
	ldp	x28, x19, [sp, #288]
	ldr	d8, [sp, #256]
	ldp	x29, x30, [sp, #272]
	stp	x10, x11, [x8]
	stp	xzr, x0, [x8, #16]
	stp	w9, wzr, [x8, #32]
	add	sp, sp, #304
	ret
.Lframes640_BB5_7:
	cmp	x11, #3
	b.hi	.Lframes640_BB5_13
	movi	d16, #0000000000000000
	fmov	s5, s4
	fcmp	s5, s16
	b.eq	.Lframes640_BB5_14
	fcmp	s5, s5
	b.vs	.Lframes640_BB5_14
	mov	w13, #37683
	fmov	s18, #1.00000000
	sub	x17, x29, #104
	movk	w13, #17288, lsl #16
	add	x1, x5, x15
	mov	x19, x8
	fmov	s16, w13
	mov	x13, sp
	fcmp	s5, s18
	fmov	s5, #1.00000000
	fadd	s16, s0, s16
	fmul	s16, s16, s16
	fmul	s17, s16, s16
	ldr	s16, [x13, x11, lsl #2]
	add	x11, x3, x14
	b.eq	.Lframes640_BB5_12
	fsub	s7, s0, s7
	mov	w8, #37683
	cmp	w16, #0
	movk	w8, #17288, lsl #16
	fcsel	s6, s7, s6, eq
	fmov	s7, w8
	fadd	s6, s6, s7
	fmul	s6, s6, s6
	fmul	s6, s6, s6
	fsub	s7, s6, s17
	fdiv	s4, s7, s4
	fsub	s17, s6, s4
.Lframes640_BB5_12:
	fmov	s4, #-25.00000000
	mov	w8, #37683
	fmul	s2, s2, s3
	movk	w8, #50056, lsl #16
	movi	d3, #0000000000000000
	cmp	w10, #0
	fmov	s6, w8
	mov	w8, #24
	sub	x10, x29, #108
	fadd	s4, s0, s4
	stur	x8, [x29, #-104]
	mov	w8, #1
	stp	x10, x8, [sp, #96]
	sub	x10, x29, #112
	sub	x0, x29, #104
	fmul	s6, s16, s6
	fcsel	s2, s2, s3, ne
	stur	w8, [x29, #-80]
	stp	w8, w12, [x29, #-52]
	add	x2, sp, #80
	add	x3, sp, #16
	fmul	s1, s4, s1
	stp	x11, x4, [sp, #112]
	fmov	s8, s0
	stp	x11, x4, [sp, #128]
	fadd	s4, s6, s5
	stp	x11, x4, [sp, #144]
	stp	x11, x4, [sp, #16]
	add	x4, x7, x9
	fadd	s1, s1, s5
	stp	x10, x8, [sp, #32]
	mov	w8, #4
	stur	xzr, [x17, #28]
	stur	xzr, [x17, #44]
	stur	xzr, [x17, #36]
	stp	xzr, xzr, [x29, #-96]
	stp	s17, s16, [x29, #-36]
	stur	wzr, [x29, #-108]
	sturh	wzr, [x29, #-112]
	stur	s4, [x29, #-28]
	stp	s2, s1, [x29, #-44]
	stp	x1, x6, [sp, #80]
	stp	x13, x8, [sp, #48]
	stp	x13, x8, [sp, #64]
	bl	loamchalice.frames640.pixels.frame_pixels
	fmov	s0, s8
	fmov	w8, s8
	mov	w9, #2143289344
	mov	x10, xzr
	mov	x11, xzr
	fcmp	s0, s0
	csel	w9, w9, w8, vs
	mov	x8, x19
	b	.Lframes640_BB5_6
.Lframes640_BB5_13:
	mov	x0, xzr
	mov	w9, wzr
	mov	w10, #6
	b	.Lframes640_BB5_6
.Lframes640_BB5_14:
	mov	x11, xzr
	mov	x0, xzr
	mov	w9, wzr
	mov	w10, #8
	b	.Lframes640_BB5_6
.Lframes640_func_end5:
	.size	loamchalice_mlx90640_raw_ir_to_temperatures, .Lframes640_func_end5-loamchalice_mlx90640_raw_ir_to_temperatures

	.section	.text.loamchalice_mlx90640_raw_pixels_to_ir_data,"ax",@progbits
	.globl	loamchalice_mlx90640_raw_pixels_to_ir_data
	.p2align	2
	.type	loamchalice_mlx90640_raw_pixels_to_ir_data,@function
loamchalice_mlx90640_raw_pixels_to_ir_data:
	sub	sp, sp, #336
	stp	x29, x30, [sp, #288]
	add	x29, sp, #288
	cmp	x2, #0
	mov	w16, #4096
	ldr	x12, [x29, #48]
	stp	x20, x19, [sp, #320]
	csel	x11, x16, xzr, eq
	cmp	x4, #0
	mov	x19, x8
	csel	x8, x16, xzr, eq
	cmp	x6, #0
	ldr	x13, [x29, #64]
	movi	d0, #0000000000000000
	csel	x14, x16, xzr, eq
	cmp	x12, #0
	ldrb	w17, [x0, #137]
	ldp	s1, s2, [x0, #32]
	csel	x15, x16, xzr, eq
	cmp	x13, #0
	ldrb	w18, [x1, #28]
	csel	x16, x16, xzr, eq
	cmp	w17, #0
	mov	x10, x5
	fcsel	s0, s1, s0, ne
	ldp	q1, q3, [x0, #48]
	mov	x5, x3
	mov	x9, x2
	add	x17, x1, #20
	add	x2, x1, #24
	cset	w3, ne
	cmp	w18, #0
	str	x28, [sp, #304]
	csel	x17, x17, x2, eq
	ldr	x18, [x0, #112]
	ldr	s4, [x17]
	stur	q1, [sp, #152]
	add	x17, sp, #112
	stur	q3, [sp, #168]
	ldp	q1, q3, [x0, #80]
	stur	x18, [x17, #132]
	ldr	x18, [x0, #120]
	str	s0, [sp, #208]
	ldr	s0, [x1, #16]
	ldrb	w20, [x0, #136]
	stur	q1, [x17, #100]
	ldr	q1, [x0]
	add	x8, x4, x8
	stur	q3, [x17, #116]
	add	x14, x6, x14
	add	x12, x12, x15
	stur	q1, [sp, #120]
	ldp	d3, d1, [x0, #16]
	str	x18, [sp, #144]
	ldp	w18, w2, [x0, #128]
	add	x13, x13, x16
	str	w2, [sp, #112]
	ldr	x2, [x0, #40]
	cset	w0, eq
	stur	d1, [x17, #84]
	ldr	x17, [x1]
	ldr	d1, [x1, #8]
	str	w18, [sp, #192]
	ldrb	w18, [x1, #42]
	add	x4, x9, x11
	str	s0, [sp, #72]
	ldr	d0, [x1, #32]
	mov	x6, x8
	str	x17, [sp, #80]
	ldrsh	w17, [x1, #40]
	cmp	w18, #0
	str	w0, [sp, #88]
	ldrb	w0, [x1, #43]
	cset	w18, ne
	str	d1, [sp, #64]
	movi	v1.2d, #0000000000000000
	add	x1, sp, #112
	str	d0, [sp, #96]
	scvtf	s0, w17
	cmp	w0, #0
	strh	w17, [sp, #104]
	cset	w0, eq
	ldr	x17, [x29, #56]
	strb	w18, [sp, #106]
	ldr	x18, [x29, #72]
	str	x2, [sp, #184]
	add	x2, sp, #64
	str	w3, [sp, #204]
	mov	w3, wzr
	strb	w0, [sp, #107]
	sub	x0, x29, #32
	stp	x14, x7, [sp, #16]
	mov	x7, x10
	strb	w20, [sp, #116]
	strb	wzr, [sp, #119]
	sturh	wzr, [sp, #117]
	str	d3, [sp, #136]
	str	s2, [sp, #252]
	str	wzr, [sp, #76]
	str	s4, [sp, #92]
	str	wzr, [sp, #108]
	stp	q1, q1, [x29, #-32]
	stp	x13, x18, [sp, #48]
	stp	x12, x17, [sp, #32]
	stp	x8, x10, [sp]
	bl	loamchalice.frames640.frames640.from_pixels
	ldurb	w9, [x29, #-32]
	ldur	w11, [x29, #-24]
	ldur	x8, [x29, #-16]
	cbz	w9, .Lframes640_BB6_3
	lsr	x13, x11, #16
	and	x11, x11, #0xff
	adrp	x14, .Lframes640_JTI6_0
	add	x14, x14, :lo12:.Lframes640_JTI6_0
	ldurh	w12, [x29, #-8]
	mov	w10, #1
	adr	x15, .Lframes640_BB6_2
	ldrb	w16, [x14, x11]
	add	x15, x15, x16, lsl #2
	mov	w9, wzr
	br	x15
.Lframes640_BB6_2:
	mov	x8, xzr
	mov	w9, wzr
	mov	w10, #2
	b	.Lframes640_BB6_17
.Lframes640_BB6_3:
	mov	x10, xzr
	mov	x12, xzr
	mov	x9, xzr
	b	.Lframes640_BB6_18
.Lframes640_BB6_4:
	mov	w9, wzr
	mov	w10, #13
	b	.Lframes640_BB6_17
.Lframes640_BB6_5:
	mov	w9, wzr
	mov	w10, #10
	b	.Lframes640_BB6_17
.Lframes640_BB6_6:
	mov	w9, wzr
	mov	w10, #4
	mov	x8, x13
	b	.Lframes640_BB6_17
.Lframes640_BB6_7:
	mov	w9, wzr
	mov	w10, #11
	b	.Lframes640_BB6_17
.Lframes640_BB6_8:
	mov	w9, wzr
	mov	w8, w13
	mov	w10, #9
	b	.Lframes640_BB6_17
.Lframes640_BB6_9:
	mov	w9, wzr
	mov	w10, #14
	b	.Lframes640_BB6_17
.Lframes640_BB6_10:
	mov	w10, #3
	mov	w9, w12
	b	.Lframes640_BB6_17
.Lframes640_BB6_11:
	mov	x8, xzr
	mov	w9, wzr
	mov	w10, #7
	b	.Lframes640_BB6_17
.Lframes640_BB6_12:
	mov	w9, wzr
	mov	w10, #5
	b	.Lframes640_BB6_17
.Lframes640_BB6_13:
	mov	w9, wzr
	mov	w10, #12
	b	.Lframes640_BB6_17
.Lframes640_BB6_14:
	mov	w9, wzr
	mov	w10, #6
	b	.Lframes640_BB6_17
.Lframes640_BB6_15:
	mov	w10, #9
	mov	w9, w12
	b	.Lframes640_BB6_17
.Lframes640_BB6_16:
	mov	x8, xzr
	mov	w9, wzr
	mov	w10, #8
.Lframes640_BB6_17:
	mov	w11, wzr
	mov	w9, w9
	mov	x12, x8
	mov	x8, xzr
.Lframes640_BB6_18:
	stp	x10, x12, [x19]
	ldp	x29, x30, [sp, #288]
	stp	x9, x8, [x19, #16]
	ldr	x28, [sp, #304]
	stp	w11, wzr, [x19, #32]
	ldp	x20, x19, [sp, #320]
	add	sp, sp, #336
	ret
.Lframes640_func_end6:
	.size	loamchalice_mlx90640_raw_pixels_to_ir_data, .Lframes640_func_end6-loamchalice_mlx90640_raw_pixels_to_ir_data
	.section	.rodata.loamchalice_mlx90640_raw_pixels_to_ir_data,"a",@progbits
.Lframes640_JTI6_0:
	.byte	(.Lframes640_BB6_17-.Lframes640_BB6_2)>>2
	.byte	(.Lframes640_BB6_17-.Lframes640_BB6_2)>>2
	.byte	(.Lframes640_BB6_2-.Lframes640_BB6_2)>>2
	.byte	(.Lframes640_BB6_10-.Lframes640_BB6_2)>>2
	.byte	(.Lframes640_BB6_6-.Lframes640_BB6_2)>>2
	.byte	(.Lframes640_BB6_12-.Lframes640_BB6_2)>>2
	.byte	(.Lframes640_BB6_14-.Lframes640_BB6_2)>>2
	.byte	(.Lframes640_BB6_11-.Lframes640_BB6_2)>>2
	.byte	(.Lframes640_BB6_16-.Lframes640_BB6_2)>>2
	.byte	(.Lframes640_BB6_8-.Lframes640_BB6_2)>>2
	.byte	(.Lframes640_BB6_15-.Lframes640_BB6_2)>>2
	.byte	(.Lframes640_BB6_5-.Lframes640_BB6_2)>>2
	.byte	(.Lframes640_BB6_7-.Lframes640_BB6_2)>>2
	.byte	(.Lframes640_BB6_13-.Lframes640_BB6_2)>>2
	.byte	(.Lframes640_BB6_4-.Lframes640_BB6_2)>>2
	.byte	(.Lframes640_BB6_9-.Lframes640_BB6_2)>>2

	.section	.text.loamchalice_mlx90640_raw_pixels_to_ranged_temperatures,"ax",@progbits
	.globl	loamchalice_mlx90640_raw_pixels_to_ranged_temperatures
	.p2align	2
	.type	loamchalice_mlx90640_raw_pixels_to_ranged_temperatures,@function
loamchalice_mlx90640_raw_pixels_to_ranged_temperatures:
	sub	sp, sp, #352
	stp	x29, x30, [sp, #288]
	add	x29, sp, #288
	mov	x11, x2
	cmp	x2, #0
	mov	w2, #4096
	stp	x20, x19, [sp, #336]
	mov	x19, x8
	ldr	x13, [x29, #64]
	csel	x8, x2, xzr, eq
	cmp	x4, #0
	ldr	x14, [x29, #80]
	ldr	x15, [x29, #96]
	csel	x12, x2, xzr, eq
	cmp	x6, #0
	movi	d0, #0000000000000000
	csel	x16, x2, xzr, eq
	cmp	x13, #0
	mov	x9, x5
	mov	x5, x3
	csel	x17, x2, xzr, eq
	cmp	x14, #0
	ldrb	w3, [x0, #137]
	ldp	s1, s2, [x0, #32]
	csel	x18, x2, xzr, eq
	cmp	x15, #0
	mov	x10, x4
	csel	x2, x2, xzr, eq
	ldrb	w4, [x1, #28]
	cmp	w3, #0
	fcsel	s0, s1, s0, ne
	ldp	q1, q3, [x0, #48]
	stp	x22, x21, [sp, #320]
	add	x3, x1, #20
	add	x20, x1, #24
	cset	w21, ne
	cmp	w4, #0
	str	x28, [sp, #304]
	csel	x3, x3, x20, eq
	ldr	x4, [x0, #112]
	ldr	w20, [x0, #132]
	ldr	s4, [x3]
	stur	q1, [sp, #152]
	add	x3, sp, #112
	stur	q3, [sp, #168]
	ldp	q1, q3, [x0, #80]
	ldrb	w22, [x0, #136]
	stur	x4, [x3, #132]
	ldr	x4, [x0, #120]
	str	w20, [sp, #112]
	ldr	x20, [x0, #40]
	add	x16, x6, x16
	stur	q1, [x3, #100]
	ldr	q1, [x0]
	add	x13, x13, x17
	stur	q3, [x3, #116]
	add	x14, x14, x18
	add	x15, x15, x2
	stur	q1, [sp, #120]
	ldp	d3, d1, [x0, #16]
	ldr	w0, [x0, #128]
	str	s0, [sp, #208]
	ldr	s0, [x1, #16]
	str	x4, [sp, #144]
	cset	w4, eq
	add	x2, sp, #64
	str	w0, [sp, #192]
	ldr	x0, [x1]
	add	x6, x10, x12
	stur	d1, [x3, #84]
	ldrb	w3, [x1, #42]
	ldr	d1, [x1, #8]
	str	s0, [sp, #72]
	ldr	d0, [x1, #32]
	str	x0, [sp, #80]
	ldrsh	w0, [x1, #40]
	ldrb	w1, [x1, #43]
	cmp	w3, #0
	str	d1, [sp, #64]
	movi	v1.2d, #0000000000000000
	cset	w3, ne
	cmp	w1, #0
	str	d0, [sp, #96]
	cset	w1, eq
	scvtf	s0, w0
	strh	w0, [sp, #104]
	strb	w3, [sp, #106]
	ldr	x3, [x29, #72]
	ldr	x0, [x29, #88]
	strb	w1, [sp, #107]
	ldr	x1, [x29, #104]
	str	w4, [sp, #88]
	add	x4, x11, x8
	stp	x15, x1, [sp, #48]
	add	x1, sp, #112
	stp	x14, x0, [sp, #32]
	sub	x0, x29, #32
	stp	x13, x3, [sp, #16]
	mov	w3, #2
	stp	x16, x7, [sp]
	mov	x7, x9
	strb	w22, [sp, #116]
	strb	wzr, [sp, #119]
	sturh	wzr, [sp, #117]
	str	d3, [sp, #136]
	str	x20, [sp, #184]
	str	w21, [sp, #204]
	str	s2, [sp, #252]
	str	wzr, [sp, #76]
	str	s4, [sp, #92]
	str	wzr, [sp, #108]
	stp	q1, q1, [x29, #-32]
	bl	loamchalice.frames640.frames640.from_pixels
	ldurb	w9, [x29, #-32]
	ldur	w11, [x29, #-24]
	ldur	x8, [x29, #-16]
	cbz	w9, .Lframes640_BB7_3
	lsr	x13, x11, #16
	and	x11, x11, #0xff
	adrp	x14, .Lframes640_JTI7_0
	add	x14, x14, :lo12:.Lframes640_JTI7_0
	ldurh	w12, [x29, #-8]
	mov	w10, #1
	adr	x15, .Lframes640_BB7_2
	ldrb	w16, [x14, x11]
	add	x15, x15, x16, lsl #2
	mov	w9, wzr
	br	x15
.Lframes640_BB7_2:
	mov	x8, xzr
	mov	w9, wzr
	mov	w10, #2
	b	.Lframes640_BB7_17
.Lframes640_BB7_3:
	mov	x10, xzr
	mov	x12, xzr
	mov	x9, xzr
	b	.Lframes640_BB7_18
.Lframes640_BB7_4:
	mov	w9, wzr
	mov	w10, #13
	b	.Lframes640_BB7_17
.Lframes640_BB7_5:
	mov	w9, wzr
	mov	w10, #10
	b	.Lframes640_BB7_17
.Lframes640_BB7_6:
	mov	w9, wzr
	mov	w10, #4
	mov	x8, x13
	b	.Lframes640_BB7_17
.Lframes640_BB7_7:
	mov	w9, wzr
	mov	w10, #11
	b	.Lframes640_BB7_17
.Lframes640_BB7_8:
	mov	w9, wzr
	mov	w8, w13
	mov	w10, #9
	b	.Lframes640_BB7_17
.Lframes640_BB7_9:
	mov	w9, wzr
	mov	w10, #14
	b	.Lframes640_BB7_17
.Lframes640_BB7_10:
	mov	w10, #3
	mov	w9, w12
	b	.Lframes640_BB7_17
.Lframes640_BB7_11:
	mov	x8, xzr
	mov	w9, wzr
	mov	w10, #7
	b	.Lframes640_BB7_17
.Lframes640_BB7_12:
	mov	w9, wzr
	mov	w10, #5
	b	.Lframes640_BB7_17
.Lframes640_BB7_13:
	mov	w9, wzr
	mov	w10, #12
	b	.Lframes640_BB7_17
.Lframes640_BB7_14:
	mov	w9, wzr
	mov	w10, #6
	b	.Lframes640_BB7_17
.Lframes640_BB7_15:
	mov	w10, #9
	mov	w9, w12
	b	.Lframes640_BB7_17
.Lframes640_BB7_16:
	mov	x8, xzr
	mov	w9, wzr
	mov	w10, #8
.Lframes640_BB7_17:
	mov	w11, wzr
	mov	w9, w9
	mov	x12, x8
	mov	x8, xzr
.Lframes640_BB7_18:
	stp	x10, x12, [x19]
	ldp	x22, x21, [sp, #320]
	stp	x9, x8, [x19, #16]
	ldr	x28, [sp, #304]
	stp	w11, wzr, [x19, #32]
	ldp	x20, x19, [sp, #336]
	ldp	x29, x30, [sp, #288]
	add	sp, sp, #352
	ret
.Lframes640_func_end7:
	.size	loamchalice_mlx90640_raw_pixels_to_ranged_temperatures, .Lframes640_func_end7-loamchalice_mlx90640_raw_pixels_to_ranged_temperatures
	.section	.rodata.loamchalice_mlx90640_raw_pixels_to_ranged_temperatures,"a",@progbits
.Lframes640_JTI7_0:
	.byte	(.Lframes640_BB7_17-.Lframes640_BB7_2)>>2
	.byte	(.Lframes640_BB7_17-.Lframes640_BB7_2)>>2
	.byte	(.Lframes640_BB7_2-.Lframes640_BB7_2)>>2
	.byte	(.Lframes640_BB7_10-.Lframes640_BB7_2)>>2
	.byte	(.Lframes640_BB7_6-.Lframes640_BB7_2)>>2
	.byte	(.Lframes640_BB7_12-.Lframes640_BB7_2)>>2
	.byte	(.Lframes640_BB7_14-.Lframes640_BB7_2)>>2
	.byte	(.Lframes640_BB7_11-.Lframes640_BB7_2)>>2
	.byte	(.Lframes640_BB7_16-.Lframes640_BB7_2)>>2
	.byte	(.Lframes640_BB7_8-.Lframes640_BB7_2)>>2
	.byte	(.Lframes640_BB7_15-.Lframes640_BB7_2)>>2
	.byte	(.Lframes640_BB7_5-.Lframes640_BB7_2)>>2
	.byte	(.Lframes640_BB7_7-.Lframes640_BB7_2)>>2
	.byte	(.Lframes640_BB7_13-.Lframes640_BB7_2)>>2
	.byte	(.Lframes640_BB7_4-.Lframes640_BB7_2)>>2
	.byte	(.Lframes640_BB7_9-.Lframes640_BB7_2)>>2

	.section	.text.loamchalice_mlx90640_raw_pixels_to_temperatures,"ax",@progbits
	.globl	loamchalice_mlx90640_raw_pixels_to_temperatures
	.p2align	2
	.type	loamchalice_mlx90640_raw_pixels_to_temperatures,@function
loamchalice_mlx90640_raw_pixels_to_temperatures:
	sub	sp, sp, #352
	stp	x29, x30, [sp, #288]
	add	x29, sp, #288
	mov	x11, x2
	cmp	x2, #0
	mov	w2, #4096
	stp	x20, x19, [sp, #336]
	mov	x19, x8
	ldr	x13, [x29, #64]
	csel	x8, x2, xzr, eq
	cmp	x4, #0
	ldr	x14, [x29, #80]
	ldr	x15, [x29, #96]
	csel	x12, x2, xzr, eq
	cmp	x6, #0
	movi	d0, #0000000000000000
	csel	x16, x2, xzr, eq
	cmp	x13, #0
	mov	x9, x5
	mov	x5, x3
	csel	x17, x2, xzr, eq
	cmp	x14, #0
	ldrb	w3, [x0, #137]
	ldp	s1, s2, [x0, #32]
	csel	x18, x2, xzr, eq
	cmp	x15, #0
	mov	x10, x4
	csel	x2, x2, xzr, eq
	ldrb	w4, [x1, #28]
	cmp	w3, #0
	fcsel	s0, s1, s0, ne
	ldp	q1, q3, [x0, #48]
	stp	x22, x21, [sp, #320]
	add	x3, x1, #20
	add	x20, x1, #24
	cset	w21, ne
	cmp	w4, #0
	str	x28, [sp, #304]
	csel	x3, x3, x20, eq
	ldr	x4, [x0, #112]
	ldr	w20, [x0, #132]
	ldr	s4, [x3]
	stur	q1, [sp, #152]
	add	x3, sp, #112
	stur	q3, [sp, #168]
	ldp	q1, q3, [x0, #80]
	ldrb	w22, [x0, #136]
	stur	x4, [x3, #132]
	ldr	x4, [x0, #120]
	str	w20, [sp, #112]
	ldr	x20, [x0, #40]
	add	x16, x6, x16
	stur	q1, [x3, #100]
	ldr	q1, [x0]
	add	x13, x13, x17
	stur	q3, [x3, #116]
	add	x14, x14, x18
	add	x15, x15, x2
	stur	q1, [sp, #120]
	ldp	d3, d1, [x0, #16]
	ldr	w0, [x0, #128]
	str	s0, [sp, #208]
	ldr	s0, [x1, #16]
	str	x4, [sp, #144]
	cset	w4, eq
	add	x2, sp, #64
	str	w0, [sp, #192]
	ldr	x0, [x1]
	add	x6, x10, x12
	stur	d1, [x3, #84]
	ldrb	w3, [x1, #42]
	ldr	d1, [x1, #8]
	str	s0, [sp, #72]
	ldr	d0, [x1, #32]
	str	x0, [sp, #80]
	ldrsh	w0, [x1, #40]
	ldrb	w1, [x1, #43]
	cmp	w3, #0
	str	d1, [sp, #64]
	movi	v1.2d, #0000000000000000
	cset	w3, ne
	cmp	w1, #0
	str	d0, [sp, #96]
	cset	w1, eq
	scvtf	s0, w0
	strh	w0, [sp, #104]
	strb	w3, [sp, #106]
	ldr	x3, [x29, #72]
	ldr	x0, [x29, #88]
	strb	w1, [sp, #107]
	ldr	x1, [x29, #104]
	str	w4, [sp, #88]
	add	x4, x11, x8
	stp	x15, x1, [sp, #48]
	add	x1, sp, #112
	stp	x14, x0, [sp, #32]
	sub	x0, x29, #32
	stp	x13, x3, [sp, #16]
	mov	w3, #1
	stp	x16, x7, [sp]
	mov	x7, x9
	strb	w22, [sp, #116]
	strb	wzr, [sp, #119]
	sturh	wzr, [sp, #117]
	str	d3, [sp, #136]
	str	x20, [sp, #184]
	str	w21, [sp, #204]
	str	s2, [sp, #252]
	str	wzr, [sp, #76]
	str	s4, [sp, #92]
	str	wzr, [sp, #108]
	stp	q1, q1, [x29, #-32]
	bl	loamchalice.frames640.frames640.from_pixels
	ldurb	w9, [x29, #-32]
	ldur	w11, [x29, #-24]
	ldur	x8, [x29, #-16]
	cbz	w9, .Lframes640_BB8_3
	lsr	x13, x11, #16
	and	x11, x11, #0xff
	adrp	x14, .Lframes640_JTI8_0
	add	x14, x14, :lo12:.Lframes640_JTI8_0
	ldurh	w12, [x29, #-8]
	mov	w10, #1
	adr	x15, .Lframes640_BB8_2
	ldrb	w16, [x14, x11]
	add	x15, x15, x16, lsl #2
	mov	w9, wzr
	br	x15
.Lframes640_BB8_2:
	mov	x8, xzr
	mov	w9, wzr
	mov	w10, #2
	b	.Lframes640_BB8_17
.Lframes640_BB8_3:
	mov	x10, xzr
	mov	x12, xzr
	mov	x9, xzr
	b	.Lframes640_BB8_18
.Lframes640_BB8_4:
	mov	w9, wzr
	mov	w10, #13
	b	.Lframes640_BB8_17
.Lframes640_BB8_5:
	mov	w9, wzr
	mov	w10, #10
	b	.Lframes640_BB8_17
.Lframes640_BB8_6:
	mov	w9, wzr
	mov	w10, #4
	mov	x8, x13
	b	.Lframes640_BB8_17
.Lframes640_BB8_7:
	mov	w9, wzr
	mov	w10, #11
	b	.Lframes640_BB8_17
.Lframes640_BB8_8:
	mov	w9, wzr
	mov	w8, w13
	mov	w10, #9
	b	.Lframes640_BB8_17
.Lframes640_BB8_9:
	mov	w9, wzr
	mov	w10, #14
	b	.Lframes640_BB8_17
.Lframes640_BB8_10:
	mov	w10, #3
	mov	w9, w12
	b	.Lframes640_BB8_17
.Lframes640_BB8_11:
	mov	x8, xzr
	mov	w9, wzr
	mov	w10, #7
	b	.Lframes640_BB8_17
.Lframes640_BB8_12:
	mov	w9, wzr
	mov	w10, #5
	b	.Lframes640_BB8_17
.Lframes640_BB8_13:
	mov	w9, wzr
	mov	w10, #12
	b	.Lframes640_BB8_17
.Lframes640_BB8_14:
	mov	w9, wzr
	mov	w10, #6
	b	.Lframes640_BB8_17
.Lframes640_BB8_15:
	mov	w10, #9
	mov	w9, w12
	b	.Lframes640_BB8_17
.Lframes640_BB8_16:
	mov	x8, xzr
	mov	w9, wzr
	mov	w10, #8
.Lframes640_BB8_17:
	mov	w11, wzr
	mov	w9, w9
	mov	x12, x8
	mov	x8, xzr
.Lframes640_BB8_18:
	stp	x10, x12, [x19]
	ldp	x22, x21, [sp, #320]
	stp	x9, x8, [x19, #16]
	ldr	x28, [sp, #304]
	stp	w11, wzr, [x19, #32]
	ldp	x20, x19, [sp, #336]
	ldp	x29, x30, [sp, #288]
	add	sp, sp, #352
	ret
.Lframes640_func_end8:
	.size	loamchalice_mlx90640_raw_pixels_to_temperatures, .Lframes640_func_end8-loamchalice_mlx90640_raw_pixels_to_temperatures
	.section	.rodata.loamchalice_mlx90640_raw_pixels_to_temperatures,"a",@progbits
.Lframes640_JTI8_0:
	.byte	(.Lframes640_BB8_17-.Lframes640_BB8_2)>>2
	.byte	(.Lframes640_BB8_17-.Lframes640_BB8_2)>>2
	.byte	(.Lframes640_BB8_2-.Lframes640_BB8_2)>>2
	.byte	(.Lframes640_BB8_10-.Lframes640_BB8_2)>>2
	.byte	(.Lframes640_BB8_6-.Lframes640_BB8_2)>>2
	.byte	(.Lframes640_BB8_12-.Lframes640_BB8_2)>>2
	.byte	(.Lframes640_BB8_14-.Lframes640_BB8_2)>>2
	.byte	(.Lframes640_BB8_11-.Lframes640_BB8_2)>>2
	.byte	(.Lframes640_BB8_16-.Lframes640_BB8_2)>>2
	.byte	(.Lframes640_BB8_8-.Lframes640_BB8_2)>>2
	.byte	(.Lframes640_BB8_15-.Lframes640_BB8_2)>>2
	.byte	(.Lframes640_BB8_5-.Lframes640_BB8_2)>>2
	.byte	(.Lframes640_BB8_7-.Lframes640_BB8_2)>>2
	.byte	(.Lframes640_BB8_13-.Lframes640_BB8_2)>>2
	.byte	(.Lframes640_BB8_4-.Lframes640_BB8_2)>>2
	.byte	(.Lframes640_BB8_9-.Lframes640_BB8_2)>>2

	.section	.rodata.cst16,"aM",@progbits,16
	.p2align	4, 0x0
.Lframes640_CPI9_0:
	.xword	14
	.xword	15
.Lframes640_CPI9_1:
	.xword	12
	.xword	13
.Lframes640_CPI9_2:
	.xword	10
	.xword	11
.Lframes640_CPI9_3:
	.xword	8
	.xword	9
.Lframes640_CPI9_4:
	.xword	6
	.xword	7
.Lframes640_CPI9_5:
	.xword	4
	.xword	5
.Lframes640_CPI9_6:
	.xword	2
	.xword	3
.Lframes640_CPI9_7:
	.xword	0
	.xword	1
	.section	.text.loamchalice_mlx90640_subpage_mask,"ax",@progbits
	.globl	loamchalice_mlx90640_subpage_mask
	.p2align	2
	.type	loamchalice_mlx90640_subpage_mask,@function
loamchalice_mlx90640_subpage_mask:
	cmp	x2, #0
	mov	w9, #4096
	csel	x9, x9, xzr, eq
	cmp	x3, #768
	b.hs	.Lframes640_BB9_2
	mov	w9, #2
	stp	xzr, xzr, [x8, #8]
	str	x9, [x8]
	ret
.Lframes640_BB9_2:
	tst	w0, #0xff
	add	x9, x2, x9
	cset	w10, ne
	dup	v0.16b, w10
	and	w10, w1, #0xff
	cbz	w10, .Lframes640_BB9_5
	adrp	x10, .Lframes640_CPI9_0
	adrp	x11, .Lframes640_CPI9_1
	adrp	x12, .Lframes640_CPI9_2
	ldr	q1, [x10, :lo12:.Lframes640_CPI9_0]
	ldr	q2, [x11, :lo12:.Lframes640_CPI9_1]
	adrp	x10, .Lframes640_CPI9_3
	adrp	x11, .Lframes640_CPI9_4
	ldr	q3, [x12, :lo12:.Lframes640_CPI9_2]
	ldr	q4, [x10, :lo12:.Lframes640_CPI9_3]
	ldr	q5, [x11, :lo12:.Lframes640_CPI9_4]
	adrp	x10, .Lframes640_CPI9_5
	adrp	x11, .Lframes640_CPI9_6
	adrp	x12, .Lframes640_CPI9_7
	mvn	v0.16b, v0.16b
	ldr	q6, [x10, :lo12:.Lframes640_CPI9_5]
	ldr	q7, [x11, :lo12:.Lframes640_CPI9_6]
	ldr	q16, [x12, :lo12:.Lframes640_CPI9_7]
	mov	x10, xzr
.Lframes640_BB9_4:
	mov	v17.16b, v2.16b
	mov	v18.16b, v1.16b
	mov	w11, #16
	mov	v19.16b, v4.16b
	mov	v20.16b, v3.16b
	mov	v21.16b, v6.16b
	mov	v22.16b, v16.16b
	mov	v23.16b, v7.16b
	mov	v24.16b, v5.16b
	usra	v17.2d, v2.2d, #5
	usra	v18.2d, v1.2d, #5
	usra	v19.2d, v4.2d, #5
	usra	v20.2d, v3.2d, #5
	usra	v21.2d, v6.2d, #5
	usra	v22.2d, v16.2d, #5
	usra	v23.2d, v7.2d, #5
	usra	v24.2d, v5.2d, #5
	uzp1	v17.4s, v17.4s, v18.4s
	uzp1	v19.4s, v19.4s, v20.4s
	uzp1	v22.4s, v22.4s, v23.4s
	uzp1	v21.4s, v21.4s, v24.4s
	uzp1	v17.8h, v19.8h, v17.8h
	dup	v19.2d, x11
	uzp1	v18.8h, v22.8h, v21.8h
	add	v6.2d, v6.2d, v19.2d
	add	v7.2d, v7.2d, v19.2d
	add	v16.2d, v16.2d, v19.2d
	add	v5.2d, v5.2d, v19.2d
	add	v4.2d, v4.2d, v19.2d
	add	v3.2d, v3.2d, v19.2d
	uzp1	v17.16b, v18.16b, v17.16b
	movi	v18.16b, #1
	add	v2.2d, v2.2d, v19.2d
	add	v1.2d, v1.2d, v19.2d
	eor	v17.16b, v17.16b, v0.16b
	and	v17.16b, v17.16b, v18.16b
	str	q17, [x9, x10]
	add	x10, x10, #16
	cmp	x10, #768
	b.ne	.Lframes640_BB9_4
	b	.Lframes640_BB9_7
.Lframes640_BB9_5:
	adrp	x10, .Lframes640_CPI9_0
	adrp	x11, .Lframes640_CPI9_1
	adrp	x12, .Lframes640_CPI9_2
	ldr	q1, [x10, :lo12:.Lframes640_CPI9_0]
	adrp	x10, .Lframes640_CPI9_3
	ldr	q2, [x11, :lo12:.Lframes640_CPI9_1]
	adrp	x11, .Lframes640_CPI9_4
	ldr	q3, [x12, :lo12:.Lframes640_CPI9_2]
	ldr	q4, [x10, :lo12:.Lframes640_CPI9_3]
	ldr	q5, [x11, :lo12:.Lframes640_CPI9_4]
	adrp	x10, .Lframes640_CPI9_5
	adrp	x11, .Lframes640_CPI9_6
	adrp	x12, .Lframes640_CPI9_7
	ldr	q6, [x10, :lo12:.Lframes640_CPI9_5]
	ldr	q7, [x11, :lo12:.Lframes640_CPI9_6]
	ldr	q16, [x12, :lo12:.Lframes640_CPI9_7]
	mov	x10, xzr
.Lframes640_BB9_6:
	mov	w11, #32
	dup	v17.2d, x11
	mov	w11, #16
	and	v18.16b, v16.16b, v17.16b
	and	v19.16b, v7.16b, v17.16b
	and	v20.16b, v4.16b, v17.16b
	and	v21.16b, v5.16b, v17.16b
	and	v22.16b, v6.16b, v17.16b
	and	v23.16b, v1.16b, v17.16b
	and	v24.16b, v2.16b, v17.16b
	and	v17.16b, v3.16b, v17.16b
	cmeq	v19.2d, v19.2d, #0
	cmeq	v18.2d, v18.2d, #0
	cmeq	v20.2d, v20.2d, #0
	cmeq	v22.2d, v22.2d, #0
	cmeq	v21.2d, v21.2d, #0
	cmeq	v23.2d, v23.2d, #0
	cmeq	v17.2d, v17.2d, #0
	cmeq	v24.2d, v24.2d, #0
	uzp1	v18.4s, v18.4s, v19.4s
	uzp1	v19.4s, v22.4s, v21.4s
	uzp1	v17.4s, v20.4s, v17.4s
	uzp1	v20.4s, v24.4s, v23.4s
	uzp1	v18.8h, v18.8h, v19.8h
	dup	v19.2d, x11
	uzp1	v17.8h, v17.8h, v20.8h
	add	v6.2d, v6.2d, v19.2d
	add	v7.2d, v7.2d, v19.2d
	add	v16.2d, v16.2d, v19.2d
	add	v5.2d, v5.2d, v19.2d
	add	v4.2d, v4.2d, v19.2d
	add	v3.2d, v3.2d, v19.2d
	uzp1	v17.16b, v18.16b, v17.16b
	movi	v18.16b, #1
	add	v2.2d, v2.2d, v19.2d
	add	v1.2d, v1.2d, v19.2d
	eor	v17.16b, v0.16b, v17.16b
	and	v17.16b, v17.16b, v18.16b
	str	q17, [x9, x10]
	add	x10, x10, #16
	cmp	x10, #768
	b.ne	.Lframes640_BB9_6
.Lframes640_BB9_7:
	stp	xzr, xzr, [x8, #8]
	str	xzr, [x8]
	ret
.Lframes640_func_end9:
	.size	loamchalice_mlx90640_subpage_mask, .Lframes640_func_end9-loamchalice_mlx90640_subpage_mask

	.type	.Lframes640_switch.table.roots.fourth_roots,@object
	.section	.rodata.cst32,"aM",@progbits,32
	.p2align	3, 0x0
.Lframes640_switch.table.roots.fourth_roots:
	.xword	0x4160000000000000
	.xword	0x4166a09e667f3bcd
	.xword	0x4160000000000000
	.xword	0x4166a09e667f3bcd
	.size	.Lframes640_switch.table.roots.fourth_roots, 32

	.type	.Lframes640_switch.table.roots.fourth_roots.9,@object
	.p2align	3, 0x0
.Lframes640_switch.table.roots.fourth_roots.9:
	.xword	0x3fe0000000000000
	.xword	0x3fdae89f995ad3ad
	.xword	0x3fe6a09e667f3bcd
	.xword	0x3fe306fe0a31b715
	.size	.Lframes640_switch.table.roots.fourth_roots.9, 32

// filter640
	.section	.text.filter640.frames640.from_pixels,"ax",@progbits
	.p2align	2
	.type	loamchalice.filter640.frames640.from_pixels,@function
loamchalice.filter640.frames640.from_pixels:
	stp	d15, d14, [sp, #-160]!
	stp	d13, d12, [sp, #16]
	stp	d11, d10, [sp, #32]
	stp	d9, d8, [sp, #48]
	stp	x29, x30, [sp, #64]
	add	x29, sp, #64
	stp	x28, x27, [sp, #80]
	stp	x26, x25, [sp, #96]
	stp	x24, x23, [sp, #112]
	stp	x22, x21, [sp, #128]
	stp	x20, x19, [sp, #144]
	sub	sp, sp, #1552
	ldp	x8, x15, [x29, #144]
	movi	v24.2d, #0000000000000000
	str	xzr, [sp]
	ldp	x9, x26, [x29, #96]
	ldur	q1, [x1, #100]
	add	x22, sp, #480
	mov	x11, xzr
	str	x8, [sp, #160]
	ldp	x8, x18, [x29, #128]
	stur	q1, [x29, #-208]
	ldrh	w12, [x1]
	ldrsh	w19, [x1, #2]
	str	x9, [sp, #168]
	ldr	x16, [x1, #32]
	ldrh	w27, [x1, #80]
	str	x8, [sp, #152]
	ldrh	w28, [x1, #82]
	ldrb	w23, [x1, #92]
	ldr	s2, [x1, #96]
	ldr	s23, [x1, #140]
	ldr	s18, [x2, #8]
	ldr	x9, [x2, #16]
	ldrb	w10, [x2, #24]
	ldr	s3, [x2, #28]
	ldrh	w13, [x2, #32]
	ldrh	w14, [x2, #34]
	ldrsh	w25, [x2, #36]
	ldrh	w17, [x2, #38]
	ldrb	w20, [x2, #42]
	ldrb	w30, [x2, #43]
	str	xzr, [sp, #216]
	ldp	x8, x24, [x29, #112]
	stp	q24, q24, [sp, #480]
	ldp	s22, s7, [x1, #8]
	stp	q24, q24, [sp, #512]
	ldp	s16, s21, [x1, #16]
	stp	q24, q24, [sp, #544]
	ldp	s17, s1, [x1, #24]
	stp	q24, q24, [sp, #576]
	ldp	s4, s20, [x1, #72]
	stp	q24, q24, [sp, #608]
	ldp	s5, s6, [x1, #84]
	stp	q24, q24, [sp, #640]
	ldp	s8, s19, [x2]
	orr	x2, x22, #0x4
	stp	q24, q24, [sp, #672]
	stp	q24, q24, [sp, #704]
.Lfilter640_BB0_1:
	lsr	x22, x11, #5
	sub	x21, x29, #208
	add	x11, x11, #2
	cmp	x11, #64
	add	x21, x21, x22, lsl #2
	ldr	s24, [x21]
	ldr	s25, [x21, #8]
	stp	s24, s25, [x2, #-4]
	add	x2, x2, #8
	b.ne	.Lfilter640_BB0_1
	movi	d25, #0000000000000000
	cmp	w20, #0
	movi	v24.2d, #0000000000000000
	fcsel	s4, s4, s20, eq
	csel	w11, w27, w28, eq
	cmp	w30, #0
	ccmp	w20, #0, #4, ne
	fcsel	s20, s25, s23, eq
	cmp	x5, x26
	stp	q24, q24, [sp, #224]
	csel	x2, x5, x26, lo
	stp	q24, q24, [sp, #256]
	stp	q24, q24, [sp, #288]
	stp	q24, q24, [sp, #320]
	stp	q24, q24, [sp, #352]
	stp	q24, q24, [sp, #384]
	stp	q24, q24, [sp, #416]
	stp	q24, q24, [sp, #448]
	cbz	w30, .Lfilter640_BB0_5
	mov	x5, xzr
.Lfilter640_BB0_4:
	lsr	x20, x5, #5
	and	x21, x5, #0x3
	ldur	q23, [x1, #116]
	cmp	x21, #1
	ldur	x22, [x1, #132]
	add	x20, x20, x20, lsl #1
	stur	q23, [x29, #-208]
	stur	x22, [x29, #-192]
	cinc	x26, x20, eq
	cmp	x21, #3
	add	x20, x20, #2
	csel	x20, x20, x26, eq
	sub	x21, x29, #208
	ldr	s23, [x21, x20, lsl #2]
	add	x20, sp, #224
	str	s23, [x20, x5, lsl #2]
	add	x5, x5, #1
	cmp	x5, #64
	b.ne	.Lfilter640_BB0_4
	b	.Lfilter640_BB0_6
.Lfilter640_BB0_5:
	stp	q24, q24, [sp, #224]
	stp	q24, q24, [sp, #256]
	stp	q24, q24, [sp, #288]
	stp	q24, q24, [sp, #320]
	stp	q24, q24, [sp, #352]
	stp	q24, q24, [sp, #384]
	stp	q24, q24, [sp, #416]
	stp	q24, q24, [sp, #448]
.Lfilter640_BB0_6:
	ldur	q23, [x1, #40]
	ldur	q24, [x1, #56]
	and	w1, w3, #0xff
	cmp	w1, #2
	str	x16, [sp, #216]
	stp	q24, q23, [sp, #176]
	b.eq	.Lfilter640_BB0_13
	cmp	w1, #1
	b.ne	.Lfilter640_BB0_30
	cmp	x7, x2
	csel	x16, x7, x2, lo
	cmp	x16, #768
	b.lo	.Lfilter640_BB0_31
	cmp	x24, #1536
	b.lo	.Lfilter640_BB0_33
	cmp	x15, #768
	b.lo	.Lfilter640_BB0_37
	cmp	x18, #768
	b.lo	.Lfilter640_BB0_39
	cmp	x9, #3
	b.hi	.Lfilter640_BB0_42
	b	.Lfilter640_BB0_40
.Lfilter640_BB0_13:
	cmp	x7, x2
	csel	x1, x7, x2, lo
	cmp	x1, #768
	b.lo	.Lfilter640_BB0_31
	cmp	x24, #1536
	b.lo	.Lfilter640_BB0_33
	cmp	x15, #768
	b.lo	.Lfilter640_BB0_37
	cmp	x18, #768
	b.lo	.Lfilter640_BB0_39
	cmp	x9, #3
	b.hi	.Lfilter640_BB0_42
	sub	w15, w25, w19
	cmp	w15, w15, sxth
	b.ne	.Lfilter640_BB0_41
	sxth	w12, w12
	movi	d26, #0000000000000000
	scvtf	s24, w12
	fcmp	s24, s26
	b.eq	.Lfilter640_BB0_44
	sxth	w12, w17
	mov	x24, xzr
	mov	w17, #1
	scvtf	s23, w12
	mov	w12, #8
	fcmp	s23, s26
	b.eq	.Lfilter640_BB0_35
	fmov	s25, s7
	fcmp	s25, s26
	b.eq	.Lfilter640_BB0_35
	scvtf	s25, w15
	fdiv	s24, s25, s24
	fmov	s25, #1.00000000
	fmul	s22, s22, s24
	fadd	s22, s22, s25
	fmov	s25, s22
	fcmp	s25, s26
	b.eq	.Lfilter640_BB0_48
	sxth	w12, w14
	scvtf	s25, w12
	sxth	w12, w13
	scvtf	s27, w12
	fmul	s21, s21, s25
	fadd	s21, s27, s21
	fmov	s27, s21
	fcmp	s27, s26
	b.eq	.Lfilter640_BB0_44
	fmov	s27, s8
	mov	x24, xzr
	mov	w12, #8
	mov	w17, #1
	fcmp	s27, s26
	b.eq	.Lfilter640_BB0_35
	fcmp	s27, s27
	b.vs	.Lfilter640_BB0_35
	sxth	w12, w16
	cmp	w12, w16, asr #16
	b.ge	.Lfilter640_BB0_92
	sbfx	x12, x16, #32, #16
	cmp	w12, w16, asr #16
	b.le	.Lfilter640_BB0_93
	asr	x12, x16, #48
	lsr	x13, x16, #32
	cmp	w12, w13, sxth
	b.gt	.Lfilter640_BB0_52
	mov	w12, #13
	mov	w17, #1
	mov	w24, #3
	b	.Lfilter640_BB0_35
.Lfilter640_BB0_30:
	cmp	x2, #768
	b.hs	.Lfilter640_BB0_32
.Lfilter640_BB0_31:
	mov	x24, xzr
	mov	w12, #2
	b	.Lfilter640_BB0_34
.Lfilter640_BB0_32:
	cmp	x24, #1536
	b.hs	.Lfilter640_BB0_36
.Lfilter640_BB0_33:
	mov	w12, #11
.Lfilter640_BB0_34:
	mov	w17, #1
.Lfilter640_BB0_35:
	str	x17, [x0]
	stp	w12, wzr, [x0, #8]
	str	x24, [x0, #16]
	strh	wzr, [x0, #24]
	add	sp, sp, #1552
	ldp	x20, x19, [sp, #144]
	ldp	x22, x21, [sp, #128]
	ldp	x24, x23, [sp, #112]
	ldp	x26, x25, [sp, #96]
	ldp	x28, x27, [sp, #80]
	ldp	x29, x30, [sp, #64]
	ldp	d9, d8, [sp, #48]
	ldp	d11, d10, [sp, #32]
	ldp	d13, d12, [sp, #16]
	ldp	d15, d14, [sp], #160
	ret
.Lfilter640_BB0_36:
	cmp	x15, #768
	b.hs	.Lfilter640_BB0_38
.Lfilter640_BB0_37:
	mov	w12, #11
	mov	w17, #1
	mov	x24, x15
	b	.Lfilter640_BB0_35
.Lfilter640_BB0_38:
	cmp	x18, #768
	b.hs	.Lfilter640_BB0_40
.Lfilter640_BB0_39:
	mov	w12, #11
	mov	w17, #1
	mov	x24, x18
	b	.Lfilter640_BB0_35
.Lfilter640_BB0_40:
	sub	w15, w25, w19
	cmp	w15, w15, sxth
	b.eq	.Lfilter640_BB0_43
.Lfilter640_BB0_41:
	mov	x24, xzr
	mov	w12, #7
	b	.Lfilter640_BB0_34
.Lfilter640_BB0_42:
	mov	w12, #6
	mov	w17, #1
	mov	x24, x9
	b	.Lfilter640_BB0_35
.Lfilter640_BB0_43:
	sxth	w12, w12
	movi	d26, #0000000000000000
	scvtf	s24, w12
	fcmp	s24, s26
	b.ne	.Lfilter640_BB0_45
.Lfilter640_BB0_44:
	mov	x24, xzr
	mov	w12, #8
	b	.Lfilter640_BB0_34
.Lfilter640_BB0_45:
	sxth	w12, w17
	mov	x24, xzr
	mov	w17, #1
	scvtf	s23, w12
	mov	w12, #8
	fcmp	s23, s26
	b.eq	.Lfilter640_BB0_35
	fmov	s25, s7
	fcmp	s25, s26
	b.eq	.Lfilter640_BB0_35
	scvtf	s25, w15
	fdiv	s24, s25, s24
	fmov	s25, #1.00000000
	fmul	s22, s22, s24
	fadd	s22, s22, s25
	fmov	s25, s22
	fcmp	s25, s26
	b.ne	.Lfilter640_BB0_49
.Lfilter640_BB0_48:
	mov	x24, xzr
	b	.Lfilter640_BB0_34
.Lfilter640_BB0_49:
	sxth	w12, w14
	scvtf	s25, w12
	sxth	w12, w13
	scvtf	s27, w12
	fmul	s21, s21, s25
	fadd	s21, s27, s21
	fmov	s27, s21
	fcmp	s27, s26
	b.eq	.Lfilter640_BB0_44
	fmov	s27, s8
	mov	x24, xzr
	mov	w12, #8
	mov	w17, #1
	fcmp	s27, s26
	b.eq	.Lfilter640_BB0_35
	fcmp	s27, s27
	b.vs	.Lfilter640_BB0_35
.Lfilter640_BB0_52:
	fdiv	s21, s25, s21
	mov	w12, #1216348160
	movi	d11, #0000000000000000
	fmov	s25, w12
	cmp	w23, #1
	fdiv	s10, s17, s23
	fmov	s17, #25.00000000
	fmul	s21, s21, s25
	fdiv	s21, s21, s22
	fsub	s16, s21, s16
	fdiv	s16, s16, s7
	fmul	s7, s19, s24
	fadd	s7, s18, s7
	fadd	s14, s16, s17
	b.ne	.Lfilter640_BB0_54
	fmov	s16, #-25.00000000
	mov	w12, #13107
	sxth	w11, w11
	movk	w12, #49235, lsl #16
	fmul	s0, s0, s10
	fmov	s17, w12
	scvtf	s18, w11
	fadd	s16, s14, s16
	fadd	s0, s20, s0
	fmul	s6, s6, s16
	fadd	s16, s7, s17
	fmov	s17, #1.00000000
	fmul	s5, s5, s16
	fadd	s6, s6, s17
	fmul	s6, s18, s6
	fadd	s5, s5, s17
	fmul	s5, s5, s6
	fsub	s0, s0, s5
	fdiv	s0, s0, s8
	fmul	s11, s2, s0
.Lfilter640_BB0_54:
	and	w11, w3, #0xff
	cmp	w11, #2
	b.eq	.Lfilter640_BB0_59
	cmp	w11, #1
	b.ne	.Lfilter640_BB0_63
	mov	w11, #37683
	fmov	s5, #1.00000000
	fmov	s6, s8
	movk	w11, #17288, lsl #16
	fmov	s16, s14
	fmov	s0, w11
	add	x11, sp, #192
	fcmp	s6, s5
	fmov	s5, #1.00000000
	fadd	s0, s14, s0
	fmul	s0, s0, s0
	fmul	s12, s0, s0
	ldr	s0, [x11, x9, lsl #2]
	b.eq	.Lfilter640_BB0_58
	fsub	s6, s16, s3
	mov	w9, #37683
	cmp	w10, #0
	movk	w9, #17288, lsl #16
	fcsel	s3, s3, s6, eq
	fmov	s6, w9
	fadd	s3, s3, s6
	fmul	s3, s3, s3
	fmul	s3, s3, s3
	fsub	s6, s3, s12
	fdiv	s6, s6, s8
	fsub	s12, s3, s6
.Lfilter640_BB0_58:
	fmov	s3, #-25.00000000
	mov	w9, #37683
	fmul	s2, s2, s4
	movk	w9, #50056, lsl #16
	movi	d4, #0000000000000000
	cmp	w23, #1
	str	xzr, [sp, #72]
	fmov	s14, s16
	fadd	s13, s16, s3
	fmov	s3, w9
	mov	w9, #1
	str	w9, [sp, #84]
	b	.Lfilter640_BB0_62
.Lfilter640_BB0_59:
	mov	w11, #37683
	fmov	s5, #1.00000000
	fmov	s6, s8
	movk	w11, #17288, lsl #16
	fmov	s16, s14
	fmov	s0, w11
	add	x11, sp, #192
	fcmp	s6, s5
	fmov	s5, #1.00000000
	fadd	s0, s14, s0
	fmul	s0, s0, s0
	fmul	s12, s0, s0
	ldr	s0, [x11, x9, lsl #2]
	b.eq	.Lfilter640_BB0_61
	fsub	s6, s16, s3
	mov	w9, #37683
	cmp	w10, #0
	movk	w9, #17288, lsl #16
	fcsel	s3, s3, s6, eq
	fmov	s6, w9
	fadd	s3, s3, s6
	fmul	s3, s3, s3
	fmul	s3, s3, s3
	fsub	s6, s3, s12
	fdiv	s6, s6, s8
	fsub	s12, s3, s6
.Lfilter640_BB0_61:
	fmov	s3, #-25.00000000
	mov	w9, #37683
	fmul	s2, s2, s4
	movk	w9, #50056, lsl #16
	movi	d4, #0000000000000000
	fmov	s14, s16
	cmp	w23, #1
	str	wzr, [sp, #84]
	fadd	s13, s16, s3
	fmov	s3, w9
	mov	w9, #4
	str	x9, [sp, #72]
.Lfilter640_BB0_62:
	fcsel	s6, s2, s4, eq
	fmul	s3, s0, s3
	fmul	s1, s1, s13
	fadd	s15, s1, s5
	fadd	s1, s3, s5
	mov	w9, w23
	b	.Lfilter640_BB0_64
.Lfilter640_BB0_63:
	fmov	s0, #-25.00000000
	mov	w10, #1
	mov	w9, wzr
	str	xzr, [sp, #72]
	movi	d6, #0000000000000000
	movi	d15, #0000000000000000
	movi	d12, #0000000000000000
	movi	d1, #0000000000000000
	str	w10, [sp, #84]
	fadd	s13, s14, s0
	movi	d0, #0000000000000000
.Lfilter640_BB0_64:
	str	w9, [sp, #1128]
	mov	w9, #13107
	mov	x24, xzr
	movk	w9, #49235, lsl #16
	ldp	x22, x21, [sp, #152]
	fmov	s2, w9
	mov	x18, xzr
	add	x17, x8, #1
	str	s6, [sp, #1132]
	str	s15, [sp, #1136]
	fadd	s9, s7, s2
	str	s12, [sp, #1140]
	str	s0, [sp, #1144]
	str	s1, [sp, #1148]
.Lfilter640_BB0_65:
	lsl	x11, x18, #7
	ldr	x9, [sp, #168]
	lsl	x28, x18, #5
	add	x8, x17, x18, lsl #6
	mov	x26, xzr
	mov	x27, x18
	add	x9, x9, x11
	add	x10, x4, x11
	add	x19, x6, x11
	add	x25, x21, x11
.Lfilter640_BB0_66:
	lsl	x2, x27, #5
	add	x11, x22, x2
	ldp	q1, q0, [x11]
	orr	v0.16b, v1.16b, v0.16b
	ext	v1.16b, v0.16b, v0.16b, #8
	orr	v0.8b, v0.8b, v1.8b
	fmov	x11, d0
	orr	x11, x11, x11, lsr #32
	lsr	x12, x11, #16
	orr	w11, w11, w12
	orr	w11, w11, w11, lsr #8
	tst	w11, #0xff
	b.ne	.Lfilter640_BB0_68
	cmp	x27, #23
	add	x27, x27, #1
	add	x26, x26, #1
	add	x28, x28, #32
	add	x9, x9, #128
	add	x10, x10, #128
	add	x8, x8, #64
	add	x19, x19, #128
	add	x25, x25, #128
	b.ne	.Lfilter640_BB0_66
	b	.Lfilter640_BB0_91
.Lfilter640_BB0_68:
	movi	v0.2d, #0000000000000000
	lsl	x12, x28, #2
	add	x14, sp, #480
	mov	x11, xzr
	and	x13, x12, #0x80
	add	x12, sp, #224
	add	x12, x12, x13
	add	x13, x14, x13
	str	q0, [sp, #1104]
	str	q0, [sp, #1088]
	str	q0, [sp, #1072]
	str	q0, [sp, #1056]
	str	q0, [sp, #1040]
	stp	q0, q0, [sp, #864]
	stp	q0, q0, [sp, #896]
	stp	q0, q0, [sp, #928]
	stp	q0, q0, [sp, #976]
	stp	q0, q0, [sp, #1008]
	str	q0, [sp, #960]
	stp	q0, q0, [sp, #736]
	stp	q0, q0, [sp, #768]
	stp	q0, q0, [sp, #800]
	stp	q0, q0, [sp, #832]
	cbz	w23, .Lfilter640_BB0_70
.Lfilter640_BB0_69:
	ldr	w14, [x10], #4
	mov	w16, #1199570944
	fmov	s2, w16
	ldr	s1, [x9], #4
	asr	w15, w14, #16
	and	w14, w14, #0xffff
	ldr	s4, [x13, x11]
	ucvtf	s3, w14
	fmul	s1, s13, s1
	scvtf	s0, w15
	ldurh	w15, [x8, #-1]
	add	x8, x8, #2
	rev	w14, w15
	asr	w14, w14, #16
	fmul	s0, s0, s2
	fmov	s2, #1.00000000
	scvtf	s5, w14
	add	x14, sp, #992
	fadd	s1, s1, s2
	fadd	s0, s3, s0
	fmul	s3, s9, s4
	fmul	s4, s10, s5
	fmul	s0, s1, s0
	fadd	s1, s3, s2
	ldr	s2, [x12, x11]
	fadd	s2, s2, s4
	fmul	s0, s1, s0
	fsub	s0, s2, s0
	fdiv	s0, s0, s8
	fsub	s0, s0, s11
	str	s0, [x14, x11]
	add	x11, x11, #4
	cmp	x11, #128
	b.ne	.Lfilter640_BB0_69
	b	.Lfilter640_BB0_71
.Lfilter640_BB0_70:
	ldr	w14, [x10, x11]
	mov	w16, #1199570944
	ldr	s1, [x9, x11]
	fmov	s2, w16
	ldr	s4, [x13, x11]
	asr	w15, w14, #16
	and	w14, w14, #0xffff
	fmul	s1, s13, s1
	ucvtf	s3, w14
	scvtf	s0, w15
	ldurh	w15, [x8, #-1]
	add	x8, x8, #2
	rev	w14, w15
	asr	w14, w14, #16
	fmul	s0, s0, s2
	fmov	s2, #1.00000000
	scvtf	s5, w14
	add	x14, sp, #992
	fadd	s1, s1, s2
	fadd	s0, s3, s0
	fmul	s3, s9, s4
	fmul	s4, s10, s5
	fmul	s0, s1, s0
	fadd	s1, s3, s2
	ldr	s2, [x12, x11]
	fadd	s2, s2, s4
	fmul	s0, s1, s0
	fsub	s0, s2, s0
	fdiv	s0, s0, s8
	str	s0, [x14, x11]
	add	x11, x11, #4
	cmp	x11, #128
	b.ne	.Lfilter640_BB0_70
.Lfilter640_BB0_71:
	movi	v0.2d, #0000000000000000
	and	w8, w3, #0xff
	str	x4, [sp, #136]
	cmp	w8, #2
	str	w3, [sp, #132]
	stp	x6, x0, [sp, #112]
	str	s6, [sp, #148]
	str	q0, [sp, #1264]
	str	q0, [sp, #1248]
	str	q0, [sp, #1232]
	str	q0, [sp, #1216]
	str	q0, [sp, #1200]
	str	q0, [sp, #1184]
	str	q0, [sp, #1168]
	str	q0, [sp, #1152]
	stp	x18, x17, [sp, #96]
	str	x2, [sp, #88]
	b.eq	.Lfilter640_BB0_74
	cmp	w8, #1
	b.ne	.Lfilter640_BB0_83
	add	x0, sp, #1128
	add	x3, sp, #992
	add	x4, sp, #1152
	mov	x1, x6
	bl	loamchalice.filter640.pixels.temperature_block
	ldr	s0, [sp, #1152]
	ldr	s1, [sp, #1156]
	mov	w8, #2143289344
	fmov	s2, s0
	fmov	w9, s0
	ldr	s0, [sp, #1160]
	fmov	s3, s0
	fcmp	s2, s2
	fmov	s2, s1
	cset	w12, vs
	csel	w15, w8, w9, vs
	fmov	w9, s1
	str	w15, [sp, #864]
	fcmp	s2, s2
	str	w12, [sp, #736]
	ldr	s2, [sp, #1164]
	fmov	s1, s2
	cset	w10, vs
	csel	w14, w8, w9, vs
	fcmp	s3, s3
	fmov	w9, s0
	ldr	s0, [sp, #1168]
	str	w10, [sp, #740]
	fmov	s3, s0
	str	w14, [sp, #868]
	cset	w13, vs
	csel	w11, w8, w9, vs
	fcmp	s1, s1
	fmov	w9, s2
	ldr	s1, [sp, #1172]
	str	w13, [sp, #744]
	str	w11, [sp, #872]
	fmov	s2, s1
	cset	w16, vs
	csel	w9, w8, w9, vs
	fcmp	s3, s3
	str	w16, [sp, #748]
	str	w9, [sp, #64]
	fmov	w9, s0
	ldr	s0, [sp, #1176]
	cset	w17, vs
	fmov	s3, s0
	csel	w20, w8, w9, vs
	fcmp	s2, s2
	fmov	w9, s1
	ldr	s2, [sp, #1180]
	str	w17, [sp, #60]
	str	w20, [sp, #880]
	csel	w9, w8, w9, vs
	cset	w17, vs
	fcmp	s3, s3
	str	w9, [sp, #48]
	fmov	s1, s2
	fmov	w9, s0
	ldr	s0, [sp, #1184]
	str	w17, [sp, #68]
	cset	w17, vs
	csel	w9, w8, w9, vs
	fmov	s3, s0
	stp	w17, w9, [sp, #52]
	fcmp	s1, s1
	fmov	w9, s2
	ldr	s1, [sp, #1188]
	csel	w9, w8, w9, vs
	fmov	s2, s1
	cset	w17, vs
	str	w9, [sp, #32]
	fcmp	s3, s3
	fmov	w9, s0
	ldr	s0, [sp, #1192]
	str	w17, [sp, #44]
	csel	w9, w8, w9, vs
	cset	w17, vs
	fcmp	s2, s2
	str	w9, [sp, #40]
	ldr	s2, [sp, #1196]
	fmov	s3, s0
	fmov	w9, s1
	str	w17, [sp, #28]
	fmov	s1, s2
	cset	w17, vs
	str	w17, [sp, #36]
	csel	w9, w8, w9, vs
	fcmp	s3, s3
	str	w9, [sp, #16]
	fmov	w9, s0
	ldr	s0, [sp, #1200]
	cset	w17, vs
	fmov	s3, s0
	csel	w9, w8, w9, vs
	fcmp	s1, s1
	ldr	s1, [sp, #1204]
	stp	w17, w9, [sp, #20]
	fmov	w9, s2
	fmov	s2, s1
	cset	w17, vs
	csel	w19, w8, w9, vs
	fcmp	s3, s3
	fmov	w9, s0
	ldr	s0, [sp, #1208]
	str	w19, [sp, #908]
	cset	w7, vs
	csel	w9, w8, w9, vs
	fcmp	s2, s2
	ldr	s2, [sp, #1212]
	fmov	s3, s0
	stp	w9, w17, [sp, #8]
	fmov	w9, s1
	ldr	w19, [sp, #12]
	str	w7, [sp, #784]
	fmov	s1, s2
	cset	w30, vs
	str	w19, [sp, #780]
	csel	w4, w8, w9, vs
	fcmp	s3, s3
	fmov	w9, s0
	ldr	s0, [sp, #1216]
	str	w4, [sp, #916]
	str	w30, [sp, #788]
	fmov	s3, s0
	cset	w5, vs
	csel	w6, w8, w9, vs
	fcmp	s1, s1
	ldr	s1, [sp, #1220]
	fmov	w9, s2
	str	w5, [sp, #792]
	fmov	s2, s1
	str	w6, [sp, #920]
	csel	w1, w8, w9, vs
	cset	w2, vs
	fcmp	s3, s3
	fmov	w9, s0
	ldr	s0, [sp, #1224]
	str	w1, [sp, #924]
	str	w2, [sp, #796]
	cset	w0, vs
	fmov	s3, s0
	csel	w3, w8, w9, vs
	fcmp	s2, s2
	fmov	w9, s1
	ldr	s2, [sp, #1228]
	ldr	s1, [sp, #1232]
	str	w0, [sp, #800]
	str	w3, [sp, #928]
	csel	w17, w8, w9, vs
	cset	w18, vs
	fcmp	s3, s3
	ldp	w10, w9, [sp, #60]
	fmov	s3, s1
	str	w17, [sp, #932]
	cset	w15, vs
	str	w18, [sp, #804]
	str	w9, [sp, #876]
	fmov	w9, s0
	fmov	s0, s2
	str	w10, [sp, #752]
	str	w15, [sp, #808]
	csel	w16, w8, w9, vs
	ldp	w9, w10, [sp, #48]
	fcmp	s0, s0
	str	w16, [sp, #936]
	ldr	s0, [sp, #1236]
	str	w9, [sp, #884]
	ldr	w9, [sp, #68]
	str	w10, [sp, #760]
	cset	w14, vs
	ldr	w10, [sp, #44]
	str	w9, [sp, #756]
	fmov	w9, s2
	ldr	s2, [sp, #1240]
	str	w10, [sp, #764]
	ldp	w20, w10, [sp, #24]
	csel	w13, w8, w9, vs
	ldr	w9, [sp, #56]
	fcmp	s3, s3
	fmov	s3, s2
	str	w13, [sp, #940]
	str	w9, [sp, #888]
	ldr	w9, [sp, #32]
	str	w10, [sp, #768]
	cset	w11, vs
	str	w9, [sp, #892]
	fmov	w9, s1
	fmov	s1, s0
	str	w20, [sp, #904]
	fmov	w20, s2
	ldr	s2, [sp, #1248]
	str	w11, [sp, #816]
	csel	w12, w8, w9, vs
	ldr	w9, [sp, #40]
	fmov	w6, s2
	fcmp	s1, s1
	str	w12, [sp, #944]
	str	w9, [sp, #896]
	ldr	s1, [sp, #1244]
	ldp	w9, w10, [sp, #16]
	str	w14, [sp, #812]
	str	w9, [sp, #900]
	ldr	w9, [sp, #36]
	str	w10, [sp, #776]
	cset	w10, vs
	str	w9, [sp, #772]
	fmov	w9, s0
	fmov	s0, s1
	str	w10, [sp, #820]
	csel	w9, w8, w9, vs
	fcmp	s3, s3
	fmov	s3, s2
	ldr	s2, [sp, #1256]
	str	w9, [sp, #948]
	csel	w7, w8, w20, vs
	ldr	w20, [sp, #8]
	cset	w19, vs
	fcmp	s0, s0
	ldr	s0, [sp, #1252]
	fmov	w13, s2
	str	w20, [sp, #912]
	fmov	w20, s1
	fmov	s1, s0
	fmov	w17, s0
	str	w19, [sp, #824]
	cset	w4, vs
	str	w7, [sp, #952]
	csel	w5, w8, w20, vs
	fcmp	s3, s3
	fmov	s3, s2
	ldr	s2, [sp, #1264]
	str	w5, [sp, #956]
	str	w4, [sp, #828]
	cset	w1, vs
	csel	w0, w8, w6, vs
	fcmp	s1, s1
	ldr	s1, [sp, #1260]
	fmov	w12, s2
	str	w1, [sp, #832]
	str	w0, [sp, #960]
	fmov	s0, s1
	cset	w15, vs
	csel	w17, w8, w17, vs
	fcmp	s3, s3
	fmov	s3, s2
	fmov	w9, s1
	ldr	s2, [sp, #1272]
	str	w17, [sp, #964]
	cset	w11, vs
	csel	w13, w8, w13, vs
	fcmp	s0, s0
	ldr	s0, [sp, #1268]
	fmov	s1, s0
	cset	w10, vs
	csel	w9, w8, w9, vs
	fcmp	s3, s3
	cset	w14, vs
	csel	w12, w8, w12, vs
	fcmp	s1, s1
	ldr	s1, [sp, #1276]
	b	.Lfilter640_BB0_84
.Lfilter640_BB0_74:
	ldrb	w20, [sp, #1128]
	add	x0, sp, #1128
	add	x3, sp, #992
	add	x4, sp, #1152
	mov	x1, x6
	str	s14, [sp, #68]
	stp	q0, q0, [x29, #-208]
	stp	q0, q0, [x29, #-176]
	stp	q0, q0, [x29, #-144]
	stp	q0, q0, [x29, #-112]
	str	q0, [sp, #1280]
	str	q0, [sp, #1296]
	str	q0, [sp, #1312]
	str	q0, [sp, #1328]
	str	q0, [sp, #1344]
	str	q0, [sp, #1360]
	str	q0, [sp, #1376]
	str	q0, [sp, #1392]
	bl	loamchalice.filter640.pixels.temperature_block
	ldr	w8, [sp, #84]
	tbnz	w8, #0, .Lfilter640_BB0_78
	ldr	s0, [sp, #1152]
	ldr	s17, [sp, #1156]
	mov	x8, xzr
	ldr	s1, [sp, #1168]
	ldr	s2, [sp, #1184]
	ldr	s3, [sp, #1200]
	ldr	s4, [sp, #1216]
	ldr	s5, [sp, #1232]
	ldr	s6, [sp, #1248]
	mov	v0.s[1], v17.s[0]
	ldr	s17, [sp, #1264]
	ldr	s24, [sp, #1172]
	ldr	s25, [sp, #1188]
	ldr	s26, [sp, #1204]
	ldr	s27, [sp, #1220]
	mov	v1.s[1], v24.s[0]
	ldr	s29, [sp, #1236]
	ldr	s28, [sp, #1252]
	mov	v2.s[1], v25.s[0]
	mov	v3.s[1], v26.s[0]
	mov	v4.s[1], v27.s[0]
	ldr	s30, [sp, #1268]
	mov	v5.s[1], v29.s[0]
	mov	v6.s[1], v28.s[0]
	ldr	s7, [sp, #1160]
	ldr	s16, [sp, #1176]
	ldr	s18, [sp, #1192]
	mov	v17.s[1], v30.s[0]
	ldr	s20, [sp, #1208]
	ldr	s25, [sp, #1224]
	ldr	s26, [sp, #1240]
	mov	v0.s[2], v7.s[0]
	mov	v1.s[2], v16.s[0]
	ldr	s27, [sp, #1256]
	ldr	s7, [sp, #1272]
	mov	v2.s[2], v18.s[0]
	mov	v3.s[2], v20.s[0]
	mov	v4.s[2], v25.s[0]
	mov	v5.s[2], v26.s[0]
	mov	v6.s[2], v27.s[0]
	mov	v17.s[2], v7.s[0]
	ldr	s19, [sp, #1164]
	ldr	s21, [sp, #1180]
	ldr	s22, [sp, #1196]
	ldr	s23, [sp, #1212]
	ldr	s16, [sp, #1276]
	ldr	s24, [sp, #1228]
	ldr	s28, [sp, #1244]
	ldr	s29, [sp, #1260]
	mov	v0.s[3], v19.s[0]
	mov	v1.s[3], v21.s[0]
	mov	v2.s[3], v22.s[0]
	mov	v3.s[3], v23.s[0]
	mov	v4.s[3], v24.s[0]
	mov	v5.s[3], v28.s[0]
	mov	v6.s[3], v29.s[0]
	mov	v17.s[3], v16.s[0]
	movi	v7.2d, #0000000000000000
	movi	v16.2d, #0000000000000000
	movi	v18.2d, #0000000000000000
	movi	v19.2d, #0000000000000000
	movi	v20.2d, #0000000000000000
	movi	v21.2d, #0000000000000000
	movi	v22.2d, #0000000000000000
	movi	v23.2d, #0000000000000000
	ldr	x9, [sp, #72]
.Lfilter640_BB0_76:
	add	x10, sp, #216
	dup	v14.4s, w8
	ldrsh	w10, [x10, x8, lsl #1]
	add	x8, x8, #1
	cmp	x9, x8
	scvtf	s24, w10
	dup	v24.4s, v24.s[0]
	fcmge	v25.4s, v0.4s, v24.4s
	fcmge	v26.4s, v1.4s, v24.4s
	fcmge	v27.4s, v2.4s, v24.4s
	fcmge	v28.4s, v3.4s, v24.4s
	fcmge	v29.4s, v4.4s, v24.4s
	fcmge	v30.4s, v5.4s, v24.4s
	fcmge	v31.4s, v6.4s, v24.4s
	fcmge	v24.4s, v17.4s, v24.4s
	cmlt	v25.4s, v25.4s, #0
	cmlt	v26.4s, v26.4s, #0
	cmlt	v27.4s, v27.4s, #0
	cmlt	v28.4s, v28.4s, #0
	cmlt	v29.4s, v29.4s, #0
	cmlt	v30.4s, v30.4s, #0
	cmlt	v31.4s, v31.4s, #0
	cmlt	v24.4s, v24.4s, #0
	bit	v7.16b, v14.16b, v25.16b
	bit	v16.16b, v14.16b, v26.16b
	bit	v18.16b, v14.16b, v27.16b
	bit	v19.16b, v14.16b, v28.16b
	bit	v20.16b, v14.16b, v29.16b
	bit	v21.16b, v14.16b, v30.16b
	bit	v22.16b, v14.16b, v31.16b
	bit	v23.16b, v14.16b, v24.16b
	b.ne	.Lfilter640_BB0_76
	stp	q7, q16, [x29, #-208]
	stp	q18, q19, [x29, #-176]
	stp	q20, q21, [x29, #-144]
	stp	q22, q23, [x29, #-112]
.Lfilter640_BB0_78:
	mov	x8, xzr
	cbz	w20, .Lfilter640_BB0_81
	ldr	s4, [sp, #148]
.Lfilter640_BB0_80:
	sub	x9, x29, #208
	add	x10, sp, #216
	ldr	w9, [x9, x8]
	ldr	s1, [x19], #4
	ldrsh	w10, [x10, x9, lsl #1]
	fsub	s1, s1, s4
	scvtf	s0, w10
	add	x10, sp, #1152
	ldr	s2, [x10, x8]
	add	x10, sp, #192
	fmul	s1, s15, s1
	fsub	s0, s2, s0
	ldr	s2, [x10, x9, lsl #2]
	add	x10, sp, #176
	ldr	s3, [x10, x9, lsl #2]
	add	x9, sp, #992
	fmul	s1, s1, s3
	fmul	s0, s2, s0
	fmov	s2, #1.00000000
	fadd	s0, s0, s2
	fmul	s0, s1, s0
	ldr	s1, [x9, x8]
	add	x9, sp, #1280
	fdiv	s0, s1, s0
	fadd	s0, s12, s0
	str	s0, [x9, x8]
	add	x8, x8, #4
	cmp	x8, #128
	b.ne	.Lfilter640_BB0_80
	b	.Lfilter640_BB0_82
.Lfilter640_BB0_81:
	sub	x9, x29, #208
	add	x10, sp, #216
	ldr	w9, [x9, x8]
	ldrsh	w10, [x10, x9, lsl #1]
	scvtf	s0, w10
	add	x10, sp, #1152
	ldr	s1, [x10, x8]
	add	x10, sp, #192
	ldr	s2, [x10, x9, lsl #2]
	add	x10, sp, #176
	ldr	s3, [x10, x9, lsl #2]
	add	x9, sp, #992
	fsub	s0, s1, s0
	ldr	s1, [x19, x8]
	fmul	s1, s15, s1
	fmul	s0, s2, s0
	fmov	s2, #1.00000000
	fmul	s1, s1, s3
	fadd	s0, s0, s2
	fmul	s0, s1, s0
	ldr	s1, [x9, x8]
	add	x9, sp, #1280
	fdiv	s0, s1, s0
	fadd	s0, s12, s0
	str	s0, [x9, x8]
	add	x8, x8, #4
	cmp	x8, #128
	b.ne	.Lfilter640_BB0_81
.Lfilter640_BB0_82:
	add	x0, sp, #1280
	add	x1, sp, #1152
	bl	loamchalice.filter640.pixels.degrees_block
	ldr	s0, [sp, #1152]
	ldr	s1, [sp, #1156]
	mov	w8, #2143289344
	ldr	s14, [sp, #68]
	fmov	s2, s0
	fmov	w9, s0
	ldr	s0, [sp, #1160]
	fmov	s3, s0
	fcmp	s2, s2
	fmov	s2, s1
	cset	w12, vs
	csel	w15, w8, w9, vs
	fmov	w9, s1
	str	w15, [sp, #864]
	fcmp	s2, s2
	str	w12, [sp, #736]
	ldr	s2, [sp, #1164]
	fmov	s1, s2
	cset	w10, vs
	csel	w14, w8, w9, vs
	fcmp	s3, s3
	fmov	w9, s0
	ldr	s0, [sp, #1168]
	str	w10, [sp, #740]
	fmov	s3, s0
	str	w14, [sp, #868]
	cset	w13, vs
	csel	w11, w8, w9, vs
	fcmp	s1, s1
	ldr	s1, [sp, #1172]
	fmov	w9, s2
	str	w13, [sp, #744]
	str	w11, [sp, #872]
	fmov	s2, s1
	cset	w16, vs
	csel	w22, w8, w9, vs
	fcmp	s3, s3
	fmov	w9, s0
	ldr	s0, [sp, #1176]
	str	w16, [sp, #748]
	str	w22, [sp, #876]
	cset	w10, vs
	csel	w20, w8, w9, vs
	fcmp	s2, s2
	fmov	s3, s0
	fmov	w9, s1
	ldr	s2, [sp, #1180]
	str	w10, [sp, #64]
	cset	w21, vs
	fmov	s1, s2
	csel	w9, w8, w9, vs
	str	w20, [sp, #880]
	str	w9, [sp, #52]
	fcmp	s3, s3
	fmov	w9, s0
	ldr	s0, [sp, #1184]
	str	w10, [sp, #752]
	str	w21, [sp, #756]
	ldp	x22, x21, [sp, #152]
	cset	w17, vs
	csel	w9, w8, w9, vs
	fcmp	s1, s1
	stp	w17, w9, [sp, #56]
	fmov	s3, s0
	fmov	w9, s2
	ldr	s1, [sp, #1188]
	cset	w17, vs
	csel	w9, w8, w9, vs
	fmov	s2, s1
	str	w17, [sp, #48]
	str	w9, [sp, #36]
	fcmp	s3, s3
	fmov	w9, s0
	ldr	s0, [sp, #1192]
	csel	w9, w8, w9, vs
	cset	w17, vs
	fcmp	s2, s2
	str	w9, [sp, #44]
	ldr	s2, [sp, #1196]
	fmov	s3, s0
	fmov	w9, s1
	str	w17, [sp, #32]
	fmov	s1, s2
	cset	w17, vs
	str	w17, [sp, #40]
	csel	w9, w8, w9, vs
	fcmp	s3, s3
	str	w9, [sp, #20]
	fmov	w9, s0
	ldr	s0, [sp, #1200]
	cset	w17, vs
	fmov	s3, s0
	csel	w9, w8, w9, vs
	fcmp	s1, s1
	ldr	s1, [sp, #1204]
	stp	w17, w9, [sp, #24]
	fmov	w9, s2
	fmov	s2, s1
	cset	w17, vs
	csel	w19, w8, w9, vs
	fcmp	s3, s3
	fmov	w9, s0
	ldr	s0, [sp, #1208]
	str	w19, [sp, #908]
	cset	w7, vs
	csel	w9, w8, w9, vs
	fcmp	s2, s2
	ldr	s2, [sp, #1212]
	fmov	s3, s0
	stp	w9, w17, [sp, #12]
	fmov	w9, s1
	ldr	w19, [sp, #16]
	str	w7, [sp, #784]
	fmov	s1, s2
	cset	w30, vs
	str	w19, [sp, #780]
	csel	w4, w8, w9, vs
	fcmp	s3, s3
	fmov	w9, s0
	ldr	s0, [sp, #1216]
	str	w4, [sp, #916]
	str	w30, [sp, #788]
	fmov	s3, s0
	cset	w5, vs
	csel	w6, w8, w9, vs
	fcmp	s1, s1
	ldr	s1, [sp, #1220]
	fmov	w9, s2
	str	w5, [sp, #792]
	fmov	s2, s1
	str	w6, [sp, #920]
	csel	w1, w8, w9, vs
	cset	w2, vs
	fcmp	s3, s3
	fmov	w9, s0
	ldr	s0, [sp, #1224]
	str	w1, [sp, #924]
	str	w2, [sp, #796]
	fmov	s3, s0
	cset	w0, vs
	csel	w3, w8, w9, vs
	fcmp	s2, s2
	fmov	w9, s1
	ldr	s2, [sp, #1228]
	ldr	s1, [sp, #1232]
	str	w0, [sp, #800]
	str	w3, [sp, #928]
	cset	w18, vs
	csel	w17, w8, w9, vs
	fcmp	s3, s3
	fmov	w9, s0
	fmov	s0, s2
	fmov	s3, s1
	str	w17, [sp, #932]
	cset	w15, vs
	str	w18, [sp, #804]
	csel	w16, w8, w9, vs
	str	w15, [sp, #808]
	ldp	w9, w10, [sp, #52]
	fcmp	s0, s0
	str	w16, [sp, #936]
	ldr	s0, [sp, #1236]
	str	w9, [sp, #884]
	fmov	w9, s2
	ldr	s2, [sp, #1240]
	str	w10, [sp, #760]
	cset	w14, vs
	ldr	w10, [sp, #48]
	str	w14, [sp, #812]
	csel	w13, w8, w9, vs
	ldr	w9, [sp, #60]
	fcmp	s3, s3
	str	w10, [sp, #764]
	fmov	s3, s2
	str	w9, [sp, #888]
	ldr	w9, [sp, #36]
	ldp	w20, w10, [sp, #28]
	str	w9, [sp, #892]
	fmov	w9, s1
	fmov	s1, s0
	cset	w11, vs
	str	w13, [sp, #940]
	str	w10, [sp, #768]
	csel	w12, w8, w9, vs
	ldr	w9, [sp, #44]
	str	w20, [sp, #904]
	fcmp	s1, s1
	fmov	w20, s2
	ldr	s2, [sp, #1248]
	str	w9, [sp, #896]
	ldr	s1, [sp, #1244]
	ldp	w9, w10, [sp, #20]
	fmov	w6, s2
	str	w11, [sp, #816]
	str	w12, [sp, #944]
	str	w9, [sp, #900]
	ldr	w9, [sp, #40]
	str	w10, [sp, #776]
	cset	w10, vs
	str	w9, [sp, #772]
	fmov	w9, s0
	fmov	s0, s1
	str	w10, [sp, #820]
	csel	w9, w8, w9, vs
	fcmp	s3, s3
	fmov	s3, s2
	ldr	s2, [sp, #1256]
	str	w9, [sp, #948]
	csel	w7, w8, w20, vs
	ldr	w20, [sp, #12]
	cset	w19, vs
	fcmp	s0, s0
	ldr	s0, [sp, #1252]
	fmov	w13, s2
	str	w20, [sp, #912]
	fmov	w20, s1
	fmov	s1, s0
	fmov	w17, s0
	str	w19, [sp, #824]
	cset	w4, vs
	str	w7, [sp, #952]
	csel	w5, w8, w20, vs
	fcmp	s3, s3
	fmov	s3, s2
	ldr	s2, [sp, #1264]
	str	w5, [sp, #956]
	str	w4, [sp, #828]
	cset	w1, vs
	csel	w0, w8, w6, vs
	fcmp	s1, s1
	ldr	s1, [sp, #1260]
	fmov	w12, s2
	str	w1, [sp, #832]
	str	w0, [sp, #960]
	fmov	s0, s1
	cset	w15, vs
	csel	w17, w8, w17, vs
	fcmp	s3, s3
	fmov	s3, s2
	fmov	w9, s1
	ldr	s2, [sp, #1272]
	str	w15, [sp, #836]
	str	w17, [sp, #964]
	cset	w11, vs
	csel	w13, w8, w13, vs
	fcmp	s0, s0
	ldr	s0, [sp, #1268]
	str	w11, [sp, #840]
	str	w13, [sp, #968]
	fmov	s1, s0
	cset	w10, vs
	csel	w9, w8, w9, vs
	fcmp	s3, s3
	fmov	s3, s2
	fmov	w15, s0
	str	w9, [sp, #972]
	fmov	w9, s2
	str	w10, [sp, #844]
	cset	w14, vs
	csel	w12, w8, w12, vs
	fcmp	s1, s1
	ldr	s1, [sp, #1276]
	str	w12, [sp, #976]
	str	w14, [sp, #848]
	fmov	s0, s1
	cset	w11, vs
	csel	w15, w8, w15, vs
	fcmp	s3, s3
	fmov	w12, s1
	str	w15, [sp, #980]
	str	w11, [sp, #852]
	cset	w10, vs
	csel	w9, w8, w9, vs
	fcmp	s0, s0
	str	w9, [sp, #984]
	str	w10, [sp, #856]
	csel	w8, w8, w12, vs
	str	w8, [sp, #988]
	cset	w8, vs
	b	.Lfilter640_BB0_85
.Lfilter640_BB0_83:
	ldr	s0, [sp, #992]
	ldr	s1, [sp, #996]
	mov	w8, #2143289344
	fmov	s2, s0
	fmov	w9, s0
	ldr	s0, [sp, #1000]
	fmov	s3, s0
	fcmp	s2, s2
	fmov	s2, s1
	cset	w12, vs
	csel	w15, w8, w9, vs
	fmov	w9, s1
	str	w15, [sp, #864]
	fcmp	s2, s2
	str	w12, [sp, #736]
	ldr	s2, [sp, #1004]
	fmov	s1, s2
	cset	w10, vs
	csel	w14, w8, w9, vs
	fcmp	s3, s3
	fmov	w9, s0
	ldr	s0, [sp, #1008]
	str	w10, [sp, #740]
	fmov	s3, s0
	str	w14, [sp, #868]
	cset	w13, vs
	csel	w11, w8, w9, vs
	fcmp	s1, s1
	fmov	w9, s2
	ldr	s1, [sp, #1012]
	str	w13, [sp, #744]
	str	w11, [sp, #872]
	fmov	s2, s1
	cset	w16, vs
	csel	w9, w8, w9, vs
	fcmp	s3, s3
	str	w16, [sp, #748]
	str	w9, [sp, #64]
	fmov	w9, s0
	ldr	s0, [sp, #1016]
	cset	w17, vs
	fmov	s3, s0
	csel	w20, w8, w9, vs
	fcmp	s2, s2
	fmov	w9, s1
	ldr	s2, [sp, #1020]
	str	w17, [sp, #60]
	str	w20, [sp, #880]
	csel	w9, w8, w9, vs
	cset	w17, vs
	fcmp	s3, s3
	str	w9, [sp, #48]
	fmov	s1, s2
	fmov	w9, s0
	ldr	s0, [sp, #1024]
	str	w17, [sp, #68]
	cset	w17, vs
	csel	w9, w8, w9, vs
	fmov	s3, s0
	stp	w17, w9, [sp, #52]
	fcmp	s1, s1
	fmov	w9, s2
	ldr	s1, [sp, #1028]
	csel	w9, w8, w9, vs
	fmov	s2, s1
	cset	w17, vs
	str	w9, [sp, #32]
	fcmp	s3, s3
	fmov	w9, s0
	ldr	s0, [sp, #1032]
	str	w17, [sp, #44]
	csel	w9, w8, w9, vs
	cset	w17, vs
	fcmp	s2, s2
	str	w9, [sp, #40]
	ldr	s2, [sp, #1036]
	fmov	s3, s0
	fmov	w9, s1
	str	w17, [sp, #28]
	fmov	s1, s2
	cset	w17, vs
	str	w17, [sp, #36]
	csel	w9, w8, w9, vs
	fcmp	s3, s3
	str	w9, [sp, #16]
	fmov	w9, s0
	ldr	s0, [sp, #1040]
	cset	w17, vs
	fmov	s3, s0
	csel	w9, w8, w9, vs
	fcmp	s1, s1
	ldr	s1, [sp, #1044]
	stp	w17, w9, [sp, #20]
	fmov	w9, s2
	fmov	s2, s1
	cset	w17, vs
	csel	w19, w8, w9, vs
	fcmp	s3, s3
	fmov	w9, s0
	ldr	s0, [sp, #1048]
	str	w19, [sp, #908]
	cset	w7, vs
	csel	w9, w8, w9, vs
	fcmp	s2, s2
	ldr	s2, [sp, #1052]
	fmov	s3, s0
	stp	w9, w17, [sp, #8]
	fmov	w9, s1
	ldr	w19, [sp, #12]
	str	w7, [sp, #784]
	fmov	s1, s2
	cset	w30, vs
	str	w19, [sp, #780]
	csel	w4, w8, w9, vs
	fcmp	s3, s3
	fmov	w9, s0
	ldr	s0, [sp, #1056]
	str	w4, [sp, #916]
	str	w30, [sp, #788]
	fmov	s3, s0
	cset	w5, vs
	csel	w6, w8, w9, vs
	fcmp	s1, s1
	ldr	s1, [sp, #1060]
	fmov	w9, s2
	str	w5, [sp, #792]
	fmov	s2, s1
	str	w6, [sp, #920]
	csel	w1, w8, w9, vs
	cset	w2, vs
	fcmp	s3, s3
	fmov	w9, s0
	ldr	s0, [sp, #1064]
	str	w1, [sp, #924]
	str	w2, [sp, #796]
	cset	w0, vs
	fmov	s3, s0
	csel	w3, w8, w9, vs
	fcmp	s2, s2
	fmov	w9, s1
	ldr	s2, [sp, #1068]
	ldr	s1, [sp, #1072]
	str	w0, [sp, #800]
	str	w3, [sp, #928]
	csel	w17, w8, w9, vs
	cset	w18, vs
	fcmp	s3, s3
	ldp	w10, w9, [sp, #60]
	fmov	s3, s1
	str	w17, [sp, #932]
	cset	w15, vs
	str	w18, [sp, #804]
	str	w9, [sp, #876]
	fmov	w9, s0
	fmov	s0, s2
	str	w10, [sp, #752]
	str	w15, [sp, #808]
	csel	w16, w8, w9, vs
	ldp	w9, w10, [sp, #48]
	fcmp	s0, s0
	str	w16, [sp, #936]
	ldr	s0, [sp, #1076]
	str	w9, [sp, #884]
	ldr	w9, [sp, #68]
	str	w10, [sp, #760]
	cset	w14, vs
	ldr	w10, [sp, #44]
	str	w9, [sp, #756]
	fmov	w9, s2
	ldr	s2, [sp, #1080]
	str	w10, [sp, #764]
	ldp	w20, w10, [sp, #24]
	csel	w13, w8, w9, vs
	ldr	w9, [sp, #56]
	fcmp	s3, s3
	fmov	s3, s2
	str	w13, [sp, #940]
	str	w9, [sp, #888]
	ldr	w9, [sp, #32]
	str	w10, [sp, #768]
	cset	w11, vs
	str	w9, [sp, #892]
	fmov	w9, s1
	fmov	s1, s0
	str	w20, [sp, #904]
	fmov	w20, s2
	ldr	s2, [sp, #1088]
	str	w11, [sp, #816]
	csel	w12, w8, w9, vs
	ldr	w9, [sp, #40]
	fmov	w6, s2
	fcmp	s1, s1
	str	w12, [sp, #944]
	str	w9, [sp, #896]
	ldr	s1, [sp, #1084]
	ldp	w9, w10, [sp, #16]
	str	w14, [sp, #812]
	str	w9, [sp, #900]
	ldr	w9, [sp, #36]
	str	w10, [sp, #776]
	cset	w10, vs
	str	w9, [sp, #772]
	fmov	w9, s0
	fmov	s0, s1
	str	w10, [sp, #820]
	csel	w9, w8, w9, vs
	fcmp	s3, s3
	fmov	s3, s2
	ldr	s2, [sp, #1096]
	str	w9, [sp, #948]
	csel	w7, w8, w20, vs
	ldr	w20, [sp, #8]
	cset	w19, vs
	fcmp	s0, s0
	ldr	s0, [sp, #1092]
	fmov	w13, s2
	str	w20, [sp, #912]
	fmov	w20, s1
	fmov	s1, s0
	fmov	w17, s0
	str	w19, [sp, #824]
	cset	w4, vs
	str	w7, [sp, #952]
	csel	w5, w8, w20, vs
	fcmp	s3, s3
	fmov	s3, s2
	ldr	s2, [sp, #1104]
	str	w5, [sp, #956]
	str	w4, [sp, #828]
	cset	w1, vs
	csel	w0, w8, w6, vs
	fcmp	s1, s1
	ldr	s1, [sp, #1100]
	fmov	w12, s2
	str	w1, [sp, #832]
	str	w0, [sp, #960]
	fmov	s0, s1
	cset	w15, vs
	csel	w17, w8, w17, vs
	fcmp	s3, s3
	fmov	s3, s2
	fmov	w9, s1
	ldr	s2, [sp, #1112]
	str	w17, [sp, #964]
	cset	w11, vs
	csel	w13, w8, w13, vs
	fcmp	s0, s0
	ldr	s0, [sp, #1108]
	fmov	s1, s0
	cset	w10, vs
	csel	w9, w8, w9, vs
	fcmp	s3, s3
	cset	w14, vs
	csel	w12, w8, w12, vs
	fcmp	s1, s1
	ldr	s1, [sp, #1116]
.Lfilter640_BB0_84:
	fmov	s3, s2
	str	w15, [sp, #836]
	fmov	w15, s0
	fmov	s0, s1
	str	w11, [sp, #840]
	cset	w11, vs
	str	w9, [sp, #972]
	fmov	w9, s2
	csel	w15, w8, w15, vs
	str	w10, [sp, #844]
	fcmp	s3, s3
	str	w12, [sp, #976]
	fmov	w12, s1
	str	w13, [sp, #968]
	str	w14, [sp, #848]
	cset	w10, vs
	csel	w9, w8, w9, vs
	fcmp	s0, s0
	str	w15, [sp, #980]
	str	w11, [sp, #852]
	csel	w8, w8, w12, vs
	str	w9, [sp, #984]
	str	w8, [sp, #988]
	cset	w8, vs
	str	w10, [sp, #856]
.Lfilter640_BB0_85:
	str	w8, [sp, #860]
	ldp	x11, x17, [sp, #96]
	add	x8, x21, x26, lsl #7
	ldp	x6, x0, [sp, #112]
	ldr	x4, [sp, #136]
	ldr	w3, [sp, #132]
	add	x9, x11, x26
	add	x10, x22, x9, lsl #5
	add	x9, x8, x11, lsl #7
	add	x8, x10, #32
	cmp	x9, x8
	ldr	x8, [sp, #88]
	add	x8, x22, x8
	b.hs	.Lfilter640_BB0_89
	add	x9, x9, #128
	cmp	x8, x9
	b.hs	.Lfilter640_BB0_89
	mov	x9, xzr
	mov	w8, wzr
	mov	x10, x22
.Lfilter640_BB0_88:
	ldrb	w11, [x10, x28]
	add	x12, sp, #864
	add	x13, sp, #736
	add	x12, x12, x9
	add	x10, x10, #1
	cmp	w11, #0
	ldr	w11, [x13, x9]
	add	x9, x9, #4
	csel	x12, x25, x12, eq
	ldr	w12, [x12]
	csel	w11, wzr, w11, eq
	cmp	x9, #128
	add	w8, w11, w8
	str	w12, [x25], #4
	b.ne	.Lfilter640_BB0_88
	b	.Lfilter640_BB0_90
.Lfilter640_BB0_89:
	ldp	q0, q1, [x8]
	add	x8, x21, x27, lsl #7
	ldp	q16, q17, [sp, #832]
	ldp	q20, q21, [sp, #768]
	cmeq	v4.16b, v0.16b, #0
	cmeq	v5.16b, v1.16b, #0
	ldp	q18, q19, [sp, #800]
	ldp	q26, q27, [sp, #736]
	sshll2	v6.8h, v4.16b, #0
	sshll2	v7.8h, v5.16b, #0
	sshll	v5.8h, v5.8b, #0
	sshll	v4.8h, v4.8b, #0
	ldp	q1, q2, [sp, #896]
	ldp	q31, q30, [x8, #32]
	sshll2	v22.4s, v6.8h, #0
	sshll2	v23.4s, v7.8h, #0
	sshll	v6.4s, v6.4h, #0
	sshll	v7.4s, v7.4h, #0
	sshll2	v24.4s, v5.8h, #0
	sshll	v5.4s, v5.4h, #0
	sshll2	v25.4s, v4.8h, #0
	sshll	v4.4s, v4.4h, #0
	bic	v20.16b, v20.16b, v6.16b
	bic	v17.16b, v17.16b, v23.16b
	bic	v21.16b, v21.16b, v22.16b
	bic	v16.16b, v16.16b, v7.16b
	bic	v19.16b, v19.16b, v24.16b
	bic	v18.16b, v18.16b, v5.16b
	bic	v27.16b, v27.16b, v25.16b
	bic	v26.16b, v26.16b, v4.16b
	bit	v2.16b, v30.16b, v22.16b
	ldp	q0, q3, [sp, #864]
	add	v17.4s, v17.4s, v21.4s
	add	v16.4s, v16.4s, v20.4s
	ldp	q22, q20, [x8]
	add	v18.4s, v18.4s, v26.4s
	add	v19.4s, v19.4s, v27.4s
	bit	v1.16b, v31.16b, v6.16b
	ldp	q29, q28, [sp, #960]
	bit	v3.16b, v20.16b, v25.16b
	bit	v0.16b, v22.16b, v4.16b
	add	v6.4s, v19.4s, v17.4s
	add	v16.4s, v18.4s, v16.4s
	ldp	q26, q21, [sp, #928]
	stp	q1, q2, [x8, #32]
	ldp	q18, q17, [x8, #96]
	mov	v2.16b, v7.16b
	ldp	q19, q4, [x8, #64]
	stp	q0, q3, [x8]
	mov	v3.16b, v5.16b
	add	v1.4s, v16.4s, v6.4s
	bif	v17.16b, v28.16b, v23.16b
	bsl	v2.16b, v18.16b, v29.16b
	bif	v4.16b, v21.16b, v24.16b
	bsl	v3.16b, v19.16b, v26.16b
	addv	s0, v1.4s
	stp	q2, q17, [x8, #96]
	stp	q3, q4, [x8, #64]
	fmov	w8, s0
.Lfilter640_BB0_90:
	add	x24, x24, w8, uxtw
	ldr	s6, [sp, #148]
	cmp	x27, #23
	add	x18, x27, #1
	b.lo	.Lfilter640_BB0_65
.Lfilter640_BB0_91:
	fmov	s0, s14
	fmov	w8, s14
	mov	w9, #2143289344
	mov	x17, xzr
	fcmp	s0, s0
	csel	w12, w9, w8, vs
	b	.Lfilter640_BB0_35
.Lfilter640_BB0_92:
	mov	w12, #13
	mov	w24, #1
	b	.Lfilter640_BB0_34
.Lfilter640_BB0_93:
	mov	w12, #13
	mov	w17, #1
	mov	w24, #2
	b	.Lfilter640_BB0_35
.Lfilter640_func_end0:
	.size	loamchalice.filter640.frames640.from_pixels, .Lfilter640_func_end0-loamchalice.filter640.frames640.from_pixels

	.section	.text.filter640.pixels.temperature_block,"ax",@progbits
	.p2align	2
	.type	loamchalice.filter640.pixels.temperature_block,@function
loamchalice.filter640.pixels.temperature_block:
	sub	sp, sp, #256
	ldp	s24, s2, [x0, #12]
	movi	v1.2d, #0000000000000000
	ldp	s0, s4, [x0, #4]
	str	x21, [sp, #224]
	ldrb	w8, [x0]
	add	x21, x1, x2, lsl #2
	stp	x20, x19, [sp, #240]
	stp	q24, q2, [sp, #32]
	mov	x19, x4
	mov	x20, x3
	ldr	s2, [x0, #20]
	stp	x29, x30, [sp, #208]
	add	x29, sp, #208
	stp	q1, q1, [sp, #80]
	stp	q1, q1, [sp, #112]
	stp	q1, q1, [sp, #144]
	str	q2, [sp, #64]
	stp	q1, q1, [sp, #176]
	str	q4, [sp, #16]
	cbz	w8, .Lfilter640_BB1_2
	dup	v18.4s, v0.s[0]
	ldp	q0, q1, [x21]
	ldp	q2, q3, [x21, #32]
	mov	v22.16b, v4.16b
	ldp	q7, q16, [x21, #96]
	add	x0, sp, #80
	fsub	v0.4s, v0.4s, v18.4s
	fsub	v1.4s, v1.4s, v18.4s
	mov	v19.16b, v18.16b
	fsub	v2.4s, v2.4s, v18.4s
	fsub	v3.4s, v3.4s, v18.4s
	str	q18, [sp]
	fsub	v7.4s, v7.4s, v18.4s
	ldp	q20, q21, [x20]
	fsub	v16.4s, v16.4s, v19.4s
	mov	x1, x19
	fmul	v0.4s, v0.4s, v4.s[0]
	fmul	v1.4s, v1.4s, v4.s[0]
	fmul	v2.4s, v2.4s, v4.s[0]
	ldp	q4, q5, [x21, #64]
	fmul	v3.4s, v3.4s, v22.s[0]
	fmul	v7.4s, v7.4s, v22.s[0]
	fmul	v16.4s, v16.4s, v22.s[0]
	fsub	v4.4s, v4.4s, v18.4s
	fmul	v6.4s, v0.4s, v0.4s
	fmul	v17.4s, v1.4s, v1.4s
	fsub	v5.4s, v5.4s, v18.4s
	fmul	v18.4s, v2.4s, v2.4s
	fmul	v19.4s, v3.4s, v3.4s
	fmul	v4.4s, v4.4s, v22.s[0]
	fmul	v0.4s, v0.4s, v6.4s
	fmul	v1.4s, v1.4s, v17.4s
	fmul	v5.4s, v5.4s, v22.s[0]
	fmul	v6.4s, v6.4s, v6.4s
	fmul	v17.4s, v17.4s, v17.4s
	fmul	v2.4s, v2.4s, v18.4s
	fmul	v3.4s, v3.4s, v19.4s
	fmul	v18.4s, v18.4s, v18.4s
	ldp	q22, q23, [x20, #32]
	fmul	v19.4s, v19.4s, v19.4s
	fmul	v0.4s, v20.4s, v0.4s
	fmul	v20.4s, v4.4s, v4.4s
	fmul	v1.4s, v21.4s, v1.4s
	fmul	v21.4s, v5.4s, v5.4s
	fmul	v6.4s, v6.4s, v24.s[0]
	fmul	v17.4s, v17.4s, v24.s[0]
	fmul	v2.4s, v22.4s, v2.4s
	fmul	v22.4s, v7.4s, v7.4s
	fmul	v3.4s, v23.4s, v3.4s
	fmul	v23.4s, v16.4s, v16.4s
	fmul	v18.4s, v18.4s, v24.s[0]
	fmul	v19.4s, v19.4s, v24.s[0]
	fmul	v4.4s, v4.4s, v20.4s
	fmul	v20.4s, v20.4s, v20.4s
	fmul	v5.4s, v5.4s, v21.4s
	fadd	v0.4s, v0.4s, v6.4s
	fadd	v1.4s, v1.4s, v17.4s
	ldp	q6, q17, [x20, #64]
	fmul	v21.4s, v21.4s, v21.4s
	fmul	v7.4s, v7.4s, v22.4s
	fmul	v22.4s, v22.4s, v22.4s
	fmul	v16.4s, v16.4s, v23.4s
	fmul	v23.4s, v23.4s, v23.4s
	fmul	v20.4s, v20.4s, v24.s[0]
	fadd	v2.4s, v2.4s, v18.4s
	fmul	v4.4s, v6.4s, v4.4s
	fmul	v5.4s, v17.4s, v5.4s
	fadd	v3.4s, v3.4s, v19.4s
	ldp	q6, q17, [x20, #96]
	fmul	v21.4s, v21.4s, v24.s[0]
	stp	q0, q1, [sp, #80]
	fmul	v6.4s, v6.4s, v7.4s
	fmul	v7.4s, v22.4s, v24.s[0]
	fmul	v16.4s, v17.4s, v16.4s
	fmul	v17.4s, v23.4s, v24.s[0]
	fadd	v4.4s, v4.4s, v20.4s
	fadd	v0.4s, v5.4s, v21.4s
	stp	q2, q3, [sp, #112]
	fadd	v1.4s, v6.4s, v7.4s
	fadd	v2.4s, v16.4s, v17.4s
	stp	q4, q0, [sp, #144]
	stp	q1, q2, [sp, #176]
	bl	loamchalice.filter640.roots.fourth_roots
	ldp	q0, q1, [x21]
	ldp	q18, q21, [sp]
	ldp	q2, q3, [x19]
	ldp	q20, q19, [sp, #48]
	fsub	v0.4s, v0.4s, v18.4s
	fsub	v1.4s, v1.4s, v18.4s
	fmul	v2.4s, v2.4s, v20.s[0]
	fmul	v0.4s, v0.4s, v21.s[0]
	fmul	v1.4s, v1.4s, v21.s[0]
	fmul	v0.4s, v0.4s, v19.s[0]
	fmul	v1.4s, v1.4s, v19.s[0]
	fadd	v0.4s, v2.4s, v0.4s
	ldp	q2, q4, [x20]
	fdiv	v0.4s, v2.4s, v0.4s
	fmul	v2.4s, v3.4s, v20.s[0]
	ldp	q3, q5, [x21, #32]
	fsub	v3.4s, v3.4s, v18.4s
	fadd	v1.4s, v2.4s, v1.4s
	fsub	v5.4s, v5.4s, v18.4s
	fmul	v2.4s, v3.4s, v21.s[0]
	fdiv	v1.4s, v4.4s, v1.4s
	ldp	q3, q4, [x19, #32]
	fmul	v2.4s, v2.4s, v19.s[0]
	fmul	v3.4s, v3.4s, v20.s[0]
	fmul	v4.4s, v4.4s, v20.s[0]
	fadd	v2.4s, v3.4s, v2.4s
	fmul	v3.4s, v5.4s, v21.s[0]
	ldp	q5, q6, [x20, #32]
	fdiv	v2.4s, v5.4s, v2.4s
	fmul	v3.4s, v3.4s, v19.s[0]
	ldp	q5, q7, [x21, #64]
	fsub	v5.4s, v5.4s, v18.4s
	fadd	v3.4s, v4.4s, v3.4s
	fsub	v7.4s, v7.4s, v18.4s
	fmul	v4.4s, v5.4s, v21.s[0]
	fdiv	v3.4s, v6.4s, v3.4s
	ldp	q5, q6, [x19, #64]
	fmul	v4.4s, v4.4s, v19.s[0]
	fmul	v5.4s, v5.4s, v20.s[0]
	fmul	v6.4s, v6.4s, v20.s[0]
	fadd	v4.4s, v5.4s, v4.4s
	fmul	v5.4s, v7.4s, v21.s[0]
	ldp	q7, q16, [x20, #64]
	fdiv	v4.4s, v7.4s, v4.4s
	fmul	v5.4s, v5.4s, v19.s[0]
	ldp	q7, q17, [x21, #96]
	fsub	v7.4s, v7.4s, v18.4s
	fadd	v5.4s, v6.4s, v5.4s
	fsub	v17.4s, v17.4s, v18.4s
	fmul	v6.4s, v7.4s, v21.s[0]
	fdiv	v5.4s, v16.4s, v5.4s
	ldp	q7, q16, [x19, #96]
	fmul	v6.4s, v6.4s, v19.s[0]
	fmul	v7.4s, v7.4s, v20.s[0]
	fmul	v16.4s, v16.4s, v20.s[0]
	fadd	v6.4s, v7.4s, v6.4s
	fmul	v7.4s, v17.4s, v21.s[0]
	ldp	q17, q18, [x20, #96]
	fmul	v7.4s, v7.4s, v19.s[0]
	fdiv	v6.4s, v17.4s, v6.4s
	fadd	v7.4s, v16.4s, v7.4s
	b	.Lfilter640_BB1_3
.Lfilter640_BB1_2:
	ldp	q0, q1, [x21]
	mov	v22.16b, v4.16b
	ldp	q2, q3, [x21, #32]
	add	x0, sp, #80
	ldp	q17, q18, [x21, #64]
	mov	x1, x19
	fmul	v0.4s, v0.4s, v4.s[0]
	fmul	v1.4s, v1.4s, v4.s[0]
	fmul	v2.4s, v2.4s, v4.s[0]
	fmul	v3.4s, v3.4s, v4.s[0]
	ldp	q20, q21, [x21, #96]
	fmul	v17.4s, v17.4s, v22.s[0]
	fmul	v18.4s, v18.4s, v22.s[0]
	ldp	q6, q7, [x20]
	fmul	v4.4s, v0.4s, v0.4s
	fmul	v5.4s, v1.4s, v1.4s
	fmul	v16.4s, v2.4s, v2.4s
	fmul	v19.4s, v3.4s, v3.4s
	fmul	v20.4s, v20.4s, v22.s[0]
	fmul	v21.4s, v21.4s, v22.s[0]
	ldp	q22, q23, [x20, #32]
	fmul	v0.4s, v0.4s, v4.4s
	fmul	v1.4s, v1.4s, v5.4s
	fmul	v4.4s, v4.4s, v4.4s
	fmul	v5.4s, v5.4s, v5.4s
	fmul	v2.4s, v2.4s, v16.4s
	fmul	v3.4s, v3.4s, v19.4s
	fmul	v16.4s, v16.4s, v16.4s
	fmul	v19.4s, v19.4s, v19.4s
	fmul	v0.4s, v6.4s, v0.4s
	fmul	v6.4s, v17.4s, v17.4s
	fmul	v1.4s, v7.4s, v1.4s
	fmul	v7.4s, v18.4s, v18.4s
	fmul	v4.4s, v4.4s, v24.s[0]
	fmul	v5.4s, v5.4s, v24.s[0]
	fmul	v2.4s, v22.4s, v2.4s
	fmul	v22.4s, v20.4s, v20.4s
	fmul	v3.4s, v23.4s, v3.4s
	fmul	v23.4s, v21.4s, v21.4s
	fmul	v16.4s, v16.4s, v24.s[0]
	fmul	v19.4s, v19.4s, v24.s[0]
	fmul	v17.4s, v17.4s, v6.4s
	fmul	v6.4s, v6.4s, v6.4s
	fmul	v18.4s, v18.4s, v7.4s
	fadd	v0.4s, v0.4s, v4.4s
	fadd	v1.4s, v1.4s, v5.4s
	ldp	q4, q5, [x20, #64]
	fmul	v7.4s, v7.4s, v7.4s
	fmul	v20.4s, v20.4s, v22.4s
	fmul	v22.4s, v22.4s, v22.4s
	fmul	v21.4s, v21.4s, v23.4s
	fmul	v23.4s, v23.4s, v23.4s
	fmul	v6.4s, v6.4s, v24.s[0]
	fadd	v2.4s, v2.4s, v16.4s
	fmul	v4.4s, v4.4s, v17.4s
	fmul	v5.4s, v5.4s, v18.4s
	fadd	v3.4s, v3.4s, v19.4s
	ldp	q17, q18, [x20, #96]
	fmul	v7.4s, v7.4s, v24.s[0]
	stp	q0, q1, [sp, #80]
	fmul	v19.4s, v23.4s, v24.s[0]
	fmul	v16.4s, v17.4s, v20.4s
	fmul	v17.4s, v22.4s, v24.s[0]
	fmul	v18.4s, v18.4s, v21.4s
	fadd	v4.4s, v4.4s, v6.4s
	fadd	v0.4s, v5.4s, v7.4s
	stp	q2, q3, [sp, #112]
	fadd	v1.4s, v16.4s, v17.4s
	fadd	v2.4s, v18.4s, v19.4s
	stp	q4, q0, [sp, #144]
	stp	q1, q2, [sp, #176]
	bl	loamchalice.filter640.roots.fourth_roots
	ldp	q0, q1, [x21]
	ldr	q18, [sp, #16]
	ldp	q2, q3, [x19]
	ldp	q20, q19, [sp, #48]
	fmul	v0.4s, v0.4s, v18.s[0]
	fmul	v1.4s, v1.4s, v18.s[0]
	fmul	v2.4s, v2.4s, v20.s[0]
	fmul	v0.4s, v0.4s, v19.s[0]
	fmul	v1.4s, v1.4s, v19.s[0]
	fadd	v0.4s, v0.4s, v2.4s
	ldp	q2, q4, [x20]
	fdiv	v0.4s, v2.4s, v0.4s
	fmul	v2.4s, v3.4s, v20.s[0]
	fadd	v1.4s, v1.4s, v2.4s
	ldp	q2, q3, [x21, #32]
	fmul	v2.4s, v2.4s, v18.s[0]
	fmul	v3.4s, v3.4s, v18.s[0]
	fdiv	v1.4s, v4.4s, v1.4s
	ldp	q4, q5, [x19, #32]
	fmul	v2.4s, v2.4s, v19.s[0]
	fmul	v3.4s, v3.4s, v19.s[0]
	fmul	v4.4s, v4.4s, v20.s[0]
	fadd	v2.4s, v2.4s, v4.4s
	ldp	q4, q6, [x20, #32]
	fdiv	v2.4s, v4.4s, v2.4s
	fmul	v4.4s, v5.4s, v20.s[0]
	fadd	v3.4s, v3.4s, v4.4s
	ldp	q4, q5, [x21, #64]
	fmul	v4.4s, v4.4s, v18.s[0]
	fmul	v5.4s, v5.4s, v18.s[0]
	fdiv	v3.4s, v6.4s, v3.4s
	ldp	q6, q7, [x19, #64]
	fmul	v4.4s, v4.4s, v19.s[0]
	fmul	v5.4s, v5.4s, v19.s[0]
	fmul	v6.4s, v6.4s, v20.s[0]
	fadd	v4.4s, v4.4s, v6.4s
	ldp	q6, q16, [x20, #64]
	fdiv	v4.4s, v6.4s, v4.4s
	fmul	v6.4s, v7.4s, v20.s[0]
	fadd	v5.4s, v5.4s, v6.4s
	ldp	q6, q7, [x21, #96]
	fmul	v6.4s, v6.4s, v18.s[0]
	fmul	v7.4s, v7.4s, v18.s[0]
	fdiv	v5.4s, v16.4s, v5.4s
	ldp	q16, q17, [x19, #96]
	fmul	v6.4s, v6.4s, v19.s[0]
	fmul	v7.4s, v7.4s, v19.s[0]
	fmul	v16.4s, v16.4s, v20.s[0]
	fadd	v6.4s, v6.4s, v16.4s
	ldp	q16, q18, [x20, #96]
	fdiv	v6.4s, v16.4s, v6.4s
	fmul	v16.4s, v17.4s, v20.s[0]
	fadd	v7.4s, v7.4s, v16.4s
.Lfilter640_BB1_3:
	fdiv	v7.4s, v18.4s, v7.4s
	ldr	q16, [sp, #32]
	add	x0, sp, #80
	mov	x1, x19
	dup	v16.4s, v16.s[0]
	fadd	v0.4s, v16.4s, v0.4s
	fadd	v1.4s, v16.4s, v1.4s
	fadd	v2.4s, v16.4s, v2.4s
	fadd	v3.4s, v16.4s, v3.4s
	fadd	v4.4s, v16.4s, v4.4s
	stp	q0, q1, [sp, #80]
	fadd	v0.4s, v16.4s, v5.4s
	fadd	v1.4s, v16.4s, v6.4s
	stp	q2, q3, [sp, #112]
	fadd	v2.4s, v16.4s, v7.4s
	stp	q4, q0, [sp, #144]
	stp	q1, q2, [sp, #176]
	bl	loamchalice.filter640.pixels.degrees_block
	ldp	x20, x19, [sp, #240]
	ldr	x21, [sp, #224]
	ldp	x29, x30, [sp, #208]
	add	sp, sp, #256
	ret
.Lfilter640_func_end1:
	.size	loamchalice.filter640.pixels.temperature_block, .Lfilter640_func_end1-loamchalice.filter640.pixels.temperature_block

	.section	.rodata.cst8,"aM",@progbits,8
	.p2align	3, 0x0
.Lfilter640_CPI2_0:
	.xword	0xbfd8d6dad5c5805a
.Lfilter640_CPI2_1:
	.xword	0x3ff48987b38c9874
.Lfilter640_CPI2_2:
	.xword	0xbf89e11a55579851
.Lfilter640_CPI2_3:
	.xword	0x3fbbd11ca559a5b5
.Lfilter640_CPI2_4:
	.xword	0xbfd9564a9a0cc3d0
.Lfilter640_CPI2_5:
	.xword	0x3ff49e6fb879243c
.Lfilter640_CPI2_6:
	.xword	0xbf8b3fdc3e64f496
.Lfilter640_CPI2_7:
	.xword	0x3fbcd40c7b79c813
.Lfilter640_CPI2_8:
	.xword	0xbfd9da666a8282c0
.Lfilter640_CPI2_9:
	.xword	0x3ff4b3c3e0838e08
.Lfilter640_CPI2_10:
	.xword	0xbf8cb74d9f20e3c5
.Lfilter640_CPI2_11:
	.xword	0x3fbde4cf1160987f
.Lfilter640_CPI2_12:
	.xword	0xbfda636eaa84aa24
.Lfilter640_CPI2_13:
	.xword	0x3ff4c9882b15accb
.Lfilter640_CPI2_14:
	.xword	0xbf8e499d1637aac6
.Lfilter640_CPI2_15:
	.xword	0x3fbf045f9100c8fb
.Lfilter640_CPI2_16:
	.xword	0xbfdaf1a85969655f
.Lfilter640_CPI2_17:
	.xword	0x3ff4dfc0cf2a5dce
.Lfilter640_CPI2_18:
	.xword	0xbf8ff9350c84276a
.Lfilter640_CPI2_19:
	.xword	0x3fc019e7c4a5cc82
.Lfilter640_CPI2_20:
	.xword	0xbfdb855d7ca13de0
.Lfilter640_CPI2_21:
	.xword	0x3ff4f6723f50bfea
.Lfilter640_CPI2_22:
	.xword	0xbf90e461a137b60f
.Lfilter640_CPI2_23:
	.xword	0x3fc0ba24ac9d711a
.Lfilter640_CPI2_24:
	.xword	0xbfdc1edd9569549c
.Lfilter640_CPI2_25:
	.xword	0x3ff50da12e0ca82a
.Lfilter640_CPI2_26:
	.xword	0xbf91dda0bc0f98f5
.Lfilter640_CPI2_27:
	.xword	0x3fc1638974e0b1d2
.Lfilter640_CPI2_28:
	.xword	0xbfdcbe7e238a7215
.Lfilter640_CPI2_29:
	.xword	0x3ff52552929e8fbf
.Lfilter640_CPI2_30:
	.xword	0xbf92e9ffafd562c7
.Lfilter640_CPI2_31:
	.xword	0x3fc216c861238d76
.Lfilter640_CPI2_32:
	.xword	0xbfdd649b36da6586
.Lfilter640_CPI2_33:
	.xword	0x3ff53d8bae3e8fed
.Lfilter640_CPI2_34:
	.xword	0xbf940b5708b9b0fb
.Lfilter640_CPI2_35:
	.xword	0x3fc2d4a4c2a70153
.Lfilter640_CPI2_36:
	.xword	0xbfde119811778ee7
.Lfilter640_CPI2_37:
	.xword	0x3ff5565211d78886
.Lfilter640_CPI2_38:
	.xword	0xbf9543b6a2c0f3d1
.Lfilter640_CPI2_39:
	.xword	0x3fc39df4f298d76f
.Lfilter640_CPI2_40:
	.xword	0xbfdec5dfdd045494
.Lfilter640_CPI2_41:
	.xword	0x3ff56faba4515177
.Lfilter640_CPI2_42:
	.xword	0xbf96956d50f05671
.Lfilter640_CPI2_43:
	.xword	0x3fc473a491df2605
.Lfilter640_CPI2_44:
	.xword	0xbfdf81e67583ece0
.Lfilter640_CPI2_45:
	.xword	0x3ff5899ea97ae286
.Lfilter640_CPI2_46:
	.xword	0xbf980311beecdf50
.Lfilter640_CPI2_47:
	.xword	0x3fc556b719595084
.Lfilter640_CPI2_48:
	.xword	0xbfe02314a673068e
.Lfilter640_CPI2_49:
	.xword	0x3ff5a431c9a7ba2d
.Lfilter640_CPI2_50:
	.xword	0xbf998f8cc6c133d0
.Lfilter640_CPI2_51:
	.xword	0x3fc6484ac7a206de
.Lfilter640_CPI2_52:
	.xword	0xbfe0899835678b25
.Lfilter640_CPI2_53:
	.xword	0x3ff5bf6c1a168c70
.Lfilter640_CPI2_54:
	.xword	0xbf9b3e25807701df
.Lfilter640_CPI2_55:
	.xword	0x3fc7499bfbc8f77c
.Lfilter640_CPI2_56:
	.xword	0xbfe0f4c7c6612df5
.Lfilter640_CPI2_57:
	.xword	0x3ff5db55263a7735
.Lfilter640_CPI2_58:
	.xword	0xbf9d128f5ff1d144
.Lfilter640_CPI2_59:
	.xword	0x3fc85c090f67f3a1
.Lfilter640_CPI2_60:
	.xword	0xbfe164f3b5c49c7a
.Lfilter640_CPI2_61:
	.xword	0x3ff5f7f4fa03b8fd
.Lfilter640_CPI2_62:
	.xword	0xbf9f10fac7b9e0fd
.Lfilter640_CPI2_63:
	.xword	0x3fc98116c604a5ac
.Lfilter640_CPI2_64:
	.xword	0xbfe1da7395c50e4c
.Lfilter640_CPI2_65:
	.xword	0x3ff615542d494b58
.Lfilter640_CPI2_66:
	.xword	0xbfa09f1447099ec3
.Lfilter640_CPI2_67:
	.xword	0x3fcaba756c0423f4
.Lfilter640_CPI2_68:
	.xword	0xbfe255a6ff632f04
.Lfilter640_CPI2_69:
	.xword	0x3ff6337bf079ed95
.Lfilter640_CPI2_70:
	.xword	0xbfa1cfc087047581
.Lfilter640_CPI2_71:
	.xword	0x3fcc0a06c4c15e4e
.Lfilter640_CPI2_72:
	.xword	0xbfe2d6f680371f14
.Lfilter640_CPI2_73:
	.xword	0x3ff652761ac144d6
.Lfilter640_CPI2_74:
	.xword	0xbfa31d97c0c539a3
.Lfilter640_CPI2_75:
	.xword	0x3fcd71e4edd8a92e
.Lfilter640_CPI2_76:
	.xword	0xbfe35ed4a9ba21f2
.Lfilter640_CPI2_77:
	.xword	0x3ff6724d39d4ef3d
.Lfilter640_CPI2_78:
	.xword	0xbfa48c214730858e
.Lfilter640_CPI2_79:
	.xword	0x3fcef46a65c0d8ac
.Lfilter640_CPI2_80:
	.xword	0xbfe3edbf47a9bdea
.Lfilter640_CPI2_81:
	.xword	0x3ff6930ca3a5fbdb
.Lfilter640_CPI2_82:
	.xword	0xbfa61f699420162c
.Lfilter640_CPI2_83:
	.xword	0x3fd04a1db6ddbdce
.Lfilter640_CPI2_84:
	.xword	0xbfe48440c4354b61
.Lfilter640_CPI2_85:
	.xword	0x3ff6b4c08a3d7463
.Lfilter640_CPI2_86:
	.xword	0xbfa7dc1999064aaa
.Lfilter640_CPI2_87:
	.xword	0x3fd12a2885c2d55c
.Lfilter640_CPI2_88:
	.xword	0xbfe522f1c1fc9caa
.Lfilter640_CPI2_89:
	.xword	0x3ff6d7761216e589
.Lfilter640_CPI2_90:
	.xword	0xbfa9c792d22551ea
.Lfilter640_CPI2_91:
	.xword	0x3fd21c02ff5670aa
.Lfilter640_CPI2_92:
	.xword	0xbfe5ca7af58a6166
.Lfilter640_CPI2_93:
	.xword	0x3ff6fb3b6b5a8c6c
.Lfilter640_CPI2_94:
	.xword	0xbfabe8113a584e1d
.Lfilter640_CPI2_95:
	.xword	0x3fd32193086fb443
.Lfilter640_CPI2_96:
	.xword	0xbfe67b9749fb94b2
.Lfilter640_CPI2_97:
	.xword	0x3ff7201fee6a962f
.Lfilter640_CPI2_98:
	.xword	0xbfae44d489bade19
.Lfilter640_CPI2_99:
	.xword	0x3fd43d0020924148
.Lfilter640_CPI2_100:
	.xword	0xbfe737165f09042f
.Lfilter640_CPI2_101:
	.xword	0x3ff746343c4c6c38
.Lfilter640_CPI2_102:
	.xword	0xbfb07329465d1743
.Lfilter640_CPI2_103:
	.xword	0x3fd570be3491b6b7
.Lfilter640_CPI2_104:
	.xword	0xbfe7fddf71cb1ffa
.Lfilter640_CPI2_105:
	.xword	0x3ff76d8a639148f5
.Lfilter640_CPI2_106:
	.xword	0xbfb1eb3a718070d4
.Lfilter640_CPI2_107:
	.xword	0x3fd6bf9a91c44d0c
.Lfilter640_CPI2_108:
	.xword	0xbfe8d0f4c57fb846
.Lfilter640_CPI2_109:
	.xword	0x3ff796360a817401
.Lfilter640_CPI2_110:
	.xword	0xbfb39072906b220e
.Lfilter640_CPI2_111:
	.xword	0x3fd82ccb76f32def
.Lfilter640_CPI2_112:
	.xword	0xbfe9b177a6904feb
.Lfilter640_CPI2_113:
	.xword	0x3ff7c04c9f750ec5
.Lfilter640_CPI2_114:
	.xword	0xbfb569b5984f8e41
.Lfilter640_CPI2_115:
	.xword	0x3fd9bc02e1674462
.Lfilter640_CPI2_116:
	.xword	0xbfeaa0ad2864dd46
.Lfilter640_CPI2_117:
	.xword	0x3ff7ebe590764371
.Lfilter640_CPI2_118:
	.xword	0xbfb77f3180d8ed5f
.Lfilter640_CPI2_119:
	.xword	0x3fdb71855faad984
.Lfilter640_CPI2_120:
	.xword	0xbfeba003c69b59ab
.Lfilter640_CPI2_121:
	.xword	0x3ff8191a8b857f7c
.Lfilter640_CPI2_122:
	.xword	0xbfb9daa8153fb04b
.Lfilter640_CPI2_123:
	.xword	0x3fdd5245ec4a3182
.Lfilter640_CPI2_124:
	.xword	0xbfecb11a1c961214
.Lfilter640_CPI2_125:
	.xword	0x3ff84807c924869d
.Lfilter640_CPI2_126:
	.xword	0xbfbc87cc279b3083
.Lfilter640_CPI2_127:
	.xword	0x3fdf64081dc7d151
	.section	.text.filter640.roots.fourth_roots,"ax",@progbits
	.p2align	2
	.type	loamchalice.filter640.roots.fourth_roots,@function
loamchalice.filter640.roots.fourth_roots:
	str	d10, [sp, #-96]!
	stp	d9, d8, [sp, #16]
	stp	x30, x25, [sp, #32]
	stp	x24, x23, [sp, #48]
	stp	x22, x21, [sp, #64]
	stp	x20, x19, [sp, #80]
	sub	sp, sp, #512
	ldp	s0, s1, [x0]
	mov	w9, #2143289344
	mov	x8, xzr
	fmov	s2, s0
	fmov	w10, s0
	fmov	s0, s1
	fmov	w11, s1
	fcmp	s2, s2
	csel	w10, w9, w10, vs
	fcmp	s0, s0
	ldp	s2, s0, [x0, #8]
	str	w10, [sp, #256]
	csel	w11, w9, w11, vs
	fmov	s1, s2
	fmov	w12, s2
	fmov	w13, s0
	str	w11, [sp, #260]
	fcmp	s1, s1
	fmov	s1, s0
	ldp	s2, s0, [x0, #16]
	csel	w12, w9, w12, vs
	fmov	w14, s2
	fmov	w15, s0
	str	w12, [sp, #264]
	fcmp	s1, s1
	fmov	s1, s2
	csel	w13, w9, w13, vs
	str	w13, [sp, #268]
	fcmp	s1, s1
	fmov	s1, s0
	ldp	s2, s0, [x0, #24]
	csel	w14, w9, w14, vs
	fmov	w16, s2
	fmov	w17, s0
	str	w14, [sp, #272]
	fcmp	s1, s1
	fmov	s1, s2
	csel	w15, w9, w15, vs
	str	w15, [sp, #276]
	fcmp	s1, s1
	fmov	s1, s0
	ldp	s2, s0, [x0, #32]
	csel	w16, w9, w16, vs
	fmov	w18, s2
	fmov	w2, s0
	str	w16, [sp, #280]
	fcmp	s1, s1
	fmov	s1, s2
	csel	w17, w9, w17, vs
	str	w17, [sp, #284]
	fcmp	s1, s1
	ldp	q4, q6, [sp, #256]
	fmov	s1, s0
	ldp	s2, s0, [x0, #40]
	csel	w18, w9, w18, vs
	fmov	w3, s2
	fmov	w4, s0
	str	w18, [sp, #288]
	fcmp	s1, s1
	fmov	s1, s2
	csel	w2, w9, w2, vs
	str	w2, [sp, #292]
	fcmp	s1, s1
	fmov	s1, s0
	ldp	s2, s0, [x0, #48]
	csel	w3, w9, w3, vs
	fmov	w5, s2
	fmov	w6, s0
	str	w3, [sp, #296]
	fcmp	s1, s1
	fmov	s1, s2
	csel	w4, w9, w4, vs
	str	w4, [sp, #300]
	fcmp	s1, s1
	fmov	s1, s0
	ldp	s2, s0, [x0, #56]
	csel	w5, w9, w5, vs
	fmov	w7, s2
	fmov	w19, s0
	str	w5, [sp, #304]
	fcmp	s1, s1
	fmov	s1, s2
	csel	w6, w9, w6, vs
	str	w6, [sp, #308]
	fcmp	s1, s1
	fmov	s1, s0
	ldp	s2, s0, [x0, #64]
	csel	w7, w9, w7, vs
	fmov	w20, s2
	fmov	w21, s0
	str	w7, [sp, #312]
	fcmp	s1, s1
	fmov	s1, s2
	csel	w19, w9, w19, vs
	str	w19, [sp, #316]
	fcmp	s1, s1
	fmov	s1, s0
	ldp	s2, s0, [x0, #72]
	csel	w20, w9, w20, vs
	fmov	w22, s2
	fmov	w23, s0
	str	w20, [sp, #320]
	fcmp	s1, s1
	fmov	s1, s2
	csel	w21, w9, w21, vs
	str	w21, [sp, #324]
	fcmp	s1, s1
	fmov	s1, s0
	ldp	s2, s0, [x0, #80]
	csel	w22, w9, w22, vs
	fmov	w24, s2
	fmov	w25, s0
	str	w22, [sp, #328]
	fcmp	s1, s1
	fmov	s1, s2
	fmov	s2, s0
	csel	w23, w9, w23, vs
	str	w23, [sp, #332]
	fcmp	s1, s1
	csel	w24, w9, w24, vs
	fcmp	s2, s2
	ldp	s1, s2, [x0, #88]
	str	w24, [sp, #336]
	csel	w25, w9, w25, vs
	fmov	s3, s1
	fmov	w10, s1
	fmov	s1, s2
	str	w25, [sp, #340]
	fcmp	s3, s3
	csel	w11, w9, w10, vs
	fcmp	s1, s1
	fmov	w10, s2
	ldp	s0, s1, [x0, #96]
	str	w11, [sp, #344]
	csel	w13, w9, w10, vs
	fmov	s3, s0
	fmov	s2, s1
	fmov	w10, s0
	str	w13, [sp, #348]
	fcmp	s3, s3
	csel	w14, w9, w10, vs
	fcmp	s2, s2
	fmov	w10, s1
	ldp	s0, s2, [x0, #104]
	str	w14, [sp, #352]
	csel	w10, w9, w10, vs
	fmov	s3, s0
	fmov	s1, s2
	fmov	w12, s0
	fmov	w15, s2
	str	w10, [sp, #356]
	fcmp	s3, s3
	ldp	s0, s3, [x0, #112]
	csel	w12, w9, w12, vs
	fcmp	s1, s1
	fmov	s1, s0
	fmov	w16, s0
	fmov	s0, s3
	str	w12, [sp, #360]
	csel	w15, w9, w15, vs
	str	w15, [sp, #364]
	fcmp	s1, s1
	movi	v1.4s, #128, lsl #16
	csel	w11, w9, w16, vs
	fmov	w16, s3
	fcmp	s0, s0
	ldp	s2, s3, [x0, #120]
	str	w11, [sp, #368]
	add	v4.4s, v4.4s, v1.4s
	csel	w13, w9, w16, vs
	fmov	s0, s2
	fmov	s5, s3
	fmov	w10, s2
	fmov	w12, s3
	bic	v4.4s, #254, lsl #24
	str	w13, [sp, #372]
	add	v2.4s, v6.4s, v1.4s
	fcmp	s0, s0
	fmov	v0.4s, #1.00000000
	bic	v2.4s, #254, lsl #24
	csel	w10, w9, w10, vs
	fcmp	s5, s5
	ldp	q3, q5, [sp, #288]
	str	w10, [sp, #376]
	add	v16.4s, v4.4s, v0.4s
	add	v19.4s, v2.4s, v0.4s
	csel	w9, w9, w12, vs
	add	v3.4s, v3.4s, v1.4s
	add	v4.4s, v5.4s, v1.4s
	str	w9, [sp, #380]
	ldp	q6, q5, [sp, #320]
	mov	w9, #6144
	ldp	q7, q17, [sp, #352]
	movk	w9, #20312, lsl #16
	bic	v3.4s, #254, lsl #24
	bic	v4.4s, #254, lsl #24
	ushr	v18.4s, v16.4s, #2
	add	v5.4s, v5.4s, v1.4s
	add	v6.4s, v6.4s, v1.4s
	dup	v20.4s, w9
	add	v7.4s, v7.4s, v1.4s
	add	v1.4s, v17.4s, v1.4s
	mov	w9, #54910
	add	v17.4s, v3.4s, v0.4s
	add	v21.4s, v4.4s, v0.4s
	ushr	v3.4s, v19.4s, #2
	bic	v5.4s, #254, lsl #24
	bic	v6.4s, #254, lsl #24
	sub	v2.4s, v20.4s, v18.4s
	bic	v7.4s, #254, lsl #24
	bic	v1.4s, #254, lsl #24
	movk	w9, #15813, lsl #16
	ushr	v4.4s, v17.4s, #2
	sub	v3.4s, v20.4s, v3.4s
	add	v23.4s, v5.4s, v0.4s
	ushr	v5.4s, v21.4s, #2
	add	v22.4s, v6.4s, v0.4s
	add	v18.4s, v7.4s, v0.4s
	add	v24.4s, v1.4s, v0.4s
	fmul	v25.4s, v2.4s, v2.4s
	sub	v4.4s, v20.4s, v4.4s
	fmul	v27.4s, v3.4s, v3.4s
	sub	v1.4s, v20.4s, v5.4s
	ushr	v6.4s, v22.4s, #2
	ushr	v7.4s, v23.4s, #2
	ushr	v26.4s, v18.4s, #2
	ushr	v28.4s, v24.4s, #2
	fmul	v29.4s, v4.4s, v4.4s
	fmul	v30.4s, v1.4s, v1.4s
	sub	v5.4s, v20.4s, v6.4s
	sub	v6.4s, v20.4s, v7.4s
	sub	v7.4s, v20.4s, v26.4s
	fmul	v26.4s, v25.4s, v16.4s
	sub	v16.4s, v20.4s, v28.4s
	fmul	v19.4s, v27.4s, v19.4s
	fmul	v31.4s, v5.4s, v5.4s
	fmul	v28.4s, v6.4s, v6.4s
	fmul	v17.4s, v29.4s, v17.4s
	fmul	v8.4s, v7.4s, v7.4s
	fmul	v20.4s, v30.4s, v21.4s
	fmul	v9.4s, v16.4s, v16.4s
	fmul	v21.4s, v25.4s, v26.4s
	fmul	v19.4s, v27.4s, v19.4s
	dup	v27.4s, w9
	mov	w9, #12968
	fmul	v22.4s, v31.4s, v22.4s
	fmul	v23.4s, v28.4s, v23.4s
	fmul	v17.4s, v29.4s, v17.4s
	fmul	v18.4s, v8.4s, v18.4s
	fmul	v25.4s, v30.4s, v20.4s
	fmul	v26.4s, v9.4s, v24.4s
	fsub	v20.4s, v0.4s, v21.4s
	movk	w9, #15859, lsl #16
	fsub	v24.4s, v0.4s, v19.4s
	fmul	v22.4s, v31.4s, v22.4s
	fmul	v19.4s, v28.4s, v23.4s
	fsub	v21.4s, v0.4s, v17.4s
	fmul	v17.4s, v8.4s, v18.4s
	fsub	v18.4s, v0.4s, v25.4s
	fmul	v25.4s, v9.4s, v26.4s
	fmul	v26.4s, v20.4s, v27.4s
	dup	v28.4s, w9
	mov	w9, #65171
	fmul	v29.4s, v24.4s, v27.4s
	movk	w9, #15903, lsl #16
	fsub	v22.4s, v0.4s, v22.4s
	fsub	v23.4s, v0.4s, v19.4s
	fmul	v30.4s, v21.4s, v27.4s
	fsub	v19.4s, v0.4s, v17.4s
	fmul	v31.4s, v18.4s, v27.4s
	fsub	v17.4s, v0.4s, v25.4s
	fadd	v25.4s, v26.4s, v28.4s
	dup	v10.4s, w9
	mov	w9, #65135
	fadd	v29.4s, v29.4s, v28.4s
	movk	w9, #15999, lsl #16
	movi	v0.2d, #0000000000000000
	fmul	v26.4s, v22.4s, v27.4s
	fmul	v8.4s, v23.4s, v27.4s
	fadd	v30.4s, v30.4s, v28.4s
	fmul	v9.4s, v19.4s, v27.4s
	fadd	v31.4s, v31.4s, v28.4s
	fmul	v27.4s, v17.4s, v27.4s
	fmul	v25.4s, v20.4s, v25.4s
	fmul	v29.4s, v24.4s, v29.4s
	stp	q0, q0, [sp]
	fadd	v26.4s, v26.4s, v28.4s
	fadd	v8.4s, v8.4s, v28.4s
	fmul	v30.4s, v21.4s, v30.4s
	fadd	v9.4s, v9.4s, v28.4s
	fmul	v31.4s, v18.4s, v31.4s
	fadd	v27.4s, v27.4s, v28.4s
	fadd	v25.4s, v25.4s, v10.4s
	stp	q0, q0, [sp, #32]
	fadd	v28.4s, v29.4s, v10.4s
	stp	q0, q0, [sp, #64]
	fmul	v26.4s, v22.4s, v26.4s
	fmul	v29.4s, v23.4s, v8.4s
	fadd	v30.4s, v30.4s, v10.4s
	fmul	v8.4s, v19.4s, v9.4s
	fadd	v31.4s, v31.4s, v10.4s
	fmul	v27.4s, v17.4s, v27.4s
	fmul	v25.4s, v20.4s, v25.4s
	dup	v9.4s, w9
	stp	q0, q0, [sp, #96]
	fmul	v28.4s, v24.4s, v28.4s
	stp	q0, q0, [sp, #128]
	fadd	v26.4s, v26.4s, v10.4s
	fadd	v29.4s, v29.4s, v10.4s
	fmul	v30.4s, v21.4s, v30.4s
	fadd	v8.4s, v8.4s, v10.4s
	fadd	v27.4s, v27.4s, v10.4s
	fmul	v31.4s, v18.4s, v31.4s
	fadd	v25.4s, v25.4s, v9.4s
	stp	q0, q0, [sp, #160]
	fadd	v28.4s, v28.4s, v9.4s
	stp	q0, q0, [sp, #192]
	fmul	v26.4s, v22.4s, v26.4s
	fmul	v29.4s, v23.4s, v29.4s
	fadd	v30.4s, v30.4s, v9.4s
	fmul	v8.4s, v19.4s, v8.4s
	fadd	v31.4s, v31.4s, v9.4s
	fmul	v27.4s, v17.4s, v27.4s
	fmul	v20.4s, v20.4s, v25.4s
	stp	q0, q0, [sp, #224]
	fmul	v24.4s, v24.4s, v28.4s
	stp	q0, q0, [sp, #384]
	fadd	v25.4s, v26.4s, v9.4s
	fadd	v26.4s, v29.4s, v9.4s
	fmul	v21.4s, v21.4s, v30.4s
	fadd	v28.4s, v8.4s, v9.4s
	fmul	v18.4s, v18.4s, v31.4s
	fadd	v27.4s, v27.4s, v9.4s
	fmul	v20.4s, v20.4s, v2.4s
	stp	q0, q0, [sp, #416]
	fmul	v24.4s, v24.4s, v3.4s
	stp	q0, q0, [sp, #448]
	fmul	v22.4s, v22.4s, v25.4s
	fmul	v23.4s, v23.4s, v26.4s
	fmul	v21.4s, v21.4s, v4.4s
	fmul	v19.4s, v19.4s, v28.4s
	fmul	v17.4s, v17.4s, v27.4s
	fmul	v18.4s, v18.4s, v1.4s
	stp	q0, q0, [sp, #480]
	fadd	v2.4s, v20.4s, v2.4s
	fadd	v3.4s, v24.4s, v3.4s
	fmul	v20.4s, v22.4s, v5.4s
	fmul	v22.4s, v23.4s, v6.4s
	fadd	v4.4s, v21.4s, v4.4s
	fmul	v19.4s, v19.4s, v7.4s
	fadd	v0.4s, v18.4s, v1.4s
	fmul	v1.4s, v17.4s, v16.4s
	stp	q2, q3, [sp, #384]
	fadd	v5.4s, v20.4s, v5.4s
	fadd	v2.4s, v22.4s, v6.4s
	fadd	v3.4s, v19.4s, v7.4s
	stp	q4, q0, [sp, #416]
	fadd	v4.4s, v1.4s, v16.4s
	fmov	s0, #1.00000000
	fmov	s1, #1.00000000
	stp	q5, q2, [sp, #448]
	stp	q3, q4, [sp, #480]
.Lfilter640_BB2_1:
	add	x9, sp, #256
	add	x10, sp, #384
	ldr	w9, [x9, x8]
	ldr	s2, [x10, x8]
	mov	w10, #1065353216
	add	w9, w9, #2048, lsl #12
	fmul	s2, s2, s2
	and	w9, w9, #0x1ffffff
	add	w9, w9, w10
	fmov	s3, w9
	mov	w9, #2048
	movk	w9, #17792, lsl #16
	fmov	s5, w9
	fmul	s4, s2, s3
	fmul	s5, s4, s5
	fsub	s6, s4, s5
	fadd	s5, s5, s6
	fmul	s6, s5, s5
	fadd	s7, s4, s5
	fsub	s5, s4, s5
	fsub	s3, s3, s6
	fmul	s5, s7, s5
	fmov	s6, #0.50000000
	fmul	s2, s2, s6
	fsub	s3, s3, s5
	fmul	s2, s2, s3
	fadd	s2, s4, s2
	fmov	s3, s2
	fcmp	s0, s3
	cset	w9, mi
	//APP
	//NO_APP
	cmp	w9, #0
	fcsel	s2, s2, s1, ne
	add	x9, sp, #128
	str	s2, [x1, x8]
	str	s2, [x9, x8]
	add	x8, x8, #4
	cmp	x8, #128
	b.ne	.Lfilter640_BB2_1
	mov	x8, xzr
.Lfilter640_BB2_3:
	add	x9, sp, #384
	ldr	s1, [x1, x8]
	mov	x11, sp
	ldr	s2, [x9, x8]
	mov	w9, #2048
	movk	w9, #17792, lsl #16
	fmul	s3, s1, s2
	fmov	s4, w9
	fmul	s4, s3, s4
	fsub	s5, s4, s3
	fsub	s4, s4, s5
	fmul	s5, s4, s4
	fadd	s6, s3, s4
	fsub	s4, s3, s4
	fsub	s1, s1, s5
	fmul	s4, s6, s4
	fmov	s5, #0.50000000
	fmul	s2, s2, s5
	fsub	s1, s1, s4
	fmul	s1, s2, s1
	fadd	s1, s3, s1
	fmov	s2, s1
	fcmp	s0, s2
	fmov	s2, #1.00000000
	cset	w9, mi
	//APP
	//NO_APP
	cmp	w9, #0
	fcsel	s1, s1, s2, ne
	str	s1, [x11, x8]
	add	x8, x8, #4
	cmp	x8, #128
	b.ne	.Lfilter640_BB2_3
	movi	v0.2d, #0000000000000000
	movi	v1.2d, #0000000000000000
	add	x8, sp, #256
	add	x10, sp, #128
	add	x8, x8, #16
	add	x9, x1, #16
	add	x10, x10, #16
	add	x11, x11, #16
	mov	w12, #32
.Lfilter640_BB2_5:
	movi	v19.4s, #127, msl #16
	fmov	v2.4s, #0.25000000
	mov	w13, #528482304
	ldp	q3, q7, [x10, #-16]
	movi	v18.4s, #128, lsl #16
	ldp	q4, q5, [x8, #-16]
	mvni	v8.4s, #128, lsl #16
	subs	x12, x12, #8
	add	x8, x8, #32
	add	x10, x10, #32
	and	v17.16b, v3.16b, v19.16b
	ldp	q3, q20, [x11, #-16]
	add	v6.4s, v4.4s, v2.4s
	and	v16.16b, v7.16b, v19.16b
	add	v7.4s, v5.4s, v2.4s
	add	x11, x11, #32
	orr	v17.4s, #128, lsl #16
	and	v3.16b, v3.16b, v19.16b
	and	v2.16b, v20.16b, v19.16b
	and	v20.16b, v4.16b, v19.16b
	and	v21.16b, v6.16b, v18.16b
	orr	v16.4s, #128, lsl #16
	ushr	v22.4s, v6.4s, #1
	and	v19.16b, v5.16b, v19.16b
	and	v23.16b, v7.16b, v18.16b
	ushr	v26.4s, v7.4s, #1
	umull	v24.2d, v17.2s, v17.2s
	umull2	v25.2d, v17.4s, v17.4s
	orr	v3.4s, #128, lsl #16
	orr	v20.4s, #128, lsl #16
	add	v21.4s, v21.4s, v18.4s
	orr	v2.4s, #128, lsl #16
	and	v22.16b, v22.16b, v18.16b
	umull	v27.2d, v16.2s, v16.2s
	umull2	v28.2d, v16.4s, v16.4s
	orr	v19.4s, #128, lsl #16
	add	v23.4s, v23.4s, v18.4s
	and	v26.16b, v26.16b, v18.16b
	umlsl2	v25.2d, v21.4s, v20.4s
	umlsl	v24.2d, v21.2s, v20.2s
	add	v20.4s, v22.4s, v18.4s
	umull	v21.2d, v3.2s, v3.2s
	umull2	v22.2d, v3.4s, v3.4s
	umull	v29.2d, v2.2s, v2.2s
	umull2	v30.2d, v2.4s, v2.4s
	umlsl	v27.2d, v23.2s, v19.2s
	add	v18.4s, v26.4s, v18.4s
	umlsl2	v28.2d, v23.4s, v19.4s
	ushr	v6.4s, v6.4s, #2
	uaddw	v19.2d, v24.2d, v17.2s
	mvn	v23.16b, v25.16b
	mvn	v24.16b, v24.16b
	umlsl2	v22.2d, v20.4s, v17.4s
	umlsl	v21.2d, v20.2s, v17.2s
	ushr	v7.4s, v7.4s, #2
	umlsl2	v30.2d, v18.4s, v16.4s
	umlsl	v29.2d, v18.2s, v16.2s
	mvn	v20.16b, v27.16b
	mvn	v26.16b, v28.16b
	uaddw2	v18.2d, v25.2d, v17.4s
	uaddw	v25.2d, v27.2d, v16.2s
	uaddw2	v27.2d, v28.2d, v16.4s
	uaddw	v24.2d, v24.2d, v17.2s
	uaddw2	v17.2d, v23.2d, v17.4s
	uaddw	v20.2d, v20.2d, v16.2s
	mvn	v23.16b, v21.16b
	mvn	v28.16b, v22.16b
	uaddw2	v16.2d, v26.2d, v16.4s
	mvn	v26.16b, v29.16b
	mvn	v31.16b, v30.16b
	uaddw	v21.2d, v21.2d, v3.2s
	uaddw2	v22.2d, v22.2d, v3.4s
	uaddw	v29.2d, v29.2d, v2.2s
	uaddw2	v30.2d, v30.2d, v2.4s
	uaddw2	v28.2d, v28.2d, v3.4s
	uaddw	v23.2d, v23.2d, v3.2s
	uaddw2	v31.2d, v31.2d, v2.4s
	uaddw	v26.2d, v26.2d, v2.2s
	orr	v17.16b, v18.16b, v17.16b
	orr	v18.16b, v19.16b, v24.16b
	orr	v16.16b, v27.16b, v16.16b
	orr	v19.16b, v25.16b, v20.16b
	orr	v20.16b, v28.16b, v22.16b
	orr	v21.16b, v23.16b, v21.16b
	fneg	v24.4s, v8.4s
	orr	v22.16b, v31.16b, v30.16b
	orr	v23.16b, v26.16b, v29.16b
	mvni	v25.4s, #127, msl #16
	orr	v17.16b, v17.16b, v20.16b
	orr	v18.16b, v18.16b, v21.16b
	fmov	v20.4s, #1.00000000
	orr	v16.16b, v16.16b, v22.16b
	orr	v19.16b, v19.16b, v23.16b
	add	v21.4s, v4.4s, v25.4s
	sub	v4.4s, v24.4s, v4.4s
	add	v22.4s, v5.4s, v25.4s
	sub	v5.4s, v24.4s, v5.4s
	uzp2	v17.4s, v18.4s, v17.4s
	uzp2	v16.4s, v19.4s, v16.4s
	and	v6.16b, v6.16b, v20.16b
	and	v7.16b, v7.16b, v20.16b
	orr	v4.16b, v21.16b, v4.16b
	orr	v5.16b, v22.16b, v5.16b
	add	v3.4s, v6.4s, v3.4s
	dup	v6.4s, w13
	add	v2.4s, v7.4s, v2.4s
	orr	v4.16b, v4.16b, v17.16b
	orr	v5.16b, v5.16b, v16.16b
	add	v3.4s, v3.4s, v6.4s
	add	v2.4s, v2.4s, v6.4s
	cmge	v7.4s, v4.4s, #0
	cmge	v6.4s, v5.4s, #0
	usra	v0.4s, v4.4s, #31
	usra	v1.4s, v5.4s, #31
	and	v3.16b, v7.16b, v3.16b
	and	v2.16b, v6.16b, v2.16b
	stp	q3, q2, [x9, #-16]
	add	x9, x9, #32
	b.ne	.Lfilter640_BB2_5
	add	v0.4s, v1.4s, v0.4s
	addv	s0, v0.4s
	fmov	w8, s0
	cbz	w8, .Lfilter640_BB2_67
	movi	d0, #0000000000000000
	mov	x8, xzr
	b	.Lfilter640_BB2_11
.Lfilter640_BB2_8:
	movi	d1, #0000000000000000
.Lfilter640_BB2_9:
	str	s1, [x1, x8, lsl #2]
.Lfilter640_BB2_10:
	add	x8, x8, #1
	cmp	x8, #32
	b.eq	.Lfilter640_BB2_67
.Lfilter640_BB2_11:
	ldr	s1, [x1, x8, lsl #2]
	fcmp	s1, s0
	b.ne	.Lfilter640_BB2_10
	ldr	s1, [x0, x8, lsl #2]
	fmov	s2, s1
	fcmp	s2, s2
	b.vs	.Lfilter640_BB2_65
	fmov	w9, s1
	ands	w10, w9, #0x7fffffff
	b.eq	.Lfilter640_BB2_8
	lsr	w11, w9, #23
	cmp	w11, #254
	b.hi	.Lfilter640_BB2_17
	cbnz	w11, .Lfilter640_BB2_18
	clz	w10, w9
	sub	w11, w10, #8
	lsl	w9, w9, w11
	sub	w9, w9, w10, lsl #23
	mov	w10, #1115684864
	b	.Lfilter640_BB2_19
.Lfilter640_BB2_17:
	mov	w9, #2139095040
	mov	w11, #2143289344
	fmov	s1, w11
	fmov	s2, w9
	cmp	w10, w9
	fcsel	s1, s2, s1, eq
	b	.Lfilter640_BB2_9
.Lfilter640_BB2_18:
	mov	w10, #1048576000
.Lfilter640_BB2_19:
	add	w9, w9, w10
	ubfiz	x10, x9, #29, #32
	orr	x11, x10, #0x3ff0000000000000
	ubfx	w10, w9, #18, #5
	fmov	d1, x11
	adrp	x11, .Lfilter640_JTI2_0
	add	x11, x11, :lo12:.Lfilter640_JTI2_0
.Lfilter640_tmp0:
	adr	x12, .Lfilter640_tmp0
	ldrsw	x13, [x11, x10, lsl #2]
	add	x12, x12, x13
	br	x12
.Lfilter640_BB2_20:
	adrp	x10, .Lfilter640_CPI2_124
	adrp	x11, .Lfilter640_CPI2_127
	ldr	d2, [x10, :lo12:.Lfilter640_CPI2_124]
	adrp	x10, .Lfilter640_CPI2_125
	ldr	d4, [x11, :lo12:.Lfilter640_CPI2_127]
	ldr	d3, [x10, :lo12:.Lfilter640_CPI2_125]
	adrp	x10, .Lfilter640_CPI2_126
	fmul	d2, d1, d2
	fadd	d2, d2, d3
	ldr	d3, [x10, :lo12:.Lfilter640_CPI2_126]
	b	.Lfilter640_BB2_52
.Lfilter640_BB2_21:
	adrp	x10, .Lfilter640_CPI2_16
	adrp	x11, .Lfilter640_CPI2_19
	ldr	d2, [x10, :lo12:.Lfilter640_CPI2_16]
	adrp	x10, .Lfilter640_CPI2_17
	ldr	d4, [x11, :lo12:.Lfilter640_CPI2_19]
	ldr	d3, [x10, :lo12:.Lfilter640_CPI2_17]
	adrp	x10, .Lfilter640_CPI2_18
	fmul	d2, d1, d2
	fadd	d2, d2, d3
	ldr	d3, [x10, :lo12:.Lfilter640_CPI2_18]
	b	.Lfilter640_BB2_52
.Lfilter640_BB2_22:
	adrp	x10, .Lfilter640_CPI2_60
	adrp	x11, .Lfilter640_CPI2_63
	ldr	d2, [x10, :lo12:.Lfilter640_CPI2_60]
	adrp	x10, .Lfilter640_CPI2_61
	ldr	d4, [x11, :lo12:.Lfilter640_CPI2_63]
	ldr	d3, [x10, :lo12:.Lfilter640_CPI2_61]
	adrp	x10, .Lfilter640_CPI2_62
	fmul	d2, d1, d2
	fadd	d2, d2, d3
	ldr	d3, [x10, :lo12:.Lfilter640_CPI2_62]
	b	.Lfilter640_BB2_52
.Lfilter640_BB2_23:
	adrp	x10, .Lfilter640_CPI2_68
	adrp	x11, .Lfilter640_CPI2_71
	ldr	d2, [x10, :lo12:.Lfilter640_CPI2_68]
	adrp	x10, .Lfilter640_CPI2_69
	ldr	d4, [x11, :lo12:.Lfilter640_CPI2_71]
	ldr	d3, [x10, :lo12:.Lfilter640_CPI2_69]
	adrp	x10, .Lfilter640_CPI2_70
	fmul	d2, d1, d2
	fadd	d2, d2, d3
	ldr	d3, [x10, :lo12:.Lfilter640_CPI2_70]
	b	.Lfilter640_BB2_52
.Lfilter640_BB2_24:
	adrp	x10, .Lfilter640_CPI2_80
	adrp	x11, .Lfilter640_CPI2_83
	ldr	d2, [x10, :lo12:.Lfilter640_CPI2_80]
	adrp	x10, .Lfilter640_CPI2_81
	ldr	d4, [x11, :lo12:.Lfilter640_CPI2_83]
	ldr	d3, [x10, :lo12:.Lfilter640_CPI2_81]
	adrp	x10, .Lfilter640_CPI2_82
	fmul	d2, d1, d2
	fadd	d2, d2, d3
	ldr	d3, [x10, :lo12:.Lfilter640_CPI2_82]
	b	.Lfilter640_BB2_52
.Lfilter640_BB2_25:
	adrp	x10, .Lfilter640_CPI2_108
	adrp	x11, .Lfilter640_CPI2_111
	ldr	d2, [x10, :lo12:.Lfilter640_CPI2_108]
	adrp	x10, .Lfilter640_CPI2_109
	ldr	d4, [x11, :lo12:.Lfilter640_CPI2_111]
	ldr	d3, [x10, :lo12:.Lfilter640_CPI2_109]
	adrp	x10, .Lfilter640_CPI2_110
	fmul	d2, d1, d2
	fadd	d2, d2, d3
	ldr	d3, [x10, :lo12:.Lfilter640_CPI2_110]
	b	.Lfilter640_BB2_52
.Lfilter640_BB2_26:
	adrp	x10, .Lfilter640_CPI2_76
	adrp	x11, .Lfilter640_CPI2_79
	ldr	d2, [x10, :lo12:.Lfilter640_CPI2_76]
	adrp	x10, .Lfilter640_CPI2_77
	ldr	d4, [x11, :lo12:.Lfilter640_CPI2_79]
	ldr	d3, [x10, :lo12:.Lfilter640_CPI2_77]
	adrp	x10, .Lfilter640_CPI2_78
	fmul	d2, d1, d2
	fadd	d2, d2, d3
	ldr	d3, [x10, :lo12:.Lfilter640_CPI2_78]
	b	.Lfilter640_BB2_52
.Lfilter640_BB2_27:
	adrp	x10, .Lfilter640_CPI2_88
	adrp	x11, .Lfilter640_CPI2_91
	ldr	d2, [x10, :lo12:.Lfilter640_CPI2_88]
	adrp	x10, .Lfilter640_CPI2_89
	ldr	d4, [x11, :lo12:.Lfilter640_CPI2_91]
	ldr	d3, [x10, :lo12:.Lfilter640_CPI2_89]
	adrp	x10, .Lfilter640_CPI2_90
	fmul	d2, d1, d2
	fadd	d2, d2, d3
	ldr	d3, [x10, :lo12:.Lfilter640_CPI2_90]
	b	.Lfilter640_BB2_52
.Lfilter640_BB2_28:
	adrp	x10, .Lfilter640_CPI2_24
	adrp	x11, .Lfilter640_CPI2_27
	ldr	d2, [x10, :lo12:.Lfilter640_CPI2_24]
	adrp	x10, .Lfilter640_CPI2_25
	ldr	d4, [x11, :lo12:.Lfilter640_CPI2_27]
	ldr	d3, [x10, :lo12:.Lfilter640_CPI2_25]
	adrp	x10, .Lfilter640_CPI2_26
	fmul	d2, d1, d2
	fadd	d2, d2, d3
	ldr	d3, [x10, :lo12:.Lfilter640_CPI2_26]
	b	.Lfilter640_BB2_52
.Lfilter640_BB2_29:
	adrp	x10, .Lfilter640_CPI2_28
	adrp	x11, .Lfilter640_CPI2_31
	ldr	d2, [x10, :lo12:.Lfilter640_CPI2_28]
	adrp	x10, .Lfilter640_CPI2_29
	ldr	d4, [x11, :lo12:.Lfilter640_CPI2_31]
	ldr	d3, [x10, :lo12:.Lfilter640_CPI2_29]
	adrp	x10, .Lfilter640_CPI2_30
	fmul	d2, d1, d2
	fadd	d2, d2, d3
	ldr	d3, [x10, :lo12:.Lfilter640_CPI2_30]
	b	.Lfilter640_BB2_52
.Lfilter640_BB2_30:
	adrp	x10, .Lfilter640_CPI2_116
	adrp	x11, .Lfilter640_CPI2_119
	ldr	d2, [x10, :lo12:.Lfilter640_CPI2_116]
	adrp	x10, .Lfilter640_CPI2_117
	ldr	d4, [x11, :lo12:.Lfilter640_CPI2_119]
	ldr	d3, [x10, :lo12:.Lfilter640_CPI2_117]
	adrp	x10, .Lfilter640_CPI2_118
	fmul	d2, d1, d2
	fadd	d2, d2, d3
	ldr	d3, [x10, :lo12:.Lfilter640_CPI2_118]
	b	.Lfilter640_BB2_52
.Lfilter640_BB2_31:
	adrp	x10, .Lfilter640_CPI2_64
	adrp	x11, .Lfilter640_CPI2_67
	ldr	d2, [x10, :lo12:.Lfilter640_CPI2_64]
	adrp	x10, .Lfilter640_CPI2_65
	ldr	d4, [x11, :lo12:.Lfilter640_CPI2_67]
	ldr	d3, [x10, :lo12:.Lfilter640_CPI2_65]
	adrp	x10, .Lfilter640_CPI2_66
	fmul	d2, d1, d2
	fadd	d2, d2, d3
	ldr	d3, [x10, :lo12:.Lfilter640_CPI2_66]
	b	.Lfilter640_BB2_52
.Lfilter640_BB2_32:
	adrp	x10, .Lfilter640_CPI2_112
	adrp	x11, .Lfilter640_CPI2_115
	ldr	d2, [x10, :lo12:.Lfilter640_CPI2_112]
	adrp	x10, .Lfilter640_CPI2_113
	ldr	d4, [x11, :lo12:.Lfilter640_CPI2_115]
	ldr	d3, [x10, :lo12:.Lfilter640_CPI2_113]
	adrp	x10, .Lfilter640_CPI2_114
	fmul	d2, d1, d2
	fadd	d2, d2, d3
	ldr	d3, [x10, :lo12:.Lfilter640_CPI2_114]
	b	.Lfilter640_BB2_52
.Lfilter640_BB2_33:
	adrp	x10, .Lfilter640_CPI2_96
	adrp	x11, .Lfilter640_CPI2_99
	ldr	d2, [x10, :lo12:.Lfilter640_CPI2_96]
	adrp	x10, .Lfilter640_CPI2_97
	ldr	d4, [x11, :lo12:.Lfilter640_CPI2_99]
	ldr	d3, [x10, :lo12:.Lfilter640_CPI2_97]
	adrp	x10, .Lfilter640_CPI2_98
	fmul	d2, d1, d2
	fadd	d2, d2, d3
	ldr	d3, [x10, :lo12:.Lfilter640_CPI2_98]
	b	.Lfilter640_BB2_52
.Lfilter640_BB2_34:
	adrp	x10, .Lfilter640_CPI2_120
	adrp	x11, .Lfilter640_CPI2_123
	ldr	d2, [x10, :lo12:.Lfilter640_CPI2_120]
	adrp	x10, .Lfilter640_CPI2_121
	ldr	d4, [x11, :lo12:.Lfilter640_CPI2_123]
	ldr	d3, [x10, :lo12:.Lfilter640_CPI2_121]
	adrp	x10, .Lfilter640_CPI2_122
	fmul	d2, d1, d2
	fadd	d2, d2, d3
	ldr	d3, [x10, :lo12:.Lfilter640_CPI2_122]
	b	.Lfilter640_BB2_52
.Lfilter640_BB2_35:
	adrp	x10, .Lfilter640_CPI2_0
	adrp	x11, .Lfilter640_CPI2_3
	ldr	d2, [x10, :lo12:.Lfilter640_CPI2_0]
	adrp	x10, .Lfilter640_CPI2_1
	ldr	d4, [x11, :lo12:.Lfilter640_CPI2_3]
	ldr	d3, [x10, :lo12:.Lfilter640_CPI2_1]
	adrp	x10, .Lfilter640_CPI2_2
	fmul	d2, d1, d2
	fadd	d2, d2, d3
	ldr	d3, [x10, :lo12:.Lfilter640_CPI2_2]
	b	.Lfilter640_BB2_52
.Lfilter640_BB2_36:
	adrp	x10, .Lfilter640_CPI2_56
	adrp	x11, .Lfilter640_CPI2_59
	ldr	d2, [x10, :lo12:.Lfilter640_CPI2_56]
	adrp	x10, .Lfilter640_CPI2_57
	ldr	d4, [x11, :lo12:.Lfilter640_CPI2_59]
	ldr	d3, [x10, :lo12:.Lfilter640_CPI2_57]
	adrp	x10, .Lfilter640_CPI2_58
	fmul	d2, d1, d2
	fadd	d2, d2, d3
	ldr	d3, [x10, :lo12:.Lfilter640_CPI2_58]
	b	.Lfilter640_BB2_52
.Lfilter640_BB2_37:
	adrp	x10, .Lfilter640_CPI2_44
	adrp	x11, .Lfilter640_CPI2_47
	ldr	d2, [x10, :lo12:.Lfilter640_CPI2_44]
	adrp	x10, .Lfilter640_CPI2_45
	ldr	d4, [x11, :lo12:.Lfilter640_CPI2_47]
	ldr	d3, [x10, :lo12:.Lfilter640_CPI2_45]
	adrp	x10, .Lfilter640_CPI2_46
	fmul	d2, d1, d2
	fadd	d2, d2, d3
	ldr	d3, [x10, :lo12:.Lfilter640_CPI2_46]
	b	.Lfilter640_BB2_52
.Lfilter640_BB2_38:
	adrp	x10, .Lfilter640_CPI2_104
	adrp	x11, .Lfilter640_CPI2_107
	ldr	d2, [x10, :lo12:.Lfilter640_CPI2_104]
	adrp	x10, .Lfilter640_CPI2_105
	ldr	d4, [x11, :lo12:.Lfilter640_CPI2_107]
	ldr	d3, [x10, :lo12:.Lfilter640_CPI2_105]
	adrp	x10, .Lfilter640_CPI2_106
	fmul	d2, d1, d2
	fadd	d2, d2, d3
	ldr	d3, [x10, :lo12:.Lfilter640_CPI2_106]
	b	.Lfilter640_BB2_52
.Lfilter640_BB2_39:
	adrp	x10, .Lfilter640_CPI2_40
	adrp	x11, .Lfilter640_CPI2_43
	ldr	d2, [x10, :lo12:.Lfilter640_CPI2_40]
	adrp	x10, .Lfilter640_CPI2_41
	ldr	d4, [x11, :lo12:.Lfilter640_CPI2_43]
	ldr	d3, [x10, :lo12:.Lfilter640_CPI2_41]
	adrp	x10, .Lfilter640_CPI2_42
	fmul	d2, d1, d2
	fadd	d2, d2, d3
	ldr	d3, [x10, :lo12:.Lfilter640_CPI2_42]
	b	.Lfilter640_BB2_52
.Lfilter640_BB2_40:
	adrp	x10, .Lfilter640_CPI2_72
	adrp	x11, .Lfilter640_CPI2_75
	ldr	d2, [x10, :lo12:.Lfilter640_CPI2_72]
	adrp	x10, .Lfilter640_CPI2_73
	ldr	d4, [x11, :lo12:.Lfilter640_CPI2_75]
	ldr	d3, [x10, :lo12:.Lfilter640_CPI2_73]
	adrp	x10, .Lfilter640_CPI2_74
	fmul	d2, d1, d2
	fadd	d2, d2, d3
	ldr	d3, [x10, :lo12:.Lfilter640_CPI2_74]
	b	.Lfilter640_BB2_52
.Lfilter640_BB2_41:
	adrp	x10, .Lfilter640_CPI2_100
	adrp	x11, .Lfilter640_CPI2_103
	ldr	d2, [x10, :lo12:.Lfilter640_CPI2_100]
	adrp	x10, .Lfilter640_CPI2_101
	ldr	d4, [x11, :lo12:.Lfilter640_CPI2_103]
	ldr	d3, [x10, :lo12:.Lfilter640_CPI2_101]
	adrp	x10, .Lfilter640_CPI2_102
	fmul	d2, d1, d2
	fadd	d2, d2, d3
	ldr	d3, [x10, :lo12:.Lfilter640_CPI2_102]
	b	.Lfilter640_BB2_52
.Lfilter640_BB2_42:
	adrp	x10, .Lfilter640_CPI2_52
	adrp	x11, .Lfilter640_CPI2_55
	ldr	d2, [x10, :lo12:.Lfilter640_CPI2_52]
	adrp	x10, .Lfilter640_CPI2_53
	ldr	d4, [x11, :lo12:.Lfilter640_CPI2_55]
	ldr	d3, [x10, :lo12:.Lfilter640_CPI2_53]
	adrp	x10, .Lfilter640_CPI2_54
	fmul	d2, d1, d2
	fadd	d2, d2, d3
	ldr	d3, [x10, :lo12:.Lfilter640_CPI2_54]
	b	.Lfilter640_BB2_52
.Lfilter640_BB2_43:
	adrp	x10, .Lfilter640_CPI2_84
	adrp	x11, .Lfilter640_CPI2_87
	ldr	d2, [x10, :lo12:.Lfilter640_CPI2_84]
	adrp	x10, .Lfilter640_CPI2_85
	ldr	d4, [x11, :lo12:.Lfilter640_CPI2_87]
	ldr	d3, [x10, :lo12:.Lfilter640_CPI2_85]
	adrp	x10, .Lfilter640_CPI2_86
	fmul	d2, d1, d2
	fadd	d2, d2, d3
	ldr	d3, [x10, :lo12:.Lfilter640_CPI2_86]
	b	.Lfilter640_BB2_52
.Lfilter640_BB2_44:
	adrp	x10, .Lfilter640_CPI2_92
	adrp	x11, .Lfilter640_CPI2_95
	ldr	d2, [x10, :lo12:.Lfilter640_CPI2_92]
	adrp	x10, .Lfilter640_CPI2_93
	ldr	d4, [x11, :lo12:.Lfilter640_CPI2_95]
	ldr	d3, [x10, :lo12:.Lfilter640_CPI2_93]
	adrp	x10, .Lfilter640_CPI2_94
	fmul	d2, d1, d2
	fadd	d2, d2, d3
	ldr	d3, [x10, :lo12:.Lfilter640_CPI2_94]
	b	.Lfilter640_BB2_52
.Lfilter640_BB2_45:
	adrp	x10, .Lfilter640_CPI2_4
	adrp	x11, .Lfilter640_CPI2_7
	ldr	d2, [x10, :lo12:.Lfilter640_CPI2_4]
	adrp	x10, .Lfilter640_CPI2_5
	ldr	d4, [x11, :lo12:.Lfilter640_CPI2_7]
	ldr	d3, [x10, :lo12:.Lfilter640_CPI2_5]
	adrp	x10, .Lfilter640_CPI2_6
	fmul	d2, d1, d2
	fadd	d2, d2, d3
	ldr	d3, [x10, :lo12:.Lfilter640_CPI2_6]
	b	.Lfilter640_BB2_52
.Lfilter640_BB2_46:
	adrp	x10, .Lfilter640_CPI2_36
	adrp	x11, .Lfilter640_CPI2_39
	ldr	d2, [x10, :lo12:.Lfilter640_CPI2_36]
	adrp	x10, .Lfilter640_CPI2_37
	ldr	d4, [x11, :lo12:.Lfilter640_CPI2_39]
	ldr	d3, [x10, :lo12:.Lfilter640_CPI2_37]
	adrp	x10, .Lfilter640_CPI2_38
	fmul	d2, d1, d2
	fadd	d2, d2, d3
	ldr	d3, [x10, :lo12:.Lfilter640_CPI2_38]
	b	.Lfilter640_BB2_52
.Lfilter640_BB2_47:
	adrp	x10, .Lfilter640_CPI2_48
	adrp	x11, .Lfilter640_CPI2_51
	ldr	d2, [x10, :lo12:.Lfilter640_CPI2_48]
	adrp	x10, .Lfilter640_CPI2_49
	ldr	d4, [x11, :lo12:.Lfilter640_CPI2_51]
	ldr	d3, [x10, :lo12:.Lfilter640_CPI2_49]
	adrp	x10, .Lfilter640_CPI2_50
	fmul	d2, d1, d2
	fadd	d2, d2, d3
	ldr	d3, [x10, :lo12:.Lfilter640_CPI2_50]
	b	.Lfilter640_BB2_52
.Lfilter640_BB2_48:
	adrp	x10, .Lfilter640_CPI2_32
	adrp	x11, .Lfilter640_CPI2_35
	ldr	d2, [x10, :lo12:.Lfilter640_CPI2_32]
	adrp	x10, .Lfilter640_CPI2_33
	ldr	d4, [x11, :lo12:.Lfilter640_CPI2_35]
	ldr	d3, [x10, :lo12:.Lfilter640_CPI2_33]
	adrp	x10, .Lfilter640_CPI2_34
	fmul	d2, d1, d2
	fadd	d2, d2, d3
	ldr	d3, [x10, :lo12:.Lfilter640_CPI2_34]
	b	.Lfilter640_BB2_52
.Lfilter640_BB2_49:
	adrp	x10, .Lfilter640_CPI2_12
	adrp	x11, .Lfilter640_CPI2_15
	ldr	d2, [x10, :lo12:.Lfilter640_CPI2_12]
	adrp	x10, .Lfilter640_CPI2_13
	ldr	d4, [x11, :lo12:.Lfilter640_CPI2_15]
	ldr	d3, [x10, :lo12:.Lfilter640_CPI2_13]
	adrp	x10, .Lfilter640_CPI2_14
	fmul	d2, d1, d2
	fadd	d2, d2, d3
	ldr	d3, [x10, :lo12:.Lfilter640_CPI2_14]
	b	.Lfilter640_BB2_52
.Lfilter640_BB2_50:
	adrp	x10, .Lfilter640_CPI2_8
	adrp	x11, .Lfilter640_CPI2_11
	ldr	d2, [x10, :lo12:.Lfilter640_CPI2_8]
	adrp	x10, .Lfilter640_CPI2_9
	ldr	d4, [x11, :lo12:.Lfilter640_CPI2_11]
	ldr	d3, [x10, :lo12:.Lfilter640_CPI2_9]
	adrp	x10, .Lfilter640_CPI2_10
	fmul	d2, d1, d2
	fadd	d2, d2, d3
	ldr	d3, [x10, :lo12:.Lfilter640_CPI2_10]
	b	.Lfilter640_BB2_52
.Lfilter640_BB2_51:
	adrp	x10, .Lfilter640_CPI2_20
	adrp	x11, .Lfilter640_CPI2_23
	ldr	d2, [x10, :lo12:.Lfilter640_CPI2_20]
	adrp	x10, .Lfilter640_CPI2_21
	ldr	d4, [x11, :lo12:.Lfilter640_CPI2_23]
	ldr	d3, [x10, :lo12:.Lfilter640_CPI2_21]
	adrp	x10, .Lfilter640_CPI2_22
	fmul	d2, d1, d2
	fadd	d2, d2, d3
	ldr	d3, [x10, :lo12:.Lfilter640_CPI2_22]
.Lfilter640_BB2_52:
	fmul	d3, d3, d1
	fmul	d5, d1, d1
	ubfx	w10, w9, #23, #2
	adrp	x11, .Lfilter640_switch.table.roots.fourth_roots
	add	x11, x11, :lo12:.Lfilter640_switch.table.roots.fourth_roots
	fadd	d3, d4, d3
	ldr	d4, [x11, w10, uxtw #3]
	mov	x11, #4841369599423283200
	fmul	d1, d4, d1
	fmov	d4, x11
	mov	x11, #-4382002437431492608
	fmul	d3, d5, d3
	fmov	d5, x11
	adrp	x11, .Lfilter640_switch.table.roots.fourth_roots.9
	add	x11, x11, :lo12:.Lfilter640_switch.table.roots.fourth_roots.9
	ldr	d6, [x11, w10, uxtw #3]
	fadd	d2, d2, d3
	fmul	d1, d2, d1
	fmul	d3, d2, d1
	fmul	d2, d2, d6
	fadd	d1, d3, d4
	fadd	d5, d1, d5
	fadd	d3, d3, d5
	fmul	d2, d3, d2
	fadd	d2, d2, d4
	fmov	d3, d2
	fcmp	d3, d3
	b.vs	.Lfilter640_BB2_66
	fmov	x10, d1
	fmov	x12, d2
	mov	w11, w10
	mov	w10, w12
.Lfilter640_BB2_54:
	and	w12, w9, #0x7fffff
	and	w13, w9, #0x800000
	umaddl	x14, w11, w11, x11
	orr	w12, w12, #0x800000
	add	w13, w13, #2048, lsl #12
	umsubl	x14, w12, w13, x14
	cmp	x14, x11, lsl #1
	b.hs	.Lfilter640_BB2_56
	mov	x13, x11
	b	.Lfilter640_BB2_59
.Lfilter640_BB2_56:
	umull	x12, w12, w13
	add	x14, x11, #1
.Lfilter640_BB2_57:
	mov	x13, x11
	add	x11, x11, #1
	mul	x15, x11, x13
	mov	x13, x14
	add	x14, x14, #1
	cmp	x15, x12
	b.lo	.Lfilter640_BB2_57
.Lfilter640_BB2_58:
	sub	x13, x13, #1
	mul	x11, x13, x13
	add	x14, x12, x13
	cmp	x14, x11
	b.ls	.Lfilter640_BB2_58
.Lfilter640_BB2_59:
	lsr	w11, w9, #1
	umaddl	x12, w10, w10, x10
	and	w11, w11, #0x800000
	add	w11, w11, #2048, lsl #12
	mul	x11, x13, x11
	sub	x12, x12, x11
	cmp	x12, x10, lsl #1
	b.hs	.Lfilter640_BB2_61
	mov	x12, x10
	b	.Lfilter640_BB2_64
.Lfilter640_BB2_61:
	add	x13, x10, #1
.Lfilter640_BB2_62:
	mov	x12, x10
	add	x10, x10, #1
	mul	x14, x10, x12
	mov	x12, x13
	add	x13, x13, #1
	cmp	x14, x11
	b.lo	.Lfilter640_BB2_62
.Lfilter640_BB2_63:
	sub	x12, x12, #1
	mul	x10, x12, x12
	add	x13, x11, x12
	cmp	x13, x10
	b.ls	.Lfilter640_BB2_63
.Lfilter640_BB2_64:
	lsr	w9, w9, #25
	mov	w10, #528482304
	add	w9, w12, w9, lsl #23
	add	w9, w9, w10
	fmov	s1, w9
	b	.Lfilter640_BB2_9
.Lfilter640_BB2_65:
	mov	w9, #2143289344
	fmov	s1, w9
	b	.Lfilter640_BB2_9
.Lfilter640_BB2_66:
	mov	w10, #8388608
	mov	w11, #8388608
	bfxil	w11, w9, #1, #22
	bfxil	w10, w9, #2, #21
	b	.Lfilter640_BB2_54
.Lfilter640_BB2_67:
	add	sp, sp, #512
	ldp	x20, x19, [sp, #80]
	ldp	x22, x21, [sp, #64]
	ldp	x24, x23, [sp, #48]
	ldp	x30, x25, [sp, #32]
	ldp	d9, d8, [sp, #16]
	ldr	d10, [sp], #96
	ret
.Lfilter640_func_end2:
	.size	loamchalice.filter640.roots.fourth_roots, .Lfilter640_func_end2-loamchalice.filter640.roots.fourth_roots
	.section	.rodata.filter640.roots.fourth_roots,"a",@progbits
	.p2align	2, 0x0
.Lfilter640_JTI2_0:
	.word	.Lfilter640_BB2_20-.Lfilter640_tmp0
	.word	.Lfilter640_BB2_34-.Lfilter640_tmp0
	.word	.Lfilter640_BB2_30-.Lfilter640_tmp0
	.word	.Lfilter640_BB2_32-.Lfilter640_tmp0
	.word	.Lfilter640_BB2_25-.Lfilter640_tmp0
	.word	.Lfilter640_BB2_38-.Lfilter640_tmp0
	.word	.Lfilter640_BB2_41-.Lfilter640_tmp0
	.word	.Lfilter640_BB2_33-.Lfilter640_tmp0
	.word	.Lfilter640_BB2_44-.Lfilter640_tmp0
	.word	.Lfilter640_BB2_27-.Lfilter640_tmp0
	.word	.Lfilter640_BB2_43-.Lfilter640_tmp0
	.word	.Lfilter640_BB2_24-.Lfilter640_tmp0
	.word	.Lfilter640_BB2_26-.Lfilter640_tmp0
	.word	.Lfilter640_BB2_40-.Lfilter640_tmp0
	.word	.Lfilter640_BB2_23-.Lfilter640_tmp0
	.word	.Lfilter640_BB2_31-.Lfilter640_tmp0
	.word	.Lfilter640_BB2_22-.Lfilter640_tmp0
	.word	.Lfilter640_BB2_36-.Lfilter640_tmp0
	.word	.Lfilter640_BB2_42-.Lfilter640_tmp0
	.word	.Lfilter640_BB2_47-.Lfilter640_tmp0
	.word	.Lfilter640_BB2_37-.Lfilter640_tmp0
	.word	.Lfilter640_BB2_39-.Lfilter640_tmp0
	.word	.Lfilter640_BB2_46-.Lfilter640_tmp0
	.word	.Lfilter640_BB2_48-.Lfilter640_tmp0
	.word	.Lfilter640_BB2_29-.Lfilter640_tmp0
	.word	.Lfilter640_BB2_28-.Lfilter640_tmp0
	.word	.Lfilter640_BB2_51-.Lfilter640_tmp0
	.word	.Lfilter640_BB2_21-.Lfilter640_tmp0
	.word	.Lfilter640_BB2_49-.Lfilter640_tmp0
	.word	.Lfilter640_BB2_50-.Lfilter640_tmp0
	.word	.Lfilter640_BB2_45-.Lfilter640_tmp0
	.word	.Lfilter640_BB2_35-.Lfilter640_tmp0

	.section	.text.filter640.pixels.degrees_block,"ax",@progbits
	.p2align	2
	.type	loamchalice.filter640.pixels.degrees_block,@function
loamchalice.filter640.pixels.degrees_block:
	stp	x29, x30, [sp, #-32]!
	str	x19, [sp, #16]
	mov	x29, sp
	mov	x19, x1
	bl	loamchalice.filter640.roots.fourth_roots
	mov	w8, #37683
	ldp	q1, q2, [x19]
	movk	w8, #50056, lsl #16
	ldp	q3, q4, [x19, #32]
	dup	v0.4s, w8
	ldp	q5, q6, [x19, #64]
	fadd	v1.4s, v1.4s, v0.4s
	fadd	v2.4s, v2.4s, v0.4s
	fadd	v3.4s, v3.4s, v0.4s
	fadd	v4.4s, v4.4s, v0.4s
	fadd	v5.4s, v5.4s, v0.4s
	stp	q1, q2, [x19]
	ldp	q7, q1, [x19, #96]
	fadd	v2.4s, v6.4s, v0.4s
	stp	q3, q4, [x19, #32]
	fadd	v3.4s, v7.4s, v0.4s
	fadd	v0.4s, v1.4s, v0.4s
	stp	q5, q2, [x19, #64]
	stp	q3, q0, [x19, #96]
	ldr	x19, [sp, #16]
	ldp	x29, x30, [sp], #32
	ret
.Lfilter640_func_end3:
	.size	loamchalice.filter640.pixels.degrees_block, .Lfilter640_func_end3-loamchalice.filter640.pixels.degrees_block

	.section	.text.loamchalice_mlx90640_filtered_pixels_to_ir_data,"ax",@progbits
	.globl	loamchalice_mlx90640_filtered_pixels_to_ir_data
	.p2align	2
	.type	loamchalice_mlx90640_filtered_pixels_to_ir_data,@function
loamchalice_mlx90640_filtered_pixels_to_ir_data:
	sub	sp, sp, #336
	stp	x29, x30, [sp, #288]
	add	x29, sp, #288
	cmp	x2, #0
	mov	w16, #4096
	ldr	x12, [x29, #48]
	stp	x20, x19, [sp, #320]
	csel	x11, x16, xzr, eq
	cmp	x4, #0
	mov	x19, x8
	csel	x8, x16, xzr, eq
	cmp	x6, #0
	ldr	x13, [x29, #64]
	movi	d0, #0000000000000000
	csel	x14, x16, xzr, eq
	cmp	x12, #0
	ldrb	w17, [x0, #137]
	ldp	s2, s1, [x0, #32]
	csel	x15, x16, xzr, eq
	cmp	x13, #0
	ldrb	w18, [x1, #28]
	csel	x16, x16, xzr, eq
	cmp	w17, #0
	mov	x10, x5
	ldp	q3, q4, [x0, #48]
	mov	x5, x3
	mov	x9, x2
	add	x17, x1, #20
	add	x2, x1, #24
	cset	w3, ne
	fcsel	s2, s2, s0, ne
	cmp	w18, #0
	str	x28, [sp, #304]
	csel	x17, x17, x2, eq
	ldr	x18, [x0, #112]
	ldr	s0, [x17]
	stur	q3, [sp, #152]
	add	x17, sp, #112
	stur	q4, [sp, #168]
	ldp	q3, q4, [x0, #80]
	ldr	w2, [x0, #132]
	stur	x18, [x17, #132]
	ldr	x18, [x0, #120]
	ldrb	w20, [x0, #136]
	str	w3, [sp, #204]
	ldrb	w3, [x1, #43]
	stur	q3, [x17, #100]
	ldr	q3, [x0]
	add	x8, x4, x8
	stur	q4, [x17, #116]
	add	x14, x6, x14
	add	x12, x12, x15
	stur	q3, [sp, #120]
	ldp	d4, d3, [x0, #16]
	str	w2, [sp, #112]
	ldr	x2, [x0, #40]
	add	x13, x13, x16
	str	x18, [sp, #144]
	ldr	w18, [x0, #128]
	ldrsh	w0, [x1, #40]
	stur	d3, [x17, #84]
	movi	v3.2d, #0000000000000000
	ldr	x17, [x29, #56]
	str	x2, [sp, #184]
	ldrb	w2, [x1, #42]
	add	x4, x9, x11
	str	w18, [sp, #192]
	ldr	x18, [x1]
	mov	x6, x8
	str	s2, [sp, #208]
	ldr	s2, [x1, #16]
	str	s1, [sp, #252]
	ldr	d1, [x1, #8]
	stp	q3, q3, [x29, #-32]
	scvtf	s3, w0
	strb	w20, [sp, #116]
	cset	w20, eq
	cmp	w2, #0
	str	x18, [sp, #80]
	ldrb	w18, [x1, #52]
	str	d1, [sp, #64]
	ldr	s1, [x1, #48]
	str	s2, [sp, #72]
	ldr	d2, [x1, #32]
	cset	w1, ne
	cmp	w3, #0
	str	s0, [sp, #92]
	mov	w3, wzr
	cset	w2, eq
	cmp	w18, #0
	ldr	x18, [x29, #72]
	fcsel	s0, s3, s1, eq
	strh	w0, [sp, #104]
	sub	x0, x29, #32
	strb	w1, [sp, #106]
	add	x1, sp, #112
	strb	w2, [sp, #107]
	add	x2, sp, #64
	stp	x14, x7, [sp, #16]
	mov	x7, x10
	strb	wzr, [sp, #119]
	sturh	wzr, [sp, #117]
	str	d4, [sp, #136]
	str	wzr, [sp, #76]
	str	w20, [sp, #88]
	str	d2, [sp, #96]
	str	wzr, [sp, #108]
	stp	x13, x18, [sp, #48]
	stp	x12, x17, [sp, #32]
	stp	x8, x10, [sp]
	bl	loamchalice.filter640.frames640.from_pixels
	ldurb	w9, [x29, #-32]
	ldur	w11, [x29, #-24]
	ldur	x8, [x29, #-16]
	cbz	w9, .Lfilter640_BB4_3
	lsr	x13, x11, #16
	and	x11, x11, #0xff
	adrp	x14, .Lfilter640_JTI4_0
	add	x14, x14, :lo12:.Lfilter640_JTI4_0
	ldurh	w12, [x29, #-8]
	mov	w10, #1
	adr	x15, .Lfilter640_BB4_2
	ldrb	w16, [x14, x11]
	add	x15, x15, x16, lsl #2
	mov	w9, wzr
	br	x15
.Lfilter640_BB4_2:
	mov	x8, xzr
	mov	w9, wzr
	mov	w10, #2
	b	.Lfilter640_BB4_17
.Lfilter640_BB4_3:
	mov	x10, xzr
	mov	x12, xzr
	mov	x9, xzr
	b	.Lfilter640_BB4_18
.Lfilter640_BB4_4:
	mov	w9, wzr
	mov	w10, #13
	b	.Lfilter640_BB4_17
.Lfilter640_BB4_5:
	mov	w9, wzr
	mov	w10, #10
	b	.Lfilter640_BB4_17
.Lfilter640_BB4_6:
	mov	w9, wzr
	mov	w10, #4
	mov	x8, x13
	b	.Lfilter640_BB4_17
.Lfilter640_BB4_7:
	mov	w9, wzr
	mov	w10, #11
	b	.Lfilter640_BB4_17
.Lfilter640_BB4_8:
	mov	w9, wzr
	mov	w8, w13
	mov	w10, #9
	b	.Lfilter640_BB4_17
.Lfilter640_BB4_9:
	mov	w9, wzr
	mov	w10, #14
	b	.Lfilter640_BB4_17
.Lfilter640_BB4_10:
	mov	w10, #3
	mov	w9, w12
	b	.Lfilter640_BB4_17
.Lfilter640_BB4_11:
	mov	x8, xzr
	mov	w9, wzr
	mov	w10, #7
	b	.Lfilter640_BB4_17
.Lfilter640_BB4_12:
	mov	w9, wzr
	mov	w10, #5
	b	.Lfilter640_BB4_17
.Lfilter640_BB4_13:
	mov	w9, wzr
	mov	w10, #12
	b	.Lfilter640_BB4_17
.Lfilter640_BB4_14:
	mov	w9, wzr
	mov	w10, #6
	b	.Lfilter640_BB4_17
.Lfilter640_BB4_15:
	mov	w10, #9
	mov	w9, w12
	b	.Lfilter640_BB4_17
.Lfilter640_BB4_16:
	mov	x8, xzr
	mov	w9, wzr
	mov	w10, #8
.Lfilter640_BB4_17:
	mov	w11, wzr
	mov	w9, w9
	mov	x12, x8
	mov	x8, xzr
.Lfilter640_BB4_18:
	stp	x10, x12, [x19]
	ldp	x29, x30, [sp, #288]
	stp	x9, x8, [x19, #16]
	ldr	x28, [sp, #304]
	stp	w11, wzr, [x19, #32]
	ldp	x20, x19, [sp, #320]
	add	sp, sp, #336
	ret
.Lfilter640_func_end4:
	.size	loamchalice_mlx90640_filtered_pixels_to_ir_data, .Lfilter640_func_end4-loamchalice_mlx90640_filtered_pixels_to_ir_data
	.section	.rodata.loamchalice_mlx90640_filtered_pixels_to_ir_data,"a",@progbits
.Lfilter640_JTI4_0:
	.byte	(.Lfilter640_BB4_17-.Lfilter640_BB4_2)>>2
	.byte	(.Lfilter640_BB4_17-.Lfilter640_BB4_2)>>2
	.byte	(.Lfilter640_BB4_2-.Lfilter640_BB4_2)>>2
	.byte	(.Lfilter640_BB4_10-.Lfilter640_BB4_2)>>2
	.byte	(.Lfilter640_BB4_6-.Lfilter640_BB4_2)>>2
	.byte	(.Lfilter640_BB4_12-.Lfilter640_BB4_2)>>2
	.byte	(.Lfilter640_BB4_14-.Lfilter640_BB4_2)>>2
	.byte	(.Lfilter640_BB4_11-.Lfilter640_BB4_2)>>2
	.byte	(.Lfilter640_BB4_16-.Lfilter640_BB4_2)>>2
	.byte	(.Lfilter640_BB4_8-.Lfilter640_BB4_2)>>2
	.byte	(.Lfilter640_BB4_15-.Lfilter640_BB4_2)>>2
	.byte	(.Lfilter640_BB4_5-.Lfilter640_BB4_2)>>2
	.byte	(.Lfilter640_BB4_7-.Lfilter640_BB4_2)>>2
	.byte	(.Lfilter640_BB4_13-.Lfilter640_BB4_2)>>2
	.byte	(.Lfilter640_BB4_4-.Lfilter640_BB4_2)>>2
	.byte	(.Lfilter640_BB4_9-.Lfilter640_BB4_2)>>2

	.section	.text.loamchalice_mlx90640_filtered_pixels_to_ranged_temperatures,"ax",@progbits
	.globl	loamchalice_mlx90640_filtered_pixels_to_ranged_temperatures
	.p2align	2
	.type	loamchalice_mlx90640_filtered_pixels_to_ranged_temperatures,@function
loamchalice_mlx90640_filtered_pixels_to_ranged_temperatures:
	sub	sp, sp, #352
	stp	x29, x30, [sp, #288]
	add	x29, sp, #288
	mov	x11, x2
	cmp	x2, #0
	mov	w2, #4096
	stp	x20, x19, [sp, #336]
	mov	x19, x8
	ldr	x13, [x29, #64]
	csel	x8, x2, xzr, eq
	cmp	x4, #0
	ldr	x14, [x29, #80]
	ldr	x15, [x29, #96]
	csel	x12, x2, xzr, eq
	cmp	x6, #0
	movi	d0, #0000000000000000
	csel	x16, x2, xzr, eq
	cmp	x13, #0
	mov	x9, x5
	mov	x5, x3
	csel	x17, x2, xzr, eq
	cmp	x14, #0
	ldrb	w3, [x0, #137]
	ldp	s2, s1, [x0, #32]
	mov	x10, x4
	csel	x18, x2, xzr, eq
	cmp	x15, #0
	ldrb	w4, [x1, #28]
	csel	x2, x2, xzr, eq
	cmp	w3, #0
	ldp	q3, q4, [x0, #48]
	stp	x22, x21, [sp, #320]
	add	x3, x1, #20
	add	x20, x1, #24
	cset	w21, ne
	fcsel	s2, s2, s0, ne
	cmp	w4, #0
	stp	x28, x23, [sp, #304]
	csel	x3, x3, x20, eq
	ldr	w20, [x0, #132]
	ldr	x4, [x0, #112]
	ldr	s0, [x3]
	stur	q3, [sp, #152]
	add	x3, sp, #112
	stur	q4, [sp, #168]
	ldp	q3, q4, [x0, #80]
	str	w20, [sp, #112]
	ldr	x20, [x0, #40]
	ldrb	w22, [x0, #136]
	stur	x4, [x3, #132]
	ldr	x4, [x0, #120]
	cset	w23, eq
	stur	q3, [x3, #100]
	ldr	q3, [x0]
	add	x16, x6, x16
	stur	q4, [x3, #116]
	add	x13, x13, x17
	add	x14, x14, x18
	stur	q3, [sp, #120]
	ldp	d4, d3, [x0, #16]
	str	x20, [sp, #184]
	ldrsh	w20, [x1, #40]
	ldr	w0, [x0, #128]
	str	w21, [sp, #204]
	ldrb	w21, [x1, #42]
	add	x15, x15, x2
	stur	d3, [x3, #84]
	movi	v3.2d, #0000000000000000
	ldr	x3, [x29, #72]
	str	s2, [sp, #208]
	ldr	s2, [x1, #16]
	cmp	w21, #0
	str	s1, [sp, #252]
	ldr	d1, [x1, #8]
	add	x2, sp, #64
	strb	w22, [sp, #116]
	ldrb	w22, [x1, #43]
	add	x6, x10, x12
	str	x4, [sp, #144]
	ldr	x4, [x1]
	stp	q3, q3, [x29, #-32]
	scvtf	s3, w20
	str	d1, [sp, #64]
	ldr	s1, [x1, #48]
	str	s2, [sp, #72]
	ldr	d2, [x1, #32]
	ldrb	w1, [x1, #52]
	str	x4, [sp, #80]
	cset	w4, ne
	cmp	w22, #0
	cset	w21, eq
	cmp	w1, #0
	str	w0, [sp, #192]
	ldr	x0, [x29, #88]
	str	s0, [sp, #92]
	ldr	x1, [x29, #104]
	fcsel	s0, s3, s1, eq
	strb	w4, [sp, #106]
	add	x4, x11, x8
	stp	x15, x1, [sp, #48]
	add	x1, sp, #112
	stp	x14, x0, [sp, #32]
	sub	x0, x29, #32
	stp	x13, x3, [sp, #16]
	mov	w3, #2
	stp	x16, x7, [sp]
	mov	x7, x9
	strb	wzr, [sp, #119]
	sturh	wzr, [sp, #117]
	str	d4, [sp, #136]
	str	wzr, [sp, #76]
	str	w23, [sp, #88]
	str	d2, [sp, #96]
	strh	w20, [sp, #104]
	strb	w21, [sp, #107]
	str	wzr, [sp, #108]
	bl	loamchalice.filter640.frames640.from_pixels
	ldurb	w9, [x29, #-32]
	ldur	w11, [x29, #-24]
	ldur	x8, [x29, #-16]
	cbz	w9, .Lfilter640_BB5_3
	lsr	x13, x11, #16
	and	x11, x11, #0xff
	adrp	x14, .Lfilter640_JTI5_0
	add	x14, x14, :lo12:.Lfilter640_JTI5_0
	ldurh	w12, [x29, #-8]
	mov	w10, #1
	adr	x15, .Lfilter640_BB5_2
	ldrb	w16, [x14, x11]
	add	x15, x15, x16, lsl #2
	mov	w9, wzr
	br	x15
.Lfilter640_BB5_2:
	mov	x8, xzr
	mov	w9, wzr
	mov	w10, #2
	b	.Lfilter640_BB5_17
.Lfilter640_BB5_3:
	mov	x10, xzr
	mov	x12, xzr
	mov	x9, xzr
	b	.Lfilter640_BB5_18
.Lfilter640_BB5_4:
	mov	w9, wzr
	mov	w10, #13
	b	.Lfilter640_BB5_17
.Lfilter640_BB5_5:
	mov	w9, wzr
	mov	w10, #10
	b	.Lfilter640_BB5_17
.Lfilter640_BB5_6:
	mov	w9, wzr
	mov	w10, #4
	mov	x8, x13
	b	.Lfilter640_BB5_17
.Lfilter640_BB5_7:
	mov	w9, wzr
	mov	w10, #11
	b	.Lfilter640_BB5_17
.Lfilter640_BB5_8:
	mov	w9, wzr
	mov	w8, w13
	mov	w10, #9
	b	.Lfilter640_BB5_17
.Lfilter640_BB5_9:
	mov	w9, wzr
	mov	w10, #14
	b	.Lfilter640_BB5_17
.Lfilter640_BB5_10:
	mov	w10, #3
	mov	w9, w12
	b	.Lfilter640_BB5_17
.Lfilter640_BB5_11:
	mov	x8, xzr
	mov	w9, wzr
	mov	w10, #7
	b	.Lfilter640_BB5_17
.Lfilter640_BB5_12:
	mov	w9, wzr
	mov	w10, #5
	b	.Lfilter640_BB5_17
.Lfilter640_BB5_13:
	mov	w9, wzr
	mov	w10, #12
	b	.Lfilter640_BB5_17
.Lfilter640_BB5_14:
	mov	w9, wzr
	mov	w10, #6
	b	.Lfilter640_BB5_17
.Lfilter640_BB5_15:
	mov	w10, #9
	mov	w9, w12
	b	.Lfilter640_BB5_17
.Lfilter640_BB5_16:
	mov	x8, xzr
	mov	w9, wzr
	mov	w10, #8
.Lfilter640_BB5_17:
	mov	w11, wzr
	mov	w9, w9
	mov	x12, x8
	mov	x8, xzr
.Lfilter640_BB5_18:
	stp	x10, x12, [x19]
	ldp	x22, x21, [sp, #320]
	stp	x9, x8, [x19, #16]
	ldp	x28, x23, [sp, #304]
	stp	w11, wzr, [x19, #32]
	ldp	x20, x19, [sp, #336]
	ldp	x29, x30, [sp, #288]
	add	sp, sp, #352
	ret
.Lfilter640_func_end5:
	.size	loamchalice_mlx90640_filtered_pixels_to_ranged_temperatures, .Lfilter640_func_end5-loamchalice_mlx90640_filtered_pixels_to_ranged_temperatures
	.section	.rodata.loamchalice_mlx90640_filtered_pixels_to_ranged_temperatures,"a",@progbits
.Lfilter640_JTI5_0:
	.byte	(.Lfilter640_BB5_17-.Lfilter640_BB5_2)>>2
	.byte	(.Lfilter640_BB5_17-.Lfilter640_BB5_2)>>2
	.byte	(.Lfilter640_BB5_2-.Lfilter640_BB5_2)>>2
	.byte	(.Lfilter640_BB5_10-.Lfilter640_BB5_2)>>2
	.byte	(.Lfilter640_BB5_6-.Lfilter640_BB5_2)>>2
	.byte	(.Lfilter640_BB5_12-.Lfilter640_BB5_2)>>2
	.byte	(.Lfilter640_BB5_14-.Lfilter640_BB5_2)>>2
	.byte	(.Lfilter640_BB5_11-.Lfilter640_BB5_2)>>2
	.byte	(.Lfilter640_BB5_16-.Lfilter640_BB5_2)>>2
	.byte	(.Lfilter640_BB5_8-.Lfilter640_BB5_2)>>2
	.byte	(.Lfilter640_BB5_15-.Lfilter640_BB5_2)>>2
	.byte	(.Lfilter640_BB5_5-.Lfilter640_BB5_2)>>2
	.byte	(.Lfilter640_BB5_7-.Lfilter640_BB5_2)>>2
	.byte	(.Lfilter640_BB5_13-.Lfilter640_BB5_2)>>2
	.byte	(.Lfilter640_BB5_4-.Lfilter640_BB5_2)>>2
	.byte	(.Lfilter640_BB5_9-.Lfilter640_BB5_2)>>2

	.section	.text.loamchalice_mlx90640_filtered_pixels_to_temperatures,"ax",@progbits
	.globl	loamchalice_mlx90640_filtered_pixels_to_temperatures
	.p2align	2
	.type	loamchalice_mlx90640_filtered_pixels_to_temperatures,@function
loamchalice_mlx90640_filtered_pixels_to_temperatures:
	sub	sp, sp, #352
	stp	x29, x30, [sp, #288]
	add	x29, sp, #288
	mov	x11, x2
	cmp	x2, #0
	mov	w2, #4096
	stp	x20, x19, [sp, #336]
	mov	x19, x8
	ldr	x13, [x29, #64]
	csel	x8, x2, xzr, eq
	cmp	x4, #0
	ldr	x14, [x29, #80]
	ldr	x15, [x29, #96]
	csel	x12, x2, xzr, eq
	cmp	x6, #0
	movi	d0, #0000000000000000
	csel	x16, x2, xzr, eq
	cmp	x13, #0
	mov	x9, x5
	mov	x5, x3
	csel	x17, x2, xzr, eq
	cmp	x14, #0
	ldrb	w3, [x0, #137]
	ldp	s2, s1, [x0, #32]
	mov	x10, x4
	csel	x18, x2, xzr, eq
	cmp	x15, #0
	ldrb	w4, [x1, #28]
	csel	x2, x2, xzr, eq
	cmp	w3, #0
	ldp	q3, q4, [x0, #48]
	stp	x22, x21, [sp, #320]
	add	x3, x1, #20
	add	x20, x1, #24
	cset	w21, ne
	fcsel	s2, s2, s0, ne
	cmp	w4, #0
	stp	x28, x23, [sp, #304]
	csel	x3, x3, x20, eq
	ldr	w20, [x0, #132]
	ldr	x4, [x0, #112]
	ldr	s0, [x3]
	stur	q3, [sp, #152]
	add	x3, sp, #112
	stur	q4, [sp, #168]
	ldp	q3, q4, [x0, #80]
	str	w20, [sp, #112]
	ldr	x20, [x0, #40]
	ldrb	w22, [x0, #136]
	stur	x4, [x3, #132]
	ldr	x4, [x0, #120]
	cset	w23, eq
	stur	q3, [x3, #100]
	ldr	q3, [x0]
	add	x16, x6, x16
	stur	q4, [x3, #116]
	add	x13, x13, x17
	add	x14, x14, x18
	stur	q3, [sp, #120]
	ldp	d4, d3, [x0, #16]
	str	x20, [sp, #184]
	ldrsh	w20, [x1, #40]
	ldr	w0, [x0, #128]
	str	w21, [sp, #204]
	ldrb	w21, [x1, #42]
	add	x15, x15, x2
	stur	d3, [x3, #84]
	movi	v3.2d, #0000000000000000
	ldr	x3, [x29, #72]
	str	s2, [sp, #208]
	ldr	s2, [x1, #16]
	cmp	w21, #0
	str	s1, [sp, #252]
	ldr	d1, [x1, #8]
	add	x2, sp, #64
	strb	w22, [sp, #116]
	ldrb	w22, [x1, #43]
	add	x6, x10, x12
	str	x4, [sp, #144]
	ldr	x4, [x1]
	stp	q3, q3, [x29, #-32]
	scvtf	s3, w20
	str	d1, [sp, #64]
	ldr	s1, [x1, #48]
	str	s2, [sp, #72]
	ldr	d2, [x1, #32]
	ldrb	w1, [x1, #52]
	str	x4, [sp, #80]
	cset	w4, ne
	cmp	w22, #0
	cset	w21, eq
	cmp	w1, #0
	str	w0, [sp, #192]
	ldr	x0, [x29, #88]
	str	s0, [sp, #92]
	ldr	x1, [x29, #104]
	fcsel	s0, s3, s1, eq
	strb	w4, [sp, #106]
	add	x4, x11, x8
	stp	x15, x1, [sp, #48]
	add	x1, sp, #112
	stp	x14, x0, [sp, #32]
	sub	x0, x29, #32
	stp	x13, x3, [sp, #16]
	mov	w3, #1
	stp	x16, x7, [sp]
	mov	x7, x9
	strb	wzr, [sp, #119]
	sturh	wzr, [sp, #117]
	str	d4, [sp, #136]
	str	wzr, [sp, #76]
	str	w23, [sp, #88]
	str	d2, [sp, #96]
	strh	w20, [sp, #104]
	strb	w21, [sp, #107]
	str	wzr, [sp, #108]
	bl	loamchalice.filter640.frames640.from_pixels
	ldurb	w9, [x29, #-32]
	ldur	w11, [x29, #-24]
	ldur	x8, [x29, #-16]
	cbz	w9, .Lfilter640_BB6_3
	lsr	x13, x11, #16
	and	x11, x11, #0xff
	adrp	x14, .Lfilter640_JTI6_0
	add	x14, x14, :lo12:.Lfilter640_JTI6_0
	ldurh	w12, [x29, #-8]
	mov	w10, #1
	adr	x15, .Lfilter640_BB6_2
	ldrb	w16, [x14, x11]
	add	x15, x15, x16, lsl #2
	mov	w9, wzr
	br	x15
.Lfilter640_BB6_2:
	mov	x8, xzr
	mov	w9, wzr
	mov	w10, #2
	b	.Lfilter640_BB6_17
.Lfilter640_BB6_3:
	mov	x10, xzr
	mov	x12, xzr
	mov	x9, xzr
	b	.Lfilter640_BB6_18
.Lfilter640_BB6_4:
	mov	w9, wzr
	mov	w10, #13
	b	.Lfilter640_BB6_17
.Lfilter640_BB6_5:
	mov	w9, wzr
	mov	w10, #10
	b	.Lfilter640_BB6_17
.Lfilter640_BB6_6:
	mov	w9, wzr
	mov	w10, #4
	mov	x8, x13
	b	.Lfilter640_BB6_17
.Lfilter640_BB6_7:
	mov	w9, wzr
	mov	w10, #11
	b	.Lfilter640_BB6_17
.Lfilter640_BB6_8:
	mov	w9, wzr
	mov	w8, w13
	mov	w10, #9
	b	.Lfilter640_BB6_17
.Lfilter640_BB6_9:
	mov	w9, wzr
	mov	w10, #14
	b	.Lfilter640_BB6_17
.Lfilter640_BB6_10:
	mov	w10, #3
	mov	w9, w12
	b	.Lfilter640_BB6_17
.Lfilter640_BB6_11:
	mov	x8, xzr
	mov	w9, wzr
	mov	w10, #7
	b	.Lfilter640_BB6_17
.Lfilter640_BB6_12:
	mov	w9, wzr
	mov	w10, #5
	b	.Lfilter640_BB6_17
.Lfilter640_BB6_13:
	mov	w9, wzr
	mov	w10, #12
	b	.Lfilter640_BB6_17
.Lfilter640_BB6_14:
	mov	w9, wzr
	mov	w10, #6
	b	.Lfilter640_BB6_17
.Lfilter640_BB6_15:
	mov	w10, #9
	mov	w9, w12
	b	.Lfilter640_BB6_17
.Lfilter640_BB6_16:
	mov	x8, xzr
	mov	w9, wzr
	mov	w10, #8
.Lfilter640_BB6_17:
	mov	w11, wzr
	mov	w9, w9
	mov	x12, x8
	mov	x8, xzr
.Lfilter640_BB6_18:
	stp	x10, x12, [x19]
	ldp	x22, x21, [sp, #320]
	stp	x9, x8, [x19, #16]
	ldp	x28, x23, [sp, #304]
	stp	w11, wzr, [x19, #32]
	ldp	x20, x19, [sp, #336]
	ldp	x29, x30, [sp, #288]
	add	sp, sp, #352
	ret
.Lfilter640_func_end6:
	.size	loamchalice_mlx90640_filtered_pixels_to_temperatures, .Lfilter640_func_end6-loamchalice_mlx90640_filtered_pixels_to_temperatures
	.section	.rodata.loamchalice_mlx90640_filtered_pixels_to_temperatures,"a",@progbits
.Lfilter640_JTI6_0:
	.byte	(.Lfilter640_BB6_17-.Lfilter640_BB6_2)>>2
	.byte	(.Lfilter640_BB6_17-.Lfilter640_BB6_2)>>2
	.byte	(.Lfilter640_BB6_2-.Lfilter640_BB6_2)>>2
	.byte	(.Lfilter640_BB6_10-.Lfilter640_BB6_2)>>2
	.byte	(.Lfilter640_BB6_6-.Lfilter640_BB6_2)>>2
	.byte	(.Lfilter640_BB6_12-.Lfilter640_BB6_2)>>2
	.byte	(.Lfilter640_BB6_14-.Lfilter640_BB6_2)>>2
	.byte	(.Lfilter640_BB6_11-.Lfilter640_BB6_2)>>2
	.byte	(.Lfilter640_BB6_16-.Lfilter640_BB6_2)>>2
	.byte	(.Lfilter640_BB6_8-.Lfilter640_BB6_2)>>2
	.byte	(.Lfilter640_BB6_15-.Lfilter640_BB6_2)>>2
	.byte	(.Lfilter640_BB6_5-.Lfilter640_BB6_2)>>2
	.byte	(.Lfilter640_BB6_7-.Lfilter640_BB6_2)>>2
	.byte	(.Lfilter640_BB6_13-.Lfilter640_BB6_2)>>2
	.byte	(.Lfilter640_BB6_4-.Lfilter640_BB6_2)>>2
	.byte	(.Lfilter640_BB6_9-.Lfilter640_BB6_2)>>2

	.type	.Lfilter640_switch.table.roots.fourth_roots,@object
	.section	.rodata.cst32,"aM",@progbits,32
	.p2align	3, 0x0
.Lfilter640_switch.table.roots.fourth_roots:
	.xword	0x4160000000000000
	.xword	0x4166a09e667f3bcd
	.xword	0x4160000000000000
	.xword	0x4166a09e667f3bcd
	.size	.Lfilter640_switch.table.roots.fourth_roots, 32

	.type	.Lfilter640_switch.table.roots.fourth_roots.9,@object
	.p2align	3, 0x0
.Lfilter640_switch.table.roots.fourth_roots.9:
	.xword	0x3fe0000000000000
	.xword	0x3fdae89f995ad3ad
	.xword	0x3fe6a09e667f3bcd
	.xword	0x3fe306fe0a31b715
	.size	.Lfilter640_switch.table.roots.fourth_roots.9, 32

	.section	.note.GNU-stack,"",@progbits
