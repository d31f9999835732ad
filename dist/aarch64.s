	.file	"rattle"
	.section	".text.dates::counts::actual_days","ax",@progbits
	.p2align	2                               // -- Begin function dates::counts::actual_days
	.type	"dates::counts::actual_days",@function
"dates::counts::actual_days":           // @"dates::counts::actual_days"
// %bb.0:                               // %start
	and	w9, w1, #0xffff
	mov	w8, wzr
	cmp	w9, #1900
	mov	w9, #27397                      // =0x6b05
	movk	w9, #65525, lsl #16
	b.lo	.LBB0_9
// %bb.1:                               // %start
	ubfx	w15, w1, #16, #8
	sub	w10, w15, #1
	cmp	w10, #11
	b.hi	.LBB0_9
// %bb.2:                               // %after.1.i
	sub	w8, w1, #1601
	mov	w10, #367                       // =0x16f
	sub	w11, w1, #1801
	ubfx	w8, w8, #4, #12
	mov	w12, #-362                      // =0xfffffe96
	madd	w10, w15, w10, w12
	mov	w12, #2622                      // =0xa3e
	ubfx	w11, w11, #2, #14
	cmp	w15, #3
	mul	w12, w8, w12
	mov	w8, #5243                       // =0x147b
	mul	w13, w11, w8
	and	w8, w10, #0xffff
	mov	w10, #43691                     // =0xaaab
	mul	w14, w8, w10
	and	w11, w1, #0xffff
	mov	w10, #365                       // =0x16d
	sub	w16, w11, #1897
	mul	w10, w11, w10
	lsr	w8, w1, #24
	lsr	w11, w16, #2
	lsr	w12, w12, #16
	lsr	w13, w13, #17
	lsr	w14, w14, #19
	b.lo	.LBB0_8
// %bb.3:                               // %else.2.i.i
	tst	w1, #0x3
	b.eq	.LBB0_5
// %bb.4:                               // %"dates::calendar::is_leap.exit.thread7.i.i"
	sub	w14, w14, #2
	b	.LBB0_8
.LBB0_5:                                // %then.1.i.i.i
	mov	w15, #23593                     // =0x5c29
	mul	w15, w1, w15
	lsl	w16, w15, #14
	bfxil	w16, w15, #2, #14
	and	w16, w16, #0xffff
	cmp	w16, #656
	b.lo	.LBB0_7
// %bb.6:                               // %"dates::calendar::is_leap.exit.thread.i.i"
	sub	w14, w14, #1
	b	.LBB0_8
.LBB0_7:                                // %"dates::calendar::is_leap.exit.i.i"
	lsl	w16, w15, #12
	bfxil	w16, w15, #4, #12
	and	w15, w16, #0xffff
	cmp	w15, #164
	mov	w15, #-2                        // =0xfffffffe
	cinc	w15, w15, lo
	add	w14, w15, w14
.LBB0_8:                                // %"dates::day_numbers::days_before_month.exit.i"
	add	w8, w8, w9
	add	w8, w8, w10
	add	w8, w8, w11
	add	w8, w8, w12
	sub	w8, w8, w13
	add	w8, w8, w14
.LBB0_9:                                // %"dates::day_numbers::number_of.exit"
	and	w10, w0, #0xffff
	cmp	w10, #1900
	b.lo	.LBB0_14
// %bb.10:                              // %"dates::day_numbers::number_of.exit"
	ubfx	w16, w0, #16, #8
	sub	w10, w16, #1
	cmp	w10, #11
	b.hi	.LBB0_14
// %bb.11:                              // %after.1.i8
	sub	w10, w0, #1601
	mov	w11, #367                       // =0x16f
	sub	w12, w0, #1801
	ubfx	w10, w10, #4, #12
	mov	w13, #-362                      // =0xfffffe96
	madd	w11, w16, w11, w13
	mov	w13, #2622                      // =0xa3e
	ubfx	w12, w12, #2, #14
	cmp	w16, #3
	mul	w13, w10, w13
	mov	w10, #5243                      // =0x147b
	mul	w14, w12, w10
	and	w10, w11, #0xffff
	mov	w11, #43691                     // =0xaaab
	mul	w15, w10, w11
	and	w12, w0, #0xffff
	mov	w11, #365                       // =0x16d
	sub	w17, w12, #1897
	mul	w11, w12, w11
	lsr	w10, w0, #24
	lsr	w12, w17, #2
	lsr	w13, w13, #16
	lsr	w14, w14, #17
	lsr	w15, w15, #19
	b.lo	.LBB0_18
// %bb.12:                              // %else.2.i.i23
	tst	w0, #0x3
	b.eq	.LBB0_15
// %bb.13:                              // %"dates::calendar::is_leap.exit.thread7.i.i26"
	sub	w15, w15, #2
	b	.LBB0_18
.LBB0_14:                               // %"dates::day_numbers::number_of.exit46"
	mov	w0, w8
	ret
.LBB0_15:                               // %then.1.i.i.i36
	mov	w16, #23593                     // =0x5c29
	mul	w16, w0, w16
	lsl	w17, w16, #14
	bfxil	w17, w16, #2, #14
	and	w17, w17, #0xffff
	cmp	w17, #656
	b.lo	.LBB0_17
// %bb.16:                              // %"dates::calendar::is_leap.exit.thread.i.i39"
	sub	w15, w15, #1
	b	.LBB0_18
.LBB0_17:                               // %"dates::calendar::is_leap.exit.i.i41"
	lsl	w17, w16, #12
	bfxil	w17, w16, #4, #12
	and	w16, w17, #0xffff
	cmp	w16, #164
	mov	w16, #-2                        // =0xfffffffe
	cinc	w16, w16, lo
	add	w15, w16, w15
.LBB0_18:                               // %"dates::day_numbers::days_before_month.exit.i28"
	add	w9, w10, w9
	add	w9, w9, w11
	add	w9, w9, w12
	add	w9, w9, w13
	sub	w9, w9, w14
	add	w9, w9, w15
	subs	w8, w8, w9
	csel	w0, wzr, w8, lo
	ret
.Lfunc_end0:
	.size	"dates::counts::actual_days", .Lfunc_end0-"dates::counts::actual_days"
                                        // -- End function
	.section	.rodata.cst8,"aM",@progbits,8
	.p2align	3, 0x0                          // -- Begin function bond::durations::convexity
.LCPI1_0:
	.xword	0x3d719799812dea11              // double 9.9999999999999998E-13
	.section	".text.bond::durations::convexity","ax",@progbits
	.p2align	2
	.type	"bond::durations::convexity",@function
"bond::durations::convexity":           // @"bond::durations::convexity"
// %bb.0:                               // %start
	sub	sp, sp, #112
	fmov	d1, #4.00000000
	ldrb	w8, [x1, #24]
	fmov	d2, #12.00000000
	fmov	d3, #1.00000000
	fmov	d4, #2.00000000
	stp	d9, d8, [sp, #72]               // 16-byte Folded Spill
	cmp	w8, #2
	mov	x9, #4841369599423283200        // =0x4330000000000000
	str	d10, [sp, #64]                  // 8-byte Spill
	//ARITH_FENCE
	//ARITH_FENCE
	stp	x29, x30, [sp, #88]             // 16-byte Folded Spill
	add	x29, sp, #88
	fcsel	d1, d1, d2, eq
	cmp	w8, #0
	//ARITH_FENCE
	//ARITH_FENCE
	str	x19, [sp, #104]                 // 8-byte Spill
	fcsel	d2, d3, d4, eq
	cmp	w8, #1
	ldr	d3, [x1, #16]
	fmov	d4, x9
	fcsel	d9, d1, d2, gt
	ldp	d1, d2, [x1]
	fmul	d5, d3, d9
	fadd	d6, d5, d4
	movi	d4, #0000000000000000
	fmov	d7, d6
	//ARITH_FENCE
	//ARITH_FENCE
	fcmp	d4, d7
	cset	w9, mi
	//APP
	//NO_APP
	cbz	w9, .LBB1_2
// %bb.1:                               // %then.1.i.i.i
	fmov	x9, d6
	fmov	d6, d5
	ucvtf	d7, w9
	//ARITH_FENCE
	//ARITH_FENCE
	fcmp	d7, d6
	b.eq	.LBB1_5
	b	.LBB1_3
.LBB1_2:                                // %start.join.3_crit_edge.i.i.i
	fmov	d6, d5
	//ARITH_FENCE
.LBB1_3:                                // %join.3.i.i.i
	mov	x9, #281474974613504            // =0xffffffe00000
	movk	x9, #16879, lsl #48
	fmov	d7, x9
	//ARITH_FENCE
	fcmp	d7, d6
	cset	w9, mi
	//APP
	//NO_APP
	cbz	w9, .LBB1_16
// %bb.4:
	mov	w9, #-1                         // =0xffffffff
.LBB1_5:                                // %"bond::worked::Worked::of.exit"
	fmov	d5, d1
	//ARITH_FENCE
	fcmp	d5, d4
	cset	w10, mi
	cmp	w9, #1200
	//APP
	//NO_APP
	b.hi	.LBB1_8
// %bb.6:                               // %"bond::worked::Worked::of.exit"
	cbnz	w10, .LBB1_8
// %bb.7:                               // %"bond::worked::Worked::all_right.exit.i"
	fadd	d5, d1, d2
	fadd	d5, d3, d5
	fadd	d5, d0, d5
	fsub	d5, d5, d5
	//ARITH_FENCE
	fcmp	d5, d4
	b.eq	.LBB1_13
.LBB1_8:                                // %join.3.i
	fsub	d5, d1, d1
	//ARITH_FENCE
	fcmp	d5, d4
	ccmp	w10, #0, #0, eq
	mov	w10, #6                         // =0x6
	csel	w10, wzr, w10, ne
	b.ne	.LBB1_15
// %bb.9:                               // %join.3.i
	fsub	d5, d3, d3
	//ARITH_FENCE
	fcmp	d5, d4
	b.ne	.LBB1_15
// %bb.10:                              // %join.3.i
	cmp	w9, #1200
	b.hi	.LBB1_15
// %bb.11:                              // %"bond::worked::Worked::judge_bond.exit"
	fsub	d5, d0, d0
	mov	w10, #8                         // =0x8
	//ARITH_FENCE
	fcmp	d5, d4
	b.ne	.LBB1_15
// %bb.12:                              // %"bond::worked::Worked::judge_bond.exit"
	fsub	d5, d2, d2
	//ARITH_FENCE
	fcmp	d5, d4
	b.ne	.LBB1_15
.LBB1_13:                               // %arm.1
	fdiv	d8, d0, d9
	fmul	d0, d1, d2
	movi	d5, #0000000000000000
	fdiv	d0, d0, d9
	fmov	d6, d8
	fsub	d5, d5, d8
	//ARITH_FENCE
	fcmp	d4, d6
	cset	w10, mi
	//APP
	//NO_APP
	cmp	w10, #0
	fcsel	d5, d8, d5, ne
	adrp	x10, .LCPI1_0
	ldr	d6, [x10, :lo12:.LCPI1_0]
	//ARITH_FENCE
	//ARITH_FENCE
	fcmp	d5, d6
	cset	w10, mi
	//APP
	//NO_APP
	cbz	w10, .LBB1_19
// %bb.14:                              // %then.1.i.i
	ucvtf	d5, w9
	//ARITH_FENCE
	fmul	d5, d0, d5
	fadd	d10, d1, d5
	b	.LBB1_23
.LBB1_15:                               // %arm.2
	mov	w8, #1                          // =0x1
	strb	w10, [x0, #4]
	str	w8, [x0]
	stur	xzr, [x0, #5]
	str	wzr, [x0, #12]
	ldp	x29, x30, [sp, #88]             // 16-byte Folded Reload
	ldr	x19, [sp, #104]                 // 8-byte Reload
	ldp	d9, d8, [sp, #72]               // 16-byte Folded Reload
	ldr	d10, [sp, #64]                  // 8-byte Reload
	add	sp, sp, #112
	ret
.LBB1_16:                               // %join.3.i.i.i.i
	fcmp	d4, d6
	cset	w9, mi
	//APP
	//NO_APP
	cbz	w9, .LBB1_5
// %bb.17:                              // %then.4.i.i.i.i
	fadd	d5, d5, d5
	fmov	d6, #1.00000000
	//ARITH_FENCE
	fmov	d7, d5
	//ARITH_FENCE
	fcmp	d6, d7
	cset	w9, hi
	//APP
	//NO_APP
	cbz	w9, .LBB1_26
// %bb.18:
	mov	w9, wzr
	b	.LBB1_5
.LBB1_19:                               // %join.3.i.i
	fmov	d5, #1.00000000
	fmov	d6, #1.00000000
	cbz	w9, .LBB1_22
// %bb.20:                              // %join.5.i.i.preheader.i.i
	fmov	d7, #1.00000000
	mov	w10, w9
	fadd	d16, d8, d7
.LBB1_21:                               // %join.5.i.i.i.i
                                        // =>This Inner Loop Header: Depth=1
	tst	w10, #0x1
	lsr	w10, w10, #1
	fcsel	d17, d7, d16, eq
	fmul	d16, d16, d16
	fmul	d6, d6, d17
	cbnz	w10, .LBB1_21
.LBB1_22:                               // %"elementary::whole_power::negative_power.exit.i.i"
	fdiv	d6, d5, d6
	fsub	d5, d5, d6
	fmul	d6, d1, d6
	fmul	d5, d0, d5
	fdiv	d5, d5, d8
	fadd	d10, d6, d5
.LBB1_23:                               // %"bond::worked::Worked::price_at.exit.i"
	fmov	d6, d10
	movi	d5, #0000000000000000
	//ARITH_FENCE
	fcmp	d4, d6
	fsub	d4, d5, d10
	cset	w10, mi
	//APP
	//NO_APP
	cmp	w10, #0
	mov	x10, #4372995238176751616       // =0x3cb0000000000000
	fcsel	d4, d10, d4, ne
	fmov	d6, x10
	//ARITH_FENCE
	//ARITH_FENCE
	fcmp	d4, d6
	cset	w10, mi
	//APP
	//NO_APP
	cbnz	w10, .LBB1_25
// %bb.24:                              // %join.3.i17
	stp	d9, d0, [sp, #40]
	fmov	d0, d8
	ldur	w10, [x1, #25]
	strb	w8, [sp, #32]
	ldur	w8, [x1, #28]
	mov	x19, x0
	add	x0, sp, #8
	mov	w1, #1                          // =0x1
	stp	d1, d2, [sp, #8]
	str	d3, [sp, #24]
	stur	w10, [sp, #33]
	str	w8, [sp, #36]
	stp	w9, wzr, [sp, #56]
	bl	"bond::worked::Worked::weighted_sum"
	fmov	d1, #1.00000000
	mov	x0, x19
	fadd	d1, d8, d1
	fmul	d1, d1, d1
	fmul	d1, d1, d10
	fmul	d1, d9, d1
	fmul	d1, d9, d1
	fdiv	d5, d0, d1
.LBB1_25:                               // %"bond::worked::Worked::convexity_at.exit"
	str	xzr, [x0]
	str	d5, [x0, #8]
	ldp	x29, x30, [sp, #88]             // 16-byte Folded Reload
	ldr	x19, [sp, #104]                 // 8-byte Reload
	ldp	d9, d8, [sp, #72]               // 16-byte Folded Reload
	ldr	d10, [sp, #64]                  // 8-byte Reload
	add	sp, sp, #112
	ret
.LBB1_26:                               // %then.1.i.i.i.i.i
	fmov	x9, d5
	mov	x11, #4503599627370496          // =0x10000000000000
	mov	w12, #1075                      // =0x433
	lsr	x10, x9, #52
	bfxil	x11, x9, #0, #52
	lsr	x13, x9, #54
	sub	x12, x12, x10
	sub	x10, x10, #1075
	cmp	x13, #269
	lsr	x11, x11, x12
	lsl	x9, x9, x10
	csel	x9, x11, x9, lo
	add	x9, x9, #1
	lsr	x9, x9, #1
                                        // kill: def $w9 killed $w9 killed $x9 def $x9
	b	.LBB1_5
.Lfunc_end1:
	.size	"bond::durations::convexity", .Lfunc_end1-"bond::durations::convexity"
                                        // -- End function
	.section	".text.bond::worked::Worked::weighted_sum","ax",@progbits
	.p2align	2                               // -- Begin function bond::worked::Worked::weighted_sum
	.type	"bond::worked::Worked::weighted_sum",@function
"bond::worked::Worked::weighted_sum":   // @"bond::worked::Worked::weighted_sum"
// %bb.0:                               // %start
	movi	d1, #0000000000000000
	ldr	w8, [x0, #48]
	cbz	w8, .LBB2_5
// %bb.1:                               // %start
	sub	sp, sp, #208
	ldp	d3, d2, [x0, #32]
	cmp	w8, #1
	mov	w10, w8
	stp	d15, d14, [sp, #144]            // 16-byte Folded Spill
	stp	d13, d12, [sp, #160]            // 16-byte Folded Spill
	stp	d11, d10, [sp, #176]            // 16-byte Folded Spill
	stp	d9, d8, [sp, #192]              // 16-byte Folded Spill
	str	d0, [sp, #8]                    // 8-byte Spill
	b.ne	.LBB2_6
.LBB2_2:                                // %after.4
	ucvtf	d4, w10
	fmov	d0, #1.00000000
	cmp	w1, #0
	ldp	d9, d8, [sp, #192]              // 16-byte Folded Reload
	ldr	d6, [x0]
	ldp	d11, d10, [sp, #176]            // 16-byte Folded Reload
	mov	w9, w10
	ldp	d13, d12, [sp, #160]            // 16-byte Folded Reload
	//ARITH_FENCE
	fdiv	d3, d4, d3
	fadd	d5, d4, d0
	ldp	d15, d14, [sp, #144]            // 16-byte Folded Reload
	fmul	d4, d4, d5
	ldr	d5, [sp, #8]                    // 8-byte Reload
	fadd	d5, d5, d0
	fcsel	d3, d3, d4, eq
	fmov	d4, #1.00000000
	add	sp, sp, #208
.LBB2_3:                                // %join.5.i.i
                                        // =>This Inner Loop Header: Depth=1
	tst	w9, #0x1
	lsr	w9, w9, #1
	fcsel	d7, d0, d5, eq
	fmul	d5, d5, d5
	fmul	d4, d4, d7
	cbnz	w9, .LBB2_3
// %bb.4:                               // %"bond::worked::Worked::flow_worth.exit"
	fadd	d0, d6, d2
	cmp	w10, w8
	fcsel	d0, d0, d2, eq
	fdiv	d0, d0, d4
	fmul	d0, d3, d0
	fadd	d1, d1, d0
.LBB2_5:                                // %common.ret
	fmov	d0, d1
	ret
.LBB2_6:                                // %join.8.lr.ph
	fmov	d0, #1.00000000
	ldr	d1, [sp, #8]                    // 8-byte Reload
	mov	w9, #1                          // =0x1
	fadd	d4, d1, d0
	fmul	d5, d4, d4
	mov	v0.16b, v4.16b
	fmul	d6, d5, d5
	fmul	d16, d4, d5
	mov	v0.d[1], v5.d[0]
	fmul	d7, d4, d6
	mov	v1.16b, v6.16b
	fmul	d17, d6, d6
	fmul	d18, d5, d6
	fmul	d19, d16, d6
	mov	v1.d[1], v7.d[0]
	fmul	v20.2d, v0.2d, v17.d[0]
	fmul	d21, d16, d17
	fmul	d22, d18, d17
	fmul	d24, d19, d17
	fmul	d0, d17, d17
	fmul	v23.2d, v1.2d, v17.d[0]
	movi	d1, #0000000000000000
	b	.LBB2_8
.LBB2_7:                                // %"bond::worked::Worked::add_flows.exit"
                                        //   in Loop: Header=BB2_8 Depth=1
	cmp	w10, w8
	mov	w9, w10
	b.hs	.LBB2_2
.LBB2_8:                                // %join.8
                                        // =>This Loop Header: Depth=1
                                        //     Child Loop BB2_11 Depth 2
                                        //     Child Loop BB2_16 Depth 2
                                        //     Child Loop BB2_15 Depth 2
	and	w11, w9, #0xf
	mov	w12, #16                        // =0x10
	fmov	d27, d4
	fmov	d28, d5
	fmov	d29, d16
	fmov	d30, d6
	fmov	d8, d7
	fmov	d10, d18
	sub	w10, w8, w9
	fmov	d11, d19
	fmov	d12, d17
	sub	w12, w12, w11
	fmov	d13, d21
	fmov	d31, d22
	lsr	w11, w9, #4
	fmov	d9, d24
	fmov	d26, #1.00000000
	cmp	w12, w10
	mov	v15.16b, v20.16b
	mov	v14.16b, v23.16b
	csel	w10, w12, w10, lo
	cbz	w11, .LBB2_13
// %bb.9:                               // %join.5.i.i.i.preheader
                                        //   in Loop: Header=BB2_8 Depth=1
	fmov	d27, d4
	fmov	d28, d5
	fmov	d29, d16
	fmov	d30, d6
	fmov	d8, d7
	fmov	d10, d18
	fmov	d11, d19
	fmov	d12, d17
	fmov	d13, d21
	fmov	d31, d22
	fmov	d9, d24
	fmov	d25, d0
	mov	v15.16b, v20.16b
	mov	v14.16b, v23.16b
	b	.LBB2_11
.LBB2_10:                               // %join.8.i.i.i
                                        //   in Loop: Header=BB2_11 Depth=2
	fmul	d25, d25, d25
	lsr	w11, w11, #1
	cbz	w11, .LBB2_13
.LBB2_11:                               // %join.5.i.i.i
                                        //   Parent Loop BB2_8 Depth=1
                                        // =>  This Inner Loop Header: Depth=2
	tbz	w11, #0, .LBB2_10
// %bb.12:                              // %then.6.i.i.i
                                        //   in Loop: Header=BB2_11 Depth=2
	fmul	d26, d26, d25
	fmul	d27, d27, d25
	fmul	v15.2d, v15.2d, v25.d[0]
	fmul	d28, d28, d25
	fmul	d29, d29, d25
	fmul	v14.2d, v14.2d, v25.d[0]
	fmul	d30, d30, d25
	fmul	d8, d8, d25
	fmul	d10, d10, d25
	fmul	d11, d11, d25
	fmul	d12, d12, d25
	fmul	d13, d13, d25
	fmul	d31, d31, d25
	fmul	d9, d9, d25
	b	.LBB2_10
.LBB2_13:                               // %"elementary::powers::sixteen_powers.exit.i"
                                        //   in Loop: Header=BB2_8 Depth=1
	add	w10, w10, w9
	stp	d26, d27, [sp, #16]
	cmp	w9, w10
	stp	d28, d29, [sp, #32]
	stp	d30, d8, [sp, #48]
	stp	d10, d11, [sp, #64]
	str	d12, [sp, #80]
	stur	q15, [sp, #88]
	str	d13, [sp, #104]
	str	q14, [sp, #112]
	stp	d31, d9, [sp, #128]
	b.hs	.LBB2_7
// %bb.14:                              // %join.5.lr.ph.i
                                        //   in Loop: Header=BB2_8 Depth=1
	mov	w11, w9
	and	w9, w9, #0xfffffff0
	neg	w9, w9
	tbz	w1, #0, .LBB2_16
.LBB2_15:                               // %join.5.us.i
                                        //   Parent Loop BB2_8 Depth=1
                                        // =>  This Inner Loop Header: Depth=2
	add	w12, w9, w11
	add	x13, sp, #16
	ucvtf	d26, w11
	ldr	d25, [x13, w12, uxtw #3]
	fmov	d27, #1.00000000
	add	x11, x11, #1
	cmp	x10, x11
	fdiv	d25, d2, d25
	//ARITH_FENCE
	fadd	d27, d26, d27
	fmul	d26, d26, d27
	fmul	d25, d25, d26
	fadd	d1, d1, d25
	b.ne	.LBB2_15
	b	.LBB2_7
.LBB2_16:                               // %join.5.i
                                        //   Parent Loop BB2_8 Depth=1
                                        // =>  This Inner Loop Header: Depth=2
	ucvtf	d25, w11
	add	w12, w9, w11
	add	x13, sp, #16
	ldr	d26, [x13, w12, uxtw #3]
	add	x11, x11, #1
	cmp	x10, x11
	fdiv	d26, d2, d26
	//ARITH_FENCE
	fdiv	d25, d25, d3
	fmul	d25, d26, d25
	fadd	d1, d1, d25
	b.ne	.LBB2_16
	b	.LBB2_7
.Lfunc_end2:
	.size	"bond::worked::Worked::weighted_sum", .Lfunc_end2-"bond::worked::Worked::weighted_sum"
                                        // -- End function
	.section	.rodata.cst8,"aM",@progbits,8
	.p2align	3, 0x0                          // -- Begin function bond::yields::yield_to_maturity
.LCPI3_0:
	.xword	0x3f50624dd2f1a9fc              // double 0.001
.LCPI3_1:
	.xword	0x3d719799812dea11              // double 9.9999999999999998E-13
.LCPI3_2:
	.xword	0x3feff7ced916872b              // double 0.99899999999999999
.LCPI3_5:
	.xword	0x3eb0c6f7a0b5ed8d              // double 9.9999999999999995E-7
	.section	.rodata.cst16,"aM",@progbits,16
	.p2align	4, 0x0
.LCPI3_3:
	.xword	0x3f50624dd2f1a9fc              // double 0.001
	.xword	0x3feff7ced916872b              // double 0.99899999999999999
.LCPI3_4:
	.xword	0x3f50624dd2f1a9fc              // double 0.001
	.xword	0x3fefef9db22d0e56              // double 0.998
.LCPI3_6:
	.xword	0x3eb0c6f7a0b5ed8d              // double 9.9999999999999995E-7
	.xword	0x4049000000000000              // double 50
.LCPI3_7:
	.xword	0x3eb0c6f7a0b5ed8d              // double 9.9999999999999995E-7
	.xword	0x4048fffff79c8430              // double 49.999999000000003
	.section	".text.bond::yields::yield_to_maturity","ax",@progbits
	.p2align	2
	.type	"bond::yields::yield_to_maturity",@function
"bond::yields::yield_to_maturity":      // @"bond::yields::yield_to_maturity"
// %bb.0:                               // %start
	fmov	d1, #4.00000000
	ldrb	w9, [x1, #24]
	fmov	d2, #12.00000000
	fmov	d3, #1.00000000
	fmov	d4, #2.00000000
	ldr	d5, [x1, #16]
	cmp	w9, #2
	mov	x8, #4841369599423283200        // =0x4330000000000000
	//ARITH_FENCE
	//ARITH_FENCE
	fcsel	d1, d1, d2, eq
	cmp	w9, #0
	//ARITH_FENCE
	//ARITH_FENCE
	fcsel	d2, d3, d4, eq
	cmp	w9, #1
	fcsel	d3, d1, d2, gt
	fmov	d1, x8
	ldp	d2, d6, [x1]
	fmul	d4, d5, d3
	fadd	d7, d4, d1
	movi	d1, #0000000000000000
	fmov	d16, d7
	//ARITH_FENCE
	//ARITH_FENCE
	fcmp	d1, d16
	cset	w8, mi
	//APP
	//NO_APP
	cbz	w8, .LBB3_2
// %bb.1:                               // %then.1.i.i.i
	fmov	x8, d7
	fmov	d7, d4
	ucvtf	d16, w8
	//ARITH_FENCE
	//ARITH_FENCE
	fcmp	d16, d7
	b.eq	.LBB3_5
	b	.LBB3_3
.LBB3_2:                                // %start.join.3_crit_edge.i.i.i
	fmov	d7, d4
	//ARITH_FENCE
.LBB3_3:                                // %join.3.i.i.i
	mov	x8, #281474974613504            // =0xffffffe00000
	movk	x8, #16879, lsl #48
	fmov	d16, x8
	//ARITH_FENCE
	fcmp	d16, d7
	cset	w8, mi
	//APP
	//NO_APP
	cbz	w8, .LBB3_16
// %bb.4:
	mov	w8, #-1                         // =0xffffffff
.LBB3_5:                                // %"bond::worked::Worked::of.exit"
	fmov	d4, d2
	//ARITH_FENCE
	fcmp	d4, d1
	cset	w10, mi
	cmp	w8, #1200
	//APP
	//NO_APP
	b.hi	.LBB3_8
// %bb.6:                               // %"bond::worked::Worked::of.exit"
	cbnz	w10, .LBB3_8
// %bb.7:                               // %"bond::worked::Worked::all_right.exit.i"
	fadd	d4, d2, d6
	fadd	d4, d5, d4
	fadd	d4, d0, d4
	fsub	d4, d4, d4
	//ARITH_FENCE
	fcmp	d4, d1
	b.eq	.LBB3_13
.LBB3_8:                                // %join.3.i
	fsub	d4, d2, d2
	//ARITH_FENCE
	fcmp	d4, d1
	ccmp	w10, #0, #0, eq
	mov	w10, #6                         // =0x6
	csel	w10, wzr, w10, ne
	b.ne	.LBB3_15
// %bb.9:                               // %join.3.i
	fsub	d4, d5, d5
	//ARITH_FENCE
	fcmp	d4, d1
	b.ne	.LBB3_15
// %bb.10:                              // %join.3.i
	cmp	w8, #1200
	b.hi	.LBB3_15
// %bb.11:                              // %"bond::worked::Worked::judge_bond.exit"
	fsub	d4, d0, d0
	mov	w10, #8                         // =0x8
	//ARITH_FENCE
	fcmp	d4, d1
	b.ne	.LBB3_15
// %bb.12:                              // %"bond::worked::Worked::judge_bond.exit"
	fsub	d4, d6, d6
	//ARITH_FENCE
	fcmp	d4, d1
	b.ne	.LBB3_15
.LBB3_13:                               // %arm.1
	sub	sp, sp, #224
	adrp	x10, .LCPI3_0
	movi	d16, #0000000000000000
	stp	x29, x30, [sp, #192]            // 16-byte Folded Spill
	ldr	d4, [x10, :lo12:.LCPI3_0]
	add	x29, sp, #192
	str	x19, [sp, #208]                 // 8-byte Spill
	stp	d2, d6, [x29, #-56]
	fdiv	d7, d4, d3
	fmul	d4, d2, d6
	stur	d5, [x29, #-40]
	sturb	w9, [x29, #-32]
	ldur	w9, [x1, #28]
	stp	w8, wzr, [x29, #-8]
	fdiv	d4, d4, d3
	fmov	d17, d7
	fsub	d16, d16, d7
	//ARITH_FENCE
	fcmp	d1, d17
	cset	w10, mi
	//APP
	//NO_APP
	cmp	w10, #0
	fcsel	d6, d7, d16, ne
	adrp	x10, .LCPI3_1
	ldr	d5, [x10, :lo12:.LCPI3_1]
	ldur	w10, [x1, #25]
	//ARITH_FENCE
	//ARITH_FENCE
	fcmp	d6, d5
	stur	w10, [x29, #-31]
	ucvtf	d6, w8
	stur	w9, [x29, #-28]
	cset	w9, mi
	//APP
	//NO_APP
	stp	d3, d4, [x29, #-24]
	cbz	w9, .LBB3_19
// %bb.14:                              // %then.1.i.i.i.i
	fmov	d7, d6
	//ARITH_FENCE
	fmul	d7, d4, d7
	fadd	d7, d2, d7
	b	.LBB3_23
.LBB3_15:                               // %arm.2
	mov	w8, #1                          // =0x1
	strb	w10, [x0, #4]
	str	w8, [x0]
	strb	wzr, [x0, #7]
	sturh	wzr, [x0, #5]
	str	xzr, [x0, #8]
	ret
.LBB3_16:                               // %join.3.i.i.i.i
	fcmp	d1, d7
	cset	w8, mi
	//APP
	//NO_APP
	cbz	w8, .LBB3_5
// %bb.17:                              // %then.4.i.i.i.i
	fadd	d4, d4, d4
	fmov	d7, #1.00000000
	//ARITH_FENCE
	fmov	d16, d4
	//ARITH_FENCE
	fcmp	d7, d16
	cset	w8, hi
	//APP
	//NO_APP
	cbz	w8, .LBB3_48
// %bb.18:
	mov	w8, wzr
	b	.LBB3_5
.LBB3_19:                               // %join.3.i.i.i.i10
	fmov	d16, #1.00000000
	fmov	d17, #1.00000000
	cbz	w8, .LBB3_22
// %bb.20:                              // %join.5.i.i.preheader.i.i.i.i
	fmov	d18, #1.00000000
	mov	w9, w8
	fadd	d19, d7, d18
.LBB3_21:                               // %join.5.i.i.i.i.i.i
                                        // =>This Inner Loop Header: Depth=1
	tst	w9, #0x1
	lsr	w9, w9, #1
	fcsel	d20, d18, d19, eq
	fmul	d19, d19, d19
	fmul	d17, d17, d20
	cbnz	w9, .LBB3_21
.LBB3_22:                               // %"elementary::whole_power::negative_power.exit.i.i.i.i"
	fdiv	d17, d16, d17
	fsub	d16, d16, d17
	fmul	d16, d4, d16
	fdiv	d7, d16, d7
	fmul	d16, d2, d17
	fadd	d7, d16, d7
.LBB3_23:                               // %"bond::worked::Worked::error.exit.i.i"
	adrp	x9, .LCPI3_2
	movi	d17, #0000000000000000
	ldr	d16, [x9, :lo12:.LCPI3_2]
	fdiv	d16, d16, d3
	fmov	d18, d16
	fsub	d17, d17, d16
	//ARITH_FENCE
	fcmp	d1, d18
	cset	w9, mi
	//APP
	//NO_APP
	cmp	w9, #0
	fcsel	d17, d16, d17, ne
	//ARITH_FENCE
	fcmp	d17, d5
	cset	w9, mi
	//APP
	//NO_APP
	cbz	w9, .LBB3_25
// %bb.24:                              // %then.1.i.i42.i.i
	fmov	d16, d6
	//ARITH_FENCE
	fmul	d16, d4, d16
	fadd	d16, d2, d16
	b	.LBB3_29
.LBB3_25:                               // %join.3.i.i17.i.i
	fmov	d17, #1.00000000
	fmov	d18, #1.00000000
	cbz	w8, .LBB3_28
// %bb.26:                              // %join.5.i.i.preheader.i.i19.i.i
	fmov	d19, #1.00000000
	mov	w9, w8
	fadd	d20, d16, d19
.LBB3_27:                               // %join.5.i.i.i.i21.i.i
                                        // =>This Inner Loop Header: Depth=1
	tst	w9, #0x1
	lsr	w9, w9, #1
	fcsel	d21, d19, d20, eq
	fmul	d20, d20, d20
	fmul	d18, d18, d21
	cbnz	w9, .LBB3_27
.LBB3_28:                               // %"elementary::whole_power::negative_power.exit.i.i32.i.i"
	fdiv	d18, d17, d18
	fsub	d17, d17, d18
	fmul	d17, d4, d17
	fdiv	d16, d17, d16
	fmul	d17, d2, d18
	fadd	d16, d17, d16
.LBB3_29:                               // %"bond::worked::Worked::start_in.exit.i"
	fsub	d7, d7, d0
	fsub	d16, d16, d0
	adrp	x9, .LCPI3_3
	ldr	q18, [x9, :lo12:.LCPI3_3]
	adrp	x9, .LCPI3_4
	ldr	q19, [x9, :lo12:.LCPI3_4]
	mov	x9, #3670                       // =0xe56
	movk	x9, #45613, lsl #16
	fmul	d17, d7, d16
	movk	x9, #61341, lsl #32
	stp	q18, q19, [sp, #64]
	movk	x9, #16367, lsl #48
	stp	d7, d16, [sp, #104]
	str	x9, [sp, #96]
	str	d7, [sp, #120]
	//ARITH_FENCE
	fcmp	d1, d17
	cset	w9, mi
	//APP
	//NO_APP
	cbz	w9, .LBB3_32
// %bb.30:                              // %join.3.i15
	adrp	x9, .LCPI3_5
	movi	d16, #0000000000000000
	ldr	d7, [x9, :lo12:.LCPI3_5]
	fdiv	d7, d7, d3
	fmov	d17, d7
	fsub	d16, d16, d7
	//ARITH_FENCE
	fcmp	d1, d17
	cset	w9, mi
	//APP
	//NO_APP
	cmp	w9, #0
	fcsel	d16, d7, d16, ne
	//ARITH_FENCE
	fcmp	d16, d5
	cset	w9, mi
	//APP
	//NO_APP
	cbz	w9, .LBB3_33
// %bb.31:                              // %then.1.i.i.i98.i
	fmov	d7, d6
	//ARITH_FENCE
	fmul	d7, d4, d7
	fadd	d7, d2, d7
	b	.LBB3_37
.LBB3_32:                               // %then.1.i14
	mov	x19, x0
	sub	x0, x29, #56
	add	x1, sp, #64
	b	.LBB3_46
.LBB3_33:                               // %join.3.i.i.i28.i
	fmov	d16, #1.00000000
	fmov	d17, #1.00000000
	cbz	w8, .LBB3_36
// %bb.34:                              // %join.5.i.i.preheader.i.i.i30.i
	fmov	d18, #1.00000000
	mov	w9, w8
	fadd	d19, d7, d18
.LBB3_35:                               // %join.5.i.i.i.i.i32.i
                                        // =>This Inner Loop Header: Depth=1
	tst	w9, #0x1
	lsr	w9, w9, #1
	fcsel	d20, d18, d19, eq
	fmul	d19, d19, d19
	fmul	d17, d17, d20
	cbnz	w9, .LBB3_35
.LBB3_36:                               // %"elementary::whole_power::negative_power.exit.i.i.i43.i"
	fdiv	d17, d16, d17
	fsub	d16, d16, d17
	fmul	d16, d4, d16
	fdiv	d7, d16, d7
	fmul	d16, d2, d17
	fadd	d7, d16, d7
.LBB3_37:                               // %"bond::worked::Worked::error.exit.i51.i"
	mov	x9, #4632233691727265792        // =0x4049000000000000
	fmov	d16, x9
	fdiv	d3, d16, d3
	movi	d16, #0000000000000000
	fmov	d17, d3
	fsub	d16, d16, d3
	//ARITH_FENCE
	fcmp	d1, d17
	cset	w9, mi
	//APP
	//NO_APP
	cmp	w9, #0
	fcsel	d16, d3, d16, ne
	//ARITH_FENCE
	fcmp	d16, d5
	cset	w9, mi
	//APP
	//NO_APP
	cbz	w9, .LBB3_39
// %bb.38:                              // %then.1.i.i42.i93.i
	//ARITH_FENCE
	fmul	d3, d4, d6
	b	.LBB3_43
.LBB3_39:                               // %join.3.i.i17.i60.i
	fmov	d5, #1.00000000
	fmov	d6, #1.00000000
	cbz	w8, .LBB3_42
// %bb.40:                              // %join.5.i.i.preheader.i.i19.i62.i
	fmov	d16, #1.00000000
	fadd	d17, d3, d16
.LBB3_41:                               // %join.5.i.i.i.i21.i64.i
                                        // =>This Inner Loop Header: Depth=1
	tst	w8, #0x1
	lsr	w8, w8, #1
	fcsel	d18, d16, d17, eq
	fmul	d17, d17, d17
	fmul	d6, d6, d18
	cbnz	w8, .LBB3_41
.LBB3_42:                               // %"elementary::whole_power::negative_power.exit.i.i32.i75.i"
	fdiv	d6, d5, d6
	fsub	d5, d5, d6
	fmul	d2, d2, d6
	fmul	d4, d4, d5
	fdiv	d3, d4, d3
.LBB3_43:                               // %"bond::worked::Worked::start_in.exit103.i"
	fadd	d2, d2, d3
	fsub	d3, d7, d0
	adrp	x8, .LCPI3_6
	ldr	q5, [x8, :lo12:.LCPI3_6]
	adrp	x8, .LCPI3_7
	ldr	q6, [x8, :lo12:.LCPI3_7]
	mov	x8, #-31696                     // =0xffffffffffff8430
	movk	x8, #63388, lsl #16
	fsub	d2, d2, d0
	movk	x8, #16456, lsl #48
	stp	q5, q6, [sp]
	str	x8, [sp, #32]
	str	d3, [sp, #56]
	fmul	d4, d3, d2
	stp	d3, d2, [sp, #40]
	//ARITH_FENCE
	fcmp	d1, d4
	cset	w8, mi
	//APP
	//NO_APP
	cbz	w8, .LBB3_45
// %bb.44:
	movi	d0, #0000000000000000
	mov	w8, #11                         // =0xb
	mov	w9, #1                          // =0x1
	b	.LBB3_47
.LBB3_45:                               // %join.6.i
	mov	x19, x0
	sub	x0, x29, #56
	mov	x1, sp
.LBB3_46:                               // %"bond::worked::Worked::yield_in_bracket.exit"
	bl	"bond::worked::Worked::searched"
	mov	x0, x19
	mov	w9, wzr
	mov	w8, wzr
.LBB3_47:                               // %"bond::worked::Worked::yield_in_bracket.exit"
	ldp	x29, x30, [sp, #192]            // 16-byte Folded Reload
	ldr	x19, [sp, #208]                 // 8-byte Reload
	str	w9, [x0]
	strb	w8, [x0, #4]
	strb	wzr, [x0, #7]
	sturh	wzr, [x0, #5]
	str	d0, [x0, #8]
	add	sp, sp, #224
	ret
.LBB3_48:                               // %then.1.i.i.i.i.i
	fmov	x8, d4
	mov	x11, #4503599627370496          // =0x10000000000000
	mov	w12, #1075                      // =0x433
	lsr	x10, x8, #52
	bfxil	x11, x8, #0, #52
	lsr	x13, x8, #54
	sub	x12, x12, x10
	sub	x10, x10, #1075
	cmp	x13, #269
	lsr	x11, x11, x12
	lsl	x8, x8, x10
	csel	x8, x11, x8, lo
	add	x8, x8, #1
	lsr	x8, x8, #1
                                        // kill: def $w8 killed $w8 killed $x8 def $x8
	b	.LBB3_5
.Lfunc_end3:
	.size	"bond::yields::yield_to_maturity", .Lfunc_end3-"bond::yields::yield_to_maturity"
                                        // -- End function
	.section	.rodata.cst8,"aM",@progbits,8
	.p2align	3, 0x0                          // -- Begin function bond::worked::Worked::searched
.LCPI4_0:
	.xword	0x3d719799812dea11              // double 9.9999999999999998E-13
.LCPI4_1:
	.xword	0x3e35798ee2308c3a              // double 5.0000000000000001E-9
	.section	".text.bond::worked::Worked::searched","ax",@progbits
	.p2align	2
	.type	"bond::worked::Worked::searched",@function
"bond::worked::Worked::searched":       // @"bond::worked::Worked::searched"
// %bb.0:                               // %start
	stp	d9, d8, [sp, #-16]!             // 16-byte Folded Spill
	ldr	w9, [x0, #48]
	ldp	d3, d2, [x0, #32]
	ldr	d4, [x0]
	adrp	x10, .LCPI4_0
	movi	d6, #0000000000000000
	ucvtf	d1, w9
	ldr	d17, [x10, :lo12:.LCPI4_0]
	mov	x10, #4372995238176751616       // =0x3cb0000000000000
	ldp	d7, d22, [x1, #16]
	fmov	d18, x10
	ldp	d21, d19, [x1, #32]
	mov	w8, wzr
	ldp	d24, d20, [x1, #48]
	//ARITH_FENCE
	//ARITH_FENCE
	//ARITH_FENCE
	fmul	d16, d2, d1
	//ARITH_FENCE
	ldp	d5, d1, [x1]
	fadd	d16, d4, d16
	b	.LBB4_3
.LBB4_1:                                // %"elementary::whole_power::negative_power.exit.i.i.i.i"
                                        //   in Loop: Header=BB4_3 Depth=1
	fdiv	d25, d24, d25
	fsub	d24, d24, d25
	fmul	d24, d2, d24
	fdiv	d23, d24, d23
	fmul	d24, d4, d25
	fadd	d24, d24, d23
.LBB4_2:                                // %"bond::worked::Worked::passed.exit"
                                        //   in Loop: Header=BB4_3 Depth=1
	fsub	d24, d24, d0
	add	w8, w8, #1
	cmp	w8, #200
	b.eq	.LBB4_25
.LBB4_3:                                // %join.5
                                        // =>This Loop Header: Depth=1
                                        //     Child Loop BB4_16 Depth 2
	fmul	d23, d24, d20
	//ARITH_FENCE
	fcmp	d6, d23
	fmov	d23, d22
	cset	w10, mi
	//APP
	//NO_APP
	cbz	w10, .LBB4_5
// %bb.4:                               // %then.1.i.i
                                        //   in Loop: Header=BB4_3 Depth=1
	fsub	d23, d1, d5
	fmov	d7, d5
	fmov	d20, d19
	fmov	d21, d23
.LBB4_5:                                // %"bond::brent::Search::rebracketed.exit.i"
                                        //   in Loop: Header=BB4_3 Depth=1
	fmov	d22, d20
	movi	d26, #0000000000000000
	fmov	d25, d24
	//ARITH_FENCE
	fcmp	d6, d22
	//ARITH_FENCE
	fsub	d22, d26, d20
	cset	w10, mi
	//APP
	//NO_APP
	cmp	w10, #0
	fcsel	d29, d20, d22, ne
	fcmp	d6, d25
	fsub	d22, d26, d24
	cset	w10, mi
	//ARITH_FENCE
	//APP
	//NO_APP
	cmp	w10, #0
	fcsel	d22, d24, d22, ne
	//ARITH_FENCE
	fcmp	d29, d22
	cset	w10, mi
	//APP
	//NO_APP
	cbz	w10, .LBB4_7
// %bb.6:                               // %then.1.i9.i
                                        //   in Loop: Header=BB4_3 Depth=1
	fmov	d27, d1
	fmov	d5, d7
	fmov	d7, d1
	fmov	d28, d24
	fmov	d19, d20
	fmov	d20, d24
	b	.LBB4_8
.LBB4_7:                                //   in Loop: Header=BB4_3 Depth=1
	fmov	d29, d22
	fmov	d27, d5
	fmov	d5, d1
	fmov	d28, d19
	fmov	d19, d24
.LBB4_8:                                // %"bond::brent::Search::readied.exit"
                                        //   in Loop: Header=BB4_3 Depth=1
	fsub	d1, d7, d5
	fmov	d22, #0.50000000
	fmov	d24, d5
	fmul	d22, d1, d22
	//ARITH_FENCE
	fmov	d1, d22
	fsub	d25, d26, d22
	//ARITH_FENCE
	fcmp	d6, d1
	cset	w10, mi
	//APP
	//NO_APP
	cmp	w10, #0
	fcsel	d30, d22, d25, ne
	fcmp	d6, d24
	fsub	d24, d26, d5
	cset	w10, mi
	//ARITH_FENCE
	//APP
	//NO_APP
	cmp	w10, #0
	mov	x10, #4377498837804122112       // =0x3cc0000000000000
	fcsel	d24, d5, d24, ne
	fmov	d26, x10
	adrp	x10, .LCPI4_1
	fmul	d24, d24, d26
	ldr	d26, [x10, :lo12:.LCPI4_1]
	fadd	d24, d24, d26
	fmov	d26, d24
	//ARITH_FENCE
	fcmp	d30, d26
	cset	w10, ls
	fcmp	d29, d18
	//APP
	//NO_APP
	cset	w11, mi
	//APP
	//NO_APP
	orr	w10, w10, w11
	cbnz	w10, .LBB4_24
// %bb.9:                               // %join.8
                                        //   in Loop: Header=BB4_3 Depth=1
	fmov	d31, d21
	movi	d30, #0000000000000000
	//ARITH_FENCE
	fcmp	d6, d31
	fsub	d31, d30, d21
	cset	w10, mi
	//APP
	//NO_APP
	cmp	w10, #0
	fcsel	d31, d21, d31, ne
	//ARITH_FENCE
	fcmp	d26, d31
	cset	w10, hi
	//APP
	//NO_APP
	cbz	w10, .LBB4_17
.LBB4_10:                               //   in Loop: Header=BB4_3 Depth=1
	fmov	d29, d1
	fmov	d21, d22
.LBB4_11:                               // %"bond::brent::Search::chosen.exit.i"
                                        //   in Loop: Header=BB4_3 Depth=1
	fcmp	d6, d29
	cset	w10, mi
	//APP
	//NO_APP
	cmp	w10, #0
	fcsel	d23, d22, d25, ne
	//ARITH_FENCE
	fcmp	d26, d23
	fmov	d23, d22
	cset	w10, mi
	//APP
	//NO_APP
	cbnz	w10, .LBB4_13
// %bb.12:                              // %join.3.i.i.i
                                        //   in Loop: Header=BB4_3 Depth=1
	fcmp	d1, d6
	fneg	d1, d24
	cset	w10, mi
	//APP
	//NO_APP
	cmp	w10, #0
	fcsel	d23, d1, d24, ne
.LBB4_13:                               // %"bond::brent::Search::moved.exit.i"
                                        //   in Loop: Header=BB4_3 Depth=1
	fadd	d1, d5, d23
	movi	d24, #0000000000000000
	fdiv	d23, d1, d3
	fmov	d25, d23
	fsub	d24, d24, d23
	//ARITH_FENCE
	fcmp	d6, d25
	cset	w10, mi
	//APP
	//NO_APP
	cmp	w10, #0
	fcsel	d24, d23, d24, ne
	//ARITH_FENCE
	fcmp	d24, d17
	fmov	d24, d16
	cset	w10, mi
	//APP
	//NO_APP
	cbnz	w10, .LBB4_2
// %bb.14:                              // %join.3.i.i.i30.i
                                        //   in Loop: Header=BB4_3 Depth=1
	fmov	d24, #1.00000000
	fmov	d25, #1.00000000
	cbz	w9, .LBB4_1
// %bb.15:                              // %join.5.i.i.preheader.i.i.i.i
                                        //   in Loop: Header=BB4_3 Depth=1
	fmov	d26, #1.00000000
	mov	w10, w9
	fadd	d27, d23, d26
.LBB4_16:                               // %join.5.i.i.i.i.i.i
                                        //   Parent Loop BB4_3 Depth=1
                                        // =>  This Inner Loop Header: Depth=2
	tst	w10, #0x1
	lsr	w10, w10, #1
	fcsel	d28, d26, d27, eq
	fmul	d27, d27, d27
	fmul	d25, d25, d28
	cbnz	w10, .LBB4_16
	b	.LBB4_1
.LBB4_17:                               // %"bond::brent::Search::tried.exit.i.i"
                                        //   in Loop: Header=BB4_3 Depth=1
	fmov	d31, d28
	fsub	d30, d30, d28
	//ARITH_FENCE
	fcmp	d6, d31
	cset	w10, mi
	//APP
	//NO_APP
	cmp	w10, #0
	fcsel	d30, d28, d30, ne
	//ARITH_FENCE
	fcmp	d29, d30
	cset	w10, mi
	//APP
	//NO_APP
	cbz	w10, .LBB4_10
// %bb.18:                              // %then.1.i.i23
                                        //   in Loop: Header=BB4_3 Depth=1
	fdiv	d29, d19, d28
	fsub	d30, d27, d7
	movi	d31, #0000000000000000
	fmov	d8, d30
	fsub	d31, d31, d30
	//ARITH_FENCE
	fcmp	d6, d8
	cset	w10, mi
	//APP
	//NO_APP
	cmp	w10, #0
	fcsel	d30, d30, d31, ne
	//ARITH_FENCE
	fcmp	d30, d18
	fadd	d30, d22, d22
	cset	w10, mi
	//APP
	//NO_APP
	cbz	w10, .LBB4_20
// %bb.19:                              // %then.1.i.i.i.i
                                        //   in Loop: Header=BB4_3 Depth=1
	fmov	d27, #1.00000000
	fmul	d28, d30, d29
	fsub	d27, d27, d29
	b	.LBB4_21
.LBB4_20:                               // %join.3.i.i.i.i
                                        //   in Loop: Header=BB4_3 Depth=1
	fdiv	d28, d28, d20
	fmov	d8, #-1.00000000
	fsub	d27, d5, d27
	fdiv	d31, d19, d20
	fmul	d30, d30, d28
	fsub	d9, d28, d31
	fadd	d31, d31, d8
	fadd	d28, d28, d8
	fmul	d30, d30, d9
	fmul	d27, d27, d31
	fsub	d27, d30, d27
	fmul	d30, d28, d31
	fadd	d31, d29, d8
	fmul	d28, d29, d27
	fmul	d27, d31, d30
.LBB4_21:                               // %"bond::brent::Search::fraction_up.exit.i.i"
                                        //   in Loop: Header=BB4_3 Depth=1
	fmov	d29, d28
	fneg	d31, d28
	fmov	d8, #3.00000000
	//ARITH_FENCE
	fcmp	d6, d29
	fneg	d29, d27
	cset	w10, mi
	//APP
	//NO_APP
	cmp	w10, #0
	fcsel	d27, d29, d27, ne
	movi	d29, #0000000000000000
	fcsel	d28, d28, d31, ne
	fmul	d31, d22, d8
	fmul	d30, d24, d27
	fmul	d31, d31, d27
	fmov	d9, d30
	fsub	d8, d29, d30
	//ARITH_FENCE
	fcmp	d6, d9
	cset	w10, mi
	//APP
	//NO_APP
	cmp	w10, #0
	fcsel	d8, d30, d8, ne
	fadd	d30, d28, d28
	fsub	d31, d31, d8
	//ARITH_FENCE
	//ARITH_FENCE
	fcmp	d30, d31
	cset	w10, mi
	//APP
	//NO_APP
	cbz	w10, .LBB4_10
// %bb.22:                              // %"bond::brent::Search::safe.exit.i.i"
                                        //   in Loop: Header=BB4_3 Depth=1
	fmul	d21, d21, d27
	fmov	d31, d21
	fsub	d29, d29, d21
	//ARITH_FENCE
	fcmp	d6, d31
	cset	w10, mi
	//APP
	//NO_APP
	cmp	w10, #0
	fcsel	d21, d21, d29, ne
	fmov	d29, d1
	//ARITH_FENCE
	fcmp	d30, d21
	fmov	d21, d22
	cset	w10, mi
	//APP
	//NO_APP
	cbz	w10, .LBB4_11
// %bb.23:                              // %then.4.i.i
                                        //   in Loop: Header=BB4_3 Depth=1
	fdiv	d22, d28, d27
	movi	d21, #0000000000000000
	fsub	d25, d21, d22
	fmov	d29, d22
	fmov	d21, d23
	//ARITH_FENCE
	b	.LBB4_11
.LBB4_24:
	fmov	d1, d5
.LBB4_25:                               // %common.ret
	fmov	d0, d1
	ldp	d9, d8, [sp], #16               // 16-byte Folded Reload
	ret
.Lfunc_end4:
	.size	"bond::worked::Worked::searched", .Lfunc_end4-"bond::worked::Worked::searched"
                                        // -- End function
	.section	.rodata.cst8,"aM",@progbits,8
	.p2align	3, 0x0                          // -- Begin function bond::durations::macaulay_duration
.LCPI5_0:
	.xword	0x3d719799812dea11              // double 9.9999999999999998E-13
	.section	".text.bond::durations::macaulay_duration","ax",@progbits
	.p2align	2
	.type	"bond::durations::macaulay_duration",@function
"bond::durations::macaulay_duration":   // @"bond::durations::macaulay_duration"
// %bb.0:                               // %start
	fmov	d1, #4.00000000
	ldrb	w8, [x1, #24]
	fmov	d2, #12.00000000
	fmov	d3, #1.00000000
	fmov	d4, #2.00000000
	mov	x9, #4841369599423283200        // =0x4330000000000000
	cmp	w8, #2
	fmov	d5, x9
	//ARITH_FENCE
	//ARITH_FENCE
	fcsel	d1, d1, d2, eq
	cmp	w8, #0
	//ARITH_FENCE
	//ARITH_FENCE
	fcsel	d2, d3, d4, eq
	cmp	w8, #1
	ldr	d4, [x1, #16]
	fcsel	d1, d1, d2, gt
	ldp	d2, d3, [x1]
	fmul	d6, d4, d1
	fadd	d7, d6, d5
	movi	d5, #0000000000000000
	fmov	d16, d7
	//ARITH_FENCE
	//ARITH_FENCE
	fcmp	d5, d16
	cset	w9, mi
	//APP
	//NO_APP
	cbz	w9, .LBB5_2
// %bb.1:                               // %then.1.i.i.i
	fmov	x9, d7
	fmov	d7, d6
	ucvtf	d16, w9
	//ARITH_FENCE
	//ARITH_FENCE
	fcmp	d16, d7
	b.eq	.LBB5_5
	b	.LBB5_3
.LBB5_2:                                // %start.join.3_crit_edge.i.i.i
	fmov	d7, d6
	//ARITH_FENCE
.LBB5_3:                                // %join.3.i.i.i
	mov	x9, #281474974613504            // =0xffffffe00000
	movk	x9, #16879, lsl #48
	fmov	d16, x9
	//ARITH_FENCE
	fcmp	d16, d7
	cset	w9, mi
	//APP
	//NO_APP
	cbz	w9, .LBB5_16
// %bb.4:
	mov	w9, #-1                         // =0xffffffff
.LBB5_5:                                // %"bond::worked::Worked::of.exit"
	fmov	d6, d2
	//ARITH_FENCE
	fcmp	d6, d5
	cset	w10, mi
	cmp	w9, #1200
	//APP
	//NO_APP
	b.hi	.LBB5_8
// %bb.6:                               // %"bond::worked::Worked::of.exit"
	cbnz	w10, .LBB5_8
// %bb.7:                               // %"bond::worked::Worked::all_right.exit.i"
	fadd	d6, d2, d3
	fadd	d6, d4, d6
	fadd	d6, d0, d6
	fsub	d6, d6, d6
	//ARITH_FENCE
	fcmp	d6, d5
	b.eq	.LBB5_13
.LBB5_8:                                // %join.3.i
	fsub	d6, d2, d2
	//ARITH_FENCE
	fcmp	d6, d5
	ccmp	w10, #0, #0, eq
	mov	w10, #6                         // =0x6
	csel	w10, wzr, w10, ne
	b.ne	.LBB5_15
// %bb.9:                               // %join.3.i
	fsub	d6, d4, d4
	//ARITH_FENCE
	fcmp	d6, d5
	b.ne	.LBB5_15
// %bb.10:                              // %join.3.i
	cmp	w9, #1200
	b.hi	.LBB5_15
// %bb.11:                              // %"bond::worked::Worked::judge_bond.exit"
	fsub	d6, d0, d0
	mov	w10, #8                         // =0x8
	//ARITH_FENCE
	fcmp	d6, d5
	b.ne	.LBB5_15
// %bb.12:                              // %"bond::worked::Worked::judge_bond.exit"
	fsub	d6, d3, d3
	//ARITH_FENCE
	fcmp	d6, d5
	b.ne	.LBB5_15
.LBB5_13:                               // %arm.1
	sub	sp, sp, #96
	fdiv	d0, d0, d1
	fmul	d6, d2, d3
	movi	d7, #0000000000000000
	str	d8, [sp, #64]                   // 8-byte Spill
	stp	x29, x30, [sp, #72]             // 16-byte Folded Spill
	add	x29, sp, #72
	str	x19, [sp, #88]                  // 8-byte Spill
	fdiv	d6, d6, d1
	fmov	d16, d0
	fsub	d7, d7, d0
	//ARITH_FENCE
	fcmp	d5, d16
	cset	w10, mi
	//APP
	//NO_APP
	cmp	w10, #0
	fcsel	d7, d0, d7, ne
	adrp	x10, .LCPI5_0
	ldr	d16, [x10, :lo12:.LCPI5_0]
	//ARITH_FENCE
	//ARITH_FENCE
	fcmp	d7, d16
	cset	w10, mi
	//APP
	//NO_APP
	cbz	w10, .LBB5_19
// %bb.14:                              // %then.1.i.i
	ucvtf	d7, w9
	//ARITH_FENCE
	fmul	d7, d6, d7
	fadd	d8, d2, d7
	b	.LBB5_23
.LBB5_15:                               // %arm.2
	mov	w8, #1                          // =0x1
	strb	w10, [x0, #4]
	str	w8, [x0]
	stur	xzr, [x0, #5]
	str	wzr, [x0, #12]
	ret
.LBB5_16:                               // %join.3.i.i.i.i
	fcmp	d5, d7
	cset	w9, mi
	//APP
	//NO_APP
	cbz	w9, .LBB5_5
// %bb.17:                              // %then.4.i.i.i.i
	fadd	d6, d6, d6
	fmov	d7, #1.00000000
	//ARITH_FENCE
	fmov	d16, d6
	//ARITH_FENCE
	fcmp	d7, d16
	cset	w9, hi
	//APP
	//NO_APP
	cbz	w9, .LBB5_26
// %bb.18:
	mov	w9, wzr
	b	.LBB5_5
.LBB5_19:                               // %join.3.i.i
	fmov	d7, #1.00000000
	fmov	d16, #1.00000000
	cbz	w9, .LBB5_22
// %bb.20:                              // %join.5.i.i.preheader.i.i
	fmov	d17, #1.00000000
	mov	w10, w9
	fadd	d18, d0, d17
.LBB5_21:                               // %join.5.i.i.i.i
                                        // =>This Inner Loop Header: Depth=1
	tst	w10, #0x1
	lsr	w10, w10, #1
	fcsel	d19, d17, d18, eq
	fmul	d18, d18, d18
	fmul	d16, d16, d19
	cbnz	w10, .LBB5_21
.LBB5_22:                               // %"elementary::whole_power::negative_power.exit.i.i"
	fdiv	d16, d7, d16
	fsub	d7, d7, d16
	fmul	d16, d2, d16
	fmul	d7, d6, d7
	fdiv	d7, d7, d0
	fadd	d8, d16, d7
.LBB5_23:                               // %"bond::worked::Worked::price_at.exit.i"
	fmov	d16, d8
	movi	d7, #0000000000000000
	//ARITH_FENCE
	fcmp	d5, d16
	fsub	d5, d7, d8
	cset	w10, mi
	//APP
	//NO_APP
	cmp	w10, #0
	mov	x10, #4372995238176751616       // =0x3cb0000000000000
	fcsel	d5, d8, d5, ne
	fmov	d16, x10
	//ARITH_FENCE
	//ARITH_FENCE
	fcmp	d5, d16
	cset	w10, mi
	//APP
	//NO_APP
	cbnz	w10, .LBB5_25
// %bb.24:                              // %join.3.i18
	ldur	w10, [x1, #25]
	strb	w8, [sp, #32]
	mov	x19, x0
	ldur	w8, [x1, #28]
	add	x0, sp, #8
	mov	w1, wzr
	stp	d2, d3, [sp, #8]
	str	d4, [sp, #24]
	stur	w10, [sp, #33]
	str	w8, [sp, #36]
	stp	d1, d6, [sp, #40]
	stp	w9, wzr, [sp, #56]
	bl	"bond::worked::Worked::weighted_sum"
	fdiv	d7, d0, d8
	mov	x0, x19
.LBB5_25:                               // %"bond::worked::Worked::macaulay_at.exit"
	ldp	x29, x30, [sp, #72]             // 16-byte Folded Reload
	ldr	x19, [sp, #88]                  // 8-byte Reload
	ldr	d8, [sp, #64]                   // 8-byte Reload
	str	xzr, [x0]
	str	d7, [x0, #8]
	add	sp, sp, #96
	ret
.LBB5_26:                               // %then.1.i.i.i.i.i
	fmov	x9, d6
	mov	x11, #4503599627370496          // =0x10000000000000
	mov	w12, #1075                      // =0x433
	lsr	x10, x9, #52
	bfxil	x11, x9, #0, #52
	lsr	x13, x9, #54
	sub	x12, x12, x10
	sub	x10, x10, #1075
	cmp	x13, #269
	lsr	x11, x11, x12
	lsl	x9, x9, x10
	csel	x9, x11, x9, lo
	add	x9, x9, #1
	lsr	x9, x9, #1
                                        // kill: def $w9 killed $w9 killed $x9 def $x9
	b	.LBB5_5
.Lfunc_end5:
	.size	"bond::durations::macaulay_duration", .Lfunc_end5-"bond::durations::macaulay_duration"
                                        // -- End function
	.section	.rodata.cst8,"aM",@progbits,8
	.p2align	3, 0x0                          // -- Begin function bond::durations::modified_duration
.LCPI6_0:
	.xword	0x3d719799812dea11              // double 9.9999999999999998E-13
	.section	".text.bond::durations::modified_duration","ax",@progbits
	.p2align	2
	.type	"bond::durations::modified_duration",@function
"bond::durations::modified_duration":   // @"bond::durations::modified_duration"
// %bb.0:                               // %start
	fmov	d1, #4.00000000
	ldrb	w8, [x1, #24]
	fmov	d2, #12.00000000
	fmov	d3, #1.00000000
	fmov	d4, #2.00000000
	mov	x9, #4841369599423283200        // =0x4330000000000000
	cmp	w8, #2
	fmov	d5, x9
	//ARITH_FENCE
	//ARITH_FENCE
	fcsel	d1, d1, d2, eq
	cmp	w8, #0
	//ARITH_FENCE
	//ARITH_FENCE
	fcsel	d2, d3, d4, eq
	cmp	w8, #1
	ldr	d4, [x1, #16]
	fcsel	d1, d1, d2, gt
	ldp	d2, d3, [x1]
	fmul	d6, d4, d1
	fadd	d7, d6, d5
	movi	d5, #0000000000000000
	fmov	d16, d7
	//ARITH_FENCE
	//ARITH_FENCE
	fcmp	d5, d16
	cset	w9, mi
	//APP
	//NO_APP
	cbz	w9, .LBB6_2
// %bb.1:                               // %then.1.i.i.i
	fmov	x9, d7
	fmov	d7, d6
	ucvtf	d16, w9
	//ARITH_FENCE
	//ARITH_FENCE
	fcmp	d16, d7
	b.eq	.LBB6_5
	b	.LBB6_3
.LBB6_2:                                // %start.join.3_crit_edge.i.i.i
	fmov	d7, d6
	//ARITH_FENCE
.LBB6_3:                                // %join.3.i.i.i
	mov	x9, #281474974613504            // =0xffffffe00000
	movk	x9, #16879, lsl #48
	fmov	d16, x9
	//ARITH_FENCE
	fcmp	d16, d7
	cset	w9, mi
	//APP
	//NO_APP
	cbz	w9, .LBB6_16
// %bb.4:
	mov	w9, #-1                         // =0xffffffff
.LBB6_5:                                // %"bond::worked::Worked::of.exit"
	fmov	d6, d2
	//ARITH_FENCE
	fcmp	d6, d5
	cset	w10, mi
	cmp	w9, #1200
	//APP
	//NO_APP
	b.hi	.LBB6_8
// %bb.6:                               // %"bond::worked::Worked::of.exit"
	cbnz	w10, .LBB6_8
// %bb.7:                               // %"bond::worked::Worked::all_right.exit.i"
	fadd	d6, d2, d3
	fadd	d6, d4, d6
	fadd	d6, d0, d6
	fsub	d6, d6, d6
	//ARITH_FENCE
	fcmp	d6, d5
	b.eq	.LBB6_13
.LBB6_8:                                // %join.3.i
	fsub	d6, d2, d2
	//ARITH_FENCE
	fcmp	d6, d5
	ccmp	w10, #0, #0, eq
	mov	w10, #6                         // =0x6
	csel	w10, wzr, w10, ne
	b.ne	.LBB6_15
// %bb.9:                               // %join.3.i
	fsub	d6, d4, d4
	//ARITH_FENCE
	fcmp	d6, d5
	b.ne	.LBB6_15
// %bb.10:                              // %join.3.i
	cmp	w9, #1200
	b.hi	.LBB6_15
// %bb.11:                              // %"bond::worked::Worked::judge_bond.exit"
	fsub	d6, d0, d0
	mov	w10, #8                         // =0x8
	//ARITH_FENCE
	fcmp	d6, d5
	b.ne	.LBB6_15
// %bb.12:                              // %"bond::worked::Worked::judge_bond.exit"
	fsub	d6, d3, d3
	//ARITH_FENCE
	fcmp	d6, d5
	b.ne	.LBB6_15
.LBB6_13:                               // %arm.1
	sub	sp, sp, #112
	stp	d9, d8, [sp, #64]               // 16-byte Folded Spill
	fdiv	d8, d0, d1
	fmul	d0, d2, d3
	movi	d6, #0000000000000000
	stp	x29, x30, [sp, #80]             // 16-byte Folded Spill
	add	x29, sp, #80
	str	x19, [sp, #96]                  // 8-byte Spill
	fdiv	d0, d0, d1
	fmov	d7, d8
	fsub	d6, d6, d8
	//ARITH_FENCE
	fcmp	d5, d7
	cset	w10, mi
	//APP
	//NO_APP
	cmp	w10, #0
	fcsel	d6, d8, d6, ne
	adrp	x10, .LCPI6_0
	ldr	d7, [x10, :lo12:.LCPI6_0]
	//ARITH_FENCE
	//ARITH_FENCE
	fcmp	d6, d7
	cset	w10, mi
	//APP
	//NO_APP
	cbz	w10, .LBB6_19
// %bb.14:                              // %then.1.i.i.i22
	ucvtf	d6, w9
	//ARITH_FENCE
	fmul	d6, d0, d6
	fadd	d9, d2, d6
	b	.LBB6_23
.LBB6_15:                               // %arm.2
	mov	w8, #1                          // =0x1
	strb	w10, [x0, #4]
	str	w8, [x0]
	stur	xzr, [x0, #5]
	str	wzr, [x0, #12]
	ret
.LBB6_16:                               // %join.3.i.i.i.i
	fcmp	d5, d7
	cset	w9, mi
	//APP
	//NO_APP
	cbz	w9, .LBB6_5
// %bb.17:                              // %then.4.i.i.i.i
	fadd	d6, d6, d6
	fmov	d7, #1.00000000
	//ARITH_FENCE
	fmov	d16, d6
	//ARITH_FENCE
	fcmp	d7, d16
	cset	w9, hi
	//APP
	//NO_APP
	cbz	w9, .LBB6_26
// %bb.18:
	mov	w9, wzr
	b	.LBB6_5
.LBB6_19:                               // %join.3.i.i.i17
	fmov	d6, #1.00000000
	fmov	d7, #1.00000000
	cbz	w9, .LBB6_22
// %bb.20:                              // %join.5.i.i.preheader.i.i.i
	fmov	d16, #1.00000000
	mov	w10, w9
	fadd	d17, d8, d16
.LBB6_21:                               // %join.5.i.i.i.i.i
                                        // =>This Inner Loop Header: Depth=1
	tst	w10, #0x1
	lsr	w10, w10, #1
	fcsel	d18, d16, d17, eq
	fmul	d17, d17, d17
	fmul	d7, d7, d18
	cbnz	w10, .LBB6_21
.LBB6_22:                               // %"elementary::whole_power::negative_power.exit.i.i.i"
	fdiv	d7, d6, d7
	fsub	d6, d6, d7
	fmul	d7, d2, d7
	fmul	d6, d0, d6
	fdiv	d6, d6, d8
	fadd	d9, d7, d6
.LBB6_23:                               // %"bond::worked::Worked::price_at.exit.i.i"
	fmov	d7, d9
	movi	d6, #0000000000000000
	//ARITH_FENCE
	fcmp	d5, d7
	fsub	d5, d6, d9
	cset	w10, mi
	//APP
	//NO_APP
	cmp	w10, #0
	mov	x10, #4372995238176751616       // =0x3cb0000000000000
	fcsel	d5, d9, d5, ne
	fmov	d7, x10
	//ARITH_FENCE
	//ARITH_FENCE
	fcmp	d5, d7
	cset	w10, mi
	//APP
	//NO_APP
	cbnz	w10, .LBB6_25
// %bb.24:                              // %join.3.i.i
	stp	d1, d0, [sp, #40]
	fmov	d0, d8
	ldur	w10, [x1, #25]
	strb	w8, [sp, #32]
	ldur	w8, [x1, #28]
	mov	x19, x0
	add	x0, sp, #8
	mov	w1, wzr
	stp	d2, d3, [sp, #8]
	str	d4, [sp, #24]
	stur	w10, [sp, #33]
	str	w8, [sp, #36]
	stp	w9, wzr, [sp, #56]
	bl	"bond::worked::Worked::weighted_sum"
	fdiv	d6, d0, d9
	mov	x0, x19
.LBB6_25:                               // %"bond::worked::Worked::modified_at.exit"
	fmov	d0, #1.00000000
	ldp	x29, x30, [sp, #80]             // 16-byte Folded Reload
	ldr	x19, [sp, #96]                  // 8-byte Reload
	str	xzr, [x0]
	fadd	d0, d8, d0
	ldp	d9, d8, [sp, #64]               // 16-byte Folded Reload
	fdiv	d0, d6, d0
	str	d0, [x0, #8]
	add	sp, sp, #112
	ret
.LBB6_26:                               // %then.1.i.i.i.i.i
	fmov	x9, d6
	mov	x11, #4503599627370496          // =0x10000000000000
	mov	w12, #1075                      // =0x433
	lsr	x10, x9, #52
	bfxil	x11, x9, #0, #52
	lsr	x13, x9, #54
	sub	x12, x12, x10
	sub	x10, x10, #1075
	cmp	x13, #269
	lsr	x11, x11, x12
	lsl	x9, x9, x10
	csel	x9, x11, x9, lo
	add	x9, x9, #1
	lsr	x9, x9, #1
                                        // kill: def $w9 killed $w9 killed $x9 def $x9
	b	.LBB6_5
.Lfunc_end6:
	.size	"bond::durations::modified_duration", .Lfunc_end6-"bond::durations::modified_duration"
                                        // -- End function
	.section	".text.numbers::whole::ceiling_to_u32","ax",@progbits
	.p2align	2                               // -- Begin function numbers::whole::ceiling_to_u32
	.type	"numbers::whole::ceiling_to_u32",@function
"numbers::whole::ceiling_to_u32":       // @"numbers::whole::ceiling_to_u32"
// %bb.0:                               // %start
	mov	x8, #281474974613504            // =0xffffffe00000
	fmov	d1, d0
	movk	x8, #16879, lsl #48
	fmov	d2, x8
	//ARITH_FENCE
	//ARITH_FENCE
	fcmp	d2, d1
	cset	w8, mi
	//APP
	//NO_APP
	cbz	w8, .LBB7_2
// %bb.1:
	mov	w0, #-1                         // =0xffffffff
	ret
.LBB7_2:                                // %join.3
	movi	d2, #0000000000000000
	//ARITH_FENCE
	fcmp	d2, d1
	cset	w8, mi
	//APP
	//NO_APP
	cbz	w8, .LBB7_5
// %bb.3:                               // %then.4
	fmov	d2, #1.00000000
	//ARITH_FENCE
	fcmp	d2, d1
	cset	w8, hi
	//APP
	//NO_APP
	cbz	w8, .LBB7_6
// %bb.4:
	mov	w8, wzr
	b	.LBB7_7
.LBB7_5:
	mov	w0, wzr
	ret
.LBB7_6:                                // %then.1.i
	fmov	x8, d0
	mov	x10, #4503599627370496          // =0x10000000000000
	mov	w11, #1075                      // =0x433
	lsr	x9, x8, #52
	bfxil	x10, x8, #0, #52
	lsr	x12, x8, #54
	sub	x11, x11, x9
	sub	x9, x9, #1075
	cmp	x12, #269
	lsr	x10, x10, x11
	lsl	x8, x8, x9
	csel	w8, w10, w8, lo
.LBB7_7:                                // %"core::num::truncating_f64_to_u64.exit"
	ucvtf	d0, w8
	//ARITH_FENCE
	fcmp	d0, d1
	cset	w9, mi
	//APP
	//NO_APP
	cmp	w9, #0
	cinc	w0, w8, ne
	ret
.Lfunc_end7:
	.size	"numbers::whole::ceiling_to_u32", .Lfunc_end7-"numbers::whole::ceiling_to_u32"
                                        // -- End function
	.section	".text.curves::each::answer_onward","ax",@progbits
	.p2align	2                               // -- Begin function curves::each::answer_onward
	.type	"curves::each::answer_onward",@function
"curves::each::answer_onward":          // @"curves::each::answer_onward"
// %bb.0:                               // %start
	cbz	x3, .LBB8_8
// %bb.1:                               // %arm.1.i.i.i
	ldr	d0, [x2]
	cbz	x5, .LBB8_9
.LBB8_2:                                // %arm.1.i.i5.i
	ldr	d1, [x4]
	cbz	x3, .LBB8_10
.LBB8_3:                                // %arm.1.i.i8.i
	add	x8, x2, x3, lsl #3
	ldur	d2, [x8, #-8]
	cbz	x5, .LBB8_11
.LBB8_4:                                // %arm.1.i.i12.i
	add	x8, x4, x5, lsl #3
	ldur	d3, [x8, #-8]
	cbz	x3, .LBB8_12
.LBB8_5:                                // %then.2.i
	ldr	d7, [x2]
	cmp	x3, #1
	b.eq	.LBB8_16
// %bb.6:                               // %then.2.i
	cmp	x5, #2
	b.lo	.LBB8_16
// %bb.7:                               // %then.8.i
	ldr	d16, [x2, #8]
	ldp	d17, d18, [x4]
	cbnz	x7, .LBB8_20
	b	.LBB8_64
.LBB8_8:
	mov	x8, #9221120237041090560        // =0x7ff8000000000000
	fmov	d0, x8
	cbnz	x5, .LBB8_2
.LBB8_9:
	mov	x8, #9221120237041090560        // =0x7ff8000000000000
	fmov	d1, x8
	cbnz	x3, .LBB8_3
.LBB8_10:
	mov	x8, #9221120237041090560        // =0x7ff8000000000000
	fmov	d2, x8
	cbnz	x5, .LBB8_4
.LBB8_11:
	mov	x8, #9221120237041090560        // =0x7ff8000000000000
	fmov	d3, x8
	cbnz	x3, .LBB8_5
.LBB8_12:
	mov	x8, #9221120237041090560        // =0x7ff8000000000000
	fmov	d7, x8
	fmov	d16, d7
	cbz	x5, .LBB8_19
.LBB8_13:                               // %then.1.i19.i
	ldr	d17, [x4]
	cmp	x5, #1
	b.ne	.LBB8_15
// %bb.14:
	mov	x8, #9221120237041090560        // =0x7ff8000000000000
	fmov	d18, x8
	cbnz	x7, .LBB8_20
	b	.LBB8_64
.LBB8_15:                               // %arm.1.i.i.i22.i
	ldr	d18, [x4, #8]
	cbnz	x7, .LBB8_20
	b	.LBB8_64
.LBB8_16:                               // %then.1.i.i
	cmp	x3, #1
	b.eq	.LBB8_18
// %bb.17:                              // %arm.1.i.i.i.i
	ldr	d16, [x2, #8]
	cbnz	x5, .LBB8_13
	b	.LBB8_19
.LBB8_18:
	mov	x8, #9221120237041090560        // =0x7ff8000000000000
	fmov	d16, x8
	cbnz	x5, .LBB8_13
.LBB8_19:
	mov	x8, #9221120237041090560        // =0x7ff8000000000000
	fmov	d17, x8
	fmov	d18, d17
	cbz	x7, .LBB8_64
.LBB8_20:                               // %join.6.lr.ph
	movi	d4, #0000000000000000
	movi	d5, #0000000000000000
	cmp	x3, #0
	cset	w9, ne
	mov	x8, xzr
	mov	x11, xzr
	sub	x9, x3, x9
	add	x10, x2, #8
	//ARITH_FENCE
	//ARITH_FENCE
	//ARITH_FENCE
	b	.LBB8_22
.LBB8_21:                               // %"curves::each::answer_along.exit"
                                        //   in Loop: Header=BB8_22 Depth=1
	str	d19, [x6, x8, lsl #3]
	add	x8, x8, #1
	cmp	x8, x7
	b.eq	.LBB8_64
.LBB8_22:                               // %join.6
                                        // =>This Loop Header: Depth=1
                                        //     Child Loop BB8_39 Depth 2
                                        //     Child Loop BB8_34 Depth 2
                                        //     Child Loop BB8_27 Depth 2
                                        //     Child Loop BB8_25 Depth 2
	fmov	d19, d5
	ldr	d5, [x6, x8, lsl #3]
	fmov	d6, d5
	//ARITH_FENCE
	//ARITH_FENCE
	fcmp	d19, d6
	cset	w12, mi
	//APP
	//NO_APP
	cbz	w12, .LBB8_30
// %bb.23:                              // %then.2.i14
                                        //   in Loop: Header=BB8_22 Depth=1
	fmov	d19, d16
	and	w13, w0, #0xff
	//ARITH_FENCE
	fcmp	d6, d19
	cset	w12, ls
	cset	w14, mi
	//APP
	//NO_APP
	cmp	w12, #0
	//APP
	//NO_APP
	cset	w12, ne
	cmp	w14, #0
	cset	w14, ne
	cmp	w13, #2
	csel	w12, w14, w12, eq
	tbnz	w12, #0, .LBB8_45
// %bb.24:                              // %then.1.i.i15
                                        //   in Loop: Header=BB8_22 Depth=1
	cmp	x11, x3
	csel	x12, x11, xzr, lo
	cmp	x12, x9
	csel	x11, x12, x9, hi
	cmp	w13, #2
	b.ne	.LBB8_27
.LBB8_25:                               // %loop.2.i7.i.i.i
                                        //   Parent Loop BB8_22 Depth=1
                                        // =>  This Inner Loop Header: Depth=2
	cmp	x11, x12
	b.eq	.LBB8_50
// %bb.26:                              // %join.5.i10.i.i.i
                                        //   in Loop: Header=BB8_25 Depth=2
	ldr	d7, [x10, x12, lsl #3]
	add	x13, x12, #1
	mov	x12, x13
	//ARITH_FENCE
	fcmp	d6, d7
	cset	w14, mi
	//APP
	//NO_APP
	cbz	w14, .LBB8_25
	b	.LBB8_29
.LBB8_27:                               // %loop.2.i.i.i.i
                                        //   Parent Loop BB8_22 Depth=1
                                        // =>  This Inner Loop Header: Depth=2
	cmp	x11, x12
	b.eq	.LBB8_63
// %bb.28:                              // %join.5.i.i.i.i
                                        //   in Loop: Header=BB8_27 Depth=2
	ldr	d7, [x10, x12, lsl #3]
	add	x13, x12, #1
	mov	x12, x13
	//ARITH_FENCE
	fcmp	d6, d7
	cset	w14, hi
	//APP
	//NO_APP
	cbnz	w14, .LBB8_27
.LBB8_29:                               // %"join.5.i.i.i.i.curves::each::next_segment.exit.i.loopexit1_crit_edge"
                                        //   in Loop: Header=BB8_22 Depth=1
	sub	x11, x13, #1
	cmp	x11, x3
	b.lo	.LBB8_52
	b	.LBB8_42
.LBB8_30:                               // %else.2.i.i
                                        //   in Loop: Header=BB8_22 Depth=1
	and	w11, w0, #0xff
	cmp	w11, #2
	b.ne	.LBB8_36
// %bb.31:                              // %arm.2.i.i.i
                                        //   in Loop: Header=BB8_22 Depth=1
	cmp	x3, #2
	b.lo	.LBB8_41
// %bb.32:                              // %join.5.i.i6.i.i.i.preheader
                                        //   in Loop: Header=BB8_22 Depth=1
	mov	x11, xzr
	mov	x12, x3
	b	.LBB8_34
.LBB8_33:                               // %select.end7
                                        //   in Loop: Header=BB8_34 Depth=2
	sub	x12, x12, x13
	cmp	x12, #1
	b.ls	.LBB8_51
.LBB8_34:                               // %join.5.i.i6.i.i.i
                                        //   Parent Loop BB8_22 Depth=1
                                        // =>  This Inner Loop Header: Depth=2
	lsr	x13, x12, #1
	add	x14, x13, x11
	ldr	d7, [x2, x14, lsl #3]
	//ARITH_FENCE
	fcmp	d6, d7
	cset	w15, mi
	//APP
	//NO_APP
	cbnz	w15, .LBB8_33
// %bb.35:                              // %select.false8
                                        //   in Loop: Header=BB8_34 Depth=2
	mov	x11, x14
	b	.LBB8_33
.LBB8_36:                               // %arm.1.i.i.i11
                                        //   in Loop: Header=BB8_22 Depth=1
	cmp	x3, #2
	b.lo	.LBB8_41
// %bb.37:                              // %join.5.i.i.i.i.i.preheader
                                        //   in Loop: Header=BB8_22 Depth=1
	mov	x11, xzr
	mov	x12, x3
	b	.LBB8_39
.LBB8_38:                               // %select.end
                                        //   in Loop: Header=BB8_39 Depth=2
	sub	x12, x12, x13
	cmp	x12, #1
	b.ls	.LBB8_51
.LBB8_39:                               // %join.5.i.i.i.i.i
                                        //   Parent Loop BB8_22 Depth=1
                                        // =>  This Inner Loop Header: Depth=2
	lsr	x13, x12, #1
	add	x14, x13, x11
	ldr	d7, [x2, x14, lsl #3]
	//ARITH_FENCE
	fcmp	d6, d7
	cset	w15, ls
	//APP
	//NO_APP
	cbnz	w15, .LBB8_38
// %bb.40:                              // %select.false
                                        //   in Loop: Header=BB8_39 Depth=2
	mov	x11, x14
	b	.LBB8_38
.LBB8_41:                               //   in Loop: Header=BB8_22 Depth=1
	mov	x11, xzr
	cmp	xzr, x3
	b.lo	.LBB8_52
.LBB8_42:                               //   in Loop: Header=BB8_22 Depth=1
	mov	x12, #9221120237041090560       // =0x7ff8000000000000
	fmov	d7, x12
	fmov	d16, d7
	cmp	x11, x5
	b.hs	.LBB8_57
.LBB8_43:                               // %then.1.i19.i.i
                                        //   in Loop: Header=BB8_22 Depth=1
	add	x12, x11, #1
	ldr	d17, [x4, x11, lsl #3]
	cmp	x12, x5
	b.hs	.LBB8_49
// %bb.44:                              // %arm.1.i.i.i22.i.i
                                        //   in Loop: Header=BB8_22 Depth=1
	ldr	d18, [x4, x12, lsl #3]
.LBB8_45:                               // %"curves::each::next_in_hand.exit"
                                        //   in Loop: Header=BB8_22 Depth=1
	and	w12, w0, #0xff
	cmp	w12, #2
	b.eq	.LBB8_58
.LBB8_46:                               // %"curves::each::next_in_hand.exit"
                                        //   in Loop: Header=BB8_22 Depth=1
	fsub	d19, d5, d7
	fsub	d20, d16, d7
	cmp	w12, #1
	fdiv	d19, d19, d20
	b.ne	.LBB8_48
// %bb.47:                              // %arm.2.i.i
                                        //   in Loop: Header=BB8_22 Depth=1
	fmov	d20, #1.00000000
	fsub	d20, d20, d19
	fmul	d19, d18, d19
	fmul	d20, d17, d20
	fadd	d19, d19, d20
	b	.LBB8_60
.LBB8_48:                               // %arm.1.i.i
                                        //   in Loop: Header=BB8_22 Depth=1
	fsub	d20, d18, d17
	fmul	d19, d19, d20
	b	.LBB8_59
.LBB8_49:                               //   in Loop: Header=BB8_22 Depth=1
	mov	x12, #9221120237041090560       // =0x7ff8000000000000
	fmov	d18, x12
	and	w12, w0, #0xff
	cmp	w12, #2
	b.ne	.LBB8_46
	b	.LBB8_58
.LBB8_50:                               //   in Loop: Header=BB8_22 Depth=1
	mov	x11, x9
.LBB8_51:                               // %"curves::each::next_segment.exit.i"
                                        //   in Loop: Header=BB8_22 Depth=1
	cmp	x11, x3
	b.hs	.LBB8_42
.LBB8_52:                               // %then.2.i.i
                                        //   in Loop: Header=BB8_22 Depth=1
	lsl	x12, x11, #3
	add	x13, x11, #1
	cmp	x13, x3
	ldr	d7, [x2, x12]
	b.hs	.LBB8_55
// %bb.53:                              // %then.2.i.i
                                        //   in Loop: Header=BB8_22 Depth=1
	cmp	x13, x5
	b.hs	.LBB8_55
// %bb.54:                              // %then.8.i.i
                                        //   in Loop: Header=BB8_22 Depth=1
	add	x13, x12, #8
	ldr	d17, [x4, x12]
	ldr	d16, [x2, x13]
	ldr	d18, [x4, x13]
	and	w12, w0, #0xff
	cmp	w12, #2
	b.ne	.LBB8_46
	b	.LBB8_58
.LBB8_55:                               // %then.1.i.i.i
                                        //   in Loop: Header=BB8_22 Depth=1
	cmp	x13, x3
	b.hs	.LBB8_62
// %bb.56:                              // %arm.1.i.i.i.i.i
                                        //   in Loop: Header=BB8_22 Depth=1
	ldr	d16, [x2, x13, lsl #3]
	cmp	x11, x5
	b.lo	.LBB8_43
.LBB8_57:                               //   in Loop: Header=BB8_22 Depth=1
	mov	x12, #9221120237041090560       // =0x7ff8000000000000
	fmov	d17, x12
	fmov	d18, d17
	and	w12, w0, #0xff
	cmp	w12, #2
	b.ne	.LBB8_46
.LBB8_58:                               // %arm.3.i.i
                                        //   in Loop: Header=BB8_22 Depth=1
	fsub	d19, d18, d17
	fsub	d20, d5, d7
	fmul	d19, d20, d19
	fsub	d20, d16, d7
	fdiv	d19, d19, d20
.LBB8_59:                               // %"curves::formulas::along.exit.i"
                                        //   in Loop: Header=BB8_22 Depth=1
	fadd	d19, d17, d19
.LBB8_60:                               // %"curves::formulas::along.exit.i"
                                        //   in Loop: Header=BB8_22 Depth=1
	fcmp	d2, d6
	cset	w12, hi
	//APP
	//NO_APP
	cmp	w12, #0
	fcsel	d19, d19, d3, ne
	fcmp	d6, d0
	cset	w12, hi
	//APP
	//NO_APP
	cmp	w12, #0
	fcsel	d19, d19, d1, ne
	cbz	w1, .LBB8_21
// %bb.61:                              // %then.1.i3.i
                                        //   in Loop: Header=BB8_22 Depth=1
	fcmp	d6, d4
	fnmul	d6, d19, d5
	movi	d19, #0000000000000000
	and	w13, w0, #0xff
	cset	w12, hi
	//APP
	//NO_APP
	cmp	w12, #0
	ccmp	w13, #1, #0, eq
	fcsel	d19, d6, d19, ne
	b	.LBB8_21
.LBB8_62:                               //   in Loop: Header=BB8_22 Depth=1
	mov	x12, #9221120237041090560       // =0x7ff8000000000000
	fmov	d16, x12
	cmp	x11, x5
	b.lo	.LBB8_43
	b	.LBB8_57
.LBB8_63:                               //   in Loop: Header=BB8_22 Depth=1
	mov	x11, x9
	cmp	x9, x3
	b.lo	.LBB8_52
	b	.LBB8_42
.LBB8_64:                               // %after.1
	ret
.Lfunc_end8:
	.size	"curves::each::answer_onward", .Lfunc_end8-"curves::each::answer_onward"
                                        // -- End function
	.section	".text.elementary::exp::exp_each","ax",@progbits
	.p2align	2                               // -- Begin function elementary::exp::exp_each
	.type	"elementary::exp::exp_each",@function
"elementary::exp::exp_each":            // @"elementary::exp::exp_each"
// %bb.0:                               // %start
	sub	sp, sp, #288
	stp	x22, x21, [sp, #256]            // 16-byte Folded Spill
	lsr	x22, x1, #4
	and	x21, x1, #0xf
	stp	x20, x19, [sp, #272]            // 16-byte Folded Spill
	add	x19, x0, x22, lsl #7
	str	d14, [sp, #176]                 // 8-byte Spill
	stp	d13, d12, [sp, #184]            // 16-byte Folded Spill
	stp	d11, d10, [sp, #200]            // 16-byte Folded Spill
	stp	d9, d8, [sp, #216]              // 16-byte Folded Spill
	stp	x29, x30, [sp, #232]            // 16-byte Folded Spill
	add	x29, sp, #232
	str	x28, [sp, #248]                 // 8-byte Spill
	cbz	x22, .LBB9_3
// %bb.1:                               // %join.5.i.preheader
	mov	x20, x0
.LBB9_2:                                // %join.5.i
                                        // =>This Inner Loop Header: Depth=1
	mov	x0, x20
	bl	"elementary::exp::exp_block::<=16>"
	subs	x22, x22, #1
	add	x20, x20, #128
	b.ne	.LBB9_2
.LBB9_3:                                // %"elementary::exp::exp_blocks.exit"
	cmp	x21, #8
	b.ne	.LBB9_21
// %bb.4:                               // %then.1.i
	ldp	q0, q12, [x19]
	mov	x8, #43980465111040             // =0x280000000000
	movk	x8, #16518, lsl #48
	ldp	q13, q14, [x19, #32]
	fmov	d1, x8
	mov	x8, #35184372088832             // =0x200000000000
	fmov	d3, d0
	movk	x8, #49286, lsl #48
	mov	d8, v0.d[1]
	fmov	d2, x8
	mov	d9, v12.d[1]
	mov	d10, v13.d[1]
	//ARITH_FENCE
	mov	d11, v14.d[1]
	//ARITH_FENCE
	fcmp	d3, d1
	//ARITH_FENCE
	cset	w11, ls
	fcmp	d2, d3
	fmov	d3, d8
	//APP
	//NO_APP
	cset	w10, ls
	//ARITH_FENCE
	fcmp	d3, d1
	//APP
	//NO_APP
	cset	w8, ls
	fcmp	d2, d3
	fmov	d3, d12
	//APP
	//NO_APP
	cset	w9, ls
	//ARITH_FENCE
	fcmp	d3, d1
	//APP
	//NO_APP
	cset	w14, ls
	fcmp	d2, d3
	fmov	d3, d9
	//APP
	//NO_APP
	cset	w13, ls
	//ARITH_FENCE
	fcmp	d3, d1
	//APP
	//NO_APP
	cset	w12, ls
	fcmp	d2, d3
	fmov	d3, d13
	//APP
	//NO_APP
	cset	w18, ls
	//ARITH_FENCE
	fcmp	d3, d1
	//APP
	//NO_APP
	cset	w0, ls
	fcmp	d2, d3
	fmov	d3, d10
	//APP
	//NO_APP
	cset	w17, ls
	//ARITH_FENCE
	fcmp	d3, d1
	//APP
	//NO_APP
	cset	w15, ls
	fcmp	d2, d3
	fmov	d3, d14
	//APP
	//NO_APP
	cset	w16, ls
	//ARITH_FENCE
	fcmp	d3, d1
	//APP
	//NO_APP
	cset	w2, ls
	fcmp	d2, d3
	fmov	d3, d11
	//APP
	//NO_APP
	cset	w1, ls
	//ARITH_FENCE
	fcmp	d3, d1
	//APP
	//NO_APP
	cset	w3, ls
	fcmp	d2, d3
	//APP
	//NO_APP
	cset	w4, ls
	//APP
	//NO_APP
	cbz	w11, .LBB9_28
// %bb.5:                               // %then.1.i
	cbz	w10, .LBB9_28
// %bb.6:                               // %then.1.i
	cbz	w8, .LBB9_28
// %bb.7:                               // %then.1.i
	cbz	w9, .LBB9_28
// %bb.8:                               // %then.1.i
	cbz	w14, .LBB9_28
// %bb.9:                               // %then.1.i
	cbz	w13, .LBB9_28
// %bb.10:                              // %then.1.i
	cbz	w12, .LBB9_28
// %bb.11:                              // %then.1.i
	cbz	w18, .LBB9_28
// %bb.12:                              // %then.1.i
	cbz	w0, .LBB9_28
// %bb.13:                              // %then.1.i
	cbz	w17, .LBB9_28
// %bb.14:                              // %then.1.i
	cbz	w15, .LBB9_28
// %bb.15:                              // %then.1.i
	cbz	w16, .LBB9_28
// %bb.16:                              // %then.1.i
	cbz	w2, .LBB9_28
// %bb.17:                              // %then.1.i
	cbz	w1, .LBB9_28
// %bb.18:                              // %then.1.i
	cbz	w3, .LBB9_28
// %bb.19:                              // %then.1.i
	cbz	w4, .LBB9_28
// %bb.20:                              // %repeat.4.preheader.i.i
	mov	x8, #33534                      // =0x82fe
	movk	x8, #25899, lsl #16
	movk	x8, #5447, lsl #32
	movk	x8, #16375, lsl #48
	dup	v2.2d, x8
	mov	x8, #4841369599423283200        // =0x4330000000000000
	fmul	v1.2d, v0.2d, v2.2d
	fmul	v3.2d, v12.2d, v2.2d
	fmul	v4.2d, v13.2d, v2.2d
	fmul	v16.2d, v14.2d, v2.2d
	movi	d2, #0000000000000000
	mov	d5, v1.d[1]
	fmov	d7, d1
	fmov	d18, d3
	mov	d6, v3.d[1]
	fmov	d20, d4
	mov	d17, v4.d[1]
	mov	d19, v16.d[1]
	//ARITH_FENCE
	fneg	v21.2d, v4.2d
	fneg	v22.2d, v16.2d
	dup	v2.2d, v2.d[0]
	//ARITH_FENCE
	//ARITH_FENCE
	//ARITH_FENCE
	mov	v7.d[1], v5.d[0]
	fmov	d5, d16
	//ARITH_FENCE
	mov	v18.d[1], v6.d[0]
	//ARITH_FENCE
	//ARITH_FENCE
	//ARITH_FENCE
	mov	v20.d[1], v17.d[0]
	//ARITH_FENCE
	fcmgt	v6.2d, v2.2d, v7.2d
	fcmgt	v7.2d, v2.2d, v18.2d
	fneg	v18.2d, v1.2d
	mov	v5.d[1], v19.d[0]
	fcmgt	v17.2d, v2.2d, v20.2d
	fneg	v20.2d, v3.2d
	//ARITH_FENCE
	//ARITH_FENCE
	fcmgt	v19.2d, v2.2d, v5.2d
	cmlt	v2.2d, v6.2d, #0
	cmlt	v5.2d, v7.2d, #0
	//ARITH_FENCE
	cmlt	v6.2d, v17.2d, #0
	dup	v17.2d, x8
	mov	x8, #-4382002437431492608       // =0xc330000000000000
	bit	v1.16b, v18.16b, v2.16b
	mov	v18.16b, v5.16b
	//ARITH_FENCE
	cmlt	v7.2d, v19.2d, #0
	mov	v19.16b, v6.16b
	bsl	v18.16b, v20.16b, v3.16b
	mov	v20.16b, v7.16b
	fadd	v3.2d, v1.2d, v17.2d
	mov	d25, v1.d[1]
	bsl	v19.16b, v21.16b, v4.16b
	dup	v21.2d, x8
                                        // kill: def $d1 killed $d1 killed $q1 def $q1
	mov	x8, #4276092928                 // =0xfee00000
	//ARITH_FENCE
	movk	x8, #11842, lsl #32
	bsl	v20.16b, v22.16b, v16.16b
	fadd	v4.2d, v18.2d, v17.2d
	mov	d29, v18.d[1]
	fadd	v3.2d, v3.2d, v21.2d
	//ARITH_FENCE
	mov	v1.d[1], v25.d[0]
                                        // kill: def $d18 killed $d18 killed $q18 def $q18
	movk	x8, #16358, lsl #48
	fadd	v16.2d, v19.2d, v17.2d
	mov	d31, v19.d[1]
                                        // kill: def $d19 killed $d19 killed $q19 def $q19
	//ARITH_FENCE
	//ARITH_FENCE
	fadd	v17.2d, v20.2d, v17.2d
	fadd	v4.2d, v4.2d, v21.2d
	mov	d9, v20.d[1]
	mov	d22, v3.d[1]
                                        // kill: def $d20 killed $d20 killed $q20 def $q20
	//ARITH_FENCE
	mov	v18.d[1], v29.d[0]
	fadd	v16.2d, v16.2d, v21.2d
	//ARITH_FENCE
	//ARITH_FENCE
	mov	v19.d[1], v31.d[0]
	fadd	v17.2d, v17.2d, v21.2d
	fmov	d21, #0.50000000
	mov	d23, v4.d[1]
	//ARITH_FENCE
	mov	v20.d[1], v9.d[0]
	mov	d24, v16.d[1]
	fadd	d26, d3, d21
	fadd	d22, d22, d21
	fadd	d28, d4, d21
	mov	d27, v17.d[1]
	fadd	d30, d16, d21
	fadd	d8, d17, d21
	fadd	d23, d23, d21
	fadd	d24, d24, d21
	//ARITH_FENCE
	//ARITH_FENCE
	//ARITH_FENCE
	fadd	d21, d27, d21
	mov	v26.d[1], v22.d[0]
	//ARITH_FENCE
	//ARITH_FENCE
	//ARITH_FENCE
	mov	v28.d[1], v23.d[0]
	//ARITH_FENCE
	mov	v30.d[1], v24.d[0]
	//ARITH_FENCE
	mov	v8.d[1], v21.d[0]
	fcmge	v21.2d, v1.2d, v26.2d
	fcmge	v18.2d, v18.2d, v28.2d
	fmov	v1.2d, #1.00000000
	fcmge	v19.2d, v19.2d, v30.2d
	fcmge	v20.2d, v20.2d, v8.2d
	mvn	v21.16b, v21.16b
	mvn	v18.16b, v18.16b
	fadd	v22.2d, v3.2d, v1.2d
	mvn	v19.16b, v19.16b
	fadd	v23.2d, v4.2d, v1.2d
	fadd	v24.2d, v16.2d, v1.2d
	fadd	v25.2d, v17.2d, v1.2d
	mvn	v20.16b, v20.16b
	//ARITH_FENCE
	//ARITH_FENCE
	cmlt	v21.2d, v21.2d, #0
	//ARITH_FENCE
	cmlt	v18.2d, v18.2d, #0
	cmlt	v19.2d, v19.2d, #0
	//ARITH_FENCE
	cmlt	v20.2d, v20.2d, #0
	bif	v3.16b, v22.16b, v21.16b
	bsl	v18.16b, v4.16b, v23.16b
	bif	v16.16b, v24.16b, v19.16b
	dup	v22.2d, x8
	mov	x8, #15478                      // =0x3c76
	movk	x8, #13689, lsl #16
	bif	v17.16b, v25.16b, v20.16b
	movk	x8, #14831, lsl #32
	fneg	v4.2d, v3.2d
	fneg	v19.2d, v18.2d
	movk	x8, #15850, lsl #48
	fneg	v20.2d, v16.2d
	fneg	v21.2d, v17.2d
	bif	v4.16b, v3.16b, v2.16b
	mov	v3.16b, v6.16b
	mov	v2.16b, v7.16b
	bsl	v5.16b, v19.16b, v18.16b
	dup	v7.2d, x8
	mov	x8, #27913                      // =0x6d09
	movk	x8, #5032, lsl #16
	bsl	v3.16b, v20.16b, v16.16b
	bsl	v2.16b, v21.16b, v17.16b
	movk	x8, #4678, lsl #32
	fmul	v6.2d, v4.2d, v22.2d
	fmul	v19.2d, v4.2d, v7.2d
	movk	x8, #15846, lsl #48
	fmul	v16.2d, v5.2d, v22.2d
	fmul	v17.2d, v3.2d, v22.2d
	fmul	v18.2d, v2.2d, v22.2d
	fmul	v20.2d, v3.2d, v7.2d
	fsub	v0.2d, v0.2d, v6.2d
	fmul	v6.2d, v5.2d, v7.2d
	fmul	v21.2d, v2.2d, v7.2d
	fsub	v16.2d, v12.2d, v16.2d
	fsub	v17.2d, v13.2d, v17.2d
	fsub	v18.2d, v14.2d, v18.2d
	fsub	v7.2d, v0.2d, v19.2d
	dup	v19.2d, x8
	mov	x8, #55448                      // =0xd898
	fsub	v16.2d, v16.2d, v6.2d
	movk	x8, #61432, lsl #16
	movk	x8, #61144, lsl #32
	fsub	v6.2d, v17.2d, v20.2d
	fsub	v0.2d, v18.2d, v21.2d
	movk	x8, #15905, lsl #48
	fmul	v17.2d, v7.2d, v19.2d
	dup	v18.2d, x8
	mov	x8, #17636                      // =0x44e4
	fmul	v20.2d, v16.2d, v19.2d
	movk	x8, #26613, lsl #16
	movk	x8, #58949, lsl #32
	fmul	v21.2d, v6.2d, v19.2d
	fmul	v19.2d, v0.2d, v19.2d
	movk	x8, #15962, lsl #48
	fadd	v17.2d, v17.2d, v18.2d
	fadd	v20.2d, v20.2d, v18.2d
	fadd	v21.2d, v21.2d, v18.2d
	fadd	v18.2d, v19.2d, v18.2d
	dup	v19.2d, x8
	fmul	v17.2d, v7.2d, v17.2d
	mov	x8, #40796                      // =0x9f5c
	fmul	v20.2d, v16.2d, v20.2d
	movk	x8, #46968, lsl #16
	movk	x8, #32335, lsl #32
	fmul	v21.2d, v6.2d, v21.2d
	fmul	v18.2d, v0.2d, v18.2d
	movk	x8, #16018, lsl #48
	fadd	v17.2d, v17.2d, v19.2d
	fadd	v20.2d, v20.2d, v19.2d
	fadd	v21.2d, v21.2d, v19.2d
	fadd	v18.2d, v18.2d, v19.2d
	dup	v19.2d, x8
	fmul	v17.2d, v7.2d, v17.2d
	mov	x8, #50996                      // =0xc734
	fmul	v20.2d, v16.2d, v20.2d
	movk	x8, #42326, lsl #16
	movk	x8, #7651, lsl #32
	fmul	v21.2d, v6.2d, v21.2d
	fmul	v18.2d, v0.2d, v18.2d
	movk	x8, #16071, lsl #48
	fadd	v17.2d, v17.2d, v19.2d
	fadd	v20.2d, v20.2d, v19.2d
	fadd	v21.2d, v21.2d, v19.2d
	fadd	v18.2d, v18.2d, v19.2d
	dup	v19.2d, x8
	fmul	v17.2d, v7.2d, v17.2d
	mov	x8, #40986                      // =0xa01a
	fmul	v20.2d, v16.2d, v20.2d
	movk	x8, #6657, lsl #16
	movk	x8, #416, lsl #32
	fmul	v21.2d, v6.2d, v21.2d
	fmul	v18.2d, v0.2d, v18.2d
	movk	x8, #16122, lsl #48
	fadd	v17.2d, v17.2d, v19.2d
	fadd	v20.2d, v20.2d, v19.2d
	fadd	v21.2d, v21.2d, v19.2d
	fadd	v18.2d, v18.2d, v19.2d
	dup	v19.2d, x8
	fmul	v17.2d, v7.2d, v17.2d
	mov	x8, #40986                      // =0xa01a
	fmul	v20.2d, v16.2d, v20.2d
	movk	x8, #6657, lsl #16
	movk	x8, #416, lsl #32
	fmul	v21.2d, v6.2d, v21.2d
	fmul	v18.2d, v0.2d, v18.2d
	movk	x8, #16170, lsl #48
	fadd	v17.2d, v17.2d, v19.2d
	fadd	v20.2d, v20.2d, v19.2d
	fadd	v21.2d, v21.2d, v19.2d
	fadd	v18.2d, v18.2d, v19.2d
	dup	v19.2d, x8
	fmul	v17.2d, v7.2d, v17.2d
	mov	x8, #27671                      // =0x6c17
	fmul	v20.2d, v16.2d, v20.2d
	movk	x8, #5825, lsl #16
	movk	x8, #49516, lsl #32
	fmul	v21.2d, v6.2d, v21.2d
	fmul	v18.2d, v0.2d, v18.2d
	movk	x8, #16214, lsl #48
	fadd	v17.2d, v17.2d, v19.2d
	fadd	v20.2d, v20.2d, v19.2d
	fadd	v21.2d, v21.2d, v19.2d
	fadd	v18.2d, v18.2d, v19.2d
	dup	v19.2d, x8
	fmul	v17.2d, v7.2d, v17.2d
	mov	x8, #1229782938247303441        // =0x1111111111111111
	fmul	v20.2d, v16.2d, v20.2d
	movk	x8, #16257, lsl #48
	fmul	v21.2d, v6.2d, v21.2d
	fmul	v18.2d, v0.2d, v18.2d
	fadd	v17.2d, v17.2d, v19.2d
	fadd	v20.2d, v20.2d, v19.2d
	fadd	v21.2d, v21.2d, v19.2d
	fadd	v18.2d, v18.2d, v19.2d
	dup	v19.2d, x8
	fmul	v17.2d, v7.2d, v17.2d
	mov	x8, #6148914691236517205        // =0x5555555555555555
	fmul	v20.2d, v16.2d, v20.2d
	movk	x8, #16293, lsl #48
	fmul	v21.2d, v6.2d, v21.2d
	fmul	v18.2d, v0.2d, v18.2d
	fadd	v17.2d, v17.2d, v19.2d
	fadd	v20.2d, v20.2d, v19.2d
	fadd	v21.2d, v21.2d, v19.2d
	fadd	v18.2d, v18.2d, v19.2d
	dup	v19.2d, x8
	fmul	v17.2d, v7.2d, v17.2d
	mov	x8, #6148914691236517205        // =0x5555555555555555
	fmul	v20.2d, v16.2d, v20.2d
	movk	x8, #16325, lsl #48
	fmul	v21.2d, v6.2d, v21.2d
	fmul	v18.2d, v0.2d, v18.2d
	fadd	v17.2d, v17.2d, v19.2d
	fadd	v20.2d, v20.2d, v19.2d
	fadd	v21.2d, v21.2d, v19.2d
	fadd	v18.2d, v18.2d, v19.2d
	dup	v19.2d, x8
	fmul	v17.2d, v7.2d, v17.2d
	mov	x8, #1023                       // =0x3ff
	fmul	v20.2d, v16.2d, v20.2d
	movk	x8, #17200, lsl #48
	fmul	v21.2d, v6.2d, v21.2d
	fmul	v18.2d, v0.2d, v18.2d
	fadd	v17.2d, v17.2d, v19.2d
	fadd	v20.2d, v20.2d, v19.2d
	fadd	v21.2d, v21.2d, v19.2d
	fadd	v18.2d, v18.2d, v19.2d
	fmov	v19.2d, #0.50000000
	fmul	v17.2d, v7.2d, v17.2d
	fmul	v20.2d, v16.2d, v20.2d
	fmul	v21.2d, v6.2d, v21.2d
	fmul	v18.2d, v0.2d, v18.2d
	fadd	v17.2d, v17.2d, v19.2d
	fadd	v20.2d, v20.2d, v19.2d
	fadd	v21.2d, v21.2d, v19.2d
	fadd	v18.2d, v18.2d, v19.2d
	fmul	v17.2d, v7.2d, v17.2d
	fmul	v19.2d, v16.2d, v20.2d
	fmul	v20.2d, v6.2d, v21.2d
	fmul	v18.2d, v0.2d, v18.2d
	dup	v21.2d, x8
	fadd	v17.2d, v17.2d, v1.2d
	fadd	v19.2d, v19.2d, v1.2d
	fadd	v4.2d, v4.2d, v21.2d
	fadd	v5.2d, v5.2d, v21.2d
	fadd	v3.2d, v3.2d, v21.2d
	fadd	v20.2d, v20.2d, v1.2d
	fadd	v18.2d, v18.2d, v1.2d
	fadd	v2.2d, v2.2d, v21.2d
	fmul	v7.2d, v7.2d, v17.2d
	fmul	v16.2d, v16.2d, v19.2d
	shl	v4.2d, v4.2d, #52
	shl	v5.2d, v5.2d, #52
	shl	v3.2d, v3.2d, #52
	fmul	v6.2d, v6.2d, v20.2d
	fmul	v0.2d, v0.2d, v18.2d
	fadd	v7.2d, v7.2d, v1.2d
	fadd	v16.2d, v16.2d, v1.2d
	fadd	v6.2d, v6.2d, v1.2d
	fadd	v0.2d, v0.2d, v1.2d
	shl	v1.2d, v2.2d, #52
	fmul	v2.2d, v7.2d, v4.2d
	fmul	v4.2d, v16.2d, v5.2d
	fmul	v3.2d, v6.2d, v3.2d
	fmul	v0.2d, v0.2d, v1.2d
	stp	q2, q4, [x19]
	stp	q3, q0, [x19, #32]
	b	.LBB9_29
.LBB9_21:                               // %else.2.i
	cmp	x21, #4
	b.hi	.LBB9_27
// %bb.22:                              // %then.4.i
	cbz	x21, .LBB9_29
// %bb.23:                              // %join.6.i.i
	ldr	d0, [x19]
	bl	"elementary::exp::exp"
	cmp	x21, #1
	str	d0, [x19]
	b.eq	.LBB9_29
// %bb.24:                              // %join.6.i.i.1
	ldr	d0, [x19, #8]
	bl	"elementary::exp::exp"
	cmp	x21, #2
	str	d0, [x19, #8]
	b.eq	.LBB9_29
// %bb.25:                              // %join.6.i.i.2
	ldr	d0, [x19, #16]
	bl	"elementary::exp::exp"
	cmp	x21, #3
	str	d0, [x19, #16]
	b.eq	.LBB9_29
// %bb.26:                              // %join.6.i.i.3
	ldr	d0, [x19, #24]
	bl	"elementary::exp::exp"
	str	d0, [x19, #24]
	b	.LBB9_29
.LBB9_27:                               // %else.5.i
	lsl	x20, x21, #3
	mov	w8, #128                        // =0x80
	mov	w1, wzr
	sub	x2, x8, x20
	add	x8, sp, #48
	add	x0, x8, x20
	bl	memset
	add	x0, sp, #48
	mov	x1, x19
	mov	x2, x20
	bl	memcpy
	add	x0, sp, #48
	bl	"elementary::exp::exp_block::<=16>"
	add	x1, sp, #48
	mov	x0, x19
	mov	x2, x20
	bl	memcpy
	b	.LBB9_29
.LBB9_28:                               // %join.6.i.preheader.i.i
                                        // kill: def $d0 killed $d0 killed $q0
	stp	q12, q13, [sp]                  // 32-byte Folded Spill
	str	q14, [sp, #32]                  // 16-byte Spill
	bl	"elementary::exp::exp"
	str	d0, [x19]
	fmov	d0, d8
	bl	"elementary::exp::exp"
	str	d0, [x19, #8]
	ldr	q0, [sp]                        // 16-byte Reload
                                        // kill: def $d0 killed $d0 killed $q0
	bl	"elementary::exp::exp"
	str	d0, [x19, #16]
	fmov	d0, d9
	bl	"elementary::exp::exp"
	str	d0, [x19, #24]
	ldr	q0, [sp, #16]                   // 16-byte Reload
                                        // kill: def $d0 killed $d0 killed $q0
	bl	"elementary::exp::exp"
	str	d0, [x19, #32]
	fmov	d0, d10
	bl	"elementary::exp::exp"
	str	d0, [x19, #40]
	ldr	q0, [sp, #32]                   // 16-byte Reload
                                        // kill: def $d0 killed $d0 killed $q0
	bl	"elementary::exp::exp"
	str	d0, [x19, #48]
	fmov	d0, d11
	bl	"elementary::exp::exp"
	str	d0, [x19, #56]
.LBB9_29:                               // %"elementary::exp::exp_last.exit"
	ldp	x20, x19, [sp, #272]            // 16-byte Folded Reload
	ldr	x28, [sp, #248]                 // 8-byte Reload
	ldp	x22, x21, [sp, #256]            // 16-byte Folded Reload
	ldr	d14, [sp, #176]                 // 8-byte Reload
	ldp	x29, x30, [sp, #232]            // 16-byte Folded Reload
	ldp	d9, d8, [sp, #216]              // 16-byte Folded Reload
	ldp	d11, d10, [sp, #200]            // 16-byte Folded Reload
	ldp	d13, d12, [sp, #184]            // 16-byte Folded Reload
	add	sp, sp, #288
	ret
.Lfunc_end9:
	.size	"elementary::exp::exp_each", .Lfunc_end9-"elementary::exp::exp_each"
                                        // -- End function
	.section	.rodata.cst8,"aM",@progbits,8
	.p2align	3, 0x0                          // -- Begin function elementary::exp::exp_block::<=16>
.LCPI10_0:
	.xword	0x3ff71547652b82fe              // double 1.4426950408889634
.LCPI10_1:
	.xword	0xbfe62e42fee00000              // double -0.69314718036912382
.LCPI10_2:
	.xword	0xbdea39ef35793c76              // double -1.9082149292705877E-10
	.section	".text.elementary::exp::exp_block::<=16>","ax",@progbits
	.p2align	2
	.type	"elementary::exp::exp_block::<=16>",@function
"elementary::exp::exp_block::<=16>":    // @"elementary::exp::exp_block::<=16>"
// %bb.0:                               // %start
	sub	sp, sp, #464
	mov	x8, #43980465111040             // =0x280000000000
	ldp	d2, d3, [x0]
	movk	x8, #16518, lsl #48
	stp	d11, d10, [sp, #336]            // 16-byte Folded Spill
	fmov	d0, x8
	mov	x8, #35184372088832             // =0x200000000000
	stp	d9, d8, [sp, #352]              // 16-byte Folded Spill
	movk	x8, #49286, lsl #48
	//ARITH_FENCE
	ldp	d9, d10, [x0, #16]
	fmov	d1, x8
	//ARITH_FENCE
	stp	d13, d12, [sp, #320]            // 16-byte Folded Spill
	//ARITH_FENCE
	fcmp	d2, d0
	ldp	d11, d12, [x0, #32]
	stp	d15, d14, [sp, #304]            // 16-byte Folded Spill
	ldp	d13, d14, [x0, #48]
	//ARITH_FENCE
	ldp	d15, d8, [x0, #64]
	stp	x22, x21, [sp, #432]            // 16-byte Folded Spill
	cset	w9, ls
	fcmp	d1, d2
	fmov	d2, d9
	stp	x20, x19, [sp, #448]            // 16-byte Folded Spill
	//APP
	//NO_APP
	stp	x26, x25, [sp, #400]            // 16-byte Folded Spill
	cset	w10, ls
	fcmp	d3, d0
	stp	x24, x23, [sp, #416]            // 16-byte Folded Spill
	//ARITH_FENCE
	stp	x28, x27, [sp, #384]            // 16-byte Folded Spill
	//APP
	//NO_APP
	stp	x29, x30, [sp, #368]            // 16-byte Folded Spill
	add	x29, sp, #368
	cset	w8, ls
	fcmp	d1, d3
	//APP
	//NO_APP
	cset	w14, ls
	fcmp	d2, d0
	//APP
	//NO_APP
	cset	w12, ls
	fcmp	d1, d2
	fmov	d2, d10
	//APP
	//NO_APP
	cset	w13, ls
	//ARITH_FENCE
	fcmp	d2, d0
	//APP
	//NO_APP
	cset	w11, ls
	fcmp	d1, d2
	fmov	d2, d11
	//APP
	//NO_APP
	cset	w18, ls
	//ARITH_FENCE
	fcmp	d2, d0
	//APP
	//NO_APP
	cset	w1, ls
	fcmp	d1, d2
	fmov	d2, d12
	//APP
	//NO_APP
	cset	w3, ls
	//ARITH_FENCE
	fcmp	d2, d0
	//APP
	//NO_APP
	cset	w15, ls
	fcmp	d1, d2
	fmov	d2, d13
	//APP
	//NO_APP
	cset	w6, ls
	//ARITH_FENCE
	fcmp	d2, d0
	//APP
	//NO_APP
	cset	w5, ls
	fcmp	d1, d2
	fmov	d2, d14
	//APP
	//NO_APP
	cset	w7, ls
	//ARITH_FENCE
	fcmp	d2, d0
	//APP
	//NO_APP
	cset	w4, ls
	fcmp	d1, d2
	fmov	d2, d15
	//APP
	//NO_APP
	cset	w21, ls
	//ARITH_FENCE
	fcmp	d2, d0
	//APP
	//NO_APP
	cset	w20, ls
	fcmp	d1, d2
	fmov	d2, d8
	//APP
	//NO_APP
	cset	w22, ls
	//ARITH_FENCE
	fcmp	d2, d0
	//APP
	//NO_APP
	cset	w19, ls
	fcmp	d1, d2
	ldp	d20, d2, [x0, #80]
	//APP
	//NO_APP
	cset	w26, ls
	fmov	d3, d20
	//ARITH_FENCE
	//APP
	//NO_APP
	stp	w26, w15, [sp, #16]             // 8-byte Folded Spill
	//ARITH_FENCE
	fcmp	d3, d0
	cset	w24, ls
	fcmp	d1, d3
	//APP
	//NO_APP
	str	w24, [sp, #12]                  // 4-byte Spill
	cset	w24, ls
	fcmp	d2, d0
	str	w24, [sp, #24]                  // 4-byte Spill
	cset	w23, ls
	fcmp	d1, d2
	//APP
	//NO_APP
	ldp	d2, d3, [x0, #96]
	//APP
	//NO_APP
	str	w23, [sp, #24]                  // 4-byte Spill
	cset	w17, ls
	//ARITH_FENCE
	fcmp	d2, d0
	//ARITH_FENCE
	cset	w27, ls
	fcmp	d1, d2
	//APP
	//NO_APP
	cset	w2, ls
	fcmp	d3, d0
	mov	w26, w2
	mov	w2, w17
	//APP
	//NO_APP
	//APP
	//NO_APP
	cset	w25, ls
	fcmp	d1, d3
	ldp	d2, d3, [x0, #112]
	mov	w23, w25
	//APP
	//NO_APP
	cset	w30, ls
	//ARITH_FENCE
	fcmp	d2, d0
	//ARITH_FENCE
	//APP
	//NO_APP
	cset	w28, ls
	fcmp	d1, d2
	//APP
	//NO_APP
	cset	w16, ls
	fcmp	d3, d0
	//APP
	//NO_APP
	cset	w15, ls
	fcmp	d1, d3
	//APP
	//NO_APP
	cset	w17, ls
	//APP
	//NO_APP
	cbz	w9, .LBB10_35
// %bb.1:                               // %start
	cbz	w10, .LBB10_35
// %bb.2:                               // %start
	cbz	w8, .LBB10_35
// %bb.3:                               // %start
	cbz	w14, .LBB10_35
// %bb.4:                               // %start
	cbz	w12, .LBB10_35
// %bb.5:                               // %start
	cbz	w13, .LBB10_35
// %bb.6:                               // %start
	cbz	w11, .LBB10_35
// %bb.7:                               // %start
	cbz	w18, .LBB10_35
// %bb.8:                               // %start
	cbz	w1, .LBB10_35
// %bb.9:                               // %start
	cbz	w3, .LBB10_35
// %bb.10:                              // %start
	ldr	w8, [sp, #20]                   // 4-byte Reload
	cbz	w8, .LBB10_35
// %bb.11:                              // %start
	cbz	w6, .LBB10_35
// %bb.12:                              // %start
	cbz	w5, .LBB10_35
// %bb.13:                              // %start
	cbz	w7, .LBB10_35
// %bb.14:                              // %start
	cbz	w4, .LBB10_35
// %bb.15:                              // %start
	cbz	w21, .LBB10_35
// %bb.16:                              // %start
	cbz	w20, .LBB10_35
// %bb.17:                              // %start
	cbz	w22, .LBB10_35
// %bb.18:                              // %start
	cbz	w19, .LBB10_35
// %bb.19:                              // %start
	ldr	w8, [sp, #16]                   // 4-byte Reload
	cbz	w8, .LBB10_35
// %bb.20:                              // %start
	ldr	w8, [sp, #12]                   // 4-byte Reload
	cbz	w8, .LBB10_35
// %bb.21:                              // %start
	cbz	w24, .LBB10_35
// %bb.22:                              // %start
	ldr	w8, [sp, #24]                   // 4-byte Reload
	cbz	w8, .LBB10_35
// %bb.23:                              // %start
	cbz	w2, .LBB10_35
// %bb.24:                              // %start
	cbz	w27, .LBB10_35
// %bb.25:                              // %start
	cbz	w26, .LBB10_35
// %bb.26:                              // %start
	cbz	w23, .LBB10_35
// %bb.27:                              // %start
	cbz	w30, .LBB10_35
// %bb.28:                              // %start
	cbz	w28, .LBB10_35
// %bb.29:                              // %start
	cbz	w16, .LBB10_35
// %bb.30:                              // %start
	cbz	w15, .LBB10_35
// %bb.31:                              // %start
	cbz	w17, .LBB10_35
// %bb.32:                              // %repeat.4.preheader
	movi	v1.2d, #0000000000000000
	movi	d0, #0000000000000000
	mov	x8, xzr
	stp	q1, q1, [sp, #32]
	//ARITH_FENCE
	stp	q1, q1, [sp, #64]
	stp	q1, q1, [sp, #96]
	stp	q1, q1, [sp, #128]
	stp	q1, q1, [sp, #160]
	stp	q1, q1, [sp, #192]
	stp	q1, q1, [sp, #224]
	stp	q1, q1, [sp, #256]
.LBB10_33:                              // %join.12
                                        // =>This Inner Loop Header: Depth=1
	adrp	x9, .LCPI10_0
	ldr	d1, [x0, x8]
	mov	x10, #4841369599423283200       // =0x4330000000000000
	ldr	d2, [x9, :lo12:.LCPI10_0]
	fmov	d5, #1.00000000
	fmul	d3, d1, d2
	fnmul	d2, d1, d2
	fmov	d4, d3
	//ARITH_FENCE
	fcmp	d4, d0
	cset	w9, mi
	//APP
	//NO_APP
	cmp	w9, #0
	fcsel	d2, d2, d3, ne
	fmov	d3, x10
	mov	x10, #-4382002437431492608      // =0xc330000000000000
	fmov	d4, x10
	fadd	d3, d2, d3
	//ARITH_FENCE
	fadd	d3, d3, d4
	fmov	d4, #0.50000000
	fadd	d4, d3, d4
	//ARITH_FENCE
	fcmp	d4, d2
	fadd	d2, d3, d5
	cset	w10, hi
	//APP
	//NO_APP
	cmp	w10, #0
	fcsel	d2, d3, d2, ne
	cmp	w9, #0
	adrp	x9, .LCPI10_1
	fneg	d3, d2
	fcsel	d2, d3, d2, ne
	ldr	d3, [x9, :lo12:.LCPI10_1]
	adrp	x9, .LCPI10_2
	ldr	d4, [x9, :lo12:.LCPI10_2]
	mov	x9, #1023                       // =0x3ff
	movk	x9, #17200, lsl #48
	fmul	d3, d2, d3
	fmul	d4, d2, d4
	fadd	d1, d1, d3
	fmov	d3, x9
	add	x9, sp, #160
	fadd	d2, d2, d3
	fadd	d1, d1, d4
	fmov	x10, d2
	str	d1, [x9, x8]
	add	x9, sp, #32
	lsl	x10, x10, #52
	str	x10, [x9, x8]
	add	x8, x8, #8
	cmp	x8, #128
	b.ne	.LBB10_33
// %bb.34:                              // %vector.body
	mov	x8, #27913                      // =0x6d09
	ldp	q0, q1, [sp, #160]
	movk	x8, #5032, lsl #16
	ldp	q2, q3, [sp, #192]
	movk	x8, #4678, lsl #32
	ldp	q4, q5, [sp, #224]
	movk	x8, #15846, lsl #48
	dup	v6.2d, x8
	mov	x8, #55448                      // =0xd898
	movk	x8, #61432, lsl #16
	movk	x8, #61144, lsl #32
	movk	x8, #15905, lsl #48
	fmul	v7.2d, v0.2d, v6.2d
	fmul	v18.2d, v2.2d, v6.2d
	dup	v17.2d, x8
	fmul	v19.2d, v1.2d, v6.2d
	fmul	v22.2d, v3.2d, v6.2d
	fmul	v23.2d, v5.2d, v6.2d
	mov	x8, #17636                      // =0x44e4
	fmul	v21.2d, v4.2d, v6.2d
	movk	x8, #26613, lsl #16
	fadd	v20.2d, v7.2d, v17.2d
	ldp	q7, q16, [sp, #256]
	fadd	v18.2d, v18.2d, v17.2d
	fadd	v19.2d, v19.2d, v17.2d
	movk	x8, #58949, lsl #32
	movk	x8, #15962, lsl #48
	fadd	v22.2d, v22.2d, v17.2d
	fadd	v23.2d, v23.2d, v17.2d
	fmul	v24.2d, v7.2d, v6.2d
	fmul	v6.2d, v16.2d, v6.2d
	dup	v25.2d, x8
	fmul	v20.2d, v0.2d, v20.2d
	fadd	v21.2d, v21.2d, v17.2d
	mov	x8, #40796                      // =0x9f5c
	fmul	v18.2d, v2.2d, v18.2d
	fmul	v19.2d, v1.2d, v19.2d
	movk	x8, #46968, lsl #16
	movk	x8, #32335, lsl #32
	fadd	v24.2d, v24.2d, v17.2d
	fadd	v6.2d, v6.2d, v17.2d
	fmul	v17.2d, v3.2d, v22.2d
	fadd	v20.2d, v20.2d, v25.2d
	fmul	v22.2d, v5.2d, v23.2d
	fmul	v21.2d, v4.2d, v21.2d
	fadd	v18.2d, v18.2d, v25.2d
	fadd	v19.2d, v19.2d, v25.2d
	movk	x8, #16018, lsl #48
	fmul	v23.2d, v7.2d, v24.2d
	fmul	v6.2d, v16.2d, v6.2d
	fadd	v17.2d, v17.2d, v25.2d
	fmul	v20.2d, v0.2d, v20.2d
	dup	v24.2d, x8
	fadd	v21.2d, v21.2d, v25.2d
	fmul	v18.2d, v2.2d, v18.2d
	fmul	v19.2d, v1.2d, v19.2d
	fadd	v22.2d, v22.2d, v25.2d
	mov	x8, #50996                      // =0xc734
	fadd	v23.2d, v23.2d, v25.2d
	fadd	v6.2d, v6.2d, v25.2d
	fmul	v17.2d, v3.2d, v17.2d
	fadd	v20.2d, v20.2d, v24.2d
	fmul	v21.2d, v4.2d, v21.2d
	movk	x8, #42326, lsl #16
	fadd	v18.2d, v18.2d, v24.2d
	fadd	v19.2d, v19.2d, v24.2d
	movk	x8, #7651, lsl #32
	movk	x8, #16071, lsl #48
	fmul	v22.2d, v5.2d, v22.2d
	fmul	v23.2d, v7.2d, v23.2d
	fmul	v6.2d, v16.2d, v6.2d
	fadd	v17.2d, v17.2d, v24.2d
	fmul	v20.2d, v0.2d, v20.2d
	dup	v25.2d, x8
	fadd	v21.2d, v21.2d, v24.2d
	fmul	v18.2d, v2.2d, v18.2d
	fmul	v19.2d, v1.2d, v19.2d
	mov	x8, #40986                      // =0xa01a
	fadd	v22.2d, v22.2d, v24.2d
	movk	x8, #6657, lsl #16
	fadd	v23.2d, v23.2d, v24.2d
	fadd	v6.2d, v6.2d, v24.2d
	fmul	v17.2d, v3.2d, v17.2d
	fadd	v20.2d, v20.2d, v25.2d
	fmul	v21.2d, v4.2d, v21.2d
	movk	x8, #416, lsl #32
	fadd	v18.2d, v18.2d, v25.2d
	fadd	v19.2d, v19.2d, v25.2d
	movk	x8, #16122, lsl #48
	fmul	v22.2d, v5.2d, v22.2d
	dup	v24.2d, x8
	mov	x8, #40986                      // =0xa01a
	fmul	v23.2d, v7.2d, v23.2d
	fmul	v6.2d, v16.2d, v6.2d
	fadd	v17.2d, v17.2d, v25.2d
	fmul	v20.2d, v0.2d, v20.2d
	fadd	v21.2d, v21.2d, v25.2d
	movk	x8, #6657, lsl #16
	fmul	v18.2d, v2.2d, v18.2d
	fmul	v19.2d, v1.2d, v19.2d
	movk	x8, #416, lsl #32
	fadd	v22.2d, v22.2d, v25.2d
	movk	x8, #16170, lsl #48
	fadd	v23.2d, v23.2d, v25.2d
	fadd	v6.2d, v6.2d, v25.2d
	fmul	v17.2d, v3.2d, v17.2d
	fadd	v20.2d, v20.2d, v24.2d
	fmul	v21.2d, v4.2d, v21.2d
	dup	v25.2d, x8
	fadd	v18.2d, v18.2d, v24.2d
	fadd	v19.2d, v19.2d, v24.2d
	mov	x8, #27671                      // =0x6c17
	fmul	v22.2d, v5.2d, v22.2d
	movk	x8, #5825, lsl #16
	fmul	v23.2d, v7.2d, v23.2d
	fmul	v6.2d, v16.2d, v6.2d
	fadd	v17.2d, v17.2d, v24.2d
	fmul	v20.2d, v0.2d, v20.2d
	fadd	v21.2d, v21.2d, v24.2d
	movk	x8, #49516, lsl #32
	fmul	v18.2d, v2.2d, v18.2d
	fmul	v19.2d, v1.2d, v19.2d
	movk	x8, #16214, lsl #48
	fadd	v22.2d, v22.2d, v24.2d
	fadd	v23.2d, v23.2d, v24.2d
	fadd	v6.2d, v6.2d, v24.2d
	fmul	v17.2d, v3.2d, v17.2d
	fadd	v20.2d, v20.2d, v25.2d
	fmul	v21.2d, v4.2d, v21.2d
	dup	v24.2d, x8
	fadd	v18.2d, v18.2d, v25.2d
	fadd	v19.2d, v19.2d, v25.2d
	mov	x8, #1229782938247303441        // =0x1111111111111111
	fmul	v22.2d, v5.2d, v22.2d
	movk	x8, #16257, lsl #48
	fmul	v23.2d, v7.2d, v23.2d
	fmul	v6.2d, v16.2d, v6.2d
	fadd	v17.2d, v17.2d, v25.2d
	fmul	v20.2d, v0.2d, v20.2d
	fadd	v21.2d, v21.2d, v25.2d
	fmul	v18.2d, v2.2d, v18.2d
	fmul	v19.2d, v1.2d, v19.2d
	fadd	v22.2d, v22.2d, v25.2d
	fadd	v23.2d, v23.2d, v25.2d
	fadd	v6.2d, v6.2d, v25.2d
	fmul	v17.2d, v3.2d, v17.2d
	fadd	v20.2d, v20.2d, v24.2d
	fmul	v21.2d, v4.2d, v21.2d
	dup	v25.2d, x8
	fadd	v18.2d, v18.2d, v24.2d
	fadd	v19.2d, v19.2d, v24.2d
	mov	x8, #6148914691236517205        // =0x5555555555555555
	fmul	v22.2d, v5.2d, v22.2d
	movk	x8, #16293, lsl #48
	fmul	v23.2d, v7.2d, v23.2d
	fmul	v6.2d, v16.2d, v6.2d
	fadd	v17.2d, v17.2d, v24.2d
	fmul	v20.2d, v0.2d, v20.2d
	fadd	v21.2d, v21.2d, v24.2d
	fmul	v18.2d, v2.2d, v18.2d
	fmul	v19.2d, v1.2d, v19.2d
	fadd	v22.2d, v22.2d, v24.2d
	fadd	v23.2d, v23.2d, v24.2d
	fadd	v6.2d, v6.2d, v24.2d
	fmul	v17.2d, v3.2d, v17.2d
	fadd	v20.2d, v20.2d, v25.2d
	fmul	v21.2d, v4.2d, v21.2d
	dup	v24.2d, x8
	fadd	v18.2d, v18.2d, v25.2d
	fadd	v19.2d, v19.2d, v25.2d
	mov	x8, #6148914691236517205        // =0x5555555555555555
	fmul	v22.2d, v5.2d, v22.2d
	movk	x8, #16325, lsl #48
	fmul	v23.2d, v7.2d, v23.2d
	fmul	v6.2d, v16.2d, v6.2d
	fadd	v17.2d, v17.2d, v25.2d
	fmul	v20.2d, v0.2d, v20.2d
	fadd	v21.2d, v21.2d, v25.2d
	fmul	v18.2d, v2.2d, v18.2d
	fmul	v19.2d, v1.2d, v19.2d
	fadd	v22.2d, v22.2d, v25.2d
	fadd	v23.2d, v23.2d, v25.2d
	fadd	v6.2d, v6.2d, v25.2d
	fmul	v17.2d, v3.2d, v17.2d
	fadd	v20.2d, v20.2d, v24.2d
	fmul	v21.2d, v4.2d, v21.2d
	dup	v25.2d, x8
	fadd	v18.2d, v18.2d, v24.2d
	fadd	v19.2d, v19.2d, v24.2d
	fmul	v22.2d, v5.2d, v22.2d
	fmul	v23.2d, v7.2d, v23.2d
	fmul	v6.2d, v16.2d, v6.2d
	fadd	v17.2d, v17.2d, v24.2d
	fmul	v20.2d, v0.2d, v20.2d
	fadd	v21.2d, v21.2d, v24.2d
	fmul	v18.2d, v2.2d, v18.2d
	fmul	v19.2d, v1.2d, v19.2d
	fadd	v22.2d, v22.2d, v24.2d
	fadd	v23.2d, v23.2d, v24.2d
	fadd	v6.2d, v6.2d, v24.2d
	fmul	v17.2d, v3.2d, v17.2d
	fadd	v20.2d, v20.2d, v25.2d
	fmul	v21.2d, v4.2d, v21.2d
	fmov	v24.2d, #0.50000000
	fadd	v18.2d, v18.2d, v25.2d
	fadd	v19.2d, v19.2d, v25.2d
	fmul	v22.2d, v5.2d, v22.2d
	fmul	v23.2d, v7.2d, v23.2d
	fmul	v6.2d, v16.2d, v6.2d
	fadd	v17.2d, v17.2d, v25.2d
	fmul	v20.2d, v0.2d, v20.2d
	fadd	v21.2d, v21.2d, v25.2d
	fmul	v18.2d, v2.2d, v18.2d
	fmul	v19.2d, v1.2d, v19.2d
	fadd	v22.2d, v22.2d, v25.2d
	fadd	v23.2d, v23.2d, v25.2d
	fadd	v6.2d, v6.2d, v25.2d
	fmul	v17.2d, v3.2d, v17.2d
	fadd	v20.2d, v20.2d, v24.2d
	fmul	v21.2d, v4.2d, v21.2d
	fmov	v25.2d, #1.00000000
	fadd	v18.2d, v18.2d, v24.2d
	fadd	v19.2d, v19.2d, v24.2d
	fmul	v22.2d, v5.2d, v22.2d
	fmul	v23.2d, v7.2d, v23.2d
	fmul	v6.2d, v16.2d, v6.2d
	fadd	v17.2d, v17.2d, v24.2d
	fmul	v20.2d, v0.2d, v20.2d
	fadd	v21.2d, v21.2d, v24.2d
	fmul	v18.2d, v2.2d, v18.2d
	fmul	v19.2d, v1.2d, v19.2d
	fadd	v22.2d, v22.2d, v24.2d
	fadd	v23.2d, v23.2d, v24.2d
	fadd	v6.2d, v6.2d, v24.2d
	fmul	v17.2d, v3.2d, v17.2d
	fadd	v20.2d, v20.2d, v25.2d
	fmul	v21.2d, v4.2d, v21.2d
	fadd	v18.2d, v18.2d, v25.2d
	fadd	v19.2d, v19.2d, v25.2d
	fmul	v22.2d, v5.2d, v22.2d
	fmul	v23.2d, v7.2d, v23.2d
	fmul	v6.2d, v16.2d, v6.2d
	fadd	v17.2d, v17.2d, v25.2d
	fmul	v0.2d, v0.2d, v20.2d
	fadd	v20.2d, v21.2d, v25.2d
	fmul	v2.2d, v2.2d, v18.2d
	fmul	v1.2d, v1.2d, v19.2d
	fadd	v19.2d, v22.2d, v25.2d
	fadd	v18.2d, v23.2d, v25.2d
	fadd	v6.2d, v6.2d, v25.2d
	fmul	v3.2d, v3.2d, v17.2d
	fadd	v0.2d, v0.2d, v25.2d
	fmul	v4.2d, v4.2d, v20.2d
	fadd	v1.2d, v1.2d, v25.2d
	fadd	v2.2d, v2.2d, v25.2d
	fmul	v5.2d, v5.2d, v19.2d
	fmul	v7.2d, v7.2d, v18.2d
	ldp	q17, q18, [sp, #32]
	fmul	v6.2d, v16.2d, v6.2d
	fadd	v3.2d, v3.2d, v25.2d
	fadd	v4.2d, v4.2d, v25.2d
	fmul	v0.2d, v17.2d, v0.2d
	ldp	q16, q17, [sp, #64]
	fmul	v1.2d, v18.2d, v1.2d
	fadd	v5.2d, v5.2d, v25.2d
	fadd	v7.2d, v7.2d, v25.2d
	fadd	v6.2d, v6.2d, v25.2d
	fmul	v2.2d, v16.2d, v2.2d
	ldp	q16, q18, [sp, #96]
	fmul	v3.2d, v17.2d, v3.2d
	stp	q0, q1, [x0]
	fmul	v4.2d, v16.2d, v4.2d
	ldp	q0, q16, [sp, #128]
	fmul	v1.2d, v18.2d, v5.2d
	stp	q2, q3, [x0, #32]
	fmul	v0.2d, v0.2d, v7.2d
	fmul	v2.2d, v16.2d, v6.2d
	stp	q4, q1, [x0, #64]
	stp	q0, q2, [x0, #96]
	b	.LBB10_36
.LBB10_35:                              // %join.6.i.preheader
	ldr	d0, [x0]
	mov	x19, x0
	str	d20, [sp, #24]                  // 8-byte Spill
	bl	"elementary::exp::exp"
	ldr	d1, [x19, #8]
	str	d0, [x19]
	fmov	d0, d1
	bl	"elementary::exp::exp"
	str	d0, [x19, #8]
	fmov	d0, d9
	bl	"elementary::exp::exp"
	str	d0, [x19, #16]
	fmov	d0, d10
	bl	"elementary::exp::exp"
	str	d0, [x19, #24]
	fmov	d0, d11
	bl	"elementary::exp::exp"
	str	d0, [x19, #32]
	fmov	d0, d12
	bl	"elementary::exp::exp"
	str	d0, [x19, #40]
	fmov	d0, d13
	bl	"elementary::exp::exp"
	str	d0, [x19, #48]
	fmov	d0, d14
	bl	"elementary::exp::exp"
	str	d0, [x19, #56]
	fmov	d0, d15
	bl	"elementary::exp::exp"
	str	d0, [x19, #64]
	fmov	d0, d8
	bl	"elementary::exp::exp"
	str	d0, [x19, #72]
	ldr	d0, [sp, #24]                   // 8-byte Reload
	bl	"elementary::exp::exp"
	ldr	d1, [x19, #88]
	str	d0, [x19, #80]
	fmov	d0, d1
	bl	"elementary::exp::exp"
	ldr	d1, [x19, #96]
	str	d0, [x19, #88]
	fmov	d0, d1
	bl	"elementary::exp::exp"
	ldr	d1, [x19, #104]
	str	d0, [x19, #96]
	fmov	d0, d1
	bl	"elementary::exp::exp"
	ldr	d1, [x19, #112]
	str	d0, [x19, #104]
	fmov	d0, d1
	bl	"elementary::exp::exp"
	ldr	d1, [x19, #120]
	str	d0, [x19, #112]
	fmov	d0, d1
	bl	"elementary::exp::exp"
	str	d0, [x19, #120]
.LBB10_36:                              // %common.ret
	ldp	x20, x19, [sp, #448]            // 16-byte Folded Reload
	ldp	x22, x21, [sp, #432]            // 16-byte Folded Reload
	ldp	x24, x23, [sp, #416]            // 16-byte Folded Reload
	ldp	x26, x25, [sp, #400]            // 16-byte Folded Reload
	ldp	x28, x27, [sp, #384]            // 16-byte Folded Reload
	ldp	x29, x30, [sp, #368]            // 16-byte Folded Reload
	ldp	d9, d8, [sp, #352]              // 16-byte Folded Reload
	ldp	d11, d10, [sp, #336]            // 16-byte Folded Reload
	ldp	d13, d12, [sp, #320]            // 16-byte Folded Reload
	ldp	d15, d14, [sp, #304]            // 16-byte Folded Reload
	add	sp, sp, #464
	ret
.Lfunc_end10:
	.size	"elementary::exp::exp_block::<=16>", .Lfunc_end10-"elementary::exp::exp_block::<=16>"
                                        // -- End function
	.section	.rodata.cst8,"aM",@progbits,8
	.p2align	3, 0x0                          // -- Begin function elementary::exp::exp
.LCPI11_0:
	.xword	0x3ff71547652b82fe              // double 1.4426950408889634
.LCPI11_1:
	.xword	0xbfe62e42fee00000              // double -0.69314718036912382
.LCPI11_2:
	.xword	0xbdea39ef35793c76              // double -1.9082149292705877E-10
.LCPI11_3:
	.xword	0x3de6124613a86d09              // double 1.6059043836821613E-10
.LCPI11_4:
	.xword	0x3e21eed8eff8d898              // double 2.08767569878681E-9
.LCPI11_5:
	.xword	0x3e5ae64567f544e4              // double 2.505210838544172E-8
.LCPI11_6:
	.xword	0x3e927e4fb7789f5c              // double 2.7557319223985888E-7
.LCPI11_7:
	.xword	0x3ec71de3a556c734              // double 2.7557319223985893E-6
.LCPI11_8:
	.xword	0x3efa01a01a01a01a              // double 2.4801587301587302E-5
.LCPI11_9:
	.xword	0x3f2a01a01a01a01a              // double 1.9841269841269841E-4
.LCPI11_10:
	.xword	0x3f56c16c16c16c17              // double 0.0013888888888888889
.LCPI11_11:
	.xword	0xbff71547652b82fe              // double -1.4426950408889634
.LCPI11_12:
	.xword	0x3fe62e42fee00000              // double 0.69314718036912382
.LCPI11_13:
	.xword	0x3dea39ef35793c76              // double 1.9082149292705877E-10
	.section	".text.elementary::exp::exp","ax",@progbits
	.p2align	2
	.type	"elementary::exp::exp",@function
"elementary::exp::exp":                 // @"elementary::exp::exp"
// %bb.0:                               // %start
	fmov	d1, d0
	//ARITH_FENCE
	fcmp	d1, d1
	b.vs	.LBB11_13
// %bb.1:                               // %join.3
	mov	x8, #43980465111040             // =0x280000000000
	movk	x8, #16518, lsl #48
	fmov	d2, x8
	//ARITH_FENCE
	fcmp	d2, d1
	cset	w8, mi
	//APP
	//NO_APP
	cbz	w8, .LBB11_3
// %bb.2:
	mov	x8, #9218868437227405312        // =0x7ff0000000000000
	fmov	d1, x8
	fmov	d0, d1
	ret
.LBB11_3:                               // %join.6
	mov	x8, #35184372088832             // =0x200000000000
	movk	x8, #49286, lsl #48
	fmov	d2, x8
	//ARITH_FENCE
	fcmp	d1, d2
	movi	d1, #0000000000000000
	cset	w8, mi
	//APP
	//NO_APP
	cbz	w8, .LBB11_5
// %bb.4:                               // %common.ret
	fmov	d0, d1
	ret
.LBB11_5:                               // %join.9
	adrp	x8, .LCPI11_0
	ldr	d1, [x8, :lo12:.LCPI11_0]
	fmul	d3, d0, d1
	movi	d1, #0000000000000000
	fmov	d4, d3
	//ARITH_FENCE
	//ARITH_FENCE
	fcmp	d4, d1
	cset	w8, mi
	//APP
	//NO_APP
	cbz	w8, .LBB11_8
// %bb.6:                               // %then.10
	adrp	x8, .LCPI11_11
	ldr	d1, [x8, :lo12:.LCPI11_11]
	mov	x8, #4841369599423283200        // =0x4330000000000000
	fmul	d4, d0, d1
	fmov	d1, x8
	mov	x8, #-4382002437431492608       // =0xc330000000000000
	fmov	d2, x8
	fadd	d1, d4, d1
	//ARITH_FENCE
	fadd	d2, d1, d2
	fmov	d1, #0.50000000
	fadd	d5, d2, d1
	//ARITH_FENCE
	fcmp	d5, d4
	cset	w8, hi
	//APP
	//NO_APP
	cbz	w8, .LBB11_10
// %bb.7:                               // %join.9.i
	adrp	x8, .LCPI11_12
	ldr	d3, [x8, :lo12:.LCPI11_12]
	adrp	x8, .LCPI11_13
	ldr	d4, [x8, :lo12:.LCPI11_13]
	adrp	x8, .LCPI11_3
	fmul	d3, d2, d3
	fadd	d0, d0, d3
	fmul	d3, d2, d4
	fadd	d0, d3, d0
	ldr	d3, [x8, :lo12:.LCPI11_3]
	adrp	x8, .LCPI11_4
	ldr	d4, [x8, :lo12:.LCPI11_4]
	adrp	x8, .LCPI11_5
	fmul	d3, d0, d3
	fadd	d3, d3, d4
	ldr	d4, [x8, :lo12:.LCPI11_5]
	adrp	x8, .LCPI11_6
	fmul	d3, d0, d3
	fadd	d3, d3, d4
	ldr	d4, [x8, :lo12:.LCPI11_6]
	adrp	x8, .LCPI11_7
	fmul	d3, d0, d3
	fadd	d3, d3, d4
	ldr	d4, [x8, :lo12:.LCPI11_7]
	adrp	x8, .LCPI11_8
	fmul	d3, d0, d3
	fadd	d3, d3, d4
	ldr	d4, [x8, :lo12:.LCPI11_8]
	adrp	x8, .LCPI11_9
	fmul	d3, d0, d3
	fadd	d3, d3, d4
	ldr	d4, [x8, :lo12:.LCPI11_9]
	adrp	x8, .LCPI11_10
	fmul	d3, d0, d3
	fadd	d3, d3, d4
	ldr	d4, [x8, :lo12:.LCPI11_10]
	mov	x8, #1229782938247303441        // =0x1111111111111111
	movk	x8, #16257, lsl #48
	fmul	d3, d0, d3
	fadd	d3, d3, d4
	fmov	d4, x8
	mov	x8, #6148914691236517205        // =0x5555555555555555
	movk	x8, #16293, lsl #48
	fmul	d3, d0, d3
	fadd	d3, d3, d4
	fmov	d4, x8
	mov	x8, #6148914691236517205        // =0x5555555555555555
	movk	x8, #16325, lsl #48
	fmul	d3, d0, d3
	fadd	d3, d3, d4
	fmov	d4, x8
	mov	x8, #1023                       // =0x3ff
	movk	x8, #17200, lsl #48
	fmul	d3, d0, d3
	fadd	d3, d3, d4
	fmov	d4, x8
	fmul	d3, d0, d3
	fadd	d1, d3, d1
	fmov	d3, #1.00000000
	fmul	d1, d0, d1
	fadd	d1, d1, d3
	fmul	d0, d0, d1
	fsub	d1, d4, d2
	fadd	d0, d0, d3
	fmov	x8, d1
	lsl	x8, x8, #52
	fmov	d1, x8
	fmul	d0, d0, d1
	ret
.LBB11_8:                               // %join.12
	mov	x8, #4841369599423283200        // =0x4330000000000000
	fmov	d1, x8
	mov	x8, #-4382002437431492608       // =0xc330000000000000
	fmov	d2, x8
	fadd	d1, d3, d1
	fadd	d2, d1, d2
	fmov	d1, #0.50000000
	fadd	d3, d2, d1
	//ARITH_FENCE
	fcmp	d3, d4
	cset	w8, hi
	//APP
	//NO_APP
	cbz	w8, .LBB11_11
// %bb.9:                               // %join.9.i60
	adrp	x8, .LCPI11_1
	ldr	d3, [x8, :lo12:.LCPI11_1]
	adrp	x8, .LCPI11_2
	ldr	d4, [x8, :lo12:.LCPI11_2]
	adrp	x8, .LCPI11_3
	fmul	d3, d2, d3
	fadd	d0, d0, d3
	fmul	d3, d2, d4
	fadd	d0, d0, d3
	ldr	d3, [x8, :lo12:.LCPI11_3]
	adrp	x8, .LCPI11_4
	ldr	d4, [x8, :lo12:.LCPI11_4]
	adrp	x8, .LCPI11_5
	fmul	d3, d0, d3
	fadd	d3, d3, d4
	ldr	d4, [x8, :lo12:.LCPI11_5]
	adrp	x8, .LCPI11_6
	fmul	d3, d0, d3
	fadd	d3, d3, d4
	ldr	d4, [x8, :lo12:.LCPI11_6]
	adrp	x8, .LCPI11_7
	fmul	d3, d0, d3
	fadd	d3, d3, d4
	ldr	d4, [x8, :lo12:.LCPI11_7]
	adrp	x8, .LCPI11_8
	fmul	d3, d0, d3
	fadd	d3, d3, d4
	ldr	d4, [x8, :lo12:.LCPI11_8]
	adrp	x8, .LCPI11_9
	fmul	d3, d0, d3
	fadd	d3, d3, d4
	ldr	d4, [x8, :lo12:.LCPI11_9]
	adrp	x8, .LCPI11_10
	fmul	d3, d0, d3
	fadd	d3, d3, d4
	ldr	d4, [x8, :lo12:.LCPI11_10]
	mov	x8, #1229782938247303441        // =0x1111111111111111
	movk	x8, #16257, lsl #48
	fmul	d3, d0, d3
	fadd	d3, d3, d4
	fmov	d4, x8
	mov	x8, #6148914691236517205        // =0x5555555555555555
	movk	x8, #16293, lsl #48
	fmul	d3, d0, d3
	fadd	d3, d3, d4
	fmov	d4, x8
	mov	x8, #6148914691236517205        // =0x5555555555555555
	movk	x8, #16325, lsl #48
	fmul	d3, d0, d3
	fadd	d3, d3, d4
	fmov	d4, x8
	fmul	d3, d0, d3
	fadd	d3, d3, d4
	fmul	d3, d0, d3
	fadd	d1, d3, d1
	fmov	d3, #1.00000000
	b	.LBB11_12
.LBB11_10:                              // %then.4.i
	mov	x8, #4841369599423283200        // =0x4330000000000000
	fmov	d2, x8
	mov	x8, #-4382002437431492608       // =0xc330000000000000
	fmov	d4, x8
	fsub	d2, d2, d3
	fneg	d3, d3
	fadd	d4, d2, d4
	fmov	d2, #1.00000000
	//ARITH_FENCE
	fadd	d5, d4, d1
	//ARITH_FENCE
	fcmp	d5, d3
	fadd	d3, d4, d2
	cset	w8, hi
	//APP
	//NO_APP
	cmp	w8, #0
	fcsel	d3, d4, d3, ne
	adrp	x8, .LCPI11_12
	ldr	d4, [x8, :lo12:.LCPI11_12]
	adrp	x8, .LCPI11_13
	ldr	d5, [x8, :lo12:.LCPI11_13]
	adrp	x8, .LCPI11_3
	fmul	d4, d3, d4
	fadd	d0, d0, d4
	fmul	d4, d3, d5
	fadd	d0, d0, d4
	ldr	d4, [x8, :lo12:.LCPI11_3]
	adrp	x8, .LCPI11_4
	ldr	d5, [x8, :lo12:.LCPI11_4]
	adrp	x8, .LCPI11_5
	fmul	d4, d0, d4
	fadd	d4, d4, d5
	ldr	d5, [x8, :lo12:.LCPI11_5]
	adrp	x8, .LCPI11_6
	fmul	d4, d0, d4
	fadd	d4, d4, d5
	ldr	d5, [x8, :lo12:.LCPI11_6]
	adrp	x8, .LCPI11_7
	fmul	d4, d0, d4
	fadd	d4, d4, d5
	ldr	d5, [x8, :lo12:.LCPI11_7]
	adrp	x8, .LCPI11_8
	fmul	d4, d0, d4
	fadd	d4, d4, d5
	ldr	d5, [x8, :lo12:.LCPI11_8]
	adrp	x8, .LCPI11_9
	fmul	d4, d0, d4
	fadd	d4, d4, d5
	ldr	d5, [x8, :lo12:.LCPI11_9]
	adrp	x8, .LCPI11_10
	fmul	d4, d0, d4
	fadd	d4, d4, d5
	ldr	d5, [x8, :lo12:.LCPI11_10]
	mov	x8, #1229782938247303441        // =0x1111111111111111
	movk	x8, #16257, lsl #48
	fmul	d4, d0, d4
	fadd	d4, d4, d5
	fmov	d5, x8
	mov	x8, #6148914691236517205        // =0x5555555555555555
	movk	x8, #16293, lsl #48
	fmul	d4, d0, d4
	fadd	d4, d4, d5
	fmov	d5, x8
	mov	x8, #6148914691236517205        // =0x5555555555555555
	movk	x8, #16325, lsl #48
	fmul	d4, d0, d4
	fadd	d4, d4, d5
	fmov	d5, x8
	mov	x8, #1023                       // =0x3ff
	movk	x8, #17200, lsl #48
	fmul	d4, d0, d4
	fadd	d4, d4, d5
	fmul	d4, d0, d4
	fadd	d1, d4, d1
	fmov	d4, x8
	fmul	d1, d0, d1
	fadd	d1, d1, d2
	fmul	d0, d0, d1
	fsub	d1, d4, d3
	fadd	d0, d0, d2
	fmov	x8, d1
	lsl	x8, x8, #52
	fmov	d1, x8
	fmul	d0, d0, d1
	ret
.LBB11_11:                              // %then.4.i9
	fmov	d3, #1.00000000
	adrp	x8, .LCPI11_1
	ldr	d4, [x8, :lo12:.LCPI11_1]
	adrp	x8, .LCPI11_2
	ldr	d5, [x8, :lo12:.LCPI11_2]
	adrp	x8, .LCPI11_3
	fadd	d2, d2, d3
	fmul	d4, d2, d4
	fadd	d0, d0, d4
	fmul	d4, d2, d5
	fadd	d0, d0, d4
	ldr	d4, [x8, :lo12:.LCPI11_3]
	adrp	x8, .LCPI11_4
	ldr	d5, [x8, :lo12:.LCPI11_4]
	adrp	x8, .LCPI11_5
	fmul	d4, d0, d4
	fadd	d4, d4, d5
	ldr	d5, [x8, :lo12:.LCPI11_5]
	adrp	x8, .LCPI11_6
	fmul	d4, d0, d4
	fadd	d4, d4, d5
	ldr	d5, [x8, :lo12:.LCPI11_6]
	adrp	x8, .LCPI11_7
	fmul	d4, d0, d4
	fadd	d4, d4, d5
	ldr	d5, [x8, :lo12:.LCPI11_7]
	adrp	x8, .LCPI11_8
	fmul	d4, d0, d4
	fadd	d4, d4, d5
	ldr	d5, [x8, :lo12:.LCPI11_8]
	adrp	x8, .LCPI11_9
	fmul	d4, d0, d4
	fadd	d4, d4, d5
	ldr	d5, [x8, :lo12:.LCPI11_9]
	adrp	x8, .LCPI11_10
	fmul	d4, d0, d4
	fadd	d4, d4, d5
	ldr	d5, [x8, :lo12:.LCPI11_10]
	mov	x8, #1229782938247303441        // =0x1111111111111111
	movk	x8, #16257, lsl #48
	fmul	d4, d0, d4
	fadd	d4, d4, d5
	fmov	d5, x8
	mov	x8, #6148914691236517205        // =0x5555555555555555
	movk	x8, #16293, lsl #48
	fmul	d4, d0, d4
	fadd	d4, d4, d5
	fmov	d5, x8
	mov	x8, #6148914691236517205        // =0x5555555555555555
	movk	x8, #16325, lsl #48
	fmul	d4, d0, d4
	fadd	d4, d4, d5
	fmov	d5, x8
	fmul	d4, d0, d4
	fadd	d4, d4, d5
	fmul	d4, d0, d4
	fadd	d1, d4, d1
.LBB11_12:                              // %common.ret
	fmul	d1, d0, d1
	mov	x8, #1023                       // =0x3ff
	fadd	d1, d1, d3
	movk	x8, #17200, lsl #48
	fmov	d4, x8
	fmul	d0, d0, d1
	fadd	d1, d2, d4
	fadd	d0, d0, d3
	fmov	x8, d1
	lsl	x8, x8, #52
	fmov	d1, x8
	fmul	d0, d0, d1
	ret
.LBB11_13:
	fmov	d1, d0
	fmov	d0, d1
	ret
.Lfunc_end11:
	.size	"elementary::exp::exp", .Lfunc_end11-"elementary::exp::exp"
                                        // -- End function
	.section	.rodata.cst8,"aM",@progbits,8
	.p2align	3, 0x0                          // -- Begin function elementary::ln::ln
.LCPI12_0:
	.xword	0x3ff6a09e667f3bcd              // double 1.4142135623730951
.LCPI12_1:
	.xword	0x3fe62e42fee00000              // double 0.69314718036912382
.LCPI12_2:
	.xword	0x3fa8618618618618              // double 0.047619047619047616
.LCPI12_3:
	.xword	0x3faaf286bca1af28              // double 0.052631578947368418
.LCPI12_4:
	.xword	0x3fb3b13b13b13b14              // double 0.076923076923076927
.LCPI12_5:
	.xword	0x3fb745d1745d1746              // double 0.090909090909090911
.LCPI12_6:
	.xword	0x3fbc71c71c71c71c              // double 0.1111111111111111
.LCPI12_7:
	.xword	0x3fc2492492492492              // double 0.14285714285714285
.LCPI12_8:
	.xword	0x3fc999999999999a              // double 0.20000000000000001
.LCPI12_9:
	.xword	0x3dea39ef35793c76              // double 1.9082149292705877E-10
	.section	".text.elementary::ln::ln","ax",@progbits
	.p2align	2
	.type	"elementary::ln::ln",@function
"elementary::ln::ln":                   // @"elementary::ln::ln"
// %bb.0:                               // %start
	fmov	d1, d0
	//ARITH_FENCE
	fcmp	d1, d1
	b.vs	.LBB12_10
// %bb.1:                               // %join.3
	movi	d2, #0000000000000000
	//ARITH_FENCE
	fcmp	d1, d2
	cset	w8, mi
	//APP
	//NO_APP
	cbz	w8, .LBB12_3
// %bb.2:
	mov	x8, #9221120237041090560        // =0x7ff8000000000000
	fmov	d0, x8
	ret
.LBB12_3:                               // %join.6
	fcmp	d1, d2
	b.ne	.LBB12_5
// %bb.4:
	mov	x8, #-4503599627370496          // =0xfff0000000000000
	fmov	d0, x8
	ret
.LBB12_5:                               // %join.9
	fsub	d3, d0, d0
	//ARITH_FENCE
	fcmp	d3, d2
	b.ne	.LBB12_10
// %bb.6:                               // %then.10
	mov	x8, #4503599627370496           // =0x10000000000000
	mov	w9, #1077                       // =0x435
	mov	x10, #9221120237041090560       // =0x7ff8000000000000
	fmov	d2, x8
	mov	x8, #4850376798678024192        // =0x4350000000000000
	adrp	x11, .LCPI12_0
	//ARITH_FENCE
	fcmp	d1, d2
	fmov	d1, x8
	fmul	d1, d0, d1
	cset	w8, mi
	//APP
	//NO_APP
	cmp	w8, #0
	mov	w8, #1023                       // =0x3ff
	csel	w8, w9, w8, ne
	fcsel	d0, d1, d0, ne
	fmov	d1, d0
	fmov	x9, d0
	//ARITH_FENCE
	fcmp	d1, d1
	ldr	d1, [x11, :lo12:.LCPI12_0]
	csel	x9, x10, x9, vs
	mov	x10, #4607182418800017408       // =0x3ff0000000000000
	//ARITH_FENCE
	bfxil	x10, x9, #0, #52
	lsr	x9, x9, #52
	fmov	d0, x10
	fmov	d2, d0
	//ARITH_FENCE
	fcmp	d1, d2
	cset	w10, mi
	//APP
	//NO_APP
	cbz	w10, .LBB12_8
// %bb.7:                               // %then.1.i.i
	fmov	d1, #0.50000000
	fmov	d2, #1.00000000
	adrp	x10, .LCPI12_2
	ldr	d3, [x10, :lo12:.LCPI12_2]
	adrp	x10, .LCPI12_3
	add	w9, w9, #1
	ldr	d4, [x10, :lo12:.LCPI12_3]
	mov	x10, #2170205185142300190       // =0x1e1e1e1e1e1e1e1e
	fmul	d0, d0, d1
	fmov	d1, #-1.00000000
	movk	x10, #16302, lsl #48
	fadd	d1, d0, d1
	fadd	d0, d0, d2
	fdiv	d0, d1, d0
	fmul	d1, d0, d0
	fmul	d3, d1, d3
	fadd	d3, d3, d4
	fmov	d4, x10
	mov	x10, #1229782938247303441       // =0x1111111111111111
	movk	x10, #16305, lsl #48
	fmul	d3, d1, d3
	fadd	d3, d3, d4
	fmov	d4, x10
	adrp	x10, .LCPI12_4
	fmul	d3, d1, d3
	fadd	d3, d3, d4
	ldr	d4, [x10, :lo12:.LCPI12_4]
	adrp	x10, .LCPI12_5
	fmul	d3, d1, d3
	fadd	d3, d3, d4
	ldr	d4, [x10, :lo12:.LCPI12_5]
	adrp	x10, .LCPI12_6
	fmul	d3, d1, d3
	fadd	d3, d3, d4
	ldr	d4, [x10, :lo12:.LCPI12_6]
	adrp	x10, .LCPI12_7
	fmul	d3, d1, d3
	fadd	d3, d3, d4
	ldr	d4, [x10, :lo12:.LCPI12_7]
	adrp	x10, .LCPI12_8
	fmul	d3, d1, d3
	fadd	d3, d3, d4
	ldr	d4, [x10, :lo12:.LCPI12_8]
	mov	x10, #6148914691236517205       // =0x5555555555555555
	movk	x10, #16341, lsl #48
	fmul	d3, d1, d3
	fadd	d3, d3, d4
	fmov	d4, x10
	fmul	d3, d1, d3
	fadd	d3, d3, d4
	ucvtf	d4, w9
	b	.LBB12_9
.LBB12_8:                               // %else.2.i.i
	fmov	d1, #-1.00000000
	fmov	d2, #1.00000000
	adrp	x10, .LCPI12_2
	ldr	d3, [x10, :lo12:.LCPI12_2]
	adrp	x10, .LCPI12_3
	ldr	d4, [x10, :lo12:.LCPI12_3]
	mov	x10, #2170205185142300190       // =0x1e1e1e1e1e1e1e1e
	fadd	d1, d0, d1
	fadd	d0, d0, d2
	movk	x10, #16302, lsl #48
	fdiv	d0, d1, d0
	fmul	d1, d0, d0
	fmul	d3, d1, d3
	fadd	d3, d3, d4
	fmov	d4, x10
	mov	x10, #1229782938247303441       // =0x1111111111111111
	movk	x10, #16305, lsl #48
	fmul	d3, d1, d3
	fadd	d3, d3, d4
	fmov	d4, x10
	adrp	x10, .LCPI12_4
	fmul	d3, d1, d3
	fadd	d3, d3, d4
	ldr	d4, [x10, :lo12:.LCPI12_4]
	adrp	x10, .LCPI12_5
	fmul	d3, d1, d3
	fadd	d3, d3, d4
	ldr	d4, [x10, :lo12:.LCPI12_5]
	adrp	x10, .LCPI12_6
	fmul	d3, d1, d3
	fadd	d3, d3, d4
	ldr	d4, [x10, :lo12:.LCPI12_6]
	adrp	x10, .LCPI12_7
	fmul	d3, d1, d3
	fadd	d3, d3, d4
	ldr	d4, [x10, :lo12:.LCPI12_7]
	adrp	x10, .LCPI12_8
	fmul	d3, d1, d3
	fadd	d3, d3, d4
	ldr	d4, [x10, :lo12:.LCPI12_8]
	mov	x10, #6148914691236517205       // =0x5555555555555555
	movk	x10, #16341, lsl #48
	fmul	d3, d1, d3
	fadd	d3, d3, d4
	fmov	d4, x10
	fmul	d3, d1, d3
	fadd	d3, d3, d4
	ucvtf	d4, w9
.LBB12_9:                               // %common.ret
	ucvtf	d5, w8
	fmul	d1, d1, d3
	//ARITH_FENCE
	fadd	d0, d0, d0
	adrp	x8, .LCPI12_9
	//ARITH_FENCE
	fsub	d3, d4, d5
	fadd	d1, d1, d2
	ldr	d2, [x8, :lo12:.LCPI12_9]
	adrp	x8, .LCPI12_1
	fmul	d0, d0, d1
	fmul	d1, d3, d2
	ldr	d2, [x8, :lo12:.LCPI12_1]
	fmul	d2, d3, d2
	fadd	d0, d1, d0
	fadd	d0, d2, d0
.LBB12_10:                              // %common.ret
	ret
.Lfunc_end12:
	.size	"elementary::ln::ln", .Lfunc_end12-"elementary::ln::ln"
                                        // -- End function
	.section	".text.yield_curve::linear::yield_of","ax",@progbits
	.p2align	2                               // -- Begin function yield_curve::linear::yield_of
	.type	"yield_curve::linear::yield_of",@function
"yield_curve::linear::yield_of":        // @"yield_curve::linear::yield_of"
// %bb.0:                               // %start
	cbz	x1, .LBB13_8
// %bb.1:                               // %"curves::segments::knot_at.exit.i"
	fmov	d1, d0
	ldr	d2, [x0]
	//ARITH_FENCE
	//ARITH_FENCE
	fcmp	d1, d2
	cset	w8, hi
	//APP
	//NO_APP
	cbz	w8, .LBB13_15
// %bb.2:                               // %"curves::segments::last_knot.exit.i"
	add	x8, x0, x1, lsl #3
	ldur	d2, [x8, #-8]
	//ARITH_FENCE
	fcmp	d2, d1
	cset	w8, hi
	//APP
	//NO_APP
	cbz	w8, .LBB13_17
// %bb.3:                               // %join.6.i
	cmp	x1, #1
	b.eq	.LBB13_10
// %bb.4:                               // %join.5.i.i.i.i.preheader
	mov	x8, xzr
	mov	x9, x1
	b	.LBB13_6
.LBB13_5:                               // %select.end
                                        //   in Loop: Header=BB13_6 Depth=1
	sub	x9, x9, x10
	cmp	x9, #1
	b.ls	.LBB13_11
.LBB13_6:                               // %join.5.i.i.i.i
                                        // =>This Inner Loop Header: Depth=1
	lsr	x10, x9, #1
	add	x11, x10, x8
	ldr	d2, [x0, x11, lsl #3]
	//ARITH_FENCE
	fcmp	d1, d2
	cset	w12, ls
	//APP
	//NO_APP
	cbnz	w12, .LBB13_5
// %bb.7:                               // %select.false
                                        //   in Loop: Header=BB13_6 Depth=1
	mov	x8, x11
	b	.LBB13_5
.LBB13_8:                               // %"curves::segments::knot_at.exit.thread.i"
	mov	x8, #9221120237041090560        // =0x7ff8000000000000
	fmov	d1, d0
	fmov	d2, x8
	//ARITH_FENCE
	//ARITH_FENCE
	fcmp	d1, d2
	cset	w8, hi
	//APP
	//NO_APP
	cbz	w8, .LBB13_15
// %bb.9:                               // %"curves::segments::last_knot.exit.i.thread"
	fcmp	d2, d1
	cset	w8, hi
	//APP
	//NO_APP
	cbz	w8, .LBB13_17
.LBB13_10:
	mov	x8, xzr
.LBB13_11:                              // %"curves::kinds::segment_on.exit.i"
	cmp	x8, x1
	b.hs	.LBB13_20
// %bb.12:                              // %then.2.i.i
	lsl	x9, x8, #3
	add	x10, x8, #1
	cmp	x10, x1
	ldr	d1, [x0, x9]
	b.hs	.LBB13_25
// %bb.13:                              // %then.2.i.i
	cmp	x10, x3
	b.hs	.LBB13_25
// %bb.14:                              // %then.8.i.i
	add	x8, x9, #8
	ldr	d3, [x2, x9]
	ldr	d2, [x0, x8]
	ldr	d4, [x2, x8]
	b	.LBB13_28
.LBB13_15:                              // %then.1.i
	cbz	x3, .LBB13_19
// %bb.16:                              // %arm.1.i.i10.i
	ldr	d0, [x2]
	ret
.LBB13_17:                              // %then.4.i
	cbz	x3, .LBB13_19
// %bb.18:                              // %arm.1.i.i17.i
	add	x8, x2, x3, lsl #3
	ldur	d0, [x8, #-8]
	ret
.LBB13_19:
	mov	x8, #9221120237041090560        // =0x7ff8000000000000
	fmov	d0, x8
	ret
.LBB13_20:
	mov	x9, #9221120237041090560        // =0x7ff8000000000000
	fmov	d1, x9
	fmov	d2, d1
.LBB13_21:                              // %"curves::segments::knot_after.exit.i.i"
	cmp	x8, x3
	b.hs	.LBB13_24
// %bb.22:                              // %then.1.i19.i.i
	add	x9, x8, #1
	ldr	d3, [x2, x8, lsl #3]
	cmp	x9, x3
	b.hs	.LBB13_27
// %bb.23:                              // %arm.1.i.i.i22.i.i
	ldr	d4, [x2, x9, lsl #3]
	b	.LBB13_28
.LBB13_24:
	mov	x8, #9221120237041090560        // =0x7ff8000000000000
	fmov	d3, x8
	fmov	d4, d3
	b	.LBB13_28
.LBB13_25:                              // %then.1.i.i.i
	cmp	x10, x1
	b.hs	.LBB13_29
// %bb.26:                              // %arm.1.i.i.i.i.i
	ldr	d2, [x0, x10, lsl #3]
	b	.LBB13_21
.LBB13_27:
	mov	x8, #9221120237041090560        // =0x7ff8000000000000
	fmov	d4, x8
.LBB13_28:                              // %"curves::segments::ends_of.exit.i"
	fsub	d0, d0, d1
	fsub	d1, d2, d1
	fdiv	d0, d0, d1
	fsub	d1, d4, d3
	fmul	d0, d0, d1
	fadd	d0, d3, d0
	ret
.LBB13_29:
	mov	x9, #9221120237041090560        // =0x7ff8000000000000
	fmov	d2, x9
	b	.LBB13_21
.Lfunc_end13:
	.size	"yield_curve::linear::yield_of", .Lfunc_end13-"yield_curve::linear::yield_of"
                                        // -- End function
	.section	.rodata.cst8,"aM",@progbits,8
	.p2align	3, 0x0                          // -- Begin function spread_analytics::spread::duration_convexity
.LCPI14_0:
	.xword	0x3d719799812dea11              // double 9.9999999999999998E-13
	.section	".text.spread_analytics::spread::duration_convexity","ax",@progbits
	.p2align	2
	.type	"spread_analytics::spread::duration_convexity",@function
"spread_analytics::spread::duration_convexity": // @"spread_analytics::spread::duration_convexity"
// %bb.0:                               // %start
	stp	d9, d8, [sp, #-112]!            // 16-byte Folded Spill
	stp	x29, x30, [sp, #16]             // 16-byte Folded Spill
	add	x29, sp, #16
	stp	x28, x27, [sp, #32]             // 16-byte Folded Spill
	stp	x26, x25, [sp, #48]             // 16-byte Folded Spill
	stp	x24, x23, [sp, #64]             // 16-byte Folded Spill
	stp	x22, x21, [sp, #80]             // 16-byte Folded Spill
	stp	x20, x19, [sp, #96]             // 16-byte Folded Spill
	sub	sp, sp, #1136
	ldr	x25, [x29, #96]
	mov	x20, x0
	add	x0, sp, #80
	str	xzr, [sp]
	fmov	d8, d0
	mov	x22, x5
	mov	x23, x4
	mov	x19, x3
	mov	x24, x2
	mov	x27, x1
	str	wzr, [sp, #88]
	str	xzr, [sp, #80]
	strb	wzr, [sp, #8]
	stp	x6, x7, [sp, #32]               // 16-byte Folded Spill
	str	x25, [sp]
	bl	"spread_analytics::judging::judge_spread"
	ldrb	w9, [sp, #80]
	cmp	w9, #1
	b.ne	.LBB14_2
// %bb.1:                               // %arm.1
	movi	v1.2d, #0000000000000000
	ldr	s0, [sp, #88]
	ldr	w8, [sp, #84]
	mov	v1.d[0], v0.d[0]
	b	.LBB14_13
.LBB14_2:                               // %arm.2
	movi	v0.2d, #0000000000000000
	movi	d9, #0000000000000000
	str	w9, [sp, #20]                   // 4-byte Spill
	movi	d4, #0000000000000000
	movi	v3.2d, #0000000000000000
	str	x20, [sp, #24]                  // 8-byte Spill
	stp	q0, q0, [sp, #96]
	stp	q0, q0, [sp, #128]
	stp	q0, q0, [sp, #160]
	stp	q0, q0, [sp, #192]
	stp	q0, q0, [sp, #224]
	stp	q0, q0, [sp, #256]
	stp	q0, q0, [sp, #288]
	stp	q0, q0, [sp, #320]
	stp	q0, q0, [sp, #352]
	stp	q0, q0, [sp, #384]
	stp	q0, q0, [sp, #416]
	stp	q0, q0, [sp, #448]
	stp	q0, q0, [sp, #480]
	stp	q0, q0, [sp, #512]
	stp	q0, q0, [sp, #544]
	stp	q0, q0, [sp, #576]
	cbz	x24, .LBB14_10
// %bb.3:                               // %arm.1.i.i.i.preheader
	mov	x8, #149533581377536            // =0x880000000000
	movi	d4, #0000000000000000
	movk	x8, #16579, lsl #48
	fmov	d0, x8
	fdiv	d8, d8, d0
	b	.LBB14_5
.LBB14_4:                               // %"spread_analytics::worth::sums_on.exit.i.i"
                                        //   in Loop: Header=BB14_5 Depth=1
	cbz	x24, .LBB14_10
.LBB14_5:                               // %arm.1.i.i.i
                                        // =>This Loop Header: Depth=1
                                        //     Child Loop BB14_7 Depth 2
	cmp	x24, #64
	mov	w8, #64                         // =0x40
	csel	x2, x24, x8, lo
	cbz	x23, .LBB14_10
// %bb.6:                               // %arm.3.i.i
                                        //   in Loop: Header=BB14_5 Depth=1
	cmp	x23, #64
	mov	w8, #64                         // =0x40
	fmov	d0, d8
	csel	x8, x23, x8, lo
	ldp	x4, x5, [sp, #32]               // 16-byte Folded Reload
	mov	x28, x27
	lsl	x20, x2, #3
	lsl	x21, x8, #3
	add	x0, sp, #96
	mov	x1, x28
	mov	x3, x22
	mov	x6, x25
	mov	x26, x19
	add	x27, x27, x20
	sub	x24, x24, x2
	add	x19, x19, x21
	sub	x23, x23, x8
	stp	q4, q3, [sp, #48]               // 32-byte Folded Spill
	bl	"spread_analytics::worth::factors_of"
	add	x0, sp, #616
	add	x1, sp, #96
	mov	w2, #512                        // =0x200
	bl	memcpy
	ldp	q4, q3, [sp, #48]               // 32-byte Folded Reload
	mov	x8, xzr
.LBB14_7:                               // %join.3.i.i.i.i.i.i
                                        //   Parent Loop BB14_5 Depth=1
                                        // =>  This Inner Loop Header: Depth=2
	cmp	x21, x8
	b.eq	.LBB14_4
// %bb.8:                               // %join.3.i.i.i.i.i.i
                                        //   in Loop: Header=BB14_7 Depth=2
	cmp	x8, #512
	b.eq	.LBB14_4
// %bb.9:                               // %arm.3.i.i.i
                                        //   in Loop: Header=BB14_7 Depth=2
	ldr	d0, [x28, x8]
	add	x9, sp, #616
	ldr	d2, [x9, x8]
	fmul	d1, d0, d0
	mov	v0.d[1], v1.d[0]
	ldr	d1, [x26, x8]
	add	x8, x8, #8
	cmp	x20, x8
	fmul	v0.2d, v0.2d, v1.d[0]
	fmul	d1, d1, d2
	fmul	v0.2d, v0.2d, v2.d[0]
	fadd	d4, d4, d1
	fadd	v3.2d, v3.2d, v0.2d
	b.ne	.LBB14_7
	b	.LBB14_4
.LBB14_10:                              // %"spread_analytics::spread::sums_over.exit.i"
	fmov	d0, d4
	fsub	d1, d9, d4
	//ARITH_FENCE
	//ARITH_FENCE
	fcmp	d9, d0
	cset	w8, mi
	//APP
	//NO_APP
	cmp	w8, #0
	fcsel	d0, d4, d1, ne
	adrp	x8, .LCPI14_0
	ldr	d1, [x8, :lo12:.LCPI14_0]
	//ARITH_FENCE
	//ARITH_FENCE
	fcmp	d0, d1
	cset	w8, mi
	//APP
	//NO_APP
	cbz	w8, .LBB14_12
// %bb.11:
	ldr	x20, [sp, #24]                  // 8-byte Reload
	ldr	w9, [sp, #20]                   // 4-byte Reload
	mov	w8, wzr
	movi	v1.2d, #0000000000000000
	b	.LBB14_13
.LBB14_12:                              // %join.3.i
	dup	v0.2d, v4.d[0]
	ldr	x20, [sp, #24]                  // 8-byte Reload
	ldr	w9, [sp, #20]                   // 4-byte Reload
	fdiv	v1.2d, v3.2d, v0.2d
.LBB14_13:                              // %join.4
	stp	w9, w8, [x20]
	stur	q1, [x20, #8]
	add	sp, sp, #1136
	ldp	x20, x19, [sp, #96]             // 16-byte Folded Reload
	ldp	x22, x21, [sp, #80]             // 16-byte Folded Reload
	ldp	x24, x23, [sp, #64]             // 16-byte Folded Reload
	ldp	x26, x25, [sp, #48]             // 16-byte Folded Reload
	ldp	x28, x27, [sp, #32]             // 16-byte Folded Reload
	ldp	x29, x30, [sp, #16]             // 16-byte Folded Reload
	ldp	d9, d8, [sp], #112              // 16-byte Folded Reload
	ret
.Lfunc_end14:
	.size	"spread_analytics::spread::duration_convexity", .Lfunc_end14-"spread_analytics::spread::duration_convexity"
                                        // -- End function
	.section	".text.spread_analytics::judging::judge_spread","ax",@progbits
	.p2align	2                               // -- Begin function spread_analytics::judging::judge_spread
	.type	"spread_analytics::judging::judge_spread",@function
"spread_analytics::judging::judge_spread": // @"spread_analytics::judging::judge_spread"
// %bb.0:                               // %start
	cmp	x2, x4
	b.ne	.LBB15_5
// %bb.1:                               // %join.3
	ldr	x8, [sp]
	cmp	x6, x8
	b.ne	.LBB15_6
// %bb.2:                               // %join.3.i
	sub	x8, x6, #121
	cmn	x8, #120
	b.hs	.LBB15_7
// %bb.3:
	mov	w9, #1                          // =0x1
	mov	w8, #4                          // =0x4
.LBB15_4:                               // %join.7
	strb	w9, [x0]
	stur	x8, [x0, #4]
	ret
.LBB15_5:                               // %then.1
	mov	w8, #1                          // =0x1
	mov	w9, #3                          // =0x3
	strb	wzr, [x0, #7]
	strb	w8, [x0]
	strb	w9, [x0, #4]
	sturh	wzr, [x0, #5]
	str	wzr, [x0, #8]
	ret
.LBB15_6:
	mov	w9, #1                          // =0x1
	mov	w8, #3                          // =0x3
	strb	w9, [x0]
	stur	x8, [x0, #4]
	ret
.LBB15_7:                               // %join.6.i
	movi	d0, #0000000000000000
	ldr	d1, [x5]
	//ARITH_FENCE
	//ARITH_FENCE
	fcmp	d0, d1
	cset	w8, hi
	//APP
	//NO_APP
	cbz	w8, .LBB15_12
.LBB15_8:                               // %join.6.i9.i.preheader
	mov	x8, #-4503599627370496          // =0xfff0000000000000
	fmov	d2, x8
	mov	w8, #5                          // =0x5
.LBB15_9:                               // %join.6.i9.i
                                        // =>This Inner Loop Header: Depth=1
	ldr	d1, [x5], #8
	ldr	d4, [x7], #8
	fsub	d3, d1, d1
	fsub	d4, d4, d4
	//ARITH_FENCE
	fcmp	d3, d0
	//ARITH_FENCE
	fccmp	d4, d0, #0, eq
	b.ne	.LBB15_39
// %bb.10:                              // %"curves::curve::bad_knot.exit.i.i.i"
                                        //   in Loop: Header=BB15_9 Depth=1
	fmov	d3, d1
	//ARITH_FENCE
	//ARITH_FENCE
	fcmp	d3, d0
	cset	w9, mi
	fcmp	d2, d3
	//APP
	//NO_APP
	cset	w10, pl
	//APP
	//NO_APP
	orr	w9, w9, w10
	cbnz	w9, .LBB15_39
// %bb.11:                              // %join.10.i.i
                                        //   in Loop: Header=BB15_9 Depth=1
	fmov	d2, d1
	mov	x9, #4294967296                 // =0x100000000
	subs	x6, x6, #1
	add	x8, x8, x9
	b.ne	.LBB15_9
	b	.LBB15_18
.LBB15_12:                              // %join.3.i.i
	ldr	d1, [x7]
	fsub	d1, d1, d1
	//ARITH_FENCE
	fcmp	d1, d0
	b.ne	.LBB15_8
// %bb.13:                              // %join.6.i.i
	add	x8, x5, x6, lsl #3
	ldur	d1, [x8, #-8]
	mov	x8, #9218868437227405312        // =0x7ff0000000000000
	fmov	d2, x8
	//ARITH_FENCE
	//ARITH_FENCE
	fcmp	d1, d2
	cset	w8, mi
	//APP
	//NO_APP
	cbz	w8, .LBB15_8
// %bb.14:                              // %then.7.i.i
	cmp	x6, #2
	b.lo	.LBB15_18
// %bb.15:                              // %join.5.i.i.i.preheader
	mov	x8, xzr
	sub	x9, x6, #1
	add	x10, x7, #8
	add	x11, x5, #8
.LBB15_16:                              // %join.5.i.i.i
                                        // =>This Inner Loop Header: Depth=1
	ldp	d1, d2, [x11, #-8]
	add	x11, x11, #8
	//ARITH_FENCE
	//ARITH_FENCE
	fcmp	d1, d2
	ldr	d1, [x10], #8
	fsub	d1, d1, d1
	cset	w12, pl
	//APP
	//NO_APP
	cmp	w12, #0
	cinc	x8, x8, ne
	//ARITH_FENCE
	fcmp	d1, d0
	cinc	x8, x8, ne
	subs	x9, x9, #1
	b.ne	.LBB15_16
// %bb.17:                              // %"curves::curve::all_in_order.exit.i"
	cbnz	x8, .LBB15_8
.LBB15_18:                              // %arm.5
	cmp	x2, #1200
	b.ls	.LBB15_20
// %bb.19:
	mov	w9, #1                          // =0x1
	mov	w8, #6                          // =0x6
	strb	w9, [x0]
	stur	x8, [x0, #4]
	ret
.LBB15_20:                              // %join.3.i.i14
	ldrb	w9, [sp, #8]
	cbz	x2, .LBB15_28
// %bb.21:                              // %join.6.i.i.i.preheader
	mov	x8, xzr
	mov	x10, xzr
.LBB15_22:                              // %join.6.i.i.i
                                        // =>This Inner Loop Header: Depth=1
	ldr	d1, [x1, x10, lsl #3]
	add	x10, x10, #1
	fsub	d1, d1, d1
	//ARITH_FENCE
	fcmp	d1, d0
	cinc	x8, x8, ne
	cmp	x2, x10
	b.ne	.LBB15_22
// %bb.23:                              // %"curves::each::all_finite.exit.i.i"
	cbz	x8, .LBB15_29
// %bb.24:                              // %arm.3.i.i.i.i.preheader
	mov	w8, #6                          // =0x6
	mov	x10, x2
.LBB15_25:                              // %arm.3.i.i.i.i
                                        // =>This Inner Loop Header: Depth=1
	ldr	d1, [x1], #8
	fsub	d1, d1, d1
	//ARITH_FENCE
	fcmp	d1, d0
	b.ne	.LBB15_39
// %bb.26:                              // %join.9.i.i.i.i
                                        //   in Loop: Header=BB15_25 Depth=1
	mov	x11, #4294967296                // =0x100000000
	subs	x10, x10, #1
	add	x8, x8, x11
	b.ne	.LBB15_25
// %bb.27:                              // %arm.2.i
	cmp	w9, #0
	mov	w8, #8                          // =0x8
	csel	x8, x8, xzr, ne
	tbz	w9, #0, .LBB15_31
	b	.LBB15_39
.LBB15_28:                              // %arm.2.i.thread33
	cmp	w9, #0
	mov	w8, #8                          // =0x8
	csel	x8, x8, xzr, ne
	strb	w9, [x0]
	stur	x8, [x0, #4]
	ret
.LBB15_29:                              // %arm.2.i.thread
	tbz	w9, #0, .LBB15_31
// %bb.30:
	mov	w9, #1                          // =0x1
	mov	w8, #8                          // =0x8
	strb	w9, [x0]
	stur	x8, [x0, #4]
	ret
.LBB15_31:                              // %join.6.i.i8.i.preheader
	mov	x8, xzr
	mov	x9, xzr
.LBB15_32:                              // %join.6.i.i8.i
                                        // =>This Inner Loop Header: Depth=1
	ldr	d1, [x3, x9, lsl #3]
	add	x9, x9, #1
	fsub	d1, d1, d1
	//ARITH_FENCE
	fcmp	d1, d0
	cinc	x8, x8, ne
	cmp	x2, x9
	b.ne	.LBB15_32
// %bb.33:                              // %"curves::each::all_finite.exit.i21.i"
	cbz	x8, .LBB15_37
// %bb.34:                              // %arm.3.i.i.i22.i.preheader
	mov	x10, xzr
.LBB15_35:                              // %arm.3.i.i.i22.i
                                        // =>This Inner Loop Header: Depth=1
	ldr	d1, [x3, x10, lsl #3]
	fsub	d1, d1, d1
	//ARITH_FENCE
	fcmp	d1, d0
	b.ne	.LBB15_38
// %bb.36:                              // %join.9.i.i.i30.i
                                        //   in Loop: Header=BB15_35 Depth=1
	add	x10, x10, #1
	mov	w9, wzr
	mov	x8, xzr
	cmp	x2, x10
	b.ne	.LBB15_35
	b	.LBB15_4
.LBB15_37:
	strb	wzr, [x0]
	stur	x8, [x0, #4]
	ret
.LBB15_38:                              // %arm.7.i42.i
	mov	w8, #-1                         // =0xffffffff
	mov	w9, #8                          // =0x8
	cmp	x10, x8
	csel	x8, x10, x8, lo
	orr	x8, x9, x8, lsl #32
.LBB15_39:                              // %join.7
	mov	w9, #1                          // =0x1
	strb	w9, [x0]
	stur	x8, [x0, #4]
	ret
.Lfunc_end15:
	.size	"spread_analytics::judging::judge_spread", .Lfunc_end15-"spread_analytics::judging::judge_spread"
                                        // -- End function
	.section	".text.spread_analytics::worth::factors_of","ax",@progbits
	.p2align	2                               // -- Begin function spread_analytics::worth::factors_of
	.type	"spread_analytics::worth::factors_of",@function
"spread_analytics::worth::factors_of":  // @"spread_analytics::worth::factors_of"
// %bb.0:                               // %start
	stp	x29, x30, [sp, #-80]!           // 16-byte Folded Spill
	stp	x28, x25, [sp, #16]             // 16-byte Folded Spill
	mov	x29, sp
	stp	x24, x23, [sp, #32]             // 16-byte Folded Spill
	stp	x22, x21, [sp, #48]             // 16-byte Folded Spill
	stp	x20, x19, [sp, #64]             // 16-byte Folded Spill
	sub	sp, sp, #1040
	movi	v1.2d, #0000000000000000
	mov	x20, x2
	lsl	x2, x2, #3
	add	x8, sp, #528
	mov	x22, x6
	mov	x23, x5
	sub	x8, x8, x1
	mov	x24, x4
	mov	x25, x3
	mov	x21, x1
	mov	x19, x0
	cmp	x8, x2
	str	xzr, [sp]
                                        // kill: def $d0 killed $d0 def $q0
	stp	q1, q1, [sp, #16]
	stp	q1, q1, [sp, #48]
	stp	q1, q1, [sp, #80]
	stp	q1, q1, [sp, #112]
	stp	q1, q1, [sp, #144]
	stp	q1, q1, [sp, #176]
	stp	q1, q1, [sp, #208]
	stp	q1, q1, [sp, #240]
	stp	q1, q1, [sp, #272]
	stp	q1, q1, [sp, #304]
	stp	q1, q1, [sp, #336]
	stp	q1, q1, [sp, #368]
	stp	q1, q1, [sp, #400]
	stp	q1, q1, [sp, #432]
	stp	q1, q1, [sp, #464]
	stp	q1, q1, [sp, #496]
	stp	q1, q1, [sp, #528]
	stp	q1, q1, [sp, #560]
	stp	q1, q1, [sp, #592]
	stp	q1, q1, [sp, #624]
	stp	q1, q1, [sp, #656]
	stp	q1, q1, [sp, #688]
	stp	q1, q1, [sp, #720]
	stp	q1, q1, [sp, #752]
	stp	q1, q1, [sp, #784]
	stp	q1, q1, [sp, #816]
	stp	q1, q1, [sp, #848]
	stp	q1, q1, [sp, #880]
	stp	q1, q1, [sp, #912]
	stp	q1, q1, [sp, #944]
	stp	q1, q1, [sp, #976]
	stp	q1, q1, [sp, #1008]
	b.hs	.LBB16_3
// %bb.1:                               // %loop.4.preheader.i.i.i.i.i.i.i
	cbz	x20, .LBB16_11
// %bb.2:                               // %"spread_analytics::worth::keep_rates.exit.thread4"
	add	x0, sp, #528
	mov	x1, x21
	str	q0, [sp]                        // 16-byte Spill
	bl	memcpy
	add	x6, sp, #528
	mov	w0, #2                          // =0x2
	mov	w1, wzr
	mov	x2, x25
	mov	x3, x24
	mov	x4, x23
	mov	x5, x22
	mov	x7, x20
	bl	"curves::each::answer_onward"
	ldr	q5, [sp]                        // 16-byte Reload
	b	.LBB16_4
.LBB16_3:                               // %"spread_analytics::worth::keep_rates.exit"
	add	x0, sp, #528
	mov	x1, x21
	str	q0, [sp]                        // 16-byte Spill
	bl	memcpy
	add	x6, sp, #528
	mov	w0, #2                          // =0x2
	mov	w1, wzr
	mov	x2, x25
	mov	x3, x24
	mov	x4, x23
	mov	x5, x22
	mov	x7, x20
	bl	"curves::each::answer_onward"
	ldr	q5, [sp]                        // 16-byte Reload
	cbz	x20, .LBB16_12
.LBB16_4:                               // %join.6.i.i.preheader
	cmp	x20, #4
	b.hs	.LBB16_6
// %bb.5:
	mov	x8, xzr
	b	.LBB16_9
.LBB16_6:                               // %vector.ph
	dup	v0.2d, v5.d[0]
	add	x9, sp, #16
	add	x10, sp, #528
	and	x8, x20, #0xfffffffffffffffc
	add	x9, x9, #16
	add	x10, x10, #16
	add	x11, x21, #16
	and	x12, x20, #0xfffffffffffffffc
.LBB16_7:                               // %vector.body
                                        // =>This Inner Loop Header: Depth=1
	ldp	q1, q2, [x10, #-16]
	subs	x12, x12, #4
	ldp	q3, q4, [x11, #-16]
	add	x10, x10, #32
	add	x11, x11, #32
	fadd	v1.2d, v0.2d, v1.2d
	fadd	v2.2d, v0.2d, v2.2d
	fneg	v1.2d, v1.2d
	fneg	v2.2d, v2.2d
	fmul	v1.2d, v3.2d, v1.2d
	fmul	v2.2d, v4.2d, v2.2d
	stp	q1, q2, [x9, #-16]
	add	x9, x9, #32
	b.ne	.LBB16_7
// %bb.8:                               // %middle.block
	cmp	x20, x8
	b.eq	.LBB16_12
.LBB16_9:                               // %join.6.i.i.preheader1
	lsl	x11, x8, #3
	add	x9, sp, #16
	add	x10, sp, #528
	sub	x8, x20, x8
	add	x9, x9, x11
	add	x10, x10, x11
	add	x11, x21, x11
.LBB16_10:                              // %join.6.i.i
                                        // =>This Inner Loop Header: Depth=1
	ldr	d0, [x10], #8
	subs	x8, x8, #1
	ldr	d1, [x11], #8
	fadd	d0, d5, d0
	fnmul	d0, d0, d1
	str	d0, [x9], #8
	b.ne	.LBB16_10
	b	.LBB16_12
.LBB16_11:                              // %"spread_analytics::worth::keep_rates.exit.thread"
	add	x6, sp, #528
	mov	w0, #2                          // =0x2
	mov	w1, wzr
	mov	x2, x25
	mov	x3, x24
	mov	x4, x23
	mov	x5, x22
	mov	x7, xzr
	bl	"curves::each::answer_onward"
.LBB16_12:                              // %"spread_analytics::worth::put_factors.exit"
	add	x0, sp, #16
	mov	x1, x20
	bl	"elementary::exp::exp_each"
	add	x1, sp, #16
	mov	x0, x19
	mov	w2, #512                        // =0x200
	bl	memcpy
	add	sp, sp, #1040
	ldp	x20, x19, [sp, #64]             // 16-byte Folded Reload
	ldp	x22, x21, [sp, #48]             // 16-byte Folded Reload
	ldp	x24, x23, [sp, #32]             // 16-byte Folded Reload
	ldp	x28, x25, [sp, #16]             // 16-byte Folded Reload
	ldp	x29, x30, [sp], #80             // 16-byte Folded Reload
	ret
.Lfunc_end16:
	.size	"spread_analytics::worth::factors_of", .Lfunc_end16-"spread_analytics::worth::factors_of"
                                        // -- End function
	.section	".text.senyolanda::dated_swaps::dated_swap_in","ax",@progbits
	.p2align	2                               // -- Begin function senyolanda::dated_swaps::dated_swap_in
	.type	"senyolanda::dated_swaps::dated_swap_in",@function
"senyolanda::dated_swaps::dated_swap_in": // @"senyolanda::dated_swaps::dated_swap_in"
// %bb.0:                               // %start
	sub	sp, sp, #112
	cmp	x2, #38
	stp	x29, x30, [sp, #80]             // 16-byte Folded Spill
	add	x29, sp, #80
	str	x19, [sp, #96]                  // 8-byte Spill
	str	wzr, [sp, #24]
	str	xzr, [sp, #16]
	str	xzr, [sp]
	str	wzr, [sp, #8]
	b.ne	.LBB17_4
// %bb.1:                               // %"records::record::bad_record.exit.i.i.i"
	ldrb	w8, [x1]
	cmp	w8, #5
	b.ne	.LBB17_4
// %bb.2:                               // %arm.1
	ldur	x8, [x1, #1]
	mov	x11, #9221120237041090560       // =0x7ff8000000000000
	mov	x10, #9218868437227405312       // =0x7ff0000000000000
	fmov	d1, x11
	ldrb	w11, [x1, #37]
	fmov	d0, x8
	and	x9, x8, #0x7fffffffffffffff
	ldur	x8, [x1, #9]
	cmp	x9, x10
	and	x9, x8, #0x7fffffffffffffff
	fmov	d2, x8
	fcsel	d0, d1, d0, hi
	cmp	x9, x10
	ldur	w10, [x1, #25]
	ldur	w9, [x1, #29]
	fmov	x8, d0
	stur	d0, [sp, #4]
	fcsel	d0, d1, d2, hi
	ldr	x12, [sp]
	cmp	w11, #3
	lsr	x13, x8, #32
	ldur	w8, [x1, #33]
	extr	x12, x13, x12, #32
	b.hs	.LBB17_5
// %bb.3:                               // %arm.5
	mov	w13, #1                         // =0x1
	str	x12, [x0, #16]
	stur	x13, [sp, #20]
	ldr	x12, [sp, #16]
	str	wzr, [x0]
	str	d0, [x0, #24]
	stur	x12, [x0, #4]
	stp	w10, w9, [x0, #32]
	str	w8, [x0, #40]
	strb	w11, [x0, #44]
	sturh	wzr, [x0, #45]
	strb	wzr, [x0, #47]
	ldp	x29, x30, [sp, #80]             // 16-byte Folded Reload
	ldr	x19, [sp, #96]                  // 8-byte Reload
	add	sp, sp, #112
	ret
.LBB17_4:                               // %arm.2
	mov	w8, #10                         // =0xa
	stur	xzr, [sp, #4]
	movi	v0.2d, #0000000000000000
	strb	w8, [sp]
	ldr	x8, [sp]
	sturh	wzr, [sp, #17]
	strb	wzr, [sp, #19]
	lsr	x9, x8, #32
	strb	w8, [sp, #16]
	mov	w8, #1                          // =0x1
	str	w8, [x0]
	str	w9, [sp, #20]
	ldr	x9, [sp, #16]
	stp	q0, q0, [x0, #16]
	stur	x9, [x0, #4]
	ldp	x29, x30, [sp, #80]             // 16-byte Folded Reload
	ldr	x19, [sp, #96]                  // 8-byte Reload
	add	sp, sp, #112
	ret
.LBB17_5:                               // %arm.6
	stur	w8, [x29, #-8]
	mov	w8, #2                          // =0x2
	mov	x19, x0
	add	x0, sp, #32
	sub	x1, x29, #32
	mov	x2, x3
	mov	x3, x4
	mov	x4, x5
	mov	x5, x6
	str	wzr, [sp, #40]
	str	xzr, [sp, #32]
	stur	x12, [x29, #-32]
	stur	d0, [x29, #-24]
	stp	w10, w9, [x29, #-16]
	sturb	w8, [x29, #-4]
	sturh	wzr, [x29, #-3]
	sturb	wzr, [x29, #-1]
	bl	"swaps::judging::judge_but_dates"
	ldrb	w8, [sp, #32]
	ldur	x9, [sp, #36]
	movi	v0.2d, #0000000000000000
	sturh	wzr, [sp, #17]
	cmp	w8, #0
	mov	w8, #10                         // =0xa
	strb	wzr, [sp, #19]
	csel	x8, x8, x9, eq
	lsr	x9, x8, #32
	strb	w8, [sp, #16]
	mov	w8, #1                          // =0x1
	str	w8, [x19]
	str	w9, [sp, #20]
	ldr	x9, [sp, #16]
	stp	q0, q0, [x19, #16]
	stur	x9, [x19, #4]
	ldp	x29, x30, [sp, #80]             // 16-byte Folded Reload
	ldr	x19, [sp, #96]                  // 8-byte Reload
	add	sp, sp, #112
	ret
.Lfunc_end17:
	.size	"senyolanda::dated_swaps::dated_swap_in", .Lfunc_end17-"senyolanda::dated_swaps::dated_swap_in"
                                        // -- End function
	.section	".text.swaps::judging::judge_but_dates","ax",@progbits
	.p2align	2                               // -- Begin function swaps::judging::judge_but_dates
	.type	"swaps::judging::judge_but_dates",@function
"swaps::judging::judge_but_dates":      // @"swaps::judging::judge_but_dates"
// %bb.0:                               // %start
	ldr	w13, [x1, #16]
	ldp	d1, d0, [x1]
	sub	w8, w13, #366
	cmn	w8, #365
	b.hs	.LBB18_2
// %bb.1:
	mov	w9, wzr
	mov	w8, #1                          // =0x1
	b	.LBB18_5
.LBB18_2:                               // %"swaps::judging::bad_dated_frequency.exit.i"
	mov	w8, #12                         // =0xc
	udiv	w9, w8, w13
	msub	w8, w9, w13, w8
	cbz	w8, .LBB18_12
.LBB18_3:
	mov	w9, wzr
.LBB18_4:                               // %ok.5.i
	cmp	w8, #0
	cset	w8, ne
.LBB18_5:                               // %"swaps::judging::bad_dated_frequency.exit"
	movi	d2, #0000000000000000
	fsub	d3, d1, d1
	//ARITH_FENCE
	//ARITH_FENCE
	fcmp	d1, d2
	//ARITH_FENCE
	cset	w10, mi
	//APP
	//NO_APP
	cmp	w10, #0
	fccmp	d3, d2, #0, eq
	b.eq	.LBB18_8
// %bb.6:
	mov	x10, xzr
.LBB18_7:                               // %"swaps::judging::judge_priced.exit"
	mov	w8, #1                          // =0x1
	strb	w8, [x0]
	stur	x10, [x0, #4]
	ret
.LBB18_8:                               // %join.3.i2
	cmp	x3, x5
	b.ne	.LBB18_11
// %bb.9:                               // %join.3.i.i
	sub	x10, x3, #121
	cmn	x10, #120
	b.hs	.LBB18_26
// %bb.10:
	mov	w8, #1                          // =0x1
	mov	w10, #4                         // =0x4
	strb	w8, [x0]
	stur	x10, [x0, #4]
	ret
.LBB18_11:
	mov	w8, #1                          // =0x1
	mov	w10, #3                         // =0x3
	strb	w8, [x0]
	stur	x10, [x0, #4]
	ret
.LBB18_12:                              // %then.1.i
	ldr	w14, [x1, #20]
	ubfx	w15, w14, #16, #8
	cmp	w15, #11
	b.hi	.LBB18_43
// %bb.13:                              // %then.1.i
	mov	w9, #1                          // =0x1
	mov	w10, #2640                      // =0xa50
	lsl	w9, w9, w15
	tst	w9, w10
	b.eq	.LBB18_40
// %bb.14:
	mov	w11, #30                        // =0x1e
.LBB18_15:                              // %"dates::calendar::days_in.exit.i.i.i"
	sub	w9, w14, #1900
	and	w9, w9, #0xffff
	cmp	w9, #299
	mov	w9, wzr
	b.hi	.LBB18_4
// %bb.16:                              // %"dates::calendar::days_in.exit.i.i.i"
	sub	w10, w15, #1
	cmp	w10, #11
	b.hi	.LBB18_4
// %bb.17:                              // %"dates::calendar::days_in.exit.i.i.i"
	lsr	w10, w14, #24
	sub	w12, w10, #1
	cmp	w12, w11
	b.hs	.LBB18_4
// %bb.18:                              // %else.2.i.i
	ldr	w12, [x1, #24]
	ubfx	w11, w12, #16, #8
	cmp	w11, #11
	b.hi	.LBB18_50
// %bb.19:                              // %else.2.i.i
	mov	w9, #1                          // =0x1
	mov	w16, #2640                      // =0xa50
	lsl	w9, w9, w11
	tst	w9, w16
	b.eq	.LBB18_47
// %bb.20:
	mov	w17, #30                        // =0x1e
.LBB18_21:                              // %"dates::calendar::days_in.exit.i9.i.i"
	sub	w9, w12, #1900
	and	w9, w9, #0xffff
	cmp	w9, #299
	mov	w9, wzr
	b.hi	.LBB18_4
// %bb.22:                              // %"dates::calendar::days_in.exit.i9.i.i"
	sub	w16, w11, #1
	cmp	w16, #11
	b.hi	.LBB18_4
// %bb.23:                              // %"dates::calendar::days_in.exit.i9.i.i"
	lsr	w16, w12, #24
	sub	w18, w16, #1
	cmp	w18, w17
	b.hs	.LBB18_4
// %bb.24:                              // %else.5.i.i
	and	w9, w14, #0xffff
	cmp	w9, w12, uxth
	b.ne	.LBB18_44
// %bb.25:                              // %arm.7.i.i.i.i.i.i
	cmp	w10, w16
	cset	w9, lo
	cmp	w15, w11
	cset	w15, lo
	csel	w9, w9, w15, eq
	tbz	w9, #0, .LBB18_3
	b	.LBB18_45
.LBB18_26:                              // %join.6.i.i
	ldr	d1, [x2]
	//ARITH_FENCE
	fcmp	d2, d1
	cset	w10, hi
	//APP
	//NO_APP
	cbz	w10, .LBB18_31
.LBB18_27:                              // %join.6.i9.i.i.preheader
	mov	x10, #-4503599627370496         // =0xfff0000000000000
	fmov	d3, x10
	mov	w10, #5                         // =0x5
.LBB18_28:                              // %join.6.i9.i.i
                                        // =>This Inner Loop Header: Depth=1
	ldr	d1, [x2], #8
	ldr	d5, [x4], #8
	fsub	d4, d1, d1
	fsub	d5, d5, d5
	//ARITH_FENCE
	fcmp	d4, d2
	//ARITH_FENCE
	fccmp	d5, d2, #0, eq
	b.ne	.LBB18_7
// %bb.29:                              // %"curves::curve::bad_knot.exit.i.i.i.i"
                                        //   in Loop: Header=BB18_28 Depth=1
	fmov	d4, d1
	//ARITH_FENCE
	//ARITH_FENCE
	fcmp	d4, d2
	cset	w11, mi
	fcmp	d3, d4
	//APP
	//NO_APP
	cset	w12, pl
	//APP
	//NO_APP
	orr	w11, w11, w12
	cbnz	w11, .LBB18_7
// %bb.30:                              // %join.10.i.i.i
                                        //   in Loop: Header=BB18_28 Depth=1
	fmov	d3, d1
	mov	x11, #4294967296                // =0x100000000
	subs	x3, x3, #1
	add	x10, x10, x11
	b.ne	.LBB18_28
	b	.LBB18_37
.LBB18_31:                              // %join.3.i.i.i5
	ldr	d1, [x4]
	fsub	d1, d1, d1
	//ARITH_FENCE
	fcmp	d1, d2
	b.ne	.LBB18_27
// %bb.32:                              // %join.6.i.i.i
	add	x10, x2, x3, lsl #3
	ldur	d1, [x10, #-8]
	mov	x10, #9218868437227405312       // =0x7ff0000000000000
	fmov	d3, x10
	//ARITH_FENCE
	//ARITH_FENCE
	fcmp	d1, d3
	cset	w10, mi
	//APP
	//NO_APP
	cbz	w10, .LBB18_27
// %bb.33:                              // %then.7.i.i.i
	cmp	x3, #2
	b.lo	.LBB18_37
// %bb.34:                              // %join.5.i.i.i.i.preheader
	mov	x10, xzr
	sub	x11, x3, #1
	add	x12, x4, #8
	add	x13, x2, #8
.LBB18_35:                              // %join.5.i.i.i.i
                                        // =>This Inner Loop Header: Depth=1
	ldp	d1, d3, [x13, #-8]
	add	x13, x13, #8
	//ARITH_FENCE
	//ARITH_FENCE
	fcmp	d1, d3
	ldr	d1, [x12], #8
	fsub	d1, d1, d1
	cset	w14, pl
	//APP
	//NO_APP
	cmp	w14, #0
	cinc	x10, x10, ne
	//ARITH_FENCE
	fcmp	d1, d2
	cinc	x10, x10, ne
	subs	x11, x11, #1
	b.ne	.LBB18_35
// %bb.36:                              // %"curves::curve::all_in_order.exit.i.i"
	cbnz	x10, .LBB18_27
.LBB18_37:                              // %arm.5.i
	orr	w8, w9, w8
	cmp	w9, #0
	mov	w9, #6                          // =0x6
	cinc	x10, x9, eq
	tbnz	w8, #0, .LBB18_7
// %bb.38:                              // %join.6.i13.i
	fsub	d0, d0, d0
	//ARITH_FENCE
	fcmp	d0, d2
	b.eq	.LBB18_57
// %bb.39:
	mov	w8, #1                          // =0x1
	mov	w10, #8                         // =0x8
	strb	w8, [x0]
	stur	x10, [x0, #4]
	ret
.LBB18_40:                              // %then.1.i
	cmp	w15, #2
	b.ne	.LBB18_43
// %bb.41:                              // %arm.1.i.i.i.i
	tst	w14, #0x3
	mov	w11, #28                        // =0x1c
	b.ne	.LBB18_15
// %bb.42:                              // %then.1.i.i.i.i.i
	mov	w9, #23593                      // =0x5c29
	mul	w9, w14, w9
	lsl	w10, w9, #14
	lsl	w12, w9, #12
	bfxil	w10, w9, #2, #14
	bfxil	w12, w9, #4, #12
	and	w9, w10, #0xffff
	mov	w10, #164                       // =0xa4
	cmp	w9, #655
	and	w9, w12, #0xffff
	ccmp	w9, w10, #0, ls
	cset	w9, lo
	tst	w9, #0x1
	cinc	w11, w11, ne
	b	.LBB18_15
.LBB18_43:                              // %default.3.i.i.i.i
	mov	w11, #31                        // =0x1f
	b	.LBB18_15
.LBB18_44:                              // %join.3.i
	b.hs	.LBB18_3
.LBB18_45:                              // %"swaps::dated_periods::span_of.exit.i.i"
	cmp	w13, #12
	b.ls	.LBB18_51
// %bb.46:
	mov	w9, wzr
	b	.LBB18_60
.LBB18_47:                              // %else.2.i.i
	cmp	w11, #2
	b.ne	.LBB18_50
// %bb.48:                              // %arm.1.i.i16.i.i
	tst	w12, #0x3
	mov	w17, #28                        // =0x1c
	b.ne	.LBB18_21
// %bb.49:                              // %then.1.i.i.i19.i.i
	mov	w9, #23593                      // =0x5c29
	mul	w9, w12, w9
	lsl	w16, w9, #14
	lsl	w18, w9, #12
	bfxil	w16, w9, #2, #14
	bfxil	w18, w9, #4, #12
	and	w9, w16, #0xffff
	mov	w16, #164                       // =0xa4
	cmp	w9, #655
	and	w9, w18, #0xffff
	ccmp	w9, w16, #0, ls
	cset	w9, lo
	tst	w9, #0x1
	cinc	w17, w17, ne
	b	.LBB18_21
.LBB18_50:                              // %default.3.i.i27.i.i
	mov	w17, #31                        // =0x1f
	b	.LBB18_21
.LBB18_51:                              // %join.3.i.i.i
	mov	w15, #255                       // =0xff
	and	w9, w13, #0xff
	mov	w13, #12                        // =0xc
	ands	w18, w15, w12, lsr #16
	udiv	w17, w13, w9
	and	w9, w14, #0xffff
	cset	w6, ne
	ands	w14, w15, w14, lsr #16
	and	w1, w12, #0xffff
	sub	w15, w18, w6
	cset	w18, ne
	sub	w14, w14, w18
	madd	w15, w1, w13, w15
	madd	w14, w9, w13, w14
	subs	w9, w15, w14
	csel	w9, wzr, w9, lo
	udiv	w9, w9, w17
	madd	w15, w9, w17, w14
	lsr	w14, w15, #5
	cmp	w14, #824
	b.hi	.LBB18_60
// %bb.52:                              // %join.8.i.i.i
	and	w14, w15, #0xffff
	mov	w17, #43691                     // =0xaaab
	mul	w14, w14, w17
	lsr	w14, w14, #19
	msub	w13, w14, w13, w15
	and	w15, w13, #0xffff
	cmp	w15, #10
	b.hi	.LBB18_64
// %bb.53:                              // %join.8.i.i.i
	mov	w17, #1                         // =0x1
	mov	w18, #1320                      // =0x528
	lsl	w17, w17, w15
	tst	w17, w18
	b.eq	.LBB18_61
// %bb.54:
	mov	w15, #30                        // =0x1e
.LBB18_55:                              // %"dates::months::day_in_month.exit.i.i.i"
	cmp	w14, w12, uxth
	b.ne	.LBB18_58
// %bb.56:                              // %arm.7.i.i.i.i.i.i.i
	cmp	w15, w10
	and	w12, w13, #0xff
	csel	w10, w15, w10, lo
	add	w12, w12, #1
	cmp	w10, w16
	cset	w10, lo
	cmp	w12, w11
	cset	w11, lo
	csel	w10, w10, w11, eq
	b	.LBB18_59
.LBB18_57:                              // %join.9.i.i
	strb	wzr, [x0]
	stur	xzr, [x0, #4]
	ret
.LBB18_58:                              // %"core::cmp::Ordering::or_partial_cmp::<#e177746dffcc1c62>.exit.i.i.i.i.i.i"
	cset	w10, lo
.LBB18_59:                              // %"dates::calendar::is_after.exit.i.i.i"
	add	w9, w9, w10
.LBB18_60:                              // %"swaps::dated_periods::period_count.exit.i"
	cmp	w9, #1200
	cset	w9, hi
	b	.LBB18_4
.LBB18_61:                              // %join.8.i.i.i
	cmp	w15, #1
	b.ne	.LBB18_64
// %bb.62:                              // %arm.1.i.i.i.i.i
	tst	w14, #0x3
	mov	w15, #28                        // =0x1c
	b.ne	.LBB18_55
// %bb.63:                              // %then.1.i.i.i.i.i.i
	mov	w17, #23593                     // =0x5c29
	mul	w17, w14, w17
	lsl	w18, w17, #12
	lsl	w1, w17, #14
	bfxil	w18, w17, #4, #12
	bfxil	w1, w17, #2, #14
	and	w17, w18, #0xffff
	and	w18, w1, #0xffff
	cmp	w17, #164
	mov	w17, #655                       // =0x28f
	ccmp	w18, w17, #2, hs
	cinc	w15, w15, hi
	b	.LBB18_55
.LBB18_64:                              // %default.3.i.i.i.i.i
	mov	w15, #31                        // =0x1f
	b	.LBB18_55
.Lfunc_end18:
	.size	"swaps::judging::judge_but_dates", .Lfunc_end18-"swaps::judging::judge_but_dates"
                                        // -- End function
	.section	".text.swaps::legs::fixed_leg_pv","ax",@progbits
	.p2align	2                               // -- Begin function swaps::legs::fixed_leg_pv
	.type	"swaps::legs::fixed_leg_pv",@function
"swaps::legs::fixed_leg_pv":            // @"swaps::legs::fixed_leg_pv"
// %bb.0:                               // %start
	sub	sp, sp, #304
	stp	x26, x25, [sp, #240]            // 16-byte Folded Spill
	ldrb	w26, [x1]
	ldur	q0, [x1, #8]
	ldur	q1, [x1, #24]
	stp	x24, x23, [sp, #256]            // 16-byte Folded Spill
	mov	x24, x1
	stp	x20, x19, [sp, #288]            // 16-byte Folded Spill
	mov	x19, x0
	add	x0, sp, #8
	add	x1, sp, #24
	stp	d9, d8, [sp, #192]              // 16-byte Folded Spill
	mov	x20, x5
	stp	x29, x30, [sp, #208]            // 16-byte Folded Spill
	add	x29, sp, #208
	mov	x23, x2
	str	x28, [sp, #224]                 // 8-byte Spill
	stp	x22, x21, [sp, #272]            // 16-byte Folded Spill
	mov	x21, x4
	mov	x22, x3
	str	x26, [sp, #24]
	stp	q0, q1, [sp, #32]
	str	xzr, [sp, #8]
	str	wzr, [sp, #16]
	bl	"swaps::judging::judge_any"
	ldrb	w25, [sp, #8]
	cmp	w25, #1
	b.ne	.LBB19_2
// %bb.1:                               // %arm.1
	ldr	w8, [sp, #12]
	ldr	s0, [sp, #16]
	b	.LBB19_5
.LBB19_2:                               // %arm.2
	movi	v1.2d, #0000000000000000
	ldur	q0, [x24, #8]
	ldur	q2, [x24, #24]
	sub	x8, x29, #56
	add	x0, sp, #64
	sub	x1, x29, #56
	mov	x2, x23
	mov	x3, x22
	mov	x4, x21
	mov	x5, x20
	mov	x6, x21
	mov	x7, x20
	stur	x26, [x29, #-56]
	stur	q0, [x8, #8]
	stur	q2, [x8, #24]
	stp	q1, q1, [sp, #64]
	stp	q1, q1, [sp, #96]
	str	q1, [sp, #128]
	strb	wzr, [sp]
	bl	"swaps::legs::payment_sums"
	ldr	d8, [sp, #64]
	ldur	d9, [x29, #-48]
	ldur	d0, [x29, #-32]
	cbz	w26, .LBB19_4
// %bb.3:                               // %arm.2.i.i.i
	fmov	x8, d0
	ldur	w1, [x29, #-24]
	lsr	x0, x8, #32
                                        // kill: def $w0 killed $w0 killed $x0
	bl	"dates::counts::actual_days"
	ucvtf	d0, w0
	mov	x8, #228698418577408            // =0xd00000000000
	movk	x8, #16502, lsl #48
	fmov	d1, x8
	//ARITH_FENCE
	fdiv	d0, d0, d1
.LBB19_4:                               // %"swaps::legs::legs_of.exit"
	mov	x0, x23
	mov	x1, x22
	mov	x2, x21
	mov	x3, x20
	bl	"swaps::discount::discount_of"
	fmul	d0, d9, d0
	mov	w8, wzr
	fadd	d0, d8, d0
.LBB19_5:                               // %join.4
	stp	w25, w8, [x19]
	ldp	x22, x21, [sp, #272]            // 16-byte Folded Reload
	str	d0, [x19, #8]
	ldr	x28, [sp, #224]                 // 8-byte Reload
	ldp	x20, x19, [sp, #288]            // 16-byte Folded Reload
	ldp	x24, x23, [sp, #256]            // 16-byte Folded Reload
	ldp	x26, x25, [sp, #240]            // 16-byte Folded Reload
	ldp	x29, x30, [sp, #208]            // 16-byte Folded Reload
	ldp	d9, d8, [sp, #192]              // 16-byte Folded Reload
	add	sp, sp, #304
	ret
.Lfunc_end19:
	.size	"swaps::legs::fixed_leg_pv", .Lfunc_end19-"swaps::legs::fixed_leg_pv"
                                        // -- End function
	.section	".text.swaps::judging::judge_any","ax",@progbits
	.p2align	2                               // -- Begin function swaps::judging::judge_any
	.type	"swaps::judging::judge_any",@function
"swaps::judging::judge_any":            // @"swaps::judging::judge_any"
// %bb.0:                               // %start
	sub	sp, sp, #128
	ldrb	w8, [x1], #8
	str	x19, [sp, #112]                 // 8-byte Spill
	mov	x19, x0
	stp	x29, x30, [sp, #96]             // 16-byte Folded Spill
	add	x29, sp, #96
	str	xzr, [sp]
	str	wzr, [sp, #8]
	cbz	w8, .LBB20_4
// %bb.1:                               // %arm.2
	ldp	q0, q1, [x1]
	add	x0, sp, #48
	sub	x1, x29, #32
	str	xzr, [sp, #48]
	str	wzr, [sp, #56]
	stp	q0, q1, [x29, #-32]
	bl	"swaps::judging::judge_but_dates"
	ldrb	w8, [sp, #48]
	cmp	w8, #1
	b.ne	.LBB20_5
// %bb.2:                               // %arm.1.i
	ldur	x13, [sp, #52]
	mov	w11, #1                         // =0x1
.LBB20_3:                               // %join.4
	ldp	x29, x30, [sp, #96]             // 16-byte Folded Reload
	strb	w11, [x19]
	stur	x13, [x19, #4]
	ldr	x19, [sp, #112]                 // 8-byte Reload
	add	sp, sp, #128
	ret
.LBB20_4:                               // %arm.1
	ldp	q0, q1, [x1]
	mov	x0, sp
	add	x1, sp, #16
	stp	q0, q1, [sp, #16]
	bl	"swaps::judging::judge_swap"
	ldrb	w11, [sp]
	ldur	x13, [sp, #4]
	ldp	x29, x30, [sp, #96]             // 16-byte Folded Reload
	strb	w11, [x19]
	stur	x13, [x19, #4]
	ldr	x19, [sp, #112]                 // 8-byte Reload
	add	sp, sp, #128
	ret
.LBB20_5:                               // %arm.2.i
	ldur	w10, [x29, #-12]
	ubfx	w8, w10, #16, #8
	and	w9, w10, #0xffff
	cmp	w8, #11
	b.hi	.LBB20_23
// %bb.6:                               // %arm.2.i
	mov	w11, #1                         // =0x1
	mov	w12, #2640                      // =0xa50
	lsl	w11, w11, w8
	tst	w11, w12
	b.eq	.LBB20_20
// %bb.7:
	mov	w12, #30                        // =0x1e
.LBB20_8:                               // %"dates::calendar::days_in.exit.i.i.i.i"
	sub	w11, w9, #1900
	mov	w13, #14                        // =0xe
	cmp	w11, #299
	mov	w11, #1                         // =0x1
	b.hi	.LBB20_3
// %bb.9:                               // %"dates::calendar::days_in.exit.i.i.i.i"
	sub	w14, w8, #1
	cmp	w14, #11
	b.hi	.LBB20_3
// %bb.10:                              // %"dates::calendar::days_in.exit.i.i.i.i"
	lsr	w10, w10, #24
	sub	w14, w10, #1
	cmp	w14, w12
	b.hs	.LBB20_3
// %bb.11:                              // %else.2.i.i.i
	ldur	w15, [x29, #-8]
	ubfx	w12, w15, #16, #8
	and	w14, w15, #0xffff
	cmp	w12, #11
	b.hi	.LBB20_29
// %bb.12:                              // %else.2.i.i.i
	lsl	w11, w11, w12
	mov	w13, #2640                      // =0xa50
	tst	w11, w13
	b.eq	.LBB20_26
// %bb.13:
	mov	w16, #30                        // =0x1e
.LBB20_14:                              // %"dates::calendar::days_in.exit.i9.i.i.i"
	sub	w11, w14, #1900
	mov	w13, #14                        // =0xe
	cmp	w11, #299
	mov	w11, #1                         // =0x1
	b.hi	.LBB20_3
// %bb.15:                              // %"dates::calendar::days_in.exit.i9.i.i.i"
	sub	w17, w12, #1
	cmp	w17, #11
	b.hi	.LBB20_3
// %bb.16:                              // %"dates::calendar::days_in.exit.i9.i.i.i"
	lsr	w15, w15, #24
	sub	w17, w15, #1
	cmp	w17, w16
	b.hs	.LBB20_3
// %bb.17:                              // %else.5.i.i.i
	cmp	w9, w14
	b.ne	.LBB20_24
// %bb.18:                              // %arm.7.i.i.i.i.i.i.i
	cmp	w10, w15
	cset	w9, lo
	cmp	w8, w12
	cset	w8, lo
	csel	w8, w9, w8, eq
	tbnz	w8, #0, .LBB20_25
.LBB20_19:
	mov	w13, #14                        // =0xe
	ldp	x29, x30, [sp, #96]             // 16-byte Folded Reload
	strb	w11, [x19]
	stur	x13, [x19, #4]
	ldr	x19, [sp, #112]                 // 8-byte Reload
	add	sp, sp, #128
	ret
.LBB20_20:                              // %arm.2.i
	cmp	w8, #2
	b.ne	.LBB20_23
// %bb.21:                              // %arm.1.i.i.i.i.i
	tst	w10, #0x3
	mov	w12, #28                        // =0x1c
	b.ne	.LBB20_8
// %bb.22:                              // %then.1.i.i.i.i.i.i
	mov	w11, #23593                     // =0x5c29
	mov	w14, #23592                     // =0x5c28
	movk	w11, #49807, lsl #16
	movk	w14, #655, lsl #16
	mul	w11, w9, w11
	ror	w13, w11, #2
	ror	w11, w11, #4
	cmp	w13, w14
	mov	w13, #55051                     // =0xd70b
	movk	w13, #163, lsl #16
	ccmp	w11, w13, #0, ls
	cset	w11, lo
	tst	w11, #0x1
	cinc	w12, w12, ne
	b	.LBB20_8
.LBB20_23:                              // %default.3.i.i.i.i.i
	mov	w12, #31                        // =0x1f
	b	.LBB20_8
.LBB20_24:                              // %"dates::counts::bad_dates.exit.i.i"
	cmp	w9, w14
	b.hs	.LBB20_19
.LBB20_25:                              // %join.3.i.i
	ldp	x29, x30, [sp, #96]             // 16-byte Folded Reload
	strb	wzr, [x19]
	stur	xzr, [x19, #4]
	ldr	x19, [sp, #112]                 // 8-byte Reload
	add	sp, sp, #128
	ret
.LBB20_26:                              // %else.2.i.i.i
	cmp	w12, #2
	b.ne	.LBB20_29
// %bb.27:                              // %arm.1.i.i16.i.i.i
	tst	w15, #0x3
	mov	w16, #28                        // =0x1c
	b.ne	.LBB20_14
// %bb.28:                              // %then.1.i.i.i19.i.i.i
	mov	w11, #23593                     // =0x5c29
	mov	w17, #23592                     // =0x5c28
	movk	w11, #49807, lsl #16
	movk	w17, #655, lsl #16
	mul	w11, w14, w11
	ror	w13, w11, #2
	ror	w11, w11, #4
	cmp	w13, w17
	mov	w13, #55051                     // =0xd70b
	movk	w13, #163, lsl #16
	ccmp	w11, w13, #0, ls
	cset	w11, lo
	tst	w11, #0x1
	cinc	w16, w16, ne
	b	.LBB20_14
.LBB20_29:                              // %default.3.i.i27.i.i.i
	mov	w16, #31                        // =0x1f
	b	.LBB20_14
.Lfunc_end20:
	.size	"swaps::judging::judge_any", .Lfunc_end20-"swaps::judging::judge_any"
                                        // -- End function
	.section	".text.swaps::judging::judge_swap","ax",@progbits
	.p2align	2                               // -- Begin function swaps::judging::judge_swap
	.type	"swaps::judging::judge_swap",@function
"swaps::judging::judge_swap":           // @"swaps::judging::judge_swap"
// %bb.0:                               // %start
	ldr	d2, [x1, #16]
	movi	d0, #0000000000000000
	ldr	w8, [x1, #24]
	fsub	d1, d2, d2
	//ARITH_FENCE
	//ARITH_FENCE
	fcmp	d1, d0
	ldr	d1, [x1]
	b.ne	.LBB21_2
// %bb.1:                               // %else.2.i
	ucvtf	d3, w8
	mov	x9, #281474974613504            // =0xffffffe00000
	movk	x9, #16879, lsl #48
	fmov	d4, x9
	//ARITH_FENCE
	fmul	d2, d2, d3
	//ARITH_FENCE
	fmov	d3, d2
	//ARITH_FENCE
	fcmp	d4, d3
	cset	w9, mi
	//APP
	//NO_APP
	cbz	w9, .LBB21_10
.LBB21_2:
	mov	w9, #1                          // =0x1
.LBB21_3:                               // %"swaps::judging::bad_tenor.exit"
	fsub	d2, d1, d1
	//ARITH_FENCE
	fcmp	d1, d0
	cset	w10, mi
	//APP
	//NO_APP
	cmp	w10, #0
	//ARITH_FENCE
	fccmp	d2, d0, #0, eq
	b.eq	.LBB21_6
// %bb.4:
	mov	x10, xzr
.LBB21_5:                               // %"swaps::judging::judge_priced.exit"
	mov	w8, #1                          // =0x1
	strb	w8, [x0]
	stur	x10, [x0, #4]
	ret
.LBB21_6:                               // %join.3.i
	cmp	x3, x5
	b.ne	.LBB21_9
// %bb.7:                               // %join.3.i.i
	sub	x10, x3, #121
	cmn	x10, #120
	b.hs	.LBB21_13
// %bb.8:
	mov	w8, #1                          // =0x1
	mov	w10, #4                         // =0x4
	strb	w8, [x0]
	stur	x10, [x0, #4]
	ret
.LBB21_9:
	mov	w8, #1                          // =0x1
	mov	w10, #3                         // =0x3
	strb	w8, [x0]
	stur	x10, [x0, #4]
	ret
.LBB21_10:                              // %join.3.i.i.i
	fcmp	d0, d3
	cset	w9, mi
	//APP
	//NO_APP
	cbz	w9, .LBB21_3
// %bb.11:                              // %then.4.i.i.i
	fadd	d2, d2, d2
	fmov	d3, #1.00000000
	//ARITH_FENCE
	fmov	d4, d2
	//ARITH_FENCE
	fcmp	d3, d4
	cset	w9, hi
	//APP
	//NO_APP
	cbz	w9, .LBB21_27
// %bb.12:
	mov	w9, wzr
	b	.LBB21_3
.LBB21_13:                              // %join.6.i.i
	ldr	d1, [x2]
	//ARITH_FENCE
	fcmp	d0, d1
	ldr	d1, [x1, #8]
	cset	w10, hi
	//APP
	//NO_APP
	cbz	w10, .LBB21_18
.LBB21_14:                              // %join.6.i9.i.i.preheader
	mov	x10, #-4503599627370496         // =0xfff0000000000000
	fmov	d3, x10
	mov	w10, #5                         // =0x5
.LBB21_15:                              // %join.6.i9.i.i
                                        // =>This Inner Loop Header: Depth=1
	ldr	d2, [x2], #8
	ldr	d5, [x4], #8
	fsub	d4, d2, d2
	fsub	d5, d5, d5
	//ARITH_FENCE
	fcmp	d4, d0
	//ARITH_FENCE
	fccmp	d5, d0, #0, eq
	b.ne	.LBB21_5
// %bb.16:                              // %"curves::curve::bad_knot.exit.i.i.i.i"
                                        //   in Loop: Header=BB21_15 Depth=1
	fmov	d4, d2
	//ARITH_FENCE
	//ARITH_FENCE
	fcmp	d4, d0
	cset	w11, mi
	fcmp	d3, d4
	//APP
	//NO_APP
	cset	w12, pl
	//APP
	//NO_APP
	orr	w11, w11, w12
	cbnz	w11, .LBB21_5
// %bb.17:                              // %join.10.i.i.i
                                        //   in Loop: Header=BB21_15 Depth=1
	fmov	d3, d2
	mov	x11, #4294967296                // =0x100000000
	subs	x3, x3, #1
	add	x10, x10, x11
	b.ne	.LBB21_15
	b	.LBB21_24
.LBB21_18:                              // %join.3.i.i.i5
	ldr	d2, [x4]
	fsub	d2, d2, d2
	//ARITH_FENCE
	fcmp	d2, d0
	b.ne	.LBB21_14
// %bb.19:                              // %join.6.i.i.i
	add	x10, x2, x3, lsl #3
	ldur	d2, [x10, #-8]
	mov	x10, #9218868437227405312       // =0x7ff0000000000000
	fmov	d3, x10
	//ARITH_FENCE
	//ARITH_FENCE
	fcmp	d2, d3
	cset	w10, mi
	//APP
	//NO_APP
	cbz	w10, .LBB21_14
// %bb.20:                              // %then.7.i.i.i
	cmp	x3, #2
	b.lo	.LBB21_24
// %bb.21:                              // %join.5.i.i.i.i.preheader
	mov	x10, xzr
	sub	x11, x3, #1
	add	x12, x4, #8
	add	x13, x2, #8
.LBB21_22:                              // %join.5.i.i.i.i
                                        // =>This Inner Loop Header: Depth=1
	ldp	d2, d3, [x13, #-8]
	add	x13, x13, #8
	//ARITH_FENCE
	//ARITH_FENCE
	fcmp	d2, d3
	ldr	d2, [x12], #8
	fsub	d2, d2, d2
	cset	w14, pl
	//APP
	//NO_APP
	cmp	w14, #0
	cinc	x10, x10, ne
	//ARITH_FENCE
	fcmp	d2, d0
	cinc	x10, x10, ne
	subs	x11, x11, #1
	b.ne	.LBB21_22
// %bb.23:                              // %"curves::curve::all_in_order.exit.i.i"
	cbnz	x10, .LBB21_14
.LBB21_24:                              // %arm.5.i
	sub	w8, w8, #366
	cmn	w8, #365
	csinc	w8, w9, wzr, hs
	cmp	w9, #0
	mov	w9, #6                          // =0x6
	cinc	x10, x9, eq
	tbnz	w8, #0, .LBB21_5
// %bb.25:                              // %join.6.i13.i
	fsub	d1, d1, d1
	//ARITH_FENCE
	fcmp	d1, d0
	b.eq	.LBB21_28
// %bb.26:
	mov	w8, #1                          // =0x1
	mov	w10, #8                         // =0x8
	strb	w8, [x0]
	stur	x10, [x0, #4]
	ret
.LBB21_27:                              // %then.1.i.i.i.i
	fmov	x9, d2
	mov	x11, #4503599627370496          // =0x10000000000000
	mov	w12, #1075                      // =0x433
	lsr	x10, x9, #52
	bfxil	x11, x9, #0, #52
	lsr	x13, x9, #54
	sub	x12, x12, x10
	sub	x10, x10, #1075
	cmp	x13, #269
	lsr	x11, x11, x12
	lsl	x9, x9, x10
	csel	x9, x11, x9, lo
	add	x9, x9, #1
	lsr	x9, x9, #1
	cmp	w9, #1200
	cset	w9, hi
	b	.LBB21_3
.LBB21_28:                              // %join.9.i.i
	strb	wzr, [x0]
	stur	xzr, [x0, #4]
	ret
.Lfunc_end21:
	.size	"swaps::judging::judge_swap", .Lfunc_end21-"swaps::judging::judge_swap"
                                        // -- End function
	.section	.rodata.cst8,"aM",@progbits,8
	.p2align	3, 0x0                          // -- Begin function swaps::legs::payment_sums
.LCPI22_0:
	.word	4294965695                      // 0xfffff9bf
	.word	4294965495                      // 0xfffff8f7
.LCPI22_1:
	.word	4294967289                      // 0xfffffff9
	.word	4294967291                      // 0xfffffffb
	.section	".text.swaps::legs::payment_sums","ax",@progbits
	.p2align	2
	.type	"swaps::legs::payment_sums",@function
"swaps::legs::payment_sums":            // @"swaps::legs::payment_sums"
// %bb.0:                               // %start
	stp	d11, d10, [sp, #-128]!          // 16-byte Folded Spill
	stp	d9, d8, [sp, #16]               // 16-byte Folded Spill
	stp	x29, x30, [sp, #32]             // 16-byte Folded Spill
	add	x29, sp, #32
	stp	x28, x27, [sp, #48]             // 16-byte Folded Spill
	stp	x26, x25, [sp, #64]             // 16-byte Folded Spill
	stp	x24, x23, [sp, #80]             // 16-byte Folded Spill
	stp	x22, x21, [sp, #96]             // 16-byte Folded Spill
	stp	x20, x19, [sp, #112]            // 16-byte Folded Spill
	sub	sp, sp, #2752
	str	xzr, [sp]
	ldp	d8, d0, [x1, #8]
	stp	x4, x5, [sp, #264]              // 16-byte Folded Spill
	ldrb	w8, [x1]
	ldr	d1, [x1, #24]
	ldr	w17, [x1, #32]
	ldrb	w5, [x1, #36]
	stp	x6, x7, [sp, #168]              // 16-byte Folded Spill
	stp	x2, x3, [sp, #304]              // 16-byte Folded Spill
	str	w8, [sp, #284]                  // 4-byte Spill
	str	x0, [sp, #96]                   // 8-byte Spill
	cbz	w8, .LBB22_9
// %bb.1:                               // %arm.2.i
	fmov	x8, d1
	cbz	w8, .LBB22_137
// %bb.2:                               // %"swaps::dated_periods::span_of.exit.i.i"
	cmp	w8, #12
	b.hi	.LBB22_131
// %bb.3:                               // %join.3.i.i4.i
	mov	w11, #255                       // =0xff
	lsr	x10, x8, #32
	and	w8, w8, #0xff
	ands	w13, w11, w17, lsr #16
	mov	w9, #12                         // =0xc
	and	w14, w17, #0xffff
	cset	w15, ne
	udiv	w8, w9, w8
	ands	w11, w11, w10, lsr #16
	sub	w13, w13, w15
	and	w12, w10, #0xffff
	madd	w13, w14, w9, w13
	cset	w14, ne
	sub	w11, w11, w14
	madd	w11, w12, w9, w11
	subs	w12, w13, w11
	csel	w12, wzr, w12, lo
	udiv	w7, w12, w8
	madd	w11, w7, w8, w11
	lsr	w8, w11, #5
	cmp	w8, #824
	b.hi	.LBB22_8
// %bb.4:                               // %join.8.i.i.i
	and	w8, w11, #0xffff
	mov	w12, #43691                     // =0xaaab
	lsr	w10, w10, #24
	mul	w8, w8, w12
	lsr	w8, w8, #19
	msub	w9, w8, w9, w11
	and	w11, w9, #0xffff
	cmp	w11, #10
	b.hi	.LBB22_136
// %bb.5:                               // %join.8.i.i.i
	mov	w12, #1                         // =0x1
	mov	w13, #1320                      // =0x528
	lsl	w12, w12, w11
	tst	w12, w13
	b.eq	.LBB22_133
// %bb.6:
	mov	w11, #30                        // =0x1e
.LBB22_7:                               // %"dates::months::day_in_month.exit.i.i.i"
	cmp	w8, w17, uxth
	lsr	w13, w17, #16
	and	w9, w9, #0xff
	cset	w12, lo
	cmp	w11, w10
	add	w9, w9, #1
	csel	w10, w11, w10, lo
	cmp	w10, w17, lsr #24
	cset	w10, lo
	cmp	w9, w13, uxtb
	cset	w9, lo
	csel	w9, w10, w9, eq
	cmp	w8, w17, uxth
	csel	w8, w12, w9, ne
	add	w7, w7, w8
.LBB22_8:                               // %"swaps::terms::period_count.exit"
	cbnz	w7, .LBB22_11
	b	.LBB22_131
.LBB22_9:                               // %arm.1.i
	ucvtf	d2, w17
	mov	x8, #281474974613504            // =0xffffffe00000
	movk	x8, #16879, lsl #48
	fmov	d4, x8
	//ARITH_FENCE
	fmul	d2, d1, d2
	//ARITH_FENCE
	fmov	d3, d2
	//ARITH_FENCE
	fcmp	d4, d3
	cset	w8, mi
	//APP
	//NO_APP
	cbz	w8, .LBB22_128
// %bb.10:
	mov	w7, #-1                         // =0xffffffff
.LBB22_11:                              // %join.5.lr.ph
	ucvtf	d2, w17
	fmov	d21, #1.00000000
	mov	w14, #23593                     // =0x5c29
	fmov	x6, d1
	mul	w9, w17, w14
	mov	w16, #255                       // =0xff
	lsr	w20, w17, #24
	mov	x2, #228698418577408            // =0xd00000000000
	str	w17, [sp, #128]                 // 4-byte Spill
	movk	x2, #16502, lsl #48
	mov	x0, #140737488355328            // =0x800000000000
	mov	w18, #55051                     // =0xd70b
	//ARITH_FENCE
	fdiv	d9, d21, d2
	lsr	x15, x6, #32
	lsr	x8, x6, #48
	lsl	w12, w9, #14
	lsl	w13, w9, #12
	ubfx	x23, x6, #32, #16
	sub	w10, w15, #1900
	ands	w4, w8, #0xff
	lsr	x22, x6, #56
	and	w8, w10, #0xffff
	cset	w10, ne
	sub	w11, w4, #1
	cmp	w8, #300
	bfxil	w12, w9, #2, #14
	mov	w8, #12                         // =0xc
	ccmp	w11, #12, #2, lo
	sub	w10, w4, w10
	bfxil	w13, w9, #4, #12
	cset	w11, lo
	madd	w24, w23, w8, w10
	tst	w17, #0x3
	and	w10, w12, #0xffff
	str	w11, [sp, #188]                 // 4-byte Spill
	cset	w11, eq
	cmp	w10, #655
	and	w10, w13, #0xffff
	mov	w12, #164                       // =0xa4
	ccmp	w10, w12, #0, ls
	mov	w9, #43691                      // =0xaaab
	sub	w10, w17, #1900
	cset	w12, lo
	ands	w25, w16, w17, lsr #16
	movk	w9, #43690, lsl #16
	and	w10, w10, #0xffff
	umull	x9, w24, w9
	cset	w1, ne
	cmp	w10, #300
	sub	w10, w25, #1
	mov	w16, #23593                     // =0x5c29
	ccmp	w10, #12, #2, lo
	fmov	d2, x2
	and	w13, w17, #0xffff
	cset	w10, lo
	cmp	w22, w20
	lsr	x9, x9, #35
	cset	w2, lo
	cmp	w4, w25
	movk	w16, #49807, lsl #16
	stp	w10, w25, [sp, #136]            // 8-byte Folded Spill
	sub	w10, w25, w1
	cset	w1, lo
	mul	w16, w9, w16
	csel	w1, w2, w1, eq
	cmp	w6, #13
	madd	w10, w13, w8, w10
	cset	w2, lo
	csel	w1, wzr, w1, hs
	cmp	w23, w13
	mov	w17, #23592                     // =0x5c28
	str	w4, [sp, #192]                  // 4-byte Spill
	csel	w13, wzr, w2, hs
	ror	w4, w16, #2
	movk	w17, #655, lsl #16
	stp	w13, w1, [sp, #88]              // 8-byte Folded Spill
	subs	w13, w10, w24
	movk	x0, #16502, lsl #48
	ror	w16, w16, #4
	csel	w13, wzr, w13, lo
	tst	w9, #0x3
	fmul	d3, d9, d2
	movk	w18, #163, lsl #16
	mov	x3, #281474974613504            // =0xffffffe00000
	str	w13, [sp, #84]                  // 4-byte Spill
	cset	w13, eq
	cmp	w4, w17
	fmov	d4, x0
	movk	x3, #16879, lsl #48
	ccmp	w16, w18, #0, ls
	fmov	d1, x3
	mul	w16, w15, w14
	cset	w14, lo
	cmp	w5, #1
	movi	d10, #0000000000000000
	mov	x17, #4503599627370496          // =0x10000000000000
	fcsel	d11, d2, d4, eq
	fadd	d2, d3, d3
	//ARITH_FENCE
	fmov	d4, #1.00000000
	//ARITH_FENCE
	fcmp	d1, d3
	lsl	w0, w16, #14
	lsl	w1, w16, #12
	mov	w18, #1075                      // =0x433
	str	w5, [sp, #60]                   // 4-byte Spill
	mov	w2, #655                        // =0x28f
	//ARITH_FENCE
	//ARITH_FENCE
	bfxil	w0, w16, #2, #14
	bfxil	w1, w16, #4, #12
	str	x6, [sp, #216]                  // 8-byte Spill
	fmov	x3, d2
	cset	w15, mi
	fcmp	d10, d3
	//ARITH_FENCE
	and	w1, w1, #0xffff
	ubfx	x6, x6, #32, #2
	and	w0, w0, #0xffff
	//APP
	//NO_APP
	fmul	d0, d8, d0
	msub	w8, w9, w8, w24
	lsr	x4, x3, #52
	bfxil	x17, x3, #0, #52
	cset	w16, pl
	fcmp	d4, d2
	lsr	x5, x3, #54
	//APP
	//NO_APP
	sub	x18, x18, x4
	sub	x4, x4, #1075
	str	w8, [sp, #76]                   // 4-byte Spill
	lsr	x17, x17, x18
	lsl	x18, x3, x4
	str	q0, [sp, #288]                  // 16-byte Spill
	cset	w3, hi
	cmp	x5, #269
	movi	v0.2d, #0000000000000000
	csel	x17, x17, x18, lo
	cmp	w1, #164
	mov	w18, #28                        // =0x1c
	ccmp	w0, w2, #2, hs
	add	x17, x17, #1
	//APP
	//NO_APP
	ccmp	w6, #0, #0, hi
	lsr	x17, x17, #1
	add	w8, w20, w10, lsl #5
	cinc	w0, w18, eq
	tst	w11, w12
	add	x12, sp, #1952
	cinc	w11, w18, ne
	tst	w13, w14
	ucvtf	d2, w17
	str	w11, [sp, #80]                  // 4-byte Spill
	cinc	w11, w18, ne
	cmp	w15, #0
	str	w11, [sp, #4]                   // 4-byte Spill
	orr	w11, w15, w16
	fcsel	d1, d1, d10, ne
	orr	w11, w11, w3
	add	x13, sp, #1440
	stp	q0, q0, [sp, #384]              // 32-byte Folded Spill
	cmp	w11, #0
	//ARITH_FENCE
	ldrb	w11, [x29, #96]
	str	w8, [sp, #196]                  // 4-byte Spill
	fcsel	d1, d1, d2, ne
	add	x8, x13, #16
	movi	v22.2d, #0000000000000000
	str	w11, [sp, #236]                 // 4-byte Spill
	mov	w11, w7
	movi	v23.2d, #0000000000000000
	str	x11, [sp, #256]                 // 8-byte Spill
	add	x11, sp, #1696
	mov	w21, wzr
	fdiv	d1, d1, d11
	add	x11, x11, #16
	str	x8, [sp, #16]                   // 8-byte Spill
	str	x11, [sp, #32]                  // 8-byte Spill
	add	x11, x12, #20
	add	x8, sp, #2224
	str	x11, [sp, #24]                  // 8-byte Spill
	add	x11, x12, #4
	add	x8, x8, #4
	str	x11, [sp, #64]                  // 8-byte Spill
	sub	w11, w20, #1
	mov	x19, xzr
	str	w11, [sp, #132]                 // 4-byte Spill
	sub	w11, w22, #1
	add	x9, x12, #16
	str	w11, [sp, #184]                 // 4-byte Spill
	lsl	w11, w24, #5
	mov	w25, w7
	str	x8, [sp, #40]                   // 8-byte Spill
	add	x8, sp, #416
	str	w24, [sp, #212]                 // 4-byte Spill
	add	x8, x8, #16
	mov	w24, #1                         // =0x1
	str	x23, [sp, #120]                 // 8-byte Spill
	str	w0, [sp, #116]                  // 4-byte Spill
	str	x22, [sp, #200]                 // 8-byte Spill
	stp	w11, w20, [sp, #52]             // 8-byte Folded Spill
	str	x9, [sp, #8]                    // 8-byte Spill
	str	x8, [sp, #104]                  // 8-byte Spill
	str	x7, [sp, #224]                  // 8-byte Spill
	dup	v0.2d, v1.d[0]
	str	q1, [sp, #240]                  // 16-byte Spill
	str	q0, [sp, #144]                  // 16-byte Spill
	fmov	d0, #1.00000000
	str	q0, [sp, #368]                  // 16-byte Spill
.LBB22_12:                              // %join.5
                                        // =>This Loop Header: Depth=1
                                        //     Child Loop BB22_59 Depth 2
                                        //     Child Loop BB22_69 Depth 2
                                        //     Child Loop BB22_72 Depth 2
                                        //     Child Loop BB22_97 Depth 2
                                        //     Child Loop BB22_100 Depth 2
                                        //     Child Loop BB22_112 Depth 2
                                        //     Child Loop BB22_115 Depth 2
                                        //     Child Loop BB22_107 Depth 2
                                        //     Child Loop BB22_110 Depth 2
                                        //     Child Loop BB22_117 Depth 2
                                        //     Child Loop BB22_119 Depth 2
                                        //     Child Loop BB22_25 Depth 2
                                        //     Child Loop BB22_32 Depth 2
                                        //     Child Loop BB22_35 Depth 2
                                        //     Child Loop BB22_121 Depth 2
                                        //     Child Loop BB22_124 Depth 2
	mov	w8, w25
	mov	w10, #64                        // =0x40
	sub	w9, w7, w21, lsl #6
	cmp	x8, #64
	movi	v0.2d, #0000000000000000
	stp	q22, q21, [sp, #336]            // 32-byte Folded Spill
	csel	x22, x8, x10, lo
	ldr	x8, [sp, #256]                  // 8-byte Reload
	cmp	w9, #64
	str	q23, [sp, #320]                 // 16-byte Spill
	sub	x23, x8, x19
	csel	w8, w9, w10, lo
	cmp	w23, #64
	str	q0, [sp, #1024]
	csel	w26, w23, w10, lo
	ldr	w10, [sp, #284]                 // 4-byte Reload
	str	q0, [sp, #1040]
	str	q0, [sp, #1056]
	str	q0, [sp, #1072]
	str	q0, [sp, #1088]
	str	q0, [sp, #1104]
	str	q0, [sp, #1120]
	str	q0, [sp, #1136]
	str	q0, [sp, #1152]
	str	q0, [sp, #1168]
	str	q0, [sp, #1184]
	str	q0, [sp, #1200]
	str	q0, [sp, #1216]
	str	q0, [sp, #1232]
	str	q0, [sp, #1248]
	str	q0, [sp, #1264]
	str	q0, [sp, #1280]
	str	q0, [sp, #1296]
	str	q0, [sp, #1312]
	str	q0, [sp, #1328]
	str	q0, [sp, #1344]
	str	q0, [sp, #1360]
	str	q0, [sp, #1376]
	str	q0, [sp, #1392]
	str	q0, [sp, #1408]
	str	q0, [sp, #1424]
	stp	q0, q0, [sp, #416]
	stp	q0, q0, [sp, #448]
	stp	q0, q0, [sp, #480]
	stp	q0, q0, [sp, #512]
	stp	q0, q0, [sp, #544]
	stp	q0, q0, [sp, #576]
	stp	q0, q0, [sp, #608]
	stp	q0, q0, [sp, #640]
	stp	q0, q0, [sp, #672]
	stp	q0, q0, [sp, #704]
	stp	q0, q0, [sp, #736]
	stp	q0, q0, [sp, #768]
	stp	q0, q0, [sp, #800]
	stp	q0, q0, [sp, #832]
	stp	q0, q0, [sp, #864]
	stp	q0, q0, [sp, #896]
	stp	q0, q0, [sp, #928]
	stp	q0, q0, [sp, #960]
	stp	q0, q0, [sp, #992]
	cbz	w10, .LBB22_24
// %bb.13:                              // %arm.2.i.i
                                        //   in Loop: Header=BB22_12 Depth=1
	ldr	x10, [sp, #216]                 // 8-byte Reload
	mov	w6, #27397                      // =0x6b05
	ldr	w7, [sp, #196]                  // 4-byte Reload
	movk	w6, #65525, lsl #16
	str	q0, [sp, #1696]
	str	q0, [sp, #1712]
	str	q0, [sp, #1728]
	str	q0, [sp, #1744]
	str	q0, [sp, #1760]
	str	q0, [sp, #1776]
	str	q0, [sp, #1792]
	str	q0, [sp, #1808]
	str	q0, [sp, #1824]
	str	q0, [sp, #1840]
	str	q0, [sp, #1856]
	str	q0, [sp, #1872]
	str	q0, [sp, #1888]
	str	q0, [sp, #1904]
	str	q0, [sp, #1920]
	str	q0, [sp, #1936]
	str	q0, [sp, #1440]
	str	q0, [sp, #1456]
	str	q0, [sp, #1472]
	str	q0, [sp, #1488]
	str	q0, [sp, #1504]
	str	q0, [sp, #1520]
	str	q0, [sp, #1536]
	str	q0, [sp, #1552]
	str	q0, [sp, #1568]
	str	q0, [sp, #1584]
	str	q0, [sp, #1600]
	str	q0, [sp, #1616]
	str	q0, [sp, #1632]
	str	q0, [sp, #1648]
	str	q0, [sp, #1664]
	str	q0, [sp, #1680]
	cbz	w10, .LBB22_137
// %bb.14:                              // %"swaps::dated_periods::span_of.exit.i.i.i"
                                        //   in Loop: Header=BB22_12 Depth=1
	ldr	w12, [sp, #192]                 // 4-byte Reload
	cmp	w12, #11
	b.hi	.LBB22_30
// %bb.15:                              // %"swaps::dated_periods::span_of.exit.i.i.i"
                                        //   in Loop: Header=BB22_12 Depth=1
	mov	w10, #1                         // =0x1
	mov	w11, #2640                      // =0xa50
	lsl	w10, w10, w12
	tst	w10, w11
	b.eq	.LBB22_29
// %bb.16:                              //   in Loop: Header=BB22_12 Depth=1
	mov	w10, #30                        // =0x1e
.LBB22_17:                              // %"dates::calendar::days_in.exit.i.i.i.i.i.i.i.i"
                                        //   in Loop: Header=BB22_12 Depth=1
	ldr	w11, [sp, #184]                 // 4-byte Reload
	cmp	w11, w10
	ldr	w10, [sp, #188]                 // 4-byte Reload
	csel	w10, wzr, w10, hs
	cmp	w10, #1
	b.ne	.LBB22_116
// %bb.18:                              // %else.2.i.i.i.i.i.i.i
                                        //   in Loop: Header=BB22_12 Depth=1
	ldr	w12, [sp, #140]                 // 4-byte Reload
	cmp	w12, #11
	b.hi	.LBB22_41
// %bb.19:                              // %else.2.i.i.i.i.i.i.i
                                        //   in Loop: Header=BB22_12 Depth=1
	mov	w10, #1                         // =0x1
	mov	w11, #2640                      // =0xa50
	lsl	w10, w10, w12
	tst	w10, w11
	b.eq	.LBB22_40
// %bb.20:                              //   in Loop: Header=BB22_12 Depth=1
	mov	w10, #30                        // =0x1e
.LBB22_21:                              // %"dates::calendar::days_in.exit.i9.i.i.i.i.i.i.i"
                                        //   in Loop: Header=BB22_12 Depth=1
	ldr	w11, [sp, #132]                 // 4-byte Reload
	cmp	w11, w10
	ldr	w10, [sp, #136]                 // 4-byte Reload
	csel	w10, wzr, w10, hs
	cmp	w10, #1
	b.ne	.LBB22_116
// %bb.22:                              // %else.5.i.i.i.i.i.i.i
                                        //   in Loop: Header=BB22_12 Depth=1
	ldr	w10, [sp, #128]                 // 4-byte Reload
	ldr	x11, [sp, #120]                 // 8-byte Reload
	cmp	w11, w10, uxth
	b.ne	.LBB22_37
// %bb.23:                              // %arm.7.i.i.i.i.i.i.i.i.i.i.i
                                        //   in Loop: Header=BB22_12 Depth=1
	ldr	w10, [sp, #92]                  // 4-byte Reload
	tbnz	w10, #0, .LBB22_38
	b	.LBB22_116
.LBB22_24:                              // %arm.1.i.i
                                        //   in Loop: Header=BB22_12 Depth=1
	sub	x10, x22, #1
	sub	x9, x8, #1
	add	x8, sp, #928
	and	x10, x10, #0xfffffffffffffffc
	mov	w11, w24
	mov	x12, x22
.LBB22_25:                              // %join.6.i.i.i
                                        //   Parent Loop BB22_12 Depth=1
                                        // =>  This Inner Loop Header: Depth=2
	ucvtf	d0, w11
	subs	x12, x12, #1
	add	w11, w11, #1
	//ARITH_FENCE
	fmul	d0, d9, d0
	str	d0, [x8], #8
	b.ne	.LBB22_25
// %bb.26:                              // %after.1.i.i.i.loopexit
                                        //   in Loop: Header=BB22_12 Depth=1
	ldr	q0, [sp, #144]                  // 16-byte Reload
	subs	x8, x26, #1
	b.eq	.LBB22_36
// %bb.27:                              // %join.8.i.i.i.i.preheader
                                        //   in Loop: Header=BB22_12 Depth=1
	cmp	x9, #4
	b.hs	.LBB22_31
// %bb.28:                              //   in Loop: Header=BB22_12 Depth=1
	mov	x11, xzr
	b	.LBB22_34
.LBB22_29:                              // %"swaps::dated_periods::span_of.exit.i.i.i"
                                        //   in Loop: Header=BB22_12 Depth=1
	ldr	w10, [sp, #116]                 // 4-byte Reload
	cmp	w12, #2
	b.eq	.LBB22_17
.LBB22_30:                              // %default.3.i.i.i.i.i.i.i.i.i
                                        //   in Loop: Header=BB22_12 Depth=1
	mov	w10, #31                        // =0x1f
	b	.LBB22_17
.LBB22_31:                              // %vector.ph
                                        //   in Loop: Header=BB22_12 Depth=1
	ldr	x12, [sp, #104]                 // 8-byte Reload
	and	x11, x9, #0xfffffffffffffffc
.LBB22_32:                              // %vector.body
                                        //   Parent Loop BB22_12 Depth=1
                                        // =>  This Inner Loop Header: Depth=2
	subs	x10, x10, #4
	stp	q0, q0, [x12, #-16]
	add	x12, x12, #32
	b.ne	.LBB22_32
// %bb.33:                              // %middle.block
                                        //   in Loop: Header=BB22_12 Depth=1
	cmp	x9, x11
	b.eq	.LBB22_36
.LBB22_34:                              // %join.8.i.i.i.i.preheader1
                                        //   in Loop: Header=BB22_12 Depth=1
	add	x9, sp, #416
	mvn	x10, x11
	add	x9, x9, x11, lsl #3
	add	x10, x10, x22
.LBB22_35:                              // %join.8.i.i.i.i
                                        //   Parent Loop BB22_12 Depth=1
                                        // =>  This Inner Loop Header: Depth=2
	subs	x10, x10, #1
	str	d1, [x9], #8
	b.ne	.LBB22_35
.LBB22_36:                              // %after.4.i.i.i.i
                                        //   in Loop: Header=BB22_12 Depth=1
	add	x9, sp, #416
	str	d1, [x9, x8, lsl #3]
	b	.LBB22_120
.LBB22_37:                              // %"dates::counts::bad_dates.exit.i.i.i.i.i.i"
                                        //   in Loop: Header=BB22_12 Depth=1
	ldr	w10, [sp, #88]                  // 4-byte Reload
	cbz	w10, .LBB22_116
.LBB22_38:                              // %join.3.i.i.i.i.i.i
                                        //   in Loop: Header=BB22_12 Depth=1
	ldr	x11, [sp, #216]                 // 8-byte Reload
	mov	w10, #12                        // =0xc
	add	x13, x19, x26
	udiv	w15, w10, w11
	ldr	w10, [sp, #84]                  // 4-byte Reload
	udiv	w12, w10, w15
	ldr	w10, [sp, #212]                 // 4-byte Reload
	madd	w10, w12, w15, w10
	lsr	w11, w10, #5
	cmp	w11, #824
	b.ls	.LBB22_42
// %bb.39:                              // %"dates::runs::has_run.exit.i.i.i.i"
                                        //   in Loop: Header=BB22_12 Depth=1
	cmp	x13, w12, uxtw
	b.ls	.LBB22_55
	b	.LBB22_116
.LBB22_40:                              // %else.2.i.i.i.i.i.i.i
                                        //   in Loop: Header=BB22_12 Depth=1
	ldr	w10, [sp, #80]                  // 4-byte Reload
	cmp	w12, #2
	b.eq	.LBB22_21
.LBB22_41:                              // %default.3.i.i27.i.i.i.i.i.i.i
                                        //   in Loop: Header=BB22_12 Depth=1
	mov	w10, #31                        // =0x1f
	b	.LBB22_21
.LBB22_42:                              // %join.8.i.i.i.i.i.i
                                        //   in Loop: Header=BB22_12 Depth=1
	and	w11, w10, #0xffff
	mov	w14, #43691                     // =0xaaab
	mul	w11, w11, w14
	mov	w14, #12                        // =0xc
	lsr	w11, w11, #19
	msub	w10, w11, w14, w10
	and	w14, w10, #0xffff
	cmp	w14, #10
	b.hi	.LBB22_86
// %bb.43:                              // %join.8.i.i.i.i.i.i
                                        //   in Loop: Header=BB22_12 Depth=1
	mov	w16, #1                         // =0x1
	mov	w17, #1320                      // =0x528
	lsl	w16, w16, w14
	tst	w16, w17
	b.eq	.LBB22_81
// %bb.44:                              //   in Loop: Header=BB22_12 Depth=1
	mov	w14, #30                        // =0x1e
.LBB22_45:                              // %"dates::months::day_in_month.exit.i.i.i.i.i.i"
                                        //   in Loop: Header=BB22_12 Depth=1
	ldr	w16, [sp, #128]                 // 4-byte Reload
	cmp	w11, w16, uxth
	b.ne	.LBB22_47
// %bb.46:                              // %arm.7.i.i.i.i.i.i.i.i.i.i
                                        //   in Loop: Header=BB22_12 Depth=1
	ldr	x16, [sp, #200]                 // 8-byte Reload
	ldr	w17, [sp, #56]                  // 4-byte Reload
	cmp	w14, w16
	csel	w14, w14, w16, lo
	and	w16, w10, #0xff
	cmp	w14, w17
	ldr	w17, [sp, #140]                 // 4-byte Reload
	add	w16, w16, #1
	cset	w14, lo
	cmp	w16, w17
	cset	w16, lo
	csel	w14, w14, w16, eq
	add	w14, w12, w14
	cmp	x13, x14
	b.ls	.LBB22_48
	b	.LBB22_116
.LBB22_47:                              // %"core::cmp::Ordering::or_partial_cmp::<#e177746dffcc1c62>.exit.i.i.i.i.i.i.i.i.i"
                                        //   in Loop: Header=BB22_12 Depth=1
	cset	w14, lo
	add	w14, w12, w14
	cmp	x13, x14
	b.hi	.LBB22_116
.LBB22_48:                              // %join.8.i.i.i.i.i
                                        //   in Loop: Header=BB22_12 Depth=1
	and	w13, w10, #0xffff
	cmp	w13, #10
	b.hi	.LBB22_92
// %bb.49:                              // %join.8.i.i.i.i.i
                                        //   in Loop: Header=BB22_12 Depth=1
	mov	w14, #1                         // =0x1
	mov	w16, #1320                      // =0x528
	lsl	w14, w14, w13
	tst	w14, w16
	b.eq	.LBB22_89
// %bb.50:                              //   in Loop: Header=BB22_12 Depth=1
	mov	w13, #30                        // =0x1e
.LBB22_51:                              // %"dates::months::day_in_month.exit.i.i.i.i.i"
                                        //   in Loop: Header=BB22_12 Depth=1
	ldr	w14, [sp, #128]                 // 4-byte Reload
	cmp	w11, w14, uxth
	b.ne	.LBB22_53
// %bb.52:                              // %arm.7.i.i.i.i.i.i.i.i.i
                                        //   in Loop: Header=BB22_12 Depth=1
	ldr	x11, [sp, #200]                 // 8-byte Reload
	and	w10, w10, #0xff
	add	w10, w10, #1
	cmp	w13, w11
	csel	w11, w13, w11, lo
	ldr	w13, [sp, #56]                  // 4-byte Reload
	cmp	w11, w13
	ldr	w13, [sp, #140]                 // 4-byte Reload
	cset	w11, lo
	cmp	w10, w13
	cset	w10, lo
	csel	w10, w11, w10, eq
	b	.LBB22_54
.LBB22_53:                              // %"core::cmp::Ordering::or_partial_cmp::<#e177746dffcc1c62>.exit.i.i.i.i.i.i.i.i"
                                        //   in Loop: Header=BB22_12 Depth=1
	cset	w10, lo
.LBB22_54:                              // %"dates::calendar::is_after.exit.i.i.i.i.i"
                                        //   in Loop: Header=BB22_12 Depth=1
	add	w12, w12, w10
.LBB22_55:                              // %"dates::periods::period_count.exit.i.i.i.i"
                                        //   in Loop: Header=BB22_12 Depth=1
	add	x17, x22, #1
	mov	x16, xzr
	and	x10, x22, #0x7c
	and	x11, x22, #0x78
	and	x14, x17, #0xfc
	add	w13, w8, #1
	add	x18, sp, #2224
	mov	w0, w19
	str	q0, [sp, #2224]
	str	q0, [sp, #2240]
	str	q0, [sp, #2256]
	str	q0, [sp, #2272]
	str	q0, [sp, #2288]
	str	q0, [sp, #2304]
	str	q0, [sp, #2320]
	str	q0, [sp, #2336]
	str	q0, [sp, #2352]
	str	q0, [sp, #2368]
	str	q0, [sp, #2384]
	str	q0, [sp, #2400]
	str	q0, [sp, #2416]
	str	q0, [sp, #2432]
	str	q0, [sp, #2448]
	str	q0, [sp, #2464]
	str	wzr, [sp, #2480]
	b	.LBB22_59
.LBB22_56:                              //   in Loop: Header=BB22_59 Depth=2
	mov	w2, #30                         // =0x1e
.LBB22_57:                              // %"dates::calendar::days_in.exit.i.i.i.i.i.i.i.i.i.i"
                                        //   in Loop: Header=BB22_59 Depth=2
	ldr	x3, [sp, #200]                  // 8-byte Reload
	cmp	w2, w3
	csel	w2, w2, w3, lo
	orr	w1, w2, w1, lsl #5
.LBB22_58:                              // %"dates::runs::fn::Periods::put_ranks::put_each+Fn::call.exit.i.i.i.i.i.i.i"
                                        //   in Loop: Header=BB22_59 Depth=2
	subs	x17, x17, #1
	add	x16, x16, #1
	add	w0, w0, #1
	str	w1, [x18], #4
	b.eq	.LBB22_66
.LBB22_59:                              // %join.5.i.i.i.i.i.i.i
                                        //   Parent Loop BB22_12 Depth=1
                                        // =>  This Inner Loop Header: Depth=2
	cmp	w12, w0
	mov	w1, w7
	b.ls	.LBB22_58
// %bb.60:                              // %join.3.i.i.i.i.i.i.i.i.i.i
                                        //   in Loop: Header=BB22_59 Depth=2
	add	w1, w19, w16
	ldr	w2, [sp, #212]                  // 4-byte Reload
	mul	w1, w1, w15
	add	w1, w1, w2
	mov	w2, #43691                      // =0xaaab
	movk	w2, #43690, lsl #16
	umull	x2, w1, w2
	lsr	x3, x2, #35
	mov	w2, #12                         // =0xc
	msub	w2, w3, w2, w1
	cmp	w2, #10
	b.hi	.LBB22_65
// %bb.61:                              // %join.3.i.i.i.i.i.i.i.i.i.i
                                        //   in Loop: Header=BB22_59 Depth=2
	mov	w4, #1                          // =0x1
	mov	w5, #1320                       // =0x528
	lsl	w4, w4, w2
	tst	w4, w5
	b.ne	.LBB22_56
// %bb.62:                              // %join.3.i.i.i.i.i.i.i.i.i.i
                                        //   in Loop: Header=BB22_59 Depth=2
	cmp	w2, #1
	b.ne	.LBB22_65
// %bb.63:                              // %arm.1.i.i.i.i.i.i.i.i.i.i.i
                                        //   in Loop: Header=BB22_59 Depth=2
	tst	w3, #0x3
	mov	w2, #28                         // =0x1c
	b.ne	.LBB22_57
// %bb.64:                              // %then.1.i.i.i.i.i.i.i.i.i.i.i.i
                                        //   in Loop: Header=BB22_59 Depth=2
	mov	w4, #23593                      // =0x5c29
	mov	w5, #55051                      // =0xd70b
	movk	w4, #49807, lsl #16
	movk	w5, #163, lsl #16
	mul	w3, w3, w4
	ror	w4, w3, #4
	ror	w3, w3, #2
	cmp	w4, w5
	mov	w4, #23592                      // =0x5c28
	movk	w4, #655, lsl #16
	ccmp	w3, w4, #2, hs
	cinc	w2, w2, hi
	b	.LBB22_57
.LBB22_65:                              // %default.3.i.i.i.i.i.i.i.i.i.i.i
                                        //   in Loop: Header=BB22_59 Depth=2
	mov	w2, #31                         // =0x1f
	b	.LBB22_57
.LBB22_66:                              // %repeat.3.preheader.i.i.i.i.i
                                        //   in Loop: Header=BB22_12 Depth=1
	movi	v0.2d, #0000000000000000
	cmp	w9, #3
	str	wzr, [sp, #2208]
	str	q0, [sp, #2192]
	str	q0, [sp, #2176]
	str	q0, [sp, #2160]
	str	q0, [sp, #2144]
	str	q0, [sp, #2128]
	str	q0, [sp, #2112]
	str	q0, [sp, #2096]
	str	q0, [sp, #2080]
	str	q0, [sp, #2064]
	str	q0, [sp, #2048]
	str	q0, [sp, #2032]
	str	q0, [sp, #2016]
	str	q0, [sp, #2000]
	str	q0, [sp, #1984]
	str	q0, [sp, #1968]
	str	q0, [sp, #1952]
	b.hs	.LBB22_68
// %bb.67:                              //   in Loop: Header=BB22_12 Depth=1
	mov	x15, xzr
	b	.LBB22_71
.LBB22_68:                              // %vector.ph137
                                        //   in Loop: Header=BB22_12 Depth=1
	and	x15, x13, #0xfc
	add	x16, sp, #1952
	add	x17, sp, #2224
.LBB22_69:                              // %vector.body140
                                        //   Parent Loop BB22_12 Depth=1
                                        // =>  This Inner Loop Header: Depth=2
	mov	w18, #43691                     // =0xaaab
	ldr	q2, [x17], #16
	movk	w18, #43690, lsl #16
	movi	v17.4s, #12
	movi	v18.4s, #1
	dup	v0.4s, w18
	mov	w18, #21846                     // =0x5556
	mov	w0, #23592                      // =0x5c28
	movk	w18, #5461, lsl #16
	movk	w0, #655, lsl #16
	subs	x14, x14, #4
	dup	v3.4s, w18
	mov	w18, #44565                     // =0xae15
	dup	v19.4s, w0
	umull2	v1.2d, v2.4s, v0.4s
	umull	v0.2d, v2.2s, v0.2s
	movk	w18, #327, lsl #16
	dup	v4.4s, w18
	mov	w18, #23593                     // =0x5c29
	mov	w0, #-1601                      // =0xfffff9bf
	movk	w18, #49807, lsl #16
	dup	v7.4s, w18
	mov	w18, #400                       // =0x190
	uzp2	v0.4s, v0.4s, v1.4s
	ushr	v1.4s, v2.4s, #5
	umull2	v5.2d, v1.4s, v3.4s
	umull	v6.2d, v1.2s, v3.2s
	ushr	v3.4s, v0.4s, #8
	umull2	v16.2d, v3.4s, v4.4s
	umull	v4.2d, v3.2s, v4.2s
	uzp2	v5.4s, v6.4s, v5.4s
	movi	v6.4s, #3
	mul	v7.4s, v3.4s, v7.4s
	mov	v20.16b, v3.16b
	uzp2	v4.4s, v4.4s, v16.4s
	mls	v1.4s, v5.4s, v17.4s
	dup	v17.4h, w18
	and	v5.16b, v3.16b, v6.16b
	shl	v6.4s, v7.4s, #30
	movi	v16.4s, #31
	mov	w18, #365                       // =0x16d
	shrn	v4.4h, v4.4s, #1
	cmhi	v18.4s, v1.4s, v18.4s
	cmeq	v5.4s, v5.4s, #0
	usra	v6.4s, v7.4s, #2
	dup	v7.4s, w0
	mov	w0, #-1801                      // =0xfffff8f7
	and	v2.16b, v2.16b, v16.16b
	xtn	v1.4h, v1.4s
	umlsl	v20.4s, v4.4h, v17.4h
	dup	v17.4s, w0
	dup	v4.4s, w18
	mov	w18, #34079                     // =0x851f
	cmhi	v6.4s, v6.4s, v19.4s
	and	v19.16b, v18.16b, v5.16b
	movk	w18, #20971, lsl #16
	usra	v7.4s, v0.4s, #8
	dup	v16.4s, w18
	usra	v17.4s, v0.4s, #8
	mov	w18, #-1897                     // =0xfffff897
	and	v6.16b, v6.16b, v19.16b
	cmeq	v19.4s, v20.4s, #0
	mla	v2.4s, v3.4s, v4.4s
	dup	v3.4s, w18
	mov	w18, #367                       // =0x16f
	umull2	v4.2d, v7.4s, v16.4s
	umull	v7.2d, v7.2s, v16.2s
	umull2	v20.2d, v17.4s, v16.4s
	umull	v16.2d, v17.2s, v16.2s
	orr	v6.16b, v6.16b, v19.16b
	dup	v17.4h, w18
	usra	v3.4s, v0.4s, #8
	movi	v0.4h, #5
	mov	w18, #43691                     // =0xaaab
	uzp2	v4.4s, v7.4s, v4.4s
	and	v5.16b, v5.16b, v6.16b
	mvni	v6.4s, #1
	uzp2	v7.4s, v16.4s, v20.4s
	usra	v2.4s, v3.4s, #2
	mla	v0.4h, v1.4h, v17.4h
	dup	v1.4h, w18
	mov	w18, #27397                     // =0x6b05
	orr	v3.16b, v5.16b, v6.16b
	movk	w18, #65525, lsl #16
	usra	v2.4s, v4.4s, #7
	ushr	v5.4s, v7.4s, #5
	umull	v0.4s, v0.4h, v1.4h
	and	v1.16b, v18.16b, v3.16b
	dup	v3.4s, w18
	sub	v2.4s, v2.4s, v5.4s
	usra	v1.4s, v0.4s, #19
	add	v0.4s, v2.4s, v3.4s
	add	v0.4s, v0.4s, v1.4s
	str	q0, [x16], #16
	b.ne	.LBB22_69
// %bb.70:                              // %middle.block146
                                        //   in Loop: Header=BB22_12 Depth=1
	cmp	x15, x13
	b.eq	.LBB22_73
.LBB22_71:                              // %join.5.i.i9.i.i.i.i.i.preheader
                                        //   in Loop: Header=BB22_12 Depth=1
	lsl	x16, x15, #2
	sub	x13, x22, x15
	add	x14, sp, #1952
	add	x15, sp, #2224
	add	x13, x13, #1
	add	x14, x14, x16
	add	x15, x15, x16
.LBB22_72:                              // %join.5.i.i9.i.i.i.i.i
                                        //   Parent Loop BB22_12 Depth=1
                                        // =>  This Inner Loop Header: Depth=2
	ldr	w16, [x15], #4
	mov	w17, #43691                     // =0xaaab
	movk	w17, #43690, lsl #16
	mov	w0, #21846                      // =0x5556
	mov	w1, #12                         // =0xc
	lsr	w18, w16, #5
	umull	x17, w16, w17
	movk	w0, #5461, lsl #16
	adrp	x2, .LCPI22_0
	adrp	x3, .LCPI22_1
	mov	w4, #55051                      // =0xd70b
	umull	x0, w18, w0
	ldr	d1, [x2, :lo12:.LCPI22_0]
	mov	w2, #10923                      // =0x2aab
	lsr	x17, x17, #40
	and	w16, w16, #0x1f
	movk	w4, #163, lsl #16
	add	w16, w16, w6
	lsr	x0, x0, #32
	dup	v0.2s, w17
	msub	w18, w0, w1, w18
	mov	w0, #34079                      // =0x851f
	mov	w1, #5                          // =0x5
	movk	w0, #20971, lsl #16
	dup	v2.2s, w0
	add	v0.2s, v0.2s, v1.2s
	mov	w0, #367                        // =0x16f
	madd	w0, w18, w0, w1
	mov	w1, #23593                      // =0x5c29
	ldr	d1, [x3, :lo12:.LCPI22_1]
	movk	w1, #49807, lsl #16
	mov	w3, #365                        // =0x16d
	mul	w1, w17, w1
	umull	v0.2d, v0.2s, v2.2s
	and	w0, w0, #0xffff
	madd	w16, w17, w3, w16
	mul	w0, w0, w2
	mov	w3, #23593                      // =0x5c29
	ror	w2, w1, #4
	ror	w1, w1, #2
	movk	w3, #655, lsl #16
	shrn	v0.2s, v0.2d, #32
	lsr	w0, w0, #17
	cmp	w2, w4
	mov	w2, #-2                         // =0xfffffffe
	cinc	w2, w2, lo
	sub	w4, w0, #1
	cmp	w1, w3
	ushl	v0.2s, v0.2s, v1.2s
	add	w2, w2, w0
	sub	w1, w17, #1897
	csel	w2, w2, w4, lo
	tst	w17, #0x3
	add	w16, w16, w1, lsr #2
	sub	w1, w0, #2
	mov	w3, v0.s[1]
	fmov	w17, s0
	csel	w1, w2, w1, eq
	cmp	w18, #2
	add	w16, w16, w17
	csel	w17, w0, w1, lo
	subs	x13, x13, #1
	sub	w16, w16, w3
	add	w16, w16, w17
	str	w16, [x14], #4
	b.ne	.LBB22_72
.LBB22_73:                              // %"dates::runs::put_numbers.exit.i.i.i.i.i"
                                        //   in Loop: Header=BB22_12 Depth=1
	mov	w13, w7
	cbz	w12, .LBB22_78
// %bb.74:                              // %join.3.i.i16.i.i.i.i
                                        //   in Loop: Header=BB22_12 Depth=1
	ldr	w12, [sp, #76]                  // 4-byte Reload
	cmp	w12, #10
	b.hi	.LBB22_88
// %bb.75:                              // %join.3.i.i16.i.i.i.i
                                        //   in Loop: Header=BB22_12 Depth=1
	ldr	w13, [sp, #76]                  // 4-byte Reload
	mov	w12, #1                         // =0x1
	lsl	w12, w12, w13
	mov	w13, #1320                      // =0x528
	tst	w12, w13
	b.eq	.LBB22_87
// %bb.76:                              //   in Loop: Header=BB22_12 Depth=1
	mov	w12, #30                        // =0x1e
.LBB22_77:                              // %"dates::calendar::days_in.exit.i.i.i.i.i.i"
                                        //   in Loop: Header=BB22_12 Depth=1
	ldr	x13, [sp, #200]                 // 8-byte Reload
	cmp	w12, w13
	csel	w12, w12, w13, lo
	ldr	w13, [sp, #52]                  // 4-byte Reload
	orr	w13, w12, w13
.LBB22_78:                              // %"dates::runs::Periods::rank_at.exit.i.i.i.i.i"
                                        //   in Loop: Header=BB22_12 Depth=1
	lsr	w12, w13, #5
	mov	w14, #21846                     // =0x5556
	mov	w15, #12                        // =0xc
	movk	w14, #5461, lsl #16
	mov	w16, #10923                     // =0x2aab
	umull	x14, w12, w14
	lsr	x14, x14, #32
	msub	w15, w14, w15, w12
	mov	w12, #367                       // =0x16f
	mov	w14, #5                         // =0x5
	madd	w12, w15, w12, w14
	mov	w14, #43691                     // =0xaaab
	cmp	w15, #2
	movk	w14, #10922, lsl #16
	umull	x14, w13, w14
	and	w12, w12, #0xffff
	mul	w12, w12, w16
	lsr	x14, x14, #38
	lsr	w12, w12, #17
	b.lo	.LBB22_94
// %bb.79:                              // %else.2.i.i.i20.i.i.i.i
                                        //   in Loop: Header=BB22_12 Depth=1
	tst	w14, #0x3
	b.eq	.LBB22_84
// %bb.80:                              // %"dates::calendar::is_leap.exit.thread7.i.i.i.i.i.i.i"
                                        //   in Loop: Header=BB22_12 Depth=1
	sub	w12, w12, #2
	b	.LBB22_94
.LBB22_81:                              // %join.8.i.i.i.i.i.i
                                        //   in Loop: Header=BB22_12 Depth=1
	cmp	w14, #1
	b.ne	.LBB22_86
// %bb.82:                              // %arm.1.i.i.i.i.i.i.i.i
                                        //   in Loop: Header=BB22_12 Depth=1
	tst	w11, #0x3
	mov	w14, #28                        // =0x1c
	b.ne	.LBB22_45
// %bb.83:                              // %then.1.i.i.i.i.i.i.i.i.i
                                        //   in Loop: Header=BB22_12 Depth=1
	mov	w16, #23593                     // =0x5c29
	mul	w16, w11, w16
	lsl	w17, w16, #12
	lsl	w18, w16, #14
	bfxil	w17, w16, #4, #12
	bfxil	w18, w16, #2, #14
	and	w16, w17, #0xffff
	and	w17, w18, #0xffff
	cmp	w16, #164
	mov	w16, #655                       // =0x28f
	ccmp	w17, w16, #2, hs
	cinc	w14, w14, hi
	b	.LBB22_45
.LBB22_84:                              // %then.1.i.i.i23.i.i.i.i.i
                                        //   in Loop: Header=BB22_12 Depth=1
	mov	w15, #23593                     // =0x5c29
	mov	w17, #23593                     // =0x5c29
	movk	w15, #49807, lsl #16
	movk	w17, #655, lsl #16
	mul	w15, w14, w15
	ror	w16, w15, #2
	cmp	w16, w17
	b.lo	.LBB22_93
// %bb.85:                              // %"dates::calendar::is_leap.exit.thread.i.i.i.i.i.i.i"
                                        //   in Loop: Header=BB22_12 Depth=1
	sub	w12, w12, #1
	b	.LBB22_94
.LBB22_86:                              // %default.3.i.i.i.i.i.i.i.i
                                        //   in Loop: Header=BB22_12 Depth=1
	mov	w14, #31                        // =0x1f
	b	.LBB22_45
.LBB22_87:                              // %join.3.i.i16.i.i.i.i
                                        //   in Loop: Header=BB22_12 Depth=1
	ldr	w12, [sp, #76]                  // 4-byte Reload
	cmp	w12, #1
	ldr	w12, [sp, #4]                   // 4-byte Reload
	b.eq	.LBB22_77
.LBB22_88:                              // %default.3.i.i.i30.i.i.i.i
                                        //   in Loop: Header=BB22_12 Depth=1
	mov	w12, #31                        // =0x1f
	b	.LBB22_77
.LBB22_89:                              // %join.8.i.i.i.i.i
                                        //   in Loop: Header=BB22_12 Depth=1
	cmp	w13, #1
	b.ne	.LBB22_92
// %bb.90:                              // %arm.1.i.i.i.i.i.i.i
                                        //   in Loop: Header=BB22_12 Depth=1
	tst	w11, #0x3
	mov	w13, #28                        // =0x1c
	b.ne	.LBB22_51
// %bb.91:                              // %then.1.i.i.i.i.i.i.i.i
                                        //   in Loop: Header=BB22_12 Depth=1
	mov	w14, #23593                     // =0x5c29
	mul	w14, w11, w14
	lsl	w16, w14, #12
	lsl	w17, w14, #14
	bfxil	w16, w14, #4, #12
	bfxil	w17, w14, #2, #14
	and	w14, w16, #0xffff
	and	w16, w17, #0xffff
	cmp	w14, #164
	mov	w14, #655                       // =0x28f
	ccmp	w16, w14, #2, hs
	cinc	w13, w13, hi
	b	.LBB22_51
.LBB22_92:                              // %default.3.i.i.i.i.i.i.i
                                        //   in Loop: Header=BB22_12 Depth=1
	mov	w13, #31                        // =0x1f
	b	.LBB22_51
.LBB22_93:                              // %"dates::calendar::is_leap.exit.i.i.i.i.i.i.i"
                                        //   in Loop: Header=BB22_12 Depth=1
	ror	w15, w15, #4
	mov	w16, #55051                     // =0xd70b
	movk	w16, #163, lsl #16
	cmp	w15, w16
	mov	w15, #-2                        // =0xfffffffe
	cinc	w15, w15, lo
	add	w12, w15, w12
.LBB22_94:                              // %"dates::runs::number_at.exit.i.i.i.i.i"
                                        //   in Loop: Header=BB22_12 Depth=1
	and	w13, w13, #0x1f
	mov	w15, #365                       // =0x16d
	mov	w16, #34079                     // =0x851f
	add	w13, w13, w6
	movk	w16, #20971, lsl #16
	sub	w17, w14, #1897
	madd	w13, w14, w15, w13
	sub	w15, w14, #1601
	sub	w14, w14, #1801
	umull	x15, w15, w16
	cmp	w9, #8
	umull	x14, w14, w16
	add	w13, w13, w17, lsr #2
	add	x13, x13, x15, lsr #39
	sub	x13, x13, x14, lsr #37
	add	w12, w13, w12
	b.hs	.LBB22_96
// %bb.95:                              //   in Loop: Header=BB22_12 Depth=1
	mov	x13, xzr
	b	.LBB22_99
.LBB22_96:                              // %vector.ph121
                                        //   in Loop: Header=BB22_12 Depth=1
	dup	v0.4s, w12
	ldp	x14, x15, [sp, #24]             // 16-byte Folded Reload
	and	x13, x8, #0x78
	and	x16, x22, #0x78
.LBB22_97:                              // %vector.body126
                                        //   Parent Loop BB22_12 Depth=1
                                        // =>  This Inner Loop Header: Depth=2
	ldp	q1, q2, [x14, #-16]
	subs	x16, x16, #8
	add	x14, x14, #32
	uqsub	v1.4s, v1.4s, v0.4s
	uqsub	v2.4s, v2.4s, v0.4s
	stp	q1, q2, [x15, #-16]
	add	x15, x15, #32
	b.ne	.LBB22_97
// %bb.98:                              // %middle.block131
                                        //   in Loop: Header=BB22_12 Depth=1
	cmp	x13, x8
	b.eq	.LBB22_101
.LBB22_99:                              // %join.5.i.i29.i.i.i.i.i.preheader
                                        //   in Loop: Header=BB22_12 Depth=1
	lsl	x15, x13, #2
	ldr	x16, [sp, #64]                  // 8-byte Reload
	add	x14, sp, #1696
	sub	x13, x22, x13
	add	x14, x14, x15
	add	x15, x16, x15
.LBB22_100:                             // %join.5.i.i29.i.i.i.i.i
                                        //   Parent Loop BB22_12 Depth=1
                                        // =>  This Inner Loop Header: Depth=2
	ldr	w16, [x15], #4
	subs	w16, w16, w12
	csel	w16, wzr, w16, lo
	subs	x13, x13, #1
	str	w16, [x14], #4
	b.ne	.LBB22_100
.LBB22_101:                             // %"dates::runs::put_elapsed.exit.i.thread.i.i.i.i"
                                        //   in Loop: Header=BB22_12 Depth=1
	ldr	w12, [sp, #60]                  // 4-byte Reload
	cmp	w12, #2
	b.ne	.LBB22_104
// %bb.102:                             // %join.5.i.i34.i.i.i.i.i.preheader
                                        //   in Loop: Header=BB22_12 Depth=1
	cmp	w9, #4
	b.hs	.LBB22_106
// %bb.103:                             //   in Loop: Header=BB22_12 Depth=1
	mov	x9, xzr
	b	.LBB22_109
.LBB22_104:                             // %join.5.i.i44.i.i.i.i.i.preheader
                                        //   in Loop: Header=BB22_12 Depth=1
	cmp	w9, #8
	b.hs	.LBB22_111
// %bb.105:                             //   in Loop: Header=BB22_12 Depth=1
	mov	x9, xzr
	b	.LBB22_114
.LBB22_106:                             // %vector.ph92
                                        //   in Loop: Header=BB22_12 Depth=1
	ldr	x12, [sp, #40]                  // 8-byte Reload
	and	x9, x8, #0x7c
	add	x11, sp, #1440
.LBB22_107:                             // %vector.body95
                                        //   Parent Loop BB22_12 Depth=1
                                        // =>  This Inner Loop Header: Depth=2
	movi	v0.4s, #31
	movi	v1.4s, #30
	ldur	q2, [x12, #-4]
	ldr	q3, [x12], #16
	subs	x10, x10, #4
	and	v4.16b, v3.16b, v0.16b
	and	v5.16b, v2.16b, v1.16b
	and	v6.16b, v2.16b, v0.16b
	ushr	v2.4s, v2.4s, #5
	ushr	v3.4s, v3.4s, #5
	cmeq	v7.4s, v4.4s, v0.4s
	cmeq	v5.4s, v5.4s, v1.4s
	cmeq	v0.4s, v6.4s, v0.4s
	and	v5.16b, v5.16b, v7.16b
	bsl	v0.16b, v1.16b, v6.16b
	bit	v4.16b, v1.16b, v5.16b
	mla	v0.4s, v2.4s, v1.4s
	mla	v4.4s, v3.4s, v1.4s
	uqsub	v0.4s, v4.4s, v0.4s
	str	q0, [x11], #16
	b.ne	.LBB22_107
// %bb.108:                             // %middle.block99
                                        //   in Loop: Header=BB22_12 Depth=1
	cmp	x9, x8
	b.eq	.LBB22_116
.LBB22_109:                             // %join.5.i.i34.i.i.i.i.i.preheader2
                                        //   in Loop: Header=BB22_12 Depth=1
	lsl	x10, x9, #2
	add	x11, sp, #1440
	sub	x8, x22, x9
	add	x9, x11, x10
	ldr	x11, [sp, #40]                  // 8-byte Reload
	add	x10, x11, x10
.LBB22_110:                             // %join.5.i.i34.i.i.i.i.i
                                        //   Parent Loop BB22_12 Depth=1
                                        // =>  This Inner Loop Header: Depth=2
	ldp	w11, w12, [x10, #-4]
	mov	w14, #30                        // =0x1e
	add	x10, x10, #4
	and	w13, w11, #0x1f
	and	w15, w12, #0x1f
	lsr	w16, w11, #5
	cmp	w13, #31
	bic	w11, w14, w11
	lsr	w12, w12, #5
	csel	w13, w14, w13, eq
	cmp	w15, #31
	ccmp	w11, #0, #0, eq
	madd	w13, w16, w14, w13
	csel	w11, w14, w15, eq
	madd	w11, w12, w14, w11
	subs	w11, w11, w13
	csel	w11, wzr, w11, lo
	subs	x8, x8, #1
	str	w11, [x9], #4
	b.ne	.LBB22_110
	b	.LBB22_116
.LBB22_111:                             // %vector.ph105
                                        //   in Loop: Header=BB22_12 Depth=1
	ldp	x10, x12, [sp, #8]              // 16-byte Folded Reload
	and	x9, x8, #0x78
.LBB22_112:                             // %vector.body108
                                        //   Parent Loop BB22_12 Depth=1
                                        // =>  This Inner Loop Header: Depth=2
	ldp	q1, q3, [x10, #-16]
	subs	x11, x11, #8
	ldur	q0, [x10, #-12]
	ldur	q2, [x10, #4]
	add	x10, x10, #32
	uqsub	v0.4s, v0.4s, v1.4s
	uqsub	v1.4s, v2.4s, v3.4s
	stp	q0, q1, [x12, #-16]
	add	x12, x12, #32
	b.ne	.LBB22_112
// %bb.113:                             // %middle.block115
                                        //   in Loop: Header=BB22_12 Depth=1
	cmp	x9, x8
	b.eq	.LBB22_116
.LBB22_114:                             // %join.5.i.i44.i.i.i.i.i.preheader3
                                        //   in Loop: Header=BB22_12 Depth=1
	lsl	x10, x9, #2
	add	x11, sp, #1440
	sub	x8, x22, x9
	add	x9, x11, x10
	ldr	x11, [sp, #64]                  // 8-byte Reload
	add	x10, x11, x10
.LBB22_115:                             // %join.5.i.i44.i.i.i.i.i
                                        //   Parent Loop BB22_12 Depth=1
                                        // =>  This Inner Loop Header: Depth=2
	ldp	w12, w11, [x10, #-4]
	add	x10, x10, #4
	subs	w11, w11, w12
	csel	w11, wzr, w11, lo
	subs	x8, x8, #1
	str	w11, [x9], #4
	b.ne	.LBB22_115
.LBB22_116:                             // %join.6.i.i.i.i.preheader
                                        //   in Loop: Header=BB22_12 Depth=1
	add	x8, sp, #1696
	add	x9, sp, #928
	mov	x10, x22
.LBB22_117:                             // %join.6.i.i.i.i
                                        //   Parent Loop BB22_12 Depth=1
                                        // =>  This Inner Loop Header: Depth=2
	ldr	w11, [x8], #4
	subs	x10, x10, #1
	ucvtf	d0, w11
	mov	x11, #228698418577408           // =0xd00000000000
	movk	x11, #16502, lsl #48
	fmov	d1, x11
	//ARITH_FENCE
	fdiv	d0, d0, d1
	str	d0, [x9], #8
	b.ne	.LBB22_117
// %bb.118:                             // %join.6.i7.i.i.i.preheader
                                        //   in Loop: Header=BB22_12 Depth=1
	add	x8, sp, #1440
	add	x9, sp, #416
	mov	x10, x22
.LBB22_119:                             // %join.6.i7.i.i.i
                                        //   Parent Loop BB22_12 Depth=1
                                        // =>  This Inner Loop Header: Depth=2
	ldr	w11, [x8], #4
	subs	x10, x10, #1
	ucvtf	d0, w11
	//ARITH_FENCE
	fdiv	d0, d0, d11
	str	d0, [x9], #8
	b.ne	.LBB22_119
.LBB22_120:                             // %"swaps::runs::put_periods.exit.i"
                                        //   in Loop: Header=BB22_12 Depth=1
	movi	v0.2d, #0000000000000000
	lsl	x27, x26, #3
	add	x0, sp, #2224
	add	x1, sp, #928
	add	x28, sp, #2224
	add	x20, sp, #928
	mov	x2, x27
	str	q0, [sp, #2720]
	str	q0, [sp, #2704]
	str	q0, [sp, #2688]
	str	q0, [sp, #2672]
	str	q0, [sp, #2656]
	str	q0, [sp, #2640]
	str	q0, [sp, #2624]
	str	q0, [sp, #2608]
	str	q0, [sp, #2592]
	str	q0, [sp, #2576]
	str	q0, [sp, #2560]
	str	q0, [sp, #2544]
	str	q0, [sp, #2528]
	str	q0, [sp, #2512]
	str	q0, [sp, #2496]
	str	q0, [sp, #2480]
	str	q0, [sp, #2464]
	str	q0, [sp, #2448]
	str	q0, [sp, #2432]
	str	q0, [sp, #2416]
	str	q0, [sp, #2400]
	str	q0, [sp, #2384]
	str	q0, [sp, #2368]
	str	q0, [sp, #2352]
	str	q0, [sp, #2336]
	str	q0, [sp, #2320]
	str	q0, [sp, #2304]
	str	q0, [sp, #2288]
	str	q0, [sp, #2272]
	str	q0, [sp, #2256]
	str	q0, [sp, #2240]
	str	q0, [sp, #2224]
	bl	memcpy
	ldp	x2, x3, [sp, #304]              // 16-byte Folded Reload
	add	x6, sp, #2224
	ldp	x4, x5, [sp, #264]              // 16-byte Folded Reload
	mov	w0, #1                          // =0x1
	mov	w1, #1                          // =0x1
	mov	x7, x26
	bl	"curves::each::answer_onward"
	add	x0, sp, #2224
	mov	x1, x26
	bl	"elementary::exp::exp_each"
	ldp	q5, q4, [sp, #384]              // 32-byte Folded Reload
	mov	x8, xzr
	ldr	q6, [sp, #288]                  // 16-byte Reload
	ldr	q7, [sp, #368]                  // 16-byte Reload
.LBB22_121:                             // %arm.3.i.i.i
                                        //   Parent Loop BB22_12 Depth=1
                                        // =>  This Inner Loop Header: Depth=2
	fmov	d0, d7
	ldr	d7, [x28, x8, lsl #3]
	fmov	d1, #-1.00000000
	add	x9, sp, #416
	mov	v2.16b, v6.16b
	fdiv	d0, d0, d7
	fadd	d0, d0, d1
	ldr	d1, [x9, x8, lsl #3]
	fdiv	d0, d0, d1
	fmul	d0, d8, d0
	mov	v2.d[1], v0.d[0]
	fmov	d0, d1
	//ARITH_FENCE
	fcmp	d0, d10
	fmul	v0.2d, v2.2d, v1.d[0]
	ldr	d2, [x20, x8, lsl #3]
	dup	v1.2d, v1.d[0]
	add	x8, x8, #1
	cset	w9, eq
	cmp	x22, x8
	dup	v3.2s, w9
	fmul	d2, d2, d0
	fmul	v0.2d, v0.2d, v7.d[0]
	ushll	v3.2d, v3.2s, #0
	mov	v1.d[1], v2.d[0]
	shl	v2.2d, v3.2d, #63
	fmul	v1.2d, v1.2d, v7.d[0]
	cmge	v2.2d, v2.2d, #0
	and	v1.16b, v2.16b, v1.16b
	and	v0.16b, v2.16b, v0.16b
	fadd	v4.2d, v4.2d, v0.2d
	fadd	v5.2d, v5.2d, v1.2d
	b.ne	.LBB22_121
// %bb.122:                             // %"swaps::legs::add_on.exit.i.loopexit"
                                        //   in Loop: Header=BB22_12 Depth=1
	ldr	w8, [sp, #236]                  // 4-byte Reload
	stp	q7, q5, [sp, #368]              // 32-byte Folded Spill
	str	q4, [sp, #400]                  // 16-byte Spill
	cbz	w8, .LBB22_126
// %bb.123:                             // %then.5.i
                                        //   in Loop: Header=BB22_12 Depth=1
	movi	v0.2d, #0000000000000000
	add	x0, sp, #2224
	add	x1, sp, #928
	mov	x2, x27
	add	x22, sp, #2224
	add	x27, sp, #928
	str	q0, [sp, #2720]
	str	q0, [sp, #2704]
	str	q0, [sp, #2688]
	str	q0, [sp, #2672]
	str	q0, [sp, #2656]
	str	q0, [sp, #2640]
	str	q0, [sp, #2624]
	str	q0, [sp, #2608]
	str	q0, [sp, #2592]
	str	q0, [sp, #2576]
	str	q0, [sp, #2560]
	str	q0, [sp, #2544]
	str	q0, [sp, #2528]
	str	q0, [sp, #2512]
	str	q0, [sp, #2496]
	str	q0, [sp, #2480]
	str	q0, [sp, #2464]
	str	q0, [sp, #2448]
	str	q0, [sp, #2432]
	str	q0, [sp, #2416]
	str	q0, [sp, #2400]
	str	q0, [sp, #2384]
	str	q0, [sp, #2368]
	str	q0, [sp, #2352]
	str	q0, [sp, #2336]
	str	q0, [sp, #2320]
	str	q0, [sp, #2304]
	str	q0, [sp, #2288]
	str	q0, [sp, #2272]
	str	q0, [sp, #2256]
	str	q0, [sp, #2240]
	str	q0, [sp, #2224]
	bl	memcpy
	ldp	x2, x3, [sp, #304]              // 16-byte Folded Reload
	add	x6, sp, #2224
	ldp	x4, x5, [sp, #168]              // 16-byte Folded Reload
	mov	w0, #1                          // =0x1
	mov	w1, #1                          // =0x1
	mov	x7, x26
	bl	"curves::each::answer_onward"
	add	x0, sp, #2224
	mov	x1, x26
	bl	"elementary::exp::exp_each"
	ldp	q22, q21, [sp, #336]            // 32-byte Folded Reload
	add	x8, sp, #416
	ldr	q4, [sp, #288]                  // 16-byte Reload
	ldr	q23, [sp, #320]                 // 16-byte Reload
.LBB22_124:                             // %arm.3.i.i43.i
                                        //   Parent Loop BB22_12 Depth=1
                                        // =>  This Inner Loop Header: Depth=2
	fmov	d0, d21
	ldr	d21, [x22], #8
	fmov	d1, #-1.00000000
	mov	v2.16b, v4.16b
	sub	x26, x26, #1
	fdiv	d0, d0, d21
	fadd	d0, d0, d1
	ldr	d1, [x8], #8
	fdiv	d0, d0, d1
	fmul	d0, d8, d0
	mov	v2.d[1], v0.d[0]
	fmov	d0, d1
	//ARITH_FENCE
	fcmp	d0, d10
	fmul	v0.2d, v2.2d, v1.d[0]
	ldr	d2, [x27], #8
	dup	v1.2d, v1.d[0]
	cset	w9, eq
	dup	v3.2s, w9
	fmul	d2, d2, d0
	fmul	v0.2d, v0.2d, v21.d[0]
	ushll	v3.2d, v3.2s, #0
	mov	v1.d[1], v2.d[0]
	shl	v2.2d, v3.2d, #63
	fmul	v1.2d, v1.2d, v21.d[0]
	cmge	v2.2d, v2.2d, #0
	and	v1.16b, v2.16b, v1.16b
	and	v0.16b, v2.16b, v0.16b
	fadd	v22.2d, v22.2d, v0.2d
	fadd	v23.2d, v23.2d, v1.2d
	cbnz	x26, .LBB22_124
// %bb.125:                             // %"swaps::legs::add_on.exit83.i.loopexit"
                                        //   in Loop: Header=BB22_12 Depth=1
	ldr	q1, [sp, #240]                  // 16-byte Reload
	cmp	x23, #65
	b.hs	.LBB22_127
	b	.LBB22_132
.LBB22_126:                             //   in Loop: Header=BB22_12 Depth=1
	ldp	q22, q21, [sp, #336]            // 32-byte Folded Reload
	ldr	q1, [sp, #240]                  // 16-byte Reload
	ldr	q23, [sp, #320]                 // 16-byte Reload
	cmp	x23, #65
	b.lo	.LBB22_132
.LBB22_127:                             // %"swaps::legs::add_run.exit"
                                        //   in Loop: Header=BB22_12 Depth=1
	ldr	x7, [sp, #224]                  // 8-byte Reload
	add	x19, x19, #64
	add	w21, w21, #1
	sub	w25, w25, #64
	add	w24, w24, #64
	cmp	w7, w19
	b.hi	.LBB22_12
	b	.LBB22_132
.LBB22_128:                             // %join.3.i.i.i
	movi	d4, #0000000000000000
	//ARITH_FENCE
	fcmp	d4, d3
	cset	w8, mi
	//APP
	//NO_APP
	cbz	w8, .LBB22_131
// %bb.129:                             // %then.4.i.i.i
	fadd	d2, d2, d2
	fmov	d3, #1.00000000
	movi	v22.2d, #0000000000000000
	movi	v23.2d, #0000000000000000
	fmov	d21, #1.00000000
	//ARITH_FENCE
	fmov	d4, d2
	//ARITH_FENCE
	fcmp	d3, d4
	movi	v3.2d, #0000000000000000
	cset	w8, hi
	stp	q3, q3, [sp, #384]              // 32-byte Folded Spill
	fmov	d3, #1.00000000
	//APP
	//NO_APP
	str	q3, [sp, #368]                  // 16-byte Spill
	cbnz	w8, .LBB22_132
// %bb.130:                             // %then.1.i.i.i.i
	fmov	x8, d2
	mov	x10, #4503599627370496          // =0x10000000000000
	mov	w11, #1075                      // =0x433
	lsr	x9, x8, #52
	bfxil	x10, x8, #0, #52
	lsr	x12, x8, #54
	sub	x11, x11, x9
	sub	x9, x9, #1075
	cmp	x12, #269
	lsr	x10, x10, x11
	lsl	x8, x8, x9
	csel	x8, x10, x8, lo
	add	x8, x8, #1
	lsr	x7, x8, #1
	cbnz	w7, .LBB22_11
.LBB22_131:
	movi	v0.2d, #0000000000000000
	movi	v22.2d, #0000000000000000
	movi	v23.2d, #0000000000000000
	fmov	d21, #1.00000000
	stp	q0, q0, [sp, #384]              // 32-byte Folded Spill
	fmov	d0, #1.00000000
	str	q0, [sp, #368]                  // 16-byte Spill
.LBB22_132:                             // %after.1
	ldr	x8, [sp, #96]                   // 8-byte Reload
	ldr	q0, [sp, #400]                  // 16-byte Reload
	str	q0, [x8]
	ldr	q0, [sp, #384]                  // 16-byte Reload
	stur	q22, [x8, #40]
	str	q0, [x8, #16]
	ldr	q0, [sp, #368]                  // 16-byte Reload
	stur	q23, [x8, #56]
	str	d0, [x8, #32]
	str	d21, [x8, #72]
	add	sp, sp, #2752
	ldp	x20, x19, [sp, #112]            // 16-byte Folded Reload
	ldp	x22, x21, [sp, #96]             // 16-byte Folded Reload
	ldp	x24, x23, [sp, #80]             // 16-byte Folded Reload
	ldp	x26, x25, [sp, #64]             // 16-byte Folded Reload
	ldp	x28, x27, [sp, #48]             // 16-byte Folded Reload
	ldp	x29, x30, [sp, #32]             // 16-byte Folded Reload
	ldp	d9, d8, [sp, #16]               // 16-byte Folded Reload
	ldp	d11, d10, [sp], #128            // 16-byte Folded Reload
	ret
.LBB22_133:                             // %join.8.i.i.i
	cmp	w11, #1
	b.ne	.LBB22_136
// %bb.134:                             // %arm.1.i.i.i.i.i
	tst	w8, #0x3
	mov	w11, #28                        // =0x1c
	b.ne	.LBB22_7
// %bb.135:                             // %then.1.i.i.i.i.i.i
	mov	w12, #23593                     // =0x5c29
	mul	w12, w8, w12
	lsl	w13, w12, #12
	lsl	w14, w12, #14
	bfxil	w13, w12, #4, #12
	bfxil	w14, w12, #2, #14
	and	w12, w13, #0xffff
	and	w13, w14, #0xffff
	cmp	w12, #164
	mov	w12, #655                       // =0x28f
	ccmp	w13, w12, #2, hs
	cinc	w11, w11, hi
	b	.LBB22_7
.LBB22_136:                             // %default.3.i.i.i.i.i
	mov	w11, #31                        // =0x1f
	b	.LBB22_7
.LBB22_137:                             // %trap.1.i.i.i
	brk	#0x1
.Lfunc_end22:
	.size	"swaps::legs::payment_sums", .Lfunc_end22-"swaps::legs::payment_sums"
                                        // -- End function
	.section	".text.swaps::discount::discount_of","ax",@progbits
	.p2align	2                               // -- Begin function swaps::discount::discount_of
	.type	"swaps::discount::discount_of",@function
"swaps::discount::discount_of":         // @"swaps::discount::discount_of"
// %bb.0:                               // %start
	fmov	d1, d0
	//ARITH_FENCE
	cbz	x1, .LBB23_8
// %bb.1:                               // %"curves::segments::knot_at.exit.i"
	ldr	d2, [x0]
	//ARITH_FENCE
	fcmp	d1, d2
	cset	w8, hi
	//APP
	//NO_APP
	cbz	w8, .LBB23_15
// %bb.2:                               // %"curves::segments::last_knot.exit.i"
	add	x8, x0, x1, lsl #3
	ldur	d2, [x8, #-8]
	//ARITH_FENCE
	fcmp	d2, d1
	cset	w8, hi
	//APP
	//NO_APP
	cbz	w8, .LBB23_17
// %bb.3:                               // %join.6.i
	cmp	x1, #1
	b.eq	.LBB23_10
// %bb.4:                               // %join.5.i.i.i.i.preheader
	mov	x8, xzr
	mov	x9, x1
	b	.LBB23_6
.LBB23_5:                               // %select.end
                                        //   in Loop: Header=BB23_6 Depth=1
	sub	x9, x9, x10
	cmp	x9, #1
	b.ls	.LBB23_11
.LBB23_6:                               // %join.5.i.i.i.i
                                        // =>This Inner Loop Header: Depth=1
	lsr	x10, x9, #1
	add	x11, x10, x8
	ldr	d2, [x0, x11, lsl #3]
	//ARITH_FENCE
	fcmp	d1, d2
	cset	w12, ls
	//APP
	//NO_APP
	cbnz	w12, .LBB23_5
// %bb.7:                               // %select.false
                                        //   in Loop: Header=BB23_6 Depth=1
	mov	x8, x11
	b	.LBB23_5
.LBB23_8:                               // %"curves::segments::knot_at.exit.thread.i"
	mov	x8, #9221120237041090560        // =0x7ff8000000000000
	fmov	d2, x8
	//ARITH_FENCE
	fcmp	d1, d2
	cset	w8, hi
	//APP
	//NO_APP
	cbz	w8, .LBB23_15
// %bb.9:                               // %"curves::segments::last_knot.exit.i.thread"
	fcmp	d2, d1
	cset	w8, hi
	//APP
	//NO_APP
	cbz	w8, .LBB23_17
.LBB23_10:
	mov	x8, xzr
.LBB23_11:                              // %"curves::kinds::segment_on.exit.i"
	cmp	x8, x1
	b.hs	.LBB23_20
// %bb.12:                              // %then.2.i.i
	lsl	x9, x8, #3
	add	x10, x8, #1
	cmp	x10, x1
	ldr	d2, [x0, x9]
	b.hs	.LBB23_25
// %bb.13:                              // %then.2.i.i
	cmp	x10, x3
	b.hs	.LBB23_25
// %bb.14:                              // %then.8.i.i
	add	x8, x9, #8
	ldr	d4, [x2, x9]
	ldr	d3, [x0, x8]
	ldr	d5, [x2, x8]
	b	.LBB23_28
.LBB23_15:                              // %then.1.i
	cbz	x3, .LBB23_19
// %bb.16:                              // %arm.1.i.i10.i
	ldr	d2, [x2]
	b	.LBB23_29
.LBB23_17:                              // %then.4.i
	cbz	x3, .LBB23_19
// %bb.18:                              // %arm.1.i.i17.i
	add	x8, x2, x3, lsl #3
	ldur	d2, [x8, #-8]
	b	.LBB23_29
.LBB23_19:
	mov	x8, #9221120237041090560        // =0x7ff8000000000000
	fmov	d2, x8
	b	.LBB23_29
.LBB23_20:
	mov	x9, #9221120237041090560        // =0x7ff8000000000000
	fmov	d2, x9
	fmov	d3, d2
.LBB23_21:                              // %"curves::segments::knot_after.exit.i.i"
	cmp	x8, x3
	b.hs	.LBB23_24
// %bb.22:                              // %then.1.i19.i.i
	add	x9, x8, #1
	ldr	d4, [x2, x8, lsl #3]
	cmp	x9, x3
	b.hs	.LBB23_27
// %bb.23:                              // %arm.1.i.i.i22.i.i
	ldr	d5, [x2, x9, lsl #3]
	b	.LBB23_28
.LBB23_24:
	mov	x8, #9221120237041090560        // =0x7ff8000000000000
	fmov	d4, x8
	fmov	d5, d4
	b	.LBB23_28
.LBB23_25:                              // %then.1.i.i.i
	cmp	x10, x1
	b.hs	.LBB23_30
// %bb.26:                              // %arm.1.i.i.i.i.i
	ldr	d3, [x0, x10, lsl #3]
	b	.LBB23_21
.LBB23_27:
	mov	x8, #9221120237041090560        // =0x7ff8000000000000
	fmov	d5, x8
.LBB23_28:                              // %"curves::segments::ends_of.exit.i"
	fsub	d6, d0, d2
	fsub	d2, d3, d2
	fmov	d3, #1.00000000
	fdiv	d2, d6, d2
	fsub	d3, d3, d2
	fmul	d2, d5, d2
	fmul	d3, d4, d3
	fadd	d2, d2, d3
.LBB23_29:                              // %"curves::lookups::rate_of.exit"
	movi	d3, #0000000000000000
	fnmul	d0, d2, d0
	//ARITH_FENCE
	fcmp	d1, d3
	movi	d1, #0000000000000000
	cset	w8, hi
	//APP
	//NO_APP
	cmp	w8, #0
	fcsel	d0, d0, d1, ne
	b	"elementary::exp::exp"
.LBB23_30:
	mov	x9, #9221120237041090560        // =0x7ff8000000000000
	fmov	d3, x9
	b	.LBB23_21
.Lfunc_end23:
	.size	"swaps::discount::discount_of", .Lfunc_end23-"swaps::discount::discount_of"
                                        // -- End function
	.section	".text.swaps::legs::floating_leg_pv","ax",@progbits
	.p2align	2                               // -- Begin function swaps::legs::floating_leg_pv
	.type	"swaps::legs::floating_leg_pv",@function
"swaps::legs::floating_leg_pv":         // @"swaps::legs::floating_leg_pv"
// %bb.0:                               // %start
	sub	sp, sp, #304
	stp	x26, x25, [sp, #240]            // 16-byte Folded Spill
	ldrb	w26, [x1]
	ldur	q0, [x1, #8]
	ldur	q1, [x1, #24]
	stp	x24, x23, [sp, #256]            // 16-byte Folded Spill
	mov	x24, x1
	stp	x20, x19, [sp, #288]            // 16-byte Folded Spill
	mov	x19, x0
	add	x0, sp, #8
	add	x1, sp, #24
	stp	d9, d8, [sp, #192]              // 16-byte Folded Spill
	mov	x20, x5
	stp	x29, x30, [sp, #208]            // 16-byte Folded Spill
	add	x29, sp, #208
	mov	x23, x2
	str	x28, [sp, #224]                 // 8-byte Spill
	stp	x22, x21, [sp, #272]            // 16-byte Folded Spill
	mov	x21, x4
	mov	x22, x3
	str	x26, [sp, #24]
	stp	q0, q1, [sp, #32]
	str	xzr, [sp, #8]
	str	wzr, [sp, #16]
	bl	"swaps::judging::judge_any"
	ldrb	w25, [sp, #8]
	cmp	w25, #1
	b.ne	.LBB24_2
// %bb.1:                               // %arm.1
	ldr	w8, [sp, #12]
	ldr	s0, [sp, #16]
	b	.LBB24_5
.LBB24_2:                               // %arm.2
	movi	v1.2d, #0000000000000000
	ldur	q0, [x24, #8]
	ldur	q2, [x24, #24]
	sub	x8, x29, #56
	add	x0, sp, #64
	sub	x1, x29, #56
	mov	x2, x23
	mov	x3, x22
	mov	x4, x21
	mov	x5, x20
	mov	x6, x21
	mov	x7, x20
	stur	x26, [x29, #-56]
	stur	q0, [x8, #8]
	stur	q2, [x8, #24]
	stp	q1, q1, [sp, #64]
	stp	q1, q1, [sp, #96]
	str	q1, [sp, #128]
	strb	wzr, [sp]
	bl	"swaps::legs::payment_sums"
	ldr	d8, [sp, #72]
	ldur	d9, [x29, #-48]
	ldur	d0, [x29, #-32]
	cbz	w26, .LBB24_4
// %bb.3:                               // %arm.2.i.i.i
	fmov	x8, d0
	ldur	w1, [x29, #-24]
	lsr	x0, x8, #32
                                        // kill: def $w0 killed $w0 killed $x0
	bl	"dates::counts::actual_days"
	ucvtf	d0, w0
	mov	x8, #228698418577408            // =0xd00000000000
	movk	x8, #16502, lsl #48
	fmov	d1, x8
	//ARITH_FENCE
	fdiv	d0, d0, d1
.LBB24_4:                               // %"swaps::legs::legs_of.exit"
	mov	x0, x23
	mov	x1, x22
	mov	x2, x21
	mov	x3, x20
	bl	"swaps::discount::discount_of"
	fmul	d0, d9, d0
	mov	w8, wzr
	fadd	d0, d8, d0
.LBB24_5:                               // %join.4
	stp	w25, w8, [x19]
	ldp	x22, x21, [sp, #272]            // 16-byte Folded Reload
	str	d0, [x19, #8]
	ldr	x28, [sp, #224]                 // 8-byte Reload
	ldp	x20, x19, [sp, #288]            // 16-byte Folded Reload
	ldp	x24, x23, [sp, #256]            // 16-byte Folded Reload
	ldp	x26, x25, [sp, #240]            // 16-byte Folded Reload
	ldp	x29, x30, [sp, #208]            // 16-byte Folded Reload
	ldp	d9, d8, [sp, #192]              // 16-byte Folded Reload
	add	sp, sp, #304
	ret
.Lfunc_end24:
	.size	"swaps::legs::floating_leg_pv", .Lfunc_end24-"swaps::legs::floating_leg_pv"
                                        // -- End function
	.section	".text.swaps::valuation::par_swap_rate","ax",@progbits
	.p2align	2                               // -- Begin function swaps::valuation::par_swap_rate
	.type	"swaps::valuation::par_swap_rate",@function
"swaps::valuation::par_swap_rate":      // @"swaps::valuation::par_swap_rate"
// %bb.0:                               // %start
	sub	sp, sp, #288
	stp	x26, x25, [sp, #224]            // 16-byte Folded Spill
	ldrb	w26, [x1]
	ldur	q0, [x1, #8]
	ldur	q1, [x1, #24]
	stp	x24, x23, [sp, #240]            // 16-byte Folded Spill
	mov	x24, x1
	stp	x20, x19, [sp, #272]            // 16-byte Folded Spill
	mov	x19, x0
	add	x0, sp, #8
	add	x1, sp, #24
	str	d8, [sp, #192]                  // 8-byte Spill
	mov	x20, x5
	stp	x29, x30, [sp, #200]            // 16-byte Folded Spill
	add	x29, sp, #200
	mov	x23, x2
	str	x28, [sp, #216]                 // 8-byte Spill
	stp	x22, x21, [sp, #256]            // 16-byte Folded Spill
	mov	x21, x4
	mov	x22, x3
	str	x26, [sp, #24]
	stp	q0, q1, [sp, #32]
	str	xzr, [sp, #8]
	str	wzr, [sp, #16]
	bl	"swaps::judging::judge_any"
	ldrb	w25, [sp, #8]
	cmp	w25, #1
	b.ne	.LBB25_2
// %bb.1:                               // %arm.1
	ldr	w8, [sp, #12]
	ldr	s0, [sp, #16]
	b	.LBB25_5
.LBB25_2:                               // %arm.2
	movi	v1.2d, #0000000000000000
	ldur	q0, [x24, #8]
	ldur	q2, [x24, #24]
	sub	x8, x29, #48
	add	x0, sp, #64
	sub	x1, x29, #48
	mov	x2, x23
	mov	x3, x22
	mov	x4, x21
	mov	x5, x20
	mov	x6, x21
	mov	x7, x20
	stur	x26, [x29, #-48]
	stur	q0, [x8, #8]
	stur	q2, [x8, #24]
	stp	q1, q1, [sp, #64]
	stp	q1, q1, [sp, #96]
	str	q1, [sp, #128]
	strb	wzr, [sp]
	bl	"swaps::legs::payment_sums"
	ldr	d8, [sp, #80]
	ldur	d0, [x29, #-24]
	cbz	w26, .LBB25_4
// %bb.3:                               // %arm.2.i.i.i
	fmov	x8, d0
	ldur	w1, [x29, #-16]
	lsr	x0, x8, #32
                                        // kill: def $w0 killed $w0 killed $x0
	bl	"dates::counts::actual_days"
	ucvtf	d0, w0
	mov	x8, #228698418577408            // =0xd00000000000
	movk	x8, #16502, lsl #48
	fmov	d1, x8
	//ARITH_FENCE
	fdiv	d0, d0, d1
.LBB25_4:                               // %"swaps::legs::legs_of.exit"
	mov	x0, x23
	mov	x1, x22
	mov	x2, x21
	mov	x3, x20
	bl	"swaps::discount::discount_of"
	fmov	d1, #1.00000000
	mov	w8, wzr
	fsub	d0, d1, d0
	fdiv	d0, d0, d8
.LBB25_5:                               // %join.4
	stp	w25, w8, [x19]
	ldp	x22, x21, [sp, #256]            // 16-byte Folded Reload
	str	d0, [x19, #8]
	ldr	x28, [sp, #216]                 // 8-byte Reload
	ldr	d8, [sp, #192]                  // 8-byte Reload
	ldp	x20, x19, [sp, #272]            // 16-byte Folded Reload
	ldp	x24, x23, [sp, #240]            // 16-byte Folded Reload
	ldp	x26, x25, [sp, #224]            // 16-byte Folded Reload
	ldp	x29, x30, [sp, #200]            // 16-byte Folded Reload
	add	sp, sp, #288
	ret
.Lfunc_end25:
	.size	"swaps::valuation::par_swap_rate", .Lfunc_end25-"swaps::valuation::par_swap_rate"
                                        // -- End function
	.section	".text.swaps::valuation::swap_duration","ax",@progbits
	.p2align	2                               // -- Begin function swaps::valuation::swap_duration
	.type	"swaps::valuation::swap_duration",@function
"swaps::valuation::swap_duration":      // @"swaps::valuation::swap_duration"
// %bb.0:                               // %start
	sub	sp, sp, #320
	stp	x26, x25, [sp, #256]            // 16-byte Folded Spill
	ldrb	w26, [x1]
	ldur	q0, [x1, #8]
	ldur	q1, [x1, #24]
	stp	x24, x23, [sp, #272]            // 16-byte Folded Spill
	mov	x24, x1
	stp	x20, x19, [sp, #304]            // 16-byte Folded Spill
	mov	x19, x0
	add	x0, sp, #8
	add	x1, sp, #24
	stp	d11, d10, [sp, #192]            // 16-byte Folded Spill
	mov	x20, x5
	stp	d9, d8, [sp, #208]              // 16-byte Folded Spill
	mov	x23, x2
	stp	x29, x30, [sp, #224]            // 16-byte Folded Spill
	add	x29, sp, #224
	stp	x28, x27, [sp, #240]            // 16-byte Folded Spill
	stp	x22, x21, [sp, #288]            // 16-byte Folded Spill
	mov	x21, x4
	mov	x22, x3
	str	x26, [sp, #24]
	stp	q0, q1, [sp, #32]
	str	xzr, [sp, #8]
	str	wzr, [sp, #16]
	bl	"swaps::judging::judge_any"
	ldrb	w25, [sp, #8]
	cmp	w25, #1
	b.ne	.LBB26_2
// %bb.1:                               // %arm.1
	ldr	w8, [sp, #12]
	ldr	s1, [sp, #16]
	b	.LBB26_9
.LBB26_2:                               // %arm.2
	movi	v1.2d, #0000000000000000
	ldur	q0, [x24, #8]
	ldur	q2, [x24, #24]
	sub	x8, x29, #72
	add	x0, sp, #64
	sub	x1, x29, #72
	mov	x2, x23
	mov	x3, x22
	mov	x4, x21
	mov	x5, x20
	mov	x6, x21
	mov	x7, x20
	stur	x26, [x29, #-72]
	stur	q0, [x8, #8]
	stur	q2, [x8, #24]
	stp	q1, q1, [sp, #64]
	stp	q1, q1, [sp, #96]
	str	q1, [sp, #128]
	strb	wzr, [sp]
	bl	"swaps::legs::payment_sums"
	ldr	d11, [sp, #64]
	ldr	d9, [sp, #88]
	ldur	d10, [x29, #-64]
	ldur	d8, [x29, #-48]
	cbz	w26, .LBB26_4
// %bb.3:                               // %arm.2.i.i.i
	fmov	x8, d8
	ldur	w1, [x29, #-40]
	lsr	x0, x8, #32
                                        // kill: def $w0 killed $w0 killed $x0
	bl	"dates::counts::actual_days"
	mov	x8, #228698418577408            // =0xd00000000000
	ucvtf	d0, w0
	movk	x8, #16502, lsl #48
	fmov	d1, x8
	//ARITH_FENCE
	fdiv	d8, d0, d1
.LBB26_4:                               // %"swaps::legs::legs_of.exit"
	fmov	d0, d8
	mov	x0, x23
	mov	x1, x22
	mov	x2, x21
	mov	x3, x20
	bl	"swaps::discount::discount_of"
	fmul	d1, d10, d0
	movi	d3, #0000000000000000
	fadd	d2, d11, d1
	movi	d1, #0000000000000000
	//ARITH_FENCE
	fmov	d4, d2
	//ARITH_FENCE
	fcmp	d4, d3
	b.eq	.LBB26_8
// %bb.5:                               // %join.3.i
	fmul	d1, d10, d8
	ldr	x24, [sp, #56]
	fmul	d0, d1, d0
	fadd	d0, d9, d0
	fdiv	d8, d0, d2
	ldr	d0, [sp, #48]
	fmov	x27, d0
	cbz	w26, .LBB26_7
// %bb.6:                               // %arm.2.i.i
	lsr	x0, x27, #32
	mov	w1, w24
                                        // kill: def $w0 killed $w0 killed $x0
	bl	"dates::counts::actual_days"
	ucvtf	d0, w0
	mov	x8, #228698418577408            // =0xd00000000000
	movk	x8, #16502, lsl #48
	fmov	d1, x8
	//ARITH_FENCE
	fdiv	d0, d0, d1
.LBB26_7:                               // %"swaps::terms::end.exit.i"
	mov	x0, x23
	mov	x1, x22
	mov	x2, x21
	mov	x3, x20
	bl	"swaps::discount::zero_rate_of"
	ucvtf	d1, w24
	ucvtf	d2, w27
	cmp	w26, #0
	//ARITH_FENCE
	//ARITH_FENCE
	fcsel	d1, d1, d2, eq
	fdiv	d0, d0, d1
	fmov	d1, #1.00000000
	fadd	d0, d0, d1
	fdiv	d1, d8, d0
.LBB26_8:                               // %join.4
	mov	w8, wzr
.LBB26_9:                               // %join.4
	stp	w25, w8, [x19]
	ldp	x22, x21, [sp, #288]            // 16-byte Folded Reload
	str	d1, [x19, #8]
	ldp	x20, x19, [sp, #304]            // 16-byte Folded Reload
	ldp	x24, x23, [sp, #272]            // 16-byte Folded Reload
	ldp	x26, x25, [sp, #256]            // 16-byte Folded Reload
	ldp	x28, x27, [sp, #240]            // 16-byte Folded Reload
	ldp	x29, x30, [sp, #224]            // 16-byte Folded Reload
	ldp	d9, d8, [sp, #208]              // 16-byte Folded Reload
	ldp	d11, d10, [sp, #192]            // 16-byte Folded Reload
	add	sp, sp, #320
	ret
.Lfunc_end26:
	.size	"swaps::valuation::swap_duration", .Lfunc_end26-"swaps::valuation::swap_duration"
                                        // -- End function
	.section	".text.swaps::discount::zero_rate_of","ax",@progbits
	.p2align	2                               // -- Begin function swaps::discount::zero_rate_of
	.type	"swaps::discount::zero_rate_of",@function
"swaps::discount::zero_rate_of":        // @"swaps::discount::zero_rate_of"
// %bb.0:                               // %start
	cbz	x1, .LBB27_8
// %bb.1:                               // %"curves::segments::knot_at.exit.i"
	fmov	d1, d0
	ldr	d2, [x0]
	//ARITH_FENCE
	//ARITH_FENCE
	fcmp	d1, d2
	cset	w8, hi
	//APP
	//NO_APP
	cbz	w8, .LBB27_15
// %bb.2:                               // %"curves::segments::last_knot.exit.i"
	add	x8, x0, x1, lsl #3
	ldur	d2, [x8, #-8]
	//ARITH_FENCE
	fcmp	d2, d1
	cset	w8, hi
	//APP
	//NO_APP
	cbz	w8, .LBB27_17
// %bb.3:                               // %join.6.i
	cmp	x1, #1
	b.eq	.LBB27_10
// %bb.4:                               // %join.5.i.i.i.i.preheader
	mov	x8, xzr
	mov	x9, x1
	b	.LBB27_6
.LBB27_5:                               // %select.end
                                        //   in Loop: Header=BB27_6 Depth=1
	sub	x9, x9, x10
	cmp	x9, #1
	b.ls	.LBB27_11
.LBB27_6:                               // %join.5.i.i.i.i
                                        // =>This Inner Loop Header: Depth=1
	lsr	x10, x9, #1
	add	x11, x10, x8
	ldr	d2, [x0, x11, lsl #3]
	//ARITH_FENCE
	fcmp	d1, d2
	cset	w12, ls
	//APP
	//NO_APP
	cbnz	w12, .LBB27_5
// %bb.7:                               // %select.false
                                        //   in Loop: Header=BB27_6 Depth=1
	mov	x8, x11
	b	.LBB27_5
.LBB27_8:                               // %"curves::segments::knot_at.exit.thread.i"
	mov	x8, #9221120237041090560        // =0x7ff8000000000000
	fmov	d1, d0
	fmov	d2, x8
	//ARITH_FENCE
	//ARITH_FENCE
	fcmp	d1, d2
	cset	w8, hi
	//APP
	//NO_APP
	cbz	w8, .LBB27_15
// %bb.9:                               // %"curves::segments::last_knot.exit.i.thread"
	fcmp	d2, d1
	cset	w8, hi
	//APP
	//NO_APP
	cbz	w8, .LBB27_17
.LBB27_10:
	mov	x8, xzr
.LBB27_11:                              // %"curves::kinds::segment_on.exit.i"
	cmp	x8, x1
	b.hs	.LBB27_20
// %bb.12:                              // %then.2.i.i
	lsl	x9, x8, #3
	add	x10, x8, #1
	cmp	x10, x1
	ldr	d1, [x0, x9]
	b.hs	.LBB27_25
// %bb.13:                              // %then.2.i.i
	cmp	x10, x3
	b.hs	.LBB27_25
// %bb.14:                              // %then.8.i.i
	add	x8, x9, #8
	ldr	d3, [x2, x9]
	ldr	d2, [x0, x8]
	ldr	d4, [x2, x8]
	b	.LBB27_28
.LBB27_15:                              // %then.1.i
	cbz	x3, .LBB27_19
// %bb.16:                              // %arm.1.i.i10.i
	ldr	d0, [x2]
	ret
.LBB27_17:                              // %then.4.i
	cbz	x3, .LBB27_19
// %bb.18:                              // %arm.1.i.i17.i
	add	x8, x2, x3, lsl #3
	ldur	d0, [x8, #-8]
	ret
.LBB27_19:
	mov	x8, #9221120237041090560        // =0x7ff8000000000000
	fmov	d0, x8
	ret
.LBB27_20:
	mov	x9, #9221120237041090560        // =0x7ff8000000000000
	fmov	d1, x9
	fmov	d2, d1
.LBB27_21:                              // %"curves::segments::knot_after.exit.i.i"
	cmp	x8, x3
	b.hs	.LBB27_24
// %bb.22:                              // %then.1.i19.i.i
	add	x9, x8, #1
	ldr	d3, [x2, x8, lsl #3]
	cmp	x9, x3
	b.hs	.LBB27_27
// %bb.23:                              // %arm.1.i.i.i22.i.i
	ldr	d4, [x2, x9, lsl #3]
	b	.LBB27_28
.LBB27_24:
	mov	x8, #9221120237041090560        // =0x7ff8000000000000
	fmov	d3, x8
	fmov	d4, d3
	b	.LBB27_28
.LBB27_25:                              // %then.1.i.i.i
	cmp	x10, x1
	b.hs	.LBB27_29
// %bb.26:                              // %arm.1.i.i.i.i.i
	ldr	d2, [x0, x10, lsl #3]
	b	.LBB27_21
.LBB27_27:
	mov	x8, #9221120237041090560        // =0x7ff8000000000000
	fmov	d4, x8
.LBB27_28:                              // %"curves::segments::ends_of.exit.i"
	fsub	d0, d0, d1
	fsub	d1, d2, d1
	fdiv	d0, d0, d1
	fmov	d1, #1.00000000
	fsub	d1, d1, d0
	fmul	d0, d4, d0
	fmul	d1, d3, d1
	fadd	d0, d0, d1
	ret
.LBB27_29:
	mov	x9, #9221120237041090560        // =0x7ff8000000000000
	fmov	d2, x9
	b	.LBB27_21
.Lfunc_end27:
	.size	"swaps::discount::zero_rate_of", .Lfunc_end27-"swaps::discount::zero_rate_of"
                                        // -- End function
	.section	.rodata.cst8,"aM",@progbits,8
	.p2align	3, 0x0                          // -- Begin function swaps::valuation::legs_with_bump
.LCPI28_0:
	.xword	0x3f1a36e2eb1c432d              // double 1.0E-4
	.section	".text.swaps::valuation::legs_with_bump","ax",@progbits
	.p2align	2
	.type	"swaps::valuation::legs_with_bump",@function
"swaps::valuation::legs_with_bump":     // @"swaps::valuation::legs_with_bump"
// %bb.0:                               // %start
	stp	d15, d14, [sp, #-160]!          // 16-byte Folded Spill
	stp	d13, d12, [sp, #16]             // 16-byte Folded Spill
	stp	d11, d10, [sp, #32]             // 16-byte Folded Spill
	stp	d9, d8, [sp, #48]               // 16-byte Folded Spill
	stp	x29, x30, [sp, #64]             // 16-byte Folded Spill
	add	x29, sp, #64
	str	x28, [sp, #80]                  // 8-byte Spill
	stp	x26, x25, [sp, #96]             // 16-byte Folded Spill
	stp	x24, x23, [sp, #112]            // 16-byte Folded Spill
	stp	x22, x21, [sp, #128]            // 16-byte Folded Spill
	stp	x20, x19, [sp, #144]            // 16-byte Folded Spill
	sub	sp, sp, #1120
	str	xzr, [sp]
	mov	x24, x1
	mov	x22, x2
	mov	x19, x0
	ldrb	w25, [x24], #8
	add	x0, sp, #32
	mov	w1, wzr
	mov	w2, #960                        // =0x3c0
	mov	x20, x5
	mov	x23, x4
	mov	x21, x3
	sub	x26, x29, #104
	bl	memset
	cbz	x20, .LBB28_8
// %bb.1:                               // %join.6.i.preheader
	cmp	x20, #4
	b.hs	.LBB28_3
// %bb.2:
	mov	x8, xzr
	b	.LBB28_6
.LBB28_3:                               // %vector.ph
	add	x9, sp, #32
	and	x8, x20, #0xfffffffffffffffc
	add	x10, x23, #16
	add	x9, x9, #16
	and	x11, x20, #0xfffffffffffffffc
.LBB28_4:                               // %vector.body
                                        // =>This Inner Loop Header: Depth=1
	mov	x12, #17197                     // =0x432d
	ldp	q1, q2, [x10, #-16]
	movk	x12, #60188, lsl #16
	subs	x11, x11, #4
	add	x10, x10, #32
	movk	x12, #14050, lsl #32
	movk	x12, #16154, lsl #48
	dup	v0.2d, x12
	fadd	v1.2d, v1.2d, v0.2d
	fadd	v0.2d, v2.2d, v0.2d
	stp	q1, q0, [x9, #-16]
	add	x9, x9, #32
	b.ne	.LBB28_4
// %bb.5:                               // %middle.block
	cmp	x20, x8
	b.eq	.LBB28_8
.LBB28_6:                               // %join.6.i.preheader1
	lsl	x10, x8, #3
	add	x9, sp, #32
	sub	x8, x20, x8
	add	x9, x9, x10
	add	x10, x23, x10
.LBB28_7:                               // %join.6.i
                                        // =>This Inner Loop Header: Depth=1
	adrp	x11, .LCPI28_0
	ldr	d0, [x10], #8
	ldr	d1, [x11, :lo12:.LCPI28_0]
	subs	x8, x8, #1
	fadd	d0, d0, d1
	str	d0, [x9], #8
	b.ne	.LBB28_7
.LBB28_8:                               // %"swaps::valuation::bump.exit"
	movi	v1.2d, #0000000000000000
	ldp	q0, q2, [x24]
	mov	w8, #1                          // =0x1
	sub	x0, x29, #192
	sub	x1, x29, #104
	add	x6, sp, #32
	mov	x2, x22
	mov	x3, x21
	mov	x4, x23
	mov	x5, x20
	mov	x7, x20
	stur	x25, [x29, #-104]
	stur	q0, [x26, #8]
	stur	q2, [x26, #24]
	stp	q1, q1, [x29, #-192]
	stp	q1, q1, [x29, #-160]
	stur	q1, [x29, #-128]
	strb	w8, [sp]
	bl	"swaps::legs::payment_sums"
	ldp	d10, d11, [x29, #-192]
	ldur	d15, [x29, #-96]
	ldp	d0, d12, [x29, #-176]
	ldur	d8, [x29, #-80]
	ldp	d2, d3, [x29, #-152]
	ldp	d14, d1, [x29, #-136]
	str	d0, [x29, #24]                  // 8-byte Spill
	str	d3, [sp, #8]                    // 8-byte Spill
	stp	d2, d1, [sp, #16]               // 16-byte Folded Spill
	cbz	w25, .LBB28_10
// %bb.9:                               // %arm.2.i.i17.i
	fmov	x8, d8
	ldur	w1, [x29, #-72]
	lsr	x0, x8, #32
                                        // kill: def $w0 killed $w0 killed $x0
	bl	"dates::counts::actual_days"
	mov	x8, #228698418577408            // =0xd00000000000
	ucvtf	d0, w0
	movk	x8, #16502, lsl #48
	fmov	d1, x8
	//ARITH_FENCE
	fdiv	d8, d0, d1
.LBB28_10:                              // %"swaps::legs::both_legs_of.exit"
	fmov	d0, d8
	mov	x0, x22
	mov	x1, x21
	mov	x2, x23
	mov	x3, x20
	bl	"swaps::discount::discount_of"
	fmul	d13, d15, d8
	fmov	d9, d0
	add	x2, sp, #32
	mov	x0, x22
	mov	x1, x21
	mov	x3, x20
	fmul	d0, d0, d13
	fmul	d1, d15, d9
	fadd	d12, d12, d0
	fmov	d0, d8
	fadd	d11, d11, d1
	fadd	d10, d10, d1
	bl	"swaps::discount::discount_of"
	fmul	d1, d15, d0
	ldp	d4, d3, [sp, #8]                // 16-byte Folded Reload
	fmul	d2, d13, d0
	stp	d10, d11, [x19]
	fadd	d3, d3, d1
	fadd	d1, d4, d1
	ldr	d4, [x29, #24]                  // 8-byte Reload
	stp	d4, d12, [x19, #16]
	ldr	d4, [sp, #24]                   // 8-byte Reload
	fadd	d2, d4, d2
	stp	d9, d3, [x19, #32]
	stp	d1, d14, [x19, #48]
	stp	d2, d0, [x19, #64]
	add	sp, sp, #1120
	ldp	x20, x19, [sp, #144]            // 16-byte Folded Reload
	ldr	x28, [sp, #80]                  // 8-byte Reload
	ldp	x22, x21, [sp, #128]            // 16-byte Folded Reload
	ldp	x24, x23, [sp, #112]            // 16-byte Folded Reload
	ldp	x26, x25, [sp, #96]             // 16-byte Folded Reload
	ldp	x29, x30, [sp, #64]             // 16-byte Folded Reload
	ldp	d9, d8, [sp, #48]               // 16-byte Folded Reload
	ldp	d11, d10, [sp, #32]             // 16-byte Folded Reload
	ldp	d13, d12, [sp, #16]             // 16-byte Folded Reload
	ldp	d15, d14, [sp], #160            // 16-byte Folded Reload
	ret
.Lfunc_end28:
	.size	"swaps::valuation::legs_with_bump", .Lfunc_end28-"swaps::valuation::legs_with_bump"
                                        // -- End function
	.section	".text.swaps::valuation::swap_npv","ax",@progbits
	.p2align	2                               // -- Begin function swaps::valuation::swap_npv
	.type	"swaps::valuation::swap_npv",@function
"swaps::valuation::swap_npv":           // @"swaps::valuation::swap_npv"
// %bb.0:                               // %start
	sub	sp, sp, #320
	stp	x28, x27, [sp, #240]            // 16-byte Folded Spill
	ldrb	w27, [x1]
	ldur	q0, [x1, #8]
	ldur	q1, [x1, #24]
	stp	x26, x25, [sp, #256]            // 16-byte Folded Spill
	mov	x25, x1
	stp	x20, x19, [sp, #304]            // 16-byte Folded Spill
	mov	x19, x0
	add	x0, sp, #8
	add	x1, sp, #24
	str	d10, [sp, #192]                 // 8-byte Spill
	mov	w20, w6
	stp	d9, d8, [sp, #208]              // 16-byte Folded Spill
	stp	x29, x30, [sp, #224]            // 16-byte Folded Spill
	add	x29, sp, #224
	stp	x24, x23, [sp, #272]            // 16-byte Folded Spill
	mov	x23, x3
	mov	x24, x2
	stp	x22, x21, [sp, #288]            // 16-byte Folded Spill
	mov	x21, x5
	mov	x22, x4
	str	x27, [sp, #24]
	stp	q0, q1, [sp, #32]
	str	xzr, [sp, #8]
	str	wzr, [sp, #16]
	bl	"swaps::judging::judge_any"
	ldrb	w26, [sp, #8]
	cmp	w26, #1
	b.ne	.LBB29_2
// %bb.1:                               // %arm.1
	ldr	w8, [sp, #12]
	ldr	s0, [sp, #16]
	b	.LBB29_5
.LBB29_2:                               // %arm.2
	movi	v1.2d, #0000000000000000
	ldur	q0, [x25, #8]
	ldur	q2, [x25, #24]
	sub	x8, x29, #72
	add	x0, sp, #64
	sub	x1, x29, #72
	mov	x2, x24
	mov	x3, x23
	mov	x4, x22
	mov	x5, x21
	mov	x6, x22
	mov	x7, x21
	stur	x27, [x29, #-72]
	stur	q0, [x8, #8]
	stur	q2, [x8, #24]
	stp	q1, q1, [sp, #64]
	stp	q1, q1, [sp, #96]
	str	q1, [sp, #128]
	strb	wzr, [sp]
	bl	"swaps::legs::payment_sums"
	ldp	d8, d9, [sp, #64]
	ldur	d10, [x29, #-64]
	ldur	d0, [x29, #-48]
	cbz	w27, .LBB29_4
// %bb.3:                               // %arm.2.i.i.i
	fmov	x8, d0
	ldur	w1, [x29, #-40]
	lsr	x0, x8, #32
                                        // kill: def $w0 killed $w0 killed $x0
	bl	"dates::counts::actual_days"
	ucvtf	d0, w0
	mov	x8, #228698418577408            // =0xd00000000000
	movk	x8, #16502, lsl #48
	fmov	d1, x8
	//ARITH_FENCE
	fdiv	d0, d0, d1
.LBB29_4:                               // %"swaps::legs::legs_of.exit"
	mov	x0, x24
	mov	x1, x23
	mov	x2, x22
	mov	x3, x21
	bl	"swaps::discount::discount_of"
	fmul	d0, d10, d0
	cmp	w20, #0
	mov	w8, wzr
	fadd	d1, d8, d0
	fadd	d0, d9, d0
	fsub	d2, d1, d0
	fsub	d0, d0, d1
	fcsel	d0, d2, d0, ne
.LBB29_5:                               // %join.4
	stp	w26, w8, [x19]
	ldp	x22, x21, [sp, #288]            // 16-byte Folded Reload
	str	d0, [x19, #8]
	ldr	d10, [sp, #192]                 // 8-byte Reload
	ldp	x20, x19, [sp, #304]            // 16-byte Folded Reload
	ldp	x24, x23, [sp, #272]            // 16-byte Folded Reload
	ldp	x26, x25, [sp, #256]            // 16-byte Folded Reload
	ldp	x28, x27, [sp, #240]            // 16-byte Folded Reload
	ldp	x29, x30, [sp, #224]            // 16-byte Folded Reload
	ldp	d9, d8, [sp, #208]              // 16-byte Folded Reload
	add	sp, sp, #320
	ret
.Lfunc_end29:
	.size	"swaps::valuation::swap_npv", .Lfunc_end29-"swaps::valuation::swap_npv"
                                        // -- End function
	.section	".text.mortgage::draws::draw_kind","ax",@progbits
	.p2align	2                               // -- Begin function mortgage::draws::draw_kind
	.type	"mortgage::draws::draw_kind",@function
"mortgage::draws::draw_kind":           // @"mortgage::draws::draw_kind"
// %bb.0:                               // %start
	sub	sp, sp, #256
	stp	x20, x19, [sp, #240]            // 16-byte Folded Spill
	ldr	w19, [x2]
	mov	w12, #1                         // =0x1
	str	d14, [sp, #96]                  // 8-byte Spill
	sub	w9, w19, #1201
	stp	d13, d12, [sp, #112]            // 16-byte Folded Spill
	cmn	w9, #1200
	stp	d11, d10, [sp, #128]            // 16-byte Folded Spill
	stp	d9, d8, [sp, #144]              // 16-byte Folded Spill
	stp	x29, x30, [sp, #160]            // 16-byte Folded Spill
	add	x29, sp, #160
	stp	x28, x27, [sp, #176]            // 16-byte Folded Spill
	stp	x26, x25, [sp, #192]            // 16-byte Folded Spill
	stp	x24, x23, [sp, #208]            // 16-byte Folded Spill
	stp	x22, x21, [sp, #224]            // 16-byte Folded Spill
	b.hs	.LBB30_2
// %bb.1:
	mov	w8, #1                          // =0x1
	b	.LBB30_42
.LBB30_2:                               // %join.3.i
	ldrb	w13, [x1]
	mov	x8, x2
	ldr	w2, [x1, #4]
	ldr	w9, [x8, #24]
	cmp	w13, #2
	csel	w14, w2, w19, eq
	cmp	w14, w9
	b.hs	.LBB30_4
// %bb.3:
	mov	w8, #9                          // =0x9
	b	.LBB30_42
.LBB30_4:                               // %join.6.i
	ldp	d3, d8, [x1, #8]
	cmp	x6, #4
	ldp	d2, d1, [x8, #8]
	ldr	d4, [x1, #24]
	ldr	w11, [x8, #4]
	ldr	w10, [x8, #28]
	ldr	d0, [x8, #32]
	b.hi	.LBB30_7
// %bb.5:                               // %join.6.i
	cmp	w9, w14
	b.hs	.LBB30_7
// %bb.6:
	mov	w8, #2                          // =0x2
	b	.LBB30_42
.LBB30_7:                               // %after.7.i
	cmp	w13, #1
	b.gt	.LBB30_10
// %bb.8:                               // %after.7.i
	cbnz	w13, .LBB30_18
// %bb.9:                               // %"mortgage::rows::kind_rows_due.exit.i.thread80"
	mov	x8, #-3689348814741910324       // =0xcccccccccccccccc
	subs	w12, w19, w9
	mov	w13, #-1                        // =0xffffffff
	movk	x8, #52429
	csel	w12, wzr, w12, lo
	mov	x22, x0
	umulh	x8, x6, x8
	mov	w2, wzr
	mov	w3, w19
	b	.LBB30_13
.LBB30_10:                              // %after.7.i
	cmp	w13, #2
	b.ne	.LBB30_40
// %bb.11:                              // %arm.4.i.i
	sub	w8, w2, #1
	cmp	w8, w19
	b.hs	.LBB30_41
// %bb.12:                              // %arm.1.thread72
	mov	x8, #-3689348814741910324       // =0xcccccccccccccccc
	subs	w12, w2, w9
	mov	w13, #-1                        // =0xffffffff
	movk	x8, #52429
	csel	w12, wzr, w12, lo
	mov	x22, x0
	umulh	x8, x6, x8
	mov	w3, w2
	mov	w2, wzr
.LBB30_13:                              // %then.1.i.i.i
	lsr	x8, x8, #2
	cmp	x8, x12
	csel	x20, x8, x12, lo
	cmp	x8, x13
	csel	x8, x8, x13, lo
                                        // kill: def $w20 killed $w20 killed $x20 def $x20
	subs	w8, w12, w8
	csel	w21, wzr, w8, lo
.LBB30_14:                              // %then.1.i.i.i
	movi	v3.2d, #0000000000000000
	stp	w19, w11, [sp, #8]
	stp	d2, d1, [sp, #16]
	stp	w9, w10, [sp, #32]
	str	d0, [sp, #40]
	stp	q3, q3, [sp, #48]
	str	xzr, [sp, #80]
	cbz	w20, .LBB30_16
// %bb.15:                              // %join.3.i.i.i.i14
	mvn	w8, w9
	add	x0, sp, #48
	add	x1, sp, #8
	add	w8, w3, w8
	mov	x4, x5
	mov	w5, w20
	cmp	w8, w20
	csel	w6, w8, w20, lo
	bl	"mortgage::draws::lay_rows"
	ldp	w19, w11, [sp, #48]
	ldp	d2, d1, [sp, #56]
	ldr	d0, [sp, #80]
	ldp	w9, w10, [sp, #72]
.LBB30_16:                              // %"mortgage::draws::lay_stretch.exit.i.i.i"
	mov	x0, x22
.LBB30_17:                              // %"mortgage::draws::lay_due.exit"
	mov	w8, w19
	str	xzr, [x0]
	orr	x8, x8, x11, lsl #32
	stp	w20, w21, [x0, #8]
	stp	d2, d1, [x0, #24]
	str	x8, [x0, #16]
	stp	w9, w10, [x0, #40]
	str	d0, [x0, #48]
	b	.LBB30_43
.LBB30_18:                              // %arm.3.i11.i
	mov	w8, #15                         // =0xf
	cbz	w2, .LBB30_42
// %bb.19:                              // %arm.3.i11.i
	cmp	w19, w2
	b.ls	.LBB30_42
// %bb.20:                              // %"mortgage::rows::kind_rows_due.exit.i.thread87"
	mov	x8, #-3689348814741910324       // =0xcccccccccccccccc
	subs	w12, w19, w9
	mov	w13, #-1                        // =0xffffffff
	movk	x8, #52429
	csel	w12, wzr, w12, lo
	umulh	x8, x6, x8
	lsr	x8, x8, #2
	cmp	x8, x12
	csel	x20, x8, x12, lo
	cmp	x8, x13
	csel	x8, x8, x13, lo
                                        // kill: def $w20 killed $w20 killed $x20 def $x20
	subs	w8, w12, w8
	csel	w21, wzr, w8, lo
.LBB30_21:                              // %"mortgage::kinds::course_of.exit.i.i"
	subs	w8, w2, w9
	b.ls	.LBB30_57
// %bb.22:                              // %join.3.i.i.i
	cmp	w8, w20
	csel	w12, w8, w20, lo
	cbz	w12, .LBB30_60
// %bb.23:                              // %join.5.lr.ph.i.i.i.i
	fmov	d3, #12.00000000
	movi	d4, #0000000000000000
	add	x10, x5, #16
	mov	x11, x12
	fdiv	d3, d2, d3
	//ARITH_FENCE
	b	.LBB30_27
.LBB30_24:                              // %then.1.i.i.i13.i.i
                                        //   in Loop: Header=BB30_27 Depth=1
	movi	d6, #0000000000000000
	fadd	d7, d0, d6
	fmov	d16, d7
	//ARITH_FENCE
	fcmp	d4, d16
	cset	w13, mi
	//APP
	//NO_APP
	cbz	w13, .LBB30_37
.LBB30_25:                              // %select.end28
                                        //   in Loop: Header=BB30_27 Depth=1
	add	w9, w9, #1
	fmov	d16, d5
.LBB30_26:                              // %"mortgage::rows::any_month.exit.i.i.i.i"
                                        //   in Loop: Header=BB30_27 Depth=1
	ucvtf	d17, w9
	stp	d6, d5, [x10]
	subs	x11, x11, #1
	str	d7, [x10, #16]
	//ARITH_FENCE
	stp	d17, d16, [x10, #-16]
	add	x10, x10, #40
	b.eq	.LBB30_59
.LBB30_27:                              // %join.5.i.i.i.i
                                        // =>This Inner Loop Header: Depth=1
	fmul	d5, d3, d0
	cmp	w9, w2
	b.lo	.LBB30_24
// %bb.28:                              // %join.3.i.i.i10.i.i
                                        //   in Loop: Header=BB30_27 Depth=1
	add	w9, w9, #1
	cmp	w9, w19
	b.ne	.LBB30_31
// %bb.29:                              // %then.4.i.i.i.i.i
                                        //   in Loop: Header=BB30_27 Depth=1
	fsub	d17, d0, d0
	movi	d7, #0000000000000000
	fadd	d16, d0, d5
	fadd	d18, d17, d7
	fmov	d6, d18
	//ARITH_FENCE
	fcmp	d4, d6
	cset	w9, mi
	//APP
	//NO_APP
	cbz	w9, .LBB30_38
// %bb.30:                              //   in Loop: Header=BB30_27 Depth=1
	mov	w9, w19
	fmov	d6, d0
	fmov	d7, d18
	fmov	d0, d17
	b	.LBB30_26
.LBB30_31:                              // %join.6.i.i.i.i.i
                                        //   in Loop: Header=BB30_27 Depth=1
	fsub	d6, d1, d5
	fmov	d7, d6
	//ARITH_FENCE
	fcmp	d4, d7
	cset	w13, mi
	//APP
	//NO_APP
	cbnz	w13, .LBB30_33
// %bb.32:                              // %select.false
                                        //   in Loop: Header=BB30_27 Depth=1
	movi	d6, #0000000000000000
.LBB30_33:                              // %select.end
                                        //   in Loop: Header=BB30_27 Depth=1
	fmov	d7, d6
	fmov	d16, d0
	//ARITH_FENCE
	//ARITH_FENCE
	fcmp	d7, d16
	cset	w13, mi
	//APP
	//NO_APP
	cbnz	w13, .LBB30_35
// %bb.34:                              // %select.false23
                                        //   in Loop: Header=BB30_27 Depth=1
	fmov	d6, d0
.LBB30_35:                              // %select.end22
                                        //   in Loop: Header=BB30_27 Depth=1
	fsub	d0, d0, d6
	movi	d7, #0000000000000000
	fadd	d17, d0, d7
	fmov	d16, d17
	//ARITH_FENCE
	fcmp	d4, d16
	cset	w13, mi
	//APP
	//NO_APP
	cbz	w13, .LBB30_39
// %bb.36:                              //   in Loop: Header=BB30_27 Depth=1
	fmov	d16, d1
	fmov	d7, d17
	b	.LBB30_26
.LBB30_37:                              // %select.false29
                                        //   in Loop: Header=BB30_27 Depth=1
	movi	d7, #0000000000000000
	b	.LBB30_25
.LBB30_38:                              // %select.false27
                                        //   in Loop: Header=BB30_27 Depth=1
	mov	w9, w19
	fmov	d6, d0
	fmov	d0, d17
	b	.LBB30_26
.LBB30_39:                              // %select.false25
                                        //   in Loop: Header=BB30_27 Depth=1
	fmov	d16, d1
	b	.LBB30_26
.LBB30_40:                              // %arm.5.i.i
	fsub	d6, d3, d3
	movi	d5, #0000000000000000
	//ARITH_FENCE
	//ARITH_FENCE
	fcmp	d6, d5
	b.eq	.LBB30_44
.LBB30_41:
	mov	w8, #15                         // =0xf
.LBB30_42:                              // %arm.2
	movi	v0.2d, #0000000000000000
	strb	w8, [x0, #4]
	lsr	x8, x8, #32
	str	w12, [x0]
	sturh	wzr, [x0, #5]
	strb	wzr, [x0, #7]
	str	w8, [x0, #8]
	stur	q0, [x0, #12]
	stur	q0, [x0, #28]
	stur	q0, [x0, #40]
.LBB30_43:                              // %arm.2
	ldp	x20, x19, [sp, #240]            // 16-byte Folded Reload
	ldr	d14, [sp, #96]                  // 8-byte Reload
	ldp	x22, x21, [sp, #224]            // 16-byte Folded Reload
	ldp	x24, x23, [sp, #208]            // 16-byte Folded Reload
	ldp	x26, x25, [sp, #192]            // 16-byte Folded Reload
	ldp	x28, x27, [sp, #176]            // 16-byte Folded Reload
	ldp	x29, x30, [sp, #160]            // 16-byte Folded Reload
	ldp	d9, d8, [sp, #144]              // 16-byte Folded Reload
	ldp	d11, d10, [sp, #128]            // 16-byte Folded Reload
	ldp	d13, d12, [sp, #112]            // 16-byte Folded Reload
	add	sp, sp, #256
	ret
.LBB30_44:                              // %join.3.i.i.i.i
	fmov	d6, d8
	mov	w8, #15                         // =0xf
	//ARITH_FENCE
	fcmp	d6, d5
	cset	w14, mi
	//APP
	//NO_APP
	cbnz	w14, .LBB30_42
// %bb.45:                              // %join.3.i.i.i.i
	fsub	d6, d8, d8
	//ARITH_FENCE
	fcmp	d6, d5
	b.ne	.LBB30_42
// %bb.46:                              // %"mortgage::kinds::bad_adjustment.exit.i.i.i"
	fmov	d6, d4
	mov	w8, #15                         // =0xf
	//ARITH_FENCE
	fcmp	d6, d5
	cset	w14, mi
	//APP
	//NO_APP
	cbnz	w14, .LBB30_42
// %bb.47:                              // %"mortgage::kinds::bad_adjustment.exit.i.i.i"
	fsub	d6, d4, d4
	//ARITH_FENCE
	fcmp	d6, d5
	b.ne	.LBB30_42
// %bb.48:                              // %"mortgage::kinds::bad_adjustment.exit.i.i.i"
	sub	w14, w19, #1
	mov	w15, #43691                     // =0xaaab
	and	w14, w14, #0xffff
	mul	w14, w14, w15
	lsr	w14, w14, #19
	cmp	x4, x14
	b.lo	.LBB30_42
// %bb.49:                              // %after.1.i.i.i
	cmp	w19, #13
	b.hs	.LBB30_62
// %bb.50:                              // %"mortgage::rows::kind_rows_due.exit.i.thread"
	mov	x8, #-3689348814741910324       // =0xcccccccccccccccc
	subs	w12, w19, w9
	movk	x8, #52429
	csel	w12, wzr, w12, lo
	umulh	x8, x6, x8
	lsr	x8, x8, #2
	cmp	x8, x12
	csel	x20, x8, x12, lo
	sub	w21, w12, w20
.LBB30_51:                              // %arm.1.i.i
	movi	d10, #0000000000000000
	subs	w8, w19, w9
	mov	w24, wzr
	b.ls	.LBB30_68
// %bb.52:                              // %arm.1.i.i
	cbz	w9, .LBB30_68
// %bb.53:                              // %arm.1.i.i
	mov	w12, #43691                     // =0xaaab
	mov	w13, #12                        // =0xc
	movi	d14, #0000000000000000
	movk	w12, #43690, lsl #16
	umull	x12, w9, w12
	lsr	x12, x12, #35
	msub	w13, w12, w13, w9
	cbnz	w13, .LBB30_69
// %bb.54:                              // %after.1.i.i.i.i
	fsub	d5, d2, d8
	sub	w12, w12, #1
	fadd	d7, d8, d2
	ldr	d6, [x3, w12, uxtw #3]
	fmov	d14, #1.00000000
	fmov	d16, d6
	fmov	d17, d5
	//ARITH_FENCE
	//ARITH_FENCE
	fcmp	d16, d17
	fmov	d17, d7
	cset	w12, mi
	//APP
	//NO_APP
	//ARITH_FENCE
	fcmp	d17, d16
	cset	w13, mi
	//APP
	//NO_APP
	cmp	w13, #0
	fcsel	d6, d7, d6, ne
	cmp	w12, #0
	fadd	d7, d3, d4
	fcsel	d5, d5, d6, ne
	fmov	d6, d7
	fmov	d16, d5
	//ARITH_FENCE
	//ARITH_FENCE
	fcmp	d6, d16
	cset	w12, mi
	//APP
	//NO_APP
	cmp	w12, #0
	fcsel	d10, d7, d5, ne
	fmov	d5, #12.00000000
	fdiv	d6, d10, d5
	fmov	d5, #1.00000000
	fadd	d6, d6, d5
.LBB30_55:                              // %join.5.i.i.i.i.i.i
                                        // =>This Inner Loop Header: Depth=1
	tst	w8, #0x1
	lsr	w8, w8, #1
	fcsel	d7, d5, d6, eq
	fmul	d6, d6, d6
	fmul	d14, d14, d7
	cbnz	w8, .LBB30_55
// %bb.56:
	mov	w24, #1                         // =0x1
	b	.LBB30_69
.LBB30_57:
	mov	x22, x0
.LBB30_58:                              // %then.1.i.i.i
	mov	w3, w19
	b	.LBB30_14
.LBB30_59:
	mov	w10, wzr
.LBB30_60:                              // %"mortgage::draws::any_rows.exit.i.i.i"
	cmp	w8, w20
	b.hs	.LBB30_17
// %bb.61:                              // %join.6.i.i.i
	stp	d2, d1, [sp, #16]
	movi	v1.2d, #0000000000000000
	sub	w8, w20, w12
	stp	w9, w10, [sp, #32]
	mov	w10, #40                        // =0x28
	mvn	w9, w9
	umaddl	x4, w12, w10, x5
	add	w9, w19, w9
	mov	x22, x0
	cmp	w9, w8
	add	x0, sp, #48
	add	x1, sp, #8
	csel	w6, w9, w8, lo
	mov	w3, w19
	mov	w5, w8
	stp	w19, w11, [sp, #8]
	str	d0, [sp, #40]
	stp	q1, q1, [sp, #48]
	str	xzr, [sp, #80]
	bl	"mortgage::draws::lay_rows"
	ldp	w19, w11, [sp, #48]
	ldp	d2, d1, [sp, #56]
	mov	x0, x22
	ldp	w9, w10, [sp, #72]
	ldr	d0, [sp, #80]
	b	.LBB30_17
.LBB30_62:                              // %arm.3.i.i.i.i.i.preheader
	mov	w8, #15                         // =0xf
	mov	x15, x3
.LBB30_63:                              // %arm.3.i.i.i.i.i
                                        // =>This Inner Loop Header: Depth=1
	ldr	d6, [x15], #8
	fsub	d6, d6, d6
	//ARITH_FENCE
	fcmp	d6, d5
	b.ne	.LBB30_42
// %bb.64:                              // %join.9.i.i.i.i.i
                                        //   in Loop: Header=BB30_63 Depth=1
	mov	x16, #4294967296                // =0x100000000
	subs	x14, x14, #1
	add	x8, x8, x16
	b.ne	.LBB30_63
// %bb.65:                              // %"mortgage::rows::kind_rows_due.exit.i"
	mov	x8, #-3689348814741910324       // =0xcccccccccccccccc
	subs	w12, w19, w9
	movk	x8, #52429
	csel	w12, wzr, w12, lo
	umulh	x8, x6, x8
	lsr	x8, x8, #2
	cmp	x8, x12
	csel	x20, x8, x12, lo
	cmp	w13, #3
	sub	w21, w12, w20
	b.eq	.LBB30_51
// %bb.66:                              // %"mortgage::rows::kind_rows_due.exit.i"
	cmp	w13, #1
	b.eq	.LBB30_21
// %bb.67:                              // %"mortgage::rows::kind_rows_due.exit.i.then.1.i.i.i_crit_edge"
	mov	x22, x0
	mov	w2, wzr
	b	.LBB30_58
.LBB30_68:
	movi	d14, #0000000000000000
.LBB30_69:                              // %"mortgage::rates::coming_behind.exit.i.i.i"
	cbz	x20, .LBB30_17
// %bb.70:                              // %join.5.lr.ph.i.i.i
	fadd	d9, d3, d4
	movi	d11, #0000000000000000
	mov	w22, wzr
	fmov	d12, #1.00000000
	add	x23, x5, #72
	mov	w12, w19
	fmov	d13, d9
	//ARITH_FENCE
	//ARITH_FENCE
	//ARITH_FENCE
	b	.LBB30_72
.LBB30_71:                              // %join.3.i.i78.i.i.i
                                        //   in Loop: Header=BB30_72 Depth=1
	mov	w10, #40                        // =0x28
	mvn	w11, w11
	mov	x26, x0
	umaddl	x4, w9, w10, x13
	add	w9, w19, w11
	add	x0, sp, #48
	cmp	w9, w8
	add	x1, sp, #8
	mov	w2, wzr
	csel	w6, w9, w8, lo
	mov	x27, x3
	mov	w3, w19
	mov	x28, x5
	mov	w5, w8
	bl	"mortgage::draws::lay_rows"
	ldp	d2, d1, [sp, #56]
	mov	x3, x27
	ldp	w9, w10, [sp, #72]
	ldr	x12, [sp, #48]
	ldr	d0, [sp, #80]
	mov	x5, x28
	mov	x0, x26
	add	w22, w25, w22
	lsr	x11, x12, #32
	cmp	w22, w20
	b.hs	.LBB30_93
.LBB30_72:                              // %join.5.i.i.i
                                        // =>This Loop Header: Depth=1
                                        //     Child Loop BB30_80 Depth 2
                                        //     Child Loop BB30_90 Depth 2
	cmp	w24, #1
	b.ne	.LBB30_77
// %bb.73:                              // %arm.1.i.i.i.i
                                        //   in Loop: Header=BB30_72 Depth=1
	fmov	d1, d14
	mov	x11, xzr
	mov	w10, wzr
	//ARITH_FENCE
	fcmp	d1, d12
	b.ne	.LBB30_75
// %bb.74:                              // %then.1.i.i.i.i.i
                                        //   in Loop: Header=BB30_72 Depth=1
	sub	w8, w12, w9
	ucvtf	d1, w8
	//ARITH_FENCE
	fdiv	d1, d0, d1
	b	.LBB30_76
.LBB30_75:                              // %join.3.i.i.i.i.i
                                        //   in Loop: Header=BB30_72 Depth=1
	fmov	d1, #12.00000000
	fmov	d2, #-1.00000000
	fdiv	d1, d10, d1
	fadd	d2, d14, d2
	fmul	d1, d1, d0
	fmul	d1, d14, d1
	fdiv	d1, d1, d2
.LBB30_76:                              // %"mortgage::rates::with_coming.exit.i.i.i"
                                        //   in Loop: Header=BB30_72 Depth=1
	fmov	d2, d10
.LBB30_77:                              // %"mortgage::rates::with_coming.exit.i.i.i"
                                        //   in Loop: Header=BB30_72 Depth=1
	mov	w8, #43691                      // =0xaaab
	mov	w14, #12                        // =0xc
	neg	w15, w9
	movk	w8, #43690, lsl #16
	umull	x13, w9, w8
	lsr	x13, x13, #35
	madd	w13, w13, w14, w15
	sub	w15, w20, w22
	add	w13, w13, #12
	cmp	w15, w13
	csel	w25, w15, w13, lo
	add	w15, w25, w9
	umull	x8, w15, w8
	lsr	x13, x8, #35
	subs	w8, w12, w15
	ccmp	w15, #0, #4, hi
	msub	w14, w13, w14, w15
	ccmp	w14, #0, #0, ne
	b.eq	.LBB30_79
// %bb.78:                              //   in Loop: Header=BB30_72 Depth=1
	movi	d10, #0000000000000000
	movi	d14, #0000000000000000
	mov	w24, wzr
	b	.LBB30_82
.LBB30_79:                              // %after.1.i24.i.i.i
                                        //   in Loop: Header=BB30_72 Depth=1
	fsub	d3, d2, d8
	sub	w13, w13, #1
	fadd	d5, d8, d2
	ldr	d4, [x3, w13, uxtw #3]
	fmov	d14, #1.00000000
	fmov	d6, d4
	fmov	d7, d3
	//ARITH_FENCE
	//ARITH_FENCE
	fcmp	d6, d7
	fmov	d7, d5
	cset	w13, mi
	//APP
	//NO_APP
	//ARITH_FENCE
	fcmp	d7, d6
	cset	w14, mi
	//APP
	//NO_APP
	cmp	w14, #0
	fcsel	d4, d5, d4, ne
	cmp	w13, #0
	fcsel	d3, d3, d4, ne
	fmov	d4, d3
	//ARITH_FENCE
	fcmp	d13, d4
	cset	w13, mi
	//APP
	//NO_APP
	cmp	w13, #0
	fcsel	d10, d9, d3, ne
	fmov	d3, #12.00000000
	fdiv	d4, d10, d3
	fmov	d3, #1.00000000
	fadd	d4, d4, d3
.LBB30_80:                              // %join.5.i.i.i53.i.i.i
                                        //   Parent Loop BB30_72 Depth=1
                                        // =>  This Inner Loop Header: Depth=2
	tst	w8, #0x1
	lsr	w8, w8, #1
	fcsel	d5, d3, d4, eq
	fmul	d4, d4, d4
	fmul	d14, d14, d5
	cbnz	w8, .LBB30_80
// %bb.81:                              //   in Loop: Header=BB30_72 Depth=1
	mov	w24, #1                         // =0x1
.LBB30_82:                              // %"mortgage::rates::coming_behind.exit67.i.i.i"
                                        //   in Loop: Header=BB30_72 Depth=1
	mvn	w8, w9
	mov	w14, #40                        // =0x28
	add	w15, w19, w8
	umaddl	x13, w22, w14, x5
	lsl	x8, x11, #32
	cmp	w15, w25
	csel	w15, w15, w25, lo
	cbz	w15, .LBB30_84
// %bb.83:                              // %join.5.lr.ph.i.i.i.i.i
                                        //   in Loop: Header=BB30_72 Depth=1
	fmov	d3, #12.00000000
	fmov	d7, d0
	fdiv	d3, d2, d3
	//ARITH_FENCE
	fmul	d4, d0, d3
	fsub	d5, d1, d4
	fmov	d6, d5
	//ARITH_FENCE
	fcmp	d11, d6
	cset	w11, mi
	fcmp	d6, d7
	//APP
	//NO_APP
	cset	w16, mi
	cmp	w11, #0
	//APP
	//NO_APP
	ccmp	w16, #0, #4, ne
	b.ne	.LBB30_87
.LBB30_84:                              //   in Loop: Header=BB30_72 Depth=1
	mov	w11, w9
.LBB30_85:                              // %"mortgage::draws::ordinary_rows.exit.i.i.i.i"
                                        //   in Loop: Header=BB30_72 Depth=1
	movi	v3.2d, #0000000000000000
	mov	w12, w12
	sub	w9, w11, w9
	orr	x12, x8, x12
	subs	w8, w25, w9
	stp	d2, d1, [sp, #16]
	str	x12, [sp, #8]
	stp	w11, w10, [sp, #32]
	str	d0, [sp, #40]
	stp	q3, q3, [sp, #48]
	str	xzr, [sp, #80]
	b.ne	.LBB30_71
// %bb.86:                              //   in Loop: Header=BB30_72 Depth=1
	mov	w9, w11
	add	w22, w25, w22
	lsr	x11, x12, #32
	cmp	w22, w20
	b.lo	.LBB30_72
	b	.LBB30_93
.LBB30_87:                              // %arm.6.peel.i.i.i.i.i
                                        //   in Loop: Header=BB30_72 Depth=1
	add	w11, w9, #1
	fsub	d0, d0, d5
	cmp	w15, #1
	ucvtf	d6, w11
	stp	d5, d4, [x13, #16]
	str	d0, [x13, #32]
	//ARITH_FENCE
	stp	d6, d1, [x13]
	b.ne	.LBB30_89
// %bb.88:                              //   in Loop: Header=BB30_72 Depth=1
	mov	x8, xzr
	mov	w10, wzr
	b	.LBB30_85
.LBB30_89:                              // %join.5.i.i.i.i.i.preheader
                                        //   in Loop: Header=BB30_72 Depth=1
	umull	x10, w22, w14
	mov	w8, #1                          // =0x1
	add	w11, w9, #2
	sub	x8, x8, x15
	add	x10, x23, x10
.LBB30_90:                              // %join.5.i.i.i.i.i
                                        //   Parent Loop BB30_72 Depth=1
                                        // =>  This Inner Loop Header: Depth=2
	fmul	d4, d3, d0
	fmov	d7, d0
	fsub	d5, d1, d4
	//ARITH_FENCE
	fmov	d6, d5
	//ARITH_FENCE
	fcmp	d11, d6
	cset	w14, mi
	fcmp	d6, d7
	//APP
	//NO_APP
	cset	w15, mi
	cmp	w14, #0
	//APP
	//NO_APP
	ccmp	w15, #0, #4, ne
	b.eq	.LBB30_92
// %bb.91:                              // %arm.6.i.i.i.i.i
                                        //   in Loop: Header=BB30_90 Depth=2
	ucvtf	d6, w11
	fsub	d0, d0, d5
	adds	x8, x8, #1
	add	w11, w11, #1
	stp	d5, d4, [x10, #-16]
	//ARITH_FENCE
	stp	d6, d1, [x10, #-32]
	str	d0, [x10], #40
	b.lo	.LBB30_90
.LBB30_92:                              // %"join.5.i.i.i.i.i.mortgage::draws::ordinary_rows.exit.i.i.i.i.loopexit_crit_edge"
                                        //   in Loop: Header=BB30_72 Depth=1
	mov	x8, xzr
	mov	w10, wzr
	sub	w11, w11, #1
	b	.LBB30_85
.LBB30_93:
	mov	w19, w12
	b	.LBB30_17
.Lfunc_end30:
	.size	"mortgage::draws::draw_kind", .Lfunc_end30-"mortgage::draws::draw_kind"
                                        // -- End function
	.section	".text.mortgage::draws::lay_rows","ax",@progbits
	.p2align	2                               // -- Begin function mortgage::draws::lay_rows
	.type	"mortgage::draws::lay_rows",@function
"mortgage::draws::lay_rows":            // @"mortgage::draws::lay_rows"
// %bb.0:                               // %start
	fmov	d2, #12.00000000
	ldp	d0, d1, [x1, #8]
	ldr	x8, [x1]
	ldp	w10, w11, [x1, #24]
	fdiv	d3, d0, d2
	ldr	d2, [x1, #32]
	and	x12, x8, #0xffffffff00000000
	cbz	w6, .LBB31_2
// %bb.1:                               // %join.5.lr.ph.i
	fmul	d5, d3, d2
	movi	d4, #0000000000000000
	fmov	d16, d2
	fsub	d6, d1, d5
	//ARITH_FENCE
	//ARITH_FENCE
	fmov	d7, d6
	//ARITH_FENCE
	fcmp	d4, d7
	cset	w9, mi
	fcmp	d7, d16
	//APP
	//NO_APP
	cset	w13, mi
	cmp	w9, #0
	//APP
	//NO_APP
	ccmp	w13, #0, #4, ne
	b.ne	.LBB31_4
.LBB31_2:
	mov	w9, w10
	sub	w13, w10, w10
	subs	w10, w5, w13
	b.ne	.LBB31_6
.LBB31_3:
	lsr	x10, x12, #32
	stp	w8, w10, [x0]
	stp	d0, d1, [x0, #8]
	stp	w9, w11, [x0, #24]
	str	d2, [x0, #32]
	ret
.LBB31_4:                               // %arm.6.peel.i
	add	w9, w10, #1
	fsub	d2, d2, d6
	cmp	w6, #1
	ucvtf	d7, w9
	stp	d6, d5, [x4, #16]
	str	d2, [x4, #32]
	//ARITH_FENCE
	stp	d7, d1, [x4]
	b.ne	.LBB31_24
// %bb.5:
	mov	x12, xzr
	mov	w11, wzr
	sub	w13, w9, w10
	subs	w10, w5, w13
	b.eq	.LBB31_3
.LBB31_6:                               // %join.5.lr.ph.i10
	mov	w11, #40                        // =0x28
	movi	d4, #0000000000000000
	umull	x11, w13, w11
	add	x11, x11, x4
	//ARITH_FENCE
	add	x11, x11, #16
	b	.LBB31_10
.LBB31_7:                               // %then.1.i.i
                                        //   in Loop: Header=BB31_10 Depth=1
	movi	d6, #0000000000000000
	fadd	d7, d2, d6
	fmov	d16, d7
	//ARITH_FENCE
	fcmp	d4, d16
	cset	w12, mi
	//APP
	//NO_APP
	cbz	w12, .LBB31_18
.LBB31_8:                               // %select.end24
                                        //   in Loop: Header=BB31_10 Depth=1
	add	w9, w9, #1
	fmov	d16, d5
.LBB31_9:                               // %"mortgage::rows::any_month.exit.i"
                                        //   in Loop: Header=BB31_10 Depth=1
	ucvtf	d17, w9
	stp	d6, d5, [x11]
	subs	x10, x10, #1
	str	d7, [x11, #16]
	//ARITH_FENCE
	stp	d17, d16, [x11, #-16]
	add	x11, x11, #40
	b.eq	.LBB31_23
.LBB31_10:                              // %join.5.i12
                                        // =>This Inner Loop Header: Depth=1
	fmul	d5, d3, d2
	cmp	w9, w2
	b.lo	.LBB31_7
// %bb.11:                              // %join.3.i.i
                                        //   in Loop: Header=BB31_10 Depth=1
	add	w9, w9, #1
	cmp	w9, w3
	b.ne	.LBB31_14
// %bb.12:                              // %then.4.i.i
                                        //   in Loop: Header=BB31_10 Depth=1
	fsub	d17, d2, d2
	movi	d7, #0000000000000000
	fadd	d16, d2, d5
	fadd	d18, d17, d7
	fmov	d6, d18
	//ARITH_FENCE
	fcmp	d4, d6
	cset	w9, mi
	//APP
	//NO_APP
	cbz	w9, .LBB31_19
// %bb.13:                              //   in Loop: Header=BB31_10 Depth=1
	mov	w9, w3
	fmov	d6, d2
	fmov	d7, d18
	fmov	d2, d17
	b	.LBB31_9
.LBB31_14:                              // %join.6.i.i
                                        //   in Loop: Header=BB31_10 Depth=1
	fsub	d6, d1, d5
	fmov	d7, d6
	//ARITH_FENCE
	fcmp	d4, d7
	cset	w12, mi
	//APP
	//NO_APP
	cbz	w12, .LBB31_20
// %bb.15:                              // %select.end
                                        //   in Loop: Header=BB31_10 Depth=1
	fmov	d7, d6
	fmov	d16, d2
	//ARITH_FENCE
	//ARITH_FENCE
	fcmp	d7, d16
	cset	w12, mi
	//APP
	//NO_APP
	cbz	w12, .LBB31_21
.LBB31_16:                              // %select.end18
                                        //   in Loop: Header=BB31_10 Depth=1
	fsub	d2, d2, d6
	movi	d7, #0000000000000000
	fadd	d17, d2, d7
	fmov	d16, d17
	//ARITH_FENCE
	fcmp	d4, d16
	cset	w12, mi
	//APP
	//NO_APP
	cbz	w12, .LBB31_22
// %bb.17:                              //   in Loop: Header=BB31_10 Depth=1
	fmov	d16, d1
	fmov	d7, d17
	b	.LBB31_9
.LBB31_18:                              // %select.false25
                                        //   in Loop: Header=BB31_10 Depth=1
	movi	d7, #0000000000000000
	b	.LBB31_8
.LBB31_19:                              // %select.false23
                                        //   in Loop: Header=BB31_10 Depth=1
	mov	w9, w3
	fmov	d6, d2
	fmov	d2, d17
	b	.LBB31_9
.LBB31_20:                              // %select.false
                                        //   in Loop: Header=BB31_10 Depth=1
	movi	d6, #0000000000000000
	fmov	d7, d6
	fmov	d16, d2
	//ARITH_FENCE
	//ARITH_FENCE
	fcmp	d7, d16
	cset	w12, mi
	//APP
	//NO_APP
	cbnz	w12, .LBB31_16
.LBB31_21:                              // %select.false19
                                        //   in Loop: Header=BB31_10 Depth=1
	fmov	d6, d2
	b	.LBB31_16
.LBB31_22:                              // %select.false21
                                        //   in Loop: Header=BB31_10 Depth=1
	fmov	d16, d1
	b	.LBB31_9
.LBB31_23:
	stp	w8, w10, [x0]
	stp	d0, d1, [x0, #8]
	stp	w9, wzr, [x0, #24]
	str	d2, [x0, #32]
	ret
.LBB31_24:                              // %join.5.i.preheader
	mov	w9, w6
	add	x12, x4, #72
	sub	x11, x9, #1
	add	w9, w10, #2
.LBB31_25:                              // %join.5.i
                                        // =>This Inner Loop Header: Depth=1
	fmul	d5, d3, d2
	fmov	d16, d2
	fsub	d6, d1, d5
	//ARITH_FENCE
	fmov	d7, d6
	//ARITH_FENCE
	fcmp	d4, d7
	cset	w13, mi
	fcmp	d7, d16
	//APP
	//NO_APP
	cset	w14, mi
	cmp	w13, #0
	//APP
	//NO_APP
	ccmp	w14, #0, #4, ne
	b.eq	.LBB31_28
// %bb.26:                              // %arm.6.i
                                        //   in Loop: Header=BB31_25 Depth=1
	ucvtf	d7, w9
	fsub	d2, d2, d6
	subs	x11, x11, #1
	add	w9, w9, #1
	stp	d6, d5, [x12, #-16]
	//ARITH_FENCE
	stp	d7, d1, [x12, #-32]
	str	d2, [x12], #40
	b.ne	.LBB31_25
// %bb.27:                              // %"mortgage::draws::ordinary_rows.exit.loopexitsplit"
	mov	x12, xzr
	sub	w9, w9, #1
	sub	w13, w9, w10
	subs	w10, w5, w13
	b.ne	.LBB31_6
	b	.LBB31_3
.LBB31_28:                              // %"join.5.i.mortgage::draws::ordinary_rows.exit.loopexit_crit_edge"
	mov	x12, xzr
	mov	w11, wzr
	sub	w9, w9, #1
	sub	w13, w9, w10
	subs	w10, w5, w13
	b.ne	.LBB31_6
	b	.LBB31_3
.Lfunc_end31:
	.size	"mortgage::draws::lay_rows", .Lfunc_end31-"mortgage::draws::lay_rows"
                                        // -- End function
	.section	.rodata.cst8,"aM",@progbits,8
	.p2align	3, 0x0                          // -- Begin function mortgage::years::draw_kind_with_years
.LCPI32_0:
	.word	1                               // 0x1
	.word	2                               // 0x2
	.section	".text.mortgage::years::draw_kind_with_years","ax",@progbits
	.p2align	2
	.type	"mortgage::years::draw_kind_with_years",@function
"mortgage::years::draw_kind_with_years": // @"mortgage::years::draw_kind_with_years"
// %bb.0:                               // %start
	sub	sp, sp, #240
	ldur	q0, [x1, #8]
	stp	x29, x30, [sp, #192]            // 16-byte Folded Spill
	add	x29, sp, #192
	ldrb	w8, [x1]
	ldr	w9, [x1, #4]
	ldr	x10, [x1, #24]
	stur	q0, [x29, #-24]
	ldp	q1, q0, [x2]
	stp	w8, w9, [x29, #-32]
	ldr	x8, [x2, #32]
	stp	x22, x21, [sp, #208]            // 16-byte Folded Spill
	stp	q1, q0, [x29, #-80]
	movi	v0.2d, #0000000000000000
	stur	x8, [x29, #-48]
	ldur	w8, [x29, #-80]
	stp	x20, x19, [sp, #224]            // 16-byte Folded Spill
	sub	w9, w8, #1201
	stur	x10, [x29, #-8]
	cmn	w9, #1201
	stp	q0, q0, [sp, #48]
	str	q0, [sp, #80]
	str	xzr, [sp, #96]
	stur	q0, [sp, #28]
	stp	q0, q0, [sp]
	b.hi	.LBB32_2
// %bb.1:                               // %then.1
	movi	v1.2s, #1
	stur	q0, [x0, #8]
	b	.LBB32_4
.LBB32_2:                               // %join.3
	mov	w9, #43691                      // =0xaaab
	mov	w10, #12                        // =0xc
	mul	w9, w8, w9
	lsr	w9, w9, #19
	msub	w8, w9, w10, w8
	ldr	x10, [x29, #48]
	tst	w8, #0xffff
	cinc	x8, x9, ne
	cmp	x8, x10, lsr #2
	b.ls	.LBB32_5
// %bb.3:                               // %then.4
	adrp	x8, .LCPI32_0
	stur	q0, [x0, #8]
	ldr	d1, [x8, :lo12:.LCPI32_0]
.LBB32_4:                               // %then.1
	stur	q0, [x0, #24]
	str	d1, [x0]
	stur	q0, [x0, #40]
	ldp	x20, x19, [sp, #224]            // 16-byte Folded Reload
	ldp	x22, x21, [sp, #208]            // 16-byte Folded Reload
	ldp	x29, x30, [sp, #192]            // 16-byte Folded Reload
	add	sp, sp, #240
	ret
.LBB32_5:                               // %join.6
	mov	x19, x0
	add	x0, sp, #48
	sub	x1, x29, #32
	sub	x2, x29, #80
	mov	x20, x7
	mov	x21, x5
	add	x22, sp, #48
	bl	"mortgage::draws::draw_kind"
	ldrb	w8, [sp, #48]
	cmp	w8, #1
	b.ne	.LBB32_7
// %bb.6:                               // %arm.7
	ldp	w12, w10, [sp, #52]
	mov	x9, x19
	b	.LBB32_19
.LBB32_7:                               // %arm.8
	ldr	w10, [sp, #56]
	orr	x11, x22, #0xc
	mov	x9, x19
	cbz	w10, .LBB32_18
// %bb.8:                               // %join.5.i.preheader
	ldur	w14, [x29, #-56]
	mov	x12, x20
	mov	x13, x21
	mov	w17, wzr
	add	x15, x21, #24
	b	.LBB32_10
.LBB32_9:                               // %join.5.i.preheader.i.i
                                        //   in Loop: Header=BB32_10 Depth=1
	mov	w0, #40                         // =0x28
	movi	v0.2d, #0000000000000000
	umaddl	x0, w17, w0, x13
	ldr	q1, [x0, #16]
	add	x1, x0, #296
	fadd	v0.2d, v1.2d, v0.2d
	ldur	q1, [x0, #56]
	fadd	v0.2d, v0.2d, v1.2d
	ldr	q1, [x0, #96]
	fadd	v0.2d, v0.2d, v1.2d
	ldur	q1, [x0, #136]
	fadd	v0.2d, v0.2d, v1.2d
	ldr	q1, [x0, #176]
	fadd	v0.2d, v0.2d, v1.2d
	ldur	q1, [x0, #216]
	fadd	v0.2d, v0.2d, v1.2d
	ldr	q1, [x0, #256]
	fadd	v0.2d, v0.2d, v1.2d
	ldr	q1, [x1]
	add	x1, x0, #376
	fadd	v0.2d, v0.2d, v1.2d
	ldr	q1, [x0, #336]
	fadd	v0.2d, v0.2d, v1.2d
	ldr	q1, [x1]
	add	x1, x0, #456
	fadd	v0.2d, v0.2d, v1.2d
	ldr	q1, [x0, #416]
	fadd	v0.2d, v0.2d, v1.2d
	ldr	q1, [x1]
	mov	x1, #4622945017495814144        // =0x4028000000000000
	fadd	v0.2d, v0.2d, v1.2d
	ldr	d1, [x0, #472]
	str	x1, [x18]
	str	d1, [x18, #24]
	ext	v0.16b, v0.16b, v0.16b, #8
	stur	q0, [x18, #8]
	add	w17, w16, w17
	cmp	w17, w10
	b.hs	.LBB32_18
.LBB32_10:                              // %join.5.i
                                        // =>This Loop Header: Depth=1
                                        //     Child Loop BB32_14 Depth 2
	mov	w18, #43691                     // =0xaaab
	add	w16, w17, w14
	mov	w1, #12                         // =0xc
	movk	w18, #43690, lsl #16
	umull	x18, w16, w18
	lsr	x18, x18, #35
	msub	w0, w18, w1, w16
	lsl	w18, w18, #2
	add	x18, x12, x18, lsl #3
	sub	w16, w1, w0
	sub	w1, w10, w17
	mov	w17, w17
	cmp	w1, w16
	csel	w16, w1, w16, lo
	cmp	w16, #12
	b.eq	.LBB32_9
// %bb.11:                              // %else.2.i.i
                                        //   in Loop: Header=BB32_10 Depth=1
	cbz	w0, .LBB32_16
// %bb.12:                              // %else.2.i.i.i
                                        //   in Loop: Header=BB32_10 Depth=1
	ldp	d1, d2, [x18, #16]
	ldr	q0, [x18]
	cbz	w16, .LBB32_17
.LBB32_13:                              // %join.5.i16.i.i.preheader
                                        //   in Loop: Header=BB32_10 Depth=1
	mov	w0, #40                         // =0x28
	mov	x1, x16
	umaddl	x0, w17, w0, x15
.LBB32_14:                              // %join.5.i16.i.i
                                        //   Parent Loop BB32_10 Depth=1
                                        // =>  This Inner Loop Header: Depth=2
	fmov	v2.2d, #1.00000000
	ldur	d3, [x0, #-8]
	subs	x1, x1, #1
	fadd	d1, d1, d3
	ld1	{ v2.d }[1], [x0]
	add	x0, x0, #40
	fadd	v0.2d, v0.2d, v2.2d
	b.ne	.LBB32_14
// %bb.15:                              // %loop.2.after.1_crit_edge.i.i.i
                                        //   in Loop: Header=BB32_10 Depth=1
	ldur	d2, [x0, #-32]
	str	q0, [x18]
	stp	d1, d2, [x18, #16]
	add	w17, w16, w17
	cmp	w17, w10
	b.lo	.LBB32_10
	b	.LBB32_18
.LBB32_16:                              //   in Loop: Header=BB32_10 Depth=1
	movi	v0.2d, #0000000000000000
	movi	d1, #0000000000000000
	movi	d2, #0000000000000000
	cbnz	w16, .LBB32_13
.LBB32_17:                              // %"mortgage::years::with_rows.exit38.i.i"
                                        //   in Loop: Header=BB32_10 Depth=1
	str	q0, [x18]
	stp	d1, d2, [x18, #16]
	add	w17, w16, w17
	cmp	w17, w10
	b.lo	.LBB32_10
.LBB32_18:                              // %"mortgage::years::enter_rows.exit"
	ldp	q0, q1, [x11]
	mov	w12, wzr
	ldur	q2, [x11, #28]
	stp	q0, q1, [sp]
	stur	q2, [sp, #28]
.LBB32_19:                              // %join.10
	ldp	q0, q1, [sp]
	stp	w8, w12, [x9]
	str	w10, [x9, #8]
	stur	q0, [x9, #12]
	ldur	q0, [sp, #28]
	stur	q1, [x9, #28]
	stur	q0, [x9, #40]
	ldp	x20, x19, [sp, #224]            // 16-byte Folded Reload
	ldp	x22, x21, [sp, #208]            // 16-byte Folded Reload
	ldp	x29, x30, [sp, #192]            // 16-byte Folded Reload
	add	sp, sp, #240
	ret
.Lfunc_end32:
	.size	"mortgage::years::draw_kind_with_years", .Lfunc_end32-"mortgage::years::draw_kind_with_years"
                                        // -- End function
	.section	".text.senyolanda::kinds::next_kind_row","ax",@progbits
	.p2align	2                               // -- Begin function senyolanda::kinds::next_kind_row
	.type	"senyolanda::kinds::next_kind_row",@function
"senyolanda::kinds::next_kind_row":     // @"senyolanda::kinds::next_kind_row"
// %bb.0:                               // %start
	sub	sp, sp, #256
	movi	v0.2d, #0000000000000000
	stp	x22, x21, [sp, #224]            // 16-byte Folded Spill
	mov	x21, x4
	ldr	x8, [x0, #24]
	stp	x29, x30, [sp, #176]            // 16-byte Folded Spill
	add	x29, sp, #176
	mov	x22, x3
	str	x25, [sp, #192]                 // 8-byte Spill
	ldrb	w25, [x0]
	stur	x8, [x29, #-8]
	ldur	q1, [x0, #8]
	mov	x4, x2
	stp	q0, q0, [sp, #48]
	mov	x3, x1
	sub	x1, x29, #32
	stp	q0, q0, [sp, #80]
	add	x2, sp, #8
	stp	q0, q0, [sp, #112]
	ldr	q0, [x21]
	ldp	w8, w9, [x22]
	stp	x24, x23, [sp, #208]            // 16-byte Folded Spill
	ldr	w24, [x0, #4]
	add	x0, sp, #48
	stur	q0, [sp, #16]
	ldr	d0, [x21, #16]
	mov	x23, x5
	stp	x20, x19, [sp, #240]            // 16-byte Folded Spill
	mov	x19, x7
	mov	x20, x6
	stp	w25, w24, [x29, #-32]
	stur	q1, [x29, #-24]
	stp	w8, wzr, [sp, #8]
	stp	w9, wzr, [sp, #32]
	str	d0, [sp, #40]
	bl	"mortgage::rows::next_kind_row"
	ldrb	w9, [sp, #48]
	ldr	w8, [sp, #56]
	cmp	w9, #1
	b.ne	.LBB33_2
// %bb.1:                               // %arm.1.i
	ldrb	w9, [sp, #52]
	orr	x8, x9, x8, lsl #32
	add	x0, x8, #1
	b	.LBB33_5
.LBB33_2:                               // %arm.2.i
	tst	w8, #0xff
	b.eq	.LBB33_4
// %bb.3:                               // %arm.6.i
	ldp	d0, d1, [sp, #72]
	mov	x9, #9221120237041090560        // =0x7ff8000000000000
	ldr	w11, [sp, #64]
	mov	w12, #3                         // =0x3
	mov	x0, xzr
	strb	w12, [x23]
	ldr	w12, [sp, #104]
	fmov	d2, d0
	fmov	x8, d0
	fmov	d0, d1
	fmov	x10, d1
	stur	w11, [x23, #1]
	//ARITH_FENCE
	fcmp	d2, d2
	//ARITH_FENCE
	csel	x8, x9, x8, vs
	fcmp	d0, d0
	ldp	d2, d0, [sp, #88]
	stur	x8, [x23, #5]
	csel	x10, x9, x10, vs
	fmov	d1, d2
	fmov	x13, d2
	fmov	x8, d0
	stur	x10, [x23, #13]
	//ARITH_FENCE
	fcmp	d1, d1
	fmov	d1, d0
	ldr	q0, [sp, #112]
	csel	x11, x9, x13, vs
	ldr	w13, [sp, #128]
	stur	x11, [x23, #21]
	//ARITH_FENCE
	fcmp	d1, d1
	ldr	d1, [sp, #136]
	csel	x8, x9, x8, vs
	cmp	w25, #2
	orr	x9, x12, x13, lsl #32
	stur	x8, [x23, #29]
	csel	w8, w24, w12, eq
	subs	w8, w8, w13
	str	x9, [x22]
	mov	w9, #1                          // =0x1
	csel	w8, wzr, w8, lo
	str	q0, [x21]
	str	d1, [x21, #16]
	str	w9, [x20]
	str	w8, [x19]
	b	.LBB33_5
.LBB33_4:                               // %arm.5.i
	mov	x0, xzr
	str	wzr, [x20]
	str	wzr, [x19]
.LBB33_5:                               // %"senyolanda::loans::put_next.exit"
	ldp	x20, x19, [sp, #240]            // 16-byte Folded Reload
	ldr	x25, [sp, #192]                 // 8-byte Reload
	ldp	x22, x21, [sp, #224]            // 16-byte Folded Reload
	ldp	x24, x23, [sp, #208]            // 16-byte Folded Reload
	ldp	x29, x30, [sp, #176]            // 16-byte Folded Reload
	add	sp, sp, #256
	ret
.Lfunc_end33:
	.size	"senyolanda::kinds::next_kind_row", .Lfunc_end33-"senyolanda::kinds::next_kind_row"
                                        // -- End function
	.section	".text.mortgage::rows::next_kind_row","ax",@progbits
	.p2align	2                               // -- Begin function mortgage::rows::next_kind_row
	.type	"mortgage::rows::next_kind_row",@function
"mortgage::rows::next_kind_row":        // @"mortgage::rows::next_kind_row"
// %bb.0:                               // %start
	ldr	w8, [x2]
	ldp	d3, d5, [x1, #8]
	ldp	d1, d2, [x2, #8]
	ldrb	w12, [x1]
	sub	w11, w8, #1201
	ldr	w10, [x1, #4]
	ldr	d4, [x1, #24]
	ldr	w9, [x2, #24]
	ldr	d0, [x2, #32]
	str	xzr, [sp, #-16]!
	cmn	w11, #1200
	mov	w11, #1                         // =0x1
	str	wzr, [sp, #8]
	b.hs	.LBB34_2
// %bb.1:
	mov	w13, #1                         // =0x1
	b	.LBB34_18
.LBB34_2:                               // %join.3.i
	cmp	w12, #2
	csel	w13, w10, w8, eq
	cmp	w13, w9
	b.hs	.LBB34_4
// %bb.3:
	mov	w13, #9                         // =0x9
	b	.LBB34_18
.LBB34_4:                               // %join.6.i
	cmp	w12, #1
	b.gt	.LBB34_8
// %bb.5:                               // %join.6.i
	mov	w15, w8
	cbz	w12, .LBB34_10
// %bb.6:                               // %arm.3.i7.i
	mov	w13, #15                        // =0xf
	cbz	w10, .LBB34_18
// %bb.7:                               // %arm.3.i7.i
	cmp	w8, w10
	mov	w15, w8
	b.hi	.LBB34_10
	b	.LBB34_18
.LBB34_8:                               // %join.6.i
	cmp	w12, #2
	b.ne	.LBB34_16
// %bb.9:                               // %arm.4.i.i
	sub	w13, w10, #1
	mov	w15, w10
	cmp	w13, w8
	b.hs	.LBB34_17
.LBB34_10:                              // %"mortgage::rows::kind_rows_due.exit"
	cmp	w15, w9
	b.ls	.LBB34_15
// %bb.11:                              // %join.7
	cmp	w12, #1
	b.gt	.LBB34_19
// %bb.12:                              // %join.7
	cbz	w12, .LBB34_39
// %bb.13:                              // %"mortgage::rates::in_force.exit.i"
	fmov	d3, #12.00000000
	cmp	w9, w10
	fdiv	d3, d1, d3
	fmul	d3, d3, d0
	b.hs	.LBB34_40
// %bb.14:                              // %then.1.i.i
	movi	d4, #0000000000000000
	movi	d6, #0000000000000000
	add	w9, w9, #1
	fadd	d5, d0, d4
	//ARITH_FENCE
	fmov	d7, d5
	//ARITH_FENCE
	fcmp	d6, d7
	fmov	d6, d3
	cset	w10, mi
	//APP
	//NO_APP
	cmp	w10, #0
	fcsel	d5, d5, d4, ne
	b	.LBB34_44
.LBB34_15:                              // %then.5
	movi	v0.2d, #0000000000000000
	ldr	x8, [sp]
	str	wzr, [x0]
	stur	x8, [x0, #4]
	stp	q0, q0, [x0, #16]
	stp	q0, q0, [x0, #48]
	str	q0, [x0, #80]
	add	sp, sp, #16
	ret
.LBB34_16:                              // %arm.5.i.i
	fsub	d7, d3, d3
	movi	d6, #0000000000000000
	//ARITH_FENCE
	//ARITH_FENCE
	fcmp	d7, d6
	b.eq	.LBB34_27
.LBB34_17:
	mov	w13, #15                        // =0xf
.LBB34_18:                              // %arm.2
	lsr	x8, x13, #32
	strb	w13, [sp]
	movi	v0.2d, #0000000000000000
	sturh	wzr, [sp, #1]
	strb	wzr, [sp, #3]
	str	w8, [sp, #4]
	ldr	x8, [sp]
	str	w11, [x0]
	stur	x8, [x0, #4]
	stp	q0, q0, [x0, #16]
	stp	q0, q0, [x0, #48]
	str	q0, [x0, #80]
	add	sp, sp, #16
	ret
.LBB34_19:                              // %join.7
	cmp	w12, #3
	b.ne	.LBB34_37
// %bb.20:                              // %arm.1.i.i
	subs	w10, w8, w9
	b.ls	.LBB34_39
// %bb.21:                              // %arm.1.i.i
	cbz	w9, .LBB34_39
// %bb.22:                              // %arm.1.i.i
	mov	w11, #43691                     // =0xaaab
	mov	w12, #12                        // =0xc
	movk	w11, #43690, lsl #16
	umull	x11, w9, w11
	lsr	x11, x11, #35
	msub	w12, w11, w12, w9
	cbnz	w12, .LBB34_39
// %bb.23:                              // %after.1.i.i.i16
	fsub	d2, d1, d5
	sub	w11, w11, #1
	fadd	d1, d5, d1
	ldr	d6, [x3, w11, uxtw #3]
	fadd	d3, d3, d4
	fmov	d5, d6
	fmov	d7, d2
	//ARITH_FENCE
	//ARITH_FENCE
	fcmp	d5, d7
	fmov	d7, d1
	cset	w11, mi
	//APP
	//NO_APP
	//ARITH_FENCE
	fcmp	d7, d5
	cset	w12, mi
	//APP
	//NO_APP
	cmp	w12, #0
	fcsel	d1, d1, d6, ne
	cmp	w11, #0
	fcsel	d1, d2, d1, ne
	fmov	d2, d3
	fmov	d4, d1
	//ARITH_FENCE
	//ARITH_FENCE
	fcmp	d2, d4
	fmov	d2, #12.00000000
	fmov	d4, #1.00000000
	cset	w11, mi
	//APP
	//NO_APP
	cmp	w11, #0
	fcsel	d1, d3, d1, ne
	mov	w11, w10
	fdiv	d3, d1, d2
	fmov	d2, #1.00000000
	fadd	d5, d3, d4
.LBB34_24:                              // %join.5.i.i.i.i.i
                                        // =>This Inner Loop Header: Depth=1
	tst	w11, #0x1
	lsr	w11, w11, #1
	fcsel	d6, d4, d5, eq
	fmul	d5, d5, d5
	fmul	d2, d2, d6
	cbnz	w11, .LBB34_24
// %bb.25:                              // %arm.1.i.i.i
	fmov	d5, d2
	fmov	d4, #1.00000000
	//ARITH_FENCE
	//ARITH_FENCE
	fcmp	d5, d4
	b.ne	.LBB34_38
// %bb.26:                              // %then.1.i.i.i.i
	ucvtf	d2, w10
	//ARITH_FENCE
	fdiv	d2, d0, d2
	b	.LBB34_39
.LBB34_27:                              // %join.3.i.i.i.i
	fmov	d7, d5
	mov	w13, #15                        // =0xf
	//ARITH_FENCE
	fcmp	d7, d6
	cset	w14, mi
	//APP
	//NO_APP
	cbnz	w14, .LBB34_18
// %bb.28:                              // %join.3.i.i.i.i
	fsub	d7, d5, d5
	//ARITH_FENCE
	fcmp	d7, d6
	b.ne	.LBB34_18
// %bb.29:                              // %"mortgage::kinds::bad_adjustment.exit.i.i.i"
	fmov	d7, d4
	mov	w13, #15                        // =0xf
	//ARITH_FENCE
	fcmp	d7, d6
	cset	w14, mi
	//APP
	//NO_APP
	cbnz	w14, .LBB34_18
// %bb.30:                              // %"mortgage::kinds::bad_adjustment.exit.i.i.i"
	fsub	d7, d4, d4
	//ARITH_FENCE
	fcmp	d7, d6
	b.ne	.LBB34_18
// %bb.31:                              // %"mortgage::kinds::bad_adjustment.exit.i.i.i"
	sub	w14, w8, #1
	mov	w15, #43691                     // =0xaaab
	and	w14, w14, #0xffff
	mul	w14, w14, w15
	lsr	w14, w14, #19
	cmp	x4, x14
	b.lo	.LBB34_18
// %bb.32:                              // %after.1.i.i.i
	cmp	w8, #13
	mov	w15, w8
	b.lo	.LBB34_10
// %bb.33:                              // %arm.3.i.i.i.i.i.preheader
	mov	w13, #15                        // =0xf
	mov	x15, x3
.LBB34_34:                              // %arm.3.i.i.i.i.i
                                        // =>This Inner Loop Header: Depth=1
	ldr	d7, [x15], #8
	fsub	d7, d7, d7
	//ARITH_FENCE
	fcmp	d7, d6
	b.ne	.LBB34_18
// %bb.35:                              // %join.9.i.i.i.i.i
                                        //   in Loop: Header=BB34_34 Depth=1
	mov	x16, #4294967296                // =0x100000000
	subs	x14, x14, #1
	add	x13, x13, x16
	b.ne	.LBB34_34
// %bb.36:
	mov	w15, w8
	b	.LBB34_10
.LBB34_37:                              // %"mortgage::rates::in_force.exit.thread29.i"
	fmov	d3, #12.00000000
	fdiv	d3, d1, d3
	fmul	d3, d3, d0
	b	.LBB34_41
.LBB34_38:                              // %join.3.i.i.i.i20
	fmul	d3, d0, d3
	fmov	d4, #-1.00000000
	fmul	d3, d3, d2
	fadd	d2, d2, d4
	fdiv	d2, d3, d2
.LBB34_39:                              // %"mortgage::rates::in_force.exit.thread.i"
	fmov	d3, #12.00000000
	fdiv	d3, d1, d3
	fmul	d3, d0, d3
.LBB34_40:                              // %join.3.i.i
	mov	w10, w8
.LBB34_41:                              // %join.3.i.i
	add	w9, w9, #1
	cmp	w9, w10
	b.ne	.LBB34_43
// %bb.42:                              // %then.4.i.i
	fsub	d7, d0, d0
	movi	d4, #0000000000000000
	movi	d6, #0000000000000000
	fadd	d5, d7, d4
	//ARITH_FENCE
	fmov	d16, d5
	//ARITH_FENCE
	fcmp	d6, d16
	fadd	d6, d0, d3
	cset	w10, mi
	//APP
	//NO_APP
	cmp	w10, #0
	fcsel	d5, d5, d4, ne
	fmov	d4, d0
	fmov	d0, d7
	b	.LBB34_44
.LBB34_43:                              // %join.6.i.i
	fsub	d4, d2, d3
	movi	d5, #0000000000000000
	fmov	d16, d0
	fmov	d6, d4
	//ARITH_FENCE
	//ARITH_FENCE
	//ARITH_FENCE
	fcmp	d5, d6
	movi	d6, #0000000000000000
	cset	w10, mi
	//APP
	//NO_APP
	cmp	w10, #0
	fcsel	d4, d4, d6, ne
	fmov	d7, d4
	//ARITH_FENCE
	fcmp	d7, d16
	cset	w10, mi
	//APP
	//NO_APP
	cmp	w10, #0
	fcsel	d4, d4, d0, ne
	fsub	d0, d0, d4
	fadd	d7, d0, d6
	fmov	d16, d7
	//ARITH_FENCE
	fcmp	d5, d16
	cset	w10, mi
	//APP
	//NO_APP
	cmp	w10, #0
	fcsel	d5, d7, d6, ne
	fmov	d6, d2
.LBB34_44:                              // %"mortgage::rows::month_due.exit"
	mov	w10, #1                         // =0x1
	str	wzr, [x0]
	stur	x10, [sp, #4]
	ldr	x10, [sp]
	stp	w9, wzr, [x0, #16]
	stp	d6, d4, [x0, #24]
	stur	x10, [x0, #4]
	stp	d3, d5, [x0, #40]
	stp	w8, wzr, [x0, #56]
	stp	d1, d2, [x0, #64]
	stp	w9, wzr, [x0, #80]
	str	d0, [x0, #88]
	add	sp, sp, #16
	ret
.Lfunc_end34:
	.size	"mortgage::rows::next_kind_row", .Lfunc_end34-"mortgage::rows::next_kind_row"
                                        // -- End function
	.section	".text.senyolanda::kinds::open_kind","ax",@progbits
	.p2align	2                               // -- Begin function senyolanda::kinds::open_kind
	.type	"senyolanda::kinds::open_kind",@function
"senyolanda::kinds::open_kind":         // @"senyolanda::kinds::open_kind"
// %bb.0:                               // %start
	cmp	x1, #21
	b.ne	.LBB35_6
// %bb.1:                               // %"records::record::bad_record.exit.i.i.i"
	ldrb	w8, [x0]
	cmp	w8, #1
	b.ne	.LBB35_6
// %bb.2:                               // %arm.2
	sub	sp, sp, #144
	movi	v0.2d, #0xffffffffffffffff
	ldur	q1, [x0, #1]
	mov	x8, #9218868437227405312        // =0x7ff0000000000000
	dup	v3.2d, x8
	ldur	q2, [x2, #8]
	mov	x8, #9221120237041090560        // =0x7ff8000000000000
	ldrb	w10, [x2]
	ldr	w9, [x2, #4]
	ldur	x11, [x2, #24]
	stur	q2, [sp, #40]
	dup	v2.2d, x8
	ldur	w8, [x0, #17]
	fneg	v0.2d, v0.2d
	stp	x29, x30, [sp, #112]            // 16-byte Folded Spill
	add	x29, sp, #112
	cmp	w10, #1
	stp	x20, x19, [sp, #128]            // 16-byte Folded Spill
	stp	w10, w9, [sp, #32]
	str	x11, [sp, #56]
	and	v0.16b, v1.16b, v0.16b
	stp	w8, wzr, [sp, #16]
	cmhi	v0.2d, v0.2d, v3.2d
	movi	v3.2d, #0000000000000000
	bsl	v0.16b, v2.16b, v1.16b
	stp	q3, q3, [x29, #-48]
	stur	q3, [x29, #-16]
	mov	d1, v0.d[1]
	str	q0, [sp]
	b.ne	.LBB35_7
// %bb.3:                               // %arm.1.i.i5
	fmov	d2, #12.00000000
	fmov	d3, #1.00000000
	subs	w8, w8, w9
	csel	w8, wzr, w8, lo
	fdiv	d1, d1, d2
	fmov	d2, #1.00000000
	b.ls	.LBB35_10
// %bb.4:                               // %join.5.i.preheader.i.i.i.i
	fmov	d4, #1.00000000
	mov	w9, w8
	fadd	d5, d1, d4
.LBB35_5:                               // %join.5.i.i.i.i.i
                                        // =>This Inner Loop Header: Depth=1
	tst	w9, #0x1
	lsr	w9, w9, #1
	fcsel	d6, d4, d5, eq
	fmul	d5, d5, d5
	fmul	d2, d2, d6
	cbnz	w9, .LBB35_5
	b	.LBB35_10
.LBB35_6:
	mov	w0, #11                         // =0xb
	ret
.LBB35_7:                               // %arm.2.i.i
	ldr	d2, [sp, #40]
	cmp	w10, #3
	fmov	d3, #1.00000000
	fcsel	d1, d2, d1, eq
	fmov	d2, #12.00000000
	fdiv	d1, d1, d2
	fmov	d2, #1.00000000
	cbz	w8, .LBB35_10
// %bb.8:                               // %join.5.i.preheader.i.i9.i.i
	fmov	d4, #1.00000000
	mov	w9, w8
	fadd	d5, d1, d4
.LBB35_9:                               // %join.5.i.i.i11.i.i
                                        // =>This Inner Loop Header: Depth=1
	tst	w9, #0x1
	lsr	w9, w9, #1
	fcsel	d6, d4, d5, eq
	fmul	d5, d5, d5
	fmul	d2, d2, d6
	cbnz	w9, .LBB35_9
.LBB35_10:                              // %"mortgage::payment::growth.exit.i.i.i"
	fmov	d4, d2
	//ARITH_FENCE
	mov	x20, x5
	mov	x19, x6
	//ARITH_FENCE
	fcmp	d4, d3
	b.ne	.LBB35_12
// %bb.11:                              // %then.1.i.i.i.i
	ucvtf	d1, w8
	//ARITH_FENCE
	fdiv	d0, d0, d1
	b	.LBB35_13
.LBB35_12:                              // %join.3.i.i27.i.i
	fmul	d0, d1, d0
	fmov	d1, #-1.00000000
	fadd	d1, d2, d1
	fmul	d0, d0, d2
	fdiv	d0, d0, d1
.LBB35_13:                              // %"mortgage::opening::open_kind.exit"
	sub	x0, x29, #48
	add	x1, sp, #32
	mov	x2, sp
	bl	"mortgage::opening::open_kind_with_payment"
	ldurb	w9, [x29, #-48]
	ldur	w8, [x29, #-40]
	cmp	w9, #1
	b.ne	.LBB35_15
// %bb.14:                              // %arm.1.i
	ldurb	w9, [x29, #-44]
	orr	x8, x9, x8, lsl #32
	add	x0, x8, #1
	ldp	x20, x19, [sp, #128]            // 16-byte Folded Reload
	ldp	x29, x30, [sp, #112]            // 16-byte Folded Reload
	add	sp, sp, #144
	ret
.LBB35_15:                              // %arm.2.i
	ldur	w9, [x29, #-16]
	ldur	q0, [x29, #-32]
	mov	x0, xzr
	ldur	d1, [x29, #-8]
	orr	x8, x8, x9, lsl #32
	str	x8, [x20]
	str	q0, [x19]
	str	d1, [x19, #16]
	ldp	x20, x19, [sp, #128]            // 16-byte Folded Reload
	ldp	x29, x30, [sp, #112]            // 16-byte Folded Reload
	add	sp, sp, #144
	ret
.Lfunc_end35:
	.size	"senyolanda::kinds::open_kind", .Lfunc_end35-"senyolanda::kinds::open_kind"
                                        // -- End function
	.section	".text.mortgage::opening::open_kind_with_payment","ax",@progbits
	.p2align	2                               // -- Begin function mortgage::opening::open_kind_with_payment
	.type	"mortgage::opening::open_kind_with_payment",@function
"mortgage::opening::open_kind_with_payment": // @"mortgage::opening::open_kind_with_payment"
// %bb.0:                               // %start
	ldr	d1, [x2]
	movi	d2, #0000000000000000
	fmov	d3, d1
	//ARITH_FENCE
	//ARITH_FENCE
	fcmp	d3, d2
	fsub	d3, d1, d1
	cset	w8, mi
	//APP
	//NO_APP
	cmp	w8, #0
	//ARITH_FENCE
	fccmp	d3, d2, #0, eq
	b.eq	.LBB36_2
// %bb.1:
	mov	w8, wzr
	b	.LBB36_4
.LBB36_2:                               // %join.3.i
	ldr	w8, [x2, #16]
	sub	w9, w8, #1201
	cmn	w9, #1200
	b.hs	.LBB36_5
// %bb.3:
	mov	w8, #1                          // =0x1
.LBB36_4:                               // %arm.2
	movi	v0.2d, #0000000000000000
	mov	w9, #1                          // =0x1
	strb	w8, [x0, #4]
	str	w9, [x0]
	stur	q0, [x0, #5]
	stur	q0, [x0, #21]
	str	q0, [x0, #32]
	ret
.LBB36_5:                               // %arm.1
	ldrb	w9, [x1]
	ldr	w11, [x1, #4]
	ldr	d3, [x1, #8]
	ldr	d4, [x2, #8]
	cmp	w9, #1
	b.gt	.LBB36_9
// %bb.6:                               // %arm.1
	cbz	w9, .LBB36_11
// %bb.7:                               // %arm.3.i
	mov	w10, #15                        // =0xf
	cbz	w11, .LBB36_14
// %bb.8:                               // %arm.3.i
	cmp	w8, w11
	b.hi	.LBB36_11
	b	.LBB36_14
.LBB36_9:                               // %arm.1
	cmp	w9, #2
	b.ne	.LBB36_12
// %bb.10:                              // %arm.4.i
	sub	w10, w11, #1
	cmp	w10, w8
	b.hs	.LBB36_13
.LBB36_11:                              // %arm.5
	cmp	w9, #3
	str	xzr, [x0]
	fcsel	d2, d3, d4, eq
	stp	w8, wzr, [x0, #8]
	str	xzr, [x0, #32]
	str	d1, [x0, #40]
	stp	d2, d0, [x0, #16]
	ret
.LBB36_12:                              // %arm.5.i
	fsub	d5, d3, d3
	//ARITH_FENCE
	fcmp	d5, d2
	b.eq	.LBB36_15
.LBB36_13:
	mov	w10, #15                        // =0xf
.LBB36_14:                              // %arm.6
	movi	v0.2d, #0000000000000000
	mov	w8, #1                          // =0x1
	strb	w10, [x0, #4]
	str	w8, [x0]
	lsr	x8, x10, #32
	sturh	wzr, [x0, #5]
	strb	wzr, [x0, #7]
	str	w8, [x0, #8]
	stur	q0, [x0, #12]
	stur	q0, [x0, #28]
	str	wzr, [x0, #44]
	ret
.LBB36_15:                              // %join.3.i.i.i
	ldr	d5, [x1, #16]
	mov	w10, #15                        // =0xf
	fmov	d6, d5
	//ARITH_FENCE
	fcmp	d6, d2
	cset	w11, mi
	//APP
	//NO_APP
	cbnz	w11, .LBB36_14
// %bb.16:                              // %join.3.i.i.i
	fsub	d5, d5, d5
	//ARITH_FENCE
	fcmp	d5, d2
	b.ne	.LBB36_14
// %bb.17:                              // %"mortgage::kinds::bad_adjustment.exit.i.i"
	ldr	d5, [x1, #24]
	mov	w10, #15                        // =0xf
	fmov	d6, d5
	//ARITH_FENCE
	fcmp	d6, d2
	cset	w11, mi
	//APP
	//NO_APP
	cbnz	w11, .LBB36_14
// %bb.18:                              // %"mortgage::kinds::bad_adjustment.exit.i.i"
	fsub	d5, d5, d5
	//ARITH_FENCE
	fcmp	d5, d2
	b.ne	.LBB36_14
// %bb.19:                              // %"mortgage::kinds::bad_adjustment.exit.i.i"
	sub	w11, w8, #1
	mov	w12, #43691                     // =0xaaab
	and	w11, w11, #0xffff
	mul	w11, w11, w12
	lsr	w11, w11, #19
	cmp	x4, x11
	b.lo	.LBB36_14
// %bb.20:                              // %after.1.i.i
	cmp	w8, #13
	b.lo	.LBB36_11
// %bb.21:                              // %arm.3.i.i.i.i.preheader
	mov	w10, #15                        // =0xf
.LBB36_22:                              // %arm.3.i.i.i.i
                                        // =>This Inner Loop Header: Depth=1
	ldr	d5, [x3], #8
	fsub	d5, d5, d5
	//ARITH_FENCE
	fcmp	d5, d2
	b.ne	.LBB36_14
// %bb.23:                              // %join.9.i.i.i.i
                                        //   in Loop: Header=BB36_22 Depth=1
	mov	x12, #4294967296                // =0x100000000
	subs	x11, x11, #1
	add	x10, x10, x12
	b.ne	.LBB36_22
	b	.LBB36_11
.Lfunc_end36:
	.size	"mortgage::opening::open_kind_with_payment", .Lfunc_end36-"mortgage::opening::open_kind_with_payment"
                                        // -- End function
	.section	".text.yield_curve::linear::discount_of","ax",@progbits
	.p2align	2                               // -- Begin function yield_curve::linear::discount_of
	.type	"yield_curve::linear::discount_of",@function
"yield_curve::linear::discount_of":     // @"yield_curve::linear::discount_of"
// %bb.0:                               // %start
	cbz	x1, .LBB37_8
// %bb.1:                               // %"curves::segments::knot_at.exit.i"
	fmov	d1, d0
	ldr	d2, [x0]
	//ARITH_FENCE
	//ARITH_FENCE
	fcmp	d1, d2
	cset	w8, hi
	//APP
	//NO_APP
	cbz	w8, .LBB37_15
// %bb.2:                               // %"curves::segments::last_knot.exit.i"
	add	x8, x0, x1, lsl #3
	ldur	d2, [x8, #-8]
	//ARITH_FENCE
	fcmp	d2, d1
	cset	w8, hi
	//APP
	//NO_APP
	cbz	w8, .LBB37_17
// %bb.3:                               // %join.6.i
	cmp	x1, #1
	b.eq	.LBB37_10
// %bb.4:                               // %join.5.i.i.i.i.preheader
	mov	x8, xzr
	mov	x9, x1
	b	.LBB37_6
.LBB37_5:                               // %select.end
                                        //   in Loop: Header=BB37_6 Depth=1
	sub	x9, x9, x10
	cmp	x9, #1
	b.ls	.LBB37_11
.LBB37_6:                               // %join.5.i.i.i.i
                                        // =>This Inner Loop Header: Depth=1
	lsr	x10, x9, #1
	add	x11, x10, x8
	ldr	d2, [x0, x11, lsl #3]
	//ARITH_FENCE
	fcmp	d1, d2
	cset	w12, ls
	//APP
	//NO_APP
	cbnz	w12, .LBB37_5
// %bb.7:                               // %select.false
                                        //   in Loop: Header=BB37_6 Depth=1
	mov	x8, x11
	b	.LBB37_5
.LBB37_8:                               // %"curves::segments::knot_at.exit.thread.i"
	mov	x8, #9221120237041090560        // =0x7ff8000000000000
	fmov	d1, d0
	fmov	d2, x8
	//ARITH_FENCE
	//ARITH_FENCE
	fcmp	d1, d2
	cset	w8, hi
	//APP
	//NO_APP
	cbz	w8, .LBB37_15
// %bb.9:                               // %"curves::segments::last_knot.exit.i.thread"
	fcmp	d2, d1
	cset	w8, hi
	//APP
	//NO_APP
	cbz	w8, .LBB37_17
.LBB37_10:
	mov	x8, xzr
.LBB37_11:                              // %"curves::kinds::segment_on.exit.i"
	cmp	x8, x1
	b.hs	.LBB37_20
// %bb.12:                              // %then.2.i.i
	lsl	x9, x8, #3
	add	x10, x8, #1
	cmp	x10, x1
	ldr	d1, [x0, x9]
	b.hs	.LBB37_25
// %bb.13:                              // %then.2.i.i
	cmp	x10, x3
	b.hs	.LBB37_25
// %bb.14:                              // %then.8.i.i
	add	x8, x9, #8
	ldr	d3, [x2, x9]
	ldr	d2, [x0, x8]
	ldr	d4, [x2, x8]
	b	.LBB37_28
.LBB37_15:                              // %then.1.i
	cbz	x3, .LBB37_19
// %bb.16:                              // %arm.1.i.i10.i
	ldr	d1, [x2]
	fnmul	d0, d1, d0
	b	"elementary::exp::exp"
.LBB37_17:                              // %then.4.i
	cbz	x3, .LBB37_19
// %bb.18:                              // %arm.1.i.i17.i
	add	x8, x2, x3, lsl #3
	ldur	d1, [x8, #-8]
	fnmul	d0, d1, d0
	b	"elementary::exp::exp"
.LBB37_19:
	mov	x8, #9221120237041090560        // =0x7ff8000000000000
	fmov	d1, x8
	fnmul	d0, d1, d0
	b	"elementary::exp::exp"
.LBB37_20:
	mov	x9, #9221120237041090560        // =0x7ff8000000000000
	fmov	d1, x9
	fmov	d2, d1
.LBB37_21:                              // %"curves::segments::knot_after.exit.i.i"
	cmp	x8, x3
	b.hs	.LBB37_24
// %bb.22:                              // %then.1.i19.i.i
	add	x9, x8, #1
	ldr	d3, [x2, x8, lsl #3]
	cmp	x9, x3
	b.hs	.LBB37_27
// %bb.23:                              // %arm.1.i.i.i22.i.i
	ldr	d4, [x2, x9, lsl #3]
	b	.LBB37_28
.LBB37_24:
	mov	x8, #9221120237041090560        // =0x7ff8000000000000
	fmov	d3, x8
	fmov	d4, d3
	b	.LBB37_28
.LBB37_25:                              // %then.1.i.i.i
	cmp	x10, x1
	b.hs	.LBB37_29
// %bb.26:                              // %arm.1.i.i.i.i.i
	ldr	d2, [x0, x10, lsl #3]
	b	.LBB37_21
.LBB37_27:
	mov	x8, #9221120237041090560        // =0x7ff8000000000000
	fmov	d4, x8
.LBB37_28:                              // %"curves::segments::ends_of.exit.i"
	fsub	d5, d0, d1
	fsub	d1, d2, d1
	fsub	d2, d4, d3
	fdiv	d1, d5, d1
	fmul	d1, d1, d2
	fadd	d1, d3, d1
	fnmul	d0, d1, d0
	b	"elementary::exp::exp"
.LBB37_29:
	mov	x9, #9221120237041090560        // =0x7ff8000000000000
	fmov	d2, x9
	b	.LBB37_21
.Lfunc_end37:
	.size	"yield_curve::linear::discount_of", .Lfunc_end37-"yield_curve::linear::discount_of"
                                        // -- End function
	.section	".text.elementary::power::power","ax",@progbits
	.p2align	2                               // -- Begin function elementary::power::power
	.type	"elementary::power::power",@function
"elementary::power::power":             // @"elementary::power::power"
// %bb.0:                               // %start
	movi	d2, #0000000000000000
	fmov	d3, d1
	//ARITH_FENCE
	fsub	d4, d2, d1
	//ARITH_FENCE
	fcmp	d2, d3
	cset	w8, mi
	//APP
	//NO_APP
	cmp	w8, #0
	fcsel	d4, d1, d4, ne
	mov	x8, #211106232532992            // =0xc00000000000
	movk	x8, #16530, lsl #48
	fmov	d6, x8
	fmov	d5, d4
	//ARITH_FENCE
	//ARITH_FENCE
	fcmp	d5, d6
	cset	w8, hi
	//APP
	//NO_APP
	cbz	w8, .LBB38_3
.LBB38_1:                               // %else.2
	fmov	d2, #1.00000000
	fmov	d3, d0
	//ARITH_FENCE
	//ARITH_FENCE
	fcmp	d3, d2
	fmov	d2, #1.00000000
	b.ne	.LBB38_7
.LBB38_2:                               // %join.3
	fmov	d0, d2
	ret
.LBB38_3:                               // %then.1.i
	mov	x8, #4841369599423283200        // =0x4330000000000000
	fmov	d6, x8
	fadd	d6, d4, d6
	fmov	d7, d6
	fmov	x8, d6
	//ARITH_FENCE
	fcmp	d2, d7
	ucvtf	d7, w8
	cset	w8, mi
	//APP
	//NO_APP
	cmp	w8, #0
	//ARITH_FENCE
	fccmp	d7, d5, #0, ne
	b.eq	.LBB38_8
// %bb.4:                               // %join.3.i.i
	mov	x9, #281474974613504            // =0xffffffe00000
	movk	x9, #16879, lsl #48
	fmov	d7, x9
	fmov	d16, d7
	//ARITH_FENCE
	fcmp	d16, d5
	cset	w9, mi
	//APP
	//NO_APP
	cbz	w9, .LBB38_18
.LBB38_5:                               // %"elementary::power::is_whole.exit"
	//ARITH_FENCE
	fcmp	d7, d5
	b.ne	.LBB38_1
// %bb.6:                               // %then.1
	cbnz	w8, .LBB38_9
	b	.LBB38_13
.LBB38_7:                               // %else.2.i40
	str	d8, [sp, #-32]!                 // 8-byte Folded Spill
	stp	x29, x30, [sp, #16]             // 16-byte Folded Spill
	add	x29, sp, #16
	fmov	d8, d1
	bl	"elementary::ln::ln"
	ldp	x29, x30, [sp, #16]             // 16-byte Folded Reload
	fmul	d0, d8, d0
	ldr	d8, [sp], #32                   // 8-byte Folded Reload
	b	"elementary::exp::exp"
.LBB38_8:                               // %"elementary::power::is_whole.exit.thread"
	fcmp	d7, d5
	b.ne	.LBB38_1
.LBB38_9:                               // %then.1.i.i33
	fmov	x8, d6
	ucvtf	d1, w8
	//ARITH_FENCE
	fcmp	d1, d5
	b.ne	.LBB38_13
.LBB38_10:                              // %"elementary::whole::usually_whole.exit.i14"
	fcmp	d3, d2
	cset	w9, mi
	//APP
	//NO_APP
	cbz	w9, .LBB38_21
// %bb.11:                              // %then.1.i16
	cbnz	w8, .LBB38_15
// %bb.12:
	fmov	d1, #1.00000000
	fmov	d0, #1.00000000
	fdiv	d0, d0, d1
	ret
.LBB38_13:                              // %join.3.i.i9
	mov	x8, #281474974613504            // =0xffffffe00000
	movk	x8, #16879, lsl #48
	fmov	d1, x8
	//ARITH_FENCE
	fcmp	d1, d5
	cset	w8, mi
	//APP
	//NO_APP
	cbz	w8, .LBB38_24
// %bb.14:                              // %"elementary::whole::usually_whole.exit.thread.i"
	fcmp	d3, d2
	mov	w8, #-1                         // =0xffffffff
	cset	w9, mi
	//APP
	//NO_APP
	cbz	w9, .LBB38_22
.LBB38_15:                              // %join.5.i.i.i.preheader
	fmov	d2, #1.00000000
	fmov	d1, #1.00000000
.LBB38_16:                              // %join.5.i.i.i
                                        // =>This Inner Loop Header: Depth=1
	tst	w8, #0x1
	lsr	w8, w8, #1
	fcsel	d3, d2, d0, eq
	fmul	d0, d0, d0
	fmul	d1, d1, d3
	cbnz	w8, .LBB38_16
// %bb.17:                              // %"elementary::whole_power::negative_power.exit.i"
	fmov	d0, #1.00000000
	fdiv	d0, d0, d1
	ret
.LBB38_18:                              // %join.3.i.i.i
	fcmp	d2, d5
	movi	d7, #0000000000000000
	cset	w9, mi
	//APP
	//NO_APP
	cbz	w9, .LBB38_5
// %bb.19:                              // %then.4.i.i.i
	fadd	d16, d4, d4
	fmov	d17, #1.00000000
	//ARITH_FENCE
	fmov	d18, d16
	//ARITH_FENCE
	fcmp	d17, d18
	cset	w9, hi
	//APP
	//NO_APP
	cbnz	w9, .LBB38_5
// %bb.20:                              // %then.1.i.i.i.i
	fmov	x9, d16
	mov	x11, #4503599627370496          // =0x10000000000000
	mov	w12, #1075                      // =0x433
	lsr	x10, x9, #52
	bfxil	x11, x9, #0, #52
	lsr	x13, x9, #54
	sub	x12, x12, x10
	sub	x10, x10, #1075
	cmp	x13, #269
	lsr	x11, x11, x12
	lsl	x9, x9, x10
	csel	x9, x11, x9, lo
	add	x9, x9, #1
	lsr	x9, x9, #1
	ucvtf	d7, w9
	b	.LBB38_5
.LBB38_21:                              // %else.2.i
	cbz	w8, .LBB38_27
.LBB38_22:                              // %join.5.i.i.preheader
	fmov	d1, #1.00000000
	fmov	d2, #1.00000000
.LBB38_23:                              // %join.5.i.i
                                        // =>This Inner Loop Header: Depth=1
	tst	w8, #0x1
	lsr	w8, w8, #1
	fcsel	d3, d1, d0, eq
	fmul	d0, d0, d0
	fmul	d2, d2, d3
	cbnz	w8, .LBB38_23
	b	.LBB38_2
.LBB38_24:                              // %join.3.i.i.i12
	fcmp	d2, d5
	cset	w8, mi
	//APP
	//NO_APP
	cbz	w8, .LBB38_10
// %bb.25:                              // %then.4.i.i.i17
	fadd	d1, d4, d4
	fmov	d4, #1.00000000
	//ARITH_FENCE
	fmov	d5, d1
	//ARITH_FENCE
	fcmp	d4, d5
	cset	w8, hi
	//APP
	//NO_APP
	cbz	w8, .LBB38_28
// %bb.26:
	mov	w8, wzr
	b	.LBB38_10
.LBB38_27:
	fmov	d0, #1.00000000
	ret
.LBB38_28:                              // %then.1.i.i.i.i22
	fmov	x8, d1
	mov	x10, #4503599627370496          // =0x10000000000000
	mov	w11, #1075                      // =0x433
	lsr	x9, x8, #52
	bfxil	x10, x8, #0, #52
	lsr	x12, x8, #54
	sub	x11, x11, x9
	sub	x9, x9, #1075
	cmp	x12, #269
	lsr	x10, x10, x11
	lsl	x8, x8, x9
	csel	x8, x10, x8, lo
	add	x8, x8, #1
	lsr	x8, x8, #1
                                        // kill: def $w8 killed $w8 killed $x8 def $x8
	b	.LBB38_10
.Lfunc_end38:
	.size	"elementary::power::power", .Lfunc_end38-"elementary::power::power"
                                        // -- End function
	.section	".text.spread_analytics::rate_curves::rate_of","ax",@progbits
	.p2align	2                               // -- Begin function spread_analytics::rate_curves::rate_of
	.type	"spread_analytics::rate_curves::rate_of",@function
"spread_analytics::rate_curves::rate_of": // @"spread_analytics::rate_curves::rate_of"
// %bb.0:                               // %start
	cbz	x1, .LBB39_8
// %bb.1:                               // %"curves::segments::knot_at.exit.i"
	fmov	d1, d0
	ldr	d2, [x0]
	//ARITH_FENCE
	//ARITH_FENCE
	fcmp	d1, d2
	cset	w8, hi
	//APP
	//NO_APP
	cbz	w8, .LBB39_15
// %bb.2:                               // %"curves::segments::last_knot.exit.i"
	add	x8, x0, x1, lsl #3
	ldur	d2, [x8, #-8]
	//ARITH_FENCE
	fcmp	d2, d1
	cset	w8, hi
	//APP
	//NO_APP
	cbz	w8, .LBB39_17
// %bb.3:                               // %join.6.i
	cmp	x1, #1
	b.eq	.LBB39_10
// %bb.4:                               // %join.5.i.i6.i.i.preheader
	mov	x8, xzr
	mov	x9, x1
	b	.LBB39_6
.LBB39_5:                               // %select.end
                                        //   in Loop: Header=BB39_6 Depth=1
	sub	x9, x9, x10
	cmp	x9, #1
	b.ls	.LBB39_11
.LBB39_6:                               // %join.5.i.i6.i.i
                                        // =>This Inner Loop Header: Depth=1
	lsr	x10, x9, #1
	add	x11, x10, x8
	ldr	d2, [x0, x11, lsl #3]
	//ARITH_FENCE
	fcmp	d1, d2
	cset	w12, mi
	//APP
	//NO_APP
	cbnz	w12, .LBB39_5
// %bb.7:                               // %select.false
                                        //   in Loop: Header=BB39_6 Depth=1
	mov	x8, x11
	b	.LBB39_5
.LBB39_8:                               // %"curves::segments::knot_at.exit.thread.i"
	mov	x8, #9221120237041090560        // =0x7ff8000000000000
	fmov	d1, d0
	fmov	d2, x8
	//ARITH_FENCE
	//ARITH_FENCE
	fcmp	d1, d2
	cset	w8, hi
	//APP
	//NO_APP
	cbz	w8, .LBB39_15
// %bb.9:                               // %"curves::segments::last_knot.exit.i.thread"
	fcmp	d2, d1
	cset	w8, hi
	//APP
	//NO_APP
	cbz	w8, .LBB39_17
.LBB39_10:
	mov	x8, xzr
.LBB39_11:                              // %"curves::kinds::segment_on.exit.i"
	cmp	x8, x1
	b.hs	.LBB39_20
// %bb.12:                              // %then.2.i.i
	lsl	x9, x8, #3
	add	x10, x8, #1
	cmp	x10, x1
	ldr	d1, [x0, x9]
	b.hs	.LBB39_25
// %bb.13:                              // %then.2.i.i
	cmp	x10, x3
	b.hs	.LBB39_25
// %bb.14:                              // %then.8.i.i
	add	x8, x9, #8
	ldr	d3, [x2, x9]
	ldr	d2, [x0, x8]
	ldr	d4, [x2, x8]
	b	.LBB39_28
.LBB39_15:                              // %then.1.i
	cbz	x3, .LBB39_19
// %bb.16:                              // %arm.1.i.i10.i
	ldr	d0, [x2]
	ret
.LBB39_17:                              // %then.4.i
	cbz	x3, .LBB39_19
// %bb.18:                              // %arm.1.i.i17.i
	add	x8, x2, x3, lsl #3
	ldur	d0, [x8, #-8]
	ret
.LBB39_19:
	mov	x8, #9221120237041090560        // =0x7ff8000000000000
	fmov	d0, x8
	ret
.LBB39_20:
	mov	x9, #9221120237041090560        // =0x7ff8000000000000
	fmov	d1, x9
	fmov	d2, d1
.LBB39_21:                              // %"curves::segments::knot_after.exit.i.i"
	cmp	x8, x3
	b.hs	.LBB39_24
// %bb.22:                              // %then.1.i19.i.i
	add	x9, x8, #1
	ldr	d3, [x2, x8, lsl #3]
	cmp	x9, x3
	b.hs	.LBB39_27
// %bb.23:                              // %arm.1.i.i.i22.i.i
	ldr	d4, [x2, x9, lsl #3]
	b	.LBB39_28
.LBB39_24:
	mov	x8, #9221120237041090560        // =0x7ff8000000000000
	fmov	d3, x8
	fmov	d4, d3
	b	.LBB39_28
.LBB39_25:                              // %then.1.i.i.i
	cmp	x10, x1
	b.hs	.LBB39_29
// %bb.26:                              // %arm.1.i.i.i.i.i
	ldr	d2, [x0, x10, lsl #3]
	b	.LBB39_21
.LBB39_27:
	mov	x8, #9221120237041090560        // =0x7ff8000000000000
	fmov	d4, x8
.LBB39_28:                              // %"curves::segments::ends_of.exit.i"
	fsub	d4, d4, d3
	fsub	d0, d0, d1
	fsub	d1, d2, d1
	fmul	d0, d0, d4
	fdiv	d0, d0, d1
	fadd	d0, d3, d0
	ret
.LBB39_29:
	mov	x9, #9221120237041090560        // =0x7ff8000000000000
	fmov	d2, x9
	b	.LBB39_21
.Lfunc_end39:
	.size	"spread_analytics::rate_curves::rate_of", .Lfunc_end39-"spread_analytics::rate_curves::rate_of"
                                        // -- End function
	.section	".text.spread_analytics::rate_curves::discount_of","ax",@progbits
	.p2align	2                               // -- Begin function spread_analytics::rate_curves::discount_of
	.type	"spread_analytics::rate_curves::discount_of",@function
"spread_analytics::rate_curves::discount_of": // @"spread_analytics::rate_curves::discount_of"
// %bb.0:                               // %start
	cbz	x1, .LBB40_8
// %bb.1:                               // %"curves::segments::knot_at.exit.i"
	fmov	d1, d0
	ldr	d2, [x0]
	//ARITH_FENCE
	//ARITH_FENCE
	fcmp	d1, d2
	cset	w8, hi
	//APP
	//NO_APP
	cbz	w8, .LBB40_15
// %bb.2:                               // %"curves::segments::last_knot.exit.i"
	add	x8, x0, x1, lsl #3
	ldur	d2, [x8, #-8]
	//ARITH_FENCE
	fcmp	d2, d1
	cset	w8, hi
	//APP
	//NO_APP
	cbz	w8, .LBB40_17
// %bb.3:                               // %join.6.i
	cmp	x1, #1
	b.eq	.LBB40_10
// %bb.4:                               // %join.5.i.i6.i.i.preheader
	mov	x8, xzr
	mov	x9, x1
	b	.LBB40_6
.LBB40_5:                               // %select.end
                                        //   in Loop: Header=BB40_6 Depth=1
	sub	x9, x9, x10
	cmp	x9, #1
	b.ls	.LBB40_11
.LBB40_6:                               // %join.5.i.i6.i.i
                                        // =>This Inner Loop Header: Depth=1
	lsr	x10, x9, #1
	add	x11, x10, x8
	ldr	d2, [x0, x11, lsl #3]
	//ARITH_FENCE
	fcmp	d1, d2
	cset	w12, mi
	//APP
	//NO_APP
	cbnz	w12, .LBB40_5
// %bb.7:                               // %select.false
                                        //   in Loop: Header=BB40_6 Depth=1
	mov	x8, x11
	b	.LBB40_5
.LBB40_8:                               // %"curves::segments::knot_at.exit.thread.i"
	mov	x8, #9221120237041090560        // =0x7ff8000000000000
	fmov	d1, d0
	fmov	d2, x8
	//ARITH_FENCE
	//ARITH_FENCE
	fcmp	d1, d2
	cset	w8, hi
	//APP
	//NO_APP
	cbz	w8, .LBB40_15
// %bb.9:                               // %"curves::segments::last_knot.exit.i.thread"
	fcmp	d2, d1
	cset	w8, hi
	//APP
	//NO_APP
	cbz	w8, .LBB40_17
.LBB40_10:
	mov	x8, xzr
.LBB40_11:                              // %"curves::kinds::segment_on.exit.i"
	cmp	x8, x1
	b.hs	.LBB40_20
// %bb.12:                              // %then.2.i.i
	lsl	x9, x8, #3
	add	x10, x8, #1
	cmp	x10, x1
	ldr	d1, [x0, x9]
	b.hs	.LBB40_25
// %bb.13:                              // %then.2.i.i
	cmp	x10, x3
	b.hs	.LBB40_25
// %bb.14:                              // %then.8.i.i
	add	x8, x9, #8
	ldr	d3, [x2, x9]
	ldr	d2, [x0, x8]
	ldr	d4, [x2, x8]
	b	.LBB40_28
.LBB40_15:                              // %then.1.i
	cbz	x3, .LBB40_19
// %bb.16:                              // %arm.1.i.i10.i
	ldr	d1, [x2]
	fnmul	d0, d1, d0
	b	"elementary::exp::exp"
.LBB40_17:                              // %then.4.i
	cbz	x3, .LBB40_19
// %bb.18:                              // %arm.1.i.i17.i
	add	x8, x2, x3, lsl #3
	ldur	d1, [x8, #-8]
	fnmul	d0, d1, d0
	b	"elementary::exp::exp"
.LBB40_19:
	mov	x8, #9221120237041090560        // =0x7ff8000000000000
	fmov	d1, x8
	fnmul	d0, d1, d0
	b	"elementary::exp::exp"
.LBB40_20:
	mov	x9, #9221120237041090560        // =0x7ff8000000000000
	fmov	d1, x9
	fmov	d2, d1
.LBB40_21:                              // %"curves::segments::knot_after.exit.i.i"
	cmp	x8, x3
	b.hs	.LBB40_24
// %bb.22:                              // %then.1.i19.i.i
	add	x9, x8, #1
	ldr	d3, [x2, x8, lsl #3]
	cmp	x9, x3
	b.hs	.LBB40_27
// %bb.23:                              // %arm.1.i.i.i22.i.i
	ldr	d4, [x2, x9, lsl #3]
	b	.LBB40_28
.LBB40_24:
	mov	x8, #9221120237041090560        // =0x7ff8000000000000
	fmov	d3, x8
	fmov	d4, d3
	b	.LBB40_28
.LBB40_25:                              // %then.1.i.i.i
	cmp	x10, x1
	b.hs	.LBB40_29
// %bb.26:                              // %arm.1.i.i.i.i.i
	ldr	d2, [x0, x10, lsl #3]
	b	.LBB40_21
.LBB40_27:
	mov	x8, #9221120237041090560        // =0x7ff8000000000000
	fmov	d4, x8
.LBB40_28:                              // %"curves::segments::ends_of.exit.i"
	fsub	d4, d4, d3
	fsub	d5, d0, d1
	fsub	d1, d2, d1
	fmul	d4, d5, d4
	fdiv	d1, d4, d1
	fadd	d1, d3, d1
	fnmul	d0, d1, d0
	b	"elementary::exp::exp"
.LBB40_29:
	mov	x9, #9221120237041090560        // =0x7ff8000000000000
	fmov	d2, x9
	b	.LBB40_21
.Lfunc_end40:
	.size	"spread_analytics::rate_curves::discount_of", .Lfunc_end40-"spread_analytics::rate_curves::discount_of"
                                        // -- End function
	.section	.rodata.cst8,"aM",@progbits,8
	.p2align	3, 0x0                          // -- Begin function pool::loans::Loans::judged
.LCPI41_0:
	.word	1                               // 0x1
	.word	10                              // 0xa
	.section	".text.pool::loans::Loans::judged","ax",@progbits
	.p2align	2
	.type	"pool::loans::Loans::judged",@function
"pool::loans::Loans::judged":           // @"pool::loans::Loans::judged"
// %bb.0:                               // %start
	mov	x8, #53053                      // =0xcf3d
	mov	x10, #3120                      // =0xc30
	adrp	x9, .LCPI41_0
	movk	x8, #15603, lsl #16
	movk	x10, #12483, lsl #16
	ldr	d0, [x9, :lo12:.LCPI41_0]
	movk	x8, #62415, lsl #32
	movk	x10, #49932, lsl #32
	movk	x8, #53052, lsl #48
	movk	x10, #3120, lsl #48
	mul	x8, x2, x8
	cmp	x8, x10
	b.ls	.LBB41_2
// %bb.1:
	str	d0, [x0]
	stp	xzr, xzr, [x0, #8]
	ret
.LBB41_2:                               // %join.3.i
	subs	x8, x2, #21
	b.hs	.LBB41_4
// %bb.3:
	movi	v0.2d, #0000000000000000
	str	d0, [x0]
	stp	x1, x2, [x0, #8]
	ret
.LBB41_4:                               // %arm.3.i.preheader.i.i
	mov	x10, #34329                     // =0x8619
	mov	x9, xzr
	mov	x11, x1
	movk	x10, #6241, lsl #16
	movk	x10, #24966, lsl #32
	movk	x10, #34328, lsl #48
	umulh	x10, x8, x10
	sub	x8, x8, x10
	add	x8, x10, x8, lsr #1
	lsr	x8, x8, #4
	add	x10, x8, #1
.LBB41_5:                               // %arm.3.i.i.i
                                        // =>This Inner Loop Header: Depth=1
	ldrb	w12, [x11], #21
	cmp	w12, #1
	b.ne	.LBB41_21
// %bb.6:                               // %join.9.i.i.i
                                        //   in Loop: Header=BB41_5 Depth=1
	add	x9, x9, #1
	cmp	x10, x9
	b.ne	.LBB41_5
// %bb.7:                               // %"records::record::bad_record.exit.i.i.i.i.lr.ph.i.i.i"
	movi	d0, #0000000000000000
	mov	x9, xzr
	add	x10, x8, #1
	mov	x11, x1
	//ARITH_FENCE
.LBB41_8:                               // %"records::record::bad_record.exit.i.i.i.i.i.i.i"
                                        // =>This Inner Loop Header: Depth=1
	ldrb	w12, [x11]
	cmp	w12, #1
	b.ne	.LBB41_27
// %bb.9:                               // %arm.3.i.i.i8
                                        //   in Loop: Header=BB41_8 Depth=1
	ldur	x12, [x11, #1]
	mov	x15, #9221120237041090560       // =0x7ff8000000000000
	mov	x14, #9218868437227405312       // =0x7ff0000000000000
	fmov	d2, x15
	fmov	d1, x12
	and	x13, x12, #0x7fffffffffffffff
	cmp	x13, x14
	fcsel	d1, d2, d1, hi
	fsub	d2, d1, d1
	//ARITH_FENCE
	fcmp	d1, d0
	cset	w12, mi
	//APP
	//NO_APP
	cmp	w12, #0
	//ARITH_FENCE
	fccmp	d2, d0, #0, eq
	b.ne	.LBB41_22
// %bb.10:                              // %join.9.i.i.i9
                                        //   in Loop: Header=BB41_8 Depth=1
	add	x9, x9, #1
	add	x11, x11, #21
	cmp	x10, x9
	b.ne	.LBB41_8
// %bb.11:                              // %"records::record::bad_record.exit.i.i.i.i.i.i10.i.preheader"
	mov	x9, xzr
	add	x8, x8, #1
	mov	x10, x1
.LBB41_12:                              // %"records::record::bad_record.exit.i.i.i.i.i.i10.i"
                                        // =>This Inner Loop Header: Depth=1
	ldrb	w11, [x10]
	cmp	w11, #1
	b.ne	.LBB41_27
// %bb.13:                              // %arm.3.i.i15.i
                                        //   in Loop: Header=BB41_12 Depth=1
	ldur	w11, [x10, #17]
	sub	w11, w11, #1201
	cmn	w11, #1200
	b.lo	.LBB41_23
// %bb.14:                              // %join.9.i.i16.i
                                        //   in Loop: Header=BB41_12 Depth=1
	add	x9, x9, #1
	add	x10, x10, #21
	cmp	x8, x9
	b.ne	.LBB41_12
// %bb.15:                              // %arm.5.i10
	tbz	w3, #0, .LBB41_24
// %bb.16:                              // %"records::record::bad_record.exit.i.i.i.i.i.i.i.i.i.preheader"
	mov	w8, wzr
	mov	x9, x2
	mov	x10, x1
.LBB41_17:                              // %"records::record::bad_record.exit.i.i.i.i.i.i.i.i.i"
                                        // =>This Inner Loop Header: Depth=1
	ldrb	w11, [x10]
	cmp	w11, #1
	b.ne	.LBB41_27
// %bb.18:                              // %arm.3.i.i.i.i.i
                                        //   in Loop: Header=BB41_17 Depth=1
	ldur	w11, [x10, #17]
	sub	x9, x9, #21
	add	x10, x10, #21
	cmp	w8, w11
	csel	w8, w8, w11, hi
	cmp	x9, #20
	b.hi	.LBB41_17
// %bb.19:                              // %"pool::loans::Loans::lack_room.exit.i.i"
	add	x8, x8, w8, uxtw #1
	cmp	x4, x8
	b.hs	.LBB41_24
// %bb.20:
	mov	w8, #2                          // =0x2
	lsr	x10, x8, #32
	mov	w9, #1                          // =0x1
	and	w8, w8, #0xff
	stp	w9, w8, [x0]
	stp	x10, xzr, [x0, #8]
	ret
.LBB41_21:                              // %"pool::loans::Loans::of.exit.thread42"
	mov	w8, #-1                         // =0xffffffff
	cmp	x9, x8
	csel	x1, x9, x8, lo
	str	d0, [x0]
	stp	x1, xzr, [x0, #8]
	ret
.LBB41_22:                              // %arm.2.i
	mov	w8, #-1                         // =0xffffffff
	cmp	x9, x8
	csel	x8, x9, x8, lo
	lsl	x8, x8, #32
	lsr	x10, x8, #32
	mov	w9, #1                          // =0x1
	and	w8, w8, #0xff
	stp	w9, w8, [x0]
	stp	x10, xzr, [x0, #8]
	ret
.LBB41_23:                              // %arm.1.i23.i
	mov	w8, #-1                         // =0xffffffff
	cmp	x9, x8
	csel	x8, x9, x8, lo
	mov	w9, #1                          // =0x1
	orr	x8, x9, x8, lsl #32
	lsr	x10, x8, #32
	mov	w9, #1                          // =0x1
	and	w8, w8, #0xff
	stp	w9, w8, [x0]
	stp	x10, xzr, [x0, #8]
	ret
.LBB41_24:                              // %"pool::loans::Loans::judge.exit"
	cmp	x2, #1365
	b.hs	.LBB41_26
// %bb.25:
	movi	v0.2d, #0000000000000000
	str	d0, [x0]
	stp	x1, x2, [x0, #8]
	ret
.LBB41_26:
	mov	w8, #6                          // =0x6
	lsr	x10, x8, #32
	mov	w9, #1                          // =0x1
	and	w8, w8, #0xff
	stp	w9, w8, [x0]
	stp	x10, xzr, [x0, #8]
	ret
.LBB41_27:                              // %arm.2.i.i.i.i.i
	brk	#0x1
.Lfunc_end41:
	.size	"pool::loans::Loans::judged", .Lfunc_end41-"pool::loans::Loans::judged"
                                        // -- End function
	.section	.rodata.cst8,"aM",@progbits,8
	.p2align	3, 0x0                          // -- Begin function pool::flows::Pool::fill
.LCPI42_0:
	.xword	0x3faeb851eb851eb8              // double 0.059999999999999998
	.section	".text.pool::flows::Pool::fill","ax",@progbits
	.p2align	2
	.type	"pool::flows::Pool::fill",@function
"pool::flows::Pool::fill":              // @"pool::flows::Pool::fill"
// %bb.0:                               // %start
	stp	d9, d8, [sp, #-96]!             // 16-byte Folded Spill
	stp	x29, x30, [sp, #16]             // 16-byte Folded Spill
	add	x29, sp, #16
	stp	x28, x25, [sp, #32]             // 16-byte Folded Spill
	stp	x24, x23, [sp, #48]             // 16-byte Folded Spill
	stp	x22, x21, [sp, #64]             // 16-byte Folded Spill
	stp	x20, x19, [sp, #80]             // 16-byte Folded Spill
	sub	sp, sp, #3072
	str	xzr, [sp]
	sub	sp, sp, #3072
	str	xzr, [sp]
	sub	sp, sp, #3072
	str	xzr, [sp]
	sub	sp, sp, #384
	ldr	x21, [x0, #8]
	cmp	x21, #21
	b.hs	.LBB42_3
// %bb.1:
	mov	w19, wzr
.LBB42_2:                               // %"pool::flows::Pool::add_loans.exit"
	mov	w0, w19
	add	sp, sp, #2, lsl #12             // =8192
	add	sp, sp, #1408
	ldp	x20, x19, [sp, #80]             // 16-byte Folded Reload
	ldp	x22, x21, [sp, #64]             // 16-byte Folded Reload
	ldp	x24, x23, [sp, #48]             // 16-byte Folded Reload
	ldp	x28, x25, [sp, #32]             // 16-byte Folded Reload
	ldp	x29, x30, [sp, #16]             // 16-byte Folded Reload
	ldp	d9, d8, [sp], #96               // 16-byte Folded Reload
	ret
.LBB42_3:                               // %"records::record::bad_record.exit.i.i.i.i.i.i.i.preheader"
	ldr	x22, [x0]
	ldp	x23, x24, [x0, #32]
	ldrb	w25, [x0, #16]
	mov	x20, x1
	mov	w19, wzr
	ldr	d8, [x0, #24]
	mov	x8, x21
	mov	x9, x22
.LBB42_4:                               // %"records::record::bad_record.exit.i.i.i.i.i.i.i"
                                        // =>This Inner Loop Header: Depth=1
	ldrb	w10, [x9]
	cmp	w10, #1
	b.ne	.LBB42_45
// %bb.5:                               // %arm.3.i.i.i
                                        //   in Loop: Header=BB42_4 Depth=1
	ldur	w10, [x9, #17]
	sub	x8, x8, #21
	add	x9, x9, #21
	cmp	w19, w10
	csel	w19, w19, w10, hi
	cmp	x8, #20
	b.hi	.LBB42_4
// %bb.6:                               // %"pool::flows::Pool::months.exit"
	mov	x0, sp
	mov	w1, wzr
	mov	w2, #9600                       // =0x2580
	bl	memset
	cbz	w19, .LBB42_25
// %bb.7:                               // %join.5.lr.ph.i
	cbz	w25, .LBB42_13
// %bb.8:                               // %join.5.lr.ph.i
	cmp	w25, #1
	b.ne	.LBB42_15
// %bb.9:                               // %join.5.us8.preheader.i
	adrp	x8, .LCPI42_0
	mov	x23, xzr
	ldr	d0, [x8, :lo12:.LCPI42_0]
	fmul	d8, d8, d0
	b	.LBB42_11
.LBB42_10:                              // %"pool::speed::psa_rate.exit.i.us.i"
                                        //   in Loop: Header=BB42_11 Depth=1
	fmov	d9, #1.00000000
	mov	x8, #6148914691236517205        // =0x5555555555555555
	add	x24, x23, #1
	movk	x8, #16309, lsl #48
	fmov	d1, x8
	fsub	d0, d9, d0
	bl	"elementary::power::power"
	fsub	d0, d9, d0
	mov	x8, sp
	cmp	x19, x24
	str	d0, [x8, x23, lsl #3]
	mov	x23, x24
	b.eq	.LBB42_24
.LBB42_11:                              // %join.5.us8.i
                                        // =>This Inner Loop Header: Depth=1
	fmov	d0, d8
	cmp	x23, #29
	b.hi	.LBB42_10
// %bb.12:                              // %then.1.i.i.us.i
                                        //   in Loop: Header=BB42_11 Depth=1
	add	w8, w23, #1
	fmov	d1, #30.00000000
	ucvtf	d0, w8
	//ARITH_FENCE
	fdiv	d0, d0, d1
	fmul	d0, d8, d0
	b	.LBB42_10
.LBB42_13:                              // %join.5.lr.ph.split.us.i
	fmov	d9, #1.00000000
	mov	x8, #6148914691236517205        // =0x5555555555555555
	movk	x8, #16309, lsl #48
	fmov	d1, x8
	fsub	d0, d9, d8
	bl	"elementary::power::power"
	fsub	d0, d9, d0
	cmp	w19, #4
	b.hs	.LBB42_19
// %bb.14:
	mov	x8, xzr
	b	.LBB42_22
.LBB42_15:                              // %join.5.us18.preheader.i
	mov	x8, xzr
	b	.LBB42_17
.LBB42_16:                              // %"pool::speed::monthly_smm.exit.us21.i"
                                        //   in Loop: Header=BB42_17 Depth=1
	add	x9, x8, #1
	mov	x10, sp
	cmp	x19, x9
	str	d0, [x10, x8, lsl #3]
	mov	x8, x9
	b.eq	.LBB42_24
.LBB42_17:                              // %join.5.us18.i
                                        // =>This Inner Loop Header: Depth=1
	movi	d0, #0000000000000000
	cmp	x24, x8
	b.ls	.LBB42_16
// %bb.18:                              // %arm.1.i.i.i.us.i
                                        //   in Loop: Header=BB42_17 Depth=1
	ldr	d0, [x23, x8, lsl #3]
	b	.LBB42_16
.LBB42_19:                              // %vector.ph
	dup	v1.2d, v0.d[0]
	mov	x9, sp
	and	x8, x19, #0xfffffffc
	add	x9, x9, #16
	and	x10, x19, #0xfffffffc
.LBB42_20:                              // %vector.body
                                        // =>This Inner Loop Header: Depth=1
	subs	x10, x10, #4
	stp	q1, q1, [x9, #-16]
	add	x9, x9, #32
	b.ne	.LBB42_20
// %bb.21:                              // %middle.block
	cmp	x8, x19
	b.eq	.LBB42_24
.LBB42_22:                              // %join.5.us.i.preheader
	mov	x9, sp
	add	x9, x9, x8, lsl #3
	sub	x8, x19, x8
.LBB42_23:                              // %join.5.us.i
                                        // =>This Inner Loop Header: Depth=1
	subs	x8, x8, #1
	str	d0, [x9], #8
	b.ne	.LBB42_23
.LBB42_24:                              // %"pool::flows::Pool::set_speeds.exit"
	add	x8, x19, x19, lsl #1
	mov	x0, x20
	mov	w1, wzr
	lsl	x23, x8, #3
	sub	x2, x23, #8
	bl	memset
	add	x8, x20, x23
	stur	xzr, [x8, #-8]
.LBB42_25:                              // %"records::record::bad_record.exit.i.i.i.i.lr.ph.i"
	movi	d0, #0000000000000000
	fmov	d1, #1.00000000
	add	x8, x20, #16
	//ARITH_FENCE
	//ARITH_FENCE
	b	.LBB42_27
.LBB42_26:                              // %"pool::walk::add_loan.exit.i"
                                        //   in Loop: Header=BB42_27 Depth=1
	cmp	x21, #20
	b.ls	.LBB42_2
.LBB42_27:                              // %"records::record::bad_record.exit.i.i.i.i.i"
                                        // =>This Loop Header: Depth=1
                                        //     Child Loop BB42_31 Depth 2
                                        //     Child Loop BB42_33 Depth 2
                                        //     Child Loop BB42_39 Depth 2
	mov	x10, x22
	ldrb	w9, [x22], #21
	cmp	w9, #1
	b.ne	.LBB42_45
// %bb.28:                              // %arm.3.i
                                        //   in Loop: Header=BB42_27 Depth=1
	ldur	x9, [x10, #1]
	mov	x13, #9221120237041090560       // =0x7ff8000000000000
	mov	x12, #9218868437227405312       // =0x7ff0000000000000
	fmov	d3, x13
	fmov	d2, x9
	and	x11, x9, #0x7fffffffffffffff
	cmp	x11, x12
	fcsel	d2, d3, d2, hi
	fmov	d3, d2
	//ARITH_FENCE
	fcmp	d3, d0
	fsub	d3, d2, d2
	cset	w9, mi
	//APP
	//NO_APP
	cmp	w9, #0
	//ARITH_FENCE
	fccmp	d3, d0, #0, eq
	b.ne	.LBB42_45
// %bb.29:                              // %arm.3.i
                                        //   in Loop: Header=BB42_27 Depth=1
	ldur	w9, [x10, #17]
	sub	w11, w9, #1201
	cmn	w11, #1200
	b.lo	.LBB42_45
// %bb.30:                              // %join.5.i.preheader.i.i.i.i.i
                                        //   in Loop: Header=BB42_27 Depth=1
	ldur	x10, [x10, #9]
	fmov	d3, #12.00000000
	mov	x12, #9221120237041090560       // =0x7ff8000000000000
	mov	x11, #9218868437227405312       // =0x7ff0000000000000
	fmov	d5, #1.00000000
	sub	x21, x21, #21
	fmov	d4, x10
	and	x10, x10, #0x7fffffffffffffff
	cmp	x10, x11
	mov	w10, w9
	fdiv	d3, d4, d3
	fmov	d4, x12
	fcsel	d3, d4, d3, hi
	fmov	d4, #1.00000000
	fadd	d6, d3, d5
.LBB42_31:                              // %join.5.i.i.i.i.i.i
                                        //   Parent Loop BB42_27 Depth=1
                                        // =>  This Inner Loop Header: Depth=2
	tst	w10, #0x1
	lsr	w10, w10, #1
	fcsel	d7, d5, d6, eq
	fmul	d6, d6, d6
	fmul	d4, d4, d7
	cbnz	w10, .LBB42_31
// %bb.32:                              // %"mortgage::payment::growth.exit.i.i.i.i"
                                        //   in Loop: Header=BB42_27 Depth=1
	fmul	d5, d2, d3
	fmov	d6, #-1.00000000
	mov	w11, wzr
	mov	x10, xzr
	mov	x12, x8
	fadd	d6, d4, d6
	fmul	d5, d5, d4
	//ARITH_FENCE
	fcmp	d4, d1
	fdiv	d5, d5, d6
	ucvtf	d6, w9
	//ARITH_FENCE
	fdiv	d6, d2, d6
	fcsel	d4, d5, d6, ne
.LBB42_33:                              // %join.5.i.i.i
                                        //   Parent Loop BB42_27 Depth=1
                                        // =>  This Inner Loop Header: Depth=2
	fmul	d6, d3, d2
	fmov	d7, d2
	fsub	d5, d4, d6
	//ARITH_FENCE
	fcmp	d0, d7
	cset	w15, mi
	fmov	d16, d5
	//APP
	//NO_APP
	//ARITH_FENCE
	fcmp	d0, d16
	cset	w13, mi
	fcmp	d16, d7
	//APP
	//NO_APP
	cset	w14, mi
	//APP
	//NO_APP
	cbz	w15, .LBB42_36
// %bb.34:                              // %join.5.i.i.i
                                        //   in Loop: Header=BB42_33 Depth=2
	cmp	w13, #0
	ccmp	w14, #0, #4, ne
	b.eq	.LBB42_36
// %bb.35:                              // %join.14.i.i.i
                                        //   in Loop: Header=BB42_33 Depth=2
	fsub	d2, d2, d5
	mov	x13, sp
	mov	v5.d[1], v6.d[0]
	ldr	d7, [x13, x10, lsl #3]
	ldr	d16, [x12]
	add	x10, x10, #1
	cmp	x9, x10
	add	w11, w11, #1
	fmul	d6, d2, d7
	ldur	q7, [x12, #-16]
	fadd	v5.2d, v5.2d, v7.2d
	fadd	d6, d6, d16
	stur	q5, [x12, #-16]
	str	d6, [x12], #24
	b.ne	.LBB42_33
	b	.LBB42_26
.LBB42_36:                              // %"pool::walk::ordinary_months.exit.i.i"
                                        //   in Loop: Header=BB42_27 Depth=1
	cmp	w9, w10
	b.ls	.LBB42_26
// %bb.37:                              // %join.5.lr.ph.i10.i.i
                                        //   in Loop: Header=BB42_27 Depth=1
	mov	w10, #24                        // =0x18
	mov	x12, sp
	sub	x9, x9, w11, uxtw
	umaddl	x10, w11, w10, x8
	add	x12, x12, w11, uxtw #3
	b	.LBB42_39
.LBB42_38:                              // %"pool::months::add_above.exit.i.i.i"
                                        //   in Loop: Header=BB42_39 Depth=2
	subs	x9, x9, #1
	add	x10, x10, #24
	add	x12, x12, #8
	b.eq	.LBB42_26
.LBB42_39:                              // %join.5.i12.i.i
                                        //   Parent Loop BB42_27 Depth=1
                                        // =>  This Inner Loop Header: Depth=2
	fmul	d6, d3, d2
	fsub	d5, d4, d6
	fmov	d7, d5
	//ARITH_FENCE
	fcmp	d0, d7
	cset	w11, mi
	//APP
	//NO_APP
	cbz	w11, .LBB42_42
// %bb.40:                              // %select.end
                                        //   in Loop: Header=BB42_39 Depth=2
	fmov	d16, d5
	fmov	d7, d2
	//ARITH_FENCE
	//ARITH_FENCE
	fcmp	d16, d7
	cset	w11, mi
	//APP
	//NO_APP
	cbz	w11, .LBB42_43
.LBB42_41:                              // %select.end33
                                        //   in Loop: Header=BB42_39 Depth=2
	fcmp	d0, d7
	fsub	d2, d2, d5
	cset	w11, mi
	//APP
	//NO_APP
	cbnz	w11, .LBB42_44
	b	.LBB42_38
.LBB42_42:                              // %select.false
                                        //   in Loop: Header=BB42_39 Depth=2
	movi	d5, #0000000000000000
	fmov	d16, d5
	fmov	d7, d2
	//ARITH_FENCE
	//ARITH_FENCE
	fcmp	d16, d7
	cset	w11, mi
	//APP
	//NO_APP
	cbnz	w11, .LBB42_41
.LBB42_43:                              // %select.false34
                                        //   in Loop: Header=BB42_39 Depth=2
	fmov	d5, d2
	fcmp	d0, d7
	fsub	d2, d2, d5
	cset	w11, mi
	//APP
	//NO_APP
	cbz	w11, .LBB42_38
.LBB42_44:                              // %then.1.i.i.i.i
                                        //   in Loop: Header=BB42_39 Depth=2
	ldr	d7, [x12]
	mov	v5.d[1], v6.d[0]
	ldr	d16, [x10]
	fmul	d6, d2, d7
	ldur	q7, [x10, #-16]
	fadd	v5.2d, v5.2d, v7.2d
	fadd	d6, d6, d16
	stur	q5, [x10, #-16]
	str	d6, [x10]
	b	.LBB42_38
.LBB42_45:                              // %arm.2.i.i.i.i.i
	brk	#0x1
.Lfunc_end42:
	.size	"pool::flows::Pool::fill", .Lfunc_end42-"pool::flows::Pool::fill"
                                        // -- End function
	.section	".text.pool::flows::Pool::prices::<=3>","ax",@progbits
	.p2align	2                               // -- Begin function pool::flows::Pool::prices::<=3>
	.type	"pool::flows::Pool::prices::<=3>",@function
"pool::flows::Pool::prices::<=3>":      // @"pool::flows::Pool::prices::<=3>"
// %bb.0:                               // %start
	str	d10, [sp, #-80]!                // 8-byte Folded Spill
	sub	x9, sp, #6, lsl #12             // =24576
	stp	d9, d8, [sp, #8]                // 16-byte Folded Spill
	sub	x9, x9, #3072
	stp	x29, x30, [sp, #24]             // 16-byte Folded Spill
	add	x29, sp, #24
	str	x28, [sp, #40]                  // 8-byte Spill
	stp	x22, x21, [sp, #48]             // 16-byte Folded Spill
	stp	x20, x19, [sp, #64]             // 16-byte Folded Spill
.LBB43_1:                               // %start
                                        // =>This Inner Loop Header: Depth=1
	sub	sp, sp, #3072
	cmp	sp, x9
	str	xzr, [sp]
	b.ne	.LBB43_1
// %bb.2:                               // %start
	sub	sp, sp, #1200
	str	xzr, [sp]
	mov	x20, x1
	mov	x19, x0
	ldp	d10, d9, [x2]
	ldrb	w21, [x1, #16]
	ldr	x22, [x1, #24]
	ldr	d8, [x2, #16]
	add	x0, sp, #48
	mov	w1, wzr
	mov	w2, #28800                      // =0x7080
	bl	memset
	ldr	q0, [x20]
	ldr	q1, [x20, #32]
	mov	x0, sp
	add	x1, sp, #48
	stp	x21, x22, [sp, #16]
	str	q0, [sp]
	str	q1, [sp, #32]
	bl	"pool::flows::Pool::fill"
	cbz	w0, .LBB43_15
// %bb.3:                               // %join.9.preheader
	fmov	d0, #12.00000000
	fmov	d1, #1.00000000
	mov	x9, xzr
	mov	w8, w0
	fdiv	d0, d10, d0
	fadd	d1, d0, d1
	movi	d0, #0000000000000000
.LBB43_4:                               // %join.5.i
                                        // =>This Loop Header: Depth=1
                                        //     Child Loop BB43_5 Depth 2
	mov	w10, #24                        // =0x18
	add	x11, sp, #48
	fmov	d6, d1
	madd	x10, x9, x10, x11
	fmov	d2, #1.00000000
	add	x9, x9, #1
	ldp	d3, d4, [x10]
	ldr	d5, [x10, #16]
	mov	w10, w9
.LBB43_5:                               // %join.5.i.i
                                        //   Parent Loop BB43_4 Depth=1
                                        // =>  This Inner Loop Header: Depth=2
	fmov	d7, #1.00000000
	tst	w10, #0x1
	lsr	w10, w10, #1
	fcsel	d7, d7, d6, eq
	fmul	d6, d6, d6
	fmul	d2, d2, d7
	cbnz	w10, .LBB43_5
// %bb.6:                               // %"elementary::whole_power::whole_power.exit.i"
                                        //   in Loop: Header=BB43_4 Depth=1
	fadd	d3, d3, d4
	cmp	x9, x8
	fadd	d3, d3, d5
	fdiv	d2, d3, d2
	fadd	d0, d0, d2
	b.ne	.LBB43_4
// %bb.7:                               // %"pool::price::price_over.exit.loopexit"
	fmov	d1, #12.00000000
	fmov	d2, #1.00000000
	mov	x9, xzr
	fdiv	d1, d9, d1
	fadd	d2, d1, d2
	movi	d1, #0000000000000000
.LBB43_8:                               // %join.5.i.1
                                        // =>This Loop Header: Depth=1
                                        //     Child Loop BB43_9 Depth 2
	mov	w10, #24                        // =0x18
	add	x11, sp, #48
	fmov	d7, d2
	madd	x10, x9, x10, x11
	fmov	d3, #1.00000000
	add	x9, x9, #1
	ldp	d4, d5, [x10]
	ldr	d6, [x10, #16]
	mov	w10, w9
.LBB43_9:                               // %join.5.i.i.1
                                        //   Parent Loop BB43_8 Depth=1
                                        // =>  This Inner Loop Header: Depth=2
	fmov	d16, #1.00000000
	tst	w10, #0x1
	lsr	w10, w10, #1
	fcsel	d16, d16, d7, eq
	fmul	d7, d7, d7
	fmul	d3, d3, d16
	cbnz	w10, .LBB43_9
// %bb.10:                              // %"elementary::whole_power::whole_power.exit.i.1"
                                        //   in Loop: Header=BB43_8 Depth=1
	fadd	d4, d4, d5
	cmp	x9, x8
	fadd	d4, d4, d6
	fdiv	d3, d4, d3
	fadd	d1, d1, d3
	b.ne	.LBB43_8
// %bb.11:                              // %"pool::price::price_over.exit.loopexit.1"
	fmov	d2, #12.00000000
	fmov	d3, #1.00000000
	mov	x9, xzr
	fdiv	d2, d8, d2
	fadd	d3, d2, d3
	movi	d2, #0000000000000000
.LBB43_12:                              // %join.5.i.2
                                        // =>This Loop Header: Depth=1
                                        //     Child Loop BB43_13 Depth 2
	mov	w10, #24                        // =0x18
	add	x11, sp, #48
	fmov	d16, d3
	madd	x10, x9, x10, x11
	fmov	d4, #1.00000000
	add	x9, x9, #1
	ldp	d5, d6, [x10]
	ldr	d7, [x10, #16]
	mov	w10, w9
.LBB43_13:                              // %join.5.i.i.2
                                        //   Parent Loop BB43_12 Depth=1
                                        // =>  This Inner Loop Header: Depth=2
	fmov	d17, #1.00000000
	tst	w10, #0x1
	lsr	w10, w10, #1
	fcsel	d17, d17, d16, eq
	fmul	d16, d16, d16
	fmul	d4, d4, d17
	cbnz	w10, .LBB43_13
// %bb.14:                              // %"elementary::whole_power::whole_power.exit.i.2"
                                        //   in Loop: Header=BB43_12 Depth=1
	fadd	d5, d5, d6
	cmp	x9, x8
	fadd	d5, d5, d7
	fdiv	d4, d5, d4
	fadd	d2, d2, d4
	b.ne	.LBB43_12
	b	.LBB43_16
.LBB43_15:
	movi	d0, #0000000000000000
	movi	d1, #0000000000000000
	movi	d2, #0000000000000000
.LBB43_16:                              // %after.5
	stp	d0, d1, [x19]
	str	d2, [x19, #16]
	add	sp, sp, #7, lsl #12             // =28672
	add	sp, sp, #176
	ldp	x20, x19, [sp, #64]             // 16-byte Folded Reload
	ldr	x28, [sp, #40]                  // 8-byte Reload
	ldp	x22, x21, [sp, #48]             // 16-byte Folded Reload
	ldp	x29, x30, [sp, #24]             // 16-byte Folded Reload
	ldp	d9, d8, [sp, #8]                // 16-byte Folded Reload
	ldr	d10, [sp], #80                  // 8-byte Folded Reload
	ret
.Lfunc_end43:
	.size	"pool::flows::Pool::prices::<=3>", .Lfunc_end43-"pool::flows::Pool::prices::<=3>"
                                        // -- End function
	.section	.rodata.cst8,"aM",@progbits,8
	.p2align	3, 0x0                          // -- Begin function spread_analytics::spread::z_spread
.LCPI44_0:
	.xword	0xbfa999999999999a              // double -0.050000000000000003
.LCPI44_1:
	.xword	0x3fc999999999999a              // double 0.20000000000000001
.LCPI44_2:
	.xword	0x3e45798ee2308c3a              // double 1.0E-8
	.section	".text.spread_analytics::spread::z_spread","ax",@progbits
	.p2align	2
	.type	"spread_analytics::spread::z_spread",@function
"spread_analytics::spread::z_spread":   // @"spread_analytics::spread::z_spread"
// %bb.0:                               // %start
	stp	d15, d14, [sp, #-160]!          // 16-byte Folded Spill
	sub	x9, sp, #4, lsl #12             // =16384
	stp	d13, d12, [sp, #16]             // 16-byte Folded Spill
	sub	x9, x9, #2048
	stp	d11, d10, [sp, #32]             // 16-byte Folded Spill
	stp	d9, d8, [sp, #48]               // 16-byte Folded Spill
	stp	x29, x30, [sp, #64]             // 16-byte Folded Spill
	add	x29, sp, #64
	stp	x28, x27, [sp, #80]             // 16-byte Folded Spill
	stp	x26, x25, [sp, #96]             // 16-byte Folded Spill
	stp	x24, x23, [sp, #112]            // 16-byte Folded Spill
	stp	x22, x21, [sp, #128]            // 16-byte Folded Spill
	stp	x20, x19, [sp, #144]            // 16-byte Folded Spill
.LBB44_1:                               // %start
                                        // =>This Inner Loop Header: Depth=1
	sub	sp, sp, #3072
	cmp	sp, x9
	str	xzr, [sp]
	b.ne	.LBB44_1
// %bb.2:                               // %start
	sub	sp, sp, #832
	fmov	d8, d0
	fsub	d0, d0, d0
	ldr	x27, [x29, #96]
	movi	d9, #0000000000000000
	mov	x19, x0
	add	x0, sp, #40
	mov	x24, x7
	mov	x25, x6
	mov	x26, x5
	mov	x20, x4
	mov	x21, x3
	mov	x22, x2
	//ARITH_FENCE
	mov	x23, x1
	movi	d14, #0000000000000000
	str	wzr, [sp, #48]
	//ARITH_FENCE
	fcmp	d0, d9
	str	xzr, [sp, #40]
	str	x27, [sp]
	cset	w8, ne
	strb	w8, [sp, #8]
	bl	"spread_analytics::judging::judge_spread"
	ldrb	w8, [sp, #40]
	cmp	w8, #1
	b.ne	.LBB44_4
// %bb.3:                               // %arm.1
	ldur	x8, [sp, #44]
	mov	w9, #1                          // =0x1
	b	.LBB44_101
.LBB44_4:                               // %arm.2
	add	x0, sp, #2, lsl #12             // =8192
	mov	w1, wzr
	mov	w2, #9600                       // =0x2580
	add	x0, x0, #1464
	add	x28, sp, #2, lsl #12            // =8192
	add	x28, x28, #1464
	bl	memset
	add	x0, sp, #56
	mov	w1, wzr
	mov	w2, #9600                       // =0x2580
	bl	memset
	lsl	x2, x22, #3
	sub	x8, x28, x23
	cmp	x8, x2
	b.hs	.LBB44_7
// %bb.5:                               // %loop.4.preheader.i.i.i.i.i.i.i.i
	cbz	x22, .LBB44_10
// %bb.6:                               // %"spread_analytics::worth::keep_rates.exit.thread79.i"
	add	x0, sp, #2, lsl #12             // =8192
	mov	x1, x23
	add	x0, x0, #1464
	bl	memcpy
	add	x6, sp, #2, lsl #12             // =8192
	mov	w0, #2                          // =0x2
	mov	w1, wzr
	add	x6, x6, #1464
	mov	x2, x26
	mov	x3, x25
	mov	x4, x24
	mov	x5, x27
	mov	x7, x22
	bl	"curves::each::answer_onward"
	b	.LBB44_8
.LBB44_7:                               // %"spread_analytics::worth::keep_rates.exit.i"
	add	x0, sp, #2, lsl #12             // =8192
	mov	x1, x23
	add	x0, x0, #1464
	bl	memcpy
	add	x6, sp, #2, lsl #12             // =8192
	mov	w0, #2                          // =0x2
	mov	w1, wzr
	add	x6, x6, #1464
	mov	x2, x26
	mov	x3, x25
	mov	x4, x24
	mov	x5, x27
	mov	x7, x22
	bl	"curves::each::answer_onward"
	cbz	x22, .LBB44_10
.LBB44_8:                               // %join.6.i.i.i.i.preheader.i
	cmp	x22, #4
	b.hs	.LBB44_12
// %bb.9:
	mov	x8, xzr
	b	.LBB44_15
.LBB44_10:
	mov	w24, #1                         // =0x1
	add	x0, sp, #56
	mov	x1, x22
	bl	"elementary::exp::exp_each"
	cbnz	x20, .LBB44_18
.LBB44_11:
	movi	d0, #0000000000000000
	tbz	w24, #0, .LBB44_27
	b	.LBB44_34
.LBB44_12:                              // %vector.ph
	add	x10, sp, #2, lsl #12            // =8192
	add	x9, sp, #56
	and	x8, x22, #0xfffffffffffffffc
	add	x10, x10, #1464
	add	x9, x9, #16
	add	x11, x23, #16
	add	x10, x10, #16
	and	x12, x22, #0xfffffffffffffffc
.LBB44_13:                              // %vector.body
                                        // =>This Inner Loop Header: Depth=1
	mov	x13, #-7378697629483820647      // =0x9999999999999999
	ldp	q1, q2, [x10, #-16]
	movk	x13, #39322
	subs	x12, x12, #4
	add	x10, x10, #32
	movk	x13, #49065, lsl #48
	dup	v0.2d, x13
	fadd	v1.2d, v1.2d, v0.2d
	fadd	v0.2d, v2.2d, v0.2d
	ldp	q2, q3, [x11, #-16]
	add	x11, x11, #32
	fneg	v1.2d, v1.2d
	fneg	v0.2d, v0.2d
	fmul	v1.2d, v2.2d, v1.2d
	fmul	v0.2d, v3.2d, v0.2d
	stp	q1, q0, [x9, #-16]
	add	x9, x9, #32
	b.ne	.LBB44_13
// %bb.14:                              // %middle.block
	cmp	x22, x8
	b.eq	.LBB44_17
.LBB44_15:                              // %join.6.i.i.i.i.i.preheader
	lsl	x11, x8, #3
	add	x10, sp, #2, lsl #12            // =8192
	add	x9, sp, #56
	add	x10, x10, #1464
	sub	x8, x22, x8
	add	x9, x9, x11
	add	x10, x10, x11
	add	x11, x23, x11
.LBB44_16:                              // %join.6.i.i.i.i.i
                                        // =>This Inner Loop Header: Depth=1
	adrp	x12, .LCPI44_0
	ldr	d0, [x10], #8
	ldr	d1, [x12, :lo12:.LCPI44_0]
	subs	x8, x8, #1
	fadd	d0, d0, d1
	ldr	d1, [x11], #8
	fnmul	d0, d0, d1
	str	d0, [x9], #8
	b.ne	.LBB44_16
.LBB44_17:
	mov	w24, wzr
	add	x0, sp, #56
	mov	x1, x22
	bl	"elementary::exp::exp_each"
	cbz	x20, .LBB44_11
.LBB44_18:                              // %arm.3.i.i.i.i.i.i.preheader
	sub	x8, x20, #1
	mov	w9, #1199                       // =0x4af
	add	x15, sp, #56
	cmp	x8, #1199
	csel	x8, x8, x9, lo
	cmp	x20, #4
	b.hs	.LBB44_20
// %bb.19:
	movi	d0, #0000000000000000
	mov	w10, #1200                      // =0x4b0
	add	x8, sp, #56
	mov	x12, x20
	mov	x9, x21
	b	.LBB44_23
.LBB44_20:                              // %vector.ph54
	add	x11, x8, #1
	movi	d0, #0000000000000000
	mov	w8, #1200                       // =0x4b0
	and	x13, x11, #0xffc
	add	x14, x21, #16
	and	x16, x11, #0xffc
	lsl	x9, x13, #3
	sub	x10, x8, x13
	sub	x12, x20, x13
	add	x8, x15, x9
	add	x9, x21, x9
	add	x15, x15, #16
.LBB44_21:                              // %vector.body57
                                        // =>This Inner Loop Header: Depth=1
	ldp	q1, q4, [x15, #-16]
	subs	x16, x16, #4
	ldp	q2, q3, [x14, #-16]
	add	x14, x14, #32
	add	x15, x15, #32
	fmul	v1.2d, v2.2d, v1.2d
	mov	d2, v1.d[1]
	fadd	d0, d0, d1
	fmul	v1.2d, v3.2d, v4.2d
	fadd	d0, d0, d2
	mov	d2, v1.d[1]
	fadd	d0, d0, d1
	fadd	d0, d0, d2
	b.ne	.LBB44_21
// %bb.22:                              // %middle.block66
	cmp	x11, x13
	b.eq	.LBB44_26
.LBB44_23:                              // %arm.3.i.i.i.i.i.i.preheader10
	sub	x11, x10, #1
	sub	x10, x12, #1
.LBB44_24:                              // %arm.3.i.i.i.i.i.i
                                        // =>This Inner Loop Header: Depth=1
	ldr	d1, [x9], #8
	ldr	d2, [x8], #8
	fmul	d1, d1, d2
	fadd	d0, d0, d1
	cbz	x10, .LBB44_26
// %bb.25:                              // %arm.3.i.i.i.i.i.i
                                        //   in Loop: Header=BB44_24 Depth=1
	mov	x12, x11
	sub	x11, x11, #1
	sub	x10, x10, #1
	cbnz	x12, .LBB44_24
.LBB44_26:                              // %"spread_analytics::spread::error_at.exit.i"
	tbnz	w24, #0, .LBB44_34
.LBB44_27:                              // %join.6.i.i.i.i17.i.preheader
	cmp	x22, #4
	b.hs	.LBB44_29
// %bb.28:
	mov	x8, xzr
	b	.LBB44_32
.LBB44_29:                              // %vector.ph74
	add	x10, sp, #2, lsl #12            // =8192
	add	x9, sp, #56
	and	x8, x22, #0xfffffffffffffffc
	add	x10, x10, #1464
	add	x9, x9, #16
	add	x11, x23, #16
	add	x10, x10, #16
	and	x12, x22, #0xfffffffffffffffc
.LBB44_30:                              // %vector.body77
                                        // =>This Inner Loop Header: Depth=1
	mov	x13, #-7378697629483820647      // =0x9999999999999999
	ldp	q2, q3, [x10, #-16]
	movk	x13, #39322
	subs	x12, x12, #4
	add	x10, x10, #32
	movk	x13, #16329, lsl #48
	dup	v1.2d, x13
	fadd	v2.2d, v2.2d, v1.2d
	fadd	v1.2d, v3.2d, v1.2d
	ldp	q3, q4, [x11, #-16]
	add	x11, x11, #32
	fneg	v2.2d, v2.2d
	fneg	v1.2d, v1.2d
	fmul	v2.2d, v3.2d, v2.2d
	fmul	v1.2d, v4.2d, v1.2d
	stp	q2, q1, [x9, #-16]
	add	x9, x9, #32
	b.ne	.LBB44_30
// %bb.31:                              // %middle.block84
	cmp	x22, x8
	b.eq	.LBB44_34
.LBB44_32:                              // %join.6.i.i.i.i17.i.preheader9
	lsl	x11, x8, #3
	add	x10, sp, #2, lsl #12            // =8192
	add	x9, sp, #56
	add	x10, x10, #1464
	sub	x8, x22, x8
	add	x9, x9, x11
	add	x10, x10, x11
	add	x11, x23, x11
.LBB44_33:                              // %join.6.i.i.i.i17.i
                                        // =>This Inner Loop Header: Depth=1
	adrp	x12, .LCPI44_1
	ldr	d1, [x10], #8
	ldr	d2, [x12, :lo12:.LCPI44_1]
	subs	x8, x8, #1
	fadd	d1, d1, d2
	ldr	d2, [x11], #8
	fnmul	d1, d1, d2
	str	d1, [x9], #8
	b.ne	.LBB44_33
.LBB44_34:                              // %"spread_analytics::worth::put_factors.exit.i.i30.i"
	add	x0, sp, #56
	mov	x1, x22
	fsub	d10, d0, d8
	bl	"elementary::exp::exp_each"
	cbz	x20, .LBB44_37
// %bb.35:                              // %arm.3.i.i.i.i.i32.i.preheader
	sub	x8, x20, #1
	mov	w9, #1199                       // =0x4af
	add	x15, sp, #56
	cmp	x8, #1199
	csel	x8, x8, x9, lo
	cmp	x20, #4
	b.hs	.LBB44_38
// %bb.36:
	movi	d0, #0000000000000000
	mov	w10, #1200                      // =0x4b0
	add	x8, sp, #56
	mov	x12, x20
	mov	x9, x21
	b	.LBB44_41
.LBB44_37:
	movi	d0, #0000000000000000
	b	.LBB44_44
.LBB44_38:                              // %vector.ph90
	add	x11, x8, #1
	movi	d0, #0000000000000000
	mov	w8, #1200                       // =0x4b0
	and	x13, x11, #0xffc
	add	x14, x21, #16
	and	x16, x11, #0xffc
	lsl	x9, x13, #3
	sub	x10, x8, x13
	sub	x12, x20, x13
	add	x8, x15, x9
	add	x9, x21, x9
	add	x15, x15, #16
.LBB44_39:                              // %vector.body93
                                        // =>This Inner Loop Header: Depth=1
	ldp	q1, q4, [x15, #-16]
	subs	x16, x16, #4
	ldp	q2, q3, [x14, #-16]
	add	x14, x14, #32
	add	x15, x15, #32
	fmul	v1.2d, v2.2d, v1.2d
	mov	d2, v1.d[1]
	fadd	d0, d0, d1
	fmul	v1.2d, v3.2d, v4.2d
	fadd	d0, d0, d2
	mov	d2, v1.d[1]
	fadd	d0, d0, d1
	fadd	d0, d0, d2
	b.ne	.LBB44_39
// %bb.40:                              // %middle.block105
	cmp	x11, x13
	b.eq	.LBB44_44
.LBB44_41:                              // %arm.3.i.i.i.i.i32.i.preheader8
	sub	x11, x10, #1
	sub	x10, x12, #1
.LBB44_42:                              // %arm.3.i.i.i.i.i32.i
                                        // =>This Inner Loop Header: Depth=1
	ldr	d1, [x9], #8
	ldr	d2, [x8], #8
	fmul	d1, d1, d2
	fadd	d0, d0, d1
	cbz	x10, .LBB44_44
// %bb.43:                              // %arm.3.i.i.i.i.i32.i
                                        //   in Loop: Header=BB44_42 Depth=1
	mov	x12, x11
	sub	x11, x11, #1
	sub	x10, x10, #1
	cbnz	x12, .LBB44_42
.LBB44_44:                              // %"spread_analytics::spread::error_at.exit51.i"
	fsub	d0, d0, d8
	fmul	d1, d10, d0
	//ARITH_FENCE
	fcmp	d9, d1
	cset	w8, mi
	//APP
	//NO_APP
	cbz	w8, .LBB44_46
// %bb.45:                              // %then.5.i
	fmov	d2, d10
	movi	d1, #0000000000000000
	mov	x9, #70368744177664             // =0x400000000000
	fmov	d3, d0
	mov	x10, #70368744177664            // =0x400000000000
	movk	x9, #16543, lsl #48
	movk	x10, #49279, lsl #48
	//ARITH_FENCE
	fcmp	d9, d2
	fsub	d2, d1, d10
	//ARITH_FENCE
	fsub	d1, d1, d0
	cset	w8, mi
	//APP
	//NO_APP
	cmp	w8, #0
	fcsel	d2, d10, d2, ne
	fcmp	d9, d3
	cset	w8, mi
	//ARITH_FENCE
	//APP
	//NO_APP
	cmp	w8, #0
	fcsel	d0, d0, d1, ne
	fmov	d1, x10
	//ARITH_FENCE
	fcmp	d2, d0
	fmov	d0, x9
	cset	w8, mi
	//APP
	//NO_APP
	cmp	w8, #0
	fcsel	d14, d1, d0, ne
	mov	x8, #4294967296                 // =0x100000000
	b	.LBB44_100
.LBB44_46:                              // %join.7.i
	adrp	x8, .LCPI44_2
	ldr	d11, [x8, :lo12:.LCPI44_2]
	//ARITH_FENCE
	cbz	w24, .LBB44_61
// %bb.47:                              // %start.split.us.i.i
	cbz	x20, .LBB44_82
// %bb.48:                              // %join.5.us.i.i.preheader
	sub	x9, x20, #1
	mov	w10, #1199                      // =0x4af
	mov	x12, #70368744177664            // =0x400000000000
	cmp	x9, #1199
	mov	x14, #70368744177664            // =0x400000000000
	movk	x12, #49279, lsl #48
	csel	x9, x9, x10, lo
	movk	x14, #16543, lsl #48
	fmov	d12, x12
	add	x9, x9, #1
	fmov	d0, x14
	mov	w11, #1200                      // =0x4b0
	and	x10, x9, #0xffc
	add	x15, sp, #56
	mov	w8, wzr
	lsl	x13, x10, #3
	sub	x11, x11, x10
	add	x14, x15, #16
	add	x12, x15, x13
	add	x13, x21, x13
	b	.LBB44_50
.LBB44_49:                              // %select.false
                                        //   in Loop: Header=BB44_50 Depth=1
	fmov	d0, d13
	add	w8, w8, #1
	cmp	w8, #100
	b.eq	.LBB44_97
.LBB44_50:                              // %join.5.us.i.i
                                        // =>This Loop Header: Depth=1
                                        //     Child Loop BB44_54 Depth 2
                                        //     Child Loop BB44_57 Depth 2
	fsub	d2, d0, d12
	movi	d1, #0000000000000000
	fmov	d4, #0.50000000
	fmov	d3, d2
	//ARITH_FENCE
	fcmp	d9, d3
	fsub	d3, d1, d2
	cset	w15, mi
	//APP
	//NO_APP
	cmp	w15, #0
	fcsel	d2, d2, d3, ne
	fadd	d3, d0, d12
	//ARITH_FENCE
	fcmp	d2, d11
	fmul	d13, d3, d4
	cset	w15, mi
	//APP
	//NO_APP
	cbnz	w15, .LBB44_99
// %bb.51:                              // %arm.3.i.i.i.i.i.us.i.i.preheader
                                        //   in Loop: Header=BB44_50 Depth=1
	cmp	x20, #4
	b.hs	.LBB44_53
// %bb.52:                              //   in Loop: Header=BB44_50 Depth=1
	add	x15, sp, #56
	mov	w17, #1200                      // =0x4b0
	mov	x0, x20
	mov	x16, x21
	b	.LBB44_56
.LBB44_53:                              // %vector.body175.preheader
                                        //   in Loop: Header=BB44_50 Depth=1
	and	x15, x9, #0xffc
	mov	x16, x14
	add	x17, x21, #16
.LBB44_54:                              // %vector.body175
                                        //   Parent Loop BB44_50 Depth=1
                                        // =>  This Inner Loop Header: Depth=2
	ldp	q2, q5, [x16, #-16]
	subs	x15, x15, #4
	ldp	q3, q4, [x17, #-16]
	add	x17, x17, #32
	add	x16, x16, #32
	fmul	v2.2d, v3.2d, v2.2d
	mov	d3, v2.d[1]
	fadd	d1, d1, d2
	fmul	v2.2d, v4.2d, v5.2d
	fadd	d1, d1, d3
	mov	d3, v2.d[1]
	fadd	d1, d1, d2
	fadd	d1, d1, d3
	b.ne	.LBB44_54
// %bb.55:                              // %middle.block187
                                        //   in Loop: Header=BB44_50 Depth=1
	cmp	x9, x10
	mov	x17, x11
	mov	x15, x12
	sub	x0, x20, x10
	mov	x16, x13
	b.eq	.LBB44_59
.LBB44_56:                              // %arm.3.i.i.i.i.i.us.i.i.preheader1
                                        //   in Loop: Header=BB44_50 Depth=1
	sub	x18, x17, #1
	sub	x17, x0, #1
.LBB44_57:                              // %arm.3.i.i.i.i.i.us.i.i
                                        //   Parent Loop BB44_50 Depth=1
                                        // =>  This Inner Loop Header: Depth=2
	ldr	d2, [x16], #8
	ldr	d3, [x15], #8
	fmul	d2, d2, d3
	fadd	d1, d1, d2
	cbz	x17, .LBB44_59
// %bb.58:                              // %arm.3.i.i.i.i.i.us.i.i
                                        //   in Loop: Header=BB44_57 Depth=2
	mov	x0, x18
	sub	x18, x18, #1
	sub	x17, x17, #1
	cbnz	x0, .LBB44_57
.LBB44_59:                              // %"spread_analytics::spread::error_at.exit.loopexit.us.i.i"
                                        //   in Loop: Header=BB44_50 Depth=1
	fsub	d1, d1, d8
	fmul	d2, d10, d1
	//ARITH_FENCE
	fcmp	d2, d9
	cset	w15, hi
	//APP
	//NO_APP
	cbz	w15, .LBB44_49
// %bb.60:                              //   in Loop: Header=BB44_50 Depth=1
	fmov	d12, d13
	fmov	d13, d0
	fmov	d10, d1
	add	w8, w8, #1
	cmp	w8, #100
	b.ne	.LBB44_50
	b	.LBB44_97
.LBB44_61:                              // %start.split.i.i
	cbz	x20, .LBB44_85
// %bb.62:                              // %join.5.i.i.preheader
	sub	x8, x20, #1
	mov	w9, #1199                       // =0x4af
	mov	x10, #70368744177664            // =0x400000000000
	cmp	x8, #1199
	movk	x10, #49279, lsl #48
	add	x12, sp, #2, lsl #12            // =8192
	csel	x8, x8, x9, lo
	fmov	d12, x10
	mov	x10, #70368744177664            // =0x400000000000
	add	x25, x8, #1
	mov	w8, #1200                       // =0x4b0
	movk	x10, #16543, lsl #48
	and	x13, x25, #0xffc
	add	x9, sp, #56
	fmov	d14, x10
	lsl	x11, x13, #3
	sub	x8, x8, x13
	add	x12, x12, #1464
	str	x8, [sp, #32]                   // 8-byte Spill
	mov	w24, wzr
	add	x28, x9, #16
	add	x8, x9, x11
	add	x26, x12, #16
	str	x8, [sp, #24]                   // 8-byte Spill
	add	x8, x21, x11
	str	x8, [sp, #16]                   // 8-byte Spill
	b	.LBB44_64
.LBB44_63:                              // %select.false168
                                        //   in Loop: Header=BB44_64 Depth=1
	fmov	d14, d13
	add	w24, w24, #1
	cmp	w24, #100
	b.eq	.LBB44_97
.LBB44_64:                              // %join.5.i.i
                                        // =>This Loop Header: Depth=1
                                        //     Child Loop BB44_68 Depth 2
                                        //     Child Loop BB44_71 Depth 2
                                        //     Child Loop BB44_75 Depth 2
                                        //     Child Loop BB44_78 Depth 2
	fsub	d0, d14, d12
	movi	d1, #0000000000000000
	fmov	d2, d0
	fsub	d1, d1, d0
	//ARITH_FENCE
	fcmp	d9, d2
	fmov	d2, #0.50000000
	cset	w8, mi
	//APP
	//NO_APP
	cmp	w8, #0
	fcsel	d0, d0, d1, ne
	fadd	d1, d14, d12
	//ARITH_FENCE
	fcmp	d0, d11
	fmul	d13, d1, d2
	cset	w8, mi
	//APP
	//NO_APP
	cbnz	w8, .LBB44_99
// %bb.65:                              // %join.8.i.i
                                        //   in Loop: Header=BB44_64 Depth=1
	mov	x8, #149533581377536            // =0x880000000000
	cmp	x22, #4
	movk	x8, #16579, lsl #48
	fmov	d0, x8
	fdiv	d0, d13, d0
	b.hs	.LBB44_67
// %bb.66:                              //   in Loop: Header=BB44_64 Depth=1
	mov	x8, xzr
	b	.LBB44_70
.LBB44_67:                              // %vector.ph139
                                        //   in Loop: Header=BB44_64 Depth=1
	dup	v1.2d, v0.d[0]
	add	x8, x23, #16
	mov	x9, x26
	mov	x10, x28
	and	x11, x22, #0xfffffffffffffffc
.LBB44_68:                              // %vector.body142
                                        //   Parent Loop BB44_64 Depth=1
                                        // =>  This Inner Loop Header: Depth=2
	ldp	q2, q3, [x9, #-16]
	subs	x11, x11, #4
	ldp	q4, q5, [x8, #-16]
	add	x9, x9, #32
	add	x8, x8, #32
	fadd	v2.2d, v1.2d, v2.2d
	fadd	v3.2d, v1.2d, v3.2d
	fneg	v2.2d, v2.2d
	fneg	v3.2d, v3.2d
	fmul	v2.2d, v4.2d, v2.2d
	fmul	v3.2d, v5.2d, v3.2d
	stp	q2, q3, [x10, #-16]
	add	x10, x10, #32
	b.ne	.LBB44_68
// %bb.69:                              // %middle.block149
                                        //   in Loop: Header=BB44_64 Depth=1
	and	x8, x22, #0xfffffffffffffffc
	cmp	x22, x8
	and	x8, x22, #0xfffffffffffffffc
	b.eq	.LBB44_72
.LBB44_70:                              // %join.6.i.i.i.i.i.i.preheader
                                        //   in Loop: Header=BB44_64 Depth=1
	lsl	x11, x8, #3
	add	x10, sp, #2, lsl #12            // =8192
	add	x9, sp, #56
	add	x10, x10, #1464
	sub	x8, x22, x8
	add	x9, x9, x11
	add	x10, x10, x11
	add	x11, x23, x11
.LBB44_71:                              // %join.6.i.i.i.i.i.i
                                        //   Parent Loop BB44_64 Depth=1
                                        // =>  This Inner Loop Header: Depth=2
	ldr	d1, [x10], #8
	subs	x8, x8, #1
	ldr	d2, [x11], #8
	fadd	d1, d0, d1
	fnmul	d1, d1, d2
	str	d1, [x9], #8
	b.ne	.LBB44_71
.LBB44_72:                              // %"spread_analytics::worth::put_factors.exit.i.i.loopexit.i.i"
                                        //   in Loop: Header=BB44_64 Depth=1
	add	x0, sp, #56
	mov	x1, x22
	add	x27, sp, #56
	bl	"elementary::exp::exp_each"
	movi	d0, #0000000000000000
	cmp	x20, #4
	b.hs	.LBB44_74
// %bb.73:                              //   in Loop: Header=BB44_64 Depth=1
	mov	w9, #1200                       // =0x4b0
	mov	x11, x20
	mov	x8, x21
	b	.LBB44_77
.LBB44_74:                              // %vector.body118.preheader
                                        //   in Loop: Header=BB44_64 Depth=1
	and	x8, x25, #0xffc
	mov	x9, x28
	add	x10, x21, #16
.LBB44_75:                              // %vector.body118
                                        //   Parent Loop BB44_64 Depth=1
                                        // =>  This Inner Loop Header: Depth=2
	ldp	q1, q4, [x9, #-16]
	subs	x8, x8, #4
	ldp	q2, q3, [x10, #-16]
	add	x10, x10, #32
	add	x9, x9, #32
	fmul	v1.2d, v2.2d, v1.2d
	mov	d2, v1.d[1]
	fadd	d0, d0, d1
	fmul	v1.2d, v3.2d, v4.2d
	fadd	d0, d0, d2
	mov	d2, v1.d[1]
	fadd	d0, d0, d1
	fadd	d0, d0, d2
	b.ne	.LBB44_75
// %bb.76:                              // %middle.block130
                                        //   in Loop: Header=BB44_64 Depth=1
	and	x8, x25, #0xffc
	ldp	x27, x9, [sp, #24]              // 16-byte Folded Reload
	cmp	x25, x8
	sub	x11, x20, x8
	ldr	x8, [sp, #16]                   // 8-byte Reload
	b.eq	.LBB44_80
.LBB44_77:                              // %arm.3.i.i.i.i.i.i.i.preheader
                                        //   in Loop: Header=BB44_64 Depth=1
	sub	x10, x9, #1
	sub	x9, x11, #1
.LBB44_78:                              // %arm.3.i.i.i.i.i.i.i
                                        //   Parent Loop BB44_64 Depth=1
                                        // =>  This Inner Loop Header: Depth=2
	ldr	d1, [x8], #8
	ldr	d2, [x27], #8
	fmul	d1, d1, d2
	fadd	d0, d0, d1
	cbz	x9, .LBB44_80
// %bb.79:                              // %arm.3.i.i.i.i.i.i.i
                                        //   in Loop: Header=BB44_78 Depth=2
	mov	x11, x10
	sub	x10, x10, #1
	sub	x9, x9, #1
	cbnz	x11, .LBB44_78
.LBB44_80:                              // %"spread_analytics::spread::error_at.exit.loopexit.i.i"
                                        //   in Loop: Header=BB44_64 Depth=1
	fsub	d0, d0, d8
	fmul	d1, d10, d0
	//ARITH_FENCE
	fcmp	d1, d9
	cset	w8, hi
	//APP
	//NO_APP
	cbz	w8, .LBB44_63
// %bb.81:                              //   in Loop: Header=BB44_64 Depth=1
	fmov	d12, d13
	fmov	d13, d14
	fmov	d10, d0
	add	w24, w24, #1
	cmp	w24, #100
	b.ne	.LBB44_64
	b	.LBB44_97
.LBB44_82:                              // %start.split.us.split.us.i.i
	movi	d0, #0000000000000000
	mov	x9, #70368744177664             // =0x400000000000
	mov	x10, #70368744177664            // =0x400000000000
	movk	x9, #49279, lsl #48
	movk	x10, #16543, lsl #48
	mov	w8, #100                        // =0x64
	fmov	d12, x9
	fmov	d13, x10
	fsub	d1, d0, d8
.LBB44_83:                              // %join.5.us.us.i.i
                                        // =>This Inner Loop Header: Depth=1
	fsub	d2, d13, d12
	fmov	d4, #0.50000000
	fmov	d3, d2
	//ARITH_FENCE
	fcmp	d9, d3
	fsub	d3, d0, d2
	cset	w9, mi
	//APP
	//NO_APP
	cmp	w9, #0
	fcsel	d2, d2, d3, ne
	fadd	d3, d13, d12
	//ARITH_FENCE
	fcmp	d2, d11
	fmul	d14, d3, d4
	cset	w9, mi
	//APP
	//NO_APP
	cbnz	w9, .LBB44_98
// %bb.84:                              // %join.8.us.us.i.i
                                        //   in Loop: Header=BB44_83 Depth=1
	fmul	d2, d1, d10
	//ARITH_FENCE
	fcmp	d2, d9
	cset	w9, hi
	//APP
	//NO_APP
	cmp	w9, #0
	fcsel	d12, d14, d12, ne
	fcsel	d13, d13, d14, ne
	fcsel	d10, d1, d10, ne
	subs	w8, w8, #1
	b.ne	.LBB44_83
	b	.LBB44_97
.LBB44_85:                              // %start.split.split.us.i.i
	movi	d14, #0000000000000000
	mov	x9, #70368744177664             // =0x400000000000
	mov	x10, #70368744177664            // =0x400000000000
	add	x8, sp, #56
	movk	x9, #49279, lsl #48
	movk	x10, #16543, lsl #48
	add	x24, x8, #16
	add	x8, sp, #2, lsl #12             // =8192
	fmov	d12, x9
	fmov	d15, x10
	add	x8, x8, #1464
	and	x21, x22, #0xfffffffffffffffc
	fsub	d8, d14, d8
	add	x25, x8, #16
	b	.LBB44_87
.LBB44_86:                              // %select.false166
                                        //   in Loop: Header=BB44_87 Depth=1
	fmov	d15, d13
	add	w20, w20, #1
	cmp	w20, #100
	b.eq	.LBB44_97
.LBB44_87:                              // %join.5.us12.i.i
                                        // =>This Loop Header: Depth=1
                                        //     Child Loop BB44_91 Depth 2
                                        //     Child Loop BB44_94 Depth 2
	fsub	d0, d15, d12
	fmov	d2, #0.50000000
	fmov	d1, d0
	//ARITH_FENCE
	fcmp	d9, d1
	fsub	d1, d14, d0
	cset	w8, mi
	//APP
	//NO_APP
	cmp	w8, #0
	fcsel	d0, d0, d1, ne
	fadd	d1, d15, d12
	//ARITH_FENCE
	fcmp	d0, d11
	fmul	d13, d1, d2
	cset	w8, mi
	//APP
	//NO_APP
	cbnz	w8, .LBB44_99
// %bb.88:                              // %join.8.us26.i.i
                                        //   in Loop: Header=BB44_87 Depth=1
	mov	x8, #149533581377536            // =0x880000000000
	cmp	x22, #4
	movk	x8, #16579, lsl #48
	fmov	d0, x8
	fdiv	d0, d13, d0
	b.hs	.LBB44_90
// %bb.89:                              //   in Loop: Header=BB44_87 Depth=1
	mov	x8, xzr
	b	.LBB44_93
.LBB44_90:                              // %vector.ph154
                                        //   in Loop: Header=BB44_87 Depth=1
	dup	v1.2d, v0.d[0]
	add	x8, x23, #16
	mov	x9, x25
	mov	x10, x24
	and	x11, x22, #0xfffffffffffffffc
.LBB44_91:                              // %vector.body159
                                        //   Parent Loop BB44_87 Depth=1
                                        // =>  This Inner Loop Header: Depth=2
	ldp	q2, q3, [x9, #-16]
	subs	x11, x11, #4
	ldp	q4, q5, [x8, #-16]
	add	x9, x9, #32
	add	x8, x8, #32
	fadd	v2.2d, v1.2d, v2.2d
	fadd	v3.2d, v1.2d, v3.2d
	fneg	v2.2d, v2.2d
	fneg	v3.2d, v3.2d
	fmul	v2.2d, v4.2d, v2.2d
	fmul	v3.2d, v5.2d, v3.2d
	stp	q2, q3, [x10, #-16]
	add	x10, x10, #32
	b.ne	.LBB44_91
// %bb.92:                              // %middle.block166
                                        //   in Loop: Header=BB44_87 Depth=1
	cmp	x22, x21
	and	x8, x22, #0xfffffffffffffffc
	b.eq	.LBB44_95
.LBB44_93:                              // %join.6.i.i.i.i.us.i.i.preheader
                                        //   in Loop: Header=BB44_87 Depth=1
	lsl	x11, x8, #3
	add	x10, sp, #2, lsl #12            // =8192
	add	x9, sp, #56
	add	x10, x10, #1464
	sub	x8, x22, x8
	add	x9, x9, x11
	add	x10, x10, x11
	add	x11, x23, x11
.LBB44_94:                              // %join.6.i.i.i.i.us.i.i
                                        //   Parent Loop BB44_87 Depth=1
                                        // =>  This Inner Loop Header: Depth=2
	ldr	d1, [x10], #8
	subs	x8, x8, #1
	ldr	d2, [x11], #8
	fadd	d1, d0, d1
	fnmul	d1, d1, d2
	str	d1, [x9], #8
	b.ne	.LBB44_94
.LBB44_95:                              // %"spread_analytics::worth::put_factors.exit.i.i.loopexit.us.i.i"
                                        //   in Loop: Header=BB44_87 Depth=1
	add	x0, sp, #56
	mov	x1, x22
	bl	"elementary::exp::exp_each"
	fmul	d0, d8, d10
	//ARITH_FENCE
	fcmp	d0, d9
	cset	w8, hi
	//APP
	//NO_APP
	cbz	w8, .LBB44_86
// %bb.96:                              //   in Loop: Header=BB44_87 Depth=1
	fmov	d12, d13
	fmov	d13, d15
	fmov	d10, d8
	add	w20, w20, #1
	cmp	w20, #100
	b.ne	.LBB44_87
.LBB44_97:                              // %after.1.i.i
	fadd	d0, d12, d13
	fmov	d1, #0.50000000
	fmul	d14, d0, d1
.LBB44_98:                              // %"spread_analytics::spread::spread_of.exit"
	mov	x8, xzr
	b	.LBB44_100
.LBB44_99:
	mov	x8, xzr
	fmov	d14, d13
.LBB44_100:                             // %"spread_analytics::spread::spread_of.exit"
	mov	w9, wzr
.LBB44_101:                             // %join.4
	str	w9, [x19]
	stur	x8, [x19, #4]
	str	d14, [x19, #16]
	add	sp, sp, #4, lsl #12             // =16384
	add	sp, sp, #2880
	ldp	x20, x19, [sp, #144]            // 16-byte Folded Reload
	ldp	x22, x21, [sp, #128]            // 16-byte Folded Reload
	ldp	x24, x23, [sp, #112]            // 16-byte Folded Reload
	ldp	x26, x25, [sp, #96]             // 16-byte Folded Reload
	ldp	x28, x27, [sp, #80]             // 16-byte Folded Reload
	ldp	x29, x30, [sp, #64]             // 16-byte Folded Reload
	ldp	d9, d8, [sp, #48]               // 16-byte Folded Reload
	ldp	d11, d10, [sp, #32]             // 16-byte Folded Reload
	ldp	d13, d12, [sp, #16]             // 16-byte Folded Reload
	ldp	d15, d14, [sp], #160            // 16-byte Folded Reload
	ret
.Lfunc_end44:
	.size	"spread_analytics::spread::z_spread", .Lfunc_end44-"spread_analytics::spread::z_spread"
                                        // -- End function
	.section	".text.senyolanda::swap_values::swap_in","ax",@progbits
	.p2align	2                               // -- Begin function senyolanda::swap_values::swap_in
	.type	"senyolanda::swap_values::swap_in",@function
"senyolanda::swap_values::swap_in":     // @"senyolanda::swap_values::swap_in"
// %bb.0:                               // %start
	sub	sp, sp, #96
	cmp	x2, #30
	stp	x29, x30, [sp, #64]             // 16-byte Folded Spill
	add	x29, sp, #64
	str	x19, [sp, #80]                  // 8-byte Spill
	str	wzr, [sp, #8]
	str	xzr, [sp]
	b.ne	.LBB45_4
// %bb.1:                               // %"records::record::bad_record.exit.i.i.i"
	ldrb	w8, [x1]
	cmp	w8, #4
	b.ne	.LBB45_4
// %bb.2:                               // %arm.1
	movi	v0.2d, #0xffffffffffffffff
	ldur	x8, [x1, #1]
	mov	x10, #9221120237041090560       // =0x7ff8000000000000
	fmov	d4, x10
	ldur	q1, [x1, #9]
	mov	x9, #9218868437227405312        // =0x7ff0000000000000
	fmov	d3, x8
	and	x11, x8, #0x7fffffffffffffff
	dup	v2.2d, x9
	cmp	x11, x9
	dup	v5.2d, x10
	ldrb	w9, [x1, #29]
	fneg	v0.2d, v0.2d
	fcsel	d3, d4, d3, hi
	cmp	w9, #3
	and	v0.16b, v1.16b, v0.16b
	fmov	x8, d3
	stur	d3, [sp, #4]
	ldr	x10, [sp]
	cmhi	v0.2d, v0.2d, v2.2d
	lsr	x11, x8, #32
	ldur	w8, [x1, #25]
	extr	x10, x11, x10, #32
	bsl	v0.16b, v5.16b, v1.16b
	b.hs	.LBB45_5
// %bb.3:                               // %arm.5
	str	wzr, [x0]
	stur	xzr, [x0, #4]
	str	x10, [x0, #16]
	stur	q0, [x0, #24]
	str	w8, [x0, #40]
	strb	w9, [x0, #44]
	sturh	wzr, [x0, #45]
	strb	wzr, [x0, #47]
	ldp	x29, x30, [sp, #64]             // 16-byte Folded Reload
	ldr	x19, [sp, #80]                  // 8-byte Reload
	add	sp, sp, #96
	ret
.LBB45_4:                               // %arm.2
	mov	w8, #10                         // =0xa
	stur	xzr, [sp, #4]
	movi	v0.2d, #0000000000000000
	strb	w8, [sp]
	mov	w9, #1                          // =0x1
	ldr	x8, [sp]
	str	w9, [x0]
	and	x8, x8, #0xffffffff000000ff
	stp	q0, q0, [x0, #16]
	stur	x8, [x0, #4]
	ldp	x29, x30, [sp, #64]             // 16-byte Folded Reload
	ldr	x19, [sp, #80]                  // 8-byte Reload
	add	sp, sp, #96
	ret
.LBB45_5:                               // %arm.6
	str	w8, [sp, #56]
	mov	w8, #2                          // =0x2
	mov	x19, x0
	add	x0, sp, #16
	add	x1, sp, #32
	mov	x2, x3
	mov	x3, x4
	mov	x4, x5
	mov	x5, x6
	str	wzr, [sp, #24]
	str	xzr, [sp, #16]
	str	x10, [sp, #32]
	stur	q0, [sp, #40]
	strb	w8, [sp, #60]
	sturh	wzr, [sp, #61]
	strb	wzr, [sp, #63]
	bl	"swaps::judging::judge_swap"
	ldrb	w8, [sp, #16]
	ldur	x9, [sp, #20]
	movi	v0.2d, #0000000000000000
	mov	w11, #10                        // =0xa
	mov	w10, #1                         // =0x1
	and	x9, x9, #0xffffffff000000ff
	cmp	w8, #0
	str	w10, [x19]
	csel	x8, x11, x9, eq
	stur	x8, [x19, #4]
	stp	q0, q0, [x19, #16]
	ldp	x29, x30, [sp, #64]             // 16-byte Folded Reload
	ldr	x19, [sp, #80]                  // 8-byte Reload
	add	sp, sp, #96
	ret
.Lfunc_end45:
	.size	"senyolanda::swap_values::swap_in", .Lfunc_end45-"senyolanda::swap_values::swap_in"
                                        // -- End function
	.section	".text.swaps::valuation::value_swap","ax",@progbits
	.p2align	2                               // -- Begin function swaps::valuation::value_swap
	.type	"swaps::valuation::value_swap",@function
"swaps::valuation::value_swap":         // @"swaps::valuation::value_swap"
// %bb.0:                               // %start
	sub	sp, sp, #368
	stp	x28, x27, [sp, #288]            // 16-byte Folded Spill
	ldrb	w27, [x1]
	ldur	q0, [x1, #8]
	ldur	q1, [x1, #24]
	stp	x26, x25, [sp, #304]            // 16-byte Folded Spill
	mov	x25, x1
	stp	x20, x19, [sp, #352]            // 16-byte Folded Spill
	mov	x19, x0
	add	x0, sp, #8
	add	x1, sp, #24
	str	d14, [sp, #208]                 // 8-byte Spill
	mov	w20, w6
	stp	d13, d12, [sp, #224]            // 16-byte Folded Spill
	stp	d11, d10, [sp, #240]            // 16-byte Folded Spill
	stp	d9, d8, [sp, #256]              // 16-byte Folded Spill
	stp	x29, x30, [sp, #272]            // 16-byte Folded Spill
	add	x29, sp, #272
	stp	x24, x23, [sp, #320]            // 16-byte Folded Spill
	mov	x23, x3
	mov	x24, x2
	stp	x22, x21, [sp, #336]            // 16-byte Folded Spill
	mov	x21, x5
	mov	x22, x4
	str	x27, [sp, #24]
	stp	q0, q1, [sp, #32]
	str	xzr, [sp, #8]
	str	wzr, [sp, #16]
	bl	"swaps::judging::judge_any"
	ldrb	w26, [sp, #8]
	cmp	w26, #1
	b.ne	.LBB46_2
// %bb.1:                               // %arm.1
	ldur	x8, [sp, #12]
	movi	d8, #0000000000000000
	movi	d9, #0000000000000000
	movi	d1, #0000000000000000
	movi	d2, #0000000000000000
	mov	w9, wzr
	movi	d0, #0000000000000000
	b	.LBB46_7
.LBB46_2:                               // %arm.2
	movi	v1.2d, #0000000000000000
	ldur	q0, [x25, #8]
	ldur	q2, [x25, #24]
	sub	x8, x29, #120
	add	x0, sp, #64
	sub	x1, x29, #120
	mov	x2, x24
	mov	x3, x23
	mov	x4, x22
	mov	x5, x21
	stur	x27, [x29, #-120]
	stur	q0, [x8, #8]
	stur	q2, [x8, #24]
	stp	q1, q1, [sp, #64]
	stp	q1, q1, [sp, #96]
	str	q1, [sp, #128]
	bl	"swaps::valuation::legs_with_bump"
	ldp	d8, d9, [sp, #64]
	movi	d1, #0000000000000000
	movi	d0, #0000000000000000
	ldp	d13, d11, [sp, #96]
	ldr	d10, [sp, #80]
	ldr	d12, [sp, #112]
	fmov	d2, d8
	//ARITH_FENCE
	//ARITH_FENCE
	fcmp	d2, d1
	b.eq	.LBB46_6
// %bb.3:                               // %join.3.i.i
	ldr	d0, [sp, #88]
	ldur	x25, [x29, #-88]
	fdiv	d14, d0, d8
	ldur	d0, [x29, #-96]
	fmov	x28, d0
	cbz	w27, .LBB46_5
// %bb.4:                               // %arm.2.i.i.i
	lsr	x0, x28, #32
	mov	w1, w25
                                        // kill: def $w0 killed $w0 killed $x0
	bl	"dates::counts::actual_days"
	ucvtf	d0, w0
	mov	x8, #228698418577408            // =0xd00000000000
	movk	x8, #16502, lsl #48
	fmov	d1, x8
	//ARITH_FENCE
	fdiv	d0, d0, d1
.LBB46_5:                               // %"swaps::terms::end.exit.i.i"
	mov	x0, x24
	mov	x1, x23
	mov	x2, x22
	mov	x3, x21
	bl	"swaps::discount::zero_rate_of"
	ucvtf	d1, w25
	ucvtf	d2, w28
	cmp	w27, #0
	//ARITH_FENCE
	//ARITH_FENCE
	fcsel	d1, d1, d2, eq
	fdiv	d0, d0, d1
	fmov	d1, #1.00000000
	fadd	d0, d0, d1
	fdiv	d0, d14, d0
.LBB46_6:                               // %"swaps::valuation::valuation_of.exit"
	fmov	d1, #1.00000000
	fsub	d2, d11, d12
	cmp	w20, #0
	fsub	d3, d12, d11
	fsub	d4, d8, d9
	fsub	d5, d9, d8
	fsub	d1, d1, d13
	fcsel	d2, d2, d3, ne
	fcsel	d3, d4, d5, ne
	fdiv	d1, d1, d10
	fmov	x9, d3
	fsub	d2, d2, d3
	lsl	x8, x9, #32
	lsr	x9, x9, #32
.LBB46_7:                               // %join.4
	str	w26, [x19]
	ldp	x22, x21, [sp, #336]            // 16-byte Folded Reload
	stur	x8, [x19, #4]
	ldr	d14, [sp, #208]                 // 8-byte Reload
	str	w9, [x19, #12]
	ldp	x24, x23, [sp, #320]            // 16-byte Folded Reload
	stp	d8, d9, [x19, #16]
	ldp	x26, x25, [sp, #304]            // 16-byte Folded Reload
	stp	d1, d2, [x19, #32]
	ldp	x28, x27, [sp, #288]            // 16-byte Folded Reload
	str	d0, [x19, #48]
	ldp	x20, x19, [sp, #352]            // 16-byte Folded Reload
	ldp	x29, x30, [sp, #272]            // 16-byte Folded Reload
	ldp	d9, d8, [sp, #256]              // 16-byte Folded Reload
	ldp	d11, d10, [sp, #240]            // 16-byte Folded Reload
	ldp	d13, d12, [sp, #224]            // 16-byte Folded Reload
	add	sp, sp, #368
	ret
.Lfunc_end46:
	.size	"swaps::valuation::value_swap", .Lfunc_end46-"swaps::valuation::value_swap"
                                        // -- End function
	.section	".text.curves::each::judge_each","ax",@progbits
	.p2align	2                               // -- Begin function curves::each::judge_each
	.type	"curves::each::judge_each",@function
"curves::each::judge_each":             // @"curves::each::judge_each"
// %bb.0:                               // %start
	cmp	x2, x4
	b.ne	.LBB47_4
// %bb.1:                               // %join.3.i
	sub	x8, x2, #121
	cmn	x8, #120
	b.hs	.LBB47_5
// %bb.2:
	mov	w8, #4                          // =0x4
.LBB47_3:                               // %arm.2
	mov	w9, #1                          // =0x1
	stur	x8, [x0, #4]
	strb	w9, [x0]
	ret
.LBB47_4:
	mov	w8, #3                          // =0x3
	mov	w9, #1                          // =0x1
	stur	x8, [x0, #4]
	strb	w9, [x0]
	ret
.LBB47_5:                               // %join.6.i
	movi	d0, #0000000000000000
	ldr	d1, [x1]
	//ARITH_FENCE
	//ARITH_FENCE
	fcmp	d0, d1
	cset	w8, hi
	//APP
	//NO_APP
	cbz	w8, .LBB47_10
.LBB47_6:                               // %join.6.i9.i.preheader
	mov	x8, #-4503599627370496          // =0xfff0000000000000
	fmov	d2, x8
	mov	w8, #5                          // =0x5
.LBB47_7:                               // %join.6.i9.i
                                        // =>This Inner Loop Header: Depth=1
	ldr	d1, [x1], #8
	ldr	d4, [x3], #8
	fsub	d3, d1, d1
	fsub	d4, d4, d4
	//ARITH_FENCE
	fcmp	d3, d0
	//ARITH_FENCE
	fccmp	d4, d0, #0, eq
	b.ne	.LBB47_3
// %bb.8:                               // %"curves::curve::bad_knot.exit.i.i.i"
                                        //   in Loop: Header=BB47_7 Depth=1
	fmov	d3, d1
	//ARITH_FENCE
	//ARITH_FENCE
	fcmp	d3, d0
	cset	w9, mi
	fcmp	d2, d3
	//APP
	//NO_APP
	cset	w10, pl
	//APP
	//NO_APP
	orr	w9, w9, w10
	cbnz	w9, .LBB47_3
// %bb.9:                               // %join.10.i.i
                                        //   in Loop: Header=BB47_7 Depth=1
	fmov	d2, d1
	mov	x9, #4294967296                 // =0x100000000
	subs	x2, x2, #1
	add	x8, x8, x9
	b.ne	.LBB47_7
	b	.LBB47_16
.LBB47_10:                              // %join.3.i.i
	ldr	d1, [x3]
	fsub	d1, d1, d1
	//ARITH_FENCE
	fcmp	d1, d0
	b.ne	.LBB47_6
// %bb.11:                              // %join.6.i.i
	add	x8, x1, x2, lsl #3
	ldur	d1, [x8, #-8]
	mov	x8, #9218868437227405312        // =0x7ff0000000000000
	fmov	d2, x8
	//ARITH_FENCE
	//ARITH_FENCE
	fcmp	d1, d2
	cset	w8, mi
	//APP
	//NO_APP
	cbz	w8, .LBB47_6
// %bb.12:                              // %then.7.i.i
	cmp	x2, #2
	b.lo	.LBB47_16
// %bb.13:                              // %join.5.i.i.i.preheader
	mov	x8, xzr
	sub	x9, x2, #1
	add	x10, x3, #8
	add	x11, x1, #8
.LBB47_14:                              // %join.5.i.i.i
                                        // =>This Inner Loop Header: Depth=1
	ldp	d1, d2, [x11, #-8]
	add	x11, x11, #8
	//ARITH_FENCE
	//ARITH_FENCE
	fcmp	d1, d2
	ldr	d1, [x10], #8
	fsub	d1, d1, d1
	cset	w12, pl
	//APP
	//NO_APP
	cmp	w12, #0
	cinc	x8, x8, ne
	//ARITH_FENCE
	fcmp	d1, d0
	cinc	x8, x8, ne
	subs	x9, x9, #1
	b.ne	.LBB47_14
// %bb.15:                              // %"curves::curve::all_in_order.exit.i"
	cbnz	x8, .LBB47_6
.LBB47_16:                              // %arm.1
	cbz	x6, .LBB47_23
// %bb.17:                              // %join.6.i.i4.preheader
	mov	x8, xzr
	mov	x9, xzr
.LBB47_18:                              // %join.6.i.i4
                                        // =>This Inner Loop Header: Depth=1
	ldr	d1, [x5, x9, lsl #3]
	add	x9, x9, #1
	fsub	d1, d1, d1
	//ARITH_FENCE
	fcmp	d1, d0
	cinc	x8, x8, ne
	cmp	x6, x9
	b.ne	.LBB47_18
// %bb.19:                              // %"curves::each::all_finite.exit.i"
	cbz	x8, .LBB47_24
// %bb.20:                              // %arm.3.i.i.i.preheader
	mov	x8, xzr
.LBB47_21:                              // %arm.3.i.i.i
                                        // =>This Inner Loop Header: Depth=1
	ldr	d1, [x5, x8, lsl #3]
	fsub	d1, d1, d1
	//ARITH_FENCE
	fcmp	d1, d0
	b.ne	.LBB47_25
// %bb.22:                              // %join.9.i.i.i
                                        //   in Loop: Header=BB47_21 Depth=1
	add	x8, x8, #1
	cmp	x6, x8
	b.ne	.LBB47_21
.LBB47_23:
	mov	w8, wzr
.LBB47_24:
	strb	w8, [x0]
	stur	xzr, [x0, #4]
	ret
.LBB47_25:                              // %arm.4.i
	mov	w9, #-1                         // =0xffffffff
	cmp	x8, x9
	csel	x8, x8, x9, lo
	mov	w9, #6                          // =0x6
	orr	x9, x9, x8, lsl #32
	mov	w8, #1                          // =0x1
	strb	w8, [x0]
	stur	x9, [x0, #4]
	ret
.Lfunc_end47:
	.size	"curves::each::judge_each", .Lfunc_end47-"curves::each::judge_each"
                                        // -- End function
	.section	".text.curves::each::answer_each","ax",@progbits
	.p2align	2                               // -- Begin function curves::each::answer_each
	.type	"curves::each::answer_each",@function
"curves::each::answer_each":            // @"curves::each::answer_each"
// %bb.0:                               // %start
	sub	sp, sp, #160
	stp	x26, x25, [sp, #96]             // 16-byte Folded Spill
	mov	x26, x6
	cmp	x3, #2
	stp	x24, x23, [sp, #112]            // 16-byte Folded Spill
	mov	w23, w1
	mov	w25, w0
	stp	x22, x21, [sp, #128]            // 16-byte Folded Spill
	mov	x21, x3
	mov	x22, x2
	stp	x20, x19, [sp, #144]            // 16-byte Folded Spill
	mov	x19, x5
	mov	x20, x4
	stp	x29, x30, [sp, #64]             // 16-byte Folded Spill
	add	x29, sp, #64
	stp	x28, x27, [sp, #80]             // 16-byte Folded Spill
	b.lo	.LBB48_6
// %bb.1:                               // %start
	cmp	x19, x21
	b.lo	.LBB48_6
// %bb.2:                               // %else.5
	lsr	x28, x7, #3
	and	x27, x7, #0x7
	add	x24, x26, x28, lsl #6
	cbz	x28, .LBB48_4
.LBB48_3:                               // %join.5.i.i
                                        // =>This Inner Loop Header: Depth=1
	mov	w0, w25
	mov	w1, w23
	mov	x2, x22
	mov	x3, x21
	mov	x4, x20
	mov	x5, x19
	mov	x6, x26
	bl	"curves::each::answer_eight"
	subs	x28, x28, #1
	add	x26, x26, #64
	b.ne	.LBB48_3
.LBB48_4:                               // %"curves::each::answer_eights.exit.i"
	cmp	x27, #2
	b.hi	.LBB48_8
// %bb.5:                               // %then.1.i.i
	mov	w0, w25
	mov	w1, w23
	mov	x2, x22
	mov	x3, x21
	mov	x4, x20
	mov	x5, x19
	mov	x6, x24
	mov	x7, x27
	b	.LBB48_7
.LBB48_6:                               // %then.4
	mov	w0, w25
	mov	w1, w23
	mov	x2, x22
	mov	x3, x21
	mov	x4, x20
	mov	x5, x19
	mov	x6, x26
.LBB48_7:                               // %then.4
	ldp	x20, x19, [sp, #144]            // 16-byte Folded Reload
	ldp	x22, x21, [sp, #128]            // 16-byte Folded Reload
	ldp	x24, x23, [sp, #112]            // 16-byte Folded Reload
	ldp	x26, x25, [sp, #96]             // 16-byte Folded Reload
	ldp	x28, x27, [sp, #80]             // 16-byte Folded Reload
	ldp	x29, x30, [sp, #64]             // 16-byte Folded Reload
	add	sp, sp, #160
	b	"curves::each::answer_one_by_one"
.LBB48_8:                               // %else.2.i.i
	lsl	x26, x27, #3
	mov	w8, #64                         // =0x40
	mov	w1, wzr
	sub	x2, x8, x26
	mov	x8, sp
	add	x0, x8, x26
	bl	memset
	mov	x0, sp
	mov	x1, x24
	mov	x2, x26
	bl	memcpy
	mov	x6, sp
	mov	w0, w25
	mov	w1, w23
	mov	x2, x22
	mov	x3, x21
	mov	x4, x20
	mov	x5, x19
	bl	"curves::each::answer_eight"
	mov	x1, sp
	mov	x0, x24
	mov	x2, x26
	bl	memcpy
	ldp	x20, x19, [sp, #144]            // 16-byte Folded Reload
	ldp	x22, x21, [sp, #128]            // 16-byte Folded Reload
	ldp	x24, x23, [sp, #112]            // 16-byte Folded Reload
	ldp	x26, x25, [sp, #96]             // 16-byte Folded Reload
	ldp	x28, x27, [sp, #80]             // 16-byte Folded Reload
	ldp	x29, x30, [sp, #64]             // 16-byte Folded Reload
	add	sp, sp, #160
	ret
.Lfunc_end48:
	.size	"curves::each::answer_each", .Lfunc_end48-"curves::each::answer_each"
                                        // -- End function
	.section	".text.curves::each::answer_one_by_one","ax",@progbits
	.p2align	2                               // -- Begin function curves::each::answer_one_by_one
	.type	"curves::each::answer_one_by_one",@function
"curves::each::answer_one_by_one":      // @"curves::each::answer_one_by_one"
// %bb.0:                               // %start
	cbz	x7, .LBB49_45
// %bb.1:                               // %join.6.lr.ph
	movi	d0, #0000000000000000
	mov	x10, #9221120237041090560       // =0x7ff8000000000000
	add	x9, x2, x3, lsl #3
	fmov	d1, x10
	add	x10, x4, x5, lsl #3
	mov	x8, xzr
	//ARITH_FENCE
	//ARITH_FENCE
	b	.LBB49_3
.LBB49_2:                               // %"curves::each::rate_or_exponent.exit"
                                        //   in Loop: Header=BB49_3 Depth=1
	str	d3, [x6, x8, lsl #3]
	add	x8, x8, #1
	cmp	x8, x7
	b.eq	.LBB49_45
.LBB49_3:                               // %join.6
                                        // =>This Loop Header: Depth=1
                                        //     Child Loop BB49_22 Depth 2
                                        //     Child Loop BB49_12 Depth 2
	ldr	d2, [x6, x8, lsl #3]
	cbz	x3, .LBB49_6
// %bb.4:                               // %"curves::segments::knot_at.exit.i"
                                        //   in Loop: Header=BB49_3 Depth=1
	fmov	d3, d2
	ldr	d4, [x2]
	//ARITH_FENCE
	//ARITH_FENCE
	fcmp	d3, d4
	cset	w11, hi
	//APP
	//NO_APP
	cbz	w11, .LBB49_14
// %bb.5:                               // %arm.1.i.i13.i
                                        //   in Loop: Header=BB49_3 Depth=1
	ldur	d4, [x9, #-8]
	//ARITH_FENCE
	b	.LBB49_7
.LBB49_6:                               // %"curves::segments::knot_at.exit.thread.i"
                                        //   in Loop: Header=BB49_3 Depth=1
	fmov	d3, d2
	fmov	d4, d1
	//ARITH_FENCE
	fcmp	d3, d1
	cset	w11, hi
	//APP
	//NO_APP
	cbz	w11, .LBB49_14
.LBB49_7:                               // %"curves::segments::last_knot.exit.i"
                                        //   in Loop: Header=BB49_3 Depth=1
	fcmp	d4, d3
	cset	w11, hi
	//APP
	//NO_APP
	cbz	w11, .LBB49_16
// %bb.8:                               // %join.6.i
                                        //   in Loop: Header=BB49_3 Depth=1
	and	w11, w0, #0xff
	cmp	w11, #2
	b.ne	.LBB49_19
// %bb.9:                               // %arm.2.i.i
                                        //   in Loop: Header=BB49_3 Depth=1
	cmp	x3, #2
	b.lo	.LBB49_24
// %bb.10:                              // %join.5.i.i6.i.i.preheader
                                        //   in Loop: Header=BB49_3 Depth=1
	mov	x11, xzr
	mov	x12, x3
	b	.LBB49_12
.LBB49_11:                              // %select.end2
                                        //   in Loop: Header=BB49_12 Depth=2
	sub	x12, x12, x13
	cmp	x12, #1
	b.ls	.LBB49_25
.LBB49_12:                              // %join.5.i.i6.i.i
                                        //   Parent Loop BB49_3 Depth=1
                                        // =>  This Inner Loop Header: Depth=2
	lsr	x13, x12, #1
	add	x14, x13, x11
	ldr	d4, [x2, x14, lsl #3]
	//ARITH_FENCE
	fcmp	d3, d4
	cset	w15, mi
	//APP
	//NO_APP
	cbnz	w15, .LBB49_11
// %bb.13:                              // %select.false3
                                        //   in Loop: Header=BB49_12 Depth=2
	mov	x11, x14
	b	.LBB49_11
.LBB49_14:                              // %then.1.i
                                        //   in Loop: Header=BB49_3 Depth=1
	cbz	x5, .LBB49_18
// %bb.15:                              // %arm.1.i.i10.i
                                        //   in Loop: Header=BB49_3 Depth=1
	ldr	d3, [x4]
	b	.LBB49_43
.LBB49_16:                              // %then.4.i
                                        //   in Loop: Header=BB49_3 Depth=1
	cbz	x5, .LBB49_18
// %bb.17:                              // %arm.1.i.i17.i
                                        //   in Loop: Header=BB49_3 Depth=1
	ldur	d3, [x10, #-8]
	b	.LBB49_43
.LBB49_18:                              //   in Loop: Header=BB49_3 Depth=1
	mov	x11, #9221120237041090560       // =0x7ff8000000000000
	fmov	d3, x11
	b	.LBB49_43
.LBB49_19:                              // %arm.1.i.i
                                        //   in Loop: Header=BB49_3 Depth=1
	cmp	x3, #2
	b.lo	.LBB49_31
// %bb.20:                              // %join.5.i.i.i.i.preheader
                                        //   in Loop: Header=BB49_3 Depth=1
	mov	x11, xzr
	mov	x12, x3
	b	.LBB49_22
.LBB49_21:                              // %select.end
                                        //   in Loop: Header=BB49_22 Depth=2
	sub	x12, x12, x13
	cmp	x12, #1
	b.ls	.LBB49_25
.LBB49_22:                              // %join.5.i.i.i.i
                                        //   Parent Loop BB49_3 Depth=1
                                        // =>  This Inner Loop Header: Depth=2
	lsr	x13, x12, #1
	add	x14, x13, x11
	ldr	d4, [x2, x14, lsl #3]
	//ARITH_FENCE
	fcmp	d3, d4
	cset	w15, ls
	//APP
	//NO_APP
	cbnz	w15, .LBB49_21
// %bb.23:                              // %select.false
                                        //   in Loop: Header=BB49_22 Depth=2
	mov	x11, x14
	b	.LBB49_21
.LBB49_24:                              //   in Loop: Header=BB49_3 Depth=1
	mov	x11, xzr
.LBB49_25:                              // %"curves::kinds::segment_on.exit.i"
                                        //   in Loop: Header=BB49_3 Depth=1
	cmp	x11, x3
	b.hs	.LBB49_32
.LBB49_26:                              // %then.2.i.i
                                        //   in Loop: Header=BB49_3 Depth=1
	lsl	x12, x11, #3
	add	x13, x11, #1
	cmp	x13, x3
	ldr	d3, [x2, x12]
	b.hs	.LBB49_29
// %bb.27:                              // %then.2.i.i
                                        //   in Loop: Header=BB49_3 Depth=1
	cmp	x13, x5
	b.hs	.LBB49_29
// %bb.28:                              // %then.8.i.i
                                        //   in Loop: Header=BB49_3 Depth=1
	add	x11, x12, #8
	ldr	d5, [x4, x12]
	ldr	d4, [x2, x11]
	ldr	d6, [x4, x11]
	and	w11, w0, #0xff
	cmp	w11, #2
	b.ne	.LBB49_39
	b	.LBB49_36
.LBB49_29:                              // %then.1.i.i.i
                                        //   in Loop: Header=BB49_3 Depth=1
	cmp	x13, x3
	b.hs	.LBB49_37
// %bb.30:                              // %arm.1.i.i.i.i.i
                                        //   in Loop: Header=BB49_3 Depth=1
	ldr	d4, [x2, x13, lsl #3]
	cmp	x11, x5
	b.lo	.LBB49_33
	b	.LBB49_38
.LBB49_31:                              //   in Loop: Header=BB49_3 Depth=1
	mov	x11, xzr
	cmp	xzr, x3
	b.lo	.LBB49_26
.LBB49_32:                              //   in Loop: Header=BB49_3 Depth=1
	mov	x12, #9221120237041090560       // =0x7ff8000000000000
	fmov	d3, x12
	fmov	d4, d3
	cmp	x11, x5
	b.hs	.LBB49_38
.LBB49_33:                              // %then.1.i19.i.i
                                        //   in Loop: Header=BB49_3 Depth=1
	add	x12, x11, #1
	ldr	d5, [x4, x11, lsl #3]
	cmp	x12, x5
	b.hs	.LBB49_35
// %bb.34:                              // %arm.1.i.i.i22.i.i
                                        //   in Loop: Header=BB49_3 Depth=1
	ldr	d6, [x4, x12, lsl #3]
	and	w11, w0, #0xff
	cmp	w11, #2
	b.ne	.LBB49_39
	b	.LBB49_36
.LBB49_35:                              //   in Loop: Header=BB49_3 Depth=1
	mov	x11, #9221120237041090560       // =0x7ff8000000000000
	fmov	d6, x11
	and	w11, w0, #0xff
	cmp	w11, #2
	b.ne	.LBB49_39
.LBB49_36:                              // %arm.3.i.i
                                        //   in Loop: Header=BB49_3 Depth=1
	fsub	d6, d6, d5
	fsub	d7, d2, d3
	fsub	d3, d4, d3
	fmul	d6, d7, d6
	fdiv	d3, d6, d3
	b	.LBB49_42
.LBB49_37:                              //   in Loop: Header=BB49_3 Depth=1
	mov	x12, #9221120237041090560       // =0x7ff8000000000000
	fmov	d4, x12
	cmp	x11, x5
	b.lo	.LBB49_33
.LBB49_38:                              //   in Loop: Header=BB49_3 Depth=1
	mov	x11, #9221120237041090560       // =0x7ff8000000000000
	fmov	d5, x11
	fmov	d6, d5
	and	w11, w0, #0xff
	cmp	w11, #2
	b.eq	.LBB49_36
.LBB49_39:                              // %"curves::segments::ends_of.exit.i"
                                        //   in Loop: Header=BB49_3 Depth=1
	fsub	d7, d2, d3
	fsub	d3, d4, d3
	cmp	w11, #1
	fdiv	d3, d7, d3
	b.ne	.LBB49_41
// %bb.40:                              // %arm.2.i24.i
                                        //   in Loop: Header=BB49_3 Depth=1
	fmov	d4, #1.00000000
	fsub	d4, d4, d3
	fmul	d3, d6, d3
	fmul	d4, d5, d4
	fadd	d3, d3, d4
	b	.LBB49_43
.LBB49_41:                              // %arm.1.i27.i
                                        //   in Loop: Header=BB49_3 Depth=1
	fsub	d4, d6, d5
	fmul	d3, d3, d4
.LBB49_42:                              // %"curves::lookups::rate_of.exit"
                                        //   in Loop: Header=BB49_3 Depth=1
	fadd	d3, d5, d3
.LBB49_43:                              // %"curves::lookups::rate_of.exit"
                                        //   in Loop: Header=BB49_3 Depth=1
	cbz	w1, .LBB49_2
// %bb.44:                              // %then.1.i4
                                        //   in Loop: Header=BB49_3 Depth=1
	fnmul	d3, d3, d2
	//ARITH_FENCE
	fcmp	d2, d0
	and	w12, w0, #0xff
	movi	d2, #0000000000000000
	cset	w11, hi
	//APP
	//NO_APP
	cmp	w11, #0
	ccmp	w12, #1, #0, eq
	fcsel	d3, d3, d2, ne
	b	.LBB49_2
.LBB49_45:                              // %after.1
	ret
.Lfunc_end49:
	.size	"curves::each::answer_one_by_one", .Lfunc_end49-"curves::each::answer_one_by_one"
                                        // -- End function
	.section	".text.curves::each::answer_eight","ax",@progbits
	.p2align	2                               // -- Begin function curves::each::answer_eight
	.type	"curves::each::answer_eight",@function
"curves::each::answer_eight":           // @"curves::each::answer_eight"
// %bb.0:                               // %start
	and	w8, w0, #0xff
	sub	x12, x3, #1
	cmp	w8, #2
	b.ne	.LBB50_20
// %bb.1:                               // %arm.2.i
	cmp	x12, #2
	b.lo	.LBB50_39
// %bb.2:                               // %join.7.preheader.i19.i
	ldp	d0, d1, [x6]
	mov	x8, xzr
	ldp	d2, d3, [x6, #16]
	mov	x9, xzr
	ldp	d4, d5, [x6, #32]
	mov	x10, xzr
	ldp	d6, d7, [x6, #48]
	mov	x11, xzr
	mov	x13, xzr
	mov	x14, xzr
	mov	x15, xzr
	mov	x16, xzr
	//ARITH_FENCE
	//ARITH_FENCE
	//ARITH_FENCE
	//ARITH_FENCE
	//ARITH_FENCE
	//ARITH_FENCE
	//ARITH_FENCE
	//ARITH_FENCE
	b	.LBB50_4
.LBB50_3:                               // %select.end20
                                        //   in Loop: Header=BB50_4 Depth=1
	sub	x12, x12, x17
	cmp	x12, #1
	b.ls	.LBB50_40
.LBB50_4:                               // %join.7.i43.i
                                        // =>This Inner Loop Header: Depth=1
	lsr	x17, x12, #1
	add	x18, x17, x8
	ldr	d16, [x2, x18, lsl #3]
	//ARITH_FENCE
	fcmp	d0, d16
	cset	w7, mi
	//APP
	//NO_APP
	cbz	w7, .LBB50_12
// %bb.5:                               // %select.end6
                                        //   in Loop: Header=BB50_4 Depth=1
	add	x18, x17, x9
	ldr	d16, [x2, x18, lsl #3]
	//ARITH_FENCE
	fcmp	d1, d16
	cset	w7, mi
	//APP
	//NO_APP
	cbz	w7, .LBB50_13
.LBB50_6:                               // %select.end8
                                        //   in Loop: Header=BB50_4 Depth=1
	add	x18, x17, x10
	ldr	d16, [x2, x18, lsl #3]
	//ARITH_FENCE
	fcmp	d2, d16
	cset	w7, mi
	//APP
	//NO_APP
	cbz	w7, .LBB50_14
.LBB50_7:                               // %select.end10
                                        //   in Loop: Header=BB50_4 Depth=1
	add	x18, x17, x11
	ldr	d16, [x2, x18, lsl #3]
	//ARITH_FENCE
	fcmp	d3, d16
	cset	w7, mi
	//APP
	//NO_APP
	cbz	w7, .LBB50_15
.LBB50_8:                               // %select.end12
                                        //   in Loop: Header=BB50_4 Depth=1
	add	x18, x17, x13
	ldr	d16, [x2, x18, lsl #3]
	//ARITH_FENCE
	fcmp	d4, d16
	cset	w7, mi
	//APP
	//NO_APP
	cbz	w7, .LBB50_16
.LBB50_9:                               // %select.end14
                                        //   in Loop: Header=BB50_4 Depth=1
	add	x18, x17, x14
	ldr	d16, [x2, x18, lsl #3]
	//ARITH_FENCE
	fcmp	d5, d16
	cset	w7, mi
	//APP
	//NO_APP
	cbz	w7, .LBB50_17
.LBB50_10:                              // %select.end16
                                        //   in Loop: Header=BB50_4 Depth=1
	add	x18, x17, x15
	ldr	d16, [x2, x18, lsl #3]
	//ARITH_FENCE
	fcmp	d6, d16
	cset	w7, mi
	//APP
	//NO_APP
	cbz	w7, .LBB50_18
.LBB50_11:                              // %select.end18
                                        //   in Loop: Header=BB50_4 Depth=1
	add	x18, x17, x16
	ldr	d16, [x2, x18, lsl #3]
	//ARITH_FENCE
	fcmp	d7, d16
	cset	w7, mi
	//APP
	//NO_APP
	cbnz	w7, .LBB50_3
	b	.LBB50_19
.LBB50_12:                              // %select.false7
                                        //   in Loop: Header=BB50_4 Depth=1
	mov	x8, x18
	add	x18, x17, x9
	ldr	d16, [x2, x18, lsl #3]
	//ARITH_FENCE
	fcmp	d1, d16
	cset	w7, mi
	//APP
	//NO_APP
	cbnz	w7, .LBB50_6
.LBB50_13:                              // %select.false9
                                        //   in Loop: Header=BB50_4 Depth=1
	mov	x9, x18
	add	x18, x17, x10
	ldr	d16, [x2, x18, lsl #3]
	//ARITH_FENCE
	fcmp	d2, d16
	cset	w7, mi
	//APP
	//NO_APP
	cbnz	w7, .LBB50_7
.LBB50_14:                              // %select.false11
                                        //   in Loop: Header=BB50_4 Depth=1
	mov	x10, x18
	add	x18, x17, x11
	ldr	d16, [x2, x18, lsl #3]
	//ARITH_FENCE
	fcmp	d3, d16
	cset	w7, mi
	//APP
	//NO_APP
	cbnz	w7, .LBB50_8
.LBB50_15:                              // %select.false13
                                        //   in Loop: Header=BB50_4 Depth=1
	mov	x11, x18
	add	x18, x17, x13
	ldr	d16, [x2, x18, lsl #3]
	//ARITH_FENCE
	fcmp	d4, d16
	cset	w7, mi
	//APP
	//NO_APP
	cbnz	w7, .LBB50_9
.LBB50_16:                              // %select.false15
                                        //   in Loop: Header=BB50_4 Depth=1
	mov	x13, x18
	add	x18, x17, x14
	ldr	d16, [x2, x18, lsl #3]
	//ARITH_FENCE
	fcmp	d5, d16
	cset	w7, mi
	//APP
	//NO_APP
	cbnz	w7, .LBB50_10
.LBB50_17:                              // %select.false17
                                        //   in Loop: Header=BB50_4 Depth=1
	mov	x14, x18
	add	x18, x17, x15
	ldr	d16, [x2, x18, lsl #3]
	//ARITH_FENCE
	fcmp	d6, d16
	cset	w7, mi
	//APP
	//NO_APP
	cbnz	w7, .LBB50_11
.LBB50_18:                              // %select.false19
                                        //   in Loop: Header=BB50_4 Depth=1
	mov	x15, x18
	add	x18, x17, x16
	ldr	d16, [x2, x18, lsl #3]
	//ARITH_FENCE
	fcmp	d7, d16
	cset	w7, mi
	//APP
	//NO_APP
	cbnz	w7, .LBB50_3
.LBB50_19:                              // %select.false21
                                        //   in Loop: Header=BB50_4 Depth=1
	mov	x16, x18
	b	.LBB50_3
.LBB50_20:                              // %arm.1.i
	cmp	x12, #2
	b.lo	.LBB50_39
// %bb.21:                              // %join.7.preheader.i.i
	ldp	d0, d1, [x6]
	mov	x8, xzr
	ldp	d2, d3, [x6, #16]
	mov	x9, xzr
	ldp	d4, d5, [x6, #32]
	mov	x10, xzr
	ldp	d6, d7, [x6, #48]
	mov	x11, xzr
	mov	x13, xzr
	mov	x14, xzr
	mov	x15, xzr
	mov	x16, xzr
	//ARITH_FENCE
	//ARITH_FENCE
	//ARITH_FENCE
	//ARITH_FENCE
	//ARITH_FENCE
	//ARITH_FENCE
	//ARITH_FENCE
	//ARITH_FENCE
	b	.LBB50_23
.LBB50_22:                              // %select.end36
                                        //   in Loop: Header=BB50_23 Depth=1
	sub	x12, x12, x17
	cmp	x12, #1
	b.ls	.LBB50_40
.LBB50_23:                              // %join.7.i.i
                                        // =>This Inner Loop Header: Depth=1
	lsr	x17, x12, #1
	add	x18, x17, x8
	ldr	d16, [x2, x18, lsl #3]
	//ARITH_FENCE
	fcmp	d0, d16
	cset	w7, ls
	//APP
	//NO_APP
	cbz	w7, .LBB50_31
// %bb.24:                              // %select.end22
                                        //   in Loop: Header=BB50_23 Depth=1
	add	x18, x17, x9
	ldr	d16, [x2, x18, lsl #3]
	//ARITH_FENCE
	fcmp	d1, d16
	cset	w7, ls
	//APP
	//NO_APP
	cbz	w7, .LBB50_32
.LBB50_25:                              // %select.end24
                                        //   in Loop: Header=BB50_23 Depth=1
	add	x18, x17, x10
	ldr	d16, [x2, x18, lsl #3]
	//ARITH_FENCE
	fcmp	d2, d16
	cset	w7, ls
	//APP
	//NO_APP
	cbz	w7, .LBB50_33
.LBB50_26:                              // %select.end26
                                        //   in Loop: Header=BB50_23 Depth=1
	add	x18, x17, x11
	ldr	d16, [x2, x18, lsl #3]
	//ARITH_FENCE
	fcmp	d3, d16
	cset	w7, ls
	//APP
	//NO_APP
	cbz	w7, .LBB50_34
.LBB50_27:                              // %select.end28
                                        //   in Loop: Header=BB50_23 Depth=1
	add	x18, x17, x13
	ldr	d16, [x2, x18, lsl #3]
	//ARITH_FENCE
	fcmp	d4, d16
	cset	w7, ls
	//APP
	//NO_APP
	cbz	w7, .LBB50_35
.LBB50_28:                              // %select.end30
                                        //   in Loop: Header=BB50_23 Depth=1
	add	x18, x17, x14
	ldr	d16, [x2, x18, lsl #3]
	//ARITH_FENCE
	fcmp	d5, d16
	cset	w7, ls
	//APP
	//NO_APP
	cbz	w7, .LBB50_36
.LBB50_29:                              // %select.end32
                                        //   in Loop: Header=BB50_23 Depth=1
	add	x18, x17, x15
	ldr	d16, [x2, x18, lsl #3]
	//ARITH_FENCE
	fcmp	d6, d16
	cset	w7, ls
	//APP
	//NO_APP
	cbz	w7, .LBB50_37
.LBB50_30:                              // %select.end34
                                        //   in Loop: Header=BB50_23 Depth=1
	add	x18, x17, x16
	ldr	d16, [x2, x18, lsl #3]
	//ARITH_FENCE
	fcmp	d7, d16
	cset	w7, ls
	//APP
	//NO_APP
	cbnz	w7, .LBB50_22
	b	.LBB50_38
.LBB50_31:                              // %select.false23
                                        //   in Loop: Header=BB50_23 Depth=1
	mov	x8, x18
	add	x18, x17, x9
	ldr	d16, [x2, x18, lsl #3]
	//ARITH_FENCE
	fcmp	d1, d16
	cset	w7, ls
	//APP
	//NO_APP
	cbnz	w7, .LBB50_25
.LBB50_32:                              // %select.false25
                                        //   in Loop: Header=BB50_23 Depth=1
	mov	x9, x18
	add	x18, x17, x10
	ldr	d16, [x2, x18, lsl #3]
	//ARITH_FENCE
	fcmp	d2, d16
	cset	w7, ls
	//APP
	//NO_APP
	cbnz	w7, .LBB50_26
.LBB50_33:                              // %select.false27
                                        //   in Loop: Header=BB50_23 Depth=1
	mov	x10, x18
	add	x18, x17, x11
	ldr	d16, [x2, x18, lsl #3]
	//ARITH_FENCE
	fcmp	d3, d16
	cset	w7, ls
	//APP
	//NO_APP
	cbnz	w7, .LBB50_27
.LBB50_34:                              // %select.false29
                                        //   in Loop: Header=BB50_23 Depth=1
	mov	x11, x18
	add	x18, x17, x13
	ldr	d16, [x2, x18, lsl #3]
	//ARITH_FENCE
	fcmp	d4, d16
	cset	w7, ls
	//APP
	//NO_APP
	cbnz	w7, .LBB50_28
.LBB50_35:                              // %select.false31
                                        //   in Loop: Header=BB50_23 Depth=1
	mov	x13, x18
	add	x18, x17, x14
	ldr	d16, [x2, x18, lsl #3]
	//ARITH_FENCE
	fcmp	d5, d16
	cset	w7, ls
	//APP
	//NO_APP
	cbnz	w7, .LBB50_29
.LBB50_36:                              // %select.false33
                                        //   in Loop: Header=BB50_23 Depth=1
	mov	x14, x18
	add	x18, x17, x15
	ldr	d16, [x2, x18, lsl #3]
	//ARITH_FENCE
	fcmp	d6, d16
	cset	w7, ls
	//APP
	//NO_APP
	cbnz	w7, .LBB50_30
.LBB50_37:                              // %select.false35
                                        //   in Loop: Header=BB50_23 Depth=1
	mov	x15, x18
	add	x18, x17, x16
	ldr	d16, [x2, x18, lsl #3]
	//ARITH_FENCE
	fcmp	d7, d16
	cset	w7, ls
	//APP
	//NO_APP
	cbnz	w7, .LBB50_22
.LBB50_38:                              // %select.false37
                                        //   in Loop: Header=BB50_23 Depth=1
	mov	x16, x18
	b	.LBB50_22
.LBB50_39:
	mov	x8, xzr
	mov	x9, xzr
	mov	x10, xzr
	mov	x11, xzr
	mov	x13, xzr
	mov	x14, xzr
	mov	x15, xzr
	mov	x16, xzr
.LBB50_40:                              // %"curves::kinds::eight_on.exit"
	stp	x8, x9, [sp, #-64]!
	stp	x10, x11, [sp, #16]
	stp	x13, x14, [sp, #32]
	stp	x15, x16, [sp, #48]
	cbz	x3, .LBB50_45
// %bb.41:                              // %arm.1.i.i.i
	ldr	d0, [x2]
	cbz	x5, .LBB50_46
.LBB50_42:                              // %arm.1.i.i5.i
	ldr	d1, [x4]
	cbz	x3, .LBB50_47
.LBB50_43:                              // %arm.1.i.i8.i
	add	x8, x2, x3, lsl #3
	ldur	d2, [x8, #-8]
	cbz	x5, .LBB50_48
.LBB50_44:                              // %arm.1.i.i12.i
	add	x8, x4, x5, lsl #3
	ldur	d3, [x8, #-8]
	b	.LBB50_49
.LBB50_45:
	mov	x8, #9221120237041090560        // =0x7ff8000000000000
	fmov	d0, x8
	cbnz	x5, .LBB50_42
.LBB50_46:
	mov	x8, #9221120237041090560        // =0x7ff8000000000000
	fmov	d1, x8
	cbnz	x3, .LBB50_43
.LBB50_47:
	mov	x8, #9221120237041090560        // =0x7ff8000000000000
	fmov	d2, x8
	cbnz	x5, .LBB50_44
.LBB50_48:
	mov	x8, #9221120237041090560        // =0x7ff8000000000000
	fmov	d3, x8
.LBB50_49:                              // %"curves::segments::outside_of.exit"
	movi	d4, #0000000000000000
	mov	x8, xzr
	//ARITH_FENCE
	//ARITH_FENCE
	//ARITH_FENCE
	b	.LBB50_52
.LBB50_50:                              //   in Loop: Header=BB50_52 Depth=1
	fmov	d7, d6
.LBB50_51:                              // %"curves::each::answer_along.exit"
                                        //   in Loop: Header=BB50_52 Depth=1
	str	d7, [x6, x8]
	add	x8, x8, #8
	cmp	x8, #64
	b.eq	.LBB50_64
.LBB50_52:                              // %join.6
                                        // =>This Inner Loop Header: Depth=1
	mov	x9, sp
	ldr	d5, [x6, x8]
	ldr	x9, [x9, x8]
	lsl	x10, x9, #3
	and	w9, w0, #0xff
	cmp	w9, #2
	add	x11, x10, #8
	ldr	d16, [x2, x10]
	ldr	d6, [x4, x10]
	ldr	d17, [x2, x11]
	ldr	d7, [x4, x11]
	b.eq	.LBB50_55
// %bb.53:                              // %join.6
                                        //   in Loop: Header=BB50_52 Depth=1
	fsub	d18, d5, d16
	fsub	d16, d17, d16
	cmp	w9, #1
	fdiv	d16, d18, d16
	b.ne	.LBB50_56
// %bb.54:                              // %arm.2.i.i
                                        //   in Loop: Header=BB50_52 Depth=1
	fmov	d17, #1.00000000
	fmul	d7, d7, d16
	fsub	d17, d17, d16
	fmul	d6, d6, d17
	fadd	d6, d7, d6
	fmov	d7, d5
	//ARITH_FENCE
	fcmp	d2, d7
	cset	w9, hi
	//APP
	//NO_APP
	cbnz	w9, .LBB50_58
	b	.LBB50_60
.LBB50_55:                              // %arm.3.i.i
                                        //   in Loop: Header=BB50_52 Depth=1
	fsub	d7, d7, d6
	fsub	d18, d5, d16
	fsub	d16, d17, d16
	fmul	d7, d7, d18
	fdiv	d7, d7, d16
	b	.LBB50_57
.LBB50_56:                              // %arm.1.i.i
                                        //   in Loop: Header=BB50_52 Depth=1
	fsub	d7, d7, d6
	fmul	d7, d7, d16
.LBB50_57:                              // %"curves::formulas::along.exit.i"
                                        //   in Loop: Header=BB50_52 Depth=1
	fadd	d6, d6, d7
	fmov	d7, d5
	//ARITH_FENCE
	fcmp	d2, d7
	cset	w9, hi
	//APP
	//NO_APP
	cbz	w9, .LBB50_60
.LBB50_58:                              // %select.end
                                        //   in Loop: Header=BB50_52 Depth=1
	fcmp	d7, d0
	cset	w9, hi
	//APP
	//NO_APP
	cbz	w9, .LBB50_61
.LBB50_59:                              // %select.end3
                                        //   in Loop: Header=BB50_52 Depth=1
	cbz	w1, .LBB50_50
	b	.LBB50_62
.LBB50_60:                              // %select.false
                                        //   in Loop: Header=BB50_52 Depth=1
	fmov	d6, d3
	fcmp	d7, d0
	cset	w9, hi
	//APP
	//NO_APP
	cbnz	w9, .LBB50_59
.LBB50_61:                              // %select.false4
                                        //   in Loop: Header=BB50_52 Depth=1
	fmov	d6, d1
	cbz	w1, .LBB50_50
.LBB50_62:                              // %then.1.i3.i
                                        //   in Loop: Header=BB50_52 Depth=1
	fcmp	d7, d4
	movi	d7, #0000000000000000
	and	w10, w0, #0xff
	cset	w9, hi
	//APP
	//NO_APP
	cmp	w9, #0
	ccmp	w10, #1, #0, eq
	b.eq	.LBB50_51
// %bb.63:                              // %select.true.sink
                                        //   in Loop: Header=BB50_52 Depth=1
	fnmul	d7, d6, d5
	b	.LBB50_51
.LBB50_64:                              // %after.1
	add	sp, sp, #64
	ret
.Lfunc_end50:
	.size	"curves::each::answer_eight", .Lfunc_end50-"curves::each::answer_eight"
                                        // -- End function
	.section	.text.senyolanda_actual_days,"ax",@progbits
	.globl	senyolanda_actual_days          // -- Begin function senyolanda_actual_days
	.p2align	2
	.type	senyolanda_actual_days,@function
senyolanda_actual_days:                 // @senyolanda_actual_days
// %bb.0:                               // %start
	cmp	w0, #16, lsl #12                // =65536
	mov	w8, #65536                      // =0x10000
	orr	w10, w2, w1
	csel	w9, w0, w8, lo
	cmp	w10, #256
	orr	w10, w5, w4
	add	w9, w9, w1, lsl #16
	ccmp	w0, w8, #2, lo
	add	w9, w9, w2, lsl #24
	csel	w0, w9, wzr, lo
	cmp	w3, #16, lsl #12                // =65536
	csel	w9, w3, w8, lo
	cmp	w10, #256
	add	w9, w9, w4, lsl #16
	ccmp	w3, w8, #2, lo
	add	w10, w9, w5, lsl #24
	ubfx	w9, w0, #16, #8
	csel	w1, w10, wzr, lo
	cmp	w9, #11
	and	w10, w0, #0xffff
	b.hi	.LBB51_18
// %bb.1:                               // %start
	mov	w8, #1                          // =0x1
	mov	w11, #2640                      // =0xa50
	lsl	w8, w8, w9
	tst	w8, w11
	b.eq	.LBB51_15
// %bb.2:
	mov	w12, #30                        // =0x1e
.LBB51_3:                               // %"dates::calendar::days_in.exit.i.i.i.i.i"
	sub	w8, w10, #1900
	cmp	w8, #299
	mov	w8, #15                         // =0xf
	b.hi	.LBB51_21
// %bb.4:                               // %"dates::calendar::days_in.exit.i.i.i.i.i"
	sub	w11, w9, #1
	cmp	w11, #11
	b.hi	.LBB51_21
// %bb.5:                               // %"dates::calendar::days_in.exit.i.i.i.i.i"
	lsr	w11, w0, #24
	sub	w13, w11, #1
	cmp	w13, w12
	b.hs	.LBB51_21
// %bb.6:                               // %else.2.i.i.i.i
	ubfx	w12, w1, #16, #8
	and	w13, w1, #0xffff
	cmp	w12, #11
	b.hi	.LBB51_25
// %bb.7:                               // %else.2.i.i.i.i
	mov	w8, #1                          // =0x1
	mov	w14, #2640                      // =0xa50
	lsl	w8, w8, w12
	tst	w8, w14
	b.eq	.LBB51_22
// %bb.8:
	mov	w14, #30                        // =0x1e
.LBB51_9:                               // %"dates::calendar::days_in.exit.i9.i.i.i.i"
	sub	w8, w13, #1900
	cmp	w8, #299
	mov	w8, #15                         // =0xf
	b.hi	.LBB51_21
// %bb.10:                              // %"dates::calendar::days_in.exit.i9.i.i.i.i"
	sub	w15, w12, #1
	cmp	w15, #11
	b.hi	.LBB51_21
// %bb.11:                              // %"dates::calendar::days_in.exit.i9.i.i.i.i"
	lsr	w15, w1, #24
	sub	w16, w15, #1
	cmp	w16, w14
	b.hs	.LBB51_21
// %bb.12:                              // %else.5.i.i.i.i
	cmp	w10, w13
	b.ne	.LBB51_19
// %bb.13:                              // %arm.7.i.i.i.i.i.i.i.i
	cmp	w11, w15
	cset	w8, lo
	cmp	w9, w12
	cset	w9, lo
	csel	w8, w8, w9, eq
	tbnz	w8, #0, .LBB51_20
.LBB51_14:
	mov	w8, #15                         // =0xf
	mov	x0, x8
	ret
.LBB51_15:                              // %start
	cmp	w9, #2
	b.ne	.LBB51_18
// %bb.16:                              // %arm.1.i.i.i.i.i.i
	tst	w0, #0x3
	mov	w12, #28                        // =0x1c
	b.ne	.LBB51_3
// %bb.17:                              // %then.1.i.i.i.i.i.i.i
	mov	w8, #23593                      // =0x5c29
	mov	w13, #23592                     // =0x5c28
	movk	w8, #49807, lsl #16
	movk	w13, #655, lsl #16
	mul	w8, w10, w8
	ror	w11, w8, #2
	ror	w8, w8, #4
	cmp	w11, w13
	mov	w11, #55051                     // =0xd70b
	movk	w11, #163, lsl #16
	ccmp	w8, w11, #0, ls
	cset	w8, lo
	tst	w8, #0x1
	cinc	w12, w12, ne
	b	.LBB51_3
.LBB51_18:                              // %default.3.i.i.i.i.i.i
	mov	w12, #31                        // =0x1f
	b	.LBB51_3
.LBB51_19:                              // %"dates::counts::bad_dates.exit.i.i.i"
	b.hs	.LBB51_14
.LBB51_20:                              // %arm.2.i9.i
	stp	x29, x30, [sp, #-32]!           // 16-byte Folded Spill
	str	x19, [sp, #16]                  // 8-byte Spill
	mov	x29, sp
	mov	x19, x6
	bl	"dates::counts::actual_days"
	str	w0, [x19]
	ldr	x19, [sp, #16]                  // 8-byte Reload
	mov	x8, xzr
	ldp	x29, x30, [sp], #32             // 16-byte Folded Reload
.LBB51_21:                              // %"senyolanda::date_counts::senyolanda_actual_days.exit"
	mov	x0, x8
	ret
.LBB51_22:                              // %else.2.i.i.i.i
	cmp	w12, #2
	b.ne	.LBB51_25
// %bb.23:                              // %arm.1.i.i16.i.i.i.i
	tst	w1, #0x3
	mov	w14, #28                        // =0x1c
	b.ne	.LBB51_9
// %bb.24:                              // %then.1.i.i.i19.i.i.i.i
	mov	w8, #23593                      // =0x5c29
	mov	w16, #23592                     // =0x5c28
	movk	w8, #49807, lsl #16
	movk	w16, #655, lsl #16
	mul	w8, w13, w8
	ror	w15, w8, #2
	ror	w8, w8, #4
	cmp	w15, w16
	mov	w15, #55051                     // =0xd70b
	movk	w15, #163, lsl #16
	ccmp	w8, w15, #0, ls
	cset	w8, lo
	tst	w8, #0x1
	cinc	w14, w14, ne
	b	.LBB51_9
.LBB51_25:                              // %default.3.i.i27.i.i.i.i
	mov	w14, #31                        // =0x1f
	b	.LBB51_9
.Lfunc_end51:
	.size	senyolanda_actual_days, .Lfunc_end51-senyolanda_actual_days
                                        // -- End function
	.section	.rodata.cst16,"aM",@progbits,16
	.p2align	4, 0x0                          // -- Begin function senyolanda_bond_cash_flows
.LCPI52_0:
	.xword	0                               // 0x0
	.xword	1                               // 0x1
	.section	.text.senyolanda_bond_cash_flows,"ax",@progbits
	.globl	senyolanda_bond_cash_flows
	.p2align	2
	.type	senyolanda_bond_cash_flows,@function
senyolanda_bond_cash_flows:             // @senyolanda_bond_cash_flows
// %bb.0:                               // %start
	cmp	x1, #0
	mov	w8, #4096                       // =0x1000
	csel	x10, x8, xzr, eq
	cmp	x3, #0
	csel	x8, x8, xzr, eq
	cmp	w0, #1
	csinc	w9, w0, wzr, hi
	ucvtf	d3, w9
	mov	x9, #281474974613504            // =0xffffffe00000
	movk	x9, #16879, lsl #48
	fmov	d4, x9
	//ARITH_FENCE
	fmul	d5, d2, d3
	//ARITH_FENCE
	fmov	d6, d5
	//ARITH_FENCE
	fcmp	d4, d6
	movi	d4, #0000000000000000
	cset	w9, mi
	//APP
	//NO_APP
	//ARITH_FENCE
	cbz	w9, .LBB52_10
// %bb.1:
	mov	w9, #-1                         // =0xffffffff
.LBB52_2:                               // %"spread_analytics::flows::flow_count.exit.i.i"
	fmov	d5, d0
	//ARITH_FENCE
	fcmp	d5, d4
	fsub	d5, d0, d0
	cset	w11, mi
	//APP
	//NO_APP
	cmp	w11, #0
	//ARITH_FENCE
	fccmp	d5, d4, #0, eq
	b.eq	.LBB52_4
// %bb.3:
	mov	w0, #1                          // =0x1
	ret
.LBB52_4:                               // %join.3.i.i.i
	fsub	d2, d2, d2
	mov	w0, #7                          // =0x7
	//ARITH_FENCE
	fcmp	d2, d4
	b.ne	.LBB52_25
// %bb.5:                               // %join.3.i.i.i
	cmp	w9, #1200
	b.hi	.LBB52_25
// %bb.6:                               // %join.6.i.i.i
	mov	w11, w9
	mov	w0, #3                          // =0x3
	cmp	x2, x11
	b.lo	.LBB52_25
// %bb.7:                               // %join.6.i.i.i
	cmp	x4, x11
	b.lo	.LBB52_25
// %bb.8:                               // %join.9.i.i.i
	fsub	d2, d1, d1
	//ARITH_FENCE
	fcmp	d2, d4
	b.eq	.LBB52_14
// %bb.9:
	mov	w0, #9                          // =0x9
	ret
.LBB52_10:                              // %join.3.i.i.i.i
	fcmp	d4, d6
	cset	w9, mi
	//APP
	//NO_APP
	cbz	w9, .LBB52_2
// %bb.11:                              // %then.4.i.i.i.i
	fadd	d5, d5, d5
	fmov	d6, #1.00000000
	//ARITH_FENCE
	fmov	d7, d5
	//ARITH_FENCE
	fcmp	d6, d7
	cset	w9, hi
	//APP
	//NO_APP
	cbz	w9, .LBB52_13
// %bb.12:
	mov	w9, wzr
	b	.LBB52_2
.LBB52_13:                              // %then.1.i.i.i.i.i
	fmov	x9, d5
	mov	x12, #4503599627370496          // =0x10000000000000
	mov	w13, #1075                      // =0x433
	lsr	x11, x9, #52
	bfxil	x12, x9, #0, #52
	lsr	x14, x9, #54
	sub	x13, x13, x11
	sub	x11, x11, #1075
	cmp	x14, #269
	lsr	x12, x12, x13
	lsl	x9, x9, x11
	csel	x9, x12, x9, lo
	add	x9, x9, #1
	lsr	x9, x9, #1
	b	.LBB52_2
.LBB52_14:                              // %arm.2.i.i
	cbz	w9, .LBB52_24
// %bb.15:                              // %join.5.i.i.i.preheader
	fmul	d1, d0, d1
	fmov	d2, #1.00000000
	mov	x12, xzr
	add	x10, x1, x10
	fdiv	d2, d2, d3
	fdiv	d1, d1, d3
.LBB52_16:                              // %join.5.i.i.i
                                        // =>This Inner Loop Header: Depth=1
	mov	x13, x12
	add	x12, x12, #1
	ucvtf	d3, w12
	cmp	x11, x12
	//ARITH_FENCE
	fmul	d3, d2, d3
	str	d3, [x10, x13, lsl #3]
	b.ne	.LBB52_16
// %bb.17:                              // %join.5.preheader.i18.i.i
	fadd	d0, d0, d1
	cmp	w11, #4
	b.hs	.LBB52_19
// %bb.18:
	mov	x10, xzr
	b	.LBB52_22
.LBB52_19:                              // %vector.ph
	dup	v2.2d, v0.d[0]
	dup	v3.2d, x11
	adrp	x10, .LCPI52_0
	dup	v4.2d, v1.d[0]
	add	x12, x8, x3
	ldr	q5, [x10, :lo12:.LCPI52_0]
	and	x10, x11, #0x7fc
	add	x12, x12, #16
	and	x13, x11, #0x7fc
.LBB52_20:                              // %vector.body
                                        // =>This Inner Loop Header: Depth=1
	mov	w14, #1                         // =0x1
	subs	x13, x13, #4
	dup	v6.2d, x14
	mov	w14, #3                         // =0x3
	dup	v7.2d, x14
	mov	w14, #4                         // =0x4
	dup	v16.2d, x14
	add	v6.2d, v5.2d, v6.2d
	add	v7.2d, v5.2d, v7.2d
	add	v5.2d, v5.2d, v16.2d
	cmeq	v6.2d, v6.2d, v3.2d
	cmeq	v7.2d, v7.2d, v3.2d
	bsl	v6.16b, v2.16b, v4.16b
	bsl	v7.16b, v2.16b, v4.16b
	stp	q6, q7, [x12, #-16]
	add	x12, x12, #32
	b.ne	.LBB52_20
// %bb.21:                              // %middle.block
	cmp	x10, x11
	b.eq	.LBB52_24
.LBB52_22:                              // %join.5.i20.i.i.preheader
	add	x8, x8, x10, lsl #3
	sub	x10, x11, x10
	add	x8, x3, x8
.LBB52_23:                              // %join.5.i20.i.i
                                        // =>This Inner Loop Header: Depth=1
	subs	x10, x10, #1
	fcsel	d2, d0, d1, eq
	str	d2, [x8], #8
	cbnz	x10, .LBB52_23
.LBB52_24:                              // %arm.2.i1.i
	mov	x0, xzr
	str	w9, [x5]
.LBB52_25:                              // %"senyolanda::spreads::senyolanda_bond_cash_flows.exit"
	ret
.Lfunc_end52:
	.size	senyolanda_bond_cash_flows, .Lfunc_end52-senyolanda_bond_cash_flows
                                        // -- End function
	.section	.text.senyolanda_bond_convexity,"ax",@progbits
	.globl	senyolanda_bond_convexity       // -- Begin function senyolanda_bond_convexity
	.p2align	2
	.type	senyolanda_bond_convexity,@function
senyolanda_bond_convexity:              // @senyolanda_bond_convexity
// %bb.0:                               // %start
	sub	sp, sp, #80
	mov	w8, #4096                       // =0x1000
	cmp	x0, #0
	stp	x29, x30, [sp, #48]             // 16-byte Folded Spill
	csel	x8, x8, xzr, eq
	cmp	x1, #26
	str	x19, [sp, #64]                  // 8-byte Spill
	add	x29, sp, #48
	stp	xzr, xzr, [sp]
	b.ne	.LBB53_5
// %bb.1:                               // %"records::record::bad_record.exit.i.i.i.i.i"
	add	x8, x0, x8
	ldrb	w9, [x8]
	cmp	w9, #2
	b.ne	.LBB53_5
// %bb.2:                               // %arm.2.i.i
	movi	v1.2d, #0xffffffffffffffff
	ldur	q2, [x8, #1]
	mov	x9, #9218868437227405312        // =0x7ff0000000000000
	dup	v3.2d, x9
	mov	x10, #9221120237041090560       // =0x7ff8000000000000
	ldur	x11, [x8, #17]
	ldrb	w8, [x8, #25]
	and	x12, x11, #0x7fffffffffffffff
	fneg	v1.2d, v1.2d
	cmp	x12, x9
	and	v1.16b, v2.16b, v1.16b
	cmhi	v1.2d, v1.2d, v3.2d
	dup	v3.2d, x10
	bif	v3.16b, v2.16b, v1.16b
	fmov	d1, x11
	fmov	d2, x10
	fcsel	d2, d2, d1, hi
	cmp	w8, #4
	b.hs	.LBB53_6
// %bb.3:                               // %arm.2.i
	mov	x0, sp
	add	x1, sp, #16
	mov	x19, x2
	str	q3, [sp, #16]
	str	d2, [sp, #32]
	strb	w8, [sp, #40]
	stur	wzr, [sp, #41]
	str	wzr, [sp, #44]
	bl	"bond::durations::convexity"
	ldrb	w8, [sp]
	ldr	d0, [sp, #8]
	cmp	w8, #1
	b.ne	.LBB53_9
// %bb.4:                               // %arm.1.i4.i
	fmov	x9, d0
	ldrb	w8, [sp, #4]
	orr	x8, x8, x9, lsl #32
	add	x0, x8, #1
	ldp	x29, x30, [sp, #48]             // 16-byte Folded Reload
	ldr	x19, [sp, #64]                  // 8-byte Reload
	add	sp, sp, #80
	ret
.LBB53_5:                               // %"senyolanda::bonds::bond_in.exit.thread20.i"
	mov	w8, #10                         // =0xa
	strb	wzr, [sp, #19]
	strb	w8, [sp, #16]
	sturh	wzr, [sp, #17]
	stur	xzr, [sp, #20]
	ldr	x8, [sp, #16]
	and	x9, x8, #0xffffffff00000000
	add	x8, x9, w8, uxtb
	add	x0, x8, #1
	ldp	x29, x30, [sp, #48]             // 16-byte Folded Reload
	ldr	x19, [sp, #64]                  // 8-byte Reload
	add	sp, sp, #80
	ret
.LBB53_6:                               // %arm.2.i.i11.i.i
	movi	d1, #0000000000000000
	fsub	v4.2d, v3.2d, v3.2d
                                        // kill: def $d3 killed $d3 killed $q3
	//ARITH_FENCE
	//ARITH_FENCE
	fcmp	d3, d1
	fmov	d3, d4
	cset	w8, mi
	//ARITH_FENCE
	fcmp	d3, d1
	//APP
	//NO_APP
	ccmp	w8, #0, #0, eq
	mov	w8, #6                          // =0x6
	csel	x8, xzr, x8, ne
	b.ne	.LBB53_8
// %bb.7:                               // %arm.2.i.i11.i.i
	mov	d3, v4.d[1]
	fsub	d0, d0, d0
	mov	w9, #8                          // =0x8
	fsub	d2, d2, d2
	mov	w10, #10                        // =0xa
	//ARITH_FENCE
	fcmp	d3, d1
	//ARITH_FENCE
	//ARITH_FENCE
	fccmp	d0, d1, #0, eq
	csel	x9, x10, x9, eq
	fcmp	d2, d1
	csel	x8, x8, x9, ne
.LBB53_8:                               // %"senyolanda::bonds::bond_in.exit.thread.i"
	mov	x9, xzr
	add	x8, x9, w8, uxtb
	add	x0, x8, #1
	ldp	x29, x30, [sp, #48]             // 16-byte Folded Reload
	ldr	x19, [sp, #64]                  // 8-byte Reload
	add	sp, sp, #80
	ret
.LBB53_9:                               // %arm.2.i2.i
	mov	x0, xzr
	str	d0, [x19]
	ldp	x29, x30, [sp, #48]             // 16-byte Folded Reload
	ldr	x19, [sp, #64]                  // 8-byte Reload
	add	sp, sp, #80
	ret
.Lfunc_end53:
	.size	senyolanda_bond_convexity, .Lfunc_end53-senyolanda_bond_convexity
                                        // -- End function
	.section	.text.senyolanda_bond_convexity_at_price,"ax",@progbits
	.globl	senyolanda_bond_convexity_at_price // -- Begin function senyolanda_bond_convexity_at_price
	.p2align	2
	.type	senyolanda_bond_convexity_at_price,@function
senyolanda_bond_convexity_at_price:     // @senyolanda_bond_convexity_at_price
// %bb.0:                               // %start
	sub	sp, sp, #96
	cmp	x0, #0
	mov	w8, #4096                       // =0x1000
	stp	x29, x30, [sp, #64]             // 16-byte Folded Spill
	csel	x8, x8, xzr, eq
	cmp	x1, #26
	str	x19, [sp, #80]                  // 8-byte Spill
	add	x29, sp, #64
	b.ne	.LBB54_5
// %bb.1:                               // %"records::record::bad_record.exit.i.i.i.i.i"
	add	x8, x0, x8
	ldrb	w9, [x8]
	cmp	w9, #2
	b.ne	.LBB54_5
// %bb.2:                               // %arm.2.i.i
	movi	v1.2d, #0xffffffffffffffff
	ldur	q2, [x8, #1]
	mov	x9, #9218868437227405312        // =0x7ff0000000000000
	dup	v3.2d, x9
	mov	x10, #9221120237041090560       // =0x7ff8000000000000
	ldur	x11, [x8, #17]
	ldrb	w8, [x8, #25]
	and	x12, x11, #0x7fffffffffffffff
	fneg	v1.2d, v1.2d
	cmp	x12, x9
	and	v1.16b, v2.16b, v1.16b
	cmhi	v1.2d, v1.2d, v3.2d
	dup	v3.2d, x10
	bif	v3.16b, v2.16b, v1.16b
	fmov	d1, x11
	fmov	d2, x10
	fcsel	d2, d2, d1, hi
	cmp	w8, #4
	b.hs	.LBB54_6
// %bb.3:                               // %arm.2.i
	mov	x0, sp
	add	x1, sp, #16
	mov	x19, x2
	str	q3, [sp, #16]
	str	d2, [sp, #32]
	strb	w8, [sp, #40]
	stur	wzr, [sp, #41]
	str	wzr, [sp, #44]
	stp	xzr, xzr, [x29, #-16]
	stp	xzr, xzr, [sp]
	bl	"bond::yields::yield_to_maturity"
	ldrb	w8, [sp]
	ldr	d0, [sp, #8]
	cbz	w8, .LBB54_9
// %bb.4:                               // %"bond::durations::convexity_at_price.exit.thread.i"
	stur	s0, [x29, #-8]
	ldr	w9, [sp, #4]
	stur	wzr, [x29, #-4]
	ldur	x8, [x29, #-8]
	b	.LBB54_11
.LBB54_5:                               // %"senyolanda::bonds::bond_in.exit.thread25.i"
	mov	w8, #10                         // =0xa
	strb	wzr, [sp, #19]
	strb	w8, [sp, #16]
	sturh	wzr, [sp, #17]
	stur	xzr, [sp, #20]
	ldr	x8, [sp, #16]
	and	x9, x8, #0xffffffff00000000
	add	x8, x9, w8, uxtb
	add	x0, x8, #1
	ldp	x29, x30, [sp, #64]             // 16-byte Folded Reload
	ldr	x19, [sp, #80]                  // 8-byte Reload
	add	sp, sp, #96
	ret
.LBB54_6:                               // %arm.2.i.i11.i.i
	movi	d1, #0000000000000000
	fsub	v4.2d, v3.2d, v3.2d
                                        // kill: def $d3 killed $d3 killed $q3
	//ARITH_FENCE
	//ARITH_FENCE
	fcmp	d3, d1
	fmov	d3, d4
	cset	w8, mi
	//ARITH_FENCE
	fcmp	d3, d1
	//APP
	//NO_APP
	ccmp	w8, #0, #0, eq
	mov	w8, #6                          // =0x6
	csel	x8, xzr, x8, ne
	b.ne	.LBB54_8
// %bb.7:                               // %arm.2.i.i11.i.i
	mov	d3, v4.d[1]
	fsub	d0, d0, d0
	mov	w9, #8                          // =0x8
	fsub	d2, d2, d2
	mov	w10, #10                        // =0xa
	//ARITH_FENCE
	fcmp	d3, d1
	//ARITH_FENCE
	//ARITH_FENCE
	fccmp	d0, d1, #0, eq
	csel	x9, x10, x9, eq
	fcmp	d2, d1
	csel	x8, x8, x9, ne
.LBB54_8:                               // %"senyolanda::bonds::bond_in.exit.thread.i"
	mov	x9, xzr
	add	x8, x9, w8, uxtb
	add	x0, x8, #1
	ldp	x29, x30, [sp, #64]             // 16-byte Folded Reload
	ldr	x19, [sp, #80]                  // 8-byte Reload
	add	sp, sp, #96
	ret
.LBB54_9:                               // %"bond::durations::convexity_at_price.exit.i"
	sub	x0, x29, #16
	add	x1, sp, #16
	bl	"bond::durations::convexity"
	ldurb	w9, [x29, #-16]
	ldur	x8, [x29, #-8]
	cmp	w9, #1
	b.ne	.LBB54_12
// %bb.10:
	ldurb	w9, [x29, #-12]
.LBB54_11:                              // %arm.1.i6.i
	and	x9, x9, #0xff
	orr	x8, x9, x8, lsl #32
	add	x0, x8, #1
	ldp	x29, x30, [sp, #64]             // 16-byte Folded Reload
	ldr	x19, [sp, #80]                  // 8-byte Reload
	add	sp, sp, #96
	ret
.LBB54_12:                              // %arm.2.i4.i
	mov	x0, xzr
	str	x8, [x19]
	ldp	x29, x30, [sp, #64]             // 16-byte Folded Reload
	ldr	x19, [sp, #80]                  // 8-byte Reload
	add	sp, sp, #96
	ret
.Lfunc_end54:
	.size	senyolanda_bond_convexity_at_price, .Lfunc_end54-senyolanda_bond_convexity_at_price
                                        // -- End function
	.section	.text.senyolanda_bond_current_yield,"ax",@progbits
	.globl	senyolanda_bond_current_yield   // -- Begin function senyolanda_bond_current_yield
	.p2align	2
	.type	senyolanda_bond_current_yield,@function
senyolanda_bond_current_yield:          // @senyolanda_bond_current_yield
// %bb.0:                               // %start
	cmp	x0, #0
	mov	w8, #4096                       // =0x1000
	csel	x8, x8, xzr, eq
	cmp	x1, #26
	b.ne	.LBB55_6
// %bb.1:                               // %"records::record::bad_record.exit.i.i.i.i.i"
	add	x8, x0, x8
	ldrb	w9, [x8]
	cmp	w9, #2
	b.ne	.LBB55_6
// %bb.2:                               // %arm.2.i.i
	ldur	x9, [x8, #1]
	mov	x11, #9221120237041090560       // =0x7ff8000000000000
	ldur	x12, [x8, #9]
	fmov	d2, x11
	mov	x10, #9218868437227405312       // =0x7ff0000000000000
	fmov	d1, x9
	and	x11, x9, #0x7fffffffffffffff
	fmov	d3, x12
	ldur	x9, [x8, #17]
	cmp	x11, x10
	and	x11, x12, #0x7fffffffffffffff
	ldrb	w8, [x8, #25]
	fcsel	d4, d2, d1, hi
	cmp	x11, x10
	and	x11, x9, #0x7fffffffffffffff
	fcsel	d1, d2, d3, hi
	fmov	d3, x9
	cmp	x11, x10
	fcsel	d2, d2, d3, hi
	cmp	w8, #4
	b.hs	.LBB55_7
// %bb.3:                               // %arm.2.i
	cmp	w8, #1
	b.gt	.LBB55_8
// %bb.4:                               // %arm.2.i
	cbnz	w8, .LBB55_10
// %bb.5:                               // %"bond::worked::period_coupon.exit.thread.i.i.i"
	fmov	d3, #1.00000000
	b	.LBB55_12
.LBB55_6:                               // %"senyolanda::bonds::bond_in.exit.thread34.i"
	sub	sp, sp, #16
	mov	w8, #10                         // =0xa
	strb	wzr, [sp, #3]
	strb	w8, [sp]
	sturh	wzr, [sp, #1]
	stur	xzr, [sp, #4]
	ldr	x9, [sp], #16
	and	x8, x9, #0xffffffff00000000
	add	x8, x8, w9, uxtb
	add	x0, x8, #1
	ret
.LBB55_7:                               // %arm.2.i.i11.i.i
	movi	d3, #0000000000000000
	fsub	d5, d4, d4
	//ARITH_FENCE
	mov	w11, #8                         // =0x8
	fsub	d1, d1, d1
	fsub	d0, d0, d0
	mov	w12, #10                        // =0xa
	mov	x8, xzr
	//ARITH_FENCE
	fcmp	d4, d3
	//ARITH_FENCE
	//ARITH_FENCE
	//ARITH_FENCE
	cset	w9, mi
	fcmp	d5, d3
	//APP
	//NO_APP
	ccmp	w9, #0, #0, eq
	mov	w9, #6                          // =0x6
	cset	w10, ne
	csel	x9, xzr, x9, ne
	fcmp	d1, d3
	fsub	d1, d2, d2
	fccmp	d0, d3, #0, eq
	//ARITH_FENCE
	csel	x11, x12, x11, eq
	fcmp	d1, d3
	csel	x11, x9, x11, ne
	tst	w10, #0x1
	csel	x9, x9, x11, ne
	add	x8, x8, w9, uxtb
	add	x0, x8, #1
	ret
.LBB55_8:                               // %arm.2.i
	cmp	w8, #2
	b.ne	.LBB55_11
// %bb.9:                               // %arm.3.i.i.i6.i.i.i
	fmov	d3, #4.00000000
	b	.LBB55_12
.LBB55_10:                              // %arm.2.i.i.i7.i.i.i
	fmov	d3, #2.00000000
	b	.LBB55_12
.LBB55_11:                              // %arm.4.i.i.i3.i.i.i
	fmov	d3, #12.00000000
.LBB55_12:                              // %"bond::worked::coupons_a_year.exit.i.i.i.i"
	//ARITH_FENCE
	fmul	d5, d2, d3
	mov	x8, #4841369599423283200        // =0x4330000000000000
	fmov	d3, x8
	fadd	d6, d5, d3
	movi	d3, #0000000000000000
	fmov	d7, d6
	//ARITH_FENCE
	//ARITH_FENCE
	fcmp	d3, d7
	cset	w8, mi
	//APP
	//NO_APP
	cbz	w8, .LBB55_18
// %bb.13:                              // %then.1.i.i.i.i.i
	fmov	x8, d6
	fmov	d6, d5
	ucvtf	d7, w8
	//ARITH_FENCE
	//ARITH_FENCE
	fcmp	d7, d6
	b.ne	.LBB55_19
.LBB55_14:                              // %"bond::worked::Worked::of.exit.i.i"
	fmov	d5, d4
	//ARITH_FENCE
	fcmp	d5, d3
	fmul	d5, d4, d1
	cset	w10, mi
	//APP
	//NO_APP
	cmp	w10, #0
	cset	w9, ne
	cmp	w8, #1200
	cset	w8, hi
	b.hi	.LBB55_21
// %bb.15:                              // %"bond::worked::Worked::of.exit.i.i"
	cbnz	w10, .LBB55_21
// %bb.16:                              // %"bond::worked::Worked::all_right.exit.i.i.i"
	fadd	d6, d4, d1
	fadd	d6, d2, d6
	fadd	d6, d0, d6
	fsub	d6, d6, d6
	//ARITH_FENCE
	fcmp	d6, d3
	b.eq	.LBB55_26
// %bb.17:
	mov	w9, wzr
	mov	w8, wzr
	b	.LBB55_21
.LBB55_18:                              // %start.join.3_crit_edge.i.i.i.i.i
	fmov	d6, d5
	//ARITH_FENCE
.LBB55_19:                              // %join.3.i.i.i.i.i
	mov	x8, #281474974613504            // =0xffffffe00000
	movk	x8, #16879, lsl #48
	fmov	d7, x8
	//ARITH_FENCE
	fcmp	d7, d6
	cset	w8, mi
	//APP
	//NO_APP
	cbz	w8, .LBB55_28
// %bb.20:                              // %"bond::worked::Worked::of.exit.thread.i.i"
	fmov	d5, d4
	//ARITH_FENCE
	fcmp	d5, d3
	fmul	d5, d4, d1
	cset	w8, mi
	//APP
	//NO_APP
	cmp	w8, #0
	cset	w9, ne
	mov	w8, #1                          // =0x1
.LBB55_21:                              // %join.3.i.i.i
	fsub	d4, d4, d4
	//ARITH_FENCE
	fcmp	d4, d3
	csinc	w10, w9, wzr, eq
	mov	w9, #6                          // =0x6
	cmp	w10, #0
	csel	x9, xzr, x9, ne
	tbnz	w10, #0, .LBB55_27
// %bb.22:                              // %join.3.i.i.i
	fsub	d2, d2, d2
	//ARITH_FENCE
	fcmp	d2, d3
	b.ne	.LBB55_27
// %bb.23:                              // %join.3.i.i.i
	tbnz	w8, #0, .LBB55_27
// %bb.24:                              // %"bond::worked::Worked::judge_bond.exit.i.i"
	fsub	d2, d0, d0
	mov	w9, #8                          // =0x8
	//ARITH_FENCE
	fcmp	d2, d3
	b.ne	.LBB55_27
// %bb.25:                              // %"bond::worked::Worked::judge_bond.exit.i.i"
	fsub	d1, d1, d1
	//ARITH_FENCE
	fcmp	d1, d3
	b.ne	.LBB55_27
.LBB55_26:                              // %arm.1.i4.i
	fdiv	d1, d5, d0
	fmov	d4, d0
	movi	d2, #0000000000000000
	mov	x0, xzr
	//ARITH_FENCE
	fcmp	d3, d4
	fsub	d3, d2, d0
	cset	w8, mi
	//APP
	//NO_APP
	cmp	w8, #0
	mov	x8, #4372995238176751616        // =0x3cb0000000000000
	fcsel	d0, d0, d3, ne
	fmov	d3, x8
	//ARITH_FENCE
	//ARITH_FENCE
	fcmp	d0, d3
	cset	w8, mi
	//APP
	//NO_APP
	cmp	w8, #0
	fcsel	d0, d2, d1, ne
	str	d0, [x2]
	ret
.LBB55_27:                              // %arm.1.i9.i
	orr	x0, x9, #0x1
	ret
.LBB55_28:                              // %join.3.i.i.i.i.i.i
	fcmp	d3, d6
	cset	w8, mi
	//APP
	//NO_APP
	cbz	w8, .LBB55_14
// %bb.29:                              // %then.4.i.i.i.i.i.i
	fadd	d5, d5, d5
	fmov	d6, #1.00000000
	//ARITH_FENCE
	fmov	d7, d5
	//ARITH_FENCE
	fcmp	d6, d7
	cset	w8, hi
	//APP
	//NO_APP
	cbz	w8, .LBB55_31
// %bb.30:
	mov	w8, wzr
	b	.LBB55_14
.LBB55_31:                              // %then.1.i.i.i.i.i.i.i
	fmov	x8, d5
	mov	x10, #4503599627370496          // =0x10000000000000
	mov	w11, #1075                      // =0x433
	lsr	x9, x8, #52
	bfxil	x10, x8, #0, #52
	lsr	x12, x8, #54
	sub	x11, x11, x9
	sub	x9, x9, #1075
	cmp	x12, #269
	lsr	x10, x10, x11
	lsl	x8, x8, x9
	csel	x8, x10, x8, lo
	add	x8, x8, #1
	lsr	x8, x8, #1
                                        // kill: def $w8 killed $w8 killed $x8 def $x8
	b	.LBB55_14
.Lfunc_end55:
	.size	senyolanda_bond_current_yield, .Lfunc_end55-senyolanda_bond_current_yield
                                        // -- End function
	.section	.rodata.cst8,"aM",@progbits,8
	.p2align	3, 0x0                          // -- Begin function senyolanda_bond_dv01
.LCPI56_0:
	.xword	0xbf1a36e2eb1c432d              // double -1.0E-4
.LCPI56_1:
	.xword	0x3d719799812dea11              // double 9.9999999999999998E-13
	.section	.text.senyolanda_bond_dv01,"ax",@progbits
	.globl	senyolanda_bond_dv01
	.p2align	2
	.type	senyolanda_bond_dv01,@function
senyolanda_bond_dv01:                   // @senyolanda_bond_dv01
// %bb.0:                               // %start
	cmp	x0, #0
	mov	w8, #4096                       // =0x1000
	csel	x8, x8, xzr, eq
	cmp	x1, #26
	b.ne	.LBB56_9
// %bb.1:                               // %"records::record::bad_record.exit.i.i.i.i.i"
	add	x8, x0, x8
	ldrb	w9, [x8]
	cmp	w9, #2
	b.ne	.LBB56_9
// %bb.2:                               // %arm.2.i.i
	ldur	x9, [x8, #1]
	mov	x11, #9221120237041090560       // =0x7ff8000000000000
	ldur	x12, [x8, #9]
	fmov	d2, x11
	mov	x10, #9218868437227405312       // =0x7ff0000000000000
	fmov	d1, x9
	and	x11, x9, #0x7fffffffffffffff
	fmov	d3, x12
	ldur	x9, [x8, #17]
	cmp	x11, x10
	and	x11, x12, #0x7fffffffffffffff
	ldrb	w8, [x8, #25]
	fcsel	d1, d2, d1, hi
	cmp	x11, x10
	and	x11, x9, #0x7fffffffffffffff
	fcsel	d4, d2, d3, hi
	fmov	d3, x9
	cmp	x11, x10
	fcsel	d6, d2, d3, hi
	cmp	w8, #4
	b.hs	.LBB56_10
// %bb.3:                               // %arm.2.i
	fmov	d2, #4.00000000
	fmov	d3, #12.00000000
	cmp	w8, #2
	fmov	d5, #1.00000000
	fmov	d7, #2.00000000
	//ARITH_FENCE
	//ARITH_FENCE
	fcsel	d2, d2, d3, eq
	cmp	w8, #0
	//ARITH_FENCE
	//ARITH_FENCE
	fcsel	d3, d5, d7, eq
	cmp	w8, #1
	mov	x8, #4841369599423283200        // =0x4330000000000000
	fcsel	d3, d2, d3, gt
	fmov	d2, x8
	fmul	d5, d6, d3
	fadd	d7, d5, d2
	movi	d2, #0000000000000000
	fmov	d16, d7
	//ARITH_FENCE
	//ARITH_FENCE
	fcmp	d2, d16
	cset	w8, mi
	//APP
	//NO_APP
	cbz	w8, .LBB56_11
// %bb.4:                               // %then.1.i.i.i.i.i
	fmov	x8, d7
	fmov	d7, d5
	ucvtf	d16, w8
	//ARITH_FENCE
	//ARITH_FENCE
	fcmp	d16, d7
	b.ne	.LBB56_12
.LBB56_5:                               // %"bond::worked::Worked::of.exit.i.i"
	fmul	d5, d1, d4
	fmov	d7, d1
	fdiv	d5, d5, d3
	//ARITH_FENCE
	fcmp	d7, d2
	cset	w11, mi
	//APP
	//NO_APP
	cmp	w11, #0
	cset	w10, ne
	cmp	w8, #1200
	cset	w9, hi
	b.hi	.LBB56_14
// %bb.6:                               // %"bond::worked::Worked::of.exit.i.i"
	cbnz	w11, .LBB56_14
// %bb.7:                               // %"bond::worked::Worked::all_right.exit.i.i.i"
	fadd	d7, d1, d4
	fadd	d7, d6, d7
	fadd	d7, d0, d7
	fsub	d7, d7, d7
	//ARITH_FENCE
	fcmp	d7, d2
	b.eq	.LBB56_19
// %bb.8:
	mov	w10, wzr
	mov	w9, wzr
	b	.LBB56_14
.LBB56_9:                               // %"senyolanda::bonds::bond_in.exit.thread30.i"
	sub	sp, sp, #16
	mov	w8, #10                         // =0xa
	strb	wzr, [sp, #3]
	strb	w8, [sp]
	sturh	wzr, [sp, #1]
	stur	xzr, [sp, #4]
	ldr	x9, [sp], #16
	and	x8, x9, #0xffffffff00000000
	add	x8, x8, w9, uxtb
	add	x0, x8, #1
	ret
.LBB56_10:                              // %arm.2.i.i11.i.i
	movi	d2, #0000000000000000
	fsub	d3, d1, d1
	//ARITH_FENCE
	mov	w11, #8                         // =0x8
	fsub	d0, d0, d0
	mov	w12, #10                        // =0xa
	mov	x8, xzr
	//ARITH_FENCE
	fcmp	d1, d2
	//ARITH_FENCE
	fsub	d1, d4, d4
	//ARITH_FENCE
	cset	w9, mi
	fcmp	d3, d2
	//APP
	//NO_APP
	//ARITH_FENCE
	ccmp	w9, #0, #0, eq
	mov	w9, #6                          // =0x6
	cset	w10, ne
	csel	x9, xzr, x9, ne
	fcmp	d1, d2
	fsub	d1, d6, d6
	fccmp	d0, d2, #0, eq
	//ARITH_FENCE
	csel	x11, x12, x11, eq
	fcmp	d1, d2
	csel	x11, x9, x11, ne
	tst	w10, #0x1
	csel	x9, x9, x11, ne
	add	x8, x8, w9, uxtb
	add	x0, x8, #1
	ret
.LBB56_11:                              // %start.join.3_crit_edge.i.i.i.i.i
	fmov	d7, d5
	//ARITH_FENCE
.LBB56_12:                              // %join.3.i.i.i.i.i
	mov	x8, #281474974613504            // =0xffffffe00000
	movk	x8, #16879, lsl #48
	fmov	d16, x8
	//ARITH_FENCE
	fcmp	d16, d7
	cset	w8, mi
	//APP
	//NO_APP
	cbz	w8, .LBB56_22
// %bb.13:                              // %"bond::worked::Worked::of.exit.thread.i.i"
	fmov	d7, d1
	fmul	d5, d1, d4
	mov	w9, #1                          // =0x1
	//ARITH_FENCE
	fcmp	d7, d2
	fdiv	d5, d5, d3
	cset	w8, mi
	//APP
	//NO_APP
	cmp	w8, #0
	cset	w10, ne
	mov	w8, #-1                         // =0xffffffff
.LBB56_14:                              // %join.3.i.i.i
	fsub	d7, d1, d1
	//ARITH_FENCE
	fcmp	d7, d2
	csinc	w11, w10, wzr, eq
	mov	w10, #6                         // =0x6
	cmp	w11, #0
	csel	x10, xzr, x10, ne
	tbnz	w11, #0, .LBB56_21
// %bb.15:                              // %join.3.i.i.i
	fsub	d6, d6, d6
	//ARITH_FENCE
	fcmp	d6, d2
	b.ne	.LBB56_21
// %bb.16:                              // %join.3.i.i.i
	tbnz	w9, #0, .LBB56_21
// %bb.17:                              // %"bond::worked::Worked::judge_bond.exit.i.i"
	fsub	d6, d0, d0
	mov	w10, #8                         // =0x8
	//ARITH_FENCE
	fcmp	d6, d2
	b.ne	.LBB56_21
// %bb.18:                              // %"bond::worked::Worked::judge_bond.exit.i.i"
	fsub	d4, d4, d4
	//ARITH_FENCE
	fcmp	d4, d2
	b.ne	.LBB56_21
.LBB56_19:                              // %arm.1.i3.i
	adrp	x9, .LCPI56_0
	movi	d6, #0000000000000000
	ldr	d4, [x9, :lo12:.LCPI56_0]
	fadd	d4, d0, d4
	fdiv	d4, d4, d3
	fmov	d7, d4
	fsub	d6, d6, d4
	//ARITH_FENCE
	fcmp	d2, d7
	cset	w9, mi
	//APP
	//NO_APP
	cmp	w9, #0
	fcsel	d6, d4, d6, ne
	adrp	x9, .LCPI56_1
	ldr	d7, [x9, :lo12:.LCPI56_1]
	//ARITH_FENCE
	//ARITH_FENCE
	fcmp	d6, d7
	ucvtf	d6, w8
	cset	w9, mi
	//APP
	//NO_APP
	cbz	w9, .LBB56_25
// %bb.20:                              // %then.1.i17.i.i
	fmov	d4, d6
	//ARITH_FENCE
	fmul	d4, d5, d4
	fadd	d4, d1, d4
	b	.LBB56_29
.LBB56_21:                              // %arm.1.i8.i
	orr	x0, x10, #0x1
	ret
.LBB56_22:                              // %join.3.i.i.i.i.i.i
	fcmp	d2, d7
	cset	w8, mi
	//APP
	//NO_APP
	cbz	w8, .LBB56_5
// %bb.23:                              // %then.4.i.i.i.i.i.i
	fadd	d5, d5, d5
	fmov	d7, #1.00000000
	//ARITH_FENCE
	fmov	d16, d5
	//ARITH_FENCE
	fcmp	d7, d16
	cset	w8, hi
	//APP
	//NO_APP
	cbz	w8, .LBB56_35
// %bb.24:
	mov	w8, wzr
	b	.LBB56_5
.LBB56_25:                              // %join.3.i12.i.i
	fmov	d16, #1.00000000
	fmov	d17, #1.00000000
	cbz	w8, .LBB56_28
// %bb.26:                              // %join.5.i.i.preheader.i.i.i
	fmov	d18, #1.00000000
	mov	w9, w8
	fadd	d19, d4, d18
.LBB56_27:                              // %join.5.i.i.i.i.i
                                        // =>This Inner Loop Header: Depth=1
	tst	w9, #0x1
	lsr	w9, w9, #1
	fcsel	d20, d18, d19, eq
	fmul	d19, d19, d19
	fmul	d17, d17, d20
	cbnz	w9, .LBB56_27
.LBB56_28:                              // %"elementary::whole_power::negative_power.exit.i.i.i"
	fdiv	d17, d16, d17
	fsub	d16, d16, d17
	fmul	d16, d5, d16
	fdiv	d4, d16, d4
	fmul	d16, d1, d17
	fadd	d4, d16, d4
.LBB56_29:                              // %"bond::worked::Worked::price_at.exit.i.i"
	fdiv	d0, d0, d3
	movi	d3, #0000000000000000
	fmov	d16, d0
	//ARITH_FENCE
	fcmp	d2, d16
	fsub	d2, d3, d0
	cset	w9, mi
	//APP
	//NO_APP
	cmp	w9, #0
	fcsel	d2, d0, d2, ne
	//ARITH_FENCE
	fcmp	d2, d7
	cset	w9, mi
	//APP
	//NO_APP
	cbz	w9, .LBB56_31
// %bb.30:                              // %then.1.i58.i.i
	//ARITH_FENCE
	fmul	d0, d5, d6
	fadd	d0, d1, d0
	mov	x0, xzr
	fsub	d0, d4, d0
	str	d0, [x2]
	ret
.LBB56_31:                              // %join.3.i34.i.i
	fmov	d2, #1.00000000
	fmov	d3, #1.00000000
	cbz	w8, .LBB56_34
// %bb.32:                              // %join.5.i.i.preheader.i36.i.i
	fmov	d6, #1.00000000
	fadd	d7, d0, d6
.LBB56_33:                              // %join.5.i.i.i38.i.i
                                        // =>This Inner Loop Header: Depth=1
	tst	w8, #0x1
	lsr	w8, w8, #1
	fcsel	d16, d6, d7, eq
	fmul	d7, d7, d7
	fmul	d3, d3, d16
	cbnz	w8, .LBB56_33
.LBB56_34:                              // %"elementary::whole_power::negative_power.exit.i49.i.i"
	fdiv	d3, d2, d3
	fsub	d2, d2, d3
	fmul	d1, d1, d3
	fmul	d2, d5, d2
	fdiv	d0, d2, d0
	fadd	d0, d1, d0
	mov	x0, xzr
	fsub	d0, d4, d0
	str	d0, [x2]
	ret
.LBB56_35:                              // %then.1.i.i.i.i.i.i.i
	fmov	x8, d5
	mov	x10, #4503599627370496          // =0x10000000000000
	mov	w11, #1075                      // =0x433
	lsr	x9, x8, #52
	bfxil	x10, x8, #0, #52
	lsr	x12, x8, #54
	sub	x11, x11, x9
	sub	x9, x9, #1075
	cmp	x12, #269
	lsr	x10, x10, x11
	lsl	x8, x8, x9
	csel	x8, x10, x8, lo
	add	x8, x8, #1
	lsr	x8, x8, #1
                                        // kill: def $w8 killed $w8 killed $x8 def $x8
	b	.LBB56_5
.Lfunc_end56:
	.size	senyolanda_bond_dv01, .Lfunc_end56-senyolanda_bond_dv01
                                        // -- End function
	.section	.text.senyolanda_bond_macaulay_duration,"ax",@progbits
	.globl	senyolanda_bond_macaulay_duration // -- Begin function senyolanda_bond_macaulay_duration
	.p2align	2
	.type	senyolanda_bond_macaulay_duration,@function
senyolanda_bond_macaulay_duration:      // @senyolanda_bond_macaulay_duration
// %bb.0:                               // %start
	sub	sp, sp, #80
	mov	w8, #4096                       // =0x1000
	cmp	x0, #0
	stp	x29, x30, [sp, #48]             // 16-byte Folded Spill
	csel	x8, x8, xzr, eq
	cmp	x1, #26
	str	x19, [sp, #64]                  // 8-byte Spill
	add	x29, sp, #48
	stp	xzr, xzr, [sp]
	b.ne	.LBB57_5
// %bb.1:                               // %"records::record::bad_record.exit.i.i.i.i.i"
	add	x8, x0, x8
	ldrb	w9, [x8]
	cmp	w9, #2
	b.ne	.LBB57_5
// %bb.2:                               // %arm.2.i.i
	movi	v1.2d, #0xffffffffffffffff
	ldur	q2, [x8, #1]
	mov	x9, #9218868437227405312        // =0x7ff0000000000000
	dup	v3.2d, x9
	mov	x10, #9221120237041090560       // =0x7ff8000000000000
	ldur	x11, [x8, #17]
	ldrb	w8, [x8, #25]
	and	x12, x11, #0x7fffffffffffffff
	fneg	v1.2d, v1.2d
	cmp	x12, x9
	and	v1.16b, v2.16b, v1.16b
	cmhi	v1.2d, v1.2d, v3.2d
	dup	v3.2d, x10
	bif	v3.16b, v2.16b, v1.16b
	fmov	d1, x11
	fmov	d2, x10
	fcsel	d2, d2, d1, hi
	cmp	w8, #4
	b.hs	.LBB57_6
// %bb.3:                               // %arm.2.i
	mov	x0, sp
	add	x1, sp, #16
	mov	x19, x2
	str	q3, [sp, #16]
	str	d2, [sp, #32]
	strb	w8, [sp, #40]
	stur	wzr, [sp, #41]
	str	wzr, [sp, #44]
	bl	"bond::durations::macaulay_duration"
	ldrb	w8, [sp]
	ldr	d0, [sp, #8]
	cmp	w8, #1
	b.ne	.LBB57_9
// %bb.4:                               // %arm.1.i4.i
	fmov	x9, d0
	ldrb	w8, [sp, #4]
	orr	x8, x8, x9, lsl #32
	add	x0, x8, #1
	ldp	x29, x30, [sp, #48]             // 16-byte Folded Reload
	ldr	x19, [sp, #64]                  // 8-byte Reload
	add	sp, sp, #80
	ret
.LBB57_5:                               // %"senyolanda::bonds::bond_in.exit.thread20.i"
	mov	w8, #10                         // =0xa
	strb	wzr, [sp, #19]
	strb	w8, [sp, #16]
	sturh	wzr, [sp, #17]
	stur	xzr, [sp, #20]
	ldr	x8, [sp, #16]
	and	x9, x8, #0xffffffff00000000
	add	x8, x9, w8, uxtb
	add	x0, x8, #1
	ldp	x29, x30, [sp, #48]             // 16-byte Folded Reload
	ldr	x19, [sp, #64]                  // 8-byte Reload
	add	sp, sp, #80
	ret
.LBB57_6:                               // %arm.2.i.i11.i.i
	movi	d1, #0000000000000000
	fsub	v4.2d, v3.2d, v3.2d
                                        // kill: def $d3 killed $d3 killed $q3
	//ARITH_FENCE
	//ARITH_FENCE
	fcmp	d3, d1
	fmov	d3, d4
	cset	w8, mi
	//ARITH_FENCE
	fcmp	d3, d1
	//APP
	//NO_APP
	ccmp	w8, #0, #0, eq
	mov	w8, #6                          // =0x6
	csel	x8, xzr, x8, ne
	b.ne	.LBB57_8
// %bb.7:                               // %arm.2.i.i11.i.i
	mov	d3, v4.d[1]
	fsub	d0, d0, d0
	mov	w9, #8                          // =0x8
	fsub	d2, d2, d2
	mov	w10, #10                        // =0xa
	//ARITH_FENCE
	fcmp	d3, d1
	//ARITH_FENCE
	//ARITH_FENCE
	fccmp	d0, d1, #0, eq
	csel	x9, x10, x9, eq
	fcmp	d2, d1
	csel	x8, x8, x9, ne
.LBB57_8:                               // %"senyolanda::bonds::bond_in.exit.thread.i"
	mov	x9, xzr
	add	x8, x9, w8, uxtb
	add	x0, x8, #1
	ldp	x29, x30, [sp, #48]             // 16-byte Folded Reload
	ldr	x19, [sp, #64]                  // 8-byte Reload
	add	sp, sp, #80
	ret
.LBB57_9:                               // %arm.2.i2.i
	mov	x0, xzr
	str	d0, [x19]
	ldp	x29, x30, [sp, #48]             // 16-byte Folded Reload
	ldr	x19, [sp, #64]                  // 8-byte Reload
	add	sp, sp, #80
	ret
.Lfunc_end57:
	.size	senyolanda_bond_macaulay_duration, .Lfunc_end57-senyolanda_bond_macaulay_duration
                                        // -- End function
	.section	.text.senyolanda_bond_macaulay_duration_at_price,"ax",@progbits
	.globl	senyolanda_bond_macaulay_duration_at_price // -- Begin function senyolanda_bond_macaulay_duration_at_price
	.p2align	2
	.type	senyolanda_bond_macaulay_duration_at_price,@function
senyolanda_bond_macaulay_duration_at_price: // @senyolanda_bond_macaulay_duration_at_price
// %bb.0:                               // %start
	sub	sp, sp, #96
	cmp	x0, #0
	mov	w8, #4096                       // =0x1000
	stp	x29, x30, [sp, #64]             // 16-byte Folded Spill
	csel	x8, x8, xzr, eq
	cmp	x1, #26
	str	x19, [sp, #80]                  // 8-byte Spill
	add	x29, sp, #64
	b.ne	.LBB58_5
// %bb.1:                               // %"records::record::bad_record.exit.i.i.i.i.i"
	add	x8, x0, x8
	ldrb	w9, [x8]
	cmp	w9, #2
	b.ne	.LBB58_5
// %bb.2:                               // %arm.2.i.i
	movi	v1.2d, #0xffffffffffffffff
	ldur	q2, [x8, #1]
	mov	x9, #9218868437227405312        // =0x7ff0000000000000
	dup	v3.2d, x9
	mov	x10, #9221120237041090560       // =0x7ff8000000000000
	ldur	x11, [x8, #17]
	ldrb	w8, [x8, #25]
	and	x12, x11, #0x7fffffffffffffff
	fneg	v1.2d, v1.2d
	cmp	x12, x9
	and	v1.16b, v2.16b, v1.16b
	cmhi	v1.2d, v1.2d, v3.2d
	dup	v3.2d, x10
	bif	v3.16b, v2.16b, v1.16b
	fmov	d1, x11
	fmov	d2, x10
	fcsel	d2, d2, d1, hi
	cmp	w8, #4
	b.hs	.LBB58_6
// %bb.3:                               // %arm.2.i
	mov	x0, sp
	add	x1, sp, #16
	mov	x19, x2
	str	q3, [sp, #16]
	str	d2, [sp, #32]
	strb	w8, [sp, #40]
	stur	wzr, [sp, #41]
	str	wzr, [sp, #44]
	stp	xzr, xzr, [x29, #-16]
	stp	xzr, xzr, [sp]
	bl	"bond::yields::yield_to_maturity"
	ldrb	w8, [sp]
	ldr	d0, [sp, #8]
	cbz	w8, .LBB58_9
// %bb.4:                               // %"bond::durations::macaulay_duration_at_price.exit.thread.i"
	stur	s0, [x29, #-8]
	ldr	w9, [sp, #4]
	stur	wzr, [x29, #-4]
	ldur	x8, [x29, #-8]
	b	.LBB58_11
.LBB58_5:                               // %"senyolanda::bonds::bond_in.exit.thread25.i"
	mov	w8, #10                         // =0xa
	strb	wzr, [sp, #19]
	strb	w8, [sp, #16]
	sturh	wzr, [sp, #17]
	stur	xzr, [sp, #20]
	ldr	x8, [sp, #16]
	and	x9, x8, #0xffffffff00000000
	add	x8, x9, w8, uxtb
	add	x0, x8, #1
	ldp	x29, x30, [sp, #64]             // 16-byte Folded Reload
	ldr	x19, [sp, #80]                  // 8-byte Reload
	add	sp, sp, #96
	ret
.LBB58_6:                               // %arm.2.i.i11.i.i
	movi	d1, #0000000000000000
	fsub	v4.2d, v3.2d, v3.2d
                                        // kill: def $d3 killed $d3 killed $q3
	//ARITH_FENCE
	//ARITH_FENCE
	fcmp	d3, d1
	fmov	d3, d4
	cset	w8, mi
	//ARITH_FENCE
	fcmp	d3, d1
	//APP
	//NO_APP
	ccmp	w8, #0, #0, eq
	mov	w8, #6                          // =0x6
	csel	x8, xzr, x8, ne
	b.ne	.LBB58_8
// %bb.7:                               // %arm.2.i.i11.i.i
	mov	d3, v4.d[1]
	fsub	d0, d0, d0
	mov	w9, #8                          // =0x8
	fsub	d2, d2, d2
	mov	w10, #10                        // =0xa
	//ARITH_FENCE
	fcmp	d3, d1
	//ARITH_FENCE
	//ARITH_FENCE
	fccmp	d0, d1, #0, eq
	csel	x9, x10, x9, eq
	fcmp	d2, d1
	csel	x8, x8, x9, ne
.LBB58_8:                               // %"senyolanda::bonds::bond_in.exit.thread.i"
	mov	x9, xzr
	add	x8, x9, w8, uxtb
	add	x0, x8, #1
	ldp	x29, x30, [sp, #64]             // 16-byte Folded Reload
	ldr	x19, [sp, #80]                  // 8-byte Reload
	add	sp, sp, #96
	ret
.LBB58_9:                               // %"bond::durations::macaulay_duration_at_price.exit.i"
	sub	x0, x29, #16
	add	x1, sp, #16
	bl	"bond::durations::macaulay_duration"
	ldurb	w9, [x29, #-16]
	ldur	x8, [x29, #-8]
	cmp	w9, #1
	b.ne	.LBB58_12
// %bb.10:
	ldurb	w9, [x29, #-12]
.LBB58_11:                              // %arm.1.i6.i
	and	x9, x9, #0xff
	orr	x8, x9, x8, lsl #32
	add	x0, x8, #1
	ldp	x29, x30, [sp, #64]             // 16-byte Folded Reload
	ldr	x19, [sp, #80]                  // 8-byte Reload
	add	sp, sp, #96
	ret
.LBB58_12:                              // %arm.2.i4.i
	mov	x0, xzr
	str	x8, [x19]
	ldp	x29, x30, [sp, #64]             // 16-byte Folded Reload
	ldr	x19, [sp, #80]                  // 8-byte Reload
	add	sp, sp, #96
	ret
.Lfunc_end58:
	.size	senyolanda_bond_macaulay_duration_at_price, .Lfunc_end58-senyolanda_bond_macaulay_duration_at_price
                                        // -- End function
	.section	.text.senyolanda_bond_modified_duration,"ax",@progbits
	.globl	senyolanda_bond_modified_duration // -- Begin function senyolanda_bond_modified_duration
	.p2align	2
	.type	senyolanda_bond_modified_duration,@function
senyolanda_bond_modified_duration:      // @senyolanda_bond_modified_duration
// %bb.0:                               // %start
	sub	sp, sp, #80
	mov	w8, #4096                       // =0x1000
	cmp	x0, #0
	stp	x29, x30, [sp, #48]             // 16-byte Folded Spill
	csel	x8, x8, xzr, eq
	cmp	x1, #26
	str	x19, [sp, #64]                  // 8-byte Spill
	add	x29, sp, #48
	stp	xzr, xzr, [sp]
	b.ne	.LBB59_5
// %bb.1:                               // %"records::record::bad_record.exit.i.i.i.i.i"
	add	x8, x0, x8
	ldrb	w9, [x8]
	cmp	w9, #2
	b.ne	.LBB59_5
// %bb.2:                               // %arm.2.i.i
	movi	v1.2d, #0xffffffffffffffff
	ldur	q2, [x8, #1]
	mov	x9, #9218868437227405312        // =0x7ff0000000000000
	dup	v3.2d, x9
	mov	x10, #9221120237041090560       // =0x7ff8000000000000
	ldur	x11, [x8, #17]
	ldrb	w8, [x8, #25]
	and	x12, x11, #0x7fffffffffffffff
	fneg	v1.2d, v1.2d
	cmp	x12, x9
	and	v1.16b, v2.16b, v1.16b
	cmhi	v1.2d, v1.2d, v3.2d
	dup	v3.2d, x10
	bif	v3.16b, v2.16b, v1.16b
	fmov	d1, x11
	fmov	d2, x10
	fcsel	d2, d2, d1, hi
	cmp	w8, #4
	b.hs	.LBB59_6
// %bb.3:                               // %arm.2.i
	mov	x0, sp
	add	x1, sp, #16
	mov	x19, x2
	str	q3, [sp, #16]
	str	d2, [sp, #32]
	strb	w8, [sp, #40]
	stur	wzr, [sp, #41]
	str	wzr, [sp, #44]
	bl	"bond::durations::modified_duration"
	ldrb	w8, [sp]
	ldr	d0, [sp, #8]
	cmp	w8, #1
	b.ne	.LBB59_9
// %bb.4:                               // %arm.1.i4.i
	fmov	x9, d0
	ldrb	w8, [sp, #4]
	orr	x8, x8, x9, lsl #32
	add	x0, x8, #1
	ldp	x29, x30, [sp, #48]             // 16-byte Folded Reload
	ldr	x19, [sp, #64]                  // 8-byte Reload
	add	sp, sp, #80
	ret
.LBB59_5:                               // %"senyolanda::bonds::bond_in.exit.thread20.i"
	mov	w8, #10                         // =0xa
	strb	wzr, [sp, #19]
	strb	w8, [sp, #16]
	sturh	wzr, [sp, #17]
	stur	xzr, [sp, #20]
	ldr	x8, [sp, #16]
	and	x9, x8, #0xffffffff00000000
	add	x8, x9, w8, uxtb
	add	x0, x8, #1
	ldp	x29, x30, [sp, #48]             // 16-byte Folded Reload
	ldr	x19, [sp, #64]                  // 8-byte Reload
	add	sp, sp, #80
	ret
.LBB59_6:                               // %arm.2.i.i11.i.i
	movi	d1, #0000000000000000
	fsub	v4.2d, v3.2d, v3.2d
                                        // kill: def $d3 killed $d3 killed $q3
	//ARITH_FENCE
	//ARITH_FENCE
	fcmp	d3, d1
	fmov	d3, d4
	cset	w8, mi
	//ARITH_FENCE
	fcmp	d3, d1
	//APP
	//NO_APP
	ccmp	w8, #0, #0, eq
	mov	w8, #6                          // =0x6
	csel	x8, xzr, x8, ne
	b.ne	.LBB59_8
// %bb.7:                               // %arm.2.i.i11.i.i
	mov	d3, v4.d[1]
	fsub	d0, d0, d0
	mov	w9, #8                          // =0x8
	fsub	d2, d2, d2
	mov	w10, #10                        // =0xa
	//ARITH_FENCE
	fcmp	d3, d1
	//ARITH_FENCE
	//ARITH_FENCE
	fccmp	d0, d1, #0, eq
	csel	x9, x10, x9, eq
	fcmp	d2, d1
	csel	x8, x8, x9, ne
.LBB59_8:                               // %"senyolanda::bonds::bond_in.exit.thread.i"
	mov	x9, xzr
	add	x8, x9, w8, uxtb
	add	x0, x8, #1
	ldp	x29, x30, [sp, #48]             // 16-byte Folded Reload
	ldr	x19, [sp, #64]                  // 8-byte Reload
	add	sp, sp, #80
	ret
.LBB59_9:                               // %arm.2.i2.i
	mov	x0, xzr
	str	d0, [x19]
	ldp	x29, x30, [sp, #48]             // 16-byte Folded Reload
	ldr	x19, [sp, #64]                  // 8-byte Reload
	add	sp, sp, #80
	ret
.Lfunc_end59:
	.size	senyolanda_bond_modified_duration, .Lfunc_end59-senyolanda_bond_modified_duration
                                        // -- End function
	.section	.text.senyolanda_bond_modified_duration_at_price,"ax",@progbits
	.globl	senyolanda_bond_modified_duration_at_price // -- Begin function senyolanda_bond_modified_duration_at_price
	.p2align	2
	.type	senyolanda_bond_modified_duration_at_price,@function
senyolanda_bond_modified_duration_at_price: // @senyolanda_bond_modified_duration_at_price
// %bb.0:                               // %start
	sub	sp, sp, #96
	cmp	x0, #0
	mov	w8, #4096                       // =0x1000
	stp	x29, x30, [sp, #64]             // 16-byte Folded Spill
	csel	x8, x8, xzr, eq
	cmp	x1, #26
	str	x19, [sp, #80]                  // 8-byte Spill
	add	x29, sp, #64
	b.ne	.LBB60_5
// %bb.1:                               // %"records::record::bad_record.exit.i.i.i.i.i"
	add	x8, x0, x8
	ldrb	w9, [x8]
	cmp	w9, #2
	b.ne	.LBB60_5
// %bb.2:                               // %arm.2.i.i
	movi	v1.2d, #0xffffffffffffffff
	ldur	q2, [x8, #1]
	mov	x9, #9218868437227405312        // =0x7ff0000000000000
	dup	v3.2d, x9
	mov	x10, #9221120237041090560       // =0x7ff8000000000000
	ldur	x11, [x8, #17]
	ldrb	w8, [x8, #25]
	and	x12, x11, #0x7fffffffffffffff
	fneg	v1.2d, v1.2d
	cmp	x12, x9
	and	v1.16b, v2.16b, v1.16b
	cmhi	v1.2d, v1.2d, v3.2d
	dup	v3.2d, x10
	bif	v3.16b, v2.16b, v1.16b
	fmov	d1, x11
	fmov	d2, x10
	fcsel	d2, d2, d1, hi
	cmp	w8, #4
	b.hs	.LBB60_6
// %bb.3:                               // %arm.2.i
	mov	x0, sp
	add	x1, sp, #16
	mov	x19, x2
	str	q3, [sp, #16]
	str	d2, [sp, #32]
	strb	w8, [sp, #40]
	stur	wzr, [sp, #41]
	str	wzr, [sp, #44]
	stp	xzr, xzr, [x29, #-16]
	stp	xzr, xzr, [sp]
	bl	"bond::yields::yield_to_maturity"
	ldrb	w8, [sp]
	ldr	d0, [sp, #8]
	cbz	w8, .LBB60_9
// %bb.4:                               // %"bond::durations::modified_duration_at_price.exit.thread.i"
	stur	s0, [x29, #-8]
	ldr	w9, [sp, #4]
	stur	wzr, [x29, #-4]
	ldur	x8, [x29, #-8]
	b	.LBB60_11
.LBB60_5:                               // %"senyolanda::bonds::bond_in.exit.thread25.i"
	mov	w8, #10                         // =0xa
	strb	wzr, [sp, #19]
	strb	w8, [sp, #16]
	sturh	wzr, [sp, #17]
	stur	xzr, [sp, #20]
	ldr	x8, [sp, #16]
	and	x9, x8, #0xffffffff00000000
	add	x8, x9, w8, uxtb
	add	x0, x8, #1
	ldp	x29, x30, [sp, #64]             // 16-byte Folded Reload
	ldr	x19, [sp, #80]                  // 8-byte Reload
	add	sp, sp, #96
	ret
.LBB60_6:                               // %arm.2.i.i11.i.i
	movi	d1, #0000000000000000
	fsub	v4.2d, v3.2d, v3.2d
                                        // kill: def $d3 killed $d3 killed $q3
	//ARITH_FENCE
	//ARITH_FENCE
	fcmp	d3, d1
	fmov	d3, d4
	cset	w8, mi
	//ARITH_FENCE
	fcmp	d3, d1
	//APP
	//NO_APP
	ccmp	w8, #0, #0, eq
	mov	w8, #6                          // =0x6
	csel	x8, xzr, x8, ne
	b.ne	.LBB60_8
// %bb.7:                               // %arm.2.i.i11.i.i
	mov	d3, v4.d[1]
	fsub	d0, d0, d0
	mov	w9, #8                          // =0x8
	fsub	d2, d2, d2
	mov	w10, #10                        // =0xa
	//ARITH_FENCE
	fcmp	d3, d1
	//ARITH_FENCE
	//ARITH_FENCE
	fccmp	d0, d1, #0, eq
	csel	x9, x10, x9, eq
	fcmp	d2, d1
	csel	x8, x8, x9, ne
.LBB60_8:                               // %"senyolanda::bonds::bond_in.exit.thread.i"
	mov	x9, xzr
	add	x8, x9, w8, uxtb
	add	x0, x8, #1
	ldp	x29, x30, [sp, #64]             // 16-byte Folded Reload
	ldr	x19, [sp, #80]                  // 8-byte Reload
	add	sp, sp, #96
	ret
.LBB60_9:                               // %"bond::durations::modified_duration_at_price.exit.i"
	sub	x0, x29, #16
	add	x1, sp, #16
	bl	"bond::durations::modified_duration"
	ldurb	w9, [x29, #-16]
	ldur	x8, [x29, #-8]
	cmp	w9, #1
	b.ne	.LBB60_12
// %bb.10:
	ldurb	w9, [x29, #-12]
.LBB60_11:                              // %arm.1.i6.i
	and	x9, x9, #0xff
	orr	x8, x9, x8, lsl #32
	add	x0, x8, #1
	ldp	x29, x30, [sp, #64]             // 16-byte Folded Reload
	ldr	x19, [sp, #80]                  // 8-byte Reload
	add	sp, sp, #96
	ret
.LBB60_12:                              // %arm.2.i4.i
	mov	x0, xzr
	str	x8, [x19]
	ldp	x29, x30, [sp, #64]             // 16-byte Folded Reload
	ldr	x19, [sp, #80]                  // 8-byte Reload
	add	sp, sp, #96
	ret
.Lfunc_end60:
	.size	senyolanda_bond_modified_duration_at_price, .Lfunc_end60-senyolanda_bond_modified_duration_at_price
                                        // -- End function
	.section	.rodata.cst8,"aM",@progbits,8
	.p2align	3, 0x0                          // -- Begin function senyolanda_bond_price
.LCPI61_0:
	.xword	0x3d719799812dea11              // double 9.9999999999999998E-13
	.section	.text.senyolanda_bond_price,"ax",@progbits
	.globl	senyolanda_bond_price
	.p2align	2
	.type	senyolanda_bond_price,@function
senyolanda_bond_price:                  // @senyolanda_bond_price
// %bb.0:                               // %start
	cmp	x0, #0
	mov	w8, #4096                       // =0x1000
	csel	x8, x8, xzr, eq
	cmp	x1, #26
	b.ne	.LBB61_9
// %bb.1:                               // %"records::record::bad_record.exit.i.i.i.i.i"
	add	x8, x0, x8
	ldrb	w9, [x8]
	cmp	w9, #2
	b.ne	.LBB61_9
// %bb.2:                               // %arm.2.i.i
	ldur	x9, [x8, #1]
	mov	x11, #9221120237041090560       // =0x7ff8000000000000
	ldur	x12, [x8, #9]
	fmov	d3, x11
	mov	x10, #9218868437227405312       // =0x7ff0000000000000
	and	x11, x9, #0x7fffffffffffffff
	fmov	d1, x9
	ldur	x9, [x8, #17]
	fmov	d2, x12
	cmp	x11, x10
	and	x11, x12, #0x7fffffffffffffff
	fmov	d4, x9
	ldrb	w8, [x8, #25]
	fcsel	d1, d3, d1, hi
	cmp	x11, x10
	and	x11, x9, #0x7fffffffffffffff
	fcsel	d2, d3, d2, hi
	cmp	x11, x10
	fcsel	d3, d3, d4, hi
	cmp	w8, #4
	b.hs	.LBB61_10
// %bb.3:                               // %arm.2.i
	fmov	d4, #4.00000000
	fmov	d5, #12.00000000
	cmp	w8, #2
	fmov	d6, #1.00000000
	fmov	d7, #2.00000000
	//ARITH_FENCE
	//ARITH_FENCE
	fcsel	d4, d4, d5, eq
	cmp	w8, #0
	//ARITH_FENCE
	//ARITH_FENCE
	fcsel	d5, d6, d7, eq
	cmp	w8, #1
	mov	x8, #4841369599423283200        // =0x4330000000000000
	fcsel	d5, d4, d5, gt
	fmov	d4, x8
	fmul	d6, d3, d5
	fadd	d7, d6, d4
	movi	d4, #0000000000000000
	fmov	d16, d7
	//ARITH_FENCE
	//ARITH_FENCE
	fcmp	d4, d16
	cset	w8, mi
	//APP
	//NO_APP
	cbz	w8, .LBB61_11
// %bb.4:                               // %then.1.i.i.i.i.i
	fmov	x8, d7
	fmov	d7, d6
	ucvtf	d16, w8
	//ARITH_FENCE
	//ARITH_FENCE
	fcmp	d16, d7
	b.ne	.LBB61_12
.LBB61_5:                               // %"bond::worked::Worked::of.exit.i.i"
	fmul	d6, d1, d2
	fmov	d7, d1
	fdiv	d6, d6, d5
	//ARITH_FENCE
	fcmp	d7, d4
	cset	w11, mi
	//APP
	//NO_APP
	cmp	w11, #0
	cset	w10, ne
	cmp	w8, #1200
	cset	w9, hi
	b.hi	.LBB61_14
// %bb.6:                               // %"bond::worked::Worked::of.exit.i.i"
	cbnz	w11, .LBB61_14
// %bb.7:                               // %"bond::worked::Worked::all_right.exit.i.i.i"
	fadd	d7, d1, d2
	fadd	d7, d3, d7
	fadd	d7, d0, d7
	fsub	d7, d7, d7
	//ARITH_FENCE
	fcmp	d7, d4
	b.eq	.LBB61_19
// %bb.8:
	mov	w10, wzr
	mov	w9, wzr
	b	.LBB61_14
.LBB61_9:                               // %"senyolanda::bonds::bond_in.exit.thread29.i"
	sub	sp, sp, #16
	mov	w8, #10                         // =0xa
	strb	wzr, [sp, #3]
	strb	w8, [sp]
	sturh	wzr, [sp, #1]
	stur	xzr, [sp, #4]
	ldr	x9, [sp], #16
	and	x8, x9, #0xffffffff00000000
	add	x8, x8, w9, uxtb
	add	x0, x8, #1
	ret
.LBB61_10:                              // %arm.2.i.i11.i.i
	movi	d4, #0000000000000000
	fsub	d5, d1, d1
	//ARITH_FENCE
	mov	w11, #8                         // =0x8
	fsub	d0, d0, d0
	mov	w12, #10                        // =0xa
	mov	x8, xzr
	//ARITH_FENCE
	fcmp	d1, d4
	//ARITH_FENCE
	fsub	d1, d2, d2
	//ARITH_FENCE
	cset	w9, mi
	fcmp	d5, d4
	//APP
	//NO_APP
	//ARITH_FENCE
	ccmp	w9, #0, #0, eq
	mov	w9, #6                          // =0x6
	cset	w10, ne
	csel	x9, xzr, x9, ne
	fcmp	d1, d4
	fsub	d1, d3, d3
	fccmp	d0, d4, #0, eq
	//ARITH_FENCE
	csel	x11, x12, x11, eq
	fcmp	d1, d4
	csel	x11, x9, x11, ne
	tst	w10, #0x1
	csel	x9, x9, x11, ne
	add	x8, x8, w9, uxtb
	add	x0, x8, #1
	ret
.LBB61_11:                              // %start.join.3_crit_edge.i.i.i.i.i
	fmov	d7, d6
	//ARITH_FENCE
.LBB61_12:                              // %join.3.i.i.i.i.i
	mov	x8, #281474974613504            // =0xffffffe00000
	movk	x8, #16879, lsl #48
	fmov	d16, x8
	//ARITH_FENCE
	fcmp	d16, d7
	cset	w8, mi
	//APP
	//NO_APP
	cbz	w8, .LBB61_22
// %bb.13:                              // %"bond::worked::Worked::of.exit.thread.i.i"
	fmov	d7, d1
	fmul	d6, d1, d2
	mov	w9, #1                          // =0x1
	//ARITH_FENCE
	fcmp	d7, d4
	fdiv	d6, d6, d5
	cset	w8, mi
	//APP
	//NO_APP
	cmp	w8, #0
	cset	w10, ne
	mov	w8, #-1                         // =0xffffffff
.LBB61_14:                              // %join.3.i.i.i
	fsub	d7, d1, d1
	//ARITH_FENCE
	fcmp	d7, d4
	csinc	w11, w10, wzr, eq
	mov	w10, #6                         // =0x6
	cmp	w11, #0
	csel	x10, xzr, x10, ne
	tbnz	w11, #0, .LBB61_21
// %bb.15:                              // %join.3.i.i.i
	fsub	d3, d3, d3
	//ARITH_FENCE
	fcmp	d3, d4
	b.ne	.LBB61_21
// %bb.16:                              // %join.3.i.i.i
	tbnz	w9, #0, .LBB61_21
// %bb.17:                              // %"bond::worked::Worked::judge_bond.exit.i.i"
	fsub	d3, d0, d0
	mov	w10, #8                         // =0x8
	//ARITH_FENCE
	fcmp	d3, d4
	b.ne	.LBB61_21
// %bb.18:                              // %"bond::worked::Worked::judge_bond.exit.i.i"
	fsub	d2, d2, d2
	//ARITH_FENCE
	fcmp	d2, d4
	b.ne	.LBB61_21
.LBB61_19:                              // %arm.1.i3.i
	fdiv	d0, d0, d5
	movi	d2, #0000000000000000
	fmov	d3, d0
	fsub	d2, d2, d0
	//ARITH_FENCE
	fcmp	d4, d3
	cset	w9, mi
	//APP
	//NO_APP
	cmp	w9, #0
	fcsel	d2, d0, d2, ne
	adrp	x9, .LCPI61_0
	ldr	d3, [x9, :lo12:.LCPI61_0]
	//ARITH_FENCE
	//ARITH_FENCE
	fcmp	d2, d3
	cset	w9, mi
	//APP
	//NO_APP
	cbz	w9, .LBB61_25
// %bb.20:                              // %then.1.i17.i.i
	ucvtf	d0, w8
	//ARITH_FENCE
	fmul	d0, d6, d0
	fadd	d0, d1, d0
	mov	x0, xzr
	str	d0, [x2]
	ret
.LBB61_21:                              // %arm.1.i7.i
	orr	x0, x10, #0x1
	ret
.LBB61_22:                              // %join.3.i.i.i.i.i.i
	fcmp	d4, d7
	cset	w8, mi
	//APP
	//NO_APP
	cbz	w8, .LBB61_5
// %bb.23:                              // %then.4.i.i.i.i.i.i
	fadd	d6, d6, d6
	fmov	d7, #1.00000000
	//ARITH_FENCE
	fmov	d16, d6
	//ARITH_FENCE
	fcmp	d7, d16
	cset	w8, hi
	//APP
	//NO_APP
	cbz	w8, .LBB61_29
// %bb.24:
	mov	w8, wzr
	b	.LBB61_5
.LBB61_25:                              // %join.3.i12.i.i
	fmov	d2, #1.00000000
	fmov	d3, #1.00000000
	cbz	w8, .LBB61_28
// %bb.26:                              // %join.5.i.i.preheader.i.i.i
	fmov	d4, #1.00000000
	fadd	d5, d0, d4
.LBB61_27:                              // %join.5.i.i.i.i.i
                                        // =>This Inner Loop Header: Depth=1
	tst	w8, #0x1
	lsr	w8, w8, #1
	fcsel	d7, d4, d5, eq
	fmul	d5, d5, d5
	fmul	d3, d3, d7
	cbnz	w8, .LBB61_27
.LBB61_28:                              // %"elementary::whole_power::negative_power.exit.i.i.i"
	fdiv	d3, d2, d3
	fsub	d2, d2, d3
	fmul	d1, d1, d3
	fmul	d2, d6, d2
	fdiv	d0, d2, d0
	fadd	d0, d1, d0
	mov	x0, xzr
	str	d0, [x2]
	ret
.LBB61_29:                              // %then.1.i.i.i.i.i.i.i
	fmov	x8, d6
	mov	x10, #4503599627370496          // =0x10000000000000
	mov	w11, #1075                      // =0x433
	lsr	x9, x8, #52
	bfxil	x10, x8, #0, #52
	lsr	x12, x8, #54
	sub	x11, x11, x9
	sub	x9, x9, #1075
	cmp	x12, #269
	lsr	x10, x10, x11
	lsl	x8, x8, x9
	csel	x8, x10, x8, lo
	add	x8, x8, #1
	lsr	x8, x8, #1
                                        // kill: def $w8 killed $w8 killed $x8 def $x8
	b	.LBB61_5
.Lfunc_end61:
	.size	senyolanda_bond_price, .Lfunc_end61-senyolanda_bond_price
                                        // -- End function
	.section	.rodata.cst8,"aM",@progbits,8
	.p2align	3, 0x0                          // -- Begin function senyolanda_bond_price_change
.LCPI62_0:
	.xword	0x3d719799812dea11              // double 9.9999999999999998E-13
	.section	.text.senyolanda_bond_price_change,"ax",@progbits
	.globl	senyolanda_bond_price_change
	.p2align	2
	.type	senyolanda_bond_price_change,@function
senyolanda_bond_price_change:           // @senyolanda_bond_price_change
// %bb.0:                               // %start
	sub	sp, sp, #208
	mov	w8, #4096                       // =0x1000
	cmp	x0, #0
	stp	d15, d14, [sp, #96]             // 16-byte Folded Spill
	csel	x8, x8, xzr, eq
	cmp	x1, #26
	stp	d13, d12, [sp, #112]            // 16-byte Folded Spill
	stp	d11, d10, [sp, #128]            // 16-byte Folded Spill
	stp	d9, d8, [sp, #144]              // 16-byte Folded Spill
	stp	x29, x30, [sp, #160]            // 16-byte Folded Spill
	add	x29, sp, #160
	stp	x22, x21, [sp, #176]            // 16-byte Folded Spill
	stp	x20, x19, [sp, #192]            // 16-byte Folded Spill
	b.ne	.LBB62_5
// %bb.1:                               // %"records::record::bad_record.exit.i.i.i.i.i"
	add	x8, x0, x8
	ldrb	w9, [x8]
	cmp	w9, #2
	b.ne	.LBB62_5
// %bb.2:                               // %arm.2.i.i
	movi	v2.2d, #0xffffffffffffffff
	ldur	q3, [x8, #1]
	mov	x9, #9218868437227405312        // =0x7ff0000000000000
	dup	v4.2d, x9
	mov	x10, #9221120237041090560       // =0x7ff8000000000000
	ldur	x11, [x8, #17]
	ldrb	w19, [x8, #25]
	and	x12, x11, #0x7fffffffffffffff
	fneg	v2.2d, v2.2d
	cmp	x12, x9
	and	v2.16b, v3.16b, v2.16b
	cmhi	v2.2d, v2.2d, v4.2d
	dup	v4.2d, x10
	mov	v6.16b, v2.16b
	fmov	d2, x11
	bsl	v6.16b, v4.16b, v3.16b
	fmov	d3, x10
	fcsel	d16, d3, d2, hi
	cmp	w19, #4
	b.hs	.LBB62_8
// %bb.3:                               // %arm.2.i
	fmov	d2, #4.00000000
	fmov	d3, #12.00000000
	cmp	w19, #2
	fmov	d4, #1.00000000
	fmov	d5, #2.00000000
	mov	x8, #4841369599423283200        // =0x4330000000000000
	movi	d11, #0000000000000000
	//ARITH_FENCE
	//ARITH_FENCE
	fcsel	d2, d2, d3, eq
	cmp	w19, #0
	//ARITH_FENCE
	//ARITH_FENCE
	fcsel	d3, d4, d5, eq
	cmp	w19, #1
	//ARITH_FENCE
	fcsel	d10, d2, d3, gt
	fmov	d3, x8
	fmul	d2, d16, d10
	fadd	d3, d2, d3
	fmov	d4, d3
	//ARITH_FENCE
	fcmp	d11, d4
	cset	w8, mi
	//APP
	//NO_APP
	cbz	w8, .LBB62_11
// %bb.4:                               // %then.1.i.i.i.i.i
	fmov	x20, d3
	fmov	d3, d2
	ucvtf	d4, w20
	//ARITH_FENCE
	//ARITH_FENCE
	fcmp	d4, d3
	b.eq	.LBB62_18
	b	.LBB62_12
.LBB62_5:                               // %"senyolanda::bonds::bond_in.exit.thread31.i"
	mov	w8, #10                         // =0xa
	strb	wzr, [sp, #35]
	strb	w8, [sp, #32]
	sturh	wzr, [sp, #33]
	stur	xzr, [sp, #36]
	ldr	x8, [sp, #32]
	and	x9, x8, #0xffffffff00000000
.LBB62_6:                               // %arm.1.i
	add	x8, x9, w8, uxtb
	add	x0, x8, #1
.LBB62_7:                               // %"senyolanda::bonds::senyolanda_bond_price_change.exit"
	ldp	x20, x19, [sp, #192]            // 16-byte Folded Reload
	ldp	x22, x21, [sp, #176]            // 16-byte Folded Reload
	ldp	x29, x30, [sp, #160]            // 16-byte Folded Reload
	ldp	d9, d8, [sp, #144]              // 16-byte Folded Reload
	ldp	d11, d10, [sp, #128]            // 16-byte Folded Reload
	ldp	d13, d12, [sp, #112]            // 16-byte Folded Reload
	ldp	d15, d14, [sp, #96]             // 16-byte Folded Reload
	add	sp, sp, #208
	ret
.LBB62_8:                               // %arm.2.i.i11.i.i
	fmov	d3, d6
	movi	d1, #0000000000000000
	fsub	v2.2d, v6.2d, v6.2d
	//ARITH_FENCE
	//ARITH_FENCE
	fcmp	d3, d1
	fmov	d3, d2
	cset	w8, mi
	//APP
	//NO_APP
	//ARITH_FENCE
	fcmp	d3, d1
	ccmp	w8, #0, #0, eq
	mov	w8, #6                          // =0x6
	csel	x8, xzr, x8, ne
	b.ne	.LBB62_10
// %bb.9:                               // %arm.2.i.i11.i.i
	mov	d2, v2.d[1]
	fsub	d0, d0, d0
	mov	w9, #8                          // =0x8
	mov	w10, #10                        // =0xa
	//ARITH_FENCE
	fcmp	d2, d1
	//ARITH_FENCE
	fsub	d2, d16, d16
	fccmp	d0, d1, #0, eq
	//ARITH_FENCE
	csel	x9, x10, x9, eq
	fcmp	d2, d1
	csel	x8, x8, x9, ne
.LBB62_10:                              // %"senyolanda::bonds::bond_in.exit.thread.i"
	mov	x9, xzr
	b	.LBB62_6
.LBB62_11:                              // %start.join.3_crit_edge.i.i.i.i.i
	fmov	d3, d2
	//ARITH_FENCE
.LBB62_12:                              // %join.3.i.i.i.i.i
	mov	x8, #281474974613504            // =0xffffffe00000
	movk	x8, #16879, lsl #48
	fmov	d4, x8
	//ARITH_FENCE
	fcmp	d4, d3
	cset	w8, mi
	//APP
	//NO_APP
	cbz	w8, .LBB62_14
// %bb.13:                              // %"bond::worked::Worked::of.exit.i.thread.i"
	fmul	d2, d6, v6.d[1]
	mov	w20, #-1                        // =0xffffffff
	fdiv	d7, d2, d10
	fmov	d2, d6
	//ARITH_FENCE
	fcmp	d2, d11
	cset	w8, mi
	//APP
	//NO_APP
	cmp	w8, #0
	cset	w9, ne
	mov	w8, #1                          // =0x1
	b	.LBB62_22
.LBB62_14:                              // %join.3.i.i.i.i.i.i
	fcmp	d11, d3
	cset	w8, mi
	//APP
	//NO_APP
	cbz	w8, .LBB62_16
// %bb.15:                              // %then.4.i.i.i.i.i.i
	fadd	d2, d2, d2
	fmov	d3, #1.00000000
	//ARITH_FENCE
	fmov	d4, d2
	//ARITH_FENCE
	fcmp	d3, d4
	cset	w8, hi
	//APP
	//NO_APP
	cbz	w8, .LBB62_17
.LBB62_16:
	mov	w20, wzr
	b	.LBB62_18
.LBB62_17:                              // %then.1.i.i.i.i.i.i.i
	fmov	x8, d2
	mov	x10, #4503599627370496          // =0x10000000000000
	mov	w11, #1075                      // =0x433
	lsr	x9, x8, #52
	bfxil	x10, x8, #0, #52
	lsr	x12, x8, #54
	sub	x11, x11, x9
	sub	x9, x9, #1075
	cmp	x12, #269
	lsr	x10, x10, x11
	lsl	x8, x8, x9
	csel	x8, x10, x8, lo
	add	x8, x8, #1
	lsr	x20, x8, #1
                                        // kill: def $w20 killed $w20 killed $x20 def $x20
.LBB62_18:                              // %"bond::worked::Worked::of.exit.i.i"
	fmul	d2, d6, v6.d[1]
	fdiv	d7, d2, d10
	fmov	d2, d6
	//ARITH_FENCE
	fcmp	d2, d11
	cset	w10, mi
	//APP
	//NO_APP
	cmp	w10, #0
	cset	w9, ne
	cmp	w20, #1200
	cset	w8, hi
	b.hi	.LBB62_22
// %bb.19:                              // %"bond::worked::Worked::of.exit.i.i"
	cbnz	w10, .LBB62_22
// %bb.20:                              // %"bond::worked::Worked::all_right.exit.i.i.i"
	mov	d2, v6.d[1]
	fadd	d2, d6, d2
	fadd	d2, d16, d2
	fadd	d2, d0, d2
	fsub	d2, d2, d2
	//ARITH_FENCE
	fcmp	d2, d11
	b.eq	.LBB62_27
// %bb.21:
	mov	w9, wzr
	mov	w8, wzr
.LBB62_22:                              // %join.3.i.i.i
	fsub	v2.2d, v6.2d, v6.2d
	fmov	d3, d2
	//ARITH_FENCE
	fcmp	d3, d11
	csinc	w10, w9, wzr, eq
	mov	w9, #6                          // =0x6
	cmp	w10, #0
	csel	x9, xzr, x9, ne
	tbnz	w10, #0, .LBB62_29
// %bb.23:                              // %join.3.i.i.i
	fsub	d3, d16, d16
	//ARITH_FENCE
	fcmp	d3, d11
	b.ne	.LBB62_29
// %bb.24:                              // %join.3.i.i.i
	tbnz	w8, #0, .LBB62_29
// %bb.25:                              // %"bond::worked::Worked::judge_bond.exit.i.i"
	fsub	d3, d0, d0
	mov	w9, #8                          // =0x8
	//ARITH_FENCE
	fcmp	d3, d11
	b.ne	.LBB62_29
// %bb.26:                              // %"bond::worked::Worked::judge_bond.exit.i.i"
	mov	d2, v2.d[1]
	//ARITH_FENCE
	fcmp	d2, d11
	b.ne	.LBB62_29
.LBB62_27:                              // %arm.1.i3.i
	fdiv	d9, d0, d10
	movi	d0, #0000000000000000
	ucvtf	d8, w20
	fmov	d2, d9
	fsub	d0, d0, d9
	//ARITH_FENCE
	fcmp	d11, d2
	cset	w8, mi
	//APP
	//NO_APP
	cmp	w8, #0
	fcsel	d0, d9, d0, ne
	adrp	x8, .LCPI62_0
	ldr	d2, [x8, :lo12:.LCPI62_0]
	//ARITH_FENCE
	//ARITH_FENCE
	fcmp	d0, d2
	cset	w21, mi
	//APP
	//NO_APP
	cbz	w21, .LBB62_30
// %bb.28:                              // %then.1.i.i.i.i.i.i
	fmov	d0, d8
	//ARITH_FENCE
	fmul	d0, d7, d0
	fadd	d15, d6, d0
	b	.LBB62_34
.LBB62_29:                              // %arm.1.i12.i
	orr	x0, x9, #0x1
	b	.LBB62_7
.LBB62_30:                              // %join.3.i.i.i.i13.i.i
	fmov	d0, #1.00000000
	fmov	d2, #1.00000000
	cbz	w20, .LBB62_33
// %bb.31:                              // %join.5.i.i.preheader.i.i.i.i.i.i
	fmov	d3, #1.00000000
	mov	w8, w20
	fadd	d4, d9, d3
.LBB62_32:                              // %join.5.i.i.i.i.i.i.i.i
                                        // =>This Inner Loop Header: Depth=1
	tst	w8, #0x1
	lsr	w8, w8, #1
	fcsel	d5, d3, d4, eq
	fmul	d4, d4, d4
	fmul	d2, d2, d5
	cbnz	w8, .LBB62_32
.LBB62_33:                              // %"elementary::whole_power::negative_power.exit.i.i.i.i.i.i"
	fdiv	d2, d0, d2
	fsub	d0, d0, d2
	fmul	d2, d6, d2
	fmul	d0, d7, d0
	fdiv	d0, d0, d9
	fadd	d15, d2, d0
.LBB62_34:                              // %"bond::worked::Worked::price_at.exit.i.i.i.i.i"
	fmov	d0, d15
	movi	d13, #0000000000000000
	//ARITH_FENCE
	fcmp	d11, d0
	fsub	d0, d13, d15
	cset	w8, mi
	//APP
	//NO_APP
	cmp	w8, #0
	mov	x8, #4372995238176751616        // =0x3cb0000000000000
	fcsel	d0, d15, d0, ne
	fmov	d12, x8
	//ARITH_FENCE
	//ARITH_FENCE
	fcmp	d0, d12
	cset	w8, mi
	//APP
	//NO_APP
	cbnz	w8, .LBB62_36
// %bb.35:                              // %join.3.i.i.i18.i.i
	fmov	d0, d9
	add	x0, sp, #32
	mov	w1, wzr
	stp	q6, q6, [sp, #16]               // 16-byte Folded Spill
	mov	x22, x2
	fmov	d13, d1
	str	d16, [sp, #48]
	fmov	d14, d16
	strb	w19, [sp, #56]
	stur	wzr, [sp, #57]
	str	wzr, [sp, #60]
	stp	d10, d7, [sp, #64]
	stp	w20, wzr, [sp, #80]
	str	d10, [sp, #8]                   // 8-byte Spill
	fmov	d10, d7
	bl	"bond::worked::Worked::weighted_sum"
	fmov	d1, d13
	fdiv	d13, d0, d15
	fmov	d16, d14
	fmov	d7, d10
	ldr	d10, [sp, #8]                   // 8-byte Reload
	ldr	q6, [sp, #16]                   // 16-byte Reload
	mov	x2, x22
.LBB62_36:                              // %"bond::worked::Worked::modified_at.exit.i.i.i"
	fmov	d0, #1.00000000
	fadd	d15, d9, d0
	cbz	w21, .LBB62_38
// %bb.37:                              // %then.1.i.i.i27.i.i
	//ARITH_FENCE
	fmul	d0, d7, d8
	fadd	d14, d6, d0
	b	.LBB62_42
.LBB62_38:                              // %join.3.i.i9.i.i.i
	cbz	w20, .LBB62_41
// %bb.39:                              // %join.5.i.i.i.i.i.i.i.preheader
	fmov	d3, d15
	fmov	d2, #1.00000000
	mov	w8, w20
.LBB62_40:                              // %join.5.i.i.i.i.i.i.i
                                        // =>This Inner Loop Header: Depth=1
	tst	w8, #0x1
	lsr	w8, w8, #1
	fcsel	d4, d2, d3, eq
	fmul	d3, d3, d3
	fmul	d0, d0, d4
	cbnz	w8, .LBB62_40
.LBB62_41:                              // %"elementary::whole_power::negative_power.exit.i.i.i.i.i"
	fmov	d2, #1.00000000
	fdiv	d0, d2, d0
	fsub	d2, d2, d0
	fmul	d0, d6, d0
	fmul	d2, d7, d2
	fdiv	d2, d2, d9
	fadd	d14, d0, d2
.LBB62_42:                              // %"bond::worked::Worked::price_at.exit.i.i.i.i"
	fmov	d2, d14
	movi	d0, #0000000000000000
	//ARITH_FENCE
	fcmp	d11, d2
	fsub	d2, d0, d14
	cset	w8, mi
	//APP
	//NO_APP
	cmp	w8, #0
	fcsel	d2, d14, d2, ne
	//ARITH_FENCE
	fcmp	d2, d12
	cset	w8, mi
	//APP
	//NO_APP
	cbnz	w8, .LBB62_44
// %bb.43:                              // %join.3.i.i.i.i
	fmov	d0, d9
	add	x0, sp, #32
	mov	w1, #1                          // =0x1
	str	q6, [sp, #32]
	fmov	d8, d1
	str	d16, [sp, #48]
	strb	w19, [sp, #56]
	mov	x19, x2
	stur	wzr, [sp, #57]
	str	wzr, [sp, #60]
	stp	d10, d7, [sp, #64]
	stp	w20, wzr, [sp, #80]
	bl	"bond::worked::Worked::weighted_sum"
	fmul	d2, d15, d15
	fmov	d1, d8
	mov	x2, x19
	fmul	d2, d2, d14
	fmul	d2, d10, d2
	fmul	d2, d10, d2
	fdiv	d0, d0, d2
	fmov	d2, #0.50000000
	fmul	d0, d0, d2
.LBB62_44:                              // %arm.2.i10.i
	fdiv	d2, d13, d15
	fmul	d0, d1, d0
	mov	x0, xzr
	fmul	d0, d1, d0
	fmul	d1, d1, d2
	fsub	d0, d0, d1
	str	d0, [x2]
	b	.LBB62_7
.Lfunc_end62:
	.size	senyolanda_bond_price_change, .Lfunc_end62-senyolanda_bond_price_change
                                        // -- End function
	.section	.text.senyolanda_bond_yield_to_maturity,"ax",@progbits
	.globl	senyolanda_bond_yield_to_maturity // -- Begin function senyolanda_bond_yield_to_maturity
	.p2align	2
	.type	senyolanda_bond_yield_to_maturity,@function
senyolanda_bond_yield_to_maturity:      // @senyolanda_bond_yield_to_maturity
// %bb.0:                               // %start
	sub	sp, sp, #80
	mov	w8, #4096                       // =0x1000
	cmp	x0, #0
	stp	x29, x30, [sp, #48]             // 16-byte Folded Spill
	csel	x8, x8, xzr, eq
	cmp	x1, #26
	str	x19, [sp, #64]                  // 8-byte Spill
	add	x29, sp, #48
	stp	xzr, xzr, [sp]
	b.ne	.LBB63_5
// %bb.1:                               // %"records::record::bad_record.exit.i.i.i.i.i"
	add	x8, x0, x8
	ldrb	w9, [x8]
	cmp	w9, #2
	b.ne	.LBB63_5
// %bb.2:                               // %arm.2.i.i
	movi	v1.2d, #0xffffffffffffffff
	ldur	q2, [x8, #1]
	mov	x9, #9218868437227405312        // =0x7ff0000000000000
	dup	v3.2d, x9
	mov	x10, #9221120237041090560       // =0x7ff8000000000000
	ldur	x11, [x8, #17]
	ldrb	w8, [x8, #25]
	and	x12, x11, #0x7fffffffffffffff
	fneg	v1.2d, v1.2d
	cmp	x12, x9
	and	v1.16b, v2.16b, v1.16b
	cmhi	v1.2d, v1.2d, v3.2d
	dup	v3.2d, x10
	bif	v3.16b, v2.16b, v1.16b
	fmov	d1, x11
	fmov	d2, x10
	fcsel	d2, d2, d1, hi
	cmp	w8, #4
	b.hs	.LBB63_6
// %bb.3:                               // %arm.2.i
	mov	x0, sp
	add	x1, sp, #16
	mov	x19, x2
	str	q3, [sp, #16]
	str	d2, [sp, #32]
	strb	w8, [sp, #40]
	stur	wzr, [sp, #41]
	str	wzr, [sp, #44]
	bl	"bond::yields::yield_to_maturity"
	ldrb	w8, [sp]
	ldr	d0, [sp, #8]
	cmp	w8, #1
	b.ne	.LBB63_9
// %bb.4:                               // %arm.1.i4.i
	fmov	x9, d0
	ldrb	w8, [sp, #4]
	orr	x8, x8, x9, lsl #32
	add	x0, x8, #1
	ldp	x29, x30, [sp, #48]             // 16-byte Folded Reload
	ldr	x19, [sp, #64]                  // 8-byte Reload
	add	sp, sp, #80
	ret
.LBB63_5:                               // %"senyolanda::bonds::bond_in.exit.thread20.i"
	mov	w8, #10                         // =0xa
	strb	wzr, [sp, #19]
	strb	w8, [sp, #16]
	sturh	wzr, [sp, #17]
	stur	xzr, [sp, #20]
	ldr	x8, [sp, #16]
	and	x9, x8, #0xffffffff00000000
	add	x8, x9, w8, uxtb
	add	x0, x8, #1
	ldp	x29, x30, [sp, #48]             // 16-byte Folded Reload
	ldr	x19, [sp, #64]                  // 8-byte Reload
	add	sp, sp, #80
	ret
.LBB63_6:                               // %arm.2.i.i11.i.i
	movi	d1, #0000000000000000
	fsub	v4.2d, v3.2d, v3.2d
                                        // kill: def $d3 killed $d3 killed $q3
	//ARITH_FENCE
	//ARITH_FENCE
	fcmp	d3, d1
	fmov	d3, d4
	cset	w8, mi
	//ARITH_FENCE
	fcmp	d3, d1
	//APP
	//NO_APP
	ccmp	w8, #0, #0, eq
	mov	w8, #6                          // =0x6
	csel	x8, xzr, x8, ne
	b.ne	.LBB63_8
// %bb.7:                               // %arm.2.i.i11.i.i
	mov	d3, v4.d[1]
	fsub	d0, d0, d0
	mov	w9, #8                          // =0x8
	fsub	d2, d2, d2
	mov	w10, #10                        // =0xa
	//ARITH_FENCE
	fcmp	d3, d1
	//ARITH_FENCE
	//ARITH_FENCE
	fccmp	d0, d1, #0, eq
	csel	x9, x10, x9, eq
	fcmp	d2, d1
	csel	x8, x8, x9, ne
.LBB63_8:                               // %"senyolanda::bonds::bond_in.exit.thread.i"
	mov	x9, xzr
	add	x8, x9, w8, uxtb
	add	x0, x8, #1
	ldp	x29, x30, [sp, #48]             // 16-byte Folded Reload
	ldr	x19, [sp, #64]                  // 8-byte Reload
	add	sp, sp, #80
	ret
.LBB63_9:                               // %arm.2.i2.i
	mov	x0, xzr
	str	d0, [x19]
	ldp	x29, x30, [sp, #48]             // 16-byte Folded Reload
	ldr	x19, [sp, #64]                  // 8-byte Reload
	add	sp, sp, #80
	ret
.Lfunc_end63:
	.size	senyolanda_bond_yield_to_maturity, .Lfunc_end63-senyolanda_bond_yield_to_maturity
                                        // -- End function
	.section	.rodata.cst8,"aM",@progbits,8
	.p2align	3, 0x0                          // -- Begin function senyolanda_bootstrap
.LCPI64_0:
	.xword	0x3c9cd2b297d889bc              // double 9.9999999999999997E-17
	.section	.rodata.cst16,"aM",@progbits,16
	.p2align	4, 0x0
.LCPI64_1:
	.xword	0x4000000000000000              // double 2
	.xword	0x3fe0000000000000              // double 0.5
.LCPI64_2:
	.xword	0xbff0000000000000              // double -1
	.xword	0x4014000000000000              // double 5
	.section	.text.senyolanda_bootstrap,"ax",@progbits
	.globl	senyolanda_bootstrap
	.p2align	2
	.type	senyolanda_bootstrap,@function
senyolanda_bootstrap:                   // @senyolanda_bootstrap
// %bb.0:                               // %start
	stp	d15, d14, [sp, #-160]!          // 16-byte Folded Spill
	stp	d13, d12, [sp, #16]             // 16-byte Folded Spill
	stp	d11, d10, [sp, #32]             // 16-byte Folded Spill
	stp	d9, d8, [sp, #48]               // 16-byte Folded Spill
	stp	x29, x30, [sp, #64]             // 16-byte Folded Spill
	add	x29, sp, #64
	stp	x28, x27, [sp, #80]             // 16-byte Folded Spill
	stp	x26, x25, [sp, #96]             // 16-byte Folded Spill
	stp	x24, x23, [sp, #112]            // 16-byte Folded Spill
	stp	x22, x21, [sp, #128]            // 16-byte Folded Spill
	stp	x20, x19, [sp, #144]            // 16-byte Folded Spill
	sub	sp, sp, #3072
	str	xzr, [sp]
	sub	sp, sp, #3072
	str	xzr, [sp]
	sub	sp, sp, #3072
	str	xzr, [sp]
	sub	sp, sp, #432
	mov	w8, #4096                       // =0x1000
	cmp	x0, #0
	mov	x21, x2
	mov	x22, x0
	mov	x26, x1
	csel	x20, x8, xzr, eq
	cmp	x2, #0
	add	x0, sp, #2392
	mov	w1, wzr
	mov	w2, #968                        // =0x3c8
	mov	x25, x4
	mov	x23, x3
	csel	x19, x8, xzr, eq
	bl	memset
	add	x0, sp, #468
	mov	w1, wzr
	mov	w2, #1924                       // =0x784
	bl	memset
	add	x0, sp, #3360
	mov	w1, wzr
	mov	w2, #1920                       // =0x780
	bl	memset
	cmp	x26, x23
	b.ne	.LBB64_3
// %bb.1:                               // %join.3.i.i.i
	sub	x8, x26, #121
	cmn	x8, #120
	b.hs	.LBB64_6
// %bb.2:
	mov	w9, #4                          // =0x4
	b	.LBB64_4
.LBB64_3:
	mov	w9, #3                          // =0x3
.LBB64_4:                               // %arm.1.i
	and	x8, x9, #0xffffffff000000ff
	add	x0, x8, #1
.LBB64_5:                               // %"senyolanda::swap_values::senyolanda_bootstrap.exit"
	add	sp, sp, #2, lsl #12             // =8192
	add	sp, sp, #1456
	ldp	x20, x19, [sp, #144]            // 16-byte Folded Reload
	ldp	x22, x21, [sp, #128]            // 16-byte Folded Reload
	ldp	x24, x23, [sp, #112]            // 16-byte Folded Reload
	ldp	x26, x25, [sp, #96]             // 16-byte Folded Reload
	ldp	x28, x27, [sp, #80]             // 16-byte Folded Reload
	ldp	x29, x30, [sp, #64]             // 16-byte Folded Reload
	ldp	d9, d8, [sp, #48]               // 16-byte Folded Reload
	ldp	d11, d10, [sp, #32]             // 16-byte Folded Reload
	ldp	d13, d12, [sp, #16]             // 16-byte Folded Reload
	ldp	d15, d14, [sp], #160            // 16-byte Folded Reload
	ret
.LBB64_6:                               // %join.6.lr.ph.i.i.i.i
	mov	x9, #4636737291354636288        // =0x4059000000000000
	movi	d8, #0000000000000000
	add	x24, sp, #1, lsl #12            // =4096
	fmov	d0, x9
	mov	x9, #-4503599627370496          // =0xfff0000000000000
	mov	x8, xzr
	fmov	d2, x9
	add	x24, x24, #3104
	add	x23, sp, #2392
	add	x27, x22, x20
	add	x20, x21, x19
	mov	w9, #5                          // =0x5
	//ARITH_FENCE
	//ARITH_FENCE
.LBB64_7:                               // %join.6.i.i.i.i
                                        // =>This Inner Loop Header: Depth=1
	ldr	d1, [x27, x8, lsl #3]
	ldr	d4, [x20, x8, lsl #3]
	fsub	d3, d1, d1
	fsub	d4, d4, d4
	//ARITH_FENCE
	fcmp	d3, d8
	//ARITH_FENCE
	fccmp	d4, d8, #0, eq
	b.ne	.LBB64_4
// %bb.8:                               // %"curves::curve::bad_knot.exit.i.i.i.i.i.i"
                                        //   in Loop: Header=BB64_7 Depth=1
	fmov	d3, d1
	//ARITH_FENCE
	//ARITH_FENCE
	fcmp	d3, d8
	cset	w10, mi
	fcmp	d2, d3
	//APP
	//NO_APP
	cset	w11, pl
	//APP
	//NO_APP
	orr	w10, w10, w11
	cbnz	w10, .LBB64_4
// %bb.9:                               // %"swaps::bootstrap::bad_par.exit.i.i.i.i"
                                        //   in Loop: Header=BB64_7 Depth=1
	fcmp	d8, d3
	cset	w10, pl
	fcmp	d0, d3
	//APP
	//NO_APP
	cset	w11, mi
	//APP
	//NO_APP
	orr	w10, w10, w11
	cbnz	w10, .LBB64_4
// %bb.10:                              // %join.10.i.i.i.i
                                        //   in Loop: Header=BB64_7 Depth=1
	fmov	d2, d1
	add	x8, x8, #1
	mov	x10, #4294967296                // =0x100000000
	cmp	x26, x8
	add	x9, x9, x10
	b.ne	.LBB64_7
// %bb.11:                              // %arm.2.i.i
	add	x0, sp, #1, lsl #12             // =4096
	mov	w1, wzr
	mov	w2, #960                        // =0x3c0
	add	x0, x0, #2144
	add	x19, sp, #1, lsl #12            // =4096
	str	x25, [sp, #8]                   // 8-byte Spill
	add	x19, x19, #2144
	bl	memset
	add	x0, sp, #1, lsl #12             // =4096
	mov	w1, wzr
	mov	w2, #960                        // =0x3c0
	add	x0, x0, #1184
	bl	memset
	mov	x9, #281474974613504            // =0xffffffe00000
	fmov	d0, #1.00000000
	adrp	x8, .LCPI64_0
	movk	x9, #16879, lsl #48
	ldr	d1, [x8, :lo12:.LCPI64_0]
	mov	x28, xzr
	fmov	d2, x9
	add	x8, x19, #8
	stp	x27, x26, [sp, #24]             // 16-byte Folded Spill
	//ARITH_FENCE
	str	d0, [sp, #16]                   // 8-byte Spill
	//ARITH_FENCE
	str	d1, [sp, #72]                   // 8-byte Spill
	//ARITH_FENCE
	str	d2, [sp, #48]                   // 8-byte Spill
	str	x8, [sp, #144]                  // 8-byte Spill
	str	x20, [sp, #40]                  // 8-byte Spill
	b	.LBB64_13
.LBB64_12:                              // %join.5.i.i.i.i.i
                                        //   in Loop: Header=BB64_13 Depth=1
	fmov	d0, #1.00000000
	fadd	d0, d13, d0
	bl	"elementary::ln::ln"
	ldr	x28, [sp, #64]                  // 8-byte Reload
	add	x8, sp, #1, lsl #12             // =4096
	add	x8, x8, #1184
	cmp	x28, x26
	str	d0, [x8, x21]
	b.eq	.LBB64_201
.LBB64_13:                              // %"curves::segments::last_knot.exit.i.i.i.i.i.i"
                                        // =>This Loop Header: Depth=1
                                        //     Child Loop BB64_25 Depth 2
                                        //     Child Loop BB64_30 Depth 2
                                        //       Child Loop BB64_31 Depth 3
                                        //       Child Loop BB64_35 Depth 3
                                        //         Child Loop BB64_48 Depth 4
                                        //         Child Loop BB64_38 Depth 4
                                        //       Child Loop BB64_59 Depth 3
                                        //     Child Loop BB64_72 Depth 2
                                        //     Child Loop BB64_97 Depth 2
                                        //       Child Loop BB64_102 Depth 3
                                        //     Child Loop BB64_130 Depth 2
                                        //       Child Loop BB64_139 Depth 3
                                        //       Child Loop BB64_163 Depth 3
                                        //         Child Loop BB64_168 Depth 4
	lsl	x21, x28, #3
	ldr	d0, [sp, #48]                   // 8-byte Reload
	add	x9, sp, #1, lsl #12             // =4096
	add	x9, x9, #2144
	ldr	d17, [x27, x21]
	str	d17, [x9, x21]
	fmov	d12, d17
	//ARITH_FENCE
	fcmp	d0, d12
	cset	w8, mi
	//APP
	//NO_APP
	cbz	w8, .LBB64_15
// %bb.14:                              //   in Loop: Header=BB64_13 Depth=1
	mov	w25, #-1                        // =0xffffffff
	ldr	d13, [x20, x21]
	add	x10, x28, #1
	str	q17, [sp, #336]                 // 16-byte Spill
	str	x10, [sp, #64]                  // 8-byte Spill
	cbnz	x28, .LBB64_23
	b	.LBB64_19
.LBB64_15:                              // %join.3.i.i.i.i.i.i.i
                                        //   in Loop: Header=BB64_13 Depth=1
	fcmp	d8, d12
	cset	w8, mi
	//APP
	//NO_APP
	cbz	w8, .LBB64_18
// %bb.16:                              // %then.4.i.i.i.i.i.i.i
                                        //   in Loop: Header=BB64_13 Depth=1
	ldr	d0, [sp, #16]                   // 8-byte Reload
	fcmp	d0, d12
	cset	w8, hi
	//APP
	//NO_APP
	cbz	w8, .LBB64_21
// %bb.17:                              //   in Loop: Header=BB64_13 Depth=1
	mov	w8, wzr
	b	.LBB64_22
.LBB64_18:                              //   in Loop: Header=BB64_13 Depth=1
	mov	w25, wzr
	ldr	d13, [x20, x21]
	add	x10, x28, #1
	str	q17, [sp, #336]                 // 16-byte Spill
	str	x10, [sp, #64]                  // 8-byte Spill
	cbnz	x28, .LBB64_23
.LBB64_19:                              // %"curves::segments::knot_at.exit.i.i593.thread.i.i.i.i"
                                        //   in Loop: Header=BB64_13 Depth=1
	ldr	d0, [x23, #3848]
	movi	d3, #0000000000000000
	str	wzr, [sp, #156]                 // 4-byte Spill
	str	d0, [sp, #400]                  // 8-byte Spill
	//ARITH_FENCE
	fcmp	d12, d0
	b.vc	.LBB64_65
// %bb.20:                              //   in Loop: Header=BB64_13 Depth=1
	movi	d18, #0000000000000000
	mov	x8, xzr
	b	.LBB64_76
.LBB64_21:                              // %then.1.i.i.i.i.i.i.i.i
                                        //   in Loop: Header=BB64_13 Depth=1
	fmov	x8, d17
	mov	x10, #4503599627370496          // =0x10000000000000
	mov	w11, #1075                      // =0x433
	lsr	x9, x8, #52
	bfxil	x10, x8, #0, #52
	lsr	x12, x8, #54
	sub	x11, x11, x9
	sub	x9, x9, #1075
	cmp	x12, #269
	lsr	x10, x10, x11
	lsl	x8, x8, x9
	csel	w8, w10, w8, lo
.LBB64_22:                              // %"core::num::truncating_f64_to_u64.exit.i.i.i.i.i.i.i"
                                        //   in Loop: Header=BB64_13 Depth=1
	ucvtf	d0, w8
	//ARITH_FENCE
	fcmp	d0, d12
	cset	w9, mi
	//APP
	//NO_APP
	cmp	w9, #0
	cinc	w25, w8, ne
	ldr	d13, [x20, x21]
	add	x10, x28, #1
	str	q17, [sp, #336]                 // 16-byte Spill
	str	x10, [sp, #64]                  // 8-byte Spill
	cbz	x28, .LBB64_19
.LBB64_23:                              // %join.3.i5.i.i.i.i.i.i
                                        //   in Loop: Header=BB64_13 Depth=1
	add	x9, sp, #1, lsl #12             // =4096
	mov	w8, wzr
	add	x9, x9, #2144
	add	x9, x9, x10, lsl #3
	ldur	d0, [x9, #-16]
	//ARITH_FENCE
	b	.LBB64_25
.LBB64_24:                              // %select.end
                                        //   in Loop: Header=BB64_25 Depth=2
	fcmp	d1, d0
	cset	w9, ls
	fcmp	d12, d1
	//APP
	//NO_APP
	cset	w10, hi
	cmp	w9, #0
	//APP
	//NO_APP
	ccmp	w10, #0, #4, ne
	b.eq	.LBB64_66
.LBB64_25:                              // %loop.2.i.i.i.i.i.i.i.i
                                        //   Parent Loop BB64_13 Depth=1
                                        // =>  This Inner Loop Header: Depth=2
	cmp	w25, w8
	b.eq	.LBB64_28
// %bb.26:                              // %join.5.i.i.i.i.i.i.i.i
                                        //   in Loop: Header=BB64_25 Depth=2
	add	w8, w8, #1
	ucvtf	d1, w8
	//ARITH_FENCE
	fcmp	d1, d12
	cset	w9, mi
	//APP
	//NO_APP
	cbnz	w9, .LBB64_24
// %bb.27:                              // %select.false
                                        //   in Loop: Header=BB64_25 Depth=2
	fmov	d1, d12
	b	.LBB64_24
.LBB64_28:                              //   in Loop: Header=BB64_13 Depth=1
	mov	w10, w25
	ldr	d9, [x23, #3848]
	str	w25, [sp, #156]                 // 4-byte Spill
	str	d9, [sp, #400]                  // 8-byte Spill
	//ARITH_FENCE
	cbz	w25, .LBB64_67
.LBB64_29:                              // %join.5.i.i.i.preheader.i.i.i.i
                                        //   in Loop: Header=BB64_13 Depth=1
	mov	x9, #9221120237041090560        // =0x7ff8000000000000
	add	x8, sp, #1, lsl #12             // =4096
	ldr	d0, [x23, #2896]
	fmov	d1, x9
	add	x8, x8, #1184
	cmp	x28, #1
	movi	d3, #0000000000000000
	add	x8, x8, x21
	ldr	d11, [x23, #2888]
	ldur	d14, [x8, #-8]
	ldr	d15, [x23, #3856]
	mov	w22, wzr
	fcsel	d10, d1, d0, eq
	mov	w8, w10
	mov	w19, #1                         // =0x1
	mov	w27, #-1                        // =0xffffffff
	str	x21, [sp, #56]                  // 8-byte Spill
.LBB64_30:                              // %join.5.i.i.i.i.i.i.i
                                        //   Parent Loop BB64_13 Depth=1
                                        // =>  This Loop Header: Depth=2
                                        //       Child Loop BB64_31 Depth 3
                                        //       Child Loop BB64_35 Depth 3
                                        //         Child Loop BB64_48 Depth 4
                                        //         Child Loop BB64_38 Depth 4
                                        //       Child Loop BB64_59 Depth 3
	subs	x21, x8, #64
	mov	w9, #64                         // =0x40
	sub	w23, w10, w22
	csel	x20, x8, x9, lo
	mvn	w10, w22
	movi	v0.2d, #0000000000000000
	cmp	x20, x27
	csel	x8, x20, x27, lo
	cmp	w23, w10
	csinv	w10, w23, w22, lo
	cmp	w10, #64
	stp	q0, q0, [x24]
	csel	w1, w10, w9, lo
	add	x9, sp, #1, lsl #12             // =4096
	mov	w10, w19
	add	x9, x9, #3104
	stp	q0, q0, [x24, #32]
	stp	q0, q0, [x24, #64]
	stp	q0, q0, [x24, #96]
	stp	q0, q0, [x24, #128]
	stp	q0, q0, [x24, #160]
	stp	q0, q0, [x24, #192]
	stp	q0, q0, [x24, #224]
	stp	q0, q0, [x24, #256]
	stp	q0, q0, [x24, #288]
	stp	q0, q0, [x24, #320]
	stp	q0, q0, [x24, #352]
	stp	q0, q0, [x24, #384]
	stp	q0, q0, [x24, #416]
	stp	q0, q0, [x24, #448]
	stp	q0, q0, [x24, #480]
.LBB64_31:                              // %join.6.i.i.i.i.i.i.i.i.i.i.i
                                        //   Parent Loop BB64_13 Depth=1
                                        //     Parent Loop BB64_30 Depth=2
                                        // =>    This Inner Loop Header: Depth=3
	ucvtf	d0, w10
	subs	x8, x8, #1
	add	w10, w10, #1
	//ARITH_FENCE
	str	d0, [x9], #8
	b.ne	.LBB64_31
// %bb.32:                              // %join.6.i.i.i.i.i.preheader
                                        //   in Loop: Header=BB64_30 Depth=2
	str	q3, [sp, #224]                  // 16-byte Spill
	movi	d0, #0000000000000000
	fmov	d5, d10
	fmov	d4, d11
	fmov	d3, d15
	ldr	d2, [sp, #400]                  // 8-byte Reload
	ldr	x14, [sp, #144]                 // 8-byte Reload
	mov	x9, xzr
	b	.LBB64_35
.LBB64_33:                              //   in Loop: Header=BB64_35 Depth=3
	mov	x10, #9221120237041090560       // =0x7ff8000000000000
	fmov	d4, x10
	fmov	d5, d4
.LBB64_34:                              // %"curves::each::next_in_hand.exit.i.i.i.i.i"
                                        //   in Loop: Header=BB64_35 Depth=3
	fsub	d6, d0, d2
	fsub	d7, d3, d2
	fcmp	d12, d1
	cset	w10, hi
	fdiv	d6, d6, d7
	fmov	d7, #1.00000000
	//APP
	//NO_APP
	cmp	w10, #0
	fsub	d7, d7, d6
	fmul	d6, d5, d6
	fmul	d7, d4, d7
	fadd	d6, d6, d7
	fcsel	d6, d6, d14, ne
	fcmp	d1, d9
	cset	w10, hi
	//APP
	//NO_APP
	cmp	w10, #0
	fcsel	d6, d6, d11, ne
	fcmp	d1, d8
	fnmul	d1, d6, d0
	movi	d6, #0000000000000000
	cset	w10, hi
	//APP
	//NO_APP
	cmp	w10, #0
	add	x10, sp, #1, lsl #12            // =4096
	add	x10, x10, #3104
	fcsel	d1, d1, d6, ne
	str	d1, [x10, x8, lsl #3]
	add	x8, x8, #1
	cmp	x8, x1
	b.eq	.LBB64_57
.LBB64_35:                              // %join.6.i.i.i.i.i
                                        //   Parent Loop BB64_13 Depth=1
                                        //     Parent Loop BB64_30 Depth=2
                                        // =>    This Loop Header: Depth=3
                                        //         Child Loop BB64_48 Depth 4
                                        //         Child Loop BB64_38 Depth 4
	add	x10, sp, #1, lsl #12            // =4096
	fmov	d6, d0
	add	x10, x10, #3104
	ldr	d0, [x10, x8, lsl #3]
	fmov	d1, d0
	//ARITH_FENCE
	//ARITH_FENCE
	fcmp	d6, d1
	cset	w10, mi
	//APP
	//NO_APP
	cbz	w10, .LBB64_46
// %bb.36:                              // %then.2.i14.i.i.i.i.i
                                        //   in Loop: Header=BB64_35 Depth=3
	fmov	d6, d3
	//ARITH_FENCE
	fcmp	d1, d6
	cset	w10, hi
	//APP
	//NO_APP
	cbz	w10, .LBB64_34
// %bb.37:                              // %then.1.i.i15.i.i.i.i.i
                                        //   in Loop: Header=BB64_35 Depth=3
	cmp	x9, x28
	mov	w11, #1                         // =0x1
	csel	x10, xzr, x9, hi
	add	x9, x14, x10, lsl #3
	subs	x12, x28, x10
	sub	x10, x11, x10
	csel	x11, xzr, x12, lo
.LBB64_38:                              // %loop.2.i.i.i.i.i.i.i.i.i
                                        //   Parent Loop BB64_13 Depth=1
                                        //     Parent Loop BB64_30 Depth=2
                                        //       Parent Loop BB64_35 Depth=3
                                        // =>      This Inner Loop Header: Depth=4
	cbz	x11, .LBB64_52
// %bb.39:                              // %join.5.i.i.i.i.i.i.i.i.i
                                        //   in Loop: Header=BB64_38 Depth=4
	ldr	d2, [x9], #8
	sub	x10, x10, #1
	sub	x11, x11, #1
	//ARITH_FENCE
	fcmp	d1, d2
	cset	w12, hi
	//APP
	//NO_APP
	cbnz	w12, .LBB64_38
// %bb.40:                              // %"curves::each::next_segment.exit.i.i.i.i.i.i.loopexit"
                                        //   in Loop: Header=BB64_35 Depth=3
	neg	x9, x10
.LBB64_41:                              // %"curves::each::next_segment.exit.i.i.i.i.i.i"
                                        //   in Loop: Header=BB64_35 Depth=3
	cmp	x9, x28
	b.ls	.LBB64_50
// %bb.42:                              //   in Loop: Header=BB64_35 Depth=3
	mov	x10, #9221120237041090560       // =0x7ff8000000000000
	fmov	d2, x10
	fmov	d3, d2
.LBB64_43:                              // %"curves::segments::knot_after.exit.i.i.i.i.i.i.i"
                                        //   in Loop: Header=BB64_35 Depth=3
	cmp	x9, x28
	b.hs	.LBB64_33
// %bb.44:                              // %then.1.i19.i.i.i.i.i.i.i
                                        //   in Loop: Header=BB64_35 Depth=3
	add	x10, sp, #1, lsl #12            // =4096
	add	x11, x9, #1
	add	x10, x10, #1184
	cmp	x11, x28
	ldr	d4, [x10, x9, lsl #3]
	b.hs	.LBB64_55
// %bb.45:                              // %arm.1.i.i.i22.i.i.i.i.i.i.i
                                        //   in Loop: Header=BB64_35 Depth=3
	ldr	d5, [x10, x11, lsl #3]
	b	.LBB64_34
.LBB64_46:                              // %join.5.i.i.i.i.i.i.i.i.i.i.preheader
                                        //   in Loop: Header=BB64_35 Depth=3
	mov	x9, xzr
	add	x10, x28, #1
	b	.LBB64_48
.LBB64_47:                              // %select.end42
                                        //   in Loop: Header=BB64_48 Depth=4
	sub	x10, x10, x11
	cmp	x10, #1
	b.ls	.LBB64_41
.LBB64_48:                              // %join.5.i.i.i.i.i.i.i.i.i.i
                                        //   Parent Loop BB64_13 Depth=1
                                        //     Parent Loop BB64_30 Depth=2
                                        //       Parent Loop BB64_35 Depth=3
                                        // =>      This Inner Loop Header: Depth=4
	lsr	x11, x10, #1
	add	x13, sp, #1, lsl #12            // =4096
	add	x13, x13, #2144
	add	x12, x11, x9
	ldr	d2, [x13, x12, lsl #3]
	//ARITH_FENCE
	fcmp	d1, d2
	cset	w13, ls
	//APP
	//NO_APP
	cbnz	w13, .LBB64_47
// %bb.49:                              // %select.false43
                                        //   in Loop: Header=BB64_48 Depth=4
	mov	x9, x12
	b	.LBB64_47
.LBB64_50:                              // %then.2.i.i.i.i.i.i.i
                                        //   in Loop: Header=BB64_35 Depth=3
	lsl	x10, x9, #3
	add	x12, sp, #1, lsl #12            // =4096
	add	x11, x9, #1
	add	x12, x12, #2144
	cmp	x11, x28
	ldr	d2, [x12, x10]
	b.hs	.LBB64_53
// %bb.51:                              // %then.8.i.i.i.i.i.i.i
                                        //   in Loop: Header=BB64_35 Depth=3
	add	x13, sp, #1, lsl #12            // =4096
	add	x11, x10, #8
	add	x13, x13, #1184
	ldr	d3, [x12, x11]
	ldr	d4, [x13, x10]
	ldr	d5, [x13, x11]
	b	.LBB64_34
.LBB64_52:                              //   in Loop: Header=BB64_35 Depth=3
	mov	x9, #9221120237041090560        // =0x7ff8000000000000
	fmov	d2, d17
	fmov	d3, x9
	mov	x9, x28
	fmov	d4, d3
	fmov	d5, d3
	b	.LBB64_34
.LBB64_53:                              // %then.1.i.i.i.i176.i.i.i.i
                                        //   in Loop: Header=BB64_35 Depth=3
	cmp	x9, x28
	b.hs	.LBB64_56
// %bb.54:                              // %arm.1.i.i.i.i.i.i.i.i.i.i
                                        //   in Loop: Header=BB64_35 Depth=3
	add	x10, sp, #1, lsl #12            // =4096
	add	x10, x10, #2144
	ldr	d3, [x10, x11, lsl #3]
	b	.LBB64_43
.LBB64_55:                              //   in Loop: Header=BB64_35 Depth=3
	mov	x10, #9221120237041090560       // =0x7ff8000000000000
	fmov	d5, x10
	b	.LBB64_34
.LBB64_56:                              //   in Loop: Header=BB64_35 Depth=3
	mov	x10, #9221120237041090560       // =0x7ff8000000000000
	fmov	d3, x10
	b	.LBB64_43
.LBB64_57:                              // %"curves::each::answer_onward.exit.i.i.i.i"
                                        //   in Loop: Header=BB64_30 Depth=2
	add	x0, sp, #1, lsl #12             // =4096
	add	x0, x0, #3104
	bl	"elementary::exp::exp_each"
	add	x0, sp, #2, lsl #12             // =8192
	add	x1, sp, #1, lsl #12             // =4096
	mov	w2, #512                        // =0x200
	add	x0, x0, #928
	add	x1, x1, #3104
	add	x26, sp, #2, lsl #12            // =8192
	add	x26, x26, #928
	bl	memcpy
	ldr	q17, [sp, #336]                 // 16-byte Reload
	ldr	q3, [sp, #224]                  // 16-byte Reload
	mov	w8, w22
	b	.LBB64_59
.LBB64_58:                              // %select.end34
                                        //   in Loop: Header=BB64_59 Depth=3
	movi	d1, #0000000000000000
	add	w9, w8, #1
	cmp	w8, #0
	ucvtf	d2, w9
	mov	w8, w9
	fcsel	d0, d1, d0, eq
	ldr	d1, [x26], #8
	//ARITH_FENCE
	subs	x20, x20, #1
	fsub	d0, d2, d0
	fmul	d0, d13, d0
	fmul	d0, d1, d0
	fadd	d3, d3, d0
	b.eq	.LBB64_61
.LBB64_59:                              // %join.6.i.i.i.i.i.i.i.i.i
                                        //   Parent Loop BB64_13 Depth=1
                                        //     Parent Loop BB64_30 Depth=2
                                        // =>    This Inner Loop Header: Depth=3
	ucvtf	d0, w8
	//ARITH_FENCE
	fcmp	d0, d12
	cset	w9, mi
	//APP
	//NO_APP
	cbnz	w9, .LBB64_58
// %bb.60:                              // %select.false35
                                        //   in Loop: Header=BB64_59 Depth=3
	fmov	d0, d17
	b	.LBB64_58
.LBB64_61:                              // %"swaps::knots::add_coupon_run.exit.loopexit.i.i.i.i.i.i.i"
                                        //   in Loop: Header=BB64_30 Depth=2
	cmp	w23, #65
	b.lo	.LBB64_63
// %bb.62:                              // %"swaps::knots::add_coupon_run.exit.loopexit.i.i.i.i.i.i.i"
                                        //   in Loop: Header=BB64_30 Depth=2
	ldr	w10, [sp, #156]                 // 4-byte Reload
	add	w22, w22, #64
	sub	x27, x27, #64
	add	w19, w19, #64
	mov	x8, x21
	cmp	w22, w10
	b.lo	.LBB64_30
.LBB64_63:                              //   in Loop: Header=BB64_13 Depth=1
	ldp	x27, x26, [sp, #24]             // 16-byte Folded Reload
	add	x23, sp, #2392
	ldr	x20, [sp, #40]                  // 8-byte Reload
	ldr	x21, [sp, #56]                  // 8-byte Reload
	fcmp	d12, d9
	cset	w8, hi
	//APP
	//NO_APP
	cbz	w8, .LBB64_68
.LBB64_64:                              // %"curves::segments::last_knot.exit.i.i646.i.i.i.i"
                                        //   in Loop: Header=BB64_13 Depth=1
	fcmp	d12, d12
	b.vs	.LBB64_70
.LBB64_65:                              //   in Loop: Header=BB64_13 Depth=1
	adrp	x8, .LCPI64_1
	fmov	d0, #3.50000000
	ldr	q2, [x8, :lo12:.LCPI64_1]
	adrp	x8, .LCPI64_2
	ldr	q1, [x8, :lo12:.LCPI64_2]
	fcmp	d12, d8
	str	q3, [sp, #224]                  // 16-byte Spill
	cset	w22, hi
	//APP
	//NO_APP
	cbnz	w22, .LBB64_69
	b	.LBB64_93
.LBB64_66:                              // %"join.5.i.i.i.i.i.i.i.i.swaps::knots::settled_at.exit.i.i.i.i.i.i_crit_edge"
                                        //   in Loop: Header=BB64_13 Depth=1
	sub	w10, w8, #1
	ldr	d9, [x23, #3848]
	str	w10, [sp, #156]                 // 4-byte Spill
	str	d9, [sp, #400]                  // 8-byte Spill
	//ARITH_FENCE
	cbnz	w10, .LBB64_29
.LBB64_67:                              // %"swaps::knots::settled_at.exit.i.i.curves::segments::knot_at.exit.i.i593_crit_edge.i.i.i.i"
                                        //   in Loop: Header=BB64_13 Depth=1
	movi	d3, #0000000000000000
	fcmp	d12, d9
	cset	w8, hi
	//APP
	//NO_APP
	cbnz	w8, .LBB64_64
.LBB64_68:                              // %join.3.i.i.i600.i.i.i.i
                                        //   in Loop: Header=BB64_13 Depth=1
	ldr	d0, [x23, #2888]
	dup	v1.2d, v0.d[0]
	mov	v2.16b, v1.16b
	fcmp	d12, d8
	str	q3, [sp, #224]                  // 16-byte Spill
	cset	w22, hi
	//APP
	//NO_APP
	cbz	w22, .LBB64_93
.LBB64_69:                              // %join.5.us.preheader.i.i629.i.i.i.i
                                        //   in Loop: Header=BB64_13 Depth=1
	fneg	v1.2d, v1.2d
	fneg	v2.2d, v2.2d
	fnmul	d0, d0, d17
	fmul	v1.2d, v1.2d, v17.d[0]
	fmul	v2.2d, v2.2d, v17.d[0]
	b	.LBB64_94
.LBB64_70:                              // %join.5.i.i.i.i654.i.i.i.i.preheader
                                        //   in Loop: Header=BB64_13 Depth=1
	mov	v18.16b, v3.16b
	mov	x8, xzr
	add	x9, x28, #1
	b	.LBB64_72
.LBB64_71:                              // %select.end32
                                        //   in Loop: Header=BB64_72 Depth=2
	sub	x9, x9, x10
	cmp	x9, #1
	b.ls	.LBB64_74
.LBB64_72:                              // %join.5.i.i.i.i654.i.i.i.i
                                        //   Parent Loop BB64_13 Depth=1
                                        // =>  This Inner Loop Header: Depth=2
	lsr	x10, x9, #1
	add	x12, sp, #1, lsl #12            // =4096
	add	x12, x12, #2144
	add	x11, x10, x8
	ldr	d0, [x12, x11, lsl #3]
	//ARITH_FENCE
	fcmp	d12, d0
	cset	w12, ls
	//APP
	//NO_APP
	cbnz	w12, .LBB64_71
// %bb.73:                              // %select.false33
                                        //   in Loop: Header=BB64_72 Depth=2
	mov	x8, x11
	b	.LBB64_71
.LBB64_74:                              // %"curves::ending::segment.exit.i.i667.i.i.i.i"
                                        //   in Loop: Header=BB64_13 Depth=1
	cmp	x8, x28
	b.ls	.LBB64_76
// %bb.75:                              //   in Loop: Header=BB64_13 Depth=1
	mov	x9, #9221120237041090560        // =0x7ff8000000000000
	fmov	d0, x9
	fmov	d1, d0
	b	.LBB64_79
.LBB64_76:                              // %then.1.i21.i.i736.i.i.i.i
                                        //   in Loop: Header=BB64_13 Depth=1
	add	x9, sp, #1, lsl #12             // =4096
	cmp	x8, x28
	add	x9, x9, #2144
	add	x9, x9, x8, lsl #3
	ldr	d0, [x9]
	b.hs	.LBB64_78
// %bb.77:                              // %arm.1.i.i.i.i.i742.i.i.i.i
                                        //   in Loop: Header=BB64_13 Depth=1
	ldr	d1, [x9, #8]
	b	.LBB64_79
.LBB64_78:                              //   in Loop: Header=BB64_13 Depth=1
	mov	x9, #9221120237041090560        // =0x7ff8000000000000
	fmov	d1, x9
.LBB64_79:                              // %"curves::segments::knot_after.exit.i.i670.i.i.i.i"
                                        //   in Loop: Header=BB64_13 Depth=1
	cmp	x8, x28
	b.ne	.LBB64_81
// %bb.80:                              //   in Loop: Header=BB64_13 Depth=1
	adrp	x9, .LCPI64_1
	fmov	d2, #3.50000000
	ldr	q4, [x9, :lo12:.LCPI64_1]
	adrp	x9, .LCPI64_2
	ldr	q3, [x9, :lo12:.LCPI64_2]
	b	.LBB64_85
.LBB64_81:                              // %join.3.i25.i.i674.i.i.i.i
                                        //   in Loop: Header=BB64_13 Depth=1
	cmp	x8, x28
	b.hs	.LBB64_83
// %bb.82:                              // %arm.1.i.i.i34.i.i732.i.i.i.i
                                        //   in Loop: Header=BB64_13 Depth=1
	add	x9, sp, #1, lsl #12             // =4096
	add	x9, x9, #1184
	ldr	d2, [x9, x8, lsl #3]
	dup	v3.2d, v2.d[0]
	b	.LBB64_84
.LBB64_83:                              //   in Loop: Header=BB64_13 Depth=1
	mov	x9, #9221120237041090560        // =0x7ff8000000000000
	dup	v3.2d, x9
	fmov	d2, x9
.LBB64_84:                              // %"swaps::trials::rates_with.exit61.i.i676.i.i.i.i"
                                        //   in Loop: Header=BB64_13 Depth=1
	mov	v4.16b, v3.16b
.LBB64_85:                              // %"swaps::trials::rates_with.exit61.i.i676.i.i.i.i"
                                        //   in Loop: Header=BB64_13 Depth=1
	cmp	x8, x28
	b.hs	.LBB64_90
// %bb.86:                              // %then.1.i62.i.i723.i.i.i.i
                                        //   in Loop: Header=BB64_13 Depth=1
	add	x8, x8, #1
	cmp	x8, x28
	b.ne	.LBB64_88
// %bb.87:                              //   in Loop: Header=BB64_13 Depth=1
	adrp	x8, .LCPI64_1
	fmov	d5, #3.50000000
	ldr	q7, [x8, :lo12:.LCPI64_1]
	adrp	x8, .LCPI64_2
	ldr	q6, [x8, :lo12:.LCPI64_2]
	b	.LBB64_92
.LBB64_88:                              // %join.3.i.i.i.i726.i.i.i.i
                                        //   in Loop: Header=BB64_13 Depth=1
	cmp	x8, x28
	b.hs	.LBB64_90
// %bb.89:                              // %arm.1.i.i.i.i.i.i728.i.i.i.i
                                        //   in Loop: Header=BB64_13 Depth=1
	add	x9, sp, #1, lsl #12             // =4096
	add	x9, x9, #1184
	ldr	d5, [x9, x8, lsl #3]
	dup	v6.2d, v5.d[0]
	b	.LBB64_91
.LBB64_90:                              //   in Loop: Header=BB64_13 Depth=1
	mov	x8, #9221120237041090560        // =0x7ff8000000000000
	dup	v6.2d, x8
	fmov	d5, x8
.LBB64_91:                              // %"swaps::trials::rates_after.exit.i.i686.i.i.i.i"
                                        //   in Loop: Header=BB64_13 Depth=1
	mov	v7.16b, v6.16b
.LBB64_92:                              // %"swaps::trials::rates_after.exit.i.i686.i.i.i.i"
                                        //   in Loop: Header=BB64_13 Depth=1
	ldr	q17, [sp, #336]                 // 16-byte Reload
	ldp	x27, x26, [sp, #24]             // 16-byte Folded Reload
	ldr	x20, [sp, #40]                  // 8-byte Reload
	add	x23, sp, #2392
	fsub	d16, d17, d0
	fsub	d0, d1, d0
	fmov	d1, #1.00000000
	fdiv	d0, d16, d0
	fsub	d1, d1, d0
	fmul	v6.2d, v6.2d, v0.d[0]
	fmul	v7.2d, v7.2d, v0.d[0]
	fmul	d0, d0, d5
	fmul	v3.2d, v3.2d, v1.d[0]
	fmul	v4.2d, v4.2d, v1.d[0]
	fmul	d16, d1, d2
	fadd	v1.2d, v3.2d, v6.2d
	fadd	v2.2d, v4.2d, v7.2d
	fadd	d0, d16, d0
	mov	v3.16b, v18.16b
	fcmp	d12, d8
	str	q3, [sp, #224]                  // 16-byte Spill
	cset	w22, hi
	//APP
	//NO_APP
	cbnz	w22, .LBB64_69
.LBB64_93:                              //   in Loop: Header=BB64_13 Depth=1
	movi	v1.2d, #0000000000000000
	movi	d0, #0000000000000000
	movi	v2.2d, #0000000000000000
.LBB64_94:                              // %"swaps::trials::discounts_with.exit752.i.i.i.i"
                                        //   in Loop: Header=BB64_13 Depth=1
	dup	v3.2d, v2.d[0]
	add	x0, sp, #1, lsl #12             // =4096
	mov	w1, #8                          // =0x8
	add	x0, x0, #3104
	stp	q1, q2, [x24]
	str	d0, [x24, #32]
	stur	q3, [x24, #40]
	str	d2, [x24, #56]
	bl	"elementary::exp::exp_each"
	ldr	q0, [sp, #224]                  // 16-byte Reload
	ldur	q1, [x24, #24]
	ldr	w8, [sp, #156]                  // 4-byte Reload
	ldr	d9, [x24]
	dup	v3.2d, v0.d[0]
	str	q1, [sp, #368]                  // 16-byte Spill
	ldur	q1, [x24, #8]
	cmp	w8, w25
	str	q1, [sp, #384]                  // 16-byte Spill
	b.hs	.LBB64_127
// %bb.95:                              // %join.7.i88.preheader.i.i.i.i
                                        //   in Loop: Header=BB64_13 Depth=1
	ldr	d1, [x23, #2888]
	fmov	d10, d0
	mov	v19.16b, v3.16b
	ldr	d11, [sp, #400]                 // 8-byte Reload
	ldr	q21, [sp, #336]                 // 16-byte Reload
	str	q1, [sp, #352]                  // 16-byte Spill
	dup	v1.2d, v1.d[0]
	//ARITH_FENCE
	str	q1, [sp, #320]                  // 16-byte Spill
	b	.LBB64_97
.LBB64_96:                              // %else.2.i.i108.i.i.i.i
                                        //   in Loop: Header=BB64_97 Depth=2
	fsub	d0, d21, d1
	ldp	q1, q4, [sp, #368]              // 32-byte Folded Reload
	fmul	d2, d13, d0
	fmul	d0, d9, d2
	fmul	v1.2d, v1.2d, v2.d[0]
	fmul	v2.2d, v4.2d, v2.d[0]
	fadd	d10, d10, d0
	fadd	v3.2d, v3.2d, v2.2d
	cmp	w19, w25
	fadd	v19.2d, v19.2d, v1.2d
	mov	w8, w19
	b.eq	.LBB64_128
.LBB64_97:                              // %join.7.i88.i.i.i.i
                                        //   Parent Loop BB64_13 Depth=1
                                        // =>  This Loop Header: Depth=2
                                        //       Child Loop BB64_102 Depth 3
	ucvtf	d1, w8
	add	w19, w8, #1
	movi	d2, #0000000000000000
	ucvtf	d0, w19
	//ARITH_FENCE
	fcmp	d1, d12
	//ARITH_FENCE
	cset	w9, mi
	//APP
	//NO_APP
	cmp	w9, #0
	fcsel	d1, d1, d21, ne
	cmp	w8, #0
	fcsel	d1, d2, d1, eq
	fcmp	d0, d12
	cset	w8, mi
	//APP
	//NO_APP
	cbz	w8, .LBB64_96
// %bb.98:                              // %"curves::segments::knot_at.exit.i.i416.i.i.i.i"
                                        //   in Loop: Header=BB64_97 Depth=2
	fcmp	d0, d11
	str	q3, [sp, #448]                  // 16-byte Spill
	cset	w8, hi
	//APP
	//NO_APP
	cbz	w8, .LBB64_110
// %bb.99:                              // %join.6.i.i475.i.i.i.i
                                        //   in Loop: Header=BB64_97 Depth=2
	mov	x8, xzr
	cbz	x28, .LBB64_106
// %bb.100:                             // %join.5.i.i.i.i477.i.i.i.i.preheader
                                        //   in Loop: Header=BB64_97 Depth=2
	add	x9, x28, #1
	b	.LBB64_102
.LBB64_101:                             // %select.end38
                                        //   in Loop: Header=BB64_102 Depth=3
	sub	x9, x9, x10
	cmp	x9, #1
	b.ls	.LBB64_104
.LBB64_102:                             // %join.5.i.i.i.i477.i.i.i.i
                                        //   Parent Loop BB64_13 Depth=1
                                        //     Parent Loop BB64_97 Depth=2
                                        // =>    This Inner Loop Header: Depth=3
	lsr	x10, x9, #1
	add	x12, sp, #1, lsl #12            // =4096
	add	x12, x12, #2144
	add	x11, x10, x8
	ldr	d2, [x12, x11, lsl #3]
	//ARITH_FENCE
	fcmp	d0, d2
	cset	w12, ls
	//APP
	//NO_APP
	cbnz	w12, .LBB64_101
// %bb.103:                             // %select.false39
                                        //   in Loop: Header=BB64_102 Depth=3
	mov	x8, x11
	b	.LBB64_101
.LBB64_104:                             // %"curves::ending::segment.exit.i.i490.i.i.i.i"
                                        //   in Loop: Header=BB64_97 Depth=2
	cmp	x8, x28
	b.ls	.LBB64_106
// %bb.105:                             //   in Loop: Header=BB64_97 Depth=2
	mov	x9, #9221120237041090560        // =0x7ff8000000000000
	fmov	d2, x9
	fmov	d3, d2
	cmp	x8, x28
	b.ne	.LBB64_108
	b	.LBB64_113
.LBB64_106:                             // %then.1.i21.i.i559.i.i.i.i
                                        //   in Loop: Header=BB64_97 Depth=2
	add	x9, sp, #1, lsl #12             // =4096
	cmp	x8, x28
	add	x9, x9, #2144
	add	x9, x9, x8, lsl #3
	ldr	d2, [x9]
	b.hs	.LBB64_112
// %bb.107:                             // %arm.1.i.i.i.i.i565.i.i.i.i
                                        //   in Loop: Header=BB64_97 Depth=2
	ldr	d3, [x9, #8]
	cmp	x8, x28
	b.eq	.LBB64_113
.LBB64_108:                             // %join.3.i25.i.i497.i.i.i.i
                                        //   in Loop: Header=BB64_97 Depth=2
	cmp	x8, x28
	b.hs	.LBB64_114
// %bb.109:                             // %arm.1.i.i.i34.i.i555.i.i.i.i
                                        //   in Loop: Header=BB64_97 Depth=2
	add	x9, sp, #1, lsl #12             // =4096
	add	x9, x9, #1184
	ldr	d4, [x9, x8, lsl #3]
	dup	v5.2d, v4.d[0]
	b	.LBB64_115
.LBB64_110:                             // %then.1.i.i421.i.i.i.i
                                        //   in Loop: Header=BB64_97 Depth=2
	cbz	x28, .LBB64_124
// %bb.111:                             // %join.3.i.i.i423.i.i.i.i
                                        //   in Loop: Header=BB64_97 Depth=2
	ldr	q3, [sp, #320]                  // 16-byte Reload
	ldr	q2, [sp, #352]                  // 16-byte Reload
                                        // kill: def $d2 killed $d2 killed $q2
	mov	v4.16b, v3.16b
	fcmp	d0, d8
	str	q19, [sp, #432]                 // 16-byte Spill
	cset	w8, hi
	//APP
	//NO_APP
	cbnz	w8, .LBB64_123
	b	.LBB64_125
.LBB64_112:                             //   in Loop: Header=BB64_97 Depth=2
	mov	x9, #9221120237041090560        // =0x7ff8000000000000
	fmov	d3, x9
	cmp	x8, x28
	b.ne	.LBB64_108
.LBB64_113:                             //   in Loop: Header=BB64_97 Depth=2
	adrp	x9, .LCPI64_1
	fmov	d4, #3.50000000
	ldr	q6, [x9, :lo12:.LCPI64_1]
	adrp	x9, .LCPI64_2
	ldr	q5, [x9, :lo12:.LCPI64_2]
	cmp	x8, x28
	b.lo	.LBB64_116
	b	.LBB64_120
.LBB64_114:                             //   in Loop: Header=BB64_97 Depth=2
	mov	x9, #9221120237041090560        // =0x7ff8000000000000
	dup	v5.2d, x9
	fmov	d4, x9
.LBB64_115:                             // %"swaps::trials::rates_with.exit61.i.i499.i.i.i.i"
                                        //   in Loop: Header=BB64_97 Depth=2
	mov	v6.16b, v5.16b
	cmp	x8, x28
	b.hs	.LBB64_120
.LBB64_116:                             // %then.1.i62.i.i546.i.i.i.i
                                        //   in Loop: Header=BB64_97 Depth=2
	add	x8, x8, #1
	cmp	x8, x28
	b.ne	.LBB64_118
// %bb.117:                             //   in Loop: Header=BB64_97 Depth=2
	adrp	x8, .LCPI64_1
	fmov	d7, #3.50000000
	ldr	q17, [x8, :lo12:.LCPI64_1]
	adrp	x8, .LCPI64_2
	ldr	q16, [x8, :lo12:.LCPI64_2]
	b	.LBB64_122
.LBB64_118:                             // %join.3.i.i.i.i549.i.i.i.i
                                        //   in Loop: Header=BB64_97 Depth=2
	cmp	x8, x28
	b.hs	.LBB64_120
// %bb.119:                             // %arm.1.i.i.i.i.i.i551.i.i.i.i
                                        //   in Loop: Header=BB64_97 Depth=2
	add	x9, sp, #1, lsl #12             // =4096
	add	x9, x9, #1184
	ldr	d7, [x9, x8, lsl #3]
	dup	v16.2d, v7.d[0]
	b	.LBB64_121
.LBB64_120:                             //   in Loop: Header=BB64_97 Depth=2
	mov	x8, #9221120237041090560        // =0x7ff8000000000000
	dup	v16.2d, x8
	fmov	d7, x8
.LBB64_121:                             // %"swaps::trials::rates_after.exit.i.i509.i.i.i.i"
                                        //   in Loop: Header=BB64_97 Depth=2
	mov	v17.16b, v16.16b
.LBB64_122:                             // %"swaps::trials::rates_after.exit.i.i509.i.i.i.i"
                                        //   in Loop: Header=BB64_97 Depth=2
	fsub	d18, d0, d2
	fsub	d2, d3, d2
	fmov	d3, #1.00000000
	fdiv	d2, d18, d2
	fsub	d3, d3, d2
	fmul	v16.2d, v16.2d, v2.d[0]
	fmul	v17.2d, v17.2d, v2.d[0]
	fmul	d2, d2, d7
	fmul	v5.2d, v5.2d, v3.d[0]
	fmul	v6.2d, v6.2d, v3.d[0]
	fmul	d18, d3, d4
	fadd	v4.2d, v5.2d, v16.2d
	fadd	v3.2d, v6.2d, v17.2d
	fadd	d2, d18, d2
	fcmp	d0, d8
	str	q19, [sp, #432]                 // 16-byte Spill
	cset	w8, hi
	//APP
	//NO_APP
	cbz	w8, .LBB64_125
.LBB64_123:                             // %join.5.us.preheader.i.i452.i.i.i.i
                                        //   in Loop: Header=BB64_97 Depth=2
	fneg	v4.2d, v4.2d
	fneg	v3.2d, v3.2d
	fnmul	d2, d2, d0
	fmul	v4.2d, v4.2d, v0.d[0]
	fmul	v3.2d, v3.2d, v0.d[0]
	b	.LBB64_126
.LBB64_124:                             //   in Loop: Header=BB64_97 Depth=2
	adrp	x8, .LCPI64_1
	fmov	d2, #3.50000000
	ldr	q3, [x8, :lo12:.LCPI64_1]
	adrp	x8, .LCPI64_2
	ldr	q4, [x8, :lo12:.LCPI64_2]
	fcmp	d0, d8
	str	q19, [sp, #432]                 // 16-byte Spill
	cset	w8, hi
	//APP
	//NO_APP
	cbnz	w8, .LBB64_123
.LBB64_125:                             //   in Loop: Header=BB64_97 Depth=2
	movi	v4.2d, #0000000000000000
	movi	d2, #0000000000000000
	movi	v3.2d, #0000000000000000
.LBB64_126:                             // %"swaps::trials::discounts_with.exit575.i.i.i.i"
                                        //   in Loop: Header=BB64_97 Depth=2
	fsub	d0, d0, d1
	dup	v1.2d, v3.d[0]
	add	x0, sp, #1, lsl #12             // =4096
	add	x0, x0, #3104
	mov	w1, #8                          // =0x8
	stp	q4, q3, [x24]
	str	d2, [x24, #32]
	stur	q1, [x24, #40]
	fmul	d0, d13, d0
	str	d3, [x24, #56]
	str	q0, [sp, #416]                  // 16-byte Spill
	bl	"elementary::exp::exp_each"
	ldp	q3, q19, [sp, #416]             // 32-byte Folded Reload
	ldr	d0, [x24]
	ldur	q2, [x24, #8]
	ldur	q1, [x24, #24]
	ldr	q21, [sp, #336]                 // 16-byte Reload
	fmul	d0, d3, d0
	fmul	v1.2d, v1.2d, v3.d[0]
	fmul	v2.2d, v2.2d, v3.d[0]
	ldr	q3, [sp, #448]                  // 16-byte Reload
	fadd	d10, d10, d0
	fadd	v3.2d, v3.2d, v2.2d
	cmp	w19, w25
	fadd	v19.2d, v19.2d, v1.2d
	mov	w8, w19
	b.ne	.LBB64_97
	b	.LBB64_128
.LBB64_127:                             //   in Loop: Header=BB64_13 Depth=1
	ldr	q21, [sp, #336]                 // 16-byte Reload
	fmov	d10, d0
	mov	v19.16b, v3.16b
.LBB64_128:                             // %"swaps::knots::errors_of.exit156.i.i.i.i"
                                        //   in Loop: Header=BB64_13 Depth=1
	fadd	d1, d9, d10
	fmov	d0, #-1.00000000
	ldr	q4, [sp, #384]                  // 16-byte Reload
	fadd	d2, d4, d3
	fadd	d1, d1, d0
	fadd	d2, d2, d0
	//ARITH_FENCE
	fcmp	d1, d8
	//ARITH_FENCE
	cset	w8, mi
	fcmp	d8, d2
	//APP
	//NO_APP
	cset	w9, mi
	//APP
	//NO_APP
	orr	w8, w8, w9
	cbnz	w8, .LBB64_12
// %bb.129:                             // %after.1.i.i.i.i.i
                                        //   in Loop: Header=BB64_13 Depth=1
	fadd	v1.2d, v4.2d, v3.2d
	ldr	q3, [sp, #368]                  // 16-byte Reload
	fmov	d5, #0.50000000
	fmov	d4, #3.50000000
	str	x21, [sp, #56]                  // 8-byte Spill
	ldr	d9, [sp, #72]                   // 8-byte Reload
	fadd	v2.2d, v3.2d, v19.2d
	mov	w20, wzr
	mov	d1, v1.d[1]
	mov	d2, v2.d[1]
	fadd	d1, d1, d0
	//ARITH_FENCE
	fcmp	d8, d1
	fadd	d1, d3, d19
	fmov	d3, #5.00000000
	cset	w8, mi
	//APP
	//NO_APP
	cmp	w8, #0
	fcsel	d1, d2, d1, ne
	fmov	d2, #2.00000000
	fadd	d1, d1, d0
	fcsel	d3, d3, d2, ne
	fcsel	d0, d2, d0, ne
	fcsel	d2, d4, d5, ne
	//ARITH_FENCE
	fcmp	d8, d1
	cset	w8, mi
	//APP
	//NO_APP
	cmp	w8, #0
	fcsel	d1, d2, d0, ne
	ldr	d0, [sp, #400]                  // 8-byte Reload
	fcsel	d4, d3, d2, ne
	//ARITH_FENCE
	fmov	d11, d0
	fcmp	d12, d0
	ldr	d0, [x23, #2888]
	str	q0, [sp, #128]                  // 16-byte Spill
	dup	v0.2d, v0.d[0]
	cset	w21, hi
	//APP
	//NO_APP
	str	q0, [sp, #112]                  // 16-byte Spill
.LBB64_130:                             // %"curves::segments::knot_at.exit.i.i241.i.i.i.i"
                                        //   Parent Loop BB64_13 Depth=1
                                        // =>  This Loop Header: Depth=2
                                        //       Child Loop BB64_139 Depth 3
                                        //       Child Loop BB64_163 Depth 3
                                        //         Child Loop BB64_168 Depth 4
	fadd	d0, d1, d4
	fmov	d3, #0.50000000
	stp	d4, d1, [sp, #96]               // 16-byte Folded Spill
	fmul	d5, d0, d3
	fadd	d0, d1, d5
	dup	v2.2d, v5.d[0]
	fmul	d6, d0, d3
	fadd	d0, d1, d6
	fadd	d1, d4, d5
	stp	q6, q5, [sp, #304]              // 32-byte Folded Spill
	mov	v1.d[1], v0.d[0]
	fmov	v0.2d, #0.50000000
	fmul	v7.2d, v1.2d, v0.2d
	dup	v1.2d, v7.d[0]
	mov	v1.d[0], v6.d[0]
	fadd	v1.2d, v2.2d, v1.2d
	fadd	d2, d4, d7
	fmul	v4.2d, v1.2d, v0.2d
	fmul	d10, d2, d3
	stp	q4, q7, [sp, #272]              // 32-byte Folded Spill
	cbz	w21, .LBB64_134
// %bb.131:                             // %"curves::segments::last_knot.exit.i.i293.i.i.i.i"
                                        //   in Loop: Header=BB64_130 Depth=2
	fmov	d0, d5
	fmov	d2, d6
	fmov	d1, d10
	fcmp	d12, d12
	mov	v3.16b, v7.16b
	b.vc	.LBB64_136
// %bb.132:                             // %join.6.i.i299.i.i.i.i
                                        //   in Loop: Header=BB64_130 Depth=2
	mov	x8, xzr
	cbz	x28, .LBB64_143
// %bb.133:                             // %join.5.i.i.i.i301.i.i.i.i.preheader
                                        //   in Loop: Header=BB64_130 Depth=2
	add	x9, x28, #1
	b	.LBB64_139
.LBB64_134:                             // %then.1.i.i246.i.i.i.i
                                        //   in Loop: Header=BB64_130 Depth=2
	fmov	d0, d5
	fmov	d2, d6
	fmov	d1, d10
	mov	v3.16b, v7.16b
	cbz	x28, .LBB64_136
// %bb.135:                             // %join.3.i.i.i248.i.i.i.i
                                        //   in Loop: Header=BB64_130 Depth=2
	ldp	q4, q1, [sp, #112]              // 32-byte Folded Reload
	fmov	d0, d1
	fmov	d2, d1
                                        // kill: def $d1 killed $d1 killed $q1
	mov	v3.16b, v4.16b
.LBB64_136:                             // %"swaps::trials::zero_rates_with.exit.i250.i.i.i.i"
                                        //   in Loop: Header=BB64_130 Depth=2
	cbz	w22, .LBB64_158
.LBB64_137:                             // %join.5.us.preheader.i.i276.i.i.i.i
                                        //   in Loop: Header=BB64_130 Depth=2
	mov	v0.d[1], v2.d[0]
	fneg	v2.2d, v3.2d
	fnmul	d1, d1, d21
	fneg	v3.2d, v4.2d
	fneg	v0.2d, v0.2d
	fmul	v2.2d, v2.2d, v21.d[0]
	fmul	v3.2d, v3.2d, v21.d[0]
	fmul	v0.2d, v0.2d, v21.d[0]
	b	.LBB64_159
.LBB64_138:                             // %select.end40
                                        //   in Loop: Header=BB64_139 Depth=3
	sub	x9, x9, x10
	cmp	x9, #1
	b.ls	.LBB64_141
.LBB64_139:                             // %join.5.i.i.i.i301.i.i.i.i
                                        //   Parent Loop BB64_13 Depth=1
                                        //     Parent Loop BB64_130 Depth=2
                                        // =>    This Inner Loop Header: Depth=3
	lsr	x10, x9, #1
	add	x12, sp, #1, lsl #12            // =4096
	add	x12, x12, #2144
	add	x11, x10, x8
	ldr	d0, [x12, x11, lsl #3]
	//ARITH_FENCE
	fcmp	d12, d0
	cset	w12, ls
	//APP
	//NO_APP
	cbnz	w12, .LBB64_138
// %bb.140:                             // %select.false41
                                        //   in Loop: Header=BB64_139 Depth=3
	mov	x8, x11
	b	.LBB64_138
.LBB64_141:                             // %"curves::ending::segment.exit.i.i314.i.i.i.i"
                                        //   in Loop: Header=BB64_130 Depth=2
	cmp	x8, x28
	b.ls	.LBB64_143
// %bb.142:                             //   in Loop: Header=BB64_130 Depth=2
	mov	x9, #9221120237041090560        // =0x7ff8000000000000
	fmov	d0, x9
	fmov	d1, d0
	b	.LBB64_146
.LBB64_143:                             // %then.1.i21.i.i383.i.i.i.i
                                        //   in Loop: Header=BB64_130 Depth=2
	add	x9, sp, #1, lsl #12             // =4096
	cmp	x8, x28
	add	x9, x9, #2144
	add	x9, x9, x8, lsl #3
	ldr	d0, [x9]
	b.hs	.LBB64_145
// %bb.144:                             // %arm.1.i.i.i.i.i389.i.i.i.i
                                        //   in Loop: Header=BB64_130 Depth=2
	ldr	d1, [x9, #8]
	b	.LBB64_146
.LBB64_145:                             //   in Loop: Header=BB64_130 Depth=2
	mov	x9, #9221120237041090560        // =0x7ff8000000000000
	fmov	d1, x9
.LBB64_146:                             // %"curves::segments::knot_after.exit.i.i317.i.i.i.i"
                                        //   in Loop: Header=BB64_130 Depth=2
	ldp	q3, q2, [sp, #304]              // 32-byte Folded Reload
	fmov	d4, d10
	cmp	x8, x28
                                        // kill: def $d2 killed $d2 killed $q2 def $q2
	fmov	d5, d3
	ldp	q6, q3, [sp, #272]              // 32-byte Folded Reload
	b.eq	.LBB64_151
// %bb.147:                             // %join.3.i25.i.i321.i.i.i.i
                                        //   in Loop: Header=BB64_130 Depth=2
	cmp	x8, x28
	b.hs	.LBB64_149
// %bb.148:                             // %arm.1.i.i.i34.i.i379.i.i.i.i
                                        //   in Loop: Header=BB64_130 Depth=2
	add	x9, sp, #1, lsl #12             // =4096
	add	x9, x9, #1184
	ldr	d2, [x9, x8, lsl #3]
	dup	v3.2d, v2.d[0]
	b	.LBB64_150
.LBB64_149:                             //   in Loop: Header=BB64_130 Depth=2
	mov	x9, #9221120237041090560        // =0x7ff8000000000000
	dup	v3.2d, x9
	fmov	d2, x9
.LBB64_150:                             // %"swaps::trials::rates_with.exit61.i.i323.i.i.i.i"
                                        //   in Loop: Header=BB64_130 Depth=2
	fmov	d5, d2
	fmov	d4, d2
	mov	v6.16b, v3.16b
.LBB64_151:                             // %"swaps::trials::rates_with.exit61.i.i323.i.i.i.i"
                                        //   in Loop: Header=BB64_130 Depth=2
	cmp	x8, x28
	b.hs	.LBB64_155
// %bb.152:                             // %then.1.i62.i.i370.i.i.i.i
                                        //   in Loop: Header=BB64_130 Depth=2
	ldp	q7, q16, [sp, #304]             // 32-byte Folded Reload
	fmov	d17, d10
	add	x8, x8, #1
                                        // kill: def $d16 killed $d16 killed $q16 def $q16
	cmp	x8, x28
	fmov	d19, d7
	ldp	q18, q7, [sp, #272]             // 32-byte Folded Reload
	b.eq	.LBB64_157
// %bb.153:                             // %join.3.i.i.i.i373.i.i.i.i
                                        //   in Loop: Header=BB64_130 Depth=2
	cmp	x8, x28
	b.hs	.LBB64_155
// %bb.154:                             // %arm.1.i.i.i.i.i.i375.i.i.i.i
                                        //   in Loop: Header=BB64_130 Depth=2
	add	x9, sp, #1, lsl #12             // =4096
	add	x9, x9, #1184
	ldr	d16, [x9, x8, lsl #3]
	dup	v7.2d, v16.d[0]
	b	.LBB64_156
.LBB64_155:                             //   in Loop: Header=BB64_130 Depth=2
	mov	x8, #9221120237041090560        // =0x7ff8000000000000
	dup	v7.2d, x8
	fmov	d16, x8
.LBB64_156:                             // %"swaps::trials::rates_after.exit.i.i333.i.i.i.i"
                                        //   in Loop: Header=BB64_130 Depth=2
	fmov	d19, d16
	fmov	d17, d16
	mov	v18.16b, v7.16b
.LBB64_157:                             // %"swaps::trials::rates_after.exit.i.i333.i.i.i.i"
                                        //   in Loop: Header=BB64_130 Depth=2
	ldr	q21, [sp, #336]                 // 16-byte Reload
	ldp	x27, x26, [sp, #24]             // 16-byte Folded Reload
	ldr	d9, [sp, #72]                   // 8-byte Reload
	add	x23, sp, #2392
	fsub	d20, d21, d0
	fsub	d0, d1, d0
	fmov	d1, #1.00000000
	fdiv	d0, d20, d0
	fsub	d1, d1, d0
	fmul	d19, d0, d19
	fmul	d16, d0, d16
	fmul	v7.2d, v7.2d, v0.d[0]
	fmul	d17, d0, d17
	fmul	v18.2d, v18.2d, v0.d[0]
	fmul	d5, d1, d5
	fmul	d0, d1, d2
	fmul	v3.2d, v3.2d, v1.d[0]
	fmul	v6.2d, v6.2d, v1.d[0]
	fmul	d1, d1, d4
	fadd	d0, d0, d16
	fadd	d2, d5, d19
	fadd	v3.2d, v3.2d, v7.2d
	fadd	v4.2d, v6.2d, v18.2d
	fadd	d1, d1, d17
	cbnz	w22, .LBB64_137
.LBB64_158:                             //   in Loop: Header=BB64_130 Depth=2
	movi	v0.2d, #0000000000000000
	movi	d1, #0000000000000000
	movi	v2.2d, #0000000000000000
	movi	v3.2d, #0000000000000000
.LBB64_159:                             // %"swaps::trials::discounts_with.exit398.i.i.i.i"
                                        //   in Loop: Header=BB64_130 Depth=2
	add	x0, sp, #1, lsl #12             // =4096
	mov	w1, #8                          // =0x8
	stp	q0, q2, [x24]
	add	x0, x0, #3104
	str	q3, [x24, #32]
	stp	d1, d0, [x24, #48]
	bl	"elementary::exp::exp_each"
	ldur	q0, [x24, #40]
	ldur	q1, [x24, #24]
	ldr	w8, [sp, #156]                  // 4-byte Reload
	ldp	q19, q21, [sp, #320]            // 32-byte Folded Reload
	ldr	d15, [x24]
	cmp	w8, w25
	str	q0, [sp, #208]                  // 16-byte Spill
	ext	v0.16b, v0.16b, v0.16b, #8
	str	q1, [sp, #240]                  // 16-byte Spill
	ldur	q1, [x24, #8]
	ldr	d4, [x24, #16]
	ldr	d6, [x24, #32]
	str	q1, [sp, #256]                  // 16-byte Spill
	str	q0, [sp, #192]                  // 16-byte Spill
	ldr	q0, [sp, #224]                  // 16-byte Reload
	fmov	d28, d0
	fmov	d29, d0
	fmov	d24, d0
	fmov	d27, d0
	fmov	d25, d0
	fmov	d26, d0
	fmov	d14, d0
	b.hs	.LBB64_194
// %bb.160:                             // %join.7.i.i.i.i.i.preheader
                                        //   in Loop: Header=BB64_130 Depth=2
	ldr	q0, [sp, #240]                  // 16-byte Reload
	ldp	q22, q18, [sp, #288]            // 32-byte Folded Reload
	ldr	w8, [sp, #156]                  // 4-byte Reload
	stp	d4, d6, [sp, #80]               // 16-byte Folded Spill
	ext	v0.16b, v0.16b, v0.16b, #8
	str	q0, [sp, #176]                  // 16-byte Spill
	ldp	q0, q23, [sp, #256]             // 32-byte Folded Reload
	ext	v0.16b, v0.16b, v0.16b, #8
	mov	d9, v23.d[1]
	str	q0, [sp, #160]                  // 16-byte Spill
	ldr	q0, [sp, #224]                  // 16-byte Reload
	fmov	d14, d0
	fmov	d28, d0
	fmov	d29, d0
	fmov	d24, d0
	fmov	d27, d0
	fmov	d25, d0
	fmov	d26, d0
	b	.LBB64_163
.LBB64_161:                             // %else.2.i.i.i.i.i.i
                                        //   in Loop: Header=BB64_163 Depth=3
	fsub	d0, d21, d1
	ldp	q3, q1, [sp, #240]              // 32-byte Folded Reload
	fmul	d5, d13, d0
	ldr	q0, [sp, #160]                  // 16-byte Reload
	mov	v1.d[1], v0.d[0]
	ldr	q0, [sp, #176]                  // 16-byte Reload
	mov	v3.d[1], v0.d[0]
	ldp	q0, q4, [sp, #192]              // 32-byte Folded Reload
	fmul	v2.2d, v1.2d, v5.d[0]
	mov	v4.d[1], v0.d[0]
	fmul	v1.2d, v3.2d, v5.d[0]
	fmul	d3, d15, d5
	ext	v6.16b, v2.16b, v2.16b, #8
	fmul	v0.2d, v4.2d, v5.d[0]
	ext	v5.16b, v1.16b, v1.16b, #8
	ext	v4.16b, v0.16b, v0.16b, #8
.LBB64_162:                             // %"swaps::knots::add_coupon.exit.i.i.i.i.i"
                                        //   in Loop: Header=BB64_163 Depth=3
	mov	v2.d[1], v6.d[0]
	mov	v28.d[1], v29.d[0]
	cmp	w19, w25
	mov	v1.d[1], v5.d[0]
	mov	v24.d[1], v27.d[0]
	mov	w8, w19
	mov	v0.d[1], v4.d[0]
	mov	v25.d[1], v26.d[0]
	fadd	d14, d14, d3
	fadd	v28.2d, v28.2d, v2.2d
	fadd	v24.2d, v24.2d, v1.2d
	fadd	v25.2d, v25.2d, v0.2d
	ext	v29.16b, v28.16b, v28.16b, #8
	ext	v27.16b, v24.16b, v24.16b, #8
	ext	v26.16b, v25.16b, v25.16b, #8
	b.eq	.LBB64_193
.LBB64_163:                             // %join.7.i.i.i.i.i
                                        //   Parent Loop BB64_13 Depth=1
                                        //     Parent Loop BB64_130 Depth=2
                                        // =>    This Loop Header: Depth=3
                                        //         Child Loop BB64_168 Depth 4
	ucvtf	d1, w8
	add	w19, w8, #1
	movi	d2, #0000000000000000
	ucvtf	d0, w19
	//ARITH_FENCE
	fcmp	d1, d12
	//ARITH_FENCE
	cset	w9, mi
	//APP
	//NO_APP
	cmp	w9, #0
	fcsel	d1, d1, d21, ne
	cmp	w8, #0
	fcsel	d1, d2, d1, eq
	fcmp	d0, d12
	cset	w8, mi
	//APP
	//NO_APP
	cbz	w8, .LBB64_161
// %bb.164:                             // %"curves::segments::knot_at.exit.i.i194.i.i.i.i"
                                        //   in Loop: Header=BB64_163 Depth=3
	fcmp	d0, d11
	cset	w8, hi
	//APP
	//NO_APP
	cbz	w8, .LBB64_174
// %bb.165:                             // %join.6.i.i.i.i.i.i
                                        //   in Loop: Header=BB64_163 Depth=3
	mov	x8, xzr
	cbz	x28, .LBB64_172
// %bb.166:                             // %join.5.i.i.i.i208.i.i.i.i.preheader
                                        //   in Loop: Header=BB64_163 Depth=3
	add	x9, x28, #1
	b	.LBB64_168
.LBB64_167:                             // %select.end44
                                        //   in Loop: Header=BB64_168 Depth=4
	sub	x9, x9, x10
	cmp	x9, #1
	b.ls	.LBB64_170
.LBB64_168:                             // %join.5.i.i.i.i208.i.i.i.i
                                        //   Parent Loop BB64_13 Depth=1
                                        //     Parent Loop BB64_130 Depth=2
                                        //       Parent Loop BB64_163 Depth=3
                                        // =>      This Inner Loop Header: Depth=4
	lsr	x10, x9, #1
	add	x12, sp, #1, lsl #12            // =4096
	add	x12, x12, #2144
	add	x11, x10, x8
	ldr	d2, [x12, x11, lsl #3]
	//ARITH_FENCE
	fcmp	d0, d2
	cset	w12, ls
	//APP
	//NO_APP
	cbnz	w12, .LBB64_167
// %bb.169:                             // %select.false45
                                        //   in Loop: Header=BB64_168 Depth=4
	mov	x8, x11
	b	.LBB64_167
.LBB64_170:                             // %"curves::ending::segment.exit.i.i.i.i.i.i"
                                        //   in Loop: Header=BB64_163 Depth=3
	cmp	x8, x28
	b.ls	.LBB64_172
// %bb.171:                             //   in Loop: Header=BB64_163 Depth=3
	mov	x9, #9221120237041090560        // =0x7ff8000000000000
	fmov	d2, x9
	fmov	d4, d2
	b	.LBB64_177
.LBB64_172:                             // %then.1.i21.i.i.i.i.i.i
                                        //   in Loop: Header=BB64_163 Depth=3
	add	x9, sp, #1, lsl #12             // =4096
	cmp	x8, x28
	add	x9, x9, #2144
	add	x9, x9, x8, lsl #3
	ldr	d2, [x9]
	b.hs	.LBB64_176
// %bb.173:                             // %arm.1.i.i.i.i.i223.i.i.i.i
                                        //   in Loop: Header=BB64_163 Depth=3
	ldr	d4, [x9, #8]
	b	.LBB64_177
.LBB64_174:                             // %then.1.i.i199.i.i.i.i
                                        //   in Loop: Header=BB64_163 Depth=3
	fmov	d2, d19
	fmov	d4, d18
	fmov	d3, d10
	mov	v5.16b, v22.16b
	mov	v6.16b, v23.16b
	cbz	x28, .LBB64_189
// %bb.175:                             // %join.3.i.i.i201.i.i.i.i
                                        //   in Loop: Header=BB64_163 Depth=3
	ldp	q6, q3, [sp, #112]              // 32-byte Folded Reload
	fmov	d2, d3
	fmov	d4, d3
                                        // kill: def $d3 killed $d3 killed $q3
	mov	v5.16b, v6.16b
	b	.LBB64_189
.LBB64_176:                             //   in Loop: Header=BB64_163 Depth=3
	mov	x9, #9221120237041090560        // =0x7ff8000000000000
	fmov	d4, x9
.LBB64_177:                             // %"curves::segments::knot_after.exit.i.i213.i.i.i.i"
                                        //   in Loop: Header=BB64_163 Depth=3
	fmov	d3, d19
	fmov	d6, d18
	cmp	x8, x28
	fmov	d7, d23
	fmov	d17, d9
	fmov	d16, d10
	mov	v5.16b, v22.16b
	b.eq	.LBB64_182
// %bb.178:                             // %join.3.i25.i.i.i.i.i.i
                                        //   in Loop: Header=BB64_163 Depth=3
	cmp	x8, x28
	b.hs	.LBB64_180
// %bb.179:                             // %arm.1.i.i.i34.i.i.i.i.i.i
                                        //   in Loop: Header=BB64_163 Depth=3
	add	x9, sp, #1, lsl #12             // =4096
	add	x9, x9, #1184
	ldr	d3, [x9, x8, lsl #3]
	dup	v5.2d, v3.d[0]
	b	.LBB64_181
.LBB64_180:                             //   in Loop: Header=BB64_163 Depth=3
	mov	x9, #9221120237041090560        // =0x7ff8000000000000
	dup	v5.2d, x9
	fmov	d3, x9
.LBB64_181:                             // %"swaps::trials::rates_with.exit61.i.i.i.i.i.i"
                                        //   in Loop: Header=BB64_163 Depth=3
	fmov	d6, d3
	fmov	d7, d3
	fmov	d17, d3
	fmov	d16, d3
.LBB64_182:                             // %"swaps::trials::rates_with.exit61.i.i.i.i.i.i"
                                        //   in Loop: Header=BB64_163 Depth=3
	cmp	x8, x28
	b.hs	.LBB64_186
// %bb.183:                             // %then.1.i62.i.i.i.i.i.i
                                        //   in Loop: Header=BB64_163 Depth=3
	fmov	d21, d18
	fmov	d20, d10
	add	x8, x8, #1
	mov	v18.16b, v22.16b
	mov	v22.16b, v23.16b
	cmp	x8, x28
                                        // kill: def $d19 killed $d19 killed $q19 def $q19
	b.eq	.LBB64_188
// %bb.184:                             // %join.3.i.i.i.i.i.i.i.i
                                        //   in Loop: Header=BB64_163 Depth=3
	cmp	x8, x28
	b.hs	.LBB64_186
// %bb.185:                             // %arm.1.i.i.i.i.i.i219.i.i.i.i
                                        //   in Loop: Header=BB64_163 Depth=3
	add	x9, sp, #1, lsl #12             // =4096
	add	x9, x9, #1184
	ldr	d19, [x9, x8, lsl #3]
	dup	v18.2d, v19.d[0]
	b	.LBB64_187
.LBB64_186:                             //   in Loop: Header=BB64_163 Depth=3
	mov	x8, #9221120237041090560        // =0x7ff8000000000000
	dup	v18.2d, x8
	fmov	d19, x8
.LBB64_187:                             // %"swaps::trials::rates_after.exit.i.i.i.i.i.i"
                                        //   in Loop: Header=BB64_163 Depth=3
	fmov	d21, d19
	fmov	d20, d19
	mov	v22.16b, v18.16b
.LBB64_188:                             // %"swaps::trials::rates_after.exit.i.i.i.i.i.i"
                                        //   in Loop: Header=BB64_163 Depth=3
	fsub	d23, d0, d2
	fsub	d2, d4, d2
	fmov	d4, #1.00000000
	mov	v7.d[1], v17.d[0]
	fdiv	d2, d23, d2
	fsub	d4, d4, d2
	fmul	d17, d2, d21
	fmul	d19, d2, d19
	fmul	v18.2d, v18.2d, v2.d[0]
	fmul	d20, d2, d20
	fmul	v21.2d, v22.2d, v2.d[0]
	fmul	d6, d4, d6
	fmul	d2, d4, d3
	fmul	v3.2d, v7.2d, v4.d[0]
	fmul	v5.2d, v5.2d, v4.d[0]
	fmul	d7, d4, d16
	fadd	d2, d2, d19
	fadd	d4, d6, d17
	fadd	v6.2d, v3.2d, v21.2d
	fadd	v5.2d, v5.2d, v18.2d
	fadd	d3, d7, d20
.LBB64_189:                             // %"swaps::trials::zero_rates_with.exit.i.i.i.i.i"
                                        //   in Loop: Header=BB64_163 Depth=3
	fcmp	d0, d8
	stp	q29, q28, [sp, #368]            // 32-byte Folded Spill
	stp	q27, q26, [sp, #400]            // 32-byte Folded Spill
	stp	q25, q24, [sp, #432]            // 32-byte Folded Spill
	cset	w8, hi
	//APP
	//NO_APP
	cbz	w8, .LBB64_191
// %bb.190:                             // %join.5.us.preheader.i.i.i.i.i.i
                                        //   in Loop: Header=BB64_163 Depth=3
	mov	v2.d[1], v4.d[0]
	fneg	v6.2d, v6.2d
	fnmul	d3, d3, d0
	fneg	v4.2d, v5.2d
	fneg	v2.2d, v2.2d
	fmul	v5.2d, v6.2d, v0.d[0]
	fmul	v4.2d, v4.2d, v0.d[0]
	fmul	v2.2d, v2.2d, v0.d[0]
	b	.LBB64_192
.LBB64_191:                             //   in Loop: Header=BB64_163 Depth=3
	movi	v2.2d, #0000000000000000
	movi	d3, #0000000000000000
	movi	v4.2d, #0000000000000000
	movi	v5.2d, #0000000000000000
.LBB64_192:                             // %"swaps::trials::discounts_with.exit.i.i.i.i"
                                        //   in Loop: Header=BB64_163 Depth=3
	fsub	d0, d0, d1
	add	x0, sp, #1, lsl #12             // =4096
	mov	w1, #8                          // =0x8
	add	x0, x0, #3104
	stp	q2, q4, [x24]
	str	q5, [x24, #32]
	stp	d3, d2, [x24, #48]
	fmul	d0, d13, d0
	str	q0, [sp, #352]                  // 16-byte Spill
	bl	"elementary::exp::exp_each"
	ldp	q21, q4, [sp, #336]             // 32-byte Folded Reload
	ldur	q2, [x24, #8]
	ldur	q1, [x24, #24]
	ldur	q0, [x24, #40]
	ldr	d3, [x24]
	ldp	q18, q19, [sp, #304]            // 32-byte Folded Reload
	fmul	v0.2d, v0.2d, v4.d[0]
	fmul	v1.2d, v1.2d, v4.d[0]
	fmul	v2.2d, v2.2d, v4.d[0]
	ldp	q23, q22, [sp, #272]            // 32-byte Folded Reload
	fmul	d3, d4, d3
	ldp	q25, q24, [sp, #432]            // 32-byte Folded Reload
	ldp	q27, q26, [sp, #400]            // 32-byte Folded Reload
	ldp	q29, q28, [sp, #368]            // 32-byte Folded Reload
	ext	v4.16b, v0.16b, v0.16b, #8
	ext	v5.16b, v1.16b, v1.16b, #8
	ext	v6.16b, v2.16b, v2.16b, #8
	b	.LBB64_162
.LBB64_193:                             // %"swaps::knots::errors_of.exit.i.i.i.i.loopexit"
                                        //   in Loop: Header=BB64_130 Depth=2
	ldp	d9, d4, [sp, #72]               // 16-byte Folded Reload
	ldr	d6, [sp, #88]                   // 8-byte Reload
.LBB64_194:                             // %"swaps::knots::errors_of.exit.i.i.i.i"
                                        //   in Loop: Header=BB64_130 Depth=2
	fadd	d0, d15, d14
	fmov	d1, #-1.00000000
	fadd	d0, d0, d1
	//ARITH_FENCE
	fcmp	d8, d0
	ldr	d0, [sp, #96]                   // 8-byte Reload
	cset	w8, mi
	//APP
	//NO_APP
	cmp	w8, #0
	fcsel	d2, d0, d19, ne
	ldr	d0, [sp, #104]                  // 8-byte Reload
	fcsel	d3, d19, d0, ne
	fsub	d0, d2, d3
	//ARITH_FENCE
	fcmp	d0, d9
	fadd	d0, d3, d2
	cset	w9, mi
	//APP
	//NO_APP
	cbnz	w9, .LBB64_200
// %bb.195:                             // %join.8.i.i.i.i.i.i
                                        //   in Loop: Header=BB64_130 Depth=2
	ldr	q5, [sp, #256]                  // 16-byte Reload
	fadd	d4, d4, d29
	cmp	w8, #0
	fadd	d5, d5, d28
	fcsel	d4, d4, d5, ne
	fadd	d4, d4, d1
	fmov	d1, #0.50000000
	fmul	d0, d0, d1
	//ARITH_FENCE
	fcmp	d8, d4
	cset	w9, mi
	//APP
	//NO_APP
	cmp	w9, #0
	fcsel	d2, d2, d0, ne
	fcsel	d3, d0, d3, ne
	fsub	d0, d2, d3
	//ARITH_FENCE
	fcmp	d0, d9
	fadd	d0, d3, d2
	cset	w10, mi
	//APP
	//NO_APP
	cbnz	w10, .LBB64_200
// %bb.196:                             // %join.11.i.i.i.i.i.i
                                        //   in Loop: Header=BB64_130 Depth=2
	fadd	d5, d6, d27
	ldp	q7, q6, [sp, #192]              // 32-byte Folded Reload
	ldr	q4, [sp, #240]                  // 16-byte Reload
	cmp	w9, #0
	fmul	d0, d0, d1
	fadd	d4, d4, d24
	fadd	d6, d6, d25
	fadd	d7, d7, d26
	fcsel	d6, d7, d6, ne
	fcsel	d4, d5, d4, ne
	cmp	w8, #0
	fmov	d5, #-1.00000000
	fcsel	d4, d6, d4, ne
	fadd	d4, d4, d5
	//ARITH_FENCE
	fcmp	d8, d4
	cset	w8, mi
	//APP
	//NO_APP
	cmp	w8, #0
	fcsel	d1, d0, d3, ne
	fcsel	d4, d2, d0, ne
	fsub	d0, d4, d1
	//ARITH_FENCE
	fcmp	d0, d9
	cset	w8, mi
	//APP
	//NO_APP
	cbnz	w8, .LBB64_199
// %bb.197:                             // %loop.2.i.i.i.i.i.i
                                        //   in Loop: Header=BB64_130 Depth=2
	add	w20, w20, #1
	cmp	w20, #66
	b.ne	.LBB64_130
// %bb.198:                             // %after.1.i.i.i.i.i.i
                                        //   in Loop: Header=BB64_13 Depth=1
	fadd	d0, d4, d1
	b	.LBB64_200
.LBB64_199:                             // %then.12.i.i.i.i.i.i
                                        //   in Loop: Header=BB64_13 Depth=1
	fadd	d0, d1, d4
.LBB64_200:                             // %"swaps::knots::bisect.exit.i.i.i.i.i"
                                        //   in Loop: Header=BB64_13 Depth=1
	fmov	d1, #0.50000000
	ldr	x20, [sp, #40]                  // 8-byte Reload
	ldp	x21, x28, [sp, #56]             // 16-byte Folded Reload
	fmul	d0, d0, d1
	add	x8, sp, #1, lsl #12             // =4096
	add	x8, x8, #1184
	cmp	x28, x26
	str	d0, [x8, x21]
	b.ne	.LBB64_13
.LBB64_201:                             // %arm.2.i
	add	x0, sp, #1, lsl #12             // =4096
	add	x1, sp, #1, lsl #12             // =4096
	mov	w2, #960                        // =0x3c0
	add	x0, x0, #3104
	add	x1, x1, #2144
	add	x19, sp, #1, lsl #12            // =4096
	add	x19, x19, #3104
	bl	memcpy
	add	x1, sp, #1, lsl #12             // =4096
	add	x0, x19, #960
	mov	w2, #960                        // =0x3c0
	add	x1, x1, #1184
	bl	memcpy
	add	x1, sp, #1, lsl #12             // =4096
	add	x0, sp, #3360
	mov	w2, #1920                       // =0x780
	add	x1, x1, #3104
	bl	memcpy
	add	x19, sp, #468
	add	x1, sp, #3360
	mov	w2, #1920                       // =0x780
	add	x0, x19, #4
	bl	memcpy
	add	x0, sp, #2392
	add	x1, x19, #964
	mov	w2, #960                        // =0x3c0
	bl	memcpy
	lsl	x2, x26, #3
	ldr	x0, [sp, #8]                    // 8-byte Reload
	add	x1, sp, #2392
	str	x26, [x23, #960]
	bl	memcpy
	mov	x0, xzr
	b	.LBB64_5
.Lfunc_end64:
	.size	senyolanda_bootstrap, .Lfunc_end64-senyolanda_bootstrap
                                        // -- End function
	.section	.rodata.cst8,"aM",@progbits,8
	.p2align	3, 0x0                          // -- Begin function senyolanda_cubic_spline_interpolate
.LCPI65_0:
	.xword	0x3cd203af9ee75616              // double 1.0000000000000001E-15
	.section	.text.senyolanda_cubic_spline_interpolate,"ax",@progbits
	.globl	senyolanda_cubic_spline_interpolate
	.p2align	2
	.type	senyolanda_cubic_spline_interpolate,@function
senyolanda_cubic_spline_interpolate:    // @senyolanda_cubic_spline_interpolate
// %bb.0:                               // %start
	stp	d11, d10, [sp, #-128]!          // 16-byte Folded Spill
	stp	d9, d8, [sp, #16]               // 16-byte Folded Spill
	stp	x29, x30, [sp, #32]             // 16-byte Folded Spill
	add	x29, sp, #32
	str	x28, [sp, #48]                  // 8-byte Spill
	stp	x26, x25, [sp, #64]             // 16-byte Folded Spill
	stp	x24, x23, [sp, #80]             // 16-byte Folded Spill
	stp	x22, x21, [sp, #96]             // 16-byte Folded Spill
	stp	x20, x19, [sp, #112]            // 16-byte Folded Spill
	sub	sp, sp, #1920
	mov	w8, #4096                       // =0x1000
	cmp	x0, #0
	str	xzr, [sp]
	csel	x9, x8, xzr, eq
	cmp	x2, #0
	csel	x19, x8, xzr, eq
	cmp	x1, x3
	b.ne	.LBB65_3
// %bb.1:                               // %join.3.i.i.i.i
	sub	x8, x1, #121
	cmn	x8, #120
	b.hs	.LBB65_6
// %bb.2:
	mov	w9, #4                          // =0x4
	b	.LBB65_4
.LBB65_3:
	mov	w9, #3                          // =0x3
.LBB65_4:                               // %arm.1.i2.i
	and	x8, x9, #0xffffffff000000ff
	add	x0, x8, #1
.LBB65_5:                               // %"senyolanda::yield_curves::senyolanda_cubic_spline_interpolate.exit"
	add	sp, sp, #1920
	ldp	x20, x19, [sp, #112]            // 16-byte Folded Reload
	ldr	x28, [sp, #48]                  // 8-byte Reload
	ldp	x22, x21, [sp, #96]             // 16-byte Folded Reload
	ldp	x24, x23, [sp, #80]             // 16-byte Folded Reload
	ldp	x26, x25, [sp, #64]             // 16-byte Folded Reload
	ldp	x29, x30, [sp, #32]             // 16-byte Folded Reload
	ldp	d9, d8, [sp, #16]               // 16-byte Folded Reload
	ldp	d11, d10, [sp], #128            // 16-byte Folded Reload
	ret
.LBB65_6:                               // %join.6.i.i.i.i
	movi	d8, #0000000000000000
	mov	x11, x0
	add	x0, x0, x9
	ldr	d1, [x0]
	fsub	d2, d0, d0
	add	x8, x2, x19
	//ARITH_FENCE
	//ARITH_FENCE
	fcmp	d8, d1
	//ARITH_FENCE
	cset	w10, hi
	//APP
	//NO_APP
	cbz	w10, .LBB65_13
.LBB65_7:                               // %join.6.i9.i.i.i.i.preheader
	mov	x10, #-4503599627370496         // =0xfff0000000000000
	mov	w9, #5                          // =0x5
	add	x11, x2, x19
	fmov	d4, x10
	mov	x10, x0
	mov	x12, x1
.LBB65_8:                               // %join.6.i9.i.i.i.i
                                        // =>This Inner Loop Header: Depth=1
	ldr	d3, [x10], #8
	ldr	d6, [x11], #8
	fsub	d5, d3, d3
	fsub	d6, d6, d6
	//ARITH_FENCE
	fcmp	d5, d8
	//ARITH_FENCE
	fccmp	d6, d8, #0, eq
	b.ne	.LBB65_4
// %bb.9:                               // %"curves::curve::bad_knot.exit.i.i.i.i.i.i"
                                        //   in Loop: Header=BB65_8 Depth=1
	fmov	d5, d3
	//ARITH_FENCE
	//ARITH_FENCE
	fcmp	d5, d8
	cset	w13, mi
	fcmp	d4, d5
	//APP
	//NO_APP
	cset	w14, pl
	//APP
	//NO_APP
	orr	w13, w13, w14
	cbnz	w13, .LBB65_4
// %bb.10:                              // %join.10.i.i.i.i.i
                                        //   in Loop: Header=BB65_8 Depth=1
	fmov	d4, d3
	mov	x13, #4294967296                // =0x100000000
	subs	x12, x12, #1
	add	x9, x9, x13
	b.ne	.LBB65_8
.LBB65_11:                              // %arm.1.i.i.i
	fcmp	d2, d8
	b.eq	.LBB65_19
.LBB65_12:
	mov	w9, #6                          // =0x6
	b	.LBB65_4
.LBB65_13:                              // %join.3.i.i.i.i.i
	ldr	d3, [x8]
	fsub	d3, d3, d3
	//ARITH_FENCE
	fcmp	d3, d8
	b.ne	.LBB65_7
// %bb.14:                              // %join.6.i.i.i.i.i
	add	x10, x0, x1, lsl #3
	ldur	d3, [x10, #-8]
	mov	x10, #9218868437227405312       // =0x7ff0000000000000
	fmov	d4, x10
	//ARITH_FENCE
	//ARITH_FENCE
	fcmp	d3, d4
	cset	w10, mi
	//APP
	//NO_APP
	cbz	w10, .LBB65_7
// %bb.15:                              // %then.7.i.i.i.i.i
	cmp	x1, #2
	b.lo	.LBB65_26
// %bb.16:                              // %join.5.i.i.i.i.i.i.preheader
	add	x12, x19, x2
	add	x13, x9, x11
	mov	x10, xzr
	sub	x9, x1, #1
	add	x11, x12, #8
	add	x12, x13, #8
.LBB65_17:                              // %join.5.i.i.i.i.i.i
                                        // =>This Inner Loop Header: Depth=1
	ldp	d3, d4, [x12, #-8]
	add	x12, x12, #8
	//ARITH_FENCE
	//ARITH_FENCE
	fcmp	d3, d4
	ldr	d3, [x11], #8
	fsub	d3, d3, d3
	cset	w13, pl
	//APP
	//NO_APP
	cmp	w13, #0
	cinc	x10, x10, ne
	//ARITH_FENCE
	fcmp	d3, d8
	cinc	x10, x10, ne
	subs	x9, x9, #1
	b.ne	.LBB65_17
// %bb.18:                              // %"curves::curve::all_in_order.exit.i.i.i.i"
	cbnz	x10, .LBB65_7
	b	.LBB65_11
.LBB65_19:                              // %arm.1.i.i
	cmp	x1, #2
	b.ls	.LBB65_27
// %bb.20:                              // %"curves::segments::knot_at.exit.i.i.i"
	fmov	d2, d0
	//ARITH_FENCE
	fcmp	d2, d1
	cset	w9, hi
	//APP
	//NO_APP
	cbz	w9, .LBB65_44
// %bb.21:                              // %"curves::segments::last_knot.exit.i.i.i"
	lsl	x9, x1, #3
	add	x10, x0, x9
	ldur	d1, [x10, #-8]
	//ARITH_FENCE
	fcmp	d1, d2
	cset	w10, hi
	//APP
	//NO_APP
	cbz	w10, .LBB65_45
// %bb.22:                              // %join.5.i.i.i.i.i.preheader
	mov	x20, xzr
	mov	x8, x1
	b	.LBB65_24
.LBB65_23:                              // %select.end36
                                        //   in Loop: Header=BB65_24 Depth=1
	sub	x8, x8, x9
	cmp	x8, #1
	b.ls	.LBB65_28
.LBB65_24:                              // %join.5.i.i.i.i.i
                                        // =>This Inner Loop Header: Depth=1
	lsr	x9, x8, #1
	add	x10, x9, x20
	ldr	d1, [x0, x10, lsl #3]
	//ARITH_FENCE
	fcmp	d2, d1
	cset	w11, ls
	//APP
	//NO_APP
	cbnz	w11, .LBB65_23
// %bb.25:                              // %select.false37
                                        //   in Loop: Header=BB65_24 Depth=1
	mov	x20, x10
	b	.LBB65_23
.LBB65_26:                              // %arm.1.i.thread.i.i
	fcmp	d2, d8
	b.ne	.LBB65_12
.LBB65_27:                              // %then.1.i.i.i
	mov	x2, x8
	mov	x3, x1
	mov	x19, x4
	bl	"yield_curve::linear::yield_of"
	mov	x4, x19
	b	.LBB65_51
.LBB65_28:                              // %"curves::ending::segment.exit.i.i.i"
	sub	x21, x1, #1
	cmp	x20, x21
	b.hs	.LBB65_46
// %bb.29:                              // %then.10.i.i.i
	adrp	x8, .LCPI65_0
	mov	x23, x0
	mov	x0, sp
	ldr	d9, [x8, :lo12:.LCPI65_0]
	mov	x24, x1
	mov	w1, wzr
	mov	x25, x2
	mov	w2, #1920                       // =0x780
	mov	x22, x4
	fmov	d10, d9
	mov	x26, sp
	fmov	d11, d0
	//ARITH_FENCE
	bl	memset
	fmov	d0, d11
	movi	d2, #0000000000000000
	add	x12, x19, x25
	movi	d1, #0000000000000000
	mov	x10, x24
	add	x8, x25, x19
	mov	x9, x23
	add	x11, x26, #24
	add	x12, x12, #8
	mov	w13, #2                         // =0x2
	mov	x14, x23
	b	.LBB65_31
.LBB65_30:                              // %select.end35
                                        //   in Loop: Header=BB65_31 Depth=1
	fdiv	d5, d5, d4
	fmul	d1, d1, d3
	add	x13, x13, #1
	cmp	x10, x13
	add	x14, x14, #8
	add	x12, x12, #8
	fdiv	d2, d4, d7
	fsub	d4, d5, d6
	fmov	d5, #3.00000000
	fmul	d4, d4, d5
	fsub	d1, d4, d1
	fdiv	d1, d1, d7
	stp	d2, d1, [x11, #-8]
	add	x11, x11, #16
	b.eq	.LBB65_47
.LBB65_31:                              // %join.7.i.i.i.i.i.i
                                        // =>This Inner Loop Header: Depth=1
	sub	x15, x13, #2
	cmp	x15, x10
	b.hs	.LBB65_35
// %bb.32:                              // %then.1.i.i.i.i.i.i.i.i.i
                                        //   in Loop: Header=BB65_31 Depth=1
	sub	x15, x13, #1
	cmp	x15, x10
	b.hs	.LBB65_36
// %bb.33:                              // %"curves::segments::knot_at.exit.i.i.i.i.i.i.i"
                                        //   in Loop: Header=BB65_31 Depth=1
	cmp	x13, x10
	b.hs	.LBB65_37
// %bb.34:                              // %arm.1.i.i.i.i.i.i.i.i.i.i.i.i.i
                                        //   in Loop: Header=BB65_31 Depth=1
	ldr	d5, [x12, #8]
	b	.LBB65_38
.LBB65_35:                              //   in Loop: Header=BB65_31 Depth=1
	mov	x15, #9221120237041090560       // =0x7ff8000000000000
	fmov	d3, x15
	fmov	d5, d3
	fmov	d4, d3
	fmov	d7, d3
	fmov	d6, d3
	b	.LBB65_40
.LBB65_36:                              // %"curves::segments::knot_after.exit.i.i.i.i.i.thread.i.i"
                                        //   in Loop: Header=BB65_31 Depth=1
	mov	x15, #9221120237041090560       // =0x7ff8000000000000
	ldr	d7, [x14]
	fmov	d3, x15
	fmov	d16, d3
	fmov	d17, d3
	fmov	d4, d3
	fmov	d5, d3
	fmov	d6, d3
	b	.LBB65_39
.LBB65_37:                              //   in Loop: Header=BB65_31 Depth=1
	mov	x15, #9221120237041090560       // =0x7ff8000000000000
	fmov	d5, x15
.LBB65_38:                              // %arm.1.i.i.i.i11.i17.i.i.i.i.i.i.i.i
                                        //   in Loop: Header=BB65_31 Depth=1
	ldp	d7, d6, [x14]
	ldr	d16, [x14, #16]
	ldp	d18, d17, [x12, #-8]
	fsub	d3, d6, d7
	fsub	d4, d16, d6
	fsub	d5, d5, d17
	fsub	d17, d17, d18
.LBB65_39:                              // %arm.1.i.i.i6.i12.i.i.i.i.i.i.i.i
                                        //   in Loop: Header=BB65_31 Depth=1
	fsub	d6, d6, d7
	fsub	d7, d16, d7
	fdiv	d6, d17, d6
	fadd	d7, d7, d7
.LBB65_40:                              // %"yield_curve::spline::sweep_next.exit.i.i.i.i.i.i"
                                        //   in Loop: Header=BB65_31 Depth=1
	fmul	d2, d2, d3
	fsub	d2, d7, d2
	fmov	d7, d2
	//ARITH_FENCE
	fcmp	d8, d7
	fmov	d7, d2
	cset	w15, mi
	//APP
	//NO_APP
	cbnz	w15, .LBB65_42
// %bb.41:                              // %select.false.sink
                                        //   in Loop: Header=BB65_31 Depth=1
	movi	d7, #0000000000000000
	fsub	d7, d7, d2
.LBB65_42:                              // %select.end
                                        //   in Loop: Header=BB65_31 Depth=1
	//ARITH_FENCE
	fcmp	d7, d10
	fmov	d7, d9
	cset	w15, mi
	//APP
	//NO_APP
	cbnz	w15, .LBB65_30
// %bb.43:                              // %select.false
                                        //   in Loop: Header=BB65_31 Depth=1
	fmov	d7, d2
	b	.LBB65_30
.LBB65_44:                              // %arm.1.i.i17.i.i.i
	ldr	d0, [x8]
	b	.LBB65_51
.LBB65_45:                              // %arm.1.i.i24.i.i.i
	add	x8, x8, x9
	ldur	d0, [x8, #-8]
	b	.LBB65_51
.LBB65_46:
	mov	x8, #9221120237041090560        // =0x7ff8000000000000
	fmov	d0, x8
	b	.LBB65_51
.LBB65_47:                              // %"yield_curve::spline::sweep_up.exit.i.i.i.i.i"
	movi	d1, #0000000000000000
	add	x11, x20, #1
	mov	x4, x22
	cmp	x11, x21
	b.hs	.LBB65_50
// %bb.48:                              // %join.5.i.i31.i.i.i.preheader
	mov	x12, sp
	add	x10, x12, x10, lsl #4
	sub	x10, x10, #32
.LBB65_49:                              // %join.5.i.i31.i.i.i
                                        // =>This Inner Loop Header: Depth=1
	ldr	d2, [x10]
	sub	x21, x21, #1
	cmp	x11, x21
	fmul	d1, d1, d2
	ldr	d2, [x10, #8]
	sub	x10, x10, #16
	fsub	d1, d2, d1
	b.lo	.LBB65_49
.LBB65_50:                              // %"yield_curve::spline::bends_on.exit.i.i.i.i"
	mov	x10, sp
	ldr	d4, [x8, x11, lsl #3]
	ldr	d5, [x8, x20, lsl #3]
	add	x8, x10, x20, lsl #4
	ldr	d2, [x9, x11, lsl #3]
	ldr	d3, [x9, x20, lsl #3]
	fsub	d4, d4, d5
	fmov	d16, #3.00000000
	ldp	d6, d7, [x8]
	fsub	d2, d2, d3
	fsub	d0, d0, d3
	fmul	d6, d1, d6
	fdiv	d4, d4, d2
	fsub	d6, d7, d6
	fadd	d7, d6, d6
	fmul	d3, d6, d0
	fadd	d7, d1, d7
	fsub	d1, d1, d6
	fmul	d3, d0, d3
	fmul	d7, d2, d7
	fmul	d2, d2, d16
	fdiv	d7, d7, d16
	fdiv	d1, d1, d2
	fsub	d2, d4, d7
	fmul	d2, d0, d2
	fadd	d2, d5, d2
	fadd	d2, d3, d2
	fmul	d1, d0, d1
	fmul	d1, d0, d1
	fmul	d0, d0, d1
	fadd	d0, d0, d2
.LBB65_51:                              // %arm.2.i1.i
	mov	x0, xzr
	str	d0, [x4]
	b	.LBB65_5
.Lfunc_end65:
	.size	senyolanda_cubic_spline_interpolate, .Lfunc_end65-senyolanda_cubic_spline_interpolate
                                        // -- End function
	.section	.text.senyolanda_date_of_number,"ax",@progbits
	.globl	senyolanda_date_of_number       // -- Begin function senyolanda_date_of_number
	.p2align	2
	.type	senyolanda_date_of_number,@function
senyolanda_date_of_number:              // @senyolanda_date_of_number
// %bb.0:                               // %start
	mov	w9, #44036                      // =0xac04
	sub	w8, w0, #2
	movk	w9, #1, lsl #16
	cmp	w8, w9
	b.hi	.LBB66_5
// %bb.1:                               // %join.3.i.i
	mov	w9, #25427                      // =0x6353
	mov	w11, #36599                     // =0x8ef7
	mov	w10, #365                       // =0x16d
	movk	w9, #45839, lsl #16
	cmp	w8, w11
	mov	w11, #27396                     // =0x6b04
	umull	x9, w8, w9
	movk	w11, #65525, lsl #16
	cinc	w11, w11, hi
	lsr	x9, x9, #40
	add	w12, w9, #1901
	add	w13, w9, #100
	add	w14, w9, #4
	ubfx	w13, w13, #2, #14
	madd	w10, w12, w10, w11
	mov	w11, #5243                      // =0x147b
	add	w9, w9, #1900
	mul	w13, w13, w11
	add	w10, w10, w14, lsr #2
	mov	w14, #43691                     // =0xaaab
	movk	w14, #43690, lsl #16
	sub	w10, w10, w13, lsr #17
	cmp	w8, w10
	mov	w10, #-365                      // =0xfffffe93
	csel	w8, w9, w12, lo
	sub	w9, w8, #1801
	sub	w12, w8, #1897
	madd	w10, w8, w10, w0
	ubfx	w9, w9, #2, #14
	lsr	w12, w12, #2
	sub	w13, w8, #2001
	cmn	w13, #400
	mov	w13, #5                         // =0x5
	mul	w9, w9, w11
	sbc	w10, w10, w12
	mov	w12, #367                       // =0x16f
	add	w9, w10, w9, lsr #17
	mov	w10, #4229                      // =0x1085
	movk	w10, #2114, lsl #16
	add	w9, w9, #169, lsl #12           // =692224
	add	w9, w9, #1274
	umull	x10, w9, w10
	lsr	x10, x10, #32
	sub	w11, w9, w10
	add	w10, w10, w11, lsr #1
	mov	w11, #23593                     // =0x5c29
	mul	w11, w8, w11
	lsr	w10, w10, #4
	madd	w12, w10, w12, w13
	lsl	w13, w11, #12
	bfxil	w13, w11, #4, #12
	umull	x12, w12, w14
	lsl	w14, w11, #14
	bfxil	w14, w11, #2, #14
	and	w11, w13, #0xffff
	lsr	x12, x12, #35
	cmp	w11, #164
	mov	w11, #-2                        // =0xfffffffe
	and	w13, w14, #0xffff
	cinc	w11, w11, lo
	add	w11, w12, w11
	sub	w14, w12, #1
	cmp	w13, #656
	csel	w11, w11, w14, lo
	sub	w13, w12, #2
	tst	w8, #0x3
	csel	w11, w11, w13, eq
	cmp	w9, #62
	csel	w12, w12, w11, lo
	cmp	w10, #10
	add	w11, w10, #1
	b.hi	.LBB66_8
// %bb.2:                               // %"dates::day_numbers::days_before_month.exit.i.i.i.i"
	mov	w13, #1                         // =0x1
	mov	w14, #1320                      // =0x528
	lsl	w13, w13, w10
	tst	w13, w14
	b.eq	.LBB66_6
// %bb.3:
	mov	w13, #30                        // =0x1e
.LBB66_4:                               // %"dates::day_numbers::month_at.exit.i.i.i"
	add	w12, w13, w12
	mov	w13, #23593                     // =0x5c29
	add	w10, w10, #2
	cmp	w9, w12
	mul	w12, w8, w13
	mov	w13, #-362                      // =0xfffffe96
	csel	w10, w11, w10, lo
	mov	w11, #367                       // =0x16f
	mov	w14, #43691                     // =0xaaab
	madd	w11, w10, w11, w13
	movk	w14, #43690, lsl #16
	lsl	w13, w12, #12
	umull	x11, w11, w14
	lsl	w14, w12, #14
	bfxil	w13, w12, #4, #12
	bfxil	w14, w12, #2, #14
	and	w12, w13, #0xffff
	lsr	x11, x11, #35
	cmp	w12, #164
	mov	w12, #-2                        // =0xfffffffe
	and	w13, w14, #0xffff
	cinc	w12, w12, lo
	add	w12, w11, w12
	sub	w14, w11, #1
	cmp	w13, #656
	csel	w12, w12, w14, lo
	sub	w13, w11, #2
	tst	w8, #0x3
	csel	w12, w12, w13, eq
	cmp	w10, #3
	csel	w11, w11, w12, lo
	sub	sp, sp, #16
	sub	w9, w9, w11
	strh	w8, [sp, #4]
	mov	x0, xzr
	add	w8, w9, #1
	strb	w10, [sp, #6]
	strb	w8, [sp, #7]
	ldr	w8, [sp, #4]
	strb	wzr, [x1, #3]
	ubfx	w9, w8, #8, #8
	ubfx	w10, w8, #16, #8
	strb	w8, [x1]
	lsr	w8, w8, #24
	sturh	w9, [x1, #1]
	stp	w10, w8, [x1, #4]
	add	sp, sp, #16
	ret
.LBB66_5:                               // %arm.1.i5.i
	mov	w0, #15                         // =0xf
	ret
.LBB66_6:                               // %"dates::day_numbers::days_before_month.exit.i.i.i.i"
	cmp	w10, #1
	b.ne	.LBB66_8
// %bb.7:                               // %arm.1.i.i.i.i.i
	mov	w13, #23593                     // =0x5c29
	mul	w13, w8, w13
	lsl	w14, w13, #12
	lsl	w15, w13, #14
	bfxil	w14, w13, #4, #12
	bfxil	w15, w13, #2, #14
	and	w13, w14, #0xffff
	and	w14, w15, #0xffff
	cmp	w13, #164
	mov	w13, #655                       // =0x28f
	ccmp	w14, w13, #2, hs
	mov	w13, #28                        // =0x1c
	mov	w14, #28                        // =0x1c
	cinc	w13, w13, hi
	tst	w8, #0x3
	csel	w13, w14, w13, ne
	b	.LBB66_4
.LBB66_8:                               // %default.3.i.i.i.i.i
	mov	w13, #31                        // =0x1f
	b	.LBB66_4
.Lfunc_end66:
	.size	senyolanda_date_of_number, .Lfunc_end66-senyolanda_date_of_number
                                        // -- End function
	.section	.text.senyolanda_dated_duration_convexity,"ax",@progbits
	.globl	senyolanda_dated_duration_convexity // -- Begin function senyolanda_dated_duration_convexity
	.p2align	2
	.type	senyolanda_dated_duration_convexity,@function
senyolanda_dated_duration_convexity:    // @senyolanda_dated_duration_convexity
// %bb.0:                               // %start
	str	d8, [sp, #-112]!                // 8-byte Folded Spill
	sub	x9, sp, #4, lsl #12             // =16384
	stp	x29, x30, [sp, #16]             // 16-byte Folded Spill
	add	x29, sp, #16
	sub	x9, x9, #2048
	stp	x28, x27, [sp, #32]             // 16-byte Folded Spill
	stp	x26, x25, [sp, #48]             // 16-byte Folded Spill
	stp	x24, x23, [sp, #64]             // 16-byte Folded Spill
	stp	x22, x21, [sp, #80]             // 16-byte Folded Spill
	stp	x20, x19, [sp, #96]             // 16-byte Folded Spill
.LBB67_1:                               // %start
                                        // =>This Inner Loop Header: Depth=1
	sub	sp, sp, #3072
	cmp	sp, x9
	str	xzr, [sp]
	b.ne	.LBB67_1
// %bb.2:                               // %start
	sub	sp, sp, #832
	cmp	x0, #0
	mov	w8, #4096                       // =0x1000
	mov	x25, x1
	csel	x26, x8, xzr, eq
	cmp	x2, #0
	csel	x27, x8, xzr, eq
	cmp	x4, #0
	csel	x28, x8, xzr, eq
	tbnz	w25, #0, .LBB67_6
// %bb.3:                               // %repeat.4.preheader.i.i
	mov	x24, x0
	add	x0, sp, #2, lsl #12             // =8192
	mov	x23, x2
	add	x0, x0, #1432
	mov	w1, wzr
	mov	w2, #9608                       // =0x2588
	mov	x19, x6
	mov	x20, x5
	mov	x22, x4
	mov	x21, x3
	fmov	d8, d0
	bl	memset
	add	x0, sp, #16
	mov	w1, wzr
	mov	w2, #9608                       // =0x2588
	bl	memset
	fmov	d0, d8
	lsr	x8, x25, #1
	mov	w9, #1201                       // =0x4b1
	cmp	x8, #1201
	csel	x2, x8, x9, lo
	cbz	x25, .LBB67_12
// %bb.4:                               // %join.5.i.i.i.preheader
	cmp	x25, #8
	b.hs	.LBB67_7
// %bb.5:
	mov	x8, xzr
	b	.LBB67_10
.LBB67_6:                               // %"core::result::Result::map::<#c2f2d10bf1e3f8e3>.exit.thread.i"
	mov	w8, wzr
	mov	w9, #3                          // =0x3
	b	.LBB67_15
.LBB67_7:                               // %vector.ph
	add	x10, sp, #2, lsl #12            // =8192
	add	x9, x26, x24
	add	x11, sp, #16
	add	x10, x10, #1432
	and	x8, x2, #0x7fc
	add	x9, x9, #32
	add	x10, x10, #16
	add	x11, x11, #16
	and	x12, x2, #0x7fc
.LBB67_8:                               // %vector.body
                                        // =>This Inner Loop Header: Depth=1
	sub	x13, x9, #32
	ld2	{ v3.2d, v4.2d }, [x9]
	subs	x12, x12, #4
	add	x9, x9, #64
	ld2	{ v1.2d, v2.2d }, [x13]
	stp	q1, q3, [x10, #-16]
	add	x10, x10, #32
	stp	q2, q4, [x11, #-16]
	add	x11, x11, #32
	b.ne	.LBB67_8
// %bb.9:                               // %middle.block
	cmp	x2, x8
	b.eq	.LBB67_12
.LBB67_10:                              // %join.5.i.i.i.preheader1
	add	x10, x26, x8, lsl #4
	lsl	x11, x8, #3
	add	x12, sp, #2, lsl #12            // =8192
	sub	x9, x2, x8
	add	x8, sp, #16
	add	x12, x12, #1432
	add	x13, x10, x24
	add	x8, x8, x11
	add	x10, x12, x11
	add	x11, x13, #8
.LBB67_11:                              // %join.5.i.i.i
                                        // =>This Inner Loop Header: Depth=1
	ldp	d1, d2, [x11, #-8]
	subs	x9, x9, #1
	add	x11, x11, #16
	str	d1, [x10], #8
	str	d2, [x8], #8
	b.ne	.LBB67_11
.LBB67_12:                              // %"senyolanda::dated::of_flows::<#50fbc9801d99b2e8>.exit.i"
	add	x1, sp, #2, lsl #12             // =8192
	sub	x0, x29, #48
	add	x3, sp, #16
	add	x1, x1, #1432
	add	x5, x23, x27
	add	x7, x22, x28
	mov	x4, x2
	mov	x6, x21
	stp	xzr, xzr, [x29, #-48]
	stur	xzr, [x29, #-32]
	str	x20, [sp]
	bl	"spread_analytics::spread::duration_convexity"
	sub	x10, x29, #48
	ldrb	w9, [x10]
	ldr	w8, [x10, #8]
	cbz	w9, .LBB67_16
// %bb.13:                              // %"senyolanda::dated::of_flows::<#50fbc9801d99b2e8>.exit.i"
	cmp	w9, #1
	b.ne	.LBB67_17
// %bb.14:
	ldrb	w9, [x10, #4]
.LBB67_15:                              // %arm.1.i4.i
	mov	w9, w9
	orr	x8, x9, x8, lsl #32
	add	x0, x8, #1
	b	.LBB67_19
.LBB67_16:
	ldr	w9, [x10, #12]
	ldur	d0, [x29, #-32]
	b	.LBB67_18
.LBB67_17:                              // %arm.2.i3.fold.split.i
	movi	d0, #0000000000000000
	mov	w9, wzr
.LBB67_18:                              // %arm.2.i3.i
	mov	x0, xzr
	stp	w8, w9, [x19]
	str	d0, [x19, #8]
.LBB67_19:                              // %"senyolanda::dated::senyolanda_dated_duration_convexity.exit"
	add	sp, sp, #4, lsl #12             // =16384
	add	sp, sp, #2880
	ldp	x20, x19, [sp, #96]             // 16-byte Folded Reload
	ldp	x22, x21, [sp, #80]             // 16-byte Folded Reload
	ldp	x24, x23, [sp, #64]             // 16-byte Folded Reload
	ldp	x26, x25, [sp, #48]             // 16-byte Folded Reload
	ldp	x28, x27, [sp, #32]             // 16-byte Folded Reload
	ldp	x29, x30, [sp, #16]             // 16-byte Folded Reload
	ldr	d8, [sp], #112                  // 8-byte Folded Reload
	ret
.Lfunc_end67:
	.size	senyolanda_dated_duration_convexity, .Lfunc_end67-senyolanda_dated_duration_convexity
                                        // -- End function
	.section	.text.senyolanda_dated_fixed_leg_pv,"ax",@progbits
	.globl	senyolanda_dated_fixed_leg_pv   // -- Begin function senyolanda_dated_fixed_leg_pv
	.p2align	2
	.type	senyolanda_dated_fixed_leg_pv,@function
senyolanda_dated_fixed_leg_pv:          // @senyolanda_dated_fixed_leg_pv
// %bb.0:                               // %start
	sub	sp, sp, #192
	stp	x24, x23, [sp, #144]            // 16-byte Folded Spill
	mov	x23, x2
	cmp	x0, #0
	mov	w9, #4096                       // =0x1000
	movi	v0.2d, #0000000000000000
	str	x25, [sp, #128]                 // 8-byte Spill
	csel	x10, x9, xzr, eq
	cmp	x2, #0
	stp	x22, x21, [sp, #160]            // 16-byte Folded Spill
	csel	x24, x9, xzr, eq
	cmp	x4, #0
	stp	x20, x19, [sp, #176]            // 16-byte Folded Spill
	mov	x20, x5
	mov	x8, x0
	mov	x22, x3
	csel	x25, x9, xzr, eq
	mov	x19, x6
	mov	x21, x4
	mov	x2, x1
	add	x0, sp, #8
	add	x1, x8, x10
	add	x3, x23, x24
	add	x5, x4, x25
	mov	x4, x22
	mov	x6, x20
	stp	x29, x30, [sp, #112]            // 16-byte Folded Spill
	add	x29, sp, #112
	str	xzr, [sp, #48]
	stp	q0, q0, [sp, #16]
	bl	"senyolanda::dated_swaps::dated_swap_in"
	ldrb	w8, [sp, #8]
	cbz	w8, .LBB68_2
// %bb.1:                               // %"core::result::Result::and_then::<#f24532b50f06a787>.exit.thread.i"
	ldr	w8, [sp, #16]
	ldrb	w9, [sp, #12]
	b	.LBB68_4
.LBB68_2:                               // %"core::result::Result::and_then::<#f24532b50f06a787>.exit.i"
	ldur	q0, [sp, #24]
	ldur	q1, [sp, #40]
	sub	x0, x29, #16
	ldrb	w8, [sp, #16]
	add	x1, sp, #56
	add	x2, x23, x24
	add	x4, x21, x25
	mov	x3, x22
	mov	x5, x20
	stp	q0, q1, [sp, #64]
	str	x8, [sp, #56]
	bl	"swaps::legs::fixed_leg_pv"
	ldurb	w9, [x29, #-16]
	ldur	x8, [x29, #-8]
	cmp	w9, #1
	b.ne	.LBB68_6
// %bb.3:
	ldurb	w9, [x29, #-12]
.LBB68_4:                               // %arm.1.i4.i
	add	w9, w9, #1
	orr	x0, x9, x8, lsl #32
.LBB68_5:                               // %"senyolanda::dated_swaps::senyolanda_dated_fixed_leg_pv.exit"
	ldp	x20, x19, [sp, #176]            // 16-byte Folded Reload
	ldr	x25, [sp, #128]                 // 8-byte Reload
	ldp	x22, x21, [sp, #160]            // 16-byte Folded Reload
	ldp	x24, x23, [sp, #144]            // 16-byte Folded Reload
	ldp	x29, x30, [sp, #112]            // 16-byte Folded Reload
	add	sp, sp, #192
	ret
.LBB68_6:                               // %arm.2.i.i
	mov	x0, xzr
	str	x8, [x19]
	b	.LBB68_5
.Lfunc_end68:
	.size	senyolanda_dated_fixed_leg_pv, .Lfunc_end68-senyolanda_dated_fixed_leg_pv
                                        // -- End function
	.section	.text.senyolanda_dated_floating_leg_pv,"ax",@progbits
	.globl	senyolanda_dated_floating_leg_pv // -- Begin function senyolanda_dated_floating_leg_pv
	.p2align	2
	.type	senyolanda_dated_floating_leg_pv,@function
senyolanda_dated_floating_leg_pv:       // @senyolanda_dated_floating_leg_pv
// %bb.0:                               // %start
	sub	sp, sp, #192
	stp	x24, x23, [sp, #144]            // 16-byte Folded Spill
	mov	x23, x2
	cmp	x0, #0
	mov	w9, #4096                       // =0x1000
	movi	v0.2d, #0000000000000000
	str	x25, [sp, #128]                 // 8-byte Spill
	csel	x10, x9, xzr, eq
	cmp	x2, #0
	stp	x22, x21, [sp, #160]            // 16-byte Folded Spill
	csel	x24, x9, xzr, eq
	cmp	x4, #0
	stp	x20, x19, [sp, #176]            // 16-byte Folded Spill
	mov	x20, x5
	mov	x8, x0
	mov	x22, x3
	csel	x25, x9, xzr, eq
	mov	x19, x6
	mov	x21, x4
	mov	x2, x1
	add	x0, sp, #8
	add	x1, x8, x10
	add	x3, x23, x24
	add	x5, x4, x25
	mov	x4, x22
	mov	x6, x20
	stp	x29, x30, [sp, #112]            // 16-byte Folded Spill
	add	x29, sp, #112
	str	xzr, [sp, #48]
	stp	q0, q0, [sp, #16]
	bl	"senyolanda::dated_swaps::dated_swap_in"
	ldrb	w8, [sp, #8]
	cbz	w8, .LBB69_2
// %bb.1:                               // %"core::result::Result::and_then::<#cdafd20254ce29c5>.exit.thread.i"
	ldr	w8, [sp, #16]
	ldrb	w9, [sp, #12]
	b	.LBB69_4
.LBB69_2:                               // %"core::result::Result::and_then::<#cdafd20254ce29c5>.exit.i"
	ldur	q0, [sp, #24]
	ldur	q1, [sp, #40]
	sub	x0, x29, #16
	ldrb	w8, [sp, #16]
	add	x1, sp, #56
	add	x2, x23, x24
	add	x4, x21, x25
	mov	x3, x22
	mov	x5, x20
	stp	q0, q1, [sp, #64]
	str	x8, [sp, #56]
	bl	"swaps::legs::floating_leg_pv"
	ldurb	w9, [x29, #-16]
	ldur	x8, [x29, #-8]
	cmp	w9, #1
	b.ne	.LBB69_6
// %bb.3:
	ldurb	w9, [x29, #-12]
.LBB69_4:                               // %arm.1.i4.i
	add	w9, w9, #1
	orr	x0, x9, x8, lsl #32
.LBB69_5:                               // %"senyolanda::dated_swaps::senyolanda_dated_floating_leg_pv.exit"
	ldp	x20, x19, [sp, #176]            // 16-byte Folded Reload
	ldr	x25, [sp, #128]                 // 8-byte Reload
	ldp	x22, x21, [sp, #160]            // 16-byte Folded Reload
	ldp	x24, x23, [sp, #144]            // 16-byte Folded Reload
	ldp	x29, x30, [sp, #112]            // 16-byte Folded Reload
	add	sp, sp, #192
	ret
.LBB69_6:                               // %arm.2.i.i
	mov	x0, xzr
	str	x8, [x19]
	b	.LBB69_5
.Lfunc_end69:
	.size	senyolanda_dated_floating_leg_pv, .Lfunc_end69-senyolanda_dated_floating_leg_pv
                                        // -- End function
	.section	.text.senyolanda_dated_fraction,"ax",@progbits
	.globl	senyolanda_dated_fraction       // -- Begin function senyolanda_dated_fraction
	.p2align	2
	.type	senyolanda_dated_fraction,@function
senyolanda_dated_fraction:              // @senyolanda_dated_fraction
// %bb.0:                               // %start
	cmp	w1, #16, lsl #12                // =65536
	mov	w8, #65536                      // =0x10000
	orr	w10, w3, w2
	csel	w9, w1, w8, lo
	cmp	w10, #256
	orr	w11, w6, w5
	add	w9, w9, w2, lsl #16
	ccmp	w1, w8, #2, lo
	add	w9, w9, w3, lsl #24
	csel	w9, w9, wzr, lo
	cmp	w4, #16, lsl #12                // =65536
	csel	w10, w4, w8, lo
	cmp	w11, #256
	add	w10, w10, w5, lsl #16
	ccmp	w4, w8, #2, lo
	add	w10, w10, w6, lsl #24
	csel	w10, w10, wzr, lo
	cmp	w0, #2
	b.hi	.LBB70_16
// %bb.1:                               // %arm.1.i.i
	ubfx	w11, w9, #16, #8
	and	w12, w9, #0xffff
	cmp	w11, #11
	b.hi	.LBB70_20
// %bb.2:                               // %arm.1.i.i
	mov	w8, #1                          // =0x1
	mov	w13, #2640                      // =0xa50
	lsl	w8, w8, w11
	tst	w8, w13
	b.eq	.LBB70_17
// %bb.3:
	mov	w14, #30                        // =0x1e
.LBB70_4:                               // %"dates::calendar::days_in.exit.i.i.i.i.i.i.i"
	sub	w8, w12, #1900
	cmp	w8, #299
	mov	w8, #15                         // =0xf
	b.hi	.LBB70_33
// %bb.5:                               // %"dates::calendar::days_in.exit.i.i.i.i.i.i.i"
	sub	w13, w11, #1
	cmp	w13, #11
	b.hi	.LBB70_33
// %bb.6:                               // %"dates::calendar::days_in.exit.i.i.i.i.i.i.i"
	lsr	w13, w9, #24
	sub	w15, w13, #1
	cmp	w15, w14
	b.hs	.LBB70_33
// %bb.7:                               // %else.2.i.i.i.i.i.i
	ubfx	w14, w10, #16, #8
	and	w15, w10, #0xffff
	cmp	w14, #11
	b.hi	.LBB70_28
// %bb.8:                               // %else.2.i.i.i.i.i.i
	mov	w8, #1                          // =0x1
	mov	w16, #2640                      // =0xa50
	lsl	w8, w8, w14
	tst	w8, w16
	b.eq	.LBB70_25
// %bb.9:
	mov	w17, #30                        // =0x1e
.LBB70_10:                              // %"dates::calendar::days_in.exit.i9.i.i.i.i.i.i"
	sub	w8, w15, #1900
	cmp	w8, #299
	mov	w8, #15                         // =0xf
	b.hi	.LBB70_33
// %bb.11:                              // %"dates::calendar::days_in.exit.i9.i.i.i.i.i.i"
	sub	w16, w14, #1
	cmp	w16, #11
	b.hi	.LBB70_33
// %bb.12:                              // %"dates::calendar::days_in.exit.i9.i.i.i.i.i.i"
	lsr	w16, w10, #24
	sub	w18, w16, #1
	cmp	w18, w17
	b.hs	.LBB70_33
// %bb.13:                              // %else.5.i.i.i.i.i.i
	cmp	w12, w15
	b.ne	.LBB70_21
// %bb.14:                              // %arm.7.i.i.i.i.i.i.i.i.i.i
	cmp	w13, w16
	cset	w8, lo
	cmp	w11, w14
	cset	w15, lo
	csel	w8, w8, w15, eq
	tbnz	w8, #0, .LBB70_22
.LBB70_15:
	mov	w8, #15                         // =0xf
	mov	x0, x8
	ret
.LBB70_16:
	mov	w8, #11                         // =0xb
	mov	x0, x8
	ret
.LBB70_17:                              // %arm.1.i.i
	cmp	w11, #2
	b.ne	.LBB70_20
// %bb.18:                              // %arm.1.i.i.i.i.i.i.i.i
	tst	w9, #0x3
	mov	w14, #28                        // =0x1c
	b.ne	.LBB70_4
// %bb.19:                              // %then.1.i.i.i.i.i.i.i.i.i
	mov	w8, #23593                      // =0x5c29
	mov	w15, #23592                     // =0x5c28
	movk	w8, #49807, lsl #16
	movk	w15, #655, lsl #16
	mul	w8, w12, w8
	ror	w13, w8, #2
	ror	w8, w8, #4
	cmp	w13, w15
	mov	w13, #55051                     // =0xd70b
	movk	w13, #163, lsl #16
	ccmp	w8, w13, #0, ls
	cset	w8, lo
	tst	w8, #0x1
	cinc	w14, w14, ne
	b	.LBB70_4
.LBB70_20:                              // %default.3.i.i.i.i.i.i.i.i
	mov	w14, #31                        // =0x1f
	b	.LBB70_4
.LBB70_21:                              // %"dates::counts::bad_dates.exit.i.i.i.i.i"
	b.hs	.LBB70_15
.LBB70_22:                              // %join.3.i.i.i.i.i
	cmp	w0, #2
	b.eq	.LBB70_29
// %bb.23:                              // %join.3.i.i.i.i.i
	stp	x29, x30, [sp, #-32]!           // 16-byte Folded Spill
	lsr	w11, w9, #16
	lsr	w12, w10, #16
	and	w8, w9, #0xff000000
	and	w1, w10, #0xff000000
	cmp	w0, #1
	stp	x20, x19, [sp, #16]             // 16-byte Folded Spill
	bfi	w8, w11, #16, #8
	bfi	w1, w12, #16, #8
	mov	x29, sp
	bfxil	w8, w9, #0, #16
	bfxil	w1, w10, #0, #16
	b.ne	.LBB70_30
// %bb.24:                              // %arm.5.i.i.i.i.i
	mov	w19, w0
	mov	w0, w8
	mov	x20, x7
	bl	"dates::counts::actual_days"
	mov	x7, x20
	mov	w9, w0
	mov	w0, w19
	b	.LBB70_31
.LBB70_25:                              // %else.2.i.i.i.i.i.i
	cmp	w14, #2
	b.ne	.LBB70_28
// %bb.26:                              // %arm.1.i.i16.i.i.i.i.i.i
	tst	w10, #0x3
	mov	w17, #28                        // =0x1c
	b.ne	.LBB70_10
// %bb.27:                              // %then.1.i.i.i19.i.i.i.i.i.i
	mov	w8, #23593                      // =0x5c29
	mov	w18, #23592                     // =0x5c28
	movk	w8, #49807, lsl #16
	movk	w18, #655, lsl #16
	mul	w8, w15, w8
	ror	w16, w8, #2
	ror	w8, w8, #4
	cmp	w16, w18
	mov	w16, #55051                     // =0xd70b
	movk	w16, #163, lsl #16
	ccmp	w8, w16, #0, ls
	cset	w8, lo
	tst	w8, #0x1
	cinc	w17, w17, ne
	b	.LBB70_10
.LBB70_28:                              // %default.3.i.i27.i.i.i.i.i.i
	mov	w17, #31                        // =0x1f
	b	.LBB70_10
.LBB70_29:                              // %arm.6.i.i.i.i.i
	mov	w8, #360                        // =0x168
	and	w10, w10, #0xffff
	mov	w15, #30                        // =0x1e
	mul	w12, w12, w8
	cmp	w13, #31
	lsr	w9, w9, #25
	mul	w8, w10, w8
	madd	w10, w11, w15, w12
	csel	w11, w15, w13, eq
	cmp	w16, #31
	madd	w8, w14, w15, w8
	ccmp	w9, #15, #0, eq
	csel	w9, w15, w16, eq
	add	w10, w10, w11
	add	w8, w8, w9
	subs	w8, w8, w10
	csel	w9, wzr, w8, lo
	b	.LBB70_32
.LBB70_30:                              // %arm.4.i.i.i.i.i
	mov	w20, w0
	mov	w0, w8
	mov	x19, x7
	bl	"dates::counts::actual_days"
	mov	w9, w0
	mov	w0, w20
	mov	x7, x19
.LBB70_31:
	ldp	x20, x19, [sp, #16]             // 16-byte Folded Reload
	ldp	x29, x30, [sp], #32             // 16-byte Folded Reload
.LBB70_32:                              // %arm.2.i10.i
	ucvtf	d0, w9
	mov	x9, #140737488355328            // =0x800000000000
	mov	x10, #228698418577408           // =0xd00000000000
	movk	x9, #16502, lsl #48
	movk	x10, #16502, lsl #48
	cmp	w0, #1
	fmov	d1, x9
	fmov	d2, x10
	mov	x8, xzr
	//ARITH_FENCE
	fcsel	d1, d2, d1, eq
	fdiv	d0, d0, d1
	str	d0, [x7]
.LBB70_33:                              // %"senyolanda::date_counts::senyolanda_dated_fraction.exit"
	mov	x0, x8
	ret
.Lfunc_end70:
	.size	senyolanda_dated_fraction, .Lfunc_end70-senyolanda_dated_fraction
                                        // -- End function
	.section	.text.senyolanda_dated_par_swap_rate,"ax",@progbits
	.globl	senyolanda_dated_par_swap_rate  // -- Begin function senyolanda_dated_par_swap_rate
	.p2align	2
	.type	senyolanda_dated_par_swap_rate,@function
senyolanda_dated_par_swap_rate:         // @senyolanda_dated_par_swap_rate
// %bb.0:                               // %start
	sub	sp, sp, #192
	stp	x24, x23, [sp, #144]            // 16-byte Folded Spill
	mov	x23, x2
	cmp	x0, #0
	mov	w9, #4096                       // =0x1000
	movi	v0.2d, #0000000000000000
	str	x25, [sp, #128]                 // 8-byte Spill
	csel	x10, x9, xzr, eq
	cmp	x2, #0
	stp	x22, x21, [sp, #160]            // 16-byte Folded Spill
	csel	x24, x9, xzr, eq
	cmp	x4, #0
	stp	x20, x19, [sp, #176]            // 16-byte Folded Spill
	mov	x20, x5
	mov	x8, x0
	mov	x22, x3
	csel	x25, x9, xzr, eq
	mov	x19, x6
	mov	x21, x4
	mov	x2, x1
	add	x0, sp, #8
	add	x1, x8, x10
	add	x3, x23, x24
	add	x5, x4, x25
	mov	x4, x22
	mov	x6, x20
	stp	x29, x30, [sp, #112]            // 16-byte Folded Spill
	add	x29, sp, #112
	str	xzr, [sp, #48]
	stp	q0, q0, [sp, #16]
	bl	"senyolanda::dated_swaps::dated_swap_in"
	ldrb	w8, [sp, #8]
	cbz	w8, .LBB71_2
// %bb.1:                               // %"core::result::Result::and_then::<#9476e3cb2958adc7>.exit.thread.i"
	ldr	w8, [sp, #16]
	ldrb	w9, [sp, #12]
	b	.LBB71_4
.LBB71_2:                               // %"core::result::Result::and_then::<#9476e3cb2958adc7>.exit.i"
	ldur	q0, [sp, #24]
	ldur	q1, [sp, #40]
	sub	x0, x29, #16
	ldrb	w8, [sp, #16]
	add	x1, sp, #56
	add	x2, x23, x24
	add	x4, x21, x25
	mov	x3, x22
	mov	x5, x20
	stp	q0, q1, [sp, #64]
	str	x8, [sp, #56]
	bl	"swaps::valuation::par_swap_rate"
	ldurb	w9, [x29, #-16]
	ldur	x8, [x29, #-8]
	cmp	w9, #1
	b.ne	.LBB71_6
// %bb.3:
	ldurb	w9, [x29, #-12]
.LBB71_4:                               // %arm.1.i4.i
	add	w9, w9, #1
	orr	x0, x9, x8, lsl #32
.LBB71_5:                               // %"senyolanda::dated_swaps::senyolanda_dated_par_swap_rate.exit"
	ldp	x20, x19, [sp, #176]            // 16-byte Folded Reload
	ldr	x25, [sp, #128]                 // 8-byte Reload
	ldp	x22, x21, [sp, #160]            // 16-byte Folded Reload
	ldp	x24, x23, [sp, #144]            // 16-byte Folded Reload
	ldp	x29, x30, [sp, #112]            // 16-byte Folded Reload
	add	sp, sp, #192
	ret
.LBB71_6:                               // %arm.2.i.i
	mov	x0, xzr
	str	x8, [x19]
	b	.LBB71_5
.Lfunc_end71:
	.size	senyolanda_dated_par_swap_rate, .Lfunc_end71-senyolanda_dated_par_swap_rate
                                        // -- End function
	.section	.text.senyolanda_dated_pv,"ax",@progbits
	.globl	senyolanda_dated_pv             // -- Begin function senyolanda_dated_pv
	.p2align	2
	.type	senyolanda_dated_pv,@function
senyolanda_dated_pv:                    // @senyolanda_dated_pv
// %bb.0:                               // %start
	stp	d9, d8, [sp, #-112]!            // 16-byte Folded Spill
	sub	x9, sp, #4, lsl #12             // =16384
	stp	x29, x30, [sp, #16]             // 16-byte Folded Spill
	add	x29, sp, #16
	sub	x9, x9, #2048
	stp	x28, x27, [sp, #32]             // 16-byte Folded Spill
	stp	x26, x25, [sp, #48]             // 16-byte Folded Spill
	stp	x24, x23, [sp, #64]             // 16-byte Folded Spill
	stp	x22, x21, [sp, #80]             // 16-byte Folded Spill
	stp	x20, x19, [sp, #96]             // 16-byte Folded Spill
.LBB72_1:                               // %start
                                        // =>This Inner Loop Header: Depth=1
	sub	sp, sp, #3072
	cmp	sp, x9
	str	xzr, [sp]
	b.ne	.LBB72_1
// %bb.2:                               // %start
	sub	sp, sp, #1904
	cmp	x0, #0
	mov	w8, #4096                       // =0x1000
	mov	x25, x1
	csel	x23, x8, xzr, eq
	cmp	x2, #0
	str	xzr, [sp]
	csel	x9, x8, xzr, eq
	cmp	x4, #0
	stp	x3, x5, [sp, #48]               // 16-byte Folded Spill
	csel	x8, x8, xzr, eq
	stp	x8, x9, [sp, #32]               // 16-byte Folded Spill
	tbnz	w25, #0, .LBB72_6
// %bb.3:                               // %repeat.4.preheader.i.i
	mov	x26, x0
	add	x0, sp, #2, lsl #12             // =8192
	mov	x21, x2
	add	x19, sp, #4, lsl #12            // =16384
	add	x0, x0, #1480
	mov	w1, wzr
	mov	w2, #9608                       // =0x2588
	mov	x22, x4
	mov	x24, x6
	fmov	d8, d0
	add	x19, x19, #2896
	bl	memset
	add	x0, sp, #64
	mov	w1, wzr
	mov	w2, #9608                       // =0x2588
	bl	memset
	lsr	x8, x25, #1
	mov	w9, #1201                       // =0x4b1
	cmp	x8, #1201
	csel	x20, x8, x9, lo
	cbz	x25, .LBB72_12
// %bb.4:                               // %join.5.i.i.i.preheader
	cmp	x25, #8
	b.hs	.LBB72_7
// %bb.5:
	mov	x8, xzr
	b	.LBB72_10
.LBB72_6:                               // %"senyolanda::dated::of_flows::<#ee45dc0b20605a03>.exit.thread.i"
	mov	w0, #4                          // =0x4
	b	.LBB72_29
.LBB72_7:                               // %vector.ph
	add	x10, sp, #2, lsl #12            // =8192
	add	x9, x23, x26
	add	x11, sp, #64
	add	x10, x10, #1480
	and	x8, x20, #0x7fc
	add	x9, x9, #32
	add	x10, x10, #16
	add	x11, x11, #16
	and	x12, x20, #0x7fc
.LBB72_8:                               // %vector.body
                                        // =>This Inner Loop Header: Depth=1
	sub	x13, x9, #32
	ld2	{ v2.2d, v3.2d }, [x9]
	subs	x12, x12, #4
	add	x9, x9, #64
	ld2	{ v0.2d, v1.2d }, [x13]
	stp	q0, q2, [x10, #-16]
	add	x10, x10, #32
	stp	q1, q3, [x11, #-16]
	add	x11, x11, #32
	b.ne	.LBB72_8
// %bb.9:                               // %middle.block
	cmp	x20, x8
	b.eq	.LBB72_12
.LBB72_10:                              // %join.5.i.i.i.preheader1
	add	x10, x23, x8, lsl #4
	lsl	x11, x8, #3
	add	x12, sp, #2, lsl #12            // =8192
	sub	x9, x20, x8
	add	x8, sp, #64
	add	x12, x12, #1480
	add	x13, x10, x26
	add	x8, x8, x11
	add	x10, x12, x11
	add	x11, x13, #8
.LBB72_11:                              // %join.5.i.i.i
                                        // =>This Inner Loop Header: Depth=1
	ldp	d0, d1, [x11, #-8]
	subs	x9, x9, #1
	add	x11, x11, #16
	str	d0, [x10], #8
	str	d1, [x8], #8
	b.ne	.LBB72_11
.LBB72_12:                              // %"senyolanda::dated::parted.exit.i.i"
	ldp	x8, x6, [sp, #40]               // 16-byte Folded Reload
	add	x0, sp, #4, lsl #12             // =16384
	add	x1, sp, #2, lsl #12             // =8192
	add	x0, x0, #2896
	add	x3, sp, #64
	add	x1, x1, #1480
	mov	x2, x20
	mov	x4, x20
	add	x5, x21, x8
	ldr	x8, [sp, #32]                   // 8-byte Reload
	str	wzr, [x19, #8]
	str	xzr, [sp, #19280]
	add	x7, x22, x8
	ldr	x8, [sp, #56]                   // 8-byte Reload
	strb	wzr, [sp, #8]
	str	x8, [sp]
	bl	"spread_analytics::judging::judge_spread"
	ldrb	w8, [x19]
	cmp	w8, #1
	b.ne	.LBB72_14
// %bb.13:                              // %"senyolanda::dated::of_flows::<#ee45dc0b20605a03>.exit.thread7.i"
	ldrb	w8, [x19, #4]
	ldr	w9, [x19, #8]
	orr	x8, x8, x9, lsl #32
	add	x0, x8, #1
	b	.LBB72_29
.LBB72_14:                              // %arm.2.i.i.i.i.i
	movi	v0.2d, #0000000000000000
	str	q0, [sp, #19792]
	str	q0, [sp, #19776]
	str	q0, [sp, #19760]
	str	q0, [sp, #19744]
	str	q0, [sp, #19728]
	str	q0, [sp, #19712]
	str	q0, [sp, #19696]
	str	q0, [sp, #19680]
	str	q0, [sp, #19664]
	str	q0, [sp, #19648]
	str	q0, [sp, #19632]
	str	q0, [sp, #19616]
	str	q0, [sp, #19600]
	str	q0, [sp, #19584]
	str	q0, [sp, #19568]
	str	q0, [sp, #19552]
	str	q0, [sp, #19536]
	str	q0, [sp, #19520]
	str	q0, [sp, #19504]
	str	q0, [sp, #19488]
	str	q0, [sp, #19472]
	str	q0, [sp, #19456]
	str	q0, [sp, #19440]
	str	q0, [sp, #19424]
	str	q0, [sp, #19408]
	str	q0, [sp, #19392]
	str	q0, [sp, #19376]
	str	q0, [sp, #19360]
	str	q0, [sp, #19344]
	str	q0, [sp, #19328]
	str	q0, [sp, #19312]
	str	q0, [sp, #19296]
	cbz	x25, .LBB72_27
// %bb.15:                              // %arm.1.i.i.i.i.i.i.i.preheader
	mov	x8, #149533581377536            // =0x880000000000
	add	x25, sp, #2, lsl #12            // =8192
	movi	d9, #0000000000000000
	movk	x8, #16579, lsl #48
	add	x25, x25, #1480
	add	x19, sp, #64
	fmov	d0, x8
	add	x8, sp, #4, lsl #12             // =16384
	add	x8, x8, #3424
	add	x8, x8, #16
	fdiv	d8, d8, d0
	stp	x24, x8, [sp, #16]              // 16-byte Folded Spill
	mov	x24, x20
	b	.LBB72_17
.LBB72_16:                              // %loop.2.loopexit.i.i.i.i.i.i
                                        //   in Loop: Header=BB72_17 Depth=1
	add	x25, x25, x26, lsl #3
	add	x19, x19, x23, lsl #3
	sub	x24, x24, x26
	sub	x20, x20, x23
	cbz	x24, .LBB72_26
.LBB72_17:                              // %arm.1.i.i.i.i.i.i.i
                                        // =>This Loop Header: Depth=1
                                        //     Child Loop BB72_21 Depth 2
                                        //     Child Loop BB72_24 Depth 2
	cmp	x24, #64
	mov	w8, #64                         // =0x40
	csel	x26, x24, x8, lo
	cbz	x20, .LBB72_26
// %bb.18:                              // %arm.3.i.i.i.i.i.i
                                        //   in Loop: Header=BB72_17 Depth=1
	ldp	x8, x4, [sp, #40]               // 16-byte Folded Reload
	fmov	d0, d8
	add	x0, sp, #4, lsl #12             // =16384
	ldr	x6, [sp, #56]                   // 8-byte Reload
	cmp	x20, #64
	mov	w28, #64                        // =0x40
	add	x0, x0, #2912
	mov	x1, x25
	add	x3, x21, x8
	ldr	x8, [sp, #32]                   // 8-byte Reload
	mov	x2, x26
	csel	x23, x20, x28, lo
	add	x5, x22, x8
	bl	"spread_analytics::worth::factors_of"
	add	x0, sp, #4, lsl #12             // =16384
	add	x1, sp, #4, lsl #12             // =16384
	mov	w2, #512                        // =0x200
	add	x0, x0, #3424
	add	x1, x1, #2912
	add	x27, sp, #4, lsl #12            // =16384
	add	x27, x27, #3424
	bl	memcpy
	sub	x8, x23, #1
	mov	w9, #63                         // =0x3f
	cmp	x8, #63
	csel	x8, x8, x9, lo
	cmp	x20, #4
	b.hs	.LBB72_20
// %bb.19:                              //   in Loop: Header=BB72_17 Depth=1
	mov	x9, x23
	mov	x8, x19
	b	.LBB72_23
.LBB72_20:                              // %vector.ph7
                                        //   in Loop: Header=BB72_17 Depth=1
	add	x10, x8, #1
	mov	w8, #64                         // =0x40
	ldr	x14, [sp, #24]                  // 8-byte Reload
	and	x11, x10, #0x7c
	and	x13, x10, #0x7c
	lsl	x12, x11, #3
	sub	x28, x8, x11
	sub	x9, x23, x11
	add	x27, x27, x12
	add	x8, x19, x12
	add	x12, x19, #16
.LBB72_21:                              // %vector.body10
                                        //   Parent Loop BB72_17 Depth=1
                                        // =>  This Inner Loop Header: Depth=2
	ldp	q0, q3, [x14, #-16]
	subs	x13, x13, #4
	ldp	q1, q2, [x12, #-16]
	add	x12, x12, #32
	add	x14, x14, #32
	fmul	v0.2d, v1.2d, v0.2d
	fmul	v2.2d, v2.2d, v3.2d
	mov	d1, v0.d[1]
	fadd	d0, d9, d0
	fadd	d0, d0, d1
	mov	d1, v2.d[1]
	fadd	d0, d0, d2
	fadd	d9, d0, d1
	b.ne	.LBB72_21
// %bb.22:                              // %middle.block18
                                        //   in Loop: Header=BB72_17 Depth=1
	cmp	x10, x11
	b.eq	.LBB72_16
.LBB72_23:                              // %arm.3.i.i.i.i.i.i.i.i.preheader
                                        //   in Loop: Header=BB72_17 Depth=1
	sub	x10, x28, #1
	sub	x9, x9, #1
.LBB72_24:                              // %arm.3.i.i.i.i.i.i.i.i
                                        //   Parent Loop BB72_17 Depth=1
                                        // =>  This Inner Loop Header: Depth=2
	ldr	d0, [x8], #8
	ldr	d1, [x27], #8
	fmul	d0, d0, d1
	fadd	d9, d9, d0
	cbz	x9, .LBB72_16
// %bb.25:                              // %arm.3.i.i.i.i.i.i.i.i
                                        //   in Loop: Header=BB72_24 Depth=2
	mov	x11, x10
	sub	x10, x10, #1
	sub	x9, x9, #1
	cbnz	x11, .LBB72_24
	b	.LBB72_16
.LBB72_26:                              // %"senyolanda::dated::of_flows::<#ee45dc0b20605a03>.exit.i"
	ldr	x24, [sp, #16]                  // 8-byte Reload
	b	.LBB72_28
.LBB72_27:                              // %"senyolanda::dated::of_flows::<#ee45dc0b20605a03>.exit.thread14.i"
	movi	d9, #0000000000000000
.LBB72_28:                              // %arm.2.i.i
	mov	x0, xzr
	str	d9, [x24]
.LBB72_29:                              // %"senyolanda::dated::senyolanda_dated_pv.exit"
	add	sp, sp, #4, lsl #12             // =16384
	add	sp, sp, #3952
	ldp	x20, x19, [sp, #96]             // 16-byte Folded Reload
	ldp	x22, x21, [sp, #80]             // 16-byte Folded Reload
	ldp	x24, x23, [sp, #64]             // 16-byte Folded Reload
	ldp	x26, x25, [sp, #48]             // 16-byte Folded Reload
	ldp	x28, x27, [sp, #32]             // 16-byte Folded Reload
	ldp	x29, x30, [sp, #16]             // 16-byte Folded Reload
	ldp	d9, d8, [sp], #112              // 16-byte Folded Reload
	ret
.Lfunc_end72:
	.size	senyolanda_dated_pv, .Lfunc_end72-senyolanda_dated_pv
                                        // -- End function
	.section	.text.senyolanda_dated_swap_duration,"ax",@progbits
	.globl	senyolanda_dated_swap_duration  // -- Begin function senyolanda_dated_swap_duration
	.p2align	2
	.type	senyolanda_dated_swap_duration,@function
senyolanda_dated_swap_duration:         // @senyolanda_dated_swap_duration
// %bb.0:                               // %start
	sub	sp, sp, #192
	stp	x24, x23, [sp, #144]            // 16-byte Folded Spill
	mov	x23, x2
	cmp	x0, #0
	mov	w9, #4096                       // =0x1000
	movi	v0.2d, #0000000000000000
	str	x25, [sp, #128]                 // 8-byte Spill
	csel	x10, x9, xzr, eq
	cmp	x2, #0
	stp	x22, x21, [sp, #160]            // 16-byte Folded Spill
	csel	x24, x9, xzr, eq
	cmp	x4, #0
	stp	x20, x19, [sp, #176]            // 16-byte Folded Spill
	mov	x20, x5
	mov	x8, x0
	mov	x22, x3
	csel	x25, x9, xzr, eq
	mov	x19, x6
	mov	x21, x4
	mov	x2, x1
	add	x0, sp, #8
	add	x1, x8, x10
	add	x3, x23, x24
	add	x5, x4, x25
	mov	x4, x22
	mov	x6, x20
	stp	x29, x30, [sp, #112]            // 16-byte Folded Spill
	add	x29, sp, #112
	str	xzr, [sp, #48]
	stp	q0, q0, [sp, #16]
	bl	"senyolanda::dated_swaps::dated_swap_in"
	ldrb	w8, [sp, #8]
	cbz	w8, .LBB73_2
// %bb.1:                               // %"core::result::Result::and_then::<#126f9c76ce060119>.exit.thread.i"
	ldr	w8, [sp, #16]
	ldrb	w9, [sp, #12]
	b	.LBB73_4
.LBB73_2:                               // %"core::result::Result::and_then::<#126f9c76ce060119>.exit.i"
	ldur	q0, [sp, #24]
	ldur	q1, [sp, #40]
	sub	x0, x29, #16
	ldrb	w8, [sp, #16]
	add	x1, sp, #56
	add	x2, x23, x24
	add	x4, x21, x25
	mov	x3, x22
	mov	x5, x20
	stp	q0, q1, [sp, #64]
	str	x8, [sp, #56]
	bl	"swaps::valuation::swap_duration"
	ldurb	w9, [x29, #-16]
	ldur	x8, [x29, #-8]
	cmp	w9, #1
	b.ne	.LBB73_6
// %bb.3:
	ldurb	w9, [x29, #-12]
.LBB73_4:                               // %arm.1.i4.i
	add	w9, w9, #1
	orr	x0, x9, x8, lsl #32
.LBB73_5:                               // %"senyolanda::dated_swaps::senyolanda_dated_swap_duration.exit"
	ldp	x20, x19, [sp, #176]            // 16-byte Folded Reload
	ldr	x25, [sp, #128]                 // 8-byte Reload
	ldp	x22, x21, [sp, #160]            // 16-byte Folded Reload
	ldp	x24, x23, [sp, #144]            // 16-byte Folded Reload
	ldp	x29, x30, [sp, #112]            // 16-byte Folded Reload
	add	sp, sp, #192
	ret
.LBB73_6:                               // %arm.2.i.i
	mov	x0, xzr
	str	x8, [x19]
	b	.LBB73_5
.Lfunc_end73:
	.size	senyolanda_dated_swap_duration, .Lfunc_end73-senyolanda_dated_swap_duration
                                        // -- End function
	.section	.text.senyolanda_dated_swap_dv01,"ax",@progbits
	.globl	senyolanda_dated_swap_dv01      // -- Begin function senyolanda_dated_swap_dv01
	.p2align	2
	.type	senyolanda_dated_swap_dv01,@function
senyolanda_dated_swap_dv01:             // @senyolanda_dated_swap_dv01
// %bb.0:                               // %start
	sub	sp, sp, #288
	stp	x24, x23, [sp, #240]            // 16-byte Folded Spill
	mov	x24, x2
	cmp	x0, #0
	mov	w9, #4096                       // =0x1000
	movi	v0.2d, #0000000000000000
	stp	x26, x25, [sp, #224]            // 16-byte Folded Spill
	csel	x10, x9, xzr, eq
	cmp	x2, #0
	stp	x22, x21, [sp, #256]            // 16-byte Folded Spill
	csel	x25, x9, xzr, eq
	cmp	x4, #0
	mov	x21, x5
	mov	x8, x0
	mov	x23, x3
	csel	x26, x9, xzr, eq
	stp	x20, x19, [sp, #272]            // 16-byte Folded Spill
	mov	w20, w6
	mov	x22, x4
	mov	x2, x1
	mov	x0, sp
	add	x1, x8, x10
	add	x3, x24, x25
	add	x5, x4, x26
	mov	x4, x23
	mov	x6, x21
	stp	x29, x30, [sp, #192]            // 16-byte Folded Spill
	add	x29, sp, #192
	str	x28, [sp, #208]                 // 8-byte Spill
	mov	x19, x7
	str	xzr, [sp, #40]
	stur	q0, [sp, #24]
	stur	q0, [sp, #8]
	bl	"senyolanda::dated_swaps::dated_swap_in"
	ldrb	w8, [sp]
	cbz	w8, .LBB74_2
// %bb.1:                               // %"core::result::Result::and_then::<#c551c86408cb8096>.exit.thread.i"
	ldr	w8, [sp, #8]
	ldrb	w9, [sp, #4]
	b	.LBB74_4
.LBB74_2:                               // %arm.1.i.i
	ldp	q0, q1, [sp, #16]
	sub	x8, x29, #40
	ldrb	w9, [sp, #8]
	add	x0, sp, #48
	sub	x1, x29, #40
	add	x2, x24, x25
	add	x4, x22, x26
	mov	x3, x23
	stur	q0, [x8, #8]
	movi	v0.2d, #0000000000000000
	mov	x5, x21
	stur	q1, [x8, #24]
	stur	x9, [x29, #-40]
	str	xzr, [sp, #48]
	stp	q0, q0, [sp, #64]
	stp	q0, q0, [sp, #96]
	str	q0, [sp, #128]
	str	wzr, [sp, #56]
	bl	"swaps::judging::judge_any"
	ldrb	w8, [sp, #48]
	cmp	w8, #1
	b.ne	.LBB74_6
// %bb.3:                               // %"core::result::Result::and_then::<#c551c86408cb8096>.exit.thread17.i"
	ldrb	w9, [sp, #52]
	ldr	w8, [sp, #56]
.LBB74_4:                               // %arm.1.i5.i
	add	w9, w9, #1
	orr	x0, x9, x8, lsl #32
.LBB74_5:                               // %"senyolanda::dated_swaps::senyolanda_dated_swap_dv01.exit"
	ldp	x20, x19, [sp, #272]            // 16-byte Folded Reload
	ldr	x28, [sp, #208]                 // 8-byte Reload
	ldp	x22, x21, [sp, #256]            // 16-byte Folded Reload
	ldp	x24, x23, [sp, #240]            // 16-byte Folded Reload
	ldp	x26, x25, [sp, #224]            // 16-byte Folded Reload
	ldp	x29, x30, [sp, #192]            // 16-byte Folded Reload
	add	sp, sp, #288
	ret
.LBB74_6:                               // %"core::result::Result::and_then::<#c551c86408cb8096>.exit.i"
	add	x0, sp, #64
	sub	x1, x29, #40
	add	x2, x24, x25
	add	x4, x22, x26
	mov	x3, x23
	mov	x5, x21
	bl	"swaps::valuation::legs_with_bump"
	ldp	d0, d1, [sp, #104]
	cmp	w20, #0
	ldp	d2, d3, [sp, #64]
	mov	x0, xzr
	fsub	d4, d1, d0
	fsub	d0, d0, d1
	fsub	d1, d3, d2
	fsub	d2, d2, d3
	fcsel	d0, d4, d0, eq
	fcsel	d1, d1, d2, eq
	fsub	d0, d0, d1
	str	d0, [x19]
	b	.LBB74_5
.Lfunc_end74:
	.size	senyolanda_dated_swap_dv01, .Lfunc_end74-senyolanda_dated_swap_dv01
                                        // -- End function
	.section	.text.senyolanda_dated_swap_npv,"ax",@progbits
	.globl	senyolanda_dated_swap_npv       // -- Begin function senyolanda_dated_swap_npv
	.p2align	2
	.type	senyolanda_dated_swap_npv,@function
senyolanda_dated_swap_npv:              // @senyolanda_dated_swap_npv
// %bb.0:                               // %start
	sub	sp, sp, #192
	stp	x24, x23, [sp, #144]            // 16-byte Folded Spill
	mov	x23, x2
	cmp	x0, #0
	mov	w9, #4096                       // =0x1000
	movi	v0.2d, #0000000000000000
	stp	x26, x25, [sp, #128]            // 16-byte Folded Spill
	csel	x10, x9, xzr, eq
	cmp	x2, #0
	stp	x22, x21, [sp, #160]            // 16-byte Folded Spill
	csel	x25, x9, xzr, eq
	cmp	x4, #0
	stp	x20, x19, [sp, #176]            // 16-byte Folded Spill
	mov	x20, x5
	mov	x8, x0
	mov	x22, x3
	csel	x26, x9, xzr, eq
	mov	w24, w6
	mov	x21, x4
	mov	x2, x1
	add	x0, sp, #8
	add	x1, x8, x10
	add	x3, x23, x25
	add	x5, x4, x26
	mov	x4, x22
	mov	x6, x20
	stp	x29, x30, [sp, #112]            // 16-byte Folded Spill
	add	x29, sp, #112
	mov	x19, x7
	str	xzr, [sp, #48]
	stp	q0, q0, [sp, #16]
	bl	"senyolanda::dated_swaps::dated_swap_in"
	ldrb	w8, [sp, #8]
	cbz	w8, .LBB75_2
// %bb.1:                               // %"core::result::Result::and_then::<#c9c7d28edbee5d51>.exit.thread.i"
	ldr	w8, [sp, #16]
	ldrb	w9, [sp, #12]
	b	.LBB75_4
.LBB75_2:                               // %"core::result::Result::and_then::<#c9c7d28edbee5d51>.exit.i"
	ldur	q0, [sp, #24]
	ldur	q1, [sp, #40]
	cmp	w24, #0
	ldrb	w8, [sp, #16]
	cset	w6, ne
	sub	x0, x29, #16
	add	x1, sp, #56
	add	x2, x23, x25
	add	x4, x21, x26
	mov	x3, x22
	mov	x5, x20
	stp	q0, q1, [sp, #64]
	str	x8, [sp, #56]
	bl	"swaps::valuation::swap_npv"
	ldurb	w9, [x29, #-16]
	ldur	x8, [x29, #-8]
	cmp	w9, #1
	b.ne	.LBB75_6
// %bb.3:
	ldurb	w9, [x29, #-12]
.LBB75_4:                               // %arm.1.i4.i
	add	w9, w9, #1
	orr	x0, x9, x8, lsl #32
.LBB75_5:                               // %"senyolanda::dated_swaps::senyolanda_dated_swap_npv.exit"
	ldp	x20, x19, [sp, #176]            // 16-byte Folded Reload
	ldp	x22, x21, [sp, #160]            // 16-byte Folded Reload
	ldp	x24, x23, [sp, #144]            // 16-byte Folded Reload
	ldp	x26, x25, [sp, #128]            // 16-byte Folded Reload
	ldp	x29, x30, [sp, #112]            // 16-byte Folded Reload
	add	sp, sp, #192
	ret
.LBB75_6:                               // %arm.2.i.i
	mov	x0, xzr
	str	x8, [x19]
	b	.LBB75_5
.Lfunc_end75:
	.size	senyolanda_dated_swap_npv, .Lfunc_end75-senyolanda_dated_swap_npv
                                        // -- End function
	.section	.text.senyolanda_day_count_fraction,"ax",@progbits
	.globl	senyolanda_day_count_fraction   // -- Begin function senyolanda_day_count_fraction
	.p2align	2
	.type	senyolanda_day_count_fraction,@function
senyolanda_day_count_fraction:          // @senyolanda_day_count_fraction
// %bb.0:                               // %start
	cmp	w0, #2
	b.hi	.LBB76_2
// %bb.1:                               // %arm.2.i2.i
	mov	x9, #140737488355328            // =0x800000000000
	mov	x10, #228698418577408           // =0xd00000000000
	movk	x9, #16502, lsl #48
	movk	x10, #16502, lsl #48
	ucvtf	d0, w1
	fmov	d1, x9
	fmov	d2, x10
	cmp	w0, #1
	mov	x0, xzr
	fcsel	d1, d2, d1, eq
	//ARITH_FENCE
	fdiv	d0, d0, d1
	str	d0, [x2]
	ret
.LBB76_2:
	mov	w0, #11                         // =0xb
	ret
.Lfunc_end76:
	.size	senyolanda_day_count_fraction, .Lfunc_end76-senyolanda_day_count_fraction
                                        // -- End function
	.section	.text.senyolanda_day_number,"ax",@progbits
	.globl	senyolanda_day_number           // -- Begin function senyolanda_day_number
	.p2align	2
	.type	senyolanda_day_number,@function
senyolanda_day_number:                  // @senyolanda_day_number
// %bb.0:                               // %start
	cmp	w0, #16, lsl #12                // =65536
	mov	w8, #65536                      // =0x10000
	orr	w10, w2, w1
	csel	w9, w0, w8, lo
	cmp	w10, #256
	add	w9, w9, w1, lsl #16
	ccmp	w0, w8, #2, lo
	add	w9, w9, w2, lsl #24
	csel	w8, w9, wzr, lo
	ubfx	w9, w8, #16, #8
	cmp	w9, #11
	b.hi	.LBB77_11
// %bb.1:                               // %start
	mov	w10, #1                         // =0x1
	mov	w11, #2640                      // =0xa50
	lsl	w10, w10, w9
	tst	w10, w11
	b.eq	.LBB77_8
// %bb.2:
	mov	w11, #30                        // =0x1e
.LBB77_3:                               // %"dates::calendar::judge_date.exit.i.i"
	sub	w12, w8, #1900
	lsr	w10, w8, #24
	sub	w13, w9, #1
	and	w12, w12, #0xffff
	cmp	w12, #299
	sub	w12, w10, #1
	ccmp	w13, #11, #2, ls
	ccmp	w12, w11, #2, ls
	b.lo	.LBB77_5
// %bb.4:
	mov	w0, #15                         // =0xf
	ret
.LBB77_5:                               // %after.1.i.i.i
	mov	w11, #367                       // =0x16f
	sub	w12, w8, #1801
	mov	w13, #-362                      // =0xfffffe96
	madd	w11, w9, w11, w13
	ubfx	w12, w12, #2, #14
	mov	w14, #5243                      // =0x147b
	sub	w13, w8, #2001
	mul	w15, w12, w14
	mov	w12, #43691                     // =0xaaab
	ubfx	w13, w13, #4, #12
	and	w11, w11, #0xffff
	and	w14, w8, #0xffff
	mul	w11, w11, w12
	mov	w12, #365                       // =0x16d
	sub	w16, w14, #1897
	mul	w12, w14, w12
	cmp	w13, #4071
	lsr	w13, w16, #2
	lsr	w15, w15, #17
	cset	w14, lo
	cmp	w9, #3
	lsr	w11, w11, #19
	b.lo	.LBB77_15
// %bb.6:                               // %else.2.i.i.i.i
	tst	w8, #0x3
	b.eq	.LBB77_12
// %bb.7:                               // %"dates::calendar::is_leap.exit.thread7.i.i.i.i"
	sub	w11, w11, #2
	b	.LBB77_15
.LBB77_8:                               // %start
	cmp	w9, #2
	b.ne	.LBB77_11
// %bb.9:                               // %arm.1.i.i.i.i.i
	tst	w8, #0x3
	mov	w11, #28                        // =0x1c
	b.ne	.LBB77_3
// %bb.10:                              // %then.1.i.i.i.i.i.i
	mov	w10, #23593                     // =0x5c29
	mul	w10, w8, w10
	lsl	w12, w10, #14
	lsl	w13, w10, #12
	bfxil	w12, w10, #2, #14
	bfxil	w13, w10, #4, #12
	and	w10, w12, #0xffff
	mov	w12, #164                       // =0xa4
	cmp	w10, #655
	and	w10, w13, #0xffff
	ccmp	w10, w12, #0, ls
	cset	w10, lo
	tst	w10, #0x1
	cinc	w11, w11, ne
	b	.LBB77_3
.LBB77_11:                              // %default.3.i.i.i.i.i
	mov	w11, #31                        // =0x1f
	b	.LBB77_3
.LBB77_12:                              // %then.1.i.i.i.i.i
	mov	w9, #23593                      // =0x5c29
	mul	w8, w8, w9
	lsl	w9, w8, #14
	bfxil	w9, w8, #2, #14
	and	w9, w9, #0xffff
	cmp	w9, #656
	b.lo	.LBB77_14
// %bb.13:                              // %"dates::calendar::is_leap.exit.thread.i.i.i.i"
	sub	w11, w11, #1
	b	.LBB77_15
.LBB77_14:                              // %"dates::calendar::is_leap.exit.i.i.i.i"
	lsl	w9, w8, #12
	bfxil	w9, w8, #4, #12
	and	w8, w9, #0xffff
	cmp	w8, #164
	mov	w8, #-2                         // =0xfffffffe
	cinc	w8, w8, lo
	add	w11, w8, w11
.LBB77_15:                              // %arm.2.i1.i
	add	w8, w10, w12
	mov	x0, xzr
	add	w8, w8, w13
	add	w8, w8, w14
	sub	w8, w8, w15
	sub	w8, w8, #169, lsl #12           // =692224
	sub	w8, w8, #1275
	add	w8, w8, w11
	str	w8, [x3]
	ret
.Lfunc_end77:
	.size	senyolanda_day_number, .Lfunc_end77-senyolanda_day_number
                                        // -- End function
	.section	.text.senyolanda_days_30_360,"ax",@progbits
	.globl	senyolanda_days_30_360          // -- Begin function senyolanda_days_30_360
	.p2align	2
	.type	senyolanda_days_30_360,@function
senyolanda_days_30_360:                 // @senyolanda_days_30_360
// %bb.0:                               // %start
	cmp	w0, #16, lsl #12                // =65536
	mov	w10, #65536                     // =0x10000
	orr	w9, w2, w1
	csel	w8, w0, w10, lo
	cmp	w9, #256
	orr	w11, w5, w4
	add	w8, w8, w1, lsl #16
	ccmp	w0, w10, #2, lo
	add	w8, w8, w2, lsl #24
	csel	w8, w8, wzr, lo
	cmp	w3, #16, lsl #12                // =65536
	csel	w9, w3, w10, lo
	cmp	w11, #256
	add	w9, w9, w4, lsl #16
	ccmp	w3, w10, #2, lo
	add	w11, w9, w5, lsl #24
	ubfx	w9, w8, #16, #8
	csel	w10, w11, wzr, lo
	cmp	w9, #11
	and	w11, w8, #0xffff
	b.hi	.LBB78_18
// %bb.1:                               // %start
	mov	w12, #1                         // =0x1
	mov	w13, #2640                      // =0xa50
	lsl	w12, w12, w9
	tst	w12, w13
	b.eq	.LBB78_15
// %bb.2:
	mov	w13, #30                        // =0x1e
.LBB78_3:                               // %"dates::calendar::days_in.exit.i.i.i.i.i"
	sub	w12, w11, #1900
	mov	w0, #15                         // =0xf
	cmp	w12, #299
	b.hi	.LBB78_21
// %bb.4:                               // %"dates::calendar::days_in.exit.i.i.i.i.i"
	sub	w12, w9, #1
	cmp	w12, #11
	b.hi	.LBB78_21
// %bb.5:                               // %"dates::calendar::days_in.exit.i.i.i.i.i"
	lsr	w12, w8, #24
	sub	w14, w12, #1
	cmp	w14, w13
	b.hs	.LBB78_21
// %bb.6:                               // %else.2.i.i.i.i
	ubfx	w13, w10, #16, #8
	and	w14, w10, #0xffff
	cmp	w13, #11
	b.hi	.LBB78_25
// %bb.7:                               // %else.2.i.i.i.i
	mov	w15, #1                         // =0x1
	mov	w16, #2640                      // =0xa50
	lsl	w15, w15, w13
	tst	w15, w16
	b.eq	.LBB78_22
// %bb.8:
	mov	w15, #30                        // =0x1e
.LBB78_9:                               // %"dates::calendar::days_in.exit.i9.i.i.i.i"
	sub	w16, w14, #1900
	mov	w0, #15                         // =0xf
	cmp	w16, #299
	b.hi	.LBB78_21
// %bb.10:                              // %"dates::calendar::days_in.exit.i9.i.i.i.i"
	sub	w16, w13, #1
	cmp	w16, #11
	b.hi	.LBB78_21
// %bb.11:                              // %"dates::calendar::days_in.exit.i9.i.i.i.i"
	lsr	w16, w10, #24
	sub	w17, w16, #1
	cmp	w17, w15
	b.hs	.LBB78_21
// %bb.12:                              // %else.5.i.i.i.i
	cmp	w11, w14
	b.ne	.LBB78_19
// %bb.13:                              // %arm.7.i.i.i.i.i.i.i.i
	cmp	w12, w16
	cset	w14, lo
	cmp	w9, w13
	cset	w15, lo
	csel	w14, w14, w15, eq
	tbnz	w14, #0, .LBB78_20
.LBB78_14:
	mov	w0, #15                         // =0xf
	ret
.LBB78_15:                              // %start
	cmp	w9, #2
	b.ne	.LBB78_18
// %bb.16:                              // %arm.1.i.i.i.i.i.i
	tst	w8, #0x3
	mov	w13, #28                        // =0x1c
	b.ne	.LBB78_3
// %bb.17:                              // %then.1.i.i.i.i.i.i.i
	mov	w12, #23593                     // =0x5c29
	mov	w15, #23592                     // =0x5c28
	movk	w12, #49807, lsl #16
	movk	w15, #655, lsl #16
	mul	w12, w11, w12
	ror	w14, w12, #2
	ror	w12, w12, #4
	cmp	w14, w15
	mov	w14, #55051                     // =0xd70b
	movk	w14, #163, lsl #16
	ccmp	w12, w14, #0, ls
	cset	w12, lo
	tst	w12, #0x1
	cinc	w13, w13, ne
	b	.LBB78_3
.LBB78_18:                              // %default.3.i.i.i.i.i.i
	mov	w13, #31                        // =0x1f
	b	.LBB78_3
.LBB78_19:                              // %"dates::counts::bad_dates.exit.i.i.i"
	b.hs	.LBB78_14
.LBB78_20:                              // %arm.2.i9.i
	mov	w14, #360                       // =0x168
	and	w10, w10, #0xffff
	cmp	w12, #31
	mul	w11, w11, w14
	lsr	w8, w8, #25
	mov	x0, xzr
	mul	w10, w10, w14
	mov	w14, #30                        // =0x1e
	madd	w9, w9, w14, w11
	csel	w11, w14, w12, eq
	cmp	w16, #31
	madd	w10, w13, w14, w10
	ccmp	w8, #15, #0, eq
	csel	w8, w14, w16, eq
	add	w9, w9, w11
	add	w8, w10, w8
	subs	w8, w8, w9
	csel	w8, wzr, w8, lo
	str	w8, [x6]
.LBB78_21:                              // %"senyolanda::date_counts::senyolanda_days_30_360.exit"
	ret
.LBB78_22:                              // %else.2.i.i.i.i
	cmp	w13, #2
	b.ne	.LBB78_25
// %bb.23:                              // %arm.1.i.i16.i.i.i.i
	tst	w10, #0x3
	mov	w15, #28                        // =0x1c
	b.ne	.LBB78_9
// %bb.24:                              // %then.1.i.i.i19.i.i.i.i
	mov	w16, #23593                     // =0x5c29
	mov	w18, #23592                     // =0x5c28
	movk	w16, #49807, lsl #16
	movk	w18, #655, lsl #16
	mul	w16, w14, w16
	ror	w17, w16, #2
	ror	w16, w16, #4
	cmp	w17, w18
	mov	w17, #55051                     // =0xd70b
	movk	w17, #163, lsl #16
	ccmp	w16, w17, #0, ls
	cset	w16, lo
	tst	w16, #0x1
	cinc	w15, w15, ne
	b	.LBB78_9
.LBB78_25:                              // %default.3.i.i27.i.i.i.i
	mov	w15, #31                        // =0x1f
	b	.LBB78_9
.Lfunc_end78:
	.size	senyolanda_days_30_360, .Lfunc_end78-senyolanda_days_30_360
                                        // -- End function
	.section	.text.senyolanda_discount_curve_factor,"ax",@progbits
	.globl	senyolanda_discount_curve_factor // -- Begin function senyolanda_discount_curve_factor
	.p2align	2
	.type	senyolanda_discount_curve_factor,@function
senyolanda_discount_curve_factor:       // @senyolanda_discount_curve_factor
// %bb.0:                               // %start
	stp	x29, x30, [sp, #-32]!           // 16-byte Folded Spill
	mov	w9, #4096                       // =0x1000
	cmp	x0, #0
	str	x19, [sp, #16]                  // 8-byte Spill
	csel	x8, x9, xzr, eq
	cmp	x2, #0
	mov	x29, sp
	csel	x9, x9, xzr, eq
	cmp	x1, x3
	b.ne	.LBB79_3
// %bb.1:                               // %join.3.i.i.i.i
	sub	x10, x1, #121
	cmn	x10, #120
	b.hs	.LBB79_5
// %bb.2:
	mov	w8, #4                          // =0x4
	and	x8, x8, #0xffffffff000000ff
	add	x0, x8, #1
	ldr	x19, [sp, #16]                  // 8-byte Reload
	ldp	x29, x30, [sp], #32             // 16-byte Folded Reload
	ret
.LBB79_3:
	mov	w8, #3                          // =0x3
.LBB79_4:                               // %arm.1.i2.i
	and	x8, x8, #0xffffffff000000ff
	add	x0, x8, #1
	ldr	x19, [sp, #16]                  // 8-byte Reload
	ldp	x29, x30, [sp], #32             // 16-byte Folded Reload
	ret
.LBB79_5:                               // %join.6.i.i.i.i
	movi	d1, #0000000000000000
	mov	x11, x0
	add	x0, x0, x8
	ldr	d2, [x0]
	mov	x12, x2
	add	x2, x2, x9
	//ARITH_FENCE
	//ARITH_FENCE
	fcmp	d1, d2
	cset	w10, hi
	//APP
	//NO_APP
	cbz	w10, .LBB79_10
.LBB79_6:                               // %join.6.i9.i.i.i.i.preheader
	mov	x9, #-4503599627370496          // =0xfff0000000000000
	mov	w8, #5                          // =0x5
	mov	x10, x2
	fmov	d3, x9
	mov	x9, x0
	mov	x11, x1
.LBB79_7:                               // %join.6.i9.i.i.i.i
                                        // =>This Inner Loop Header: Depth=1
	ldr	d2, [x9], #8
	ldr	d5, [x10], #8
	fsub	d4, d2, d2
	fsub	d5, d5, d5
	//ARITH_FENCE
	fcmp	d4, d1
	//ARITH_FENCE
	fccmp	d5, d1, #0, eq
	b.ne	.LBB79_4
// %bb.8:                               // %"curves::curve::bad_knot.exit.i.i.i.i.i.i"
                                        //   in Loop: Header=BB79_7 Depth=1
	fmov	d4, d2
	//ARITH_FENCE
	//ARITH_FENCE
	fcmp	d4, d1
	cset	w12, mi
	fcmp	d3, d4
	//APP
	//NO_APP
	cset	w13, pl
	//APP
	//NO_APP
	orr	w12, w12, w13
	cbnz	w12, .LBB79_4
// %bb.9:                               // %join.10.i.i.i.i.i
                                        //   in Loop: Header=BB79_7 Depth=1
	fmov	d3, d2
	mov	x12, #4294967296                // =0x100000000
	subs	x11, x11, #1
	add	x8, x8, x12
	b.ne	.LBB79_7
	b	.LBB79_16
.LBB79_10:                              // %join.3.i.i.i.i.i
	ldr	d2, [x2]
	fsub	d2, d2, d2
	//ARITH_FENCE
	fcmp	d2, d1
	b.ne	.LBB79_6
// %bb.11:                              // %join.6.i.i.i.i.i
	add	x10, x0, x1, lsl #3
	ldur	d2, [x10, #-8]
	mov	x10, #9218868437227405312       // =0x7ff0000000000000
	fmov	d3, x10
	//ARITH_FENCE
	//ARITH_FENCE
	fcmp	d2, d3
	cset	w10, mi
	//APP
	//NO_APP
	cbz	w10, .LBB79_6
// %bb.12:                              // %then.7.i.i.i.i.i
	cmp	x1, #2
	b.lo	.LBB79_16
// %bb.13:                              // %join.5.i.i.i.i.i.i.preheader
	add	x9, x9, x12
	add	x11, x8, x11
	mov	x10, xzr
	sub	x8, x1, #1
	add	x9, x9, #8
	add	x11, x11, #8
.LBB79_14:                              // %join.5.i.i.i.i.i.i
                                        // =>This Inner Loop Header: Depth=1
	ldp	d2, d3, [x11, #-8]
	add	x11, x11, #8
	//ARITH_FENCE
	//ARITH_FENCE
	fcmp	d2, d3
	ldr	d2, [x9], #8
	fsub	d2, d2, d2
	cset	w12, pl
	//APP
	//NO_APP
	cmp	w12, #0
	cinc	x10, x10, ne
	//ARITH_FENCE
	fcmp	d2, d1
	cinc	x10, x10, ne
	subs	x8, x8, #1
	b.ne	.LBB79_14
// %bb.15:                              // %"curves::curve::all_in_order.exit.i.i.i.i"
	cbnz	x10, .LBB79_6
.LBB79_16:                              // %arm.1.i.i.i
	fsub	d2, d0, d0
	//ARITH_FENCE
	fcmp	d2, d1
	b.eq	.LBB79_18
// %bb.17:
	mov	w8, #6                          // =0x6
	and	x8, x8, #0xffffffff000000ff
	add	x0, x8, #1
	ldr	x19, [sp, #16]                  // 8-byte Reload
	ldp	x29, x30, [sp], #32             // 16-byte Folded Reload
	ret
.LBB79_18:                              // %arm.2.i1.i
	mov	x3, x1
	mov	x19, x4
	bl	"swaps::discount::discount_of"
	mov	x0, xzr
	str	d0, [x19]
	ldr	x19, [sp, #16]                  // 8-byte Reload
	ldp	x29, x30, [sp], #32             // 16-byte Folded Reload
	ret
.Lfunc_end79:
	.size	senyolanda_discount_curve_factor, .Lfunc_end79-senyolanda_discount_curve_factor
                                        // -- End function
	.section	.text.senyolanda_discount_curve_rate,"ax",@progbits
	.globl	senyolanda_discount_curve_rate  // -- Begin function senyolanda_discount_curve_rate
	.p2align	2
	.type	senyolanda_discount_curve_rate,@function
senyolanda_discount_curve_rate:         // @senyolanda_discount_curve_rate
// %bb.0:                               // %start
	stp	x29, x30, [sp, #-32]!           // 16-byte Folded Spill
	mov	w9, #4096                       // =0x1000
	cmp	x0, #0
	str	x19, [sp, #16]                  // 8-byte Spill
	csel	x8, x9, xzr, eq
	cmp	x2, #0
	mov	x29, sp
	csel	x9, x9, xzr, eq
	cmp	x1, x3
	b.ne	.LBB80_3
// %bb.1:                               // %join.3.i.i.i.i
	sub	x10, x1, #121
	cmn	x10, #120
	b.hs	.LBB80_5
// %bb.2:
	mov	w8, #4                          // =0x4
	and	x8, x8, #0xffffffff000000ff
	add	x0, x8, #1
	ldr	x19, [sp, #16]                  // 8-byte Reload
	ldp	x29, x30, [sp], #32             // 16-byte Folded Reload
	ret
.LBB80_3:
	mov	w8, #3                          // =0x3
.LBB80_4:                               // %arm.1.i2.i
	and	x8, x8, #0xffffffff000000ff
	add	x0, x8, #1
	ldr	x19, [sp, #16]                  // 8-byte Reload
	ldp	x29, x30, [sp], #32             // 16-byte Folded Reload
	ret
.LBB80_5:                               // %join.6.i.i.i.i
	movi	d1, #0000000000000000
	mov	x11, x0
	add	x0, x0, x8
	ldr	d2, [x0]
	mov	x12, x2
	add	x2, x2, x9
	//ARITH_FENCE
	//ARITH_FENCE
	fcmp	d1, d2
	cset	w10, hi
	//APP
	//NO_APP
	cbz	w10, .LBB80_10
.LBB80_6:                               // %join.6.i9.i.i.i.i.preheader
	mov	x9, #-4503599627370496          // =0xfff0000000000000
	mov	w8, #5                          // =0x5
	mov	x10, x2
	fmov	d3, x9
	mov	x9, x0
	mov	x11, x1
.LBB80_7:                               // %join.6.i9.i.i.i.i
                                        // =>This Inner Loop Header: Depth=1
	ldr	d2, [x9], #8
	ldr	d5, [x10], #8
	fsub	d4, d2, d2
	fsub	d5, d5, d5
	//ARITH_FENCE
	fcmp	d4, d1
	//ARITH_FENCE
	fccmp	d5, d1, #0, eq
	b.ne	.LBB80_4
// %bb.8:                               // %"curves::curve::bad_knot.exit.i.i.i.i.i.i"
                                        //   in Loop: Header=BB80_7 Depth=1
	fmov	d4, d2
	//ARITH_FENCE
	//ARITH_FENCE
	fcmp	d4, d1
	cset	w12, mi
	fcmp	d3, d4
	//APP
	//NO_APP
	cset	w13, pl
	//APP
	//NO_APP
	orr	w12, w12, w13
	cbnz	w12, .LBB80_4
// %bb.9:                               // %join.10.i.i.i.i.i
                                        //   in Loop: Header=BB80_7 Depth=1
	fmov	d3, d2
	mov	x12, #4294967296                // =0x100000000
	subs	x11, x11, #1
	add	x8, x8, x12
	b.ne	.LBB80_7
	b	.LBB80_16
.LBB80_10:                              // %join.3.i.i.i.i.i
	ldr	d2, [x2]
	fsub	d2, d2, d2
	//ARITH_FENCE
	fcmp	d2, d1
	b.ne	.LBB80_6
// %bb.11:                              // %join.6.i.i.i.i.i
	add	x10, x0, x1, lsl #3
	ldur	d2, [x10, #-8]
	mov	x10, #9218868437227405312       // =0x7ff0000000000000
	fmov	d3, x10
	//ARITH_FENCE
	//ARITH_FENCE
	fcmp	d2, d3
	cset	w10, mi
	//APP
	//NO_APP
	cbz	w10, .LBB80_6
// %bb.12:                              // %then.7.i.i.i.i.i
	cmp	x1, #2
	b.lo	.LBB80_16
// %bb.13:                              // %join.5.i.i.i.i.i.i.preheader
	add	x9, x9, x12
	add	x11, x8, x11
	mov	x10, xzr
	sub	x8, x1, #1
	add	x9, x9, #8
	add	x11, x11, #8
.LBB80_14:                              // %join.5.i.i.i.i.i.i
                                        // =>This Inner Loop Header: Depth=1
	ldp	d2, d3, [x11, #-8]
	add	x11, x11, #8
	//ARITH_FENCE
	//ARITH_FENCE
	fcmp	d2, d3
	ldr	d2, [x9], #8
	fsub	d2, d2, d2
	cset	w12, pl
	//APP
	//NO_APP
	cmp	w12, #0
	cinc	x10, x10, ne
	//ARITH_FENCE
	fcmp	d2, d1
	cinc	x10, x10, ne
	subs	x8, x8, #1
	b.ne	.LBB80_14
// %bb.15:                              // %"curves::curve::all_in_order.exit.i.i.i.i"
	cbnz	x10, .LBB80_6
.LBB80_16:                              // %arm.1.i.i.i
	fsub	d2, d0, d0
	//ARITH_FENCE
	fcmp	d2, d1
	b.eq	.LBB80_18
// %bb.17:
	mov	w8, #6                          // =0x6
	and	x8, x8, #0xffffffff000000ff
	add	x0, x8, #1
	ldr	x19, [sp, #16]                  // 8-byte Reload
	ldp	x29, x30, [sp], #32             // 16-byte Folded Reload
	ret
.LBB80_18:                              // %arm.2.i1.i
	mov	x3, x1
	mov	x19, x4
	bl	"swaps::discount::zero_rate_of"
	mov	x0, xzr
	str	d0, [x19]
	ldr	x19, [sp, #16]                  // 8-byte Reload
	ldp	x29, x30, [sp], #32             // 16-byte Folded Reload
	ret
.Lfunc_end80:
	.size	senyolanda_discount_curve_rate, .Lfunc_end80-senyolanda_discount_curve_rate
                                        // -- End function
	.section	.text.senyolanda_draw,"ax",@progbits
	.globl	senyolanda_draw                 // -- Begin function senyolanda_draw
	.p2align	2
	.type	senyolanda_draw,@function
senyolanda_draw:                        // @senyolanda_draw
// %bb.0:                               // %start
	sub	sp, sp, #192
	ldp	w9, w10, [x0]
	ldr	q0, [x1]
	cmp	x2, #0
	stp	x29, x30, [sp, #144]            // 16-byte Folded Spill
	add	x29, sp, #144
	mov	x8, x2
	ldr	d1, [x1, #16]
	stur	q0, [sp, #48]
	movi	v0.2d, #0000000000000000
	mov	x6, x3
	stp	w9, wzr, [sp, #40]
	mov	w9, #4096                       // =0x1000
	adrp	x3, .Lstatic.2
	add	x3, x3, :lo12:.Lstatic.2
	csel	x9, x9, xzr, eq
	stp	x22, x21, [sp, #160]            // 16-byte Folded Spill
	stp	x20, x19, [sp, #176]            // 16-byte Folded Spill
	mov	x19, x5
	mov	x20, x4
	mov	x21, x1
	mov	x22, x0
	sub	x0, x29, #64
	mov	x1, sp
	add	x2, sp, #40
	add	x5, x8, x9
	mov	w4, #1                          // =0x1
	stp	w10, wzr, [sp, #64]
	str	d1, [sp, #72]
	stp	q0, q0, [x29, #-64]
	stur	q0, [x29, #-32]
	stur	xzr, [x29, #-16]
	stp	q0, q0, [sp]
	bl	"mortgage::draws::draw_kind"
	ldurb	w9, [x29, #-64]
	ldur	w8, [x29, #-56]
	cmp	w9, #1
	b.ne	.LBB81_2
// %bb.1:                               // %arm.1.i.i
	ldurb	w9, [x29, #-60]
	orr	x8, x9, x8, lsl #32
	add	x0, x8, #1
	ldp	x20, x19, [sp, #176]            // 16-byte Folded Reload
	ldp	x22, x21, [sp, #160]            // 16-byte Folded Reload
	ldp	x29, x30, [sp, #144]            // 16-byte Folded Reload
	add	sp, sp, #192
	ret
.LBB81_2:                               // %arm.2.i.i
	ldur	w9, [x29, #-48]
	ldur	w10, [x29, #-24]
	mov	x0, xzr
	ldur	q0, [x29, #-40]
	ldur	d1, [x29, #-16]
	orr	x9, x9, x10, lsl #32
	str	x9, [x22]
	ldur	w9, [x29, #-52]
	str	q0, [x21]
	str	d1, [x21, #16]
	str	w8, [x20]
	str	w9, [x19]
	ldp	x20, x19, [sp, #176]            // 16-byte Folded Reload
	ldp	x22, x21, [sp, #160]            // 16-byte Folded Reload
	ldp	x29, x30, [sp, #144]            // 16-byte Folded Reload
	add	sp, sp, #192
	ret
.Lfunc_end81:
	.size	senyolanda_draw, .Lfunc_end81-senyolanda_draw
                                        // -- End function
	.section	.rodata.cst8,"aM",@progbits,8
	.p2align	3, 0x0                          // -- Begin function senyolanda_draw_adjustable
.LCPI82_0:
	.word	3                               // 0x3
	.word	0                               // 0x0
	.section	.text.senyolanda_draw_adjustable,"ax",@progbits
	.globl	senyolanda_draw_adjustable
	.p2align	2
	.type	senyolanda_draw_adjustable,@function
senyolanda_draw_adjustable:             // @senyolanda_draw_adjustable
// %bb.0:                               // %start
	sub	sp, sp, #192
	adrp	x10, .LCPI82_0
	stp	x29, x30, [sp, #144]            // 16-byte Folded Spill
	add	x29, sp, #144
	ldr	d3, [x10, :lo12:.LCPI82_0]
	movi	v4.2d, #0000000000000000
	cmp	x0, #0
	ldp	w10, w11, [x2]
	stp	d3, d0, [x29, #-32]
	ldr	q0, [x3]
	mov	x8, x1
	mov	x9, x0
	stp	x22, x21, [sp, #160]            // 16-byte Folded Spill
	mov	x21, x3
	stp	w10, wzr, [sp, #8]
	mov	w10, #4096                      // =0x1000
	mov	x22, x2
	stp	w11, wzr, [sp, #32]
	csel	x11, x10, xzr, eq
	cmp	x4, #0
	stur	q0, [sp, #16]
	ldr	d0, [x3, #16]
	csel	x10, x10, xzr, eq
	stp	x20, x19, [sp, #176]            // 16-byte Folded Spill
	mov	x20, x6
	mov	x6, x5
	add	x0, sp, #48
	sub	x1, x29, #32
	add	x2, sp, #8
	add	x3, x9, x11
	add	x5, x4, x10
	mov	x4, x8
	mov	x19, x7
	stp	d1, d2, [x29, #-16]
	stp	q4, q4, [sp, #48]
	str	q4, [sp, #80]
	str	xzr, [sp, #96]
	str	d0, [sp, #40]
	bl	"mortgage::draws::draw_kind"
	ldrb	w9, [sp, #48]
	ldr	w8, [sp, #56]
	cmp	w9, #1
	b.ne	.LBB82_2
// %bb.1:                               // %arm.1.i.i.i
	ldrb	w9, [sp, #52]
	orr	x8, x9, x8, lsl #32
	add	x0, x8, #1
	ldp	x20, x19, [sp, #176]            // 16-byte Folded Reload
	ldp	x22, x21, [sp, #160]            // 16-byte Folded Reload
	ldp	x29, x30, [sp, #144]            // 16-byte Folded Reload
	add	sp, sp, #192
	ret
.LBB82_2:                               // %arm.2.i.i.i
	ldp	w11, w10, [sp, #60]
	ldr	w9, [sp, #88]
	ldur	q0, [sp, #72]
	mov	x0, xzr
	ldr	d1, [sp, #96]
	orr	x9, x10, x9, lsl #32
	str	x9, [x22]
	str	q0, [x21]
	str	d1, [x21, #16]
	str	w8, [x20]
	str	w11, [x19]
	ldp	x20, x19, [sp, #176]            // 16-byte Folded Reload
	ldp	x22, x21, [sp, #160]            // 16-byte Folded Reload
	ldp	x29, x30, [sp, #144]            // 16-byte Folded Reload
	add	sp, sp, #192
	ret
.Lfunc_end82:
	.size	senyolanda_draw_adjustable, .Lfunc_end82-senyolanda_draw_adjustable
                                        // -- End function
	.section	.rodata.cst8,"aM",@progbits,8
	.p2align	3, 0x0                          // -- Begin function senyolanda_draw_adjustable_with_years
.LCPI83_0:
	.word	3                               // 0x3
	.word	0                               // 0x0
	.section	.text.senyolanda_draw_adjustable_with_years,"ax",@progbits
	.globl	senyolanda_draw_adjustable_with_years
	.p2align	2
	.type	senyolanda_draw_adjustable_with_years,@function
senyolanda_draw_adjustable_with_years:  // @senyolanda_draw_adjustable_with_years
// %bb.0:                               // %start
	sub	sp, sp, #176
	adrp	x12, .LCPI83_0
	stp	x29, x30, [sp, #144]            // 16-byte Folded Spill
	add	x29, sp, #144
	ldr	d3, [x12, :lo12:.LCPI83_0]
	cmp	x0, #0
	movi	v4.2d, #0000000000000000
	ldp	w12, w13, [x2]
	stp	d3, d0, [x29, #-32]
	ldr	q0, [x3]
	mov	x9, x5
	mov	x10, x1
	mov	x11, x0
	stp	x20, x19, [sp, #160]            // 16-byte Folded Spill
	stp	w12, wzr, [sp, #72]
	mov	w12, #4096                      // =0x1000
	mov	x8, x7
	csel	x14, x12, xzr, eq
	cmp	x4, #0
	stp	w13, wzr, [sp, #96]
	csel	x13, x12, xzr, eq
	cmp	x6, #0
	stur	q0, [sp, #80]
	ldr	d0, [x3, #16]
	csel	x12, x12, xzr, eq
	mov	x19, x3
	mov	x20, x2
	add	x0, sp, #16
	sub	x1, x29, #32
	add	x2, sp, #72
	add	x3, x11, x14
	add	x5, x4, x13
	add	x7, x6, x12
	mov	x4, x10
	mov	x6, x9
	stp	d1, d2, [x29, #-16]
	stp	q4, q4, [sp, #16]
	str	q4, [sp, #48]
	str	xzr, [sp, #64]
	str	d0, [sp, #104]
	str	x8, [sp]
	bl	"mortgage::years::draw_kind_with_years"
	ldrb	w9, [sp, #16]
	ldr	w8, [sp, #24]
	cmp	w9, #1
	b.ne	.LBB83_2
// %bb.1:                               // %arm.1.i.i.i
	ldrb	w9, [sp, #20]
	orr	x8, x9, x8, lsl #32
	add	x0, x8, #1
	ldp	x20, x19, [sp, #160]            // 16-byte Folded Reload
	ldp	x29, x30, [sp, #144]            // 16-byte Folded Reload
	add	sp, sp, #176
	ret
.LBB83_2:                               // %arm.2.i.i.i
	ldp	w11, w10, [sp, #28]
	ldr	w9, [sp, #56]
	ldur	q0, [sp, #40]
	mov	x0, xzr
	ldr	d1, [sp, #64]
	orr	x9, x10, x9, lsl #32
	str	x9, [x20]
	ldp	x9, x10, [x29, #32]
	str	q0, [x19]
	str	d1, [x19, #16]
	str	w8, [x9]
	str	w11, [x10]
	ldp	x20, x19, [sp, #160]            // 16-byte Folded Reload
	ldp	x29, x30, [sp, #144]            // 16-byte Folded Reload
	add	sp, sp, #176
	ret
.Lfunc_end83:
	.size	senyolanda_draw_adjustable_with_years, .Lfunc_end83-senyolanda_draw_adjustable_with_years
                                        // -- End function
	.section	.text.senyolanda_draw_balloon,"ax",@progbits
	.globl	senyolanda_draw_balloon         // -- Begin function senyolanda_draw_balloon
	.p2align	2
	.type	senyolanda_draw_balloon,@function
senyolanda_draw_balloon:                // @senyolanda_draw_balloon
// %bb.0:                               // %start
	sub	sp, sp, #192
	movi	v0.2d, #0000000000000000
	stp	x29, x30, [sp, #144]            // 16-byte Folded Spill
	add	x29, sp, #144
	mov	w8, #2                          // =0x2
	cmp	x3, #0
	stp	x22, x21, [sp, #160]            // 16-byte Folded Spill
	stp	w8, w0, [x29, #-32]
	mov	x21, x2
	mov	x22, x1
	ldp	w8, w9, [x1]
	stp	q0, q0, [sp, #48]
	add	x0, sp, #48
	sub	x1, x29, #32
	str	q0, [sp, #80]
	ldr	q0, [x2]
	stp	w8, wzr, [sp, #8]
	mov	w8, #4096                       // =0x1000
	stur	q0, [sp, #16]
	ldr	d0, [x2, #16]
	add	x2, sp, #8
	stp	w9, wzr, [sp, #32]
	csel	x9, x8, xzr, eq
	adrp	x8, .Lstatic.2
	add	x8, x8, :lo12:.Lstatic.2
	stp	x20, x19, [sp, #176]            // 16-byte Folded Spill
	mov	x19, x6
	mov	x20, x5
	mov	x6, x4
	add	x5, x3, x9
	mov	x3, x8
	mov	w4, #1                          // =0x1
	stp	xzr, xzr, [x29, #-24]
	stur	xzr, [x29, #-8]
	str	xzr, [sp, #96]
	str	d0, [sp, #40]
	bl	"mortgage::draws::draw_kind"
	ldrb	w9, [sp, #48]
	ldr	w8, [sp, #56]
	cmp	w9, #1
	b.ne	.LBB84_2
// %bb.1:                               // %arm.1.i.i.i
	ldrb	w9, [sp, #52]
	orr	x8, x9, x8, lsl #32
	add	x0, x8, #1
	ldp	x20, x19, [sp, #176]            // 16-byte Folded Reload
	ldp	x22, x21, [sp, #160]            // 16-byte Folded Reload
	ldp	x29, x30, [sp, #144]            // 16-byte Folded Reload
	add	sp, sp, #192
	ret
.LBB84_2:                               // %arm.2.i.i.i
	ldp	w11, w10, [sp, #60]
	ldr	w9, [sp, #88]
	ldur	q0, [sp, #72]
	mov	x0, xzr
	ldr	d1, [sp, #96]
	orr	x9, x10, x9, lsl #32
	str	x9, [x22]
	str	q0, [x21]
	str	d1, [x21, #16]
	str	w8, [x20]
	str	w11, [x19]
	ldp	x20, x19, [sp, #176]            // 16-byte Folded Reload
	ldp	x22, x21, [sp, #160]            // 16-byte Folded Reload
	ldp	x29, x30, [sp, #144]            // 16-byte Folded Reload
	add	sp, sp, #192
	ret
.Lfunc_end84:
	.size	senyolanda_draw_balloon, .Lfunc_end84-senyolanda_draw_balloon
                                        // -- End function
	.section	.text.senyolanda_draw_balloon_with_years,"ax",@progbits
	.globl	senyolanda_draw_balloon_with_years // -- Begin function senyolanda_draw_balloon_with_years
	.p2align	2
	.type	senyolanda_draw_balloon_with_years,@function
senyolanda_draw_balloon_with_years:     // @senyolanda_draw_balloon_with_years
// %bb.0:                               // %start
	sub	sp, sp, #192
	stp	x29, x30, [sp, #144]            // 16-byte Folded Spill
	add	x29, sp, #144
	movi	v0.2d, #0000000000000000
	mov	w10, #2                         // =0x2
	cmp	x3, #0
	mov	x9, x5
	stp	w10, w0, [x29, #-32]
	mov	x8, x6
	mov	x6, x4
	ldp	w10, w11, [x1]
	stp	q0, q0, [sp, #16]
	add	x0, sp, #16
	mov	w4, #1                          // =0x1
	str	q0, [sp, #48]
	ldr	q0, [x2]
	stp	w10, wzr, [sp, #72]
	mov	w10, #4096                      // =0x1000
	stp	w11, wzr, [sp, #96]
	csel	x11, x10, xzr, eq
	cmp	x5, #0
	stur	q0, [sp, #80]
	ldr	d0, [x2, #16]
	csel	x12, x10, xzr, eq
	adrp	x10, .Lstatic.2
	add	x10, x10, :lo12:.Lstatic.2
	str	x21, [sp, #160]                 // 8-byte Spill
	stp	x20, x19, [sp, #176]            // 16-byte Folded Spill
	mov	x19, x7
	mov	x20, x2
	mov	x21, x1
	sub	x1, x29, #32
	add	x2, sp, #72
	add	x5, x3, x11
	add	x7, x9, x12
	mov	x3, x10
	stp	xzr, xzr, [x29, #-24]
	stur	xzr, [x29, #-8]
	str	xzr, [sp, #64]
	str	d0, [sp, #104]
	str	x8, [sp]
	bl	"mortgage::years::draw_kind_with_years"
	ldrb	w9, [sp, #16]
	ldr	w8, [sp, #24]
	cmp	w9, #1
	b.ne	.LBB85_2
// %bb.1:                               // %arm.1.i.i.i
	ldrb	w9, [sp, #20]
	orr	x8, x9, x8, lsl #32
	add	x0, x8, #1
	ldp	x20, x19, [sp, #176]            // 16-byte Folded Reload
	ldr	x21, [sp, #160]                 // 8-byte Reload
	ldp	x29, x30, [sp, #144]            // 16-byte Folded Reload
	add	sp, sp, #192
	ret
.LBB85_2:                               // %arm.2.i.i.i
	ldp	w11, w10, [sp, #28]
	ldr	w9, [sp, #56]
	ldur	q0, [sp, #40]
	mov	x0, xzr
	ldr	d1, [sp, #64]
	orr	x9, x10, x9, lsl #32
	str	x9, [x21]
	ldr	x9, [x29, #48]
	str	q0, [x20]
	str	d1, [x20, #16]
	str	w8, [x19]
	str	w11, [x9]
	ldp	x20, x19, [sp, #176]            // 16-byte Folded Reload
	ldr	x21, [sp, #160]                 // 8-byte Reload
	ldp	x29, x30, [sp, #144]            // 16-byte Folded Reload
	add	sp, sp, #192
	ret
.Lfunc_end85:
	.size	senyolanda_draw_balloon_with_years, .Lfunc_end85-senyolanda_draw_balloon_with_years
                                        // -- End function
	.section	.text.senyolanda_draw_book,"ax",@progbits
	.globl	senyolanda_draw_book            // -- Begin function senyolanda_draw_book
	.p2align	2
	.type	senyolanda_draw_book,@function
senyolanda_draw_book:                   // @senyolanda_draw_book
// %bb.0:                               // %start
	cmp	x0, #0
	mov	w8, #4096                       // =0x1000
	mov	w12, #5396                      // =0x1514
	csel	x11, x8, xzr, eq
	cmp	x2, #0
	csel	x10, x8, xzr, eq
	cmp	x4, #0
	csel	x9, x8, xzr, eq
	cmp	x1, x12
	mov	w8, #11                         // =0xb
	b.hi	.LBB86_4
// %bb.1:                               // %start
	mov	x12, #34329                     // =0x8619
	movk	x12, #6241, lsl #16
	movk	x12, #24966, lsl #32
	movk	x12, #34328, lsl #48
	umulh	x12, x1, x12
	sub	x13, x1, x12
	add	x12, x12, x13, lsr #1
	mov	w13, #21                        // =0x15
	lsr	x12, x12, #4
	msub	x12, x12, x13, x1
	cbnz	x12, .LBB86_4
// %bb.2:                               // %join.3.i.i
	mov	w8, #34329                      // =0x8619
	mul	w8, w1, w8
	lsr	w8, w8, #16
	sub	w12, w1, w8
	and	w12, w12, #0xfffe
	add	w8, w8, w12, lsr #1
	ubfx	w16, w8, #4, #12
	cmp	x3, x16
	b.hs	.LBB86_5
// %bb.3:
	mov	w8, #3                          // =0x3
.LBB86_4:                               // %"senyolanda::books::senyolanda_draw_book.exit"
	mov	x0, x8
	ret
.LBB86_5:                               // %join.6.i.i
	sub	sp, sp, #368
	stp	x28, x27, [sp, #288]            // 16-byte Folded Spill
	cmp	x1, #21
	add	x28, x0, x11
	stp	d15, d14, [sp, #208]            // 16-byte Folded Spill
	stp	d13, d12, [sp, #224]            // 16-byte Folded Spill
	stp	d11, d10, [sp, #240]            // 16-byte Folded Spill
	stp	d9, d8, [sp, #256]              // 16-byte Folded Spill
	stp	x29, x30, [sp, #272]            // 16-byte Folded Spill
	add	x29, sp, #272
	stp	x26, x25, [sp, #304]            // 16-byte Folded Spill
	stp	x24, x23, [sp, #320]            // 16-byte Folded Spill
	stp	x22, x21, [sp, #336]            // 16-byte Folded Spill
	stp	x20, x19, [sp, #352]            // 16-byte Folded Spill
	b.hs	.LBB86_7
// %bb.6:
	mov	w17, wzr
	mov	x0, xzr
	b	.LBB86_16
.LBB86_7:                               // %join.5.lr.ph.i.i.i
	mov	x8, #-3689348814741910324       // =0xcccccccccccccccc
	movi	d0, #0000000000000000
	mov	x19, xzr
	movk	x8, #52429
	mov	x0, xzr
	umulh	x8, x5, x8
	//ARITH_FENCE
	lsr	x17, x8, #2
	mov	x8, x28
.LBB86_8:                               // %join.5.i.i.i
                                        // =>This Inner Loop Header: Depth=1
	ldrb	w11, [x8]
	cmp	w11, #1
	b.ne	.LBB86_12
// %bb.9:                               // %arm.2.i.i.i.i
                                        //   in Loop: Header=BB86_8 Depth=1
	ldur	x11, [x8, #1]
	mov	x13, #9218868437227405312       // =0x7ff0000000000000
	and	x12, x11, #0x7fffffffffffffff
	cmp	x12, x13
	b.ls	.LBB86_11
// %bb.10:                              //   in Loop: Header=BB86_8 Depth=1
	mov	x11, #9221120237041090560       // =0x7ff8000000000000
.LBB86_11:                              // %select.false.sink
                                        //   in Loop: Header=BB86_8 Depth=1
	fmov	d1, x11
	ldur	w11, [x8, #17]
	sub	w12, w11, #1201
	fsub	d2, d1, d1
	//ARITH_FENCE
	fcmp	d1, d0
	cset	w13, mi
	cmn	w12, #1200
	//ARITH_FENCE
	fccmp	d2, d0, #0, hs
	//APP
	//NO_APP
	ccmp	w13, #0, #0, eq
	b.eq	.LBB86_13
.LBB86_12:                              //   in Loop: Header=BB86_8 Depth=1
	mov	x11, xzr
.LBB86_13:                              // %"book::loans::asking_at.exit.i.i.i"
                                        //   in Loop: Header=BB86_8 Depth=1
	subs	x12, x17, x11
	b.lo	.LBB86_64
// %bb.14:                              // %join.8.i.i.i
                                        //   in Loop: Header=BB86_8 Depth=1
	add	x19, x19, #1
	add	x0, x11, x0
	add	x8, x8, #21
	cmp	x16, x19
	mov	x17, x12
	b.ne	.LBB86_8
// %bb.15:
	mov	w17, wzr
.LBB86_16:                              // %join.9.i.i
	mov	x19, x16
.LBB86_17:                              // %join.9.i.i
	cmp	w17, #0
	cinc	x18, x19, ne
	cbz	x18, .LBB86_22
// %bb.18:                              // %join.5.lr.ph.i.i.i.i
	movi	d0, #0000000000000000
	add	x8, x2, x10
	mov	x10, x28
	mov	x11, x18
	//ARITH_FENCE
	b	.LBB86_20
.LBB86_19:                              // %arm.2.i.i.i.i.i
                                        //   in Loop: Header=BB86_20 Depth=1
	ldur	x12, [x10, #1]
	mov	x15, #9221120237041090560       // =0x7ff8000000000000
	mov	x14, #9218868437227405312       // =0x7ff0000000000000
	fmov	d2, x15
	fmov	d1, x12
	and	x13, x12, #0x7fffffffffffffff
	ldur	w12, [x10, #17]
	cmp	x13, x14
	sub	w12, w12, #1201
	fcsel	d1, d2, d1, hi
	fsub	d2, d1, d1
	//ARITH_FENCE
	fcmp	d1, d0
	cset	w13, mi
	cmn	w12, #1200
	mov	w12, #2                         // =0x2
	//ARITH_FENCE
	csel	w12, w12, wzr, lo
	fcmp	d2, d0
	//APP
	//NO_APP
	ccmp	w13, #0, #0, eq
	csinc	w12, w12, wzr, eq
	subs	x11, x11, #1
	add	x10, x10, #21
	str	w12, [x8], #4
	b.eq	.LBB86_22
.LBB86_20:                              // %join.5.i.i.i.i
                                        // =>This Inner Loop Header: Depth=1
	ldrb	w12, [x10]
	cmp	w12, #1
	b.eq	.LBB86_19
// %bb.21:                              //   in Loop: Header=BB86_20 Depth=1
	mov	w12, #11                        // =0xb
	subs	x11, x11, #1
	add	x10, x10, #21
	str	w12, [x8], #4
	b.ne	.LBB86_20
.LBB86_22:                              // %"book::answers::put_answers.exit.i.i.i"
	add	x8, x4, x9
	stp	x0, x18, [sp, #8]               // 16-byte Folded Spill
	stp	x17, x16, [sp, #24]             // 16-byte Folded Spill
	stp	x6, x7, [sp, #40]               // 16-byte Folded Spill
	str	x8, [sp, #80]                   // 8-byte Spill
	cbz	x19, .LBB86_54
// %bb.23:                              // %join.5.lr.ph.i8.i.i.i
	movi	d9, #0000000000000000
	movi	d10, #0000000000000000
	add	x8, x9, x4
	movi	d12, #0000000000000000
	movi	d11, #0000000000000000
	mov	x26, xzr
	fmov	d8, #1.00000000
	mov	x21, xzr
	mov	x16, xzr
	mov	w27, wzr
	mov	w17, wzr
	mov	w25, wzr
	mov	w3, wzr
	add	x8, x8, #72
	//ARITH_FENCE
	stp	x28, x5, [sp, #64]              // 16-byte Folded Spill
	//ARITH_FENCE
	str	x8, [sp]                        // 8-byte Spill
	str	x19, [sp, #56]                  // 8-byte Spill
	b	.LBB86_27
.LBB86_24:                              // %else.2.i.i.i.i.i.i
                                        //   in Loop: Header=BB86_27 Depth=1
	fmov	d11, d14
	fmov	d12, d15
	mov	w3, w11
	fmov	d10, d13
	mov	w25, w8
	mov	w17, w9
	mov	w27, w10
	mov	x16, x21
.LBB86_25:                              // %"book::hands::take_in.exit.i.i.i.i.i"
                                        //   in Loop: Header=BB86_27 Depth=1
	add	w8, w18, w18, lsl #2
	add	x9, x23, x23, lsl #2
	add	x16, x16, x8
	add	x21, x9, x21
.LBB86_26:                              // %"book::hands::take_next.exit.i.i.i.i"
                                        //   in Loop: Header=BB86_27 Depth=1
	add	x26, x26, #1
	cmp	x26, x19
	b.eq	.LBB86_55
.LBB86_27:                              // %join.5.i10.i.i.i
                                        // =>This Loop Header: Depth=1
                                        //     Child Loop BB86_30 Depth 2
                                        //     Child Loop BB86_50 Depth 2
	mov	w8, #21                         // =0x15
	madd	x8, x26, x8, x28
	ldrb	w9, [x8]
	cmp	w9, #1
	b.ne	.LBB86_26
// %bb.28:                              // %arm.2.i.i.i.i.i.i
                                        //   in Loop: Header=BB86_27 Depth=1
	ldur	x9, [x8, #1]
	mov	x12, #9221120237041090560       // =0x7ff8000000000000
	ldur	x10, [x8, #9]
	fmov	d1, x12
	ldur	w23, [x8, #17]
	fmov	d0, x9
	and	x11, x9, #0x7fffffffffffffff
	mov	x9, #9218868437227405312        // =0x7ff0000000000000
	cmp	x11, x9
	and	x11, x10, #0x7fffffffffffffff
	fcsel	d13, d1, d0, hi
	fmov	d0, x10
	cmp	x11, x9
	fcsel	d14, d1, d0, hi
	fmov	d0, #12.00000000
	fdiv	d0, d14, d0
	cbz	w23, .LBB86_33
// %bb.29:                              // %join.5.i.preheader.i.i.i.i.i.i.i.i.i
                                        //   in Loop: Header=BB86_27 Depth=1
	fmov	d2, #1.00000000
	fmov	d1, #1.00000000
	mov	w8, w23
	fadd	d3, d0, d2
.LBB86_30:                              // %join.5.i.i.i.i.i.i.i.i.i.i
                                        //   Parent Loop BB86_27 Depth=1
                                        // =>  This Inner Loop Header: Depth=2
	tst	w8, #0x1
	lsr	w8, w8, #1
	fcsel	d4, d2, d3, eq
	fmul	d3, d3, d3
	fmul	d1, d1, d4
	cbnz	w8, .LBB86_30
// %bb.31:                              // %"mortgage::payment::growth.exit.i.i.i.i.loopexit.i.i.i.i"
                                        //   in Loop: Header=BB86_27 Depth=1
	fmov	d2, d1
	//ARITH_FENCE
	fcmp	d2, d8
	b.ne	.LBB86_34
.LBB86_32:                              // %then.1.i.i.i.i.i.i.i.i.i
                                        //   in Loop: Header=BB86_27 Depth=1
	ucvtf	d1, w23
	//ARITH_FENCE
	fdiv	d15, d13, d1
	b	.LBB86_35
.LBB86_33:                              //   in Loop: Header=BB86_27 Depth=1
	fmov	d1, #1.00000000
	fmov	d2, d8
	fcmp	d2, d8
	b.eq	.LBB86_32
.LBB86_34:                              // %join.3.i.i.i.i.i.i.i.i.i
                                        //   in Loop: Header=BB86_27 Depth=1
	fmul	d2, d13, d0
	fmov	d3, #-1.00000000
	fmul	d2, d2, d1
	fadd	d1, d1, d3
	fdiv	d15, d2, d1
.LBB86_35:                              // %"mortgage::payment::worked_out.exit.i.i.i.i.i.i.i"
                                        //   in Loop: Header=BB86_27 Depth=1
	fmov	d2, d13
	sub	w9, w23, #1201
	//ARITH_FENCE
	fcmp	d2, d9
	cset	w8, mi
	cmn	w9, #1200
	//APP
	//NO_APP
	b.lo	.LBB86_26
// %bb.36:                              // %"mortgage::payment::worked_out.exit.i.i.i.i.i.i.i"
                                        //   in Loop: Header=BB86_27 Depth=1
	cbnz	w8, .LBB86_26
// %bb.37:                              // %"mortgage::payment::worked_out.exit.i.i.i.i.i.i.i"
                                        //   in Loop: Header=BB86_27 Depth=1
	fsub	d1, d13, d13
	//ARITH_FENCE
	fcmp	d1, d9
	b.ne	.LBB86_26
// %bb.38:                              // %arm.2.i.i15.i.i.i
                                        //   in Loop: Header=BB86_27 Depth=1
	subs	w8, w3, w17
	mov	x9, #-3689348814741910324       // =0xcccccccccccccccc
	csel	w0, wzr, w8, lo
	movk	x9, #52429
	cmp	w0, w23
	csel	w18, w0, w23, lo
	subs	x8, x21, x16
	csel	x8, xzr, x8, lo
	umulh	x8, x8, x9
	lsr	x8, x8, #2
	cmp	x8, x0
	csel	x8, x8, x0, lo
	cmp	w18, w8
	csel	w8, w18, w8, lo
	subs	x10, x5, x21
	csel	x10, xzr, x10, lo
	umulh	x9, x10, x9
	lsr	x9, x9, #2
	cmp	x9, x23
	csel	x9, x9, x23, lo
	cmp	w8, w9
	csel	w8, w8, w9, lo
	cbz	w8, .LBB86_46
// %bb.39:                              // %join.3.i.i.i.i.i.i.i
                                        //   in Loop: Header=BB86_27 Depth=1
	subs	w13, w8, #1
	str	x21, [sp, #112]                 // 8-byte Spill
	str	w18, [sp, #108]                 // 4-byte Spill
	str	x0, [sp, #96]                   // 8-byte Spill
	b.eq	.LBB86_43
// %bb.40:                              // %join.5.lr.ph.i.i.i.i.i.i.i.i.i
                                        //   in Loop: Header=BB86_27 Depth=1
	fmov	d1, #12.00000000
	fmov	d6, d10
	mov	w20, wzr
	fdiv	d1, d11, d1
	//ARITH_FENCE
	fmul	d3, d10, d1
	fsub	d4, d12, d3
	fmov	d5, d4
	//ARITH_FENCE
	fcmp	d9, d5
	cset	w10, mi
	fcmp	d5, d6
	//APP
	//NO_APP
	cset	w9, mi
	//APP
	//NO_APP
	cbz	w10, .LBB86_44
// %bb.41:                              // %join.5.lr.ph.i.i.i.i.i.i.i.i.i
                                        //   in Loop: Header=BB86_27 Depth=1
	cbz	w9, .LBB86_44
// %bb.42:                              // %arm.6.peel.i.i.i.i.i.i.i.i.i
                                        //   in Loop: Header=BB86_27 Depth=1
	fmul	d5, d13, d0
	fsub	d6, d15, d5
	fmov	d7, d6
	//ARITH_FENCE
	fcmp	d9, d7
	cset	w9, mi
	fcmp	d7, d2
	//APP
	//NO_APP
	cset	w10, mi
	cmp	w9, #0
	//APP
	//NO_APP
	ccmp	w10, #0, #4, ne
	b.ne	.LBB86_47
.LBB86_43:                              //   in Loop: Header=BB86_27 Depth=1
	mov	w20, wzr
.LBB86_44:                              //   in Loop: Header=BB86_27 Depth=1
	mov	w9, w17
.LBB86_45:                              // %"mortgage::pairs::lay_pair.exit.i.i.i.i.i.i.i"
                                        //   in Loop: Header=BB86_27 Depth=1
	sub	w10, w9, w17
	movi	v0.2d, #0000000000000000
	ldr	x28, [sp, #80]                  // 8-byte Reload
	add	x21, x10, w10, uxtw #2
	stp	w9, w27, [sp, #144]
	sub	w24, w8, w10
	sub	w8, w24, #1
	sub	x0, x29, #112
	add	x1, sp, #120
	add	x9, x21, x16
	sub	w6, w24, #1
	mov	w2, wzr
	add	x4, x28, x9, lsl #3
	mov	w5, w24
	stp	w3, w25, [sp, #120]
	stp	d11, d12, [sp, #128]
	mov	x19, x16
	str	d10, [sp, #152]
	stp	q0, q0, [x29, #-112]
	str	w8, [sp, #92]                   // 4-byte Spill
	stur	xzr, [x29, #-80]
	bl	"mortgage::draws::lay_rows"
	ldr	x9, [sp, #112]                  // 8-byte Reload
	movi	v0.2d, #0000000000000000
	stp	w20, wzr, [sp, #144]
	ldp	w22, w25, [x29, #-112]
	add	x8, x21, x9
	ldp	d11, d12, [x29, #-104]
	ldp	w20, w27, [x29, #-88]
	add	x4, x28, x8, lsl #3
	ldr	w6, [sp, #92]                   // 4-byte Reload
	ldur	d10, [x29, #-80]
	sub	x0, x29, #112
	add	x1, sp, #120
	mov	w2, wzr
	mov	w3, w23
	mov	w5, w24
	stp	w23, wzr, [sp, #120]
	stp	d14, d15, [sp, #128]
	mov	x21, x9
	str	d13, [sp, #152]
	stp	q0, q0, [x29, #-112]
	stur	xzr, [x29, #-80]
	bl	"mortgage::draws::lay_rows"
	ldp	w11, w8, [x29, #-112]
	ldp	d14, d15, [x29, #-104]
	mov	x16, x19
	ldp	w9, w10, [x29, #-88]
	ldp	x28, x5, [sp, #64]              // 16-byte Folded Reload
	mov	w17, w20
	ldur	d13, [x29, #-80]
	ldr	x19, [sp, #56]                  // 8-byte Reload
	mov	w3, w22
	ldr	w18, [sp, #108]                 // 4-byte Reload
	ldr	x0, [sp, #96]                   // 8-byte Reload
	cmp	w23, w0
	b.lo	.LBB86_25
	b	.LBB86_24
.LBB86_46:                              //   in Loop: Header=BB86_27 Depth=1
	mov	w9, wzr
	mov	w10, wzr
	mov	w11, w23
	cmp	w23, w0
	b.hs	.LBB86_24
	b	.LBB86_25
.LBB86_47:                              // %arm.10.peel.i.i.i.i.i.i.i.i.i
                                        //   in Loop: Header=BB86_27 Depth=1
	add	w9, w17, #1
	fsub	d10, d10, d4
	ldr	x11, [sp, #80]                  // 8-byte Reload
	ucvtf	d2, w9
	fsub	d13, d13, d6
	cmp	w13, #1
	add	x10, x11, x16, lsl #3
	add	x11, x11, x21, lsl #3
	stp	d4, d3, [x10, #16]
	str	d10, [x10, #32]
	//ARITH_FENCE
	stp	d2, d12, [x10]
	stp	d8, d15, [x11]
	stp	d6, d5, [x11, #16]
	str	d13, [x11, #32]
	b.ne	.LBB86_49
// %bb.48:                              //   in Loop: Header=BB86_27 Depth=1
	mov	w25, wzr
	mov	w27, wzr
	mov	w20, #1                         // =0x1
	b	.LBB86_45
.LBB86_49:                              // %join.5.i.i.i.i.i.i.i.i.i.preheader
                                        //   in Loop: Header=BB86_27 Depth=1
	ldr	x11, [sp]                       // 8-byte Reload
	mov	x9, xzr
	mov	w12, w17
	sub	x13, x13, #1
	add	x10, x11, x21, lsl #3
	add	x11, x11, x16, lsl #3
.LBB86_50:                              // %join.5.i.i.i.i.i.i.i.i.i
                                        //   Parent Loop BB86_27 Depth=1
                                        // =>  This Inner Loop Header: Depth=2
	fmul	d2, d1, d10
	fmov	d5, d10
	fsub	d4, d12, d2
	//ARITH_FENCE
	fmov	d3, d4
	//ARITH_FENCE
	fcmp	d9, d3
	cset	w14, mi
	fcmp	d3, d5
	//APP
	//NO_APP
	cset	w15, mi
	cmp	w14, #0
	//APP
	//NO_APP
	ccmp	w15, #0, #4, ne
	b.eq	.LBB86_53
// %bb.51:                              // %arm.6.i.i.i.i.i.i.i.i.i
                                        //   in Loop: Header=BB86_50 Depth=2
	fmul	d3, d0, d13
	fmov	d7, d13
	fsub	d5, d15, d3
	//ARITH_FENCE
	fmov	d6, d5
	//ARITH_FENCE
	fcmp	d9, d6
	cset	w14, mi
	fcmp	d6, d7
	//APP
	//NO_APP
	cset	w15, mi
	cmp	w14, #0
	//APP
	//NO_APP
	ccmp	w15, #0, #4, ne
	b.eq	.LBB86_53
// %bb.52:                              // %arm.10.i.i.i.i.i.i.i.i.i
                                        //   in Loop: Header=BB86_50 Depth=2
	add	w14, w9, #2
	fsub	d10, d10, d4
	stp	d4, d2, [x11, #-16]
	add	w15, w14, w12
	ucvtf	d2, w14
	fsub	d13, d13, d5
	ucvtf	d6, w15
	add	x9, x9, #1
	cmp	x13, x9
	str	d10, [x11]
	//ARITH_FENCE
	//ARITH_FENCE
	stp	d6, d12, [x11, #-32]
	add	x11, x11, #40
	stp	d2, d15, [x10, #-32]
	stp	d5, d3, [x10, #-16]
	str	d13, [x10], #40
	b.ne	.LBB86_50
.LBB86_53:                              // %"mortgage::pairs::lay_pair.exit.i.i.i.i.i.i.i.loopexit"
                                        //   in Loop: Header=BB86_27 Depth=1
	add	w20, w9, #1
	mov	w25, wzr
	mov	w27, wzr
	add	w9, w20, w17
	b	.LBB86_45
.LBB86_54:
	mov	w3, wzr
	mov	w25, wzr
	mov	w17, wzr
	mov	w27, wzr
	movi	d11, #0000000000000000
	movi	d12, #0000000000000000
	movi	d10, #0000000000000000
	mov	x16, xzr
.LBB86_55:                              // %after.1.i.i.i.i
	subs	w8, w3, w17
	mov	x10, #-3689348814741910324      // =0xcccccccccccccccc
	ldr	x20, [x29, #96]
	csel	w8, wzr, w8, lo
	subs	x9, x5, x16
	movk	x10, #52429
	csel	x9, xzr, x9, lo
	mov	x24, x5
	umulh	x9, x9, x10
	lsr	x9, x9, #2
	cmp	x9, x8
	csel	x5, x9, x8, lo
	cbz	x5, .LBB86_57
// %bb.56:                              // %join.3.i.i.i.i.i
	ldr	x8, [sp, #80]                   // 8-byte Reload
	sub	w6, w5, #1
	sub	x0, x29, #112
	add	x1, sp, #120
	mov	w2, wzr
	stp	w3, w25, [sp, #120]
	add	x4, x8, x16, lsl #3
	stp	d11, d12, [sp, #128]
                                        // kill: def $w5 killed $w5 killed $x5
	stp	w17, w27, [sp, #144]
	str	d10, [sp, #152]
	bl	"mortgage::draws::lay_rows"
.LBB86_57:                              // %"book::hands::lay_loans.exit.i.i.i"
	ldp	x22, x21, [sp, #40]             // 16-byte Folded Reload
	ldp	x25, x23, [sp, #24]             // 16-byte Folded Reload
	cbz	w25, .LBB86_73
// %bb.58:                              // %join.3.i.i.i.i
	mov	w8, #21                         // =0x15
	madd	x8, x19, x8, x28
	ldrb	w9, [x8]
	cmp	w9, #1
	b.ne	.LBB86_73
// %bb.59:                              // %arm.2.i.i23.i.i.i
	ldur	x9, [x8, #1]
	ldur	x10, [x8, #9]
	mov	x12, #9221120237041090560       // =0x7ff8000000000000
	fmov	d1, x12
	fmov	d4, #1.00000000
	fmov	d3, #1.00000000
	fmov	d0, x9
	and	x11, x9, #0x7fffffffffffffff
	mov	x9, #9218868437227405312        // =0x7ff0000000000000
	fmov	d2, x10
	cmp	x11, x9
	and	x11, x10, #0x7fffffffffffffff
	ldur	w3, [x8, #17]
	fcsel	d0, d1, d0, hi
	cmp	x11, x9
	fcsel	d1, d1, d2, hi
	fmov	d2, #12.00000000
	fdiv	d2, d1, d2
	cbz	w3, .LBB86_62
// %bb.60:                              // %join.5.i.preheader.i.i.i.i.i.i.i.i
	fmov	d5, #1.00000000
	mov	w8, w3
	fadd	d6, d2, d5
.LBB86_61:                              // %join.5.i.i.i.i.i.i32.i.i.i
                                        // =>This Inner Loop Header: Depth=1
	tst	w8, #0x1
	lsr	w8, w8, #1
	fcsel	d7, d5, d6, eq
	fmul	d6, d6, d6
	fmul	d3, d3, d7
	cbnz	w8, .LBB86_61
.LBB86_62:                              // %"mortgage::payment::growth.exit.i.i.i.i.i.i.i"
	fmov	d5, d3
	//ARITH_FENCE
	//ARITH_FENCE
	fcmp	d5, d4
	b.ne	.LBB86_67
// %bb.63:                              // %then.1.i.i.i.i.i.i.i.i
	ucvtf	d2, w3
	//ARITH_FENCE
	fdiv	d2, d0, d2
	b	.LBB86_68
.LBB86_64:                              // %"book::plan::plan_for.exit.i.i"
	cmp	x5, #4
	b.hi	.LBB86_17
// %bb.65:                              // %"book::plan::plan_for.exit.i.i"
	cmp	x19, x16
	b.hs	.LBB86_17
// %bb.66:
	mov	w8, #3                          // =0x3
	b	.LBB86_74
.LBB86_67:                              // %join.3.i.i.i.i.i.i.i.i
	fmul	d2, d0, d2
	fmov	d4, #-1.00000000
	fmul	d2, d2, d3
	fadd	d3, d3, d4
	fdiv	d2, d2, d3
.LBB86_68:                              // %"mortgage::payment::worked_out.exit.i.i.i.i.i.i"
	movi	d3, #0000000000000000
	fmov	d4, d0
	sub	w9, w3, #1201
	//ARITH_FENCE
	//ARITH_FENCE
	fcmp	d4, d3
	cset	w8, mi
	cmn	w9, #1200
	//APP
	//NO_APP
	b.lo	.LBB86_73
// %bb.69:                              // %"mortgage::payment::worked_out.exit.i.i.i.i.i.i"
	cbnz	w8, .LBB86_73
// %bb.70:                              // %"mortgage::payment::worked_out.exit.i.i.i.i.i.i"
	fsub	d4, d0, d0
	//ARITH_FENCE
	fcmp	d4, d3
	b.ne	.LBB86_73
// %bb.71:                              // %arm.5.i.i.i.i
	ldr	x8, [sp, #8]                    // 8-byte Reload
	mov	x9, #-3689348814741910324       // =0xcccccccccccccccc
	movk	x9, #52429
	add	x8, x8, x8, lsl #2
	subs	x8, x24, x8
	csel	x8, xzr, x8, lo
	umulh	x8, x8, x9
	lsr	x8, x8, #2
	cmp	x8, x3
	csel	x8, x8, x3, lo
	cbz	x8, .LBB86_73
// %bb.72:                              // %join.3.i.i48.i.i.i
	ldr	x11, [sp, #8]                   // 8-byte Reload
	mov	w9, #40                         // =0x28
	ldr	x10, [sp, #80]                  // 8-byte Reload
	cmp	w25, w8
	sub	x0, x29, #112
	add	x1, sp, #120
	madd	x4, x11, x9, x10
	csel	w5, w25, w8, lo
	mov	w2, wzr
	sub	w6, w5, #1
	stp	w3, wzr, [sp, #120]
                                        // kill: def $w3 killed $w3 killed $x3
	stp	d1, d2, [sp, #128]
	str	xzr, [sp, #144]
	str	d0, [sp, #152]
	bl	"mortgage::draws::lay_rows"
.LBB86_73:                              // %arm.2.i
	ldr	x9, [sp, #16]                   // 8-byte Reload
	mov	x8, xzr
	str	w19, [x22]
	str	w25, [x21]
	sub	w9, w23, w9
	str	w9, [x20]
.LBB86_74:
	ldp	x20, x19, [sp, #352]            // 16-byte Folded Reload
	ldp	x22, x21, [sp, #336]            // 16-byte Folded Reload
	ldp	x24, x23, [sp, #320]            // 16-byte Folded Reload
	ldp	x26, x25, [sp, #304]            // 16-byte Folded Reload
	ldp	x28, x27, [sp, #288]            // 16-byte Folded Reload
	ldp	x29, x30, [sp, #272]            // 16-byte Folded Reload
	ldp	d9, d8, [sp, #256]              // 16-byte Folded Reload
	ldp	d11, d10, [sp, #240]            // 16-byte Folded Reload
	ldp	d13, d12, [sp, #224]            // 16-byte Folded Reload
	ldp	d15, d14, [sp, #208]            // 16-byte Folded Reload
	add	sp, sp, #368
	mov	x0, x8
	ret
.Lfunc_end86:
	.size	senyolanda_draw_book, .Lfunc_end86-senyolanda_draw_book
                                        // -- End function
	.section	.text.senyolanda_draw_interest_only,"ax",@progbits
	.globl	senyolanda_draw_interest_only   // -- Begin function senyolanda_draw_interest_only
	.p2align	2
	.type	senyolanda_draw_interest_only,@function
senyolanda_draw_interest_only:          // @senyolanda_draw_interest_only
// %bb.0:                               // %start
	sub	sp, sp, #192
	movi	v0.2d, #0000000000000000
	stp	x29, x30, [sp, #144]            // 16-byte Folded Spill
	add	x29, sp, #144
	mov	w8, #1                          // =0x1
	cmp	x3, #0
	stp	x22, x21, [sp, #160]            // 16-byte Folded Spill
	stp	w8, w0, [x29, #-32]
	mov	x21, x2
	mov	x22, x1
	ldp	w8, w9, [x1]
	stp	q0, q0, [sp, #48]
	add	x0, sp, #48
	sub	x1, x29, #32
	str	q0, [sp, #80]
	ldr	q0, [x2]
	stp	w8, wzr, [sp, #8]
	mov	w8, #4096                       // =0x1000
	stur	q0, [sp, #16]
	ldr	d0, [x2, #16]
	add	x2, sp, #8
	stp	w9, wzr, [sp, #32]
	csel	x9, x8, xzr, eq
	adrp	x8, .Lstatic.2
	add	x8, x8, :lo12:.Lstatic.2
	stp	x20, x19, [sp, #176]            // 16-byte Folded Spill
	mov	x19, x6
	mov	x20, x5
	mov	x6, x4
	add	x5, x3, x9
	mov	x3, x8
	mov	w4, #1                          // =0x1
	stp	xzr, xzr, [x29, #-24]
	stur	xzr, [x29, #-8]
	str	xzr, [sp, #96]
	str	d0, [sp, #40]
	bl	"mortgage::draws::draw_kind"
	ldrb	w9, [sp, #48]
	ldr	w8, [sp, #56]
	cmp	w9, #1
	b.ne	.LBB87_2
// %bb.1:                               // %arm.1.i.i.i
	ldrb	w9, [sp, #52]
	orr	x8, x9, x8, lsl #32
	add	x0, x8, #1
	ldp	x20, x19, [sp, #176]            // 16-byte Folded Reload
	ldp	x22, x21, [sp, #160]            // 16-byte Folded Reload
	ldp	x29, x30, [sp, #144]            // 16-byte Folded Reload
	add	sp, sp, #192
	ret
.LBB87_2:                               // %arm.2.i.i.i
	ldp	w11, w10, [sp, #60]
	ldr	w9, [sp, #88]
	ldur	q0, [sp, #72]
	mov	x0, xzr
	ldr	d1, [sp, #96]
	orr	x9, x10, x9, lsl #32
	str	x9, [x22]
	str	q0, [x21]
	str	d1, [x21, #16]
	str	w8, [x20]
	str	w11, [x19]
	ldp	x20, x19, [sp, #176]            // 16-byte Folded Reload
	ldp	x22, x21, [sp, #160]            // 16-byte Folded Reload
	ldp	x29, x30, [sp, #144]            // 16-byte Folded Reload
	add	sp, sp, #192
	ret
.Lfunc_end87:
	.size	senyolanda_draw_interest_only, .Lfunc_end87-senyolanda_draw_interest_only
                                        // -- End function
	.section	.text.senyolanda_draw_interest_only_with_years,"ax",@progbits
	.globl	senyolanda_draw_interest_only_with_years // -- Begin function senyolanda_draw_interest_only_with_years
	.p2align	2
	.type	senyolanda_draw_interest_only_with_years,@function
senyolanda_draw_interest_only_with_years: // @senyolanda_draw_interest_only_with_years
// %bb.0:                               // %start
	sub	sp, sp, #192
	stp	x29, x30, [sp, #144]            // 16-byte Folded Spill
	add	x29, sp, #144
	movi	v0.2d, #0000000000000000
	mov	w10, #1                         // =0x1
	cmp	x3, #0
	mov	x9, x5
	stp	w10, w0, [x29, #-32]
	mov	x8, x6
	mov	x6, x4
	ldp	w10, w11, [x1]
	stp	q0, q0, [sp, #16]
	add	x0, sp, #16
	mov	w4, #1                          // =0x1
	str	q0, [sp, #48]
	ldr	q0, [x2]
	stp	w10, wzr, [sp, #72]
	mov	w10, #4096                      // =0x1000
	stp	w11, wzr, [sp, #96]
	csel	x11, x10, xzr, eq
	cmp	x5, #0
	stur	q0, [sp, #80]
	ldr	d0, [x2, #16]
	csel	x12, x10, xzr, eq
	adrp	x10, .Lstatic.2
	add	x10, x10, :lo12:.Lstatic.2
	str	x21, [sp, #160]                 // 8-byte Spill
	stp	x20, x19, [sp, #176]            // 16-byte Folded Spill
	mov	x19, x7
	mov	x20, x2
	mov	x21, x1
	sub	x1, x29, #32
	add	x2, sp, #72
	add	x5, x3, x11
	add	x7, x9, x12
	mov	x3, x10
	stp	xzr, xzr, [x29, #-24]
	stur	xzr, [x29, #-8]
	str	xzr, [sp, #64]
	str	d0, [sp, #104]
	str	x8, [sp]
	bl	"mortgage::years::draw_kind_with_years"
	ldrb	w9, [sp, #16]
	ldr	w8, [sp, #24]
	cmp	w9, #1
	b.ne	.LBB88_2
// %bb.1:                               // %arm.1.i.i.i
	ldrb	w9, [sp, #20]
	orr	x8, x9, x8, lsl #32
	add	x0, x8, #1
	ldp	x20, x19, [sp, #176]            // 16-byte Folded Reload
	ldr	x21, [sp, #160]                 // 8-byte Reload
	ldp	x29, x30, [sp, #144]            // 16-byte Folded Reload
	add	sp, sp, #192
	ret
.LBB88_2:                               // %arm.2.i.i.i
	ldp	w11, w10, [sp, #28]
	ldr	w9, [sp, #56]
	ldur	q0, [sp, #40]
	mov	x0, xzr
	ldr	d1, [sp, #64]
	orr	x9, x10, x9, lsl #32
	str	x9, [x21]
	ldr	x9, [x29, #48]
	str	q0, [x20]
	str	d1, [x20, #16]
	str	w8, [x19]
	str	w11, [x9]
	ldp	x20, x19, [sp, #176]            // 16-byte Folded Reload
	ldr	x21, [sp, #160]                 // 8-byte Reload
	ldp	x29, x30, [sp, #144]            // 16-byte Folded Reload
	add	sp, sp, #192
	ret
.Lfunc_end88:
	.size	senyolanda_draw_interest_only_with_years, .Lfunc_end88-senyolanda_draw_interest_only_with_years
                                        // -- End function
	.section	.text.senyolanda_draw_with_years,"ax",@progbits
	.globl	senyolanda_draw_with_years      // -- Begin function senyolanda_draw_with_years
	.p2align	2
	.type	senyolanda_draw_with_years,@function
senyolanda_draw_with_years:             // @senyolanda_draw_with_years
// %bb.0:                               // %start
	sub	sp, sp, #208
	ldp	w10, w11, [x0]
	ldr	q0, [x1]
	cmp	x2, #0
	stp	x29, x30, [sp, #160]            // 16-byte Folded Spill
	add	x29, sp, #160
	mov	x9, x2
	ldr	d1, [x1, #16]
	stp	w10, wzr, [sp, #56]
	mov	w10, #4096                      // =0x1000
	mov	x8, x5
	stur	q0, [sp, #64]
	movi	v0.2d, #0000000000000000
	add	x2, sp, #56
	stp	w11, wzr, [sp, #80]
	csel	x11, x10, xzr, eq
	cmp	x4, #0
	csel	x10, x10, xzr, eq
	stp	x22, x21, [sp, #176]            // 16-byte Folded Spill
	mov	x21, x1
	stp	x20, x19, [sp, #192]            // 16-byte Folded Spill
	mov	x19, x7
	mov	x20, x6
	mov	x6, x3
	mov	x22, x0
	adrp	x3, .Lstatic.2
	add	x3, x3, :lo12:.Lstatic.2
	sub	x0, x29, #64
	add	x1, sp, #16
	add	x5, x9, x11
	add	x7, x4, x10
	mov	w4, #1                          // =0x1
	str	d1, [sp, #88]
	stp	q0, q0, [x29, #-64]
	stur	q0, [x29, #-32]
	stur	xzr, [x29, #-16]
	stp	q0, q0, [sp, #16]
	str	x8, [sp]
	bl	"mortgage::years::draw_kind_with_years"
	ldurb	w9, [x29, #-64]
	ldur	w8, [x29, #-56]
	cmp	w9, #1
	b.ne	.LBB89_2
// %bb.1:                               // %arm.1.i.i
	ldurb	w9, [x29, #-60]
	orr	x8, x9, x8, lsl #32
	add	x0, x8, #1
	ldp	x20, x19, [sp, #192]            // 16-byte Folded Reload
	ldp	x22, x21, [sp, #176]            // 16-byte Folded Reload
	ldp	x29, x30, [sp, #160]            // 16-byte Folded Reload
	add	sp, sp, #208
	ret
.LBB89_2:                               // %arm.2.i.i
	ldur	w9, [x29, #-48]
	ldur	w10, [x29, #-24]
	mov	x0, xzr
	ldur	q0, [x29, #-40]
	ldur	d1, [x29, #-16]
	orr	x9, x9, x10, lsl #32
	str	x9, [x22]
	ldur	w9, [x29, #-52]
	str	q0, [x21]
	str	d1, [x21, #16]
	str	w8, [x20]
	str	w9, [x19]
	ldp	x20, x19, [sp, #192]            // 16-byte Folded Reload
	ldp	x22, x21, [sp, #176]            // 16-byte Folded Reload
	ldp	x29, x30, [sp, #160]            // 16-byte Folded Reload
	add	sp, sp, #208
	ret
.Lfunc_end89:
	.size	senyolanda_draw_with_years, .Lfunc_end89-senyolanda_draw_with_years
                                        // -- End function
	.section	.text.senyolanda_duration_convexity,"ax",@progbits
	.globl	senyolanda_duration_convexity   // -- Begin function senyolanda_duration_convexity
	.p2align	2
	.type	senyolanda_duration_convexity,@function
senyolanda_duration_convexity:          // @senyolanda_duration_convexity
// %bb.0:                               // %start
	sub	sp, sp, #48
	cmp	x0, #0
	mov	w13, #4096                      // =0x1000
	mov	x9, x0
	csel	x14, x13, xzr, eq
	cmp	x2, #0
	mov	x10, x5
	csel	x15, x13, xzr, eq
	cmp	x4, #0
	mov	x11, x3
	csel	x16, x13, xzr, eq
	cmp	x6, #0
	mov	x12, x1
	csel	x13, x13, xzr, eq
	mov	x8, x7
	add	x0, sp, #8
	add	x1, x9, x14
	add	x3, x2, x15
	add	x5, x4, x16
	add	x7, x6, x13
	mov	x2, x12
	mov	x4, x11
	mov	x6, x10
	stp	x29, x30, [sp, #32]             // 16-byte Folded Spill
	add	x29, sp, #32
	stp	xzr, xzr, [sp, #8]
	str	xzr, [sp, #24]
	str	x8, [sp]
	bl	"spread_analytics::spread::duration_convexity"
	ldrb	w10, [sp, #8]
	ldr	x8, [sp, #16]
	cmp	w10, #1
	b.eq	.LBB90_3
// %bb.1:                               // %start
	ldr	x9, [x29, #16]
	cbnz	w10, .LBB90_4
// %bb.2:                               // %"core::result::Result::map::<#c2f2d10bf1e3f8e3>.exit.thread.i"
	ldr	d0, [sp, #24]
	lsr	x10, x8, #32
	mov	x0, xzr
	stp	w8, w10, [x9]
	str	d0, [x9, #8]
	ldp	x29, x30, [sp, #32]             // 16-byte Folded Reload
	add	sp, sp, #48
	ret
.LBB90_3:                               // %arm.1.i3.i
	ldrb	w9, [sp, #12]
	orr	x8, x9, x8, lsl #32
	add	x0, x8, #1
	ldp	x29, x30, [sp, #32]             // 16-byte Folded Reload
	add	sp, sp, #48
	ret
.LBB90_4:
	movi	d0, #0000000000000000
	mov	w10, wzr
	mov	x0, xzr
	stp	w8, w10, [x9]
	str	d0, [x9, #8]
	ldp	x29, x30, [sp, #32]             // 16-byte Folded Reload
	add	sp, sp, #48
	ret
.Lfunc_end90:
	.size	senyolanda_duration_convexity, .Lfunc_end90-senyolanda_duration_convexity
                                        // -- End function
	.section	.text.senyolanda_exp,"ax",@progbits
	.globl	senyolanda_exp                  // -- Begin function senyolanda_exp
	.p2align	2
	.type	senyolanda_exp,@function
senyolanda_exp:                         // @senyolanda_exp
// %bb.0:                               // %start
	stp	x29, x30, [sp, #-32]!           // 16-byte Folded Spill
	str	x19, [sp, #16]                  // 8-byte Spill
	mov	x29, sp
	mov	x19, x0
	bl	"elementary::exp::exp"
	str	d0, [x19]
	ldr	x19, [sp, #16]                  // 8-byte Reload
	mov	x0, xzr
	ldp	x29, x30, [sp], #32             // 16-byte Folded Reload
	ret
.Lfunc_end91:
	.size	senyolanda_exp, .Lfunc_end91-senyolanda_exp
                                        // -- End function
	.section	.text.senyolanda_exp_each,"ax",@progbits
	.globl	senyolanda_exp_each             // -- Begin function senyolanda_exp_each
	.p2align	2
	.type	senyolanda_exp_each,@function
senyolanda_exp_each:                    // @senyolanda_exp_each
// %bb.0:                               // %start
	stp	x29, x30, [sp, #-16]!           // 16-byte Folded Spill
	mov	w8, #4096                       // =0x1000
	cmp	x0, #0
	mov	x29, sp
	csel	x8, x8, xzr, eq
	add	x0, x0, x8
	bl	"elementary::exp::exp_each"
	mov	x0, xzr
	ldp	x29, x30, [sp], #16             // 16-byte Folded Reload
	ret
.Lfunc_end92:
	.size	senyolanda_exp_each, .Lfunc_end92-senyolanda_exp_each
                                        // -- End function
	.section	.text.senyolanda_linear_interpolate,"ax",@progbits
	.globl	senyolanda_linear_interpolate   // -- Begin function senyolanda_linear_interpolate
	.p2align	2
	.type	senyolanda_linear_interpolate,@function
senyolanda_linear_interpolate:          // @senyolanda_linear_interpolate
// %bb.0:                               // %start
	stp	x29, x30, [sp, #-32]!           // 16-byte Folded Spill
	mov	w9, #4096                       // =0x1000
	cmp	x0, #0
	str	x19, [sp, #16]                  // 8-byte Spill
	csel	x8, x9, xzr, eq
	cmp	x2, #0
	mov	x29, sp
	csel	x9, x9, xzr, eq
	cmp	x1, x3
	b.ne	.LBB93_3
// %bb.1:                               // %join.3.i.i.i.i
	sub	x10, x1, #121
	cmn	x10, #120
	b.hs	.LBB93_5
// %bb.2:
	mov	w8, #4                          // =0x4
	and	x8, x8, #0xffffffff000000ff
	add	x0, x8, #1
	ldr	x19, [sp, #16]                  // 8-byte Reload
	ldp	x29, x30, [sp], #32             // 16-byte Folded Reload
	ret
.LBB93_3:
	mov	w8, #3                          // =0x3
.LBB93_4:                               // %arm.1.i2.i
	and	x8, x8, #0xffffffff000000ff
	add	x0, x8, #1
	ldr	x19, [sp, #16]                  // 8-byte Reload
	ldp	x29, x30, [sp], #32             // 16-byte Folded Reload
	ret
.LBB93_5:                               // %join.6.i.i.i.i
	movi	d1, #0000000000000000
	mov	x11, x0
	add	x0, x0, x8
	ldr	d2, [x0]
	mov	x12, x2
	add	x2, x2, x9
	//ARITH_FENCE
	//ARITH_FENCE
	fcmp	d1, d2
	cset	w10, hi
	//APP
	//NO_APP
	cbz	w10, .LBB93_10
.LBB93_6:                               // %join.6.i9.i.i.i.i.preheader
	mov	x9, #-4503599627370496          // =0xfff0000000000000
	mov	w8, #5                          // =0x5
	mov	x10, x2
	fmov	d3, x9
	mov	x9, x0
	mov	x11, x1
.LBB93_7:                               // %join.6.i9.i.i.i.i
                                        // =>This Inner Loop Header: Depth=1
	ldr	d2, [x9], #8
	ldr	d5, [x10], #8
	fsub	d4, d2, d2
	fsub	d5, d5, d5
	//ARITH_FENCE
	fcmp	d4, d1
	//ARITH_FENCE
	fccmp	d5, d1, #0, eq
	b.ne	.LBB93_4
// %bb.8:                               // %"curves::curve::bad_knot.exit.i.i.i.i.i.i"
                                        //   in Loop: Header=BB93_7 Depth=1
	fmov	d4, d2
	//ARITH_FENCE
	//ARITH_FENCE
	fcmp	d4, d1
	cset	w12, mi
	fcmp	d3, d4
	//APP
	//NO_APP
	cset	w13, pl
	//APP
	//NO_APP
	orr	w12, w12, w13
	cbnz	w12, .LBB93_4
// %bb.9:                               // %join.10.i.i.i.i.i
                                        //   in Loop: Header=BB93_7 Depth=1
	fmov	d3, d2
	mov	x12, #4294967296                // =0x100000000
	subs	x11, x11, #1
	add	x8, x8, x12
	b.ne	.LBB93_7
	b	.LBB93_16
.LBB93_10:                              // %join.3.i.i.i.i.i
	ldr	d2, [x2]
	fsub	d2, d2, d2
	//ARITH_FENCE
	fcmp	d2, d1
	b.ne	.LBB93_6
// %bb.11:                              // %join.6.i.i.i.i.i
	add	x10, x0, x1, lsl #3
	ldur	d2, [x10, #-8]
	mov	x10, #9218868437227405312       // =0x7ff0000000000000
	fmov	d3, x10
	//ARITH_FENCE
	//ARITH_FENCE
	fcmp	d2, d3
	cset	w10, mi
	//APP
	//NO_APP
	cbz	w10, .LBB93_6
// %bb.12:                              // %then.7.i.i.i.i.i
	cmp	x1, #2
	b.lo	.LBB93_16
// %bb.13:                              // %join.5.i.i.i.i.i.i.preheader
	add	x9, x9, x12
	add	x11, x8, x11
	mov	x10, xzr
	sub	x8, x1, #1
	add	x9, x9, #8
	add	x11, x11, #8
.LBB93_14:                              // %join.5.i.i.i.i.i.i
                                        // =>This Inner Loop Header: Depth=1
	ldp	d2, d3, [x11, #-8]
	add	x11, x11, #8
	//ARITH_FENCE
	//ARITH_FENCE
	fcmp	d2, d3
	ldr	d2, [x9], #8
	fsub	d2, d2, d2
	cset	w12, pl
	//APP
	//NO_APP
	cmp	w12, #0
	cinc	x10, x10, ne
	//ARITH_FENCE
	fcmp	d2, d1
	cinc	x10, x10, ne
	subs	x8, x8, #1
	b.ne	.LBB93_14
// %bb.15:                              // %"curves::curve::all_in_order.exit.i.i.i.i"
	cbnz	x10, .LBB93_6
.LBB93_16:                              // %arm.1.i.i.i
	fsub	d2, d0, d0
	//ARITH_FENCE
	fcmp	d2, d1
	b.eq	.LBB93_18
// %bb.17:
	mov	w8, #6                          // =0x6
	and	x8, x8, #0xffffffff000000ff
	add	x0, x8, #1
	ldr	x19, [sp, #16]                  // 8-byte Reload
	ldp	x29, x30, [sp], #32             // 16-byte Folded Reload
	ret
.LBB93_18:                              // %arm.2.i1.i
	mov	x3, x1
	mov	x19, x4
	bl	"yield_curve::linear::yield_of"
	mov	x0, xzr
	str	d0, [x19]
	ldr	x19, [sp, #16]                  // 8-byte Reload
	ldp	x29, x30, [sp], #32             // 16-byte Folded Reload
	ret
.Lfunc_end93:
	.size	senyolanda_linear_interpolate, .Lfunc_end93-senyolanda_linear_interpolate
                                        // -- End function
	.section	.rodata.cst16,"aM",@progbits,16
	.p2align	4, 0x0                          // -- Begin function senyolanda_listing
.LCPI94_0:
	.byte	109                             // 0x6d
	.byte	111                             // 0x6f
	.byte	110                             // 0x6e
	.byte	116                             // 0x74
	.byte	104                             // 0x68
	.byte	32                              // 0x20
	.byte	112                             // 0x70
	.byte	97                              // 0x61
	.byte	121                             // 0x79
	.byte	109                             // 0x6d
	.byte	101                             // 0x65
	.byte	110                             // 0x6e
	.byte	116                             // 0x74
	.byte	32                              // 0x20
	.byte	112                             // 0x70
	.byte	114                             // 0x72
.LCPI94_1:
	.byte	105                             // 0x69
	.byte	110                             // 0x6e
	.byte	99                              // 0x63
	.byte	105                             // 0x69
	.byte	112                             // 0x70
	.byte	97                              // 0x61
	.byte	108                             // 0x6c
	.byte	32                              // 0x20
	.byte	105                             // 0x69
	.byte	110                             // 0x6e
	.byte	116                             // 0x74
	.byte	101                             // 0x65
	.byte	114                             // 0x72
	.byte	101                             // 0x65
	.byte	115                             // 0x73
	.byte	116                             // 0x74
.LCPI94_3:
	.xword	-4                              // 0xfffffffffffffffc
	.xword	0                               // 0x0
.LCPI94_4:
	.xword	-12                             // 0xfffffffffffffff4
	.xword	-8                              // 0xfffffffffffffff8
.LCPI94_5:
	.xword	-20                             // 0xffffffffffffffec
	.xword	-16                             // 0xfffffffffffffff0
.LCPI94_6:
	.xword	-28                             // 0xffffffffffffffe4
	.xword	-24                             // 0xffffffffffffffe8
.LCPI94_7:
	.xword	-36                             // 0xffffffffffffffdc
	.xword	-32                             // 0xffffffffffffffe0
.LCPI94_8:
	.xword	-44                             // 0xffffffffffffffd4
	.xword	-40                             // 0xffffffffffffffd8
.LCPI94_9:
	.xword	-52                             // 0xffffffffffffffcc
	.xword	-48                             // 0xffffffffffffffd0
.LCPI94_10:
	.xword	0                               // 0x0
	.xword	-56                             // 0xffffffffffffffc8
.LCPI94_11:
	.xword	-1                              // 0xffffffffffffffff
	.xword	15                              // 0xf
.LCPI94_12:
	.xword	-6917529027641081856            // 0xa000000000000000
	.xword	10                              // 0xa
	.section	.rodata.cst8,"aM",@progbits,8
	.p2align	3, 0x0
.LCPI94_2:
	.byte	32                              // 0x20
	.byte	98                              // 0x62
	.byte	97                              // 0x61
	.byte	108                             // 0x6c
	.byte	97                              // 0x61
	.byte	110                             // 0x6e
	.byte	99                              // 0x63
	.byte	101                             // 0x65
.LCPI94_13:
	.byte	114                             // 0x72
	.byte	111                             // 0x6f
	.byte	119                             // 0x77
	.byte	115                             // 0x73
	.zero	1
	.zero	1
	.zero	1
	.zero	1
.LCPI94_14:
	.byte	32                              // 0x20
	.byte	108                             // 0x6c
	.byte	101                             // 0x65
	.byte	102                             // 0x66
	.byte	116                             // 0x74
	.byte	32                              // 0x20
	.byte	48                              // 0x30
	.byte	10                              // 0xa
	.section	.text.senyolanda_listing,"ax",@progbits
	.globl	senyolanda_listing
	.p2align	2
	.type	senyolanda_listing,@function
senyolanda_listing:                     // @senyolanda_listing
// %bb.0:                               // %start
	stp	d15, d14, [sp, #-160]!          // 16-byte Folded Spill
	stp	d13, d12, [sp, #16]             // 16-byte Folded Spill
	stp	d11, d10, [sp, #32]             // 16-byte Folded Spill
	stp	d9, d8, [sp, #48]               // 16-byte Folded Spill
	stp	x29, x30, [sp, #64]             // 16-byte Folded Spill
	add	x29, sp, #64
	stp	x28, x27, [sp, #80]             // 16-byte Folded Spill
	stp	x26, x25, [sp, #96]             // 16-byte Folded Spill
	stp	x24, x23, [sp, #112]            // 16-byte Folded Spill
	stp	x22, x21, [sp, #128]            // 16-byte Folded Spill
	stp	x20, x19, [sp, #144]            // 16-byte Folded Spill
	sub	sp, sp, #864
	mov	w8, #4096                       // =0x1000
	cmp	x0, #0
	str	wzr, [sp, #232]
	csel	x8, x8, xzr, eq
	cmp	x1, #21
	str	xzr, [sp, #224]
	b.ne	.LBB94_7
// %bb.1:                               // %"records::record::bad_record.exit.i.i.i.i.i"
	add	x8, x0, x8
	ldrb	w9, [x8]
	cmp	w9, #1
	b.ne	.LBB94_7
// %bb.2:                               // %arm.1.i.i
	ldur	x9, [x8, #1]
	mov	x12, #9221120237041090560       // =0x7ff8000000000000
	ldur	x10, [x8, #9]
	fmov	d1, x12
	ldur	w24, [x8, #17]
	mov	x19, x3
	fmov	d0, x9
	and	x11, x9, #0x7fffffffffffffff
	mov	x9, #9218868437227405312        // =0x7ff0000000000000
	cmp	x11, x9
	and	x11, x10, #0x7fffffffffffffff
	mov	x20, x2
	fcsel	d2, d1, d0, hi
	fmov	d0, x10
	cmp	x11, x9
	fcsel	d8, d1, d0, hi
	fmov	d0, #12.00000000
	fmov	x9, d2
	stur	d2, [sp, #228]
	fmov	d2, #1.00000000
	fmov	d1, #1.00000000
	ldr	x10, [sp, #224]
	fdiv	d0, d8, d0
	lsr	x9, x9, #32
	extr	x8, x9, x10, #32
	cbz	w24, .LBB94_5
// %bb.3:                               // %join.5.i.preheader.i.i.i.i.i
	fmov	d3, #1.00000000
	mov	w9, w24
	fadd	d4, d0, d3
.LBB94_4:                               // %join.5.i.i.i.i.i.i
                                        // =>This Inner Loop Header: Depth=1
	tst	w9, #0x1
	lsr	w9, w9, #1
	fcsel	d5, d3, d4, eq
	fmul	d4, d4, d4
	fmul	d1, d1, d5
	cbnz	w9, .LBB94_4
.LBB94_5:                               // %"mortgage::payment::growth.exit.i.i.i.i"
	fmov	d3, d1
	//ARITH_FENCE
	fmov	d9, x8
	//ARITH_FENCE
	fcmp	d3, d2
	b.ne	.LBB94_10
// %bb.6:                               // %then.1.i.i.i.i.i
	ucvtf	d0, w24
	//ARITH_FENCE
	fdiv	d10, d9, d0
	b	.LBB94_11
.LBB94_7:                               // %"listing::list_loan.exit.thread.i"
	mov	w8, #10                         // =0xa
	strb	w8, [sp, #224]
	ldr	x8, [sp, #224]
.LBB94_8:                               // %arm.1.i2.i
	and	x8, x8, #0xffffffff000000ff
	add	x0, x8, #1
.LBB94_9:                               // %"senyolanda::loans::senyolanda_listing.exit"
	add	sp, sp, #864
	ldp	x20, x19, [sp, #144]            // 16-byte Folded Reload
	ldp	x22, x21, [sp, #128]            // 16-byte Folded Reload
	ldp	x24, x23, [sp, #112]            // 16-byte Folded Reload
	ldp	x26, x25, [sp, #96]             // 16-byte Folded Reload
	ldp	x28, x27, [sp, #80]             // 16-byte Folded Reload
	ldp	x29, x30, [sp, #64]             // 16-byte Folded Reload
	ldp	d9, d8, [sp, #48]               // 16-byte Folded Reload
	ldp	d11, d10, [sp, #32]             // 16-byte Folded Reload
	ldp	d13, d12, [sp, #16]             // 16-byte Folded Reload
	ldp	d15, d14, [sp], #160            // 16-byte Folded Reload
	ret
.LBB94_10:                              // %join.3.i.i.i.i.i
	fmul	d0, d0, d9
	fmov	d2, #-1.00000000
	fmul	d0, d0, d1
	fadd	d1, d1, d2
	fdiv	d10, d0, d1
.LBB94_11:                              // %"mortgage::payment::worked_out.exit.i.i.i"
	movi	d0, #0000000000000000
	fmov	d1, d9
	mov	x8, xzr
	//ARITH_FENCE
	//ARITH_FENCE
	fcmp	d1, d0
	cset	w9, mi
	//APP
	//NO_APP
	cbnz	w9, .LBB94_8
// %bb.12:                              // %"mortgage::payment::worked_out.exit.i.i.i"
	fsub	d1, d9, d9
	//ARITH_FENCE
	fcmp	d1, d0
	b.ne	.LBB94_8
// %bb.13:                              // %join.3.i.i5.i.i.i
	sub	w8, w24, #1201
	cmn	w8, #1200
	b.hs	.LBB94_15
// %bb.14:
	mov	w8, #1                          // =0x1
	b	.LBB94_8
.LBB94_15:                              // %arm.6.i.i
	adrp	x8, .LCPI94_0
	mov	w26, wzr
	mov	w28, wzr
	ldr	q0, [x8, :lo12:.LCPI94_0]
	adrp	x8, .LCPI94_1
	mov	w21, wzr
	ldr	q1, [x8, :lo12:.LCPI94_1]
	adrp	x8, .LCPI94_2
	mov	w25, wzr
	ldr	d2, [x8, :lo12:.LCPI94_2]
	mov	w27, wzr
	mov	w8, #10                         // =0xa
	sub	x22, x20, #1
	mov	w23, #41                        // =0x29
	stp	q0, q1, [x20]
	str	d2, [x20, #32]
	strb	w8, [x20, #40]
	b	.LBB94_18
.LBB94_16:                              // %"listing::portions::put_rows.exit.i.i.i.i.i"
                                        //   in Loop: Header=BB94_18 Depth=1
	ldp	w25, w24, [x29, #-116]
	ldp	d8, d10, [x29, #-104]
	add	w21, w8, w21
	ldp	w27, w28, [x29, #-88]
	ldur	w26, [x29, #-108]
	ldur	d9, [x29, #-80]
.LBB94_17:                              // %"listing::portions::put_portion.exit.i.i.i.i"
                                        //   in Loop: Header=BB94_18 Depth=1
	cbz	w25, .LBB94_28
.LBB94_18:                              // %loop.2.i.i.i.i
                                        // =>This Loop Header: Depth=1
                                        //     Child Loop BB94_22 Depth 2
                                        //       Child Loop BB94_24 Depth 3
                                        //       Child Loop BB94_27 Depth 3
	movi	v0.2d, #0000000000000000
	adrp	x3, .Lstatic.2
	add	x3, x3, :lo12:.Lstatic.2
	sub	x0, x29, #128
	sub	x1, x29, #208
	sub	x2, x29, #168
	add	x5, sp, #240
	mov	w4, #1                          // =0x1
	mov	w6, #60                         // =0x3c
	stp	w24, w26, [x29, #-168]
	stp	q0, q0, [sp, #240]
	stp	q0, q0, [sp, #272]
	stp	q0, q0, [sp, #304]
	stp	q0, q0, [sp, #336]
	stp	q0, q0, [sp, #368]
	stp	q0, q0, [sp, #400]
	stp	q0, q0, [sp, #432]
	stp	q0, q0, [sp, #464]
	stp	q0, q0, [sp, #496]
	stp	q0, q0, [sp, #528]
	stp	q0, q0, [sp, #560]
	stp	q0, q0, [sp, #592]
	stp	q0, q0, [sp, #624]
	stp	q0, q0, [sp, #656]
	stp	q0, q0, [sp, #688]
	stp	d8, d10, [x29, #-160]
	stur	d9, [x29, #-136]
	stp	w27, w28, [x29, #-144]
	stp	q0, q0, [x29, #-128]
	stur	q0, [x29, #-96]
	stur	xzr, [x29, #-80]
	stp	q0, q0, [x29, #-208]
	bl	"mortgage::draws::draw_kind"
	ldurb	w8, [x29, #-128]
	cbnz	w8, .LBB94_17
// %bb.19:                              // %arm.3.i.i.i.i.i
                                        //   in Loop: Header=BB94_18 Depth=1
	ldur	w8, [x29, #-120]
	cbz	w8, .LBB94_16
// %bb.20:                              // %join.5.lr.ph.i.i.i.i.i.i
                                        //   in Loop: Header=BB94_18 Depth=1
	mov	x9, xzr
	add	w10, w27, #1
	b	.LBB94_22
.LBB94_21:                              // %"listing::lines::put_row.exit.i.i.i.i.i.i"
                                        //   in Loop: Header=BB94_22 Depth=2
	mov	w12, #40                        // =0x28
	add	x13, sp, #240
	mov	w16, #15                        // =0xf
	madd	x14, x9, x12, x13
	mov	x13, #9221120237041090560       // =0x7ff8000000000000
	adrp	x17, .LCPI94_5
	ldr	q3, [x17, :lo12:.LCPI94_5]
	adrp	x17, .LCPI94_8
	add	x11, x11, x23
	ldr	q6, [x17, :lo12:.LCPI94_8]
	adrp	x17, .LCPI94_11
	add	x9, x9, #1
	ldr	q18, [x17, :lo12:.LCPI94_11]
	str	q3, [sp, #96]                   // 16-byte Spill
	add	x23, x11, #69
	str	q6, [sp, #208]                  // 16-byte Spill
	ldp	d0, d16, [x14, #8]
	str	q18, [sp]                       // 16-byte Spill
	fmov	d1, d0
	fmov	x12, d0
	dup	v0.2d, x16
	adrp	x16, .LCPI94_4
	fmov	x18, d16
	//ARITH_FENCE
	ldr	q2, [x16, :lo12:.LCPI94_4]
	adrp	x16, .LCPI94_7
	ldr	q5, [x16, :lo12:.LCPI94_7]
	adrp	x16, .LCPI94_10
	//ARITH_FENCE
	fcmp	d1, d1
	ldr	q19, [x16, :lo12:.LCPI94_10]
	str	q2, [sp, #48]                   // 16-byte Spill
	csel	x15, x13, x12, vs
	adrp	x12, .LCPI94_3
	fcmp	d16, d16
	dup	v20.2d, x15
	ldr	q1, [x12, :lo12:.LCPI94_3]
	adrp	x12, .LCPI94_6
	ldr	q4, [x12, :lo12:.LCPI94_6]
	adrp	x12, .LCPI94_9
	lsr	x15, x15, #60
	ldr	q7, [x12, :lo12:.LCPI94_9]
	adrp	x12, .LCPI94_12
	csel	x16, x13, x18, vs
	ushl	v21.2d, v20.2d, v1.2d
	ushl	v26.2d, v20.2d, v2.2d
	ldr	q17, [x12, :lo12:.LCPI94_12]
	mov	w12, #10                        // =0xa
	ushl	v23.2d, v20.2d, v5.2d
	ushl	v24.2d, v20.2d, v6.2d
	dup	v16.2d, x12
	ushl	v22.2d, v20.2d, v19.2d
	ushl	v25.2d, v20.2d, v7.2d
	and	v26.16b, v26.16b, v0.16b
	and	v21.16b, v21.16b, v0.16b
	ushl	v27.2d, v20.2d, v4.2d
	ushl	v20.2d, v20.2d, v3.2d
	dup	v28.2d, x16
	and	v24.16b, v24.16b, v0.16b
	and	v23.16b, v23.16b, v0.16b
	and	v22.16b, v22.16b, v18.16b
	stp	q7, q4, [sp, #16]               // 32-byte Folded Spill
	cmhi	v11.2d, v16.2d, v21.2d
	cmhi	v12.2d, v16.2d, v26.2d
	stp	q1, q5, [sp, #64]               // 32-byte Folded Spill
	and	v27.16b, v27.16b, v0.16b
	and	v20.16b, v20.16b, v0.16b
	ushl	v29.2d, v28.2d, v1.2d
	cmhi	v15.2d, v16.2d, v23.2d
	cmhi	v1.2d, v16.2d, v24.2d
	ushl	v30.2d, v28.2d, v2.2d
	uzp1	v26.4s, v26.4s, v21.4s
	cmhi	v21.2d, v17.2d, v22.2d
	mov	v22.d[0], x15
	uzp1	v2.4s, v12.4s, v11.4s
	and	v25.16b, v25.16b, v0.16b
	ushl	v31.2d, v28.2d, v3.2d
	ushl	v8.2d, v28.2d, v4.2d
	ushl	v9.2d, v28.2d, v5.2d
	ushl	v10.2d, v28.2d, v6.2d
	cmhi	v13.2d, v16.2d, v20.2d
	cmhi	v14.2d, v16.2d, v27.2d
	uzp1	v24.4s, v24.4s, v23.4s
	uzp1	v23.4s, v1.4s, v15.4s
	ushl	v1.2d, v28.2d, v7.2d
	ushl	v28.2d, v28.2d, v19.2d
	uzp1	v27.4s, v27.4s, v20.4s
	cmhi	v20.2d, v16.2d, v25.2d
	str	q2, [sp, #192]                  // 16-byte Spill
	uzp1	v22.4s, v22.4s, v25.4s
	ldp	d2, d25, [x14, #24]
	uzp1	v11.4s, v14.4s, v13.4s
	and	v12.16b, v30.16b, v0.16b
	and	v13.16b, v29.16b, v0.16b
	and	v29.16b, v1.16b, v0.16b
	and	v30.16b, v28.16b, v18.16b
	and	v8.16b, v8.16b, v0.16b
	fmov	d1, d2
	and	v31.16b, v31.16b, v0.16b
	str	q17, [sp, #112]                 // 16-byte Spill
	and	v4.16b, v10.16b, v0.16b
	cmhi	v28.2d, v16.2d, v13.2d
	cmhi	v10.2d, v16.2d, v12.2d
	cmhi	v5.2d, v16.2d, v29.2d
	cmhi	v3.2d, v17.2d, v30.2d
	uzp1	v17.4s, v21.4s, v20.4s
	uzp1	v20.8h, v27.8h, v26.8h
	cmhi	v14.2d, v16.2d, v31.2d
	cmhi	v15.2d, v16.2d, v8.2d
	//ARITH_FENCE
	fcmp	d1, d1
	and	v9.16b, v9.16b, v0.16b
	uzp1	v26.4s, v10.4s, v28.4s
	uzp1	v3.4s, v3.4s, v5.4s
	ldr	q5, [sp, #192]                  // 16-byte Reload
	uzp1	v1.8h, v22.8h, v24.8h
	uzp1	v27.4s, v15.4s, v14.4s
	cmhi	v6.2d, v16.2d, v4.2d
	fmov	x14, d2
	uzp1	v5.8h, v11.8h, v5.8h
	cmhi	v7.2d, v16.2d, v9.2d
	mov	v15.16b, v19.16b
	lsr	x15, x16, #60
	uzp1	v14.4s, v8.4s, v31.4s
	ldr	q22, [sp]                       // 16-byte Reload
	uzp1	v1.16b, v1.16b, v20.16b
	csel	x14, x13, x14, vs
	uzp1	v2.4s, v6.4s, v7.4s
	mov	v30.d[0], x15
	fmov	x15, d25
	str	q5, [sp, #176]                  // 16-byte Spill
	uzp1	v5.8h, v17.8h, v23.8h
	//ARITH_FENCE
	fcmp	d25, d25
	ldp	q21, q23, [sp, #16]             // 32-byte Folded Reload
	stp	q5, q1, [sp, #128]              // 32-byte Folded Spill
	uzp1	v1.8h, v27.8h, v26.8h
	uzp1	v26.4s, v4.4s, v9.4s
	ldp	q20, q18, [sp, #80]             // 32-byte Folded Reload
	uzp1	v27.4s, v12.4s, v13.4s
	dup	v5.2d, x14
	uzp1	v30.4s, v30.4s, v29.4s
	csel	x13, x13, x15, vs
	lsr	x14, x14, #60
	cmp	x9, x8
	str	q1, [sp, #192]                  // 16-byte Spill
	uzp1	v1.8h, v3.8h, v2.8h
	ushl	v2.2d, v5.2d, v19.2d
	ldp	q19, q28, [sp, #48]             // 32-byte Folded Reload
	ushl	v6.2d, v5.2d, v23.2d
	ushl	v17.2d, v5.2d, v18.2d
	ushl	v29.2d, v5.2d, v20.2d
	uzp1	v24.8h, v14.8h, v27.8h
	dup	v14.2d, x13
	uzp1	v30.8h, v30.8h, v26.8h
	ushl	v3.2d, v5.2d, v28.2d
	ushl	v4.2d, v5.2d, v19.2d
	str	q1, [sp, #160]                  // 16-byte Spill
	ldr	q1, [sp, #208]                  // 16-byte Reload
	and	v31.16b, v2.16b, v22.16b
	and	v2.16b, v6.16b, v0.16b
	and	v6.16b, v17.16b, v0.16b
	and	v17.16b, v29.16b, v0.16b
	lsr	x13, x13, #60
	ushl	v1.2d, v5.2d, v1.2d
	and	v4.16b, v4.16b, v0.16b
	and	v3.16b, v3.16b, v0.16b
	ushl	v5.2d, v5.2d, v21.2d
	cmhi	v11.2d, v16.2d, v2.2d
	cmhi	v10.2d, v16.2d, v6.2d
	uzp1	v2.4s, v2.4s, v6.4s
	ushl	v6.2d, v14.2d, v19.2d
	and	v7.16b, v1.16b, v0.16b
	cmhi	v8.2d, v16.2d, v3.2d
	cmhi	v9.2d, v16.2d, v4.2d
	ldr	q1, [sp, #112]                  // 16-byte Reload
	and	v5.16b, v5.16b, v0.16b
	cmhi	v12.2d, v16.2d, v17.2d
	uzp1	v27.4s, v11.4s, v10.4s
	ushl	v10.2d, v14.2d, v21.2d
	and	v6.16b, v6.16b, v0.16b
	cmhi	v29.2d, v1.2d, v31.2d
	mov	v31.d[0], x14
	uzp1	v26.4s, v9.4s, v8.4s
	uzp1	v8.4s, v4.4s, v3.4s
	ushl	v3.2d, v14.2d, v15.2d
	cmhi	v13.2d, v16.2d, v7.2d
	uzp1	v9.4s, v7.4s, v17.4s
	ushl	v7.2d, v14.2d, v18.2d
	ldr	q18, [sp, #208]                 // 16-byte Reload
	cmhi	v4.2d, v16.2d, v5.2d
	ushl	v17.2d, v14.2d, v23.2d
	cmhi	v11.2d, v16.2d, v6.2d
	uzp1	v25.4s, v31.4s, v5.4s
	ushl	v19.2d, v14.2d, v18.2d
	ushl	v31.2d, v14.2d, v20.2d
	and	v3.16b, v3.16b, v22.16b
	ushl	v5.2d, v14.2d, v28.2d
	and	v7.16b, v7.16b, v0.16b
	and	v17.16b, v17.16b, v0.16b
	uzp1	v13.4s, v13.4s, v12.4s
	uzp1	v2.8h, v2.8h, v8.8h
	and	v18.16b, v19.16b, v0.16b
	and	v19.16b, v31.16b, v0.16b
	mov	w14, #32                        // =0x20
	cmhi	v31.2d, v1.2d, v3.2d
	mov	v3.d[0], x13
	and	v5.16b, v5.16b, v0.16b
	and	v0.16b, v10.16b, v0.16b
	cmhi	v12.2d, v16.2d, v7.2d
	uzp1	v7.4s, v17.4s, v7.4s
	uzp1	v1.8h, v25.8h, v9.8h
	add	x13, x20, x11
	cmhi	v10.2d, v16.2d, v5.2d
	uzp1	v5.4s, v6.4s, v5.4s
	cmhi	v6.2d, v16.2d, v17.2d
	cmhi	v17.2d, v16.2d, v19.2d
	uzp1	v19.4s, v18.4s, v19.4s
	cmhi	v18.2d, v16.2d, v18.2d
	cmhi	v16.2d, v16.2d, v0.2d
	uzp1	v0.4s, v3.4s, v0.4s
	uzp1	v3.4s, v29.4s, v4.4s
	uzp1	v8.4s, v11.4s, v10.4s
	uzp1	v6.4s, v6.4s, v12.4s
	movi	v4.16b, #48
	uzp1	v17.4s, v18.4s, v17.4s
	uzp1	v5.8h, v7.8h, v5.8h
	movi	v29.16b, #87
	uzp1	v16.4s, v31.4s, v16.4s
	uzp1	v18.16b, v30.16b, v24.16b
	uzp1	v0.8h, v0.8h, v19.8h
	ldp	q19, q20, [sp, #128]            // 32-byte Folded Reload
	uzp1	v3.8h, v3.8h, v13.8h
	uzp1	v6.8h, v6.8h, v8.8h
	uzp1	v1.16b, v1.16b, v2.16b
	ldp	q7, q2, [sp, #176]              // 32-byte Folded Reload
	strb	w14, [x13]
	uzp1	v7.16b, v19.16b, v7.16b
	uzp1	v19.8h, v27.8h, v26.8h
	uzp1	v16.8h, v16.8h, v17.8h
	uzp1	v0.16b, v0.16b, v5.16b
	orr	v22.16b, v20.16b, v4.16b
	add	v21.16b, v20.16b, v29.16b
	ldr	q20, [sp, #160]                 // 16-byte Reload
	orr	v17.16b, v18.16b, v4.16b
	add	v18.16b, v18.16b, v29.16b
	strb	w14, [x13, #17]
	uzp1	v2.16b, v20.16b, v2.16b
	uzp1	v3.16b, v3.16b, v19.16b
	uzp1	v6.16b, v16.16b, v6.16b
	mov	v5.16b, v7.16b
	orr	v7.16b, v1.16b, v4.16b
	add	v1.16b, v1.16b, v29.16b
	orr	v4.16b, v0.16b, v4.16b
	add	v0.16b, v0.16b, v29.16b
	strb	w14, [x13, #34]
	strb	w14, [x13, #51]
	bsl	v5.16b, v22.16b, v21.16b
	bsl	v2.16b, v17.16b, v18.16b
	bit	v1.16b, v7.16b, v3.16b
	bit	v0.16b, v4.16b, v6.16b
	strb	w12, [x13, #68]
	stur	q5, [x13, #1]
	stur	q2, [x13, #18]
	stur	q1, [x13, #35]
	stur	q0, [x13, #52]
	b.eq	.LBB94_16
.LBB94_22:                              // %join.5.i.i.i.i11.i.i
                                        //   Parent Loop BB94_18 Depth=1
                                        // =>  This Loop Header: Depth=2
                                        //       Child Loop BB94_24 Depth 3
                                        //       Child Loop BB94_27 Depth 3
	add	w12, w10, w9
	mov	w11, #1                         // =0x1
	cmp	w12, #10
	b.lo	.LBB94_26
// %bb.23:                              // %join.5.i.i.i.i.i.i.i.i.i.preheader
                                        //   in Loop: Header=BB94_22 Depth=2
	mov	w13, w12
.LBB94_24:                              // %join.5.i.i.i.i.i.i.i.i.i
                                        //   Parent Loop BB94_18 Depth=1
                                        //     Parent Loop BB94_22 Depth=2
                                        // =>    This Inner Loop Header: Depth=3
	mov	w14, #52429                     // =0xcccd
                                        // kill: def $w13 killed $w13 killed $x13
	cmp	w13, #99
	add	x11, x11, #1
	movk	w14, #52428, lsl #16
	umull	x14, w13, w14
	lsr	x13, x14, #35
	b.hi	.LBB94_24
// %bb.25:                              // %"listing::text::decimal_size.exit.i.i.i.i.i.i.i.i"
                                        //   in Loop: Header=BB94_22 Depth=2
	cbz	x11, .LBB94_21
.LBB94_26:                              // %ok.7.lr.ph.i.i.i.i.i.i.i.i.i
                                        //   in Loop: Header=BB94_22 Depth=2
	add	x13, x22, x23
	mov	x14, x11
.LBB94_27:                              // %ok.7.i.i.i.i.i.i.i.i.i
                                        //   Parent Loop BB94_18 Depth=1
                                        //     Parent Loop BB94_22 Depth=2
                                        // =>    This Inner Loop Header: Depth=3
	mov	w15, w12
	mov	w12, #52429                     // =0xcccd
	mov	w16, #10                        // =0xa
	movk	w12, #52428, lsl #16
	umull	x12, w15, w12
	lsr	x12, x12, #35
	msub	w15, w12, w16, w15
	mov	x16, x14
	subs	x14, x14, #1
	orr	w15, w15, #0x30
	strb	w15, [x13, x16]
	b.ne	.LBB94_27
	b	.LBB94_21
.LBB94_28:                              // %"listing::portions::put_all.exit.i.i.i"
	adrp	x8, .LCPI94_13
	add	x10, x20, x23
	cmp	w21, #10
	ldr	d0, [x8, :lo12:.LCPI94_13]
	mov	w8, #32                         // =0x20
	mov	w9, #1                          // =0x1
	strb	w8, [x10, #4]
	add	x8, x23, #5
	str	s0, [x10]
	b.lo	.LBB94_32
// %bb.29:                              // %join.5.i.i.i.i.i.i.i.preheader
	mov	w11, w21
.LBB94_30:                              // %join.5.i.i.i.i.i.i.i
                                        // =>This Inner Loop Header: Depth=1
	mov	w12, #52429                     // =0xcccd
                                        // kill: def $w11 killed $w11 killed $x11
	cmp	w11, #99
	add	x9, x9, #1
	movk	w12, #52428, lsl #16
	umull	x12, w11, w12
	lsr	x11, x12, #35
	b.hi	.LBB94_30
// %bb.31:                              // %"listing::text::decimal_size.exit.i.i.i.i.i.i"
	cbz	x9, .LBB94_34
.LBB94_32:                              // %ok.7.lr.ph.i.i.i.i.i.i.i
	add	x10, x10, #4
	mov	x11, x9
.LBB94_33:                              // %ok.7.i.i.i.i.i.i.i
                                        // =>This Inner Loop Header: Depth=1
	mov	w13, #52429                     // =0xcccd
	mov	w12, w21
	movk	w13, #52428, lsl #16
	umull	x13, w21, w13
	lsr	x21, x13, #35
	mov	w13, #10                        // =0xa
	msub	w12, w21, w13, w12
	mov	x13, x11
	subs	x11, x11, #1
	orr	w12, w12, #0x30
	strb	w12, [x10, x13]
	b.ne	.LBB94_33
.LBB94_34:                              // %arm.2.i1.i
	adrp	x10, .LCPI94_14
	add	x8, x9, x8
	mov	x0, xzr
	ldr	d0, [x10, :lo12:.LCPI94_14]
	add	w9, w8, #8
	str	d0, [x20, x8]
	str	w9, [x19]
	b	.LBB94_9
.Lfunc_end94:
	.size	senyolanda_listing, .Lfunc_end94-senyolanda_listing
                                        // -- End function
	.section	.text.senyolanda_ln,"ax",@progbits
	.globl	senyolanda_ln                   // -- Begin function senyolanda_ln
	.p2align	2
	.type	senyolanda_ln,@function
senyolanda_ln:                          // @senyolanda_ln
// %bb.0:                               // %start
	stp	x29, x30, [sp, #-32]!           // 16-byte Folded Spill
	str	x19, [sp, #16]                  // 8-byte Spill
	mov	x29, sp
	mov	x19, x0
	bl	"elementary::ln::ln"
	str	d0, [x19]
	ldr	x19, [sp, #16]                  // 8-byte Reload
	mov	x0, xzr
	ldp	x29, x30, [sp], #32             // 16-byte Folded Reload
	ret
.Lfunc_end95:
	.size	senyolanda_ln, .Lfunc_end95-senyolanda_ln
                                        // -- End function
	.section	.text.senyolanda_ltv,"ax",@progbits
	.globl	senyolanda_ltv                  // -- Begin function senyolanda_ltv
	.p2align	2
	.type	senyolanda_ltv,@function
senyolanda_ltv:                         // @senyolanda_ltv
// %bb.0:                               // %start
	cmp	x0, #0
	mov	w8, #4096                       // =0x1000
	csel	x8, x8, xzr, eq
	cmp	x1, #21
	b.ne	.LBB96_4
// %bb.1:                               // %"records::record::bad_record.exit.i.i.i.i"
	add	x8, x0, x8
	ldrb	w9, [x8]
	cmp	w9, #1
	b.ne	.LBB96_4
// %bb.2:                               // %arm.2.i
	ldur	x9, [x8, #1]
	mov	x12, #9221120237041090560       // =0x7ff8000000000000
	mov	x11, #9218868437227405312       // =0x7ff0000000000000
	fmov	d2, x12
	fmov	d1, x9
	and	x10, x9, #0x7fffffffffffffff
	cmp	x10, x11
	fcsel	d1, d2, d1, hi
	movi	d2, #0000000000000000
	fmov	d3, d1
	//ARITH_FENCE
	//ARITH_FENCE
	fcmp	d3, d2
	fsub	d3, d1, d1
	cset	w9, mi
	//APP
	//NO_APP
	cmp	w9, #0
	//ARITH_FENCE
	fccmp	d3, d2, #0, eq
	b.eq	.LBB96_5
// %bb.3:
	mov	w0, #1                          // =0x1
	ret
.LBB96_4:
	mov	w0, #11                         // =0xb
	ret
.LBB96_5:                               // %join.3.i.i.i
	ldur	w8, [x8, #17]
	sub	w8, w8, #1201
	cmn	w8, #1200
	b.hs	.LBB96_7
// %bb.6:
	mov	w0, #2                          // =0x2
	ret
.LBB96_7:                               // %arm.1.i.i
	fdiv	d1, d1, d0
	//ARITH_FENCE
	mov	x8, #9218868437227405312        // =0x7ff0000000000000
	fcmp	d0, d2
	fmov	d0, x8
	mov	x0, xzr
	fcsel	d0, d0, d1, eq
	str	d0, [x2]
	ret
.Lfunc_end96:
	.size	senyolanda_ltv, .Lfunc_end96-senyolanda_ltv
                                        // -- End function
	.section	.text.senyolanda_monthly_payment,"ax",@progbits
	.globl	senyolanda_monthly_payment      // -- Begin function senyolanda_monthly_payment
	.p2align	2
	.type	senyolanda_monthly_payment,@function
senyolanda_monthly_payment:             // @senyolanda_monthly_payment
// %bb.0:                               // %start
	mov	w8, #4096                       // =0x1000
	cmp	x0, #0
	csel	x8, x8, xzr, eq
	cmp	x1, #21
	b.ne	.LBB97_4
// %bb.1:                               // %"records::record::bad_record.exit.i.i.i.i"
	add	x9, x0, x8
	ldrb	w8, [x9]
	cmp	w8, #1
	b.ne	.LBB97_4
// %bb.2:                               // %arm.2.i
	ldur	x8, [x9, #1]
	mov	x12, #9221120237041090560       // =0x7ff8000000000000
	mov	x11, #9218868437227405312       // =0x7ff0000000000000
	fmov	d1, x12
	fmov	d0, x8
	and	x10, x8, #0x7fffffffffffffff
	cmp	x10, x11
	fcsel	d0, d1, d0, hi
	movi	d1, #0000000000000000
	fmov	d2, d0
	//ARITH_FENCE
	//ARITH_FENCE
	fcmp	d2, d1
	fsub	d2, d0, d0
	cset	w8, mi
	//APP
	//NO_APP
	cmp	w8, #0
	//ARITH_FENCE
	fccmp	d2, d1, #0, eq
	b.eq	.LBB97_5
// %bb.3:
	mov	w0, #1                          // =0x1
	ret
.LBB97_4:
	mov	w0, #11                         // =0xb
	ret
.LBB97_5:                               // %join.3.i.i.i
	ldur	w8, [x9, #17]
	sub	w10, w8, #1201
	cmn	w10, #1200
	b.hs	.LBB97_7
// %bb.6:
	mov	w0, #2                          // =0x2
	ret
.LBB97_7:                               // %join.5.i.preheader.i.i.i.i
	ldur	x9, [x9, #9]
	fmov	d1, #12.00000000
	mov	x11, #9221120237041090560       // =0x7ff8000000000000
	mov	x10, #9218868437227405312       // =0x7ff0000000000000
	fmov	d3, #1.00000000
	fmov	d2, x9
	and	x9, x9, #0x7fffffffffffffff
	cmp	x9, x10
	mov	w9, w8
	fdiv	d1, d2, d1
	fmov	d2, x11
	fcsel	d2, d2, d1, hi
	fmov	d1, #1.00000000
	fadd	d4, d2, d3
.LBB97_8:                               // %join.5.i.i.i.i.i
                                        // =>This Inner Loop Header: Depth=1
	tst	w9, #0x1
	lsr	w9, w9, #1
	fcsel	d5, d3, d4, eq
	fmul	d4, d4, d4
	fmul	d1, d1, d5
	cbnz	w9, .LBB97_8
// %bb.9:                               // %"mortgage::payment::growth.exit.i.i.i"
	fmov	d4, d1
	fmov	d3, #1.00000000
	//ARITH_FENCE
	//ARITH_FENCE
	fcmp	d4, d3
	b.ne	.LBB97_11
// %bb.10:                              // %then.1.i.i.i.i
	ucvtf	d1, w8
	//ARITH_FENCE
	fdiv	d0, d0, d1
	mov	x0, xzr
	str	d0, [x2]
	ret
.LBB97_11:                              // %join.3.i.i.i.i
	fmul	d0, d0, d2
	fmov	d2, #-1.00000000
	fmul	d0, d0, d1
	fadd	d1, d1, d2
	fdiv	d0, d0, d1
	mov	x0, xzr
	str	d0, [x2]
	ret
.Lfunc_end97:
	.size	senyolanda_monthly_payment, .Lfunc_end97-senyolanda_monthly_payment
                                        // -- End function
	.section	.text.senyolanda_months_later,"ax",@progbits
	.globl	senyolanda_months_later         // -- Begin function senyolanda_months_later
	.p2align	2
	.type	senyolanda_months_later,@function
senyolanda_months_later:                // @senyolanda_months_later
// %bb.0:                               // %start
	mov	w8, #65536                      // =0x10000
	cmp	w0, #16, lsl #12                // =65536
	orr	w10, w2, w1
	csel	w9, w0, w8, lo
	cmp	w10, #256
	add	w9, w9, w1, lsl #16
	ccmp	w0, w8, #2, lo
	add	w9, w9, w2, lsl #24
	csel	w10, w9, wzr, lo
	ubfx	w8, w10, #16, #8
	and	w9, w10, #0xffff
	cmp	w8, #11
	b.hi	.LBB98_13
// %bb.1:                               // %start
	mov	w11, #1                         // =0x1
	mov	w12, #2640                      // =0xa50
	lsl	w11, w11, w8
	tst	w11, w12
	b.eq	.LBB98_10
// %bb.2:
	mov	w11, #30                        // =0x1e
.LBB98_3:                               // %"dates::calendar::judge_date.exit.i.i"
	cmp	w3, #3599
	b.hi	.LBB98_26
// %bb.4:                               // %"dates::calendar::judge_date.exit.i.i"
	lsr	w10, w10, #24
	sub	w12, w9, #2200
	sub	w13, w8, #13
	cmn	w12, #300
	sub	w12, w10, #1
	ccmn	w13, #12, #0, hs
	ccmp	w12, w11, #2, hs
	b.hs	.LBB98_26
// %bb.5:                               // %join.7.i.i
	mov	w11, #12                        // =0xc
	cmp	w8, #0
	madd	w9, w9, w11, w3
	cset	w12, ne
	sub	w8, w8, w12
	add	w8, w9, w8
	mov	w9, #43691                      // =0xaaab
	movk	w9, #43690, lsl #16
	umull	x9, w8, w9
	lsr	x9, x9, #35
	msub	w8, w9, w11, w8
	cmp	w8, #10
	b.hi	.LBB98_24
// %bb.6:                               // %join.7.i.i
	mov	w11, #1                         // =0x1
	mov	w12, #1320                      // =0x528
	lsl	w11, w11, w8
	tst	w11, w12
	b.eq	.LBB98_14
// %bb.7:
	mov	w11, #30                        // =0x1e
	cmp	w11, w10
	csel	w10, w11, w10, lo
	cmp	w8, #10
	and	w11, w9, #0xffff
	b.hi	.LBB98_25
.LBB98_8:                               // %"dates::months::day_in_month.exit.i.i"
	mov	w12, #1                         // =0x1
	mov	w13, #1320                      // =0x528
	lsl	w12, w12, w8
	tst	w12, w13
	b.eq	.LBB98_18
// %bb.9:
	mov	w12, #30                        // =0x1e
	sub	w11, w11, #1900
	cmp	w11, #299
	b.ls	.LBB98_22
	b	.LBB98_26
.LBB98_10:                              // %start
	cmp	w8, #2
	b.ne	.LBB98_13
// %bb.11:                              // %arm.1.i.i.i.i.i
	tst	w10, #0x3
	mov	w11, #28                        // =0x1c
	b.ne	.LBB98_3
// %bb.12:                              // %then.1.i.i.i.i.i.i
	mov	w12, #23593                     // =0x5c29
	mov	w14, #23592                     // =0x5c28
	movk	w12, #49807, lsl #16
	movk	w14, #655, lsl #16
	mul	w12, w9, w12
	ror	w13, w12, #2
	ror	w12, w12, #4
	cmp	w13, w14
	mov	w13, #55051                     // =0xd70b
	movk	w13, #163, lsl #16
	ccmp	w12, w13, #0, ls
	cset	w12, lo
	tst	w12, #0x1
	cinc	w11, w11, ne
	b	.LBB98_3
.LBB98_13:                              // %default.3.i.i.i.i.i
	mov	w11, #31                        // =0x1f
	b	.LBB98_3
.LBB98_14:                              // %join.7.i.i
	cmp	w8, #1
	b.ne	.LBB98_24
// %bb.15:                              // %arm.1.i.i.i.i
	ands	w13, w9, #0x3
	mov	w11, #28                        // =0x1c
	b.ne	.LBB98_17
// %bb.16:                              // %then.1.i.i.i.i.i
	mov	w12, #23593                     // =0x5c29
	mov	w15, #55051                     // =0xd70b
	movk	w12, #49807, lsl #16
	movk	w15, #163, lsl #16
	mul	w12, w9, w12
	ror	w14, w12, #4
	ror	w12, w12, #2
	cmp	w14, w15
	mov	w14, #23592                     // =0x5c28
	movk	w14, #655, lsl #16
	ccmp	w12, w14, #2, hs
	cinc	w11, w11, hi
.LBB98_17:                              // %"dates::months::day_in_month.exit.thread.i.i"
	cmp	w11, w10
	csel	w10, w11, w10, lo
	and	w11, w9, #0xffff
	mov	w12, #28                        // =0x1c
	cbnz	w13, .LBB98_21
	b	.LBB98_20
.LBB98_18:                              // %"dates::months::day_in_month.exit.i.i"
	cmp	w8, #1
	b.ne	.LBB98_25
// %bb.19:                              // %"dates::months::day_in_month.exit.i.arm.1.i.i.i25.i_crit_edge.i"
	and	w13, w9, #0x3
	mov	w12, #28                        // =0x1c
	cbnz	w13, .LBB98_21
.LBB98_20:                              // %then.1.i.i.i.i28.i.i
	mov	w13, #23593                     // =0x5c29
	mov	w15, #23592                     // =0x5c28
	movk	w13, #49807, lsl #16
	movk	w15, #655, lsl #16
	mul	w13, w11, w13
	ror	w14, w13, #2
	ror	w13, w13, #4
	cmp	w14, w15
	mov	w14, #55051                     // =0xd70b
	movk	w14, #163, lsl #16
	ccmp	w13, w14, #0, ls
	cset	w13, lo
	tst	w13, #0x1
	cinc	w12, w12, ne
.LBB98_21:                              // %"dates::calendar::judge_date.exit37.i.i"
	sub	w11, w11, #1900
	cmp	w11, #299
	b.hi	.LBB98_26
.LBB98_22:                              // %"dates::calendar::judge_date.exit37.i.i"
	sub	w11, w10, #1
	cmp	w11, w12
	b.hs	.LBB98_26
// %bb.23:                              // %arm.2.i7.i
	ubfx	w11, w9, #8, #8
	mov	x0, xzr
	add	w8, w8, #1
	strb	w9, [x4]
	strb	wzr, [x4, #3]
	sturh	w11, [x4, #1]
	stp	w8, w10, [x4, #4]
	ret
.LBB98_24:                              // %default.3.i.i.i.i
	mov	w11, #31                        // =0x1f
	cmp	w11, w10
	csel	w10, w11, w10, lo
	cmp	w8, #10
	and	w11, w9, #0xffff
	b.ls	.LBB98_8
.LBB98_25:                              // %default.3.i.i.i36.i.i
	mov	w12, #31                        // =0x1f
	sub	w11, w11, #1900
	cmp	w11, #299
	b.ls	.LBB98_22
.LBB98_26:                              // %arm.1.i8.i
	sub	sp, sp, #16
	mov	w8, #917504                     // =0xe0000
	strh	wzr, [sp, #8]
	str	w8, [sp, #4]
	stur	wzr, [sp, #10]
	ldur	x8, [sp, #6]
	and	x8, x8, #0xffffffff000000ff
	add	x0, x8, #1
	add	sp, sp, #16
	ret
.Lfunc_end98:
	.size	senyolanda_months_later, .Lfunc_end98-senyolanda_months_later
                                        // -- End function
	.section	.rodata.cst8,"aM",@progbits,8
	.p2align	3, 0x0                          // -- Begin function senyolanda_nelson_siegel_fit
.LCPI99_0:
	.xword	0x3ddb7cdfd9d7bdbb              // double 1.0E-10
.LCPI99_1:
	.xword	0x3d06849b86a12b9b              // double 9.9999999999999999E-15
	.section	.text.senyolanda_nelson_siegel_fit,"ax",@progbits
	.globl	senyolanda_nelson_siegel_fit
	.p2align	2
	.type	senyolanda_nelson_siegel_fit,@function
senyolanda_nelson_siegel_fit:           // @senyolanda_nelson_siegel_fit
// %bb.0:                               // %start
	str	d10, [sp, #-96]!                // 8-byte Folded Spill
	stp	d9, d8, [sp, #16]               // 16-byte Folded Spill
	stp	x29, x30, [sp, #32]             // 16-byte Folded Spill
	add	x29, sp, #32
	stp	x28, x23, [sp, #48]             // 16-byte Folded Spill
	stp	x22, x21, [sp, #64]             // 16-byte Folded Spill
	stp	x20, x19, [sp, #80]             // 16-byte Folded Spill
	sub	sp, sp, #976
	mov	w9, #4096                       // =0x1000
	cmp	x0, #0
	stp	xzr, xzr, [sp]
	csel	x8, x9, xzr, eq
	cmp	x2, #0
	csel	x9, x9, xzr, eq
	cmp	x1, x3
	b.ne	.LBB99_3
// %bb.1:                               // %join.3.i.i.i
	sub	x10, x1, #121
	cmn	x10, #120
	b.hs	.LBB99_6
// %bb.2:
	mov	w8, #4                          // =0x4
	b	.LBB99_4
.LBB99_3:
	mov	w8, #3                          // =0x3
.LBB99_4:                               // %arm.1.i7.i
	strb	w8, [sp, #4]
	lsr	x8, x8, #32
	sturh	wzr, [sp, #5]
	strb	wzr, [sp, #7]
	str	x8, [sp, #8]
	ldur	x8, [sp, #4]
	and	x8, x8, #0xffffffff000000ff
	add	x0, x8, #1
.LBB99_5:                               // %"senyolanda::models::senyolanda_nelson_siegel_fit.exit"
	add	sp, sp, #976
	ldp	x20, x19, [sp, #80]             // 16-byte Folded Reload
	ldp	x22, x21, [sp, #64]             // 16-byte Folded Reload
	ldp	x28, x23, [sp, #48]             // 16-byte Folded Reload
	ldp	x29, x30, [sp, #32]             // 16-byte Folded Reload
	ldp	d9, d8, [sp, #16]               // 16-byte Folded Reload
	ldr	d10, [sp], #96                  // 8-byte Folded Reload
	ret
.LBB99_6:                               // %join.6.i.i.i
	movi	d8, #0000000000000000
	add	x19, x0, x8
	add	x20, x2, x9
	ldr	d0, [x19]
	//ARITH_FENCE
	//ARITH_FENCE
	fcmp	d8, d0
	cset	w10, hi
	//APP
	//NO_APP
	cbz	w10, .LBB99_13
.LBB99_7:                               // %join.6.i9.i.i.i.preheader
	mov	x8, #-4503599627370496          // =0xfff0000000000000
	mov	x9, xzr
	fmov	d1, x8
	mov	w8, #5                          // =0x5
.LBB99_8:                               // %join.6.i9.i.i.i
                                        // =>This Inner Loop Header: Depth=1
	ldr	d0, [x19, x9, lsl #3]
	ldr	d3, [x20, x9, lsl #3]
	fsub	d2, d0, d0
	fsub	d3, d3, d3
	//ARITH_FENCE
	fcmp	d2, d8
	//ARITH_FENCE
	fccmp	d3, d8, #0, eq
	b.ne	.LBB99_4
// %bb.9:                               // %"curves::curve::bad_knot.exit.i.i.i.i.i"
                                        //   in Loop: Header=BB99_8 Depth=1
	fmov	d2, d0
	//ARITH_FENCE
	//ARITH_FENCE
	fcmp	d2, d8
	cset	w10, mi
	fcmp	d1, d2
	//APP
	//NO_APP
	cset	w11, pl
	//APP
	//NO_APP
	orr	w10, w10, w11
	cbnz	w10, .LBB99_4
// %bb.10:                              // %join.10.i.i.i.i
                                        //   in Loop: Header=BB99_8 Depth=1
	fmov	d1, d0
	add	x9, x9, #1
	mov	x10, #4294967296                // =0x100000000
	cmp	x1, x9
	add	x8, x8, x10
	b.ne	.LBB99_8
// %bb.11:                              // %arm.1.i.i
	cmp	x1, #1
	b.ne	.LBB99_19
// %bb.12:                              // %arm.1.i.arm.1.i.i.i.i_crit_edge.i
	ldr	d3, [x20]
	movi	d18, #0000000000000000
	movi	d19, #0000000000000000
	b	.LBB99_40
.LBB99_13:                              // %join.3.i.i.i.i
	ldr	d3, [x20]
	fsub	d0, d3, d3
	//ARITH_FENCE
	fcmp	d0, d8
	b.ne	.LBB99_7
// %bb.14:                              // %join.6.i.i.i.i
	add	x10, x19, x1, lsl #3
	ldur	d0, [x10, #-8]
	mov	x10, #9218868437227405312       // =0x7ff0000000000000
	fmov	d1, x10
	//ARITH_FENCE
	//ARITH_FENCE
	fcmp	d0, d1
	cset	w10, mi
	//APP
	//NO_APP
	cbz	w10, .LBB99_7
// %bb.15:                              // %then.7.i.i.i.i
	movi	d18, #0000000000000000
	movi	d19, #0000000000000000
	cmp	x1, #2
	b.lo	.LBB99_40
// %bb.16:                              // %join.5.i.i.i.i.i.preheader
	add	x9, x9, x2
	add	x11, x8, x0
	mov	x10, xzr
	sub	x8, x1, #1
	add	x9, x9, #8
	add	x11, x11, #8
.LBB99_17:                              // %join.5.i.i.i.i.i
                                        // =>This Inner Loop Header: Depth=1
	ldp	d0, d1, [x11, #-8]
	add	x11, x11, #8
	//ARITH_FENCE
	//ARITH_FENCE
	fcmp	d0, d1
	ldr	d0, [x9], #8
	fsub	d0, d0, d0
	cset	w12, pl
	//APP
	//NO_APP
	cmp	w12, #0
	cinc	x10, x10, ne
	//ARITH_FENCE
	fcmp	d0, d8
	cinc	x10, x10, ne
	subs	x8, x8, #1
	b.ne	.LBB99_17
// %bb.18:                              // %"curves::curve::all_in_order.exit.i.i.i"
	cbnz	x10, .LBB99_7
.LBB99_19:                              // %join.6.lr.ph.i.i.i.i.i.i
	add	x0, sp, #16
	mov	x22, x1
	mov	w1, wzr
	mov	w2, #960                        // =0x3c0
	mov	x21, x4
	add	x23, sp, #16
	bl	memset
	adrp	x10, .LCPI99_0
	mov	x8, x22
	mov	x9, xzr
	ldr	d10, [x10, :lo12:.LCPI99_0]
	//ARITH_FENCE
.LBB99_20:                              // %join.6.i.i.i.i.i.i
                                        // =>This Inner Loop Header: Depth=1
	ldr	d0, [x19, x9, lsl #3]
	fmov	d2, #-2.00000000
	movi	d9, #0000000000000000
	fmov	d1, d0
	fmul	d0, d0, d2
	//ARITH_FENCE
	fcmp	d1, d10
	cset	w10, mi
	//APP
	//NO_APP
	cmp	w10, #0
	fcsel	d0, d9, d0, ne
	str	d0, [x23, x9, lsl #3]
	add	x9, x9, #1
	cmp	x8, x9
	b.ne	.LBB99_20
// %bb.21:                              // %join.8.lr.ph.i.i.i.i
	add	w8, w8, #7
	add	x0, sp, #16
	and	x1, x8, #0xf8
	bl	"elementary::exp::exp_each"
	movi	d0, #0000000000000000
	movi	d5, #0000000000000000
	mov	x8, x22
	movi	d7, #0000000000000000
	movi	d1, #0000000000000000
	mov	x9, xzr
	movi	d2, #0000000000000000
	movi	d4, #0000000000000000
	mov	x4, x21
	movi	d6, #0000000000000000
	movi	d16, #0000000000000000
	movi	d18, #0000000000000000
	movi	d19, #0000000000000000
	movi	d22, #0000000000000000
	b	.LBB99_23
.LBB99_22:                              // %"yield_curve::fitting::loadings_at.exit.i.i.i.i"
                                        //   in Loop: Header=BB99_23 Depth=1
	fmul	d23, d21, d21
	fmul	d24, d20, d21
	fadd	d22, d22, d17
	fmul	d25, d3, d21
	fmul	d26, d20, d20
	fadd	d16, d16, d3
	fmul	d27, d3, d20
	fadd	d19, d19, d21
	fadd	d6, d6, d21
	fadd	d18, d18, d20
	fadd	d7, d7, d20
	add	x9, x9, #1
	fadd	d4, d4, d23
	fadd	d2, d2, d24
	fadd	d5, d5, d24
	fadd	d1, d1, d25
	fadd	d0, d0, d26
	cmp	x8, x9
	fadd	d9, d9, d27
	b.eq	.LBB99_28
.LBB99_23:                              // %join.8.i.i.i.i
                                        // =>This Inner Loop Header: Depth=1
	cmp	x9, x8
	b.hs	.LBB99_25
// %bb.24:                              // %arm.1.i.i.i.i.i.i
                                        //   in Loop: Header=BB99_23 Depth=1
	ldr	d3, [x20, x9, lsl #3]
	b	.LBB99_26
.LBB99_25:                              //   in Loop: Header=BB99_23 Depth=1
	mov	x10, #9221120237041090560       // =0x7ff8000000000000
	fmov	d3, x10
.LBB99_26:                              // %"curves::segments::knot_at.exit.i.i.i.i"
                                        //   in Loop: Header=BB99_23 Depth=1
	ldr	d23, [x19, x9, lsl #3]
	movi	d20, #0000000000000000
	fmov	d21, #1.00000000
	fmov	d17, d23
	//ARITH_FENCE
	fcmp	d17, d10
	fmov	d17, #1.00000000
	cset	w10, mi
	//APP
	//NO_APP
	cbnz	w10, .LBB99_22
// %bb.27:                              // %join.3.i.i.i.i.i
                                        //   in Loop: Header=BB99_23 Depth=1
	add	x10, sp, #16
	fmov	d20, #1.00000000
	fadd	d21, d23, d23
	ldr	d24, [x10, x9, lsl #3]
	fsub	d20, d20, d24
	fdiv	d21, d20, d21
	fsub	d20, d21, d24
	b	.LBB99_22
.LBB99_28:                              // %"yield_curve::fitting::least_squares.exit.i.i.i"
	fmov	d17, d6
	movi	d3, #0000000000000000
	fmov	d20, d22
	//ARITH_FENCE
	fcmp	d8, d17
	//ARITH_FENCE
	fsub	d17, d3, d6
	cset	w8, mi
	//APP
	//NO_APP
	cmp	w8, #0
	fcsel	d17, d6, d17, ne
	fcmp	d8, d20
	fsub	d20, d3, d22
	cset	w8, mi
	//ARITH_FENCE
	//APP
	//NO_APP
	cmp	w8, #0
	fcsel	d24, d22, d20, ne
	fmov	d20, d7
	//ARITH_FENCE
	fcmp	d24, d17
	//ARITH_FENCE
	cset	w8, mi
	//APP
	//NO_APP
	cmp	w8, #0
	fcsel	d21, d6, d22, ne
	fcmp	d8, d20
	fsub	d20, d3, d7
	fmov	d23, d21
	cset	w9, mi
	//APP
	//NO_APP
	cmp	w9, #0
	fcsel	d20, d7, d20, ne
	//ARITH_FENCE
	fcmp	d8, d23
	fsub	d23, d3, d21
	//ARITH_FENCE
	cset	w9, mi
	//APP
	//NO_APP
	cmp	w9, #0
	fcsel	d21, d21, d23, ne
	//ARITH_FENCE
	fcmp	d21, d20
	cset	w9, mi
	//APP
	//NO_APP
	cbz	w9, .LBB99_30
// %bb.29:
	fmov	d24, d20
	fmov	d17, d7
	fmov	d20, d5
	fmov	d21, d0
	fmov	d23, d9
	fmov	d7, d22
	fmov	d5, d19
	fmov	d0, d18
	fmov	d9, d16
	b	.LBB99_33
.LBB99_30:                              // %join.6.i.i.i.i.i
	cbz	w8, .LBB99_32
// %bb.31:
	fmov	d24, d17
	fmov	d17, d6
	fmov	d20, d4
	fmov	d21, d2
	fmov	d23, d1
	fmov	d6, d22
	fmov	d4, d19
	fmov	d2, d18
	fmov	d1, d16
	b	.LBB99_33
.LBB99_32:                              // %join.9.i.i.i.i.i
	fmov	d17, d22
	fmov	d20, d19
	fmov	d21, d18
	fmov	d23, d16
.LBB99_33:                              // %"yield_curve::solve::pivot_x.exit.i.i.i.i"
	adrp	x8, .LCPI99_1
	movi	d18, #0000000000000000
	movi	d19, #0000000000000000
	ldr	d16, [x8, :lo12:.LCPI99_1]
	//ARITH_FENCE
	fcmp	d24, d16
	cset	w8, mi
	//APP
	//NO_APP
	cbnz	w8, .LBB99_40
// %bb.34:                              // %join.3.i.i13.i.i
	fdiv	d7, d7, d17
	fdiv	d18, d6, d17
	fmul	d3, d20, d7
	fmul	d25, d21, d7
	fmul	d26, d23, d7
	fsub	d5, d5, d3
	movi	d3, #0000000000000000
	fsub	d7, d0, d25
	fsub	d0, d9, d26
	fmov	d19, d5
	//ARITH_FENCE
	fcmp	d8, d19
	cset	w8, mi
	//APP
	//NO_APP
	cmp	w8, #0
	fmul	d6, d20, d18
	fmul	d22, d21, d18
	fmul	d24, d23, d18
	fsub	d6, d4, d6
	fsub	d4, d3, d5
	fsub	d22, d2, d22
	fmov	d19, d6
	fcsel	d4, d5, d4, ne
	//ARITH_FENCE
	//ARITH_FENCE
	fcmp	d8, d19
	fsub	d19, d3, d6
	cset	w8, mi
	//APP
	//NO_APP
	cmp	w8, #0
	fcsel	d18, d6, d19, ne
	fsub	d19, d1, d24
	//ARITH_FENCE
	fcmp	d18, d4
	cset	w8, mi
	//APP
	//NO_APP
	cbz	w8, .LBB99_36
// %bb.35:
	fmov	d18, d4
	fmov	d1, d7
	fmov	d2, d0
	fmov	d7, d22
	fmov	d0, d19
	fmov	d4, d5
	fmov	d5, d6
	b	.LBB99_37
.LBB99_36:                              // %join.3.i.i18.i.i.i
	fmov	d1, d22
	fmov	d2, d19
	fmov	d4, d6
.LBB99_37:                              // %"yield_curve::solve::pivot_y.exit.i.i.i.i"
	fcmp	d18, d16
	movi	d18, #0000000000000000
	movi	d19, #0000000000000000
	cset	w8, mi
	//APP
	//NO_APP
	cbnz	w8, .LBB99_40
// %bb.38:                              // %join.3.i31.i.i.i.i
	fdiv	d5, d5, d4
	fmul	d3, d1, d5
	fsub	d6, d7, d3
	movi	d3, #0000000000000000
	fmov	d7, d6
	//ARITH_FENCE
	fcmp	d8, d7
	fsub	d7, d3, d6
	cset	w8, mi
	//APP
	//NO_APP
	cmp	w8, #0
	fcsel	d7, d6, d7, ne
	//ARITH_FENCE
	fcmp	d7, d16
	cset	w8, mi
	//APP
	//NO_APP
	cbnz	w8, .LBB99_40
// %bb.39:                              // %join.3.i.i.i.i.i.i
	fmul	d3, d2, d5
	fsub	d0, d0, d3
	fdiv	d19, d0, d6
	fmul	d0, d1, d19
	fmul	d1, d21, d19
	fsub	d0, d2, d0
	fdiv	d18, d0, d4
	fmul	d0, d20, d18
	fsub	d0, d23, d0
	fsub	d0, d0, d1
	fdiv	d3, d0, d17
.LBB99_40:                              // %arm.2.i6.i
	fmov	x8, d3
	str	xzr, [sp]
	mov	x0, xzr
	str	d3, [sp, #8]
	ldur	x9, [sp, #4]
	stp	d18, d19, [x4, #8]
	lsr	x8, x8, #32
	extr	x8, x8, x9, #32
	mov	x9, #4602678819172646912        // =0x3fe0000000000000
	str	x9, [x4, #24]
	str	x8, [x4]
	b	.LBB99_5
.Lfunc_end99:
	.size	senyolanda_nelson_siegel_fit, .Lfunc_end99-senyolanda_nelson_siegel_fit
                                        // -- End function
	.section	.rodata.cst8,"aM",@progbits,8
	.p2align	3, 0x0                          // -- Begin function senyolanda_nelson_siegel_forward_rate
.LCPI100_0:
	.xword	0x3ddb7cdfd9d7bdbb              // double 1.0E-10
	.section	.text.senyolanda_nelson_siegel_forward_rate,"ax",@progbits
	.globl	senyolanda_nelson_siegel_forward_rate
	.p2align	2
	.type	senyolanda_nelson_siegel_forward_rate,@function
senyolanda_nelson_siegel_forward_rate:  // @senyolanda_nelson_siegel_forward_rate
// %bb.0:                               // %start
	movi	d1, #0000000000000000
	fsub	d2, d0, d0
	//ARITH_FENCE
	//ARITH_FENCE
	fcmp	d2, d1
	b.eq	.LBB100_2
// %bb.1:
	mov	w0, #7                          // =0x7
	ret
.LBB100_2:                              // %join.3.i.i
	stp	d11, d10, [sp, #-64]!           // 16-byte Folded Spill
	fmov	d2, d0
	adrp	x8, .LCPI100_0
	stp	d9, d8, [sp, #16]               // 16-byte Folded Spill
	ldr	d1, [x8, :lo12:.LCPI100_0]
	ldp	d8, d9, [x0]
	stp	x29, x30, [sp, #32]             // 16-byte Folded Spill
	add	x29, sp, #32
	//ARITH_FENCE
	str	x19, [sp, #48]                  // 8-byte Spill
	//ARITH_FENCE
	fcmp	d2, d1
	cset	w8, mi
	//APP
	//NO_APP
	cbz	w8, .LBB100_4
// %bb.3:                               // %then.1.i.i.i
	fadd	d0, d8, d9
	b	.LBB100_5
.LBB100_4:                              // %join.3.i.i.i
	ldp	d11, d1, [x0, #16]
	mov	x19, x1
	fdiv	d10, d0, d1
	fneg	d0, d10
	bl	"elementary::exp::exp"
	fmul	d1, d11, d10
	fmul	d2, d9, d0
	mov	x1, x19
	fmul	d0, d1, d0
	fadd	d1, d8, d2
	fadd	d0, d0, d1
.LBB100_5:                              // %arm.2.i.i
	ldp	x29, x30, [sp, #32]             // 16-byte Folded Reload
	mov	x0, xzr
	ldp	d9, d8, [sp, #16]               // 16-byte Folded Reload
	ldr	x19, [sp, #48]                  // 8-byte Reload
	str	d0, [x1]
	ldp	d11, d10, [sp], #64             // 16-byte Folded Reload
	ret
.Lfunc_end100:
	.size	senyolanda_nelson_siegel_forward_rate, .Lfunc_end100-senyolanda_nelson_siegel_forward_rate
                                        // -- End function
	.section	.text.senyolanda_nelson_siegel_instantaneous_forward,"ax",@progbits
	.globl	senyolanda_nelson_siegel_instantaneous_forward // -- Begin function senyolanda_nelson_siegel_instantaneous_forward
	.p2align	2
	.type	senyolanda_nelson_siegel_instantaneous_forward,@function
senyolanda_nelson_siegel_instantaneous_forward: // @senyolanda_nelson_siegel_instantaneous_forward
// %bb.0:                               // %start
	ldp	d0, d1, [x0]
	mov	x0, xzr
	fadd	d0, d0, d1
	str	d0, [x1]
	ret
.Lfunc_end101:
	.size	senyolanda_nelson_siegel_instantaneous_forward, .Lfunc_end101-senyolanda_nelson_siegel_instantaneous_forward
                                        // -- End function
	.section	.text.senyolanda_nelson_siegel_metrics,"ax",@progbits
	.globl	senyolanda_nelson_siegel_metrics // -- Begin function senyolanda_nelson_siegel_metrics
	.p2align	2
	.type	senyolanda_nelson_siegel_metrics,@function
senyolanda_nelson_siegel_metrics:       // @senyolanda_nelson_siegel_metrics
// %bb.0:                               // %start
	mov	x8, x0
	mov	x0, xzr
	ldr	q0, [x8]
	ldr	d1, [x8, #16]
	str	q0, [x1]
	str	d1, [x1, #16]
	ret
.Lfunc_end102:
	.size	senyolanda_nelson_siegel_metrics, .Lfunc_end102-senyolanda_nelson_siegel_metrics
                                        // -- End function
	.section	.rodata.cst8,"aM",@progbits,8
	.p2align	3, 0x0                          // -- Begin function senyolanda_nelson_siegel_yield
.LCPI103_0:
	.xword	0x3ddb7cdfd9d7bdbb              // double 1.0E-10
	.section	.text.senyolanda_nelson_siegel_yield,"ax",@progbits
	.globl	senyolanda_nelson_siegel_yield
	.p2align	2
	.type	senyolanda_nelson_siegel_yield,@function
senyolanda_nelson_siegel_yield:         // @senyolanda_nelson_siegel_yield
// %bb.0:                               // %start
	movi	d1, #0000000000000000
	fsub	d2, d0, d0
	//ARITH_FENCE
	//ARITH_FENCE
	fcmp	d2, d1
	b.eq	.LBB103_2
// %bb.1:
	mov	w0, #7                          // =0x7
	ret
.LBB103_2:                              // %join.3.i.i
	stp	d11, d10, [sp, #-64]!           // 16-byte Folded Spill
	fmov	d2, d0
	adrp	x8, .LCPI103_0
	stp	d9, d8, [sp, #16]               // 16-byte Folded Spill
	ldr	d1, [x8, :lo12:.LCPI103_0]
	ldp	d8, d9, [x0]
	stp	x29, x30, [sp, #32]             // 16-byte Folded Spill
	add	x29, sp, #32
	//ARITH_FENCE
	str	x19, [sp, #48]                  // 8-byte Spill
	//ARITH_FENCE
	fcmp	d2, d1
	cset	w8, mi
	//APP
	//NO_APP
	cbz	w8, .LBB103_4
// %bb.3:                               // %then.1.i.i.i
	fadd	d0, d8, d9
	b	.LBB103_5
.LBB103_4:                              // %join.3.i.i.i
	ldp	d11, d1, [x0, #16]
	mov	x19, x1
	fdiv	d10, d0, d1
	fneg	d0, d10
	bl	"elementary::exp::exp"
	fmov	d1, #1.00000000
	mov	x1, x19
	fsub	d1, d1, d0
	fdiv	d1, d1, d10
	fsub	d0, d1, d0
	fmul	d1, d9, d1
	fadd	d1, d8, d1
	fmul	d0, d11, d0
	fadd	d0, d1, d0
.LBB103_5:                              // %arm.2.i.i
	ldp	x29, x30, [sp, #32]             // 16-byte Folded Reload
	mov	x0, xzr
	ldp	d9, d8, [sp, #16]               // 16-byte Folded Reload
	ldr	x19, [sp, #48]                  // 8-byte Reload
	str	d0, [x1]
	ldp	d11, d10, [sp], #64             // 16-byte Folded Reload
	ret
.Lfunc_end103:
	.size	senyolanda_nelson_siegel_yield, .Lfunc_end103-senyolanda_nelson_siegel_yield
                                        // -- End function
	.section	.rodata.cst8,"aM",@progbits,8
	.p2align	3, 0x0                          // -- Begin function senyolanda_next_adjustable_row
.LCPI104_0:
	.word	3                               // 0x3
	.word	0                               // 0x0
	.section	.text.senyolanda_next_adjustable_row,"ax",@progbits
	.globl	senyolanda_next_adjustable_row
	.p2align	2
	.type	senyolanda_next_adjustable_row,@function
senyolanda_next_adjustable_row:         // @senyolanda_next_adjustable_row
// %bb.0:                               // %start
	sub	sp, sp, #48
	adrp	x9, .LCPI104_0
	cmp	x0, #0
	mov	x8, x0
	ldr	d3, [x9, :lo12:.LCPI104_0]
	mov	w9, #4096                       // =0x1000
	mov	x7, x6
	csel	x9, x9, xzr, eq
	mov	x6, x5
	mov	x5, x4
	mov	x4, x3
	mov	x3, x2
	mov	x2, x1
	mov	x0, sp
	add	x1, x8, x9
	stp	x29, x30, [sp, #32]             // 16-byte Folded Spill
	add	x29, sp, #32
	stp	d3, d0, [sp]
	stp	d1, d2, [sp, #16]
	bl	"senyolanda::kinds::next_kind_row"
	ldp	x29, x30, [sp, #32]             // 16-byte Folded Reload
	add	sp, sp, #48
	ret
.Lfunc_end104:
	.size	senyolanda_next_adjustable_row, .Lfunc_end104-senyolanda_next_adjustable_row
                                        // -- End function
	.section	.text.senyolanda_next_balloon_row,"ax",@progbits
	.globl	senyolanda_next_balloon_row     // -- Begin function senyolanda_next_balloon_row
	.p2align	2
	.type	senyolanda_next_balloon_row,@function
senyolanda_next_balloon_row:            // @senyolanda_next_balloon_row
// %bb.0:                               // %start
	mov	w8, #2                          // =0x2
	mov	x7, x5
	mov	x6, x4
	mov	x5, x3
	mov	x4, x2
	mov	x3, x1
	stp	w8, w0, [sp, #-48]!
	adrp	x1, .Lstatic.2
	add	x1, x1, :lo12:.Lstatic.2
	mov	x0, sp
	mov	w2, #1                          // =0x1
	stp	x29, x30, [sp, #32]             // 16-byte Folded Spill
	add	x29, sp, #32
	stp	xzr, xzr, [sp, #8]
	str	xzr, [sp, #24]
	bl	"senyolanda::kinds::next_kind_row"
	ldp	x29, x30, [sp, #32]             // 16-byte Folded Reload
	add	sp, sp, #48
	ret
.Lfunc_end105:
	.size	senyolanda_next_balloon_row, .Lfunc_end105-senyolanda_next_balloon_row
                                        // -- End function
	.section	.text.senyolanda_next_interest_only_row,"ax",@progbits
	.globl	senyolanda_next_interest_only_row // -- Begin function senyolanda_next_interest_only_row
	.p2align	2
	.type	senyolanda_next_interest_only_row,@function
senyolanda_next_interest_only_row:      // @senyolanda_next_interest_only_row
// %bb.0:                               // %start
	mov	w8, #1                          // =0x1
	mov	x7, x5
	mov	x6, x4
	mov	x5, x3
	mov	x4, x2
	mov	x3, x1
	stp	w8, w0, [sp, #-48]!
	adrp	x1, .Lstatic.2
	add	x1, x1, :lo12:.Lstatic.2
	mov	x0, sp
	mov	w2, #1                          // =0x1
	stp	x29, x30, [sp, #32]             // 16-byte Folded Spill
	add	x29, sp, #32
	stp	xzr, xzr, [sp, #8]
	str	xzr, [sp, #24]
	bl	"senyolanda::kinds::next_kind_row"
	ldp	x29, x30, [sp, #32]             // 16-byte Folded Reload
	add	sp, sp, #48
	ret
.Lfunc_end106:
	.size	senyolanda_next_interest_only_row, .Lfunc_end106-senyolanda_next_interest_only_row
                                        // -- End function
	.section	.text.senyolanda_next_row,"ax",@progbits
	.globl	senyolanda_next_row             // -- Begin function senyolanda_next_row
	.p2align	2
	.type	senyolanda_next_row,@function
senyolanda_next_row:                    // @senyolanda_next_row
// %bb.0:                               // %start
	sub	sp, sp, #240
	ldr	q0, [x1]
	movi	v1.2d, #0000000000000000
	str	x23, [sp, #192]                 // 8-byte Spill
	ldp	w8, w9, [x0]
	stur	q0, [sp, #48]
	ldr	d0, [x1, #16]
	mov	x23, x2
	stp	x22, x21, [sp, #208]            // 16-byte Folded Spill
	mov	x21, x1
	mov	x22, x0
	stp	x20, x19, [sp, #224]            // 16-byte Folded Spill
	mov	x19, x4
	mov	x20, x3
	adrp	x3, .Lstatic.2
	add	x3, x3, :lo12:.Lstatic.2
	add	x0, sp, #80
	mov	x1, sp
	add	x2, sp, #40
	mov	w4, #1                          // =0x1
	stp	x29, x30, [sp, #176]            // 16-byte Folded Spill
	add	x29, sp, #176
	stp	w8, wzr, [sp, #40]
	stp	w9, wzr, [sp, #64]
	str	d0, [sp, #72]
	stp	q1, q1, [sp]
	stp	q1, q1, [sp, #80]
	stp	q1, q1, [sp, #112]
	stp	q1, q1, [sp, #144]
	bl	"mortgage::rows::next_kind_row"
	ldrb	w9, [sp, #80]
	ldur	x8, [sp, #84]
	cmp	w9, #1
	b.ne	.LBB107_2
// %bb.1:                               // %arm.1.i.i
	and	x8, x8, #0xffffffff000000ff
	add	x0, x8, #1
	ldp	x20, x19, [sp, #224]            // 16-byte Folded Reload
	ldr	x23, [sp, #192]                 // 8-byte Reload
	ldp	x22, x21, [sp, #208]            // 16-byte Folded Reload
	ldp	x29, x30, [sp, #176]            // 16-byte Folded Reload
	add	sp, sp, #240
	ret
.LBB107_2:                              // %arm.2.i.i
	tst	x8, #0xff00000000
	b.eq	.LBB107_4
// %bb.3:                               // %arm.6.i.i
	ldp	d0, d1, [sp, #104]
	mov	x9, #9221120237041090560        // =0x7ff8000000000000
	ldr	w11, [sp, #96]
	mov	w12, #3                         // =0x3
	mov	x0, xzr
	strb	w12, [x23]
	ldr	w12, [sp, #136]
	fmov	d2, d0
	fmov	x8, d0
	fmov	d0, d1
	fmov	x10, d1
	stur	w11, [x23, #1]
	//ARITH_FENCE
	fcmp	d2, d2
	//ARITH_FENCE
	csel	x8, x9, x8, vs
	fcmp	d0, d0
	ldp	d2, d0, [sp, #120]
	stur	x8, [x23, #5]
	csel	x10, x9, x10, vs
	fmov	d1, d2
	fmov	x13, d2
	fmov	x8, d0
	stur	x10, [x23, #13]
	//ARITH_FENCE
	fcmp	d1, d1
	fmov	d1, d0
	ldr	q0, [sp, #144]
	csel	x11, x9, x13, vs
	ldr	w13, [sp, #160]
	stur	x11, [x23, #21]
	//ARITH_FENCE
	fcmp	d1, d1
	ldr	d1, [sp, #168]
	csel	x8, x9, x8, vs
	orr	x9, x12, x13, lsl #32
	stur	x8, [x23, #29]
	mov	w8, #1                          // =0x1
	str	x9, [x22]
	subs	w9, w12, w13
	str	q0, [x21]
	str	d1, [x21, #16]
	str	w8, [x20]
	csel	w8, wzr, w9, lo
	str	w8, [x19]
	ldp	x20, x19, [sp, #224]            // 16-byte Folded Reload
	ldr	x23, [sp, #192]                 // 8-byte Reload
	ldp	x22, x21, [sp, #208]            // 16-byte Folded Reload
	ldp	x29, x30, [sp, #176]            // 16-byte Folded Reload
	add	sp, sp, #240
	ret
.LBB107_4:                              // %arm.5.i.i
	mov	x0, xzr
	str	wzr, [x20]
	str	wzr, [x19]
	ldp	x20, x19, [sp, #224]            // 16-byte Folded Reload
	ldr	x23, [sp, #192]                 // 8-byte Reload
	ldp	x22, x21, [sp, #208]            // 16-byte Folded Reload
	ldp	x29, x30, [sp, #176]            // 16-byte Folded Reload
	add	sp, sp, #240
	ret
.Lfunc_end107:
	.size	senyolanda_next_row, .Lfunc_end107-senyolanda_next_row
                                        // -- End function
	.section	.text.senyolanda_open,"ax",@progbits
	.globl	senyolanda_open                 // -- Begin function senyolanda_open
	.p2align	2
	.type	senyolanda_open,@function
senyolanda_open:                        // @senyolanda_open
// %bb.0:                               // %start
	cmp	x0, #0
	mov	w8, #4096                       // =0x1000
	csel	x8, x8, xzr, eq
	cmp	x1, #21
	b.ne	.LBB108_7
// %bb.1:                               // %"records::record::bad_record.exit.i.i.i.i"
	add	x8, x0, x8
	ldrb	w9, [x8]
	cmp	w9, #1
	b.ne	.LBB108_7
// %bb.2:                               // %arm.2.i
	ldur	x9, [x8, #1]
	ldur	x10, [x8, #9]
	mov	x12, #9221120237041090560       // =0x7ff8000000000000
	fmov	d1, x12
	fmov	d4, #1.00000000
	fmov	d3, #1.00000000
	fmov	d0, x9
	and	x11, x9, #0x7fffffffffffffff
	mov	x9, #9218868437227405312        // =0x7ff0000000000000
	fmov	d2, x10
	cmp	x11, x9
	and	x11, x10, #0x7fffffffffffffff
	ldur	w8, [x8, #17]
	fcsel	d0, d1, d0, hi
	cmp	x11, x9
	fcsel	d1, d1, d2, hi
	fmov	d2, #12.00000000
	fdiv	d2, d1, d2
	cbz	w8, .LBB108_5
// %bb.3:                               // %join.5.i.preheader.i.i.i.i
	fmov	d5, #1.00000000
	mov	w9, w8
	fadd	d6, d2, d5
.LBB108_4:                              // %join.5.i.i.i.i.i
                                        // =>This Inner Loop Header: Depth=1
	tst	w9, #0x1
	lsr	w9, w9, #1
	fcsel	d7, d5, d6, eq
	fmul	d6, d6, d6
	fmul	d3, d3, d7
	cbnz	w9, .LBB108_4
.LBB108_5:                              // %"mortgage::payment::growth.exit.i.i.i"
	fmov	d5, d3
	//ARITH_FENCE
	//ARITH_FENCE
	fcmp	d5, d4
	b.ne	.LBB108_8
// %bb.6:                               // %then.1.i.i.i.i
	ucvtf	d2, w8
	//ARITH_FENCE
	fdiv	d2, d0, d2
	b	.LBB108_9
.LBB108_7:
	mov	w0, #11                         // =0xb
	ret
.LBB108_8:                              // %join.3.i.i.i.i
	fmul	d2, d0, d2
	fmov	d4, #-1.00000000
	fmul	d2, d2, d3
	fadd	d3, d3, d4
	fdiv	d2, d2, d3
.LBB108_9:                              // %"mortgage::payment::worked_out.exit.i.i"
	movi	d3, #0000000000000000
	fmov	d4, d0
	mov	w0, #1                          // =0x1
	//ARITH_FENCE
	//ARITH_FENCE
	fcmp	d4, d3
	cset	w9, mi
	//APP
	//NO_APP
	cbnz	w9, .LBB108_14
// %bb.10:                              // %"mortgage::payment::worked_out.exit.i.i"
	fsub	d4, d0, d0
	//ARITH_FENCE
	fcmp	d4, d3
	b.ne	.LBB108_14
// %bb.11:                              // %join.3.i.i5.i.i
	sub	w9, w8, #1201
	cmn	w9, #1200
	b.hs	.LBB108_13
// %bb.12:
	mov	w0, #2                          // =0x2
	ret
.LBB108_13:                             // %arm.2.i.i
	mov	x0, xzr
	str	x8, [x2]
	stp	d1, d2, [x3]
	str	d0, [x3, #16]
.LBB108_14:                             // %"senyolanda::loans::senyolanda_open.exit"
	ret
.Lfunc_end108:
	.size	senyolanda_open, .Lfunc_end108-senyolanda_open
                                        // -- End function
	.section	.rodata.cst8,"aM",@progbits,8
	.p2align	3, 0x0                          // -- Begin function senyolanda_open_adjustable
.LCPI109_0:
	.word	3                               // 0x3
	.word	0                               // 0x0
	.section	.text.senyolanda_open_adjustable,"ax",@progbits
	.globl	senyolanda_open_adjustable
	.p2align	2
	.type	senyolanda_open_adjustable,@function
senyolanda_open_adjustable:             // @senyolanda_open_adjustable
// %bb.0:                               // %start
	sub	sp, sp, #48
	adrp	x9, .LCPI109_0
	cmp	x0, #0
	mov	x8, x2
	ldr	d3, [x9, :lo12:.LCPI109_0]
	mov	w9, #4096                       // =0x1000
	mov	x6, x5
	csel	x10, x9, xzr, eq
	cmp	x2, #0
	mov	x5, x4
	csel	x9, x9, xzr, eq
	mov	x4, x3
	add	x0, x0, x10
	mov	x2, sp
	add	x3, x8, x9
	stp	x29, x30, [sp, #32]             // 16-byte Folded Spill
	add	x29, sp, #32
	stp	d3, d0, [sp]
	stp	d1, d2, [sp, #16]
	bl	"senyolanda::kinds::open_kind"
	ldp	x29, x30, [sp, #32]             // 16-byte Folded Reload
	add	sp, sp, #48
	ret
.Lfunc_end109:
	.size	senyolanda_open_adjustable, .Lfunc_end109-senyolanda_open_adjustable
                                        // -- End function
	.section	.text.senyolanda_open_balloon,"ax",@progbits
	.globl	senyolanda_open_balloon         // -- Begin function senyolanda_open_balloon
	.p2align	2
	.type	senyolanda_open_balloon,@function
senyolanda_open_balloon:                // @senyolanda_open_balloon
// %bb.0:                               // %start
	mov	w8, #2                          // =0x2
	cmp	x0, #0
	mov	w9, #4096                       // =0x1000
	stp	w8, w2, [sp, #-48]!
	csel	x8, x9, xzr, eq
	mov	x6, x4
	mov	x5, x3
	adrp	x3, .Lstatic.2
	add	x3, x3, :lo12:.Lstatic.2
	add	x0, x0, x8
	mov	x2, sp
	mov	w4, #1                          // =0x1
	stp	x29, x30, [sp, #32]             // 16-byte Folded Spill
	add	x29, sp, #32
	stp	xzr, xzr, [sp, #8]
	str	xzr, [sp, #24]
	bl	"senyolanda::kinds::open_kind"
	ldp	x29, x30, [sp, #32]             // 16-byte Folded Reload
	add	sp, sp, #48
	ret
.Lfunc_end110:
	.size	senyolanda_open_balloon, .Lfunc_end110-senyolanda_open_balloon
                                        // -- End function
	.section	.text.senyolanda_open_balloon_with_payment,"ax",@progbits
	.globl	senyolanda_open_balloon_with_payment // -- Begin function senyolanda_open_balloon_with_payment
	.p2align	2
	.type	senyolanda_open_balloon_with_payment,@function
senyolanda_open_balloon_with_payment:   // @senyolanda_open_balloon_with_payment
// %bb.0:                               // %start
	mov	w8, #4096                       // =0x1000
	cmp	x0, #0
	csel	x8, x8, xzr, eq
	cmp	x1, #21
	b.ne	.LBB111_4
// %bb.1:                               // %"records::record::bad_record.exit.i.i.i.i"
	add	x8, x0, x8
	ldrb	w9, [x8]
	cmp	w9, #1
	b.ne	.LBB111_4
// %bb.2:                               // %arm.2.i
	sub	sp, sp, #144
	movi	v1.2d, #0xffffffffffffffff
	ldur	q2, [x8, #1]
	mov	x9, #9218868437227405312        // =0x7ff0000000000000
	dup	v3.2d, x9
	mov	x9, #9221120237041090560        // =0x7ff8000000000000
	ldur	w8, [x8, #17]
	movi	v4.2d, #0000000000000000
	stp	x29, x30, [sp, #112]            // 16-byte Folded Spill
	add	x29, sp, #112
	stp	w8, wzr, [sp, #48]
	mov	w8, #2                          // =0x2
	sub	x0, x29, #48
	fneg	v1.2d, v1.2d
	stp	x20, x19, [sp, #128]            // 16-byte Folded Spill
	mov	x20, x3
	mov	x19, x4
	stp	w8, w2, [sp]
	adrp	x3, .Lstatic.2
	add	x3, x3, :lo12:.Lstatic.2
	mov	x1, sp
	add	x2, sp, #32
	mov	w4, #1                          // =0x1
	stp	xzr, xzr, [sp, #16]
	and	v1.16b, v2.16b, v1.16b
	str	xzr, [sp, #8]
	stp	q4, q4, [x29, #-48]
	stur	q4, [x29, #-16]
	cmhi	v1.2d, v1.2d, v3.2d
	dup	v3.2d, x9
	bsl	v1.16b, v3.16b, v2.16b
	str	q1, [sp, #32]
	bl	"mortgage::opening::open_kind_with_payment"
	ldurb	w9, [x29, #-48]
	ldur	w8, [x29, #-40]
	cmp	w9, #1
	b.ne	.LBB111_5
// %bb.3:                               // %arm.1.i.i
	ldurb	w9, [x29, #-44]
	orr	x8, x9, x8, lsl #32
	add	x0, x8, #1
	ldp	x20, x19, [sp, #128]            // 16-byte Folded Reload
	ldp	x29, x30, [sp, #112]            // 16-byte Folded Reload
	add	sp, sp, #144
	ret
.LBB111_4:
	mov	w0, #11                         // =0xb
	ret
.LBB111_5:                              // %arm.2.i.i
	ldur	w9, [x29, #-16]
	ldur	q0, [x29, #-32]
	mov	x0, xzr
	ldur	d1, [x29, #-8]
	orr	x8, x8, x9, lsl #32
	str	x8, [x20]
	str	q0, [x19]
	str	d1, [x19, #16]
	ldp	x20, x19, [sp, #128]            // 16-byte Folded Reload
	ldp	x29, x30, [sp, #112]            // 16-byte Folded Reload
	add	sp, sp, #144
	ret
.Lfunc_end111:
	.size	senyolanda_open_balloon_with_payment, .Lfunc_end111-senyolanda_open_balloon_with_payment
                                        // -- End function
	.section	.text.senyolanda_open_interest_only,"ax",@progbits
	.globl	senyolanda_open_interest_only   // -- Begin function senyolanda_open_interest_only
	.p2align	2
	.type	senyolanda_open_interest_only,@function
senyolanda_open_interest_only:          // @senyolanda_open_interest_only
// %bb.0:                               // %start
	mov	w8, #1                          // =0x1
	cmp	x0, #0
	mov	w9, #4096                       // =0x1000
	stp	w8, w2, [sp, #-48]!
	csel	x8, x9, xzr, eq
	mov	x6, x4
	mov	x5, x3
	adrp	x3, .Lstatic.2
	add	x3, x3, :lo12:.Lstatic.2
	add	x0, x0, x8
	mov	x2, sp
	mov	w4, #1                          // =0x1
	stp	x29, x30, [sp, #32]             // 16-byte Folded Spill
	add	x29, sp, #32
	stp	xzr, xzr, [sp, #8]
	str	xzr, [sp, #24]
	bl	"senyolanda::kinds::open_kind"
	ldp	x29, x30, [sp, #32]             // 16-byte Folded Reload
	add	sp, sp, #48
	ret
.Lfunc_end112:
	.size	senyolanda_open_interest_only, .Lfunc_end112-senyolanda_open_interest_only
                                        // -- End function
	.section	.text.senyolanda_open_interest_only_with_payment,"ax",@progbits
	.globl	senyolanda_open_interest_only_with_payment // -- Begin function senyolanda_open_interest_only_with_payment
	.p2align	2
	.type	senyolanda_open_interest_only_with_payment,@function
senyolanda_open_interest_only_with_payment: // @senyolanda_open_interest_only_with_payment
// %bb.0:                               // %start
	mov	w8, #4096                       // =0x1000
	cmp	x0, #0
	csel	x8, x8, xzr, eq
	cmp	x1, #21
	b.ne	.LBB113_4
// %bb.1:                               // %"records::record::bad_record.exit.i.i.i.i"
	add	x8, x0, x8
	ldrb	w9, [x8]
	cmp	w9, #1
	b.ne	.LBB113_4
// %bb.2:                               // %arm.2.i
	sub	sp, sp, #144
	movi	v1.2d, #0xffffffffffffffff
	ldur	q2, [x8, #1]
	mov	x9, #9218868437227405312        // =0x7ff0000000000000
	dup	v3.2d, x9
	mov	x9, #9221120237041090560        // =0x7ff8000000000000
	ldur	w8, [x8, #17]
	movi	v4.2d, #0000000000000000
	stp	x29, x30, [sp, #112]            // 16-byte Folded Spill
	add	x29, sp, #112
	stp	w8, wzr, [sp, #48]
	mov	w8, #1                          // =0x1
	sub	x0, x29, #48
	fneg	v1.2d, v1.2d
	stp	x20, x19, [sp, #128]            // 16-byte Folded Spill
	mov	x20, x3
	mov	x19, x4
	stp	w8, w2, [sp]
	adrp	x3, .Lstatic.2
	add	x3, x3, :lo12:.Lstatic.2
	mov	x1, sp
	add	x2, sp, #32
	mov	w4, #1                          // =0x1
	stp	xzr, xzr, [sp, #16]
	and	v1.16b, v2.16b, v1.16b
	str	xzr, [sp, #8]
	stp	q4, q4, [x29, #-48]
	stur	q4, [x29, #-16]
	cmhi	v1.2d, v1.2d, v3.2d
	dup	v3.2d, x9
	bsl	v1.16b, v3.16b, v2.16b
	str	q1, [sp, #32]
	bl	"mortgage::opening::open_kind_with_payment"
	ldurb	w9, [x29, #-48]
	ldur	w8, [x29, #-40]
	cmp	w9, #1
	b.ne	.LBB113_5
// %bb.3:                               // %arm.1.i.i
	ldurb	w9, [x29, #-44]
	orr	x8, x9, x8, lsl #32
	add	x0, x8, #1
	ldp	x20, x19, [sp, #128]            // 16-byte Folded Reload
	ldp	x29, x30, [sp, #112]            // 16-byte Folded Reload
	add	sp, sp, #144
	ret
.LBB113_4:
	mov	w0, #11                         // =0xb
	ret
.LBB113_5:                              // %arm.2.i.i
	ldur	w9, [x29, #-16]
	ldur	q0, [x29, #-32]
	mov	x0, xzr
	ldur	d1, [x29, #-8]
	orr	x8, x8, x9, lsl #32
	str	x8, [x20]
	str	q0, [x19]
	str	d1, [x19, #16]
	ldp	x20, x19, [sp, #128]            // 16-byte Folded Reload
	ldp	x29, x30, [sp, #112]            // 16-byte Folded Reload
	add	sp, sp, #144
	ret
.Lfunc_end113:
	.size	senyolanda_open_interest_only_with_payment, .Lfunc_end113-senyolanda_open_interest_only_with_payment
                                        // -- End function
	.section	.text.senyolanda_open_with_payment,"ax",@progbits
	.globl	senyolanda_open_with_payment    // -- Begin function senyolanda_open_with_payment
	.p2align	2
	.type	senyolanda_open_with_payment,@function
senyolanda_open_with_payment:           // @senyolanda_open_with_payment
// %bb.0:                               // %start
	mov	w8, #4096                       // =0x1000
	cmp	x0, #0
	csel	x8, x8, xzr, eq
	cmp	x1, #21
	b.ne	.LBB114_4
// %bb.1:                               // %"records::record::bad_record.exit.i.i.i.i"
	add	x8, x0, x8
	ldrb	w9, [x8]
	cmp	w9, #1
	b.ne	.LBB114_4
// %bb.2:                               // %arm.2.i
	ldur	x9, [x8, #1]
	mov	x12, #9221120237041090560       // =0x7ff8000000000000
	mov	x11, #9218868437227405312       // =0x7ff0000000000000
	fmov	d2, x12
	movi	d3, #0000000000000000
	fmov	d1, x9
	and	x10, x9, #0x7fffffffffffffff
	ldur	x9, [x8, #9]
	cmp	x10, x11
	fmov	d4, x9
	and	x10, x9, #0x7fffffffffffffff
	fcsel	d1, d2, d1, hi
	cmp	x10, x11
	//ARITH_FENCE
	fcsel	d2, d2, d4, hi
	fmov	d5, d1
	fsub	d4, d1, d1
	//ARITH_FENCE
	fcmp	d5, d3
	//ARITH_FENCE
	cset	w9, mi
	//APP
	//NO_APP
	cmp	w9, #0
	fccmp	d4, d3, #0, eq
	b.eq	.LBB114_5
// %bb.3:
	mov	w0, #1                          // =0x1
	ret
.LBB114_4:
	mov	w0, #11                         // =0xb
	ret
.LBB114_5:                              // %join.3.i.i.i
	ldur	w8, [x8, #17]
	sub	w9, w8, #1201
	cmn	w9, #1200
	b.hs	.LBB114_7
// %bb.6:
	mov	w0, #2                          // =0x2
	ret
.LBB114_7:                              // %arm.2.i2.i
	mov	x0, xzr
	str	x8, [x2]
	stp	d2, d0, [x3]
	str	d1, [x3, #16]
	ret
.Lfunc_end114:
	.size	senyolanda_open_with_payment, .Lfunc_end114-senyolanda_open_with_payment
                                        // -- End function
	.section	.rodata.cst8,"aM",@progbits,8
	.p2align	3, 0x0                          // -- Begin function senyolanda_par_yield
.LCPI115_0:
	.xword	0x3d719799812dea11              // double 9.9999999999999998E-13
	.section	.text.senyolanda_par_yield,"ax",@progbits
	.globl	senyolanda_par_yield
	.p2align	2
	.type	senyolanda_par_yield,@function
senyolanda_par_yield:                   // @senyolanda_par_yield
// %bb.0:                               // %start
	stp	d11, d10, [sp, #-128]!          // 16-byte Folded Spill
	stp	d9, d8, [sp, #16]               // 16-byte Folded Spill
	stp	x29, x30, [sp, #32]             // 16-byte Folded Spill
	add	x29, sp, #32
	stp	x28, x27, [sp, #48]             // 16-byte Folded Spill
	stp	x26, x25, [sp, #64]             // 16-byte Folded Spill
	stp	x24, x23, [sp, #80]             // 16-byte Folded Spill
	stp	x22, x21, [sp, #96]             // 16-byte Folded Spill
	stp	x20, x19, [sp, #112]            // 16-byte Folded Spill
	sub	sp, sp, #1024
	fsub	d1, d0, d0
	movi	d8, #0000000000000000
	cmp	x0, #0
	mov	w8, #4096                       // =0x1000
	mov	x19, x1
	csel	x9, x8, xzr, eq
	cmp	x2, #0
	csel	x10, x8, xzr, eq
	//ARITH_FENCE
	//ARITH_FENCE
	fcmp	d1, d8
	b.ne	.LBB115_2
// %bb.1:                               // %else.2.i.i.i
	fadd	d1, d0, d0
	mov	x8, #281474974613504            // =0xffffffe00000
	movk	x8, #16879, lsl #48
	fmov	d3, x8
	fmov	d2, d1
	//ARITH_FENCE
	//ARITH_FENCE
	fcmp	d3, d2
	cset	w8, mi
	//APP
	//NO_APP
	cbz	w8, .LBB115_14
.LBB115_2:
	mov	w8, #1                          // =0x1
.LBB115_3:                              // %"yield_curve::linear::bad_maturity.exit.i.i"
	cmp	x19, x3
	b.ne	.LBB115_6
// %bb.4:                               // %join.3.i.i.i.i
	sub	x11, x19, #121
	cmn	x11, #120
	b.hs	.LBB115_9
// %bb.5:
	mov	w9, #4                          // =0x4
	b	.LBB115_7
.LBB115_6:
	mov	w9, #3                          // =0x3
.LBB115_7:                              // %arm.1.i2.i
	and	x8, x9, #0xffffffff000000ff
	add	x0, x8, #1
.LBB115_8:                              // %"senyolanda::yield_curves::senyolanda_par_yield.exit"
	add	sp, sp, #1024
	ldp	x20, x19, [sp, #112]            // 16-byte Folded Reload
	ldp	x22, x21, [sp, #96]             // 16-byte Folded Reload
	ldp	x24, x23, [sp, #80]             // 16-byte Folded Reload
	ldp	x26, x25, [sp, #64]             // 16-byte Folded Reload
	ldp	x28, x27, [sp, #48]             // 16-byte Folded Reload
	ldp	x29, x30, [sp, #32]             // 16-byte Folded Reload
	ldp	d9, d8, [sp, #16]               // 16-byte Folded Reload
	ldp	d11, d10, [sp], #128            // 16-byte Folded Reload
	ret
.LBB115_9:                              // %join.6.i.i.i.i
	add	x20, x0, x9
	add	x21, x2, x10
	ldr	d1, [x20]
	//ARITH_FENCE
	fcmp	d8, d1
	cset	w11, hi
	//APP
	//NO_APP
	cbz	w11, .LBB115_17
.LBB115_10:                             // %join.6.i9.i.i.i.i.preheader
	mov	x10, #-4503599627370496         // =0xfff0000000000000
	mov	w9, #5                          // =0x5
	mov	x11, x21
	fmov	d2, x10
	mov	x10, x20
	mov	x12, x19
.LBB115_11:                             // %join.6.i9.i.i.i.i
                                        // =>This Inner Loop Header: Depth=1
	ldr	d1, [x10], #8
	ldr	d4, [x11], #8
	fsub	d3, d1, d1
	fsub	d4, d4, d4
	//ARITH_FENCE
	fcmp	d3, d8
	//ARITH_FENCE
	fccmp	d4, d8, #0, eq
	b.ne	.LBB115_7
// %bb.12:                              // %"curves::curve::bad_knot.exit.i.i.i.i.i.i"
                                        //   in Loop: Header=BB115_11 Depth=1
	fmov	d3, d1
	//ARITH_FENCE
	//ARITH_FENCE
	fcmp	d3, d8
	cset	w13, mi
	fcmp	d2, d3
	//APP
	//NO_APP
	cset	w14, pl
	//APP
	//NO_APP
	orr	w13, w13, w14
	cbnz	w13, .LBB115_7
// %bb.13:                              // %join.10.i.i.i.i.i
                                        //   in Loop: Header=BB115_11 Depth=1
	fmov	d2, d1
	mov	x13, #4294967296                // =0x100000000
	subs	x12, x12, #1
	add	x9, x9, x13
	b.ne	.LBB115_11
	b	.LBB115_23
.LBB115_14:                             // %join.3.i.i.i.i.i
	fcmp	d8, d2
	cset	w8, mi
	//APP
	//NO_APP
	cbz	w8, .LBB115_3
// %bb.15:                              // %then.4.i.i.i.i.i
	fadd	d1, d1, d1
	fmov	d2, #1.00000000
	//ARITH_FENCE
	fmov	d3, d1
	//ARITH_FENCE
	fcmp	d2, d3
	cset	w8, hi
	//APP
	//NO_APP
	cbz	w8, .LBB115_37
// %bb.16:
	mov	w8, wzr
	b	.LBB115_3
.LBB115_17:                             // %join.3.i.i.i6.i.i
	ldr	d1, [x21]
	fsub	d1, d1, d1
	//ARITH_FENCE
	fcmp	d1, d8
	b.ne	.LBB115_10
// %bb.18:                              // %join.6.i.i.i.i.i
	add	x11, x20, x19, lsl #3
	ldur	d1, [x11, #-8]
	mov	x11, #9218868437227405312       // =0x7ff0000000000000
	fmov	d2, x11
	//ARITH_FENCE
	//ARITH_FENCE
	fcmp	d1, d2
	cset	w11, mi
	//APP
	//NO_APP
	cbz	w11, .LBB115_10
// %bb.19:                              // %then.7.i.i.i.i.i
	cmp	x19, #2
	b.lo	.LBB115_23
// %bb.20:                              // %join.5.i.i.i.i.i.i.preheader
	add	x10, x10, x2
	add	x12, x9, x0
	mov	x11, xzr
	sub	x9, x19, #1
	add	x10, x10, #8
	add	x12, x12, #8
.LBB115_21:                             // %join.5.i.i.i.i.i.i
                                        // =>This Inner Loop Header: Depth=1
	ldp	d1, d2, [x12, #-8]
	add	x12, x12, #8
	//ARITH_FENCE
	//ARITH_FENCE
	fcmp	d1, d2
	ldr	d1, [x10], #8
	fsub	d1, d1, d1
	cset	w13, pl
	//APP
	//NO_APP
	cmp	w13, #0
	cinc	x11, x11, ne
	//ARITH_FENCE
	fcmp	d1, d8
	cinc	x11, x11, ne
	subs	x9, x9, #1
	b.ne	.LBB115_21
// %bb.22:                              // %"curves::curve::all_in_order.exit.i.i.i.i"
	cbnz	x11, .LBB115_10
.LBB115_23:                             // %arm.1.i.i.i
	tbz	w8, #0, .LBB115_25
// %bb.24:
	mov	w9, #6                          // =0x6
	b	.LBB115_7
.LBB115_25:                             // %arm.1.i.i
	fadd	d1, d0, d0
	mov	x8, #281474974613504            // =0xffffffe00000
	movk	x8, #16879, lsl #48
	fmov	d2, x8
	fmov	d3, d1
	//ARITH_FENCE
	//ARITH_FENCE
	fcmp	d2, d3
	cset	w8, mi
	//APP
	//NO_APP
	cbz	w8, .LBB115_38
// %bb.26:                              // %join.3.thread.i.i.i
	mov	x23, x4
	fmov	d11, d0
	fdiv	d9, d0, d2
	mov	w24, #-1                        // =0xffffffff
	mov	w22, #67108863                  // =0x3ffffff
.LBB115_27:                             // %join.5.preheader.i.i.i.i
	movi	d10, #0000000000000000
	mov	w25, wzr
	mov	x26, sp
	mov	w27, #1                         // =0x1
.LBB115_28:                             // %join.5.i.i.i.i
                                        // =>This Loop Header: Depth=1
                                        //     Child Loop BB115_29 Depth 2
	movi	v0.2d, #0000000000000000
	mov	x8, xzr
	mov	w9, w27
	stp	q0, q0, [sp]
	stp	q0, q0, [sp, #32]
	stp	q0, q0, [sp, #64]
	stp	q0, q0, [sp, #96]
	stp	q0, q0, [sp, #128]
	stp	q0, q0, [sp, #160]
	stp	q0, q0, [sp, #192]
	stp	q0, q0, [sp, #224]
	stp	q0, q0, [sp, #256]
	stp	q0, q0, [sp, #288]
	stp	q0, q0, [sp, #320]
	stp	q0, q0, [sp, #352]
	stp	q0, q0, [sp, #384]
	stp	q0, q0, [sp, #416]
	stp	q0, q0, [sp, #448]
	stp	q0, q0, [sp, #480]
.LBB115_29:                             // %join.6.i.i.i.i.i.i.i.i
                                        //   Parent Loop BB115_28 Depth=1
                                        // =>  This Inner Loop Header: Depth=2
	ucvtf	d0, w9
	mov	x10, sp
	add	w9, w9, #1
	//ARITH_FENCE
	fmul	d0, d9, d0
	str	d0, [x10, x8]
	add	x8, x8, #8
	cmp	x8, #512
	b.ne	.LBB115_29
// %bb.30:                              // %"curves::runs::factors_after.exit.i.i.i.i.i"
                                        //   in Loop: Header=BB115_28 Depth=1
	mov	x6, sp
	mov	w0, wzr
	mov	w1, #1                          // =0x1
	mov	x2, x20
	mov	x3, x19
	mov	x4, x21
	mov	x5, x19
	mov	w7, #64                         // =0x40
	bl	"curves::each::answer_onward"
	mov	x0, sp
	bl	"elementary::exp::exp_block::<=16>"
	add	x0, x26, #128
	bl	"elementary::exp::exp_block::<=16>"
	add	x0, x26, #256
	bl	"elementary::exp::exp_block::<=16>"
	add	x0, x26, #384
	bl	"elementary::exp::exp_block::<=16>"
	ldp	d0, d1, [sp]
	add	w25, w25, #1
	cmp	w25, w22
	add	w27, w27, #64
	fadd	d0, d10, d0
	fadd	d0, d0, d1
	ldp	d1, d2, [sp, #16]
	fadd	d0, d0, d1
	fadd	d0, d0, d2
	ldp	d1, d2, [sp, #32]
	fadd	d0, d0, d1
	fadd	d0, d0, d2
	ldp	d1, d2, [sp, #48]
	fadd	d0, d0, d1
	fadd	d0, d0, d2
	ldp	d1, d2, [sp, #64]
	fadd	d0, d0, d1
	fadd	d0, d0, d2
	ldp	d1, d2, [sp, #80]
	fadd	d0, d0, d1
	fadd	d0, d0, d2
	ldp	d1, d2, [sp, #96]
	fadd	d0, d0, d1
	fadd	d0, d0, d2
	ldp	d1, d2, [sp, #112]
	fadd	d0, d0, d1
	fadd	d0, d0, d2
	ldp	d1, d2, [sp, #128]
	fadd	d0, d0, d1
	fadd	d0, d0, d2
	ldp	d1, d2, [sp, #144]
	fadd	d0, d0, d1
	fadd	d0, d0, d2
	ldp	d1, d2, [sp, #160]
	fadd	d0, d0, d1
	fadd	d0, d0, d2
	ldp	d1, d2, [sp, #176]
	fadd	d0, d0, d1
	fadd	d0, d0, d2
	ldp	d1, d2, [sp, #192]
	fadd	d0, d0, d1
	fadd	d0, d0, d2
	ldp	d1, d2, [sp, #208]
	fadd	d0, d0, d1
	fadd	d0, d0, d2
	ldp	d1, d2, [sp, #224]
	fadd	d0, d0, d1
	fadd	d0, d0, d2
	ldp	d1, d2, [sp, #240]
	fadd	d0, d0, d1
	fadd	d0, d0, d2
	ldp	d1, d2, [sp, #256]
	fadd	d0, d0, d1
	fadd	d0, d0, d2
	ldp	d1, d2, [sp, #272]
	fadd	d0, d0, d1
	fadd	d0, d0, d2
	ldp	d1, d2, [sp, #288]
	fadd	d0, d0, d1
	fadd	d0, d0, d2
	ldp	d1, d2, [sp, #304]
	fadd	d0, d0, d1
	fadd	d0, d0, d2
	ldp	d1, d2, [sp, #320]
	fadd	d0, d0, d1
	fadd	d0, d0, d2
	ldp	d1, d2, [sp, #336]
	fadd	d0, d0, d1
	fadd	d0, d0, d2
	ldp	d1, d2, [sp, #352]
	fadd	d0, d0, d1
	fadd	d0, d0, d2
	ldp	d1, d2, [sp, #368]
	fadd	d0, d0, d1
	fadd	d0, d0, d2
	ldp	d1, d2, [sp, #384]
	fadd	d0, d0, d1
	fadd	d0, d0, d2
	ldp	d1, d2, [sp, #400]
	fadd	d0, d0, d1
	fadd	d0, d0, d2
	ldp	d1, d2, [sp, #416]
	fadd	d0, d0, d1
	fadd	d0, d0, d2
	ldp	d1, d2, [sp, #432]
	fadd	d0, d0, d1
	fadd	d0, d0, d2
	ldp	d1, d2, [sp, #448]
	fadd	d0, d0, d1
	fadd	d0, d0, d2
	ldp	d1, d2, [sp, #464]
	fadd	d0, d0, d1
	fadd	d0, d0, d2
	ldp	d1, d2, [sp, #480]
	fadd	d0, d0, d1
	fadd	d0, d0, d2
	ldp	d1, d2, [sp, #496]
	fadd	d0, d0, d1
	fadd	d10, d0, d2
	b.ne	.LBB115_28
// %bb.31:
	fmov	d0, d11
.LBB115_32:                             // %after.1.i.i.i.i
	movi	v1.2d, #0000000000000000
	ands	w22, w24, #0x3f
	stp	q1, q1, [sp, #512]
	stp	q1, q1, [sp, #544]
	stp	q1, q1, [sp, #576]
	stp	q1, q1, [sp, #608]
	stp	q1, q1, [sp, #640]
	stp	q1, q1, [sp, #672]
	stp	q1, q1, [sp, #704]
	stp	q1, q1, [sp, #736]
	stp	q1, q1, [sp, #768]
	stp	q1, q1, [sp, #800]
	stp	q1, q1, [sp, #832]
	stp	q1, q1, [sp, #864]
	stp	q1, q1, [sp, #896]
	stp	q1, q1, [sp, #928]
	stp	q1, q1, [sp, #960]
	stp	q1, q1, [sp, #992]
	b.eq	.LBB115_41
// %bb.33:                              // %join.6.lr.ph.i.i.i.i.i.i.i.i
	fmov	d11, d0
	and	w10, w24, #0xffffffc0
	lsl	x9, x22, #3
	mov	x8, xzr
	orr	w10, w10, #0x1
.LBB115_34:                             // %join.6.i.i.i.i13.i.i.i.i
                                        // =>This Inner Loop Header: Depth=1
	ucvtf	d0, w10
	add	x11, sp, #512
	add	w10, w10, #1
	//ARITH_FENCE
	fmul	d0, d9, d0
	str	d0, [x11, x8]
	add	x8, x8, #8
	cmp	x9, x8
	b.ne	.LBB115_34
// %bb.35:                              // %"curves::runs::factors_after.exit.i24.i.i.i.i"
	add	x6, sp, #512
	mov	w0, wzr
	mov	w1, #1                          // =0x1
	mov	x2, x20
	mov	x3, x19
	mov	x4, x21
	mov	x5, x19
	mov	x7, x22
	add	x24, sp, #512
	bl	"curves::each::answer_onward"
	add	x0, sp, #512
	mov	x1, x22
	bl	"elementary::exp::exp_each"
	cmp	w22, #4
	b.hs	.LBB115_42
// %bb.36:
	mov	x8, x22
	add	x9, sp, #512
	fmov	d0, d11
	b	.LBB115_45
.LBB115_37:                             // %then.1.i.i.i.i.i.i
	fmov	x8, d1
	mov	x12, #4503599627370496          // =0x10000000000000
	mov	w13, #1075                      // =0x433
	lsr	x11, x8, #52
	bfxil	x12, x8, #0, #52
	lsr	x14, x8, #54
	sub	x13, x13, x11
	sub	x11, x11, #1075
	cmp	x14, #269
	lsr	x12, x12, x13
	lsl	x8, x8, x11
	csel	x8, x12, x8, lo
	add	x8, x8, #1
	lsr	x8, x8, #1
	cmp	w8, #1200
	cset	w8, hi
	b	.LBB115_3
.LBB115_38:                             // %join.3.i.i.i12.i.i
	fcmp	d8, d3
	cset	w8, mi
	//APP
	//NO_APP
	cbz	w8, .LBB115_40
// %bb.39:                              // %then.4.i.i.i14.i.i
	fadd	d1, d1, d1
	fmov	d2, #1.00000000
	//ARITH_FENCE
	fmov	d3, d1
	//ARITH_FENCE
	fcmp	d2, d3
	cset	w8, hi
	//APP
	//NO_APP
	cbz	w8, .LBB115_49
.LBB115_40:                             // %then.1.i.i.i
	mov	x0, x20
	mov	x1, x19
	mov	x2, x21
	mov	x3, x19
	mov	x23, x4
	bl	"yield_curve::linear::yield_of"
	fmov	d1, d0
	b	.LBB115_48
.LBB115_41:                             // %"yield_curve::linear::add_run.exit34.critedge.i.i.i.i"
	add	x6, sp, #512
	mov	w0, wzr
	mov	w1, #1                          // =0x1
	mov	x2, x20
	mov	x3, x19
	mov	x4, x21
	mov	x5, x19
	mov	x7, x22
	fmov	d11, d0
	bl	"curves::each::answer_onward"
	add	x0, sp, #512
	mov	x1, x22
	bl	"elementary::exp::exp_each"
	fmov	d0, d11
	b	.LBB115_46
.LBB115_42:                             // %vector.ph
	fmov	d0, d11
	and	x10, x22, #0x3c
	and	x8, x22, #0x3
	add	x9, x24, x10, lsl #3
	add	x11, x24, #16
	and	x12, x22, #0x3c
.LBB115_43:                             // %vector.body
                                        // =>This Inner Loop Header: Depth=1
	ldp	q1, q2, [x11, #-16]
	subs	x12, x12, #4
	add	x11, x11, #32
	mov	d3, v1.d[1]
	fadd	d1, d10, d1
	fadd	d1, d1, d3
	mov	d3, v2.d[1]
	fadd	d1, d1, d2
	fadd	d10, d1, d3
	b.ne	.LBB115_43
// %bb.44:                              // %middle.block
	cmp	x10, x22
	b.eq	.LBB115_46
.LBB115_45:                             // %arm.3.i.i25.i.i.i.i
                                        // =>This Inner Loop Header: Depth=1
	ldr	d1, [x9], #8
	subs	x8, x8, #1
	fadd	d10, d10, d1
	b.ne	.LBB115_45
.LBB115_46:                             // %"yield_curve::linear::discount_sum.exit.i.i.i"
	fmov	d2, d10
	movi	d1, #0000000000000000
	//ARITH_FENCE
	fcmp	d8, d2
	fsub	d2, d1, d10
	cset	w8, mi
	//APP
	//NO_APP
	cmp	w8, #0
	fcsel	d2, d10, d2, ne
	adrp	x8, .LCPI115_0
	ldr	d3, [x8, :lo12:.LCPI115_0]
	//ARITH_FENCE
	//ARITH_FENCE
	fcmp	d2, d3
	cset	w8, mi
	//APP
	//NO_APP
	cbnz	w8, .LBB115_48
// %bb.47:                              // %join.6.i.i.i
	mov	x0, x20
	mov	x1, x19
	mov	x2, x21
	mov	x3, x19
	bl	"yield_curve::linear::discount_of"
	fmov	d1, #1.00000000
	fsub	d0, d1, d0
	fmul	d1, d9, d10
	fdiv	d1, d0, d1
.LBB115_48:                             // %arm.2.i1.i
	mov	x0, xzr
	str	d1, [x23]
	b	.LBB115_8
.LBB115_49:                             // %"yield_curve::linear::half_years.exit.i.i.i"
	fmov	x8, d1
	mov	x10, #4503599627370496          // =0x10000000000000
	mov	w11, #1075                      // =0x433
	lsr	x9, x8, #52
	bfxil	x10, x8, #0, #52
	lsr	x12, x8, #54
	sub	x11, x11, x9
	sub	x9, x9, #1075
	cmp	x12, #269
	lsr	x10, x10, x11
	lsl	x8, x8, x9
	csel	x8, x10, x8, lo
	add	x8, x8, #1
	lsr	x24, x8, #1
	cbz	w24, .LBB115_40
// %bb.50:                              // %join.3.i.i.i
	ucvtf	d1, w24
	lsr	w22, w24, #6
	//ARITH_FENCE
	fdiv	d9, d0, d1
	cbz	w22, .LBB115_52
// %bb.51:
	fmov	d11, d0
	mov	x23, x4
	b	.LBB115_27
.LBB115_52:
	mov	x23, x4
	movi	d10, #0000000000000000
	b	.LBB115_32
.Lfunc_end115:
	.size	senyolanda_par_yield, .Lfunc_end115-senyolanda_par_yield
                                        // -- End function
	.section	.text.senyolanda_periods_per_year,"ax",@progbits
	.globl	senyolanda_periods_per_year     // -- Begin function senyolanda_periods_per_year
	.p2align	2
	.type	senyolanda_periods_per_year,@function
senyolanda_periods_per_year:            // @senyolanda_periods_per_year
// %bb.0:                               // %start
	cmp	w0, #3
	b.hi	.LBB116_2
// %bb.1:                               // %arm.1.i.i
	adrp	x9, .Lswitch.table.senyolanda_periods_per_year
	add	x9, x9, :lo12:.Lswitch.table.senyolanda_periods_per_year
	ldr	w8, [x9, w0, uxtw #2]
	mov	x0, xzr
	str	w8, [x1]
	ret
.LBB116_2:
	mov	w0, #11                         // =0xb
	ret
.Lfunc_end116:
	.size	senyolanda_periods_per_year, .Lfunc_end116-senyolanda_periods_per_year
                                        // -- End function
	.section	.text.senyolanda_points_to_decimal,"ax",@progbits
	.globl	senyolanda_points_to_decimal    // -- Begin function senyolanda_points_to_decimal
	.p2align	2
	.type	senyolanda_points_to_decimal,@function
senyolanda_points_to_decimal:           // @senyolanda_points_to_decimal
// %bb.0:                               // %start
	mov	x8, #149533581377536            // =0x880000000000
	movk	x8, #16579, lsl #48
	fmov	d1, x8
	mov	x8, x0
	mov	x0, xzr
	fdiv	d0, d0, d1
	str	d0, [x8]
	ret
.Lfunc_end117:
	.size	senyolanda_points_to_decimal, .Lfunc_end117-senyolanda_points_to_decimal
                                        // -- End function
	.section	.text.senyolanda_power,"ax",@progbits
	.globl	senyolanda_power                // -- Begin function senyolanda_power
	.p2align	2
	.type	senyolanda_power,@function
senyolanda_power:                       // @senyolanda_power
// %bb.0:                               // %start
	stp	x29, x30, [sp, #-32]!           // 16-byte Folded Spill
	str	x19, [sp, #16]                  // 8-byte Spill
	mov	x29, sp
	mov	x19, x0
	bl	"elementary::power::power"
	str	d0, [x19]
	ldr	x19, [sp, #16]                  // 8-byte Reload
	mov	x0, xzr
	ldp	x29, x30, [sp], #32             // 16-byte Folded Reload
	ret
.Lfunc_end118:
	.size	senyolanda_power, .Lfunc_end118-senyolanda_power
                                        // -- End function
	.section	.rodata.cst8,"aM",@progbits,8
	.p2align	3, 0x0                          // -- Begin function senyolanda_prepayment_savings
.LCPI119_0:
	.xword	0x3eb0c6f7a0b5ed8d              // double 9.9999999999999995E-7
	.section	.text.senyolanda_prepayment_savings,"ax",@progbits
	.globl	senyolanda_prepayment_savings
	.p2align	2
	.type	senyolanda_prepayment_savings,@function
senyolanda_prepayment_savings:          // @senyolanda_prepayment_savings
// %bb.0:                               // %start
	mov	w8, #4096                       // =0x1000
	cmp	x0, #0
	csel	x8, x8, xzr, eq
	cmp	x1, #21
	b.ne	.LBB119_4
// %bb.1:                               // %"records::record::bad_record.exit.i.i.i.i"
	add	x9, x0, x8
	ldrb	w8, [x9]
	cmp	w8, #1
	b.ne	.LBB119_4
// %bb.2:                               // %arm.2.i
	ldur	x8, [x9, #1]
	mov	x12, #9221120237041090560       // =0x7ff8000000000000
	mov	x11, #9218868437227405312       // =0x7ff0000000000000
	fmov	d2, x12
	fmov	d1, x8
	and	x10, x8, #0x7fffffffffffffff
	cmp	x10, x11
	fcsel	d2, d2, d1, hi
	movi	d1, #0000000000000000
	fmov	d16, d2
	fsub	d3, d2, d2
	//ARITH_FENCE
	//ARITH_FENCE
	fcmp	d16, d1
	//ARITH_FENCE
	cset	w8, mi
	//APP
	//NO_APP
	cmp	w8, #0
	fccmp	d3, d1, #0, eq
	b.eq	.LBB119_5
// %bb.3:
	mov	w0, #1                          // =0x1
	ret
.LBB119_4:
	mov	w0, #11                         // =0xb
	ret
.LBB119_5:                              // %join.3.i.i.i
	ldur	w8, [x9, #17]
	sub	w10, w8, #1201
	cmn	w10, #1200
	b.hs	.LBB119_7
// %bb.6:
	mov	w0, #2                          // =0x2
	ret
.LBB119_7:                              // %join.5.i.preheader.i.i.i.i.i
	ldur	x9, [x9, #9]
	fmov	d3, #12.00000000
	mov	x11, #9221120237041090560       // =0x7ff8000000000000
	mov	x10, #9218868437227405312       // =0x7ff0000000000000
	fmov	d6, #1.00000000
	fmov	d4, x9
	and	x9, x9, #0x7fffffffffffffff
	cmp	x9, x10
	mov	w9, w8
	fdiv	d3, d4, d3
	fmov	d4, x11
	fcsel	d3, d4, d3, hi
	fmov	d4, #1.00000000
	fadd	d5, d3, d6
	fmov	d7, d5
.LBB119_8:                              // %join.5.i.i.i.i.i.i
                                        // =>This Inner Loop Header: Depth=1
	tst	w9, #0x1
	lsr	w9, w9, #1
	fcsel	d17, d6, d7, eq
	fmul	d7, d7, d7
	fmul	d4, d4, d17
	cbnz	w9, .LBB119_8
// %bb.9:                               // %"mortgage::payment::growth.exit.i.i.i.i"
	fmov	d7, d4
	fmov	d6, #1.00000000
	//ARITH_FENCE
	//ARITH_FENCE
	fcmp	d7, d6
	ucvtf	d7, w8
	b.ne	.LBB119_11
// %bb.10:                              // %then.1.i.i.i.i.i
	fmov	d4, d7
	//ARITH_FENCE
	fdiv	d17, d2, d4
	fcmp	d1, d16
	movi	d4, #0000000000000000
	mov	w9, w8
	cset	w10, pl
	//APP
	//NO_APP
	cbnz	w10, .LBB119_21
	b	.LBB119_12
.LBB119_11:                             // %join.3.i.i.i.i.i
	fmul	d17, d2, d3
	fmov	d18, #-1.00000000
	fmul	d17, d17, d4
	fadd	d4, d4, d18
	fdiv	d17, d17, d4
	fcmp	d1, d16
	movi	d4, #0000000000000000
	mov	w9, w8
	cset	w10, pl
	//APP
	//NO_APP
	cbnz	w10, .LBB119_21
.LBB119_12:                             // %join.8.lr.ph.i.i.i.i
	adrp	x9, .LCPI119_0
	fadd	d0, d0, d17
	mov	w11, #1                         // =0x1
	ldr	d17, [x9, :lo12:.LCPI119_0]
	lsl	w9, w8, #1
	fmov	d18, d2
	//ARITH_FENCE
.LBB119_13:                             // %join.8.i.i.i.i
                                        // =>This Inner Loop Header: Depth=1
	fmul	d19, d3, d18
	mov	w10, w11
	fsub	d20, d0, d19
	fmov	d21, d20
	//ARITH_FENCE
	fcmp	d21, d16
	cset	w12, mi
	//APP
	//NO_APP
	cbz	w12, .LBB119_18
// %bb.14:                              // %select.end3
                                        //   in Loop: Header=BB119_13 Depth=1
	fmov	d16, d20
	//ARITH_FENCE
	fcmp	d1, d16
	cset	w11, mi
	//APP
	//NO_APP
	cbz	w11, .LBB119_19
.LBB119_15:                             // %select.end5
                                        //   in Loop: Header=BB119_13 Depth=1
	fsub	d18, d18, d20
	fadd	d4, d4, d19
	fmov	d16, d18
	//ARITH_FENCE
	fcmp	d16, d17
	cset	w11, hi
	//APP
	//NO_APP
	cbz	w11, .LBB119_20
// %bb.16:                              // %loop.2.i.i.i.i
                                        //   in Loop: Header=BB119_13 Depth=1
	fcmp	d1, d16
	cset	w12, pl
	cmp	w10, w9
	//APP
	//NO_APP
	b.hs	.LBB119_20
// %bb.17:                              // %loop.2.i.i.i.i
                                        //   in Loop: Header=BB119_13 Depth=1
	add	w11, w10, #1
	cbz	w12, .LBB119_13
	b	.LBB119_20
.LBB119_18:                             // %select.false4
                                        //   in Loop: Header=BB119_13 Depth=1
	fmov	d20, d18
	fmov	d16, d20
	//ARITH_FENCE
	fcmp	d1, d16
	cset	w11, mi
	//APP
	//NO_APP
	cbnz	w11, .LBB119_15
.LBB119_19:                             // %select.false6
                                        //   in Loop: Header=BB119_13 Depth=1
	movi	d20, #0000000000000000
	b	.LBB119_15
.LBB119_20:                             // %"mortgage::savings::pay_down.exit.loopexit.i.i.i"
	subs	w9, w8, w10
	csel	w9, wzr, w9, lo
.LBB119_21:                             // %join.5.i.preheader.i.i.i.i.i.i
	fmov	d16, #1.00000000
	fmov	d0, #1.00000000
	mov	w10, w8
.LBB119_22:                             // %join.5.i.i.i.i.i.i.i
                                        // =>This Inner Loop Header: Depth=1
	tst	w10, #0x1
	lsr	w10, w10, #1
	fcsel	d17, d16, d5, eq
	fmul	d5, d5, d5
	fmul	d0, d0, d17
	cbnz	w10, .LBB119_22
// %bb.23:                              // %"mortgage::payment::growth.exit.i.i.i.i.i"
	fmov	d5, d0
	//ARITH_FENCE
	fcmp	d5, d6
	b.ne	.LBB119_25
// %bb.24:                              // %then.1.i.i.i.i.i.i
	//ARITH_FENCE
	fdiv	d0, d2, d7
	b	.LBB119_26
.LBB119_25:                             // %join.3.i.i.i.i.i.i
	fmul	d5, d2, d3
	fmov	d6, #-1.00000000
	fmul	d5, d5, d0
	fadd	d0, d0, d6
	fdiv	d0, d5, d0
.LBB119_26:                             // %"mortgage::payment::worked_out.exit.i.i.i.i"
	movi	d5, #0000000000000000
	mov	w11, wzr
	mov	w10, w8
	b	.LBB119_29
.LBB119_27:                             // %arm.3.i.i.i.i.i.i
                                        //   in Loop: Header=BB119_29 Depth=1
	mov	w11, w12
.LBB119_28:                             // %arm.3.i.i.i.i.i.i
                                        //   in Loop: Header=BB119_29 Depth=1
	fsub	d2, d2, d7
	fadd	d5, d5, d6
	subs	w10, w10, #1
	b.eq	.LBB119_34
.LBB119_29:                             // %join.3.i.i.i.i.i.i.i.i
                                        // =>This Inner Loop Header: Depth=1
	fmul	d6, d3, d2
	fmov	d7, d2
	add	w12, w11, #1
	cmp	w12, w8
	mov	w11, w8
	b.eq	.LBB119_28
// %bb.30:                              // %join.6.i.i.i.i.i.i.i.i
                                        //   in Loop: Header=BB119_29 Depth=1
	fsub	d7, d0, d6
	fmov	d16, d7
	//ARITH_FENCE
	fcmp	d1, d16
	cset	w11, mi
	//APP
	//NO_APP
	cbnz	w11, .LBB119_32
// %bb.31:                              // %select.false
                                        //   in Loop: Header=BB119_29 Depth=1
	movi	d7, #0000000000000000
.LBB119_32:                             // %select.end
                                        //   in Loop: Header=BB119_29 Depth=1
	fmov	d16, d7
	fmov	d17, d2
	//ARITH_FENCE
	//ARITH_FENCE
	fcmp	d16, d17
	cset	w11, mi
	//APP
	//NO_APP
	cbnz	w11, .LBB119_27
// %bb.33:                              // %select.false2
                                        //   in Loop: Header=BB119_29 Depth=1
	fmov	d7, d2
	b	.LBB119_27
.LBB119_34:                             // %arm.2.i7.i
	fsub	d0, d5, d4
	mov	x0, xzr
	str	w9, [x2]
	fmov	d2, d0
	//ARITH_FENCE
	fcmp	d1, d2
	movi	d1, #0000000000000000
	cset	w8, mi
	//APP
	//NO_APP
	cmp	w8, #0
	fcsel	d0, d0, d1, ne
	str	d0, [x3]
	ret
.Lfunc_end119:
	.size	senyolanda_prepayment_savings, .Lfunc_end119-senyolanda_prepayment_savings
                                        // -- End function
	.section	.text.senyolanda_pv_cash_flows,"ax",@progbits
	.globl	senyolanda_pv_cash_flows        // -- Begin function senyolanda_pv_cash_flows
	.p2align	2
	.type	senyolanda_pv_cash_flows,@function
senyolanda_pv_cash_flows:               // @senyolanda_pv_cash_flows
// %bb.0:                               // %start
	stp	d9, d8, [sp, #-112]!            // 16-byte Folded Spill
	stp	x29, x30, [sp, #16]             // 16-byte Folded Spill
	add	x29, sp, #16
	stp	x28, x27, [sp, #32]             // 16-byte Folded Spill
	stp	x26, x25, [sp, #48]             // 16-byte Folded Spill
	stp	x24, x23, [sp, #64]             // 16-byte Folded Spill
	stp	x22, x21, [sp, #80]             // 16-byte Folded Spill
	stp	x20, x19, [sp, #96]             // 16-byte Folded Spill
	sub	sp, sp, #1120
	cmp	x0, #0
	mov	w8, #4096                       // =0x1000
	mov	x20, x6
	csel	x9, x8, xzr, eq
	cmp	x2, #0
	mov	x23, x3
	add	x25, x0, x9
	csel	x9, x8, xzr, eq
	cmp	x4, #0
	csel	x11, x8, xzr, eq
	cmp	x6, #0
	mov	x24, x1
	add	x26, x2, x9
	csel	x8, x8, xzr, eq
	mov	x10, x7
	mov	x6, x5
	mov	x22, x4
	add	x0, sp, #64
	add	x5, x4, x11
	add	x7, x20, x8
	mov	x1, x25
	mov	x2, x24
	mov	x3, x26
	mov	x4, x23
	str	xzr, [sp]
	fmov	d8, d0
	str	wzr, [sp, #72]
	stp	x10, xzr, [sp, #56]             // 8-byte Folded Spill
	strb	wzr, [sp, #8]
	stp	x8, x11, [sp, #32]              // 16-byte Folded Spill
	str	x6, [sp, #48]                   // 8-byte Spill
	str	x10, [sp]
	bl	"spread_analytics::judging::judge_spread"
	ldrb	w8, [sp, #64]
	cmp	w8, #1
	b.ne	.LBB120_2
// %bb.1:                               // %"spread_analytics::spread::pv_cash_flows.exit.thread.i"
	ldrb	w8, [sp, #68]
	ldr	w9, [sp, #72]
	orr	x8, x8, x9, lsl #32
	add	x0, x8, #1
	b	.LBB120_17
.LBB120_2:                              // %arm.2.i.i
	movi	v0.2d, #0000000000000000
	ldr	x8, [x29, #96]
	stp	q0, q0, [sp, #80]
	stp	q0, q0, [sp, #112]
	stp	q0, q0, [sp, #144]
	stp	q0, q0, [sp, #176]
	stp	q0, q0, [sp, #208]
	stp	q0, q0, [sp, #240]
	stp	q0, q0, [sp, #272]
	stp	q0, q0, [sp, #304]
	stp	q0, q0, [sp, #336]
	stp	q0, q0, [sp, #368]
	stp	q0, q0, [sp, #400]
	stp	q0, q0, [sp, #432]
	stp	q0, q0, [sp, #464]
	stp	q0, q0, [sp, #496]
	stp	q0, q0, [sp, #528]
	stp	q0, q0, [sp, #560]
	cbz	x24, .LBB120_15
// %bb.3:                               // %arm.1.i.i.i.i.preheader
	str	x8, [sp, #16]                   // 8-byte Spill
	mov	x8, #149533581377536            // =0x880000000000
	movi	d9, #0000000000000000
	movk	x8, #16579, lsl #48
	fmov	d0, x8
	add	x8, sp, #600
	add	x8, x8, #16
	str	x8, [sp, #24]                   // 8-byte Spill
	fdiv	d8, d8, d0
	b	.LBB120_5
.LBB120_4:                              // %loop.2.loopexit.i.i.i
                                        //   in Loop: Header=BB120_5 Depth=1
	add	x25, x25, x27, lsl #3
	add	x26, x26, x21, lsl #3
	sub	x24, x24, x27
	sub	x23, x23, x21
	cbz	x24, .LBB120_14
.LBB120_5:                              // %arm.1.i.i.i.i
                                        // =>This Loop Header: Depth=1
                                        //     Child Loop BB120_9 Depth 2
                                        //     Child Loop BB120_12 Depth 2
	cmp	x24, #64
	mov	w8, #64                         // =0x40
	csel	x27, x24, x8, lo
	cbz	x23, .LBB120_14
// %bb.6:                               // %arm.3.i.i.i
                                        //   in Loop: Header=BB120_5 Depth=1
	ldp	x8, x4, [sp, #40]               // 16-byte Folded Reload
	fmov	d0, d8
	ldr	x6, [sp, #56]                   // 8-byte Reload
	cmp	x23, #64
	mov	w19, #64                        // =0x40
	add	x0, sp, #80
	mov	x1, x25
	mov	x2, x27
	add	x3, x22, x8
	ldr	x8, [sp, #32]                   // 8-byte Reload
	csel	x21, x23, x19, lo
	add	x5, x20, x8
	bl	"spread_analytics::worth::factors_of"
	add	x0, sp, #600
	add	x1, sp, #80
	mov	w2, #512                        // =0x200
	add	x28, sp, #600
	bl	memcpy
	sub	x8, x21, #1
	mov	w9, #63                         // =0x3f
	cmp	x8, #63
	csel	x8, x8, x9, lo
	cmp	x23, #4
	b.hs	.LBB120_8
// %bb.7:                               //   in Loop: Header=BB120_5 Depth=1
	mov	x9, x21
	mov	x8, x26
	b	.LBB120_11
.LBB120_8:                              // %vector.ph
                                        //   in Loop: Header=BB120_5 Depth=1
	add	x10, x8, #1
	mov	w8, #64                         // =0x40
	ldr	x14, [sp, #24]                  // 8-byte Reload
	and	x11, x10, #0x7c
	and	x13, x10, #0x7c
	lsl	x12, x11, #3
	sub	x19, x8, x11
	sub	x9, x21, x11
	add	x28, x28, x12
	add	x8, x26, x12
	add	x12, x26, #16
.LBB120_9:                              // %vector.body
                                        //   Parent Loop BB120_5 Depth=1
                                        // =>  This Inner Loop Header: Depth=2
	ldp	q0, q3, [x14, #-16]
	subs	x13, x13, #4
	ldp	q1, q2, [x12, #-16]
	add	x12, x12, #32
	add	x14, x14, #32
	fmul	v0.2d, v1.2d, v0.2d
	fmul	v2.2d, v2.2d, v3.2d
	mov	d1, v0.d[1]
	fadd	d0, d9, d0
	fadd	d0, d0, d1
	mov	d1, v2.d[1]
	fadd	d0, d0, d2
	fadd	d9, d0, d1
	b.ne	.LBB120_9
// %bb.10:                              // %middle.block
                                        //   in Loop: Header=BB120_5 Depth=1
	cmp	x10, x11
	b.eq	.LBB120_4
.LBB120_11:                             // %arm.3.i.i.i.i.i.preheader
                                        //   in Loop: Header=BB120_5 Depth=1
	sub	x10, x19, #1
	sub	x9, x9, #1
.LBB120_12:                             // %arm.3.i.i.i.i.i
                                        //   Parent Loop BB120_5 Depth=1
                                        // =>  This Inner Loop Header: Depth=2
	ldr	d0, [x8], #8
	ldr	d1, [x28], #8
	fmul	d0, d0, d1
	fadd	d9, d9, d0
	cbz	x9, .LBB120_4
// %bb.13:                              // %arm.3.i.i.i.i.i
                                        //   in Loop: Header=BB120_12 Depth=2
	mov	x11, x10
	sub	x10, x10, #1
	sub	x9, x9, #1
	cbnz	x11, .LBB120_12
	b	.LBB120_4
.LBB120_14:                             // %"spread_analytics::spread::pv_cash_flows.exit.i"
	ldr	x8, [sp, #16]                   // 8-byte Reload
	b	.LBB120_16
.LBB120_15:                             // %"spread_analytics::spread::pv_cash_flows.exit.thread11.i"
	movi	d9, #0000000000000000
.LBB120_16:                             // %arm.2.i1.i
	mov	x0, xzr
	str	d9, [x8]
.LBB120_17:                             // %"senyolanda::spreads::senyolanda_pv_cash_flows.exit"
	add	sp, sp, #1120
	ldp	x20, x19, [sp, #96]             // 16-byte Folded Reload
	ldp	x22, x21, [sp, #80]             // 16-byte Folded Reload
	ldp	x24, x23, [sp, #64]             // 16-byte Folded Reload
	ldp	x26, x25, [sp, #48]             // 16-byte Folded Reload
	ldp	x28, x27, [sp, #32]             // 16-byte Folded Reload
	ldp	x29, x30, [sp, #16]             // 16-byte Folded Reload
	ldp	d9, d8, [sp], #112              // 16-byte Folded Reload
	ret
.Lfunc_end120:
	.size	senyolanda_pv_cash_flows, .Lfunc_end120-senyolanda_pv_cash_flows
                                        // -- End function
	.section	.text.senyolanda_read_bond,"ax",@progbits
	.globl	senyolanda_read_bond            // -- Begin function senyolanda_read_bond
	.p2align	2
	.type	senyolanda_read_bond,@function
senyolanda_read_bond:                   // @senyolanda_read_bond
// %bb.0:                               // %start
	mov	w8, #4096                       // =0x1000
	cmp	x0, #0
	csel	x8, x8, xzr, eq
	cmp	x1, #26
	b.ne	.LBB121_3
// %bb.1:                               // %"records::record::bad_record.exit.i.i.i.i"
	add	x9, x0, x8
	ldrb	w8, [x9]
	cmp	w8, #2
	b.ne	.LBB121_3
// %bb.2:                               // %arm.1.i.i.i
	ldrb	w8, [x9, #25]
	cmp	w8, #3
	b.ls	.LBB121_4
.LBB121_3:
	mov	w0, #11                         // =0xb
	ret
.LBB121_4:                              // %arm.2.i
	ldur	x10, [x9, #17]
	ldur	x11, [x9, #9]
	mov	x13, #9221120237041090560       // =0x7ff8000000000000
	ldur	x9, [x9, #1]
	fmov	d0, x13
	mov	x12, #9218868437227405312       // =0x7ff0000000000000
	fmov	d1, x10
	and	x13, x10, #0x7fffffffffffffff
	fmov	d2, x11
	and	x10, x11, #0x7fffffffffffffff
	cmp	x13, x12
	fmov	d3, x9
	mov	x0, xzr
	fcsel	d1, d0, d1, hi
	cmp	x10, x12
	and	x10, x9, #0x7fffffffffffffff
	fcsel	d2, d0, d2, hi
	cmp	x10, x12
	fcsel	d0, d0, d3, hi
	str	d0, [x2]
	str	d2, [x3]
	str	d1, [x4]
	str	w8, [x5]
	ret
.Lfunc_end121:
	.size	senyolanda_read_bond, .Lfunc_end121-senyolanda_read_bond
                                        // -- End function
	.section	.rodata.cst8,"aM",@progbits,8
	.p2align	3, 0x0                          // -- Begin function senyolanda_read_dated_swap
.LCPI122_0:
	.word	0                               // 0x0
	.word	4294967280                      // 0xfffffff0
	.section	.text.senyolanda_read_dated_swap,"ax",@progbits
	.globl	senyolanda_read_dated_swap
	.p2align	2
	.type	senyolanda_read_dated_swap,@function
senyolanda_read_dated_swap:             // @senyolanda_read_dated_swap
// %bb.0:                               // %start
	cmp	x0, #0
	mov	w8, #4096                       // =0x1000
	csel	x8, x8, xzr, eq
	cmp	x1, #38
	b.ne	.LBB122_3
// %bb.1:                               // %"records::record::bad_record.exit.i.i.i.i"
	add	x9, x0, x8
	ldrb	w8, [x9]
	cmp	w8, #5
	b.ne	.LBB122_3
// %bb.2:                               // %arm.1.i.i.i
	ldrb	w8, [x9, #37]
	cmp	w8, #2
	b.ls	.LBB122_4
.LBB122_3:
	mov	w0, #11                         // =0xb
	ret
.LBB122_4:                              // %arm.2.i
	ldur	x10, [x9, #17]
	mov	x13, #9221120237041090560       // =0x7ff8000000000000
	ldur	x11, [x9, #9]
	fmov	d0, x13
	mov	x14, #9218868437227405312       // =0x7ff0000000000000
	ldur	x12, [x9, #1]
	fmov	d1, x10
	and	x13, x10, #0x7fffffffffffffff
	ldur	w10, [x9, #29]
	cmp	x13, x14
	and	x13, x11, #0x7fffffffffffffff
	fmov	d2, x11
	fmov	d3, x12
	and	x11, x12, #0x7fffffffffffffff
	dup	v4.2s, w10
	fcsel	d1, d0, d1, hi
	cmp	x13, x14
	ldur	w13, [x9, #33]
	fcsel	d2, d0, d2, hi
	cmp	x11, x14
	adrp	x11, .LCPI122_0
	dup	v5.2s, w13
	fcsel	d0, d0, d3, hi
	ldr	d3, [x11, :lo12:.LCPI122_0]
	movi	d6, #0x0000ff0000ffff
	ldur	w9, [x9, #25]
	lsr	w10, w10, #24
	ushl	v4.2s, v4.2s, v3.2s
	mov	x0, xzr
	str	d0, [x2]
	ushl	v3.2s, v5.2s, v3.2s
	str	d2, [x3]
	and	v0.8b, v4.8b, v6.8b
	str	d1, [x4]
	str	w9, [x5]
	lsr	w9, w13, #24
	and	v1.8b, v3.8b, v6.8b
	str	w10, [x6, #8]
	ldr	x10, [sp]
	str	d0, [x6]
	str	w9, [x7, #8]
	str	d1, [x7]
	str	w8, [x10]
	ret
.Lfunc_end122:
	.size	senyolanda_read_dated_swap, .Lfunc_end122-senyolanda_read_dated_swap
                                        // -- End function
	.section	.text.senyolanda_read_loan,"ax",@progbits
	.globl	senyolanda_read_loan            // -- Begin function senyolanda_read_loan
	.p2align	2
	.type	senyolanda_read_loan,@function
senyolanda_read_loan:                   // @senyolanda_read_loan
// %bb.0:                               // %start
	mov	w8, #4096                       // =0x1000
	cmp	x0, #0
	csel	x8, x8, xzr, eq
	cmp	x1, #21
	b.ne	.LBB123_3
// %bb.1:                               // %"records::record::bad_record.exit.i.i.i.i"
	add	x8, x0, x8
	ldrb	w9, [x8]
	cmp	w9, #1
	b.ne	.LBB123_3
// %bb.2:                               // %arm.2.i
	ldur	x9, [x8, #1]
	mov	x10, #9221120237041090560       // =0x7ff8000000000000
	ldur	x11, [x8, #9]
	fmov	d0, x10
	mov	x12, #9218868437227405312       // =0x7ff0000000000000
	ldur	w8, [x8, #17]
	fmov	d1, x9
	and	x10, x9, #0x7fffffffffffffff
	fmov	d2, x11
	cmp	x10, x12
	and	x9, x11, #0x7fffffffffffffff
	mov	x0, xzr
	fcsel	d1, d0, d1, hi
	cmp	x9, x12
	fcsel	d0, d0, d2, hi
	str	d1, [x2]
	str	d0, [x3]
	str	w8, [x4]
	ret
.LBB123_3:
	mov	w0, #11                         // =0xb
	ret
.Lfunc_end123:
	.size	senyolanda_read_loan, .Lfunc_end123-senyolanda_read_loan
                                        // -- End function
	.section	.text.senyolanda_read_row,"ax",@progbits
	.globl	senyolanda_read_row             // -- Begin function senyolanda_read_row
	.p2align	2
	.type	senyolanda_read_row,@function
senyolanda_read_row:                    // @senyolanda_read_row
// %bb.0:                               // %start
	cmp	x0, #0
	mov	w8, #4096                       // =0x1000
	csel	x8, x8, xzr, eq
	cmp	x1, #37
	b.ne	.LBB124_3
// %bb.1:                               // %"records::record::bad_record.exit.i.i.i.i"
	add	x8, x0, x8
	ldrb	w9, [x8]
	cmp	w9, #3
	b.ne	.LBB124_3
// %bb.2:                               // %arm.2.i
	ldur	x9, [x8, #5]
	mov	x11, #9221120237041090560       // =0x7ff8000000000000
	ldur	x12, [x8, #13]
	fmov	d0, x11
	mov	x10, #9218868437227405312       // =0x7ff0000000000000
	mov	x0, xzr
	fmov	d1, x9
	and	x11, x9, #0x7fffffffffffffff
	ldur	x9, [x8, #21]
	cmp	x11, x10
	and	x11, x12, #0x7fffffffffffffff
	fmov	d2, x12
	fmov	d3, x9
	fcsel	d1, d0, d1, hi
	cmp	x11, x10
	and	x11, x9, #0x7fffffffffffffff
	ldur	x9, [x8, #29]
	fcsel	d2, d0, d2, hi
	cmp	x11, x10
	fcsel	d3, d0, d3, hi
	ldur	w8, [x8, #1]
	fmov	d4, x9
	and	x11, x9, #0x7fffffffffffffff
	cmp	x11, x10
	str	w8, [x2]
	str	d1, [x3]
	fcsel	d0, d0, d4, hi
	str	d2, [x4]
	str	d3, [x5]
	str	d0, [x6]
	ret
.LBB124_3:
	mov	w0, #11                         // =0xb
	ret
.Lfunc_end124:
	.size	senyolanda_read_row, .Lfunc_end124-senyolanda_read_row
                                        // -- End function
	.section	.text.senyolanda_read_swap,"ax",@progbits
	.globl	senyolanda_read_swap            // -- Begin function senyolanda_read_swap
	.p2align	2
	.type	senyolanda_read_swap,@function
senyolanda_read_swap:                   // @senyolanda_read_swap
// %bb.0:                               // %start
	cmp	x0, #0
	mov	w8, #4096                       // =0x1000
	csel	x8, x8, xzr, eq
	cmp	x1, #30
	b.ne	.LBB125_3
// %bb.1:                               // %"records::record::bad_record.exit.i.i.i.i"
	add	x8, x0, x8
	ldrb	w9, [x8]
	cmp	w9, #4
	b.ne	.LBB125_3
// %bb.2:                               // %arm.1.i.i.i
	ldrb	w9, [x8, #29]
	cmp	w9, #2
	b.ls	.LBB125_4
.LBB125_3:
	mov	w0, #11                         // =0xb
	ret
.LBB125_4:                              // %arm.2.i
	ldur	x10, [x8, #17]
	ldur	x11, [x8, #9]
	mov	x14, #9221120237041090560       // =0x7ff8000000000000
	ldur	x12, [x8, #1]
	fmov	d0, x14
	mov	x13, #9218868437227405312       // =0x7ff0000000000000
	fmov	d1, x10
	and	x14, x10, #0x7fffffffffffffff
	fmov	d2, x11
	and	x10, x11, #0x7fffffffffffffff
	cmp	x14, x13
	fmov	d3, x12
	ldur	w8, [x8, #25]
	mov	x0, xzr
	fcsel	d1, d0, d1, hi
	cmp	x10, x13
	and	x10, x12, #0x7fffffffffffffff
	fcsel	d2, d0, d2, hi
	cmp	x10, x13
	fcsel	d0, d0, d3, hi
	str	d0, [x2]
	str	d2, [x3]
	str	d1, [x4]
	str	w8, [x5]
	str	w9, [x6]
	ret
.Lfunc_end125:
	.size	senyolanda_read_swap, .Lfunc_end125-senyolanda_read_swap
                                        // -- End function
	.section	.text.senyolanda_refinance_breakeven,"ax",@progbits
	.globl	senyolanda_refinance_breakeven  // -- Begin function senyolanda_refinance_breakeven
	.p2align	2
	.type	senyolanda_refinance_breakeven,@function
senyolanda_refinance_breakeven:         // @senyolanda_refinance_breakeven
// %bb.0:                               // %start
	mov	w8, #4096                       // =0x1000
	cmp	x0, #0
	csel	x9, x8, xzr, eq
	cmp	x2, #0
	csel	x8, x8, xzr, eq
	cmp	x1, #21
	b.ne	.LBB126_10
// %bb.1:                               // %"records::record::bad_record.exit.i.i.i.i.i.i"
	add	x9, x0, x9
	ldrb	w10, [x9]
	cmp	w10, #1
	b.ne	.LBB126_10
// %bb.2:                               // %arm.1.i.i
	ldur	x10, [x9, #1]
	mov	x12, #9218868437227405312       // =0x7ff0000000000000
	mov	x0, #11                         // =0xb
	movk	x0, #1, lsl #32
	and	x11, x10, #0x7fffffffffffffff
	cmp	x11, x12
	mov	x11, #9221120237041090560       // =0x7ff8000000000000
	csel	x10, x11, x10, hi
	cmp	x3, #21
	b.ne	.LBB126_11
// %bb.3:                               // %"records::record::bad_record.exit.i.i.i.i20.i.i"
	add	x8, x2, x8
	ldrb	w11, [x8]
	cmp	w11, #1
	b.ne	.LBB126_11
// %bb.4:                               // %arm.5.i.i
	stp	x29, x30, [sp, #-32]!           // 16-byte Folded Spill
	fmov	d3, x10
	ldur	x11, [x8, #1]
	movi	d1, #0000000000000000
	mov	x12, #9218868437227405312       // =0x7ff0000000000000
	stp	x20, x19, [sp, #16]             // 16-byte Folded Spill
	mov	x29, sp
	and	x10, x11, #0x7fffffffffffffff
	fmov	d2, d3
	cmp	x10, x12
	mov	x10, #9221120237041090560       // =0x7ff8000000000000
	csel	x11, x10, x11, hi
	//ARITH_FENCE
	mov	x10, xzr
	//ARITH_FENCE
	fcmp	d2, d1
	cset	w12, mi
	//APP
	//NO_APP
	cbnz	w12, .LBB126_16
// %bb.5:                               // %arm.5.i.i
	fsub	d2, d3, d3
	//ARITH_FENCE
	fcmp	d2, d1
	b.ne	.LBB126_16
// %bb.6:                               // %join.3.i.i.i
	fmov	d2, x11
	mov	x10, #4294967296                // =0x100000000
	fmov	d4, d2
	//ARITH_FENCE
	fcmp	d4, d1
	cset	w11, mi
	//APP
	//NO_APP
	cbnz	w11, .LBB126_16
// %bb.7:                               // %join.3.i.i.i
	fsub	d4, d2, d2
	//ARITH_FENCE
	fcmp	d4, d1
	b.ne	.LBB126_16
// %bb.8:                               // %join.6.i.i.i
	ldur	w10, [x9, #17]
	sub	w11, w10, #1201
	cmn	w11, #1200
	b.hs	.LBB126_12
// %bb.9:
	mov	w10, #1                         // =0x1
	and	x0, x10, #0x100000000
	add	w8, w10, #1
	bfxil	x0, x8, #0, #4
	ldp	x20, x19, [sp, #16]             // 16-byte Folded Reload
	ldp	x29, x30, [sp], #32             // 16-byte Folded Reload
	ret
.LBB126_10:
	mov	w0, #11                         // =0xb
.LBB126_11:                             // %"senyolanda::loans::senyolanda_refinance_breakeven.exit"
	ret
.LBB126_12:                             // %join.9.i.i.i
	ldur	w19, [x8, #17]
	sub	w11, w19, #1201
	cmn	w11, #1200
	b.hs	.LBB126_14
// %bb.13:
	mov	x10, #4294967297                // =0x100000001
	and	x0, x10, #0x100000000
	add	w8, w10, #1
	bfxil	x0, x8, #0, #4
	ldp	x20, x19, [sp, #16]             // 16-byte Folded Reload
	ldp	x29, x30, [sp], #32             // 16-byte Folded Reload
	ret
.LBB126_14:                             // %join.12.i.i.i
	fsub	d4, d0, d0
	//ARITH_FENCE
	fcmp	d4, d1
	b.eq	.LBB126_17
// %bb.15:
	mov	w10, #8                         // =0x8
.LBB126_16:                             // %"senyolanda::loans::breakeven.exit.thread10.i"
	and	x0, x10, #0x100000000
	add	w8, w10, #1
	bfxil	x0, x8, #0, #4
	ldp	x20, x19, [sp, #16]             // 16-byte Folded Reload
	ldp	x29, x30, [sp], #32             // 16-byte Folded Reload
	ret
.LBB126_17:                             // %join.5.i.preheader.i.i.i.i.i
	ldur	x9, [x9, #9]
	fmov	d4, #12.00000000
	mov	x12, #9221120237041090560       // =0x7ff8000000000000
	mov	x11, #9218868437227405312       // =0x7ff0000000000000
	ldur	x8, [x8, #9]
	fmov	d7, #1.00000000
	fmov	d5, x9
	and	x9, x9, #0x7fffffffffffffff
	cmp	x9, x11
	and	x9, x8, #0x7fffffffffffffff
	mov	w11, w10
	fdiv	d4, d5, d4
	fmov	d5, x12
	fcsel	d6, d5, d4, hi
	fmov	d4, #1.00000000
	fmov	d5, x8
	mov	w8, w19
	fadd	d16, d6, d4
.LBB126_18:                             // %join.5.i.i.i.i.i.i
                                        // =>This Inner Loop Header: Depth=1
	tst	w11, #0x1
	lsr	w11, w11, #1
	fcsel	d17, d4, d16, eq
	fmul	d16, d16, d16
	fmul	d7, d7, d17
	cbnz	w11, .LBB126_18
// %bb.19:                              // %"mortgage::payment::growth.exit.i.i.i.i"
	fmov	d16, d7
	fmov	d4, #1.00000000
	//ARITH_FENCE
	//ARITH_FENCE
	fcmp	d16, d4
	b.ne	.LBB126_21
// %bb.20:                              // %then.1.i.i.i.i.i
	ucvtf	d6, w10
	//ARITH_FENCE
	b	.LBB126_22
.LBB126_21:                             // %join.3.i.i.i.i.i
	fmul	d3, d6, d3
	fmov	d6, #-1.00000000
	fadd	d6, d7, d6
	fmul	d3, d3, d7
.LBB126_22:                             // %join.5.i.preheader.i.i121.i.i.i
	fdiv	d3, d3, d6
	fmov	d6, #12.00000000
	mov	x11, #9221120237041090560       // =0x7ff8000000000000
	mov	x10, #9218868437227405312       // =0x7ff0000000000000
	fmov	d7, #1.00000000
	cmp	x9, x10
	fdiv	d5, d5, d6
	fmov	d6, x11
	fcsel	d6, d6, d5, hi
	fmov	d5, #1.00000000
	fadd	d16, d6, d7
.LBB126_23:                             // %join.5.i.i.i123.i.i.i
                                        // =>This Inner Loop Header: Depth=1
	tst	w8, #0x1
	lsr	w8, w8, #1
	fcsel	d17, d7, d16, eq
	fmul	d16, d16, d16
	fmul	d5, d5, d17
	cbnz	w8, .LBB126_23
// %bb.24:                              // %"mortgage::payment::growth.exit.i134.i.i.i"
	fmul	d6, d6, d2
	fmov	d7, #-1.00000000
	fadd	d7, d5, d7
	fmul	d6, d6, d5
	//ARITH_FENCE
	fcmp	d5, d4
	fdiv	d6, d6, d7
	ucvtf	d7, w19
	//ARITH_FENCE
	fdiv	d2, d2, d7
	fcsel	d2, d6, d2, ne
	fsub	d2, d3, d2
	fmov	d3, d2
	//ARITH_FENCE
	fcmp	d3, d1
	cset	w8, hi
	//APP
	//NO_APP
	cbz	w8, .LBB126_27
// %bb.25:                              // %"senyolanda::loans::breakeven.exit.i"
	fdiv	d0, d0, d2
	mov	x20, x5
	bl	"numbers::whole::ceiling_to_u32"
	cmp	w19, w0
	b.hs	.LBB126_28
// %bb.26:
	mov	w0, #13                         // =0xd
	ldp	x20, x19, [sp, #16]             // 16-byte Folded Reload
	ldp	x29, x30, [sp], #32             // 16-byte Folded Reload
	ret
.LBB126_27:
	mov	w10, #12                        // =0xc
	and	x0, x10, #0x100000000
	add	w8, w10, #1
	bfxil	x0, x8, #0, #4
	ldp	x20, x19, [sp, #16]             // 16-byte Folded Reload
	ldp	x29, x30, [sp], #32             // 16-byte Folded Reload
	ret
.LBB126_28:                             // %arm.2.i1.i
	mov	w8, w0
	mov	x0, xzr
	str	w8, [x20]
	ldp	x20, x19, [sp, #16]             // 16-byte Folded Reload
	ldp	x29, x30, [sp], #32             // 16-byte Folded Reload
	ret
.Lfunc_end126:
	.size	senyolanda_refinance_breakeven, .Lfunc_end126-senyolanda_refinance_breakeven
                                        // -- End function
	.section	.text.senyolanda_remaining_balance,"ax",@progbits
	.globl	senyolanda_remaining_balance    // -- Begin function senyolanda_remaining_balance
	.p2align	2
	.type	senyolanda_remaining_balance,@function
senyolanda_remaining_balance:           // @senyolanda_remaining_balance
// %bb.0:                               // %start
	cmp	x0, #0
	mov	w8, #4096                       // =0x1000
	csel	x8, x8, xzr, eq
	cmp	x1, #21
	b.ne	.LBB127_4
// %bb.1:                               // %"records::record::bad_record.exit.i.i.i.i"
	add	x9, x0, x8
	ldrb	w8, [x9]
	cmp	w8, #1
	b.ne	.LBB127_4
// %bb.2:                               // %arm.2.i
	ldur	x8, [x9, #1]
	mov	x12, #9221120237041090560       // =0x7ff8000000000000
	mov	x11, #9218868437227405312       // =0x7ff0000000000000
	fmov	d1, x12
	fmov	d0, x8
	and	x10, x8, #0x7fffffffffffffff
	cmp	x10, x11
	fcsel	d0, d1, d0, hi
	movi	d1, #0000000000000000
	fmov	d2, d0
	//ARITH_FENCE
	//ARITH_FENCE
	fcmp	d2, d1
	fsub	d2, d0, d0
	cset	w8, mi
	//APP
	//NO_APP
	cmp	w8, #0
	//ARITH_FENCE
	fccmp	d2, d1, #0, eq
	b.eq	.LBB127_5
// %bb.3:
	mov	w0, #1                          // =0x1
	ret
.LBB127_4:
	mov	w0, #11                         // =0xb
	ret
.LBB127_5:                              // %join.3.i.i.i
	ldur	w8, [x9, #17]
	sub	w10, w8, #1201
	cmn	w10, #1200
	b.hs	.LBB127_7
// %bb.6:
	mov	w0, #2                          // =0x2
	ret
.LBB127_7:                              // %join.5.i.preheader.i.i.i.i
	ldur	x9, [x9, #9]
	fmov	d2, #12.00000000
	mov	x11, #9221120237041090560       // =0x7ff8000000000000
	mov	x10, #9218868437227405312       // =0x7ff0000000000000
	fmov	d4, #1.00000000
	fmov	d3, x9
	and	x9, x9, #0x7fffffffffffffff
	cmp	x9, x10
	mov	w9, w8
	fdiv	d2, d3, d2
	fmov	d3, x11
	fcsel	d2, d3, d2, hi
	fmov	d3, #1.00000000
	fadd	d5, d2, d4
.LBB127_8:                              // %join.5.i.i.i.i.i
                                        // =>This Inner Loop Header: Depth=1
	tst	w9, #0x1
	lsr	w9, w9, #1
	fcsel	d6, d4, d5, eq
	fmul	d5, d5, d5
	fmul	d3, d3, d6
	cbnz	w9, .LBB127_8
// %bb.9:                               // %"mortgage::payment::growth.exit.i.i.i"
	fmov	d5, d3
	fmov	d4, #1.00000000
	//ARITH_FENCE
	//ARITH_FENCE
	fcmp	d5, d4
	b.ne	.LBB127_23
// %bb.10:                              // %then.1.i.i.i.i
	ucvtf	d3, w8
	//ARITH_FENCE
	fdiv	d3, d0, d3
	cmp	w8, w2
	csel	w9, w8, w2, lo
	cbz	w9, .LBB127_24
.LBB127_11:                             // %join.3.i.i.i.i.i.i.preheader
	mov	w10, wzr
	b	.LBB127_16
.LBB127_12:                             // %then.4.i.i.i.i.i.i
                                        //   in Loop: Header=BB127_16 Depth=1
	fsub	d0, d0, d0
	movi	d4, #0000000000000000
	fadd	d5, d0, d4
	fmov	d6, d5
	//ARITH_FENCE
	fcmp	d1, d6
	cset	w10, mi
	//APP
	//NO_APP
	cbz	w10, .LBB127_20
// %bb.13:                              //   in Loop: Header=BB127_16 Depth=1
	mov	w10, w8
.LBB127_14:                             //   in Loop: Header=BB127_16 Depth=1
	fmov	d4, d5
.LBB127_15:                             // %arm.3.i.i.i.i
                                        //   in Loop: Header=BB127_16 Depth=1
	subs	w9, w9, #1
	b.eq	.LBB127_25
.LBB127_16:                             // %join.3.i.i.i.i.i.i
                                        // =>This Inner Loop Header: Depth=1
	add	w10, w10, #1
	cmp	w10, w8
	b.eq	.LBB127_12
// %bb.17:                              // %join.6.i.i.i.i.i.i
                                        //   in Loop: Header=BB127_16 Depth=1
	fmul	d4, d2, d0
	fsub	d4, d3, d4
	fmov	d5, d4
	//ARITH_FENCE
	fcmp	d1, d5
	cset	w11, mi
	//APP
	//NO_APP
	cbz	w11, .LBB127_21
// %bb.18:                              // %select.end
                                        //   in Loop: Header=BB127_16 Depth=1
	fmov	d5, d4
	fmov	d6, d0
	//ARITH_FENCE
	//ARITH_FENCE
	fcmp	d5, d6
	cset	w11, mi
	//APP
	//NO_APP
	cbz	w11, .LBB127_22
.LBB127_19:                             // %select.end1
                                        //   in Loop: Header=BB127_16 Depth=1
	fsub	d0, d0, d4
	movi	d4, #0000000000000000
	fadd	d5, d0, d4
	fmov	d6, d5
	//ARITH_FENCE
	fcmp	d1, d6
	cset	w11, mi
	//APP
	//NO_APP
	cbnz	w11, .LBB127_14
	b	.LBB127_15
.LBB127_20:                             // %select.false6
                                        //   in Loop: Header=BB127_16 Depth=1
	mov	w10, w8
	b	.LBB127_15
.LBB127_21:                             // %select.false
                                        //   in Loop: Header=BB127_16 Depth=1
	movi	d4, #0000000000000000
	fmov	d5, d4
	fmov	d6, d0
	//ARITH_FENCE
	//ARITH_FENCE
	fcmp	d5, d6
	cset	w11, mi
	//APP
	//NO_APP
	cbnz	w11, .LBB127_19
.LBB127_22:                             // %select.false2
                                        //   in Loop: Header=BB127_16 Depth=1
	fmov	d4, d0
	b	.LBB127_19
.LBB127_23:                             // %join.3.i.i.i.i
	fmul	d4, d0, d2
	fmov	d5, #-1.00000000
	fmul	d4, d4, d3
	fadd	d3, d3, d5
	fdiv	d3, d4, d3
	cmp	w8, w2
	csel	w9, w8, w2, lo
	cbnz	w9, .LBB127_11
.LBB127_24:
	fmov	d4, d0
.LBB127_25:                             // %arm.2.i3.i
	mov	x0, xzr
	str	d4, [x3]
	ret
.Lfunc_end127:
	.size	senyolanda_remaining_balance, .Lfunc_end127-senyolanda_remaining_balance
                                        // -- End function
	.section	.text.senyolanda_swap_curve_rate,"ax",@progbits
	.globl	senyolanda_swap_curve_rate      // -- Begin function senyolanda_swap_curve_rate
	.p2align	2
	.type	senyolanda_swap_curve_rate,@function
senyolanda_swap_curve_rate:             // @senyolanda_swap_curve_rate
// %bb.0:                               // %start
	stp	x29, x30, [sp, #-32]!           // 16-byte Folded Spill
	mov	w9, #4096                       // =0x1000
	cmp	x0, #0
	str	x19, [sp, #16]                  // 8-byte Spill
	csel	x8, x9, xzr, eq
	cmp	x2, #0
	mov	x29, sp
	csel	x9, x9, xzr, eq
	cmp	x1, x3
	b.ne	.LBB128_3
// %bb.1:                               // %join.3.i.i.i.i
	sub	x10, x1, #121
	cmn	x10, #120
	b.hs	.LBB128_5
// %bb.2:
	mov	w8, #4                          // =0x4
	and	x8, x8, #0xffffffff000000ff
	add	x0, x8, #1
	ldr	x19, [sp, #16]                  // 8-byte Reload
	ldp	x29, x30, [sp], #32             // 16-byte Folded Reload
	ret
.LBB128_3:
	mov	w8, #3                          // =0x3
.LBB128_4:                              // %arm.1.i2.i
	and	x8, x8, #0xffffffff000000ff
	add	x0, x8, #1
	ldr	x19, [sp, #16]                  // 8-byte Reload
	ldp	x29, x30, [sp], #32             // 16-byte Folded Reload
	ret
.LBB128_5:                              // %join.6.i.i.i.i
	movi	d1, #0000000000000000
	mov	x11, x0
	add	x0, x0, x8
	ldr	d2, [x0]
	mov	x12, x2
	add	x2, x2, x9
	//ARITH_FENCE
	//ARITH_FENCE
	fcmp	d1, d2
	cset	w10, hi
	//APP
	//NO_APP
	cbz	w10, .LBB128_10
.LBB128_6:                              // %join.6.i9.i.i.i.i.preheader
	mov	x9, #-4503599627370496          // =0xfff0000000000000
	mov	w8, #5                          // =0x5
	mov	x10, x2
	fmov	d3, x9
	mov	x9, x0
	mov	x11, x1
.LBB128_7:                              // %join.6.i9.i.i.i.i
                                        // =>This Inner Loop Header: Depth=1
	ldr	d2, [x9], #8
	ldr	d5, [x10], #8
	fsub	d4, d2, d2
	fsub	d5, d5, d5
	//ARITH_FENCE
	fcmp	d4, d1
	//ARITH_FENCE
	fccmp	d5, d1, #0, eq
	b.ne	.LBB128_4
// %bb.8:                               // %"curves::curve::bad_knot.exit.i.i.i.i.i.i"
                                        //   in Loop: Header=BB128_7 Depth=1
	fmov	d4, d2
	//ARITH_FENCE
	//ARITH_FENCE
	fcmp	d4, d1
	cset	w12, mi
	fcmp	d3, d4
	//APP
	//NO_APP
	cset	w13, pl
	//APP
	//NO_APP
	orr	w12, w12, w13
	cbnz	w12, .LBB128_4
// %bb.9:                               // %join.10.i.i.i.i.i
                                        //   in Loop: Header=BB128_7 Depth=1
	fmov	d3, d2
	mov	x12, #4294967296                // =0x100000000
	subs	x11, x11, #1
	add	x8, x8, x12
	b.ne	.LBB128_7
	b	.LBB128_16
.LBB128_10:                             // %join.3.i.i.i.i.i
	ldr	d2, [x2]
	fsub	d2, d2, d2
	//ARITH_FENCE
	fcmp	d2, d1
	b.ne	.LBB128_6
// %bb.11:                              // %join.6.i.i.i.i.i
	add	x10, x0, x1, lsl #3
	ldur	d2, [x10, #-8]
	mov	x10, #9218868437227405312       // =0x7ff0000000000000
	fmov	d3, x10
	//ARITH_FENCE
	//ARITH_FENCE
	fcmp	d2, d3
	cset	w10, mi
	//APP
	//NO_APP
	cbz	w10, .LBB128_6
// %bb.12:                              // %then.7.i.i.i.i.i
	cmp	x1, #2
	b.lo	.LBB128_16
// %bb.13:                              // %join.5.i.i.i.i.i.i.preheader
	add	x9, x9, x12
	add	x11, x8, x11
	mov	x10, xzr
	sub	x8, x1, #1
	add	x9, x9, #8
	add	x11, x11, #8
.LBB128_14:                             // %join.5.i.i.i.i.i.i
                                        // =>This Inner Loop Header: Depth=1
	ldp	d2, d3, [x11, #-8]
	add	x11, x11, #8
	//ARITH_FENCE
	//ARITH_FENCE
	fcmp	d2, d3
	ldr	d2, [x9], #8
	fsub	d2, d2, d2
	cset	w12, pl
	//APP
	//NO_APP
	cmp	w12, #0
	cinc	x10, x10, ne
	//ARITH_FENCE
	fcmp	d2, d1
	cinc	x10, x10, ne
	subs	x8, x8, #1
	b.ne	.LBB128_14
// %bb.15:                              // %"curves::curve::all_in_order.exit.i.i.i.i"
	cbnz	x10, .LBB128_6
.LBB128_16:                             // %arm.1.i.i.i
	fsub	d2, d0, d0
	//ARITH_FENCE
	fcmp	d2, d1
	b.eq	.LBB128_18
// %bb.17:
	mov	w8, #6                          // =0x6
	and	x8, x8, #0xffffffff000000ff
	add	x0, x8, #1
	ldr	x19, [sp, #16]                  // 8-byte Reload
	ldp	x29, x30, [sp], #32             // 16-byte Folded Reload
	ret
.LBB128_18:                             // %arm.2.i1.i
	mov	x3, x1
	mov	x19, x4
	bl	"spread_analytics::rate_curves::rate_of"
	mov	x0, xzr
	str	d0, [x19]
	ldr	x19, [sp, #16]                  // 8-byte Reload
	ldp	x29, x30, [sp], #32             // 16-byte Folded Reload
	ret
.Lfunc_end128:
	.size	senyolanda_swap_curve_rate, .Lfunc_end128-senyolanda_swap_curve_rate
                                        // -- End function
	.section	.text.senyolanda_total_interest,"ax",@progbits
	.globl	senyolanda_total_interest       // -- Begin function senyolanda_total_interest
	.p2align	2
	.type	senyolanda_total_interest,@function
senyolanda_total_interest:              // @senyolanda_total_interest
// %bb.0:                               // %start
	mov	w8, #4096                       // =0x1000
	cmp	x0, #0
	csel	x8, x8, xzr, eq
	cmp	x1, #21
	b.ne	.LBB129_4
// %bb.1:                               // %"records::record::bad_record.exit.i.i.i.i"
	add	x9, x0, x8
	ldrb	w8, [x9]
	cmp	w8, #1
	b.ne	.LBB129_4
// %bb.2:                               // %arm.2.i
	ldur	x8, [x9, #1]
	mov	x12, #9221120237041090560       // =0x7ff8000000000000
	mov	x11, #9218868437227405312       // =0x7ff0000000000000
	fmov	d1, x12
	fmov	d0, x8
	and	x10, x8, #0x7fffffffffffffff
	cmp	x10, x11
	fcsel	d0, d1, d0, hi
	movi	d1, #0000000000000000
	fmov	d2, d0
	//ARITH_FENCE
	//ARITH_FENCE
	fcmp	d2, d1
	fsub	d2, d0, d0
	cset	w8, mi
	//APP
	//NO_APP
	cmp	w8, #0
	//ARITH_FENCE
	fccmp	d2, d1, #0, eq
	b.eq	.LBB129_5
// %bb.3:
	mov	w0, #1                          // =0x1
	ret
.LBB129_4:
	mov	w0, #11                         // =0xb
	ret
.LBB129_5:                              // %join.3.i.i.i
	ldur	w8, [x9, #17]
	sub	w10, w8, #1201
	cmn	w10, #1200
	b.hs	.LBB129_7
// %bb.6:
	mov	w0, #2                          // =0x2
	ret
.LBB129_7:                              // %join.5.i.preheader.i.i.i.i.i
	ldur	x9, [x9, #9]
	fmov	d2, #12.00000000
	mov	x11, #9221120237041090560       // =0x7ff8000000000000
	mov	x10, #9218868437227405312       // =0x7ff0000000000000
	fmov	d4, #1.00000000
	fmov	d3, x9
	and	x9, x9, #0x7fffffffffffffff
	cmp	x9, x10
	mov	w9, w8
	fdiv	d2, d3, d2
	fmov	d3, x11
	fcsel	d2, d3, d2, hi
	fmov	d3, #1.00000000
	fadd	d5, d2, d4
.LBB129_8:                              // %join.5.i.i.i.i.i.i
                                        // =>This Inner Loop Header: Depth=1
	tst	w9, #0x1
	lsr	w9, w9, #1
	fcsel	d6, d4, d5, eq
	fmul	d5, d5, d5
	fmul	d3, d3, d6
	cbnz	w9, .LBB129_8
// %bb.9:                               // %"mortgage::payment::growth.exit.i.i.i.i"
	fmov	d5, d3
	fmov	d4, #1.00000000
	//ARITH_FENCE
	//ARITH_FENCE
	fcmp	d5, d4
	b.ne	.LBB129_11
// %bb.10:                              // %then.1.i.i.i.i.i
	ucvtf	d3, w8
	//ARITH_FENCE
	fdiv	d3, d0, d3
	b	.LBB129_12
.LBB129_11:                             // %join.3.i.i.i.i.i
	fmul	d4, d0, d2
	fmov	d5, #-1.00000000
	fmul	d4, d4, d3
	fadd	d3, d3, d5
	fdiv	d3, d4, d3
.LBB129_12:                             // %join.3.i.lr.ph.i.i.i.i.i
	movi	d4, #0000000000000000
	mov	w10, wzr
	mov	w9, w8
	b	.LBB129_15
.LBB129_13:                             // %arm.3.i.i.i.i.i
                                        //   in Loop: Header=BB129_15 Depth=1
	mov	w10, w11
.LBB129_14:                             // %arm.3.i.i.i.i.i
                                        //   in Loop: Header=BB129_15 Depth=1
	fsub	d0, d0, d6
	fadd	d4, d4, d5
	subs	w9, w9, #1
	b.eq	.LBB129_20
.LBB129_15:                             // %join.3.i.i.i.i.i.i.i
                                        // =>This Inner Loop Header: Depth=1
	fmul	d5, d2, d0
	fmov	d6, d0
	add	w11, w10, #1
	cmp	w11, w8
	mov	w10, w8
	b.eq	.LBB129_14
// %bb.16:                              // %join.6.i.i.i.i.i.i.i
                                        //   in Loop: Header=BB129_15 Depth=1
	fsub	d6, d3, d5
	fmov	d7, d6
	//ARITH_FENCE
	fcmp	d1, d7
	cset	w10, mi
	//APP
	//NO_APP
	cbnz	w10, .LBB129_18
// %bb.17:                              // %select.false
                                        //   in Loop: Header=BB129_15 Depth=1
	movi	d6, #0000000000000000
.LBB129_18:                             // %select.end
                                        //   in Loop: Header=BB129_15 Depth=1
	fmov	d7, d6
	fmov	d16, d0
	//ARITH_FENCE
	//ARITH_FENCE
	fcmp	d7, d16
	cset	w10, mi
	//APP
	//NO_APP
	cbnz	w10, .LBB129_13
// %bb.19:                              // %select.false2
                                        //   in Loop: Header=BB129_15 Depth=1
	fmov	d6, d0
	b	.LBB129_13
.LBB129_20:                             // %arm.2.i5.i
	mov	x0, xzr
	str	d4, [x2]
	ret
.Lfunc_end129:
	.size	senyolanda_total_interest, .Lfunc_end129-senyolanda_total_interest
                                        // -- End function
	.section	.text.senyolanda_write_bond,"ax",@progbits
	.globl	senyolanda_write_bond           // -- Begin function senyolanda_write_bond
	.p2align	2
	.type	senyolanda_write_bond,@function
senyolanda_write_bond:                  // @senyolanda_write_bond
// %bb.0:                               // %start
	cmp	w0, #3
	b.ls	.LBB130_2
// %bb.1:
	mov	w0, #11                         // =0xb
	ret
.LBB130_2:                              // %arm.2.i
	fmov	d3, d0
	fmov	x9, d0
	mov	x10, #9221120237041090560       // =0x7ff8000000000000
	fmov	d0, d1
	fmov	x11, d1
	mov	w8, w0
	mov	x0, xzr
	mov	w12, #2                         // =0x2
	strb	w8, [x1, #25]
	strb	w12, [x1]
	//ARITH_FENCE
	fcmp	d3, d3
	//ARITH_FENCE
	csel	x9, x10, x9, vs
	fcmp	d0, d0
	fmov	d0, d2
	stur	x9, [x1, #1]
	fmov	x9, d2
	csel	x11, x10, x11, vs
	//ARITH_FENCE
	fcmp	d0, d0
	stur	x11, [x1, #9]
	csel	x9, x10, x9, vs
	stur	x9, [x1, #17]
	ret
.Lfunc_end130:
	.size	senyolanda_write_bond, .Lfunc_end130-senyolanda_write_bond
                                        // -- End function
	.section	.text.senyolanda_write_dated_swap,"ax",@progbits
	.globl	senyolanda_write_dated_swap     // -- Begin function senyolanda_write_dated_swap
	.p2align	2
	.type	senyolanda_write_dated_swap,@function
senyolanda_write_dated_swap:            // @senyolanda_write_dated_swap
// %bb.0:                               // %start
	lsl	w8, w3, #24
	cmp	w1, #16, lsl #12                // =65536
	orr	w9, w3, w2
	cset	w10, lo
	cmp	w9, #256
	orr	w11, w6, w5
	add	w8, w8, w2, lsl #16
	cset	w9, lo
	ands	w10, w10, w9
	lsl	w9, w6, #24
	add	w8, w8, w1
	csel	w8, w8, wzr, ne
	cmp	w4, #16, lsl #12                // =65536
	add	w9, w9, w5, lsl #16
	cset	w12, lo
	cmp	w11, #256
	cset	w11, lo
	add	w9, w9, w4
	ands	w11, w12, w11
	csel	w9, w9, wzr, ne
	cmp	w7, #2
	b.ls	.LBB131_2
// %bb.1:
	mov	w0, #11                         // =0xb
	ret
.LBB131_2:                              // %arm.2.i
	and	w10, w10, w11
	tbz	w10, #0, .LBB131_4
// %bb.3:                               // %arm.10.i
	fmov	d3, d0
	fmov	x12, d0
	mov	x13, #9221120237041090560       // =0x7ff8000000000000
	fmov	d0, d1
	fmov	x10, d1
	ldr	x11, [sp]
	mov	w14, #5                         // =0x5
	stur	w8, [x11, #29]
	//ARITH_FENCE
	fcmp	d3, d3
	stur	w9, [x11, #33]
	fmov	x9, d2
	//ARITH_FENCE
	stur	w0, [x11, #25]
	mov	x0, xzr
	strb	w14, [x11]
	csel	x12, x13, x12, vs
	fcmp	d0, d0
	fmov	d0, d2
	stur	x12, [x11, #1]
	strb	w7, [x11, #37]
	csel	x8, x13, x10, vs
	//ARITH_FENCE
	fcmp	d0, d0
	stur	x8, [x11, #9]
	csel	x8, x13, x9, vs
	stur	x8, [x11, #17]
	ret
.LBB131_4:
	mov	w0, #15                         // =0xf
	ret
.Lfunc_end131:
	.size	senyolanda_write_dated_swap, .Lfunc_end131-senyolanda_write_dated_swap
                                        // -- End function
	.section	.text.senyolanda_write_loan,"ax",@progbits
	.globl	senyolanda_write_loan           // -- Begin function senyolanda_write_loan
	.p2align	2
	.type	senyolanda_write_loan,@function
senyolanda_write_loan:                  // @senyolanda_write_loan
// %bb.0:                               // %start
	fmov	d2, d0
	fmov	x10, d0
	mov	x9, #9221120237041090560        // =0x7ff8000000000000
	fmov	d0, d1
	fmov	x12, d1
	mov	w8, w0
	mov	x0, xzr
	mov	w11, #1                         // =0x1
	stur	w8, [x1, #17]
	strb	w11, [x1]
	//ARITH_FENCE
	fcmp	d2, d2
	//ARITH_FENCE
	csel	x10, x9, x10, vs
	fcmp	d0, d0
	stur	x10, [x1, #1]
	csel	x9, x9, x12, vs
	stur	x9, [x1, #9]
	ret
.Lfunc_end132:
	.size	senyolanda_write_loan, .Lfunc_end132-senyolanda_write_loan
                                        // -- End function
	.section	.text.senyolanda_write_row,"ax",@progbits
	.globl	senyolanda_write_row            // -- Begin function senyolanda_write_row
	.p2align	2
	.type	senyolanda_write_row,@function
senyolanda_write_row:                   // @senyolanda_write_row
// %bb.0:                               // %start
	fmov	d4, d0
	fmov	x9, d0
	mov	x10, #9221120237041090560       // =0x7ff8000000000000
	fmov	d0, d1
	fmov	x11, d1
	fmov	x13, d2
	stur	w0, [x1, #1]
	mov	x0, xzr
	mov	w12, #3                         // =0x3
	//ARITH_FENCE
	fcmp	d4, d4
	strb	w12, [x1]
	//ARITH_FENCE
	csel	x9, x10, x9, vs
	fcmp	d0, d0
	fmov	d0, d2
	stur	x9, [x1, #5]
	fmov	x9, d3
	csel	x11, x10, x11, vs
	//ARITH_FENCE
	fcmp	d0, d0
	stur	x11, [x1, #13]
	fmov	d0, d3
	csel	x8, x10, x13, vs
	stur	x8, [x1, #21]
	//ARITH_FENCE
	fcmp	d0, d0
	csel	x8, x10, x9, vs
	stur	x8, [x1, #29]
	ret
.Lfunc_end133:
	.size	senyolanda_write_row, .Lfunc_end133-senyolanda_write_row
                                        // -- End function
	.section	.text.senyolanda_write_swap,"ax",@progbits
	.globl	senyolanda_write_swap           // -- Begin function senyolanda_write_swap
	.p2align	2
	.type	senyolanda_write_swap,@function
senyolanda_write_swap:                  // @senyolanda_write_swap
// %bb.0:                               // %start
	cmp	w1, #2
	b.ls	.LBB134_2
// %bb.1:
	mov	w0, #11                         // =0xb
	ret
.LBB134_2:                              // %arm.2.i
	fmov	d3, d0
	fmov	x9, d0
	mov	x10, #9221120237041090560       // =0x7ff8000000000000
	fmov	d0, d1
	fmov	x11, d1
	stur	w0, [x2, #25]
	mov	w8, #4                          // =0x4
	mov	x0, xzr
	strb	w8, [x2]
	fmov	x8, d2
	//ARITH_FENCE
	fcmp	d3, d3
	strb	w1, [x2, #29]
	//ARITH_FENCE
	csel	x9, x10, x9, vs
	fcmp	d0, d0
	fmov	d0, d2
	stur	x9, [x2, #1]
	csel	x11, x10, x11, vs
	//ARITH_FENCE
	fcmp	d0, d0
	stur	x11, [x2, #9]
	csel	x8, x10, x8, vs
	stur	x8, [x2, #17]
	ret
.Lfunc_end134:
	.size	senyolanda_write_swap, .Lfunc_end134-senyolanda_write_swap
                                        // -- End function
	.section	.text.senyolanda_yield_curve_discount_factor,"ax",@progbits
	.globl	senyolanda_yield_curve_discount_factor // -- Begin function senyolanda_yield_curve_discount_factor
	.p2align	2
	.type	senyolanda_yield_curve_discount_factor,@function
senyolanda_yield_curve_discount_factor: // @senyolanda_yield_curve_discount_factor
// %bb.0:                               // %start
	stp	x29, x30, [sp, #-32]!           // 16-byte Folded Spill
	mov	w9, #4096                       // =0x1000
	cmp	x0, #0
	str	x19, [sp, #16]                  // 8-byte Spill
	csel	x8, x9, xzr, eq
	cmp	x2, #0
	mov	x29, sp
	csel	x9, x9, xzr, eq
	cmp	x1, x3
	b.ne	.LBB135_3
// %bb.1:                               // %join.3.i.i.i.i
	sub	x10, x1, #121
	cmn	x10, #120
	b.hs	.LBB135_5
// %bb.2:
	mov	w8, #4                          // =0x4
	and	x8, x8, #0xffffffff000000ff
	add	x0, x8, #1
	ldr	x19, [sp, #16]                  // 8-byte Reload
	ldp	x29, x30, [sp], #32             // 16-byte Folded Reload
	ret
.LBB135_3:
	mov	w8, #3                          // =0x3
.LBB135_4:                              // %arm.1.i2.i
	and	x8, x8, #0xffffffff000000ff
	add	x0, x8, #1
	ldr	x19, [sp, #16]                  // 8-byte Reload
	ldp	x29, x30, [sp], #32             // 16-byte Folded Reload
	ret
.LBB135_5:                              // %join.6.i.i.i.i
	movi	d1, #0000000000000000
	mov	x11, x0
	add	x0, x0, x8
	ldr	d2, [x0]
	mov	x12, x2
	add	x2, x2, x9
	//ARITH_FENCE
	//ARITH_FENCE
	fcmp	d1, d2
	cset	w10, hi
	//APP
	//NO_APP
	cbz	w10, .LBB135_10
.LBB135_6:                              // %join.6.i9.i.i.i.i.preheader
	mov	x9, #-4503599627370496          // =0xfff0000000000000
	mov	w8, #5                          // =0x5
	mov	x10, x2
	fmov	d3, x9
	mov	x9, x0
	mov	x11, x1
.LBB135_7:                              // %join.6.i9.i.i.i.i
                                        // =>This Inner Loop Header: Depth=1
	ldr	d2, [x9], #8
	ldr	d5, [x10], #8
	fsub	d4, d2, d2
	fsub	d5, d5, d5
	//ARITH_FENCE
	fcmp	d4, d1
	//ARITH_FENCE
	fccmp	d5, d1, #0, eq
	b.ne	.LBB135_4
// %bb.8:                               // %"curves::curve::bad_knot.exit.i.i.i.i.i.i"
                                        //   in Loop: Header=BB135_7 Depth=1
	fmov	d4, d2
	//ARITH_FENCE
	//ARITH_FENCE
	fcmp	d4, d1
	cset	w12, mi
	fcmp	d3, d4
	//APP
	//NO_APP
	cset	w13, pl
	//APP
	//NO_APP
	orr	w12, w12, w13
	cbnz	w12, .LBB135_4
// %bb.9:                               // %join.10.i.i.i.i.i
                                        //   in Loop: Header=BB135_7 Depth=1
	fmov	d3, d2
	mov	x12, #4294967296                // =0x100000000
	subs	x11, x11, #1
	add	x8, x8, x12
	b.ne	.LBB135_7
	b	.LBB135_16
.LBB135_10:                             // %join.3.i.i.i.i.i
	ldr	d2, [x2]
	fsub	d2, d2, d2
	//ARITH_FENCE
	fcmp	d2, d1
	b.ne	.LBB135_6
// %bb.11:                              // %join.6.i.i.i.i.i
	add	x10, x0, x1, lsl #3
	ldur	d2, [x10, #-8]
	mov	x10, #9218868437227405312       // =0x7ff0000000000000
	fmov	d3, x10
	//ARITH_FENCE
	//ARITH_FENCE
	fcmp	d2, d3
	cset	w10, mi
	//APP
	//NO_APP
	cbz	w10, .LBB135_6
// %bb.12:                              // %then.7.i.i.i.i.i
	cmp	x1, #2
	b.lo	.LBB135_16
// %bb.13:                              // %join.5.i.i.i.i.i.i.preheader
	add	x9, x9, x12
	add	x11, x8, x11
	mov	x10, xzr
	sub	x8, x1, #1
	add	x9, x9, #8
	add	x11, x11, #8
.LBB135_14:                             // %join.5.i.i.i.i.i.i
                                        // =>This Inner Loop Header: Depth=1
	ldp	d2, d3, [x11, #-8]
	add	x11, x11, #8
	//ARITH_FENCE
	//ARITH_FENCE
	fcmp	d2, d3
	ldr	d2, [x9], #8
	fsub	d2, d2, d2
	cset	w12, pl
	//APP
	//NO_APP
	cmp	w12, #0
	cinc	x10, x10, ne
	//ARITH_FENCE
	fcmp	d2, d1
	cinc	x10, x10, ne
	subs	x8, x8, #1
	b.ne	.LBB135_14
// %bb.15:                              // %"curves::curve::all_in_order.exit.i.i.i.i"
	cbnz	x10, .LBB135_6
.LBB135_16:                             // %arm.1.i.i.i
	fsub	d2, d0, d0
	//ARITH_FENCE
	fcmp	d2, d1
	b.eq	.LBB135_18
// %bb.17:
	mov	w8, #6                          // =0x6
	and	x8, x8, #0xffffffff000000ff
	add	x0, x8, #1
	ldr	x19, [sp, #16]                  // 8-byte Reload
	ldp	x29, x30, [sp], #32             // 16-byte Folded Reload
	ret
.LBB135_18:                             // %arm.2.i1.i
	mov	x3, x1
	mov	x19, x4
	bl	"yield_curve::linear::discount_of"
	mov	x0, xzr
	str	d0, [x19]
	ldr	x19, [sp, #16]                  // 8-byte Reload
	ldp	x29, x30, [sp], #32             // 16-byte Folded Reload
	ret
.Lfunc_end135:
	.size	senyolanda_yield_curve_discount_factor, .Lfunc_end135-senyolanda_yield_curve_discount_factor
                                        // -- End function
	.section	.rodata.cst8,"aM",@progbits,8
	.p2align	3, 0x0                          // -- Begin function senyolanda_yield_curve_forward_rate
.LCPI136_0:
	.xword	0x3d719799812dea11              // double 9.9999999999999998E-13
	.section	.text.senyolanda_yield_curve_forward_rate,"ax",@progbits
	.globl	senyolanda_yield_curve_forward_rate
	.p2align	2
	.type	senyolanda_yield_curve_forward_rate,@function
senyolanda_yield_curve_forward_rate:    // @senyolanda_yield_curve_forward_rate
// %bb.0:                               // %start
	stp	d11, d10, [sp, #-80]!           // 16-byte Folded Spill
	stp	d9, d8, [sp, #16]               // 16-byte Folded Spill
	fsub	d2, d0, d0
	movi	d9, #0000000000000000
	cmp	x0, #0
	mov	w8, #4096                       // =0x1000
	fsub	d3, d1, d1
	csel	x9, x8, xzr, eq
	cmp	x2, #0
	stp	x29, x30, [sp, #32]             // 16-byte Folded Spill
	csel	x10, x8, xzr, eq
	stp	x22, x21, [sp, #48]             // 16-byte Folded Spill
	add	x29, sp, #32
	//ARITH_FENCE
	//ARITH_FENCE
	fcmp	d2, d9
	stp	x20, x19, [sp, #64]             // 16-byte Folded Spill
	//ARITH_FENCE
	cset	w8, ne
	fcmp	d3, d9
	csinc	w8, w8, wzr, eq
	cmp	x1, x3
	b.ne	.LBB136_3
// %bb.1:                               // %join.3.i.i.i.i
	sub	x11, x1, #121
	cmn	x11, #120
	b.hs	.LBB136_5
// %bb.2:
	mov	w9, #4                          // =0x4
	b	.LBB136_4
.LBB136_3:
	mov	w9, #3                          // =0x3
.LBB136_4:                              // %arm.1.i2.i
	and	x8, x9, #0xffffffff000000ff
	add	x0, x8, #1
	ldp	x20, x19, [sp, #64]             // 16-byte Folded Reload
	ldp	x22, x21, [sp, #48]             // 16-byte Folded Reload
	ldp	x29, x30, [sp, #32]             // 16-byte Folded Reload
	ldp	d9, d8, [sp, #16]               // 16-byte Folded Reload
	ldp	d11, d10, [sp], #80             // 16-byte Folded Reload
	ret
.LBB136_5:                              // %join.6.i.i.i.i
	add	x19, x0, x9
	add	x20, x2, x10
	ldr	d2, [x19]
	//ARITH_FENCE
	fcmp	d9, d2
	cset	w11, hi
	//APP
	//NO_APP
	cbz	w11, .LBB136_10
.LBB136_6:                              // %join.6.i9.i.i.i.i.preheader
	mov	x10, #-4503599627370496         // =0xfff0000000000000
	mov	w9, #5                          // =0x5
	mov	x11, x20
	fmov	d3, x10
	mov	x10, x19
	mov	x12, x1
.LBB136_7:                              // %join.6.i9.i.i.i.i
                                        // =>This Inner Loop Header: Depth=1
	ldr	d2, [x10], #8
	ldr	d5, [x11], #8
	fsub	d4, d2, d2
	fsub	d5, d5, d5
	//ARITH_FENCE
	fcmp	d4, d9
	//ARITH_FENCE
	fccmp	d5, d9, #0, eq
	b.ne	.LBB136_4
// %bb.8:                               // %"curves::curve::bad_knot.exit.i.i.i.i.i.i"
                                        //   in Loop: Header=BB136_7 Depth=1
	fmov	d4, d2
	//ARITH_FENCE
	//ARITH_FENCE
	fcmp	d4, d9
	cset	w13, mi
	fcmp	d3, d4
	//APP
	//NO_APP
	cset	w14, pl
	//APP
	//NO_APP
	orr	w13, w13, w14
	cbnz	w13, .LBB136_4
// %bb.9:                               // %join.10.i.i.i.i.i
                                        //   in Loop: Header=BB136_7 Depth=1
	fmov	d3, d2
	mov	x13, #4294967296                // =0x100000000
	subs	x12, x12, #1
	add	x9, x9, x13
	b.ne	.LBB136_7
	b	.LBB136_16
.LBB136_10:                             // %join.3.i.i.i.i.i
	ldr	d2, [x20]
	fsub	d2, d2, d2
	//ARITH_FENCE
	fcmp	d2, d9
	b.ne	.LBB136_6
// %bb.11:                              // %join.6.i.i.i.i.i
	add	x11, x19, x1, lsl #3
	ldur	d2, [x11, #-8]
	mov	x11, #9218868437227405312       // =0x7ff0000000000000
	fmov	d3, x11
	//ARITH_FENCE
	//ARITH_FENCE
	fcmp	d2, d3
	cset	w11, mi
	//APP
	//NO_APP
	cbz	w11, .LBB136_6
// %bb.12:                              // %then.7.i.i.i.i.i
	cmp	x1, #2
	b.lo	.LBB136_16
// %bb.13:                              // %join.5.i.i.i.i.i.i.preheader
	add	x10, x10, x2
	add	x12, x9, x0
	mov	x11, xzr
	sub	x9, x1, #1
	add	x10, x10, #8
	add	x12, x12, #8
.LBB136_14:                             // %join.5.i.i.i.i.i.i
                                        // =>This Inner Loop Header: Depth=1
	ldp	d2, d3, [x12, #-8]
	add	x12, x12, #8
	//ARITH_FENCE
	//ARITH_FENCE
	fcmp	d2, d3
	ldr	d2, [x10], #8
	fsub	d2, d2, d2
	cset	w13, pl
	//APP
	//NO_APP
	cmp	w13, #0
	cinc	x11, x11, ne
	//ARITH_FENCE
	fcmp	d2, d9
	cinc	x11, x11, ne
	subs	x9, x9, #1
	b.ne	.LBB136_14
// %bb.15:                              // %"curves::curve::all_in_order.exit.i.i.i.i"
	cbnz	x11, .LBB136_6
.LBB136_16:                             // %arm.1.i.i.i
	tbz	w8, #0, .LBB136_18
// %bb.17:
	mov	w9, #6                          // =0x6
	b	.LBB136_4
.LBB136_18:                             // %arm.1.i.i
	mov	x0, x19
	mov	x2, x20
	mov	x3, x1
	mov	x21, x4
	mov	x22, x1
	fmov	d8, d0
	fmov	d10, d1
	bl	"yield_curve::linear::yield_of"
	fmov	d1, d10
	fsub	d10, d10, d8
	movi	d2, #0000000000000000
	fmov	d11, d8
	fmov	d8, d0
	fmov	d3, d10
	fsub	d2, d2, d10
	//ARITH_FENCE
	fcmp	d9, d3
	cset	w8, mi
	//APP
	//NO_APP
	cmp	w8, #0
	fcsel	d2, d10, d2, ne
	adrp	x8, .LCPI136_0
	ldr	d3, [x8, :lo12:.LCPI136_0]
	//ARITH_FENCE
	//ARITH_FENCE
	fcmp	d2, d3
	cset	w8, mi
	//APP
	//NO_APP
	cbnz	w8, .LBB136_20
// %bb.19:                              // %join.3.i.i.i
	fmov	d0, d1
	mov	x0, x19
	mov	x1, x22
	mov	x2, x20
	mov	x3, x22
	fmov	d9, d1
	bl	"yield_curve::linear::yield_of"
	fmul	d1, d11, d8
	fmul	d0, d9, d0
	fsub	d0, d0, d1
	fdiv	d8, d0, d10
.LBB136_20:                             // %arm.2.i1.i
	mov	x0, xzr
	str	d8, [x21]
	ldp	x20, x19, [sp, #64]             // 16-byte Folded Reload
	ldp	x22, x21, [sp, #48]             // 16-byte Folded Reload
	ldp	x29, x30, [sp, #32]             // 16-byte Folded Reload
	ldp	d9, d8, [sp, #16]               // 16-byte Folded Reload
	ldp	d11, d10, [sp], #80             // 16-byte Folded Reload
	ret
.Lfunc_end136:
	.size	senyolanda_yield_curve_forward_rate, .Lfunc_end136-senyolanda_yield_curve_forward_rate
                                        // -- End function
	.section	.text.senyolanda_zero_coupon_bond_price,"ax",@progbits
	.globl	senyolanda_zero_coupon_bond_price // -- Begin function senyolanda_zero_coupon_bond_price
	.p2align	2
	.type	senyolanda_zero_coupon_bond_price,@function
senyolanda_zero_coupon_bond_price:      // @senyolanda_zero_coupon_bond_price
// %bb.0:                               // %start
	movi	d2, #0000000000000000
	fsub	d3, d1, d1
	//ARITH_FENCE
	//ARITH_FENCE
	fcmp	d3, d2
	b.eq	.LBB137_2
// %bb.1:
	mov	w0, #7                          // =0x7
	ret
.LBB137_2:                              // %join.3.i.i
	fsub	d3, d0, d0
	//ARITH_FENCE
	fcmp	d3, d2
	b.eq	.LBB137_4
// %bb.3:
	mov	w0, #9                          // =0x9
	ret
.LBB137_4:                              // %arm.2.i.i
	stp	x29, x30, [sp, #-32]!           // 16-byte Folded Spill
	fmov	d2, #1.00000000
	fneg	d1, d1
	str	x19, [sp, #16]                  // 8-byte Spill
	mov	x29, sp
	mov	x19, x0
	fadd	d0, d0, d2
	bl	"elementary::power::power"
	str	d0, [x19]
	ldr	x19, [sp, #16]                  // 8-byte Reload
	mov	x0, xzr
	ldp	x29, x30, [sp], #32             // 16-byte Folded Reload
	ret
.Lfunc_end137:
	.size	senyolanda_zero_coupon_bond_price, .Lfunc_end137-senyolanda_zero_coupon_bond_price
                                        // -- End function
	.section	.text.senyolanda_zero_curve_discount_factor,"ax",@progbits
	.globl	senyolanda_zero_curve_discount_factor // -- Begin function senyolanda_zero_curve_discount_factor
	.p2align	2
	.type	senyolanda_zero_curve_discount_factor,@function
senyolanda_zero_curve_discount_factor:  // @senyolanda_zero_curve_discount_factor
// %bb.0:                               // %start
	stp	x29, x30, [sp, #-32]!           // 16-byte Folded Spill
	mov	w9, #4096                       // =0x1000
	cmp	x0, #0
	str	x19, [sp, #16]                  // 8-byte Spill
	csel	x8, x9, xzr, eq
	cmp	x2, #0
	mov	x29, sp
	csel	x9, x9, xzr, eq
	cmp	x1, x3
	b.ne	.LBB138_3
// %bb.1:                               // %join.3.i.i.i.i
	sub	x10, x1, #121
	cmn	x10, #120
	b.hs	.LBB138_5
// %bb.2:
	mov	w8, #4                          // =0x4
	and	x8, x8, #0xffffffff000000ff
	add	x0, x8, #1
	ldr	x19, [sp, #16]                  // 8-byte Reload
	ldp	x29, x30, [sp], #32             // 16-byte Folded Reload
	ret
.LBB138_3:
	mov	w8, #3                          // =0x3
.LBB138_4:                              // %arm.1.i2.i
	and	x8, x8, #0xffffffff000000ff
	add	x0, x8, #1
	ldr	x19, [sp, #16]                  // 8-byte Reload
	ldp	x29, x30, [sp], #32             // 16-byte Folded Reload
	ret
.LBB138_5:                              // %join.6.i.i.i.i
	movi	d1, #0000000000000000
	mov	x11, x0
	add	x0, x0, x8
	ldr	d2, [x0]
	mov	x12, x2
	add	x2, x2, x9
	//ARITH_FENCE
	//ARITH_FENCE
	fcmp	d1, d2
	cset	w10, hi
	//APP
	//NO_APP
	cbz	w10, .LBB138_10
.LBB138_6:                              // %join.6.i9.i.i.i.i.preheader
	mov	x9, #-4503599627370496          // =0xfff0000000000000
	mov	w8, #5                          // =0x5
	mov	x10, x2
	fmov	d3, x9
	mov	x9, x0
	mov	x11, x1
.LBB138_7:                              // %join.6.i9.i.i.i.i
                                        // =>This Inner Loop Header: Depth=1
	ldr	d2, [x9], #8
	ldr	d5, [x10], #8
	fsub	d4, d2, d2
	fsub	d5, d5, d5
	//ARITH_FENCE
	fcmp	d4, d1
	//ARITH_FENCE
	fccmp	d5, d1, #0, eq
	b.ne	.LBB138_4
// %bb.8:                               // %"curves::curve::bad_knot.exit.i.i.i.i.i.i"
                                        //   in Loop: Header=BB138_7 Depth=1
	fmov	d4, d2
	//ARITH_FENCE
	//ARITH_FENCE
	fcmp	d4, d1
	cset	w12, mi
	fcmp	d3, d4
	//APP
	//NO_APP
	cset	w13, pl
	//APP
	//NO_APP
	orr	w12, w12, w13
	cbnz	w12, .LBB138_4
// %bb.9:                               // %join.10.i.i.i.i.i
                                        //   in Loop: Header=BB138_7 Depth=1
	fmov	d3, d2
	mov	x12, #4294967296                // =0x100000000
	subs	x11, x11, #1
	add	x8, x8, x12
	b.ne	.LBB138_7
	b	.LBB138_16
.LBB138_10:                             // %join.3.i.i.i.i.i
	ldr	d2, [x2]
	fsub	d2, d2, d2
	//ARITH_FENCE
	fcmp	d2, d1
	b.ne	.LBB138_6
// %bb.11:                              // %join.6.i.i.i.i.i
	add	x10, x0, x1, lsl #3
	ldur	d2, [x10, #-8]
	mov	x10, #9218868437227405312       // =0x7ff0000000000000
	fmov	d3, x10
	//ARITH_FENCE
	//ARITH_FENCE
	fcmp	d2, d3
	cset	w10, mi
	//APP
	//NO_APP
	cbz	w10, .LBB138_6
// %bb.12:                              // %then.7.i.i.i.i.i
	cmp	x1, #2
	b.lo	.LBB138_16
// %bb.13:                              // %join.5.i.i.i.i.i.i.preheader
	add	x9, x9, x12
	add	x11, x8, x11
	mov	x10, xzr
	sub	x8, x1, #1
	add	x9, x9, #8
	add	x11, x11, #8
.LBB138_14:                             // %join.5.i.i.i.i.i.i
                                        // =>This Inner Loop Header: Depth=1
	ldp	d2, d3, [x11, #-8]
	add	x11, x11, #8
	//ARITH_FENCE
	//ARITH_FENCE
	fcmp	d2, d3
	ldr	d2, [x9], #8
	fsub	d2, d2, d2
	cset	w12, pl
	//APP
	//NO_APP
	cmp	w12, #0
	cinc	x10, x10, ne
	//ARITH_FENCE
	fcmp	d2, d1
	cinc	x10, x10, ne
	subs	x8, x8, #1
	b.ne	.LBB138_14
// %bb.15:                              // %"curves::curve::all_in_order.exit.i.i.i.i"
	cbnz	x10, .LBB138_6
.LBB138_16:                             // %arm.1.i.i.i
	fsub	d2, d0, d0
	//ARITH_FENCE
	fcmp	d2, d1
	b.eq	.LBB138_18
// %bb.17:
	mov	w8, #6                          // =0x6
	and	x8, x8, #0xffffffff000000ff
	add	x0, x8, #1
	ldr	x19, [sp, #16]                  // 8-byte Reload
	ldp	x29, x30, [sp], #32             // 16-byte Folded Reload
	ret
.LBB138_18:                             // %arm.2.i1.i
	mov	x3, x1
	mov	x19, x4
	bl	"spread_analytics::rate_curves::discount_of"
	mov	x0, xzr
	str	d0, [x19]
	ldr	x19, [sp, #16]                  // 8-byte Reload
	ldp	x29, x30, [sp], #32             // 16-byte Folded Reload
	ret
.Lfunc_end138:
	.size	senyolanda_zero_curve_discount_factor, .Lfunc_end138-senyolanda_zero_curve_discount_factor
                                        // -- End function
	.section	.rodata.cst8,"aM",@progbits,8
	.p2align	3, 0x0                          // -- Begin function senyolanda_zero_curve_forward_rate
.LCPI139_0:
	.xword	0x3d719799812dea11              // double 9.9999999999999998E-13
	.section	.text.senyolanda_zero_curve_forward_rate,"ax",@progbits
	.globl	senyolanda_zero_curve_forward_rate
	.p2align	2
	.type	senyolanda_zero_curve_forward_rate,@function
senyolanda_zero_curve_forward_rate:     // @senyolanda_zero_curve_forward_rate
// %bb.0:                               // %start
	str	d12, [sp, #-96]!                // 8-byte Folded Spill
	stp	d11, d10, [sp, #16]             // 16-byte Folded Spill
	fsub	d2, d0, d0
	movi	d11, #0000000000000000
	cmp	x0, #0
	mov	w8, #4096                       // =0x1000
	fsub	d3, d1, d1
	csel	x9, x8, xzr, eq
	cmp	x2, #0
	stp	d9, d8, [sp, #32]               // 16-byte Folded Spill
	csel	x10, x8, xzr, eq
	stp	x29, x30, [sp, #48]             // 16-byte Folded Spill
	add	x29, sp, #48
	//ARITH_FENCE
	//ARITH_FENCE
	fcmp	d2, d11
	stp	x22, x21, [sp, #64]             // 16-byte Folded Spill
	//ARITH_FENCE
	stp	x20, x19, [sp, #80]             // 16-byte Folded Spill
	cset	w8, ne
	fcmp	d3, d11
	csinc	w8, w8, wzr, eq
	cmp	x1, x3
	b.ne	.LBB139_3
// %bb.1:                               // %join.3.i.i.i.i
	sub	x11, x1, #121
	cmn	x11, #120
	b.hs	.LBB139_6
// %bb.2:
	mov	w9, #4                          // =0x4
	b	.LBB139_4
.LBB139_3:
	mov	w9, #3                          // =0x3
.LBB139_4:                              // %arm.1.i2.i
	and	x8, x9, #0xffffffff000000ff
	add	x0, x8, #1
.LBB139_5:                              // %"senyolanda::spreads::senyolanda_zero_curve_forward_rate.exit"
	ldp	x20, x19, [sp, #80]             // 16-byte Folded Reload
	ldp	x22, x21, [sp, #64]             // 16-byte Folded Reload
	ldp	x29, x30, [sp, #48]             // 16-byte Folded Reload
	ldp	d9, d8, [sp, #32]               // 16-byte Folded Reload
	ldp	d11, d10, [sp, #16]             // 16-byte Folded Reload
	ldr	d12, [sp], #96                  // 8-byte Folded Reload
	ret
.LBB139_6:                              // %join.6.i.i.i.i
	mov	x12, x0
	add	x0, x0, x9
	mov	x13, x2
	ldr	d2, [x0]
	add	x2, x2, x10
	//ARITH_FENCE
	fcmp	d11, d2
	cset	w11, hi
	//APP
	//NO_APP
	cbz	w11, .LBB139_11
.LBB139_7:                              // %join.6.i9.i.i.i.i.preheader
	mov	x10, #-4503599627370496         // =0xfff0000000000000
	mov	w9, #5                          // =0x5
	mov	x11, x2
	fmov	d3, x10
	mov	x10, x0
	mov	x12, x1
.LBB139_8:                              // %join.6.i9.i.i.i.i
                                        // =>This Inner Loop Header: Depth=1
	ldr	d2, [x10], #8
	ldr	d5, [x11], #8
	fsub	d4, d2, d2
	fsub	d5, d5, d5
	//ARITH_FENCE
	fcmp	d4, d11
	//ARITH_FENCE
	fccmp	d5, d11, #0, eq
	b.ne	.LBB139_4
// %bb.9:                               // %"curves::curve::bad_knot.exit.i.i.i.i.i.i"
                                        //   in Loop: Header=BB139_8 Depth=1
	fmov	d4, d2
	//ARITH_FENCE
	//ARITH_FENCE
	fcmp	d4, d11
	cset	w13, mi
	fcmp	d3, d4
	//APP
	//NO_APP
	cset	w14, pl
	//APP
	//NO_APP
	orr	w13, w13, w14
	cbnz	w13, .LBB139_4
// %bb.10:                              // %join.10.i.i.i.i.i
                                        //   in Loop: Header=BB139_8 Depth=1
	fmov	d3, d2
	mov	x13, #4294967296                // =0x100000000
	subs	x12, x12, #1
	add	x9, x9, x13
	b.ne	.LBB139_8
	b	.LBB139_17
.LBB139_11:                             // %join.3.i.i.i.i.i
	ldr	d2, [x2]
	fsub	d2, d2, d2
	//ARITH_FENCE
	fcmp	d2, d11
	b.ne	.LBB139_7
// %bb.12:                              // %join.6.i.i.i.i.i
	add	x11, x0, x1, lsl #3
	ldur	d2, [x11, #-8]
	mov	x11, #9218868437227405312       // =0x7ff0000000000000
	fmov	d3, x11
	//ARITH_FENCE
	//ARITH_FENCE
	fcmp	d2, d3
	cset	w11, mi
	//APP
	//NO_APP
	cbz	w11, .LBB139_7
// %bb.13:                              // %then.7.i.i.i.i.i
	cmp	x1, #2
	b.lo	.LBB139_17
// %bb.14:                              // %join.5.i.i.i.i.i.i.preheader
	add	x10, x10, x13
	add	x12, x9, x12
	mov	x11, xzr
	sub	x9, x1, #1
	add	x10, x10, #8
	add	x12, x12, #8
.LBB139_15:                             // %join.5.i.i.i.i.i.i
                                        // =>This Inner Loop Header: Depth=1
	ldp	d2, d3, [x12, #-8]
	add	x12, x12, #8
	//ARITH_FENCE
	//ARITH_FENCE
	fcmp	d2, d3
	ldr	d2, [x10], #8
	fsub	d2, d2, d2
	cset	w13, pl
	//APP
	//NO_APP
	cmp	w13, #0
	cinc	x11, x11, ne
	//ARITH_FENCE
	fcmp	d2, d11
	cinc	x11, x11, ne
	subs	x9, x9, #1
	b.ne	.LBB139_15
// %bb.16:                              // %"curves::curve::all_in_order.exit.i.i.i.i"
	cbnz	x11, .LBB139_7
.LBB139_17:                             // %arm.1.i.i.i
	tbz	w8, #0, .LBB139_19
// %bb.18:
	mov	w9, #6                          // =0x6
	b	.LBB139_4
.LBB139_19:                             // %arm.2.i.i
	fsub	d12, d1, d0
	movi	d8, #0000000000000000
	mov	x22, x4
	fmov	d2, d12
	//ARITH_FENCE
	fcmp	d11, d2
	fsub	d2, d8, d12
	cset	w8, mi
	//APP
	//NO_APP
	cmp	w8, #0
	fcsel	d2, d12, d2, ne
	adrp	x8, .LCPI139_0
	ldr	d3, [x8, :lo12:.LCPI139_0]
	//ARITH_FENCE
	//ARITH_FENCE
	fcmp	d2, d3
	cset	w8, mi
	//APP
	//NO_APP
	cbz	w8, .LBB139_21
// %bb.20:                              // %then.1.i.i.i
	mov	x3, x1
	bl	"spread_analytics::rate_curves::rate_of"
	fmov	d8, d0
	b	.LBB139_24
.LBB139_21:                             // %join.3.i.i.i
	mov	x3, x1
	mov	x19, x0
	mov	x20, x1
	mov	x21, x2
	fmov	d10, d1
	bl	"spread_analytics::rate_curves::discount_of"
	fmov	d9, d0
	fmov	d0, d10
	mov	x0, x19
	mov	x1, x20
	mov	x2, x21
	mov	x3, x20
	bl	"spread_analytics::rate_curves::discount_of"
	fmov	d2, d0
	fmov	d1, d9
	//ARITH_FENCE
	fcmp	d2, d11
	//ARITH_FENCE
	cset	w8, hi
	fcmp	d1, d11
	//APP
	//NO_APP
	cset	w9, hi
	//APP
	//NO_APP
	cbz	w9, .LBB139_24
// %bb.22:                              // %join.3.i.i.i
	cbz	w8, .LBB139_24
// %bb.23:                              // %after.4.i.i.i
	fdiv	d0, d9, d0
	bl	"elementary::ln::ln"
	fdiv	d8, d0, d12
.LBB139_24:                             // %arm.2.i1.i
	mov	x0, xzr
	str	d8, [x22]
	b	.LBB139_5
.Lfunc_end139:
	.size	senyolanda_zero_curve_forward_rate, .Lfunc_end139-senyolanda_zero_curve_forward_rate
                                        // -- End function
	.section	.text.senyolanda_zero_curve_rate,"ax",@progbits
	.globl	senyolanda_zero_curve_rate      // -- Begin function senyolanda_zero_curve_rate
	.p2align	2
	.type	senyolanda_zero_curve_rate,@function
senyolanda_zero_curve_rate:             // @senyolanda_zero_curve_rate
// %bb.0:                               // %start
	stp	x29, x30, [sp, #-32]!           // 16-byte Folded Spill
	mov	w9, #4096                       // =0x1000
	cmp	x0, #0
	str	x19, [sp, #16]                  // 8-byte Spill
	csel	x8, x9, xzr, eq
	cmp	x2, #0
	mov	x29, sp
	csel	x9, x9, xzr, eq
	cmp	x1, x3
	b.ne	.LBB140_3
// %bb.1:                               // %join.3.i.i.i.i
	sub	x10, x1, #121
	cmn	x10, #120
	b.hs	.LBB140_5
// %bb.2:
	mov	w8, #4                          // =0x4
	and	x8, x8, #0xffffffff000000ff
	add	x0, x8, #1
	ldr	x19, [sp, #16]                  // 8-byte Reload
	ldp	x29, x30, [sp], #32             // 16-byte Folded Reload
	ret
.LBB140_3:
	mov	w8, #3                          // =0x3
.LBB140_4:                              // %arm.1.i2.i
	and	x8, x8, #0xffffffff000000ff
	add	x0, x8, #1
	ldr	x19, [sp, #16]                  // 8-byte Reload
	ldp	x29, x30, [sp], #32             // 16-byte Folded Reload
	ret
.LBB140_5:                              // %join.6.i.i.i.i
	movi	d1, #0000000000000000
	mov	x11, x0
	add	x0, x0, x8
	ldr	d2, [x0]
	mov	x12, x2
	add	x2, x2, x9
	//ARITH_FENCE
	//ARITH_FENCE
	fcmp	d1, d2
	cset	w10, hi
	//APP
	//NO_APP
	cbz	w10, .LBB140_10
.LBB140_6:                              // %join.6.i9.i.i.i.i.preheader
	mov	x9, #-4503599627370496          // =0xfff0000000000000
	mov	w8, #5                          // =0x5
	mov	x10, x2
	fmov	d3, x9
	mov	x9, x0
	mov	x11, x1
.LBB140_7:                              // %join.6.i9.i.i.i.i
                                        // =>This Inner Loop Header: Depth=1
	ldr	d2, [x9], #8
	ldr	d5, [x10], #8
	fsub	d4, d2, d2
	fsub	d5, d5, d5
	//ARITH_FENCE
	fcmp	d4, d1
	//ARITH_FENCE
	fccmp	d5, d1, #0, eq
	b.ne	.LBB140_4
// %bb.8:                               // %"curves::curve::bad_knot.exit.i.i.i.i.i.i"
                                        //   in Loop: Header=BB140_7 Depth=1
	fmov	d4, d2
	//ARITH_FENCE
	//ARITH_FENCE
	fcmp	d4, d1
	cset	w12, mi
	fcmp	d3, d4
	//APP
	//NO_APP
	cset	w13, pl
	//APP
	//NO_APP
	orr	w12, w12, w13
	cbnz	w12, .LBB140_4
// %bb.9:                               // %join.10.i.i.i.i.i
                                        //   in Loop: Header=BB140_7 Depth=1
	fmov	d3, d2
	mov	x12, #4294967296                // =0x100000000
	subs	x11, x11, #1
	add	x8, x8, x12
	b.ne	.LBB140_7
	b	.LBB140_16
.LBB140_10:                             // %join.3.i.i.i.i.i
	ldr	d2, [x2]
	fsub	d2, d2, d2
	//ARITH_FENCE
	fcmp	d2, d1
	b.ne	.LBB140_6
// %bb.11:                              // %join.6.i.i.i.i.i
	add	x10, x0, x1, lsl #3
	ldur	d2, [x10, #-8]
	mov	x10, #9218868437227405312       // =0x7ff0000000000000
	fmov	d3, x10
	//ARITH_FENCE
	//ARITH_FENCE
	fcmp	d2, d3
	cset	w10, mi
	//APP
	//NO_APP
	cbz	w10, .LBB140_6
// %bb.12:                              // %then.7.i.i.i.i.i
	cmp	x1, #2
	b.lo	.LBB140_16
// %bb.13:                              // %join.5.i.i.i.i.i.i.preheader
	add	x9, x9, x12
	add	x11, x8, x11
	mov	x10, xzr
	sub	x8, x1, #1
	add	x9, x9, #8
	add	x11, x11, #8
.LBB140_14:                             // %join.5.i.i.i.i.i.i
                                        // =>This Inner Loop Header: Depth=1
	ldp	d2, d3, [x11, #-8]
	add	x11, x11, #8
	//ARITH_FENCE
	//ARITH_FENCE
	fcmp	d2, d3
	ldr	d2, [x9], #8
	fsub	d2, d2, d2
	cset	w12, pl
	//APP
	//NO_APP
	cmp	w12, #0
	cinc	x10, x10, ne
	//ARITH_FENCE
	fcmp	d2, d1
	cinc	x10, x10, ne
	subs	x8, x8, #1
	b.ne	.LBB140_14
// %bb.15:                              // %"curves::curve::all_in_order.exit.i.i.i.i"
	cbnz	x10, .LBB140_6
.LBB140_16:                             // %arm.1.i.i.i
	fsub	d2, d0, d0
	//ARITH_FENCE
	fcmp	d2, d1
	b.eq	.LBB140_18
// %bb.17:
	mov	w8, #6                          // =0x6
	and	x8, x8, #0xffffffff000000ff
	add	x0, x8, #1
	ldr	x19, [sp, #16]                  // 8-byte Reload
	ldp	x29, x30, [sp], #32             // 16-byte Folded Reload
	ret
.LBB140_18:                             // %arm.2.i1.i
	mov	x3, x1
	mov	x19, x4
	bl	"spread_analytics::rate_curves::rate_of"
	mov	x0, xzr
	str	d0, [x19]
	ldr	x19, [sp, #16]                  // 8-byte Reload
	ldp	x29, x30, [sp], #32             // 16-byte Folded Reload
	ret
.Lfunc_end140:
	.size	senyolanda_zero_curve_rate, .Lfunc_end140-senyolanda_zero_curve_rate
                                        // -- End function
	.section	.rodata.cst8,"aM",@progbits,8
	.p2align	3, 0x0                          // -- Begin function senyolanda_monthly_smm
.LCPI141_0:
	.xword	0x3faeb851eb851eb8              // double 0.059999999999999998
	.section	.text.senyolanda_monthly_smm,"ax",@progbits
	.globl	senyolanda_monthly_smm
	.p2align	2
	.type	senyolanda_monthly_smm,@function
senyolanda_monthly_smm:                 // @senyolanda_monthly_smm
// %bb.0:                               // %start
	str	d8, [sp, #-32]!                 // 8-byte Folded Spill
	mov	w8, #4096                       // =0x1000
	cmp	x1, #0
	str	x19, [sp, #24]                  // 8-byte Spill
	mov	x19, x4
	csel	x8, x8, xzr, eq
	cmp	w0, #2
	stp	x29, x30, [sp, #8]              // 16-byte Folded Spill
	add	x29, sp, #8
	b.eq	.LBB141_8
// %bb.1:                               // %start
	cmp	w0, #1
	b.eq	.LBB141_4
// %bb.2:                               // %start
	cbz	w0, .LBB141_6
// %bb.3:
	mov	w0, #11                         // =0xb
	ldp	x29, x30, [sp, #8]              // 16-byte Folded Reload
	ldr	x19, [sp, #24]                  // 8-byte Reload
	ldr	d8, [sp], #32                   // 8-byte Folded Reload
	ret
.LBB141_4:                              // %arm.2.i.i.i.i.i
	adrp	x8, .LCPI141_0
	cmp	w3, #30
	ldr	d1, [x8, :lo12:.LCPI141_0]
	fmul	d0, d0, d1
	b.hi	.LBB141_6
// %bb.5:                               // %then.1.i.i.i.i.i.i
	ucvtf	d1, w3
	fmov	d2, #30.00000000
	//ARITH_FENCE
	fdiv	d1, d1, d2
	fmul	d0, d0, d1
.LBB141_6:                              // %arm.1.i.i.i.i.i
	fmov	d8, #1.00000000
	mov	x8, #6148914691236517205        // =0x5555555555555555
	movk	x8, #16309, lsl #48
	fmov	d1, x8
	fsub	d0, d8, d0
	bl	"elementary::power::power"
	fsub	d0, d8, d0
.LBB141_7:                              // %arm.2.i4.i
	mov	x0, xzr
	str	d0, [x19]
	ldp	x29, x30, [sp, #8]              // 16-byte Folded Reload
	ldr	x19, [sp, #24]                  // 8-byte Reload
	ldr	d8, [sp], #32                   // 8-byte Folded Reload
	ret
.LBB141_8:                              // %arm.3.i.i.i.i.i
	cmp	w3, #0
	movi	d0, #0000000000000000
	cset	w9, ne
	sub	w9, w3, w9
	cmp	x2, x9
	b.ls	.LBB141_7
// %bb.9:                               // %arm.1.i.i.i.i.i.i.i
	add	x8, x1, x8
	ldr	d0, [x8, x9, lsl #3]
	mov	x0, xzr
	str	d0, [x19]
	ldp	x29, x30, [sp, #8]              // 16-byte Folded Reload
	ldr	x19, [sp, #24]                  // 8-byte Reload
	ldr	d8, [sp], #32                   // 8-byte Folded Reload
	ret
.Lfunc_end141:
	.size	senyolanda_monthly_smm, .Lfunc_end141-senyolanda_monthly_smm
                                        // -- End function
	.section	.text.senyolanda_pool_cash_flows,"ax",@progbits
	.globl	senyolanda_pool_cash_flows      // -- Begin function senyolanda_pool_cash_flows
	.p2align	2
	.type	senyolanda_pool_cash_flows,@function
senyolanda_pool_cash_flows:             // @senyolanda_pool_cash_flows
// %bb.0:                               // %start
	sub	sp, sp, #160
	str	d8, [sp, #80]                   // 8-byte Spill
	fmov	d8, d0
	cmp	x0, #0
	mov	w10, #4096                      // =0x1000
	str	x25, [sp, #104]                 // 8-byte Spill
	mov	x8, x0
	csel	x9, x10, xzr, eq
	cmp	x3, #0
	stp	x24, x23, [sp, #112]            // 16-byte Folded Spill
	csel	x25, x10, xzr, eq
	cmp	x5, #0
	stp	x22, x21, [sp, #128]            // 16-byte Folded Spill
	stp	x20, x19, [sp, #144]            // 16-byte Folded Spill
	mov	x19, x7
	mov	x20, x5
	mov	x22, x3
	mov	w23, w2
	mov	x21, x4
	csel	x24, x10, xzr, eq
	cmp	w2, #2
	mov	x2, x1
	stp	x29, x30, [sp, #88]             // 16-byte Folded Spill
	add	x29, sp, #88
	b.lo	.LBB142_2
// %bb.1:                               // %start
	movi	d8, #0000000000000000
	b.ne	.LBB142_4
.LBB142_2:                              // %arm.2.i
	sub	x0, x29, #32
	add	x1, x8, x9
	mov	w3, #1                          // =0x1
	mov	x4, x6
	stp	xzr, xzr, [x29, #-32]
	stur	xzr, [x29, #-16]
	bl	"pool::loans::Loans::judged"
	ldurb	w9, [x29, #-32]
	ldur	x8, [x29, #-28]
	cbnz	w9, .LBB142_5
// %bb.3:                               // %arm.2.i4.i
	ldur	x9, [x29, #-20]
	lsr	x8, x8, #32
	ldur	w10, [x29, #-12]
	add	x0, sp, #8
	add	x1, x20, x24
	str	d8, [sp, #32]
	stur	x9, [sp, #12]
	mov	w9, w23
	str	w8, [sp, #8]
	add	x8, x22, x25
	str	w10, [sp, #20]
	str	x9, [sp, #24]
	stp	x8, x21, [sp, #40]
	bl	"pool::flows::Pool::fill"
	mov	w8, w0
	mov	x0, xzr
	str	w8, [x19]
	b	.LBB142_6
.LBB142_4:                              // %arm.1.i
	add	x0, sp, #8
	add	x1, x8, x9
	mov	w3, #1                          // =0x1
	mov	x4, x6
	stp	xzr, xzr, [sp, #8]
	str	xzr, [sp, #24]
	bl	"pool::loans::Loans::judged"
	ldur	x8, [sp, #12]
	ldrb	w9, [sp, #8]
	and	x10, x8, #0xff
	cmp	x10, #10
	ccmp	w9, #0, #4, ne
	mov	w9, #10                         // =0xa
	csel	x8, x8, x9, ne
.LBB142_5:                              // %arm.1.i5.i
	and	x8, x8, #0xffffffff000000ff
	add	x0, x8, #1
.LBB142_6:                              // %"senyolanda::pools::senyolanda_pool_cash_flows.exit"
	ldp	x20, x19, [sp, #144]            // 16-byte Folded Reload
	ldr	x25, [sp, #104]                 // 8-byte Reload
	ldp	x22, x21, [sp, #128]            // 16-byte Folded Reload
	ldr	d8, [sp, #80]                   // 8-byte Reload
	ldp	x24, x23, [sp, #112]            // 16-byte Folded Reload
	ldp	x29, x30, [sp, #88]             // 16-byte Folded Reload
	add	sp, sp, #160
	ret
.Lfunc_end142:
	.size	senyolanda_pool_cash_flows, .Lfunc_end142-senyolanda_pool_cash_flows
                                        // -- End function
	.section	.rodata.cst16,"aM",@progbits,16
	.p2align	4, 0x0                          // -- Begin function senyolanda_pool_convexity
.LCPI143_0:
	.xword	0x3f1a36e2eb1c432d              // double 1.0E-4
	.xword	0xbf1a36e2eb1c432d              // double -1.0E-4
	.section	.rodata.cst8,"aM",@progbits,8
	.p2align	3, 0x0
.LCPI143_1:
	.xword	0x3e45798ee2308c3a              // double 1.0E-8
	.section	.text.senyolanda_pool_convexity,"ax",@progbits
	.globl	senyolanda_pool_convexity
	.p2align	2
	.type	senyolanda_pool_convexity,@function
senyolanda_pool_convexity:              // @senyolanda_pool_convexity
// %bb.0:                               // %start
	sub	sp, sp, #128
	cmp	x0, #0
	mov	w8, #4096                       // =0x1000
	str	d8, [sp, #96]                   // 8-byte Spill
	csel	x10, x8, xzr, eq
	cmp	x3, #0
	stp	x29, x30, [sp, #104]            // 16-byte Folded Spill
	csel	x9, x8, xzr, eq
	cmp	w2, #2
	add	x8, x0, x10
	str	x19, [sp, #120]                 // 8-byte Spill
	add	x29, sp, #104
                                        // kill: def $d1 killed $d1 def $q1
	b.lo	.LBB143_2
// %bb.1:                               // %start
	movi	d0, #0000000000000000
	b.ne	.LBB143_10
.LBB143_2:                              // %arm.1.i.i
	mov	x11, #53053                     // =0xcf3d
	mov	x12, #3120                      // =0xc30
	mov	x10, xzr
	movk	x11, #15603, lsl #16
	movk	x12, #12483, lsl #16
	str	wzr, [sp, #32]
	movk	x11, #62415, lsl #32
	movk	x12, #49932, lsl #32
	str	xzr, [sp, #24]
	movk	x11, #53052, lsl #48
	movk	x12, #3120, lsl #48
	mul	x11, x1, x11
	cmp	x11, x12
	b.ls	.LBB143_5
.LBB143_3:                              // %"pool::loans::Loans::judged.exit.i.i.i.i.i"
	mov	w8, #10                         // =0xa
	stur	x10, [sp, #28]
	str	w8, [sp, #24]
.LBB143_4:                              // %arm.2.i.i.i.i.i
	ldr	x8, [sp, #24]
	b	.LBB143_30
.LBB143_5:                              // %join.3.i.i.i.i.i.i.i
	cmp	x1, #20
	b.hi	.LBB143_13
// %bb.6:                               // %join.3.i.i.arm.1_crit_edge.i.i.i.i.i
	movi	d8, #0000000000000000
	//ARITH_FENCE
.LBB143_7:                              // %arm.1.i.i.i.i.i
	lsr	x10, x8, #32
	dup	v2.2d, v1.d[0]
	str	d0, [sp, #48]
	add	x9, x3, x9
	sub	x0, x29, #32
	mov	x19, x5
	stp	w8, w10, [sp, #24]
	adrp	x8, .LCPI143_0
	ldr	q0, [x8, :lo12:.LCPI143_0]
	and	w8, w2, #0xff
	mov	x2, sp
	stp	x1, x8, [sp, #32]
	add	x1, sp, #24
	fadd	v0.2d, v2.2d, v0.2d
	stp	xzr, xzr, [x29, #-32]
	stur	xzr, [x29, #-16]
	stp	x9, x4, [sp, #56]
	str	d1, [sp]
	stur	q0, [sp, #8]
	bl	"pool::flows::Pool::prices::<=3>"
	ldur	d0, [x29, #-32]
	movi	d1, #0000000000000000
	fmov	d2, d0
	//ARITH_FENCE
	fcmp	d2, d8
	b.eq	.LBB143_9
// %bb.8:                               // %join.3.i.i.i.i.i.i
	ldp	d2, d1, [x29, #-24]
	adrp	x8, .LCPI143_1
	ldr	d3, [x8, :lo12:.LCPI143_1]
	fadd	d1, d1, d2
	fadd	d2, d0, d0
	fmul	d0, d0, d3
	fsub	d1, d1, d2
	fdiv	d1, d1, d0
.LBB143_9:                              // %arm.2.i3.i
	mov	x0, xzr
	str	d1, [x19]
	ldp	x29, x30, [sp, #104]            // 16-byte Folded Reload
	ldr	x19, [sp, #120]                 // 8-byte Reload
	ldr	d8, [sp, #96]                   // 8-byte Reload
	add	sp, sp, #128
	ret
.LBB143_10:                             // %arm.2.i1.i.i
	mov	x9, #53053                      // =0xcf3d
	mov	x10, #3120                      // =0xc30
	str	wzr, [sp, #32]
	movk	x9, #15603, lsl #16
	movk	x10, #12483, lsl #16
	str	xzr, [sp, #24]
	movk	x9, #62415, lsl #32
	movk	x10, #49932, lsl #32
	movk	x9, #53052, lsl #48
	movk	x10, #3120, lsl #48
	mul	x9, x1, x9
	cmp	x9, x10
	b.ls	.LBB143_26
// %bb.11:
	mov	x8, xzr
.LBB143_12:                             // %join.4.i.i
	mov	w10, #10                        // =0xa
	mov	w9, #1                          // =0x1
	b	.LBB143_28
.LBB143_13:                             // %arm.3.i.preheader.i.i.i.i.i.i.i.i
	mov	x12, #34329                     // =0x8619
	sub	x10, x1, #21
	mov	x11, xzr
	movk	x12, #6241, lsl #16
	mov	x13, x8
	movk	x12, #24966, lsl #32
	movk	x12, #34328, lsl #48
	umulh	x12, x10, x12
	sub	x10, x10, x12
	add	x10, x12, x10, lsr #1
	lsr	x10, x10, #4
	add	x12, x10, #1
.LBB143_14:                             // %arm.3.i.i.i.i.i.i.i.i.i
                                        // =>This Inner Loop Header: Depth=1
	ldrb	w14, [x13], #21
	cmp	w14, #1
	b.ne	.LBB143_31
// %bb.15:                              // %join.9.i.i.i.i.i.i.i.i.i
                                        //   in Loop: Header=BB143_14 Depth=1
	add	x11, x11, #1
	cmp	x12, x11
	b.ne	.LBB143_14
// %bb.16:                              // %"records::record::bad_record.exit.i.i.i.i.lr.ph.i.i.i.i.i.i.i.i.i"
	movi	d8, #0000000000000000
	mov	x11, xzr
	add	x12, x10, #1
	mov	x13, x8
	//ARITH_FENCE
.LBB143_17:                             // %"records::record::bad_record.exit.i.i.i.i.i.i.i.i.i.i.i.i.i"
                                        // =>This Inner Loop Header: Depth=1
	ldrb	w14, [x13]
	cmp	w14, #1
	b.ne	.LBB143_52
// %bb.18:                              // %arm.3.i.i.i8.i.i.i.i.i.i
                                        //   in Loop: Header=BB143_17 Depth=1
	ldur	x14, [x13, #1]
	mov	x17, #9221120237041090560       // =0x7ff8000000000000
	mov	x16, #9218868437227405312       // =0x7ff0000000000000
	fmov	d3, x17
	fmov	d2, x14
	and	x15, x14, #0x7fffffffffffffff
	cmp	x15, x16
	fcsel	d2, d3, d2, hi
	fsub	d3, d2, d2
	//ARITH_FENCE
	fcmp	d2, d8
	cset	w14, mi
	//APP
	//NO_APP
	cmp	w14, #0
	//ARITH_FENCE
	fccmp	d3, d8, #0, eq
	b.ne	.LBB143_45
// %bb.19:                              // %join.9.i.i.i9.i.i.i.i.i.i
                                        //   in Loop: Header=BB143_17 Depth=1
	add	x11, x11, #1
	add	x13, x13, #21
	cmp	x12, x11
	b.ne	.LBB143_17
// %bb.20:                              // %"records::record::bad_record.exit.i.i.i.i.i.i10.i.i.i.i.i.i.i.preheader"
	mov	x11, xzr
	add	x10, x10, #1
	mov	x12, x8
.LBB143_21:                             // %"records::record::bad_record.exit.i.i.i.i.i.i10.i.i.i.i.i.i.i"
                                        // =>This Inner Loop Header: Depth=1
	ldrb	w13, [x12]
	cmp	w13, #1
	b.ne	.LBB143_52
// %bb.22:                              // %arm.3.i.i15.i.i.i.i.i.i.i
                                        //   in Loop: Header=BB143_21 Depth=1
	ldur	w13, [x12, #17]
	sub	w13, w13, #1201
	cmn	w13, #1200
	b.lo	.LBB143_47
// %bb.23:                              // %join.9.i.i16.i.i.i.i.i.i.i
                                        //   in Loop: Header=BB143_21 Depth=1
	add	x11, x11, #1
	add	x12, x12, #21
	cmp	x10, x11
	b.ne	.LBB143_21
// %bb.24:                              // %arm.5.i10.i.i.i.i.i.i
	cmp	x1, #1365
	b.lo	.LBB143_7
// %bb.25:
	mov	w8, #6                          // =0x6
	b	.LBB143_48
.LBB143_26:                             // %join.3.i.i.i
	subs	x9, x1, #21
	b.hs	.LBB143_32
.LBB143_27:
	mov	w9, wzr
	mov	w10, wzr
.LBB143_28:                             // %join.4.i.i
	str	w10, [sp, #24]
	stur	x8, [sp, #28]
.LBB143_29:                             // %arm.2.i.i
	ldr	x8, [sp, #24]
	and	x10, x8, #0xff
	cmp	x10, #10
	cset	w10, ne
	tst	w9, w10
	mov	w9, #10                         // =0xa
	csel	x8, x8, x9, ne
.LBB143_30:                             // %arm.1.i4.i
	and	x8, x8, #0xffffffff000000ff
	add	x0, x8, #1
	ldp	x29, x30, [sp, #104]            // 16-byte Folded Reload
	ldr	x19, [sp, #120]                 // 8-byte Reload
	ldr	d8, [sp, #96]                   // 8-byte Reload
	add	sp, sp, #128
	ret
.LBB143_31:                             // %"pool::loans::Loans::of.exit.thread42.i.i.i.i.i.i"
	mov	w8, #-1                         // =0xffffffff
	cmp	x11, x8
	csel	x10, x11, x8, lo
	b	.LBB143_3
.LBB143_32:                             // %arm.3.i.preheader.i.i.i.i
	mov	x11, #34329                     // =0x8619
	mov	x10, xzr
	mov	x12, x8
	movk	x11, #6241, lsl #16
	movk	x11, #24966, lsl #32
	movk	x11, #34328, lsl #48
	umulh	x11, x9, x11
	sub	x9, x9, x11
	add	x9, x11, x9, lsr #1
	lsr	x9, x9, #4
	add	x11, x9, #1
.LBB143_33:                             // %arm.3.i.i.i.i.i
                                        // =>This Inner Loop Header: Depth=1
	ldrb	w13, [x12], #21
	cmp	w13, #1
	b.ne	.LBB143_46
// %bb.34:                              // %join.9.i.i.i.i.i
                                        //   in Loop: Header=BB143_33 Depth=1
	add	x10, x10, #1
	cmp	x11, x10
	b.ne	.LBB143_33
// %bb.35:                              // %"records::record::bad_record.exit.i.i.i.i.lr.ph.i.i.i.i.i"
	movi	d0, #0000000000000000
	mov	x10, xzr
	add	x11, x9, #1
	mov	x12, x8
	//ARITH_FENCE
.LBB143_36:                             // %"records::record::bad_record.exit.i.i.i.i.i.i.i.i.i"
                                        // =>This Inner Loop Header: Depth=1
	ldrb	w13, [x12]
	cmp	w13, #1
	b.ne	.LBB143_52
// %bb.37:                              // %arm.3.i.i.i8.i.i
                                        //   in Loop: Header=BB143_36 Depth=1
	ldur	x13, [x12, #1]
	mov	x16, #9221120237041090560       // =0x7ff8000000000000
	mov	x15, #9218868437227405312       // =0x7ff0000000000000
	fmov	d2, x16
	fmov	d1, x13
	and	x14, x13, #0x7fffffffffffffff
	cmp	x14, x15
	fcsel	d1, d2, d1, hi
	fsub	d2, d1, d1
	//ARITH_FENCE
	fcmp	d1, d0
	cset	w13, mi
	//APP
	//NO_APP
	cmp	w13, #0
	//ARITH_FENCE
	fccmp	d2, d0, #0, eq
	b.ne	.LBB143_49
// %bb.38:                              // %join.9.i.i.i9.i.i
                                        //   in Loop: Header=BB143_36 Depth=1
	add	x10, x10, #1
	add	x12, x12, #21
	cmp	x11, x10
	b.ne	.LBB143_36
// %bb.39:                              // %"records::record::bad_record.exit.i.i.i.i.i.i10.i.i.i.preheader"
	mov	x10, xzr
	add	x9, x9, #1
	mov	x11, x8
.LBB143_40:                             // %"records::record::bad_record.exit.i.i.i.i.i.i10.i.i.i"
                                        // =>This Inner Loop Header: Depth=1
	ldrb	w12, [x11]
	cmp	w12, #1
	b.ne	.LBB143_52
// %bb.41:                              // %arm.3.i.i15.i.i.i
                                        //   in Loop: Header=BB143_40 Depth=1
	ldur	w12, [x11, #17]
	sub	w12, w12, #1201
	cmn	w12, #1200
	b.lo	.LBB143_50
// %bb.42:                              // %join.9.i.i16.i.i.i
                                        //   in Loop: Header=BB143_40 Depth=1
	add	x10, x10, #1
	add	x11, x11, #21
	cmp	x9, x10
	b.ne	.LBB143_40
// %bb.43:                              // %arm.5.i10.i.i
	cmp	x1, #1365
	b.lo	.LBB143_27
// %bb.44:
	mov	w8, #6                          // =0x6
	b	.LBB143_51
.LBB143_45:                             // %arm.2.i.i.i.i.i.i.i
	mov	w8, #-1                         // =0xffffffff
	cmp	x11, x8
	csel	x8, x11, x8, lo
	lsl	x8, x8, #32
	b	.LBB143_48
.LBB143_46:                             // %"pool::loans::Loans::of.exit.thread42.i.i"
	mov	w8, #-1                         // =0xffffffff
	cmp	x10, x8
	csel	x8, x10, x8, lo
	b	.LBB143_12
.LBB143_47:                             // %arm.1.i23.i.i.i.i.i.i.i
	mov	w8, #-1                         // =0xffffffff
	mov	w9, #1                          // =0x1
	cmp	x11, x8
	csel	x8, x11, x8, lo
	orr	x8, x9, x8, lsl #32
.LBB143_48:                             // %"pool::loans::Loans::judged.exit.thread.i.i.i.i.i"
	lsr	x9, x8, #32
	and	w8, w8, #0xff
	str	w8, [sp, #24]
	stur	x9, [sp, #28]
	b	.LBB143_4
.LBB143_49:                             // %arm.2.i.i11.i
	mov	w8, #-1                         // =0xffffffff
	cmp	x10, x8
	csel	x8, x10, x8, lo
	lsl	x8, x8, #32
	b	.LBB143_51
.LBB143_50:                             // %arm.1.i23.i.i.i
	mov	w8, #-1                         // =0xffffffff
	mov	w9, #1                          // =0x1
	cmp	x10, x8
	csel	x8, x10, x8, lo
	orr	x8, x9, x8, lsl #32
.LBB143_51:                             // %arm.6.i.i
	lsr	x9, x8, #32
	and	w8, w8, #0xff
	str	w8, [sp, #24]
	stur	x9, [sp, #28]
	mov	w9, #1                          // =0x1
	b	.LBB143_29
.LBB143_52:                             // %arm.2.i.i.i.i.i.i8.i
	brk	#0x1
.Lfunc_end143:
	.size	senyolanda_pool_convexity, .Lfunc_end143-senyolanda_pool_convexity
                                        // -- End function
	.section	.rodata.cst16,"aM",@progbits,16
	.p2align	4, 0x0                          // -- Begin function senyolanda_pool_duration
.LCPI144_0:
	.xword	0x3f1a36e2eb1c432d              // double 1.0E-4
	.xword	0xbf1a36e2eb1c432d              // double -1.0E-4
	.section	.rodata.cst8,"aM",@progbits,8
	.p2align	3, 0x0
.LCPI144_1:
	.xword	0x3f2a36e2eb1c432d              // double 2.0000000000000001E-4
	.section	.text.senyolanda_pool_duration,"ax",@progbits
	.globl	senyolanda_pool_duration
	.p2align	2
	.type	senyolanda_pool_duration,@function
senyolanda_pool_duration:               // @senyolanda_pool_duration
// %bb.0:                               // %start
	sub	sp, sp, #128
	cmp	x0, #0
	mov	w8, #4096                       // =0x1000
	str	d8, [sp, #96]                   // 8-byte Spill
	csel	x10, x8, xzr, eq
	cmp	x3, #0
	stp	x29, x30, [sp, #104]            // 16-byte Folded Spill
	csel	x9, x8, xzr, eq
	cmp	w2, #2
	add	x8, x0, x10
	str	x19, [sp, #120]                 // 8-byte Spill
	add	x29, sp, #104
                                        // kill: def $d1 killed $d1 def $q1
	b.lo	.LBB144_2
// %bb.1:                               // %start
	movi	d0, #0000000000000000
	b.ne	.LBB144_10
.LBB144_2:                              // %arm.1.i.i
	mov	x11, #53053                     // =0xcf3d
	mov	x12, #3120                      // =0xc30
	mov	x10, xzr
	movk	x11, #15603, lsl #16
	movk	x12, #12483, lsl #16
	str	wzr, [sp, #32]
	movk	x11, #62415, lsl #32
	movk	x12, #49932, lsl #32
	str	xzr, [sp, #24]
	movk	x11, #53052, lsl #48
	movk	x12, #3120, lsl #48
	mul	x11, x1, x11
	cmp	x11, x12
	b.ls	.LBB144_5
.LBB144_3:                              // %"pool::loans::Loans::judged.exit.i.i.i.i.i"
	mov	w8, #10                         // =0xa
	stur	x10, [sp, #28]
	str	w8, [sp, #24]
.LBB144_4:                              // %arm.2.i.i.i.i.i
	ldr	x8, [sp, #24]
	b	.LBB144_30
.LBB144_5:                              // %join.3.i.i.i.i.i.i.i
	cmp	x1, #20
	b.hi	.LBB144_13
// %bb.6:                               // %join.3.i.i.arm.1_crit_edge.i.i.i.i.i
	movi	d8, #0000000000000000
	//ARITH_FENCE
.LBB144_7:                              // %arm.1.i.i.i.i.i
	lsr	x10, x8, #32
	dup	v2.2d, v1.d[0]
	str	d0, [sp, #48]
	add	x9, x3, x9
	sub	x0, x29, #32
	mov	x19, x5
	stp	w8, w10, [sp, #24]
	adrp	x8, .LCPI144_0
	ldr	q0, [x8, :lo12:.LCPI144_0]
	and	w8, w2, #0xff
	mov	x2, sp
	stp	x1, x8, [sp, #32]
	add	x1, sp, #24
	fadd	v0.2d, v2.2d, v0.2d
	stp	xzr, xzr, [x29, #-32]
	stur	xzr, [x29, #-16]
	stp	x9, x4, [sp, #56]
	str	d1, [sp]
	stur	q0, [sp, #8]
	bl	"pool::flows::Pool::prices::<=3>"
	ldur	d0, [x29, #-32]
	movi	d1, #0000000000000000
	fmov	d2, d0
	//ARITH_FENCE
	fcmp	d2, d8
	b.eq	.LBB144_9
// %bb.8:                               // %join.3.i.i.i.i.i.i
	adrp	x8, .LCPI144_1
	ldp	d2, d1, [x29, #-24]
	ldr	d3, [x8, :lo12:.LCPI144_1]
	fsub	d1, d1, d2
	fmul	d0, d0, d3
	fdiv	d1, d1, d0
.LBB144_9:                              // %arm.2.i3.i
	mov	x0, xzr
	str	d1, [x19]
	ldp	x29, x30, [sp, #104]            // 16-byte Folded Reload
	ldr	x19, [sp, #120]                 // 8-byte Reload
	ldr	d8, [sp, #96]                   // 8-byte Reload
	add	sp, sp, #128
	ret
.LBB144_10:                             // %arm.2.i1.i.i
	mov	x9, #53053                      // =0xcf3d
	mov	x10, #3120                      // =0xc30
	str	wzr, [sp, #32]
	movk	x9, #15603, lsl #16
	movk	x10, #12483, lsl #16
	str	xzr, [sp, #24]
	movk	x9, #62415, lsl #32
	movk	x10, #49932, lsl #32
	movk	x9, #53052, lsl #48
	movk	x10, #3120, lsl #48
	mul	x9, x1, x9
	cmp	x9, x10
	b.ls	.LBB144_26
// %bb.11:
	mov	x8, xzr
.LBB144_12:                             // %join.4.i.i
	mov	w10, #10                        // =0xa
	mov	w9, #1                          // =0x1
	b	.LBB144_28
.LBB144_13:                             // %arm.3.i.preheader.i.i.i.i.i.i.i.i
	mov	x12, #34329                     // =0x8619
	sub	x10, x1, #21
	mov	x11, xzr
	movk	x12, #6241, lsl #16
	mov	x13, x8
	movk	x12, #24966, lsl #32
	movk	x12, #34328, lsl #48
	umulh	x12, x10, x12
	sub	x10, x10, x12
	add	x10, x12, x10, lsr #1
	lsr	x10, x10, #4
	add	x12, x10, #1
.LBB144_14:                             // %arm.3.i.i.i.i.i.i.i.i.i
                                        // =>This Inner Loop Header: Depth=1
	ldrb	w14, [x13], #21
	cmp	w14, #1
	b.ne	.LBB144_31
// %bb.15:                              // %join.9.i.i.i.i.i.i.i.i.i
                                        //   in Loop: Header=BB144_14 Depth=1
	add	x11, x11, #1
	cmp	x12, x11
	b.ne	.LBB144_14
// %bb.16:                              // %"records::record::bad_record.exit.i.i.i.i.lr.ph.i.i.i.i.i.i.i.i.i"
	movi	d8, #0000000000000000
	mov	x11, xzr
	add	x12, x10, #1
	mov	x13, x8
	//ARITH_FENCE
.LBB144_17:                             // %"records::record::bad_record.exit.i.i.i.i.i.i.i.i.i.i.i.i.i"
                                        // =>This Inner Loop Header: Depth=1
	ldrb	w14, [x13]
	cmp	w14, #1
	b.ne	.LBB144_52
// %bb.18:                              // %arm.3.i.i.i8.i.i.i.i.i.i
                                        //   in Loop: Header=BB144_17 Depth=1
	ldur	x14, [x13, #1]
	mov	x17, #9221120237041090560       // =0x7ff8000000000000
	mov	x16, #9218868437227405312       // =0x7ff0000000000000
	fmov	d3, x17
	fmov	d2, x14
	and	x15, x14, #0x7fffffffffffffff
	cmp	x15, x16
	fcsel	d2, d3, d2, hi
	fsub	d3, d2, d2
	//ARITH_FENCE
	fcmp	d2, d8
	cset	w14, mi
	//APP
	//NO_APP
	cmp	w14, #0
	//ARITH_FENCE
	fccmp	d3, d8, #0, eq
	b.ne	.LBB144_45
// %bb.19:                              // %join.9.i.i.i9.i.i.i.i.i.i
                                        //   in Loop: Header=BB144_17 Depth=1
	add	x11, x11, #1
	add	x13, x13, #21
	cmp	x12, x11
	b.ne	.LBB144_17
// %bb.20:                              // %"records::record::bad_record.exit.i.i.i.i.i.i10.i.i.i.i.i.i.i.preheader"
	mov	x11, xzr
	add	x10, x10, #1
	mov	x12, x8
.LBB144_21:                             // %"records::record::bad_record.exit.i.i.i.i.i.i10.i.i.i.i.i.i.i"
                                        // =>This Inner Loop Header: Depth=1
	ldrb	w13, [x12]
	cmp	w13, #1
	b.ne	.LBB144_52
// %bb.22:                              // %arm.3.i.i15.i.i.i.i.i.i.i
                                        //   in Loop: Header=BB144_21 Depth=1
	ldur	w13, [x12, #17]
	sub	w13, w13, #1201
	cmn	w13, #1200
	b.lo	.LBB144_47
// %bb.23:                              // %join.9.i.i16.i.i.i.i.i.i.i
                                        //   in Loop: Header=BB144_21 Depth=1
	add	x11, x11, #1
	add	x12, x12, #21
	cmp	x10, x11
	b.ne	.LBB144_21
// %bb.24:                              // %arm.5.i10.i.i.i.i.i.i
	cmp	x1, #1365
	b.lo	.LBB144_7
// %bb.25:
	mov	w8, #6                          // =0x6
	b	.LBB144_48
.LBB144_26:                             // %join.3.i.i.i
	subs	x9, x1, #21
	b.hs	.LBB144_32
.LBB144_27:
	mov	w9, wzr
	mov	w10, wzr
.LBB144_28:                             // %join.4.i.i
	str	w10, [sp, #24]
	stur	x8, [sp, #28]
.LBB144_29:                             // %arm.2.i.i
	ldr	x8, [sp, #24]
	and	x10, x8, #0xff
	cmp	x10, #10
	cset	w10, ne
	tst	w9, w10
	mov	w9, #10                         // =0xa
	csel	x8, x8, x9, ne
.LBB144_30:                             // %arm.1.i4.i
	and	x8, x8, #0xffffffff000000ff
	add	x0, x8, #1
	ldp	x29, x30, [sp, #104]            // 16-byte Folded Reload
	ldr	x19, [sp, #120]                 // 8-byte Reload
	ldr	d8, [sp, #96]                   // 8-byte Reload
	add	sp, sp, #128
	ret
.LBB144_31:                             // %"pool::loans::Loans::of.exit.thread42.i.i.i.i.i.i"
	mov	w8, #-1                         // =0xffffffff
	cmp	x11, x8
	csel	x10, x11, x8, lo
	b	.LBB144_3
.LBB144_32:                             // %arm.3.i.preheader.i.i.i.i
	mov	x11, #34329                     // =0x8619
	mov	x10, xzr
	mov	x12, x8
	movk	x11, #6241, lsl #16
	movk	x11, #24966, lsl #32
	movk	x11, #34328, lsl #48
	umulh	x11, x9, x11
	sub	x9, x9, x11
	add	x9, x11, x9, lsr #1
	lsr	x9, x9, #4
	add	x11, x9, #1
.LBB144_33:                             // %arm.3.i.i.i.i.i
                                        // =>This Inner Loop Header: Depth=1
	ldrb	w13, [x12], #21
	cmp	w13, #1
	b.ne	.LBB144_46
// %bb.34:                              // %join.9.i.i.i.i.i
                                        //   in Loop: Header=BB144_33 Depth=1
	add	x10, x10, #1
	cmp	x11, x10
	b.ne	.LBB144_33
// %bb.35:                              // %"records::record::bad_record.exit.i.i.i.i.lr.ph.i.i.i.i.i"
	movi	d0, #0000000000000000
	mov	x10, xzr
	add	x11, x9, #1
	mov	x12, x8
	//ARITH_FENCE
.LBB144_36:                             // %"records::record::bad_record.exit.i.i.i.i.i.i.i.i.i"
                                        // =>This Inner Loop Header: Depth=1
	ldrb	w13, [x12]
	cmp	w13, #1
	b.ne	.LBB144_52
// %bb.37:                              // %arm.3.i.i.i8.i.i
                                        //   in Loop: Header=BB144_36 Depth=1
	ldur	x13, [x12, #1]
	mov	x16, #9221120237041090560       // =0x7ff8000000000000
	mov	x15, #9218868437227405312       // =0x7ff0000000000000
	fmov	d2, x16
	fmov	d1, x13
	and	x14, x13, #0x7fffffffffffffff
	cmp	x14, x15
	fcsel	d1, d2, d1, hi
	fsub	d2, d1, d1
	//ARITH_FENCE
	fcmp	d1, d0
	cset	w13, mi
	//APP
	//NO_APP
	cmp	w13, #0
	//ARITH_FENCE
	fccmp	d2, d0, #0, eq
	b.ne	.LBB144_49
// %bb.38:                              // %join.9.i.i.i9.i.i
                                        //   in Loop: Header=BB144_36 Depth=1
	add	x10, x10, #1
	add	x12, x12, #21
	cmp	x11, x10
	b.ne	.LBB144_36
// %bb.39:                              // %"records::record::bad_record.exit.i.i.i.i.i.i10.i.i.i.preheader"
	mov	x10, xzr
	add	x9, x9, #1
	mov	x11, x8
.LBB144_40:                             // %"records::record::bad_record.exit.i.i.i.i.i.i10.i.i.i"
                                        // =>This Inner Loop Header: Depth=1
	ldrb	w12, [x11]
	cmp	w12, #1
	b.ne	.LBB144_52
// %bb.41:                              // %arm.3.i.i15.i.i.i
                                        //   in Loop: Header=BB144_40 Depth=1
	ldur	w12, [x11, #17]
	sub	w12, w12, #1201
	cmn	w12, #1200
	b.lo	.LBB144_50
// %bb.42:                              // %join.9.i.i16.i.i.i
                                        //   in Loop: Header=BB144_40 Depth=1
	add	x10, x10, #1
	add	x11, x11, #21
	cmp	x9, x10
	b.ne	.LBB144_40
// %bb.43:                              // %arm.5.i10.i.i
	cmp	x1, #1365
	b.lo	.LBB144_27
// %bb.44:
	mov	w8, #6                          // =0x6
	b	.LBB144_51
.LBB144_45:                             // %arm.2.i.i.i.i.i.i.i
	mov	w8, #-1                         // =0xffffffff
	cmp	x11, x8
	csel	x8, x11, x8, lo
	lsl	x8, x8, #32
	b	.LBB144_48
.LBB144_46:                             // %"pool::loans::Loans::of.exit.thread42.i.i"
	mov	w8, #-1                         // =0xffffffff
	cmp	x10, x8
	csel	x8, x10, x8, lo
	b	.LBB144_12
.LBB144_47:                             // %arm.1.i23.i.i.i.i.i.i.i
	mov	w8, #-1                         // =0xffffffff
	mov	w9, #1                          // =0x1
	cmp	x11, x8
	csel	x8, x11, x8, lo
	orr	x8, x9, x8, lsl #32
.LBB144_48:                             // %"pool::loans::Loans::judged.exit.thread.i.i.i.i.i"
	lsr	x9, x8, #32
	and	w8, w8, #0xff
	str	w8, [sp, #24]
	stur	x9, [sp, #28]
	b	.LBB144_4
.LBB144_49:                             // %arm.2.i.i10.i
	mov	w8, #-1                         // =0xffffffff
	cmp	x10, x8
	csel	x8, x10, x8, lo
	lsl	x8, x8, #32
	b	.LBB144_51
.LBB144_50:                             // %arm.1.i23.i.i.i
	mov	w8, #-1                         // =0xffffffff
	mov	w9, #1                          // =0x1
	cmp	x10, x8
	csel	x8, x10, x8, lo
	orr	x8, x9, x8, lsl #32
.LBB144_51:                             // %arm.6.i.i
	lsr	x9, x8, #32
	and	w8, w8, #0xff
	str	w8, [sp, #24]
	stur	x9, [sp, #28]
	mov	w9, #1                          // =0x1
	b	.LBB144_29
.LBB144_52:                             // %arm.2.i.i.i.i.i.i7.i
	brk	#0x1
.Lfunc_end144:
	.size	senyolanda_pool_duration, .Lfunc_end144-senyolanda_pool_duration
                                        // -- End function
	.section	.text.senyolanda_pool_price,"ax",@progbits
	.globl	senyolanda_pool_price           // -- Begin function senyolanda_pool_price
	.p2align	2
	.type	senyolanda_pool_price,@function
senyolanda_pool_price:                  // @senyolanda_pool_price
// %bb.0:                               // %start
	stp	d9, d8, [sp, #-64]!             // 16-byte Folded Spill
	sub	x9, sp, #6, lsl #12             // =24576
	stp	x29, x30, [sp, #16]             // 16-byte Folded Spill
	add	x29, sp, #16
	sub	x9, x9, #3072
	str	x28, [sp, #32]                  // 8-byte Spill
	stp	x20, x19, [sp, #48]             // 16-byte Folded Spill
.LBB145_1:                              // %start
                                        // =>This Inner Loop Header: Depth=1
	sub	sp, sp, #3072
	cmp	sp, x9
	str	xzr, [sp]
	b.ne	.LBB145_1
// %bb.2:                               // %start
	sub	sp, sp, #1200
	cmp	x0, #0
	mov	w8, #4096                       // =0x1000
	str	xzr, [sp]
	csel	x10, x8, xzr, eq
	cmp	x3, #0
	csel	x9, x8, xzr, eq
	cmp	w2, #2
	add	x8, x0, x10
	b.lo	.LBB145_4
// %bb.3:                               // %start
	movi	d0, #0000000000000000
	b.ne	.LBB145_13
.LBB145_4:                              // %arm.1.i.i
	mov	x11, #53053                     // =0xcf3d
	mov	x12, #3120                      // =0xc30
	mov	x10, xzr
	movk	x11, #15603, lsl #16
	movk	x12, #12483, lsl #16
	str	wzr, [sp, #56]
	movk	x11, #62415, lsl #32
	movk	x12, #49932, lsl #32
	str	xzr, [sp, #48]
	movk	x11, #53052, lsl #48
	movk	x12, #3120, lsl #48
	mul	x11, x1, x11
	cmp	x11, x12
	b.ls	.LBB145_7
.LBB145_5:                              // %"pool::loans::Loans::judged.exit.i.i.i.i.i"
	mov	w8, #10                         // =0xa
	stur	x10, [sp, #52]
	str	w8, [sp, #48]
.LBB145_6:                              // %arm.2.i.i.i.i.i
	ldr	x8, [sp, #48]
	b	.LBB145_33
.LBB145_7:                              // %join.3.i.i.i.i.i.i.i
	subs	x10, x1, #21
	b.hs	.LBB145_16
.LBB145_8:                              // %arm.1.i.i.i.i.i
	lsr	x10, x8, #32
	str	x1, [sp, #8]
	and	w20, w2, #0xff
	add	x0, sp, #48
	mov	w1, wzr
	mov	w2, #28800                      // =0x7080
	stp	w8, w10, [sp]
	add	x8, x3, x9
	fmov	d8, d1
	mov	x19, x5
	stp	x8, x4, [sp, #32]
	fmov	d9, d0
	bl	memset
	mov	x0, sp
	add	x1, sp, #48
	str	x20, [sp, #16]
	str	d9, [sp, #24]
	bl	"pool::flows::Pool::fill"
	cbz	w0, .LBB145_36
// %bb.9:                               // %join.5.i.i.i.i.i.i.i.i.preheader
	fmov	d0, #12.00000000
	fmov	d1, #1.00000000
	mov	x8, xzr
	mov	w9, w0
	mov	x10, x19
	fdiv	d0, d8, d0
	fadd	d1, d0, d1
	movi	d0, #0000000000000000
.LBB145_10:                             // %join.5.i.i.i.i.i.i.i.i
                                        // =>This Loop Header: Depth=1
                                        //     Child Loop BB145_11 Depth 2
	mov	w11, #24                        // =0x18
	add	x12, sp, #48
	fmov	d7, d1
	madd	x11, x8, x11, x12
	fmov	d3, #1.00000000
	fmov	d2, #1.00000000
	add	x8, x8, #1
	ldp	d4, d5, [x11]
	ldr	d6, [x11, #16]
	mov	w11, w8
.LBB145_11:                             // %join.5.i.i.i.i.i.i.i.i.i
                                        //   Parent Loop BB145_10 Depth=1
                                        // =>  This Inner Loop Header: Depth=2
	tst	w11, #0x1
	lsr	w11, w11, #1
	fcsel	d16, d3, d7, eq
	fmul	d7, d7, d7
	fmul	d2, d2, d16
	cbnz	w11, .LBB145_11
// %bb.12:                              // %"elementary::whole_power::whole_power.exit.i.i.i.i.i.i.i.i"
                                        //   in Loop: Header=BB145_10 Depth=1
	fadd	d3, d4, d5
	cmp	x8, x9
	fadd	d3, d3, d6
	fdiv	d2, d3, d2
	fadd	d0, d0, d2
	b.ne	.LBB145_10
	b	.LBB145_37
.LBB145_13:                             // %arm.2.i1.i.i
	mov	x9, #53053                      // =0xcf3d
	mov	x10, #3120                      // =0xc30
	str	wzr, [sp, #56]
	movk	x9, #15603, lsl #16
	movk	x10, #12483, lsl #16
	str	xzr, [sp, #48]
	movk	x9, #62415, lsl #32
	movk	x10, #49932, lsl #32
	movk	x9, #53052, lsl #48
	movk	x10, #3120, lsl #48
	mul	x9, x1, x9
	cmp	x9, x10
	b.ls	.LBB145_29
// %bb.14:
	mov	x8, xzr
.LBB145_15:                             // %join.4.i.i
	mov	w10, #10                        // =0xa
	mov	w9, #1                          // =0x1
	b	.LBB145_31
.LBB145_16:                             // %arm.3.i.preheader.i.i.i.i.i.i.i.i
	mov	x12, #34329                     // =0x8619
	mov	x11, xzr
	mov	x13, x8
	movk	x12, #6241, lsl #16
	movk	x12, #24966, lsl #32
	movk	x12, #34328, lsl #48
	umulh	x12, x10, x12
	sub	x10, x10, x12
	add	x10, x12, x10, lsr #1
	lsr	x10, x10, #4
	add	x12, x10, #1
.LBB145_17:                             // %arm.3.i.i.i.i.i.i.i.i.i
                                        // =>This Inner Loop Header: Depth=1
	ldrb	w14, [x13], #21
	cmp	w14, #1
	b.ne	.LBB145_35
// %bb.18:                              // %join.9.i.i.i.i.i.i.i.i.i
                                        //   in Loop: Header=BB145_17 Depth=1
	add	x11, x11, #1
	cmp	x12, x11
	b.ne	.LBB145_17
// %bb.19:                              // %"records::record::bad_record.exit.i.i.i.i.lr.ph.i.i.i.i.i.i.i.i.i"
	movi	d2, #0000000000000000
	mov	x11, xzr
	add	x12, x10, #1
	mov	x13, x8
	//ARITH_FENCE
.LBB145_20:                             // %"records::record::bad_record.exit.i.i.i.i.i.i.i.i.i.i.i.i.i"
                                        // =>This Inner Loop Header: Depth=1
	ldrb	w14, [x13]
	cmp	w14, #1
	b.ne	.LBB145_58
// %bb.21:                              // %arm.3.i.i.i8.i.i.i.i.i.i
                                        //   in Loop: Header=BB145_20 Depth=1
	ldur	x14, [x13, #1]
	mov	x17, #9221120237041090560       // =0x7ff8000000000000
	mov	x16, #9218868437227405312       // =0x7ff0000000000000
	fmov	d4, x17
	fmov	d3, x14
	and	x15, x14, #0x7fffffffffffffff
	cmp	x15, x16
	fcsel	d3, d4, d3, hi
	fsub	d4, d3, d3
	//ARITH_FENCE
	fcmp	d3, d2
	cset	w14, mi
	//APP
	//NO_APP
	cmp	w14, #0
	//ARITH_FENCE
	fccmp	d4, d2, #0, eq
	b.ne	.LBB145_51
// %bb.22:                              // %join.9.i.i.i9.i.i.i.i.i.i
                                        //   in Loop: Header=BB145_20 Depth=1
	add	x11, x11, #1
	add	x13, x13, #21
	cmp	x12, x11
	b.ne	.LBB145_20
// %bb.23:                              // %"records::record::bad_record.exit.i.i.i.i.i.i10.i.i.i.i.i.i.i.preheader"
	mov	x11, xzr
	add	x10, x10, #1
	mov	x12, x8
.LBB145_24:                             // %"records::record::bad_record.exit.i.i.i.i.i.i10.i.i.i.i.i.i.i"
                                        // =>This Inner Loop Header: Depth=1
	ldrb	w13, [x12]
	cmp	w13, #1
	b.ne	.LBB145_58
// %bb.25:                              // %arm.3.i.i15.i.i.i.i.i.i.i
                                        //   in Loop: Header=BB145_24 Depth=1
	ldur	w13, [x12, #17]
	sub	w13, w13, #1201
	cmn	w13, #1200
	b.lo	.LBB145_53
// %bb.26:                              // %join.9.i.i16.i.i.i.i.i.i.i
                                        //   in Loop: Header=BB145_24 Depth=1
	add	x11, x11, #1
	add	x12, x12, #21
	cmp	x10, x11
	b.ne	.LBB145_24
// %bb.27:                              // %arm.5.i10.i.i.i.i.i.i
	cmp	x1, #1365
	b.lo	.LBB145_8
// %bb.28:
	mov	w8, #6                          // =0x6
	b	.LBB145_54
.LBB145_29:                             // %join.3.i.i.i
	subs	x9, x1, #21
	b.hs	.LBB145_38
.LBB145_30:
	mov	w9, wzr
	mov	w10, wzr
.LBB145_31:                             // %join.4.i.i
	str	w10, [sp, #48]
	stur	x8, [sp, #52]
.LBB145_32:                             // %arm.2.i.i
	ldr	x8, [sp, #48]
	and	x10, x8, #0xff
	cmp	x10, #10
	cset	w10, ne
	tst	w9, w10
	mov	w9, #10                         // =0xa
	csel	x8, x8, x9, ne
.LBB145_33:                             // %arm.1.i4.i
	and	x8, x8, #0xffffffff000000ff
	add	x0, x8, #1
.LBB145_34:                             // %"senyolanda::pools::senyolanda_pool_price.exit"
	add	sp, sp, #7, lsl #12             // =28672
	add	sp, sp, #176
	ldp	x20, x19, [sp, #48]             // 16-byte Folded Reload
	ldr	x28, [sp, #32]                  // 8-byte Reload
	ldp	x29, x30, [sp, #16]             // 16-byte Folded Reload
	ldp	d9, d8, [sp], #64               // 16-byte Folded Reload
	ret
.LBB145_35:                             // %"pool::loans::Loans::of.exit.thread42.i.i.i.i.i.i"
	mov	w8, #-1                         // =0xffffffff
	cmp	x11, x8
	csel	x10, x11, x8, lo
	b	.LBB145_5
.LBB145_36:
	movi	d0, #0000000000000000
	mov	x10, x19
.LBB145_37:                             // %arm.2.i3.i
	mov	x0, xzr
	str	d0, [x10]
	b	.LBB145_34
.LBB145_38:                             // %arm.3.i.preheader.i.i.i.i
	mov	x11, #34329                     // =0x8619
	mov	x10, xzr
	mov	x12, x8
	movk	x11, #6241, lsl #16
	movk	x11, #24966, lsl #32
	movk	x11, #34328, lsl #48
	umulh	x11, x9, x11
	sub	x9, x9, x11
	add	x9, x11, x9, lsr #1
	lsr	x9, x9, #4
	add	x11, x9, #1
.LBB145_39:                             // %arm.3.i.i.i.i.i
                                        // =>This Inner Loop Header: Depth=1
	ldrb	w13, [x12], #21
	cmp	w13, #1
	b.ne	.LBB145_52
// %bb.40:                              // %join.9.i.i.i.i.i
                                        //   in Loop: Header=BB145_39 Depth=1
	add	x10, x10, #1
	cmp	x11, x10
	b.ne	.LBB145_39
// %bb.41:                              // %"records::record::bad_record.exit.i.i.i.i.lr.ph.i.i.i.i.i"
	movi	d0, #0000000000000000
	mov	x10, xzr
	add	x11, x9, #1
	mov	x12, x8
	//ARITH_FENCE
.LBB145_42:                             // %"records::record::bad_record.exit.i.i.i.i.i.i.i.i.i"
                                        // =>This Inner Loop Header: Depth=1
	ldrb	w13, [x12]
	cmp	w13, #1
	b.ne	.LBB145_58
// %bb.43:                              // %arm.3.i.i.i8.i.i
                                        //   in Loop: Header=BB145_42 Depth=1
	ldur	x13, [x12, #1]
	mov	x16, #9221120237041090560       // =0x7ff8000000000000
	mov	x15, #9218868437227405312       // =0x7ff0000000000000
	fmov	d2, x16
	fmov	d1, x13
	and	x14, x13, #0x7fffffffffffffff
	cmp	x14, x15
	fcsel	d1, d2, d1, hi
	fsub	d2, d1, d1
	//ARITH_FENCE
	fcmp	d1, d0
	cset	w13, mi
	//APP
	//NO_APP
	cmp	w13, #0
	//ARITH_FENCE
	fccmp	d2, d0, #0, eq
	b.ne	.LBB145_55
// %bb.44:                              // %join.9.i.i.i9.i.i
                                        //   in Loop: Header=BB145_42 Depth=1
	add	x10, x10, #1
	add	x12, x12, #21
	cmp	x11, x10
	b.ne	.LBB145_42
// %bb.45:                              // %"records::record::bad_record.exit.i.i.i.i.i.i10.i.i.i.preheader"
	mov	x10, xzr
	add	x9, x9, #1
	mov	x11, x8
.LBB145_46:                             // %"records::record::bad_record.exit.i.i.i.i.i.i10.i.i.i"
                                        // =>This Inner Loop Header: Depth=1
	ldrb	w12, [x11]
	cmp	w12, #1
	b.ne	.LBB145_58
// %bb.47:                              // %arm.3.i.i15.i.i.i
                                        //   in Loop: Header=BB145_46 Depth=1
	ldur	w12, [x11, #17]
	sub	w12, w12, #1201
	cmn	w12, #1200
	b.lo	.LBB145_56
// %bb.48:                              // %join.9.i.i16.i.i.i
                                        //   in Loop: Header=BB145_46 Depth=1
	add	x10, x10, #1
	add	x11, x11, #21
	cmp	x9, x10
	b.ne	.LBB145_46
// %bb.49:                              // %arm.5.i10.i.i
	cmp	x1, #1365
	b.lo	.LBB145_30
// %bb.50:
	mov	w8, #6                          // =0x6
	b	.LBB145_57
.LBB145_51:                             // %arm.2.i.i.i.i.i.i.i
	mov	w8, #-1                         // =0xffffffff
	cmp	x11, x8
	csel	x8, x11, x8, lo
	lsl	x8, x8, #32
	b	.LBB145_54
.LBB145_52:                             // %"pool::loans::Loans::of.exit.thread42.i.i"
	mov	w8, #-1                         // =0xffffffff
	cmp	x10, x8
	csel	x8, x10, x8, lo
	b	.LBB145_15
.LBB145_53:                             // %arm.1.i23.i.i.i.i.i.i.i
	mov	w8, #-1                         // =0xffffffff
	mov	w9, #1                          // =0x1
	cmp	x11, x8
	csel	x8, x11, x8, lo
	orr	x8, x9, x8, lsl #32
.LBB145_54:                             // %"pool::loans::Loans::judged.exit.thread.i.i.i.i.i"
	lsr	x9, x8, #32
	and	w8, w8, #0xff
	str	w8, [sp, #48]
	stur	x9, [sp, #52]
	b	.LBB145_6
.LBB145_55:                             // %arm.2.i.i10.i
	mov	w8, #-1                         // =0xffffffff
	cmp	x10, x8
	csel	x8, x10, x8, lo
	lsl	x8, x8, #32
	b	.LBB145_57
.LBB145_56:                             // %arm.1.i23.i.i.i
	mov	w8, #-1                         // =0xffffffff
	mov	w9, #1                          // =0x1
	cmp	x10, x8
	csel	x8, x10, x8, lo
	orr	x8, x9, x8, lsl #32
.LBB145_57:                             // %arm.6.i.i
	lsr	x9, x8, #32
	and	w8, w8, #0xff
	str	w8, [sp, #48]
	stur	x9, [sp, #52]
	mov	w9, #1                          // =0x1
	b	.LBB145_32
.LBB145_58:                             // %arm.2.i.i.i.i.i.i7.i
	brk	#0x1
.Lfunc_end145:
	.size	senyolanda_pool_price, .Lfunc_end145-senyolanda_pool_price
                                        // -- End function
	.section	.text.senyolanda_dated_z_spread,"ax",@progbits
	.globl	senyolanda_dated_z_spread       // -- Begin function senyolanda_dated_z_spread
	.p2align	2
	.type	senyolanda_dated_z_spread,@function
senyolanda_dated_z_spread:              // @senyolanda_dated_z_spread
// %bb.0:                               // %start
	str	d8, [sp, #-112]!                // 8-byte Folded Spill
	sub	x9, sp, #4, lsl #12             // =16384
	stp	x29, x30, [sp, #16]             // 16-byte Folded Spill
	add	x29, sp, #16
	sub	x9, x9, #2048
	stp	x28, x27, [sp, #32]             // 16-byte Folded Spill
	stp	x26, x25, [sp, #48]             // 16-byte Folded Spill
	stp	x24, x23, [sp, #64]             // 16-byte Folded Spill
	stp	x22, x21, [sp, #80]             // 16-byte Folded Spill
	stp	x20, x19, [sp, #96]             // 16-byte Folded Spill
.LBB146_1:                              // %start
                                        // =>This Inner Loop Header: Depth=1
	sub	sp, sp, #3072
	cmp	sp, x9
	str	xzr, [sp]
	b.ne	.LBB146_1
// %bb.2:                               // %start
	sub	sp, sp, #832
	cmp	x0, #0
	mov	w8, #4096                       // =0x1000
	mov	x26, x1
	csel	x19, x8, xzr, eq
	cmp	x2, #0
	csel	x28, x8, xzr, eq
	cmp	x4, #0
	csel	x27, x8, xzr, eq
	tbnz	w26, #0, .LBB146_6
// %bb.3:                               // %repeat.4.preheader.i.i
	mov	x25, x0
	add	x0, sp, #2, lsl #12             // =8192
	mov	x23, x2
	add	x0, x0, #1432
	mov	w1, wzr
	mov	w2, #9608                       // =0x2588
	mov	x20, x6
	mov	x22, x4
	mov	x21, x5
	mov	x24, x3
	stur	x7, [x29, #-8]                  // 8-byte Folded Spill
	fmov	d8, d0
	bl	memset
	add	x0, sp, #16
	mov	w1, wzr
	mov	w2, #9608                       // =0x2588
	bl	memset
	fmov	d0, d8
	lsr	x8, x26, #1
	mov	w9, #1201                       // =0x4b1
	cmp	x8, #1201
	csel	x2, x8, x9, lo
	cbz	x26, .LBB146_12
// %bb.4:                               // %join.5.i.i.i.preheader
	cmp	x26, #8
	b.hs	.LBB146_7
// %bb.5:
	mov	x8, xzr
	b	.LBB146_10
.LBB146_6:                              // %"core::result::Result::map::<#27428450af844b4e>.exit.i.thread.i"
	mov	w9, #3                          // =0x3
	b	.LBB146_14
.LBB146_7:                              // %vector.ph
	add	x10, sp, #2, lsl #12            // =8192
	add	x9, x19, x25
	add	x11, sp, #16
	add	x10, x10, #1432
	and	x8, x2, #0x7fc
	add	x9, x9, #32
	add	x10, x10, #16
	add	x11, x11, #16
	and	x12, x2, #0x7fc
.LBB146_8:                              // %vector.body
                                        // =>This Inner Loop Header: Depth=1
	sub	x13, x9, #32
	ld2	{ v3.2d, v4.2d }, [x9]
	subs	x12, x12, #4
	add	x9, x9, #64
	ld2	{ v1.2d, v2.2d }, [x13]
	stp	q1, q3, [x10, #-16]
	add	x10, x10, #32
	stp	q2, q4, [x11, #-16]
	add	x11, x11, #32
	b.ne	.LBB146_8
// %bb.9:                               // %middle.block
	cmp	x2, x8
	b.eq	.LBB146_12
.LBB146_10:                             // %join.5.i.i.i.preheader1
	add	x10, x19, x8, lsl #4
	lsl	x11, x8, #3
	add	x12, sp, #2, lsl #12            // =8192
	sub	x9, x2, x8
	add	x8, sp, #16
	add	x12, x12, #1432
	add	x13, x10, x25
	add	x8, x8, x11
	add	x10, x12, x11
	add	x11, x13, #8
.LBB146_11:                             // %join.5.i.i.i
                                        // =>This Inner Loop Header: Depth=1
	ldp	d1, d2, [x11, #-8]
	subs	x9, x9, #1
	add	x11, x11, #16
	str	d1, [x10], #8
	str	d2, [x8], #8
	b.ne	.LBB146_11
.LBB146_12:                             // %"senyolanda::dated::of_flows::<#d07e4d49b94e9c47>.exit.i"
	add	x1, sp, #2, lsl #12             // =8192
	sub	x0, x29, #48
	add	x3, sp, #16
	add	x1, x1, #1432
	add	x5, x23, x28
	add	x7, x22, x27
	mov	x4, x2
	mov	x6, x24
	stp	xzr, xzr, [x29, #-48]
	stur	xzr, [x29, #-32]
	str	x21, [sp]
	bl	"spread_analytics::spread::z_spread"
	sub	x9, x29, #48
	ldrb	w8, [x9]
	ldur	x9, [x9, #4]
	cbz	w8, .LBB146_15
// %bb.13:                              // %"core::result::Result::map::<#27428450af844b4e>.exit.i.i"
	cmp	w8, #1
	b.ne	.LBB146_16
.LBB146_14:                             // %arm.1.i3.i.i
	and	x8, x9, #0xffffffff000000ff
	add	x0, x8, #1
	b	.LBB146_18
.LBB146_15:                             // %"core::result::Result::map::<#27428450af844b4e>.exit.thread.i.i"
	ldur	x8, [x29, #-32]
	tst	x9, #0xff00000000
	cset	w9, eq
	b	.LBB146_17
.LBB146_16:
	lsr	x8, x9, #32
	mov	w9, wzr
.LBB146_17:                             // %arm.2.i2.i.i
	str	x8, [x20]
	ldur	x8, [x29, #-8]                  // 8-byte Folded Reload
	mov	x0, xzr
	str	w9, [x8]
.LBB146_18:                             // %"senyolanda::dated::senyolanda_dated_z_spread.exit"
	add	sp, sp, #4, lsl #12             // =16384
	add	sp, sp, #2880
	ldp	x20, x19, [sp, #96]             // 16-byte Folded Reload
	ldp	x22, x21, [sp, #80]             // 16-byte Folded Reload
	ldp	x24, x23, [sp, #64]             // 16-byte Folded Reload
	ldp	x26, x25, [sp, #48]             // 16-byte Folded Reload
	ldp	x28, x27, [sp, #32]             // 16-byte Folded Reload
	ldp	x29, x30, [sp, #16]             // 16-byte Folded Reload
	ldr	d8, [sp], #112                  // 8-byte Folded Reload
	ret
.Lfunc_end146:
	.size	senyolanda_dated_z_spread, .Lfunc_end146-senyolanda_dated_z_spread
                                        // -- End function
	.section	.text.senyolanda_z_spread,"ax",@progbits
	.globl	senyolanda_z_spread             // -- Begin function senyolanda_z_spread
	.p2align	2
	.type	senyolanda_z_spread,@function
senyolanda_z_spread:                    // @senyolanda_z_spread
// %bb.0:                               // %start
	sub	sp, sp, #48
	cmp	x0, #0
	mov	w13, #4096                      // =0x1000
	mov	x9, x0
	csel	x14, x13, xzr, eq
	cmp	x2, #0
	mov	x10, x5
	csel	x15, x13, xzr, eq
	cmp	x4, #0
	mov	x11, x3
	csel	x16, x13, xzr, eq
	cmp	x6, #0
	mov	x12, x1
	csel	x13, x13, xzr, eq
	mov	x8, x7
	add	x0, sp, #8
	add	x1, x9, x14
	add	x3, x2, x15
	add	x5, x4, x16
	add	x7, x6, x13
	mov	x2, x12
	mov	x4, x11
	mov	x6, x10
	stp	x29, x30, [sp, #32]             // 16-byte Folded Spill
	add	x29, sp, #32
	stp	xzr, xzr, [sp, #8]
	str	xzr, [sp, #24]
	str	x8, [sp]
	bl	"spread_analytics::spread::z_spread"
	ldrb	w8, [sp, #8]
	ldur	x9, [sp, #12]
	cbz	w8, .LBB147_3
// %bb.1:                               // %"core::result::Result::map::<#27428450af844b4e>.exit.i.i"
	cmp	w8, #1
	b.ne	.LBB147_4
// %bb.2:                               // %arm.1.i3.i.i
	and	x8, x9, #0xffffffff000000ff
	add	x0, x8, #1
	ldp	x29, x30, [sp, #32]             // 16-byte Folded Reload
	add	sp, sp, #48
	ret
.LBB147_3:                              // %"core::result::Result::map::<#27428450af844b4e>.exit.thread.i.i"
	ldr	x8, [sp, #24]
	tst	x9, #0xff00000000
	cset	w9, eq
	b	.LBB147_5
.LBB147_4:
	lsr	x8, x9, #32
	mov	w9, wzr
.LBB147_5:                              // %arm.2.i2.i.i
	ldp	x10, x11, [x29, #16]
	mov	x0, xzr
	str	x8, [x10]
	str	w9, [x11]
	ldp	x29, x30, [sp, #32]             // 16-byte Folded Reload
	add	sp, sp, #48
	ret
.Lfunc_end147:
	.size	senyolanda_z_spread, .Lfunc_end147-senyolanda_z_spread
                                        // -- End function
	.section	.text.senyolanda_fixed_leg_pv,"ax",@progbits
	.globl	senyolanda_fixed_leg_pv         // -- Begin function senyolanda_fixed_leg_pv
	.p2align	2
	.type	senyolanda_fixed_leg_pv,@function
senyolanda_fixed_leg_pv:                // @senyolanda_fixed_leg_pv
// %bb.0:                               // %start
	sub	sp, sp, #192
	stp	x24, x23, [sp, #144]            // 16-byte Folded Spill
	mov	x23, x2
	cmp	x0, #0
	mov	w9, #4096                       // =0x1000
	movi	v0.2d, #0000000000000000
	str	x25, [sp, #128]                 // 8-byte Spill
	csel	x10, x9, xzr, eq
	cmp	x2, #0
	stp	x22, x21, [sp, #160]            // 16-byte Folded Spill
	csel	x24, x9, xzr, eq
	cmp	x4, #0
	stp	x20, x19, [sp, #176]            // 16-byte Folded Spill
	mov	x20, x5
	mov	x8, x0
	mov	x22, x3
	csel	x25, x9, xzr, eq
	mov	x19, x6
	mov	x21, x4
	mov	x2, x1
	add	x0, sp, #8
	add	x1, x8, x10
	add	x3, x23, x24
	add	x5, x4, x25
	mov	x4, x22
	mov	x6, x20
	stp	x29, x30, [sp, #112]            // 16-byte Folded Spill
	add	x29, sp, #112
	str	xzr, [sp, #48]
	stp	q0, q0, [sp, #16]
	bl	"senyolanda::swap_values::swap_in"
	ldrb	w8, [sp, #8]
	cbz	w8, .LBB148_2
// %bb.1:                               // %"core::result::Result::and_then::<#9d14cfea42a270cb>.exit.thread.i"
	ldr	w8, [sp, #16]
	ldrb	w9, [sp, #12]
	b	.LBB148_4
.LBB148_2:                              // %"core::result::Result::and_then::<#9d14cfea42a270cb>.exit.i"
	ldur	q0, [sp, #24]
	ldur	q1, [sp, #40]
	sub	x0, x29, #16
	ldrb	w8, [sp, #16]
	add	x1, sp, #56
	add	x2, x23, x24
	add	x4, x21, x25
	mov	x3, x22
	mov	x5, x20
	stp	q0, q1, [sp, #64]
	str	x8, [sp, #56]
	bl	"swaps::legs::fixed_leg_pv"
	ldurb	w9, [x29, #-16]
	ldur	x8, [x29, #-8]
	cmp	w9, #1
	b.ne	.LBB148_6
// %bb.3:
	ldurb	w9, [x29, #-12]
.LBB148_4:                              // %arm.1.i4.i
	add	w9, w9, #1
	orr	x0, x9, x8, lsl #32
.LBB148_5:                              // %"senyolanda::swap_values::senyolanda_fixed_leg_pv.exit"
	ldp	x20, x19, [sp, #176]            // 16-byte Folded Reload
	ldr	x25, [sp, #128]                 // 8-byte Reload
	ldp	x22, x21, [sp, #160]            // 16-byte Folded Reload
	ldp	x24, x23, [sp, #144]            // 16-byte Folded Reload
	ldp	x29, x30, [sp, #112]            // 16-byte Folded Reload
	add	sp, sp, #192
	ret
.LBB148_6:                              // %arm.2.i.i
	mov	x0, xzr
	str	x8, [x19]
	b	.LBB148_5
.Lfunc_end148:
	.size	senyolanda_fixed_leg_pv, .Lfunc_end148-senyolanda_fixed_leg_pv
                                        // -- End function
	.section	.text.senyolanda_floating_leg_pv,"ax",@progbits
	.globl	senyolanda_floating_leg_pv      // -- Begin function senyolanda_floating_leg_pv
	.p2align	2
	.type	senyolanda_floating_leg_pv,@function
senyolanda_floating_leg_pv:             // @senyolanda_floating_leg_pv
// %bb.0:                               // %start
	sub	sp, sp, #192
	stp	x24, x23, [sp, #144]            // 16-byte Folded Spill
	mov	x23, x2
	cmp	x0, #0
	mov	w9, #4096                       // =0x1000
	movi	v0.2d, #0000000000000000
	str	x25, [sp, #128]                 // 8-byte Spill
	csel	x10, x9, xzr, eq
	cmp	x2, #0
	stp	x22, x21, [sp, #160]            // 16-byte Folded Spill
	csel	x24, x9, xzr, eq
	cmp	x4, #0
	stp	x20, x19, [sp, #176]            // 16-byte Folded Spill
	mov	x20, x5
	mov	x8, x0
	mov	x22, x3
	csel	x25, x9, xzr, eq
	mov	x19, x6
	mov	x21, x4
	mov	x2, x1
	add	x0, sp, #8
	add	x1, x8, x10
	add	x3, x23, x24
	add	x5, x4, x25
	mov	x4, x22
	mov	x6, x20
	stp	x29, x30, [sp, #112]            // 16-byte Folded Spill
	add	x29, sp, #112
	str	xzr, [sp, #48]
	stp	q0, q0, [sp, #16]
	bl	"senyolanda::swap_values::swap_in"
	ldrb	w8, [sp, #8]
	cbz	w8, .LBB149_2
// %bb.1:                               // %"core::result::Result::and_then::<#16e519b1d991e62d>.exit.thread.i"
	ldr	w8, [sp, #16]
	ldrb	w9, [sp, #12]
	b	.LBB149_4
.LBB149_2:                              // %"core::result::Result::and_then::<#16e519b1d991e62d>.exit.i"
	ldur	q0, [sp, #24]
	ldur	q1, [sp, #40]
	sub	x0, x29, #16
	ldrb	w8, [sp, #16]
	add	x1, sp, #56
	add	x2, x23, x24
	add	x4, x21, x25
	mov	x3, x22
	mov	x5, x20
	stp	q0, q1, [sp, #64]
	str	x8, [sp, #56]
	bl	"swaps::legs::floating_leg_pv"
	ldurb	w9, [x29, #-16]
	ldur	x8, [x29, #-8]
	cmp	w9, #1
	b.ne	.LBB149_6
// %bb.3:
	ldurb	w9, [x29, #-12]
.LBB149_4:                              // %arm.1.i4.i
	add	w9, w9, #1
	orr	x0, x9, x8, lsl #32
.LBB149_5:                              // %"senyolanda::swap_values::senyolanda_floating_leg_pv.exit"
	ldp	x20, x19, [sp, #176]            // 16-byte Folded Reload
	ldr	x25, [sp, #128]                 // 8-byte Reload
	ldp	x22, x21, [sp, #160]            // 16-byte Folded Reload
	ldp	x24, x23, [sp, #144]            // 16-byte Folded Reload
	ldp	x29, x30, [sp, #112]            // 16-byte Folded Reload
	add	sp, sp, #192
	ret
.LBB149_6:                              // %arm.2.i.i
	mov	x0, xzr
	str	x8, [x19]
	b	.LBB149_5
.Lfunc_end149:
	.size	senyolanda_floating_leg_pv, .Lfunc_end149-senyolanda_floating_leg_pv
                                        // -- End function
	.section	.text.senyolanda_par_swap_rate,"ax",@progbits
	.globl	senyolanda_par_swap_rate        // -- Begin function senyolanda_par_swap_rate
	.p2align	2
	.type	senyolanda_par_swap_rate,@function
senyolanda_par_swap_rate:               // @senyolanda_par_swap_rate
// %bb.0:                               // %start
	sub	sp, sp, #192
	stp	x24, x23, [sp, #144]            // 16-byte Folded Spill
	mov	x23, x2
	cmp	x0, #0
	mov	w9, #4096                       // =0x1000
	movi	v0.2d, #0000000000000000
	str	x25, [sp, #128]                 // 8-byte Spill
	csel	x10, x9, xzr, eq
	cmp	x2, #0
	stp	x22, x21, [sp, #160]            // 16-byte Folded Spill
	csel	x24, x9, xzr, eq
	cmp	x4, #0
	stp	x20, x19, [sp, #176]            // 16-byte Folded Spill
	mov	x20, x5
	mov	x8, x0
	mov	x22, x3
	csel	x25, x9, xzr, eq
	mov	x19, x6
	mov	x21, x4
	mov	x2, x1
	add	x0, sp, #8
	add	x1, x8, x10
	add	x3, x23, x24
	add	x5, x4, x25
	mov	x4, x22
	mov	x6, x20
	stp	x29, x30, [sp, #112]            // 16-byte Folded Spill
	add	x29, sp, #112
	str	xzr, [sp, #48]
	stp	q0, q0, [sp, #16]
	bl	"senyolanda::swap_values::swap_in"
	ldrb	w8, [sp, #8]
	cbz	w8, .LBB150_2
// %bb.1:                               // %"core::result::Result::and_then::<#b9bbdac071145fd1>.exit.thread.i"
	ldr	w8, [sp, #16]
	ldrb	w9, [sp, #12]
	b	.LBB150_4
.LBB150_2:                              // %"core::result::Result::and_then::<#b9bbdac071145fd1>.exit.i"
	ldur	q0, [sp, #24]
	ldur	q1, [sp, #40]
	sub	x0, x29, #16
	ldrb	w8, [sp, #16]
	add	x1, sp, #56
	add	x2, x23, x24
	add	x4, x21, x25
	mov	x3, x22
	mov	x5, x20
	stp	q0, q1, [sp, #64]
	str	x8, [sp, #56]
	bl	"swaps::valuation::par_swap_rate"
	ldurb	w9, [x29, #-16]
	ldur	x8, [x29, #-8]
	cmp	w9, #1
	b.ne	.LBB150_6
// %bb.3:
	ldurb	w9, [x29, #-12]
.LBB150_4:                              // %arm.1.i4.i
	add	w9, w9, #1
	orr	x0, x9, x8, lsl #32
.LBB150_5:                              // %"senyolanda::swap_values::senyolanda_par_swap_rate.exit"
	ldp	x20, x19, [sp, #176]            // 16-byte Folded Reload
	ldr	x25, [sp, #128]                 // 8-byte Reload
	ldp	x22, x21, [sp, #160]            // 16-byte Folded Reload
	ldp	x24, x23, [sp, #144]            // 16-byte Folded Reload
	ldp	x29, x30, [sp, #112]            // 16-byte Folded Reload
	add	sp, sp, #192
	ret
.LBB150_6:                              // %arm.2.i.i
	mov	x0, xzr
	str	x8, [x19]
	b	.LBB150_5
.Lfunc_end150:
	.size	senyolanda_par_swap_rate, .Lfunc_end150-senyolanda_par_swap_rate
                                        // -- End function
	.section	.text.senyolanda_swap_duration,"ax",@progbits
	.globl	senyolanda_swap_duration        // -- Begin function senyolanda_swap_duration
	.p2align	2
	.type	senyolanda_swap_duration,@function
senyolanda_swap_duration:               // @senyolanda_swap_duration
// %bb.0:                               // %start
	sub	sp, sp, #192
	stp	x24, x23, [sp, #144]            // 16-byte Folded Spill
	mov	x23, x2
	cmp	x0, #0
	mov	w9, #4096                       // =0x1000
	movi	v0.2d, #0000000000000000
	str	x25, [sp, #128]                 // 8-byte Spill
	csel	x10, x9, xzr, eq
	cmp	x2, #0
	stp	x22, x21, [sp, #160]            // 16-byte Folded Spill
	csel	x24, x9, xzr, eq
	cmp	x4, #0
	stp	x20, x19, [sp, #176]            // 16-byte Folded Spill
	mov	x20, x5
	mov	x8, x0
	mov	x22, x3
	csel	x25, x9, xzr, eq
	mov	x19, x6
	mov	x21, x4
	mov	x2, x1
	add	x0, sp, #8
	add	x1, x8, x10
	add	x3, x23, x24
	add	x5, x4, x25
	mov	x4, x22
	mov	x6, x20
	stp	x29, x30, [sp, #112]            // 16-byte Folded Spill
	add	x29, sp, #112
	str	xzr, [sp, #48]
	stp	q0, q0, [sp, #16]
	bl	"senyolanda::swap_values::swap_in"
	ldrb	w8, [sp, #8]
	cbz	w8, .LBB151_2
// %bb.1:                               // %"core::result::Result::and_then::<#128449bf5b5b61dc>.exit.thread.i"
	ldr	w8, [sp, #16]
	ldrb	w9, [sp, #12]
	b	.LBB151_4
.LBB151_2:                              // %"core::result::Result::and_then::<#128449bf5b5b61dc>.exit.i"
	ldur	q0, [sp, #24]
	ldur	q1, [sp, #40]
	sub	x0, x29, #16
	ldrb	w8, [sp, #16]
	add	x1, sp, #56
	add	x2, x23, x24
	add	x4, x21, x25
	mov	x3, x22
	mov	x5, x20
	stp	q0, q1, [sp, #64]
	str	x8, [sp, #56]
	bl	"swaps::valuation::swap_duration"
	ldurb	w9, [x29, #-16]
	ldur	x8, [x29, #-8]
	cmp	w9, #1
	b.ne	.LBB151_6
// %bb.3:
	ldurb	w9, [x29, #-12]
.LBB151_4:                              // %arm.1.i4.i
	add	w9, w9, #1
	orr	x0, x9, x8, lsl #32
.LBB151_5:                              // %"senyolanda::swap_values::senyolanda_swap_duration.exit"
	ldp	x20, x19, [sp, #176]            // 16-byte Folded Reload
	ldr	x25, [sp, #128]                 // 8-byte Reload
	ldp	x22, x21, [sp, #160]            // 16-byte Folded Reload
	ldp	x24, x23, [sp, #144]            // 16-byte Folded Reload
	ldp	x29, x30, [sp, #112]            // 16-byte Folded Reload
	add	sp, sp, #192
	ret
.LBB151_6:                              // %arm.2.i.i
	mov	x0, xzr
	str	x8, [x19]
	b	.LBB151_5
.Lfunc_end151:
	.size	senyolanda_swap_duration, .Lfunc_end151-senyolanda_swap_duration
                                        // -- End function
	.section	.text.senyolanda_swap_dv01,"ax",@progbits
	.globl	senyolanda_swap_dv01            // -- Begin function senyolanda_swap_dv01
	.p2align	2
	.type	senyolanda_swap_dv01,@function
senyolanda_swap_dv01:                   // @senyolanda_swap_dv01
// %bb.0:                               // %start
	sub	sp, sp, #288
	stp	x24, x23, [sp, #240]            // 16-byte Folded Spill
	mov	x24, x2
	cmp	x0, #0
	mov	w9, #4096                       // =0x1000
	movi	v0.2d, #0000000000000000
	stp	x26, x25, [sp, #224]            // 16-byte Folded Spill
	csel	x10, x9, xzr, eq
	cmp	x2, #0
	stp	x22, x21, [sp, #256]            // 16-byte Folded Spill
	csel	x25, x9, xzr, eq
	cmp	x4, #0
	mov	x21, x5
	mov	x8, x0
	mov	x23, x3
	csel	x26, x9, xzr, eq
	stp	x20, x19, [sp, #272]            // 16-byte Folded Spill
	mov	w20, w6
	mov	x22, x4
	mov	x2, x1
	mov	x0, sp
	add	x1, x8, x10
	add	x3, x24, x25
	add	x5, x4, x26
	mov	x4, x23
	mov	x6, x21
	stp	x29, x30, [sp, #192]            // 16-byte Folded Spill
	add	x29, sp, #192
	str	x28, [sp, #208]                 // 8-byte Spill
	mov	x19, x7
	str	xzr, [sp, #40]
	stur	q0, [sp, #24]
	stur	q0, [sp, #8]
	bl	"senyolanda::swap_values::swap_in"
	ldrb	w8, [sp]
	cbz	w8, .LBB152_2
// %bb.1:                               // %"core::result::Result::and_then::<#01a99ffa08b1af04>.exit.thread.i"
	ldr	w8, [sp, #8]
	ldrb	w9, [sp, #4]
	b	.LBB152_4
.LBB152_2:                              // %arm.1.i.i
	ldp	q0, q1, [sp, #16]
	sub	x8, x29, #40
	ldrb	w9, [sp, #8]
	add	x0, sp, #48
	sub	x1, x29, #40
	add	x2, x24, x25
	add	x4, x22, x26
	mov	x3, x23
	stur	q0, [x8, #8]
	movi	v0.2d, #0000000000000000
	mov	x5, x21
	stur	q1, [x8, #24]
	stur	x9, [x29, #-40]
	str	xzr, [sp, #48]
	stp	q0, q0, [sp, #64]
	stp	q0, q0, [sp, #96]
	str	q0, [sp, #128]
	str	wzr, [sp, #56]
	bl	"swaps::judging::judge_any"
	ldrb	w8, [sp, #48]
	cmp	w8, #1
	b.ne	.LBB152_6
// %bb.3:                               // %"core::result::Result::and_then::<#01a99ffa08b1af04>.exit.thread17.i"
	ldrb	w9, [sp, #52]
	ldr	w8, [sp, #56]
.LBB152_4:                              // %arm.1.i5.i
	add	w9, w9, #1
	orr	x0, x9, x8, lsl #32
.LBB152_5:                              // %"senyolanda::swap_values::senyolanda_swap_dv01.exit"
	ldp	x20, x19, [sp, #272]            // 16-byte Folded Reload
	ldr	x28, [sp, #208]                 // 8-byte Reload
	ldp	x22, x21, [sp, #256]            // 16-byte Folded Reload
	ldp	x24, x23, [sp, #240]            // 16-byte Folded Reload
	ldp	x26, x25, [sp, #224]            // 16-byte Folded Reload
	ldp	x29, x30, [sp, #192]            // 16-byte Folded Reload
	add	sp, sp, #288
	ret
.LBB152_6:                              // %"core::result::Result::and_then::<#01a99ffa08b1af04>.exit.i"
	add	x0, sp, #64
	sub	x1, x29, #40
	add	x2, x24, x25
	add	x4, x22, x26
	mov	x3, x23
	mov	x5, x21
	bl	"swaps::valuation::legs_with_bump"
	ldp	d0, d1, [sp, #104]
	cmp	w20, #0
	ldp	d2, d3, [sp, #64]
	mov	x0, xzr
	fsub	d4, d1, d0
	fsub	d0, d0, d1
	fsub	d1, d3, d2
	fsub	d2, d2, d3
	fcsel	d0, d4, d0, eq
	fcsel	d1, d1, d2, eq
	fsub	d0, d0, d1
	str	d0, [x19]
	b	.LBB152_5
.Lfunc_end152:
	.size	senyolanda_swap_dv01, .Lfunc_end152-senyolanda_swap_dv01
                                        // -- End function
	.section	.text.senyolanda_swap_npv,"ax",@progbits
	.globl	senyolanda_swap_npv             // -- Begin function senyolanda_swap_npv
	.p2align	2
	.type	senyolanda_swap_npv,@function
senyolanda_swap_npv:                    // @senyolanda_swap_npv
// %bb.0:                               // %start
	sub	sp, sp, #192
	stp	x24, x23, [sp, #144]            // 16-byte Folded Spill
	mov	x23, x2
	cmp	x0, #0
	mov	w9, #4096                       // =0x1000
	movi	v0.2d, #0000000000000000
	stp	x26, x25, [sp, #128]            // 16-byte Folded Spill
	csel	x10, x9, xzr, eq
	cmp	x2, #0
	stp	x22, x21, [sp, #160]            // 16-byte Folded Spill
	csel	x25, x9, xzr, eq
	cmp	x4, #0
	stp	x20, x19, [sp, #176]            // 16-byte Folded Spill
	mov	x20, x5
	mov	x8, x0
	mov	x22, x3
	csel	x26, x9, xzr, eq
	mov	w24, w6
	mov	x21, x4
	mov	x2, x1
	add	x0, sp, #8
	add	x1, x8, x10
	add	x3, x23, x25
	add	x5, x4, x26
	mov	x4, x22
	mov	x6, x20
	stp	x29, x30, [sp, #112]            // 16-byte Folded Spill
	add	x29, sp, #112
	mov	x19, x7
	str	xzr, [sp, #48]
	stp	q0, q0, [sp, #16]
	bl	"senyolanda::swap_values::swap_in"
	ldrb	w8, [sp, #8]
	cbz	w8, .LBB153_2
// %bb.1:                               // %"core::result::Result::and_then::<#0ac2f8d7261045ef>.exit.thread.i"
	ldr	w8, [sp, #16]
	ldrb	w9, [sp, #12]
	b	.LBB153_4
.LBB153_2:                              // %"core::result::Result::and_then::<#0ac2f8d7261045ef>.exit.i"
	ldur	q0, [sp, #24]
	ldur	q1, [sp, #40]
	cmp	w24, #0
	ldrb	w8, [sp, #16]
	cset	w6, ne
	sub	x0, x29, #16
	add	x1, sp, #56
	add	x2, x23, x25
	add	x4, x21, x26
	mov	x3, x22
	mov	x5, x20
	stp	q0, q1, [sp, #64]
	str	x8, [sp, #56]
	bl	"swaps::valuation::swap_npv"
	ldurb	w9, [x29, #-16]
	ldur	x8, [x29, #-8]
	cmp	w9, #1
	b.ne	.LBB153_6
// %bb.3:
	ldurb	w9, [x29, #-12]
.LBB153_4:                              // %arm.1.i4.i
	add	w9, w9, #1
	orr	x0, x9, x8, lsl #32
.LBB153_5:                              // %"senyolanda::swap_values::senyolanda_swap_npv.exit"
	ldp	x20, x19, [sp, #176]            // 16-byte Folded Reload
	ldp	x22, x21, [sp, #160]            // 16-byte Folded Reload
	ldp	x24, x23, [sp, #144]            // 16-byte Folded Reload
	ldp	x26, x25, [sp, #128]            // 16-byte Folded Reload
	ldp	x29, x30, [sp, #112]            // 16-byte Folded Reload
	add	sp, sp, #192
	ret
.LBB153_6:                              // %arm.2.i.i
	mov	x0, xzr
	str	x8, [x19]
	b	.LBB153_5
.Lfunc_end153:
	.size	senyolanda_swap_npv, .Lfunc_end153-senyolanda_swap_npv
                                        // -- End function
	.section	.text.senyolanda_pool_totals,"ax",@progbits
	.globl	senyolanda_pool_totals          // -- Begin function senyolanda_pool_totals
	.p2align	2
	.type	senyolanda_pool_totals,@function
senyolanda_pool_totals:                 // @senyolanda_pool_totals
// %bb.0:                               // %start
	sub	sp, sp, #16
	mov	x9, #53053                      // =0xcf3d
	mov	x12, #3120                      // =0xc30
	cmp	x0, #0
	movk	x9, #15603, lsl #16
	movk	x12, #12483, lsl #16
	mov	w10, #4096                      // =0x1000
	movk	x9, #62415, lsl #32
	movk	x12, #49932, lsl #32
	mov	x8, xzr
	movk	x9, #53052, lsl #48
	movk	x12, #3120, lsl #48
	csel	x11, x10, xzr, eq
	mul	x9, x1, x9
	str	wzr, [sp, #8]
	str	xzr, [sp]
	cmp	x9, x12
	b.ls	.LBB154_2
.LBB154_1:                              // %"pool::loans::Loans::judged.exit.thread6.i.i"
	mov	w9, #10                         // =0xa
	stur	x8, [sp, #4]
	str	w9, [sp]
	ldr	x8, [sp], #16
	and	x8, x8, #0xffffffff000000ff
	add	x0, x8, #1
	ret
.LBB154_2:                              // %join.3.i.i.i.i
	cmp	x1, #20
	b.hi	.LBB154_5
// %bb.3:                               // %arm.2.thread.i.i
	movi	d3, #0000000000000000
	movi	d1, #0000000000000000
	movi	v2.2d, #0000000000000000
	//ARITH_FENCE
	fmov	d0, d3
	movi	v4.2d, #0000000000000000
	fcmp	d3, d0
	b.ne	.LBB154_21
.LBB154_4:                              // %arm.2.i
	mov	x0, xzr
	str	d1, [x2]
	stur	q4, [x2, #8]
	add	sp, sp, #16
	ret
.LBB154_5:                              // %arm.3.i.preheader.i.i.i.i.i
	mov	x9, #34329                      // =0x8619
	sub	x8, x1, #21
	mov	x10, xzr
	movk	x9, #6241, lsl #16
	movk	x9, #24966, lsl #32
	movk	x9, #34328, lsl #48
	umulh	x9, x8, x9
	sub	x8, x8, x9
	add	x8, x9, x8, lsr #1
	lsr	x9, x8, #4
	add	x8, x0, x11
	mov	x12, x8
	add	x11, x9, #1
.LBB154_6:                              // %arm.3.i.i.i.i.i.i
                                        // =>This Inner Loop Header: Depth=1
	ldrb	w13, [x12], #21
	cmp	w13, #1
	b.ne	.LBB154_22
// %bb.7:                               // %join.9.i.i.i.i.i.i
                                        //   in Loop: Header=BB154_6 Depth=1
	add	x10, x10, #1
	cmp	x11, x10
	b.ne	.LBB154_6
// %bb.8:                               // %"records::record::bad_record.exit.i.i.i.i.lr.ph.i.i.i.i.i.i"
	movi	d0, #0000000000000000
	mov	x10, xzr
	add	x11, x9, #1
	mov	x12, x8
	//ARITH_FENCE
.LBB154_9:                              // %"records::record::bad_record.exit.i.i.i.i.i.i.i.i.i.i"
                                        // =>This Inner Loop Header: Depth=1
	ldrb	w13, [x12]
	cmp	w13, #1
	b.ne	.LBB154_27
// %bb.10:                              // %arm.3.i.i.i8.i.i.i
                                        //   in Loop: Header=BB154_9 Depth=1
	ldur	x13, [x12, #1]
	mov	x16, #9221120237041090560       // =0x7ff8000000000000
	mov	x15, #9218868437227405312       // =0x7ff0000000000000
	fmov	d2, x16
	fmov	d1, x13
	and	x14, x13, #0x7fffffffffffffff
	cmp	x14, x15
	fcsel	d1, d2, d1, hi
	fsub	d2, d1, d1
	//ARITH_FENCE
	fcmp	d1, d0
	cset	w13, mi
	//APP
	//NO_APP
	cmp	w13, #0
	//ARITH_FENCE
	fccmp	d2, d0, #0, eq
	b.ne	.LBB154_23
// %bb.11:                              // %join.9.i.i.i9.i.i.i
                                        //   in Loop: Header=BB154_9 Depth=1
	add	x10, x10, #1
	add	x12, x12, #21
	cmp	x11, x10
	b.ne	.LBB154_9
// %bb.12:                              // %"records::record::bad_record.exit.i.i.i.i.i.i10.i.i.i.i.preheader"
	mov	x10, xzr
	add	x9, x9, #1
	mov	x11, x8
.LBB154_13:                             // %"records::record::bad_record.exit.i.i.i.i.i.i10.i.i.i.i"
                                        // =>This Inner Loop Header: Depth=1
	ldrb	w12, [x11]
	cmp	w12, #1
	b.ne	.LBB154_27
// %bb.14:                              // %arm.3.i.i15.i.i.i.i
                                        //   in Loop: Header=BB154_13 Depth=1
	ldur	w12, [x11, #17]
	sub	w12, w12, #1201
	cmn	w12, #1200
	b.lo	.LBB154_24
// %bb.15:                              // %join.9.i.i16.i.i.i.i
                                        //   in Loop: Header=BB154_13 Depth=1
	add	x10, x10, #1
	add	x11, x11, #21
	cmp	x9, x10
	b.ne	.LBB154_13
// %bb.16:                              // %arm.5.i10.i.i.i
	cmp	x1, #1364
	b.hi	.LBB154_25
// %bb.17:                              // %"records::record::bad_record.exit.i.i.i.i.i.i.i.i.preheader"
	movi	v2.2d, #0000000000000000
	movi	d1, #0000000000000000
.LBB154_18:                             // %"records::record::bad_record.exit.i.i.i.i.i.i.i.i"
                                        // =>This Inner Loop Header: Depth=1
	ldrb	w9, [x8]
	cmp	w9, #1
	b.ne	.LBB154_27
// %bb.19:                              // %arm.3.i.i.i.i
                                        //   in Loop: Header=BB154_18 Depth=1
	ldur	x9, [x8, #1]
	mov	x11, #9221120237041090560       // =0x7ff8000000000000
	ldur	x12, [x8, #9]
	fmov	d3, x11
	mov	x10, #9218868437227405312       // =0x7ff0000000000000
	ldur	s5, [x8, #17]
	fmov	d4, x9
	and	x11, x9, #0x7fffffffffffffff
	fmov	d6, x12
	cmp	x11, x10
	and	x9, x12, #0x7fffffffffffffff
	ucvtf	d5, d5
	sub	x1, x1, #21
	add	x8, x8, #21
	fcsel	d4, d3, d4, hi
	cmp	x9, x10
	fcsel	d3, d3, d6, hi
	cmp	x1, #20
	//ARITH_FENCE
	fadd	d1, d1, d4
	mov	v3.d[1], v5.d[0]
	fmul	v3.2d, v3.2d, v4.d[0]
	fadd	v2.2d, v2.2d, v3.2d
	b.hi	.LBB154_18
// %bb.20:                              // %"pool::totals::sums.exit.i.loopexit.i.i"
	fmov	d3, d1
	//ARITH_FENCE
	movi	v4.2d, #0000000000000000
	fcmp	d3, d0
	b.eq	.LBB154_4
.LBB154_21:                             // %join.3.i.i.i
	dup	v0.2d, v1.d[0]
	fdiv	v4.2d, v2.2d, v0.2d
	mov	x0, xzr
	str	d1, [x2]
	stur	q4, [x2, #8]
	add	sp, sp, #16
	ret
.LBB154_22:                             // %"pool::loans::Loans::of.exit.thread42.i.i.i"
	mov	w8, #-1                         // =0xffffffff
	cmp	x10, x8
	csel	x8, x10, x8, lo
	b	.LBB154_1
.LBB154_23:                             // %arm.2.i.i.i.i
	mov	w8, #-1                         // =0xffffffff
	cmp	x10, x8
	csel	x8, x10, x8, lo
	lsl	x8, x8, #32
	b	.LBB154_26
.LBB154_24:                             // %arm.1.i23.i.i.i.i
	mov	w8, #-1                         // =0xffffffff
	mov	w9, #1                          // =0x1
	cmp	x10, x8
	csel	x8, x10, x8, lo
	orr	x8, x9, x8, lsl #32
	b	.LBB154_26
.LBB154_25:
	mov	w8, #6                          // =0x6
.LBB154_26:                             // %"pool::loans::Loans::judged.exit.thread.i.i"
	lsr	x9, x8, #32
	and	w8, w8, #0xff
	str	w8, [sp]
	stur	x9, [sp, #4]
	ldr	x8, [sp], #16
	and	x8, x8, #0xffffffff000000ff
	add	x0, x8, #1
	ret
.LBB154_27:                             // %arm.2.i.i.i.i.i.i.i.i
	brk	#0x1
.Lfunc_end154:
	.size	senyolanda_pool_totals, .Lfunc_end154-senyolanda_pool_totals
                                        // -- End function
	.section	.text.senyolanda_value_dated_swap,"ax",@progbits
	.globl	senyolanda_value_dated_swap     // -- Begin function senyolanda_value_dated_swap
	.p2align	2
	.type	senyolanda_value_dated_swap,@function
senyolanda_value_dated_swap:            // @senyolanda_value_dated_swap
// %bb.0:                               // %start
	sub	sp, sp, #224
	stp	x24, x23, [sp, #176]            // 16-byte Folded Spill
	mov	x23, x2
	cmp	x0, #0
	mov	w9, #4096                       // =0x1000
	movi	v0.2d, #0000000000000000
	stp	x26, x25, [sp, #160]            // 16-byte Folded Spill
	csel	x10, x9, xzr, eq
	cmp	x2, #0
	stp	x22, x21, [sp, #192]            // 16-byte Folded Spill
	csel	x25, x9, xzr, eq
	cmp	x4, #0
	stp	x20, x19, [sp, #208]            // 16-byte Folded Spill
	mov	x20, x5
	mov	x8, x0
	mov	x22, x3
	csel	x26, x9, xzr, eq
	mov	w24, w6
	mov	x21, x4
	mov	x2, x1
	mov	x0, sp
	add	x1, x8, x10
	add	x3, x23, x25
	add	x5, x4, x26
	mov	x4, x22
	mov	x6, x20
	stp	x29, x30, [sp, #144]            // 16-byte Folded Spill
	add	x29, sp, #144
	mov	x19, x7
	str	xzr, [sp, #40]
	stur	q0, [sp, #24]
	stur	q0, [sp, #8]
	bl	"senyolanda::dated_swaps::dated_swap_in"
	ldrb	w8, [sp]
	ldur	x9, [sp, #4]
	cbz	w8, .LBB155_3
// %bb.1:                               // %"core::result::Result::map::<#788667a4c42debe5>.exit.thread.i"
	lsr	x8, x9, #32
.LBB155_2:                              // %arm.1.i9.i
	and	x9, x9, #0xff
	orr	x8, x9, x8, lsl #32
	add	x0, x8, #1
	b	.LBB155_8
.LBB155_3:                              // %"core::result::Result::and_then::<#7ecb8ee5e19a07c6>.exit.i"
	ldp	q0, q1, [sp, #16]
	ubfx	x8, x9, #32, #8
	cmp	w24, #0
	sub	x0, x29, #56
	add	x1, sp, #48
	cset	w6, ne
	add	x2, x23, x25
	add	x4, x21, x26
	mov	x3, x22
	mov	x5, x20
	stur	q0, [sp, #56]
	stur	q1, [sp, #72]
	str	x8, [sp, #48]
	bl	"swaps::valuation::value_swap"
	ldurb	w10, [x29, #-56]
	ldur	x9, [x29, #-52]
	cbz	w10, .LBB155_6
// %bb.4:                               // %"core::result::Result::map::<#788667a4c42debe5>.exit.i"
	lsr	x8, x9, #32
	cmp	w10, #1
	b.eq	.LBB155_2
// %bb.5:
	movi	v0.2d, #0000000000000000
	movi	d1, #0000000000000000
	mov	w9, wzr
	movi	v2.2d, #0000000000000000
	b	.LBB155_7
.LBB155_6:                              // %"core::result::Result::map::<#788667a4c42debe5>.exit.thread40.i"
	ldur	w8, [x29, #-44]
	ldur	q0, [x29, #-40]
	ldur	q2, [x29, #-24]
	ldur	d1, [x29, #-8]
	extr	x8, x8, x9, #32
	lsr	x9, x8, #32
.LBB155_7:                              // %arm.2.i.i
	mov	x0, xzr
	stp	w8, w9, [x19]
	stur	q0, [x19, #8]
	stur	q2, [x19, #24]
	str	d1, [x19, #40]
.LBB155_8:                              // %"senyolanda::dated_swaps::senyolanda_value_dated_swap.exit"
	ldp	x20, x19, [sp, #208]            // 16-byte Folded Reload
	ldp	x22, x21, [sp, #192]            // 16-byte Folded Reload
	ldp	x24, x23, [sp, #176]            // 16-byte Folded Reload
	ldp	x26, x25, [sp, #160]            // 16-byte Folded Reload
	ldp	x29, x30, [sp, #144]            // 16-byte Folded Reload
	add	sp, sp, #224
	ret
.Lfunc_end155:
	.size	senyolanda_value_dated_swap, .Lfunc_end155-senyolanda_value_dated_swap
                                        // -- End function
	.section	.text.senyolanda_value_swap,"ax",@progbits
	.globl	senyolanda_value_swap           // -- Begin function senyolanda_value_swap
	.p2align	2
	.type	senyolanda_value_swap,@function
senyolanda_value_swap:                  // @senyolanda_value_swap
// %bb.0:                               // %start
	sub	sp, sp, #224
	stp	x24, x23, [sp, #176]            // 16-byte Folded Spill
	mov	x23, x2
	cmp	x0, #0
	mov	w9, #4096                       // =0x1000
	movi	v0.2d, #0000000000000000
	stp	x26, x25, [sp, #160]            // 16-byte Folded Spill
	csel	x10, x9, xzr, eq
	cmp	x2, #0
	stp	x22, x21, [sp, #192]            // 16-byte Folded Spill
	csel	x25, x9, xzr, eq
	cmp	x4, #0
	stp	x20, x19, [sp, #208]            // 16-byte Folded Spill
	mov	x20, x5
	mov	x8, x0
	mov	x22, x3
	csel	x26, x9, xzr, eq
	mov	w24, w6
	mov	x21, x4
	mov	x2, x1
	mov	x0, sp
	add	x1, x8, x10
	add	x3, x23, x25
	add	x5, x4, x26
	mov	x4, x22
	mov	x6, x20
	stp	x29, x30, [sp, #144]            // 16-byte Folded Spill
	add	x29, sp, #144
	mov	x19, x7
	str	xzr, [sp, #40]
	stur	q0, [sp, #24]
	stur	q0, [sp, #8]
	bl	"senyolanda::swap_values::swap_in"
	ldrb	w8, [sp]
	ldur	x9, [sp, #4]
	cbz	w8, .LBB156_3
// %bb.1:                               // %"core::result::Result::map::<#788667a4c42debe5>.exit.thread.i"
	lsr	x8, x9, #32
.LBB156_2:                              // %arm.1.i9.i
	and	x9, x9, #0xff
	orr	x8, x9, x8, lsl #32
	add	x0, x8, #1
	b	.LBB156_8
.LBB156_3:                              // %"core::result::Result::and_then::<#31e0dcf6a66a5896>.exit.i"
	ldp	q0, q1, [sp, #16]
	ubfx	x8, x9, #32, #8
	cmp	w24, #0
	sub	x0, x29, #56
	add	x1, sp, #48
	cset	w6, ne
	add	x2, x23, x25
	add	x4, x21, x26
	mov	x3, x22
	mov	x5, x20
	stur	q0, [sp, #56]
	stur	q1, [sp, #72]
	str	x8, [sp, #48]
	bl	"swaps::valuation::value_swap"
	ldurb	w10, [x29, #-56]
	ldur	x9, [x29, #-52]
	cbz	w10, .LBB156_6
// %bb.4:                               // %"core::result::Result::map::<#788667a4c42debe5>.exit.i"
	lsr	x8, x9, #32
	cmp	w10, #1
	b.eq	.LBB156_2
// %bb.5:
	movi	v0.2d, #0000000000000000
	movi	d1, #0000000000000000
	mov	w9, wzr
	movi	v2.2d, #0000000000000000
	b	.LBB156_7
.LBB156_6:                              // %"core::result::Result::map::<#788667a4c42debe5>.exit.thread40.i"
	ldur	w8, [x29, #-44]
	ldur	q0, [x29, #-40]
	ldur	q2, [x29, #-24]
	ldur	d1, [x29, #-8]
	extr	x8, x8, x9, #32
	lsr	x9, x8, #32
.LBB156_7:                              // %arm.2.i.i
	mov	x0, xzr
	stp	w8, w9, [x19]
	stur	q0, [x19, #8]
	stur	q2, [x19, #24]
	str	d1, [x19, #40]
.LBB156_8:                              // %"senyolanda::swap_values::senyolanda_value_swap.exit"
	ldp	x20, x19, [sp, #208]            // 16-byte Folded Reload
	ldp	x22, x21, [sp, #192]            // 16-byte Folded Reload
	ldp	x24, x23, [sp, #176]            // 16-byte Folded Reload
	ldp	x26, x25, [sp, #160]            // 16-byte Folded Reload
	ldp	x29, x30, [sp, #144]            // 16-byte Folded Reload
	add	sp, sp, #224
	ret
.Lfunc_end156:
	.size	senyolanda_value_swap, .Lfunc_end156-senyolanda_value_swap
                                        // -- End function
	.section	.text.senyolanda_discount_curve_factor_each,"ax",@progbits
	.globl	senyolanda_discount_curve_factor_each // -- Begin function senyolanda_discount_curve_factor_each
	.p2align	2
	.type	senyolanda_discount_curve_factor_each,@function
senyolanda_discount_curve_factor_each:  // @senyolanda_discount_curve_factor_each
// %bb.0:                               // %start
	sub	sp, sp, #112
	cmp	x0, #0
	mov	w8, #4096                       // =0x1000
	stp	x26, x25, [sp, #48]             // 16-byte Folded Spill
	csel	x26, x8, xzr, eq
	cmp	x2, #0
	str	x27, [sp, #32]                  // 8-byte Spill
	csel	x27, x8, xzr, eq
	cmp	x4, #0
	stp	x24, x23, [sp, #64]             // 16-byte Folded Spill
	stp	x22, x21, [sp, #80]             // 16-byte Folded Spill
	mov	x21, x3
	mov	x24, x0
	stp	x20, x19, [sp, #96]             // 16-byte Folded Spill
	mov	x19, x5
	mov	x22, x1
	csel	x25, x8, xzr, eq
	mov	x20, x4
	mov	x23, x2
	mov	x0, sp
	add	x1, x24, x26
	add	x3, x2, x27
	add	x5, x4, x25
	mov	x2, x22
	mov	x4, x21
	mov	x6, x19
	stp	x29, x30, [sp, #16]             // 16-byte Folded Spill
	add	x29, sp, #16
	str	wzr, [sp, #8]
	str	xzr, [sp]
	bl	"curves::each::judge_each"
	ldrb	w8, [sp]
	cbz	w8, .LBB157_2
// %bb.1:                               // %"swaps::discount_each::discount_factor_at_each.exit.i"
	ldur	x8, [sp, #4]
	and	x8, x8, #0xffffffff000000ff
	add	x0, x8, #1
	b	.LBB157_3
.LBB157_2:
	add	x2, x24, x26
	add	x4, x23, x27
	add	x6, x20, x25
	mov	w0, #1                          // =0x1
	mov	w1, #1                          // =0x1
	mov	x3, x22
	mov	x5, x21
	mov	x7, x19
	bl	"curves::each::answer_each"
	add	x0, x20, x25
	mov	x1, x19
	bl	"elementary::exp::exp_each"
	mov	x0, xzr
.LBB157_3:                              // %"senyolanda::lists::senyolanda_discount_curve_factor_each.exit"
	ldp	x20, x19, [sp, #96]             // 16-byte Folded Reload
	ldr	x27, [sp, #32]                  // 8-byte Reload
	ldp	x22, x21, [sp, #80]             // 16-byte Folded Reload
	ldp	x24, x23, [sp, #64]             // 16-byte Folded Reload
	ldp	x26, x25, [sp, #48]             // 16-byte Folded Reload
	ldp	x29, x30, [sp, #16]             // 16-byte Folded Reload
	add	sp, sp, #112
	ret
.Lfunc_end157:
	.size	senyolanda_discount_curve_factor_each, .Lfunc_end157-senyolanda_discount_curve_factor_each
                                        // -- End function
	.section	.text.senyolanda_discount_curve_rate_each,"ax",@progbits
	.globl	senyolanda_discount_curve_rate_each // -- Begin function senyolanda_discount_curve_rate_each
	.p2align	2
	.type	senyolanda_discount_curve_rate_each,@function
senyolanda_discount_curve_rate_each:    // @senyolanda_discount_curve_rate_each
// %bb.0:                               // %start
	sub	sp, sp, #112
	cmp	x0, #0
	mov	w8, #4096                       // =0x1000
	stp	x26, x25, [sp, #48]             // 16-byte Folded Spill
	csel	x25, x8, xzr, eq
	cmp	x2, #0
	str	x27, [sp, #32]                  // 8-byte Spill
	csel	x26, x8, xzr, eq
	cmp	x4, #0
	stp	x24, x23, [sp, #64]             // 16-byte Folded Spill
	stp	x22, x21, [sp, #80]             // 16-byte Folded Spill
	mov	x24, x0
	mov	x22, x1
	stp	x20, x19, [sp, #96]             // 16-byte Folded Spill
	mov	x19, x5
	mov	x20, x3
	csel	x27, x8, xzr, eq
	mov	x21, x4
	mov	x23, x2
	mov	x0, sp
	add	x1, x24, x25
	add	x3, x2, x26
	add	x5, x4, x27
	mov	x2, x22
	mov	x4, x20
	mov	x6, x19
	stp	x29, x30, [sp, #16]             // 16-byte Folded Spill
	add	x29, sp, #16
	str	wzr, [sp, #8]
	str	xzr, [sp]
	bl	"curves::each::judge_each"
	ldrb	w8, [sp]
	cbz	w8, .LBB158_2
// %bb.1:                               // %"swaps::discount_each::rate_at_each.exit.i"
	ldur	x8, [sp, #4]
	and	x8, x8, #0xffffffff000000ff
	add	x0, x8, #1
	b	.LBB158_3
.LBB158_2:
	add	x2, x24, x25
	add	x4, x23, x26
	add	x6, x21, x27
	mov	w0, #1                          // =0x1
	mov	w1, wzr
	mov	x3, x22
	mov	x5, x20
	mov	x7, x19
	bl	"curves::each::answer_each"
	mov	x0, xzr
.LBB158_3:                              // %"senyolanda::lists::senyolanda_discount_curve_rate_each.exit"
	ldp	x20, x19, [sp, #96]             // 16-byte Folded Reload
	ldr	x27, [sp, #32]                  // 8-byte Reload
	ldp	x22, x21, [sp, #80]             // 16-byte Folded Reload
	ldp	x24, x23, [sp, #64]             // 16-byte Folded Reload
	ldp	x26, x25, [sp, #48]             // 16-byte Folded Reload
	ldp	x29, x30, [sp, #16]             // 16-byte Folded Reload
	add	sp, sp, #112
	ret
.Lfunc_end158:
	.size	senyolanda_discount_curve_rate_each, .Lfunc_end158-senyolanda_discount_curve_rate_each
                                        // -- End function
	.section	.text.senyolanda_linear_interpolate_each,"ax",@progbits
	.globl	senyolanda_linear_interpolate_each // -- Begin function senyolanda_linear_interpolate_each
	.p2align	2
	.type	senyolanda_linear_interpolate_each,@function
senyolanda_linear_interpolate_each:     // @senyolanda_linear_interpolate_each
// %bb.0:                               // %start
	sub	sp, sp, #112
	cmp	x0, #0
	mov	w8, #4096                       // =0x1000
	stp	x26, x25, [sp, #48]             // 16-byte Folded Spill
	csel	x25, x8, xzr, eq
	cmp	x2, #0
	str	x27, [sp, #32]                  // 8-byte Spill
	csel	x26, x8, xzr, eq
	cmp	x4, #0
	stp	x24, x23, [sp, #64]             // 16-byte Folded Spill
	stp	x22, x21, [sp, #80]             // 16-byte Folded Spill
	mov	x24, x0
	mov	x22, x1
	stp	x20, x19, [sp, #96]             // 16-byte Folded Spill
	mov	x19, x5
	mov	x20, x3
	csel	x27, x8, xzr, eq
	mov	x21, x4
	mov	x23, x2
	mov	x0, sp
	add	x1, x24, x25
	add	x3, x2, x26
	add	x5, x4, x27
	mov	x2, x22
	mov	x4, x20
	mov	x6, x19
	stp	x29, x30, [sp, #16]             // 16-byte Folded Spill
	add	x29, sp, #16
	str	wzr, [sp, #8]
	str	xzr, [sp]
	bl	"curves::each::judge_each"
	ldrb	w8, [sp]
	cbz	w8, .LBB159_2
// %bb.1:                               // %"yield_curve::each::rate_at_each.exit.i"
	ldur	x8, [sp, #4]
	and	x8, x8, #0xffffffff000000ff
	add	x0, x8, #1
	b	.LBB159_3
.LBB159_2:
	add	x2, x24, x25
	add	x4, x23, x26
	add	x6, x21, x27
	mov	w0, wzr
	mov	w1, wzr
	mov	x3, x22
	mov	x5, x20
	mov	x7, x19
	bl	"curves::each::answer_each"
	mov	x0, xzr
.LBB159_3:                              // %"senyolanda::lists::senyolanda_linear_interpolate_each.exit"
	ldp	x20, x19, [sp, #96]             // 16-byte Folded Reload
	ldr	x27, [sp, #32]                  // 8-byte Reload
	ldp	x22, x21, [sp, #80]             // 16-byte Folded Reload
	ldp	x24, x23, [sp, #64]             // 16-byte Folded Reload
	ldp	x26, x25, [sp, #48]             // 16-byte Folded Reload
	ldp	x29, x30, [sp, #16]             // 16-byte Folded Reload
	add	sp, sp, #112
	ret
.Lfunc_end159:
	.size	senyolanda_linear_interpolate_each, .Lfunc_end159-senyolanda_linear_interpolate_each
                                        // -- End function
	.section	.text.senyolanda_swap_curve_rate_each,"ax",@progbits
	.globl	senyolanda_swap_curve_rate_each // -- Begin function senyolanda_swap_curve_rate_each
	.p2align	2
	.type	senyolanda_swap_curve_rate_each,@function
senyolanda_swap_curve_rate_each:        // @senyolanda_swap_curve_rate_each
// %bb.0:                               // %start
	sub	sp, sp, #112
	cmp	x0, #0
	mov	w8, #4096                       // =0x1000
	stp	x26, x25, [sp, #48]             // 16-byte Folded Spill
	csel	x25, x8, xzr, eq
	cmp	x2, #0
	str	x27, [sp, #32]                  // 8-byte Spill
	csel	x26, x8, xzr, eq
	cmp	x4, #0
	stp	x24, x23, [sp, #64]             // 16-byte Folded Spill
	stp	x22, x21, [sp, #80]             // 16-byte Folded Spill
	mov	x24, x0
	mov	x22, x1
	stp	x20, x19, [sp, #96]             // 16-byte Folded Spill
	mov	x19, x5
	mov	x20, x3
	csel	x27, x8, xzr, eq
	mov	x21, x4
	mov	x23, x2
	mov	x0, sp
	add	x1, x24, x25
	add	x3, x2, x26
	add	x5, x4, x27
	mov	x2, x22
	mov	x4, x20
	mov	x6, x19
	stp	x29, x30, [sp, #16]             // 16-byte Folded Spill
	add	x29, sp, #16
	str	wzr, [sp, #8]
	str	xzr, [sp]
	bl	"curves::each::judge_each"
	ldrb	w8, [sp]
	cbz	w8, .LBB160_2
// %bb.1:                               // %"spread_analytics::curves_each::rate_at_each.exit.i"
	ldur	x8, [sp, #4]
	and	x8, x8, #0xffffffff000000ff
	add	x0, x8, #1
	b	.LBB160_3
.LBB160_2:
	add	x2, x24, x25
	add	x4, x23, x26
	add	x6, x21, x27
	mov	w0, #2                          // =0x2
	mov	w1, wzr
	mov	x3, x22
	mov	x5, x20
	mov	x7, x19
	bl	"curves::each::answer_each"
	mov	x0, xzr
.LBB160_3:                              // %"senyolanda::lists::senyolanda_swap_curve_rate_each.exit"
	ldp	x20, x19, [sp, #96]             // 16-byte Folded Reload
	ldr	x27, [sp, #32]                  // 8-byte Reload
	ldp	x22, x21, [sp, #80]             // 16-byte Folded Reload
	ldp	x24, x23, [sp, #64]             // 16-byte Folded Reload
	ldp	x26, x25, [sp, #48]             // 16-byte Folded Reload
	ldp	x29, x30, [sp, #16]             // 16-byte Folded Reload
	add	sp, sp, #112
	ret
.Lfunc_end160:
	.size	senyolanda_swap_curve_rate_each, .Lfunc_end160-senyolanda_swap_curve_rate_each
                                        // -- End function
	.section	.text.senyolanda_yield_curve_discount_factor_each,"ax",@progbits
	.globl	senyolanda_yield_curve_discount_factor_each // -- Begin function senyolanda_yield_curve_discount_factor_each
	.p2align	2
	.type	senyolanda_yield_curve_discount_factor_each,@function
senyolanda_yield_curve_discount_factor_each: // @senyolanda_yield_curve_discount_factor_each
// %bb.0:                               // %start
	sub	sp, sp, #112
	cmp	x0, #0
	mov	w8, #4096                       // =0x1000
	stp	x26, x25, [sp, #48]             // 16-byte Folded Spill
	csel	x26, x8, xzr, eq
	cmp	x2, #0
	str	x27, [sp, #32]                  // 8-byte Spill
	csel	x27, x8, xzr, eq
	cmp	x4, #0
	stp	x24, x23, [sp, #64]             // 16-byte Folded Spill
	stp	x22, x21, [sp, #80]             // 16-byte Folded Spill
	mov	x21, x3
	mov	x24, x0
	stp	x20, x19, [sp, #96]             // 16-byte Folded Spill
	mov	x19, x5
	mov	x22, x1
	csel	x25, x8, xzr, eq
	mov	x20, x4
	mov	x23, x2
	mov	x0, sp
	add	x1, x24, x26
	add	x3, x2, x27
	add	x5, x4, x25
	mov	x2, x22
	mov	x4, x21
	mov	x6, x19
	stp	x29, x30, [sp, #16]             // 16-byte Folded Spill
	add	x29, sp, #16
	str	wzr, [sp, #8]
	str	xzr, [sp]
	bl	"curves::each::judge_each"
	ldrb	w8, [sp]
	cbz	w8, .LBB161_2
// %bb.1:                               // %"yield_curve::each::discount_factor_at_each.exit.i"
	ldur	x8, [sp, #4]
	and	x8, x8, #0xffffffff000000ff
	add	x0, x8, #1
	b	.LBB161_3
.LBB161_2:
	add	x2, x24, x26
	add	x4, x23, x27
	add	x6, x20, x25
	mov	w0, wzr
	mov	w1, #1                          // =0x1
	mov	x3, x22
	mov	x5, x21
	mov	x7, x19
	bl	"curves::each::answer_each"
	add	x0, x20, x25
	mov	x1, x19
	bl	"elementary::exp::exp_each"
	mov	x0, xzr
.LBB161_3:                              // %"senyolanda::lists::senyolanda_yield_curve_discount_factor_each.exit"
	ldp	x20, x19, [sp, #96]             // 16-byte Folded Reload
	ldr	x27, [sp, #32]                  // 8-byte Reload
	ldp	x22, x21, [sp, #80]             // 16-byte Folded Reload
	ldp	x24, x23, [sp, #64]             // 16-byte Folded Reload
	ldp	x26, x25, [sp, #48]             // 16-byte Folded Reload
	ldp	x29, x30, [sp, #16]             // 16-byte Folded Reload
	add	sp, sp, #112
	ret
.Lfunc_end161:
	.size	senyolanda_yield_curve_discount_factor_each, .Lfunc_end161-senyolanda_yield_curve_discount_factor_each
                                        // -- End function
	.section	.text.senyolanda_zero_curve_discount_factor_each,"ax",@progbits
	.globl	senyolanda_zero_curve_discount_factor_each // -- Begin function senyolanda_zero_curve_discount_factor_each
	.p2align	2
	.type	senyolanda_zero_curve_discount_factor_each,@function
senyolanda_zero_curve_discount_factor_each: // @senyolanda_zero_curve_discount_factor_each
// %bb.0:                               // %start
	sub	sp, sp, #112
	cmp	x0, #0
	mov	w8, #4096                       // =0x1000
	stp	x26, x25, [sp, #48]             // 16-byte Folded Spill
	csel	x26, x8, xzr, eq
	cmp	x2, #0
	str	x27, [sp, #32]                  // 8-byte Spill
	csel	x27, x8, xzr, eq
	cmp	x4, #0
	stp	x24, x23, [sp, #64]             // 16-byte Folded Spill
	stp	x22, x21, [sp, #80]             // 16-byte Folded Spill
	mov	x21, x3
	mov	x24, x0
	stp	x20, x19, [sp, #96]             // 16-byte Folded Spill
	mov	x19, x5
	mov	x22, x1
	csel	x25, x8, xzr, eq
	mov	x20, x4
	mov	x23, x2
	mov	x0, sp
	add	x1, x24, x26
	add	x3, x2, x27
	add	x5, x4, x25
	mov	x2, x22
	mov	x4, x21
	mov	x6, x19
	stp	x29, x30, [sp, #16]             // 16-byte Folded Spill
	add	x29, sp, #16
	str	wzr, [sp, #8]
	str	xzr, [sp]
	bl	"curves::each::judge_each"
	ldrb	w8, [sp]
	cbz	w8, .LBB162_2
// %bb.1:                               // %"spread_analytics::curves_each::discount_factor_at_each.exit.i"
	ldur	x8, [sp, #4]
	and	x8, x8, #0xffffffff000000ff
	add	x0, x8, #1
	b	.LBB162_3
.LBB162_2:
	add	x2, x24, x26
	add	x4, x23, x27
	add	x6, x20, x25
	mov	w0, #2                          // =0x2
	mov	w1, #1                          // =0x1
	mov	x3, x22
	mov	x5, x21
	mov	x7, x19
	bl	"curves::each::answer_each"
	add	x0, x20, x25
	mov	x1, x19
	bl	"elementary::exp::exp_each"
	mov	x0, xzr
.LBB162_3:                              // %"senyolanda::lists::senyolanda_zero_curve_discount_factor_each.exit"
	ldp	x20, x19, [sp, #96]             // 16-byte Folded Reload
	ldr	x27, [sp, #32]                  // 8-byte Reload
	ldp	x22, x21, [sp, #80]             // 16-byte Folded Reload
	ldp	x24, x23, [sp, #64]             // 16-byte Folded Reload
	ldp	x26, x25, [sp, #48]             // 16-byte Folded Reload
	ldp	x29, x30, [sp, #16]             // 16-byte Folded Reload
	add	sp, sp, #112
	ret
.Lfunc_end162:
	.size	senyolanda_zero_curve_discount_factor_each, .Lfunc_end162-senyolanda_zero_curve_discount_factor_each
                                        // -- End function
	.section	.text.senyolanda_zero_curve_rate_each,"ax",@progbits
	.globl	senyolanda_zero_curve_rate_each // -- Begin function senyolanda_zero_curve_rate_each
	.p2align	2
	.type	senyolanda_zero_curve_rate_each,@function
senyolanda_zero_curve_rate_each:        // @senyolanda_zero_curve_rate_each
// %bb.0:                               // %start
	sub	sp, sp, #112
	cmp	x0, #0
	mov	w8, #4096                       // =0x1000
	stp	x26, x25, [sp, #48]             // 16-byte Folded Spill
	csel	x25, x8, xzr, eq
	cmp	x2, #0
	str	x27, [sp, #32]                  // 8-byte Spill
	csel	x26, x8, xzr, eq
	cmp	x4, #0
	stp	x24, x23, [sp, #64]             // 16-byte Folded Spill
	stp	x22, x21, [sp, #80]             // 16-byte Folded Spill
	mov	x24, x0
	mov	x22, x1
	stp	x20, x19, [sp, #96]             // 16-byte Folded Spill
	mov	x19, x5
	mov	x20, x3
	csel	x27, x8, xzr, eq
	mov	x21, x4
	mov	x23, x2
	mov	x0, sp
	add	x1, x24, x25
	add	x3, x2, x26
	add	x5, x4, x27
	mov	x2, x22
	mov	x4, x20
	mov	x6, x19
	stp	x29, x30, [sp, #16]             // 16-byte Folded Spill
	add	x29, sp, #16
	str	wzr, [sp, #8]
	str	xzr, [sp]
	bl	"curves::each::judge_each"
	ldrb	w8, [sp]
	cbz	w8, .LBB163_2
// %bb.1:                               // %"spread_analytics::curves_each::rate_at_each.exit.i"
	ldur	x8, [sp, #4]
	and	x8, x8, #0xffffffff000000ff
	add	x0, x8, #1
	b	.LBB163_3
.LBB163_2:
	add	x2, x24, x25
	add	x4, x23, x26
	add	x6, x21, x27
	mov	w0, #2                          // =0x2
	mov	w1, wzr
	mov	x3, x22
	mov	x5, x20
	mov	x7, x19
	bl	"curves::each::answer_each"
	mov	x0, xzr
.LBB163_3:                              // %"senyolanda::lists::senyolanda_zero_curve_rate_each.exit"
	ldp	x20, x19, [sp, #96]             // 16-byte Folded Reload
	ldr	x27, [sp, #32]                  // 8-byte Reload
	ldp	x22, x21, [sp, #80]             // 16-byte Folded Reload
	ldp	x24, x23, [sp, #64]             // 16-byte Folded Reload
	ldp	x26, x25, [sp, #48]             // 16-byte Folded Reload
	ldp	x29, x30, [sp, #16]             // 16-byte Folded Reload
	add	sp, sp, #112
	ret
.Lfunc_end163:
	.size	senyolanda_zero_curve_rate_each, .Lfunc_end163-senyolanda_zero_curve_rate_each
                                        // -- End function
	.section	.text.senyolanda_look_up_balloon_year,"ax",@progbits
	.globl	senyolanda_look_up_balloon_year // -- Begin function senyolanda_look_up_balloon_year
	.p2align	2
	.type	senyolanda_look_up_balloon_year,@function
senyolanda_look_up_balloon_year:        // @senyolanda_look_up_balloon_year
// %bb.0:                               // %start
	sub	sp, sp, #16
	ldp	w8, w10, [x1]
	cmp	x3, #0
	mov	w9, #4096                       // =0x1000
	str	wzr, [sp, #8]
	csel	x9, x9, xzr, eq
	str	xzr, [sp]
	sub	w11, w8, #1201
	cmn	w11, #1201
	b.hi	.LBB164_2
// %bb.1:                               // %then.1.i.i
	mov	w8, #1                          // =0x1
	b	.LBB164_9
.LBB164_2:                              // %join.3.i.i
	mov	w11, #43691                     // =0xaaab
	mov	w12, #12                        // =0xc
	mul	w11, w8, w11
	lsr	w11, w11, #19
	msub	w12, w11, w12, w8
	tst	w12, #0xffff
	cinc	x11, x11, ne
	cmp	x11, x4, lsr #2
	b.ls	.LBB164_4
// %bb.3:                               // %then.4.i.i
	mov	w8, #2                          // =0x2
	b	.LBB164_9
.LBB164_4:                              // %join.6.i.i
	cmp	w0, w10
	b.hs	.LBB164_6
// %bb.5:                               // %then.7.i.i
	mov	w8, #9                          // =0x9
	b	.LBB164_9
.LBB164_6:                              // %join.9.i.i
	cbz	w5, .LBB164_8
// %bb.7:                               // %else.13.i.i
	mov	w11, #43691                     // =0xaaab
	mov	w12, #12                        // =0xc
	movk	w11, #43690, lsl #16
	umull	x11, w10, w11
	lsr	x11, x11, #35
	msub	w10, w11, w12, w10
	cmp	w10, #0
	cinc	w10, w11, ne
	cmp	w10, w5
	b.hs	.LBB164_10
.LBB164_8:                              // %join.14.i.i
	mov	w8, #13                         // =0xd
.LBB164_9:                              // %arm.1.i7.i
	stur	xzr, [sp, #1]
	strb	w8, [sp]
	str	wzr, [sp, #8]
	ldr	x8, [sp], #16
	and	x8, x8, #0xffffffff000000ff
	add	x0, x8, #1
	ret
.LBB164_10:                             // %after.10.i.i
	sub	w10, w0, #1
	cmp	w10, w8
	b.hs	.LBB164_12
// %bb.11:                              // %arm.2.i.i
	add	x8, x3, x9
	sub	w9, w5, #1
	mov	x0, xzr
	add	x8, x8, x9, lsl #5
	ldr	x9, [x8]
	ldur	q0, [x8, #8]
	ldr	d1, [x8, #24]
	stur	x9, [sp, #4]
	lsr	x9, x9, #32
	ldr	x10, [sp]
	stur	q0, [x6, #8]
	str	d1, [x6, #24]
	extr	x9, x9, x10, #32
	str	x9, [x6]
	add	sp, sp, #16
	ret
.LBB164_12:                             // %then.20.i.i
	mov	w8, #15                         // =0xf
	b	.LBB164_9
.Lfunc_end164:
	.size	senyolanda_look_up_balloon_year, .Lfunc_end164-senyolanda_look_up_balloon_year
                                        // -- End function
	.section	.text.senyolanda_look_up_year,"ax",@progbits
	.globl	senyolanda_look_up_year         // -- Begin function senyolanda_look_up_year
	.p2align	2
	.type	senyolanda_look_up_year,@function
senyolanda_look_up_year:                // @senyolanda_look_up_year
// %bb.0:                               // %start
	sub	sp, sp, #16
	ldp	w10, w9, [x0]
	mov	w8, #4096                       // =0x1000
	cmp	x2, #0
	str	wzr, [sp, #8]
	csel	x8, x8, xzr, eq
	str	xzr, [sp]
	sub	w11, w10, #1201
	cmn	w11, #1200
	b.hs	.LBB165_2
// %bb.1:
	mov	w8, #1                          // =0x1
	strb	w8, [sp]
	ldr	x8, [sp], #16
	and	x8, x8, #0xffffffff000000ff
	add	x0, x8, #1
	ret
.LBB165_2:                              // %join.3.i.i.i
	mov	w11, #43691                     // =0xaaab
	mov	w12, #12                        // =0xc
	mul	w11, w10, w11
	lsr	w11, w11, #19
	msub	w12, w11, w12, w10
	tst	w12, #0xffff
	cinc	x11, x11, ne
	cmp	x11, x3, lsr #2
	b.ls	.LBB165_4
// %bb.3:
	mov	w8, #2                          // =0x2
	strb	w8, [sp]
	ldr	x8, [sp], #16
	and	x8, x8, #0xffffffff000000ff
	add	x0, x8, #1
	ret
.LBB165_4:                              // %join.6.i.i.i
	cmp	w10, w9
	b.hs	.LBB165_6
// %bb.5:
	mov	w8, #9                          // =0x9
	strb	w8, [sp]
	ldr	x8, [sp], #16
	and	x8, x8, #0xffffffff000000ff
	add	x0, x8, #1
	ret
.LBB165_6:                              // %join.9.i.i.i
	cbz	w4, .LBB165_8
// %bb.7:                               // %else.13.i.i.i
	mov	w10, #43691                     // =0xaaab
	mov	w11, #12                        // =0xc
	mul	w10, w9, w10
	lsr	w10, w10, #19
	msub	w9, w10, w11, w9
	tst	w9, #0xffff
	cinc	w9, w10, ne
	cmp	w9, w4
	b.hs	.LBB165_9
.LBB165_8:
	mov	w8, #13                         // =0xd
	strb	w8, [sp]
	ldr	x8, [sp], #16
	and	x8, x8, #0xffffffff000000ff
	add	x0, x8, #1
	ret
.LBB165_9:                              // %arm.2.i.i
	add	x8, x2, x8
	sub	w9, w4, #1
	mov	x0, xzr
	add	x8, x8, x9, lsl #5
	ldr	x9, [x8]
	ldur	q0, [x8, #8]
	ldr	d1, [x8, #24]
	stur	x9, [sp, #4]
	lsr	x9, x9, #32
	ldr	x10, [sp]
	stur	q0, [x5, #8]
	str	d1, [x5, #24]
	extr	x9, x9, x10, #32
	str	x9, [x5]
	add	sp, sp, #16
	ret
.Lfunc_end165:
	.size	senyolanda_look_up_year, .Lfunc_end165-senyolanda_look_up_year
                                        // -- End function
	.type	.Lstatic.2,@object              // @static.2
	.section	.rodata.cst8,"aM",@progbits,8
	.p2align	3, 0x0
.Lstatic.2:
	.zero	8
	.size	.Lstatic.2, 8

	.type	.Lswitch.table.senyolanda_periods_per_year,@object // @switch.table.senyolanda_periods_per_year
	.section	.rodata.cst16,"aM",@progbits,16
	.p2align	2, 0x0
.Lswitch.table.senyolanda_periods_per_year:
	.word	1                               // 0x1
	.word	2                               // 0x2
	.word	4                               // 0x4
	.word	12                              // 0xc
	.size	.Lswitch.table.senyolanda_periods_per_year, 16

	.ident	"rattle logic=dac8208d650f15bf3e2dc313a14fa4c783a3acf887bdfab66e1714b038d9e11b"
	.section	".note.GNU-stack","",@progbits
