; Forms of instruction that a module of the kit's backend may have, written by hand for the second reader: so the printer is
; looked at whole, whatever today's libraries happen to use. Nothing calls this.
%padded = type { i8, i64, i16, ptr }
%nested = type { i32, %padded, [3 x i16] }

define void @more(i8 %b, i16 %h, i32 %w, i64 %q, i128 %o, i1 %t, ptr %p, double %d, <16 x i8> %v, <16 x i8> %u, { i64, i8 } %s, i24 %m, i48 %n) {
  %a0 = sext i8 %b to i64
  %a1 = sext i16 %h to i32
  %a2 = sext i32 %w to i64
  %a3 = sext i1 %t to i32
  %a4 = sext i1 %t to i64
  %a5 = sext i64 %q to i128
  %a6 = zext i64 %q to i128
  %a7 = trunc i128 %o to i64
  %a8 = trunc i64 %q to i33
  %a9 = zext i33 %a8 to i64
  %b0 = ashr i8 %b, 3
  %b1 = ashr i16 %h, %h
  %b2 = ashr i32 %w, 31
  %b3 = ashr i64 %q, %q
  %b4 = lshr i128 %o, 64
  %b5 = shl i128 %o, 64
  %b6 = mul i16 %h, %h
  %b7 = mul i128 %o, %o
  %b8 = add i33 %a8, 8589934591
  %b9 = sub i33 %a8, 5
  %c0 = sdiv i32 %w, 7
  %c1 = srem i64 %q, %q
  %c2 = udiv i128 %o, 10
  %c3 = urem i8 %b, 10
  %c4 = icmp slt i8 %b, -3
  %c5 = icmp sge i64 %q, %q
  %c6 = icmp ugt i33 %a8, 4294967296
  %c7 = icmp slt i33 %a8, 0
  %c8 = icmp ult i128 %o, 18446744073709551616
  %c9 = icmp eq ptr %p, null
  %d0 = call i64 @llvm.umin.i64(i64 %q, i64 100)
  %d1 = call i32 @llvm.umax.i32(i32 %w, i32 %w)
  %d2 = call i16 @llvm.smin.i16(i16 %h, i16 -3)
  %d3 = call i8 @llvm.smax.i8(i8 %b, i8 %b)
  %d4 = call i8 @llvm.ucmp.i8.i64(i64 %q, i64 %q)
  %d5 = call i8 @llvm.scmp.i8.i32(i32 %w, i32 7)
  %d6 = call i64 @llvm.fshl.i64(i64 %q, i64 %q, i64 9)
  %d7 = call i32 @llvm.fshr.i32(i32 %w, i32 %w, i32 %w)
  %d8 = call i8 @llvm.fshl.i8(i8 %b, i8 %b, i8 %b)
  %d9 = call i16 @llvm.bswap.i16(i16 %h)
  %e0 = call i32 @llvm.bswap.i32(i32 %w)
  %e1 = call i64 @llvm.bswap.i64(i64 %q)
  %e2 = call i64 @llvm.ctpop.i64(i64 %q)
  %e3 = call i32 @llvm.ctlz.i32(i32 %w, i1 false)
  %e4 = call i64 @llvm.cttz.i64(i64 %q, i1 true)
  %e5 = call i8 @llvm.ctlz.i8(i8 %b, i1 false)
  %e6 = call i64 @llvm.usub.sat.i64(i64 %q, i64 %q)
  %e7 = call i16 @llvm.uadd.sat.i16(i16 %h, i16 %h)
  %e8 = call i64 @llvm.abs.i64(i64 %q, i1 false)
  %e9 = call i32 @llvm.abs.i32(i32 %w, i1 true)
  %f0 = call { i64, i1 } @llvm.uadd.with.overflow.i64(i64 %q, i64 %q)
  %f1 = call { i32, i1 } @llvm.usub.with.overflow.i32(i32 %w, i32 9)
  %f2 = call { i64, i1 } @llvm.umul.with.overflow.i64(i64 %q, i64 %q)
  %f3 = call { i16, i1 } @llvm.umul.with.overflow.i16(i16 %h, i16 %h)
  %f4 = call { i8, i1 } @llvm.uadd.with.overflow.i8(i8 %b, i8 %b)
  %g0 = getelementptr %padded, ptr %p, i64 %q, i32 2
  %g1 = getelementptr %nested, ptr %p, i64 2, i32 1, i32 3
  %g2 = getelementptr [7 x i32], ptr %p, i64 0, i64 %q
  %g3 = getelementptr i8, ptr %p, i64 -9
  %g4 = getelementptr i16, ptr %p, i32 %w
  %h0 = load i24, ptr %p, align 1
  %h1 = load i40, ptr %p, align 1
  %h2 = load i48, ptr %p, align 1
  %h3 = load i56, ptr %p, align 1
  %h4 = load i128, ptr %p, align 1
  %h5 = load ptr, ptr %p, align 1
  %h6 = load { i8, i64, i16 }, ptr %p, align 1
  %h7 = load [5 x i16], ptr %p, align 1
  %h8 = load <16 x i8>, ptr %p, align 1
  store i24 %m, ptr %p, align 1
  store i48 %n, ptr %p, align 1
  store i128 %o, ptr %p, align 1
  store { i64, i8 } %s, ptr %p, align 1
  store ptr %p, ptr %p, align 1
  store double %d, ptr %p, align 1
  store i16 -2, ptr %p, align 1
  %i0 = extractvalue { i64, i8 } %s, 1
  %i1 = insertvalue { i64, i8 } %s, i8 %b, 1
  %i2 = select i1 %t, { i64, i8 } %s, { i64, i8 } %i1
  %i3 = select i1 %t, i64 %q, i64 -1
  %j0 = call <16 x i8> @llvm.x86.ssse3.pshuf.b.128(<16 x i8> %v, <16 x i8> %u)
  %j1 = add <16 x i8> %v, %u
  %j2 = and <16 x i8> %v, splat (i8 15)
  %j3 = lshr <16 x i8> %v, splat (i8 4)
  %j4 = icmp ult <16 x i8> %v, %u
  %j5 = select <16 x i1> %j4, <16 x i8> %v, <16 x i8> %u
  %j6 = bitcast <16 x i1> %j4 to i16
  %j7 = xor <16 x i8> %v, %u
  %k0 = fadd double %d, 1.000000e+00
  %k1 = fmul double %d, %d
  %k2 = fdiv double %d, 1.000000e+01
  %k3 = fneg double %d
  %k4 = fcmp olt double %d, 5.000000e-01
  %k5 = fcmp une double %d, %d
  %k6 = bitcast i64 %q to double
  %k7 = bitcast double %d to i64
  %k8 = uitofp i64 %q to double
  %l0 = ptrtoint ptr %p to i64
  %l1 = inttoptr i64 %q to ptr
  %l2 = ptrtoint ptr %p to i32
  %l3 = freeze i32 %w
  ret void
}

declare i64 @llvm.umin.i64(i64, i64)
declare i32 @llvm.umax.i32(i32, i32)
declare i16 @llvm.smin.i16(i16, i16)
declare i8 @llvm.smax.i8(i8, i8)
