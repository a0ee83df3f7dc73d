"""Programs in LLVM's text with jumps, calls and pointers: each with the wanted bits of r0."""

FLOWS = {
    "two values change places in each turn of a loop": (0x0102, """define i64 @main() {
entry:
  br label %loop
loop:
  %a = phi i64 [ 1, %entry ], [ %b, %loop ]
  %b = phi i64 [ 2, %entry ], [ %a, %loop ]
  %i = phi i64 [ 0, %entry ], [ %n, %loop ]
  %n = add i64 %i, 1
  %more = icmp ult i64 %n, 5
  br i1 %more, label %loop, label %out
out:
  %h = shl i64 %a, 8
  %r = or i64 %h, %b
  ret i64 %r
}"""),
    "a switch by a table, to its ends and beside it": (0x52, """define i64 @pick(i32 %n) noinline {
  switch i32 %n, label %d [
    i32 3, label %a
    i32 4, label %b
    i32 5, label %a
    i32 6, label %b
    i32 7, label %c
  ]
a:
  ret i64 1
b:
  ret i64 10
c:
  ret i64 40
d:
  ret i64 16
}
define i64 @main() {
  %x = call i64 @pick(i32 3)
  %y = call i64 @pick(i32 7)
  %z = call i64 @pick(i32 8)
  %w = call i64 @pick(i32 2)
  %v = call i64 @pick(i32 6)
  %s = add i64 %x, %y
  %t = add i64 %s, %z
  %u = add i64 %t, %w
  %r = sub i64 %u, %v
  %q = add i64 %r, 19
  ret i64 %q
}"""),
    "a switch over a constant that has a bracket in it": (6, """@g = global [4 x i64] zeroinitializer, align 32
define i64 @main() {
  switch i32 trunc (i64 and (i64 ptrtoint (ptr getelementptr ([4 x i64], ptr @g, i64 0, i64 1) to i64), i64 31) to i32), label %d [
    i32 8, label %a
    i32 9, label %d
  ]
a:
  ret i64 6
d:
  ret i64 7
}"""),
    "nine arguments, of which three are on the stack": (987654321, """define i64 @nine(i64 %a, i64 %b, i64 %c, i64 %d, i64 %e, i64 %f, i64 %g, i64 %h, i64 %i) noinline {
  %r1 = mul i64 %i, 10
  %r2 = add i64 %r1, %h
  %r3 = mul i64 %r2, 10
  %r4 = add i64 %r3, %g
  %r5 = mul i64 %r4, 1000000
  %r6 = mul i64 %f, 100000
  %r7 = add i64 %r5, %r6
  %r8 = mul i64 %e, 10000
  %r9 = add i64 %r7, %r8
  %ra = mul i64 %d, 1000
  %rb = add i64 %r9, %ra
  %rc = mul i64 %c, 100
  %rd = add i64 %rb, %rc
  %re = mul i64 %b, 10
  %rf = add i64 %rd, %re
  %rg = add i64 %rf, %a
  ret i64 %rg
}
define i64 @main() {
  %r = call i64 @nine(i64 1, i64 2, i64 3, i64 4, i64 5, i64 6, i64 7, i64 8, i64 9)
  ret i64 %r
}"""),
    "a number of 64 bits in two halves": (-9142143036653769233 % (1 << 64), """define i64 @main() {
  %a = call i64 @id(i64 -9142143036653769233)
  %b = xor i64 %a, 0
  ret i64 %b
}
define i64 @id(i64 %x) noinline {
  %y = add i64 %x, 1311768467463790320
  %z = sub i64 %y, 1311768467463790320
  ret i64 %z
}"""),
    "a pointer that leaves its object is a number, and compares": (5, """@a = global [4 x i64] zeroinitializer
@end = global ptr null
define i64 @main() {
  %n = call i64 @id(i64 4)
  %e = getelementptr i64, ptr @a, i64 %n
  store ptr %e, ptr @end, align 8
  br label %loop
loop:
  %p = phi ptr [ @a, %0 ], [ %q, %loop ]
  %i = phi i64 [ 1, %0 ], [ %j, %loop ]
  %q = getelementptr i64, ptr %p, i64 1
  %j = add i64 %i, 1
  %l = load ptr, ptr @end, align 8
  %d = icmp eq ptr %q, %l
  br i1 %d, label %out, label %loop
out:
  ret i64 %j
}
define i64 @id(i64 %x) noinline {
  ret i64 %x
}"""),
    "unsigned numbers of 32 bits are compared as such": (3, """define i64 @main() {
  %a = call i32 @id(i32 -2147483648)
  %b = call i32 @id(i32 5)
  %c = icmp ult i32 %b, %a
  %d = icmp slt i32 %a, %b
  %e = lshr i32 %a, 4
  %f = icmp ugt i32 %e, %a
  %x = zext i1 %c to i64
  %y = zext i1 %d to i64
  %z = zext i1 %f to i64
  %s = shl i64 %y, 1
  %t = shl i64 %z, 2
  %u = or i64 %x, %s
  %r = or i64 %u, %t
  ret i64 %r
}
define i32 @id(i32 %x) noinline {
  ret i32 %x
}"""),
    "constructors run before `main`, by their priorities": (0x21, """@k = global i64 0
@llvm.global_ctors = appending global [2 x { i32, ptr, ptr }] [{ i32, ptr, ptr } { i32 65535, ptr @late, ptr null }, { i32, ptr, ptr } { i32 200, ptr @early, ptr null }]
define void @early() {
  store i64 2, ptr @k, align 8
  ret void
}
define void @late() {
  %v = load i64, ptr @k, align 8
  %w = shl i64 %v, 4
  %x = add i64 %w, 1
  store i64 %x, ptr @k, align 8
  ret void
}
define i64 @main() {
  %v = load i64, ptr @k, align 8
  ret i64 %v
}"""),
    "extremes and numbers turned round": (0x0100000000000080, """declare i64 @llvm.umax.i64(i64, i64)
declare i8 @llvm.smin.i8(i8, i8)
declare i64 @llvm.bswap.i64(i64)
define i64 @main() {
  %a = call i64 @id(i64 1)
  %b = call i64 @llvm.bswap.i64(i64 %a)
  %c = trunc i64 %a to i8
  %d = call i8 @llvm.smin.i8(i8 %c, i8 -128)
  %e = zext i8 %d to i64
  %f = call i64 @llvm.umax.i64(i64 %e, i64 %a)
  %r = or i64 %b, %f
  ret i64 %r
}
define i64 @id(i64 %x) noinline {
  ret i64 %x
}"""),
}
