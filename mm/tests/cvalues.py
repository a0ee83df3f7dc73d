"""Programs in LLVM's text that compute: each with the wanted bits of r0."""

SUM = """@a = global [9 x i32] [i32 1, i32 2, i32 4, i32 8, i32 16, i32 32, i32 64, i32 128, i32 256]
define i32 @sum(ptr %m, i64 %n) noinline {
  %back = sub i64 0, %n
  %first = getelementptr i32, ptr %m, i64 %back
  %last = getelementptr i32, ptr %m, i64 %n
  %some = icmp {op} ptr %first, %last
  br i1 %some, label %loop, label %out
loop:
  %q = phi ptr [ %first, %0 ], [ %next, %loop ]
  %s = phi i32 [ 0, %0 ], [ %more, %loop ]
  %v = load i32, ptr %q, align 4
  %more = add i32 %s, %v
  %next = getelementptr i32, ptr %q, i64 1
  %again = icmp {op} ptr %next, %last
  br i1 %again, label %loop, label %out
out:
  %r = phi i32 [ 0, %0 ], [ %more, %loop ]
  ret i32 %r
}
define i32 @main() {
  %m = getelementptr i32, ptr @a, i64 4
  %r = call i32 @sum(ptr %m, i64 3)
  ret i32 %r
}"""
# The wanted bits of r0, and the program.
NUMBERS = {
    "a pointer goes from before its base to after it": (2 + 4 + 8 + 16 + 32 + 64, SUM.replace("{op}", "ult")),
    "and as far as a last one": (2 + 4 + 8 + 16 + 32 + 64 + 128, SUM.replace("{op}", "ule")),
    "a constant with its top bit set, in an unsigned sum": (0x90000006, """define i64 @at(i32 %x) noinline {
  %a = and i32 %x, 65535
  %b = add nuw i32 %a, -1879048191
  %c = zext i32 %b to i64
  ret i64 %c
}
define i64 @main() {
  %r = call i64 @at(i32 65541)
  ret i64 %r
}"""),
    "a bit that is chosen, as 1 and as -1": (9, """define i64 @pick(i1 %c, i1 %d) noinline {
  %b = select i1 %c, i1 true, i1 %d
  %z = zext i1 %b to i64
  %s = sext i1 %b to i64
  %m = mul i64 %z, 10
  %r = add i64 %m, %s
  ret i64 %r
}
define i64 @main() {
  %r = call i64 @pick(i1 true, i1 false)
  ret i64 %r
}"""),
    "objects stand as LLVM's text aligns them": (0, """@g = global [20 x i8] zeroinitializer, align 16
@n = global i64 3
define i64 @main() {
  %a = alloca [20 x i8], align 16
  %b = alloca [5 x i8], align 64
  %n = load i64, ptr @n
  %v = alloca [7 x i8], i64 %n, align 32
  %ai = ptrtoint ptr %a to i64
  %bi = ptrtoint ptr %b to i64
  %vi = ptrtoint ptr %v to i64
  %gi = ptrtoint ptr @g to i64
  %am = and i64 %ai, 15
  %bm = and i64 %bi, 63
  %vm = and i64 %vi, 31
  %gm = and i64 %gi, 15
  %x = or i64 %am, %bm
  %y = or i64 %vm, %gm
  %r = or i64 %x, %y
  ret i64 %r
}"""),
    "stores of 1, 2 and 4 bytes leave their neighbours": (0x88776655AA33BB11, """@w = global [2 x i64] [i64 -8613303245920329199, i64 0]
@z = global i64 0
define i64 @main() {
  %z = load i64, ptr @z
  %p = getelementptr i8, ptr @w, i64 %z
  %p1 = getelementptr i8, ptr %p, i64 1
  store i8 -69, ptr %p1, align 1
  %k = call ptr @hidden(ptr @w)
  %p2 = getelementptr i8, ptr %k, i64 3
  store i8 -86, ptr %p2, align 1
  %p4 = getelementptr i8, ptr %k, i64 4
  %old = load i32, ptr %p4, align 4
  %same = add i32 %old, 0
  store i32 %same, ptr %p4, align 4
  %p5 = getelementptr i8, ptr %k, i64 2
  store i8 51, ptr %p5, align 1
  %r = load i64, ptr @w, align 8
  ret i64 %r
}
define ptr @hidden(ptr %p) noinline {
  ret ptr %p
}"""),
    "fours in the lower and in the upper half of a word": (0x1111222233334444, """@w = global [2 x i64] zeroinitializer
define void @put(ptr %p, i64 %at, i32 %v) noinline {
  %q = getelementptr i32, ptr %p, i64 %at
  store i32 %v, ptr %q, align 4
  ret void
}
define i32 @get(ptr %p, i64 %at) noinline {
  %q = getelementptr i32, ptr %p, i64 %at
  %v = load i32, ptr %q, align 4
  ret i32 %v
}
define i64 @main() {
  call void @put(ptr @w, i64 0, i32 858993459)
  call void @put(ptr @w, i64 1, i32 286331153)
  call void @put(ptr @w, i64 0, i32 858997828)
  call void @put(ptr @w, i64 1, i32 286335522)
  %a = call i32 @get(ptr @w, i64 0)
  %b = call i32 @get(ptr @w, i64 1)
  %x = zext i32 %a to i64
  %y = zext i32 %b to i64
  %h = shl i64 %y, 32
  %r = or i64 %h, %x
  ret i64 %r
}"""),
    "halves and bytes with their signs": (0xFFFFFFFFFFFF81FE, """@w = global [8 x i8] c"\\\\01\\\\FE\\\\FF\\\\03\\\\80\\\\81\\\\06\\\\FF"
define i64 @main() {
  %k = call ptr @hidden(ptr @w)
  %p = getelementptr i8, ptr %k, i64 4
  %h = load i16, ptr %p, align 2
  %s = sext i16 %h to i64
  %q = getelementptr i8, ptr %k, i64 1
  %b = load i8, ptr %q, align 1
  %c = sext i8 %b to i64
  %u = zext i8 %b to i64
  %d = sub i64 %u, %c
  %e = sub i64 %d, 256
  %t = and i64 %s, -256
  %x = or i64 %t, %u
  %r = add i64 %x, %e
  ret i64 %r
}
define ptr @hidden(ptr %p) noinline {
  ret ptr %p
}""".replace("\\\\", "\\")),
    "quotients and rests of negative numbers": (0xFFFFFFFFFFFFFEFB, """define i64 @main() {
  %a = call i32 @id(i32 -17)
  %b = call i32 @id(i32 5)
  %q = sdiv i32 %a, %b
  %r = srem i32 %a, %b
  %m = sdiv i32 %a, -4
  %s = sext i32 %q to i64
  %t = sext i32 %r to i64
  %u = sext i32 %m to i64
  %x = mul i64 %s, 100
  %y = mul i64 %t, -20
  %z = add i64 %x, %y
  %w = add i64 %z, %u
  %e = sub i64 %w, 5
  ret i64 %e
}
define i32 @id(i32 %x) noinline {
  ret i32 %x
}"""),
    "rotations, by a constant and by a number": (0x78123456B5753D75, """declare i32 @llvm.fshl.i32(i32, i32, i32)
declare i32 @llvm.fshr.i32(i32, i32, i32)
define i64 @main() {
  %a = call i32 @id(i32 305419896)
  %n = call i32 @id(i32 4)
  %l = call i32 @llvm.fshl.i32(i32 %a, i32 %a, i32 8)
  %r = call i32 @llvm.fshr.i32(i32 %a, i32 %a, i32 8)
  %t = call i32 @llvm.fshr.i32(i32 %a, i32 %a, i32 %n)
  %x = zext i32 %l to i64
  %y = zext i32 %r to i64
  %z = zext i32 %t to i64
  %h = shl i64 %y, 32
  %v = or i64 %h, %x
  %w = xor i64 %v, %z
  ret i64 %w
}
define i32 @id(i32 %x) noinline {
  ret i32 %x
}"""),
    "a sum that wraps keeps its width": (44, """define i64 @main() {
  %a = call i8 @id(i8 100)
  %b = add i8 %a, %a
  %s = sext i8 %b to i64
  %r = add i64 %s, 100
  ret i64 %r
}
define i8 @id(i8 %x) noinline {
  ret i8 %x
}"""),
    "sums of 128 bits carry and compare": (8, """define i64 @main() {
  %a = call i128 @make(i64 -1, i64 5)
  %b = add i128 %a, 1
  %h = lshr i128 %b, 64
  %t = trunc i128 %h to i64
  %c = icmp ult i128 %a, %b
  %d = icmp slt i128 %b, -1
  %z = zext i1 %c to i64
  %y = zext i1 %d to i64
  %r = add i64 %t, %z
  %s = add i64 %r, %y
  %f = add i128 %b, 1
  %g = icmp ult i128 %b, %f
  %x = zext i1 %g to i64
  %q = add i64 %s, %x
  ret i64 %q
}
define i128 @make(i64 %low, i64 %high) noinline {
  %l = zext i64 %low to i128
  %h = zext i64 %high to i128
  %u = shl i128 %h, 64
  %r = or i128 %u, %l
  ret i128 %r
}"""),
    "overflows of 64, 40 and 128 bits": (0b1011, """declare { i64, i1 } @llvm.sadd.with.overflow.i64(i64, i64)
declare { i40, i1 } @llvm.smul.with.overflow.i40(i40, i40)
declare { i128, i1 } @llvm.usub.with.overflow.i128(i128, i128)
declare { i128, i1 } @llvm.sadd.with.overflow.i128(i128, i128)
define i64 @main() {
  %n = call i64 @id(i64 9223372036854775807)
  %a = call { i64, i1 } @llvm.sadd.with.overflow.i64(i64 %n, i64 1)
  %ao = extractvalue { i64, i1 } %a, 1
  %w = trunc i64 %n to i40
  %k = sub i40 %w, 1
  %l = lshr i40 %k, 1
  %b = call { i40, i1 } @llvm.smul.with.overflow.i40(i40 %l, i40 4)
  %bo = extractvalue { i40, i1 } %b, 1
  %u = zext i64 %n to i128
  %c = call { i128, i1 } @llvm.sadd.with.overflow.i128(i128 %u, i128 %u)
  %co = extractvalue { i128, i1 } %c, 1
  %d = call { i128, i1 } @llvm.usub.with.overflow.i128(i128 1, i128 %u)
  %do = extractvalue { i128, i1 } %d, 1
  %x0 = zext i1 %ao to i64
  %x1 = zext i1 %bo to i64
  %x2 = zext i1 %co to i64
  %x3 = zext i1 %do to i64
  %y1 = shl i64 %x1, 1
  %y2 = shl i64 %x2, 2
  %y3 = shl i64 %x3, 3
  %z1 = or i64 %x0, %y1
  %z2 = or i64 %y2, %y3
  %r = or i64 %z1, %z2
  ret i64 %r
}
define i64 @id(i64 %x) noinline {
  ret i64 %x
}"""),
}
