"""Texts of LLVM IR for tools/test: what runs of their programs report, and what is refused with which line."""

# The entry is `f`; each list has the inputs, then the printed numbers and the result, or `trap`.
RUNS = {
    'values and blocks without names': ('''
define i64 @f(i64 %0, i64 %1) {
  %3 = icmp slt i64 %0, %1
  br i1 %3, label %4, label %6

4:                                                ; preds = %2
  %5 = add nsw i64 %0, 7
  br label %6

6:                                                ; preds = %4, %2
  %7 = phi i64 [ %5, %4 ], [ %1, %2 ]
  ret i64 %7
}
''', [([1, 5], [8]), ([5, 1], [1])]),
    'integers of odd widths': ('''
declare void @mir_print(i64)
define i64 @f(i64 %a, i64 %b) {
  %x = trunc i64 %a to i7
  %y = trunc i64 %b to i7
  %sum = add i7 %x, %y
  %sum.s = sext i7 %sum to i64
  call void @mir_print(i64 %sum.s)
  %sum.z = zext i7 %sum to i64
  call void @mir_print(i64 %sum.z)
  %third = udiv i7 %x, 3
  %third.z = zext i7 %third to i64
  call void @mir_print(i64 %third.z)
  %less = icmp ult i7 %x, %y
  %less.z = zext i1 %less to i64
  call void @mir_print(i64 %less.z)
  %shifted = lshr i7 %x, 1
  %shifted.s = sext i7 %shifted to i64
  call void @mir_print(i64 %shifted.s)
  %wide = trunc i64 %a to i33
  %square = mul i33 %wide, %wide
  %square.s = sext i33 %square to i64
  ret i64 %square.s
}
''', [([100, 50], [22, 22, 33, 0, 50, 10000]), ([-1, 1], [0, 0, 42, 0, 63, 1]),
     ([98304, 5], [5, 5, 0, 1, 0, 1073741824])]),
    'single bits': ('''
define i64 @f(i64 %a, i64 %b) {
  %p = trunc i64 %a to i1
  %q = icmp sgt i64 %b, 0
  %both = and i1 %p, %q
  %no = xor i1 %both, true
  %less = icmp slt i1 %p, %q
  %c = select i1 %less, i1 %no, i1 false
  %s = sext i1 %p to i64
  %t = zext i1 %c to i64
  %r = add i64 %s, %t
  br i1 %no, label %yes, label %out
yes:
  %u = add i64 %r, 10
  ret i64 %u
out:
  ret i64 %r
}
''', [([0, 0], [10]), ([1, 0], [10]), ([0, 1], [10]), ([3, 5], [-1])]),
    'a switch whose ways carry values': ('''
define i32 @f(i32 %n) {
entry:
  br label %head
head:
  %i = phi i32 [ %n, %entry ], [ %less, %more ]
  %sum = phi i32 [ 0, %entry ], [ %next, %more ]
  switch i32 %i, label %more [
    i32 0, label %out
    i32 5, label %more
    i32 -7, label %out
    i32 3, label %extra
  ]
extra:
  br label %more
more:
  %by = phi i32 [ 1, %head ], [ 1, %head ], [ 100, %extra ]
  %next = add i32 %sum, %by
  %less = sub i32 %i, 1
  br label %head
out:
  %result = phi i32 [ %sum, %head ], [ %sum, %head ]
  ret i32 %result
}
''', [([0], [0]), ([4], [103]), ([-7], [0]), ([-6], [1]), ([4294967300], [103])]),
    'phis that change places': ('''
define i64 @f(i64 %n) {
entry:
  br label %loop
loop:
  %a = phi i64 [ 1, %entry ], [ %b, %loop ]
  %b = phi i64 [ 2, %entry ], [ %a, %loop ]
  %i = phi i64 [ 0, %entry ], [ %j, %loop ]
  %j = add i64 %i, 1
  %more = icmp slt i64 %j, %n
  br i1 %more, label %loop, label %out
out:
  %high = mul i64 %a, 10
  %both = add i64 %high, %b
  ret i64 %both
}
''', [([1], [12]), ([2], [21]), ([3], [12])]),
    'operators of LLVM that are calls': ('''
declare void @mir_print(i64)
declare i32 @llvm.umin.i32(i32, i32)
declare i64 @llvm.umax.i64(i64, i64)
declare i64 @llvm.smin.i64(i64, i64)
declare i32 @llvm.abs.i32(i32, i1)
declare i32 @llvm.usub.sat.i32(i32, i32)
declare i8 @llvm.sadd.sat.i8(i8, i8)
declare { i32, i1 } @llvm.uadd.with.overflow.i32(i32, i32)
declare { i64, i1 } @llvm.ssub.with.overflow.i64(i64, i64)
declare i32 @llvm.fshl.i32(i32, i32, i32)
declare void @llvm.dbg.value(metadata, metadata, metadata)
define i64 @f(i64 %a, i64 %b) {
  call void @llvm.dbg.value(metadata i64 %a, metadata !1, metadata !DIExpression()), !dbg !2
  %x = trunc i64 %a to i32
  %y = trunc i64 %b to i32
  %1 = call i32 @llvm.umin.i32(i32 %x, i32 %y)
  %2 = sext i32 %1 to i64
  call void @mir_print(i64 %2)
  %3 = tail call i64 @llvm.umax.i64(i64 %a, i64 %b) #3
  call void @mir_print(i64 %3)
  %4 = call i64 @llvm.smin.i64(i64 %a, i64 %b)
  call void @mir_print(i64 %4)
  %5 = call i32 @llvm.abs.i32(i32 %x, i1 true)
  %6 = call i32 @llvm.usub.sat.i32(i32 %x, i32 %y)
  %7 = add i32 %5, %6
  %8 = sext i32 %7 to i64
  call void @mir_print(i64 %8)
  %9 = call i8 @llvm.sadd.sat.i8(i8 100, i8 100)
  %10 = sext i8 %9 to i64
  call void @mir_print(i64 %10)
  %11 = call { i32, i1 } @llvm.uadd.with.overflow.i32(i32 %x, i32 %y)
  %12 = extractvalue { i32, i1 } %11, 1
  %13 = zext i1 %12 to i64
  call void @mir_print(i64 %13)
  %14 = call { i64, i1 } @llvm.ssub.with.overflow.i64(i64 %a, i64 %b)
  %15 = extractvalue { i64, i1 } %14, 1
  br i1 %15, label %16, label %17
16:
  ret i64 77
17:
  %18 = call i32 @llvm.fshl.i32(i32 %x, i32 %x, i32 8)
  %19 = sext i32 %18 to i64
  ret i64 %19
}
!1 = !{}
!2 = !{}
''', [([-1, 3], [3, -1, -1, -3, 127, 1, -1]), ([5, 3], [3, 5, 3, 7, 127, 0, 1280]),
     ([-9223372036854775808, 1], [0, -9223372036854775808, -9223372036854775808, 0, 127, 0, 77])]),
    'variables by pointers without a type, and names in quotes': ('''
@"a constant" = internal constant i32 9, align 4
@count = internal global i32 5
define i32 @f(i32 %n) {
  %"a place" = alloca i32, align 4
  store i32 %n, ptr %"a place", align 4
  %1 = load i32, ptr %"a place"
  %2 = load i32, ptr @"a constant"
  %3 = add i32 %1, %2
  %old = load i32, ptr @count
  %new = add i32 %old, %3
  store i32 %new, ptr @count
  %again = load i32, ptr @count
  ret i32 %again
}
''', [([1], [15]), ([-20], [-6])]),
    'a global variable with a name that the unit of a division has': ('''
@a = internal global i64 0
define i64 @f(i64 %n, i64 %m) {
  store i64 %n, ptr @a
  %1 = load i64, ptr @a
  %q = udiv i64 %1, %m
  %r = urem i64 %1, %m
  %high = mul i64 %q, 1000
  %both = add i64 %high, %r
  ret i64 %both
}
''', [([100, 7], [14002]), ([-1, 2], [-999]), ([5, -1], [5]), ([-1, -1], [1000]), ([3, 0], ['trap'])]),
    'divisions that trap': ('''
define i32 @f(i32 %a, i32 %b) {
  %q = sdiv i32 %a, %b
  ret i32 %q
}
''', [([7, 2], [3]), ([7, 0], ['trap']), ([-2147483648, -1], ['trap']), ([-2147483648, 1], [-2147483648])]),
    'an end that no run comes to': ('''
declare void @llvm.trap()
define i64 @f(i64 %a) {
  %is = icmp eq i64 %a, 0
  br i1 %is, label %never, label %good
never:
  unreachable
good:
  %other = freeze i64 undef
  %sum = add i64 %a, %other
  ret i64 %sum
}
''', [([0], ['trap']), ([4], [4])]),
    'arrays and structures that are only accessed by constants': ('''
%pair = type { i8, [2 x i64] }
@table = internal constant [3 x i16] [i16 7, i16 -8, i16 9]
@text = private constant [4 x i8] c"ab\\FF\\00"
@kept = internal global %pair { i8 1, [2 x i64] [i64 20, i64 300] }
@zeros = internal global [2 x [2 x i32]] zeroinitializer
declare void @mir_print(i64)
declare void @llvm.lifetime.start.p0(i64, ptr)
define void @raise() {
  %old = load i64, ptr getelementptr inbounds (%pair, ptr @kept, i64 0, i32 1, i64 1)
  %new = add i64 %old, 1
  store i64 %new, ptr getelementptr inbounds (%pair, ptr @kept, i64 0, i32 1, i64 1)
  ret void
}
define i64 @f(i64 %n) {
  %place = alloca [3 x i64], align 16
  %both = alloca { i32, i8 }
  call void @llvm.lifetime.start.p0(i64 24, ptr %place)
  %last = getelementptr inbounds [3 x i64], ptr %place, i64 0, i64 2
  store i64 %n, ptr %last
  store i64 5, ptr %place
  %one = getelementptr i64, ptr %place, i64 1
  store i64 6, ptr %one
  %low = getelementptr i8, ptr %both, i64 4
  store i8 -3, ptr %low
  call void @raise()
  call void @raise()
  %a = load i64, ptr %last
  %b = load i64, ptr %place
  %c = load i64, ptr %one
  call void @mir_print(i64 %a)
  call void @mir_print(i64 %b)
  call void @mir_print(i64 %c)
  %d = load i8, ptr %low
  %e = sext i8 %d to i64
  call void @mir_print(i64 %e)
  %g = load i64, ptr getelementptr (i8, ptr @kept, i64 16)
  call void @mir_print(i64 %g)
  %h = load i16, ptr getelementptr ([3 x i16], ptr @table, i64 0, i64 1)
  %i = sext i16 %h to i64
  call void @mir_print(i64 %i)
  %j = load i8, ptr getelementptr ([4 x i8], ptr @text, i64 0, i64 2)
  %k = sext i8 %j to i64
  call void @mir_print(i64 %k)
  %l = load i32, ptr getelementptr ([2 x [2 x i32]], ptr @zeros, i64 0, i64 1, i64 0)
  %m = sext i32 %l to i64
  ret i64 %m
}
''', [([4], [4, 5, 6, -3, 302, -8, -1, 0]), ([-1], [-1, 5, 6, -3, 302, -8, -1, 0])]),
    'tables': ('''
@table = private constant [3 x i16] [i16 7, i16 -8, i16 9]
@same = private constant [4 x i64] [i64 5, i64 5, i64 5, i64 5]
define i64 @f(i64 %n) {
  %p = getelementptr inbounds [3 x i16], ptr @table, i64 0, i64 %n
  %1 = load i16, ptr %p
  %q = getelementptr i64, ptr @same, i64 %n
  %2 = load i64, ptr %q
  %3 = load i16, ptr getelementptr ([3 x i16], ptr @table, i64 0, i64 2)
  %4 = sext i16 %1 to i64
  %5 = sext i16 %3 to i64
  %6 = mul i64 %4, %2
  %7 = add i64 %5, %6
  ret i64 %7
}
''', [([0], [44]), ([1], [-31]), ([2], [54]), ([3], ['trap']), ([-1], ['trap'])]),
    'copies and fills of arrays': ('''
@first = private constant [3 x i32] [i32 4, i32 5, i32 6]
declare void @llvm.memcpy.p0.p0.i64(ptr, ptr, i64, i1)
declare void @llvm.memmove.p0.p0.i64(ptr, ptr, i64, i1)
declare void @llvm.memset.p0.i64(ptr, i8, i64, i1)
define i32 @f(i32 %n) {
  %a = alloca [3 x i32]
  %b = alloca [3 x i32]
  call void @llvm.memcpy.p0.p0.i64(ptr %a, ptr @first, i64 12, i1 false)
  %a.1 = getelementptr [3 x i32], ptr %a, i64 0, i64 1
  store i32 %n, ptr %a.1
  call void @llvm.memmove.p0.p0.i64(ptr %b, ptr %a, i64 12, i1 false)
  call void @llvm.memset.p0.i64(ptr %a, i8 -1, i64 8, i1 false)
  %1 = load i32, ptr %b
  %b.1 = getelementptr [3 x i32], ptr %b, i64 0, i64 1
  %2 = load i32, ptr %b.1
  %3 = load i32, ptr %a
  %a.2 = getelementptr [3 x i32], ptr %a, i64 0, i64 2
  %4 = load i32, ptr %a.2
  %5 = mul i32 %1, 100
  %6 = add i32 %5, %2
  %7 = add i32 %6, %3
  %8 = mul i32 %7, 10
  %9 = add i32 %8, %4
  ret i32 %9
}
''', [([7], [4066]), ([0], [3996])]),
    'structures that end with an array of no length': ('''
%open = type { i32, [0 x i32] }
@more = internal global { i32, [2 x i32] } { i32 1, [2 x i32] [i32 2, i32 3] }
@none = internal global %open { i32 4, [0 x i32] zeroinitializer }
declare void @llvm.memcpy.p0.p0.i64(ptr, ptr, i64, i1)
define i32 @f(i32 %n) {
  %p = alloca %open
  call void @llvm.memcpy.p0.p0.i64(ptr %p, ptr @none, i64 4, i1 false)
  store i32 %n, ptr getelementptr (%open, ptr @more, i64 0, i32 1, i64 0)
  %1 = load i32, ptr getelementptr (%open, ptr @more, i64 0, i32 1, i64 1)
  %2 = load i32, ptr %p
  %3 = mul i32 %1, 10
  %4 = add i32 %3, %2
  %5 = load i32, ptr getelementptr ({ i32, [2 x i32] }, ptr @more, i64 0, i32 1)
  %6 = mul i32 %5, 100
  %7 = add i32 %6, %4
  ret i32 %7
}
''', [([7], [734]), ([0], [34])]),
    'an array with typed pointers': ('''
%list = type { i32, %list* }
@none = internal global [1 x %list] zeroinitializer
@empty = internal global [0 x i32] zeroinitializer
@t = internal global [4 x i32] [i32 1, i32 2, i32 3, i32 4]
define i32 @f(i32 %n) {
  %p = alloca [2 x i32]
  %1 = getelementptr inbounds [2 x i32], [2 x i32]* %p, i64 0, i64 0
  %2 = getelementptr inbounds i32, i32* %1, i64 1
  store i32 %n, i32* %2
  %3 = load i32, i32* getelementptr inbounds ([4 x i32], [4 x i32]* @t, i64 0, i64 2)
  store i32 10, i32* bitcast ([4 x i32]* @t to i32*)
  %4 = load i32, i32* %2
  %5 = load i32, i32* getelementptr ([4 x i32], [4 x i32]* @t, i64 0, i64 0)
  %6 = mul i32 %3, %4
  %7 = add i32 %5, %6
  ret i32 %7
}
''', [([7], [31])]),
    'blocks that stand before those they come from': ('''
define i64 @f(i64 %a) {
entry:
  br label %second
third:
  %r = sub i64 %y, 1
  br i1 %t, label %out, label %entry.2
out:
  ret i64 %r
entry.2:
  ret i64 -1
second:
  %y = mul i64 %a, 3
  %t = icmp ugt i64 %y, 10
  br label %third
}
''', [([5], [14]), ([2], [-1])]),
}

# What is refused, and the line that tells so.
REFUSED = {
    'define i64 @main() {\n  %x = bitcast double 0.000000e+00 to i64\n  ret i64 %x\n}\n':
        'line 2, in @main: floating point (double)',
    'define i32 @main() {\n  %x = fadd float 1.0, 2.0\n  ret i32 0\n}\n': 'line 2, in @main: floating point (fadd)',
    'define i32 @main(i64 %n) {\n  %p = alloca [4 x i32]\n  %q = getelementptr [4 x i32], ptr %p, i64 0, i64 %n\n'
    '  %x = load i32, ptr %q\n  ret i32 %x\n}\n': 'line 2, in @main: an array',
    'define i32 @main() {\n  %p = alloca [2 x i32]\n  call void @llvm.memset.p0.i64(ptr %p, i8 0, i64 6, i1 false)\n'
    '  %x = load i32, ptr %p\n  ret i32 %x\n}\n': 'line 2, in @main: an array',
    'define i32 @main() {\n  %p = alloca [2 x i32]\n  %q = getelementptr i8, ptr %p, i64 2\n'
    '  call void @llvm.memset.p0.i64(ptr %q, i8 0, i64 6, i1 false)\n  %x = load i32, ptr %p\n  ret i32 %x\n}\n':
        'line 2, in @main: an array',
    '@t = global [2 x i32] zeroinitializer\ndefine i32 @main(i64 %n) {\n'
    '  %p = getelementptr [2 x i32], ptr @t, i64 0, i64 %n\n  %x = load i32, ptr %p\n  ret i32 %x\n}\n':
        'line 3, in @main: an address is computed (getelementptr)',
    '@t = global [2 x i32] zeroinitializer\ndefine i32 @main() {\n'
    '  %x = load i64, ptr getelementptr ([2 x i32], ptr @t, i64 0, i64 0)\n  ret i32 0\n}\n':
        'line 3, in @main: an access at an address that is computed',
    'define i128 @main() {\n  ret i128 0\n}\n':
        'line 1, in @main: the result is no integer of at most 64 bits (i128)',
    'define i32 @main(i32* %p) {\n  %x = load i32, i32* %p\n  ret i32 %x\n}\n':
        'line 1, in @main: a parameter is no integer of at most 64 bits (i32*)',
    'define i32 @main() {\n  %x = add <4 x i32> zeroinitializer, zeroinitializer\n  ret i32 0\n}\n':
        'line 2, in @main: a vector',
    'declare i32 @g()\ndefine i32 @main() {\n  %x = call i32 @g()\n  ret i32 %x\n}\n':
        'line 3, in @main: a call of a function that is not here (@g)',
    '@t = constant [3 x i8] c"hi\\00"\ndeclare i32 @printf(ptr, ...)\ndefine i32 @main() {\n'
    '  %x = call i32 (ptr, ...) @printf(ptr @t)\n  ret i32 0\n}\n':
        'line 4, in @main: a printf of anything but one integer and the end of the line',
    'define i32 @main(i32 %n) {\n  %p = alloca i32\n  store volatile i32 %n, ptr %p\n  ret i32 0\n}\n':
        'line 3, in @main: a volatile access',
    '@a = global i32 1\ndefine i32 @main() {\n  %x = ptrtoint ptr @a to i64\n  ret i32 0\n}\n':
        'line 3, in @main: an address is computed (ptrtoint)',
    'define i32 @main() {\n  ret i32 %?\n}\n': 'line 2, no LLVM IR: `%?`',
    'main: begin\nend\n': 'line 1, no LLVM IR: `main: begin`',
    '': 'there is no function @main',
    'declare i32 @main()\n': 'there is no function @main',
}
