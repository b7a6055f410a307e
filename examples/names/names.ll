; Names in quotes, numbered names, a name that begins as those of temporaries do, and blocks that no path meets.
;
; The sum is computed twice in one block: the second time it is read. Since a variable is called `pre.0`, the temporary is
; called `pre1.0`. What stands behind `ret` is left as it is, though the sum stands there twice too.
@"a global" = internal constant i64 -5, align 8

define i64 @"the sum"() {
"first block":
  %"left side" = alloca i64, align 8
  %pre.0 = alloca i64, align 8
  store i64 20, ptr %"left side", align 8
  store i64 18446744073709551615, ptr %pre.0, align 8
  %0 = load i64, ptr %"left side", align 8
  %1 = load i64, ptr @"a global", align 8
  %2 = add nsw i64 %0, %1
  store i64 %2, ptr %pre.0, align 8
  %3 = load i64, ptr %"left side", align 8
  %4 = load i64, ptr @"a global", align 8
  %5 = add nuw nsw i64 %3, %4
  %6 = load i64, ptr %pre.0, align 8
  %"twice" = add i64 %5, %6
  ret i64 %twice
7:
  %8 = load i64, ptr %"left side", align 8
  %9 = load i64, ptr @"a global", align 8
  %10 = add i64 %8, %9
  %11 = add i64 %8, %9
  br label %"1st"
1st:
  unreachable
}

define i32 @main() {
  %1 = call i64 @"the sum"()
  %2 = trunc i64 %1 to i32
  ret i32 %2
}
