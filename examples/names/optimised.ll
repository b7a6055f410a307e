@"a global" = global i64 -5

define i64 @"the sum"() {
"first block":
  %"left side" = alloca i64
  %pre.0 = alloca i64
  %pre1.0 = alloca i64
  store i64 20, ptr %"left side"
  store i64 -1, ptr %pre.0
  %0 = load i64, ptr %"left side"
  %1 = load i64, ptr @"a global"
  %2 = add i64 %0, %1
  store i64 %2, ptr %pre1.0
  store i64 %2, ptr %pre.0
  %3 = load i64, ptr %"left side"
  %4 = load i64, ptr @"a global"
  %5 = load i64, ptr %pre1.0
  %6 = load i64, ptr %pre.0
  %twice = add i64 %5, %6
  ret i64 %twice
7:
  %8 = load i64, ptr %"left side"
  %9 = load i64, ptr @"a global"
  %10 = add i64 %8, %9
  %11 = add i64 %8, %9
  br label %"1st"
"1st":
  unreachable
}

define i32 @main() {
0:
  %1 = call i64 @"the sum"()
  %2 = trunc i64 %1 to i32
  ret i32 %2
}
