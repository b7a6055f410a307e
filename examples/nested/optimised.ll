define i32 @main() {
0:
  %1 = alloca i32
  %2 = alloca i32
  %3 = alloca i32
  %4 = alloca i32
  %5 = alloca i32
  %6 = alloca i32
  %pre.2 = alloca i32
  %pre.3 = alloca i32
  store i32 0, ptr %1
  %7 = call i32 @getchar()
  %8 = sub i32 %7, 48
  store i32 %8, ptr %2
  %9 = call i32 @getchar()
  %10 = sub i32 %9, 48
  store i32 %10, ptr %3
  store i32 0, ptr %4
  store i32 0, ptr %5
  %pre.2.11.0 = load i32, ptr %2
  %pre.2.11.1 = load i32, ptr %3
  %pre.2.11 = mul i32 %pre.2.11.0, %pre.2.11.1
  store i32 %pre.2.11, ptr %pre.2
  br label %11
11:
  %12 = load i32, ptr %5
  %13 = load i32, ptr %3
  %14 = icmp slt i32 %12, %13
  br i1 %14, label %15, label %38
15:
  store i32 0, ptr %6
  %pre.3.20.0 = load i32, ptr %5
  %pre.3.20 = mul i32 %pre.3.20.0, 10
  store i32 %pre.3.20, ptr %pre.3
  br label %16
16:
  %17 = load i32, ptr %6
  %18 = load i32, ptr %2
  %19 = icmp slt i32 %17, %18
  br i1 %19, label %20, label %34
20:
  %21 = load i32, ptr %2
  %22 = load i32, ptr %3
  %23 = load i32, ptr %pre.2
  %24 = load i32, ptr %5
  %25 = load i32, ptr %pre.3
  %26 = add i32 %23, %25
  %27 = load i32, ptr %6
  %28 = add i32 %26, %27
  %29 = load i32, ptr %4
  %30 = add i32 %29, %28
  store i32 %30, ptr %4
  br label %31
31:
  %32 = load i32, ptr %6
  %33 = add i32 %32, 1
  store i32 %33, ptr %6
  br label %16
34:
  br label %35
35:
  %36 = load i32, ptr %5
  %37 = add i32 %36, 1
  store i32 %37, ptr %5
  br label %11
38:
  %39 = load i32, ptr %4
  ret i32 %39
}

declare i32 @getchar()
