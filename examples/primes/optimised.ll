@squares = global i32 0

define i32 @main() {
0:
  %1 = alloca i32
  %2 = alloca i32
  %3 = alloca i32
  store i32 0, ptr %1
  store i32 0, ptr %2
  store i32 2, ptr %3
  br label %4
4:
  %5 = load i32, ptr %3
  %6 = icmp slt i32 %5, 60
  br i1 %6, label %7, label %15
7:
  %8 = load i32, ptr %3
  %9 = call i32 @is_prime(i32 %8)
  %10 = load i32, ptr %2
  %11 = add i32 %10, %9
  store i32 %11, ptr %2
  br label %12
12:
  %13 = load i32, ptr %3
  %14 = add i32 %13, 1
  store i32 %14, ptr %3
  br label %4
15:
  %16 = load i32, ptr %2
  %17 = mul i32 %16, 10
  %18 = load i32, ptr @squares
  %19 = add i32 %17, %18
  ret i32 %19
}

define i32 @is_prime(i32 %0) {
1:
  %2 = alloca i32
  %3 = alloca i32
  %4 = alloca i32
  %pre.0 = alloca i32
  store i32 %0, ptr %3
  store i32 2, ptr %4
  br label %5
5:
  %6 = load i32, ptr %4
  %7 = load i32, ptr %4
  %8 = mul i32 %6, %7
  store i32 %8, ptr %pre.0
  %9 = load i32, ptr %3
  %10 = icmp sle i32 %8, %9
  br i1 %10, label %11, label %30
11:
  %12 = load i32, ptr %3
  %13 = load i32, ptr %4
  %14 = srem i32 %12, %13
  %15 = icmp eq i32 %14, 0
  br i1 %15, label %16, label %26
16:
  %17 = load i32, ptr %4
  %18 = load i32, ptr %4
  %19 = load i32, ptr %pre.0
  %20 = load i32, ptr %3
  %21 = icmp eq i32 %19, %20
  br i1 %21, label %22, label %25
22:
  %23 = load i32, ptr @squares
  %24 = add i32 %23, 1
  store i32 %24, ptr @squares
  br label %25
25:
  store i32 0, ptr %2
  br label %31
26:
  br label %27
27:
  %28 = load i32, ptr %4
  %29 = add i32 %28, 1
  store i32 %29, ptr %4
  br label %5
30:
  store i32 1, ptr %2
  br label %31
31:
  %32 = load i32, ptr %2
  ret i32 %32
}
