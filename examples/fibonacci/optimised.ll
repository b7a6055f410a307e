define i32 @main() {
0:
  %1 = alloca i32
  %2 = alloca i32
  store i32 0, ptr %1
  store i32 0, ptr %2
  br label %3
3:
  %4 = load i32, ptr %2
  %5 = icmp slt i32 %4, 15
  br i1 %5, label %6, label %13
6:
  %7 = load i32, ptr %2
  %8 = call i32 @fibonacci(i32 %7)
  call void @show(i32 %8)
  %9 = call i32 @putchar(i32 10)
  br label %10
10:
  %11 = load i32, ptr %2
  %12 = add i32 %11, 3
  store i32 %12, ptr %2
  br label %3
13:
  ret i32 0
}

define void @show(i32 %0) {
1:
  %2 = alloca i32
  store i32 %0, ptr %2
  %3 = load i32, ptr %2
  %4 = icmp sgt i32 %3, 9
  br i1 %4, label %5, label %8
5:
  %6 = load i32, ptr %2
  %7 = sdiv i32 %6, 10
  call void @show(i32 %7)
  br label %8
8:
  %9 = load i32, ptr %2
  %10 = srem i32 %9, 10
  %11 = add i32 48, %10
  %12 = call i32 @putchar(i32 %11)
  ret void
}

define i32 @fibonacci(i32 %0) {
1:
  %2 = alloca i32
  %3 = alloca i32
  store i32 %0, ptr %3
  %4 = load i32, ptr %3
  %5 = icmp slt i32 %4, 2
  br i1 %5, label %6, label %8
6:
  %7 = load i32, ptr %3
  store i32 %7, ptr %2
  br label %16
8:
  %9 = load i32, ptr %3
  %10 = sub i32 %9, 1
  %11 = call i32 @fibonacci(i32 %10)
  %12 = load i32, ptr %3
  %13 = sub i32 %12, 2
  %14 = call i32 @fibonacci(i32 %13)
  %15 = add i32 %11, %14
  store i32 %15, ptr %2
  br label %16
16:
  %17 = load i32, ptr %2
  ret i32 %17
}

declare i32 @putchar(i32)
