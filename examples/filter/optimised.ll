define i32 @main() {
0:
  %1 = alloca i32
  %2 = alloca i32
  %3 = alloca i32
  %4 = alloca i32
  %pre.2 = alloca i1
  %pre.4 = alloca i32
  store i32 0, ptr %1
  store i32 0, ptr %2
  store i32 0, ptr %3
  %pre.2.5.0 = load i32, ptr %3
  %pre.2.5 = icmp eq i32 %pre.2.5.0, 0
  store i1 %pre.2.5, ptr %pre.2
  br label %5
5:
  %6 = call i32 @getchar()
  store i32 %6, ptr %4
  %7 = icmp ne i32 %6, -1
  br i1 %7, label %8, label %33
8:
  %9 = load i32, ptr %4
  %10 = icmp eq i32 %9, 32
  br i1 %10, label %14, label %11
11:
  %12 = load i32, ptr %4
  %13 = icmp eq i32 %12, 10
  br i1 %13, label %14, label %15
14:
  store i32 0, ptr %3
  %pre.2.24.0 = load i32, ptr %3
  %pre.2.24 = icmp eq i32 %pre.2.24.0, 0
  store i1 %pre.2.24, ptr %pre.2
  br label %30
15:
  %16 = load i32, ptr %3
  %17 = load i1, ptr %pre.2
  br i1 %17, label %18, label %29
18:
  store i32 1, ptr %3
  %19 = load i32, ptr %2
  %20 = add i32 %19, 1
  store i32 %20, ptr %2
  %21 = load i32, ptr %4
  %22 = sub i32 %21, 97
  store i32 %22, ptr %pre.4
  %23 = icmp ult i32 %22, 26
  br i1 %23, label %24, label %28
24:
  %25 = load i32, ptr %4
  %26 = load i32, ptr %pre.4
  %27 = add i32 %26, 65
  store i32 %27, ptr %4
  br label %28
28:
  %pre.2.47.0 = load i32, ptr %3
  %pre.2.47 = icmp eq i32 %pre.2.47.0, 0
  store i1 %pre.2.47, ptr %pre.2
  br label %29
29:
  br label %30
30:
  %31 = load i32, ptr %4
  %32 = call i32 @putchar(i32 %31)
  br label %5
33:
  %34 = load i32, ptr %2
  ret i32 %34
}

declare i32 @getchar()

declare i32 @putchar(i32)
