define i32 @main() {
0:
  %1 = alloca i32
  %2 = alloca i32
  %3 = alloca i32
  %4 = alloca i32
  %5 = alloca i32
  %pre.1 = alloca i32
  store i32 0, ptr %1
  store i32 0, ptr %2
  br label %6
6:
  %7 = call i32 @getchar()
  store i32 %7, ptr %3
  %8 = icmp ne i32 %7, -1
  br i1 %8, label %9, label %44
9:
  %10 = call i32 @getchar()
  store i32 %10, ptr %4
  %11 = call i32 @getchar()
  store i32 %11, ptr %5
  %12 = load i32, ptr %4
  switch i32 %12, label %34 [ i32 43, label %13 i32 45, label %20 i32 42, label %26 ]
13:
  %14 = load i32, ptr %3
  %15 = load i32, ptr %5
  %16 = add i32 %14, %15
  %17 = sub i32 %16, 96
  %18 = load i32, ptr %2
  %19 = add i32 %18, %17
  store i32 %19, ptr %2
  %pre.1.29.0 = load i32, ptr %3
  %pre.1.29.1 = load i32, ptr %5
  %pre.1.29 = sub i32 %pre.1.29.0, %pre.1.29.1
  store i32 %pre.1.29, ptr %pre.1
  br label %35
20:
  %21 = load i32, ptr %3
  %22 = load i32, ptr %5
  %23 = sub i32 %21, %22
  store i32 %23, ptr %pre.1
  %24 = load i32, ptr %2
  %25 = add i32 %24, %23
  store i32 %25, ptr %2
  br label %35
26:
  %27 = load i32, ptr %3
  %28 = sub i32 %27, 48
  %29 = load i32, ptr %5
  %30 = sub i32 %29, 48
  %31 = mul i32 %28, %30
  %32 = load i32, ptr %2
  %33 = add i32 %32, %31
  store i32 %33, ptr %2
  %pre.1.47.0 = load i32, ptr %3
  %pre.1.47.1 = load i32, ptr %5
  %pre.1.47 = sub i32 %pre.1.47.0, %pre.1.47.1
  store i32 %pre.1.47, ptr %pre.1
  br label %35
34:
  store i32 -1, ptr %1
  br label %46
35:
  %36 = load i32, ptr %3
  %37 = load i32, ptr %5
  %38 = load i32, ptr %pre.1
  %39 = icmp sgt i32 %38, 0
  br i1 %39, label %40, label %42
40:
  %41 = call i32 @putchar(i32 62)
  br label %42
42:
  %43 = call i32 @getchar()
  br label %6
44:
  %45 = load i32, ptr %2
  store i32 %45, ptr %1
  br label %46
46:
  %47 = load i32, ptr %1
  ret i32 %47
}

declare i32 @getchar()

declare i32 @putchar(i32)
