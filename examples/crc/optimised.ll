define i32 @main() {
0:
  %1 = alloca i32
  %2 = alloca i8
  %3 = alloca i32
  %4 = alloca i32
  %pre.0 = alloca i32
  store i32 0, ptr %1
  store i8 0, ptr %2
  br label %5
5:
  %6 = call i32 @getchar()
  store i32 %6, ptr %3
  %7 = icmp ne i32 %6, -1
  br i1 %7, label %8, label %38
8:
  %9 = load i8, ptr %2
  %10 = zext i8 %9 to i32
  %11 = load i32, ptr %3
  %12 = xor i32 %10, %11
  %13 = trunc i32 %12 to i8
  store i8 %13, ptr %2
  store i32 0, ptr %4
  br label %14
14:
  %15 = load i32, ptr %4
  %16 = icmp slt i32 %15, 8
  br i1 %16, label %17, label %37
17:
  %18 = load i8, ptr %2
  %19 = zext i8 %18 to i32
  store i32 %19, ptr %pre.0
  %20 = and i32 %19, 128
  %21 = icmp ne i32 %20, 0
  br i1 %21, label %22, label %28
22:
  %23 = load i8, ptr %2
  %24 = load i32, ptr %pre.0
  %25 = shl i32 %24, 1
  %26 = xor i32 %25, 7
  %27 = trunc i32 %26 to i8
  store i8 %27, ptr %2
  br label %33
28:
  %29 = load i8, ptr %2
  %30 = load i32, ptr %pre.0
  %31 = shl i32 %30, 1
  %32 = trunc i32 %31 to i8
  store i8 %32, ptr %2
  br label %33
33:
  br label %34
34:
  %35 = load i32, ptr %4
  %36 = add i32 %35, 1
  store i32 %36, ptr %4
  br label %14
37:
  br label %5
38:
  %39 = load i8, ptr %2
  %40 = zext i8 %39 to i32
  ret i32 %40
}

declare i32 @getchar()
