@base = global i32 40

define i32 @main() {
0:
  %1 = alloca i32
  %2 = alloca i32
  %3 = alloca i32
  %pre.0 = alloca i32
  store i32 0, ptr %1
  store i32 0, ptr %2
  %pre.0.4.0 = load i32, ptr @base
  %pre.0.4.1 = load i32, ptr @base
  %pre.0.4 = mul i32 %pre.0.4.0, %pre.0.4.1
  store i32 %pre.0.4, ptr %pre.0
  br label %4
4:
  %5 = call i32 @getchar()
  store i32 %5, ptr %3
  %6 = icmp ne i32 %5, -1
  br i1 %6, label %7, label %17
7:
  %8 = load i32, ptr @base
  %9 = load i32, ptr @base
  %10 = load i32, ptr %pre.0
  %11 = load i32, ptr %2
  %12 = add i32 %11, %10
  store i32 %12, ptr %2
  %13 = load i32, ptr %3
  %14 = icmp eq i32 %13, 33
  br i1 %14, label %15, label %16
15:
  call void @raise()
  %pre.0.24.0 = load i32, ptr @base
  %pre.0.24.1 = load i32, ptr @base
  %pre.0.24 = mul i32 %pre.0.24.0, %pre.0.24.1
  store i32 %pre.0.24, ptr %pre.0
  br label %16
16:
  br label %4
17:
  %18 = load i32, ptr %2
  ret i32 %18
}

declare i32 @getchar()

define void @raise() {
0:
  %1 = load i32, ptr @base
  %2 = add i32 %1, 2
  store i32 %2, ptr @base
  ret void
}
