; ModuleID = 'calculator.c'
source_filename = "calculator.c"
target datalayout = "e-m:e-p270:32:32-p271:32:32-p272:64:64-i64:64-i128:128-f80:128-n8:16:32:64-S128"
target triple = "x86_64-pc-linux-gnu"

; Function Attrs: noinline nounwind uwtable
define dso_local i32 @main() #0 {
  %1 = alloca i32, align 4
  %2 = alloca i32, align 4
  %3 = alloca i32, align 4
  %4 = alloca i32, align 4
  %5 = alloca i32, align 4
  store i32 0, ptr %1, align 4
  store i32 0, ptr %2, align 4
  br label %6

6:                                                ; preds = %42, %0
  %7 = call i32 @getchar()
  store i32 %7, ptr %3, align 4
  %8 = icmp ne i32 %7, -1
  br i1 %8, label %9, label %44

9:                                                ; preds = %6
  %10 = call i32 @getchar()
  store i32 %10, ptr %4, align 4
  %11 = call i32 @getchar()
  store i32 %11, ptr %5, align 4
  %12 = load i32, ptr %4, align 4
  switch i32 %12, label %34 [
    i32 43, label %13
    i32 45, label %20
    i32 42, label %26
  ]

13:                                               ; preds = %9
  %14 = load i32, ptr %3, align 4
  %15 = load i32, ptr %5, align 4
  %16 = add nsw i32 %14, %15
  %17 = sub nsw i32 %16, 96
  %18 = load i32, ptr %2, align 4
  %19 = add nsw i32 %18, %17
  store i32 %19, ptr %2, align 4
  br label %35

20:                                               ; preds = %9
  %21 = load i32, ptr %3, align 4
  %22 = load i32, ptr %5, align 4
  %23 = sub nsw i32 %21, %22
  %24 = load i32, ptr %2, align 4
  %25 = add nsw i32 %24, %23
  store i32 %25, ptr %2, align 4
  br label %35

26:                                               ; preds = %9
  %27 = load i32, ptr %3, align 4
  %28 = sub nsw i32 %27, 48
  %29 = load i32, ptr %5, align 4
  %30 = sub nsw i32 %29, 48
  %31 = mul nsw i32 %28, %30
  %32 = load i32, ptr %2, align 4
  %33 = add nsw i32 %32, %31
  store i32 %33, ptr %2, align 4
  br label %35

34:                                               ; preds = %9
  store i32 -1, ptr %1, align 4
  br label %46

35:                                               ; preds = %26, %20, %13
  %36 = load i32, ptr %3, align 4
  %37 = load i32, ptr %5, align 4
  %38 = sub nsw i32 %36, %37
  %39 = icmp sgt i32 %38, 0
  br i1 %39, label %40, label %42

40:                                               ; preds = %35
  %41 = call i32 @putchar(i32 noundef 62)
  br label %42

42:                                               ; preds = %40, %35
  %43 = call i32 @getchar()
  br label %6, !llvm.loop !6

44:                                               ; preds = %6
  %45 = load i32, ptr %2, align 4
  store i32 %45, ptr %1, align 4
  br label %46

46:                                               ; preds = %44, %34
  %47 = load i32, ptr %1, align 4
  ret i32 %47
}

declare i32 @getchar() #1

declare i32 @putchar(i32 noundef) #1

attributes #0 = { noinline nounwind uwtable "frame-pointer"="all" "min-legal-vector-width"="0" "no-trapping-math"="true" "stack-protector-buffer-size"="8" "target-cpu"="x86-64" "target-features"="+cmov,+cx8,+fxsr,+mmx,+sse,+sse2,+x87" "tune-cpu"="generic" }
attributes #1 = { "frame-pointer"="all" "no-trapping-math"="true" "stack-protector-buffer-size"="8" "target-cpu"="x86-64" "target-features"="+cmov,+cx8,+fxsr,+mmx,+sse,+sse2,+x87" "tune-cpu"="generic" }

!llvm.module.flags = !{!0, !1, !2, !3, !4}
!llvm.ident = !{!5}

!0 = !{i32 1, !"wchar_size", i32 4}
!1 = !{i32 8, !"PIC Level", i32 2}
!2 = !{i32 7, !"PIE Level", i32 2}
!3 = !{i32 7, !"uwtable", i32 2}
!4 = !{i32 7, !"frame-pointer", i32 2}
!5 = !{!"Debian clang version 19.1.7 (3~deb12u1)"}
!6 = distinct !{!6, !7}
!7 = !{!"llvm.loop.mustprogress"}
