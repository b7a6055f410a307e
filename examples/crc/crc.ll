; ModuleID = 'crc.c'
source_filename = "crc.c"
target datalayout = "e-m:e-p270:32:32-p271:32:32-p272:64:64-i64:64-i128:128-f80:128-n8:16:32:64-S128"
target triple = "x86_64-pc-linux-gnu"

; Function Attrs: noinline nounwind uwtable
define dso_local i32 @main() #0 {
  %1 = alloca i32, align 4
  %2 = alloca i8, align 1
  %3 = alloca i32, align 4
  %4 = alloca i32, align 4
  store i32 0, ptr %1, align 4
  store i8 0, ptr %2, align 1
  br label %5

5:                                                ; preds = %37, %0
  %6 = call i32 @getchar()
  store i32 %6, ptr %3, align 4
  %7 = icmp ne i32 %6, -1
  br i1 %7, label %8, label %38

8:                                                ; preds = %5
  %9 = load i8, ptr %2, align 1
  %10 = zext i8 %9 to i32
  %11 = load i32, ptr %3, align 4
  %12 = xor i32 %10, %11
  %13 = trunc i32 %12 to i8
  store i8 %13, ptr %2, align 1
  store i32 0, ptr %4, align 4
  br label %14

14:                                               ; preds = %34, %8
  %15 = load i32, ptr %4, align 4
  %16 = icmp slt i32 %15, 8
  br i1 %16, label %17, label %37

17:                                               ; preds = %14
  %18 = load i8, ptr %2, align 1
  %19 = zext i8 %18 to i32
  %20 = and i32 %19, 128
  %21 = icmp ne i32 %20, 0
  br i1 %21, label %22, label %28

22:                                               ; preds = %17
  %23 = load i8, ptr %2, align 1
  %24 = zext i8 %23 to i32
  %25 = shl i32 %24, 1
  %26 = xor i32 %25, 7
  %27 = trunc i32 %26 to i8
  store i8 %27, ptr %2, align 1
  br label %33

28:                                               ; preds = %17
  %29 = load i8, ptr %2, align 1
  %30 = zext i8 %29 to i32
  %31 = shl i32 %30, 1
  %32 = trunc i32 %31 to i8
  store i8 %32, ptr %2, align 1
  br label %33

33:                                               ; preds = %28, %22
  br label %34

34:                                               ; preds = %33
  %35 = load i32, ptr %4, align 4
  %36 = add nsw i32 %35, 1
  store i32 %36, ptr %4, align 4
  br label %14, !llvm.loop !6

37:                                               ; preds = %14
  br label %5, !llvm.loop !8

38:                                               ; preds = %5
  %39 = load i8, ptr %2, align 1
  %40 = zext i8 %39 to i32
  ret i32 %40
}

declare i32 @getchar() #1

attributes #0 = { noinline nounwind uwtable "frame-pointer"="all" "min-legal-vector-width"="0" "no-trapping-math"="true" "stack-protector-buffer-size"="8" "target-cpu"="x86-64" "target-features"="+cmov,+cx8,+fxsr,+mmx,+sse,+sse2,+x87" "tune-cpu"="generic" }
attributes #1 = { "frame-pointer"="all" "no-trapping-math"="true" "stack-protector-buffer-size"="8" "target-cpu"="x86-64" "target-features"="+cmov,+cx8,+fxsr,+mmx,+sse,+sse2,+x87" "tune-cpu"="generic" }

!llvm.module.flags = !{!0, !1, !2, !3, !4}
!llvm.ident = !{!5}

!0 = !{i32 1, !"wchar_size", i32 4}
!1 = !{i32 8, !"PIC Level", i32 2}
!2 = !{i32 7, !"PIE Level", i32 2}
!3 = !{i32 7, !"uwtable", i32 2}
!4 = !{i32 7, !"frame-pointer", i32 2}
!5 = !{!"Debian clang version 19.1.7 (3~deb12u1)"}
!6 = distinct !{!6, !7}
!7 = !{!"llvm.loop.mustprogress"}
!8 = distinct !{!8, !7}
