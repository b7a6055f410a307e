; ModuleID = 'counter.c'
source_filename = "counter.c"
target datalayout = "e-m:e-p270:32:32-p271:32:32-p272:64:64-i64:64-i128:128-f80:128-n8:16:32:64-S128"
target triple = "x86_64-pc-linux-gnu"

@base = internal global i32 40, align 4

; Function Attrs: noinline nounwind uwtable
define dso_local i32 @main() #0 {
  %1 = alloca i32, align 4
  %2 = alloca i32, align 4
  %3 = alloca i32, align 4
  store i32 0, ptr %1, align 4
  store i32 0, ptr %2, align 4
  br label %4

4:                                                ; preds = %16, %0
  %5 = call i32 @getchar()
  store i32 %5, ptr %3, align 4
  %6 = icmp ne i32 %5, -1
  br i1 %6, label %7, label %17

7:                                                ; preds = %4
  %8 = load i32, ptr @base, align 4
  %9 = load i32, ptr @base, align 4
  %10 = mul nsw i32 %8, %9
  %11 = load i32, ptr %2, align 4
  %12 = add nsw i32 %11, %10
  store i32 %12, ptr %2, align 4
  %13 = load i32, ptr %3, align 4
  %14 = icmp eq i32 %13, 33
  br i1 %14, label %15, label %16

15:                                               ; preds = %7
  call void @raise()
  br label %16

16:                                               ; preds = %15, %7
  br label %4, !llvm.loop !6

17:                                               ; preds = %4
  %18 = load i32, ptr %2, align 4
  ret i32 %18
}

declare i32 @getchar() #1

; Function Attrs: noinline nounwind uwtable
define internal void @raise() #0 {
  %1 = load i32, ptr @base, align 4
  %2 = add nsw i32 %1, 2
  store i32 %2, ptr @base, align 4
  ret void
}

attributes #0 = { noinline nounwind uwtable "frame-pointer"="all" "min-legal-vector-width"="0" "no-trapping-math"="true" "stack-protector-buffer-size"="8" "target-cpu"="x86-64" "target-features"="+cmov,+cx8,+fxsr,+mmx,+sse,+sse2,+x87" "tune-cpu"="generic" }
attributes #1 = { "frame-pointer"="all" "no-trapping-math"="true" "stack-protector-buffer-size"="8" "target-cpu"="x86-64" "target-features"="+cmov,+cx8,+fxsr,+mmx,+sse,+sse2,+x87" "tune-cpu"="generic" }

!llvm.module.flags = !{!0, !1, !2, !3, !4}
!llvm.ident = !{!5}

!0 = !{i32 1, !"wchar_size", i32 4}
!1 = !{i32 8, !"PIC Level", i32 2}
!2 = !{i32 7, !"PIE Level", i32 2}
!3 = !{i32 7, !"uwtable", i32 2}
!4 = !{i32 7, !"frame-pointer", i32 2}
!5 = !{!"Debian clang version 19.1.7 (3~deb12u1)"}
!6 = distinct !{!6, !7}
!7 = !{!"llvm.loop.mustprogress"}
