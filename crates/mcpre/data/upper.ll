; What a C compiler makes of this program without optimisation, with its attributes shortened.
;
;   static int upper(int c) {
;       if (c >= 'a' && c <= 'z')
;           return c - 'a' + 'A';
;       return c;
;   }
;
;   int main(void) {
;       int count = 0;
;       for (int c = getchar(); c >= 0; c = getchar()) {
;           putchar(upper(c));
;           count++;
;       }
;       return count;
;   }
;
source_filename = "upper.c"
target triple = "x86_64-pc-linux-gnu"

; Function Attrs: noinline nounwind optnone uwtable
define dso_local i32 @main() #0 {
  %1 = alloca i32, align 4
  %2 = alloca i32, align 4
  %3 = alloca i32, align 4
  store i32 0, ptr %1, align 4
  store i32 0, ptr %2, align 4
  %4 = call i32 @getchar()
  store i32 %4, ptr %3, align 4
  br label %5

5:                                                ; preds = %14, %0
  %6 = load i32, ptr %3, align 4
  %7 = icmp sge i32 %6, 0
  br i1 %7, label %8, label %16

8:                                                ; preds = %5
  %9 = load i32, ptr %3, align 4
  %10 = call i32 @upper(i32 noundef %9)
  %11 = call i32 @putchar(i32 noundef %10)
  %12 = load i32, ptr %2, align 4
  %13 = add nsw i32 %12, 1
  store i32 %13, ptr %2, align 4
  br label %14

14:                                               ; preds = %8
  %15 = call i32 @getchar()
  store i32 %15, ptr %3, align 4
  br label %5, !llvm.loop !6

16:                                               ; preds = %5
  %17 = load i32, ptr %2, align 4
  ret i32 %17
}

declare i32 @getchar() #1

declare i32 @putchar(i32 noundef) #1

; Function Attrs: noinline nounwind optnone uwtable
define internal i32 @upper(i32 noundef %0) #0 {
  %2 = alloca i32, align 4
  %3 = alloca i32, align 4
  store i32 %0, ptr %3, align 4
  %4 = load i32, ptr %3, align 4
  %5 = icmp sge i32 %4, 97
  br i1 %5, label %6, label %13

6:                                                ; preds = %1
  %7 = load i32, ptr %3, align 4
  %8 = icmp sle i32 %7, 122
  br i1 %8, label %9, label %13

9:                                                ; preds = %6
  %10 = load i32, ptr %3, align 4
  %11 = sub nsw i32 %10, 97
  %12 = add nsw i32 %11, 65
  store i32 %12, ptr %2, align 4
  br label %15

13:                                               ; preds = %6, %1
  %14 = load i32, ptr %3, align 4
  store i32 %14, ptr %2, align 4
  br label %15

15:                                               ; preds = %13, %9
  %16 = load i32, ptr %2, align 4
  ret i32 %16
}

attributes #0 = { noinline nounwind optnone uwtable }
attributes #1 = { "frame-pointer"="all" }

!llvm.module.flags = !{!0}
!llvm.ident = !{!5}

!0 = !{i32 1, !"wchar_size", i32 4}
!5 = !{!"clang"}
!6 = distinct !{!6, !7}
!7 = !{!"llvm.loop.mustprogress"}
