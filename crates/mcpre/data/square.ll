; What a C compiler makes of this program without optimisation, with its attributes shortened. The sum is computed three
; times.
;
;   int main(void) {
;       int a = getchar();
;       int b = getchar();
;       putchar((a + b) / 2);
;       putchar('\n');
;       return (a + b) * (a + b);
;   }
;
source_filename = "square.c"
target triple = "x86_64-pc-linux-gnu"

; Function Attrs: noinline nounwind optnone uwtable
define dso_local i32 @main() #0 {
  %1 = alloca i32, align 4
  %2 = alloca i32, align 4
  %3 = alloca i32, align 4
  store i32 0, ptr %1, align 4
  %4 = call i32 @getchar()
  store i32 %4, ptr %2, align 4
  %5 = call i32 @getchar()
  store i32 %5, ptr %3, align 4
  %6 = load i32, ptr %2, align 4
  %7 = load i32, ptr %3, align 4
  %8 = add nsw i32 %6, %7
  %9 = sdiv i32 %8, 2
  %10 = call i32 @putchar(i32 noundef %9)
  %11 = call i32 @putchar(i32 noundef 10)
  %12 = load i32, ptr %2, align 4
  %13 = load i32, ptr %3, align 4
  %14 = add nsw i32 %12, %13
  %15 = load i32, ptr %2, align 4
  %16 = load i32, ptr %3, align 4
  %17 = add nsw i32 %15, %16
  %18 = mul nsw i32 %14, %17
  ret i32 %18
}

declare i32 @getchar() #1

declare i32 @putchar(i32 noundef) #1

attributes #0 = { noinline nounwind optnone uwtable }
attributes #1 = { "frame-pointer"="all" }

!llvm.module.flags = !{!0}
!llvm.ident = !{!1}

!0 = !{i32 1, !"wchar_size", i32 4}
!1 = !{!"clang"}
