declare i32 @getchar()

declare i32 @putchar(i32)

define i32 @main() {
entry:
  %byte = alloca i32
  %shift = alloca i32
  %sum = alloca i32
  %pre.1 = alloca i32
  %digit = call i32 @getchar()
  %first = sub i32 %digit, 48
  store i32 %first, ptr %shift
  store i32 0, ptr %sum
  br label %head
head:
  %next = call i32 @getchar()
  store i32 %next, ptr %byte
  %is.end = icmp slt i32 %next, 0
  br i1 %is.end, label %end, label %body
body:
  %body.byte = load i32, ptr %byte
  %is.blank = icmp eq i32 %body.byte, 32
  br i1 %is.blank, label %blank, label %letter
letter:
  %letter.byte = load i32, ptr %byte
  %letter.shift = load i32, ptr %shift
  %letter.shifted = add i32 %letter.byte, %letter.shift
  store i32 %letter.shifted, ptr %pre.1
  %letter.sum = load i32, ptr %sum
  %more = add i32 %letter.sum, %letter.shifted
  store i32 %more, ptr %sum
  br label %join
blank:
  %pre.1.27.0 = load i32, ptr %byte
  %pre.1.27.1 = load i32, ptr %shift
  %pre.1.27 = add i32 %pre.1.27.0, %pre.1.27.1
  store i32 %pre.1.27, ptr %pre.1
  br label %join
join:
  %join.byte = load i32, ptr %byte
  %join.shift = load i32, ptr %shift
  %join.shifted = load i32, ptr %pre.1
  %shown = call i32 @putchar(i32 %join.shifted)
  br label %head
end:
  %all = load i32, ptr %sum
  %low = trunc i32 %all to i8
  %result = zext i8 %low to i32
  ret i32 %result
}
