; Shifts a text by the digit that it begins with, and counts the sum of its shifted letters modulo 256.
;
; `byte + shift` is computed in the arm of letters and again where the arms meet. Letters are more frequent than blanks,
; so it is cheapest to compute it once in each arm: at a blank it is inserted, behind the arms it is read.
declare i32 @getchar()
declare i32 @putchar(i32)

define i32 @main() {
entry:
  %byte = alloca i32
  %shift = alloca i32
  %sum = alloca i32
  %digit = call i32 @getchar()
  %first = sub i32 %digit, 48
  store i32 %first, ptr %shift
  store i32 0, ptr %sum
  br label %head
head:
  %next = call i32 @getchar()
  store i32 %next, ptr %byte
  %is.end = icmp slt i32 %next, 0
  br i1 %is.end, label %end, label %body
body:
  %body.byte = load i32, ptr %byte
  %is.blank = icmp eq i32 %body.byte, 32
  br i1 %is.blank, label %blank, label %letter
letter:
  %letter.byte = load i32, ptr %byte
  %letter.shift = load i32, ptr %shift
  %letter.shifted = add i32 %letter.byte, %letter.shift
  %letter.sum = load i32, ptr %sum
  %more = add i32 %letter.sum, %letter.shifted
  store i32 %more, ptr %sum
  br label %join
blank:
  br label %join
join:
  %join.byte = load i32, ptr %byte
  %join.shift = load i32, ptr %shift
  %join.shifted = add i32 %join.byte, %join.shift
  %shown = call i32 @putchar(i32 %join.shifted)
  br label %head
end:
  %all = load i32, ptr %sum
  %low = trunc i32 %all to i8
  %result = zext i8 %low to i32
  ret i32 %result
}
