; The operands of expressions may be parameters: nothing ever changes them, so no call and no store kills these.
;
; `width * height` is computed for a frame, and in any case behind the two arms. It is cheapest to compute it once on each
; way: in the arm of frames, where it is kept, and in the other one, where it is inserted.
define i32 @area(i32 %width, i32 %height, i1 zeroext %is.frame) {
entry:
  %inner = alloca i32
  store i32 0, ptr %inner
  br i1 %is.frame, label %frame, label %full
frame:
  %outer = mul i32 %width, %height
  %inner.width = sub i32 %width, 2
  %inner.height = sub i32 %height, 2
  %inner.area = mul i32 %inner.width, %inner.height
  %is.small = icmp slt i32 %outer, 10
  %left.out = select i1 %is.small, i32 0, i32 %inner.area
  store i32 %left.out, ptr %inner
  br label %end
full:
  br label %end
end:
  %all = mul i32 %width, %height
  %hole = load i32, ptr %inner
  %area = sub i32 %all, %hole
  ret i32 %area
}

define i32 @main() {
entry:
  %sum = alloca i32
  %a = call i32 @area(i32 8, i32 5, i1 zeroext true)
  %b = call i32 @area(i32 3, i32 3, i1 zeroext true)
  %c = call i32 @area(i32 3, i32 3, i1 zeroext false)
  %d = call i32 @area(i32 10, i32 10, i1 zeroext true)
  %ab = add i32 %a, %b
  %abc = add i32 %ab, %c
  %abcd = add i32 %abc, %d
  ret i32 %abcd
}
