define i32 @area(i32 %width, i32 %height, i1 %is.frame) {
entry:
  %inner = alloca i32
  %pre.0 = alloca i32
  store i32 0, ptr %inner
  br i1 %is.frame, label %frame, label %full
frame:
  %outer = mul i32 %width, %height
  store i32 %outer, ptr %pre.0
  %inner.width = sub i32 %width, 2
  %inner.height = sub i32 %height, 2
  %inner.area = mul i32 %inner.width, %inner.height
  %is.small = icmp slt i32 %outer, 10
  %left.out = select i1 %is.small, i32 0, i32 %inner.area
  store i32 %left.out, ptr %inner
  br label %end
full:
  %pre.0.15 = mul i32 %width, %height
  store i32 %pre.0.15, ptr %pre.0
  br label %end
end:
  %all = load i32, ptr %pre.0
  %hole = load i32, ptr %inner
  %area = sub i32 %all, %hole
  ret i32 %area
}

define i32 @main() {
entry:
  %sum = alloca i32
  %a = call i32 @area(i32 8, i32 5, i1 true)
  %b = call i32 @area(i32 3, i32 3, i1 true)
  %c = call i32 @area(i32 3, i32 3, i1 false)
  %d = call i32 @area(i32 10, i32 10, i1 true)
  %ab = add i32 %a, %b
  %abc = add i32 %ab, %c
  %abcd = add i32 %abc, %d
  ret i32 %abcd
}
