declare i32 @getchar()

define i32 @main() {
entry:
  %total = alloca i32
  %count = alloca i32
  %turn = alloca i32
  %sum = alloca i32
  %pre.0 = alloca i32
  %pre.3 = alloca i32
  %t = call i32 @getchar()
  store i32 %t, ptr %total
  %c = call i32 @getchar()
  store i32 %c, ptr %count
  store i32 0, ptr %turn
  store i32 0, ptr %sum
  %pre.0.8.0 = load i32, ptr %total
  %pre.0.8.1 = load i32, ptr %count
  %pre.0.8 = sdiv i32 %pre.0.8.0, %pre.0.8.1
  store i32 %pre.0.8, ptr %pre.0
  %pre.3.8.0 = load i32, ptr %total
  %pre.3.8 = sdiv i32 %pre.3.8.0, 7
  store i32 %pre.3.8, ptr %pre.3
  br label %body
body:
  %body.total = load i32, ptr %total
  %body.count = load i32, ptr %count
  %quotient = load i32, ptr %pre.0
  %body.sum = load i32, ptr %sum
  %body.more = add i32 %body.sum, %quotient
  store i32 %body.more, ptr %sum
  %body.turn = load i32, ptr %turn
  %is.late = icmp sgt i32 %body.turn, 2
  br i1 %is.late, label %late, label %latch
late:
  %late.total = load i32, ptr %total
  %late.count = load i32, ptr %count
  %rest = srem i32 %late.total, %late.count
  %seventh = load i32, ptr %pre.3
  %both = add i32 %rest, %seventh
  %late.sum = load i32, ptr %sum
  %late.more = add i32 %late.sum, %both
  store i32 %late.more, ptr %sum
  br label %latch
latch:
  %latch.turn = load i32, ptr %turn
  %next = add i32 %latch.turn, 1
  store i32 %next, ptr %turn
  %latch.turn2 = load i32, ptr %turn
  %is.more = icmp slt i32 %latch.turn2, 10
  br i1 %is.more, label %body, label %end
end:
  %result = load i32, ptr %sum
  ret i32 %result
}
