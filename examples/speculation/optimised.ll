declare i32 @getchar()

declare i32 @putchar(i32)

define i32 @main() {
entry:
  %width = alloca i32
  %height = alloca i32
  %number = alloca i32
  %sum = alloca i32
  %pre.2 = alloca i32
  %w = call i32 @getchar()
  store i32 %w, ptr %width
  %h = call i32 @getchar()
  store i32 %h, ptr %height
  store i32 0, ptr %number
  store i32 0, ptr %sum
  %pre.2.8.0 = load i32, ptr %width
  %pre.2.8.1 = load i32, ptr %height
  %pre.2.8 = mul i32 %pre.2.8.0, %pre.2.8.1
  store i32 %pre.2.8, ptr %pre.2
  br label %head
head:
  %head.number = load i32, ptr %number
  %is.more = icmp ult i32 %head.number, 100
  br i1 %is.more, label %body, label %end
body:
  %body.number = load i32, ptr %number
  %rest = and i32 %body.number, 3
  switch i32 %rest, label %arm [ i32 0, label %latch i32 4, label %never ]
arm:
  %arm.width = load i32, ptr %width
  %arm.height = load i32, ptr %height
  %product = load i32, ptr %pre.2
  %arm.sum = load i32, ptr %sum
  %arm.more = add i32 %arm.sum, %product
  store i32 %arm.more, ptr %sum
  br label %latch
never:
  %never.width = load i32, ptr %width
  %never.height = load i32, ptr %height
  %never.product = load i32, ptr %pre.2
  %shown = call i32 @putchar(i32 %never.product)
  br label %latch
latch:
  %latch.number = load i32, ptr %number
  %following = add i32 %latch.number, 1
  store i32 %following, ptr %number
  br label %head
end:
  %result = load i32, ptr %sum
  ret i32 %result
}
