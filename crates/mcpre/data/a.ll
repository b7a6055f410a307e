define i32 @main(){ %1=alloca i32 store i32 40,ptr %1 ; set
%2=load i32,ptr %1 %3=add i32 %2,2 ret i32 %3}