; clang calls these functions for copies of more than 32 bytes or so, and EDK II may lack them. Another definition takes precedence.
define weak hidden ptr @memcpy(ptr %to, ptr %from, i64 %size) #90 {
start:
  %none = icmp eq i64 %size, 0
  br i1 %none, label %end, label %loop
loop:
  %index = phi i64 [ 0, %start ], [ %next, %loop ]
  %read = getelementptr i8, ptr %from, i64 %index
  %written = getelementptr i8, ptr %to, i64 %index
  %byte = load i8, ptr %read, align 1
  store i8 %byte, ptr %written, align 1
  %next = add i64 %index, 1
  %last = icmp eq i64 %next, %size
  br i1 %last, label %end, label %loop
end:
  ret ptr %to
}
define weak hidden ptr @memset(ptr %to, i32 %value, i64 %size) #90 {
start:
  %byte = trunc i32 %value to i8
  %none = icmp eq i64 %size, 0
  br i1 %none, label %end, label %loop
loop:
  %index = phi i64 [ 0, %start ], [ %next, %loop ]
  %written = getelementptr i8, ptr %to, i64 %index
  store i8 %byte, ptr %written, align 1
  %next = add i64 %index, 1
  %last = icmp eq i64 %next, %size
  br i1 %last, label %end, label %loop
end:
  ret ptr %to
}
@llvm.used = appending global [2 x ptr] [ptr @memcpy, ptr @memset], section "llvm.metadata"
attributes #90 = { noredzone noinline nounwind "no-builtins" }
