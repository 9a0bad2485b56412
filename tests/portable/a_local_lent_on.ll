define internal void @g(ptr noundef %a0) #0 {
start:
  %r1 = alloca ptr, align 8
  store ptr %a0, ptr %r1, align 8
  %r9 = alloca ptr, align 8
  store ptr %r1, ptr %r9, align 8
  %r2 = load ptr, ptr %r1, align 8
  %r3 = load ptr, ptr %r2, align 8
  %r4 = getelementptr inbounds i8, ptr %r2, i64 8
  %r5 = load i64, ptr %r4, align 8
  %r6 = load i8, ptr %r3, align 1
  ret void
}

define void @kihavute_f(ptr noundef %a0, i64 noundef %a1) #0 {
start:
  %r1 = alloca [16 x i8], align 8
  store ptr %a0, ptr %r1, align 8
  %r2 = getelementptr inbounds i8, ptr %r1, i64 8
  store i64 %a1, ptr %r2, align 8
  call void @g(ptr noundef %r1)
  ret void
}
