; The bytes of one vector at the places that another one names, and 0 where a place has its high bit: what the instruction pshufb of x86-64 does.
define internal <16 x i8> @shuffle_bytes(<16 x i8> %from, <16 x i8> %places) {
start:
  %bytes = alloca [16 x i8], align 16
  store <16 x i8> %from, ptr %bytes, align 16
  br label %next
next:
  %i = phi i32 [ 0, %start ], [ %after, %next ]
  %made = phi <16 x i8> [ zeroinitializer, %start ], [ %more, %next ]
  %place = extractelement <16 x i8> %places, i32 %i
  %low = and i8 %place, 15
  %index = zext i8 %low to i64
  %at = getelementptr inbounds [16 x i8], ptr %bytes, i64 0, i64 %index
  %byte = load i8, ptr %at
  %is_high = icmp slt i8 %place, 0
  %kept = select i1 %is_high, i8 0, i8 %byte
  %more = insertelement <16 x i8> %made, i8 %kept, i32 %i
  %after = add nuw nsw i32 %i, 1
  %done = icmp eq i32 %after, 16
  br i1 %done, label %end, label %next
end:
  ret <16 x i8> %more
}
