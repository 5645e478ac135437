
; Divisions of 128 bits. Two numbers of no more than 64 bits are divided as such, by one instruction of WebAssembly; the division of others is written
; out by LLVM, bit by bit.
define internal i128 @quotient(i128 %number, i128 %divisor) nounwind {
  %both = or i128 %number, %divisor
  %high = lshr i128 %both, 64
  %fits = icmp eq i128 %high, 0
  br i1 %fits, label %narrow, label %wide

narrow:
  %number64 = trunc i128 %number to i64
  %divisor64 = trunc i128 %divisor to i64
  %quotient64 = udiv i64 %number64, %divisor64
  %result = zext i64 %quotient64 to i128
  ret i128 %result

wide:
  %written = udiv i128 %number, %divisor
  ret i128 %written
}

define internal i128 @remainder(i128 %number, i128 %divisor) nounwind {
  %quotient = call i128 @quotient(i128 %number, i128 %divisor)
  %product = mul i128 %quotient, %divisor
  %rest = sub i128 %number, %product
  ret i128 %rest
}
