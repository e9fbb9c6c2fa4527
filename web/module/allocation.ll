; The three functions of the heap that the proved code calls, over malloc, realloc and free. The first two answer a
; pair, as on x86-64: 1 and the block, or 0 where there is no memory (the second word is then any valid address).
target datalayout = "e-m:e-p:64:64-p10:8:8-p20:8:8-i64:64-i128:128-n32:64-S128-ni:1:10:20"
target triple = "wasm64-unknown-unknown"

@none = internal global [16 x i8] zeroinitializer, align 16

declare ptr @malloc(i64)
declare ptr @realloc(ptr, i64)
declare void @free(ptr)

define internal { i64, i64 } @answer(ptr %block) {
  %missing = icmp eq ptr %block, null
  %valid = select i1 %missing, ptr @none, ptr %block
  %address = ptrtoint ptr %valid to i64
  %found = select i1 %missing, i64 0, i64 1
  %half = insertvalue { i64, i64 } undef, i64 %found, 0
  %whole = insertvalue { i64, i64 } %half, i64 %address, 1
  ret { i64, i64 } %whole
}

define internal i64 @wanted(i64 %length, i64 %alignment) {
  %empty = icmp eq i64 %length, 0
  %least = select i1 %empty, i64 %alignment, i64 %length
  ret i64 %least
}

define { i64, i64 } @rattle_alloc(i64 %length, i64 %alignment) {
  %least = call i64 @wanted(i64 %length, i64 %alignment)
  %block = call ptr @malloc(i64 %least)
  %pair = call { i64, i64 } @answer(ptr %block)
  ret { i64, i64 } %pair
}

define { i64, i64 } @rattle_realloc(ptr %old, i64 %kept, i64 %length, i64 %alignment) {
  %least = call i64 @wanted(i64 %length, i64 %alignment)
  %block = call ptr @realloc(ptr %old, i64 %least)
  %pair = call { i64, i64 } @answer(ptr %block)
  ret { i64, i64 } %pair
}

define void @rattle_dealloc(ptr %block) {
  call void @free(ptr %block)
  ret void
}
