; The three functions by which the proved calls allocate, over malloc, realloc and free. They do what
; the kit's do: an allocation is whether there is memory, and the block, or some address where there
; is none. malloc aligns a block to what the calls ask for at most.
;
; They are LLVM's own text, since the proved calls return the pair as LLVM does for each target. On
; Windows C returns such a struct by a hidden pointer.

@nothing = internal global [16 x i8] zeroinitializer, align 16

declare ptr @malloc(i64)
declare ptr @realloc(ptr, i64)
declare void @free(ptr)

; An allocation by a block of malloc or realloc.
define internal { i64, ptr } @allocation_of(ptr %block) {
  %none = icmp eq ptr %block, null
  %is_some = select i1 %none, i64 0, i64 1
  %at = select i1 %none, ptr @nothing, ptr %block
  %half = insertvalue { i64, ptr } undef, i64 %is_some, 0
  %allocation = insertvalue { i64, ptr } %half, ptr %at, 1
  ret { i64, ptr } %allocation
}

; How many bytes malloc is asked for: a block may have the length 0.
define internal i64 @asked(i64 %len, i64 %align) {
  %is_empty = icmp eq i64 %len, 0
  %asked = select i1 %is_empty, i64 %align, i64 %len
  ret i64 %asked
}

; A new block of a length.
define hidden { i64, ptr } @starlark_lex_alloc(i64 %len, i64 %align) {
  %asked = call i64 @asked(i64 %len, i64 %align)
  %block = call ptr @malloc(i64 %asked)
  %allocation = call { i64, ptr } @allocation_of(ptr %block)
  ret { i64, ptr } %allocation
}

; A block of another length, which has what the old one had.
define hidden { i64, ptr } @starlark_lex_realloc(ptr %old, i64 %old_len, i64 %len, i64 %align) {
  %asked = call i64 @asked(i64 %len, i64 %align)
  %block = call ptr @realloc(ptr %old, i64 %asked)
  %allocation = call { i64, ptr } @allocation_of(ptr %block)
  ret { i64, ptr } %allocation
}

; Frees a block.
define hidden void @starlark_lex_dealloc(ptr %block) {
  call void @free(ptr %block)
  ret void
}
