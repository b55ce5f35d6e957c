; The three calls by which Rattle's code takes memory and gives it back: whether there is a block, and where it stands.
declare i64 @heap_tried(i64, i64)
declare i64 @heap_retried(i64, i64, i64)
declare i64 @heap_none()
declare void @free(ptr)

define { i64, i64 } @rattle_alloc(i64 %bytes, i64 %alignment) {
  %block = call i64 @heap_tried(i64 %bytes, i64 %alignment)
  %is = icmp ne i64 %block, 0
  %told = zext i1 %is to i64
  %none = call i64 @heap_none()
  %at = select i1 %is, i64 %block, i64 %none
  %half = insertvalue { i64, i64 } undef, i64 %told, 0
  %whole = insertvalue { i64, i64 } %half, i64 %at, 1
  ret { i64, i64 } %whole
}

define { i64, i64 } @rattle_realloc(ptr %block, i64 %kept, i64 %bytes, i64 %alignment) {
  %old = ptrtoint ptr %block to i64
  %new = call i64 @heap_retried(i64 %old, i64 %bytes, i64 %alignment)
  %is = icmp ne i64 %new, 0
  %told = zext i1 %is to i64
  %none = call i64 @heap_none()
  %at = select i1 %is, i64 %new, i64 %none
  %half = insertvalue { i64, i64 } undef, i64 %told, 0
  %whole = insertvalue { i64, i64 } %half, i64 %at, 1
  ret { i64, i64 } %whole
}

define void @rattle_dealloc(ptr %block) {
  call void @free(ptr %block)
  ret void
}
