# Two calls of a VI, whose panel sets its scale where a call leaves that input unwired.
#
#   ./grun run Main x=5 < examples/call.g
#   twice = 10
#   seven = 35
glisting 1
vi Main nonreentrant same
  control x i32 -> x
  indicator twice i32 <- a
  indicator seven i32 <- b
  const i32 7 -> seven
  call Scaled x _ -> a
  call Scaled x seven -> b
end
vi Scaled preallocated same
  control value i32 -> value
  control scale i32 = 2 -> scale
  indicator result i32 <- result
  mul value scale -> result
end
