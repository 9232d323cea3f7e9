# Two parallel loops over a queue: one puts n numbers in, the other takes as many out and adds them up.
# The queue holds two items, so the first loop waits for the second again and again.
#
#   ./grun run Main n=5 < examples/queue.g
#   total = 10
glisting 1
vi Main nonreentrant same
  control n i32 -> n
  indicator total i32 <- total
  obtain "numbers" 2 i32 -> q
  const i32 0 -> zero
  for n -> i
    tunnel q -> to
  do
    enqueue to i -> _
  end
  for n -> _
    tunnel q -> from
    register zero -> sum | more -> total
  do
    dequeue from -> item _
    add sum item -> more
  end
end
