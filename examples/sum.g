# A For Loop with a register: the numbers from 1 to n, added up, and their squares collected.
#
#   ./grun run Main n=4 < examples/sum.g
#   total = 10
#   squares = [1, 4, 9, 16]
glisting 1
vi Main nonreentrant same
  control n i32 -> n
  indicator total i32 <- total
  indicator squares [i32] <- squares
  const i32 0 -> zero
  for n -> i
    register zero -> sum | more -> total
    gather square -> squares
  do
    inc i -> k
    add sum k -> more
    mul k k -> square
  end
end
