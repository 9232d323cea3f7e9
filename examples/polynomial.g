# A polynomial of one control: x squared, and 3 times x, less 7.
#
#   ./grun run Main x=4 < examples/polynomial.g
#   y = 21
glisting 1
vi Main nonreentrant same
  control x i32 -> x
  indicator y i32 <- y
  const i32 3 -> three
  const i32 -7 -> seven
  mul x x -> square
  mul three x -> line
  add square line -> sum
  add sum seven -> y
end
