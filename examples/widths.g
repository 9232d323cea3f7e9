# Numbers of different widths: a sum is made in the wider representation, and what comes to an
# indicator of another type is wrapped into it.
#
#   ./grun run Main a=-1 b=1 < examples/widths.g
#   r = 0
#   s = 0
#   t = TRUE
#
# The sum of an i32 and a u32 is a u32; -1 is 4294967295 there, and 1 more is 0.
glisting 1
vi Main
  control a i32 -> a
  control b u32 -> b
  indicator r u32 <- sum
  indicator s u8 <- sum
  indicator t bool <- yes
  add a b -> sum
  const bool TRUE -> yes
end
