# A case that leaves values out, and a text where a number is wanted.
#
#   ./grun check Main < examples/uncovered.g
#   Main:4.0 rule 18
#   Main:11.2 rule 16
glisting 1
vi Main
control a i32 -> a
indicator r i32 <- r
indicator q i32 <- q
case a
  result r
when 0
  give v
  const i32 5 -> v
end
const str "2" -> s
add a s -> q
end
