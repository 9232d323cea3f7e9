# A While Loop whose stop wire is never TRUE. The limit of iterations ends the run, with status 6.
#
#   ./grun run Main --iterations 1000 < examples/endless.g
#   k = 0
#   spent 1000
glisting 1
vi Main nonreentrant same
  indicator k i32 <- k
  while stop -> i
    last i -> k
  do
    const bool FALSE -> stop
  end
end
