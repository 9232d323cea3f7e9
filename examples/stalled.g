# A consumer that waits for ever: nothing puts an item into the queue. The run ends with status 5, and names
# the node that waits, by its frame and its line.
#
#   ./grun run Main < examples/stalled.g
#   v = 0
#   stalled
#   waiting 0 3
glisting 1
vi Main nonreentrant same
  indicator v i32 <- v
  obtain "orders" -1 i32 -> q
  dequeue q -> v _
end
