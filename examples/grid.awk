# The numbers from 1 to 100000 to rows, to try a long load with: a grid of parcels of 20 metres, 400 from west to east and 250 from south to
# north, in a mixed order that is the same each time. Lengths are in centimetres, values in cents.
{
  cell = $1 * 7919 % 100000
  west = cell % 400 * 2000
  south = int(cell / 400) * 2000
  printf "add,1,%d,%d,%d,%d,%d,%d\n", $1, west, west + 1999, south, south + 1999, 5000000 + cell
}
