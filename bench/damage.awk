# Prints the octal escapes of a BMP of an Aztec grid, with scale 2 and 4 light modules around, in which so many codewords are wrong: the share `wrong` of the
# check codewords. The first file is what reading the grid reports, the second the grid.
function map(i,    half, t) {
  if (!full) return i
  half = base / 2
  if (i >= half) { t = i - half; return middle + 1 + t + int(t / 15) }
  t = half - 1 - i
  return middle - 1 - t - int(t / 15)
}

# turns the module of a bit
function turn(bit,    layer, front, long, side, j, k, low, high, x, y) {
  for (layer = front = 0; bit >= front + 8 * (long = 4 * (layers - layer) + (full ? 12 : 9)); layer++) front += 8 * long
  bit -= front; side = int(bit / (2 * long)); j = int(bit % (2 * long) / 2); k = bit % 2; low = 2 * layer; high = base - 1 - low
  x = map(side == 0 ? low + k : side == 1 ? low + j : side == 2 ? high - k : high - j)
  y = map(side == 0 ? low + j : side == 1 ? high - k : side == 2 ? high - j : low + k)
  dark[x, y] = 1 - dark[x, y]
}

function put(value, bytes) { for (; bytes > 0; bytes--) { printf "\\%03o", value % 256; value = int(value / 256) } }

BEGIN { rows = 0 }
/^size=/ { full = /full/; layers = $2; base = 4 * layers + (full ? 14 : 11) }
/^codewords=/ { split(substr($1, 11), words, "+") }
/^[01]+$/ { for (x = 0; x < length($1); x++) dark[x, rows] = substr($1, x + 1, 1) + 0; rows++ }
END {
  middle = int(rows / 2); width = layers < 3 ? 6 : layers < 9 ? 8 : layers < 23 ? 10 : 12
  bits = (16 * layers + (full ? 112 : 88)) * layers; all = words[1] + words[2]; turns = int(wrong * words[2])
  for (i = 0; i < turns; i++) turn(bits - all * width + int(i * all / turns) * width)
  pixels = 4 * (rows + 8); stride = int((pixels + 31) / 32) * 4
  printf "BM"; put(62 + stride * pixels, 4); put(0, 4); put(62, 4); put(40, 4); put(pixels, 4); put(pixels, 4); put(1, 2); put(1, 2)
  put(0, 4); put(stride * pixels, 4); put(2835, 4); put(2835, 4); put(2, 4); put(2, 4); put(16777215, 4); put(0, 4)
  for (p = 0; p < pixels; p++) for (b = 0; b < stride; b++) {
    y = rows + 3 - int(p / 4); byte = 0
    for (x = 2 * b - 4; x < 2 * b - 2; x++) byte = 16 * byte + 15 * dark[x, y]
    printf "\\%03o", byte
  }
}
