void scale(short x[8], int factor) {
  for (int i = 0; i < 8; i++)
    x[i] = x[i] * factor >> 4;
}
