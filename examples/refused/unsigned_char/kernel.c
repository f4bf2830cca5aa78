unsigned parity(unsigned char byte) {
  unsigned bits = byte ^ byte >> 4;
  bits ^= bits >> 2;
  return (bits ^ bits >> 1) & 1;
}
