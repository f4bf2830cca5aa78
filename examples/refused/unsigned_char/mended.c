unsigned parity(uint8_t byte) {
  unsigned bits = byte ^ byte >> 4;
  bits ^= bits >> 2;
  return (bits ^ bits >> 1) & 1;
}
