#include <stdint.h>
#define MAX_WORD 32767
static int16_t gsm_abs(int16_t a) {
  return a < 0 ? (a == (-32768) ? MAX_WORD : -a) : a;
}
// Autocorrelation of GSM 06.10, with the saturating operations of the standard.
static int16_t gsm_add(int16_t a, int16_t b) {
  int64_t sum;
  sum = (int64_t)a + (int64_t)b;
  return sum < (-32768) ? (-32768) : sum > MAX_WORD ? MAX_WORD : sum;
}
static int16_t gsm_mult_r(int16_t a, int16_t b) {
  int16_t result;
  int64_t prod;
  if (b == (-32768) && a == (-32768))
    result = MAX_WORD;
  else {
    prod = (int64_t)((int64_t)a * (int64_t)b + 16384);
    prod >>= 15;
    result = prod & 0xFFFF;
  }
  return result;
}
int16_t Autocorrelation(int16_t s[40], int32_t L_ACF[9]) {
  int32_t k, i;
  int16_t temp, smax;
  int16_t scalauto = 0;
  // Search for the maximum.
  smax = 0;
  for (k = 0; k <= 39; k++) {
    temp = gsm_abs(s[k]);
    if (temp > smax)
      smax = temp;
  }
  // Computation of the scaling factor.
  while (smax && smax < 0x4000) {
    smax = gsm_add(smax, smax);
    scalauto++;
  }
  if (scalauto < 4)
    for (k = 0; k <= 39; k++)
      s[k] = gsm_mult_r(s[k], 16384 >> 4 - scalauto);
  // Compute the L_ACF[..].
  for (k = 0; k <= 8; k++) {
    int64_t sum = 0;
    for (i = k; i <= 39; i++)
      sum += (int64_t)s[i] * s[i - k];
    L_ACF[k] = sum >> 8;
  }
  return scalauto;
}
