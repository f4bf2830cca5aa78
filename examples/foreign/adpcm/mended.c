#include <stdint.h>
// IMA ADPCM decoder, one nibble a sample, after the usual reference code.
void adpcm_decoder(int8_t indata[8], int16_t outdata[16], int32_t len, int32_t stepsizeTable[89], int32_t index[1], int32_t indexTable[16], int32_t valprev[1]) {
  int32_t inp_at = 0;  // Input buffer pointer
  int32_t outp_at = 0;  // output buffer pointer
  int32_t sign, delta, step, vpdiff;
  int32_t inputbuffer = 0;
  int32_t bufferstep = 0;
  step = stepsizeTable[index[0]];
  for (; len > 0; len--) {
    // Step 1 - get the delta value
    if (bufferstep)
      delta = inputbuffer & 0xf;
    else {
      inputbuffer = indata[inp_at];
      inp_at++;
      delta = inputbuffer >> 4 & 0xf;
    }
    bufferstep = !bufferstep;
    // Step 2 - Find new index value (for later)
    index[0] += indexTable[delta];
    if (index[0] < 0)
      index[0] = 0;
    if (index[0] > 88)
      index[0] = 88;
    // Step 3 - Separate sign and magnitude
    sign = delta & 8;
    delta = delta & 7;
    // Step 4 - Compute difference and new predicted value
    vpdiff = step >> 3;
    if (delta & 4)
      vpdiff += step;
    if (delta & 2)
      vpdiff += step >> 1;
    if (delta & 1)
      vpdiff += step >> 2;
    if (sign)
      valprev[0] -= vpdiff;
    else
      valprev[0] += vpdiff;
    // Step 5 - clamp output value
    if (valprev[0] > 32767)
      valprev[0] = 32767;
    else if (valprev[0] < -32768)
      valprev[0] = -32768;
    // Step 6 - Update step value
    step = stepsizeTable[index[0]];
    // Step 7 - Output value
    outdata[outp_at] = valprev[0];
    outp_at++;
  }
}
