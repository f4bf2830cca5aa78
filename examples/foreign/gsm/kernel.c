/* Autocorrelation of GSM 06.10, with the saturating operations of the standard. */
typedef short word;
typedef long longword;

#define MIN_WORD ((-32767) - 1)
#define MAX_WORD (32767)

#define SASR(x, by) ((x) >> (by))

static word gsm_add(word a, word b)
{
    longword sum;
    sum = (longword)a + (longword)b;
    return sum < MIN_WORD ? MIN_WORD : sum > MAX_WORD ? MAX_WORD : sum;
}

static word gsm_abs(word a)
{
    return a < 0 ? (a == MIN_WORD ? MAX_WORD : -a) : a;
}

static word gsm_mult_r(word a, word b)
{
    longword prod;
    if (b == MIN_WORD && a == MIN_WORD)
        return MAX_WORD;
    else {
        prod = (longword)((longword)(a) * (longword)(b) + 16384);
        prod >>= 15;
        return (prod & 0xFFFF);
    }
}

word Autocorrelation(word s[40], int L_ACF[9])
{
    register int k, i;
    word temp, smax, scalauto = 0;

    /* Search for the maximum. */
    smax = 0;
    for (k = 0; k <= 39; k++) {
        temp = gsm_abs(s[k]);
        if (temp > smax)
            smax = temp;
    }

    /* Computation of the scaling factor. */
    while (smax && smax < 0x4000) {
        smax = gsm_add(smax, smax);
        scalauto++;
    }
    if (scalauto < 4)
        for (k = 0; k <= 39; k++)
            s[k] = gsm_mult_r(s[k], 16384 >> (4 - scalauto));

    /* Compute the L_ACF[..]. */
    for (k = 0; k <= 8; k++) {
        longword sum = 0;
        for (i = k; i <= 39; i++)
            sum += (longword)s[i] * s[i - k];
        L_ACF[k] = SASR(sum, 8);
    }
    return scalauto;
}
