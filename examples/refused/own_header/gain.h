#define GAIN 12
