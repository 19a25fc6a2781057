/* A low-pass filter in fixed point: each answer is a weighted sum of the new sample and the answer before. Numbers have
   15 bits behind the point. RV32I has no multiplication, so the program brings one of its own. */
enum { NEW_WEIGHT = 8192, OLD_WEIGHT = 24576, SAMPLES = 16 };

static const short samples[SAMPLES] = {
    0, 4000, 8000, 12000, 16000, 12000, 8000, 4000, 0, -4000, -8000, -12000, -16000, -12000, -8000, -4000,
};

volatile short answers[SAMPLES];

/* value * weight / 2^15, for a weight that isn't negative. */
__attribute__((noinline)) static int weighted(int value, unsigned weight)
{
    unsigned product = 0;
    for (unsigned shifted = value; weight != 0; weight >>= 1) {
        if (weight & 1)
            product += shifted;
        shifted <<= 1;
    }
    return (int)product >> 15;
}

int main(void)
{
    int answer = 0;
    for (int i = 0; i < SAMPLES; i++) {
        int fresh = weighted(samples[i], NEW_WEIGHT);
        answer = fresh + weighted(answer, OLD_WEIGHT);
        answers[i] = answer;
    }
    return 0;
}
