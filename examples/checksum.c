/* A CRC-32 over a short message, four bits at a time by a table of 16 numbers. */
typedef unsigned int Word;
typedef unsigned char Byte;

static const Word table[16] = {
    0x00000000, 0x1db71064, 0x3b6e20c8, 0x26d930ac, 0x76dc4190, 0x6b6b51f4, 0x4db26158, 0x5005713c,
    0xedb88320, 0xf00f9344, 0xd6d6a3e8, 0xcb61b38c, 0x9b64c2b0, 0x86d3d2d4, 0xa00ae278, 0xbdbdf21c,
};

static const Byte message[9] = {'1', '2', '3', '4', '5', '6', '7', '8', '9'};

volatile Word result;

__attribute__((noinline)) static Word add_byte(Word sum, Byte byte)
{
    sum ^= byte;
    sum = (sum >> 4) ^ table[sum & 15];
    return (sum >> 4) ^ table[sum & 15];
}

/* 0 where the message has the checksum that is known of it, else 1. */
int main(void)
{
    Word sum = 0xffffffff;
    for (int i = 0; i < 9; i++)
        sum = add_byte(sum, message[i]);
    result = ~sum;
    return result == 0xcbf43926 ? 0 : 1;
}
