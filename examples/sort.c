/* An insertion sort of twelve records by key, and a test that they are in order. */
enum { COUNT = 12 };

typedef struct {
    int key;
    int place;
} Record;

static Record records[COUNT] = {
    {31, 0}, {-4, 1}, {15, 2}, {92, 3}, {65, 4}, {-35, 5}, {89, 6}, {79, 7}, {-32, 8}, {38, 9}, {46, 10}, {26, 11},
};

/* Whether the first belongs behind the second: a greater key, or the same key from a later place. */
__attribute__((noinline)) static int is_behind(const Record *first, const Record *second)
{
    if (first->key != second->key)
        return first->key > second->key;
    return first->place > second->place;
}

__attribute__((noinline)) static void insert(int place)
{
    while (place > 0 && is_behind(&records[place - 1], &records[place])) {
        Record moved = records[place];
        records[place] = records[place - 1];
        records[place - 1] = moved;
        place--;
    }
}

/* 0 where the records are in order in the end, else 1. */
int main(void)
{
    for (int i = 1; i < COUNT; i++)
        insert(i);
    for (int i = 1; i < COUNT; i++)
        if (is_behind(&records[i - 1], &records[i]))
            return 1;
    return 0;
}
